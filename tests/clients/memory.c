/* Memory: of each call the first allocation is refused, then the second, and so on until none was; by itself, and with
 * all after it. And none is made to judge a row of a kind seen before.
 *
 * It is linked with -Wl,--wrap=malloc,--wrap=realloc, so that the library's calls come here first. */
#include "checks.h"

void *__real_malloc(size_t size);
void *__real_realloc(void *at, size_t size);
void *__wrap_malloc(size_t size);
void *__wrap_realloc(void *at, size_t size);

static unsigned long asked, refused_one;
static int is_watched, and_on;

static int is_refused(void)
{
    if (!is_watched)
        return 0;
    asked++;
    return and_on ? asked >= refused_one : asked == refused_one;
}

void *__wrap_malloc(size_t size)
{
    return is_refused() ? NULL : __real_malloc(size);
}

void *__wrap_realloc(void *at, size_t size)
{
    return is_refused() ? NULL : __real_realloc(at, size);
}

static odfilter_handle *schema, *type, *filter, *judge, *own, *conditions, *made;
static odfilter_bytes document, name, text, query, rows, row;
static odfilter_buffer room, names;
static odfilter_answer answer;

static uint32_t call_read_schema(void)
{
    return odfilter_read_schema(document, names, &made, &answer);
}

static uint32_t call_find_type(void)
{
    return odfilter_find_type(schema, name, &made);
}

static uint32_t call_check(void)
{
    return odfilter_check(type, text, &made, &answer);
}

static uint32_t call_check_query(void)
{
    return odfilter_check_query(type, query, &made, &answer);
}

static uint32_t call_canonical(void)
{
    return odfilter_canonical(filter, room, &answer);
}

static uint32_t call_explain(void)
{
    return odfilter_explain(filter, room, &answer);
}

static uint32_t call_types(void)
{
    return odfilter_types(schema, room, &answer);
}

/* where the filter was found before memory ran out, it is reported */
static uint32_t call_check_url(void)
{
    static const odfilter_answer nothing;
    uint32_t status = odfilter_check_url(type, query, room, &made, &answer);
    if (status == ODFILTER_MEMORY && answer.length) {
        check("the filter that was found", answer.value_start == 8 && answer.value_stop == query.length);
        answer = nothing;
    }
    return status;
}

static uint32_t call_property_paths(void)
{
    return odfilter_property_paths(filter, room, &answer);
}

static uint32_t call_sql(void)
{
    static const odfilter_bytes none = {NULL, 0};
    return odfilter_sql(filter, ODFILTER_SQLITE_COLUMNS, none, room, &answer);
}

static uint32_t call_new_sql(void)
{
    static const odfilter_bytes none = {NULL, 0};
    return odfilter_new_sql(filter, ODFILTER_SQLITE_COLUMNS, none, &made, &answer);
}

static uint32_t call_sql_value(void)
{
    uint32_t status = odfilter_sql_value(conditions, ODFILTER_SQL_KEEP, 0, room, &answer);
    check("a value is the right one", status != ODFILTER_OK || (answer.length == 1 && room.at[0] == 'a'));
    return status;
}

static uint32_t call_fault_text(void)
{
    odfilter_answer fault = {0};
    fault.fault = ODFILTER_TYPE_UNKNOWN_PROPERTY;
    fault.stop = 3;
    return odfilter_fault_text(type, ODFILTER_TYPE_FAULT, text, room, &fault, &answer);
}

static uint32_t call_fault_json(void)
{
    odfilter_answer fault = {0};
    fault.fault = ODFILTER_TYPE_UNKNOWN_PROPERTY;
    fault.stop = 3;
    return odfilter_fault_json(type, ODFILTER_TYPE_FAULT, text, room, &fault, &answer);
}

static uint32_t call_new_judge(void)
{
    return odfilter_new_judge(&made);
}

static uint32_t call_new_judge_of(void)
{
    return odfilter_new_judge_of(filter, &made);
}

/* judges that have seen no row, so that they have no memory of their own yet */
static void renew_judges(void)
{
    is_watched = 0;
    odfilter_free(&judge);
    odfilter_free(&own);
    judge = new_judge();
    own = new_judge_of(filter);
    is_watched = 1;
}

static uint32_t call_judge(void)
{
    uint32_t status;
    renew_judges();
    status = odfilter_judge(filter, judge, row, &answer);
    check("a verdict is the right one", status != ODFILTER_OK || answer.verdict == ODFILTER_TRUE);
    return status;
}

static uint32_t judge_next(void)
{
    uint32_t status = odfilter_judge_next(own, row, &answer);
    check("a verdict by the filter's judge is the right one", status != ODFILTER_OK || answer.verdict == ODFILTER_TRUE);
    return status;
}

/* the first row of a judge of the filter, and the second, after an allocation for the first failed or not */
static uint32_t call_judge_first(void)
{
    renew_judges();
    return judge_next();
}

static uint32_t call_judge_second(void)
{
    uint32_t first;
    renew_judges();
    first = judge_next();
    return first == ODFILTER_OK ? judge_next() : first;
}

static uint32_t call_filter_lines(void)
{
    uint32_t status;
    renew_judges();
    status = odfilter_filter_lines(filter, judge, rows, room, &answer);
    check("kept lines are the right ones", status != ODFILTER_OK || (answer.rows == 2 && answer.kept == 1));
    return status;
}

/* whether what a call made does what it should */
static int is_schema(void)
{
    odfilter_handle *found = NULL;
    return odfilter_find_type(made, name, &found) == ODFILTER_OK && odfilter_free(&found) == ODFILTER_OK;
}

static int is_type(void)
{
    odfilter_handle *checked = NULL;
    return odfilter_check(made, text, &checked, &answer) == ODFILTER_OK && odfilter_free(&checked) == ODFILTER_OK;
}

static int is_filter(void)
{
    return is_kept(made, judge, ROW) && !is_kept(made, judge, OTHER_ROW);
}

static int is_judge(void)
{
    return is_kept(filter, made, ROW) && !is_kept(filter, made, OTHER_ROW);
}

static int is_own_judge(void)
{
    return is_next_kept(made, ROW) && !is_next_kept(made, OTHER_ROW) && is_judge();
}

static int are_conditions(void)
{
    return odfilter_sql_text(made, ODFILTER_SQL_KEEP, room, &answer) == ODFILTER_OK && answer.number > 0;
}

/* a call of which one allocation is refused, if it asks for so many: what it makes is whole or not there */
static uint32_t refuse_one(const char *call_name, uint32_t (*call)(void), int (*is_whole)(void))
{
    static const odfilter_answer nothing;
    uint32_t status;
    made = schema;
    answer = unwritten();
    asked = 0;
    is_watched = 1;
    status = call();
    is_watched = 0;
    check(call_name, status == ODFILTER_OK || is_answer(answer, nothing) || is_answer(answer, unwritten()));
    check(call_name, status == ODFILTER_OK || (status == ODFILTER_MEMORY && asked >= refused_one));
    check(call_name, !is_whole || (status == ODFILTER_OK ? is_whole() : !made));
    check(call_name, !is_whole || odfilter_free(&made) == (status == ODFILTER_OK ? ODFILTER_OK : ODFILTER_NULL));
    check("the filter is as it was", is_kept(filter, judge, ROW));
    made = schema;
    check("the schema is as it was", is_schema());
    return status;
}

/* refuses one allocation after another until none was, and reports how often that was reported */
static unsigned long refuse_in_turn(const char *call_name, uint32_t (*call)(void), int (*is_whole)(void))
{
    unsigned long reported = 0;
    refused_one = 0;
    do {
        refused_one++;
        reported += refuse_one(call_name, call, is_whole) == ODFILTER_MEMORY;
    } while (asked >= refused_one && refused_one < 100000);
    check(call_name, refused_one < 100000);
    return reported;
}

/* without one allocation a call may do its work by another way, but not without all */
static void refuse_each(const char *call_name, uint32_t (*call)(void), int (*is_whole)(void))
{
    and_on = 0;
    refuse_in_turn(call_name, call, is_whole);
    and_on = 1;
    check(call_name, refuse_in_turn(call_name, call, is_whole) > 0);
}

static uint32_t by_any_judge(odfilter_bytes json)
{
    return odfilter_judge(filter, judge, json, &answer);
}

static uint32_t by_own_judge(odfilter_bytes json)
{
    return odfilter_judge_next(own, json, &answer);
}

/* how many allocations it takes to judge a row */
static unsigned long taken_by(uint32_t (*call)(odfilter_bytes), const char *json)
{
    odfilter_bytes bytes = bytes_of(json);
    asked = refused_one = 0;
    is_watched = 1;
    check("a row is judged", call(bytes) == ODFILTER_OK);
    is_watched = 0;
    drop(bytes);
    return asked;
}

static void rows_seen_before(const char *by, uint32_t (*call)(odfilter_bytes))
{
    unsigned long first = 0, later = 0;
    int times;
    for (times = 0; times < 4; times++)
        first += taken_by(call, times % 2 ? ROW : OTHER_ROW);
    for (times = 0; times < 1000; times++)
        later += taken_by(call, times % 2 ? ROW : OTHER_ROW);
    check("the first rows take memory, or this counts nothing", first != 0);
    check("a row of a kind seen before takes none", later == 0);
    printf("by %s the first four rows take %lu allocations, 1,000 later ones %lu\n", by, first, later);
}

static void take_handles(void)
{
    document = bytes_of(DOCUMENT);
    name = bytes_of("Mini.Item");
    text = bytes_of("Active and concat(Name,'b') eq 'ab' and Part/Size in (5,6) or ID lt 1");
    query = bytes_of("$filter=Active%20and%20contains(Name,%27a%27)%20and%20ID%20eq%201");
    rows = bytes_of(ROW "\n" OTHER_ROW);
    row = bytes_of(ROW);
    room.length = 4096;
    room.at = block(room.length);
    names.length = 64;
    names.at = block(names.length);
    schema = schema_of(DOCUMENT);
    type = type_of(schema, "Mini.Item");
    filter = filter_of(type, "Active and contains(Name,'a') and ID eq 1");
    judge = new_judge();
    own = new_judge_of(filter);
    conditions = conditions_of(filter);
}

int main(void)
{
    take_handles();
    rows_seen_before("any judge", by_any_judge);
    rows_seen_before("the filter's judge", by_own_judge);
    refuse_each("read_schema", call_read_schema, is_schema);
    refuse_each("find_type", call_find_type, is_type);
    refuse_each("check", call_check, is_filter);
    refuse_each("check_query", call_check_query, is_filter);
    refuse_each("check_url", call_check_url, is_filter);
    refuse_each("property_paths", call_property_paths, NULL);
    refuse_each("sql", call_sql, NULL);
    refuse_each("new_sql", call_new_sql, are_conditions);
    refuse_each("sql_value", call_sql_value, NULL);
    refuse_each("fault_text", call_fault_text, NULL);
    refuse_each("fault_json", call_fault_json, NULL);
    refuse_each("canonical", call_canonical, NULL);
    refuse_each("types", call_types, NULL);
    refuse_each("explain", call_explain, NULL);
    refuse_each("new_judge", call_new_judge, is_judge);
    refuse_each("new_judge_of", call_new_judge_of, is_own_judge);
    refuse_each("judge", call_judge, NULL);
    refuse_each("judge_next", call_judge_first, NULL);
    refuse_each("judge_next, again", call_judge_second, NULL);
    refuse_each("filter_lines", call_filter_lines, NULL);
    odfilter_free(&schema);
    odfilter_free(&type);
    odfilter_free(&filter);
    odfilter_free(&judge);
    odfilter_free(&own);
    odfilter_free(&conditions);
    drop(document);
    drop(name);
    drop(text);
    drop(query);
    drop(rows);
    drop(row);
    free(room.at);
    free(names.at);
    return end();
}
