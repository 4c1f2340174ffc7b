/* Handles are freed in every order, and after each one that is freed all that is left is used. */
#include "checks.h"

enum kind { SCHEMA, TYPE, FILTER_KIND, JUDGE, OWN_JUDGE, KINDS };

static void use_type(const odfilter_handle *type)
{
    odfilter_handle *filter = filter_of(type, "contains(Name,'a') and Part/Size lt 6"), *judge = new_judge();
    check("a filter of a type whose schema may be gone", is_kept(filter, judge, ROW));
    check("the filter is freed", odfilter_free(&filter) == ODFILTER_OK && !filter);
    check("the judge is freed", odfilter_free(&judge) == ODFILTER_OK && !judge);
}

static void use_filter(const odfilter_handle *filter)
{
    char text[32];
    odfilter_buffer room = {text, sizeof text};
    odfilter_answer answer;
    check("the canonical text of a filter whose type may be gone",
          odfilter_canonical(filter, room, &answer) == ODFILTER_OK);
    check("it is the same", answer.length == strlen(FILTER) && !memcmp(text, FILTER, answer.length));
}

static void use(odfilter_handle *const *handles)
{
    odfilter_handle *type;
    if (handles[SCHEMA]) {
        type = type_of(handles[SCHEMA], "Mini.Item");
        check("a type is freed", odfilter_free(&type) == ODFILTER_OK);
    }
    if (handles[TYPE])
        use_type(handles[TYPE]);
    if (handles[FILTER_KIND])
        use_filter(handles[FILTER_KIND]);
    if (handles[FILTER_KIND] && handles[JUDGE]) {
        check("a row is kept", is_kept(handles[FILTER_KIND], handles[JUDGE], ROW));
        check("a row is not kept", !is_kept(handles[FILTER_KIND], handles[JUDGE], OTHER_ROW));
    }
    if (handles[OWN_JUDGE]) {
        check("a row is kept by a judge whose filter may be gone", is_next_kept(handles[OWN_JUDGE], ROW));
        check("a row is not kept by it", !is_next_kept(handles[OWN_JUDGE], OTHER_ROW));
    }
    if (handles[FILTER_KIND] && handles[OWN_JUDGE])
        check("it judges as any judge", is_kept(handles[FILTER_KIND], handles[OWN_JUDGE], ROW));
}

static void free_in_order(const int *order)
{
    odfilter_handle *handles[KINDS];
    int number;
    handles[SCHEMA] = schema_of(DOCUMENT);
    handles[TYPE] = type_of(handles[SCHEMA], "Mini.Item");
    handles[FILTER_KIND] = filter_of(handles[TYPE], FILTER);
    handles[JUDGE] = new_judge();
    handles[OWN_JUDGE] = new_judge_of(handles[FILTER_KIND]);
    use(handles);
    for (number = 0; number < KINDS; number++) {
        odfilter_handle **handle = &handles[order[number]];
        check("a handle is freed", odfilter_free(handle) == ODFILTER_OK && !*handle);
        check("it was freed is reported", odfilter_free(handle) == ODFILTER_NULL && !*handle);
        use(handles);
    }
}

/* one judge for filters of two schemas, in turn */
static void one_judge(void)
{
    odfilter_handle *first = schema_of(DOCUMENT),
                    *second = schema_of("{\"$Version\":\"4.0\",\"Mini\":{\"Item\":{\"$Kind\":"
                                        "\"EntityType\",\"Name\":{\"$Nullable\":true}}}}");
    odfilter_handle *types[2] = {type_of(first, "Mini.Item"), type_of(second, "Mini.Item")}, *judge = new_judge();
    odfilter_handle *filters[2] = {filter_of(types[0], FILTER), filter_of(types[1], "Name eq null")};
    int times;
    for (times = 0; times < 3; times++) {
        check("a row of the first", is_kept(filters[0], judge, ROW));
        check("a row of the second", is_kept(filters[1], judge, "{}"));
        check("the same row is no row of the first", !is_kept(filters[0], judge, "{}"));
    }
    odfilter_free(&first);
    odfilter_free(&types[0]);
    odfilter_free(&filters[0]);
    check("a row of the second, without the first", is_kept(filters[1], judge, "{\"Name\":null}"));
    odfilter_free(&judge);
    odfilter_free(&filters[1]);
    odfilter_free(&types[1]);
    odfilter_free(&second);
}

/* each handle's share outlives the handle, and the other way round */
static void shared(int frees_share_first)
{
    odfilter_handle *handles[KINDS] = {NULL}, *shares[KINDS] = {NULL}, *judge = new_judge(), *none = judge;
    int kind;
    handles[SCHEMA] = schema_of(DOCUMENT);
    handles[TYPE] = type_of(handles[SCHEMA], "Mini.Item");
    handles[FILTER_KIND] = filter_of(handles[TYPE], FILTER);
    for (kind = SCHEMA; kind <= FILTER_KIND; kind++)
        check("a share is made", odfilter_share(handles[kind], &shares[kind]) == ODFILTER_OK && shares[kind]);
    check("a judge has one owner", odfilter_share(judge, &none) == ODFILTER_OTHER_KIND && !none);
    for (kind = SCHEMA; kind <= FILTER_KIND; kind++)
        odfilter_free(frees_share_first ? &shares[kind] : &handles[kind]);
    use(frees_share_first ? handles : shares);
    check("a row is kept by a filter that was shared",
          is_kept(frees_share_first ? handles[FILTER_KIND] : shares[FILTER_KIND], judge, ROW));
    for (kind = SCHEMA; kind <= FILTER_KIND; kind++)
        odfilter_free(frees_share_first ? &handles[kind] : &shares[kind]);
    odfilter_free(&judge);
}

static int are_read(const odfilter_handle *conditions)
{
    char text[64];
    odfilter_buffer room = {text, sizeof text};
    odfilter_answer answer;
    return odfilter_sql_value(conditions, ODFILTER_SQL_KEEP, 0, room, &answer) == ODFILTER_OK && answer.number == 1;
}

/* conditions outlive their filter, and the filter its conditions; they have one owner */
static void with_conditions(int frees_conditions_first)
{
    odfilter_handle *schema = schema_of(DOCUMENT), *type = type_of(schema, "Mini.Item"), *filter = filter_of(type, FILTER);
    odfilter_handle *conditions = conditions_of(filter), *none = conditions;
    check("conditions have one owner", odfilter_share(conditions, &none) == ODFILTER_OTHER_KIND && !none);
    odfilter_free(&schema);
    odfilter_free(&type);
    check("conditions are freed, or their filter",
          odfilter_free(frees_conditions_first ? &conditions : &filter) == ODFILTER_OK);
    if (conditions)
        check("conditions of a filter that is gone", are_read(conditions));
    else
        use_filter(filter);
    odfilter_free(frees_conditions_first ? &filter : &conditions);
}

/* whether it is an order of all kinds: each stands in it */
static int is_order(const int *order)
{
    int places[KINDS] = {0}, number, count = 0;
    for (number = 0; number < KINDS; number++)
        places[order[number]] = 1;
    for (number = 0; number < KINDS; number++)
        count += places[number];
    return count == KINDS;
}

int main(void)
{
    int order[KINDS], all = 1, number, rest, place;
    for (place = 0; place < KINDS; place++)
        all *= KINDS;
    for (number = 0; number < all; number++) {
        for (place = 0, rest = number; place < KINDS; place++, rest /= KINDS)
            order[place] = rest % KINDS;
        if (is_order(order))
            free_in_order(order);
    }
    one_judge();
    shared(0);
    shared(1);
    with_conditions(0);
    with_conditions(1);
    return end();
}
