/* What each call answers to arguments that it cannot take: no address, no bytes, no UTF-8, another kind of handle, a
 * number of nothing. The handles that it was given are as they were. */
#include "checks.h"

static const odfilter_answer nothing;
static const odfilter_bytes no_bytes = {NULL, 0}, no_bytes_of_length = {NULL, 5};
static const odfilter_buffer no_room = {NULL, 0}, no_room_of_length = {NULL, 64};

/* a handle of each kind, in this order */
enum kind { SCHEMA, TYPE, FILTER_KIND, JUDGE, CONDITIONS, KINDS };
static odfilter_handle *handles[KINDS];
static char names[512];
static const odfilter_buffer room = {names, sizeof names}, shut = {names, 0};
static odfilter_answer answer;

/* a variable that held another handle: it is overwritten, and the handle is not freed */
static odfilter_handle **place(void)
{
    static odfilter_handle *at;
    at = handles[TYPE];
    answer = unwritten();
    return &at;
}

static odfilter_answer *fresh(void)
{
    answer = unwritten();
    return &answer;
}

/* then nothing is written: neither the answer nor the variable of a handle */
static void is_null(const char *name, uint32_t status, int has_answer, odfilter_handle *const *at)
{
    check(name, status == ODFILTER_NULL);
    check(name, !has_answer || is_answer(answer, unwritten()));
    check(name, !at || *at == handles[TYPE]);
}

/* a buffer at no address asks for the length, as one of no length does at any other */
static void asks_for_length(const char *name, uint32_t at_null, uint32_t at_address, odfilter_answer wanted)
{
    check(name, at_null == at_address && is_answer(answer, wanted));
}

static void nulls_that_make_handles(void)
{
    odfilter_bytes document = bytes_of(DOCUMENT), name = bytes_of("Mini.Item"), text = bytes_of(FILTER);
    odfilter_handle **at = place();
    is_null("read_schema: no document of a length", odfilter_read_schema(no_bytes_of_length, room, at, fresh()), 1, at);
    at = place();
    is_null("read_schema: no buffer of a length", odfilter_read_schema(document, no_room_of_length, at, fresh()), 1, at);
    at = place();
    is_null("read_schema: neither a document of a length nor a buffer",
            odfilter_read_schema(no_bytes_of_length, no_room, at, fresh()), 1, at);
    is_null("read_schema: no handle variable", odfilter_read_schema(document, room, NULL, fresh()), 1, NULL);
    at = place();
    is_null("read_schema: no answer", odfilter_read_schema(document, room, at, NULL), 0, at);
    at = place();
    is_null("find_type: no schema", odfilter_find_type(NULL, name, at), 0, at);
    at = place();
    is_null("find_type: no name", odfilter_find_type(handles[SCHEMA], no_bytes_of_length, at), 0, at);
    is_null("find_type: no handle variable", odfilter_find_type(handles[SCHEMA], name, NULL), 0, NULL);
    is_null("new_judge: no handle variable", odfilter_new_judge(NULL), 0, NULL);
    at = place();
    is_null("new_judge_of: no filter", odfilter_new_judge_of(NULL, at), 0, at);
    is_null("new_judge_of: no handle variable", odfilter_new_judge_of(handles[FILTER_KIND], NULL), 0, NULL);
    at = place();
    is_null("new_sql: no filter", odfilter_new_sql(NULL, 0, no_bytes, at, fresh()), 1, at);
    at = place();
    is_null("new_sql: no lines of a length",
            odfilter_new_sql(handles[FILTER_KIND], 0, no_bytes_of_length, at, fresh()), 1, at);
    is_null("new_sql: no handle variable", odfilter_new_sql(handles[FILTER_KIND], 0, no_bytes, NULL, fresh()), 1, NULL);
    at = place();
    is_null("new_sql: no answer", odfilter_new_sql(handles[FILTER_KIND], 0, no_bytes, at, NULL), 0, at);
    drop(document);
    drop(name);
    drop(text);
}

static void nulls_of_checks(void)
{
    odfilter_bytes text = bytes_of("filter=true");
    uint32_t (*const calls[])(const odfilter_handle *, odfilter_bytes, odfilter_handle **,
                              odfilter_answer *) = {odfilter_check, odfilter_check_query};
    odfilter_handle **at;
    size_t number;
    for (number = 0; number < 2; number++) {
        at = place();
        is_null("check: no type", calls[number](NULL, text, at, fresh()), 1, at);
        at = place();
        is_null("check: no text of a length", calls[number](handles[TYPE], no_bytes_of_length, at, fresh()), 1, at);
        is_null("check: no handle variable", calls[number](handles[TYPE], text, NULL, fresh()), 1, NULL);
        at = place();
        is_null("check: no answer", calls[number](handles[TYPE], text, at, NULL), 0, at);
    }
    drop(text);
}

static void nulls_of_texts(void)
{
    uint32_t (*const calls[])(const odfilter_handle *, odfilter_buffer,
                              odfilter_answer *) = {odfilter_canonical, odfilter_explain, odfilter_path,
                                                    odfilter_property_paths, odfilter_types};
    static const int kinds[] = {FILTER_KIND, FILTER_KIND, JUDGE, FILTER_KIND, SCHEMA};
    odfilter_answer wanted;
    uint32_t status;
    size_t number;
    for (number = 0; number < 5; number++) {
        odfilter_handle *handle = handles[kinds[number]];
        status = calls[number](handle, shut, &wanted);
        asks_for_length("text: no buffer", calls[number](handle, no_room, fresh()), status, wanted);
        is_null("text: no handle", calls[number](NULL, room, fresh()), 1, NULL);
        is_null("text: no buffer of a length", calls[number](handle, no_room_of_length, fresh()), 1, NULL);
        is_null("text: no answer", calls[number](handle, room, NULL), 0, NULL);
    }
    is_null("sql: no filter", odfilter_sql(NULL, 0, no_bytes, room, fresh()), 1, NULL);
    is_null("sql: no lines of a length", odfilter_sql(handles[FILTER_KIND], 0, no_bytes_of_length, room, fresh()), 1, NULL);
    is_null("sql: no buffer of a length", odfilter_sql(handles[FILTER_KIND], 0, no_bytes, no_room_of_length, fresh()), 1,
            NULL);
    status = odfilter_sql(handles[FILTER_KIND], 0, no_bytes, shut, &wanted);
    check("sql: the length of conditions", status == ODFILTER_TOO_SMALL && wanted.length > 0);
    asks_for_length("sql: no buffer", odfilter_sql(handles[FILTER_KIND], 0, no_bytes, no_room, fresh()), status, wanted);
    is_null("sql: neither lines of a length nor a buffer",
            odfilter_sql(handles[FILTER_KIND], 0, no_bytes_of_length, no_room, fresh()), 1, NULL);
    is_null("sql: no answer", odfilter_sql(handles[FILTER_KIND], 0, no_bytes, room, NULL), 0, NULL);
    is_null("sql_text: no conditions", odfilter_sql_text(NULL, 0, room, fresh()), 1, NULL);
    is_null("sql_text: no buffer of a length", odfilter_sql_text(handles[CONDITIONS], 0, no_room_of_length, fresh()), 1,
            NULL);
    status = odfilter_sql_text(handles[CONDITIONS], 0, shut, &wanted);
    check("sql_text: the length of a text", status == ODFILTER_TOO_SMALL && wanted.length > 0);
    asks_for_length("sql_text: no buffer", odfilter_sql_text(handles[CONDITIONS], 0, no_room, fresh()), status, wanted);
    is_null("sql_text: no answer", odfilter_sql_text(handles[CONDITIONS], 0, room, NULL), 0, NULL);
    is_null("sql_value: no conditions", odfilter_sql_value(NULL, 0, 0, room, fresh()), 1, NULL);
    is_null("sql_value: no buffer of a length",
            odfilter_sql_value(handles[CONDITIONS], 0, 0, no_room_of_length, fresh()), 1, NULL);
    status = odfilter_sql_value(handles[CONDITIONS], 0, 0, shut, &wanted);
    check("sql_value: the length of a value", status == ODFILTER_TOO_SMALL && wanted.length > 0);
    asks_for_length("sql_value: no buffer", odfilter_sql_value(handles[CONDITIONS], 0, 0, no_room, fresh()), status,
                    wanted);
    is_null("sql_value: no answer", odfilter_sql_value(handles[CONDITIONS], 0, 0, room, NULL), 0, NULL);
    is_null("version: no buffer of a length", odfilter_version(no_room_of_length, fresh()), 1, NULL);
    status = odfilter_version(shut, &wanted);
    asks_for_length("version: no buffer", odfilter_version(no_room, fresh()), status, wanted);
    is_null("version: no answer", odfilter_version(room, NULL), 0, NULL);
    is_null("status_name: no buffer of a length", odfilter_status_name(1, no_room_of_length, fresh()), 1, NULL);
    status = odfilter_status_name(1, shut, &wanted);
    asks_for_length("status_name: no buffer", odfilter_status_name(1, no_room, fresh()), status, wanted);
    is_null("status_name: no answer", odfilter_status_name(1, room, NULL), 0, NULL);
    is_null("fault_name: no buffer of a length",
            odfilter_fault_name(ODFILTER_EVAL_FAULT, 1, no_room_of_length, fresh()), 1, NULL);
    status = odfilter_fault_name(ODFILTER_EVAL_FAULT, 1, shut, &wanted);
    asks_for_length("fault_name: no buffer", odfilter_fault_name(ODFILTER_EVAL_FAULT, 1, no_room, fresh()), status,
                    wanted);
    is_null("fault_name: no answer", odfilter_fault_name(ODFILTER_EVAL_FAULT, 1, room, NULL), 0, NULL);
    is_null("node_count: no filter", odfilter_node_count(NULL, fresh()), 1, NULL);
    is_null("node_count: no answer", odfilter_node_count(handles[FILTER_KIND], NULL), 0, NULL);
    is_null("lambda_depth: no filter", odfilter_lambda_depth(NULL, fresh()), 1, NULL);
    is_null("lambda_depth: no answer", odfilter_lambda_depth(handles[FILTER_KIND], NULL), 0, NULL);
    is_null("needs_moment: no filter", odfilter_needs_moment(NULL, fresh()), 1, NULL);
    is_null("needs_moment: no answer", odfilter_needs_moment(handles[FILTER_KIND], NULL), 0, NULL);
}

typedef uint32_t fault_call(const odfilter_handle *, uint32_t, odfilter_bytes, odfilter_buffer, const odfilter_answer *,
                            odfilter_answer *);

/* with a type and without, with a text and with an empty one at no address */
static void nulls_of_faults(fault_call *call, odfilter_bytes text)
{
    odfilter_answer fault = {0}, wanted;
    int number;
    fault.fault = ODFILTER_SYNTAX_UNEXPECTED;
    for (number = 0; number < 4; number++) {
        odfilter_handle *of_type = number & 1 ? handles[TYPE] : NULL;
        odfilter_bytes about = number & 2 ? text : no_bytes;
        uint32_t status = call(of_type, ODFILTER_SYNTAX_FAULT, about, shut, &fault, &wanted);
        check("the length of what is said", status == ODFILTER_TOO_SMALL && wanted.length > 0);
        status = call(of_type, ODFILTER_SYNTAX_FAULT, about, no_room, &fault, fresh());
        asks_for_length("a fault: no buffer", status, ODFILTER_TOO_SMALL, wanted);
        status = call(of_type, ODFILTER_SYNTAX_FAULT, about, no_room_of_length, &fault, fresh());
        is_null("a fault: no buffer of a length", status, 1, NULL);
        status = call(of_type, ODFILTER_SYNTAX_FAULT, no_bytes_of_length, no_room, &fault, fresh());
        is_null("a fault: neither text of a length nor buffer", status, 1, NULL);
    }
}

static void nulls_of_urls(void)
{
    odfilter_bytes query = bytes_of("$filter=true");
    odfilter_answer fault = {0};
    odfilter_handle **at = place();
    is_null("check_url: no type", odfilter_check_url(NULL, query, room, at, fresh()), 1, at);
    at = place();
    is_null("check_url: no query of a length", odfilter_check_url(handles[TYPE], no_bytes_of_length, room, at, fresh()),
            1, at);
    at = place();
    is_null("check_url: no buffer of a length", odfilter_check_url(handles[TYPE], query, no_room_of_length, at, fresh()),
            1, at);
    at = place();
    is_null("check_url: neither a query of a length nor a buffer",
            odfilter_check_url(handles[TYPE], no_bytes_of_length, no_room, at, fresh()), 1, at);
    is_null("check_url: no handle variable", odfilter_check_url(handles[TYPE], query, room, NULL, fresh()), 1, NULL);
    at = place();
    is_null("check_url: no answer", odfilter_check_url(handles[TYPE], query, room, at, NULL), 0, at);
    is_null("fault_text: no fault", odfilter_fault_text(handles[TYPE], 19, query, room, NULL, fresh()), 1, NULL);
    is_null("fault_text: no text of a length",
            odfilter_fault_text(handles[TYPE], 19, no_bytes_of_length, room, &fault, fresh()), 1, NULL);
    is_null("fault_text: no text of a length, no type",
            odfilter_fault_text(NULL, 19, no_bytes_of_length, room, &fault, fresh()), 1, NULL);
    nulls_of_faults(odfilter_fault_text, query);
    is_null("fault_text: no answer", odfilter_fault_text(NULL, 19, query, room, &fault, NULL), 0, NULL);
    is_null("fault_json: no fault", odfilter_fault_json(handles[TYPE], 19, query, room, NULL, fresh()), 1, NULL);
    is_null("fault_json: no text of a length",
            odfilter_fault_json(handles[TYPE], 19, no_bytes_of_length, room, &fault, fresh()), 1, NULL);
    is_null("fault_json: no text of a length, no type",
            odfilter_fault_json(NULL, 19, no_bytes_of_length, room, &fault, fresh()), 1, NULL);
    nulls_of_faults(odfilter_fault_json, query);
    is_null("fault_json: no answer", odfilter_fault_json(NULL, 19, query, room, &fault, NULL), 0, NULL);
    drop(query);
}

static void nulls_of_rows(void)
{
    odfilter_bytes row = bytes_of(ROW);
    odfilter_handle *filter = handles[FILTER_KIND], *judge = handles[JUDGE], *own = new_judge_of(filter);
    odfilter_buffer kept = {block(row.length + 1), row.length + 1};
    is_null("judge: no filter", odfilter_judge(NULL, judge, row, fresh()), 1, NULL);
    is_null("judge: no judge", odfilter_judge(filter, NULL, row, fresh()), 1, NULL);
    is_null("judge: no row", odfilter_judge(filter, judge, no_bytes_of_length, fresh()), 1, NULL);
    is_null("judge: no row of a length", odfilter_judge(filter, judge, no_bytes_of_length, fresh()), 1, NULL);
    is_null("judge: no answer", odfilter_judge(filter, judge, row, NULL), 0, NULL);
    is_null("judge_next: no judge", odfilter_judge_next(NULL, row, fresh()), 1, NULL);
    is_null("judge_next: no row of a length", odfilter_judge_next(own, no_bytes_of_length, fresh()), 1, NULL);
    is_null("judge_next: no answer", odfilter_judge_next(own, row, NULL), 0, NULL);
    is_null("filter_lines: no filter", odfilter_filter_lines(NULL, judge, row, kept, fresh()), 1, NULL);
    is_null("filter_lines: no judge", odfilter_filter_lines(filter, NULL, row, kept, fresh()), 1, NULL);
    is_null("filter_lines: no rows", odfilter_filter_lines(filter, judge, no_bytes_of_length, kept, fresh()), 1, NULL);
    is_null("filter_lines: no buffer", odfilter_filter_lines(filter, judge, row, no_room_of_length, fresh()), 1, NULL);
    is_null("filter_lines: neither rows of a length nor a buffer",
            odfilter_filter_lines(filter, judge, no_bytes_of_length, no_room, fresh()), 1, NULL);
    is_null("filter_lines: no answer", odfilter_filter_lines(filter, judge, row, kept, NULL), 0, NULL);
    is_null("set_moment: no judge", odfilter_set_moment(NULL, row), 0, NULL);
    is_null("set_moment: no moment", odfilter_set_moment(judge, no_bytes_of_length), 0, NULL);
    is_null("set_bound: no judge", odfilter_set_bound(NULL, 0), 0, NULL);
    is_null("free: no handle variable", odfilter_free(NULL), 0, NULL);
    check("a judge of the filter is as it was", is_next_kept(own, ROW));
    odfilter_free(&own);
    drop(row);
    free(kept.at);
}

/* a call that reports more than a text does all else where there is no buffer */
static void lengths_beside_others(void)
{
    static const char bad[] = "{\"$Version\":\"4.0\",\"Mini\":{\"Item\":{\"$Kind\":\"EntityType\",\"Size\":5}}}";
    odfilter_bytes document = bytes_of(bad), query = bytes_of("$top=5&$filter=Act%69ve"), row = bytes_of(ROW);
    odfilter_handle *made = NULL, *filter = handles[FILTER_KIND], *judge = handles[JUDGE];
    odfilter_answer wanted;
    uint32_t status = odfilter_read_schema(document, shut, &made, &wanted);
    check("read_schema: two names", status == ODFILTER_SCHEMA_FAULT && wanted.length == 13 && wanted.first == 9);
    asks_for_length("read_schema: no buffer", odfilter_read_schema(document, no_room, &made, fresh()), status, wanted);
    check("read_schema: no schema", !made);
    status = odfilter_read_schema(no_bytes, shut, &made, &wanted);
    asks_for_length("read_schema: neither", odfilter_read_schema(no_bytes, no_room, &made, fresh()), status, wanted);
    status = odfilter_check_url(handles[TYPE], query, shut, &made, &wanted);
    check("check_url: a filter", status == ODFILTER_OK && wanted.length == 6 && made);
    odfilter_free(&made);
    asks_for_length("check_url: no buffer", odfilter_check_url(handles[TYPE], query, no_room, &made, fresh()), status,
                    wanted);
    check("check_url: a filter without a buffer", made != NULL);
    odfilter_free(&made);
    status = odfilter_check_url(handles[TYPE], no_bytes, shut, &made, &wanted);
    asks_for_length("check_url: neither", odfilter_check_url(handles[TYPE], no_bytes, no_room, &made, fresh()), status,
                    wanted);
    status = odfilter_filter_lines(filter, judge, row, shut, &wanted);
    check("filter_lines: a kept row", status == ODFILTER_TOO_SMALL && wanted.length == row.length + 1);
    asks_for_length("filter_lines: no buffer", odfilter_filter_lines(filter, judge, row, no_room, fresh()), status,
                    wanted);
    status = odfilter_filter_lines(filter, judge, no_bytes, shut, &wanted);
    asks_for_length("filter_lines: neither", odfilter_filter_lines(filter, judge, no_bytes, no_room, fresh()), status,
                    wanted);
    drop(document);
    drop(query);
    drop(row);
}

/* each call with a handle of each other kind */
static void other_kinds(void)
{
    odfilter_bytes text = bytes_of("true"), row = bytes_of(ROW);
    odfilter_buffer kept = {block(row.length + 1), row.length + 1};
    odfilter_handle **at, *filter = handles[FILTER_KIND], *judge = handles[JUDGE];
    odfilter_answer syntax = {0};
    int kind;
    syntax.fault = ODFILTER_SYNTAX_UNEXPECTED;
    for (kind = 0; kind < KINDS; kind++) {
        odfilter_handle *other = handles[kind];
        uint32_t status = ODFILTER_OTHER_KIND;
        at = place();
        check("find_type: no schema", kind == SCHEMA || (odfilter_find_type(other, text, at) == status && !*at));
        at = place();
        check("check: no type", kind == TYPE || (odfilter_check(other, text, at, fresh()) == status && !*at));
        at = place();
        check("check_query: no type",
              kind == TYPE || (odfilter_check_query(other, text, at, fresh()) == status && !*at));
        at = place();
        check("check_url: no type",
              kind == TYPE || (odfilter_check_url(other, text, room, at, fresh()) == status && !*at));
        check("fault_text: no type",
              kind == TYPE || odfilter_fault_text(other, 18, text, room, &syntax, fresh()) == status);
        check("fault_json: no type",
              kind == TYPE || odfilter_fault_json(other, 18, text, room, &syntax, fresh()) == status);
        check("node_count: no filter", kind == FILTER_KIND || odfilter_node_count(other, fresh()) == status);
        check("lambda_depth: no filter", kind == FILTER_KIND || odfilter_lambda_depth(other, fresh()) == status);
        check("property_paths: no filter",
              kind == FILTER_KIND || odfilter_property_paths(other, room, fresh()) == status);
        check("sql: no filter", kind == FILTER_KIND || odfilter_sql(other, 0, text, room, fresh()) == status);
        at = place();
        check("new_sql: no filter",
              kind == FILTER_KIND || (odfilter_new_sql(other, 0, no_bytes, at, fresh()) == status && !*at));
        check("sql_text: no conditions", kind == CONDITIONS || odfilter_sql_text(other, 0, room, fresh()) == status);
        check("sql_value: no conditions", kind == CONDITIONS || odfilter_sql_value(other, 0, 0, room, fresh()) == status);
        check("types: no schema and no type",
              kind == SCHEMA || kind == TYPE || odfilter_types(other, room, fresh()) == status);
        check("canonical: no filter", kind == FILTER_KIND || odfilter_canonical(other, room, fresh()) == status);
        check("explain: no filter", kind == FILTER_KIND || odfilter_explain(other, room, fresh()) == status);
        check("needs_moment: no filter", kind == FILTER_KIND || odfilter_needs_moment(other, fresh()) == status);
        check("judge: no filter", kind == FILTER_KIND || odfilter_judge(other, judge, row, fresh()) == status);
        check("judge: its answer is written", kind == FILTER_KIND || is_answer(answer, nothing));
        check("judge: no judge", kind == JUDGE || odfilter_judge(filter, other, row, fresh()) == status);
        at = place();
        check("new_judge_of: no filter",
              kind == FILTER_KIND || (odfilter_new_judge_of(other, at) == status && !*at));
        check("judge_next: no judge of a filter", odfilter_judge_next(other, row, fresh()) == status);
        check("judge_next: its answer is written", is_answer(answer, nothing));
        check("lines: no filter",
              kind == FILTER_KIND || odfilter_filter_lines(other, judge, row, kept, fresh()) == status);
        check("lines: no judge", kind == JUDGE || odfilter_filter_lines(filter, other, row, kept, fresh()) == status);
        check("lines: its answer is written", kind == JUDGE || is_answer(answer, nothing));
        check("path: no judge", kind == JUDGE || odfilter_path(other, room, fresh()) == status);
        check("set_moment: no judge", kind == JUDGE || odfilter_set_moment(other, text) == status);
        check("set_bound: no judge", kind == JUDGE || odfilter_set_bound(other, 0) == status);
    }
    drop(text);
    drop(row);
    free(kept.at);
}

/* an empty text, at an address or at none */
static void empty_texts(odfilter_bytes empty)
{
    odfilter_buffer kept = {block(1), 1};
    odfilter_handle **at = place(), *own = new_judge_of(handles[FILTER_KIND]);
    odfilter_answer wanted = nothing;
    check("an empty document", odfilter_read_schema(empty, room, at, fresh()) == ODFILTER_SCHEMA_FAULT && !*at);
    wanted.fault = ODFILTER_SCHEMA_NOT_JSON;
    check("an empty document is no JSON", is_answer(answer, wanted));
    at = place();
    check("an empty name", odfilter_find_type(handles[SCHEMA], empty, at) == ODFILTER_UNKNOWN_TYPE && !*at);
    at = place();
    check("an empty filter", odfilter_check(handles[TYPE], empty, at, fresh()) == ODFILTER_SYNTAX_FAULT && !*at);
    wanted.fault = ODFILTER_SYNTAX_UNEXPECTED;
    check("an empty filter ends too early, at 0", is_answer(answer, wanted));
    at = place();
    check("an empty query", odfilter_check_query(handles[TYPE], empty, at, fresh()) == ODFILTER_NO_FILTER && !*at);
    check("of an empty query nothing is reported", is_answer(answer, nothing));
    check("an empty row", odfilter_judge(handles[FILTER_KIND], handles[JUDGE], empty, fresh()) == ODFILTER_JSON_FAULT);
    check("of an empty row nothing is reported", is_answer(answer, nothing));
    check("an empty row of a filter's judge", odfilter_judge_next(own, empty, fresh()) == ODFILTER_JSON_FAULT);
    check("of it nothing is reported", is_answer(answer, nothing));
    check("no lines", odfilter_filter_lines(handles[FILTER_KIND], handles[JUDGE], empty, kept, fresh()) == ODFILTER_OK);
    check("of no lines nothing is reported", is_answer(answer, nothing));
    check("an empty moment", odfilter_set_moment(handles[JUDGE], empty) == ODFILTER_NOT_A_MOMENT);
    at = place();
    check("an empty whole query",
          odfilter_check_url(handles[TYPE], empty, room, at, fresh()) == ODFILTER_NO_FILTER && !*at);
    check("of an empty whole query nothing is reported", is_answer(answer, nothing));
    wanted = nothing;
    wanted.fault = ODFILTER_EVAL_OVERFLOW;
    check("a sentence about an empty text",
          odfilter_fault_text(handles[TYPE], ODFILTER_EVAL_FAULT, empty, room, &wanted, fresh()) == ODFILTER_OK);
    check("an object about an empty text",
          odfilter_fault_json(handles[TYPE], ODFILTER_EVAL_FAULT, empty, room, &wanted, fresh()) == ODFILTER_OK);
    odfilter_free(&own);
    free(kept.at);
}

static void bytes_that_are_no_utf8(void)
{
    odfilter_bytes text = bytes_of("ID eq 1 or Name eq '\xc3'"), query = bytes_of("x=1&filter=\xff");
    odfilter_handle **at = place();
    odfilter_answer wanted = nothing;
    check("a document that is no UTF-8", odfilter_read_schema(text, room, at, fresh()) == ODFILTER_SCHEMA_FAULT && !*at);
    check("it is no JSON", answer.fault == ODFILTER_SCHEMA_NOT_JSON);
    at = place();
    check("a name that is no UTF-8", odfilter_find_type(handles[SCHEMA], text, at) == ODFILTER_NOT_UTF8 && !*at);
    at = place();
    check("a filter that is no UTF-8", odfilter_check(handles[TYPE], text, at, fresh()) == ODFILTER_NOT_UTF8 && !*at);
    check("of it nothing is reported", is_answer(answer, nothing));
    at = place();
    check("a query that is no UTF-8",
          odfilter_check_query(handles[TYPE], query, at, fresh()) == ODFILTER_QUERY_FAULT && !*at);
    wanted.fault = ODFILTER_QUERY_NOT_UTF8;
    wanted.number = 1;
    check("its option is reported", is_answer(answer, wanted));
    check("a row that is no UTF-8",
          odfilter_judge(handles[FILTER_KIND], handles[JUDGE], text, fresh()) == ODFILTER_JSON_FAULT);
    check("a moment that is no UTF-8", odfilter_set_moment(handles[JUDGE], text) == ODFILTER_NOT_UTF8);
    drop(text);
    drop(query);
}

int main(void)
{
    int kind;
    odfilter_bytes empty = {block(0), 0};
    handles[SCHEMA] = schema_of(DOCUMENT);
    handles[TYPE] = type_of(handles[SCHEMA], "Mini.Item");
    handles[FILTER_KIND] = filter_of(handles[TYPE], FILTER);
    handles[JUDGE] = new_judge();
    handles[CONDITIONS] = conditions_of(handles[FILTER_KIND]);
    nulls_that_make_handles();
    nulls_of_checks();
    nulls_of_texts();
    nulls_of_urls();
    nulls_of_rows();
    lengths_beside_others();
    other_kinds();
    empty_texts(empty);
    empty_texts(no_bytes);
    drop(empty);
    bytes_that_are_no_utf8();
    check("the filter and the judge are as they were", is_kept(handles[FILTER_KIND], handles[JUDGE], ROW));
    check("and keep no other row", !is_kept(handles[FILTER_KIND], handles[JUDGE], OTHER_ROW));
    for (kind = 0; kind < KINDS; kind++) {
        check("a handle is freed", odfilter_free(&handles[kind]) == ODFILTER_OK && !handles[kind]);
        check("a second time it is reported", odfilter_free(&handles[kind]) == ODFILTER_NULL);
    }
    return end();
}
