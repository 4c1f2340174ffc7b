/* Each flat call does what the call of its name does: the same status, answer, text and handle. */
#include "checks.h"

#define SIZE 4096

static char first[SIZE], second[SIZE];
static odfilter_answer plain, flat;

/* both buffers as if nobody had written, of so many bytes, and both answers */
static odfilter_buffer fresh(size_t length)
{
    odfilter_buffer buffer = {first, length};
    memset(first, 0x5a, SIZE);
    memset(second, 0x5a, SIZE);
    plain = unwritten();
    flat = unwritten();
    return buffer;
}

static void same(const char *name, uint32_t wanted, uint32_t got)
{
    check(name, got == wanted && is_answer(flat, plain) && !memcmp(first, second, SIZE));
}

/* the same, of calls that make a handle each; the handle of the flat one */
static odfilter_handle *same_made(const char *name, uint32_t wanted, uint32_t got, odfilter_handle **made,
                                  odfilter_handle *of_flat)
{
    same(name, wanted, got);
    check(name, !*made == !of_flat && (odfilter_free(made) == ODFILTER_OK) == (of_flat != NULL));
    return of_flat;
}

static odfilter_handle *schemas(const char *document)
{
    odfilter_bytes bytes = bytes_of(document);
    odfilter_buffer names = fresh(16);
    odfilter_handle *made = NULL, *of_flat = NULL;
    uint32_t wanted = odfilter_read_schema(bytes, names, &made, &plain);
    uint32_t got = odfilter_flat_read_schema(bytes.at, bytes.length, second, 16, &of_flat, &flat);
    drop(bytes);
    return same_made("read_schema", wanted, got, &made, of_flat);
}

static odfilter_handle *types(const odfilter_handle *schema, const char *name)
{
    odfilter_bytes bytes = bytes_of(name);
    odfilter_handle *made = NULL, *of_flat = NULL;
    uint32_t wanted, got;
    fresh(0);
    wanted = odfilter_find_type(schema, bytes, &made);
    got = odfilter_flat_find_type(schema, bytes.at, bytes.length, &of_flat);
    drop(bytes);
    return same_made("find_type", wanted, got, &made, of_flat);
}

static odfilter_handle *filters(const odfilter_handle *type, const char *text)
{
    odfilter_bytes bytes = bytes_of(text);
    odfilter_buffer buffer;
    odfilter_handle *made = NULL, *of_flat = NULL;
    uint32_t wanted, got;
    fresh(0);
    wanted = odfilter_check(type, bytes, &made, &plain);
    got = odfilter_flat_check(type, bytes.at, bytes.length, &of_flat, &flat);
    of_flat = same_made("check", wanted, got, &made, of_flat);
    if (wanted != ODFILTER_OK) {
        odfilter_answer fault = plain;
        uint32_t status = wanted;
        buffer = fresh(SIZE);
        wanted = odfilter_fault_text(type, status, bytes, buffer, &fault, &plain);
        got = odfilter_flat_fault_text(type, status, bytes.at, bytes.length, second, SIZE, &fault, &flat);
        same("fault_text", wanted, got);
        buffer = fresh(SIZE);
        wanted = odfilter_fault_json(type, status, bytes, buffer, &fault, &plain);
        got = odfilter_flat_fault_json(type, status, bytes.at, bytes.length, second, SIZE, &fault, &flat);
        same("fault_json", wanted, got);
    }
    drop(bytes);
    return of_flat;
}

static void queries(const odfilter_handle *type, const char *query)
{
    odfilter_bytes bytes = bytes_of(query);
    odfilter_buffer buffer = fresh(SIZE);
    odfilter_handle *made = NULL, *of_flat = NULL;
    uint32_t wanted = odfilter_check_url(type, bytes, buffer, &made, &plain);
    uint32_t got = odfilter_flat_check_url(type, bytes.at, bytes.length, second, SIZE, &of_flat, &flat);
    of_flat = same_made("check_url", wanted, got, &made, of_flat);
    odfilter_free(&of_flat);
    fresh(0);
    wanted = odfilter_check_query(type, bytes, &made, &plain);
    got = odfilter_flat_check_query(type, bytes.at, bytes.length, &of_flat, &flat);
    of_flat = same_made("check_query", wanted, got, &made, of_flat);
    odfilter_free(&of_flat);
    drop(bytes);
}

typedef uint32_t write_call(const odfilter_handle *, odfilter_buffer, odfilter_answer *);
typedef uint32_t flat_write_call(const odfilter_handle *, char *, size_t, odfilter_answer *);

/* a call that writes a text, in buffers that take it and that do not */
static void texts(const char *name, const odfilter_handle *handle, write_call *call, flat_write_call *of_flat)
{
    size_t length;
    for (length = 0; length < SIZE; length = length ? 4 * length : 4) {
        odfilter_buffer buffer = fresh(length);
        uint32_t wanted = call(handle, buffer, &plain);
        same(name, wanted, of_flat(handle, second, length, &flat));
    }
}

static void conditions(const odfilter_handle *filter, uint32_t form)
{
    odfilter_bytes how = bytes_of("2026-11-25T09:00:00Z\nName=title");
    odfilter_buffer buffer = fresh(SIZE);
    uint32_t wanted = odfilter_sql(filter, form, how, buffer, &plain);
    odfilter_handle *made = NULL, *of_flat = NULL;
    uint32_t got, which, index;
    same("sql", wanted, odfilter_flat_sql(filter, form, how.at, how.length, second, SIZE, &flat));
    fresh(0);
    wanted = odfilter_new_sql(filter, form, how, &made, &plain);
    got = odfilter_flat_new_sql(filter, form, how.at, how.length, &of_flat, &flat);
    of_flat = same_made("new_sql", wanted, got, &made, of_flat);
    for (which = 0; of_flat && which < 4; which++) {
        buffer = fresh(SIZE);
        wanted = odfilter_sql_text(of_flat, which, buffer, &plain);
        same("sql_text", wanted, odfilter_flat_sql_text(of_flat, which, second, SIZE, &flat));
        for (index = 0; index < 4; index++) {
            buffer = fresh(8);
            wanted = odfilter_sql_value(of_flat, which, index, buffer, &plain);
            same("sql_value", wanted, odfilter_flat_sql_value(of_flat, which, index, second, 8, &flat));
        }
    }
    odfilter_free(&of_flat);
    drop(how);
}

static void rows(const odfilter_handle *filter, odfilter_handle *judge, odfilter_handle *own, const char *row)
{
    odfilter_bytes bytes = bytes_of(row);
    odfilter_buffer buffer = fresh(SIZE);
    uint32_t wanted = odfilter_judge(filter, judge, bytes, &plain);
    same("judge", wanted, odfilter_flat_judge(filter, judge, bytes.at, bytes.length, &flat));
    texts("path", judge, odfilter_path, odfilter_flat_path);
    fresh(0);
    wanted = odfilter_judge_next(own, bytes, &plain);
    same("judge_next", wanted, odfilter_flat_judge_next(own, bytes.at, bytes.length, &flat));
    fresh(0);
    wanted = odfilter_filter_lines(filter, judge, bytes, buffer, &plain);
    same("filter_lines", wanted,
         odfilter_flat_filter_lines(filter, judge, bytes.at, bytes.length, second, SIZE, &flat));
    drop(bytes);
}

static void moments(odfilter_handle *judge, const char *text)
{
    odfilter_bytes bytes = bytes_of(text);
    check("set_moment",
          odfilter_set_moment(judge, bytes) == odfilter_flat_set_moment(judge, bytes.at, bytes.length));
    drop(bytes);
}

static void names(uint32_t status)
{
    odfilter_buffer buffer = fresh(8);
    uint32_t wanted = odfilter_version(buffer, &plain), fault;
    same("version", wanted, odfilter_flat_version(second, 8, &flat));
    buffer = fresh(SIZE);
    wanted = odfilter_status_name(status, buffer, &plain);
    same("status_name", wanted, odfilter_flat_status_name(status, second, SIZE, &flat));
    for (fault = 0; fault < 12; fault++) {
        buffer = fresh(SIZE);
        wanted = odfilter_fault_name(status, fault, buffer, &plain);
        same("fault_name", wanted, odfilter_flat_fault_name(status, fault, second, SIZE, &flat));
    }
}

static void of_filter(odfilter_handle *filter)
{
    odfilter_handle *judge = new_judge(), *own = new_judge_of(filter);
    uint32_t form;
    texts("canonical", filter, odfilter_canonical, odfilter_flat_canonical);
    texts("explain", filter, odfilter_explain, odfilter_flat_explain);
    texts("property_paths", filter, odfilter_property_paths, odfilter_flat_property_paths);
    for (form = 0; form < 5; form++)
        conditions(filter, form);
    moments(judge, "2026-11-25T09:00:00Z");
    moments(judge, "today");
    rows(filter, judge, own, ROW);
    rows(filter, judge, own, OTHER_ROW);
    rows(filter, judge, own, BAD_ROW);
    rows(filter, judge, own, "{");
    odfilter_free(&own);
    odfilter_free(&judge);
    odfilter_free(&filter);
}

int main(void)
{
    odfilter_handle *schema = schemas(DOCUMENT), *type = types(schema, "Mini.Item");
    uint32_t status;
    check("no schema", !schemas("{}"));
    check("no type", !types(schema, "Mini.Thing"));
    texts("types of a schema", schema, odfilter_types, odfilter_flat_types);
    texts("a type", type, odfilter_types, odfilter_flat_types);
    of_filter(filters(type, FILTER));
    of_filter(filters(type, "contains(Name,'a') or Part/Size lt 6"));
    check("a fault of syntax", !filters(type, "Active and"));
    check("a fault of types", !filters(type, "Foo eq 1"));
    queries(type, "$filter=Active%20and%20ID%20eq%201");
    queries(type, "$top=5&$filter=Foo");
    queries(type, "$top=5");
    for (status = 0; status < 30; status++)
        names(status);
    check("an answer of this header fits", odfilter_fits(sizeof(odfilter_answer)) == ODFILTER_OK);
    check("a larger one fits", odfilter_fits(2 * sizeof(odfilter_answer)) == ODFILTER_OK);
    check("a smaller one does not", odfilter_fits(sizeof(odfilter_answer) - 1) == ODFILTER_TOO_SMALL);
    odfilter_free(&type);
    odfilter_free(&schema);
    return end();
}
