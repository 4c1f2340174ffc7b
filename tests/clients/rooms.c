/* Room of each length, from none to one byte more than is wanted: a text is written whole or not at all. */
#include "checks.h"

#define ITEM_TYPE "entity Mini.Item\n  Active Edm.Boolean\n  ID Edm.Int32\n  Name Edm.String\n  Part Mini.Part\n"

static odfilter_handle *schema, *type, *filter, *judge;

/* the calls that write a text, each with the same arguments */
static uint32_t canonical(odfilter_buffer room, odfilter_answer *answer)
{
    return odfilter_canonical(filter, room, answer);
}

static uint32_t explain(odfilter_buffer room, odfilter_answer *answer)
{
    return odfilter_explain(filter, room, answer);
}

static uint32_t types_of_schema(odfilter_buffer room, odfilter_answer *answer)
{
    return odfilter_types(schema, room, answer);
}

static uint32_t one_type(odfilter_buffer room, odfilter_answer *answer)
{
    return odfilter_types(type, room, answer);
}

static uint32_t path(odfilter_buffer room, odfilter_answer *answer)
{
    return odfilter_path(judge, room, answer);
}

static uint32_t status_name(odfilter_buffer room, odfilter_answer *answer)
{
    return odfilter_status_name(ODFILTER_SCHEMA_FAULT, room, answer);
}

static uint32_t fault_name(odfilter_buffer room, odfilter_answer *answer)
{
    return odfilter_fault_name(ODFILTER_ROW_FAULT, ODFILTER_ROW_NULL_NOT_ALLOWED, room, answer);
}

/* whether the buffer is as `block` made it, from a byte on */
static int is_untouched(odfilter_buffer room, size_t from)
{
    for (; from < room.length; from++)
        if (room.at[from] != 0x5a)
            return 0;
    return 1;
}

/* a call with a buffer of one length, of a text that is wanted */
static void at_length(const char *name, uint32_t (*call)(odfilter_buffer, odfilter_answer *), const char *wanted,
                      size_t length)
{
    odfilter_buffer room = {block(length), length};
    odfilter_answer answer = unwritten(), reported = {0};
    uint32_t status = call(room, &answer);
    int is_whole = length >= strlen(wanted);
    reported.length = strlen(wanted);
    check(name, status == (is_whole ? ODFILTER_OK : ODFILTER_TOO_SMALL));
    check(name, is_answer(answer, reported));
    check(name, !is_whole || !memcmp(room.at, wanted, strlen(wanted)));
    check(name, is_untouched(room, is_whole ? strlen(wanted) : 0));
    free(room.at);
}

static void each_length(const char *name, uint32_t (*call)(odfilter_buffer, odfilter_answer *), const char *wanted)
{
    size_t length;
    for (length = 0; length <= strlen(wanted) + 1; length++)
        at_length(name, call, wanted, length);
}

/* the two names of a schema's fault: the status stays that of the fault */
static void names_of_a_fault(void)
{
    const char *names = "Mini.ItemSize",
               *bad = "{\"$Version\":\"4.0\",\"Mini\":{\"Item\":{\"$Kind\":\"EntityType\",\"Size\":5}}}";
    odfilter_bytes document = bytes_of(bad);
    size_t length;
    for (length = 0; length <= strlen(names) + 1; length++) {
        odfilter_buffer room = {block(length), length};
        odfilter_answer answer = unwritten(), reported = {0};
        odfilter_handle *made = filter;
        int is_whole = length >= strlen(names);
        reported.fault = ODFILTER_SCHEMA_BAD_PROPERTY;
        reported.length = strlen(names);
        reported.first = strlen("Mini.Item");
        check("names", odfilter_read_schema(document, room, &made, &answer) == ODFILTER_SCHEMA_FAULT && !made);
        check("names: what is reported", is_answer(answer, reported));
        check("names: written whole or not at all", !is_whole || !memcmp(room.at, names, strlen(names)));
        check("names: no byte more", is_untouched(room, is_whole ? strlen(names) : 0));
        free(room.at);
    }
    drop(document);
}

/* kept lines, with a line at fault after them or none: the status stays that of the fault */
static void kept_lines(const char *after, uint32_t end, odfilter_answer reported)
{
    const char *kept = ROW "\n" ROW "\n";
    char lines[512];
    odfilter_bytes rows;
    size_t length;
    snprintf(lines, sizeof lines, "%s%s", ROW "\n" OTHER_ROW "\n" ROW, after);
    rows = bytes_of(lines);
    reported.length = strlen(kept);
    for (length = 0; length <= strlen(kept) + 1; length++) {
        odfilter_buffer room = {block(length), length};
        odfilter_answer answer = unwritten(), small = {0};
        uint32_t status = odfilter_filter_lines(filter, judge, rows, room, &answer);
        int is_whole = length >= strlen(kept), is_small = !is_whole && end == ODFILTER_OK;
        small.length = reported.length;
        check("lines", status == (is_small ? ODFILTER_TOO_SMALL : end));
        check("lines: what is reported", is_answer(answer, is_small ? small : reported));
        check("lines: written whole or not at all", !is_whole || !memcmp(room.at, kept, strlen(kept)));
        check("lines: no byte more", is_untouched(room, is_whole ? strlen(kept) : 0));
        free(room.at);
    }
    drop(rows);
}

static void kept_lines_of_runs(void)
{
    odfilter_answer all = {0}, at_fault = {0};
    all.rows = 3;
    all.kept = 2;
    at_fault.fault = ODFILTER_ROW_MISSING;
    at_fault.number = 5;
    kept_lines("", ODFILTER_OK, all);
    kept_lines("\n\n{}\n" ROW, ODFILTER_ROW_FAULT, at_fault);
}

int main(void)
{
    uint32_t verdict;
    schema = schema_of(DOCUMENT);
    type = type_of(schema, "Mini.Item");
    filter = filter_of(type, "((Active)) AND ID  eq +01 and Name ne 'O''Neil'");
    judge = new_judge();
    each_length("types", types_of_schema, ITEM_TYPE "complex Mini.Part\n  Size Edm.Byte\n");
    each_length("a type", one_type, ITEM_TYPE);
    each_length("canonical", canonical, "Active and ID eq 1 and Name ne 'O''Neil'");
    odfilter_free(&filter);
    filter = filter_of(type, FILTER);
    each_length("explain", explain,
                "0..18 and Edm.Boolean\n  0..6 property Active Edm.Boolean\n  11..18 eq Edm.Boolean\n"
                "    11..13 property ID Edm.Int32\n    17..18 literal Edm.Int32\n");
    each_length("no path yet", path, "");
    check("a row at fault", judged(filter, judge, BAD_ROW, &verdict) == ODFILTER_ROW_FAULT);
    each_length("path", path, "Part/Size");
    each_length("status_name", status_name, "SCHEMA_FAULT");
    each_length("fault_name", fault_name, "NullNotAllowed");
    each_length("version", odfilter_version, "0.1.0");
    names_of_a_fault();
    kept_lines_of_runs();
    odfilter_free(&judge);
    odfilter_free(&filter);
    odfilter_free(&type);
    odfilter_free(&schema);
    return end();
}
