/* What is reported of rows: verdicts, faults with their paths, lines, moments; and the spans of refused filters. */
#include "checks.h"

static odfilter_handle *schema, *type, *judge;

/* the path of the last row of a judge */
static int is_path(const odfilter_handle *of, const char *path)
{
    char at[64];
    odfilter_buffer room = {at, sizeof at};
    odfilter_answer answer;
    return odfilter_path(of, room, &answer) == ODFILTER_OK && answer.length == strlen(path) &&
           !memcmp(at, path, answer.length);
}

/* the same answer by a judge of the filter, to the first row, and after rows that it has a verdict on */
static void next_is(const odfilter_handle *filter, const char *row, uint32_t status, odfilter_answer wanted,
                    const char *path)
{
    odfilter_handle *own = new_judge_of(filter);
    odfilter_bytes bytes = bytes_of(row), well = bytes_of(ROW), other = bytes_of(OTHER_ROW);
    int times;
    for (times = 0; times < 4; times++) {
        odfilter_answer answer = unwritten();
        check(row, odfilter_judge_next(own, bytes, &answer) == status);
        check(row, is_answer(answer, wanted));
        check("the path of the next row", is_path(own, path));
        odfilter_judge_next(own, times % 2 ? other : well, &answer);
    }
    drop(bytes);
    drop(well);
    drop(other);
    odfilter_free(&own);
}

/* the answer to a row, by a filter */
static void row_is(const char *text, const char *row, uint32_t status, odfilter_answer wanted, const char *path)
{
    odfilter_answer answer = unwritten();
    odfilter_handle *filter = filter_of(type, text);
    odfilter_bytes bytes = bytes_of(row);
    check(row, odfilter_judge(filter, judge, bytes, &answer) == status);
    check(row, is_answer(answer, wanted));
    check("its path is the last row's", is_path(judge, path));
    next_is(filter, row, status, wanted, path);
    drop(bytes);
    odfilter_free(&filter);
}

static odfilter_answer verdict(uint32_t verdict)
{
    odfilter_answer answer = {0};
    answer.verdict = verdict;
    return answer;
}

static odfilter_answer fault(uint32_t fault, const char *path)
{
    odfilter_answer answer = {0};
    answer.fault = fault;
    answer.length = strlen(path);
    return answer;
}

static void verdicts_and_faults(void)
{
    row_is(FILTER, ROW, ODFILTER_OK, verdict(ODFILTER_TRUE), "");
    row_is(FILTER, OTHER_ROW, ODFILTER_OK, verdict(ODFILTER_FALSE), "");
    row_is("null", ROW, ODFILTER_OK, verdict(ODFILTER_NO_TRUTH_VALUE), "");
    row_is(FILTER, BAD_ROW, ODFILTER_ROW_FAULT, fault(ODFILTER_ROW_OUT_OF_RANGE, "Part/Size"), "Part/Size");
    row_is(FILTER, "[]", ODFILTER_ROW_FAULT, fault(ODFILTER_ROW_NOT_OBJECT, ""), "");
    row_is(FILTER, "{}", ODFILTER_ROW_FAULT, fault(ODFILTER_ROW_MISSING, "Active"), "Active");
    row_is(FILTER, "{\"Active\":1}", ODFILTER_ROW_FAULT, fault(ODFILTER_ROW_WRONG_KIND, "Active"), "Active");
    row_is(FILTER, "{\"Active\":null}", ODFILTER_ROW_FAULT, fault(ODFILTER_ROW_NULL_NOT_ALLOWED, "Active"), "Active");
    row_is(FILTER, "{", ODFILTER_JSON_FAULT, fault(0, ""), "");
    row_is(FILTER, " \n\t", ODFILTER_JSON_FAULT, fault(0, ""), "");
    row_is("1 div (ID sub 1) eq 1", ROW, ODFILTER_EVAL_FAULT, fault(ODFILTER_EVAL_DIVIDE_BY_ZERO, ""), "");
    row_is("2147483647 add ID eq 1", ROW, ODFILTER_EVAL_FAULT, fault(ODFILTER_EVAL_OVERFLOW, ""), "");
    row_is(FILTER, "\n " ROW "\r\n\n", ODFILTER_OK, verdict(ODFILTER_TRUE), "");
}

/* each beginning of a row is no row */
static void beginnings(void)
{
    odfilter_handle *filter = filter_of(type, FILTER), *own = new_judge_of(filter);
    size_t length;
    for (length = 0; length < strlen(ROW); length++) {
        odfilter_bytes row = {memcpy(block(length), ROW, length), length};
        odfilter_answer answer;
        check("a beginning of a row", odfilter_judge(filter, judge, row, &answer) == ODFILTER_JSON_FAULT);
        check("a row by a judge of the filter", is_next_kept(own, ROW) && !is_next_kept(own, OTHER_ROW));
        check("a beginning of a row after it", odfilter_judge_next(own, row, &answer) == ODFILTER_JSON_FAULT);
        drop(row);
    }
    odfilter_free(&own);
    odfilter_free(&filter);
}

/* lines, of which one may be at fault */
static void lines_are(const char *rows, uint32_t status, odfilter_answer wanted, const char *kept, const char *path)
{
    char at[64];
    odfilter_buffer of_path = {at, sizeof at};
    odfilter_handle *filter = filter_of(type, "Active or 1 div ID eq 1");
    odfilter_bytes bytes = bytes_of(rows);
    odfilter_buffer room = {block(bytes.length + 1), bytes.length + 1};
    odfilter_answer answer = unwritten();
    wanted.length = strlen(kept);
    check(rows, odfilter_filter_lines(filter, judge, bytes, room, &answer) == status);
    check(rows, is_answer(answer, wanted) && !memcmp(room.at, kept, strlen(kept)));
    check("the path of a line", odfilter_path(judge, of_path, &answer) == ODFILTER_OK);
    check("the path of a line is its own", answer.length == strlen(path) && !memcmp(at, path, answer.length));
    drop(bytes);
    free(room.at);
    odfilter_free(&filter);
}

static odfilter_answer at_line(uint32_t fault, uint64_t number)
{
    odfilter_answer answer = {0};
    answer.fault = fault;
    answer.number = number;
    return answer;
}

#define ZERO_ROW "{\"ID\":0,\"Name\":\"a\",\"Active\":false,\"Part\":{\"Size\":5}}"

static void lines(void)
{
    odfilter_answer all = {0};
    all.rows = 3;
    all.kept = 2;
    lines_are(ROW "\n \t\r\n" OTHER_ROW "\r\n" ROW, ODFILTER_OK, all, ROW "\n" ROW "\n", "");
    lines_are(ROW "\n\n{}\n" ROW "\n", ODFILTER_ROW_FAULT, at_line(ODFILTER_ROW_MISSING, 3), ROW "\n", "Active");
    lines_are(ROW "\n" ROW "\n[\n", ODFILTER_JSON_FAULT, at_line(0, 3), ROW "\n" ROW "\n", "");
    lines_are(ZERO_ROW "\n" ROW, ODFILTER_EVAL_FAULT, at_line(ODFILTER_EVAL_DIVIDE_BY_ZERO, 1), "", "");
}

static void long_lines(void)
{
    size_t limit = 1048576, length;
    odfilter_handle *filter = filter_of(type, FILTER), *own = new_judge_of(filter);
    for (length = limit; length <= limit + 1; length++) {
        odfilter_bytes row = {memset(block(length), ' ', length), length};
        odfilter_buffer room = {block(length + 1), length + 1};
        odfilter_answer answer = unwritten(), wanted = at_line(0, 1);
        uint32_t status, of_row;
        memcpy((char *)row.at, ROW, strlen(ROW));
        status = odfilter_filter_lines(filter, judge, row, room, &answer);
        of_row = odfilter_judge(filter, judge, row, &answer);
        check("a line of any length is a row", of_row == ODFILTER_OK && answer.verdict == ODFILTER_TRUE);
        of_row = odfilter_judge_next(own, row, &answer);
        check("and is one by a judge of the filter", of_row == ODFILTER_OK && answer.verdict == ODFILTER_TRUE);
        check("a line of the greatest length", length > limit || status == ODFILTER_OK);
        check("a line that is longer", length == limit || status == ODFILTER_LINE_TOO_LONG);
        odfilter_filter_lines(filter, judge, row, room, &answer);
        check("its number", length == limit || is_answer(answer, wanted));
        drop(row);
        free(room.at);
    }
    odfilter_free(&own);
    odfilter_free(&filter);
}

static int sets(odfilter_handle *of, const char *moment, uint32_t status)
{
    odfilter_bytes bytes = bytes_of(moment);
    int is_so = odfilter_set_moment(of, bytes) == status;
    drop(bytes);
    return is_so;
}

/* lines by a judge that lacks the moment: nothing is written, though a row may be at fault */
static void lines_without_moment(const odfilter_handle *filter)
{
    char at[256];
    odfilter_buffer room = {memset(at, 0x5a, sizeof at), sizeof at};
    odfilter_bytes rows = bytes_of(ROW "\n{\n");
    odfilter_answer answer = unwritten(), wanted = {0};
    check("lines, and no moment", odfilter_filter_lines(filter, judge, rows, room, &answer) == ODFILTER_MOMENT_NEEDED);
    check("of them nothing is reported", is_answer(answer, wanted) && at[0] == 0x5a);
    drop(rows);
}

static void moments(void)
{
    odfilter_handle *filter = filter_of(type, "now() lt 2027-01-01T00:00:00Z"), *plain = filter_of(type, "true");
    odfilter_answer answer = unwritten(), wanted = {0};
    uint32_t returned;
    check("a filter that calls no now",
          odfilter_needs_moment(plain, &answer) == ODFILTER_OK && is_answer(answer, wanted));
    wanted.number = 1;
    answer = unwritten();
    check("a filter that calls now",
          odfilter_needs_moment(filter, &answer) == ODFILTER_OK && is_answer(answer, wanted));
    check("no moment", judged(filter, judge, ROW, &returned) == ODFILTER_MOMENT_NEEDED);
    check("no moment, and a row at fault", judged(filter, judge, "{", &returned) == ODFILTER_MOMENT_NEEDED);
    lines_without_moment(filter);
    check("none is needed", is_kept(plain, judge, ROW));
    check("a text that is none", sets(judge, "2027-02-29T00:00:00Z", ODFILTER_NOT_A_MOMENT));
    check("it has set none", judged(filter, judge, ROW, &returned) == ODFILTER_MOMENT_NEEDED);
    check("a moment", sets(judge, "2026-11-25T09:00:00+01:00", ODFILTER_OK));
    check("before", is_kept(filter, judge, ROW));
    check("a text that is none, again", sets(judge, "tomorrow", ODFILTER_NOT_A_MOMENT));
    check("the moment is as it was", is_kept(filter, judge, ROW));
    check("a later moment", sets(judge, "2027-01-01T00:00:00Z", ODFILTER_OK));
    check("no more", judged(filter, judge, ROW, &returned) == ODFILTER_OK && returned == ODFILTER_FALSE);
    odfilter_free(&filter);
    odfilter_free(&plain);
}

/* the moment of a judge of a filter, which is for any filter that it judges by */
static void moments_of_a_filter(void)
{
    odfilter_handle *filter = filter_of(type, "now() lt 2027-01-01T00:00:00Z"), *own = new_judge_of(filter);
    odfilter_handle *plain = filter_of(type, FILTER);
    uint32_t returned;
    check("a judge of a filter has no moment", judged_next(own, ROW, &returned) == ODFILTER_MOMENT_NEEDED);
    check("no moment, and a row at fault", judged_next(own, "{", &returned) == ODFILTER_MOMENT_NEEDED);
    check("another filter needs none", is_kept(plain, own, ROW));
    check("a moment of its own", sets(own, "2026-11-25T09:00:00+01:00", ODFILTER_OK) && is_next_kept(own, ROW));
    check("by the call of any judge", is_kept(filter, own, ROW));
    check("a later moment", sets(own, "2027-01-01T00:00:00Z", ODFILTER_OK));
    check("no more", judged_next(own, ROW, &returned) == ODFILTER_OK && returned == ODFILTER_FALSE);
    odfilter_free(&plain);
    odfilter_free(&own);
    odfilter_free(&filter);
}

/* a judge of a filter judges by other filters too, and goes on by its own */
static void any_filter(void)
{
    odfilter_handle *first = filter_of(type, FILTER), *second = filter_of(type, "not Active"), *own = new_judge_of(first);
    uint32_t returned;
    int times;
    for (times = 0; times < 3; times++) {
        check("by its own filter", is_next_kept(own, ROW) && !is_next_kept(own, OTHER_ROW));
        check("by another", is_kept(second, own, OTHER_ROW) && !is_kept(second, own, ROW));
        check("a fault by another", judged(second, own, BAD_ROW, &returned) == ODFILTER_ROW_FAULT);
        check("its path", is_path(own, "Part/Size"));
        check("no fault by its own", is_next_kept(own, ROW) && is_path(own, ""));
        check("a fault by its own", judged_next(own, BAD_ROW, &returned) == ODFILTER_ROW_FAULT && is_path(own, "Part/Size"));
    }
    odfilter_free(&first);
    odfilter_free(&second);
    check("without the filter", is_next_kept(own, ROW));
    odfilter_free(&own);
}

#define TAGS_DOCUMENT                                                                                                  \
    "{\"$Version\":\"4.01\",\"Mini\":{\"Item\":{\"$Kind\":\"EntityType\",\"Tags\":{\"$Collection\":true}}}}"
#define TAGS_ROW "{\"Tags\":[\"a\",\"b\",\"c\",\"d\"]}"

/* a row by a judge with a bound: its status, and no path */
static int comes_to(const odfilter_handle *filter, odfilter_handle *bounded, uint64_t most, uint32_t status)
{
    odfilter_answer answer = unwritten(), wanted = {0};
    odfilter_bytes row = bytes_of(TAGS_ROW);
    int is_so = odfilter_set_bound(bounded, most) == ODFILTER_OK;
    is_so &= odfilter_judge(filter, bounded, row, &answer) == status;
    wanted.verdict = status == ODFILTER_OK ? ODFILTER_TRUE : 0;
    is_so &= is_answer(answer, wanted) && is_path(bounded, "");
    drop(row);
    return is_so;
}

static int next_comes_to(odfilter_handle *bounded, uint64_t most, uint32_t status)
{
    odfilter_answer answer = unwritten(), wanted = {0};
    odfilter_bytes row = bytes_of(TAGS_ROW);
    int is_so = odfilter_set_bound(bounded, most) == ODFILTER_OK;
    is_so &= odfilter_judge_next(bounded, row, &answer) == status;
    wanted.verdict = status == ODFILTER_OK ? ODFILTER_TRUE : 0;
    is_so &= is_answer(answer, wanted) && is_path(bounded, "");
    drop(row);
    return is_so;
}

/* lines by a judge with a bound: each has the whole bound, and the first above it is at fault */
static void lines_within(const odfilter_handle *filter, odfilter_handle *bounded, uint64_t most, uint32_t status)
{
    odfilter_bytes rows = bytes_of(TAGS_ROW "\n\n" TAGS_ROW "\n");
    odfilter_buffer room = {block(rows.length + 1), rows.length + 1};
    odfilter_answer answer = unwritten(), wanted = {0};
    if (status == ODFILTER_OK) {
        wanted.rows = wanted.kept = 2;
        wanted.length = 2 * strlen(TAGS_ROW "\n");
    } else {
        wanted.number = 1;
    }
    check("lines, and a bound", odfilter_set_bound(bounded, most) == ODFILTER_OK);
    check("lines within a bound", odfilter_filter_lines(filter, bounded, rows, room, &answer) == status);
    check("what is reported of them", is_answer(answer, wanted) && is_path(bounded, ""));
    drop(rows);
    free(room.at);
}

static void bounds(void)
{
    odfilter_handle *tags_schema = schema_of(TAGS_DOCUMENT), *tags = type_of(tags_schema, "Mini.Item");
    odfilter_handle *bounded = new_judge(), *filter = filter_of(tags, "Tags/any(t:t eq 'c')");
    odfilter_handle *own = new_judge_of(filter);
    odfilter_handle *plain = filter_of(tags, "'c' in Tags");
    uint32_t returned;
    check("no bound", is_kept(filter, bounded, TAGS_ROW));
    check("a bound of none", comes_to(filter, bounded, 0, ODFILTER_TOO_COSTLY));
    check("a bound of one less", comes_to(filter, bounded, 2, ODFILTER_TOO_COSTLY));
    check("a bound of as many", comes_to(filter, bounded, 3, ODFILTER_OK));
    check("the next row has the whole bound", is_kept(filter, bounded, TAGS_ROW));
    check("the greatest bound", comes_to(filter, bounded, UINT64_MAX, ODFILTER_OK));
    check("no lambda operator", comes_to(plain, bounded, 0, ODFILTER_OK));
    check("no row", judged(filter, bounded, "{}", &returned) == ODFILTER_ROW_FAULT);
    check("too costly after a row at fault", comes_to(filter, bounded, 0, ODFILTER_TOO_COSTLY));
    lines_within(filter, bounded, 2, ODFILTER_TOO_COSTLY);
    lines_within(filter, bounded, 3, ODFILTER_OK);
    lines_within(plain, bounded, 0, ODFILTER_OK);
    check("no bound of a judge of the filter", is_next_kept(own, TAGS_ROW));
    check("a bound of none of it", next_comes_to(own, 0, ODFILTER_TOO_COSTLY));
    check("a bound of one less of it", next_comes_to(own, 2, ODFILTER_TOO_COSTLY));
    check("a bound of as many of it", next_comes_to(own, 3, ODFILTER_OK));
    check("its next row has the whole bound", is_next_kept(own, TAGS_ROW));
    check("its greatest bound", next_comes_to(own, UINT64_MAX, ODFILTER_OK));
    odfilter_free(&own);
    odfilter_free(&plain);
    odfilter_free(&filter);
    odfilter_free(&bounded);
    odfilter_free(&tags);
    odfilter_free(&tags_schema);
}

/* a filter or a query that is refused: START and STOP, or the number */
static void refused(const char *text, int is_query, uint32_t status, odfilter_answer wanted)
{
    odfilter_handle *filter = type;
    odfilter_answer answer = unwritten();
    odfilter_bytes bytes = bytes_of(text);
    uint32_t returned = (is_query ? odfilter_check_query : odfilter_check)(type, bytes, &filter, &answer);
    check(text, returned == status && !filter);
    check(text, is_answer(answer, wanted));
    drop(bytes);
}

static odfilter_answer span(uint32_t fault, size_t start, size_t stop)
{
    odfilter_answer answer = {0};
    answer.fault = fault;
    answer.start = start;
    answer.stop = stop;
    return answer;
}

static void refusals(void)
{
    refused("Active and Foo eq 1", 0, ODFILTER_TYPE_FAULT, span(ODFILTER_TYPE_UNKNOWN_PROPERTY, 11, 14));
    refused("Active and #", 0, ODFILTER_TEXT_FAULT, span(ODFILTER_TEXT_BAD_CHARACTER, 11, 12));
    refused("Active and", 0, ODFILTER_SYNTAX_FAULT, span(ODFILTER_SYNTAX_UNEXPECTED, 10, 10));
    refused("$filter=Active%20and%20Foo%20eq%201", 1, ODFILTER_TYPE_FAULT,
            span(ODFILTER_TYPE_UNKNOWN_PROPERTY, 11, 14));
    refused("a=1&b=%4", 1, ODFILTER_QUERY_FAULT, at_line(ODFILTER_QUERY_BAD_ESCAPE, 6));
    refused("filter=a&&filter=b", 1, ODFILTER_QUERY_FAULT, at_line(ODFILTER_QUERY_REPEATED, 2));
    refused("a=1&b=2", 1, ODFILTER_NO_FILTER, span(0, 0, 0));
}

int main(void)
{
    schema = schema_of(DOCUMENT);
    type = type_of(schema, "Mini.Item");
    judge = new_judge();
    verdicts_and_faults();
    beginnings();
    lines();
    long_lines();
    moments();
    moments_of_a_filter();
    any_filter();
    bounds();
    refusals();
    odfilter_free(&judge);
    odfilter_free(&type);
    odfilter_free(&schema);
    return end();
}
