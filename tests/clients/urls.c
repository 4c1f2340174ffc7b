/* The filter of a whole query: what is found, where it stands, why it is refused, and what is written into a buffer of
 * each length. */
#include "checks.h"

static odfilter_handle *type;

/* a query, and what odfilter_check_url answers: the status and the fault, its number or span, and of a filter that is
 * found the decoded text and where its option and its value start; both stop where the option does */
struct asked {
    const char *query;
    uint32_t status, fault;
    uint64_t number;
    size_t start, stop;
    const char *text;
    size_t piece_start, value_start, piece_stop;
};

static const struct asked cases[] = {
    {"$filter=Active", ODFILTER_OK, 0, 0, 0, 0, "Active", 0, 8, 14},
    {"filter=Active", ODFILTER_OK, 0, 0, 0, 0, "Active", 0, 7, 13},
    {"$top=5&$filter=ID%20eq%201&$select=Name", ODFILTER_OK, 0, 0, 0, 0, "ID eq 1", 7, 15, 26},
    {"$top=%zz&%24filter=Name%20eq%20'a%26b'", ODFILTER_OK, 0, 0, 0, 0, "Name eq 'a&b'", 9, 19, 38},
    {"$filter=Active%20and%20Foo%20eq%201&x=1", ODFILTER_TYPE_FAULT, ODFILTER_TYPE_UNKNOWN_PROPERTY, 0, 11, 14,
     "Active and Foo eq 1", 0, 8, 35},
    {"x=1&$filter=ID%20eq", ODFILTER_SYNTAX_FAULT, ODFILTER_SYNTAX_UNEXPECTED, 0, 5, 5, "ID eq", 4, 12, 19},
    {"$filter=Name%20eq%20'a", ODFILTER_TEXT_FAULT, ODFILTER_TEXT_UNCLOSED_STRING, 0, 8, 10, "Name eq 'a", 0, 8, 22},
    {"x=1&$filter=&y", ODFILTER_SYNTAX_FAULT, ODFILTER_SYNTAX_UNEXPECTED, 0, 0, 0, "", 4, 12, 12},
    {"x=1&$filter&y", ODFILTER_SYNTAX_FAULT, ODFILTER_SYNTAX_UNEXPECTED, 0, 0, 0, "", 4, 11, 11},
    {"$filter=Active%2", ODFILTER_QUERY_FAULT, ODFILTER_QUERY_BAD_ESCAPE, 14, 0, 0, NULL, 0, 0, 0},
    {"x&%zz=1&$filter=Active", ODFILTER_QUERY_FAULT, ODFILTER_QUERY_BAD_ESCAPE, 2, 0, 0, NULL, 0, 0, 0},
    {"x=1&$filter=%ff", ODFILTER_QUERY_FAULT, ODFILTER_QUERY_NOT_UTF8, 1, 0, 0, NULL, 0, 0, 0},
    {"$filter=Active&x=1&filter=Active", ODFILTER_QUERY_FAULT, ODFILTER_QUERY_REPEATED, 2, 0, 0, NULL, 0, 0, 0},
    {"%20$filter=Foo", ODFILTER_QUERY_FAULT, ODFILTER_QUERY_DISGUISED, 0, 0, 0, NULL, 0, 0, 0},
    {"x=1&x=1;$filter=Foo", ODFILTER_QUERY_FAULT, ODFILTER_QUERY_DISGUISED, 1, 0, 0, NULL, 0, 0, 0},
    {"$filter=Active&%2524filter=Foo", ODFILTER_QUERY_FAULT, ODFILTER_QUERY_DISGUISED, 1, 0, 0, NULL, 0, 0, 0},
    {"[$filter]=Foo", ODFILTER_QUERY_FAULT, ODFILTER_QUERY_DISGUISED, 0, 0, 0, NULL, 0, 0, 0},
    {"/Products?$filter=Foo", ODFILTER_QUERY_FAULT, ODFILTER_QUERY_DISGUISED, 0, 0, 0, NULL, 0, 0, 0},
    {"", ODFILTER_NO_FILTER, 0, 0, 0, 0, NULL, 0, 0, 0},
    {"$top=5&$count=true&x=%zz", ODFILTER_NO_FILTER, 0, 0, 0, 0, NULL, 0, 0, 0},
};

static odfilter_answer wanted_of(const struct asked *asked)
{
    odfilter_answer wanted = {0};
    wanted.fault = asked->fault;
    wanted.number = asked->number;
    wanted.start = asked->start;
    wanted.stop = asked->stop;
    wanted.length = asked->text ? strlen(asked->text) : 0;
    wanted.piece_start = asked->piece_start;
    wanted.value_start = asked->value_start;
    wanted.piece_stop = wanted.value_stop = asked->piece_stop;
    return wanted;
}

/* whether the text stands at the front of a buffer, and what follows is as `block` made it */
static int is_written(odfilter_buffer buffer, const char *text)
{
    size_t length = strlen(text);
    if (memcmp(buffer.at, text, length))
        return 0;
    for (; length < buffer.length; length++)
        if (buffer.at[length] != 0x5a)
            return 0;
    return 1;
}

static void at_length(const struct asked *asked, odfilter_bytes query, size_t length)
{
    odfilter_buffer buffer = {block(length), length};
    odfilter_answer answer = unwritten();
    odfilter_handle *filter = type;
    int is_whole = asked->text && strlen(asked->text) <= length;
    check(asked->query, odfilter_check_url(type, query, buffer, &filter, &answer) == asked->status);
    check(asked->query, is_answer(answer, wanted_of(asked)));
    check(asked->query, is_written(buffer, is_whole ? asked->text : ""));
    check(asked->query, (filter != NULL) == (asked->status == ODFILTER_OK));
    odfilter_free(&filter);
    free(buffer.at);
}

/* the filter is the one of its text */
static void same_as_its_text(const struct asked *asked, odfilter_bytes query)
{
    char text[64], by_url[64], by_text[64];
    odfilter_buffer buffer = {text, sizeof text}, first = {by_url, sizeof by_url}, second = {by_text, sizeof by_text};
    odfilter_answer answer, one, other;
    odfilter_handle *filter = NULL, *plain;
    check(asked->query, odfilter_check_url(type, query, buffer, &filter, &answer) == ODFILTER_OK);
    plain = filter_of(type, asked->text);
    check(asked->query, odfilter_canonical(filter, first, &one) == ODFILTER_OK);
    check(asked->query, odfilter_canonical(plain, second, &other) == ODFILTER_OK);
    check(asked->query, one.length == other.length && !memcmp(by_url, by_text, one.length));
    odfilter_free(&filter);
    odfilter_free(&plain);
}

int main(void)
{
    odfilter_handle *schema = schema_of(DOCUMENT);
    size_t number, length;
    type = type_of(schema, "Mini.Item");
    for (number = 0; number < sizeof cases / sizeof *cases; number++) {
        odfilter_bytes query = bytes_of(cases[number].query);
        for (length = 0; length <= 1 + (cases[number].text ? strlen(cases[number].text) : 0); length++)
            at_length(&cases[number], query, length);
        if (cases[number].status == ODFILTER_OK)
            same_as_its_text(&cases[number], query);
        drop(query);
    }
    odfilter_free(&type);
    odfilter_free(&schema);
    return end();
}
