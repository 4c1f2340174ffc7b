/* A filter as conditions of SQL: each form, what the lines about a table say, and why there are none; as a handle, with
 * the values of the parameters. */
#include "checks.h"

#define TABLE                                                                                                          \
    "{\"$Version\":\"4.01\",\"Mini\":{\"Item\":{\"$Kind\":\"EntityType\",\"ID\":{\"$Type\":\"Edm.Int32\"},"            \
    "\"Name\":{},\"At\":{\"$Type\":\"Edm.DateTimeOffset\"}}}}"

struct asked {
    const char *about, *filter, *how;
    uint32_t form, status;
    const char *parts[2]; /* what stands in the text, where there is one */
};

static const struct asked cases[] = {
    {"PostgreSQL, columns", "ID eq 7", "", ODFILTER_POSTGRESQL_COLUMNS, ODFILTER_OK, {"t.\\\"ID\\\"", "$1::bigint"}},
    {"SQLite, columns", "ID eq 7", "", ODFILTER_SQLITE_COLUMNS, ODFILTER_OK, {"t.\\\"ID\\\"", "?1"}},
    {"PostgreSQL, JSON", "ID eq 7", "", ODFILTER_POSTGRESQL_JSON, ODFILTER_OK, {"t.\\\"doc\\\"", "[7]"}},
    {"SQLite, JSON of a name", "ID eq 7", "\nrow", ODFILTER_SQLITE_JSON, ODFILTER_OK, {"t.\\\"row\\\"", "[7]"}},
    {"no byte of a literal", "Name eq 'needle'", "", ODFILTER_SQLITE_COLUMNS, ODFILTER_OK,
     {"t.\\\"Name\\\"", "[\"needle\"]"}},
    {"a column of another name", "ID eq 7", "\nName=n\nID=number", ODFILTER_SQLITE_COLUMNS, ODFILTER_OK,
     {"t.\\\"number\\\"", "[7]"}},
    {"the first line about it", "ID eq 7", "\nID=one\nID=two\n", ODFILTER_SQLITE_COLUMNS, ODFILTER_OK,
     {"t.\\\"one\\\"", "[7]"}},
    {"a name with a quote", "ID eq 7", "\nID=a\"b", ODFILTER_POSTGRESQL_COLUMNS, ODFILTER_OK,
     {"t.\\\"a\\\"\\\"b\\\"", "[7]"}},
    {"what may fault", "ID div ID eq 1", "", ODFILTER_SQLITE_COLUMNS, ODFILTER_OK, {"\"fault\"", "\"outcome\""}},
    {"with now", "year(now()) eq ID", "2024-02-29T12:30:15Z", ODFILTER_SQLITE_COLUMNS, ODFILTER_OK,
     {"\"keep\"", "\"outcome\""}},
    {"no form", "ID eq 7", "", 4, ODFILTER_UNKNOWN_NUMBER, {0}},
    {"no moment", "ID eq 7", "yesterday", ODFILTER_SQLITE_COLUMNS, ODFILTER_NOT_A_MOMENT, {0}},
    {"a moment is needed", "year(now()) eq ID", "\nID=x", ODFILTER_SQLITE_COLUMNS, ODFILTER_MOMENT_NEEDED, {0}},
    {"a column of nothing", "ID eq 7", "\nIDs=x", ODFILTER_SQLITE_COLUMNS, ODFILTER_UNKNOWN_COLUMN, {0}},
    {"no column", "ID eq 7", "\nID", ODFILTER_SQLITE_COLUMNS, ODFILTER_UNKNOWN_COLUMN, {0}},
    {"not UTF-8", "ID eq 7", "\n\xff", ODFILTER_SQLITE_JSON, ODFILTER_NOT_UTF8, {0}},
};

static int holds(odfilter_buffer text, size_t length, const char *part)
{
    size_t at, count = part ? strlen(part) : 0;
    for (at = 0; at + count <= length; at++)
        if (!part || !memcmp(text.at + at, part, count))
            return 1;
    return 0;
}

/* whether JSON has a text as a string: those of conditions have quotes, and no other character that JSON escapes */
static int is_string_in(odfilter_buffer json, size_t length, odfilter_buffer text, size_t count)
{
    char *escaped = block(2 * count + 3), *at = escaped;
    size_t index;
    int is_well;
    *at++ = '"';
    for (index = 0; index < count; index++) {
        if (text.at[index] == '"')
            *at++ = '\\';
        *at++ = text.at[index];
    }
    *at++ = '"';
    *at = 0;
    is_well = holds(json, length, escaped);
    free(escaped);
    return is_well;
}

/* a statement of the handle is that of the JSON, and has so many values and no more */
static void statement(const odfilter_handle *conditions, const struct asked *asked, uint32_t which, odfilter_buffer json,
                      size_t length)
{
    odfilter_buffer text = {block(1 << 14), 1 << 14}, value = {block(64), 64}, small = {block(1), 0};
    odfilter_answer answer = unwritten(), wanted = {0};
    uint32_t index;
    check(asked->about, odfilter_sql_text(conditions, which, text, &answer) == ODFILTER_OK);
    wanted.number = answer.number;
    wanted.length = answer.length;
    check(asked->about, is_answer(answer, wanted) && is_string_in(json, length, text, answer.length));
    check(asked->about, odfilter_sql_text(conditions, which, small, &answer) == ODFILTER_TOO_SMALL);
    wanted.number = 0;
    check(asked->about, is_answer(answer, wanted));
    odfilter_sql_text(conditions, which, text, &wanted);
    for (index = 0; index < wanted.number; index++)
        check(asked->about, odfilter_sql_value(conditions, which, index, value, &answer) == ODFILTER_OK);
    memset(&wanted, 0, sizeof wanted);
    check(asked->about, odfilter_sql_value(conditions, which, index, value, &answer) == ODFILTER_UNKNOWN_NUMBER);
    check(asked->about, is_answer(answer, wanted));
    free(text.at);
    free(value.at);
    free(small.at);
}

/* the same conditions as a handle, or the same status */
static void as_handle(const odfilter_handle *filter, const struct asked *asked, odfilter_buffer json, size_t length)
{
    odfilter_bytes how = bytes_of(asked->how);
    odfilter_handle *made = (odfilter_handle *)filter;
    odfilter_answer answer = unwritten(), wanted = {0};
    check(asked->about, odfilter_new_sql(filter, asked->form, how, &made, &answer) == asked->status);
    check(asked->about, is_answer(answer, wanted) && (made != NULL) == (asked->status == ODFILTER_OK));
    if (made) {
        odfilter_buffer text = {block(1 << 14), 1 << 14};
        int has_fault = holds(json, length, "\"fault\":");
        statement(made, asked, ODFILTER_SQL_OUTCOME, json, length);
        statement(made, asked, ODFILTER_SQL_KEEP, json, length);
        if (has_fault)
            statement(made, asked, ODFILTER_SQL_FAULT, json, length);
        else
            check(asked->about, odfilter_sql_text(made, ODFILTER_SQL_FAULT, text, &answer) == ODFILTER_UNKNOWN_NUMBER);
        check(asked->about, odfilter_sql_text(made, 3, text, &answer) == ODFILTER_UNKNOWN_NUMBER);
        free(text.at);
    }
    odfilter_free(&made);
    drop(how);
}

static void conditions(const odfilter_handle *filter, const struct asked *asked)
{
    odfilter_buffer text = {block(1 << 14), 1 << 14}, small;
    odfilter_bytes how = bytes_of(asked->how);
    odfilter_answer answer = unwritten(), wanted = {0};
    check(asked->about, odfilter_sql(filter, asked->form, how, text, &answer) == asked->status);
    wanted.length = answer.length;
    check(asked->about, is_answer(answer, wanted) && (answer.length > 0) == (asked->status == ODFILTER_OK));
    if (asked->status == ODFILTER_OK) {
        check(asked->about, holds(text, answer.length, asked->parts[0]) && holds(text, answer.length, asked->parts[1]));
        small.length = wanted.length - 1;
        small.at = block(small.length);
        answer = unwritten();
        check(asked->about, odfilter_sql(filter, asked->form, how, small, &answer) == ODFILTER_TOO_SMALL);
        check(asked->about, is_answer(answer, wanted) && small.at[0] == 0x5a);
        free(small.at);
    } else
        check(asked->about, text.at[0] == 0x5a);
    as_handle(filter, asked, text, wanted.length);
    drop(how);
    free(text.at);
}

/* a literal and a name with U+0000, and more than SQLite's parser stores */
static void unsayable(const odfilter_handle *type)
{
    static const char nul[] = "Name eq 'a\0'", name[] = "\na\0b";
    char deep[2000] = "";
    odfilter_bytes text = {nul, sizeof nul - 1}, how = {name, sizeof name - 1}, none = {NULL, 0};
    odfilter_buffer room = {block(1 << 14), 1 << 14};
    odfilter_answer answer;
    odfilter_handle *filter = NULL;
    int level;
    check("a literal with NUL", odfilter_check(type, text, &filter, &answer) == ODFILTER_OK);
    check("it is said of it", odfilter_sql(filter, ODFILTER_SQLITE_COLUMNS, none, room, &answer) == ODFILTER_UNSAYABLE);
    odfilter_free(&filter);
    filter = filter_of(type, "ID eq 7");
    check("a name with NUL", odfilter_sql(filter, ODFILTER_POSTGRESQL_JSON, how, room, &answer) == ODFILTER_UNSAYABLE);
    odfilter_free(&filter);
    for (level = 0; level < 60; level++)
        strcat(deep, "(ID add ");
    strcat(deep, "ID");
    for (level = 0; level < 60; level++)
        strcat(deep, ")");
    strcat(deep, " eq 1");
    filter = filter_of(type, deep);
    check("too deep", odfilter_sql(filter, ODFILTER_SQLITE_COLUMNS, none, room, &answer) == ODFILTER_TOO_DEEP);
    check("not for PostgreSQL", odfilter_sql(filter, ODFILTER_POSTGRESQL_COLUMNS, none, room, &answer) != ODFILTER_TOO_DEEP);
    odfilter_free(&filter);
    free(room.at);
}

struct valued {
    const char *filter, *text;
    uint32_t form, which, kind;
    uint64_t number;
};

static const struct valued values[] = {
    {"ID eq 7", "7", ODFILTER_SQLITE_COLUMNS, ODFILTER_SQL_KEEP, ODFILTER_VALUE_WHOLE, 7},
    {"ID gt -7", "-7", ODFILTER_SQLITE_COLUMNS, ODFILTER_SQL_OUTCOME, ODFILTER_VALUE_WHOLE, (uint64_t)-7},
    {"ID gt -9223372036854775808", "-9223372036854775808", ODFILTER_POSTGRESQL_COLUMNS, ODFILTER_SQL_KEEP,
     ODFILTER_VALUE_WHOLE, (uint64_t)1 << 63},
    {"Name eq '7'", "7", ODFILTER_POSTGRESQL_JSON, ODFILTER_SQL_KEEP, ODFILTER_VALUE_TEXT, 0},
    {"Name ne 'O''Neil'", "O'Neil", ODFILTER_SQLITE_JSON, ODFILTER_SQL_KEEP, ODFILTER_VALUE_TEXT, 0},
    {"At gt 1970-01-01T01:00:00+01:00", "062135769600000000000", ODFILTER_SQLITE_COLUMNS, ODFILTER_SQL_KEEP,
     ODFILTER_VALUE_INSTANT, 0},
    {"At gt 1970-01-01T00:00:01Z", "1000000000", ODFILTER_POSTGRESQL_COLUMNS, ODFILTER_SQL_KEEP, ODFILTER_VALUE_INSTANT,
     0},
};

/* the first value: written whole or not at all, and its kind and number reported where it was written */
static void value(const odfilter_handle *type, const struct valued *it)
{
    static const odfilter_bytes how = {NULL, 0};
    odfilter_handle *filter = filter_of(type, it->filter), *conditions = NULL;
    odfilter_answer answer;
    size_t length;
    check(it->filter, odfilter_new_sql(filter, it->form, how, &conditions, &answer) == ODFILTER_OK);
    for (length = 0; length <= strlen(it->text) + 1; length++) {
        odfilter_buffer room = {block(length + 1), length};
        odfilter_answer wanted = {0};
        int is_whole = length >= strlen(it->text);
        uint32_t status = is_whole ? ODFILTER_OK : ODFILTER_TOO_SMALL;
        answer = unwritten();
        wanted.length = strlen(it->text);
        wanted.verdict = is_whole ? it->kind : 0;
        wanted.number = is_whole ? it->number : 0;
        check(it->filter, odfilter_sql_value(conditions, it->which, 0, room, &answer) == status);
        check(it->filter, is_answer(answer, wanted));
        check(it->filter, is_whole ? !memcmp(room.at, it->text, strlen(it->text)) : room.at[0] == 0x5a);
        check(it->filter, room.at[length] == 0x5a);
        free(room.at);
    }
    odfilter_free(&conditions);
    odfilter_free(&filter);
}

int main(void)
{
    odfilter_handle *schema = schema_of(TABLE), *type = type_of(schema, "Mini.Item");
    size_t number;
    for (number = 0; number < sizeof cases / sizeof *cases; number++) {
        odfilter_handle *filter = filter_of(type, cases[number].filter);
        conditions(filter, &cases[number]);
        odfilter_free(&filter);
    }
    unsayable(type);
    for (number = 0; number < sizeof values / sizeof *values; number++)
        value(type, &values[number]);
    odfilter_free(&type);
    odfilter_free(&schema);
    return end();
}
