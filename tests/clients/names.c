/* The names of all statuses and faults, and sentences about faults, and that no other number has one. */
#include "checks.h"

static const char *const status_names[] = {
    [ODFILTER_OK] = "OK",
    [ODFILTER_NULL] = "NULL",
    [ODFILTER_OTHER_KIND] = "OTHER_KIND",
    [ODFILTER_NOT_UTF8] = "NOT_UTF8",
    [ODFILTER_TOO_SMALL] = "TOO_SMALL",
    [ODFILTER_MEMORY] = "MEMORY",
    [ODFILTER_UNKNOWN_TYPE] = "UNKNOWN_TYPE",
    [ODFILTER_NO_FILTER] = "NO_FILTER",
    [ODFILTER_MOMENT_NEEDED] = "MOMENT_NEEDED",
    [ODFILTER_NOT_A_MOMENT] = "NOT_A_MOMENT",
    [ODFILTER_UNKNOWN_NUMBER] = "UNKNOWN_NUMBER",
    [ODFILTER_SCHEMA_FAULT] = "SCHEMA_FAULT",
    [ODFILTER_TEXT_FAULT] = "TEXT_FAULT",
    [ODFILTER_SYNTAX_FAULT] = "SYNTAX_FAULT",
    [ODFILTER_TYPE_FAULT] = "TYPE_FAULT",
    [ODFILTER_QUERY_FAULT] = "QUERY_FAULT",
    [ODFILTER_JSON_FAULT] = "JSON_FAULT",
    [ODFILTER_ROW_FAULT] = "ROW_FAULT",
    [ODFILTER_EVAL_FAULT] = "EVAL_FAULT",
    [ODFILTER_LINE_TOO_LONG] = "LINE_TOO_LONG",
    [ODFILTER_TOO_COSTLY] = "TOO_COSTLY",
    [ODFILTER_UNSAYABLE] = "UNSAYABLE",
    [ODFILTER_TOO_DEEP] = "TOO_DEEP",
    [ODFILTER_UNKNOWN_COLUMN] = "UNKNOWN_COLUMN",
};

/* the faults of each status, by their numbers; 0 is none */
static const char *const fault_names[][14] = {
    [ODFILTER_SCHEMA_FAULT] =
        {
            [ODFILTER_SCHEMA_NOT_JSON] = "NotJson",
            [ODFILTER_SCHEMA_NOT_OBJECT] = "NotObject",
            [ODFILTER_SCHEMA_VERSION] = "Version",
            [ODFILTER_SCHEMA_BAD_TYPE] = "BadType",
            [ODFILTER_SCHEMA_BAD_PROPERTY] = "BadProperty",
            [ODFILTER_SCHEMA_UNKNOWN_BASE] = "UnknownBase",
            [ODFILTER_SCHEMA_BASE_CYCLE] = "BaseCycle",
            [ODFILTER_SCHEMA_PROPERTY_TWICE] = "PropertyTwice",
            [ODFILTER_SCHEMA_BAD_ENUM_MEMBER] = "BadEnumMember",
            [ODFILTER_SCHEMA_TOO_LARGE] = "TooLarge",
        },
    [ODFILTER_TEXT_FAULT] =
        {
            [ODFILTER_TEXT_BAD_CHARACTER] = "BadCharacter",
            [ODFILTER_TEXT_UNCLOSED_STRING] = "UnclosedString",
            [ODFILTER_TEXT_LEFT_OUT_LITERAL] = "LeftOutLiteral",
            [ODFILTER_TEXT_RUN_ON] = "RunOn",
            [ODFILTER_TEXT_TOO_LONG] = "TooLong",
        },
    [ODFILTER_SYNTAX_FAULT] =
        {
            [ODFILTER_SYNTAX_UNEXPECTED] = "Unexpected",
            [ODFILTER_SYNTAX_TOO_DEEP] = "TooDeep",
        },
    [ODFILTER_TYPE_FAULT] =
        {
            [ODFILTER_TYPE_UNKNOWN_PROPERTY] = "UnknownProperty",
            [ODFILTER_TYPE_UNKNOWN_FUNCTION] = "UnknownFunction",
            [ODFILTER_TYPE_ARGUMENT_COUNT] = "ArgumentCount",
            [ODFILTER_TYPE_ARGUMENT_TYPE] = "ArgumentType",
            [ODFILTER_TYPE_OPERAND_TYPES] = "OperandTypes",
            [ODFILTER_TYPE_NOT_COLLECTION] = "NotCollection",
            [ODFILTER_TYPE_VARIABLE_TAKEN] = "VariableTaken",
            [ODFILTER_TYPE_BODY_NOT_BOOLEAN] = "BodyNotBoolean",
            [ODFILTER_TYPE_LITERAL_RANGE] = "LiteralRange",
            [ODFILTER_TYPE_UNKNOWN_ENUM] = "UnknownEnum",
            [ODFILTER_TYPE_TYPE_LEFT_OUT] = "TypeLeftOut",
            [ODFILTER_TYPE_NOT_BOOLEAN] = "NotBoolean",
        },
    [ODFILTER_QUERY_FAULT] =
        {
            [ODFILTER_QUERY_BAD_ESCAPE] = "BadEscape",
            [ODFILTER_QUERY_NOT_UTF8] = "NotUtf8",
            [ODFILTER_QUERY_REPEATED] = "Repeated",
            [ODFILTER_QUERY_OTHER_OPTION] = "OtherOption",
            [ODFILTER_QUERY_DISGUISED] = "Disguised",
        },
    [ODFILTER_ROW_FAULT] =
        {
            [ODFILTER_ROW_NOT_OBJECT] = "NotObject",
            [ODFILTER_ROW_MISSING] = "Missing",
            [ODFILTER_ROW_WRONG_KIND] = "WrongKind",
            [ODFILTER_ROW_NULL_NOT_ALLOWED] = "NullNotAllowed",
            [ODFILTER_ROW_OUT_OF_RANGE] = "OutOfRange",
            [ODFILTER_ROW_BAD_TEXT] = "BadText",
            [ODFILTER_ROW_NOT_EXPANDED] = "NotExpanded",
        },
    [ODFILTER_EVAL_FAULT] =
        {
            [ODFILTER_EVAL_OVERFLOW] = "Overflow",
            [ODFILTER_EVAL_DIVIDE_BY_ZERO] = "DivideByZero",
        },
};

/* the statuses with one fault, of the number 0 */
static const char *const lone_names[] = {
    [ODFILTER_UNKNOWN_TYPE] = "UnknownType",
    [ODFILTER_NO_FILTER] = "NoFilter",
    [ODFILTER_MOMENT_NEEDED] = "MomentNeeded",
    [ODFILTER_NOT_A_MOMENT] = "NotAMoment",
    [ODFILTER_JSON_FAULT] = "Json",
    [ODFILTER_LINE_TOO_LONG] = "LineTooLong",
    [ODFILTER_TOO_COSTLY] = "TooCostly",
    [ODFILTER_UNSAYABLE] = "Nul",
    [ODFILTER_TOO_DEEP] = "TooDeep",
    [ODFILTER_UNKNOWN_COLUMN] = "UnknownColumn",
};

#define STATUSES (sizeof status_names / sizeof *status_names)
#define FAULTS (sizeof *fault_names / sizeof **fault_names)

/* whether a call wrote that name, or none where there is none */
static int is_named(uint32_t returned, const char *room, odfilter_answer answer, const char *name)
{
    odfilter_answer wanted = {0};
    wanted.length = name ? strlen(name) : 0;
    if (!is_answer(answer, wanted))
        return 0;
    return name ? returned == ODFILTER_OK && !memcmp(room, name, strlen(name)) : returned == ODFILTER_UNKNOWN_NUMBER;
}

static void status_at(uint32_t status)
{
    char at[32];
    odfilter_buffer room = {at, sizeof at};
    odfilter_answer answer = unwritten();
    uint32_t returned = odfilter_status_name(status, room, &answer);
    check("the name of a status", is_named(returned, at, answer, status < STATUSES ? status_names[status] : NULL));
}

static const char *name_of_fault(uint32_t status, uint32_t fault)
{
    if (!fault)
        return status < sizeof lone_names / sizeof *lone_names ? lone_names[status] : NULL;
    return status < sizeof fault_names / sizeof *fault_names && fault < FAULTS ? fault_names[status][fault] : NULL;
}

static void fault_at(uint32_t status, uint32_t fault)
{
    char at[32];
    odfilter_buffer room = {at, sizeof at};
    odfilter_answer answer = unwritten();
    uint32_t returned = odfilter_fault_name(status, fault, room, &answer);
    check("the name of a fault", is_named(returned, at, answer, name_of_fault(status, fault)));
}

/* what writes about a fault: a sentence, or an object with all of it */
typedef uint32_t fault_call(const odfilter_handle *, uint32_t, odfilter_bytes, odfilter_buffer, const odfilter_answer *,
                            odfilter_answer *);

/* a text about a fault, with a type and without, and in a buffer that is a byte too small */
static void said_at(fault_call *call, const odfilter_handle *type, uint32_t status, uint32_t fault)
{
    char at[2048];
    odfilter_buffer room = {at, sizeof at};
    odfilter_answer about = {0}, answer = unwritten(), none = {0}, wanted = {0};
    odfilter_bytes text = bytes_of("Foo eq 1");
    int is_known = name_of_fault(status, fault) != NULL;
    uint32_t returned;
    about.fault = fault;
    about.stop = 3;
    returned = call(type, status, text, room, &about, &answer);
    check("a sentence", returned == (is_known ? ODFILTER_OK : ODFILTER_UNKNOWN_NUMBER));
    wanted.length = answer.length;
    check("a sentence's answer", is_answer(answer, is_known ? wanted : none));
    check("a sentence ends", !is_known || (answer.length && answer.length <= sizeof at));
    if (is_known) {
        room.length = answer.length - 1;
        returned = call(type, status, text, room, &about, &answer);
        check("a sentence in a small buffer", returned == ODFILTER_TOO_SMALL && is_answer(answer, wanted));
    }
    drop(text);
}

/* the type and the name in question are in it */
static void sentence_of_a_filter(const odfilter_handle *type)
{
    char at[2048];
    odfilter_buffer room = {at, sizeof at - 1};
    odfilter_answer refusal, answer;
    odfilter_handle *filter = NULL;
    odfilter_bytes text = bytes_of("Foo eq 1");
    check("a refused filter", odfilter_check(type, text, &filter, &refusal) == ODFILTER_TYPE_FAULT);
    check("its sentence",
          odfilter_fault_text(type, ODFILTER_TYPE_FAULT, text, room, &refusal, &answer) == ODFILTER_OK);
    at[answer.length] = 0;
    check("its sentence names the type and the property", strstr(at, "Mini.Item") && strstr(at, "Foo"));
    drop(text);
}

/* a fault as an object is that text, of which the buffer needs no zero after it */
static void object_is(const char *name, const odfilter_handle *type, uint32_t status, const char *about,
                      const odfilter_answer *fault, const char *wanted)
{
    char at[2048];
    odfilter_buffer room = {at, sizeof at};
    odfilter_answer answer = unwritten(), reported = {0};
    odfilter_bytes text = bytes_of(about);
    reported.length = strlen(wanted);
    check(name, odfilter_fault_json(type, status, text, room, fault, &answer) == ODFILTER_OK);
    check(name, is_answer(answer, reported) && !memcmp(at, wanted, strlen(wanted)));
    drop(text);
}

#define REST "\"names\":[],\"number\":null,\"path\":null,\"file\":null,\"line\":null,\"column\":null}"
#define OF_FOX "Name eq '\xf0\x9f\xa6\x8a' and name eq 'b'"

/* both spans of a refused filter, the sentence and what to write instead; without a type neither of these two */
static void object_of_a_filter(const odfilter_handle *type)
{
    odfilter_answer refusal;
    odfilter_handle *filter = NULL;
    odfilter_bytes text = bytes_of(OF_FOX);
    check("a refused filter", odfilter_check(type, text, &filter, &refusal) == ODFILTER_TYPE_FAULT);
    object_is("its object", type, ODFILTER_TYPE_FAULT, OF_FOX, &refusal,
              "{\"class\":\"typing\",\"code\":1,\"name\":\"UnknownProperty\",\"text\":\"" OF_FOX "\","
              "\"span\":{\"start\":19,\"end\":23},\"utf16_span\":{\"start\":17,\"end\":21},"
              "\"sentence\":\"Type 'Mini.Item' has no property 'name'. Did you mean 'Name'?\","
              "\"suggestions\":[{\"start\":19,\"end\":23,\"text\":\"Name\"}]," REST);
    object_is("its object without a type", NULL, ODFILTER_TYPE_FAULT, OF_FOX, &refusal,
              "{\"class\":\"typing\",\"code\":1,\"name\":\"UnknownProperty\",\"text\":\"" OF_FOX "\","
              "\"span\":{\"start\":19,\"end\":23},\"utf16_span\":{\"start\":17,\"end\":21},"
              "\"sentence\":\"There is no property 'name'.\",\"suggestions\":[]," REST);
    drop(text);
}

/* of lines the number and the path */
static void object_of_a_line(const odfilter_handle *type)
{
    static const char lines[] = ROW "\n" BAD_ROW "\n";
    char kept[sizeof lines];
    odfilter_buffer room = {kept, sizeof kept};
    odfilter_handle *filter = filter_of(type, FILTER), *judge = NULL;
    odfilter_bytes rows = bytes_of(lines);
    odfilter_answer fault;
    check("a judge", odfilter_new_judge(&judge) == ODFILTER_OK);
    check("a line at fault", odfilter_filter_lines(filter, judge, rows, room, &fault) == ODFILTER_ROW_FAULT);
    object_is("its object", type, ODFILTER_ROW_FAULT, "Part/Size", &fault,
              "{\"class\":\"row\",\"code\":5,\"name\":\"OutOfRange\",\"text\":null,\"span\":null,\"utf16_span\":null,"
              "\"sentence\":\"The value of 'Part/Size' is outside the range of its type.\",\"suggestions\":[],"
              "\"names\":[],\"number\":null,\"path\":\"Part/Size\",\"file\":null,\"line\":2,\"column\":null}");
    drop(rows);
    odfilter_free(&judge);
    odfilter_free(&filter);
}

static void texts_that_are_no_utf8(const odfilter_handle *type)
{
    char at[2048];
    odfilter_buffer room = {at, sizeof at};
    odfilter_answer about = {0}, answer, none = {0};
    odfilter_bytes text = bytes_of("\xff");
    about.fault = 1;
    check("a text that is no UTF-8",
          odfilter_fault_text(type, ODFILTER_SYNTAX_FAULT, text, room, &about, &answer) == ODFILTER_NOT_UTF8);
    check("of it nothing is reported", is_answer(answer, none));
    check("an object of a text that is no UTF-8",
          odfilter_fault_json(type, ODFILTER_SYNTAX_FAULT, text, room, &about, &answer) == ODFILTER_NOT_UTF8);
    check("of it nothing is reported", is_answer(answer, none));
    check("a query that is no UTF-8",
          odfilter_fault_text(type, ODFILTER_QUERY_FAULT, text, room, &about, &answer) == ODFILTER_OK);
    check("an object of a query that is no UTF-8",
          odfilter_fault_json(type, ODFILTER_QUERY_FAULT, text, room, &about, &answer) == ODFILTER_OK);
    drop(text);
}

int main(void)
{
    odfilter_handle *schema = schema_of(DOCUMENT), *type = type_of(schema, "Mini.Item");
    static const uint32_t far[] = {UINT32_C(0x100), UINT32_C(0x10000), UINT32_C(0x7fffffff), UINT32_MAX};
    uint32_t status, fault;
    size_t number;
    for (status = 0; status < 40; status++) {
        status_at(status);
        for (fault = 0; fault < 40; fault++) {
            fault_at(status, fault);
            said_at(odfilter_fault_text, type, status, fault);
            said_at(odfilter_fault_text, NULL, status, fault);
            said_at(odfilter_fault_json, type, status, fault);
            said_at(odfilter_fault_json, NULL, status, fault);
        }
        for (number = 0; number < 4; number++) {
            fault_at(status, far[number] + 1);
            said_at(odfilter_fault_text, type, status, far[number] + 1);
            said_at(odfilter_fault_json, type, status, far[number] + 1);
        }
    }
    for (number = 0; number < 4; number++) {
        status_at(far[number]);
        status_at(far[number] + 1);
        fault_at(far[number] + ODFILTER_EVAL_FAULT, ODFILTER_EVAL_OVERFLOW);
    }
    sentence_of_a_filter(type);
    object_of_a_filter(type);
    object_of_a_line(type);
    texts_that_are_no_utf8(type);
    odfilter_free(&type);
    odfilter_free(&schema);
    return end();
}
