/* odfilter: OData 4.01 filters, checked against a schema and judged on rows.
 *
 * In short:
 *
 *     odfilter_handle *schema = NULL, *type = NULL, *filter = NULL;
 *     odfilter_answer answer;
 *     char names[256];
 *     odfilter_bytes name = {"Shop.Product", 12};
 *     odfilter_buffer buffer = {names, sizeof names};
 *     odfilter_read_schema(document, buffer, &schema, &answer);
 *     odfilter_find_type(schema, name, &type);
 *     if (odfilter_check(type, text, &filter, &answer) == ODFILTER_OK) ...
 *     odfilter_free(&filter);
 *
 * The filter of a URL, and a caret under its fault:
 *
 *     char decoded[4096];
 *     odfilter_buffer into = {decoded, sizeof decoded};
 *     uint32_t status = odfilter_check_url(type, query, into, &filter, &answer);
 *     if (status >= ODFILTER_TEXT_FAULT && status <= ODFILTER_TYPE_FAULT && answer.length <= sizeof decoded)
 *         printf("%.*s\n%*s^\n", (int)answer.length, decoded, (int)answer.start, "");
 *
 * EVERY CALL returns a status: ODFILTER_OK, or why it did nothing (ODFILTER_ names below). No call ends the
 * program, waits, prints, or stores anything of its own: there is no global state.
 *
 * BYTES are borrowed for the call and no longer. They are not changed, need no NUL at their end, and may have
 * any values; where a call takes a text, bytes that are not UTF-8 are ODFILTER_NOT_UTF8. A length of 0
 * is an empty text, at any address, NULL too. NULL with another length is ODFILTER_NULL, and so is any other address
 * that is NULL, but for buffers: then nothing is looked at and nothing written. A length is less than 2^63.
 *
 * BUFFERS, each an odfilter_buffer, are the caller's: a call writes a text into one, without a NUL after it. A text is
 * written whole or not at all: where it has more bytes than the buffer, the status is ODFILTER_TOO_SMALL, `length` of
 * the answer is how many are needed, and the buffer is unchanged. A buffer of length 0 asks for the length, at any
 * address, NULL too. NULL with another length is ODFILTER_NULL.
 *
 * HANDLES are made by calls that take an `odfilter_handle **`: where they return ODFILTER_OK it points to the new
 * handle, and else, but for ODFILTER_NULL, to NULL. Initialise the variable to NULL, and free a handle in it before the
 * call: the old value is overwritten. All that a call allocates belongs to a handle and is freed with it, by
 * odfilter_free alone.
 * A handle that was made from another owns what it needs of it, so handles may be freed in any order. A handle of
 * another kind than a call requires is ODFILTER_OTHER_KIND, and NULL is ODFILTER_NULL. A call that returns another
 * status than ODFILTER_OK leaves the handles that it was given unchanged, but for the path that a judge stores.
 *
 * FLAT CALLS, at the end, are the same calls under further names, for languages that do not pass a struct by value.
 *
 * THREADS. Schemas, types, filters and conditions are only read: several threads may use one at once. A judge is used
 * by one call at a time, so each thread has its own. A handle is freed when no call uses it. What one thread made may
 * be used and freed by another that learned of it by a lock, a start or a join of a thread, or a sequentially
 * consistent atomic. No call is for a signal handler, or for the child of a fork of a process with threads.
 *
 * WHAT THE CALLER GUARANTEES: an address that is not NULL is that of as many bytes as its length says, or of what its
 * type says; a handle comes from this library and was not freed; buffers, bytes, handle variables and answers of
 * one call do not overlap. 256 KiB of stack suffice for the deepest texts tested.
 */
#ifndef ODFILTER_H
#define ODFILTER_H

#include <stddef.h>
#include <stdint.h>

#ifdef __cplusplus
extern "C" {
#endif

/* ---- Statuses. The names are those that odfilter_status_name writes, without ODFILTER_. */

#define ODFILTER_OK 0u
#define ODFILTER_NULL 1u           /* an address that may not be NULL is */
#define ODFILTER_OTHER_KIND 2u     /* a handle of another kind than the call requires */
#define ODFILTER_NOT_UTF8 3u       /* a text that is not UTF-8 */
#define ODFILTER_TOO_SMALL 4u      /* more bytes than the buffer has: `length` is how many */
#define ODFILTER_MEMORY 5u         /* an allocation failed */
#define ODFILTER_UNKNOWN_TYPE 6u   /* the schema has no entity type of that name */
#define ODFILTER_NO_FILTER 7u      /* no option of the query is the filter */
#define ODFILTER_MOMENT_NEEDED 8u  /* the filter calls now(), and the judge has no moment */
#define ODFILTER_NOT_A_MOMENT 9u   /* the text is not a moment */
#define ODFILTER_UNKNOWN_NUMBER 10u /* no status, fault, form, statement or parameter has that number */

/* Why a document, a filter or a query is refused: `fault` of the answer is the number of the fault, below. */
#define ODFILTER_SCHEMA_FAULT 16u
#define ODFILTER_TEXT_FAULT 17u    /* no tokens; `start` and `stop` */
#define ODFILTER_SYNTAX_FAULT 18u  /* no tree; `start` and `stop` */
#define ODFILTER_TYPE_FAULT 19u    /* no types; `start` and `stop` */
#define ODFILTER_QUERY_FAULT 20u   /* `number` */

/* Why a row has no verdict. */
#define ODFILTER_JSON_FAULT 21u    /* the row is not JSON in UTF-8; `fault` is 0 */
#define ODFILTER_ROW_FAULT 22u     /* it is not an entity of the filter's type; odfilter_path says where */
#define ODFILTER_EVAL_FAULT 23u    /* the filter has no value on it */
#define ODFILTER_LINE_TOO_LONG 24u /* a line of over 1,048,576 bytes; `fault` is 0 */
#define ODFILTER_TOO_COSTLY 25u    /* the filter costs more on it than odfilter_set_bound allows; `fault` is 0 */

/* Why a filter has no conditions of SQL; `fault` is 0. */
#define ODFILTER_UNSAYABLE 26u      /* a literal or the name of a column holds U+0000, which no engine takes */
#define ODFILTER_TOO_DEEP 27u       /* the filter nests over 100 levels, or the SQL too deeply for the engine */
#define ODFILTER_UNKNOWN_COLUMN 28u /* a line about columns names no property of the filter's type */

/* ---- Faults, by their status. The names are those that odfilter_fault_name writes. */

/* ODFILTER_SCHEMA_FAULT. After each: the names that it carries. */
#define ODFILTER_SCHEMA_NOT_JSON 1u
#define ODFILTER_SCHEMA_NOT_OBJECT 2u
#define ODFILTER_SCHEMA_VERSION 3u
#define ODFILTER_SCHEMA_BAD_TYPE 4u        /* the type or namespace */
#define ODFILTER_SCHEMA_BAD_PROPERTY 5u    /* the type, the property */
#define ODFILTER_SCHEMA_UNKNOWN_BASE 6u    /* the type */
#define ODFILTER_SCHEMA_BASE_CYCLE 7u      /* the type */
#define ODFILTER_SCHEMA_PROPERTY_TWICE 8u  /* the type, the property */
#define ODFILTER_SCHEMA_BAD_ENUM_MEMBER 9u /* the enumeration, the member */
#define ODFILTER_SCHEMA_TOO_LARGE 10u

/* ODFILTER_TEXT_FAULT */
#define ODFILTER_TEXT_BAD_CHARACTER 1u
#define ODFILTER_TEXT_UNCLOSED_STRING 2u
#define ODFILTER_TEXT_LEFT_OUT_LITERAL 3u
#define ODFILTER_TEXT_RUN_ON 4u
#define ODFILTER_TEXT_TOO_LONG 5u

/* ODFILTER_SYNTAX_FAULT */
#define ODFILTER_SYNTAX_UNEXPECTED 1u
#define ODFILTER_SYNTAX_TOO_DEEP 2u

/* ODFILTER_TYPE_FAULT */
#define ODFILTER_TYPE_UNKNOWN_PROPERTY 1u
#define ODFILTER_TYPE_UNKNOWN_FUNCTION 2u
#define ODFILTER_TYPE_ARGUMENT_COUNT 3u
#define ODFILTER_TYPE_ARGUMENT_TYPE 4u
#define ODFILTER_TYPE_OPERAND_TYPES 5u
#define ODFILTER_TYPE_NOT_COLLECTION 6u
#define ODFILTER_TYPE_VARIABLE_TAKEN 7u
#define ODFILTER_TYPE_BODY_NOT_BOOLEAN 8u
#define ODFILTER_TYPE_LITERAL_RANGE 9u
#define ODFILTER_TYPE_UNKNOWN_ENUM 10u
#define ODFILTER_TYPE_TYPE_LEFT_OUT 11u
#define ODFILTER_TYPE_NOT_BOOLEAN 12u

/* ODFILTER_QUERY_FAULT. After each: what `number` is. Options are counted from 0, empty ones too. */
#define ODFILTER_QUERY_BAD_ESCAPE 1u   /* the byte of the '%' */
#define ODFILTER_QUERY_NOT_UTF8 2u     /* the option */
#define ODFILTER_QUERY_REPEATED 3u     /* the option */
#define ODFILTER_QUERY_OTHER_OPTION 4u /* the option; odfilter_check_query only */
#define ODFILTER_QUERY_DISGUISED 5u    /* the option; odfilter_check_url only */

/* ODFILTER_ROW_FAULT. All but the first have a path. */
#define ODFILTER_ROW_NOT_OBJECT 1u
#define ODFILTER_ROW_MISSING 2u
#define ODFILTER_ROW_WRONG_KIND 3u
#define ODFILTER_ROW_NULL_NOT_ALLOWED 4u
#define ODFILTER_ROW_OUT_OF_RANGE 5u
#define ODFILTER_ROW_BAD_TEXT 6u
#define ODFILTER_ROW_NOT_EXPANDED 8u /* a navigation property that the filter follows is absent */

/* ODFILTER_EVAL_FAULT */
#define ODFILTER_EVAL_OVERFLOW 1u
#define ODFILTER_EVAL_DIVIDE_BY_ZERO 2u

/* ---- Forms of odfilter_sql: the engine, and whether each property has a column or one column has the row as JSON. */

#define ODFILTER_POSTGRESQL_COLUMNS 0u
#define ODFILTER_POSTGRESQL_JSON 1u
#define ODFILTER_SQLITE_COLUMNS 2u
#define ODFILTER_SQLITE_JSON 3u

/* ---- Statements of conditions of SQL. */

#define ODFILTER_SQL_OUTCOME 0u /* 0 for false, 1 for true, 2 for null, 3 for Overflow, 4 for DivideByZero */
#define ODFILTER_SQL_KEEP 1u    /* whether the filter is true of the row */
#define ODFILTER_SQL_FAULT 2u   /* whether it has a fault there; no statement where no row can have one */

/* ---- Kinds of the values of their parameters. */

#define ODFILTER_VALUE_WHOLE 0u   /* a whole number of 64 bits */
#define ODFILTER_VALUE_TEXT 1u
#define ODFILTER_VALUE_INSTANT 2u /* a moment, as docs/SQL.md has it stored */

/* ---- Verdicts. A row is kept where its verdict is ODFILTER_TRUE. */

#define ODFILTER_FALSE 0u
#define ODFILTER_TRUE 1u
#define ODFILTER_NO_TRUTH_VALUE 2u /* null */

/* ---- Types */

/* A schema, a type, a filter, a judge, or conditions of SQL. */
typedef struct odfilter_handle odfilter_handle;

/* Bytes that are borrowed for a call. */
typedef struct odfilter_bytes {
    const char *at;
    size_t length;
} odfilter_bytes;

/* A buffer for a text. */
typedef struct odfilter_buffer {
    char *at;
    size_t length;
} odfilter_buffer;

/* What a call reports besides its status. A call writes all of it, whatever the status (but for ODFILTER_NULL): what
 * the call does not report is 0. */
typedef struct odfilter_answer {
    uint32_t fault;   /* the number of the fault, where the status is one of the _FAULT ones; else 0 */
    uint32_t verdict; /* of a judged row; the kind of a value of SQL */
    size_t start;     /* where the fault is in the filter's text (of a query, decoded): its first byte, from 0 */
    size_t stop;      /* and the byte after the last */
    uint64_t number;  /* a query's fault's number; the line, from 1, of a run's; odfilter_needs_moment's 0 or 1; a count
                       * or depth of a filter; how many parameters a statement has; a value that is a whole number */
    size_t length;    /* how many bytes were written, or are needed */
    size_t first;     /* of the two names of a schema's fault, how many bytes the first has */
    uint64_t rows;    /* how many rows a run judged */
    uint64_t kept;    /* how many of them it kept */
    size_t piece_start; /* where the filter's option stands in the query of odfilter_check_url: its first byte */
    size_t piece_stop;  /* and the byte after the last */
    size_t value_start; /* where the option's value stands in it, still encoded: its first byte */
    size_t value_stop;  /* and the byte after the last, which is piece_stop */
} odfilter_answer;

/* ---- A schema and its types */

/* Reads a CSDL JSON 4.01 document.
 *
 * ODFILTER_OK: `schema` is a schema. ODFILTER_SCHEMA_FAULT: `fault` says which, and the names that it carries have
 * been written into `names`, one directly after the other: `length` bytes, of which `first` are the first name.
 * Where the buffer is smaller than `length`, none was written (the status stays ODFILTER_SCHEMA_FAULT). Bytes that
 * are not UTF-8 are not JSON: ODFILTER_SCHEMA_NOT_JSON.
 * ODFILTER_NULL: any of the four is. ODFILTER_MEMORY. */
uint32_t odfilter_read_schema(odfilter_bytes document, odfilter_buffer names, odfilter_handle **schema,
                              odfilter_answer *answer);

/* Finds the entity type of that name, with its namespace or the alias of that.
 *
 * ODFILTER_OK: `type` is the type, with its schema. ODFILTER_UNKNOWN_TYPE. ODFILTER_NULL: any of the three is.
 * ODFILTER_OTHER_KIND: `schema` is not a schema. ODFILTER_NOT_UTF8. ODFILTER_MEMORY. */
uint32_t odfilter_find_type(const odfilter_handle *schema, odfilter_bytes name, odfilter_handle **type);

/* Writes the entity and complex types of a schema, or a type alone, in lines: of each its kind and name, and then its
 * properties, those of its base first.
 *
 *     entity Mini.Item
 *       ID Edm.Int32
 *       Name Edm.String nullable
 *       Parts Collection(Mini.Part) navigation
 *       Weight ? not read
 *     complex Mini.Part
 *       Size Edm.Byte
 *
 * Each line ends with a line feed. That of a property has two spaces, its name and its type, `?` where its type is not
 * read, so that neither a filter nor a row can have it; after these whether it is `nullable`, a `navigation` property
 * and `not read`, in this order. Types, and the own properties of each, stand in the byte order of their names. Further
 * words may be added at the end of a line.
 *
 * ODFILTER_OK: `length` bytes have been written. ODFILTER_TOO_SMALL: `length` are needed. ODFILTER_NULL: any of the
 * three is. ODFILTER_OTHER_KIND: `given` is neither a schema nor a type. ODFILTER_MEMORY. */
uint32_t odfilter_types(const odfilter_handle *given, odfilter_buffer text, odfilter_answer *answer);

/* ---- Filters */

/* Checks a filter of the entities of a type.
 *
 * ODFILTER_OK: `filter` is the filter. ODFILTER_TEXT_FAULT, ODFILTER_SYNTAX_FAULT, ODFILTER_TYPE_FAULT: the filter
 * is refused, `fault`, `start` and `stop` say why and where. ODFILTER_NULL: any of the four is.
 * ODFILTER_OTHER_KIND: `type` is not a type. ODFILTER_NOT_UTF8. ODFILTER_MEMORY. */
uint32_t odfilter_check(const odfilter_handle *type, odfilter_bytes text, odfilter_handle **filter,
                        odfilter_answer *answer);

/* Checks the one option filter or $filter of a query string, as it stands in a URL after the '?'.
 *
 * Also ODFILTER_QUERY_FAULT: `fault` and `number`. ODFILTER_NO_FILTER. Never ODFILTER_NOT_UTF8. */
uint32_t odfilter_check_query(const odfilter_handle *type, odfilter_bytes query, odfilter_handle **filter,
                              odfilter_answer *answer);

/* Checks the filter among any options of a whole query, as it stands in a URL after the '?'. Other options are the
 * caller's: only their names are read. A query in which some option is not a filter, but would be one for a reader that
 * is less strict (`%20$filter`, `x=1;$filter=..`, `%2524filter`, `[$filter]`, the `/P?$filter` of a whole URL), is
 * refused as ODFILTER_QUERY_DISGUISED.
 *
 * ODFILTER_OK: `filter` is the filter. ODFILTER_TEXT_FAULT, ODFILTER_SYNTAX_FAULT, ODFILTER_TYPE_FAULT: `fault`, and
 * `start` and `stop` in the decoded text. In each of these cases the decoded text of the filter has `length` bytes and
 * was written into `text`, or, where that is smaller, nothing was (the status stays); piece_start, piece_stop,
 * value_start and value_stop say where the option and its value stand in `query`, so another value can be put there.
 * ODFILTER_QUERY_FAULT: `fault` and `number`; nothing is written. ODFILTER_NO_FILTER. ODFILTER_NULL: any of the five
 * is. ODFILTER_OTHER_KIND: `type` is not a type. ODFILTER_MEMORY: where the filter was found before, its text and
 * where it stands are reported as above. Never ODFILTER_NOT_UTF8 or ODFILTER_TOO_SMALL. */
uint32_t odfilter_check_url(const odfilter_handle *type, odfilter_bytes query, odfilter_buffer text,
                            odfilter_handle **filter, odfilter_answer *answer);

/* Writes the filter's canonical text; and what each of its nodes is, a line a node (docs/CLI.md, "explain").
 *
 * ODFILTER_OK: `length` bytes have been written. ODFILTER_TOO_SMALL: `length` are needed. ODFILTER_NULL: any of
 * the three is. ODFILTER_OTHER_KIND: `filter` is not a filter. ODFILTER_MEMORY. */
uint32_t odfilter_canonical(const odfilter_handle *filter, odfilter_buffer text, odfilter_answer *answer);
uint32_t odfilter_explain(const odfilter_handle *filter, odfilter_buffer text, odfilter_answer *answer);

/* Reports whether the filter calls now(), so that a judge needs a moment for it.
 *
 * ODFILTER_OK: `number` is 1 or 0. ODFILTER_NULL: any of the two is. ODFILTER_OTHER_KIND: `filter` is not a filter. */
uint32_t odfilter_needs_moment(const odfilter_handle *filter, odfilter_answer *answer);

/* Report how many nodes the filter's tree has, and how deep its lambda operators nest, 0 where there is none.
 * For callers that bound what a filter may cost.
 *
 * ODFILTER_OK: `number`. ODFILTER_NULL: any of the two is. ODFILTER_OTHER_KIND: `filter` is not a filter. */
uint32_t odfilter_node_count(const odfilter_handle *filter, odfilter_answer *answer);
uint32_t odfilter_lambda_depth(const odfilter_handle *filter, odfilter_answer *answer);

/* Writes the paths of the properties that the filter reads, from its type: Name, Home/City, and Parts/Qty of the
 * members of a collection. Each is written once, in the order in which they first stand in the filter, and followed by
 * a line feed; Home/City lists Home too, after it. For callers that allow some properties only.
 *
 * ODFILTER_OK: `number` paths have been written, `length` bytes. ODFILTER_TOO_SMALL: `length` are needed.
 * ODFILTER_NULL: any of the three is. ODFILTER_OTHER_KIND: `filter` is not a filter. ODFILTER_MEMORY. */
uint32_t odfilter_property_paths(const odfilter_handle *filter, odfilter_buffer paths, odfilter_answer *answer);

/* Writes what the filter says of the rows of a table, as JSON: {"outcome":..,"keep":..,"fault":..}, each
 * {"text":..,"parameters":[..]}, where `fault` is absent if no row can have one. The texts are expressions over a table
 * that goes by `t`, for WHERE and SELECT; they hold no byte of the filter's literals, and their parameters are numbered
 * from 1 ($1 in PostgreSQL, ?1 in SQLite). docs/SQL.md says how rows are stored and what the three are for.
 *
 * `form` is one of the four above. `how` is lines with line feeds between them. The first is the moment that now()
 * stands for; it may be empty where the filter does not call now(). With columns, each further line is
 * Property=column for a property whose column has another name than the property; an empty line says nothing. With
 * JSON, all after the first line feed is the name of the column, "doc" where nothing is there.
 *
 * ODFILTER_OK: `length` bytes have been written. ODFILTER_TOO_SMALL: `length` are needed. ODFILTER_UNSAYABLE,
 * ODFILTER_TOO_DEEP, ODFILTER_UNKNOWN_COLUMN. ODFILTER_UNKNOWN_NUMBER: there is no such form. ODFILTER_NOT_A_MOMENT,
 * ODFILTER_MOMENT_NEEDED. ODFILTER_NULL: any of the four is. ODFILTER_OTHER_KIND: `filter` is not a filter.
 * ODFILTER_NOT_UTF8: `how` is not. ODFILTER_MEMORY. */
uint32_t odfilter_sql(const odfilter_handle *filter, uint32_t form, odfilter_bytes how, odfilter_buffer text,
                      odfilter_answer *answer);

/* Makes the same conditions as a handle, of which the next two calls read the statements and the values of their
 * parameters. The filter may be freed before it.
 *
 * ODFILTER_OK: `conditions` are the conditions. ODFILTER_NULL: any of the four is. All other statuses are those of
 * odfilter_sql, but for ODFILTER_TOO_SMALL. */
uint32_t odfilter_new_sql(const odfilter_handle *filter, uint32_t form, odfilter_bytes how,
                          odfilter_handle **conditions, odfilter_answer *answer);

/* Writes the text of a statement of conditions: ODFILTER_SQL_OUTCOME, ODFILTER_SQL_KEEP or ODFILTER_SQL_FAULT.
 *
 * ODFILTER_OK: `length` bytes have been written, and `number` is how many parameters it has. ODFILTER_TOO_SMALL:
 * `length` are needed. ODFILTER_UNKNOWN_NUMBER: there is no such statement; of ODFILTER_SQL_FAULT, no row can have a
 * fault. ODFILTER_NULL: any of the three is. ODFILTER_OTHER_KIND: `conditions` are none. */
uint32_t odfilter_sql_text(const odfilter_handle *conditions, uint32_t which, odfilter_buffer text,
                           odfilter_answer *answer);

/* Reports the value of a parameter of such a statement. `index` is counted from 0, so that of $1 or ?1 is 0.
 *
 * ODFILTER_OK: `verdict` is its kind, one of the three above, and the text that the engine is given for it has been
 * written, `length` bytes: a text itself, and the digits of a whole number. A whole number is `number` too, in two's
 * complement: read it as int64_t. ODFILTER_TOO_SMALL: `length` are needed. ODFILTER_UNKNOWN_NUMBER: there is no such
 * statement, or it has no parameter of that index. ODFILTER_NULL: any of the three is. ODFILTER_OTHER_KIND:
 * `conditions` are none. ODFILTER_MEMORY. */
uint32_t odfilter_sql_value(const odfilter_handle *conditions, uint32_t which, uint32_t index, odfilter_buffer text,
                            odfilter_answer *answer);

/* ---- Rows */

/* Makes a judge, which is reused from row to row and for any filter. It has no moment and no bound yet. One call at a
 * time uses it. For many rows of one filter, one by one, odfilter_new_judge_of makes a quicker one.
 *
 * ODFILTER_OK: `judge` is a judge. ODFILTER_NULL: it is. ODFILTER_MEMORY. */
uint32_t odfilter_new_judge(odfilter_handle **judge);

/* Makes a judge of a filter, which it owns with all that it needs. As any other judge it takes any filter too. In
 * addition odfilter_judge_next judges rows by its own filter; this is quicker than odfilter_judge, since the judge
 * stores how such rows are read. It has no moment and no bound yet.
 *
 * ODFILTER_OK: `judge` is a judge. ODFILTER_NULL: any of the two is. ODFILTER_OTHER_KIND: `filter` is not a filter.
 * ODFILTER_MEMORY. */
uint32_t odfilter_new_judge_of(const odfilter_handle *filter, odfilter_handle **judge);

/* Sets the moment that now() stands for, spelled as a moment in a filter: 2026-11-25T09:00:00Z.
 *
 * ODFILTER_OK. ODFILTER_NOT_A_MOMENT: the judge's moment is unchanged. ODFILTER_NULL: any of the two
 * is. ODFILTER_OTHER_KIND: `judge` is not a judge. ODFILTER_NOT_UTF8. */
uint32_t odfilter_set_moment(odfilter_handle *judge, odfilter_bytes moment);

/* Bounds what a filter may cost on a row: how many times it judges the body of an any() or all(), and how many items of
 * lists and members of collections it compares after `in` within one; also, anywhere, the whole KiB of each text that a
 * comparison takes, 8 times those of each text that a function takes, and 16 times those of each that concat, tolower or
 * toupper makes. Each row has the whole bound, and so has each line of odfilter_filter_lines. Without this call there is
 * none. The cost does not measure time: a body counts 1, however long it is.
 *
 * ODFILTER_OK. ODFILTER_NULL: `judge` is. ODFILTER_OTHER_KIND: it is not a judge. */
uint32_t odfilter_set_bound(odfilter_handle *judge, uint64_t most);

/* Judges a row: one JSON object, of any length. It may have white space around it, line feeds too.
 *
 * ODFILTER_OK: `verdict` is ODFILTER_TRUE, ODFILTER_FALSE or ODFILTER_NO_TRUTH_VALUE. ODFILTER_JSON_FAULT; a row
 * of white space alone is one. ODFILTER_ROW_FAULT: `fault`, and the judge stores the path, of `length` bytes.
 * ODFILTER_EVAL_FAULT: `fault`. ODFILTER_TOO_COSTLY: the row has no verdict within the judge's bound.
 * ODFILTER_MOMENT_NEEDED. ODFILTER_NULL: any of the four is. ODFILTER_OTHER_KIND: `filter` is not a filter, or
 * `judge` not a judge. ODFILTER_MEMORY. */
uint32_t odfilter_judge(const odfilter_handle *filter, odfilter_handle *judge, odfilter_bytes row,
                        odfilter_answer *answer);

/* Judges a row by the filter that the judge was made of, and else as odfilter_judge does.
 *
 * ODFILTER_NULL: any of the three is. ODFILTER_OTHER_KIND: `judge` is not one that odfilter_new_judge_of made. All other
 * statuses are those of odfilter_judge. */
uint32_t odfilter_judge_next(odfilter_handle *judge, odfilter_bytes row, odfilter_answer *answer);

/* Judges rows, a line each, and writes those whose verdict is true, unchanged and each followed by a line feed.
 * Lines of spaces, tabs and carriage returns alone are passed over. A buffer with one byte more than the rows is
 * never too small.
 *
 * ODFILTER_OK: `rows` and `kept`, and `length` bytes have been written. ODFILTER_TOO_SMALL: `length` are needed.
 * ODFILTER_JSON_FAULT, ODFILTER_ROW_FAULT, ODFILTER_EVAL_FAULT, ODFILTER_TOO_COSTLY, ODFILTER_LINE_TOO_LONG: the line
 * `number` is at fault, as by odfilter_judge, and the kept lines before it have been written, `length` bytes, or none
 * where the buffer is smaller than that. ODFILTER_MEMORY, ODFILTER_MOMENT_NEEDED: none was. ODFILTER_NULL: any of the
 * five is. ODFILTER_OTHER_KIND. */
uint32_t odfilter_filter_lines(const odfilter_handle *filter, odfilter_handle *judge, odfilter_bytes rows,
                               odfilter_buffer kept, odfilter_answer *answer);

/* Writes the path of the value at fault, from the row, as Parts/0/Qty, of the last ODFILTER_ROW_FAULT that this
 * judge reported; no bytes where the last row had no such fault or one without a path.
 *
 * ODFILTER_OK: `length` bytes have been written. ODFILTER_TOO_SMALL. ODFILTER_NULL: any of the three is.
 * ODFILTER_OTHER_KIND: `judge` is not a judge. */
uint32_t odfilter_path(const odfilter_handle *judge, odfilter_buffer path, odfilter_answer *answer);

/* ---- All handles */

/* Makes another handle of the same schema, type or filter, for another owner: each is freed by itself, in any order,
 * and what they share is freed with the last one. Nothing is read or checked again.
 *
 * ODFILTER_OK: `made` is the handle. ODFILTER_OTHER_KIND: `handle` is a judge or conditions, which have one owner.
 * ODFILTER_NULL: any of the two is. ODFILTER_MEMORY. */
uint32_t odfilter_share(const odfilter_handle *handle, odfilter_handle **made);

/* Frees a handle, with all that belongs to it, and writes NULL to its variable: a second call for the same variable
 * is ODFILTER_NULL.
 *
 * ODFILTER_OK. ODFILTER_NULL: `handle` is, or what it points to. */
uint32_t odfilter_free(odfilter_handle **handle);

/* ---- Names */

/* Reports whether an answer of so many bytes has all that this library writes. A caller that was built with another
 * header than the library asks once, before any other call: odfilter_fits(sizeof(odfilter_answer)).
 *
 * ODFILTER_OK. ODFILTER_TOO_SMALL: a call would write beyond such an answer. */
uint32_t odfilter_fits(uint64_t answer_size);

/* Write the library's version; the name of a status; the name of a fault of a status. A status of ODFILTER_UNKNOWN_TYPE
 * or above whose `fault` is 0 has one fault, of the number 0.
 *
 * ODFILTER_OK: `length` bytes have been written. ODFILTER_TOO_SMALL. ODFILTER_UNKNOWN_NUMBER: there is no such
 * status, or it has no such fault. ODFILTER_NULL: any of the two is. */
uint32_t odfilter_version(odfilter_buffer text, odfilter_answer *answer);
uint32_t odfilter_status_name(uint32_t status, odfilter_buffer text, odfilter_answer *answer);
uint32_t odfilter_fault_name(uint32_t status, uint32_t fault, odfilter_buffer text, odfilter_answer *answer);

/* Writes a sentence for people about a fault: `status` and `fault` are what a call returned and the answer that it
 * wrote, and `text` is what the fault is about: the filter's text (of odfilter_check_url, as that wrote it), the query,
 * the path of a row's fault as odfilter_path writes it, the names of a schema's fault as odfilter_read_schema writes
 * them, the name of a type that is unknown, or the text that is no moment; the sentences about other faults need none.
 * `type` is the type that the filter was checked for, which the sentence names; it may be NULL. The sentence is in
 * English and may change from version to version; programs go by `status` and `fault`.
 *
 * ODFILTER_OK: `length` bytes have been written. ODFILTER_TOO_SMALL: `length` are needed. ODFILTER_UNKNOWN_NUMBER:
 * there is no such fault. ODFILTER_NULL: an address other than `type` is. ODFILTER_OTHER_KIND: `type` is not a type.
 * ODFILTER_NOT_UTF8: `text` is none, and the fault is not of a query. ODFILTER_MEMORY. */
uint32_t odfilter_fault_text(const odfilter_handle *type, uint32_t status, odfilter_bytes text,
                             odfilter_buffer sentence, const odfilter_answer *fault, odfilter_answer *answer);

/* Writes a fault whole, as a JSON object, for programs: {"class":"typing","code":1,"name":"UnknownProperty",
 * "span":{"start":0,"end":5},"utf16_span":{..},"sentence":..,"suggestions":[..],"names":[..],"number":..,"path":..,
 * "line":..}, where a member without a value is null; both spans are of the filter's text, in bytes and in UTF-16 units.
 * What the call is given and returns is as of odfilter_fault_text. Members may be added; none goes or changes. */
uint32_t odfilter_fault_json(const odfilter_handle *type, uint32_t status, odfilter_bytes text,
                             odfilter_buffer json, const odfilter_answer *fault, odfilter_answer *answer);

/* ---- Flat calls */

/* The calls above that take bytes or buffers, under names for languages that do not pass a struct by value, or do so
 * slowly: each odfilter_bytes and odfilter_buffer is its address and its length. All else is as above. */
uint32_t odfilter_flat_read_schema(const char *document, size_t document_length, char *names, size_t names_length,
                                   odfilter_handle **schema, odfilter_answer *answer);
uint32_t odfilter_flat_find_type(const odfilter_handle *schema, const char *name, size_t name_length,
                                 odfilter_handle **type);
uint32_t odfilter_flat_types(const odfilter_handle *given, char *text, size_t text_length, odfilter_answer *answer);
uint32_t odfilter_flat_check(const odfilter_handle *type, const char *text, size_t text_length,
                             odfilter_handle **filter, odfilter_answer *answer);
uint32_t odfilter_flat_check_query(const odfilter_handle *type, const char *query, size_t query_length,
                                   odfilter_handle **filter, odfilter_answer *answer);
uint32_t odfilter_flat_check_url(const odfilter_handle *type, const char *query, size_t query_length, char *text,
                                 size_t text_length, odfilter_handle **filter, odfilter_answer *answer);
uint32_t odfilter_flat_canonical(const odfilter_handle *filter, char *text, size_t text_length,
                                 odfilter_answer *answer);
uint32_t odfilter_flat_explain(const odfilter_handle *filter, char *text, size_t text_length,
                               odfilter_answer *answer);
uint32_t odfilter_flat_property_paths(const odfilter_handle *filter, char *paths, size_t paths_length,
                                      odfilter_answer *answer);
uint32_t odfilter_flat_sql(const odfilter_handle *filter, uint32_t form, const char *how, size_t how_length,
                           char *text, size_t text_length, odfilter_answer *answer);
uint32_t odfilter_flat_new_sql(const odfilter_handle *filter, uint32_t form, const char *how, size_t how_length,
                               odfilter_handle **conditions, odfilter_answer *answer);
uint32_t odfilter_flat_sql_text(const odfilter_handle *conditions, uint32_t which, char *text, size_t text_length,
                                odfilter_answer *answer);
uint32_t odfilter_flat_sql_value(const odfilter_handle *conditions, uint32_t which, uint32_t index, char *text,
                                 size_t text_length, odfilter_answer *answer);
uint32_t odfilter_flat_set_moment(odfilter_handle *judge, const char *moment, size_t moment_length);
uint32_t odfilter_flat_judge(const odfilter_handle *filter, odfilter_handle *judge, const char *row,
                             size_t row_length, odfilter_answer *answer);
uint32_t odfilter_flat_judge_next(odfilter_handle *judge, const char *row, size_t row_length,
                                  odfilter_answer *answer);
uint32_t odfilter_flat_filter_lines(const odfilter_handle *filter, odfilter_handle *judge, const char *rows,
                                    size_t rows_length, char *kept, size_t kept_length, odfilter_answer *answer);
uint32_t odfilter_flat_path(const odfilter_handle *judge, char *path, size_t path_length, odfilter_answer *answer);
uint32_t odfilter_flat_version(char *text, size_t text_length, odfilter_answer *answer);
uint32_t odfilter_flat_status_name(uint32_t status, char *text, size_t text_length, odfilter_answer *answer);
uint32_t odfilter_flat_fault_name(uint32_t status, uint32_t fault, char *text, size_t text_length,
                                  odfilter_answer *answer);
uint32_t odfilter_flat_fault_text(const odfilter_handle *type, uint32_t status, const char *text,
                                  size_t text_length, char *sentence, size_t sentence_length,
                                  const odfilter_answer *fault, odfilter_answer *answer);
uint32_t odfilter_flat_fault_json(const odfilter_handle *type, uint32_t status, const char *text,
                                  size_t text_length, char *json, size_t json_length,
                                  const odfilter_answer *fault, odfilter_answer *answer);

#ifdef __cplusplus
}
#endif

#endif
