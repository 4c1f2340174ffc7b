/* odfilter as an extension of SQLite: rows of JSON are picked by a filter.
 *
 *     .load ./odfilter
 *     SELECT odfilter_schema(readfile('schema.json'), 'Shop.Product');
 *     SELECT doc FROM products WHERE odfilter('Rating ge 3', doc);
 *
 * odfilter_schema(document, type)  the schema and the entity type of this connection's rows; NULL
 * odfilter_now(moment)             what now() stands for, 2026-11-25T09:00:00Z; NULL for none
 * odfilter_bound(number)           what a filter may cost on a row, 0 for no bound; NULL
 * odfilter(filter, row)            1, 0, or NULL where the filter is null on the row, or the row is NULL
 * odfilter_canonical(filter)       the filter's canonical text
 *
 * A filter that is a literal or a parameter is checked once a statement. What is refused is an error of the statement,
 * with a sentence: a filter, a row that does not fit the type, a row on which the filter has no value. */
#include <odfilter.h>
#include <sqlite3ext.h>
#include <stdlib.h>
#include <string.h>
SQLITE_EXTENSION_INIT1

#define MOMENT_SIZE 64

/* what a connection has been told; `times` counts how often, so that a statement knows whether its judge is current */
struct settings {
    odfilter_handle *type;
    char moment[MOMENT_SIZE];
    size_t moment_length;
    sqlite3_int64 bound;
    unsigned long times;
};

/* a judge of the filter of a statement, and when it was made */
struct kept_judge {
    odfilter_handle *judge;
    unsigned long times;
};

static void free_settings(void *at)
{
    struct settings *settings = at;
    odfilter_free(&settings->type);
    sqlite3_free(settings);
}

static void free_judge(void *at)
{
    struct kept_judge *kept = at;
    odfilter_free(&kept->judge);
    sqlite3_free(kept);
}

/* the bytes of a text or blob; they stay where they are until the value is read as another type */
static odfilter_bytes bytes_of(sqlite3_value *value)
{
    odfilter_bytes bytes = {NULL, 0};
    if (sqlite3_value_type(value) == SQLITE_BLOB)
        bytes.at = sqlite3_value_blob(value);
    else
        bytes.at = (const char *)sqlite3_value_text(value);
    bytes.length = (size_t)sqlite3_value_bytes(value);
    return bytes;
}

/* the name of a status as those of faults are written, into as many bytes: UnknownType of UNKNOWN_TYPE, Json of
 * JSON_FAULT; its length */
static size_t name_of_status(uint32_t status, char *name, size_t size)
{
    odfilter_buffer buffer = {name, size};
    odfilter_answer named;
    size_t read, written = 0, length;
    int is_first = 1;
    if (odfilter_status_name(status, buffer, &named) != ODFILTER_OK)
        return 0;
    length = named.length;
    if (length > 6 && !memcmp(name + length - 6, "_FAULT", 6))
        length -= 6;
    for (read = 0; read < length; read++) {
        if (name[read] != '_')
            name[written++] = is_first ? name[read] : (char)(name[read] - 'A' + 'a');
        is_first = name[read] == '_';
    }
    return written;
}

/* the error of a statement: the name of the fault, or of a status without faults, and a sentence about it */
static void refuse(sqlite3_context *context, const odfilter_handle *type, uint32_t status, odfilter_bytes about,
                   const odfilter_answer *fault)
{
    char name[64], sentence[2048];
    odfilter_buffer of_name = {name, sizeof name}, of_sentence = {sentence, sizeof sentence};
    odfilter_answer named = {0}, written = {0};
    char *text;
    if (status == ODFILTER_MEMORY) {
        sqlite3_result_error_nomem(context);
        return;
    }
    if (odfilter_fault_name(status, fault->fault, of_name, &named) != ODFILTER_OK)
        named.length = name_of_status(status, name, sizeof name);
    if (odfilter_fault_text(type, status, about, of_sentence, fault, &written) != ODFILTER_OK)
        written.length = 0;
    text = sqlite3_mprintf("odfilter: %.*s%s%.*s", (int)named.length, name, written.length ? ": " : "",
                           (int)written.length, sentence);
    if (!text) {
        sqlite3_result_error_nomem(context);
        return;
    }
    sqlite3_result_error(context, text, -1);
    sqlite3_free(text);
}

/* whether a status is that of a done call; else it is the error of the statement, about a text */
static int is_done(sqlite3_context *context, uint32_t status, odfilter_bytes about)
{
    odfilter_answer none = {0};
    if (status != ODFILTER_OK)
        refuse(context, NULL, status, about, &none);
    return status == ODFILTER_OK;
}

static void set_schema(sqlite3_context *context, int count, sqlite3_value **given)
{
    struct settings *settings = sqlite3_user_data(context);
    char names[2048];
    odfilter_buffer of_names = {names, sizeof names};
    odfilter_bytes carried = {names, 0}, name;
    odfilter_answer answer;
    odfilter_handle *schema = NULL, *type = NULL;
    uint32_t status = odfilter_read_schema(bytes_of(given[0]), of_names, &schema, &answer);
    (void)count;
    if (status != ODFILTER_OK) {
        carried.length = answer.length <= sizeof names ? answer.length : 0;
        refuse(context, NULL, status, carried, &answer);
        return;
    }
    name = bytes_of(given[1]);
    if (is_done(context, odfilter_find_type(schema, name, &type), name)) {
        odfilter_free(&settings->type);
        settings->type = type;
        settings->times++;
    }
    odfilter_free(&schema);
}

static void set_moment(sqlite3_context *context, int count, sqlite3_value **given)
{
    struct settings *settings = sqlite3_user_data(context);
    odfilter_bytes moment = bytes_of(given[0]);
    odfilter_handle *judge = NULL;
    (void)count;
    if (sqlite3_value_type(given[0]) == SQLITE_NULL) {
        settings->moment_length = 0;
        settings->times++;
    } else if (is_done(context, odfilter_new_judge(&judge), moment) &&
        is_done(context, moment.length > MOMENT_SIZE ? ODFILTER_NOT_A_MOMENT : odfilter_set_moment(judge, moment),
                moment)) {
        memcpy(settings->moment, moment.at, moment.length);
        settings->moment_length = moment.length;
        settings->times++;
    }
    odfilter_free(&judge);
}

static void set_bound(sqlite3_context *context, int count, sqlite3_value **given)
{
    struct settings *settings = sqlite3_user_data(context);
    (void)count;
    if (sqlite3_value_int64(given[0]) < 0) {
        sqlite3_result_error(context, "odfilter: a bound is a number from 0 on", -1);
        return;
    }
    settings->bound = sqlite3_value_int64(given[0]);
    settings->times++;
}

/* the filter of a text, or NULL after an error */
static odfilter_handle *checked(sqlite3_context *context, sqlite3_value *text)
{
    struct settings *settings = sqlite3_user_data(context);
    odfilter_bytes bytes = bytes_of(text);
    odfilter_handle *filter = NULL;
    odfilter_answer answer = {0};
    uint32_t status;
    if (!settings->type) {
        sqlite3_result_error(context, "odfilter: no schema: call odfilter_schema(document, type) first", -1);
        return NULL;
    }
    status = odfilter_check(settings->type, bytes, &filter, &answer);
    if (status != ODFILTER_OK)
        refuse(context, settings->type, status, bytes, &answer);
    return filter;
}

/* a judge of a filter at the connection's moment and within its bound, or NULL after an error */
static struct kept_judge *new_judge(sqlite3_context *context, sqlite3_value *text)
{
    struct settings *settings = sqlite3_user_data(context);
    odfilter_bytes moment = {settings->moment, settings->moment_length};
    odfilter_handle *filter = checked(context, text);
    struct kept_judge *kept = filter ? sqlite3_malloc(sizeof *kept) : NULL;
    if (filter && !kept)
        sqlite3_result_error_nomem(context);
    if (kept) {
        kept->judge = NULL;
        kept->times = settings->times;
        if (!is_done(context, odfilter_new_judge_of(filter, &kept->judge), moment) ||
            (moment.length && !is_done(context, odfilter_set_moment(kept->judge, moment), moment))) {
            free_judge(kept);
            kept = NULL;
        } else if (settings->bound)
            odfilter_set_bound(kept->judge, (uint64_t)settings->bound);
    }
    odfilter_free(&filter);
    return kept;
}

static void judge(sqlite3_context *context, int count, sqlite3_value **given)
{
    struct settings *settings = sqlite3_user_data(context);
    struct kept_judge *kept = sqlite3_get_auxdata(context, 0), *made = NULL;
    odfilter_answer answer, written;
    char path[2048];
    odfilter_buffer of_path = {path, sizeof path};
    odfilter_bytes row, about = {path, 0};
    uint32_t status;
    (void)count;
    if (sqlite3_value_type(given[0]) == SQLITE_NULL || sqlite3_value_type(given[1]) == SQLITE_NULL)
        return;
    if (!kept || kept->times != settings->times)
        kept = made = new_judge(context, given[0]);
    if (!kept)
        return;
    row = bytes_of(given[1]);
    status = odfilter_judge_next(kept->judge, row, &answer);
    if (status == ODFILTER_OK && answer.verdict != ODFILTER_NO_TRUTH_VALUE)
        sqlite3_result_int(context, answer.verdict == ODFILTER_TRUE);
    if (status != ODFILTER_OK) {
        if (odfilter_path(kept->judge, of_path, &written) == ODFILTER_OK)
            about.length = written.length;
        refuse(context, settings->type, status, about, &answer);
    }
    if (made)
        sqlite3_set_auxdata(context, 0, made, free_judge); /* which frees it where the filter is no constant */
}

static void canonical(sqlite3_context *context, int count, sqlite3_value **given)
{
    odfilter_handle *filter;
    odfilter_answer answer;
    char nothing;
    odfilter_buffer buffer = {&nothing, 0};
    (void)count;
    if (sqlite3_value_type(given[0]) == SQLITE_NULL || !(filter = checked(context, given[0])))
        return;
    odfilter_canonical(filter, buffer, &answer);
    buffer.length = answer.length;
    buffer.at = sqlite3_malloc64(buffer.length + 1);
    if (!buffer.at)
        sqlite3_result_error_nomem(context);
    else if (is_done(context, odfilter_canonical(filter, buffer, &answer), bytes_of(given[0])))
        sqlite3_result_text64(context, buffer.at, buffer.length, SQLITE_TRANSIENT, SQLITE_UTF8);
    sqlite3_free(buffer.at);
    odfilter_free(&filter);
}

/* a function over the connection's settings */
static int offer(sqlite3 *database, const char *name, int count, int flags, struct settings *settings,
                 void (*function)(sqlite3_context *, int, sqlite3_value **))
{
    return sqlite3_create_function_v2(database, name, count, SQLITE_UTF8 | flags, settings, function, NULL, NULL, NULL);
}

#ifdef _WIN32
__declspec(dllexport)
#else
__attribute__((visibility("default")))
#endif
int sqlite3_odfilter_init(sqlite3 *database, char **message, const sqlite3_api_routines *api)
{
    struct settings *settings;
    int status;
    SQLITE_EXTENSION_INIT2(api);
    (void)message;
    settings = sqlite3_malloc(sizeof *settings);
    if (!settings)
        return SQLITE_NOMEM;
    memset(settings, 0, sizeof *settings);
    /* the first one owns the settings, and frees them as the connection is closed, or at once where it fails */
    status = sqlite3_create_function_v2(database, "odfilter_schema", 2, SQLITE_UTF8 | SQLITE_DIRECTONLY, settings,
                                        set_schema, NULL, NULL, free_settings);
    if (status == SQLITE_OK)
        status = offer(database, "odfilter_now", 1, SQLITE_DIRECTONLY, settings, set_moment);
    if (status == SQLITE_OK)
        status = offer(database, "odfilter_bound", 1, SQLITE_DIRECTONLY, settings, set_bound);
    if (status == SQLITE_OK)
        status = offer(database, "odfilter", 2, 0, settings, judge);
    if (status == SQLITE_OK)
        status = offer(database, "odfilter_canonical", 1, 0, settings, canonical);
    return status;
}
