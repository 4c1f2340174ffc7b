/* The calls of odfilter.h by Node-API: what index.js makes classes of. Node-API 8: one build serves Node 16 and later.
 *
 * A call is given handles, Uint8Arrays of UTF-8 or for texts, and a Float64Array into which it writes the answer, field
 * after field. It returns its status as a number, or the handle that it made. A handle is an external with a tag, so
 * another object instead of one is a TypeError.
 */
#include <node_api.h>
#include <odfilter.h>
#include <stdlib.h>

#define MOST_GIVEN 6
#define ANSWER_FIELDS 13
/* bytes that the collector counts for a handle, so that it comes in time where nobody disposes */
#define HANDLE_WEIGHT 8192

static const napi_type_tag HANDLE_TAG = {0x6f6466696c746572, 0x68616e646c653031};

/* A call from JavaScript, and whether all that it was given is of the right kind. */
struct call {
    napi_env env;
    napi_value given[MOST_GIVEN];
    bool is_well;
};

static struct call call_of(napi_env env, napi_callback_info info)
{
    struct call call = {.env = env, .is_well = true};
    size_t count = MOST_GIVEN;
    call.is_well = napi_get_cb_info(env, info, &count, call.given, NULL, NULL) == napi_ok;
    return call;
}

/* what owns a handle; it holds NULL once the handle is freed */
static odfilter_handle **owner_at(struct call *call, size_t index)
{
    bool is_handle = false;
    void *owner = NULL;
    if (napi_check_object_type_tag(call->env, call->given[index], &HANDLE_TAG, &is_handle) != napi_ok || !is_handle ||
        napi_get_value_external(call->env, call->given[index], &owner) != napi_ok) {
        call->is_well = false;
        return NULL;
    }
    return owner;
}

static odfilter_handle *handle_at(struct call *call, size_t index)
{
    odfilter_handle **owner = owner_at(call, index);
    return owner ? *owner : NULL;
}

static odfilter_handle *handle_or_null_at(struct call *call, size_t index)
{
    napi_valuetype type = napi_undefined;
    napi_typeof(call->env, call->given[index], &type);
    return type == napi_null ? NULL : handle_at(call, index);
}

/* the memory of a typed array of that kind; NULL where it has none */
static void *array_at(struct call *call, size_t index, napi_typedarray_type wanted, size_t *length)
{
    napi_typedarray_type type;
    bool is_array = false;
    void *at = NULL;
    if (napi_is_typedarray(call->env, call->given[index], &is_array) != napi_ok || !is_array ||
        napi_get_typedarray_info(call->env, call->given[index], &type, length, &at, NULL, NULL) != napi_ok ||
        type != wanted) {
        call->is_well = false;
        *length = 0;
    }
    return *length ? at : NULL;
}

static odfilter_bytes bytes_at(struct call *call, size_t index)
{
    odfilter_bytes bytes;
    bytes.at = array_at(call, index, napi_uint8_array, &bytes.length);
    return bytes;
}

static odfilter_buffer buffer_at(struct call *call, size_t index)
{
    odfilter_buffer buffer;
    buffer.at = array_at(call, index, napi_uint8_array, &buffer.length);
    return buffer;
}

static double *answer_at(struct call *call, size_t index)
{
    size_t length;
    double *fields = array_at(call, index, napi_float64_array, &length);
    call->is_well &= length == ANSWER_FIELDS;
    return fields;
}

static uint32_t number_at(struct call *call, size_t index)
{
    uint32_t number = 0;
    call->is_well &= napi_get_value_uint32(call->env, call->given[index], &number) == napi_ok;
    return number;
}

static napi_value refused(struct call *call)
{
    napi_throw_type_error(call->env, NULL, "odfilter: an argument of another kind");
    return NULL;
}

static void write_answer(double *fields, const odfilter_answer *answer)
{
    const uint64_t values[ANSWER_FIELDS] = {
        answer->fault, answer->verdict, answer->start, answer->stop, answer->number, answer->length, answer->first,
        answer->rows, answer->kept, answer->piece_start, answer->piece_stop, answer->value_start, answer->value_stop};
    for (size_t index = 0; index < ANSWER_FIELDS; index++)
        fields[index] = (double)values[index];
}

/* the fields of an answer that a sentence is asked about */
static odfilter_answer read_answer(const double *fields)
{
    odfilter_answer answer = {0};
    answer.fault = (uint32_t)fields[0];
    answer.start = (size_t)fields[2];
    answer.stop = (size_t)fields[3];
    answer.number = (uint64_t)fields[4];
    answer.length = (size_t)fields[5];
    answer.first = (size_t)fields[6];
    return answer;
}

static napi_value status_of(struct call *call, uint32_t status)
{
    napi_value made = NULL;
    napi_create_uint32(call->env, status, &made);
    return made;
}

static void count_memory(napi_env env, int64_t change)
{
    int64_t all;
    napi_adjust_external_memory(env, change, &all);
}

static void release(napi_env env, void *data, void *hint)
{
    odfilter_handle **owner = data;
    (void)hint;
    if (odfilter_free(owner) == ODFILTER_OK)
        count_memory(env, -HANDLE_WEIGHT);
    free(owner);
}

/* a new handle as an external, which frees it when it is collected; or the status */
static napi_value made(struct call *call, uint32_t status, odfilter_handle *handle)
{
    napi_value external = NULL;
    odfilter_handle **owner;
    if (status != ODFILTER_OK)
        return status_of(call, status);
    owner = malloc(sizeof *owner);
    if (!owner || napi_create_external(call->env, owner, release, NULL, &external) != napi_ok) {
        free(owner);
        odfilter_free(&handle);
        return status_of(call, ODFILTER_MEMORY);
    }
    *owner = handle;
    count_memory(call->env, HANDLE_WEIGHT);
    if (napi_type_tag_object(call->env, external, &HANDLE_TAG) != napi_ok)
        return status_of(call, ODFILTER_MEMORY);
    return external;
}

/* readSchema(document, names, answer) */
static napi_value read_schema(napi_env env, napi_callback_info info)
{
    struct call call = call_of(env, info);
    odfilter_bytes document = bytes_at(&call, 0);
    odfilter_buffer names = buffer_at(&call, 1);
    double *fields = answer_at(&call, 2);
    odfilter_handle *schema = NULL;
    odfilter_answer answer = {0};
    uint32_t status;
    if (!call.is_well)
        return refused(&call);
    status = odfilter_read_schema(document, names, &schema, &answer);
    write_answer(fields, &answer);
    return made(&call, status, schema);
}

/* findType(schema, name) */
static napi_value find_type(napi_env env, napi_callback_info info)
{
    struct call call = call_of(env, info);
    odfilter_handle *schema = handle_at(&call, 0), *type = NULL;
    odfilter_bytes name = bytes_at(&call, 1);
    uint32_t status;
    if (!call.is_well)
        return refused(&call);
    status = odfilter_find_type(schema, name, &type);
    return made(&call, status, type);
}

typedef uint32_t (*checks)(const odfilter_handle *, odfilter_bytes, odfilter_handle **, odfilter_answer *);

static napi_value checked(napi_env env, napi_callback_info info, checks check)
{
    struct call call = call_of(env, info);
    odfilter_handle *type = handle_at(&call, 0), *filter = NULL;
    odfilter_bytes text = bytes_at(&call, 1);
    double *fields = answer_at(&call, 2);
    odfilter_answer answer = {0};
    uint32_t status;
    if (!call.is_well)
        return refused(&call);
    status = check(type, text, &filter, &answer);
    write_answer(fields, &answer);
    return made(&call, status, filter);
}

/* check(type, text, answer) */
static napi_value check(napi_env env, napi_callback_info info)
{
    return checked(env, info, odfilter_check);
}

/* checkQuery(type, query, answer) */
static napi_value check_query(napi_env env, napi_callback_info info)
{
    return checked(env, info, odfilter_check_query);
}

/* checkUrl(type, query, text, answer) */
static napi_value check_url(napi_env env, napi_callback_info info)
{
    struct call call = call_of(env, info);
    odfilter_handle *type = handle_at(&call, 0), *filter = NULL;
    odfilter_bytes query = bytes_at(&call, 1);
    odfilter_buffer text = buffer_at(&call, 2);
    double *fields = answer_at(&call, 3);
    odfilter_answer answer = {0};
    uint32_t status;
    if (!call.is_well)
        return refused(&call);
    status = odfilter_check_url(type, query, text, &filter, &answer);
    write_answer(fields, &answer);
    return made(&call, status, filter);
}

typedef uint32_t (*writes)(const odfilter_handle *, odfilter_buffer, odfilter_answer *);

/* a call(handle, text, answer) that writes a text about a handle */
static napi_value written(napi_env env, napi_callback_info info, writes write)
{
    struct call call = call_of(env, info);
    odfilter_handle *handle = handle_at(&call, 0);
    odfilter_buffer text = buffer_at(&call, 1);
    double *fields = answer_at(&call, 2);
    odfilter_answer answer = {0};
    uint32_t status;
    if (!call.is_well)
        return refused(&call);
    status = write(handle, text, &answer);
    write_answer(fields, &answer);
    return status_of(&call, status);
}

static napi_value canonical(napi_env env, napi_callback_info info)
{
    return written(env, info, odfilter_canonical);
}

static napi_value explain(napi_env env, napi_callback_info info)
{
    return written(env, info, odfilter_explain);
}

static napi_value property_paths(napi_env env, napi_callback_info info)
{
    return written(env, info, odfilter_property_paths);
}

static napi_value path(napi_env env, napi_callback_info info)
{
    return written(env, info, odfilter_path);
}

/* of a schema or a type */
static napi_value types(napi_env env, napi_callback_info info)
{
    return written(env, info, odfilter_types);
}

typedef uint32_t (*counts)(const odfilter_handle *, odfilter_answer *);

/* a call(filter, answer) that reports a number */
static napi_value counted(napi_env env, napi_callback_info info, counts count)
{
    struct call call = call_of(env, info);
    odfilter_handle *filter = handle_at(&call, 0);
    double *fields = answer_at(&call, 1);
    odfilter_answer answer = {0};
    uint32_t status;
    if (!call.is_well)
        return refused(&call);
    status = count(filter, &answer);
    write_answer(fields, &answer);
    return status_of(&call, status);
}

static napi_value needs_moment(napi_env env, napi_callback_info info)
{
    return counted(env, info, odfilter_needs_moment);
}

static napi_value node_count(napi_env env, napi_callback_info info)
{
    return counted(env, info, odfilter_node_count);
}

static napi_value lambda_depth(napi_env env, napi_callback_info info)
{
    return counted(env, info, odfilter_lambda_depth);
}

/* newSql(filter, form, how) */
static napi_value new_sql(napi_env env, napi_callback_info info)
{
    struct call call = call_of(env, info);
    odfilter_handle *filter = handle_at(&call, 0), *conditions = NULL;
    uint32_t form = number_at(&call, 1), status;
    odfilter_bytes how = bytes_at(&call, 2);
    odfilter_answer answer = {0};
    if (!call.is_well)
        return refused(&call);
    status = odfilter_new_sql(filter, form, how, &conditions, &answer);
    return made(&call, status, conditions);
}

/* sqlText(conditions, which, text, answer) */
static napi_value sql_text(napi_env env, napi_callback_info info)
{
    struct call call = call_of(env, info);
    odfilter_handle *conditions = handle_at(&call, 0);
    uint32_t which = number_at(&call, 1), status;
    odfilter_buffer text = buffer_at(&call, 2);
    double *fields = answer_at(&call, 3);
    odfilter_answer answer = {0};
    if (!call.is_well)
        return refused(&call);
    status = odfilter_sql_text(conditions, which, text, &answer);
    write_answer(fields, &answer);
    return status_of(&call, status);
}

/* sqlValue(conditions, which, index, text, answer) */
static napi_value sql_value(napi_env env, napi_callback_info info)
{
    struct call call = call_of(env, info);
    odfilter_handle *conditions = handle_at(&call, 0);
    uint32_t which = number_at(&call, 1), index = number_at(&call, 2), status;
    odfilter_buffer text = buffer_at(&call, 3);
    double *fields = answer_at(&call, 4);
    odfilter_answer answer = {0};
    if (!call.is_well)
        return refused(&call);
    status = odfilter_sql_value(conditions, which, index, text, &answer);
    write_answer(fields, &answer);
    return status_of(&call, status);
}

/* newJudge(filter) */
static napi_value new_judge(napi_env env, napi_callback_info info)
{
    struct call call = call_of(env, info);
    odfilter_handle *filter = handle_at(&call, 0), *judge = NULL;
    uint32_t status;
    if (!call.is_well)
        return refused(&call);
    status = odfilter_new_judge_of(filter, &judge);
    return made(&call, status, judge);
}

/* setMoment(judge, moment) */
static napi_value set_moment(napi_env env, napi_callback_info info)
{
    struct call call = call_of(env, info);
    odfilter_handle *judge = handle_at(&call, 0);
    odfilter_bytes moment = bytes_at(&call, 1);
    if (!call.is_well)
        return refused(&call);
    return status_of(&call, odfilter_set_moment(judge, moment));
}

/* setBound(judge, bound), where the bound is a bigint */
static napi_value set_bound(napi_env env, napi_callback_info info)
{
    struct call call = call_of(env, info);
    odfilter_handle *judge = handle_at(&call, 0);
    uint64_t most = 0;
    bool is_whole = false;
    call.is_well &= napi_get_value_bigint_uint64(env, call.given[1], &most, &is_whole) == napi_ok && is_whole;
    if (!call.is_well)
        return refused(&call);
    return status_of(&call, odfilter_set_bound(judge, most));
}

/* judge(judge, row, answer) */
static napi_value judge_next(napi_env env, napi_callback_info info)
{
    struct call call = call_of(env, info);
    odfilter_handle *judge = handle_at(&call, 0);
    odfilter_bytes row = bytes_at(&call, 1);
    double *fields = answer_at(&call, 2);
    odfilter_answer answer = {0};
    uint32_t status;
    if (!call.is_well)
        return refused(&call);
    status = odfilter_judge_next(judge, row, &answer);
    write_answer(fields, &answer);
    return status_of(&call, status);
}

/* filterLines(filter, judge, rows, kept, answer) */
static napi_value filter_lines(napi_env env, napi_callback_info info)
{
    struct call call = call_of(env, info);
    odfilter_handle *filter = handle_at(&call, 0), *judge = handle_at(&call, 1);
    odfilter_bytes rows = bytes_at(&call, 2);
    odfilter_buffer kept = buffer_at(&call, 3);
    double *fields = answer_at(&call, 4);
    odfilter_answer answer = {0};
    uint32_t status;
    if (!call.is_well)
        return refused(&call);
    status = odfilter_filter_lines(filter, judge, rows, kept, &answer);
    write_answer(fields, &answer);
    return status_of(&call, status);
}

/* free(handle) */
static napi_value free_handle(napi_env env, napi_callback_info info)
{
    struct call call = call_of(env, info);
    odfilter_handle **owner = owner_at(&call, 0);
    uint32_t status;
    if (!call.is_well)
        return refused(&call);
    status = odfilter_free(owner);
    if (status == ODFILTER_OK)
        count_memory(env, -HANDLE_WEIGHT);
    return status_of(&call, status);
}

/* version(text, answer) */
static napi_value version(napi_env env, napi_callback_info info)
{
    struct call call = call_of(env, info);
    odfilter_buffer text = buffer_at(&call, 0);
    double *fields = answer_at(&call, 1);
    odfilter_answer answer = {0};
    uint32_t status;
    if (!call.is_well)
        return refused(&call);
    status = odfilter_version(text, &answer);
    write_answer(fields, &answer);
    return status_of(&call, status);
}

/* faultName(status, fault, text, answer) */
static napi_value fault_name(napi_env env, napi_callback_info info)
{
    struct call call = call_of(env, info);
    uint32_t status = number_at(&call, 0), fault = number_at(&call, 1);
    odfilter_buffer text = buffer_at(&call, 2);
    double *fields = answer_at(&call, 3);
    odfilter_answer answer = {0};
    if (!call.is_well)
        return refused(&call);
    status = odfilter_fault_name(status, fault, text, &answer);
    write_answer(fields, &answer);
    return status_of(&call, status);
}

typedef uint32_t (*reports)(const odfilter_handle *, uint32_t, odfilter_bytes, odfilter_buffer, const odfilter_answer *,
                          odfilter_answer *);

/* a call(type or null, status, about, text, fault, answer) that writes a text about a fault, which is an answer */
static napi_value reported(napi_env env, napi_callback_info info, reports report)
{
    struct call call = call_of(env, info);
    odfilter_handle *type = handle_or_null_at(&call, 0);
    uint32_t status = number_at(&call, 1);
    odfilter_bytes about = bytes_at(&call, 2);
    odfilter_buffer text = buffer_at(&call, 3);
    double *faults = answer_at(&call, 4), *fields = answer_at(&call, 5);
    odfilter_answer fault, answer = {0};
    if (!call.is_well)
        return refused(&call);
    fault = read_answer(faults);
    status = report(type, status, about, text, &fault, &answer);
    write_answer(fields, &answer);
    return status_of(&call, status);
}

static napi_value fault_text(napi_env env, napi_callback_info info)
{
    return reported(env, info, odfilter_fault_text);
}

static napi_value fault_json(napi_env env, napi_callback_info info)
{
    return reported(env, info, odfilter_fault_json);
}

NAPI_MODULE_INIT()
{
    const napi_property_descriptor calls[] = {
        {"readSchema", NULL, read_schema, NULL, NULL, NULL, napi_enumerable, NULL},
        {"findType", NULL, find_type, NULL, NULL, NULL, napi_enumerable, NULL},
        {"check", NULL, check, NULL, NULL, NULL, napi_enumerable, NULL},
        {"checkQuery", NULL, check_query, NULL, NULL, NULL, napi_enumerable, NULL},
        {"checkUrl", NULL, check_url, NULL, NULL, NULL, napi_enumerable, NULL},
        {"canonical", NULL, canonical, NULL, NULL, NULL, napi_enumerable, NULL},
        {"explain", NULL, explain, NULL, NULL, NULL, napi_enumerable, NULL},
        {"propertyPaths", NULL, property_paths, NULL, NULL, NULL, napi_enumerable, NULL},
        {"types", NULL, types, NULL, NULL, NULL, napi_enumerable, NULL},
        {"needsMoment", NULL, needs_moment, NULL, NULL, NULL, napi_enumerable, NULL},
        {"nodeCount", NULL, node_count, NULL, NULL, NULL, napi_enumerable, NULL},
        {"lambdaDepth", NULL, lambda_depth, NULL, NULL, NULL, napi_enumerable, NULL},
        {"newSql", NULL, new_sql, NULL, NULL, NULL, napi_enumerable, NULL},
        {"sqlText", NULL, sql_text, NULL, NULL, NULL, napi_enumerable, NULL},
        {"sqlValue", NULL, sql_value, NULL, NULL, NULL, napi_enumerable, NULL},
        {"newJudge", NULL, new_judge, NULL, NULL, NULL, napi_enumerable, NULL},
        {"setMoment", NULL, set_moment, NULL, NULL, NULL, napi_enumerable, NULL},
        {"setBound", NULL, set_bound, NULL, NULL, NULL, napi_enumerable, NULL},
        {"judge", NULL, judge_next, NULL, NULL, NULL, napi_enumerable, NULL},
        {"filterLines", NULL, filter_lines, NULL, NULL, NULL, napi_enumerable, NULL},
        {"path", NULL, path, NULL, NULL, NULL, napi_enumerable, NULL},
        {"free", NULL, free_handle, NULL, NULL, NULL, napi_enumerable, NULL},
        {"version", NULL, version, NULL, NULL, NULL, napi_enumerable, NULL},
        {"faultName", NULL, fault_name, NULL, NULL, NULL, napi_enumerable, NULL},
        {"faultText", NULL, fault_text, NULL, NULL, NULL, napi_enumerable, NULL},
        {"faultJson", NULL, fault_json, NULL, NULL, NULL, napi_enumerable, NULL},
    };
    if (odfilter_fits(sizeof(odfilter_answer)) != ODFILTER_OK)
        napi_throw_error(env, NULL, "odfilter: the library is newer than this addon: its answers are longer");
    else if (napi_define_properties(env, exports, sizeof calls / sizeof *calls, calls) != napi_ok)
        napi_throw_error(env, NULL, "odfilter: the addon cannot be set up");
    return exports;
}
