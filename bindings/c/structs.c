/* Made by bindings/make from include/odfilter.json.
 * On Windows a struct is passed by its address, and the library's code takes its fields: there the calls of the header
 * that take structs are these, over the flat ones. */
#include "odfilter.h"

uint32_t odfilter_read_schema(
    odfilter_bytes document, odfilter_buffer names, odfilter_handle **schema, odfilter_answer *answer)
{
    return odfilter_flat_read_schema(document.at, document.length, names.at, names.length, schema, answer);
}

uint32_t odfilter_find_type(const odfilter_handle *schema, odfilter_bytes name, odfilter_handle **type)
{
    return odfilter_flat_find_type(schema, name.at, name.length, type);
}

uint32_t odfilter_types(const odfilter_handle *given, odfilter_buffer text, odfilter_answer *answer)
{
    return odfilter_flat_types(given, text.at, text.length, answer);
}

uint32_t odfilter_check(
    const odfilter_handle *type, odfilter_bytes text, odfilter_handle **filter, odfilter_answer *answer)
{
    return odfilter_flat_check(type, text.at, text.length, filter, answer);
}

uint32_t odfilter_check_query(
    const odfilter_handle *type, odfilter_bytes query, odfilter_handle **filter, odfilter_answer *answer)
{
    return odfilter_flat_check_query(type, query.at, query.length, filter, answer);
}

uint32_t odfilter_check_url(
    const odfilter_handle *type, odfilter_bytes query, odfilter_buffer text, odfilter_handle **filter,
    odfilter_answer *answer)
{
    return odfilter_flat_check_url(type, query.at, query.length, text.at, text.length, filter, answer);
}

uint32_t odfilter_canonical(const odfilter_handle *filter, odfilter_buffer text, odfilter_answer *answer)
{
    return odfilter_flat_canonical(filter, text.at, text.length, answer);
}

uint32_t odfilter_explain(const odfilter_handle *filter, odfilter_buffer text, odfilter_answer *answer)
{
    return odfilter_flat_explain(filter, text.at, text.length, answer);
}

uint32_t odfilter_property_paths(const odfilter_handle *filter, odfilter_buffer paths, odfilter_answer *answer)
{
    return odfilter_flat_property_paths(filter, paths.at, paths.length, answer);
}

uint32_t odfilter_sql(
    const odfilter_handle *filter, uint32_t form, odfilter_bytes how, odfilter_buffer text, odfilter_answer *answer)
{
    return odfilter_flat_sql(filter, form, how.at, how.length, text.at, text.length, answer);
}

uint32_t odfilter_new_sql(
    const odfilter_handle *filter, uint32_t form, odfilter_bytes how, odfilter_handle **conditions,
    odfilter_answer *answer)
{
    return odfilter_flat_new_sql(filter, form, how.at, how.length, conditions, answer);
}

uint32_t odfilter_sql_text(
    const odfilter_handle *conditions, uint32_t which, odfilter_buffer text, odfilter_answer *answer)
{
    return odfilter_flat_sql_text(conditions, which, text.at, text.length, answer);
}

uint32_t odfilter_sql_value(
    const odfilter_handle *conditions, uint32_t which, uint32_t index, odfilter_buffer text, odfilter_answer *answer)
{
    return odfilter_flat_sql_value(conditions, which, index, text.at, text.length, answer);
}

uint32_t odfilter_set_moment(odfilter_handle *judge, odfilter_bytes moment)
{
    return odfilter_flat_set_moment(judge, moment.at, moment.length);
}

uint32_t odfilter_judge(
    const odfilter_handle *filter, odfilter_handle *judge, odfilter_bytes row, odfilter_answer *answer)
{
    return odfilter_flat_judge(filter, judge, row.at, row.length, answer);
}

uint32_t odfilter_judge_next(odfilter_handle *judge, odfilter_bytes row, odfilter_answer *answer)
{
    return odfilter_flat_judge_next(judge, row.at, row.length, answer);
}

uint32_t odfilter_filter_lines(
    const odfilter_handle *filter, odfilter_handle *judge, odfilter_bytes rows, odfilter_buffer kept,
    odfilter_answer *answer)
{
    return odfilter_flat_filter_lines(filter, judge, rows.at, rows.length, kept.at, kept.length, answer);
}

uint32_t odfilter_path(const odfilter_handle *judge, odfilter_buffer path, odfilter_answer *answer)
{
    return odfilter_flat_path(judge, path.at, path.length, answer);
}

uint32_t odfilter_version(odfilter_buffer text, odfilter_answer *answer)
{
    return odfilter_flat_version(text.at, text.length, answer);
}

uint32_t odfilter_status_name(uint32_t status, odfilter_buffer text, odfilter_answer *answer)
{
    return odfilter_flat_status_name(status, text.at, text.length, answer);
}

uint32_t odfilter_fault_name(uint32_t status, uint32_t fault, odfilter_buffer text, odfilter_answer *answer)
{
    return odfilter_flat_fault_name(status, fault, text.at, text.length, answer);
}

uint32_t odfilter_fault_text(
    const odfilter_handle *type, uint32_t status, odfilter_bytes text, odfilter_buffer sentence,
    const odfilter_answer *fault, odfilter_answer *answer)
{
    return odfilter_flat_fault_text(type, status, text.at, text.length, sentence.at, sentence.length, fault, answer);
}

uint32_t odfilter_fault_json(
    const odfilter_handle *type, uint32_t status, odfilter_bytes text, odfilter_buffer json,
    const odfilter_answer *fault, odfilter_answer *answer)
{
    return odfilter_flat_fault_json(type, status, text.at, text.length, json.at, json.length, fault, answer);
}
