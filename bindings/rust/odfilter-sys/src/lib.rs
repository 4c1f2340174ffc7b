//! The calls, structs and numbers of the C library odfilter, as its header odfilter.h has them.
//!
//! Made by bindings/make from include/odfilter.json.
#![no_std]
#![allow(non_camel_case_types)]

use core::ffi::c_char;

pub const ODFILTER_OK: u32 = 0;
pub const ODFILTER_NULL: u32 = 1;
pub const ODFILTER_OTHER_KIND: u32 = 2;
pub const ODFILTER_NOT_UTF8: u32 = 3;
pub const ODFILTER_TOO_SMALL: u32 = 4;
pub const ODFILTER_MEMORY: u32 = 5;
pub const ODFILTER_UNKNOWN_TYPE: u32 = 6;
pub const ODFILTER_NO_FILTER: u32 = 7;
pub const ODFILTER_MOMENT_NEEDED: u32 = 8;
pub const ODFILTER_NOT_A_MOMENT: u32 = 9;
pub const ODFILTER_UNKNOWN_NUMBER: u32 = 10;
pub const ODFILTER_SCHEMA_FAULT: u32 = 16;
pub const ODFILTER_TEXT_FAULT: u32 = 17;
pub const ODFILTER_SYNTAX_FAULT: u32 = 18;
pub const ODFILTER_TYPE_FAULT: u32 = 19;
pub const ODFILTER_QUERY_FAULT: u32 = 20;
pub const ODFILTER_JSON_FAULT: u32 = 21;
pub const ODFILTER_ROW_FAULT: u32 = 22;
pub const ODFILTER_EVAL_FAULT: u32 = 23;
pub const ODFILTER_LINE_TOO_LONG: u32 = 24;
pub const ODFILTER_TOO_COSTLY: u32 = 25;
pub const ODFILTER_UNSAYABLE: u32 = 26;
pub const ODFILTER_TOO_DEEP: u32 = 27;
pub const ODFILTER_UNKNOWN_COLUMN: u32 = 28;
pub const ODFILTER_FALSE: u32 = 0;
pub const ODFILTER_TRUE: u32 = 1;
pub const ODFILTER_NO_TRUTH_VALUE: u32 = 2;
pub const ODFILTER_POSTGRESQL_COLUMNS: u32 = 0;
pub const ODFILTER_POSTGRESQL_JSON: u32 = 1;
pub const ODFILTER_SQLITE_COLUMNS: u32 = 2;
pub const ODFILTER_SQLITE_JSON: u32 = 3;
pub const ODFILTER_SQL_OUTCOME: u32 = 0;
pub const ODFILTER_SQL_KEEP: u32 = 1;
pub const ODFILTER_SQL_FAULT: u32 = 2;
pub const ODFILTER_VALUE_WHOLE: u32 = 0;
pub const ODFILTER_VALUE_TEXT: u32 = 1;
pub const ODFILTER_VALUE_INSTANT: u32 = 2;

/// How many names each fault of a schema carries, by its number.
pub const SCHEMA_NAMES: [usize; 11] = [0, 0, 0, 0, 1, 2, 1, 1, 2, 2, 0];
/// The names of faults: status, number, name.
pub const FAULT_NAMES: &[(u32, u32, &str)] = &[
    (6, 0, "UnknownType"),
    (7, 0, "NoFilter"),
    (8, 0, "MomentNeeded"),
    (9, 0, "NotAMoment"),
    (16, 1, "NotJson"),
    (16, 2, "NotObject"),
    (16, 3, "Version"),
    (16, 4, "BadType"),
    (16, 5, "BadProperty"),
    (16, 6, "UnknownBase"),
    (16, 7, "BaseCycle"),
    (16, 8, "PropertyTwice"),
    (16, 9, "BadEnumMember"),
    (16, 10, "TooLarge"),
    (17, 1, "BadCharacter"),
    (17, 2, "UnclosedString"),
    (17, 3, "LeftOutLiteral"),
    (17, 4, "RunOn"),
    (17, 5, "TooLong"),
    (18, 1, "Unexpected"),
    (18, 2, "TooDeep"),
    (19, 1, "UnknownProperty"),
    (19, 2, "UnknownFunction"),
    (19, 3, "ArgumentCount"),
    (19, 4, "ArgumentType"),
    (19, 5, "OperandTypes"),
    (19, 6, "NotCollection"),
    (19, 7, "VariableTaken"),
    (19, 8, "BodyNotBoolean"),
    (19, 9, "LiteralRange"),
    (19, 10, "UnknownEnum"),
    (19, 11, "TypeLeftOut"),
    (19, 12, "NotBoolean"),
    (20, 1, "BadEscape"),
    (20, 2, "NotUtf8"),
    (20, 3, "Repeated"),
    (20, 4, "OtherOption"),
    (20, 5, "Disguised"),
    (21, 0, "Json"),
    (22, 1, "NotObject"),
    (22, 2, "Missing"),
    (22, 3, "WrongKind"),
    (22, 4, "NullNotAllowed"),
    (22, 5, "OutOfRange"),
    (22, 6, "BadText"),
    (22, 8, "NotExpanded"),
    (23, 1, "Overflow"),
    (23, 2, "DivideByZero"),
    (24, 0, "LineTooLong"),
    (25, 0, "TooCostly"),
    (26, 0, "Nul"),
    (27, 0, "TooDeep"),
    (28, 0, "UnknownColumn"),
];

/// A schema, a type, a filter, a judge, or conditions of SQL.
#[repr(C)]
pub struct odfilter_handle {
    _private: [u8; 0],
}

/// Bytes that a call borrows.
#[repr(C)]
#[derive(Clone, Copy, Debug)]
pub struct odfilter_bytes {
    pub at: *const c_char,
    pub length: usize,
}

/// A buffer for a text.
#[repr(C)]
#[derive(Clone, Copy, Debug)]
pub struct odfilter_buffer {
    pub at: *mut c_char,
    pub length: usize,
}

/// What a call reports besides its status.
#[repr(C)]
#[derive(Clone, Copy, Debug, Default)]
pub struct odfilter_answer {
    pub fault: u32,
    pub verdict: u32,
    pub start: usize,
    pub stop: usize,
    pub number: u64,
    pub length: usize,
    pub first: usize,
    pub rows: u64,
    pub kept: u64,
    pub piece_start: usize,
    pub piece_stop: usize,
    pub value_start: usize,
    pub value_stop: usize,
}

#[rustfmt::skip]
extern "C" {
    pub fn odfilter_read_schema(
        document: odfilter_bytes, names: odfilter_buffer, schema: *mut *mut odfilter_handle,
        answer: *mut odfilter_answer) -> u32;
    pub fn odfilter_find_type(
        schema: *const odfilter_handle, name: odfilter_bytes, r#type: *mut *mut odfilter_handle) -> u32;
    pub fn odfilter_types(given: *const odfilter_handle, text: odfilter_buffer, answer: *mut odfilter_answer) -> u32;
    pub fn odfilter_check(
        r#type: *const odfilter_handle, text: odfilter_bytes, filter: *mut *mut odfilter_handle,
        answer: *mut odfilter_answer) -> u32;
    pub fn odfilter_check_query(
        r#type: *const odfilter_handle, query: odfilter_bytes, filter: *mut *mut odfilter_handle,
        answer: *mut odfilter_answer) -> u32;
    pub fn odfilter_check_url(
        r#type: *const odfilter_handle, query: odfilter_bytes, text: odfilter_buffer, filter: *mut *mut odfilter_handle,
        answer: *mut odfilter_answer) -> u32;
    pub fn odfilter_canonical(
        filter: *const odfilter_handle, text: odfilter_buffer, answer: *mut odfilter_answer) -> u32;
    pub fn odfilter_explain(filter: *const odfilter_handle, text: odfilter_buffer, answer: *mut odfilter_answer) -> u32;
    pub fn odfilter_needs_moment(filter: *const odfilter_handle, answer: *mut odfilter_answer) -> u32;
    pub fn odfilter_node_count(filter: *const odfilter_handle, answer: *mut odfilter_answer) -> u32;
    pub fn odfilter_lambda_depth(filter: *const odfilter_handle, answer: *mut odfilter_answer) -> u32;
    pub fn odfilter_property_paths(
        filter: *const odfilter_handle, paths: odfilter_buffer, answer: *mut odfilter_answer) -> u32;
    pub fn odfilter_sql(
        filter: *const odfilter_handle, form: u32, how: odfilter_bytes, text: odfilter_buffer,
        answer: *mut odfilter_answer) -> u32;
    pub fn odfilter_new_sql(
        filter: *const odfilter_handle, form: u32, how: odfilter_bytes, conditions: *mut *mut odfilter_handle,
        answer: *mut odfilter_answer) -> u32;
    pub fn odfilter_sql_text(
        conditions: *const odfilter_handle, which: u32, text: odfilter_buffer, answer: *mut odfilter_answer) -> u32;
    pub fn odfilter_sql_value(
        conditions: *const odfilter_handle, which: u32, index: u32, text: odfilter_buffer,
        answer: *mut odfilter_answer) -> u32;
    pub fn odfilter_new_judge(judge: *mut *mut odfilter_handle) -> u32;
    pub fn odfilter_new_judge_of(filter: *const odfilter_handle, judge: *mut *mut odfilter_handle) -> u32;
    pub fn odfilter_set_moment(judge: *mut odfilter_handle, moment: odfilter_bytes) -> u32;
    pub fn odfilter_set_bound(judge: *mut odfilter_handle, most: u64) -> u32;
    pub fn odfilter_judge(
        filter: *const odfilter_handle, judge: *mut odfilter_handle, row: odfilter_bytes,
        answer: *mut odfilter_answer) -> u32;
    pub fn odfilter_judge_next(judge: *mut odfilter_handle, row: odfilter_bytes, answer: *mut odfilter_answer) -> u32;
    pub fn odfilter_filter_lines(
        filter: *const odfilter_handle, judge: *mut odfilter_handle, rows: odfilter_bytes, kept: odfilter_buffer,
        answer: *mut odfilter_answer) -> u32;
    pub fn odfilter_path(judge: *const odfilter_handle, path: odfilter_buffer, answer: *mut odfilter_answer) -> u32;
    pub fn odfilter_share(handle: *const odfilter_handle, made: *mut *mut odfilter_handle) -> u32;
    pub fn odfilter_free(handle: *mut *mut odfilter_handle) -> u32;
    pub fn odfilter_fits(answer_size: u64) -> u32;
    pub fn odfilter_version(text: odfilter_buffer, answer: *mut odfilter_answer) -> u32;
    pub fn odfilter_status_name(status: u32, text: odfilter_buffer, answer: *mut odfilter_answer) -> u32;
    pub fn odfilter_fault_name(status: u32, fault: u32, text: odfilter_buffer, answer: *mut odfilter_answer) -> u32;
    pub fn odfilter_fault_text(
        r#type: *const odfilter_handle, status: u32, text: odfilter_bytes, sentence: odfilter_buffer,
        fault: *const odfilter_answer, answer: *mut odfilter_answer) -> u32;
    pub fn odfilter_fault_json(
        r#type: *const odfilter_handle, status: u32, text: odfilter_bytes, json: odfilter_buffer,
        fault: *const odfilter_answer, answer: *mut odfilter_answer) -> u32;
    pub fn odfilter_flat_read_schema(
        document: *const c_char, document_length: usize, names: *mut c_char, names_length: usize,
        schema: *mut *mut odfilter_handle, answer: *mut odfilter_answer) -> u32;
    pub fn odfilter_flat_find_type(
        schema: *const odfilter_handle, name: *const c_char, name_length: usize,
        r#type: *mut *mut odfilter_handle) -> u32;
    pub fn odfilter_flat_types(
        given: *const odfilter_handle, text: *mut c_char, text_length: usize, answer: *mut odfilter_answer) -> u32;
    pub fn odfilter_flat_check(
        r#type: *const odfilter_handle, text: *const c_char, text_length: usize, filter: *mut *mut odfilter_handle,
        answer: *mut odfilter_answer) -> u32;
    pub fn odfilter_flat_check_query(
        r#type: *const odfilter_handle, query: *const c_char, query_length: usize, filter: *mut *mut odfilter_handle,
        answer: *mut odfilter_answer) -> u32;
    pub fn odfilter_flat_check_url(
        r#type: *const odfilter_handle, query: *const c_char, query_length: usize, text: *mut c_char,
        text_length: usize, filter: *mut *mut odfilter_handle, answer: *mut odfilter_answer) -> u32;
    pub fn odfilter_flat_canonical(
        filter: *const odfilter_handle, text: *mut c_char, text_length: usize, answer: *mut odfilter_answer) -> u32;
    pub fn odfilter_flat_explain(
        filter: *const odfilter_handle, text: *mut c_char, text_length: usize, answer: *mut odfilter_answer) -> u32;
    pub fn odfilter_flat_property_paths(
        filter: *const odfilter_handle, paths: *mut c_char, paths_length: usize, answer: *mut odfilter_answer) -> u32;
    pub fn odfilter_flat_sql(
        filter: *const odfilter_handle, form: u32, how: *const c_char, how_length: usize, text: *mut c_char,
        text_length: usize, answer: *mut odfilter_answer) -> u32;
    pub fn odfilter_flat_new_sql(
        filter: *const odfilter_handle, form: u32, how: *const c_char, how_length: usize,
        conditions: *mut *mut odfilter_handle, answer: *mut odfilter_answer) -> u32;
    pub fn odfilter_flat_sql_text(
        conditions: *const odfilter_handle, which: u32, text: *mut c_char, text_length: usize,
        answer: *mut odfilter_answer) -> u32;
    pub fn odfilter_flat_sql_value(
        conditions: *const odfilter_handle, which: u32, index: u32, text: *mut c_char, text_length: usize,
        answer: *mut odfilter_answer) -> u32;
    pub fn odfilter_flat_set_moment(judge: *mut odfilter_handle, moment: *const c_char, moment_length: usize) -> u32;
    pub fn odfilter_flat_judge(
        filter: *const odfilter_handle, judge: *mut odfilter_handle, row: *const c_char, row_length: usize,
        answer: *mut odfilter_answer) -> u32;
    pub fn odfilter_flat_judge_next(
        judge: *mut odfilter_handle, row: *const c_char, row_length: usize, answer: *mut odfilter_answer) -> u32;
    pub fn odfilter_flat_filter_lines(
        filter: *const odfilter_handle, judge: *mut odfilter_handle, rows: *const c_char, rows_length: usize,
        kept: *mut c_char, kept_length: usize, answer: *mut odfilter_answer) -> u32;
    pub fn odfilter_flat_path(
        judge: *const odfilter_handle, path: *mut c_char, path_length: usize, answer: *mut odfilter_answer) -> u32;
    pub fn odfilter_flat_version(text: *mut c_char, text_length: usize, answer: *mut odfilter_answer) -> u32;
    pub fn odfilter_flat_status_name(
        status: u32, text: *mut c_char, text_length: usize, answer: *mut odfilter_answer) -> u32;
    pub fn odfilter_flat_fault_name(
        status: u32, fault: u32, text: *mut c_char, text_length: usize, answer: *mut odfilter_answer) -> u32;
    pub fn odfilter_flat_fault_text(
        r#type: *const odfilter_handle, status: u32, text: *const c_char, text_length: usize, sentence: *mut c_char,
        sentence_length: usize, fault: *const odfilter_answer, answer: *mut odfilter_answer) -> u32;
    pub fn odfilter_flat_fault_json(
        r#type: *const odfilter_handle, status: u32, text: *const c_char, text_length: usize, json: *mut c_char,
        json_length: usize, fault: *const odfilter_answer, answer: *mut odfilter_answer) -> u32;
}
