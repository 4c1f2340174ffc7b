"""Rust has the whole header: the crate odfilter-sys."""
from .header import FROM, shown

PAGE = """//! The calls, structs and numbers of the C library odfilter, as its header odfilter.h has them.
//!
//! {made}
#![no_std]
#![allow(non_camel_case_types)]

use core::ffi::c_char;

{numbers}
/// How many names each fault of a schema carries, by its number.
pub const SCHEMA_NAMES: [usize; {schema_count}] = [{schema_names}];
/// The names of faults: status, number, name.
pub const FAULT_NAMES: &[(u32, u32, &str)] = &[
{faults}];

/// A schema, a type, a filter, a judge, or conditions of SQL.
#[repr(C)]
pub struct odfilter_handle {{
    _private: [u8; 0],
}}

/// Bytes that a call borrows.
#[repr(C)]
#[derive(Clone, Copy, Debug)]
pub struct odfilter_bytes {{
    pub at: *const c_char,
    pub length: usize,
}}

/// A buffer for a text.
#[repr(C)]
#[derive(Clone, Copy, Debug)]
pub struct odfilter_buffer {{
    pub at: *mut c_char,
    pub length: usize,
}}

/// What a call reports besides its status.
#[repr(C)]
#[derive(Clone, Copy, Debug, Default)]
pub struct odfilter_answer {{
{fields}}}

#[rustfmt::skip]
extern "C" {{
{calls}}}
"""
OF_RUST = {"odfilter_bytes": "odfilter_bytes", "odfilter_buffer": "odfilter_buffer", "size_t": "usize"}
OF_RUST |= {"odfilter_handle **": "*mut *mut odfilter_handle", "const odfilter_handle *": "*const odfilter_handle"}
OF_RUST |= {"odfilter_handle *": "*mut odfilter_handle", "odfilter_answer *": "*mut odfilter_answer"}
OF_RUST |= {"const odfilter_answer *": "*const odfilter_answer", "uint32_t": "u32", "uint64_t": "u64"}
OF_RUST |= {"const char *": "*const c_char", "char *": "*mut c_char"}


def rust_name(name):
    return "r#type" if name == "type" else name


def call(name, given):
    words = [f"{rust_name(it)}: {OF_RUST[kind]}" for it, kind in given]
    return shown(f"    pub fn {name}(", words, ") -> u32;", "        ")


def files(header):
    pairs = [*header.statuses, *header.verdicts, *header.forms]
    pairs += [(f"SQL_{name}", number) for name, number in header.statements]
    pairs += [(f"VALUE_{name}", number) for name, number in header.values]
    text = PAGE.format(
        made=FROM,
        numbers="".join(f"pub const ODFILTER_{name}: u32 = {number};\n" for name, number in pairs),
        schema_count=header.schema_count,
        schema_names=header.schema_names,
        faults="".join(f'    ({status}, {number}, "{name}"),\n' for status, number, name in header.faults),
        fields="".join(f"    pub {it['name']}: {OF_RUST[it['type']]},\n" for it in header.answer),
        calls="".join(call(name, given) for name, given in header.calls),
    )
    return {"rust/odfilter-sys/src/lib.rs": text}
