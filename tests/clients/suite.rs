//! Answers the questions of tests/library_cases.py by the calls of the library: `suite FILE`. In Rust, over the header
//! by hand: rustc alone builds it. Each text that is handed in, and all room, is a block of just as many bytes.
use std::io::{self, Write};
use std::os::raw::c_char;
use std::{env, fs, process, ptr};

/// include/odfilter.h, as far as the suite needs it.
mod odfilter {
    use std::os::raw::c_char;

    #[repr(C)]
    pub struct Handle {
        _private: [u8; 0],
    }

    #[repr(C)]
    #[derive(Clone, Copy)]
    pub struct Bytes {
        pub at: *const c_char,
        pub length: usize,
    }

    #[repr(C)]
    #[derive(Clone, Copy)]
    pub struct Room {
        pub at: *mut c_char,
        pub length: usize,
    }

    #[repr(C)]
    #[derive(Clone, Copy, Default)]
    pub struct Answer {
        pub fault: u32,
        pub verdict: u32,
        pub start: usize,
        pub stop: usize,
        pub number: u64,
        pub length: usize,
        pub first: usize,
        pub rows: u64,
        pub kept: u64,
        pub piece_start: usize,
        pub piece_stop: usize,
        pub value_start: usize,
        pub value_stop: usize,
    }

    pub const OK: u32 = 0;
    pub const NULL: u32 = 1;
    pub const TOO_SMALL: u32 = 4;
    pub const UNKNOWN_TYPE: u32 = 6;
    pub const NO_FILTER: u32 = 7;
    pub const SCHEMA_FAULT: u32 = 16;
    pub const TEXT_FAULT: u32 = 17;
    pub const SYNTAX_FAULT: u32 = 18;
    pub const TYPE_FAULT: u32 = 19;
    pub const QUERY_FAULT: u32 = 20;
    pub const JSON_FAULT: u32 = 21;
    pub const ROW_FAULT: u32 = 22;
    pub const EVAL_FAULT: u32 = 23;
    pub const LINE_TOO_LONG: u32 = 24;
    pub const SCHEMA_BAD_TYPE: u32 = 4;
    pub const SCHEMA_BAD_PROPERTY: u32 = 5;
    pub const SCHEMA_UNKNOWN_BASE: u32 = 6;
    pub const SCHEMA_BASE_CYCLE: u32 = 7;
    pub const SCHEMA_PROPERTY_TWICE: u32 = 8;
    pub const SCHEMA_BAD_ENUM_MEMBER: u32 = 9;
    pub const FALSE: u32 = 0;
    pub const TRUE: u32 = 1;
    pub const NO_TRUTH_VALUE: u32 = 2;

    pub type Checker = unsafe extern "C" fn(*const Handle, Bytes, *mut *mut Handle, *mut Answer) -> u32;
    pub type Writer = unsafe extern "C" fn(*const Handle, Room, *mut Answer) -> u32;

    #[link(name = "odfilter")]
    extern "C" {
        pub fn odfilter_read_schema(document: Bytes, names: Room, schema: *mut *mut Handle, answer: *mut Answer)
            -> u32;
        pub fn odfilter_find_type(schema: *const Handle, name: Bytes, found: *mut *mut Handle) -> u32;
        pub fn odfilter_check(of: *const Handle, text: Bytes, filter: *mut *mut Handle, answer: *mut Answer) -> u32;
        pub fn odfilter_check_query(
            of: *const Handle,
            query: Bytes,
            filter: *mut *mut Handle,
            answer: *mut Answer,
        ) -> u32;
        pub fn odfilter_check_url(
            of: *const Handle,
            query: Bytes,
            text: Room,
            filter: *mut *mut Handle,
            answer: *mut Answer,
        ) -> u32;
        pub fn odfilter_canonical(filter: *const Handle, text: Room, answer: *mut Answer) -> u32;
        pub fn odfilter_explain(filter: *const Handle, text: Room, answer: *mut Answer) -> u32;
        pub fn odfilter_new_judge(judge: *mut *mut Handle) -> u32;
        pub fn odfilter_set_moment(judge: *mut Handle, moment: Bytes) -> u32;
        pub fn odfilter_judge(filter: *const Handle, judge: *mut Handle, row: Bytes, answer: *mut Answer) -> u32;
        pub fn odfilter_filter_lines(
            filter: *const Handle,
            judge: *mut Handle,
            rows: Bytes,
            kept: Room,
            answer: *mut Answer,
        ) -> u32;
        pub fn odfilter_path(judge: *const Handle, path: Room, answer: *mut Answer) -> u32;
        pub fn odfilter_free(handle: *mut *mut Handle) -> u32;
        pub fn odfilter_fault_name(status: u32, fault: u32, text: Room, answer: *mut Answer) -> u32;
    }
}

use odfilter as c;

/// A handle, freed with its owner.
struct Handle(*mut c::Handle);

impl Handle {
    fn none() -> Handle {
        Handle(ptr::null_mut())
    }

    /// The place for a new one.
    fn place(&mut self) -> *mut *mut c::Handle {
        unsafe { c::odfilter_free(&mut self.0) };
        &mut self.0
    }
}

impl Drop for Handle {
    fn drop(&mut self) {
        unsafe { c::odfilter_free(&mut self.0) };
    }
}

fn give_up(why: &str) -> ! {
    eprintln!("suite: {}", why);
    process::exit(3)
}

/// A text that is borrowed. Rust's empty slices have an address that is not null, which is what the header asks.
fn bytes(text: &[u8]) -> c::Bytes {
    c::Bytes { at: text.as_ptr() as *const c_char, length: text.len() }
}

fn room(text: &mut [u8]) -> c::Room {
    c::Room { at: text.as_mut_ptr() as *mut c_char, length: text.len() }
}

/// The text that a call writes, for whose length it is asked first, or `nothing` where it has no handle.
fn written(call: impl Fn(c::Room, *mut c::Answer) -> u32) -> Vec<u8> {
    let mut answer = c::Answer::default();
    match call(room(&mut []), &mut answer) {
        c::NULL => return b"nothing".to_vec(),
        c::OK if answer.length == 0 => return Vec::new(),
        c::TOO_SMALL => {}
        status => give_up(&format!("no length of a text: {}", status)),
    }
    let mut text = vec![0u8; answer.length].into_boxed_slice();
    if call(room(&mut text), &mut answer) != c::OK || answer.length != text.len() {
        give_up("no text");
    }
    text.into_vec()
}

fn text_of(call: c::Writer, handle: &Handle) -> Vec<u8> {
    written(|room, answer| unsafe { call(handle.0, room, answer) })
}

fn fault_name(status: u32, fault: u32) -> String {
    let name = written(|room, answer| unsafe { c::odfilter_fault_name(status, fault, room, answer) });
    String::from_utf8(name).unwrap_or_else(|_| give_up("a name that is no text"))
}

/// How many names a schema's fault carries, each of which may be empty.
fn names_of(fault: u32) -> usize {
    match fault {
        c::SCHEMA_BAD_TYPE | c::SCHEMA_UNKNOWN_BASE | c::SCHEMA_BASE_CYCLE => 1,
        c::SCHEMA_BAD_PROPERTY | c::SCHEMA_PROPERTY_TWICE | c::SCHEMA_BAD_ENUM_MEMBER => 2,
        _ => 0,
    }
}

/// What is said of a check.
fn outcome(status: u32, answer: &c::Answer) -> String {
    match status {
        c::OK => "accepted".into(),
        c::NULL => "nothing".into(),
        c::NO_FILTER => "no filter".into(),
        c::QUERY_FAULT => format!("refused query {} {}", fault_name(c::QUERY_FAULT, answer.fault), answer.number),
        c::TEXT_FAULT | c::SYNTAX_FAULT | c::TYPE_FAULT => {
            format!("refused {} {}..{}", fault_name(status, answer.fault), answer.start, answer.stop)
        }
        status => give_up(&format!("no check: {}", status)),
    }
}

/// What is held from question to question.
struct Client {
    schema: Handle,
    named: Handle,
    filter: Handle,
    judge: Handle,
    has_moment: bool,
}

impl Client {
    fn answer(&mut self, word: &[u8], given: &[Box<[u8]>]) -> Vec<u8> {
        match (word, given) {
            (b"schema", [document]) => self.read_schema(document),
            (b"type", [name]) => self.find_type(name).into(),
            (b"filter", [text]) => self.check(c::odfilter_check, text).into_bytes(),
            (b"query", [text]) => self.check(c::odfilter_check_query, text).into_bytes(),
            (b"url", [query]) => self.find(query),
            (b"canonical", []) => text_of(c::odfilter_canonical, &self.filter),
            (b"explain", []) => text_of(c::odfilter_explain, &self.filter),
            (b"row", [row, moment]) => self.judge(row, moment),
            (b"lines", [rows, moment]) => self.filter_lines(rows, moment),
            _ => give_up("no such question"),
        }
    }

    fn read_schema(&mut self, document: &[u8]) -> Vec<u8> {
        let mut answer = c::Answer::default();
        self.named = Handle::none();
        self.filter = Handle::none();
        let place = self.schema.place();
        let status = unsafe { c::odfilter_read_schema(bytes(document), room(&mut []), place, &mut answer) };
        if status == c::OK {
            return b"accepted".to_vec();
        }
        let mut names = vec![0u8; answer.length].into_boxed_slice();
        let again = unsafe { c::odfilter_read_schema(bytes(document), room(&mut names), place, &mut answer) };
        if status != c::SCHEMA_FAULT || again != status || answer.first > names.len() {
            give_up(&format!("no schema: {}", status));
        }
        let mut said = fault_name(status, answer.fault).into_bytes();
        let (first, second) = names.split_at(answer.first);
        for name in [first, second].iter().take(names_of(answer.fault)) {
            said.push(b' ');
            said.extend_from_slice(name);
        }
        said
    }

    fn find_type(&mut self, name: &[u8]) -> &'static str {
        self.filter = Handle::none();
        match unsafe { c::odfilter_find_type(self.schema.0, bytes(name), self.named.place()) } {
            c::OK => "found",
            c::UNKNOWN_TYPE => "unknown",
            c::NULL => "nothing",
            status => give_up(&format!("no type: {}", status)),
        }
    }

    fn check(&mut self, call: c::Checker, text: &[u8]) -> String {
        let mut answer = c::Answer::default();
        let status = unsafe { call(self.named.0, bytes(text), self.filter.place(), &mut answer) };
        outcome(status, &answer)
    }

    /// The filter of a whole query, where its option and its value stand, and its text, for which there is just room.
    fn find(&mut self, query: &[u8]) -> Vec<u8> {
        let (mut answer, named) = (c::Answer::default(), self.named.0);
        let place = self.filter.place();
        unsafe { c::odfilter_check_url(named, bytes(query), room(&mut []), place, &mut answer) };
        let mut text = vec![0u8; answer.length].into_boxed_slice();
        let place = self.filter.place();
        let status = unsafe { c::odfilter_check_url(named, bytes(query), room(&mut text), place, &mut answer) };
        let mut said = outcome(status, &answer);
        if answer.piece_stop > 0 {
            said += &format!("\n{} {} ", answer.piece_start, answer.piece_stop);
            said += &format!("{} {}\n", answer.value_start, answer.value_stop);
        }
        let mut said = said.into_bytes();
        said.extend_from_slice(&text);
        said
    }

    /// The judge, with that moment, or a new one without any.
    fn judge_at(&mut self, moment: &[u8]) -> *mut c::Handle {
        if self.judge.0.is_null() || (self.has_moment && moment.is_empty()) {
            if unsafe { c::odfilter_new_judge(self.judge.place()) } != c::OK {
                give_up("no judge");
            }
        }
        self.has_moment = !moment.is_empty();
        if self.has_moment && unsafe { c::odfilter_set_moment(self.judge.0, bytes(moment)) } != c::OK {
            give_up("no moment");
        }
        self.judge.0
    }

    /// Why a row has no verdict.
    fn row_fault(&self, status: u32, answer: &c::Answer) -> Vec<u8> {
        match status {
            c::JSON_FAULT => b"Json".to_vec(),
            c::LINE_TOO_LONG => b"LineTooLong".to_vec(),
            c::EVAL_FAULT => fault_name(status, answer.fault).into_bytes(),
            c::ROW_FAULT => {
                let mut said = fault_name(status, answer.fault).into_bytes();
                let path = text_of(c::odfilter_path, &self.judge);
                if !path.is_empty() {
                    said.push(b' ');
                }
                said.extend_from_slice(&path);
                said
            }
            _ => give_up(&format!("no verdict: {}", status)),
        }
    }

    fn judge(&mut self, row: &[u8], moment: &[u8]) -> Vec<u8> {
        let mut answer = c::Answer::default();
        let judge = self.judge_at(moment);
        match (unsafe { c::odfilter_judge(self.filter.0, judge, bytes(row), &mut answer) }, answer.verdict) {
            (c::OK, c::TRUE) => b"true".to_vec(),
            (c::OK, c::FALSE) => b"false".to_vec(),
            (c::OK, c::NO_TRUTH_VALUE) => b"null".to_vec(),
            (c::NULL, _) => b"nothing".to_vec(),
            (status, _) => self.row_fault(status, &answer),
        }
    }

    fn filter_lines(&mut self, rows: &[u8], moment: &[u8]) -> Vec<u8> {
        let mut answer = c::Answer::default();
        let mut kept = vec![0u8; rows.len() + 1].into_boxed_slice();
        let judge = self.judge_at(moment);
        let status =
            unsafe { c::odfilter_filter_lines(self.filter.0, judge, bytes(rows), room(&mut kept), &mut answer) };
        let mut said = match status {
            c::NULL => return b"nothing".to_vec(),
            c::OK => Vec::new(),
            _ => [format!("row {} ", answer.number).into_bytes(), self.row_fault(status, &answer)].concat(),
        };
        said.push(b'\n');
        said.extend_from_slice(&kept[..answer.length]);
        said
    }
}

/// Takes a netstring from the front, and copies it.
fn next(wire: &mut &[u8]) -> Box<[u8]> {
    let text = *wire;
    let colon = text.iter().position(|&byte| byte == b':').unwrap_or_else(|| give_up("no netstring"));
    let length = std::str::from_utf8(&text[..colon]).ok().and_then(|digits| digits.parse::<usize>().ok());
    let start = colon + 1;
    match length.map(|length| (text.get(start..start + length), text.get(start + length))) {
        Some((Some(found), Some(b','))) => {
            *wire = &text[start + found.len() + 1..];
            found.into()
        }
        _ => give_up("no netstring"),
    }
}

fn main() -> io::Result<()> {
    let path = env::args_os().nth(1).unwrap_or_else(|| give_up("usage: suite FILE"));
    let file = fs::read(path)?;
    let mut wire = &file[..];
    let mut out = io::BufWriter::new(io::stdout());
    let mut client = Client {
        schema: Handle::none(),
        named: Handle::none(),
        filter: Handle::none(),
        judge: Handle::none(),
        has_moment: false,
    };
    while !wire.is_empty() {
        let word = next(&mut wire);
        let count = match &word[..] {
            b"canonical" | b"explain" => 0,
            b"row" | b"lines" => 2,
            _ => 1,
        };
        let given: Vec<_> = (0..count).map(|_| next(&mut wire)).collect();
        let answer = client.answer(&word, &given);
        write!(out, "{}:", answer.len())?;
        out.write_all(&answer)?;
        out.write_all(b",")?;
    }
    out.flush()
}
