//! Judges, which judge rows by a filter.
use crate::calls::{buffer, bytes, code_of, json_of, message_of, text, Handle};
use crate::error::{plain, plain_about, Error, Result, RowFault};
use crate::filter::Filter;
use odfilter_sys as c;
use std::cell::Cell;
use std::io::{BufRead, Read};
use std::marker::PhantomData;
use std::sync::Arc;

/// The most bytes of a line.
const LINE_LIMIT: u64 = 1 << 20;

/// What judges rows by a filter, which it keeps. Reuse it: it caches how rows of that shape are read.
#[derive(Debug)]
pub struct Judge {
    handle: Handle,
    filter: Arc<Handle>,
    /// One call at a time: it may be sent to another thread, and not shared with one.
    one_call: PhantomData<Cell<()>>,
}

/// Lines that a judge keeps, each with its line feed, and how many rows there were and were kept.
#[derive(Debug, Clone, PartialEq, Eq)]
pub struct Kept {
    /// The kept lines.
    pub text: Vec<u8>,
    /// How many rows there were.
    pub rows: u64,
    /// How many of them are kept.
    pub kept: u64,
}

impl Filter {
    /// A judge by this filter, without a moment and a bound.
    pub fn judge(&self) -> Result<Judge> {
        // SAFETY: the handle is a filter.
        let made = Handle::made(|to| unsafe { c::odfilter_new_judge_of(self.handle.at(), to) });
        let handle = made.map_err(plain)?;
        Ok(Judge { handle, filter: Arc::clone(&self.handle), one_call: PhantomData })
    }
}

impl Judge {
    /// Sets the moment that now() stands for, spelled as in a filter: 2026-11-25T09:00:00Z.
    pub fn at(mut self, moment: &str) -> Result<Judge> {
        // SAFETY: the handle is a judge, and the bytes are of this call.
        match unsafe { c::odfilter_set_moment(self.handle.at_mut(), bytes(moment.as_bytes())) } {
            c::ODFILTER_OK => Ok(self),
            status => Err(plain_about(status, moment)),
        }
    }

    /// Bounds what the filter may cost on each row: how many times it judges the body of an any() or all(), and how
    /// many items of lists and members of collections it compares after `in` within one; also, anywhere, the whole KiB
    /// of each text that a comparison takes, 8 times those of each that a function takes, and 16 times those of each
    /// that a function makes.
    pub fn within(mut self, bound: u64) -> Judge {
        // SAFETY: the handle is a judge, of which this call has no other status than OK.
        unsafe { c::odfilter_set_bound(self.handle.at_mut(), bound) };
        self
    }

    /// Whether the filter is true on a row, one JSON object in UTF-8; `None` where it is null.
    pub fn verdict(&mut self, row: impl AsRef<[u8]>) -> Result<Option<bool>> {
        let mut answer = c::odfilter_answer::default();
        // SAFETY: the handle is a judge of a filter, and all else is of this call.
        let status = unsafe {
            c::odfilter_judge_next(self.handle.at_mut(), bytes(row.as_ref()), &mut answer)
        };
        match (status, answer.verdict) {
            (c::ODFILTER_OK, c::ODFILTER_NO_TRUTH_VALUE) => Ok(None),
            (c::ODFILTER_OK, verdict) => Ok(Some(verdict == c::ODFILTER_TRUE)),
            (status, _) => Err(self.fault(status, &answer, 1, Vec::new())),
        }
    }

    /// Judges rows, one JSON object a line, and returns those on which the filter is true. Blank lines are passed over.
    /// The first line at fault is an `Error::Row`, and one that costs more than the bound an `Error::TooCostly`, which
    /// has what is kept before it.
    pub fn filter_lines(&mut self, rows: &[u8]) -> Result<Kept> {
        let mut text = vec![0; rows.len() + 1];
        let mut answer = c::odfilter_answer::default();
        // SAFETY: the handles are a filter and a judge, and all else is of this call.
        let status = unsafe {
            let judge = self.handle.at_mut();
            c::odfilter_filter_lines(
                self.filter.at(),
                judge,
                bytes(rows),
                buffer(&mut text),
                &mut answer,
            )
        };
        text.truncate(answer.length);
        match status {
            c::ODFILTER_OK => Ok(Kept { text, rows: answer.rows, kept: answer.kept }),
            status => Err(self.fault(status, &answer, answer.number, text)),
        }
    }

    /// The lines of a reader on which the filter is true, one after another as they come, without their line feeds. The
    /// first line at fault is an `Error::Row`, or one that costs more than the bound an `Error::TooCostly`, whose line
    /// counts those of the reader, and the last item.
    pub fn keep<R: BufRead>(&mut self, rows: R) -> Keep<'_, R> {
        Keep { judge: self, rows, line: 0, is_over: false }
    }

    fn fault(&self, status: u32, answer: &c::odfilter_answer, line: u64, kept: Vec<u8>) -> Error {
        let path = match status {
            c::ODFILTER_ROW_FAULT => self.path(),
            c::ODFILTER_JSON_FAULT
            | c::ODFILTER_EVAL_FAULT
            | c::ODFILTER_LINE_TOO_LONG
            | c::ODFILTER_TOO_COSTLY => String::new(),
            other => return plain(other),
        };
        let code = code_of(status, answer);
        let message = message_of(None, status, path.as_bytes(), answer);
        // the line may be counted from elsewhere, so the object has none
        let alone = c::odfilter_answer { number: 0, ..*answer };
        let json = json_of(None, status, path.as_bytes(), &alone);
        let fault = Box::new(RowFault { code, path, line, kept, message, json });
        if status == c::ODFILTER_TOO_COSTLY {
            Error::TooCostly(fault)
        } else {
            Error::Row(fault)
        }
    }

    /// The path of the last row's fault.
    fn path(&self) -> String {
        // SAFETY: the handle is a judge, and all else is of this call.
        text(|to, of| unsafe { c::odfilter_path(self.handle.at(), to, of) }).unwrap_or_default()
    }
}

/// The iterator of `Judge::keep`.
#[derive(Debug)]
pub struct Keep<'a, R> {
    judge: &'a mut Judge,
    rows: R,
    line: u64,
    is_over: bool,
}

impl<R: BufRead> Keep<'_, R> {
    /// The next line, without its line feed; `None` after the last.
    fn line(&mut self) -> Result<Option<Vec<u8>>> {
        let mut line = Vec::new();
        let mut limited = self.rows.by_ref().take(LINE_LIMIT + 2);
        let count = limited.read_until(b'\n', &mut line).map_err(Error::Io)?;
        self.line += 1;
        if line.last() == Some(&b'\n') {
            line.pop();
        }
        if line.len() as u64 > LINE_LIMIT {
            let fault = c::odfilter_answer::default();
            let status = c::ODFILTER_LINE_TOO_LONG;
            return Err(self.judge.fault(status, &fault, self.line, Vec::new()));
        }
        Ok((count > 0).then_some(line))
    }

    /// The next line that is kept; `None` after the last.
    fn kept(&mut self) -> Result<Option<Vec<u8>>> {
        while let Some(line) = self.line()? {
            if line.iter().all(|it| b" \t\r".contains(it)) {
                continue;
            }
            if self.judge.verdict(&line)? == Some(true) {
                return Ok(Some(line));
            }
        }
        Ok(None)
    }
}

impl<R: BufRead> Iterator for Keep<'_, R> {
    type Item = Result<Vec<u8>>;

    fn next(&mut self) -> Option<Self::Item> {
        if self.is_over {
            return None;
        }
        let mut kept = self.kept();
        self.is_over = !matches!(kept, Ok(Some(_)));
        if let Err(Error::Row(fault) | Error::TooCostly(fault)) = &mut kept {
            fault.line = self.line;
        }
        kept.transpose()
    }
}
