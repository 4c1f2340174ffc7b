//! Handles, and the calls that borrow bytes and write texts.
use crate::error::{plain, Error, Result};
use odfilter_sys as c;
use std::{mem, ptr};

/// Refuses a library that writes longer answers than this crate reads.
pub(crate) fn require_fit() -> Result<()> {
    // SAFETY: the call takes a number.
    match unsafe { c::odfilter_fits(mem::size_of::<c::odfilter_answer>() as u64) } {
        c::ODFILTER_OK => Ok(()),
        status => Err(plain(status)),
    }
}

/// A handle of the library, freed when it is dropped. It is not said of which kind it is.
#[derive(Debug)]
pub(crate) struct Handle(*mut c::odfilter_handle);

// SAFETY: what one thread made may be used and freed by another. A judge, which one call at a time may use, is given
// as `&mut` alone.
unsafe impl Send for Handle {}
// SAFETY: schemas, types and filters are only read, by any number of threads; `Judge` is not `Sync`.
unsafe impl Sync for Handle {}

impl Handle {
    pub(crate) fn at(&self) -> *const c::odfilter_handle {
        self.0
    }

    pub(crate) fn at_mut(&mut self) -> *mut c::odfilter_handle {
        self.0
    }

    /// The handle that a call makes, or its status.
    pub(crate) fn made(
        call: impl FnOnce(*mut *mut c::odfilter_handle) -> u32,
    ) -> std::result::Result<Handle, u32> {
        let mut handle = Handle(ptr::null_mut());
        match call(&mut handle.0) {
            c::ODFILTER_OK => Ok(handle),
            status => Err(status),
        }
    }
}

impl Drop for Handle {
    fn drop(&mut self) {
        // SAFETY: the handle is of the library and was not freed, or NULL.
        unsafe { c::odfilter_free(&mut self.0) };
    }
}

pub(crate) fn bytes(of: &[u8]) -> c::odfilter_bytes {
    c::odfilter_bytes { at: of.as_ptr().cast(), length: of.len() }
}

pub(crate) fn buffer(of: &mut [u8]) -> c::odfilter_buffer {
    c::odfilter_buffer { at: of.as_mut_ptr().cast(), length: of.len() }
}

/// The bytes that a call writes into a buffer, which grows to the length that the call asks for.
pub(crate) fn written(
    mut call: impl FnMut(c::odfilter_buffer, *mut c::odfilter_answer) -> u32,
) -> Result<Vec<u8>> {
    let mut text = vec![0; 256];
    let mut answer = c::odfilter_answer::default();
    loop {
        match call(buffer(&mut text), &mut answer) {
            c::ODFILTER_OK => {
                text.truncate(answer.length);
                return Ok(text);
            }
            c::ODFILTER_TOO_SMALL => text.resize(answer.length, 0),
            status => return Err(plain(status)),
        }
    }
}

/// The text that a call writes.
pub(crate) fn text(
    call: impl FnMut(c::odfilter_buffer, *mut c::odfilter_answer) -> u32,
) -> Result<String> {
    String::from_utf8(written(call)?).map_err(|_| Error::NotUtf8)
}

/// The name of a fault. A library that is newer than this crate may know more of them.
pub(crate) fn code_of(status: u32, fault: &c::odfilter_answer) -> String {
    let known = c::FAULT_NAMES.iter().find(|it| (it.0, it.1) == (status, fault.fault));
    match known {
        Some((_, _, name)) => (*name).to_owned(),
        // SAFETY: the buffer and the answer are of this call.
        None => {
            text(|to, answer| unsafe { c::odfilter_fault_name(status, fault.fault, to, answer) })
                .unwrap_or_default()
        }
    }
}

/// The library's sentence about a fault of a text.
pub(crate) fn message_of(
    of_type: Option<&Handle>,
    status: u32,
    about: &[u8],
    fault: &c::odfilter_answer,
) -> String {
    let of_type = of_type.map_or(ptr::null(), Handle::at);
    // SAFETY: the handle is NULL or a type, and all else is of this call.
    text(|to, answer| unsafe {
        c::odfilter_fault_text(of_type, status, bytes(about), to, fault, answer)
    })
    .unwrap_or_default()
}

/// The object of a fault of a text that the program prints by `--format json`; empty where there is none.
pub(crate) fn json_of(
    of_type: Option<&Handle>,
    status: u32,
    about: &[u8],
    fault: &c::odfilter_answer,
) -> String {
    let of_type = of_type.map_or(ptr::null(), Handle::at);
    // SAFETY: the handle is NULL or a type, and all else is of this call.
    text(|to, answer| unsafe {
        c::odfilter_fault_json(of_type, status, bytes(about), to, fault, answer)
    })
    .unwrap_or_default()
}
