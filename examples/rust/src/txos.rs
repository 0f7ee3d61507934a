//! Safe Rust over the library.
//!
//! Nothing compares these declarations with `txos.h`, so they change together.
use std::ffi::{c_char, c_int};
use std::fmt;

extern "C" {
    fn txos_replay(text: *const c_char, length: usize, answer: *mut c_char, room: usize, size: *mut usize) -> c_int;
    fn txos_debug(text: *const c_char, length: usize, answer: *mut c_char, room: usize, size: *mut usize) -> c_int;
    fn txos_check(text: *const c_char, length: usize, answer: *mut c_char, room: usize, size: *mut usize) -> c_int;
}

type Call = unsafe extern "C" fn(*const c_char, usize, *mut c_char, usize, *mut usize) -> c_int;

/// Why a text has no answer.
#[derive(Debug)]
pub enum Error {
    /// It can't be read, for which this is said.
    Fault(String),
    /// Memory was refused.
    NoMemory,
}

impl fmt::Display for Error {
    fn fmt(&self, f: &mut fmt::Formatter<'_>) -> fmt::Result {
        match self {
            Error::Fault(fault) => f.write_str(fault),
            Error::NoMemory => f.write_str("F6"),
        }
    }
}

/// The report of a schedule.
pub fn replay(text: &[u8]) -> Result<String, Error> {
    answer(txos_replay, text)
}

/// What the commands after a schedule answer.
pub fn debug(text: &[u8]) -> Result<String, Error> {
    answer(txos_debug, text)
}

/// Whether nothing is wrong with a text; the error says what is.
pub fn check(text: &[u8]) -> Result<(), Error> {
    answer(txos_check, text).map(|_| ())
}

/// Calls a function, again with the room that is wanted where there was too little.
fn answer(call: Call, text: &[u8]) -> Result<String, Error> {
    let mut room = vec![0; 4096];
    let mut size = 0;
    loop {
        // SAFETY: both slices and the size are borrowed for the call, share no memory, and have these lengths.
        let status = unsafe {
            call(text.as_ptr().cast(), text.len(), room.as_mut_ptr().cast(), room.len(), &mut size)
        };
        if status == 3 {
            room.resize(size, 0);
            continue;
        }
        let words = String::from_utf8_lossy(&room[..size]).into_owned();
        return match status {
            0 => Ok(words),
            1 => Err(Error::Fault(words)),
            _ => Err(Error::NoMemory),
        };
    }
}
