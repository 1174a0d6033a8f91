//! Safe Rust over Quargnil's static library: block files in text form through the proved passes.
//!
//! Callers check nothing beforehand. What is behind these functions, and what is promised of it, stands in
//! `crates/quargnil`; this wrapper only hands slices across. A call wants half a megabyte of stack.

/// Whether the static library is linked; it is there for Linux on x86-64 alone.
pub const LINKED: bool = cfg!(linked);

/// The room that is enough for every treated block: 129 records of at most 106 bytes.
pub const ROOM: usize = 13_674;

/// What the library answers where the buffer is too small.
#[cfg(linked)]
const NO_ROOM: u64 = 255;

#[derive(Clone, Copy, Debug, PartialEq, Eq)]
pub enum Pass {
    /// Constant propagation.
    First,
    /// Dead store elimination, with its own limits.
    Second,
    Both,
}

/// A refusal of document 01: its number, and its line or statement.
#[derive(Clone, Copy, Debug, PartialEq, Eq)]
pub struct Refusal {
    pub number: u8,
    pub place: u64,
}

/// Why no treated block was written; the buffer is as it was.
#[derive(Clone, Copy, Debug, PartialEq, Eq)]
pub enum NotWritten {
    Refused(Refusal),
    /// The buffer is too small; this many bytes are enough for every block.
    NoRoom(usize),
}

#[cfg(linked)]
mod c {
    // A slice of the library's is a pointer and a length; a reference to a number is a pointer.
    extern "C" {
        pub fn quargnil_first(
            input: *const u8,
            input_len: usize,
            out: *mut u8,
            out_len: usize,
            detail: *mut u64,
        ) -> u64;
        pub fn quargnil_second(
            input: *const u8,
            input_len: usize,
            out: *mut u8,
            out_len: usize,
            detail: *mut u64,
        ) -> u64;
        pub fn quargnil_both(input: *const u8, input_len: usize, out: *mut u8, out_len: usize, detail: *mut u64)
            -> u64;
        pub fn quargnil_repeat(pass: u8, input: *const u8, input_len: usize, times: u32) -> u64;
    }
}

/// Treats a block file; the treated block's text is the beginning of `out` that the answer counts.
#[cfg(linked)]
pub fn treat_into(pass: Pass, file: &[u8], out: &mut [u8]) -> Result<usize, NotWritten> {
    let function = match pass {
        Pass::First => c::quargnil_first,
        Pass::Second => c::quargnil_second,
        Pass::Both => c::quargnil_both,
    };
    let mut detail = 0;
    // The pointers and lengths are those of slices that live through the call, and `out` is lent to it alone.
    let code = unsafe { function(file.as_ptr(), file.len(), out.as_mut_ptr(), out.len(), &mut detail) };
    match code {
        0 => Ok(detail as usize),
        NO_ROOM => Err(NotWritten::NoRoom(detail as usize)),
        number => Err(NotWritten::Refused(Refusal { number: number as u8, place: detail })),
    }
}

/// Treats a block file: the treated block's text, or the refusal.
#[cfg(linked)]
pub fn treat(pass: Pass, file: &[u8]) -> Result<Vec<u8>, Refusal> {
    let mut out = vec![0; ROOM];
    match treat_into(pass, file, &mut out) {
        Ok(written) => {
            out.truncate(written);
            Ok(out)
        }
        Err(NotWritten::Refused(refusal)) => Err(refusal),
        Err(NotWritten::NoRoom(room)) => unreachable!("{room} bytes are enough for every block, and were lent"),
    }
}

/// For measuring: reads a block once, treats it `times` times, and answers how many statements the result has.
#[cfg(linked)]
pub fn repeat(pass: Pass, file: &[u8], times: u32) -> u64 {
    let number = match pass {
        Pass::First => 1,
        Pass::Second => 2,
        Pass::Both => 3,
    };
    // The pointer and length are those of a slice that lives through the call.
    unsafe { c::quargnil_repeat(number, file.as_ptr(), file.len(), times) }
}
