//! The library's calls, as `include/lowfare.h` declares them, and the two kinds of handle. All `unsafe` code is here.

use crate::Error;
use std::ffi::c_void;
use std::ptr::null_mut;

pub const DONE: u32 = 0;
pub const REFUSED: u32 = 1;
pub const OUT_OF_MEMORY: u32 = 5;
pub const TOO_LARGE: u32 = 6;
pub const NO: u32 = 7;
pub const TOO_LONG: u32 = 8;

/// A handle of a book or of a text.
#[repr(C)]
struct Handle {
    is_held: bool,
    at: *mut c_void,
}

impl Handle {
    const fn none() -> Handle {
        Handle {
            is_held: false,
            at: null_mut(),
        }
    }
}

extern "C" {
    fn lowfare_run(
        words: *const u8,
        words_length: usize,
        input: *const u8,
        input_length: usize,
        answer: *mut Handle,
    ) -> u32;
    fn lowfare_open(
        text: *const u8,
        text_length: usize,
        book: *mut Handle,
        refusal: *mut Handle,
    ) -> u32;
    fn lowfare_book_share(book: *mut Handle, other: *mut Handle) -> u32;
    fn lowfare_book_close(book: *mut Handle);
    fn lowfare_file(
        book: *mut Handle,
        filing: *const u8,
        filing_length: usize,
        next: *mut Handle,
        refusal: *mut Handle,
    ) -> u32;
    fn lowfare_version(book: *mut Handle) -> u32;
    fn lowfare_search(
        book: *mut Handle,
        request: *const u8,
        request_length: usize,
        best: u32,
        budget: u32,
        answer: *mut Handle,
    ) -> u32;
    fn lowfare_check(
        book: *mut Handle,
        request: *const u8,
        request_length: usize,
        certificate: *const u8,
        certificate_length: usize,
        answer: *mut Handle,
    ) -> u32;
    fn lowfare_calendar(
        book: *mut Handle,
        request: *const u8,
        request_length: usize,
        outs: u8,
        backs: u8,
        budget: u32,
        answer: *mut Handle,
    ) -> u32;
    fn lowfare_verdict(
        book: *mut Handle,
        request: *const u8,
        request_length: usize,
        ticket: *const u8,
        ticket_length: usize,
        answer: *mut Handle,
    ) -> u32;
    fn lowfare_text_length(text: *mut Handle) -> usize;
    fn lowfare_text_copy(text: *mut Handle, into: *mut u8, room: usize) -> usize;
    fn lowfare_text_free(text: *mut Handle);
}

/// A text that the library made.
struct Text(Handle);

impl Text {
    fn none() -> Text {
        Text(Handle::none())
    }

    fn bytes(mut self) -> Vec<u8> {
        // SAFETY: the handle is the library's, or holds nothing, and is in this call alone.
        let room = unsafe { lowfare_text_length(&mut self.0) };
        let mut bytes = vec![0; room];
        // SAFETY: as above, and the buffer has so many bytes. The pointer of an empty one isn't null.
        let count = unsafe { lowfare_text_copy(&mut self.0, bytes.as_mut_ptr(), room) };
        bytes.truncate(count);
        bytes
    }
}

impl Drop for Text {
    fn drop(&mut self) {
        // SAFETY: the handle is the library's, or holds nothing, and is in this call alone.
        unsafe { lowfare_text_free(&mut self.0) }
    }
}

/// A handle of a book. It is in one call at a time, since each takes it by `&mut`.
pub struct BookHandle(Handle);

// SAFETY: what a book's handle holds is proved to be one that may go to another thread.
unsafe impl Send for BookHandle {}

impl Drop for BookHandle {
    fn drop(&mut self) {
        // SAFETY: the handle is the library's, or holds nothing, and is in this call alone.
        unsafe { lowfare_book_close(&mut self.0) }
    }
}

/// The text of a call that did what it is for, with its status; else its error.
fn judged(status: u32, text: Text) -> Result<(u32, Vec<u8>), Error> {
    match status {
        DONE | NO => Ok((status, text.bytes())),
        REFUSED => Err(refused(&text.bytes())),
        OUT_OF_MEMORY => Err(Error::OutOfMemory),
        TOO_LARGE => Err(Error::TooLarge),
        TOO_LONG => Err(Error::TooLong),
        status => Err(Error::Unknown(format!("status {status}"))),
    }
}

/// The error of a line `refused LINE REASON`.
fn refused(text: &[u8]) -> Error {
    let line = String::from_utf8_lossy(text);
    let parts: Vec<&str> = line.trim_end().splitn(3, ' ').collect();
    match parts[..] {
        ["refused", line, reason] => match line.parse() {
            Ok(line) => Error::Refused {
                line,
                reason: reason.to_string(),
            },
            Err(_) => Error::Unknown(line.to_string()),
        },
        _ => Error::Unknown(line.into_owned()),
    }
}

// In each call below the pointers and lengths are those of one slice each, which lives through the call, and the
// handles are distinct variables: SAFETY.

pub fn run(words: &[u8], input: &[u8]) -> Result<(u32, Vec<u8>), Error> {
    let mut answer = Text::none();
    let status = unsafe {
        lowfare_run(
            words.as_ptr(),
            words.len(),
            input.as_ptr(),
            input.len(),
            &mut answer.0,
        )
    };
    if status == OUT_OF_MEMORY {
        return Err(Error::OutOfMemory);
    }
    Ok((status, answer.bytes()))
}

pub fn open(case: &[u8]) -> Result<BookHandle, Error> {
    let (mut book, mut refusal) = (BookHandle(Handle::none()), Text::none());
    let status = unsafe { lowfare_open(case.as_ptr(), case.len(), &mut book.0, &mut refusal.0) };
    judged(status, refusal)?;
    Ok(book)
}

impl BookHandle {
    pub fn share(&mut self) -> Result<BookHandle, Error> {
        let mut other = BookHandle(Handle::none());
        let status = unsafe { lowfare_book_share(&mut self.0, &mut other.0) };
        judged(status, Text::none())?;
        Ok(other)
    }

    pub fn version(&mut self) -> u32 {
        unsafe { lowfare_version(&mut self.0) }
    }

    pub fn file(&mut self, filing: &[u8]) -> Result<BookHandle, Error> {
        let (mut next, mut refusal) = (BookHandle(Handle::none()), Text::none());
        let status = unsafe {
            lowfare_file(
                &mut self.0,
                filing.as_ptr(),
                filing.len(),
                &mut next.0,
                &mut refusal.0,
            )
        };
        judged(status, refusal)?;
        Ok(next)
    }

    pub fn search(&mut self, request: &[u8], best: u32, budget: u32) -> Result<Vec<u8>, Error> {
        let mut answer = Text::none();
        let status = unsafe {
            lowfare_search(
                &mut self.0,
                request.as_ptr(),
                request.len(),
                best,
                budget,
                &mut answer.0,
            )
        };
        Ok(judged(status, answer)?.1)
    }

    pub fn check(&mut self, request: &[u8], certificate: &[u8]) -> Result<Vec<u8>, Error> {
        let mut answer = Text::none();
        let status = unsafe {
            lowfare_check(
                &mut self.0,
                request.as_ptr(),
                request.len(),
                certificate.as_ptr(),
                certificate.len(),
                &mut answer.0,
            )
        };
        Ok(judged(status, answer)?.1)
    }

    pub fn calendar(
        &mut self,
        request: &[u8],
        outs: u8,
        backs: u8,
        budget: u32,
    ) -> Result<Vec<u8>, Error> {
        let mut answer = Text::none();
        let status = unsafe {
            lowfare_calendar(
                &mut self.0,
                request.as_ptr(),
                request.len(),
                outs,
                backs,
                budget,
                &mut answer.0,
            )
        };
        Ok(judged(status, answer)?.1)
    }

    pub fn verdict(&mut self, request: &[u8], ticket: &[u8]) -> Result<Vec<u8>, Error> {
        let mut answer = Text::none();
        let status = unsafe {
            lowfare_verdict(
                &mut self.0,
                request.as_ptr(),
                request.len(),
                ticket.as_ptr(),
                ticket.len(),
                &mut answer.0,
            )
        };
        Ok(judged(status, answer)?.1)
    }
}
