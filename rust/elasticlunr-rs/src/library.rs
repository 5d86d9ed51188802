//! The one call of the proved library.

use std::alloc::{handle_alloc_error, Layout};
use std::{ptr, slice};

const DONE: u32 = 0;
const MEMORY: u32 = 1;
const REFUSED: u32 = 2;

extern "C" {
    fn elasticlunr_index_documents(
        input: *const u8,
        length: usize,
        text: *mut *mut u8,
        text_length: *mut usize,
    ) -> u32;
    fn elasticlunr_free(text: *mut u8);
}

/// The text of the index of these documents, whose form `Input` writes. Out of memory ends the
/// process, as it does everywhere in Rust.
pub(crate) fn index_documents(input: &[u8]) -> String {
    let (mut text, mut length) = (ptr::null_mut(), 0);
    // SAFETY: the input is borrowed for the call, and the two places lie apart from it.
    let status =
        unsafe { elasticlunr_index_documents(input.as_ptr(), input.len(), &mut text, &mut length) };
    match status {
        DONE => taken(text, length),
        MEMORY => handle_alloc_error(Layout::for_value(input)),
        REFUSED => panic!(
            "the library refuses its input: {}",
            taken(text, length).trim_end()
        ),
        _ => panic!("the library says that its input is malformed"),
    }
}

/// A copy of an answer, whose block goes back to the library.
fn taken(text: *mut u8, length: usize) -> String {
    // SAFETY: at a status with a text, `text` leads to a block of `length` bytes, which is the
    // caller's.
    let bytes = unsafe { slice::from_raw_parts(text, length) }.to_vec();
    // SAFETY: the block is the library's, and nothing borrows it any more.
    unsafe { elasticlunr_free(text) };
    String::from_utf8(bytes).expect("an answer of the library is UTF-8")
}
