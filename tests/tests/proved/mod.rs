//! The proved engine, by the exported functions of `crates/jullpinay_c`.

#![allow(dead_code)]

use second_engine::{Engine, Listing, Quick, Refusal};

#[cfg(not_built)]
compile_error!("target/staticlib/libjullpinay.a is not there: build it by `bash examples/build.sh jullpinay`");

pub mod typed;

#[path = "../../../include/jullpinay.rs"]
pub mod exported;

/// What an answer holds before a call: no number of it may be left where an answer writes.
const UNWRITTEN: u32 = 0xDEAD_BEEF;

/// The full listing: what is returned, and the answer's four numbers.
pub fn listing(
    section: &[u32],
    families: &[u32],
    selection: &[u32],
    work: &mut [u32],
    buffer: &mut [u32],
) -> (u32, [u32; 4]) {
    let mut answer = [UNWRITTEN; 4];
    // SAFETY: the function takes any five slices and reads and writes within them alone; none of them overlap.
    let returned = unsafe {
        exported::jullpinay_listing(
            section.as_ptr(),
            section.len(),
            families.as_ptr(),
            families.len(),
            selection.as_ptr(),
            selection.len(),
            work.as_mut_ptr(),
            work.len(),
            buffer.as_mut_ptr(),
            buffer.len(),
            &mut answer,
        )
    };
    (returned, answer)
}

/// The quick answer: what is returned, and the answer's three numbers.
pub fn quick(section: &[u32], families: &[u32], selection: &[u32], work: &mut [u32]) -> (u32, [u32; 3]) {
    let mut answer = [UNWRITTEN; 3];
    // SAFETY: as above.
    let returned = unsafe {
        exported::jullpinay_quick(
            section.as_ptr(),
            section.len(),
            families.as_ptr(),
            families.len(),
            selection.as_ptr(),
            selection.len(),
            work.as_mut_ptr(),
            work.len(),
            &mut answer,
        )
    };
    (returned, answer)
}

/// The snippet, a part of the section.
pub fn snippet(section: &[u32], from: u32, to: u32) -> &[u32] {
    // SAFETY: the function takes any slice, and reads within it alone.
    let length = unsafe { exported::jullpinay_snippet(section.as_ptr(), section.len(), from, to) };
    if length == 0 {
        return &section[..0];
    }
    &section[from as usize..][..length]
}

/// What a listing returned, and the four numbers of its answer.
fn listing_answer((returned, answer): (u32, [u32; 4])) -> Listing {
    assert_eq!(returned, answer[0]);
    match answer {
        [0, matches, strings, yes] => {
            assert!(yes <= 1);
            Listing::Listed { matches, strings, yes: yes == 1 }
        }
        [number, place, rest @ ..] => {
            assert_eq!(rest, [UNWRITTEN; 2], "a refusal leaves the rest of the answer unchanged");
            Listing::Refused { number, place }
        }
    }
}

/// What a quick answer returned, and its three numbers.
fn quick_answer((returned, answer): (u32, [u32; 3])) -> Quick {
    assert_eq!(returned, answer[0]);
    match answer {
        [0, yes, codes] => {
            assert!(yes <= 1);
            Quick::Answered { yes: yes == 1, codes }
        }
        [number, place, rest] => {
            assert_eq!(rest, UNWRITTEN, "a refusal leaves the rest of the answer unchanged");
            Quick::Refused { number, place }
        }
    }
}

pub struct Proved;

impl Engine for Proved {
    fn listing(
        &self,
        section: &[u32],
        families: &[u32],
        selection: &[u32],
        work: &mut [u32],
        buffer: &mut [u32],
    ) -> Listing {
        listing_answer(listing(section, families, selection, work, buffer))
    }

    fn quick(&self, section: &[u32], families: &[u32], selection: &[u32], work: &mut [u32]) -> Quick {
        quick_answer(quick(section, families, selection, work))
    }

    fn snippet<'a>(&self, section: &'a [u32], from: u32, to: u32) -> &'a [u32] {
        snippet(section, from, to)
    }

    fn read(&self, text: &[u8], selection: &mut [u32]) -> Result<u32, Refusal> {
        typed::read_answer(typed::read(text, selection))
    }

    fn typed_listing(
        &self,
        section: &[u32],
        families: &[u32],
        text: &[u8],
        work: &mut [u32],
        buffer: &mut [u32],
    ) -> Listing {
        listing_answer(typed::listing(section, families, text, work, buffer))
    }

    fn typed_quick(&self, section: &[u32], families: &[u32], text: &[u8], work: &mut [u32]) -> Quick {
        quick_answer(typed::quick(section, families, text, work))
    }
}
