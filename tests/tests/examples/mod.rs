//! Examples for any engine: the test program that has this module says by `crate::engine()` which one is asked.

mod families;
mod headings;
mod mistakes;
mod occurs;
mod paper;
mod published;
mod refusals;
mod rules;
mod spans;
mod way_out;

pub use crate::words::*;
use second_engine::{compare, engine as second, text, unlimited, Case, Engine, Listing, Quick, BUFFER, EMPTY, WORK};

/// What lent memory holds before a call.
const NOISE: u32 = 0xEEEE_EEEE;

/// The engine asked, `crate::engine()`, agrees with the second engine on this call in all things.
fn agrees(section: &[u32], families: &[u32], selection: &[u32], work_len: usize, buffer: &[u32]) {
    let (section, families) = (section.to_vec(), families.to_vec());
    let (selection, buffer) = (selection.to_vec(), buffer.to_vec());
    compare(&crate::engine(), &Case { section, families, selection, work_len, buffer }).unwrap();
}

pub fn listing_in(
    section: &[u32],
    families: &[u32],
    selection: &[u32],
    work_len: usize,
    buffer: &mut [u32],
) -> Listing {
    agrees(section, families, selection, work_len, buffer);
    crate::engine().listing(section, families, selection, &mut vec![NOISE; work_len], buffer)
}

/// With the empty table.
pub fn listing(section: &[u32], selection: &[u32]) -> Listing {
    listing_in(section, &EMPTY, selection, WORK, &mut [NOISE; BUFFER])
}

pub fn quick_in(section: &[u32], families: &[u32], selection: &[u32], work_len: usize) -> Quick {
    crate::engine().quick(section, families, selection, &mut vec![NOISE; work_len])
}

/// With the empty table.
pub fn quick(section: &[u32], selection: &[u32]) -> Quick {
    agrees(section, &EMPTY, selection, WORK, &[NOISE; BUFFER]);
    quick_in(section, &EMPTY, selection, WORK)
}

pub fn snippet(section: &[u32], from: u32, to: u32) -> &[u32] {
    crate::engine().snippet(section, from, to)
}

/// The list with the empty table, one line a match; after looking whether the program says the same.
pub fn lines(section: &[u32], selection: &Selection) -> Vec<String> {
    let lines = lines_by(section, &EMPTY, selection);
    let printed = text::ftlist(&text::bytes(section, &selection.numbers()));
    assert_eq!(printed.lines().collect::<Vec<&str>>(), lines);
    lines
}

/// The list, one line a match, from the listing's own buffer; after looking whether the unlimited list and the quick answer
/// say the same.
pub fn lines_by(section: &[u32], families: &[u32], selection: &Selection) -> Vec<String> {
    let selection = selection.numbers();
    let mut buffer = [NOISE; BUFFER];
    let listed = listing_in(section, families, &selection, WORK, &mut buffer);
    let Listing::Listed { matches, strings, yes } = listed else { panic!("{listed:?}") };
    let list = unlimited(section, families, &selection).unwrap();
    let numbers = second::encode(&list);
    assert_eq!(buffer[..numbers.len()], numbers);
    assert!(buffer[numbers.len()..].iter().all(|&number| number == NOISE));
    assert_eq!(buffer[..2], [matches, strings]);
    let quick = quick_in(section, families, &selection, WORK);
    assert!(matches!(quick, Quick::Answered { yes: answer, .. } if answer == yes), "{quick:?} against {listed:?}");
    let mut lines: Vec<String> = decode(&buffer).iter().map(text::line).collect();
    let head = format!("{} {matches} {strings}", if yes { "yes" } else { "no" });
    lines.insert(0, head);
    lines
}

/// Yes or no, from the listing and from the quick answer alike.
pub fn yes(section: &[u32], selection: &Selection) -> bool {
    lines(section, selection)[0].starts_with("yes")
}
