//! The second engine on every example, and what it alone has: the program's text, and sizes beyond every number.

mod examples;
mod words;

use examples::*;
use second_engine::sizes::Size;
use second_engine::{engine as second, text, Engine, Listing, SecondEngine, EMPTY};

fn engine() -> impl Engine {
    SecondEngine::new()
}

/// "For 10 and 20, window 3 (kinds 0 1 0 1 3 7, operands 10 1 20 1 0 3)".
#[test]
fn the_program() {
    let selection = word(10).and(word(20)).window(3).numbers();
    assert_eq!(selection, [6, 0, 1, 0, 1, 3, 7, 10, 1, 20, 1, 0, 3]);
    let printed = text::ftlist(&text::bytes(&six_tokens(), &selection));
    assert_eq!(printed, "yes 4 4\n+1-2 q1 c\n+1-2 q1 c\n+2-4 q1 n\n+4-6 q1 n\n");
}

/// What the program does with any bytes.
#[test]
fn the_program_and_its_bytes() {
    let bytes = text::bytes(&six_tokens(), &word(10).numbers());
    assert_eq!(text::ftlist(&bytes), "yes 2 2\n+1-1 q1 c\n+4-4 q1 c\n");
    // "a count not divisible by 4"
    assert_eq!(text::ftlist(&[&bytes[..], &[0]].concat()), "refused 1 0\n");
    assert_eq!(text::ftlist(&bytes[..bytes.len() - 1]), "refused 1 0\n");
    // one number too few, or too many, is wrong in the selection
    assert_eq!(text::ftlist(&bytes[..bytes.len() - 4]), "refused 3 0\n");
    assert_eq!(text::ftlist(&[&bytes[..], &[0; 4]].concat()), "refused 3 0\n");
    // "(all, if fewer)"
    assert_eq!(text::ftlist(&bytes[..4 * 12]), "refused 1 0\n");
    assert_eq!(text::ftlist(&bytes[..4 * 13]), "refused 3 0\n");
    assert_eq!(text::ftlist(&[]), "refused 1 0\n");
    assert_eq!(text::ftlist(&[0; 4]), "refused 3 0\n");
    assert_eq!(text::ftlist(&[0xFF; 4]), "refused 1 0\n");
    // "Over 65,536 bytes": at that size the section is read, above it isn't
    let full = |length: usize| {
        let mut bytes = text::bytes(&[1, 7, 0], &[0]);
        bytes.resize(length, 0);
        bytes
    };
    assert_eq!(text::ftlist(&full(65_536)), "refused 3 0\n");
    assert_eq!(text::ftlist(&full(65_540)), "refused 1 0\n");
    // a whole section of 4,096 tokens and a selection of 64 codes are far below it
    let codes = (2..64).fold(word(5), |selection, _| selection.not());
    let largest = text::bytes(&plain(&[5; 4_096]), &codes.numbers());
    assert_eq!(text::ftlist(&largest), "refused 9 2\n");
    // "`.` for a match with none"; an empty list
    assert_eq!(text::ftlist(&text::bytes(&[0], &word(10).not().numbers())), "yes 1 0\n.\n");
    assert_eq!(text::ftlist(&text::bytes(&[0], &word(10).numbers())), "no 0 0\n");
    // "strings parted by a blank"
    let without = word(10).and(word(40).not()).same_sentence().numbers();
    let printed = text::ftlist(&text::bytes(&six_tokens(), &without));
    assert_eq!(printed, "yes 2 3\n+1-1 q1 c\n+4-4 q1 c !5-5 q2 c\n");
}

/// Sizes far beyond every number: counted, never made.
#[test]
fn astronomical() {
    let many = plain(&[vec![1; 16], vec![2; 16]].concat());
    let not = word(1).and(word(2)).not();
    assert_eq!(listing(&many, &not.numbers()), Listing::Refused { number: 9, place: 6 });
    let lists = second::unlimited_lists(&many, &EMPTY, &not.numbers()).unwrap();
    let last = lists.last().unwrap();
    assert!(last.list.is_none());
    assert_eq!(last.size.unwrap().matches, u128::MAX, "2^256 stops at the top");
    // 2^120 is still exact
    let some = plain(&[vec![1; 10], vec![2; 12]].concat());
    let lists = second::unlimited_lists(&some, &EMPTY, &not.numbers()).unwrap();
    assert_eq!(lists.last().unwrap().size.unwrap().matches, 1 << 120);
    assert_eq!(lists.last().unwrap().size.unwrap().strings, 120 << 120);
}

/// So are the choices of an occurs, of phrases that the calls don't build as well.
#[test]
fn astronomical_occurs() {
    let size = |finds: usize, selection: Selection| {
        let lists = second::unlimited_lists(&plain(&vec![5; finds]), &EMPTY, &selection.numbers()).unwrap();
        let Size { matches, strings } = lists[1].size.unwrap();
        (matches, strings, lists[1].list.is_some())
    };
    let top = u128::MAX;
    assert_eq!(size(256, word(5).occurs_at_least(0)), (top, top, false));
    assert_eq!(size(120, word(5).occurs_at_least(0)), (1 << 120, 60 << 120, false));
    assert_eq!(size(4_096, word(5).occurs_at_least(1)), (top, top, false));
    assert_eq!(size(4_096, word(5).occurs_at_least(4_095)), (4_097, 4_096 * 4_096, false));
    assert_eq!(size(4_095, word(5).occurs_at_least(4_095)), (1, 4_095, true));
    assert_eq!(size(4_094, word(5).occurs_at_least(4_095)), (0, 0, true));
    assert_eq!(size(256, word(5).occurs(0, 0)), (top, top, false));
    assert_eq!(size(256, word(5).occurs(256, 4_095)), (1, 256, true));
    assert_eq!(size(256, word(5).occurs(257, 257)), (0, 0, true));
    // over the limits, and still made
    assert_eq!(size(8, word(5).occurs_at_least(0)), (256, 1_024, true));
    assert_eq!(size(3, word(5).occurs(1, 1)), (168, 960, true));
    assert_eq!(size(140, word(5).occurs_at_least(139)), (141, 140 * 139 + 140, true));
}
