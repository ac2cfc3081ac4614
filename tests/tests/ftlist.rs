//! The program `ftlist` as it is built, run on bytes, against what this engine says it prints for them.

mod program;
mod words;

use program::printed;
use second_engine::{gen, text};
use words::examples::examples;
use words::*;

/// The program prints for an input what this engine says.
fn agrees(input: &[u8], name: &str) -> String {
    let found = printed(input);
    assert_eq!(found, text::ftlist(input), "{name}");
    found
}

#[test]
fn every_example() {
    for example in examples() {
        agrees(&text::bytes(&example.section, &example.selection), example.name);
    }
}

/// "For 10 and 20, window 3 (kinds 0 1 0 1 3 7, operands 10 1 20 1 0 3)".
#[test]
fn the_papers_text() {
    let selection = [6, 0, 1, 0, 1, 3, 7, 10, 1, 20, 1, 0, 3];
    let wanted = "yes 4 4\n+1-2 q1 c\n+1-2 q1 c\n+2-4 q1 n\n+4-6 q1 n\n";
    assert_eq!(printed(&text::bytes(&six_tokens(), &selection)), wanted);
}

/// A line for each choice of an occurs, the empty one among them; and its refusal.
#[test]
fn occurs() {
    let section = plain(&[5, 5]);
    let found = agrees(&text::bytes(&section, &word(5).occurs_at_least(0).numbers()), "at least 0 of 2");
    assert_eq!(found, "yes 4 4\n.\n+1-1 q1 c\n+2-2 q1 c\n+1-1 q1 c +2-2 q1 c\n");
    let found = agrees(&text::bytes(&section, &word(5).occurs(0, 0).and(word(6)).numbers()), "and nothing");
    assert_eq!(found, "no 0 0\n");
    let found = agrees(&text::bytes(&section, &word(5).not().occurs_at_least(0).numbers()), "over a not");
    assert_eq!(found, "refused 12 4\n");
}

/// "Over 65,536 bytes, or a count not divisible by 4, prints `refused 1 0`".
#[test]
fn long_inputs() {
    // a section that passes, and a selection that doesn't: refusal 3 only where the input is taken
    let of_length = |length: usize| {
        let mut input = text::bytes(&[1, 7, 0], &[0]);
        input.resize(length, 0);
        input
    };
    let length = |length: usize| agrees(&of_length(length), &format!("{length} bytes"));
    for taken in [16, 65_532, 65_536] {
        assert_eq!(length(taken), "refused 3 0\n", "{taken} bytes");
    }
    for refused in [17, 18, 19, 65_533, 65_535, 65_537, 65_538, 65_539, 65_540, 65_544, 1_000_000] {
        assert_eq!(length(refused), "refused 1 0\n", "{refused} bytes");
    }
}

/// As many strings as a list may have, and each as long as a string's text gets.
#[test]
fn the_longest_listing() {
    let words = [vec![0; 4_062], vec![1; 17], vec![2; 17]].concat();
    // nine phrases come first, so that query positions have two digits
    let absent = (1..9).fold(word(9), |selection, _| selection.or(word(9)));
    let selection = absent.or(phrase(&[1, 1]).and(phrase(&[2, 2]))).numbers();
    let found = agrees(&text::bytes(&plain(&words), &selection), "the longest listing");
    assert!(found.starts_with("yes 256 512\n+4063-4064 q10 c +4080-4081 q11 c\n"));
    assert!(found.ends_with("\n+4078-4079 q10 c +4095-4096 q11 c\n"));
    assert_eq!(found.len(), 12 + 512 * 17);
}

/// An input cut short anywhere: "the section's 1 + 2n numbers (all, if fewer) and then the selection".
#[test]
fn cut_short() {
    let whole = text::bytes(&six_tokens(), &word(10).and(word(20)).window(3).numbers());
    for end in 0..=whole.len() {
        agrees(&whole[..end], &format!("the first {end} bytes"));
    }
    assert_eq!(printed(&[]), "refused 1 0\n");
    // the section lacks a number, then nothing, then the selection lacks a number
    assert_eq!(printed(&whole[..4 * 12]), "refused 1 0\n");
    assert_eq!(printed(&whole[..4 * 13]), "refused 3 0\n");
    assert_eq!(printed(&whole[..whole.len() - 4]), "refused 3 0\n");
}

/// n is the first number whatever its size, also where 1 + 2n is over 32 bits, and would be a length that fits if it wrapped.
#[test]
fn large_sizes() {
    let selection = word(10).numbers();
    for n in [4_096, 4_097, 16_384, 1 << 30, 1 << 31, (1 << 31) + 6, u32::MAX - 1, u32::MAX] {
        let mut section = six_tokens();
        section[0] = n;
        assert_eq!(agrees(&text::bytes(&section, &selection), &format!("n = {n}")), "refused 1 0\n");
        assert_eq!(agrees(&n.to_le_bytes(), &format!("n = {n} alone")), "refused 1 0\n");
    }
}

#[test]
fn random_inputs() {
    for (index, input) in gen::inputs(2026, 2_000).enumerate() {
        agrees(&input, &format!("input {index} of seed 2026"));
    }
}
