//! Every example of document 01, starred or not, with everything the paper says of it.

use super::*;
use second_engine::{unlimited, Listing, Quick, BUFFER, WORK};

/// "* 10: spans 1-1, 4-4."
#[test]
fn ten() {
    assert_eq!(lines(&six_tokens(), &word(10)), ["yes 2 2", "+1-1 q1 c", "+4-4 q1 c"]);
}

/// "* 10 and 20: four matches. * Ordered: three. * Distance 1 to 1: 2-4 and 4-6."
#[test]
fn ten_and_twenty() {
    let both = word(10).and(word(20));
    assert_eq!(
        lines(&six_tokens(), &both),
        ["yes 4 8", "+1-1 q1 c +2-2 q2 c", "+1-1 q1 c +6-6 q2 c", "+4-4 q1 c +2-2 q2 c", "+4-4 q1 c +6-6 q2 c",]
    );
    assert_eq!(
        lines(&six_tokens(), &both.clone().ordered()),
        ["yes 3 6", "+1-1 q1 c +2-2 q2 c", "+1-1 q1 c +6-6 q2 c", "+4-4 q1 c +6-6 q2 c"]
    );
    assert_eq!(lines(&six_tokens(), &both.distance(1, 1)), ["yes 2 2", "+2-4 q1 n", "+4-6 q1 n"]);
}

/// "* 10 and not 40: no. * The same in the same sentence: yes."
#[test]
fn ten_and_not_forty() {
    let without = word(10).and(word(40).not());
    assert_eq!(lines(&six_tokens(), &without), ["no 2 4", "+1-1 q1 c !5-5 q2 c", "+4-4 q1 c !5-5 q2 c"]);
    assert_eq!(lines(&six_tokens(), &without.same_sentence()), ["yes 2 3", "+1-1 q1 c", "+4-4 q1 c !5-5 q2 c"]);
}

/// "* not 99: one match without strings, yes."
#[test]
fn not_ninety_nine() {
    assert_eq!(lines(&six_tokens(), &word(99).not()), ["yes 1 0", "."]);
}

/// "* not not 10: two matches. * not (10 and 20): 16 matches, 64 strings, no."
#[test]
fn nots() {
    assert_eq!(lines(&six_tokens(), &word(10).not()), ["no 1 2", "!1-1 q1 c !4-4 q1 c"]);
    assert_eq!(lines(&six_tokens(), &word(10).not().not()), ["yes 2 2", "+1-1 q1 c", "+4-4 q1 c"]);
    let list = lines(&six_tokens(), &word(10).and(word(20)).not());
    assert_eq!(list[0], "no 16 64");
    assert_eq!(list[1], "!1-1 q1 c !1-1 q1 c !4-4 q1 c !4-4 q1 c");
    assert_eq!(list[2], "!1-1 q1 c !1-1 q1 c !4-4 q1 c !6-6 q2 c");
    assert_eq!(list[16], "!2-2 q2 c !6-6 q2 c !2-2 q2 c !6-6 q2 c");
}

/// "* 10 mild not the phrase 10 20: only 4-4."
#[test]
fn mild_not() {
    assert_eq!(lines(&six_tokens(), &word(10).mild_not(phrase(&[10, 20]))), ["yes 1 1", "+4-4 q1 c"]);
}

/// "Empty section, * not 10, entire content: yes; at start: no."
#[test]
fn empty_section() {
    assert_eq!(lines(&[0], &word(10).not().entire_content()), ["yes 1 0", "."]);
    assert_eq!(lines(&[0], &word(10).not().at_start()), ["no 0 0"]);
    assert_eq!(lines(&[0], &word(10).not().at_end()), ["no 0 0"]);
}

/// "* Words 1 2 3 4: ((1 and 3) window 3) and ((2 and 4) window 3), entire content: no."
#[test]
fn two_windows() {
    let both = word(1).and(word(3)).window(3).and(word(2).and(word(4)).window(3));
    let section = plain(&[1, 2, 3, 4]);
    assert_eq!(lines(&section, &both), ["yes 1 2", "+1-3 q1 n +2-4 q3 n"]);
    assert_eq!(lines(&section, &both.entire_content()), ["no 0 0"]);
}

/// "16 by 16 finds joined by and: 256 matches, 512 strings, listed; 16 by 17: 9."
#[test]
fn sixteen_by_sixteen() {
    let by = |a, b| plain(&[vec![1; a], vec![2; b]].concat());
    let both = word(1).and(word(2));
    assert_eq!(lines(&by(16, 16), &both)[0], "yes 256 512");
    assert_eq!(listing(&by(16, 17), &both.numbers()), Listing::Refused { number: 9, place: 5 });
    assert_eq!(listing(&by(17, 16), &both.numbers()), Listing::Refused { number: 9, place: 5 });
    assert_eq!(unlimited(&by(16, 17), &EMPTY, &both.numbers()).unwrap().len(), 272);
}

/// "300 equal tokens, that word: listing 9 at code 2; quick yes, 1 code."
#[test]
fn three_hundred() {
    let section = plain(&[7; 300]);
    assert_eq!(listing(&section, &word(7).numbers()), Listing::Refused { number: 9, place: 2 });
    assert_eq!(quick(&section, &word(7).numbers()), Quick::Answered { yes: true, codes: 1 });
    assert_eq!(unlimited(&section, &EMPTY, &word(7).numbers()).unwrap().len(), 300);
}

/// "Accepted against refused: n 4,096 and 4,097; m 64 and 65; N 4,096 and 4,097; eight waiting lists and nine."
#[test]
fn accepted_against_refused() {
    let one_at = |n: usize, at: usize| {
        let mut words = vec![0; n];
        words[at - 1] = 5;
        plain(&words)
    };
    assert_eq!(lines(&one_at(4_096, 4_096), &word(5)), ["yes 1 1", "+4096-4096 q1 c"]);
    assert_eq!(listing(&one_at(4_097, 1), &word(5).numbers()), Listing::Refused { number: 1, place: 0 });

    let codes = |m: usize| (2..m).fold(word(5), |selection, _| selection.not());
    assert_eq!(lines(&plain(&[5]), &codes(64)), ["yes 1 1", "+1-1 q1 c"]);
    assert_eq!(listing(&plain(&[5]), &codes(65).numbers()), Listing::Refused { number: 3, place: 0 });

    // a window of 4,096 over a span of 4,096 stands in one place only
    let ends = |section: &mut Vec<u32>| section[4_096] = 6;
    let mut section = one_at(4_096, 1);
    ends(&mut section);
    let both = word(5).and(word(6));
    assert_eq!(lines(&section, &both.clone().window(4_096)), ["yes 1 1", "+1-4096 q1 n"]);
    assert_eq!(listing(&section, &both.window(4_097).numbers()), Listing::Refused { number: 5, place: 6 });

    let waiting = |lists: usize| {
        let mut all = word(5);
        for _ in 1..lists {
            all.0.extend(word(5).0);
        }
        (1..lists).fold(all, |selection, _| selection.then(3, 0))
    };
    assert_eq!(lines(&plain(&[5]), &waiting(8))[0], "yes 1 8");
    assert_eq!(listing(&plain(&[5]), &waiting(9).numbers()), Listing::Refused { number: 6, place: 18 });
}

/// "For 10 and 20, window 3 (kinds 0 1 0 1 3 7, operands 10 1 20 1 0 3)".
#[test]
fn window_three() {
    let selection = word(10).and(word(20)).window(3);
    assert_eq!(selection.numbers(), [6, 0, 1, 0, 1, 3, 7, 10, 1, 20, 1, 0, 3]);
    assert_eq!(lines(&six_tokens(), &selection), ["yes 4 4", "+1-2 q1 c", "+1-2 q1 c", "+2-4 q1 n", "+4-6 q1 n"]);
}

/// "The buffer then holds M, S, the M string counts, then two parallel arrays of S ... The rest of it is unchanged."
#[test]
fn the_buffer() {
    let mut buffer = vec![99; BUFFER + 3];
    let selection = word(10).and(word(40).not()).numbers();
    let answer = listing_in(&six_tokens(), &EMPTY, &selection, WORK, &mut buffer);
    assert_eq!(answer, Listing::Listed { matches: 2, strings: 4, yes: false });
    let spans = [65_537, 5 * 65_537, 4 * 65_537, 5 * 65_537];
    let tags = [4 + 2, 8 + 2 + 1, 4 + 2, 8 + 2 + 1];
    assert_eq!(buffer[..12], [&[2, 4, 2, 2][..], &spans, &tags].concat());
    assert!(buffer[12..].iter().all(|&number| number == 99));
}

/// The count of the quick answer: "each walked code counts once, and a built part ... counts all its codes but those of
/// kind 0."
#[test]
fn the_count() {
    let count = |selection: &Selection| match quick(&six_tokens(), &selection.numbers()) {
        Quick::Answered { codes, .. } => codes,
        refused => panic!("{refused:?}"),
    };
    assert_eq!(count(&phrase(&[10, 20])), 1);
    assert_eq!(count(&word(10).not()), 2);
    // or: the right side only after a no
    assert_eq!(count(&word(10).or(word(20))), 2);
    assert_eq!(count(&word(99).or(word(20))), 3);
    // and: the right side only after a yes
    assert_eq!(count(&word(10).and(word(20))), 3);
    assert_eq!(count(&word(99).and(word(20))), 2);
    // a built part, whole
    assert_eq!(count(&word(99).and(word(20)).ordered()), 4);
    assert_eq!(count(&word(10).or(word(20)).ordered().not()), 5);
    assert_eq!(count(&word(99).or(phrase(&[10, 20]).window(5))), 4);
    assert_eq!(count(&word(10).or(phrase(&[10, 20]).window(5))), 2);
    assert_eq!(count(&word(10).mild_not(word(99).or(word(98)))), 5);
}

/// "The snippet": "the word numbers of those positions, as a part of the lent section."
#[test]
fn the_snippet() {
    let section = six_tokens();
    assert_eq!(snippet(&section, 1, 6), [10, 20, 30, 10, 40, 20]);
    assert_eq!(snippet(&section, 3, 4), [30, 10]);
    assert_eq!(snippet(&section, 6, 6), [20]);
    assert_eq!(snippet(&section, 3, 4).as_ptr(), section[3..].as_ptr());
    // "An empty part if the section isn't accepted or 1 ≤ from ≤ to ≤ n fails."
    let empty: [u32; 0] = [];
    for (from, to) in [(0, 1), (1, 7), (4, 3), (7, 7), (0, 0), (u32::MAX, u32::MAX)] {
        assert_eq!(snippet(&section, from, to), empty);
    }
    assert_eq!(snippet(&section[..12], 1, 1), empty);
    assert_eq!(snippet(&super::section(&[1, 2], &[2, 1], &[0, 0]), 1, 1), empty);
    assert_eq!(snippet(&[], 1, 1), empty);
    assert_eq!(snippet(&[0], 1, 1), empty);
}
