//! Request F-3, occurs: worked examples of both kinds, at their limits, and below every other code.

use super::*;

/// A section of word 5 so many times.
fn fives(count: usize) -> Vec<u32> {
    plain(&vec![5; count])
}

fn at_least(a: u32) -> Selection {
    word(5).occurs_at_least(a)
}

fn from_to(a: u32, b: u32) -> Selection {
    word(5).occurs(a, b)
}

/// The answer, M and S over so many finds.
fn head(finds: usize, selection: &Selection) -> String {
    lines(&fives(finds), selection).remove(0)
}

/// Both calls refuse 9 at this code: the quick walk builds an occurs, too.
fn too_long(finds: usize, selection: &Selection, place: u32) {
    assert_eq!(listing(&fives(finds), &selection.numbers()), Listing::Refused { number: 9, place });
    assert_eq!(quick(&fives(finds), &selection.numbers()), Quick::Refused { number: 9, place });
}

// At least a

/// "Every choice of a or more of the phrase's matches, fewest first, equal sizes in order of first difference by position".
#[test]
fn at_least_two_of_three() {
    assert_eq!(
        lines(&fives(3), &at_least(2)),
        [
            "yes 4 9",
            "+1-1 q1 c +2-2 q1 c",
            "+1-1 q1 c +3-3 q1 c",
            "+2-2 q1 c +3-3 q1 c",
            "+1-1 q1 c +2-2 q1 c +3-3 q1 c"
        ]
    );
    let one = lines(&fives(3), &at_least(1));
    assert_eq!(one[..4], ["yes 7 12", "+1-1 q1 c", "+2-2 q1 c", "+3-3 q1 c"]);
    assert_eq!(lines(&fives(3), &at_least(3)), ["yes 1 3", "+1-1 q1 c +2-2 q1 c +3-3 q1 c"]);
}

/// At least 0 has the empty choice, first.
#[test]
fn at_least_none() {
    assert_eq!(lines(&fives(0), &at_least(0)), ["yes 1 0", "."]);
    assert_eq!(lines(&fives(1), &at_least(0)), ["yes 2 1", ".", "+1-1 q1 c"]);
    let two = ["yes 4 4", ".", "+1-1 q1 c", "+2-2 q1 c", "+1-1 q1 c +2-2 q1 c"];
    assert_eq!(lines(&fives(2), &at_least(0)), two);
}

#[test]
fn one_find() {
    assert_eq!(lines(&fives(1), &at_least(1)), ["yes 1 1", "+1-1 q1 c"]);
    assert_eq!(lines(&fives(1), &at_least(2)), ["no 0 0"]);
    assert_eq!(lines(&fives(1), &from_to(0, 1)), ["yes 2 1", ".", "+1-1 q1 c"]);
    assert_eq!(lines(&fives(1), &from_to(1, 1)), ["yes 1 1", "+1-1 q1 c"]);
    assert_eq!(lines(&fives(1), &from_to(2, 2)), ["no 0 0"]);
}

/// A choice of more than there are.
#[test]
fn over_the_finds() {
    for (finds, a) in [(0, 1), (0, 4_095), (3, 4), (3, 4_095), (22, 23), (255, 256)] {
        assert_eq!(lines(&fives(finds), &at_least(a)), ["no 0 0"]);
        assert_eq!(lines(&fives(finds), &from_to(a, a)), ["no 0 0"]);
        assert_eq!(lines(&fives(finds), &from_to(a, 4_095)), ["no 0 0"]);
    }
}

/// The finds are the phrase's: of several words, overlapping, and in the section's order.
#[test]
fn of_a_phrase() {
    assert_eq!(
        lines(&six_tokens(), &word(10).occurs_at_least(1)),
        ["yes 3 4", "+1-1 q1 c", "+4-4 q1 c", "+1-1 q1 c +4-4 q1 c"]
    );
    let overlapping = phrase(&[5, 5]).occurs_at_least(2);
    assert_eq!(lines(&fives(3), &overlapping), ["yes 1 2", "+1-2 q1 c +2-3 q1 c"]);
    // its query position is the phrase's
    let second = word(9).or(at_least(2));
    assert_eq!(lines(&fives(2), &second), ["yes 1 2", "+1-1 q2 c +2-2 q2 c"]);
}

// From a to b

/// "From a to b: at least a, and not at least b + 1."
#[test]
fn from_one_to_one() {
    // nothing to be left out
    assert_eq!(lines(&fives(0), &from_to(1, 1)), ["no 0 0"]);
    assert_eq!(lines(&fives(1), &from_to(1, 1)), ["yes 1 1", "+1-1 q1 c"]);
    // three choices of at least one; the not of the one choice of two has two matches
    assert_eq!(
        lines(&fives(2), &from_to(1, 1)),
        [
            "no 6 14",
            "+1-1 q1 c !1-1 q1 c",
            "+1-1 q1 c !2-2 q1 c",
            "+2-2 q1 c !1-1 q1 c",
            "+2-2 q1 c !2-2 q1 c",
            "+1-1 q1 c +2-2 q1 c !1-1 q1 c",
            "+1-1 q1 c +2-2 q1 c !2-2 q1 c"
        ]
    );
}

/// No mention at all.
#[test]
fn from_none_to_none() {
    assert_eq!(lines(&fives(0), &from_to(0, 0)), ["yes 1 0", "."]);
    assert_eq!(lines(&fives(1), &from_to(0, 0)), ["no 2 3", "!1-1 q1 c", "+1-1 q1 c !1-1 q1 c"]);
    // the not of {1} {2} {1, 2}: a string of each
    let two = lines(&fives(2), &from_to(0, 0));
    assert_eq!(two[0], "no 8 32");
    assert_eq!(two[1], "!1-1 q1 c !2-2 q1 c !1-1 q1 c");
    assert_eq!(two[2], "!1-1 q1 c !2-2 q1 c !2-2 q1 c");
    assert_eq!(two[3], "+1-1 q1 c !1-1 q1 c !2-2 q1 c !1-1 q1 c");
    assert_eq!(two[8], "+1-1 q1 c +2-2 q1 c !1-1 q1 c !2-2 q1 c !2-2 q1 c");
}

/// With b at the finds or over them it is at least a; with b below them it says no.
#[test]
fn b_and_the_finds() {
    for a in 0..=3 {
        let wanted = lines(&fives(3), &at_least(a));
        for b in [3, 4, 5, 4_095] {
            assert_eq!(lines(&fives(3), &from_to(a, b)), wanted, "from {a} to {b}");
        }
    }
    assert_eq!(head(3, &from_to(2, 2)), "no 12 39");
    assert_eq!(head(3, &from_to(1, 2)), "no 21 57");
    assert_eq!(head(3, &from_to(0, 2)), "no 24 60");
    assert_eq!(head(4, &from_to(3, 3)), "no 20 84");
    // the not of at least 4 of 5 has 4^5 × 5 matches
    too_long(5, &from_to(3, 3), 3);
}

/// Document 02's own example: "At least three mentions of needle".
#[test]
fn at_least_three_mentions() {
    let three = |finds| yes(&fives(finds), &at_least(3));
    assert_eq!([0, 1, 2, 3, 4, 7].map(three), [false, false, false, true, true, true]);
    let two_or_three = |finds| yes(&fives(finds), &from_to(2, 3));
    assert_eq!([0, 1, 2, 3, 4].map(two_or_three), [false, false, true, true, false]);
}

// Sizes

#[test]
fn at_least_at_the_limits() {
    assert_eq!(head(7, &at_least(0)), "yes 128 448");
    too_long(8, &at_least(0), 3);
    // 56 + 28 + 8 + 1 choices of 8; 280 + 168 + 56 + 8 strings
    assert_eq!(head(8, &at_least(5)), "yes 93 512");
    too_long(8, &at_least(4), 3);
    assert_eq!(head(22, &at_least(21)), "yes 23 484");
    assert_eq!(head(22, &at_least(22)), "yes 1 22");
    too_long(23, &at_least(22), 3);
    assert_eq!(head(23, &at_least(23)), "yes 1 23");
    assert_eq!(head(255, &at_least(255)), "yes 1 255");
    too_long(255, &at_least(254), 3);
    assert_eq!(head(256, &at_least(257)), "no 0 0");
    assert_eq!(head(256, &at_least(256)), "yes 1 256");
    too_long(256, &at_least(255), 3);
    too_long(256, &at_least(128), 3);
    too_long(256, &at_least(0), 3);
}

#[test]
fn from_to_at_the_limits() {
    // 2 to the power of the finds, and nothing left out
    assert_eq!(head(7, &from_to(0, 7)), "yes 128 448");
    assert_eq!(head(7, &from_to(0, 4_095)), "yes 128 448");
    too_long(8, &from_to(0, 8), 3);
    assert_eq!(head(8, &from_to(5, 4_095)), "yes 93 512");
    assert_eq!(head(22, &from_to(21, 22)), "yes 23 484");
    too_long(23, &from_to(22, 4_095), 3);
    // 8 matches by 7, 49 × 7 + 8 × 7 strings; 9 by 8, 64 × 8 + 9 × 8 strings
    assert_eq!(head(7, &from_to(6, 6)), "no 56 399");
    too_long(8, &from_to(7, 7), 3);
    // 26 matches of 75 strings by 5; 31 of 80 by 5
    assert_eq!(head(5, &from_to(2, 4)), "no 130 505");
    too_long(5, &from_to(1, 4), 3);
    assert_eq!(head(4, &from_to(0, 3)), "no 64 192");
    // the not of {1, 2} {1, 3} {2, 3} {1, 2, 3} has 24 matches of four strings; by 7 these are 168 of 960
    too_long(3, &from_to(1, 1), 3);
    too_long(3, &from_to(0, 0), 3);
    assert_eq!(head(256, &from_to(256, 256)), "yes 1 256");
    assert_eq!(head(256, &from_to(257, 257)), "no 0 0");
    too_long(256, &from_to(255, 256), 3);
    too_long(256, &from_to(0, 0), 3);
}

/// The phrase's list is one of those that are built, and the first of them.
#[test]
fn the_phrase_is_measured() {
    for a in [0, 1, 256, 257, 258, 4_095] {
        too_long(257, &at_least(a), 2);
        too_long(257, &from_to(a, 4_095), 2);
    }
    too_long(4_096, &at_least(4_095), 2);
}

// Below other codes

#[test]
fn under_a_not() {
    assert_eq!(lines(&fives(1), &at_least(2).not()), ["yes 1 0", "."]);
    assert_eq!(lines(&fives(2), &at_least(2).not()), ["no 2 2", "!1-1 q1 c", "!2-2 q1 c"]);
    // at least 0 has a match without strings
    assert_eq!(lines(&fives(2), &at_least(0).not()), ["no 0 0"]);
    // the not of `!1` and of `+1 !1`: what is excluded becomes an include
    let some = ["yes 2 4", "+1-1 q1 c !1-1 q1 c", "+1-1 q1 c +1-1 q1 c"];
    assert_eq!(lines(&fives(1), &from_to(0, 0).not()), some);
    // 2 × 2 × 2 × 2 × 3 × 3 matches of six strings, which the walk doesn't build
    let selection = from_to(1, 1).not().numbers();
    assert_eq!(listing(&fives(2), &selection), Listing::Refused { number: 9, place: 4 });
    assert_eq!(quick(&fives(2), &selection), Quick::Answered { yes: true, codes: 3 });
}

#[test]
fn in_an_or_and_an_and() {
    let section = plain(&[5, 7, 5]);
    assert_eq!(lines(&section, &at_least(2).or(word(7))), ["yes 2 3", "+1-1 q1 c +3-3 q1 c", "+2-2 q2 c"]);
    assert_eq!(lines(&section, &word(7).or(at_least(2))), ["yes 2 3", "+2-2 q1 c", "+1-1 q2 c +3-3 q2 c"]);
    assert_eq!(
        lines(&section, &word(7).and(at_least(1))),
        ["yes 3 7", "+2-2 q1 c +1-1 q2 c", "+2-2 q1 c +3-3 q2 c", "+2-2 q1 c +1-1 q2 c +3-3 q2 c"]
    );
    // two occurs of one word have two query positions
    let both = at_least(2).and(from_to(2, 2));
    assert_eq!(lines(&section, &both), ["yes 1 4", "+1-1 q1 c +3-3 q1 c +1-1 q2 c +3-3 q2 c"]);
}

/// A left match goes if all that it covers is covered by one match of the right.
#[test]
fn beside_a_mild_not() {
    let section = plain(&[5, 6, 5]);
    let apart = at_least(1).mild_not(phrase(&[5, 6]));
    assert_eq!(lines(&section, &apart), ["yes 2 3", "+3-3 q1 c", "+1-1 q1 c +3-3 q1 c"]);
    // the match of both covers both; that of one covers one
    let right = word(5).mild_not(at_least(2));
    assert_eq!(lines(&section, &right), ["no 0 0"]);
    assert_eq!(lines(&section, &phrase(&[5, 6]).mild_not(at_least(0))), ["yes 1 1", "+1-2 q1 c"]);
}

#[test]
fn under_filters() {
    let section = section(&[5, 9, 5, 9, 9, 5], &[1, 1, 1, 2, 2, 2], &[1, 1, 1, 1, 2, 2]);
    let two = || at_least(2);
    // {1, 3} {1, 6} {3, 6} {1, 3, 6}
    assert_eq!(lines(&section, &two().ordered())[0], "yes 4 9");
    assert_eq!(lines(&section, &two().window(3)), ["yes 1 1", "+1-3 q1 n"]);
    assert_eq!(lines(&section, &two().distance(1, 1)), ["yes 1 1", "+1-3 q1 n"]);
    assert_eq!(lines(&section, &two().distance(1, 2)), ["yes 3 3", "+1-3 q1 n", "+3-6 q1 n", "+1-6 q1 n"]);
    assert_eq!(lines(&section, &two().same_sentence()), ["yes 1 2", "+1-1 q1 c +3-3 q1 c"]);
    assert_eq!(lines(&section, &two().same_paragraph()), ["yes 1 2", "+1-1 q1 c +3-3 q1 c"]);
    let far = ["yes 2 4", "+1-1 q1 c +6-6 q1 c", "+3-3 q1 c +6-6 q1 c"];
    assert_eq!(lines(&section, &two().different_sentence()), far);
    assert_eq!(lines(&section, &two().different_paragraph()), far);
    assert_eq!(lines(&section, &two().at_start())[0], "yes 3 7");
    assert_eq!(lines(&section, &two().at_end())[0], "yes 3 7");
    assert_eq!(lines(&section, &two().entire_content()), ["no 0 0"]);
    assert_eq!(lines(&fives(3), &two().entire_content()), ["yes 1 3", "+1-1 q1 c +2-2 q1 c +3-3 q1 c"]);
}

/// "Dropping a match early because it has an exclude": once in a sentence, though twice in the section.
#[test]
fn a_filter_removes_the_excludes() {
    let section = section(&[5, 5], &[1, 2], &[1, 1]);
    assert!(!yes(&section, &from_to(1, 1)));
    let once = ["yes 4 6", "+1-1 q1 c !1-1 q1 c", "+1-1 q1 c", "+2-2 q1 c", "+2-2 q1 c !2-2 q1 c"];
    assert_eq!(lines(&section, &from_to(1, 1).same_sentence()), once);
    assert_eq!(lines(&section, &from_to(1, 1).window(1)), once);
}

// The quick answer

/// "The quick walk builds and counts them as it does filters", as it did before request F-4.
#[test]
fn the_count() {
    let answer = |selection: &Selection| quick(&plain(&[5, 7, 5]), &selection.numbers());
    let yes = |codes| Quick::Answered { yes: true, codes };
    let no = |codes| Quick::Answered { yes: false, codes };
    assert_eq!(answer(&at_least(2)), yes(2));
    assert_eq!(answer(&at_least(3)), no(2));
    assert_eq!(answer(&from_to(1, 1)), no(2));
    assert_eq!(answer(&phrase(&[5, 7, 5]).occurs_at_least(1)), yes(2));
    assert_eq!(answer(&at_least(2).not()), no(3));
    assert_eq!(answer(&at_least(2).or(word(7))), yes(3));
    assert_eq!(answer(&at_least(3).or(word(7))), yes(4));
    assert_eq!(answer(&at_least(3).and(word(7))), no(3));
    assert_eq!(answer(&word(7).or(at_least(2))), yes(2));
    assert_eq!(answer(&word(7).and(at_least(2))), yes(4));
    assert_eq!(answer(&at_least(2).ordered()), yes(3));
    assert_eq!(answer(&at_least(2).mild_not(word(7))), yes(4));
}

/// An occurs that isn't walked isn't built, and its phrase is measured only where it is.
#[test]
fn the_walk() {
    let many = fives(300);
    let answer = |selection: Selection| quick(&many, &selection.numbers());
    let refused = |place| Quick::Refused { number: 9, place };
    assert_eq!(answer(at_least(1)), refused(2));
    assert_eq!(answer(at_least(301)), refused(2));
    assert_eq!(answer(word(5).or(at_least(1))), Quick::Answered { yes: true, codes: 2 });
    assert_eq!(answer(word(9).and(at_least(1))), Quick::Answered { yes: false, codes: 2 });
    assert_eq!(answer(word(9).or(at_least(1))), refused(4));
    assert_eq!(answer(word(9).occurs_at_least(1).or(word(5))), Quick::Answered { yes: true, codes: 4 });
    let eight = fives(8);
    assert_eq!(quick(&eight, &word(5).and(at_least(0)).numbers()), refused(5));
    assert_eq!(quick(&eight, &word(5).or(at_least(0)).numbers()), Quick::Answered { yes: true, codes: 2 });
}
