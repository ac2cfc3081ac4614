//! "Mistakes mechanics would meet", each met; and the readings of the open words, each with an example.

use super::*;
use second_engine::{Listing, Quick};

/// "Dropping a match early because it has an exclude: a filter above may remove the exclude."
#[test]
fn an_exclude_may_go() {
    let without = word(10).and(word(40).not());
    assert!(!yes(&six_tokens(), &without));
    assert!(yes(&six_tokens(), &without.clone().same_sentence()));
    assert!(yes(&six_tokens(), &without.clone().window(2)));
    assert!(yes(&six_tokens(), &without.clone().distance(3, 4)));
    assert!(!yes(&six_tokens(), &without.clone().ordered()));
    // 40 before 10 in the query: the find of 10 at 4 is in order with 40 at 5 only the other way round
    let other = word(40).not().and(word(10));
    assert_eq!(lines(&six_tokens(), &other.ordered()), ["yes 2 2", "+1-1 q2 c", "+4-4 q2 c"]);
}

/// "Not of an empty list left empty."
#[test]
fn not_of_nothing() {
    assert_eq!(lines(&six_tokens(), &word(99).not()), ["yes 1 0", "."]);
    assert_eq!(lines(&six_tokens(), &word(99).not().not()), ["no 0 0"]);
    assert_eq!(lines(&six_tokens(), &word(99).not().not().not()), ["yes 1 0", "."]);
}

/// "Equal window copies merged: a not above them chooses from each."
#[test]
fn window_copies() {
    let section = plain(&[1, 2]);
    assert_eq!(lines(&section, &word(1).window(3)), ["yes 3 3", "+1-1 q1 c", "+1-1 q1 c", "+1-1 q1 c"]);
    assert_eq!(lines(&section, &word(1).window(3).not()), ["no 1 3", "!1-1 q1 c !1-1 q1 c !1-1 q1 c"]);
    // W from -1 to 1: 2 is inside the last two windows only
    let without = word(1).and(word(2).not()).window(3);
    let copies = ["yes 3 5", "+1-1 q1 c", "+1-1 q1 c !2-2 q2 c", "+1-1 q1 c !2-2 q2 c"];
    assert_eq!(lines(&section, &without), copies);
    let not = lines(&section, &without.not());
    assert_eq!(not[0], "no 4 12");
    assert_eq!(not[1], "!1-1 q1 c !1-1 q1 c !1-1 q1 c");
    assert_eq!(not[2], "+2-2 q2 c !1-1 q1 c !1-1 q1 c");
    assert_eq!(not[4], "+2-2 q2 c +2-2 q2 c !1-1 q1 c");
}

/// "An intermediate product counted against the limit in a not whose final list is empty."
#[test]
fn intermediate_product() {
    let section = plain(&[vec![1; 16], vec![2; 15]].concat());
    let product = word(1).and(word(2));
    assert_eq!(listing(&section, &product.clone().not().numbers()), Listing::Refused { number: 9, place: 6 });
    // one match without strings, at either end of the list, makes the not empty: 2^240 is only on the way
    let stringless = || word(99).not();
    assert_eq!(lines(&section, &product.clone().or(stringless()).not()), ["no 0 0"]);
    assert_eq!(lines(&section, &stringless().or(product.clone()).not()), ["no 0 0"]);
    let middle = word(2).or(stringless()).or(product);
    assert_eq!(lines(&section, &middle.not().ordered()), ["no 0 0"]);
}

/// "Refusing 9 in the quick answer for a long phrase list under and, or, not alone."
#[test]
fn long_phrase_lists() {
    let section = plain(&[7; 300]);
    let answer = |selection: Selection| quick(&section, &selection.numbers());
    assert_eq!(answer(word(7)), Quick::Answered { yes: true, codes: 1 });
    assert_eq!(answer(word(7).and(word(7))), Quick::Answered { yes: true, codes: 3 });
    assert_eq!(answer(word(8).or(word(7))), Quick::Answered { yes: true, codes: 3 });
    assert_eq!(answer(word(7).not()), Quick::Answered { yes: false, codes: 2 });
}

// The readings

#[test]
fn phrases_overlap() {
    let list = lines(&plain(&[1, 1, 1]), &phrase(&[1, 1]));
    assert_eq!(list, ["yes 2 2", "+1-2 q1 c", "+2-3 q1 c"]);
}

#[test]
fn query_positions_count_all_phrases() {
    let selection = word(9).or(word(9)).or(word(1).ordered());
    assert_eq!(lines(&plain(&[1]), &selection), ["yes 1 1", "+1-1 q3 c"]);
}

#[test]
fn mild_not_takes_each_match_of_the_right_by_itself() {
    // 1 2 is covered by 1 and 2 together, but by no match of R alone
    let section = plain(&[1, 2]);
    assert_eq!(lines(&section, &phrase(&[1, 2]).mild_not(word(1).or(word(2)))), ["yes 1 1", "+1-2 q1 c"]);
    assert_eq!(lines(&section, &phrase(&[1, 2]).mild_not(word(1).and(word(2)))), ["no 0 0"]);
    // a join covers what lies between
    let section = plain(&[1, 2, 3]);
    assert_eq!(lines(&section, &word(2).mild_not(word(1).and(word(3)))), ["yes 1 1", "+2-2 q1 c"]);
    assert_eq!(lines(&section, &word(2).mild_not(word(1).and(word(3)).window(3))), ["no 0 0"]);
}

#[test]
fn ordered_looks_at_starts_only() {
    // equal starts agree with anything
    let section = plain(&[1, 2]);
    assert_eq!(lines(&section, &phrase(&[1, 2]).and(word(1)).ordered())[0], "yes 1 2");
    assert_eq!(lines(&section, &word(1).and(phrase(&[1, 2])).ordered())[0], "yes 1 2");
    assert_eq!(lines(&section, &word(2).and(phrase(&[1, 2])).ordered())[0], "no 0 0");
}

#[test]
fn join_takes_the_first_includes_query_position() {
    let section = plain(&[1, 2]);
    assert_eq!(lines(&section, &word(2).and(word(1)).distance(0, 0)), ["yes 1 1", "+1-2 q1 c"]);
    assert_eq!(lines(&section, &word(9).or(word(2)).and(word(1)).distance(0, 0)), ["yes 1 1", "+1-2 q2 c"]);
    // what isn't contiguous doesn't become so, even where all is covered
    let section = plain(&[1, 3, 2]);
    let gap = word(1).and(word(2)).window(3);
    assert_eq!(lines(&section, &gap.clone().distance(0, 0)), ["yes 1 1", "+1-3 q1 n"]);
    assert_eq!(lines(&section, &gap.clone().and(word(3)).window(3)), ["yes 1 1", "+1-3 q1 n"]);
    assert_eq!(lines(&section, &gap.and(phrase(&[1, 3, 2])).window(3)), ["yes 1 1", "+1-3 q1 n"]);
}

#[test]
fn distance_of_excludes() {
    let section = plain(&[1, 2, 3, 1]);
    // overlap counts as 0, also between an exclude and an include
    let inside = phrase(&[1, 2]).and(word(2).not());
    assert_eq!(lines(&section, &inside.clone().distance(0, 0)), ["no 1 2", "+1-2 q1 c !2-2 q2 c"]);
    assert_eq!(lines(&section, &inside.distance(1, 9)), ["yes 1 1", "+1-2 q1 c"]);
    // without includes every exclude stays
    assert_eq!(lines(&section, &word(1).not().distance(9, 9)), ["no 1 2", "!1-1 q1 c !4-4 q1 c"]);
    // with every include, not with some: 3 is 0 from 2, and 1 from 1-1
    let both = word(1).and(word(2)).and(word(3).not());
    assert_eq!(lines(&section, &both.clone().distance(0, 0)), ["yes 1 1", "+1-2 q1 c"]);
    assert_eq!(lines(&section, &both.distance(0, 1))[1], "+1-2 q1 c !3-3 q3 c");
}

#[test]
fn distance_sorts_by_start_then_end() {
    // 1-3 before 1-1 in the match; sorted 1-1, 1-3, 5-5: distances 0 and 1
    let section = plain(&[1, 2, 3, 4, 5]);
    let three = phrase(&[1, 2, 3]).and(word(1)).and(word(5));
    assert_eq!(lines(&section, &three.clone().distance(0, 1)), ["yes 1 1", "+1-5 q1 n"]);
    assert_eq!(lines(&section, &three.distance(0, 0)), ["no 0 0"]);
}

#[test]
fn same_without_includes() {
    let section = section(&[1, 1, 2], &[1, 2, 2], &[0, 0, 0]);
    // excludes needn't share a unit
    assert_eq!(lines(&section, &word(1).not().same_sentence()), ["no 1 2", "!1-1 q1 c !2-2 q1 c"]);
    // but each needs one nonzero unit
    assert_eq!(lines(&section, &phrase(&[1, 1]).not().same_sentence()), ["yes 1 0", "."]);
    assert_eq!(lines(&section, &word(1).not().same_paragraph()), ["yes 1 0", "."]);
    // with includes, the includes' unit
    let without = word(2).and(word(1).not());
    assert_eq!(lines(&section, &without.same_sentence()), ["no 1 2", "+3-3 q1 c !2-2 q2 c"]);
    // units that aren't reported hold nothing
    assert_eq!(lines(&section, &word(2).same_paragraph()), ["no 0 0"]);
}

#[test]
fn different_needs_two() {
    let section = section(&[1, 2, 3, 4], &[1, 1, 2, 3], &[1, 1, 1, 1]);
    assert_eq!(lines(&section, &word(1).different_sentence()), ["no 0 0"]);
    assert_eq!(lines(&section, &word(1).not().different_sentence()), ["no 0 0"]);
    assert_eq!(lines(&section, &word(1).and(word(3)).different_sentence())[0], "yes 1 2");
    assert_eq!(lines(&section, &word(1).and(word(2)).different_sentence()), ["no 0 0"]);
    assert_eq!(lines(&section, &word(1).and(word(1)).different_sentence()), ["no 0 0"]);
    assert_eq!(lines(&section, &word(1).and(word(3)).different_paragraph()), ["no 0 0"]);
    // ranges are closed: 2 3 reaches from sentence 1 to 2
    assert_eq!(lines(&section, &phrase(&[2, 3]).and(word(1)).different_sentence()), ["no 0 0"]);
    assert_eq!(lines(&section, &phrase(&[2, 3]).and(word(4)).different_sentence())[0], "yes 1 2");
    // an exclude goes where it overlaps an include
    let both = word(1).and(word(4));
    assert_eq!(lines(&section, &both.clone().and(word(2).not()).different_sentence())[1], "+1-1 q1 c +4-4 q2 c");
    assert_eq!(
        lines(&section, &both.and(word(3).not()).different_sentence()),
        ["no 1 3", "+1-1 q1 c +4-4 q2 c !3-3 q3 c"]
    );
}

#[test]
fn content() {
    let section = plain(&[1, 2, 3]);
    assert_eq!(lines(&section, &word(1).at_start())[0], "yes 1 1");
    assert_eq!(lines(&section, &word(2).at_start())[0], "no 0 0");
    assert_eq!(lines(&section, &word(3).at_end())[0], "yes 1 1");
    assert_eq!(lines(&section, &word(2).at_end())[0], "no 0 0");
    // each position by some include, not all by one
    assert_eq!(lines(&section, &phrase(&[1, 2]).and(phrase(&[2, 3])).entire_content())[0], "yes 1 2");
    assert_eq!(lines(&section, &phrase(&[1, 2]).and(word(3)).entire_content())[0], "yes 1 2");
    assert_eq!(lines(&section, &word(1).and(word(3)).entire_content())[0], "no 0 0");
    // at end also by a join that isn't contiguous
    assert_eq!(lines(&section, &word(1).and(word(3)).window(3).at_end())[0], "yes 1 1");
    assert_eq!(lines(&section, &word(1).and(word(3)).window(3).entire_content())[0], "no 0 0");
    // excludes stay as they are
    assert_eq!(lines(&section, &word(1).and(word(3).not()).at_start()), ["no 1 2", "+1-1 q1 c !3-3 q2 c"]);
    assert_eq!(lines(&section, &word(1).not().at_start()), ["no 0 0"]);
}
