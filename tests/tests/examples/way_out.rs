//! Request F-4, the early way out of a filter that the walk reaches: worked examples, at the limits, and every small one.

use super::*;
use second_engine::rules;

fn yes_of(codes: u32) -> Quick {
    Quick::Answered { yes: true, codes }
}

fn no_of(codes: u32) -> Quick {
    Quick::Answered { yes: false, codes }
}

/// The listing is refused 9 at this code, and the quick answer isn't.
fn only_listing(section: &[u32], selection: &Selection, place: u32, answer: Quick) {
    assert_eq!(listing(section, &selection.numbers()), Listing::Refused { number: 9, place });
    assert_eq!(quick(section, &selection.numbers()), answer);
}

/// Both calls refuse 9 at this code.
fn both(section: &[u32], selection: &Selection, place: u32) {
    assert_eq!(listing(section, &selection.numbers()), Listing::Refused { number: 9, place });
    assert_eq!(quick(section, &selection.numbers()), Quick::Refused { number: 9, place });
}

/// Both calls give this answer: the listing's first line, and the quick one.
fn given(section: &[u32], selection: &Selection, head: &str, answer: Quick) {
    assert_eq!(lines(section, selection)[0], head);
    assert_eq!(quick(section, &selection.numbers()), answer);
}

fn without(word_number: u32, excluded: u32) -> Selection {
    word(word_number).and(word(excluded).not())
}

/// 10 stands at 1 and 4: a window of N has 2 × N matches.
#[test]
fn a_window_over_the_limits() {
    let six = six_tokens();
    given(&six, &word(10).window(128), "yes 256 256", yes_of(2));
    only_listing(&six, &word(10).window(129), 3, yes_of(2));
    only_listing(&six, &word(10).window(257), 3, yes_of(2));
    only_listing(&six, &word(10).window(4_096), 3, yes_of(2));
    only_listing(&six, &word(10).and(word(20)).window(257), 6, yes_of(4));
    // of the first 10, the window that ends with it: 20 at 2 is outside
    only_listing(&six, &without(10, 20).window(257), 7, yes_of(5));
    // each 10 is in all its windows
    only_listing(&six, &without(10, 10).window(257), 7, no_of(5));
    // no match has an include
    given(&six, &word(10).not().window(4_096), "no 0 0", no_of(3));
    given(&six, &word(99).window(4_096), "no 0 0", no_of(2));
}

/// 172 windows of one match, but over 512 strings.
#[test]
fn over_the_strings_alone() {
    let first = plain(&[1, 2, 2]);
    given(&first, &without(1, 2).window(171), "yes 171 510", yes_of(5));
    only_listing(&first, &without(1, 2).window(172), 7, yes_of(5));
    let between = plain(&[2, 1, 2]);
    given(&between, &without(1, 2).window(171), "no 171 511", no_of(5));
    only_listing(&between, &without(1, 2).window(172), 7, no_of(5));
}

/// The walk reaches a filter below nots, ors and ands.
#[test]
fn where_the_walk_goes() {
    let six = six_tokens();
    let (free, taken) = (|| word(10).window(257), || without(10, 10).window(257));
    only_listing(&six, &free().not(), 3, no_of(3));
    only_listing(&six, &free().not().not(), 3, yes_of(4));
    only_listing(&six, &taken().not(), 7, yes_of(6));
    only_listing(&six, &free().or(word(99)), 3, yes_of(3));
    only_listing(&six, &taken().or(word(99)), 7, no_of(7));
    only_listing(&six, &free().and(word(20)), 3, yes_of(4));
    only_listing(&six, &taken().and(word(20)), 7, no_of(6));
    only_listing(&six, &word(99).or(free()), 5, yes_of(4));
    only_listing(&six, &word(10).and(taken()), 9, no_of(7));
    // and doesn't always
    only_listing(&six, &word(10).or(free()), 5, yes_of(2));
    only_listing(&six, &word(99).and(free()), 5, no_of(2));
    // two of them
    only_listing(&six, &taken().or(free()), 7, yes_of(8));
}

/// "The lists under it still do": a filter under another is in a built part, and so is one beside a mild not.
#[test]
fn what_stays_measured() {
    let six = six_tokens();
    let window = || word(10).window(257);
    both(&six, &window().ordered(), 3);
    both(&six, &window().window(257), 3);
    both(&six, &window().at_start().not(), 3);
    both(&six, &window().not().ordered(), 3);
    both(&six, &word(20).and(window()).same_sentence(), 5);
    both(&six, &window().mild_not(word(20)), 3);
    both(&six, &word(20).mild_not(window()), 5);
    both(&six, &word(99).or(window().ordered()), 5);
    // left to right, and the upper window is never asked
    both(&six, &window().and(word(20).window(300)).window(4_096), 3);
    // what is under the upper one fits
    only_listing(&six, &word(10).window(128).window(2), 4, yes_of(3));
    given(&six, &word(10).window(128).window(1), "yes 256 256", yes_of(3));
    let eight = plain(&[5; 8]);
    both(&eight, &word(5).occurs_at_least(0), 3);
    both(&eight, &word(5).occurs_at_least(0).window(300), 3);
    only_listing(&eight, &word(5).occurs_at_least(5).window(300), 4, yes_of(3));
}

/// Operands of 256 matches and 512 strings, and their neighbours.
#[test]
fn operands_at_their_limits() {
    let equal = |count: usize| plain(&vec![1; count]);
    for selection in [word(1).window(2), word(1).window(4_096)] {
        only_listing(&equal(256), &selection, 3, yes_of(2));
        both(&equal(257), &selection, 2);
    }
    given(&equal(256), &word(1).ordered(), "yes 256 256", yes_of(2));
    given(&equal(256), &word(1).entire_content(), "no 0 0", no_of(2));
    both(&equal(257), &word(1).entire_content(), 2);
    let by = |a, b| plain(&[vec![1; a], vec![2; b]].concat());
    let product = word(1).and(word(2));
    only_listing(&by(16, 16), &product.clone().window(4_096), 6, yes_of(4));
    given(&by(16, 16), &product.clone().window(1), "no 0 0", no_of(4));
    both(&by(16, 17), &product.window(4_096), 5);
}

/// One match of 512 strings: one include, 511 excludes.
#[test]
fn five_hundred_and_eleven_excludes() {
    let (twos, threes) = (|| vec![2; 256], |count: usize| vec![3; count]);
    let selection = |size| without(1, 2).and(word(3).not()).window(size);
    // all behind it: the first window alone is free
    let behind = plain(&[vec![1], twos(), threes(255)].concat());
    only_listing(&behind, &selection(4_096), 11, yes_of(8));
    // all before it: the last
    let before = plain(&[twos(), threes(255), vec![1]].concat());
    only_listing(&before, &selection(4_096), 11, yes_of(8));
    // one on the other side
    let around = plain(&[threes(1), vec![1], twos(), threes(254)].concat());
    only_listing(&around, &selection(4_096), 11, no_of(8));
    given(&around, &selection(2), "no 2 4", no_of(8));
    given(&around, &selection(1), "yes 1 1", yes_of(8));
    let one_more = plain(&[vec![1], twos(), threes(256)].concat());
    both(&one_more, &selection(4_096), 10);
    // in falling order: the not over an or whose left side stands behind
    let falling = word(1).and(word(3).or(word(2)).not()).window(4_096);
    let rows = |left: usize, right: usize| plain(&[vec![2; left], vec![1], vec![3; right]].concat());
    only_listing(&rows(128, 128), &falling, 10, no_of(7));
    only_listing(&rows(0, 256), &falling, 10, yes_of(7));
    only_listing(&rows(256, 0), &falling, 10, yes_of(7));
}

/// A gap of so many words between two excludes has room for a window that isn't wider.
#[test]
fn the_only_free_window() {
    let gap =
        |before: usize, behind: usize| plain(&[vec![2], vec![9; before], vec![1], vec![9; behind], vec![2]].concat());
    for (before, behind) in [(0, 299), (299, 0), (150, 149)] {
        only_listing(&gap(before, behind), &without(1, 2).window(299), 7, yes_of(5));
        only_listing(&gap(before, behind), &without(1, 2).window(300), 7, yes_of(5));
        only_listing(&gap(before, behind), &without(1, 2).window(301), 7, no_of(5));
    }
}

/// An exclude that is wider than a window is in none, and one as wide is in one.
#[test]
fn wide_excludes() {
    // 5 and 6 joined from 1 to 300, around 1 at 150
    let apart = plain(&[vec![5], vec![9; 148], vec![1], vec![9; 149], vec![6]].concat());
    for wide in [word(5).and(word(6)).window(300), word(5).and(word(6)).distance(298, 298)] {
        let selection = word(1).and(wide.not());
        for size in [299, 300, 301, 4_096] {
            only_listing(&apart, &selection.clone().window(size), 11, yes_of(8));
        }
        // with 6 alone excluded as well, the windows that end before it are free; with 5, too, none is
        let one = selection.clone().and(word(6).not());
        only_listing(&apart, &one.clone().window(4_096), 15, yes_of(11));
        only_listing(&apart, &one.and(word(5).not()).window(4_096), 19, no_of(14));
    }
    // two excludes, 1 to 4 and 2 to 5, around 1 at 3
    let side_by_side = plain(&[5, 7, 1, 6, 8]);
    let pairs = word(5).and(word(6)).window(4).or(word(7).and(word(8)).window(4));
    let selection = word(1).and(pairs.not());
    given(&side_by_side, &selection.clone().window(3), "yes 3 3", yes_of(13));
    // W from 0 to 3: the one is inside the second window, the other inside the third
    given(&side_by_side, &selection.window(4), "yes 4 6", yes_of(13));
}

/// The match that gives the yes may be any, or none.
#[test]
fn which_match() {
    let six = six_tokens();
    let same = |excluded: u32| without(10, excluded).same_sentence();
    given(&six, &same(40), "yes 2 3", yes_of(5));
    given(&six, &same(30), "yes 2 3", yes_of(5));
    given(&six, &same(20), "no 2 4", no_of(5));
    // 1 before 2 and behind it, each in a sentence of its own; the second 1 alone has no 2
    let three = section(&[1, 2, 1, 2, 1], &[1, 1, 2, 3, 3], &[1; 5]);
    given(&three, &without(1, 2).same_sentence(), "yes 3 5", yes_of(5));
    // excludes that stay as they are
    let parts = without(1, 2).or(word(1));
    given(&three, &parts.clone().at_end(), "yes 2 4", yes_of(7));
    given(&three, &without(1, 2).at_end(), "no 1 3", no_of(5));
    only_listing(&three, &parts.window(300), 10, yes_of(7));
}

/// Every section of up to five tokens of three words, all ten filters over several operands: the answer is that of the whole
/// list, made without limits, and the count is that of all codes.
#[test]
fn every_small_filter() {
    let operands = [
        word(1),
        without(1, 2),
        word(2).not().and(word(1)),
        word(1).and(phrase(&[2, 2]).not()),
        word(1).and(word(2).and(word(3)).distance(0, 3).not()),
        without(1, 2).or(word(2).and(word(3)).and(word(1).not())),
        word(1).and(word(2)).and(word(3).not()),
        word(2).or(word(3)).not(),
    ];
    let mut filters: Vec<(u32, u32)> = [6, 9, 10, 11, 12, 13, 14, 15].map(|kind| (kind, 0)).to_vec();
    filters.extend((1..=7).chain([257]).map(|size| (7, size)));
    filters.extend([(0, 0), (0, 1), (1, 1), (1, 3), (2, 4_095)].map(|(a, b)| (8, a * 65_536 + b)));
    let mut asked = [0; 2];
    // without optimisation, shorter ones are enough
    for n in 0..=if cfg!(debug_assertions) { 3 } else { 5 } {
        for number in 0..3u32.pow(n) {
            let words: Vec<u32> = (0..n).map(|at| 1 + number / 3u32.pow(at) % 3).collect();
            let (sentences, paragraphs) = ([1, 1, 2, 2, 3], [1, 1, 1, 2, 2]);
            let section = section(&words, &sentences[..n as usize], &paragraphs[..n as usize]);
            for operand in &operands {
                for (kind, number) in &filters {
                    let selection = operand.clone().then(*kind, *number);
                    let list = unlimited(&section, &EMPTY, &selection.numbers()).unwrap();
                    let yes = rules::is_yes(&list);
                    let codes = selection.0.iter().filter(|code| code.kind > 0).count() as u32;
                    let answer = quick_in(&section, &EMPTY, &selection.numbers(), WORK);
                    assert_eq!(answer, Quick::Answered { yes, codes }, "{words:?}, {selection:?}");
                    let not = quick_in(&section, &EMPTY, &selection.not().numbers(), WORK);
                    assert_eq!(not, Quick::Answered { yes: !yes, codes: codes + 1 }, "{words:?}");
                    asked[usize::from(yes)] += 1;
                }
            }
        }
    }
    assert!(asked.iter().all(|times| *times > 1_000), "{asked:?}");
}
