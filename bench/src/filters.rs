//! Each filter as the last code, where the first of its operand's matches that decides the quick answer is the first of all, the last, or none. A match
//! decides if the filter makes one without excludes of it.

use crate::cases::{case, Case};
use crate::proved::Proved;
use crate::{listing, notation, quick, Lent};
use second_engine::engine::{self, RuleBook};
use second_engine::sizes::Limits;
use second_engine::{rules, AllMatches, Listing, Match, Quick, SecondEngine, WORK};

/// What becomes of the matches that don't decide.
#[derive(Clone, Copy, PartialEq)]
enum Others {
    Dropped,
    /// kept with an exclude
    Excluded,
}

use Others::{Dropped, Excluded};

/// A section and an operand with a find first, last and none.
type Finds = [(&'static str, &'static str); 3];

const SAME_DROPPED: Finds =
    [("1 2*256 s2 p2", "1 2 and"), ("3 2*256 1 s2 p2", "1 2 and"), ("2*256 1 s2 p2", "1 2 and")];

const SAME_EXCLUDED: Finds = [
    ("1 3*255 1*255 2 s256 p256", "1 2 not and"),
    ("1*255 2 1 s256 p256", "1 2 not and"),
    ("1*256 2 s300 p300", "1 2 not and"),
];

const DIFFERENT_DROPPED: Finds =
    [("2 3*255 2*255 1 s256 p256", "1 2 and"), ("2*255 1 2 s256 p256", "1 2 and"), ("2*256 1 s300 p300", "1 2 and")];

// two includes and an exclude: 170 matches have 510 strings
const DIFFERENT_EXCLUDED: Finds = [
    ("2 3 2*169 4 1 s2 p2", "1 2 and 3 not and"),
    ("1 4 2*169 4 2 3 s2 p2", "1 2 and 3 not and"),
    ("1 4 2*170 3 s2 p2", "1 2 and 3 not and"),
];

/// The filter's name and code, its operand's matches. Where every window must have an exclude in it, or every include be at an edge, the matches are
/// copies, made by another window.
const GROUP: [(&str, &str, usize, Others, Finds); 20] = [
    ("ordered", "ordered", 256, Dropped, [("2 1 2*255", "2 1 and"), ("2*255 1 2", "1 2 and"), ("2*256 1", "1 2 and")]),
    (
        "ordered",
        "ordered",
        256,
        Excluded,
        [("1 2 1*255", "2 not 1 and"), ("1*255 2 1", "1 2 not and"), ("1*256 2", "1 2 not and")],
    ),
    ("window", "window:2", 256, Dropped, [("1 2*256", "1 2 and"), ("2*256 1", "1 2 and"), ("1 3 2*256", "1 2 and")]),
    (
        "window",
        "window:2",
        256,
        Excluded,
        [
            ("1 2 1 3", "1-3 1-2 window:256 or 2 not and"),
            ("1 2 1 3", "1-2 window:256 1-3 or 2 not and"),
            ("1 2 1 3", "1-2 window:257 2 not and"),
        ],
    ),
    (
        "distance",
        "distance:0-0",
        256,
        Dropped,
        [("1 2*256", "1 2 and"), ("2*256 1", "1 2 and"), ("1 3 2*256", "1 2 and")],
    ),
    (
        "distance",
        "distance:1-300",
        256,
        Excluded,
        [("2 1*256", "1 2 not and"), ("1*256 2", "1 2 not and"), ("1*256 3 2", "1 2 not and")],
    ),
    ("same sentence", "same-sentence", 256, Dropped, SAME_DROPPED),
    ("same sentence", "same-sentence", 256, Excluded, SAME_EXCLUDED),
    ("same paragraph", "same-paragraph", 256, Dropped, SAME_DROPPED),
    ("same paragraph", "same-paragraph", 256, Excluded, SAME_EXCLUDED),
    ("different sentence", "different-sentence", 256, Dropped, DIFFERENT_DROPPED),
    ("different sentence", "different-sentence", 170, Excluded, DIFFERENT_EXCLUDED),
    ("different paragraph", "different-paragraph", 256, Dropped, DIFFERENT_DROPPED),
    ("different paragraph", "different-paragraph", 170, Excluded, DIFFERENT_EXCLUDED),
    ("at start", "start", 256, Dropped, [("2 1*255", "2 1 or"), ("2 1*255", "1 2 or"), ("3 2 1*255", "1 2 or")]),
    (
        "at start",
        "start",
        256,
        Excluded,
        [
            ("1 2", "1 1 window:255 2 not and or"),
            ("1 2", "1 window:255 2 not and 1 or"),
            ("1 2", "1 window:256 2 not and"),
        ],
    ),
    ("at end", "end", 256, Dropped, [("1*255 2", "2 1 or"), ("1*255 2", "1 2 or"), ("1*255 2 3", "1 2 or")]),
    (
        "at end",
        "end",
        256,
        Excluded,
        [
            ("2 1", "1 1 window:255 2 not and or"),
            ("2 1", "1 window:255 2 not and 1 or"),
            ("2 1", "1 window:256 2 not and"),
        ],
    ),
    (
        "entire content",
        "entire",
        256,
        Dropped,
        [("1 2", "1-2 1 window:255 or"), ("1 2", "1 window:255 1-2 or"), ("1 2", "1 window:256")],
    ),
    (
        "entire content",
        "entire",
        256,
        Excluded,
        [
            ("1 2", "1-2 1-2 window:256 1 not and or"),
            ("1 2", "1-2 window:256 1 not and 1-2 or"),
            ("1 2", "1-2 window:257 1 not and"),
        ],
    ),
];

/// Outside the means, matches of many strings: with how many the operand has, and which of them decides, from 0.
const LONG_MATCHES: [(&str, &str, &str, usize, Option<usize>); 6] = [
    ("window of 256 over one word", "1", "1 window:256", 1, Some(0)),
    ("ordered over 256 words in one match", "1*256", "1 least:256 ordered", 1, Some(0)),
    ("ordered over a word, then 256 in one match", "2 1*256", "2 1 least:256 or ordered", 2, Some(0)),
    ("distance over 256 words in one match", "1*256", "1 least:256 distance:0-0", 1, Some(0)),
    ("different sentence over 256 words in one match", "1*256 s1", "1 least:256 different-sentence", 1, Some(0)),
    (
        "different sentence over a pair, then 254 words in one match",
        "2 3 1*254 s1",
        "2 3 and 1 least:254 or different-sentence",
        2,
        Some(0),
    ),
];

/// Outside the means, long windows over one match with many excludes: how many excludes, and which window alone has none, from 0.
const LONG_WINDOWS: [(&str, &str, &str, usize, Option<usize>); 5] = [
    (
        "window of 256 over one match with 256 excludes, no window free",
        "1*254 3*200 1 3*127 2 3*127 1",
        "2 1 not and window:256",
        256,
        None,
    ),
    (
        "window of 256 over one match with 256 excludes, the last window free",
        "1*255 3*300 1 2",
        "2 1 not and window:256",
        256,
        Some(255),
    ),
    (
        "window of 4,096 over one match with 511 excludes, no window free",
        "1*256 3*254 2 3",
        "2 1 not and 3 not and window:4096",
        511,
        None,
    ),
    (
        "window of 4,096 over one match with 511 excludes, the last window free",
        "1*256 3*255 2",
        "2 1 not and 3 not and window:4096",
        511,
        Some(4_095),
    ),
    (
        "window of 4,096 over one match with 511 excludes, the first window free",
        "2 1*256 3*255",
        "2 1 not and 3 not and window:4096",
        511,
        Some(0),
    ),
];

const NO_LIMITS: Limits = Limits { matches: u128::MAX, strings: u128::MAX };

/// The operand's list, and for each of its matches the list that the filter makes of it alone.
fn lists(case: &Case) -> (AllMatches, Vec<AllMatches>) {
    let book = RuleBook::paper();
    let (searched, tree) = engine::check(&case.section, &case.families, &case.selection, WORK, None).expect(&case.name);
    let operand = book.build(&searched, &tree.below[0]).expect(&case.name);
    let alone = |m: &Match| book.list_within(NO_LIMITS, &searched, &tree.rule, &[std::slice::from_ref(m)]);
    let filtered = operand.iter().map(|m| alone(m).expect("no limits")).collect();
    (operand, filtered)
}

/// The operand has so many matches, and this is the first that decides.
fn check(case: &Case, matches: usize, decides: Option<usize>) {
    let (operand, filtered) = lists(case);
    assert_eq!(operand.len(), matches, "{}", case.name);
    assert_eq!(filtered.iter().position(|list| rules::is_yes(list)), decides, "{}", case.name);
}

/// All others are dropped, or kept with an exclude.
fn check_others(case: &Case, decides: Option<usize>, others: Others) {
    let (_, filtered) = lists(case);
    for (at, list) in filtered.iter().enumerate().filter(|(at, _)| Some(*at) != decides) {
        let dropped = list.is_empty();
        assert!(dropped == (others == Dropped) && (dropped || !rules::is_yes(list)), "{}, {at}", case.name);
    }
}

/// It is answered, and the filter's own list is within the limits too.
fn check_answer(case: &Case, yes: bool) {
    let (second, mut lent) = (SecondEngine::new(), Lent::new());
    let listed = listing(&second, case, &mut lent);
    assert!(matches!(listed, Listing::Listed { yes: listed, .. } if listed == yes), "{}", case.name);
    let answer = quick(&second, case, &mut lent);
    assert!(matches!(answer, Quick::Answered { yes: answered, .. } if answered == yes), "{}", case.name);
    check_proved(case, yes);
}

/// The proved library's quick answer, of the archive that is linked.
fn check_proved(case: &Case, yes: bool) {
    let answer = quick(&Proved, case, &mut Lent::new());
    assert!(matches!(answer, Quick::Answered { yes: answered, .. } if answered == yes), "{}: {answer:?}", case.name);
}

/// One match of one word and so many excludes, and this window of it alone has none.
fn check_windows(case: &Case, excludes: usize, free: Option<usize>) {
    let (operand, filtered) = lists(case);
    assert_eq!((operand.len(), operand[0].excludes.len()), (1, excludes), "{}", case.name);
    let windows = &filtered[0];
    assert_eq!(Some(windows.len() as u32), case.selection.last().copied(), "{}", case.name);
    let without: Vec<usize> = (0..windows.len()).filter(|&at| windows[at].excludes.is_empty()).collect();
    assert_eq!(without, Vec::from_iter(free), "{}", case.name);
}

pub fn all() -> Vec<Case> {
    let made = |name: &str, section: &str, selection: &str| case(name, &notation::section(section), selection);
    let mut cases = vec![];
    for (filter, code, matches, others, finds) in GROUP {
        let with = if others == Excluded { " with excludes" } else { "" };
        let decides = [("first", Some(0)), ("last", Some(matches - 1)), ("none", None)];
        for ((find, decides), (section, operand)) in decides.into_iter().zip(finds) {
            let name = format!("{filter}{with} over {matches}, find {find}");
            let case = made(&name, section, &format!("{operand} {code}"));
            check(&case, matches, decides);
            check_others(&case, decides, others);
            check_answer(&case, decides.is_some());
            cases.push(case);
        }
    }
    for (name, section, selection, matches, decides) in LONG_MATCHES {
        let case = made(name, section, selection);
        check(&case, matches, decides);
        check_proved(&case, decides.is_some());
        cases.push(case);
    }
    for (name, section, selection, excludes, free) in LONG_WINDOWS {
        let case = made(name, section, selection);
        check_windows(&case, excludes, free);
        check_proved(&case, free.is_some());
        cases.push(case);
    }
    cases
}
