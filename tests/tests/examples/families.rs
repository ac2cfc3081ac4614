//! Request F-6, word families: "A phrase fits where each word equals its token or both are in the table with the same family."
//! Searches worked by hand, every small table, large ones at every entry; refusal 13, and its order among the others.

use super::refusals::refused_by;
use super::*;
use second_engine::families::MOST_ENTRIES;
use second_engine::section::Section;
use second_engine::selection::Tree;
use second_engine::{family_cases, selection, Families, Searched};
use std::collections::{BTreeMap, BTreeSet};

/// The lent form of a table, in whatever order its entries stand.
fn table(entries: &[(u32, u32)]) -> Vec<u32> {
    let size = std::iter::once(entries.len() as u32);
    size.chain(entries.iter().map(|entry| entry.0)).chain(entries.iter().map(|entry| entry.1)).collect()
}

// Searches, worked by hand

const NEEDLE: u32 = 1;
const NEEDLES: u32 = 2;
const CAM: u32 = 10;
const CAMS: u32 = 12;

/// 'needles needle cams cover needles', cover in no family.
fn needles() -> Vec<u32> {
    section(&[NEEDLES, NEEDLE, CAMS, 30, NEEDLES], &[1, 1, 1, 2, 2], &[1; 5])
}

/// 'needle' and 'needles' in family 7, 'cam' and 'cams' in family 9.
fn two_families() -> Vec<u32> {
    table(&[(NEEDLE, 7), (NEEDLES, 7), (CAM, 9), (CAMS, 9)])
}

fn by(selection: &Selection) -> Vec<String> {
    lines_by(&needles(), &two_families(), selection)
}

/// "'Needle' should find 'needles'."
#[test]
fn needle_finds_needles() {
    let all = ["yes 3 3", "+1-1 q1 c", "+2-2 q1 c", "+5-5 q1 c"];
    assert_eq!(by(&word(NEEDLE)), all);
    assert_eq!(by(&word(NEEDLES)), all);
    assert_eq!(by(&word(CAM)), ["yes 1 1", "+3-3 q1 c"]);
    assert_eq!(by(&word(CAMS)), ["yes 1 1", "+3-3 q1 c"]);
    // out of the table a word is found where it stands, and nothing is found by a word that isn't there
    assert_eq!(by(&word(30)), ["yes 1 1", "+4-4 q1 c"]);
    assert_eq!(by(&word(31)), ["no 0 0"]);
    assert_eq!(by(&word(11)), ["no 0 0"]);
    // "An empty table .. gives the old answers."
    assert_eq!(lines(&needles(), &word(NEEDLE)), ["yes 1 1", "+2-2 q1 c"]);
    assert_eq!(lines(&needles(), &word(CAM)), ["no 0 0"]);
}

/// Each word of a phrase by itself: by its family or as it is.
#[test]
fn phrases_by_families() {
    assert_eq!(by(&phrase(&[NEEDLE, NEEDLES])), ["yes 1 1", "+1-2 q1 c"]);
    assert_eq!(by(&phrase(&[NEEDLE, NEEDLE])), ["yes 1 1", "+1-2 q1 c"]);
    assert_eq!(by(&phrase(&[NEEDLE, CAM])), ["yes 1 1", "+2-3 q1 c"]);
    assert_eq!(by(&phrase(&[CAM, 30, NEEDLE])), ["yes 1 1", "+3-5 q1 c"]);
    assert_eq!(by(&phrase(&[30, NEEDLE])), ["yes 1 1", "+4-5 q1 c"]);
    assert_eq!(by(&phrase(&[NEEDLE, NEEDLE, CAM, 30, NEEDLE])), ["yes 1 1", "+1-5 q1 c"]);
    assert_eq!(by(&phrase(&[NEEDLE, 30])), ["no 0 0"]);
    assert_eq!(by(&phrase(&[CAM, 31])), ["no 0 0"]);
    assert_eq!(by(&phrase(&[NEEDLE, NEEDLE, NEEDLE])), ["no 0 0"]);
    // found where it overlaps itself
    let same = plain(&[NEEDLE, NEEDLES, NEEDLES, NEEDLE]);
    let list = lines_by(&same, &two_families(), &phrase(&[NEEDLES, NEEDLE]));
    assert_eq!(list, ["yes 3 3", "+1-2 q1 c", "+2-3 q1 c", "+3-4 q1 c"]);
}

/// A family turns a no into a yes, and under a not a yes into a no.
#[test]
fn families_under_nots_and_filters() {
    let old = |selection: &Selection| lines(&needles(), selection)[0].clone();
    let both = word(30).and(word(CAM)).window(2);
    assert_eq!((old(&both), by(&both)), ("no 0 0".into(), vec!["yes 1 1".into(), "+3-4 q1 c".into()]));
    let without = word(30).and(word(CAM).not());
    assert_eq!(old(&without), "yes 1 1");
    assert_eq!(by(&without), ["no 1 2", "+4-4 q1 c !3-3 q2 c"]);
    // the exclude is in another sentence
    assert_eq!(by(&without.clone().same_sentence()), ["yes 1 1", "+4-4 q1 c"]);
    assert_eq!(by(&without.window(2)), ["yes 2 3", "+4-4 q1 c !3-3 q2 c", "+4-4 q1 c"]);
    // at start and at end by a word of the family
    assert_eq!(old(&word(NEEDLE).at_start()), "no 0 0");
    assert_eq!(by(&word(NEEDLE).at_start()), ["yes 1 1", "+1-1 q1 c"]);
    assert_eq!(by(&word(NEEDLE).at_end()), ["yes 1 1", "+5-5 q1 c"]);
    // a mild not by families on its right
    let cams_alone = word(NEEDLES).mild_not(phrase(&[NEEDLE, NEEDLE]));
    assert_eq!(by(&cams_alone), ["yes 1 1", "+5-5 q1 c"]);
    // an occurs counts the finds by families
    assert_eq!(by(&word(NEEDLE).occurs_at_least(3)), ["yes 1 3", "+1-1 q1 c +2-2 q1 c +5-5 q1 c"]);
    assert_eq!(old(&word(NEEDLE).occurs_at_least(2)), "no 0 0");
}

/// Any number is a word and any a family: the first and the last ones, equal ones, and a family that is numbered as a word.
#[test]
fn any_numbers() {
    let last = u32::MAX;
    let found = |tokens: &[u32], entries: &[(u32, u32)], searched: u32| {
        let list = lines_by(&plain(tokens), &table(entries), &word(searched));
        list.len() - 1
    };
    for family in [0, 1, 1 << 31, last] {
        let ends = [(0, family), (last, family)];
        assert_eq!(found(&[0, last, 1], &ends, 0), 2);
        assert_eq!(found(&[0, last, 1], &ends, last), 2);
        assert_eq!(found(&[0, last, 1], &ends, 1), 1);
        // a word out of the table is in no family, also not in that of 0
        assert_eq!(found(&[5, 6], &ends, 5), 1);
        assert_eq!(found(&[5, 6], &ends, 0), 0);
    }
    assert_eq!(found(&[1, 2], &[(1, 0), (2, last)], 1), 1);
    assert_eq!(found(&[1, 2], &[(1, 7), (2, 7 + (1 << 16))], 1), 1);
    // 2 is in family 1, but word 1 is in none, or in another
    assert_eq!(found(&[1, 2], &[(2, 1)], 1), 1);
    assert_eq!(found(&[1, 2], &[(1, 2), (2, 1)], 1), 1);
    assert_eq!(found(&[1, 2, 3], &[(1, 2), (2, 3), (3, 3)], 1), 1);
    assert_eq!(found(&[1, 2, 3], &[(1, 2), (2, 3), (3, 3)], 2), 2);
    // two words of which the one alone is in the table; a family of one word
    assert_eq!(found(&[1, 2], &[(1, 7)], 1), 1);
    assert_eq!(found(&[1, 2], &[(1, 7)], 2), 1);
    assert_eq!(found(&[1, 2], &[(1, 7), (2, 8)], 2), 1);
}

// Refusal 13

/// The refusal of the two calls for a table, with all else right.
fn refused(families: &[u32]) -> Option<(u32, u32)> {
    refused_by(&needles(), families, &word(NEEDLE).numbers(), WORK, BUFFER)
}

/// So many entries in order, with their length.
fn in_order(size: usize) -> Vec<(u32, u32)> {
    (0..size as u32).map(|at| (10 + 3 * at, at / 2)).collect()
}

/// "Place 0 for a wrong size or length". (Reading: "The empty table is the one number 0; a slice of no numbers is 13 at 0.")
#[test]
fn thirteen_sizes() {
    assert_eq!(refused(&[]), Some((13, 0)));
    assert_eq!(refused(&[0]), None);
    assert_eq!(refused(&[0, 0]), Some((13, 0)));
    assert_eq!(refused(&[0, 5, 5]), Some((13, 0)));
    assert_eq!(refused(&[1, 5, 5]), None);
    assert_eq!(refused(&[1]), Some((13, 0)));
    for size in [1, 2, 3, 16, 17, 64, 2_046, 2_047, 2_048] {
        let right = table(&in_order(size));
        assert_eq!(refused(&right), None, "{size}");
        assert_eq!(refused(&right[..right.len() - 1]), Some((13, 0)), "{size}");
        assert_eq!(refused(&right[..right.len() - 2]), Some((13, 0)), "{size}");
        assert_eq!(refused(&[&right[..], &[9]].concat()), Some((13, 0)), "{size}");
        assert_eq!(refused(&[&right[..], &[9; 2]].concat()), Some((13, 0)), "{size}");
        // 1 + 2m doesn't wrap round
        for wrong in [size + 1, size - 1, size + (1 << 31), size + (1 << 30), u32::MAX as usize] {
            let mut sized = right.clone();
            sized[0] = wrong as u32;
            assert_eq!(refused(&sized), Some((13, 0)), "{size}, {wrong}");
        }
    }
    for size in [2_049, 2_050, 4_096] {
        assert_eq!(refused(&table(&in_order(size))), Some((13, 0)), "{size}");
    }
    assert_eq!(refused(&[1 << 31]), Some((13, 0)));
    assert_eq!(refused(&[u32::MAX]), Some((13, 0)));
    // a wrong size or length comes before any entry out of order
    assert_eq!(refused(&[2, 6, 5, 1]), Some((13, 0)));
    assert_eq!(refused(&table(&vec![(1, 1); 2_049])), Some((13, 0)));
}

/// (Reading: "Entry 1 is never out of order; equal words are.")
#[test]
fn thirteen_entries() {
    let words = |words: &[u32]| refused(&table(&words.iter().map(|word| (*word, 1)).collect::<Vec<_>>()));
    for accepted in [&[][..], &[0], &[u32::MAX], &[0, 1], &[0, u32::MAX], &[5, 6, 9], &[1 << 16, 1 << 31]] {
        assert_eq!(words(accepted), None, "{accepted:?}");
    }
    let faulty = [
        (&[0, 0][..], 2),
        (&[1, 0], 2),
        (&[u32::MAX, u32::MAX], 2),
        (&[u32::MAX, 0], 2),
        (&[1, 2, 2], 3),
        (&[1, 3, 2], 3),
        (&[3, 2, 1], 2),
        (&[1, 2, 1, 2], 3),
        (&[1, 5, 4, 3, 9], 3),
        (&[1 << 31, (1 << 31) - 1], 2),
        (&[1 << 16, 1], 2),
        // held to the one before it alone, not to the largest
        (&[5, 4, 5], 2),
        (&[2, 3, 4, 4, 1], 4),
    ];
    for (faulty, place) in faulty {
        assert_eq!(words(faulty), Some((13, place)), "{faulty:?}");
    }
    // families are in no order
    assert_eq!(refused(&table(&[(1, 9), (2, 1), (3, 5), (4, 5), (5, 0)])), None);
}

/// The memory that is lent to all calls of a test.
struct Asked {
    work: Vec<u32>,
    buffer: Vec<u32>,
}

impl Asked {
    fn nothing() -> Asked {
        Asked { work: vec![NOISE; WORK], buffer: vec![NOISE; BUFFER] }
    }

    /// Both calls refuse a table at this place.
    fn refuse(&mut self, families: &[u32], place: usize) {
        let (section, selection) = (needles(), word(NEEDLE).numbers());
        let listing = crate::engine().listing(&section, families, &selection, &mut self.work, &mut self.buffer);
        assert_eq!(listing, Listing::Refused { number: 13, place: place as u32 });
        assert!(self.buffer.iter().all(|number| *number == NOISE));
        let quick = crate::engine().quick(&section, families, &selection, &mut self.work);
        assert_eq!(quick, Quick::Refused { number: 13, place: place as u32 });
    }

    /// Both calls find a phrase at these positions, in order, and say yes where there is one.
    fn find(&mut self, section: &[u32], families: &[u32], words: &[u32], starts: &[u32]) {
        let (selection, last) = (phrase(words).numbers(), words.len() as u32 - 1);
        let found = starts.len() as u32;
        let listing = crate::engine().listing(section, families, &selection, &mut self.work, &mut self.buffer);
        let what = || format!("{words:?} in {section:?} by {families:?}");
        assert_eq!(listing, Listing::Listed { matches: found, strings: found, yes: found > 0 }, "{}", what());
        let spans: Vec<u32> = starts.iter().map(|start| start * 65_537 + last).collect();
        assert_eq!(self.buffer[2 + starts.len()..2 + 2 * starts.len()], spans, "{}", what());
        let quick = crate::engine().quick(section, families, &selection, &mut self.work);
        assert_eq!(quick, Quick::Answered { yes: found > 0, codes: 1 }, "{}", what());
    }

    /// Yes or no of any selection, from both calls; both answer as the second engine does.
    fn answers(&mut self, section: &[u32], families: &[u32], selection: &[u32]) -> bool {
        let mut wanted = vec![NOISE; BUFFER];
        self.buffer.fill(NOISE);
        let listing = crate::engine().listing(section, families, selection, &mut self.work, &mut self.buffer);
        assert_eq!(listing, second::listing(section, families, selection, WORK, &mut wanted), "{selection:?}");
        assert_eq!(self.buffer, wanted, "{selection:?}");
        let quick = crate::engine().quick(section, families, selection, &mut self.work);
        assert_eq!(quick, second::quick(section, families, selection, WORK), "{selection:?}");
        match (listing, quick) {
            (Listing::Listed { yes, .. }, Quick::Answered { yes: quick, .. }) if yes == quick => yes,
            other => panic!("{other:?}: {selection:?} in {section:?} by {families:?}"),
        }
    }
}

/// The entries of a large table at which one is put out of order: both ends, and the edges of every 16.
fn places(size: usize) -> Vec<usize> {
    match size {
        0..=70 => (2..=size).collect(),
        _ => {
            let edges = (16..size).step_by(16).flat_map(|block| block..=block + 1);
            [2, 3, size - 1, size].into_iter().chain(edges).collect()
        }
    }
}

/// An entry out of order at every place of every table up to 70 entries, and of large ones at the edges of blocks: equal to the
/// one before it, one less, the least; exchanged with it; and one more such entry behind it, or before it.
#[test]
fn thirteen_anywhere() {
    let mut asked = Asked::nothing();
    for size in (2..=70).chain([1_025, 2_047, 2_048]) {
        let right = in_order(size);
        for place in places(size) {
            let before = right[place - 2].0;
            for word in [before, before - 1, 0] {
                let mut entries = right.clone();
                entries[place - 1].0 = word;
                asked.refuse(&table(&entries), place);
                // the first one counts
                entries[size - 1].0 = 0;
                asked.refuse(&table(&entries), place);
                entries[1].0 = 0;
                asked.refuse(&table(&entries), 2);
            }
            let mut exchanged = right.clone();
            exchanged.swap(place - 1, place - 2);
            asked.refuse(&table(&exchanged), place);
        }
    }
}

/// Every order of refusals: "tried after 2", and so before 3.
#[test]
fn thirteen_among_the_others() {
    let sections = [(1, 0, vec![1, 1]), (2, 2, vec![2, 1, 1, 2, 1]), (0, 0, vec![2, 1, 1, 1, 1])];
    let tables =
        [(13, 0, vec![]), (13, 0, vec![1, 1]), (13, 2, vec![2, 1, 1, 7, 7]), (0, 0, vec![1, 1, 1]), (0, 0, vec![0])];
    let both = |kind: u32| Selection([word(1).0, word(2).0].concat()).then(kind, 0).numbers();
    let selections = [
        (3, 0, vec![]),
        (4, 3, word(1).then(18, 0).numbers()),
        (5, 3, word(1).window(0).numbers()),
        (6, 4, Selection([word(1).0, word(2).0].concat()).numbers()),
        (12, 4, word(1).not().occurs_at_least(1).numbers()),
        (7, 6, word(1).mild_not(word(2).not()).numbers()),
        (0, 0, both(2)),
    ];
    for (section, families, selection) in sections.iter().flat_map(|section| {
        let pairs = tables.iter().flat_map(|families| selections.iter().map(move |selection| (families, selection)));
        pairs.map(move |(families, selection)| (section, families, selection))
    }) {
        for (work, buffer) in [(WORK, BUFFER), (WORK - 1, BUFFER), (WORK, BUFFER - 1)] {
            let short = if (work, buffer) == (WORK, BUFFER) { (0, 0) } else { (8, 0) };
            let order = [(section.0, section.1), (families.0, families.1), (selection.0, selection.1), short];
            let first = order.into_iter().find(|(number, _)| *number > 0);
            assert_eq!(refused_by(&section.2, &families.2, &selection.2, work, buffer), first, "{order:?}");
        }
    }
}

// Every small table

/// "Each word equals its token or both are in the table with the same family", entry by entry.
fn fits(entries: &[(u32, u32)], word: u32, token: u32) -> bool {
    let of = |wanted: u32| entries.iter().filter(move |(word, _)| *word == wanted);
    word == token || of(word).any(|(_, family)| of(token).any(|(_, other)| family == other))
}

/// Where a phrase starts.
fn starts(entries: &[(u32, u32)], words: &[u32], tokens: &[u32]) -> Vec<u32> {
    let row_fits = |row: &[u32]| words.iter().zip(row).all(|(word, token)| fits(entries, *word, *token));
    (1..).zip(tokens.windows(words.len())).filter(|(_, row)| row_fits(row)).map(|(start, _)| start).collect()
}

/// Every row of so many of the numbers from 1 to the last.
fn rows(length: usize, last: u32) -> impl Iterator<Item = Vec<u32>> {
    let length = length as u32;
    (0..last.pow(length)).map(move |row| (0..length).map(|at| 1 + row / last.pow(at) % last).collect())
}

/// Every table of up to three entries: words of 1 to 4, families 1 and 2, in order or not.
fn small_tables() -> impl Iterator<Item = Vec<(u32, u32)>> {
    (0..=3).flat_map(|size| {
        rows(size, 4)
            .flat_map(move |words| rows(size, 2).map(move |families| words.iter().copied().zip(families).collect()))
    })
}

fn is_in_order(entries: &[(u32, u32)]) -> bool {
    entries.windows(2).all(|pair| pair[0].0 < pair[1].0)
}

/// Every section of up to so many tokens, words of 1 to 3.
fn small_sections(most: usize) -> Vec<Vec<u32>> {
    (0..=most).flat_map(|length| rows(length, 3)).collect()
}

#[test]
fn every_phrase_of_every_small_table() {
    let mut asked = Asked::nothing();
    let (most_tokens, most_words) = if cfg!(debug_assertions) { (2, 2) } else { (4, 3) };
    let sections: Vec<(Vec<u32>, Vec<u32>)> =
        small_sections(most_tokens).into_iter().map(|tokens| (plain(&tokens), tokens)).collect();
    let phrases: Vec<Vec<u32>> = (1..=most_words).flat_map(|length| rows(length, 4)).collect();
    let (mut found, mut by_family, mut refused) = (0, 0, 0);
    for entries in small_tables() {
        let families = table(&entries);
        if !is_in_order(&entries) {
            let place = 2 + entries.windows(2).position(|pair| pair[0].0 >= pair[1].0).unwrap();
            asked.refuse(&families, place);
            refused += 1;
            asked.buffer.fill(NOISE);
            continue;
        }
        for (section, tokens) in &sections {
            for words in &phrases {
                let starts = starts(&entries, words, tokens);
                asked.find(section, &families, words, &starts);
                let without = self::starts(&[], words, tokens);
                found += usize::from(!without.is_empty());
                by_family += usize::from(!starts.is_empty() && without.is_empty());
            }
        }
        asked.buffer.fill(NOISE);
    }
    println!("{found} found by words alone, {by_family} by families; {refused} tables refused");
    assert!(refused == 520 && found > 300 && by_family > 300);
}

/// Nots, filters and combinations over two phrases: what each says by where the two start.
type Question = (fn(Selection, Selection) -> Selection, fn(&[u32], &[u32], &[u32]) -> bool);

/// The phrases are of one word, or the first is of two; the last list is the tokens'.
const QUESTIONS: [Question; 7] = [
    (|one, _| one.not(), |one, _, _| one.is_empty()),
    (|one, other| one.and(other.not()), |one, other, _| !one.is_empty() && other.is_empty()),
    (|one, other| one.not().or(other.window(2)), |one, other, _| one.is_empty() || !other.is_empty()),
    (|one, other| one.or(other).not().not(), |one, other, _| !one.is_empty() || !other.is_empty()),
    (
        |one, other| one.and(other.not()).ordered(),
        |one, other, _| one.iter().any(|start| other.iter().all(|exclude| exclude < start)),
    ),
    (|one, other| one.not().and(other).at_start().not(), |one, other, _| !(one.is_empty() && other.contains(&1))),
    (|_, other| other.at_end(), |_, other, tokens| !tokens.is_empty() && other.contains(&(tokens.len() as u32))),
];

/// Sections of up to three tokens, tables of up to two entries; the yes or no is what the tokens and the table say.
#[test]
fn every_question_of_every_small_table() {
    let mut asked = Asked::nothing();
    let sections = small_sections(if cfg!(debug_assertions) { 2 } else { 3 });
    let firsts: Vec<Vec<u32>> = [vec![1], vec![4], vec![1, 2], vec![2, 4]].to_vec();
    let mut turned = [[0; 2]; QUESTIONS.len()];
    for entries in small_tables().filter(|entries| entries.len() <= 2 && is_in_order(entries)) {
        let families = table(&entries);
        for (tokens, first) in sections.iter().flat_map(|tokens| firsts.iter().map(move |first| (tokens, first))) {
            let section = plain(tokens);
            for other in 1..=4 {
                for ((question, says), turned) in QUESTIONS.iter().zip(&mut turned) {
                    let says = |entries: &[(u32, u32)]| {
                        says(&starts(entries, first, tokens), &starts(entries, &[other], tokens), tokens)
                    };
                    let yes = says(&entries);
                    let selection = question(phrase(first), word(other)).numbers();
                    assert_eq!(asked.answers(&section, &families, &selection), yes, "{first:?}, {other}, {tokens:?}");
                    turned[usize::from(yes)] += usize::from(yes != says(&[]));
                }
            }
        }
    }
    println!("turned into no and yes by families: {turned:?}");
    // a not alone is only turned into a no, and what has no not only into a yes
    let often = |question: usize, to: usize| turned[question][to] > 40;
    assert!([1, 2, 4, 5].into_iter().all(|question| often(question, 0) && often(question, 1)), "{turned:?}");
    assert!(often(0, 0) && often(3, 1) && often(6, 1), "{turned:?}");
}

// Large tables

/// 2,048 words, three apart, each in the family that its place gives.
fn full(family: impl Fn(usize) -> u32) -> Vec<(u32, u32)> {
    (0..MOST_ENTRIES).map(|at| (10 + 3 * at as u32, family(at))).collect()
}

/// Every entry as the word of a search and as a token: families of two, half the table apart. The words beside an entry are in
/// no family.
#[test]
fn every_entry_of_a_large_table() {
    let mut asked = Asked::nothing();
    let half = MOST_ENTRIES / 2;
    let entries = full(|at| (at % half) as u32);
    let families = table(&entries);
    for at in (0..MOST_ENTRIES).step_by(if cfg!(debug_assertions) { 101 } else { 1 }) {
        let (word, other) = (entries[at].0, entries[(at + half) % MOST_ENTRIES].0);
        let section = plain(&[word - 1, other, word + 1, word, 5]);
        asked.find(&section, &families, &[word], &[2, 4]);
        asked.find(&section, &families, &[word - 1], &[1]);
        asked.find(&section, &families, &[word + 1], &[3]);
        asked.find(&section, &families, &[other, word + 1, other], &[2]);
        let beside = plain(&[other - 1, other + 1, 5]);
        asked.find(&beside, &families, &[word], &[]);
    }
}

/// Families of one word, of rows and of mixed words, of all the table: each entry with the first of its family and the last,
/// and with the entries beside these.
#[test]
fn every_family_of_a_large_table() {
    let mut asked = Asked::nothing();
    let step = if cfg!(debug_assertions) { 211 } else { 5 };
    for members in [1, 2, 15, 16, 17, 40, 100, 1_024, 2_048] {
        for mixed in [false, true] {
            let count = MOST_ENTRIES.div_ceil(members);
            let family = |at: usize| (if mixed { at % count } else { at / members }) as u32;
            let entries = full(family);
            let families = table(&entries);
            for at in (0..MOST_ENTRIES).step_by(step).chain([MOST_ENTRIES - 1]) {
                let of_family = |other: &usize| family(*other) == family(at);
                let (first, last) = ((0..MOST_ENTRIES).find(of_family), (0..MOST_ENTRIES).rfind(of_family));
                let (first, last) = (first.unwrap(), last.unwrap());
                let around = [first.saturating_sub(1), first, first + 1, last.saturating_sub(1), last, last + 1];
                let tokens: Vec<u32> = around.map(|place| entries[place.min(MOST_ENTRIES - 1)].0).to_vec();
                let found: Vec<u32> = (1..)
                    .zip(around.map(|place| place.min(MOST_ENTRIES - 1)))
                    .filter(|(_, place)| of_family(place))
                    .map(|(start, _)| start)
                    .collect();
                asked.find(&plain(&tokens), &families, &[entries[at].0], &found);
            }
        }
    }
}

/// A find by a family of 2,048 at every position of sections up to 70 tokens, and at the edges of 4,096.
#[test]
fn every_position_of_a_section() {
    let mut asked = Asked::nothing();
    let families = table(&full(|_| 7));
    let edges = (64..4_096).step_by(64).flat_map(|block| block..=block + 1).chain([1, 2, 4_095, 4_096]);
    let long = edges.step_by(if cfg!(debug_assertions) { 30 } else { 1 }).map(|position| (4_096, position));
    let short = (1..=70).flat_map(|n| (1..=n).map(move |position| (n, position)));
    for (n, position) in short.step_by(if cfg!(debug_assertions) { 30 } else { 1 }).chain(long) {
        let mut tokens = vec![9; n];
        tokens[position - 1] = 10 + 3 * 2_047;
        asked.find(&plain(&tokens), &families, &[10], &[position as u32]);
        if position < n {
            asked.find(&plain(&tokens), &families, &[10 + 3 * 1_000, 9], &[position as u32]);
        }
    }
}

/// A find by a family of four at every position of sections up to 70 tokens, and at the edges of 4,096, among words that are in no
/// family and leave the same remainders by 1,024 or others.
#[test]
fn every_position_by_a_family_of_four() {
    let mut asked = Asked::nothing();
    let fours = table(&full(|at| at as u32 / 4));
    let edges = (64..4_096).step_by(64).flat_map(|block| block..=block + 1).chain([1, 2, 4_095, 4_096]);
    let long = edges.step_by(if cfg!(debug_assertions) { 30 } else { 1 }).map(|position| (4_096, position));
    let short = (1..=70).flat_map(|n| (1..=n).map(move |position| (n, position)));
    for (n, position) in short.chain(long) {
        for other in [9, 1_034] {
            let mut tokens = vec![other; n];
            tokens[position - 1] = 19;
            asked.find(&plain(&tokens), &fours, &[10], &[position as u32]);
            if position < n {
                asked.find(&plain(&tokens), &fours, &[13, other], &[position as u32]);
            }
        }
    }
}

// What a table comes to

/// Every word that is in the table by the first one of its family, all others as they are.
fn by_first_words(families: &Families, word: u32) -> u32 {
    let first = |family: u32| families.0.iter().find(|(_, other)| **other == family).map(|(word, _)| *word);
    families.of(word).and_then(first).unwrap_or(word)
}

/// The section and the search with other words.
fn renamed(section: &Section, tree: &Tree, word: impl Fn(u32) -> u32) -> (Vec<u32>, Vec<u32>) {
    let mut codes = tree.codes();
    codes.iter_mut().filter(|code| code.kind == 0).for_each(|code| code.operand = word(code.operand));
    let mut section = section.clone();
    section.words.iter_mut().for_each(|old| *old = word(*old));
    (section.numbers(), selection::numbers(&codes))
}

/// Both calls answer a case as they answer these inputs.
fn answered_alike(case: &Case, section: &[u32], families: &[u32], selection: &[u32]) {
    let listing = |section: &[u32], families: &[u32], selection: &[u32]| {
        let mut buffer = [NOISE; BUFFER];
        (crate::engine().listing(section, families, selection, &mut [NOISE; WORK], &mut buffer), buffer)
    };
    let wanted = listing(section, families, selection);
    assert!(listing(&case.section, &case.families, &case.selection) == wanted, "{case:?}");
    let wanted = quick_in(section, families, selection, WORK);
    assert_eq!(quick_in(&case.section, &case.families, &case.selection, WORK), wanted, "{case:?}");
}

/// The accepted ones of so many cases with families.
fn accepted(seed: u64, count: usize) -> impl Iterator<Item = (Case, Searched, Tree)> {
    let count = if cfg!(debug_assertions) { count / 40 } else { count };
    family_cases(seed, count).filter_map(|case| {
        let (searched, tree) = second::check(&case.section, &case.families, &case.selection, WORK, None).ok()?;
        Some((case, searched, tree))
    })
}

/// A table gives what the empty one gives if each word, in section and search, is replaced by the first of its family.
#[test]
fn families_by_their_first_words() {
    let mut asked = 0;
    for case in family_cases(3, if cfg!(debug_assertions) { 500 } else { 20_000 }) {
        let Ok((searched, tree)) = second::check(&case.section, &case.families, &case.selection, WORK, None) else {
            continue;
        };
        let first = |word: u32| by_first_words(&searched.families, word);
        let mut codes = tree.codes();
        codes.iter_mut().filter(|code| code.kind == 0).for_each(|code| code.operand = first(code.operand));
        let mut section = searched.section.clone();
        section.words.iter_mut().for_each(|word| *word = first(*word));
        let (section, selection) = (section.numbers(), selection::numbers(&codes));
        let listing = |section: &[u32], families: &[u32], selection: &[u32]| {
            let mut buffer = [NOISE; BUFFER];
            (crate::engine().listing(section, families, selection, &mut [NOISE; WORK], &mut buffer), buffer)
        };
        let wanted = listing(&section, &EMPTY, &selection);
        assert!(listing(&case.section, &case.families, &case.selection) == wanted, "{case:?}");
        let wanted = quick_in(&section, &EMPTY, &selection, WORK);
        assert_eq!(quick_in(&case.section, &case.families, &case.selection, WORK), wanted, "{case:?}");
        asked += 1;
    }
    println!("{asked} cases");
}

/// A word's number tells it from others and says where it stands in the table, and no more: other numbers in the same order give
/// the same answers, one after the other or such that all leave the same remainder by a power of two.
#[test]
fn other_numbers_of_words() {
    let mut asked = 0;
    for (case, searched, tree) in accepted(4, 6_000) {
        let of_codes = tree.codes().into_iter().filter(|code| code.kind == 0).map(|code| code.operand);
        let of_table = searched.families.0.keys().copied();
        let words: BTreeSet<u32> = of_codes.chain(of_table).chain(searched.section.words.iter().copied()).collect();
        let places: BTreeMap<u32, u32> = words.into_iter().zip(0..).collect();
        for step in [1, 256, 1_024, 65_536] {
            let word = |old: u32| places[&old] * step;
            let (section, selection) = renamed(&searched.section, &tree, word);
            let entries: Vec<(u32, u32)> =
                searched.families.0.iter().map(|(old, family)| (word(*old), *family)).collect();
            answered_alike(&case, &section, &table(&entries), &selection);
            asked += 1;
        }
    }
    assert!(asked > 300, "{asked} cases");
}

// Typed

/// "All calls that find phrases take the table"; the errors of a text come first of all, then 1, 2, 13, 3.
#[test]
fn typed_searches_by_families() {
    let engine = crate::engine();
    let ask = |section: &[u32], families: &[u32], text: &str, work: usize| {
        let mut buffer = [NOISE; BUFFER];
        let listing = engine.typed_listing(section, families, text.as_bytes(), &mut vec![NOISE; work], &mut buffer);
        let quick = engine.typed_quick(section, families, text.as_bytes(), &mut vec![NOISE; work]);
        match (listing, quick) {
            (Listing::Listed { matches, yes, .. }, Quick::Answered { yes: quick, .. }) if yes == quick => {
                Ok((matches, yes))
            }
            (Listing::Refused { number, place }, Quick::Refused { number: other, place: at }) => {
                assert_eq!((number, place), (other, at), "{text}");
                Err((number, place))
            }
            other => panic!("{other:?}"),
        }
    };
    let (section, families) = (needles(), two_families());
    assert_eq!(ask(&section, &families, "\"1\"", WORK), Ok((3, true)));
    assert_eq!(ask(&section, &EMPTY, "\"1\"", WORK), Ok((1, true)));
    assert_eq!(ask(&section, &families, "\"1 2\"", WORK), Ok((1, true)));
    assert_eq!(ask(&section, &families, "\"30\" ftand ftnot \"10\"", WORK), Ok((1, false)));
    assert_eq!(ask(&section, &EMPTY, "\"30\" ftand ftnot \"10\"", WORK), Ok((1, true)));
    let (faulty, sixty_five) = (table(&[(1, 1), (1, 1)]), "\"1\"".to_string() + &" ordered".repeat(64));
    assert_eq!(ask(&section, &faulty, "\"1\"", WORK), Err((13, 2)));
    assert_eq!(ask(&section, &[], "\"1\"", 0), Err((13, 0)));
    assert_eq!(ask(&section, &faulty, "\"1\" ftand", 0), Err((10, 10)));
    assert_eq!(ask(&section, &faulty, "\"4294967296\"", WORK), Err((11, 2)));
    assert_eq!(ask(&section, &faulty, &" ".repeat(2_049), WORK), Err((11, 0)));
    assert_eq!(ask(&section, &faulty, &sixty_five, 0), Err((13, 2)));
    assert_eq!(ask(&section, &families, &sixty_five, 0), Err((3, 0)));
    assert_eq!(ask(&section, &faulty, "\"1\" window 0 words", 0), Err((13, 2)));
    assert_eq!(ask(&section, &families, "\"1\" window 0 words", 0), Err((5, 3)));
    assert_eq!(ask(&section, &families, "\"1\"", 0), Err((8, 0)));
    assert_eq!(ask(&[2, 1, 1, 2, 1], &faulty, "\"1\"", WORK), Err((2, 2)));
    assert_eq!(ask(&[], &[], "\"1\"", WORK), Err((1, 0)));
}
