//! The named cases.

use crate::{families, notation};
use second_engine::gen::Rng;
use second_engine::EMPTY;

pub struct Case {
    pub name: String,
    pub section: Vec<u32>,
    pub families: Vec<u32>,
    pub selection: Vec<u32>,
    /// By the search for what costs most, or made by hand for that.
    pub found: bool,
}

impl Case {
    /// Is a table lent that joins anything?
    pub fn has_table(&self) -> bool {
        self.families != EMPTY
    }
}

/// With the empty table.
pub fn case(name: &str, section: &[u32], selection: &str) -> Case {
    let selection = notation::selection(selection);
    Case { name: name.to_string(), section: section.to_vec(), families: EMPTY.to_vec(), selection, found: false }
}

/// Like a text: other words from 100 on, some often and most seldom; sentences of 12 tokens, paragraphs of 60. Word 1
/// stands once, in the middle, word 2 two hundred times or in every second place, word 3 behind every fourth word 2.
fn text(n: usize) -> Vec<u32> {
    let mut rng = Rng::new(1, n as u64);
    let mut words: Vec<u32> = (0..n).map(|_| 100 + (1usize << rng.below(10)) as u32 + rng.below(40) as u32).collect();
    let step = (n / 200).max(2);
    for (turn, at) in (0..n - 1).step_by(step).enumerate().take(200) {
        words[at] = 2;
        if turn % 4 == 0 {
            words[at + 1] = 3;
        }
    }
    words[n / 2 + 1] = 1;
    notation::section_of(words, 12, 60)
}

/// The same with so many headings of five tokens, the first at the start.
fn headed(section: &[u32], headings: usize) -> Vec<u32> {
    let n = section[0] as usize;
    let in_heading = |at: &usize| at % (n / headings) < 5;
    without_sentence(section, (0..n).filter(in_heading))
}

/// The same with some tokens that have no sentence, counted from 0.
fn without_sentence(section: &[u32], tokens: impl Iterator<Item = usize>) -> Vec<u32> {
    let mut section = section.to_vec();
    let n = section[0] as usize;
    tokens.for_each(|at| section[1 + n + at] &= 0xFFFF_0000);
    section
}

/// Words and phrases in a text.
fn of_words(short: &[u32], long: &[u32]) -> Vec<Case> {
    vec![
        case("absent word, 400 tokens", short, "9"),
        case("absent word, 4,096 tokens", long, "9"),
        case("absent word, 400 tokens, a heading", &headed(short, 1), "9"),
        case("absent word, 4,096 tokens, a heading", &headed(long, 1), "9"),
        case("absent word, 4,096 tokens, 20 headings", &headed(long, 20), "9"),
        case(
            "absent word, 4,096 tokens, every second one without a sentence",
            &without_sentence(long, (0..4_096).step_by(2)),
            "9",
        ),
        case("rare word, 4,096 tokens", long, "1"),
        case("common word, 400 tokens", short, "2"),
        case("common word, 4,096 tokens", long, "2"),
        case("phrase of two, 4,096 tokens", long, "2-3"),
        case("absent phrase of eight, 4,096 tokens", long, "2-3-2-3-2-3-2-9"),
        case("absent phrase of eight over equal tokens", &notation::section("1*4096"), "1-1-1-1-1-1-1-9"),
        case("the same, the fifth word absent", &notation::section("1*4096"), "1-1-1-1-9-1-1-1"),
        case("64 codes, 4,096 tokens", long, &format!("1 {}not not", "1 and ".repeat(20))),
    ]
}

/// 256 matches of two strings come of it.
const SQUARE: &str = "1*16 2*16 s16 p16";
const EXCLUDED: &str = "1*256 2 s300 p300";

/// What is made of up to 256 matches.
const RULES: [(&str, &str, &str); 20] = [
    ("and, 16 by 16", SQUARE, "1 2 and"),
    ("or, 128 and 128", "1*128 2*128", "1 2 or"),
    ("not of 256", "1*256", "1 not"),
    ("not not of 256", "1*256", "1 not not"),
    ("not of 16 by 16 excludes", SQUARE, "1 not 2 not or not"),
    ("mild not, 256 by 256", "1*256 2*256", "1 2 mild"),
    ("mild not, 16 by 16 by 256", "1*16 2*16 3*256", "1 2 and 3 mild"),
    ("ordered over 256", SQUARE, "1 2 and ordered"),
    ("window over 128", "1*128", "1 window:2"),
    ("window with excludes over 128", "1*128 2", "1 2 not and window:2"),
    ("distance over 256", SQUARE, "1 2 and distance:0-40"),
    ("distance with excludes over 256", EXCLUDED, "1 2 not and distance:0-300"),
    ("same sentence over 256", EXCLUDED, "1 2 not and same-sentence"),
    ("same paragraph over 256", EXCLUDED, "1 2 not and same-paragraph"),
    ("different sentence over 256", SQUARE, "1 2 and different-sentence"),
    ("different paragraph over 256", SQUARE, "1 2 and different-paragraph"),
    ("at start over 256", "1 2*256", "1 2 and start"),
    ("at end over 256", "2*256 1", "1 2 and end"),
    ("entire content over 256", "1", "1 window:256 entire"),
    (
        "nested filters over 256",
        SQUARE,
        "1 2 and ordered different-sentence different-paragraph distance:0-40 end window:32",
    ),
];

/// Three finds; seven, the most of which all choices are within the limits; 22, the most of which those of one less are; 256, and too many choices.
const OCCURS: [(&str, &str, &str); 10] = [
    ("occurs at least 0 of 3", "1*3", "1 least:0"),
    ("occurs exactly 3 of 3", "1*3", "1 occurs:3-3"),
    ("occurs exactly 2 of 3", "1*3", "1 occurs:2-2"),
    ("occurs at least 0 of 7", "1*7", "1 least:0"),
    ("occurs exactly 6 of 7", "1*7", "1 occurs:6-6"),
    ("occurs at least 21 of 22", "1*22", "1 least:21"),
    ("occurs from 21 to 22 of 22", "1*22", "1 occurs:21-22"),
    ("occurs at least 256 of 256", "1*256", "1 least:256"),
    ("occurs at least 3 of 256, too long", "1*256", "1 least:3"),
    ("occurs from 1 to 3 of 256, too long", "1*256", "1 occurs:1-3"),
];

fn written((name, section, selection): (&str, &str, &str)) -> Case {
    case(name, &notation::section(section), selection)
}

fn found(line: &str) -> Case {
    let [name, section, selection] = line.split('|').collect::<Vec<&str>>()[..] else { panic!("{line}") };
    Case { found: true, ..written((name.trim(), section, selection)) }
}

pub fn all() -> Vec<Case> {
    let (short, long) = (text(400), text(4_096));
    let mut cases = of_words(&short, &long);
    cases.extend(families::all(&short, &long));
    cases.extend(RULES.map(written));
    let nested = "2 1 and ordered distance:0-100 window:60 same-paragraph";
    cases.push(case("nested filters, 4,096 tokens", &long, nested));
    cases.extend(OCCURS.map(written));
    cases.extend(include_str!("../found.txt").lines().filter(|line| !line.starts_with('#')).map(found));
    cases.extend(families::dearest());
    cases
}
