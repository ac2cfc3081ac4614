//! The cases with a family table. All tables have 2,048 entries, as many as a table may have.

use crate::cases::{case, Case};
use crate::notation;
use second_engine::families::{self, MOST_ENTRIES};
use second_engine::gen::Rng;

/// A word, and how many its family has.
type Family = (u32, usize);

/// A table of some words below 801 and of odd ones from there on. The others of a word's family lie as far apart as they can;
/// what is in none of the families asked for is in others of up to four.
fn table(families: &[Family]) -> Vec<u32> {
    let words = families.iter().map(|&(word, _)| word).chain((801..).step_by(2));
    let mut numbers: Vec<u32> = (0..MOST_ENTRIES as u32).map(|entry| 1_000 + entry / 4).collect();
    for (first, &(_, size)) in families.iter().enumerate() {
        for turn in 0..size {
            numbers[first + turn * (MOST_ENTRIES / size)] = first as u32;
        }
    }
    [MOST_ENTRIES as u32].into_iter().chain(words.take(MOST_ENTRIES)).chain(numbers).collect()
}

/// The tokens' words.
fn words_of(section: &mut [u32]) -> &mut [u32] {
    let n = section[0] as usize;
    &mut section[1..=n]
}

/// A text's words from 100 on become even ones among those of a table.
fn spread(section: &mut [u32]) {
    words_of(section).iter_mut().filter(|word| **word >= 100).for_each(|word| *word *= 8);
}

/// The words of a family take the places of the first of them by turns, itself last.
fn share(section: &mut [u32], table: &[u32], first: u32) {
    let table = families::read(table).expect("a table");
    let mut turns = table.0.keys().copied().filter(|&word| table.fits(first, word)).cycle().skip(1);
    for word in words_of(section).iter_mut().filter(|word| **word == first) {
        *word = turns.next().expect("a word");
    }
}

/// A case over a text in which these families stand for their words, with a table of them.
fn with(name: &str, text: &[u32], families: &[Family], selection: &str) -> Case {
    let (table, mut section) = (table(families), text.to_vec());
    spread(&mut section);
    families.iter().for_each(|&(word, _)| share(&mut section, &table, word));
    Case { families: table, ..case(name, &section, selection) }
}

/// The same text with 'cam' and 'cover', words 4 and 5: forty times the one, ten times the other three tokens behind it.
fn with_cams(text: &[u32]) -> Vec<u32> {
    let mut text = text.to_vec();
    let words = words_of(&mut text);
    for turn in 0..40 {
        let at = turn * (words.len() / 40);
        words[at] = 4;
        if turn % 4 == 0 {
            words[at + 3] = 5;
        }
    }
    text
}

pub fn all(short: &[u32], long: &[u32]) -> Vec<Case> {
    let eight = "2-3-2-3-2-3-2-9";
    let cases: [(&str, &[u32], &[Family], &str); 16] = [
        ("absent word, 400 tokens, table of 2,048", short, &[], "9"),
        ("absent word, 4,096 tokens, table of 2,048", long, &[], "9"),
        ("absent word, 400 tokens, in a family of four", short, &[(9, 4)], "9"),
        ("absent word, 4,096 tokens, in a family of four", long, &[(9, 4)], "9"),
        ("absent word, 4,096 tokens, in a family of 8", long, &[(9, 8)], "9"),
        // the most that are looked for in blocks; looked up one by one
        ("absent word, 4,096 tokens, in a family of 32", long, &[(9, 32)], "9"),
        ("absent word, 4,096 tokens, in a family of 33", long, &[(9, 33)], "9"),
        ("absent word, 4,096 tokens, in a family of 2,048", long, &[(9, 2_048)], "9"),
        ("rare word, 400 tokens, in a family of four", short, &[(1, 4)], "1"),
        ("rare word, 4,096 tokens, in a family of four", long, &[(1, 4)], "1"),
        ("common word, 400 tokens, in a family of four", short, &[(2, 4)], "2"),
        ("common word, 4,096 tokens, in a family of four", long, &[(2, 4)], "2"),
        ("phrase of two, 4,096 tokens, in families of four", long, &[(2, 4), (3, 4)], "2-3"),
        ("absent phrase of eight, 4,096 tokens, table of 2,048", long, &[], eight),
        ("absent phrase of eight, 4,096 tokens, in families of four", long, &[(2, 4), (3, 4), (9, 4)], eight),
        (
            "cam and not cover, 4,096 tokens, in families of four",
            &with_cams(long),
            &[(4, 4), (5, 4)],
            "4 5 not and same-sentence ordered window:6",
        ),
    ];
    cases.map(|(name, text, families, selection)| with(name, text, families, selection)).into()
}

/// What costs most with a table: every token fits all words of a phrase but the last, and for each of these the token and the word
/// are looked up, since their families are too large to be looked for in blocks. Seven phrases and their ors leave room for 51
/// words. By instructions most is one word near the table's end in every place, by time words by chance.
pub fn dearest() -> [Case; 2] {
    let table = table(&[(1, 1_024), (2, 1_024)]);
    // the words of the first family, rising, and the last of the second
    let (first, last) = (table[1..=MOST_ENTRIES].iter().step_by(2), table[MOST_ENTRIES]);
    let first: Vec<u32> = first.copied().collect();
    let word = format!("{}-", first[1_022]);
    let phrase = |words: usize| format!("{}{last}", word.repeat(words - 1));
    let phrases = [7, 7, 7, 7, 7, 8, 8].map(phrase).join(" ");
    let mut rng = Rng::new(1, 1_024);
    let by_chance: Vec<u32> = (0..4_096).map(|_| rng.pick(&first)).collect();
    let tokens = [("the last of the words in every place", vec![first[1_023]; 4_096]), ("words by chance", by_chance)];
    tokens.map(|(name, words)| {
        let name = format!("seven absent phrases in families of 1,024, {name}");
        let made = case(&name, &notation::section_of(words, 0, 0), &(phrases.clone() + &" or".repeat(6)));
        Case { families: table.clone(), found: true, ..made }
    })
}
