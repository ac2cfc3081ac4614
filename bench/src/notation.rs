//! Sections and selections written as text.
//!
//! A section: runs of words, then how many tokens a sentence and a paragraph have: `1*256 2 3*10 s20 p100`. Without them
//! they aren't reported. A selection: postfix, a phrase by its words, a window, a distance and the two occurs by their numbers:
//! `1 2-3 and not 4 or window:5 distance:0-3`, `1 least:2`, `1 occurs:1-2`.

use second_engine::section::Section;
use second_engine::selection::{self, Code};

const PLAIN: [(&str, u32); 12] = [
    ("or", 2),
    ("and", 3),
    ("not", 4),
    ("mild", 5),
    ("ordered", 6),
    ("same-sentence", 9),
    ("same-paragraph", 10),
    ("different-sentence", 11),
    ("different-paragraph", 12),
    ("start", 13),
    ("end", 14),
    ("entire", 15),
];

fn number(text: &str) -> u32 {
    text.parse().unwrap_or_else(|_| panic!("no number: {text}"))
}

pub fn section(text: &str) -> Vec<u32> {
    let (mut words, mut sentence, mut paragraph) = (vec![], 0, 0);
    for token in text.split_whitespace() {
        if let Some(length) = token.strip_prefix('s') {
            sentence = number(length);
        } else if let Some(length) = token.strip_prefix('p') {
            paragraph = number(length);
        } else {
            let (word, count) = token.split_once('*').unwrap_or((token, "1"));
            words.extend(vec![number(word); number(count) as usize]);
        }
    }
    section_of(words, sentence, paragraph)
}

/// Sentences and paragraphs of so many tokens each, or not reported.
pub fn section_of(words: Vec<u32>, sentence: u32, paragraph: u32) -> Vec<u32> {
    let n = words.len() as u32;
    let units = |length: u32| (0..n).map(move |at| at.checked_div(length).map_or(0, |unit| 1 + unit));
    let (sentences, paragraphs) = (units(sentence).collect(), units(paragraph).collect());
    Section { words, sentences, paragraphs }.numbers()
}

pub fn section_text(words: &[u32], sentence: u32, paragraph: u32) -> String {
    let runs = words.chunk_by(|a, b| a == b).map(|run| match run.len() {
        1 => run[0].to_string(),
        count => format!("{}*{count}", run[0]),
    });
    let mut text = runs.collect::<Vec<String>>().join(" ");
    for (mark, length) in [('s', sentence), ('p', paragraph)] {
        if length > 0 {
            text += &format!(" {mark}{length}");
        }
    }
    text
}

/// `a-b` as the operand a × 65,536 + b.
fn two_numbers(text: &str) -> u32 {
    let (least, most) = text.split_once('-').expect("two numbers");
    number(least) * 65_536 + number(most)
}

pub fn codes(text: &str) -> Vec<Code> {
    let mut codes = vec![];
    for token in text.split_whitespace() {
        if let Some(&(_, kind)) = PLAIN.iter().find(|(name, _)| *name == token) {
            codes.push(Code { kind, operand: 0 });
        } else if let Some(size) = token.strip_prefix("window:") {
            codes.push(Code { kind: 7, operand: number(size) });
        } else if let Some(bounds) = token.strip_prefix("distance:") {
            codes.push(Code { kind: 8, operand: two_numbers(bounds) });
        } else if let Some(bounds) = token.strip_prefix("occurs:") {
            codes.push(Code { kind: 16, operand: two_numbers(bounds) });
        } else if let Some(least) = token.strip_prefix("least:") {
            codes.push(Code { kind: 17, operand: number(least) });
        } else {
            let words: Vec<u32> = token.split('-').map(number).collect();
            codes.extend(words.iter().map(|&operand| Code { kind: 0, operand }));
            codes.push(Code { kind: 1, operand: words.len() as u32 });
        }
    }
    codes
}

pub fn selection(text: &str) -> Vec<u32> {
    selection::numbers(&codes(text))
}

pub fn selection_text(codes: &[Code]) -> String {
    let (mut tokens, mut words) = (vec![], vec![]);
    for code in codes {
        match code.kind {
            0 => words.push(code.operand.to_string()),
            1 => tokens.push(std::mem::take(&mut words).join("-")),
            7 => tokens.push(format!("window:{}", code.operand)),
            8 => tokens.push(format!("distance:{}-{}", code.operand / 65_536, code.operand % 65_536)),
            16 => tokens.push(format!("occurs:{}-{}", code.operand / 65_536, code.operand % 65_536)),
            17 => tokens.push(format!("least:{}", code.operand)),
            kind => tokens.push(PLAIN.iter().find(|(_, k)| *k == kind).expect("a kind").0.to_string()),
        }
    }
    tokens.join(" ")
}
