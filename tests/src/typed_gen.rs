//! Seeded random typed searches, and every short one.
//!
//! A case depends on its seed and its index alone. Most texts are made from the selections of [`crate::gen`], typed out over
//! their own sections, so that they find something; others are such texts with a token or a byte wrong, or have a number,
//! a length, a count of codes or a depth near its limit, or are tokens or bytes without any order.

use crate::gen::{self, Rng};
use crate::selection::{self, Filter, Occurs, Rule, Tree, Unit, MOST_CODES, MOST_WORDS};
use crate::typed::{self, Form, MOST_BYTES, SELECTION};

/// One call of everything typed: what is lent to it. The working memory is given by its length, the others with their
/// noise; `selection` is lent to the reader alone.
#[derive(Clone, Debug, PartialEq, Eq)]
pub struct TypedCase {
    pub text: Vec<u8>,
    pub section: Vec<u32>,
    pub families: Vec<u32>,
    pub work_len: usize,
    pub buffer: Vec<u32>,
    pub selection: Vec<u32>,
}

/// The first typed cases of a seed.
pub fn typed_cases(seed: u64, count: usize) -> impl Iterator<Item = TypedCase> {
    (0..count).map(move |index| typed_case(seed, index))
}

/// One typed case of a seed.
pub fn typed_case(seed: u64, index: usize) -> TypedCase {
    let gen::Case { section, families, selection, work_len, buffer } = gen::case(seed, index);
    let mut rng = Rng::new(seed.rotate_left(32), index as u64);
    let tree = selection::read_shape(&selection).ok();
    let text = any_text(&mut rng, tree.as_ref());
    let lent = rng.pick(&[SELECTION, SELECTION, SELECTION, SELECTION + 1, SELECTION - 1, 200, 5, 0]);
    let selection = (0..lent).map(|_| rng.number()).collect();
    TypedCase { text, section, families, work_len, buffer, selection }
}

fn any_text(rng: &mut Rng, tree: Option<&Tree>) -> Vec<u8> {
    let words = match tree {
        Some(tree) => {
            let part = any_part(rng, tree);
            spelled(rng, part)
        }
        None => chain(rng, 3),
    };
    match rng.below(100) {
        0..=39 => joined(rng, &words),
        40..=62 => near_miss(rng, words),
        63..=72 => with_a_number_at_its_edge(rng, words),
        73..=77 => with_a_long_phrase(rng, words),
        78..=84 => many_codes(rng),
        85..=87 => full(rng, words),
        88..=91 => deep(rng),
        92 => waiting(rng),
        93..=96 => any_tokens(rng),
        _ => any_bytes(rng),
    }
}

/// The whole tree, or a part of it: short texts show more than long ones.
fn any_part<'a>(rng: &mut Rng, tree: &'a Tree) -> &'a Tree {
    let mut part = tree;
    while part.count() > 6 && rng.chance(1, 2) {
        part = &part.below[rng.below(part.below.len())];
    }
    part
}

/// A token as it is typed.
type Word = String;

// Sentences

/// How much a rule binds: "`ftor` over `ftand` over `not in` over `ftnot`", filters over them all; an occurs belongs to its
/// phrase.
fn level(rule: &Rule) -> usize {
    match rule {
        Rule::Filter(_) => 0,
        Rule::Or => 1,
        Rule::And => 2,
        Rule::MildNot => 3,
        Rule::Not => 4,
        Rule::Phrase { .. } | Rule::Occurs(_) => 5,
    }
}

/// A selection typed out, with a parenthesis too many now and then. Reading it gives its codes again.
pub fn spelled(rng: &mut Rng, tree: &Tree) -> Vec<Word> {
    let extra = if rng.chance(1, 2) { 0 } else { rng.pick(&[1, 4]) };
    spelled_at(rng, tree, 0, extra)
}

/// As an operand that binds at least so much. `extra` of 16 operands have parentheses that they don't need.
fn spelled_at(rng: &mut Rng, tree: &Tree, least: usize, extra: usize) -> Vec<Word> {
    let level = level(&tree.rule);
    if level < least || rng.chance(extra, 16) {
        let inside = spelled_at(rng, tree, 0, extra / 2);
        return [vec!["(".into()], inside, vec![")".into()]].concat();
    }
    let words = |text: &str| text.split(' ').map(Word::from).collect::<Vec<Word>>();
    match (&tree.rule, &tree.below[..]) {
        (Rule::Phrase { words, .. }, _) => phrase(words.iter().map(u32::to_string)),
        (Rule::Occurs(occurs), [Tree { rule: Rule::Phrase { words: of_phrase, .. }, .. }]) => {
            // no parenthesis may part it from its phrase
            [phrase(of_phrase.iter().map(u32::to_string)), words(&typed_occurs(rng, occurs))].concat()
        }
        (Rule::Not, [side]) => [words("ftnot"), spelled_at(rng, side, 5, extra)].concat(),
        (Rule::Filter(filter), [side]) => {
            let list = spelled_at(rng, side, 0, extra);
            [list, words(&typed_filter(rng, filter))].concat()
        }
        (rule, [left, right]) => {
            let name = match rule {
                Rule::Or => "ftor",
                Rule::And => "ftand",
                _ => "not in",
            };
            let left = spelled_at(rng, left, level, extra);
            let right = spelled_at(rng, right, level + 1, extra);
            [left, words(name), right].concat()
        }
        (rule, below) => panic!("{rule:?} over {} lists", below.len()),
    }
}

fn phrase(words: impl IntoIterator<Item = Word>) -> Vec<Word> {
    let quote = || std::iter::once(Word::from("\""));
    quote().chain(words).chain(quote()).collect()
}

fn typed_filter(rng: &mut Rng, filter: &Filter) -> String {
    let unit = |unit: &Unit| if *unit == Unit::Sentence { "sentence" } else { "paragraph" };
    match filter {
        Filter::Ordered => "ordered".into(),
        Filter::Window(size) => format!("window {size} words"),
        Filter::Distance(a, b) => typed_distance(rng, *a, *b),
        Filter::Same(of) => format!("same {}", unit(of)),
        Filter::Different(of) => format!("different {}", unit(of)),
        Filter::AtStart => "at start".into(),
        Filter::AtEnd => "at end".into(),
        Filter::EntireContent => "entire content".into(),
    }
}

/// One of the ways in which a distance can be typed.
fn typed_distance(rng: &mut Rng, a: u32, b: u32) -> String {
    let mut ways = ranges(a, b);
    if b == 4_095 {
        ways.push(format!("at least {a}"));
    }
    format!("distance {} words", ways.swap_remove(rng.below(ways.len())))
}

/// One of the ways in which an occurs can be typed: "`at least` is kind 17", and no other range is.
fn typed_occurs(rng: &mut Rng, occurs: &Occurs) -> String {
    let mut ways = match occurs {
        Occurs::FromTo(a, b) => ranges(*a, *b),
        Occurs::AtLeast(a) => vec![format!("at least {a}")],
    };
    format!("occurs {} times", ways.swap_remove(rng.below(ways.len())))
}

/// The ways to type a range that has both its ends.
fn ranges(a: u32, b: u32) -> Vec<String> {
    let mut ways = vec![format!("from {a} to {b}")];
    if a == b {
        ways.push(format!("exactly {a}"));
    }
    if a == 0 {
        ways.push(format!("at most {b}"));
    }
    ways
}

/// Every filter, with any small numbers.
fn any_filter(rng: &mut Rng) -> Vec<Word> {
    any_form(rng, &typed::FILTERS)
}

/// Every occurs, with any small numbers.
fn any_occurs(rng: &mut Rng) -> Vec<Word> {
    any_form(rng, &typed::OCCURS)
}

fn any_form(rng: &mut Rng, forms: &[Form]) -> Vec<Word> {
    let typed = rng.pick(forms).typed;
    typed.split(' ').map(|word| if word == "N" { rng.below(6).to_string() } else { word.into() }).collect()
}

/// So many phrases of one word, between them any operators, without parentheses.
fn chain(rng: &mut Rng, phrases: usize) -> Vec<Word> {
    let mut list = vec![];
    for index in 0..phrases.max(1) {
        if index > 0 {
            let operator = rng.pick(&["ftor", "ftand", "not in"]);
            list.extend(operator.split(' ').map(Word::from));
        }
        if rng.chance(1, 6) {
            list.push("ftnot".into());
        }
        list.extend(phrase([rng.from_to(1, 4).to_string()]));
        if rng.chance(1, 6) {
            list.extend(any_occurs(rng));
        }
    }
    list
}

// Blanks

/// How tokens are parted.
#[derive(Clone, Copy)]
enum Blanks {
    /// Only where two runs of one sort would run together.
    None,
    One,
    Some,
    Many,
}

/// The tokens with any blanks between, before and behind them.
pub fn joined(rng: &mut Rng, words: &[Word]) -> Vec<u8> {
    let blanks = rng.pick(&[Blanks::None, Blanks::One, Blanks::One, Blanks::Some, Blanks::Many]);
    let mut text = vec![b' '; if rng.chance(1, 8) { rng.from_to(1, 5) } else { 0 }];
    for word in words {
        let needed = usize::from(run_together(&text, word.as_bytes()));
        let count = match blanks {
            Blanks::None => needed,
            Blanks::One => usize::from(!text.is_empty()),
            Blanks::Some => needed.max(rng.below(3)),
            Blanks::Many => needed.max(rng.below(9)),
        };
        text.extend(vec![b' '; count]);
        text.extend(word.as_bytes());
    }
    text.extend(vec![b' '; if rng.chance(1, 8) { rng.from_to(1, 5) } else { 0 }]);
    text
}

/// Would these bytes go on the run at the end of a text?
fn run_together(text: &[u8], word: &[u8]) -> bool {
    let sort = |byte: Option<&u8>| byte.and_then(|byte| typed::sort(*byte));
    let (last, first) = (sort(text.last()), sort(word.first()));
    last == first && matches!(first, Some(typed::Sort::Letters | typed::Sort::Digits))
}

// Near misses

/// A token left out, doubled, exchanged with another or replaced; a filter where none may be; an occurs where it may be or may
/// not, or with a filter's last word; an end too soon; or a byte changed.
fn near_miss(rng: &mut Rng, mut words: Vec<Word>) -> Vec<u8> {
    for _ in 0..rng.pick(&[1, 1, 1, 2, 3]) {
        let at = rng.below(words.len());
        match rng.below(15) {
            0 if words.len() > 1 => drop(words.remove(at)),
            1 => words.insert(at, words[at].clone()),
            2 => {
                let other = rng.below(words.len());
                words.swap(at, other);
            }
            3 => words[at] = any_word(rng),
            4 => words.insert(at, any_word(rng)),
            5 => {
                let operators = |at: &usize| ["ftor", "ftand", "not"].contains(&words[*at].as_str());
                let at = (at..words.len()).find(operators).unwrap_or(at);
                let filter = any_filter(rng);
                words.splice(at..at, filter);
            }
            6 => words.truncate((at + 1).max(words.len().saturating_sub(rng.from_to(1, 6)))),
            7 => {
                words.extend(any_filter(rng));
                words.pop();
            }
            8 | 9 => {
                let keyword = |at: &usize| words[*at].starts_with(|byte: char| byte.is_ascii_lowercase());
                if let Some(at) = (at..words.len()).chain(0..at).find(keyword) {
                    misspell(rng, &mut words[at]);
                }
            }
            10 | 11 => {
                let behind = |at: &usize| ["\"", ")", "times", "words"].contains(&words[at - 1].as_str());
                let at = (at + 1..=words.len()).find(behind).unwrap_or(words.len());
                let mut occurs = any_occurs(rng);
                if rng.chance(1, 2) {
                    occurs.remove(rng.below(occurs.len()));
                }
                words.splice(at..at, occurs);
            }
            12 => {
                let exchanged = |word: &Word| match word.as_str() {
                    "words" => Word::from("times"),
                    "times" => Word::from("words"),
                    _ => word.clone(),
                };
                words = words.iter().map(exchanged).collect();
            }
            _ => {
                let mut text = joined(rng, &words);
                change_a_byte(rng, &mut text);
                return text;
            }
        }
    }
    joined(rng, &words)
}

/// A keyword cut short, lengthened, doubled, or with a large letter.
fn misspell(rng: &mut Rng, word: &mut Word) {
    let at = rng.below(word.len());
    match rng.below(5) {
        0 => word.truncate(at.max(1)),
        1 => word.push(rng.pick(&['s', 'x', 'd'])),
        2 => *word = word.repeat(2),
        3 => *word = word.to_uppercase(),
        _ => *word = word[..at].to_string() + &word[at..=at].to_uppercase() + &word[at + 1..],
    }
}

fn change_a_byte(rng: &mut Rng, text: &mut Vec<u8>) {
    let at = rng.below(text.len() + 1);
    let of = |wanted: u8| text.iter().position(|byte| *byte == wanted);
    match rng.below(6) {
        0 => text.insert(at, any_byte(rng)),
        // another blank, another quote
        4 => drop(of(b' ').map(|at| text[at] = rng.pick(b"\t\n\r\x0b\x0c\xa0\0"))),
        5 => drop(of(b'"').map(|at| text[at] = rng.pick(b"'`\x02\xa2"))),
        1 => drop((at < text.len()).then(|| text.remove(at))),
        2 => text.truncate(at),
        _ => {
            if let Some(byte) = text.get_mut(at) {
                *byte = any_byte(rng);
            }
        }
    }
}

/// Mostly bytes that a text may have, and their neighbours.
fn any_byte(rng: &mut Rng) -> u8 {
    let odd = b"\0\t\n\x0b\x0c\r\x1f!'/:;@`{AZN\x7f\x80\xa0\xc3\xff";
    match rng.below(4) {
        0 => rng.below(256) as u8,
        1 => rng.pick(odd),
        _ => rng.pick(b"\"() 0123456789abcdefghijklmnopqrstuvwxyz"),
    }
}

/// Every keyword, sign, and some tokens that the grammar doesn't know.
fn any_word(rng: &mut Rng) -> Word {
    match rng.below(10) {
        0 => number_edge(rng),
        1 => rng
            .pick(&["and", "or", "ftnotin", "ftan", "ftandd", "Ftand", "word", "sentences", "occur", "time", "a"])
            .into(),
        _ => rng.pick(&ALPHABET).into(),
    }
}

// Edges

/// Numbers on both sides of every limit, with zeros before them or without.
fn number_edge(rng: &mut Rng) -> Word {
    let edges: [u64; 16] = [
        0,
        1,
        4_094,
        4_095,
        4_096,
        4_097,
        65_535,
        65_536,
        (1 << 31) - 1,
        1 << 31,
        (1 << 32) - 1,
        1 << 32,
        (1 << 32) + 1,
        (1 << 32) + 4_096,
        u64::MAX,
        42_949_672_960,
    ];
    let mut digits = rng.pick(&edges).to_string();
    match rng.below(12) {
        // 2^64 and a little, 2^96 + 1, 2^128
        0 => {
            digits = rng.pick(&["18446744073709551616", "18446744073709551617", "79228162514264337593543950337"]).into()
        }
        1 => digits = "340282366920938463463374607431768211456".into(),
        2 => digits = (0..rng.from_to(1, 60)).map(|_| char::from(b'0' + rng.below(10) as u8)).collect(),
        _ => {}
    }
    let zeros = if rng.chance(1, 4) { rng.pick(&[1, 2, 10, 30]) } else { 0 };
    "0".repeat(zeros) + &digits
}

fn is_number(word: &str) -> bool {
    word.bytes().all(|byte| byte.is_ascii_digit())
}

fn with_a_number_at_its_edge(rng: &mut Rng, mut words: Vec<Word>) -> Vec<u8> {
    if rng.chance(1, 2) {
        put_an_occurs(rng, &mut words);
    }
    for _ in 0..rng.from_to(0, 2) {
        words.extend(any_filter(rng));
    }
    let places: Vec<usize> = (0..words.len()).filter(|&at| is_number(&words[at])).collect();
    for _ in 0..rng.from_to(1, 2) {
        if !places.is_empty() {
            words[rng.pick(&places)] = number_edge(rng);
        }
    }
    if rng.chance(1, 6) {
        return near_miss(rng, words);
    }
    joined(rng, &words)
}

/// An occurs behind one of the phrases, if one has none.
fn put_an_occurs(rng: &mut Rng, words: &mut Vec<Word>) {
    let quotes = (0..words.len()).filter(|&at| words[at] == "\"");
    let behind = quotes.skip(1).step_by(2).map(|close| close + 1);
    let free: Vec<usize> = behind.filter(|&at| words.get(at).is_none_or(|word| word != "occurs")).collect();
    if !free.is_empty() {
        let at = rng.pick(&free);
        words.splice(at..at, any_occurs(rng));
    }
}

/// A phrase of 0 to 9 words or a few more, before the others or behind them, with an occurs or without.
fn with_a_long_phrase(rng: &mut Rng, words: Vec<Word>) -> Vec<u8> {
    let count = rng.pick(&[0, 1, 7, MOST_WORDS, MOST_WORDS, MOST_WORDS + 1, MOST_WORDS + 1, MOST_WORDS + 2, 17]);
    let mut long = phrase((0..count).map(|_| rng.from_to(1, 4).to_string()).collect::<Vec<Word>>());
    if count > MOST_WORDS && rng.chance(1, 3) {
        long[1 + MOST_WORDS] = number_edge(rng);
    }
    if rng.chance(1, 4) {
        long.extend(any_occurs(rng));
    }
    let and = vec![Word::from("ftand")];
    let words = [vec!["(".into()], words, vec![")".into()]].concat();
    let all = match rng.below(3) {
        0 => long,
        1 => [long, and, words].concat(),
        _ => [words, and, long].concat(),
    };
    joined(rng, &all)
}

/// About 64 codes, and only few lists that wait.
fn many_codes(rng: &mut Rng) -> Vec<u8> {
    let wanted = MOST_CODES + rng.below(11) - 4;
    let mut list = phrase(["1".into()]);
    let mut codes = 2;
    while codes < wanted {
        let words = rng.from_to(1, MOST_WORDS).min((wanted - codes).saturating_sub(2));
        if words == 0 || rng.chance(1, 4) {
            let filter = any_filter(rng);
            list = [vec!["(".into()], list, filter, vec![")".into()]].concat();
            codes += 1;
            continue;
        }
        list.push(rng.pick(&["ftor", "ftand"]).into());
        list.extend(phrase((0..words).map(|_| rng.from_to(1, 4).to_string()).collect::<Vec<Word>>()));
        codes += words + 2;
        if codes < wanted && rng.chance(1, 4) {
            list.extend(any_occurs(rng));
            codes += 1;
        }
    }
    if rng.chance(1, 8) {
        return near_miss(rng, list);
    }
    joined(rng, &list)
}

/// A text of about 2,048 bytes: with blanks somewhere, with zeros before a number, or with very many tokens.
fn full(rng: &mut Rng, words: Vec<Word>) -> Vec<u8> {
    let length = MOST_BYTES - 8 + rng.below(13);
    let mut text = match rng.below(4) {
        0 => {
            let words = chain(rng, 200);
            joined(rng, &words)
        }
        _ => joined(rng, &words),
    };
    text.truncate(length);
    let missing = length - text.len();
    let digits = typed::tokens(&text).into_iter().find(|token| token.sort == typed::Sort::Digits);
    match (rng.below(3), digits.map(|token| token.place - 1)) {
        (0, Some(at)) => drop(text.splice(at..at, vec![b'0'; missing])),
        (1, _) => drop(text.splice(0..0, vec![b' '; missing])),
        _ => text.extend(vec![b' '; missing]),
    }
    text
}

/// What stands in the deepest parenthesis, or can't.
const INSIDES: [&str; 7] = ["\"1\"", "\"1\"", "\"1\"ordered", "\"1\"occurs at least 1 times", "", "\"1", "ftnot"];

/// Parentheses as deep as a text can have them, or nearly; balanced or not.
fn deep(rng: &mut Rng) -> Vec<u8> {
    let depth = rng.pick(&[1, 7, 8, 9, 64, 65, 255, 256, 257, 1_021, 1_022, 1_023, 2_047, 2_048]);
    let nots = rng.chance(1, 4) && depth < 290;
    let open = if nots { "ftnot(" } else { "(" };
    let inside = if depth > 2_000 { "" } else { rng.pick(&INSIDES) };
    let close = match rng.below(8) {
        0 => depth - 1,
        1 => depth + 1,
        2 => 0,
        _ => depth,
    };
    let mut text = open.repeat(depth) + inside;
    text.push_str(&")".repeat(close));
    let mut text = text.into_bytes();
    if depth > 2_000 || rng.chance(1, 4) {
        text.truncate(MOST_BYTES);
    }
    text
}

/// Operands that group to the right, so that six to ten lists wait.
fn waiting(rng: &mut Rng) -> Vec<u8> {
    let lists = rng.from_to(6, 10);
    let mut words = vec![];
    for _ in 1..lists {
        words.extend(phrase([rng.from_to(1, 4).to_string()]));
        words.push(rng.pick(&["ftor", "ftand"]).into());
        words.push("(".into());
    }
    words.extend(phrase(["1".into()]));
    words.extend(vec![")".into(); lists - 1]);
    joined(rng, &words)
}

fn any_tokens(rng: &mut Rng) -> Vec<u8> {
    let words: Vec<Word> = (0..rng.from_to(0, 12)).map(|_| any_word(rng)).collect();
    joined(rng, &words)
}

fn any_bytes(rng: &mut Rng) -> Vec<u8> {
    let length = if rng.chance(1, 20) { rng.from_to(2_000, 2_100) } else { rng.below(40) };
    let mut text: Vec<u8> = (0..length).map(|_| any_byte(rng)).collect();
    if rng.chance(1, 2) {
        text.splice(0..0, *b"\"1\" ");
    }
    text
}

// Every short text

/// One of each token: every keyword, quote and parentheses, a number within every limit, one over 4,096, one over
/// 4,294,967,295, letters that are no keyword, and a byte that is no token of the grammar.
pub const ALPHABET: [&str; 33] = [
    "\"",
    "(",
    ")",
    "1",
    "4097",
    "4294967296",
    "ftor",
    "ftand",
    "ftnot",
    "not",
    "in",
    "ordered",
    "window",
    "words",
    "distance",
    "exactly",
    "at",
    "least",
    "most",
    "from",
    "to",
    "same",
    "different",
    "sentence",
    "paragraph",
    "start",
    "end",
    "entire",
    "content",
    "occurs",
    "times",
    "x",
    ",",
];

/// Every row of at most so many tokens.
pub fn rows(most: usize) -> impl Iterator<Item = Vec<&'static str>> {
    Rows { left: vec![vec![]], most, goes_on: |_| true }
}

/// Every row of at most so many tokens whose tokens but the last begin some selection. The others have their error before
/// their last token, so a shorter row has it, too.
pub fn rows_that_go_on(most: usize) -> impl Iterator<Item = Vec<&'static str>> {
    Rows { left: vec![vec![]], most, goes_on: |row| typed::begins_a_selection(row.join(" ").as_bytes()) }
}

struct Rows {
    left: Vec<Vec<&'static str>>,
    most: usize,
    goes_on: fn(&[&str]) -> bool,
}

impl Iterator for Rows {
    type Item = Vec<&'static str>;

    fn next(&mut self) -> Option<Vec<&'static str>> {
        let row = self.left.pop()?;
        if row.len() < self.most && (self.goes_on)(&row) {
            let longer = ALPHABET.iter().rev().map(|word| [&row[..], &[*word]].concat());
            self.left.extend(longer);
        }
        Some(row)
    }
}

/// The row without any blank that isn't needed.
pub fn without_blanks(row: &[&str]) -> Vec<u8> {
    let mut text = vec![];
    for word in row {
        if run_together(&text, word.as_bytes()) {
            text.push(b' ');
        }
        text.extend(word.as_bytes());
    }
    text
}

#[cfg(test)]
mod tests {
    use super::*;

    /// A selection typed out is read back to its codes, whatever blanks and parentheses it has.
    #[test]
    fn spelled_trees_are_read_back() {
        let mut read = 0;
        for (index, case) in gen::cases(21, 4_000).enumerate() {
            let Ok(tree) = selection::read_shape(&case.selection) else { continue };
            let mut rng = Rng::new(22, index as u64);
            let words = spelled(&mut rng, &tree);
            let text = joined(&mut rng, &words);
            if text.len() <= MOST_BYTES {
                let codes = typed::read(&text).unwrap_or_else(|wrong| panic!("{tree}: {wrong:?}"));
                assert_eq!(typed::numbers(&codes), case.selection, "{tree}");
                read += 1;
            }
        }
        assert!(read > 2_500, "{read}");
    }

    #[test]
    fn typed_cases_can_be_made_again() {
        let first: Vec<TypedCase> = typed_cases(7, 200).collect();
        assert!(first == typed_cases(7, 200).collect::<Vec<_>>());
        assert!(first[199] == typed_case(7, 199));
        assert!(first != typed_cases(8, 200).collect::<Vec<_>>());
    }

    #[test]
    fn all_rows_are_made() {
        assert_eq!(rows(0).count(), 1);
        assert_eq!(rows(2).count(), 1 + 33 + 33 * 33);
        // nothing goes on behind all but a quote, a parenthesis and an ftnot
        assert_eq!(rows_that_go_on(2).count(), 1 + 33 + 3 * 33);
    }
}
