//! Every sentence of the grammar of typed searches up to some length, with its codes, derived by putting shorter ones together.

#![allow(dead_code)]

use second_engine::typed_gen::ALPHABET;

/// A sentence: its tokens, with `W` for a word number and `N` for another number.
pub type Tokens = Vec<&'static str>;

/// The operand of a code, from the numbers that the sentence hasn't used yet.
#[derive(Clone, Copy, Debug, PartialEq, Eq)]
pub enum Operand {
    Plain(u32),
    Number,
    Exactly,
    AtLeast,
    AtMost,
    FromTo,
}

/// A derived sentence, with its codes. A code stands behind its numbers and before those of any later code, so codes take
/// their numbers in order.
#[derive(Clone, Debug, PartialEq, Eq)]
pub struct Derived {
    pub tokens: Tokens,
    pub codes: Vec<(u32, Operand)>,
}

impl Derived {
    fn new(tokens: &str, codes: Vec<(u32, Operand)>) -> Derived {
        let alphabet = ALPHABET.iter().copied().chain(["W", "N"]).collect::<Vec<&'static str>>();
        let same = |word: &str| *alphabet.iter().find(|other| **other == word).expect("a token of the grammar");
        Derived { tokens: tokens.split_whitespace().map(same).collect(), codes }
    }

    fn then(&self, other: &Derived) -> Derived {
        Derived { tokens: [&self.tokens[..], &other.tokens].concat(), codes: [&self.codes[..], &other.codes].concat() }
    }

    /// `ftand` between two operands, or another such: the left one's codes, the right one's, its own.
    fn between(&self, words: &str, kind: u32, right: &Derived) -> Derived {
        let words = Derived::new(words, vec![]);
        let own = Derived::new("", vec![(kind, Operand::Plain(0))]);
        self.then(&words).then(right).then(&own)
    }
}

/// Sentences by their length.
type ByLength = Vec<Vec<Derived>>;

/// What stands in every sentence: filters, phrases, and what may follow a phrase.
struct Forms {
    filters: Vec<Derived>,
    phrases: Vec<Derived>,
    times: Vec<Derived>,
}

/// All that each rule of the grammar derives, up to some length.
#[derive(Default)]
pub struct Grammar {
    filters: ByLength,
    words: ByLength,
    times: ByLength,
    primaries: ByLength,
    unaries: ByLength,
    mild_nots: ByLength,
    ands: ByLength,
    ors: ByLength,
    selections: ByLength,
}

/// "Filters after a whole selection", document 01's ten sorts.
pub fn filters() -> Vec<Derived> {
    let plain = |tokens, kind| Derived::new(tokens, vec![(kind, Operand::Plain(0))]);
    vec![
        plain("ordered", 6),
        Derived::new("window N words", vec![(7, Operand::Number)]),
        Derived::new("distance exactly N words", vec![(8, Operand::Exactly)]),
        Derived::new("distance at least N words", vec![(8, Operand::AtLeast)]),
        Derived::new("distance at most N words", vec![(8, Operand::AtMost)]),
        Derived::new("distance from N to N words", vec![(8, Operand::FromTo)]),
        plain("same sentence", 9),
        plain("same paragraph", 10),
        plain("different sentence", 11),
        plain("different paragraph", 12),
        plain("at start", 13),
        plain("at end", 14),
        plain("entire content", 15),
    ]
}

/// "`occurs` with one of the four ranges and `times` follows a phrase; `at least` is kind 17."
pub fn times() -> Vec<Derived> {
    vec![
        Derived::new("occurs exactly N times", vec![(16, Operand::Exactly)]),
        Derived::new("occurs at least N times", vec![(17, Operand::Number)]),
        Derived::new("occurs at most N times", vec![(16, Operand::AtMost)]),
        Derived::new("occurs from N to N times", vec![(16, Operand::FromTo)]),
    ]
}

/// "A phrase is one to eight word numbers in double quotes."
fn phrases() -> Vec<Derived> {
    let words = |count: usize| "W ".repeat(count);
    let codes = |count: usize| [vec![(0, Operand::Number); count], vec![(1, Operand::Plain(count as u32))]].concat();
    (1..=8).map(|count| Derived::new(&format!("\" {}\"", words(count)), codes(count))).collect()
}

/// Every pair of a left and a right sentence that has so many tokens, `between` among them.
fn pairs<'a>(
    left: &'a ByLength,
    right: &'a ByLength,
    length: usize,
    between: usize,
) -> impl Iterator<Item = (&'a Derived, &'a Derived)> {
    let rest = length.saturating_sub(between);
    (1..rest)
        .flat_map(move |first| left[first].iter().flat_map(move |l| right[rest - first].iter().map(move |r| (l, r))))
}

impl Grammar {
    /// All sentences of up to so many tokens.
    pub fn up_to(most: usize) -> Grammar {
        Grammar::of(&Forms { filters: filters(), phrases: phrases(), times: times() }, most)
    }

    /// Those that have phrases of one word, with an occurs or without, and of all filters only `ordered` and `at end`: longer
    /// ones, in which an occurs stands in every place.
    pub fn about_occurs(most: usize) -> Grammar {
        let some = |list: Vec<Derived>, of: fn(&Derived) -> bool| list.into_iter().filter(of).collect();
        let filters = some(filters(), |filter| [6, 14].contains(&filter.codes[0].0));
        let phrases = some(phrases(), |phrase| phrase.codes.len() == 2);
        Grammar::of(&Forms { filters, phrases, times: times() }, most)
    }

    fn of(forms: &Forms, most: usize) -> Grammar {
        let mut all = Grammar::default();
        for length in 0..=most {
            all.derive(forms, length);
        }
        all
    }

    /// All sentences of just so many tokens, from the shorter ones.
    fn derive(&mut self, forms: &Forms, length: usize) {
        let of_length = |list: &[Derived]| list.iter().filter(|one| one.tokens.len() == length).cloned().collect();
        self.filters.push(of_length(&forms.filters));
        self.words.push(of_length(&forms.phrases));
        self.times.push(of_length(&forms.times));

        // FTPrimary ::= FTWords FTTimes? | "(" FTSelection ")"
        let (open, close) = (Derived::new("(", vec![]), Derived::new(")", vec![]));
        let mut primaries = self.words[length].clone();
        primaries.extend(pairs(&self.words, &self.times, length, 0).map(|(words, times)| words.then(times)));
        if length >= 2 {
            primaries.extend(self.selections[length - 2].iter().map(|inside| open.then(inside).then(&close)));
        }
        self.primaries.push(primaries);

        // FTUnaryNot ::= "ftnot"? FTPrimary
        let mut unaries = self.primaries[length].clone();
        if length >= 1 {
            let ftnot = Derived::new("ftnot", vec![]);
            let own = Derived::new("", vec![(4, Operand::Plain(0))]);
            unaries.extend(self.primaries[length - 1].iter().map(|primary| ftnot.then(primary).then(&own)));
        }
        self.unaries.push(unaries);

        // FTMildNot, FTAnd, FTOr; "left operands group first"
        self.mild_nots.push(vec![]);
        let more: Vec<Derived> =
            pairs(&self.mild_nots, &self.unaries, length, 2).map(|(l, r)| l.between("not in", 5, r)).collect();
        self.mild_nots[length] = [self.unaries[length].clone(), more].concat();
        self.ands.push(vec![]);
        let more: Vec<Derived> =
            pairs(&self.ands, &self.mild_nots, length, 1).map(|(l, r)| l.between("ftand", 3, r)).collect();
        self.ands[length] = [self.mild_nots[length].clone(), more].concat();
        self.ors.push(vec![]);
        let more: Vec<Derived> =
            pairs(&self.ors, &self.ands, length, 1).map(|(l, r)| l.between("ftor", 2, r)).collect();
        self.ors[length] = [self.ands[length].clone(), more].concat();

        // FTSelection ::= FTOr FTPosFilter*
        self.selections.push(vec![]);
        let more: Vec<Derived> = pairs(&self.selections, &self.filters, length, 0).map(|(l, r)| l.then(r)).collect();
        self.selections[length] = [self.ors[length].clone(), more].concat();
    }

    pub fn sentences(&self) -> impl Iterator<Item = &Derived> {
        self.selections.iter().flatten()
    }
}

/// The sentence as a text, each of its numbers another one, and its codes.
pub fn typed_out(sentence: &Derived) -> (String, Vec<(u32, u32)>) {
    let mut given = 10..;
    let mut number = || given.next().expect("there is always one more");
    let numbers: Vec<u32> = sentence.tokens.iter().filter(|token| is_number(token)).map(|_| number()).collect();
    let mut spelled = numbers.iter();
    let mut word = |token: &&'static str| match is_number(token) {
        true => spelled.next().expect("one for each").to_string(),
        false => token.to_string(),
    };
    let text = sentence.tokens.iter().map(&mut word).collect::<Vec<String>>().join(" ");
    let mut unused = numbers.into_iter();
    let mut next = || unused.next().expect("one for each");
    let mut operand = |operand: Operand| match operand {
        Operand::Plain(value) => value,
        Operand::Number => next(),
        Operand::Exactly => next() * 65_537,
        Operand::AtLeast => next() * 65_536 + 4_095,
        Operand::AtMost => next(),
        Operand::FromTo => next() * 65_536 + next(),
    };
    (text, sentence.codes.iter().map(|&(kind, of)| (kind, operand(of))).collect())
}

pub fn is_number(token: &str) -> bool {
    token == "W" || token == "N"
}
