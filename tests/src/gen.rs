//! Seeded random cases.
//!
//! A case depends on its seed and its index alone, so any case can be made again. Sections are small and their
//! vocabularies smaller, so that finds are many. Selections grow code by code while their lists are looked at: a step that
//! empties a list, or takes it over the limits, is mostly tried again, so that most cases end with something in their list.
//! The lists serve only this choice; what is right is said by the comparison.
//!
//! About a quarter of the cases have an occurs. [`occurs_cases`] are all made with one, in every place where it may stand;
//! damage may take it away again. [`filter_cases`] are made for the early way out of a filter that the quick answer's walk
//! reaches, and a few of the cases are such. About a third of the sections whose sentences are reported have headings;
//! [`heading_cases`] are all made with some, and again damage may take them away. About a third of all cases have a small
//! family table over their words; [`family_cases`] are made with one that their phrases are found by.

use crate::engine::RuleBook;
use crate::families::{self, Families, Searched, EMPTY, MOST_ENTRIES};
use crate::rules::{self, AllMatches, Match};
use crate::section::{self, Section, MOST_TOKENS};
use crate::selection::{self, Code, Filter, Occurs, Rule, Unit, MOST_CODES, MOST_WAITING, MOST_WORDS};
use crate::sizes::{self, Size};
use crate::{text, BUFFER, WORK};
use std::slice::from_ref;

/// One call of everything: what is lent to it. The working memory is given by its length, the buffer with its noise.
#[derive(Clone, Debug, PartialEq, Eq)]
pub struct Case {
    pub section: Vec<u32>,
    pub families: Vec<u32>,
    pub selection: Vec<u32>,
    pub work_len: usize,
    pub buffer: Vec<u32>,
}

/// The first cases of a seed.
pub fn cases(seed: u64, count: usize) -> impl Iterator<Item = Case> {
    (0..count).map(move |index| case(seed, index))
}

/// One case of a seed.
pub fn case(seed: u64, index: usize) -> Case {
    let mut rng = Rng::new(seed, index as u64);
    let mut made = match rng.below(100) {
        0..=44 => small(&mut rng),
        45..=57 => long(&mut rng),
        58 | 59 => match rng.below(4) {
            0 => large_operand(&mut rng),
            1 => tiled(&mut rng),
            2 => measured(&mut rng),
            _ => telling(&mut rng),
        },
        60..=71 => near_limits(&mut rng),
        72..=75 => large(&mut rng),
        _ => {
            let mut made = match rng.below(40) {
                0 => large_and_faulty(&mut rng),
                1..=4 => near_limits(&mut rng),
                5..=16 => long(&mut rng),
                _ => small(&mut rng),
            };
            damage(&mut rng, &mut made);
            if rng.chance(1, 4) {
                damage(&mut rng, &mut made);
            }
            made
        }
    };
    lend(&mut rng, &mut made);
    lend_families(&mut rng, &mut made);
    made
}

/// The first cases of a seed that have an occurs.
pub fn occurs_cases(seed: u64, count: usize) -> impl Iterator<Item = Case> {
    (0..count).map(move |index| occurs_case(seed, index))
}

/// One case of a seed that has an occurs: over a phrase of few or of many finds, with little above it; in a longer selection;
/// or damaged.
pub fn occurs_case(seed: u64, index: usize) -> Case {
    let mut rng = Rng::new(seed.rotate_left(16), index as u64);
    let mut made = placed_occurs(&mut rng);
    match rng.below(20) {
        0 | 1 => damage_occurs(&mut rng, &mut made),
        // which of two refusals comes first?
        2 => {
            damage_occurs(&mut rng, &mut made);
            damage_occurs(&mut rng, &mut made);
        }
        3 => damage(&mut rng, &mut made),
        _ => {}
    }
    lend(&mut rng, &mut made);
    lend_families(&mut rng, &mut made);
    made
}

/// The first cases of a seed that are made for the early way out of a filter.
pub fn filter_cases(seed: u64, count: usize) -> impl Iterator<Item = Case> {
    (0..count).map(move |index| filter_case(seed, index))
}

/// One case of a seed with a filter that the walk is to leave early, or at times a damaged one.
pub fn filter_case(seed: u64, index: usize) -> Case {
    let mut rng = Rng::new(seed.rotate_left(32), index as u64);
    let mut made = early_way_out(&mut rng);
    if rng.chance(1, 12) {
        damage(&mut rng, &mut made);
    }
    lend(&mut rng, &mut made);
    lend_families(&mut rng, &mut made);
    made
}

/// The first cases of a seed whose sections have headings.
pub fn heading_cases(seed: u64, count: usize) -> impl Iterator<Item = Case> {
    (0..count).map(move |index| heading_case(seed, index))
}

/// One case of a seed whose section has headings, under filters that ask for sentences; or at times a damaged one, mostly in
/// its sentences or paragraphs.
pub fn heading_case(seed: u64, index: usize) -> Case {
    let mut rng = Rng::new(seed.rotate_left(48), index as u64);
    let mut made = if rng.chance(1, 5) { rows_apart(&mut rng) } else { among_headings(&mut rng) };
    match rng.below(20) {
        0..=4 => damage_units(&mut rng, &mut made.section),
        5 => damage(&mut rng, &mut made),
        _ => {}
    }
    lend(&mut rng, &mut made);
    lend_families(&mut rng, &mut made);
    made
}

/// The first cases of a seed that are made with a family table.
pub fn family_cases(seed: u64, count: usize) -> impl Iterator<Item = Case> {
    (0..count).map(move |index| family_case(seed, index))
}

/// One case of a seed whose phrases are found by a family table, under filters and nots; or at times a damaged one, mostly in
/// its table.
pub fn family_case(seed: u64, index: usize) -> Case {
    let mut rng = Rng::new(seed.rotate_left(56), index as u64);
    let mut made = among_families(&mut rng);
    match rng.below(20) {
        0..=2 => damage_families(&mut rng, &mut made.families),
        // which of two refusals comes first?
        3 => {
            damage_families(&mut rng, &mut made.families);
            damage(&mut rng, &mut made);
        }
        4 => damage(&mut rng, &mut made),
        _ => {}
    }
    lend(&mut rng, &mut made);
    made
}

/// Inputs of the program: cases as bytes, some of them cut, grown or odd.
pub fn inputs(seed: u64, count: usize) -> impl Iterator<Item = Vec<u8>> {
    (0..count).map(move |index| {
        let case = case(seed, index);
        let mut bytes = text::bytes(&case.section, &case.selection);
        let mut rng = Rng::new(!seed, index as u64);
        match rng.below(20) {
            0 => bytes.truncate(rng.below(bytes.len() + 1)),
            1 => bytes.truncate(rng.below(bytes.len() / 4 + 1) * 4),
            2 => bytes.extend(vec![0; 1 + rng.below(9)]),
            3 => bytes.resize(text::MOST_BYTES - 4 + rng.below(9), 0),
            _ => {}
        }
        bytes
    })
}

/// Marsaglia's xorshift, 64 bits, with a multiplication at the end.
pub struct Rng(u64);

impl Rng {
    pub fn new(seed: u64, index: u64) -> Rng {
        // neighbouring seeds and indexes are to begin far from each other, and none at zero
        let mut z = seed ^ index.wrapping_mul(0x9E37_79B9_7F4A_7C15).rotate_left(17);
        z = (z ^ (z >> 30)).wrapping_mul(0xBF58_476D_1CE4_E5B9);
        z = (z ^ (z >> 27)).wrapping_mul(0x94D0_49BB_1331_11EB);
        Rng((z ^ (z >> 31)) | 1)
    }

    fn step(&mut self) -> u64 {
        self.0 ^= self.0 >> 12;
        self.0 ^= self.0 << 25;
        self.0 ^= self.0 >> 27;
        self.0.wrapping_mul(0x2545_F491_4F6C_DD1D)
    }

    pub fn number(&mut self) -> u32 {
        (self.step() >> 32) as u32
    }

    /// From 0 up to below `end`, which isn't 0.
    pub fn below(&mut self, end: usize) -> usize {
        ((u64::from(self.number()) * end as u64) >> 32) as usize
    }

    /// From `least` to `most`, both among them.
    pub fn from_to(&mut self, least: usize, most: usize) -> usize {
        least + self.below(most - least + 1)
    }

    pub fn chance(&mut self, times: usize, out_of: usize) -> bool {
        self.below(out_of) < times
    }

    pub fn pick<T: Copy>(&mut self, from: &[T]) -> T {
        from[self.below(from.len())]
    }

    fn shuffle<T>(&mut self, list: &mut [T]) {
        for last in (1..list.len()).rev() {
            list.swap(last, self.below(last + 1));
        }
    }
}

// Sections

/// One to four words, mostly small numbers, else some that differ only in their higher bits.
fn vocabulary(rng: &mut Rng) -> Vec<u32> {
    let size = rng.from_to(1, 4);
    let mut words =
        if rng.chance(4, 5) { vec![1, 2, 3, 4] } else { vec![0, 1, 1 + (1 << 16), 1 + (1 << 31), u32::MAX, 1 << 16] };
    rng.shuffle(&mut words);
    words.truncate(size);
    words
}

/// n sentence or paragraph numbers: all zero, or nonzero and never falling.
fn units(rng: &mut Rng, n: usize) -> Vec<u32> {
    if rng.chance(1, 6) {
        return vec![0; n];
    }
    let rises = rng.pick(&[0, 1, 2, 4, 5, 8]);
    rising_units(rng, n, rises)
}

/// n sentence or paragraph numbers, nonzero and never falling; they rise at so many of eight tokens.
fn rising_units(rng: &mut Rng, n: usize, rises: usize) -> Vec<u32> {
    let mut unit: u32 = if rng.chance(9, 10) { 1 } else { rng.pick(&[2, 255, 256, 32_768, 65_530, 65_535]) };
    let mut list = vec![];
    for _ in 0..n {
        list.push(unit);
        if rng.chance(rises, 8) {
            let step = if rng.chance(9, 10) { 1 } else { rng.pick(&[2, 256, 4_096]) };
            unit = (unit + step).min(65_535);
        }
    }
    list
}

/// Headings: rows of zeros among sentence numbers, one or several of them, short or long, at either end or anywhere between;
/// or every second token. Behind one the sentence before it goes on, or another begins.
fn put_headings(rng: &mut Rng, sentences: &mut [u32]) {
    let n = sentences.len();
    if n == 0 {
        return;
    }
    if rng.chance(1, 8) {
        sentences.iter_mut().skip(rng.below(2)).step_by(2).for_each(|sentence| *sentence = 0);
        return;
    }
    for _ in 0..rng.pick(&[1, 1, 1, 2, 3, 6]) {
        let length = match rng.below(6) {
            0..=3 => rng.pick(&[1, 1, 2, 3]),
            4 => rng.pick(&[5, 16, 40, 65, 300]),
            _ => n,
        };
        let length = length.min(rng.from_to(1, n));
        let start = match rng.below(6) {
            0 => 0,
            1 => n - length,
            _ => rng.below(n - length + 1),
        };
        sentences[start..start + length].fill(0);
    }
}

/// Does a zero stand among numbered sentences?
fn has_heading(sentences: &[u32]) -> bool {
    sentences.contains(&0) && sentences.iter().any(|sentence| *sentence != 0)
}

fn section_of(rng: &mut Rng, words: Vec<u32>) -> Section {
    let n = words.len();
    let mut section = Section { sentences: units(rng, n), paragraphs: units(rng, n), words };
    if rng.chance(1, 3) {
        put_headings(rng, &mut section.sentences);
    }
    section
}

fn small_section(rng: &mut Rng) -> Section {
    let vocabulary = vocabulary(rng);
    let n = match rng.below(20) {
        0 => 0,
        1 | 2 => 1,
        3..=5 => rng.from_to(2, 3),
        6 => rng.from_to(13, 24),
        _ => rng.from_to(4, 12),
    };
    let words = (0..n).map(|_| rng.pick(&vocabulary)).collect();
    section_of(rng, words)
}

/// A word that phrases seldom ask for.
const FILLER: u32 = 77;

/// Up to 4,096 tokens, with few or with many finds.
fn large_section(rng: &mut Rng) -> Section {
    let vocabulary = vocabulary(rng);
    let n = match rng.below(4) {
        0 => MOST_TOKENS - rng.below(2),
        1 => rng.from_to(240, 300),
        _ => rng.from_to(25, MOST_TOKENS),
    };
    let finds = rng.pick(&[3, 8, 20, 100, n]);
    let words = (0..n).map(|_| if rng.chance(finds.min(n), n) { rng.pick(&vocabulary) } else { FILLER }).collect();
    section_of(rng, words)
}

/// A section in which word 1 stands `counts[0]` times, word 2 `counts[1]` times, and so on.
fn section_with_counts(rng: &mut Rng, counts: &[usize]) -> Section {
    let mut words = vec![];
    for (count, word) in counts.iter().zip(1..) {
        words.extend(vec![word; *count]);
    }
    words.extend(vec![9; rng.below(4)]);
    if rng.chance(1, 2) {
        rng.shuffle(&mut words);
    }
    section_of(rng, words)
}

// Selections

/// A list that waits, as far as it is known; of a phrase also how many matches it has, however many.
struct Waiting {
    has_not: bool,
    list: Option<AllMatches>,
    finds: Option<usize>,
}

/// A selection in the making, over a section.
struct Builder {
    section: Searched,
    codes: Vec<Code>,
    waiting: Vec<Waiting>,
    phrases: u32,
    /// A position at which many phrases start.
    anchor: usize,
    book: RuleBook,
}

impl Builder {
    fn new(section: &Section) -> Builder {
        Builder::over(Searched::alone(section))
    }

    fn over(section: Searched) -> Builder {
        let anchor = section.words.len() / 3;
        Builder { section, codes: vec![], waiting: vec![], phrases: 0, anchor, book: RuleBook::paper() }
    }

    /// Would there be room for the rule and for the codes that must still combine what waits?
    fn fits(&self, rule: &Rule) -> bool {
        let waiting = self.waiting.len();
        if waiting < rule.sides() || waiting - rule.sides() + 1 > MOST_WAITING {
            return false;
        }
        let combines = waiting - rule.sides();
        self.codes.len() + rule.codes().len() + combines <= MOST_CODES
    }

    /// What would wait after the rule.
    fn outcome(&self, rule: &Rule) -> Waiting {
        let sides = &self.waiting[self.waiting.len() - rule.sides()..];
        let below: Option<Vec<&[Match]>> = sides.iter().map(|side| side.list.as_deref()).collect();
        let list = below.and_then(|below| self.book.list_within(sizes::PAPER, &self.section, rule, &below).ok());
        let finds = match rule {
            Rule::Phrase { words, .. } => Some(sizes::phrase(&self.section, words).matches as usize),
            _ => None,
        };
        Waiting { has_not: rule.is_a_not() || sides.iter().any(|side| side.has_not), list, finds }
    }

    fn add(&mut self, rule: &Rule, outcome: Waiting) {
        self.waiting.truncate(self.waiting.len() - rule.sides());
        self.waiting.push(outcome);
        self.codes.extend(rule.codes());
        if let Rule::Phrase { .. } = rule {
            self.phrases += 1;
        }
    }

    /// Adds a rule whatever comes of it, if there is room for it.
    fn force(&mut self, rule: Rule) {
        if self.fits(&rule) {
            let outcome = self.outcome(&rule);
            self.add(&rule, outcome);
        }
    }

    fn phrase(&mut self, words: &[u32]) {
        self.force(Rule::Phrase { words: words.to_vec(), query: self.phrases + 1 });
    }

    fn word(&mut self, word: u32) {
        self.phrase(&[word]);
    }

    /// A mild not may not stand over a not, and an occurs stands directly over a phrase.
    fn allowed(&self, rule: &Rule) -> bool {
        let sides = &self.waiting[self.waiting.len().saturating_sub(rule.sides())..];
        let over_its_sides = match rule {
            Rule::MildNot => !sides.iter().any(|side| side.has_not),
            Rule::Occurs(_) => sides.iter().all(|side| side.finds.is_some()),
            _ => true,
        };
        self.fits(rule) && over_its_sides
    }

    /// Tries random rules until one is good enough.
    fn step(&mut self, rng: &mut Rng, taste: &Taste) {
        for _ in 0..20 {
            let rule = self.random_rule(rng, taste);
            if !self.allowed(&rule) {
                continue;
            }
            let outcome = self.outcome(&rule);
            let good = match &outcome.list {
                None if self.waiting.iter().any(|side| side.list.is_none()) => true,
                None => rng.chance(1, 30),
                Some(list) if list.is_empty() => {
                    let often = rule == Rule::Filter(Filter::EntireContent);
                    rng.chance(if often { 5 } else { 1 }, 8)
                }
                Some(list) => list.len() <= 40 || rng.chance(1, 3),
            };
            if good {
                self.add(&rule, outcome);
                return;
            }
        }
    }

    fn random_rule(&self, rng: &mut Rng, taste: &Taste) -> Rule {
        let roll = rng.below(taste.phrases + taste.combinations + taste.nots + taste.filters + taste.occurs);
        if self.waiting.is_empty() || roll < taste.phrases {
            Rule::Phrase { words: self.random_words(rng), query: self.phrases + 1 }
        } else if roll < taste.phrases + taste.combinations {
            rng.pick(&[&Rule::Or, &Rule::And, &Rule::And, &Rule::MildNot]).clone()
        } else if roll < taste.phrases + taste.combinations + taste.nots {
            Rule::Not
        } else if roll < taste.phrases + taste.combinations + taste.nots + taste.filters {
            Rule::Filter(self.random_filter(rng))
        } else {
            Rule::Occurs(self.random_occurs(rng))
        }
    }

    /// How many finds the list has that waits last, if it is a phrase's.
    fn finds(&self) -> usize {
        self.waiting.last().and_then(|top| top.finds).unwrap_or(0)
    }

    /// Numbers about that of the finds, zeros, and the table's last ones.
    fn random_occurs(&self, rng: &mut Rng) -> Occurs {
        let finds = self.finds();
        let number = |rng: &mut Rng| match rng.below(8) {
            0 | 1 => 0,
            2 => rng.below(finds + 2),
            3 => rng.pick(&[1, 2, 3, 4_094, 4_095]),
            _ => (finds + 1).saturating_sub(rng.below(4)),
        };
        let (one, other) = (number(rng).min(4_095) as u32, number(rng).min(4_095) as u32);
        if rng.chance(1, 2) {
            return Occurs::AtLeast(one);
        }
        Occurs::FromTo(one.min(other), one.max(other))
    }

    /// The lowest number for which the list of the occurs stays within the limits, or the one below it.
    fn tight_occurs(&self, rng: &mut Rng) -> Occurs {
        let finds = self.finds();
        let tight = |rng: &mut Rng, most: u32, size: &dyn Fn(u32) -> Size| {
            let below = |&a: &u32| a.checked_sub(1).filter(|&lower| size(lower).within(sizes::PAPER));
            let least = std::iter::successors(Some(most), below).last().unwrap_or(most);
            least - rng.below(2).min(least as usize) as u32
        };
        if rng.chance(1, 2) {
            return Occurs::AtLeast(tight(rng, finds as u32, &|a| sizes::at_least(finds, a)));
        }
        let b = (finds + 1).saturating_sub(rng.below(3)) as u32;
        Occurs::FromTo(tight(rng, b, &|a| sizes::from_to(finds, a, b)), b)
    }

    /// Mostly one word or a row of the section; where there is a table, with other words of the same families in it.
    fn random_words(&self, rng: &mut Rng) -> Vec<u32> {
        let words = self.words_alone(rng);
        let of_families = |word: u32| other_of_its_family(rng, &self.section.families, word);
        if self.section.families.0.is_empty() {
            words
        } else {
            words.into_iter().map(of_families).collect()
        }
    }

    fn words_alone(&self, rng: &mut Rng) -> Vec<u32> {
        let words = &self.section.words;
        let length = rng.pick(&[1, 1, 1, 1, 1, 1, 2, 2, 3, 8]).min(rng.from_to(1, MOST_WORDS));
        if rng.chance(1, 12) || words.is_empty() {
            let any = [0, 1, 2, 3, 4, 99, 1 + (1 << 16), u32::MAX];
            return (0..length).map(|_| rng.pick(&any)).collect();
        }
        if rng.chance(1, 12) {
            return (0..length).map(|_| rng.pick(words)).collect();
        }
        let mut start = if rng.chance(1, 3) { self.anchor } else { rng.below(words.len()) };
        for _ in 0..20 {
            if words[start] == FILLER {
                start = rng.below(words.len());
            }
        }
        if !self.section.families.0.is_empty() {
            start = self.no_filler_from(start);
        }
        words[start..words.len().min(start + length)].to_vec()
    }

    /// The first token from here on, or else from the start on, that isn't filler.
    fn no_filler_from(&self, start: usize) -> usize {
        let words = &self.section.words;
        (start..words.len()).chain(0..start).find(|at| words[*at] != FILLER).unwrap_or(start)
    }

    fn random_filter(&self, rng: &mut Rng) -> Filter {
        let n = self.section.words.len();
        let top = self.waiting.last().and_then(|top| top.list.as_deref()).unwrap_or(&[]);
        if top.iter().any(|m| m.includes.len() >= 2) && rng.chance(1, 4) {
            // only such a match can pass
            return Filter::Different(rng.pick(&[Unit::Sentence, Unit::Paragraph]));
        }
        let whole = |m: &Match| m.includes.iter().any(|s| s.start == 1 && s.end as usize == n);
        if n > 1 && top.iter().any(whole) && rng.chance(1, 4) {
            return Filter::EntireContent;
        }
        let tight = if top.is_empty() { None } else { Some(&top[rng.below(top.len())]) };
        match rng.below(14) {
            0 | 1 => Filter::Ordered,
            2..=4 => {
                let size = match (rng.below(8), tight.and_then(|m| rules::join(&m.includes))) {
                    // just wide enough for one match
                    (2 | 3, Some(joined)) => (joined.end - joined.start) as usize + rng.from_to(1, 2),
                    (0, _) => rng.pick(&[1, 2, 16, 17, 128, 255, 256, 257, 4_095, 4_096]),
                    (1, _) => rng.from_to(1, 4_096),
                    _ => rng.from_to(1, n.clamp(1, 20) + 2),
                };
                Filter::Window(size.min(4_096) as u32)
            }
            5..=7 => {
                let (a, b) = match (rng.below(8), tight) {
                    // just wide enough for one match
                    (2 | 3, Some(m)) => {
                        let mut sorted = m.includes.clone();
                        sorted.sort();
                        let gaps = sorted.windows(2).map(|pair| rules::span_distance(&pair[0], &pair[1]) as usize);
                        let (least, most) = (gaps.clone().min().unwrap_or(0), gaps.max().unwrap_or(0));
                        (least, most)
                    }
                    (0, _) => rng.pick(&[(0, 0), (0, 4_095), (4_095, 4_095), (1, 4_095), (2, 2), (1, 1)]),
                    (1, _) => {
                        let a = rng.from_to(0, n);
                        (a.min(4_095), rng.from_to(a, a + n).min(4_095))
                    }
                    _ => {
                        let a = rng.from_to(0, 3);
                        (a, a + rng.below(5))
                    }
                };
                Filter::Distance(a as u32, b as u32)
            }
            8 | 9 => Filter::Same(rng.pick(&[Unit::Sentence, Unit::Paragraph])),
            10 | 11 => Filter::Different(rng.pick(&[Unit::Sentence, Unit::Paragraph])),
            12 => rng.pick(&[Filter::AtStart, Filter::AtEnd]),
            _ => rng.pick(&[Filter::AtStart, Filter::AtEnd, Filter::EntireContent, Filter::EntireContent]),
        }
    }

    /// Takes steps until there are about so many codes, then combines all that waits.
    fn grow(&mut self, rng: &mut Rng, taste: &Taste, codes: usize) {
        for _ in 0..codes {
            if self.codes.len() < codes {
                self.step(rng, taste);
            }
        }
        while self.waiting.len() != 1 {
            let combine = Taste { phrases: 0, combinations: 1, nots: 0, filters: 0, occurs: 0 };
            let waiting = self.waiting.len();
            self.step(rng, &combine);
            if self.waiting.len() == waiting {
                self.force(if rng.chance(1, 2) { Rule::Or } else { Rule::And });
            }
        }
    }

    fn selection(&self) -> Vec<u32> {
        selection::numbers(&self.codes)
    }
}

/// How often which sort of code is tried.
struct Taste {
    phrases: usize,
    combinations: usize,
    nots: usize,
    filters: usize,
    occurs: usize,
}

impl Taste {
    fn any(rng: &mut Rng) -> Taste {
        let occurs = if rng.chance(1, 2) { 4 } else { 0 };
        match rng.below(5) {
            // many waiting lists
            0 => Taste { phrases: 6, combinations: 3, nots: 1, filters: 2, occurs },
            // nots and filters in turn
            1 => Taste { phrases: 2, combinations: 3, nots: 3, filters: 5, occurs },
            // no nots, so that mild nots can stand anywhere
            2 => Taste { phrases: 4, combinations: 5, nots: 0, filters: 4, occurs },
            _ => Taste { phrases: 3, combinations: 3, nots: 2, filters: 3, occurs },
        }
    }
}

fn case_of(section: &Section, selection: Vec<u32>) -> Case {
    let families = EMPTY.to_vec();
    Case { section: section.numbers(), families, selection, work_len: WORK, buffer: vec![0; BUFFER] }
}

/// A small section, a short selection.
fn small(rng: &mut Rng) -> Case {
    let section = small_section(rng);
    let taste = Taste::any(rng);
    let mut builder = Builder::new(&section);
    let codes = rng.from_to(1, 14);
    builder.grow(rng, &taste, codes);
    case_of(&section, builder.selection())
}

/// A small section, a selection of up to 64 codes, often with eight waiting lists.
fn long(rng: &mut Rng) -> Case {
    let section = small_section(rng);
    let taste = Taste::any(rng);
    let mut builder = Builder::new(&section);
    if rng.chance(1, 3) {
        for _ in 0..MOST_WAITING {
            let words = builder.random_words(rng);
            builder.phrase(&words);
        }
    }
    let codes = rng.pick(&[20, 30, 40, 64, 64]);
    builder.grow(rng, &taste, codes);
    case_of(&section, builder.selection())
}

/// A large section, a short selection.
fn large(rng: &mut Rng) -> Case {
    let section = large_section(rng);
    let taste = Taste::any(rng);
    let mut builder = Builder::new(&section);
    let codes = rng.from_to(1, 12);
    builder.grow(rng, &taste, codes);
    case_of(&section, builder.selection())
}

/// A large section that is refused, mostly far from its start.
fn large_and_faulty(rng: &mut Rng) -> Case {
    let mut made = large(rng);
    damage_units(rng, &mut made.section);
    made
}

/// A few numbers whose product is near the target, from below or from above.
fn factors(rng: &mut Rng, how_many: usize, target: usize) -> Vec<usize> {
    let mut left = target + 3 - rng.below(7).min(target);
    let mut list = vec![];
    for _ in 1..how_many {
        let dividing: Vec<usize> = (1..=left).filter(|factor| left.is_multiple_of(*factor)).collect();
        let factor = rng.pick(&dividing);
        list.push(factor);
        left /= factor;
    }
    list.push(left);
    list
}

/// Lists with about 256 matches or 512 strings, made by each rule that can make them; with something above them or not.
fn near_limits(rng: &mut Rng) -> Case {
    let template = rng.below(10);
    let (counts, script) = template_of(rng, template);
    let section = section_with_counts(rng, &counts);
    let mut builder = Builder::new(&section);
    script(&mut builder, counts.len());
    if template == 9 {
        let occurs = builder.tight_occurs(rng);
        builder.force(Rule::Occurs(occurs));
    }
    if rng.chance(1, 4) || template == 8 {
        tight_window(rng, &mut builder);
    }
    if rng.chance(1, 2) {
        let taste = Taste::any(rng);
        let codes = builder.codes.len() + rng.from_to(1, 6);
        builder.grow(rng, &taste, codes);
    }
    case_of(&section, builder.selection())
}

type Script = fn(&mut Builder, usize);

/// The counts of words 1, 2, 3 and so on, and how the selection over them begins.
fn template_of(rng: &mut Rng, template: usize) -> (Vec<usize>, Script) {
    let several = rng.from_to(2, 4);
    match template {
        // a long phrase list
        0 => (vec![rng.pick(&[255, 256, 257, 300])], |builder, _| builder.word(1)),
        // words joined by and: the product of the counts, as many strings each
        1 => {
            let target = 512 / several;
            (factors(rng, several, target), |builder, words| {
                builder.word(1);
                for word in 2..=words {
                    builder.word(word as u32);
                    builder.force(Rule::And);
                }
            })
        }
        // words joined by or: the sum of the counts
        2 => {
            let first = rng.from_to(1, 250);
            (vec![first, 256 - first + rng.below(4) - 1], |builder, _| {
                builder.word(1);
                builder.word(2);
                builder.force(Rule::Or);
            })
        }
        // an and beside a word: strings and matches in no fixed proportion
        3 => {
            let product = factors(rng, 2, 130);
            let rest = 256 - (product[0] * product[1]).min(250);
            (vec![product[0], product[1], rest + rng.below(4) - 2], |builder, _| {
                builder.word(3);
                builder.word(1);
                builder.word(2);
                builder.force(Rule::And);
                builder.force(Rule::Or);
            })
        }
        // the not of an or of nots: the product of the counts again
        4 => {
            let target = 512 / several;
            (factors(rng, several, target), |builder, words| {
                builder.word(1);
                builder.force(Rule::Not);
                for word in 2..=words {
                    builder.word(word as u32);
                    builder.force(Rule::Not);
                    builder.force(Rule::Or);
                }
                builder.force(Rule::Not);
            })
        }
        // the not of an and beside a word: 2 to the product, and 512 strings exactly where the rest is right
        5 => {
            let pairs = rng.from_to(1, 6);
            let rest = (512 >> pairs) - pairs;
            (vec![1, pairs, (rest + rng.below(3)).saturating_sub(1)], |builder, _| {
                builder.word(1);
                builder.word(2);
                builder.force(Rule::And);
                builder.word(3);
                builder.force(Rule::Or);
                builder.force(Rule::Not);
            })
        }
        // an astronomical not, with or without a match that has no strings, behind the others or ahead
        6 => {
            let stringless = rng.below(2);
            let counts = vec![rng.from_to(2, 16), rng.from_to(2, 15), stringless];
            let behind: Script = |builder, _| {
                builder.word(1);
                builder.word(2);
                builder.force(Rule::And);
                builder.word(3);
                builder.force(Rule::Not);
                builder.force(Rule::Or);
                builder.force(Rule::Not);
            };
            let ahead: Script = |builder, _| {
                builder.word(3);
                builder.force(Rule::Not);
                builder.word(1);
                builder.word(2);
                builder.force(Rule::And);
                builder.force(Rule::Or);
                builder.force(Rule::Not);
            };
            (counts, if rng.chance(1, 2) { behind } else { ahead })
        }
        // one match of about 512 strings, from nots
        7 => {
            let first = rng.pick(&[200, 255, 256, 257]);
            let rest = 512 - first.min(256) + rng.below(3) - 1;
            (vec![first, rest / 2, rest - rest / 2], |builder, _| {
                for word in 1..=3 {
                    builder.word(word);
                    builder.force(Rule::Not);
                }
                builder.force(Rule::And);
                builder.force(Rule::And);
            })
        }
        // a phrase under an occurs, whose number is then found
        9 => (vec![any_finds(rng), rng.below(3)], |builder, _| builder.word(1)),
        // something under a window, whose size is then found
        _ => (vec![rng.from_to(1, 4), rng.from_to(0, 3), rng.from_to(0, 3)], |builder, _| {
            builder.word(1);
            builder.word(2);
            builder.force(Rule::Not);
            builder.force(Rule::And);
            builder.word(3);
            builder.force(Rule::Or);
        }),
    }
}

/// The largest window that stays within the limits, or one beside it.
fn tight_window(rng: &mut Rng, builder: &mut Builder) {
    let Some(Waiting { list: Some(list), .. }) = builder.waiting.last() else { return };
    let size = |window| -> Size { sizes::window(list, window) };
    let (mut inside, mut outside) = (1, 4_096);
    if !size(inside).within(sizes::PAPER) || size(outside).within(sizes::PAPER) {
        return;
    }
    while outside - inside > 1 {
        let middle = (inside + outside) / 2;
        if size(middle).within(sizes::PAPER) {
            inside = middle;
        } else {
            outside = middle;
        }
    }
    let window = if rng.chance(1, 2) { inside } else { outside };
    builder.force(Rule::Filter(Filter::Window(window)));
}

// Occurs

/// Finds on both sides of every edge: of at least 0 the lists of 7 are within the limits, of 8 not; of all or all but one those
/// of 22, not of 23; and a phrase's own list is up to 256.
fn any_finds(rng: &mut Rng) -> usize {
    match rng.below(20) {
        0..=10 => rng.pick(&[0, 1, 2, 3]),
        11..=15 => rng.from_to(4, 8),
        16..=18 => rng.pick(&[21, 22, 23, 9]),
        _ => rng.pick(&[255, 256, 257]),
    }
}

/// An occurs over a phrase of so many finds: alone, or with one or two codes above it, or in a longer selection; on the right
/// of what stands before it, or on the left of what follows.
fn placed_occurs(rng: &mut Rng) -> Case {
    let counts = [any_finds(rng), rng.below(4), rng.below(3)];
    let section = section_with_counts(rng, &counts);
    let mut builder = Builder::new(&section);
    let on_the_right = rng.chance(1, 3);
    if on_the_right {
        builder.operand(rng);
    }
    builder.some_occurs(rng);
    for _ in 0..rng.pick(&[0, 1, 1, 1, 2]) {
        builder.put_above(rng);
    }
    if on_the_right {
        builder.combine(rng);
        if rng.chance(1, 3) {
            builder.put_above(rng);
        }
    }
    if rng.chance(1, 5) {
        let taste = Taste { occurs: 4, ..Taste::any(rng) };
        let codes = builder.codes.len() + rng.from_to(1, 12);
        builder.grow(rng, &taste, codes);
    }
    case_of(&section, builder.selection())
}

impl Builder {
    /// A phrase of word 1, mostly of it alone, and an occurs over it.
    fn some_occurs(&mut self, rng: &mut Rng) {
        match rng.below(8) {
            0 => self.phrase(&[1, 1]),
            1 => {
                let words = self.random_words(rng);
                self.phrase(&words);
            }
            _ => self.word(1),
        }
        let mut rule = Rule::Occurs(self.tight_occurs(rng));
        for _ in 0..rng.below(4) {
            // mostly until its list is within the limits
            rule = Rule::Occurs(self.random_occurs(rng));
            if self.outcome(&rule).list.is_some() {
                break;
            }
        }
        self.force(rule);
    }

    /// Another operand: a word, a phrase, the not of a word, or one more occurs.
    fn operand(&mut self, rng: &mut Rng) {
        match rng.below(8) {
            0..=3 => self.word(2),
            4 => self.word(1),
            5 => {
                let words = self.random_words(rng);
                self.phrase(&words);
            }
            6 => {
                self.word(2);
                self.force(Rule::Not);
            }
            _ => {
                self.word(2);
                let occurs = self.random_occurs(rng);
                self.force(Rule::Occurs(occurs));
            }
        }
    }

    /// A not, a filter, or an or, an and or a mild not with another operand.
    fn put_above(&mut self, rng: &mut Rng) {
        match rng.below(10) {
            0 => self.force(Rule::Not),
            1..=5 => {
                let filter = self.random_filter(rng);
                self.force(Rule::Filter(filter));
            }
            _ => {
                self.operand(rng);
                self.combine(rng);
            }
        }
    }

    /// An or, an and or a mild not of the last two lists; a mild not over a not is rare.
    fn combine(&mut self, rng: &mut Rng) {
        let rule = rng.pick(&[&Rule::Or, &Rule::And, &Rule::MildNot]).clone();
        if self.allowed(&rule) || rng.chance(1, 8) {
            self.force(rule);
        } else {
            self.force(if rng.chance(1, 2) { Rule::Or } else { Rule::And });
        }
    }
}

// The early way out of a filter

/// A filter that the walk reaches: over an operand at its limits, between many excludes, or with few matches that give a yes;
/// or, beside these, what stays measured.
fn early_way_out(rng: &mut Rng) -> Case {
    match rng.below(22) {
        0..=3 => large_operand(rng),
        4..=11 => hemmed_in(rng),
        12..=15 => tiled(rng),
        16 | 17 => measured(rng),
        _ => telling(rng),
    }
}

impl Builder {
    /// At times a left side, which waits for what follows, and the rule that is to combine the two: mostly such that the walk
    /// goes on to the right.
    fn left_side(&mut self, rng: &mut Rng) -> Option<Rule> {
        if rng.chance(3, 4) {
            return None;
        }
        let found = rng.chance(1, 2);
        self.word(if found { 1 } else { 99 });
        Some(if found == rng.chance(7, 8) { Rule::And } else { Rule::Or })
    }

    /// What leads the walk to the list that waits last: nots, ors and ands. Now and then a filter or a mild not, under which
    /// all is built.
    fn lead_to(&mut self, rng: &mut Rng, left_side: Option<Rule>) {
        for _ in 0..rng.pick(&[0, 0, 0, 1, 1, 2]) {
            match rng.below(12) {
                0..=4 => self.force(Rule::Not),
                5..=9 => {
                    self.word(rng.pick(&[1, 99]));
                    self.force(if rng.chance(1, 2) { Rule::Or } else { Rule::And });
                }
                10 => {
                    let filter = self.random_filter(rng);
                    self.force(Rule::Filter(filter));
                }
                _ => {
                    self.word(2);
                    self.combine(rng);
                }
            }
        }
        if let Some(rule) = left_side {
            self.force(rule);
        }
        if rng.chance(1, 12) {
            let taste = Taste::any(rng);
            let codes = self.codes.len() + rng.from_to(1, 8);
            self.grow(rng, &taste, codes);
        }
        // what had no room may have left several lists
        while self.waiting.len() > 1 {
            self.force(Rule::Or);
        }
    }
}

/// An operand with about 256 matches or 512 strings, or over them, and mostly a window over it whose list is larger.
fn large_operand(rng: &mut Rng) -> Case {
    let template = rng.below(10);
    let (counts, script) = template_of(rng, template);
    let section = section_with_counts(rng, &counts);
    let mut builder = Builder::new(&section);
    let left_side = builder.left_side(rng);
    script(&mut builder, counts.len());
    if template == 9 {
        let occurs = builder.tight_occurs(rng);
        builder.force(Rule::Occurs(occurs));
    }
    let filter = match rng.below(8) {
        0 => builder.random_filter(rng),
        1 | 2 => rng.pick(&[Filter::Window(1), Filter::AtStart, Filter::AtEnd, Filter::EntireContent]),
        3 | 4 => Filter::Window(rng.pick(&[2, 3, 10, 256, 257, 300, 512, 513, 4_095, 4_096])),
        _ => Filter::Window(rng.from_to(2, 600) as u32),
    };
    if rng.chance(1, 8) {
        tight_window(rng, &mut builder);
    }
    builder.force(Rule::Filter(filter));
    builder.lead_to(rng, left_side);
    case_of(&section, builder.selection())
}

/// What has no early way out: an occurs, a mild not with a large side, a window in a part that is built.
fn measured(rng: &mut Rng) -> Case {
    let counts = match rng.below(4) {
        0 => [rng.from_to(255, 258), 2, 2],
        1 => [15, rng.from_to(16, 19), 1],
        _ => [any_finds(rng), rng.from_to(1, 3), 1],
    };
    let section = section_with_counts(rng, &counts);
    let mut builder = Builder::new(&section);
    let left_side = builder.left_side(rng);
    let window = Rule::Filter(Filter::Window(rng.from_to(120, 260) as u32));
    match rng.below(4) {
        0 => {
            builder.word(1);
            let occurs = builder.tight_occurs(rng);
            builder.force(Rule::Occurs(occurs));
        }
        1 => {
            let right = rng.chance(1, 2);
            builder.word(if right { 3 } else { 1 });
            builder.word(if right { 1 } else { 2 });
            if rng.chance(1, 2) {
                builder.word(2);
                builder.force(Rule::And);
            }
            builder.force(Rule::MildNot);
        }
        2 => {
            builder.word(2);
            builder.force(window);
            builder.word(1);
            builder.force(Rule::MildNot);
        }
        _ => {
            builder.word(1);
            builder.word(2);
            builder.force(window);
            builder.force(if rng.chance(1, 2) { Rule::MildNot } else { Rule::And });
            let filter = builder.random_filter(rng);
            builder.force(Rule::Filter(filter));
        }
    }
    builder.lead_to(rng, left_side);
    case_of(&section, builder.selection())
}

/// The words of a section in the making: filler, but for those that are put in.
struct Layout {
    words: Vec<u32>,
}

impl Layout {
    fn of_fillers(n: usize) -> Layout {
        Layout { words: vec![FILLER; n] }
    }

    /// Puts a word at a position, where there is one and only filler stands.
    fn put(&mut self, word: u32, position: i64) {
        let word_there = usize::try_from(position - 1).ok().and_then(|at| self.words.get_mut(at));
        if let Some(word_there) = word_there.filter(|there| **there == FILLER) {
            *word_there = word;
        }
    }
}

/// The first word of those that are excluded, and the words of wide excludes.
const EXCLUDED: u32 = 10;
const OPENING: u32 = 2;
const CLOSING: u32 = 3;

/// Finds of word 1 in a gap between excludes, under a window about as wide as the gap: of its windows few are free, one or
/// none, at the first place, at the last or in between.
fn hemmed_in(rng: &mut Rng) -> Case {
    let size = match rng.below(12) {
        0 => MOST_TOKENS,
        1 => rng.from_to(2_000, MOST_TOKENS),
        2 | 3 => rng.from_to(2, 40),
        _ => rng.from_to(240, 600),
    };
    let wanted = match rng.below(5) {
        0 => rng.from_to(1, 6),
        1 => rng.from_to(7, 60),
        2 | 3 => rng.from_to(101, 256),
        _ => rng.pick(&[257, 400, 500, 510, 511, 512]),
    };
    let mut gap = Gap::any(rng, size, wanted);
    let words = gap.put_excludes(rng, wanted);
    let wide = rng.chance(1, 3);
    if wide {
        gap.put_wide_excludes(rng);
    }

    let section = section_of(rng, gap.layout.words);
    let mut builder = Builder::new(&section);
    let left_side = builder.left_side(rng);
    builder.word(1);
    if wide && rng.chance(1, 2) {
        builder.wide_excludes(Filter::Distance(0, 4_095));
    }
    builder.one_word_excludes(rng, words);
    if wide {
        builder.wide_excludes(Filter::Distance(0, 4_095));
    }
    builder.force(Rule::Filter(Filter::Window(size as u32)));
    builder.lead_to(rng, left_side);
    case_of(&section, builder.selection())
}

/// A section in the making, with so many tokens left of a gap, in it and right of it; the finds of word 1 stand in a row in
/// the gap.
struct Gap {
    left: usize,
    inside: usize,
    right: usize,
    before: usize,
    finds: usize,
    layout: Layout,
}

impl Gap {
    /// For a window of this size and so many excludes.
    fn any(rng: &mut Rng, size: usize, excludes: usize) -> Gap {
        let fitting = (size + rng.pick(&[0, 0, 0, 1, 1, 2, 4])).saturating_sub(1).max(1);
        let side = (excludes + 9).min(MOST_TOKENS - 1);
        let (inside, left, right) = match rng.below(6) {
            0 => (fitting.min(MOST_TOKENS - side), side, 0),
            1 => (fitting.min(MOST_TOKENS - side), 0, side),
            // a large window then has no gap that it fits in
            _ => {
                let inside = fitting.min(MOST_TOKENS - excludes - 1);
                let left = rng.from_to(1, MOST_TOKENS - inside - 1).min(side);
                (inside, left, rng.from_to(1, MOST_TOKENS - inside - left).min(side))
            }
        };
        // mostly one find, at an end of the gap or anywhere in it
        let most = if excludes < 170 { 512 / (excludes + 1) } else { 1 };
        let finds = rng.pick(&[1, 1, 1, 2, most]).min(most).min(inside);
        let before = match rng.below(4) {
            0 | 1 if left > 0 => 0,
            0..=2 => inside - finds,
            _ => rng.from_to(0, inside - finds),
        };
        let mut layout = Layout::of_fillers(left + inside + right);
        (1..=finds).for_each(|find| layout.put(1, (left + before + find) as i64));
        Gap { left, inside, right, before, finds, layout }
    }

    /// The excludes next to the gap, and others beyond them; of one word or of several, that rise, fall or are mixed. Answers
    /// how many words.
    fn put_excludes(&mut self, rng: &mut Rng, excludes: usize) -> usize {
        let n = self.left + self.inside + self.right;
        let mut others: Vec<usize> = (1..self.left).chain(n - self.right + 2..=n).collect();
        if rng.chance(2, 3) {
            rng.shuffle(&mut others);
        }
        let nearest = [self.left, n - self.right + 1].into_iter().filter(|place| (1..=n).contains(place));
        let mut places: Vec<usize> = nearest.chain(others).take(excludes).collect();
        places.sort();
        let words = rng.pick(&[1, 2, 2, 3, 5, 16]).max(places.len().div_ceil(250));
        let each = places.len().div_ceil(words);
        let order = rng.below(3);
        for (rank, place) in places.iter().enumerate() {
            let word = match order {
                0 => rank / each,
                1 => words - 1 - rank / each,
                _ => rng.below(words),
            };
            self.layout.put(EXCLUDED + word as u32, *place as i64);
        }
        words
    }

    /// An opening word before the finds, and closing ones behind them.
    fn put_wide_excludes(&mut self, rng: &mut Rng) {
        let before_finds = self.left + self.before;
        self.layout.put(OPENING, before_finds as i64 - rng.below(3) as i64);
        for _ in 0..rng.pick(&[1, 3, 40]) {
            self.layout.put(CLOSING, (before_finds + self.finds + 1 + rng.below(self.inside)) as i64);
        }
    }
}

impl Builder {
    /// And not the excluded words, in nots over one or several of them, each within the limits.
    fn one_word_excludes(&mut self, rng: &mut Rng, words: usize) {
        let count = |word: u32| self.section.words.iter().filter(|other| **other == word).count();
        let counts: Vec<usize> = (0..words).map(|word| count(EXCLUDED + word as u32)).collect();
        let apart = rng.chance(1, 4) && words <= 5;
        let doubled = rng.chance(1, 6);
        let mut in_this_not = 0;
        for (word, count) in counts.into_iter().enumerate() {
            let number = EXCLUDED + word as u32;
            if in_this_not > 0 && (apart || in_this_not + count > 256) {
                self.force(Rule::Not);
                self.force(Rule::And);
                in_this_not = 0;
            }
            // where the words stand in a row, two of them are an exclude of two words
            self.phrase(&[number; 2][..if doubled { 2 } else { 1 }]);
            if in_this_not > 0 {
                self.force(Rule::Or);
            }
            in_this_not += count.max(1);
        }
        self.force(Rule::Not);
        self.force(Rule::And);
    }

    /// And not the joins of an opening and a closing word.
    fn wide_excludes(&mut self, joining: Filter) {
        self.word(OPENING);
        self.word(CLOSING);
        self.force(Rule::And);
        self.force(Rule::Filter(joining));
        self.force(Rule::Not);
        self.force(Rule::And);
    }
}

/// Wide excludes, each of which takes a row of windows out: side by side they leave one window, some or none.
fn tiled(rng: &mut Rng) -> Case {
    let size = match rng.below(4) {
        0 => rng.from_to(20, 256),
        1 => rng.from_to(257, 1_500),
        _ => rng.from_to(257, 500),
    } as i64;
    let row = size / rng.from_to(2, 11) as i64;
    let find = size + row + rng.below(9) as i64;
    let mut layout = Layout::of_fillers((find + size + rng.below(40) as i64) as usize);
    layout.put(1, find);
    // the windows are those from here on up to the find; which one is to be free?
    let first_window = find - size + 1;
    let (mut from, mut left_free, end) = match rng.below(6) {
        0 => (first_window + 1, None, find),
        1 => (first_window - (row - (size - 1) % row), None, find - 1),
        2 | 3 => (first_window - 1, None, find),
        _ => (first_window - rng.from_to(1, row as usize) as i64, Some(rng.from_to(1, 5)), find),
    };
    while from <= end {
        layout.put(OPENING, from + row - 1);
        layout.put(CLOSING, from + size - 1);
        from += row;
        left_free = match left_free {
            Some(0) => {
                from += rng.pick(&[1, 1, 1, 2, 5]);
                None
            }
            Some(rows) => Some(rows - 1),
            None => None,
        };
    }
    let others = if rng.chance(1, 4) { rng.from_to(1, 3) } else { 0 };
    for _ in 0..others * rng.pick(&[1, 40]) {
        layout.put(EXCLUDED, rng.from_to(1, first_window as usize) as i64);
    }

    let section = section_of(rng, layout.words);
    let mut builder = Builder::new(&section);
    let left_side = builder.left_side(rng);
    builder.word(1);
    let width = (size - row + 1) as u32;
    builder.wide_excludes(match rng.below(6) {
        0 => Filter::Window(width),
        _ => Filter::Distance(width - 2, width - 2),
    });
    if others > 0 {
        builder.one_word_excludes(rng, 1);
    }
    let size = (size as usize).saturating_sub(rng.pick(&[0, 0, 0, 0, 1])).max(1);
    builder.force(Rule::Filter(Filter::Window(size as u32)));
    builder.lead_to(rng, left_side);
    case_of(&section, builder.selection())
}

/// Several matches, and a filter of any sort to which the first alone, the last alone, one in between alone or none gives a
/// yes; after some tries any other.
fn telling(rng: &mut Rng) -> Case {
    let (sort, place) = (rng.below(10), rng.below(4));
    for tries in 1.. {
        let section = telling_section(rng);
        let mut builder = Builder::new(&section);
        let left_side = builder.left_side(rng);
        builder.some_parts(rng);
        let filter = builder.filter_of_sort(rng, sort);
        if builder.tells(&filter, place) || tries == 80 {
            builder.force(Rule::Filter(filter));
            builder.lead_to(rng, left_side);
            return case_of(&section, builder.selection());
        }
    }
    unreachable!("the last try is taken")
}

/// Up to eight tokens, so that one phrase can be all of them; all units are reported, but for headings.
fn telling_section(rng: &mut Rng) -> Section {
    let vocabulary = vocabulary(rng);
    let n = rng.from_to(2, 8);
    let words = (0..n).map(|_| rng.pick(&vocabulary)).collect();
    let units = |rng: &mut Rng| {
        let rises = rng.pick(&[1, 2, 3]);
        let mut unit = 0;
        let mut next = |_| {
            unit += u32::from(unit == 0 || rng.chance(rises, 4));
            unit
        };
        (0..n).map(&mut next).collect()
    };
    let mut section = Section { words, sentences: units(rng), paragraphs: units(rng) };
    if rng.chance(1, 4) {
        put_headings(rng, &mut section.sentences);
    }
    section
}

impl Builder {
    /// An or of two to four parts: phrases or the whole section, alone or two together, with an exclude or without.
    fn some_parts(&mut self, rng: &mut Rng) {
        for part in 0..rng.from_to(2, 4) {
            self.part_of_phrases(rng);
            if part > 0 {
                self.force(Rule::Or);
            }
        }
    }

    fn part_of_phrases(&mut self, rng: &mut Rng) {
        let whole = rng.chance(1, 3) && self.section.words.len() <= MOST_WORDS;
        let words = if whole { self.section.words.clone() } else { self.random_words(rng) };
        self.phrase(&words);
        if rng.chance(1, 2) {
            let words = self.random_words(rng);
            self.phrase(&words);
            self.force(Rule::And);
        }
        if rng.chance(2, 3) {
            let words = self.random_words(rng);
            self.phrase(&words);
            self.force(Rule::Not);
            self.force(Rule::And);
        }
    }

    fn filter_of_sort(&self, rng: &mut Rng, sort: usize) -> Filter {
        match sort {
            0 => Filter::Ordered,
            1 => Filter::Window(rng.from_to(1, 12) as u32),
            2 => {
                let a = rng.from_to(0, 3) as u32;
                Filter::Distance(a, a + rng.below(4) as u32)
            }
            3 | 4 => Filter::Same([Unit::Sentence, Unit::Paragraph][sort - 3]),
            5 | 6 => Filter::Different([Unit::Sentence, Unit::Paragraph][sort - 5]),
            7 => Filter::AtStart,
            8 => Filter::AtEnd,
            _ => Filter::EntireContent,
        }
    }

    /// Of the list that waits last, does the match at just this place give a yes: the first, the last, one in between, none?
    fn tells(&self, filter: &Filter, place: usize) -> bool {
        let Some(Waiting { list: Some(list), .. }) = self.waiting.last() else { return false };
        let rule = Rule::Filter(*filter);
        let gives_a_yes = |m: &Match| {
            let given = self.book.list_within(sizes::GUARD, &self.section, &rule, &[from_ref(m)]);
            given.is_ok_and(|given| rules::is_yes(&given))
        };
        let yeses: Vec<usize> = (0..list.len()).filter(|&at| gives_a_yes(&list[at])).collect();
        match (place, &yeses[..]) {
            (0, [0]) | (3, []) => list.len() > 1,
            (1, [at]) => at + 1 == list.len(),
            (2, [at]) => (1..list.len() - 1).contains(at),
            _ => false,
        }
    }
}

// Headings

/// Two tokens or more, some of them in headings and some in sentences.
fn section_with_headings(rng: &mut Rng) -> Section {
    let mut section = match rng.below(12) {
        0 => large_section(rng),
        1 => {
            let counts = [rng.from_to(1, 9), rng.from_to(1, 9), rng.from_to(40, 140)];
            section_with_counts(rng, &counts)
        }
        _ => {
            let vocabulary = vocabulary(rng);
            let n = rng.from_to(2, 10);
            let words = (0..n).map(|_| rng.pick(&vocabulary)).collect();
            section_of(rng, words)
        }
    };
    while !has_heading(&section.sentences) {
        // mostly of one token or two
        let rises = rng.pick(&[1, 4, 5, 8]);
        section.sentences = rising_units(rng, section.words.len(), rises);
        put_headings(rng, &mut section.sentences);
    }
    section
}

/// Up to three filters above each other, mostly about sentences, over words and nots of words; at times with a not between
/// them, or with another word that is to be found or is not.
fn among_headings(rng: &mut Rng) -> Case {
    let section = section_with_headings(rng);
    let mut builder = Builder::new(&section);
    let left_side = builder.left_side(rng);
    match rng.below(5) {
        0 => builder.some_parts(rng),
        1 => builder.nots_alone(rng),
        _ => builder.part_of_phrases(rng),
    }
    for level in 0..rng.pick(&[1, 1, 1, 2, 2, 3]) {
        if level > 0 {
            builder.between_filters(rng);
        }
        // ordered, window, distance; same sentence, same paragraph; different sentence, different paragraph; content
        let sort = rng.pick(&[0, 1, 2, 3, 3, 3, 3, 3, 4, 5, 5, 5, 6, 7, 8, 9]);
        let filter = builder.filter_of_sort(rng, sort);
        builder.force(Rule::Filter(filter));
    }
    builder.lead_to(rng, left_side);
    case_of(&section, builder.selection())
}

/// Two or three rows of tokens, and not one or two others, mostly in different sentences. Headings are between the rows, at
/// their ends, and inside them.
fn rows_apart(rng: &mut Rng) -> Case {
    let mut sentences = vec![];
    let mut rows = vec![];
    while !has_heading(&sentences) || rows.len() < 4 {
        let start = sentences.len();
        sentences.extend(row_of_tokens(rng, sentences.iter().copied().max().unwrap_or(0)));
        rows.push(start..sentences.len());
        if rng.chance(1, 4) {
            sentences.push(0);
        }
    }
    rng.shuffle(&mut rows);
    // each word once, so that each row is found once
    let words: Vec<u32> = (1..=sentences.len() as u32).collect();
    let section = Section { paragraphs: units(rng, words.len()), sentences, words };
    let mut builder = Builder::new(&section);
    let includes = rng.from_to(2, 3);
    for (index, row) in rows.into_iter().enumerate().take(4) {
        builder.phrase(&section.words[row]);
        if index >= includes {
            builder.force(Rule::Not);
        }
        if index > 0 {
            builder.force(Rule::And);
        }
    }
    let sort = rng.pick(&[3, 5, 5, 5]);
    let filter = builder.filter_of_sort(rng, sort);
    builder.force(Rule::Filter(filter));
    builder.lead_to(rng, None);
    case_of(&section, builder.selection())
}

/// One to four tokens in the next sentence, or still in the last one; at times with a token of a heading among them.
fn row_of_tokens(rng: &mut Rng, last: u32) -> Vec<u32> {
    let sentence = (last + u32::from(rng.chance(7, 8))).max(1);
    let mut row = vec![sentence; rng.from_to(1, 4)];
    if rng.chance(1, 2) {
        let at = rng.below(row.len());
        row[at] = 0;
    }
    row
}

impl Builder {
    /// The not of one to three phrases joined by or: one match without includes.
    fn nots_alone(&mut self, rng: &mut Rng) {
        for phrase in 0..rng.from_to(1, 3) {
            let words = self.random_words(rng);
            self.phrase(&words);
            if phrase > 0 {
                self.force(Rule::Or);
            }
        }
        self.force(Rule::Not);
    }

    fn between_filters(&mut self, rng: &mut Rng) {
        let words = self.random_words(rng);
        match rng.below(8) {
            0 | 1 => self.force(Rule::Not),
            2 => {
                self.phrase(&words);
                self.force(Rule::And);
            }
            3..=5 => {
                self.phrase(&words);
                self.force(Rule::Not);
                self.force(Rule::And);
            }
            6 => {
                self.phrase(&words);
                self.force(Rule::Or);
            }
            _ => {}
        }
    }
}

// Families

/// Up to three filters above each other or none, over phrases and nots of phrases that a table's families are found by.
fn among_families(rng: &mut Rng) -> Case {
    let searched = searched_by_families(rng);
    let mut builder = Builder::over(searched);
    match rng.below(8) {
        0 => builder.some_parts(rng),
        1 => builder.nots_alone(rng),
        2 => builder.one_phrase(rng),
        3 => {
            builder.one_phrase(rng);
            builder.occurs_or_mild_not(rng);
        }
        4 | 5 => builder.two_and_not_a_third(rng),
        _ => builder.part_of_phrases(rng),
    }
    for level in 0..rng.pick(&[0, 1, 1, 1, 2, 2]) {
        if level > 0 {
            builder.between_filters(rng);
        }
        let sort = rng.pick(&[0, 1, 2, 3, 4, 5, 5, 6, 6, 7, 8, 9]);
        let filter = if rng.chance(1, 3) { builder.random_filter(rng) } else { builder.filter_of_sort(rng, sort) };
        builder.force(Rule::Filter(filter));
    }
    builder.lead_to(rng, None);
    let families = builder.section.families.numbers();
    Case { families, ..case_of(&builder.section, builder.selection()) }
}

/// A section and a table: few words of few families; a family of many words, of which the section has few; or as large a
/// table as there may be, or nearly.
fn searched_by_families(rng: &mut Rng) -> Searched {
    let (families, vocabulary) = match rng.below(16) {
        0 | 1 => large_table(rng),
        2..=5 => family_of_many(rng),
        _ => small_families(rng),
    };
    let n = match rng.below(60) {
        0 => MOST_TOKENS - rng.below(2),
        1 => rng.from_to(64, MOST_TOKENS),
        2..=6 => rng.pick(&[15, 16, 17, 31, 32, 33, 40]),
        _ => rng.from_to(1, 12),
    };
    // in a long section few tokens are of the vocabulary
    let often = if n > 40 { rng.pick(&[3, 8, 20]) } else { n };
    let words = (0..n).map(|_| if rng.chance(often, n) { rng.pick(&vocabulary) } else { FILLER }).collect();
    Searched { section: section_of(rng, words), families }
}

/// Some words as a table, each with a family.
fn table(words: impl IntoIterator<Item = u32>, mut family: impl FnMut(usize) -> u32) -> Families {
    let mut words: Vec<u32> = words.into_iter().collect();
    words.sort();
    words.dedup();
    Families(words.into_iter().enumerate().map(|(at, word)| (word, family(at))).collect())
}

/// Family numbers: small ones, the first and the last, or such as are words, too.
fn family_numbers(rng: &mut Rng, words: &[u32]) -> Vec<u32> {
    match rng.below(4) {
        0 => vec![0, u32::MAX, 1 << 31],
        1 => vec![rng.pick(words), rng.pick(words), rng.pick(words)],
        _ => vec![1, 2, 3],
    }
}

/// Two to six words, most of them in the table, in one family or several; and a few words that the section doesn't have.
fn small_families(rng: &mut Rng) -> (Families, Vec<u32>) {
    let mut pool = match rng.below(4) {
        0 => vec![0, 1, 2, 1 << 16, (1 << 31) - 1, 1 << 31, u32::MAX - 1, u32::MAX],
        _ => (0..9).collect(),
    };
    rng.shuffle(&mut pool);
    let vocabulary = pool[..rng.from_to(2, 6)].to_vec();
    let numbers = family_numbers(rng, &pool);
    let several = rng.from_to(1, numbers.len());
    let mut words: Vec<u32> = vocabulary.iter().copied().filter(|_| rng.chance(3, 4)).collect();
    words.extend(pool[6..].iter().filter(|_| rng.chance(1, 2)));
    (table(words, |_| numbers[rng.below(several)]), vocabulary)
}

/// A family of up to 40 words and one or two others, mostly as large, in a row or mixed; the section has two or three of the
/// first family, mostly such as stand at an edge of 16.
fn family_of_many(rng: &mut Rng) -> (Families, Vec<u32>) {
    let members = rng.pick(&[2, 3, 15, 16, 17, 18, 31, 32, 33, 40]);
    let others = rng.pick(&[0, 1, 1, 2]);
    let size = members * (1 + others);
    let (first, step) = (rng.pick(&[0, 1, 100]), rng.pick(&[1, 1, 2, 1 << 16]));
    let words: Vec<u32> = (0..size as u32).map(|at| first + at * step).collect();
    let numbers = family_numbers(rng, &words);
    let mixed = rng.chance(1, 2);
    let family = |at: usize| if mixed { at % (1 + others) } else { at / members };
    let families = table(words.clone(), |at| numbers[family(at)]);
    let of_first: Vec<u32> = (0..size).filter(|&at| family(at) == 0).map(|at| words[at]).collect();
    let mut vocabulary = vec![rng.pick(&words), first + size as u32 * step, FILLER];
    for _ in 0..rng.from_to(1, 3) {
        vocabulary.push(of_first[edge_of(rng, members)]);
    }
    (families, vocabulary)
}

/// Any index below a length: often the first, the last, or one at an edge of 16.
fn edge_of(rng: &mut Rng, length: usize) -> usize {
    let any = rng.below(length);
    match rng.below(6) {
        0 => 0,
        1 => length - 1,
        2 | 3 => (any - any % 16 + rng.pick(&[0, 15, 16])).min(length - 1),
        _ => any,
    }
}

/// 2,048 entries, or about as many: each a family of its own, all in one, or families of as many members, in rows or mixed.
fn large_table(rng: &mut Rng) -> (Families, Vec<u32>) {
    let size = MOST_ENTRIES - rng.pick(&[0, 0, 1, 1, 2, 900]);
    let (first, step) = rng.pick(&[(0, 1), (1, 2), (1_000, 3), (u32::MAX - 2_047, 1), (0, 2_098_176)]);
    let words: Vec<u32> = (0..size as u32).map(|at| first + at * step).collect();
    let members = rng.pick(&[1, 2, 3, 16, 17, 40, 100, 1_024, size]);
    let families = size.div_ceil(members);
    let mixed = rng.chance(1, 2);
    let number = rng.pick(&[0, 1, 1 << 31, u32::MAX - 2_047]);
    let family = |at: usize| number + if mixed { at % families } else { at / members } as u32;
    let mut vocabulary = vec![FILLER, FILLER, words[0].saturating_sub(1), words[size - 1].saturating_add(1)];
    for _ in 0..rng.from_to(1, 3) {
        vocabulary.push(words[edge_of(rng, size)]);
    }
    (table(words, family), vocabulary)
}

/// Mostly another word of the same family, where there is one; at times the word itself, one of any family, or one beside it.
fn other_of_its_family(rng: &mut Rng, families: &Families, word: u32) -> u32 {
    match rng.below(12) {
        0 => *families.0.keys().nth(rng.below(families.0.len())).expect("an entry"),
        1 => rng.pick(&[word.saturating_sub(1), word.saturating_add(1)]),
        2..=4 => word,
        _ => any_of_its_family(rng, families, word),
    }
}

/// Any word of the same family, or the word itself where it is in none.
fn any_of_its_family(rng: &mut Rng, families: &Families, word: u32) -> u32 {
    let family = families.of(word);
    let same: Vec<u32> = families.0.iter().filter(|(_, of)| family == Some(**of)).map(|(word, _)| *word).collect();
    match same.len() {
        0 => word,
        length => same[edge_of(rng, length)],
    }
}

impl Builder {
    /// One phrase of one to eight words: a row of the section, its words by others of their families; at times by any.
    fn one_phrase(&mut self, rng: &mut Rng) {
        let tokens = &self.section.words;
        let start = self.no_filler_from(rng.below(tokens.len()));
        let length = rng.pick(&[1, 2, 3, 4, 5, 6, 7, MOST_WORDS, MOST_WORDS]);
        let row = tokens[start..tokens.len().min(start + length)].to_vec();
        let families = &self.section.families;
        let odd = !families.0.is_empty() && rng.chance(1, 3);
        let other = if odd { other_of_its_family } else { any_of_its_family };
        let words: Vec<u32> = row.into_iter().map(|word| other(rng, families, word)).collect();
        self.phrase(&words);
    }

    /// Two phrases in one match, and not a third.
    fn two_and_not_a_third(&mut self, rng: &mut Rng) {
        for phrase in 0..3 {
            let words = self.random_words(rng);
            self.phrase(&words);
            if phrase == 2 {
                self.force(Rule::Not);
            }
            if phrase > 0 {
                self.force(Rule::And);
            }
        }
    }

    /// An occurs over the phrase that waits, or a mild not of it and another, in either order.
    fn occurs_or_mild_not(&mut self, rng: &mut Rng) {
        if rng.chance(1, 2) {
            let occurs = self.random_occurs(rng);
            self.force(Rule::Occurs(occurs));
        } else {
            self.one_phrase(rng);
            self.force(Rule::MildNot);
        }
    }
}

// Damage

/// Breaks one thing. (Now and then nothing is broken by it: the comparison doesn't mind.)
fn damage(rng: &mut Rng, case: &mut Case) {
    match rng.below(13) {
        0 => damage_section_size(rng, &mut case.section),
        1 | 2 => damage_units(rng, &mut case.section),
        3 => damage_selection_size(rng, &mut case.selection),
        4 | 5 => damage_code(rng, &mut case.selection, wrong_kind),
        6 | 7 => damage_code(rng, &mut case.selection, wrong_operand),
        8 | 9 => damage_shape(rng, &mut case.selection),
        10 => damage_mild_not(rng, case),
        11 => damage_occurs(rng, case),
        _ => {
            case.work_len = rng.pick(&[WORK - 1, 0, 1, WORK / 2]);
            if rng.chance(1, 2) {
                case.buffer.truncate(rng.pick(&[BUFFER - 1, 0, 1, 2]));
            }
        }
    }
}

/// Refusal 13: a wrong size or length, an entry out of order, or two.
fn damage_families(rng: &mut Rng, numbers: &mut Vec<u32>) {
    match rng.below(6) {
        0 => damage_size(rng, numbers),
        // 2,048 to 2,050 entries, with their length
        1 if rng.chance(1, 4) => {
            let size = MOST_ENTRIES as u32 + rng.below(3) as u32;
            *numbers = [size].into_iter().chain(0..size).chain((0..size).map(|at| at / 2)).collect();
        }
        _ => {
            for _ in 0..rng.pick(&[1, 1, 1, 2, 3]) {
                put_out_of_order(rng, numbers);
            }
        }
    }
}

/// An entry whose word is that of the one before it, below it or exchanged with it.
fn put_out_of_order(rng: &mut Rng, numbers: &mut [u32]) {
    let Ok((words, _)) = families::read_sized(numbers) else { return };
    if words.len() < 2 {
        return;
    }
    let at = 2 + edge_of(rng, words.len() - 1);
    match rng.below(4) {
        0 | 1 => numbers[at] = numbers[at - 1],
        2 => numbers.swap(at, at - 1),
        _ => numbers[at] = rng.pick(&[0, numbers[at - 1].saturating_sub(1)]),
    }
}

/// Refusals 1, 3 and 13 are about a size and a length alike: all are wrong in the same ways.
fn damage_size(rng: &mut Rng, numbers: &mut Vec<u32>) {
    let size = numbers.first().copied().unwrap_or(0);
    match rng.below(8) {
        0 => numbers.clear(),
        1 => drop(numbers.pop()),
        2 => numbers.push(0),
        3 => numbers.extend([0, 0]),
        4 => numbers.truncate(numbers.len().saturating_sub(2)),
        _ => {
            let sizes =
                [0, size.wrapping_sub(1), size.wrapping_add(1), u32::MAX, size ^ (1 << 31), size ^ (1 << 30), 1 << 31];
            if let Some(first) = numbers.first_mut() {
                *first = rng.pick(&sizes);
            }
        }
    }
}

fn damage_section_size(rng: &mut Rng, section: &mut Vec<u32>) {
    if rng.chance(1, 8) {
        // n = 4,097 or more, with its length
        let n = MOST_TOKENS + rng.from_to(0, 2);
        let words = vec![1; n];
        *section = Section { sentences: vec![0; n], paragraphs: vec![0; n], words }.numbers();
    } else {
        damage_size(rng, section);
    }
}

fn damage_selection_size(rng: &mut Rng, selection: &mut Vec<u32>) {
    if rng.chance(1, 6) {
        // m = 64, 65 or 66, with its length
        let mut codes = codes_of(selection);
        codes.resize(MOST_CODES + rng.below(3), Code { kind: rng.pick(&[4, 6, 9]), operand: 0 });
        *selection = selection::numbers(&codes);
    } else {
        damage_size(rng, selection);
    }
}

/// Refusal 2: a sentence number that falls, also after zeros; a paragraph number that falls, or that is zero where others
/// aren't; or any other number in place of one, which needn't break anything.
fn damage_units(rng: &mut Rng, section: &mut Vec<u32>) {
    let Ok(mut sized) = section::read_sized(section) else { return };
    if sized.n() == 0 {
        return;
    }
    for _ in 0..rng.pick(&[1, 1, 1, 2, 3]) {
        let index = any_index(rng, &sized.sentences);
        match rng.below(5) {
            0 | 1 => let_a_sentence_fall(rng, &mut sized.sentences, index),
            2 | 3 => change_unit(rng, &mut sized.paragraphs[index]),
            _ => change_unit(rng, &mut sized.sentences[index]),
        }
    }
    *section = sized.numbers();
}

/// The index of any token, of one of the last, of one at an edge of a block of 16, or of one in a heading.
fn any_index(rng: &mut Rng, sentences: &[u32]) -> usize {
    let n = sentences.len();
    let any = rng.below(n);
    match rng.below(6) {
        0 => n - 1 - rng.below(n.min(4)),
        1 => (any - any % 16 + rng.below(3)).saturating_sub(1).min(n - 1),
        2 => (any..n).find(|index| sentences[*index] == 0).unwrap_or(any),
        _ => any,
    }
}

/// A nonzero sentence below the last nonzero one before it: right after that, or after some zeros.
fn let_a_sentence_fall(rng: &mut Rng, sentences: &mut [u32], index: usize) {
    let zeros = match rng.below(8) {
        0..=2 => 0,
        3 => 1,
        4 => 2,
        5 | 6 => rng.pick(&[3, 17, 40, 65, 130]),
        _ => rng.below(index + 1),
    };
    let Some(before) = index.checked_sub(1).map(|before| before.saturating_sub(zeros)) else { return };
    sentences[before + 1..index].fill(0);
    let last = sentences[..=before].iter().copied().rfind(|sentence| *sentence != 0).unwrap_or(0);
    if last > 1 && rng.chance(1, 2) {
        sentences[index] = rng.pick(&[1, last - 1, last - last / 2]);
    } else {
        sentences[index] = sentences[index].clamp(1, 65_534);
        sentences[before] = sentences[index] + 1;
    }
}

fn change_unit(rng: &mut Rng, unit: &mut u32) {
    *unit = match rng.below(4) {
        0 | 1 => 0,
        2 => unit.saturating_sub(1),
        _ => rng.pick(&[1, 2, 3, *unit + 1, 65_535]).min(65_535),
    };
}

/// The codes of a selection whose length is right, else none.
fn codes_of(selection: &[u32]) -> Vec<Code> {
    let Some(&m) = selection.first() else { return vec![] };
    let m = m as usize;
    if selection.len() != 1 + 2 * m {
        return vec![];
    }
    (1..=m).map(|at| Code { kind: selection[at], operand: selection[at + m] }).collect()
}

fn damage_code(rng: &mut Rng, selection: &mut Vec<u32>, wrong: fn(&mut Rng, &mut Code)) {
    let mut codes = codes_of(selection);
    if codes.is_empty() {
        return;
    }
    for _ in 0..rng.pick(&[1, 1, 1, 2]) {
        let mut at = rng.below(codes.len());
        for _ in 0..3 {
            // the kinds that have numbers of their own are the more interesting ones
            if ![1, 7, 8, 16, 17].contains(&codes[at].kind) {
                at = rng.below(codes.len());
            }
        }
        wrong(rng, &mut codes[at]);
    }
    *selection = selection::numbers(&codes);
}

/// Refusal 4, or one that a kind in a wrong place brings.
fn wrong_kind(rng: &mut Rng, code: &mut Code) {
    let kind = code.kind;
    code.kind =
        rng.pick(&[18, 19, 22, 255, 256, kind | 256, kind | 1 << 16, kind | 1 << 31, u32::MAX, kind.wrapping_add(18)]);
    if rng.chance(1, 4) {
        code.kind = rng.below(19) as u32;
    }
}

/// Refusal 5, or one that another operand brings.
fn wrong_operand(rng: &mut Rng, code: &mut Code) {
    let operand = code.operand;
    code.operand = match code.kind {
        1 => rng.pick(&[0, 8, 9, operand.wrapping_add(1), u32::MAX, operand | 1 << 16]),
        7 => rng.pick(&[0, 1, 4_096, 4_097, 65_536, u32::MAX, operand | 1 << 31]),
        17 => rng.pick(&[0, 4_095, 4_096, 4_097, 65_535, 65_536, u32::MAX, operand | 1 << 31]),
        8 | 16 => {
            let (a, b) = (operand >> 16, operand & 0xFFFF);
            let (a, b) = rng.pick(&[
                (b + 1, b),
                (a, 4_095),
                (a, 4_096),
                (4_095, 4_095),
                (4_096, 4_096),
                (0xFFFF, 0xFFFF),
                (1, 0),
            ]);
            a << 16 | b
        }
        _ => rng.pick(&[1, 2, u32::MAX, 1 << 16, 1 << 31]),
    };
}

/// Refusal 6.
fn damage_shape(rng: &mut Rng, selection: &mut Vec<u32>) {
    let mut codes = codes_of(selection);
    if codes.is_empty() {
        return;
    }
    let at = rng.below(codes.len());
    match rng.below(9) {
        0 => drop(codes.remove(at)),
        1 => codes.insert(at, codes[at]),
        2 => {
            let other = rng.below(codes.len());
            codes.swap(at, other);
        }
        3 => codes.insert(at, Code { kind: rng.pick(&[2, 3, 4, 5, 6, 9, 13, 16, 17]), operand: 0 }),
        // loose words at the end
        4 => codes.push(Code { kind: 0, operand: 1 }),
        // several lists at the end
        5 => codes.extend([Code { kind: 0, operand: 1 }, Code { kind: 1, operand: 1 }]),
        // eight or nine loose words
        6 => {
            let row = vec![Code { kind: 0, operand: 1 }; rng.from_to(7, 9)];
            codes.splice(at..at, row);
        }
        // eight, nine or ten waiting lists
        7 => {
            let lists = rng.from_to(8, 10);
            codes.clear();
            for _ in 0..lists {
                codes.extend([Code { kind: 0, operand: 1 }, Code { kind: 1, operand: 1 }]);
            }
            codes.extend(vec![Code { kind: 2, operand: 0 }; lists - rng.from_to(0, 2)]);
        }
        _ => codes[at] = Code { kind: rng.below(18) as u32, operand: 0 },
    }
    codes.truncate(MOST_CODES);
    *selection = selection::numbers(&codes);
}

/// Refusal 7: nots, occurs and mild nots anywhere.
fn damage_mild_not(rng: &mut Rng, case: &mut Case) {
    let Ok(section) = section::read(&case.section) else { return };
    let mut builder = Builder::new(&section);
    for _ in 0..rng.from_to(2, 24) {
        let rule = match rng.below(9) {
            0..=2 => Rule::Phrase { words: builder.random_words(rng), query: builder.phrases + 1 },
            3 => Rule::Not,
            4 | 5 => Rule::MildNot,
            6 => rng.pick(&[&Rule::Or, &Rule::And]).clone(),
            7 => Rule::Occurs(builder.random_occurs(rng)),
            _ => Rule::Filter(builder.random_filter(rng)),
        };
        if rule == Rule::MildNot || builder.allowed(&rule) {
            builder.force(rule);
        }
    }
    while builder.waiting.len() > 1 {
        builder.force(if rng.chance(1, 2) { Rule::MildNot } else { Rule::Or });
    }
    case.selection = builder.selection();
}

/// Refusal 12, 4, 5, 6 or 7, by an occurs: over something else than a phrase, of a wrong number, or under a mild not.
fn damage_occurs(rng: &mut Rng, case: &mut Case) {
    let mut codes = codes_of(&case.selection);
    if codes.is_empty() {
        return;
    }
    let occurs = |rng: &mut Rng| match rng.chance(1, 2) {
        true => Code { kind: 17, operand: rng.below(4) as u32 },
        false => Code { kind: 16, operand: rng.below(3) as u32 * 65_537 + rng.below(2) as u32 },
    };
    let kinds: Vec<u32> = codes.iter().map(|code| code.kind).collect();
    let behind = |wanted: fn(&u32) -> bool| (1..=kinds.len()).filter(move |at| wanted(&kinds[at - 1]));
    match rng.below(8) {
        // behind any code that isn't a word or a phrase, twice at times
        0..=3 => {
            let places: Vec<usize> = behind(|kind| *kind > 1).collect();
            for _ in 0..rng.pick(&[1, 1, 2]) {
                if !places.is_empty() {
                    codes.insert(rng.pick(&places), occurs(rng));
                }
            }
        }
        // behind a phrase, which may have one already
        4 => {
            let places: Vec<usize> = behind(|kind| *kind == 1).collect();
            if !places.is_empty() {
                codes.insert(rng.pick(&places), occurs(rng));
            }
        }
        // the numbers and kinds of an occurs
        5 | 6 => {
            let wrong = if rng.chance(1, 3) { wrong_kind } else { wrong_operand };
            codes.iter_mut().filter(|code| code.kind >= 16).for_each(|code| wrong(rng, code));
        }
        // under a mild not
        _ => codes.extend([(0, 1), (1, 1), (5, 0)].map(|(kind, operand)| Code { kind, operand })),
    }
    codes.truncate(MOST_CODES);
    case.selection = selection::numbers(&codes);
}

// What is lent

/// A table for a case that was made without one: mostly the empty one, else a few words that the case uses, in one family or
/// several; now and then a damaged one.
fn lend_families(rng: &mut Rng, case: &mut Case) {
    let roll = rng.below(36);
    if roll > 12 {
        return;
    }
    let mut words: Vec<u32> = section::read_sized(&case.section).map_or(vec![], |section| section.words);
    words.extend(codes_of(&case.selection).iter().filter(|code| code.kind == 0).map(|code| code.operand));
    words.sort();
    words.dedup();
    words.retain(|word| *word != FILLER && rng.chance(3, 4));
    words.extend([rng.below(9) as u32, rng.pick(&[0, 5, FILLER, 1 << 16, u32::MAX])]);
    let numbers = family_numbers(rng, &words);
    let several = rng.from_to(1, numbers.len());
    case.families = table(words, |_| numbers[rng.below(several)]).numbers();
    if roll > 11 {
        damage_families(rng, &mut case.families);
    }
}

/// Lengths of both memories, mostly right, and the noise in the buffer.
fn lend(rng: &mut Rng, case: &mut Case) {
    if case.work_len == WORK && rng.chance(1, 20) {
        case.work_len = rng.pick(&[WORK - 1, WORK + 1, WORK + 1_000, 0]);
    }
    if case.buffer.len() == BUFFER && rng.chance(1, 8) {
        let length = rng.pick(&[BUFFER - 1, BUFFER + 1, BUFFER + 1, BUFFER + 500, 0]);
        case.buffer.resize(length, 0);
    }
    for number in &mut case.buffer {
        *number = rng.number();
    }
}
