//! The codes of an accepted search: where each stands in the mechanic's text, and what its phrases are.

use crate::search::Search;
use std::ops::Range;

/// A code's kind and operand, and the part of the text that it stands for.
#[derive(Clone, Debug, PartialEq, Eq)]
pub struct Code {
    pub kind: u32,
    pub operand: u32,
    pub place: Range<usize>,
}

/// Kinds, as `docs/REFERENCE.md` numbers them.
impl Code {
    const PHRASE: u32 = 1;
    const OR: u32 = 2;
    const AND: u32 = 3;
    const NOT: u32 = 4;
    const MILD_NOT: u32 = 5;
    pub const WINDOW: u32 = 7;
    /// From a to b times: a × 65,536 + b.
    pub const OCCURS: u32 = 16;
    pub const OCCURS_AT_LEAST: u32 = 17;
}

/// A phrase of a search; the first is the engine's query position 1.
#[derive(Clone, Debug, PartialEq, Eq)]
pub struct Phrase {
    /// As it stands in the text, with its quotes and its occurs.
    pub place: Range<usize>,
    /// The selection of this phrase alone.
    pub selection: Vec<u32>,
    /// Does it stand under an odd number of nots, so that what it finds is to be excluded?
    pub is_excluded: bool,
    pub occurs: Option<Occurs>,
}

impl Phrase {
    /// The most finds that its occurs allows. Where there are more, they exclude too.
    pub fn most(&self) -> Option<usize> {
        self.occurs.as_ref().and_then(|occurs| occurs.most)
    }
}

/// The occurs of a phrase.
#[derive(Clone, Debug, PartialEq, Eq)]
pub struct Occurs {
    /// Its code, counted from 1.
    pub code: usize,
    /// The larger of its numbers; `at least` has none.
    pub most: Option<usize>,
}

/// The codes of a selection that the reader made of a search.
pub fn codes(search: &Search, selection: &[u32]) -> Vec<Code> {
    let (kinds, operands) = selection[1..].split_at(selection[0] as usize);
    let places = places(search);
    assert_eq!(places.len(), kinds.len(), "each code stands somewhere in the text");
    let code = |((&kind, &operand), place)| Code { kind, operand, place };
    kinds.iter().zip(operands).zip(places).map(code).collect()
}

pub fn phrases(codes: &[Code]) -> Vec<Phrase> {
    let mut phrases: Vec<Phrase> = Vec::new();
    // the first phrase below each list that waits
    let mut lists: Vec<usize> = Vec::new();
    for (index, code) in codes.iter().enumerate() {
        match code.kind {
            Code::PHRASE => {
                lists.push(phrases.len());
                phrases.push(phrase(&codes[index - code.operand as usize..=index]));
            }
            Code::OCCURS | Code::OCCURS_AT_LEAST => {
                let most = (code.kind == Code::OCCURS).then_some((code.operand & 0xFFFF) as usize);
                let phrase = phrases.last_mut().expect("an occurs follows its phrase");
                phrase.place.end = code.place.end;
                phrase.occurs = Some(Occurs { code: index + 1, most });
            }
            Code::OR | Code::AND | Code::MILD_NOT => _ = lists.pop(),
            Code::NOT => {
                for phrase in &mut phrases[lists[lists.len() - 1]..] {
                    phrase.is_excluded = !phrase.is_excluded;
                }
            }
            _ => {}
        }
    }
    phrases
}

/// A phrase by its own codes.
fn phrase(codes: &[Code]) -> Phrase {
    let kinds = codes.iter().map(|code| code.kind);
    let operands = codes.iter().map(|code| code.operand);
    Phrase {
        place: codes[codes.len() - 1].place.clone(),
        selection: std::iter::once(codes.len() as u32).chain(kinds).chain(operands).collect(),
        is_excluded: false,
        occurs: None,
    }
}

/// The places of codes in their order: they follow the text, but an operator's code comes after its operands'. That of
/// an occurs comes directly after its phrase's.
#[derive(Default)]
struct Places {
    placed: Vec<Range<usize>>,
    /// Opening parentheses, and operators whose operands aren't complete: how much each binds, and its place.
    waiting: Vec<(u32, Range<usize>)>,
}

const OPEN: u32 = 0;
const FTOR: u32 = 1;
const FTAND: u32 = 2;
const NOT_IN: u32 = 3;
const FTNOT: u32 = 4;

impl Places {
    /// Places the operators that bind at least so much, back to the last parenthesis.
    fn place_waiting(&mut self, least: u32) {
        while let Some((_, place)) = self.waiting.pop_if(|(binds, _)| *binds >= least) {
            self.placed.push(place);
        }
    }

    fn operator(&mut self, binds: u32, place: Range<usize>) {
        self.place_waiting(binds);
        self.waiting.push((binds, place));
    }

    fn filter(&mut self, place: Range<usize>) {
        self.place_waiting(FTOR);
        self.placed.push(place);
    }

    fn close(&mut self) {
        self.place_waiting(FTOR);
        self.waiting.pop();
    }
}

fn places(search: &Search) -> Vec<Range<usize>> {
    type Token<'a> = (&'a [u8], Range<usize>);
    let end = |token: Option<Token>| token.expect("an accepted search is complete").1.end;
    let mut places = Places::default();
    let mut tokens = search.tokens().into_iter().peekable();
    while let Some((token, place)) = tokens.next() {
        match token {
            b"(" => places.waiting.push((OPEN, place)),
            b")" => places.close(),
            b"ftor" => places.operator(FTOR, place),
            b"ftand" => places.operator(FTAND, place),
            b"not" => places.operator(NOT_IN, place.start..end(tokens.next())),
            b"ftnot" => places.waiting.push((FTNOT, place)),
            b"ordered" => places.filter(place),
            b"window" | b"distance" => places.filter(place.start..end(tokens.find(|(token, _)| *token == b"words"))),
            b"occurs" => places.placed.push(place.start..end(tokens.find(|(token, _)| *token == b"times"))),
            b"same" | b"different" | b"at" | b"entire" => places.filter(place.start..end(tokens.next())),
            b"\"" => {
                while let Some((_, word)) = tokens.next_if(|(token, _)| *token != b"\"") {
                    places.placed.push(word);
                }
                places.placed.push(place.start..end(tokens.next()));
            }
            _ => unreachable!("an accepted search has no other token at the beginning of a part"),
        }
    }
    places.place_waiting(FTOR);
    places.placed
}
