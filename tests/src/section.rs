//! The section: "n (0 to 4,096), n word numbers, n places. Length is 1 + 2n."

use crate::Refusal;

/// "n (0 to 4,096)".
pub const MOST_TOKENS: usize = 4_096;

/// A section, accepted if [`read`] gave it. "Token positions, sentence numbers and paragraph numbers are three countings, as in the
/// standard, and none stands for another." Each vector has one entry for each token; positions run from 1.
#[derive(Clone, Debug, PartialEq, Eq)]
pub struct Section {
    pub words: Vec<u32>,
    pub sentences: Vec<u32>,
    pub paragraphs: Vec<u32>,
}

impl Section {
    /// n, the number of tokens, which is also the last position.
    pub fn n(&self) -> u32 {
        self.words.len() as u32
    }

    /// The sentence number of the token at a position.
    pub fn sentence(&self, position: u32) -> u32 {
        self.sentences[position as usize - 1]
    }

    /// The paragraph number of the token at a position.
    pub fn paragraph(&self, position: u32) -> u32 {
        self.paragraphs[position as usize - 1]
    }

    /// The lent form: the size, the words, the places.
    pub fn numbers(&self) -> Vec<u32> {
        let places = self.sentences.iter().zip(&self.paragraphs).map(|(s, p)| p * 65_536 + s);
        std::iter::once(self.n()).chain(self.words.iter().copied()).chain(places).collect()
    }
}

/// Reads a lent section, or refuses it: 1, then 2 over the whole of it.
pub fn read(numbers: &[u32]) -> Result<Section, Refusal> {
    let section = read_sized(numbers)?;
    match first_faulty(&section) {
        Some(place) => Err(Refusal { number: 2, place }),
        None => Ok(section),
    }
}

/// Reads a lent section whose sentences and paragraphs may be any, or refuses it: 1 alone.
pub fn read_sized(numbers: &[u32]) -> Result<Section, Refusal> {
    check_length(numbers)?;
    let n = numbers[0] as usize;
    let places = &numbers[1 + n..];
    // "A place is paragraph × 65,536 + sentence."
    Ok(Section {
        words: numbers[1..1 + n].to_vec(),
        sentences: places.iter().map(|place| place % 65_536).collect(),
        paragraphs: places.iter().map(|place| place / 65_536).collect(),
    })
}

/// "1, place 0: section empty, n > 4,096, or length wrong". (Reading: an empty section is a slice of no numbers; n = 0
/// with length 1 is accepted.)
fn check_length(numbers: &[u32]) -> Result<(), Refusal> {
    let refused = Err(Refusal::new(1, 0));
    let Some(&n) = numbers.first() else { return refused };
    let n = n as usize;
    if n > MOST_TOKENS || numbers.len() != 1 + 2 * n {
        return refused;
    }
    Ok(())
}

/// "2, first faulty position: sentence or paragraph rule broken". (Reading: one scan, both countings at each position;
/// position 1 is never faulty.)
fn first_faulty(section: &Section) -> Option<u32> {
    // no number is below 0, so nothing is faulty before there is a nonzero one
    let mut last_nonzero = 0;
    for position in 1..=section.n() {
        let sentence = section.sentence(position);
        if sentence_is_faulty(last_nonzero, sentence) || paragraph_is_faulty(section, position) {
            return Some(position);
        }
        if sentence != 0 {
            last_nonzero = sentence;
        }
    }
    None
}

/// Request F-5: "Sentence zero may now stand among numbered ones, in any place; the nonzero ones still never fall." "For
/// sentences, refusal 2 falls on a nonzero one below the last nonzero one before it."
fn sentence_is_faulty(last_nonzero: u32, here: u32) -> bool {
    here != 0 && here < last_nonzero
}

/// "Paragraphs keep their rule": "a position is faulty if .. its paragraph number is below that of the position before it,
/// or just one of the two is zero."
fn paragraph_is_faulty(section: &Section, position: u32) -> bool {
    if position == 1 {
        return false;
    }
    let (before, here) = (section.paragraph(position - 1), section.paragraph(position));
    here < before || (before == 0) != (here == 0)
}
