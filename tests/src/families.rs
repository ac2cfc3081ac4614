//! The family table (request F-6): "'Needle' should find 'needles'. The caller lends a family table: a size of at most 2,048,
//! then two parallel arrays, word numbers rising strictly and their family numbers."

use crate::section::Section;
use crate::Refusal;
use std::collections::BTreeMap;
use std::ops::Deref;

/// "A size of at most 2,048".
pub const MOST_ENTRIES: usize = 2_048;

/// The empty table (reading: "the one number 0"), which "gives the old answers".
pub const EMPTY: [u32; 1] = [0];

/// A table, accepted if [`read`] gave it: the family of each word that it has. Any u32 is a word, and any a family.
#[derive(Clone, Debug, Default, PartialEq, Eq)]
pub struct Families(pub BTreeMap<u32, u32>);

impl Families {
    /// The family of a word, if the word is in the table.
    pub fn of(&self, word: u32) -> Option<u32> {
        self.0.get(&word).copied()
    }

    /// "A phrase fits where each word equals its token or both are in the table with the same family."
    pub fn fits(&self, word: u32, token: u32) -> bool {
        word == token || self.of(word).is_some_and(|family| self.of(token) == Some(family))
    }

    /// The lent form: the size, the words, the families.
    pub fn numbers(&self) -> Vec<u32> {
        let size = std::iter::once(self.0.len() as u32);
        size.chain(self.0.keys().copied()).chain(self.0.values().copied()).collect()
    }
}

/// What the calls search: an accepted section, and the accepted table that is lent with it. All rules but a phrase's look at
/// the section alone.
#[derive(Clone, Debug)]
pub struct Searched {
    pub section: Section,
    pub families: Families,
}

impl Searched {
    /// A section, with the empty table.
    pub fn alone(section: &Section) -> Searched {
        Searched { section: section.clone(), families: Families::default() }
    }

    /// The same table with another section.
    pub fn with(&self, section: Section) -> Searched {
        Searched { section, families: self.families.clone() }
    }
}

impl Deref for Searched {
    type Target = Section;

    fn deref(&self) -> &Section {
        &self.section
    }
}

/// Reads a lent table, or refuses it: "13 at the first entry out of order, place 0 for a wrong size or length".
pub fn read(numbers: &[u32]) -> Result<Families, Refusal> {
    let (words, families) = read_sized(numbers)?;
    match first_out_of_order(words) {
        Some(entry) => Err(Refusal::new(13, entry)),
        None => Ok(Families(words.iter().copied().zip(families.iter().copied()).collect())),
    }
}

/// The words and the families of a lent table, in whatever order; or refusal 13 at place 0. (Reading: "a slice of no numbers
/// is 13 at 0.")
pub fn read_sized(numbers: &[u32]) -> Result<(&[u32], &[u32]), Refusal> {
    let refused = Err(Refusal::new(13, 0));
    let Some((&size, entries)) = numbers.split_first() else { return refused };
    let size = size as usize;
    if size > MOST_ENTRIES || entries.len() != 2 * size {
        return refused;
    }
    Ok(entries.split_at(size))
}

/// The first entry, counted from 1, whose word is not above the one before it. (Reading: "Entry 1 is never out of order;
/// equal words are.")
fn first_out_of_order(words: &[u32]) -> Option<usize> {
    (2..=words.len()).find(|&entry| words[entry - 1] <= words[entry - 2])
}
