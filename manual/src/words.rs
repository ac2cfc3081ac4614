//! The words of a manual by number, and the families that join them.

use crate::document::Manual;
use crate::families::Families;
use crate::near::near;
use crate::tokens::folded;
use std::collections::HashSet;

/// Every word of a manual, case folded, in the order of their bytes. Its number is its place here, from 1. The words of
/// families that the manual does not have follow, in the same order, so that they can be searched for.
pub struct Words {
    words: Vec<String>,
    others: Vec<String>,
    families: Families,
    /// The families that have a word of the manual, by their lines.
    joined: HashSet<u32>,
}

/// The number of a word that neither the manual nor a family has; no section has it, so it is never found.
pub const UNKNOWN: u32 = 0;

impl Words {
    pub fn of(manual: &Manual) -> Words {
        let tokens = manual.sections.iter().flat_map(|section| &section.tokens);
        let words: HashSet<String> = tokens.map(|token| folded(&manual.text()[token.bytes.clone()])).collect();
        let mut words: Vec<String> = words.into_iter().collect();
        words.sort_unstable();
        Words { words, others: Vec::new(), families: Families::default(), joined: HashSet::new() }
    }

    /// The words, joined by families.
    pub fn joined_by(mut self, families: Families) -> Words {
        for (word, line) in families.iter() {
            match index(&self.words, word) {
                Some(_) => _ = self.joined.insert(line),
                None => self.others.push(word.to_string()),
            }
        }
        Words { families, ..self }
    }

    pub fn number(&self, word: &str) -> u32 {
        self.number_of_folded(&folded(word))
    }

    fn number_of_folded(&self, word: &str) -> u32 {
        let other = || index(&self.others, word).map(|index| self.words.len() + index);
        index(&self.words, word).or_else(other).map_or(UNKNOWN, |index| index as u32 + 1)
    }

    /// Can a search for it find anything: does the manual have it, or another word of its family?
    pub fn has(&self, word: &str) -> bool {
        self.has_folded(&folded(word))
    }

    fn has_folded(&self, word: &str) -> bool {
        index(&self.words, word).is_some() || self.families.line(word).is_some_and(|line| self.joined.contains(&line))
    }

    /// The word that can be found and differs from one in a letter, if there is such a one.
    pub fn near(&self, word: &str) -> Option<&str> {
        let others = self.others.iter().filter(|other| self.has_folded(other));
        near(&folded(word), self.words.iter().chain(others).map(String::as_str))
    }

    /// Each word of the manual with its number.
    pub fn numbered(&self) -> impl Iterator<Item = (u32, &str)> {
        (1..).zip(self.words.iter().map(String::as_str))
    }

    /// The families as the engine takes them: a size, the numbers of the words, rising, and those of their families.
    pub fn family_table(&self) -> Vec<u32> {
        let entry = |(word, line)| (self.number_of_folded(word), line);
        let mut entries: Vec<(u32, u32)> = self.families.iter().map(entry).collect();
        entries.sort_unstable();
        let (words, families): (Vec<u32>, Vec<u32>) = entries.into_iter().unzip();
        [vec![words.len() as u32], words, families].concat()
    }
}

/// Where a word stands among sorted ones.
fn index(words: &[String], word: &str) -> Option<usize> {
    words.binary_search_by(|other| other.as_str().cmp(word)).ok()
}
