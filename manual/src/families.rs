//! Families: words that count as one another, as 'needle' and 'needles'.

use crate::tokens::{folded, tokens};
use std::collections::BTreeMap;
use std::ops::Range;

/// The most words that the engine's table has.
const MOST: usize = 2_048;

/// The families of a file, each in a line of its own: every word, case folded, with its line.
#[derive(Clone, Debug, Default, PartialEq, Eq)]
pub struct Families {
    lines: BTreeMap<String, u32>,
}

impl Families {
    /// The families of a text, or what is wrong with it. Blanks part words, and a line that begins with `#` has none.
    pub fn read(text: &str) -> Result<Families, String> {
        let mut families = Families::default();
        for (line, text) in (1..).zip(text.lines()).filter(|(_, text)| !text.trim_start().starts_with('#')) {
            for word in text.split_whitespace() {
                families.add(word, line)?;
            }
        }
        match families.lines.len() {
            count if count > MOST => Err(format!("there are {count} words in all, and {MOST} are the most")),
            _ => Ok(families),
        }
    }

    fn add(&mut self, word: &str, line: u32) -> Result<(), String> {
        match tokens(word)[..] {
            [Range { start: 0, end }] if end == word.len() => {}
            [] | [_] => return Err(format!("'{word}' in line {line} has other signs than letters and digits")),
            ref tokens => return Err(format!("'{word}' in line {line} is {} words, not one", tokens.len())),
        }
        match self.lines.insert(folded(word), line) {
            Some(before) if before != line => {
                Err(format!("'{word}' stands in line {before} and in line {line}, and a word is of one family"))
            }
            _ => Ok(()),
        }
    }

    /// The line of a word, which is case folded.
    pub fn line(&self, word: &str) -> Option<u32> {
        self.lines.get(word).copied()
    }

    /// Each word with its line, in the order of their bytes.
    pub fn iter(&self) -> impl Iterator<Item = (&str, u32)> {
        self.lines.iter().map(|(word, line)| (word.as_str(), *line))
    }
}
