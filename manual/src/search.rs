//! A search as a mechanic types it, with words, and as the engine reads it, with numbers.

use crate::tokens::tokens;
use crate::words::Words;
use std::ops::Range;

pub struct Search<'a> {
    pub text: &'a str,
    /// The text with a number for each word in quotes.
    pub typed: Vec<u8>,
    /// For each byte of it the bytes of `text` that it stands for.
    origins: Vec<Range<usize>>,
    /// The words that the manual does not have, nor another one of their families.
    pub unknown: Vec<&'a str>,
}

impl<'a> Search<'a> {
    pub fn new(text: &'a str, words: &Words) -> Search<'a> {
        let mut search = Search { text, typed: Vec::new(), origins: Vec::new(), unknown: Vec::new() };
        let mut begin = 0;
        for (quotes, piece) in text.split('"').enumerate() {
            if quotes > 0 {
                search.push(b"\"", begin - 1..begin);
            }
            let bytes = begin..begin + piece.len();
            if quotes % 2 == 1 {
                search.push_phrase(bytes, words);
            } else {
                search.push_plain(bytes);
            }
            begin += piece.len() + 1;
        }
        search
    }

    fn push(&mut self, bytes: &[u8], origin: Range<usize>) {
        self.typed.extend(bytes);
        self.origins.extend(bytes.iter().map(|_| origin.clone()));
    }

    /// What stands outside quotes goes to the engine as it is.
    fn push_plain(&mut self, bytes: Range<usize>) {
        for (at, c) in self.text[bytes.clone()].char_indices() {
            let origin = bytes.start + at..bytes.start + at + c.len_utf8();
            self.push(&self.text.as_bytes()[origin.clone()], origin);
        }
    }

    /// The numbers of the words, with a blank between them.
    fn push_phrase(&mut self, bytes: Range<usize>, words: &Words) {
        for token in tokens(&self.text[bytes.clone()]) {
            let origin = bytes.start + token.start..bytes.start + token.end;
            let word = &self.text[origin.clone()];
            if !words.has(word) && !self.unknown.contains(&word) {
                self.unknown.push(word);
            }
            if self.typed.last() != Some(&b'"') {
                self.push(b" ", origin.start..origin.start);
            }
            self.push(words.number(word).to_string().as_bytes(), origin);
        }
    }

    /// What the token stands for that begins at a byte of the typed search, counted from 1; at its end, nothing.
    pub fn at(&self, place: usize) -> Range<usize> {
        match self.origins.get(place - 1) {
            Some(first) => first.start..self.origins[token_end(&self.typed, place - 1) - 1].end,
            None => self.text.len()..self.text.len(),
        }
    }

    /// The tokens of the typed search, each with what it stands for.
    pub fn tokens(&self) -> Vec<(&[u8], Range<usize>)> {
        let mut tokens = Vec::new();
        let mut at = 0;
        while at < self.typed.len() {
            let end = token_end(&self.typed, at);
            if self.typed[at] != b' ' {
                tokens.push((&self.typed[at..end], self.at(at + 1)));
            }
            at = end;
        }
        tokens
    }
}

/// Where the token ends that begins at an index: a run of small letters or of digits, or one byte.
fn token_end(typed: &[u8], at: usize) -> usize {
    let run = |is_of: fn(&u8) -> bool| at + typed[at..].iter().take_while(|byte| is_of(byte)).count();
    match typed[at] {
        b'a'..=b'z' => run(u8::is_ascii_lowercase),
        b'0'..=b'9' => run(u8::is_ascii_digit),
        _ => at + 1,
    }
}
