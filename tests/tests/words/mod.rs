//! Words to write sections and selections with, and document 01's examples.

#![allow(dead_code)]

pub mod examples;
pub mod header;

use second_engine::section::Section;
use second_engine::selection::{self, Code};
use second_engine::{Match, Str};

/// A selection in the making: its codes.
#[derive(Clone, Debug)]
pub struct Selection(pub Vec<Code>);

pub fn phrase(words: &[u32]) -> Selection {
    let mut codes: Vec<Code> = words.iter().map(|&operand| Code { kind: 0, operand }).collect();
    codes.push(Code { kind: 1, operand: words.len() as u32 });
    Selection(codes)
}

pub fn word(word: u32) -> Selection {
    phrase(&[word])
}

impl Selection {
    pub fn then(mut self, kind: u32, operand: u32) -> Selection {
        self.0.push(Code { kind, operand });
        self
    }

    fn with(mut self, right: Selection, kind: u32) -> Selection {
        self.0.extend(right.0);
        self.then(kind, 0)
    }

    pub fn or(self, right: Selection) -> Selection {
        self.with(right, 2)
    }

    pub fn and(self, right: Selection) -> Selection {
        self.with(right, 3)
    }

    pub fn not(self) -> Selection {
        self.then(4, 0)
    }

    pub fn mild_not(self, right: Selection) -> Selection {
        self.with(right, 5)
    }

    pub fn ordered(self) -> Selection {
        self.then(6, 0)
    }

    pub fn window(self, size: u32) -> Selection {
        self.then(7, size)
    }

    pub fn distance(self, a: u32, b: u32) -> Selection {
        self.then(8, a * 65_536 + b)
    }

    pub fn same_sentence(self) -> Selection {
        self.then(9, 0)
    }

    pub fn same_paragraph(self) -> Selection {
        self.then(10, 0)
    }

    pub fn different_sentence(self) -> Selection {
        self.then(11, 0)
    }

    pub fn different_paragraph(self) -> Selection {
        self.then(12, 0)
    }

    pub fn at_start(self) -> Selection {
        self.then(13, 0)
    }

    pub fn at_end(self) -> Selection {
        self.then(14, 0)
    }

    pub fn entire_content(self) -> Selection {
        self.then(15, 0)
    }

    pub fn occurs(self, a: u32, b: u32) -> Selection {
        self.then(16, a * 65_536 + b)
    }

    pub fn occurs_at_least(self, a: u32) -> Selection {
        self.then(17, a)
    }

    /// The lent form.
    pub fn numbers(&self) -> Vec<u32> {
        selection::numbers(&self.0)
    }
}

/// The lent form of a section.
pub fn section(words: &[u32], sentences: &[u32], paragraphs: &[u32]) -> Vec<u32> {
    let (words, sentences, paragraphs) = (words.to_vec(), sentences.to_vec(), paragraphs.to_vec());
    assert!(words.len() == sentences.len() && words.len() == paragraphs.len());
    Section { words, sentences, paragraphs }.numbers()
}

/// A section whose sentences and paragraphs aren't reported.
pub fn plain(words: &[u32]) -> Vec<u32> {
    section(words, &vec![0; words.len()], &vec![0; words.len()])
}

/// "Words 10 20 30 10 40 20; sentences 1 1 1 2 2 2; paragraph 1."
pub fn six_tokens() -> Vec<u32> {
    section(&[10, 20, 30, 10, 40, 20], &[1, 1, 1, 2, 2, 2], &[1; 6])
}

/// The numbers of a line, in which `300*7` is 300 numbers 7.
pub fn numbers(line: &str) -> Vec<u32> {
    let number = |word: &str| word.parse().unwrap_or_else(|_| panic!("{word:?} in {line:?}"));
    let several = |word: &str| match word.split_once('*') {
        None => vec![number(word)],
        Some((times, value)) => vec![number(value); number(times) as usize],
    };
    line.split_whitespace().flat_map(several).collect()
}

/// The matches that a listing buffer holds.
pub fn decode(buffer: &[u32]) -> Vec<Match> {
    let (m, s) = (buffer[0] as usize, buffer[1] as usize);
    let counts = &buffer[2..2 + m];
    let spans = &buffer[2 + m..2 + m + s];
    let tags = &buffer[2 + m + s..2 + m + 2 * s];
    let mut strings = spans.iter().zip(tags);
    let mut list = vec![];
    for &count in counts {
        let mut one = Match::default();
        for (span, tag) in strings.by_ref().take(count as usize) {
            let (start, end, query) = (span / 65_536, span % 65_536, tag / 4);
            let string = Str { start, end, query, contiguous: tag & 2 != 0 };
            if tag & 1 == 0 {
                assert!(one.excludes.is_empty(), "includes stand before excludes");
                one.includes.push(string);
            } else {
                one.excludes.push(string);
            }
        }
        list.push(one);
    }
    assert!(strings.next().is_none());
    list
}
