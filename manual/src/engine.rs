//! The proved engine, by its exported calls.

use std::fmt;

#[cfg(not_built)]
compile_error!("target/staticlib/libjullpinay.a is not there: build it by `bash examples/build.sh jullpinay`");

#[allow(dead_code)]
#[path = "../../include/jullpinay.rs"]
mod exported;

/// The lent memory, in numbers, and the limits, as `include/jullpinay.h` has them.
const WORK: usize = 12_800;
const BUFFER: usize = 1_282;
const SELECTION: usize = 129;
pub const MOST_WORDS: usize = 4_096;

/// A refusal by number and place, as `docs/REFERENCE.md` lists them.
#[derive(Clone, Copy, Debug, PartialEq, Eq)]
pub struct Refusal {
    pub number: u32,
    pub place: usize,
}

impl Refusal {
    pub const TOO_MANY_CODES: u32 = 3;
    pub const OPERAND: u32 = 5;
    pub const WAITING: u32 = 6;
    pub const NOT_UNDER_MILD_NOT: u32 = 7;
    pub const TOO_LONG: u32 = 9;
    pub const GRAMMAR: u32 = 10;
    pub const TOO_LARGE: u32 = 11;
    pub const FAMILIES: u32 = 13;
}

impl fmt::Display for Refusal {
    fn fmt(&self, f: &mut fmt::Formatter) -> fmt::Result {
        write!(f, "refusal {} at {}", self.number, self.place)
    }
}

/// An include or an exclude: the positions from `start` to `end`, found for the phrase `query`, all counted from 1.
#[derive(Clone, Debug, PartialEq, Eq)]
pub struct Str {
    pub start: usize,
    pub end: usize,
    pub query: usize,
    pub contiguous: bool,
}

impl Str {
    pub fn covers(&self, other: &Str) -> bool {
        self.start <= other.start && other.end <= self.end
    }
}

#[derive(Clone, Debug, Default, PartialEq, Eq)]
pub struct Match {
    pub includes: Vec<Str>,
    pub excludes: Vec<Str>,
}

/// The calls, with the family table and the memory that they are lent.
pub struct Engine {
    families: Vec<u32>,
    work: Vec<u32>,
    buffer: Vec<u32>,
}

impl Engine {
    pub fn new(families: Vec<u32>) -> Engine {
        Engine { families, work: vec![0; WORK], buffer: vec![0; BUFFER] }
    }

    /// The selection that a typed search stands for.
    pub fn read(&self, text: &[u8]) -> Result<Vec<u32>, Refusal> {
        let mut selection = vec![0; SELECTION];
        let mut answer = [0; 2];
        // SAFETY: every pointer is a slice's or an array's own, with its length; what is written overlaps nothing.
        unsafe {
            exported::jullpinay_read(text.as_ptr(), text.len(), selection.as_mut_ptr(), selection.len(), &mut answer);
        }
        let [0, codes] = answer else { return Err(refusal(&answer)) };
        selection.truncate(1 + 2 * codes as usize);
        Ok(selection)
    }

    /// Does the section say yes?
    pub fn quick(&mut self, section: &[u32], selection: &[u32]) -> Result<bool, Refusal> {
        let mut answer = [0; 3];
        // SAFETY: as above.
        unsafe {
            exported::jullpinay_quick(
                section.as_ptr(),
                section.len(),
                self.families.as_ptr(),
                self.families.len(),
                selection.as_ptr(),
                selection.len(),
                self.work.as_mut_ptr(),
                self.work.len(),
                &mut answer,
            );
        }
        let [0, yes, _] = answer else { return Err(refusal(&answer)) };
        Ok(yes == 1)
    }

    /// All matches in the section.
    pub fn listing(&mut self, section: &[u32], selection: &[u32]) -> Result<Vec<Match>, Refusal> {
        let mut answer = [0; 4];
        // SAFETY: as above.
        unsafe {
            exported::jullpinay_listing(
                section.as_ptr(),
                section.len(),
                self.families.as_ptr(),
                self.families.len(),
                selection.as_ptr(),
                selection.len(),
                self.work.as_mut_ptr(),
                self.work.len(),
                self.buffer.as_mut_ptr(),
                self.buffer.len(),
                &mut answer,
            );
        }
        let [0, ..] = answer else { return Err(refusal(&answer)) };
        Ok(matches(&self.buffer))
    }
}

fn refusal(answer: &[u32]) -> Refusal {
    Refusal { number: answer[0], place: answer[1] as usize }
}

/// A listing taken apart: M, S, the count of strings of each match, the spans, the tags.
fn matches(buffer: &[u32]) -> Vec<Match> {
    let (counts, strings) = buffer[2..].split_at(buffer[0] as usize);
    let (spans, tags) = strings.split_at(buffer[1] as usize);
    let mut strings = spans.iter().zip(tags);
    counts.iter().map(|&count| match_of(strings.by_ref().take(count as usize))).collect()
}

fn match_of<'a>(strings: impl Iterator<Item = (&'a u32, &'a u32)>) -> Match {
    let mut found = Match::default();
    for (span, tag) in strings {
        let (start, end) = ((span >> 16) as usize, (span & 0xFFFF) as usize);
        let string = Str { start, end, query: (tag >> 2) as usize, contiguous: tag & 2 != 0 };
        let sort = if tag & 1 == 0 { &mut found.includes } else { &mut found.excludes };
        sort.push(string);
    }
    found
}
