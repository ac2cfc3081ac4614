//! What the program `ftlist` prints, from the bytes it reads.

use crate::engine::SecondEngine;
use crate::families::EMPTY;
use crate::rules::{self, Match, Str};
use crate::sizes::Size;
use crate::{Refusal, BUFFER, WORK};

/// "Over 65,536 bytes".
pub const MOST_BYTES: usize = 65_536;

/// "Program `ftlist` reads little-endian u32 from standard input, the section's 1 + 2n numbers (all, if fewer) and then
/// the selection. Over 65,536 bytes, or a count not divisible by 4, prints `refused 1 0`; any refusal prints `refused`,
/// number, place." (Readings: the count is of bytes; n is the first number whatever its size; each line ends with a
/// newline.) Request F-6: "An empty table (`ftlist` lends one)".
pub fn ftlist(input: &[u8]) -> String {
    match list(input) {
        Err(Refusal { number, place }) => format!("refused {number} {place}\n"),
        Ok(list) => print(&list),
    }
}

fn list(input: &[u8]) -> Result<Vec<Match>, Refusal> {
    if input.len() > MOST_BYTES || !input.len().is_multiple_of(4) {
        return Err(Refusal::new(1, 0));
    }
    let number = |bytes: &[u8]| u32::from_le_bytes([bytes[0], bytes[1], bytes[2], bytes[3]]);
    let numbers: Vec<u32> = input.chunks(4).map(number).collect();
    let length = match numbers.first() {
        None => 0,
        Some(&n) => numbers.len().min(1 + 2 * n as usize),
    };
    let (section, selection) = numbers.split_at(length);
    SecondEngine::new().list(section, &EMPTY, selection, WORK, BUFFER)
}

/// "First the answer, M, S; then a line a match: + include or ! exclude, span, query position, c contiguous or n not,
/// strings parted by a blank, `.` for a match with none."
pub fn print(list: &[Match]) -> String {
    let size = Size::of(list);
    let answer = if rules::is_yes(list) { "yes" } else { "no" };
    let mut text = format!("{answer} {} {}\n", size.matches, size.strings);
    for m in list {
        text += &line(m);
        text += "\n";
    }
    text
}

/// One match: `+1-2 q1 c !4-4 q2 c`.
pub fn line(m: &Match) -> String {
    let string = |sign: char, s: &Str| {
        let mark = if s.contiguous { 'c' } else { 'n' };
        format!("{sign}{}-{} q{} {mark}", s.start, s.end, s.query)
    };
    let includes = m.includes.iter().map(|s| string('+', s));
    let excludes = m.excludes.iter().map(|s| string('!', s));
    let strings: Vec<String> = includes.chain(excludes).collect();
    if strings.is_empty() {
        ".".to_string()
    } else {
        strings.join(" ")
    }
}

/// The input that stands for a section and a selection.
pub fn bytes(section: &[u32], selection: &[u32]) -> Vec<u8> {
    section.iter().chain(selection).flat_map(|number| number.to_le_bytes()).collect()
}
