//! The engine under test, and its comparison with the second engine.

use crate::engine::{self, CodeList, Listing, Quick};
use crate::gen::{self, Case, Rng};
use crate::rules;
use crate::section;
use crate::shrink;
use crate::sizes;
use crate::typed::{self, SELECTION};
use crate::typed_gen::{self, TypedCase};
use crate::{Refusal, BUFFER, WORK};
use std::sync::OnceLock;

/// An engine that is to agree with document 01. Memory is lent as the paper says; a snippet is a part of the section.
pub trait Engine {
    fn listing(
        &self,
        section: &[u32],
        families: &[u32],
        selection: &[u32],
        work: &mut [u32],
        buffer: &mut [u32],
    ) -> Listing;
    fn quick(&self, section: &[u32], families: &[u32], selection: &[u32], work: &mut [u32]) -> Quick;
    fn snippet<'a>(&self, section: &'a [u32], from: u32, to: u32) -> &'a [u32];

    /// Reads a typed search into a lent selection, and answers the number of its codes.
    fn read(&self, _text: &[u8], _selection: &mut [u32]) -> Result<u32, Refusal> {
        unimplemented!("this engine reads no typed searches")
    }

    /// The full listing of a typed search.
    fn typed_listing(
        &self,
        _section: &[u32],
        _families: &[u32],
        _text: &[u8],
        _work: &mut [u32],
        _buffer: &mut [u32],
    ) -> Listing {
        unimplemented!("this engine reads no typed searches")
    }

    /// The quick answer of a typed search.
    fn typed_quick(&self, _section: &[u32], _families: &[u32], _text: &[u8], _work: &mut [u32]) -> Quick {
        unimplemented!("this engine reads no typed searches")
    }
}

/// Compares an engine with the second engine on one case: the listing's result and place, its whole buffer, the quick
/// answer with its count, the snippets; and holds the engine's answers to the unlimited lists. What the two calls must not
/// touch (section, table, selection, memory beside the lent slices) is looked at, too. The error says what went wrong.
pub fn compare(engine: &dyn Engine, case: &Case) -> Result<(), String> {
    let listing = compare_listing(engine, case)?;
    let quick = compare_quick(engine, case)?;
    compare_with_unlimited(case, listing, quick)?;
    compare_snippets(engine, case)
}

/// Looks for a case of a seed on which an engine fails, among the first so many.
pub type Hunt = fn(&dyn Engine, u64, usize) -> Result<(), String>;

/// Compares an engine with the second engine on the first cases of a seed. The error names the first case that fails, and
/// holds a test of it, made as small as it gets.
pub fn hunt(engine: &dyn Engine, seed: u64, count: usize) -> Result<(), String> {
    hunt_in(engine, gen::cases(seed, count), &format!("seed {seed}, case"))
}

/// Does the same on the first cases of a seed that have an occurs.
pub fn hunt_occurs(engine: &dyn Engine, seed: u64, count: usize) -> Result<(), String> {
    hunt_in(engine, gen::occurs_cases(seed, count), &format!("seed {seed}, occurs case"))
}

/// And on the first cases of a seed that are made for the early way out of a filter.
pub fn hunt_filters(engine: &dyn Engine, seed: u64, count: usize) -> Result<(), String> {
    hunt_in(engine, gen::filter_cases(seed, count), &format!("seed {seed}, filter case"))
}

/// And on the first cases of a seed that are made with a family table.
pub fn hunt_families(engine: &dyn Engine, seed: u64, count: usize) -> Result<(), String> {
    hunt_in(engine, gen::family_cases(seed, count), &format!("seed {seed}, family case"))
}

/// And on the first cases of a seed whose sections have headings.
pub fn hunt_headings(engine: &dyn Engine, seed: u64, count: usize) -> Result<(), String> {
    hunt_in(engine, gen::heading_cases(seed, count), &format!("seed {seed}, heading case"))
}

fn hunt_in(engine: &dyn Engine, cases: impl Iterator<Item = Case>, name: &str) -> Result<(), String> {
    for (index, case) in cases.enumerate() {
        if let Err(first) = compare(engine, &case) {
            let small = shrink::shrink(&case, &|case| compare(engine, case).is_err());
            let last = compare(engine, &small).expect_err("a shrunk case still fails");
            let test = shrink::as_rust(&small, &format!("{name} {index}").replace(", ", "_").replace(' ', "_"));
            return Err(format!("{name} {index}: {first}\nmade smaller: {last}\n\n{test}"));
        }
    }
    Ok(())
}

fn compare_listing(engine: &dyn Engine, case: &Case) -> Result<Listing, String> {
    let mut wanted_buffer = case.buffer.clone();
    let wanted = engine::listing(&case.section, &case.families, &case.selection, case.work_len, &mut wanted_buffer);

    let inputs = Inputs::of(case);
    let mut work = Lent::noise(case, 1);
    let mut buffer = Lent::copy(&case.buffer);
    let got = engine.listing(&inputs.section, &inputs.families, &inputs.selection, work.slice(), buffer.slice());
    if got != wanted {
        return Err(format!("listing: {got:?}, but {wanted:?} is right"));
    }
    if let Some(at) = (0..wanted_buffer.len()).find(|&at| buffer.slice()[at] != wanted_buffer[at]) {
        let (number, right) = (buffer.slice()[at], wanted_buffer[at]);
        return Err(format!("listing: {got:?} is right, but buffer[{at}] is {number} where {right} is right"));
    }
    inputs.unchanged(case)?;
    work.untouched_around("listing: working memory")?;
    buffer.untouched_around("listing: buffer")?;
    Ok(got)
}

fn compare_quick(engine: &dyn Engine, case: &Case) -> Result<Quick, String> {
    let wanted = engine::quick(&case.section, &case.families, &case.selection, case.work_len);

    let inputs = Inputs::of(case);
    let mut work = Lent::noise(case, 2);
    let got = engine.quick(&inputs.section, &inputs.families, &inputs.selection, work.slice());
    if got != wanted {
        return Err(format!("quick: {got:?}, but {wanted:?} is right"));
    }
    inputs.unchanged(case)?;
    work.untouched_around("quick: working memory")?;
    Ok(got)
}

/// What must hold of the two answers beside the second engine's own: "Demand 3 holds this call to the unlimited lists and
/// to the listing".
fn compare_with_unlimited(case: &Case, listing: Listing, quick: Quick) -> Result<(), String> {
    let (section, families, selection) = (&case.section, &case.families, &case.selection);
    let lists = engine::unlimited_lists_within(sizes::COMPARED, section, families, selection);
    let Some(lists) = lists else { return Ok(()) };
    let work_enough = case.work_len >= WORK;
    let buffer_enough = case.buffer.len() >= BUFFER;
    let last = lists.last().expect("a selection has a last code");

    // The listing is given just where every list is within the limits; else the first that isn't is its place. A list
    // whose size isn't known has a larger one below it, which comes before it.
    let over = |code: &&CodeList| !code.size.is_some_and(|size| size.within(sizes::PAPER));
    if work_enough && buffer_enough {
        match (lists.iter().find(over), listing) {
            (None, Listing::Listed { matches, strings, yes }) => {
                let list = last.list.as_deref().expect("a list within the limits has been made");
                let numbers = engine::encode(list);
                if (matches, strings) != (numbers[0], numbers[1]) || yes != rules::is_yes(list) {
                    return Err(format!("the listing {listing:?} is not that of the unlimited list"));
                }
            }
            (Some(first), Listing::Refused { number: 9, place }) if place as usize == first.place => {}
            (first, _) => {
                let place = first.map(|first| first.place);
                return Err(format!("listing {listing:?}, but the first list over the limits is at {place:?}"));
            }
        }
    }

    match quick {
        Quick::Answered { yes, codes } => {
            if last.yes.is_some_and(|unlimited| yes != unlimited) {
                return Err(format!("{quick:?} against the unlimited list"));
            }
            if let Listing::Listed { yes: listed, .. } = listing {
                if yes != listed {
                    return Err(format!("{quick:?} against {listing:?}"));
                }
            }
            // "The selection's own count is that of all its codes but those of kind 0."
            if codes < 1 || codes as usize > last.count {
                return Err(format!("{quick:?}, but the selection has {} codes", last.count));
            }
        }
        // "Limits on size hold only for lists built at or under kinds 5 to 15", and so at or under an occurs; but not for
        // the own list of a filter that the walk reaches.
        Quick::Refused { number: 9, place } => {
            let refused = lists.iter().find(|code| code.place == place as usize);
            if !refused.is_some_and(|code| code.measured && over(&code)) {
                return Err(format!("{quick:?}, but the list there isn't measured or isn't over the limits"));
            }
        }
        Quick::Refused { number, place } => {
            if work_enough || (number, place) != (8, 0) {
                return Err(format!("{quick:?}, though section, table and selection pass the checks"));
            }
        }
    }
    if let (Listing::Listed { .. }, Quick::Refused { .. }) = (listing, quick) {
        return Err(format!("{quick:?} against {listing:?}"));
    }
    Ok(())
}

fn compare_snippets(engine: &dyn Engine, case: &Case) -> Result<(), String> {
    let section = &case.section[..];
    for (from, to) in snippet_bounds(section) {
        let wanted = engine::snippet(section, from, to);
        let got = engine.snippet(section, from, to);
        if got != wanted {
            return Err(format!("snippet {from} to {to}: {got:?}, but {wanted:?} is right"));
        }
        // "as a part of the lent section"
        if !got.is_empty() && got.as_ptr() != wanted.as_ptr() {
            return Err(format!("snippet {from} to {to}: equal words, but not a part of the lent section"));
        }
    }
    Ok(())
}

/// Compares an engine with the second engine on one typed case: the reader alone, into selections of several lengths; the
/// typed listing with its whole buffer, and the typed quick answer, both also with the engine's own calls on the codes.
pub fn compare_typed(engine: &dyn Engine, case: &TypedCase) -> Result<(), String> {
    compare_read(engine, &case.text, &case.selection)?;
    compare_text(engine, &case.text)?;
    compare_typed_listing(engine, case)?;
    compare_typed_quick(engine, case)
}

/// Compares an engine with the second engine on the first typed cases of a seed. The error names the first case that
/// fails, and holds a test of it, made as small as it gets.
pub fn hunt_typed(engine: &dyn Engine, seed: u64, count: usize) -> Result<(), String> {
    for (index, case) in typed_gen::typed_cases(seed, count).enumerate() {
        if let Err(first) = compare_typed(engine, &case) {
            let small = shrink::shrink_typed(&case, &|case| compare_typed(engine, case).is_err());
            let last = compare_typed(engine, &small).expect_err("a shrunk case still fails");
            let test = shrink::typed_as_rust(&small, &format!("typed_seed_{seed}_case_{index}"));
            return Err(format!("seed {seed}, typed case {index}: {first}\nmade smaller: {last}\n\n{test}"));
        }
    }
    Ok(())
}

/// Compares the reader alone on one text, with selections lent that are too short, just long enough, and longer.
pub fn compare_text(engine: &dyn Engine, text: &[u8]) -> Result<(), String> {
    for length in [SELECTION, 0, 1, SELECTION - 1, SELECTION + 11] {
        compare_read(engine, text, &marked(length))?;
    }
    Ok(())
}

/// A selection that holds other numbers at each place, none of them a size or a kind.
pub fn marked(length: usize) -> Vec<u32> {
    (0..length as u32).map(|at| 0xC0DE_0000 + at).collect()
}

/// Compares the reader alone on one text and one lent selection: the answer, and all that the selection then holds.
pub fn compare_read(engine: &dyn Engine, text: &[u8], selection: &[u32]) -> Result<(), String> {
    let mut wanted_selection = selection.to_vec();
    let wanted = typed::read_selection(text, &mut wanted_selection);

    let lent_text = LentText::of(text);
    let mut lent = Lent::copy(selection);
    let got = engine.read(lent_text.slice(), lent.slice());
    if got != wanted {
        return Err(format!("read into {}: {got:?}, but {wanted:?} is right", selection.len()));
    }
    if let Some(at) = (0..selection.len()).find(|&at| lent.slice()[at] != wanted_selection[at]) {
        let (number, right) = (lent.slice()[at], wanted_selection[at]);
        return Err(format!("read: {got:?} is right, but selection[{at}] is {number} where {right} is right"));
    }
    lent_text.unchanged(text)?;
    lent.untouched_around("read: selection")
}

fn compare_typed_listing(engine: &dyn Engine, case: &TypedCase) -> Result<(), String> {
    let mut wanted_buffer = case.buffer.clone();
    let wanted = typed::typed_listing(&case.section, &case.families, &case.text, case.work_len, &mut wanted_buffer);

    let (text, section, families) = (LentText::of(&case.text), case.section.clone(), case.families.clone());
    let mut work = Lent::some_noise(case.text.len() + 3, case.work_len);
    let mut buffer = Lent::copy(&case.buffer);
    let got = engine.typed_listing(&section, &families, text.slice(), work.slice(), buffer.slice());
    if got != wanted {
        return Err(format!("typed listing: {got:?}, but {wanted:?} is right"));
    }
    if let Some(at) = (0..wanted_buffer.len()).find(|&at| buffer.slice()[at] != wanted_buffer[at]) {
        let (number, right) = (buffer.slice()[at], wanted_buffer[at]);
        return Err(format!("typed listing: {got:?} is right, but buffer[{at}] is {number} where {right} is right"));
    }
    text.unchanged(&case.text)?;
    inputs_unchanged(&section, &families, case)?;
    work.untouched_around("typed listing: working memory")?;
    buffer.untouched_around("typed listing: buffer")?;

    // "What a typed search answers is what its codes answer."
    let Ok(codes) = typed::read(&case.text) else { return Ok(()) };
    let mut by_codes = Lent::copy(&case.buffer);
    let answer = engine.listing(&section, &families, &typed::numbers(&codes), work.slice(), by_codes.slice());
    if answer != got || by_codes.slice() != buffer.slice() {
        return Err(format!("typed listing: {got:?}, but its codes answer {answer:?}, or another buffer"));
    }
    Ok(())
}

fn compare_typed_quick(engine: &dyn Engine, case: &TypedCase) -> Result<(), String> {
    let wanted = typed::typed_quick(&case.section, &case.families, &case.text, case.work_len);

    let (text, section, families) = (LentText::of(&case.text), case.section.clone(), case.families.clone());
    let mut work = Lent::some_noise(case.text.len() + 5, case.work_len);
    let got = engine.typed_quick(&section, &families, text.slice(), work.slice());
    if got != wanted {
        return Err(format!("typed quick: {got:?}, but {wanted:?} is right"));
    }
    text.unchanged(&case.text)?;
    inputs_unchanged(&section, &families, case)?;
    work.untouched_around("typed quick: working memory")?;

    let Ok(codes) = typed::read(&case.text) else { return Ok(()) };
    let answer = engine.quick(&section, &families, &typed::numbers(&codes), work.slice());
    if answer != got {
        return Err(format!("typed quick: {got:?}, but its codes answer {answer:?}"));
    }
    Ok(())
}

fn inputs_unchanged(section: &[u32], families: &[u32], case: &TypedCase) -> Result<(), String> {
    if section != case.section || families != case.families {
        return Err("the section or the table was written on".to_string());
    }
    Ok(())
}

/// A text to be lent. What stands on both sides of it would go on its tokens, so who reads too far reads something else.
struct LentText {
    bytes: Vec<u8>,
    text: std::ops::Range<usize>,
}

impl LentText {
    fn of(text: &[u8]) -> LentText {
        let (before, behind): (&[u8], &[u8]) = match text.last() {
            Some(b'a'..=b'z') => (b"(ftnot", b"x ftand"),
            Some(b'"') if text.len().is_multiple_of(2) => (b"\"1\"ftor", b"ftor\"1\""),
            Some(b'"') => (b"\"1\"ftor", b"occurs at most 1 times"),
            Some(b'0'..=b'9') => (b"\"1", b"0\" words"),
            _ => (b"(", b"\"1\")"),
        };
        LentText { bytes: [before, text, behind].concat(), text: before.len()..before.len() + text.len() }
    }

    fn slice(&self) -> &[u8] {
        &self.bytes[self.text.clone()]
    }

    fn unchanged(&self, text: &[u8]) -> Result<(), String> {
        if self.bytes != LentText::of(text).bytes {
            return Err("the text was written on".to_string());
        }
        Ok(())
    }
}

/// Bounds on both sides of every edge.
fn snippet_bounds(section: &[u32]) -> Vec<(u32, u32)> {
    let n = section::read(section).map_or(section.len() as u32 / 2, |accepted| accepted.n());
    let (middle, most) = (n / 2, u32::MAX);
    vec![
        (1, n),
        (0, n),
        (1, n.saturating_add(1)),
        (1, 1),
        (n, n),
        (n.saturating_add(1), n.saturating_add(1)),
        (middle, middle.saturating_add(1)),
        (middle.saturating_add(1), middle),
        (middle, n),
        (0, 0),
        (1, 0),
        (1, most),
        (most, most),
        (most, 1),
        (1 << 31, (1 << 31) + 1),
    ]
}

/// Copies of what is lent to be read, to see that it is only read.
struct Inputs {
    section: Vec<u32>,
    families: Vec<u32>,
    selection: Vec<u32>,
}

impl Inputs {
    fn of(case: &Case) -> Inputs {
        let (section, families) = (case.section.clone(), case.families.clone());
        Inputs { section, families, selection: case.selection.clone() }
    }

    fn unchanged(&self, case: &Case) -> Result<(), String> {
        let Inputs { section, families, selection } = self;
        if (section, families, selection) != (&case.section, &case.families, &case.selection) {
            return Err("the section, the table or the selection was written on".to_string());
        }
        Ok(())
    }
}

/// How many numbers stand watch on either side of a lent slice.
const WATCH: usize = 64;
const WATCHWORD: u32 = 0xA5C3_96E1;

/// A slice to be lent, with numbers on both sides that must stay.
struct Lent {
    numbers: Vec<u32>,
}

impl Lent {
    fn copy(content: &[u32]) -> Lent {
        Lent { numbers: [&[WATCHWORD; WATCH], content, &[WATCHWORD; WATCH]].concat() }
    }

    /// Working memory that starts holding anything: a row of some fixed noise, from another place for each case.
    fn noise(case: &Case, salt: usize) -> Lent {
        Lent::some_noise(case.section.len() + 31 * case.selection.len() + 997 * salt, case.work_len)
    }

    fn some_noise(start: usize, length: usize) -> Lent {
        static NOISE: OnceLock<Vec<u32>> = OnceLock::new();
        let noise = NOISE.get_or_init(|| {
            let mut rng = Rng::new(0, 0);
            (0..4 * WORK).map(|_| rng.number()).collect()
        });
        let row = &noise[start % WORK..];
        match row.get(..length) {
            Some(row) => Lent::copy(row),
            None => Lent::copy(&row.iter().cycle().take(length).copied().collect::<Vec<u32>>()),
        }
    }

    fn slice(&mut self) -> &mut [u32] {
        let end = self.numbers.len() - WATCH;
        &mut self.numbers[WATCH..end]
    }

    fn untouched_around(&self, name: &str) -> Result<(), String> {
        let end = self.numbers.len() - WATCH;
        let around = self.numbers[..WATCH].iter().chain(&self.numbers[end..]);
        if around.into_iter().all(|number| *number == WATCHWORD) {
            Ok(())
        } else {
            Err(format!("{name}: written outside of it"))
        }
    }
}

#[cfg(test)]
mod tests {
    use super::*;

    #[test]
    fn what_is_written_beside_lent_memory_is_seen() {
        let mut lent = Lent::copy(&[1, 2, 3]);
        assert_eq!(lent.slice(), [1, 2, 3]);
        lent.slice().fill(9);
        assert!(lent.untouched_around("lent").is_ok());
        for at in [0, WATCH - 1, WATCH + 3, 2 * WATCH + 2] {
            let mut lent = Lent::copy(&[1, 2, 3]);
            lent.numbers[at] = 0;
            assert!(lent.untouched_around("lent").is_err());
        }
    }

    #[test]
    fn what_is_written_on_the_inputs_is_seen() {
        let case = gen::case(1, 1);
        let inputs = || Inputs::of(&case);
        assert!(inputs().unchanged(&case).is_ok());
        let (mut one, mut other) = (inputs(), inputs());
        one.selection[0] += 1;
        assert!(one.unchanged(&case).is_err());
        other.families[0] += 1;
        assert!(other.unchanged(&case).is_err());
    }
}
