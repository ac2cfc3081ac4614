//! A second engine for document 01 ("The manual search engine: sections, selections, AllMatches"), by another hand; with
//! document 02's requests F-1 (typed searches), F-3 (occurs), F-4 (the early way out of a filter), F-5 (headings) and F-6
//! (word families).
//!
//! Written from the papers and the readings in docs/DECISIONS.md, to be compared with the first engine on random inputs. Its
//! method is the plainest one: a match is two vectors of strings, a list is a vector of matches, a selection is a tree, and
//! every rule is a function from lists to a list. It allocates freely and asks for no working memory; it only looks at its
//! length.
//!
//! - [`section`]: what a section is, refusals 1 and 2.
//! - [`families`]: what a family table is, refusal 13; when a word fits a token.
//! - [`selection`]: what a selection is, refusals 3 to 7 and 12, the tree.
//! - [`rules`]: every list rule of the papers, without any limit.
//! - [`sizes`]: how large a list will be, before it is made; the limits.
//! - [`engine`]: the listing, the quick answer, the snippet, the unlimited lists.
//! - [`text`]: what the program `ftlist` prints.
//! - [`agreement`]: the engine under test, and its comparison with this one.
//! - [`gen`]: seeded random cases.
//! - [`shrink`]: a failing case made smaller, and printed as a test.
//! - [`typed`]: typed searches, from a text to codes.
//! - [`typed_gen`]: seeded random texts, and every short one.
//! - [`json`]: a reader just good enough for the published examples.
//!
//! To test an engine: implement [`Engine`] for it (as `tests/proved/mod.rs` does) and call [`agreement::hunt`] with a seed and a count
//! of cases; the error is a message with a small test to paste back. [`agreement::hunt_occurs`] does the same where every case
//! has an occurs, [`agreement::hunt_filters`] on cases made for the early way out of a filter, [`agreement::hunt_headings`]
//! where every section is made with a heading, [`agreement::hunt_families`] where every case is made with a family table,
//! [`agreement::hunt_typed`] for typed searches.

pub mod agreement;
pub mod engine;
pub mod families;
pub mod gen;
pub mod json;
pub mod rules;
pub mod section;
pub mod selection;
pub mod shrink;
pub mod sizes;
pub mod text;
pub mod typed;
pub mod typed_gen;

pub use agreement::{
    compare, compare_text, compare_typed, hunt, hunt_families, hunt_filters, hunt_headings, hunt_occurs, hunt_typed,
    Engine, Hunt,
};
pub use engine::{listing, quick, snippet, unlimited, Listing, Quick, SecondEngine};
pub use families::{Families, Searched, EMPTY};
pub use gen::{cases, family_cases, filter_cases, heading_cases, occurs_cases, Case};
pub use rules::{AllMatches, Match, Str};
pub use typed_gen::{typed_cases, TypedCase};

/// A refusal: its number in the paper's table, and its place.
#[derive(Clone, Copy, Debug, PartialEq, Eq)]
pub struct Refusal {
    pub number: u32,
    pub place: u32,
}

impl Refusal {
    pub fn new(number: u32, place: usize) -> Refusal {
        Refusal { number, place: place as u32 }
    }
}

/// "Working memory (at least 12,800 u32)".
pub const WORK: usize = 12_800;

/// "A listing buffer (at least 1,282 u32)".
pub const BUFFER: usize = 1_282;
