//! The proved engine beside the second one: every example, and random cases. Typed searches have a file of their own, typed.rs.
//!
//! `bash examples/build.sh jullpinay` builds the library that this is linked with. A case that fails is printed as a test, to be
//! pasted in here.

mod examples;
mod proved;
mod words;

use proved::Proved;
use second_engine::{hunt, hunt_families, hunt_filters, hunt_headings, hunt_occurs, Engine, Hunt};
use std::time::Instant;

fn engine() -> impl Engine {
    Proved
}

const OCCURS: u64 = 212_000;
const FILTERS: u64 = 6_000;
const HEADINGS: u64 = 40_000;
const FAMILIES: u64 = 40_000;

/// One half of a seed's cases, on which the engines have to agree: so many in release, fewer without optimisation; or as the environment says:
/// `CASES=1000000 SEED=7 cargo test ...`.
fn agree(hunt: Hunt, name: &str, all: u64, half: u64) {
    let number = |variable: &str| std::env::var(variable).ok().and_then(|text| text.parse().ok());
    let count = number("CASES").unwrap_or(if cfg!(debug_assertions) { all / 20 } else { all }) / 2;
    let seed = number("SEED").unwrap_or(1) * 2 + half;
    let begun = Instant::now();
    if let Err(wrong) = hunt(&engine(), seed, count as usize) {
        panic!("{wrong}");
    }
    println!("seed {seed}: {count} {name} agree, {:?}", begun.elapsed());
}

#[test]
fn random_cases() {
    agree(hunt, "cases", 100_000, 0);
}

/// As many more: the two run side by side.
#[test]
fn more_random_cases() {
    agree(hunt, "cases", 100_000, 1);
}

/// Occurs in every place where it may stand. Damage takes it away again in at most a twentieth of the cases, so over 200,000 have one in this test and the
/// next.
#[test]
fn random_cases_with_an_occurs() {
    agree(hunt_occurs, "cases made with an occurs", OCCURS, 0);
}

#[test]
fn more_random_cases_with_an_occurs() {
    agree(hunt_occurs, "cases made with an occurs", OCCURS, 1);
}

/// The early way out of a filter.
#[test]
fn random_cases_with_a_filter() {
    agree(hunt_filters, "cases made for a filter's early way out", FILTERS, 0);
}

#[test]
fn more_random_cases_with_a_filter() {
    agree(hunt_filters, "cases made for a filter's early way out", FILTERS, 1);
}

/// Headings, in most of them under filters about sentences. Damage takes them away again in at most a twentieth of the cases.
#[test]
fn random_cases_with_headings() {
    agree(hunt_headings, "cases made with headings", HEADINGS, 0);
}

#[test]
fn more_random_cases_with_headings() {
    agree(hunt_headings, "cases made with headings", HEADINGS, 1);
}

/// Family tables by which the phrases are found, in most of them under filters and nots; some are damaged.
#[test]
fn random_cases_with_families() {
    agree(hunt_families, "cases made with families", FAMILIES, 0);
}

#[test]
fn more_random_cases_with_families() {
    agree(hunt_families, "cases made with families", FAMILIES, 1);
}
