//! `bench` prints the table of times, `bench typed` that of the reader; `bench once` runs each case once and `bench longest` writes what `ftlist` reads, for
//! `bench/count`; `bench cases` prints the cases for `bench/compare`, and `bench filters` those of its own table of filters; `bench search SECONDS SEED [KIND]...`
//! looks for the accepted inputs that cost most, some kinds left out, and `bench slower` for those that cost most beside the second engine.

mod cases;
mod families;
mod filters;
mod least;
mod notation;
#[path = "../../tests/tests/proved/mod.rs"]
mod proved;
mod search;
mod timing;
mod typed;

use cases::Case;
use proved::Proved;
use search::Aim;
use second_engine::{text, Engine, Listing, Quick, SecondEngine, BUFFER, WORK};
use std::hint::black_box;
use std::io::Write;

/// What is lent, kept from call to call and not cleared between them.
struct Lent {
    work: Vec<u32>,
    buffer: Vec<u32>,
}

impl Lent {
    fn new() -> Lent {
        Lent { work: vec![0; WORK], buffer: vec![0; BUFFER] }
    }
}

fn listing(engine: &dyn Engine, case: &Case, lent: &mut Lent) -> Listing {
    let (section, families, selection) = black_box((&case.section, &case.families, &case.selection));
    engine.listing(section, families, selection, &mut lent.work, &mut lent.buffer)
}

fn quick(engine: &dyn Engine, case: &Case, lent: &mut Lent) -> Quick {
    let (section, families, selection) = black_box((&case.section, &case.families, &case.selection));
    engine.quick(section, families, selection, &mut lent.work)
}

type Least = fn(&[u32], u32) -> Option<bool>;

/// The word that the loops look for.
const LOOKED_FOR: u32 = 9;

/// Counted by callgrind: one call, whatever it is.
#[no_mangle]
#[inline(never)]
fn counted(call: &mut dyn FnMut()) {
    call();
}

fn once() {
    let mut lent = Lent::new();
    let engines: [(&str, &dyn Engine); 2] = [("proved", &Proved), ("second", &SecondEngine::new())];
    for case in cases::all() {
        for (name, engine) in engines {
            counted(&mut || _ = black_box(listing(engine, &case, &mut lent)));
            println!("{}|{name}|listing", case.name);
            counted(&mut || _ = black_box(quick(engine, &case, &mut lent)));
            println!("{}|{name}|quick", case.name);
        }
        for (name, least) in [("plain", least::plain as Least), ("vectorised", least::vectorised)] {
            counted(&mut || _ = black_box(least(black_box(&case.section), black_box(LOOKED_FOR))));
            println!("{}|loop|{name}", case.name);
        }
    }
}

/// A case a paragraph: its name, the section, the family table, the selection; each slice with its length first.
fn print_cases(cases: &[Case]) {
    for case in cases {
        println!("{}", case.name);
        for slice in [&case.section, &case.families, &case.selection] {
            let numbers: Vec<String> = slice.iter().map(u32::to_string).collect();
            println!("{} {}", slice.len(), numbers.join(" "));
        }
    }
}

/// Writes what `ftlist` reads for a listing of as many strings as a list may have, each of the longest text: positions of four digits,
/// query positions of two.
fn write_longest() {
    let section = notation::section("0*4062 1*17 2*17");
    let selection = notation::selection(&format!("9 {}1-1 2-2 and or", "9 or ".repeat(8)));
    std::io::stdout().write_all(&text::bytes(&section, &selection)).expect("standard output");
}

fn main() {
    let arguments: Vec<String> = std::env::args().skip(1).collect();
    let arguments: Vec<&str> = arguments.iter().map(String::as_str).collect();
    match arguments[..] {
        [] => timing::table(),
        ["typed"] => typed::table(),
        ["once"] => once(),
        ["cases"] => print_cases(&cases::all()),
        ["filters"] => print_cases(&filters::all()),
        ["longest"] => write_longest(),
        [aim @ ("search" | "slower"), seconds, seed, ref without @ ..] => {
            let aim = if aim == "search" { Aim::Time } else { Aim::Ratio };
            let number = |text: &str| text.parse::<u64>().expect("a number");
            let without: Vec<u32> = without.iter().map(|kind| number(kind) as u32).collect();
            search::search(aim, number(seconds), number(seed), &without);
        }
        _ => panic!(
            "bench, bench typed, bench once, bench longest, bench cases, bench filters, or bench search|slower SECONDS SEED [KIND LEFT OUT]..."
        ),
    }
}
