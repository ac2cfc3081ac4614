//! The table of times, all taken in one run: the least of several rounds in which the calls take turns.

use crate::cases::{self, Case};
use crate::least;
use crate::proved::Proved;
use crate::{listing, quick, Lent, LOOKED_FOR};
use second_engine::{Listing, Quick, SecondEngine};
use std::hint::black_box;
use std::time::{Duration, Instant};

const ROUNDS: usize = 60;
const ROUND: Duration = Duration::from_micros(500);

/// Where a difference of two times is asked for, so that both have rounds in which the machine is fast.
const MORE_ROUNDS: usize = 1_000;

/// What the quick answer's time over the plain loop's is to be at most, and where.
const TARGET: f64 = 0.15;
const TARGET_CASE: &str = "absent word, 4,096 tokens";

/// What the time on a word in a family of four is to be at most, over that on a plain one, and where besides.
const FAMILY_TARGET: f64 = 4.0;
const LISTED_CASE: &str = "common word, 4,096 tokens";

/// Nanoseconds a call.
fn time(call: &mut dyn FnMut()) -> f64 {
    let begun = Instant::now();
    let mut calls = 0;
    while begun.elapsed() < ROUND {
        call();
        calls += 1;
    }
    begun.elapsed().as_nanos() as f64 / f64::from(calls)
}

/// The least of the rounds, for each call.
pub fn times<const N: usize>(calls: [&mut dyn FnMut(); N]) -> [f64; N] {
    times_of(ROUNDS, calls)
}

fn times_of<const N: usize>(rounds: usize, mut calls: [&mut dyn FnMut(); N]) -> [f64; N] {
    let mut best = [f64::INFINITY; N];
    for _ in 0..rounds {
        for (call, best) in calls.iter_mut().zip(&mut best) {
            *best = best.min(time(call));
        }
    }
    best
}

struct Row {
    proved: [f64; 2],
    second: [f64; 2],
    plain: f64,
    vectorised: f64,
}

fn row(case: &Case) -> Row {
    let second = SecondEngine::new();
    let [mut a, mut b, mut c, mut d] = [(); 4].map(|()| Lent::new());
    assert_eq!(listing(&Proved, case, &mut a), listing(&second, case, &mut b), "{}", case.name);
    assert_eq!(quick(&Proved, case, &mut c), quick(&second, case, &mut d), "{}", case.name);
    assert_eq!(least::plain(&case.section, LOOKED_FOR), least::vectorised(&case.section, LOOKED_FOR), "{}", case.name);
    let [listing_proved, listing_second, quick_proved, quick_second, plain, vectorised] = times([
        &mut || _ = black_box(listing(&Proved, case, &mut a)),
        &mut || _ = black_box(listing(&second, case, &mut b)),
        &mut || _ = black_box(quick(&Proved, case, &mut c)),
        &mut || _ = black_box(quick(&second, case, &mut d)),
        &mut || _ = black_box(least::plain(black_box(&case.section), black_box(LOOKED_FOR))),
        &mut || _ = black_box(least::vectorised(black_box(&case.section), black_box(LOOKED_FOR))),
    ]);
    Row { proved: [listing_proved, quick_proved], second: [listing_second, quick_second], plain, vectorised }
}

fn answers(case: &Case) -> String {
    let mut lent = Lent::new();
    let listed = match listing(&Proved, case, &mut lent) {
        Listing::Listed { matches, strings, yes } => format!("{} {matches} {strings}", if yes { "yes" } else { "no" }),
        Listing::Refused { number, place } => format!("{number} at {place}"),
    };
    let answered = match quick(&Proved, case, &mut lent) {
        Quick::Answered { yes, codes } => format!("{}, {codes}", if yes { "yes" } else { "no" }),
        Quick::Refused { number, place } => format!("{number} at {place}"),
    };
    format!("{listed} | {answered}")
}

fn print_heads() {
    let heads = [
        "case",
        "listing: yes or no, M, S",
        "quick: yes or no, codes",
        "listing µs",
        "second µs",
        "second / proved",
        "quick µs",
        "second µs",
        "second / proved",
        "loop µs",
        "quick / loop",
        "vectorised µs",
        "quick / vectorised",
    ];
    println!("| {} |", heads.join(" | "));
    println!("|{}", "-|".repeat(heads.len()));
}

fn print_row(case: &Case, Row { proved, second, plain, vectorised }: &Row) {
    let call = |call: usize| {
        let ratio = second[call] / proved[call];
        format!("{:.2} | {:.2} | {ratio:.1}", proved[call] / 1_000.0, second[call] / 1_000.0)
    };
    println!(
        "| {} | {} | {} | {} | {:.2} | {:.2} | {:.2} | {:.2} |",
        case.name,
        answers(case),
        call(0),
        call(1),
        plain / 1_000.0,
        proved[1] / plain,
        vectorised / 1_000.0,
        proved[1] / vectorised,
    );
}

type Which = fn(&Case) -> bool;

fn print_means(cases: &[Case], rows: &[Row]) {
    let mean = |which: Which, call: usize| {
        let rows = cases.iter().zip(rows).filter(|(case, _)| which(case)).map(|(_, row)| row);
        let logs: Vec<f64> = rows.map(|row| (row.second[call] / row.proved[call]).ln()).collect();
        (logs.iter().sum::<f64>() / logs.len() as f64).exp()
    };
    let groups: [(&str, Which); 3] = [
        ("the cases named without a table", |case| !case.found && !case.has_table()),
        ("those with a table", |case| !case.found && case.has_table()),
        ("all, with those found", |_| true),
    ];
    for (name, which) in groups {
        let (listing, quick) = (mean(which, 0), mean(which, 1));
        println!("\nGeometric means of second / proved over {name}: listing {listing:.1}, quick {quick:.1}.");
    }
}

/// What a table of 2,048 costs where the word isn't in it, and where it is in a family of four; timed by turns.
fn print_family_reach(cases: &[Case]) {
    let case = |name: &str, rest: &str| {
        let name = format!("{name}{rest}");
        cases.iter().find(|case| case.name == name).expect(&name)
    };
    let [absent, checked, absent_of_four] =
        ["", ", table of 2,048", ", in a family of four"].map(|rest| case(TARGET_CASE, rest));
    let [common, common_of_four] = ["", ", in a family of four"].map(|rest| case(LISTED_CASE, rest));
    let [mut a, mut b, mut c, mut d, mut e] = [(); 5].map(|()| Lent::new());
    let calls: [&mut dyn FnMut(); 5] = [
        &mut || _ = black_box(quick(&Proved, absent, &mut a)),
        &mut || _ = black_box(quick(&Proved, checked, &mut b)),
        &mut || _ = black_box(quick(&Proved, absent_of_four, &mut c)),
        &mut || _ = black_box(listing(&Proved, common, &mut d)),
        &mut || _ = black_box(listing(&Proved, common_of_four, &mut e)),
    ];
    let [absent, checked, absent_of_four, common, common_of_four] = times_of(MORE_ROUNDS, calls);
    let check = checked - absent;
    println!("\nThe table's check, {TARGET_CASE}, table of 2,048: {check:.0} ns, {checked:.0} for {absent:.0}.");
    println!(
        "\nA word in a family of four, table of 2,048, over a plain word: the quick answer on {TARGET_CASE}: {:.2}, the listing of {LISTED_CASE}: {:.2}, to be at most {FAMILY_TARGET}.",
        absent_of_four / absent,
        common_of_four / common,
    );
}

pub fn table() {
    print_heads();
    let cases = cases::all();
    let mut rows = vec![];
    for case in &cases {
        let row = row(case);
        print_row(case, &row);
        rows.push(row);
    }
    print_means(&cases, &rows);
    let target = cases.iter().position(|case| case.name == TARGET_CASE).expect("the target's case");
    let reached = rows[target].proved[1] / rows[target].plain;
    println!("\nThe quick answer over the plain loop, {TARGET_CASE}: {reached:.2}, to be at most {TARGET}.");
    print_family_reach(&cases);
}
