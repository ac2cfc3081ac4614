//! Texts without end, for a run by hand: the proved library beside the second engine on all three typed calls.
//!
//! `FOR_SECONDS=300 SEED=7 cargo test --release --test any_texts -- --ignored --nocapture` goes on for five minutes. A third
//! of the texts are bytes, a third are tokens in a row, a third are searches that are right but for some changes. A text
//! that fails is printed as a test, to be pasted into typed.rs.

mod proved;

use proved::Proved;
use second_engine::gen::{self, Rng};
use second_engine::shrink::{shrink_typed, typed_as_rust};
use second_engine::typed::{self, MOST_BYTES};
use second_engine::typed_gen::{joined, typed_case, ALPHABET};
use second_engine::{compare_typed, selection, typed_gen, TypedCase};
use std::time::{Duration, Instant};

fn number(variable: &str) -> Option<u64> {
    std::env::var(variable).ok()?.parse().ok()
}

/// Mostly short, at times as long as a text may be, or longer.
fn any_length(rng: &mut Rng) -> usize {
    match rng.below(40) {
        0 => rng.from_to(MOST_BYTES - 4, MOST_BYTES + 4),
        1 => rng.below(MOST_BYTES),
        _ => rng.below(60),
    }
}

/// Any bytes at all, or only those of which a text may be made.
fn bytes(rng: &mut Rng) -> Vec<u8> {
    let some = b"\"\"()  0123456789abcdefimnorstuw";
    let all = rng.chance(1, 2);
    (0..any_length(rng)).map(|_| if all { rng.below(256) as u8 } else { rng.pick(some) }).collect()
}

/// Tokens in any order; now and then one that may follow.
fn tokens(rng: &mut Rng) -> Vec<u8> {
    let goes_on = rng.chance(3, 4);
    let mut words: Vec<String> = vec![];
    for _ in 0..any_length(rng) / 2 {
        let mut word = rng.pick(&ALPHABET);
        // a text goes wrong soon enough without further help
        for _ in 0..if goes_on { 20 } else { 0 } {
            if typed::begins_a_selection([words.join(" ").as_str(), word].join(" ").as_bytes()) {
                break;
            }
            word = rng.pick(&ALPHABET);
        }
        words.push(if word == "1" { rng.below(5_000).to_string() } else { word.into() });
        if words.len() > 60 {
            break;
        }
    }
    joined(rng, &words)
}

/// A search that is right, of the codes of a random case, at times of one that has an occurs.
fn right(rng: &mut Rng, seed: u64, index: usize) -> Vec<u8> {
    let case = if rng.chance(1, 4) { gen::occurs_case(seed, index) } else { gen::case(seed, index) };
    match selection::read_shape(&case.selection) {
        Ok(tree) => {
            let words = typed_gen::spelled(rng, &tree);
            joined(rng, &words)
        }
        Err(_) => typed_case(seed, index).text,
    }
}

/// A text with up to eight changes: bytes put in, taken out, changed, repeated, moved, or exchanged for those of another.
fn changed(rng: &mut Rng, mut text: Vec<u8>, other: &[u8]) -> Vec<u8> {
    for _ in 0..rng.pick(&[0, 0, 0, 1, 1, 1, 2, 3, 8]) {
        let (mut from, mut to) = (rng.below(text.len() + 1), rng.below(text.len() + 1));
        if to < from {
            (from, to) = (to, from);
        }
        let part = text[from..to].to_vec();
        let byte = if rng.chance(1, 4) { rng.below(256) as u8 } else { rng.pick(b"\"() 09azfnotrd") };
        match rng.below(8) {
            0 => text.insert(from, byte),
            1 if from < text.len() => text[from] = byte,
            2 if from < text.len() => drop(text.remove(from)),
            3 => drop(text.splice(from..to, [])),
            4 => drop(text.splice(from..from, part)),
            5 => {
                let at = rng.below(other.len() + 1);
                text.splice(from.., other[at..].iter().copied());
            }
            6 => {
                let word = rng.pick(&ALPHABET);
                text.splice(from..from, word.bytes());
            }
            _ => text.splice(from..from, vec![byte; rng.from_to(1, 9)]).for_each(drop),
        }
        text.truncate(MOST_BYTES + 9);
    }
    text
}

/// One case of a seed: a text of one of the three sorts, with a random section and lent memory.
fn any_case(seed: u64, index: usize) -> TypedCase {
    let mut rng = Rng::new(seed ^ 0x7E87, index as u64);
    let mut case = typed_case(seed, index);
    case.text = match index % 3 {
        0 => bytes(&mut rng),
        1 => tokens(&mut rng),
        _ => {
            let text = right(&mut rng, seed, index);
            changed(&mut rng, text, &case.text)
        }
    };
    case
}

#[test]
#[ignore = "goes on for FOR_SECONDS, 60 if that isn't set"]
fn any_texts() {
    let (seed, begun) = (number("SEED").unwrap_or(1), Instant::now());
    let end = Duration::from_secs(number("FOR_SECONDS").unwrap_or(60));
    let (mut tried, mut read) = (0, 0);
    while begun.elapsed() < end {
        let case = any_case(seed, tried);
        if let Err(wrong) = compare_typed(&Proved, &case) {
            let small = shrink_typed(&case, &|case| compare_typed(&Proved, case).is_err());
            let test = typed_as_rust(&small, &format!("any_text_of_seed_{seed}_case_{tried}"));
            panic!("seed {seed}, text {tried}, {}: {wrong}\n\n{test}", case.text.escape_ascii());
        }
        read += usize::from(typed::read(&case.text).is_ok());
        tried += 1;
        if tried % 100_000 == 0 {
            println!("{tried} texts after {:?}", begun.elapsed());
        }
    }
    println!("seed {seed}: {tried} texts agree, {read} of them without an error, {:?}", begun.elapsed());
}
