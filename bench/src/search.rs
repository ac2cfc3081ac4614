//! A search for the accepted inputs that cost most, or most beside the second engine: hill climbing from random and from
//! hand-made inputs, by time. All have the empty table; what costs most with a table is `families::dearest`.

use crate::cases::Case;
use crate::notation;
use crate::proved::Proved;
use crate::{listing, quick, Lent};
use second_engine::gen::Rng;
use second_engine::selection::{self, Code};
use second_engine::{Engine, Listing, Quick, SecondEngine, EMPTY};
use std::hint::black_box;
use std::time::{Duration, Instant};

/// What is looked for.
#[derive(Clone, Copy)]
pub enum Aim {
    /// the inputs that take longest
    Time,
    /// the inputs that are answered and take longest beside the second engine
    Ratio,
}

/// How many calls the least time is taken of.
const CALLS: usize = 15;

#[derive(Clone)]
struct Input {
    words: Vec<u32>,
    sentence: u32,
    paragraph: u32,
    codes: Vec<Code>,
}

/// From where the climbing begins, besides random inputs: each rule where it has most to do, some of them many times.
fn beginnings() -> Vec<Input> {
    let mut beginnings = vec![];
    let mut add = |section: &str, selection: String| beginnings.push(Input::read(section, &selection));
    add("1*256 2*256", format!("1 {}", "2 mild ".repeat(20)));
    add("1*256", format!("1-1 {}", "1 mild ".repeat(19)));
    add("1*16 2*16 3*8 4*8", format!("1 2 and {}", "1 3 and 2 4 and or mild ".repeat(4)));
    add("1*256 2 3 4 5 6 7 8 9*64", format!("1 {}", "2 3 and 4 and 5 and 6 and 7 and 8 and 9 and mild ".repeat(2)));
    add("5*128 1*2", format!("1-1 window:256 {}", "5 1 and mild ".repeat(10)));
    add("1 2*256", format!("1 2 and {}", "1 window:256 mild ".repeat(14)));
    add("1 2*256 3*256", format!("1 2 and {}", "1 3 and mild ".repeat(9)));
    add("1 2 3*170 4*256", format!("1-2 4 and {}", "2 1 and 3 and mild ".repeat(6)));
    add("1 2 3 4 5*102 6*256", format!("1-2-3-4 6 and {}", "4 3 and 2 and 1 and 5 and mild ".repeat(3)));
    add("1 2", format!("1-2 window:257 1 and {}", "1 window:256 mild ".repeat(14)));
    add("1 2 3", format!("1-2-3 window:258 {}", "1 window:256 3 and mild ".repeat(8)));
    add("1 3 2*170 4*170", format!("1 2 and 3 and {}", "1 4 and 3 and mild ".repeat(5)));
    add(&format!("1 2 4 5 6 7 8 {}", "3 20 3 21 3 22 3 23 ".repeat(15)), eight_words());
    add("1*256 2 3*200", "1 2 not and 3 not and window:2".into());
    add("1*256 2", format!("2 {}", "1 not and window:200 ".repeat(6)));
    add("1*4096", "1-1-1-1-1-1-1-9 1-1-1-1-1-1-9 or".into());
    add("1*16 2*16 s16 p16", format!("1 2 and {}", "ordered ".repeat(59)));
    add("1*16 2*16 s16 p16", format!("1 2 and {}", "different-sentence ".repeat(59)));
    add("1*16 2*16 s16 p16", format!("1 {}", "2 and ".repeat(20)));
    add("1 2 3 4 5 6 7 8", format!("1 2 and 3 and 4 and 5 and 6 and 7 and 8 and {}", "ordered ".repeat(40)));
    add("1*22", format!("1 least:21 {}", "1 least:21 mild ".repeat(15)));
    add("1*7", format!("1 occurs:6-6 {}", "ordered ".repeat(59)));
    add("1*7", format!("1 least:0 {}", "ordered ".repeat(60)));
    beginnings
}

/// Phrases that begin with one word, in turn, by matches of eight words.
fn eight_words() -> String {
    let left = "3-20 3-21 or 3-22 or 3-23 or";
    format!("{left} 1 2 and 4 and 5 and 6 and 7 and 8 and 3 and mild")
}

impl Input {
    fn read(section: &str, selection: &str) -> Input {
        let words = notation::section(section);
        let n = words[0] as usize;
        Input { words: words[1..=n].to_vec(), sentence: 0, paragraph: 0, codes: notation::codes(selection) }
    }

    fn case(&self) -> Case {
        Case {
            name: String::new(),
            section: notation::section_of(self.words.clone(), self.sentence, self.paragraph),
            families: EMPTY.to_vec(),
            selection: selection::numbers(&self.codes),
            found: true,
        }
    }

    fn text(&self) -> String {
        let section = notation::section_text(&self.words, self.sentence, self.paragraph);
        format!("{section} | {}", notation::selection_text(&self.codes))
    }

    fn is_accepted(&self) -> bool {
        self.words.len() <= 4_096 && selection::read(&selection::numbers(&self.codes)).is_ok()
    }
}

/// The codes of the part that ends with the code at this index.
fn part(codes: &[Code], end: usize) -> std::ops::RangeInclusive<usize> {
    let (mut need, mut at) = (1i32, end);
    loop {
        match codes[at].kind {
            0 => {}
            1 => {
                at -= codes[at].operand as usize;
                need -= 1;
            }
            2 | 3 | 5 => need += 1,
            _ => {}
        }
        if need == 0 || at == 0 {
            return at..=end;
        }
        at -= 1;
    }
}

fn unary(rng: &mut Rng) -> Code {
    let kind = rng.pick(&[4, 4, 6, 7, 7, 8, 8, 9, 10, 11, 12, 13, 14, 15]);
    let operand = match kind {
        7 => rng.pick(&[1, 2, 3, 16, 64, 128, 256, 1_000, 4_096]),
        8 => rng.pick(&[0, 1, 1 << 16]) + rng.pick(&[1, 40, 300, 4_095]),
        _ => 0,
    };
    Code { kind, operand }
}

fn phrase(rng: &mut Rng, input: &Input) -> Vec<Code> {
    let length = rng.pick(&[1, 1, 1, 1, 2, 8]);
    let from = rng.below(input.words.len().max(1));
    let mut words: Vec<u32> = input.words.iter().skip(from).take(length).copied().collect();
    if words.is_empty() {
        words.push(1);
    }
    let mut codes: Vec<Code> = words.iter().map(|&operand| Code { kind: 0, operand }).collect();
    codes.push(Code { kind: 1, operand: words.len() as u32 });
    codes
}

fn changed(rng: &mut Rng, input: &Input, other: &Input) -> Input {
    let mut next = input.clone();
    for _ in 0..rng.from_to(1, 3) {
        let ends: Vec<usize> = (0..next.codes.len()).filter(|&at| next.codes[at].kind != 0).collect();
        let end = rng.pick(&ends);
        let range = part(&next.codes, end);
        match rng.below(13) {
            0 | 1 => next.codes.insert(end + 1, unary(rng)),
            2 => {
                if next.codes[end].kind == 4 || next.codes[end].kind >= 6 {
                    next.codes.remove(end);
                }
            }
            3 | 4 => {
                let mut more = next.codes[range].to_vec();
                more.push(Code { kind: rng.pick(&[2, 3, 5, 5]), operand: 0 });
                next.codes.splice(end + 1..end + 1, more);
            }
            5 | 6 => {
                let mut more = phrase(rng, &next);
                more.push(Code { kind: rng.pick(&[2, 3, 5, 5]), operand: 0 });
                next.codes.splice(end + 1..end + 1, more);
            }
            7 => {
                let more = phrase(rng, &next);
                next.codes.splice(range, more);
            }
            8 => {
                // a part of another input
                let ends: Vec<usize> = (0..other.codes.len()).filter(|&at| other.codes[at].kind != 0).collect();
                let more = other.codes[part(&other.codes, rng.pick(&ends))].to_vec();
                next.codes.splice(range, more);
            }
            9 => {
                if next.codes[end].kind == 7 || next.codes[end].kind == 8 {
                    let kind = next.codes[end].kind;
                    let mut code = unary(rng);
                    while code.kind != kind {
                        code = unary(rng);
                    }
                    next.codes[end] = code;
                }
            }
            10 => {
                // a run of words more, or fewer
                let at = rng.below(next.words.len() + 1);
                let word = rng.pick(&[1, 2, 3, 4, 9]);
                let count = rng.pick(&[1, 2, 16, 100, 128, 256]);
                next.words.splice(at..at, vec![word; count]);
            }
            11 => {
                let at = rng.below(next.words.len() + 1);
                let end = (at + rng.pick(&[1, 2, 16, 128])).min(next.words.len());
                next.words.drain(at..end);
            }
            _ => {
                next.sentence = rng.pick(&[0, 1, 2, 16, 4_096]);
                next.paragraph = rng.pick(&[0, 1, 2, 16, 4_096]);
            }
        }
        if next.words.is_empty() {
            next.words.push(1);
        }
    }
    next
}

/// The least time of so many calls.
fn least_time(engine: &dyn Engine, call: usize, case: &Case, times: usize, lent: &mut Lent) -> Duration {
    let once = |lent: &mut Lent| {
        let begun = Instant::now();
        match call {
            0 => _ = black_box(listing(engine, case, lent)),
            _ => _ = black_box(quick(engine, case, lent)),
        }
        begun.elapsed()
    };
    (0..times).map(|_| once(lent)).min().expect("at least one call")
}

/// Is it answered, and not refused for size?
fn is_answered(call: usize, case: &Case, lent: &mut Lent) -> bool {
    match call {
        0 => matches!(listing(&Proved, case, lent), Listing::Listed { .. }),
        _ => matches!(quick(&Proved, case, lent), Quick::Answered { .. }),
    }
}

/// What an input costs: microseconds, or, where it is answered, how often the second engine's time.
fn cost(aim: Aim, call: usize, input: &Input, times: usize, lent: &mut Lent) -> f64 {
    let case = input.case();
    let micros = |time: Duration| time.as_nanos() as f64 / 1_000.0;
    let proved = micros(least_time(&Proved, call, &case, times, lent));
    match aim {
        Aim::Time => proved,
        Aim::Ratio if !is_answered(call, &case, lent) => 0.0,
        Aim::Ratio => proved / micros(least_time(&SecondEngine::new(), call, &case, times, lent)),
    }
}

fn random(rng: &mut Rng) -> Option<Input> {
    let case = second_engine::gen::case(u64::from(rng.number()), rng.below(1_000));
    let section = second_engine::section::read(&case.section).ok()?;
    let tree = selection::read(&case.selection).ok()?;
    Some(Input { words: section.words, sentence: 0, paragraph: 0, codes: tree.codes() })
}

/// Climbs for one call after the other, each from several beginnings, and prints what it found. Some kinds may be left out,
/// to see what costs most besides them.
pub fn search(aim: Aim, seconds: u64, seed: u64, without: &[u32]) {
    let mut rng = Rng::new(seed, 0);
    let mut lent = Lent::new();
    let fits = |input: &Input| input.is_accepted() && !input.codes.iter().any(|code| without.contains(&code.kind));
    for (call, name) in ["listing", "quick"].into_iter().enumerate() {
        let begun = Instant::now();
        let mut pool: Vec<Input> = beginnings().into_iter().filter(fits).collect();
        while pool.len() < 24 {
            pool.extend(random(&mut rng).filter(fits));
        }
        let mut pool: Vec<(f64, Input)> =
            pool.into_iter().map(|input| (cost(aim, call, &input, 5, &mut lent), input)).collect();
        let mut tries = 0;
        while begun.elapsed().as_secs() < seconds {
            let (one, other) = (rng.below(pool.len()), rng.below(pool.len()));
            let next = changed(&mut rng, &pool[one].1, &pool[other].1);
            if !fits(&next) {
                continue;
            }
            tries += 1;
            // what seems to cost more is measured again, and what it is held against, too
            let dearer = |one: f64, other: f64| one > 1.02 * other;
            if dearer(cost(aim, call, &next, 2, &mut lent), pool[one].0) {
                let again = cost(aim, call, &next, CALLS, &mut lent);
                pool[one].0 = pool[one].0.min(cost(aim, call, &pool[one].1, CALLS, &mut lent));
                if dearer(again, pool[one].0) {
                    pool[one] = (again, next);
                }
            }
            // now and then the cheapest gives way to a copy of the dearest
            if tries % 5_000 == 0 {
                dearest_first(&mut pool);
                let best = pool[0].clone();
                *pool.last_mut().expect("some") = best;
            }
        }
        // what came out dearest by chance is measured once more
        for (dear, input) in &mut pool {
            *dear = cost(aim, call, input, 10 * CALLS, &mut lent);
        }
        dearest_first(&mut pool);
        println!("{name}: {tries} inputs tried");
        let mut lines: Vec<String> = pool.iter().map(|(cost, input)| format!("{cost:.2} | {}", input.text())).collect();
        lines.dedup();
        println!("{}", lines[..lines.len().min(5)].join("\n"));
    }
}

fn dearest_first(pool: &mut [(f64, Input)]) {
    pool.sort_by(|one, other| other.0.total_cmp(&one.0));
}
