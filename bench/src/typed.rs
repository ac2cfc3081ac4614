//! The table of times of the reader, beside the second engine's.

use crate::proved::Proved;
use crate::timing::times;
use second_engine::{Engine, SecondEngine};
use std::hint::black_box;

const SELECTION: usize = 129;

/// Some texts, most as long as a text may be.
fn texts() -> Vec<(&'static str, String)> {
    let nested = |pairs: usize| format!("{}\"1\"{}", "(".repeat(pairs), ")".repeat(pairs));
    vec![
        ("one word", "\"10\"".into()),
        ("document 02's example", "\"10\" ftand \"20\" window 3 words".into()),
        ("cam and not cover", "\"1\" ftand ftnot \"2\" same sentence ordered window 6 words".into()),
        ("62 codes, filters", format!("\"1\"{}", " different paragraph".repeat(60))),
        ("63 codes, ors", format!("\"1\"{}", " ftor \"1\"".repeat(20)) + " ordered"),
        ("1,022 parentheses and back", nested(1_022)),
        ("2,048 parentheses, refused", "(".repeat(2_048)),
        ("2,045 blanks before a word", format!("{}\"1\"", " ".repeat(2_045))),
        ("2,045 zeros before a digit", format!("\"{}1\"", "0".repeat(2_045))),
        ("2,048 letters, refused", "f".repeat(2_048)),
        ("2,049 bytes, refused", "(".repeat(2_049)),
    ]
}

fn answer(engine: &dyn Engine, text: &[u8]) -> String {
    match engine.read(text, &mut [0; SELECTION]) {
        Ok(codes) => format!("{codes} codes"),
        Err(refusal) => format!("{} at {}", refusal.number, refusal.place),
    }
}

pub fn table() {
    let second = SecondEngine::new();
    println!("| text | bytes | answer | read µs | ns a byte | second µs | second / proved |\n|-|-|-|-|-|-|-|");
    for (name, text) in texts() {
        let text = text.as_bytes();
        assert_eq!(answer(&Proved, text), answer(&second, text), "{name}");
        let (mut a, mut b) = ([0; SELECTION], [0; SELECTION]);
        let [proved_time, second_time] =
            times([&mut || _ = black_box(Proved.read(black_box(text), &mut a)), &mut || {
                _ = black_box(second.read(black_box(text), &mut b))
            }]);
        println!(
            "| {name} | {} | {} | {:.2} | {:.1} | {:.2} | {:.1} |",
            text.len(),
            answer(&Proved, text),
            proved_time / 1_000.0,
            proved_time / text.len() as f64,
            second_time / 1_000.0,
            second_time / proved_time,
        );
    }
}
