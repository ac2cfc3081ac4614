//! The published examples of the W3C standard (source 001) and of "XQuery Full-Text extensions explained" (source 002), as
//! far as the selection language of document 01 and of request F-3 can express them.
//!
//! Skipped: E87, which needs a window in sentences (kind 18). That is left aside, and its kind refused as unknown, which is
//! tested instead.

use super::*;
use second_engine::json::{self, Json};
use second_engine::{Listing, Match};

fn examples() -> Json {
    json::read(include_str!("../../data/published_examples.json")).unwrap()
}

/// The sections of an example: the standard asks a query of several elements at once.
fn sections(example: &Json) -> Vec<Vec<u32>> {
    let one = |entry: &Json| {
        let numbers = |name| entry.get(name).numbers();
        section(&numbers("words"), &numbers("sentences"), &numbers("paragraphs"))
    };
    example.get("sections").list().iter().map(one).collect()
}

fn selection(example: &Json) -> Selection {
    let (kinds, operands) = (example.get("kinds").numbers(), example.get("operands").numbers());
    kinds.iter().zip(operands).fold(Selection(vec![]), |selection, (&kind, operand)| selection.then(kind, operand))
}

/// A match as the file writes it: signs and spans.
fn short(m: &Match) -> Vec<String> {
    let includes = m.includes.iter().map(|s| format!("+{}-{}", s.start, s.end));
    let excludes = m.excludes.iter().map(|s| format!("!{}-{}", s.start, s.end));
    includes.chain(excludes).collect()
}

/// "Equal copies are all listed": how many matches there are, and how many different ones, where a reading says that.
fn copies(reading: &str) -> Option<(usize, usize)> {
    let counts: Vec<usize> =
        reading.split(|c: char| !c.is_ascii_digit()).filter_map(|word| word.parse().ok()).collect();
    match counts[..] {
        [all, different] if reading.contains("different ones") => Some((all, different)),
        _ => None,
    }
}

#[test]
fn published_examples() {
    let examples = examples();
    let (mut run, mut skipped, mut copied) = (vec![], vec![], vec![]);
    for example in examples.list() {
        let id = example.get("id").text();
        let selection = selection(example);
        if !["base", "F-3"].contains(&example.get("needs").text()) {
            for section in sections(example) {
                let first = selection.0.iter().position(|code| code.kind >= 18).unwrap() as u32 + 1;
                assert_eq!(
                    listing(&section, &selection.numbers()),
                    Listing::Refused { number: 4, place: first },
                    "{id}"
                );
            }
            skipped.push(id);
            continue;
        }
        let mut answer = false;
        let mut matches = vec![];
        for section in sections(example) {
            answer |= yes(&section, &selection);
            matches.extend(second_engine::unlimited(&section, &EMPTY, &selection.numbers()).unwrap().iter().map(short));
        }

        let reading = example.get("reading").text();
        let published = *example.get("published_answer") == Json::Bool(true);
        match reading {
            // E74: document 01's distance is never negative
            "reads otherwise: answer differs" => assert_ne!(answer, published, "{id}"),
            _ => assert_eq!(answer, published, "{id}"),
        }

        // of E79 the different ones aren't listed in the published order
        if let Some((all, different)) = copies(reading) {
            assert_eq!(matches.len(), all, "{id}");
            if id == "E79" {
                matches.sort();
            }
            matches.dedup();
            assert_eq!(matches.len(), different, "{id}");
            copied.push(id);
        }
        if !example.get("published_count").is_null() {
            assert_eq!(matches.len() as i64, example.get("published_count").number(), "{id}");
        }
        if !example.get("published_matches").is_null() {
            let texts = |entry: &Json| entry.list().iter().map(|text| text.text().to_string()).collect();
            let published: Vec<Vec<String>> = example.get("published_matches").list().iter().map(texts).collect();
            assert_eq!(matches, published, "{id}");
        }
        run.push(id);
    }
    assert_eq!(skipped, ["E87"]);
    assert_eq!(copied, ["E72", "E79", "E80"]);
    assert_eq!(run.len(), 91);
}
