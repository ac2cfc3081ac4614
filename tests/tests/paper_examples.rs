//! The files of the program `paper_examples`: its examples are document 01's, and what it must print is what this engine says
//! of them.

mod words;

use second_engine::{quick, text, Quick, EMPTY, WORK};
use std::fs;
use words::examples::{examples, Example};
use words::numbers;

fn file(name: &str) -> String {
    let path = format!("{}/../crates/paper_examples/{name}", env!("CARGO_MANIFEST_DIR"));
    fs::read_to_string(&path).unwrap_or_else(|error| panic!("{path}: {error}"))
}

/// The listing's text, of one with over 20 matches its first line; the quick answer.
fn expected(example: &Example) -> String {
    let listing = text::ftlist(&text::bytes(&example.section, &example.selection));
    let lines = if listing.lines().count() > 1 + 20 { 1 } else { usize::MAX };
    let shown: String = listing.lines().take(lines).map(|line| format!("{line}\n")).collect();
    let quick = match quick(&example.section, &EMPTY, &example.selection, WORK) {
        Quick::Refused { number, place } => format!("refused {number} {place}"),
        Quick::Answered { yes, codes } => {
            format!("{}, {codes} code{}", if yes { "yes" } else { "no" }, if codes == 1 { "" } else { "s" })
        }
    };
    format!("{}\n{shown}quick: {quick}\n\n", example.name)
}

#[test]
fn stdin_has_the_examples() {
    let stdin = file("stdin");
    let lines: Vec<&str> = stdin.lines().collect();
    let examples = examples();
    assert_eq!(lines.len(), 3 * examples.len());
    for (three, example) in lines.chunks(3).zip(&examples) {
        assert_eq!(three[0], example.name);
        assert!(numbers(three[1]) == example.section, "the section of {}", example.name);
        assert!(numbers(three[2]) == example.selection, "the selection of {}", example.name);
    }
}

#[test]
fn stdout_has_their_answers() {
    let wanted: String = examples().iter().map(expected).collect();
    let stdout = file("stdout");
    for (line, (found, wanted)) in stdout.lines().zip(wanted.lines()).enumerate() {
        assert_eq!(found, wanted, "line {}", line + 1);
    }
    assert_eq!(stdout, wanted);
}
