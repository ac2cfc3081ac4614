//! A command carried out: what it prints, and its exit status.

use crate::answer::{Answer, Question};
use crate::command::{Color, Command, Output, HELP};
use crate::document::{Manual, Section};
use crate::families::Families;
use crate::json;
use crate::refusal::Explained;
use crate::search::Search;
use crate::show::{explained, Page, View, BRACKETS, COLORS};
use crate::words::Words;
use std::path::Path;

/// Exit statuses, as grep's.
pub const YES: u8 = 0;
pub const NO: u8 = 1;
pub const TROUBLE: u8 = 2;

/// What goes to standard output and to standard error, and the exit status.
#[derive(Debug, Default, PartialEq, Eq)]
pub struct Printed {
    pub output: Vec<u8>,
    pub errors: String,
    pub status: u8,
}

impl Printed {
    fn output(output: impl Into<Vec<u8>>) -> Printed {
        Printed { output: output.into(), ..Printed::default() }
    }

    fn trouble(wrong: &str) -> Printed {
        Printed { errors: format!("manual: {wrong}\n"), status: TROUBLE, ..Printed::default() }
    }
}

pub fn misused(wrong: &str) -> Printed {
    Printed::trouble(&format!("{wrong}; 'manual --help' says more"))
}

/// Carries out a command; `has_colors` says whether the output shows colours.
pub fn run(command: &Command, has_colors: bool) -> Printed {
    let done = match command {
        Command::Help => Ok(Printed::output(HELP)),
        Command::Words { file } => read(file).map(|manual| words(&manual)),
        Command::Encode { file, section, search } => {
            read(file).and_then(|manual| encode(&manual, *section, search.as_deref()))
        }
        Command::Search { file, families, search: text, output, color } => {
            let in_color = *color == Color::Always || *color == Color::Auto && has_colors;
            read(file).and_then(|manual| {
                let words = words_joined(&manual, families.as_deref())?;
                Ok(search(&manual, &words, text, *output, in_color))
            })
        }
    };
    let printed = done.unwrap_or_else(|wrong| Printed::trouble(&wrong));
    match command {
        Command::Search { output: Output::Quiet, .. } => Printed { status: printed.status, ..Printed::default() },
        _ => printed,
    }
}

/// The manual in a file.
fn read(file: &Path) -> Result<Manual, String> {
    let name = file.display();
    let manual = Manual::new(text(file)?);
    match (manual.text(), manual.has_words()) {
        ("", _) => Err(format!("{name} is empty")),
        (_, false) => Err(format!("{name} has no words")),
        _ => Ok(manual),
    }
}

/// The words of a manual, joined by the families in a file.
fn words_joined(manual: &Manual, families: Option<&Path>) -> Result<Words, String> {
    let words = Words::of(manual);
    let Some(file) = families else { return Ok(words) };
    let families = Families::read(&text(file)?).map_err(|wrong| format!("{}: {wrong}", file.display()))?;
    Ok(words.joined_by(families))
}

/// The text in a file.
fn text(file: &Path) -> Result<String, String> {
    let name = file.display();
    let bytes = std::fs::read(file).map_err(|error| {
        let hint = if name.to_string().contains('"') { "; the file stands before the search" } else { "" };
        format!("can't read {name}: {error}{hint}")
    })?;
    let text = String::from_utf8(bytes).map_err(|error| {
        let at = error.utf8_error().valid_up_to();
        let line = 1 + error.as_bytes()[..at].iter().filter(|&&byte| byte == b'\n').count();
        format!("{name} is not UTF-8 text: the first byte that isn't stands in line {line}")
    })?;
    // a byte order mark, and signs that would steer the terminal
    let text = text.strip_prefix('\u{FEFF}').unwrap_or(&text);
    Ok(text.replace(|c: char| c.is_control() && !c.is_whitespace(), "\u{FFFD}"))
}

fn words(manual: &Manual) -> Printed {
    let words = Words::of(manual);
    Printed::output(words.numbered().map(|(number, word)| format!("{number}\t{word}\n")).collect::<String>())
}

fn encode(manual: &Manual, number: usize, text: Option<&str>) -> Result<Printed, String> {
    let words = Words::of(manual);
    let section = number.checked_sub(1).and_then(|index| manual.sections.get(index));
    let Some(section) = section else {
        return Err(format!("there is no section {number}; they are 1 to {}", manual.sections.len()));
    };
    let mut numbers = manual.numbers(section, &words);
    let mut errors = split(manual);
    if let Some(text) = text {
        let search = Search::new(text, &words);
        let question = Question::new(&search, words.family_table()).map_err(|why| refused(&why, text))?;
        numbers.extend(question.selection);
        errors += &unknown(&search, &words);
    }
    let bytes: Vec<u8> = numbers.into_iter().flat_map(u32::to_le_bytes).collect();
    Ok(Printed { errors, ..Printed::output(bytes) })
}

fn refused(why: &Explained, search: &str) -> String {
    format!("the search is refused: {}", explained(why, search))
}

fn search(manual: &Manual, words: &Words, text: &str, output: Output, in_color: bool) -> Printed {
    let search = Search::new(text, words);
    let mut question = match (Question::new(&search, words.family_table()), output) {
        (Ok(question), _) => question,
        (Err(why), Output::Json) => return Printed { status: TROUBLE, ..Printed::output(json::refused(text, &why)) },
        (Err(why), _) => return Printed::trouble(&refused(&why, text)),
    };
    let all = output == Output::Shown(View::AllMatches);
    let ask = |section| question.ask(&manual.numbers(section, words), all);
    let answers: Vec<Answer> = manual.sections.iter().map(ask).collect();
    let printed = match output {
        Output::Quiet => Printed::default(),
        Output::Json => Printed::output(json::answers(manual, &search, &answers)),
        Output::Shown(view) => {
            let marks = if in_color { COLORS } else { BRACKETS };
            let page = Page { manual, search: text, marks, view };
            let errors = split(manual) + &unknown(&search, words);
            Printed { errors, ..Printed::output(page.answers(&answers)) }
        }
    };
    Printed { status: status(&answers), ..printed }
}

fn status(answers: &[Answer]) -> u8 {
    if answers.iter().any(Answer::is_refused) {
        TROUBLE
    } else if answers.iter().any(Answer::is_yes) {
        YES
    } else {
        NO
    }
}

/// Which words of a search the manual does not have, nor another one of their families.
fn unknown(search: &Search, words: &Words) -> String {
    let note = |word: &&str| {
        let near = words.near(word).map_or(String::new(), |near| format!("; is it '{near}'?"));
        format!("manual: the manual does not have the word '{word}'{near}\n")
    };
    search.unknown.iter().map(note).collect()
}

/// Which sections are split.
fn split(manual: &Manual) -> String {
    let sections = manual.sections.chunk_by(|_, next| next.part.number > 1);
    let note = |parts: &[Section]| {
        let is_inside = parts.iter().any(|section| section.part.is_inside);
        let inside = if is_inside { ", some beginning inside a paragraph" } else { "" };
        let (name, line, count) = (parts[0].name(), parts[0].line, parts.len());
        format!("manual: '{name}' in line {line} has over 4,096 words; it is in {count} parts{inside}, each asked by itself\n")
    };
    sections.filter(|parts| parts.len() > 1).map(note).collect()
}
