//! Answers for programs.

use crate::answer::{Answer, Finds};
use crate::document::{one_line, Manual, Section};
use crate::engine::{Match, Str};
use crate::refusal::Explained;
use crate::search::Search;
use std::fmt;

enum Json {
    Null,
    Bool(bool),
    Number(usize),
    Text(String),
    List(Vec<Json>),
    Object(Vec<(&'static str, Json)>),
}

use Json::{Bool, List, Null, Number, Object, Text};

impl fmt::Display for Json {
    fn fmt(&self, f: &mut fmt::Formatter) -> fmt::Result {
        match self {
            Null => f.write_str("null"),
            Bool(value) => write!(f, "{value}"),
            Number(value) => write!(f, "{value}"),
            Text(text) => quoted(f, text),
            List(values) => {
                f.write_str("[")?;
                for (index, value) in values.iter().enumerate() {
                    write!(f, "{}{value}", if index > 0 { "," } else { "" })?;
                }
                f.write_str("]")
            }
            Object(fields) => {
                f.write_str("{")?;
                for (index, (name, value)) in fields.iter().enumerate() {
                    write!(f, "{}\"{name}\":{value}", if index > 0 { "," } else { "" })?;
                }
                f.write_str("}")
            }
        }
    }
}

fn quoted(f: &mut fmt::Formatter, text: &str) -> fmt::Result {
    f.write_str("\"")?;
    for c in text.chars() {
        match c {
            '"' | '\\' => write!(f, "\\{c}")?,
            '\u{0}'..='\u{1F}' => write!(f, "\\u{:04x}", u32::from(c))?,
            _ => write!(f, "{c}")?,
        }
    }
    f.write_str("\"")
}

fn text(text: &str) -> Json {
    Text(text.to_string())
}

/// The answers of all sections; of a no nothing is said.
pub fn answers(manual: &Manual, search: &Search, answers: &[Answer]) -> String {
    let numbered = || (1..).zip(&manual.sections);
    let split = numbered().filter(|(_, section)| section.part.count > 1);
    let sections =
        numbered().zip(answers).filter_map(|((number, asked), answer)| section(manual, number, asked, answer));
    let object = Object(vec![
        ("search", text(search.text)),
        ("unknown_words", List(search.unknown.iter().map(|word| text(word)).collect())),
        ("sections_asked", Number(answers.len())),
        ("split", List(split.map(|(number, section)| Object(about(number, section))).collect())),
        ("sections", List(sections.collect())),
    ]);
    format!("{object}\n")
}

/// A search that is refused.
pub fn refused(search: &str, why: &Explained) -> String {
    format!("{}\n", Object(vec![("search", text(search)), ("refused", refusal(why))]))
}

/// A refusal: the engine's number and place, what it says, and where in the search, in bytes from 0.
fn refusal(why: &Explained) -> Json {
    let mut fields = vec![
        ("number", Number(why.refusal.number as usize)),
        ("place", Number(why.refusal.place)),
        ("says", text(&why.what)),
    ];
    if let Some(place) = &why.place {
        fields.push(("from_byte", Number(place.start)));
        fields.push(("to_byte", Number(place.end)));
    }
    Object(fields)
}

fn about(number: usize, section: &Section) -> Vec<(&'static str, Json)> {
    vec![
        ("section", Number(number)),
        ("heading", section.heading.as_deref().map_or(Null, text)),
        ("part", Number(section.part.number)),
        ("parts", Number(section.part.count)),
        ("line", Number(section.line)),
    ]
}

/// A section's answer; nothing for a no.
fn section(manual: &Manual, number: usize, section: &Section, answer: &Answer) -> Option<Json> {
    let mut fields = about(number, section);
    match answer {
        Answer::No(_) => return None,
        Answer::Yes(found) => {
            fields.push(("answer", text("yes")));
            fields.extend(finds(manual, section, found));
        }
        Answer::Unlisted(why) => fields.extend([("answer", text("yes")), ("listing_refused", refusal(why))]),
        Answer::Refused(why) => fields.extend([("answer", text("refused")), ("refused", refusal(why))]),
    }
    Some(Object(fields))
}

fn finds(manual: &Manual, section: &Section, finds: &Finds) -> Vec<(&'static str, Json)> {
    let strings = |strings: &[Str]| List(strings.iter().map(|found| string(manual, section, found)).collect());
    let listed =
        |found: &Match| Object(vec![("includes", strings(&found.includes)), ("excludes", strings(&found.excludes))]);
    let passed = finds.passed.iter().map(|passed| {
        Object(vec![
            ("phrase", Number(passed.phrase)),
            ("typed", text(&passed.typed)),
            ("finds", strings(&passed.finds)),
        ])
    });
    vec![
        ("matches", List(finds.matches.iter().map(listed).collect())),
        ("deciding", Number(finds.deciding + 1)),
        ("not_excluded", List(passed.collect())),
    ]
}

fn string(manual: &Manual, section: &Section, string: &Str) -> Json {
    let bytes = section.bytes(string);
    Object(vec![
        ("phrase", Number(string.query)),
        ("start", Number(string.start)),
        ("end", Number(string.end)),
        ("contiguous", Bool(string.contiguous)),
        ("line", Number(manual.line(bytes.start))),
        ("text", Text(one_line(&manual.text()[bytes]))),
    ])
}
