//! Answers for people.

use crate::answer::{Answer, Finds, Passed};
use crate::document::{one_line, Manual, Part, Section, Token};
use crate::engine::{Match, Str};
use crate::refusal::Explained;
use crate::tokens::is_accent;
use std::fmt::Write;
use std::ops::{Range, RangeInclusive};

/// What stands before and after something marked.
type Sign = (&'static str, &'static str);

/// How includes, excludes and headings are marked.
pub struct Marks {
    include: Sign,
    exclude: Sign,
    heading: Sign,
}

pub const BRACKETS: Marks = Marks { include: ("[", "]"), exclude: ("{", "}"), heading: ("", "") };
pub const COLORS: Marks =
    Marks { include: ("\x1b[1;32m", "\x1b[0m"), exclude: ("\x1b[1;31m", "\x1b[0m"), heading: ("\x1b[1m", "\x1b[0m") };

/// What is shown of a section: the matches without excludes together, or every match by itself.
#[derive(Clone, Copy, Debug, PartialEq, Eq)]
pub enum View {
    Finds,
    AllMatches,
}

pub struct Page<'a> {
    pub manual: &'a Manual,
    pub search: &'a str,
    pub marks: Marks,
    pub view: View,
}

impl Page<'_> {
    /// The sections that say yes or are refused, or no with matches that are to be shown; and how many they are.
    pub fn answers(&self, answers: &[Answer]) -> String {
        let sections = (1..).zip(self.manual.sections.iter().zip(answers));
        let text: String = sections.map(|(number, (section, answer))| self.section(number, section, answer)).collect();
        let yes = answers.iter().filter(|answer| answer.is_yes()).count();
        let refused = match answers.iter().filter(|answer| answer.is_refused()).count() {
            0 => String::new(),
            refused => format!(", {refused} can't be answered"),
        };
        let sections = if answers.len() == 1 { "section" } else { "sections" };
        let say = if yes == 1 || answers.len() == 1 { "says" } else { "say" };
        format!("{text}{yes} of {} {sections} {say} yes{refused}.\n", answers.len())
    }

    /// A section's answer; nothing for a no without matches.
    fn section(&self, number: usize, section: &Section, answer: &Answer) -> String {
        let said = match answer {
            Answer::No(matches) if matches.is_empty() => return String::new(),
            Answer::No(matches) => format!("{}  No: every match is excluded.\n", self.all_matches(section, matches)),
            Answer::Yes(finds) => self.finds(section, finds),
            Answer::Unlisted(why) => {
                indented(&format!("Yes, but its matches can't be listed: {}", explained(why, self.search)))
            }
            Answer::Refused(why) => indented(&format!("Neither yes nor no is known: {}", explained(why, self.search))),
        };
        let (on, off) = self.marks.heading;
        format!("{on}Section {number}, line {}: {}{off}\n{said}\n", section.line, title(section))
    }

    fn finds(&self, section: &Section, finds: &Finds) -> String {
        let shown = match self.view {
            View::Finds => {
                let includes: Vec<Str> = finds.free().flat_map(|found| found.includes.clone()).collect();
                self.sentences(section, &includes, &[])
            }
            View::AllMatches => self.all_matches(section, &finds.matches),
        };
        let (number, count) = (finds.deciding + 1, finds.matches.len());
        let includes = self.included(section, &finds.matches[finds.deciding]);
        let passed: String =
            finds.passed.iter().map(|passed| format!(", not excluded by {}", self.passed(section, passed))).collect();
        format!("{shown}  Match {number} of {count} decides: {includes}{passed}.\n")
    }

    /// Every match; equal ones that follow each other are shown once.
    fn all_matches(&self, section: &Section, matches: &[Match]) -> String {
        let mut text = String::new();
        let mut number = 1;
        for equal in matches.chunk_by(|one, next| one == next) {
            let last = number + equal.len() - 1;
            let name = if number == last { format!("Match {number}") } else { format!("Matches {number} to {last}") };
            let (included, excluded) = (self.included(section, &equal[0]), self.excluded(section, &equal[0]));
            let _ = writeln!(text, "  {name}: {included}, {excluded}.");
            text += &self.sentences(section, &equal[0].includes, &equal[0].excludes);
            number = last + 1;
        }
        text
    }

    fn included(&self, section: &Section, found: &Match) -> String {
        if found.includes.is_empty() {
            return "no word has to be found".to_string();
        }
        self.strings(section, &found.includes)
    }

    fn excluded(&self, section: &Section, found: &Match) -> String {
        if found.excludes.is_empty() {
            return "not excluded".to_string();
        }
        format!("excluded by {}", self.strings(section, &found.excludes))
    }

    fn strings(&self, section: &Section, strings: &[Str]) -> String {
        let strings: Vec<String> = strings.iter().map(|string| self.string(section, string)).collect();
        strings.join(" and ")
    }

    /// The words of a string, or its first two and its last one, and its line.
    fn string(&self, section: &Section, string: &Str) -> String {
        let bytes = section.bytes(string);
        let line = self.manual.line(bytes.start);
        let words: Vec<&str> = self.manual.text()[bytes].split_whitespace().collect();
        match words[..] {
            [first, second, .., last] if words.len() > 8 => format!("\"{first} {second} .. {last}\" in line {line}"),
            _ => format!("\"{}\" in line {line}", words.join(" ")),
        }
    }

    /// A phrase that the search excludes, and where the section has it all the same.
    fn passed(&self, section: &Section, Passed { typed, finds, .. }: &Passed) -> String {
        let mut lines: Vec<usize> = finds.iter().map(|find| self.manual.line(section.bytes(find).start)).collect();
        lines.dedup();
        let typed = one_line(typed);
        match lines[..] {
            [] if section.part.count > 1 => format!("{typed} (not in this part)"),
            [] => format!("{typed} (not in this section)"),
            [line] => format!("{typed} (line {line})"),
            _ => {
                let lines: Vec<String> = lines.iter().map(usize::to_string).collect();
                format!("{typed} (lines {})", lines.join(", "))
            }
        }
    }

    /// The heading and the sentences in which some of the strings lie, a line each, with their words marked.
    fn sentences(&self, section: &Section, includes: &[Str], excludes: &[Str]) -> String {
        let (includes, excludes) = (spans(includes), spans(excludes));
        let marks = [(&includes, self.marks.include), (&excludes, self.marks.exclude)];
        let mark_at = |position: usize| {
            let mut marked = marks.iter().flat_map(|(spans, sign)| spans.iter().map(move |span| (span, *sign)));
            marked.find(|(span, _)| span.contains(&position))
        };
        let words = (1..).zip(&section.tokens).map(|(position, token)| Word { token, mark: mark_at(position) });
        let words: Vec<Word> = words.collect();
        let mut text = String::new();
        for sentence in words.chunk_by(|one, next| one.token.sentence == next.token.sentence) {
            if sentence.iter().any(|word| word.mark.is_some()) {
                let bytes = section.sentence(sentence[0].token.sentence);
                let line = self.manual.line(bytes.start);
                let _ = writeln!(text, "  {line:>5}: {}", self.sentence(bytes, sentence));
            }
        }
        text
    }

    /// A sentence or a heading, with what is marked of its words between its signs. Far from these its words are left out.
    fn sentence(&self, bytes: Range<usize>, words: &[Word]) -> String {
        let runs: Vec<&[Word]> = words.chunk_by(|one, next| one.mark == next.mark).collect();
        let mut text = String::new();
        let mut at = bytes.start;
        for (index, run) in runs.iter().enumerate() {
            let (on, off) = run[0].mark.map_or(("", ""), |(_, sign)| sign);
            let is_marked = run[0].mark.is_some();
            let first = if is_marked || index > 0 { NEAR } else { 0 };
            let last = if is_marked || index + 1 < runs.len() { NEAR } else { 0 };
            let between = &self.manual.text()[at..run[0].token.bytes.start];
            text += &format!("{between}{on}{}{off}", self.shortened(run, first, last));
            at = run[run.len() - 1].token.bytes.end;
        }
        one_line(&(text + &self.manual.text()[at..bytes.end]))
    }

    /// Some words, or of many the first and the last ones.
    fn shortened(&self, words: &[Word], first: usize, last: usize) -> String {
        let text = |words: &[Word]| match words {
            [] => "",
            [one, ..] => &self.manual.text()[one.token.bytes.start..words[words.len() - 1].token.bytes.end],
        };
        if words.len() <= first + last + NEAR {
            return text(words).to_string();
        }
        format!("{} .. {}", text(&words[..first]), text(&words[words.len() - last..]))
    }
}

/// How many words are shown on either side of those that are marked, if a sentence is long.
const NEAR: usize = 20;

/// A word of a section, and the span that it is marked for, with its sign.
struct Word<'a> {
    token: &'a Token,
    mark: Option<(&'a Span, Sign)>,
}

type Span = RangeInclusive<usize>;

/// The positions of some strings; those that overlap are one span.
fn spans(strings: &[Str]) -> Vec<Span> {
    let mut strings: Vec<(usize, usize)> = strings.iter().map(|string| (string.start, string.end)).collect();
    strings.sort_unstable();
    let mut spans: Vec<(usize, usize)> = Vec::new();
    for (start, end) in strings {
        match spans.last_mut() {
            Some(last) if start <= last.1 => last.1 = last.1.max(end),
            _ => spans.push((start, end)),
        }
    }
    spans.into_iter().map(|(start, end)| start..=end).collect()
}

/// A section's heading, and which part of it this is.
fn title(section: &Section) -> String {
    let Part { number, count, .. } = section.part;
    match count {
        1 => section.name().to_string(),
        _ => format!("{} (part {number} of {count})", section.name()),
    }
}

/// What is wrong, with the refusal's number; then the search, with a caret under the place.
pub fn explained(Explained { refusal, what, place }: &Explained, search: &str) -> String {
    let what = format!("{what} (refusal {})", refusal.number);
    let Some(place) = place else { return what };
    let begin = search[..place.start].rfind('\n').map_or(0, |at| at + 1);
    let line = search[begin..].lines().next().unwrap_or("");
    // an accent takes no column of its own
    let columns = |from: usize, to: usize| search[from..to].chars().filter(|c| !is_accent(*c));
    let before: String = columns(begin, place.start).map(|c| if c == '\t' { c } else { ' ' }).collect();
    let end = place.end.min(begin + line.len());
    let under = "~".repeat(columns(place.start, end).count().saturating_sub(1));
    format!("{what}\n  {line}\n  {before}^{under}")
}

fn indented(text: &str) -> String {
    text.lines().map(|line| format!("  {line}\n")).collect()
}
