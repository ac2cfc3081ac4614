//! The tool's answers to searches of the example manual, held against those of the second engine.
//!
//! The second engine is asked in other numbers. The manual and the search are made into numbers here anew, by the rules
//! and by none of the tool's own functions, and words are numbered as they first appear. So are the families.

use manual::command::{Color, Command, Output};
use manual::run::{run, NO, TROUBLE, YES};
use second_engine::engine::SecondEngine;
use second_engine::families::{self, Searched};
use second_engine::gen::Rng;
use second_engine::json::{self, Json};
use second_engine::selection::{self, Occurs, Rule, Tree};
use second_engine::typed::{self, Pair, Reader};
use second_engine::typed_gen::typed_case;
use second_engine::{rules, section, Match, Quick, Refusal, Str, BUFFER, WORK};
use std::collections::{BTreeMap, BTreeSet, HashMap};
use std::ops::RangeInclusive;
use std::path::{Path, PathBuf};

const FILE: &str = concat!(env!("CARGO_MANIFEST_DIR"), "/../examples/manual.md");
const FAMILIES: &str = concat!(env!("CARGO_MANIFEST_DIR"), "/../examples/families.txt");

// The manual, read anew

struct Word {
    text: String,
    number: u32,
    paragraph: u32,
    sentence: u32,
    line: usize,
}

#[derive(Default)]
struct Section {
    heading: String,
    line: usize,
    words: Vec<Word>,
    /// How many sentences have begun. A heading has none.
    sentences: u32,
    /// Does the next word begin a sentence, a paragraph?
    sentence_ended: bool,
    paragraph_ended: bool,
}

/// The example manual, and its words by the order in which they first appear, and by that of their bytes. After them
/// come those of families that it does not have.
#[derive(Default)]
struct Book {
    sections: Vec<Section>,
    numbers: HashMap<String, u32>,
    sorted: Vec<String>,
    /// The family table of these numbers.
    families: Vec<u32>,
}

/// The number of a word that neither the manual nor a family has.
const NOWHERE: u32 = 4_000_000_000;

fn words(text: &str) -> impl Iterator<Item = &str> {
    text.split(|c: char| !c.is_alphanumeric()).filter(|word| !word.is_empty())
}

impl Section {
    /// The words of a line. A sentence ends with what stands before a blank and has its sign last.
    fn add(&mut self, line: usize, text: &str, is_heading: bool, numbers: &mut HashMap<String, u32>) {
        for piece in text.split_whitespace() {
            for word in words(piece) {
                let paragraph = self.words.last().map_or(0, |last| last.paragraph);
                let sentence = if is_heading { 0 } else { self.sentence() };
                let next = numbers.len() as u32 + 1;
                self.words.push(Word {
                    text: word.to_string(),
                    number: *numbers.entry(word.to_lowercase()).or_insert(next),
                    paragraph: paragraph + u32::from(std::mem::take(&mut self.paragraph_ended)),
                    sentence,
                    line,
                });
            }
            self.sentence_ended |= piece.ends_with(['.', '!', '?']);
        }
    }

    /// The number of the sentence in which the next word stands.
    fn sentence(&mut self) -> u32 {
        self.sentences += u32::from(std::mem::take(&mut self.sentence_ended));
        self.sentences
    }

    fn end_paragraph(&mut self) {
        self.paragraph_ended = true;
        self.sentence_ended = true;
    }

    fn numbers(&self) -> Vec<u32> {
        let section = section::Section {
            words: self.words.iter().map(|word| word.number).collect(),
            sentences: self.words.iter().map(|word| word.sentence).collect(),
            paragraphs: self.words.iter().map(|word| word.paragraph).collect(),
        };
        section.numbers()
    }
}

impl Book {
    /// Of the ways to write a heading, the example manual has `#` alone.
    fn example() -> Book {
        let text = std::fs::read_to_string(FILE).unwrap();
        let mut book = Book::default();
        for (line, text) in (1..).zip(text.lines()) {
            let (is_heading, is_blank) = (text.starts_with('#'), text.is_empty());
            assert!(is_heading || is_blank || text.starts_with(char::is_alphanumeric), "line {line}");
            if is_heading {
                let heading = text.trim_matches(['#', ' ']).to_string();
                book.sections.push(Section { heading, line, ..Section::default() });
            }
            let section = book.sections.last_mut().expect("the first line is a heading");
            if is_heading || is_blank {
                section.end_paragraph();
            }
            section.add(line, text, is_heading, &mut book.numbers);
            if is_heading {
                section.end_paragraph();
            }
        }
        assert!(book.sections.iter().all(|section| section.words.len() <= 4_096));
        book.sorted = book.numbers.keys().cloned().collect();
        book.sorted.sort();
        book.families = families::EMPTY.to_vec();
        book
    }

    /// Joins words, by a family in each line that is no comment. A family has the number of its last word.
    fn join(&mut self, families: &str) {
        let mut joined = BTreeMap::new();
        let mut others = BTreeSet::new();
        for line in families.lines().filter(|line| !line.starts_with('#')) {
            let family: Vec<String> = line.split(' ').filter(|word| !word.is_empty()).map(str::to_lowercase).collect();
            others.extend(family.iter().filter(|word| !self.sorted.contains(word)).cloned());
            for word in &family {
                let next = self.numbers.len() as u32 + 1;
                self.numbers.entry(word.clone()).or_insert(next);
            }
            joined.extend(family.iter().map(|word| (self.number(word), self.number(&family[family.len() - 1]))));
        }
        self.sorted.extend(others);
        self.families = families::Families(joined).numbers();
    }

    fn number(&self, word: &str) -> u32 {
        self.numbers.get(&word.to_lowercase()).copied().unwrap_or(NOWHERE)
    }

    /// The bytes of a search in the tool's numbers, by which words count from 1 in the order of their bytes, and after
    /// those of the manual the other ones of families.
    fn bytes(&self, search: &str) -> usize {
        let rank =
            |word: &str| self.sorted.iter().position(|other| *other == word.to_lowercase()).map_or(0, |at| at + 1);
        let pieces = search.split('"').enumerate().map(|(index, piece)| match index % 2 {
            0 => piece.len(),
            _ => words(piece).map(|word| rank(word).to_string()).collect::<Vec<_>>().join(" ").len(),
        });
        pieces.sum::<usize>() + search.matches('"').count()
    }
}

// The search, read anew

/// A token of a search, and the byte at which it begins.
struct Token<'a> {
    text: &'a str,
    from: usize,
    in_quotes: bool,
}

/// The tokens of a search: in quotes words, outside them what `docs/REFERENCE.md` says.
fn tokens(search: &str) -> Vec<Token<'_>> {
    let mut tokens = vec![];
    let (mut from, mut in_quotes) = (0, false);
    while let Some(first) = search[from..].chars().next() {
        let goes_on: fn(char) -> bool = match first {
            _ if in_quotes && first.is_alphanumeric() => char::is_alphanumeric,
            'a'..='z' => |c| c.is_ascii_lowercase(),
            '0'..='9' => |c| c.is_ascii_digit(),
            _ => |_| false,
        };
        let rest = &search[from + first.len_utf8()..];
        let end = search.len() - rest.trim_start_matches(goes_on).len();
        in_quotes ^= first == '"';
        let parts = if in_quotes { first != '"' && !first.is_alphanumeric() } else { first == ' ' };
        if !parts {
            tokens.push(Token { text: &search[from..end], from, in_quotes: in_quotes && first != '"' });
        }
        from = end;
    }
    tokens
}

/// A refusal: its number, and the code at which it stands or, if it is one of the text, the byte in the search.
#[derive(Debug, PartialEq, Eq)]
struct Refused {
    number: u32,
    at: Option<usize>,
}

impl From<Refusal> for Refused {
    fn from(refusal: Refusal) -> Refused {
        Refused { number: refusal.number, at: Some(refusal.place as usize) }
    }
}

impl Book {
    /// The codes of a search, in the numbers of this test.
    fn read(&self, search: &str, reader: &Reader) -> Result<Vec<Pair>, Refused> {
        if self.bytes(search) > typed::MOST_BYTES {
            return Err(Refused { number: 11, at: None });
        }
        let mut text = String::new();
        // the place of each token in the text, and where it begins in the search
        let mut places = vec![];
        for token in tokens(search) {
            places.push((text.len() + 1, token.from));
            match token.in_quotes {
                true => text += &format!("{} ", self.number(token.text)),
                false => text += &format!("{} ", token.text),
            }
        }
        places.push((text.len() + 1, search.len()));
        let from = |place: u32| places.iter().find(|(at, _)| *at == place as usize).map(|(_, from)| *from);
        reader.read(text.as_bytes()).map_err(|Refusal { number, place }| Refused { number, at: from(place) })
    }
}

// The answers

#[derive(Debug, PartialEq, Eq)]
enum Answer {
    No,
    Yes(Listed),
    Unlisted(Refused),
    Refused(Refused),
}

#[derive(Debug, PartialEq, Eq)]
struct Listed {
    matches: Vec<Match>,
    deciding: usize,
    not_excluded: Vec<Excluded>,
}

/// A phrase that might exclude, and its finds.
#[derive(Debug, PartialEq, Eq)]
struct Excluded {
    query: u32,
    typed: String,
    finds: Vec<Str>,
}

/// What the second engine answers for a section, with a family table.
fn expected(search: &str, numbers: &[u32], families: &[u32], selection: &[u32], tree: &Tree) -> Answer {
    let second = SecondEngine::new();
    match second.quick(numbers, families, selection, WORK) {
        Quick::Refused { number, place } => Answer::Refused(Refusal { number, place }.into()),
        Quick::Answered { yes: false, .. } => Answer::No,
        Quick::Answered { yes: true, .. } => match second.list(numbers, families, selection, WORK, BUFFER) {
            Err(refusal) => Answer::Unlisted(refusal.into()),
            Ok(matches) => {
                let deciding = matches.iter().position(|found| found.excludes.is_empty()).expect("it says yes");
                let (section, families) = (section::read(numbers).unwrap(), families::read(families).unwrap());
                let searched = Searched { section, families };
                let includes = &matches[deciding].includes;
                let mut seen = NotExcluded { search, searched: &searched, includes, list: vec![] };
                seen.look(tree, false, u32::MAX);
                let not_excluded = seen.list;
                Answer::Yes(Listed { matches, deciding: deciding + 1, not_excluded })
            }
        },
    }
}

/// The phrases that might exclude a match with these includes.
struct NotExcluded<'a> {
    search: &'a str,
    searched: &'a Searched,
    includes: &'a [Str],
    list: Vec<Excluded>,
}

impl NotExcluded<'_> {
    /// The phrases of a tree that stand under an odd number of nots; and the phrases with more finds than their occurs
    /// allows, with those that aren't included, if there are any.
    fn look(&mut self, tree: &Tree, odd: bool, most: u32) {
        if let Rule::Phrase { words, query } = &tree.rule {
            let finds = rules::phrase(self.searched, words, *query);
            let mut finds: Vec<Str> = finds.into_iter().map(|found| found.includes[0]).collect();
            let too_many = finds.len() > most as usize;
            if too_many {
                finds.retain(|find| self.includes.iter().all(|one| find.start < one.start || find.end > one.end));
            }
            if too_many && !finds.is_empty() || !too_many && odd {
                self.list.push(Excluded { query: *query, typed: phrase_typed(self.search, *query), finds });
            }
        }
        let most = if let Rule::Occurs(Occurs::FromTo(_, most)) = tree.rule { most } else { u32::MAX };
        for below in &tree.below {
            self.look(below, odd ^ (tree.rule == Rule::Not), most);
        }
    }
}

/// A phrase as it is typed, with its occurs. The first phrase lies after the first quote.
fn phrase_typed(search: &str, query: u32) -> String {
    let mut pieces = search.split('"').skip(2 * query as usize - 1);
    let (phrase, after) = (pieces.next().unwrap(), pieces.next().unwrap());
    let occurs = match after.trim_start().starts_with("occurs") {
        true => &after[..after.find("times").unwrap() + "times".len()],
        false => "",
    };
    format!("\"{phrase}\"{occurs}")
}

/// The JSON that the tool prints for a search, with the families of a file, and its exit status.
fn told(search: &str, families: Option<&Path>) -> (Json, u8) {
    let (file, families, search) = (FILE.into(), families.map(Path::to_path_buf), search.to_string());
    let printed = run(&Command::Search { file, families, search, output: Output::Json, color: Color::Never }, false);
    let text = String::from_utf8(printed.output).unwrap();
    (json::read(&unescaped(&text)).unwrap(), printed.status)
}

/// A text in JSON with the characters themselves for `\u` and four digits, which `json::read` does not know.
fn unescaped(text: &str) -> String {
    let mut plain = String::new();
    let mut rest = text;
    while let Some(at) = rest.find('\\') {
        let (before, escape) = rest.split_at(at);
        plain += before;
        if let Some(digits) = escape.strip_prefix("\\u") {
            plain.push(char::from(u8::from_str_radix(&digits[..4], 16).unwrap()));
            rest = &digits[4..];
        } else {
            plain += &escape[..2];
            rest = &escape[2..];
        }
    }
    plain + rest
}

fn entry<'a>(object: &'a Json, name: &str) -> Option<&'a Json> {
    let Json::Object(entries) = object else { panic!("no object: {object:?}") };
    entries.iter().find(|(key, _)| key == name).map(|(_, value)| value)
}

fn number(object: &Json, name: &str) -> usize {
    object.get(name).number() as usize
}

/// What a code of each kind begins with in a search.
const BEGINS: [&str; 18] = [
    "",
    "\"",
    "ftor",
    "ftand",
    "ftnot",
    "not",
    "ordered",
    "window",
    "distance",
    "same",
    "same",
    "different",
    "different",
    "at",
    "at",
    "entire",
    "occurs",
    "occurs",
];

/// A search, and how the tool's answers to it are read.
struct Asked<'a> {
    book: &'a Book,
    search: &'a str,
    codes: &'a [Pair],
}

impl Asked<'_> {
    /// A refusal that the tool tells. If it stands at a code, the bytes that it names are those of such a code.
    fn refused(&self, refusal: &Json) -> Refused {
        let has_bytes = entry(refusal, "from_byte").is_some();
        let bytes = has_bytes.then(|| number(refusal, "from_byte")..number(refusal, "to_byte"));
        let (number, place) = (number(refusal, "number") as u32, number(refusal, "place"));
        if let 10 | 11 = number {
            return Refused { number, at: bytes.map(|bytes| bytes.start) };
        }
        assert_eq!(has_bytes, place > 0, "{refusal:?}");
        if let Some(bytes) = bytes {
            let (kind, _) = self.codes[place - 1];
            assert!(self.search[bytes].starts_with(BEGINS[kind as usize]), "{refusal:?}");
        }
        Refused { number, at: Some(place) }
    }

    /// The answer of a section that the tool tells of.
    fn answer(&self, told: &Json) -> Answer {
        let section = &self.book.sections[number(told, "section") - 1];
        assert_eq!(told.get("heading").text(), section.heading);
        assert_eq!(["line", "part", "parts"].map(|name| number(told, name)), [section.line, 1, 1]);
        match (told.get("answer").text(), entry(told, "listing_refused")) {
            ("refused", None) => Answer::Refused(self.refused(told.get("refused"))),
            ("yes", Some(refusal)) => Answer::Unlisted(self.refused(refusal)),
            ("yes", None) => Answer::Yes(listed(told, section)),
            answer => panic!("{answer:?}"),
        }
    }

    /// The answers of all sections; those that the tool doesn't tell of say no.
    fn answers(&self, told: &Json) -> Vec<Answer> {
        let mut answers: Vec<Answer> = self.book.sections.iter().map(|_| Answer::No).collect();
        assert_eq!(number(told, "sections_asked"), answers.len());
        for section in told.get("sections").list() {
            let answer = &mut answers[number(section, "section") - 1];
            assert_eq!(*answer, Answer::No, "a section is told once");
            *answer = self.answer(section);
        }
        answers
    }
}

fn listed(told: &Json, section: &Section) -> Listed {
    let strings = |list: &Json| list.list().iter().map(|told| string(told, section)).collect::<Vec<Str>>();
    let found =
        |told: &Json| Match { includes: strings(told.get("includes")), excludes: strings(told.get("excludes")) };
    let excluded = |told: &Json| Excluded {
        query: number(told, "phrase") as u32,
        typed: told.get("typed").text().to_string(),
        finds: strings(told.get("finds")),
    };
    Listed {
        matches: told.get("matches").list().iter().map(found).collect(),
        deciding: number(told, "deciding"),
        not_excluded: told.get("not_excluded").list().iter().map(excluded).collect(),
    }
}

/// A string, whose line and text are those of its words.
fn string(told: &Json, section: &Section) -> Str {
    let [start, end, query] = ["start", "end", "phrase"].map(|name| number(told, name));
    let found = &section.words[start - 1..end];
    assert_eq!(number(told, "line"), found[0].line, "{told:?}");
    assert!(words(told.get("text").text()).eq(found.iter().map(|word| word.text.as_str())), "{told:?}");
    let contiguous = *told.get("contiguous") == Json::Bool(true);
    Str { start: start as u32, end: end as u32, query: query as u32, contiguous }
}

// The comparison

/// What was seen, so that a test can say that it was not all the same.
#[derive(Debug, Default)]
struct Seen {
    /// Refused searches, by the refusal's number.
    refused: BTreeMap<u32, usize>,
    answered: usize,
    kinds: BTreeSet<u32>,
    /// Answered searches that have an occurs.
    occurs: usize,
    /// Sections, by their answers.
    yes: usize,
    no: usize,
    unlisted: usize,
    unknown: usize,
    /// Sections that say yes with a find, by a match after the first, with what the search excludes in them, with finds
    /// of a phrase that has an occurs among it.
    found: usize,
    later: usize,
    passed: usize,
    passed_occurs: usize,
    /// The same of searches with a filter about sentences: those that say yes with what the search excludes in their heading.
    passed_headings: usize,
    /// Sections that say yes with a find in their heading.
    found_headings: usize,
    /// Searches to which some sections say yes and some no.
    mixed: usize,
    /// Sections that would answer otherwise without families.
    joined: usize,
}

impl Seen {
    fn see(&mut self, answer: &Answer, section: &Section, codes: &[Pair]) {
        match answer {
            Answer::No => self.no += 1,
            Answer::Unlisted(_) => self.unlisted += 1,
            Answer::Refused(_) => self.unknown += 1,
            Answer::Yes(listed) => {
                self.yes += 1;
                self.found += usize::from(listed.matches.iter().any(|found| !found.includes.is_empty()));
                self.later += usize::from(listed.deciding > 1);
                let has_finds = |phrase: &Excluded| !phrase.finds.is_empty();
                self.passed += usize::from(listed.not_excluded.iter().any(has_finds));
                let has_occurs = |phrase: &Excluded| has_finds(phrase) && phrase.typed.ends_with("times");
                self.passed_occurs += usize::from(listed.not_excluded.iter().any(has_occurs));
                let in_heading = |find: &Str| section.words[find.start as usize - 1].sentence == 0;
                let about_sentences = codes.iter().any(|(kind, _)| [9, 11].contains(kind));
                let passed = listed.not_excluded.iter().any(|phrase| phrase.finds.iter().any(in_heading));
                self.passed_headings += usize::from(about_sentences && passed);
                let found = listed.matches.iter().any(|found| found.includes.iter().any(in_heading));
                self.found_headings += usize::from(found);
            }
        }
    }
}

/// Prints the name of a search if the test fails in it.
struct Named<'a>(&'a str);

impl Drop for Named<'_> {
    fn drop(&mut self) {
        if std::thread::panicking() {
            println!("in the search {}", self.0);
        }
    }
}

/// The selection of a search and its tree, or why it is refused, whatever the section.
type Read = Result<(Vec<u32>, Tree), Refused>;

struct Comparison {
    book: Book,
    /// The file of its families.
    families: Option<PathBuf>,
    /// All sections in numbers.
    sections: Vec<Vec<u32>>,
    /// The second engine's reader, for texts of any length: they are longer or shorter in other numbers.
    reader: Reader,
    seen: Seen,
}

impl Comparison {
    fn new() -> Comparison {
        let book = Book::example();
        let sections = book.sections.iter().map(Section::numbers).collect();
        let reader = Reader { most_bytes: usize::MAX, ..Reader::paper() };
        Comparison { book, families: None, sections, reader, seen: Seen::default() }
    }

    /// With the families of a file.
    fn with_families(file: PathBuf) -> Comparison {
        let mut comparison = Comparison::new();
        comparison.book.join(&std::fs::read_to_string(&file).unwrap());
        comparison.families = Some(file);
        comparison
    }

    /// The codes of a search, if it has some, and what they are read to.
    fn read(&self, search: &str) -> (Vec<Pair>, Read) {
        match self.book.read(search, &self.reader) {
            Err(refused) => (vec![], Err(refused)),
            Ok(codes) => {
                let selection = typed::numbers(&codes);
                let tree = selection::read(&selection).map_err(Refused::from);
                (codes, tree.map(|tree| (selection, tree)))
            }
        }
    }

    /// The tool's answers to a search are the second engine's.
    fn check(&mut self, search: &str, name: &str) {
        let _named = Named(name);
        let (told, status) = told(search, self.families.as_deref());
        assert_eq!(told.get("search").text(), search);
        let (codes, read) = self.read(search);
        let asked = Asked { book: &self.book, search, codes: &codes };
        match (read, entry(&told, "refused")) {
            (Err(expected), Some(refusal)) => {
                assert_eq!((asked.refused(refusal), status), (expected, TROUBLE));
                *self.seen.refused.entry(number(refusal, "number") as u32).or_default() += 1;
            }
            (Ok((selection, tree)), None) => {
                let answers = asked.answers(&told);
                assert_eq!(status, expected_status(&answers));
                for (index, (section, answer)) in self.sections.iter().zip(&answers).enumerate() {
                    let families = &self.book.families;
                    let wanted = expected(search, section, families, &selection, &tree);
                    assert_eq!(*answer, wanted, "section {}", index + 1);
                    let alone = || expected(search, section, &families::EMPTY, &selection, &tree);
                    self.seen.joined += usize::from(self.families.is_some() && wanted != alone());
                    self.seen.see(answer, &self.book.sections[index], &codes);
                }
                self.seen.kinds.extend(codes.iter().map(|(kind, _)| kind));
                self.seen.occurs += usize::from(codes.iter().any(|(kind, _)| *kind >= 16));
                self.seen.mixed += usize::from(status == YES && answers.contains(&Answer::No));
                self.seen.answered += 1;
            }
            (read, _) => panic!("the second engine reads {read:?}, the tool says {told:?}"),
        }
    }
}

fn expected_status(answers: &[Answer]) -> u8 {
    if answers.iter().any(|answer| matches!(answer, Answer::Refused(_))) {
        TROUBLE
    } else if answers.iter().all(|answer| *answer == Answer::No) {
        NO
    } else {
        YES
    }
}

// Searches written out

const ANSWERED: &[&str] = &[
    r#""needle bed""#,
    r#""take-down rollers""#,
    r#""HÄLLMANN" ftor "dubréau" ftor "OBERLÜHN""#,
    r#""needle bed" ftand "oil""#,
    r#""cam" ftor "cams""#,
    r#""zero point" ftand "spindle" ftor "drive belt" ftand "tension""#,
    r#"("zero point" ftor "drive belt") ftand ("spindle" ftor "tension")"#,
    r#""xyzzy""#,
    r#""xyzzy" ftor "belt""#,
    // not in
    r#""cover" not in "needle bed cover""#,
    r#""bolt" not in "xyzzy""#,
    r#""needle" not in ("needle bed" ftor "needle butts")"#,
    r#"("bed" not in "needle bed" not in "back bed") ftand "carriage""#,
    r#"("stitch" ftand "cams" ordered) not in "stitch cams""#,
    // ftnot
    r#"ftnot "cover""#,
    r#"ftnot "xyzzy""#,
    r#"ftnot (ftnot "cover")"#,
    r#""cam" ftand ftnot "cover""#,
    r#"ftnot ("cam" ftand "cover")"#,
    r#"ftnot ("cam" ftor "cover" ftor "needle")"#,
    r#""grease" ftand ftnot ("oil" ftor ftnot "spindle")"#,
    // ftnot below filters
    r#""cam" ftand ftnot "cover" same sentence"#,
    r#""cam" ftand ftnot "cover" same sentence ordered window 6 words"#,
    r#""guard cam" ftand ftnot "cover" window 5 words"#,
    r#""service position" ftand ftnot "cover" same paragraph"#,
    r#""zero point" ftand ftnot "spindle" distance from 0 to 8 words"#,
    r#""take down" ftand ftnot "oil" window 30 words ordered"#,
    r#""needles" ftand "hook" ftand ftnot "latch" same paragraph window 40 words ordered"#,
    r#"("cam" ftand ftnot ("bolt" ftor "spring")) same sentence"#,
    r#""replace" ftand ftnot ("bolt" ftand "cam") distance at most 10 words"#,
    r#""front" ftand "back" ftand ftnot "bed" different sentence"#,
    r#""belt" ftand "carriage" ftand ftnot "tension" different paragraph"#,
    r#"ftnot "oil" same sentence"#,
    r#"ftnot ("oil" ftand "needles" same sentence)"#,
    r#"(ftnot "oil" distance exactly 2 words) ftand "grease""#,
    r#""bulletin" ftand ftnot "software" ordered at start"#,
    r#""speed" ftand ftnot "courses" same sentence at end"#,
    // filters
    r#""front" ftand "back" same sentence"#,
    r#""service position" ftand "bolt" same paragraph"#,
    r#""front" ftand "back" different sentence"#,
    r#""needle" ftand "oil" different paragraph"#,
    r#""oil" ftand "cloth" different sentence ordered"#,
    r#""carriage" ftand ("left end" ftor "right end") same sentence ordered"#,
    r#""drive belt" ftand "tension" window 12 words"#,
    r#""part number" ftand "serial number" distance at least 4 words"#,
    r#""six" ftand "metres" distance exactly 1 words"#,
    r#""serial" ftand "2780" distance from 3 to 5 words"#,
    r#"("yarn" ftand "break" distance at most 3 words) ftor "E12""#,
    r#""bulletin" at start"#,
    r#"("full speed" at end) ftor ("log" at end)"#,
    r#""Service manual for the HV 180 and" ftand "HV 220 flat knitting machines" entire content"#,
    r#"ftnot ("the" entire content)"#,
    // finds in headings
    r#""bulletin" same sentence"#,
    r#""bulletin 7" same sentence"#,
    r#""bulletin 7" same paragraph"#,
    r#""loose bolt" ftand "cover" same sentence"#,
    r#""loose bolt" ftand "cover" same paragraph"#,
    r#""cams" same sentence at start"#,
    r#""stitch" ftand "cams" same sentence ordered"#,
    r#""fault" ftand "carriage" different sentence"#,
    r#""bulletin" ftand "software" different sentence"#,
    r#""needles" ftand "latch" different paragraph"#,
    r#""bulletin" occurs at least 2 times same sentence"#,
    r#""bulletin" occurs at least 2 times different sentence"#,
    r#""bulletin" occurs exactly 1 times same sentence"#,
    r#"("drive belt" ftand "bulletin") same sentence window 12 words"#,
    // excludes in headings
    r#"ftnot "appendix" same sentence"#,
    r#"ftnot "bulletin" same sentence"#,
    r#"ftnot ("bulletin" ftor "fault") same sentence"#,
    r#"ftnot ("fault" ftand "carriage" same sentence)"#,
    r#"ftnot ("cover" ftand ftnot "bulletin" same sentence)"#,
    r#""bolt" ftand ftnot "loose" same sentence"#,
    r#""oil" ftand ftnot "stains" same sentence"#,
    r#""cam" ftand ftnot "bulletin" same sentence"#,
    r#""cover" ftand ftnot "bulletin" distance at most 30 words same sentence"#,
    r#"("cam" ftand ftnot "bulletin" same sentence) ftand ftnot ("worn cam" same sentence)"#,
    r#""carriage" ftand "belt" ftand ftnot "bulletin" different sentence"#,
    r#""yarn" ftand "stop" ftand ftnot "break" different sentence ordered"#,
    // occurs
    r#""bolt" occurs at least 3 times"#,
    r#""needle" occurs at least 0 times"#,
    r#""needle" occurs at least 8 times ftor "needle" occurs at least 3 times"#,
    r#""cover" occurs exactly 3 times"#,
    r#""cams" occurs at most 2 times ftand "cover""#,
    r#""oil" occurs from 2 to 4 times"#,
    r#""needle bed" occurs at least 2 times ftand "cover" occurs at least 3 times"#,
    r#""bed" occurs at least 2 times not in ("needle bed" occurs at least 1 times)"#,
    r#"ftnot "cover" occurs at least 2 times ftand "cam""#,
    r#"ftnot ("cover" occurs exactly 2 times ftor "bolt" occurs at most 1 times)"#,
    r#""xyzzy" occurs exactly 0 times ftand "xyzzy" occurs at most 3 times ftand "gloves""#,
    r#""cam" ftor ftnot "cover" occurs exactly 0 times"#,
    // occurs below filters
    r#""cam" occurs exactly 1 times same sentence"#,
    r#"("cam" occurs exactly 1 times same paragraph) ftand "bolt""#,
    r#""cam" occurs at least 2 times same sentence window 20 words"#,
    r#""switch" occurs at least 4 times different sentence ordered"#,
    r#""cam" ftand "cover" occurs from 1 to 2 times distance at most 30 words"#,
    r#""cover" ftand ftnot "cam" occurs at least 2 times same sentence"#,
    r#""yarn" occurs at most 2 times at start"#,
    // lists that are too long in some sections
    r#""the" ftand "the""#,
    r#""the" ftor ("the" ftand "a" ftand "and")"#,
    r#""the" ftand "the" ftand "the" same sentence"#,
    r#""the" window 20 words"#,
    r#""needle" occurs at least 3 times"#,
    r#""cam" occurs exactly 1 times"#,
    r#""cam" ftor "cams" occurs at most 1 times"#,
    r#""the" occurs from 2 to 7 times same paragraph"#,
    r#"ftnot ("carriage" occurs at least 2 times) ordered"#,
    r#"ftnot ("the" ftand "of") window 9 words"#,
];

#[test]
fn written_searches_are_answered_as_by_the_second_engine() {
    let mut comparison = Comparison::new();
    for search in ANSWERED {
        comparison.check(search, search);
    }
    let seen = &comparison.seen;
    println!("{seen:?}");
    assert_eq!(seen.answered, ANSWERED.len());
    assert!(seen.kinds.iter().copied().eq(0..18), "{seen:?}");
    assert!(seen.yes > 400 && seen.no > 1_200 && seen.unlisted > 10 && seen.unknown > 60, "{seen:?}");
    assert!(seen.found > 200 && seen.passed > 60 && seen.passed_occurs > 10 && seen.mixed > 35, "{seen:?}");
    assert!(seen.found_headings > 100 && seen.passed_headings > 40, "{seen:?}");
}

/// Each search and the number of its refusal.
const REFUSED: &[(u32, &str)] = &[
    (5, r#""cam" window 0 words"#),
    (5, r#""cam" ftand "bolt" distance from 5 to 2 words ordered"#),
    (5, r#"("cam" distance exactly 4096 words) ftor "bolt""#),
    (5, r#""cam" occurs at least 4096 times"#),
    (5, r#""bolt" ftor ftnot "cam"occurs from 3 to 2 times at start"#),
    (5, r#""needle bed" occurs exactly 4096 times ftand "cam" distance from 5 to 2 words"#),
    (6, r#""a" ftor ("b" ftor ("c" ftor ("d" ftor ("e" ftor ("f" ftor ("g" ftor ("h" ftor "cam")))))))"#),
    (7, r#""cam" not in (ftnot "cover")"#),
    (7, r#""bolt" ftand (("cam" ftand ftnot "cover" same sentence) not in "cams")"#),
    (7, r#""cam" not in "cover" occurs exactly 1 times"#),
    (7, r#""bolt" ftand (("cam" occurs at most 2 times same sentence) not in "cams")"#),
    (10, r#"("needle bed") occurs at least 2 times"#),
    (10, r#""needle bed" occurs 2 times"#),
    (10, r#""needle bed" occurs at least 2 words"#),
    (10, r#""needle bed" occurs at least 2 times occurs at most 3 times"#),
    (10, r#""needle bed" ordered occurs at least 2 times"#),
    (10, ""),
    (10, "   "),
    (10, r#""cam" ftand "#),
    (10, r#""needle bed" ftand "oil" and "grease""#),
    (10, r#""needle bed" Ftand "oil""#),
    (10, r#"ftnot ftnot "take-down rollers""#),
    (10, r#""take-down rollers" ordered ftand "oil""#),
    (10, r#"("needle bed" ftand "oil""#),
    (10, r#""needle bed") ftand "oil""#),
    (10, r#""needle bed" ftand """#),
    (10, r#""needle bed" ftand "...""#),
    (10, r#""needle bed" ftand "oil"#),
    (10, r#""the front needle bed and the back needle bed""#),
    (10, r#""needle-bed" “oil”"#),
    (10, "\"needle bed\"\tftand \"oil\""),
    (10, r#"needle bed"#),
    (11, r#""drive belt" window 4097 words"#),
    (11, r#""drive belt" distance from 1 to 99999999999999999999 and"#),
    (11, r#""drive belt" occurs at least 4097 words"#),
];

#[test]
fn written_searches_are_refused_as_by_the_second_engine() {
    let mut comparison = Comparison::new();
    for (number, search) in REFUSED {
        comparison.seen = Seen::default();
        comparison.check(search, search);
        assert_eq!(comparison.seen.refused, BTreeMap::from([(*number, 1)]), "{search}");
    }
}

#[test]
fn searches_are_refused_over_64_codes_and_over_2048_bytes() {
    let mut comparison = Comparison::new();
    let ordered = |count: usize| format!(r#""cam"{}"#, " ordered".repeat(count));
    comparison.check(&ordered(62), "64 codes");
    comparison.check(&ordered(63), "65 codes");
    assert_eq!((comparison.seen.answered, comparison.seen.refused[&3]), (1, 1));
    let blanks = typed::MOST_BYTES - comparison.book.bytes(r#""needle bed""#);
    let padded = |count: usize| format!(r#""needle{}bed"{}"#, " ".repeat(3_000), " ".repeat(count));
    comparison.check(&padded(blanks), "2,048 bytes");
    comparison.check(&padded(blanks + 1), "2,049 bytes");
    assert_eq!((comparison.seen.answered, comparison.seen.refused[&11]), (2, 1));
}

// Random searches

/// A random text with words of the manual for the numbers in quotes. All are words of one section, so that they are
/// found together; words that stand often in it are taken often.
fn in_words(text: &str, section: &Section, rng: &mut Rng) -> String {
    let anchor = rng.below(section.words.len());
    let mut search = String::new();
    for (index, piece) in text.split('"').enumerate() {
        search += if index > 0 { "\"" } else { "" };
        if index % 2 == 0 {
            search += piece;
            continue;
        }
        // a row of words, or for the same number always the same word
        let mut next = rng.below(section.words.len());
        let is_row = rng.chance(2, 3);
        let mut rest = piece;
        while let Some(at) = rest.find(|c: char| c.is_ascii_digit()) {
            let after = rest[at..].trim_start_matches(|c: char| c.is_ascii_digit());
            let last = usize::from(rest.as_bytes()[rest.len() - after.len() - 1] - b'0');
            next = if is_row { next + 1 } else { anchor + last };
            search += &rest[..at];
            search += &any_word(&section.words[next % section.words.len()].text, rng);
            rest = after;
        }
        search += rest;
    }
    search
}

/// Now and then the word in large letters, or one that the manual does not have.
fn any_word(word: &str, rng: &mut Rng) -> String {
    match rng.below(40) {
        0 => "xyzzy".to_string(),
        1..=4 => word.to_uppercase(),
        _ => word.to_string(),
    }
}

/// Compares the tool with the second engine by so many random searches of each seed.
fn search_at_random(comparison: &mut Comparison, seeds: RangeInclusive<u64>, count: usize) {
    for seed in seeds {
        for index in 0..count {
            let mut rng = Rng::new(!seed, index as u64);
            let section = &comparison.book.sections[rng.below(comparison.book.sections.len())];
            let text = typed_case(seed, index).text;
            let search = in_words(&String::from_utf8_lossy(&text), section, &mut rng);
            comparison.check(&search, &format!("{index} of seed {seed}: {search}"));
        }
    }
}

#[test]
fn random_searches_are_answered_as_by_the_second_engine() {
    let mut comparison = Comparison::new();
    search_at_random(&mut comparison, 1..=4, 1_000);
    let seen = &comparison.seen;
    println!("{seen:?}");
    assert!(seen.kinds.iter().copied().eq(0..18), "{seen:?}");
    assert!(seen.refused.keys().copied().eq([3, 5, 6, 7, 10, 11]), "{seen:?}");
    assert!(seen.refused[&10] > 900 && seen.answered > 1_500 && seen.mixed > 900, "{seen:?}");
    assert!(seen.yes > 20_000 && seen.no > 45_000 && seen.unlisted > 90 && seen.unknown > 350, "{seen:?}");
    assert!(seen.found > 13_000 && seen.later > 250 && seen.passed > 2_000, "{seen:?}");
    assert!(seen.occurs > 400 && seen.passed_occurs > 150, "{seen:?}");
    assert!(seen.found_headings > 2_000 && seen.passed_headings > 100, "{seen:?}");
}

// Families

/// Searches for words of the example families, of which the manual has no 'screw'.
const JOINED: &[&str] = &[
    r#""needle""#,
    r#""screw" ftor "SCREWS""#,
    r#""bent needle""#,
    r#""broken needle butt" ftor "worn cam""#,
    r#""bent" ftand "hook" distance at most 1 words"#,
    r#""screw" ftand "cover" same sentence"#,
    r#""screw" ftand ftnot "covers""#,
    r#""screw" ftand ftnot "cam" same sentence"#,
    r#"ftnot ("screw" ftor "needles")"#,
    r#""stop" ftand ftnot "sensors" same sentence ordered"#,
    r#""needle" not in "needle bed""#,
    r#""bed" not in ("needles bed" ftor "back bed")"#,
    r#""screw" occurs at least 2 times"#,
    r#""screw" occurs exactly 2 times same paragraph"#,
    r#""cam" occurs at least 3 times"#,
    r#"ftnot "guards" occurs at least 3 times ftand "guard""#,
    r#""worn" ftand "edge" window 12 words"#,
    r#""fault" at start"#,
    r#""covers and guard" ftand "screw" different sentence"#,
    r#""covers and guard" ftand "screw" different paragraph"#,
    r#""knit" ftand "xyzzy" ftor ftnot "spring""#,
    r#""needle" ftand "needles" ftand "needle""#,
];

#[test]
fn families_are_found_as_by_the_second_engine() {
    let mut comparison = Comparison::with_families(FAMILIES.into());
    for search in JOINED.iter().chain(ANSWERED) {
        comparison.check(search, search);
    }
    let seen = &comparison.seen;
    println!("{seen:?}");
    assert_eq!(seen.answered, JOINED.len() + ANSWERED.len());
    assert!(seen.joined > 400 && seen.yes > 1_200 && seen.no > 3_500 && seen.unlisted > 40, "{seen:?}");
}

/// Families of the manual's words, each third one in some family, now and then with words that it does not have.
fn random_families(book: &Book, rng: &mut Rng) -> String {
    let mut families = vec![vec![]; 40];
    for word in &book.sorted {
        let written = if rng.chance(1, 5) { word.to_uppercase() } else { word.clone() };
        if rng.chance(1, 3) {
            families[rng.below(40)].push(written);
        }
    }
    families[rng.below(40)].push("xyzzy".to_string());
    families[rng.below(40)].push("aardvark".to_string());
    families.into_iter().map(|words| words.join(" ") + "\n").collect()
}

#[test]
fn random_families_are_found_as_by_the_second_engine() {
    let mut joined = 0;
    for seed in 5..=8 {
        let families = random_families(&Book::example(), &mut Rng::new(seed, 0));
        let file = Path::new(env!("CARGO_TARGET_TMPDIR")).join(format!("random-{seed}.txt"));
        std::fs::write(&file, families).unwrap();
        let mut comparison = Comparison::with_families(file);
        search_at_random(&mut comparison, seed..=seed, 250);
        println!("{:?}", comparison.seen);
        joined += comparison.seen.joined;
    }
    assert!(joined > 2_000, "{joined}");
}
