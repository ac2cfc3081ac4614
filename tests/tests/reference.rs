//! docs/REFERENCE.md: its examples, run on the proved library, on the second engine and on the program `ftlist`; and its
//! limits. How an example is written the page itself says.

mod program;
mod proved;
mod words;

use program::printed;
use proved::Proved;
use second_engine::families::MOST_ENTRIES;
use second_engine::section::MOST_TOKENS;
use second_engine::selection::{operand_in_table, Code, MOST_CODES, MOST_WAITING, MOST_WORDS};
use second_engine::sizes::PAPER;
use second_engine::typed::{self, MOST_BYTES, MOST_NUMBER, MOST_WORD, SELECTION};
use second_engine::{
    compare, compare_typed, text, Case, Engine, Listing, Quick, Refusal, SecondEngine, TypedCase, BUFFER, EMPTY, WORK,
};
use std::sync::OnceLock;
use words::{decode, header, numbers, section, Selection};

const PAGE: &str = include_str!("../../docs/REFERENCE.md");

/// The parts that only give what is passed. All others state something; `section`, `selection` and `bytes` may do both.
const GIVEN: [&str; 7] = ["words", "sentences", "paragraphs", "families", "codes", "typed", "lent"];

/// What a listing buffer holds before a call.
const NOISE: u32 = 0xEEEE_EEEE;

/// Refusals of the calls.
const REFUSALS: std::ops::RangeInclusive<u32> = 1..=13;

/// An example of the page: its line, and what follows each name.
struct Example {
    line: usize,
    parts: Vec<(String, String)>,
}

impl Example {
    fn add(&mut self, text: &str) {
        for item in text.split_whitespace() {
            match (item.strip_suffix(':'), self.parts.last_mut()) {
                (Some(name), _) => {
                    assert!(self.part(name).is_none(), "line {}: {name} twice", self.line);
                    self.parts.push((name.to_string(), String::new()));
                }
                (None, None) => panic!("line {}: {item:?} without a name", self.line),
                (None, Some((_, text))) if text.is_empty() => *text = item.to_string(),
                (None, Some((_, text))) => *text += &format!(" {item}"),
            }
        }
    }

    fn part(&self, name: &str) -> Option<&str> {
        self.parts.iter().find(|(other, _)| other == name).map(|(_, text)| text.as_str())
    }

    /// What it states, by name.
    fn stated(&self) -> impl Iterator<Item = (&str, &str)> {
        let parts = self.parts.iter().map(|(name, text)| (name.as_str(), text.as_str()));
        parts.filter(|(name, _)| !GIVEN.contains(name))
    }

    fn section(&self) -> Option<Vec<u32>> {
        let Some(words) = self.part("words").map(numbers) else {
            assert!(self.part("sentences").is_none() && self.part("paragraphs").is_none(), "line {}", self.line);
            return self.part("section").map(numbers);
        };
        let units = |name| self.part(name).map_or(vec![0; words.len()], numbers);
        Some(section(&words, &units("sentences"), &units("paragraphs")))
    }

    /// The family table, the empty one if none is given.
    fn families(&self) -> Vec<u32> {
        self.part("families").map_or(EMPTY.to_vec(), numbers)
    }

    /// The codes that are given, or those of a typed search that has no error.
    fn selection(&self) -> Option<Vec<u32>> {
        match self.part("codes") {
            Some(codes) => Some(Selection(codes.split(' ').map(code).collect()).numbers()),
            None => {
                self.part("selection").map(numbers).or_else(|| Some(typed::numbers(&typed::read(&self.typed()?).ok()?)))
            }
        }
    }

    /// A typed search, in which `63*ordered` is that word 63 times.
    fn typed(&self) -> Option<Vec<u8>> {
        let several = |item: &str| match item.split_once('*') {
            None => item.to_string(),
            Some((times, item)) => vec![item; times.parse().expect("a count")].join(" "),
        };
        let text = self.part("typed")?.split(' ').map(several).collect::<Vec<String>>().join(" ");
        Some(text.into_bytes())
    }

    /// How many numbers are passed of working memory, of listing buffer, and of selection to the reader alone.
    fn lent(&self) -> [usize; 3] {
        let mut lent = [WORK, BUFFER, SELECTION];
        let given = self.part("lent").map_or(vec![], numbers);
        given.iter().zip(&mut lent).for_each(|(given, lent)| *lent = *given as usize);
        assert!([0, 2, 3].contains(&given.len()), "line {}: two or three lengths are lent", self.line);
        lent
    }

    /// Bytes alone, which aren't made of a section and a selection.
    fn bytes(&self) -> Option<Vec<u8>> {
        let text = self.part("bytes").filter(|_| self.section().is_none() && self.selection().is_none())?;
        let digits: Vec<char> = text.chars().filter(|letter| *letter != ' ').collect();
        let byte = |pair: &[char]| u8::from_str_radix(&String::from_iter(pair), 16).expect("two digits of base 16");
        Some(digits.chunks(2).map(byte).collect())
    }

    /// The numbers of the refusals that it states.
    fn refusals(&self) -> Vec<u32> {
        let refused = |(name, text): (&str, &str)| match name {
            "refused" => text.split(' ').next()?.parse().ok(),
            _ => text.strip_prefix("refused ")?.split(' ').next()?.parse().ok(),
        };
        self.stated().filter_map(refused).collect()
    }

    /// The kinds of which it prints a listing.
    fn kinds_listed(&self) -> Vec<u32> {
        let listed = self.part("prints").is_some_and(|text| !text.starts_with("refused"));
        match self.selection() {
            Some(selection) if listed => selection[1..=selection[0] as usize].to_vec(),
            _ => vec![],
        }
    }
}

/// Every example of every block. A block of another sort, or one that doesn't end, is a mistake.
fn examples() -> Vec<Example> {
    let mut examples: Vec<Example> = vec![];
    let mut inside = false;
    for (line, text) in (1..).zip(PAGE.lines()) {
        if text.trim_start().starts_with("```") {
            assert_eq!(text, if inside { "```" } else { "```example" }, "line {line}");
            inside = !inside;
        } else if inside {
            assert!(!text.is_empty(), "line {line}: an empty line in a block");
            if !text.starts_with(' ') {
                examples.push(Example { line, parts: vec![] });
            }
            examples.last_mut().expect("a block begins with an example").add(text);
        }
    }
    assert!(!inside, "the last block doesn't end");
    examples
}

/// The cells of every table row of the page.
fn rows() -> impl Iterator<Item = Vec<&'static str>> {
    let rows = PAGE.lines().filter(|line| line.starts_with("| ") && line.ends_with('|'));
    rows.map(|row| row[1..row.len() - 1].split('|').map(str::trim).collect())
}

/// The table of kinds: each kind but 0, with the name that it has in examples.
fn kinds() -> Vec<(u32, &'static str)> {
    let kind = |row: Vec<&'static str>| match row[..] {
        [kind, name, _, _] => {
            let name = name.strip_prefix('`')?.strip_suffix('`')?;
            Some((kind.parse().ok()?, name.split('(').next()?))
        }
        _ => None,
    };
    rows().filter_map(kind).collect()
}

/// A code as examples write it: `10`, `and`, `window(3)`, `distance(1,2)`.
fn code(text: &str) -> Code {
    if let Ok(word) = text.parse() {
        return Code { kind: 0, operand: word };
    }
    let (name, operand) = match text.strip_suffix(')').and_then(|text| text.split_once('(')) {
        None => (text, 0),
        Some((name, operand)) => (name, pair(operand)),
    };
    let kind = kinds().into_iter().find(|(_, other)| *other == name);
    Code { kind: kind.unwrap_or_else(|| panic!("no kind {name:?} in the page's table")).0, operand }
}

/// `3`, or `1,2` for 1 × 65,536 + 2.
fn pair(text: &str) -> u32 {
    text.split(',').map(|number| number.parse::<u32>().unwrap()).fold(0, |high, low| high * 65_536 + low)
}

fn spelled(numbers: &[u32]) -> String {
    numbers.iter().map(u32::to_string).collect::<Vec<String>>().join(" ")
}

/// Each number as eight digits of base 16, the lowest byte first.
fn spelled_bytes(case: &Case) -> String {
    let bytes = text::bytes(&case.section, &case.selection);
    let number = |bytes: &[u8]| bytes.iter().map(|byte| format!("{byte:02x}")).collect::<String>();
    bytes.chunks(4).map(number).collect::<Vec<String>>().join(" ")
}

fn yes_or_no(yes: bool) -> &'static str {
    if yes {
        "yes"
    } else {
        "no"
    }
}

/// What `ftlist` prints, as examples write it.
fn on_one_line(printed: &str) -> String {
    printed.trim_end().replace('\n', " / ")
}

/// An engine, asked for what examples state: by codes, or by a typed search if there is a text.
struct Asked<'a> {
    engine: &'a dyn Engine,
    case: &'a Case,
    text: Option<&'a [u8]>,
    /// How many numbers are lent to the reader alone.
    lent: usize,
}

impl Asked<'_> {
    /// What is to follow a name.
    fn says(&self, name: &str) -> String {
        match name {
            "section" => spelled(&self.case.section),
            "selection" => spelled(&self.case.selection),
            "bytes" => spelled_bytes(self.case),
            "prints" => self.prints(),
            "buffer" => self.buffer(),
            "listing" => self.listing(),
            "quick" => self.quick(),
            "refused" => self.refused(),
            "read" => self.read(),
            _ => self.snippet(name),
        }
    }

    fn listed(&self) -> (Listing, Vec<u32>) {
        let mut buffer = self.case.buffer.clone();
        let mut work = vec![NOISE; self.case.work_len];
        let (section, families) = (&self.case.section, &self.case.families);
        let listing = match self.text {
            Some(text) => self.engine.typed_listing(section, families, text, &mut work, &mut buffer),
            None => self.engine.listing(section, families, &self.case.selection, &mut work, &mut buffer),
        };
        (listing, buffer)
    }

    /// Its refusal, or what `ftlist` would print if it took a family table.
    fn listing(&self) -> String {
        match self.listed().0 {
            Listing::Refused { number, place } => format!("refused {number} at {place}"),
            Listing::Listed { .. } => self.prints(),
        }
    }

    fn prints(&self) -> String {
        match self.listed() {
            (Listing::Refused { number, place }, _) => format!("refused {number} {place}"),
            (Listing::Listed { matches, strings, yes }, buffer) => {
                let lines = decode(&buffer).iter().map(|one| format!(" / {}", text::line(one))).collect::<String>();
                format!("{} {matches} {strings}{lines}", yes_or_no(yes))
            }
        }
    }

    fn buffer(&self) -> String {
        match self.listed() {
            (Listing::Listed { matches, strings, .. }, buffer) => {
                spelled(&buffer[..(2 + matches + 2 * strings) as usize])
            }
            (refused, _) => format!("{refused:?}"),
        }
    }

    fn quick(&self) -> String {
        let mut work = vec![NOISE; self.case.work_len];
        let (section, families) = (&self.case.section, &self.case.families);
        let answer = match self.text {
            Some(text) => self.engine.typed_quick(section, families, text, &mut work),
            None => self.engine.quick(section, families, &self.case.selection, &mut work),
        };
        match answer {
            Quick::Refused { number, place } => format!("refused {number} at {place}"),
            Quick::Answered { yes, codes: 1 } => format!("{}, 1 code", yes_or_no(yes)),
            Quick::Answered { yes, codes } => format!("{}, {codes} codes", yes_or_no(yes)),
        }
    }

    /// The refusal that both calls give.
    fn refused(&self) -> String {
        let (listing, quick) = (self.listing(), self.quick());
        match listing.strip_prefix("refused ") {
            Some(refusal) if listing == quick => refusal.to_string(),
            _ => format!("{listing}; quick: {quick}"),
        }
    }

    /// What the reader alone answers. Its codes are the example's, and a refusal of the text is that of the calls.
    fn read(&self) -> String {
        let text = self.text.expect("a text is read");
        let mut selection = vec![NOISE; self.lent];
        match self.engine.read(text, &mut selection) {
            Ok(codes) => {
                assert_eq!(selection[..=2 * codes as usize], self.case.selection, "{}", text.escape_ascii());
                format!("{codes} codes")
            }
            Err(Refusal { number, place }) => {
                assert!(number < 10 || self.refused() == format!("{number} at {place}"), "{number} at {place}");
                format!("refused {number} at {place}")
            }
        }
    }

    fn snippet(&self, name: &str) -> String {
        let bounds = name.strip_prefix("snippet(").and_then(|rest| rest.strip_suffix(')')?.split_once(','));
        let (from, to) = bounds.unwrap_or_else(|| panic!("no part of an example is named {name:?}"));
        spelled(self.engine.snippet(&self.case.section, from.parse().unwrap(), to.parse().unwrap()))
    }
}

/// `ftlist` and the second engine print for these bytes what the example states.
fn check_program(example: &Example, bytes: &[u8]) {
    let wanted = example.part("prints").expect("bytes are read to be printed");
    assert_eq!(on_one_line(&printed(bytes)), wanted, "line {}: ftlist", example.line);
    assert_eq!(on_one_line(&text::ftlist(bytes)), wanted, "line {}: the second engine's ftlist", example.line);
}

/// Section, selection and memory of an example, which takes the given section if it has none.
fn case(example: &Example, first: &[u32]) -> Case {
    let selection = example.selection();
    let about_section = |name: &str| name == "section" || name.starts_with("snippet");
    let searches = selection.is_some() || example.typed().is_some();
    assert!(searches || example.stated().all(|(name, _)| about_section(name)), "line {}", example.line);
    let [work_len, buffer_len, _] = example.lent();
    Case {
        section: example.section().unwrap_or_else(|| first.to_vec()),
        families: example.families(),
        selection: selection.unwrap_or_default(),
        work_len,
        buffer: vec![NOISE; buffer_len],
    }
}

/// Both engines say what the example states, by its codes and by its typed search, and agree in all else.
fn check(example: &Example, first: &[u32]) {
    let (case, text, [.., lent]) = (case(example, first), example.typed(), example.lent());
    compare(&Proved, &case).unwrap_or_else(|wrong| panic!("line {}: {wrong}", example.line));
    if let Some(text) = &text {
        check_text(example, &case, text);
    }
    let codes = (text.is_none() || example.selection().is_some()).then_some(None);
    let asks = codes.into_iter().chain(text.as_deref().map(Some));
    for (asked_text, (engine_name, engine)) in asks.flat_map(|text| engines().map(|engine| (text, engine))) {
        let asked = Asked { engine, case: &case, text: asked_text, lent };
        for (name, wanted) in example.stated().filter(|(name, _)| *name != "read" || asked_text.is_some()) {
            assert_eq!(asked.says(name), wanted, "line {}, {name}: the {engine_name} engine", example.line);
        }
    }
    if example.part("prints").is_some() {
        assert!(example.part("lent").is_none(), "line {}: ftlist lends what is enough", example.line);
        assert!(example.part("families").is_none(), "line {}: ftlist lends the empty table", example.line);
        assert!(example.selection().is_some(), "line {}: ftlist reads codes", example.line);
        check_program(example, &text::bytes(&case.section, &case.selection));
    }
}

/// Both engines read a typed search to the example's codes, or refuse it as the example states.
fn check_text(example: &Example, case: &Case, text: &[u8]) {
    let Case { section, families, work_len, buffer, .. } = case.clone();
    let [.., lent] = example.lent();
    let (text, selection) = (text.to_vec(), vec![NOISE; lent]);
    let typed_case = TypedCase { text: text.clone(), section, families, work_len, buffer, selection };
    compare_typed(&Proved, &typed_case).unwrap_or_else(|wrong| panic!("line {}: {wrong}", example.line));
    for (engine_name, engine) in engines() {
        let read = Asked { engine, case, text: Some(&text), lent }.read();
        let refusal = read.strip_prefix("refused ");
        let stated = example.part("read").is_some() || refusal.is_none() || refusal == example.part("refused");
        assert!(stated, "line {}: the {engine_name} engine's reader: {read}", example.line);
    }
}

fn engines() -> [(&'static str, &'static dyn Engine); 2] {
    static SECOND: OnceLock<SecondEngine> = OnceLock::new();
    [("proved", &Proved), ("second", SECOND.get_or_init(SecondEngine::new))]
}

#[test]
fn every_example() {
    let examples = examples();
    let first = examples[0].section().expect("the first example has a section");
    for example in &examples {
        // of a typed search its codes
        let codes = example.part("typed").and(example.part("codes"));
        assert!(example.stated().next().is_some() || codes.is_some(), "line {}: nothing is stated", example.line);
        match example.bytes() {
            Some(bytes) => check_program(example, &bytes),
            None => check(example, &first),
        }
    }
    println!("{} examples", examples.len());
}

#[test]
fn every_rule_and_refusal_has_an_example() {
    let (examples, kinds) = (examples(), kinds());
    assert!(kinds.iter().map(|(kind, _)| *kind).eq(1..=17), "{kinds:?}");
    assert!(examples.len() >= kinds.len() + REFUSALS.count(), "{} examples", examples.len());
    for kind in 0..=17 {
        assert!(examples.iter().any(|example| example.kinds_listed().contains(&kind)), "kind {kind}");
    }
    for number in REFUSALS {
        assert!(examples.iter().any(|example| example.refusals().contains(&number)), "refusal {number}");
    }
}

/// The largest number in the page's row of limits whose first cell holds this.
fn limit(what: &str) -> usize {
    let row = rows().find(|row| row.len() == 3 && row[0].contains(what));
    let row = row.unwrap_or_else(|| panic!("no limit of {what}"));
    row[1].replace(',', "").split(' ').filter_map(|word| word.parse().ok()).max().expect("a number")
}

#[test]
fn the_limits_are_stated() {
    assert_eq!(limit("tokens of a section"), MOST_TOKENS);
    assert_eq!(limit("entries of a family table"), MOST_ENTRIES);
    assert_eq!(limit("codes of a selection"), MOST_CODES);
    assert_eq!(limit("words of a phrase"), MOST_WORDS);
    assert_eq!(limit("words that wait"), MOST_WORDS);
    assert_eq!(limit("lists that wait"), MOST_WAITING);
    assert_eq!(limit("matches of a list"), PAPER.matches as usize);
    assert_eq!(limit("strings of a list"), PAPER.strings as usize);
    assert_eq!(limit("input of `ftlist`"), text::MOST_BYTES);
    assert_eq!(limit("bytes of a typed search"), MOST_BYTES);
    assert_eq!(limit("a word number in it"), MOST_WORD as usize);
    assert_eq!(limit("another number in it"), MOST_NUMBER as usize);
    let operands = [("a window's N", 7), ("a distance's a and b", 8), ("an occurs' a and b", 16), ("an occurs' a", 17)];
    for (what, kind) in operands {
        let fits = |operand: usize| operand_in_table(Code { kind, operand: operand as u32 });
        assert!(fits(limit(what)) && !fits(limit(what) + 1), "{what}");
    }
    for (name, number) in header::numbers() {
        assert_eq!(limit(&format!("`JULLPINAY_{name}`")), number, "{name}");
    }
}
