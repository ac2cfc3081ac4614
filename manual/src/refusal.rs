//! What a refusal says, in words and with the mechanic's own text.

use crate::codes::Code;
use crate::engine::Refusal;
use crate::near::near;
use crate::search::Search;
use std::ops::Range;

/// A refusal for people: what is wrong, and where in the search, if it has a place.
#[derive(Clone, Debug, PartialEq, Eq)]
pub struct Explained {
    pub refusal: Refusal,
    pub what: String,
    pub place: Option<Range<usize>>,
}

/// An error of the text, or too many codes: what the reader refuses.
pub fn of_text(refusal: Refusal, search: &Search) -> Explained {
    let place = (refusal.place > 0).then(|| search.at(refusal.place));
    let what = match (refusal.number, &place) {
        (Refusal::GRAMMAR, Some(place)) => not_allowed(search, place),
        (Refusal::TOO_LARGE, Some(_)) => "a number here is at most 4,096".to_string(),
        (Refusal::TOO_LARGE, None) => {
            "the search is too long: with a number for each word it has over 2,048 bytes".to_string()
        }
        (Refusal::TOO_MANY_CODES, _) => {
            "the search is too long: words, phrases, 'occurs', operators and filters, each counted, are more than 64"
                .to_string()
        }
        _ => unexpected(refusal),
    };
    Explained { refusal, what, place }
}

/// A refusal at one of the search's codes, or of the family table; at an occurs, in a section with so many finds of its
/// phrase.
pub fn of_code(refusal: Refusal, codes: &[Code], finds: Option<usize>) -> Explained {
    if refusal.number == Refusal::FAMILIES {
        return Explained { refusal, what: of_families(refusal.place), place: None };
    }
    let code = refusal.place.checked_sub(1).and_then(|index| codes.get(index));
    let what = match (refusal.number, code.map(|code| code.kind)) {
        (Refusal::OPERAND, Some(Code::WINDOW)) => "a window has 1 to 4,096 words".to_string(),
        (Refusal::OPERAND, Some(Code::OCCURS | Code::OCCURS_AT_LEAST)) => {
            "a phrase occurs 0 to 4,095 times, from the smaller number to the larger".to_string()
        }
        (Refusal::OPERAND, _) => "a distance is 0 to 4,095 words, from the smaller number to the larger".to_string(),
        (Refusal::WAITING, _) => {
            "too deep to the right: with this phrase more than eight wait for their operator".to_string()
        }
        (Refusal::NOT_UNDER_MILD_NOT, _) => {
            "an 'ftnot', or an 'occurs' other than 'at least', can't stand on either side of 'not in'".to_string()
        }
        (Refusal::TOO_LONG, _) => too_long(finds),
        _ => unexpected(refusal),
    };
    Explained { refusal, what, place: code.map(|code| code.place.clone()) }
}

fn too_long(finds: Option<usize>) -> String {
    let what = finds.map_or("matches".to_string(), |finds| format!("choices among {finds} finds"));
    format!("too many {what}: over 256, or over 512 finds in them")
}

/// What is wrong with a family table; its place is one of its words, and none of the search.
fn of_families(place: usize) -> String {
    match place {
        0 => "the family table has over 2,048 words, or another length than its size says".to_string(),
        _ => format!("the words of the family table don't rise at word {place}"),
    }
}

fn unexpected(refusal: Refusal) -> String {
    format!("the engine answers {refusal}, which this program should never meet")
}

/// Why a token can't stand where it does, by itself and by what stands before it.
fn not_allowed(search: &Search, place: &Range<usize>) -> String {
    let rest = &search.text[place.start..];
    let before = before(search, place);
    if search.text.trim().is_empty() {
        return "the search is empty".to_string();
    }
    if rest.starts_with(OTHER_QUOTES) {
        return "the quotes around a phrase are \"".to_string();
    }
    if !search.text.contains('"') && search.text.contains(char::is_alphanumeric) && !rest.is_empty() {
        return "words to look for stand in double quotes, and the whole search in single quotes, or the shell takes the \
                double ones away"
            .to_string();
    }
    if count(&before, "\"") % 2 == 1 {
        return in_phrase(&search.text[place.clone()]).to_string();
    }
    if lacks_occurs(&before, rest) {
        return "'occurs' has to stand between a phrase and its number of times".to_string();
    }
    match awaited(&before) {
        Some(awaited) => format!("{awaited} has to stand here"),
        None => misplaced(search, place, &before),
    }
}

/// Does a phrase go on with a number of times?
fn lacks_occurs(before: &[&str], rest: &str) -> bool {
    let is_of_range = |word: &&str| WORDS_OF_RANGES.contains(word) || is_number(word);
    let next = rest.split_whitespace().find(|word| !is_of_range(word)).map(first_word);
    matches!(before, [.., "\""] | [.., "\"", "at"]) && matches!(next, Some("times" | "time"))
}

fn is_number(token: &str) -> bool {
    token.starts_with(|c: char| c.is_ascii_digit())
}

fn in_phrase(token: &str) -> &'static str {
    match token {
        "" => "a phrase isn't closed by a quote",
        "\"" => "a phrase has at least one word",
        _ => "a phrase has at most eight words; 3.5 counts as two",
    }
}

/// Why a token, or the word that the text goes on with, can't stand after these.
fn misplaced(search: &Search, place: &Range<usize>, before: &[&str]) -> String {
    let (token, rest) = (&search.text[place.clone()], &search.text[place.start..]);
    let last = before.last().copied().unwrap_or("");
    let after_operand = ["\"", ")", "times"].contains(&last);
    let after_filter = ENDS_OF_FILTERS.contains(&last);
    let next = first_word(rest[token.len()..].trim_start());
    let what = match token {
        "" if after_operand || after_filter => "a parenthesis isn't closed",
        "" => "the search can't end here",
        ")" if count(before, "(") == count(before, ")") => "no parenthesis is open here",
        ")" => "a search has to stand before this parenthesis",
        "\"" | "(" | "ftor" | "ftand" | "not" | "ftnot" if after_filter => {
            "after a filter only another one can stand, unless parentheses enclose the search with its filter"
        }
        "\"" | "(" => "'ftand', 'ftor' or 'not in' has to join two searches",
        "ftnot" if after_operand && next == "in" => "'ftnot in' can't stand here; is it 'not in'?",
        "ftnot" if after_operand => "'ftand ftnot' has to join two searches",
        "not" => "'not' can't stand here; is it 'ftnot'?",
        "occurs" if last == "times" => "a phrase has one 'occurs'; for two numbers there is 'from .. to'",
        "occurs" => OCCURS,
        "and" if next == "occurs" => OCCURS,
        "and" if BEGINNINGS_OF_FILTERS.contains(&next) => "a filter follows as it is, without 'and'",
        _ if BEGINNINGS_OF_FILTERS.contains(&token) && last == "ftand" => "a filter follows as it is, without 'ftand'",
        _ if token.trim().is_empty() => "outside quotes only blanks part words",
        _ if KEYWORDS.contains(&token) => return format!("'{token}' can't stand here"),
        _ if rest.starts_with(char::is_alphabetic) => {
            return no_keyword(first_word(rest), search.text[..place.start].ends_with('"'))
        }
        _ if after_operand || after_filter => return format!("'{token}' can't stand here; {JOINS}"),
        _ => return format!("'{token}' can't stand here"),
    };
    what.to_string()
}

/// The letters and digits that a text begins with.
fn first_word(text: &str) -> &str {
    &text[..text.find(|c: char| !c.is_alphanumeric()).unwrap_or(text.len())]
}

/// What a word outside quotes may be; `is_joined` says that a quote stands just before it.
fn no_keyword(word: &str, is_joined: bool) -> String {
    let meant = match word {
        "and" => Some("ftand"),
        "or" => Some("ftor"),
        "ft" => Some("ftand"),
        "notin" => Some("not in"),
        "order" => Some("ordered"),
        "within" => Some("window"),
        _ if KEYWORDS.contains(&word.to_lowercase().as_str()) => {
            return "outside quotes all letters are small".to_string()
        }
        _ => near(word, KEYWORDS),
    };
    match meant {
        Some(keyword) => format!("'{word}' is no word of the search language; is it '{keyword}'?"),
        None if is_joined => "a quote is missing, here or before".to_string(),
        None => format!("'{word}' is no word of the search language; words to look for stand in double quotes"),
    }
}

/// The tokens before a place, as the mechanic has typed them.
fn before<'a>(search: &'a Search, place: &Range<usize>) -> Vec<&'a str> {
    let tokens = search.tokens().into_iter().take_while(|(_, origin)| origin.end <= place.start);
    tokens.map(|(_, origin)| &search.text[origin]).collect()
}

fn count(tokens: &[&str], token: &str) -> usize {
    tokens.iter().filter(|other| **other == token).count()
}

/// What alone can follow some tokens, if that is a word or a number.
fn awaited(before: &[&str]) -> Option<&'static str> {
    match before {
        [.., "window" | "exactly" | "least" | "most" | "from" | "to"] => Some("a number"),
        [.., "from", number] if is_number(number) => Some("'to'"),
        [.., number] if is_number(number) => Some(counted(before)),
        [.., "distance" | "occurs"] => Some("'exactly', 'at least', 'at most' or 'from'"),
        [.., "distance" | "occurs", "at"] => Some("'least' or 'most'"),
        [.., "at"] => Some("'start' or 'end'"),
        [.., "same" | "different"] => Some("'sentence' or 'paragraph'"),
        [.., "entire"] => Some("'content'"),
        [.., "not"] => Some("'in' (or, for 'and not', 'ftand ftnot' instead of 'not')"),
        _ => None,
    }
}

/// What the last number counts: it is that of an occurs, or of a window or a distance.
fn counted(before: &[&str]) -> &'static str {
    match before.iter().rfind(|token| ["occurs", "window", "distance"].contains(token)) {
        Some(&"occurs") => "'times'",
        _ => "'words'",
    }
}

/// The words of the language, as `docs/REFERENCE.md` has them.
const KEYWORDS: [&str; 25] = [
    "ftor",
    "ftand",
    "not",
    "in",
    "ftnot",
    "occurs",
    "times",
    "ordered",
    "window",
    "words",
    "distance",
    "exactly",
    "at",
    "least",
    "most",
    "from",
    "to",
    "same",
    "different",
    "sentence",
    "paragraph",
    "start",
    "end",
    "entire",
    "content",
];

const OTHER_QUOTES: [char; 10] =
    ['\'', '`', '\u{2018}', '\u{2019}', '\u{201A}', '\u{201C}', '\u{201D}', '\u{201E}', '\u{AB}', '\u{BB}'];

const JOINS: &str = "'ftand', 'ftor' or 'not in' joins two searches, and a filter follows as it is";

const OCCURS: &str = "'occurs' counts the finds of one phrase, and stands directly after its quote";

const WORDS_OF_RANGES: [&str; 6] = ["exactly", "at", "least", "most", "from", "to"];
const BEGINNINGS_OF_FILTERS: [&str; 7] = ["ordered", "window", "distance", "same", "different", "at", "entire"];
const ENDS_OF_FILTERS: [&str; 7] = ["ordered", "words", "sentence", "paragraph", "start", "end", "content"];
