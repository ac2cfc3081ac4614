//! The second engine's reader held to the grammar itself, by two ways of which neither is a reader.
//!
//! For short texts, every sentence of the grammar is derived, with its codes, by putting shorter ones together; what begins
//! a selection is what some sentence begins with. For long ones, the grammar's rules are applied leftmost first, in every
//! way at once; what begins a selection is what some way still goes on from.

mod grammar;

use grammar::{filters, is_number, times, typed_out, Derived, Grammar, Tokens};
use second_engine::typed::{self, begins_a_selection};
use second_engine::typed_gen::{rows, without_blanks, ALPHABET};
use second_engine::{typed_cases, Quick, Refusal, EMPTY, WORK};
use std::collections::{HashMap, HashSet};
use std::sync::OnceLock;

/// Every sentence of up to 12 tokens is read to its codes, and so is whatever begins it read to its end.
#[test]
fn every_sentence_is_read() {
    let most = if cfg!(debug_assertions) { 9 } else { 12 };
    every_one_is_read(Grammar::up_to(most), most);
}

/// And so is every longer one of those about occurs.
#[test]
fn every_sentence_about_occurs_is_read() {
    let most = if cfg!(debug_assertions) { 12 } else { 16 };
    every_one_is_read(Grammar::about_occurs(most), most);
}

fn every_one_is_read(grammar: Grammar, most: usize) {
    let mut all: HashMap<&Tokens, &Derived> = HashMap::new();
    let mut count = 0;
    for sentence in grammar.sentences() {
        let (text, codes) = typed_out(sentence);
        assert_eq!(typed::read(text.as_bytes()), Ok(codes), "{text}");
        for (blank, _) in text.match_indices(' ') {
            assert!(begins_a_selection(&text.as_bytes()[..blank]), "{text}, up to {blank}");
        }
        // no sentence has two meanings
        assert!(all.insert(&sentence.tokens, sentence).is_none(), "{text}");
        count += 1;
    }
    println!("{count} sentences of up to {most} tokens");
}

/// What begins a selection, in up to so many tokens. A beginning of p tokens has an end of at most p + 3 more: its
/// parentheses are closed by as many, and at most a phrase, a `not in` with one or the words of a filter or an occurs are due
/// before.
fn beginnings(tokens: usize) -> HashSet<Tokens> {
    let grammar = Grammar::up_to(2 * tokens + 3);
    let mut list = HashSet::new();
    for sentence in grammar.sentences() {
        for length in 0..=tokens.min(sentence.tokens.len()) {
            if !list.contains(&sentence.tokens[..length]) {
                list.insert(sentence.tokens[..length].to_vec());
            }
        }
    }
    list
}

/// The error of a row of tokens, if any, straight from its definition: the first token with which nothing goes on that
/// begins a selection is 10, and a number over its limit where a number may stand is 11.
fn error(beginnings: &HashSet<Tokens>, row: &[&'static str]) -> Option<(u32, usize)> {
    let mut so_far: Tokens = vec![];
    for (index, token) in row.iter().enumerate() {
        let digits = token.bytes().all(|byte| byte.is_ascii_digit());
        let terminals: &[&'static str] = if digits { &["W", "N"] } else { &[*token] };
        let goes_on = |terminal: &&&'static str| beginnings.contains(&[&so_far[..], &[**terminal]].concat());
        let Some(terminal) = terminals.iter().find(goes_on) else { return Some((10, index)) };
        let most: u64 = if *terminal == "W" { 4_294_967_295 } else { 4_096 };
        if digits && token.parse::<u64>().expect("digits") > most {
            return Some((11, index));
        }
        so_far.push(terminal);
    }
    None
}

/// The answer to a row of tokens: its error with its place, or that of its end if the row is no whole sentence.
fn check(beginnings: &HashSet<Tokens>, sentences: &HashSet<Tokens>, row: &[&'static str]) {
    let text = row.join(" ");
    let place = |index: usize| row[..index].iter().map(|token| token.len() + 1).sum::<usize>() + 1;
    let read = typed::read(text.as_bytes());
    match error(beginnings, row) {
        Some((number, index)) => assert_eq!(read, Err(Refusal::new(number, place(index))), "{text}"),
        None => {
            let number = |token: &&'static str| if token.bytes().all(|b| b.is_ascii_digit()) { "#" } else { *token };
            let whole = sentences.contains(&row.iter().map(number).collect::<Tokens>());
            match whole {
                true => assert!(read.is_ok(), "{text}: {read:?}"),
                false => assert_eq!(read, Err(Refusal::new(10, text.len() + 1)), "{text}"),
            }
        }
    }
    // the same tokens without blanks have the same error, at other places
    let close = typed::read(&without_blanks(row));
    match (&read, &close) {
        (Ok(codes), Ok(others)) => assert_eq!(codes, others, "{text}"),
        (Err(one), Err(other)) => assert_eq!(one.number, other.number, "{text}"),
        _ => panic!("{text}: {read:?}, and {close:?} without blanks"),
    }
}

/// The whole sentences of up to so many tokens, their numbers as `#`.
fn whole(tokens: usize) -> HashSet<Tokens> {
    let number = |token: &&'static str| if is_number(token) { "#" } else { *token };
    let grammar = Grammar::up_to(tokens);
    grammar.sentences().map(|sentence| sentence.tokens.iter().map(number).collect()).collect()
}

/// Every row of three or four tokens at all, and every row of five that is wrong at its last token at the earliest.
#[test]
fn every_short_row_of_tokens() {
    let (any, most) = if cfg!(debug_assertions) { (2, 3) } else { (4, 5) };
    let (beginnings, sentences) = (beginnings(most), whole(most));
    let mut count = 0;
    for row in rows(any) {
        check(&beginnings, &sentences, &row);
        count += 1;
    }
    let mut left: Vec<Vec<&'static str>> = vec![vec![]];
    while let Some(row) = left.pop() {
        check(&beginnings, &sentences, &row);
        count += 1;
        if row.len() < most && error(&beginnings, &row).is_none() {
            left.extend(ALPHABET.iter().map(|token| [&row[..], &[*token]].concat()));
        }
    }
    println!("{count} rows of tokens");
}

// Occurs

/// Every form of an occurs, alone and behind each operator: it belongs to its phrase.
#[test]
fn an_occurs_belongs_to_its_phrase() {
    let (one, least) = ([(0, 1), (1, 1)], (17, 2));
    let texts: [(&str, &[(u32, u32)]); 14] = [
        ("\"1\" occurs exactly 3 times", &[(0, 1), (1, 1), (16, 3 * 65_536 + 3)]),
        ("\"1\" occurs at least 3 times", &[(0, 1), (1, 1), (17, 3)]),
        ("\"1\" occurs at most 3 times", &[(0, 1), (1, 1), (16, 3)]),
        ("\"1\" occurs from 3 to 5 times", &[(0, 1), (1, 1), (16, 3 * 65_536 + 5)]),
        ("\"1\"occurs at most0times", &[(0, 1), (1, 1), (16, 0)]),
        ("\"1 2\" occurs at least 0 times", &[(0, 1), (0, 2), (1, 2), (17, 0)]),
        ("ftnot \"1\" occurs at least 2 times", &[one[0], one[1], least, (4, 0)]),
        ("\"1\" ftand \"1\" occurs at least 2 times", &[one[0], one[1], one[0], one[1], least, (3, 0)]),
        ("\"1\" occurs at least 2 times ftor \"1\"", &[one[0], one[1], least, one[0], one[1], (2, 0)]),
        ("\"1\" not in \"1\" occurs at least 2 times", &[one[0], one[1], one[0], one[1], least, (5, 0)]),
        ("\"1\" occurs at least 2 times ordered", &[one[0], one[1], least, (6, 0)]),
        ("(\"1\" occurs at least 2 times)", &[one[0], one[1], least]),
        ("ftnot (\"1\" occurs at least 2 times at end)", &[one[0], one[1], least, (14, 0), (4, 0)]),
        ("\"1\" occurs at least 2 times distance at least 2 words", &[one[0], one[1], least, (8, 2 * 65_536 + 4_095)]),
    ];
    for (text, codes) in texts {
        assert_eq!(typed::read(text.as_bytes()), Ok(codes.to_vec()), "{text}");
    }
}

/// "Errors .. 10 where the grammar doesn't allow it (or length + 1), else 11 for .. another number over 4,096".
#[test]
fn errors_of_occurs() {
    let texts = [
        // not twice, not behind a parenthesis, not behind a filter, not before its phrase
        ("\"1\" occurs at least 1 times occurs at least 1 times", 10, 29),
        ("(\"1\") occurs at least 1 times", 10, 7),
        ("\"1\" ordered occurs at least 1 times", 10, 13),
        ("occurs at least 1 times \"1\"", 10, 1),
        ("ftnot occurs at least 1 times", 10, 7),
        // each of its tokens
        ("\"1\" occurs", 10, 11),
        ("\"1\" occurs 3 times", 10, 12),
        ("\"1\" occurs times", 10, 12),
        ("\"1\" occurs at", 10, 14),
        ("\"1\" occurs at start", 10, 15),
        ("\"1\" occurs at least times", 10, 21),
        ("\"1\" occurs at least 1", 10, 22),
        ("\"1\" occurs at least 1 ", 10, 23),
        ("\"1\" occurs at least 1 words", 10, 23),
        ("\"1\" occurs at least 1 time", 10, 23),
        ("\"1\" occurs exactly 1 to 2 times", 10, 22),
        ("\"1\" occurs from 1 times", 10, 19),
        ("\"1\" occurs from 1 to times", 10, 22),
        ("\"1\" occurs least 1 times", 10, 12),
        ("\"1\" times", 10, 5),
        ("\"1\" window 3 times", 10, 14),
        ("\"1\" distance at least 3 times", 10, 25),
        ("\"1\" Occurs at least 1 times", 10, 5),
        // numbers
        ("\"1\" occurs at least 4097 times", 11, 21),
        ("\"1\" occurs at most 4097", 11, 20),
        ("\"1\" occurs exactly 99999999999999999999 x", 11, 20),
        ("\"1\" occurs from 4097 to 4097 times", 11, 17),
        ("\"1\" occurs from 4096 to 4097 times", 11, 25),
        ("\"1\" occurs least 4097 times", 10, 12),
    ];
    for (text, number, place) in texts {
        assert_eq!(typed::read(text.as_bytes()), Err(Refusal::new(number, place)), "{text}");
    }
}

/// (Reading: 4,096 passes the reader everywhere and may then meet refusal 5; `from 3 to 2` is 5.)
#[test]
fn codes_of_an_occurs_are_refused() {
    let texts = [
        ("\"1\" occurs at least 4095 times", None),
        ("\"1\" occurs at least 4096 times", Some((5, 3))),
        ("\"1\" occurs at most 4095 times", None),
        ("\"1\" occurs at most 4096 times", Some((5, 3))),
        ("\"1\" occurs exactly 4095 times", None),
        ("\"1\" occurs exactly 4096 times", Some((5, 3))),
        ("\"1\" occurs from 3 to 3 times", None),
        ("\"1\" occurs from 3 to 2 times", Some((5, 3))),
        ("\"1\" occurs from 4096 to 4096 times", Some((5, 3))),
        ("\"1\" occurs exactly 1 times not in \"2\"", Some((7, 6))),
        ("\"1\" not in \"2\" occurs at most 1 times", Some((7, 6))),
        ("\"1\" not in \"2\" occurs at least 1 times", None),
    ];
    for (text, refused) in texts {
        let refused = refused.map(|(number, place)| Quick::Refused { number, place });
        let answer = typed::typed_quick(&[0], &EMPTY, text.as_bytes(), WORK);
        assert!(
            refused.map_or(matches!(answer, Quick::Answered { .. }), |wanted| answer == wanted),
            "{text}: {answer:?}"
        );
    }
}

// Long texts

/// What is still to come, the next symbol last: a token, or a rule of the grammar.
#[derive(Clone, Copy, Debug, PartialEq, Eq, Hash)]
enum Symbol {
    Token(&'static str),
    Selection,
    Filters,
    Or,
    MoreOr,
    And,
    MoreAnd,
    MildNot,
    MoreMildNot,
    UnaryNot,
    Primary,
    Times,
    /// At most so many words and the quote, or the quote at once if one word came.
    Words(usize),
}

/// What a rule can be replaced by.
fn choices(rule: Symbol) -> Vec<Vec<Symbol>> {
    use Symbol::*;
    match rule {
        Token(_) => panic!("a token stands for itself"),
        Selection => vec![vec![Or, Filters]],
        Filters => {
            static FILTERS: OnceLock<Vec<Vec<Symbol>>> = OnceLock::new();
            let filter = |one: Derived| one.tokens.into_iter().map(Token).chain([Filters]).collect();
            let all = || [vec![]].into_iter().chain(filters().into_iter().map(filter)).collect();
            FILTERS.get_or_init(all).clone()
        }
        Or => vec![vec![And, MoreOr]],
        MoreOr => vec![vec![], vec![Token("ftor"), And, MoreOr]],
        And => vec![vec![MildNot, MoreAnd]],
        MoreAnd => vec![vec![], vec![Token("ftand"), MildNot, MoreAnd]],
        MildNot => vec![vec![UnaryNot, MoreMildNot]],
        MoreMildNot => vec![vec![], vec![Token("not"), Token("in"), UnaryNot, MoreMildNot]],
        UnaryNot => vec![vec![Primary], vec![Token("ftnot"), Primary]],
        Primary => vec![vec![Token("\""), Token("W"), Words(7), Times], vec![Token("("), Selection, Token(")")]],
        Times => {
            static TIMES: OnceLock<Vec<Vec<Symbol>>> = OnceLock::new();
            let occurs = |one: Derived| one.tokens.into_iter().map(Token).collect();
            let all = || [vec![]].into_iter().chain(times().into_iter().map(occurs)).collect();
            TIMES.get_or_init(all).clone()
        }
        Words(0) => vec![vec![Token("\"")]],
        Words(more) => vec![vec![Token("\"")], vec![Token("W"), Words(more - 1)]],
    }
}

/// All ways to go on whose next symbol is a token, or which are at their end.
fn expanded(way: Vec<Symbol>) -> Vec<Vec<Symbol>> {
    let (mut left, mut done) = (vec![way], vec![]);
    while let Some(mut way) = left.pop() {
        match way.pop() {
            Some(rule) if !matches!(rule, Symbol::Token(_)) => {
                for choice in choices(rule) {
                    left.push(way.iter().copied().chain(choice.into_iter().rev()).collect());
                }
            }
            Some(token) => {
                way.push(token);
                done.push(way);
            }
            None => done.push(way),
        }
    }
    done
}

/// The token that a text has at an index, as bytes; none where a blank stands. Straight from the request: a quote, a
/// parenthesis, a longest run, or any other byte.
fn token_at(text: &[u8], at: usize) -> Option<&[u8]> {
    let run = |of: fn(&u8) -> bool| text[at..].iter().take_while(|byte| of(byte)).count();
    match text[at] {
        b' ' => None,
        byte if byte.is_ascii_lowercase() => Some(&text[at..at + run(u8::is_ascii_lowercase)]),
        byte if byte.is_ascii_digit() => Some(&text[at..at + run(u8::is_ascii_digit)]),
        _ => Some(&text[at..=at]),
    }
}

/// Do some digits write more than this? By length and order, without the zeros before them.
fn over(digits: &[u8], most: &str) -> bool {
    let zeros = digits.iter().take_while(|digit| **digit == b'0').count();
    let digits = &digits[zeros..];
    (digits.len(), digits) > (most.len(), most.as_bytes())
}

/// The error of any text, by all ways at once.
fn error_of_text(text: &[u8]) -> Option<(u32, usize)> {
    if text.len() > 2_048 {
        return Some((11, 0));
    }
    let mut ways = expanded(vec![Symbol::Selection]);
    let mut at = 0;
    while at < text.len() {
        let Some(token) = token_at(text, at) else {
            at += 1;
            continue;
        };
        let digits = token[0].is_ascii_digit();
        // the letter W in a text is no word number
        let fits = |wanted: &str| is_number(wanted) == digits && (digits || wanted.as_bytes() == token);
        let next = |way: &Vec<Symbol>| match way.last() {
            Some(Symbol::Token(wanted)) if fits(wanted) => Some(*wanted),
            _ => None,
        };
        let Some(wanted) = ways.iter().find_map(next) else { return Some((10, at + 1)) };
        if digits && over(token, if wanted == "W" { "4294967295" } else { "4096" }) {
            return Some((11, at + 1));
        }
        let gone_on = ways.iter().filter(|way| next(way).is_some()).map(|way| way[..way.len() - 1].to_vec());
        ways = gone_on.flat_map(expanded).collect();
        at += token.len();
    }
    let ends = ways.iter().any(Vec::is_empty);
    (!ends).then_some((10, text.len() + 1))
}

fn check_text(text: &[u8]) {
    let wanted = error_of_text(text).map(|(number, place)| Refusal::new(number, place));
    assert_eq!(typed::read(text).err(), wanted, "{}", text.escape_ascii());
}

fn number(variable: &str) -> Option<u64> {
    std::env::var(variable).ok()?.parse().ok()
}

/// Random texts have the errors that the grammar gives them. `CASES=100000 SEED=7 cargo test ...` asks for others.
#[test]
fn errors_of_random_texts() {
    let count = number("CASES").unwrap_or(if cfg!(debug_assertions) { 300 } else { 20_000 }) as usize;
    let seed = number("SEED").unwrap_or(31);
    // the deep ones take their time here, and are below
    let deep = |text: &[u8]| text.iter().filter(|byte| **byte == b'(').count() > 60;
    let texts: Vec<Vec<u8>> = typed_cases(seed, count).map(|case| case.text).filter(|text| !deep(text)).collect();
    texts.iter().for_each(|text| check_text(text));
    println!("{} texts", texts.len());
}

/// Deep parentheses, and long texts.
#[test]
fn errors_of_long_texts() {
    for depth in [1, 100, 1_000, 1_022, 1_023, 1_024] {
        for inside in ["\"1\"", "\"1\" ordered", "\"1\" occurs at most 1 times", "", "ftnot"] {
            for close in [depth - 1, depth, depth + 1] {
                check_text((String::new() + &"(".repeat(depth) + inside + &")".repeat(close)).as_bytes());
            }
        }
    }
    for length in 2_046..=2_050 {
        check_text(&vec![b'('; length]);
        check_text(&vec![b'"'; length]);
        check_text(&vec![b'1'; length]);
        check_text(&vec![b' '; length]);
        check_text(format!("\"{:>width$}\"", 1, width = length - 2).as_bytes());
        check_text(format!("\"{:0>width$}\"", 1, width = length - 2).as_bytes());
    }
}
