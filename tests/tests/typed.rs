//! Typed searches (request F-1, with F-3's occurs) on the proved engine: its answers at every edge, and its agreement with the
//! second engine on every text that is tried.

mod grammar;
mod proved;
mod words;

use grammar::{typed_out, Grammar};
use proved::Proved;
use second_engine::agreement::{compare_read, marked};
use second_engine::gen::{self, Rng};
use second_engine::typed::{self, SELECTION};
use second_engine::typed_gen::{joined, rows, rows_that_go_on, spelled, without_blanks};
use second_engine::{
    compare_typed, hunt_typed, selection, typed_cases, Engine, Listing, Quick, Refusal, TypedCase, BUFFER, EMPTY, WORK,
};
use std::collections::BTreeMap;
use std::time::Instant;
use words::six_tokens;

fn engine() -> impl Engine {
    Proved
}

/// What lent memory holds before a call.
const NOISE: u32 = 0xEEEE_EEEE;

/// A text over document 01's six tokens, with enough memory.
fn over_six_tokens(text: &[u8]) -> TypedCase {
    let (section, families, buffer) = (six_tokens(), EMPTY.to_vec(), vec![NOISE; BUFFER]);
    TypedCase { text: text.to_vec(), section, families, work_len: WORK, buffer, selection: marked(SELECTION) }
}

/// The codes that an engine reads in a text, or its refusal; all three typed calls are compared with the second engine's on
/// the way, and the listing and the quick answer with the engine's own calls on the codes.
fn read(engine: &impl Engine, text: &[u8]) -> Result<Vec<(u32, u32)>, Refusal> {
    all_agree(engine, text);
    let mut selection = [NOISE; SELECTION];
    let m = engine.read(text, &mut selection)? as usize;
    assert_eq!(m, selection[0] as usize);
    Ok((1..=m).map(|at| (selection[at], selection[at + m])).collect())
}

fn refused(number: u32, place: usize) -> Result<Vec<(u32, u32)>, Refusal> {
    Err(Refusal::new(number, place))
}

/// An engine reads these texts so.
fn reads(engine: &impl Engine, texts: &[(&str, &[(u32, u32)])]) {
    for (text, codes) in texts {
        assert_eq!(read(engine, text.as_bytes()), Ok(codes.to_vec()), "{text}");
    }
}

/// An engine refuses these texts so: number, place.
fn refuses(engine: &impl Engine, texts: &[(&str, u32, usize)]) {
    for (text, number, place) in texts {
        assert_eq!(read(engine, text.as_bytes()), refused(*number, *place), "{text}");
    }
}

/// All three typed calls.
fn all_agree(engine: &impl Engine, text: &[u8]) {
    compare_typed(engine, &over_six_tokens(text)).unwrap_or_else(|wrong| panic!("{}: {wrong}", text.escape_ascii()));
}

/// Many texts, which are compared: each is read, and one in so many goes to all three calls.
#[derive(Default)]
struct Many {
    texts: usize,
}

impl Many {
    const ALL_CALLS: usize = 64;

    /// Reads into the fewest numbers that are enough, and some more.
    fn agree(&mut self, text: &[u8]) {
        self.texts += 1;
        if self.texts.is_multiple_of(Many::ALL_CALLS) {
            return all_agree(&engine(), text);
        }
        compare_read(&engine(), text, &marked(SELECTION + 3))
            .unwrap_or_else(|wrong| panic!("{}: {wrong}", text.escape_ascii()));
    }
}

// What the request says

#[test]
fn every_form() {
    let one = [(0, 1), (1, 1)];
    let with = |kind, operand| [(0, 1), (1, 1), (kind, operand)];
    let engine = &engine();
    reads(
        engine,
        &[
            ("\"1\"", &one),
            ("(\"1\")", &one),
            ("  ( ( \" 1 \" ) )  ", &one),
            ("\"1 22 333\"", &[(0, 1), (0, 22), (0, 333), (1, 3)]),
            ("\"1 2 3 4 5 6 7 8\"", &[(0, 1), (0, 2), (0, 3), (0, 4), (0, 5), (0, 6), (0, 7), (0, 8), (1, 8)]),
            ("ftnot \"1\"", &with(4, 0)),
            ("ftnot(\"1\")", &with(4, 0)),
            ("\"1\" ordered", &with(6, 0)),
            ("\"1\" window 3 words", &with(7, 3)),
            ("\"1\"window3words", &with(7, 3)),
            ("\"1\" distance exactly 3 words", &with(8, 3 * 65_536 + 3)),
            ("\"1\" distance at least 3 words", &with(8, 3 * 65_536 + 4_095)),
            ("\"1\" distance at most 3 words", &with(8, 3)),
            ("\"1\" distance from 3 to 5 words", &with(8, 3 * 65_536 + 5)),
            ("\"1\" same sentence", &with(9, 0)),
            ("\"1\" same paragraph", &with(10, 0)),
            ("\"1\" different sentence", &with(11, 0)),
            ("\"1\" different paragraph", &with(12, 0)),
            ("\"1\" at start", &with(13, 0)),
            ("\"1\" at end", &with(14, 0)),
            ("\"1\" entire content", &with(15, 0)),
            ("\"1\" ordered window 3 words at end", &[(0, 1), (1, 1), (6, 0), (7, 3), (14, 0)]),
            ("\"1\" occurs exactly 3 times", &with(16, 3 * 65_536 + 3)),
            ("\"1\" occurs at least 3 times", &with(17, 3)),
            ("\"1\"occurs at least0times", &with(17, 0)),
            ("\"1\" occurs at most 3 times", &with(16, 3)),
            ("\"1\" occurs from 3 to 5 times", &with(16, 3 * 65_536 + 5)),
            ("( \"1\" occurs exactly 0 times )", &with(16, 0)),
            ("\"1 2\" occurs at least 4095 times at end", &[(0, 1), (0, 2), (1, 2), (17, 4_095), (14, 0)]),
        ],
    );
}

/// The kinds of a text, `w` for the two codes of a phrase of one word.
fn kinds(engine: &impl Engine, text: &str) -> String {
    let codes = read(engine, text.as_bytes()).unwrap_or_else(|wrong| panic!("{text}: {wrong:?}"));
    let kinds: Vec<String> = codes.iter().map(|(kind, _)| kind.to_string()).collect();
    kinds.join(" ").replace("0 1", "w")
}

/// "`ftor` over `ftand` over `not in` over `ftnot`"; "left operands group first."
#[test]
fn what_binds_more() {
    let engine = &engine();
    let texts = [
        ("\"1\" ftor \"2\" ftor \"3\"", "w w 2 w 2"),
        ("\"1\" ftand \"2\" ftand \"3\"", "w w 3 w 3"),
        ("\"1\" not in \"2\" not in \"3\"", "w w 5 w 5"),
        ("\"1\" ftor (\"2\" ftor \"3\")", "w w w 2 2"),
        ("\"1\" ftor \"2\" ftand \"3\"", "w w w 3 2"),
        ("\"1\" ftand \"2\" ftor \"3\"", "w w 3 w 2"),
        ("(\"1\" ftor \"2\") ftand \"3\"", "w w 2 w 3"),
        ("\"1\" ftand \"2\" not in \"3\"", "w w w 5 3"),
        ("\"1\" not in \"2\" ftand \"3\"", "w w 5 w 3"),
        ("ftnot \"1\" not in \"2\"", "w 4 w 5"),
        ("\"1\" not in ftnot \"2\"", "w w 4 5"),
        ("ftnot \"1\" ftand ftnot \"2\" ftor ftnot \"3\"", "w 4 w 4 3 w 4 2"),
        ("ftnot (\"1\" ftand \"2\")", "w w 3 4"),
        ("ftnot (ftnot \"1\")", "w 4 4"),
        ("\"1\" ftor \"2\" ftand \"3\" ordered", "w w w 3 2 6"),
        ("\"1\" ftand (\"2\" ordered)", "w w 6 3"),
        ("\"1\" ftor \"2\" ftand \"3\" not in \"4\" not in \"5\" ftand \"6\" ftor \"7\"", "w w w w 5 w 5 3 w 3 2 w 2"),
        // an occurs belongs to its phrase
        ("ftnot \"1\" occurs at least 2 times", "w 17 4"),
        ("\"1\" ftor \"2\" occurs exactly 2 times", "w w 16 2"),
        ("\"1\" occurs at most 2 times ftor \"2\"", "w 16 w 2"),
        ("\"1\" ftand \"2\" occurs at least 2 times ftand \"3\"", "w w 17 3 w 3"),
        ("\"1\" not in \"2\" occurs at least 2 times not in \"3\"", "w w 17 5 w 5"),
        ("\"1\" occurs at least 2 times ordered window 2 words", "w 17 6 7"),
        ("ftnot (\"1\" occurs from 1 to 2 times ftand ftnot \"2\") at start", "w 16 w 4 3 4 13"),
    ];
    for (text, wanted) in texts {
        assert_eq!(kinds(engine, text), wanted, "{text}");
    }
}

#[test]
fn what_the_grammar_does_not_allow() {
    refuses(
        &engine(),
        &[
            ("", 10, 1),
            ("   ", 10, 4),
            ("\"\"", 10, 2),
            ("\"1", 10, 3),
            ("\"1 ", 10, 4),
            ("\"1\" ftand", 10, 10),
            ("\"1\" ftand  ", 10, 12),
            ("\"1\" \"2\"", 10, 5),
            ("\"1\"\"", 10, 4),
            ("1", 10, 1),
            ("(\"1\"", 10, 5),
            ("(\"1\" ", 10, 6),
            ("\"1\")", 10, 4),
            ("()", 10, 2),
            ("ftnot ftnot \"1\"", 10, 7),
            ("ftnot", 10, 6),
            ("\"1\" ftnot \"2\"", 10, 5),
            ("\"1\" not \"2\"", 10, 9),
            ("\"1\" notin \"2\"", 10, 5),
            ("\"1\" in \"2\"", 10, 5),
            ("\"1\" ordered ftand \"2\"", 10, 13),
            ("\"1\" ordered not in \"2\"", 10, 13),
            ("(\"1\" ordered) ftand \"2\" at end ftor \"3\"", 10, 32),
            ("ordered", 10, 1),
            ("ftnot ordered", 10, 7),
            ("\"1\" ftandftand \"2\"", 10, 5),
            ("\"1\" Ftand \"2\"", 10, 5),
            ("\"1\" fTand \"2\"", 10, 5),
            ("\"1\" ft and \"2\"", 10, 5),
            ("\"1\" window words", 10, 12),
            ("\"1\" window \"3\" words", 10, 12),
            ("\"1\" window 3", 10, 13),
            ("\"1\" window 3 word", 10, 14),
            ("\"1\" window 3 sentences", 10, 14),
            ("\"1\" window 3 3 words", 10, 14),
            ("\"1\" distance 3 words", 10, 14),
            ("\"1\" distance at 3 words", 10, 17),
            ("\"1\" distance at start", 10, 17),
            ("\"1\" distance from 3 words", 10, 21),
            ("\"1\" distance exactly 3 to 4 words", 10, 24),
            ("\"1\" at least 3 words", 10, 8),
            ("\"1\" same words", 10, 10),
            ("\"1\" entire", 10, 11),
            ("\"1\"\t", 10, 4),
            ("\"1\"\n", 10, 4),
            ("\"1\"\0", 10, 4),
            ("\"1,2\"", 10, 3),
            ("\"-1\"", 10, 2),
            ("\"+1\"", 10, 2),
            ("\"1.5\"", 10, 3),
            ("'1'", 10, 1),
            ("\"a\"", 10, 2),
            ("\"W\"", 10, 2),
            ("\"1\" window N words", 10, 12),
            // an occurs stands directly behind a phrase, once
            ("(\"1\") occurs at least 1 times", 10, 7),
            ("\"1\" occurs at least 1 times occurs at least 1 times", 10, 29),
            ("\"1\" ordered occurs at least 1 times", 10, 13),
            ("ftnot occurs at least 1 times", 10, 7),
            ("occurs", 10, 1),
            ("\"1 occurs", 10, 4),
            ("\"1\" ftand occurs", 10, 11),
            ("\"1\" times", 10, 5),
            ("\"1\" occurs", 10, 11),
            ("\"1\" occurs at", 10, 14),
            ("\"1\" occurs at end", 10, 15),
            ("\"1\" occurs 1 times", 10, 12),
            ("\"1\" occurs \"1\" times", 10, 12),
            ("\"1\" occurs least 1 times", 10, 12),
            ("\"1\" occurs at least times", 10, 21),
            ("\"1\" occurs at least 1", 10, 22),
            ("\"1\" occurs at least 1 words", 10, 23),
            ("\"1\" occurs at least 1 time", 10, 23),
            ("\"1\" occurs at least 1 timess", 10, 23),
            ("\"1\" occurs exactly 1 to 2 times", 10, 22),
            ("\"1\" occurs from 1 times", 10, 19),
            ("\"1\" occurs from 1 to times", 10, 22),
            ("\"1\" occur at least 1 times", 10, 5),
            ("\"1\" window 3 times", 10, 14),
            ("\"1 2 3 4 5 6 7 8 9\"", 10, 18),
            ("\"1 2 3 4 5 6 7 8 4294967296\"", 10, 18),
            ("4097", 10, 1),
        ],
    );
}

#[test]
fn numbers_at_their_edges() {
    let engine = &engine();
    let word = |digits: &str| read(engine, format!("\"{digits}\"").as_bytes());
    for (digits, value) in [("0", 0), ("00", 0), ("4097", 4_097), ("4294967295", u32::MAX), ("007", 7)] {
        assert_eq!(word(digits), Ok(vec![(0, value), (1, 1)]), "{digits}");
    }
    assert_eq!(word(&("0".repeat(2_000) + "4294967295")), Ok(vec![(0, u32::MAX), (1, 1)]));
    assert_eq!(word(&("0".repeat(2_000) + "4294967296")), refused(11, 2));
    let large = ["4294967296", "4294967297", "4294967300", "5000000000", "9999999999", "10000000000", "42949672950"];
    let larger =
        ["18446744073709551615", "18446744073709551616", "18446744073709551617", "79228162514264337593543950337"];
    for digits in large.into_iter().chain(larger) {
        assert_eq!(word(digits), refused(11, 2), "{digits}");
    }
    for digits in 11..60 {
        assert_eq!(word(&"1".repeat(digits)), refused(11, 2));
        assert_eq!(word(&format!("1{}", "0".repeat(digits))), refused(11, 2));
    }
    let forms = typed::FILTERS.iter().chain(&typed::OCCURS).map(|form| form.typed);
    for form in forms.filter(|form| form.matches('N').count() == 1) {
        let text = |digits: &str| format!("\"1\" {}", form.replace('N', digits));
        let place = text("N").find('N').unwrap() + 1;
        for digits in ["0", "1", "4095", "4096", "0004096", "000000000000000000000000000000004096"] {
            assert!(read(engine, text(digits).as_bytes()).is_ok(), "{form}: {digits}");
        }
        for digits in ["4097", "04097", "9999", "65536", "69632", "4294967295", "4294967296", "18446744073709551617"] {
            assert_eq!(read(engine, text(digits).as_bytes()), refused(11, place), "{form}: {digits}");
        }
    }
    refuses(
        engine,
        &[
            ("\"1\" distance from 4097 to 4097 words", 11, 19),
            ("\"1\" distance from 1 to 4097 words", 11, 24),
            ("\"1\" distance from 4097", 11, 19),
            ("\"1\" occurs from 4097 to 4097 times", 11, 17),
            ("\"1\" occurs from 1 to 4097 times", 11, 22),
            ("\"1\" occurs from 4097", 11, 17),
            // "whichever token comes first"
            ("\"1\" window 4097", 11, 12),
            ("\"1\" window 4097 4097", 11, 12),
            ("\"4294967296 x", 11, 2),
            ("\"1\" x \"4294967296\"", 10, 5),
            ("\"1\" window window 4097", 10, 12),
            ("\"4294967296", 11, 2),
        ],
    );
}

/// (Reading: 4,096 passes the reader everywhere and may then meet refusal 5; `window 0` and `from 3 to 2` are 5.)
#[test]
fn what_only_the_codes_are_refused_for() {
    let engine = &engine();
    let section = [1, 1, 65_537];
    let both = |text: &str| {
        read(engine, text.as_bytes()).unwrap_or_else(|wrong| panic!("{text}: {wrong:?}"));
        let listing = engine.typed_listing(&section, &EMPTY, text.as_bytes(), &mut [NOISE; WORK], &mut [NOISE; BUFFER]);
        let quick = engine.typed_quick(&section, &EMPTY, text.as_bytes(), &mut [NOISE; WORK]);
        match (listing, quick) {
            (Listing::Refused { number, place }, Quick::Refused { number: other, place: at }) => {
                assert_eq!((number, place), (other, at), "{text}");
                (number, place)
            }
            (Listing::Listed { .. }, Quick::Answered { .. }) => (0, 0),
            other => panic!("{text}: {other:?}"),
        }
    };
    let texts = [
        ("\"1\" window 0 words", 5, 3),
        ("\"1\" window 1 words", 0, 0),
        ("\"2\" window 4096 words", 0, 0),
        ("\"1\" distance from 3 to 2 words", 5, 3),
        ("\"1\" distance from 3 to 3 words", 0, 0),
        ("\"1\" distance exactly 4095 words", 0, 0),
        ("\"1\" distance exactly 4096 words", 5, 3),
        ("\"1\" distance at least 4095 words", 0, 0),
        ("\"1\" distance at least 4096 words", 5, 3),
        ("\"1\" distance at most 4095 words", 0, 0),
        ("\"1\" distance at most 4096 words", 5, 3),
        ("\"1\" distance from 0 to 4096 words", 5, 3),
        ("\"1\" not in ftnot \"2\"", 7, 6),
        ("ftnot \"1\" not in \"2\"", 7, 6),
        ("\"1\" occurs at least 4095 times", 0, 0),
        ("\"1\" occurs at least 4096 times", 5, 3),
        ("\"1\" occurs at most 4095 times", 0, 0),
        ("\"1\" occurs at most 4096 times", 5, 3),
        ("\"1\" occurs exactly 4095 times", 0, 0),
        ("\"1\" occurs exactly 4096 times", 5, 3),
        ("\"1\" occurs from 3 to 3 times", 0, 0),
        ("\"1\" occurs from 3 to 2 times", 5, 3),
        ("\"1\" occurs from 0 to 4096 times", 5, 3),
        ("\"1\" occurs at most 1 times not in \"2\"", 7, 6),
        ("\"1\" not in \"2\" occurs exactly 1 times", 7, 6),
        ("\"1\" not in \"2\" occurs at least 1 times", 0, 0),
        // nine lists would wait
        ("\"1\" ftor (\"2\" ftor (\"3\" ftor (\"4\" ftor (\"5\" ftor (\"6\" ftor (\"7\" ftor \"8\"))))))", 0, 0),
        ("\"1\" ftor (\"2\" ftor (\"3\" ftor (\"4\" ftor (\"5\" ftor (\"6\" ftor (\"7\" ftor (\"8\" ftor \"9\")))))))", 6, 18),
    ];
    for (text, number, place) in texts {
        assert_eq!(both(text), (number, place), "{text}");
    }
}

/// "Over 64 codes is refusal 3", of the reader alone after the text's errors and before 8, of a typed call after 1 and 2.
#[test]
fn sixty_four_codes() {
    let engine = &engine();
    let with = |codes: usize| "\"1\"".to_string() + &" ordered".repeat(codes - 2);
    for codes in [2, 63, 64] {
        assert_eq!(read(engine, with(codes).as_bytes()).map(|list| list.len()), Ok(codes));
    }
    for codes in [65, 66, 128, 200, 250] {
        let text = with(codes);
        assert_eq!(read(engine, text.as_bytes()), refused(3, 0));
        for length in [0, 1, 128, 129, 600] {
            assert_eq!(engine.read(text.as_bytes(), &mut vec![NOISE; length]), Err(Refusal::new(3, 0)));
        }
        let wrong = text.clone() + " x";
        assert_eq!(read(engine, wrong.as_bytes()), refused(10, text.len() + 2));
    }
    let answers = |section: &[u32], work_len: usize, text: &str| match engine.typed_quick(
        section,
        &EMPTY,
        text.as_bytes(),
        &mut vec![NOISE; work_len],
    ) {
        Quick::Refused { number, place } => (number, place),
        Quick::Answered { .. } => (0, 0),
    };
    let (right, faulty) = ([1, 1, 65_537], [2, 1, 1, 2, 1]);
    assert_eq!(answers(&right, WORK, &with(64)), (0, 0));
    assert_eq!(answers(&right, WORK, &with(65)), (3, 0));
    assert_eq!(answers(&right, 0, &with(65)), (3, 0));
    assert_eq!(answers(&right, 0, &with(64)), (8, 0));
    assert_eq!(answers(&faulty, 0, &with(65)), (2, 2));
    assert_eq!(answers(&[], 0, &with(65)), (1, 0));
    assert_eq!(answers(&[], 0, "x"), (10, 1));
    assert_eq!(answers(&faulty, 0, "\"4294967296\""), (11, 2));
    assert_eq!(answers(&[], 0, &" ".repeat(2_049)), (11, 0));
}

/// "8 where fewer than 129 numbers are lent" (reading), whatever the codes would need.
#[test]
fn lent_selections() {
    let engine = &engine();
    for length in (0..5).chain(126..140).chain([1_000]) {
        let before = marked(length);
        let mut selection = before.clone();
        let answer = engine.read(b"\"7\" window 9 words", &mut selection);
        if length < 129 {
            assert_eq!((answer, selection), (Err(Refusal::new(8, 0)), before));
        } else {
            assert_eq!(answer, Ok(3));
            assert_eq!(selection[..7], [3, 0, 1, 7, 7, 1, 9]);
            assert_eq!(selection[7..], before[7..]);
        }
    }
}

/// "Text of at most 2,048 bytes"; "11 at place 0, first of all, for too long a text".
#[test]
fn two_thousand_and_forty_eight_bytes() {
    let engine = &engine();
    for length in 2_040..=2_052 {
        let wanted = |within| if length > 2_048 { refused(11, 0) } else { within };
        let one = wanted(Ok(vec![(0, 1), (1, 1)]));
        let blanks = " ".repeat(length - 3);
        for text in
            [format!("\"1\"{blanks}"), format!("{blanks}\"1\""), format!("\"{blanks}1\""), format!("\"1{blanks}\"")]
        {
            assert_eq!(read(engine, text.as_bytes()), one);
        }
        let zeros = format!("\"{}1\"", "0".repeat(length - 3));
        assert_eq!(read(engine, zeros.as_bytes()), one);
        assert_eq!(read(engine, &vec![b' '; length]), wanted(refused(10, length + 1)));
        assert_eq!(read(engine, &vec![b'('; length]), wanted(refused(10, length + 1)));
        assert_eq!(read(engine, &vec![b'x'; length]), wanted(refused(10, 1)));
        assert_eq!(read(engine, &vec![0xFF; length]), wanted(refused(10, 1)));
        let digits = format!("\"{}", "9".repeat(length - 1));
        assert_eq!(read(engine, digits.as_bytes()), wanted(refused(11, 2)));
        let last = format!("\"1\"{}x", " ".repeat(length - 4));
        assert_eq!(read(engine, last.as_bytes()), wanted(refused(10, length)));
    }
    for length in [4_096, 65_536, 1_000_000] {
        assert_eq!(read(engine, &vec![b'('; length]), refused(11, 0));
    }
}

/// 2,047 parentheses stand in a text of 2,048 bytes, and 1,022 pairs around a phrase.
#[test]
fn deep_parentheses() {
    let engine = &engine();
    let around = |open: usize, inside: &str, close: usize| "(".repeat(open) + inside + &")".repeat(close);
    for depth in [1, 2, 8, 9, 63, 64, 65, 127, 128, 255, 256, 257, 511, 512, 1_000, 1_021, 1_022] {
        let phrase = around(depth, "\"1\"", depth);
        assert_eq!(read(engine, phrase.as_bytes()), Ok(vec![(0, 1), (1, 1)]));
        assert_eq!(read(engine, around(depth, "\"1\"", depth - 1).as_bytes()), refused(10, 2 * depth + 3));
        if depth < 1_022 {
            assert_eq!(read(engine, around(depth, "\"1\"", depth + 1).as_bytes()), refused(10, 2 * depth + 4));
        }
        assert_eq!(read(engine, around(depth, "", depth).as_bytes()), refused(10, depth + 1));
        assert_eq!(read(engine, around(depth, "\"", 0).as_bytes()), refused(10, depth + 2));
    }
    for depth in 2_040..=2_048 {
        assert_eq!(read(engine, around(depth, "", 0).as_bytes()), refused(10, depth + 1));
    }
    assert_eq!(read(engine, around(2_047, ")", 0).as_bytes()), refused(10, 2_048));
    assert_eq!(read(engine, around(2_047, "ftnot", 0).as_bytes()), refused(11, 0));
    // each with a not or a filter of its own
    for depth in [1, 5, 61, 62] {
        let nots = "ftnot(".repeat(depth) + "\"1\"" + &")".repeat(depth);
        assert_eq!(read(engine, nots.as_bytes()).map(|codes| codes.len()), Ok(2 + depth));
        let filters = "(".repeat(depth) + "\"1\"" + &" at end)".repeat(depth);
        assert_eq!(read(engine, filters.as_bytes()).map(|codes| codes.len()), Ok(2 + depth));
    }
    let many = "ftnot(".repeat(290) + "\"1\"" + &")".repeat(290);
    assert_eq!(read(engine, many.as_bytes()), refused(3, 0));
}

/// A typed search finds what its codes find: document 01's example of the program, typed.
#[test]
fn a_typed_search_finds() {
    let engine = &engine();
    let section = [6, 10, 20, 30, 10, 40, 20, 65_537, 65_537, 65_537, 65_538, 65_538, 65_538];
    let text = b"\"10\" ftand \"20\" window 3 words";
    let mut buffer = [NOISE; BUFFER];
    let listing = engine.typed_listing(&section, &EMPTY, text, &mut [NOISE; WORK], &mut buffer);
    assert_eq!(listing, Listing::Listed { matches: 4, strings: 4, yes: true });
    assert_eq!(buffer[..6], [4, 4, 1, 1, 1, 1]);
    assert_eq!(buffer[6..10], [65_538, 65_538, 131_076, 262_150]);
    assert_eq!(buffer[14], NOISE);
    let quick = engine.typed_quick(&section, &EMPTY, text, &mut [NOISE; WORK]);
    assert_eq!(quick, Quick::Answered { yes: true, codes: 4 });
    let not = b"\"10\" ftand ftnot \"40\"";
    assert_eq!(engine.typed_quick(&section, &EMPTY, not, &mut [NOISE; WORK]), Quick::Answered { yes: false, codes: 4 });
    let same = b"\"10\" ftand ftnot \"40\" same sentence";
    assert_eq!(engine.typed_quick(&section, &EMPTY, same, &mut [NOISE; WORK]), Quick::Answered { yes: true, codes: 5 });
    let twice = b"\"10\" occurs at least 2 times";
    assert_eq!(
        engine.typed_quick(&section, &EMPTY, twice, &mut [NOISE; WORK]),
        Quick::Answered { yes: true, codes: 2 }
    );
    // the early way out of a filter: 2 × 257 windows aren't listed
    let far = b"\"10\" window 257 words";
    let refused = engine.typed_listing(&section, &EMPTY, far, &mut [NOISE; WORK], &mut buffer);
    assert_eq!(refused, Listing::Refused { number: 9, place: 3 });
    assert_eq!(engine.typed_quick(&section, &EMPTY, far, &mut [NOISE; WORK]), Quick::Answered { yes: true, codes: 2 });
    let once = b"\"10\" occurs exactly 1 times";
    assert_eq!(
        engine.typed_quick(&section, &EMPTY, once, &mut [NOISE; WORK]),
        Quick::Answered { yes: false, codes: 2 }
    );
}

// Every text of some sort

/// Some hundred texts of all forms.
fn some_texts() -> Vec<Vec<u8>> {
    let mut list: Vec<Vec<u8>> = vec![
        b"\"1\"".to_vec(),
        b" ( \"1 2\" ftor ftnot \"3\" ) ftand \"4\" not in \"5\" ordered".to_vec(),
        b"\"1 2 3 4 5 6 7 8\" window 4096 words".to_vec(),
        b"\"4294967295\" distance from 4095 to 4096 words".to_vec(),
    ];
    let forms = typed::FILTERS.iter().chain(&typed::OCCURS);
    list.extend(forms.map(|form| format!("\"1\" {}", form.typed.replace('N', "3")).into_bytes()));
    for (index, case) in gen::cases(41, 1_000).enumerate() {
        let Ok(tree) = selection::read_shape(&case.selection) else { continue };
        let mut rng = Rng::new(42, index as u64);
        let words = spelled(&mut rng, &tree);
        let text = joined(&mut rng, &words);
        if list.len() < 120 && text.len() <= 60 {
            list.push(text);
        }
    }
    list
}

/// Every byte of some hundred texts by every other byte, left out, or doubled; and each text cut short from either side.
#[test]
fn every_change_of_a_byte() {
    let (mut many, begun) = (Many::default(), Instant::now());
    let some = if cfg!(debug_assertions) { 20 } else { 1 };
    for text in some_texts().into_iter().step_by(some) {
        for at in 0..text.len() {
            for byte in 0..=255 {
                let mut changed = text.clone();
                changed[at] = byte;
                many.agree(&changed);
            }
            many.agree(&[&text[..at], &text[at + 1..]].concat());
            many.agree(&[&text[..=at], &text[at..]].concat());
            many.agree(&text[..at]);
            many.agree(&text[at..]);
        }
    }
    println!("{} texts in {:?}", many.texts, begun.elapsed());
}

/// Every row of up to four tokens, and every longer one, up to nine, of which only the last token may be wrong; with a
/// blank between them, and without.
#[test]
fn every_row_of_tokens() {
    let (mut many, begun) = (Many::default(), Instant::now());
    let (any, most) = if cfg!(debug_assertions) { (2, 5) } else { (4, 9) };
    for row in rows(any).chain(rows_that_go_on(most)) {
        many.agree(row.join(" ").as_bytes());
        many.agree(&without_blanks(&row));
    }
    println!("{} texts in {:?}", many.texts, begun.elapsed());
}

/// Every sentence of the grammar up to some tokens has the codes that it is derived with, each of its numbers another one;
/// its beginnings agree.
#[test]
fn every_sentence() {
    let most = if cfg!(debug_assertions) { 8 } else { 12 };
    every_one_agrees(Grammar::up_to(most), most);
}

/// And so have longer ones about occurs.
#[test]
fn every_sentence_about_occurs() {
    let most = if cfg!(debug_assertions) { 12 } else { 16 };
    every_one_agrees(Grammar::about_occurs(most), most);
}

fn every_one_agrees(grammar: Grammar, most: usize) {
    let (mut many, begun) = (Many::default(), Instant::now());
    for sentence in grammar.sentences() {
        let (text, codes) = typed_out(sentence);
        let mut selection = [NOISE; SELECTION];
        assert_eq!(engine().read(text.as_bytes(), &mut selection), Ok(codes.len() as u32), "{text}");
        assert_eq!(selection[..=2 * codes.len()], typed::numbers(&codes), "{text}");
        many.agree(text.as_bytes());
        many.agree(&text.as_bytes()[..text.rfind(' ').expect("three tokens at least")]);
    }
    println!("{} texts of up to {most} tokens in {:?}", many.texts, begun.elapsed());
}

/// Every text of one byte, and of two; every byte between a phrase and a filter, and in a phrase.
#[test]
fn every_byte() {
    let mut many = Many::default();
    for one in 0..=255 {
        many.agree(&[one]);
        many.agree(&[b"\"1\"", &[one][..], b"ordered"].concat());
        many.agree(&[b"\"1", &[one][..], b"2\""].concat());
        for two in 0..=255 {
            many.agree(&[one, two]);
        }
    }
}

// Random texts

fn number(variable: &str) -> Option<u64> {
    std::env::var(variable).ok()?.parse().ok()
}

/// 20,000 in release, fewer without optimisation; or as the environment says: `CASES=1000000 SEED=7 cargo test ...`.
#[test]
fn random_texts() {
    let begun = Instant::now();
    let count = number("CASES").unwrap_or(if cfg!(debug_assertions) { 1_000 } else { 20_000 }) as usize;
    if let Err(wrong) = hunt_typed(&engine(), number("SEED").unwrap_or(1), count) {
        panic!("{wrong}");
    }
    println!("{count} typed cases in {:?}", begun.elapsed());
}

/// Every sort of text with every sort of section, of table and of lent memory: which refusal comes first.
#[test]
fn every_order_of_refusals() {
    let sixty_five = "\"1\"".to_string() + &" ordered".repeat(63);
    let long = " ".repeat(2_049);
    let texts = ["\"1\"", "\"1\" ftand", "\"1\" window 0 words", "\"4294967296\"", &sixty_five, &long];
    let sections = [vec![2, 1, 1, 65_537, 65_537], vec![2, 1, 1, 2, 1], vec![1, 1], vec![]];
    // of no numbers, of a wrong length, out of order; and two without a fault
    let tables = [vec![0], vec![1, 1, 7], vec![], vec![1, 1], vec![2, 1, 1, 7, 7]];
    let memory = [(WORK, BUFFER), (WORK - 1, BUFFER), (WORK, BUFFER - 1), (0, 0), (WORK + 1, BUFFER + 1)];
    for (text, section, (work_len, buffer_len)) in texts.iter().flat_map(|text| {
        let sections = sections.iter();
        sections.flat_map(move |section| memory.into_iter().map(move |memory| (text, section, memory)))
    }) {
        for (lent, families) in
            [SELECTION, SELECTION - 1].into_iter().flat_map(|lent| tables.iter().map(move |table| (lent, table)))
        {
            let (text, section, families) = (text.as_bytes().to_vec(), section.clone(), families.clone());
            let (buffer, selection) = (vec![NOISE; buffer_len], vec![NOISE; lent]);
            compare_typed(&engine(), &TypedCase { text, section, families, work_len, buffer, selection }).unwrap();
        }
    }
}

/// Counts what the typed cases are about: every answer, refusal and limit must be met, and often enough.
#[test]
#[cfg_attr(debug_assertions, ignore = "needs 20,000 cases")]
fn typed_cases_meet_everything() {
    let mut met: BTreeMap<String, usize> = BTreeMap::new();
    let mut meet = |what: String| *met.entry(what).or_insert(0) += 1;
    let count = 20_000;
    for case in typed_cases(2, count) {
        let length = case.text.len();
        match length {
            2_040.. => meet(format!("length {}", if length > 2_048 { "over 2048".into() } else { length.to_string() })),
            _ => meet("length under 2040".into()),
        }
        match typed::read(&case.text) {
            Err(Refusal { number, place: 0 }) => meet(format!("error {number} at 0")),
            Err(Refusal { number, place }) if place as usize == length + 1 => {
                meet(format!("error {number} at the end"))
            }
            Err(Refusal { number, .. }) => meet(format!("error {number} at a token")),
            Ok(codes) => {
                meet(format!("codes {}", if codes.len() < 60 { "under 60".into() } else { codes.len().to_string() }));
                codes.iter().for_each(|(kind, _)| meet(format!("kind {kind}")));
                match typed::typed_quick(&case.section, &case.families, &case.text, case.work_len) {
                    Quick::Refused { number, .. } => meet(format!("quick refused {number}")),
                    Quick::Answered { yes, .. } => meet(format!("quick {yes}")),
                }
                let mut buffer = case.buffer.clone();
                match typed::typed_listing(&case.section, &case.families, &case.text, case.work_len, &mut buffer) {
                    Listing::Refused { number, .. } => meet(format!("listing refused {number}")),
                    Listing::Listed { yes, .. } => meet(format!("listed {yes}")),
                }
            }
        }
    }
    for (what, times) in &met {
        println!("{times:7}  {what}");
    }
    let mut needed: Vec<String> = (0..=17).map(|kind| format!("kind {kind}")).collect();
    needed.extend((60..=70).map(|codes| format!("codes {codes}")));
    needed.extend((2_047..=2_048).map(|length| format!("length {length}")));
    // a text can't have kinds that are unknown, and its occurs are over phrases
    for number in [1, 2, 3, 5, 6, 7, 8, 9, 13] {
        needed.push(format!("quick refused {number}"));
        needed.push(format!("listing refused {number}"));
    }
    let others = [
        "length over 2048",
        "error 11 at 0",
        "error 11 at a token",
        "error 10 at a token",
        "error 10 at the end",
        "quick true",
        "quick false",
        "listed true",
        "listed false",
    ];
    needed.extend(others.map(String::from));
    for what in needed {
        let times = met.get(&what).copied().unwrap_or(0);
        assert!(times * 2_000 >= count, "met only {times} times in {count}: {what}");
    }
}
