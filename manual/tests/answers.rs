//! What the tool answers and what it shows: the sections of the example manual that say yes, and whole outputs.

mod program;

use program::{file, run, tool, Ran, EXAMPLE};
use second_engine::json::{self, Json};
use std::collections::BTreeSet;
use std::ffi::{c_char, c_int, CStr};
use std::fs::File;
use std::io::{Read, Write};
use std::os::fd::AsRawFd;
use std::process::{Command, Stdio};

// Runs

fn search(file: &str, search: &str) -> Ran {
    run(&["search", file, search])
}

/// A run gives this on standard output, nothing on standard error, and this status.
fn gives(arguments: &[&str], out: &str, status: i32) {
    assert_eq!(run(arguments), Ran::new(out, "", status), "{arguments:?}");
}

/// The object that `--json` prints.
fn object(file: &str, search: &str) -> Json {
    let ran = run(&["search", "--json", file, search]);
    assert_eq!(ran.err, "", "{search}");
    json::read(ran.out()).unwrap_or_else(|wrong| panic!("{wrong}\n{ran:?}"))
}

/// The numbers of the sections in an object that have this answer.
fn answered(object: &Json, answer: &str) -> Vec<i64> {
    let sections = object.get("sections").list().iter();
    let such = sections.filter(|section| section.get("answer").text() == answer);
    such.map(|section| section.get("section").number()).collect()
}

/// The numbers of the sections that a text shows, but those that say no.
fn shown(text: &str) -> Vec<i64> {
    let sections = text.split("\n\n").filter(|section| !section.ends_with("\n  No: every match is excluded."));
    let number = |section: &str| section.strip_prefix("Section ")?.split_once(',')?.0.parse().ok();
    sections.filter_map(number).collect()
}

/// These sections of the example manual say yes, and no others: also with `--all`, `--json` and `--quiet`.
fn yes(search: &str, wanted: &[i64]) {
    let status = i32::from(wanted.is_empty());
    let says = if wanted.len() == 1 { "says" } else { "say" };
    for options in [&["search"][..], &["search", "--all"]] {
        let ran = run(&[options, &[EXAMPLE, search]].concat());
        assert_eq!(shown(ran.out()), wanted, "{search}");
        assert!(ran.out().ends_with(&format!("{} of 43 sections {says} yes.\n", wanted.len())), "{ran:?}");
        assert_eq!((ran.err.as_str(), ran.status), ("", status), "{search}");
    }
    let object = object(EXAMPLE, search);
    assert_eq!(answered(&object, "yes"), wanted, "{search}");
    assert_eq!(object.get("sections").list().len(), wanted.len(), "{search}");
    assert_eq!(object.get("sections_asked").number(), 43);
    gives(&["search", "--quiet", EXAMPLE, search], "", status);
}

/// The sections of the example manual but these.
fn all_but(sections: &[i64]) -> Vec<i64> {
    (1..=43).filter(|section| !sections.contains(section)).collect()
}

// Which sections of the example manual say yes

const A: &str = r#""cam" ftand ftnot "cover""#;
const B: &str = r#""cam" ftand ftnot "cover" same sentence"#;
const C: &str = r#""cam" ftand ftnot "cover" same sentence ordered"#;
const D: &str = r#""cam" ftand ftnot "cover" same sentence ordered window 6 words"#;
const Q: &str = r#""cam" ftand ftnot "cover" same sentence ordered distance at most 4 words"#;
const G: &str = r#"ftnot ("cam" ftand ftnot "cover" same sentence)"#;

#[test]
fn filters_turn_a_no_into_a_yes() {
    // 32 alone has 'cam' and nowhere 'cover'
    yes(A, &[32]);
    // 30 and 41 turn to yes: 'cover' stands in a sentence without 'cam'
    yes(B, &[30, 32, 41]);
    // 37 turns to yes: in both sentences 'cover' stands before 'cam'
    yes(C, &[30, 32, 37, 41]);
    // 34 turns to yes: 'cover' is three words after 'cam', which three of six windows don't reach;
    // 39 turns to yes: there it is 15 and 24 words after
    yes(D, &[30, 32, 34, 37, 39, 41]);
    // these are all that have a 'cam': one of the windows ends at it, and never holds a 'cover' that follows
    yes(r#""cam""#, &[30, 32, 34, 37, 39, 41]);
    // 34 stays a no: two words lie between 'cam' and 'cover'; in 39 at least 14 do
    yes(Q, &[30, 32, 37, 39, 41]);
}

#[test]
fn without_same_sentence_other_sections_turn_to_yes() {
    // 37 and 41 turn to yes: their last 'cam' stands after every 'cover'
    yes(r#""cam" ftand ftnot "cover" ordered"#, &[32, 37, 41]);
    // 30 and 41 turn to yes: they have paragraphs with 'cam' and without 'cover'
    yes(r#""cam" ftand ftnot "cover" same paragraph"#, &[30, 32, 41]);
    // all turn to yes: some window of six words over a 'cam' reaches no 'cover'
    yes(r#""cam" ftand ftnot "cover" window 6 words"#, &[30, 32, 34, 37, 39, 41]);
    // a match of one include is dropped by different sentence
    yes(r#""cam" ftand ftnot "cover" different sentence"#, &[]);
}

#[test]
fn a_not_answers_the_opposite() {
    yes(G, &all_but(&[30, 32, 41]));
    // every section has 'the'
    yes(r#"ftnot "the""#, &[]);
    yes(r#"ftnot (ftnot "cam")"#, &[30, 32, 34, 37, 39, 41]);
}

#[test]
fn excludes_in_another_sentence_do_not_count_with_same_sentence() {
    yes(r#""needle" ftand ftnot "latch""#, &[4, 7, 10, 11, 14, 15, 18, 19, 24, 26, 29]);
    // 8 and 23 turn to yes: they have sentences with 'needle' and without 'latch'; 36 has none;
    // 26 turns to no: it has 'needle' in its heading alone
    let same = r#""needle" ftand ftnot "latch" same sentence"#;
    yes(same, &[4, 7, 8, 10, 11, 14, 15, 18, 19, 23, 24, 29]);
}

#[test]
fn two_words_in_the_same_unit_or_in_different_ones() {
    yes(r#""cam" ftand "bolt" same sentence"#, &[32, 34, 41]);
    yes(r#""cam" ftand "cover""#, &[30, 34, 37, 39, 41]);
    // 41 has them in one paragraph and in no sentence, 30 in no paragraph
    yes(r#""cam" ftand "cover" same paragraph"#, &[34, 37, 39, 41]);
    yes(r#""cam" ftand "cover" same sentence"#, &[34, 37, 39]);
    yes(r#""sensor" ftand "belt" different sentence"#, &[16]);
}

#[test]
fn a_heading_is_a_paragraph_and_no_sentence() {
    // 'loose' stands in the heading of 34 alone, before 'bolt'
    yes(r#""loose" ftand "bolt" same sentence"#, &[]);
    yes(r#""loose" ftand "bolt" different sentence"#, &[]);
    yes(r#""loose" ftand "bolt" same paragraph"#, &[34]);
    yes(r#""loose" ftand "bolt" window 2 words"#, &[34]);
    yes(r#""loose" ftand "bolt" distance exactly 0 words"#, &[34]);
    // 'Bulletin 7' is the heading, 'This bulletin applies' the first sentence
    yes(r#""7" ftand "applies" different sentence"#, &[]);
    yes(r#""7" ftand "applies" different paragraph"#, &[34]);
    yes(r#""7" ftand "applies" distance exactly 7 words"#, &[34]);
    yes(r#""loose" same sentence"#, &[]);
    yes(r#""loose" same paragraph"#, &[34]);
}

#[test]
fn an_exclude_in_a_heading_does_not_count_with_same_sentence() {
    // 33 has 'false alarms' in its heading alone
    yes(r#"ftnot "false alarms""#, &all_but(&[33]));
    yes(r#"ftnot "false alarms" same paragraph"#, &all_but(&[33]));
    yes(r#"ftnot "false alarms" same sentence"#, &all_but(&[]));
    yes(r#""tensioner" ftand ftnot ("false" ftand "yarn")"#, &[22, 23]);
    yes(r#""tensioner" ftand ftnot ("false" ftand "yarn" same paragraph)"#, &[22, 23]);
    yes(r#""tensioner" ftand ftnot ("false" ftand "yarn" same sentence)"#, &[22, 23, 33]);
}

#[test]
fn two_words_in_order_and_near_each_other() {
    yes(r#""cam" ftand "cover" same sentence ordered"#, &[34, 39]);
    yes(r#""cover" ftand "cam" same sentence ordered"#, &[37]);
    // 7 has 'stops the carriage', in the other order
    yes(r#""carriage" ftand "stops" ordered window 5 words"#, &[16, 40]);
    yes(r#""carriage" ftand "stops" window 5 words"#, &[7, 16, 40]);
    // 17 has 'yarn' and 'break' in one sentence, too far apart
    yes(r#""yarn" ftand "break" distance at most 3 words"#, &[9, 22, 33]);
    yes(r#""yarn" ftand "break" same sentence"#, &[9, 17, 22, 33]);
    // in 34 two words lie between 'cam' and 'cover', in 37 two and nine, in 39 at least fourteen
    yes(r#""cam" ftand "cover" distance from 2 to 9 words"#, &[34, 37]);
    yes(r#""cam" ftand "cover" same sentence distance exactly 9 words"#, &[37]);
    yes(r#""cam" ftand "cover" same sentence distance at least 10 words"#, &[39]);
}

#[test]
fn a_part_of_a_longer_phrase_is_not_meant() {
    // 19 and 29 have 'needle bed' only in 'needle bed cover'
    yes(r#""needle bed" not in "needle bed cover""#, &[4, 7, 11, 15, 18, 24]);
    yes(r#""needle bed""#, &[4, 7, 11, 15, 18, 19, 24, 29]);
    yes(r#""needle bed cover""#, &[7, 15, 19, 29]);
}

#[test]
fn places_in_a_section() {
    yes(r#""appendix" at start"#, &[42, 43]);
    yes(r#""run" at end"#, &[20, 35]);
    let title = r#""service manual for the hv 180 and hv" ftand "220 flat knitting machines" entire content"#;
    yes(title, &[1]);
}

#[test]
fn case_does_not_matter_and_a_word_is_a_run_of_letters_and_digits() {
    yes(r#""e12""#, &[16, 40, 42]);
    yes(r#""E12""#, &[16, 40, 42]);
    yes(r#""HÄLLMANN" ftand "dubréau""#, &[3]);
    // 'take-down rollers' and 'spring-backed' have a word on each side of the hyphen
    yes(r#""take down rollers""#, &[10, 14, 38]);
    yes(r#""take-down, rollers!""#, &[10, 14, 38]);
    yes(r#""spring" ftand "backed" distance exactly 0 words"#, &[26]);
}

#[test]
fn ftand_binds_more_than_ftor() {
    yes(r#""e40" ftor "cam" ftand "bolt""#, &[21, 30, 32, 34, 41, 42]);
    yes(r#"("e40" ftor "cam") ftand "bolt""#, &[30, 32, 34, 41]);
    yes(r#"("yarn" ftand "break" distance at most 3 words) ftor "E12""#, &[9, 16, 22, 33, 40, 42]);
}

#[test]
fn a_phrase_so_many_times() {
    yes(r#""bolt" occurs at least 3 times"#, &[34, 41]);
    yes(r#""bolt" occurs exactly 2 times"#, &[32]);
    yes(r#""oil" occurs from 2 to 4 times"#, &[14, 27, 28]);
    yes(r#""cover" occurs at most 2 times"#, &all_but(&[7, 19, 29, 34]));
    yes(r#""needle bed" occurs at least 3 times"#, &[7, 29]);
    // as often as can be asked, and never
    yes(r#""bolt" occurs at least 4095 times"#, &[]);
    yes(r#""gloves" occurs exactly 0 times"#, &all_but(&[29]));
    yes(r#""gloves" occurs at least 0 times"#, &all_but(&[]));
}

#[test]
fn an_occurs_belongs_to_the_phrase_before_it() {
    yes(r#""cam" ftand "bolt" occurs at least 2 times"#, &[32, 34, 41]);
    yes(r#""cam" occurs at least 2 times ftand "bolt""#, &[30, 32, 41]);
    yes(r#""cam" occurs at least 2 times ftand "bolt" occurs exactly 3 times"#, &[41]);
    yes(r#""e40" ftor "bolt" occurs at least 3 times"#, &[21, 34, 41, 42]);
}

#[test]
fn an_occurs_under_ftnot() {
    // 30 and 41 have one 'cover', 32 has none, the others two or three
    yes(r#""cam" ftand ftnot "cover" occurs at least 2 times"#, &[30, 32, 41]);
    yes(r#""cam" ftand ftnot "cover" occurs exactly 3 times"#, &[30, 32, 37, 39, 41]);
    // 34 has one 'cam'
    yes(r#""cam" ftand ftnot "cam" occurs at least 2 times"#, &[34]);
    yes(r#"ftnot "cover" occurs at least 3 times"#, &all_but(&[7, 19, 29, 34]));
}

#[test]
fn filters_over_an_occurs() {
    yes(r#""cam" occurs at least 2 times same sentence"#, &[30]);
    yes(r#""cam" occurs at least 2 times same paragraph"#, &[30, 41]);
    // 32 has the third 'cam' in its heading
    yes(r#""cam" occurs at least 3 times"#, &[32, 41]);
    yes(r#""cam" occurs at least 3 times different sentence"#, &[41]);
    yes(r#""cam" occurs at least 3 times different paragraph"#, &[32, 41]);
    // seven words lie between the two in 30
    yes(r#""cam" occurs at least 2 times window 9 words"#, &[30]);
    yes(r#""cam" occurs at least 2 times window 8 words"#, &[]);
    yes(r#""bulletin" occurs at least 2 times at start"#, &(28..=41).collect::<Vec<i64>>());
    // 'the bed' covers one of the four in 7; what is covered wholly is dropped
    yes(r#""bed" occurs at least 4 times not in "the bed""#, &[7]);
    yes(r#""bed" occurs at least 4 times not in "bed" occurs at least 4 times"#, &[]);
}

// From a text to sections, paragraphs, sentences and words

/// The headings of a manual's sections with their lines; every section says yes to this search.
fn headings(file: &str) -> Vec<(String, i64)> {
    let object = object(file, r#"ftnot "nowhere""#);
    let sections = object.get("sections").list().iter();
    let heading = |section: &Json| (section.get("heading").text().to_string(), section.get("line").number());
    sections.map(heading).collect()
}

#[test]
fn markdown_headings_begin_sections() {
    let text = "# One\n\n## Two ##\ntext\n###### Six\n\nUnder\n=====\n\n#No blank\n\n```\n# code\n```\n####### seven\n";
    let wanted = [("One", 1), ("Two", 3), ("Six", 5), ("Under", 7)];
    assert_eq!(headings(file("headings.md", text)), wanted.map(|(heading, line)| (heading.to_string(), line)));
    // what is no heading belongs to the last section
    for words in ["no blank", "code", "seven"] {
        let search = format!("\"{words}\"");
        assert_eq!(answered(&object("headings.md", &search), "yes"), [4], "{words}");
    }
}

#[test]
fn sentences_end_before_a_blank_or_a_lines_end() {
    let name = file("sentences.md", "one 3.5 two! three v1.b? four.\nfive\nsix e.g. seven\n\neight\n\nnine\n");
    let same = |words: [&str; 2], unit: &str| {
        let search = format!("\"{}\" ftand \"{}\" same {unit}", words[0], words[1]);
        answered(&object(name, &search), "yes") == [1]
    };
    for words in [["one", "two"], ["three", "b"], ["five", "six"], ["five", "g"]] {
        assert!(same(words, "sentence"), "{words:?}");
    }
    for words in [["two", "three"], ["b", "four"], ["four", "five"], ["g", "seven"]] {
        assert!(!same(words, "sentence"), "{words:?}");
        assert!(same(words, "paragraph"), "{words:?}");
    }
    // a paragraph ends a sentence too
    for words in [["seven", "eight"], ["eight", "nine"]] {
        assert!(!same(words, "sentence") && !same(words, "paragraph"), "{words:?}");
    }
}

#[test]
fn carriage_returns_and_a_byte_order_mark_change_nothing() {
    let all = |name: &str| run(&["search", "--all", name, r#""cam" ftand ftnot "cover" same sentence"#]);
    let plain = all(small());
    assert_eq!(all(file("returns.md", SMALL.replace('\n', "\r\n"))), plain);
    assert_eq!(all(file("mark.md", format!("\u{FEFF}{SMALL}"))), plain);
    assert_eq!(shown(plain.out()), [1, 2]);
}

// Whole outputs

const SMALL: &str = "\
Wear gloves. The cam is
hot after work.

# Cam and cover

Lift the cover. The raising
cam has one bolt.

The cam lies under the cover. A guard cam
lies beneath the cover too.

## Bolts

Turn the bolt.
";

/// A manual of three sections, the first before all headings.
fn small() -> &'static str {
    file("small.md", SMALL)
}

#[test]
fn an_accent_is_found_however_it_is_written() {
    let name = file("accents.md", "U\u{308}bero\u{308}l lo\u{308}st.\n");
    let wanted = "Section 1, line 1: (no heading)\n      1: [U\u{308}bero\u{308}l] lo\u{308}st.\n  \
                  Match 1 of 1 decides: \"U\u{308}bero\u{308}l\" in line 1.\n\n1 of 1 section says yes.\n";
    gives(&["search", name, "\"überöl\""], wanted, 0);
}

#[test]
fn finds_stand_in_brackets_in_their_sentence() {
    let wanted = r#"Section 2, line 4: Cam and cover
      6: The raising [cam] has one [bolt].
  Match 1 of 1 decides: "cam" in line 7 and "bolt" in line 7.

1 of 3 sections says yes.
"#;
    let search = r#""cam" ftand "bolt" same sentence"#;
    gives(&["search", small(), search], wanted, 0);
    gives(&["search", "--color", "auto", small(), search], wanted, 0);
    gives(&["search", "--color", "never", small(), search], wanted, 0);
    gives(&["search", small(), search, "--color=never"], wanted, 0);
}

#[test]
fn colour_stands_instead_of_brackets_if_asked_for() {
    let (bold, find, exclude, end) = ("\x1b[1m", "\x1b[1;32m", "\x1b[1;31m", "\x1b[0m");
    let wanted = format!(
        r#"{bold}Section 2, line 4: Cam and cover{end}
      6: The raising {find}cam{end} has one {find}bolt{end}.
  Match 1 of 1 decides: "cam" in line 7 and "bolt" in line 7.

1 of 3 sections says yes.
"#
    );
    gives(&["search", "--color", "always", small(), r#""cam" ftand "bolt" same sentence"#], &wanted, 0);
    let search = r#""guard" ftand ftnot "cover" same sentence window 6 words"#;
    let all = run(&["search", "--color=always", "--all", small(), search]);
    let line = format!("      9: A {find}guard{end} cam lies beneath the {exclude}cover{end} too.\n");
    assert!(all.out().contains(&line), "{all:?}");
}

/// A terminal, as the one who looks at it and as the one who writes to it; none where the system has none to give.
fn terminal() -> Option<(File, File)> {
    extern "C" {
        fn unlockpt(terminal: c_int) -> c_int;
        fn ptsname(terminal: c_int) -> *const c_char;
    }
    let looks = File::options().read(true).write(true).open("/dev/ptmx").ok()?;
    // SAFETY: the file is open, and no other test asks for a name
    let name = unsafe {
        assert_eq!(unlockpt(looks.as_raw_fd()), 0);
        CStr::from_ptr(ptsname(looks.as_raw_fd()))
    };
    let writes = File::options().write(true).open(name.to_str().unwrap()).expect("the new terminal");
    Some((looks, writes))
}

#[test]
fn colour_is_the_default_on_a_terminal() {
    if terminal().is_none() {
        return println!("no terminal here: the default colour is not tested");
    }
    let shown_with = |name: &str, value: &str, arguments: &[&str]| {
        let (mut looks, writes) = terminal().unwrap();
        assert!(tool(arguments).env(name, value).stdout(writes).status().unwrap().success());
        // when nobody writes to it any more the terminal ends with an error
        let mut text = String::new();
        let _ = looks.read_to_string(&mut text);
        text.replace("\r\n", "\n")
    };
    let shown = |arguments: &[&str]| shown_with("TERM", "xterm", arguments);
    let coloured = run(&["search", "--color", "always", small(), r#""hot""#]);
    let brackets = run(&["search", "--color", "never", small(), r#""hot""#]);
    assert_eq!(shown(&["search", small(), r#""hot""#]), coloured.out());
    assert_eq!(shown(&["search", "--color", "auto", small(), r#""hot""#]), coloured.out());
    assert_eq!(shown(&["search", "--color", "never", small(), r#""hot""#]), brackets.out());
    assert_ne!(coloured, brackets);
    // unless colours are refused, or the terminal has none
    for (name, value, wanted) in
        [("NO_COLOR", "1", &brackets), ("NO_COLOR", "", &coloured), ("TERM", "dumb", &brackets)]
    {
        assert_eq!(shown_with(name, value, &["search", small(), r#""hot""#]), wanted.out(), "{name}={value}");
    }
}

#[test]
fn the_first_match_without_excludes_decides() {
    // in section 2 the heading is no sentence, and the last two sentences have 'cover' too
    let wanted = r#"Section 1, line 1: (no heading)
      1: The [cam] is hot after work.
  Match 1 of 1 decides: "cam" in line 1, not excluded by "cover" (not in this section).

Section 2, line 4: Cam and cover
      6: The raising [cam] has one bolt.
  Match 1 of 3 decides: "cam" in line 7, not excluded by "cover" (lines 4, 6, 9, 10).

2 of 3 sections say yes.
"#;
    gives(&["search", small(), r#""cam" ftand ftnot "cover" same sentence"#], wanted, 0);
    // the heading is a paragraph
    let wanted = r#"Section 1, line 1: (no heading)
      1: The [cam] is hot after work.
  Match 1 of 1 decides: "cam" in line 1, not excluded by "and" (not in this section).

Section 2, line 4: Cam and cover
      6: The raising [cam] has one bolt.
      9: The [cam] lies under the cover.
      9: A guard [cam] lies beneath the cover too.
  Match 2 of 4 decides: "cam" in line 7, not excluded by "and" (line 4).

2 of 3 sections say yes.
"#;
    gives(&["search", small(), r#""cam" ftand ftnot "and" same paragraph"#], wanted, 0);
}

#[test]
fn all_shows_every_match_with_its_excludes_in_braces() {
    let wanted = r#"Section 1, line 1: (no heading)
  Match 1: "cam" in line 1, not excluded.
      1: The [cam] is hot after work.
  Match 1 of 1 decides: "cam" in line 1, not excluded by "cover" (not in this section).

Section 2, line 4: Cam and cover
  Match 1: "cam" in line 7, not excluded.
      6: The raising [cam] has one bolt.
  Match 2: "cam" in line 9, excluded by "cover" in line 9.
      9: The [cam] lies under the {cover}.
  Match 3: "cam" in line 9, excluded by "cover" in line 10.
      9: A guard [cam] lies beneath the {cover} too.
  Match 1 of 3 decides: "cam" in line 7, not excluded by "cover" (lines 4, 6, 9, 10).

2 of 3 sections say yes.
"#;
    gives(&["search", "--all", small(), r#""cam" ftand ftnot "cover" same sentence"#], wanted, 0);
    gives(&["search", small(), r#""cam" ftand ftnot "cover" same sentence"#, "--all"], wanted, 0);
}

#[test]
fn equal_matches_are_shown_once() {
    // six windows of six words lie over 'bolt'
    let wanted = r#"Section 2, line 4: Cam and cover
  Matches 1 to 6: "bolt" in line 7, not excluded.
      6: The raising cam has one [bolt].
  Match 1 of 6 decides: "bolt" in line 7.

Section 3, line 12: Bolts
  Matches 1 to 6: "bolt" in line 14, not excluded.
     14: Turn the [bolt].
  Match 1 of 6 decides: "bolt" in line 14.

2 of 3 sections say yes.
"#;
    gives(&["search", "--all", small(), r#""bolt" window 6 words"#], wanted, 0);
}

#[test]
fn windows_that_reach_an_exclude_are_shown_apart() {
    // 'guard' stands five words before 'cover', which one of six windows reaches
    let wanted = r#"Section 2, line 4: Cam and cover
  Matches 1 to 5: "guard" in line 9, not excluded.
      9: A [guard] cam lies beneath the cover too.
  Match 6: "guard" in line 9, excluded by "cover" in line 10.
      9: A [guard] cam lies beneath the {cover} too.
  Match 1 of 6 decides: "guard" in line 9, not excluded by "cover" (lines 4, 6, 9, 10).

1 of 3 sections says yes.
"#;
    gives(&["search", "--all", small(), r#""guard" ftand ftnot "cover" same sentence window 6 words"#], wanted, 0);
}

#[test]
fn a_phrase_may_go_over_a_lines_end_and_over_a_sentences_end() {
    let over_a_line = r#"Section 2, line 4: Cam and cover
      6: The [raising cam has] one bolt.
  Match 1 of 1 decides: "raising cam has" in line 6.

1 of 3 sections says yes.
"#;
    gives(&["search", small(), r#""raising cam has""#], over_a_line, 0);
    let over_a_sentence = r#"Section 2, line 4: Cam and cover
      6: Lift the [cover].
      6: [The raising] cam has one bolt.
  Match 1 of 1 decides: "cover. The raising" in line 6.

1 of 3 sections says yes.
"#;
    gives(&["search", small(), r#""cover the raising""#], over_a_sentence, 0);
}

#[test]
fn finds_that_overlap_stand_in_one_pair_of_brackets() {
    let joined = r#"Section 2, line 4: Cam and cover
      6: The [raising cam has] one bolt.
  Match 1 of 2 decides: "raising cam" in line 6.

1 of 3 sections says yes.
"#;
    gives(&["search", small(), r#""raising cam" ftor "cam has""#], joined, 0);
    let ran = search(small(), r#""raising cam has" ftor "cam""#);
    assert!(ran.out().contains("      6: The [raising cam has] one bolt.\n"), "{ran:?}");
    // those side by side don't
    let ran = search(small(), r#""raising" ftor "has one""#);
    assert!(ran.out().contains("      6: The [raising] cam [has one] bolt.\n"), "{ran:?}");
    let ran = search(small(), r#""raising cam" ftor "has one""#);
    assert!(ran.out().contains("      6: The [raising cam] [has one] bolt.\n"), "{ran:?}");
    // an exclude that an include covers in part
    let excluded = r#"  Match 3: "cam" in line 9, excluded by "guard cam lies" in line 9.
      9: A {guard} [cam] {lies} beneath the cover too.
"#;
    let ran = run(&["search", "--all", small(), r#""cam" ftand ftnot "guard cam lies" same sentence"#]);
    assert!(ran.out().contains(excluded), "{ran:?}");
}

#[test]
fn a_heading_is_a_find_like_others() {
    let wanted = r#"Section 3, line 12: Bolts
     12: [Bolts]
  Match 1 of 1 decides: "Bolts" in line 12.

1 of 3 sections says yes.
"#;
    gives(&["search", small(), r#""bolts""#], wanted, 0);
    let excluded = r#"Section 2, line 4: Cam and cover
  Match 1: "Cam and" in line 4, excluded by "cover" in line 4.
      4: [Cam and] {cover}
  No: every match is excluded.

0 of 3 sections say yes.
"#;
    gives(&["search", "--all", small(), r#""cam and" ftand ftnot "cover" distance at most 1 words"#], excluded, 1);
}

/// Headings with full stops, of one line and of two.
fn stops() -> &'static str {
    file("stops.md", "# Never oil. Clean it.\n\nIt rusts. Call us.\n\nStop! Lift the\ncover. Now\n---\nIt falls.\n")
}

#[test]
fn a_heading_with_full_stops_is_shown_whole() {
    let wanted = r#"Section 1, line 1: Never oil. Clean it.
      1: Never oil. [Clean] it.
  Match 1 of 1 decides: "Clean" in line 1.

Section 2, line 5: Stop! Lift the cover. Now
      5: Stop! Lift the [cover]. Now
  Match 1 of 1 decides: "cover" in line 6.

2 of 2 sections say yes.
"#;
    gives(&["search", stops(), r#""clean" ftor "cover""#], wanted, 0);
    let over_a_stop = r#"Section 1, line 1: Never oil. Clean it.
      1: Never [oil. Clean] it.
  Match 1 of 1 decides: "oil. Clean" in line 1.

1 of 2 sections says yes.
"#;
    gives(&["search", stops(), r#""oil clean""#], over_a_stop, 0);
    let all = r#"Section 2, line 5: Stop! Lift the cover. Now
  Match 1: "Stop" in line 5, excluded by "cover" in line 6.
      5: [Stop]! Lift the {cover}. Now
  No: every match is excluded.

0 of 2 sections say yes.
"#;
    gives(&["search", "--all", stops(), r#""stop" ftand ftnot "cover""#], all, 1);
}

#[test]
fn a_find_from_a_heading_into_the_text_is_shown_in_both() {
    let wanted = r#"Section 1, line 1: Never oil. Clean it.
      1: Never oil. [Clean it].
      3: [It] rusts.
  Match 1 of 1 decides: "Clean it. It" in line 1.

1 of 2 sections says yes.
"#;
    gives(&["search", stops(), r#""clean it it""#], wanted, 0);
    for filter in ["same sentence", "same paragraph", "different sentence"] {
        gives(&["search", stops(), &format!(r#""clean it it" {filter}"#)], "0 of 2 sections say yes.\n", 1);
    }
}

#[test]
fn finds_in_a_heading_are_in_no_sentence() {
    let none = "0 of 2 sections say yes.\n";
    for search in [
        r#""clean" same sentence"#,
        r#""clean" ftand "it" same sentence"#,
        r#""oil" ftand "clean" same sentence"#,
        r#""oil" ftand "clean" different sentence"#,
        r#""oil" ftand "rusts" different sentence"#,
        r#""clean" ftand "oil" ftand "rusts" ftand "call" different sentence"#,
        r#""oil" occurs at least 1 times same sentence"#,
        r#""oil" ftand "clean" window 2 words same sentence"#,
    ] {
        gives(&["search", stops(), search], none, 1);
        gives(&["search", "--all", stops(), search], none, 1);
    }
    for search in [
        r#""oil" ftand "clean" same paragraph"#,
        r#""oil" ftand "rusts" different paragraph"#,
        r#""oil" ftand "rusts" window 5 words"#,
        r#""oil" ftand "rusts" ordered distance at most 3 words"#,
        r#""never" at start"#,
        r#""rusts" ftand "call" different sentence"#,
    ] {
        assert_eq!(answered(&object(stops(), search), "yes"), [1], "{search}");
    }
}

#[test]
fn same_sentence_takes_away_an_exclude_in_a_heading() {
    let excluded = r#"  Match 1: no word has to be found, excluded by "Clean" in line 1.
      1: Never oil. {Clean} it.
  No: every match is excluded.
"#;
    for search in [r#"ftnot "clean""#, r#"ftnot "clean" same paragraph"#] {
        let ran = run(&["search", "--all", stops(), search]);
        assert!(ran.out().contains(excluded), "{ran:?}");
    }
    let wanted = r#"Section 1, line 1: Never oil. Clean it.
  Match 1 of 1 decides: no word has to be found, not excluded by "clean" (line 1).

Section 2, line 5: Stop! Lift the cover. Now
  Match 1 of 1 decides: no word has to be found, not excluded by "clean" (not in this section).

2 of 2 sections say yes.
"#;
    gives(&["search", stops(), r#"ftnot "clean" same sentence"#], wanted, 0);
    let wanted = r#"Section 1, line 1: Never oil. Clean it.
      3: It [rusts].
  Match 1 of 1 decides: "rusts" in line 3, not excluded by "clean" (line 1).

1 of 2 sections says yes.
"#;
    gives(&["search", stops(), r#""rusts" ftand ftnot "clean" same sentence"#], wanted, 0);
    let wanted = r#"Section 1, line 1: Never oil. Clean it.
      3: It [rusts].
      3: [Call] us.
  Match 1 of 1 decides: "rusts" in line 3 and "Call" in line 3, not excluded by "clean" (line 1).

1 of 2 sections says yes.
"#;
    let search = r#""rusts" ftand "call" ftand ftnot "clean" different sentence"#;
    gives(&["search", stops(), search], wanted, 0);
}

#[test]
fn a_find_before_the_first_heading() {
    let wanted = r#"Section 1, line 1: (no heading)
      1: The cam is [hot] after work.
  Match 1 of 1 decides: "hot" in line 2.

1 of 3 sections says yes.
"#;
    gives(&["search", small(), r#""hot""#], wanted, 0);
}

#[test]
fn a_match_may_need_no_words() {
    let wanted = r#"Section 1, line 1: (no heading)
  Match 1 of 1 decides: no word has to be found, not excluded by "bolt" (not in this section).

1 of 3 sections says yes.
"#;
    gives(&["search", small(), r#"ftnot "bolt""#], wanted, 0);
    let all = r#"Section 1, line 1: (no heading)
  Match 1: no word has to be found, not excluded.
  Match 1 of 1 decides: no word has to be found, not excluded by "bolt" (not in this section).

Section 2, line 4: Cam and cover
  Match 1: no word has to be found, excluded by "bolt" in line 7.
      6: The raising cam has one {bolt}.
  No: every match is excluded.

Section 3, line 12: Bolts
  Match 1: no word has to be found, excluded by "bolt" in line 14.
     14: Turn the {bolt}.
  No: every match is excluded.

1 of 3 sections says yes.
"#;
    gives(&["search", "--all", small(), r#"ftnot "bolt""#], all, 0);
}

/// Where the listing of a no is refused, the section is not shown: it may have no matches at all.
#[test]
fn all_does_not_show_a_no_whose_listing_is_refused() {
    gives(&["search", "--all", many(), r#""few" ftand "many" ftand "w""#], "0 of 2 sections say yes.\n", 1);
}

#[test]
fn no_section_says_yes() {
    gives(&["search", small(), r#""cam" ftand "bolts""#], "0 of 3 sections say yes.\n", 1);
    gives(&["search", "--all", small(), r#""cam" ftand "bolts""#], "0 of 3 sections say yes.\n", 1);
}

#[test]
fn sections_of_the_example_manual_with_what_decides() {
    let wanted = r#"Section 32, line 299: Bulletin 5: hardened raising cam
    305: [Tighten the bolt] to six newton metres.
  Match 1 of 1 decides: "Tighten the bolt" in line 305, not excluded by "cover" (not in this section).

Section 41, line 383: Bulletin 14: worn cam changed from below
    390: [Tighten the bolt] to six newton metres.
  Match 1 of 1 decides: "Tighten the bolt" in line 390, not excluded by "cover" (line 386).

2 of 43 sections say yes.
"#;
    gives(&["search", EXAMPLE, r#""tighten the bolt" ftand ftnot "cover" same paragraph"#], wanted, 0);
}

/// A sentence of a hundred words, w1 to w100.
fn hundred() -> &'static str {
    let words: Vec<String> = (1..=100).map(|number| format!("w{number}")).collect();
    file("hundred.md", format!("- {}.\n", words.join(" ")))
}

/// The words from one number to another.
fn range(from: usize, to: usize) -> String {
    (from..=to).map(|number| format!("w{number}")).collect::<Vec<_>>().join(" ")
}

#[test]
fn of_a_long_sentence_the_words_near_a_find_are_shown() {
    let line = |search: &str, wanted: &str| {
        let ran = run(&["search", hundred(), search]);
        assert_eq!(ran.out().lines().nth(1), Some(&*format!("      1: - {wanted}")), "{search}");
    };
    line(r#""w50""#, &format!(".. {} [w50] {} .. .", range(30, 49), range(51, 70)));
    line(r#""w20""#, &format!("{} [w20] {} .. .", range(1, 19), range(21, 40)));
    let ends = format!("[w1] {} .. {} [w100].", range(2, 21), range(80, 99));
    line(r#""w1" ftor "w100""#, &ends);
    let joined = format!("{} [{} .. {}] {}.", range(1, 9), range(10, 29), range(71, 90), range(91, 100));
    line(r#""w10" ftand "w90" distance at most 79 words"#, &joined);
}

#[test]
fn of_a_long_find_the_first_and_last_words_are_named() {
    let decides = |search: &str, find: &str| {
        let wanted = format!("\n  Match 1 of 1 decides: {find} in line 1.\n");
        assert!(run(&["search", hundred(), search]).out().contains(&wanted), "{search}");
    };
    decides(r#""w10" ftand "w17" distance at most 6 words"#, &format!("\"{}\"", range(10, 17)));
    decides(r#""w10" ftand "w18" distance at most 7 words"#, "\"w10 w11 .. w18\"");
}

/// The search stands on two lines; the caret stands under the first.
#[test]
fn a_caret_ends_with_its_line() {
    let wanted = format!("  Neither yes nor no is known: {TOO_MANY}\n    \"w\n    ^~\n");
    let ran = search(many(), "\"w\nw\" ordered");
    assert!(ran.out().contains(&wanted), "{ran:?}");
}

/// Sections with one 'cam', with two, and with none.
fn twice() -> &'static str {
    file("twice.md", "# Once\n\nThe cam is hot.\n\n# Twice\n\nThe cam is hot. Lift\nthe cam.\n\n# Never\n\nLift it.\n")
}

#[test]
fn every_choice_of_finds_is_a_match() {
    let wanted = r#"Section 1, line 1: Once
  Match 1: "cam" in line 3, not excluded.
      3: The [cam] is hot.
  Match 1 of 1 decides: "cam" in line 3.

Section 2, line 5: Twice
  Match 1: "cam" in line 7, not excluded.
      7: The [cam] is hot.
  Match 2: "cam" in line 8, not excluded.
      7: Lift the [cam].
  Match 3: "cam" in line 7 and "cam" in line 8, not excluded.
      7: The [cam] is hot.
      7: Lift the [cam].
  Match 1 of 3 decides: "cam" in line 7.

2 of 3 sections say yes.
"#;
    gives(&["search", "--all", twice(), r#""cam" occurs at least 1 times"#], wanted, 0);
    gives(&["search", "--all", twice(), r#""cam" occurs from 1 to 2 times"#], wanted, 0);
    // shown together
    let wanted = r#"Section 31, line 290: Bulletin 4: grease for hot rooms
    290: Bulletin 4: [grease] for hot rooms
    292: The standard [grease] becomes thin, leaves the racking spindle dry and leads to fault E21 in long patterns.
    296: Wash the spindle with spirit and dry it, because two kinds of [grease] must not be mixed.
    296: Then apply high-temperature [grease] with part number 52330, and move the back bed ten times from end to end.
  Match 1 of 5 decides: "grease" in line 290 and "grease" in line 293 and "grease" in line 296.

1 of 43 sections says yes.
"#;
    gives(&["search", EXAMPLE, r#""grease" occurs at least 3 times"#], wanted, 0);
}

#[test]
fn a_choice_may_need_no_words() {
    let wanted = r#"Section 1, line 1: Once
      3: The [cam] is hot.
  Match 1 of 2 decides: no word has to be found.

Section 3, line 10: Never
  Match 1 of 1 decides: no word has to be found.

2 of 3 sections say yes.
"#;
    gives(&["search", twice(), r#""cam" occurs at most 1 times"#], wanted, 0);
}

#[test]
fn finds_beyond_the_larger_number_exclude() {
    let wanted = r#"Section 1, line 1: Once
  Match 1: "cam" in line 3, not excluded.
      3: The [cam] is hot.
  Match 1 of 1 decides: "cam" in line 3.

Section 2, line 5: Twice
  Match 1: "cam" in line 7, excluded by "cam" in line 7.
      7: The [cam] is hot.
  Match 2: "cam" in line 7, excluded by "cam" in line 8.
      7: The [cam] is hot.
      7: Lift the {cam}.
  Match 3: "cam" in line 8, excluded by "cam" in line 7.
      7: The {cam} is hot.
      7: Lift the [cam].
  Match 4: "cam" in line 8, excluded by "cam" in line 8.
      7: Lift the [cam].
  Match 5: "cam" in line 7 and "cam" in line 8, excluded by "cam" in line 7.
      7: The [cam] is hot.
      7: Lift the [cam].
  Match 6: "cam" in line 7 and "cam" in line 8, excluded by "cam" in line 8.
      7: The [cam] is hot.
      7: Lift the [cam].
  No: every match is excluded.

1 of 3 sections says yes.
"#;
    gives(&["search", "--all", twice(), r#""cam" occurs exactly 1 times"#], wanted, 0);
}

/// As it takes away other excludes.
#[test]
fn a_filter_takes_away_finds_beyond_the_larger_number() {
    let wanted = r#"Section 1, line 1: Once
      3: The [cam] is hot.
  Match 1 of 1 decides: "cam" in line 3.

Section 2, line 5: Twice
      7: The [cam] is hot.
      7: Lift the [cam].
  Match 2 of 4 decides: "cam" in line 7, not excluded by "cam" occurs exactly 1 times (line 8).

2 of 3 sections say yes.
"#;
    gives(&["search", twice(), r#""cam" occurs exactly 1 times same sentence"#], wanted, 0);
    // the find in line 7 is part of the one include
    let joined = r#"Section 2, line 5: Twice
      7: The [cam is hot].
  Match 2 of 2 decides: "cam is hot" in line 7, not excluded by "cam" occurs exactly 1 times (line 8).
"#;
    let ran = search(twice(), r#""hot" ftand "cam" occurs exactly 1 times window 3 words"#);
    assert!(ran.out().contains(joined), "{ran:?}");
    // the match never had these excludes
    let ran = search(twice(), r#""hot" ftor "cam" occurs exactly 1 times"#);
    for decides in [
        r#"Match 1 of 2 decides: "hot" in line 3."#,
        r#"Match 1 of 7 decides: "hot" in line 7, not excluded by "cam" occurs exactly 1 times (lines 7, 8)."#,
    ] {
        assert!(ran.out().contains(decides), "{decides}\n{ran:?}");
    }
}

#[test]
fn finds_that_are_too_few_to_exclude_are_named() {
    let wanted = r#"Section 1, line 1: Once
      3: The [cam] is hot.
  Match 1 of 1 decides: "cam" in line 3, not excluded by "cam" occurs at least 2 times (line 3).

1 of 3 sections says yes.
"#;
    gives(&["search", twice(), r#""cam" ftand ftnot "cam" occurs at least 2 times"#], wanted, 0);
    let wanted = r#"Section 1, line 1: Once
  Match 1 of 1 decides: no word has to be found, not excluded by "cam" occurs exactly 2 times (line 3).

Section 3, line 10: Never
  Match 1 of 1 decides: no word has to be found, not excluded by "cam" occurs exactly 2 times (not in this section).

2 of 3 sections say yes.
"#;
    gives(&["search", twice(), r#"ftnot "cam" occurs exactly 2 times"#], wanted, 0);
    // every find is included
    let included = r#"Match 2 of 2 decides: "cam" in line 3 and "cam" in line 3."#;
    let ran = search(twice(), r#"ftnot "cam" occurs exactly 0 times"#);
    assert!(ran.out().contains(included), "{ran:?}");
}

#[test]
fn quiet_gives_nothing_but_the_status() {
    gives(&["search", "--quiet", small(), r#""cam""#], "", 0);
    gives(&["search", "-q", small(), r#""cam""#, "--quiet"], "", 0);
    gives(&["search", "--quiet", "--color", "always", small(), r#""cam""#], "", 0);
    gives(&["search", "--quiet", small(), r#""cam" ftand "bolts""#], "", 1);
    gives(&["search", "--quiet", small(), r#""nowhere""#], "", 1);
    gives(&["search", "--quiet", many(), r#""w" ordered"#], "", 2);
}

// Lists that are too long

/// A section with 300 times 'w', and one with 'x'.
fn many() -> &'static str {
    file("many.md", format!("# Many\n\n{}\n\n# Few\n\nx\n", vec!["w"; 300].join(" ")))
}

const TOO_MANY: &str = "too many matches: over 256, or over 512 finds in them (refusal 9)";

#[test]
fn a_yes_whose_listing_is_refused_stands_with_that_said() {
    let wanted = format!(
        r#"Section 1, line 1: Many
  Yes, but its matches can't be listed: {TOO_MANY}
    "w" ftor "x"
    ^~~

Section 2, line 5: Few
      7: [x]
  Match 1 of 1 decides: "x" in line 7.

2 of 2 sections say yes.
"#
    );
    let search = r#""w" ftor "x""#;
    gives(&["search", many(), search], &wanted, 0);
    let all = wanted.replace("      7: [x]\n", "  Match 1: \"x\" in line 7, not excluded.\n      7: [x]\n");
    gives(&["search", "--all", many(), search], &all, 0);
    gives(&["search", "--quiet", many(), search], "", 0);
    let object = object(many(), search);
    assert_eq!(answered(&object, "yes"), [1, 2]);
    let refused = object.get("sections").list()[0].get("listing_refused");
    assert_eq!((refused.get("number").number(), refused.get("place").number()), (9, 2));
    assert_eq!((refused.get("from_byte").number(), refused.get("to_byte").number()), (0, 3));
}

#[test]
fn a_section_whose_quick_answer_is_refused_is_neither_yes_nor_no() {
    let wanted = format!(
        r#"Section 1, line 1: Many
  Neither yes nor no is known: {TOO_MANY}
    "x" ftor ("w" ordered)
              ^~~

Section 2, line 5: Few
      7: [x]
  Match 1 of 1 decides: "x" in line 7.

1 of 2 sections says yes, 1 can't be answered.
"#
    );
    let search = r#""x" ftor ("w" ordered)"#;
    gives(&["search", many(), search], &wanted, 2);
    let object = object(many(), search);
    assert_eq!((answered(&object, "refused"), answered(&object, "yes")), (vec![1], vec![2]));
    let refused = object.get("sections").list()[0].get("refused");
    assert_eq!((refused.get("number").number(), refused.get("place").number()), (9, 4));
    assert_eq!((refused.get("from_byte").number(), refused.get("to_byte").number()), (10, 13));
    assert_eq!(run(&["search", "--json", many(), search]).status, 2);
    gives(&["search", "--quiet", many(), search], "", 2);
}

/// Sections in which 'w' stands not at all, once, and so on up to fourteen times.
fn counted() -> &'static str {
    let section = |count: usize| format!("# Section\n\n{}\n\n", vec!["w"; count].join(" x "));
    file("counted.md", (0..=14).map(section).collect::<String>())
}

/// How often 'w' stands in the sections that say yes, and in those that aren't answered.
fn counts(search: &str) -> (Vec<i64>, Vec<i64>) {
    let object = object(counted(), search);
    let counts = |answer| answered(&object, answer).into_iter().map(|section| section - 1).collect();
    (counts("yes"), counts("refused"))
}

/// Are the choices of so many finds or more among `count` at most 256, with at most 512 finds in them?
fn can_be_listed(count: i64, least: i64) -> bool {
    let choices = |chosen: i64| (0..chosen).fold(1, |product, index| product * (count - index) / (index + 1));
    let sizes = || (least..=count).map(choices);
    sizes().sum::<i64>() <= 256 && sizes().zip(least..).map(|(choices, chosen)| choices * chosen).sum::<i64>() <= 512
}

#[test]
fn up_to_seven_finds_are_never_too_many_for_at_least() {
    for least in 0..=15 {
        let wanted: (Vec<i64>, Vec<i64>) = (least..=14).partition(|&count| can_be_listed(count, least));
        assert!(wanted.1.iter().all(|&count| count > 7 && count > least), "{least}");
        assert_eq!(counts(&format!(r#""w" occurs at least {least} times"#)), wanted, "{least}");
    }
}

/// An `ftor` asks its right side only after a no.
#[test]
fn a_larger_number_first_answers_more() {
    let range = |from: i64, to: i64| (from..=to).collect::<Vec<i64>>();
    assert_eq!(counts(r#""w" occurs at least 1 times"#), (range(1, 7), range(8, 14)));
    assert_eq!(counts(r#""w""#), (range(1, 14), vec![]));
    assert_eq!(counts(r#""w" occurs at least 3 times"#), (range(3, 7), range(8, 14)));
    let two = r#""w" occurs at least 8 times ftor "w" occurs at least 3 times"#;
    assert_eq!(counts(two), (range(3, 10), range(11, 14)));
    assert_eq!(counts(&format!(r#""w" occurs at least 11 times ftor {two}"#)), (range(3, 12), range(13, 14)));
    let ran = search(counted(), two);
    let listed = r#"Yes, but its matches can't be listed: too many choices among 9 finds: over 256, or over 512 finds in them (refusal 9)
    "w" occurs at least 8 times ftor "w" occurs at least 3 times
                                         ^~~~~~~~~~~~~~~~~~~~~~~
"#;
    assert!(ran.out().contains(listed), "{ran:?}");
}

#[test]
fn finds_beyond_the_larger_number_are_better_asked_by_ftnot() {
    let range = |from: i64, to: i64| (from..=to).collect::<Vec<i64>>();
    assert_eq!(counts(r#""w" occurs at most 2 times"#), (range(0, 2), range(4, 14)));
    assert_eq!(counts(r#"ftnot "w" occurs at least 3 times"#), (range(0, 2), range(8, 14)));
    assert_eq!(counts(r#""w" occurs exactly 1 times"#), (range(1, 1), range(3, 14)));
    assert_eq!(counts(r#""w" ftand ftnot "w" occurs at least 2 times"#), (range(1, 1), range(8, 14)));
    assert_eq!(counts(r#""w" occurs exactly 2 times"#), (range(2, 2), range(4, 14)));
    let two = r#""w" occurs at least 2 times ftand ftnot "w" occurs at least 3 times"#;
    assert_eq!(counts(two), (range(2, 2), range(8, 14)));
    assert_eq!(counts(r#""w" occurs from 2 to 3 times"#), (range(2, 3), range(5, 14)));
    let two = r#""w" occurs at least 2 times ftand ftnot "w" occurs at least 4 times"#;
    assert_eq!(counts(two), (range(2, 3), range(8, 14)));
    // two too many aren't answered, unless none are allowed
    assert_eq!(counts(r#""w" occurs at most 0 times"#), (range(0, 0), range(3, 14)));
    for (most, least) in (1..=12).flat_map(|most| (0..=most).map(move |least| (most, least))) {
        let (_, refused) = counts(&format!(r#""w" occurs from {least} to {most} times"#));
        assert!(refused.ends_with(&range(most + 2, 14)), "from {least} to {most}: {refused:?}");
    }
}

// JSON

/// A search of the small manual prints this object.
fn prints_object(file: &str, search: &str, wanted: &str) {
    assert_eq!(object(file, search), json::read(wanted).unwrap(), "{search}");
}

#[test]
fn json_of_a_find_that_is_not_contiguous() {
    let wanted = r#"{
        "search": "\"raising\" ftand \"bolt\" ftand ftnot \"cover\" window 5 words",
        "unknown_words": [],
        "sections_asked": 3,
        "split": [],
        "sections": [{
            "section": 2, "heading": "Cam and cover", "part": 1, "parts": 1, "line": 4, "answer": "yes",
            "matches": [{
                "includes": [{
                    "phrase": 1, "start": 8, "end": 12, "contiguous": false, "line": 6,
                    "text": "raising cam has one bolt"
                }],
                "excludes": []
            }],
            "deciding": 1,
            "not_excluded": [{"phrase": 3, "typed": "\"cover\"", "finds": [
                {"phrase": 3, "start": 3, "end": 3, "contiguous": true, "line": 4, "text": "cover"},
                {"phrase": 3, "start": 6, "end": 6, "contiguous": true, "line": 6, "text": "cover"},
                {"phrase": 3, "start": 18, "end": 18, "contiguous": true, "line": 9, "text": "cover"},
                {"phrase": 3, "start": 25, "end": 25, "contiguous": true, "line": 10, "text": "cover"}
            ]}]
        }]
    }"#;
    prints_object(small(), r#""raising" ftand "bolt" ftand ftnot "cover" window 5 words"#, wanted);
}

#[test]
fn json_of_finds_beyond_the_larger_number() {
    let wanted = r#"{
        "search": "\"lift\" ftand ftnot \"once\" occurs at least 1 times ftand \"cam\"  occurs exactly 1 times same sentence",
        "unknown_words": [],
        "sections_asked": 3,
        "split": [],
        "sections": [{
            "section": 2, "heading": "Twice", "part": 1, "parts": 1, "line": 5, "answer": "yes",
            "matches": [{
                "includes": [
                    {"phrase": 1, "start": 6, "end": 6, "contiguous": true, "line": 7, "text": "Lift"},
                    {"phrase": 3, "start": 8, "end": 8, "contiguous": true, "line": 8, "text": "cam"}
                ],
                "excludes": []
            }, {
                "includes": [
                    {"phrase": 1, "start": 6, "end": 6, "contiguous": true, "line": 7, "text": "Lift"},
                    {"phrase": 3, "start": 8, "end": 8, "contiguous": true, "line": 8, "text": "cam"}
                ],
                "excludes": [{"phrase": 3, "start": 8, "end": 8, "contiguous": true, "line": 8, "text": "cam"}]
            }],
            "deciding": 1,
            "not_excluded": [{"phrase": 2, "typed": "\"once\" occurs at least 1 times", "finds": []}, {
                "phrase": 3, "typed": "\"cam\"  occurs exactly 1 times",
                "finds": [{"phrase": 3, "start": 3, "end": 3, "contiguous": true, "line": 7, "text": "cam"}]
            }]
        }]
    }"#;
    let search =
        r#""lift" ftand ftnot "once" occurs at least 1 times ftand "cam"  occurs exactly 1 times same sentence"#;
    prints_object(twice(), search, wanted);
}

#[test]
fn json_of_finds_in_a_heading() {
    let wanted = r#"{
        "search": "(\"stop\" ftand ftnot \"cover\" same paragraph) ftor (\"falls\" ftand ftnot \"cover\" same sentence)",
        "unknown_words": [],
        "sections_asked": 2,
        "split": [],
        "sections": [{
            "section": 2, "heading": "Stop! Lift the cover. Now", "part": 1, "parts": 1, "line": 5, "answer": "yes",
            "matches": [{
                "includes": [{"phrase": 1, "start": 1, "end": 1, "contiguous": true, "line": 5, "text": "Stop"}],
                "excludes": [{"phrase": 2, "start": 4, "end": 4, "contiguous": true, "line": 6, "text": "cover"}]
            }, {
                "includes": [{"phrase": 3, "start": 7, "end": 7, "contiguous": true, "line": 8, "text": "falls"}],
                "excludes": []
            }],
            "deciding": 2,
            "not_excluded": [{
                "phrase": 2, "typed": "\"cover\"",
                "finds": [{"phrase": 2, "start": 4, "end": 4, "contiguous": true, "line": 6, "text": "cover"}]
            }, {
                "phrase": 4, "typed": "\"cover\"",
                "finds": [{"phrase": 4, "start": 4, "end": 4, "contiguous": true, "line": 6, "text": "cover"}]
            }]
        }]
    }"#;
    let search = r#"("stop" ftand ftnot "cover" same paragraph) ftor ("falls" ftand ftnot "cover" same sentence)"#;
    prints_object(stops(), search, wanted);
}

#[test]
fn json_of_a_section_without_heading_and_of_words_that_are_missing() {
    let wanted = r#"{
        "search": "ftnot \"Nowhere\" ftand \"hot\"",
        "unknown_words": ["Nowhere"],
        "sections_asked": 3,
        "split": [],
        "sections": [{
            "section": 1, "heading": null, "part": 1, "parts": 1, "line": 1, "answer": "yes",
            "matches": [{
                "includes": [{"phrase": 2, "start": 6, "end": 6, "contiguous": true, "line": 2, "text": "hot"}],
                "excludes": []
            }],
            "deciding": 1,
            "not_excluded": [{"phrase": 1, "typed": "\"Nowhere\"", "finds": []}]
        }]
    }"#;
    prints_object(small(), r#"ftnot "Nowhere" ftand "hot""#, wanted);
    let none =
        r#"{"search": "\"bolts\" at end", "unknown_words": [], "sections_asked": 3, "split": [], "sections": []}"#;
    prints_object(small(), r#""bolts" at end"#, none);
}

#[test]
fn json_escapes_quotes_backslashes_and_control_characters() {
    let name = file("escapes.md", "# A \"b\" \\ c\n\nd\u{1b}e\tf\n");
    let ran = run(&["search", "--json", name, "\"b c\" ftand \"d\te\""]);
    for text in [r#""heading":"A \"b\" \\ c""#, r#""text":"b\" \\ c""#, "\"text\":\"d\u{FFFD}e\""] {
        assert!(ran.out().contains(text), "{text}\n{ran:?}");
    }
    // a tab has two forms
    assert!(ran.out().replace(r"\u0009", r"\t").contains(r#""search":"\"b c\" ftand \"d\te\"""#), "{ran:?}");
    assert!(ran.out().trim_end().chars().all(|c| !c.is_control()), "{ran:?}");
}

/// The strings of a list: phrase, start, end, line, text.
fn strings(list: &Json) -> Vec<(i64, i64, i64, i64, &str)> {
    let string = |string| {
        let number = |name| Json::get(string, name).number();
        (number("phrase"), number("start"), number("end"), number("line"), string.get("text").text())
    };
    list.list().iter().map(string).collect()
}

#[test]
fn json_has_every_match_of_the_example() {
    let object = object(EXAMPLE, D);
    assert_eq!(object.get("search").text(), D);
    let bulletin = &object.get("sections").list()[2];
    assert_eq!(bulletin.get("heading").text(), "Bulletin 7: loose bolt under the cover");
    let numbers = ["section", "part", "parts", "line", "deciding"].map(|name| bulletin.get(name).number());
    assert_eq!(numbers, [34, 1, 1, 317, 1]);
    // six windows of six words lie over 'cam'; the last three reach 'cover'
    let matches = bulletin.get("matches").list();
    assert_eq!(matches.len(), 6);
    for (index, found) in matches.iter().enumerate() {
        assert_eq!(strings(found.get("includes")), [(1, 31, 31, 320, "cam")]);
        let excludes: &[_] = if index < 3 { &[] } else { &[(2, 34, 34, 320, "cover")] };
        assert_eq!(strings(found.get("excludes")), excludes);
    }
    let passed = &bulletin.get("not_excluded").list()[0];
    assert_eq!((passed.get("phrase").number(), passed.get("typed").text()), (2, "\"cover\""));
    let finds = [(2, 7, 7, 317, "cover"), (2, 34, 34, 320, "cover"), (2, 37, 37, 322, "cover")];
    assert_eq!(strings(passed.get("finds")), finds);
}

// The tables for a panel

fn ftlist(input: &[u8]) -> String {
    let path = concat!(env!("CARGO_MANIFEST_DIR"), "/../target/bin/ftlist");
    let mut command = Command::new(path);
    let child = command.stdin(Stdio::piped()).stdout(Stdio::piped()).spawn();
    let mut child = child.unwrap_or_else(|error| panic!("{path}: {error}; `bash examples/build.sh ftlist` builds it"));
    child.stdin.take().unwrap().write_all(input).unwrap();
    String::from_utf8(child.wait_with_output().unwrap().stdout).unwrap()
}

/// The numbers that `encode` writes.
fn encoded(arguments: &[&str]) -> Vec<u32> {
    let ran = run(&[&["encode"], arguments].concat());
    assert_eq!((ran.err.as_str(), ran.status, ran.bytes.len() % 4), ("", 0, 0), "{arguments:?}");
    ran.bytes.chunks(4).map(|bytes| u32::from_le_bytes(bytes.try_into().unwrap())).collect()
}

#[test]
fn words_are_numbered_in_their_order() {
    let words =
        "a after and beneath bolt bolts cam cover gloves guard has hot is lies lift one raising the too turn under \
                 wear work";
    let wanted: String = words.split(' ').zip(1..).map(|(word, number)| format!("{number}\t{word}\n")).collect();
    gives(&["words", small()], &wanted, 0);
    let text = std::fs::read_to_string(EXAMPLE).unwrap().to_lowercase();
    let words: BTreeSet<&str> = text.split(|c: char| !c.is_alphanumeric()).filter(|word| !word.is_empty()).collect();
    assert!(words.contains("hällmann") && words.len() > 800);
    let wanted: String = words.iter().zip(1..).map(|(word, number)| format!("{number}\t{word}\n")).collect();
    gives(&["words", EXAMPLE], &wanted, 0);
}

#[test]
fn encode_writes_words_sentences_and_paragraphs() {
    // turn 20, the 18, bolt 5, bolts 6
    let bolts = [4, 6, 20, 18, 5, 0x1_0000, 0x2_0001, 0x2_0001, 0x2_0001];
    assert_eq!(encoded(&[small(), "3"]), bolts);
    let cover = encoded(&[small(), "2"]);
    assert_eq!(cover[..7], [26, 7, 3, 8, 15, 18, 8]);
    let lengths = [(0x1_0000, 3), (0x2_0001, 3), (0x2_0002, 6), (0x3_0003, 6), (0x3_0004, 8)];
    let places: Vec<u32> = lengths.into_iter().flat_map(|(place, count)| vec![place; count]).collect();
    assert_eq!(cover[27..], places);
    // without a heading, and under one with full stops
    assert_eq!(encoded(&[small(), "1"])[9..], [[0x1_0001; 2].as_slice(), &[0x1_0002; 6]].concat());
    assert_eq!(encoded(&[stops(), "2"])[8..], [[0x1_0000; 5].as_slice(), &[0x2_0001; 2]].concat());
}

#[test]
fn encode_writes_the_search_after_the_section() {
    let section = encoded(&[small(), "3"]);
    // bolt, phrase, the, bolts, phrase, not, and, window
    let codes = [8, 0, 1, 0, 0, 1, 4, 3, 7, 5, 1, 18, 6, 2, 0, 0, 3];
    let search = r#""bolt" ftand ftnot "The Bolts" window 3 words"#;
    assert_eq!(encoded(&[small(), "3", search]), [&section[..], &codes].concat());
    // bolt, phrase, occurs from 2 to 3, bolts, phrase, occurs at least 1, not, or
    let codes = [8, 0, 1, 16, 0, 1, 17, 4, 2, 5, 1, 0x2_0003, 6, 1, 1, 0, 0];
    let search = r#""bolt" occurs from 2 to 3 times ftor ftnot "bolts" occurs at least 1 times"#;
    assert_eq!(encoded(&[small(), "3", search]), [&section[..], &codes].concat());
}

#[test]
fn ftlist_lists_what_encode_writes() {
    let listed = |section: &str, search: &str| ftlist(&run(&["encode", EXAMPLE, section, search]).bytes);
    assert_eq!(
        listed("34", D),
        "yes 6 9\n+31-31 q1 c\n+31-31 q1 c\n+31-31 q1 c\n\
         +31-31 q1 c !34-34 q2 c\n+31-31 q1 c !34-34 q2 c\n+31-31 q1 c !34-34 q2 c\n"
    );
    assert_eq!(listed("34", B), "no 1 2\n+31-31 q1 c !34-34 q2 c\n");
    assert_eq!(listed("34", G), "yes 2 2\n!31-31 q1 c\n+34-34 q2 c\n");
    assert_eq!(listed("32", A), "yes 3 3\n+5-5 q1 c\n+33-33 q1 c\n+48-48 q1 c\n");
    assert_eq!(listed("12", r#""cam""#), "no 0 0\n");
    assert_eq!(listed("22", r#""yarn" ftand "break" distance at most 3 words"#), "yes 2 2\n+1-2 q1 c\n+12-13 q1 c\n");
    assert_eq!(listed("1", r#""service manual" ftand "machines" at end"#), "yes 1 2\n+1-2 q1 c +12-12 q2 c\n");
    assert_eq!(ftlist(&run(&["encode", EXAMPLE, "34"]).bytes), "refused 3 0\n");
}

/// A word that the manual doesn't have is found nowhere, and two of them are not equal to a word of the manual.
#[test]
fn encode_takes_words_that_the_manual_does_not_have() {
    let encoded = run(&["encode", small(), "3", r#""nowhere" ftor ftnot "never""#]);
    assert_eq!(encoded.status, 0);
    assert_eq!(ftlist(&encoded.bytes), "yes 1 0\n.\n");
}

// Sections over 4,096 words

fn repeated(word: &str, count: usize) -> String {
    vec![word; count].join(" ")
}

/// A section of 4,206 words: 1, 2,002, 2,002 and 201 in its paragraphs.
fn long() -> &'static str {
    let paragraph = |word: &str, count: usize, last: &str| format!("{}. {last}.\n\n", repeated(word, count));
    let paragraphs = [
        paragraph("aa", 2_000, "First here"),
        paragraph("bb", 2_000, "Second here"),
        paragraph("cc", 199, "Third here"),
    ];
    file("long.md", format!("# Long\n\n{}## Next\n\ndd\n", paragraphs.concat()))
}

const SPLIT: &str = "manual: 'Long' in line 1 has over 4,096 words; it is in 2 parts, each asked by itself\n";

#[test]
fn a_section_over_4096_words_is_split_at_a_paragraph_and_that_is_said() {
    let wanted = r#"Section 2, line 7: Long (part 2 of 2)
      7: [Third] here.
  Match 1 of 1 decides: "Third" in line 7.

1 of 3 sections says yes.
"#;
    assert_eq!(search(long(), r#""third""#), Ran::new(wanted, SPLIT, 0));
    // what excludes in the other part doesn't in this one
    let ran = search(long(), r#""first" ftand ftnot "third""#);
    assert!(ran.out().contains("not excluded by \"third\" (not in this part).\n"), "{ran:?}");
    // each part is asked by itself
    assert_eq!(search(long(), r#""second" ftand "third""#), Ran::new("0 of 3 sections say yes.\n", SPLIT, 1));
    assert_eq!(shown(search(long(), r#""first" ftand "second""#).out()), [1]);
    assert_eq!(shown(search(long(), r#""second" ftor "third" ftor "dd""#).out()), [1, 2, 3]);
    gives(&["search", "--quiet", long(), r#""third""#], "", 0);
}

#[test]
fn parts_of_a_section_in_json_and_in_numbers() {
    let parts = run(&["search", "--json", long(), r#""second" ftor "third" ftor "dd""#]);
    let parts = json::read(parts.out()).unwrap();
    let part = |section: &Json| ["section", "part", "parts"].map(|name| section.get(name).number());
    let found: Vec<[i64; 3]> = parts.get("sections").list().iter().map(part).collect();
    assert_eq!(found, [[1, 1, 2], [2, 2, 2], [3, 1, 1]]);
    // the sentence of the first word is the heading's 0, or 1 in a part without it
    for (section, words, first) in [("1", 4_005, 0x1_0000_u32), ("2", 201, 0x1_0001), ("3", 2, 0x1_0000)] {
        let bytes = run(&["encode", long(), section]).bytes;
        assert_eq!(bytes.len(), 4 * (1 + 2 * words), "section {section}");
        assert_eq!(bytes[..4], (words as u32).to_le_bytes(), "section {section}");
        assert_eq!(bytes[4 * (1 + words)..][..4], first.to_le_bytes(), "section {section}");
    }
}

#[test]
fn a_section_of_4096_words_is_not_split() {
    let text = |words: usize| format!("# Long\n\n{}\n\nlast\n", repeated("w", words));
    gives(
        &["search", file("longest.md", text(4_094)), r#""long" ftand "last""#],
        "Section 1, line 1: Long\n      1: [Long]\n      5: [last]\n  Match 1 of 1 decides: \"Long\" in line 1 and \
         \"last\" in line 5.\n\n1 of 1 section says yes.\n",
        0,
    );
    let ran = search(file("over.md", text(4_095)), r#""long" ftand "last""#);
    assert_eq!(ran, Ran::new("0 of 2 sections say yes.\n", SPLIT, 1));
}

/// Only a paragraph that is too long itself is split inside, and then at a sentence's end.
#[test]
fn a_paragraph_over_4096_words_is_split_at_a_sentence_and_that_is_said() {
    let sentences: Vec<String> = (0..500).map(|number| format!("a b c d e f g h i s{number}.")).collect();
    let name = file("paragraph.md", format!("# Long\n\nBefore.\n\n{}\n\nAfter.\n", sentences.join("\n")));
    let ran = search(name, r#""before" ftor "s408" ftor "s409" ftor "after""#);
    // 2 words and 409 sentences of ten words, then the rest
    let wanted = r#"Section 1, line 1: Long (part 1 of 2)
      3: [Before].
    413: a b c d e f g h i [s408].
  Match 1 of 2 decides: "Before" in line 3.

Section 2, line 414: Long (part 2 of 2)
    414: a b c d e f g h i [s409].
    506: [After].
  Match 1 of 2 decides: "s409" in line 414.

2 of 2 sections say yes.
"#;
    assert_eq!((ran.out(), ran.status), (wanted, 0));
    assert_eq!(ran.err, SPLIT.replace("parts,", "parts, some beginning inside a paragraph,"));
}

/// A heading of 4,100 words, the last one in line 2, and a paragraph.
fn long_heading() -> &'static str {
    file("long heading.md", format!("First. {}\nlast!\n---\n\nText here. More.\n", repeated("w", 4_098)))
}

#[test]
fn a_heading_over_4096_words_is_shown_in_parts() {
    let heading = format!("First. {} last!", repeated("w", 4_098));
    let wanted = format!(
        r#"Section 1, line 1: HEADING (part 1 of 2)
      1: [First]. {} ..
  Match 1 of 1 decides: "First" in line 1.

Section 2, line 1: HEADING (part 2 of 2)
      1: w w w [last]!
      5: [Text] here.
  Match 1 of 2 decides: "last" in line 2.

2 of 2 sections say yes.
"#,
        repeated("w", 20)
    );
    let ran = search(long_heading(), r#""first" ftor "last" ftor "text""#);
    assert_eq!((ran.out().replace(&heading, "HEADING"), ran.status), (wanted, 0));
    let split = SPLIT.replace("parts,", "parts, some beginning inside a paragraph,");
    assert_eq!(ran.err.replace(&heading, "Long"), split);
}

#[test]
fn a_heading_over_4096_words_is_in_no_sentence_of_its_parts() {
    for (search, status) in [
        (r#""first" same sentence"#, 1),
        (r#""last" same sentence"#, 1),
        (r#""last" ftand "text" different sentence"#, 1),
        (r#""last" ftand "text" distance exactly 0 words"#, 0),
        (r#""text" ftand "more" different sentence"#, 0),
    ] {
        gives(&["search", "--quiet", long_heading(), search], "", status);
    }
    let places = |section: &str| {
        let bytes = run(&["encode", long_heading(), section]).bytes;
        let numbers = bytes.chunks(4).map(|bytes| u32::from_le_bytes(bytes.try_into().unwrap()));
        numbers.skip(1 + (bytes.len() - 4) / 8).collect::<Vec<u32>>()
    };
    assert_eq!(places("1"), [0x1_0000; 4_096]);
    assert_eq!(places("2"), [0x1_0000, 0x1_0000, 0x1_0000, 0x1_0000, 0x2_0001, 0x2_0001, 0x2_0002]);
}

/// A search for 'dd' shows no part of the section that is split; that it is must be said all the same.
#[test]
fn a_split_is_said_with_json_too() {
    let object = object(long(), r#""dd""#);
    let part = |part: &Json| ["section", "part", "parts", "line"].map(|name| part.get(name).number());
    let parts: Vec<[i64; 4]> = object.get("split").list().iter().map(part).collect();
    assert_eq!(parts, [[1, 1, 2, 1], [2, 2, 2, 7]]);
}

/// The sections that follow have other numbers than in the text.
#[test]
fn a_split_is_said_by_encode_too() {
    assert_eq!(run(&["encode", long(), "2"]).err, SPLIT);
}

// Help

fn help() -> String {
    let ran = run(&["--help"]);
    assert_eq!((ran.err.as_str(), ran.status), ("", 0));
    ran.out().to_string()
}

#[test]
fn help_names_every_command_option_and_filter() {
    let help = help();
    let commands = ["search FILE SEARCH", "words FILE", "encode FILE N", "--help"];
    let options = ["--all", "--json", "--quiet", "--families FAMILIES", "--color"];
    for name in commands.iter().chain(&options) {
        assert!(help.contains(name), "{name}\n{help}");
    }
    let operators = ["ftor", "ftand", "not in", "ftnot"];
    let filters =
        ["same sentence", "same paragraph", "different sentence", "different paragraph", "ordered", "window N"];
    let more = ["distance", "exactly", "at least", "at most", "from N to N", "at start", "at end", "entire content"];
    let occurs = ["occurs at least N times"];
    for name in operators.iter().chain(&filters).chain(&more).chain(&occurs) {
        assert!(help.contains(name), "{name}\n{help}");
    }
    for status in
        ["0 if a section says yes", "1 if none does", "2 if the search or the\nanswer of a section is refused"]
    {
        assert!(help.contains(status), "{status}\n{help}");
    }
    assert!(help.lines().all(|line| line.chars().count() <= 80));
    assert_eq!(run(&["search", "--help"]).out(), help);
    assert_eq!(run(&["-h"]).out(), help);
}

#[test]
fn the_searches_of_the_help_text_are_read() {
    let help = help();
    let (_, after) = help.split_once("\nexamples:\n").expect("examples");
    let examples: Vec<&str> = after.lines().take_while(|line| line.starts_with("  manual ")).collect();
    assert!(examples.len() >= 5, "{examples:?}");
    let of_occurs: Vec<&str> = help.lines().filter(|line| line.ends_with(" occurs at least 3 times")).collect();
    assert_eq!(of_occurs.len(), 2);
    for line in of_occurs {
        gives(&["search", "--quiet", EXAMPLE, line], "", 0);
    }
    for example in examples {
        let typed = example.split('\'').nth(1).unwrap();
        let ran = search(EXAMPLE, typed);
        assert!(ran.status < 2 && !ran.err.contains("refused"), "{example}\n{ran:?}");
        // the whole line, as a shell runs it
        let quoted = |path: &str| format!("'{path}'");
        let command = example.replace("manual.md", &quoted(EXAMPLE)).replace("families.txt", "examples/families.txt");
        let command = command.replacen("manual", &quoted(env!("CARGO_BIN_EXE_manual")), 1);
        let root = concat!(env!("CARGO_MANIFEST_DIR"), "/..");
        let output = Command::new("bash").args(["-c", &command]).current_dir(root).output().unwrap();
        assert!(output.status.success(), "{command}\n{output:?}");
        assert!(!output.stdout.is_empty(), "{command}\n{output:?}");
    }
}

/// What follows `--` is no option.
#[test]
fn a_file_may_be_named_like_an_option() {
    let name = file("--odd.md", "one cam\n");
    let wanted = "Section 1, line 1: (no heading)\n      1: one [cam]\n  \
                  Match 1 of 1 decides: \"cam\" in line 1.\n\n1 of 1 section says yes.\n";
    gives(&["search", "--", name, r#""cam""#], wanted, 0);
}

/// As with `manual search .. | head -1`.
#[test]
fn a_reader_that_has_gone_is_no_error() {
    for arguments in
        [&["search", EXAMPLE, r#""the""#][..], &["words", EXAMPLE], &["encode", EXAMPLE, "34"], &["--help"]]
    {
        let (reader, writer) = std::io::pipe().unwrap();
        drop(reader);
        let output = tool(arguments).stdout(writer).output().unwrap();
        assert_eq!(String::from_utf8(output.stderr).unwrap(), "", "{arguments:?}");
        assert_eq!(output.status.code(), Some(0), "{arguments:?}");
    }
}
