//! Word families: how a file of them is read, what a search finds by them, and what the tool says where the file is wrong.

mod program;

use manual::codes::codes;
use manual::document::Manual;
use manual::engine::{Engine, Refusal};
use manual::families::Families;
use manual::refusal::of_code;
use manual::search::Search;
use manual::words::{Words, UNKNOWN};
use program::{file, run, Ran, EXAMPLE};
use second_engine::json::{self, Json};

const FAMILIES: &str = concat!(env!("CARGO_MANIFEST_DIR"), "/../examples/families.txt");

// The file

/// The families of a text as `WORD LINE, WORD LINE`, by the order of the words' bytes; or what is wrong with it.
fn read(text: &str) -> String {
    match Families::read(text) {
        Ok(families) => families.iter().map(|(word, line)| format!("{word} {line}")).collect::<Vec<_>>().join(", "),
        Err(wrong) => wrong,
    }
}

/// Each text is read so.
fn hold(cases: &[(&str, &str)]) {
    for (text, expected) in cases {
        assert_eq!(read(text), *expected, "{text:?}");
    }
}

#[test]
fn a_line_is_a_family_and_blanks_part_its_words() {
    hold(&[
        ("needle needles", "needle 1, needles 1"),
        ("needle needles\nbolt screw\n", "bolt 2, needle 1, needles 1, screw 2"),
        ("  needle\tneedles \u{A0} pin  ", "needle 1, needles 1, pin 1"),
        ("needle needles\r\nbolt\r\n", "bolt 2, needle 1, needles 1"),
        ("e12 E13 13", "13 1, e12 1, e13 1"),
    ]);
}

#[test]
fn blank_lines_and_comments_are_passed_over() {
    hold(&[
        ("", ""),
        ("\n \n\t\n", ""),
        ("# a comment, with signs\n#needle needles\n##\n", ""),
        ("# parts\n\nneedle needles\n  # more\nbolt\n", "bolt 5, needle 3, needles 3"),
    ]);
}

#[test]
fn words_are_folded_as_those_of_the_manual_are() {
    hold(&[
        ("Needle NEEDLES", "needle 1, needles 1"),
        ("Straße STRASSEN", "strasse 1, strassen 1"),
        ("A\u{308}pfel äpfeln", "äpfel 1, äpfeln 1"),
    ]);
}

#[test]
fn a_word_twice_in_a_line_and_a_line_of_one_word_do_no_harm() {
    hold(&[
        ("needle needles needle", "needle 1, needles 1"),
        ("needle Needle NEEDLE", "needle 1"),
        ("Straße strasse", "strasse 1"),
        ("needle\nbolt\n", "bolt 2, needle 1"),
    ]);
}

#[test]
fn a_word_is_of_one_family() {
    let twice = |word: &str, first: usize, second: usize| {
        format!("'{word}' stands in line {first} and in line {second}, and a word is of one family")
    };
    hold(&[
        ("needle needles\n\nneedle pin\n", &twice("needle", 1, 3)),
        ("needle pin\nbolt\nscrew Pin\n", &twice("Pin", 1, 3)),
        ("Straße\nSTRASSE\n", &twice("STRASSE", 1, 2)),
        // the first that is met
        ("a b\nb c\nc a\n", &twice("b", 1, 2)),
    ]);
}

#[test]
fn what_blanks_part_is_one_word() {
    let words = |text: &str, line: usize, count: usize| format!("'{text}' in line {line} is {count} words, not one");
    let signs = |text: &str, line: usize| format!("'{text}' in line {line} has other signs than letters and digits");
    hold(&[
        ("needle\ntake-up take", &words("take-up", 2, 2)),
        ("needle,needles,pin", &words("needle,needles,pin", 1, 3)),
        ("operator operator's", &words("operator's", 1, 2)),
        ("needle, needles", &signs("needle,", 1)),
        ("needle = needles", &signs("=", 1)),
        ("needle needle*", &signs("needle*", 1)),
        ("\nneedle needles # and others", &signs("#", 2)),
        ("needle #needles", &signs("#needles", 1)),
        ("\"needle\"", &signs("\"needle\"", 1)),
    ]);
}

/// So many words, seven in a line.
fn many(count: usize) -> String {
    (0..count).map(|word| format!("w{word}{}", if word % 7 == 6 { "\n" } else { " " })).collect()
}

#[test]
fn there_are_at_most_2048_words_in_all() {
    assert_eq!(Families::read(&many(2_048)).unwrap().iter().count(), 2_048);
    assert_eq!(read(&many(2_049)), "there are 2049 words in all, and 2048 are the most");
    assert_eq!(read(&many(5_000)), "there are 5000 words in all, and 2048 are the most");
    // one that stands twice counts once
    assert_eq!(Families::read(&format!("w0 {}", many(2_048))).unwrap().iter().count(), 2_048);
}

// Numbers

/// The words of a manual, joined by families.
fn words(manual: &str, families: &str) -> Words {
    Words::of(&Manual::new(manual.to_string())).joined_by(Families::read(families).unwrap())
}

/// A manual in which bolt is 1, covers 2, needles 3, oil 4 and the 5; and families for it.
const MANUAL: &str = "# Needles\nOil the bolt.\n\nThe covers.";
const JOINED: &str = "needle needles\npiston pistons\nscrew bolt\n";

#[test]
fn words_that_the_manual_does_not_have_are_numbered_after_its_own() {
    let words = words(MANUAL, JOINED);
    let numbers = [("bolt", 1), ("covers", 2), ("Needles", 3), ("oil", 4), ("the", 5)];
    let others = [("needle", 6), ("PISTON", 7), ("pistons", 8), ("screw", 9), ("cover", UNKNOWN)];
    for (word, number) in numbers.into_iter().chain(others) {
        assert_eq!(words.number(word), number, "{word}");
    }
    let numbered: Vec<&str> = words.numbered().map(|(_, word)| word).collect();
    assert_eq!(numbered, ["bolt", "covers", "needles", "oil", "the"]);
}

#[test]
fn the_engines_table_has_every_word_by_number_with_its_line() {
    assert_eq!(words(MANUAL, JOINED).family_table(), [6, 1, 3, 6, 7, 8, 9, 3, 1, 1, 2, 2, 3]);
    assert_eq!(words(MANUAL, "# none\n").family_table(), [0]);
    assert_eq!(words(MANUAL, "needles\n").family_table(), [1, 3, 1]);
}

#[test]
fn a_word_is_known_if_its_family_has_a_word_of_the_manual() {
    let words = words(MANUAL, JOINED);
    for (word, has) in [("oil", true), ("Needle", true), ("screw", true), ("pistons", false), ("cover", false)] {
        assert_eq!(words.has(word), has, "{word}");
    }
    let search = Search::new(r#""screw needle" ftor "piston cover oil""#, &words);
    assert_eq!(search.typed, br#""9 6" ftor "7 0 4""#);
    assert_eq!(search.unknown, ["piston", "cover"]);
}

#[test]
fn what_may_be_meant_is_a_word_that_can_be_found() {
    let words = words(MANUAL, JOINED);
    // 'pistol' is near to 'piston', which can't be found
    let near = [("neddle", Some("needle")), ("needlez", Some("needles")), ("scew", Some("screw")), ("pistol", None)];
    for (word, meant) in near {
        assert_eq!(words.near(word), meant, "{word}");
    }
    // the manual's own words come first
    assert_eq!(words.near("needls"), Some("needles"));
}

// What is found

/// Words that the small manual has in one form alone.
const SMALL: &str =
    "# Needles\n\nOil the needles. Lift the cover, then turn the bolt.\n\nCovers lie on bolts. Bolts turn.\n";

const SMALL_FAMILIES: &str = "needle needles\ncover covers\nbolt bolts screw screws\nlie lies\n";

fn small() -> [&'static str; 2] {
    [file("joined.md", SMALL), file("joined.txt", SMALL_FAMILIES)]
}

/// A search of the small manual with its families, and maybe options.
fn search(options: &[&str], search: &str) -> Ran {
    let [manual, families] = small();
    run(&[&["search", "--families", families], options, &[manual, search]].concat())
}

/// It gives this on standard output, nothing on standard error, and status 0.
fn shows(search_text: &str, out: &str) {
    assert_eq!(search(&[], search_text), Ran::new(out, "", 0), "{search_text}");
}

#[test]
fn a_word_finds_another_one_of_its_family() {
    let wanted = r#"Section 1, line 1: Needles
      1: [Needles]
      3: Oil the [needles].
  Match 1 of 2 decides: "Needles" in line 1.

1 of 1 section says yes.
"#;
    // the manual has 'needles' alone
    shows(r#""needle""#, wanted);
    shows(r#""NEEDLE""#, wanted);
    shows(r#""needles""#, wanted);
}

#[test]
fn each_word_of_a_phrase_is_found_by_its_own_family() {
    let wanted = r#"Section 1, line 1: Needles
      5: [Covers lie] on bolts.
  Match 1 of 1 decides: "Covers lie" in line 5.

1 of 1 section says yes.
"#;
    shows(r#""cover lies""#, wanted);
    assert_eq!(search(&["--quiet"], r#""lies cover""#).status, 1);
    assert_eq!(search(&["--quiet"], r#""lies on screw""#).status, 0);
}

#[test]
fn excludes_are_found_by_family_too() {
    let all = r#"Section 1, line 1: Needles
  Match 1: "bolt" in line 3, excluded by "cover" in line 3.
      3: Lift the {cover}, then turn the [bolt].
  Match 2: "bolts" in line 5, excluded by "Covers" in line 5.
      5: {Covers} lie on [bolts].
  Match 3: "Bolts" in line 5, not excluded.
      5: [Bolts] turn.
  Match 3 of 3 decides: "Bolts" in line 5, not excluded by "covers" (lines 3, 5).

1 of 1 section says yes.
"#;
    let text = r#""screws" ftand ftnot "covers" same sentence"#;
    assert_eq!(search(&["--all"], text), Ran::new(all, "", 0));
    let finds = r#"Section 1, line 1: Needles
      5: [Bolts] turn.
  Match 3 of 3 decides: "Bolts" in line 5, not excluded by "covers" (lines 3, 5).

1 of 1 section says yes.
"#;
    shows(text, finds);
    // over the whole section every 'bolt' is excluded
    assert_eq!(search(&["--quiet"], r#""screw" ftand ftnot "cover""#).status, 1);
}

#[test]
fn finds_of_a_family_are_counted_together() {
    shows(
        r#""bolt" occurs exactly 3 times"#,
        r#"Section 1, line 1: Needles
      3: Lift the cover, then turn the [bolt].
      5: Covers lie on [bolts].
      5: [Bolts] turn.
  Match 1 of 1 decides: "bolt" in line 3 and "bolts" in line 5 and "Bolts" in line 5.

1 of 1 section says yes.
"#,
    );
    assert_eq!(search(&["--quiet"], r#""bolt" occurs at least 4 times"#).status, 1);
    // the finds that a refusal counts
    let manual = file("eight.md", "bolt bolts ".repeat(4));
    let families = file("eight.txt", "bolt bolts");
    let ran = run(&["search", "--families", families, manual, r#""bolt" occurs at least 3 times"#]);
    assert!(ran.out().contains("too many choices among 8 finds: over 256"), "{ran:?}");
    assert_eq!((ran.err.as_str(), ran.status), ("", 2));
}

#[test]
fn finds_over_the_larger_number_of_an_occurs_are_counted_by_family() {
    shows(
        r#""screw" occurs exactly 2 times same paragraph"#,
        r#"Section 1, line 1: Needles
      5: Covers lie on [bolts].
      5: [Bolts] turn.
  Match 1 of 3 decides: "bolts" in line 5 and "Bolts" in line 5, not excluded by "screw" occurs exactly 2 times (line 3).

1 of 1 section says yes.
"#,
    );
}

#[test]
fn json_has_the_words_that_are_found() {
    let ran = search(&["--json"], r#""screw" ftand ftnot "cover" same sentence"#);
    assert_eq!((ran.err.as_str(), ran.status), ("", 0));
    let object = json::read(ran.out()).unwrap();
    assert!(object.get("unknown_words").list().is_empty());
    let section = &object.get("sections").list()[0];
    let strings = |list: &Json| -> Vec<String> {
        let shown = |found: &Json| format!("{} {}", found.get("start").number(), found.get("text").text());
        list.list().iter().map(shown).collect()
    };
    let deciding = &section.get("matches").list()[section.get("deciding").number() as usize - 1];
    assert_eq!(strings(deciding.get("includes")), ["16 Bolts"]);
    assert_eq!(strings(section.get("not_excluded").list()[0].get("finds")), ["7 cover", "12 Covers"]);
}

#[test]
fn words_that_neither_the_manual_nor_a_family_joins_to_it_are_said() {
    let says = |word: &str| format!("manual: the manual does not have the word '{word}'");
    let none = "0 of 1 section says yes.\n";
    assert_eq!(search(&[], r#""gloves""#), Ran::new(none, &format!("{}\n", says("gloves")), 1));
    // 'screw' is joined to the manual, and may be meant
    assert_eq!(search(&[], r#""skrew""#), Ran::new(none, &format!("{}; is it 'screw'?\n", says("skrew")), 1));
    let [manual, _] = small();
    let pistons = file("pistons.txt", "piston pistons\n");
    let ran = run(&["search", "--families", pistons, manual, r#""pistons" ftor "piston""#]);
    assert_eq!(ran, Ran::new(none, &format!("{}\n{}\n", says("pistons"), says("piston")), 1));
    let ran = run(&["search", "--json", "--families", pistons, manual, r#""pistons" ftor "needles""#]);
    let object = json::read(ran.out()).unwrap();
    assert_eq!(object.get("unknown_words").list(), [Json::Text("pistons".to_string())]);
}

/// The numbers of the sections of the example manual that say yes, and of those that are refused.
fn answered(options: &[&str], search: &str) -> [Vec<i64>; 2] {
    let ran = run(&[&["search", "--json"], options, &[EXAMPLE, search]].concat());
    let object = json::read(ran.out()).unwrap_or_else(|wrong| panic!("{wrong}\n{ran:?}"));
    let sections = object.get("sections").list().iter();
    let numbers = |answer: &str| {
        let such = sections.clone().filter(|section| section.get("answer").text() == answer);
        such.map(|section| section.get("section").number()).collect()
    };
    ["yes", "refused"].map(numbers)
}

#[test]
fn a_word_says_yes_where_any_of_its_family_does() {
    let cases = [
        (r#""needle""#, r#""needle" ftor "needles""#),
        (r#""screws""#, r#""bolt" ftor "bolts""#),
        (r#"ftnot "screw""#, r#"ftnot ("bolt" ftor "bolts")"#),
        (r#""cam" ftand ftnot "covers""#, r#"("cam" ftor "cams") ftand ftnot ("cover" ftor "covers")"#),
        (
            r#""worn" ftand "cam" same sentence"#,
            r#"("wear" ftor "wears" ftor "worn") ftand ("cam" ftor "cams") same sentence"#,
        ),
        (r#""bent needle""#, r#""bend needle" ftor "bend needles" ftor "bent needle" ftor "bent needles""#),
    ];
    for (joined, spelled) in cases {
        let [yes, refused] = answered(&["--families", FAMILIES], joined);
        assert!(!yes.is_empty() && yes.len() < 43 && refused.is_empty(), "{joined}: {yes:?}, {refused:?}");
        assert_eq!([yes, refused], answered(&[], spelled), "{joined}");
    }
}

#[test]
fn without_families_nothing_changes() {
    let empty = file("none.txt", "# no families\n\n");
    let alone = file("alone.txt", "needle\ncam\n\npiston\n");
    for search in [
        r#""cam" ftand ftnot "cover" same sentence ordered window 6 words"#,
        r#""needle" occurs at least 3 times"#,
        r#""needel" ftor "screw""#,
        r#""cam" ftand and "cover""#,
    ] {
        for option in ["--all", "--json", "--quiet", "--color=always"] {
            let plain = run(&["search", option, EXAMPLE, search]);
            assert_eq!(run(&["search", option, "--families", empty, EXAMPLE, search]), plain, "{search}");
            assert_eq!(run(&["search", option, "--families", alone, EXAMPLE, search]), plain, "{search}");
        }
    }
}

#[test]
fn a_table_of_2048_words_is_taken() {
    let manual = file("most.md", "# W0\nw6 w7 w2047 v\n");
    let families = file("most.txt", many(2_048));
    let yes = |search: &str| run(&["search", "--quiet", "--families", families, manual, search]).status;
    for (search, status) in [(r#""w1""#, 0), (r#""w13""#, 0), (r#""w2046""#, 0), (r#""w14""#, 1), (r#""w4 w8""#, 0)] {
        assert_eq!(yes(search), status, "{search}");
    }
}

#[test]
fn the_example_families_are_of_words_that_the_example_manual_has() {
    let families = Families::read(&std::fs::read_to_string(FAMILIES).unwrap()).unwrap();
    let manual = Words::of(&Manual::new(std::fs::read_to_string(EXAMPLE).unwrap()));
    let missing: Vec<&str> = families.iter().map(|(word, _)| word).filter(|word| !manual.has(word)).collect();
    assert_eq!(missing, ["screw", "screws"]);
    let lines: std::collections::BTreeSet<u32> = families.iter().map(|(_, line)| line).collect();
    assert!(lines.len() >= 20, "{} families", lines.len());
    for line in lines {
        let of_line = families.iter().filter(|(word, other)| *other == line && manual.has(word));
        assert!(of_line.count() >= 2, "line {line}");
    }
}

// What is wrong

/// A run gives this on standard error, nothing on standard output, and status 2.
fn fails(arguments: &[&str], err: &str) {
    assert_eq!(run(arguments), Ran::new("", err, 2), "{arguments:?}");
}

/// A file of families can't be taken; `--quiet` says nothing.
fn refused(families: &str, says: &str) {
    let err = format!("manual: {says}\n");
    for options in [&["search"][..], &["search", "--all"], &["search", "--json"]] {
        fails(&[options, &["--families", families, EXAMPLE, r#""cam""#]].concat(), &err);
    }
    fails(&["search", "--quiet", "--families", families, EXAMPLE, r#""cam""#], "");
    // after the manual, and before the search
    fails(&["search", "--families", families, EXAMPLE, "cam"], &err);
    let missing = "manual: can't read missing.md: No such file or directory (os error 2)\n";
    fails(&["search", "--families", families, "missing.md", "cam"], missing);
}

#[test]
fn files_that_cannot_be_read() {
    refused("missing.txt", "can't read missing.txt: No such file or directory (os error 2)");
    refused(".", "can't read .: Is a directory (os error 21)");
    let latin = file("latin.txt", b"needle needles\n\n\xd6l \xd6le\n");
    refused(latin, "latin.txt is not UTF-8 text: the first byte that isn't stands in line 3");
}

#[test]
fn files_that_are_wrong_are_named_with_their_lines() {
    let twice = file("twice.txt", "needle needles\nbolt\n\nscrew Needles\n");
    refused(twice, "twice.txt: 'Needles' stands in line 1 and in line 4, and a word is of one family");
    let two = file("two.txt", "# parts\nneedle\ntake-up takes\n");
    refused(two, "two.txt: 'take-up' in line 3 is 2 words, not one");
    let signs = file("signs.txt", "needle, needles\n");
    refused(signs, "signs.txt: 'needle,' in line 1 has other signs than letters and digits");
    let long = file("long.txt", many(2_049));
    refused(long, "long.txt: there are 2049 words in all, and 2048 are the most");
    // what would steer the terminal is not shown
    let steering = file("steering.txt", "needle \u{1b}[31mneedles\n");
    refused(steering, "steering.txt: '\u{FFFD}[31mneedles' in line 1 has other signs than letters and digits");
}

#[test]
fn a_byte_order_mark_is_no_part_of_a_word() {
    let [manual, _] = small();
    let families = file("mark.txt", "\u{FEFF}needle needles\r\n");
    assert_eq!(run(&["search", "--quiet", "--families", families, manual, r#""needle""#]), Ran::new("", "", 0));
}

/// A command line is wrong for this reason.
fn usage(arguments: &[&str], says: &str) {
    fails(arguments, &format!("manual: {says}; 'manual --help' says more\n"));
}

#[test]
fn the_option_takes_one_file_and_is_of_search_alone() {
    let cam = r#""cam""#;
    let quiet = |option: &[&str]| run(&[&["search", "-q"], option, &[EXAMPLE, cam]].concat());
    let joined = format!("--families={FAMILIES}");
    assert_eq!(quiet(&["--families", FAMILIES]), Ran::new("", "", 0));
    assert_eq!(quiet(&[&joined]), Ran::new("", "", 0));
    assert_eq!(run(&["search", "-q", EXAMPLE, cam, "--families", FAMILIES]), Ran::new("", "", 0));
    let takes = "--families takes a file";
    usage(&["search", EXAMPLE, cam, "--families"], takes);
    usage(&["search", "--families=", EXAMPLE, cam], takes);
    usage(&["search", "--families", "", EXAMPLE, cam], takes);
    usage(&["search", "--families", FAMILIES, &joined, EXAMPLE, cam], "--families can be given only once");
    usage(&["search", "--family", FAMILIES, EXAMPLE, cam], "unknown option '--family'");
    let only = "only 'search' has an option '--families'";
    usage(&["words", "--families", FAMILIES, EXAMPLE], only);
    usage(&["encode", "--families", FAMILIES, EXAMPLE, "34", cam], only);
    usage(&["encode", EXAMPLE, "34", &joined], only);
}

/// The tool's tables are never refused; a refusal would have no place in the search.
#[test]
fn a_refused_table_is_explained() {
    let words = words(MANUAL, JOINED);
    let search = Search::new(r#""oil" ftand "needle""#, &words);
    let selection = Engine::new(vec![0]).read(&search.typed).unwrap();
    let explained = |place: usize| of_code(Refusal { number: 13, place }, &codes(&search, &selection), None);
    let cases = [
        (0, "the family table has over 2,048 words, or another length than its size says"),
        (2, "the words of the family table don't rise at word 2"),
    ];
    for (place, what) in cases {
        assert_eq!((explained(place).what.as_str(), explained(place).place), (what, None));
    }
    for (table, place) in [(vec![], 0), (vec![1, 4], 0), (vec![3, 1, 4, 4, 1, 1, 1], 3)] {
        let refusal = Engine::new(table).quick(&[0], &selection).unwrap_err();
        assert_eq!(refusal, Refusal { number: Refusal::FAMILIES, place });
    }
}
