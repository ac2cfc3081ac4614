//! What the tool says where something is wrong: of the command line, of a file, of a search. The status is 2.

mod program;

use program::{file, run, tool, Ran, EXAMPLE};
use second_engine::json::{self, Json};
use std::ffi::OsStr;
use std::fs::File;
use std::os::unix::ffi::OsStrExt;

const CAM: &str = r#""cam""#;

/// A run gives this on standard error, nothing on standard output, and status 2.
fn fails(arguments: &[&str], err: &str) {
    assert_eq!(run(arguments), Ran::new("", err, 2), "{arguments:?}");
}

// The command line

/// A command line is wrong for this reason.
fn usage(arguments: &[&str], says: &str) {
    fails(arguments, &format!("manual: {says}; 'manual --help' says more\n"));
}

#[test]
fn there_has_to_be_a_command() {
    usage(&[], "which command? search, words or encode");
    usage(&["find"], "unknown command 'find'");
    usage(&["find", EXAMPLE, CAM], "unknown command 'find'");
    usage(&[""], "unknown command ''");
    usage(&["Search", EXAMPLE, CAM], "unknown command 'Search'");
}

#[test]
fn operands_that_are_missing_or_too_many() {
    let search = "'search' takes a file and a search, the whole of it in single quotes";
    let words = "'words' takes a file";
    let encode = "'encode' takes a file, the number of a section, and a search or none";
    usage(&["search"], search);
    usage(&["search", EXAMPLE], search);
    usage(&["search", "--all", EXAMPLE], search);
    usage(&["words"], words);
    usage(&["words", EXAMPLE, EXAMPLE], words);
    usage(&["encode"], encode);
    usage(&["encode", EXAMPLE], encode);
    usage(&["encode", EXAMPLE, "1", CAM, CAM], encode);
}

#[test]
fn unknown_options() {
    for option in ["--every", "-a", "--all=yes", "--All", "--col", "--version"] {
        usage(&["search", option, EXAMPLE, CAM], &format!("unknown option '{option}'"));
        usage(&["search", EXAMPLE, CAM, option], &format!("unknown option '{option}'"));
        usage(&[option], &format!("unknown option '{option}'"));
    }
    // a wrong command line is said with --quiet and --json too
    usage(&["search", "--quiet", "--every", EXAMPLE, CAM], "unknown option '--every'");
    usage(&["search", "--json", "--every", EXAMPLE, CAM], "unknown option '--every'");
}

#[test]
fn options_of_another_command() {
    for option in ["--all", "--json", "--quiet"] {
        usage(&["words", option, EXAMPLE], &format!("only 'search' has an option '{option}'"));
        usage(&["encode", option, EXAMPLE, "1"], &format!("only 'search' has an option '{option}'"));
    }
    usage(&["words", "--color", "always", EXAMPLE], "only 'search' has an option '--color'");
    usage(&["encode", EXAMPLE, "1", "--color=never"], "only 'search' has an option '--color'");
}

#[test]
fn one_way_to_show_the_answers_at_once() {
    let says = "of --all, --json and --quiet only one can be given";
    usage(&["search", "--all", "--json", EXAMPLE, CAM], says);
    usage(&["search", "--all", "--quiet", EXAMPLE, CAM], says);
    usage(&["search", "--quiet", "--json", EXAMPLE, CAM], says);
    usage(&["search", "--json", EXAMPLE, CAM, "--all", "--quiet"], says);
}

#[test]
fn color_has_three_values() {
    let says = "--color is auto, always or never";
    usage(&["search", "--color", "blue", EXAMPLE, CAM], says);
    usage(&["search", "--color=blue", EXAMPLE, CAM], says);
    usage(&["search", "--color=", EXAMPLE, CAM], says);
    usage(&["search", "--color=Always", EXAMPLE, CAM], says);
    usage(&["search", EXAMPLE, CAM, "--color"], says);
}

#[test]
fn a_search_that_is_not_text() {
    let arguments = [OsStr::new("search"), OsStr::new(EXAMPLE), OsStr::from_bytes(b"\"\xff\"")];
    assert_eq!(run(&arguments), Ran::new("", "manual: the search is not UTF-8; 'manual --help' says more\n", 2));
}

#[test]
fn section_numbers() {
    for number in ["0", "44", "4096"] {
        let says = format!("manual: there is no section {number}; they are 1 to 43\n");
        fails(&["encode", EXAMPLE, number], &says);
        fails(&["encode", EXAMPLE, number, CAM], &says);
    }
    for number in ["one", "", "1.5", "1x", " 1", "0x1", "99999999999999999999"] {
        usage(&["encode", EXAMPLE, number], &format!("'{number}' is not the number of a section"));
    }
    usage(&["encode", EXAMPLE, "-1"], "unknown option '-1'");
}

// The file

/// A file can't be searched, for every command; `--quiet` says nothing.
fn unreadable(name: &str, says: &str) {
    let err = format!("manual: {says}\n");
    for options in [&["search"][..], &["search", "--all"], &["search", "--json"]] {
        fails(&[options, &[name, CAM]].concat(), &err);
    }
    fails(&["words", name], &err);
    fails(&["encode", name, "1"], &err);
    fails(&["search", "--quiet", name, CAM], "");
    // before the search is looked at
    fails(&["search", name, "cam"], &err);
}

#[test]
fn files_that_are_missing_or_no_files() {
    unreadable("missing.md", "can't read missing.md: No such file or directory (os error 2)");
    unreadable("missing/manual.md", "can't read missing/manual.md: No such file or directory (os error 2)");
    unreadable(".", "can't read .: Is a directory (os error 21)");
    // the search stands first
    unreadable(CAM, "can't read \"cam\": No such file or directory (os error 2); the file stands before the search");
}

#[test]
fn files_that_are_not_utf_8() {
    let says =
        |name: &str, line: usize| format!("{name} is not UTF-8 text: the first byte that isn't stands in line {line}");
    unreadable(file("latin.md", b"# Gr\xf6\xdfe\n"), &says("latin.md", 1));
    unreadable(file("cut.md", b"# Cam\n\nThe cam \xc3"), &says("cut.md", 3));
    unreadable(file("wide.md", b"\xff\xfe#\0 \0C\0a\0m\0"), &says("wide.md", 1));
}

#[test]
fn files_that_are_empty_or_without_words() {
    unreadable(file("empty.md", ""), "empty.md is empty");
    unreadable(file("lines.md", "\n\n\n"), "lines.md has no words");
    unreadable(file("signs.md", "# --\n\n...! (?)\n"), "signs.md has no words");
    unreadable(file("heading.md", "#\n"), "heading.md has no words");
    // the words of a heading are enough, though they stand in no sentence
    let search = |search: &str| run(&["search", "--quiet", file("headed.md", "# Cam\n"), search]);
    assert_eq!(search(CAM), Ran::new("", "", 0));
    assert_eq!(search(r#""cam" same sentence"#), Ran::new("", "", 1));
}

// Refused searches

/// The bytes of a search, counted from 0, over a caret and the line after it.
fn over(search: &str, caret: &str) -> (i64, i64) {
    let byte = |count: usize| search.char_indices().nth(count).map_or(search.len(), |(byte, _)| byte);
    let (first, last) = (caret.chars().position(|c| c == '^').expect("a caret"), caret.chars().count());
    (byte(first) as i64, byte(last) as i64)
}

/// The refusal that `--json` prints for a search. (The reader knows a tab in its short form only.)
fn refusal(search: &str) -> Json {
    let ran = run(&["search", "--json", EXAMPLE, search]);
    assert_eq!((ran.err.as_str(), ran.status), ("", 2), "{search}");
    let object = json::read(&ran.out().replace(r"\u0009", r"\t")).unwrap_or_else(|wrong| panic!("{wrong}\n{ran:?}"));
    assert_eq!(object.get("search").text(), search);
    object.get("refused").clone()
}

/// A search is refused with this text, in every way to show it.
fn refused_with(search: &str, err: &str) {
    fails(&["search", EXAMPLE, search], err);
    fails(&["search", "--all", EXAMPLE, search], err);
    fails(&["search", "--color", "always", EXAMPLE, search], err);
    fails(&["encode", EXAMPLE, "34", search], err);
    fails(&["search", "--quiet", EXAMPLE, search], "");
}

/// A search is refused for this reason, with this caret under it.
fn refused(search: &str, says: &str, number: i64, caret: &str) {
    let err = format!("manual: the search is refused: {says} (refusal {number})\n  {search}\n  {caret}\n");
    refused_with(search, &err);
    let refusal = refusal(search);
    assert_eq!((refusal.get("number").number(), refusal.get("says").text()), (number, says), "{search}");
    assert_eq!((refusal.get("from_byte").number(), refusal.get("to_byte").number()), over(search, caret), "{search}");
}

/// The three lines of a block, the last two without their margin.
fn three_lines(block: &str) -> [&str; 3] {
    let lines: Vec<&str> = block.lines().collect();
    let [first, search, caret] = lines[..] else { panic!("three lines: {block}") };
    let margin = |line| str::strip_prefix(line, "  ").expect("a margin");
    [first, margin(search), margin(caret)]
}

/// Each block is a refusal: what is wrong and its number, the search, the caret.
fn all_refused(blocks: &str) {
    for block in blocks.trim().split("\n\n") {
        let [first, search, caret] = three_lines(block);
        let (says, number) = first.strip_suffix(')').unwrap().rsplit_once(" (refusal ").unwrap();
        refused(search, says, number.parse().unwrap(), caret);
    }
}

#[test]
fn words_without_quotes() {
    all_refused(
        r#"
'cam' is no word of the search language; words to look for stand in double quotes (refusal 10)
  cam ftand "cover"
  ^~~

'cover' is no word of the search language; words to look for stand in double quotes (refusal 10)
  "cam" ftand cover
              ^~~~~

'and' is no word of the search language; is it 'ftand'? (refusal 10)
  "cam" and "cover"
        ^~~

'ftan' is no word of the search language; is it 'ftand'? (refusal 10)
  "cam" ftan "cover"
        ^~~~

'words' has to stand here (refusal 10)
  "cam" window 6 word
                 ^~~~
"#,
    );
}

#[test]
fn words_of_the_language_at_a_wrong_place() {
    all_refused(
        r#"
words to look for stand in double quotes, and the whole search in single quotes, or the shell takes the double ones away (refusal 10)
  ordered
  ^~~~~~~

'ftand' can't stand here (refusal 10)
  ftand "cam"
  ^~~~~

'ftand ftnot' has to join two searches (refusal 10)
  "cam" ftnot "cover"
        ^~~~~

'ftnot' can't stand here (refusal 10)
  ftnot ftnot "cam"
        ^~~~~

'sentence' or 'paragraph' has to stand here (refusal 10)
  "cam" same words
             ^~~~~

'start' or 'end' has to stand here (refusal 10)
  "cam" at least 3 words
           ^~~~~

'window' can't stand here (refusal 10)
  "cam" ftand (window 3 words)
               ^~~~~~
"#,
    );
}

#[test]
fn numbers_and_signs_at_a_wrong_place() {
    all_refused(
        r#"
words to look for stand in double quotes, and the whole search in single quotes, or the shell takes the double ones away (refusal 10)
  12
  ^~

'exactly', 'at least', 'at most' or 'from' has to stand here (refusal 10)
  "cam" distance 3 words
                 ^

',' can't stand here; 'ftand', 'ftor' or 'not in' joins two searches, and a filter follows as it is (refusal 10)
  "cam", "cover"
       ^

'&' can't stand here; 'ftand', 'ftor' or 'not in' joins two searches, and a filter follows as it is (refusal 10)
  ("cam") && "cover"
          ^

',' can't stand here; 'ftand', 'ftor' or 'not in' joins two searches, and a filter follows as it is (refusal 10)
  "cam" same sentence, ordered
                     ^

'!' can't stand here (refusal 10)
  "cam" ftand !"cover"
              ^

'words' has to stand here (refusal 10)
  "cam" window 2.5 words
                ^

no parenthesis is open here (refusal 10)
  "cam")
       ^

a search has to stand before this parenthesis (refusal 10)
  ()
   ^

a search has to stand before this parenthesis (refusal 10)
  ("cam" ftand)
              ^

words to look for stand in double quotes, and the whole search in single quotes, or the shell takes the double ones away (refusal 10)
  *cam*
  ^

'é' is no word of the search language; words to look for stand in double quotes (refusal 10)
  "hällmann" é
             ^
"#,
    );
}

#[test]
fn large_letters_and_other_quotes() {
    all_refused(
        r#"
outside quotes all letters are small (refusal 10)
  "cam" Ftand "cover"
        ^

outside quotes all letters are small (refusal 10)
  "cam" ftand FTNOT "cover"
              ^

the quotes around a phrase are " (refusal 10)
  “cam”
  ^

the quotes around a phrase are " (refusal 10)
  "hällmann" ftand “cover”
                   ^

the quotes around a phrase are " (refusal 10)
  'cam'
  ^
"#,
    );
}

#[test]
fn phrases() {
    all_refused(
        r#"
'ftand', 'ftor' or 'not in' has to join two searches (refusal 10)
  "cam" "cover"
        ^

a phrase isn't closed by a quote (refusal 10)
  "cam
      ^

a phrase isn't closed by a quote (refusal 10)
  "cam" ftand ftnot "needle bed
                               ^

a phrase has at least one word (refusal 10)
  ""
   ^

a phrase has at least one word (refusal 10)
  "cam" ftand "- -"
                  ^

a phrase has at most eight words; 3.5 counts as two (refusal 10)
  "front and back bed of the machine are alike"
                                         ^~~~~

a phrase has at most eight words; 3.5 counts as two (refusal 10)
  "bed, bed, bed, bed, bed, bed, bed, bed; Hällmann; bed" ftand cam
                                           ^~~~~~~~
"#,
    );
}

#[test]
fn searches_that_end_too_soon() {
    all_refused(
        r#"
the search can't end here (refusal 10)
  "cam" ftand
             ^

the search can't end here (refusal 10)
  ftnot
       ^

the search can't end here (refusal 10)
  "cam" not in
              ^

'words' has to stand here (refusal 10)
  "cam" window 6
                ^

'sentence' or 'paragraph' has to stand here (refusal 10)
  "cam" same
            ^
"#,
    );
    // blanks at the end count, as in the engine
    refused("\"cam\" ftand  ", "the search can't end here", 10, "             ^");
    refused("\"cam ", "a phrase isn't closed by a quote", 10, "     ^");
}

#[test]
fn tabs_and_line_ends_outside_quotes() {
    let says = "outside quotes only blanks part words";
    refused("\"cam\"\tftand \"cover\"", says, 10, "     ^");
    // inside quotes a tab parts words; it stands in the caret's line too, so that both lines have the same width
    let unknown = "'or' is no word of the search language; is it 'ftor'?";
    refused("\"needle\tbed\" or", unknown, 10, "       \t     ^~");
    // of a search of several lines the one with the place is shown
    let shown = |line: &str, caret: &str, says: &str| {
        format!("manual: the search is refused: {says} (refusal 10)\n  {line}\n  {caret}\n")
    };
    refused_with("\"cam\"\nftand \"cover\"", &shown("\"cam\"", "     ^", says));
    refused_with("\"needle\nbed\" or", &shown("bed\" or", "     ^~", unknown));
}

/// An accent that is a character of its own takes no column.
#[test]
fn carets_stand_under_their_place_after_accents() {
    let err = "manual: the search is refused: 'or' is no word of the search language; is it 'ftor'? (refusal 10)\n  \
               \"o\u{308}l\" or\n       ^~\n";
    refused_with("\"o\u{308}l\" or", err);
}

#[test]
fn numbers_over_their_limit() {
    all_refused(
        r#"
a number here is at most 4,096 (refusal 11)
  "cam" window 4097 words
               ^~~~

a number here is at most 4,096 (refusal 11)
  "cam" window 99999999999999999999 words
               ^~~~~~~~~~~~~~~~~~~~

a number here is at most 4,096 (refusal 11)
  "hällmann" distance from 1 to 5000 and
                                ^~~~

a number here is at most 4,096 (refusal 11)
  "cam" occurs at least 4097 times
                        ^~~~

a number here is at most 4,096 (refusal 11)
  "hällmann" occurs from 1 to 5000 words
                              ^~~~
"#,
    );
}

#[test]
fn windows_and_distances_that_no_words_can_have() {
    all_refused(
        r#"
a window has 1 to 4,096 words (refusal 5)
  "cam" window 0 words
        ^~~~~~~~~~~~~~

a distance is 0 to 4,095 words, from the smaller number to the larger (refusal 5)
  "cam" distance from 3 to 2 words
        ^~~~~~~~~~~~~~~~~~~~~~~~~~

a distance is 0 to 4,095 words, from the smaller number to the larger (refusal 5)
  "cam" distance exactly 4096 words
        ^~~~~~~~~~~~~~~~~~~~~~~~~~~

a window has 1 to 4,096 words (refusal 5)
  ("hällmann" ordered window 0 words at end) ftor "cam"
                      ^~~~~~~~~~~~~~
"#,
    );
}

#[test]
fn an_occurs_that_no_phrase_can_have() {
    all_refused(
        r#"
a phrase occurs 0 to 4,095 times, from the smaller number to the larger (refusal 5)
  "cam" occurs from 3 to 2 times
        ^~~~~~~~~~~~~~~~~~~~~~~~

a phrase occurs 0 to 4,095 times, from the smaller number to the larger (refusal 5)
  "cam" occurs at least 4096 times
        ^~~~~~~~~~~~~~~~~~~~~~~~~~

a phrase occurs 0 to 4,095 times, from the smaller number to the larger (refusal 5)
  "cam" occurs from 1 to 4096 times
        ^~~~~~~~~~~~~~~~~~~~~~~~~~~

a phrase occurs 0 to 4,095 times, from the smaller number to the larger (refusal 5)
  ("cam" ftor ftnot "hällmann"occurs exactly 4096 times) ftand "cover" occurs at least 4096 times
                              ^~~~~~~~~~~~~~~~~~~~~~~~~
"#,
    );
    for occurs in ["at least 4095", "at most 4095", "exactly 4095", "from 4095 to 4095"] {
        let search = format!("{CAM} occurs {occurs} times");
        let ran = run(&["search", "--quiet", EXAMPLE, &search]);
        assert_eq!(ran, Ran::new("", "", i32::from(occurs != "at most 4095")), "{search}");
    }
}

#[test]
fn occurs_under_not_in() {
    all_refused(
        r#"
an 'ftnot', or an 'occurs' other than 'at least', can't stand on either side of 'not in' (refusal 7)
  "cam" not in "cams" occurs at most 2 times
        ^~~~~~

an 'ftnot', or an 'occurs' other than 'at least', can't stand on either side of 'not in' (refusal 7)
  ("hällmann" occurs exactly 2 times same sentence) not in "cams"
                                                    ^~~~~~
"#,
    );
    // 'at least' can
    let search = r#""bed" occurs at least 2 times not in "needle bed""#;
    assert_eq!(run(&["search", "--quiet", EXAMPLE, search]), Ran::new("", "", 0));
}

#[test]
fn ftnot_under_not_in() {
    all_refused(
        r#"
an 'ftnot', or an 'occurs' other than 'at least', can't stand on either side of 'not in' (refusal 7)
  "cam" not in ftnot "cover"
        ^~~~~~

an 'ftnot', or an 'occurs' other than 'at least', can't stand on either side of 'not in' (refusal 7)
  ftnot "cam" not in "cover"
              ^~~~~~

an 'ftnot', or an 'occurs' other than 'at least', can't stand on either side of 'not in' (refusal 7)
  "needle" not in "bed" ftor ("Dubréau" ftand ftnot "hällmann" ordered) not in "bed"
                                                                        ^~~~~~
"#,
    );
}

/// Nested to the right, so many phrases wait for their operators.
fn nested(word: &str, phrases: usize) -> String {
    let others = phrases - 1;
    format!("{}\"{word}\"{}", format!("\"{word}\" ftand (").repeat(others), ")".repeat(others))
}

#[test]
fn nine_phrases_nested_to_the_right() {
    let says = "too deep to the right: with this phrase more than eight wait for their operator";
    let caret = |word: &str| {
        let search = nested(word, 9);
        let before = search[..search.rfind('(').unwrap() + 1].chars().count();
        format!("{}^{}", " ".repeat(before), "~".repeat(word.chars().count() + 1))
    };
    refused(&nested("hardened", 9), says, 6, &caret("hardened"));
    refused(&nested("Hällmann", 9), says, 6, &caret("Hällmann"));
    assert_eq!(run(&["search", "--quiet", EXAMPLE, &nested("hardened", 8)]), Ran::new("", "", 0));
}

/// Before the caret stand words that are longer and shorter than their numbers, letters outside ASCII, unknown words.
#[test]
fn carets_stand_under_their_place_whatever_words_are_before_them() {
    all_refused(
        r#"
'or' is no word of the search language; is it 'ftor'? (refusal 10)
  "a" ftand "V" ftand "5" or "x"
                          ^~

'or' is no word of the search language; is it 'ftor'? (refusal 10)
  "technicians, centimetres" ftand "1001 1999 2100" or "x"
                                                    ^~

'or' is no word of the search language; is it 'ftor'? (refusal 10)
  "Hällmann in Oberlühn" ftand "Dubréau" or "é"
                                         ^~

'or' is no word of the search language; is it 'ftor'? (refusal 10)
  "unknownwords ééééé ü" or "x"
                         ^~

an 'ftnot', or an 'occurs' other than 'at least', can't stand on either side of 'not in' (refusal 7)
  ("Oberlühn technicians" ftor ftnot "ü") not in "1999" ftand "a" ftand "unknownwords"
                                          ^~~~~~

a window has 1 to 4,096 words (refusal 5)
  ("ü" ftand "Hällmann in Oberlühn") ftor "V" ordered window 0 words
                                                      ^~~~~~~~~~~~~~
"#,
    );
}

// Searches that are too long

/// A search is refused as a whole, without a place.
fn refused_as_a_whole(search: &str, says: &str, number: i64) {
    refused_with(search, &format!("manual: the search is refused: {says} (refusal {number})\n"));
    let refusal = refusal(search);
    let numbers = (refusal.get("number").number(), refusal.get("place").number());
    assert_eq!((numbers, refusal.get("says").text()), ((number, 0), says));
    let Json::Object(entries) = refusal else { panic!("no object") };
    assert!(entries.iter().all(|(name, _)| name != "from_byte" && name != "to_byte"), "{entries:?}");
}

#[test]
fn searches_of_too_many_bytes() {
    // the number of 'cam' has three digits, so these bytes are the engine's too
    let of_length = |bytes: usize| format!("{CAM}{}", " ".repeat(bytes - CAM.len()));
    let says = "the search is too long: with a number for each word it has over 2,048 bytes";
    assert_eq!(run(&["search", "--quiet", EXAMPLE, &of_length(2_048)]), Ran::new("", "", 0));
    refused_as_a_whole(&of_length(2_049), says, 11);
    refused_as_a_whole(&format!("{CAM}{}", " ordered".repeat(300)), says, 11);
    // it comes before what is wrong at a place
    refused_as_a_whole(&format!("cam{}", " ".repeat(3_000)), says, 11);
}

#[test]
fn searches_of_over_64_codes() {
    // a word and its phrase are two
    let of_codes = |codes: usize| format!("{CAM}{}", " ordered".repeat(codes - 2));
    let says =
        "the search is too long: words, phrases, 'occurs', operators and filters, each counted, are more than 64";
    assert_eq!(run(&["search", "--quiet", EXAMPLE, &of_codes(64)]), Ran::new("", "", 0));
    refused_as_a_whole(&of_codes(65), says, 3);
    refused_as_a_whole(&of_codes(200), says, 3);
    let with_occurs = |filters: usize| format!("{CAM} occurs at least 1 times{}", " ordered".repeat(filters));
    assert_eq!(run(&["search", "--quiet", EXAMPLE, &with_occurs(61)]), Ran::new("", "", 0));
    refused_as_a_whole(&with_occurs(62), says, 3);
}

// Lists that get too long

/// A section with a word seven times.
fn seven() -> &'static str {
    file("seven.md", "# Größe\n\nw w w w w w w\n")
}

/// The only section can't be answered: at this code, over the caret, its list gets too long.
fn too_many(place: i64, search: &str, caret: &str) {
    too_many_of("matches", place, search, caret);
}

fn too_many_of(what: &str, place: i64, search: &str, caret: &str) {
    let says = &*format!("too many {what}: over 256, or over 512 finds in them");
    let wanted = format!(
        "Section 1, line 1: Größe\n  Neither yes nor no is known: {says} (refusal 9)\n    {search}\n    {caret}\n\n\
         0 of 1 section says yes, 1 can't be answered.\n"
    );
    assert_eq!(run(&["search", seven(), search]), Ran::new(&wanted, "", 2), "{search}");
    assert_eq!(run(&["search", "--all", seven(), search]), Ran::new(&wanted, "", 2), "{search}");
    assert_eq!(run(&["search", "--quiet", seven(), search]), Ran::new("", "", 2), "{search}");
    let ran = run(&["search", "--json", seven(), search]);
    assert_eq!((ran.err.as_str(), ran.status), ("", 2), "{search}");
    let object = json::read(ran.out()).unwrap();
    let section = &object.get("sections").list()[0];
    assert_eq!(section.get("answer").text(), "refused");
    let refusal = section.get("refused");
    assert_eq!((refusal.get("number").number(), refusal.get("says").text()), (9, says), "{search}");
    assert_eq!(refusal.get("place").number(), place, "{search}");
    assert_eq!((refusal.get("from_byte").number(), refusal.get("to_byte").number()), over(search, caret), "{search}");
}

/// The place counts every word, phrase, operator and filter up to the code whose list is too long.
#[test]
fn too_many_matches_under_a_filter() {
    // 7 × 7 × 7 matches; the same to the right of the first; 7 × 60 windows; one of two strings of each of 49 matches
    let blocks = r#"
8
  "w" ftand "w" ftand "w" same sentence
                ^~~~~

10
  "größe" ftand ("w" ftand ("w" ftand "w") same sentence ordered)
                     ^~~~~

6
  "größe" ftand ("w" ordered window 60 words at end)
                             ^~~~~~~~~~~~~~~

6
  ftnot ("w" ftand "w") same paragraph
  ^~~~~
"#;
    for block in blocks.trim().split("\n\n") {
        let [place, search, caret] = three_lines(block);
        too_many(place.parse().unwrap(), search, caret);
    }
    // 49 matches six times
    let search = [r#""w" ftand "w""#; 6].join(" ftor ") + " ordered";
    let caret = " ".repeat(search.rfind("ftor").unwrap()) + "^~~~";
    too_many(35, &search, &caret);
    assert_eq!(run(&["search", "--quiet", seven(), r#""w" ftand "w" same sentence"#]), Ran::new("", "", 0));
}

/// Also where the filter would drop them all, as it does with finds in a heading.
#[test]
fn too_many_matches_in_a_heading() {
    let name = file("seventeen.md", format!("# {}\n\nText.\n", ["w"; 17].join(" ")));
    let search = |search: &str| run(&["search", name, search]);
    assert_eq!(search(r#""w" same sentence"#), Ran::new("0 of 1 section says yes.\n", "", 1));
    let ran = search(r#""w" ftand "w" same sentence"#);
    assert_eq!((ran.err.as_str(), ran.status), ("", 2));
    let caret = "(refusal 9)\n    \"w\" ftand \"w\" same sentence\n        ^~~~~\n";
    assert!(ran.out().contains(caret), "{ran:?}");
}

/// Where the list of the last filter alone is too long, yes or no is known; a yes can't be listed.
#[test]
fn too_many_matches_of_the_last_filter() {
    // 7 × 40 windows; seven finds, and each time the same seven excluded, one of which is always inside
    let (yes, no) = (r#""w" window 40 words"#, r#""w" ftand ftnot "w" window 40 words"#);
    let wanted = format!(
        "Section 1, line 1: Größe\n  Yes, but its matches can't be listed: too many matches: over 256, or over 512 finds in them \
         (refusal 9)\n    {yes}\n        ^~~~~~~~~~~~~~~\n\n1 of 1 section says yes.\n"
    );
    assert_eq!(run(&["search", seven(), yes]), Ran::new(&wanted, "", 0));
    assert_eq!(run(&["search", seven(), no]), Ran::new("0 of 1 section says yes.\n", "", 1));
    let turned = r#"ftnot ("w" window 40 words)"#;
    assert_eq!(run(&["search", seven(), turned]), Ran::new("0 of 1 section says yes.\n", "", 1));
}

/// It says among how many finds there are too many choices, so that one can see what the answer would be.
#[test]
fn too_many_choices_of_finds() {
    let blocks = r#"
3
  "w" occurs exactly 1 times
      ^~~~~~~~~~~~~~~~~~~~~~

5
  "größe" ftand "w"occurs from 0 to 5 times same sentence
                   ^~~~~~~~~~~~~~~~~~~~~~~~

6
  "w" occurs at least 1 times ftand ftnot "w" occurs at most 3 times
                                              ^~~~~~~~~~~~~~~~~~~~~~
"#;
    for block in blocks.trim().split("\n\n") {
        let [place, search, caret] = three_lines(block);
        too_many_of("choices among 7 finds", place.parse().unwrap(), search, caret);
    }
    // a list over an occurs, and a phrase under one, are lists like others
    too_many(
        4,
        r#""w" occurs at least 6 times window 40 words ordered"#,
        "                            ^~~~~~~~~~~~~~~",
    );
    let many = file("w.md", vec!["w"; 257].join(" "));
    let ran = run(&["search", many, r#""w" occurs at least 300 times"#]);
    assert!(ran.out().contains(": too many matches: over 256, or over 512 finds in them (refusal 9)\n"), "{ran:?}");
    assert_eq!(ran.status, 2);
}

// JSON

/// What `--json` prints for a refused search, wholly.
fn prints(search: &str, refused: &str) {
    let ran = run(&["search", "--json", EXAMPLE, search]);
    let wanted = format!(r#"{{"search": "{}", "refused": {refused}}}"#, search.replace('"', "\\\""));
    assert_eq!(json::read(ran.out()), Ok(json::read(&wanted).unwrap()), "{search}");
    assert_eq!((ran.err.as_str(), ran.status), ("", 2), "{search}");
}

#[test]
fn a_refusal_in_json_has_the_engines_place_and_the_bytes_of_the_search() {
    // "hällmann" has eleven bytes; its number is 352, so to the engine it has five
    prints(
        r#""hällmann" or "cam""#,
        r#"{"number": 10, "place": 7,
            "says": "'or' is no word of the search language; is it 'ftor'?",
            "from_byte": 12, "to_byte": 14}"#,
    );
    prints(
        r#""hällmann" ftand"#,
        r#"{"number": 10, "place": 12, "says": "the search can't end here", "from_byte": 17, "to_byte": 17}"#,
    );
    // the place of a code counts codes: a word, its phrase, 'ftnot', a word, its phrase, 'not in'
    prints(
        r#"ftnot "hällmann" not in "cam""#,
        r#"{"number": 7, "place": 6,
            "says": "an 'ftnot', or an 'occurs' other than 'at least', can't stand on either side of 'not in'",
            "from_byte": 18, "to_byte": 24}"#,
    );
    prints(
        r#""cam" window 4097 words"#,
        r#"{"number": 11, "place": 14, "says": "a number here is at most 4,096", "from_byte": 13, "to_byte": 17}"#,
    );
}

// Words that the manual doesn't have

#[test]
fn words_that_the_manual_does_not_have_are_said() {
    let says = |word: &str| format!("manual: the manual does not have the word '{word}'\n");
    let none = "0 of 43 sections say yes.\n";
    let search = |search: &str| run(&["search", EXAMPLE, search]);
    assert_eq!(search(r#""camshaft""#), Ran::new(none, &says("camshaft"), 1));
    assert_eq!(search(r#""cam" ftand "Camshaft""#), Ran::new(none, &says("Camshaft"), 1));
    // each once, in the order of the search
    let three = [says("über"), says("camshaft"), says("piston")].concat();
    assert_eq!(search(r#""über camshaft" ftor "piston" ftor "camshaft""#), Ran::new(none, &three, 1));
    // with a word of the manual that differs in one letter
    let near = |word: &str, near: &str| says(word).replace("\n", &format!("; is it '{near}'?\n"));
    for (word, meant) in [("Neddle", "needle"), ("carriag", "carriage"), ("coverr", "cover"), ("spxing", "spring")] {
        assert_eq!(search(&format!("\"{word}\"")), Ran::new(none, &near(word, meant), 1));
    }
    // short words and numbers are near to too many
    for word in ["oli", "60419", "E13"] {
        assert_eq!(search(&format!("\"{word}\"")), Ran::new(none, &says(word), 1));
    }
    // a yes may not need them
    let found = search(r#""gloves" ftand ftnot "camshaft""#);
    assert_eq!((found.err, found.status), (says("camshaft"), 0));
    assert_eq!(run(&["search", "--quiet", EXAMPLE, r#""camshaft""#]), Ran::new("", "", 1));
}

/// A refused search is refused alone.
#[test]
fn words_that_are_missing_are_not_said_of_a_refused_search() {
    let says = "'or' is no word of the search language; is it 'ftor'?";
    refused(r#""camshaft" or "piston""#, says, 10, "           ^~");
}

#[test]
fn encode_says_which_words_the_manual_does_not_have() {
    let ran = run(&["encode", EXAMPLE, "34", r#""camshaft" ftor "cam""#]);
    assert_eq!((ran.err.as_str(), ran.status), ("manual: the manual does not have the word 'camshaft'\n", 0));
}

// What a technician has to be told

/// A shell takes double quotes away that no single quotes enclose: `manual search FILE "cam" ftand "bolt"`.
#[test]
fn single_quotes_are_named_where_the_shell_has_taken_the_double_quotes() {
    for search in [&["cam"][..], &["cam", "ftand", "bolt"], &["needle bed"]] {
        let ran = run(&[&["search", EXAMPLE], search].concat());
        assert_eq!((ran.out(), ran.status), ("", 2), "{search:?}");
        assert!(ran.err.contains("single quotes") || ran.err.contains("'\""), "{ran:?}");
    }
}

/// Somebody who filters two words and then adds a third has to put parentheses around the first two.
#[test]
fn parentheses_are_named_where_they_are_missing() {
    all_refused(
        r#"
after a filter only another one can stand, unless parentheses enclose the search with its filter (refusal 10)
  "cam" same sentence ftand "cover"
                      ^~~~~

after a filter only another one can stand, unless parentheses enclose the search with its filter (refusal 10)
  "cam" window 6 words not in "cover"
                       ^~~

after a filter only another one can stand, unless parentheses enclose the search with its filter (refusal 10)
  "cam" ordered "cover"
                ^

a parenthesis isn't closed (refusal 10)
  ("cam" ftand "cover"
                      ^

a parenthesis isn't closed (refusal 10)
  (("cam") same sentence
                        ^
"#,
    );
}

/// Quotes around it would be wrong too.
#[test]
fn a_number_is_named_where_one_is_missing() {
    all_refused(
        r#"
a number has to stand here (refusal 10)
  "cam" window six words
               ^~~

a number has to stand here (refusal 10)
  "cam" window "6" words
               ^

a number has to stand here (refusal 10)
  "cam" distance from 2 to words
                           ^~~~~

a number has to stand here (refusal 10)
  "cam" distance at most
                        ^
"#,
    );
}

#[test]
fn a_word_is_named_where_one_is_missing() {
    all_refused(
        r#"
'to' has to stand here (refusal 10)
  "cam" distance from 3 words
                        ^~~~~

'least' or 'most' has to stand here (refusal 10)
  "cam" distance at 3 words
                    ^

'start' or 'end' has to stand here (refusal 10)
  "cam" at
          ^

'content' has to stand here (refusal 10)
  "cam" entire section
               ^~~~~~~

'sentence' or 'paragraph' has to stand here (refusal 10)
  "cam" different words
                  ^~~~~

'in' (or, for 'and not', 'ftand ftnot' instead of 'not') has to stand here (refusal 10)
  "cam" not "cover"
            ^

a number has to stand here (refusal 10)
  "cam" distance exactly words
                         ^~~~~

a number has to stand here (refusal 10)
  "cam" distance at least "3" words
                          ^
"#,
    );
}

#[test]
fn the_words_of_an_occurs_are_named_where_they_are_missing() {
    all_refused(
        r#"
'exactly', 'at least', 'at most' or 'from' has to stand here (refusal 10)
  "cam" occurs
              ^

'exactly', 'at least', 'at most' or 'from' has to stand here (refusal 10)
  "cam" occurs 3 times
               ^

'least' or 'most' has to stand here (refusal 10)
  "cam" occurs at 3 times
                  ^

a number has to stand here (refusal 10)
  "cam" occurs at least three times
                        ^~~~~

a number has to stand here (refusal 10)
  "cam" occurs from 2 to times
                         ^~~~~

'to' has to stand here (refusal 10)
  "cam" occurs from 2 times
                      ^~~~~

'times' has to stand here (refusal 10)
  ("cam" occurs at least 3)
                          ^

'times' has to stand here (refusal 10)
  "cam" occurs from 1 to 3 words
                           ^~~~~

'times' has to stand here (refusal 10)
  "window" occurs exactly 1 time
                            ^~~~

'words' has to stand here (refusal 10)
  "cam" occurs exactly 1 times distance at most 3 times
                                                  ^~~~~

'words' has to stand here (refusal 10)
  "occurs" window 3 times
                    ^~~~~
"#,
    );
}

#[test]
fn an_occurs_that_is_missing() {
    let says = "'occurs' has to stand between a phrase and its number of times";
    for (search, caret) in [
        (r#""cam" at least 3 times"#, "         ^~~~~"),
        (r#""cam" exactly 3 times ftor "cover""#, "      ^~~~~~~"),
        (r#"("cam" from 2 to 3 times)"#, "       ^~~~"),
        (r#""cam" 3 times"#, "      ^"),
        (r#""cam" 1 time"#, "      ^"),
        (r#""cam" times"#, "      ^~~~~"),
    ] {
        refused(search, says, 10, caret);
    }
}

#[test]
fn an_occurs_at_a_wrong_place() {
    let says = "'occurs' counts the finds of one phrase, and stands directly after its quote";
    for (search, caret) in [
        (r#"("cam" ftor "cams") occurs at least 3 times"#, "                    ^~~~~~"),
        (r#"("cam") occurs at least 3 times"#, "        ^~~~~~"),
        (r#""cam" same sentence occurs at least 3 times"#, "                    ^~~~~~"),
        (r#"occurs at least 3 times "cam""#, "^~~~~~"),
        (r#""cam" ftand occurs at least 3 times"#, "            ^~~~~~"),
        (r#""cam" and occurs at least 3 times"#, "      ^~~"),
    ] {
        refused(search, says, 10, caret);
    }
    all_refused(
        r#"
a phrase has one 'occurs'; for two numbers there is 'from .. to' (refusal 10)
  "cam" occurs at least 2 times occurs at most 3 times
                                ^~~~~~

'occur' is no word of the search language; is it 'occurs'? (refusal 10)
  "cam" occur at least 3 times
        ^~~~~

'occures' is no word of the search language; is it 'occurs'? (refusal 10)
  "cam" occures at least 3 times
        ^~~~~~~

outside quotes all letters are small (refusal 10)
  "cam" Occurs at least 3 times
        ^

'times' can't stand here (refusal 10)
  "cam" ordered times
                ^~~~~
"#,
    );
}

/// After its last word stands what stands after a phrase.
#[test]
fn after_an_occurs() {
    all_refused(
        r#"
'ftand', 'ftor' or 'not in' has to join two searches (refusal 10)
  "cam" occurs at least 2 times "cover"
                                ^

'ftand ftnot' has to join two searches (refusal 10)
  "cam" occurs at least 2 times ftnot "cover"
                                ^~~~~

'ftnot in' can't stand here; is it 'not in'? (refusal 10)
  "cam" occurs at least 2 times ftnot in "cover"
                                ^~~~~

',' can't stand here; 'ftand', 'ftor' or 'not in' joins two searches, and a filter follows as it is (refusal 10)
  "cam" occurs at least 2 times, ordered
                               ^

'times' can't stand here (refusal 10)
  "cam" occurs at least 2 times times
                                ^~~~~

a parenthesis isn't closed (refusal 10)
  ("cam" occurs at least 2 times
                                ^
"#,
    );
}

#[test]
fn what_may_be_meant_is_named() {
    all_refused(
        r#"
'not' can't stand here; is it 'ftnot'? (refusal 10)
  "cam" ftand not "cover"
              ^~~

'windwo' is no word of the search language; is it 'window'? (refusal 10)
  "cam" windwo 6 words
        ^~~~~~

'Cover' is no word of the search language; words to look for stand in double quotes (refusal 10)
  "cam" ftand Cover
              ^

outside quotes all letters are small (refusal 10)
  "cam" ORDERED
        ^

'Öl' is no word of the search language; words to look for stand in double quotes (refusal 10)
  "cam" ftand Öl
              ^

the quotes around a phrase are " (refusal 10)
  "cam" ftand «cover»
              ^

'within' is no word of the search language; is it 'window'? (refusal 10)
  "cam" within 6 words
        ^~~~~~

a filter follows as it is, without 'and' (refusal 10)
  "cam" ftand "cover" and same sentence
                      ^~~

a filter follows as it is, without 'ftand' (refusal 10)
  "cam" ftand "cover" ftand same sentence
                            ^~~~

'ftnot in' can't stand here; is it 'not in'? (refusal 10)
  "cam" ftnot in "cover"
        ^~~~~

'notin' is no word of the search language; is it 'not in'? (refusal 10)
  "cam" notin "cover"
        ^~~~~

'ft' is no word of the search language; is it 'ftand'? (refusal 10)
  "cam" ft and "cover"
        ^~

'order' is no word of the search language; is it 'ordered'? (refusal 10)
  "cam" ftand "cover" order
                      ^~~~~

a quote is missing, here or before (refusal 10)
  "cam ftand "cover"
              ^~~~~

'and' is no word of the search language; is it 'ftand'? (refusal 10)
  "cam"and "cover"
       ^~~
"#,
    );
}

#[test]
fn an_empty_search_is_called_so() {
    for search in ["", "   "] {
        refused(search, "the search is empty", 10, &format!("{search}^"));
    }
}

// Output that can't be written

#[test]
fn a_full_disk_is_an_error_of_every_command() {
    for arguments in [
        &["search", EXAMPLE, CAM][..],
        &["search", "--json", EXAMPLE, CAM],
        &["words", EXAMPLE],
        &["--help"],
        &["encode", EXAMPLE, "34"],
        &["encode", EXAMPLE, "34", CAM],
    ] {
        let full = File::options().write(true).open("/dev/full").expect("/dev/full");
        let output = tool(arguments).stdout(full).output().expect("the tool starts");
        let said = String::from_utf8(output.stderr).unwrap();
        assert_eq!(output.status.code(), Some(2), "{arguments:?}: {said}");
        assert_eq!(said, "manual: No space left on device (os error 28)\n", "{arguments:?}");
    }
}
