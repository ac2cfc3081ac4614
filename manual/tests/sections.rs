//! How a text becomes sections of words, and a search the engine's numbers and codes.

use manual::codes::{codes, phrases, Code, Occurs};
use manual::document::{Manual, Section, Token};
use manual::engine::Engine;
use manual::search::Search;
use manual::tokens::{folded, tokens};
use manual::words::{Words, UNKNOWN};
use second_engine::typed;

fn manual(text: &str) -> Manual {
    Manual::new(text.to_string())
}

/// Paragraph and sentence of a word.
fn place(token: &Token) -> (usize, usize) {
    (token.paragraph, token.sentence)
}

/// A section as `LINE HEADING: WORDS/PARAGRAPH.SENTENCE WORDS/PARAGRAPH.SENTENCE`; `-` if it has no heading.
fn shown(manual: &Manual, section: &Section) -> String {
    let mut text = format!("{} {}:", section.line, section.heading.as_deref().unwrap_or("-"));
    for sentence in section.tokens.chunk_by(|one, next| place(one) == place(next)) {
        for token in sentence {
            text += &format!(" {}", &manual.text()[token.bytes.clone()]);
        }
        let (paragraph, sentence) = place(&sentence[0]);
        text += &format!("/{paragraph}.{sentence}");
    }
    text
}

/// A manual's sections, with ` | ` between them.
fn sections(text: &str) -> String {
    let manual = manual(text);
    let sections: Vec<String> = manual.sections.iter().map(|section| shown(&manual, section)).collect();
    sections.join(" | ")
}

/// Each text becomes these sections.
fn hold(cases: &[(&str, &str)]) {
    for (text, expected) in cases {
        assert_eq!(sections(text), *expected, "{text:?}");
    }
}

// Headings

#[test]
fn one_to_six_signs_and_a_blank_begin_a_heading() {
    hold(&[
        ("# A\nb", "1 A: A/1.0 b/2.1"),
        ("## A\nb", "1 A: A/1.0 b/2.1"),
        ("### A\nb", "1 A: A/1.0 b/2.1"),
        ("###### A\nb", "1 A: A/1.0 b/2.1"),
        ("#\tA\nb", "1 A: A/1.0 b/2.1"),
        ("#    A   B  \nc", "1 A B: A B/1.0 c/2.1"),
        (" # A\nb", "1 A: A/1.0 b/2.1"),
        ("   # A\nb", "1 A: A/1.0 b/2.1"),
        ("# A", "1 A: A/1.0"),
        ("# A\r\nb\r\n", "1 A: A/1.0 b/2.1"),
        ("# 1. Ölwechsel (HV 220)\nb", "1 1. Ölwechsel (HV 220): 1 Ölwechsel HV 220/1.0 b/2.1"),
    ]);
}

#[test]
fn seven_signs_or_no_blank_or_code_begin_no_heading() {
    hold(&[
        ("####### A\nb", "1 -: A b/1.1"),
        ("#A\nb", "1 -: A b/1.1"),
        ("###A b\nc", "1 -: A b c/1.1"),
        ("a # B\nc", "1 -: a B c/1.1"),
        ("\\# A\nb", "1 -: A b/1.1"),
        ("    # A\nb", "1 -: A b/1.1"),
        ("     # A\nb", "1 -: A b/1.1"),
        ("\t# A\nb", "1 -: A b/1.1"),
        (" \t# A\nb", "1 -: A b/1.1"),
        ("    # A\n    # B\nc", "1 -: A B c/1.1"),
        ("a\n    # B\nc", "1 -: a B c/1.1"),
    ]);
}

#[test]
fn closing_signs_are_not_shown() {
    hold(&[
        ("# A #\nb", "1 A: A/1.0 b/2.1"),
        ("# A ##", "1 A: A/1.0"),
        ("## A #########", "1 A: A/1.0"),
        ("# A   #  \nb", "1 A: A/1.0 b/2.1"),
        ("# Using C#\nb", "1 Using C#: Using C/1.0 b/2.1"),
        ("# Using C# #", "1 Using C#: Using C/1.0"),
        ("# A # B", "1 A # B: A B/1.0"),
        ("# #1 wrench", "1 #1 wrench: 1 wrench/1.0"),
    ]);
}

#[test]
fn an_underlined_paragraph_is_a_heading() {
    hold(&[
        ("A\n=\nb", "1 A: A/1.0 b/2.1"),
        ("A\n-\nb", "1 A: A/1.0 b/2.1"),
        ("A b\n=======\nc", "1 A b: A b/1.0 c/2.1"),
        ("A b\n-------\nc", "1 A b: A b/1.0 c/2.1"),
        ("A\nB\n---\nc", "1 A B: A B/1.0 c/2.1"),
        ("A\n   ===\nb", "1 A: A/1.0 b/2.1"),
        ("A\n===  \nb", "1 A: A/1.0 b/2.1"),
        ("A\r\n===\r\nb", "1 A: A/1.0 b/2.1"),
        ("a.\n\nB\n===\nc", "1 -: a/1.1 | 3 B: B/1.0 c/2.1"),
        ("# A\nB\n---\nc", "1 A: A/1.0 | 2 B: B/1.0 c/2.1"),
        ("A\n===\nB\n---\nc", "1 A: A/1.0 | 3 B: B/1.0 c/2.1"),
    ]);
}

#[test]
fn other_lines_underline_nothing() {
    hold(&[
        ("===\nA", "2 -: A/1.1"),
        ("---\nA\n---\nb", "2 A: A/1.0 b/2.1"),
        ("A\n\n===\nb", "1 -: A/1.1 b/2.2"),
        ("# A\n===\nb", "1 A: A/1.0 b/2.1"),
        ("A\n=-=\nb", "1 -: A b/1.1"),
        ("A\n= =\nb", "1 -: A b/1.1"),
        ("A\n== b", "1 -: A b/1.1"),
        ("A\n    ===\nb", "1 -: A b/1.1"),
        ("A\n\t---\nb", "1 -: A b/1.1"),
    ]);
}

#[test]
fn nothing_between_fences_is_a_heading() {
    hold(&[
        ("```\n# A\n```\n# B", "2 -: A/1.1 | 4 B: B/1.0"),
        ("~~~\n# A\n~~~\n# B", "2 -: A/1.1 | 4 B: B/1.0"),
        ("~~~~~\n# A\n~~~~~\n# B", "2 -: A/1.1 | 4 B: B/1.0"),
        ("```sh\n# A\n\n# B\n```\nc", "2 -: A/1.1 B/2.2 c/3.3"),
        ("```\nA\n===\n```\nb", "2 -: A/1.1 b/2.2"),
        ("~~~\nA\n---\n~~~\nb", "2 -: A/1.1 b/2.2"),
        ("  ```\n# A\n  ```\n# B", "2 -: A/1.1 | 4 B: B/1.0"),
        ("# A\n```\n# B\n```\n```\n# C\n```\n# D", "1 A: A/1.0 B/2.1 C/3.2 | 8 D: D/1.0"),
        ("a\n```\n# B\n\nC\n---", "1 -: a/1.1 B/2.2 C/3.3"),
        ("    ```\n# A", "2 A: A/1.0"),
        ("a ```\n# B", "1 -: a/1.1 | 2 B: B/1.0"),
        ("``a``\n# B", "1 -: a/1.1 | 2 B: B/1.0"),
    ]);
}

#[test]
fn a_fence_ends_at_one_of_its_own_sign_and_length() {
    hold(&[
        ("```\n~~~\n# A\n```\n# B", "2 -: A/1.1 | 5 B: B/1.0"),
        ("~~~\n```\n# A\n~~~\n# B", "2 -: A/1.1 | 5 B: B/1.0"),
        ("````\n```\n# A\n```\n````\n# B", "2 -: A/1.1 | 6 B: B/1.0"),
        ("```\n# A\n`````\n# B", "2 -: A/1.1 | 4 B: B/1.0"),
        ("```\n```sh\n# A\n```\n# B", "2 -: sh A/1.1 | 5 B: B/1.0"),
        ("~~~\n~~\n# A\n~~~\n# B", "2 -: A/1.1 | 5 B: B/1.0"),
    ]);
}

#[test]
fn code_is_not_underlined() {
    hold(&[
        ("```\na\n```\n---\n\nb", "2 -: a/1.1 b/2.2"),
        ("~~~\na\n~~~\n===\n\nb", "2 -: a/1.1 b/2.2"),
        ("    a\n---\n\nb", "1 -: a/1.1 b/2.2"),
        ("\ta\n===\n\nb", "1 -: a/1.1 b/2.2"),
    ]);
}

#[test]
fn lists_and_quotations_are_not_underlined() {
    hold(&[
        ("# A\n\n- b\n- c\n---\nd", "1 A: A/1.0 b c/2.1 d/3.2"),
        ("* b\nc\n---", "1 -: b c/1.1"),
        ("+ b\n===", "1 -: b/1.1"),
        ("> b\n---\nc", "1 -: b/1.1 c/2.2"),
        ("- a\n\nB\n---", "1 -: a/1.1 | 3 B: B/1.0"),
        ("-a\n---", "1 -a: a/1.0"),
    ]);
}

#[test]
fn only_blanks_and_tabs_indent() {
    hold(&[
        ("\u{3000}\u{3000}a\nb", "1 -: a b/1.1"),
        ("\u{3000}\u{3000}# A\nb", "1 -: A b/1.1"),
        ("a\n\u{3000}\nb", "1 -: a/1.1 b/2.2"),
        ("    Lift the cover before you\ntouch.", "1 -: Lift the cover before you touch/1.1"),
    ]);
}

#[test]
fn a_heading_after_code_has_none_of_it() {
    hold(&[
        ("```\na\n```\n\nB\n---\nc", "2 -: a/1.1 | 5 B: B/1.0 c/2.1"),
        ("```\na\n```\nB\n---\nc", "2 -: a/1.1 | 4 B: B/1.0 c/2.1"),
        ("    a\nB\n===\nc", "1 -: a B/1.1 c/2.2"),
        ("A\n    b\n---\nc", "1 A b: A b/1.0 c/2.1"),
    ]);
}

#[test]
fn code_inside_a_line_opens_no_fence() {
    hold(&[
        ("```a``` b\n# C", "1 -: a b/1.1 | 2 C: C/1.0"),
        ("~~~ a`b\n# C\n~~~", "2 -: C/1.1"),
        ("````a```` b\n\nC\n---", "1 -: a b/1.1 | 3 C: C/1.0"),
    ]);
}

#[test]
fn a_headings_words_are_a_paragraph_of_its_section() {
    hold(&[
        ("# A b\nc", "1 A b: A b/1.0 c/2.1"),
        ("# A b\n\n\nc", "1 A b: A b/1.0 c/2.1"),
        ("# A. B!\nc", "1 A. B!: A B/1.0 c/2.1"),
        ("a\n# B\nc", "1 -: a/1.1 | 2 B: B/1.0 c/2.1"),
        ("# A\n# B\n## C\nd", "1 A: A/1.0 | 2 B: B/1.0 | 3 C: C/1.0 d/2.1"),
        ("# A\n\nb. c\n\n# D\n\ne. f", "1 A: A/1.0 b/2.1 c/2.2 | 5 D: D/1.0 e/2.1 f/2.2"),
        ("# ...\na", "1 ...: a/1.1"),
    ]);
}

#[test]
fn a_headings_words_stand_in_no_sentence() {
    hold(&[
        ("# A. B! C? d", "1 A. B! C? d: A B C d/1.0"),
        ("# Never oil. Clean it.\na. b", "1 Never oil. Clean it.: Never oil Clean it/1.0 a/2.1 b/2.2"),
        ("Never oil.\nClean it!\n---\na. b", "1 Never oil. Clean it!: Never oil Clean it/1.0 a/2.1 b/2.2"),
        ("A. B\n===\n\nc.\n\nd. e", "1 A. B: A B/1.0 c/2.1 d/3.2 e/3.3"),
        ("# A.\n# B.\nc", "1 A.: A/1.0 | 2 B.: B/1.0 c/2.1"),
        ("a. b\n# C. D\ne. f", "1 -: a/1.1 b/1.2 | 2 C. D: C D/1.0 e/2.1 f/2.2"),
    ]);
}

#[test]
fn a_heading_without_words_leaves_the_numbers_to_the_text() {
    hold(&[
        ("#\na. b\n\nc", "1 -: a/1.1 b/1.2 c/2.3"),
        ("## ##\na. b", "1 -: a/1.1 b/1.2"),
        ("# ...\na. b", "1 ...: a/1.1 b/1.2"),
        ("...\n---\na. b", "1 ...: a/1.1 b/1.2"),
        ("# A\n#\nb", "1 A: A/1.0 | 2 -: b/1.1"),
        ("# A\n#\n# B", "1 A: A/1.0 | 3 B: B/1.0"),
    ]);
}

#[test]
fn text_before_the_first_heading_is_a_section() {
    hold(&[
        ("a\n\nb\n\n# C\nd", "1 -: a/1.1 b/2.2 | 5 C: C/1.0 d/2.1"),
        ("\n\na\n# B", "3 -: a/1.1 | 4 B: B/1.0"),
        ("a b", "1 -: a b/1.1"),
        ("\n \n# A", "3 A: A/1.0"),
        ("...\n# A", "2 A: A/1.0"),
        ("", ""),
        ("\n \t\r\n\n", ""),
    ]);
    assert_eq!(manual("a").sections[0].name(), "(no heading)");
    assert_eq!(manual("# A").sections[0].name(), "A");
}

// Paragraphs and sentences

#[test]
fn blank_lines_part_paragraphs() {
    hold(&[
        ("a\nb", "1 -: a b/1.1"),
        ("a\n\nb", "1 -: a/1.1 b/2.2"),
        ("a\n\n\n\nb", "1 -: a/1.1 b/2.2"),
        ("a\n  \nb", "1 -: a/1.1 b/2.2"),
        ("a\n \t \nb", "1 -: a/1.1 b/2.2"),
        ("a\r\nb\r\n\r\nc", "1 -: a b/1.1 c/2.2"),
        ("a\r\n  \r\nb", "1 -: a/1.1 b/2.2"),
        ("a\n\n  b\n    c", "1 -: a/1.1 b c/2.2"),
        ("a\n\n* * *\n\nb", "1 -: a/1.1 b/2.2"),
        ("# A\n\nb\n\nc\n\nd", "1 A: A/1.0 b/2.1 c/3.2 d/4.3"),
    ]);
}

#[test]
fn a_sentence_ends_at_its_sign_before_a_blank_or_a_lines_end() {
    hold(&[
        ("a. b", "1 -: a/1.1 b/1.2"),
        ("a! b? c.", "1 -: a/1.1 b/1.2 c/1.3"),
        ("a.\nb", "1 -: a/1.1 b/1.2"),
        ("a.\r\nb", "1 -: a/1.1 b/1.2"),
        ("a.\tb", "1 -: a/1.1 b/1.2"),
        ("a . b", "1 -: a/1.1 b/1.2"),
        ("3.5 bar", "1 -: 3 5 bar/1.1"),
        ("a.b", "1 -: a b/1.1"),
        ("(a.) b", "1 -: a b/1.1"),
        ("\"a.\" b", "1 -: a b/1.1"),
        ("a: b; c, d", "1 -: a b c d/1.1"),
        ("approx. 5", "1 -: approx/1.1 5/1.2"),
    ]);
}

#[test]
fn several_signs_end_one_sentence() {
    hold(&[
        ("a... b", "1 -: a/1.1 b/1.2"),
        ("a?! b", "1 -: a/1.1 b/1.2"),
        ("a!!!\nb", "1 -: a/1.1 b/1.2"),
        ("a...b", "1 -: a b/1.1"),
    ]);
}

#[test]
fn a_sentence_runs_over_line_ends_and_ends_with_its_paragraph() {
    hold(&[
        ("a\nb\nc. d\ne", "1 -: a b c/1.1 d e/1.2"),
        ("a\r\nb. c", "1 -: a b/1.1 c/1.2"),
        ("a\n\nb", "1 -: a/1.1 b/2.2"),
        ("a\n# B\nc", "1 -: a/1.1 | 2 B: B/1.0 c/2.1"),
        ("- a\n- b\n- c", "1 -: a b c/1.1"),
    ]);
}

#[test]
fn only_sentences_with_words_have_a_number() {
    hold(&[
        ("a. ... b", "1 -: a/1.1 b/1.2"),
        ("... a", "1 -: a/1.1"),
        ("! ? a. ! b. ?", "1 -: a/1.1 b/1.2"),
        ("a.\n\n. . .\n\nb", "1 -: a/1.1 b/2.2"),
    ]);
}

#[test]
fn numbers_of_sentences_run_on_over_paragraphs() {
    hold(&[
        ("a. b.\n\nc. d.\n\ne", "1 -: a/1.1 b/1.2 c/2.3 d/2.4 e/3.5"),
        ("# A\nb. c\n\nd", "1 A: A/1.0 b/2.1 c/2.2 d/3.3"),
    ]);
}

/// The heading of the first section, and the text of each of its sentences.
fn sentences(text: &str) -> Vec<String> {
    let manual = manual(text);
    let section = &manual.sections[0];
    let last = section.tokens.last().map_or(0, |token| token.sentence);
    (0..=last).map(|number| manual.text()[section.sentence(number)].to_string()).collect()
}

#[test]
fn a_sentence_has_its_signs_and_no_blanks_around_it() {
    assert_eq!(
        sentences("# Oil it!\n  Clean (3.5 bar)  .\n\n \"Stop\" at\nE12."),
        ["Oil it!", "Clean (3.5 bar)  .", "\"Stop\" at\nE12."]
    );
    assert_eq!(sentences("a... b?! . c"), ["", "a...", "b?!", "c"]);
    assert_eq!(sentences("# A #\r\nb. \r\nc\r\n"), ["A", "b.", "c"]);
}

#[test]
fn a_heading_is_whole() {
    assert_eq!(sentences("##  (Never oil.)  Clean it!  ##\na. b"), ["(Never oil.)  Clean it!", "a.", "b"]);
    assert_eq!(sentences("Never oil.\nClean it!\n===\na"), ["Never oil.\nClean it!", "a"]);
    assert_eq!(sentences("# Never oil. Clean it."), ["Never oil. Clean it."]);
    assert_eq!(sentences("# ... \na"), ["...", "a"]);
    assert_eq!(sentences("#\na"), ["", "a"]);
}

#[test]
fn lines_are_counted_from_one() {
    let manual = manual("a\nb c\r\n\r\n# D\ne\n");
    let lines = |section: &Section| section.tokens.iter().map(|token| manual.line(token.bytes.start)).collect();
    let lines: Vec<Vec<usize>> = manual.sections.iter().map(lines).collect();
    assert_eq!(lines, [vec![1, 2, 2], vec![4, 5]]);
    assert_eq!(manual.sections[1].line, 4);
}

// Words

/// The words of a text, with a blank between them.
fn words(text: &str) -> String {
    tokens(text).into_iter().map(|word| &text[word]).collect::<Vec<_>>().join(" ")
}

#[test]
fn words_are_runs_of_letters_and_digits() {
    let cases = [
        ("", ""),
        (" \n\t", ""),
        ("... -- !?", ""),
        ("oil", "oil"),
        (" oil, grease;dust", "oil grease dust"),
        ("E12 12V D410a 007", "E12 12V D410a 007"),
        ("3.5 1,000", "3 5 1 000"),
        ("don't", "don t"),
        ("don\u{2019}t", "don t"),
        ("take-down", "take down"),
        ("file_name", "file name"),
        ("Hällmann Oberlühn Dubréau naïve", "Hällmann Oberlühn Dubréau naïve"),
        ("Größe ÅNGSTRÖM", "Größe ÅNGSTRÖM"),
        ("Ελλάς, Ωμ", "Ελλάς Ωμ"),
        ("масло 油", "масло 油"),
        ("oil🙂grease", "oil grease"),
        ("`oil` *oil* [oil](oil)", "oil oil oil oil"),
    ];
    for (text, expected) in cases {
        assert_eq!(words(text), expected, "{text:?}");
    }
    assert_eq!(tokens("ä-bc é1"), [0..2, 3..5, 6..9]);
    // accents that are characters of their own belong to their letter; without one they are no words
    assert_eq!(tokens("U\u{308}bero\u{308}l \u{308} - \u{301}a"), [0..10, 18..19]);
}

/// Some texts have an accent as a character of its own, after its letter.
#[test]
fn how_an_accent_is_written_does_not_matter() {
    for (one, other) in [
        ("U\u{308}bero\u{308}l", "überöl"),
        ("DUBRE\u{301}AU", "Dubréau"),
        ("a\u{30A}ngstro\u{308}m", "ÅNGSTRÖM"),
        ("garc\u{327}on", "garçon"),
        ("Dvor\u{30C}a\u{301}k", "DVOŘÁK"),
        ("И\u{306}од", "йод"),
        ("ΛΑ\u{301}ΔΙ", "λάδι"),
        ("ι\u{308}\u{301}", "ΐ"),
        ("q\u{308}", "Q\u{308}"),
    ] {
        assert_eq!(folded(one), folded(other), "{one} {other}");
    }
    for (one, other) in [("o\u{308}l", "ol"), ("o\u{308}l", "ól"), ("q\u{308}", "q")] {
        assert_ne!(folded(one), folded(other), "{one} {other}");
    }
}

#[test]
fn case_does_not_matter() {
    let alike = [
        ("Cam", "cAM"),
        ("ÄPFEL", "äpfel"),
        ("Straße", "STRASSE"),
        ("ÉTÉ", "été"),
        ("ΟΔΟΣ", "οδος"),
        ("οδος", "οδοσ"),
        ("МАСЛО", "масло"),
        ("e12", "E12"),
    ];
    for (one, other) in alike {
        assert_eq!(folded(one), folded(other), "{one} {other}");
    }
    for (one, other) in [("bar", "bär"), ("ete", "été"), ("cam", "cams"), ("o", "0")] {
        assert_ne!(folded(one), folded(other), "{one} {other}");
    }
}

#[test]
fn no_letter_differs_from_its_large_or_small_form() {
    let differs = |c: &char| {
        let forms = [c.to_string(), c.to_uppercase().collect(), c.to_lowercase().collect()];
        forms.iter().any(|form| folded(form) != folded(&forms[0]))
    };
    let wrong: Vec<char> = ('\0'..=char::MAX).filter(|c| c.is_alphabetic()).filter(differs).collect();
    assert_eq!(wrong, []);
}

#[test]
fn words_are_numbered_in_the_order_of_their_letters() {
    let words = Words::of(&manual("# Oil cam\nB2 äpfel CAM 10\n\n```\nzinc\n```\n2 (oil)"));
    let numbered: Vec<(u32, &str)> = words.numbered().collect();
    let expected = [(1, "10"), (2, "2"), (3, "b2"), (4, "cam"), (5, "oil"), (6, "zinc"), (7, "äpfel")];
    assert_eq!(numbered, expected);
    for (number, word) in expected {
        assert_eq!(words.number(word), number, "{word}");
        assert_eq!(words.number(&word.to_uppercase()), number, "{word}");
    }
    for word in ["cams", "ca", "1", "", "zzz"] {
        assert_eq!(words.number(word), UNKNOWN, "{word}");
    }
}

#[test]
fn a_section_in_numbers_is_its_size_its_words_and_their_places() {
    let manual = manual("# B a\nc. A\n\nb\n# ...\n# C");
    let words = Words::of(&manual);
    let numbers = |index: usize| manual.numbers(&manual.sections[index], &words);
    let at = |paragraph: u32, sentence: u32| paragraph * 65_536 + sentence;
    assert_eq!(numbers(0), [5, 2, 1, 3, 1, 2, at(1, 0), at(1, 0), at(2, 1), at(2, 2), at(3, 3)]);
    assert_eq!(numbers(1), [0]);
    assert_eq!(numbers(2), [1, 3, at(1, 0)]);
}

// Sections of over 4,096 words

/// A text of paragraphs, given by the count of words of each sentence.
fn long(paragraphs: &[&[usize]]) -> String {
    let sentence = |&words: &usize| format!("{}.", vec!["w"; words].join(" "));
    let paragraph = |sizes: &&[usize]| sizes.iter().map(sentence).collect::<Vec<_>>().join(" ");
    paragraphs.iter().map(paragraph).collect::<Vec<_>>().join("\n\n")
}

/// The parts of a manual's sections as `NUMBER/COUNT SIZE FIRST-LAST`, first and last place as PARAGRAPH.SENTENCE; with
/// `+` if a part begins inside a paragraph.
fn parts(text: &str) -> String {
    let part = |section: &Section| {
        let (first, last) = (place(&section.tokens[0]), place(&section.tokens[section.tokens.len() - 1]));
        let inside = if section.part.is_inside { "+" } else { "" };
        let (number, count, size) = (section.part.number, section.part.count, section.tokens.len());
        format!("{inside}{number}/{count} {size} {}.{}-{}.{}", first.0, first.1, last.0, last.1)
    };
    manual(text).sections.iter().map(part).collect::<Vec<_>>().join(" | ")
}

/// Sections of these paragraphs have these parts.
fn split(cases: &[(&[&[usize]], &str)]) {
    for (paragraphs, expected) in cases {
        assert_eq!(parts(&long(paragraphs)), *expected, "{paragraphs:?}");
    }
}

#[test]
fn a_section_of_4096_words_is_not_split() {
    split(&[(&[&[4096]], "1/1 4096 1.1-1.1"), (&[&[1000, 2000], &[1000], &[96]], "1/1 4096 1.1-3.4")]);
    assert_eq!(parts(&format!("# H\n{}", long(&[&[4095]]))), "1/1 4096 1.0-2.1");
}

#[test]
fn a_longer_section_is_split_where_the_last_paragraph_ends_in_time() {
    split(&[
        (&[&[4096], &[1]], "1/2 4096 1.1-1.1 | 2/2 1 1.1-1.1"),
        (&[&[3000], &[3000]], "1/2 3000 1.1-1.1 | 2/2 3000 1.1-1.1"),
        (&[&[2000], &[2000], &[2000]], "1/2 4000 1.1-2.2 | 2/2 2000 1.1-1.1"),
        (&[&[2000, 500], &[1500, 96], &[1000], &[5]], "1/2 4096 1.1-2.4 | 2/2 1005 1.1-2.2"),
        (&[&[1], &[4095, 1], &[1]], "1/3 1 1.1-1.1 | 2/3 4096 1.1-1.2 | 3/3 1 1.1-1.1"),
        (&[&[4000], &[4000, 50], &[3000]], "1/3 4000 1.1-1.1 | 2/3 4050 1.1-1.2 | 3/3 3000 1.1-1.1"),
        (&[&[4000], &[50, 5000], &[7]], "1/3 4096 1.1-2.3 | +2/3 4096 1.1-1.1 | +3/3 865 1.1-2.2"),
    ]);
}

#[test]
fn too_long_a_paragraph_is_split_where_the_last_sentence_ends_in_time() {
    split(&[
        (&[&[4096, 1]], "1/2 4096 1.1-1.1 | +2/2 1 1.1-1.1"),
        (&[&[3000, 3000]], "1/2 3000 1.1-1.1 | +2/2 3000 1.1-1.1"),
        (&[&[1000, 3000, 1000, 5], &[7]], "1/2 4000 1.1-1.2 | +2/2 1012 1.1-2.3"),
        (&[&[100], &[3000, 1096]], "1/2 100 1.1-1.1 | 2/2 4096 1.1-1.2"),
        (&[&[100], &[3000, 1097]], "1/2 3100 1.1-2.2 | +2/2 1097 1.1-1.1"),
        (&[&[100], &[2000, 3000, 3000]], "1/3 2100 1.1-2.2 | +2/3 3000 1.1-1.1 | +3/3 3000 1.1-1.1"),
    ]);
}

#[test]
fn a_longer_sentence_is_split_after_4096_words() {
    split(&[
        (&[&[4097]], "1/2 4096 1.1-1.1 | +2/2 1 1.1-1.1"),
        (&[&[8192]], "1/2 4096 1.1-1.1 | +2/2 4096 1.1-1.1"),
        (&[&[8193]], "1/3 4096 1.1-1.1 | +2/3 4096 1.1-1.1 | +3/3 1 1.1-1.1"),
        (&[&[10, 5000, 10], &[20]], "1/2 4096 1.1-1.2 | +2/2 944 1.1-2.3"),
    ]);
}

/// Sections with the heading `H` and these paragraphs have these parts.
fn split_headed(cases: &[(&[&[usize]], &str)]) {
    for (paragraphs, expected) in cases {
        assert_eq!(parts(&format!("# H\n{}", long(paragraphs))), *expected, "{paragraphs:?}");
    }
}

#[test]
fn parts_after_the_heading_have_sentences_from_one() {
    split_headed(&[
        (&[&[2000], &[2000], &[2000, 5]], "1/2 4001 1.0-3.2 | 2/2 2005 1.1-1.2"),
        (&[&[4096]], "1/2 1 1.0-1.0 | 2/2 4096 1.1-1.1"),
        (&[&[4096], &[5]], "1/3 1 1.0-1.0 | 2/3 4096 1.1-1.1 | 3/3 5 1.1-1.1"),
        (&[&[4000, 97]], "1/2 4001 1.0-2.1 | +2/2 97 1.1-1.1"),
        (&[&[4095, 2, 3], &[4]], "1/2 4096 1.0-2.1 | +2/2 9 1.1-2.3"),
        (&[&[4097]], "1/2 4096 1.0-2.1 | +2/2 2 1.1-1.1"),
    ]);
}

/// Sections of these paragraphs, the first one underlined, have these parts.
fn split_underlined(cases: &[(&[&[usize]], &str)]) {
    for (paragraphs, expected) in cases {
        let text = format!("{}\n---\n{}", long(&paragraphs[..1]), long(&paragraphs[1..]));
        assert_eq!(parts(&text), *expected, "{paragraphs:?}");
    }
}

/// A full stop in it is no place to cut it at.
#[test]
fn too_long_a_heading_is_split_after_4096_words() {
    split_underlined(&[
        (&[&[4096]], "1/1 4096 1.0-1.0"),
        (&[&[4096], &[1, 1]], "1/2 4096 1.0-1.0 | 2/2 2 1.1-1.2"),
        (&[&[4097]], "1/2 4096 1.0-1.0 | +2/2 1 1.0-1.0"),
        (&[&[3000, 3000]], "1/2 4096 1.0-1.0 | +2/2 1904 1.0-1.0"),
        (&[&[8193]], "1/3 4096 1.0-1.0 | +2/3 4096 1.0-1.0 | +3/3 1 1.0-1.0"),
        (&[&[4097], &[2, 3], &[4]], "1/2 4096 1.0-1.0 | +2/2 10 1.0-3.3"),
        (&[&[4097], &[4000], &[96]], "1/3 4096 1.0-1.0 | +2/3 4001 1.0-2.1 | 3/3 96 1.1-1.1"),
        (&[&[4097], &[4095, 10]], "1/3 4096 1.0-1.0 | +2/3 4096 1.0-2.1 | +3/3 10 1.1-1.1"),
    ]);
}

#[test]
fn a_heading_that_is_cut_has_its_own_words_in_each_part() {
    let manual = manual(&format!("(a. {}\nb)\n===\nc. d", vec!["w"; 4100].join(" ")));
    let of = |index: usize, number: usize| &manual.text()[manual.sections[index].sentence(number)];
    assert_eq!(of(0, 0), format!("(a. {}", vec!["w"; 4095].join(" ")));
    assert_eq!([0, 1, 2].map(|number| of(1, number)), ["w w w w w\nb)", "c.", "d"]);
    let ends = "w w w w w b/1.0 c/2.1 d/2.2";
    assert!(shown(&manual, &manual.sections[1]).ends_with(&format!(": {ends}")));
    assert_eq!(manual.sections.len(), 2);
}

#[test]
fn a_sentence_that_is_cut_has_its_own_words_in_each_part() {
    let text = format!("a. {} b", long(&[&[4100]]));
    let manual = manual(&text);
    let of = |index: usize, number: usize| &manual.text()[manual.sections[index].sentence(number)];
    assert_eq!((of(0, 1), manual.sections.len()), ("a.", 2));
    assert_eq!(of(0, 2), vec!["w"; 4095].join(" "));
    assert_eq!((of(1, 1), of(1, 2)), ("w w w w w.", "b"));
}

#[test]
fn parts_have_their_sections_heading_and_their_own_line_and_sentences() {
    let manual = manual(&format!("a\n\n## H i\n\n{}\n\n# J", long(&[&[4096], &[2, 4]])));
    let of = |section: &Section| format!("{} {}", section.line, section.name());
    let lines: Vec<String> = manual.sections.iter().map(of).collect();
    assert_eq!(lines, ["1 (no heading)", "3 H i", "5 H i", "7 H i", "9 J"]);
    let (first, last) = (&manual.sections[1], &manual.sections[3]);
    assert_eq!(shown(&manual, first), "3 H i: H i/1.0");
    assert_eq!(&manual.text()[first.sentence(0)], "H i");
    assert_eq!(shown(&manual, last), "7 H i: w w/1.1 w w w w/1.2");
    assert_eq!(&manual.text()[last.sentence(1)], "w w.");
    assert_eq!(&manual.text()[last.sentence(2)], "w w w w.");
}

// Searches

/// A manual in which bed is 1, down 2, e12 3, needle 4, oil 5, rollers 6, take 7, the 8 and äpfel 9.
const MANUAL: &str = "# Needle bed\nOil the take-down rollers. E12: Äpfel";

/// A search as the engine reads it, and the words that the manual does not have.
fn typed(text: &str) -> (String, String) {
    let words = Words::of(&manual(MANUAL));
    let search = Search::new(text, &words);
    (String::from_utf8(search.typed).unwrap(), search.unknown.join(" "))
}

#[test]
fn words_in_quotes_become_their_numbers() {
    let cases = [
        (r#""oil""#, r#""5""#),
        (r#""needle bed""#, r#""4 1""#),
        (r#""OIL" ftand "Äpfel""#, r#""5" ftand "9""#),
        (r#""take-down""#, r#""7 2""#),
        (r#""Take_down, the oil!""#, r#""7 2 8 5""#),
        (r#""needle    bed""#, r#""4 1""#),
        (r#""  needle bed  ""#, r#""4 1""#),
        ("\"needle\n\tbed\"", r#""4 1""#),
        (r#""e12""oil""#, r#""3""5""#),
        (r#""""#, r#""""#),
        (r#"" . ""#, r#""""#),
        (r#"("oil"not in"the oil")"#, r#"("5"not in"8 5")"#),
    ];
    for (text, expected) in cases {
        assert_eq!(typed(text), (expected.to_string(), String::new()), "{text}");
    }
}

#[test]
fn what_stands_outside_quotes_stays_as_it_is() {
    let plain = ["", "  ", "oil", "oil  ftand Needle", "window 5 words", "5", "\t\u{201C}oil\u{201D}\n", "'oil'", "ä"];
    for text in plain {
        assert_eq!(typed(text), (text.to_string(), String::new()), "{text}");
    }
    let (text, expected) = ("  \"oil\"   window  5words ", "  \"5\"   window  5words ");
    assert_eq!(typed(text), (expected.to_string(), String::new()));
}

#[test]
fn unknown_words_become_zero_and_are_told_once() {
    let cases = [
        (r#""cover""#, r#""0""#, "cover"),
        (r#""oil cover oil""#, r#""5 0 5""#, "cover"),
        (r#""cover" ftor "cover" ftor "guard""#, r#""0" ftor "0" ftor "0""#, "cover guard"),
        (r#""oils 0 1""#, r#""0 0 0""#, "oils 0 1"),
        (r#""Cover" ftand cover"#, r#""0" ftand cover"#, "Cover"),
    ];
    for (text, expected, unknown) in cases {
        assert_eq!(typed(text), (expected.to_string(), unknown.to_string()), "{text}");
    }
}

#[test]
fn after_a_quote_that_is_not_closed_all_are_words() {
    assert_eq!(typed(r#""oil ftand needle"#), (r#""5 0 4"#.to_string(), "ftand".to_string()));
    assert_eq!(typed(r#""oil" ftand "the"#), (r#""5" ftand "8"#.to_string(), String::new()));
    assert_eq!(typed(r#""oil" ftand ""#), (r#""5" ftand ""#.to_string(), String::new()));
}

#[test]
fn a_place_is_that_of_a_token_in_the_search() {
    let phrase = r#" "Needle--bed   rollers" ftand"oil" "#; // typed: ` "4 1 6" ftand"5" `
    let cases = [
        (phrase, 2, "1 \""),
        (phrase, 3, "2 Needle"),
        (phrase, 5, "10 bed"),
        (phrase, 7, "16 rollers"),
        (phrase, 8, "23 \""),
        (phrase, 10, "25 ftand"),
        (phrase, 15, "30 \""),
        (phrase, 16, "31 oil"),
        (phrase, 17, "34 \""),
        (phrase, 19, "36 "),
        (r#""cover" window05words"#, 2, "1 cover"),
        (r#""cover" window05words"#, 5, "8 window"),
        (r#""cover" window05words"#, 11, "14 05"),
        (r#""cover" window05words"#, 13, "16 words"),
        (r#""Äpfel" Ä ftand"#, 5, "9 Ä"),
        (r#""Äpfel" Ä ftand"#, 8, "12 ftand"),
        (r#""Äpfel" Ftand"#, 5, "9 F"),
        (r#""oil" and"#, 5, "6 and"),
        (r#""oil"#, 3, "4 "),
        (r#""."#, 2, "2 "),
        ("", 1, "0 "),
    ];
    let words = Words::of(&manual(MANUAL));
    for (text, place, expected) in cases {
        let at = Search::new(text, &words).at(place);
        assert_eq!(format!("{} {}", at.start, &text[at.clone()]), expected, "{text} at {place}");
    }
}

#[test]
fn tokens_stand_with_what_they_are_in_the_search() {
    let words = Words::of(&manual(MANUAL));
    let search = Search::new(r#"ftnot("take-down"  at start)window 12words"#, &words);
    let tokens: Vec<(&str, &str)> = search
        .tokens()
        .into_iter()
        .map(|(token, place)| (std::str::from_utf8(token).unwrap(), &search.text[place]))
        .filter(|(token, text)| token != text)
        .collect();
    assert_eq!(tokens, [("7", "take"), ("2", "down")]);
    assert_eq!(search.tokens().len(), 12);
}

// Codes

/// The codes of a search over the words a to h.
fn codes_of(text: &str) -> Vec<Code> {
    let words = Words::of(&manual("a b c d e f g h"));
    let search = Search::new(text, &words);
    codes(&search, &Engine::new(vec![0]).read(&search.typed).unwrap())
}

/// Each search has these codes, in their order: the kind, the byte at which it stands, and its text.
fn stand(cases: &[(&str, &str)]) {
    for (text, expected) in cases {
        let code = |code: &Code| format!("{}@{} {}", code.kind, code.place.start, &text[code.place.clone()]);
        let codes: Vec<String> = codes_of(text).iter().map(code).collect();
        assert_eq!(codes.join(", "), *expected, "{text}");
    }
}

#[test]
fn a_phrase_stands_with_its_quotes_after_its_words() {
    stand(&[
        (r#""a""#, r#"0@1 a, 1@0 "a""#),
        (r#""a b c""#, r#"0@1 a, 0@3 b, 0@5 c, 1@0 "a b c""#),
        (r#" " a-b. " "#, r#"0@3 a, 0@5 b, 1@1 " a-b. ""#),
        (r#"(("a"))"#, r#"0@3 a, 1@2 "a""#),
        (r#""zzz""#, r#"0@1 zzz, 1@0 "zzz""#),
    ]);
}

#[test]
fn an_operator_stands_after_its_operands() {
    stand(&[
        (r#""a" ftor "b""#, r#"0@1 a, 1@0 "a", 0@10 b, 1@9 "b", 2@4 ftor"#),
        (r#""a" ftand "b""#, r#"0@1 a, 1@0 "a", 0@11 b, 1@10 "b", 3@4 ftand"#),
        (r#""a" not in "b""#, r#"0@1 a, 1@0 "a", 0@12 b, 1@11 "b", 5@4 not in"#),
        (r#""a"not   in"b""#, r#"0@1 a, 1@0 "a", 0@12 b, 1@11 "b", 5@3 not   in"#),
        (r#"ftnot "a""#, r#"0@7 a, 1@6 "a", 4@0 ftnot"#),
        (r#"ftnot (ftnot "a")"#, r#"0@14 a, 1@13 "a", 4@7 ftnot, 4@0 ftnot"#),
    ]);
}

#[test]
fn equal_operators_group_from_the_left() {
    stand(&[
        (r#""a" ftor "b" ftor "c""#, r#"0@1 a, 1@0 "a", 0@10 b, 1@9 "b", 2@4 ftor, 0@19 c, 1@18 "c", 2@13 ftor"#),
        (r#""a" ftand "b" ftand "c""#, r#"0@1 a, 1@0 "a", 0@11 b, 1@10 "b", 3@4 ftand, 0@21 c, 1@20 "c", 3@14 ftand"#),
        (
            r#""a" not in "b" not in "c""#,
            r#"0@1 a, 1@0 "a", 0@12 b, 1@11 "b", 5@4 not in, 0@23 c, 1@22 "c", 5@15 not in"#,
        ),
        (
            r#""a" ftand ("b" ftand "c")"#,
            r#"0@1 a, 1@0 "a", 0@12 b, 1@11 "b", 0@22 c, 1@21 "c", 3@15 ftand, 3@4 ftand"#,
        ),
    ]);
}

#[test]
fn what_binds_more_stands_first() {
    stand(&[
        (r#""a" ftor "b" ftand "c""#, r#"0@1 a, 1@0 "a", 0@10 b, 1@9 "b", 0@20 c, 1@19 "c", 3@13 ftand, 2@4 ftor"#),
        (r#""a" ftand "b" ftor "c""#, r#"0@1 a, 1@0 "a", 0@11 b, 1@10 "b", 3@4 ftand, 0@20 c, 1@19 "c", 2@14 ftor"#),
        (
            r#""a" ftand "b" not in "c""#,
            r#"0@1 a, 1@0 "a", 0@11 b, 1@10 "b", 0@22 c, 1@21 "c", 5@14 not in, 3@4 ftand"#,
        ),
        (r#"ftnot "a" ftand ftnot "b""#, r#"0@7 a, 1@6 "a", 4@0 ftnot, 0@23 b, 1@22 "b", 4@16 ftnot, 3@10 ftand"#),
        (r#"("a" ftor "b") ftand "c""#, r#"0@2 a, 1@1 "a", 0@11 b, 1@10 "b", 2@5 ftor, 0@22 c, 1@21 "c", 3@15 ftand"#),
        (
            r#"ftnot ("a" ftor "b") ftor "c""#,
            r#"0@8 a, 1@7 "a", 0@17 b, 1@16 "b", 2@11 ftor, 4@0 ftnot, 0@27 c, 1@26 "c", 2@21 ftor"#,
        ),
    ]);
}

#[test]
fn a_filter_stands_with_all_its_words() {
    let filters = [
        (6, "ordered"),
        (7, "window 3 words"),
        (7, "window003words"),
        (8, "distance exactly 2 words"),
        (8, "distance at least 2 words"),
        (8, "distance at most 2 words"),
        (8, "distance from 1 to 2 words"),
        (8, "distance  from 1  to 2  words"),
        (9, "same sentence"),
        (10, "same paragraph"),
        (11, "different sentence"),
        (12, "different paragraph"),
        (13, "at start"),
        (14, "at   end"),
        (15, "entire content"),
    ];
    for (kind, filter) in filters {
        stand(&[(&format!(r#""a" {filter} "#), &format!(r#"0@1 a, 1@0 "a", {kind}@4 {filter}"#))]);
        stand(&[(
            &format!(r#"("a"{filter})ordered"#),
            &format!(r#"0@2 a, 1@1 "a", {kind}@4 {filter}, 6@{} ordered"#, 5 + filter.len()),
        )]);
    }
}

#[test]
fn a_filter_stands_after_all_that_it_works_on() {
    stand(&[
        (
            r#""a" ftand ftnot "b" same sentence ordered"#,
            r#"0@1 a, 1@0 "a", 0@17 b, 1@16 "b", 4@10 ftnot, 3@4 ftand, 9@20 same sentence, 6@34 ordered"#,
        ),
        (r#""a" ftor ("b" at end)"#, r#"0@1 a, 1@0 "a", 0@11 b, 1@10 "b", 14@14 at end, 2@4 ftor"#),
        (r#"ftnot ("a" at start) at end"#, r#"0@8 a, 1@7 "a", 13@11 at start, 4@0 ftnot, 14@21 at end"#),
        (
            r#"ftnot ("a" ftand (ftnot "b" ordered)) at end"#,
            r#"0@8 a, 1@7 "a", 0@25 b, 1@24 "b", 4@18 ftnot, 6@28 ordered, 3@11 ftand, 4@0 ftnot, 14@38 at end"#,
        ),
        (
            r#"("a" ftor "b" ordered) ftand "c" at end"#,
            r#"0@2 a, 1@1 "a", 0@11 b, 1@10 "b", 2@5 ftor, 6@14 ordered, 0@30 c, 1@29 "c", 3@23 ftand, 14@33 at end"#,
        ),
    ]);
}

#[test]
fn an_occurs_stands_with_all_its_words_after_its_phrase() {
    let all = [
        (17, "occurs at least 2 times"),
        (17, "occurs at  least 002times"),
        (16, "occurs exactly 2 times"),
        (16, "occurs at most 2 times"),
        (16, "occurs from 1 to 2 times"),
        (16, "occurs  from1to2times"),
    ];
    for (kind, occurs) in all {
        stand(&[(&format!(r#""a" {occurs} "#), &format!(r#"0@1 a, 1@0 "a", {kind}@4 {occurs}"#))]);
        stand(&[(
            &format!(r#"(ftnot"b c"{occurs})at start"#),
            &format!(r#"0@7 b, 0@9 c, 1@6 "b c", {kind}@11 {occurs}, 4@1 ftnot, 13@{} at start"#, 12 + occurs.len()),
        )]);
    }
}

#[test]
fn an_occurs_stands_before_its_phrases_operators_and_filters() {
    stand(&[
        (
            r#""a" occurs at least 2 times ftor "b""#,
            r#"0@1 a, 1@0 "a", 17@4 occurs at least 2 times, 0@34 b, 1@33 "b", 2@28 ftor"#,
        ),
        (
            r#""a" ftand "b" occurs at most 2 times ftor "c""#,
            r#"0@1 a, 1@0 "a", 0@11 b, 1@10 "b", 16@14 occurs at most 2 times, 3@4 ftand, 0@43 c, 1@42 "c", 2@37 ftor"#,
        ),
        (
            r#""a" occurs at least 1 times not in "b" occurs at least 3 times at end"#,
            r#"0@1 a, 1@0 "a", 17@4 occurs at least 1 times, 0@36 b, 1@35 "b", 17@39 occurs at least 3 times, 5@28 not in, 14@63 at end"#,
        ),
        (
            r#"ftnot ("a" occurs exactly 2 times window 3 words)"#,
            r#"0@8 a, 1@7 "a", 16@11 occurs exactly 2 times, 7@34 window 3 words, 4@0 ftnot"#,
        ),
        // words in quotes that are alike
        (r#""occurs" occurs exactly 2 times"#, r#"0@1 occurs, 1@0 "occurs", 16@9 occurs exactly 2 times"#),
        (
            r#""a times" ftor "b times""#,
            r#"0@1 a, 0@3 times, 1@0 "a times", 0@16 b, 0@18 times, 1@15 "b times", 2@10 ftor"#,
        ),
    ]);
}

/// Also where the second engine reads the codes that are placed.
#[test]
fn codes_of_occurs_are_the_second_engines() {
    for text in [
        r#""a" occurs at least 0 times"#,
        r#""a" occurs at least 4096 times"#,
        r#""a" occurs exactly 4096 times"#,
        r#""a" occurs from 4096 to 0 times"#,
        r#""a b" occurs at most 4095 times same sentence ordered"#,
        r#"ftnot "a" occurs from 1 to 3 times ftand ("b"occurs at least 2times ftor ftnot "c" occurs exactly 1 times)"#,
        r#"("a" occurs exactly 2 times) not in ("b c d" occurs at most 7 times at end) window 12 words"#,
    ] {
        let words = Words::of(&manual("a b c d e f g h"));
        let search = Search::new(text, &words);
        let pairs = typed::read(&search.typed).unwrap();
        let codes = codes(&search, &typed::numbers(&pairs));
        assert_eq!(codes.iter().map(|code| (code.kind, code.operand)).collect::<Vec<_>>(), pairs, "{text}");
        assert_eq!(codes_of(text), codes, "{text}");
        let of_occurs = codes.iter().filter(|code| code.kind >= Code::OCCURS);
        assert!(of_occurs.clone().count() > 0, "{text}");
        for code in of_occurs {
            let typed = &text[code.place.clone()];
            assert!(typed.starts_with("occurs ") && typed.ends_with("times"), "{text}: {typed}");
            assert_eq!(typed.contains("at least"), code.kind == Code::OCCURS_AT_LEAST, "{text}: {typed}");
        }
    }
}

/// The phrases of a search, with a `-` before those that are excluded.
fn phrases_of(text: &str) -> String {
    let phrases = phrases(&codes_of(text));
    let sign = |is_excluded| if is_excluded { "-" } else { "" };
    let shown = phrases.iter().map(|phrase| format!("{}{}", sign(phrase.is_excluded), &text[phrase.place.clone()]));
    shown.collect::<Vec<_>>().join(" ")
}

#[test]
fn a_phrase_is_excluded_under_an_odd_number_of_nots() {
    let cases = [
        (r#""a""#, r#""a""#),
        (r#"ftnot "a b""#, r#"-"a b""#),
        (r#"ftnot (ftnot "a")"#, r#""a""#),
        (r#"ftnot (ftnot (ftnot "a"))"#, r#"-"a""#),
        (r#""a" ftand ftnot "b" ftor "c""#, r#""a" -"b" "c""#),
        (r#""a" ftand ftnot ("b" ftor "c") ordered"#, r#""a" -"b" -"c""#),
        (r#"ftnot ("a" ftand ftnot "b" at start) ftor "c""#, r#"-"a" "b" "c""#),
        (r#"ftnot ("a" ftand "b") ftand ("c" ftor ftnot "d")"#, r#"-"a" -"b" "c" -"d""#),
        (r#""a" ftand (ftnot ("b" not in "c") ftor "d")"#, r#""a" -"b" -"c" "d""#),
        (r#"ftnot ("a" ftor ("b" ftand ftnot ("c" ftor ftnot "d")))"#, r#"-"a" -"b" "c" -"d""#),
    ];
    for (text, expected) in cases {
        assert_eq!(phrases_of(text), expected, "{text}");
    }
}

#[test]
fn an_occurs_belongs_to_its_phrase() {
    let cases = [
        (r#""a" occurs exactly 1 times"#, r#""a" occurs exactly 1 times"#),
        (r#"ftnot "a b"occurs at least 2 times"#, r#"-"a b"occurs at least 2 times"#),
        (r#""a" ftand ftnot ("b" occurs at most 2 times ftor "c") ordered"#, r#""a" -"b" occurs at most 2 times -"c""#),
        (r#"ftnot (ftnot "a" occurs from 1 to 2 times at start)"#, r#""a" occurs from 1 to 2 times"#),
    ];
    for (text, expected) in cases {
        assert_eq!(phrases_of(text), expected, "{text}");
    }
}

#[test]
fn the_most_finds_are_the_larger_number_and_at_least_has_none() {
    let cases = [
        (r#""b" ftor "a""#, None),
        (r#""b" ftor "a" occurs at least 3 times"#, Some((5, None))),
        (r#""b c" ftor "a" occurs exactly 3 times"#, Some((6, Some(3)))),
        (r#""b" ftor ftnot "a" occurs at most 4095 times"#, Some((5, Some(4_095)))),
        (r#""b" occurs at most 9 times ftor "a" occurs from 4095 to 0 times"#, Some((6, Some(0)))),
    ];
    for (text, expected) in cases {
        let expected = expected.map(|(code, most)| Occurs { code, most });
        let phrase = &phrases(&codes_of(text))[1];
        assert_eq!(phrase.most(), expected.as_ref().and_then(|occurs| occurs.most), "{text}");
        assert_eq!(phrase.occurs, expected, "{text}");
        assert_eq!(phrase.selection, [2, 0, 1, 1, 1], "{text}");
    }
}

#[test]
fn a_phrases_own_selection_has_its_words_and_itself() {
    let phrases = phrases(&codes_of(r#""a" ftor ftnot "c zzz b" at start"#));
    assert_eq!(phrases[0].selection, [2, 0, 1, 1, 1]);
    assert_eq!(phrases[1].selection, [4, 0, 0, 0, 1, 3, UNKNOWN, 2, 3]);
}
