//! Request F-5, headings: "Section headings have no sentence. Sentence zero may now stand among numbered ones, in any place".
//! Refusal 2 on every short section and on long ones, by the papers' words; and what filters make of a heading, worked by
//! hand and on every small section.

use super::*;

/// The memory that is lent to all calls of a test, and the calls' answers so far.
struct Asked {
    work: Vec<u32>,
    buffer: Vec<u32>,
    accepted: usize,
    refused: usize,
}

impl Asked {
    fn nothing() -> Asked {
        Asked { work: vec![NOISE; WORK], buffer: vec![NOISE; BUFFER], accepted: 0, refused: 0 }
    }

    fn listing(&mut self, section: &[u32], selection: &[u32]) -> Listing {
        self.buffer.fill(NOISE);
        crate::engine().listing(section, &EMPTY, selection, &mut self.work, &mut self.buffer)
    }

    fn quick(&mut self, section: &[u32], selection: &[u32]) -> Quick {
        crate::engine().quick(section, &EMPTY, selection, &mut self.work)
    }

    /// All three calls accept a section of these units; or listing and quick answer refuse it at this position, and the
    /// snippet is empty.
    fn hold(&mut self, sentences: &[u32], paragraphs: &[u32], faulty: Option<usize>) {
        // each token is another word; the last one is asked for
        let words: Vec<u32> = (1..=sentences.len() as u32).collect();
        let section = section(&words, sentences, paragraphs);
        let n = words.len() as u32;
        let selection = word(n).numbers();
        let (listing, quick) = (self.listing(&section, &selection), self.quick(&section, &selection));
        let snippet = crate::engine().snippet(&section, 1, n);
        let units = || format!("sentences {sentences:?}, paragraphs {paragraphs:?}");
        if let Some(place) = faulty.map(|position| position as u32) {
            assert_eq!(listing, Listing::Refused { number: 2, place }, "{}", units());
            assert!(self.buffer.iter().all(|number| *number == NOISE), "{}", units());
            assert_eq!(quick, Quick::Refused { number: 2, place }, "{}", units());
            assert!(snippet.is_empty(), "{}", units());
            self.refused += 1;
        } else {
            let found = n.min(1);
            assert_eq!(listing, Listing::Listed { matches: found, strings: found, yes: n > 0 }, "{}", units());
            assert!(n == 0 || self.buffer.starts_with(&[1, 1, 1, n * 65_537, 6]), "{}", units());
            assert_eq!(quick, Quick::Answered { yes: n > 0, codes: 1 }, "{}", units());
            assert_eq!(snippet, words, "{}", units());
            self.accepted += 1;
        }
    }
}

// Refusal 2 on short sections

/// "For sentences, refusal 2 falls on a nonzero one below the last nonzero one before it."
fn sentence_is_faulty(sentences: &[u32], position: usize) -> bool {
    let (here, before) = (sentences[position - 1], &sentences[..position - 1]);
    let last_nonzero = before.iter().rev().find(|sentence| **sentence != 0);
    here != 0 && last_nonzero.is_some_and(|last| here < *last)
}

/// "Paragraphs keep their rule": faulty is what "is below that of the position before it, or just one of the two is zero."
fn paragraph_is_faulty(paragraphs: &[u32], position: usize) -> bool {
    let [.., before, here] = paragraphs[..position] else { return false };
    here < before || (here == 0) != (before == 0)
}

fn first_faulty(sentences: &[u32], paragraphs: &[u32]) -> Option<usize> {
    let faulty =
        |position: &usize| sentence_is_faulty(sentences, *position) || paragraph_is_faulty(paragraphs, *position);
    (1..=sentences.len()).find(faulty)
}

/// Every row of so many of the numbers.
fn rows(length: usize, numbers: &[u32]) -> impl Iterator<Item = Vec<u32>> + '_ {
    let (count, length) = (numbers.len(), length as u32);
    (0..count.pow(length)).map(move |row| (0..length).map(|at| numbers[row / count.pow(at) % count]).collect())
}

/// Up to seven positions.
#[test]
fn every_row_of_sentences() {
    // of j nonzero ones, (j + 1) × (j + 2) / 2 rows rise among 1 to 3
    for (length, accepted) in [1, 4, 13, 38, 104, 272, 688, 1_696].into_iter().enumerate() {
        if cfg!(debug_assertions) && length > 5 {
            break;
        }
        for paragraph in [0, 1] {
            let mut asked = Asked::nothing();
            let paragraphs = vec![paragraph; length];
            for sentences in rows(length, &[0, 1, 2, 3]) {
                asked.hold(&sentences, &paragraphs, first_faulty(&sentences, &paragraphs));
            }
            assert_eq!((asked.accepted, asked.refused), (accepted, 4usize.pow(length as u32) - accepted));
        }
    }
}

/// Both countings, up to four positions.
#[test]
fn every_row_of_sentences_and_paragraphs() {
    for (length, accepted) in [1, 3 * 3, 8 * 4, 20 * 5, 48 * 6].into_iter().enumerate() {
        let mut asked = Asked::nothing();
        for sentences in rows(length, &[0, 1, 2]) {
            for paragraphs in rows(length, &[0, 1, 2]) {
                asked.hold(&sentences, &paragraphs, first_faulty(&sentences, &paragraphs));
            }
        }
        assert_eq!((asked.accepted, asked.refused), (accepted, 9usize.pow(length as u32) - accepted));
    }
}

/// Numbers at the edges of 8, 15 and 16 bits, in the one counting and in the other.
#[test]
fn every_row_of_edges() {
    let edges = [0, 1, 255, 256, 32_767, 32_768, 65_534, 65_535];
    let mut asked = Asked::nothing();
    for length in 1..=if cfg!(debug_assertions) { 3 } else { 4 } {
        for units in rows(length, &edges) {
            for other in [0, 1, 65_535] {
                let other = vec![other; length];
                asked.hold(&units, &other, first_faulty(&units, &other));
                asked.hold(&other, &units, first_faulty(&other, &units));
            }
        }
    }
    assert!(asked.accepted > 500 && asked.refused > 2_000, "{} {}", asked.accepted, asked.refused);
}

// Refusal 2 on long sections

/// Every length up to 140, with all positions; and lengths up to the largest, with the positions at both ends and some at the
/// edges of blocks of 64. Without optimisation fewer of them.
fn lengths_and_positions() -> Vec<(usize, Vec<usize>)> {
    let some = if cfg!(debug_assertions) { 12 } else { 1 };
    let short = (1..=140).step_by(some).map(|n| (n, (1..=n).collect()));
    let long = [1_025, 4_095, 4_096].map(|n| {
        let edges = (128..n - 64).step_by(64 * 3 * some).flat_map(|block| block - 1..=block + 2);
        (n, (1..=40).chain(edges).chain(n - 40..=n).collect())
    });
    short.chain(long).collect()
}

/// A section without a fault: a sentence of seven tokens, a paragraph of twenty, none of them the first.
fn sound(n: usize) -> (Vec<u32>, Vec<u32>) {
    let units = |tokens: usize| (1..=n).map(|position| 2 + (position / tokens) as u32).collect();
    (units(7), units(20))
}

/// A heading of one to five tokens from each position on.
#[test]
fn headings_anywhere() {
    let mut asked = Asked::nothing();
    for (n, positions) in lengths_and_positions() {
        let (sound, paragraphs) = sound(n);
        for position in positions {
            for length in 1..=5 {
                let mut sentences = sound.clone();
                sentences[position - 1..n.min(position - 1 + length)].fill(0);
                asked.hold(&sentences, &paragraphs, None);
            }
        }
    }
    assert_eq!(asked.refused, 0);
}

/// A sentence that falls at each position, right after a nonzero one or after so many zeros; or that doesn't fall, since it
/// is equal, or since there are only zeros before it.
#[test]
fn falls_anywhere() {
    let mut asked = Asked::nothing();
    for (n, positions) in lengths_and_positions() {
        let (sound, paragraphs) = sound(n);
        for position in positions {
            for zeros in [0, 1, 2, 17, 40, 63, 64, 130] {
                let first_zero = position.saturating_sub(zeros).max(1);
                let last_nonzero = sound[..first_zero - 1].last().copied();
                let mut sentences = sound.clone();
                sentences[first_zero - 1..position - 1].fill(0);
                sentences[position - 1] = last_nonzero.unwrap_or(2) - 1;
                asked.hold(&sentences, &paragraphs, last_nonzero.map(|_| position));
                sentences[position - 1] += 1;
                asked.hold(&sentences, &paragraphs, None);
                // the largest fall, and all that follows is as low
                sentences[..first_zero - 1].fill(65_535);
                sentences[position - 1..].fill(1);
                asked.hold(&sentences, &paragraphs, last_nonzero.map(|_| position));
            }
        }
    }
    assert!(asked.accepted > 1_000 && asked.refused > 1_000);
}

/// A paragraph that falls at each position, that is zero there alone, from there on or up to there; in a heading or not.
#[test]
fn paragraphs_anywhere() {
    let mut asked = Asked::nothing();
    for (n, positions) in lengths_and_positions() {
        let (numbered, sound) = sound(n);
        for position in positions {
            let mut in_heading = numbered.clone();
            in_heading[position.saturating_sub(2)..n.min(position + 1)].fill(0);
            let after_first = (position > 1).then_some(position);
            for sentences in [&numbered, &in_heading] {
                let mut changed = |from: usize, to: usize, paragraph: u32, faulty: Option<usize>| {
                    let mut paragraphs = sound.clone();
                    paragraphs[from - 1..to].fill(paragraph);
                    asked.hold(sentences, &paragraphs, faulty);
                };
                changed(position, position, sound[position.max(2) - 2] - 1, after_first);
                // where the first alone is zero, the second is faulty
                changed(position, position, 0, after_first.or((n > 1).then_some(2)));
                changed(position, n, 0, after_first);
                changed(1, position, 0, (position < n).then_some(position + 1));
            }
        }
    }
    assert!(asked.accepted > 20 && asked.refused > 1_000);
}

/// Two faults, one of each counting: the first is refused, whichever it is.
#[test]
fn two_faults_anywhere() {
    let mut asked = Asked::nothing();
    for (n, positions) in lengths_and_positions() {
        let (sound_sentences, sound_paragraphs) = sound(n);
        for position in positions.into_iter().filter(|position| *position > 2) {
            for (sentence, paragraph) in [(position - 1, position), (position, position - 1), (position, position)] {
                let (mut sentences, mut paragraphs) = (sound_sentences.clone(), sound_paragraphs.clone());
                // after a zero, where there is one before it
                sentences[sentence - 2] = if sentence > 2 { 0 } else { sentences[sentence - 2] };
                sentences[sentence - 1] = 1;
                paragraphs[paragraph - 1] = 1;
                asked.hold(&sentences, &paragraphs, Some(sentence.min(paragraph)));
            }
        }
    }
    assert!(asked.accepted == 0 && asked.refused > 1_000);
}

/// All tokens in one heading but the first, the last or both; and every second token.
#[test]
fn long_headings() {
    let mut asked = Asked::nothing();
    for n in (2..=140).chain([1_025, 4_095, 4_096]) {
        let paragraphs = vec![1; n];
        for (first, last) in [(0, 1), (1, 0), (5, 5), (5, 6), (5, 4), (65_535, 1)] {
            let mut sentences = vec![0; n];
            (sentences[0], sentences[n - 1]) = (first, last);
            let falls = first > last && last > 0;
            asked.hold(&sentences, &paragraphs, falls.then_some(n));
        }
        for zeros in [0, 1] {
            let numbered = |at: usize| if at % 2 == zeros { 0 } else { 2 + at as u32 };
            let mut sentences: Vec<u32> = (0..n).map(numbered).collect();
            asked.hold(&sentences, &paragraphs, None);
            sentences[n - 1] = 1;
            asked.hold(&sentences, &paragraphs, (n > 2 || zeros == 1).then_some(n));
        }
    }
    assert!(asked.accepted > 500 && asked.refused > 300);
}

// Filters, worked by hand

/// 'cam' in a heading, and 'cover' in the first sentence.
const CAM: u32 = 1;
const COVER: u32 = 2;

fn under_a_heading() -> Vec<u32> {
    section(&[CAM, 8, COVER, 9], &[0, 0, 1, 1], &[1, 1, 2, 2])
}

/// "Same: kept if each include starts and ends in one nonzero unit": not in a heading, and not from one into a sentence.
#[test]
fn includes_in_a_heading() {
    let section = under_a_heading();
    let both = || word(CAM).and(word(COVER));
    assert_eq!(lines(&section, &both()), ["yes 1 2", "+1-1 q1 c +3-3 q2 c"]);
    assert_eq!(lines(&section, &both().same_sentence()), ["no 0 0"]);
    assert_eq!(lines(&section, &word(CAM).same_sentence()), ["no 0 0"]);
    assert_eq!(lines(&section, &word(COVER).same_sentence()), ["yes 1 1", "+3-3 q1 c"]);
    assert_eq!(lines(&section, &phrase(&[CAM, 8]).same_sentence()), ["no 0 0"]);
    assert_eq!(lines(&section, &phrase(&[8, COVER]).same_sentence()), ["no 0 0"]);
    assert_eq!(lines(&section, &phrase(&[COVER, 9]).same_sentence()), ["yes 1 1", "+3-4 q1 c"]);
    // "Different: .. all units nonzero"
    assert_eq!(lines(&section, &both().different_sentence()), ["no 0 0"]);
    assert_eq!(lines(&section, &word(CAM).and(word(8)).different_sentence()), ["no 0 0"]);
    // a heading has a paragraph, and all else
    assert_eq!(lines(&section, &both().same_paragraph()), ["no 0 0"]);
    assert_eq!(lines(&section, &both().different_paragraph()), ["yes 1 2", "+1-1 q1 c +3-3 q2 c"]);
    assert_eq!(lines(&section, &word(CAM).and(word(8)).same_paragraph()), ["yes 1 2", "+1-1 q1 c +2-2 q2 c"]);
    assert_eq!(lines(&section, &both().ordered()), ["yes 1 2", "+1-1 q1 c +3-3 q2 c"]);
    assert_eq!(lines(&section, &both().window(3)), ["yes 1 1", "+1-3 q1 n"]);
    assert_eq!(lines(&section, &both().distance(1, 1)), ["yes 1 1", "+1-3 q1 n"]);
    assert_eq!(lines(&section, &word(CAM).at_start()), ["yes 1 1", "+1-1 q1 c"]);
    assert_eq!(lines(&section, &word(COVER).at_start()), ["no 0 0"]);
    assert_eq!(lines(&section, &phrase(&[CAM, 8, COVER, 9]).entire_content()), ["yes 1 1", "+1-4 q1 c"]);
    assert_eq!(lines(&section, &phrase(&[COVER, 9]).entire_content()), ["no 0 0"]);
}

/// "An exclude stays if it does so in the includes' unit; without includes, in any one nonzero unit": one in a heading goes.
#[test]
fn excludes_in_a_heading() {
    let section = under_a_heading();
    let without = || word(COVER).and(word(CAM).not());
    assert_eq!(lines(&section, &without()), ["no 1 2", "+3-3 q1 c !1-1 q2 c"]);
    assert_eq!(lines(&section, &without().same_sentence()), ["yes 1 1", "+3-3 q1 c"]);
    assert_eq!(quick(&section, &without().same_sentence().numbers()), Quick::Answered { yes: true, codes: 5 });
    assert_eq!(lines(&section, &without().same_paragraph()), ["yes 1 1", "+3-3 q1 c"]);
    assert_eq!(lines(&section, &without().ordered()), ["yes 1 1", "+3-3 q1 c"]);
    assert_eq!(lines(&section, &without().distance(0, 1)), ["no 1 2", "+3-3 q1 c !1-1 q2 c"]);
    assert_eq!(lines(&section, &without().distance(0, 1).same_sentence()), ["yes 1 1", "+3-3 q1 c"]);
    // the include in the heading
    assert_eq!(lines(&section, &word(CAM).and(word(COVER).not()).same_sentence()), ["no 0 0"]);
    // without includes
    assert_eq!(lines(&section, &word(CAM).not()), ["no 1 1", "!1-1 q1 c"]);
    assert_eq!(lines(&section, &word(CAM).not().same_sentence()), ["yes 1 0", "."]);
    assert_eq!(lines(&section, &word(COVER).not().same_sentence()), ["no 1 1", "!3-3 q1 c"]);
    assert_eq!(lines(&section, &word(CAM).or(word(COVER)).not().same_sentence()), ["no 1 1", "!3-3 q2 c"]);
    assert_eq!(lines(&section, &phrase(&[8, COVER]).not().same_sentence()), ["yes 1 0", "."]);
    // "Different: at least two includes"
    assert_eq!(lines(&section, &without().different_sentence()), ["no 0 0"]);
    assert_eq!(lines(&section, &word(CAM).not().different_sentence()), ["no 0 0"]);
}

/// Tokens of one number are in one sentence, whatever stands between them.
#[test]
fn a_heading_inside_a_sentence() {
    let one = section(&[1, 9, 2], &[1, 0, 1], &[1; 3]);
    let both = || word(1).and(word(2));
    assert_eq!(lines(&one, &both().same_sentence()), ["yes 1 2", "+1-1 q1 c +3-3 q2 c"]);
    assert_eq!(lines(&one, &both().different_sentence()), ["no 0 0"]);
    assert_eq!(lines(&one, &word(1).and(word(9)).same_sentence()), ["no 0 0"]);
    // only the tokens at start and end give a span's units
    assert_eq!(lines(&one, &phrase(&[1, 9, 2]).same_sentence()), ["yes 1 1", "+1-3 q1 c"]);
    assert_eq!(lines(&one, &phrase(&[1, 9]).same_sentence()), ["no 0 0"]);
    assert_eq!(lines(&one, &phrase(&[9, 2]).same_sentence()), ["no 0 0"]);
    assert_eq!(lines(&one, &both().window(3).same_sentence()), ["yes 1 1", "+1-3 q1 n"]);
    assert_eq!(lines(&one, &phrase(&[1, 9, 2]).not().same_sentence()), ["no 1 1", "!1-3 q1 c"]);
    assert_eq!(lines(&one, &phrase(&[1, 9]).not().same_sentence()), ["yes 1 0", "."]);

    // words 1 2 3 2: the first 2 is in the heading
    let four = section(&[1, 2, 3, 2], &[1, 0, 1, 1], &[1; 4]);
    assert_eq!(lines(&four, &both().same_sentence()), ["yes 1 2", "+1-1 q1 c +4-4 q2 c"]);
    assert_eq!(lines(&four, &word(2).same_sentence()), ["yes 1 1", "+4-4 q1 c"]);
    let without = || word(1).and(word(2).not());
    assert_eq!(lines(&four, &without()), ["no 1 3", "+1-1 q1 c !2-2 q2 c !4-4 q2 c"]);
    assert_eq!(lines(&four, &without().same_sentence()), ["no 1 2", "+1-1 q1 c !4-4 q2 c"]);
    assert_eq!(lines(&four, &without().same_sentence().window(3)), ["yes 3 3", "+1-1 q1 c", "+1-1 q1 c", "+1-1 q1 c"]);
    // and with the last 2 in the next sentence
    let next = section(&[1, 2, 3, 2], &[1, 0, 1, 2], &[1; 4]);
    assert_eq!(lines(&next, &without().same_sentence()), ["yes 1 1", "+1-1 q1 c"]);
    assert_eq!(lines(&next, &both().different_sentence()), ["yes 1 2", "+1-1 q1 c +4-4 q2 c"]);
}

/// Sentences that aren't reported, as before: no token has one.
#[test]
fn headings_alone() {
    let section = section(&[1, 2], &[0, 0], &[1, 1]);
    let both = || word(1).and(word(2));
    assert_eq!(lines(&section, &both().same_sentence()), ["no 0 0"]);
    assert_eq!(lines(&section, &both().different_sentence()), ["no 0 0"]);
    assert_eq!(lines(&section, &both().same_paragraph()), ["yes 1 2", "+1-1 q1 c +2-2 q2 c"]);
    assert_eq!(lines(&section, &word(1).not().same_sentence()), ["yes 1 0", "."]);
}

/// "Different: at least two includes, all units nonzero, and no two includes' unit ranges overlapping. An exclude stays if its
/// units are nonzero and overlap no include's."
#[test]
fn different_sentences_around_a_heading() {
    let section = section(&[1, 2, 3, 4, 5], &[1, 0, 2, 0, 3], &[1; 5]);
    let ends = || word(1).and(word(3));
    assert_eq!(lines(&section, &ends().different_sentence()), ["yes 1 2", "+1-1 q1 c +3-3 q2 c"]);
    assert_eq!(lines(&section, &ends().and(word(2)).different_sentence()), ["no 0 0"]);
    assert_eq!(lines(&section, &word(2).and(word(4)).different_sentence()), ["no 0 0"]);
    // an exclude in a heading goes, one in another sentence stays
    let without = |excluded: u32| ends().and(word(excluded).not());
    assert_eq!(lines(&section, &without(2)), ["no 1 3", "+1-1 q1 c +3-3 q2 c !2-2 q3 c"]);
    assert_eq!(lines(&section, &without(2).different_sentence()), ["yes 1 2", "+1-1 q1 c +3-3 q2 c"]);
    assert_eq!(lines(&section, &without(5).different_sentence()), ["no 1 3", "+1-1 q1 c +3-3 q2 c !5-5 q3 c"]);
    // of a span, start and end: from a heading or into one, or over one
    assert_eq!(lines(&section, &phrase(&[1, 2]).and(word(5)).different_sentence()), ["no 0 0"]);
    assert_eq!(lines(&section, &phrase(&[2, 3]).and(word(5)).different_sentence()), ["no 0 0"]);
    assert_eq!(lines(&section, &phrase(&[1, 2, 3]).and(word(5)).different_sentence())[0], "yes 1 2");
    assert_eq!(lines(&section, &phrase(&[3, 4, 5]).and(word(1)).different_sentence())[0], "yes 1 2");
    assert_eq!(lines(&section, &phrase(&[1, 2, 3]).and(word(3)).different_sentence()), ["no 0 0"]);
    let span = |words: &[u32]| word(1).and(word(5)).and(phrase(words).not()).different_sentence();
    assert_eq!(lines(&section, &span(&[2, 3]))[0], "yes 1 2");
    assert_eq!(lines(&section, &span(&[3, 4]))[0], "yes 1 2");
    assert_eq!(lines(&section, &span(&[3])), ["no 1 3", "+1-1 q1 c +5-5 q2 c !3-3 q3 c"]);
    assert_eq!(lines(&section, &span(&[3, 4, 5]))[0], "yes 1 2");
}

/// Filters and nots above each other.
#[test]
fn nots_between_filters() {
    let section = under_a_heading();
    let without = || word(COVER).and(word(CAM).not()).same_sentence();
    assert_eq!(lines(&section, &without().not()), ["no 1 1", "!3-3 q1 c"]);
    assert_eq!(lines(&section, &without().not().same_sentence()), ["no 1 1", "!3-3 q1 c"]);
    assert_eq!(lines(&section, &word(9).and(without().not()).same_sentence()), ["no 1 2", "+4-4 q1 c !3-3 q2 c"]);
    assert_eq!(
        lines(&section, &word(9).and(without().not()).same_sentence().not()),
        ["yes 2 2", "!4-4 q1 c", "+3-3 q2 c"]
    );
    // the cam in the heading is never found in a sentence, so this excludes nothing
    let never = || word(CAM).and(word(COVER).not()).same_sentence();
    assert_eq!(lines(&section, &never().not()), ["yes 1 0", "."]);
    assert_eq!(lines(&section, &word(COVER).and(never().not()).same_sentence()), ["yes 1 1", "+3-3 q1 c"]);
    // a not of both: the one string turned into an exclude goes, the other into an include stays
    let turned = word(CAM).and(word(COVER).not()).not();
    assert_eq!(lines(&section, &turned.clone()), ["yes 2 2", "!1-1 q1 c", "+3-3 q2 c"]);
    assert_eq!(lines(&section, &turned.same_sentence()), ["yes 2 1", ".", "+3-3 q2 c"]);
    let turned = word(COVER).and(word(CAM).not()).not();
    assert_eq!(lines(&section, &turned.same_sentence()), ["no 1 1", "!3-3 q1 c"]);
}

/// An occurs has matches with finds in a heading, and some that these exclude.
#[test]
fn occurs_in_a_heading() {
    let section = section(&[5, 9, 5, 5], &[0, 0, 1, 2], &[1, 1, 2, 2]);
    assert_eq!(lines(&section, &word(5).occurs_at_least(2).same_sentence()), ["no 0 0"]);
    assert_eq!(lines(&section, &word(5).occurs_at_least(2).different_sentence()), ["yes 1 2", "+3-3 q1 c +4-4 q1 c"]);
    assert_eq!(lines(&section, &word(5).occurs_at_least(3).different_sentence()), ["no 0 0"]);
    let two = super::section(&[5, 5], &[0, 1], &[1, 1]);
    assert_eq!(lines(&two, &word(5).occurs(1, 1))[0], "no 6 14");
    let kept = ["yes 2 3", "+2-2 q1 c", "+2-2 q1 c !2-2 q1 c"];
    assert_eq!(lines(&two, &word(5).occurs(1, 1).same_sentence()), kept);
}

// Filters on every small section

/// A token: its word, its sentence, its paragraph.
type Token = (u32, u32, u32);

/// Every accepted section of so many tokens, of words 1 and 2, with sentences of 0 to 2; the first two are a paragraph.
fn small_sections(length: usize) -> impl Iterator<Item = Vec<Token>> {
    let paragraphs = vec![1; length.min(2)].into_iter().chain(vec![2; length.saturating_sub(2)]);
    let paragraphs: Vec<u32> = paragraphs.collect();
    let accepted = move |sentences: &Vec<u32>| first_faulty(sentences, &vec![1; length]).is_none();
    rows(length, &[0, 1, 2]).filter(accepted).flat_map(move |sentences| {
        let paragraphs = paragraphs.clone();
        rows(length, &[1, 2]).map(move |words| {
            let units = sentences.iter().zip(&paragraphs);
            words.into_iter().zip(units).map(|(word, (sentence, paragraph))| (word, *sentence, *paragraph)).collect()
        })
    })
}

fn section_of(tokens: &[Token]) -> Vec<u32> {
    let words: Vec<u32> = tokens.iter().map(|token| token.0).collect();
    let sentences: Vec<u32> = tokens.iter().map(|token| token.1).collect();
    let paragraphs: Vec<u32> = tokens.iter().map(|token| token.2).collect();
    section(&words, &sentences, &paragraphs)
}

impl Asked {
    /// Both calls answer as the second engine does; where the listing is given, its yes or no is the quick one.
    fn answers(&mut self, section: &[u32], selection: &Selection) -> Option<bool> {
        let numbers = selection.numbers();
        let mut wanted = vec![NOISE; BUFFER];
        let listing = self.listing(section, &numbers);
        assert_eq!(
            listing,
            second::listing(section, &EMPTY, &numbers, WORK, &mut wanted),
            "{section:?}, {selection:?}"
        );
        assert_eq!(self.buffer, wanted, "{section:?}, {selection:?}");
        let quick = self.quick(section, &numbers);
        assert_eq!(quick, second::quick(section, &EMPTY, &numbers, WORK), "{section:?}, {selection:?}");
        let Quick::Answered { yes, .. } = quick else { return None };
        if let Listing::Listed { yes: listed, .. } = listing {
            assert_eq!(yes, listed, "{section:?}, {selection:?}");
        }
        Some(yes)
    }
}

/// Is there a find of word 1 in a sentence, at an index for which the test holds?
fn one_in_a_sentence(tokens: &[Token], test: impl Fn(usize, u32) -> bool) -> bool {
    tokens.iter().enumerate().any(|(at, (word, sentence, _))| *word == 1 && *sentence != 0 && test(at, *sentence))
}

/// Does word 2 stand in this sentence, at an index for which the test holds?
fn two_in(tokens: &[Token], sentence: u32, test: impl Fn(usize) -> bool) -> bool {
    tokens.iter().enumerate().any(|(at, token)| (token.0, token.1) == (2, sentence) && test(at))
}

/// Does word 2 stand in this sentence right after the token at an index, or right before it?
fn two_after(tokens: &[Token], sentence: u32, at: usize) -> bool {
    two_in(tokens, sentence, |two| two == at + 1)
}

fn two_before(tokens: &[Token], sentence: u32, at: usize) -> bool {
    two_in(tokens, sentence, |two| two + 1 == at)
}

/// A search, and what it asks of the tokens.
type Question = (Selection, fn(&[Token]) -> bool);

/// '1 and not 2, same sentence'.
fn one_without_two(tokens: &[Token]) -> bool {
    one_in_a_sentence(tokens, |_, sentence| !two_in(tokens, sentence, |_| true))
}

/// 'not 2, same sentence'.
fn no_two(tokens: &[Token]) -> bool {
    !tokens.iter().any(|(word, sentence, _)| *word == 2 && *sentence != 0)
}

fn questions() -> Vec<Question> {
    let without = || word(1).and(word(2).not());
    let both = || word(1).and(word(2));
    vec![
        (word(1).same_sentence(), |tokens| one_in_a_sentence(tokens, |_, _| true)),
        (both().same_sentence(), |tokens| one_in_a_sentence(tokens, |_, one| two_in(tokens, one, |_| true))),
        (without().same_sentence(), one_without_two),
        (word(2).not().and(word(1)).same_sentence(), one_without_two),
        (without().same_sentence().not(), |tokens| !one_without_two(tokens)),
        (without().same_sentence().not().not(), one_without_two),
        (word(2).not().same_sentence(), no_two),
        (word(2).not().same_sentence().not(), |tokens| !no_two(tokens)),
        (without().same_sentence().or(word(2).not().same_sentence()), |tokens| {
            one_without_two(tokens) || no_two(tokens)
        }),
        (without().same_sentence().and(word(2).not().same_sentence().not()), |tokens| {
            one_without_two(tokens) && !no_two(tokens)
        }),
        (phrase(&[1, 2]).same_sentence(), |tokens| {
            one_in_a_sentence(tokens, |at, sentence| two_after(tokens, sentence, at))
        }),
        (word(1).and(phrase(&[1, 2]).not()).same_sentence(), |tokens| {
            let followed =
                |sentence: u32| one_in_a_sentence(tokens, |at, one| one == sentence && two_after(tokens, sentence, at));
            one_in_a_sentence(tokens, |_, sentence| !followed(sentence))
        }),
        (both().different_sentence(), |tokens| {
            one_in_a_sentence(tokens, |_, one| (1..=2).any(|two| two != one && two_in(tokens, two, |_| true)))
        }),
        (word(1).and(word(1)).different_sentence(), |tokens| {
            one_in_a_sentence(tokens, |_, one| one_in_a_sentence(tokens, |_, other| one != other))
        }),
        // ordered: what stands after excludes
        (both().ordered().same_sentence(), |tokens| {
            one_in_a_sentence(tokens, |one, sentence| two_in(tokens, sentence, |two| one < two))
        }),
        (without().ordered().same_sentence(), |tokens| {
            one_in_a_sentence(tokens, |one, sentence| !two_in(tokens, sentence, |two| one < two))
        }),
        (without().same_sentence().ordered(), |tokens| {
            one_in_a_sentence(tokens, |one, sentence| !two_in(tokens, sentence, |two| one < two))
        }),
        // windows of two words: with the word before, or with the one after
        (without().window(2).same_sentence(), |tokens| {
            one_in_a_sentence(tokens, |at, one| !two_before(tokens, one, at) || !two_after(tokens, one, at))
        }),
        (without().same_sentence().window(2), |tokens| {
            one_in_a_sentence(tokens, |at, one| !two_before(tokens, one, at) || !two_after(tokens, one, at))
        }),
        (without().distance(0, 0).same_sentence(), |tokens| {
            one_in_a_sentence(tokens, |at, one| !two_before(tokens, one, at) && !two_after(tokens, one, at))
        }),
        (without().same_sentence().at_start(), |tokens| {
            one_in_a_sentence(tokens, |at, one| at == 0 && !two_in(tokens, one, |_| true))
        }),
        (without().same_sentence().at_end(), |tokens| {
            one_in_a_sentence(tokens, |at, one| at + 1 == tokens.len() && !two_in(tokens, one, |_| true))
        }),
        // a heading is in its paragraph as any other words
        (without().same_paragraph(), |tokens| {
            (1..=2).any(|paragraph| {
                let has = |word: u32| tokens.iter().any(|token| (token.0, token.2) == (word, paragraph));
                has(1) && !has(2)
            })
        }),
    ]
}

/// Up to five tokens: the yes or no is what the tokens themselves say.
#[test]
fn every_question_of_every_small_section() {
    let questions = questions();
    let mut asked = Asked::nothing();
    let mut answers = vec![[0; 2]; questions.len()];
    for length in 0..=if cfg!(debug_assertions) { 3 } else { 5 } {
        for tokens in small_sections(length) {
            let section = section_of(&tokens);
            for ((selection, says), answers) in questions.iter().zip(&mut answers) {
                let yes = says(&tokens);
                assert_eq!(asked.answers(&section, selection), Some(yes), "{tokens:?}, {selection:?}");
                answers[usize::from(yes)] += 1;
            }
        }
    }
    for ((selection, _), [no, yes]) in questions.iter().zip(answers) {
        assert!(no > 10 && yes > 10, "{selection:?}: {no} no, {yes} yes");
    }
}

/// Up to four tokens: three filters, and nots between them.
#[test]
fn every_three_filters_of_every_small_section() {
    let without = || word(1).and(word(2).not());
    let operands = [word(1), without(), word(2).not(), word(1).and(word(2)), phrase(&[1, 2]).or(without())];
    let filters = [(9, 0), (11, 0), (10, 0), (6, 0), (7, 2), (8, 1)];
    let mut selections = vec![];
    for operand in &operands {
        for (first, second, third) in
            [(0, 1, 0), (0, 0, 0), (1, 0, 0), (0, 2, 0), (0, 3, 1), (4, 0, 3), (5, 0, 4), (2, 0, 5)]
        {
            let [one, two, three] = [first, second, third].map(|at| filters[at as usize]);
            let lowest = operand.clone().then(one.0, one.1);
            selections.push(word(1).and(lowest.clone().not()).then(two.0, two.1).then(three.0, three.1));
            selections.push(word(2).and(lowest.then(two.0, two.1).not()).then(three.0, three.1).not());
        }
    }
    let mut asked = Asked::nothing();
    let mut answers = [0; 3];
    for length in 0..=if cfg!(debug_assertions) { 2 } else { 4 } {
        for tokens in small_sections(length) {
            let section = section_of(&tokens);
            for selection in &selections {
                let answer = asked.answers(&section, selection);
                answers[answer.map_or(2, usize::from)] += 1;
            }
        }
    }
    println!("{} no, {} yes, {} refused", answers[0], answers[1], answers[2]);
    assert!(answers[0] > 500 && answers[1] > 500, "{answers:?}");
}
