//! Every refusal with an accepted neighbour, and the order in which they are tried.

use super::*;
use second_engine::{Listing, Quick, BUFFER, WORK};

/// The refusal that both calls give for these inputs, or `None` if both accept them.
fn refused(section: &[u32], selection: &[u32]) -> Option<(u32, u32)> {
    refused_with(section, selection, WORK, BUFFER)
}

fn refused_with(section: &[u32], selection: &[u32], work: usize, buffer: usize) -> Option<(u32, u32)> {
    refused_by(section, &EMPTY, selection, work, buffer)
}

pub fn refused_by(
    section: &[u32],
    families: &[u32],
    selection: &[u32],
    work: usize,
    buffer: usize,
) -> Option<(u32, u32)> {
    let before: Vec<u32> = (0..buffer as u32).map(|number| number ^ 0x5555).collect();
    let mut after = before.clone();
    let listing = match listing_in(section, families, selection, work, &mut after) {
        Listing::Listed { .. } => None,
        Listing::Refused { number, place } => {
            assert_eq!(before, after, "a refusal leaves the buffer unchanged");
            Some((number, place))
        }
    };
    let quick = match quick_in(section, families, selection, work) {
        Quick::Answered { .. } => None,
        Quick::Refused { number, place } => Some((number, place)),
    };
    // the quick answer has no buffer and fewer limits
    match listing {
        Some((9, _)) => {}
        Some((8, 0)) if work >= WORK => assert_eq!(quick, None),
        _ => assert_eq!(listing, quick),
    }
    listing
}

fn ok() -> Vec<u32> {
    word(10).numbers()
}

#[test]
fn one_section_size() {
    assert_eq!(refused(&[], &ok()), Some((1, 0)));
    assert_eq!(refused(&[0], &ok()), None);
    assert_eq!(refused(&[0, 0], &ok()), Some((1, 0)));
    assert_eq!(refused(&[1, 10, 0], &ok()), None);
    assert_eq!(refused(&[1, 10], &ok()), Some((1, 0)));
    assert_eq!(refused(&[1, 10, 0, 0], &ok()), Some((1, 0)));
    assert_eq!(refused(&[2, 10, 0], &ok()), Some((1, 0)));
    assert_eq!(refused(&[0, 10, 0], &ok()), Some((1, 0)));
    assert_eq!(refused(&plain(&[1; 4_096]), &ok()), None);
    assert_eq!(refused(&plain(&[1; 4_097]), &ok()), Some((1, 0)));
    // 1 + 2n doesn't wrap round
    assert_eq!(refused(&[1 << 31], &ok()), Some((1, 0)));
    assert_eq!(refused(&[(1 << 31) + 1, 10, 0], &ok()), Some((1, 0)));
    assert_eq!(refused(&[u32::MAX], &ok()), Some((1, 0)));
}

/// Sentences so numbered, of tokens whose paragraphs aren't reported.
fn sentences(sentences: &[u32]) -> Vec<u32> {
    section(&vec![1; sentences.len()], sentences, &vec![0; sentences.len()])
}

/// Paragraphs so numbered, of tokens in one sentence.
fn paragraphs(paragraphs: &[u32]) -> Vec<u32> {
    section(&vec![1; paragraphs.len()], &vec![3; paragraphs.len()], paragraphs)
}

/// What both countings have in common.
#[test]
fn two_units() {
    for units in [sentences, paragraphs] {
        for accepted in [&[][..], &[0], &[65_535], &[0, 0, 0], &[1, 1, 2], &[5, 5, 65_535], &[7, 8, 9]] {
            assert_eq!(refused(&units(accepted), &ok()), None, "{accepted:?}");
        }
        for (faulty, place) in [(&[2, 1][..], 2), (&[1, 2, 1], 3), (&[3, 2, 1], 2), (&[65_535, 65_534], 2)] {
            assert_eq!(refused(&units(faulty), &ok()), Some((2, place)), "{faulty:?}");
        }
    }
    // one scan, both countings at each position
    assert_eq!(refused(&section(&[1; 3], &[2, 2, 1], &[1, 0, 0]), &ok()), Some((2, 2)));
    assert_eq!(refused(&section(&[1; 3], &[2, 1, 1], &[1, 1, 0]), &ok()), Some((2, 2)));
    assert_eq!(refused(&section(&[1; 3], &[2, 1, 1], &[1, 0, 0]), &ok()), Some((2, 2)));
    assert_eq!(refused(&section(&[1; 4], &[2, 0, 1, 1], &[1, 1, 1, 0]), &ok()), Some((2, 3)));
    assert_eq!(refused(&section(&[1; 4], &[2, 0, 0, 1], &[1, 1, 0, 0]), &ok()), Some((2, 3)));
    // each counting by itself: the one may be zero where the other isn't, and rise where the other doesn't
    assert_eq!(refused(&section(&[1; 3], &[0, 0, 0], &[1, 2, 3]), &ok()), None);
    assert_eq!(refused(&section(&[1; 3], &[1, 2, 3], &[9, 9, 9]), &ok()), None);
    assert_eq!(refused(&section(&[1; 3], &[9, 9, 8], &[1, 2, 3]), &ok()), Some((2, 3)));
    assert_eq!(refused(&section(&[1; 3], &[1, 2, 3], &[9, 9, 8]), &ok()), Some((2, 3)));
}

/// Request F-5: "Sentence zero may now stand among numbered ones, in any place; the nonzero ones still never fall."
#[test]
fn two_sentences() {
    let accepted = [
        &[0, 1][..],
        &[1, 0],
        &[0, 0, 1, 0],
        &[1, 1, 0, 0],
        // after a heading the same sentence, the next, or a later one
        &[1, 0, 1],
        &[1, 0, 2],
        &[1, 0, 0, 0, 9],
        &[0, 65_535, 0, 65_535],
        &[0, 1, 0, 1, 0, 2, 0],
    ];
    for accepted in accepted {
        assert_eq!(refused(&sentences(accepted), &ok()), None, "{accepted:?}");
    }
    // "Refusal 2 falls on a nonzero one below the last nonzero one before it."
    let faulty = [
        (&[2, 0, 1][..], 3),
        (&[2, 0, 0, 0, 1], 5),
        (&[5, 0, 0, 3], 4),
        (&[0, 2, 0, 1], 4),
        (&[2, 1, 0], 2),
        (&[0, 2, 1, 0], 3),
        // held to the last one, not to the first
        (&[1, 0, 3, 0, 2], 5),
        // the first such position
        (&[3, 0, 2, 0, 1], 3),
        (&[65_535, 0, 65_534], 3),
        (&[256, 0, 255], 3),
        (&[32_768, 0, 32_767], 3),
    ];
    for (faulty, place) in faulty {
        assert_eq!(refused(&sentences(faulty), &ok()), Some((2, place)), "{faulty:?}");
    }
}

/// "Paragraphs keep their rule."
#[test]
fn two_paragraphs() {
    let faulty = [
        (&[0, 1][..], 2),
        (&[1, 0], 2),
        (&[0, 0, 1, 0], 3),
        (&[1, 1, 0, 0], 3),
        (&[1, 0, 1], 2),
        (&[2, 0, 1], 2),
        (&[65_535, 0], 2),
    ];
    for (faulty, place) in faulty {
        assert_eq!(refused(&paragraphs(faulty), &ok()), Some((2, place)), "{faulty:?}");
        // also where the zero one is in a heading
        assert_eq!(refused(&section(&vec![1; faulty.len()], faulty, faulty), &ok()), Some((2, place)), "{faulty:?}");
    }
    // a heading has a paragraph of its own
    assert_eq!(refused(&section(&[1; 4], &[0, 0, 1, 1], &[1, 1, 2, 2]), &ok()), None);
    assert_eq!(refused(&section(&[1; 4], &[1, 0, 0, 1], &[1, 2, 2, 3]), &ok()), None);
    assert_eq!(refused(&section(&[1; 4], &[1, 0, 0, 1], &[2, 1, 1, 3]), &ok()), Some((2, 2)));
}

#[test]
fn three_selection_size() {
    let six = six_tokens();
    assert_eq!(refused(&six, &[]), Some((3, 0)));
    assert_eq!(refused(&six, &[0]), Some((3, 0)));
    assert_eq!(refused(&six, &[2, 0, 1, 10, 1]), None);
    assert_eq!(refused(&six, &[2, 0, 1, 10]), Some((3, 0)));
    assert_eq!(refused(&six, &[2, 0, 1, 10, 1, 0]), Some((3, 0)));
    assert_eq!(refused(&six, &[1, 0, 1, 10, 1]), Some((3, 0)));
    assert_eq!(refused(&six, &[3, 0, 1, 10, 1]), Some((3, 0)));
    let nots = |m: usize| (2..m).fold(word(99), |selection, _| selection.not()).numbers();
    assert_eq!(refused(&six, &nots(64)), None);
    assert_eq!(refused(&six, &nots(65)), Some((3, 0)));
    assert_eq!(refused(&six, &[1 << 31]), Some((3, 0)));
    assert_eq!(refused(&six, &[(1 << 31) + 2, 0, 1, 10, 1]), Some((3, 0)));
    assert_eq!(refused(&six, &[u32::MAX]), Some((3, 0)));
}

#[test]
fn four_kinds() {
    let six = six_tokens();
    for kind in [15, 16, 17] {
        assert_eq!(refused(&six, &word(10).then(kind, 0).numbers()), None);
    }
    for kind in [18, 19, 255, 256, 65_536, 1 << 31, (1 << 31) + 4, (1 << 31) + 17, u32::MAX] {
        assert_eq!(refused(&six, &word(10).then(kind, 0).numbers()), Some((4, 3)));
        assert_eq!(refused(&six, &word(10).then(kind, 0).then(kind, 0).numbers()), Some((4, 3)));
    }
}

#[test]
fn five_operands() {
    let six = six_tokens();
    for any in [0, 1, 1 << 31, u32::MAX] {
        assert_eq!(refused(&six, &word(any).numbers()), None);
    }
    // phrases
    assert_eq!(refused(&six, &phrase(&[1; 8]).numbers()), None);
    assert_eq!(refused(&six, &word(1).then(0, 1).then(1, 0).numbers()), Some((5, 4)));
    assert_eq!(refused(&six, &[2, 0, 1, 10, 0]), Some((5, 2)));
    assert_eq!(refused(&six, &[2, 0, 1, 10, 9]), Some((5, 2)));
    // 8 is within the table, but not the number of loose words
    assert_eq!(refused(&six, &[2, 0, 1, 10, 8]), Some((6, 2)));
    // combinations and plain filters
    for kind in [2, 3, 5] {
        let mut both = word(1);
        both.0.extend(word(2).0);
        assert_eq!(refused(&six, &both.clone().then(kind, 0).numbers()), None);
        for operand in [1, 1 << 16, u32::MAX] {
            assert_eq!(refused(&six, &both.clone().then(kind, operand).numbers()), Some((5, 5)));
        }
    }
    for kind in [4, 6, 9, 10, 11, 12, 13, 14, 15] {
        assert_eq!(refused(&six, &word(1).then(kind, 0).numbers()), None);
        for operand in [1, 1 << 16, u32::MAX] {
            assert_eq!(refused(&six, &word(1).then(kind, operand).numbers()), Some((5, 3)));
        }
    }
    // windows
    for size in [1, 4_096] {
        assert_eq!(refused(&six, &word(99).window(size).numbers()), None);
    }
    for size in [0, 4_097, 65_536, u32::MAX] {
        assert_eq!(refused(&six, &word(99).window(size).numbers()), Some((5, 3)));
    }
    // distances
    for (a, b) in [(0, 0), (0, 4_095), (4_095, 4_095), (1, 1), (0, 1)] {
        assert_eq!(refused(&six, &word(99).distance(a, b).numbers()), None);
    }
    for (a, b) in [(1, 0), (0, 4_096), (4_095, 4_096), (4_096, 4_096), (4_096, 4_095), (65_535, 65_535), (65_535, 0)] {
        assert_eq!(refused(&six, &word(99).distance(a, b).numbers()), Some((5, 3)));
    }
    // occurs
    for (a, b) in [(0, 0), (0, 4_095), (4_095, 4_095), (1, 1), (0, 1)] {
        assert_eq!(refused(&six, &word(99).occurs(a, b).numbers()), None);
    }
    for (a, b) in [(1, 0), (0, 4_096), (4_095, 4_096), (4_096, 4_096), (4_096, 4_095), (65_535, 65_535), (65_535, 0)] {
        assert_eq!(refused(&six, &word(99).occurs(a, b).numbers()), Some((5, 3)));
    }
    for a in [0, 1, 4_095] {
        assert_eq!(refused(&six, &word(99).occurs_at_least(a).numbers()), None);
    }
    for a in [4_096, 4_097, 65_536, 65_537, 1 << 31, u32::MAX] {
        assert_eq!(refused(&six, &word(99).occurs_at_least(a).numbers()), Some((5, 3)));
    }
}

#[test]
fn six_shape() {
    let six = six_tokens();
    // kind 0 needs p < 8
    assert_eq!(refused(&six, &phrase(&[1; 8]).numbers()), None);
    let nine_words = Selection(phrase(&[1; 8]).0[..8].to_vec()).then(0, 1).then(1, 8);
    assert_eq!(refused(&six, &nine_words.numbers()), Some((6, 9)));
    // kind 1 needs p = k
    assert_eq!(refused(&six, &[3, 0, 0, 1, 10, 20, 2]), None);
    assert_eq!(refused(&six, &[3, 0, 0, 1, 10, 20, 1]), Some((6, 3)));
    assert_eq!(refused(&six, &[3, 0, 0, 1, 10, 20, 3]), Some((6, 3)));
    assert_eq!(refused(&six, &[1, 1, 1]), Some((6, 1)));
    // kind 1 needs w < 8
    let waiting = |lists: usize| Selection((0..lists).flat_map(|_| word(99).0).collect());
    let combined = |lists: usize| (1..lists).fold(waiting(lists), |selection, _| selection.then(2, 0));
    assert_eq!(refused(&six, &combined(8).numbers()), None);
    assert_eq!(refused(&six, &combined(9).numbers()), Some((6, 18)));
    // other kinds need p = 0
    for kind in [2, 3, 4, 5, 6, 9, 15, 16, 17] {
        let mut loose = waiting(2).then(0, 1).then(kind, 0);
        assert_eq!(refused(&six, &loose.numbers()), Some((6, 6)));
        loose.0.remove(4);
        let end = if [2, 3, 5].contains(&kind) { loose } else { loose.then(2, 0) };
        assert_eq!(refused(&six, &end.numbers()), None);
    }
    // kinds 2, 3 and 5 need w ≥ 2, the rest w ≥ 1
    for kind in [2, 3, 5] {
        assert_eq!(refused(&six, &word(1).then(kind, 0).numbers()), Some((6, 3)));
        assert_eq!(refused(&six, &[1, kind, 0]), Some((6, 1)));
    }
    for kind in [4, 6, 10, 13, 16, 17] {
        assert_eq!(refused(&six, &[1, kind, 0]), Some((6, 1)));
        assert_eq!(refused(&six, &word(1).then(kind, 0).numbers()), None);
    }
    // "m if only the end does"
    assert_eq!(refused(&six, &waiting(2).numbers()), Some((6, 4)));
    assert_eq!(refused(&six, &word(1).then(0, 1).numbers()), Some((6, 3)));
    assert_eq!(refused(&six, &[1, 0, 1]), Some((6, 1)));
}

/// Request F-3: "12 at the code where the thing below isn't a phrase".
#[test]
fn twelve_an_occurs_over_a_phrase() {
    let six = six_tokens();
    let over = |selection: Selection| {
        let both = [selection.clone().occurs_at_least(1), selection.occurs(1, 1)];
        let [one, other] = both.map(|selection| refused(&six, &selection.numbers()));
        assert_eq!(one, other);
        one
    };
    assert_eq!(over(word(10)), None);
    assert_eq!(over(phrase(&[10; 8])), None);
    // over every other kind
    assert_eq!(over(word(10).or(word(20))), Some((12, 6)));
    assert_eq!(over(word(10).and(word(20))), Some((12, 6)));
    assert_eq!(over(word(10).not()), Some((12, 4)));
    assert_eq!(over(word(10).mild_not(word(20))), Some((12, 6)));
    for kind in [6, 9, 10, 11, 12, 13, 14, 15] {
        assert_eq!(over(word(10).then(kind, 0)), Some((12, 4)));
    }
    assert_eq!(over(word(10).window(1)), Some((12, 4)));
    assert_eq!(over(word(10).distance(0, 1)), Some((12, 4)));
    assert_eq!(over(word(10).occurs(0, 1)), Some((12, 4)));
    assert_eq!(over(word(10).occurs_at_least(1)), Some((12, 4)));
    // directly below it: a phrase that only waits beside it isn't enough
    let beside = Selection([word(10).0, word(20).not().0].concat());
    assert_eq!(refused(&six, &beside.clone().occurs_at_least(1).then(3, 0).numbers()), Some((12, 6)));
    assert_eq!(refused(&six, &beside.then(3, 0).numbers()), None);
    // where other codes stand between them, both are over their phrase
    let each = word(10).occurs_at_least(1).and(word(20).occurs(0, 9).not());
    assert_eq!(refused(&six, &each.numbers()), None);
    // the first such code
    let several = word(10).occurs_at_least(1).occurs(0, 1).not().occurs_at_least(0);
    assert_eq!(refused(&six, &several.numbers()), Some((12, 4)));
    let right = word(10).occurs_at_least(1).or(word(20).ordered().occurs(0, 1).not().occurs(0, 1));
    assert_eq!(refused(&six, &right.numbers()), Some((12, 7)));
}

#[test]
fn seven_a_not_under_a_mild_not() {
    let six = six_tokens();
    assert_eq!(refused(&six, &word(1).mild_not(word(2)).numbers()), None);
    assert_eq!(refused(&six, &word(1).mild_not(word(2)).not().numbers()), None);
    assert_eq!(refused(&six, &word(1).not().or(word(3).mild_not(word(2))).numbers()), None);
    assert_eq!(refused(&six, &word(1).not().mild_not(word(2)).numbers()), Some((7, 6)));
    assert_eq!(refused(&six, &word(1).mild_not(word(2).not()).numbers()), Some((7, 6)));
    // at any depth
    let deep = word(1).mild_not(word(2).or(word(3).and(word(4).not()).window(3)).ordered());
    assert_eq!(refused(&six, &deep.numbers()), Some((7, 14)));
    // the lowest such kind 5: the one in the middle, not the sound one below it, not the one above
    let sound = word(1).mild_not(word(2));
    let several = sound.clone().mild_not(word(3).not()).mild_not(word(4));
    assert_eq!(refused(&six, &several.numbers()), Some((7, 9)));
    let beside = sound.or(word(3).not()).mild_not(word(4));
    assert_eq!(refused(&six, &beside.numbers()), Some((7, 12)));
}

/// "Document 01's rule against a not under a mild not now counts kind 16 too".
#[test]
fn seven_an_occurs_under_a_mild_not() {
    let six = six_tokens();
    let range = |word_number: u32| word(word_number).occurs(0, 4_095);
    assert_eq!(refused(&six, &range(10).mild_not(word(20)).numbers()), Some((7, 6)));
    assert_eq!(refused(&six, &word(20).mild_not(range(10)).numbers()), Some((7, 6)));
    assert_eq!(refused(&six, &word(20).mild_not(word(30).or(range(10)).ordered()).numbers()), Some((7, 10)));
    // kind 17 is no not
    let least = |word_number: u32| word(word_number).occurs_at_least(0);
    assert_eq!(refused(&six, &least(10).mild_not(word(20)).numbers()), None);
    assert_eq!(refused(&six, &word(20).mild_not(least(10)).numbers()), None);
    assert_eq!(refused(&six, &least(20).mild_not(word(30).or(least(10)).ordered()).numbers()), None);
    // beside a mild not, or over it
    assert_eq!(refused(&six, &range(10).or(word(10).mild_not(word(20))).numbers()), None);
    // the lowest such kind 5
    let several = least(1).mild_not(word(2)).mild_not(range(3)).mild_not(range(4));
    assert_eq!(refused(&six, &several.numbers()), Some((7, 10)));
}

#[test]
fn eight_memory() {
    let six = six_tokens();
    assert_eq!(refused_with(&six, &ok(), WORK, BUFFER), None);
    assert_eq!(refused_with(&six, &ok(), WORK + 1, BUFFER + 1), None);
    assert_eq!(refused_with(&six, &ok(), WORK - 1, BUFFER), Some((8, 0)));
    assert_eq!(refused_with(&six, &ok(), WORK, BUFFER - 1), Some((8, 0)));
    assert_eq!(refused_with(&six, &ok(), 0, 0), Some((8, 0)));
    assert_eq!((WORK, BUFFER), (12_800, 1_282));
}

#[test]
fn nine_size() {
    // the first such code built, kind 0 codes counted
    let many = plain(&[vec![1; 20], vec![2; 20]].concat());
    let product = word(3).or(word(1).and(word(2)));
    assert_eq!(refused(&many, &product.clone().numbers()), Some((9, 7)));
    assert_eq!(refused(&many, &product.clone().and(product).numbers()), Some((9, 7)));
    // 256 matches of one string
    assert_eq!(refused(&plain(&[1; 256]), &word(1).numbers()), None);
    assert_eq!(refused(&plain(&[1; 257]), &word(1).numbers()), Some((9, 2)));
    // 512 strings in few matches: 2^6 matches of 6 + 2, or 6 + 3 strings
    let not = word(1).and(word(2)).or(word(3)).not();
    let counts = |third: usize| plain(&[vec![1; 1], vec![2; 6], vec![3; third]].concat());
    assert_eq!(lines(&counts(2), &not)[0], "no 64 512");
    assert_eq!(refused(&counts(3), &not.numbers()), Some((9, 9)));
    // windows
    assert_eq!(lines(&plain(&[1]), &word(1).window(256))[0], "yes 256 256");
    assert_eq!(refused(&plain(&[1]), &word(1).window(257).numbers()), Some((9, 3)));
}

/// "Tried in this order, each over the whole input before the next."
#[test]
fn order() {
    let six = six_tokens();
    let faulty_section = section(&[1, 2], &[2, 1], &[0, 0]);
    let refused_9 = plain(&[7; 300]);
    assert_eq!(refused_with(&[], &[], 0, 0), Some((1, 0)));
    assert_eq!(refused_with(&faulty_section, &[], 0, 0), Some((2, 2)));
    assert_eq!(refused_with(&section(&[1; 3], &[2, 0, 1], &[0; 3]), &[], 0, 0), Some((2, 3)));
    assert_eq!(refused_with(&section(&[1; 3], &[2, 0, 2], &[0; 3]), &[], 0, 0), Some((3, 0)));
    assert_eq!(refused_with(&six, &[], 0, 0), Some((3, 0)));
    // kind 2 with operand 1 at code 1 and kind 22 at code 2 is 4 at 2
    assert_eq!(refused_with(&six, &[2, 2, 22, 1, 0], 0, 0), Some((4, 2)));
    assert_eq!(refused_with(&six, &[2, 2, 6, 1, 0], 0, 0), Some((5, 1)));
    assert_eq!(refused_with(&six, &[2, 2, 6, 0, 1], 0, 0), Some((5, 2)));
    assert_eq!(refused_with(&six, &[2, 2, 6, 0, 0], 0, 0), Some((6, 1)));
    // a not under a mild not, in a wrong shape
    let mild = word(1).not().mild_not(word(2));
    assert_eq!(refused_with(&six, &mild.clone().then(0, 1).numbers(), 0, 0), Some((6, 7)));
    // an occurs over it: 12 "tried after 6", and before 7
    let over = mild.clone().occurs_at_least(1);
    assert_eq!(refused_with(&six, &over.clone().then(18, 0).numbers(), 0, 0), Some((4, 8)));
    assert_eq!(refused_with(&six, &over.clone().occurs_at_least(4_096).numbers(), 0, 0), Some((5, 8)));
    assert_eq!(refused_with(&six, &over.clone().then(0, 1).numbers(), 0, 0), Some((6, 8)));
    assert_eq!(refused_with(&six, &over.numbers(), 0, 0), Some((12, 7)));
    // and where the mild not stands over the occurs
    let under = word(1).ordered().occurs(0, 1).mild_not(word(2));
    assert_eq!(refused_with(&six, &under.numbers(), 0, 0), Some((12, 4)));
    assert_eq!(refused_with(&six, &word(1).occurs(0, 1).mild_not(word(2)).numbers(), 0, 0), Some((7, 6)));
    assert_eq!(refused_with(&six, &word(1).occurs(0, 1).numbers(), 0, 0), Some((8, 0)));
    assert_eq!(refused_with(&six, &mild.numbers(), 0, 0), Some((7, 6)));
    assert_eq!(refused_with(&refused_9, &word(7).numbers(), 0, 0), Some((8, 0)));
    assert_eq!(refused_with(&refused_9, &word(7).numbers(), WORK, BUFFER), Some((9, 2)));
}

/// The quick answer: "Limits on size hold only for lists built at or under kinds 5 to 15"; those of occurs are in occurs.rs,
/// and that of a filter itself, which request F-4 frees, is in way_out.rs.
#[test]
fn nine_in_the_quick_answer() {
    let many = plain(&[vec![1; 300], vec![2; 300]].concat());
    let yes = |codes| Quick::Answered { yes: true, codes };
    let no = |codes| Quick::Answered { yes: false, codes };
    let refused = |place| Quick::Refused { number: 9, place };
    assert_eq!(quick(&many, &word(1).and(word(2)).numbers()), yes(3));
    assert_eq!(quick(&many, &word(1).and(word(2)).not().numbers()), no(4));
    assert_eq!(quick(&many, &word(1).ordered().numbers()), refused(2));
    assert_eq!(quick(&many, &word(3).and(word(1)).ordered().numbers()), refused(4));
    assert_eq!(quick(&many, &word(3).mild_not(word(1)).numbers()), refused(4));
    // what isn't walked isn't built
    assert_eq!(quick(&many, &word(1).or(word(1).ordered()).numbers()), yes(2));
    assert_eq!(quick(&many, &word(3).and(word(1).ordered()).numbers()), no(2));
    assert_eq!(quick(&many, &word(3).or(word(1).ordered()).numbers()), refused(4));
    assert_eq!(quick(&many, &word(1).and(word(1).ordered()).numbers()), refused(4));
    // "The walk ends at its first refusal."
    assert_eq!(quick(&many, &word(1).ordered().or(word(2).ordered()).numbers()), refused(2));
}
