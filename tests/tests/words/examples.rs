//! Document 01's examples of 'Six tokens', in its words and order.

use super::*;

pub struct Example {
    pub name: &'static str,
    pub section: Vec<u32>,
    pub selection: Vec<u32>,
}

pub fn examples() -> Vec<Example> {
    let make = |name, section, selection: Selection| Example { name, section, selection: selection.numbers() };
    let six = |name, selection| make(name, six_tokens(), selection);
    let both = || word(10).and(word(20));
    let without = || word(10).and(word(40).not());
    let windows = word(1).and(word(3)).window(3).and(word(2).and(word(4)).window(3));
    let by = |a, b| plain(&[vec![1; a], vec![2; b]].concat());
    let last = |n: usize| plain(&[vec![0; n - 1], vec![5]].concat());
    let nots = |m: usize| (2..m).fold(word(5), |selection, _| selection.not());
    let ends = || plain(&[vec![5], vec![0; 4_094], vec![6]].concat());
    let ends_within = |size| word(5).and(word(6)).window(size);
    vec![
        six("10", word(10)),
        six("10 and 20", both()),
        six("10 and 20, ordered", both().ordered()),
        six("10 and 20, distance 1 to 1", both().distance(1, 1)),
        six("10 and not 40", without()),
        six("10 and not 40, in the same sentence", without().same_sentence()),
        six("not 99", word(99).not()),
        six("not not 10", word(10).not().not()),
        six("not (10 and 20)", both().not()),
        six("10 mild not the phrase 10 20", word(10).mild_not(phrase(&[10, 20]))),
        make("empty section, not 10, entire content", plain(&[]), word(10).not().entire_content()),
        make("empty section, not 10, at start", plain(&[]), word(10).not().at_start()),
        make(
            "words 1 2 3 4: ((1 and 3) window 3) and ((2 and 4) window 3), entire content",
            plain(&[1, 2, 3, 4]),
            windows.entire_content(),
        ),
        make("16 by 16 finds joined by and", by(16, 16), word(1).and(word(2))),
        make("16 by 17 finds joined by and", by(16, 17), word(1).and(word(2))),
        make("300 equal tokens, that word", plain(&[7; 300]), word(7)),
        make("n 4,096: the last word", last(4_096), word(5)),
        make("n 4,097: the last word", last(4_097), word(5)),
        make("m 64: not not .. 5", plain(&[5]), nots(64)),
        make("m 65: not not .. 5", plain(&[5]), nots(65)),
        make("N 4,096: the first word and the last, window 4,096", ends(), ends_within(4_096)),
        make("N 4,097: the first word and the last, window 4,097", ends(), ends_within(4_097)),
        make("eight waiting lists: 5 and 5 and ..", plain(&[5]), waiting(8)),
        make("nine waiting lists: 5 and 5 and ..", plain(&[5]), waiting(9)),
        six("10 and 20, window 3", both().window(3)),
    ]
}

/// So many phrases, which wait all at once, and then the ands of them.
fn waiting(lists: usize) -> Selection {
    let phrases = Selection(vec![word(5).0; lists].concat());
    (1..lists).fold(phrases, |selection, _| selection.then(3, 0))
}
