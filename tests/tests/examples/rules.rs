//! Each of document 01's fifteen rules on a small list, and on lists at both limits ("256 matches or 512 strings") and just
//! over them. Where a rule's list can't be larger than the one it is made of, being at the limits is all there is to ask.
//! Occurs have a file of their own.

use super::*;

/// M, S and the answer.
fn lists(section: &[u32], selection: &Selection, matches: u32, strings: u32, yes: bool) {
    assert_eq!(listing(section, &selection.numbers()), Listing::Listed { matches, strings, yes });
}

/// The list of the last code is the first over a limit.
fn too_long(section: &[u32], selection: &Selection) {
    let place = selection.0.len() as u32;
    assert_eq!(listing(section, &selection.numbers()), Listing::Refused { number: 9, place });
}

/// Word 1 so many times, then word 2 so many times, and so on.
fn counts(counts: &[usize]) -> Vec<u32> {
    let words: Vec<u32> = counts.iter().zip(1..).flat_map(|(&count, word)| vec![word; count]).collect();
    plain(&words)
}

/// The same, each word in a sentence and a paragraph of its own.
fn apart(counts: &[usize]) -> Vec<u32> {
    let words: Vec<u32> = counts.iter().zip(1..).flat_map(|(&count, word)| vec![word; count]).collect();
    section(&words, &words, &words)
}

/// The same, all in one sentence and one paragraph.
fn together(counts: &[usize]) -> Vec<u32> {
    let words: Vec<u32> = counts.iter().zip(1..).flat_map(|(&count, word)| vec![word; count]).collect();
    let ones = vec![1; words.len()];
    section(&words, &ones, &ones)
}

/// Words 1 and 2.
fn both() -> Selection {
    word(1).and(word(2))
}

/// Word 1 and not word 2: an include, and as many excludes as word 2 stands times.
fn without() -> Selection {
    word(1).and(word(2).not())
}

/// Words 1 to 4: with 4, 4, 4 and 1 of them, 64 matches of four strings.
fn four() -> Selection {
    both().and(word(3)).and(word(4))
}

/// A phrase's list has a string for each match, so it never comes to 512.
#[test]
fn phrases() {
    lists(&six_tokens(), &phrase(&[10, 20]), 1, 1, true);
    lists(&counts(&[256]), &word(1), 256, 256, true);
    lists(&counts(&[257]), &phrase(&[1, 1]), 256, 256, true);
    lists(&counts(&[263]), &phrase(&[1; 8]), 256, 256, true);
    too_long(&counts(&[257]), &word(1));
    too_long(&counts(&[258]), &phrase(&[1, 1]));
    too_long(&counts(&[4_096]), &word(1));
}

#[test]
fn ors() {
    let either = word(1).or(word(2));
    lists(&six_tokens(), &word(10).or(word(40)), 3, 3, true);
    lists(&counts(&[128, 128]), &either, 256, 256, true);
    lists(&counts(&[256, 0]), &either, 256, 256, true);
    too_long(&counts(&[128, 129]), &either);
    too_long(&counts(&[256, 1]), &either);
    // 64 matches of four strings, twice; and one string more
    let twice = four().or(four());
    lists(&counts(&[4, 4, 4, 1, 1]), &twice, 128, 512, true);
    too_long(&counts(&[4, 4, 4, 1, 1]), &twice.or(word(5)));
}

#[test]
fn ands() {
    lists(&six_tokens(), &word(10).and(word(20)), 4, 8, true);
    lists(&counts(&[16, 16]), &both(), 256, 512, true);
    lists(&counts(&[256, 1]), &both(), 256, 512, true);
    lists(&counts(&[256, 0]), &both(), 0, 0, false);
    // 257 is prime; 258 is not
    too_long(&counts(&[129, 2]), &both());
    too_long(&counts(&[256, 256]), &both());
    // 64 matches of eight strings
    let eight = four().and(word(4).and(word(4)).and(word(4).and(word(4))));
    lists(&counts(&[4, 4, 4, 1]), &eight, 64, 512, true);
    // 170 and 171 matches of three strings
    lists(&counts(&[10, 17, 1]), &both().and(word(3)), 170, 510, true);
    too_long(&counts(&[9, 19, 1]), &both().and(word(3)));
}

#[test]
fn nots() {
    lists(&six_tokens(), &word(10).not(), 1, 2, false);
    // one match of 256 strings, and of 257
    lists(&counts(&[256]), &word(1).not(), 1, 256, false);
    lists(&counts(&[256]), &word(1).not().not(), 256, 256, true);
    lists(&counts(&[1, 255]), &without().not(), 256, 256, true);
    too_long(&counts(&[1, 256]), &without().not());
    // two matches of 16 strings each; three matches of 9, 19 and 1
    let two = word(1).not().or(word(2).not());
    lists(&counts(&[16, 16]), &two.clone().not(), 256, 512, true);
    lists(&counts(&[10, 17, 1]), &two.clone().or(word(3)).not(), 170, 510, false);
    too_long(&counts(&[9, 19, 1]), &two.or(word(3)).not());
    // 2^240 on the way to nothing: a match without strings stands in the list
    lists(&counts(&[16, 15]), &both().or(word(9).not()).not(), 0, 0, false);
}

/// It leaves matches out.
#[test]
fn mild_nots() {
    lists(&six_tokens(), &word(10).mild_not(phrase(&[10, 20])), 1, 1, true);
    lists(&counts(&[256]), &word(1).mild_not(word(2)), 256, 256, true);
    lists(&counts(&[256]), &word(1).mild_not(word(1)), 0, 0, false);
    lists(&counts(&[16, 16, 256]), &both().mild_not(word(3)), 256, 512, true);
    lists(&counts(&[16, 16]), &both().mild_not(both()), 0, 0, false);
}

/// It leaves matches and excludes out.
#[test]
fn ordereds() {
    lists(&six_tokens(), &word(10).and(word(20)).ordered(), 3, 6, true);
    lists(&counts(&[256]), &word(1).ordered(), 256, 256, true);
    lists(&counts(&[16, 16]), &both().ordered(), 256, 512, true);
    lists(&counts(&[16, 16]), &word(2).and(word(1)).ordered(), 0, 0, false);
    lists(&counts(&[256, 1]), &without().ordered(), 256, 512, false);
}

#[test]
fn windows() {
    lists(&six_tokens(), &word(10).and(word(20)).window(3), 4, 4, true);
    lists(&counts(&[1]), &word(1).window(256), 256, 256, true);
    lists(&counts(&[256]), &word(1).window(1), 256, 256, true);
    lists(&counts(&[128]), &word(1).window(2), 256, 256, true);
    too_long(&counts(&[1]), &word(1).window(257));
    too_long(&counts(&[129]), &word(1).window(2));
    too_long(&counts(&[1]), &word(1).window(4_096));
    too_long(&counts(&[256]), &word(1).window(4_096));
    // with one exclude in every window, and with two
    let one = word(1).and(word(1).not());
    let two = word(1).and(word(1).or(word(1)).not());
    lists(&counts(&[1]), &one.clone().window(256), 256, 512, false);
    lists(&counts(&[1]), &two.clone().window(170), 170, 510, false);
    too_long(&counts(&[1]), &two.window(171));
    // an exclude beside the include is in every window but one
    lists(&counts(&[1, 1]), &without().window(256), 256, 511, true);
}

/// It leaves matches and excludes out, and joins.
#[test]
fn distances() {
    lists(&six_tokens(), &word(10).and(word(20)).distance(1, 1), 2, 2, true);
    lists(&counts(&[256]), &word(1).distance(9, 9), 256, 256, true);
    lists(&counts(&[16, 16]), &both().distance(0, 4_095), 256, 256, true);
    lists(&counts(&[16, 16]), &both().distance(0, 0), 1, 1, true);
    lists(&counts(&[256, 1]), &without().distance(0, 4_095), 256, 512, false);
    lists(&counts(&[256, 1]), &without().distance(0, 0), 256, 257, true);
}

/// They leave matches and excludes out.
#[test]
fn sames() {
    let in_one = [Selection::same_sentence, Selection::same_paragraph];
    for (same, (small, strings, yes)) in in_one.into_iter().zip([(2, 3, true), (2, 4, false)]) {
        lists(&six_tokens(), &same(word(10).and(word(40).not())), small, strings, yes);
        lists(&together(&[256]), &same(word(1)), 256, 256, true);
        lists(&together(&[16, 16]), &same(both()), 256, 512, true);
        lists(&apart(&[16, 16]), &same(both()), 0, 0, false);
        lists(&together(&[256, 1]), &same(without()), 256, 512, false);
        lists(&apart(&[256, 1]), &same(without()), 256, 256, true);
        lists(&counts(&[256]), &same(word(1)), 0, 0, false);
    }
}

/// They leave matches and excludes out.
#[test]
fn differents() {
    let in_many = [Selection::different_sentence, Selection::different_paragraph];
    for (different, (small, strings)) in in_many.into_iter().zip([(2, 4), (0, 0)]) {
        lists(&six_tokens(), &different(word(10).and(word(20))), small, strings, small > 0);
        lists(&apart(&[16, 16]), &different(both()), 256, 512, true);
        lists(&apart(&[256, 1]), &different(both()), 256, 512, true);
        lists(&together(&[16, 16]), &different(both()), 0, 0, false);
        lists(&apart(&[256]), &different(word(1)), 0, 0, false);
        lists(&apart(&[1, 128, 1]), &different(both().and(word(3).not())), 128, 384, false);
        // of two excludes, each in a match of its own, the one in word 1's unit goes
        lists(&apart(&[1, 64, 1]), &different(both().and(word(3).and(word(1)).not())), 128, 320, true);
    }
}

/// They leave matches out.
#[test]
fn starts_and_ends() {
    lists(&six_tokens(), &word(10).at_start(), 1, 1, true);
    lists(&six_tokens(), &word(20).at_end(), 1, 1, true);
    lists(&counts(&[1]), &word(1).window(256).at_start(), 256, 256, true);
    lists(&counts(&[1]), &word(1).window(256).at_end(), 256, 256, true);
    lists(&counts(&[1, 256]), &both().at_start(), 256, 512, true);
    lists(&counts(&[1, 256]), &both().at_end(), 1, 2, true);
    lists(&counts(&[256, 1]), &both().at_end(), 256, 512, true);
    lists(&counts(&[256, 1]), &both().at_start(), 1, 2, true);
}

/// It leaves matches out.
#[test]
fn entire_contents() {
    lists(&plain(&[1, 2, 3]), &phrase(&[1, 2]).and(word(3)).entire_content(), 1, 2, true);
    lists(&counts(&[1]), &word(1).window(256).entire_content(), 256, 256, true);
    lists(&counts(&[1]), &word(1).and(word(1).not()).window(256).entire_content(), 256, 512, false);
    lists(&counts(&[2]), &word(1).window(128).entire_content(), 0, 0, false);
    lists(&counts(&[8]), &phrase(&[1; 8]).window(263).entire_content(), 256, 256, true);
}
