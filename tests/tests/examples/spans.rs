//! Document 02's F-2: what is read of a span are its start and its end, for every start and for every end up to 4,096.

use super::*;

/// The positions of the longest section; without optimisation some of them, with the first and the last.
fn positions() -> impl Iterator<Item = usize> {
    (1..=4_096).step_by(if cfg!(debug_assertions) { 63 } else { 1 })
}

/// The longest section, with word 5 at one position and word 6 at a later one. A window joins the two to one string; a second
/// one reads its span, and gives one match only if it is as wide as it was written.
fn joined(five: usize, six: usize) -> (Vec<u32>, Selection) {
    let mut words = vec![0; 4_096];
    (words[five - 1], words[six - 1]) = (5, 6);
    let length = (six - five + 1) as u32;
    (plain(&words), word(5).and(word(6)).window(length).window(length))
}

/// The one line that a filter after the two windows leaves of the listing.
fn kept((section, selection): (Vec<u32>, Selection), filter: impl Fn(Selection) -> Selection) -> String {
    let [head, line] = &lines(&section, &filter(selection))[..] else { panic!("one match") };
    assert_eq!(head, "yes 1 1");
    line.clone()
}

/// A string from each position to the last, which covers the last.
#[test]
fn every_start() {
    for start in positions().filter(|&start| start < 4_096) {
        let mark = if start == 4_095 { 'c' } else { 'n' };
        assert_eq!(kept(joined(start, 4_096), Selection::at_end), format!("+{start}-4096 q1 {mark}"));
    }
}

/// A string from the first position to each, which covers the first.
#[test]
fn every_end() {
    for end in positions().filter(|&end| end > 1) {
        let mark = if end == 2 { 'c' } else { 'n' };
        assert_eq!(kept(joined(1, end), Selection::at_start), format!("+1-{end} q1 {mark}"));
    }
}
