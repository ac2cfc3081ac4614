//! How large a list will be, known before it is made.
//!
//! A not can have 2^256 matches, and so can an occurs, so a list is counted first and made only if it is small enough.
//! Nothing here says what a list holds: that is in [`crate::rules`], and the tests hold these numbers to the lists made
//! there. All arithmetic stops at the top of u128, far above every limit; a zero factor still gives zero.

use crate::families::Searched;
use crate::rules::{self, Match, Str};

/// The size of a list: its matches, and the strings of them all.
#[derive(Clone, Copy, Debug, PartialEq, Eq)]
pub struct Size {
    pub matches: u128,
    pub strings: u128,
}

/// The most that a list may have of either.
#[derive(Clone, Copy, Debug, PartialEq, Eq)]
pub struct Limits {
    pub matches: u128,
    pub strings: u128,
}

/// "9, the first such code built: its list has over 256 matches or 512 strings".
pub const PAPER: Limits = Limits { matches: 256, strings: 512 };

/// How far the unlimited lists are really made. Not a limit of the paper: only a guard of the memory.
pub const GUARD: Limits = Limits { matches: 20_000, strings: 100_000 };

/// How far they are made to compare a case, where time counts: any phrase list is within it.
pub const COMPARED: Limits = Limits { matches: 4_096, strings: 20_000 };

impl Size {
    /// The size of a list that has been made.
    pub fn of(list: &[Match]) -> Size {
        Size { matches: list.len() as u128, strings: list.iter().map(|m| m.strings() as u128).sum() }
    }

    pub fn within(self, limits: Limits) -> bool {
        self.matches <= limits.matches && self.strings <= limits.strings
    }
}

/// A phrase: one match of one string per start.
pub fn phrase(searched: &Searched, words: &[u32]) -> Size {
    let rows = searched.words.windows(words.len());
    let starts = rows.filter(|row| rules::fits(searched, words, row)).count() as u128;
    Size { matches: starts, strings: starts }
}

/// An or: both lists together.
pub fn or(left: &[Match], right: &[Match]) -> Size {
    let (l, r) = (Size::of(left), Size::of(right));
    Size { matches: l.matches + r.matches, strings: l.strings + r.strings }
}

/// An and: each match of the left stands once for each of the right, with its strings, and the other way round.
pub fn and(left: &[Match], right: &[Match]) -> Size {
    product(Size::of(left), Size::of(right))
}

fn product(l: Size, r: Size) -> Size {
    Size {
        matches: l.matches.saturating_mul(r.matches),
        strings: l.strings.saturating_mul(r.matches).saturating_add(r.strings.saturating_mul(l.matches)),
    }
}

/// A not: it chooses one string of every match in every way, so the string counts are multiplied, and each of its matches
/// has as many strings as the list below has matches. A match without strings below makes it empty, however large the
/// other factors are; a list below without matches makes it one match without strings.
pub fn not(list: &[Match]) -> Size {
    let matches = list.iter().fold(1u128, |product, m| product.saturating_mul(m.strings() as u128));
    Size { matches, strings: matches.saturating_mul(list.len() as u128) }
}

/// A window: a match for each W, with one include and with each exclude for each W whose window holds it.
pub fn window(list: &[Match], size: u32) -> Size {
    let size = size as i64;
    let how_many = |least: i64, greatest: i64| (greatest - least + 1).max(0) as u128;
    let mut total = Size { matches: 0, strings: 0 };
    for m in list {
        let Some(joined) = rules::join(&m.includes) else { continue };
        let (least, greatest) = (joined.end as i64 - size + 1, joined.start as i64);
        let copies = how_many(least, greatest);
        total.matches += copies;
        total.strings += copies;
        for exclude in &m.excludes {
            let (first, last) = (exclude.end as i64 - size + 1, exclude.start as i64);
            total.strings += how_many(least.max(first), greatest.min(last));
        }
    }
    total
}

/// Which windows of a match have no exclude inside, as rows of their W, from first to last. Each exclude takes a row of
/// windows out, those whose W lies from its end − N + 1 to its start; no window is made for it.
pub fn free_windows(m: &Match, size: u32) -> Vec<(i64, i64)> {
    let row = |s: &Str| (s.end as i64 - size as i64 + 1, s.start as i64);
    let is_row = |(first, last): &(i64, i64)| first <= last;
    let mut free: Vec<(i64, i64)> = rules::join(&m.includes).iter().map(row).filter(is_row).collect();
    for (first_out, last_out) in m.excludes.iter().map(row).filter(is_row) {
        let rest = |(first, last): (i64, i64)| [(first, last.min(first_out - 1)), (first.max(last_out + 1), last)];
        free = free.into_iter().flat_map(rest).filter(is_row).collect();
    }
    free
}

/// n choose k, for every k from 0 to n.
fn binomials(n: usize) -> Vec<u128> {
    let mut rising = vec![1];
    for k in 1..=n / 2 {
        rising.push(match rising[k - 1] {
            u128::MAX => u128::MAX,
            before => scaled(before, (n - k + 1) as u128, k as u128),
        });
    }
    (0..=n).map(|k| rising[k.min(n - k)]).collect()
}

/// A number × `times` / `by`, which is a whole one. It alone can be too large, not what is on the way to it.
fn scaled(number: u128, times: u128, by: u128) -> u128 {
    let common = common_divisor(number, by);
    (number / common).saturating_mul(times / (by / common))
}

fn common_divisor(one: u128, other: u128) -> u128 {
    match other {
        0 => one,
        _ => common_divisor(other, one % other),
    }
}

/// At least a of a phrase's matches: each has one string, so a choice of k is a match of k strings.
pub fn at_least(finds: usize, a: u32) -> Size {
    let mut total = Size { matches: 0, strings: 0 };
    for (k, ways) in binomials(finds).into_iter().enumerate().skip(a as usize) {
        total.matches = total.matches.saturating_add(ways);
        total.strings = total.strings.saturating_add(ways.saturating_mul(k as u128));
    }
    total
}

/// The not of at least so many: a factor k for each choice of k, and each of its matches has a string of every choice.
fn not_at_least(finds: usize, least: u32) -> Size {
    let factors = binomials(finds).into_iter().enumerate().skip(least as usize).map(|(k, ways)| power(k, ways));
    let matches = factors.fold(1, u128::saturating_mul);
    Size { matches, strings: matches.saturating_mul(at_least(finds, least).matches) }
}

/// A power of any exponent but 0: one over 128 has stopped at the top if the base is over 1, and changes nothing if it isn't.
fn power(base: usize, exponent: u128) -> u128 {
    (base as u128).saturating_pow(exponent.min(128) as u32)
}

/// From a to b of a phrase's matches: the and of at least a with the not of at least b + 1. (Reading: "only its final list is
/// measured".)
pub fn from_to(finds: usize, a: u32, b: u32) -> Size {
    product(at_least(finds, a), not_at_least(finds, b + 1))
}

#[cfg(test)]
mod tests {
    use super::*;
    use crate::engine::{self, RuleBook};
    use crate::gen::{self, Rng};
    use crate::rules::AllMatches;
    use crate::section::Section;
    use crate::selection::{self, Tree};
    use crate::WORK;

    /// Any list, also such that no selection gives.
    fn random_list(rng: &mut Rng, matches: usize, strings: usize) -> AllMatches {
        let string = |rng: &mut Rng| {
            let start = rng.from_to(1, 9) as u32;
            Str {
                start,
                end: start + rng.below(3) as u32,
                query: rng.from_to(1, 4) as u32,
                contiguous: rng.chance(1, 2),
            }
        };
        let strings = |rng: &mut Rng| (0..rng.below(strings + 1)).map(|_| string(rng)).collect();
        (0..rng.below(matches + 1)).map(|_| Match { includes: strings(rng), excludes: strings(rng) }).collect()
    }

    #[test]
    fn counted_as_made_on_any_lists() {
        let mut rng = Rng::new(11, 0);
        let mut stringless = 0;
        for _ in 0..20_000 {
            let (left, right) = (random_list(&mut rng, 5, 2), random_list(&mut rng, 5, 2));
            assert_eq!(or(&left, &right), Size::of(&rules::or(&left, &right)));
            assert_eq!(and(&left, &right), Size::of(&rules::and(&left, &right)));
            assert_eq!(not(&left), Size::of(&rules::not(&left)));
            let size = rng.from_to(1, 15) as u32;
            assert_eq!(window(&left, size), Size::of(&rules::window(&left, size)));
            stringless += usize::from(left.iter().any(|m| m.strings() == 0));
        }
        assert!(stringless > 2_000);
    }

    /// The free windows of a match are those that the window rule gives without excludes.
    #[test]
    fn free_windows_are_those_made() {
        let mut rng = Rng::new(14, 0);
        let mut met = [0; 4];
        for _ in 0..40_000 {
            let includes = rng.from_to(0, 2);
            let mut m = Match::default();
            for index in 0..includes + rng.below(7) {
                let start = rng.from_to(1, 30) as u32;
                let end = start + if index < includes { rng.below(3) as u32 } else { rng.pick(&[0, 1, 9, 13, 15, 17]) };
                let string = Str { start, end, query: 1, contiguous: true };
                if index < includes {
                    m.includes.push(string);
                } else {
                    m.excludes.push(string);
                }
            }
            let size = rng.pick(&[1, 2, 5, 12, 15, 18, 20]);
            let copies = rules::window(std::slice::from_ref(&m), size);
            let all = rules::join(&m.includes).into_iter().flat_map(|joined| rules::windows(&joined, size));
            let made: Vec<i64> =
                all.zip(&copies).filter(|(_, copy)| copy.excludes.is_empty()).map(|(w, _)| w.0).collect();
            let rows = free_windows(&m, size);
            assert_eq!(
                rows.iter().flat_map(|(first, last)| *first..=*last).collect::<Vec<i64>>(),
                made,
                "{m:?}, {size}"
            );
            met[rows.len().min(3)] += 1;
        }
        assert!(met.iter().all(|&times| times > 30), "{met:?}");
    }

    /// A phrase's list: so many matches of one string.
    fn finds(count: usize) -> AllMatches {
        let string = |start| Str { start, end: start, query: 1, contiguous: true };
        (1..=count as u32).map(|start| Match { includes: vec![string(start)], excludes: vec![] }).collect()
    }

    #[test]
    fn occurs_counted_as_made() {
        for count in 0..=10 {
            let list = finds(count);
            for a in 0..=12 {
                assert_eq!(at_least(count, a), Size::of(&rules::at_least(&list, a)), "{count}, at least {a}");
                // also with a over b, which no selection has
                for b in (0..=12).filter(|&b| from_to(count, a, b).within(GUARD)) {
                    let made = Size::of(&rules::from_to(&list, a, b));
                    assert_eq!(from_to(count, a, b), made, "{count}, from {a} to {b}");
                }
            }
        }
        // at the sizes where most choices are all, or all but one
        for count in [20, 21, 22, 23, 255, 256, 257] {
            let list = finds(count);
            for a in count as u32 - 1..=count as u32 + 1 {
                assert_eq!(at_least(count, a), Size::of(&rules::at_least(&list, a)), "{count}, at least {a}");
                let made = Size::of(&rules::from_to(&list, a, a));
                assert_eq!(from_to(count, a, a), made, "{count}, from {a} to {a}");
            }
        }
    }

    /// "Only its final list is measured" (reading): with a ≤ b, as every selection has it, neither side of the and is over a
    /// limit that the final list keeps, and neither is what the not is made of.
    #[test]
    fn what_is_on_the_way_is_never_larger() {
        for (count, b) in (0..=60).flat_map(|count| (0..=62).map(move |b| (count, b))) {
            for a in (0..=b).filter(|&a| from_to(count, a, b).within(PAPER)) {
                let on_the_way = [at_least(count, a), at_least(count, b + 1), not_at_least(count, b + 1)];
                assert!(on_the_way.iter().all(|size| size.within(PAPER)), "{count}, from {a} to {b}");
            }
        }
    }

    #[test]
    fn binomials_are_sums_of_two_above() {
        let mut above = vec![1u128];
        for n in 1..=300 {
            let sums = above.windows(2).map(|pair| pair[0].saturating_add(pair[1]));
            above = [1].into_iter().chain(sums).chain([1]).collect();
            assert_eq!(binomials(n), above, "{n}");
        }
        assert_eq!(binomials(4_096)[4_095], 4_096);
        assert_eq!(binomials(4_096)[2_048], u128::MAX);
    }

    /// Far beyond every limit; and empty where the and has an empty side, however large the other is.
    #[test]
    fn occurs_at_the_top() {
        let top = Size { matches: u128::MAX, strings: u128::MAX };
        assert_eq!(at_least(120, 0), Size { matches: 1 << 120, strings: 60 << 120 });
        assert_eq!(at_least(128, 0), top);
        assert_eq!(at_least(4_096, 0), top);
        assert_eq!(at_least(4_096, 4_095), Size { matches: 4_097, strings: 4_096 * 4_096 });
        assert_eq!(from_to(4_096, 0, 0), top);
        assert_eq!(from_to(4_095, 4_095, 4_095), Size { matches: 1, strings: 4_095 });
        assert_eq!(from_to(4, 2, 1).matches, 11 * 2u128.pow(6) * 3u128.pow(4) * 4);
        assert_eq!(not_at_least(200, 1), top);
        assert_eq!(from_to(200, 201, 0), Size { matches: 0, strings: 0 });
        // the not of a list that has the empty choice
        assert_eq!(not_at_least(200, 0), Size { matches: 0, strings: 0 });
    }

    /// What isn't counted before isn't larger than the list it is made from.
    #[test]
    fn the_other_rules_never_add() {
        let mut rng = Rng::new(12, 0);
        let (sentences, paragraphs) = ((1..=12).collect(), (1..=12).map(|p| p / 4 + 1).collect());
        let section = Section { words: vec![0; 12], sentences, paragraphs };
        for _ in 0..20_000 {
            let (left, right) = (random_list(&mut rng, 5, 2), random_list(&mut rng, 5, 2));
            let book = RuleBook::paper();
            let a = rng.below(3) as u32;
            let lists = [
                (book.mild_not)(&left, &right),
                (book.ordered)(&left),
                (book.distance)(&left, a, a + 2),
                (book.same)(&section, selection::Unit::Sentence, &left),
                (book.different)(&section, selection::Unit::Paragraph, &left),
                (book.at_start)(&section, &left),
                (book.at_end)(&section, &left),
                (book.entire_content)(&section, &left),
            ];
            let before = Size::of(&left);
            for list in lists {
                let after = Size::of(&list);
                assert!(after.matches <= before.matches && after.strings <= before.strings);
            }
        }
    }

    /// Every list of a selection, as far as it can be made, against what was counted before.
    fn check_tree(section: &Searched, tree: &Tree, checked: &mut usize) -> Option<AllMatches> {
        let below: Option<Vec<AllMatches>> = tree.below.iter().map(|side| check_tree(section, side, checked)).collect();
        let below = below?;
        let below: Vec<&[Match]> = below.iter().map(Vec::as_slice).collect();
        let book = RuleBook::paper();
        let list = book.list_within(GUARD, section, &tree.rule, &below).ok()?;
        if let Some(size) = book.forecast(section, &tree.rule, &below) {
            assert_eq!(size, Size::of(&list), "{tree}");
            *checked += 1;
        }
        Some(list)
    }

    #[test]
    fn counted_as_made_in_random_cases() {
        let mut checked = 0;
        for case in gen::cases(13, 2_000) {
            if let Ok((section, tree)) = engine::check(&case.section, &case.families, &case.selection, WORK, None) {
                check_tree(&section, &tree, &mut checked);
            }
        }
        assert!(checked > 5_000, "{checked}");
    }

    #[test]
    fn at_the_top() {
        let string = Str { start: 1, end: 1, query: 1, contiguous: true };
        let two = Match { includes: vec![string; 2], excludes: vec![] };
        let exact = vec![two.clone(); 127];
        assert_eq!(not(&exact).matches, 1 << 127);
        let beyond = vec![two; 256];
        assert_eq!(not(&beyond), Size { matches: u128::MAX, strings: u128::MAX });
        // a not with a stringless match below it is empty, however large the rest of its product
        for at in [0, 100, 256] {
            let mut empty = beyond.clone();
            empty.insert(at, Match::default());
            assert_eq!(not(&empty), Size { matches: 0, strings: 0 });
        }
        assert_eq!(not(&[]), Size { matches: 1, strings: 0 });
    }
}
