//! "The lists": every rule of the paper, request F-3's occurs and F-6's families, as a function from lists to a list, with no
//! limit on anything.
//!
//! "L is the left list, R the right."

use crate::families::Searched;
use crate::section::Section;
use crate::selection::Unit;

/// "A string has a span (start, end), a query position and a contiguous mark."
#[derive(Clone, Copy, Debug, PartialEq, Eq, PartialOrd, Ord)]
pub struct Str {
    pub start: u32,
    pub end: u32,
    pub query: u32,
    pub contiguous: bool,
}

/// "A match is a list of includes and a list of excludes."
#[derive(Clone, Debug, Default, PartialEq, Eq, PartialOrd, Ord)]
pub struct Match {
    pub includes: Vec<Str>,
    pub excludes: Vec<Str>,
}

pub type AllMatches = Vec<Match>;

impl Str {
    pub fn covers(&self, position: u32) -> bool {
        self.start <= position && position <= self.end
    }
}

impl Match {
    /// How many strings of both sorts.
    pub fn strings(&self) -> usize {
        self.includes.len() + self.excludes.len()
    }

    /// Is the position covered by an include?
    pub fn covers(&self, position: u32) -> bool {
        self.includes.iter().any(|s| s.covers(position))
    }
}

/// Yes or no. (Reading: some match has no excludes; a match with no strings at all is one.)
pub fn is_yes(list: &[Match]) -> bool {
    list.iter().any(|m| m.excludes.is_empty())
}

/// "Phrase: one match per start where the k words stand in a row, ascending, holding one contiguous include. Its query
/// position is its rank among the kind-1 codes, from 1." Since request F-6 "a phrase fits where each word equals its token
/// or both are in the table with the same family."
pub fn phrase(searched: &Searched, words: &[u32], query: u32) -> AllMatches {
    let length = words.len() as u32;
    searched
        .words
        .windows(words.len())
        .zip(1..)
        .filter(|(row, _)| fits(searched, words, row))
        .map(|(_, start)| Match {
            includes: vec![Str { start, end: start + length - 1, query, contiguous: true }],
            excludes: vec![],
        })
        .collect()
}

/// Does each word of a phrase fit the token in its place?
pub fn fits(searched: &Searched, words: &[u32], row: &[u32]) -> bool {
    words.iter().zip(row).all(|(word, token)| searched.families.fits(*word, *token))
}

/// "Or: L's matches, then R's."
pub fn or(left: &[Match], right: &[Match]) -> AllMatches {
    [left, right].concat()
}

/// "And: for each of L, for each of R, includes joined left then right, excludes likewise."
pub fn and(left: &[Match], right: &[Match]) -> AllMatches {
    let mut list = vec![];
    for l in left {
        for r in right {
            list.push(Match {
                includes: [&l.includes[..], &r.includes[..]].concat(),
                excludes: [&l.excludes[..], &r.excludes[..]].concat(),
            });
        }
    }
    list
}

/// "Not of an empty list: one match with no strings. Otherwise, for each string of the first match (includes, then
/// excludes), for each match of the not of the remaining list: that string turned to the other sort and put ahead in its
/// list."
pub fn not(list: &[Match]) -> AllMatches {
    // the recursion on the list, from its end
    list.iter().rev().fold(vec![Match::default()], |rest, first| not_one(first, &rest))
}

/// The not of a list, from its first match and the not of the remaining list.
fn not_one(first: &Match, rest: &[Match]) -> AllMatches {
    let ahead = |s: &Str, list: &[Str]| -> Vec<Str> { [&[*s], list].concat() };
    let mut list = vec![];
    for include in &first.includes {
        for m in rest {
            list.push(Match { includes: m.includes.clone(), excludes: ahead(include, &m.excludes) });
        }
    }
    for exclude in &first.excludes {
        for m in rest {
            list.push(Match { includes: ahead(exclude, &m.includes), excludes: m.excludes.clone() });
        }
    }
    list
}

/// "Mild not: L's matches in which, for every match of R, some position covered by an include isn't covered by R's
/// includes." (Reading: by those of that one match of R.)
pub fn mild_not(left: &[Match], right: &[Match]) -> AllMatches {
    let sticks_out = |l: &Match, r: &Match| {
        l.includes.iter().any(|include| (include.start..=include.end).any(|position| !r.covers(position)))
    };
    left.iter().filter(|l| right.iter().all(|r| sticks_out(l, r))).cloned().collect()
}

/// "Ordered: two strings agree if start and query position both do not fall, or both do not rise, from one to the other."
pub fn agree(one: &Str, other: &Str) -> bool {
    let neither_falls = one.start <= other.start && one.query <= other.query;
    let neither_rises = one.start >= other.start && one.query >= other.query;
    neither_falls || neither_rises
}

/// "Kept if all pairs of includes agree; an exclude stays if it agrees with every include."
pub fn ordered(list: &[Match]) -> AllMatches {
    let agrees_with_all = |s: &Str, includes: &[Str]| includes.iter().all(|include| agree(s, include));
    list.iter()
        .filter(|m| m.includes.iter().all(|s| agrees_with_all(s, &m.includes)))
        .map(|m| keeping(m, |exclude| agrees_with_all(exclude, &m.includes)))
        .collect()
}

/// The match with its includes, and the excludes for which the test holds.
fn keeping(m: &Match, stays: impl Fn(&Str) -> bool) -> Match {
    Match { includes: m.includes.clone(), excludes: m.excludes.iter().copied().filter(|e| stays(e)).collect() }
}

/// "Join: no includes give none. Otherwise one include from least start to greatest end, with the first include's query
/// position; contiguous if every position in it is covered and all were contiguous." (Reading: the first include is first
/// in the match's order, not leftmost.)
pub fn join(includes: &[Str]) -> Option<Str> {
    let first = includes.first()?;
    let start = includes.iter().map(|s| s.start).min()?;
    let end = includes.iter().map(|s| s.end).max()?;
    let all_contiguous = includes.iter().all(|s| s.contiguous);
    let covered = |position| includes.iter().any(|s| s.covers(position));
    let contiguous = all_contiguous && (start..=end).all(covered);
    Some(Str { start, end, query: first.query, contiguous })
}

/// "Window: for each match with includes and each W from (greatest end − N + 1) up to least start, one match: the join,
/// and the excludes inside W to W + N − 1. W may be zero or negative. Equal copies are all listed. A match without
/// includes is dropped."
pub fn window(list: &[Match], size: u32) -> AllMatches {
    let mut result = vec![];
    for m in list {
        let Some(joined) = join(&m.includes) else { continue };
        for (first, last) in windows(&joined, size) {
            let inside = |e: &&Str| first <= e.start as i64 && e.end as i64 <= last;
            result
                .push(Match { includes: vec![joined], excludes: m.excludes.iter().filter(inside).copied().collect() });
        }
    }
    result
}

/// The windows of a joined include, as their first and last positions, W to W + N − 1.
pub fn windows(joined: &Str, size: u32) -> impl Iterator<Item = (i64, i64)> {
    let size = size as i64;
    let least = joined.end as i64 - size + 1;
    let greatest = joined.start as i64;
    (least..=greatest).map(move |w| (w, w + size - 1))
}

/// "Distance of two spans, sorted by start then end: second start − first end − 1, or 0 where that is negative."
pub fn span_distance(one: &Str, other: &Str) -> u32 {
    let mut sorted = [(one.start, one.end), (other.start, other.end)];
    sorted.sort();
    let [(_, first_end), (second_start, _)] = sorted;
    (second_start as i64 - first_end as i64 - 1).max(0) as u32
}

/// "Kept if all neighbours among the sorted includes lie in a to b; the result holds the join and the excludes whose
/// distance to every include lies in a to b. Zero or one include passes."
pub fn distance(list: &[Match], a: u32, b: u32) -> AllMatches {
    let lies = |one: &Str, other: &Str| (a..=b).contains(&span_distance(one, other));
    let mut result = vec![];
    for m in list {
        let mut sorted = m.includes.clone();
        sorted.sort_by_key(|s| (s.start, s.end));
        if sorted.windows(2).all(|pair| lies(&pair[0], &pair[1])) {
            let kept = keeping(m, |exclude| m.includes.iter().all(|include| lies(exclude, include)));
            result.push(Match { includes: join(&m.includes).into_iter().collect(), ..kept });
        }
    }
    result
}

/// "A sentence or paragraph of a span's start or end is that of the token there."
pub fn units(section: &Section, unit: Unit, s: &Str) -> (u32, u32) {
    match unit {
        Unit::Sentence => (section.sentence(s.start), section.sentence(s.end)),
        Unit::Paragraph => (section.paragraph(s.start), section.paragraph(s.end)),
    }
}

/// "Same: kept if each include starts and ends in one nonzero unit, the same for all (none passes). An exclude stays if
/// it does so in the includes' unit; without includes, in any one nonzero unit."
pub fn same(section: &Section, unit: Unit, list: &[Match]) -> AllMatches {
    let one_unit = |s: &Str| {
        let (start, end) = units(section, unit, s);
        (start == end && start != 0).then_some(start)
    };
    let mut result = vec![];
    for m in list {
        let Some(first) = m.includes.first() else {
            result.push(keeping(m, |exclude| one_unit(exclude).is_some()));
            continue;
        };
        let Some(home) = one_unit(first) else { continue };
        let is_home = |s: &Str| one_unit(s) == Some(home);
        if m.includes.iter().all(is_home) {
            result.push(keeping(m, is_home));
        }
    }
    result
}

/// "Different: at least two includes, all units nonzero, and no two includes' unit ranges overlapping. An exclude stays
/// if its units are nonzero and overlap no include's."
pub fn different(section: &Section, unit: Unit, list: &[Match]) -> AllMatches {
    let range = |s: &Str| units(section, unit, s);
    let nonzero = |s: &Str| range(s).0 != 0 && range(s).1 != 0;
    let overlap = |one: &Str, other: &Str| range(one).0 <= range(other).1 && range(other).0 <= range(one).1;
    let mut result = vec![];
    for m in list {
        let apart = pairs(&m.includes).all(|(one, other)| !overlap(one, other));
        if m.includes.len() >= 2 && m.includes.iter().all(nonzero) && apart {
            result.push(keeping(m, |exclude| {
                nonzero(exclude) && !m.includes.iter().any(|include| overlap(exclude, include))
            }));
        }
    }
    result
}

/// Every two entries of a list, once.
fn pairs(list: &[Str]) -> impl Iterator<Item = (&Str, &Str)> {
    list.iter().enumerate().flat_map(move |(index, one)| list[index + 1..].iter().map(move |other| (one, other)))
}

/// "At start, at end: some include covers position 1, or n. With n = 0 none does."
pub fn at_start(section: &Section, list: &[Match]) -> AllMatches {
    list.iter().filter(|m| section.n() > 0 && m.covers(1)).cloned().collect()
}

/// "At start, at end: some include covers position 1, or n. With n = 0 none does."
pub fn at_end(section: &Section, list: &[Match]) -> AllMatches {
    list.iter().filter(|m| section.n() > 0 && m.covers(section.n())).cloned().collect()
}

/// "Entire content: every position 1 to n is covered by some contiguous include." (Reading: each position by some, not all
/// by one; with n = 0 every match is kept.)
pub fn entire_content(section: &Section, list: &[Match]) -> AllMatches {
    let covered = |m: &Match, position| m.includes.iter().any(|s| s.contiguous && s.covers(position));
    list.iter().filter(|m| (1..=section.n()).all(|position| covered(m, position))).cloned().collect()
}

/// "At least a: every choice of a or more of the phrase's matches, fewest first, equal sizes in order of first difference
/// by position, each choice joined as and would." A choice of none is a match with no strings.
pub fn at_least(list: &[Match], a: u32) -> AllMatches {
    let joined = |choice: Vec<usize>| Match {
        includes: choice.iter().flat_map(|&index| list[index].includes.clone()).collect(),
        excludes: choice.iter().flat_map(|&index| list[index].excludes.clone()).collect(),
    };
    choices(list.len(), a as usize).into_iter().map(joined).collect()
}

/// Every choice of `least` or more of so many matches, as their indexes. A phrase's matches ascend, so these are in the order
/// of positions.
///
/// What a choice leaves out is made first, one index more at a time: of 256 matches at least 255 are all or all but one.
fn choices(count: usize, least: usize) -> Vec<Vec<usize>> {
    let Some(most_left_out) = count.checked_sub(least) else { return vec![] };
    let mut left_out: Vec<Vec<usize>> = vec![vec![]];
    let mut next = 0;
    while let Some(out) = left_out.get(next).cloned() {
        next += 1;
        if out.len() < most_left_out {
            let behind = out.last().map_or(0, |last| last + 1);
            left_out.extend((behind..count).map(|index| [&out[..], &[index]].concat()));
        }
    }
    let chosen = |out: Vec<usize>| (0..count).filter(|index| !out.contains(index)).collect();
    let mut list: Vec<Vec<usize>> = left_out.into_iter().map(chosen).collect();
    // (Reading: "choices of one size in lexicographic order of the finds chosen".)
    list.sort_by(|one, other| (one.len(), one).cmp(&(other.len(), other)));
    list
}

/// "From a to b: at least a, and not at least b + 1." (Reading: the and of the one list with the not of the other.)
pub fn from_to(list: &[Match], a: u32, b: u32) -> AllMatches {
    let left = at_least(list, a);
    if left.is_empty() {
        // the and is empty, however large the not is
        return vec![];
    }
    and(&left, &not(&at_least(list, b + 1)))
}

#[cfg(test)]
mod tests {
    use super::*;

    fn string(start: u32, end: u32, query: u32) -> Str {
        Str { start, end, query, contiguous: true }
    }

    /// The rule's own recursion, from the front.
    fn not_from_the_front(list: &[Match]) -> AllMatches {
        let [first, remaining @ ..] = list else { return vec![Match::default()] };
        let mut result = vec![];
        for (s, include) in first.includes.iter().map(|s| (s, true)).chain(first.excludes.iter().map(|s| (s, false))) {
            for mut m in not_from_the_front(remaining) {
                if include {
                    m.excludes.insert(0, *s);
                } else {
                    m.includes.insert(0, *s);
                }
                result.push(m);
            }
        }
        result
    }

    #[test]
    fn not_is_its_recursion() {
        let a = Match { includes: vec![string(1, 1, 1), string(2, 2, 2)], excludes: vec![string(3, 3, 3)] };
        let b = Match { includes: vec![string(4, 4, 1)], excludes: vec![string(5, 6, 3), string(7, 7, 4)] };
        let c = Match { includes: vec![], excludes: vec![string(8, 8, 5)] };
        for list in
            [vec![], vec![a.clone()], vec![a.clone(), b.clone()], vec![c.clone(), a, b, c], vec![Match::default()]]
        {
            assert_eq!(not(&list), not_from_the_front(&list));
        }
    }

    #[test]
    fn strings_agree() {
        assert!(agree(&string(1, 1, 1), &string(2, 2, 2)));
        assert!(agree(&string(2, 2, 2), &string(1, 1, 1)));
        assert!(!agree(&string(1, 1, 2), &string(2, 2, 1)));
        assert!(agree(&string(1, 1, 2), &string(1, 5, 1)));
        assert!(agree(&string(1, 1, 2), &string(9, 9, 2)));
    }

    #[test]
    fn spans_lie_apart() {
        let distance = |a, b, c, d| span_distance(&string(a, b, 1), &string(c, d, 1));
        assert_eq!(distance(1, 1, 2, 2), 0);
        assert_eq!(distance(1, 1, 3, 3), 1);
        assert_eq!(distance(3, 3, 1, 1), 1);
        assert_eq!(distance(1, 5, 2, 3), 0);
        assert_eq!(distance(1, 5, 1, 1), 0);
        assert_eq!(distance(4, 4, 4, 4), 0);
        assert_eq!(distance(1, 1, 4_096, 4_096), 4_094);
    }

    #[test]
    fn joins() {
        assert_eq!(join(&[]), None);
        let apart = [string(4, 5, 2), string(1, 2, 1)];
        assert_eq!(join(&apart), Some(Str { start: 1, end: 5, query: 2, contiguous: false }));
        let touching = [string(3, 5, 2), string(1, 2, 1)];
        assert_eq!(join(&touching), Some(Str { start: 1, end: 5, query: 2, contiguous: true }));
        let broken = Str { contiguous: false, ..string(1, 2, 1) };
        assert_eq!(join(&[broken]), Some(broken));
        assert_eq!(join(&[string(1, 5, 1), broken]), Some(Str { start: 1, end: 5, query: 1, contiguous: false }));
    }

    #[test]
    fn choices_by_size_then_position() {
        let none: Vec<Vec<usize>> = vec![];
        let three: [&[usize]; 8] = [&[], &[0], &[1], &[2], &[0, 1], &[0, 2], &[1, 2], &[0, 1, 2]];
        for (least, behind) in [(0, 0), (1, 1), (2, 4), (3, 7)] {
            assert_eq!(choices(3, least), three[behind..]);
        }
        assert_eq!(choices(3, 4), none);
        assert_eq!(choices(0, 0), [[]; 1]);
        assert_eq!(choices(0, 1), none);
        // all but one, the last first; then all
        let most = choices(256, 255);
        assert_eq!(most.len(), 257);
        assert!((0..256).all(|index| !most[index].contains(&(255 - index))));
        assert_eq!(most[256], (0..256).collect::<Vec<usize>>());
    }

    /// A choice of three matches is the and of their three lists.
    #[test]
    fn chosen_matches_are_joined_as_and_would() {
        let one = Match { includes: vec![string(1, 1, 1), string(2, 2, 2)], excludes: vec![string(3, 3, 3)] };
        let two = Match { includes: vec![string(4, 4, 1)], excludes: vec![] };
        let three = Match { includes: vec![string(7, 7, 1)], excludes: vec![string(8, 8, 3), string(5, 6, 2)] };
        let joined = |list: &[&Match]| {
            list.iter().fold(vec![Match::default()], |joined, m| and(&joined, std::slice::from_ref(*m)))
        };
        let all = [one.clone(), two.clone(), three.clone()];
        assert_eq!(at_least(&all, 3), joined(&[&one, &two, &three]));
        assert_eq!(
            at_least(&all[1..], 0),
            [joined(&[]), joined(&[&two]), joined(&[&three]), joined(&[&two, &three])].concat()
        );
    }

    /// Every set of bits of a number is a choice; the numbers are put in order by another rule, bit by bit from the lowest.
    #[test]
    fn choices_are_the_sets_of_bits() {
        for count in 0..=10 {
            for least in 0..=count + 1 {
                let mut sets: Vec<u32> = (0..1 << count).filter(|set: &u32| set.count_ones() >= least as u32).collect();
                sets.sort_by_key(|set| (set.count_ones(), u32::MAX - set.reverse_bits()));
                let indexes = |set: &u32| (0..count).filter(|index| set >> index & 1 == 1).collect();
                let wanted: Vec<Vec<usize>> = sets.iter().map(indexes).collect();
                assert_eq!(choices(count, least), wanted, "{count}, at least {least}");
            }
        }
    }

    #[test]
    fn windows_of_a_span() {
        let list: Vec<(i64, i64)> = windows(&string(1, 2, 1), 3).collect();
        assert_eq!(list, [(0, 2), (1, 3)]);
        assert_eq!(windows(&string(1, 4, 1), 3).count(), 0);
        assert_eq!(windows(&string(1, 1, 1), 4_096).next(), Some((-4_094, 1)));
    }
}
