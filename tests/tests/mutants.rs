//! Engines with one mistake each: random cases must find every one of them.
//!
//! `cargo test --release --test mutants -- --nocapture` prints how many cases each took, and the smallest case found.

mod wrong_families;

use second_engine::engine::{check, RuleBook};
use second_engine::families;
use second_engine::rules::{self, agree, join, span_distance, units, Str};
use second_engine::section::{self, Section};
use second_engine::selection::{self, Code, Filter, Occurs, Rule, Tree, Unit};
use second_engine::shrink::{as_rust, shrink, shrink_typed, typed_as_rust};
use second_engine::sizes::{self, Limits, Size};
use second_engine::typed::{self, Act, Form, Move, Operator, Pair, Reader, Sign, Sort, State, Token};
use second_engine::{
    cases, compare, compare_typed, engine, family_cases, filter_cases, heading_cases, hunt_typed, occurs_cases,
    typed_cases, AllMatches, Case, Engine, Listing, Match, Quick, Refusal, Searched, SecondEngine, TypedCase, BUFFER,
    EMPTY, WORK,
};
use std::slice::from_ref;

/// Within how many cases each mistake must be found.
const MOST: usize = 100_000;

/// Within how many that have an occurs each mistake about it must be found.
const MOST_OCCURS: usize = 10_000;

/// And within how many made for the early way out of a filter each mistake about that.
const MOST_FILTERS: usize = 1_000;

/// And within how many whose sections have headings each mistake about those.
const MOST_HEADINGS: usize = 2_000;

/// And within how many made with a family table each mistake about those.
const MOST_FAMILIES: usize = 4_000;

#[test]
fn every_mistake_is_found() {
    println!("cases  mistake");
    all_are_found(all(), || cases(1, MOST));
}

#[test]
fn every_mistake_about_occurs_is_found() {
    println!("cases with an occurs  mistake");
    all_are_found(all_about_occurs(), || occurs_cases(1, MOST_OCCURS));
}

#[test]
fn every_mistake_about_filters_is_found() {
    println!("cases with a filter  mistake");
    all_are_found(all_about_filters(), || filter_cases(1, MOST_FILTERS));
}

#[test]
fn every_mistake_about_headings_is_found() {
    println!("cases with headings  mistake");
    all_are_found(all_about_headings(), || heading_cases(1, MOST_HEADINGS));
}

#[test]
fn every_mistake_about_families_is_found() {
    println!("cases with families  mistake");
    all_are_found(wrong_families::all(), || family_cases(1, MOST_FAMILIES));
}

/// Some case finds each of the mistakes.
fn all_are_found<C: Iterator<Item = Case>>(mutants: Vec<(&str, Box<dyn Engine>)>, cases: impl Fn() -> C) {
    let mut late = vec![];
    for (name, mutant) in mutants {
        let found = cases().position(|case| compare(&*mutant, &case).is_err());
        match found {
            Some(index) => println!("{:6} {name}", index + 1),
            None => {
                println!("never  {name}");
                late.push(name);
            }
        }
    }
    assert!(late.is_empty(), "not found: {late:?}");
}

/// A found case is made smaller, still shows the mistake, and isn't held against the right engine.
#[test]
fn found_cases_shrink() {
    let right = SecondEngine::new();
    // without optimisation, some of them are enough
    let some = if cfg!(debug_assertions) { 10 } else { 1 };
    for (name, mutant) in all().into_iter().step_by(some) {
        let fails = |case: &Case| compare(&*mutant, case).is_err();
        let Some(case) = cases(2, 3_000).find(|case| fails(case)) else { continue };
        let small = shrink(&case, &fails);
        assert!(fails(&small), "{name}");
        compare(&right, &small).unwrap();
        let length = |case: &Case| case.section.len() + case.families.len() + case.selection.len();
        let (before, after) = (length(&case), length(&small));
        assert!(after <= before);
        println!("{name}: {before} numbers, then {after}; {}", compare(&*mutant, &small).unwrap_err());
        let test = as_rust(&small, "found");
        assert!(test.contains("compare(&engine(), &case).unwrap();"));
        println!("{test}");
    }
}

/// What somebody sees whose engine has a mistake.
#[test]
fn a_hunt_ends_with_a_test() {
    assert_eq!(second_engine::hunt(&SecondEngine::new(), 3, 500), Ok(()));
    let wrong = second_engine::hunt(&with(|book| book.window = window_merged), 3, MOST).unwrap_err();
    println!("{wrong}");
    assert!(wrong.starts_with("seed 3, case "));
    assert!(wrong.contains("selection: (\"0\" window 2)"));
    assert!(wrong.contains("section: vec![1, 0, 0],"));
    assert!(wrong.contains("selection: vec![3, 0, 1, 7, 0, 1, 2],"));
}

/// The rules' mistakes are to be found in a section and a selection that a person can read.
#[test]
fn shrunk_cases_are_small() {
    let merged = with(|book| book.window = window_merged);
    let fails = |case: &Case| compare(&merged, case).is_err();
    let case = cases(5, MOST).find(|case| fails(case)).unwrap();
    let small = shrink(&case, &fails);
    // one token, its word, a window of two
    assert_eq!(small.section, [1, 0, 0]);
    assert_eq!(small.selection, [3, 0, 1, 7, 0, 1, 2]);
    assert_eq!((small.work_len, small.buffer), (WORK, vec![0; BUFFER]));
}

/// So are those of an occurs.
#[test]
fn shrunk_occurs_are_small() {
    let shrunk = |mutant: SecondEngine| {
        let fails = |case: &Case| compare(&mutant, case).is_err();
        let case = occurs_cases(5, MOST_OCCURS).find(|case| fails(case)).unwrap();
        shrink(&case, &fails)
    };
    // two tokens, their word, at least 0
    let reversed = shrunk(with(|book| book.at_least = at_least_reversed));
    assert_eq!(reversed.section, [2, 0, 0, 0, 0]);
    assert_eq!(reversed.selection, [3, 0, 1, 17, 0, 1, 0]);
    // one token, its word, from 0 to 0
    let without_not = shrunk(with(|book| book.from_to = |list, a, _| rules::at_least(list, a)));
    assert_eq!(without_not.section, [1, 0, 0]);
    assert_eq!(without_not.selection, [3, 0, 1, 16, 0, 1, 0]);
}

/// So are those of a filter's early way out.
#[test]
fn shrunk_filters_are_small() {
    let measured =
        AtFilters(|section, filter| Ok((rules::is_yes(&RuleBook::paper().build(section, filter)?), filter.count())));
    let fails = |case: &Case| compare(&measured, case).is_err();
    let case = filter_cases(5, MOST_FILTERS).find(|case| fails(case)).unwrap();
    let small = shrink(&case, &fails);
    // some tokens, their word, and just as many windows as the listing refuses
    assert_eq!(small.selection[..6], [3, 0, 1, 7, 0, 1]);
    let (tokens, window) = (small.section[0], small.selection[6]);
    assert!(small.section[1..].iter().all(|number| *number == 0));
    assert!(tokens * window > 256 && (tokens - 1) * window <= 256 && tokens * (window - 1) <= 256);
}

/// So are those of headings.
#[test]
fn shrunk_headings_are_small() {
    let shrunk = |wanted: &str| {
        let (_, mutant) = all_about_headings().into_iter().find(|(name, _)| *name == wanted).unwrap();
        let fails = |case: &Case| compare(&*mutant, case).is_err();
        let case = heading_cases(5, MOST_HEADINGS).find(|case| fails(case)).unwrap();
        shrink(&case, &fails)
    };
    let word = [2, 0, 1, 0, 1];
    // two tokens, the one in a heading and the other in a sentence
    let accepted = shrunk("headings: document 01's rule for sentences");
    assert!([[2, 0, 0, 0, 1], [2, 0, 0, 1, 0]].contains(&accepted.section[..].try_into().unwrap()));
    assert_eq!(accepted.selection, word);
    // three, in sentence 2, in a heading and in sentence 1
    let hidden = shrunk("headings: a sentence held to the position before alone");
    assert_eq!(hidden.section, [3, 0, 0, 0, 2, 0, 1]);
    assert_eq!(hidden.selection, word);
    // two, in a heading and in sentence 1, and their word in the same sentence
    let neighbour = shrunk("headings: same, a heading is in the sentence after it");
    assert_eq!(neighbour.section, [2, 0, 0, 0, 1]);
    assert_eq!(neighbour.selection, [3, 0, 1, 9, 0, 1, 0]);
}

/// So are those of families.
#[test]
fn shrunk_families_are_small() {
    let shrunk = |wanted: &str| {
        let (_, mutant) = wrong_families::all().into_iter().find(|(name, _)| *name == wanted).unwrap();
        let fails = |case: &Case| compare(&*mutant, case).is_err();
        let case = family_cases(5, MOST_FAMILIES).find(|case| fails(case)).unwrap();
        shrink(&case, &fails)
    };
    // one token, and another word of its family
    let by_words = shrunk("families: only equal words fit");
    assert!([[1, 0, 0], [1, 1, 0]].contains(&by_words.section[..].try_into().unwrap()));
    assert_eq!(by_words.families, [2, 0, 1, 0, 0]);
    assert_eq!(by_words.selection, [2, 0, 1, 1 - by_words.section[1], 1]);
    // two entries of one word
    let equal = shrunk("table: equal words accepted");
    assert_eq!((&equal.section[..], &equal.families[..]), (&[0][..], &[2, 0, 0, 0, 0][..]));
    // no entry at all
    assert_eq!(shrunk("table: of no entries refused").families, [0]);
    assert_eq!(shrunk("table: of no numbers accepted").families, [0; 0]);
}

/// Engines with one mistake each, by name.
struct Mutants(Vec<(&'static str, Box<dyn Engine>)>);

fn all() -> Vec<(&'static str, Box<dyn Engine>)> {
    let mut list = Mutants(vec![]);
    mutants_of_rules(&mut list);
    mutants_of_filters(&mut list);
    mutants_of_sizes(&mut list);
    mutants_of_calls(&mut list);
    mutants_of_checks(&mut list);
    list.0.extend(all_about_occurs());
    mutants_of_the_way_out(&mut list);
    mutants_of_freed_lists(&mut list);
    mutants_of_faults(&mut list);
    wrong_families::mutants_of_searches(&mut list);
    list.0
}

fn all_about_occurs() -> Vec<(&'static str, Box<dyn Engine>)> {
    let mut list = Mutants(vec![]);
    mutants_of_at_least(&mut list);
    mutants_of_from_to(&mut list);
    mutants_of_occurs_calls(&mut list);
    mutants_of_occurs_checks(&mut list);
    list.0
}

fn all_about_filters() -> Vec<(&'static str, Box<dyn Engine>)> {
    let mut list = Mutants(vec![]);
    mutants_of_the_way_out(&mut list);
    mutants_of_free_windows(&mut list);
    mutants_of_freed_lists(&mut list);
    list.0
}

fn all_about_headings() -> Vec<(&'static str, Box<dyn Engine>)> {
    let mut list = Mutants(vec![]);
    mutants_of_faults(&mut list);
    mutants_of_same_with_headings(&mut list);
    mutants_of_different_with_headings(&mut list);
    mutants_of_heading_words(&mut list);
    list.0
}

impl Mutants {
    fn engine(&mut self, name: &'static str, engine: impl Engine + 'static) {
        self.0.push((name, Box::new(engine)));
    }

    /// The second engine with one other rule.
    fn book(&mut self, name: &'static str, change: impl Fn(&mut RuleBook)) {
        self.engine(name, with(change));
    }

    /// The second engine with another rule for phrases.
    fn phrase(&mut self, name: &'static str, phrase: PhraseRule) {
        self.book(name, |book| book.phrase = phrase);
    }

    fn listing(&mut self, name: &'static str, listing: ListingCall) {
        self.engine(name, Calls { listing, ..right_calls() });
    }

    fn quick(&mut self, name: &'static str, quick: QuickCall) {
        self.engine(name, Calls { quick, ..right_calls() });
    }

    fn at_filters(&mut self, name: &'static str, at: AtFilter) {
        self.engine(name, AtFilters(at));
    }

    fn at_windows(&mut self, name: &'static str, is_free: IsFree) {
        self.engine(name, AtWindows(is_free));
    }

    /// The second engine with another first faulty position.
    fn faulty(&mut self, name: &'static str, faulty: impl Fn(&Section) -> Option<usize> + 'static) {
        self.engine(name, Units(Box::new(faulty)));
    }

    fn sentences(&mut self, name: &'static str, rule: UnitRule) {
        self.faulty(name, move |section| first_faulty(section, rule, steps_wrongly));
    }

    fn paragraphs(&mut self, name: &'static str, rule: UnitRule) {
        self.faulty(name, move |section| first_faulty(section, falls, rule));
    }

    fn snippet(&mut self, name: &'static str, snippet: SnippetCall) {
        self.engine(name, Calls { snippet, ..right_calls() });
    }

    fn refusing(&mut self, name: &'static str, refuse: Refuse) {
        self.engine(name, Checks { refuse, ..right_checks() });
    }

    fn repairing_section(&mut self, name: &'static str, repair_section: Repair) {
        self.engine(name, Checks { repair_section, ..right_checks() });
    }

    fn repairing_families(&mut self, name: &'static str, repair_families: Repair) {
        self.engine(name, Checks { repair_families, ..right_checks() });
    }

    fn repairing_selection(&mut self, name: &'static str, repair_selection: Repair) {
        self.engine(name, Checks { repair_selection, ..right_checks() });
    }
}

/// The finds of some words, at a query position.
type PhraseRule = fn(&Searched, &[u32], u32) -> AllMatches;

fn with(change: impl Fn(&mut RuleBook)) -> SecondEngine {
    let mut book = RuleBook::paper();
    change(&mut book);
    SecondEngine { book }
}

fn kept(list: &[Match], test: impl Fn(&Match) -> bool) -> AllMatches {
    list.iter().filter(|m| test(m)).cloned().collect()
}

/// The list with other excludes.
fn excludes(list: AllMatches, change: impl Fn(&mut Vec<Str>)) -> AllMatches {
    let mut list = list;
    list.iter_mut().for_each(|m| change(&mut m.excludes));
    list
}

fn window_merged(list: &[Match], size: u32) -> AllMatches {
    let mut result = rules::window(list, size);
    result.dedup();
    result
}

// Phrases and combinations

fn mutants_of_rules(list: &mut Mutants) {
    list.book("phrase: finds don't overlap", |book| {
        book.phrase = |section, words, query| {
            let mut free = 1;
            kept(&rules::phrase(section, words, query), |_| true)
                .into_iter()
                .filter(|m| {
                    let starts = m.includes[0].start >= free;
                    if starts {
                        free = m.includes[0].end + 1;
                    }
                    starts
                })
                .collect()
        }
    });
    list.book("phrase: descending", |book| {
        book.phrase = |section, words, query| rules::phrase(section, words, query).into_iter().rev().collect()
    });
    list.book("phrase: words compared by 16 bits", |book| {
        book.phrase = |section, words, query| {
            let low = |words: &[u32]| words.iter().map(|word| word & 0xFFFF).collect::<Vec<u32>>();
            let low_section = Section { words: low(&section.words), ..section.section.clone() };
            rules::phrase(&section.with(low_section), &low(words), query)
        }
    });
    list.book("or: right before left", |book| book.or = |left, right| rules::or(right, left));
    list.book("or: equal matches once", |book| {
        book.or = |left, right| {
            let new = kept(right, |m| !left.contains(m));
            rules::or(left, &new)
        }
    });
    list.book("and: right in the outer loop", |book| {
        book.and = |left, right| {
            let mut list = vec![];
            for r in right {
                for l in left {
                    list.extend(rules::and(from_ref(l), from_ref(r)));
                }
            }
            list
        }
    });
    list.book("and: includes joined right then left", |book| {
        book.and = |left, right| {
            let mut list = vec![];
            for l in left {
                for r in right {
                    list.extend(rules::and(from_ref(r), from_ref(l)));
                }
            }
            list
        }
    });
    list.book("and: the right excludes lost", |book| {
        book.and = |left, right| rules::and(left, &excludes(right.to_vec(), Vec::clear))
    });
    list.book("and: a match with an exclude dropped early", |book| {
        book.and = |left, right| kept(&rules::and(left, right), |m| m.excludes.is_empty())
    });
    list.book("not: of an empty list left empty", |book| {
        book.not = |list| {
            if list.is_empty() {
                vec![]
            } else {
                rules::not(list)
            }
        }
    });
    list.book("not: excludes before includes", |book| {
        book.not = |list| {
            list.iter().rev().fold(vec![Match::default()], |rest, m| {
                let one = |includes: &[Str], excludes: &[Str]| {
                    let m = Match { includes: includes.to_vec(), excludes: excludes.to_vec() };
                    rules::and(&rules::not(&[m]), &rest)
                };
                [one(&[], &m.excludes), one(&m.includes, &[])].concat()
            })
        }
    });
    list.book("not: put behind in its list", |book| {
        book.not = |list| {
            let backwards = |mut m: Match| {
                m.includes.reverse();
                m.excludes.reverse();
                m
            };
            rules::not(list).into_iter().map(backwards).collect()
        }
    });
    list.book("not: a string turned twice stays once", |book| {
        book.not = |list| {
            let once = |mut m: Match| {
                m.includes.dedup();
                m.excludes.dedup();
                m
            };
            rules::not(list).into_iter().map(once).collect()
        }
    });
    list.book("not: excludes stay excludes", |book| {
        book.not = |list| {
            let strings = |m: &Match| [&m.includes[..], &m.excludes].concat();
            rules::not(&list.iter().map(|m| Match { includes: strings(m), excludes: vec![] }).collect::<Vec<_>>())
        }
    });
    list.book("mild not: sides exchanged", |book| book.mild_not = |left, right| rules::mild_not(right, left));
    list.book("mild not: covered by all of R together", |book| {
        book.mild_not = |left, right| {
            let together =
                Match { includes: right.iter().flat_map(|m| m.includes.clone()).collect(), excludes: vec![] };
            rules::mild_not(left, if right.is_empty() { &[] } else { from_ref(&together) })
        }
    });
    list.book("mild not: no position may be covered", |book| {
        book.mild_not = |left, right| {
            let apart = |l: &Match, r: &Match| l.includes.iter().all(|s| (s.start..=s.end).all(|p| !r.covers(p)));
            kept(left, |l| right.iter().all(|r| apart(l, r)))
        }
    });
    list.book("mild not: only starts looked at", |book| {
        book.mild_not =
            |left, right| kept(left, |l| right.iter().all(|r| l.includes.iter().any(|s| !r.covers(s.start))))
    });
    list.book("mild not: every include must stick out", |book| {
        book.mild_not = |left, right| {
            let out = |s: &Str, r: &Match| (s.start..=s.end).any(|p| !r.covers(p));
            kept(left, |l| right.iter().all(|r| l.includes.iter().all(|s| out(s, r))))
        }
    });
}

// Filters

/// The window rule with another join.
fn window_joined(list: &[Match], size: u32, join: fn(&[Str]) -> Option<Str>) -> AllMatches {
    let mut result = vec![];
    for m in list {
        let mut copies = rules::window(from_ref(m), size);
        copies.iter_mut().for_each(|copy| copy.includes = join(&m.includes).into_iter().collect());
        result.extend(copies);
    }
    result
}

fn join_leftmost(includes: &[Str]) -> Option<Str> {
    let leftmost = includes.iter().min_by_key(|s| s.start)?;
    Some(Str { query: leftmost.query, ..join(includes)? })
}

fn join_all_contiguous(includes: &[Str]) -> Option<Str> {
    let as_contiguous: Vec<Str> = includes.iter().map(|s| Str { contiguous: true, ..*s }).collect();
    join(&as_contiguous)
}

fn join_uncovered(includes: &[Str]) -> Option<Str> {
    Some(Str { contiguous: includes.iter().all(|s| s.contiguous), ..join(includes)? })
}

fn join_last_end(includes: &[Str]) -> Option<Str> {
    let last = includes.iter().max_by_key(|s| (s.start, s.end))?;
    let joined = join(includes)?;
    Some(Str { end: last.end, ..joined })
}

/// The distance rule with another order of the includes and other tests.
fn distance_by(
    list: &[Match],
    sort: fn(&mut [Str]),
    lies: impl Fn(&Str, &Str) -> bool,
    stays: impl Fn(&Str, &[Str]) -> bool,
) -> AllMatches {
    let mut result = vec![];
    for m in list {
        let mut sorted = m.includes.clone();
        sort(&mut sorted);
        if sorted.windows(2).all(|pair| lies(&pair[0], &pair[1])) {
            let excludes = m.excludes.iter().filter(|e| stays(e, &m.includes)).copied().collect();
            result.push(Match { includes: join(&m.includes).into_iter().collect(), excludes });
        }
    }
    result
}

fn by_start_then_end(includes: &mut [Str]) {
    includes.sort_by_key(|s| (s.start, s.end));
}

fn within(a: u32, b: u32, one: &Str, other: &Str) -> bool {
    (a..=b).contains(&span_distance(one, other))
}

/// The different rule with another test of two ranges, and with or without a test of excludes.
fn different_by(
    section: &Section,
    unit: Unit,
    list: &[Match],
    overlap: fn((u32, u32), (u32, u32)) -> bool,
) -> AllMatches {
    let range = |s: &Str| units(section, unit, s);
    let nonzero = |s: &Str| range(s).0 != 0 && range(s).1 != 0;
    let mut result = vec![];
    for m in list {
        let includes = &m.includes;
        let apart = (0..includes.len()).all(|i| (0..i).all(|j| !overlap(range(&includes[i]), range(&includes[j]))));
        if includes.len() >= 2 && includes.iter().all(nonzero) && apart {
            result.push(Match {
                includes: includes.clone(),
                excludes: m
                    .excludes
                    .iter()
                    .filter(|e| nonzero(e) && !includes.iter().any(|i| overlap(range(e), range(i))))
                    .copied()
                    .collect(),
            });
        }
    }
    result
}

fn mutants_of_filters(list: &mut Mutants) {
    list.book("ordered: only where nothing falls in the match's order", |book| {
        book.ordered = |list| {
            let rising =
                |m: &Match| m.includes.windows(2).all(|p| p[0].start <= p[1].start && p[0].query <= p[1].query);
            kept(&rules::ordered(list), rising)
        }
    });
    list.book("ordered: neighbours only", |book| {
        book.ordered = |list| {
            let mut result = vec![];
            for m in list.iter().filter(|m| m.includes.windows(2).all(|pair| agree(&pair[0], &pair[1]))) {
                let stays = |e: &Str| m.includes.iter().all(|i| agree(e, i));
                result.push(Match {
                    includes: m.includes.clone(),
                    excludes: m.excludes.iter().copied().filter(|e| stays(e)).collect(),
                });
            }
            result
        }
    });
    list.book("ordered: equal starts disagree", |book| {
        book.ordered = |list| {
            let equal = |m: &Match| {
                (0..m.includes.len()).any(|i| {
                    (0..i).any(|j| {
                        m.includes[i].start == m.includes[j].start && m.includes[i].query != m.includes[j].query
                    })
                })
            };
            kept(&rules::ordered(list), |m| !equal(m))
        }
    });
    list.book("ordered: all excludes stay", |book| {
        book.ordered = |list| {
            let ordered = |m: &Match| !rules::ordered(from_ref(m)).is_empty();
            kept(list, ordered)
        }
    });
    list.book("ordered: all excludes go", |book| book.ordered = |list| excludes(rules::ordered(list), Vec::clear));
    list.book("ordered: excludes by ends", |book| {
        book.ordered = |list| {
            let ends = |s: &Str| Str { start: s.end, ..*s };
            let mut result = vec![];
            for m in list.iter().filter(|m| !rules::ordered(from_ref(m)).is_empty()) {
                let stays = |e: &Str| m.includes.iter().all(|i| agree(&ends(e), &ends(i)));
                result.push(Match {
                    includes: m.includes.clone(),
                    excludes: m.excludes.iter().copied().filter(|e| stays(e)).collect(),
                });
            }
            result
        }
    });
    list.book("join: leftmost include's query position", |book| {
        book.window = |list, size| window_joined(list, size, join_leftmost)
    });
    list.book("join: contiguous though a part wasn't", |book| {
        book.window = |list, size| window_joined(list, size, join_all_contiguous)
    });
    list.book("join: contiguous though not all is covered", |book| {
        book.window = |list, size| window_joined(list, size, join_uncovered)
    });
    list.book("join: the last include's end", |book| {
        book.window = |list, size| window_joined(list, size, join_last_end)
    });
    list.book("window: equal copies merged", |book| book.window = window_merged);
    list.book("window: W not below 1", |book| {
        book.window = |list, size| {
            let mut result = vec![];
            for m in list {
                let copies = rules::window(from_ref(m), size);
                let above = join(&m.includes).map_or(0, |joined| joined.start.min(copies.len() as u32)) as usize;
                result.extend_from_slice(&copies[copies.len() - above..]);
            }
            result
        }
    });
    list.book("window: W falling", |book| {
        book.window =
            |list, size| list.iter().flat_map(|m| rules::window(from_ref(m), size).into_iter().rev()).collect()
    });
    list.book("window: one word too wide", |book| book.window = |list, size| rules::window(list, size + 1));
    list.book("window: one word too narrow", |book| book.window = |list, size| rules::window(list, size - 1));
    list.book("window: a match without includes kept", |book| {
        book.window = |list, size| {
            let each = |m: &Match| match m.includes.is_empty() {
                true => vec![m.clone()],
                false => rules::window(from_ref(m), size),
            };
            list.iter().flat_map(each).collect()
        }
    });
    list.book("window: the excludes lost", |book| {
        book.window = |list, size| excludes(rules::window(list, size), Vec::clear)
    });
    list.book("window: an exclude inside by its start alone", |book| {
        book.window = |list, size| {
            let cut = excludes(list.to_vec(), |excludes| excludes.iter_mut().for_each(|e| e.end = e.start));
            let mut result = rules::window(&cut, size);
            let ends = list.iter().flat_map(|m| &m.excludes).copied().collect::<Vec<Str>>();
            for e in result.iter_mut().flat_map(|m| m.excludes.iter_mut()) {
                *e = *ends.iter().find(|end| (end.start, end.query) == (e.start, e.query)).unwrap();
            }
            result
        }
    });
    list.book("distance: off by one", |book| {
        book.distance = |list, a, b| {
            let lies = |one: &Str, other: &Str| (a..=b).contains(&(span_distance(one, other) + 1));
            distance_by(list, by_start_then_end, lies, |e, includes| includes.iter().all(|i| lies(e, i)))
        }
    });
    list.book("distance: to, but not up to b", |book| {
        book.distance = |list, a, b| rules::distance(list, a, b.max(a + 1) - 1)
    });
    list.book("distance: overlap is no distance", |book| {
        book.distance = |list, a, b| {
            let lies =
                |one: &Str, other: &Str| within(a, b, one, other) && (one.end < other.start || other.end < one.start);
            distance_by(list, by_start_then_end, lies, |e, includes| includes.iter().all(|i| lies(e, i)))
        }
    });
    list.book("distance: excludes that overlap go", |book| {
        book.distance = |list, a, b| {
            let lies = |one: &Str, other: &Str| within(a, b, one, other);
            let apart = |one: &Str, other: &Str| one.end < other.start || other.end < one.start;
            distance_by(list, by_start_then_end, lies, |e, includes| includes.iter().all(|i| lies(e, i) && apart(e, i)))
        }
    });
    list.book("distance: includes not sorted", |book| {
        book.distance = |list, a, b| {
            let lies = |one: &Str, other: &Str| within(a, b, one, other);
            distance_by(list, |_| {}, lies, |e, includes| includes.iter().all(|i| lies(e, i)))
        }
    });
    list.book("distance: sorted by start alone", |book| {
        book.distance = |list, a, b| {
            let lies = |one: &Str, other: &Str| within(a, b, one, other);
            let sort = |includes: &mut [Str]| includes.sort_by_key(|s| s.start);
            distance_by(list, sort, lies, |e, includes| includes.iter().all(|i| lies(e, i)))
        }
    });
    list.book("distance: sorted by end, then start", |book| {
        book.distance = |list, a, b| {
            let lies = |one: &Str, other: &Str| within(a, b, one, other);
            let sort = |includes: &mut [Str]| includes.sort_by_key(|s| (s.end, s.start));
            distance_by(list, sort, lies, |e, includes| includes.iter().all(|i| lies(e, i)))
        }
    });
    list.book("distance: all pairs, not neighbours", |book| {
        book.distance = |list, a, b| {
            let pairs = |m: &Match| {
                let s = &m.includes;
                (0..s.len()).all(|i| (0..i).all(|j| within(a, b, &s[i], &s[j])))
            };
            rules::distance(&kept(list, pairs), a, b)
        }
    });
    list.book("distance: excludes by some include, as in the standard", |book| {
        book.distance = |list, a, b| {
            let lies = |one: &Str, other: &Str| within(a, b, one, other);
            distance_by(list, by_start_then_end, lies, |e, includes| includes.iter().any(|i| lies(e, i)))
        }
    });
    list.book("distance: all excludes stay", |book| {
        book.distance =
            |list, a, b| distance_by(list, by_start_then_end, |one, other| within(a, b, one, other), |_, _| true)
    });
    list.book("distance: without includes dropped", |book| {
        book.distance = |list, a, b| kept(&rules::distance(list, a, b), |m| !m.includes.is_empty())
    });
    list.book("distance: includes not joined", |book| {
        book.distance = |list, a, b| {
            let mut result = vec![];
            for m in list {
                for near in rules::distance(from_ref(m), a, b) {
                    result.push(Match { includes: m.includes.clone(), ..near });
                }
            }
            result
        }
    });
    list.book("same: without includes dropped", |book| {
        book.same = |section, unit, list| kept(&rules::same(section, unit, list), |m| !m.includes.is_empty())
    });
    list.book("same: without includes all excludes stay", |book| {
        book.same = |section, unit, list| {
            list.iter()
                .flat_map(|m| match m.includes.is_empty() {
                    true => vec![m.clone()],
                    false => rules::same(section, unit, from_ref(m)),
                })
                .collect()
        }
    });
    list.book("same: without includes the excludes share a unit", |book| {
        book.same = |section, unit, list| {
            let mut result = rules::same(section, unit, list);
            for m in result.iter_mut().filter(|m| m.includes.is_empty()) {
                if let Some(home) = m.excludes.first().map(|e| units(section, unit, e)) {
                    m.excludes.retain(|e| units(section, unit, e) == home);
                }
            }
            result
        }
    });
    list.book("same: only starts looked at", |book| {
        book.same = |section, unit, list| {
            let starts = |m: &Match| {
                let start = |s: &Str| units(section, unit, s).0;
                let home = m.includes.first().map(start)?;
                (home != 0 && m.includes.iter().all(|s| start(s) == home)).then(|| Match {
                    includes: m.includes.clone(),
                    excludes: m.excludes.iter().filter(|e| start(e) == home).copied().collect(),
                })
            };
            list.iter()
                .flat_map(|m| match m.includes.is_empty() {
                    true => rules::same(section, unit, from_ref(m)),
                    false => starts(m).into_iter().collect(),
                })
                .collect()
        }
    });
    list.book("same: zero is a unit", |book| {
        book.same = |section, unit, list| {
            let raised = |units: &[u32]| units.iter().map(|u| u + 1).collect();
            let (sentences, paragraphs) = (raised(&section.sentences), raised(&section.paragraphs));
            rules::same(&Section { words: section.words.clone(), sentences, paragraphs }, unit, list)
        }
    });
    list.book("same: the paragraph for the sentence", |book| {
        book.same = |section, _, list| rules::same(section, Unit::Paragraph, list)
    });
    list.book("same: a sentence ends with its paragraph", |book| {
        book.same = |section, unit, list| {
            let mut both = section.clone();
            if unit == Unit::Sentence {
                for (s, p) in both.sentences.iter_mut().zip(&section.paragraphs) {
                    *s = if *s == 0 { 0 } else { *s + 65_536 * p };
                }
            }
            rules::same(&both, unit, list)
        }
    });
    list.book("same: excludes lost", |book| {
        book.same = |section, unit, list| excludes(rules::same(section, unit, list), Vec::clear)
    });
    list.book("different: one include passes", |book| {
        book.different = |section, unit, list| {
            list.iter()
                .flat_map(|m| match m.includes.len() {
                    1 if units(section, unit, &m.includes[0]).0 != 0 => vec![m.clone()],
                    _ => rules::different(section, unit, from_ref(m)),
                })
                .collect()
        }
    });
    list.book("different: ranges may touch", |book| {
        book.different = |section, unit, list| {
            different_by(section, unit, list, |one, other| one == other || (one.0 < other.1 && other.0 < one.1))
        }
    });
    list.book("different: only starts looked at", |book| {
        book.different = |section, unit, list| different_by(section, unit, list, |one, other| one.0 == other.0)
    });
    list.book("different: some two differ", |book| {
        book.different = |section, unit, list| {
            let mut result = vec![];
            for m in list {
                let first = |s: &Str| units(section, unit, s).0;
                if m.includes.len() >= 2 && m.includes.iter().any(|s| first(s) != first(&m.includes[0])) {
                    result.push(m.clone());
                }
            }
            result
        }
    });
    list.book("different: all excludes stay", |book| {
        book.different = |section, unit, list| kept(list, |m| !rules::different(section, unit, from_ref(m)).is_empty())
    });
    list.book("different: all excludes go", |book| {
        book.different = |section, unit, list| excludes(rules::different(section, unit, list), Vec::clear)
    });
    list.book("at start: some include covers it, but only a contiguous one", |book| {
        book.at_start = |_, list| kept(list, |m| m.includes.iter().any(|s| s.contiguous && s.covers(1)))
    });
    list.book("at start: the first include alone", |book| {
        book.at_start = |_, list| kept(list, |m| m.includes.first().is_some_and(|s| s.covers(1)))
    });
    list.book("at start: with n = 0 all", |book| {
        book.at_start = |section, list| {
            if section.n() == 0 {
                list.to_vec()
            } else {
                rules::at_start(section, list)
            }
        }
    });
    list.book("at end: some include starts there", |book| {
        book.at_end = |section, list| kept(list, |m| m.includes.iter().any(|s| s.start == section.n()))
    });
    list.book("at end: excludes count", |book| {
        book.at_end =
            |section, list| kept(list, |m| m.includes.iter().chain(&m.excludes).any(|s| s.covers(section.n())))
    });
    list.book("entire content: any include", |book| {
        book.entire_content = |section, list| kept(list, |m| (1..=section.n()).all(|p| m.covers(p)))
    });
    list.book("entire content: all by one include", |book| {
        book.entire_content = |section, list| {
            let whole = |s: &Str| s.contiguous && s.start == 1 && s.end == section.n();
            kept(list, |m| section.n() == 0 || m.includes.iter().any(whole))
        }
    });
    list.book("entire content: with n = 0 none", |book| {
        book.entire_content = |section, list| {
            if section.n() == 0 {
                vec![]
            } else {
                rules::entire_content(section, list)
            }
        }
    });
    list.book("entire content: a match with an exclude dropped", |book| {
        book.entire_content = |section, list| kept(&rules::entire_content(section, list), |m| m.excludes.is_empty())
    });
}

// Sizes

fn largest_product<'a>(list: impl Iterator<Item = &'a Match>) -> Size {
    let (mut matches, mut strings) = (1u128, 0u128);
    let mut largest = 1u128;
    for m in list {
        matches = matches.saturating_mul(m.strings() as u128);
        largest = largest.max(matches);
        strings += matches.min(1);
    }
    // within the limits the right size, so that only the product on the way is wrong
    if largest > 256 {
        Size { matches: largest, strings: largest }
    } else {
        Size { matches, strings: strings * matches }
    }
}

fn mutants_of_sizes(list: &mut Mutants) {
    list.book("limits: 255 matches", |book| book.limits = Limits { matches: 255, strings: 512 });
    list.book("limits: 257 matches", |book| book.limits = Limits { matches: 257, strings: 512 });
    list.book("limits: 511 strings", |book| book.limits = Limits { matches: 256, strings: 511 });
    list.book("limits: 513 strings", |book| book.limits = Limits { matches: 256, strings: 513 });
    list.book("limits: an intermediate product counted, from the front", |book| {
        book.size_of_not = |list| largest_product(list.iter())
    });
    list.book("limits: an intermediate product counted, from the end", |book| {
        book.size_of_not = |list| largest_product(list.iter().rev())
    });
    list.book("limits: a product that wraps round in 32 bits", |book| {
        book.size_of_not = |list| {
            let matches = list.iter().fold(1u32, |product, m| product.wrapping_mul(m.strings() as u32));
            let size = Size { matches: matches.into(), strings: matches.wrapping_mul(list.len() as u32).into() };
            // only the answer is wanted, not the list: a wrapped product has no list that could be made
            if size == sizes::not(list) {
                size
            } else {
                Size { matches: 0, strings: 0 }
            }
        }
    });
}

// Occurs

/// The right choices, in another order.
fn at_least_by<K: Ord>(list: &[Match], a: u32, key: impl Fn(&[u32]) -> K) -> AllMatches {
    let mut choices = rules::at_least(list, a);
    choices.sort_by_key(|m| key(&m.includes.iter().map(|s| s.start).collect::<Vec<u32>>()));
    choices
}

/// Equal sizes in the other order.
fn at_least_reversed(list: &[Match], a: u32) -> AllMatches {
    at_least_by(list, a, |starts| (starts.len(), std::cmp::Reverse(starts.to_vec())))
}

fn mutants_of_at_least(list: &mut Mutants) {
    list.book("at least: largest first", |book| {
        book.at_least = |list, a| at_least_by(list, a, |starts| (usize::MAX - starts.len(), starts.to_vec()))
    });
    list.book("at least: equal sizes in the other order", |book| book.at_least = at_least_reversed);
    list.book("at least: equal sizes by their last difference", |book| {
        book.at_least = |list, a| {
            let backwards = |starts: &[u32]| starts.iter().rev().copied().collect::<Vec<u32>>();
            at_least_by(list, a, |starts| (starts.len(), backwards(starts)))
        }
    });
    list.book("at least: by position, whatever the size", |book| {
        book.at_least = |list, a| at_least_by(list, a, <[u32]>::to_vec)
    });
    list.book("at least: the empty choice left out", |book| book.at_least = |list, a| rules::at_least(list, a.max(1)));
    list.book("at least: the empty choice last", |book| {
        book.at_least = |list, a| at_least_by(list, a, |starts| (starts.is_empty(), starts.len(), starts.to_vec()))
    });
    list.book("at least: read as exactly", |book| {
        book.at_least = |list, a| kept(&rules::at_least(list, a), |m| m.includes.len() == a as usize)
    });
    list.book("at least: read as more than", |book| book.at_least = |list, a| rules::at_least(list, a + 1));
    list.book("at least: of more than there are all", |book| {
        book.at_least = |list, a| rules::at_least(list, a.min(list.len() as u32))
    });
    list.book("at least: the finds themselves, if they are enough", |book| {
        book.at_least = |list, a| if list.len() >= a as usize { list.to_vec() } else { vec![] }
    });
    list.book("at least: neighbours alone are chosen", |book| {
        book.at_least = |list, a| {
            let rank = |s: &Str| list.iter().position(|m| m.includes[0] == *s);
            let next = |pair: &[Str]| rank(&pair[0]).map(|at| at + 1) == rank(&pair[1]);
            kept(&rules::at_least(list, a), |m| m.includes.windows(2).all(next))
        }
    });
    list.book("at least: no choice of finds that overlap", |book| {
        book.at_least =
            |list, a| kept(&rules::at_least(list, a), |m| m.includes.windows(2).all(|pair| pair[0].end < pair[1].start))
    });
    list.book("at least: joined as by a window", |book| {
        book.at_least = |list, a| {
            let joined = |m: Match| Match { includes: join(&m.includes).into_iter().collect(), ..m };
            rules::at_least(list, a).into_iter().map(joined).collect()
        }
    });
    list.book("at least: the last chosen ahead", |book| {
        book.at_least = |list, a| {
            let mut choices = rules::at_least(list, a);
            choices.iter_mut().for_each(|m| m.includes.reverse());
            choices
        }
    });
    list.book("at least: choices that wrap round in 32 bits", |book| {
        book.size_of_at_least = |finds, a| match sizes::at_least(finds, a) {
            size if size.matches > u128::from(u32::MAX) => Size { matches: 0, strings: 0 },
            size => size,
        };
        // only the answer is wanted: so many choices can't be made
        book.at_least = |list, a| match sizes::at_least(list.len(), a).matches {
            0..=4_096 => rules::at_least(list, a),
            _ => vec![],
        }
    });
}

fn mutants_of_from_to(list: &mut Mutants) {
    list.book("from to: without its not", |book| book.from_to = |list, a, _| rules::at_least(list, a));
    list.book("from to: the not of at least b", |book| {
        book.from_to = |list, a, b| rules::and(&rules::at_least(list, a), &rules::not(&rules::at_least(list, b)))
    });
    list.book("from to: the not of at least b + 2", |book| {
        book.from_to = |list, a, b| rules::and(&rules::at_least(list, a), &rules::not(&rules::at_least(list, b + 2)))
    });
    list.book("from to: the not of just b + 1", |book| {
        book.from_to = |list, a, b| {
            let just = kept(&rules::at_least(list, b + 1), |m| m.includes.len() == b as usize + 1);
            rules::and(&rules::at_least(list, a), &rules::not(&just))
        }
    });
    list.book("from to: the choices of a to b, nothing left out", |book| {
        book.from_to = |list, a, b| kept(&rules::at_least(list, a), |m| m.includes.len() <= b as usize)
    });
    list.book("from to: the choices of a to b, the others left out", |book| {
        book.from_to = |list, a, b| kept(&rules::from_to(list, a, b), |m| m.includes.len() <= b as usize)
    });
    list.book("from to: just a", |book| {
        book.from_to = |list, a, b| kept(&rules::from_to(list, a, b), |m| m.includes.len() == a as usize)
    });
    list.book("from to: the not on the left", |book| {
        book.from_to = |list, a, b| rules::and(&rules::not(&rules::at_least(list, b + 1)), &rules::at_least(list, a))
    });
    list.book("from to: largest first", |book| {
        book.from_to = |list, a, b| {
            let mut largest = rules::from_to(list, a, b);
            largest.sort_by_key(|m| usize::MAX - m.includes.len());
            largest
        }
    });
    list.book("from to: a string left out twice stays once", |book| {
        book.from_to = |list, a, b| {
            excludes(rules::from_to(list, a, b), |excludes| {
                let mut seen = vec![];
                excludes.retain(|e| {
                    !seen.contains(e) && {
                        seen.push(*e);
                        true
                    }
                });
            })
        }
    });
    list.book("from to: empty where there are more than b", |book| {
        book.from_to = |list, a, b| if list.len() > b as usize { vec![] } else { rules::at_least(list, a) }
    });
    list.book("from to: the empty choice left out", |book| {
        book.from_to = |list, a, b| rules::from_to(list, a.max(1), b.max(1))
    });
    list.book("from to: only at least a measured", |book| {
        book.size_of_from_to = |finds, a, _| sizes::at_least(finds, a);
        book.from_to = |list, a, b| match sizes::from_to(list.len(), a, b).matches {
            0..=4_096 => rules::from_to(list, a, b),
            _ => rules::at_least(list, a),
        }
    });
}

/// Yes or no and the count, or a refusal.
type Walked = Result<(bool, usize), Refusal>;

/// The right walk down to where it ends, and there another.
fn walk_down(end: &dyn Fn(&Searched, &Tree) -> Walked, section: &Searched, tree: &Tree) -> Walked {
    let decisive = tree.rule == Rule::Or;
    match (&tree.rule, &tree.below[..]) {
        (Rule::Not, [side]) => walk_down(end, section, side).map(|(yes, codes)| (!yes, 1 + codes)),
        (Rule::Or | Rule::And, [left, right]) => match walk_down(end, section, left)? {
            (yes, codes) if yes == decisive => Ok((yes, 1 + codes)),
            (_, codes) => walk_down(end, section, right).map(|(yes, more)| (yes, 1 + codes + more)),
        },
        _ => end(section, tree),
    }
}

/// What a walk does with an occurs itself, and the right one with all else.
type WalkOccurs = fn(&Searched, &Tree, Occurs) -> Walked;

fn walk_occurs(at: WalkOccurs, section: &Searched, tree: &Tree) -> Walked {
    let end = |section: &Searched, tree: &Tree| match tree.rule {
        Rule::Occurs(occurs) => at(section, tree, occurs),
        _ => RuleBook::paper().walk(section, tree),
    };
    walk_down(&end, section, tree)
}

/// How many finds the phrase under an occurs has.
fn finds(section: &Searched, occurs: &Tree) -> usize {
    let Rule::Phrase { words, query } = &occurs.below[0].rule else { panic!("an occurs is over a phrase") };
    rules::phrase(section, words, *query).len()
}

/// Yes or no by the number of finds alone.
fn by_counting(section: &Searched, tree: &Tree, occurs: Occurs) -> bool {
    let finds = finds(section, tree) as u32;
    match occurs {
        Occurs::AtLeast(a) => finds >= a,
        Occurs::FromTo(a, b) => (a..=b).contains(&finds),
    }
}

fn mutants_of_occurs_calls(list: &mut Mutants) {
    list.quick("quick: an occurs by counting, nothing measured", |section, families, selection, work| {
        walked(section, families, selection, work, |section, tree| {
            walk_occurs(|section, tree, occurs| Ok((by_counting(section, tree, occurs), 2)), section, tree)
        })
    });
    list.quick("quick: an occurs by counting, the phrase measured", |section, families, selection, work| {
        walked(section, families, selection, work, |section, tree| {
            let counted: WalkOccurs = |section, tree, occurs| {
                RuleBook::paper().build(section, &tree.below[0])?;
                Ok((by_counting(section, tree, occurs), 2))
            };
            walk_occurs(counted, section, tree)
        })
    });
    list.quick("quick: the phrase of an occurs isn't measured", |section, families, selection, work| {
        walked(section, families, selection, work, |section, tree| {
            let at_the_occurs: WalkOccurs = |section, tree, _| match finds(section, tree) {
                0..=256 => RuleBook::paper().walk(section, tree),
                _ => Err(Refusal::new(9, tree.place)),
            };
            walk_occurs(at_the_occurs, section, tree)
        })
    });
    list.quick("quick: the phrase of an occurs isn't counted", |section, families, selection, work| {
        walked(section, families, selection, work, |section, tree| {
            let one: WalkOccurs = |section, tree, _| Ok((RuleBook::paper().walk(section, tree)?.0, 1));
            walk_occurs(one, section, tree)
        })
    });
    list.quick("quick: an occurs is yes if its list isn't empty", |section, families, selection, work| {
        walked(section, families, selection, work, |section, tree| {
            let filled: WalkOccurs = |section, tree, _| Ok((!RuleBook::paper().build(section, tree)?.is_empty(), 2));
            walk_occurs(filled, section, tree)
        })
    });
    list.listing("listing: the phrase of an occurs isn't measured", |section, families, selection, work, buffer| {
        match engine::listing(section, families, selection, work, buffer) {
            Listing::Refused { number: 9, place } => {
                let above = kinds_and_operands(selection).find(|(at, _, _)| *at == place as usize + 1);
                let below = selection[place as usize] == 1 && above.is_some_and(|(_, kind, _)| is_occurs(kind));
                Listing::Refused { number: 9, place: place + u32::from(below) }
            }
            other => other,
        }
    });
}

/// The selection with other kinds, and operands that fit them, where its length is right.
fn with_codes(selection: &[u32], change: impl Fn(Code, Option<u32>) -> Code) -> Vec<u32> {
    let m = selection.first().map_or(0, |&m| m as usize);
    if selection.len() != 1 + 2 * m {
        return selection.to_vec();
    }
    let code = |at: usize| Code { kind: selection[at], operand: selection[at + m] };
    let before = |at: usize| (at > 1).then(|| selection[at - 1]);
    let codes: Vec<Code> = (1..=m).map(|at| change(code(at), before(at))).collect();
    selection::numbers(&codes)
}

fn is_occurs(kind: u32) -> bool {
    [16, 17].contains(&kind)
}

/// Every occurs that isn't over a phrase as a code that takes its place: a not for kind 16, a filter for kind 17.
fn without_twelve(selection: &[u32]) -> Vec<u32> {
    with_codes(selection, |code, before| match code.kind {
        16 if before != Some(1) => Code { kind: 4, operand: 0 },
        17 if before != Some(1) => Code { kind: 6, operand: 0 },
        _ => code,
    })
}

/// The occurs of a selection that aren't over a phrase.
fn not_over_a_phrase(selection: &[u32]) -> Vec<usize> {
    let over = |at: usize| at > 1 && selection[at - 1] == 1;
    kinds_and_operands(selection).filter(|(at, kind, _)| is_occurs(*kind) && !over(*at)).map(|(at, _, _)| at).collect()
}

fn mutants_of_occurs_checks(list: &mut Mutants) {
    list.refusing("checks: kind 16 unknown", |section, families, selection, _, _| {
        unknown(section, families, selection, 16)
    });
    list.refusing("checks: kind 17 unknown", |section, families, selection, _, _| {
        unknown(section, families, selection, 17)
    });
    list.repairing_selection("checks: kind 18 known", |selection| {
        with_codes(selection, |code, _| if code.kind == 18 { Code { kind: 6, operand: 0 } } else { code })
    });
    list.repairing_selection("checks: at least 4,096 accepted", |selection| {
        with_codes(selection, |code, _| match (code.kind, code.operand) {
            (17, 4_096) => Code { operand: 4_095, ..code },
            _ => code,
        })
    });
    list.refusing("checks: at least 4,095 refused", |section, families, selection, _, _| {
        refused_operand(section, families, selection, |kind, operand| kind == 17 && operand == 4_095)
    });
    list.refusing("checks: at least 0 refused", |section, families, selection, _, _| {
        refused_operand(section, families, selection, |kind, operand| kind == 17 && operand == 0)
    });
    list.repairing_selection("checks: at least by 16 bits", |selection| {
        with_codes(selection, |code, _| match code.kind {
            17 => Code { operand: code.operand & 0xFFFF, ..code },
            _ => code,
        })
    });
    list.repairing_selection("checks: occurs to 4,096 accepted", |selection| {
        with_codes(selection, |code, _| match (code.kind, code.operand >> 16, code.operand & 0xFFFF) {
            (16, 0..=4_095, 4_096) => Code { operand: code.operand - 1, ..code },
            _ => code,
        })
    });
    list.refusing("checks: occurs to 4,095 refused", |section, families, selection, _, _| {
        refused_operand(section, families, selection, |kind, operand| kind == 16 && operand & 0xFFFF == 4_095)
    });
    list.repairing_selection("checks: occurs a > b accepted", |selection| {
        with_codes(selection, |code, _| match (code.kind, code.operand >> 16, code.operand & 0xFFFF) {
            (16, a @ 0..=4_095, b) if a > b => Code { operand: b << 16 | b, ..code },
            _ => code,
        })
    });
    list.refusing("checks: occurs a = b refused", |section, families, selection, _, _| {
        refused_operand(section, families, selection, |kind, operand| kind == 16 && operand >> 16 == operand & 0xFFFF)
    });
    list.repairing_selection("checks: 12 not found", |selection| match selection::read(selection) {
        Err(Refusal { number: 12, .. }) => without_twelve(selection),
        _ => selection.to_vec(),
    });
    list.repairing_selection("checks: an occurs over an occurs accepted", |selection| {
        with_codes(selection, |code, before| match before {
            Some(16 | 17) if is_occurs(code.kind) => Code { kind: 6, operand: 0 },
            _ => code,
        })
    });
    list.repairing_selection("checks: an occurs over a not accepted", |selection| {
        with_codes(selection, |code, before| match before {
            Some(4) if is_occurs(code.kind) => Code { kind: 6, operand: 0 },
            _ => code,
        })
    });
    list.refusing("checks: an occurs over a phrase of one word only", |section, families, selection, _, _| {
        if let Some((1..=6 | 12 | 13, _)) = refusal(section, families, selection) {
            return None;
        }
        let m = selection[0] as usize;
        let long = |at: usize| selection[at - 1] == 1 && selection[at - 1 + m] > 1;
        kinds_and_operands(selection).find(|(at, kind, _)| is_occurs(*kind) && long(*at)).map(|(at, _, _)| (12, at))
    });
    list.refusing("checks: 12 at the last such code", |section, families, selection, _, _| {
        match refusal(section, families, selection) {
            Some((12, _)) => not_over_a_phrase(selection).last().map(|at| (12, *at)),
            _ => None,
        }
    });
    list.refusing("checks: 12 at the code below", |section, families, selection, _, _| {
        match refusal(section, families, selection) {
            Some((12, place)) => Some((12, place - 1)),
            _ => None,
        }
    });
    list.refusing("checks: 12 tried after 7", |section, families, selection, _, _| {
        match refusal(section, families, selection) {
            Some((12, _)) => refusal(section, families, &without_twelve(selection)).filter(|(number, _)| *number == 7),
            _ => None,
        }
    });
    list.refusing("checks: 12 tried after 8", |section, families, selection, work, buffer| {
        match refusal(section, families, selection) {
            Some((12, _)) if refusal(section, families, &without_twelve(selection)).is_none() => {
                (work < WORK || buffer.is_some_and(|length| length < BUFFER)).then_some((8, 0))
            }
            _ => None,
        }
    });
    list.refusing("checks: 12 tried before 6", |section, families, selection, _, _| {
        match refusal(section, families, selection) {
            Some((6, _)) => not_over_a_phrase(selection).first().map(|at| (12, *at)),
            _ => None,
        }
    });
    list.refusing("checks: 12 tried before 5", |section, families, selection, _, _| {
        match refusal(section, families, selection) {
            Some((5, _)) => not_over_a_phrase(selection).first().map(|at| (12, *at)),
            _ => None,
        }
    });
    list.repairing_selection("checks: kind 16 is no not", |selection| match selection::read(selection) {
        Err(Refusal { number: 7, .. }) => with_codes(selection, |code, _| match code.kind {
            16 => Code { kind: 17, operand: 0 },
            _ => code,
        }),
        _ => selection.to_vec(),
    });
    list.refusing("checks: kind 17 is a not", |section, families, selection, _, _| {
        let as_a_range = |code: Code, _| if code.kind == 17 { Code { kind: 16, operand: 4_095 } } else { code };
        match refusal(section, families, selection) {
            None => refusal(section, families, &with_codes(selection, as_a_range)),
            _ => None,
        }
    });
}

/// Refusal 4 of a kind, if no other comes before it.
fn unknown(section: &[u32], families: &[u32], selection: &[u32], unknown: u32) -> Option<(u32, usize)> {
    let found = |kind: u32| kind == unknown || kind >= 18;
    match refusal(section, families, selection) {
        Some((1..=3 | 13, _)) => None,
        _ => kinds_and_operands(selection).find(|(_, kind, _)| found(*kind)).map(|(at, _, _)| (4, at)),
    }
}

/// Refusal 5 of an operand that the table has, if no other comes before it.
fn refused_operand(
    section: &[u32],
    families: &[u32],
    selection: &[u32],
    of: fn(u32, u32) -> bool,
) -> Option<(u32, usize)> {
    let wrong = |kind, operand| of(kind, operand) || !selection::operand_in_table(Code { kind, operand });
    match refusal(section, families, selection) {
        Some((1..=4 | 13, _)) => None,
        _ => kinds_and_operands(selection).find(|(_, kind, operand)| wrong(*kind, *operand)).map(|(at, _, _)| (5, at)),
    }
}

// The early way out of a filter

/// What the walk does with a filter that it reaches.
type AtFilter = fn(&Searched, &Tree) -> Walked;

/// An engine whose walk does something else there.
struct AtFilters(AtFilter);

impl Engine for AtFilters {
    fn listing(
        &self,
        section: &[u32],
        families: &[u32],
        selection: &[u32],
        work: &mut [u32],
        buffer: &mut [u32],
    ) -> Listing {
        engine::listing(section, families, selection, work.len(), buffer)
    }

    fn quick(&self, section: &[u32], families: &[u32], selection: &[u32], work: &mut [u32]) -> Quick {
        let end = |section: &Searched, tree: &Tree| match tree.rule {
            Rule::Filter(_) => (self.0)(section, tree),
            _ => RuleBook::paper().walk(section, tree),
        };
        walked(section, families, selection, work.len(), |section, tree| walk_down(&end, section, tree))
    }

    fn snippet<'a>(&self, section: &'a [u32], from: u32, to: u32) -> &'a [u32] {
        engine::snippet(section, from, to)
    }
}

/// Is the window of these first and last positions, of a match, taken as free? The windows of the match are given, too.
type IsFree = fn(&Match, (i64, i64), &[(i64, i64)]) -> bool;

/// An engine whose walk tries the windows in another way.
struct AtWindows(IsFree);

impl Engine for AtWindows {
    fn listing(
        &self,
        section: &[u32],
        families: &[u32],
        selection: &[u32],
        work: &mut [u32],
        buffer: &mut [u32],
    ) -> Listing {
        engine::listing(section, families, selection, work.len(), buffer)
    }

    fn quick(&self, section: &[u32], families: &[u32], selection: &[u32], work: &mut [u32]) -> Quick {
        let some_free = |m: &Match, size: u32| {
            let joined = join(&m.includes);
            let windows: Vec<(i64, i64)> = joined.iter().flat_map(|joined| rules::windows(joined, size)).collect();
            windows.iter().any(|window| (self.0)(m, *window, &windows))
        };
        let end = |section: &Searched, tree: &Tree| match tree.rule {
            Rule::Filter(Filter::Window(size)) => {
                let operand = RuleBook::paper().build(section, &tree.below[0])?;
                Ok((operand.iter().any(|m| some_free(m, size)), tree.count()))
            }
            _ => RuleBook::paper().walk(section, tree),
        };
        walked(section, families, selection, work.len(), |section, tree| walk_down(&end, section, tree))
    }

    fn snippet<'a>(&self, section: &'a [u32], from: u32, to: u32) -> &'a [u32] {
        engine::snippet(section, from, to)
    }
}

/// How far a list that isn't measured is made; a larger one would take too long.
const FREED: Limits = Limits { matches: 20_000, strings: 100_000 };

/// What one match gives to a filter, whatever its size.
fn given(section: &Searched, filter: &Tree, m: &Match) -> AllMatches {
    let any = Limits { matches: u128::MAX, strings: u128::MAX };
    RuleBook::paper().list_within(any, section, &filter.rule, &[from_ref(m)]).expect("no limit")
}

/// The right way out, but of some of the operand's matches alone.
fn way_out_of<'a>(section: &Searched, filter: &Tree, matches: impl IntoIterator<Item = &'a Match>) -> Walked {
    Ok((matches.into_iter().any(|m| rules::is_yes(&given(section, filter, m))), filter.count()))
}

/// The operand's list, as it is built.
fn operand(section: &Searched, filter: &Tree) -> Result<AllMatches, Refusal> {
    RuleBook::paper().build(section, &filter.below[0])
}

fn mutants_of_the_way_out(list: &mut Mutants) {
    list.at_filters("filter: the operand's first match decides", |section, filter| {
        way_out_of(section, filter, operand(section, filter)?.first())
    });
    list.at_filters("filter: the operand's last match decides", |section, filter| {
        way_out_of(section, filter, operand(section, filter)?.last())
    });
    list.at_filters("filter: the first match isn't taken", |section, filter| {
        way_out_of(section, filter, operand(section, filter)?.iter().skip(1))
    });
    list.at_filters("filter: the last match isn't taken", |section, filter| {
        let operand = operand(section, filter)?;
        way_out_of(section, filter, operand.iter().take(operand.len().saturating_sub(1)))
    });
    list.at_filters("filter: out at the first match that gives any, whatever its excludes", |section, filter| {
        let gives = |m: &Match| !given(section, filter, m).is_empty();
        Ok((operand(section, filter)?.iter().any(gives), filter.count()))
    });
    list.at_filters("filter: the first match that gives any decides", |section, filter| {
        let operand = operand(section, filter)?;
        way_out_of(section, filter, operand.iter().find(|m| !given(section, filter, m).is_empty()))
    });
    list.at_filters("filter: the first of what a match gives decides", |section, filter| {
        let operand = operand(section, filter)?;
        let first_free = |m: &Match| given(section, filter, m).first().is_some_and(|first| first.excludes.is_empty());
        Ok((operand.iter().any(first_free), filter.count()))
    });
    list.at_filters("filter: matches with an exclude aren't taken", |section, filter| {
        way_out_of(section, filter, operand(section, filter)?.iter().filter(|m| m.excludes.is_empty()))
    });
    list.at_filters("filter: no where its operand says no", |section, filter| {
        let operand = operand(section, filter)?;
        let (yes, codes) = way_out_of(section, filter, &operand)?;
        Ok((yes && rules::is_yes(&operand), codes))
    });
    list.at_filters("filter: yes where its operand says yes", |section, filter| {
        let operand = operand(section, filter)?;
        let (yes, codes) = way_out_of(section, filter, &operand)?;
        Ok((yes || rules::is_yes(&operand), codes))
    });
    list.at_filters("filter: counts one", |section, filter| Ok((RuleBook::paper().walk(section, filter)?.0, 1)));
    list.at_filters("filter: counts its own code and the one below", |section, filter| {
        Ok((RuleBook::paper().walk(section, filter)?.0, 2))
    });
    list.at_filters("filter: its own code isn't counted", |section, filter| {
        Ok((RuleBook::paper().walk(section, filter)?.0, filter.count() - 1))
    });
    list.at_filters("filter: its own code isn't counted after a yes", |section, filter| {
        let (yes, codes) = RuleBook::paper().walk(section, filter)?;
        Ok((yes, codes - usize::from(yes)))
    });
    list.at_filters("filter: the codes below counted as walked", |section, filter| {
        let (yes, _) = RuleBook::paper().walk(section, filter)?;
        let below = RuleBook::paper().walk(section, &filter.below[0]).map_or(0, |(_, codes)| codes);
        Ok((yes, 1 + below))
    });
}

fn is_inside(exclude: &Str, (first, last): (i64, i64)) -> bool {
    first <= exclude.start as i64 && exclude.end as i64 <= last
}

fn no_exclude_in(m: &Match, window: (i64, i64)) -> bool {
    m.excludes.iter().all(|e| !is_inside(e, window))
}

fn mutants_of_free_windows(list: &mut Mutants) {
    list.at_windows("free windows: only the first tried", |m, window, windows| {
        window == windows[0] && no_exclude_in(m, window)
    });
    list.at_windows("free windows: only the last tried", |m, window, windows| {
        Some(&window) == windows.last() && no_exclude_in(m, window)
    });
    list.at_windows("free windows: only the first and the last tried", |m, window, windows| {
        (window == windows[0] || Some(&window) == windows.last()) && no_exclude_in(m, window)
    });
    list.at_windows("free windows: the first isn't tried", |m, window, windows| {
        window != windows[0] && no_exclude_in(m, window)
    });
    list.at_windows("free windows: the last isn't tried", |m, window, windows| {
        Some(&window) != windows.last() && no_exclude_in(m, window)
    });
    list.at_windows("free windows: none from W below 1", |m, window, _| window.0 >= 1 && no_exclude_in(m, window));
    list.at_windows("free windows: 256 tried at most", |m, window, windows| {
        window.0 - windows[0].0 < 256 && no_exclude_in(m, window)
    });
    list.at_windows("free windows: each exclude outside of some window", |m, _, windows| {
        m.excludes.iter().all(|e| windows.iter().any(|window| !is_inside(e, *window)))
    });
    list.at_windows("free windows: only the first exclude looked at", |m, window, _| {
        m.excludes.first().is_none_or(|e| !is_inside(e, window))
    });
    list.at_windows("free windows: only the last exclude looked at", |m, window, _| {
        m.excludes.last().is_none_or(|e| !is_inside(e, window))
    });
    list.at_windows("free windows: one exclude outside is enough", |m, window, _| {
        m.excludes.is_empty() || m.excludes.iter().any(|e| !is_inside(e, window))
    });
    list.at_windows("free windows: 255 excludes looked at", |m, window, _| {
        m.excludes.iter().take(255).all(|e| !is_inside(e, window))
    });
    list.at_windows("free windows: an exclude inside by its start alone", |m, (first, last), _| {
        m.excludes.iter().all(|e| !(first..=last).contains(&e.start.into()))
    });
    list.at_windows("free windows: an exclude inside by its end alone", |m, (first, last), _| {
        m.excludes.iter().all(|e| !(first..=last).contains(&e.end.into()))
    });
    list.at_windows("free windows: an exclude inside by a part of it", |m, (first, last), _| {
        m.excludes.iter().all(|e| e.start as i64 > last || (e.end as i64) < first)
    });
    list.at_windows("free windows: one position too wide", |m, (first, last), _| no_exclude_in(m, (first, last + 1)));
    list.at_windows("free windows: one position too narrow", |m, (first, last), _| no_exclude_in(m, (first, last - 1)));
    // of the windows it is enough to try the first, and those that begin behind an exclude's start
    list.at_windows("free windows: only those that begin behind an exclude", |m, window, _| {
        let behind = |e: &Str| e.start as i64 + 1 == window.0;
        m.excludes.is_empty() || m.excludes.iter().any(behind) && no_exclude_in(m, window)
    });
    list.at_windows("free windows: held to the excludes after the one it begins behind", |m, window, windows| {
        let behind = |e: &Str| e.start as i64 + 1 == window.0;
        let after = match m.excludes.iter().position(behind) {
            Some(at) => &m.excludes[at + 1..],
            None if window == windows[0] => &m.excludes[..],
            None => return false,
        };
        after.iter().all(|e| !is_inside(e, window))
    });
    list.at_windows("free windows: only the neighbours of a gap looked at, as if excludes rose", |m, window, _| {
        let after = m.excludes.iter().position(|e| e.start as i64 >= window.0).unwrap_or(m.excludes.len());
        m.excludes.get(after).is_none_or(|e| !is_inside(e, window))
    });
}

/// Builds a part in which some lists aren't measured.
fn build_freed(section: &Searched, tree: &Tree, freed: &dyn Fn(&Tree) -> bool) -> Result<AllMatches, Refusal> {
    let book = RuleBook::paper();
    let below: Vec<AllMatches> =
        tree.below.iter().map(|side| build_freed(section, side, freed)).collect::<Result<_, _>>()?;
    let below: Vec<&[Match]> = below.iter().map(Vec::as_slice).collect();
    let limits = if freed(tree) { FREED } else { book.limits };
    book.list_within(limits, section, &tree.rule, &below).map_err(|_| Refusal::new(9, tree.place))
}

fn is_a_filter(tree: &Tree) -> bool {
    matches!(tree.rule, Rule::Filter(_))
}

fn mutants_of_freed_lists(list: &mut Mutants) {
    list.at_filters("filter: its own list still measured", |section, filter| {
        Ok((rules::is_yes(&RuleBook::paper().build(section, filter)?), filter.count()))
    });
    list.at_filters("filter: its own matches still measured", |section, filter| {
        let operand = operand(section, filter)?;
        let matches: usize = operand.iter().map(|m| given(section, filter, m).len()).sum();
        if matches > 256 {
            return Err(Refusal::new(9, filter.place));
        }
        way_out_of(section, filter, &operand)
    });
    list.at_filters("filter: measured up to the way out", |section, filter| {
        let mut size = Size { matches: 0, strings: 0 };
        for m in &operand(section, filter)? {
            let of_one = given(section, filter, m);
            let Size { matches, strings } = Size::of(&of_one);
            size = Size { matches: size.matches + matches, strings: size.strings + strings };
            if !size.within(sizes::PAPER) {
                return Err(Refusal::new(9, filter.place));
            }
            if rules::is_yes(&of_one) {
                return Ok((true, filter.count()));
            }
        }
        Ok((false, filter.count()))
    });
    list.at_filters("filter: what one match gives is measured", |section, filter| {
        let operand = operand(section, filter)?;
        if operand.iter().any(|m| !Size::of(&given(section, filter, m)).within(sizes::PAPER)) {
            return Err(Refusal::new(9, filter.place));
        }
        way_out_of(section, filter, &operand)
    });
    list.at_filters("filter: nothing under it is measured", |section, filter| {
        way_out_of(section, filter, &build_freed(section, &filter.below[0], &|_| true)?)
    });
    list.at_filters("filter: the operand's own list isn't measured", |section, filter| {
        let own = filter.below[0].place;
        way_out_of(section, filter, &build_freed(section, &filter.below[0], &|tree| tree.place == own)?)
    });
    list.at_filters("filter: a phrase right under it isn't measured", |section, filter| {
        let long = |tree: &Tree| matches!(tree.rule, Rule::Phrase { .. }) && tree.place == filter.below[0].place;
        way_out_of(section, filter, &build_freed(section, &filter.below[0], &long)?)
    });
    list.at_filters("filter: a filter right under it is freed, too", |section, filter| {
        let own = |tree: &Tree| is_a_filter(tree) && tree.place == filter.below[0].place;
        way_out_of(section, filter, &build_freed(section, &filter.below[0], &own)?)
    });
    list.at_filters("filter: every filter under it is freed, too", |section, filter| {
        way_out_of(section, filter, &build_freed(section, &filter.below[0], &is_a_filter)?)
    });
    list.at_filters("filter: 9 below it at its own place", |section, filter| {
        RuleBook::paper().walk(section, filter).map_err(|_| Refusal::new(9, filter.place))
    });
    // a mild not's own list is never larger than its left side's: freed like a filter means its sides
    list.quick("quick: the sides of a mild not freed", |section, families, selection, work| {
        let end = |section: &Searched, tree: &Tree| match tree.rule {
            Rule::MildNot => {
                let side = |part: &Tree| tree.below.iter().any(|side| side.place == part.place);
                Ok((rules::is_yes(&build_freed(section, tree, &side)?), tree.count()))
            }
            _ => RuleBook::paper().walk(section, tree),
        };
        walked(section, families, selection, work, |section, tree| walk_down(&end, section, tree))
    });
    list.quick("quick: filters in a mild not freed", |section, families, selection, work| {
        let end = |section: &Searched, tree: &Tree| match tree.rule {
            Rule::MildNot => Ok((rules::is_yes(&build_freed(section, tree, &is_a_filter)?), tree.count())),
            _ => RuleBook::paper().walk(section, tree),
        };
        walked(section, families, selection, work, |section, tree| walk_down(&end, section, tree))
    });
    list.quick("quick: kind 17 freed", |section, families, selection, work| {
        walked(section, families, selection, work, |section, tree| {
            let freed: WalkOccurs = |section, tree, occurs| match occurs {
                Occurs::AtLeast(_) => {
                    RuleBook::paper().build(section, &tree.below[0])?;
                    Ok((by_counting(section, tree, occurs), tree.count()))
                }
                Occurs::FromTo(..) => RuleBook::paper().walk(section, tree),
            };
            walk_occurs(freed, section, tree)
        })
    });
    list.quick("quick: kind 16 freed", |section, families, selection, work| {
        walked(section, families, selection, work, |section, tree| {
            let freed: WalkOccurs = |section, tree, occurs| match occurs {
                Occurs::FromTo(..) => {
                    RuleBook::paper().build(section, &tree.below[0])?;
                    Ok((by_counting(section, tree, occurs), tree.count()))
                }
                Occurs::AtLeast(_) => RuleBook::paper().walk(section, tree),
            };
            walk_occurs(freed, section, tree)
        })
    });
}

// Headings

/// Finds the first faulty position of a section.
type Faulty = dyn Fn(&Section) -> Option<usize>;

/// An engine with another first faulty position. It goes on with every section that has none.
struct Units(Box<Faulty>);

impl Units {
    fn read(&self, section: &[u32]) -> Result<Section, Refusal> {
        let section = section::read_sized(section)?;
        match (self.0)(&section) {
            Some(place) => Err(Refusal::new(2, place)),
            None => Ok(section),
        }
    }

    fn check(
        &self,
        section: &[u32],
        families: &[u32],
        selection: &[u32],
        work: usize,
        buffer: Option<usize>,
    ) -> Result<(Searched, Tree), Refusal> {
        let section = self.read(section)?;
        // a section of no tokens is never refused, so this is what is tried after the section
        let (empty, tree) = check(&[0], families, selection, work, buffer)?;
        Ok((empty.with(section), tree))
    }
}

/// A listing in its buffer, or its refusal.
fn listed(list: Result<AllMatches, Refusal>, buffer: &mut [u32]) -> Listing {
    match list {
        Err(Refusal { number, place }) => Listing::Refused { number, place },
        Ok(list) => {
            let numbers = engine::encode(&list);
            buffer[..numbers.len()].copy_from_slice(&numbers);
            Listing::Listed { matches: numbers[0], strings: numbers[1], yes: rules::is_yes(&list) }
        }
    }
}

impl Engine for Units {
    fn listing(
        &self,
        section: &[u32],
        families: &[u32],
        selection: &[u32],
        work: &mut [u32],
        buffer: &mut [u32],
    ) -> Listing {
        let checked = self.check(section, families, selection, work.len(), Some(buffer.len()));
        listed(checked.and_then(|(section, tree)| RuleBook::paper().build(&section, &tree)), buffer)
    }

    fn quick(&self, section: &[u32], families: &[u32], selection: &[u32], work: &mut [u32]) -> Quick {
        let checked = self.check(section, families, selection, work.len(), None);
        match checked.and_then(|(section, tree)| RuleBook::paper().walk(&section, &tree)) {
            Err(Refusal { number, place }) => Quick::Refused { number, place },
            Ok((yes, codes)) => Quick::Answered { yes, codes: codes as u32 },
        }
    }

    fn snippet<'a>(&self, section: &'a [u32], from: u32, to: u32) -> &'a [u32] {
        match self.read(section) {
            Ok(accepted) if 1 <= from && from <= to && to <= accepted.n() => &section[from as usize..=to as usize],
            _ => &section[..0],
        }
    }
}

/// Is the last of these sentence or paragraph numbers faulty? They are those of a section up to a position.
type UnitRule = fn(&[u32]) -> bool;

/// One scan, both countings at each position.
fn first_faulty(section: &Section, sentence: UnitRule, paragraph: UnitRule) -> Option<usize> {
    let faulty = |at: &usize| sentence(&section.sentences[..*at]) || paragraph(&section.paragraphs[..*at]);
    (1..=section.words.len()).find(faulty)
}

/// The rule of request F-5 for sentences.
fn falls(numbers: &[u32]) -> bool {
    falls_within(numbers, usize::MAX)
}

/// The same, but only so many positions before are looked at.
fn falls_within(numbers: &[u32], positions: usize) -> bool {
    let [before @ .., here] = numbers else { return false };
    let last_nonzero = before.iter().rev().take(positions).find(|number| **number != 0);
    *here != 0 && last_nonzero.is_some_and(|last| here < last)
}

/// The same, but only those positions are looked at that are in one block of so many with the last.
fn falls_in_block(numbers: &[u32], block: usize) -> bool {
    falls_within(numbers, numbers.len().saturating_sub(1) % block)
}

/// The rule of document 01, which paragraphs keep.
fn steps_wrongly(numbers: &[u32]) -> bool {
    match numbers {
        [.., before, here] => here < before || (*before == 0) != (*here == 0),
        _ => false,
    }
}

/// Is the last number 0, and does the test hold of those before it?
fn is_zero_after(numbers: &[u32], test: impl Fn(&[u32]) -> bool) -> bool {
    matches!(numbers, [before @ .., 0] if test(before))
}

fn any_nonzero(numbers: &[u32]) -> bool {
    numbers.iter().any(|number| *number != 0)
}

/// All about refusal 2.
fn mutants_of_faults(list: &mut Mutants) {
    mutants_of_sentence_numbers(list);
    mutants_of_paragraph_numbers(list);
    mutants_of_fault_places(list);
    mutants_of_one_call(list);
}

fn mutants_of_sentence_numbers(list: &mut Mutants) {
    list.sentences("headings: document 01's rule for sentences", steps_wrongly);
    list.sentences("headings: a zero is a fall", |numbers| falls(numbers) || is_zero_after(numbers, any_nonzero));
    list.sentences("headings: a sentence held to the position before alone", |numbers| falls_within(numbers, 1));
    list.sentences("headings: the last sentence forgotten after two zeros", |numbers| falls_within(numbers, 2));
    list.sentences("headings: the last sentence forgotten after three zeros", |numbers| falls_within(numbers, 3));
    list.sentences("headings: the last sentence forgotten after 15 zeros", |numbers| falls_within(numbers, 15));
    list.sentences("headings: the last sentence forgotten after 64 zeros", |numbers| falls_within(numbers, 64));
    list.sentences("headings: the last sentence forgotten after each 16 positions", |numbers| {
        falls_in_block(numbers, 16)
    });
    list.sentences("headings: the last sentence forgotten after each 64 positions", |numbers| {
        falls_in_block(numbers, 64)
    });
    list.sentences("headings: after each 32 positions held to the position before alone", |numbers| {
        falls_in_block(numbers, 32) || falls_within(numbers, 1)
    });
    list.sentences("headings: sentences aren't looked at", |_| false);
    list.sentences("headings: a sentence held to the first one", |numbers| {
        let [before @ .., here] = numbers else { return false };
        *here != 0 && before.iter().find(|number| **number != 0).is_some_and(|first| here < first)
    });
    list.sentences("headings: a sentence may begin again at 1", |numbers| {
        falls(numbers) && !matches!(numbers, [.., 0, 1])
    });
    list.sentences("headings: a sentence can't go on after a heading", |numbers| match numbers {
        [before @ .., 0, here] => *here != 0 && before.iter().rfind(|n| **n != 0).is_some_and(|last| here <= last),
        _ => falls(numbers),
    });
    list.sentences("headings: no leap after a heading", |numbers| match numbers {
        [before @ .., 0, here] if *here != 0 => {
            falls(numbers) || before.iter().rfind(|n| **n != 0).is_some_and(|last| *here > last + 1)
        }
        _ => falls(numbers),
    });
    list.sentences("headings: none at the start", |numbers| match numbers {
        [before @ .., here] => falls(numbers) || *here != 0 && !before.is_empty() && !any_nonzero(before),
        _ => false,
    });
    list.sentences("headings: of one token alone", |numbers| {
        let second = |before: &[u32]| before.last() == Some(&0) && any_nonzero(before);
        falls(numbers) || is_zero_after(numbers, second)
    });
    list.sentences("headings: one alone", |numbers| {
        let begins = |pair: &[u32]| pair[0] != 0 && pair[1] == 0;
        let headings = numbers.windows(2).filter(|pair| begins(pair)).count() + usize::from(numbers[0] == 0);
        falls(numbers) || headings > 1 && any_nonzero(numbers)
    });
    list.faulty("headings: none at the end", |section| {
        let last = is_zero_after(&section.sentences, any_nonzero);
        first_faulty(section, falls, steps_wrongly).or(last.then_some(section.words.len()))
    });
    list.faulty("headings: all sentences zero refused", |section| {
        let none = !section.words.is_empty() && !any_nonzero(&section.sentences);
        first_faulty(section, falls, steps_wrongly).or(none.then_some(1))
    });
    list.faulty("headings: position 1 faulty where it is in one", |section| {
        let first = section.sentences.first() == Some(&0) && any_nonzero(&section.sentences);
        if first {
            Some(1)
        } else {
            first_faulty(section, falls, steps_wrongly)
        }
    });
    list.sentences("headings: numbers of 8 bits", |numbers| {
        falls(&numbers.iter().map(|number| number & 0xFF).collect::<Vec<u32>>())
    });
    list.faulty("headings: sentences counted anew in each paragraph", |section| {
        let rises = |at: usize| at > 1 && section.paragraphs[at - 2] < section.paragraphs[at - 1];
        let faulty = |at: &usize| {
            let (sentences, paragraphs) = (&section.sentences[..*at], &section.paragraphs[..*at]);
            falls(sentences) && !rises(*at) || steps_wrongly(paragraphs)
        };
        (1..=section.words.len()).find(faulty)
    });
}

fn mutants_of_paragraph_numbers(list: &mut Mutants) {
    list.paragraphs("headings: the sentence rule for paragraphs", falls);
    list.paragraphs("headings: a zero paragraph after nonzero ones accepted", |numbers| {
        steps_wrongly(numbers) && numbers.last() != Some(&0)
    });
    list.paragraphs("headings: a paragraph after zero ones accepted", |numbers| {
        steps_wrongly(numbers) && !matches!(numbers, [.., 0, _])
    });
    list.paragraphs("headings: paragraphs aren't looked at", |_| false);
    list.faulty("headings: a heading's zero paragraph accepted", |section| {
        let zeros = |at: usize| (section.sentences[at - 1], section.paragraphs[at - 1]) == (0, 0);
        let faulty = |at: &usize| {
            let fault = steps_wrongly(&section.paragraphs[..*at]) && !zeros(*at);
            falls(&section.sentences[..*at]) || fault
        };
        (1..=section.words.len()).find(faulty)
    });
    list.faulty("headings: a heading's paragraph isn't looked at", |section| {
        let faulty = |at: &usize| {
            let fault = steps_wrongly(&section.paragraphs[..*at]) && section.sentences[at - 1] != 0;
            falls(&section.sentences[..*at]) || fault
        };
        (1..=section.words.len()).find(faulty)
    });
    list.faulty("headings: a zero in both countings alone", |section| {
        let faulty = |at: &usize| {
            let alone = section.sentences[at - 1] == 0 && section.paragraphs[at - 1] != 0;
            falls(&section.sentences[..*at]) || steps_wrongly(&section.paragraphs[..*at]) || alone
        };
        (1..=section.words.len()).find(faulty)
    });
}

/// How many zeros stand right before the last number.
fn zeros_before(numbers: &[u32]) -> usize {
    numbers.iter().rev().skip(1).take_while(|number| **number == 0).count()
}

/// The right first fault, if it is a sentence's, at another place.
fn moved(section: &Section, place: impl Fn(&[u32]) -> usize) -> Option<usize> {
    let at = first_faulty(section, falls, steps_wrongly)?;
    let sentences = &section.sentences[..at];
    Some(if falls(sentences) { place(sentences) } else { at })
}

fn mutants_of_fault_places(list: &mut Mutants) {
    list.faulty("headings: the fault at the zero before it", |section| {
        moved(section, |sentences| sentences.len() - zeros_before(sentences).min(1))
    });
    list.faulty("headings: the fault at the first zero before it", |section| {
        moved(section, |sentences| sentences.len() - zeros_before(sentences))
    });
    list.faulty("headings: the fault at the sentence that it is below", |section| {
        moved(section, |sentences| sentences.len() - zeros_before(sentences) - 1)
    });
    list.faulty("headings: the fault's place without zeros", |section| {
        moved(section, |sentences| sentences.iter().filter(|sentence| **sentence != 0).count())
    });
    list.faulty("headings: the last fault", |section| {
        let faulty = |at: &usize| falls(&section.sentences[..*at]) || steps_wrongly(&section.paragraphs[..*at]);
        (1..=section.words.len()).rfind(faulty)
    });
    list.faulty("headings: sentences all before paragraphs", |section| {
        first_faulty(section, falls, |_| false).or_else(|| first_faulty(section, |_| false, steps_wrongly))
    });
    list.faulty("headings: paragraphs all before sentences", |section| {
        first_faulty(section, |_| false, steps_wrongly).or_else(|| first_faulty(section, falls, |_| false))
    });
}

/// The engine that has another rule for sentences.
fn with_sentences(rule: UnitRule) -> Units {
    Units(Box::new(move |section| first_faulty(section, rule, steps_wrongly)))
}

/// One call alone has another rule.
fn mutants_of_one_call(list: &mut Mutants) {
    list.listing("headings: document 01's rule in the listing alone", |section, families, selection, work, buffer| {
        with_sentences(steps_wrongly).listing(section, families, selection, &mut vec![0; work], buffer)
    });
    list.quick("headings: document 01's rule in the quick answer alone", |section, families, selection, work| {
        with_sentences(steps_wrongly).quick(section, families, selection, &mut vec![0; work])
    });
    list.snippet("headings: document 01's rule in the snippet alone", |section, from, to| {
        with_sentences(steps_wrongly).snippet(section, from, to)
    });
    list.listing(
        "headings: a fall after zeros accepted in the listing alone",
        |section, families, selection, work, buffer| {
            with_sentences(|numbers| falls_within(numbers, 1)).listing(
                section,
                families,
                selection,
                &mut vec![0; work],
                buffer,
            )
        },
    );
    list.quick(
        "headings: a fall after zeros accepted in the quick answer alone",
        |section, families, selection, work| {
            with_sentences(|numbers| falls_within(numbers, 1)).quick(section, families, selection, &mut vec![0; work])
        },
    );
    list.snippet("headings: a fall after zeros accepted in the snippet alone", |section, from, to| {
        with_sentences(|numbers| falls_within(numbers, 1)).snippet(section, from, to)
    });
}

/// The section with another sentence for each token of a heading: the last one before it, if there is one.
fn with_the_sentence_before(section: &Section) -> Section {
    let mut filled = section.clone();
    for at in 1..filled.sentences.len() {
        if filled.sentences[at] == 0 {
            filled.sentences[at] = filled.sentences[at - 1];
        }
    }
    filled
}

/// The next one after it, if there is one.
fn with_the_sentence_after(section: &Section) -> Section {
    let mut filled = section.clone();
    for at in (1..filled.sentences.len()).rev() {
        if filled.sentences[at - 1] == 0 {
            filled.sentences[at - 1] = filled.sentences[at];
        }
    }
    filled
}

/// Another number for each token of a heading, by its index.
fn with_heading_sentences(section: &Section, number: fn(usize) -> u32) -> Section {
    let mut filled = section.clone();
    if any_nonzero(&section.sentences) {
        let tokens = filled.sentences.iter_mut().enumerate();
        tokens.filter(|(_, sentence)| **sentence == 0).for_each(|(at, sentence)| *sentence = number(at));
    }
    filled
}

/// Numbers that no sentence has: for each token of a heading its own, or for all of them one.
fn with_own_sentences(section: &Section) -> Section {
    with_heading_sentences(section, |at| 65_536 + at as u32)
}

fn with_one_sentence(section: &Section) -> Section {
    with_heading_sentences(section, |_| 65_536)
}

/// Is the sentence of the string's start or of its end a heading's?
fn has_zero(section: &Section, unit: Unit, s: &Str) -> bool {
    let (start, end) = units(section, unit, s);
    unit == Unit::Sentence && any_nonzero(&section.sentences) && (start == 0 || end == 0)
}

/// The rule with the excludes for which the test holds kept in their places, and the others as they are by it.
fn with_excludes(
    list: &[Match],
    rule: impl Fn(&[Match]) -> AllMatches,
    stays: impl Fn(&Match, &Str) -> bool,
) -> AllMatches {
    let mut result = vec![];
    for m in list {
        for by_rule in rule(from_ref(m)) {
            let kept = |e: &&Str| by_rule.excludes.contains(e) || stays(m, e);
            let excludes = m.excludes.iter().filter(kept).copied().collect();
            result.push(Match { includes: m.includes.clone(), excludes });
        }
    }
    result
}

/// The rule with the includes for which the test holds left aside while it decides.
fn with_includes_aside(
    list: &[Match],
    rule: impl Fn(&[Match]) -> AllMatches,
    aside: impl Fn(&Str) -> bool,
) -> AllMatches {
    let mut result = vec![];
    for m in list {
        let rest = Match { includes: m.includes.iter().filter(|s| !aside(s)).copied().collect(), ..m.clone() };
        let decided = if rest.includes.is_empty() { rule(from_ref(m)) } else { rule(from_ref(&rest)) };
        result.extend(decided.into_iter().map(|by_rule| Match { includes: m.includes.clone(), ..by_rule }));
    }
    result
}

/// Are all tokens of a string in the sentence in which it starts?
fn is_in_one(section: &Section, s: &Str) -> bool {
    (s.start..=s.end).all(|position| section.sentence(position) == section.sentence(s.start))
}

fn mutants_of_same_with_headings(list: &mut Mutants) {
    list.at_filters("headings: at the way out, a heading is in the sentence before it", |section, filter| {
        RuleBook::paper().walk(&section.with(with_the_sentence_before(section)), filter)
    });
    list.book("headings: same, a heading is in the sentence before it", |book| {
        book.same = |section, unit, list| rules::same(&with_the_sentence_before(section), unit, list)
    });
    list.book("headings: same, a heading is in the sentence after it", |book| {
        book.same = |section, unit, list| rules::same(&with_the_sentence_after(section), unit, list)
    });
    list.book("headings: same, a heading's word is a sentence of its own", |book| {
        book.same = |section, unit, list| rules::same(&with_own_sentences(section), unit, list)
    });
    list.book("headings: same, all headings are one sentence", |book| {
        book.same = |section, unit, list| rules::same(&with_one_sentence(section), unit, list)
    });
    list.book("headings: same, includes in a heading are left aside", |book| {
        book.same = |section, unit, list| {
            let rule = |list: &[Match]| rules::same(section, unit, list);
            with_includes_aside(list, rule, |s| has_zero(section, unit, s))
        }
    });
    list.book("headings: same, excludes in a heading stay", |book| {
        book.same = |section, unit, list| {
            let rule = |list: &[Match]| rules::same(section, unit, list);
            with_excludes(list, rule, |m, e| !m.includes.is_empty() && has_zero(section, unit, e))
        }
    });
    list.book("headings: same, without includes excludes in a heading stay", |book| {
        book.same = |section, unit, list| {
            let rule = |list: &[Match]| rules::same(section, unit, list);
            with_excludes(list, rule, |m, e| m.includes.is_empty() && has_zero(section, unit, e))
        }
    });
    list.book("headings: same, every token of an include looked at", |book| {
        book.same = |section, unit, list| {
            let whole = |m: &Match| unit == Unit::Paragraph || m.includes.iter().all(|s| is_in_one(section, s));
            kept(&rules::same(section, unit, list), whole)
        }
    });
    list.book("headings: same, every token of an exclude looked at", |book| {
        book.same = |section, unit, list| {
            excludes(rules::same(section, unit, list), |excludes| {
                excludes.retain(|e| unit == Unit::Paragraph || is_in_one(section, e))
            })
        }
    });
    list.book("headings: same, nothing where the section has a heading", |book| {
        book.same = |section, unit, list| match unit == Unit::Sentence && section.sentences.contains(&0) {
            true => rules::same(&Section { sentences: vec![0; section.words.len()], ..section.clone() }, unit, list),
            false => rules::same(section, unit, list),
        }
    });
    list.book("headings: same, of a paragraph's headings too", |book| {
        book.same = |section, unit, list| match unit {
            Unit::Sentence => rules::same(section, unit, list),
            Unit::Paragraph => {
                let of = |(sentence, paragraph): (&u32, &u32)| if *sentence == 0 { 0 } else { *paragraph };
                let paragraphs = section.sentences.iter().zip(&section.paragraphs).map(of).collect();
                rules::same(&Section { paragraphs, ..section.clone() }, unit, list)
            }
        }
    });
}

fn mutants_of_different_with_headings(list: &mut Mutants) {
    list.book("headings: different, a heading is in the sentence before it", |book| {
        book.different = |section, unit, list| rules::different(&with_the_sentence_before(section), unit, list)
    });
    list.book("headings: different, a heading is in the sentence after it", |book| {
        book.different = |section, unit, list| rules::different(&with_the_sentence_after(section), unit, list)
    });
    list.book("headings: different, a heading's word is a sentence of its own", |book| {
        book.different = |section, unit, list| rules::different(&with_own_sentences(section), unit, list)
    });
    list.book("headings: different, all headings are one sentence", |book| {
        book.different = |section, unit, list| rules::different(&with_one_sentence(section), unit, list)
    });
    list.book("headings: different, includes in a heading are left aside", |book| {
        book.different = |section, unit, list| {
            let rule = |list: &[Match]| rules::different(section, unit, list);
            with_includes_aside(list, rule, |s| has_zero(section, unit, s))
        }
    });
    list.book("headings: different, excludes in a heading stay", |book| {
        book.different = |section, unit, list| {
            let rule = |list: &[Match]| rules::different(section, unit, list);
            with_excludes(list, rule, |_, e| has_zero(section, unit, e))
        }
    });
    list.book("headings: different, only starts must be nonzero", |book| {
        book.different = |section, unit, list| different_nonzero(section, unit, list, |(start, _)| start != 0)
    });
    list.book("headings: different, only ends must be nonzero", |book| {
        book.different = |section, unit, list| different_nonzero(section, unit, list, |(_, end)| end != 0)
    });
    list.book("headings: different, every token of an include looked at", |book| {
        book.different = |section, unit, list| {
            let zero = |s: &Str| (s.start..=s.end).any(|position| section.sentence(position) == 0);
            let whole = |m: &Match| unit == Unit::Paragraph || !m.includes.iter().any(zero);
            kept(&rules::different(section, unit, list), whole)
        }
    });
}

/// The different rule with another test of nonzero units. Two ranges overlap if an end of one is in the other.
fn different_nonzero(section: &Section, unit: Unit, list: &[Match], nonzero: fn((u32, u32)) -> bool) -> AllMatches {
    let range = |s: &Str| {
        let (start, end) = units(section, unit, s);
        (start.min(end), start.max(end))
    };
    let overlap = |one: &Str, other: &Str| range(one).0 <= range(other).1 && range(other).0 <= range(one).1;
    let is_nonzero = |s: &Str| nonzero(units(section, unit, s));
    let mut result = vec![];
    for m in list {
        let includes = &m.includes;
        let apart = (0..includes.len()).all(|i| (0..i).all(|j| !overlap(&includes[i], &includes[j])));
        if includes.len() >= 2 && includes.iter().all(is_nonzero) && apart {
            let stays = |e: &&Str| is_nonzero(e) && !includes.iter().any(|i| overlap(e, i));
            let excludes = m.excludes.iter().filter(stays).copied().collect();
            result.push(Match { includes: includes.clone(), excludes });
        }
    }
    result
}

/// As if the words of a heading were no words of the text.
fn mutants_of_heading_words(list: &mut Mutants) {
    fn in_heading(section: &Section, position: u32) -> bool {
        any_nonzero(&section.sentences) && section.sentence(position) == 0
    }
    list.book("headings: their words aren't found", |book| {
        book.phrase = |section, words, query| {
            kept(&rules::phrase(section, words, query), |m| !in_heading(section, m.includes[0].start))
        }
    });
    list.book("headings: no phrase begins in one and ends after it", |book| {
        book.phrase = |section, words, query| {
            let parted = |s: &Str| in_heading(section, s.start) != in_heading(section, s.end);
            kept(&rules::phrase(section, words, query), |m| !parted(&m.includes[0]))
        }
    });
    list.book("headings: phrases over them", |book| {
        book.phrase = |section, words, query| {
            let over = |s: &Str| (s.start..=s.end).any(|position| in_heading(section, position));
            let parted = |s: &Str| over(s) && !in_heading(section, s.start) && !in_heading(section, s.end);
            kept(&rules::phrase(section, words, query), |m| !parted(&m.includes[0]))
        }
    });
    list.book("headings: at start, after one", |book| {
        book.at_start = |section, list| {
            let start = (1..=section.n()).find(|position| !in_heading(section, *position));
            kept(list, |m| start.is_some_and(|start| m.covers(start)))
        }
    });
    list.book("headings: at end, before one", |book| {
        book.at_end = |section, list| {
            let end = (1..=section.n()).rfind(|position| !in_heading(section, *position));
            kept(list, |m| end.is_some_and(|end| m.covers(end)))
        }
    });
    list.book("headings: entire content, but them", |book| {
        book.entire_content = |section, list| {
            let covered = |m: &Match, position| m.includes.iter().any(|s| s.contiguous && s.covers(position));
            let content = |position: &u32| !in_heading(section, *position);
            kept(list, |m| (1..=section.n()).filter(content).all(|position| covered(m, position)))
        }
    });
}

// The calls

type ListingCall = fn(&[u32], &[u32], &[u32], usize, &mut [u32]) -> Listing;
type QuickCall = fn(&[u32], &[u32], &[u32], usize) -> Quick;
type SnippetCall = for<'a> fn(&'a [u32], u32, u32) -> &'a [u32];

/// An engine of three calls, each the right one unless another is put in.
struct Calls {
    listing: ListingCall,
    quick: QuickCall,
    snippet: SnippetCall,
}

impl Engine for Calls {
    fn listing(
        &self,
        section: &[u32],
        families: &[u32],
        selection: &[u32],
        work: &mut [u32],
        buffer: &mut [u32],
    ) -> Listing {
        (self.listing)(section, families, selection, work.len(), buffer)
    }

    fn quick(&self, section: &[u32], families: &[u32], selection: &[u32], work: &mut [u32]) -> Quick {
        (self.quick)(section, families, selection, work.len())
    }

    fn snippet<'a>(&self, section: &'a [u32], from: u32, to: u32) -> &'a [u32] {
        (self.snippet)(section, from, to)
    }
}

fn right_calls() -> Calls {
    Calls { listing: engine::listing, quick: engine::quick, snippet: engine::snippet }
}

/// The quick answer by another walk.
fn walked(
    section: &[u32],
    families: &[u32],
    selection: &[u32],
    work_len: usize,
    walk: impl Fn(&Searched, &Tree) -> Walked,
) -> Quick {
    match check(section, families, selection, work_len, None).and_then(|(section, tree)| walk(&section, &tree)) {
        Ok((yes, codes)) => Quick::Answered { yes, codes: codes as u32 },
        Err(Refusal { number, place }) => Quick::Refused { number, place },
    }
}

/// The right walk, but with one mistake.
#[derive(Clone, Copy, PartialEq)]
enum Walk {
    MeasuresPhrases,
    BothSidesOfOr,
    BothSidesOfAnd,
    RightFirst,
    BuiltPartCountsOne,
    NotUncounted,
    NotBuilds,
    YesIfNotEmpty,
}

fn walk(mistake: Walk, section: &Searched, tree: &Tree) -> Walked {
    let book = RuleBook::paper();
    match (&tree.rule, &tree.below[..]) {
        (Rule::Phrase { words, query }, _) => {
            let list = rules::phrase(section, words, *query);
            if mistake == Walk::MeasuresPhrases && list.len() > 256 {
                return Err(Refusal { number: 9, place: tree.place as u32 });
            }
            Ok((!list.is_empty(), 1))
        }
        (Rule::Not, [side]) if mistake != Walk::NotBuilds => {
            let (yes, codes) = walk(mistake, section, side)?;
            Ok((!yes, codes + usize::from(mistake != Walk::NotUncounted)))
        }
        (Rule::Or | Rule::And, [left, right]) => {
            let (left, right) = if mistake == Walk::RightFirst { (right, left) } else { (left, right) };
            let decisive = tree.rule == Rule::Or;
            let (yes, codes) = walk(mistake, section, left)?;
            let both = match tree.rule {
                Rule::Or => mistake == Walk::BothSidesOfOr,
                _ => mistake == Walk::BothSidesOfAnd,
            };
            if yes == decisive && !both {
                return Ok((yes, 1 + codes));
            }
            let (other, more) = walk(mistake, section, right)?;
            Ok((if decisive { yes || other } else { yes && other }, 1 + codes + more))
        }
        (Rule::Not, _) => Ok((rules::is_yes(&book.build(section, tree)?), tree.count())),
        _ if mistake == Walk::YesIfNotEmpty && tree.rule.is_built_whole() => {
            Ok((!book.build(section, tree)?.is_empty(), tree.count()))
        }
        _ if mistake == Walk::BuiltPartCountsOne => Ok((book.walk(section, tree)?.0, 1)),
        _ => book.walk(section, tree),
    }
}

fn mutants_of_calls(list: &mut Mutants) {
    list.quick("quick: 9 for a long phrase list", |section, families, selection, work| {
        walked(section, families, selection, work, |section, tree| walk(Walk::MeasuresPhrases, section, tree))
    });
    list.quick("quick: both sides of an or", |section, families, selection, work| {
        walked(section, families, selection, work, |section, tree| walk(Walk::BothSidesOfOr, section, tree))
    });
    list.quick("quick: both sides of an and", |section, families, selection, work| {
        walked(section, families, selection, work, |section, tree| walk(Walk::BothSidesOfAnd, section, tree))
    });
    list.quick("quick: right side first", |section, families, selection, work| {
        walked(section, families, selection, work, |section, tree| walk(Walk::RightFirst, section, tree))
    });
    list.quick("quick: a built part counts one", |section, families, selection, work| {
        walked(section, families, selection, work, |section, tree| walk(Walk::BuiltPartCountsOne, section, tree))
    });
    list.quick("quick: a not isn't counted", |section, families, selection, work| {
        walked(section, families, selection, work, |section, tree| walk(Walk::NotUncounted, section, tree))
    });
    list.quick("quick: a not is built", |section, families, selection, work| {
        walked(section, families, selection, work, |section, tree| walk(Walk::NotBuilds, section, tree))
    });
    list.quick("quick: a built list is yes if it isn't empty", |section, families, selection, work| {
        walked(section, families, selection, work, |section, tree| walk(Walk::YesIfNotEmpty, section, tree))
    });
    list.quick("quick: words counted in a built part", |section, families, selection, work| {
        walked(section, families, selection, work, |section, tree| {
            let (yes, codes) = RuleBook::paper().walk(section, tree)?;
            Ok((yes, if tree.rule.ends_the_walk() { tree.codes().len() } else { codes }))
        })
    });
    list.quick("quick: the whole listing made for it", |section, families, selection, work| {
        walked(section, families, selection, work, |section, tree| {
            RuleBook::paper().build(section, tree)?;
            RuleBook::paper().walk(section, tree)
        })
    });
    list.quick("quick: the whole count always", |section, families, selection, work| {
        walked(section, families, selection, work, |section, tree| {
            Ok((RuleBook::paper().walk(section, tree)?.0, tree.count()))
        })
    });
    list.listing("listing: the place of 9 without words", |section, families, selection, work, buffer| {
        match engine::listing(section, families, selection, work, buffer) {
            Listing::Refused { number: 9, place } => {
                let words = selection[1..=place as usize].iter().filter(|&&kind| kind == 0).count() as u32;
                Listing::Refused { number: 9, place: place - words }
            }
            other => other,
        }
    });
    list.listing("listing: the rest of the buffer cleared", |section, families, selection, work, buffer| {
        let answer = engine::listing(section, families, selection, work, buffer);
        if let Listing::Listed { matches, strings, .. } = answer {
            buffer[(2 + matches + 2 * strings) as usize..].fill(0);
        }
        answer
    });
    list.listing("listing: one number more written", |section, families, selection, work, buffer| {
        let answer = engine::listing(section, families, selection, work, buffer);
        if let Listing::Listed { matches, strings, .. } = answer {
            if let Some(number) = buffer.get_mut((2 + matches + 2 * strings) as usize) {
                *number = 0;
            }
        }
        answer
    });
    list.listing("listing: the buffer cleared before a 9", |section, families, selection, work, buffer| {
        let answer = engine::listing(section, families, selection, work, buffer);
        if let Listing::Refused { number: 9, .. } = answer {
            buffer[0] = 0;
        }
        answer
    });
    list.listing("listing: yes if the list isn't empty", |section, families, selection, work, buffer| {
        match engine::listing(section, families, selection, work, buffer) {
            Listing::Listed { matches, strings, .. } => Listing::Listed { matches, strings, yes: matches > 0 },
            other => other,
        }
    });
    list.listing(
        "listing: yes only with an include",
        |section, families, selection, work, buffer| match engine::listing(section, families, selection, work, buffer) {
            Listing::Listed { matches, strings, yes } => Listing::Listed { matches, strings, yes: yes && strings > 0 },
            other => other,
        },
    );
    list.snippet("snippet: one word too few", |section, from, to| engine::snippet(section, from, to.saturating_sub(1)));
    list.snippet("snippet: the section's units unchecked", |section, from, to| {
        let long = section.first().is_some_and(|&n| section.len() == 1 + 2 * n as usize && to <= n);
        if long && 1 <= from && from <= to {
            &section[from as usize..=to as usize]
        } else {
            &section[..0]
        }
    });
    list.snippet("snippet: a copy, not a part", |section, from, to| {
        // leaked, to live as long as the section
        Box::leak(engine::snippet(section, from, to).to_vec().into_boxed_slice())
    });
    list.snippet("snippet: from 0 on", |section, from, to| engine::snippet(section, from.max(1), to));
    list.snippet("snippet: cut at the end", |section, from, to| {
        engine::snippet(section, from, to.min(section.first().copied().unwrap_or(0)))
    });
}

// The checks

type Refuse = fn(&[u32], &[u32], &[u32], usize, Option<usize>) -> Option<(u32, usize)>;
type Repair = fn(&[u32]) -> Vec<u32>;

/// An engine that first refuses in its own way, or accepts a changed input.
struct Checks {
    refuse: Refuse,
    repair_section: Repair,
    repair_families: Repair,
    repair_selection: Repair,
    repair_work: fn(usize) -> usize,
}

impl Engine for Checks {
    fn listing(
        &self,
        section: &[u32],
        families: &[u32],
        selection: &[u32],
        work: &mut [u32],
        buffer: &mut [u32],
    ) -> Listing {
        if let Some((number, place)) = (self.refuse)(section, families, selection, work.len(), Some(buffer.len())) {
            return Listing::Refused { number, place: place as u32 };
        }
        let work = (self.repair_work)(work.len());
        let (section, selection) = ((self.repair_section)(section), (self.repair_selection)(selection));
        engine::listing(&section, &(self.repair_families)(families), &selection, work, buffer)
    }

    fn quick(&self, section: &[u32], families: &[u32], selection: &[u32], work: &mut [u32]) -> Quick {
        if let Some((number, place)) = (self.refuse)(section, families, selection, work.len(), None) {
            return Quick::Refused { number, place: place as u32 };
        }
        let work = (self.repair_work)(work.len());
        let (section, selection) = ((self.repair_section)(section), (self.repair_selection)(selection));
        engine::quick(&section, &(self.repair_families)(families), &selection, work)
    }

    fn snippet<'a>(&self, section: &'a [u32], from: u32, to: u32) -> &'a [u32] {
        engine::snippet(section, from, to)
    }
}

fn right_checks() -> Checks {
    Checks {
        refuse: |_, _, _, _, _| None,
        repair_section: <[u32]>::to_vec,
        repair_families: <[u32]>::to_vec,
        repair_selection: <[u32]>::to_vec,
        repair_work: |work| work,
    }
}

/// The right refusal of section and selection, if any.
fn refusal(section: &[u32], families: &[u32], selection: &[u32]) -> Option<(u32, usize)> {
    let refused = check(section, families, selection, WORK, None).err()?;
    Some((refused.number, refused.place as usize))
}

/// Do section and table pass the checks?
fn section_and_table(section: &[u32], families: &[u32]) -> bool {
    section::read(section).is_ok() && families::read(families).is_ok()
}

fn kinds_and_operands(selection: &[u32]) -> impl Iterator<Item = (usize, u32, u32)> + '_ {
    let m = selection[0] as usize;
    (1..=m).map(move |at| (at, selection[at], selection[at + m]))
}

fn mutants_of_checks(list: &mut Mutants) {
    list.repairing_section("checks: 1 + 2n wraps round", |section| {
        let mut repaired = section.to_vec();
        if let Some(n) = repaired.first_mut() {
            *n &= 0x7FFF_FFFF;
        }
        repaired
    });
    list.repairing_selection("checks: 1 + 2m wraps round", |selection| {
        let mut repaired = selection.to_vec();
        if let Some(m) = repaired.first_mut() {
            *m &= 0x7FFF_FFFF;
        }
        repaired
    });
    list.refusing("checks: n = 0 refused", |section, _, _, _, _| (section == [0]).then_some((1, 0)));
    list.refusing("checks: n = 4,096 refused", |section, _, _, _, _| {
        (section.first() == Some(&4_096)).then_some((1, 0))
    });
    list.repairing_section("checks: n = 4,097 accepted", |section| match section::read(section) {
        Err(Refusal { number: 1, .. }) if section.len() == 1 + 2 * 4_097 && section[0] == 4_097 => vec![0],
        _ => section.to_vec(),
    });
    list.refusing("checks: position 1 can be faulty", |section, _, _, _, _| {
        let n = *section.first()? as usize;
        let place = section::read(section).ok().and_then(|_| section.get(1 + n))?;
        ((place >> 16 == 0) != (place & 0xFFFF == 0)).then_some((2, 1))
    });
    list.refusing("checks: m = 64 refused", |section, families, selection, _, _| {
        (section_and_table(section, families) && selection.first() == Some(&64)).then_some((3, 0))
    });
    list.refusing("checks: 4 and 5 in one scan", |section, families, selection, _, _| {
        let (4 | 5, _) = refusal(section, families, selection)? else { return None };
        kinds_and_operands(selection).find_map(|(at, kind, operand)| match kind {
            18.. => Some((4, at)),
            _ => (!selection::operand_in_table(selection::Code { kind, operand })).then_some((5, at)),
        })
    });
    list.repairing_selection("checks: kinds by 8 bits", |selection| {
        let mut repaired = selection.to_vec();
        let m = selection.first().map_or(0, |&m| m as usize);
        if selection.len() == 1 + 2 * m {
            repaired[1..=m].iter_mut().for_each(|kind| *kind &= 0xFF);
        }
        repaired
    });
    list.repairing_selection("checks: an operand of a plain filter isn't looked at", |selection| {
        let mut repaired = selection.to_vec();
        let m = selection.first().map_or(0, |&m| m as usize);
        if selection.len() == 1 + 2 * m {
            for at in 1..=m {
                if (9..=15).contains(&selection[at]) {
                    repaired[at + m] = 0;
                }
            }
        }
        repaired
    });
    list.repairing_selection("checks: distance a > b accepted", |selection| {
        let mut repaired = selection.to_vec();
        let m = selection.first().map_or(0, |&m| m as usize);
        if selection.len() == 1 + 2 * m {
            for at in 1..=m {
                let (a, b) = (selection[at + m] >> 16, selection[at + m] & 0xFFFF);
                if selection[at] == 8 && a > b && a <= 4_095 {
                    repaired[at + m] = b << 16 | b;
                }
            }
        }
        repaired
    });
    list.repairing_selection("checks: distance b = 4,096 accepted", |selection| {
        let mut repaired = selection.to_vec();
        let m = selection.first().map_or(0, |&m| m as usize);
        if selection.len() == 1 + 2 * m {
            for at in 1..=m {
                if selection[at] == 8 && selection[at + m] & 0xFFFF == 4_096 && selection[at + m] >> 16 <= 4_095 {
                    repaired[at + m] -= 1;
                }
            }
        }
        repaired
    });
    list.refusing("checks: window 4,096 refused", |section, families, selection, _, _| {
        match refusal(section, families, selection) {
            Some((1..=4 | 13, _)) => None,
            _ => kinds_and_operands(selection)
                .find_map(|(at, kind, operand)| (kind == 7 && operand == 4_096).then_some((5, at))),
        }
    });
    list.refusing("checks: a seventh waiting list is the last", |section, families, selection, _, _| {
        if let Some((1..=5 | 13, _)) = refusal(section, families, selection) {
            return None;
        }
        let (mut waiting, mut found) = (0i32, None);
        for (at, kind, _) in kinds_and_operands(selection) {
            waiting += match kind {
                1 => 1,
                2 | 3 | 5 => -1,
                _ => 0,
            };
            if waiting == 8 && found.is_none() {
                found = Some((6, at));
            }
        }
        match refusal(section, families, selection) {
            Some((6, place)) if found.is_none_or(|(_, at)| at > place) => None,
            _ => found,
        }
    });
    list.refusing("checks: a wrong end is at m + 1", |section, families, selection, _, _| {
        match refusal(section, families, selection) {
            Some((6, place)) if place == selection[0] as usize && selection[place] <= 1 => Some((6, place + 1)),
            _ => None,
        }
    });
    list.refusing("checks: the last such kind 5", |section, families, selection, _, _| {
        match refusal(section, families, selection) {
            Some((7, _)) => {
                kinds_and_operands(selection).filter(|(_, kind, _)| *kind == 5).last().map(|(at, _, _)| (7, at))
            }
            _ => None,
        }
    });
    list.refusing("checks: the place of the not, not of the mild not", |section, families, selection, _, _| {
        match refusal(section, families, selection) {
            Some((7, _)) => {
                let not = |kind: u32| [4, 16].contains(&kind);
                kinds_and_operands(selection).find(|(_, kind, _)| not(*kind)).map(|(at, _, _)| (7, at))
            }
            _ => None,
        }
    });
    list.refusing("checks: any kind 4 before a kind 5", |section, families, selection, _, _| {
        if refusal(section, families, selection).is_some() {
            return None;
        }
        let not = kinds_and_operands(selection).find(|(_, kind, _)| *kind == 4)?.0;
        kinds_and_operands(selection).find(|(at, kind, _)| *kind == 5 && *at > not).map(|(at, _, _)| (7, at))
    });
    list.refusing("checks: 8 before 3", |section, families, _, work, buffer| {
        let short = work < WORK || buffer.is_some_and(|length| length < BUFFER);
        (section_and_table(section, families) && short).then_some((8, 0))
    });
    list.engine(
        "checks: working memory of 12,799 accepted",
        Checks { repair_work: |work| if work == WORK - 1 { WORK } else { work }, ..right_checks() },
    );
    list.refusing("checks: working memory of 12,800 refused", |section, families, selection, work, _| {
        (refusal(section, families, selection).is_none() && work == WORK).then_some((8, 0))
    });
    list.refusing("checks: a buffer of 1,282 refused", |section, families, selection, _, buffer| {
        (refusal(section, families, selection).is_none() && buffer == Some(BUFFER)).then_some((8, 0))
    });
    list.listing("checks: a buffer of 1,281 accepted", |section, families, selection, work, buffer| {
        if buffer.len() != BUFFER - 1 {
            return engine::listing(section, families, selection, work, buffer);
        }
        let mut longer = [&buffer[..], &[0]].concat();
        let answer = engine::listing(section, families, selection, work, &mut longer);
        buffer.copy_from_slice(&longer[..BUFFER - 1]);
        answer
    });
}

// Typed searches

/// Within how many typed cases each mistake must be found.
const MOST_TYPED: usize = 20_000;

#[test]
fn every_typed_mistake_is_found() {
    let mut late = vec![];
    println!("typed cases  mistake");
    for (name, mutant) in all_typed() {
        let found = typed_cases(1, MOST_TYPED).position(|case| compare_typed(&*mutant, &case).is_err());
        match found {
            Some(index) => println!("{:12} {name}", index + 1),
            None => {
                println!("       never {name}");
                late.push(name);
            }
        }
    }
    assert!(late.is_empty(), "not found: {late:?}");
}

/// A found text is made smaller, still shows the mistake, and isn't held against the right engine.
#[test]
fn found_texts_shrink() {
    let right = SecondEngine::new();
    // some of them are enough
    let some = if cfg!(debug_assertions) { 20 } else { 3 };
    for (name, mutant) in all_typed().into_iter().step_by(some) {
        let fails = |case: &TypedCase| compare_typed(&*mutant, case).is_err();
        let Some(case) = typed_cases(2, 2_000).find(|case| fails(case)) else { continue };
        let small = shrink_typed(&case, &fails);
        assert!(fails(&small), "{name}");
        compare_typed(&right, &small).unwrap();
        assert!(small.text.len() <= case.text.len());
        let wrong = compare_typed(&*mutant, &small).unwrap_err();
        let begins = &small.text[..small.text.len().min(100)];
        println!("{name}: {} bytes, then {}; {wrong}", case.text.len(), small.text.len());
        println!("    {}", begins.escape_ascii());
        assert!(typed_as_rust(&small, "found").contains("compare_typed(&engine(), &case).unwrap();"));
    }
}

/// What somebody sees whose reader has a mistake.
#[test]
fn a_typed_hunt_ends_with_a_test() {
    assert_eq!(hunt_typed(&SecondEngine::new(), 3, 300), Ok(()));
    let mut reader = Reader::paper();
    reader.moves.push(Move::new(State::Primary, Sign::Keyword("ftnot"), State::Primary, Act::Hold(Operator::Not)));
    let wrong = hunt_typed(&TypedCalls { reader, ..right_typed() }, 3, MOST_TYPED).unwrap_err();
    println!("{wrong}");
    assert!(wrong.starts_with("seed 3, typed case "));
    assert!(wrong.contains("text: b\"ftnot ftnot\".to_vec(),"));
    assert!(wrong.contains("section: vec![0],"));
}

type Codes = Result<Vec<Pair>, Refusal>;
type TypedListing = fn(Codes, &[u32], &[u32], usize, &mut [u32]) -> Listing;
type TypedQuick = fn(Codes, &[u32], &[u32], usize) -> Quick;

/// An engine whose typed calls are the right ones unless another is put in: how a text is read, and what each call does with
/// what was read.
struct TypedCalls {
    reader: Reader,
    codes: fn(&Reader, &[u8]) -> Codes,
    read: fn(Codes, &mut [u32]) -> Result<u32, Refusal>,
    listing: TypedListing,
    quick: TypedQuick,
}

impl Engine for TypedCalls {
    fn listing(
        &self,
        section: &[u32],
        families: &[u32],
        selection: &[u32],
        work: &mut [u32],
        buffer: &mut [u32],
    ) -> Listing {
        engine::listing(section, families, selection, work.len(), buffer)
    }

    fn quick(&self, section: &[u32], families: &[u32], selection: &[u32], work: &mut [u32]) -> Quick {
        engine::quick(section, families, selection, work.len())
    }

    fn snippet<'a>(&self, section: &'a [u32], from: u32, to: u32) -> &'a [u32] {
        engine::snippet(section, from, to)
    }

    fn read(&self, text: &[u8], selection: &mut [u32]) -> Result<u32, Refusal> {
        (self.read)((self.codes)(&self.reader, text), selection)
    }

    fn typed_listing(
        &self,
        section: &[u32],
        families: &[u32],
        text: &[u8],
        work: &mut [u32],
        buffer: &mut [u32],
    ) -> Listing {
        (self.listing)((self.codes)(&self.reader, text), section, families, work.len(), buffer)
    }

    fn typed_quick(&self, section: &[u32], families: &[u32], text: &[u8], work: &mut [u32]) -> Quick {
        (self.quick)((self.codes)(&self.reader, text), section, families, work.len())
    }
}

fn right_typed() -> TypedCalls {
    TypedCalls {
        reader: Reader::paper(),
        codes: |reader, text| reader.read(text),
        read: right_read,
        listing: right_typed_listing,
        quick: right_typed_quick,
    }
}

fn right_read(codes: Codes, selection: &mut [u32]) -> Result<u32, Refusal> {
    let codes = codes?;
    if codes.len() > 64 {
        return Err(Refusal::new(3, 0));
    }
    if selection.len() < 129 {
        return Err(Refusal::new(8, 0));
    }
    Ok(write(&codes, selection))
}

/// Writes as much of the codes as there is room for.
fn write(codes: &[Pair], selection: &mut [u32]) -> u32 {
    let numbers = typed::numbers(codes);
    selection.iter_mut().zip(&numbers).for_each(|(to, from)| *to = *from);
    numbers[0]
}

fn right_typed_listing(
    codes: Codes,
    section: &[u32],
    families: &[u32],
    work_len: usize,
    buffer: &mut [u32],
) -> Listing {
    match codes {
        Ok(codes) => engine::listing(section, families, &typed::numbers(&codes), work_len, buffer),
        Err(Refusal { number, place }) => Listing::Refused { number, place },
    }
}

fn right_typed_quick(codes: Codes, section: &[u32], families: &[u32], work_len: usize) -> Quick {
    match codes {
        Ok(codes) => engine::quick(section, families, &typed::numbers(&codes), work_len),
        Err(Refusal { number, place }) => Quick::Refused { number, place },
    }
}

impl Mutants {
    fn reader(&mut self, name: &'static str, change: impl Fn(&mut Reader)) {
        let mut reader = Reader::paper();
        change(&mut reader);
        self.engine(name, TypedCalls { reader, ..right_typed() });
    }

    fn codes(&mut self, name: &'static str, codes: fn(&Reader, &[u8]) -> Codes) {
        self.engine(name, TypedCalls { codes, ..right_typed() });
    }

    fn read(&mut self, name: &'static str, read: fn(Codes, &mut [u32]) -> Result<u32, Refusal>) {
        self.engine(name, TypedCalls { read, ..right_typed() });
    }

    fn typed_listing(&mut self, name: &'static str, listing: TypedListing) {
        self.engine(name, TypedCalls { listing, ..right_typed() });
    }

    fn typed_quick(&mut self, name: &'static str, quick: TypedQuick) {
        self.engine(name, TypedCalls { quick, ..right_typed() });
    }
}

fn all_typed() -> Vec<(&'static str, Box<dyn Engine>)> {
    let mut list = Mutants(vec![]);
    mutants_of_grammar(&mut list);
    mutants_of_typed_occurs(&mut list);
    mutants_of_tokens(&mut list);
    mutants_of_text_errors(&mut list);
    mutants_of_typed_calls(&mut list);
    wrong_families::mutants_of_typed_calls(&mut list);
    list.0
}

/// The reader with another operand for a filter or an occurs.
fn other_operand(reader: &mut Reader, typed: &str, operand: fn(&[u32]) -> u32) {
    for step in &mut reader.moves {
        match &mut step.act {
            Act::Filter(form) | Act::Occurs(form) if form.typed == typed => form.operand = operand,
            _ => {}
        }
    }
}

fn mutants_of_grammar(list: &mut Mutants) {
    list.reader("typed: right operands group first", |reader| reader.comes_first = |waiting, now| waiting > now);
    list.reader("typed: only not in groups right operands first", |reader| {
        reader.comes_first = |waiting, now| waiting > now || (waiting == now && now != Operator::MildNot)
    });
    list.reader("typed: ftor binds as much as ftand", |reader| {
        reader.comes_first = |waiting, now| waiting >= now || waiting == Operator::Or && now == Operator::And
    });
    list.reader("typed: not in binds as much as ftand", |reader| {
        reader.comes_first = |waiting, now| waiting >= now || waiting == Operator::And && now == Operator::MildNot
    });
    list.reader("typed: ftnot over not in", |reader| {
        reader.comes_first = |waiting, now| {
            let under = waiting == Operator::Not && now == Operator::MildNot;
            waiting >= now && !under
        }
    });
    list.reader("typed: a filter inside an ftand", |reader| {
        let and = Act::Join(Operator::And);
        reader.moves.push(Move::new(State::Filtered, Sign::Keyword("ftand"), State::Operand, and));
    });
    list.reader("typed: one filter at most", |reader| {
        reader.moves.retain(|step| step.from != State::Filtered || matches!(step.sign, Sign::Close | Sign::End))
    });
    list.reader("typed: no filter in parentheses", |reader| {
        reader.moves.retain(|step| step.from != State::Filtered || step.sign != Sign::Close)
    });
    list.reader("typed: ftnot twice", |reader| {
        let not = Act::Hold(Operator::Not);
        reader.moves.push(Move::new(State::Primary, Sign::Keyword("ftnot"), State::Primary, not));
    });
    list.reader("typed: ftnot only before a phrase", |reader| {
        reader.moves.retain(|step| step.from != State::Primary || step.sign != Sign::Open)
    });
    list.reader("typed: a ninth word is read", |reader| {
        reader.moves.push(Move::new(State::Phrase(8), Sign::Number, State::Phrase(9), Act::Word));
        reader.moves.push(Move::new(State::Phrase(9), Sign::Quote, State::Quoted, Act::Phrase));
    });
    list.reader("typed: seven words at most", |reader| reader.moves.retain(|step| step.to != State::Phrase(8)));
    list.reader("typed: an empty phrase", |reader| {
        reader.moves.push(Move::new(State::Phrase(0), Sign::Quote, State::Quoted, Act::Phrase));
    });
    list.reader("typed: at least to 4,096", |reader| {
        other_operand(reader, "distance at least N words", |n| n[0] * 65_536 + 4_096)
    });
    list.reader("typed: at most from 1", |reader| other_operand(reader, "distance at most N words", |n| 65_536 + n[0]));
    list.reader("typed: exactly from 0", |reader| other_operand(reader, "distance exactly N words", |n| n[0]));
    list.reader("typed: from and to exchanged", |reader| {
        other_operand(reader, "distance from N to N words", |n| n[1] * 65_536 + n[0])
    });
    list.reader("typed: from and to put in order", |reader| {
        other_operand(reader, "distance from N to N words", |n| n[0].min(n[1]) * 65_536 + n[0].max(n[1]))
    });
    list.reader("typed: the last word of a window may be missing", |reader| {
        let short = Act::Filter(Form { typed: "window N", kind: 7, operand: |n| n[0] });
        reader.moves.push(Move::new(State::Inside("window N"), Sign::End, State::Done, short));
    });
}

fn mutants_of_typed_occurs(list: &mut Mutants) {
    let occurs = |reader: &mut Reader, change: fn(&mut Move)| {
        reader.moves.iter_mut().filter(|step| matches!(step.act, Act::Occurs(_))).for_each(change)
    };
    list.reader("typed: no occurs", |reader| reader.moves.retain(|step| step.sign != Sign::Keyword("occurs")));
    list.reader("typed: occurs twice", |reader| occurs(reader, |step| step.to = State::Quoted));
    list.reader("typed: an occurs ends its selection", |reader| occurs(reader, |step| step.to = State::Filtered));
    list.reader("typed: occurs over all before it", |reader| {
        occurs(reader, |step| {
            if let Act::Occurs(form) = step.act {
                step.act = Act::Filter(form);
            }
        })
    });
    list.reader("typed: occurs behind a parenthesis", |reader| {
        let closing = reader.moves.iter_mut().filter(|step| step.sign == Sign::Close);
        closing.for_each(|step| step.to = State::Quoted)
    });
    list.reader("typed: occurs behind a filter", |reader| {
        let begins = Move::new(State::Filtered, Sign::Keyword("occurs"), State::Inside("occurs"), Act::Pass);
        reader.moves.push(begins);
    });
    list.reader("typed: no filter behind an occurs", |reader| {
        reader.moves.retain(|step| step.from != State::Behind || step.to != State::Filtered)
    });
    list.reader("typed: occurs at least to 4,095", |reader| {
        occurs(reader, |step| {
            if let Act::Occurs(Form { kind: 17, .. }) = step.act {
                let range = |n: &[u32]| n[0] * 65_536 + 4_095;
                step.act = Act::Occurs(Form { typed: "occurs at least N times", kind: 16, operand: range });
            }
        })
    });
    list.reader("typed: occurs at most is kind 17", |reader| {
        occurs(reader, |step| match &mut step.act {
            Act::Occurs(form) if form.typed == "occurs at most N times" => form.kind = 17,
            _ => {}
        })
    });
    list.reader("typed: occurs at most from 1", |reader| {
        other_operand(reader, "occurs at most N times", |n| 65_536 + n[0])
    });
    list.reader("typed: occurs exactly from 0", |reader| other_operand(reader, "occurs exactly N times", |n| n[0]));
    list.reader("typed: occurs from and to exchanged", |reader| {
        other_operand(reader, "occurs from N to N times", |n| n[1] * 65_536 + n[0])
    });
    list.reader("typed: occurs from and to put in order", |reader| {
        other_operand(reader, "occurs from N to N times", |n| n[0].min(n[1]) * 65_536 + n[0].max(n[1]))
    });
    list.reader("typed: times may be missing", |reader| {
        let short = Act::Filter(Form { typed: "occurs at least N", kind: 17, operand: |n| n[0] });
        reader.moves.push(Move::new(State::Inside("occurs at least N"), Sign::End, State::Done, short));
    });
    list.reader("typed: words for times", |reader| {
        let act = Act::Occurs(Form { typed: "occurs at least N words", kind: 17, operand: |n| n[0] });
        let words = Sign::Keyword("words");
        reader.moves.push(Move::new(State::Inside("occurs at least N"), words, State::Behind, act));
    });
    list.reader("typed: times for words", |reader| {
        let act = Act::Filter(Form { typed: "window N times", kind: 7, operand: |n| n[0] });
        let times = Sign::Keyword("times");
        reader.moves.push(Move::new(State::Inside("window N"), times, State::Filtered, act));
    });
    list.reader("typed: a number alone is exactly", |reader| {
        let (begun, counted) = (State::Inside("occurs"), State::Inside("occurs exactly N"));
        reader.moves.push(Move::new(begun, Sign::Number, counted, Act::Number));
    });
}

/// The right tokens of a text with some bytes changed to others first, each of them by one. The text is leaked, to live as
/// long as the tokens.
fn tokens_with(text: &[u8], change: fn(u8) -> u8) -> Vec<Token<'_>> {
    let changed: Vec<u8> = text.iter().map(|byte| change(*byte)).collect();
    typed::tokens(Box::leak(changed.into_boxed_slice()))
}

/// Neighbours that are to be one token become one. Only their first bytes and their sorts stay right, so this is for tokens
/// that are refused.
fn tokens_joined(text: &[u8], one: fn(&Token, &Token) -> bool) -> Vec<Token<'_>> {
    let mut list: Vec<Token> = vec![];
    for token in typed::tokens(text) {
        match list.last_mut() {
            Some(last) if one(last, &token) => {
                let end = token.place - 1 + token.bytes.len();
                last.bytes = &text[last.place - 1..end];
                last.sort = Sort::Other;
            }
            _ => list.push(token),
        }
    }
    list
}

fn mutants_of_tokens(list: &mut Mutants) {
    list.reader("typed: 2,048 bytes are too long", |reader| reader.most_bytes = 2_047);
    list.reader("typed: 2,049 bytes are read", |reader| reader.most_bytes = 2_049);
    list.reader("typed: word numbers to 4,096", |reader| reader.most_word = 4_096);
    list.reader("typed: word numbers to 4,294,967,294", |reader| reader.most_word = 4_294_967_294);
    list.reader("typed: other numbers to 4,095", |reader| reader.most_number = 4_095);
    list.reader("typed: other numbers to 4,097", |reader| reader.most_number = 4_097);
    list.reader("typed: other numbers to 65,535", |reader| reader.most_number = 65_535);
    list.reader("typed: leading zeros refused", |reader| {
        reader.value = |digits| if digits.len() > 1 && digits[0] == b'0' { u64::MAX } else { typed::value(digits) }
    });
    list.reader("typed: more than ten digits refused", |reader| {
        reader.value = |digits| if digits.len() > 10 { u64::MAX } else { typed::value(digits) }
    });
    list.reader("typed: numbers wrap round at 32 bits", |reader| {
        reader.value = |digits| {
            let step = |value: u32, digit: &u8| value.wrapping_mul(10).wrapping_add(u32::from(digit - b'0'));
            u64::from(digits.iter().fold(0, step))
        }
    });
    list.reader("typed: numbers wrap round at 64 bits", |reader| {
        reader.value = |digits| {
            let step = |value: u64, digit: &u8| value.wrapping_mul(10).wrapping_add(u64::from(digit - b'0'));
            digits.iter().fold(0, step)
        }
    });
    list.reader("typed: a tab is a blank", |reader| {
        reader.tokens = |text| tokens_with(text, |byte| if byte == b'\t' { b' ' } else { byte })
    });
    list.reader("typed: a newline is a blank", |reader| {
        reader.tokens = |text| tokens_with(text, |byte| if byte == b'\n' { b' ' } else { byte })
    });
    list.reader("typed: large letters are small ones", |reader| {
        reader.tokens = |text| tokens_with(text, |byte| byte.to_ascii_lowercase())
    });
    list.reader("typed: single quotes", |reader| {
        reader.tokens = |text| tokens_with(text, |byte| if byte == b'\'' { b'"' } else { byte })
    });
    list.reader("typed: bytes of 7 bits", |reader| reader.tokens = |text| tokens_with(text, |byte| byte & 0x7F));
    list.reader("typed: letters and digits may not touch", |reader| {
        reader.tokens = |text| {
            tokens_joined(text, |last, next| {
                let run = |token: &Token| matches!(token.sort, Sort::Letters | Sort::Digits);
                run(last) && run(next) && last.place + last.bytes.len() == next.place
            })
        }
    });
    list.reader("typed: blanks needed before a parenthesis", |reader| {
        reader.tokens = |text| {
            tokens_joined(text, |last, next| {
                last.sort == Sort::Letters && next.sort == Sort::Open && last.place + last.bytes.len() == next.place
            })
        }
    });
    list.reader("typed: a byte of zero ends the text", |reader| {
        reader.tokens = |text| {
            let end = text.iter().position(|byte| *byte == 0).unwrap_or(text.len());
            typed::tokens(&text[..end])
        }
    });
    list.reader("typed: keywords by their first four letters", |reader| {
        reader.tokens = |text| {
            let short = |token: &Token<'_>| token.sort == Sort::Letters && token.bytes.starts_with(b"orde");
            let mut list = typed::tokens(text);
            list.iter_mut().filter(|token| short(token)).for_each(|token| token.bytes = b"ordered");
            list
        }
    });
}

/// The token of a text whose first byte is at a place.
fn token_at(text: &[u8], place: u32) -> usize {
    let found = typed::tokens(text).iter().position(|token| token.place == place as usize);
    found.expect("an error is at a token")
}

/// Every number over its limit, wherever it stands: in quotes a word, else another.
fn too_large(text: &[u8]) -> Vec<usize> {
    let mut quotes = 0;
    let mut list = vec![];
    for token in typed::tokens(text) {
        quotes += usize::from(token.sort == Sort::Quote);
        let most = if quotes % 2 == 1 { typed::MOST_WORD } else { typed::MOST_NUMBER };
        if token.sort == Sort::Digits && typed::value(token.bytes) > most {
            list.push(token.place);
        }
    }
    list
}

fn depth(text: &[u8]) -> usize {
    let mut open: usize = 0;
    let mut most = 0;
    for byte in text {
        match byte {
            b'(' => open += 1,
            b')' => open = open.saturating_sub(1),
            _ => {}
        }
        most = most.max(open);
    }
    most
}

fn mutants_of_text_errors(list: &mut Mutants) {
    list.codes("typed: the error at the token before", |reader, text| {
        reader.read(text).map_err(|refusal| match refusal.place {
            0 => refusal,
            place => {
                let before = token_at(text, place).saturating_sub(1);
                Refusal::new(refusal.number, typed::tokens(text)[before].place)
            }
        })
    });
    list.codes("typed: places counted from 0", |reader, text| {
        reader.read(text).map_err(|refusal| Refusal { place: refusal.place.saturating_sub(1), ..refusal })
    });
    list.codes("typed: places count tokens", |reader, text| {
        reader.read(text).map_err(|refusal| match refusal.place {
            0 => refusal,
            place => Refusal::new(refusal.number, token_at(text, place) + 1),
        })
    });
    list.codes("typed: the end at length", |reader, text| {
        reader.read(text).map_err(|refusal| match refusal.place as usize == text.len() + 1 {
            true => Refusal::new(10, text.len()),
            false => refusal,
        })
    });
    list.codes("typed: trailing blanks not counted", |reader, text| {
        let used = text.len() - text.iter().rev().take_while(|byte| **byte == b' ').count();
        reader.read(text).map_err(|refusal| Refusal { place: refusal.place.min(used as u32 + 1), ..refusal })
    });
    list.codes("typed: leading blanks not counted", |reader, text| {
        let unused = text.iter().take_while(|byte| **byte == b' ').count() as u32;
        reader.read(text).map_err(|refusal| Refusal { place: refusal.place.saturating_sub(unused), ..refusal })
    });
    list.codes("typed: an error at its token's last byte", |reader, text| {
        reader.read(text).map_err(|refusal| match refusal.place {
            0 => refusal,
            place => {
                let length = typed::tokens(text)[token_at(text, place)].bytes.len() as u32;
                Refusal { place: place + length.saturating_sub(1), ..refusal }
            }
        })
    });
    list.codes("typed: 11 before 10", |reader, text| match (too_large(text).first(), reader.read(text)) {
        (Some(place), Err(Refusal { number: 10, .. })) => Err(Refusal::new(11, *place)),
        (_, read) => read,
    });
    list.codes("typed: 10 before 11", |reader, text| match reader.read(text) {
        Err(refusal) if refusal.number == 11 && refusal.place > 0 => {
            let mut text = text.to_vec();
            for place in too_large(&text) {
                text[place - 1..].iter_mut().take_while(|byte| byte.is_ascii_digit()).for_each(|digit| *digit = b'0');
            }
            Err(reader.read(&text).err().unwrap_or(refusal))
        }
        read => read,
    });
    list.codes("typed: a ninth word over the limit is 11", |reader, text| match reader.read(text) {
        Err(Refusal { number: 10, place }) if too_large(text).contains(&(place as usize)) => {
            let tokens = typed::tokens(text);
            let before = tokens.iter().take_while(|token| token.place < place as usize);
            let in_quotes = before.filter(|token| token.sort == Sort::Quote).count() % 2 == 1;
            Err(Refusal { number: if in_quotes { 11 } else { 10 }, place })
        }
        read => read,
    });
    list.codes("typed: too long a text is 10", |reader, text| {
        reader.read(text).map_err(|refusal| match refusal.place {
            0 => Refusal::new(10, 0),
            _ => refusal,
        })
    });
    list.codes("typed: too long a text at its end", |reader, text| {
        reader.read(text).map_err(|refusal| match refusal.place {
            0 => Refusal::new(11, text.len() + 1),
            _ => refusal,
        })
    });
    list.codes("typed: too long a text after its other errors", |reader, text| {
        let other = Reader { most_bytes: usize::MAX, ..reader.clone() }.read(text).err();
        other.map_or_else(|| reader.read(text), Err)
    });
    list.codes("typed: parentheses 255 deep at most", |reader, text| {
        if text.len() <= 2_048 && depth(text) > 255 {
            return Err(Refusal::new(10, 256));
        }
        reader.read(text)
    });
    list.codes("typed: the end closes a parenthesis", |reader, text| {
        reader.read(text).or_else(|refusal| match refusal.place as usize == text.len() + 1 {
            true => reader.read(&[text, b")"].concat()).map_err(|_| refusal),
            false => Err(refusal),
        })
    });
    list.codes("typed: parentheses at the end too many", |reader, text| {
        reader.read(text).or_else(|refusal| match text.strip_suffix(b")") {
            Some(rest) if refusal.place as usize == text.len() => reader.read(rest).map_err(|_| refusal),
            _ => Err(refusal),
        })
    });
}

fn mutants_of_typed_calls(list: &mut Mutants) {
    list.read("read: 8 before the text's error", |codes, selection| {
        if selection.len() < 129 {
            return Err(Refusal::new(8, 0));
        }
        right_read(codes, selection)
    });
    list.read("read: 8 before 3", |codes, selection| match codes {
        Ok(_) if selection.len() < 129 => Err(Refusal::new(8, 0)),
        codes => right_read(codes, selection),
    });
    list.read("read: 8 only where the codes have no room", |codes, selection| match codes {
        Ok(codes) if codes.len() <= 64 && selection.len() > 2 * codes.len() => Ok(write(&codes, selection)),
        codes => right_read(codes, selection),
    });
    list.read("read: 128 numbers are enough", |codes, selection| match codes {
        Ok(codes) if codes.len() < 64 && selection.len() == 128 => Ok(write(&codes, selection)),
        codes => right_read(codes, selection),
    });
    list.read("read: 65 codes", |codes, selection| match codes {
        Ok(codes) if codes.len() == 65 && selection.len() >= 129 => Ok(write(&codes, selection)),
        codes => right_read(codes, selection),
    });
    list.read("read: 63 codes at most", |codes, selection| match codes {
        Ok(codes) if codes.len() == 64 => Err(Refusal::new(3, 0)),
        codes => right_read(codes, selection),
    });
    list.read("read: 3 at the 65th code", |codes, selection| {
        right_read(codes, selection).map_err(|refusal| match refusal.number {
            3 => Refusal::new(3, 65),
            _ => refusal,
        })
    });
    list.read("read: written before a 3", |codes, selection| {
        if codes.as_ref().is_ok_and(|codes| codes.len() > 64) {
            write(codes.as_ref().unwrap(), selection);
        }
        right_read(codes, selection)
    });
    list.read("read: written before an 8", |codes, selection| {
        if codes.as_ref().is_ok_and(|codes| codes.len() <= 64) && selection.len() < 129 {
            write(codes.as_ref().unwrap(), selection);
        }
        right_read(codes, selection)
    });
    list.read("read: cleared by a text's error", |codes, selection| {
        if codes.is_err() {
            selection.iter_mut().take(1).for_each(|size| *size = 0);
        }
        right_read(codes, selection)
    });
    list.read("read: the rest cleared", |codes, selection| {
        let read = right_read(codes, selection);
        if let Ok(size) = read {
            selection[1 + 2 * size as usize..].fill(0);
        }
        read
    });
    list.read("read: operands where 64 kinds would end", |codes, selection| {
        let read = right_read(codes, selection);
        if let Ok(size) = read {
            let size = size as usize;
            selection.copy_within(1 + size..1 + 2 * size, 65);
        }
        read
    });
    list.read("read: the codes checked, too", |codes, selection| {
        if let Ok(codes) = &codes {
            if codes.len() <= 64 {
                selection::read(&typed::numbers(codes))?;
            }
        }
        right_read(codes, selection)
    });
    list.typed_listing(
        "typed listing: the section first",
        |codes, section, families, work, buffer| match section::read(section) {
            Err(Refusal { number, place }) => Listing::Refused { number, place },
            Ok(_) => right_typed_listing(codes, section, families, work, buffer),
        },
    );
    list.typed_quick("typed quick: the section first", |codes, section, families, work| match section::read(section) {
        Err(Refusal { number, place }) => Quick::Refused { number, place },
        Ok(_) => right_typed_quick(codes, section, families, work),
    });
    list.typed_quick("typed quick: 3 before 1", |codes, section, families, work| match codes {
        Ok(codes) if codes.len() > 64 => Quick::Refused { number: 3, place: 0 },
        codes => right_typed_quick(codes, section, families, work),
    });
    list.typed_listing("typed listing: 8 before the text's error", |codes, section, families, work, buffer| {
        if work < WORK || buffer.len() < BUFFER {
            return Listing::Refused { number: 8, place: 0 };
        }
        right_typed_listing(codes, section, families, work, buffer)
    });
    list.typed_listing("typed listing: only 64 codes taken", |codes, section, families, work, buffer| {
        let first = |mut codes: Vec<Pair>| {
            codes.truncate(64);
            codes
        };
        right_typed_listing(codes.map(first), section, families, work, buffer)
    });
    list.typed_listing(
        "typed listing: the buffer cleared by a text's error",
        |codes, section, families, work, buffer| {
            if codes.is_err() {
                buffer.fill(0);
            }
            right_typed_listing(codes, section, families, work, buffer)
        },
    );
    list.typed_quick(
        "typed quick: answers by the listing",
        |codes, section, families, work| match right_typed_listing(
            codes.clone(),
            section,
            families,
            work,
            &mut [0; BUFFER],
        ) {
            Listing::Refused { number: 9, place } => Quick::Refused { number: 9, place },
            _ => right_typed_quick(codes, section, families, work),
        },
    );
}
