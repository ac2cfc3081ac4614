//! Random cases: what they hold, and that the second engine agrees with itself and with the unlimited lists on them.

use second_engine::engine::RuleBook;
use second_engine::families::{self, Families};
use second_engine::gen::{self, Case};
use second_engine::section::Section;
use second_engine::selection::{self, Filter, Occurs, Rule, Tree, Unit};
use second_engine::sizes::{self, Size};
use second_engine::{
    cases, engine, family_cases, filter_cases, heading_cases, hunt, hunt_families, hunt_filters, hunt_headings,
    hunt_occurs, occurs_cases, rules, section, text, Hunt, Listing, Match, Quick, Refusal, Searched, SecondEngine, Str,
    BUFFER, EMPTY, WORK,
};
use std::collections::{BTreeMap, BTreeSet};
use std::slice::from_ref;
use std::time::Instant;

/// 100,000 in release, fewer without optimisation; or as the environment says: `CASES=1000000 SEED=7 cargo test ...`.
fn how_many() -> usize {
    number("CASES").unwrap_or(if cfg!(debug_assertions) { 5_000 } else { 100_000 }) as usize
}

fn number(variable: &str) -> Option<u64> {
    std::env::var(variable).ok()?.parse().ok()
}

#[test]
fn the_second_engine_agrees_with_itself() {
    agrees_with_itself(hunt, "cases", how_many() / 5);
}

fn agrees_with_itself(hunt: Hunt, name: &str, count: usize) {
    let begun = Instant::now();
    if let Err(wrong) = hunt(&SecondEngine::new(), number("SEED").unwrap_or(1), count) {
        panic!("{wrong}");
    }
    println!("{count} {name} in {:?}", begun.elapsed());
}

/// The same on cases that have an occurs.
#[test]
fn the_second_engine_agrees_with_itself_on_occurs() {
    agrees_with_itself(hunt_occurs, "cases with an occurs", how_many() / 5);
}

/// And on cases made for the early way out of a filter.
#[test]
fn the_second_engine_agrees_with_itself_on_filters() {
    agrees_with_itself(hunt_filters, "cases with a filter", how_many() / 100);
}

/// And on sections with headings.
#[test]
fn the_second_engine_agrees_with_itself_on_headings() {
    agrees_with_itself(hunt_headings, "cases with headings", how_many() / 20);
}

/// And on family tables.
#[test]
fn the_second_engine_agrees_with_itself_on_families() {
    agrees_with_itself(hunt_families, "cases with families", how_many() / 10);
}

/// The walk as it was before request F-4: filters built whole, and measured.
fn walk_before(section: &Searched, tree: &Tree) -> Result<(bool, usize), Refusal> {
    let decisive = tree.rule == Rule::Or;
    match (&tree.rule, &tree.below[..]) {
        (Rule::Filter(_), _) => Ok((rules::is_yes(&RuleBook::paper().build(section, tree)?), tree.count())),
        (Rule::Not, [side]) => walk_before(section, side).map(|(yes, codes)| (!yes, 1 + codes)),
        (Rule::Or | Rule::And, [left, right]) => match walk_before(section, left)? {
            (yes, codes) if yes == decisive => Ok((yes, 1 + codes)),
            (_, codes) => walk_before(section, right).map(|(yes, more)| (yes, 1 + codes + more)),
        },
        _ => RuleBook::paper().walk(section, tree),
    }
}

/// What was answered then is answered so now, with the same count; and only a refusal at a filter that the walk reaches is gone.
#[test]
fn only_refusals_at_a_filter_are_gone() {
    let count = how_many() / 100;
    let mut gone = 0;
    for case in cases(4, 10 * count).chain(occurs_cases(4, 5 * count)).chain(filter_cases(4, count)) {
        let Ok((section, tree)) = engine::check(&case.section, &case.families, &case.selection, WORK, None) else {
            continue;
        };
        let now = RuleBook::paper().walk(&section, &tree);
        match walk_before(&section, &tree) {
            Err(Refusal { number: 9, place }) if now != Err(Refusal { number: 9, place }) => {
                let reached = reached(&section, &tree, "");
                assert!(reached.iter().any(|(filter, _)| filter.place == place as usize), "{tree}: {now:?}");
                gone += 1;
            }
            before => assert_eq!(before, now, "{tree}"),
        }
    }
    println!("{gone} refusals of {} cases are gone", 16 * count);
    assert!(gone * 50 > count, "only {gone} refusals are gone");
}

/// A case depends on its seed and its index alone.
#[test]
fn cases_can_be_made_again() {
    let first: Vec<Case> = cases(7, 300).collect();
    let again: Vec<Case> = cases(7, 300).collect();
    assert!(first == again);
    assert!(first[299] == gen::case(7, 299));
    let other: Vec<Case> = cases(8, 300).collect();
    assert!(first != other);
    let occurs: Vec<Case> = occurs_cases(7, 300).collect();
    assert!(occurs == occurs_cases(7, 300).collect::<Vec<_>>());
    assert!(occurs[299] == gen::occurs_case(7, 299));
    assert!(occurs != occurs_cases(8, 300).collect::<Vec<_>>());
    let filters: Vec<Case> = filter_cases(7, 300).collect();
    assert!(filters == filter_cases(7, 300).collect::<Vec<_>>());
    assert!(filters[299] == gen::filter_case(7, 299));
    assert!(filters != filter_cases(8, 300).collect::<Vec<_>>());
    let headings: Vec<Case> = heading_cases(7, 300).collect();
    assert!(headings == heading_cases(7, 300).collect::<Vec<_>>());
    assert!(headings[299] == gen::heading_case(7, 299));
    assert!(headings != heading_cases(8, 300).collect::<Vec<_>>());
    let families: Vec<Case> = family_cases(7, 300).collect();
    assert!(families == family_cases(7, 300).collect::<Vec<_>>());
    assert!(families[299] == gen::family_case(7, 299));
    assert!(families != family_cases(8, 300).collect::<Vec<_>>());
}

/// How often what was met.
type Met = BTreeMap<String, usize>;

/// All that is needed was met once in 10,000 cases at least.
fn often_enough(met: &Met, needed: Vec<String>, count: usize) {
    assert!(count >= 20_000, "{count} cases are too few to judge by");
    met_once_in(10_000, met, needed, count);
}

fn met_once_in(out_of: usize, met: &Met, needed: Vec<String>, count: usize) {
    for (what, times) in met {
        println!("{times:7}  {what}");
    }
    for what in needed {
        let times = met.get(&what).copied().unwrap_or(0);
        assert!(times * out_of >= count.max(out_of), "met only {times} times in {count}: {what}");
    }
}

/// Does the selection have this kind anywhere, accepted or not?
fn has_kind(selection: &[u32], wanted: impl Fn(&u32) -> bool) -> bool {
    let m = selection.first().map_or(0, |&m| m as usize);
    selection.get(1..=m).is_some_and(|kinds| kinds.iter().any(wanted))
}

/// Counts what the cases are about: every answer, refusal, kind and limit must be met, and often enough.
#[test]
#[cfg_attr(debug_assertions, ignore = "needs 100,000 cases")]
fn cases_meet_everything() {
    let mut met = Met::new();
    let mut meet = |what: String| *met.entry(what).or_insert(0) += 1;
    let count = how_many() / 5;
    for case in cases(2, count) {
        if has_kind(&case.selection, |kind| [16, 17].contains(kind)) {
            meet("an occurs".into());
        }
        if families::read(&case.families).is_ok_and(|families| !families.0.is_empty()) {
            meet("a family table".into());
        }
        if let Some(yes) = turned_by_families(&case) {
            meet(format!("{yes} by families"));
        }
        let mut buffer = case.buffer.clone();
        match second_engine::listing(&case.section, &case.families, &case.selection, case.work_len, &mut buffer) {
            Listing::Refused { number, .. } => meet(format!("listing refused {number}")),
            Listing::Listed { matches, strings, yes } => {
                meet(format!("listed {}", if yes { "yes" } else { "no" }));
                meet(format!("matches {}", bucket(matches, 256)));
                meet(format!("strings {}", bucket(strings, 512)));
                if buffer[2..2 + matches as usize].contains(&0) {
                    meet("a match without strings".into());
                }
                let tags = &buffer[(2 + matches + strings) as usize..(2 + matches + 2 * strings) as usize];
                if tags.iter().any(|tag| tag & 3 == 3) && tags.iter().any(|tag| tag & 3 == 2) {
                    meet("includes and excludes".into());
                }
                if tags.iter().any(|tag| tag & 3 == 1) {
                    meet("an exclude that isn't contiguous".into());
                }
            }
        }
        match second_engine::quick(&case.section, &case.families, &case.selection, case.work_len) {
            Quick::Refused { number, .. } => meet(format!("quick refused {number}")),
            Quick::Answered { yes, codes } => {
                let tree = selection::read(&case.selection).unwrap();
                meet(format!(
                    "quick {yes}, {}",
                    if codes as usize == tree.count() { "all codes" } else { "some codes" }
                ));
            }
        }
        match (section::read_sized(&case.section), section::read(&case.section)) {
            (_, Ok(section)) => {
                meet(format!("n {}", bucket(section.n(), 4_096)));
                about_headings(&section, &mut meet);
            }
            (Ok(sized), Err(refusal)) => about_fault(&sized, refusal.place as usize, &mut meet),
            _ => {}
        }
        if let Ok(tree) = selection::read(&case.selection) {
            meet(format!("waiting {}", waiting(&tree)));
            let m = case.selection[0];
            meet(format!("m {}", if m == 64 { "64".into() } else { format!("{}0s", m / 10) }));
            if let Some(lists) = engine::unlimited_lists(&case.section, &case.families, &case.selection) {
                let kinds: Vec<(usize, u32)> = (1..=m as usize).map(|at| (at, case.selection[at])).collect();
                for code in &lists {
                    let kind = kinds.iter().find(|(at, _)| *at == code.place).unwrap().1;
                    match &code.list {
                        Some(list) if list.is_empty() => meet(format!("kind {kind:2} empty")),
                        Some(list) if list.iter().any(|m| !m.excludes.is_empty()) => {
                            meet(format!("kind {kind:2} with excludes"))
                        }
                        Some(_) => meet(format!("kind {kind:2} without excludes")),
                        None => meet(format!("kind {kind:2} too large or unknown")),
                    }
                }
            }
        }
        meet(format!("work {}", length(case.work_len, WORK)));
        meet(format!("buffer {}", length(case.buffer.len(), BUFFER)));
    }

    let mut needed: Vec<String> = REFUSALS.iter().map(|number| format!("listing refused {number}")).collect();
    needed.extend(REFUSALS.iter().map(|number| format!("quick refused {number}")));
    needed.extend((1..=17).map(|kind| format!("kind {kind:2} without excludes")).filter(|what| !what.contains(" 4 ")));
    needed.extend((2..=16).filter(|kind| *kind != 5).map(|kind| format!("kind {kind:2} with excludes")));
    needed.extend([16, 17].map(|kind| format!("kind {kind} empty")));
    needed.extend([16, 17].map(|kind| format!("kind {kind} too large or unknown")));
    needed.extend((1..=8).map(|lists| format!("waiting {lists}")));
    let others = [
        "listed yes",
        "listed no",
        "matches 256",
        "matches 255",
        "strings 512",
        "strings 511",
        "n 0",
        "n 4096",
        "m 64",
        "a match without strings",
        "an exclude that isn't contiguous",
        "includes and excludes",
        "quick true, some codes",
        "quick false, some codes",
        "quick true, all codes",
        "quick false, all codes",
        "work one too short",
        "work one more",
        "buffer one too short",
        "buffer one more",
        "a heading at the start",
        "a heading in the middle",
        "a heading at the end",
        "headings, n over 1,000",
        "refused 2: a sentence falls right after another",
        "refused 2: a sentence falls after 1 zero",
        "refused 2: a sentence falls after 2 to 15 zeros",
        "refused 2: a fault beyond 1,000",
        "true by families",
        "false by families",
    ];
    needed.extend(others.map(String::from));
    often_enough(&met, needed, count);
    // "each choice joined as and would": a phrase's matches have no excludes
    assert!(!met.contains_key("kind 17 with excludes"));
    let share = met["an occurs"] as f64 / count as f64;
    assert!((0.2..0.3).contains(&share), "an occurs in {share} of all cases");
    let share = met["a family table"] as f64 / count as f64;
    assert!((0.3..0.4).contains(&share), "a family table in {share} of all cases");
}

/// All refusals of the two calls.
const REFUSALS: [u32; 11] = [1, 2, 3, 4, 5, 6, 7, 8, 9, 12, 13];

/// Counts where the occurs of those cases stand that are made with one, over how many finds, and with which numbers.
#[test]
#[cfg_attr(debug_assertions, ignore = "needs 100,000 cases")]
fn occurs_cases_meet_everything() {
    let mut met = Met::new();
    let mut meet = |what: String| *met.entry(what).or_insert(0) += 1;
    let count = how_many() / 5;
    for case in occurs_cases(2, count) {
        // damage may have changed the kind or the size
        if has_kind(&case.selection, |kind| [16, 17].contains(kind)) {
            meet("an occurs".into());
        }
        let mut buffer = case.buffer.clone();
        match second_engine::listing(&case.section, &case.families, &case.selection, case.work_len, &mut buffer) {
            Listing::Refused { number, .. } => meet(format!("listing refused {number}")),
            Listing::Listed { yes, .. } => meet(format!("listed {yes}")),
        }
        match second_engine::quick(&case.section, &case.families, &case.selection, case.work_len) {
            Quick::Refused { number, .. } => meet(format!("quick refused {number}")),
            Quick::Answered { yes, .. } => meet(format!("quick {yes}")),
        }
        if let Ok((section, tree)) = engine::check(&case.section, &case.families, &case.selection, WORK, None) {
            about_occurs(&section, &tree, "alone", &mut meet);
        }
    }

    let mut needed: Vec<String> = REFUSALS.iter().map(|number| format!("listing refused {number}")).collect();
    needed.extend(REFUSALS.iter().map(|number| format!("quick refused {number}")));
    for call in ["listed", "quick"] {
        needed.extend([true, false].map(|yes| format!("{call} {yes}")));
    }
    for kind in [16, 17] {
        let sides = if kind == 16 { vec![2, 3] } else { vec![2, 3, 5] };
        needed.extend(sides.iter().map(|above| format!("kind {kind} on the left of kind {above}")));
        needed.extend(sides.iter().map(|above| format!("kind {kind} on the right of kind {above}")));
        needed.extend([4].into_iter().chain(6..=15).map(|above| format!("kind {kind} under kind {above}")));
        needed.push(format!("kind {kind} alone"));
        let finds = [0, 1, 2, 3, 7, 8, 22, 23, 255, 256, 257];
        needed.extend(finds.map(|finds| format!("kind {kind} over {finds} finds")));
        needed
            .extend(["0", "below the finds", "the finds", "over the finds"].map(|a| format!("kind {kind}: a is {a}")));
    }
    needed.extend(["below the finds", "the finds", "over the finds"].map(|b| format!("kind 16: b is {b}")));
    often_enough(&met, needed, count);
    assert!(met["an occurs"] * 100 >= count * 95, "an occurs in {} of {count} cases", met["an occurs"]);
}

/// Every occurs of a tree: where it stands, and its numbers beside the finds of its phrase.
fn about_occurs(section: &Searched, tree: &Tree, place: &str, meet: &mut impl FnMut(String)) {
    let kind = tree.rule.codes().last().expect("a rule has a code").kind;
    for (index, side) in tree.below.iter().enumerate() {
        let place = match (tree.below.len(), index) {
            (2, 0) => format!("on the left of kind {kind}"),
            (2, _) => format!("on the right of kind {kind}"),
            _ => format!("under kind {kind}"),
        };
        about_occurs(section, side, &place, meet);
    }
    let Rule::Occurs(occurs) = tree.rule else { return };
    let Rule::Phrase { words, query } = &tree.below[0].rule else { panic!("an occurs is over a phrase") };
    let finds = rules::phrase(section, words, *query).len() as u32;
    let beside = |number: u32| match number.cmp(&finds) {
        _ if number == 0 => "0",
        std::cmp::Ordering::Less => "below the finds",
        std::cmp::Ordering::Equal => "the finds",
        std::cmp::Ordering::Greater => "over the finds",
    };
    meet(format!("kind {kind} {place}"));
    meet(format!("kind {kind} over {finds} finds"));
    match occurs {
        Occurs::AtLeast(a) => meet(format!("kind 17: a is {}", beside(a))),
        Occurs::FromTo(a, b) => {
            meet(format!("kind 16: a is {}", beside(a)));
            meet(format!("kind 16: b is {}", beside(b)));
        }
    }
}

/// Counts what the cases are about that are made for the early way out of a filter: over which operands the walk reaches it
/// and where, which of their matches give a yes, and what the excludes leave of a window's list.
#[test]
#[cfg_attr(debug_assertions, ignore = "needs optimisation")]
fn filter_cases_meet_everything() {
    let mut met = Met::new();
    let mut meet = |what: String| *met.entry(what).or_insert(0) += 1;
    let count = how_many() / 25;
    for case in filter_cases(2, count) {
        let listing = second_engine::listing(
            &case.section,
            &case.families,
            &case.selection,
            case.work_len,
            &mut case.buffer.clone(),
        );
        match listing {
            Listing::Refused { number, .. } => meet(format!("listing refused {number}")),
            Listing::Listed { yes, .. } => meet(format!("listed {yes}")),
        }
        let quick = second_engine::quick(&case.section, &case.families, &case.selection, case.work_len);
        match quick {
            Quick::Refused { number, .. } => meet(format!("quick refused {number}")),
            Quick::Answered { yes, .. } => meet(format!("quick {yes}")),
        }
        if let Ok((section, tree)) = engine::check(&case.section, &case.families, &case.selection, case.work_len, None)
        {
            for (filter, place) in reached(&section, &tree, "at the top") {
                about_filter(&section, filter, &mut meet);
                let Quick::Answered { yes, .. } = quick else { continue };
                if listing == (Listing::Refused { number: 9, place: filter.place as u32 }) {
                    meet(format!("only the listing refuses, 9 at a filter {place}: {yes}"));
                }
            }
        }
    }

    let mut needed: Vec<String> = REFUSALS.iter().map(|number| format!("listing refused {number}")).collect();
    needed.extend(REFUSALS.iter().map(|number| format!("quick refused {number}")));
    for yes in [true, false] {
        needed.extend(["listed", "quick"].map(|call| format!("{call} {yes}")));
        let places =
            ["on the left of an or", "on the right of an or", "on the left of an and", "on the right of an and"];
        for place in places.into_iter().chain(["at the top", "under a not"]) {
            needed.push(format!("only the listing refuses, 9 at a filter {place}: {yes}"));
        }
        needed.push(format!("window 4096, over 100 excludes: {yes}"));
        needed.push(format!("a window over 500 excludes: {yes}"));
        needed.extend(["falling", "rising", "mixed"].map(|order| format!("excludes {order}: {yes}")));
        needed.extend(["of one word", "wide", "of both sorts"].map(|sort| format!("excludes {sort}: {yes}")));
        needed
            .extend(["matches", "strings"].map(|what| format!("as many {what} below a filter as there may be: {yes}")));
    }
    needed.push("quick refused 9 below a filter".into());
    needed.push("quick refused 9 at a filter below a filter".into());
    needed.extend(
        ["none", "the first alone", "the last alone", "one alone", "several"].map(|w| format!("free windows: {w}")),
    );
    for kind in 6..=15 {
        needed.extend(
            ["none", "the first alone", "the last alone", "one alone"].map(|m| format!("kind {kind:2}: a yes by {m}")),
        );
    }
    met_once_in(1_000, &met, needed, count);
}

/// The filters that the walk reaches, and where each stands.
fn reached<'a>(section: &Searched, tree: &'a Tree, place: &str) -> Vec<(&'a Tree, String)> {
    let goes_on =
        |left: &Tree, after: bool| matches!(RuleBook::paper().walk(section, left), Ok((yes, _)) if yes == after);
    match (&tree.rule, &tree.below[..]) {
        (Rule::Filter(_), _) => vec![(tree, place.to_string())],
        (Rule::Not, [side]) => reached(section, side, "under a not"),
        (Rule::Or | Rule::And, [left, right]) => {
            let (name, after) = if tree.rule == Rule::Or { ("or", false) } else { ("and", true) };
            let mut list = reached(section, left, &format!("on the left of an {name}"));
            if goes_on(left, after) {
                list.extend(reached(section, right, &format!("on the right of an {name}")));
            }
            list
        }
        _ => vec![],
    }
}

/// Which of a list's places are among some: none, the first alone, and so on.
fn which(places: &[usize], length: usize) -> &'static str {
    match places {
        [] => "none",
        [0] => "the first alone",
        [at] if at + 1 == length => "the last alone",
        [_] => "one alone",
        _ => "several",
    }
}

fn about_filter(section: &Searched, filter: &Tree, meet: &mut impl FnMut(String)) {
    let book = RuleBook::paper();
    let operand = match book.build(section, &filter.below[0]) {
        Ok(operand) => operand,
        Err(refusal) => {
            meet("quick refused 9 below a filter".into());
            if is_a_filter(&filter.below[0], refusal.place as usize) {
                meet("quick refused 9 at a filter below a filter".into());
            }
            return;
        }
    };
    let gives_a_yes = |m: &Match| match filter.rule {
        Rule::Filter(Filter::Window(size)) => !sizes::free_windows(m, size).is_empty(),
        _ => rules::is_yes(&book.list_within(sizes::GUARD, section, &filter.rule, &[from_ref(m)]).unwrap()),
    };
    let yeses: Vec<usize> = (0..operand.len()).filter(|&at| gives_a_yes(&operand[at])).collect();
    let yes = !yeses.is_empty();
    let Size { matches, strings } = Size::of(&operand);
    if matches + 1 >= 256 {
        meet(format!("as many matches below a filter as there may be: {yes}"));
    }
    if strings + 1 >= 512 {
        meet(format!("as many strings below a filter as there may be: {yes}"));
    }
    if operand.len() > 1 {
        let kind = filter.rule.codes()[0].kind;
        meet(format!("kind {kind:2}: a yes by {}", which(&yeses, operand.len())));
    }
    if let Rule::Filter(Filter::Window(size)) = filter.rule {
        operand.iter().for_each(|m| about_windows(m, size, meet));
    }
}

/// Is there a filter at this place?
fn is_a_filter(tree: &Tree, place: usize) -> bool {
    let here = tree.place == place && matches!(tree.rule, Rule::Filter(_));
    here || tree.below.iter().any(|side| is_a_filter(side, place))
}

/// The windows of one match that has includes and excludes.
fn about_windows(m: &Match, size: u32, meet: &mut impl FnMut(String)) {
    let Some(joined) = rules::join(&m.includes) else { return };
    let windows: Vec<i64> = rules::windows(&joined, size).map(|(first, _)| first).collect();
    if windows.len() < 2 || m.excludes.is_empty() {
        return;
    }
    let free: Vec<usize> = sizes::free_windows(m, size)
        .into_iter()
        .flat_map(|(first, last)| first - windows[0]..=last - windows[0])
        .map(|place| place as usize)
        .collect();
    let yes = !free.is_empty();
    meet(format!("free windows: {}", which(&free, windows.len())));
    if m.excludes.len() > 500 {
        meet(format!("a window over 500 excludes: {yes}"));
    }
    if size == 4_096 && m.excludes.len() > 100 {
        meet(format!("window 4096, over 100 excludes: {yes}"));
    }
    let order = match &m.excludes[..] {
        excludes if excludes.len() < 3 => "few",
        excludes if excludes.is_sorted_by_key(|e| e.start) => "rising",
        excludes if excludes.iter().rev().is_sorted_by_key(|e| e.start) => "falling",
        _ => "mixed",
    };
    meet(format!("excludes {order}: {yes}"));
    let wide = m.excludes.iter().filter(|e| e.end - e.start >= 9).count();
    let sort = match wide {
        0 => "of one word",
        _ if wide == m.excludes.len() => "wide",
        _ => "of both sorts",
    };
    meet(format!("excludes {sort}: {yes}"));
}

/// Counts what the cases with headings are about: where the headings stand, where and after how many zeros a sentence falls,
/// and which strings of a heading, or over one, the filters about sentences drop or keep.
#[test]
#[cfg_attr(debug_assertions, ignore = "needs optimisation")]
fn heading_cases_meet_everything() {
    let mut met = Met::new();
    let mut meet = |what: String| *met.entry(what).or_insert(0) += 1;
    let count = how_many() / 10;
    for case in heading_cases(2, count) {
        let Ok(sized) = section::read_sized(&case.section) else { continue };
        if !headings(&sized.sentences).is_empty() {
            meet("a heading".into());
        }
        let (searched, tree) = match engine::check(&case.section, &case.families, &case.selection, WORK, None) {
            Err(Refusal { number: 2, place }) => {
                about_fault(&sized, place as usize, &mut meet);
                continue;
            }
            Err(_) => continue,
            Ok(checked) => checked,
        };
        about_headings(&sized, &mut meet);
        if headings(&sized.sentences).is_empty() {
            continue;
        }
        let listing = second_engine::listing(
            &case.section,
            &case.families,
            &case.selection,
            case.work_len,
            &mut case.buffer.clone(),
        );
        if let Listing::Listed { yes, .. } = listing {
            meet(format!("listed {yes}"));
        }
        if let Quick::Answered { yes, .. } =
            second_engine::quick(&case.section, &case.families, &case.selection, case.work_len)
        {
            meet(format!("quick {yes}"));
            if sentence_filters_in_a_row(&tree) > 1 {
                meet(format!("two filters about sentences, a not between them: {yes}"));
            }
        }
        about_sentence_filters(&searched, &tree, &mut meet);
    }

    let mut needed = vec![];
    for yes in [true, false] {
        needed.extend(["listed", "quick"].map(|call| format!("{call} {yes}")));
        needed.push(format!("two filters about sentences, a not between them: {yes}"));
    }
    needed.extend(["at the start", "at the end", "in the middle"].map(|place| format!("a heading {place}")));
    needed.extend(
        ["1 token", "2 to 15 tokens", "16 to 64 tokens", "over 64 tokens"].map(|n| format!("a heading of {n}")),
    );
    needed.extend(["the same sentence", "the next", "a later one"].map(|next| format!("after a heading {next}")));
    needed.extend(["several headings", "every second token in a heading"].map(String::from));
    needed.extend(["n over 64", "n over 1,000"].map(|n| format!("headings, {n}")));
    needed.extend(
        ["right after another", "after 1 zero", "after 2 to 15 zeros", "after 16 to 64 zeros", "after over 64 zeros"]
            .map(|zeros| format!("refused 2: a sentence falls {zeros}")),
    );
    for place in ["in a heading", "in a sentence"] {
        needed.extend(
            ["falls", "is zero after others", "isn't zero after zeros"]
                .map(|fault| format!("refused 2: a paragraph {fault}, {place}")),
        );
    }
    needed.extend(
        ["in both countings", "at n", "beyond 64", "beyond 1,000", "before a paragraph's", "before a sentence's"]
            .map(|fault| format!("refused 2: a fault {fault}")),
    );
    for filter in ["same", "different"] {
        needed.extend(
            [
                "an include in a heading drops a match",
                "an include from or into a heading drops a match",
                "an include over a heading stays",
                "an exclude in a heading goes",
                "an exclude from or into a heading goes",
                "an exclude over a heading stays",
                "an exclude in a heading goes, and no becomes yes",
            ]
            .map(|what| format!("{filter}: {what}")),
        );
    }
    needed.extend(
        ["without includes, an exclude in a heading goes", "includes on both sides of a heading stay"]
            .map(|what| format!("same: {what}")),
    );
    met_once_in(1_000, &met, needed, count);
    assert!(met["a heading"] * 100 >= count * 95, "a heading in {} of {count} cases", met["a heading"]);
}

/// The rows of zeros among numbered sentences, by their first and last positions.
fn headings(sentences: &[u32]) -> Vec<(usize, usize)> {
    if sentences.iter().all(|sentence| *sentence == 0) {
        return vec![];
    }
    let mut list = vec![];
    let mut first = 1;
    for row in sentences.chunk_by(|one, other| (*one == 0) == (*other == 0)) {
        if row[0] == 0 {
            list.push((first, first + row.len() - 1));
        }
        first += row.len();
    }
    list
}

fn few_or_many(count: usize, what: &str) -> String {
    match count {
        1 => format!("1 {what}"),
        0..=15 => format!("2 to 15 {what}s"),
        16..=64 => format!("16 to 64 {what}s"),
        _ => format!("over 64 {what}s"),
    }
}

/// The headings of an accepted section.
fn about_headings(section: &Section, meet: &mut impl FnMut(String)) {
    let sentences = &section.sentences;
    let headings = headings(sentences);
    if headings.len() > 1 {
        meet("several headings".into());
    }
    if sentences.len() > 3 && sentences.windows(2).all(|pair| (pair[0] == 0) != (pair[1] == 0)) {
        meet("every second token in a heading".into());
    }
    for limit in [64, 1_000].into_iter().filter(|limit| !headings.is_empty() && sentences.len() > *limit) {
        meet(format!("headings, n over {}", if limit == 64 { "64" } else { "1,000" }));
    }
    for (first, last) in headings {
        meet(format!("a heading of {}", few_or_many(last - first + 1, "token")));
        match (first, last) {
            (1, _) => meet("a heading at the start".into()),
            _ if last == sentences.len() => meet("a heading at the end".into()),
            _ => {
                meet("a heading in the middle".into());
                let (before, after) = (sentences[first - 2], sentences[last]);
                let next = ["the same sentence", "the next"].get((after - before) as usize);
                meet(format!("after a heading {}", next.unwrap_or(&"a later one")));
            }
        }
    }
}

/// The first fault of a refused section.
fn about_fault(section: &Section, place: usize, meet: &mut impl FnMut(String)) {
    let accepts = |sentences: &[u32], paragraphs: &[u32]| {
        let (words, sentences, paragraphs) = (vec![0; sentences.len()], sentences.to_vec(), paragraphs.to_vec());
        section::read(&Section { words, sentences, paragraphs }.numbers()).is_ok()
    };
    let (sentences, paragraphs) = (&section.sentences, &section.paragraphs);
    let sentence = !accepts(&sentences[..place], &vec![0; place]);
    let paragraph = !accepts(&vec![0; place], &paragraphs[..place]);
    if sentence && paragraph {
        meet("refused 2: a fault in both countings".into());
    }
    if sentence {
        let zeros = sentences[..place - 1].iter().rev().take_while(|sentence| **sentence == 0).count();
        let after =
            if zeros == 0 { "right after another".into() } else { format!("after {}", few_or_many(zeros, "zero")) };
        meet(format!("refused 2: a sentence falls {after}"));
        if !paragraph && !accepts(&vec![0; sentences.len()], paragraphs) {
            meet("refused 2: a fault before a paragraph's".into());
        }
    }
    if paragraph {
        let fault = match (paragraphs[place - 2], paragraphs[place - 1]) {
            (_, 0) => "is zero after others",
            (0, _) => "isn't zero after zeros",
            _ => "falls",
        };
        let of = if sentences[place - 1] == 0 { "in a heading" } else { "in a sentence" };
        meet(format!("refused 2: a paragraph {fault}, {of}"));
        if !sentence && !accepts(sentences, &vec![0; sentences.len()]) {
            meet("refused 2: a fault before a sentence's".into());
        }
    }
    if place == sentences.len() {
        meet("refused 2: a fault at n".into());
    }
    for limit in [64, 1_000].into_iter().filter(|limit| place > *limit) {
        meet(format!("refused 2: a fault beyond {}", if limit == 64 { "64" } else { "1,000" }));
    }
}

/// How many filters about sentences stand above each other at most, a not between each two of them.
fn sentence_filters_in_a_row(tree: &Tree) -> usize {
    fn in_a_row(tree: &Tree, after_not: bool) -> usize {
        let filter =
            matches!(tree.rule, Rule::Filter(Filter::Same(Unit::Sentence) | Filter::Different(Unit::Sentence)));
        let counts = filter && after_not;
        let after_not = if counts { false } else { after_not || tree.rule == Rule::Not };
        let below = tree.below.iter().map(|side| in_a_row(side, after_not)).max().unwrap_or(0);
        below + usize::from(counts)
    }
    in_a_row(tree, true)
}

/// What a filter about sentences does to the strings in headings.
fn about_sentence_filters(section: &Searched, tree: &Tree, meet: &mut impl FnMut(String)) {
    tree.below.iter().for_each(|side| about_sentence_filters(section, side, meet));
    let filter = match tree.rule {
        Rule::Filter(Filter::Same(Unit::Sentence)) => "same",
        Rule::Filter(Filter::Different(Unit::Sentence)) => "different",
        _ => return,
    };
    let book = RuleBook::paper();
    let Ok(operand) = book.build(section, &tree.below[0]) else { return };
    let given = |m: &Match| book.list_within(sizes::GUARD, section, &tree.rule, &[from_ref(m)]).unwrap().pop();
    let mut by_headings = false;
    for m in &operand {
        match given(m) {
            None => about_dropped(section, m, &format!("{filter}: an include"), meet),
            Some(kept) => {
                about_kept(section, &kept.includes, &format!("{filter}: an include"), meet);
                about_kept(section, &kept.excludes, &format!("{filter}: an exclude"), meet);
                by_headings |= about_excludes(section, m, &kept, filter, meet);
            }
        }
    }
    if by_headings && !rules::is_yes(&operand) {
        meet(format!("{filter}: an exclude in a heading goes, and no becomes yes"));
    }
}

/// The sentences of a string's start and end: both zero, one of them, or none.
fn zeros(section: &Section, s: &Str) -> usize {
    let (start, end) = rules::units(section, Unit::Sentence, s);
    usize::from(start == 0) + usize::from(end == 0)
}

fn about_dropped(section: &Section, m: &Match, an_include: &str, meet: &mut impl FnMut(String)) {
    // whatever else would drop it, the includes that are not in headings pass
    let rest: Vec<Str> = m.includes.iter().filter(|s| zeros(section, s) == 0).copied().collect();
    let rest = Match { includes: rest, excludes: vec![] };
    let passes = match an_include.starts_with("same") {
        true => !rules::same(section, Unit::Sentence, from_ref(&rest)).is_empty(),
        false => rest.includes.len() == 1 || !rules::different(section, Unit::Sentence, from_ref(&rest)).is_empty(),
    };
    let most = m.includes.iter().map(|s| zeros(section, s)).max().unwrap_or(0);
    match most {
        1 if passes => meet(format!("{an_include} from or into a heading drops a match")),
        2 if passes => meet(format!("{an_include} in a heading drops a match")),
        _ => {}
    }
}

fn about_kept(section: &Section, strings: &[Str], a_string: &str, meet: &mut impl FnMut(String)) {
    let in_heading = |position: u32| section.sentence(position) == 0;
    if strings.iter().any(|s| (s.start..=s.end).any(in_heading)) {
        meet(format!("{a_string} over a heading stays"));
    }
    let (first, last) = (strings.iter().map(|s| s.end).min(), strings.iter().map(|s| s.start).max());
    if let (Some(first), Some(last), "same: an include") = (first, last, a_string) {
        if (first..last).any(in_heading) {
            meet("same: includes on both sides of a heading stay".into());
        }
    }
}

/// The excludes of a match that is kept. Is it free of them only because some were in headings?
fn about_excludes(
    section: &Section,
    before: &Match,
    kept: &Match,
    filter: &str,
    meet: &mut impl FnMut(String),
) -> bool {
    let zeros: Vec<usize> = before.excludes.iter().map(|exclude| zeros(section, exclude)).collect();
    if zeros.contains(&1) {
        meet(format!("{filter}: an exclude from or into a heading goes"));
    }
    if !zeros.contains(&2) {
        return false;
    }
    meet(format!("{filter}: an exclude in a heading goes"));
    if before.includes.is_empty() {
        meet(format!("{filter}: without includes, an exclude in a heading goes"));
    }
    kept.excludes.is_empty()
}

/// The quick answer, where it would be the other one with the empty table.
fn turned_by_families(case: &Case) -> Option<bool> {
    let answer = |families: &[u32]| match second_engine::quick(&case.section, families, &case.selection, WORK) {
        Quick::Answered { yes, .. } => Some(yes),
        Quick::Refused { .. } => None,
    };
    let (with, without) = (answer(&case.families)?, answer(&EMPTY)?);
    (with != without).then_some(with)
}

/// Counts what the cases with a family table are about: its sizes, families and numbers; by which of its words which phrases are
/// found, where; and under which codes a family turns a yes into a no, or a no into a yes.
#[test]
#[cfg_attr(debug_assertions, ignore = "needs optimisation")]
fn family_cases_meet_everything() {
    let mut met = Met::new();
    let mut meet = |what: String| *met.entry(what).or_insert(0) += 1;
    let count = how_many() / 5;
    for case in family_cases(2, count) {
        if let Some(yes) = turned_by_families(&case) {
            meet(format!("quick {yes} by families"));
        }
        match engine::check(&case.section, &case.families, &case.selection, case.work_len, None) {
            Ok((searched, tree)) => {
                meet(format!("n {}", bucket(searched.n(), 4_096)));
                about_table(&searched.families, &mut meet);
                about_turns(&searched, &tree, &mut meet);
                about_phrases(&searched, &tree, &mut meet);
            }
            Err(Refusal { number, place }) => {
                meet(format!("refused {number}"));
                about_faulty_table(&case, number, place as usize, &mut meet);
            }
        }
    }
    met_once_in(4_000, &met, needed_of_families(), count);
    assert!(met["a table with entries"] * 100 >= count * 70, "{} tables in {count} cases", met["a table with entries"]);
}

/// Entries of a table, and members of a family, that a phrase is to be found by.
const ENTRIES: [usize; 7] = [1, 16, 17, 64, 65, 2_047, 2_048];
const MEMBERS: [usize; 7] = [1, 15, 16, 17, 31, 32, 33];

fn needed_of_families() -> Vec<String> {
    let mut needed: Vec<String> = [1, 2, 3, 4, 5, 6, 8, 13].map(|number| format!("refused {number}")).to_vec();
    needed.extend([true, false].map(|yes| format!("quick {yes} by families")));
    // a phrase alone, an occurs at least so many and a mild not's left side are only found more often
    needed.extend((1..=17).filter(|kind| *kind != 4).map(|kind| format!("kind {kind:2}: true by families")));
    needed.extend((2..=16).map(|kind| format!("kind {kind:2}: false by families")));
    needed.extend(["0", "1", "2 to 15", "16 to 64", "over 64", "2047", "2048"].map(|n| format!("entries {n}")));
    let sizes = ["1", "2 to 14", "15", "16", "17", "18 to 30", "31", "32", "33", "40", "over 40", "2048"];
    needed.extend(sizes.map(|size| format!("a family of {size}")));
    needed.extend(["0", "4294967295"].map(|number| format!("family {number}")));
    needed.extend(["0", "4294967295"].map(|number| format!("word {number} found by its family")));
    needed.extend(["n 4096", "a family numbered as a word", "families of one size"].map(String::from));
    needed.push("1 found, all of them in the table".into());
    for length in 2..=8 {
        needed.extend(
            ["all of them in the table", "some of them in the table"].map(|which| format!("{length} found, {which}")),
        );
    }
    needed.extend((1..=4).map(|length| format!("{length} found, none of them in the table")));
    needed.extend(
        ["as it is, out of the table", "as it is, in the table", "by its family"].map(|how| format!("a word {how}")),
    );
    needed.extend(
        ["one of each", "two words of one family", "beyond 1,000", "at the last token"]
            .map(|what| format!("a phrase found: {what}")),
    );
    needed.extend(MEMBERS.map(|at| format!("found by member {at} of a family")));
    needed.extend(ENTRIES.map(|at| format!("found by entry {at}")));
    needed.extend(
        ["at 0", "at entry 2", "at the last entry", "at a later entry", "beyond 64", "beyond 1,000", "before another"]
            .map(|place| format!("refused 13 {place}")),
    );
    needed.extend([1, 2].map(|number| format!("refused {number} before 13")));
    needed.extend([3, 4, 5, 6, 8].map(|number| format!("refused 13 before {number}")));
    needed
}

/// The sizes of an accepted table and of its families, and the numbers in it.
fn about_table(families: &Families, meet: &mut impl FnMut(String)) {
    let size = families.0.len();
    if size > 0 {
        meet("a table with entries".into());
    }
    meet(match size {
        0 | 1 | 2_047.. => format!("entries {size}"),
        2..=15 => "entries 2 to 15".into(),
        16..=64 => "entries 16 to 64".into(),
        _ => "entries over 64".into(),
    });
    let mut members: BTreeMap<u32, usize> = BTreeMap::new();
    families.0.values().for_each(|family| *members.entry(*family).or_insert(0) += 1);
    if members.len() > 1 && members.values().all(|size| Some(size) == members.values().next()) {
        meet("families of one size".into());
    }
    let sizes: BTreeSet<usize> = members.values().copied().collect();
    for size in sizes {
        meet(match size {
            2..=14 => "a family of 2 to 14".into(),
            18..=30 => "a family of 18 to 30".into(),
            41..=2_047 => "a family of over 40".into(),
            _ => format!("a family of {size}"),
        });
    }
    for family in [0, u32::MAX].into_iter().filter(|family| members.contains_key(family)) {
        meet(format!("family {family}"));
    }
    if families.0.iter().any(|(word, family)| word != family && families.of(*family).is_some_and(|of| of != *family)) {
        meet("a family numbered as a word".into());
    }
}

/// Codes whose list says yes with the table and no without it, or the other way round.
fn about_turns(searched: &Searched, tree: &Tree, meet: &mut impl FnMut(String)) {
    tree.below.iter().for_each(|side| about_turns(searched, side, meet));
    let yes = |searched: &Searched| RuleBook::paper().build(searched, tree).ok().map(|list| rules::is_yes(&list));
    let (with, without) = (yes(searched), yes(&Searched::alone(&searched.section)));
    if let (Some(yes), Some(_)) = (with.filter(|_| with != without), without) {
        let kind = tree.rule.codes().last().expect("a rule has a code").kind;
        meet(format!("kind {kind:2}: {yes} by families"));
    }
}

/// Every phrase that is found: by which words, and where.
fn about_phrases(searched: &Searched, tree: &Tree, meet: &mut impl FnMut(String)) {
    tree.below.iter().for_each(|side| about_phrases(searched, side, meet));
    let Rule::Phrase { words, query } = &tree.rule else { return };
    let families = &searched.families;
    let in_table = words.iter().filter(|word| families.of(**word).is_some()).count();
    let of_families: Vec<Option<u32>> = words.iter().map(|word| families.of(*word)).collect();
    let joined = (1..words.len()).any(|at| {
        of_families[at].is_some()
            && (0..at).any(|other| of_families[at] == of_families[other] && words[at] != words[other])
    });
    for m in rules::phrase(searched, words, *query).iter().take(20) {
        let start = m.includes[0].start as usize;
        let row = &searched.words[start - 1..start - 1 + words.len()];
        let which = match in_table {
            0 => "none",
            _ if in_table == words.len() => "all",
            _ => "some",
        };
        meet(format!("{} found, {which} of them in the table", words.len()));
        if joined {
            meet("a phrase found: two words of one family".into());
        }
        if start > 1_000 {
            meet("a phrase found: beyond 1,000".into());
        }
        if start - 1 + words.len() == searched.words.len() {
            meet("a phrase found: at the last token".into());
        }
        about_found_words(families, words, row, meet);
    }
}

/// By which words each of a phrase's words is found.
fn about_found_words(families: &Families, words: &[u32], row: &[u32], meet: &mut impl FnMut(String)) {
    let mut ways = BTreeSet::new();
    for (word, token) in words.iter().zip(row) {
        let way = match (word == token, families.of(*word)) {
            (true, None) => "as it is, out of the table",
            (true, Some(_)) => "as it is, in the table",
            (false, _) => "by its family",
        };
        ways.insert(way);
        meet(format!("a word {way}"));
        if word == token {
            continue;
        }
        let place = 1 + families.0.keys().position(|other| other == token).expect("found by its family");
        let family = families.of(*token);
        let members = families.0.iter().filter(|(_, of)| Some(**of) == family);
        let member = 1 + members.into_iter().position(|(other, _)| other == token).expect("of its family");
        if ENTRIES.contains(&place) {
            meet(format!("found by entry {place}"));
        }
        if MEMBERS.contains(&member) {
            meet(format!("found by member {member} of a family"));
        }
        if [0, u32::MAX].contains(word) {
            meet(format!("word {word} found by its family"));
        }
    }
    if ways.len() == 3 {
        meet("a phrase found: one of each".into());
    }
}

/// Where a table is refused, and what else is wrong.
fn about_faulty_table(case: &Case, number: u32, place: usize, meet: &mut impl FnMut(String)) {
    let Err(fault) = families::read(&case.families) else { return };
    let other = match number {
        13 => engine::check(&case.section, &EMPTY, &case.selection, case.work_len, None).err(),
        _ => Some(fault),
    };
    if let Some(other) = other {
        meet(format!("refused {number} before {}", other.number));
    }
    if number != 13 {
        return;
    }
    let Ok((words, _)) = families::read_sized(&case.families) else { return meet("refused 13 at 0".into()) };
    meet(match place {
        2 => "refused 13 at entry 2".into(),
        _ if place == words.len() => "refused 13 at the last entry".into(),
        _ => "refused 13 at a later entry".into(),
    });
    for limit in [64, 1_000].into_iter().filter(|limit| place > *limit) {
        meet(format!("refused 13 beyond {}", if limit == 64 { "64" } else { "1,000" }));
    }
    if words[place - 1..].windows(2).any(|pair| pair[0] >= pair[1]) {
        meet("refused 13 before another".into());
    }
}

fn bucket(number: u32, limit: u32) -> String {
    match number {
        0 | 1 => number.to_string(),
        2..=9 => "2 to 9".into(),
        _ if number + 2 >= limit => number.to_string(),
        _ => "10 and more".into(),
    }
}

fn length(length: usize, needed: usize) -> &'static str {
    match length {
        0 => "none",
        _ if length + 1 == needed => "one too short",
        _ if length < needed => "too short",
        _ if length == needed => "just enough",
        _ if length == needed + 1 => "one more",
        _ => "more",
    }
}

/// How many lists wait at most.
fn waiting(tree: &Tree) -> usize {
    match &tree.rule {
        Rule::Phrase { .. } => 1,
        _ => tree.below.iter().enumerate().map(|(already, side)| already + waiting(side)).max().unwrap(),
    }
}

/// The program's printing of random bytes has the form that the paper gives, and says what the listing says.
#[test]
fn random_bytes() {
    for bytes in gen::inputs(3, how_many() / 10) {
        let printed = text::ftlist(&bytes);
        assert!(printed.ends_with('\n'));
        let lines: Vec<&str> = printed.lines().collect();
        let head: Vec<&str> = lines[0].split(' ').collect();
        assert_eq!(head.len(), 3);
        match head[0] {
            "refused" => assert_eq!(lines.len(), 1),
            "yes" | "no" => {
                assert_eq!(lines.len(), 1 + head[1].parse::<usize>().unwrap());
                let strings: usize = lines[1..].iter().map(|line| line.matches('q').count()).sum();
                assert_eq!(strings, head[2].parse::<usize>().unwrap());
                let without_exclude = lines[1..].iter().any(|line| !line.contains('!'));
                assert_eq!(without_exclude, head[0] == "yes");
            }
            other => panic!("{other}"),
        }
    }
}
