//! A failing case made smaller, and printed as a test.

use crate::families::{self, Families, EMPTY};
use crate::gen::Case;
use crate::section::{self, Section};
use crate::selection::{self, Code, Filter, Occurs, Rule, Tree};
use crate::typed::{self, SELECTION};
use crate::typed_gen::TypedCase;
use crate::{BUFFER, WORK};

/// How many cases are tried at most.
const TRIES: usize = 6_000;

/// The smallest failing case that can be reached by small changes. Each change is kept only if the case still fails and is
/// simpler than before, so this ends. A section or a selection that passes the checks stays one that does.
pub fn shrink(case: &Case, fails: &dyn Fn(&Case) -> bool) -> Case {
    let mut best = case.clone();
    let mut tries = 0;
    loop {
        let measure = measure(&best);
        let still_fails = |changed: &Case| {
            tries += 1;
            tries <= TRIES && fails(changed)
        };
        let simpler = changes(&best).filter(|changed| self::measure(changed) < measure).find(still_fails);
        match simpler {
            Some(changed) => best = changed,
            None => return best,
        }
    }
}

/// What is to fall: the length of all, then how odd the lent memory is, then the tokens in headings, then the numbers
/// themselves.
fn measure(case: &Case) -> (usize, usize, usize, usize, u128) {
    let lent = [&case.section, &case.families, &case.selection];
    let numbers = lent.iter().flat_map(|list| list.iter()).map(|&number| u128::from(number)).sum();
    let length = lent.iter().map(|list| list.len()).sum();
    let odd_lengths = case.work_len.abs_diff(WORK) + case.buffer.len().abs_diff(BUFFER);
    let noise = case.buffer.iter().filter(|&&number| number != 0).count();
    (length, odd_lengths, noise, in_headings(&case.section), numbers)
}

/// How many tokens have no sentence where others have one.
fn in_headings(section: &[u32]) -> usize {
    let sentences = section::read_sized(section).map_or(vec![], |section| section.sentences);
    match sentences.iter().filter(|&&sentence| sentence == 0).count() {
        zeros if zeros < sentences.len() => zeros,
        _ => 0,
    }
}

/// All cases that one change leads to, the bold changes first.
fn changes(case: &Case) -> impl Iterator<Item = Case> + '_ {
    let lent = changed_memory(case).into_iter();
    let with_section = |section| Case { section, ..case.clone() };
    let with_families = |families| Case { families, ..case.clone() };
    let with_selection = |selection| Case { selection, ..case.clone() };
    let sections: Box<dyn Iterator<Item = Vec<u32>>> = match section::read(&case.section) {
        Ok(section) => Box::new(changed_sections(section)),
        Err(_) => Box::new(
            without_pairs(&case.section).chain(changed_units(&case.section)).chain(changed_numbers(&case.section)),
        ),
    };
    let selections: Box<dyn Iterator<Item = Vec<u32>>> = match selection::read_shape(&case.selection) {
        Ok(tree) => Box::new(changed_trees(&tree).into_iter().map(|tree| selection::numbers(&tree.codes()))),
        Err(_) => Box::new(without_pairs(&case.selection).chain(changed_numbers(&case.selection))),
    };
    let renamed = renamed_words(case).into_iter();
    let tables = changed_tables(&case.families).map(with_families);
    lent.chain(tables).chain(selections.map(with_selection)).chain(sections.map(with_section)).chain(renamed)
}

fn changed_memory(case: &Case) -> Vec<Case> {
    vec![
        Case { work_len: WORK, buffer: vec![0; BUFFER], ..case.clone() },
        Case { work_len: WORK, ..case.clone() },
        Case { buffer: vec![0; BUFFER], ..case.clone() },
        Case { buffer: vec![0; case.buffer.len()], ..case.clone() },
        Case { work_len: WORK - 1, ..case.clone() },
        Case { buffer: vec![0; BUFFER - 1], ..case.clone() },
    ]
}

/// All rows that can be cut from a list of this length: halves, quarters, and so on down to one entry.
fn cuts(length: usize) -> impl Iterator<Item = std::ops::Range<usize>> {
    let sizes = std::iter::successors(Some(length), |size| Some(size / 2)).take_while(|&size| size > 0);
    sizes.flat_map(move |size| (0..length).step_by(size).map(move |start| start..length.min(start + size)))
}

fn without<T: Clone>(list: &[T], cut: &std::ops::Range<usize>) -> Vec<T> {
    [&list[..cut.start], &list[cut.end..]].concat()
}

/// Fewer tokens; then simpler sentences and paragraphs.
fn changed_sections(section: Section) -> impl Iterator<Item = Vec<u32>> {
    let n = section.words.len();
    let plain = [Section { words: vec![0; n], ..section.clone() }].into_iter().chain(plainer_units(&section));
    let original = section.clone();
    let filled = cuts(n).filter_map(move |cut| {
        filled_headings(&original.sentences, cut).map(|sentences| Section { sentences, ..original.clone() })
    });
    // one unit fewer, from some position on
    let original = section.clone();
    let joined = (1..n).flat_map(move |at| {
        let sentences = one_fewer(&original.sentences, at).map(|sentences| Section { sentences, ..original.clone() });
        let paragraphs =
            one_fewer(&original.paragraphs, at).map(|paragraphs| Section { paragraphs, ..original.clone() });
        sentences.into_iter().chain(paragraphs)
    });
    let fewer = cuts(n).map(move |cut| Section {
        words: without(&section.words, &cut),
        sentences: without(&section.sentences, &cut),
        paragraphs: without(&section.paragraphs, &cut),
    });
    fewer.chain(plain).chain(filled).chain(joined).map(|section| section.numbers())
}

/// Sentences or paragraphs not reported, or numbered from 1 on.
fn plainer_units(section: &Section) -> Vec<Section> {
    let n = section.words.len();
    vec![
        Section { sentences: vec![0; n], ..section.clone() },
        Section { paragraphs: vec![0; n], ..section.clone() },
        Section { sentences: from_one(&section.sentences), ..section.clone() },
        Section { paragraphs: from_one(&section.paragraphs), ..section.clone() },
    ]
}

/// The plainer units of a section that is refused, where it has a size.
fn changed_units(section: &[u32]) -> impl Iterator<Item = Vec<u32>> {
    let sized = section::read_sized(section).ok();
    sized.into_iter().flat_map(|section| plainer_units(&section)).map(|section| section.numbers())
}

/// The same order and the same zeros, from 1 on and without leaps.
fn from_one(units: &[u32]) -> Vec<u32> {
    let mut numbers: Vec<u32> = units.iter().copied().filter(|unit| *unit != 0).collect();
    numbers.sort();
    numbers.dedup();
    let rank = |unit: &u32| numbers.binary_search(unit).map_or(0, |index| index as u32 + 1);
    units.iter().map(rank).collect()
}

/// The nonzero units from an index on lower by one, where this begins a unit that isn't the first.
fn one_fewer(units: &[u32], at: usize) -> Option<Vec<u32>> {
    let last_nonzero = units[..at].iter().rfind(|unit| **unit != 0)?;
    let after = units[at..].iter().map(|unit| unit.saturating_sub(1));
    (units[at] > *last_nonzero).then(|| units[..at].iter().copied().chain(after).collect())
}

/// The sentences without the zeros of some row: each goes to the sentence before it, or else to the one after it.
fn filled_headings(sentences: &[u32], row: std::ops::Range<usize>) -> Option<Vec<u32>> {
    let nonzero = |sentence: &&u32| **sentence != 0;
    let mut changed = sentences.to_vec();
    for at in row.filter(|&at| sentences[at] == 0) {
        changed[at] = *changed[..at].iter().rfind(nonzero).or_else(|| sentences[at..].iter().find(nonzero))?;
    }
    (changed != sentences).then_some(changed)
}

/// The empty table; fewer entries; then lower family numbers, or of a table that is refused any lower numbers.
fn changed_tables(numbers: &[u32]) -> impl Iterator<Item = Vec<u32>> + '_ {
    let lower: Box<dyn Iterator<Item = Vec<u32>>> = match families::read(numbers) {
        Ok(table) => Box::new(lower_families(&table).into_iter().map(|table| table.numbers())),
        Err(_) => Box::new(changed_numbers(numbers)),
    };
    [EMPTY.to_vec()].into_iter().chain(without_pairs(numbers)).chain(lower)
}

/// The families numbered from 0 on; one entry in a family of a lower number.
fn lower_families(table: &Families) -> Vec<Families> {
    let mut numbers: Vec<u32> = table.0.values().copied().collect();
    numbers.sort();
    numbers.dedup();
    let rank = |family: &u32| numbers.binary_search(family).expect("a family of the table") as u32;
    let mut list = vec![Families(table.0.iter().map(|(word, family)| (*word, rank(family))).collect())];
    for (word, family) in &table.0 {
        list.extend(lower(*family).into_iter().map(|family| {
            let mut changed = table.clone();
            changed.0.insert(*word, family);
            changed
        }));
    }
    list
}

/// Every part of a tree but the whole of it.
fn parts(tree: &Tree) -> Vec<Tree> {
    let below = tree.below.iter().flat_map(parts);
    tree.below.iter().cloned().chain(below).collect()
}

/// Trees with a part in place of a larger one, or with a lower number; all of them pass the checks if this one does.
fn changed_trees(tree: &Tree) -> Vec<Tree> {
    let mut list = parts(tree);
    list.sort_by_key(Tree::count);
    list.extend(lower_rules(&tree.rule).into_iter().map(|rule| Tree { rule, ..tree.clone() }));
    for (index, side) in tree.below.iter().enumerate() {
        for changed in changed_trees(side) {
            let mut below = tree.below.clone();
            below[index] = changed;
            list.push(Tree { below, ..tree.clone() });
        }
    }
    list
}

fn lower_rules(rule: &Rule) -> Vec<Rule> {
    match rule {
        Rule::Phrase { words, query } => (0..words.len())
            .filter(|_| words.len() > 1)
            .map(|at| Rule::Phrase { words: without(words, &(at..at + 1)), query: *query })
            .collect(),
        Rule::Filter(Filter::Window(size)) => {
            lower(*size).into_iter().filter(|&size| size > 0).map(|size| Rule::Filter(Filter::Window(size))).collect()
        }
        Rule::Filter(Filter::Distance(a, b)) => {
            lower_ranges(*a, *b).map(|(a, b)| Rule::Filter(Filter::Distance(a, b))).collect()
        }
        Rule::Occurs(Occurs::FromTo(a, b)) => {
            lower_ranges(*a, *b).map(|(a, b)| Rule::Occurs(Occurs::FromTo(a, b))).collect()
        }
        Rule::Occurs(Occurs::AtLeast(a)) => lower(*a).into_iter().map(|a| Rule::Occurs(Occurs::AtLeast(a))).collect(),
        _ => vec![],
    }
}

/// Ranges from a to b with one end lower.
fn lower_ranges(a: u32, b: u32) -> impl Iterator<Item = (u32, u32)> {
    let from = lower(a).into_iter().map(move |lower| (lower, b));
    let to = lower(b).into_iter().filter(move |&lower| lower >= a).map(move |lower| (a, lower));
    from.chain(to)
}

fn lower(number: u32) -> Vec<u32> {
    let mut list = vec![0, 1, number / 2, number.saturating_sub(1)];
    list.retain(|&other| other < number);
    list
}

/// Every word number by a smaller one, in section, table and selection alike.
fn renamed_words(case: &Case) -> Vec<Case> {
    let (Ok(section), Ok(table), Ok(tree)) =
        (section::read_sized(&case.section), families::read(&case.families), selection::read(&case.selection))
    else {
        return vec![];
    };
    let codes = tree.codes();
    let of_selection = codes.iter().filter(|code| code.kind == 0).map(|code| code.operand);
    let others = of_selection.chain(table.0.keys().copied());
    let mut words: Vec<u32> = section.words.iter().copied().chain(others).collect();
    words.sort();
    words.dedup();
    let mut list = vec![];
    for old in words.iter().copied() {
        for new in (0..old).take(8) {
            let rename = |word: u32| if word == old { new } else { word };
            let renamed =
                Section { words: section.words.iter().map(|&word| rename(word)).collect(), ..section.clone() };
            let codes: Vec<Code> = codes
                .iter()
                .map(|code| if code.kind == 0 { Code { operand: rename(code.operand), ..*code } } else { *code })
                .collect();
            let families = Families(table.0.iter().map(|(&word, &family)| (rename(word), family)).collect()).numbers();
            let selection = selection::numbers(&codes);
            list.push(Case { section: renamed.numbers(), families, selection, ..case.clone() });
        }
    }
    list
}

/// A section, a table or a selection with some tokens, entries or codes fewer, if its length is right: each is "a size first,
/// then two parallel arrays."
fn without_pairs(numbers: &[u32]) -> impl Iterator<Item = Vec<u32>> + '_ {
    let size = numbers.first().map_or(0, |&size| size as usize);
    let size = if numbers.len() == 1 + 2 * size { size } else { 0 };
    cuts(size).map(move |cut| {
        let first = without(&numbers[1..1 + size], &cut);
        let second = without(&numbers[1 + size..], &cut);
        [&[first.len() as u32][..], &first, &second].concat()
    })
}

/// Any numbers, with some fewer, or with one lower.
fn changed_numbers(numbers: &[u32]) -> impl Iterator<Item = Vec<u32>> + '_ {
    let fewer = cuts(numbers.len()).map(|cut| without(numbers, &cut));
    let zero = numbers.iter().take(1).copied().chain(numbers.iter().skip(1).map(|_| 0)).collect();
    let lower = (0..numbers.len()).flat_map(move |at| {
        lower(numbers[at]).into_iter().map(move |number| {
            let mut changed = numbers.to_vec();
            changed[at] = number;
            changed
        })
    });
    fewer.chain([zero]).chain(lower)
}

/// The case as a test that can be pasted into `tests/agree.rs`.
pub fn as_rust(case: &Case, name: &str) -> String {
    let section = match section::read(&case.section) {
        Ok(section) => {
            format!("words {:?}, sentences {:?}, paragraphs {:?}", section.words, section.sentences, section.paragraphs)
        }
        Err(refusal) => format!("{refusal:?}"),
    };
    let selection = match selection::read_shape(&case.selection) {
        Ok(tree) => tree.to_string(),
        Err(refusal) => format!("{refusal:?}"),
    };
    let families = as_table(&case.families);
    let buffer = match case.buffer.iter().find(|&&number| number != 0) {
        None => format!("vec![0; {}]", case.buffer.len()),
        Some(_) => format!("vec!{:?}", case.buffer),
    };
    format!(
        "#[test]
fn {name}() {{
    // section: {section}
    // families: {families}
    // selection: {selection}
    let case = Case {{
        section: vec!{:?},
        families: vec!{:?},
        selection: vec!{:?},
        work_len: {},
        buffer: {buffer},
    }};
    compare(&engine(), &case).unwrap();
}}
",
        case.section, case.families, case.selection, case.work_len
    )
}

/// For people: the families of the words.
fn as_table(numbers: &[u32]) -> String {
    match families::read(numbers) {
        Ok(table) => format!("{:?}", table.0),
        Err(refusal) => format!("{refusal:?}"),
    }
}

// Typed cases

/// The smallest failing typed case that can be reached by small changes, as [`shrink`] does it.
pub fn shrink_typed(case: &TypedCase, fails: &dyn Fn(&TypedCase) -> bool) -> TypedCase {
    let mut best = case.clone();
    let mut tries = 0;
    loop {
        let measure = measure_typed(&best);
        let still_fails = |changed: &TypedCase| {
            tries += 1;
            tries <= TRIES && fails(changed)
        };
        let simpler = typed_changes(&best).filter(|changed| measure_typed(changed) < measure).find(still_fails);
        match simpler {
            Some(changed) => best = changed,
            None => return best,
        }
    }
}

/// What is to fall: the text's length, the section's and the table's, how odd the lent memory is, the noise in it, the tokens in headings,
/// what a byte is.
fn measure_typed(case: &TypedCase) -> (usize, usize, usize, usize, usize, u128) {
    let odd_lengths =
        case.work_len.abs_diff(WORK) + case.buffer.len().abs_diff(BUFFER) + case.selection.len().abs_diff(SELECTION);
    let noise = case.buffer.iter().chain(&case.selection).filter(|&&number| number != 0).count();
    let bytes: u128 = case.text.iter().map(|&byte| u128::from(oddness(byte))).sum();
    let numbers: u128 = case.section.iter().chain(&case.families).map(|&number| u128::from(number)).sum();
    (
        case.text.len(),
        case.section.len() + case.families.len(),
        odd_lengths,
        noise,
        in_headings(&case.section),
        bytes + numbers,
    )
}

/// Digits are the plainest bytes, 1 of them the plainest; then those that a text may have.
fn oddness(byte: u8) -> u32 {
    match byte {
        b'1' => 0,
        b'0'..=b'9' => 1 + u32::from(byte),
        _ if typed::sort(byte) == Some(typed::Sort::Other) => 1_000 + u32::from(byte),
        _ => 100 + u32::from(byte),
    }
}

fn typed_changes(case: &TypedCase) -> impl Iterator<Item = TypedCase> + '_ {
    let with_text = |text| TypedCase { text, ..case.clone() };
    let with_section = |section| TypedCase { section, ..case.clone() };
    let with_families = |families| TypedCase { families, ..case.clone() };
    let sections: Box<dyn Iterator<Item = Vec<u32>>> = match section::read(&case.section) {
        Ok(section) => Box::new([vec![0]].into_iter().chain(changed_sections(section))),
        Err(_) => {
            Box::new([vec![0]].into_iter().chain(without_pairs(&case.section)).chain(changed_units(&case.section)))
        }
    };
    let lent = vec![
        TypedCase { work_len: WORK, buffer: vec![0; BUFFER], selection: vec![0; SELECTION], ..case.clone() },
        TypedCase { work_len: WORK, ..case.clone() },
        TypedCase { buffer: vec![0; BUFFER], ..case.clone() },
        TypedCase { selection: vec![0; SELECTION], ..case.clone() },
        TypedCase { selection: vec![0; case.selection.len()], ..case.clone() },
    ];
    let lent = lent.into_iter();
    let tables = changed_tables(&case.families).map(with_families);
    lent.chain(tables).chain(changed_texts(&case.text).map(with_text)).chain(sections.map(with_section))
}

/// Fewer tokens, fewer bytes, parentheses or what they hold left out, plainer bytes.
fn changed_texts(text: &[u8]) -> impl Iterator<Item = Vec<u8>> + '_ {
    let starts: Vec<usize> = typed::tokens(text).iter().map(|token| token.place - 1).collect();
    let tokens = starts.len() - 1;
    // a long text has no time for every run
    let longest = if tokens <= 150 { 12 } else { 1 };
    let runs = (0..tokens).flat_map(move |from| (from + 1..=tokens.min(from + longest)).map(move |to| from..to));
    let by_tokens = cuts(tokens).chain(runs).map(move |cut| without(text, &(starts[cut.start]..starts[cut.end])));
    let by_parentheses = parentheses(text).into_iter().flat_map(move |(open, close)| {
        let inside = &text[open + 1..close];
        let (before, behind) = (&text[..open], &text[close + 1..]);
        [inside.to_vec(), [before, b"\"1\"", behind].concat(), [before, b" ", inside, behind].concat()]
    });
    let by_bytes = cuts(text.len()).map(|cut| without(text, &cut));
    let plainer = (0..text.len()).flat_map(move |at| {
        b"1 \"".iter().map(move |&byte| {
            let mut changed = text.to_vec();
            changed[at] = byte;
            changed
        })
    });
    by_parentheses.chain(by_tokens).chain(by_bytes).chain(plainer)
}

/// Where parentheses open and close, those that do both.
fn parentheses(text: &[u8]) -> Vec<(usize, usize)> {
    let mut open = vec![];
    let mut list = vec![];
    for (at, byte) in text.iter().enumerate() {
        match byte {
            b'(' => open.push(at),
            b')' => list.extend(open.pop().map(|start| (start, at))),
            _ => {}
        }
    }
    list
}

/// The text as Rust has it, with a repeat for many equal bytes.
fn byte_string(text: &[u8]) -> String {
    let mut parts: Vec<String> = vec![];
    let mut plain = String::new();
    for run in text.chunk_by(|one, other| one == other) {
        let escaped = std::ascii::escape_default(run[0]).to_string();
        if run.len() < 100 {
            plain += &escaped.repeat(run.len());
        } else {
            parts.push(format!("b\"{}\".to_vec()", std::mem::take(&mut plain)));
            parts.push(format!("b\"{escaped}\".repeat({})", run.len()));
        }
    }
    parts.push(format!("b\"{plain}\".to_vec()"));
    if let [one] = &parts[..] {
        return one.clone();
    }
    format!("[{}].concat()", parts.join(", "))
}

/// The typed case as a test that can be pasted into `tests/typed.rs`.
pub fn typed_as_rust(case: &TypedCase, name: &str) -> String {
    let read = match typed::read(&case.text) {
        Ok(codes) => format!("{codes:?}"),
        Err(refusal) => format!("{refusal:?}"),
    };
    let memory = |numbers: &[u32]| match numbers.iter().find(|&&number| number != 0) {
        None => format!("vec![0; {}]", numbers.len()),
        Some(_) => format!("vec!{numbers:?}"),
    };
    format!(
        "#[test]
fn {name}() {{
    // the text is read as {read}
    // families: {}
    let case = TypedCase {{
        text: {},
        section: vec!{:?},
        families: vec!{:?},
        work_len: {},
        buffer: {},
        selection: {},
    }};
    compare_typed(&engine(), &case).unwrap();
}}
",
        as_table(&case.families),
        byte_string(&case.text),
        case.section,
        case.families,
        case.work_len,
        memory(&case.buffer),
        memory(&case.selection)
    )
}
