//! The calls: the full listing, the quick answer, the snippet; and the unlimited lists they are held to.

use crate::agreement::Engine;
use crate::families::{self, Searched};
use crate::rules::{self, AllMatches, Match};
use crate::section::{self, Section};
use crate::selection::{self, Filter, Occurs, Rule, Tree, Unit};
use crate::sizes::{self, Limits, Size};
use crate::typed;
use crate::{Refusal, BUFFER, WORK};
use std::slice::from_ref;

/// "It answers M, S and yes or no, or a refusal with its place."
#[derive(Clone, Copy, Debug, PartialEq, Eq)]
pub enum Listing {
    Listed { matches: u32, strings: u32, yes: bool },
    Refused { number: u32, place: u32 },
}

/// The quick answer: yes or no and how many codes of kind 1 to 17 it walked or built, or a refusal with its place.
#[derive(Clone, Copy, Debug, PartialEq, Eq)]
pub enum Quick {
    Answered { yes: bool, codes: u32 },
    Refused { number: u32, place: u32 },
}

/// The rules that an engine goes by. There is one true book, [`RuleBook::paper`]; the tests write others with one wrong
/// rule in them, to see that the comparison finds it.
#[derive(Clone, Copy)]
pub struct RuleBook {
    pub phrase: fn(&Searched, &[u32], u32) -> AllMatches,
    pub or: fn(&[Match], &[Match]) -> AllMatches,
    pub and: fn(&[Match], &[Match]) -> AllMatches,
    pub not: fn(&[Match]) -> AllMatches,
    pub mild_not: fn(&[Match], &[Match]) -> AllMatches,
    pub ordered: fn(&[Match]) -> AllMatches,
    pub window: fn(&[Match], u32) -> AllMatches,
    pub distance: fn(&[Match], u32, u32) -> AllMatches,
    pub same: fn(&Section, Unit, &[Match]) -> AllMatches,
    pub different: fn(&Section, Unit, &[Match]) -> AllMatches,
    pub at_start: fn(&Section, &[Match]) -> AllMatches,
    pub at_end: fn(&Section, &[Match]) -> AllMatches,
    pub entire_content: fn(&Section, &[Match]) -> AllMatches,
    pub from_to: fn(&[Match], u32, u32) -> AllMatches,
    pub at_least: fn(&[Match], u32) -> AllMatches,
    /// How a not is counted before it is made, and an occurs over so many matches.
    pub size_of_not: fn(&[Match]) -> Size,
    pub size_of_from_to: fn(usize, u32, u32) -> Size,
    pub size_of_at_least: fn(usize, u32) -> Size,
    /// Over which a list is refused.
    pub limits: Limits,
}

impl RuleBook {
    /// The rules of document 01 and of requests F-3 and F-6.
    pub fn paper() -> RuleBook {
        RuleBook {
            phrase: rules::phrase,
            or: rules::or,
            and: rules::and,
            not: rules::not,
            mild_not: rules::mild_not,
            ordered: rules::ordered,
            window: rules::window,
            distance: rules::distance,
            same: rules::same,
            different: rules::different,
            at_start: rules::at_start,
            at_end: rules::at_end,
            entire_content: rules::entire_content,
            from_to: rules::from_to,
            at_least: rules::at_least,
            size_of_not: sizes::not,
            size_of_from_to: sizes::from_to,
            size_of_at_least: sizes::at_least,
            limits: sizes::PAPER,
        }
    }

    /// The list of a code, from the lists of its sides.
    fn list(&self, section: &Searched, rule: &Rule, below: &[&[Match]]) -> AllMatches {
        match (rule, below) {
            (Rule::Phrase { words, query }, []) => (self.phrase)(section, words, *query),
            (Rule::Or, [left, right]) => (self.or)(left, right),
            (Rule::And, [left, right]) => (self.and)(left, right),
            (Rule::MildNot, [left, right]) => (self.mild_not)(left, right),
            (Rule::Not, [list]) => (self.not)(list),
            (Rule::Filter(filter), [list]) => match *filter {
                Filter::Ordered => (self.ordered)(list),
                Filter::Window(size) => (self.window)(list, size),
                Filter::Distance(a, b) => (self.distance)(list, a, b),
                Filter::Same(unit) => (self.same)(section, unit, list),
                Filter::Different(unit) => (self.different)(section, unit, list),
                Filter::AtStart => (self.at_start)(section, list),
                Filter::AtEnd => (self.at_end)(section, list),
                Filter::EntireContent => (self.entire_content)(section, list),
            },
            (Rule::Occurs(Occurs::FromTo(a, b)), [list]) => (self.from_to)(list, *a, *b),
            (Rule::Occurs(Occurs::AtLeast(a)), [list]) => (self.at_least)(list, *a),
            _ => panic!("{rule:?} over {} lists", below.len()),
        }
    }

    /// The size of a code's list before it is made, for the rules whose list can be larger than those below. The other
    /// filters and the mild not only leave matches and strings out, so their lists are made at once.
    pub fn forecast(&self, section: &Searched, rule: &Rule, below: &[&[Match]]) -> Option<Size> {
        match (rule, below) {
            (Rule::Phrase { words, .. }, []) => Some(sizes::phrase(section, words)),
            (Rule::Or, [left, right]) => Some(sizes::or(left, right)),
            (Rule::And, [left, right]) => Some(sizes::and(left, right)),
            (Rule::Not, [list]) => Some((self.size_of_not)(list)),
            (Rule::Filter(Filter::Window(size)), [list]) => Some(sizes::window(list, *size)),
            (Rule::Occurs(Occurs::FromTo(a, b)), [list]) => Some((self.size_of_from_to)(list.len(), *a, *b)),
            (Rule::Occurs(Occurs::AtLeast(a)), [list]) => Some((self.size_of_at_least)(list.len(), *a)),
            _ => None,
        }
    }

    /// The list of a code if it stays within the limits, or else its size. "A list is measured complete, and the steps
    /// inside a rule are not."
    pub fn list_within(
        &self,
        limits: Limits,
        section: &Searched,
        rule: &Rule,
        below: &[&[Match]],
    ) -> Result<AllMatches, Size> {
        if let Some(size) = self.forecast(section, rule, below) {
            if !size.within(limits) {
                return Err(size);
            }
            if *rule == Rule::Not && size.matches == 0 {
                // (Reading: a not with a stringless match below it is empty, however large the rest of its product.) The product
                // that the rule goes through on its way may be astronomical, so it isn't gone through.
                return Ok(vec![]);
            }
        }
        let list = self.list(section, rule, below);
        let size = Size::of(&list);
        if size.within(limits) {
            Ok(list)
        } else {
            Err(size)
        }
    }

    /// The list of a whole part, built within the limits: "Building makes one list for each code of the part but kind 0,
    /// in postfix order". The first code whose list is over them is refused.
    pub fn build(&self, section: &Searched, tree: &Tree) -> Result<AllMatches, Refusal> {
        let mut below = vec![];
        for side in &tree.below {
            below.push(self.build(section, side)?);
        }
        let below: Vec<&[Match]> = below.iter().map(Vec::as_slice).collect();
        self.list_within(self.limits, section, &tree.rule, &below).map_err(|_| Refusal::new(9, tree.place))
    }

    /// The quick answer's walk: yes or no, and how many codes it walked or built. "The walk ends at its first refusal."
    pub fn walk(&self, section: &Searched, tree: &Tree) -> Result<(bool, usize), Refusal> {
        match (&tree.rule, &tree.below[..]) {
            // "a phrase is yes if its list isn't empty"
            (Rule::Phrase { words, query }, _) => Ok((!(self.phrase)(section, words, *query).is_empty(), 1)),
            // "not turns the answer round"
            (Rule::Not, [side]) => {
                let (yes, codes) = self.walk(section, side)?;
                Ok((!yes, 1 + codes))
            }
            // "or walks its left side, then its right only after a no"
            (Rule::Or, [left, right]) => match self.walk(section, left)? {
                (true, codes) => Ok((true, 1 + codes)),
                (false, codes) => {
                    let (yes, more) = self.walk(section, right)?;
                    Ok((yes, 1 + codes + more))
                }
            },
            // "and its left side, then its right only after a yes"
            (Rule::And, [left, right]) => match self.walk(section, left)? {
                (false, codes) => Ok((false, 1 + codes)),
                (true, codes) => {
                    let (yes, more) = self.walk(section, right)?;
                    Ok((yes, 1 + codes + more))
                }
            },
            // Request F-4: "Where the walk itself reaches a filter (kinds 6 to 15), it should take the operand's matches one
            // by one and stop at the first that gives a match without excludes. That filter's own list no longer counts for
            // refusal 9; the lists under it still do." "The count of codes remains that of the walk": of the whole part.
            (Rule::Filter(_), [operand]) => {
                let operand = self.build(section, operand)?;
                let gives_a_yes = |m: &Match| rules::is_yes(&self.list(section, &tree.rule, &[from_ref(m)]));
                Ok((operand.iter().any(gives_a_yes), tree.count()))
            }
            // "At kinds 5 to 15 it builds that code's whole part by the rules above, left to right, and looks for a match
            // without excludes." "A built part, which is its code and every code below it, counts all its codes but those
            // of kind 0." Since request F-4 this is kind 5. Of occurs: "The quick walk builds and counts them as it does
            // filters." (Reading: as it did before request F-4.)
            _ => Ok((rules::is_yes(&self.build(section, tree)?), tree.count())),
        }
    }
}

/// Refusals 1 to 8, 12 and 13: "tried in this order, each over the whole input before the next", 12 after 6 and 13 after 2.
/// No buffer length is given where no buffer is lent.
pub fn check(
    section: &[u32],
    families: &[u32],
    selection: &[u32],
    work_len: usize,
    buffer_len: Option<usize>,
) -> Result<(Searched, Tree), Refusal> {
    let section = section::read(section)?;
    let families = families::read(families)?;
    let tree = selection::read(selection)?;
    // "8, place 0: a lent buffer too short"
    if work_len < WORK || buffer_len.is_some_and(|length| length < BUFFER) {
        return Err(Refusal::new(8, 0));
    }
    Ok((Searched { section, families }, tree))
}

/// What the buffer holds at its front: "M, S, the M string counts, then two parallel arrays of S: spans (start × 65,536 +
/// end) and tags (query position × 4, plus 2 if contiguous, plus 1 if an exclude), includes before excludes in each
/// match."
pub fn encode(list: &[Match]) -> Vec<u32> {
    let size = Size::of(list);
    let mut numbers = vec![size.matches as u32, size.strings as u32];
    numbers.extend(list.iter().map(|m| m.strings() as u32));
    for m in list {
        let strings = m.includes.iter().chain(&m.excludes);
        numbers.extend(strings.map(|s| s.start * 65_536 + s.end));
    }
    for m in list {
        let tag = |exclude: u32| move |s: &rules::Str| s.query * 4 + u32::from(s.contiguous) * 2 + exclude;
        numbers.extend(m.includes.iter().map(tag(0)));
        numbers.extend(m.excludes.iter().map(tag(1)));
    }
    numbers
}

/// The second engine, with the paper's rules or (in tests) others.
#[derive(Clone, Copy)]
pub struct SecondEngine {
    pub book: RuleBook,
}

impl SecondEngine {
    pub fn new() -> SecondEngine {
        SecondEngine { book: RuleBook::paper() }
    }

    /// The list that the full listing gives.
    pub fn list(
        &self,
        section: &[u32],
        families: &[u32],
        selection: &[u32],
        work_len: usize,
        buffer_len: usize,
    ) -> Result<AllMatches, Refusal> {
        let (section, tree) = check(section, families, selection, work_len, Some(buffer_len))?;
        self.book.build(&section, &tree)
    }

    /// The full listing. A refusal leaves the buffer unchanged, and so does a listing all of it behind its numbers.
    pub fn listing(
        &self,
        section: &[u32],
        families: &[u32],
        selection: &[u32],
        work_len: usize,
        buffer: &mut [u32],
    ) -> Listing {
        match self.list(section, families, selection, work_len, buffer.len()) {
            Err(Refusal { number, place }) => Listing::Refused { number, place },
            Ok(list) => {
                let numbers = encode(&list);
                buffer[..numbers.len()].copy_from_slice(&numbers);
                Listing::Listed { matches: numbers[0], strings: numbers[1], yes: rules::is_yes(&list) }
            }
        }
    }

    /// The quick answer.
    pub fn quick(&self, section: &[u32], families: &[u32], selection: &[u32], work_len: usize) -> Quick {
        let checked = check(section, families, selection, work_len, None);
        let walked = checked.and_then(|(section, tree)| self.book.walk(&section, &tree));
        match walked {
            Err(Refusal { number, place }) => Quick::Refused { number, place },
            Ok((yes, codes)) => Quick::Answered { yes, codes: codes as u32 },
        }
    }
}

impl Default for SecondEngine {
    fn default() -> SecondEngine {
        SecondEngine::new()
    }
}

impl Engine for SecondEngine {
    fn listing(
        &self,
        section: &[u32],
        families: &[u32],
        selection: &[u32],
        work: &mut [u32],
        buffer: &mut [u32],
    ) -> Listing {
        SecondEngine::listing(self, section, families, selection, work.len(), buffer)
    }

    fn quick(&self, section: &[u32], families: &[u32], selection: &[u32], work: &mut [u32]) -> Quick {
        SecondEngine::quick(self, section, families, selection, work.len())
    }

    fn snippet<'a>(&self, section: &'a [u32], from: u32, to: u32) -> &'a [u32] {
        snippet(section, from, to)
    }

    fn read(&self, text: &[u8], selection: &mut [u32]) -> Result<u32, Refusal> {
        typed::read_selection(text, selection)
    }

    fn typed_listing(
        &self,
        section: &[u32],
        families: &[u32],
        text: &[u8],
        work: &mut [u32],
        buffer: &mut [u32],
    ) -> Listing {
        typed::typed_listing(section, families, text, work.len(), buffer)
    }

    fn typed_quick(&self, section: &[u32], families: &[u32], text: &[u8], work: &mut [u32]) -> Quick {
        typed::typed_quick(section, families, text, work.len())
    }
}

/// The full listing: "takes section, selection, working memory (at least 12,800 u32) and a listing buffer (at least 1,282
/// u32). It answers M, S and yes or no, or a refusal with its place." Only the length of the working memory is asked for.
/// Request F-6: "All calls that find phrases take the table", directly after the section.
pub fn listing(section: &[u32], families: &[u32], selection: &[u32], work_len: usize, buffer: &mut [u32]) -> Listing {
    SecondEngine::new().listing(section, families, selection, work_len, buffer)
}

/// The quick answer: "takes section, selection and working memory (at least 12,800 u32)", and the table.
pub fn quick(section: &[u32], families: &[u32], selection: &[u32], work_len: usize) -> Quick {
    SecondEngine::new().quick(section, families, selection, work_len)
}

/// "Section, from, to: the word numbers of those positions, as a part of the lent section. An empty part if the section
/// isn't accepted or 1 ≤ from ≤ to ≤ n fails."
pub fn snippet(section: &[u32], from: u32, to: u32) -> &[u32] {
    match section::read(section) {
        // the word at position p stands at index p, behind the size
        Ok(accepted) if 1 <= from && from <= to && to <= accepted.n() => &section[from as usize..=to as usize],
        _ => &section[..0],
    }
}

/// The unlimited list of one code.
pub struct CodeList {
    /// The place of the code, counting all codes from 1.
    pub place: usize,
    /// How many codes of kind 1 to 17 stand in the code's part.
    pub count: usize,
    /// Do "limits on size hold" for it in the quick answer, wherever it is built at all: is it "built at or under kinds 5
    /// to 15", or at or under an occurs, and not the own list of a filter that the walk itself reaches (request F-4)?
    pub measured: bool,
    /// Its size, where the lists right below it could be made: counted, and so known also where the list can't be made.
    pub size: Option<Size>,
    /// The list, where it and all below it are small enough to be made.
    pub list: Option<AllMatches>,
    /// Yes or no: of the list that has been made; of a window's list that is too large for it, by its free windows.
    pub yes: Option<bool>,
}

/// "The unlimited lists are those of the rules above for every code but kind 0, unread ones too, with no limit on matches
/// or strings; the complete AllMatches of a selection is that of its last code." By request F-3 this "gains both kinds" of
/// occurs, and by request F-6 their "meaning is over" the table. In postfix order. `None` if section, table or selection
/// don't pass the checks.
pub fn unlimited_lists(section: &[u32], families: &[u32], selection: &[u32]) -> Option<Vec<CodeList>> {
    unlimited_lists_within(sizes::GUARD, section, families, selection)
}

/// The unlimited lists, those made that stay within a guard.
pub fn unlimited_lists_within(
    guard: Limits,
    section: &[u32],
    families: &[u32],
    selection: &[u32],
) -> Option<Vec<CodeList>> {
    let (section, tree) = check(section, families, selection, WORK, None).ok()?;
    let mut lists = vec![];
    add_unlimited(guard, &section, &tree, false, &mut lists);
    Some(lists)
}

fn add_unlimited(
    guard: Limits,
    section: &Searched,
    tree: &Tree,
    under_built: bool,
    lists: &mut Vec<CodeList>,
) -> usize {
    let measured = under_built || tree.rule.is_built_whole();
    let below_built = under_built || tree.rule.ends_the_walk();
    let sides: Vec<usize> =
        tree.below.iter().map(|side| add_unlimited(guard, section, side, below_built, lists)).collect();
    let below: Option<Vec<&[Match]>> = sides.iter().map(|&side| lists[side].list.as_deref()).collect();
    let made = below.as_ref().map(|below| RuleBook::paper().list_within(guard, section, &tree.rule, below));
    let free = |size: u32, list: &[Match]| list.iter().any(|m| !sizes::free_windows(m, size).is_empty());
    let yes = match (&made, &tree.rule, below.as_deref()) {
        (Some(Ok(list)), _, _) => Some(rules::is_yes(list)),
        (_, Rule::Filter(Filter::Window(size)), Some([operand])) => Some(free(*size, operand)),
        _ => None,
    };
    let (size, list) = match made {
        None => (None, None),
        Some(Err(size)) => (Some(size), None),
        Some(Ok(list)) => (Some(Size::of(&list)), Some(list)),
    };
    lists.push(CodeList { place: tree.place, count: tree.count(), measured, size, list, yes });
    lists.len() - 1
}

/// The complete AllMatches of a selection, with no limit. `None` if section, table or selection don't pass the checks, or if
/// a list in it is too large for the memory (see [`sizes::GUARD`]).
pub fn unlimited(section: &[u32], families: &[u32], selection: &[u32]) -> Option<Vec<Match>> {
    unlimited_lists(section, families, selection)?.pop()?.list
}
