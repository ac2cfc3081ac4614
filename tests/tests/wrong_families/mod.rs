//! Engines with one mistake each about families and their table.

use super::*;
use second_engine::Families;

pub fn all() -> Vec<(&'static str, Box<dyn Engine>)> {
    let mut list = Mutants(vec![]);
    mutants_of_searches(&mut list);
    MEMBERS.iter().for_each(|(name, test)| list.only_if(name, *test));
    mutants_of_family_phrases(&mut list);
    mutants_of_family_finds(&mut list);
    ENTRIES.iter().for_each(|(name, entries)| list.entries(name, *entries));
    SIZES.iter().for_each(|(name, read)| list.engine(name, Tables(*read)));
    ORDERS.iter().for_each(|(name, fault)| list.order(name, *fault));
    mutants_of_thirteen(&mut list);
    list.0
}

/// Those that any hunt is to find.
pub fn mutants_of_searches(list: &mut Mutants) {
    FITS.iter().for_each(|(name, fits)| list.fitting(name, *fits));
    FITS_ONLY_IF.iter().for_each(|(name, test)| list.only_if(name, *test));
    BY_WORDS_BELOW.iter().for_each(|(name, below)| list.by_words_below(name, *below));
    mutants_of_calls_without_table(list);
}

// Words and tokens

/// Does a word at an index of a phrase fit a token?
type Fits = fn(&Families, usize, u32, u32) -> bool;

/// The list of a phrase, which stands below some rules: the words, and the query position.
type PhraseBelow = dyn Fn(&Searched, &[&Rule], &[u32], u32) -> AllMatches;

/// An engine with another rule for phrases.
struct Phrases(Box<PhraseBelow>);

impl Phrases {
    fn build(&self, section: &Searched, above: &[&Rule], tree: &Tree) -> Result<AllMatches, Refusal> {
        let book = RuleBook::paper();
        let refused = || Refusal::new(9, tree.place);
        if let Rule::Phrase { words, query } = &tree.rule {
            let list = (self.0)(section, above, words, *query);
            return if Size::of(&list).within(book.limits) { Ok(list) } else { Err(refused()) };
        }
        let above = [above, &[&tree.rule]].concat();
        let below: Vec<AllMatches> =
            tree.below.iter().map(|side| self.build(section, &above, side)).collect::<Result<_, _>>()?;
        let below: Vec<&[Match]> = below.iter().map(Vec::as_slice).collect();
        book.list_within(book.limits, section, &tree.rule, &below).map_err(|_| refused())
    }

    fn walk(&self, section: &Searched, above: &[&Rule], tree: &Tree) -> Walked {
        let decisive = tree.rule == Rule::Or;
        let with_this = [above, &[&tree.rule]].concat();
        match (&tree.rule, &tree.below[..]) {
            (Rule::Phrase { words, query }, _) => Ok((!(self.0)(section, above, words, *query).is_empty(), 1)),
            (Rule::Not, [side]) => self.walk(section, &with_this, side).map(|(yes, codes)| (!yes, 1 + codes)),
            (Rule::Or | Rule::And, [left, right]) => match self.walk(section, &with_this, left)? {
                (yes, codes) if yes == decisive => Ok((yes, 1 + codes)),
                (_, codes) => self.walk(section, &with_this, right).map(|(yes, more)| (yes, 1 + codes + more)),
            },
            (Rule::Filter(_), [operand]) => way_out_of(section, tree, &self.build(section, &with_this, operand)?),
            _ => Ok((rules::is_yes(&self.build(section, above, tree)?), tree.count())),
        }
    }
}

impl Engine for Phrases {
    fn listing(
        &self,
        section: &[u32],
        families: &[u32],
        selection: &[u32],
        work: &mut [u32],
        buffer: &mut [u32],
    ) -> Listing {
        let checked = check(section, families, selection, work.len(), Some(buffer.len()));
        listed(checked.and_then(|(section, tree)| self.build(&section, &[], &tree)), buffer)
    }

    fn quick(&self, section: &[u32], families: &[u32], selection: &[u32], work: &mut [u32]) -> Quick {
        walked(section, families, selection, work.len(), |section, tree| self.walk(section, &[], tree))
    }

    fn snippet<'a>(&self, section: &'a [u32], from: u32, to: u32) -> &'a [u32] {
        engine::snippet(section, from, to)
    }
}

/// The phrase rule with another test of words and tokens.
fn phrase_by(section: &Searched, words: &[u32], query: u32, fits: impl Fn(usize, u32, u32) -> bool) -> AllMatches {
    let row_fits = |row: &[u32]| (0..words.len()).all(|at| fits(at, words[at], row[at]));
    let rows = section.words.windows(words.len()).zip(1..).filter(|(row, _)| row_fits(row));
    let string = |start: u32| Str { start, end: start + words.len() as u32 - 1, query, contiguous: true };
    rows.map(|(_, start)| Match { includes: vec![string(start)], excludes: vec![] }).collect()
}

impl Mutants {
    fn phrases(
        &mut self,
        name: &'static str,
        phrase: impl Fn(&Searched, &[&Rule], &[u32], u32) -> AllMatches + 'static,
    ) {
        self.engine(name, Phrases(Box::new(phrase)));
    }

    /// Words fit tokens in another way.
    fn fitting(&mut self, name: &'static str, fits: Fits) {
        self.phrases(name, move |section, _, words, query| {
            phrase_by(section, words, query, |at, word, token| fits(&section.families, at, word, token))
        });
    }

    /// A word fits another one of its family only if the test holds.
    fn only_if(&mut self, name: &'static str, test: Fits) {
        self.phrases(name, move |section, _, words, query| {
            let families = &section.families;
            let fits = |at, word, token| word == token || families.fits(word, token) && test(families, at, word, token);
            phrase_by(section, words, query, fits)
        });
    }

    /// Phrases anywhere below such a rule have no table.
    fn by_words_below(&mut self, name: &'static str, below: Below) {
        self.phrases(name, move |section, above, words, query| {
            if above.iter().any(|rule| below(rule)) {
                rules::phrase(&Searched::alone(section), words, query)
            } else {
                rules::phrase(section, words, query)
            }
        });
    }
}

/// Do both words have a family, and the same in another reading?
fn alike(families: &Families, word: u32, token: u32, read: fn(&Families, u32) -> u32) -> bool {
    let families_of = families.of(word).zip(families.of(token));
    families_of.is_some_and(|(one, other)| read(families, one) == read(families, other))
}

const FITS: [(&str, Fits); 14] = [
    ("families: only equal words fit", |_, _, word, token| word == token),
    ("families: a word in the table doesn't find itself", |families, _, word, token| {
        families.fits(word, token) && (word != token || families.of(word).is_none())
    }),
    ("families: a word out of the table doesn't find itself", |families, _, word, token| {
        (families.0.is_empty() || families.of(word).is_some()) && families.fits(word, token)
    }),
    ("families: a token that is the word's family number", |families, _, word, token| {
        families.fits(word, token) || families.of(word) == Some(token)
    }),
    ("families: a word that is the token's family number", |families, _, word, token| {
        families.fits(word, token) || families.of(token) == Some(word)
    }),
    ("families: a word out of the table is in family 0", |families, _, word, token| {
        word == token || families.of(word).unwrap_or(0) == families.of(token).unwrap_or(0)
    }),
    ("families: two words out of the table are in one family", |families, _, word, token| {
        word == token || !families.0.is_empty() && families.of(word) == families.of(token)
    }),
    ("families: a token out of the table fits any word in it", |families, _, word, token| {
        families.fits(word, token) || families.of(word).is_some() && families.of(token).is_none()
    }),
    ("families: any two words in the table fit", |families, _, word, token| {
        word == token || alike(families, word, token, |_, _| 0)
    }),
    ("families: a family number that is a word stands for its family", |families, _, word, token| {
        let read = |families: &Families, family: u32| families.of(family).unwrap_or(family);
        families.fits(word, token) || alike(families, word, token, read)
    }),
    ("families: numbers compared by 16 bits", |families, _, word, token| {
        word == token || alike(families, word, token, |_, family| family & 0xFFFF)
    }),
    ("families: numbers compared by 31 bits", |families, _, word, token| {
        word == token || alike(families, word, token, |_, family| family & 0x7FFF_FFFF)
    }),
    ("families: a token with the remainder of a member by 1,024", |families, _, word, token| {
        families.fits(word, token) || members(families, word).iter().any(|member| member % 1_024 == token % 1_024)
    }),
    ("families: a token with the remainder of a word out of the table by 1,024", |families, _, word, token| {
        let out = !families.0.is_empty() && families.of(word).is_none();
        families.fits(word, token) || out && word % 1_024 == token % 1_024
    }),
];

const FITS_ONLY_IF: [(&str, Fits); 6] = [
    ("families: 0 is none", |families, _, word, _| families.of(word) != Some(0)),
    ("families: 4,294,967,295 is none", |families, _, word, _| families.of(word) != Some(u32::MAX)),
    ("families: word 0 is in none", |_, _, word, token| word != 0 && token != 0),
    ("families: word 4,294,967,295 is in none", |_, _, word, token| word != u32::MAX && token != u32::MAX),
    ("families: only a higher word is found", |_, _, word, token| word < token),
    ("families: only a lower word is found", |_, _, word, token| word > token),
];

/// The members of a word's family, in order; none for a word out of the table.
fn members(families: &Families, word: u32) -> Vec<u32> {
    let family = families.of(word);
    families.0.iter().filter(|(_, other)| Some(**other) == family).map(|(word, _)| *word).collect()
}

/// The index of a word among the members of its family.
fn member(families: &Families, word: u32) -> usize {
    let members = members(families, word);
    members.iter().position(|other| *other == word).expect("a word of the table")
}

/// The index of a word's entry.
fn entry(families: &Families, word: u32) -> usize {
    families.0.keys().position(|other| *other == word).expect("a word of the table")
}

/// Which members of a family find which others, and in which place of a phrase.
const MEMBERS: [(&str, Fits); 15] = [
    ("families: only the first member finds others", |families, _, word, _| member(families, word) == 0),
    ("families: only the first member is found", |families, _, _, token| member(families, token) == 0),
    ("families: the last member isn't found", |families, _, _, token| members(families, token).last() != Some(&token)),
    ("families: the members beside the word alone", |families, _, word, token| {
        member(families, word).abs_diff(member(families, token)) == 1
    }),
    ("families: entries beside each other alone", |families, _, word, token| {
        entry(families, word).abs_diff(entry(families, token)) == 1
    }),
    ("families: the first 15 members alone", |families, _, _, token| member(families, token) < 15),
    ("families: the first 16 members alone", |families, _, _, token| member(families, token) < 16),
    ("families: the first 32 members alone", |families, _, _, token| member(families, token) < 32),
    ("families: the first 64 members alone", |families, _, _, token| member(families, token) < 64),
    ("families: the 16th member of each 16 isn't found", |families, _, _, token| member(families, token) % 16 != 15),
    ("families: of over 16 members are none", |families, _, word, _| members(families, word).len() <= 16),
    ("families: of over 100 members are none", |families, _, word, _| members(families, word).len() <= 100),
    ("families: only the first word of a phrase", |_, at, _, _| at == 0),
    ("families: all words of a phrase but the first", |_, at, _, _| at > 0),
    ("families: all words of a phrase but the eighth", |_, at, _, _| at < 7),
];

// Phrases

/// The tokens that a phrase was found at.
fn row<'a>(section: &'a Searched, m: &Match) -> &'a [u32] {
    &section.words[m.includes[0].start as usize - 1..m.includes[0].end as usize]
}

fn mutants_of_family_phrases(list: &mut Mutants) {
    list.phrase("families: only the last word of a phrase", |section, words, query| {
        let before = &words[..words.len() - 1];
        kept(&rules::phrase(section, words, query), |m| row(section, m).starts_with(before))
    });
    list.phrase("families: all words of a phrase but the last", |section, words, query| {
        kept(&rules::phrase(section, words, query), |m| row(section, m).last() == words.last())
    });
    list.phrase("families: only phrases of one word", |section, words, query| match words {
        [_] => rules::phrase(section, words, query),
        _ => rules::phrase(&Searched::alone(section), words, query),
    });
    list.phrase("families: only phrases of several words", |section, words, query| match words {
        [_] => rules::phrase(&Searched::alone(section), words, query),
        _ => rules::phrase(section, words, query),
    });
    list.phrase("families: all words of a phrase by them, or none", |section, words, query| {
        let equal = |m: &Match| row(section, m).iter().zip(words).filter(|(token, word)| token == word).count();
        kept(&rules::phrase(section, words, query), |m| equal(m) == 0 || equal(m) == words.len())
    });
    list.phrase("families: the same word by the same token", |section, words, query| {
        let pairs = |m: &Match| words.iter().copied().zip(row(section, m).iter().copied()).collect::<Vec<_>>();
        let same = |pairs: Vec<(u32, u32)>| {
            pairs.iter().all(|(word, token)| pairs.iter().all(|(one, other)| one != word || other == token))
        };
        kept(&rules::phrase(section, words, query), |m| same(pairs(m)))
    });
}

/// What is found by families, and in which order.
fn mutants_of_family_finds(list: &mut Mutants) {
    list.phrase("families: finds by words before those by families", |section, words, query| {
        let mut all = rules::phrase(section, words, query);
        all.sort_by_key(|m| row(section, m) != words);
        all
    });
    list.phrase("families: only where no word is found itself", |section, words, query| {
        match &rules::phrase(&Searched::alone(section), words, query)[..] {
            [] => rules::phrase(section, words, query),
            found => found.to_vec(),
        }
    });
    list.phrase("families: a word that is in the table found twice", |section, words, query| {
        let in_table = words.iter().any(|word| section.families.of(*word).is_some());
        let times = |m: &Match| 1 + usize::from(in_table && row(section, m) == words);
        rules::phrase(section, words, query).iter().flat_map(|m| vec![m.clone(); times(m)]).collect()
    });
    list.phrase("families: a find by them isn't contiguous", |section, words, query| {
        let mut all = rules::phrase(section, words, query);
        all.iter_mut().for_each(|m| m.includes[0].contiguous = row(section, m) == words);
        all
    });
    list.phrase("families: one find by them alone", |section, words, query| {
        let mut by_families = 0;
        let mut all = rules::phrase(section, words, query);
        all.retain(|m| {
            by_families += usize::from(row(section, m) != words);
            row(section, m) == words || by_families == 1
        });
        all
    });
    list.phrase("families: not at the section's last token", |section, words, query| {
        let ends = |m: &Match| m.includes[0].end == section.n();
        kept(&rules::phrase(section, words, query), |m| !ends(m) || row(section, m) == words)
    });
    list.phrase("families: the first 1,000 tokens alone", |section, words, query| {
        let far = |m: &Match| m.includes[0].end > 1_000;
        kept(&rules::phrase(section, words, query), |m| !far(m) || row(section, m) == words)
    });
}

// Parts and calls without the table

/// Is it below such a rule?
type Below = fn(&Rule) -> bool;

const BY_WORDS_BELOW: [(&str, Below); 7] = [
    ("families: excludes by words alone", |rule| *rule == Rule::Not),
    ("families: below an or by words alone", |rule| *rule == Rule::Or),
    ("families: below an and by words alone", |rule| *rule == Rule::And),
    ("families: below a mild not by words alone", |rule| *rule == Rule::MildNot),
    ("families: below a filter by words alone", |rule| matches!(rule, Rule::Filter(_))),
    ("families: below a window by words alone", |rule| matches!(rule, Rule::Filter(Filter::Window(_)))),
    ("families: below an occurs by words alone", |rule| matches!(rule, Rule::Occurs(_))),
];

fn mutants_of_calls_without_table(list: &mut Mutants) {
    list.at_filters("families: at the way out of a filter by words alone", |section, filter| {
        RuleBook::paper().walk(&Searched::alone(section), filter)
    });
    list.quick("families: phrases that the walk reaches by words alone", |section, families, selection, work| {
        let end = |section: &Searched, tree: &Tree| match tree.rule {
            Rule::Phrase { .. } => RuleBook::paper().walk(&Searched::alone(section), tree),
            _ => RuleBook::paper().walk(section, tree),
        };
        walked(section, families, selection, work, |section, tree| walk_down(&end, section, tree))
    });
    list.listing("families: the listing without a table", |section, families, selection, work, buffer| {
        engine::listing(section, without_entries(families), selection, work, buffer)
    });
    list.quick("families: the quick answer without a table", |section, families, selection, work| {
        engine::quick(section, without_entries(families), selection, work)
    });
    list.listing("families: the listing's table unchecked", |section, families, selection, work, buffer| {
        engine::listing(section, unchecked(families), selection, work, buffer)
    });
    list.quick("families: the quick answer's table unchecked", |section, families, selection, work| {
        engine::quick(section, unchecked(families), selection, work)
    });
}

/// Typed calls without the table, or with 13 at another time.
pub fn mutants_of_typed_calls(list: &mut Mutants) {
    list.typed_listing("typed listing: without a table", |codes, section, families, work, buffer| {
        right_typed_listing(codes, section, without_entries(families), work, buffer)
    });
    list.typed_quick("typed quick: without a table", |codes, section, families, work| {
        right_typed_quick(codes, section, without_entries(families), work)
    });
    list.typed_listing("typed listing: 13 before the text's error", |codes, section, families, work, buffer| {
        match (&codes, families::read(families)) {
            (Err(_), Err(Refusal { number, place })) => Listing::Refused { number, place },
            _ => right_typed_listing(codes, section, families, work, buffer),
        }
    });
    list.typed_quick("typed quick: 13 before the text's error", |codes, section, families, work| {
        match (&codes, families::read(families)) {
            (Err(_), Err(Refusal { number, place })) => Quick::Refused { number, place },
            _ => right_typed_quick(codes, section, families, work),
        }
    });
    list.typed_quick("typed quick: 3 before 13", |codes, section, families, work| match &codes {
        Ok(list) if list.len() > 64 => right_typed_quick(codes, section, unchecked(families), work),
        _ => right_typed_quick(codes, section, families, work),
    });
}

/// The empty table in place of an accepted one.
fn without_entries(families: &[u32]) -> &[u32] {
    if families::read(families).is_ok() {
        &EMPTY
    } else {
        families
    }
}

/// The empty table in place of a refused one.
fn unchecked(families: &[u32]) -> &[u32] {
    if families::read(families).is_ok() {
        families
    } else {
        &EMPTY
    }
}

// How a table is read

type ReadTable = fn(&[u32]) -> Result<Families, Refusal>;

/// An engine that reads tables in another way.
struct Tables<Read>(Read);

impl<Read: Fn(&[u32]) -> Result<Families, Refusal>> Tables<Read> {
    fn check(
        &self,
        section: &[u32],
        families: &[u32],
        selection: &[u32],
        work: usize,
        buffer: Option<usize>,
    ) -> Result<(Searched, Tree), Refusal> {
        let section = section::read(section)?;
        let families = (self.0)(families)?;
        // neither of these is ever refused, so this is what is tried after the two
        let (_, tree) = check(&[0], &EMPTY, selection, work, buffer)?;
        Ok((Searched { section, families }, tree))
    }
}

impl<Read: Fn(&[u32]) -> Result<Families, Refusal>> Engine for Tables<Read> {
    fn listing(
        &self,
        section: &[u32],
        families: &[u32],
        selection: &[u32],
        work: &mut [u32],
        buffer: &mut [u32],
    ) -> Listing {
        let checked = self.check(section, families, selection, work.len(), Some(buffer.len()));
        listed(checked.and_then(|(section, tree)| RuleBook::paper().build(&section, &tree)), buffer)
    }

    fn quick(&self, section: &[u32], families: &[u32], selection: &[u32], work: &mut [u32]) -> Quick {
        let checked = self.check(section, families, selection, work.len(), None);
        match checked.and_then(|(section, tree)| RuleBook::paper().walk(&section, &tree)) {
            Err(Refusal { number, place }) => Quick::Refused { number, place },
            Ok((yes, codes)) => Quick::Answered { yes, codes: codes as u32 },
        }
    }

    fn snippet<'a>(&self, section: &'a [u32], from: u32, to: u32) -> &'a [u32] {
        engine::snippet(section, from, to)
    }
}

/// A word and its family.
type Entry = (u32, u32);
type OtherEntries = fn(&[Entry]) -> Vec<Entry>;

/// The first fault of a table whose size and length are right: its words, its families.
type Fault = fn(&[u32], &[u32]) -> Option<usize>;

impl Mutants {
    /// A table is checked as it should be, and other entries are taken of it.
    fn entries(&mut self, name: &'static str, entries: OtherEntries) {
        let read = move |numbers: &[u32]| {
            let right: Vec<Entry> = families::read(numbers)?.0.into_iter().collect();
            Ok(Families(entries(&right).into_iter().collect()))
        };
        self.engine(name, Tables(read));
    }

    fn order(&mut self, name: &'static str, fault: Fault) {
        let read = move |numbers: &[u32]| {
            let (words, families) = families::read_sized(numbers)?;
            match fault(words, families) {
                Some(place) => Err(Refusal::new(13, place)),
                None => Ok(Families(words.iter().copied().zip(families.iter().copied()).collect())),
            }
        };
        self.engine(name, Tables(read));
    }
}

/// Which entries are read, and what of them.
const ENTRIES: [(&str, OtherEntries); 14] = [
    ("table: the last entry unread", |entries| entries[..entries.len().saturating_sub(1)].to_vec()),
    ("table: the first entry unread", |entries| entries.iter().skip(1).copied().collect()),
    ("table: 16 entries read", |entries| entries.iter().take(16).copied().collect()),
    ("table: 64 entries read", |entries| entries.iter().take(64).copied().collect()),
    ("table: 1,024 entries read", |entries| entries.iter().take(1_024).copied().collect()),
    ("table: 2,047 entries read", |entries| entries.iter().take(2_047).copied().collect()),
    ("table: the first of each 16 entries unread", |entries| {
        entries.chunks(16).flat_map(|block| block[1..].to_vec()).collect()
    }),
    ("table: an odd entry at the end unread", |entries| entries[..entries.len() - entries.len() % 2].to_vec()),
    ("table: the words as families", |entries| entries.iter().map(|(word, _)| (*word, *word)).collect()),
    ("table: the families as words", |entries| entries.iter().map(|(word, family)| (*family, *word)).collect()),
    ("table: the family of the entry after", |entries| {
        let after = entries.iter().skip(1).chain(entries.last());
        entries.iter().zip(after).map(|((word, _), (_, family))| (*word, *family)).collect()
    }),
    ("table: the family of the entry before", |entries| {
        let before = entries.first().into_iter().chain(entries);
        entries.iter().zip(before).map(|((word, _), (_, family))| (*word, *family)).collect()
    }),
    ("table: words by 16 bits", |entries| entries.iter().map(|(word, family)| (word & 0xFFFF, *family)).collect()),
    ("table: words and families in turn", |entries| {
        let numbers = Families(entries.iter().copied().collect()).numbers();
        numbers[1..].chunks(2).map(|pair| (pair[0], pair[1])).collect()
    }),
];

/// The table of another size, with as many of its numbers as that takes.
fn resized(numbers: &[u32], size: usize) -> Result<Families, Refusal> {
    families::read(&[&[size as u32], numbers.get(1..1 + 2 * size).unwrap_or(&[])].concat())
}

/// The size of a table and how many numbers stand behind it.
fn size_and_length(numbers: &[u32]) -> Option<(usize, usize)> {
    numbers.first().map(|size| (*size as usize, numbers.len() - 1))
}

const SIZES: [(&str, ReadTable); 11] = [
    ("table: of no numbers accepted", |numbers| match numbers {
        [] => Ok(Families::default()),
        _ => families::read(numbers),
    }),
    ("table: of no entries refused", |numbers| match numbers {
        [0] => Err(Refusal::new(13, 0)),
        _ => families::read(numbers),
    }),
    ("table: of 2,048 entries refused", |numbers| match numbers.first() {
        Some(2_048) => Err(Refusal::new(13, 0)),
        _ => families::read(numbers),
    }),
    ("table: of 2,049 entries accepted", |numbers| match size_and_length(numbers) {
        Some((2_049, 4_098)) => Ok(Families::default()),
        _ => families::read(numbers),
    }),
    ("table: of any size accepted", |numbers| match size_and_length(numbers) {
        Some((size, length)) if size > 2_048 && length == 2 * size => Ok(Families::default()),
        _ => families::read(numbers),
    }),
    ("table: a number too many accepted", |numbers| match size_and_length(numbers) {
        Some((size, length)) if length == 2 * size + 1 => resized(numbers, size),
        _ => families::read(numbers),
    }),
    ("table: any length that is enough accepted", |numbers| match size_and_length(numbers) {
        Some((size, length)) if length > 2 * size => resized(numbers, size),
        _ => families::read(numbers),
    }),
    ("table: a number too few accepted", |numbers| match size_and_length(numbers) {
        Some((size, length)) if length + 1 == 2 * size => resized(&[numbers, &[0]].concat(), size),
        _ => families::read(numbers),
    }),
    ("table: 1 + 2m wraps round", |numbers| match size_and_length(numbers) {
        Some((size, length)) if length == 2 * (size & 0x7FFF_FFFF) => resized(numbers, size & 0x7FFF_FFFF),
        _ => families::read(numbers),
    }),
    ("table: a wrong size at entry 1", |numbers| {
        families::read(numbers).map_err(|refusal| Refusal { place: refusal.place.max(1), ..refusal })
    }),
    ("table: entries before the length", |numbers| {
        let (size, length) = size_and_length(numbers).unwrap_or((0, 0));
        match first_fault(numbers.get(1..1 + size.min(length)).unwrap_or(&[])) {
            Some(place) => Err(Refusal::new(13, place)),
            None => families::read(numbers),
        }
    }),
];

/// Is the word of this entry not above that of the one before it?
fn is_faulty(words: &[u32], entry: usize) -> bool {
    entry > 1 && words[entry - 1] <= words[entry - 2]
}

/// The first entry out of order.
fn first_fault(words: &[u32]) -> Option<usize> {
    (1..=words.len()).find(|entry| is_faulty(words, *entry))
}

const ORDERS: [(&str, Fault); 16] = [
    ("table: equal words accepted", |words, _| (2..=words.len()).find(|entry| words[entry - 1] < words[entry - 2])),
    ("table: a fall accepted", |words, _| (2..=words.len()).find(|entry| words[entry - 1] == words[entry - 2])),
    ("table: in any order", |_, _| None),
    ("table: words held as signed ones", |words, _| {
        (2..=words.len()).find(|entry| words[entry - 1] as i32 <= words[entry - 2] as i32)
    }),
    ("table: families in order, too", |words, families| {
        (2..=words.len()).find(|entry| is_faulty(words, *entry) || families[entry - 1] < families[entry - 2])
    }),
    ("table: word 0 out of order at entry 1", |words, _| match words {
        [0, ..] => Some(1),
        _ => first_fault(words),
    }),
    ("table: the entry before the fault", |words, _| first_fault(words).map(|entry| entry - 1)),
    ("table: the entry behind the fault", |words, _| first_fault(words).map(|entry| entry + 1)),
    ("table: the last fault", |words, _| (1..=words.len()).rfind(|entry| is_faulty(words, *entry))),
    ("table: a fault at place 0", |words, _| first_fault(words).map(|_| 0)),
    ("table: the last entry's order unchecked", |words, _| first_fault(&words[..words.len().saturating_sub(1)])),
    ("table: entry 2's order unchecked", |words, _| (3..=words.len()).find(|entry| is_faulty(words, *entry))),
    ("table: order from each 16 to the next unchecked", |words, _| {
        (1..=words.len()).find(|entry| entry % 16 != 1 && is_faulty(words, *entry))
    }),
    ("table: order from each 64 to the next unchecked", |words, _| {
        (1..=words.len()).find(|entry| entry % 64 != 1 && is_faulty(words, *entry))
    }),
    ("table: the order of 64 entries checked", |words, _| first_fault(&words[..words.len().min(64)])),
    ("table: the order of 1,024 entries checked", |words, _| first_fault(&words[..words.len().min(1_024)])),
];

// Refusal 13 among the others

fn mutants_of_thirteen(list: &mut Mutants) {
    list.refusing("table: 13 tried before 1", |section, families, _, _, _| earlier(section, families, 1));
    list.refusing("table: 13 tried before 2", |section, families, _, _, _| earlier(section, families, 2));
    list.refusing("table: 13 tried after 3", |section, families, selection, _, _| {
        later(section, families, selection, &[3])
    });
    list.refusing("table: 13 tried after 4", |section, families, selection, _, _| {
        later(section, families, selection, &[3, 4])
    });
    list.refusing("table: 13 tried after 6", |section, families, selection, _, _| {
        later(section, families, selection, &[3, 4, 5, 6])
    });
    list.refusing("table: 13 tried after all of the selection", |section, families, selection, _, _| {
        later(section, families, selection, &[3, 4, 5, 6, 12, 7])
    });
    list.refusing("table: 12 tried before 13", |section, families, selection, _, _| {
        later(section, families, selection, &[12])
    });
    list.refusing("table: 7 tried before 13", |section, families, selection, _, _| {
        later(section, families, selection, &[7])
    });
    list.refusing("table: 13 tried after 8", |section, families, selection, work, buffer| {
        let short = work < WORK || buffer.is_some_and(|length| length < BUFFER);
        let thirteen = refusal(section, families, selection)?.0 == 13;
        (thirteen && short && refusal(section, &EMPTY, selection).is_none()).then_some((8, 0))
    });
    list.repairing_families("table: the first 2,048 entries of a larger one", |families| {
        match size_and_length(families) {
            Some((size @ 2_049.., length)) if length == 2 * size => {
                let (words, others) = families[1..].split_at(size);
                [&[2_048], &words[..2_048], &others[..2_048]].concat()
            }
            _ => families.to_vec(),
        }
    });
}

/// Refusal 13 in place of one of the section.
fn earlier(section: &[u32], families: &[u32], number: u32) -> Option<(u32, usize)> {
    let fault = families::read(families).err()?;
    (section::read(section).err()?.number == number).then_some((13, fault.place as usize))
}

/// The refusal of the selection, if it is one of these, in place of 13.
fn later(section: &[u32], families: &[u32], selection: &[u32], numbers: &[u32]) -> Option<(u32, usize)> {
    match refusal(section, families, selection) {
        Some((13, _)) => refusal(section, &EMPTY, selection).filter(|(number, _)| numbers.contains(number)),
        _ => None,
    }
}
