//! What a manual's sections answer to a search.

use crate::codes::{codes, phrases, Code, Phrase};
use crate::engine::{Engine, Match, Refusal, Str};
use crate::refusal::{of_code, of_text, Explained};
use crate::search::Search;

/// A search that is in order, and the engine to ask.
pub struct Question<'a> {
    search: &'a Search<'a>,
    pub selection: Vec<u32>,
    codes: Vec<Code>,
    phrases: Vec<Phrase>,
    engine: Engine,
}

/// What a section answers.
pub enum Answer {
    /// No; the matches, which are all excluded, where they are asked for and can be listed.
    No(Vec<Match>),
    Yes(Finds),
    /// Yes, but the listing is refused.
    Unlisted(Explained),
    /// Whether yes or no isn't known.
    Refused(Explained),
}

impl Answer {
    pub fn is_yes(&self) -> bool {
        matches!(self, Answer::Yes(_) | Answer::Unlisted(_))
    }

    pub fn is_refused(&self) -> bool {
        matches!(self, Answer::Refused(_))
    }
}

/// The listing of a section that says yes.
pub struct Finds {
    pub matches: Vec<Match>,
    /// The index of the first match without excludes.
    pub deciding: usize,
    /// The phrases whose finds might exclude the deciding match, and don't.
    pub passed: Vec<Passed>,
}

/// A phrase that might exclude a match: its number, how it is typed, and where the section has it.
pub struct Passed {
    pub phrase: usize,
    pub typed: String,
    pub finds: Vec<Str>,
}

impl Finds {
    /// The matches that have no exclude.
    pub fn free(&self) -> impl Iterator<Item = &Match> {
        self.matches.iter().filter(|found| found.excludes.is_empty())
    }
}

impl<'a> Question<'a> {
    /// A search, to be asked with a family table; or why it is refused.
    pub fn new(search: &'a Search<'a>, families: Vec<u32>) -> Result<Question<'a>, Explained> {
        let mut engine = Engine::new(families);
        let selection = engine.read(&search.typed).map_err(|refusal| of_text(refusal, search))?;
        let codes = codes(search, &selection);
        // what is wrong with a search is wrong in every section, the empty one too
        match engine.quick(&[0], &selection) {
            Err(refusal) if refusal.number != Refusal::TOO_LONG => return Err(of_code(refusal, &codes, None)),
            _ => {}
        }
        let phrases = phrases(&codes);
        Ok(Question { search, selection, codes, phrases, engine })
    }

    /// What a section answers, given by its numbers; `all` asks for the matches of a no.
    pub fn ask(&mut self, section: &[u32], all: bool) -> Answer {
        match self.engine.quick(section, &self.selection) {
            Err(refusal) => Answer::Refused(self.explained(section, refusal)),
            Ok(false) if all => Answer::No(self.engine.listing(section, &self.selection).unwrap_or_default()),
            Ok(false) => Answer::No(Vec::new()),
            Ok(true) => match self.engine.listing(section, &self.selection) {
                Err(refusal) => Answer::Unlisted(self.explained(section, refusal)),
                Ok(matches) => Answer::Yes(self.finds(section, matches)),
            },
        }
    }

    /// What a section's refusal says; at an occurs, with the number of finds that it chooses from.
    fn explained(&mut self, section: &[u32], refusal: Refusal) -> Explained {
        let is_refused = |phrase: &&Phrase| phrase.occurs.as_ref().is_some_and(|occurs| occurs.code == refusal.place);
        let phrase = self.phrases.iter().find(is_refused);
        let finds = phrase.map(|phrase| finds_of(phrase, &mut self.engine, section).len());
        of_code(refusal, &self.codes, finds)
    }

    fn finds(&mut self, section: &[u32], matches: Vec<Match>) -> Finds {
        let deciding = matches.iter().position(|found| found.excludes.is_empty());
        let deciding = deciding.expect("where the quick answer says yes, a listing has a match without excludes");
        let passed = self.passed(section, &matches[deciding]);
        Finds { matches, deciding, passed }
    }

    fn passed(&mut self, section: &[u32], deciding: &Match) -> Vec<Passed> {
        let phrases = (1..).zip(&self.phrases).filter(|(_, phrase)| phrase.is_excluded || phrase.most().is_some());
        let passed = phrases.filter_map(|(number, phrase)| {
            let finds = passed_finds(phrase, finds_of(phrase, &mut self.engine, section), deciding)?;
            Some(Passed {
                phrase: number,
                typed: self.search.text[phrase.place.clone()].to_string(),
                finds: finds.into_iter().map(|find| Str { query: number, ..find }).collect(),
            })
        });
        passed.collect()
    }
}

/// Where a section has a phrase.
fn finds_of(phrase: &Phrase, engine: &mut Engine, section: &[u32]) -> Vec<Str> {
    let matches = engine.listing(section, &phrase.selection);
    let matches = matches.expect("the list of a phrase isn't too long where one is built over it");
    matches.into_iter().flat_map(|found| found.includes).collect()
}

/// Of a phrase's finds those that might exclude the deciding match, and don't. If they are more than its occurs allows,
/// every one might; the match may include some.
fn passed_finds(phrase: &Phrase, mut finds: Vec<Str>, deciding: &Match) -> Option<Vec<Str>> {
    if phrase.most().is_none_or(|most| finds.len() <= most) {
        return phrase.is_excluded.then_some(finds);
    }
    finds.retain(|find| !deciding.includes.iter().any(|include| include.covers(find)));
    (!finds.is_empty()).then_some(finds)
}
