//! A manual in plain text, as sections of words.

use crate::engine::{Str, MOST_WORDS};
use crate::tokens::tokens;
use crate::words::Words;
use std::ops::Range;

/// A manual: its text, and its sections in order.
pub struct Manual {
    text: String,
    /// The byte at which each line begins.
    lines: Vec<usize>,
    pub sections: Vec<Section>,
}

/// A section, or a part of one that has too many words for the engine.
#[derive(Clone, Debug, PartialEq, Eq)]
pub struct Section {
    /// None for what stands before the first heading, and under an empty one.
    pub heading: Option<String>,
    /// Where it begins.
    pub line: usize,
    pub part: Part,
    pub tokens: Vec<Token>,
    /// The bytes of each sentence, at its number; at 0 those of the heading.
    sentences: Vec<Range<usize>>,
}

/// Which part of how many; a section that isn't split is part 1 of 1.
#[derive(Clone, Copy, Debug, PartialEq, Eq)]
pub struct Part {
    pub number: usize,
    pub count: usize,
    /// Does it begin inside a paragraph?
    pub is_inside: bool,
}

/// A word of a section: its bytes, and the sentence and the paragraph that it stands in, counted from 1. Sentence 0 is
/// none: a heading's words have it.
#[derive(Clone, Debug, PartialEq, Eq)]
pub struct Token {
    pub bytes: Range<usize>,
    pub sentence: usize,
    pub paragraph: usize,
}

impl Manual {
    pub fn new(text: String) -> Manual {
        let lines = std::iter::once(0).chain(text.match_indices('\n').map(|(at, _)| at + 1)).collect();
        let mut manual = Manual { text, lines, sections: Vec::new() };
        manual.sections = manual.read_sections();
        manual
    }

    pub fn text(&self) -> &str {
        &self.text
    }

    pub fn has_words(&self) -> bool {
        self.sections.iter().any(|section| !section.tokens.is_empty())
    }

    /// The line of a byte, counted from 1.
    pub fn line(&self, byte: usize) -> usize {
        self.lines.partition_point(|&begin| begin <= byte)
    }

    /// A section in the engine's numbers: its size, its words, its places.
    pub fn numbers(&self, section: &Section, words: &Words) -> Vec<u32> {
        let word = |token: &Token| words.number(&self.text[token.bytes.clone()]);
        let place = |token: &Token| (token.paragraph * 65_536 + token.sentence) as u32;
        let size = section.tokens.len() as u32;
        let (tokens, places) = (section.tokens.iter().map(word), section.tokens.iter().map(place));
        std::iter::once(size).chain(tokens).chain(places).collect()
    }

    fn read_sections(&self) -> Vec<Section> {
        let mut sections: Vec<Section> = Vec::new();
        for block in blocks(&self.text) {
            match block {
                Block::Heading(bytes) => sections.push(self.begin_section(bytes)),
                Block::Paragraph(bytes) => {
                    if sections.is_empty() {
                        sections.push(self.begin_section(bytes.start..bytes.start));
                    }
                    sections.last_mut().expect("one was begun").add_paragraph(&self.text, bytes);
                }
            }
        }
        sections.retain(|section| section.heading.is_some() || !section.tokens.is_empty());
        let mut sections: Vec<Section> = sections.into_iter().flat_map(Section::parts).collect();
        for section in sections.iter_mut().filter(|section| section.part.number > 1) {
            section.line = self.line(section.tokens[0].bytes.start);
        }
        sections
    }

    /// A section that has the words of its heading alone; empty bytes are no heading.
    fn begin_section(&self, bytes: Range<usize>) -> Section {
        let heading = Some(one_line(&self.text[bytes.clone()])).filter(|heading| !heading.is_empty());
        let part = Part { number: 1, count: 1, is_inside: false };
        let line = self.line(bytes.start);
        let mut section = Section { heading, line, part, tokens: Vec::new(), sentences: Vec::new() };
        section.add_words(&self.text, bytes, 1);
        section
    }
}

impl Section {
    /// What it is called for people.
    pub fn name(&self) -> &str {
        self.heading.as_deref().unwrap_or("(no heading)")
    }

    /// The bytes of a string.
    pub fn bytes(&self, string: &Str) -> Range<usize> {
        self.tokens[string.start - 1].bytes.start..self.tokens[string.end - 1].bytes.end
    }

    /// The bytes of a sentence, by its number; 0 gives the heading's.
    pub fn sentence(&self, number: usize) -> Range<usize> {
        self.sentences[number].clone()
    }

    fn add_paragraph(&mut self, text: &str, bytes: Range<usize>) {
        let paragraph = 1 + self.tokens.last().map_or(0, |last| last.paragraph);
        for sentence in sentences(text, bytes) {
            if !tokens(&text[sentence.clone()]).is_empty() {
                self.add_words(text, sentence, paragraph);
            }
        }
    }

    /// Adds the words of the heading, which comes first, or of the next sentence.
    fn add_words(&mut self, text: &str, bytes: Range<usize>, paragraph: usize) {
        let sentence = self.sentences.len();
        let bytes_of = |word: Range<usize>| bytes.start + word.start..bytes.start + word.end;
        let token = |word: Range<usize>| Token { bytes: bytes_of(word), sentence, paragraph };
        self.tokens.extend(tokens(&text[bytes.clone()]).into_iter().map(token));
        self.sentences.push(bytes);
    }

    /// The section in parts that the engine can take.
    fn parts(self) -> Vec<Section> {
        let mut cuts = vec![0];
        while let Some(cut) = next_cut(&self.tokens, cuts[cuts.len() - 1]) {
            cuts.push(cut);
        }
        if cuts.len() == 1 {
            return vec![self];
        }
        cuts.push(self.tokens.len());
        let count = cuts.len() - 1;
        let paragraph = |index: usize| self.tokens[index].paragraph;
        let part = |number: usize| {
            let (from, to) = (cuts[number - 1], cuts[number]);
            let is_inside = number > 1 && paragraph(from - 1) == paragraph(from);
            Section { part: Part { number, count, is_inside }, ..self.cut(from..to) }
        };
        (1..=count).map(part).collect()
    }

    /// Some tokens of a section. Sentences and paragraphs are counted anew; what is cut of a sentence, or of the heading,
    /// doesn't belong to it.
    fn cut(&self, range: Range<usize>) -> Section {
        let (first, last) = (&self.tokens[range.start], &self.tokens[range.end - 1]);
        // how many sentences end before the part; if it begins in the heading, none does
        let before = first.sentence.saturating_sub(1);
        let counted_anew = |token: &Token| Token {
            bytes: token.bytes.clone(),
            sentence: token.sentence - before,
            paragraph: token.paragraph - (first.paragraph - 1),
        };
        let mut sentences = [&self.sentences[..1], &self.sentences[before + 1..=last.sentence]].concat();
        let is_cut = |at: usize| self.tokens[at - 1].sentence == self.tokens[at].sentence;
        if range.start > 0 && is_cut(range.start) {
            sentences[first.sentence - before].start = first.bytes.start;
        }
        if range.end < self.tokens.len() && is_cut(range.end) {
            sentences[last.sentence - before].end = last.bytes.end;
        }
        let tokens = self.tokens[range].iter().map(counted_anew).collect();
        Section { heading: self.heading.clone(), tokens, sentences, ..*self }
    }
}

/// Where the tokens from `start` on must be cut, if they are too many: where the last paragraph ends in time, unless the
/// next one is too long itself; else where the last sentence does, unless the next one is; else after the last word.
fn next_cut(tokens: &[Token], start: usize) -> Option<usize> {
    let most = start + MOST_WORDS;
    if tokens.len() <= most {
        return None;
    }
    let last_end = |unit: fn(&Token) -> usize| {
        let end = (start + 1..=most).rfind(|&at| unit(&tokens[at - 1]) != unit(&tokens[at]))?;
        let next = tokens[end..].iter().take_while(|token| unit(token) == unit(&tokens[end]));
        (next.count() <= MOST_WORDS).then_some(end)
    };
    last_end(|token| token.paragraph).or_else(|| last_end(|token| token.sentence)).or(Some(most))
}

/// What blank lines, headings and fences part: the bytes of a heading's text, or of a paragraph.
#[derive(Debug, PartialEq, Eq)]
enum Block {
    Heading(Range<usize>),
    Paragraph(Range<usize>),
}

/// Blocks, and the paragraph to which the next line may belong.
#[derive(Default)]
struct Blocks {
    blocks: Vec<Block>,
    open: Option<Range<usize>>,
    /// May it be underlined? Code, lists and quotations may not.
    is_plain: bool,
}

impl Blocks {
    fn close(&mut self, block: fn(Range<usize>) -> Block) {
        self.blocks.extend(self.open.take().map(block));
    }

    fn heading(&mut self, bytes: Range<usize>) {
        self.close(Block::Paragraph);
        self.blocks.push(Block::Heading(bytes));
    }

    fn underline(&mut self) {
        self.close(if self.is_plain { Block::Heading } else { Block::Paragraph });
    }

    fn line(&mut self, bytes: Range<usize>, is_plain: bool) {
        self.is_plain = is_plain && (self.open.is_none() || self.is_plain);
        let start = self.open.take().map_or(bytes.start, |lines| lines.start);
        self.open = Some(start..bytes.end);
    }
}

/// Headings are Markdown's: a line that begins with one to six `#` and a blank, or a paragraph underlined by `=` or `-`.
/// There are none between fences, and a line that is indented by four blanks or a tab is none. A fence has no words.
fn blocks(text: &str) -> Vec<Block> {
    let mut blocks = Blocks::default();
    let mut fence = None;
    let mut begin = 0;
    for line in text.split_inclusive('\n') {
        let bytes = begin..begin + line.trim_end().len();
        begin += line.len();
        let (indent, words) = line.split_at(line.len() - line.trim_start_matches([' ', '\t']).len());
        let words = words.trim_end();
        let is_indented = indent.len() >= 4 || indent.contains('\t');
        let fence_before = fence;
        if !is_indented {
            fence = fence_after(fence_before, words);
        }
        if words.is_empty() || fence != fence_before {
            blocks.close(Block::Paragraph);
        } else if fence.is_some() {
            blocks.line(bytes, false);
        } else if is_indented {
            blocks.line(bytes, blocks.open.is_some());
        } else if let Some(title) = title(words) {
            let start = bytes.start + indent.len() + title.start;
            blocks.heading(start..start + title.len());
        } else if is_underline(words) {
            blocks.underline();
        } else {
            blocks.line(bytes, !is_item(words));
        }
    }
    blocks.close(Block::Paragraph);
    blocks.blocks
}

/// The fence of code that is open after a line: three or more of ~, or of ` with none after them; as many close it.
fn fence_after<'a>(open: Option<&'a str>, line: &'a str) -> Option<&'a str> {
    let run = |sign: char| &line[..line.len() - line.trim_start_matches(sign).len()];
    let fence = ['`', '~'].map(run).into_iter().find(|run| run.len() >= 3);
    match (open, fence) {
        (None, Some(run)) => (run.starts_with('~') || !line[run.len()..].contains('`')).then_some(run),
        (Some(open), Some(run)) if run.starts_with(open) && run == line => None,
        _ => open,
    }
}

/// Where the text stands in a heading that begins with `#`, without the `#` that may close it.
fn title(line: &str) -> Option<Range<usize>> {
    let after = line.trim_start_matches('#');
    let level = line.len() - after.len();
    if !(1..=6).contains(&level) || !(after.is_empty() || after.starts_with(char::is_whitespace)) {
        return None;
    }
    let unclosed = line.trim_end_matches('#');
    let title = if unclosed.ends_with(char::is_whitespace) { unclosed.trim_end() } else { line };
    let start = line.len() - after.trim_start().len();
    Some(start.min(title.len())..title.len())
}

fn is_underline(line: &str) -> bool {
    ['=', '-'].iter().any(|&sign| line.chars().all(|c| c == sign))
}

/// Does a line begin an item of a list, or belong to a quotation?
fn is_item(line: &str) -> bool {
    ["- ", "* ", "+ ", ">"].iter().any(|sign| line.starts_with(sign))
}

/// The sentences of some bytes: each ends at a `.`, `!` or `?` before a blank or a line's end.
fn sentences(text: &str, bytes: Range<usize>) -> Vec<Range<usize>> {
    let mut sentences = Vec::new();
    let mut start = bytes.start;
    let mut chars = text[bytes.clone()].char_indices().peekable();
    while let Some((at, c)) = chars.next() {
        let before_blank = chars.peek().is_none_or(|(_, next)| next.is_whitespace());
        if matches!(c, '.' | '!' | '?') && before_blank {
            let end = bytes.start + at + 1;
            sentences.push(trimmed(text, start..end));
            start = end;
        }
    }
    sentences.push(trimmed(text, start..bytes.end));
    sentences
}

fn trimmed(text: &str, bytes: Range<usize>) -> Range<usize> {
    let sentence = text[bytes.clone()].trim_start();
    bytes.end - sentence.len()..bytes.end
}

/// A text with each row of blanks and line ends as one blank.
pub fn one_line(text: &str) -> String {
    text.split_whitespace().collect::<Vec<_>>().join(" ")
}
