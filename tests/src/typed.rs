//! Typed searches: the codes that a text stands for, or the text's error (request F-1, with F-3's occurs).
//!
//! Nothing here calls itself, however deep a text's parentheses are. [`tokens`] cuts the whole text into tokens first. A
//! table of [`Move`]s then says which token may come next; a token without a move is error 10. The codes come out in
//! postfix order by the ranks of the operators that wait on a stack.

use crate::engine::{Listing, Quick, SecondEngine};
use crate::selection::{self, Code, MOST_CODES, MOST_WORDS};
use crate::Refusal;
use std::sync::OnceLock;

/// "Text of at most 2,048 bytes".
pub const MOST_BYTES: usize = 2_048;
/// "A word number over 4,294,967,295".
pub const MOST_WORD: u64 = 4_294_967_295;
/// "Another number over 4,096".
pub const MOST_NUMBER: u64 = 4_096;
/// "8 where fewer than 129 numbers are lent" (reading): 64 codes take 1 + 2 × 64.
pub const SELECTION: usize = 129;

/// A kind and its operand.
pub type Pair = (u32, u32);

// Tokens

/// "A token is a quote, a parenthesis or a longest run of small letters or of digits; blanks (byte 32) part tokens; any
/// other byte is a token that the grammar doesn't allow." The end of the text is one more, behind them all.
#[derive(Clone, Copy, Debug, PartialEq, Eq)]
pub enum Sort {
    Quote,
    Open,
    Close,
    Letters,
    Digits,
    Other,
    End,
}

/// A token, its bytes, and "the token's first byte counted from 1".
#[derive(Clone, Copy, Debug, PartialEq, Eq)]
pub struct Token<'a> {
    pub sort: Sort,
    pub bytes: &'a [u8],
    pub place: usize,
}

/// What a byte begins; a blank begins nothing.
pub fn sort(byte: u8) -> Option<Sort> {
    match byte {
        b' ' => None,
        b'"' => Some(Sort::Quote),
        b'(' => Some(Sort::Open),
        b')' => Some(Sort::Close),
        b'a'..=b'z' => Some(Sort::Letters),
        b'0'..=b'9' => Some(Sort::Digits),
        _ => Some(Sort::Other),
    }
}

/// All tokens of a text, the end among them: its place is "length + 1", trailing blanks counted (reading).
pub fn tokens(text: &[u8]) -> Vec<Token<'_>> {
    let mut list: Vec<Token> = vec![];
    for (at, &byte) in text.iter().enumerate() {
        let Some(sort) = sort(byte) else { continue };
        match list.last_mut() {
            // only letters and digits run on, and only without a blank between them
            Some(last)
                if last.sort == sort
                    && matches!(sort, Sort::Letters | Sort::Digits)
                    && last.place - 1 + last.bytes.len() == at =>
            {
                last.bytes = &text[last.place - 1..=at];
            }
            _ => list.push(Token { sort, bytes: &text[at..=at], place: at + 1 }),
        }
    }
    list.push(Token { sort: Sort::End, bytes: &[], place: text.len() + 1 });
    list
}

/// The number that some digits write in base ten; the top of u64, far over every limit, where they write more.
pub fn value(digits: &[u8]) -> u64 {
    digits.iter().fold(0, |value: u64, digit| value.saturating_mul(10).saturating_add(u64::from(digit - b'0')))
}

// The grammar

/// What a move asks of a token.
#[derive(Clone, Copy, Debug, PartialEq, Eq)]
pub enum Sign {
    Quote,
    Open,
    Close,
    Number,
    Keyword(&'static str),
    End,
}

impl Sign {
    fn fits(self, token: &Token) -> bool {
        match self {
            Sign::Quote => token.sort == Sort::Quote,
            Sign::Open => token.sort == Sort::Open,
            Sign::Close => token.sort == Sort::Close,
            Sign::Number => token.sort == Sort::Digits,
            Sign::Keyword(word) => token.sort == Sort::Letters && token.bytes == word.as_bytes(),
            Sign::End => token.sort == Sort::End,
        }
    }
}

/// Where a reading stands.
#[derive(Clone, Copy, Debug, PartialEq, Eq)]
pub enum State {
    /// An operand is to come, with its `ftnot` or without one.
    Operand,
    /// A phrase or a parenthesis is to come: an `ftnot` stands before it.
    Primary,
    /// In a phrase, behind so many words.
    Phrase(usize),
    /// Behind a phrase, which is an operand already, and which an `occurs` may follow.
    Quoted,
    /// Behind another operand.
    Behind,
    /// Behind the `not` of a `not in`.
    Not,
    /// Behind these words of a filter or an occurs.
    Inside(&'static str),
    /// Behind a filter.
    Filtered,
    /// Behind the end.
    Done,
}

/// "`ftor` over `ftand` over `not in` over `ftnot`": what stands later here binds more. An open parenthesis waits among
/// them.
#[derive(Clone, Copy, Debug, PartialEq, Eq, PartialOrd, Ord)]
pub enum Operator {
    Open,
    Or,
    And,
    MildNot,
    Not,
}

impl Operator {
    /// Its code: "2, 3, 4, 5: or, and, not, mild not", operand 0.
    fn code(self) -> Pair {
        match self {
            Operator::Or => (2, 0),
            Operator::And => (3, 0),
            Operator::Not => (4, 0),
            Operator::MildNot => (5, 0),
            Operator::Open => panic!("a parenthesis has no code"),
        }
    }
}

/// A filter or an occurs as it is typed (N stands for a number), its kind, and its operand from its numbers.
#[derive(Clone, Copy)]
pub struct Form {
    pub typed: &'static str,
    pub kind: u32,
    pub operand: fn(&[u32]) -> u32,
}

/// "a × 65,536 + b".
fn from_to(a: u32, b: u32) -> u32 {
    a * 65_536 + b
}

/// Document 01's kinds 6 to 15. "Distance takes `exactly`, `at least` (to 4,095), `at most` (from 0) or `from .. to`."
pub const FILTERS: [Form; 13] = [
    Form { typed: "ordered", kind: 6, operand: |_| 0 },
    Form { typed: "window N words", kind: 7, operand: |n| n[0] },
    Form { typed: "distance exactly N words", kind: 8, operand: |n| from_to(n[0], n[0]) },
    Form { typed: "distance at least N words", kind: 8, operand: |n| from_to(n[0], 4_095) },
    Form { typed: "distance at most N words", kind: 8, operand: |n| from_to(0, n[0]) },
    Form { typed: "distance from N to N words", kind: 8, operand: |n| from_to(n[0], n[1]) },
    Form { typed: "same sentence", kind: 9, operand: |_| 0 },
    Form { typed: "same paragraph", kind: 10, operand: |_| 0 },
    Form { typed: "different sentence", kind: 11, operand: |_| 0 },
    Form { typed: "different paragraph", kind: 12, operand: |_| 0 },
    Form { typed: "at start", kind: 13, operand: |_| 0 },
    Form { typed: "at end", kind: 14, operand: |_| 0 },
    Form { typed: "entire content", kind: 15, operand: |_| 0 },
];

/// "Typed, `occurs` with one of the four ranges and `times` follows a phrase; `at least` is kind 17." The other ranges are
/// kind 16.
pub const OCCURS: [Form; 4] = [
    Form { typed: "occurs exactly N times", kind: 16, operand: |n| from_to(n[0], n[0]) },
    Form { typed: "occurs at least N times", kind: 17, operand: |n| n[0] },
    Form { typed: "occurs at most N times", kind: 16, operand: |n| from_to(0, n[0]) },
    Form { typed: "occurs from N to N times", kind: 16, operand: |n| from_to(n[0], n[1]) },
];

/// What is done with a token.
#[derive(Clone, Copy)]
pub enum Act {
    /// Nothing yet.
    Pass,
    /// It stands before its operand, and waits.
    Hold(Operator),
    /// It stands between its operands: what binds as much on its left comes first; then it waits.
    Join(Operator),
    /// A parenthesis ends.
    Close,
    /// A word of a phrase.
    Word,
    /// A phrase ends.
    Phrase,
    /// A number of a filter or an occurs.
    Number,
    /// A filter ends: it stands over the whole selection before it.
    Filter(Form),
    /// An occurs ends: it stands over the phrase before it.
    Occurs(Form),
    /// The text ends.
    End,
}

/// One row of the table: in this state such a token may come, and leads to that state.
#[derive(Clone, Copy)]
pub struct Move {
    pub from: State,
    pub sign: Sign,
    pub to: State,
    pub act: Act,
}

impl Move {
    pub fn new(from: State, sign: Sign, to: State, act: Act) -> Move {
        Move { from, sign, to, act }
    }
}

/// The whole grammar. That a parenthesis may end only where one is open, and the text only where none is, is not in the
/// table: the stack knows it.
pub fn moves() -> Vec<Move> {
    let keyword = Sign::Keyword;
    let mut list = vec![
        Move::new(State::Operand, keyword("ftnot"), State::Primary, Act::Hold(Operator::Not)),
        Move::new(State::Not, keyword("in"), State::Operand, Act::Join(Operator::MildNot)),
    ];
    for operand in [State::Quoted, State::Behind] {
        list.push(Move::new(operand, keyword("ftor"), State::Operand, Act::Join(Operator::Or)));
        list.push(Move::new(operand, keyword("ftand"), State::Operand, Act::Join(Operator::And)));
        list.push(Move::new(operand, keyword("not"), State::Not, Act::Pass));
    }
    for before in [State::Operand, State::Primary] {
        list.push(Move::new(before, Sign::Quote, State::Phrase(0), Act::Pass));
        list.push(Move::new(before, Sign::Open, State::Operand, Act::Hold(Operator::Open)));
    }
    // "A phrase is one to eight word numbers in double quotes."
    for words in 0..MOST_WORDS {
        list.push(Move::new(State::Phrase(words), Sign::Number, State::Phrase(words + 1), Act::Word));
        list.push(Move::new(State::Phrase(words + 1), Sign::Quote, State::Quoted, Act::Phrase));
    }
    // "`occurs` .. follows a phrase": not another occurs, and not a parenthesis.
    for occurs in OCCURS {
        list.extend(moves_of(occurs.typed, State::Quoted, State::Behind, Act::Occurs(occurs)));
    }
    // "Filters after a whole selection": behind its last operand, or behind another filter.
    for behind in [State::Quoted, State::Behind, State::Filtered] {
        list.push(Move::new(behind, Sign::Close, State::Behind, Act::Close));
        list.push(Move::new(behind, Sign::End, State::Done, Act::End));
        for filter in FILTERS {
            list.extend(moves_of(filter.typed, behind, State::Filtered, Act::Filter(filter)));
        }
    }
    list
}

/// The moves through the words of a filter or an occurs, the last with its act. Those that begin alike go through the same
/// states.
fn moves_of(typed: &'static str, behind: State, done: State, act: Act) -> Vec<Move> {
    let ends = typed.match_indices(' ').map(|(at, _)| at);
    let mut list = vec![];
    let (mut from, mut start) = (behind, 0);
    for end in ends {
        let (sign, act) = match &typed[start..end] {
            "N" => (Sign::Number, Act::Number),
            word => (Sign::Keyword(word), Act::Pass),
        };
        let to = State::Inside(&typed[..end]);
        list.push(Move::new(from, sign, to, act));
        (from, start) = (to, end + 1);
    }
    list.push(Move::new(from, Sign::Keyword(&typed[start..]), done, act));
    list
}

// The reader

/// What a reader goes by. There is one true reader, [`Reader::paper`]; the tests make others with one mistake in them, to
/// see that the comparison finds it.
#[derive(Clone)]
pub struct Reader {
    pub most_bytes: usize,
    pub most_word: u64,
    pub most_number: u64,
    pub tokens: for<'a> fn(&'a [u8]) -> Vec<Token<'a>>,
    pub value: fn(&[u8]) -> u64,
    pub moves: Vec<Move>,
    /// Does an operator that waits come before the one that is read now?
    pub comes_first: fn(Operator, Operator) -> bool,
}

impl Reader {
    /// The reader of requests F-1 and F-3.
    pub fn paper() -> Reader {
        Reader {
            most_bytes: MOST_BYTES,
            most_word: MOST_WORD,
            most_number: MOST_NUMBER,
            tokens,
            value,
            moves: moves(),
            // "Left operands group first."
            comes_first: |waiting, now| waiting >= now,
        }
    }

    /// The codes of a text, however many, or its error: "at the token's first byte counted from 1, whichever token comes
    /// first"; "11 at place 0, first of all, for too long a text".
    pub fn read(&self, text: &[u8]) -> Result<Vec<Pair>, Refusal> {
        if text.len() > self.most_bytes {
            return Err(Refusal::new(11, 0));
        }
        let mut reading = Reading::new(self);
        for token in (self.tokens)(text) {
            reading.take(&token)?;
        }
        Ok(reading.codes)
    }

    /// The reader alone: "the text's error, 3, then 8 where fewer than 129 numbers are lent" (reading). It answers the
    /// number of codes; the selection then holds it, the kinds and the operands, its rest unchanged.
    pub fn read_selection(&self, text: &[u8], selection: &mut [u32]) -> Result<u32, Refusal> {
        let codes = self.read(text)?;
        if codes.len() > MOST_CODES {
            return Err(Refusal::new(3, 0));
        }
        if selection.len() < SELECTION {
            return Err(Refusal::new(8, 0));
        }
        let numbers = numbers(&codes);
        selection[..numbers.len()].copy_from_slice(&numbers);
        Ok(numbers[0])
    }

    /// "What a typed search answers is what its codes answer", the errors of the text "all before document 01's
    /// refusals".
    pub fn listing(
        &self,
        section: &[u32],
        families: &[u32],
        text: &[u8],
        work_len: usize,
        buffer: &mut [u32],
    ) -> Listing {
        match self.read(text) {
            Err(Refusal { number, place }) => Listing::Refused { number, place },
            Ok(codes) => SecondEngine::new().listing(section, families, &numbers(&codes), work_len, buffer),
        }
    }

    /// The quick answer of a typed search.
    pub fn quick(&self, section: &[u32], families: &[u32], text: &[u8], work_len: usize) -> Quick {
        match self.read(text) {
            Err(Refusal { number, place }) => Quick::Refused { number, place },
            Ok(codes) => SecondEngine::new().quick(section, families, &numbers(&codes), work_len),
        }
    }
}

/// The lent form of some codes, also of too many: the size, the kinds, the operands.
pub fn numbers(codes: &[Pair]) -> Vec<u32> {
    let codes: Vec<Code> = codes.iter().map(|&(kind, operand)| Code { kind, operand }).collect();
    selection::numbers(&codes)
}

/// A text in the reading.
struct Reading<'a> {
    reader: &'a Reader,
    state: State,
    /// Operators that still wait for their right operand, and open parentheses.
    waiting: Vec<Operator>,
    /// How many of these are parentheses.
    open: usize,
    /// The numbers of the filter or the occurs in the reading.
    numbers: Vec<u32>,
    codes: Vec<Pair>,
}

impl<'a> Reading<'a> {
    fn new(reader: &'a Reader) -> Reading<'a> {
        Reading { reader, state: State::Operand, waiting: vec![], open: 0, numbers: vec![], codes: vec![] }
    }

    /// The move that a token makes, if the grammar allows it here.
    fn allowed(&self, token: &Token) -> Option<Move> {
        let fits = |step: &&Move| step.from == self.state && step.sign.fits(token);
        let step = self.reader.moves.iter().find(fits)?;
        match step.act {
            Act::Close if self.open == 0 => None,
            Act::End if self.open > 0 => None,
            _ => Some(*step),
        }
    }

    /// One token: "10 where the grammar doesn't allow it (or length + 1), else 11" for a number over its limit.
    fn take(&mut self, token: &Token) -> Result<(), Refusal> {
        let step = self.allowed(token).ok_or(Refusal::new(10, token.place))?;
        match step.act {
            Act::Pass => {}
            Act::Hold(operator) => self.hold(operator),
            Act::Join(operator) => {
                self.release(|waiting| (self.reader.comes_first)(waiting, operator));
                self.hold(operator);
            }
            Act::Close => {
                self.release_all();
                self.waiting.pop();
                self.open -= 1;
            }
            Act::Word => self.codes.push((0, self.within(token, self.reader.most_word)?)),
            Act::Phrase => self.codes.push((1, self.words())),
            Act::Number => self.numbers.push(self.within(token, self.reader.most_number)?),
            Act::Filter(filter) => {
                self.release_all();
                self.write(filter);
            }
            // what waits, waits for the phrase with its occurs
            Act::Occurs(occurs) => self.write(occurs),
            Act::End => self.release_all(),
        }
        self.state = step.to;
        Ok(())
    }

    fn within(&self, token: &Token, most: u64) -> Result<u32, Refusal> {
        let value = (self.reader.value)(token.bytes);
        if value > most {
            return Err(Refusal::new(11, token.place));
        }
        Ok(value as u32)
    }

    /// How many words the phrase has.
    fn words(&self) -> u32 {
        match self.state {
            State::Phrase(words) => words as u32,
            state => panic!("no phrase ends in {state:?}"),
        }
    }

    /// The code of a filter or an occurs, which takes the numbers read since the last one.
    fn write(&mut self, form: Form) {
        self.codes.push((form.kind, (form.operand)(&self.numbers)));
        self.numbers.clear();
    }

    fn hold(&mut self, operator: Operator) {
        self.open += usize::from(operator == Operator::Open);
        self.waiting.push(operator);
    }

    /// Writes the operators that wait last, as long as they are such, and up to an open parenthesis.
    fn release(&mut self, such: impl Fn(Operator) -> bool) {
        while let Some(operator) = self.waiting.pop_if(|last| *last != Operator::Open && such(*last)) {
            self.codes.push(operator.code());
        }
    }

    fn release_all(&mut self) {
        self.release(|_| true);
    }
}

/// The paper's reader, made once.
fn paper() -> &'static Reader {
    static PAPER: OnceLock<Reader> = OnceLock::new();
    PAPER.get_or_init(Reader::paper)
}

/// The codes of a text in document 01's order, however many, or the text's error.
pub fn read(text: &[u8]) -> Result<Vec<Pair>, Refusal> {
    paper().read(text)
}

/// The reader alone, into a lent selection.
pub fn read_selection(text: &[u8], selection: &mut [u32]) -> Result<u32, Refusal> {
    paper().read_selection(text, selection)
}

/// The full listing of a typed search.
pub fn typed_listing(section: &[u32], families: &[u32], text: &[u8], work_len: usize, buffer: &mut [u32]) -> Listing {
    paper().listing(section, families, text, work_len, buffer)
}

/// The quick answer of a typed search.
pub fn typed_quick(section: &[u32], families: &[u32], text: &[u8], work_len: usize) -> Quick {
    paper().quick(section, families, text, work_len)
}

/// Do these tokens begin some selection? Whatever is wrong with the text is then that it ends here.
pub fn begins_a_selection(text: &[u8]) -> bool {
    match read(text) {
        Ok(_) => true,
        Err(refusal) => refusal == Refusal::new(10, text.len() + 1),
    }
}

#[cfg(test)]
mod tests {
    use super::*;

    /// Every state can be reached and left, and no token has two moves in one state that differ.
    #[test]
    fn the_table_is_sound() {
        let moves = moves();
        for one in &moves {
            let left = moves.iter().any(|other| other.from == one.to);
            assert!(left || one.to == State::Done, "{:?} is never left", one.to);
            let reached = moves.iter().any(|other| other.to == one.from);
            assert!(reached, "{:?} is never reached", one.from);
            let like = moves.iter().filter(|other| other.from == one.from && other.sign == one.sign);
            assert!(like.into_iter().all(|other| other.to == one.to), "{:?} {:?}", one.from, one.sign);
        }
    }

    #[test]
    fn tokens_are_longest_runs() {
        let places = |text: &[u8]| tokens(text).iter().map(|token| token.place).collect::<Vec<_>>();
        assert_eq!(places(b""), [1]);
        assert_eq!(places(b"  "), [3]);
        assert_eq!(places(b"window3words"), [1, 7, 8, 13]);
        assert_eq!(places(b"\"\"(()) 12 3ab c\x00\x00\xC3\xA4"), [1, 2, 3, 4, 5, 6, 8, 11, 12, 15, 16, 17, 18, 19, 20]);
    }
}
