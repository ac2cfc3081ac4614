//! The selection: "m (1 to 64), m kinds, m operands, in postfix order. Length is 1 + 2m."

use crate::Refusal;
use std::fmt;

/// "m (1 to 64)".
pub const MOST_CODES: usize = 64;
/// "Kind 0 needs p < 8", and a phrase has "k, 1 to 8" words.
pub const MOST_WORDS: usize = 8;
/// "Kind 1 needs p = k and w < 8".
pub const MOST_WAITING: usize = 8;

/// One code as it is lent: "kinds 0 and 1 are words, 2 to 5 combine, 6 to 15 filter"; by request F-3 16 and 17 are occurs,
/// "and 18 and up are unknown."
#[derive(Clone, Copy, Debug, PartialEq, Eq)]
pub struct Code {
    pub kind: u32,
    pub operand: u32,
}

/// The two countings that the scope filters know.
#[derive(Clone, Copy, Debug, PartialEq, Eq)]
pub enum Unit {
    Sentence,
    Paragraph,
}

/// "A filter is one of its own ten sorts with its number."
#[derive(Clone, Copy, Debug, PartialEq, Eq)]
pub enum Filter {
    Ordered,
    Window(u32),
    Distance(u32, u32),
    Same(Unit),
    Different(Unit),
    AtStart,
    AtEnd,
    EntireContent,
}

/// Request F-3: "Add kind 16, occurs from a to b (operand as kind 8), and kind 17, occurs at least a (0 to 4,095)".
#[derive(Clone, Copy, Debug, PartialEq, Eq)]
pub enum Occurs {
    FromTo(u32, u32),
    AtLeast(u32),
}

/// "So a code is a phrase, a combination or a filter"; or, since request F-3, an occurs.
#[derive(Clone, Debug, PartialEq, Eq)]
pub enum Rule {
    /// The words, and the query position: "its rank among the kind-1 codes, from 1" (of the whole selection).
    Phrase {
        words: Vec<u32>,
        query: u32,
    },
    Or,
    And,
    Not,
    MildNot,
    Filter(Filter),
    Occurs(Occurs),
}

/// A code of kind 1 to 17 with the trees of its sides, left before right: none for a phrase, one for a not, a filter or an
/// occurs, two for an or, an and or a mild not. `place` counts all codes from 1, those of kind 0 too.
#[derive(Clone, Debug, PartialEq, Eq)]
pub struct Tree {
    pub place: usize,
    pub rule: Rule,
    pub below: Vec<Tree>,
}

/// Reads a lent selection, or refuses it: "tried in this order, each over the whole input before the next."
pub fn read(numbers: &[u32]) -> Result<Tree, Refusal> {
    let tree = read_shape(numbers)?;
    check_mild_nots(&tree)?;
    Ok(tree)
}

/// Refusals 3 to 6, then 12, and the tree: such a selection can be typed.
pub fn read_shape(numbers: &[u32]) -> Result<Tree, Refusal> {
    let codes = check_length(numbers)?;
    check_kinds(&codes)?;
    check_operands(&codes)?;
    check_shape(&codes)?;
    let tree = tree(&codes);
    check_occurs(&tree)?;
    Ok(tree)
}

/// "3, place 0: selection empty, m not 1 to 64, or length wrong".
fn check_length(numbers: &[u32]) -> Result<Vec<Code>, Refusal> {
    let refused = Err(Refusal::new(3, 0));
    let Some(&m) = numbers.first() else { return refused };
    let m = m as usize;
    if !(1..=MOST_CODES).contains(&m) || numbers.len() != 1 + 2 * m {
        return refused;
    }
    let (kinds, operands) = numbers[1..].split_at(m);
    Ok(kinds.iter().zip(operands).map(|(&kind, &operand)| Code { kind, operand }).collect())
}

/// "4, first such code: kind unknown". "18 and up are unknown."
fn check_kinds(codes: &[Code]) -> Result<(), Refusal> {
    match codes.iter().position(|code| code.kind >= 18) {
        Some(index) => Err(Refusal::new(4, index + 1)),
        None => Ok(()),
    }
}

/// "5, first such code: operand outside the table".
fn check_operands(codes: &[Code]) -> Result<(), Refusal> {
    match codes.iter().position(|code| !operand_in_table(*code)) {
        Some(index) => Err(Refusal::new(5, index + 1)),
        None => Ok(()),
    }
}

/// The table's last column.
pub fn operand_in_table(code: Code) -> bool {
    let operand = code.operand;
    match code.kind {
        // "word number"; "any u32 is a word"
        0 => true,
        // "k, 1 to 8"
        1 => (1..=8).contains(&operand),
        // "N, 1 to 4,096"
        7 => (1..=4_096).contains(&operand),
        // "a × 65,536 + b, a ≤ b ≤ 4,095"; "occurs from a to b (operand as kind 8)"
        8 | 16 => operand / 65_536 <= operand % 65_536 && operand % 65_536 <= 4_095,
        // "occurs at least a (0 to 4,095)"
        17 => operand <= 4_095,
        // "0"
        _ => operand == 0,
    }
}

/// "6, first code breaking the waiting rule (m if only the end does): shape wrong".
///
/// "Reading left to right, w lists and p loose words wait, both 0 first. Kind 0 needs p < 8 and adds a word. Kind 1 needs
/// p = k and w < 8; then p = 0 and w grows by 1. Other kinds need p = 0; kinds 2, 3 and 5 need w ≥ 2 and take one away,
/// the rest need w ≥ 1. At the end w = 1 and p = 0."
fn check_shape(codes: &[Code]) -> Result<(), Refusal> {
    let mut w = 0;
    let mut p = 0;
    for (index, code) in codes.iter().enumerate() {
        let kept = match code.kind {
            0 => p < MOST_WORDS,
            1 => p == code.operand as usize && w < MOST_WAITING,
            2 | 3 | 5 => p == 0 && w >= 2,
            _ => p == 0 && w >= 1,
        };
        if !kept {
            return Err(Refusal::new(6, index + 1));
        }
        match code.kind {
            0 => p += 1,
            1 => {
                p = 0;
                w += 1;
            }
            2 | 3 | 5 => w -= 1,
            _ => {}
        }
    }
    if w == 1 && p == 0 {
        Ok(())
    } else {
        Err(Refusal::new(6, codes.len()))
    }
}

/// "Each directly over a phrase." "12 at the code where the thing below isn't a phrase, tried after 6." (Reading: directly
/// after 6, so before 7.)
fn check_occurs(tree: &Tree) -> Result<(), Refusal> {
    for side in &tree.below {
        check_occurs(side)?;
    }
    match (&tree.rule, &tree.below[..]) {
        (Rule::Occurs(_), [Tree { rule: Rule::Phrase { .. }, .. }]) => Ok(()),
        (Rule::Occurs(_), _) => Err(Refusal::new(12, tree.place)),
        _ => Ok(()),
    }
}

/// "7, the first such kind 5: a not under a mild not". "No kind 4 may stand in either side of a kind 5." (Reading: at any
/// depth; the place is the lowest such kind 5.) The rule "now counts kind 16 too".
fn check_mild_nots(tree: &Tree) -> Result<(), Refusal> {
    for side in &tree.below {
        check_mild_nots(side)?;
    }
    if tree.rule == Rule::MildNot && tree.below.iter().any(Tree::has_not) {
        return Err(Refusal::new(7, tree.place));
    }
    Ok(())
}

/// The tree of codes whose shape is right.
fn tree(codes: &[Code]) -> Tree {
    let mut loose = Vec::new();
    let mut waiting: Vec<Tree> = Vec::new();
    let mut query = 0;
    for (index, code) in codes.iter().enumerate() {
        let rule = match code.kind {
            0 => {
                loose.push(code.operand);
                continue;
            }
            1 => {
                query += 1;
                Rule::Phrase { words: std::mem::take(&mut loose), query }
            }
            2 => Rule::Or,
            3 => Rule::And,
            4 => Rule::Not,
            5 => Rule::MildNot,
            16 | 17 => Rule::Occurs(occurs(*code)),
            _ => Rule::Filter(filter(*code)),
        };
        let below = waiting.split_off(waiting.len() - rule.sides());
        waiting.push(Tree { place: index + 1, rule, below });
    }
    waiting.pop().expect("one list waits at the end")
}

/// The filter that a code of kind 6 to 15 stands for. (Reading: "a is the operand over 65,536, b the remainder.")
fn filter(code: Code) -> Filter {
    match code.kind {
        6 => Filter::Ordered,
        7 => Filter::Window(code.operand),
        8 => Filter::Distance(code.operand / 65_536, code.operand % 65_536),
        9 => Filter::Same(Unit::Sentence),
        10 => Filter::Same(Unit::Paragraph),
        11 => Filter::Different(Unit::Sentence),
        12 => Filter::Different(Unit::Paragraph),
        13 => Filter::AtStart,
        14 => Filter::AtEnd,
        15 => Filter::EntireContent,
        kind => panic!("kind {kind} is no filter"),
    }
}

/// The occurs that a code of kind 16 or 17 stands for.
fn occurs(code: Code) -> Occurs {
    match code.kind {
        16 => Occurs::FromTo(code.operand / 65_536, code.operand % 65_536),
        17 => Occurs::AtLeast(code.operand),
        kind => panic!("kind {kind} is no occurs"),
    }
}

impl Rule {
    /// How many lists the rule takes.
    pub fn sides(&self) -> usize {
        match self {
            Rule::Phrase { .. } => 0,
            Rule::Not | Rule::Filter(_) | Rule::Occurs(_) => 1,
            Rule::Or | Rule::And | Rule::MildNot => 2,
        }
    }

    /// Does the quick answer's walk go no further down here: is this one of "kinds 5 to 15", or an occurs, which "the quick
    /// walk builds and counts .. as it does filters"? It counts the whole part, and builds all that is below.
    pub fn ends_the_walk(&self) -> bool {
        matches!(self, Rule::MildNot | Rule::Filter(_) | Rule::Occurs(_))
    }

    /// Does the walk build the code's own list, too? Not that of a filter, since request F-4.
    pub fn is_built_whole(&self) -> bool {
        matches!(self, Rule::MildNot | Rule::Occurs(_))
    }

    /// Is it a not to "the rule against a not under a mild not", which "now counts kind 16 too"?
    pub fn is_a_not(&self) -> bool {
        matches!(self, Rule::Not | Rule::Occurs(Occurs::FromTo(..)))
    }

    /// The codes that stand for the rule itself: for a phrase its words and a kind 1, else one code.
    pub fn codes(&self) -> Vec<Code> {
        let one = |kind, operand| vec![Code { kind, operand }];
        match self {
            Rule::Phrase { words, .. } => {
                let loose = words.iter().map(|&operand| Code { kind: 0, operand });
                loose.chain(one(1, words.len() as u32)).collect()
            }
            Rule::Or => one(2, 0),
            Rule::And => one(3, 0),
            Rule::Not => one(4, 0),
            Rule::MildNot => one(5, 0),
            Rule::Filter(Filter::Ordered) => one(6, 0),
            Rule::Filter(Filter::Window(size)) => one(7, *size),
            Rule::Filter(Filter::Distance(a, b)) => one(8, a * 65_536 + b),
            Rule::Filter(Filter::Same(Unit::Sentence)) => one(9, 0),
            Rule::Filter(Filter::Same(Unit::Paragraph)) => one(10, 0),
            Rule::Filter(Filter::Different(Unit::Sentence)) => one(11, 0),
            Rule::Filter(Filter::Different(Unit::Paragraph)) => one(12, 0),
            Rule::Filter(Filter::AtStart) => one(13, 0),
            Rule::Filter(Filter::AtEnd) => one(14, 0),
            Rule::Filter(Filter::EntireContent) => one(15, 0),
            Rule::Occurs(Occurs::FromTo(a, b)) => one(16, a * 65_536 + b),
            Rule::Occurs(Occurs::AtLeast(a)) => one(17, *a),
        }
    }
}

impl Tree {
    /// "All its codes but those of kind 0": one for each tree in it.
    pub fn count(&self) -> usize {
        1 + self.below.iter().map(Tree::count).sum::<usize>()
    }

    /// Does a kind 4 or 16 stand in it?
    pub fn has_not(&self) -> bool {
        self.rule.is_a_not() || self.below.iter().any(Tree::has_not)
    }

    /// All its codes, in postfix order.
    pub fn codes(&self) -> Vec<Code> {
        let mut codes: Vec<Code> = self.below.iter().flat_map(Tree::codes).collect();
        codes.extend(self.rule.codes());
        codes
    }
}

/// The lent form of some codes: the size, the kinds, the operands.
pub fn numbers(codes: &[Code]) -> Vec<u32> {
    let kinds = codes.iter().map(|code| code.kind);
    let operands = codes.iter().map(|code| code.operand);
    std::iter::once(codes.len() as u32).chain(kinds).chain(operands).collect()
}

/// For people: `((1 and 3) window 3)`.
impl fmt::Display for Tree {
    fn fmt(&self, f: &mut fmt::Formatter) -> fmt::Result {
        let two = |f: &mut fmt::Formatter, name: &str| write!(f, "({} {} {})", self.below[0], name, self.below[1]);
        let after = |f: &mut fmt::Formatter, name: String| write!(f, "({} {})", self.below[0], name);
        match &self.rule {
            Rule::Phrase { words, .. } => {
                let words: Vec<String> = words.iter().map(u32::to_string).collect();
                write!(f, "\"{}\"", words.join(" "))
            }
            Rule::Or => two(f, "or"),
            Rule::And => two(f, "and"),
            Rule::MildNot => two(f, "mild not"),
            Rule::Not => write!(f, "(not {})", self.below[0]),
            Rule::Filter(Filter::Ordered) => after(f, "ordered".into()),
            Rule::Filter(Filter::Window(size)) => after(f, format!("window {size}")),
            Rule::Filter(Filter::Distance(a, b)) => after(f, format!("distance {a} to {b}")),
            Rule::Filter(Filter::Same(unit)) => after(f, format!("same {}", unit.name())),
            Rule::Filter(Filter::Different(unit)) => after(f, format!("different {}", unit.name())),
            Rule::Filter(Filter::AtStart) => after(f, "at start".into()),
            Rule::Filter(Filter::AtEnd) => after(f, "at end".into()),
            Rule::Filter(Filter::EntireContent) => after(f, "entire content".into()),
            Rule::Occurs(Occurs::FromTo(a, b)) => after(f, format!("occurs {a} to {b}")),
            Rule::Occurs(Occurs::AtLeast(a)) => after(f, format!("occurs at least {a}")),
        }
    }
}

impl Unit {
    fn name(self) -> &'static str {
        match self {
            Unit::Sentence => "sentence",
            Unit::Paragraph => "paragraph",
        }
    }
}
