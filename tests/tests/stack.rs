//! The stack that each exported call takes, held to what include/jullpinay.h states.
//!
//! A call runs on a stack of its own that was painted before; what is no longer painted afterwards, the call used. The
//! return address counts, arguments that are passed on the stack do not.
#![cfg(all(target_arch = "x86_64", target_os = "linux"))]

mod proved;
mod words;

use proved::exported;
use second_engine::families::{Families, MOST_ENTRIES};
use second_engine::typed::{FILTERS, MOST_BYTES, OCCURS, SELECTION};
use second_engine::{cases, family_cases, filter_cases, occurs_cases, BUFFER, EMPTY, WORK};
use std::arch::asm;
use words::examples::examples;
use words::header::stated;
use words::*;

const PAINT: u64 = 0x5AA5_5AA5_5AA5_5AA5;

/// A call's arguments: six in registers, then up to five on the stack.
type Arguments = [usize; 11];

/// So many arguments, the rest zeros.
fn arguments(list: &[usize]) -> Arguments {
    let mut all = [0; 11];
    all[..list.len()].copy_from_slice(list);
    all
}

/// A stack, painted between two calls.
struct Stack(Vec<u128>);

impl Stack {
    fn of_bytes(bytes: usize) -> Stack {
        Stack(vec![0; bytes / 16])
    }

    fn words(&mut self) -> &mut [u64] {
        // SAFETY: the same bytes; every u64 is valid, and a u128 is aligned for them.
        unsafe { std::slice::from_raw_parts_mut(self.0.as_mut_ptr().cast(), self.0.len() * 2) }
    }

    /// How many bytes of stack a function takes.
    ///
    /// # Safety
    /// The function is a C function that takes at most these arguments, and they are right for it.
    unsafe fn taken_by(&mut self, function: *const (), arguments: &Arguments) -> usize {
        let words = self.words();
        words.fill(PAINT);
        let top = words.as_mut_ptr_range().end;
        asm!(
            "mov r12, rsp",
            "mov rsp, r13",
            "sub rsp, 8",
            "push qword ptr [r14 + 80]",
            "push qword ptr [r14 + 72]",
            "push qword ptr [r14 + 64]",
            "push qword ptr [r14 + 56]",
            "push qword ptr [r14 + 48]",
            "mov rdi, [r14]",
            "mov rsi, [r14 + 8]",
            "mov rdx, [r14 + 16]",
            "mov rcx, [r14 + 24]",
            "mov r8, [r14 + 32]",
            "mov r9, [r14 + 40]",
            "call r15",
            "mov rsp, r12",
            out("r12") _,
            in("r13") top,
            in("r14") arguments.as_ptr(),
            in("r15") function,
            clobber_abi("C"),
        );
        let unused = words.iter().take_while(|&&word| word == PAINT).count();
        assert!(unused > 0, "the painted stack is too small");
        (words.len() - unused) * 8 - 6 * 8
    }
}

/// The most that each call took.
#[derive(Default)]
struct Most {
    listing: usize,
    quick: usize,
    snippet: usize,
}

impl Most {
    /// All three calls on a section and a selection, with the empty table and enough memory.
    fn of(&mut self, stack: &mut Stack, section: &[u32], selection: &[u32]) {
        self.by(stack, section, &EMPTY, selection);
    }

    /// The same with any table.
    fn by(&mut self, stack: &mut Stack, section: &[u32], families: &[u32], selection: &[u32]) {
        let (mut work, mut buffer, mut answer) = (vec![0u32; WORK], vec![0u32; BUFFER], [0u32; 4]);
        let (section_at, selection_at) = (section.as_ptr() as usize, selection.as_ptr() as usize);
        let (work_at, buffer_at) = (work.as_mut_ptr() as usize, buffer.as_mut_ptr() as usize);
        let answer_at = answer.as_mut_ptr() as usize;
        let families_at = families.as_ptr() as usize;
        let inputs = [section_at, section.len(), families_at, families.len(), selection_at, selection.len()];
        let with = |rest: &[usize]| arguments(&[inputs.as_slice(), &[work_at, WORK], rest].concat());
        let last = section.first().map_or(0, |&n| n as usize);
        let snippet = arguments(&[section_at, section.len(), 1, last]);
        // SAFETY: the declarations in `proved`, and slices that do not overlap.
        unsafe {
            let listing =
                stack.taken_by(exported::jullpinay_listing as *const (), &with(&[buffer_at, BUFFER, answer_at]));
            let quick = stack.taken_by(exported::jullpinay_quick as *const (), &with(&[answer_at]));
            let snippet = stack.taken_by(exported::jullpinay_snippet as *const (), &snippet);
            self.listing = self.listing.max(listing);
            self.quick = self.quick.max(quick);
            self.snippet = self.snippet.max(snippet);
        }
    }
}

/// What the walk builds or looks for: a phrase, an occurs, every filter over one word and over two, a mild not.
fn leaves() -> Vec<Selection> {
    let mut leaves = vec![word(10), phrase(&[10, 20]), word(10).mild_not(phrase(&[10, 20]))];
    for a in 0..=3 {
        leaves.push(word(10).occurs_at_least(a));
        leaves.extend((a..=3).map(|b| word(10).occurs(a, b)));
    }
    for kind in 6..=15 {
        let operand = [6, 2][usize::from(kind != 7)] * u32::from(kind == 7 || kind == 8);
        leaves.push(word(10).then(kind, operand));
        leaves.push(word(10).and(word(20)).then(kind, operand));
        leaves.push(word(10).and(word(20).not()).then(kind, operand));
    }
    leaves
}

/// Windows whose lists are over the limits, which the walk leaves early or late.
fn windows_over_the_limits() -> Vec<Selection> {
    let operands = [word(10), word(10).and(word(20).not()), word(10).and(word(10).not())];
    operands.iter().flat_map(|operand| [257, 4_096].map(|size| operand.clone().window(size))).collect()
}

/// Occurs whose lists are at the limits, or just over them, with the finds that they are over.
fn occurs_of_many() -> Vec<(Selection, usize)> {
    let mut list = vec![];
    for (finds, least) in [(7, 0), (8, 0), (8, 5), (22, 21), (23, 22), (256, 255), (256, 256), (256, 257), (257, 257)] {
        list.push((word(10).occurs_at_least(least), finds));
        list.push((word(10).occurs(least, 4_095), finds));
    }
    list.extend([(2, 1), (5, 4), (7, 6), (256, 255)].map(|(finds, most)| (word(10).occurs(most, most), finds)));
    list
}

/// As many entries as a table may have, in families of so many, in rows or mixed.
fn full_table(members: usize, mixed: bool) -> Vec<u32> {
    let size = MOST_ENTRIES;
    let family = |at: usize| if mixed { at % size.div_ceil(members) } else { at / members };
    Families((0..size).map(|at| (10 * at as u32, family(at) as u32)).collect()).numbers()
}

/// Phrases of eight words over the whole of a section, all of them, some or none in a table: of families of one member, of
/// few and of many.
fn searches_by_families() -> Vec<(Vec<u32>, Vec<u32>, Selection)> {
    let of_table = |at: usize| 10 * (at % MOST_ENTRIES) as u32;
    let rows: [fn(usize) -> bool; 4] = [|_| true, |at| at % 2 == 0, |at| at % 8 == 7, |_| false];
    let mut list = vec![];
    for (members, mixed) in [1, 2, 15, 16, 17, 40, 100, 1_024, 2_048].into_iter().flat_map(|m| [(m, false), (m, true)])
    {
        let table = full_table(members, mixed);
        for in_table in rows {
            // a word outside of the table stands between two of it
            let word_at = |at: usize, moved: usize| of_table(at + moved) + u32::from(!in_table(at));
            let tokens: Vec<u32> = (0..4_096).map(|at| word_at(at, 0)).collect();
            let moved = if mixed { MOST_ENTRIES.div_ceil(members) } else { 1 };
            for start in [0, 7, 2_000, 4_088] {
                let words = |moved: usize| (start..start + 8).map(|at| word_at(at, moved)).collect::<Vec<u32>>();
                for leaf in [phrase(&words(0)), phrase(&words(moved)), phrase(&[of_table(start); 8])] {
                    let selection = deepest(&leaf, |part| part.not());
                    list.push((plain(&tokens), table.clone(), leaf.clone().window(9).not()));
                    list.push((plain(&tokens[..17]), table.clone(), selection));
                }
            }
        }
    }
    list
}

/// A leaf under as many codes as a selection has room for.
fn deepest(leaf: &Selection, above: impl Fn(Selection) -> Selection) -> Selection {
    let mut whole = leaf.clone();
    loop {
        let more = above(whole.clone());
        if more.0.len() > 64 {
            return whole;
        }
        whole = more;
    }
}

#[test]
fn each_call_stays_within_the_stack_that_the_header_states() {
    let (mut stack, mut most) = (Stack::of_bytes(65_536), Most::default());
    for example in examples() {
        most.of(&mut stack, &example.section, &example.selection);
    }
    for leaf in leaves().into_iter().chain(windows_over_the_limits()) {
        for selection in [
            deepest(&leaf, |part| part.not()),
            deepest(&leaf, |part| part.or(word(10))),
            deepest(&leaf, |part| part.and(word(10))),
            deepest(&leaf, |part| part.not().or(word(10))),
            deepest(&leaf, |part| part.not().and(word(10))),
        ] {
            most.of(&mut stack, &six_tokens(), &selection.numbers());
            most.of(&mut stack, &plain(&[]), &selection.numbers());
        }
    }
    for (leaf, finds) in occurs_of_many() {
        for selection in [deepest(&leaf, |part| part.not()), deepest(&leaf, |part| part.not().or(word(10)))] {
            most.of(&mut stack, &plain(&vec![10; finds]), &selection.numbers());
        }
    }
    let count = if cfg!(debug_assertions) { 1_000 } else { 20_000 };
    let random = cases(1, count).chain(occurs_cases(1, count)).chain(filter_cases(1, count / 20));
    for case in random.chain(family_cases(1, count)) {
        most.by(&mut stack, &case.section, &case.families, &case.selection);
    }
    for (section, families, selection) in searches_by_families() {
        most.by(&mut stack, &section, &families, &selection.numbers());
    }
    held(512, [("LISTING", most.listing), ("QUICK", most.quick), ("SNIPPET", most.snippet)]);
}

/// What each call takes is within what the header states, and that isn't as much as `far` above it.
fn held(far: usize, calls: [(&str, usize); 3]) {
    let with_stated = |(name, most)| (name, most, stated(&format!("{name}_STACK")));
    for (name, most, stated) in calls.map(with_stated) {
        println!("{name}: {most} bytes of stack, {stated} stated");
    }
    for (name, most, stated) in calls.map(with_stated) {
        assert!(most <= stated, "{name} takes {most} bytes of stack, the header states {stated}");
        assert!(stated < most + far, "{name} takes {most} bytes of stack, the header states as much as {stated}");
    }
}

// Typed searches

/// What each typed call takes for a text, or the most for several.
#[derive(Clone, Copy, Default)]
struct Typed {
    read: usize,
    listing: usize,
    quick: usize,
}

impl Typed {
    /// All three typed calls on a text, over document 01's six tokens, with the empty table and enough memory.
    fn of(stack: &mut Stack, text: &[u8]) -> Typed {
        Typed::by(stack, text, &EMPTY)
    }

    /// The same with any table.
    fn by(stack: &mut Stack, text: &[u8], families: &[u32]) -> Typed {
        let (section, mut work, mut buffer) = (six_tokens(), vec![0u32; WORK], vec![0u32; BUFFER]);
        let (mut selection, mut answer) = ([0u32; SELECTION], [0u32; 4]);
        let (section_at, text_at, answer_at) =
            (section.as_ptr() as usize, text.as_ptr() as usize, answer.as_mut_ptr() as usize);
        let (work_at, buffer_at) = (work.as_mut_ptr() as usize, buffer.as_mut_ptr() as usize);
        let selection_at = selection.as_mut_ptr() as usize;
        let read = arguments(&[text_at, text.len(), selection_at, SELECTION, answer_at]);
        let inputs = [section_at, section.len(), families.as_ptr() as usize, families.len(), text_at, text.len()];
        let with = |rest: &[usize]| arguments(&[inputs.as_slice(), &[work_at, WORK], rest].concat());
        let (listing, quick) = (with(&[buffer_at, BUFFER, answer_at]), with(&[answer_at]));
        // SAFETY: the declarations in `proved::typed`, and slices that do not overlap.
        unsafe {
            Typed {
                read: stack.taken_by(exported::jullpinay_read as *const (), &read),
                listing: stack.taken_by(exported::jullpinay_typed_listing as *const (), &listing),
                quick: stack.taken_by(exported::jullpinay_typed_quick as *const (), &quick),
            }
        }
    }

    fn most(self, other: Typed) -> Typed {
        let (read, listing, quick) =
            (self.read.max(other.read), self.listing.max(other.listing), self.quick.max(other.quick));
        Typed { read, listing, quick }
    }
}

/// As many of these openings as a text has room for, what stands in them, and the closings.
fn filled(open: &str, inside: &str, close: &str) -> String {
    let depth = (MOST_BYTES - inside.len()) / (open.len() + close.len());
    open.repeat(depth) + inside + &close.repeat(depth)
}

/// What may stand in the deepest parenthesis, or can't: every filter and occurs and what begins it among them.
fn insides() -> Vec<String> {
    let mut list: Vec<String> =
        ["", ")", "x", "1", "\"", "\"1", "\"1\"", "\"4294967295\"", "\"4294967296\"", "ftnot", "ftnot\"1\""]
            .map(String::from)
            .to_vec();
    list.push("\"1 2 3 4 5 6 7 8\"".into());
    list.push("\"1 2 3 4 5 6 7 8 9\"".into());
    let after_a_phrase =
        ["x", "ftor", "ftand", "not", "not in", "ftor\"2\"", "ftand\"2\"", "not in\"2\"", "window 4097"];
    list.extend(after_a_phrase.map(|rest| format!("\"1\"{rest}")));
    for form in FILTERS.into_iter().chain(OCCURS) {
        let words: Vec<&str> = form.typed.split(' ').map(|word| if word == "N" { "4096" } else { word }).collect();
        list.extend((1..=words.len()).map(|count| format!("\"1\"{}", words[..count].join(" "))));
    }
    list
}

/// The deepest texts: each opens as much as 2,048 bytes have room for.
fn deepest_texts() -> Vec<String> {
    let operators = ["ftor", "ftand", "not in"];
    let mut list = vec![];
    for inside in insides() {
        list.push(filled("(", &inside, ""));
        list.push(filled("(", &inside, ")"));
        list.push(filled("ftnot(", &inside, ""));
    }
    for (open, close) in [("(", ")"), ("ftnot(", ")"), ("(", "ordered)"), ("(", "at end)"), ("(", "window 9 words)")] {
        list.push(filled(open, "\"1\"", close));
        list.push(filled(open, "\"1\"occurs at most 9 times", close));
    }
    for left in operators {
        list.push(filled(&format!("\"1\"{left}("), "\"1\"", ""));
        list.push(filled(&format!("\"1\"{left}("), "\"1\"", ")"));
        list.push(filled("(", "\"1\"", &format!("{left}\"1\")")));
        for right in operators {
            list.push(filled(&format!("\"1\"{left}(\"1\"{right}("), "\"1\"", "))"));
            list.push(filled(&format!("\"1\"{left} ftnot(\"1\"{right}("), "\"1\"", "))"));
        }
    }
    // not deep, and of many codes
    list.push(filled("", "\"1\"", "ordered "));
    list.push(filled("\"1\"ftor", "\"1\"", ""));
    list
}

#[test]
fn each_typed_call_stays_within_the_stack_that_the_header_states() {
    let (mut stack, mut most) = (Stack::of_bytes(1 << 20), Typed::default());
    for text in deepest_texts() {
        most = most.most(Typed::of(&mut stack, text.as_bytes()));
    }
    // and with a table by which all that is searched is found
    let table = full_table(MOST_ENTRIES, false);
    for text in [filled("(", "\"20 30 20 30 20 30 20 30\"", ")"), filled("(", "\"20 30\"window 9 words", ")")] {
        most = most.most(Typed::by(&mut stack, text.as_bytes(), &table));
    }
    held(4_096, [("READ", most.read), ("TYPED_LISTING", most.listing), ("TYPED_QUICK", most.quick)]);
}

#[test]
fn a_parenthesis_takes_no_more_stack_than_the_header_states() {
    let mut stack = Stack::of_bytes(1 << 20);
    let stated = stated("PARENTHESIS_STACK");
    let mut of = |depth: usize| Typed::of(&mut stack, "(".repeat(depth).as_bytes());
    let (shallow, deep) = (of(900), of(1_900));
    let calls = [
        ("read", shallow.read, deep.read),
        ("typed listing", shallow.listing, deep.listing),
        ("typed quick", shallow.quick, deep.quick),
    ];
    for (name, shallow, deep) in calls {
        let each = (deep - shallow) as f64 / 1_000.0;
        println!("{name}: {each} bytes of stack a parenthesis, {stated} stated");
        assert!(each <= stated as f64, "{name}: a parenthesis takes {each} bytes of stack, the header states {stated}");
    }
}
