//! Words as they stand in a text: runs of letters and digits, with the accents that are characters of their own.

use std::ops::Range;

/// The bytes of each run of letters and digits.
pub fn tokens(text: &str) -> Vec<Range<usize>> {
    let mut tokens: Vec<Range<usize>> = Vec::new();
    for (at, c) in text.char_indices().filter(|(_, c)| c.is_alphanumeric() || is_accent(*c)) {
        let end = at + c.len_utf8();
        match tokens.last_mut() {
            Some(last) if last.end == at => last.end = end,
            _ if is_accent(c) => {}
            _ => tokens.push(at..end),
        }
    }
    tokens
}

/// Is it an accent that belongs to the letter before it?
pub fn is_accent(c: char) -> bool {
    matches!(c, '\u{300}'..='\u{36F}')
}

/// A word without regard to case, and to how its accents are written. By way of large letters, so that 'ß' is 'ss' and
/// every sigma the same; and first of small ones, for the large 'ẞ'.
pub fn folded(word: &str) -> String {
    let small = word.chars().flat_map(char::to_lowercase);
    let mut folded = String::new();
    for c in small.flat_map(char::to_uppercase).flat_map(char::to_lowercase) {
        match folded.chars().last().and_then(|letter| accented(letter, c)) {
            Some(accented) => {
                folded.pop();
                folded.push(accented);
            }
            None => folded.push(c),
        }
    }
    folded
}

/// The one character for a small letter and an accent.
fn accented(letter: char, accent: char) -> Option<char> {
    let (_, pairs) = ACCENTED.iter().find(|(sign, _)| *sign == accent)?;
    pairs.split(' ').find_map(|pair| pair.strip_prefix(letter))?.chars().next()
}

/// An accent, and pairs of a letter without and with it: Latin ones up to U+017F and Romanian's two, Greek, Cyrillic.
const ACCENTED: [(char, &str); 14] = [
    ('\u{300}', "aà eè iì oò uù еѐ иѝ"),
    ('\u{301}', "aá eé ií oó uú yý cć lĺ nń rŕ sś zź αά εέ ηή ιί ϊΐ οό υύ ϋΰ ωώ гѓ кќ"),
    ('\u{302}', "aâ eê iî oô uû cĉ gĝ hĥ jĵ sŝ wŵ yŷ"),
    ('\u{303}', "aã nñ oõ iĩ uũ"),
    ('\u{304}', "aā eē iī oō uū"),
    ('\u{306}', "aă eĕ gğ iĭ oŏ uŭ ий уў"),
    ('\u{307}', "cċ eė gġ zż"),
    ('\u{308}', "aä eë iï oö uü yÿ ιϊ υϋ её ії"),
    ('\u{30A}', "aå uů"),
    ('\u{30B}', "oő uű"),
    ('\u{30C}', "cč dď eě lľ nň rř sš tť zž"),
    ('\u{326}', "sș tț"),
    ('\u{327}', "cç gģ kķ lļ nņ rŗ sş tţ"),
    ('\u{328}', "aą eę iį uų"),
];
