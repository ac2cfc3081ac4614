//! Words that somebody may have meant.

/// The first word of some from which one differs in a letter. Short words and numbers are near to too many.
pub fn near<'a>(word: &str, words: impl IntoIterator<Item = &'a str>) -> Option<&'a str> {
    if word.chars().count() < 4 || word.contains(char::is_numeric) {
        return None;
    }
    words.into_iter().find(|other| is_near(word, other))
}

/// Does one letter make the difference: put in, left out, changed, or exchanged with its neighbour?
fn is_near(one: &str, other: &str) -> bool {
    let (one, other): (Vec<char>, Vec<char>) = (one.chars().collect(), other.chars().collect());
    let before = one.iter().zip(&other).take_while(|(a, b)| a == b).count();
    let (one, other) = (&one[before..], &other[before..]);
    let after = one.iter().rev().zip(other.iter().rev()).take_while(|(a, b)| a == b).count();
    match (&one[..one.len() - after], &other[..other.len() - after]) {
        ([a, b], [c, d]) => a == d && b == c,
        (one, other) => one.len() <= 1 && other.len() <= 1,
    }
}
