//! The least that any engine must do: read the section once, check it, and look for a word. Once as a plain loop that ends at the first fault, and once without an
//! early end, which the compiler turns into vector instructions.

/// Words and places. `None` where the section's size is wrong.
fn halves(section: &[u32]) -> Option<(&[u32], &[u32])> {
    let n = *section.first()? as usize;
    if n > 4_096 || section.len() != 1 + 2 * n {
        return None;
    }
    Some(section[1..].split_at(n))
}

/// Does the word stand in the section? `None` where the section isn't accepted.
pub fn plain(section: &[u32], word: u32) -> Option<bool> {
    let (words, places) = halves(section)?;
    let mut before = *places.first().unwrap_or(&0);
    let mut last = 0;
    let mut found = false;
    for (&here, &place) in words.iter().zip(places) {
        if is_faulty(before, place, last) {
            return None;
        }
        last = last_after(last, place);
        found |= here == word;
        before = place;
    }
    Some(found)
}

/// Is the sentence nonzero and below the last nonzero one, or the paragraph out of order?
fn is_faulty(before: u32, here: u32, last: u32) -> bool {
    let (sentence, paragraph, paragraph_before) = (here % 65_536, here / 65_536, before / 65_536);
    let falls = sentence != 0 && sentence < last;
    falls || paragraph < paragraph_before || (paragraph == 0) != (paragraph_before == 0)
}

fn last_after(last: u32, here: u32) -> u32 {
    match here % 65_536 {
        0 => last,
        sentence => sentence,
    }
}

/// The same; where a sentence falls, as it does to the zero of a heading, the places are looked at one by one.
pub fn vectorised(section: &[u32], word: u32) -> Option<bool> {
    let (words, places) = halves(section)?;
    let found = words.iter().fold(false, |found, &here| found | (here == word));
    (never_falls(places) || is_sound(places)).then_some(found)
}

/// A fall of the sentence leaves the sum of the rises short by 1, and a fall of the place leaves it over by 65,536.
fn never_falls(places: &[u32]) -> bool {
    let (Some(first), Some(last)) = (places.first(), places.last()) else { return true };
    let rises: u32 = places.windows(2).map(|pair| pair[1].wrapping_sub(pair[0]) / 65_536).sum();
    rises + first / 65_536 == last / 65_536 && (first / 65_536 != 0 || last / 65_536 == 0)
}

fn is_sound(places: &[u32]) -> bool {
    let mut last = 0;
    places.windows(2).all(|pair| {
        last = last_after(last, pair[0]);
        !is_faulty(pair[0], pair[1], last)
    })
}
