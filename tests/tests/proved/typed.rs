//! The proved engine's calls for typed searches.

use super::{exported, UNWRITTEN};
use second_engine::Refusal;

/// The reader alone: what is returned, and the answer's two numbers.
pub fn read(text: &[u8], selection: &mut [u32]) -> (u32, [u32; 2]) {
    let mut answer = [UNWRITTEN; 2];
    // SAFETY: the function takes any two slices and reads and writes within them alone; they don't overlap.
    let returned = unsafe {
        exported::jullpinay_read(text.as_ptr(), text.len(), selection.as_mut_ptr(), selection.len(), &mut answer)
    };
    (returned, answer)
}

/// The full listing of a typed search: what is returned, and the answer's four numbers.
pub fn listing(
    section: &[u32],
    families: &[u32],
    text: &[u8],
    work: &mut [u32],
    buffer: &mut [u32],
) -> (u32, [u32; 4]) {
    let mut answer = [UNWRITTEN; 4];
    // SAFETY: the function takes any five slices and reads and writes within them alone; none of them overlap.
    let returned = unsafe {
        exported::jullpinay_typed_listing(
            section.as_ptr(),
            section.len(),
            families.as_ptr(),
            families.len(),
            text.as_ptr(),
            text.len(),
            work.as_mut_ptr(),
            work.len(),
            buffer.as_mut_ptr(),
            buffer.len(),
            &mut answer,
        )
    };
    (returned, answer)
}

/// The quick answer of a typed search: what is returned, and the answer's three numbers.
pub fn quick(section: &[u32], families: &[u32], text: &[u8], work: &mut [u32]) -> (u32, [u32; 3]) {
    let mut answer = [UNWRITTEN; 3];
    // SAFETY: as above.
    let returned = unsafe {
        exported::jullpinay_typed_quick(
            section.as_ptr(),
            section.len(),
            families.as_ptr(),
            families.len(),
            text.as_ptr(),
            text.len(),
            work.as_mut_ptr(),
            work.len(),
            &mut answer,
        )
    };
    (returned, answer)
}

/// What the reader returned, and its answer: {0, codes}, or {number, place}.
pub fn read_answer((returned, answer): (u32, [u32; 2])) -> Result<u32, Refusal> {
    assert_eq!(returned, answer[0]);
    assert_ne!(answer[1], UNWRITTEN, "both numbers are written");
    match answer {
        [0, codes] => Ok(codes),
        [number, place] => Err(Refusal { number, place }),
    }
}
