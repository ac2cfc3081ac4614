//! The engine's calls for Rust, a module as it stands. `include/jullpinay.h` declares the same for C, and says what each
//! answers and what its caller owes. Nothing holds these declarations to `crates/jullpinay_c/src/lib.rt`: keep them alike.

#[link(name = "jullpinay", kind = "static")]
extern "C" {
    pub fn jullpinay_listing(
        section: *const u32,
        section_count: usize,
        families: *const u32,
        families_count: usize,
        selection: *const u32,
        selection_count: usize,
        work: *mut u32,
        work_count: usize,
        buffer: *mut u32,
        buffer_count: usize,
        answer: *mut [u32; 4],
    ) -> u32;

    pub fn jullpinay_quick(
        section: *const u32,
        section_count: usize,
        families: *const u32,
        families_count: usize,
        selection: *const u32,
        selection_count: usize,
        work: *mut u32,
        work_count: usize,
        answer: *mut [u32; 3],
    ) -> u32;

    pub fn jullpinay_snippet(section: *const u32, section_count: usize, from: u32, to: u32) -> usize;

    pub fn jullpinay_typed_listing(
        section: *const u32,
        section_count: usize,
        families: *const u32,
        families_count: usize,
        text: *const u8,
        text_count: usize,
        work: *mut u32,
        work_count: usize,
        buffer: *mut u32,
        buffer_count: usize,
        answer: *mut [u32; 4],
    ) -> u32;

    pub fn jullpinay_typed_quick(
        section: *const u32,
        section_count: usize,
        families: *const u32,
        families_count: usize,
        text: *const u8,
        text_count: usize,
        work: *mut u32,
        work_count: usize,
        answer: *mut [u32; 3],
    ) -> u32;

    pub fn jullpinay_read(
        text: *const u8,
        text_count: usize,
        selection: *mut u32,
        selection_count: usize,
        answer: *mut [u32; 2],
    ) -> u32;
}
