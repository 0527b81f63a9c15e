//! The functions of the static library as C sees them: include/kitfinder.h in Rust, which says what each asks. A slice is a pointer and
//! then its length; the functions of the crate's root are safe.

extern "C" {
    /// Lists every pair of a left set and a right set that contains it.
    pub fn kitfinder_join(
        t: u32,
        left_ends: *const u32,
        left_ends_len: usize,
        left_items: *const u16,
        left_items_len: usize,
        right_ends: *const u32,
        right_ends_len: usize,
        right_items: *const u16,
        right_items_len: usize,
        limit: u32,
        ranks: *const u16,
        ranks_len: usize,
        budget: u32,
        rule: u32,
        a: f64,
        b: f64,
        g: f64,
        h: f64,
        work: *mut u32,
        work_len: usize,
        pairs: *mut u16,
        pairs_len: usize,
        answer: *mut [u64; 9],
    );

    /// Finds the first left set that one right set contains.
    pub fn kitfinder_first(
        t: u32,
        left_ends: *const u32,
        left_ends_len: usize,
        left_items: *const u16,
        left_items_len: usize,
        right: *const u16,
        right_len: usize,
        answer: *mut [u64; 6],
    );

    /// Ranks the items by frequency.
    pub fn kitfinder_order(
        t: u32,
        left_ends: *const u32,
        left_ends_len: usize,
        left_items: *const u16,
        left_items_len: usize,
        right_ends: *const u32,
        right_ends_len: usize,
        right_items: *const u16,
        right_items_len: usize,
        falling: u32,
        ranks: *mut u16,
        ranks_len: usize,
        answer: *mut [u64; 3],
    );

    /// Loads a tag file.
    pub fn kitfinder_load(
        file: *const u8,
        file_len: usize,
        tags: *mut u8,
        tags_len: usize,
        left_numbers: *mut u16,
        left_numbers_len: usize,
        left_ends: *mut u32,
        left_ends_len: usize,
        left_items: *mut u16,
        left_items_len: usize,
        right_numbers: *mut u16,
        right_numbers_len: usize,
        right_ends: *mut u32,
        right_ends_len: usize,
        right_items: *mut u16,
        right_items_len: usize,
        answer: *mut [u64; 10],
    );

    /// Loads the tag files of two pads, pooled.
    pub fn kitfinder_load_pooled(
        first: *const u8,
        first_len: usize,
        second: *const u8,
        second_len: usize,
        tags: *mut u8,
        tags_len: usize,
        left_numbers: *mut u16,
        left_numbers_len: usize,
        left_ends: *mut u32,
        left_ends_len: usize,
        left_items: *mut u16,
        left_items_len: usize,
        right_numbers: *mut u16,
        right_numbers_len: usize,
        right_ends: *mut u32,
        right_ends_len: usize,
        right_items: *mut u16,
        right_items_len: usize,
        answer: *mut [u64; 10],
    );

    /// Writes a tag file.
    pub fn kitfinder_write(
        t: u32,
        tags: *const u8,
        tags_len: usize,
        left_numbers: *const u16,
        left_numbers_len: usize,
        left_ends: *const u32,
        left_ends_len: usize,
        left_items: *const u16,
        left_items_len: usize,
        right_numbers: *const u16,
        right_numbers_len: usize,
        right_ends: *const u32,
        right_ends_len: usize,
        right_items: *const u16,
        right_items_len: usize,
        file: *mut u8,
        file_len: usize,
        answer: *mut [u64; 4],
    );

    /// Reads the record at a byte place of a tag file.
    pub fn kitfinder_read_record(file: *const u8, file_len: usize, at: usize, answer: *mut [u64; 10]);
}
