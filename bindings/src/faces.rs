//! The functions of the archive, as `include/hamstedew.h` declares them.

/// Room for the values of any answer.
pub type Values = [u64; 5];

pub const ANSWERED: u64 = 0;
pub const RUNNING: u64 = 100;

extern "C" {
    pub fn hamstedew_accept(book: *const u8, book_length: usize, values: *mut u64, value_words: usize)
        -> u64;

    pub fn hamstedew_evaluate(
        book: *const u8,
        book_length: usize,
        packet: *const u16,
        packet_words: usize,
        result: *mut u16,
        result_words: usize,
        values: *mut u64,
        value_words: usize,
    ) -> u64;

    pub fn hamstedew_run(
        book: *const u8,
        book_length: usize,
        packet: *const u16,
        packet_words: usize,
        schedule: *const u8,
        schedule_length: usize,
        result: *mut u16,
        result_words: usize,
        area: *mut u16,
        area_words: usize,
        values: *mut u64,
        value_words: usize,
    ) -> u64;
}
