//! The functions of the sets' archive, as include/tolphaneap_sets.h declares them: the only declarations in Rust.

extern "C" {
    pub fn tolphaneap_set_read(
        bytes: *const u8,
        bytes_len: usize,
        elements: *mut u64,
        elements_len: usize,
        pieces: *mut u64,
        pieces_len: usize,
        answer: *mut u64,
    );
    pub fn tolphaneap_set_value(
        bytes: *const u8,
        bytes_len: usize,
        key: *const u8,
        key_len: usize,
        elements: *mut u64,
        elements_len: usize,
        pieces: *mut u64,
        pieces_len: usize,
        answer: *mut u64,
    );
    pub fn tolphaneap_set_pairs(
        bytes: *const u8,
        bytes_len: usize,
        elements: *mut u64,
        elements_len: usize,
        pieces: *mut u64,
        pieces_len: usize,
        places: *mut u64,
        places_len: usize,
        spare: *mut u64,
        spare_len: usize,
        answer: *mut u64,
    );
    pub fn tolphaneap_set_join(
        bytes: *const u8,
        bytes_len: usize,
        key: *const u8,
        key_len: usize,
        elements: *mut u64,
        elements_len: usize,
        pieces: *mut u64,
        pieces_len: usize,
        out: *mut u8,
        out_len: usize,
        answer: *mut u64,
    );
    pub fn tolphaneap_set_text(
        bytes: *const u8,
        bytes_len: usize,
        place: usize,
        elements: *mut u64,
        elements_len: usize,
        pieces: *mut u64,
        pieces_len: usize,
        out: *mut u8,
        out_len: usize,
        answer: *mut u64,
    );
}
