//! The archive's functions, as include/tolphaneap.h declares them: the only declarations in Rust.

extern "C" {
    pub fn tolphaneap_parse(
        text: *const u8,
        text_len: usize,
        lines: *mut u32,
        lines_len: usize,
        events: *mut u32,
        events_len: usize,
        answer: *mut u64,
    );
    pub fn tolphaneap_write(
        events: *const u32,
        events_len: usize,
        bytes: *mut u8,
        bytes_len: usize,
        answer: *mut u64,
    );
    pub fn tolphaneap_read(
        bytes: *const u8,
        bytes_len: usize,
        events: *mut u32,
        events_len: usize,
        answer: *mut u64,
    );
    pub fn tolphaneap_list(
        mode: u64,
        events: *const u32,
        events_len: usize,
        out: *mut u8,
        out_len: usize,
        answer: *mut u64,
    );
    pub fn tolphaneap_page(
        mode: u64,
        parsed: *const u64,
        events: *const u32,
        events_len: usize,
        out: *mut u8,
        out_len: usize,
        answer: *mut u64,
    );
    pub fn tolphaneap_changes(
        older: *const u8,
        older_len: usize,
        older_events: *const u32,
        older_events_len: usize,
        newer: *const u8,
        newer_len: usize,
        newer_events: *const u32,
        newer_events_len: usize,
        lines: *mut u32,
        lines_len: usize,
        events: *mut u32,
        events_len: usize,
        answer: *mut u64,
    );
}
