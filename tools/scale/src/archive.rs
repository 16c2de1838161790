//! The functions of the static library on lent buffers, which may be NULL where they are empty.

use crate::lent::{Cell, Lent};
use std::ptr;

#[allow(dead_code)] // editions are not compared here
#[path = "../../../bindings/rust/src/c.rs"]
mod c;

/// Stands before and after an answer.
const CANARY: u64 = 0xdead_c0de_0bad_f00d;

/// What a call answered; None if it wrote beside its answer.
pub type Answer<const N: usize> = Option<[u64; N]>;

fn answered<const N: usize>(call: impl FnOnce(*mut u64)) -> Answer<N> {
    let mut words = [CANARY; 6];
    call(words[1..].as_mut_ptr());
    let (before, after) = (words[0], &words[1 + N..]);
    let live = before == CANARY && after.iter().all(|word| *word == CANARY);
    live.then(|| words[1..=N].try_into().expect("N words"))
}

/// Where a buffer is. An empty one may be NULL.
fn input<T: Cell>(lent: &Lent<T>, null: bool) -> *const T {
    match lent.part() {
        [] if null => ptr::null(),
        part => part.as_ptr(),
    }
}

fn output<T: Cell>(lent: &mut Lent<T>, null: bool) -> *mut T {
    match lent.part_mut() {
        [] if null => ptr::null_mut(),
        part => part.as_mut_ptr(),
    }
}

pub fn parse(
    text: &Lent<u8>,
    lines: &mut Lent<u32>,
    events: &mut Lent<u32>,
    null: bool,
) -> Answer<4> {
    let lens = (text.part().len(), lines.part().len(), events.part().len());
    let (text, lines, events) = (input(text, null), output(lines, null), output(events, null));
    // Safe: the buffers are apart from each other and as long as said, here and below.
    answered(|answer| unsafe {
        c::tolphaneap_parse(text, lens.0, lines, lens.1, events, lens.2, answer)
    })
}

pub fn write(events: &Lent<u32>, bytes: &mut Lent<u8>, null: bool) -> Answer<3> {
    let lens = (events.part().len(), bytes.part().len());
    let (events, bytes) = (input(events, null), output(bytes, null));
    answered(|answer| unsafe { c::tolphaneap_write(events, lens.0, bytes, lens.1, answer) })
}

pub fn read(bytes: &Lent<u8>, events: &mut Lent<u32>, null: bool) -> Answer<3> {
    let lens = (bytes.part().len(), events.part().len());
    let (bytes, events) = (input(bytes, null), output(events, null));
    answered(|answer| unsafe { c::tolphaneap_read(bytes, lens.0, events, lens.1, answer) })
}

pub fn list(mode: u64, events: &Lent<u32>, out: &mut Lent<u8>, null: bool) -> Answer<3> {
    let lens = (events.part().len(), out.part().len());
    let (events, out) = (input(events, null), output(out, null));
    answered(|answer| unsafe { c::tolphaneap_list(mode, events, lens.0, out, lens.1, answer) })
}

pub fn page(
    mode: u64,
    parsed: &[u64; 4],
    events: &Lent<u32>,
    out: &mut Lent<u8>,
    null: bool,
) -> Answer<3> {
    let lens = (events.part().len(), out.part().len());
    let (events, out) = (input(events, null), output(out, null));
    answered(|answer| unsafe {
        c::tolphaneap_page(mode, parsed.as_ptr(), events, lens.0, out, lens.1, answer)
    })
}
