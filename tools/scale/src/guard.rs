//! Shows the case at hand where a call crashes or does not return.

use crate::draw::Case;
use std::cell::Cell;
use std::ptr;
use std::sync::atomic::{AtomicPtr, AtomicU64, Ordering::Relaxed};

pub const MOST_THREADS: usize = 64;

const MOST_SHOWN: usize = 100_000;

/// The case that each thread is at, and its index.
static AT: [(AtomicPtr<Case>, AtomicU64); MOST_THREADS] =
    [const { (AtomicPtr::new(ptr::null_mut()), AtomicU64::new(0)) }; MOST_THREADS];

thread_local! {
    static SLOT: Cell<usize> = const { Cell::new(0) };
}

extern "C" {
    fn signal(number: i32, handler: extern "C" fn(i32)) -> usize;
    fn _exit(status: i32) -> !;
}

/// SIGILL, SIGBUS, SIGFPE, SIGSEGV.
const CRASHES: [i32; 4] = [4, 7, 8, 11];

extern "C" fn crashed(number: i32) {
    // The library holds no lock and allocates nothing, so printing from here is safe enough.
    show(SLOT.get(), &format!("signal {number}"));
    unsafe { _exit(1) }
}

pub fn watch() {
    for number in CRASHES {
        unsafe { signal(number, crashed) };
    }
}

pub fn enter(slot: usize) {
    SLOT.set(slot);
}

/// The thread goes to this case. It has to live until the next call or `leave`.
pub fn at(index: u64, case: &Case) {
    let (place, number) = &AT[SLOT.get()];
    number.store(index + 1, Relaxed);
    place.store(ptr::from_ref(case).cast_mut(), Relaxed);
}

pub fn leave() {
    let (place, number) = &AT[SLOT.get()];
    place.store(ptr::null_mut(), Relaxed);
    number.store(0, Relaxed);
}

/// Where each thread is; 0 for one that is at no case.
pub fn places() -> [u64; MOST_THREADS] {
    std::array::from_fn(|slot| AT[slot].1.load(Relaxed))
}

/// Shows the case of a thread that is stuck in it.
pub fn show(slot: usize, what: &str) {
    let (place, number) = &AT[slot];
    // The thread does not go on, so its case stays where it is.
    match unsafe { place.load(Relaxed).as_ref() } {
        None => eprintln!("scale: {what} at no case"),
        Some(case) => {
            let index = number.load(Relaxed) - 1;
            eprintln!("scale: {what} at index {index}\n{}", shown(case));
        }
    }
}

/// The case as `scale case` takes it; one that is too long to read only by its length.
pub fn shown(case: &Case) -> String {
    if case.data.len() > MOST_SHOWN {
        let (op, len) = (char::from(case.op), case.data.len());
        return format!("a case {op} of {len} bytes");
    }
    let (op, room, salt) = (char::from(case.op), case.room, case.salt);
    format!(
        "scale case {op} --room {room} --salt {salt} --data '{}'",
        escaped(&case.data)
    )
}

/// Bytes with the escapes that the judge's options undo; a quote too, for the shell.
fn escaped(bytes: &[u8]) -> String {
    let escape = |byte: &u8| match byte {
        b'\n' => "\\n".to_string(),
        b'\t' => "\\t".to_string(),
        b'\r' => "\\r".to_string(),
        b'\x0c' => "\\f".to_string(),
        b'\\' => "\\\\".to_string(),
        b' '..=b'~' if *byte != b'\'' => char::from(*byte).to_string(),
        _ => format!("\\x{byte:02x}"),
    };
    bytes.iter().map(escape).collect()
}
