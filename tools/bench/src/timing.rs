//! The shortest of several times, and memory fresh from the system.

use std::ffi::c_void;
use std::hint::black_box;

/// The shortest time so far, in nanoseconds.
#[derive(Clone, Copy)]
pub struct Best(pub f64);

impl Best {
    pub const NONE: Best = Best(f64::MAX);

    /// Times one call. Its answer is dropped within the time, as the Rust's vectors are.
    pub fn time<T>(&mut self, call: impl FnOnce() -> T) {
        let start = now();
        drop(black_box(call()));
        self.0 = self.0.min((now() - start) as f64);
    }

    /// Megabytes a second, for so many bytes. Bytes a nanosecond are gigabytes a second.
    pub fn rate(&self, bytes: usize) -> f64 {
        bytes as f64 / self.0 * 1000.0
    }
}

/// Nanoseconds that this thread had a processor. Nothing here waits, so on an idle machine this is
/// the time that passes; on a busy one the turns of other programs are not counted.
fn now() -> i64 {
    const THREAD_CPUTIME: i32 = 3; // Linux
    let mut time = [0; 2];
    let failed = unsafe { clock_gettime(THREAD_CPUTIME, time.as_mut_ptr()) };
    assert_eq!(failed, 0, "no clock");
    time[0] * 1_000_000_000 + time[1]
}

extern "C" {
    fn clock_gettime(clock: i32, time: *mut i64) -> i32;
    fn mmap(
        at: *mut c_void,
        len: usize,
        protection: i32,
        flags: i32,
        file: i32,
        offset: i64,
    ) -> *mut c_void;
    fn munmap(at: *mut c_void, len: usize) -> i32;
}

/// Zero words straight from the system, no page of them touched. An allocator may hand out used
/// memory that it clears.
pub struct Fresh {
    start: *mut u32,
    words: usize,
}

impl Fresh {
    pub fn new(words: usize) -> Self {
        const READ_WRITE: i32 = 3;
        const PRIVATE_ANONYMOUS: i32 = 0x22; // Linux
        let bytes = words * size_of::<u32>();
        let start = unsafe {
            mmap(
                std::ptr::null_mut(),
                bytes,
                READ_WRITE,
                PRIVATE_ANONYMOUS,
                -1,
                0,
            )
        };
        assert!(start as isize != -1, "no {bytes} bytes to be had");
        Self {
            start: start.cast(),
            words,
        }
    }

    pub fn words(&mut self) -> &mut [u32] {
        unsafe { std::slice::from_raw_parts_mut(self.start, self.words) }
    }
}

impl Drop for Fresh {
    fn drop(&mut self) {
        unsafe { munmap(self.start.cast(), self.words * size_of::<u32>()) };
    }
}
