//! Writing, reading and listing a text's events, timed beside a copy of what each gives.

use crate::case::{Case, MEGABYTE, SIZES};
use crate::ours::{self, ENTRY_BYTES, EVENT_WORDS, FULL, RECORD_BYTES};
use crate::texts::Text;
use crate::timing::Best;
use std::hint::black_box;

/// What was asked, the bytes it takes and the bytes it gives; its best time and that of the copy.
struct Row {
    what: &'static str,
    input: usize,
    output: usize,
    call: Best,
    copy: Best,
}

impl Row {
    fn new<T>(what: &'static str, input: usize, output: &[T]) -> Self {
        let output = size_of_val(output);
        let (call, copy) = (Best::NONE, Best::NONE);
        Row {
            what,
            input,
            output,
            call,
            copy,
        }
    }

    fn print(&self, name: &str) {
        let [input, output] = [self.input, self.output].map(|n| n as f64 / MEGABYTE as f64);
        let [read, given] = [self.input, self.output].map(|bytes| self.call.rate(bytes));
        let (what, copied) = (self.what, self.copy.rate(self.output));
        let times = copied / given;
        println!("| {name} | {what} | {input:.1} | {output:.1} | {read:.0} | {given:.0} | {copied:.0} | {times:.1} |");
    }
}

/// Copies as long as the output, into it: the same bytes, so that the next call finds them.
fn copy<T: Copy>(best: &mut Best, from: &[T], to: &mut [T]) {
    best.time(|| black_box(to).copy_from_slice(black_box(from)));
}

/// Keeps what was written, once the answer says that all went well and everything was taken.
fn keep<T>(buffer: &mut Vec<T>, answer: [u64; 3], taken: usize, each: usize) {
    assert_eq!(answer[..2], [0, taken as u64], "refusal and position");
    buffer.truncate(each * answer[2] as usize);
}

/// Prints a line for each function. Every buffer is written before the first timed call.
pub fn print(text: &Text, runs: usize) {
    let case = Case::new(text, SIZES[1], 1);
    let (events, count) = (case.words(), case.events);
    let mut stream = vec![1; RECORD_BYTES * count];
    let answer = ours::write(events, &mut stream);
    keep(&mut stream, answer, count, 1);
    let mut again = vec![1; events.len()];
    let answer = ours::read(&stream, &mut again);
    keep(&mut again, answer, stream.len(), EVENT_WORDS);
    let live = events
        .chunks_exact(EVENT_WORDS)
        .filter(|event| event[0] != 0);
    assert!(live.flatten().eq(&again), "other events than were written");
    let mut listing = vec![1; ENTRY_BYTES * count];
    let answer = ours::list(FULL, events, &mut listing);
    keep(&mut listing, answer, count, 1);

    let mut written = Row::new("records written", size_of_val(events), &stream);
    let mut read = Row::new("records read", stream.len(), &again);
    let mut listed = Row::new("listing written", size_of_val(events), &listing);
    let kept = (stream.clone(), again.clone(), listing.clone());
    for _ in 0..runs {
        written.call.time(|| ours::write(events, &mut stream));
        copy(&mut written.copy, &kept.0, &mut stream);
        read.call.time(|| ours::read(&stream, &mut again));
        copy(&mut read.copy, &kept.1, &mut again);
        listed.call.time(|| ours::list(FULL, events, &mut listing));
        copy(&mut listed.copy, &kept.2, &mut listing);
    }
    for row in [written, read, listed] {
        row.print(text.name);
    }
}
