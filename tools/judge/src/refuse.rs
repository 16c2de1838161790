//! Counts looks and refuses blocks and events: what the edited copy of block.rs calls.

use std::cell::RefCell;
use std::panic::{catch_unwind, resume_unwind, AssertUnwindSafe};

/// A heading has at most this many marks.
const MAX_MARKS: usize = 65_535;

/// What a parse may use, and whether raw code is read as the Rust does or by I7.
#[derive(Clone, Copy)]
pub struct Limits {
    pub nesting: usize,
    pub sections: usize,
    pub events: usize,
    pub rust_raw: bool,
}

impl Limits {
    pub const NONE: Limits = Limits {
        nesting: usize::MAX,
        sections: usize::MAX,
        events: usize::MAX,
        rust_raw: true,
    };
}

#[derive(Clone, Copy, Debug, PartialEq, Eq)]
pub struct Refusal {
    pub number: u8,
    pub position: usize,
}

/// What was counted in one run.
#[derive(Clone, Copy, Default)]
pub struct Counts {
    pub looks: u64,
    /// Most containers open at once.
    pub deepest: usize,
    /// Most events held at once, rows later dropped included.
    pub peak: usize,
    /// A code block was met that the Rust may read otherwise than I7 says.
    pub raw_met: bool,
}

struct Meter {
    limits: Limits,
    counts: Counts,
    /// Marker start of each unfinished block, and whether it is a container.
    unfinished: Vec<(usize, bool)>,
    containers: usize,
    /// Position outside all blocks: 0, or the text's length in the final closings.
    outside: usize,
}

thread_local! {
    static METER: RefCell<Meter> = const { RefCell::new(Meter {
        limits: Limits::NONE,
        counts: Counts { looks: 0, deepest: 0, peak: 0, raw_met: false },
        unfinished: Vec::new(),
        containers: 0,
        outside: 0,
    }) };
}

fn with_meter<T>(f: impl FnOnce(&mut Meter) -> T) -> T {
    METER.with(|meter| f(&mut meter.borrow_mut()))
}

/// Runs `f` within the limits. A panic that is no refusal goes on as a panic.
pub fn metered<T>(limits: Limits, f: impl FnOnce() -> T) -> (Result<T, Refusal>, Counts) {
    with_meter(|m| {
        m.limits = limits;
        m.counts = Counts::default();
        m.unfinished.clear();
        m.containers = 0;
        m.outside = 0;
    });
    let result = catch_unwind(AssertUnwindSafe(f)).map_err(|payload| {
        *payload
            .downcast::<Refusal>()
            .unwrap_or_else(|other| resume_unwind(other))
    });
    (result, with_meter(|m| m.counts))
}

/// Leaves the parse. Unwinding this way prints nothing, unlike a panic.
fn refuse(number: u8) -> ! {
    let position = with_meter(|m| m.unfinished.last().map_or(m.outside, |block| block.0));
    resume_unwind(Box::new(Refusal { number, position }))
}

/// Counts one line tested once.
pub fn look() {
    with_meter(|m| m.counts.looks += 1);
}

/// A block has been measured. `marks` is a heading's level, else 0; `sections` is how many
/// would be open with it.
pub fn meet(marker: usize, container: bool, marks: usize, sections: usize) {
    let too_deep = with_meter(|m| {
        let too_deep = container && m.containers >= m.limits.nesting;
        m.unfinished.push((marker, container));
        m.containers += usize::from(container);
        m.counts.deepest = m.counts.deepest.max(m.containers);
        too_deep
    });
    if marks > MAX_MARKS {
        refuse(5);
    }
    if too_deep {
        refuse(3);
    }
    if sections > with_meter(|m| m.limits.sections) {
        refuse(4);
    }
}

/// The block met last is finished.
pub fn finish() {
    with_meter(|m| {
        let (_, container) = m.unfinished.pop().expect("a block was met");
        m.containers -= usize::from(container);
    });
}

/// All blocks are finished, only closings follow.
pub fn close(len: usize) {
    with_meter(|m| m.outside = len);
}

/// Hands back the events if there is room for one more.
pub fn room<T>(events: &mut Vec<T>) -> &mut Vec<T> {
    let full = with_meter(|m| {
        m.counts.peak = m.counts.peak.max(events.len() + 1);
        events.len() >= m.limits.events
    });
    if full {
        refuse(6);
    }
    events
}

/// Whether a raw block loses the whitespace at its end.
pub fn trims_raw(raw: bool) -> bool {
    with_meter(|m| {
        m.counts.raw_met |= raw;
        raw && m.limits.rust_raw
    })
}
