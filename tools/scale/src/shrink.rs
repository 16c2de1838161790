//! Makes a case that differs smaller, as long as it still does.

use crate::check::{Desk, Difference};
use crate::draw::Case;
use std::any::Any;
use std::panic::{catch_unwind, AssertUnwindSafe};
use std::time::{Duration, Instant};

/// Smaller cases are tried for so long.
const LONGEST: Duration = Duration::from_secs(30);

fn said(payload: &(dyn Any + Send)) -> String {
    let text = payload.downcast_ref::<&str>().map(|text| text.to_string());
    let text = text.or_else(|| payload.downcast_ref::<String>().cloned());
    text.unwrap_or_else(|| "a panic".to_string())
}

/// How the case differs, if it does. A panic of the Rust or of the judge's own assertions counts as a difference.
pub fn difference(desk: &mut Desk, case: &Case) -> Option<Box<Difference>> {
    match catch_unwind(AssertUnwindSafe(|| desk.check(case))) {
        Ok(outcome) => outcome.err(),
        Err(payload) => Some(Box::new(Difference {
            call: "the judge".to_string(),
            expected: "an answer".to_string(),
            came: format!("a panic: {}", said(&*payload)),
        })),
    }
}

/// A smallest case that differs, if the time is enough: no piece can be left out any more.
pub fn smallest(desk: &mut Desk, mut case: Case) -> Case {
    // Words are left out by whole events.
    let grain = if case.op == b'w' { 32 } else { 1 };
    let mut piece = (case.data.len() / grain / 2).max(1) * grain;
    let start = Instant::now();
    loop {
        let (mut at, mut smaller) = (0, false);
        while at < case.data.len() && start.elapsed() < LONGEST {
            let mut data = case.data.clone();
            drop(data.drain(at..data.len().min(at + piece)));
            let less = Case {
                data,
                ..case.clone()
            };
            if difference(desk, &less).is_some() {
                (case, smaller) = (less, true);
            } else {
                at += piece;
            }
        }
        if !smaller && piece == grain || start.elapsed() >= LONGEST {
            return case;
        }
        if !smaller {
            piece = (piece / grain / 2).max(1) * grain;
        }
    }
}
