//! The archive's functions with slices. All unsafe code is here.
//!
//! Each call hands over whole slices that live as long as it. Rust's slices are aligned, and one that is written to overlaps no
//! other, which is all that the header asks for; an empty slice's pointer is not looked at.

/// What a parse answers, and what those of records and listings do: number, position, count, and for a parse the looks.
pub type Four = [u64; 4];
pub type Three = [u64; 3];

/// What a comparison answers: number, position, which text, and the part's start and end.
pub type Five = [u64; 5];

/// A text and its events.
pub type Edition<'t> = (&'t [u8], &'t [u32]);

/// A function from one buffer to another.
type Mover<A, B> = unsafe extern "C" fn(*const A, usize, *mut B, usize, *mut u64);

#[path = "c.rs"]
mod c;

pub fn parse(text: &[u8], lines: &mut [u32], events: &mut [u32]) -> Four {
    let mut answer = [0; 4];
    // SAFETY: see above.
    unsafe {
        c::tolphaneap_parse(
            text.as_ptr(),
            text.len(),
            lines.as_mut_ptr(),
            lines.len(),
            events.as_mut_ptr(),
            events.len(),
            answer.as_mut_ptr(),
        );
    }
    answer
}

/// Calls one of the two functions below, whose declared types fit `from` and `to`.
fn moved<A, B>(function: Mover<A, B>, from: &[A], to: &mut [B]) -> Three {
    let mut answer = [0; 3];
    // SAFETY: see above.
    unsafe {
        function(
            from.as_ptr(),
            from.len(),
            to.as_mut_ptr(),
            to.len(),
            answer.as_mut_ptr(),
        );
    }
    answer
}

pub fn write(events: &[u32], bytes: &mut [u8]) -> Three {
    moved(c::tolphaneap_write, events, bytes)
}

pub fn read(bytes: &[u8], events: &mut [u32]) -> Three {
    moved(c::tolphaneap_read, bytes, events)
}

pub fn list(mode: u64, events: &[u32], out: &mut [u8]) -> Three {
    let mut answer = [0; 3];
    // SAFETY: see above.
    unsafe {
        c::tolphaneap_list(
            mode,
            events.as_ptr(),
            events.len(),
            out.as_mut_ptr(),
            out.len(),
            answer.as_mut_ptr(),
        );
    }
    answer
}

pub fn page(mode: u64, parsed: &Four, events: &[u32], out: &mut [u8]) -> Three {
    let mut answer = [0; 3];
    // SAFETY: see above.
    unsafe {
        c::tolphaneap_page(
            mode,
            parsed.as_ptr(),
            events.as_ptr(),
            events.len(),
            out.as_mut_ptr(),
            out.len(),
            answer.as_mut_ptr(),
        );
    }
    answer
}

pub fn changes(
    (older, older_events): Edition,
    (newer, newer_events): Edition,
    lines: &mut [u32],
    events: &mut [u32],
) -> Five {
    let mut answer = [0; 5];
    // SAFETY: see above.
    unsafe {
        c::tolphaneap_changes(
            older.as_ptr(),
            older.len(),
            older_events.as_ptr(),
            older_events.len(),
            newer.as_ptr(),
            newer.len(),
            newer_events.as_ptr(),
            newer_events.len(),
            lines.as_mut_ptr(),
            lines.len(),
            events.as_mut_ptr(),
            events.len(),
            answer.as_mut_ptr(),
        );
    }
    answer
}
