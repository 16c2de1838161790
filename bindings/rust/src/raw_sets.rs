//! The functions of the sets' archive with slices. All unsafe code on sets is here.
//!
//! Each call hands over whole slices that live as long as it. Rust's slices are aligned, and one that is written to overlaps no
//! other, which is all that the header asks for; an empty slice's pointer is not looked at.

/// What each answers: number, position, count.
pub type Three = [u64; 3];

#[path = "c_sets.rs"]
mod c;

pub fn read(bytes: &[u8], elements: &mut [u64], pieces: &mut [u64]) -> Three {
    let mut answer = [0; 3];
    // SAFETY: see above.
    unsafe {
        c::tolphaneap_set_read(
            bytes.as_ptr(),
            bytes.len(),
            elements.as_mut_ptr(),
            elements.len(),
            pieces.as_mut_ptr(),
            pieces.len(),
            answer.as_mut_ptr(),
        );
    }
    answer
}

pub fn value(bytes: &[u8], key: &[u8], elements: &mut [u64], pieces: &mut [u64]) -> Three {
    let mut answer = [0; 3];
    // SAFETY: see above.
    unsafe {
        c::tolphaneap_set_value(
            bytes.as_ptr(),
            bytes.len(),
            key.as_ptr(),
            key.len(),
            elements.as_mut_ptr(),
            elements.len(),
            pieces.as_mut_ptr(),
            pieces.len(),
            answer.as_mut_ptr(),
        );
    }
    answer
}

pub fn pairs(
    bytes: &[u8],
    elements: &mut [u64],
    pieces: &mut [u64],
    places: &mut [u64],
    spare: &mut [u64],
) -> Three {
    let mut answer = [0; 3];
    // SAFETY: see above.
    unsafe {
        c::tolphaneap_set_pairs(
            bytes.as_ptr(),
            bytes.len(),
            elements.as_mut_ptr(),
            elements.len(),
            pieces.as_mut_ptr(),
            pieces.len(),
            places.as_mut_ptr(),
            places.len(),
            spare.as_mut_ptr(),
            spare.len(),
            answer.as_mut_ptr(),
        );
    }
    answer
}

pub fn join(
    bytes: &[u8],
    key: &[u8],
    elements: &mut [u64],
    pieces: &mut [u64],
    out: &mut [u8],
) -> Three {
    let mut answer = [0; 3];
    // SAFETY: see above.
    unsafe {
        c::tolphaneap_set_join(
            bytes.as_ptr(),
            bytes.len(),
            key.as_ptr(),
            key.len(),
            elements.as_mut_ptr(),
            elements.len(),
            pieces.as_mut_ptr(),
            pieces.len(),
            out.as_mut_ptr(),
            out.len(),
            answer.as_mut_ptr(),
        );
    }
    answer
}

pub fn text(
    bytes: &[u8],
    place: usize,
    elements: &mut [u64],
    pieces: &mut [u64],
    out: &mut [u8],
) -> Three {
    let mut answer = [0; 3];
    // SAFETY: see above.
    unsafe {
        c::tolphaneap_set_text(
            bytes.as_ptr(),
            bytes.len(),
            place,
            elements.as_mut_ptr(),
            elements.len(),
            pieces.as_mut_ptr(),
            pieces.len(),
            out.as_mut_ptr(),
            out.len(),
            answer.as_mut_ptr(),
        );
    }
    answer
}
