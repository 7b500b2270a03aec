//! The proved library, through the functions that `crates/bench` exports.

unsafe extern "C" {
    fn forms_clear(work: *mut u32, len: usize, at: usize, n: usize) -> bool;
    fn forms_insert(
        work: *mut u32,
        len: usize,
        at: usize,
        row: *mut u32,
        n: usize,
        changed: *mut usize,
        room: usize,
    ) -> usize;
    fn forms_tell(work: *const u32, len: usize, at: usize, n: usize, rows: *mut u32, room: usize) -> usize;
}

/// The largest number stands for a refusal.
fn count(number: usize) -> Option<usize> {
    if number == usize::MAX { None } else { Some(number) }
}

pub fn clear(work: &mut [u32], at: usize, n: usize) -> bool {
    // SAFETY: the slice is passed as its pointer and length
    unsafe { forms_clear(work.as_mut_ptr(), work.len(), at, n) }
}

pub fn insert(work: &mut [u32], at: usize, row: &mut [u32], changed: &mut [usize]) -> Option<usize> {
    // SAFETY: the slices are passed as their pointers and lengths, and do not overlap
    count(unsafe {
        forms_insert(
            work.as_mut_ptr(),
            work.len(),
            at,
            row.as_mut_ptr(),
            row.len(),
            changed.as_mut_ptr(),
            changed.len(),
        )
    })
}

pub fn tell(work: &[u32], at: usize, n: usize, rows: &mut [u32]) -> Option<usize> {
    // SAFETY: the slices are passed as their pointers and lengths, and do not overlap
    count(unsafe { forms_tell(work.as_ptr(), work.len(), at, n, rows.as_mut_ptr(), rows.len()) })
}
