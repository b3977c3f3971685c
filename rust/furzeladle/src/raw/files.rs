//! A strict file's bytes.
use super::Refusal;
use crate::sys;

/// A strict file's bytes, checked alone: its row count. `kind` is 1 for fields and 2 for trim on the old card, 3 and 4
/// on the new one. No row goes with its refusal.
pub fn check(bytes: &[u8], kind: i32) -> Result<u32, Refusal> {
    // SAFETY: a reference to so many bytes, which are only read.
    let answer = unsafe { sys::furzeladle_check(bytes.as_ptr(), bytes.len(), kind) };
    u32::try_from(answer).map_err(|_| Refusal::of(answer))
}

/// A strict file's rows, read into the front of `out`, as many numbers each as their card has: the row count. What is
/// refused changes nothing.
pub fn load(bytes: &[u8], kind: i32, out: &mut [i32]) -> Result<u32, Refusal> {
    // SAFETY: references to so many bytes and numbers; the numbers are written, and nothing overlaps what is borrowed
    // for that.
    let answer = unsafe {
        sys::furzeladle_load(
            bytes.as_ptr(),
            bytes.len(),
            kind,
            out.as_mut_ptr(),
            out.len(),
        )
    };
    u32::try_from(answer).map_err(|_| Refusal::of(answer))
}
