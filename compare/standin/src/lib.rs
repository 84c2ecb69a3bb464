//! A stand-in for the product's library: the fast planner behind the same C call.
//!
//! It serves to try the comparison itself where the product's library is not there, and by mutants.sh to
//! show that the comparison notices planners that are wrong.
#![allow(dead_code)]

#[path = "../../src/fast/mod.rs"]
mod fast;

use fast::search::Pace;

/// The call for C.
///
/// # Safety
/// `slip` and `buffer` have as many bytes as told, and do not overlap.
#[unsafe(no_mangle)]
pub unsafe extern "C" fn riuvelde_plan(
    slip: *const u8,
    slip_len: usize,
    looks: u32,
    buffer: *mut u8,
    buffer_len: usize,
) -> u32 {
    // SAFETY: the caller keeps the conditions above.
    let (slip, buffer) = unsafe {
        (std::slice::from_raw_parts(slip, slip_len), std::slice::from_raw_parts_mut(buffer, buffer_len))
    };
    fast::plan(slip, looks, buffer, Pace::Rounds).0
}
