//! The fast planner: the same definitions, looks and answers as the literal one, written for speed.
//!
//! sheet.rs has the sheet and its calls, slip.rs the reader, station.rs the three rules at one station
//! in about n² steps, search.rs the search. There are no proofs here: tests hold it against literal/.
//!
//! The folder uses nothing of the literal planner, so that it can also be built alone (see standin/).

pub mod search;
pub mod sheet;
pub mod slip;
pub mod station;

use search::{Outcome, Pace, Search};

/// The most looks that one advance may be granted.
pub const LOOKS_AT_MOST: u32 = 1_000_000;

/// The call for C: the answer, and the looks made, which the call for C does not tell.
pub fn plan(slip: &[u8], looks: u32, buffer: &mut [u8], pace: Pace) -> (u32, u32) {
    let sheet = match slip::read(slip) {
        Err(fault) => return (fault.answer(), 0),
        Ok(sheet) => sheet,
    };
    if looks == 0 || looks > LOOKS_AT_MOST {
        return (11, 0);
    }
    let wanted = 2 * sheet.jobs().len();
    if buffer.len() < wanted {
        return (14, 0);
    }
    let mut search = Search::close(sheet, pace);
    let made = search.make_looks(looks);
    if search.outcome() == Outcome::Found {
        for (pair, start) in buffer[..wanted].chunks_exact_mut(2).zip(search.starts()) {
            pair.copy_from_slice(&(start as u16).to_le_bytes());
        }
    }
    (search.outcome() as u32, made)
}
