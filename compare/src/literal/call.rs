//! The call for C of docs/c-call.md: its answer as one number, and the starts in its buffer.

use super::rules::{HousePile, house_pile};
use super::search::{Draft, Outcome, Search};
use super::sheet::{LAST_STATION, Refusal};
use super::slip::{self, Fault};

/// The function over slip bytes, granted looks and a buffer, with the house pile.
/// With the answer it tells the looks made, which the call for C does not.
pub fn plan(slip: &[u8], looks: u32, buffer: &mut [u8]) -> (u32, u32) {
    let search = match search_of(slip) {
        Err(fault) => return (fault_answer(fault), 0),
        Ok(search) => search,
    };
    match settle(search, looks, buffer) {
        Err(refusal) => (refusal.number(), 0),
        Ok(answer_and_looks) => answer_and_looks,
    }
}

/// The closed search of a slip.
fn search_of(bytes: &[u8]) -> Result<(usize, Search<HousePile>), Fault> {
    let mut draft = Draft::new(house_pile());
    slip::read(&mut draft, bytes)?;
    Ok((draft.sheet.jobs.len(), draft.close()))
}

/// The slip is tested already; then comes 11, then 14.
fn settle(
    (jobs, mut search): (usize, Search<HousePile>),
    looks: u32,
    buffer: &mut [u8],
) -> Result<(u32, u32), Refusal> {
    if looks == 0 || looks > super::search::LOOKS_AT_MOST {
        return Err(Refusal::BadLooks);
    }
    if buffer.len() < 2 * jobs {
        return Err(Refusal::ShortBuffer);
    }
    let made = search.advance(looks)?;
    if let Outcome::Found(starts) = search.outcome() {
        for (job, start) in starts.iter().enumerate() {
            buffer[2 * job] = (start % 256) as u8;
            buffer[2 * job + 1] = (start / 256) as u8;
        }
    }
    Ok((search.outcome().number(), made))
}

/// number + 100 × line + 1,000,000 × inside.
fn fault_answer(fault: Fault) -> u32 {
    fault.number() + 100 * fault.line + 1_000_000 * fault.inside()
}

/// How many parts all sets of jobs at all stations of a slip have, which tells how long the brute force
/// will take; 0 where the slip is faulty.
pub fn parts(bytes: &[u8]) -> u64 {
    let mut draft = Draft::new(house_pile());
    if slip::read(&mut draft, bytes).is_err() {
        return 0;
    }
    let count = |station| draft.sheet.jobs.iter().filter(|job| job.station == station).count() as u32;
    (0..=LAST_STATION).map(|station| 3u64.saturating_pow(count(station))).fold(0, u64::saturating_add)
}
