//! The program planslip of docs/slips.md, by the literal or the fast planner, to hold the product's against.

use std::io::{self, Read, Write};

use crate::fast::search::{Outcome as FastOutcome, Pace, Search};
use crate::literal::rules::house_pile;
use crate::literal::search::{Draft, Outcome};
use crate::{fast, literal};

/// The looks that planslip advances by.
const LOOKS: u32 = 100_000;
/// The bytes that planslip reads at most.
const READ_AT_MOST: u64 = 4_097;

/// Reads a slip on standard input and prints what planslip prints.
pub fn run(literally: bool) -> io::Result<()> {
    let mut slip = Vec::new();
    io::stdin().lock().take(READ_AT_MOST).read_to_end(&mut slip)?;
    let text = if literally { by_literal(&slip) } else { by_fast(&slip) };
    io::stdout().write_all(text.as_bytes())
}

fn by_literal(slip: &[u8]) -> String {
    let mut draft = Draft::new(house_pile());
    if let Err(fault) = literal::slip::read(&mut draft, slip) {
        return format!("fault {} {} {}\n", fault.number(), fault.line, fault.inside());
    }
    let sheet = draft.sheet.clone();
    let mut search = draft.close();
    let looks = search.advance(LOOKS).expect("so many looks may be granted");
    match search.outcome() {
        Outcome::Open => format!("open {looks}\n"),
        Outcome::Impossible => format!("impossible {looks}\n"),
        Outcome::Found(starts) => {
            let jobs =
                sheet.jobs.iter().zip(starts).map(|(job, &start)| (job.station, job.duration, start as u32));
            found(looks, jobs)
        }
    }
}

fn by_fast(slip: &[u8]) -> String {
    let sheet = match fast::slip::read(slip) {
        Err(fault) => return format!("fault {} {} {}\n", fault.number, fault.line, fault.inside),
        Ok(sheet) => sheet,
    };
    let jobs = sheet.jobs().to_vec();
    let mut search = Search::close(sheet, Pace::Swift);
    let looks = search.make_looks(LOOKS);
    match search.outcome() {
        FastOutcome::Open => format!("open {looks}\n"),
        FastOutcome::Impossible => format!("impossible {looks}\n"),
        FastOutcome::Found => {
            let jobs = jobs.iter().zip(search.starts());
            found(looks, jobs.map(|(job, start)| (job.station.into(), job.duration as u32, start as u32)))
        }
    }
}

/// The lines of a timetable: of each job its station, duration and start are given.
fn found(looks: u32, jobs: impl Iterator<Item = (u32, u32, u32)>) -> String {
    let mut text = format!("found {looks}\n");
    for (number, (station, duration, start)) in jobs.enumerate() {
        text += &format!("{number} {station} {start} {}\n", start + duration);
    }
    text
}
