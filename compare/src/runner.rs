//! The runner: holds the planners against each other on random slips and counts the differences.

use std::collections::BTreeMap;
use std::fmt;
use std::time::Instant;

use crate::cases::Case;
use crate::fast::search::Pace;
use crate::random::Random;
use crate::{fast, library, literal};

/// What to run.
pub struct Run {
    pub seed: u64,
    pub cases: u64,
    /// Only the case with this number.
    pub only: Option<u64>,
    pub with_library: bool,
}

/// The literal planner goes through all sets of jobs and all their parts. It is asked where these are no
/// more than this, times the looks granted.
const MOST_LITERAL_WORK: u64 = 3_000_000;

/// The bytes around a buffer that no call may touch.
const GUARD: usize = 32;

/// A planner by the call for C.
#[derive(Clone, Copy, PartialEq, Eq, PartialOrd, Ord, Debug)]
pub enum Planner {
    Literal,
    FastSwift,
    FastRounds,
    Library,
}

/// The fast planner at both paces; the second is slower, and asked in every other case.
const PACES: [Planner; 2] = [Planner::FastSwift, Planner::FastRounds];

/// What a planner answered, the looks it made if it tells them, and its buffer with the guards.
#[derive(Clone, PartialEq, Eq, Debug)]
struct Reply {
    answer: u32,
    looks: Option<u32>,
    buffer: Vec<u8>,
}

impl Planner {
    /// Calls a planner with a buffer that lies between guards, all of it filled with given bytes.
    fn call(self, slip: &[u8], looks: u32, filling: &[u8]) -> Reply {
        let mut buffer = filling.to_vec();
        let inner = GUARD..filling.len() - GUARD;
        let room = &mut buffer[inner];
        let (answer, made) = match self {
            Planner::Literal => told(literal::call::plan(slip, looks, room)),
            Planner::FastSwift => told(fast::plan(slip, looks, room, Pace::Swift)),
            Planner::FastRounds => told(fast::plan(slip, looks, room, Pace::Rounds)),
            // A copy of just the slip's length, so that valgrind sees a read past its end.
            Planner::Library => (library::plan(&Box::<[u8]>::from(slip), looks, room), None),
        };
        Reply { answer, looks: made, buffer }
    }
}

fn told((answer, looks): (u32, u32)) -> (u32, Option<u32>) {
    (answer, Some(looks))
}

/// Two replies that should be the same and are not.
struct Difference {
    looks: u32,
    reference: (Planner, Reply),
    other: (Planner, Reply),
}

impl fmt::Display for Difference {
    fn fmt(&self, f: &mut fmt::Formatter) -> fmt::Result {
        writeln!(f, "looks granted: {}", self.looks)?;
        for (planner, reply) in [&self.reference, &self.other] {
            let (before, rest) = reply.buffer.split_at(GUARD);
            let (room, after) = rest.split_at(rest.len() - GUARD);
            writeln!(
                f,
                "{planner:?}: answer {}, looks made {:?}, buffer {room:?}",
                reply.answer, reply.looks
            )?;
            writeln!(f, "    bytes before it {before:?}, after it {after:?}")?;
        }
        Ok(())
    }
}

/// What a run has come to.
#[derive(Default)]
struct Tally {
    cases: u64,
    calls: u64,
    differences: u64,
    asked: BTreeMap<Planner, u64>,
    answers: BTreeMap<u32, u64>,
    /// How many cases were found, and how many impossible, after 1, 2 to 9, 10 to 99, and more looks.
    settled: [[u64; 4]; 2],
    looks: u64,
}

/// Runs the comparison; answers whether there was no difference.
pub fn run(run: &Run) -> bool {
    let began = Instant::now();
    let mut tally = Tally::default();
    let numbers = run.only.map_or(0..run.cases, |number| number..number + 1);
    for number in numbers {
        let case = Case::numbered(run.seed, number);
        let mut random = Random::of_case(!run.seed, number);
        tally.cases += 1;
        if let Err(difference) = compare(&case, &mut random, run.with_library, &mut tally) {
            tally.differences += 1;
            if tally.differences == 1 {
                show(run.seed, number, &case, &difference);
            }
        }
    }
    tally.print(run, began.elapsed().as_secs_f64());
    tally.differences == 0
}

/// Holds all planners against the reference in one case.
fn compare(
    case: &Case,
    random: &mut Random,
    with_library: bool,
    tally: &mut Tally,
) -> Result<(), Difference> {
    let filling: Vec<u8> = (0..case.buffer + 2 * GUARD).map(|_| random.byte()).collect();
    let reference = reference_for(case);
    let expected = tally.ask(reference, case, case.looks, &filling);
    tally.note(&expected);

    let others = if random.once_in(2) { &PACES[..] } else { &PACES[..1] };
    for &other in others {
        if other != reference {
            let reply = tally.ask(other, case, case.looks, &filling);
            same(case.looks, (reference, &expected), (other, reply))?;
        }
    }
    if with_library {
        for (looks, expected) in grants(case, &expected, &filling, random) {
            let reply = tally.ask(Planner::Library, case, looks, &filling);
            let silent = Reply { looks: None, ..expected };
            same(looks, (reference, &silent), (Planner::Library, reply))?;
        }
    }
    Ok(())
}

/// The grants of looks that the library is tried with, and the reply that each should have.
///
/// The library does not tell its looks. So where the reference settles a case in n looks, the library has
/// to settle it with n and to leave it open with n − 1; where it is open, it has to be so with fewer too.
fn grants(case: &Case, expected: &Reply, filling: &[u8], random: &mut Random) -> Vec<(u32, Reply)> {
    let mut grants = vec![(case.looks, expected.clone())];
    let open = Reply { answer: 0, looks: None, buffer: filling.to_vec() };
    let made = expected.looks.expect("the reference tells its looks");
    match expected.answer {
        0 if made > 1 => grants.push((random.between(1, made - 1), open)),
        1 | 2 => {
            grants.push((made, expected.clone()));
            grants.push((1_000_000, expected.clone()));
            if made > 1 {
                grants.push((made - 1, open.clone()));
            }
            if made > 2 {
                grants.push((random.between(1, made - 2), open));
            }
        }
        _ => {}
    }
    grants
}

fn same(looks: u32, reference: (Planner, &Reply), other: (Planner, Reply)) -> Result<(), Difference> {
    if *reference.1 == other.1 {
        return Ok(());
    }
    Err(Difference { looks, reference: (reference.0, reference.1.clone()), other })
}

/// The literal planner where its brute force is bearable, else the fast one in the rounds of the definition.
fn reference_for(case: &Case) -> Planner {
    let parts = literal::call::parts(&case.slip);
    let work = u64::from(case.looks.min(1_000)).saturating_mul(parts);
    if work > MOST_LITERAL_WORK { Planner::FastRounds } else { Planner::Literal }
}

impl Tally {
    fn ask(&mut self, planner: Planner, case: &Case, looks: u32, filling: &[u8]) -> Reply {
        self.calls += 1;
        *self.asked.entry(planner).or_default() += 1;
        planner.call(&case.slip, looks, filling)
    }

    /// Counts the reference's answer; faults by their number and the refusal inside.
    fn note(&mut self, expected: &Reply) {
        let kind = match expected.answer {
            fault if fault >= 20 => fault % 100 + fault / 1_000_000 * 100,
            answer => answer,
        };
        *self.answers.entry(kind).or_default() += 1;
        let looks = expected.looks.unwrap_or(0);
        self.looks += u64::from(looks);
        if expected.answer == 1 || expected.answer == 2 {
            self.settled[expected.answer as usize - 1][rank_of(looks)] += 1;
        }
    }

    fn print(&self, run: &Run, seconds: f64) {
        println!(
            "seed {}: {} cases, {} calls, {} looks of the references, {seconds:.0} s",
            run.seed, self.cases, self.calls, self.looks
        );
        for (planner, count) in &self.asked {
            println!("  calls of {planner:?}: {count}");
        }
        for (kind, count) in &self.answers {
            println!("  {}: {count}", name_of(*kind));
        }
        for (word, [one, few, tens, more]) in ["found", "impossible"].into_iter().zip(self.settled) {
            println!("  {word} after 1 look: {one}, 2 to 9: {few}, 10 to 99: {tens}, more: {more}");
        }
        if !run.with_library {
            println!(
                "without the library: only the literal and the fast planner were held against each other"
            );
        }
        println!("differences: {}", self.differences);
    }
}

fn rank_of(looks: u32) -> usize {
    match looks {
        0..=1 => 0,
        2..=9 => 1,
        10..=99 => 2,
        _ => 3,
    }
}

/// An answer in words.
fn name_of(kind: u32) -> String {
    match kind {
        0 => "open".into(),
        1 => "found".into(),
        2 => "impossible".into(),
        11 | 14 => format!("refused with {kind}"),
        _ if kind >= 100 => format!("fault {} with {} inside", kind % 100, kind / 100),
        _ => format!("fault {kind}"),
    }
}

/// Shows the first differing slip.
fn show(seed: u64, number: u64, case: &Case, difference: &Difference) {
    println!("case {number} of seed {seed} differs (run again with --seed {seed} --only {number})");
    println!("buffer of {} bytes; slip of {} bytes:", case.buffer, case.slip.len());
    println!("{}", case.slip.escape_ascii().to_string().replace("\\n", "\\n\n"));
    print!("{difference}");
}
