//! The benchmark: time per look of the library and of the fast planner, on sheets with a known number of looks.

use std::hint::black_box;

use crate::fast::search::Pace;
use crate::ft06;
use crate::literal::sheet::Sheet;
use crate::literal::slip::text;
use crate::random::Random;
use crate::{cpu_time, fast, library};

/// A sheet to measure on. One call makes just `looks` looks, and answers `answer`.
pub struct Bench {
    pub name: &'static str,
    pub sheet: Sheet,
    pub looks: u32,
    pub answer: u32,
    /// How many calls one measurement makes.
    pub calls: u32,
}

const OPEN: u32 = 0;
const FOUND: u32 = 1;
const IMPOSSIBLE: u32 = 2;

/// The sheets.
pub fn benches() -> Vec<Bench> {
    vec![
        Bench { name: "ft06", sheet: ft06::sheet(55), looks: 25, answer: FOUND, calls: 200 },
        Bench { name: "ft06-like", sheet: shop(29, 6, 6, 10, 58), looks: 2_051, answer: FOUND, calls: 2 },
        Bench {
            name: "one-station",
            sheet: one_station(4, 48, 20, 20),
            looks: 3_000,
            answer: OPEN,
            calls: 1,
        },
        Bench {
            name: "eight-stations",
            sheet: shop(6, 6, 8, 99, 545),
            looks: 2_339,
            answer: FOUND,
            calls: 2,
        },
        Bench { name: "long-path", sheet: alike(48, 1, 40_000), looks: 769, answer: FOUND, calls: 4 },
        Bench { name: "circle", sheet: circle(6, 3, 20), looks: 1, answer: IMPOSSIBLE, calls: 1_000 },
        Bench { name: "slow-circle", sheet: circle(2, 1, 1), looks: 1, answer: IMPOSSIBLE, calls: 20 },
    ]
}

/// Orders that each pass every station once, in a sequence of their own.
fn shop(seed: u64, orders: u32, stations: u32, longest: u32, due: u32) -> Sheet {
    let mut random = Random::from_seed(seed);
    let mut sheet = Sheet::default();
    for _ in 0..orders {
        let mut route: Vec<u32> = (0..stations).collect();
        for k in (1..route.len()).rev() {
            route.swap(k, random.place(k + 1));
        }
        for (k, &station) in route.iter().enumerate() {
            let job =
                sheet.enter(station, random.between(1, longest), 0, due).expect("the job can be entered");
            if k > 0 {
                sheet.link(job - 1, job, 0).expect("the link can be entered");
            }
        }
    }
    sheet
}

/// Jobs at one station that just fill the time, each with a window around its turn.
fn one_station(seed: u64, count: u32, longest: u32, widest: u32) -> Sheet {
    let mut random = Random::from_seed(seed);
    let mut jobs = Vec::new();
    let mut start = 0;
    for _ in 0..count {
        let duration = random.between(1, longest);
        let release = start - random.up_to(widest).min(start);
        let due = start + duration + random.up_to(widest);
        jobs.push((duration, release, due));
        start += duration;
    }
    for k in (1..jobs.len()).rev() {
        jobs.swap(k, random.place(k + 1));
    }
    let mut sheet = Sheet::default();
    for (duration, release, due) in jobs {
        sheet.enter(0, duration, release, due).expect("the job can be entered");
    }
    sheet
}

/// Jobs at one station that are all alike.
fn alike(count: u32, duration: u32, due: u32) -> Sheet {
    let mut sheet = Sheet::default();
    for _ in 0..count {
        sheet.enter(0, duration, 0, due).expect("the job can be entered");
    }
    sheet
}

/// Jobs in a circle of links, with the widest windows.
fn circle(count: u32, stations: u32, duration: u32) -> Sheet {
    let mut sheet = Sheet::default();
    for k in 0..count {
        sheet.enter(k % stations, duration, 0, 40_000).expect("the job can be entered");
    }
    for k in 0..count {
        sheet.link(k, (k + 1) % count, 0).expect("the link can be entered");
    }
    sheet
}

/// What is measured.
#[derive(Clone, Copy, PartialEq, Eq)]
pub enum Measured {
    /// Nothing at all, to know what the program itself takes.
    Nothing,
    Library,
    FastSwift,
    FastRounds,
}

impl Measured {
    pub const ALL: [Measured; 4] =
        [Measured::Nothing, Measured::Library, Measured::FastSwift, Measured::FastRounds];

    pub fn name(self) -> &'static str {
        match self {
            Measured::Nothing => "nothing",
            Measured::Library => "library",
            Measured::FastSwift => "fast-swift",
            Measured::FastRounds => "fast-rounds",
        }
    }

    pub fn call(self, slip: &[u8], looks: u32, buffer: &mut [u8]) -> u32 {
        match self {
            Measured::Nothing => 0,
            Measured::Library => library::plan(slip, looks, buffer),
            Measured::FastSwift => fast::plan(slip, looks, buffer, Pace::Swift).0,
            Measured::FastRounds => fast::plan(slip, looks, buffer, Pace::Rounds).0,
        }
    }
}

impl Bench {
    /// Whether a planner makes the known number of looks: with them it answers as known, and with one
    /// less the search is open.
    fn holds(&self, planner: Measured, slip: &[u8]) -> bool {
        let mut buffer = [0; 96];
        planner.call(slip, self.looks, &mut buffer) == self.answer
            && (self.looks == 1 || planner.call(slip, self.looks - 1, &mut buffer) == OPEN)
    }

    /// Nanoseconds per look in one measurement.
    fn measure(&self, planner: Measured, slip: &[u8]) -> f64 {
        let mut buffer = [0; 96];
        let began = cpu_time::now();
        for _ in 0..self.calls {
            black_box(planner.call(black_box(slip), self.looks, black_box(&mut buffer)));
        }
        let spent = cpu_time::now() - began;
        spent.as_secs_f64() * 1e9 / f64::from(self.calls * self.looks)
    }
}

/// Measures all planners in turn, several times over, and prints the medians and their ratios.
/// Answers whether every planner made the known looks.
pub fn run(repetitions: u32, with_library: bool) -> bool {
    let planners = if with_library {
        vec![Measured::Library, Measured::FastSwift, Measured::FastRounds]
    } else {
        vec![Measured::FastSwift, Measured::FastRounds]
    };
    println!("nanoseconds of core time per look; median of {repetitions} measurements, planners in turn");
    print_row("sheet", "looks", planners.iter().map(|planner| planner.name().to_string()), with_library);
    let mut sound = true;
    for bench in benches() {
        let slip = text(&bench.sheet);
        if let Some(planner) = planners.iter().find(|planner| !bench.holds(**planner, &slip)) {
            println!("{}: {} does not make {} looks", bench.name, planner.name(), bench.looks);
            sound = false;
            continue;
        }
        let mut times = vec![Vec::new(); planners.len()];
        for _ in 0..repetitions {
            for (planner, times) in planners.iter().zip(&mut times) {
                times.push(bench.measure(*planner, &slip));
            }
        }
        print_times(&bench, &times.into_iter().map(median).collect::<Vec<f64>>(), with_library);
    }
    sound
}

fn print_times(bench: &Bench, medians: &[f64], with_library: bool) {
    let mut columns: Vec<String> = medians.iter().map(|time| format!("{time:.0}")).collect();
    if with_library {
        columns.push(format!("{:.2}", medians[0] / medians[1]));
        columns.push(format!("{:.2}", medians[0] / medians[2]));
    }
    print_row(bench.name, &(bench.looks * bench.calls).to_string(), columns.into_iter(), false);
}

fn print_row(name: &str, looks: &str, columns: impl Iterator<Item = String>, with_ratios: bool) {
    print!("{name:<16}{looks:>8}");
    for column in columns {
        print!("{column:>14}");
    }
    if with_ratios {
        print!("{:>14}{:>14}", "lib/swift", "lib/rounds");
    }
    println!();
}

fn median(mut times: Vec<f64>) -> f64 {
    times.sort_by(f64::total_cmp);
    times[times.len() / 2]
}

/// Makes some calls of one planner on one sheet, for tools that count from outside, and prints how much
/// of the stack was in use.
pub fn run_one(sheet: &str, planner: &str, calls: u32) -> Result<(), String> {
    let bench = benches().into_iter().find(|bench| bench.name == sheet).ok_or("no such sheet")?;
    let planner = Measured::ALL.into_iter().find(|known| known.name() == planner).ok_or("no such planner")?;
    let slip = text(&bench.sheet);
    let mut buffer = [0; 96];
    for _ in 0..calls {
        black_box(planner.call(black_box(&slip), bench.looks, black_box(&mut buffer)));
    }
    println!("looks {}", calls * bench.looks);
    println!("stack {} KiB", stack_in_use().unwrap_or(0));
    Ok(())
}

/// The KiB of the main thread's stack that were ever touched, as the system tells them.
fn stack_in_use() -> Option<u64> {
    let maps = std::fs::read_to_string("/proc/self/smaps").ok()?;
    let resident =
        maps.lines().skip_while(|line| !line.ends_with("[stack]")).find(|line| line.starts_with("Rss:"))?;
    resident.split_whitespace().nth(1)?.parse().ok()
}
