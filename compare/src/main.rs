//! The comparison program: see README.md for what it can do.

use std::process::ExitCode;

use comparison::{bench, ft06, library, plan, runner};

const USAGE: &str = "usage:
  compare compare [--cases N] [--seed S] [--only CASE] [--without-library]
  compare ft06 [--looks N] [--without-library]
  compare plan [--literal] < SLIP
  compare bench [--repetitions N] [--without-library]
  compare bench-one --sheet NAME --planner library|fast-swift|fast-rounds|nothing [--calls N]
  compare bench-sheets
";

/// The program's exit status where a comparison failed.
const DIFFERENT: u8 = 1;
/// The program's exit status where it was called wrongly or lacks what it needs.
const MISUSED: u8 = 2;

fn main() -> ExitCode {
    let words: Vec<String> = std::env::args().skip(1).collect();
    match run(&words) {
        Ok(true) => ExitCode::SUCCESS,
        Ok(false) => ExitCode::from(DIFFERENT),
        Err(message) => {
            eprintln!("{message}");
            ExitCode::from(MISUSED)
        }
    }
}

/// Runs one subcommand; answers whether all was as it should be.
fn run(words: &[String]) -> Result<bool, String> {
    let (command, rest) = words.split_first().ok_or(USAGE)?;
    let options = Options::of(rest)?;
    match command.as_str() {
        "compare" => {
            options.need_library()?;
            Ok(runner::run(&runner::Run {
                seed: options.number("--seed")?.unwrap_or(1),
                cases: options.number("--cases")?.unwrap_or(200_000),
                only: options.number("--only")?,
                with_library: !options.has("--without-library"),
            }))
        }
        "ft06" => {
            options.need_library()?;
            let looks = options.number("--looks")?.unwrap_or(100_000);
            Ok(ft06::run(looks as u32, !options.has("--without-library")))
        }
        "plan" => {
            plan::run(options.has("--literal")).map_err(|error| error.to_string())?;
            Ok(true)
        }
        "bench" => {
            options.need_library()?;
            let repetitions = options.number("--repetitions")?.unwrap_or(9);
            Ok(bench::run(repetitions as u32, !options.has("--without-library")))
        }
        "bench-one" => {
            let sheet = options.value("--sheet").ok_or("--sheet is missing")?;
            let planner = options.value("--planner").ok_or("--planner is missing")?;
            let calls = options.number("--calls")?.unwrap_or(1);
            bench::run_one(sheet, planner, calls as u32).map(|()| true)
        }
        "bench-sheets" => {
            bench::benches().iter().for_each(|bench| println!("{} {}", bench.name, bench.looks));
            Ok(true)
        }
        _ => Err(USAGE.into()),
    }
}

/// The words after a subcommand.
struct Options<'a> {
    words: &'a [String],
}

impl<'a> Options<'a> {
    const WITH_VALUE: [&'static str; 8] =
        ["--cases", "--seed", "--only", "--looks", "--repetitions", "--sheet", "--planner", "--calls"];
    const ALONE: [&'static str; 2] = ["--without-library", "--literal"];

    fn of(words: &'a [String]) -> Result<Options<'a>, String> {
        let mut left = words.iter();
        while let Some(word) = left.next() {
            if Options::WITH_VALUE.contains(&word.as_str()) {
                left.next().ok_or_else(|| format!("{word} wants a value"))?;
            } else if !Options::ALONE.contains(&word.as_str()) {
                return Err(format!("{word} is not known\n{USAGE}"));
            }
        }
        Ok(Options { words })
    }

    fn has(&self, name: &str) -> bool {
        self.words.iter().any(|word| word == name)
    }

    fn value(&self, name: &str) -> Option<&'a str> {
        let place = self.words.iter().position(|word| word == name)?;
        self.words.get(place + 1).map(String::as_str)
    }

    fn number(&self, name: &str) -> Result<Option<u64>, String> {
        self.value(name).map(|value| value.parse().map_err(|_| format!("{name} wants a number"))).transpose()
    }

    /// Without the library nothing is compared unless that is wanted.
    fn need_library(&self) -> Result<(), String> {
        if library::LINKED || self.has("--without-library") {
            return Ok(());
        }
        Err(format!("built without the library {}: build it, or give --without-library", library::FILE))
    }
}
