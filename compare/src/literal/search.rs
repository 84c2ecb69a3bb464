//! The draft and the search of docs/search.md.

use super::rules::{Cut, Rule, Standstill, Window};
use super::sheet::{Refusal, Sheet};

/// The most looks that one advance may be granted.
pub const LOOKS_AT_MOST: u32 = 1_000_000;
/// The path never passes this many decisions.
pub const DECISIONS_AT_MOST: usize = 768;

/// A sheet and a pile of rules.
pub struct Draft<R> {
    pub sheet: Sheet,
    pile: R,
}

impl<R: Rule> Draft<R> {
    /// A fresh draft, with an empty sheet.
    pub fn new(pile: R) -> Draft<R> {
        Draft { sheet: Sheet::default(), pile }
    }

    /// Empties the sheet; the pile stays.
    pub fn empty(&mut self) {
        self.sheet = Sheet::default();
    }

    /// Turns the draft into a search.
    pub fn close(self) -> Search<R> {
        Search { sheet: self.sheet, pile: Standstill(self.pile), outcome: Outcome::Open, path: Vec::new() }
    }
}

/// Open, found with each job's start, or impossible.
#[derive(Clone, PartialEq, Eq, Debug)]
pub enum Outcome {
    Open,
    Found(Vec<i64>),
    Impossible,
}

impl Outcome {
    /// The number of the outcome.
    pub fn number(&self) -> u32 {
        match self {
            Outcome::Open => 0,
            Outcome::Found(_) => 1,
            Outcome::Impossible => 2,
        }
    }
}

#[derive(Clone, Copy, PartialEq, Eq, Debug)]
enum Part {
    First,
    Second,
}

/// A job, its window and a middle minute, on the window's first part or on its second.
#[derive(Clone, Debug)]
struct Decision {
    job: usize,
    window: Window,
    middle: i64,
    part: Part,
}

impl Decision {
    /// The part of the window that the decision is on.
    fn chosen(&self) -> Window {
        match self.part {
            Part::First => Window { lo: self.window.lo, hi: self.middle },
            Part::Second => Window { lo: self.middle + 1, hi: self.window.hi },
        }
    }
}

/// The sheet, an outcome and a path of decisions. The pile is kept as its standstill.
pub struct Search<R> {
    sheet: Sheet,
    pile: Standstill<R>,
    outcome: Outcome,
    path: Vec<Decision>,
}

impl<R: Rule> Search<R> {
    /// Turns the search into a draft with the sheet as it was closed.
    pub fn reopen(self) -> Draft<R> {
        Draft { sheet: self.sheet, pile: self.pile.0 }
    }

    /// Makes looks until the search is settled or the granted looks are made; answers the looks made.
    /// The outcome is then that of `outcome`.
    pub fn advance(&mut self, granted: u32) -> Result<u32, Refusal> {
        if granted == 0 || granted > LOOKS_AT_MOST {
            return Err(Refusal::BadLooks);
        }
        let mut made = 0;
        while self.outcome == Outcome::Open && made < granted {
            self.look();
            made += 1;
        }
        Ok(made)
    }

    /// The outcome as it stands.
    pub fn outcome(&self) -> &Outcome {
        &self.outcome
    }

    /// The start of one job.
    pub fn start(&self, job: u32) -> Result<u32, Refusal> {
        if !self.sheet.has_job(job) {
            return Err(Refusal::NoSuchJob);
        }
        match &self.outcome {
            Outcome::Found(starts) => Ok(starts[job as usize] as u32),
            _ => Err(Refusal::NotFound),
        }
    }

    /// How many decisions are on the path.
    pub fn path_length(&self) -> usize {
        self.path.len()
    }

    /// One look.
    fn look(&mut self) {
        match self.pile.cut(&self.sheet, &self.windows_of_path()) {
            Cut::Dead => self.turn_back(),
            Cut::To(windows) => match narrowest_above_one_start(&windows) {
                None => self.outcome = Outcome::Found(windows.iter().map(|w| w.lo).collect()),
                Some(job) => self.decide(job, windows[job]),
            },
        }
    }

    /// The entered windows, cut down to the parts chosen on the path.
    fn windows_of_path(&self) -> Vec<Window> {
        let mut windows = entered_windows(&self.sheet);
        for decision in &self.path {
            let (window, chosen) = (&mut windows[decision.job], decision.chosen());
            window.lo = window.lo.max(chosen.lo);
            window.hi = window.hi.min(chosen.hi);
        }
        windows
    }

    /// Drops decisions on their second part from the end; the last that remains goes to its second part.
    fn turn_back(&mut self) {
        while self.path.last().is_some_and(|decision| decision.part == Part::Second) {
            self.path.pop();
        }
        match self.path.last_mut() {
            None => self.outcome = Outcome::Impossible,
            Some(decision) => decision.part = Part::Second,
        }
    }

    /// Puts a decision on the path, on its first part.
    fn decide(&mut self, job: usize, window: Window) {
        let middle = window.lo + (window.hi - window.lo) / 2;
        self.path.push(Decision { job, window, middle, part: Part::First });
        assert!(self.path.len() <= DECISIONS_AT_MOST, "the path never passes 768 decisions");
    }
}

/// Each job's starts from its release to its due time less its duration.
pub fn entered_windows(sheet: &Sheet) -> Vec<Window> {
    sheet
        .jobs
        .iter()
        .map(|job| Window { lo: i64::from(job.release), hi: i64::from(job.due) - i64::from(job.duration) })
        .collect()
}

/// The job with the least `hi − lo` above 0, the lowest number among equals.
fn narrowest_above_one_start(windows: &[Window]) -> Option<usize> {
    (0..windows.len())
        .filter(|&job| windows[job].hi - windows[job].lo > 0)
        .min_by_key(|&job| (windows[job].hi - windows[job].lo, job))
}
