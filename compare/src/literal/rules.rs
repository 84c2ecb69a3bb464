//! The rules of docs/rules.md: what a rule is, the two ways of piling rules, and the four house rules
//! over all sets of jobs at a station.

use super::sheet::{LAST_STATION, LAST_TIME, Refusal, Sheet};

/// A job's first and last start. Numbers are signed, since a bound below zero is simply negative.
#[derive(Clone, Copy, PartialEq, Eq, Debug)]
pub struct Window {
    pub lo: i64,
    pub hi: i64,
}

/// What a rule makes of given windows.
#[derive(Clone, PartialEq, Eq, Debug)]
pub enum Cut {
    Dead,
    To(Vec<Window>),
}

/// A rule: the timetables it admits on a sheet, and its cut.
pub trait Rule {
    /// Whether the rule admits the timetable that has these starts.
    fn admits(&self, sheet: &Sheet, starts: &[i64]) -> bool;

    /// What the rule makes of windows that are not malformed.
    fn cut(&self, sheet: &Sheet, windows: &[Window]) -> Cut;
}

/// The answer of the call `narrow`: 0 with new windows set, or 1 for dead with the windows left.
#[derive(Clone, Copy, PartialEq, Eq, Debug)]
pub enum Narrowed {
    Set = 0,
    Dead = 1,
}

/// The call `narrow`, which refuses only malformed windows and leaves them.
pub fn narrow<R: Rule>(rule: &R, sheet: &Sheet, windows: &mut Vec<Window>) -> Result<Narrowed, Refusal> {
    if malformed(sheet, windows) {
        return Err(Refusal::MalformedWindows);
    }
    match rule.cut(sheet, windows) {
        Cut::Dead => Ok(Narrowed::Dead),
        Cut::To(new) => {
            *windows = new;
            Ok(Narrowed::Set)
        }
    }
}

fn malformed(sheet: &Sheet, windows: &[Window]) -> bool {
    windows.len() != sheet.jobs.len() || windows.iter().any(|w| w.lo > w.hi || w.hi > i64::from(LAST_TIME))
}

/// Both of two rules: narrows by the first and then by the second.
pub struct Both<A, B>(pub A, pub B);

impl<A: Rule, B: Rule> Rule for Both<A, B> {
    fn admits(&self, sheet: &Sheet, starts: &[i64]) -> bool {
        self.0.admits(sheet, starts) && self.1.admits(sheet, starts)
    }

    fn cut(&self, sheet: &Sheet, windows: &[Window]) -> Cut {
        match self.0.cut(sheet, windows) {
            Cut::Dead => Cut::Dead,
            Cut::To(between) => self.1.cut(sheet, &between),
        }
    }
}

/// The standstill of a rule: repeats it until it is dead or changes nothing.
pub struct Standstill<R>(pub R);

impl<R: Rule> Rule for Standstill<R> {
    fn admits(&self, sheet: &Sheet, starts: &[i64]) -> bool {
        self.0.admits(sheet, starts)
    }

    fn cut(&self, sheet: &Sheet, windows: &[Window]) -> Cut {
        let mut now = windows.to_vec();
        loop {
            match self.0.cut(sheet, &now) {
                Cut::Dead => return Cut::Dead,
                Cut::To(new) if new == now => return Cut::To(now),
                Cut::To(new) => now = new,
            }
        }
    }
}

/// The house pile: both of Route and the standstill of Pairs, Edges and Not-first in this order.
pub type HousePile = Both<Route, Standstill<Both<Pairs, Both<Edges, NotFirst>>>>;

/// Makes the house pile.
pub fn house_pile() -> HousePile {
    Both(Route, Standstill(Both(Pairs, Both(Edges, NotFirst))))
}

/// The new bounds that a house rule works out from the windows as handed, to be set together.
struct Bounds {
    new: Vec<Window>,
}

impl Bounds {
    fn from(handed: &[Window]) -> Bounds {
        Bounds { new: handed.to_vec() }
    }

    fn lo_at_least(&mut self, job: usize, bound: i64) {
        self.new[job].lo = self.new[job].lo.max(bound);
    }

    fn hi_at_most(&mut self, job: usize, bound: i64) {
        self.new[job].hi = self.new[job].hi.min(bound);
    }

    /// Sets the new windows together; dead if a `lo` passes its `hi`.
    fn set(self) -> Cut {
        if self.new.iter().any(|w| w.lo > w.hi) { Cut::Dead } else { Cut::To(self.new) }
    }
}

fn duration(sheet: &Sheet, job: usize) -> i64 {
    i64::from(sheet.jobs[job].duration)
}

/// Whether of any two jobs at one station one ends no later than the other starts.
fn one_at_a_time(sheet: &Sheet, starts: &[i64]) -> bool {
    pairs_at_one_station(sheet).all(|(i, j)| {
        starts[i] + duration(sheet, i) <= starts[j] || starts[j] + duration(sheet, j) <= starts[i]
    })
}

/// All ordered pairs of two different jobs of one station.
fn pairs_at_one_station(sheet: &Sheet) -> impl Iterator<Item = (usize, usize)> + '_ {
    let count = sheet.jobs.len();
    (0..count)
        .flat_map(move |i| (0..count).map(move |j| (i, j)))
        .filter(|&(i, j)| i != j && sheet.jobs[i].station == sheet.jobs[j].station)
}

/// The rule Pairs.
pub struct Pairs;

impl Rule for Pairs {
    fn admits(&self, sheet: &Sheet, starts: &[i64]) -> bool {
        one_at_a_time(sheet, starts)
    }

    fn cut(&self, sheet: &Sheet, w: &[Window]) -> Cut {
        let mut bounds = Bounds::from(w);
        for (i, j) in pairs_at_one_station(sheet) {
            let (p_i, p_j) = (duration(sheet, i), duration(sheet, j));
            if w[i].lo + p_i > w[j].hi {
                bounds.lo_at_least(i, w[j].lo + p_j);
                bounds.hi_at_most(j, w[i].hi - p_j);
            }
        }
        bounds.set()
    }
}

/// A set of jobs at one station: bit `k` stands for the station's job `k`.
type Set = usize;

/// All sets of jobs at one station, with `est`, `lct` and `p` of each.
struct Sets {
    jobs: Vec<usize>,
    est: Vec<i64>,
    lct: Vec<i64>,
    p: Vec<i64>,
}

impl Sets {
    fn at(station: u32, sheet: &Sheet, w: &[Window]) -> Sets {
        let jobs: Vec<usize> =
            (0..sheet.jobs.len()).filter(|&job| sheet.jobs[job].station == station).collect();
        let count = 1 << jobs.len();
        let mut sets =
            Sets { est: vec![i64::MAX; count], lct: vec![i64::MIN; count], p: vec![0; count], jobs };
        for s in 1..count {
            for k in (0..sets.jobs.len()).filter(|k| s & (1 << k) != 0) {
                let job = sets.jobs[k];
                sets.est[s] = sets.est[s].min(w[job].lo);
                sets.lct[s] = sets.lct[s].max(w[job].hi + duration(sheet, job));
                sets.p[s] += duration(sheet, job);
            }
        }
        sets
    }

    /// All non-empty sets.
    fn non_empty(&self) -> impl Iterator<Item = Set> + use<> {
        1..self.est.len()
    }

    /// Every job `i`, as its number and as the set of it alone, with every non-empty set `S` of other jobs.
    fn job_and_others(&self) -> impl Iterator<Item = (usize, Set, Set)> + '_ {
        self.jobs.iter().enumerate().flat_map(move |(k, &job)| {
            let alone = 1 << k;
            self.non_empty().filter(move |s| s & alone == 0).map(move |s| (job, alone, s))
        })
    }

    /// The jobs of a set.
    fn members(&self, s: Set) -> impl Iterator<Item = usize> + '_ {
        self.jobs.iter().enumerate().filter(move |(k, _)| s & (1 << k) != 0).map(|(_, &job)| job)
    }
}

/// All non-empty parts of a non-empty set, itself included.
fn parts(s: Set) -> impl Iterator<Item = Set> {
    std::iter::successors(Some(s), move |t| Some((t - 1) & s).filter(|&t| t != 0))
}

/// The rule Edges (edge finding).
pub struct Edges;

impl Rule for Edges {
    fn admits(&self, sheet: &Sheet, starts: &[i64]) -> bool {
        one_at_a_time(sheet, starts)
    }

    fn cut(&self, sheet: &Sheet, w: &[Window]) -> Cut {
        let stations: Vec<Sets> = (0..=LAST_STATION).map(|station| Sets::at(station, sheet, w)).collect();
        if stations.iter().any(|sets| sets.non_empty().any(|s| sets.p[s] > sets.lct[s] - sets.est[s])) {
            return Cut::Dead;
        }
        let mut bounds = Bounds::from(w);
        for sets in &stations {
            let Sets { est, lct, p, .. } = sets;
            for (i, alone, s) in sets.job_and_others() {
                let with_i = s | alone;
                if est[with_i] + p[with_i] > lct[s] {
                    for t in parts(s) {
                        bounds.lo_at_least(i, est[t] + p[t]);
                    }
                }
                if lct[with_i] - p[with_i] < est[s] {
                    for t in parts(s) {
                        bounds.hi_at_most(i, lct[t] - p[t] - duration(sheet, i));
                    }
                }
            }
        }
        bounds.set()
    }
}

/// The rule Not-first (not-first / not-last).
pub struct NotFirst;

impl Rule for NotFirst {
    fn admits(&self, sheet: &Sheet, starts: &[i64]) -> bool {
        one_at_a_time(sheet, starts)
    }

    fn cut(&self, sheet: &Sheet, w: &[Window]) -> Cut {
        let mut bounds = Bounds::from(w);
        for station in 0..=LAST_STATION {
            let sets = Sets::at(station, sheet, w);
            let Sets { est, lct, p, .. } = &sets;
            for (i, _, s) in sets.job_and_others() {
                let p_i = duration(sheet, i);
                if lct[s] - w[i].lo < p[s] + p_i {
                    let least = sets.members(s).map(|j| w[j].lo + duration(sheet, j)).min();
                    bounds.lo_at_least(i, least.expect("S is not empty"));
                }
                if w[i].hi + p_i - est[s] < p[s] + p_i {
                    let greatest = sets.members(s).map(|j| w[j].hi).max();
                    bounds.hi_at_most(i, greatest.expect("S is not empty") - p_i);
                }
            }
        }
        bounds.set()
    }
}

/// The rule Route.
pub struct Route;

impl Rule for Route {
    fn admits(&self, sheet: &Sheet, starts: &[i64]) -> bool {
        sheet.links.iter().all(|link| {
            let (a, b) = (link.from as usize, link.to as usize);
            starts[b] >= starts[a] + duration(sheet, a) + i64::from(link.wait)
        })
    }

    fn cut(&self, sheet: &Sheet, w: &[Window]) -> Cut {
        let mut bounds = Bounds::from(w);
        for link in &sheet.links {
            let (a, b, wait) = (link.from as usize, link.to as usize, i64::from(link.wait));
            bounds.lo_at_least(b, w[a].lo + duration(sheet, a) + wait);
            bounds.hi_at_most(a, w[b].hi - wait - duration(sheet, a));
        }
        bounds.set()
    }
}
