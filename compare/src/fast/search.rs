//! The fast planner's search: same looks and answers as defined, in one of two paces.
//!
//! The house rules are monotone: narrower windows never give wider ones. So the standstill of the pile is
//! the same in whatever order the rules are worked, and narrowing may go on from the windows of the last
//! decision instead of from the entered ones. `Pace::Swift` uses both, and knows a circle of links as dead
//! at once. `Pace::Rounds` makes the very rounds of the definition, from the entered windows at each look.

use super::LOOKS_AT_MOST;
use super::sheet::{JOBS, LINKS, Refusal, STATIONS, Sheet};
use super::station::{Dead, Desk, Orders, Station, StationRule};

/// How the standstill is reached.
#[derive(Clone, Copy, PartialEq, Eq, Debug)]
pub enum Pace {
    Swift,
    Rounds,
}

/// The outcome, with its number.
#[derive(Clone, Copy, PartialEq, Eq, Debug)]
pub enum Outcome {
    Open = 0,
    Found = 1,
    Impossible = 2,
}

/// First starts and latest ends of all jobs, by place: jobs stand sorted by station.
#[derive(Clone, Copy)]
pub struct Windows {
    pub est: [i32; JOBS],
    pub lct: [i32; JOBS],
}

/// A decision with the narrowed windows in which it was made.
struct Decision {
    windows: Windows,
    place: usize,
    middle: i32,
    second: bool,
}

impl Decision {
    /// Cuts given windows down to the chosen part.
    fn choose(&self, windows: &mut Windows, p: i32) {
        if self.second {
            windows.est[self.place] = self.middle + 1;
        } else {
            windows.lct[self.place] = self.middle + p;
        }
    }
}

/// A link by places: `to` starts at least `ahead` after the start of `from`, and `from` ends at least
/// `back` before the end of `to`.
#[derive(Clone, Copy, Default)]
struct Bond {
    from: u8,
    to: u8,
    ahead: i32,
    back: i32,
}

/// The orders of each station's jobs, and a desk: what the rules keep between looks. None of it has a
/// say in what they find.
pub struct Workshop {
    orders: [Orders; STATIONS],
    desk: Desk,
}

impl Workshop {
    pub fn new() -> Workshop {
        Workshop { orders: std::array::from_fn(|_| Orders::new()), desk: Desk::new() }
    }
}

/// What of a sheet does not change during a search, laid out for speed.
pub struct Layout {
    job_count: usize,
    /// The place of each job, and the job at each place.
    place: [u8; JOBS],
    job: [u8; JOBS],
    p: [i32; JOBS],
    station: [u8; JOBS],
    /// Where each station's places begin; the last entry is the end.
    begin: [usize; STATIONS + 1],
    /// A bit for each station with two jobs or more.
    shared: u8,
    /// The links; without a circle every link stands after those that lead to its first job.
    bonds: [Bond; LINKS],
    bond_count: usize,
    circle: bool,
    entered: Windows,
}

impl Layout {
    pub fn of(sheet: &Sheet) -> Layout {
        let mut layout = Layout {
            job_count: sheet.jobs().len(),
            place: [0; JOBS],
            job: [0; JOBS],
            p: [0; JOBS],
            station: [0; JOBS],
            begin: [0; STATIONS + 1],
            shared: 0,
            bonds: [Bond::default(); LINKS],
            bond_count: 0,
            circle: false,
            entered: Windows { est: [0; JOBS], lct: [0; JOBS] },
        };
        layout.seat_jobs(sheet);
        layout.tie_links(sheet);
        layout
    }

    /// Gives each job its place, station by station.
    fn seat_jobs(&mut self, sheet: &Sheet) {
        let mut place = 0;
        for station in 0..STATIONS {
            self.begin[station] = place;
            for (number, job) in
                sheet.jobs().iter().enumerate().filter(|(_, job)| job.station == station as u8)
            {
                self.place[number] = place as u8;
                self.job[place] = number as u8;
                self.p[place] = job.duration;
                self.station[place] = station as u8;
                self.entered.est[place] = job.release;
                self.entered.lct[place] = job.due;
                place += 1;
            }
            if place - self.begin[station] > 1 {
                self.shared |= 1 << station;
            }
        }
        self.begin[STATIONS] = place;
    }

    /// Puts the links in the order in which they can be followed once each, or finds a circle.
    fn tie_links(&mut self, sheet: &Sheet) {
        let mut bonds = [Bond::default(); LINKS];
        let mut leading_in = [0u8; JOBS];
        for (bond, link) in bonds.iter_mut().zip(sheet.links()) {
            let (from, to) = (self.place[link.from as usize], self.place[link.to as usize]);
            let ahead = self.p[from as usize] + link.wait;
            let back = self.p[to as usize] + link.wait;
            *bond = Bond { from, to, ahead, back };
            leading_in[to as usize] += 1;
        }
        let bonds = &bonds[..sheet.links().len()];
        let mut waiting = (1u64 << self.job_count) - 1;
        while let Some(free) = (0..self.job_count).find(|&j| waiting & (1 << j) != 0 && leading_in[j] == 0) {
            waiting &= !(1 << free);
            for bond in bonds.iter().filter(|bond| bond.from as usize == free) {
                leading_in[bond.to as usize] -= 1;
                self.bonds[self.bond_count] = *bond;
                self.bond_count += 1;
            }
        }
        if waiting != 0 {
            self.circle = true;
            self.bonds[..bonds.len()].copy_from_slice(bonds);
            self.bond_count = bonds.len();
        }
    }

    /// The windows as entered.
    pub fn entered(&self) -> Windows {
        self.entered
    }

    /// The place of a job.
    pub fn place(&self, job: usize) -> usize {
        self.place[job] as usize
    }

    fn bonds(&self) -> &[Bond] {
        &self.bonds[..self.bond_count]
    }

    /// The most decisions that a path can have: each job's halvings.
    fn longest_path(&self) -> usize {
        (0..self.job_count).map(|place| halvings(self.spread(&self.entered, place))).sum()
    }

    /// `hi − lo` of a job.
    fn spread(&self, windows: &Windows, place: usize) -> i32 {
        windows.lct[place] - self.p[place] - windows.est[place]
    }

    /// The place of the job with the least spread above 0, the lowest job number among equals.
    fn narrowest(&self, windows: &Windows) -> Option<usize> {
        let mut least = u32::MAX;
        let mut narrowest = 0;
        for place in 0..self.job_count {
            // A spread of 0 wraps round and becomes the greatest.
            let key = (self.spread(windows, place) as u32).wrapping_sub(1) << 6 | u32::from(self.job[place]);
            if key < least {
                least = key;
                narrowest = place;
            }
        }
        (least < 1 << 30).then_some(narrowest)
    }

    /// The rule Route as defined: one round, worked out from the windows as handed.
    pub fn route_round(&self, windows: &mut Windows) -> Result<bool, Dead> {
        let handed = *windows;
        for bond in self.bonds() {
            let (from, to) = (bond.from as usize, bond.to as usize);
            windows.est[to] = windows.est[to].max(handed.est[from] + bond.ahead);
            windows.lct[from] = windows.lct[from].min(handed.lct[to] - bond.back);
        }
        self.check(windows)?;
        let n = self.job_count;
        Ok(windows.est[..n] != handed.est[..n] || windows.lct[..n] != handed.lct[..n])
    }

    /// Route to its standstill: without circles one walk along the links and one against them will do.
    /// Answers a bit for each station where a window changed.
    fn route_walk(&self, windows: &mut Windows) -> Result<u8, Dead> {
        let mut touched = 0;
        for bond in self.bonds() {
            let (from, to) = (bond.from as usize, bond.to as usize);
            let bound = windows.est[from] + bond.ahead;
            if bound > windows.est[to] {
                windows.est[to] = bound;
                touched |= 1 << self.station[to];
            }
        }
        for bond in self.bonds().iter().rev() {
            let (from, to) = (bond.from as usize, bond.to as usize);
            let bound = windows.lct[to] - bond.back;
            if bound < windows.lct[from] {
                windows.lct[from] = bound;
                touched |= 1 << self.station[from];
            }
        }
        if touched != 0 {
            self.check(windows)?;
        }
        Ok(touched)
    }

    /// Dead if some job's window is empty.
    fn check(&self, windows: &Windows) -> Result<(), Dead> {
        let dead = (0..self.job_count).any(|place| self.spread(windows, place) < 0);
        if dead { Err(Dead) } else { Ok(()) }
    }

    /// One rule at one station.
    fn cut(
        &self,
        station: usize,
        rule: StationRule,
        windows: &mut Windows,
        workshop: &mut Workshop,
    ) -> Result<bool, Dead> {
        let places = self.begin[station]..self.begin[station + 1];
        let p = &self.p[places.clone()];
        let est = &mut windows.est[places.clone()];
        let lct = &mut windows.lct[places];
        Station { p, est, lct, orders: &mut workshop.orders[station], desk: &mut workshop.desk }.cut(rule)
    }

    /// One rule at all stations; answers whether a window changed.
    pub fn cut_all(
        &self,
        rule: StationRule,
        windows: &mut Windows,
        workshop: &mut Workshop,
    ) -> Result<bool, Dead> {
        let mut changed = false;
        for station in stations(self.shared) {
            changed |= self.cut(station, rule, windows, workshop)?;
        }
        Ok(changed)
    }

    /// The standstill of the house pile by its rounds.
    fn settle_in_rounds(&self, windows: &mut Windows, workshop: &mut Workshop) -> Result<(), Dead> {
        loop {
            let mut changed = self.route_round(windows)?;
            loop {
                let pairs = self.cut_all(StationRule::Pairs, windows, workshop)?;
                let edges = self.cut_all(StationRule::Edges, windows, workshop)?;
                let not_first = self.cut_all(StationRule::NotFirst, windows, workshop)?;
                if !(pairs || edges || not_first) {
                    break;
                }
                changed = true;
            }
            if !changed {
                return Ok(());
            }
        }
    }

    /// The standstill of the house pile, where only the given stations are not yet at theirs.
    /// Quick rules go first: Edges and Not-first wait until Route and Pairs stand still everywhere.
    fn settle_swiftly(
        &self,
        windows: &mut Windows,
        workshop: &mut Workshop,
        stirred: u8,
    ) -> Result<(), Dead> {
        if self.circle {
            return Err(Dead);
        }
        let touched = self.route_walk(windows)?;
        let mut for_pairs = (stirred | touched) & self.shared;
        let mut for_sets = for_pairs;
        while for_pairs | for_sets != 0 {
            let (station, changed);
            if for_pairs != 0 {
                station = for_pairs.trailing_zeros() as usize;
                for_pairs &= for_pairs - 1;
                changed = self.cut(station, StationRule::Pairs, windows, workshop)?;
            } else {
                station = for_sets.trailing_zeros() as usize;
                for_sets &= for_sets - 1;
                changed = self.cut(station, StationRule::Edges, windows, workshop)?
                    || self.cut(station, StationRule::NotFirst, windows, workshop)?;
            }
            if changed {
                let touched = (self.route_walk(windows)? | 1 << station) & self.shared;
                for_pairs |= touched;
                for_sets |= touched;
            }
        }
        Ok(())
    }
}

/// How often a window of this spread can be halved.
fn halvings(spread: i32) -> usize {
    (u32::BITS - (spread as u32).leading_zeros()) as usize
}

/// The stations of a set of bits.
fn stations(bits: u8) -> impl Iterator<Item = usize> {
    (0..STATIONS).filter(move |station| bits & (1 << station) != 0)
}

/// A closed sheet, the outcome and the path.
pub struct Search {
    sheet: Sheet,
    layout: Layout,
    pace: Pace,
    outcome: Outcome,
    path: Vec<Decision>,
    workshop: Workshop,
    /// The single starts where the outcome is found.
    found: Windows,
}

impl Search {
    /// Closes a sheet. What the path may need is set aside here, so that no look touches the heap.
    pub fn close(sheet: Sheet, pace: Pace) -> Search {
        let layout = Layout::of(&sheet);
        let path = Vec::with_capacity(layout.longest_path());
        let found = layout.entered;
        Search { sheet, layout, pace, outcome: Outcome::Open, path, workshop: Workshop::new(), found }
    }

    /// Gives back the sheet as it was closed.
    pub fn reopen(self) -> Sheet {
        self.sheet
    }

    pub fn outcome(&self) -> Outcome {
        self.outcome
    }

    /// Makes looks and answers how many; refuses 0 looks or too many.
    pub fn advance(&mut self, granted: u32) -> Result<u32, Refusal> {
        if granted == 0 || granted > LOOKS_AT_MOST {
            return Err(Refusal(11));
        }
        Ok(self.make_looks(granted))
    }

    /// Makes looks until the search is settled or as many are made as granted.
    pub fn make_looks(&mut self, granted: u32) -> u32 {
        let mut made = 0;
        while self.outcome == Outcome::Open && made < granted {
            self.look();
            made += 1;
        }
        made
    }

    pub fn start(&self, job: u32) -> Result<u32, Refusal> {
        if job >= self.layout.job_count as u32 {
            return Err(Refusal(1));
        }
        if self.outcome != Outcome::Found {
            return Err(Refusal(12));
        }
        Ok(self.found.est[self.layout.place[job as usize] as usize] as u32)
    }

    /// The starts by job number, where the outcome is found.
    pub fn starts(&self) -> impl Iterator<Item = i32> + '_ {
        self.layout.place[..self.layout.job_count].iter().map(|&place| self.found.est[place as usize])
    }

    pub fn path_length(&self) -> usize {
        self.path.len()
    }

    fn look(&mut self) {
        match self.narrowed() {
            Err(Dead) => self.turn_back(),
            Ok(windows) => match self.layout.narrowest(&windows) {
                None => {
                    self.found = windows;
                    self.outcome = Outcome::Found;
                }
                Some(place) => {
                    let middle = windows.est[place] + self.layout.spread(&windows, place) / 2;
                    self.path.push(Decision { windows, place, middle, second: false });
                }
            },
        }
    }

    /// The windows of the path, narrowed to the standstill of the pile.
    fn narrowed(&mut self) -> Result<Windows, Dead> {
        let Search { layout, path, workshop, .. } = self;
        let mut windows = layout.entered;
        match self.pace {
            Pace::Rounds => {
                for decision in path.iter() {
                    windows.est[decision.place] = decision.windows.est[decision.place];
                    windows.lct[decision.place] = decision.windows.lct[decision.place];
                    decision.choose(&mut windows, layout.p[decision.place]);
                }
                layout.settle_in_rounds(&mut windows, workshop)?;
            }
            Pace::Swift => {
                let mut stirred = layout.shared;
                if let Some(last) = path.last() {
                    windows = last.windows;
                    last.choose(&mut windows, layout.p[last.place]);
                    stirred = 1 << layout.station[last.place];
                }
                layout.settle_swiftly(&mut windows, workshop, stirred)?;
            }
        }
        Ok(windows)
    }

    fn turn_back(&mut self) {
        while self.path.pop_if(|decision| decision.second).is_some() {}
        match self.path.last_mut() {
            None => self.outcome = Outcome::Impossible,
            Some(decision) => decision.second = true,
        }
    }
}
