//! The sheet of docs/sheet.md: jobs, links, the calls that change them, and the table of refusals.

/// A sheet holds at most this many jobs.
pub const JOBS_AT_MOST: usize = 48;
/// A sheet holds at most this many links.
pub const LINKS_AT_MOST: usize = 96;
/// The last station.
pub const LAST_STATION: u32 = 7;
/// The longest duration.
pub const LONGEST_DURATION: u32 = 2_000;
/// The longest wait of a link.
pub const LONGEST_WAIT: u32 = 2_000;
/// The last minute that is a time.
pub const LAST_TIME: u32 = 40_000;

/// One stay of a timber at a station.
#[derive(Clone, Copy, PartialEq, Eq, Debug)]
pub struct Job {
    pub station: u32,
    pub duration: u32,
    pub release: u32,
    pub due: u32,
}

/// Job `to` starts no sooner than the end of job `from` plus the wait.
#[derive(Clone, Copy, PartialEq, Eq, Debug)]
pub struct Link {
    pub from: u32,
    pub to: u32,
    pub wait: u32,
}

/// The table of refusals, in its order; the number is the cause's row.
#[derive(Clone, Copy, PartialEq, Eq, Debug)]
pub enum Refusal {
    NoSuchJob = 1,
    SheetFullOfJobs = 2,
    NoSuchStation = 3,
    BadDuration = 4,
    TimeTooLate = 5,
    WindowTooShort = 6,
    LinkToItself = 7,
    WaitTooLong = 8,
    LinkedAlready = 9,
    SheetFullOfLinks = 10,
    BadLooks = 11,
    NotFound = 12,
    MalformedWindows = 13,
    ShortBuffer = 14,
}

impl Refusal {
    /// The number of the table.
    pub fn number(self) -> u32 {
        self as u32
    }
}

/// Everything the planner knows of a frame.
#[derive(Clone, Default, PartialEq, Eq, Debug)]
pub struct Sheet {
    pub jobs: Vec<Job>,
    pub links: Vec<Link>,
}

impl Sheet {
    /// Adds a job and answers its number.
    pub fn enter(&mut self, station: u32, duration: u32, release: u32, due: u32) -> Result<u32, Refusal> {
        if self.jobs.len() >= JOBS_AT_MOST {
            return Err(Refusal::SheetFullOfJobs);
        }
        if station > LAST_STATION {
            return Err(Refusal::NoSuchStation);
        }
        if duration == 0 || duration > LONGEST_DURATION {
            return Err(Refusal::BadDuration);
        }
        check_times(duration, release, due)?;
        let number = self.jobs.len() as u32;
        self.jobs.push(Job { station, duration, release, due });
        Ok(number)
    }

    /// Adds a link.
    pub fn link(&mut self, from: u32, to: u32, wait: u32) -> Result<(), Refusal> {
        if !self.has_job(from) || !self.has_job(to) {
            return Err(Refusal::NoSuchJob);
        }
        if from == to {
            return Err(Refusal::LinkToItself);
        }
        if wait > LONGEST_WAIT {
            return Err(Refusal::WaitTooLong);
        }
        if self.links.iter().any(|link| link.from == from && link.to == to) {
            return Err(Refusal::LinkedAlready);
        }
        if self.links.len() >= LINKS_AT_MOST {
            return Err(Refusal::SheetFullOfLinks);
        }
        self.links.push(Link { from, to, wait });
        Ok(())
    }

    /// Gives one job a new release and due time.
    pub fn move_job(&mut self, job: u32, release: u32, due: u32) -> Result<(), Refusal> {
        if !self.has_job(job) {
            return Err(Refusal::NoSuchJob);
        }
        let moved = &mut self.jobs[job as usize];
        check_times(moved.duration, release, due)?;
        moved.release = release;
        moved.due = due;
        Ok(())
    }

    /// Whether a number is that of a job on the sheet.
    pub fn has_job(&self, job: u32) -> bool {
        (job as usize) < self.jobs.len()
    }
}

/// The two causes that enter and move share, in the table's order.
fn check_times(duration: u32, release: u32, due: u32) -> Result<(), Refusal> {
    if release > LAST_TIME || due > LAST_TIME {
        return Err(Refusal::TimeTooLate);
    }
    if release + duration > due {
        return Err(Refusal::WindowTooShort);
    }
    Ok(())
}
