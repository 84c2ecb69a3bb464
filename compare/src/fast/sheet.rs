//! The fast planner's sheet: tables of fixed size, and the three calls that change them.

/// A sheet holds at most this many jobs.
pub const JOBS: usize = 48;
/// A sheet holds at most this many links.
pub const LINKS: usize = 96;
/// How many stations there are.
pub const STATIONS: usize = 8;

const LONGEST: u32 = 2_000;
const LAST_TIME: u32 = 40_000;

/// A refusal, by its number.
#[derive(Clone, Copy, PartialEq, Eq, Debug)]
pub struct Refusal(pub u32);

#[derive(Clone, Copy, Default)]
pub struct Job {
    pub station: u8,
    pub duration: i32,
    pub release: i32,
    pub due: i32,
}

#[derive(Clone, Copy, Default)]
pub struct Link {
    pub from: u8,
    pub to: u8,
    pub wait: i32,
}

/// Jobs and links in the order in which they were entered.
#[derive(Clone)]
pub struct Sheet {
    jobs: [Job; JOBS],
    job_count: usize,
    links: [Link; LINKS],
    link_count: usize,
    /// For each job, a bit for each job that it is linked to.
    linked: [u64; JOBS],
}

impl Sheet {
    pub fn new() -> Sheet {
        Sheet {
            jobs: [Job::default(); JOBS],
            job_count: 0,
            links: [Link::default(); LINKS],
            link_count: 0,
            linked: [0; JOBS],
        }
    }

    pub fn jobs(&self) -> &[Job] {
        &self.jobs[..self.job_count]
    }

    pub fn links(&self) -> &[Link] {
        &self.links[..self.link_count]
    }

    pub fn enter(&mut self, station: u32, duration: u32, release: u32, due: u32) -> Result<u32, Refusal> {
        if self.job_count == JOBS {
            return Err(Refusal(2));
        }
        if station >= STATIONS as u32 {
            return Err(Refusal(3));
        }
        if duration == 0 || duration > LONGEST {
            return Err(Refusal(4));
        }
        check_times(duration, release, due)?;
        let number = self.job_count;
        self.jobs[number] = Job {
            station: station as u8,
            duration: duration as i32,
            release: release as i32,
            due: due as i32,
        };
        self.job_count += 1;
        Ok(number as u32)
    }

    pub fn link(&mut self, from: u32, to: u32, wait: u32) -> Result<(), Refusal> {
        let count = self.job_count as u32;
        if from >= count || to >= count {
            return Err(Refusal(1));
        }
        if from == to {
            return Err(Refusal(7));
        }
        if wait > LONGEST {
            return Err(Refusal(8));
        }
        let linked = &mut self.linked[from as usize];
        if *linked & (1 << to) != 0 {
            return Err(Refusal(9));
        }
        if self.link_count == LINKS {
            return Err(Refusal(10));
        }
        *linked |= 1 << to;
        self.links[self.link_count] = Link { from: from as u8, to: to as u8, wait: wait as i32 };
        self.link_count += 1;
        Ok(())
    }

    pub fn move_job(&mut self, job: u32, release: u32, due: u32) -> Result<(), Refusal> {
        if job >= self.job_count as u32 {
            return Err(Refusal(1));
        }
        let job = &mut self.jobs[job as usize];
        check_times(job.duration as u32, release, due)?;
        job.release = release as i32;
        job.due = due as i32;
        Ok(())
    }
}

fn check_times(duration: u32, release: u32, due: u32) -> Result<(), Refusal> {
    if release > LAST_TIME || due > LAST_TIME {
        return Err(Refusal(5));
    }
    if release + duration > due {
        return Err(Refusal(6));
    }
    Ok(())
}
