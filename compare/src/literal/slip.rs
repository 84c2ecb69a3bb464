//! The slip of docs/slips.md: its text, its reader and its faults.

use super::rules::Rule;
use super::search::Draft;
use super::sheet::{Refusal, Sheet};

/// A slip has at most this many bytes.
pub const BYTES_AT_MOST: usize = 4_096;

/// What is wrong with a slip.
#[derive(Clone, Copy, PartialEq, Eq, Debug)]
pub enum FaultKind {
    TooLong,
    NoTrailerOrLeftOver,
    MisplacedLine,
    IllFields,
    UntrueTrailer,
    Refused(Refusal),
}

/// A fault and its line, from 1.
#[derive(Clone, Copy, PartialEq, Eq, Debug)]
pub struct Fault {
    pub kind: FaultKind,
    pub line: u32,
}

impl Fault {
    /// The number of the table.
    pub fn number(self) -> u32 {
        match self.kind {
            FaultKind::TooLong => 20,
            FaultKind::NoTrailerOrLeftOver => 21,
            FaultKind::MisplacedLine => 22,
            FaultKind::IllFields => 23,
            FaultKind::UntrueTrailer => 24,
            FaultKind::Refused(_) => 25,
        }
    }

    /// The draft's refusal inside, or 0.
    pub fn inside(self) -> u32 {
        match self.kind {
            FaultKind::Refused(refusal) => refusal.number(),
            _ => 0,
        }
    }
}

/// Reads a slip into a draft. The draft is emptied first, and a faulty slip leaves it empty.
pub fn read<R: Rule>(draft: &mut Draft<R>, slip: &[u8]) -> Result<(), Fault> {
    draft.empty();
    let read = read_into_empty(&mut draft.sheet, slip);
    if read.is_err() {
        draft.empty();
    }
    read
}

fn read_into_empty(sheet: &mut Sheet, slip: &[u8]) -> Result<(), Fault> {
    if slip.len() > BYTES_AT_MOST {
        return Err(Fault { kind: FaultKind::TooLong, line: 0 });
    }
    let mut pieces: Vec<&[u8]> = slip.split(|&byte| byte == 10).collect();
    let left_over = pieces.pop().expect("a split has at least one piece");
    let finished = pieces;

    let mut met = Met { place: 0, jobs: 0, links: 0, first_link: None, trailer: false };
    for (index, line) in finished.iter().enumerate() {
        met.take(sheet, line).map_err(|kind| Fault { kind, line: index as u32 + 1 })?;
        met.place += line.len() + 1;
    }
    if !met.trailer || !left_over.is_empty() {
        return Err(Fault { kind: FaultKind::NoTrailerOrLeftOver, line: finished.len() as u32 + 1 });
    }
    Ok(())
}

/// What was met before the line in hand, and the byte place at which that line starts.
struct Met {
    place: usize,
    jobs: usize,
    links: usize,
    first_link: Option<usize>,
    trailer: bool,
}

impl Met {
    /// Tests one finished line in the order 22, 23, 24, 25, and enters it.
    fn take(&mut self, sheet: &mut Sheet, line: &[u8]) -> Result<(), FaultKind> {
        let letter = self.letter(line)?;
        match letter {
            b'J' => {
                let [station, duration, release, due] = fields(line)?;
                sheet.enter(station, duration, release, due).map_err(FaultKind::Refused)?;
                self.jobs += 1;
            }
            b'L' => {
                let [from, to, wait] = fields(line)?;
                sheet.link(from, to, wait).map_err(FaultKind::Refused)?;
                self.first_link.get_or_insert(self.place);
                self.links += 1;
            }
            _ => {
                let told: [u32; 3] = fields(line)?;
                let place = self.first_link.unwrap_or(self.place);
                if told.map(|figure| figure as usize) != [self.jobs, self.links, place] {
                    return Err(FaultKind::UntrueTrailer);
                }
                self.trailer = true;
            }
        }
        Ok(())
    }

    /// The line's first letter, if the line may stand here.
    fn letter(&self, line: &[u8]) -> Result<u8, FaultKind> {
        let Some(&letter) = line.first() else {
            return Err(FaultKind::MisplacedLine);
        };
        let known = matches!(letter, b'J' | b'L' | b'E');
        let job_after_link = letter == b'J' && self.links > 0;
        if !known || job_after_link || self.trailer {
            return Err(FaultKind::MisplacedLine);
        }
        Ok(letter)
    }
}

/// The numbers after a line's letter, just as many as wanted.
fn fields<const WANTED: usize>(line: &[u8]) -> Result<[u32; WANTED], FaultKind> {
    let mut pieces = line.split(|&byte| byte == b' ');
    let letter = pieces.next().expect("a split has at least one piece");
    let numbers: Option<Vec<u32>> = pieces.map(number).collect();
    match numbers {
        Some(numbers) if letter.len() == 1 => numbers.try_into().map_err(|_| FaultKind::IllFields),
        _ => Err(FaultKind::IllFields),
    }
}

/// A number of 1 to 5 digits with no leading zero, except 0 itself.
fn number(digits: &[u8]) -> Option<u32> {
    let well_written = (1..=5).contains(&digits.len())
        && digits.iter().all(u8::is_ascii_digit)
        && (digits[0] != b'0' || digits.len() == 1);
    well_written.then(|| digits.iter().fold(0, |value, digit| 10 * value + u32::from(digit - b'0')))
}

/// The slip of a sheet: the text of its jobs, its links and their true trailer.
pub fn text(sheet: &Sheet) -> Vec<u8> {
    let jobs: String = sheet
        .jobs
        .iter()
        .map(|j| format!("J {} {} {} {}\n", j.station, j.duration, j.release, j.due))
        .collect();
    let links: String = sheet.links.iter().map(|l| format!("L {} {} {}\n", l.from, l.to, l.wait)).collect();
    let trailer = format!("E {} {} {}\n", sheet.jobs.len(), sheet.links.len(), jobs.len());
    (jobs + &links + &trailer).into_bytes()
}
