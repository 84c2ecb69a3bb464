//! The fast planner's slip reader: one walk over the bytes, without the heap.

use super::sheet::{Refusal, Sheet};

const BYTES_AT_MOST: usize = 4_096;

/// What is wrong with a slip: the fault's number, its line and the refusal inside, or 0.
#[derive(Clone, Copy, PartialEq, Eq, Debug)]
pub struct Fault {
    pub number: u32,
    pub line: u32,
    pub inside: u32,
}

impl Fault {
    /// The fault as an answer of the call for C.
    pub fn answer(self) -> u32 {
        self.number + 100 * self.line + 1_000_000 * self.inside
    }
}

/// The number of a fault within a line, and the refusal inside.
type LineFault = (u32, u32);

/// Reads the sheet of a slip.
pub fn read(slip: &[u8]) -> Result<Sheet, Fault> {
    if slip.len() > BYTES_AT_MOST {
        return Err(Fault { number: 20, line: 0, inside: 0 });
    }
    let mut reader = Reader { sheet: Sheet::new(), line_place: 0, link_place: None, ended: false };
    let mut rest = slip;
    let mut line = 1;
    while let Some(length) = rest.iter().position(|&byte| byte == b'\n') {
        reader.line(&rest[..length]).map_err(|(number, inside)| Fault { number, line, inside })?;
        reader.line_place += length + 1;
        rest = &rest[length + 1..];
        line += 1;
    }
    if !reader.ended || !rest.is_empty() {
        return Err(Fault { number: 21, line, inside: 0 });
    }
    Ok(reader.sheet)
}

struct Reader {
    sheet: Sheet,
    /// Where the line in hand starts.
    line_place: usize,
    /// Where the first link's line starts.
    link_place: Option<usize>,
    /// Whether the trailer was met.
    ended: bool,
}

impl Reader {
    fn line(&mut self, line: &[u8]) -> Result<(), LineFault> {
        let (&letter, mut fields) = line.split_first().ok_or((22, 0))?;
        if self.ended {
            return Err((22, 0));
        }
        match letter {
            b'J' if self.link_place.is_none() => {
                let [station, duration, release, due] = numbers(&mut fields)?;
                self.sheet.enter(station, duration, release, due).map_err(refused)?;
            }
            b'L' => {
                let [from, to, wait] = numbers(&mut fields)?;
                self.sheet.link(from, to, wait).map_err(refused)?;
                self.link_place.get_or_insert(self.line_place);
            }
            b'E' => {
                let [jobs, links, place] = numbers(&mut fields)?;
                let true_place = self.link_place.unwrap_or(self.line_place);
                let untrue = jobs as usize != self.sheet.jobs().len()
                    || links as usize != self.sheet.links().len()
                    || place as usize != true_place;
                if untrue {
                    return Err((24, 0));
                }
                self.ended = true;
            }
            _ => return Err((22, 0)),
        }
        Ok(())
    }
}

fn refused(refusal: Refusal) -> LineFault {
    (25, refusal.0)
}

/// The fields of a line, each a space and a number, and nothing after the last.
fn numbers<const COUNT: usize>(fields: &mut &[u8]) -> Result<[u32; COUNT], LineFault> {
    let mut values = [0; COUNT];
    for value in &mut values {
        *value = number(fields).ok_or((23, 0))?;
    }
    if fields.is_empty() { Ok(values) } else { Err((23, 0)) }
}

/// A space and a number of 1 to 5 digits, taken off the front.
fn number(fields: &mut &[u8]) -> Option<u32> {
    let digits = fields.strip_prefix(b" ")?;
    let length = digits.iter().take(6).take_while(|byte| byte.is_ascii_digit()).count();
    let leading_zero = length > 1 && digits[0] == b'0';
    if length == 0 || length > 5 || leading_zero {
        return None;
    }
    *fields = &digits[length..];
    Some(digits[..length].iter().fold(0, |value, digit| 10 * value + u32::from(digit - b'0')))
}
