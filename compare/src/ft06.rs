//! The instance ft06 of the job-shop literature (Fisher and Thompson, 1963): six orders pass six stations,
//! and the shortest timetable takes 55 minutes.

use crate::fast::search::Pace;
use crate::literal::sheet::Sheet;
use crate::literal::slip::text;
use crate::{fast, library, literal};

/// The least minutes in which all orders can be done.
pub const SHORTEST: u32 = 55;

/// Each order's stays: the station and the minutes there.
const ORDERS: [[(u32, u32); 6]; 6] = [
    [(2, 1), (0, 3), (1, 6), (3, 7), (5, 3), (4, 6)],
    [(1, 8), (2, 5), (4, 10), (5, 10), (0, 10), (3, 4)],
    [(2, 5), (3, 4), (5, 8), (0, 9), (1, 1), (4, 7)],
    [(1, 5), (0, 5), (2, 5), (3, 3), (4, 8), (5, 9)],
    [(2, 9), (1, 3), (4, 5), (5, 4), (0, 3), (3, 1)],
    [(1, 3), (3, 3), (5, 9), (0, 10), (4, 4), (2, 1)],
];

/// The instance as a sheet in which every job is due at the same minute.
pub fn sheet(due: u32) -> Sheet {
    let mut sheet = Sheet::default();
    for order in ORDERS {
        for (k, (station, duration)) in order.into_iter().enumerate() {
            let job = sheet.enter(station, duration, 0, due).expect("the job can be entered");
            if k > 0 {
                sheet.link(job - 1, job, 0).expect("the link can be entered");
            }
        }
    }
    sheet
}

/// Plans the instance for the shortest time and for a minute less; answers whether no planner contradicts
/// what is known of it.
pub fn run(looks: u32, with_library: bool) -> bool {
    let mut sound = true;
    for due in [SHORTEST - 1, SHORTEST] {
        let sheet = sheet(due);
        let slip = text(&sheet);
        let mut buffer = [0; 72];
        let (answer, made) = literal::call::plan(&slip, looks, &mut buffer);
        sound &= report("literal", due, answer, made, &sheet, &buffer);
        let mut buffer = [0; 72];
        let (answer, made) = fast::plan(&slip, looks, &mut buffer, Pace::Swift);
        sound &= report("fast", due, answer, made, &sheet, &buffer);
        if with_library {
            let mut buffer = [0; 72];
            let answer = library::plan(&slip, made, &mut buffer);
            sound &= report("library", due, answer, made, &sheet, &buffer);
            sound &= made == 1 || library::plan(&slip, made - 1, &mut [0; 72]) == 0;
        }
    }
    sound
}

/// Prints one answer and holds it against what is known: with 54 minutes nothing can be found, with 55
/// it cannot be impossible, and a timetable that is found keeps to the sheet.
fn report(planner: &str, due: u32, answer: u32, made: u32, sheet: &Sheet, buffer: &[u8]) -> bool {
    let word = ["open", "found", "impossible"].get(answer as usize).copied().unwrap_or("refused");
    println!("ft06, every job due at {due}, {planner}: {word} after {made} looks");
    match answer {
        0 => true,
        1 => due >= SHORTEST && keeps(sheet, buffer),
        2 => due < SHORTEST,
        _ => false,
    }
}

/// Whether the starts in a buffer are a timetable of the sheet.
fn keeps(sheet: &Sheet, buffer: &[u8]) -> bool {
    use crate::literal::rules::{Rule, house_pile};
    let starts: Vec<i64> =
        buffer.chunks_exact(2).map(|b| i64::from(u16::from_le_bytes([b[0], b[1]]))).collect();
    let in_windows = sheet.jobs.iter().zip(&starts).all(|(job, start)| {
        i64::from(job.release) <= *start && start + i64::from(job.duration) <= i64::from(job.due)
    });
    in_windows && house_pile().admits(sheet, &starts)
}
