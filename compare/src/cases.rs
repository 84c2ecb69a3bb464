//! Random sheets and slips, small and large, sound and damaged in every way, each from its seed.

use crate::literal::sheet::{Job, Link, Sheet};
use crate::literal::slip::text;
use crate::random::Random;

/// One case of the comparison: what the call for C is handed.
#[derive(Clone, Debug)]
pub struct Case {
    pub slip: Vec<u8>,
    pub looks: u32,
    /// How many bytes the buffer has.
    pub buffer: usize,
}

impl Case {
    /// The case with this number of a run.
    pub fn numbered(seed: u64, number: u64) -> Case {
        let random = &mut Random::of_case(seed, number);
        let sheet = any_sheet(random);
        let slip = match random.up_to(9) {
            0..=5 => text(&sheet),
            6 => with_a_wrong_entry(random, sheet),
            7 => with_a_wrong_trailer(random, &sheet),
            _ => damaged(random, text(&sheet)),
        };
        let jobs = slip.iter().filter(|&&byte| byte == b'J').count();
        Case { slip, looks: any_looks(random), buffer: any_buffer(random, jobs) }
    }
}

/// Few looks mostly; now and then many, none or too many.
fn any_looks(random: &mut Random) -> u32 {
    match random.up_to(99) {
        0 => 0,
        1 => 1_000_001,
        2 => 1_000_001 + random.up_to(u32::MAX - 1_000_001),
        3..=14 => random.between(200, 2_000),
        15..=60 => random.between(1, 40),
        _ => random.between(1, 200),
    }
}

/// Mostly room enough for the starts, now and then too little by one byte or more.
fn any_buffer(random: &mut Random, jobs: usize) -> usize {
    match random.up_to(19) {
        0 => (2 * jobs).saturating_sub(1),
        1 => random.up_to(2 * jobs as u32) as usize,
        2..=9 => 2 * jobs,
        _ => 2 * jobs + random.up_to(40) as usize,
    }
}

/// A sheet of some kind.
pub fn any_sheet(random: &mut Random) -> Sheet {
    match random.up_to(99) {
        0..=14 => tiny(random),
        15..=32 => crowded(random),
        33..=46 => around_a_timetable(random),
        47..=66 => packing(random),
        67..=82 => job_shop(random),
        83..=87 => with_a_circle(random),
        88..=91 => of_great_numbers(random),
        92..=94 => large(random),
        95..=96 => large_around_a_timetable(random),
        97..=98 => large_packing(random),
        _ => full(random),
    }
}

/// A job whose window has the given number of starts above one; what passes the limits is cut off.
fn job(station: u32, duration: u32, release: u32, spread: u32) -> Job {
    let release = release.min(40_000 - duration);
    let due = (release + duration + spread).min(40_000);
    Job { station, duration, release, due }
}

/// Adds some links between any jobs, not twice between the same.
fn add_links(random: &mut Random, sheet: &mut Sheet, count: u32, longest_wait: u32) {
    let jobs = sheet.jobs.len() as u32;
    for _ in 0..count {
        if jobs > 1 {
            let _ = sheet.link(random.up_to(jobs - 1), random.up_to(jobs - 1), random.up_to(longest_wait));
        }
    }
}

/// Adds some links from lower to higher numbers only, so that there is no circle.
fn add_links_upwards(random: &mut Random, sheet: &mut Sheet, count: u32, longest_wait: u32) {
    let jobs = sheet.jobs.len() as u32;
    for _ in 0..count {
        let (a, b) = (random.up_to(jobs.max(1) - 1), random.up_to(jobs.max(1) - 1));
        if a != b {
            let _ = sheet.link(a.min(b), a.max(b), random.up_to(longest_wait));
        }
    }
}

/// Up to four jobs in the first few minutes.
fn tiny(random: &mut Random) -> Sheet {
    let mut sheet = Sheet::default();
    for _ in 0..random.up_to(4) {
        let (station, duration, release) = (random.up_to(1), random.between(1, 4), random.up_to(5));
        let spread = random.up_to(6);
        sheet.jobs.push(job(station, duration, release, spread));
    }
    let links = random.up_to(3);
    add_links(random, &mut sheet, links, 3);
    sheet
}

/// Some jobs with random windows in about the time that a station needs.
fn crowded(random: &mut Random) -> Sheet {
    let mut sheet = Sheet::default();
    let stations = random.between(1, 3);
    let count = random.between(2, if stations == 1 { 6 } else { 9 });
    let longest = random.one_of(&[2, 5, 9, 30]);
    let time = longest * count / stations * random.between(6, 14) / 10;
    for _ in 0..count {
        let (duration, release) = (random.between(1, longest), random.up_to(time / 2));
        let spread = random.up_to(time.saturating_sub(release));
        sheet.jobs.push(job(random.up_to(stations - 1), duration, release, spread));
    }
    let links = random.up_to(2);
    add_links_upwards(random, &mut sheet, links, longest);
    sheet
}

/// Jobs one after the other at each station, with windows opened around these starts: tight or loose,
/// and mostly possible.
fn around_a_timetable(random: &mut Random) -> Sheet {
    let stations = random.between(1, 3);
    let count = random.between(2, if stations == 1 { 9 } else { 12 });
    let (longest, widest) = (random.one_of(&[3, 8, 20, 200]), random.one_of(&[1, 4, 10, 30, 300]));
    timetable_sheet(random, stations, count, longest, widest)
}

fn large_around_a_timetable(random: &mut Random) -> Sheet {
    let stations = random.between(1, 8);
    let count = random.between(15, 48);
    let (longest, widest) = (random.one_of(&[8, 20, 200, 2_000]), random.one_of(&[3, 10, 40, 300]));
    timetable_sheet(random, stations, count, longest, widest)
}

fn timetable_sheet(random: &mut Random, stations: u32, count: u32, longest: u32, widest: u32) -> Sheet {
    let mut sheet = Sheet::default();
    let mut free = [0u32; 8];
    let mut starts = Vec::new();
    for _ in 0..count {
        let station = random.up_to(stations - 1);
        let duration = random.between(1, longest).min(40_000 / count);
        let start = free[station as usize] + if random.once_in(3) { random.up_to(widest / 4) } else { 0 };
        let start = start.min(40_000 - duration);
        free[station as usize] = start + duration;
        let sooner = random.up_to(widest).min(start);
        let later = random.up_to(widest);
        sheet.jobs.push(job(station, duration, start - sooner, sooner + later));
        starts.push(start);
    }
    shuffle(random, &mut sheet.jobs, &mut starts);
    for _ in 0..random.up_to(count / 2) {
        link_in_time(random, &mut sheet, &starts);
    }
    sheet
}

/// Shuffles jobs and their starts alike.
fn shuffle(random: &mut Random, jobs: &mut [Job], starts: &mut [u32]) {
    for k in (1..jobs.len()).rev() {
        let other = random.place(k + 1);
        jobs.swap(k, other);
        starts.swap(k, other);
    }
}

/// A link that given starts keep, with a wait that leaves a little or nothing.
fn link_in_time(random: &mut Random, sheet: &mut Sheet, starts: &[u32]) {
    let (a, b) = (random.place(starts.len()), random.place(starts.len()));
    let end = starts[a] + sheet.jobs[a].duration;
    if a != b && end <= starts[b] {
        let most = (starts[b] - end).min(2_000);
        let wait = if random.once_in(2) { most } else { random.up_to(most) };
        let _ = sheet.link(a as u32, b as u32, wait);
    }
}

/// Jobs to be packed into the gaps between fixed ones, mostly just too long for one more to fit into a gap:
/// the rules seldom tell at once whether all can be packed, so that the search has to turn back, often to
/// the very end.
fn packing(random: &mut Random) -> Sheet {
    let mut sheet = Sheet::default();
    for station in 0..random.between(1, 2) {
        let gaps = random.between(2, 3);
        pack_station(random, &mut sheet, station, gaps, 7 - gaps);
    }
    if random.once_in(3) {
        let links = random.between(1, 2);
        add_links_upwards(random, &mut sheet, links, 2);
    }
    sheet
}

/// The same with more gaps and more jobs.
fn large_packing(random: &mut Random) -> Sheet {
    let mut sheet = Sheet::default();
    for station in 0..random.between(1, 2) {
        let gaps = random.between(4, 8);
        pack_station(random, &mut sheet, station, gaps, 16);
    }
    sheet
}

/// Fixed jobs with equal gaps between them, and free jobs that together are no longer than the gaps.
fn pack_station(random: &mut Random, sheet: &mut Sheet, station: u32, gaps: u32, free: u32) {
    let (gap, wall) = (random.between(4, 14), random.between(1, 3));
    let time = gaps * gap + (gaps - 1) * wall;
    for k in 1..gaps {
        sheet.jobs.push(job(station, wall, k * gap + (k - 1) * wall, 0));
    }
    let mut room = gaps * gap;
    for _ in 0..free {
        let any = random.between(1, gap);
        let duration = random.one_of(&[gap / 2 + 1, gap / 2 + 1, gap / 3 + 1, gap / 2, any]);
        if duration <= room {
            room -= duration;
            let late = if random.once_in(4) { random.up_to(3) } else { 0 };
            let soon = if random.once_in(4) { random.up_to(3) } else { 0 };
            let spread = (time - duration).saturating_sub(late + soon);
            put_in(random, &mut sheet.jobs, job(station, duration, late, spread));
        }
    }
}

/// Orders that pass the stations each in its own sequence, as in a job shop, in little more time than the
/// longest order or the busiest station needs.
fn job_shop(random: &mut Random) -> Sheet {
    let mut sheet = Sheet::default();
    let (orders, stations) = (random.between(1, 5), random.between(1, 4));
    let longest = random.one_of(&[2, 5, 9, 30]);
    let mut busy = [0; 8];
    let mut needed = 0;
    for _ in 0..orders {
        let first = sheet.jobs.len() as u32;
        let turn = random.up_to(stations - 1);
        let mut length = 0;
        for k in 0..stations {
            let station = if random.once_in(3) { random.up_to(stations - 1) } else { (k + turn) % stations };
            let duration = random.between(1, longest);
            let wait = if k > 0 && random.once_in(5) { random.up_to(3) } else { 0 };
            sheet.jobs.push(job(station, duration, 0, 40_000));
            if k > 0 {
                let _ = sheet.link(first + k - 1, first + k, wait);
            }
            length += duration + wait;
            busy[station as usize] += duration;
            needed = needed.max(length).max(busy[station as usize]);
        }
    }
    let due = needed + random.up_to(needed / 3 + 1);
    for job in &mut sheet.jobs {
        job.due = due;
    }
    sheet
}

/// Jobs in a circle of links; wide windows seldom, since narrowing them takes many rounds.
fn with_a_circle(random: &mut Random) -> Sheet {
    let mut sheet = Sheet::default();
    let count = random.between(2, 6);
    let widest = if random.once_in(100) { 38_000 } else { random.one_of(&[5, 30, 300]) };
    for _ in 0..count {
        let duration = random.between(1, 20);
        let (release, spread) = (random.up_to(10), random.up_to(widest));
        sheet.jobs.push(job(random.up_to(7), duration, release, spread));
    }
    let length = random.between(2, count);
    for k in 0..length {
        let _ = sheet.link(k, (k + 1) % length, random.up_to(3));
    }
    let links = random.up_to(3);
    add_links(random, &mut sheet, links, 3);
    sheet
}

/// Numbers at their limits: the longest durations and waits, the last minutes, the widest windows.
fn of_great_numbers(random: &mut Random) -> Sheet {
    let mut sheet = Sheet::default();
    let count = random.between(1, 5);
    for _ in 0..count {
        let duration = random.one_of(&[1, 2, 1_999, 2_000]);
        let release = random.one_of(&[0, 1, 20_000, 36_000, 38_000, 39_999]);
        let spread = random.one_of(&[0, 1, 2_000, 4_000, 40_000]);
        sheet.jobs.push(job(random.one_of(&[0, 7]), duration, release, spread));
    }
    let links = random.up_to(2);
    add_links_upwards(random, &mut sheet, links, 2_000);
    sheet
}

/// Many jobs at one to eight stations.
fn large(random: &mut Random) -> Sheet {
    let mut sheet = Sheet::default();
    let (count, stations) = (random.between(15, 48), random.between(1, 8));
    let longest = random.one_of(&[5, 50, 500]);
    let time = longest * count / stations * random.between(7, 20) / 10 + longest;
    for _ in 0..count {
        let (duration, release) = (random.between(1, longest), random.up_to(time / 3));
        let spread = random.up_to(time.saturating_sub(release));
        sheet.jobs.push(job(random.up_to(stations - 1), duration, release, spread));
    }
    let links = random.up_to(count);
    add_links_upwards(random, &mut sheet, links, longest);
    sheet
}

/// As many jobs and links as a sheet holds, or nearly.
fn full(random: &mut Random) -> Sheet {
    let mut sheet = Sheet::default();
    for _ in 0..random.between(46, 48) {
        let release = random.up_to(38_000);
        sheet.jobs.push(job(random.up_to(7), random.between(1, 300), release, random.up_to(38_000)));
    }
    while sheet.links.len() < 95 {
        add_links_upwards(random, &mut sheet, 10, 100);
    }
    sheet
}

/// A slip with one job or link that the draft refuses, or with one more than it holds; the trailer is
/// that of the slip as written, and so true.
fn with_a_wrong_entry(random: &mut Random, mut sheet: Sheet) -> Vec<u8> {
    if random.once_in(4) {
        fill_up(random, &mut sheet);
    }
    for _ in 0..random.between(1, 2) {
        if random.once_in(2) || sheet.jobs.is_empty() {
            let wrong = wrong_job(random);
            put_in(random, &mut sheet.jobs, wrong);
        } else {
            let wrong = wrong_link(random, &sheet);
            put_in(random, &mut sheet.links, wrong);
        }
    }
    text(&sheet)
}

/// Fills a sheet up to 48 jobs, or also up to 96 links, or to one or two less.
fn fill_up(random: &mut Random, sheet: &mut Sheet) {
    let jobs = 48 - random.one_of(&[0, 0, 1, 2]);
    while sheet.jobs.len() < jobs {
        sheet.jobs.push(job(random.up_to(7), 1, random.up_to(9), 9));
    }
    let links = random.one_of(&[0, 94, 95, 96, 96, 96]);
    while sheet.links.len() < links {
        add_links_upwards(random, sheet, 1, 9);
    }
}

fn put_in<T>(random: &mut Random, list: &mut Vec<T>, entry: T) {
    let place = random.place(list.len() + 1);
    list.insert(place, entry);
}

/// A job with one or more figures at a limit or past it.
fn wrong_job(random: &mut Random) -> Job {
    Job {
        station: random.one_of(&[0, 7, 8, 99_999]),
        duration: random.one_of(&[0, 1, 5, 2_000, 2_001, 99_999]),
        release: random.one_of(&[0, 5, 6, 38_000, 40_000, 40_001, 99_999]),
        due: random.one_of(&[0, 5, 9, 10, 11, 40_000, 40_001, 99_999]),
    }
}

/// A link with one or more figures at a limit or past it, or one that is there already.
fn wrong_link(random: &mut Random, sheet: &Sheet) -> Link {
    let jobs = sheet.jobs.len() as u32;
    let job = [0, 1, jobs / 3, jobs / 2, jobs - 1, random.one_of(&[jobs - 1, jobs, 48, 99_999])];
    let mut wrong = Link {
        from: random.one_of(&job),
        to: random.one_of(&job),
        wait: random.one_of(&[0, 1, 2_000, 2_001, 99_999]),
    };
    if !sheet.links.is_empty() && random.once_in(3) {
        let there = random.one_of(&sheet.links);
        wrong.from = there.from;
        wrong.to = there.to;
    }
    wrong
}

/// A slip whose trailer is off in one or more figures.
fn with_a_wrong_trailer(random: &mut Random, sheet: &Sheet) -> Vec<u8> {
    let mut slip = text(sheet);
    let trailer = slip.iter().rposition(|&byte| byte == b'E').expect("every slip has a trailer");
    let first_link = slip.iter().position(|&byte| byte == b'L').unwrap_or(trailer);
    slip.truncate(trailer);
    let near = |random: &mut Random, figure: usize| match random.up_to(5) {
        0 => figure + 1,
        1 => figure.saturating_sub(1),
        2 => random.one_of(&[0, trailer, first_link]),
        _ => figure,
    };
    let figures = [near(random, sheet.jobs.len()), near(random, sheet.links.len()), near(random, first_link)];
    slip.extend(format!("E {} {} {}\n", figures[0], figures[1], figures[2]).bytes());
    slip
}

/// A slip with one to three damages.
fn damaged(random: &mut Random, mut slip: Vec<u8>) -> Vec<u8> {
    for _ in 0..random.between(1, 3) {
        damage(random, &mut slip);
    }
    slip
}

fn damage(random: &mut Random, slip: &mut Vec<u8>) {
    const TELLING: &[u8] = b"JLE 0129\n\r\t-+.jle\0\x0b\x20\x7f\x80\xb2\xff";
    match random.up_to(16) {
        0 if !slip.is_empty() => {
            let place = random.place(slip.len());
            slip[place] ^= 1 << random.up_to(7);
        }
        1 if !slip.is_empty() => {
            let place = random.place(slip.len());
            slip[place] = random.one_of(TELLING);
        }
        2 if !slip.is_empty() => {
            let place = random.place(slip.len());
            slip[place] = random.byte() | 0x80;
        }
        3 if !slip.is_empty() => {
            slip.remove(random.place(slip.len()));
        }
        4 => {
            let byte = random.one_of(TELLING);
            put_in(random, slip, byte);
        }
        5 => slip.truncate(random.place(slip.len() + 1)),
        6 => slip.truncate(slip.len().saturating_sub(1)),
        7 => zero_before_a_number(random, slip),
        8 => swap_lines(random, slip),
        9 => repeat_a_line(random, slip),
        10 => drop_a_line(random, slip),
        11 => space_somewhere(random, slip),
        12 => lengthen(random, slip),
        13 => slip.extend(random.one_of(&[&b"\n"[..], b"E 0 0 0\n", b"J", b" ", b"J 0 1 0 9\n", b"\r\n"])),
        14 => grow_a_number(random, slip),
        15 => field_more_or_less(random, slip),
        _ => *slip = (0..random.up_to(30)).map(|_| random.one_of(TELLING)).collect(),
    }
}

/// Puts a zero before some number.
fn zero_before_a_number(random: &mut Random, slip: &mut Vec<u8>) {
    if let Some(place) = some_place(random, slip, |byte| byte == b' ') {
        slip.insert(place + 1, b'0');
    }
}

/// Puts digits into some number, so that it may have six.
fn grow_a_number(random: &mut Random, slip: &mut Vec<u8>) {
    if let Some(place) = some_place(random, slip, |byte| byte.is_ascii_digit()) {
        for _ in 0..random.between(1, 6) {
            slip.insert(place + 1, b'0' + random.up_to(9) as u8);
        }
    }
}

/// Takes a field out of some line, or puts one in.
fn field_more_or_less(random: &mut Random, slip: &mut Vec<u8>) {
    let Some(place) = some_place(random, slip, |byte| byte == b' ') else { return };
    let length = slip[place + 1..].iter().take_while(|byte| byte.is_ascii_digit()).count();
    let field: Vec<u8> = slip[place..=place + length].to_vec();
    if random.once_in(2) {
        slip.drain(place..=place + length);
    } else {
        slip.splice(place..place, field);
    }
}

/// Doubles or adds a space, at the end of a line or between fields.
fn space_somewhere(random: &mut Random, slip: &mut Vec<u8>) {
    if let Some(place) = some_place(random, slip, |byte| byte == b' ' || byte == b'\n') {
        slip.insert(place, b' ');
    }
}

/// The place of some byte of a kind.
fn some_place(random: &mut Random, slip: &[u8], kind: impl Fn(u8) -> bool) -> Option<usize> {
    let places: Vec<usize> = (0..slip.len()).filter(|&place| kind(slip[place])).collect();
    (!places.is_empty()).then(|| random.one_of(&places))
}

/// Works on the slip as a list of lines, each with its end.
fn with_lines(slip: &mut Vec<u8>, work: impl FnOnce(&mut Vec<Vec<u8>>)) {
    let mut lines: Vec<Vec<u8>> = slip.split_inclusive(|&byte| byte == b'\n').map(<[u8]>::to_vec).collect();
    if !lines.is_empty() {
        work(&mut lines);
    }
    *slip = lines.concat();
}

fn swap_lines(random: &mut Random, slip: &mut Vec<u8>) {
    with_lines(slip, |lines| {
        let (a, b) = (random.place(lines.len()), random.place(lines.len()));
        lines.swap(a, b);
    });
}

fn repeat_a_line(random: &mut Random, slip: &mut Vec<u8>) {
    with_lines(slip, |lines| {
        let line = lines[random.place(lines.len())].clone();
        put_in(random, lines, line);
    });
}

fn drop_a_line(random: &mut Random, slip: &mut Vec<u8>) {
    with_lines(slip, |lines| {
        lines.remove(random.place(lines.len()));
    });
}

/// Makes the slip as long as a slip may be, or longer by one byte or many.
fn lengthen(random: &mut Random, slip: &mut Vec<u8>) {
    let length = random.one_of(&[4_095, 4_096, 4_097, 4_098, 5_000, 70_000]);
    let filling = random.one_of(&[&b"J 0 1 0 9\n"[..], b" ", b"\n", b"0", b"E 0 0 0\n"]);
    while slip.len() < length {
        slip.extend(filling);
    }
    slip.truncate(length);
}
