//! Holds the fast planner against the literal one: rule by rule, call by call, slip by slip.

use crate::cases::{Case, any_sheet};
use crate::fast;
use crate::fast::search::{Layout, Outcome, Pace, Search, Windows, Workshop};
use crate::fast::station::{Dead, StationRule};
use crate::literal;
use crate::literal::rules::{Cut, Edges, NotFirst, Pairs, Route, Rule, Window, house_pile};
use crate::literal::sheet::Sheet;
use crate::random::Random;
use crate::runner;

/// The same sheet for the fast planner.
fn fast_sheet(sheet: &Sheet) -> fast::sheet::Sheet {
    let mut fast = fast::sheet::Sheet::new();
    for job in &sheet.jobs {
        fast.enter(job.station, job.duration, job.release, job.due).expect("the job can be entered");
    }
    for link in &sheet.links {
        fast.link(link.from, link.to, link.wait).expect("the link can be entered");
    }
    fast
}

/// What the fast planner makes of a sheet's entered windows by one rule.
fn fast_cut(sheet: &Sheet, rule: Option<StationRule>) -> Cut {
    let layout = Layout::of(&fast_sheet(sheet));
    let mut windows = layout.entered();
    let cut = match rule {
        None => layout.route_round(&mut windows),
        Some(rule) => layout.cut_all(rule, &mut windows, &mut Workshop::new()),
    };
    match cut {
        Err(Dead) => Cut::Dead,
        Ok(_) => Cut::To(by_job(&layout, sheet, &windows)),
    }
}

fn by_job(layout: &Layout, sheet: &Sheet, windows: &Windows) -> Vec<Window> {
    (0..sheet.jobs.len())
        .map(|job| {
            let place = layout.place(job);
            let p = sheet.jobs[job].duration as i32;
            Window { lo: windows.est[place].into(), hi: (windows.lct[place] - p).into() }
        })
        .collect()
}

/// Jobs at one station or two with any windows, so that every rule has work.
fn station_sheet(random: &mut Random) -> Sheet {
    let mut sheet = Sheet::default();
    let count = if random.once_in(20) { random.between(7, 9) } else { random.between(1, 6) };
    let (longest, latest) = (random.between(1, 9), random.between(0, 40));
    let widest = random.between(0, 40);
    for _ in 0..count {
        let (duration, release) = (random.between(1, longest), random.up_to(latest));
        let due = release + duration + random.up_to(widest);
        sheet.enter(random.up_to(5) / 5, duration, release, due).expect("the job can be entered");
    }
    for _ in 0..random.up_to(3) {
        let _ = sheet.link(random.up_to(count), random.up_to(count), random.up_to(9));
    }
    sheet
}

#[test]
fn each_rule_cuts_alike() {
    let mut random = Random::from_seed(1);
    for _ in 0..60_000 {
        let sheet = station_sheet(&mut random);
        let windows = literal::search::entered_windows(&sheet);
        assert_eq!(fast_cut(&sheet, Some(StationRule::Pairs)), Pairs.cut(&sheet, &windows), "{sheet:?}");
        assert_eq!(fast_cut(&sheet, Some(StationRule::Edges)), Edges.cut(&sheet, &windows), "{sheet:?}");
        assert_eq!(
            fast_cut(&sheet, Some(StationRule::NotFirst)),
            NotFirst.cut(&sheet, &windows),
            "{sheet:?}"
        );
        assert_eq!(fast_cut(&sheet, None), Route.cut(&sheet, &windows), "{sheet:?}");
    }
}

#[test]
fn figure_14_fills_the_path() {
    let slip = "J 0 1 0 40000\n".repeat(48) + "E 48 0 672\n";
    let mut buffer = [0; 96];
    for pace in [Pace::Swift, Pace::Rounds] {
        assert_eq!(fast::plan(slip.as_bytes(), 768, &mut buffer, pace), (0, 768));
        assert_eq!(fast::plan(slip.as_bytes(), 769, &mut buffer, pace), (1, 769));
        let starts: Vec<u8> = (0..48).flat_map(|start| [start, 0]).collect();
        assert_eq!(buffer, starts[..]);
        let mut search = Search::close(fast::slip::read(slip.as_bytes()).ok().unwrap(), pace);
        search.make_looks(768);
        assert_eq!(search.path_length(), 768);
    }
}

/// A number that a caller may hand: small mostly, now and then any.
fn handed(random: &mut Random, usual: u32) -> u32 {
    match random.up_to(30) {
        0 => random.any(),
        1 => random.one_of(&[0, 7, 8, 47, 48, 2_000, 2_001, 40_000, 40_001, u32::MAX]),
        _ => random.up_to(usual),
    }
}

/// Lists of calls: enter, link, move on a draft, advance and start on its search, and again after reopen.
#[test]
fn lists_of_calls_answer_alike() {
    let mut random = Random::from_seed(2);
    for round in 0..6_000 {
        let mut draft = literal::search::Draft::new(house_pile());
        let mut sheet = fast::sheet::Sheet::new();
        for _ in 0..random.between(1, 3) {
            for _ in 0..random.up_to(12) {
                change(&mut random, &mut draft.sheet, &mut sheet);
            }
            let pace = if round % 2 == 0 { Pace::Swift } else { Pace::Rounds };
            let mut search = draft.close();
            let mut swift = Search::close(sheet, pace);
            for _ in 0..random.up_to(5) {
                ask(&mut random, &mut search, &mut swift);
            }
            draft = search.reopen();
            sheet = swift.reopen();
        }
    }
}

fn change(random: &mut Random, literal: &mut Sheet, fast: &mut fast::sheet::Sheet) {
    let numbers = match random.up_to(5) {
        0..=2 => [handed(random, 1), handed(random, 6), handed(random, 9), handed(random, 25)],
        _ => [handed(random, 5), handed(random, 5), handed(random, 20), 0],
    };
    let [a, b, c, d] = numbers;
    let (expected, got) = match random.up_to(4) {
        0..=1 => (literal.enter(a, b, c, d), fast.enter(a, b, c, d)),
        2 => (literal.link(a, b, c).map(|()| 0), fast.link(a, b, c).map(|()| 0)),
        _ => (literal.move_job(a, b, c).map(|()| 0), fast.move_job(a, b, c).map(|()| 0)),
    };
    assert_eq!(expected.map_err(|refusal| refusal.number()), got.map_err(|refusal| refusal.0), "{numbers:?}");
}

fn ask<R: Rule>(random: &mut Random, literal: &mut literal::search::Search<R>, fast: &mut Search) {
    let number = handed(random, 12);
    let (expected, got) = if random.once_in(3) {
        (literal.start(number), fast.start(number))
    } else if number < 1_000 || number > 1_000_000 {
        (literal.advance(number), fast.advance(number))
    } else {
        return;
    };
    assert_eq!(expected.map_err(|refusal| refusal.number()), got.map_err(|refusal| refusal.0));
    assert_eq!(literal.outcome().number(), fast.outcome() as u32);
    assert_eq!(literal.path_length(), fast.path_length());
}

/// Read the other way round: a slip is accepted exactly if it is the text of what the draft then holds.
#[test]
fn accepted_slips_are_texts() {
    let mut accepted = 0;
    for number in 0..20_000 {
        let slip = Case::numbered(4, number).slip;
        let mut draft = literal::search::Draft::new(house_pile());
        match literal::slip::read(&mut draft, &slip) {
            Ok(()) => {
                assert_eq!(literal::slip::text(&draft.sheet), slip);
                accepted += 1;
            }
            Err(_) => assert_eq!(draft.sheet, Sheet::default()),
        }
    }
    assert!(accepted > 5_000);
}

/// A short run of the comparison without the library.
#[test]
fn planners_answer_slips_alike() {
    assert!(runner::run(&runner::Run { seed: 5, cases: 5_000, only: None, with_library: false }));
}

/// Both paces make the same looks on sheets of any size.
#[test]
fn both_paces_look_alike() {
    let mut random = Random::from_seed(3);
    for _ in 0..6_000 {
        let sheet = any_sheet(&mut random);
        let mut swift = Search::close(fast_sheet(&sheet), Pace::Swift);
        let mut rounds = Search::close(fast_sheet(&sheet), Pace::Rounds);
        assert_eq!(swift.make_looks(60), rounds.make_looks(60), "{sheet:?}");
        assert_eq!(swift.outcome(), rounds.outcome(), "{sheet:?}");
        assert_eq!(swift.path_length(), rounds.path_length(), "{sheet:?}");
        if swift.outcome() == Outcome::Found {
            assert!(swift.starts().eq(rounds.starts()), "{sheet:?}");
        }
    }
}
