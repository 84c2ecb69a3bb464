//! The promise of docs/search.md, tried on tiny sheets by going through every timetable.

use super::rules::{Cut, Edges, NotFirst, Pairs, Route, Rule, Window, house_pile};
use super::search::{Draft, Outcome, entered_windows};
use super::sheet::Sheet;
use crate::random::Random;

/// A tiny sheet: up to four jobs at two stations, a few starts each, a few links.
fn tiny_sheet(random: &mut Random) -> Sheet {
    let mut sheet = Sheet::default();
    for _ in 0..random.up_to(4) {
        let (duration, release) = (random.between(1, 5), random.up_to(6));
        let due = release + duration + random.up_to(5);
        sheet.enter(random.up_to(1), duration, release, due).expect("the job can be entered");
    }
    for _ in 0..random.up_to(3) {
        let _ = sheet.link(random.up_to(4), random.up_to(4), random.up_to(2));
    }
    sheet
}

/// Every timetable with each start in its window.
fn timetables(windows: &[Window]) -> Vec<Vec<i64>> {
    windows.iter().fold(vec![vec![]], |begun, window| {
        begun
            .iter()
            .flat_map(|starts| (window.lo..=window.hi).map(move |start| [&starts[..], &[start]].concat()))
            .collect()
    })
}

#[test]
fn the_search_keeps_the_promise() {
    let mut random = Random::from_seed(11);
    for _ in 0..3_000 {
        let mut draft = Draft::new(house_pile());
        draft.sheet = tiny_sheet(&mut random);
        let sheet = draft.sheet.clone();
        let all = timetables(&entered_windows(&sheet));
        let fitting: Vec<&Vec<i64>> =
            all.iter().filter(|starts| house_pile().admits(&sheet, starts)).collect();
        let enough = 2 * all.len() as u32 - 1;
        let mut search = draft.close();
        let made = search.advance(enough).unwrap();
        assert!(made <= enough);
        match search.outcome() {
            Outcome::Open => panic!("enough looks settle it"),
            Outcome::Impossible => assert!(fitting.is_empty()),
            Outcome::Found(starts) => assert!(fitting.contains(&starts)),
        }
    }
}

/// Holds the three laws of a rule on one sheet.
fn keeps_the_laws<R: Rule>(rule: &R, sheet: &Sheet) {
    let old = entered_windows(sheet);
    let admitted = timetables(&old).into_iter().filter(|starts| rule.admits(sheet, starts));
    match rule.cut(sheet, &old) {
        Cut::Dead => assert_eq!(admitted.count(), 0),
        Cut::To(new) => {
            assert!(new.iter().zip(&old).all(|(n, o)| o.lo <= n.lo && n.lo <= n.hi && n.hi <= o.hi));
            let within = |starts: &[i64]| starts.iter().zip(&new).all(|(s, w)| w.lo <= *s && *s <= w.hi);
            assert!(admitted.into_iter().all(|starts| within(&starts)));
        }
    }
    for starts in timetables(&old) {
        let single: Vec<Window> = starts.iter().map(|&start| Window { lo: start, hi: start }).collect();
        assert!(rule.admits(sheet, &starts) || rule.cut(sheet, &single) == Cut::Dead);
    }
}

#[test]
fn the_house_rules_keep_the_laws() {
    let mut random = Random::from_seed(12);
    for _ in 0..500 {
        let sheet = tiny_sheet(&mut random);
        keeps_the_laws(&Pairs, &sheet);
        keeps_the_laws(&Edges, &sheet);
        keeps_the_laws(&NotFirst, &sheet);
        keeps_the_laws(&Route, &sheet);
        keeps_the_laws(&house_pile(), &sheet);
    }
}
