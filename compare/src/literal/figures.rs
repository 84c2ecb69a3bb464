//! The worked figures of docs/figures.md, held against the literal planner.

use super::rules::{Cut, Edges, NotFirst, Pairs, Rule, Window, house_pile, narrow};
use super::search::{Draft, Outcome};
use super::sheet::{Refusal, Sheet};
use super::slip;

/// A sheet of jobs at one station, of which only the durations matter.
fn sheet_of(durations: &[u32]) -> Sheet {
    let mut sheet = Sheet::default();
    for &duration in durations {
        sheet.enter(0, duration, 0, 40_000).expect("the job can be entered");
    }
    sheet
}

fn windows(bounds: &[(i64, i64)]) -> Vec<Window> {
    bounds.iter().map(|&(lo, hi)| Window { lo, hi }).collect()
}

fn holds<R: Rule>(rule: &R, durations: &[u32], before: &[(i64, i64)], after: &[(i64, i64)]) {
    assert_eq!(rule.cut(&sheet_of(durations), &windows(before)), Cut::To(windows(after)));
}

#[test]
fn figures_1_and_2_pairs() {
    holds(&Pairs, &[4, 3], &[(2, 6), (0, 4)], &[(3, 6), (0, 3)]);
    holds(&Pairs, &[4, 3], &[(2, 6), (0, 6)], &[(2, 6), (0, 6)]);
}

#[test]
fn figures_3_and_4_edges() {
    holds(&Edges, &[4, 3, 3], &[(0, 16), (0, 4), (1, 4)], &[(6, 16), (0, 4), (1, 4)]);
    holds(&Edges, &[4, 3, 3], &[(0, 16), (0, 7), (1, 7)], &[(0, 16), (0, 7), (1, 7)]);
}

#[test]
fn figures_5_and_6_not_first() {
    holds(&NotFirst, &[4, 3, 3], &[(2, 16), (0, 6), (1, 6)], &[(3, 16), (0, 6), (1, 6)]);
    holds(&NotFirst, &[4, 3, 3], &[(2, 16), (0, 9), (1, 9)], &[(2, 16), (0, 9), (1, 9)]);
}

#[test]
fn figure_7_three_jobs() {
    holds(&Pairs, &[8, 8, 8], &[(1, 10); 3], &[(1, 10); 3]);
    let mut draft = Draft::new(house_pile());
    for _ in 0..3 {
        draft.sheet.enter(0, 8, 1, 18).unwrap();
    }
    let mut search = draft.close();
    assert_eq!(search.advance(100), Ok(1));
    assert_eq!(search.outcome(), &Outcome::Impossible);
}

#[test]
fn figure_8_instalments() {
    let mut draft = Draft::new(house_pile());
    draft.sheet.enter(0, 2, 0, 5).unwrap();
    let mut search = draft.close();
    let mut outcomes = Vec::new();
    for _ in 0..3 {
        assert_eq!(search.advance(1), Ok(1));
        outcomes.push(search.outcome().clone());
    }
    assert_eq!(outcomes, [Outcome::Open, Outcome::Open, Outcome::Found(vec![0])]);
    assert_eq!(search.advance(1), Ok(0));
    assert_eq!(search.advance(0), Err(Refusal::BadLooks));
    assert_eq!(search.advance(1_000_001), Err(Refusal::BadLooks));
}

/// Admits nothing, and notices only in single windows.
struct Nothing;

impl Rule for Nothing {
    fn admits(&self, _: &Sheet, _: &[i64]) -> bool {
        false
    }

    fn cut(&self, _: &Sheet, windows: &[Window]) -> Cut {
        if windows.iter().all(|w| w.lo == w.hi) { Cut::Dead } else { Cut::To(windows.to_vec()) }
    }
}

#[test]
fn figure_9_a_rule_that_admits_nothing() {
    let mut draft = Draft::new(Nothing);
    draft.sheet.enter(0, 1, 0, 2).unwrap();
    let mut search = draft.close();
    assert_eq!(search.advance(100), Ok(3));
    assert_eq!(search.outcome(), &Outcome::Impossible);
}

#[test]
fn figure_10_an_empty_sheet() {
    let mut search = Draft::new(house_pile()).close();
    assert_eq!(search.advance(100), Ok(1));
    assert_eq!(search.outcome(), &Outcome::Found(vec![]));
    assert_eq!(search.start(0), Err(Refusal::NoSuchJob));
}

#[test]
fn figure_11_limits() {
    let mut sheet = Sheet::default();
    assert_eq!(sheet.enter(0, 2_000, 0, 2_000), Ok(0));
    assert_eq!(sheet.enter(0, 2_001, 0, 40_000), Err(Refusal::BadDuration));
    assert_eq!(sheet.enter(0, 5, 0, 40_001), Err(Refusal::TimeTooLate));
    assert_eq!(sheet.enter(0, 5, 5, 9), Err(Refusal::WindowTooShort));
    assert_eq!(sheet.enter(0, 5, 5, 10), Ok(1));
}

#[test]
fn figures_12_and_13_the_example_slip() {
    let mut draft = Draft::new(house_pile());
    slip::read(&mut draft, b"J 0 5 0 12\nJ 0 4 0 9\nL 0 1 0\nE 2 1 21\n").unwrap();
    let mut search = draft.close();
    assert_eq!(search.advance(100_000), Ok(1));
    assert_eq!(search.outcome(), &Outcome::Found(vec![0, 5]));

    let mut draft = search.reopen();
    draft.sheet.move_job(1, 0, 20).unwrap();
    let mut search = draft.close();
    assert_eq!(search.start(1), Err(Refusal::NotFound));
    assert_eq!(search.advance(100_000), Ok(8));
    assert_eq!(search.outcome(), &Outcome::Found(vec![0, 5]));
    assert_eq!(search.start(1), Ok(5));
    assert_eq!(search.start(2), Err(Refusal::NoSuchJob));
}

#[test]
fn malformed_windows_are_refused_and_left() {
    let sheet = sheet_of(&[4, 3]);
    for bounds in [&[(0, 5)][..], &[(0, 5), (6, 5)], &[(0, 5), (0, 40_001)], &[(0, 5); 3]] {
        let mut handed = windows(bounds);
        assert_eq!(narrow(&Pairs, &sheet, &mut handed), Err(Refusal::MalformedWindows));
        assert_eq!(handed, windows(bounds));
    }
}
