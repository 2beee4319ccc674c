//! The refusals of booking, and their order. A sound row is booked in; then
//! one or two faults are put into it, and tallies and runs that are faults
//! themselves are handed in beside them, with every two causes together. The
//! number is that of the fault which comes first in document 01's order, told
//! by the table beside each fault. The reference is held to it, and the
//! library to the reference.

use crate::definition_damage::Target;
use crate::library::{Rule, Tally, UtcTick};
use crate::record_calls::{outcomes, FirstRules};
use crate::record_reference::RULE_COUNT;
use crate::refusal_order::{by_the_table, in_order, pairs};
use crate::report::{Enough, Section};
use crate::row_damage::{Outgoing, RowFault};
use crate::run_ticks::{Counter, Run};
use crate::seeded_rules::Source;
use crate::tally_calls::{compare_booked, BOOKING};
use crate::tally_reference::{self as reference, NO_TALLY, RUN_ORDER};
use crate::time_reference::TICKS_PER_DAY;
use crate::zone_reference::{NO_RULE, OUTSIDE, WINDOW_END, WINDOW_START};
use crate::zone_refusals::{any_length, row_faults};
use crate::Basis;

/// Seeded inputs for each pair of faults.
const INPUTS: u64 = 12;

/// Damaged rows of any length up to the longest.
const LONG_ROWS: usize = 1_500;

pub fn sections(basis: &Basis) -> Vec<Section> {
    vec![in_pairs(basis), whole_row_checked(basis)]
}

fn in_pairs(basis: &Basis) -> Section {
    let name = "order of refusals: book";
    let mut source = Source::new(basis, name);
    Section::run(name, &outcomes(&BOOKING), 50_000, |section| {
        section.want(&CAUSES);
        for faults in pairs(&row_faults()) {
            let slow = faults.0 == RowFault::ManyRules || faults.1 == RowFault::ManyRules;
            for _ in 0..if slow { INPUTS / 6 } else { INPUTS } {
                let count = source.seeded.between_usize(2, 4);
                let mut outgoing = Outgoing {
                    name: Vec::new(),
                    row: source.zone(count),
                };
                ask(section, &mut source, &outgoing.row, Ok(()))?;
                let put = in_order(faults, |fault| {
                    let target = fault.target(&mut source, &outgoing);
                    (fault.place(target), target)
                });
                // The one that comes first is put in last, so that it is
                // surely there.
                for &(fault, target) in put.iter().rev() {
                    fault.put(&mut source, &mut outgoing, target);
                }
                let number = put[0].0.number();
                ask(section, &mut source, &outgoing.row, Err(number))?;
            }
        }
        Ok(())
    })
}

/// What can be wrong with a run, beside a tally and a row.
const BELOW: &str = "15 below the window";
const ABOVE: &str = "15 above the window";
const BACKWARD: &str = "17, b before a";
const TOO_SOON: &str = "17, a before the tally's end";
const UNRULED: &str = "16";

const CAUSES: [&str; 5] = [BELOW, ABOVE, BACKWARD, TOO_SOON, UNRULED];

fn number(cause: &str) -> u32 {
    match cause {
        BELOW | ABOVE => OUTSIDE,
        BACKWARD | TOO_SOON => RUN_ORDER,
        _ => NO_RULE,
    }
}

/// Of causes that are all there, the number of the one that comes first.
fn first_number(causes: &[&str]) -> Result<(), u32> {
    for first in [OUTSIDE, RUN_ORDER, NO_RULE] {
        if causes.iter().any(|cause| number(cause) == first) {
            return Err(first);
        }
    }
    Ok(())
}

/// A run with what is wrong with it.
type Faulty = (i64, i64, Vec<&'static str>);

/// Runs after a tally whose end is the window's start. `first` is the first
/// tick that has a rule.
fn runs_after_the_start(source: &mut Source, first: i64) -> Vec<Faulty> {
    let (start, end) = (WINDOW_START, WINDOW_END);
    let seeded = &mut source.seeded;
    let below = seeded.between(i64::MIN, start - 1);
    let above = seeded.between(end + 1, i64::MAX);
    let late = seeded.between(first, end - 1);
    let mut runs = vec![
        (late, late, vec![]),
        (late, late + 1, vec![]),
        (first, first, vec![]),
        (end, end, vec![]),
        (end - 1, end, vec![]),
        (end, late, vec![BACKWARD]),
        (late + 1, late, vec![BACKWARD]),
        (below, below, vec![BELOW, TOO_SOON]),
        (start - 1, start, vec![BELOW, TOO_SOON]),
        (start - 1, late, vec![BELOW, TOO_SOON]),
        (late, start - 1, vec![BELOW, BACKWARD]),
        (late, below, vec![BELOW, BACKWARD]),
        (late, above, vec![ABOVE]),
        (late, end + 1, vec![ABOVE]),
        (end, end + 1, vec![ABOVE]),
        (end + 1, end + 1, vec![ABOVE]),
        (end + 1, end, vec![ABOVE, BACKWARD]),
        (above, late, vec![ABOVE, BACKWARD]),
        (below, above, vec![BELOW, ABOVE, TOO_SOON]),
        (above, below, vec![BELOW, ABOVE, BACKWARD]),
        (i64::MIN, i64::MAX, vec![BELOW, ABOVE, TOO_SOON]),
        (i64::MAX, i64::MIN, vec![BELOW, ABOVE, BACKWARD]),
    ];
    if first > start {
        let early = seeded.between(start + 1, first - 1);
        runs.extend([
            (early, late, vec![UNRULED]),
            (early, early, vec![UNRULED]),
            (start, start, vec![UNRULED]),
            (first - 1, first - 1, vec![UNRULED]),
            (first - 1, first, vec![UNRULED]),
            (early, early - 1, vec![BACKWARD, UNRULED]),
            (first - 1, start, vec![BACKWARD, UNRULED]),
            (early, start - 1, vec![BELOW, BACKWARD, UNRULED]),
            (early, end + 1, vec![ABOVE, UNRULED]),
            (early, above, vec![ABOVE, UNRULED]),
            // 16 looks at the start alone.
            (late, early, vec![BACKWARD]),
        ]);
    }
    runs
}

/// Runs after a tally with a later end, of which some start too soon.
fn runs_after_later(source: &mut Source, first: i64, later: i64) -> Vec<Faulty> {
    let seeded = &mut source.seeded;
    let sooner = seeded.between(WINDOW_START, later - 1);
    let week = later.saturating_add(7 * TICKS_PER_DAY);
    let above = seeded.between(WINDOW_END + 1, i64::MAX);
    let unruled = |from: i64, mut causes: Vec<&'static str>| {
        if from < first {
            causes.push(UNRULED);
        }
        causes
    };
    vec![
        (later, later, unruled(later, vec![])),
        (later, week.min(WINDOW_END), unruled(later, vec![])),
        (WINDOW_END, WINDOW_END, vec![]),
        (later - 1, later, unruled(later - 1, vec![TOO_SOON])),
        (later - 1, later - 1, unruled(later - 1, vec![TOO_SOON])),
        (sooner, sooner, unruled(sooner, vec![TOO_SOON])),
        (sooner, WINDOW_END, unruled(sooner, vec![TOO_SOON])),
        (sooner, above, unruled(sooner, vec![ABOVE, TOO_SOON])),
        (later, above, unruled(later, vec![ABOVE])),
        (later, later - 1, unruled(later, vec![BACKWARD])),
        (
            sooner,
            WINDOW_START - 1,
            unruled(sooner, vec![BELOW, BACKWARD, TOO_SOON]),
        ),
    ]
}

fn ask(
    section: &mut Section,
    source: &mut Source,
    row: &[Rule],
    of_row: Result<(), u32>,
) -> Result<(), Enough> {
    let first = source.first_with_rule(row);
    let later = match source.seeded.one_in(2) {
        true => source.seeded.between(WINDOW_START + 2, WINDOW_END),
        false => source
            .seeded
            .between(first.max(WINDOW_START + 2), WINDOW_END),
    };
    let after_later = Tally {
        end: UtcTick { ticks: later },
        ..source.seeded.tally_until(WINDOW_START)
    };
    let mut asked = Vec::new();
    for run in runs_after_the_start(source, first) {
        asked.push((reference::fresh(), run));
    }
    for run in runs_after_later(source, first, later) {
        asked.push((after_later, run));
    }
    let mut counter = Counter::of(source.calendar, row);
    for (tally, (from, to, causes)) in asked {
        for cause in &causes {
            section.saw(cause);
        }
        let run = Run { from, to };
        let fails = source.seeded.tally_that_fails();
        let of_run = first_number(&causes);
        for (tally, expected) in [(tally, of_run), (fails, Err(NO_TALLY))] {
            let by_reference = match reference::book(&mut counter, tally, run).refusal {
                0 => Ok(()),
                number => Err(number),
            };
            let input = (FirstRules(row), tally, run);
            by_the_table(section, input, by_reference, of_row.and(expected))?;
            compare_booked(section, row, &mut counter, tally, run)?;
        }
    }
    Ok(())
}

/// Rows of any length with a fault in the first rule, in the last or in any
/// other, also in one that has no part in the answer.
fn whole_row_checked(basis: &Basis) -> Section {
    let name = "the whole row is checked, by book";
    let mut source = Source::new(basis, name);
    let outcomes = outcomes(&[8, 9, 10, 11, 12]);
    let mut faults = row_faults();
    faults.retain(|fault| fault.number() != RULE_COUNT);
    Section::run(name, &outcomes, 3_000, |section| {
        for round in 0..LONG_ROWS {
            let count = any_length(&mut source);
            let mut outgoing = Outgoing {
                name: Vec::new(),
                row: source.zone(count),
            };
            // In the window's last year every row has a rule.
            let run = Run {
                from: WINDOW_END - 200 * TICKS_PER_DAY,
                to: WINDOW_END - source.seeded.between(0, 200 * TICKS_PER_DAY),
            };
            let mut ask = |row: &[Rule]| {
                let mut counter = Counter::of(&basis.calendar, row);
                compare_booked(section, row, &mut counter, reference::fresh(), run)
            };
            ask(&outgoing.row)?;

            let fault = faults[round % faults.len()];
            let any = source.seeded.between_usize(0, count - 1);
            let rule = source.seeded.pick(&[0, count - 1, count - 1, any]);
            let target = Target {
                rule,
                before: rule.checked_sub(1),
            };
            fault.put(&mut source, &mut outgoing, target);
            ask(&outgoing.row)?;
        }
        Ok(())
    })
}
