//! The refusals of the two calls between UTC and local time, and their order.
//! A sound row is asked; then one or two faults are put into it, and ticks
//! that are faults themselves are handed in beside them. The number is that
//! of the fault which comes first in document 01's order, told by the table
//! beside each fault. The reference is held to it, and the library to the
//! reference.

use crate::definition_damage::Target;
use crate::library::Rule;
use crate::record_calls::{outcomes, FirstRules};
use crate::record_reference::{MOST_RULES, RULE_COUNT};
use crate::refusal_order::{by_the_table, in_order, pairs};
use crate::report::{Enough, Section};
use crate::row_damage::{Outgoing, RowFault};
use crate::seeded_rules::Source;
use crate::time_reference::TICKS_PER_DAY;
use crate::zone_calls::{compare_listed, compare_shown};
use crate::zone_reference::{Zone, NO_RULE, OUTSIDE, WINDOW_END, WINDOW_START};
use crate::Basis;

/// Seeded inputs for each pair of faults.
const INPUTS: u64 = 60;

/// Damaged rows of any length up to the longest.
const LONG_ROWS: usize = 1_500;

pub fn sections(basis: &Basis) -> Vec<Section> {
    vec![
        in_pairs(
            basis,
            "order of refusals: utc_to_local",
            &[6, 8, 9, 10, 11, 12, OUTSIDE, NO_RULE],
            ask_utc,
        ),
        in_pairs(
            basis,
            "order of refusals: local_to_utc",
            &[6, 8, 9, 10, 11, 12, OUTSIDE],
            ask_local,
        ),
        whole_row_checked(basis),
    ]
}

/// The faults that a row can have for these calls, which take no name.
pub fn row_faults() -> Vec<RowFault> {
    let names = [
        RowFault::OddName,
        RowFault::LongName,
        RowFault::LoneSurrogate,
    ];
    let mut faults = RowFault::ALL.to_vec();
    faults.retain(|fault| !names.contains(fault));
    faults
}

/// Asks a call about every kind of tick for a row, given the row's number.
type Ask = fn(&mut Section, &mut Source, &[Rule], Result<(), u32>) -> Result<(), Enough>;

fn in_pairs(basis: &Basis, name: &str, refusals: &[u32], ask: Ask) -> Section {
    let mut source = Source::new(basis, name);
    Section::run(name, &outcomes(refusals), 20_000, |section| {
        for faults in pairs(&row_faults()) {
            let slow = faults.0 == RowFault::ManyRules || faults.1 == RowFault::ManyRules;
            for _ in 0..if slow { INPUTS / 6 } else { INPUTS } {
                let count = source.seeded.between_usize(2, 4);
                let mut outgoing = Outgoing {
                    name: Vec::new(),
                    row: source.zone(count),
                };
                ask(section, &mut source, &outgoing.row, Ok(()))?;
                let put = in_order(faults, |fault| {
                    let target = fault.target(&mut source, &outgoing);
                    (fault.place(target), target)
                });
                // The one that comes first is put in last, so that it is
                // surely there.
                for &(fault, target) in put.iter().rev() {
                    fault.put(&mut source, &mut outgoing, target);
                }
                let number = put[0].0.number();
                ask(section, &mut source, &outgoing.row, Err(number))?;
            }
        }
        Ok(())
    })
}

/// The first tick of the first rule's year, if it is after the window's start.
fn first_with_rule(source: &Source, row: &[Rule]) -> Option<i64> {
    let year = row.first()?.year;
    match year {
        1_603..=30_827 => Some(source.calendar.first_day(year as i16) * TICKS_PER_DAY),
        _ => None,
    }
}

fn ask_utc(
    section: &mut Section,
    source: &mut Source,
    row: &[Rule],
    of_row: Result<(), u32>,
) -> Result<(), Enough> {
    let below = source.seeded.between(i64::MIN, WINDOW_START - 1);
    let above = source.seeded.between(WINDOW_END, i64::MAX);
    let mut ticks = vec![
        // Before any rule, and yet 15 comes first.
        (below, Err(OUTSIDE)),
        (0, Err(OUTSIDE)),
        (WINDOW_START - 1, Err(OUTSIDE)),
        (above, Err(OUTSIDE)),
        (WINDOW_END, Err(OUTSIDE)),
        (WINDOW_END - 1, Ok(())),
    ];
    match first_with_rule(source, row) {
        Some(first) => ticks.extend([
            (WINDOW_START, Err(NO_RULE)),
            (source.seeded.between(WINDOW_START, first - 1), Err(NO_RULE)),
            (first - 1, Err(NO_RULE)),
            (first, Ok(())),
            (source.seeded.between(first, WINDOW_END - 1), Ok(())),
        ]),
        None => ticks.push((WINDOW_START, Ok(()))),
    }
    let zone = Zone::of(source.calendar, row);
    for (utc, of_tick) in ticks {
        let by_reference = match &zone {
            Ok(zone) => zone.utc_to_local(utc).map(|_| ()),
            Err(number) => Err(*number),
        };
        let expected = of_row.and(of_tick);
        by_the_table(section, (FirstRules(row), utc), by_reference, expected)?;
        compare_shown(section, row, &zone, utc)?;
    }
    Ok(())
}

fn ask_local(
    section: &mut Section,
    source: &mut Source,
    row: &[Rule],
    of_row: Result<(), u32>,
) -> Result<(), Enough> {
    let negative = source.seeded.between(i64::MIN, -1);
    let mut ticks = vec![
        (i64::MIN, Err(OUTSIDE)),
        (negative, Err(OUTSIDE)),
        (-1, Err(OUTSIDE)),
        (0, Ok(())),
        // Nobody shows these, and there is no other refusal for them.
        (source.seeded.between(0, WINDOW_START), Ok(())),
        (source.seeded.between(WINDOW_END, i64::MAX), Ok(())),
        (i64::MAX, Ok(())),
        (source.seeded.between(WINDOW_START, WINDOW_END), Ok(())),
    ];
    if let Some(first) = first_with_rule(source, row) {
        // Before the first rule's year 16 is not given.
        let before = source.seeded.between(WINDOW_START, first - 1);
        ticks.extend([(before, Ok(())), (first - 1, Ok(())), (first, Ok(()))]);
    }
    let zone = Zone::of(source.calendar, row);
    for (local, of_tick) in ticks {
        let by_reference = match &zone {
            Ok(zone) => zone.local_to_utc(local).map(|_| ()),
            Err(number) => Err(*number),
        };
        let expected = of_row.and(of_tick);
        by_the_table(section, (FirstRules(row), local), by_reference, expected)?;
        compare_listed(section, row, &zone, local)?;
    }
    Ok(())
}

/// Rows of any length with a fault in the first rule, in the last or in any
/// other, also in one that has no part in the answer.
fn whole_row_checked(basis: &Basis) -> Section {
    let name = "the whole row is checked, by both calls";
    let mut source = Source::new(basis, name);
    let outcomes = outcomes(&[8, 9, 10, 11, 12]);
    let mut faults = row_faults();
    faults.retain(|fault| fault.number() != RULE_COUNT);
    Section::run(name, &outcomes, 5_000, |section| {
        for round in 0..LONG_ROWS {
            let count = any_length(&mut source);
            let mut outgoing = Outgoing {
                name: Vec::new(),
                row: source.zone(count),
            };
            ask_both(section, basis, &outgoing.row)?;

            let fault = faults[round % faults.len()];
            let any = source.seeded.between_usize(0, count - 1);
            let rule = source.seeded.pick(&[0, count - 1, count - 1, any]);
            let target = Target {
                rule,
                before: rule.checked_sub(1),
            };
            fault.put(&mut source, &mut outgoing, target);
            ask_both(section, basis, &outgoing.row)?;
        }
        Ok(())
    })
}

/// How many rules such a row has.
pub fn any_length(source: &mut Source) -> usize {
    match source.seeded.between(0, 19) {
        0 => source.seeded.pick(&[1_023, MOST_RULES, MOST_RULES]),
        1 => source.seeded.between_usize(100, 1_022),
        2..=5 => source.seeded.between_usize(8, 100),
        _ => source.seeded.between_usize(2, 8),
    }
}

/// Asks for a tick of the window's last year, which every row has a rule for,
/// and for the same tick as a local one.
fn ask_both(section: &mut Section, basis: &Basis, row: &[Rule]) -> Result<(), Enough> {
    let tick = WINDOW_END - 200 * TICKS_PER_DAY;
    let zone = Zone::of(&basis.calendar, row);
    compare_shown(section, row, &zone, tick)?;
    compare_listed(section, row, &zone, tick)
}
