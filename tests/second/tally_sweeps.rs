//! Runs of every length around every place at which the local weekday or the
//! bias can change, in seeded rows, and runs of up to the whole window.

use crate::library::{Rule, TallyAnswer};
use crate::record_calls::FirstRules;
use crate::report::{Enough, Outcome, Section};
use crate::run_ticks::{Counter, Run, Step};
use crate::seeded::Seeded;
use crate::seeded_rules::Source;
use crate::tally_calls::compare_booked;
use crate::tally_reference as reference;
use crate::time_reference::{TICKS_PER_DAY, TICKS_PER_HOUR};
use crate::zone_example_rows::zones;
use crate::zone_reference::{in_window, Dates, WINDOW_END, WINDOW_START};
use crate::zone_ticks::utc_ticks;
use crate::Basis;

/// Seeded rows, and places in each.
const ROWS: u64 = 2_500;
const PLACES: u64 = 10;

/// Runs of up to this many ticks are also counted tick by tick.
const FEW: i64 = 100;

/// Seeded rows, beside those of the examples, for which the whole window is
/// walked.
const LONG_ROWS: usize = 16;

pub fn sections(basis: &Basis) -> Vec<Section> {
    vec![around_places(basis), long_runs(basis)]
}

fn around_places(basis: &Basis) -> Section {
    let name = "book, around midnights and switches";
    let mut source = Source::new(basis, name);
    Section::run(name, &[Outcome::Answered], 200_000, |section| {
        section.want(&CASES);
        for _ in 0..ROWS {
            let count = source.zone_length();
            let row = source.zone(count);
            let first = source.first_with_rule(&row);
            let mut places = utc_ticks(&basis.calendar, &mut source.seeded, &row);
            places.retain(|&tick| in_window(tick) && tick >= first);
            let mut counter = Counter::of(&basis.calendar, &row);
            for _ in 0..PLACES {
                let place = source.seeded.pick(&places);
                for run in runs_at(&mut source.seeded, &counter, place) {
                    let [from, to] = [run.from, run.to].map(|tick| tick.clamp(first, WINDOW_END));
                    let run = Run { from, to };
                    compare_counts(section, &mut counter, run)?;
                    let tally = match source.seeded.one_in(2) {
                        true => reference::fresh(),
                        false => source.seeded.tally_until(from),
                    };
                    compare_booked(section, &row, &mut counter, tally, run)?;
                }
            }
        }
        Ok(())
    })
}

/// Runs at a place, at the local midnights before and after it, and over the
/// local day, week and year that begin there. Some may leave the window.
fn runs_at(seeded: &mut Seeded, counter: &Result<Counter, u32>, place: i64) -> Vec<Run> {
    let shown = match counter {
        Ok(counter) => counter.zone.utc_to_local(place).unwrap_or(place),
        Err(_) => place,
    };
    let before = place - shown % TICKS_PER_DAY;
    let after = before + TICKS_PER_DAY;
    let few = seeded.between(1, FEW / 2);
    let hours = seeded.between(1, 30 * TICKS_PER_HOUR);
    let days = seeded.between(1, 9) * TICKS_PER_DAY;
    let length = seeded.run_length();
    let runs = [
        (place, place),
        (place - 1, place),
        (place, place + 1),
        (place - 1, place + 1),
        (place - few, place + few),
        (place - hours, place + hours),
        (place - hours, place),
        (place, place + days),
        (place, place.saturating_add(length)),
        (place - length / 2, place.saturating_add(length / 2)),
        (before - 1, before + 1),
        (before, after),
        (before - hours, after + hours),
        (after - few, after + few),
        (after, after + 7 * TICKS_PER_DAY),
        (after, after.saturating_add(365 * TICKS_PER_DAY)),
    ];
    runs.map(|(from, to)| Run { from, to }).to_vec()
}

/// The reference's ways of counting against each other, and what the run
/// meets.
fn compare_counts(
    section: &mut Section,
    counter: &mut Result<Counter, u32>,
    run: Run,
) -> Result<(), Enough> {
    let Ok(counter) = counter else {
        return Ok(());
    };
    let by_midnights = counter.by_midnights(run);
    let length = run.to - run.from;
    if length <= FEW {
        let tick_by_tick = counter.tick_by_tick(run);
        section.compare(("tick by tick", run), Ok(by_midnights), Ok(tick_by_tick))?;
    } else if length > 366 * TICKS_PER_DAY {
        let by_years = counter.by_years(run);
        section.compare(("by years", run), Ok(by_years), Ok(by_midnights))?;
    }
    see(section, counter, run);
    Ok(())
}

const EMPTY: &str = "an empty run";
const ONE_TICK: &str = "one tick";
const AT_START: &str = "from the window's start";
const AT_END: &str = "to the window's end";
const EMPTY_AT_END: &str = "an empty run at the window's end";
const MIDNIGHT: &str = "over a local midnight";
const SWITCH: &str = "over a switch";
const AT_MIDNIGHT: &str = "a switch at a local midnight";
const NEXT_RULE: &str = "over a new year to the next rule";
const SAME_RULE: &str = "another bias at a new year in one rule";
const BACK: &str = "the clock goes back over a midnight";
const LEFT_OUT: &str = "a local day left out";
const NOT_SET: &str = "dates not set";
const OTHER_YEAR: &str = "dates of another year";
const NORTH: &str = "daylight within the year";
const SOUTH: &str = "daylight over the new year";
const TEN_YEARS: &str = "ten years or more";

const CASES: [&str; 17] = [
    EMPTY,
    ONE_TICK,
    AT_START,
    AT_END,
    EMPTY_AT_END,
    MIDNIGHT,
    SWITCH,
    AT_MIDNIGHT,
    NEXT_RULE,
    SAME_RULE,
    BACK,
    LEFT_OUT,
    NOT_SET,
    OTHER_YEAR,
    NORTH,
    SOUTH,
    TEN_YEARS,
];

/// Counts what a run meets.
fn see(section: &mut Section, counter: &Counter, run: Run) {
    match run.to - run.from {
        0 if run.to == WINDOW_END => section.saw(EMPTY_AT_END),
        0 => section.saw(EMPTY),
        1 => section.saw(ONE_TICK),
        _ => {}
    }
    if run.from == run.to {
        return;
    }
    if run.from == WINDOW_START {
        section.saw(AT_START);
    }
    if run.to == WINDOW_END {
        section.saw(AT_END);
    }
    if run.to - run.from > 3_660 * TICKS_PER_DAY {
        // What it meets in between is too much to be told.
        return section.saw(TEN_YEARS);
    }
    if let Some(year) = counter.zone.year(counter.zone.year_of(run.from)) {
        section.saw(match year.dates {
            Dates::NotSet => NOT_SET,
            Dates::OfAnotherYear => OTHER_YEAR,
            Dates::Set {
                daylight_from,
                standard_from,
            } if daylight_from < standard_from => NORTH,
            Dates::Set { .. } => SOUTH,
        });
    }
    let mut before: Option<Step> = None;
    counter.walk(run, |step| {
        if let Some(before) = before {
            see_change(section, before, step);
        }
        before = Some(step);
    });
}

/// From one step of a run to the next.
fn see_change(section: &mut Section, before: Step, after: Step) {
    let days = after.local_day() - before.local_day();
    if days == 1 {
        section.saw(MIDNIGHT);
    }
    if before.rule_year != after.rule_year {
        section.saw(NEXT_RULE);
    }
    if before.ahead() == after.ahead() {
        return;
    }
    if before.year == after.year {
        section.saw(SWITCH);
        if after.local % TICKS_PER_DAY == 0 || (before.ahead() + after.from) % TICKS_PER_DAY == 0 {
            section.saw(AT_MIDNIGHT);
        }
    } else if before.rule_year == after.rule_year {
        section.saw(SAME_RULE);
    }
    if days < 0 {
        section.saw(BACK);
    }
    if days > 1 {
        section.saw(LEFT_OUT);
    }
}

/// The whole window is walked once in each row, and long runs at its ends and
/// in it are booked.
fn long_runs(basis: &Basis) -> Section {
    let name = "book, up to the whole window";
    let mut source = Source::new(basis, name);
    Section::run(name, &[Outcome::Answered], 300, |section| {
        section.want(&LONG_CASES);
        let mut rows: Vec<Vec<Rule>> = zones().into_iter().map(|zone| zone.0).collect();
        for place in 0..LONG_ROWS {
            let count = match place {
                0 => 1_024,
                1 => 1_023,
                2 => source.seeded.between_usize(50, 500),
                _ => source.seeded.between_usize(1, 5),
            };
            rows.push(source.zone(count));
        }
        for row in &rows {
            one_row(section, &mut source, row)?;
        }
        Ok(())
    })
}

const WHOLE_WINDOW: &str = "the whole window";
const MANY_RULES: &str = "in a row of 1,024 rules";
const ONE_RULE: &str = "in a row of one rule";

const LONG_CASES: [&str; 3] = [WHOLE_WINDOW, MANY_RULES, ONE_RULE];

fn one_row(section: &mut Section, source: &mut Source, row: &[Rule]) -> Result<(), Enough> {
    let calendar = source.calendar;
    let first = source.first_with_rule(row);
    let mut counter = Counter::of(calendar, row);
    let all = Run {
        from: first,
        to: WINDOW_END,
    };
    // By the walk, whatever is said by years.
    if let Ok(counter) = &mut counter {
        let [walked, by_years] = [counter.by_midnights(all), counter.by_years(all)];
        let of = |totals| {
            let mut tally = reference::fresh();
            tally.end.ticks = all.to;
            tally.totals = totals;
            TallyAnswer::of(tally)
        };
        section.compare((FirstRules(row), all), of(by_years), of(walked))?;
    }
    match row.len() {
        1 => section.saw(ONE_RULE),
        1_024 => section.saw(MANY_RULES),
        _ => {}
    }
    if first == WINDOW_START {
        section.saw(WHOLE_WINDOW);
    }
    let seeded = &mut source.seeded;
    let mut runs = vec![all];
    for _ in 0..3 {
        let from = seeded.between(first, WINDOW_END);
        runs.push(Run {
            from,
            to: seeded.between(from, WINDOW_END),
        });
    }
    for _ in 0..6 {
        let from = seeded.between(first, WINDOW_END);
        let years = seeded.between(1, 500 * 365 * TICKS_PER_DAY);
        runs.push(Run {
            from,
            to: from.saturating_add(years).min(WINDOW_END),
        });
    }
    for run in runs {
        let tally = source.seeded.tally_until(run.from);
        compare_booked(section, row, &mut counter, tally, run)?;
    }
    Ok(())
}
