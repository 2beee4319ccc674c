//! The two calls between UTC and local time, against the reference: seeded
//! rows, and ticks around every place at which the bias can change.

use crate::calendar::Calendar;
use crate::lent_memory::{lend_input, Beside};
use crate::library::{self, LocalAnswer, LocalTick, Rule, UtcAnswer, UtcTick};
use crate::record_calls::FirstRules;
use crate::report::{Answer, Enough, Outcome, Section};
use crate::seeded_rules::Source;
use crate::time_reference::TICKS_PER_DAY;
use crate::zone_reference::{
    in_window, Dates, YearOfZone, Zone, NO_RULE, OUTSIDE, WINDOW_END, WINDOW_START,
};
use crate::zone_ticks::{local_ticks, utc_ticks};
use crate::Basis;

/// Seeded rows of each call.
const UTC_ROWS: u64 = 4_000;
const LOCAL_ROWS: u64 = 1_600;
const FEWEST: u64 = 300_000;

/// How many ticks a list can have.
pub const LISTS: [Outcome; 5] = [
    Outcome::Ticks(0),
    Outcome::Ticks(1),
    Outcome::Ticks(2),
    Outcome::Ticks(3),
    Outcome::Ticks(4),
];

pub fn sections(basis: &Basis) -> Vec<Section> {
    vec![utc_to_local(basis), local_to_utc(basis)]
}

/// A zone that is asked, or the number with which it is refused.
pub type Checked<'a> = Result<Zone<'a>, u32>;

/// What the library gave, and what the reference has. The row is the zone's.
type Pair<A> = (Beside<A, u8>, Beside<A, u8>);

fn shown(row: &[Rule], zone: &Checked, utc: i64) -> Pair<LocalAnswer> {
    let local = match zone {
        Ok(zone) => zone.utc_to_local(utc),
        Err(number) => Err(*number),
    };
    let expected = match local {
        Ok(local) => LocalAnswer::of(local),
        Err(number) => LocalAnswer::refused(number),
    };
    let given = lend_input(row, |row| {
        Beside::right(library::utc_to_local(row, UtcTick { ticks: utc }))
    });
    (given, Beside::right(expected))
}

fn listed(row: &[Rule], zone: &Checked, local: i64) -> Pair<UtcAnswer> {
    let list = match zone {
        Ok(zone) => zone.local_to_utc(local),
        Err(number) => Err(*number),
    };
    let expected = match list {
        Ok(list) => UtcAnswer::of(&list),
        Err(number) => UtcAnswer::refused(number),
    };
    let given = lend_input(row, |row| {
        Beside::right(library::local_to_utc(row, LocalTick { ticks: local }))
    });
    (given, Beside::right(expected))
}

/// Compares one answer of each call. Of a list only the refusal counts as an
/// outcome.
pub fn compare_shown(
    section: &mut Section,
    row: &[Rule],
    zone: &Checked,
    utc: i64,
) -> Result<(), Enough> {
    let (given, expected) = shown(row, zone, utc);
    section.compare((FirstRules(row), utc), given, expected)
}

pub fn compare_listed(
    section: &mut Section,
    row: &[Rule],
    zone: &Checked,
    local: i64,
) -> Result<(), Enough> {
    let (given, expected) = listed(row, zone, local);
    section.compare((FirstRules(row), local), AnyList(given), AnyList(expected))
}

#[derive(PartialEq, Debug)]
struct AnyList(Beside<UtcAnswer, u8>);

impl Answer for AnyList {
    fn outcome(&self) -> Outcome {
        Outcome::by_number(self.0.answer.refusal)
    }
}

fn utc_to_local(basis: &Basis) -> Section {
    let name = "utc_to_local";
    let outcomes = [
        Outcome::Answered,
        Outcome::Refused(OUTSIDE),
        Outcome::Refused(NO_RULE),
    ];
    let mut source = Source::new(basis, name);
    Section::run(name, &outcomes, FEWEST, |section| {
        section.want(&CASES);
        for _ in 0..UTC_ROWS {
            let count = source.zone_length();
            let row = source.zone(count);
            let zone = Zone::of(&basis.calendar, &row);
            for utc in utc_ticks(&basis.calendar, &mut source.seeded, &row) {
                compare_shown(section, &row, &zone, utc)?;
                if let Some(year) = year_in_force(&zone, utc) {
                    see(section, &basis.calendar, &year, utc);
                }
            }
        }
        Ok(())
    })
}

fn local_to_utc(basis: &Basis) -> Section {
    let name = "local_to_utc";
    let mut outcomes = LISTS.to_vec();
    outcomes.push(Outcome::Refused(OUTSIDE));
    let mut source = Source::new(basis, name);
    Section::run(name, &outcomes, FEWEST, |section| {
        section.want(&LISTED_CASES);
        for _ in 0..LOCAL_ROWS {
            let count = source.zone_length();
            let row = source.zone(count);
            let zone = Zone::of(&basis.calendar, &row);
            for local in local_ticks(&basis.calendar, &mut source.seeded, &row) {
                let (given, expected) = listed(&row, &zone, local);
                let list = expected.answer.list().unwrap_or_default();
                section.compare((FirstRules(&row), local), given, expected)?;
                see_list(section, &basis.calendar, local, &list);
            }
        }
        Ok(())
    })
}

const TWO_YEARS: &str = "ticks of two UTC years";
const EARLY_LOCAL: &str = "shown in 1601";
const LATE_LOCAL: &str = "shown in 30828";

/// What a list can meet.
const LISTED_CASES: [&str; 3] = [TWO_YEARS, EARLY_LOCAL, LATE_LOCAL];

fn see_list(section: &mut Section, calendar: &Calendar, local: i64, list: &[i64]) {
    let (Some(first), Some(last)) = (list.first(), list.last()) else {
        return;
    };
    let [first, last] = [first, last].map(|tick| calendar.day(tick / TICKS_PER_DAY).year);
    if first != last {
        section.saw(TWO_YEARS);
    }
    if local < WINDOW_START {
        section.saw(EARLY_LOCAL);
    }
    if local >= WINDOW_END {
        section.saw(LATE_LOCAL);
    }
}

const NOT_SET: &str = "dates not set";
const OTHER_YEAR: &str = "dates of another year";
const NEVER: &str = "D = S";
const EQUAL_SUMS: &str = "equal sums";
const NORTH_STANDARD: &str = "standard, D < S";
const NORTH_DAYLIGHT: &str = "daylight, D < S";
const SOUTH_STANDARD: &str = "standard, S < D";
const SOUTH_BEFORE: &str = "daylight before S, S < D";
const SOUTH_AFTER: &str = "daylight from D, S < D";
const OUT_BEFORE: &str = "a switch before its UTC year";
const OUT_AFTER: &str = "a switch after its UTC year";
const EARLY_RULE: &str = "a rule from before 1602";

/// What an answered tick can meet.
const CASES: [&str; 12] = [
    NOT_SET,
    OTHER_YEAR,
    NEVER,
    EQUAL_SUMS,
    NORTH_STANDARD,
    NORTH_DAYLIGHT,
    SOUTH_STANDARD,
    SOUTH_BEFORE,
    SOUTH_AFTER,
    OUT_BEFORE,
    OUT_AFTER,
    EARLY_RULE,
];

fn year_in_force(zone: &Checked, utc: i64) -> Option<YearOfZone> {
    let zone = zone.as_ref().ok()?;
    match in_window(utc) {
        true => zone.year(zone.year_of(utc)),
        false => None,
    }
}

/// Counts what an answered tick meets.
fn see(section: &mut Section, calendar: &Calendar, year: &YearOfZone, utc: i64) {
    if year.rule_year < 1602 {
        section.saw(EARLY_RULE);
    }
    let (daylight_from, standard_from) = match year.dates {
        Dates::NotSet => return section.saw(NOT_SET),
        Dates::OfAnotherYear => return section.saw(OTHER_YEAR),
        Dates::Set {
            daylight_from,
            standard_from,
        } => (daylight_from, standard_from),
    };
    if year.standard == year.daylight {
        section.saw(EQUAL_SUMS);
    }
    let first = calendar.first_day(year.year) * TICKS_PER_DAY;
    let next = calendar.first_day(year.year + 1) * TICKS_PER_DAY;
    for switch in [daylight_from, standard_from] {
        if switch < first {
            section.saw(OUT_BEFORE);
        }
        if switch >= next {
            section.saw(OUT_AFTER);
        }
    }
    let daylight = year.is_daylight(utc);
    section.saw(if daylight_from == standard_from {
        NEVER
    } else if daylight_from < standard_from {
        match daylight {
            true => NORTH_DAYLIGHT,
            false => NORTH_STANDARD,
        }
    } else if !daylight {
        SOUTH_STANDARD
    } else if utc < standard_from {
        SOUTH_BEFORE
    } else {
        SOUTH_AFTER
    });
}
