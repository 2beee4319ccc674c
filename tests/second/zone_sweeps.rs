//! UTC and local time at both sides of every switch that there can be: every
//! bias, every yearly date in years of every kind, every day of some years,
//! every second and every millisecond. Every yearly date has a day in every month of 400 years, and days that no
//! date can have are refused.

use crate::library::{self, LocalAnswer, LocalTick, Rule, SystemTime, UtcAnswer, UtcTick};
use crate::record_calls::FirstRules;
use crate::report::{Enough, Outcome, Section};
use crate::zone_calls::{compare_listed, compare_shown};
use crate::zone_reference::{Dates, Zone, MOST_BIAS, OUTSIDE};
use crate::zone_rules::{days_of_month, DATE};
use crate::Basis;
use std::ops::RangeInclusive;

pub fn sections(basis: &Basis) -> Vec<Section> {
    vec![
        every_bias(basis),
        every_date(basis),
        every_month(basis),
        no_such_days(basis),
        every_millisecond(basis),
        every_number_of_seconds(basis),
    ]
}

/// Every bias without dates, as the standard sum and as the daylight sum.
fn every_bias(basis: &Basis) -> Section {
    let name = "every bias: both calls";
    Section::run(name, &[Outcome::Answered], 50_000, |section| {
        let april = SystemTime::from_row([0, 4, 0, 1, 2, 0, 0, 0]);
        let october = SystemTime::from_row([0, 10, 0, 5, 3, 0, 0, 0]);
        let unset = SystemTime::default();
        for bias in -MOST_BIAS as i32..=MOST_BIAS as i32 {
            for (dates, biases) in [
                ([unset, unset], [bias, 0, 0]),
                ([october, april], [bias, 0, -bias]),
                ([april, october], [0, -60, bias]),
            ] {
                at_switches(section, basis, rule(dates, biases), &[2023])?;
            }
        }
        Ok(())
    })
}

/// Twenty-eight years in which every kind of year comes up, those around
/// years that 100 divides, and the ends of the window.
fn years() -> Vec<i16> {
    let mut years: Vec<i16> = (1999..2027).collect();
    years.extend([1602, 1700, 1800, 1896, 1900, 2100, 2400, 30_800, 30_827]);
    years
}

fn every_date(basis: &Basis) -> Section {
    let name = "every date of a switch: both calls";
    // The first switch of 1602 can lie before the window.
    let outcomes = [Outcome::Answered, Outcome::Refused(OUTSIDE)];
    Section::run(name, &outcomes, 100_000, |section| {
        let biases = [-60, 0, -60];
        let years = years();
        for month in 1..=12 {
            for weekday in 0..=6 {
                for day in 1..=5 {
                    let date = SystemTime::from_row([0, month, weekday, day, 2, 30, 0, 0]);
                    let other = SystemTime {
                        month: (month + 5) % 12 + 1,
                        hour: 23,
                        minute: 59,
                        second: 59,
                        millisecond: 999,
                        ..date
                    };
                    at_switches(section, basis, rule([date, other], biases), &years)?;
                }
            }
        }
        for year in [1602, 1900, 2000, 2001, 2004, 30_827] {
            for month in 1..=12 {
                for day in 1..=days_of_month(&basis.calendar, year, month) {
                    let date = SystemTime::from_row([year, month, 9, day, 0, 30, 0, 0]);
                    let other = SystemTime {
                        month: (month + 5) % 12 + 1,
                        day: 1,
                        ..date
                    };
                    at_switches(section, basis, rule([date, other], biases), &[year as i16])?;
                }
            }
        }
        Ok(())
    })
}

/// The 400 years after which weekdays and leap years come again.
const CYCLE: RangeInclusive<i16> = 1603..=2002;

/// A yearly date in every month of 400 years, with every weekday and every
/// occurrence, as the date of each switch: there is always a day, so UTC to
/// local answers.
fn every_month(basis: &Basis) -> Section {
    let name = "every month of 400 years: utc_to_local";
    Section::run(name, &[Outcome::Answered], 672_000, |section| {
        for month in 1..=12 {
            for weekday in 0..=6 {
                for day in 1..=5 {
                    let date = SystemTime::from_row([0, month, weekday, day, 2, 30, 0, 0]);
                    let other = SystemTime {
                        month: (month + 5) % 12 + 1,
                        ..date
                    };
                    let row = [rule([other, date], [-60, 0, -60])];
                    let zone = Zone::of(&basis.calendar, &row).expect("a row without a fault");
                    for utc in CYCLE.flat_map(|year| around_switches(&zone, year)) {
                        let local = zone.utc_to_local(utc).expect("a day for each date");
                        let given = library::utc_to_local(&row, UtcTick { ticks: utc });
                        let expected = LocalAnswer::of(local);
                        section.compare((FirstRules(&row), utc), given, expected)?;
                    }
                }
            }
        }
        Ok(())
    })
}

/// Both sides of the two switches of a year.
fn around_switches(zone: &Zone, year: i16) -> [i64; 4] {
    match zone.year(year).map(|year| year.dates) {
        Some(Dates::Set {
            daylight_from: d,
            standard_from: s,
        }) => [d - 1, d, s - 1, s],
        _ => panic!("no switches in {year}"),
    }
}

/// Every second of a minute and every millisecond of a second, as the time of
/// each switch.
fn every_millisecond(basis: &Basis) -> Section {
    let name = "every second and millisecond of a switch: both calls";
    Section::run(name, &[Outcome::Answered], 17_440, |section| {
        let seconds = (0..60).flat_map(|second| [0, 1, 999].map(|part| [second, part]));
        let milliseconds = (0..1_000).flat_map(|part| [0, 59].map(|second| [second, part]));
        for [second, part] in seconds.chain(milliseconds) {
            let october = SystemTime::from_row([0, 10, 0, 5, 23, 59, second, part]);
            let march = SystemTime::from_row([0, 3, 0, 5, 0, 0, second, part]);
            at_switches(
                section,
                basis,
                rule([october, march], [-60, 0, -60]),
                &[2023],
            )?;
        }
        Ok(())
    })
}

/// Every number of 16 bits as the second and as the millisecond of either
/// date: below 60 and below 1000 there is an answer, and from there on 10.
fn every_number_of_seconds(basis: &Basis) -> Section {
    let name = "every number as second and millisecond: utc_to_local";
    let outcomes = [Outcome::Answered, Outcome::Refused(DATE)];
    Section::run(name, &outcomes, 524_288, |section| {
        let utc = 133_000_000_000_000_000;
        let yearly = SystemTime::from_row([0, 10, 0, 5, 23, 59, 0, 0]);
        let dated = SystemTime::from_row([2024, 12, 0, 31, 23, 59, 0, 0]);
        for number in 0..=u16::MAX {
            for date in [yearly, dated] {
                let second = SystemTime {
                    second: number,
                    ..date
                };
                let millisecond = SystemTime {
                    millisecond: number,
                    ..date
                };
                for (wrong, first_beyond) in [(second, 60), (millisecond, 1_000)] {
                    for dates in [[wrong, date], [date, wrong]] {
                        let row = [rule(dates, [-60, 0, -60])];
                        let expected = match number < first_beyond {
                            true => {
                                let zone = Zone::of(&basis.calendar, &row);
                                let local = zone.and_then(|zone| zone.utc_to_local(utc));
                                LocalAnswer::of(local.expect("a row without a fault"))
                            }
                            false => LocalAnswer::refused(DATE),
                        };
                        let given = library::utc_to_local(&row, UtcTick { ticks: utc });
                        section.compare((&row, number), given, expected)?;
                    }
                }
            }
        }
        Ok(())
    })
}

/// Occurrences 0 and 6, a day 0, and days behind a month's last: 10, by both
/// calls, for either date.
fn no_such_days(basis: &Basis) -> Section {
    let name = "days that no date can have: both calls";
    let outcomes = [Outcome::Refused(DATE)];
    Section::run(name, &outcomes, 3_744, |section| {
        let mut dates = Vec::new();
        for month in 1..=12 {
            for weekday in 0..=6 {
                dates.extend([0, 6, 7, u16::MAX].map(|day| [0, month, weekday, day]));
            }
            for year in [1601, 1900, 2000, 2023, 2024, 30_827] {
                let last = days_of_month(&basis.calendar, year, month);
                dates.extend([0, last + 1, 32, u16::MAX].map(|day| [year, month, 0, day]));
            }
        }
        let tick = 133_000_000_000_000_000;
        for [year, month, weekday, day] in dates {
            let wrong = SystemTime::from_row([year, month, weekday, day, 2, 30, 0, 0]);
            let right = SystemTime { day: 1, ..wrong };
            for dates in [[wrong, right], [right, wrong], [wrong, wrong]] {
                let row = [rule(dates, [-60, 0, -60])];
                let given = library::utc_to_local(&row, UtcTick { ticks: tick });
                section.compare(&row, given, LocalAnswer::refused(DATE))?;
                let given = library::local_to_utc(&row, LocalTick { ticks: tick });
                section.compare(&row, given, UtcAnswer::refused(DATE))?;
            }
        }
        Ok(())
    })
}

fn rule([standard_date, daylight_date]: [SystemTime; 2], biases: [i32; 3]) -> Rule {
    let [bias, standard_bias, daylight_bias] = biases;
    Rule {
        year: 0,
        active: 1,
        padding: 0,
        bias,
        standard_bias,
        daylight_bias,
        standard_date,
        daylight_date,
    }
}

/// Asks on both sides of the switches of some years, or at some tick where
/// there are none.
fn at_switches(
    section: &mut Section,
    basis: &Basis,
    rule: Rule,
    years: &[i16],
) -> Result<(), Enough> {
    let row = [rule];
    let zone = Zone::of(&basis.calendar, &row);
    for &year in years {
        let of_year = zone.as_ref().ok().and_then(|zone| zone.year(year));
        let switches = match of_year.map(|of_year| of_year.dates) {
            Some(Dates::Set {
                daylight_from,
                standard_from,
            }) => [daylight_from, standard_from],
            _ => [133_000_000_000_000_000, 134_000_000_000_000_000],
        };
        for utc in switches.into_iter().flat_map(|switch| [switch - 1, switch]) {
            compare_shown(section, &row, &zone, utc)?;
            if let Ok(Ok(local)) = zone.as_ref().map(|zone| zone.utc_to_local(utc)) {
                compare_listed(section, &row, &zone, local)?;
            }
        }
    }
    Ok(())
}
