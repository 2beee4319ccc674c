//! Zones that there are, as rows of rules, and the years in which a row says
//! what the zone's clocks did or are to do.

use crate::library::{Rule, SystemTime};
use crate::time_reference::TICKS_PER_MILLISECOND;

pub struct OutsideZone {
    /// As the system's zone data has it.
    pub name: &'static str,
    /// The first year and the last.
    pub years: (i16, i16),
    /// By how many ticks the row's switches come before the zone's.
    pub early: i64,
    pub row: Vec<Rule>,
}

/// Month, which Sunday, hour and minute.
type Sunday = [u16; 4];

pub fn zones() -> Vec<OutsideZone> {
    vec![
        // Until 1995 daylight time ended in September.
        zone(
            "Europe/Berlin",
            1981,
            [-60, 0, -60],
            &[
                (1981, [9, 5, 3, 0], [3, 5, 2, 0]),
                (1996, [10, 5, 3, 0], [3, 5, 2, 0]),
            ],
        ),
        zone(
            "America/New_York",
            1987,
            [300, 0, -60],
            &[
                (1987, [10, 5, 2, 0], [4, 1, 2, 0]),
                (2007, [11, 1, 2, 0], [3, 2, 2, 0]),
            ],
        ),
        // In the south; one longer summer in 2006.
        zone(
            "Australia/Sydney",
            2001,
            [-600, 0, -60],
            &[
                (2001, [3, 5, 3, 0], [10, 5, 2, 0]),
                (2006, [4, 1, 3, 0], [10, 5, 2, 0]),
                (2007, [3, 5, 3, 0], [10, 5, 2, 0]),
                (2008, [4, 1, 3, 0], [10, 1, 2, 0]),
            ],
        ),
        // Half an hour of daylight time.
        zone(
            "Australia/Lord_Howe",
            2008,
            [-630, 0, -30],
            &[(2008, [4, 1, 2, 0], [10, 1, 2, 0])],
        ),
        without_dates("Asia/Kolkata", 1946, -330),
        without_dates("Asia/Kathmandu", 1986, -345),
        sao_paulo(),
        // At a minute past midnight until 2011.
        zone(
            "America/St_Johns",
            1989,
            [210, 0, -60],
            &[
                (1989, [10, 5, 0, 1], [4, 1, 0, 1]),
                (2007, [11, 1, 0, 1], [3, 2, 0, 1]),
                (2011, [11, 1, 2, 0], [3, 2, 0, 1]),
                (2012, [11, 1, 2, 0], [3, 2, 2, 0]),
            ],
        ),
        zone(
            "Pacific/Chatham",
            2008,
            [-765, 0, -60],
            &[(2008, [4, 1, 3, 45], [9, 5, 2, 45])],
        ),
        tehran(),
    ]
}

/// The last year that zone data of any age speaks of.
const LAST: i16 = 2037;

fn zone(
    name: &'static str,
    first: i16,
    biases: [i32; 3],
    rules: &[(u16, Sunday, Sunday)],
) -> OutsideZone {
    let rules = rules.iter();
    let row = rules
        .map(|&(year, standard, daylight)| rule(year, biases, sunday(standard), sunday(daylight)));
    OutsideZone {
        name,
        years: (first, LAST),
        early: 0,
        row: marked(row.collect()),
    }
}

fn without_dates(name: &'static str, first: i16, bias: i32) -> OutsideZone {
    let unset = SystemTime::default();
    OutsideZone {
        name,
        years: (first, LAST),
        early: 0,
        row: marked(vec![rule(first as u16, [bias, 0, 0], unset, unset)]),
    }
}

/// Carnival puts off the end of daylight time in 2012 and 2015. In 2019 it
/// ended for good: that year's daylight date is so late that its UTC tick is
/// in 2020, where it has no part, and from then on the standard sum stays.
fn sao_paulo() -> OutsideZone {
    let third_in_october = [10, 3, 0, 0];
    let biases = [180, 0, -60];
    let mut zone = zone(
        "America/Sao_Paulo",
        2008,
        biases,
        &[
            (2008, [2, 3, 0, 0], third_in_october),
            (2012, [2, 4, 0, 0], third_in_october),
            (2013, [2, 3, 0, 0], third_in_october),
            (2015, [2, 4, 0, 0], third_in_october),
            (2016, [2, 3, 0, 0], third_in_october),
            (2018, [2, 3, 0, 0], [11, 1, 0, 0]),
        ],
    );
    let end = SystemTime::from_row([2019, 2, 0, 17, 0, 0, 0, 0]);
    let late = before_midnight([2019, 12, 31]);
    zone.row.push(rule(2019, biases, end, late));
    zone
}

/// By the Persian calendar: a rule for each year, with dates of that year, a
/// day earlier in leap years. None after 2022. The clocks are put at midnight,
/// and the row says the millisecond before, as registry exports do.
fn tehran() -> OutsideZone {
    let row = (2008..=2022).map(|year| {
        let day = if year % 4 == 0 { 20 } else { 21 };
        let standard = before_midnight([year, 9, day]);
        let daylight = before_midnight([year, 3, day]);
        rule(year, [-210, 0, -60], standard, daylight)
    });
    OutsideZone {
        name: "Asia/Tehran",
        years: (2008, LAST),
        early: TICKS_PER_MILLISECOND,
        row: marked(row.collect()),
    }
}

fn rule(year: u16, biases: [i32; 3], standard_date: SystemTime, daylight_date: SystemTime) -> Rule {
    let [bias, standard_bias, daylight_bias] = biases;
    Rule {
        year,
        active: 0,
        padding: 0,
        bias,
        standard_bias,
        daylight_bias,
        standard_date,
        daylight_date,
    }
}

/// The first rule is the active one, which has no part in the answers.
fn marked(mut row: Vec<Rule>) -> Vec<Rule> {
    row[0].active = 1;
    row
}

fn sunday([month, day, hour, minute]: Sunday) -> SystemTime {
    SystemTime::from_row([0, month, 0, day, hour, minute, 0, 0])
}

/// The last millisecond of a day.
fn before_midnight([year, month, day]: [u16; 3]) -> SystemTime {
    SystemTime::from_row([year, month, 0, day, 23, 59, 59, 999])
}
