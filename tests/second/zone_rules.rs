//! When a rule of a zone is good, and what it is once made normal: document
//! 01 on dates, biases and the numbers 8 to 11.

use crate::calendar::Calendar;
use crate::library::{Rule, SystemTime};

pub const RULE_YEAR: u32 = 8;
pub const BIAS: u32 = 9;
pub const DATE: u32 = 10;
pub const TWO_DATES: u32 = 11;

/// The last year of a rule, and of a date that has a year.
pub const LAST_YEAR: u16 = 30_827;

/// The year of a rule, beside that of the kept rule before it.
pub fn check_year(rule: &Rule, before: Option<u16>) -> Result<(), u32> {
    if rule.year > LAST_YEAR {
        return Err(RULE_YEAR);
    }
    match before {
        Some(before) if rule.year <= before => Err(RULE_YEAR),
        _ => Ok(()),
    }
}

/// All of a rule but its year and its mark.
pub fn check_dates_and_biases(calendar: &Calendar, rule: &Rule) -> Result<(), u32> {
    let standard = &rule.standard_date;
    let daylight = &rule.daylight_date;
    if !keeps_its_rule(calendar, standard) || !keeps_its_rule(calendar, daylight) {
        return Err(DATE);
    }
    if is_set(standard) != is_set(daylight) {
        return Err(TWO_DATES);
    }
    if is_set(standard) && standard.year != daylight.year {
        return Err(TWO_DATES);
    }
    let bias = i64::from(rule.bias);
    let good = if is_set(standard) {
        is_bias(bias + i64::from(rule.standard_bias))
            && is_bias(bias + i64::from(rule.daylight_bias))
    } else {
        is_bias(bias)
    };
    if good {
        Ok(())
    } else {
        Err(BIAS)
    }
}

/// The month alone says it.
pub fn is_set(date: &SystemTime) -> bool {
    date.month != 0
}

fn is_bias(minutes: i64) -> bool {
    (-1_440..=1_440).contains(&minutes)
}

/// Whether a date keeps the rule for its kind. One that is not set has none.
fn keeps_its_rule(calendar: &Calendar, date: &SystemTime) -> bool {
    if !is_set(date) {
        return true;
    }
    if date.month > 12 {
        return false;
    }
    if date.hour > 23 || date.minute > 59 || date.second > 59 || date.millisecond > 999 {
        return false;
    }
    if date.year == 0 {
        return date.weekday <= 6 && (1..=5).contains(&date.day);
    }
    (1601..=LAST_YEAR).contains(&date.year)
        && (1..=days_of_month(calendar, date.year, date.month)).contains(&date.day)
}

/// Of a year from 1601 to the last, and a month from 1 to 12.
pub fn days_of_month(calendar: &Calendar, year: u16, month: u16) -> u16 {
    calendar.month(year as i16, month as i16).days as u16
}

/// The same rule with normal dates.
pub fn normal(rule: Rule) -> Rule {
    Rule {
        standard_date: normal_date(rule.standard_date),
        daylight_date: normal_date(rule.daylight_date),
        ..rule
    }
}

fn normal_date(date: SystemTime) -> SystemTime {
    if !is_set(&date) {
        return SystemTime::default();
    }
    if date.year != 0 {
        return SystemTime { weekday: 0, ..date };
    }
    date
}
