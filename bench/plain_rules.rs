//! The checks of a rule and of a row, and a rule's normal form, in plain Rust.
//! They are inlined in every call: so the fields of a rule need not go through
//! memory.

use crate::library::{Rule, SystemTime};
use crate::plain::days_in_month;
use std::ops::RangeInclusive;

pub const RULE_COUNT: u32 = 6;
const RULE_YEAR: u32 = 8;
const BIAS: u32 = 9;
const BAD_DATE: u32 = 10;
const TWO_DATES: u32 = 11;
pub const ACTIVE_RULES: u32 = 12;

const LAST_YEAR: u16 = 30_827;
const BIASES: RangeInclusive<i64> = -1440..=1440;

/// How many rules there are, each of them in turn, and which are active.
#[inline(always)]
pub fn check_row(row: &[Rule]) -> Result<(), u32> {
    if !(1..=1024).contains(&row.len()) {
        return Err(RULE_COUNT);
    }
    let mut active = 0;
    let mut before = None;
    for rule in row {
        check_rule(before, rule)?;
        before = Some(rule.year);
        active += rule.active as u32;
    }
    if active != 1 {
        return Err(ACTIVE_RULES);
    }
    Ok(())
}

/// The year, after that of the rule before, then the dates and the biases.
#[inline(always)]
pub fn check_rule(before: Option<u16>, rule: &Rule) -> Result<(), u32> {
    if rule.year > LAST_YEAR || before.is_some_and(|year| rule.year <= year) {
        return Err(RULE_YEAR);
    }
    check_dates(rule)
}

#[inline(always)]
pub fn check_dates(rule: &Rule) -> Result<(), u32> {
    let standard = &rule.standard_date;
    let daylight = &rule.daylight_date;
    if !is_sound(standard) || !is_sound(daylight) {
        return Err(BAD_DATE);
    }
    if is_set(standard) != is_set(daylight) || is_set(standard) && standard.year != daylight.year {
        return Err(TWO_DATES);
    }
    if !biases_are_sound(rule) {
        return Err(BIAS);
    }
    Ok(())
}

pub fn is_set(date: &SystemTime) -> bool {
    date.month != 0
}

#[inline(always)]
fn is_sound(date: &SystemTime) -> bool {
    !is_set(date)
        || date.month <= 12
            && is_day(date)
            && (date.hour <= 23)
                & (date.minute <= 59)
                & (date.second <= 59)
                & (date.millisecond <= 999)
}

#[inline(always)]
fn is_day(date: &SystemTime) -> bool {
    match date.year {
        0 => date.weekday <= 6 && (1..=5).contains(&date.day),
        1601..=LAST_YEAR => {
            let last = days_in_month(date.year as u32, date.month as u32) as u16;
            (1..=last).contains(&date.day)
        }
        _ => false,
    }
}

fn biases_are_sound(rule: &Rule) -> bool {
    let bias = rule.bias as i64;
    if !is_set(&rule.standard_date) {
        return BIASES.contains(&bias);
    }
    BIASES.contains(&(bias + rule.standard_bias as i64))
        && BIASES.contains(&(bias + rule.daylight_bias as i64))
}

#[inline(always)]
pub fn normal(rule: Rule) -> Rule {
    Rule {
        standard_date: normal_date(rule.standard_date),
        daylight_date: normal_date(rule.daylight_date),
        ..rule
    }
}

fn normal_date(date: SystemTime) -> SystemTime {
    match date {
        SystemTime { month: 0, .. } => SystemTime::default(),
        SystemTime { year: 0, .. } => date,
        _ => SystemTime { weekday: 0, ..date },
    }
}
