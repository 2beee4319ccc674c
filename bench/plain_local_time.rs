//! UTC and local time in plain Rust, with the same checks in the same order.
//! A tick is placed by how many ticks of its year are before it. The switches
//! come from weekday arithmetic, to the millisecond, and which bias holds from
//! comparisons without a branch; there is no loop but over the row.

// A slice crosses the boundary as the library's calls take it: pointer and length.
#![allow(improper_ctypes_definitions)]

use crate::library::{LocalAnswer, LocalTick, Rule, SystemTime, UtcAnswer, UtcTick};
use crate::plain::year_of_day;
use crate::plain_rules::{check_row, is_set};
use std::ops::{Range, RangeInclusive};

pub const OUT_OF_RANGE: u32 = 15;
pub const NO_RULE: u32 = 16;

/// In ticks.
const MILLISECOND: i64 = 10_000;
const SECOND: i64 = 1000 * MILLISECOND;
const MINUTE: i64 = 60 * SECOND;
const DAY: i64 = 1440 * MINUTE;

/// The UTC ticks that have a local time, and their years.
pub const WINDOW: Range<i64> = 315_360_000_000_000..9_223_149_888_000_000_000;
const YEARS: RangeInclusive<u32> = 1602..=30_827;

#[inline(never)]
pub extern "C" fn utc_to_local(row: &[Rule], utc: UtcTick) -> LocalAnswer {
    match local_of(row, utc.ticks) {
        Ok(local) => LocalAnswer::of(local),
        Err(refusal) => LocalAnswer::refused(refusal),
    }
}

#[inline(always)]
fn local_of(row: &[Rule], utc: i64) -> Result<i64, u32> {
    check_row(row)?;
    if !WINDOW.contains(&utc) {
        return Err(OUT_OF_RANGE);
    }
    let (year, at) = Year::of_tick(utc);
    let rule = rule_in_force(row, year.number).ok_or(NO_RULE)?;
    Ok(utc - Clock::of(rule, &year).bias_at(at))
}

#[inline(never)]
pub extern "C" fn local_to_utc(row: &[Rule], local: LocalTick) -> UtcAnswer {
    if let Err(refusal) = check_row(row) {
        return UtcAnswer::refused(refusal);
    }
    let local = local.ticks;
    if local < 0 {
        return UtcAnswer::refused(OUT_OF_RANGE);
    }
    let (year, at) = Year::of_tick(local);
    let shown = shown_in(&year, row, at, local);
    // A bias is at most a day: only on its first and its last day can a year's
    // local tick be shown by a UTC tick of the year beside it.
    if at < DAY {
        let before = year.before();
        let at = at + before.ticks();
        both(shown_beside(&before, row, at, local), shown)
    } else if at >= year.ticks() - DAY {
        let at = at - year.ticks();
        both(shown, shown_beside(&year.after(), row, at, local))
    } else {
        answer(shown)
    }
}

pub struct Year {
    pub number: u32,
    is_leap: bool,
    /// Days from 1601-01-01 to its first day.
    pub first_day: i32,
}

impl Year {
    #[inline(always)]
    fn new(number: u32, first_day: i32) -> Year {
        // A year that 25 divides is leap if 16 does, any other one if 4 does.
        let last_bits = if number % 25 == 0 { 15 } else { 3 };
        Year {
            number,
            is_leap: number & last_bits == 0,
            first_day,
        }
    }

    /// The year of a tick, and how many of its ticks are before that one.
    #[inline(always)]
    pub fn of_tick(tick: i64) -> (Year, i64) {
        let days = (tick as u64 / DAY as u64) as u32;
        let (number, place) = year_of_day(days);
        let first_day = (days - place) as i32;
        let year = Year::new(number, first_day);
        let at = tick - year.start();
        (year, at)
    }

    fn before(&self) -> Year {
        let year = Year::new(self.number - 1, 0);
        Year {
            first_day: self.first_day - year.days(),
            ..year
        }
    }

    pub fn after(&self) -> Year {
        Year::new(self.number + 1, self.first_day + self.days())
    }

    fn days(&self) -> i32 {
        365 + self.is_leap as i32
    }

    pub fn start(&self) -> i64 {
        self.first_day as i64 * DAY
    }

    pub fn ticks(&self) -> i64 {
        self.days() as i64 * DAY
    }
}

/// The last rule whose year is not after a year.
#[inline(always)]
pub fn rule_in_force(row: &[Rule], year: u32) -> Option<&Rule> {
    row.iter().rev().find(|rule| rule.year as u32 <= year)
}

/// A rule in one UTC year, in ticks: both biases, and the UTC ticks of the year
/// at which it switches, which are equal where it is never daylight time.
pub struct Clock {
    pub standard: i64,
    pub daylight: i64,
    pub to_standard: i64,
    pub to_daylight: i64,
}

impl Clock {
    #[inline(always)]
    pub fn of(rule: &Rule, year: &Year) -> Clock {
        let bias = rule.bias as i64;
        if !is_set(&rule.standard_date) {
            return Clock::without_switches(bias * MINUTE);
        }
        let standard = (bias + rule.standard_bias as i64) * MINUTE;
        let daylight = (bias + rule.daylight_bias as i64) * MINUTE;
        let date_year = rule.standard_date.year as u32;
        if date_year != 0 && date_year != year.number {
            return Clock::without_switches(standard);
        }
        Clock {
            standard,
            daylight,
            to_standard: switch(&rule.standard_date, year) + daylight,
            to_daylight: switch(&rule.daylight_date, year) + standard,
        }
    }

    fn without_switches(bias: i64) -> Clock {
        Clock {
            standard: bias,
            daylight: bias,
            to_standard: 0,
            to_daylight: 0,
        }
    }

    fn is_daylight(&self, utc: i64) -> bool {
        let from = utc >= self.to_daylight;
        let before = utc < self.to_standard;
        from & before | (from | before) & (self.to_standard < self.to_daylight)
    }

    fn bias_at(&self, utc: i64) -> i64 {
        if self.is_daylight(utc) {
            self.daylight
        } else {
            self.standard
        }
    }
}

/// The days before each month, from place 1 on, in common and in leap years.
const BEFORE: [[i32; 14]; 2] = [
    [
        0, 0, 31, 59, 90, 120, 151, 181, 212, 243, 273, 304, 334, 365,
    ],
    [
        0, 0, 31, 60, 91, 121, 152, 182, 213, 244, 274, 305, 335, 366,
    ],
];

/// The local tick of the year at which a date switches.
#[inline(always)]
fn switch(date: &SystemTime, year: &Year) -> i64 {
    let months = &BEFORE[year.is_leap as usize];
    let month = date.month as usize;
    let first = months[month];
    let day = match date.year {
        0 => occurrence(date, year.first_day, first, months[month + 1]),
        _ => first + date.day as i32 - 1,
    };
    let minutes = (day * 24 + date.hour as i32) * 60 + date.minute as i32;
    let seconds = minutes * 60 + date.second as i32;
    seconds as i64 * SECOND + date.millisecond as i64 * MILLISECOND
}

/// The day of the year of a yearly date in a month from one day of the year to
/// before another.
#[inline(always)]
fn occurrence(date: &SystemTime, first_day: i32, first: i32, end: i32) -> i32 {
    /// Whole weeks, more days than there are.
    const WEEKS: i32 = 7 << 21;
    let to_weekday = rest_of_weeks(WEEKS + date.weekday as i32 - (first_day + first + 1));
    let day = first + to_weekday + 7 * (date.day as i32 - 1);
    day - if day < end { 0 } else { 7 }
}

/// The rest by 7 of less than 2^26 days, from the fraction that a product with
/// 2^32 / 7 leaves.
fn rest_of_weeks(days: i32) -> i32 {
    let fraction = (days as u32).wrapping_mul(u32::MAX / 7 + 1);
    (fraction as u64 * 7 >> 32) as i32
}

/// The UTC ticks of one year that show a local tick, earliest first, and zeros
/// beyond the count.
#[derive(Default)]
struct Shown {
    count: u32,
    first: i64,
    second: i64,
}

/// The local tick comes with its place, told from the year's start.
#[inline(always)]
fn shown_in(year: &Year, row: &[Rule], at: i64, local: i64) -> Shown {
    if !YEARS.contains(&year.number) {
        return Shown::default();
    }
    let Some(rule) = rule_in_force(row, year.number) else {
        return Shown::default();
    };
    let clock = Clock::of(rule, year);
    let is_shown = |bias: i64, is_daylight: bool| {
        let utc = at + bias;
        ((utc as u64) < year.ticks() as u64) & (clock.is_daylight(utc) == is_daylight)
    };
    let is_standard = is_shown(clock.standard, false);
    let is_daylight = is_shown(clock.daylight, true);
    let is_twice = is_standard & is_daylight;
    // Some biases lead past 64 bits; those ticks are not shown.
    let standard = local.wrapping_add(clock.standard);
    let daylight = local.wrapping_add(clock.daylight);
    // By place and not by cases: a processor guesses half of the cases wrong.
    let ticks = [0, daylight, standard, standard.min(daylight)];
    let last = [0, standard.max(daylight)];
    Shown {
        count: is_standard as u32 + is_daylight as u32,
        first: ticks[2 * is_standard as usize + is_daylight as usize],
        second: last[is_twice as usize],
    }
}

/// The same for a year beside that of the local tick, which is rarely asked.
#[inline(never)]
fn shown_beside(year: &Year, row: &[Rule], at: i64, local: i64) -> Shown {
    shown_in(year, row, at, local)
}

fn answer(shown: Shown) -> UtcAnswer {
    ticks(shown.count, [shown.first, shown.second, 0, 0])
}

/// Those of two years, one after the other.
fn both(earlier: Shown, later: Shown) -> UtcAnswer {
    let count = earlier.count + later.count;
    match earlier.count {
        0 => answer(later),
        1 => ticks(count, [earlier.first, later.first, later.second, 0]),
        _ => ticks(
            count,
            [earlier.first, earlier.second, later.first, later.second],
        ),
    }
}

fn ticks(count: u32, list: [i64; 4]) -> UtcAnswer {
    let [first, second, third, fourth] = list.map(|ticks| UtcTick { ticks });
    UtcAnswer {
        refusal: 0,
        count,
        first,
        second,
        third,
        fourth,
    }
}
