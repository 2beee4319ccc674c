//! The calendar by table in plain Rust, by the same method. Its table stands
//! in read-only memory, and nothing is done for it at a call.

use crate::library::{FieldsAnswer, TimeAnswer, TimeFields};
use crate::plain::{
    days_before_month, is_formed, is_leap, is_revision, month_day, tick_of_day, with_time_of_day,
    DAY,
};

/// For each year of a cycle of 400, the days before its start.
static DAYS_BEFORE_YEAR: [u32; 400] = days_before_year();

const DAYS_OF_CYCLE: u32 = 146_097;

const fn days_before_year() -> [u32; 400] {
    let mut table = [0; 400];
    let mut place = 1;
    while place < table.len() {
        let leap_day = is_leap(1600 + place as u32) as u32;
        table[place] = table[place - 1] + 365 + leap_day;
        place += 1;
    }
    table
}

/// The year of a day, and the day's place in it from 0.
fn year_of_day(days: u32) -> (u32, u32) {
    let day = days % DAYS_OF_CYCLE;
    let early = day / 366;
    let late = (early + 1).min(399);
    let place = match DAYS_BEFORE_YEAR[late as usize] <= day {
        true => late,
        false => early,
    };
    let year = 1601 + 400 * (days / DAYS_OF_CYCLE) + place;
    (year, day - DAYS_BEFORE_YEAR[place as usize])
}

#[inline(never)]
pub extern "C" fn time_to_fields(revision: u32, time: i64) -> FieldsAnswer {
    if !is_revision(revision) {
        return FieldsAnswer::refused(22);
    }
    if time < 0 {
        return FieldsAnswer::refused(15);
    }
    let days = (time as u64 / DAY) as u32;
    let (year, rest) = year_of_day(days);
    let (month, day) = month_day(year, rest);
    FieldsAnswer::of(with_time_of_day(time as u64, days, year, month, day))
}

#[inline(never)]
pub extern "C" fn fields_to_time(revision: u32, fields: TimeFields) -> TimeAnswer {
    if !is_revision(revision) {
        return TimeAnswer::refused(22);
    }
    if !is_formed(revision, &fields) {
        return TimeAnswer::refused(14);
    }
    let year = fields.year as u32;
    let k = year - 1601;
    let start = k / 400 * DAYS_OF_CYCLE + DAYS_BEFORE_YEAR[(k % 400) as usize];
    let before = days_before_month(year, fields.month as u32);
    tick_of_day(start + before + (fields.day as u32 - 1), &fields)
}
