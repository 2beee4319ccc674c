//! The same calls in plain Rust, by the same method: whole blocks of 400,
//! 100, 4 and 1 years. They cross the same boundary as the library's calls.

use crate::library::{FieldsAnswer, SecondsAnswer, TimeAnswer, TimeFields};

pub const DAY: u64 = 864_000_000_000;
pub const SECOND: u64 = 10_000_000;
pub const MILLISECOND: u64 = 10_000;

/// The revisions of the time paper, as the calls are told them.
pub const REVISION_1_0: u32 = 10;
pub const REVISION_1_2: u32 = 12;

pub fn is_revision(revision: u32) -> bool {
    matches!(revision, REVISION_1_0 | REVISION_1_2)
}

#[inline(never)]
pub extern "C" fn time_to_fields(revision: u32, time: i64) -> FieldsAnswer {
    if !is_revision(revision) {
        return FieldsAnswer::refused(22);
    }
    if time < 0 {
        return FieldsAnswer::refused(15);
    }
    let days = (time as u64 / DAY) as u32;
    let (year, rest) = year_of_day(days);
    let (month, day) = month_day(year, rest);
    FieldsAnswer::of(with_time_of_day(time as u64, days, year, month, day))
}

/// The fields of a date and of a tick's time of day.
pub fn with_time_of_day(tick: u64, days: u32, year: u32, month: u32, day: u32) -> TimeFields {
    let ms = (tick / MILLISECOND - DAY / MILLISECOND * u64::from(days)) as u32;
    let hours = ms / 3_600_000;
    let minutes = ms / 60_000;
    let seconds = ms / 1000;
    TimeFields {
        year: year as i16,
        month: month as i16,
        day: day as i16,
        hour: hours as i16,
        minute: (minutes - 60 * hours) as i16,
        second: (seconds - 60 * minutes) as i16,
        milliseconds: (ms - 1000 * seconds) as i16,
        weekday: ((days + 1) % 7) as i16,
    }
}

pub const fn is_leap(year: u32) -> bool {
    year % 4 == 0 && (year % 100 != 0 || year % 400 == 0)
}

/// The month and the day of the month of a day of a year.
pub fn month_day(year: u32, rest: u32) -> (u32, u32) {
    let lacking = match (is_leap(year), rest) {
        (true, 60..) => 1,
        (false, 59..) => 2,
        _ => 0,
    };
    let line = 12 * (rest + lacking) + 373;
    (line / 367, line % 367 / 12 + 1)
}

/// The year of a day, and the day's place in it from 0.
#[inline(always)]
pub fn year_of_day(days: u32) -> (u32, u32) {
    let by_400 = days / 146_097;
    let rest = days % 146_097;
    let by_100 = (rest / 36_524).min(3);
    let rest = rest - by_100 * 36_524;
    let by_4 = rest / 1461;
    let rest = rest % 1461;
    let by_1 = (rest / 365).min(3);
    let rest = rest - by_1 * 365;
    (1601 + 400 * by_400 + 100 * by_100 + 4 * by_4 + by_1, rest)
}

pub fn days_in_month(year: u32, month: u32) -> u32 {
    match month {
        4 | 6 | 9 | 11 => 30,
        2 if is_leap(year) => 29,
        2 => 28,
        _ => 31,
    }
}

#[inline(never)]
pub extern "C" fn fields_to_time(revision: u32, fields: TimeFields) -> TimeAnswer {
    if !is_revision(revision) {
        return TimeAnswer::refused(22);
    }
    if !is_formed(revision, &fields) {
        return TimeAnswer::refused(14);
    }
    let year = fields.year as u32;
    let k = year - 1601;
    let before = days_before_month(year, fields.month as u32);
    let days = 365 * k + k / 4 - k / 100 + k / 400 + before + (fields.day as u32 - 1);
    tick_of_day(days, &fields)
}

/// The days of a year before one of its months.
#[inline(always)]
pub fn days_before_month(year: u32, month: u32) -> u32 {
    let line = (367 * (month - 1) + 5) / 12;
    match month {
        1 | 2 => line,
        _ if is_leap(year) => line - 1,
        _ => line - 2,
    }
}

/// Only revision 1.2 has a second 60.
pub fn is_formed(revision: u32, fields: &TimeFields) -> bool {
    if fields.year < 1601 || !(1..=12).contains(&fields.month) {
        return false;
    }
    let last = days_in_month(fields.year as u32, fields.month as u32) as i16;
    (1..=last).contains(&fields.day)
        && (0..=23).contains(&fields.hour)
        && (0..=59).contains(&fields.minute)
        && (0..=999).contains(&fields.milliseconds)
        && match fields.second {
            0..=59 => true,
            60 => {
                revision == REVISION_1_2
                    && fields.hour == 23
                    && fields.minute == 59
                    && fields.day == last
            }
            _ => false,
        }
}

/// The TIME of a time of day on a day.
pub fn tick_of_day(days: u32, fields: &TimeFields) -> TimeAnswer {
    let minutes = fields.hour as u32 * 60 + fields.minute as u32;
    let ms = (minutes * 60 + fields.second as u32) * 1000 + fields.milliseconds as u32;
    let tick = days as u64 * DAY + ms as u64 * MILLISECOND;
    match i64::try_from(tick) {
        Ok(time) => TimeAnswer::of(time),
        Err(_) => TimeAnswer::refused(15),
    }
}

#[inline(never)]
pub extern "C" fn time_to_seconds_since_1970(time: i64) -> SecondsAnswer {
    const START: u64 = 116_444_736_000_000_000;
    if time < 0 || (time as u64) < START {
        return SecondsAnswer::refused(15);
    }
    match u32::try_from((time as u64 - START) / SECOND) {
        Ok(seconds) => SecondsAnswer::of(seconds),
        Err(_) => SecondsAnswer::refused(15),
    }
}
