//! The calendar calls by chrono, behind the same boundary as ours. They take no
//! second 60; on every other input they answer as ours do.

use crate::library::{FieldsAnswer, TimeAnswer, TimeFields};
use crate::plain::{DAY, MILLISECOND, SECOND};
use chrono::{Datelike, NaiveDate, NaiveTime, Timelike};

/// 1601-01-01 where 0001-01-01 is day 1.
const START: i32 = 584_389;

#[inline(never)]
pub extern "C" fn time_to_fields(time: i64) -> FieldsAnswer {
    if time < 0 {
        return FieldsAnswer::refused(15);
    }
    match date_and_clock(time as u64) {
        Some((date, clock)) => FieldsAnswer::of(fields(date, clock)),
        None => FieldsAnswer::refused(15),
    }
}

fn date_and_clock(tick: u64) -> Option<(NaiveDate, NaiveTime)> {
    let date = NaiveDate::from_num_days_from_ce_opt(START + (tick / DAY) as i32)?;
    let of_day = tick % DAY;
    let nanoseconds = (of_day % SECOND * 100) as u32;
    let clock =
        NaiveTime::from_num_seconds_from_midnight_opt((of_day / SECOND) as u32, nanoseconds)?;
    Some((date, clock))
}

fn fields(date: NaiveDate, clock: NaiveTime) -> TimeFields {
    TimeFields {
        year: date.year() as i16,
        month: date.month() as i16,
        day: date.day() as i16,
        hour: clock.hour() as i16,
        minute: clock.minute() as i16,
        second: clock.second() as i16,
        milliseconds: (clock.nanosecond() / 1_000_000) as i16,
        weekday: date.weekday().num_days_from_sunday() as i16,
    }
}

#[inline(never)]
pub extern "C" fn fields_to_time(fields: TimeFields) -> TimeAnswer {
    match tick(&fields).map(i64::try_from) {
        Some(Ok(time)) => TimeAnswer::of(time),
        Some(Err(_)) => TimeAnswer::refused(15),
        None => TimeAnswer::refused(14),
    }
}

/// A negative number becomes one that chrono refuses. Milliseconds above 999 are
/// a leap second's to it.
fn tick(fields: &TimeFields) -> Option<u64> {
    if fields.year < 1601 || fields.milliseconds > 999 {
        return None;
    }
    let date = NaiveDate::from_ymd_opt(fields.year as i32, fields.month as u32, fields.day as u32)?;
    let clock = NaiveTime::from_hms_milli_opt(
        fields.hour as u32,
        fields.minute as u32,
        fields.second as u32,
        fields.milliseconds as u32,
    )?;
    let days = (date.num_days_from_ce() - START) as u64;
    let milliseconds = clock.nanosecond() as u64 / 1_000_000;
    Some(
        days * DAY + clock.num_seconds_from_midnight() as u64 * SECOND + milliseconds * MILLISECOND,
    )
}
