//! What each call on TIME and fields has to answer, by document 01 and the
//! NT OS/2 Time Conversion Specification, in its revisions 1.0 and 1.2
//! (document 02, R-9). Whole numbers are as wide as needed, and the calendar
//! is the one that counts days.

use crate::calendar::Calendar;
use crate::library::{AbsoluteAnswer, FieldsAnswer, SecondsAnswer, TimeAnswer, TimeFields};

pub const TICKS_PER_MILLISECOND: i64 = 10_000;
pub const TICKS_PER_SECOND: i64 = 10_000_000;
pub const TICKS_PER_MINUTE: i64 = 600_000_000;
pub const TICKS_PER_HOUR: i64 = 36_000_000_000;
pub const TICKS_PER_DAY: i64 = 864_000_000_000;

/// The TIME at which 1970 and 1980 start, as document 01 states them.
pub const START_OF_1970: i64 = 116_444_736_000_000_000;
pub const START_OF_1980: i64 = 119_600_064_000_000_000;

pub const ILL_FORMED: u32 = 14;
pub const NOT_EXPRESSIBLE: u32 = 15;
pub const UNKNOWN_REVISION: u32 = 22;

/// The numbers of the two revisions. Every other number is refused before
/// anything else is looked at.
pub const REVISION_1_0: u32 = 10;
pub const REVISION_1_2: u32 = 12;

/// Zero is absolute by revision 1.0, and an interval by revision 1.2.
pub fn is_absolute(revision: u32, time: i64) -> AbsoluteAnswer {
    match revision {
        REVISION_1_0 => AbsoluteAnswer::of(time >= 0),
        REVISION_1_2 => AbsoluteAnswer::of(time > 0),
        _ => AbsoluteAnswer::refused(UNKNOWN_REVISION),
    }
}

/// The fields are the same by both revisions.
pub fn time_to_fields(calendar: &Calendar, revision: u32, time: i64) -> FieldsAnswer {
    if !is_known(revision) {
        return FieldsAnswer::refused(UNKNOWN_REVISION);
    }
    if time < 0 {
        return FieldsAnswer::refused(NOT_EXPRESSIBLE);
    }
    let day = calendar.day(time / TICKS_PER_DAY);
    let mut left = time % TICKS_PER_DAY;
    // Takes as many whole parts as there are out of what is left of the day.
    let mut take = |ticks: i64| {
        let whole = left / ticks;
        left -= whole * ticks;
        whole as i16
    };
    FieldsAnswer::of(TimeFields {
        year: day.year,
        month: i16::from(day.month),
        day: i16::from(day.day),
        hour: take(TICKS_PER_HOUR),
        minute: take(TICKS_PER_MINUTE),
        second: take(TICKS_PER_SECOND),
        milliseconds: take(TICKS_PER_MILLISECOND),
        weekday: i16::from(day.weekday),
    })
}

pub fn fields_to_time(calendar: &Calendar, revision: u32, fields: TimeFields) -> TimeAnswer {
    if !is_known(revision) {
        return TimeAnswer::refused(UNKNOWN_REVISION);
    }
    if !well_formed(calendar, revision, &fields) {
        return TimeAnswer::refused(ILL_FORMED);
    }
    let mut day = calendar.month(fields.year, fields.month).first + i64::from(fields.day) - 1;
    let mut ticks = i64::from(fields.milliseconds) * TICKS_PER_MILLISECOND;
    if fields.second == 60 {
        // The house rule: 00:00:00.mmm on the next day.
        day += 1;
    } else {
        ticks += i64::from(fields.hour) * TICKS_PER_HOUR
            + i64::from(fields.minute) * TICKS_PER_MINUTE
            + i64::from(fields.second) * TICKS_PER_SECOND;
    }
    let time = i128::from(day) * i128::from(TICKS_PER_DAY) + i128::from(ticks);
    match i64::try_from(time) {
        Ok(time) => TimeAnswer::of(time),
        Err(_) => TimeAnswer::refused(NOT_EXPRESSIBLE),
    }
}

fn is_known(revision: u32) -> bool {
    revision == REVISION_1_0 || revision == REVISION_1_2
}

/// Whether fields are well formed, whatever their weekday. No year is too
/// late for it. Revision 1.0 has no second 60.
fn well_formed(calendar: &Calendar, revision: u32, fields: &TimeFields) -> bool {
    if fields.year < 1601 || fields.month < 1 || fields.month > 12 {
        return false;
    }
    let last_day = calendar.month(fields.year, fields.month).days;
    if fields.day < 1 || fields.day > last_day {
        return false;
    }
    if fields.hour < 0 || fields.hour > 23 || fields.minute < 0 || fields.minute > 59 {
        return false;
    }
    if fields.milliseconds < 0 || fields.milliseconds > 999 {
        return false;
    }
    let last_minute_of_month = fields.day == last_day && fields.hour == 23 && fields.minute == 59;
    let last_second = match last_minute_of_month && revision == REVISION_1_2 {
        true => 60,
        false => 59,
    };
    fields.second >= 0 && fields.second <= last_second
}

/// Whole seconds from a start to a TIME, rounded down, where 32 bits hold
/// them.
pub fn time_to_seconds(start: i64, time: i64) -> SecondsAnswer {
    let ticks = i128::from(time) - i128::from(start);
    let seconds = ticks.div_euclid(i128::from(TICKS_PER_SECOND));
    match u32::try_from(seconds) {
        Ok(seconds) => SecondsAnswer::of(seconds),
        Err(_) => SecondsAnswer::refused(NOT_EXPRESSIBLE),
    }
}

/// Every number of seconds has a TIME: the last is long before the end.
pub fn seconds_to_time(start: i64, seconds: u32) -> i64 {
    start + i64::from(seconds) * TICKS_PER_SECOND
}
