//! Outside dates: the library's answers against gmtime_r and timegm of the
//! system's C library. Its calendar is the Gregorian one throughout, and its
//! seconds have 64 bits, so that it agrees from 1601 to the last TIME. All is
//! asked by revision 1.2, which has a second 60.

use crate::calendar::LAST_YEAR;
use crate::library::{self, FieldsAnswer, TimeAnswer, TimeFields};
use crate::report::{Enough, Outcome, Section};
use crate::seeded::Seeded;
use crate::time_reference::{
    ILL_FORMED, NOT_EXPRESSIBLE, REVISION_1_2, TICKS_PER_DAY, TICKS_PER_MILLISECOND,
    TICKS_PER_SECOND,
};
use crate::Basis;
use std::ffi::{c_int, c_long};

/// Seconds from 1601 to 1970: the start of 1970 in document 01, in seconds.
const SECONDS_TO_1970: i64 = 11_644_473_600;

/// The C library's broken-down time.
#[repr(C)]
#[derive(Clone, Copy, PartialEq, Eq, Debug, Default)]
struct Tm {
    sec: c_int,
    min: c_int,
    hour: c_int,
    mday: c_int,
    mon: c_int,
    year: c_int,
    wday: c_int,
    yday: c_int,
    isdst: c_int,
    gmtoff: c_long,
    zone: usize,
    /// Room in case the C library's own struct is longer.
    reserve: [usize; 8],
}

extern "C" {
    fn gmtime_r(seconds: *const i64, tm: *mut Tm) -> *mut Tm;
    fn timegm(tm: *mut Tm) -> i64;
}

pub fn sections(basis: &Basis) -> Vec<Section> {
    // Without this a zone file with leap seconds would move its dates.
    std::env::set_var("TZ", "UTC0");
    vec![
        layout(),
        fields_of_time(basis),
        time_of_fields(basis),
        dates_that_exist(basis),
        fields_of_seconds(basis),
    ]
}

fn time_to_fields(time: i64) -> FieldsAnswer {
    library::time_to_fields(REVISION_1_2, time)
}

fn fields_to_time(fields: TimeFields) -> TimeAnswer {
    library::fields_to_time(REVISION_1_2, fields)
}

/// The C library's date of a number of seconds since 1970.
fn date_of(seconds: i64) -> Tm {
    let mut tm = Tm::default();
    let given = unsafe { gmtime_r(&seconds, &mut tm) };
    assert!(!given.is_null(), "gmtime_r has no date for {seconds}");
    tm
}

/// The C library's seconds since 1970 of a date, and the date that it makes
/// of it: a day or a second too many runs over into the next month or day.
fn seconds_of(fields: TimeFields) -> (i64, Tm) {
    let mut tm = Tm {
        sec: c_int::from(fields.second),
        min: c_int::from(fields.minute),
        hour: c_int::from(fields.hour),
        mday: c_int::from(fields.day),
        mon: c_int::from(fields.month) - 1,
        year: c_int::from(fields.year) - 1900,
        ..Default::default()
    };
    let seconds = unsafe { timegm(&mut tm) };
    (seconds, tm)
}

fn fields_of(tm: &Tm, milliseconds: i64) -> TimeFields {
    TimeFields {
        year: (tm.year + 1900) as i16,
        month: (tm.mon + 1) as i16,
        day: tm.mday as i16,
        hour: tm.hour as i16,
        minute: tm.min as i16,
        second: tm.sec as i16,
        milliseconds: milliseconds as i16,
        weekday: tm.wday as i16,
    }
}

/// The TIME of seconds since 1970 and a millisecond, or 15.
fn time_of(seconds: i64, milliseconds: i16) -> TimeAnswer {
    let time = (i128::from(seconds) + i128::from(SECONDS_TO_1970)) * i128::from(TICKS_PER_SECOND)
        + i128::from(milliseconds) * i128::from(TICKS_PER_MILLISECOND);
    match i64::try_from(time) {
        Ok(time) => TimeAnswer::of(time),
        Err(_) => TimeAnswer::refused(NOT_EXPRESSIBLE),
    }
}

/// That the struct above is laid out as the C library has it: one date whose
/// parts all differ, 1989-08-29 11:08:30, a Tuesday, the 241st of its year.
fn layout() -> Section {
    Section::run("glibc: layout of its date", &[Outcome::Yes], 2, |section| {
        let seconds = 620_392_110;
        let tm = date_of(seconds);
        let parts = [
            tm.sec, tm.min, tm.hour, tm.mday, tm.mon, tm.year, tm.wday, tm.yday, tm.isdst,
        ];
        let expected = [30, 8, 11, 29, 7, 89, 2, 240, 0];
        section.compare((seconds, parts), parts == expected, true)?;
        let (back, _) = seconds_of(fields_of(&tm, 0));
        section.compare((seconds, back), back == seconds, true)
    })
}

/// The library's fields of a TIME against gmtime_r.
fn fields_of_time(basis: &Basis) -> Section {
    let name = "glibc: time_to_fields against gmtime_r";
    let mut seeded = Seeded::new(basis.seed, name);
    Section::run(name, &[Outcome::Answered], 1_000_000, |section| {
        let mut ask = |time: i64| {
            let tm = date_of(time / TICKS_PER_SECOND - SECONDS_TO_1970);
            let milliseconds = time % TICKS_PER_SECOND / TICKS_PER_MILLISECOND;
            let expected = FieldsAnswer::of(fields_of(&tm, milliseconds));
            section.compare(time, time_to_fields(time), expected)
        };
        ask(0)?;
        ask(i64::MAX)?;
        // Days from the first to the last in small steps, from both sides.
        for day in (1..=i64::MAX / TICKS_PER_DAY).step_by(29) {
            ask(day * TICKS_PER_DAY - 1)?;
            ask(day * TICKS_PER_DAY)?;
        }
        for _ in 0..1_000_000 {
            ask(seeded.between(0, i64::MAX))?;
        }
        Ok(())
    })
}

/// The library's TIME of fields against timegm, up to the last year that
/// fields can hold.
fn time_of_fields(basis: &Basis) -> Section {
    let name = "glibc: fields_to_time against timegm";
    let outcomes = [Outcome::Answered, Outcome::Refused(NOT_EXPRESSIBLE)];
    let mut seeded = Seeded::new(basis.seed, name);
    Section::run(name, &outcomes, 1_000_000, |section| {
        for _ in 0..1_000_000 {
            let fields = TimeFields {
                year: match seeded.one_in(8) {
                    true => seeded.between_i16(30_828, LAST_YEAR),
                    false => seeded.between_i16(1601, 30_828),
                },
                month: seeded.between_i16(1, 12),
                day: seeded.between_i16(1, 28),
                hour: seeded.between_i16(0, 23),
                minute: seeded.between_i16(0, 59),
                second: seeded.between_i16(0, 59),
                milliseconds: seeded.between_i16(0, 999),
                weekday: seeded.any_i16(),
            };
            let (seconds, _) = seconds_of(fields);
            let expected = time_of(seconds, fields.milliseconds);
            section.compare(fields, fields_to_time(fields), expected)?;
        }
        Ok(())
    })
}

/// Which days a month has: the library answers for a day exactly where the C
/// library keeps it in its month, and for second 60 at 23:59 exactly where
/// the C library lets it run over into another month.
fn dates_that_exist(basis: &Basis) -> Section {
    let name = "glibc: days of the months and second 60";
    let outcomes = [
        Outcome::Answered,
        Outcome::Refused(ILL_FORMED),
        Outcome::Refused(NOT_EXPRESSIBLE),
    ];
    let mut seeded = Seeded::new(basis.seed, name);
    Section::run(name, &outcomes, 500_000, |section| {
        let mut ask = |year: i16, month: i16, day: i16| -> Result<(), Enough> {
            let fields = TimeFields {
                year,
                month,
                day,
                hour: 23,
                minute: 59,
                second: 59,
                milliseconds: seeded.between_i16(0, 999),
                weekday: seeded.any_i16(),
            };
            let (seconds, tm) = seconds_of(fields);
            let exists = tm.mon + 1 == c_int::from(month);
            let expected = match exists {
                true => time_of(seconds, fields.milliseconds),
                false => TimeAnswer::refused(ILL_FORMED),
            };
            section.compare(fields, fields_to_time(fields), expected)?;

            let fields = TimeFields {
                second: 60,
                ..fields
            };
            let (seconds, tm) = seconds_of(fields);
            let runs_over = tm.mon + 1 != c_int::from(month);
            let expected = match exists && runs_over {
                true => time_of(seconds, fields.milliseconds),
                false => TimeAnswer::refused(ILL_FORMED),
            };
            section.compare(fields, fields_to_time(fields), expected)
        };
        for year in 1601..=LAST_YEAR {
            for day in [0, 27, 28, 29, 30] {
                ask(year, 2, day)?;
            }
            for month in [1, 3, 4, 5, 6, 7, 8, 9, 10, 11, 12] {
                if (i32::from(year) + i32::from(month)) % 11 == 0 {
                    for day in [0, 29, 30, 31, 32] {
                        ask(year, month, day)?;
                    }
                }
            }
        }
        Ok(())
    })
}

/// Seconds since 1970 or 1980 turned into a TIME and into fields by the
/// library, against gmtime_r of those seconds.
fn fields_of_seconds(basis: &Basis) -> Section {
    let name = "glibc: fields of seconds since 1970 and 1980";
    let mut seeded = Seeded::new(basis.seed, name);
    Section::run(name, &[Outcome::Answered], 400_000, |section| {
        let (from_1970_to_1980, _) = seconds_of(TimeFields {
            year: 1980,
            month: 1,
            day: 1,
            ..Default::default()
        });
        for _ in 0..200_000 {
            let seconds = seeded.any_u32();
            let time = library::seconds_since_1970_to_time(seconds);
            let tm = date_of(i64::from(seconds));
            let expected = FieldsAnswer::of(fields_of(&tm, 0));
            section.compare((seconds, time), time_to_fields(time), expected)?;

            let time = library::seconds_since_1980_to_time(seconds);
            let tm = date_of(i64::from(seconds) + from_1970_to_1980);
            let expected = FieldsAnswer::of(fields_of(&tm, 0));
            section.compare((seconds, time), time_to_fields(time), expected)?;
        }
        Ok(())
    })
}
