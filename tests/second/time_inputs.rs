//! The TIMEs and the fields that the calls are asked about.

use crate::calendar::LAST_YEAR;
use crate::library::TimeFields;
use crate::report::Enough;
use crate::seeded::{edges_i64, Seeded, FIELD_EDGES};
use crate::time_reference::{
    TICKS_PER_DAY, TICKS_PER_HOUR, TICKS_PER_MILLISECOND, TICKS_PER_MINUTE, TICKS_PER_SECOND,
};
use crate::Basis;

/// Seeded inputs of each call, beside those that are listed one by one.
pub const SEEDED_INPUTS: usize = 1_500_000;

/// The last year whose every day is looked at, counting from 1601.
const LAST_WHOLE_YEAR: i16 = 2500;

/// The year and the day (counted from 1601-01-01 as 0) of the last TIME.
pub const YEAR_OF_LAST_TIME: i16 = 30828;
pub const DAY_OF_LAST_TIME: i64 = i64::MAX / TICKS_PER_DAY;

/// The TIMEs that are asked to be absolute or not.
pub fn times_of_any_sign(
    basis: &Basis,
    section: &str,
    mut ask: impl FnMut(i64) -> Result<(), Enough>,
) -> Result<(), Enough> {
    let mut seeded = Seeded::new(basis.seed, section);
    for time in -10_000..=10_000 {
        ask(time)?;
    }
    for time in edges_i64() {
        ask(time)?;
    }
    for _ in 0..SEEDED_INPUTS {
        let time = match seeded.between(0, 3) {
            0 => seeded.any_i64(),
            // Only the upper half or only the lower half is not zero.
            1 => seeded.any_i64() << 32,
            2 => i64::from(seeded.any_u32()),
            _ => seeded.any_length_i64(),
        };
        ask(time)?;
    }
    Ok(())
}

/// Both ends of TIME and of a millisecond, and powers of two with their
/// neighbours.
pub fn edge_times() -> Vec<i64> {
    let mut times = vec![0, 9_999, 10_000, -1, -9_999, -10_000, i64::MIN, i64::MAX];
    times.extend(edges_i64());
    times
}

/// The TIMEs whose fields are asked for.
pub fn times(
    basis: &Basis,
    section: &str,
    mut ask: impl FnMut(i64) -> Result<(), Enough>,
) -> Result<(), Enough> {
    let calendar = &basis.calendar;
    let mut seeded = Seeded::new(basis.seed, section);

    for time in edge_times() {
        ask(time)?;
    }
    // The last milliseconds, tick by tick.
    for before in 0..50_000 {
        ask(i64::MAX - before)?;
    }

    // Every day at its first two ticks, at some tick within, and at its last,
    // which is the tick before the next midnight.
    let early = 0..calendar.first_day(LAST_WHOLE_YEAR + 1);
    let late = calendar.first_day(YEAR_OF_LAST_TIME - 99)..DAY_OF_LAST_TIME + 1;
    for day in early.chain(late) {
        let within = seeded.between(2, TICKS_PER_DAY - 2);
        for tick in [0, 1, within, TICKS_PER_DAY - 1] {
            if let Some(time) = (day * TICKS_PER_DAY).checked_add(tick) {
                ask(time)?;
            }
        }
    }

    // Every month of all years: its first tick and the tick before.
    for year in 1601..=YEAR_OF_LAST_TIME {
        for month in 1..=12 {
            let day = calendar.month(year, month).first;
            if day <= DAY_OF_LAST_TIME {
                ask(day * TICKS_PER_DAY - 1)?;
                ask(day * TICKS_PER_DAY)?;
            }
        }
    }

    // Every second of a day and every millisecond of a minute, from both sides.
    let day = seeded.between(0, DAY_OF_LAST_TIME - 1) * TICKS_PER_DAY;
    for second in 0..86_400 {
        for near in -1..=1 {
            ask(day + second * TICKS_PER_SECOND + near)?;
        }
    }
    let minute = seeded.between(0, i64::MAX / TICKS_PER_MINUTE - 1) * TICKS_PER_MINUTE;
    for millisecond in 0..60_000 {
        for near in -1..=1 {
            ask(minute + millisecond * TICKS_PER_MILLISECOND + near)?;
        }
    }

    for _ in 0..SEEDED_INPUTS {
        ask(seeded_time(basis, &mut seeded))?;
    }
    Ok(())
}

/// TIMEs of every sort: any number, and numbers around the ends of months and
/// of shorter parts.
pub fn seeded_time(basis: &Basis, seeded: &mut Seeded) -> i64 {
    let calendar = &basis.calendar;
    match seeded.between(0, 7) {
        0 => seeded.any_i64(),
        1 => seeded.any_length_i64(),
        2 | 3 => seeded.between(0, i64::MAX),
        4 => {
            // The last month that begins before the last TIME is a September.
            let year = seeded.between_i16(1601, YEAR_OF_LAST_TIME);
            let last_month = if year == YEAR_OF_LAST_TIME { 9 } else { 12 };
            let month = match seeded.one_in(3) {
                true => 1,
                false => seeded.between_i16(1, last_month),
            };
            calendar.month(year, month).first * TICKS_PER_DAY + seeded.between(-1, 1)
        }
        _ => {
            let part = seeded.pick(&[
                TICKS_PER_MILLISECOND,
                TICKS_PER_SECOND,
                TICKS_PER_MINUTE,
                TICKS_PER_HOUR,
                TICKS_PER_DAY,
            ]);
            seeded.between(0, i64::MAX / part) * part + seeded.between(-1, 1)
        }
    }
}

/// What a list of fields does with each of them.
type Ask<'a> = &'a mut dyn FnMut(TimeFields) -> Result<(), Enough>;

/// The fields whose TIME is asked for.
pub fn fields(basis: &Basis, section: &str, ask: Ask) -> Result<(), Enough> {
    let mut seeded = Seeded::new(basis.seed, section);
    every_day(basis, &mut seeded, ask)?;
    every_month(basis, &mut seeded, ask)?;
    every_time_of_day(basis, &mut seeded, ask)?;
    every_number_in_one_field(ask)?;
    second_60(basis, &mut seeded, ask)?;
    around_the_ends(&mut seeded, ask)?;
    for _ in 0..SEEDED_INPUTS {
        ask(seeded_fields(basis, &mut seeded))?;
    }
    Ok(())
}

/// Every day of the early years, at midnight and at some time of day.
fn every_day(basis: &Basis, seeded: &mut Seeded, ask: Ask) -> Result<(), Enough> {
    for year in 1601..=LAST_WHOLE_YEAR {
        for month in 1..=12 {
            for day in 1..=basis.calendar.month(year, month).days {
                ask(TimeFields {
                    year,
                    month,
                    day,
                    weekday: seeded.edge_i16(),
                    ..Default::default()
                })?;
                ask(at_some_time(seeded, year, month, day))?;
            }
        }
    }
    Ok(())
}

/// Every month that fields can name: its first and last day, and the days
/// before and after them.
fn every_month(basis: &Basis, seeded: &mut Seeded, ask: Ask) -> Result<(), Enough> {
    for year in 1601..=LAST_YEAR {
        for month in 1..=12 {
            let last = basis.calendar.month(year, month).days;
            for day in [0, 1, last, last + 1] {
                ask(at_some_time(seeded, year, month, day))?;
            }
        }
    }
    Ok(())
}

/// Every second of a day and every millisecond of a minute.
fn every_time_of_day(basis: &Basis, seeded: &mut Seeded, ask: Ask) -> Result<(), Enough> {
    let date = well_formed(basis, seeded, 1601, YEAR_OF_LAST_TIME - 1);
    for hour in 0..24 {
        for minute in 0..60 {
            for second in 0..60 {
                ask(TimeFields {
                    hour,
                    minute,
                    second,
                    ..date
                })?;
            }
        }
    }
    for second in 0..60 {
        for milliseconds in 0..1000 {
            ask(TimeFields {
                second,
                milliseconds,
                ..date
            })?;
        }
    }
    Ok(())
}

/// Every 16-bit number in each field, the other fields being good.
fn every_number_in_one_field(ask: Ask) -> Result<(), Enough> {
    let plain = TimeFields::from_row([2000, 2, 29, 12, 30, 30, 500, 2]);
    let second_60 = TimeFields::from_row([1999, 2, 28, 23, 59, 60, 999, 0]);
    for good in [plain, second_60] {
        for place in 0..8 {
            for number in i16::MIN..=i16::MAX {
                ask(with_field(good, place, number))?;
            }
        }
    }
    Ok(())
}

/// Second 60 where it is well formed, and with one field wrong.
fn second_60(basis: &Basis, seeded: &mut Seeded, ask: Ask) -> Result<(), Enough> {
    for year in 1601..=LAST_YEAR {
        for month in 1..=12 {
            let last = basis.calendar.month(year, month).days;
            let good = TimeFields {
                hour: 23,
                minute: 59,
                second: 60,
                milliseconds: seeded.pick(&[0, 1, 499, 998, 999]),
                ..at_some_time(seeded, year, month, last)
            };
            ask(good)?;
            ask(TimeFields {
                day: last - 1,
                ..good
            })?;
            if year > LAST_WHOLE_YEAR {
                continue;
            }
            ask(TimeFields {
                milliseconds: seeded.between_i16(0, 999),
                ..good
            })?;
            for day in [-1, 0, 1, last + 1, seeded.between_i16(2, last - 2)] {
                ask(TimeFields { day, ..good })?;
            }
            for hour in [-1, 0, 11, 22, 24, seeded.between_i16(0, 22)] {
                ask(TimeFields { hour, ..good })?;
            }
            for minute in [-1, 0, 29, 58, 60, seeded.between_i16(0, 58)] {
                ask(TimeFields { minute, ..good })?;
            }
            for second in [-1, 0, 59, 61] {
                ask(TimeFields { second, ..good })?;
            }
            for milliseconds in [-1, 1000] {
                ask(TimeFields {
                    milliseconds,
                    ..good
                })?;
            }
        }
    }
    Ok(())
}

/// The first and the last TIME that fields can tell, and what lies beyond.
pub fn around_the_ends(seeded: &mut Seeded, ask: Ask) -> Result<(), Enough> {
    for listed in [
        // The second before the first TIME is in a year that is ill formed,
        // and so is its second 60, although the next midnight is TIME 0.
        [1600, 12, 31, 23, 59, 59, 999, 0],
        [1600, 12, 31, 23, 59, 60, 0, 0],
        [1601, 1, 1, 0, 0, 0, 0, 0],
        [1601, 1, 1, 0, 0, 0, 1, 0],
        [1601, 1, 1, 0, 0, 60, 0, 0],
        [1601, 1, 0, 0, 0, 0, 0, 0],
        [1601, 1, 31, 23, 59, 60, 0, 0],
        // Second 60 on the last days of months around the last TIME.
        [30827, 12, 31, 23, 59, 60, 999, 0],
        [30828, 2, 29, 23, 59, 60, 999, 0],
        [30828, 2, 28, 23, 59, 60, 999, 0],
        [30828, 8, 31, 23, 59, 59, 999, 0],
        [30828, 8, 31, 23, 59, 60, 0, 0],
        [30828, 8, 31, 23, 59, 60, 999, 0],
        [30828, 8, 31, 23, 59, 60, 1000, 0],
        [30828, 9, 13, 23, 59, 60, 0, 0],
        [30828, 9, 14, 23, 59, 60, 0, 0],
        [30828, 9, 30, 23, 59, 59, 999, 0],
        [30828, 9, 30, 23, 59, 60, 0, 0],
        [30828, 9, 30, 23, 59, 60, 999, 0],
        [30828, 9, 31, 0, 0, 0, 0, 0],
        [30828, 9, 31, 23, 59, 60, 0, 0],
        [30828, 12, 31, 23, 59, 60, 0, 0],
        // Well formed or not in the years after it.
        [30829, 1, 1, 0, 0, 0, 0, 0],
        [30829, 2, 28, 0, 0, 0, 0, 0],
        [30829, 2, 29, 0, 0, 0, 0, 0],
        [32000, 2, 29, 0, 0, 0, 0, 0],
        [32100, 2, 29, 0, 0, 0, 0, 0],
        [32764, 2, 29, 23, 59, 60, 0, 0],
        [32767, 12, 31, 23, 59, 59, 999, 0],
        [32767, 12, 31, 23, 59, 60, 999, 0],
        [32767, 12, 31, 23, 59, 61, 0, 0],
        [32767, 12, 32, 0, 0, 0, 0, 0],
    ] {
        let listed = TimeFields::from_row(listed);
        ask(listed)?;
        ask(TimeFields {
            weekday: seeded.any_i16(),
            ..listed
        })?;
    }

    // The last millisecond and the first that is not expressible, each with
    // one field moved by one, and with any number that is an edge.
    for milliseconds in [0, 476, 477, 478, 479, 999] {
        let last = TimeFields::from_row([30828, 9, 14, 2, 48, 5, milliseconds, 4]);
        ask(last)?;
        for place in 0..8 {
            let number = last.as_row()[place];
            ask(with_field(last, place, number - 1))?;
            ask(with_field(last, place, number + 1))?;
            for edge in FIELD_EDGES {
                ask(with_field(last, place, edge))?;
            }
        }
    }
    Ok(())
}

/// Fields of every sort: good ones, good ones with one field replaced, and
/// fields that are edges or any numbers throughout.
pub fn seeded_fields(basis: &Basis, seeded: &mut Seeded) -> TimeFields {
    let good = match seeded.between(0, 9) {
        0 => return TimeFields::from_row([0; 8].map(|_: i16| seeded.edge_i16())),
        1 => return TimeFields::from_row([0; 8].map(|_: i16| seeded.any_i16())),
        2 => well_formed(basis, seeded, YEAR_OF_LAST_TIME, YEAR_OF_LAST_TIME),
        3 => well_formed(basis, seeded, YEAR_OF_LAST_TIME + 1, LAST_YEAR),
        4 => well_formed(basis, seeded, 1601, 1602),
        5 => {
            let some = well_formed(basis, seeded, 1601, LAST_YEAR);
            TimeFields {
                day: basis.calendar.month(some.year, some.month).days,
                hour: 23,
                minute: 59,
                second: seeded.pick(&[59, 60]),
                ..some
            }
        }
        6 => {
            // Around the end of a February.
            let some = well_formed(basis, seeded, 1601, LAST_YEAR);
            TimeFields {
                month: 2,
                day: seeded.between_i16(28, 30),
                ..some
            }
        }
        _ => well_formed(basis, seeded, 1601, YEAR_OF_LAST_TIME - 1),
    };
    match seeded.between(0, 4) {
        0 | 1 => good,
        2 | 3 => {
            let place = seeded.between(0, 6) as usize;
            with_field(good, place, seeded.edge_i16())
        }
        _ => {
            // One field moved by one.
            let place = seeded.between(0, 6) as usize;
            let number = good.as_row()[place].saturating_add(seeded.pick(&[-1, 1]));
            with_field(good, place, number)
        }
    }
}

/// Well-formed fields of the years from first to last, of any weekday.
fn well_formed(basis: &Basis, seeded: &mut Seeded, first: i16, last: i16) -> TimeFields {
    let year = seeded.between_i16(first, last);
    let month = seeded.between_i16(1, 12);
    let day = seeded.between_i16(1, basis.calendar.month(year, month).days);
    at_some_time(seeded, year, month, day)
}

/// A date at some time of day, often the first or the last, and with any
/// number as its weekday.
pub fn at_some_time(seeded: &mut Seeded, year: i16, month: i16, day: i16) -> TimeFields {
    let mut part = |last: i16| match seeded.between(0, 7) {
        0 => 0,
        1 => last,
        _ => seeded.between_i16(0, last),
    };
    TimeFields {
        year,
        month,
        day,
        hour: part(23),
        minute: part(59),
        second: part(59),
        milliseconds: part(999),
        weekday: seeded.edge_i16(),
    }
}

/// The same fields with another number in one place.
fn with_field(old: TimeFields, place: usize, number: i16) -> TimeFields {
    let mut row = old.as_row();
    row[place] = number;
    TimeFields::from_row(row)
}
