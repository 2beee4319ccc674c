//! The best formulas known for the calendar, in plain Rust: those of Neri and
//! Schneider, "Euclidean affine functions and their application to calendar
//! algorithms" (2022), with years that start in March.

use crate::library::{FieldsAnswer, TimeAnswer, TimeFields};
use crate::plain::{is_formed, tick_of_day, with_time_of_day, DAY, REVISION_1_2};

/// The days from 0000-03-01 to 1601-01-01.
const SHIFT: u32 = 584_694;

#[inline(never)]
pub extern "C" fn time_to_fields(time: i64) -> FieldsAnswer {
    if time < 0 {
        return FieldsAnswer::refused(15);
    }
    let days = (time as u64 / DAY) as u32;
    let (year, month, day) = date(days + SHIFT);
    FieldsAnswer::of(with_time_of_day(time as u64, days, year, month, day))
}

fn date(n: u32) -> (u32, u32, u32) {
    let n1 = 4 * n + 3;
    let century = n1 / 146_097;
    let of_century = n1 % 146_097 / 4;
    let product = 2_939_745 * (4 * of_century + 3) as u64;
    let year = 100 * century + (product >> 32) as u32;
    let of_year = (product as u32) / 2_939_745 / 4;
    let line = 2141 * of_year + 197_913;
    let month = line >> 16;
    let day = (line & 0xffff) / 2141;
    let next = of_year >= 306;
    (
        year + next as u32,
        if next { month - 12 } else { month },
        day + 1,
    )
}

#[inline(never)]
pub extern "C" fn fields_to_time(fields: TimeFields) -> TimeAnswer {
    if !is_formed(REVISION_1_2, &fields) {
        return TimeAnswer::refused(14);
    }
    let before = fields.month <= 2;
    let year = fields.year as u32 - before as u32;
    let month = fields.month as u32 + 12 * before as u32;
    let century = year / 100;
    let days = 1461 * year / 4 - century
        + century / 4
        + (979 * month - 2919) / 32
        + (fields.day as u32 - 1)
        - SHIFT;
    tick_of_day(days, &fields)
}
