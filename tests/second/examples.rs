//! The papers' own examples, by both revisions of the time paper, and days at
//! the borders of blocks of years, as numbers written out. The library is held
//! to them, and so is the reference.

use crate::library::{self, AbsoluteAnswer, FieldsAnswer, SecondsAnswer, TimeAnswer, TimeFields};
use crate::report::{Enough, Outcome, Section};
use crate::revisions::listed_others;
use crate::time_reference::{self as reference, START_OF_1970, START_OF_1980};
use crate::Basis;

/// Year, month, day, hour, minute, second, millisecond, weekday.
type Row = [i16; 8];

/// A weekday that has no part in the example.
const ANY: i16 = 99;

/// By both revisions.
const ABSOLUTE: [(i64, bool); 6] = [
    (i64::MIN, false),
    (-1, false),
    (1, true),
    (9_999, true),
    (122_648_657_102_450_000, true),
    (9_223_372_036_854_775_807, true),
];

/// A TIME and its fields.
const FIELDS: [(i64, Row); 5] = [
    (0, [1601, 1, 1, 0, 0, 0, 0, 1]),
    (9_999, [1601, 1, 1, 0, 0, 0, 0, 1]),
    (10_000, [1601, 1, 1, 0, 0, 0, 1, 1]),
    (122_648_657_102_450_000, [1989, 8, 29, 11, 8, 30, 245, 2]),
    (9_223_372_036_854_775_807, [30828, 9, 14, 2, 48, 5, 477, 4]),
];

/// A TIME and its fields, at the borders of the blocks of 400, 100, 4 and 1
/// years from 1601 (document 02, R-4). By plain division 31 December of 1604
/// would fall into a fifth year, and that of 2000 into a fifth century.
const BLOCK_BORDERS: [(i64, Row); 14] = [
    (315_359_999_999_999, [1601, 12, 31, 23, 59, 59, 999, 1]),
    (315_360_000_000_000, [1602, 1, 1, 0, 0, 0, 0, 2]),
    (1_261_440_000_000_000, [1604, 12, 31, 0, 0, 0, 0, 5]),
    (1_262_303_999_999_999, [1604, 12, 31, 23, 59, 59, 999, 5]),
    (1_262_304_000_000_000, [1605, 1, 1, 0, 0, 0, 0, 6]),
    (31_556_735_999_999_999, [1700, 12, 31, 23, 59, 59, 999, 5]),
    (31_556_736_000_000_000, [1701, 1, 1, 0, 0, 0, 0, 6]),
    (126_226_944_000_000_000, [2000, 12, 31, 0, 0, 0, 0, 0]),
    (126_227_807_999_999_999, [2000, 12, 31, 23, 59, 59, 999, 0]),
    (126_227_808_000_000_000, [2001, 1, 1, 0, 0, 0, 0, 1]),
    (9_214_629_120_000_000_000, [30800, 12, 31, 0, 0, 0, 0, 0]),
    (
        9_214_629_983_999_999_999,
        [30800, 12, 31, 23, 59, 59, 999, 0],
    ),
    (9_214_629_984_000_000_000, [30801, 1, 1, 0, 0, 0, 0, 1]),
    (9_223_371_936_000_000_000, [30828, 9, 14, 0, 0, 0, 0, 4]),
];

const FIELDS_REFUSED: [(i64, u32); 3] = [(-1, 15), (-10_000, 15), (i64::MIN, 15)];

/// Fields and their TIME, by both revisions.
const TIMES: [(Row, i64); 14] = [
    ([1601, 1, 1, 0, 0, 0, 0, 1], 0),
    ([1601, 1, 1, 0, 0, 0, 1, 1], 10_000),
    ([1602, 1, 1, 0, 0, 0, 0, ANY], 315_360_000_000_000),
    ([1970, 1, 1, 0, 0, 0, 0, ANY], 116_444_736_000_000_000),
    ([1980, 1, 1, 0, 0, 0, 0, ANY], 119_600_064_000_000_000),
    ([1989, 8, 29, 11, 8, 30, 245, 2], 122_648_657_102_450_000),
    ([1989, 8, 29, 11, 8, 30, 245, ANY], 122_648_657_102_450_000),
    // Before and after the place of a second 60.
    ([2000, 3, 1, 0, 0, 0, 0, ANY], 125_963_424_000_000_000),
    (
        [2016, 12, 31, 23, 59, 59, 999, ANY],
        131_277_023_999_990_000,
    ),
    ([2017, 1, 1, 0, 0, 0, 0, ANY], 131_277_024_000_000_000),
    ([2017, 1, 1, 0, 0, 0, 999, ANY], 131_277_024_009_990_000),
    ([30828, 1, 1, 0, 0, 0, 0, ANY], 9_223_149_888_000_000_000),
    ([30828, 9, 1, 0, 0, 0, 0, ANY], 9_223_360_704_000_000_000),
    // The last millisecond, not the last TIME.
    ([30828, 9, 14, 2, 48, 5, 477, 4], 9_223_372_036_854_770_000),
];

/// By both revisions.
const TIMES_REFUSED: [(Row, u32); 13] = [
    ([1600, 12, 31, 0, 0, 0, 0, ANY], 14),
    ([1900, 2, 29, 0, 0, 0, 0, ANY], 14),
    ([2016, 12, 30, 23, 59, 60, 0, ANY], 14),
    ([2016, 12, 31, 23, 58, 60, 0, ANY], 14),
    ([2016, 12, 31, 22, 59, 60, 0, ANY], 14),
    ([2016, 12, 31, 23, 59, 61, 0, ANY], 14),
    ([30828, 9, 14, 2, 48, 5, 478, 4], 15),
    ([30829, 1, 1, 0, 0, 0, 0, ANY], 15),
    ([30829, 2, 29, 0, 0, 0, 0, ANY], 14),
    ([32000, 2, 29, 0, 0, 0, 0, ANY], 15),
    ([32767, 12, 30, 23, 59, 60, 0, ANY], 14),
    ([32767, 12, 32, 0, 0, 0, 0, ANY], 14),
    ([-1, 1, 1, 0, 0, 0, 0, ANY], 14),
];

/// What a revision does not have in common with the other one: whether TIME 0
/// is absolute, and second 60 on the last day of a month.
struct Revision {
    number: u32,
    absolute: &'static [(i64, bool)],
    refused: &'static [(Row, u32)],
    /// Two rows of fields that have one TIME.
    same: &'static [(Row, Row)],
}

const BY_10: Revision = Revision {
    number: 10,
    absolute: &[(0, true)],
    refused: &[
        ([2016, 12, 31, 23, 59, 60, 0, ANY], 14),
        ([2016, 12, 31, 23, 59, 60, 999, ANY], 14),
        ([30828, 8, 31, 23, 59, 60, 0, ANY], 14),
        ([2000, 2, 29, 23, 59, 60, 0, ANY], 14),
        ([30828, 9, 30, 23, 59, 60, 0, ANY], 14),
        ([32767, 12, 31, 23, 59, 60, 0, ANY], 14),
    ],
    same: &[],
};

const BY_12: Revision = Revision {
    number: 12,
    absolute: &[(0, false)],
    refused: &[
        ([30828, 9, 30, 23, 59, 60, 0, ANY], 15),
        ([32767, 12, 31, 23, 59, 60, 0, ANY], 15),
    ],
    same: &[
        (
            [2016, 12, 31, 23, 59, 60, 0, ANY],
            [2017, 1, 1, 0, 0, 0, 0, ANY],
        ),
        (
            [2016, 12, 31, 23, 59, 60, 999, ANY],
            [2017, 1, 1, 0, 0, 0, 999, ANY],
        ),
        (
            [30828, 8, 31, 23, 59, 60, 0, ANY],
            [30828, 9, 1, 0, 0, 0, 0, ANY],
        ),
        (
            [2000, 2, 29, 23, 59, 60, 0, ANY],
            [2000, 3, 1, 0, 0, 0, 0, ANY],
        ),
    ],
};

/// What a revision answers, or refuses with 15.
const TIMES_BY_OTHERS: [i64; 5] = [
    i64::MIN,
    -1,
    0,
    122_648_657_102_450_000,
    9_223_372_036_854_775_807,
];

/// What a revision answers, or refuses with 14 or 15.
const FIELDS_BY_OTHERS: [Row; 6] = [
    [1601, 1, 1, 0, 0, 0, 0, 1],
    [1989, 8, 29, 11, 8, 30, 245, 2],
    [2016, 12, 31, 23, 59, 60, 0, ANY],
    [1900, 2, 29, 0, 0, 0, 0, ANY],
    [30829, 1, 1, 0, 0, 0, 0, ANY],
    [30828, 9, 30, 23, 59, 60, 0, ANY],
];

/// Fields that come back as they are, their weekday included.
const KEPT: [Row; 4] = [
    [1601, 1, 1, 0, 0, 0, 0, 1],
    [1989, 8, 29, 11, 8, 30, 245, 2],
    [2023, 3, 26, 2, 30, 0, 0, 0],
    [2023, 10, 29, 2, 30, 0, 0, 0],
];

/// Dates that there are, whatever their TIME and weekday: they come back
/// with these seven numbers.
const DATES: [Row; 4] = [
    [2000, 2, 29, 0, 0, 0, 0, ANY],
    [2000, 12, 31, 23, 59, 59, 999, ANY],
    [2004, 12, 31, 23, 59, 59, 999, ANY],
    [1900, 2, 28, 0, 0, 0, 0, ANY],
];

/// A TIME and its seconds since 1970, or the refusal's number.
const SINCE_1970: [(i64, Result<u32, u32>); 12] = [
    (i64::MIN, Err(15)),
    (-1, Err(15)),
    (0, Err(15)),
    (116_444_735_990_000_000, Err(15)),
    (116_444_735_990_000_001, Err(15)),
    (116_444_735_999_999_999, Err(15)),
    (116_444_736_000_000_000, Ok(0)),
    (116_444_736_009_999_999, Ok(0)),
    (116_444_736_010_000_000, Ok(1)),
    (159_394_408_959_999_999, Ok(4_294_967_295)),
    (159_394_408_960_000_000, Err(15)),
    (9_223_372_036_854_775_807, Err(15)),
];

/// The same since 1980.
const SINCE_1980: [(i64, Result<u32, u32>); 12] = [
    (i64::MIN, Err(15)),
    (-1, Err(15)),
    (0, Err(15)),
    (119_600_063_990_000_000, Err(15)),
    (119_600_063_990_000_001, Err(15)),
    (119_600_063_999_999_999, Err(15)),
    (119_600_064_000_000_000, Ok(0)),
    (119_600_064_009_999_999, Ok(0)),
    (119_600_064_010_000_000, Ok(1)),
    (162_549_736_959_999_999, Ok(4_294_967_295)),
    (162_549_736_960_000_000, Err(15)),
    (9_223_372_036_854_775_807, Err(15)),
];

/// Seconds since 1970 or 1980 and their TIME: the first, the second, the last.
const FROM_1970: [(u32, i64); 3] = [
    (0, 116_444_736_000_000_000),
    (1, 116_444_736_010_000_000),
    (4_294_967_295, 159_394_408_950_000_000),
];
const FROM_1980: [(u32, i64); 3] = [
    (0, 119_600_064_000_000_000),
    (1, 119_600_064_010_000_000),
    (4_294_967_295, 162_549_736_950_000_000),
];

/// The seven calls, of the library or of the reference.
struct Calls<'a> {
    is_absolute: &'a dyn Fn(u32, i64) -> AbsoluteAnswer,
    time_to_fields: &'a dyn Fn(u32, i64) -> FieldsAnswer,
    fields_to_time: &'a dyn Fn(u32, TimeFields) -> TimeAnswer,
    time_to_seconds_since_1970: &'a dyn Fn(i64) -> SecondsAnswer,
    time_to_seconds_since_1980: &'a dyn Fn(i64) -> SecondsAnswer,
    seconds_since_1970_to_time: &'a dyn Fn(u32) -> i64,
    seconds_since_1980_to_time: &'a dyn Fn(u32) -> i64,
}

pub fn sections(basis: &Basis) -> Vec<Section> {
    let calendar = &basis.calendar;
    let of_library = Calls {
        is_absolute: &library::is_absolute,
        time_to_fields: &library::time_to_fields,
        fields_to_time: &library::fields_to_time,
        time_to_seconds_since_1970: &library::time_to_seconds_since_1970,
        time_to_seconds_since_1980: &library::time_to_seconds_since_1980,
        seconds_since_1970_to_time: &library::seconds_since_1970_to_time,
        seconds_since_1980_to_time: &library::seconds_since_1980_to_time,
    };
    let by_table = Calls {
        time_to_fields: &library::time_to_fields_by_table,
        fields_to_time: &library::fields_to_time_by_table,
        ..of_library
    };
    let of_reference = Calls {
        is_absolute: &reference::is_absolute,
        time_to_fields: &|revision, time| reference::time_to_fields(calendar, revision, time),
        fields_to_time: &|revision, fields| reference::fields_to_time(calendar, revision, fields),
        time_to_seconds_since_1970: &|time| reference::time_to_seconds(START_OF_1970, time),
        time_to_seconds_since_1980: &|time| reference::time_to_seconds(START_OF_1980, time),
        seconds_since_1970_to_time: &|seconds| reference::seconds_to_time(START_OF_1970, seconds),
        seconds_since_1980_to_time: &|seconds| reference::seconds_to_time(START_OF_1980, seconds),
    };
    vec![
        held_to_examples("examples: the reference", &of_reference),
        held_to_examples("examples: the library", &of_library),
        held_to_examples("examples: the library, by table", &by_table),
    ]
}

fn held_to_examples(name: &str, calls: &Calls) -> Section {
    let outcomes = [
        Outcome::Yes,
        Outcome::No,
        Outcome::Answered,
        Outcome::Refused(14),
        Outcome::Refused(15),
        Outcome::Refused(22),
    ];
    Section::run(name, &outcomes, 1, |section| {
        for revision in [BY_10, BY_12] {
            times(section, calls, &revision)?;
            fields(section, calls, &revision)?;
            there_and_back(section, calls, revision.number)?;
        }
        by_others(section, calls)?;
        seconds(
            section,
            &SINCE_1970,
            calls.time_to_seconds_since_1970,
            &FROM_1970,
            calls.seconds_since_1970_to_time,
        )?;
        seconds(
            section,
            &SINCE_1980,
            calls.time_to_seconds_since_1980,
            &FROM_1980,
            calls.seconds_since_1980_to_time,
        )
    })
}

/// What is asked of a TIME.
fn times(section: &mut Section, calls: &Calls, revision: &Revision) -> Result<(), Enough> {
    let number = revision.number;
    let fields_of = |time: i64| (calls.time_to_fields)(number, time);
    for (time, absolute) in ABSOLUTE.iter().chain(revision.absolute).copied() {
        let given = (calls.is_absolute)(number, time);
        section.compare((number, time), given, AbsoluteAnswer::of(absolute))?;
    }
    for (time, row) in FIELDS.into_iter().chain(BLOCK_BORDERS) {
        let expected = FieldsAnswer::of(TimeFields::from_row(row));
        section.compare((number, time), fields_of(time), expected)?;
    }
    for (time, refusal) in FIELDS_REFUSED {
        let expected = FieldsAnswer::refused(refusal);
        section.compare((number, time), fields_of(time), expected)?;
    }
    Ok(())
}

/// What is asked of fields.
fn fields(section: &mut Section, calls: &Calls, revision: &Revision) -> Result<(), Enough> {
    let number = revision.number;
    let time_of = |row: Row| (calls.fields_to_time)(number, TimeFields::from_row(row));
    for (row, time) in TIMES {
        section.compare((number, row), time_of(row), TimeAnswer::of(time))?;
    }
    for (row, refusal) in TIMES_REFUSED.iter().chain(revision.refused).copied() {
        section.compare((number, row), time_of(row), TimeAnswer::refused(refusal))?;
    }
    for &(one, other) in revision.same {
        let first = time_of(one);
        let holds = first == time_of(other) && first.refusal == 0;
        section.check((number, one, other), first, "one TIME of both", holds)?;
    }
    Ok(())
}

fn there_and_back(section: &mut Section, calls: &Calls, number: u32) -> Result<(), Enough> {
    for row in KEPT {
        let there = (calls.fields_to_time)(number, TimeFields::from_row(row));
        let back = (calls.time_to_fields)(number, there.time);
        let expected = FieldsAnswer::of(TimeFields::from_row(row));
        section.compare((number, row), back, expected)?;
    }
    for row in DATES {
        let there = (calls.fields_to_time)(number, TimeFields::from_row(row));
        let back = (calls.time_to_fields)(number, there.time);
        let same = TimeFields {
            weekday: ANY,
            ..back.fields
        };
        let holds = there.refusal == 0 && back.refusal == 0 && same == TimeFields::from_row(row);
        section.check((number, row), back, "the same date", holds)?;
    }
    Ok(())
}

fn by_others(section: &mut Section, calls: &Calls) -> Result<(), Enough> {
    for number in listed_others() {
        for time in TIMES_BY_OTHERS {
            let asked = (number, time);
            let absolute = (calls.is_absolute)(number, time);
            section.compare(asked, absolute, AbsoluteAnswer::refused(22))?;
            let fields = (calls.time_to_fields)(number, time);
            section.compare(asked, fields, FieldsAnswer::refused(22))?;
        }
        for row in FIELDS_BY_OTHERS {
            let given = (calls.fields_to_time)(number, TimeFields::from_row(row));
            section.compare((number, row), given, TimeAnswer::refused(22))?;
        }
    }
    Ok(())
}

fn seconds(
    section: &mut Section,
    since: &[(i64, Result<u32, u32>)],
    time_to_seconds: &dyn Fn(i64) -> SecondsAnswer,
    from: &[(u32, i64)],
    seconds_to_time: &dyn Fn(u32) -> i64,
) -> Result<(), Enough> {
    for &(time, seconds) in since {
        let expected = match seconds {
            Ok(seconds) => SecondsAnswer::of(seconds),
            Err(refusal) => SecondsAnswer::refused(refusal),
        };
        section.compare(time, time_to_seconds(time), expected)?;
    }
    for &(seconds, time) in from {
        section.compare(seconds, seconds_to_time(seconds), time)?;
    }
    Ok(())
}
