//! The nine calls on TIME and fields against the reference, those that take a
//! revision by 10, by 12 and by other numbers, and the two calendars against
//! each other.

use crate::calendar::LAST_YEAR;
use crate::library::{self, FieldsAnswer, SecondsAnswer, TimeAnswer, TimeFields};
use crate::report::{Enough, Outcome, Section};
use crate::revisions::{seeded_other, Asked, ASKED, REVISIONS};
use crate::seeded::{edges_i64, edges_u32, Seeded};
use crate::time_inputs::{
    at_some_time, fields, seeded_fields, seeded_time, times, times_of_any_sign, DAY_OF_LAST_TIME,
    SEEDED_INPUTS, YEAR_OF_LAST_TIME,
};
use crate::time_reference::{
    self as reference, ILL_FORMED, NOT_EXPRESSIBLE, REVISION_1_0, REVISION_1_2, START_OF_1970,
    START_OF_1980, TICKS_PER_DAY, TICKS_PER_MILLISECOND, TICKS_PER_SECOND, UNKNOWN_REVISION,
};
use crate::Basis;

const FEWEST: u64 = 1_000_000;

/// Inputs on which the two calendars are compared with each other.
const FEWEST_OF_BOTH: u64 = 10_000_000;

/// The calls of one calendar, with their names.
pub struct Conversions {
    pub to_fields: (&'static str, fn(u32, i64) -> FieldsAnswer),
    pub to_time: (&'static str, fn(u32, TimeFields) -> TimeAnswer),
}

/// The first calendar, and the one by table.
pub const CALENDARS: [Conversions; 2] = [
    Conversions {
        to_fields: ("time_to_fields", library::time_to_fields),
        to_time: ("fields_to_time", library::fields_to_time),
    },
    Conversions {
        to_fields: ("time_to_fields_by_table", library::time_to_fields_by_table),
        to_time: ("fields_to_time_by_table", library::fields_to_time_by_table),
    },
];

pub fn sections(basis: &Basis) -> Vec<Section> {
    let mut sections = Vec::new();
    for asked in ASKED {
        sections.push(is_absolute(basis, asked));
    }
    for calls in CALENDARS {
        for asked in ASKED {
            sections.push(time_to_fields(basis, &calls, asked));
        }
        sections.push(time_to_fields_on_every_day(basis, &calls));
        for asked in ASKED {
            sections.push(fields_to_time(basis, &calls, asked));
        }
        for revision in REVISIONS {
            sections.push(round_trip(basis, &calls, revision));
        }
    }
    sections.push(both_calendars(basis));
    sections.extend([
        time_to_seconds(
            basis,
            "time_to_seconds_since_1970",
            START_OF_1970,
            library::time_to_seconds_since_1970,
        ),
        time_to_seconds(
            basis,
            "time_to_seconds_since_1980",
            START_OF_1980,
            library::time_to_seconds_since_1980,
        ),
        seconds_to_time(
            basis,
            "seconds_since_1970_to_time",
            START_OF_1970,
            library::seconds_since_1970_to_time,
        ),
        seconds_to_time(
            basis,
            "seconds_since_1980_to_time",
            START_OF_1980,
            library::seconds_since_1980_to_time,
        ),
        seconds_round_trip(
            basis,
            "time_to_seconds of seconds_to_time, 1970",
            library::seconds_since_1970_to_time,
            library::time_to_seconds_since_1970,
        ),
        seconds_round_trip(
            basis,
            "time_to_seconds of seconds_to_time, 1980",
            library::seconds_since_1980_to_time,
            library::time_to_seconds_since_1980,
        ),
    ]);
    sections
}

fn is_absolute(basis: &Basis, asked: Asked) -> Section {
    let name = format!("is_absolute, {asked}");
    let outcomes = asked.outcomes(&[Outcome::Yes, Outcome::No]);
    let mut numbers = asked.numbers(basis.seed, &name);
    Section::run(name.as_str(), &outcomes, asked.fewest(FEWEST), |section| {
        times_of_any_sign(basis, &name, |time| {
            let Some(revision) = numbers.for_next() else {
                return Ok(());
            };
            section.compare(
                (revision, time),
                library::is_absolute(revision, time),
                reference::is_absolute(revision, time),
            )
        })
    })
}

fn time_to_fields(basis: &Basis, calls: &Conversions, asked: Asked) -> Section {
    let (call, to_fields) = calls.to_fields;
    let name = format!("{call}, {asked}");
    let outcomes = asked.outcomes(&[Outcome::Answered, Outcome::Refused(NOT_EXPRESSIBLE)]);
    let mut numbers = asked.numbers(basis.seed, &name);
    Section::run(name.as_str(), &outcomes, asked.fewest(FEWEST), |section| {
        times(basis, &name, |time| {
            let Some(revision) = numbers.for_next() else {
                return Ok(());
            };
            let expected = reference::time_to_fields(&basis.calendar, revision, time);
            section.compare((revision, time), to_fields(revision, time), expected)
        })
    })
}

/// Every day that has a TIME, at its first and at its last tick by revision
/// 1.2, and at one of these by 1.0. Some days are asked by another number, too.
fn time_to_fields_on_every_day(basis: &Basis, calls: &Conversions) -> Section {
    let (call, to_fields) = calls.to_fields;
    let name = format!("{call}, every day");
    let outcomes = [Outcome::Answered, Outcome::Refused(UNKNOWN_REVISION)];
    let mut others = Asked::ByOthers.numbers(basis.seed, &name);
    Section::run(name, &outcomes, FEWEST, |section| {
        let mut ask = |revision: u32, time: i64| {
            let expected = reference::time_to_fields(&basis.calendar, revision, time);
            section.compare((revision, time), to_fields(revision, time), expected)
        };
        for day in 0..=DAY_OF_LAST_TIME {
            let first = day * TICKS_PER_DAY;
            let last = first.saturating_add(TICKS_PER_DAY - 1);
            ask(REVISION_1_2, first)?;
            ask(REVISION_1_2, last)?;
            ask(REVISION_1_0, [first, last][(day % 2) as usize])?;
            if let Some(revision) = others.for_next() {
                ask(revision, first)?;
            }
        }
        Ok(())
    })
}

fn fields_to_time(basis: &Basis, calls: &Conversions, asked: Asked) -> Section {
    let (call, to_time) = calls.to_time;
    let name = format!("{call}, {asked}");
    let outcomes = asked.outcomes(&[
        Outcome::Answered,
        Outcome::Refused(ILL_FORMED),
        Outcome::Refused(NOT_EXPRESSIBLE),
    ]);
    let mut numbers = asked.numbers(basis.seed, &name);
    Section::run(name.as_str(), &outcomes, asked.fewest(FEWEST), |section| {
        fields(basis, &name, &mut |fields| {
            let Some(revision) = numbers.for_next() else {
                return Ok(());
            };
            let expected = reference::fields_to_time(&basis.calendar, revision, fields);
            section.compare((revision, fields), to_time(revision, fields), expected)
        })
    })
}

/// The library's fields of a TIME, handed back to the library, give that TIME
/// less its part under a millisecond.
fn round_trip(basis: &Basis, calls: &Conversions, revision: u32) -> Section {
    let (there, to_fields) = calls.to_fields;
    let (back, to_time) = calls.to_time;
    let name = format!("{back} of {there}, revision {revision}");
    Section::run(name.as_str(), &[Outcome::Answered], FEWEST, |section| {
        times(basis, &name, |time| {
            if time < 0 {
                return Ok(());
            }
            let answer = to_fields(revision, time);
            if answer.refusal != 0 {
                return section.check((revision, time), answer, "fields", false);
            }
            let given = to_time(revision, answer.fields);
            let expected = TimeAnswer::of(time - time % TICKS_PER_MILLISECOND);
            section.compare((revision, time, answer.fields), given, expected)
        })
    })
}

/// The two calendars with each other, refusals included: at the ends of every
/// year that fields can name, and on TIMEs and fields of every sort.
fn both_calendars(basis: &Basis) -> Section {
    let name = "both calendars";
    let outcomes = [
        Outcome::Answered,
        Outcome::Refused(ILL_FORMED),
        Outcome::Refused(NOT_EXPRESSIBLE),
        Outcome::Refused(UNKNOWN_REVISION),
    ];
    Section::run(name, &outcomes, FEWEST_OF_BOTH, |section| {
        let mut seeded = Seeded::new(basis.seed, name);
        both_at_the_ends_of_years(section, basis, &mut seeded)?;
        let mut others = Asked::ByOthers.numbers(basis.seed, name);
        for _ in 0..FEWEST_OF_BOTH / 2 {
            let time = seeded_time(basis, &mut seeded);
            let fields = seeded_fields(basis, &mut seeded);
            both_of_time(section, seeded.pick(&REVISIONS), time)?;
            both_of_fields(section, seeded.pick(&REVISIONS), fields)?;
            if let Some(revision) = others.for_next() {
                both_of_time(section, revision, time)?;
                both_of_fields(section, revision, fields)?;
            }
        }
        Ok(())
    })
}

/// By both revisions, and by another number.
fn both_at_the_ends_of_years(
    section: &mut Section,
    basis: &Basis,
    seeded: &mut Seeded,
) -> Result<(), Enough> {
    for year in 1601..=LAST_YEAR {
        let first_of_january = at_some_time(seeded, year, 1, 1);
        let last_of_december = TimeFields {
            hour: 23,
            minute: 59,
            second: seeded.pick(&[59, 60]),
            ..at_some_time(seeded, year, 12, 31)
        };
        for revision in [REVISION_1_0, REVISION_1_2, seeded_other(seeded)] {
            for fields in [first_of_january, last_of_december] {
                both_of_fields(section, revision, fields)?;
            }
            if year <= YEAR_OF_LAST_TIME {
                let start = basis.calendar.first_day(year) * TICKS_PER_DAY;
                for time in [start - 1, start] {
                    both_of_time(section, revision, time)?;
                }
            }
        }
    }
    Ok(())
}

fn both_of_time(section: &mut Section, revision: u32, time: i64) -> Result<(), Enough> {
    let first = library::time_to_fields(revision, time);
    let by_table = library::time_to_fields_by_table(revision, time);
    section.compare((revision, time), by_table, first)
}

fn both_of_fields(section: &mut Section, revision: u32, fields: TimeFields) -> Result<(), Enough> {
    let first = library::fields_to_time(revision, fields);
    let by_table = library::fields_to_time_by_table(revision, fields);
    section.compare((revision, fields), by_table, first)
}

/// Ticks of all the seconds that 32 bits can count.
const TICKS_OF_ALL_SECONDS: i64 = (1 << 32) * TICKS_PER_SECOND;

fn time_to_seconds(
    basis: &Basis,
    name: &str,
    start: i64,
    call: fn(i64) -> SecondsAnswer,
) -> Section {
    let outcomes = [Outcome::Answered, Outcome::Refused(NOT_EXPRESSIBLE)];
    let mut seeded = Seeded::new(basis.seed, name);
    Section::run(name, &outcomes, FEWEST, |section| {
        let mut ask =
            |time: i64| section.compare(time, call(time), reference::time_to_seconds(start, time));
        let end = start + TICKS_OF_ALL_SECONDS;
        for time in edges_i64() {
            ask(time)?;
        }
        // Around the starts of both counts, of either sign, and the first
        // tick that is too late.
        for place in [START_OF_1970, START_OF_1980, -start, end, 0] {
            for near in -2_000..=2_000 {
                ask(place + near)?;
                ask(place + near * TICKS_PER_SECOND)?;
                ask(place + near * TICKS_PER_SECOND - 1)?;
                ask(place + near * TICKS_PER_SECOND + 1)?;
            }
        }
        // Both sides of each second whose number has a single bit set.
        for seconds in edges_u32() {
            for near in -1..=1 {
                ask(start + i64::from(seconds) * TICKS_PER_SECOND + near)?;
            }
        }
        for _ in 0..SEEDED_INPUTS {
            let time = match seeded.between(0, 9) {
                0 => seeded.any_i64(),
                1 => seeded.any_length_i64(),
                // Just before the start, and just before and after the end.
                2 => start - seeded.between(1, 2 * TICKS_PER_SECOND),
                3 => end + seeded.between(-2 * TICKS_PER_SECOND, 2 * TICKS_PER_SECOND),
                // Where a count that wraps would look good.
                4 => start + seeded.between(-5, 5) * TICKS_OF_ALL_SECONDS + seeded.between(-1, 1),
                5 => start + seeded.between(-3 * TICKS_OF_ALL_SECONDS, 3 * TICKS_OF_ALL_SECONDS),
                6 => start + seeded.between(0, TICKS_OF_ALL_SECONDS - 1),
                // Both sides of a second's edge.
                _ => {
                    let seconds = i64::from(seeded.any_u32());
                    start + seconds * TICKS_PER_SECOND + seeded.between(-1, 1)
                }
            };
            ask(time)?;
        }
        Ok(())
    })
}

fn seconds_to_time(basis: &Basis, name: &str, start: i64, call: fn(u32) -> i64) -> Section {
    let outcomes = [Outcome::Answered];
    Section::run(name, &outcomes, FEWEST, |section| {
        all_seconds(basis, name, |seconds| {
            section.compare(
                seconds,
                call(seconds),
                reference::seconds_to_time(start, seconds),
            )
        })
    })
}

/// Seconds that became a TIME come back from its first and its last tick.
fn seconds_round_trip(
    basis: &Basis,
    name: &str,
    there: fn(u32) -> i64,
    back: fn(i64) -> SecondsAnswer,
) -> Section {
    let outcomes = [Outcome::Answered];
    Section::run(name, &outcomes, FEWEST, |section| {
        all_seconds(basis, name, |seconds| {
            let time = there(seconds);
            let expected = SecondsAnswer::of(seconds);
            section.compare((seconds, time), back(time), expected)?;
            let last = time.saturating_add(TICKS_PER_SECOND - 1);
            section.compare((seconds, last), back(last), expected)
        })
    })
}

/// The numbers of seconds that are asked about.
fn all_seconds(
    basis: &Basis,
    section: &str,
    mut ask: impl FnMut(u32) -> Result<(), Enough>,
) -> Result<(), Enough> {
    let mut seeded = Seeded::new(basis.seed, section);
    for seconds in edges_u32() {
        ask(seconds)?;
    }
    for seconds in 0..100_000 {
        ask(seconds)?;
        ask(u32::MAX - seconds)?;
    }
    for _ in 0..SEEDED_INPUTS {
        let seconds = match seeded.one_in(4) {
            true => seeded.any_length_u32(),
            false => seeded.any_u32(),
        };
        ask(seconds)?;
    }
    Ok(())
}
