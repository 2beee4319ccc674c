//! What document 02 says of the two revisions, on the library's answers
//! alone: where they agree and where not, and that every other number is
//! refused.

use crate::library::{self, AbsoluteAnswer, FieldsAnswer, TimeAnswer, TimeFields};
use crate::report::{Enough, Outcome, Section};
use crate::revisions::{listed_others, seeded_other, REVISIONS};
use crate::seeded::Seeded;
use crate::time_calls::CALENDARS;
use crate::time_inputs::{
    around_the_ends, edge_times, fields, seeded_fields, seeded_time, times, times_of_any_sign,
};
use crate::time_reference::{
    ILL_FORMED, NOT_EXPRESSIBLE, REVISION_1_0, REVISION_1_2, UNKNOWN_REVISION,
};
use crate::Basis;

const FEWEST: u64 = 1_000_000;

/// Numbers from 0 to this one, which 16 bits cannot hold, are asked one by one.
const LAST_OF_ALL: u32 = 70_000;

/// Seeded numbers that are asked beside them.
const SEEDED_NUMBERS: usize = 200_000;

/// What revision 1.2 makes of a second 60, which 1.0 refuses with 14.
const SECOND_60: [(u32, &str); 3] = [
    (0, "second 60 with a TIME by 12"),
    (ILL_FORMED, "second 60 with 14 by 12"),
    (NOT_EXPRESSIBLE, "second 60 with 15 by 12"),
];

pub fn sections(basis: &Basis) -> Vec<Section> {
    vec![
        absolute_but_for_zero(basis),
        same_fields(basis),
        same_time_but_for_second_60(basis),
        no_other_number(basis),
    ]
}

fn absolute_but_for_zero(basis: &Basis) -> Section {
    let name = "revisions: is_absolute agrees, but for 0";
    let outcomes = [Outcome::Yes, Outcome::No];
    Section::run(name, &outcomes, FEWEST, |section| {
        section.want(&["TIME 0"]);
        times_of_any_sign(basis, name, |time| {
            let [by_10, by_12] = REVISIONS.map(|revision| library::is_absolute(revision, time));
            if time != 0 {
                return section.compare((REVISION_1_0, time), by_10, by_12);
            }
            section.saw("TIME 0");
            section.compare((REVISION_1_0, time), by_10, AbsoluteAnswer::of(true))?;
            section.compare((REVISION_1_2, time), by_12, AbsoluteAnswer::of(false))
        })
    })
}

fn same_fields(basis: &Basis) -> Section {
    let name = "revisions: time_to_fields agrees";
    let outcomes = [Outcome::Answered, Outcome::Refused(NOT_EXPRESSIBLE)];
    Section::run(name, &outcomes, FEWEST, |section| {
        times(basis, name, |time| {
            for calls in CALENDARS {
                let (call, to_fields) = calls.to_fields;
                let [by_10, by_12] = REVISIONS.map(|revision| to_fields(revision, time));
                section.compare((call, REVISION_1_0, time), by_10, by_12)?;
            }
            Ok(())
        })
    })
}

fn same_time_but_for_second_60(basis: &Basis) -> Section {
    let name = "revisions: fields_to_time agrees, but for 60";
    let outcomes = [
        Outcome::Answered,
        Outcome::Refused(ILL_FORMED),
        Outcome::Refused(NOT_EXPRESSIBLE),
    ];
    Section::run(name, &outcomes, FEWEST, |section| {
        section.want(&SECOND_60.map(|(_, case)| case));
        fields(basis, name, &mut |fields| {
            for calls in CALENDARS {
                let (call, to_time) = calls.to_time;
                let [by_10, by_12] = REVISIONS.map(|revision| to_time(revision, fields));
                let expected = match fields.second {
                    60 => TimeAnswer::refused(ILL_FORMED),
                    _ => by_12,
                };
                section.compare((call, REVISION_1_0, fields), by_10, expected)?;
                if fields.second == 60 {
                    saw_second_60(section, by_12);
                }
            }
            Ok(())
        })
    })
}

fn saw_second_60(section: &mut Section, by_12: TimeAnswer) {
    for (refusal, case) in SECOND_60 {
        if refusal == by_12.refusal {
            section.saw(case);
        }
    }
}

/// All five calls, on inputs that a revision answers or refuses with 14 or 15.
fn no_other_number(basis: &Basis) -> Section {
    let name = "revisions: no other number";
    let outcomes = [Outcome::Refused(UNKNOWN_REVISION)];
    let mut seeded = Seeded::new(basis.seed, name);
    Section::run(name, &outcomes, FEWEST, |section| {
        for number in listed_others() {
            for time in edge_times() {
                refused_of_time(section, number, time)?;
            }
            around_the_ends(&mut seeded, &mut |fields| {
                refused_of_fields(section, number, fields)
            })?;
        }
        let mut ask = |seeded: &mut Seeded, number: u32| {
            refused_of_time(section, number, seeded_time(basis, seeded))?;
            refused_of_fields(section, number, seeded_fields(basis, seeded))
        };
        for number in (0..=LAST_OF_ALL).filter(|number| !REVISIONS.contains(number)) {
            ask(&mut seeded, number)?;
        }
        for _ in 0..SEEDED_NUMBERS {
            let number = seeded_other(&mut seeded);
            ask(&mut seeded, number)?;
        }
        Ok(())
    })
}

fn refused_of_time(section: &mut Section, number: u32, time: i64) -> Result<(), Enough> {
    let given = library::is_absolute(number, time);
    let expected = AbsoluteAnswer::refused(UNKNOWN_REVISION);
    section.compare(("is_absolute", number, time), given, expected)?;
    for calls in CALENDARS {
        let (call, to_fields) = calls.to_fields;
        let expected = FieldsAnswer::refused(UNKNOWN_REVISION);
        section.compare((call, number, time), to_fields(number, time), expected)?;
    }
    Ok(())
}

fn refused_of_fields(section: &mut Section, number: u32, fields: TimeFields) -> Result<(), Enough> {
    for calls in CALENDARS {
        let (call, to_time) = calls.to_time;
        let expected = TimeAnswer::refused(UNKNOWN_REVISION);
        section.compare((call, number, fields), to_time(number, fields), expected)?;
    }
    Ok(())
}
