//! Examples of UTC and local time, as dates written out: those of document
//! 01's sheet, and both sides of each place at which a walk could go wrong.
//! The library is held to them, and so is the reference.

use crate::calendar::Calendar;
use crate::library::{self, LocalTick, Rule, TimeFields, UtcTick};
use crate::record_examples::zone_p;
use crate::report::{Answer, Enough, Outcome, Section};
use crate::time_reference::{fields_to_time, REVISION_1_2};
use crate::zone_calls::LISTS;
use crate::zone_example_rows::{fixed, late, row, rule, zones, UNSET};
use crate::zone_reference::{Zone, WINDOW_END, WINDOW_START};
use crate::Basis;

/// The two calls, of the library or of the reference. A list of more than
/// four ticks is refused with a number that there is not.
struct Calls<'a> {
    utc_to_local: &'a dyn Fn(&[Rule], i64) -> Result<i64, u32>,
    local_to_utc: &'a dyn Fn(&[Rule], i64) -> Listed,
}

/// The UTC ticks of a local tick, or the number.
#[derive(PartialEq, Debug)]
struct Listed(Result<Vec<i64>, u32>);

impl Answer for Listed {
    fn outcome(&self) -> Outcome {
        match &self.0 {
            Ok(list) => Outcome::Ticks(list.len() as u32),
            Err(number) => Outcome::Refused(*number),
        }
    }
}

const NO_SUCH_NUMBER: u32 = 0;

pub fn sections(basis: &Basis) -> Vec<Section> {
    let calendar = &basis.calendar;
    let of_reference = Calls {
        utc_to_local: &|row, utc| Zone::of(calendar, row)?.utc_to_local(utc),
        local_to_utc: &|row, local| {
            Listed(Zone::of(calendar, row).and_then(|zone| zone.local_to_utc(local)))
        },
    };
    let of_library = Calls {
        utc_to_local: &|row, ticks| {
            let answer = library::utc_to_local(row, UtcTick { ticks });
            match answer.refusal {
                0 => Ok(answer.local.ticks),
                number => Err(number),
            }
        },
        local_to_utc: &|row, ticks| {
            let answer = library::local_to_utc(row, LocalTick { ticks });
            Listed(match answer.refusal {
                0 => answer.list().ok_or(NO_SUCH_NUMBER),
                number => Err(number),
            })
        },
    };
    vec![
        held_to_examples(
            "examples of local time: the reference",
            basis,
            &of_reference,
        ),
        held_to_examples("examples of local time: the library", basis, &of_library),
    ]
}

fn held_to_examples(name: &str, basis: &Basis, calls: &Calls) -> Section {
    let mut outcomes = LISTS.to_vec();
    outcomes.push(Outcome::Answered);
    outcomes.extend([6, 8, 9, 10, 11, 12, 15, 16].map(Outcome::Refused));
    Section::run(name, &outcomes, 200, |section| {
        for (row, shows, lists) in zones() {
            for (utc, local) in shows {
                let [utc, local] = [utc, local].map(|text| tick(&basis.calendar, text));
                let shown = (calls.utc_to_local)(&row, utc);
                section.compare((&row, utc), shown, Ok(local))?;
            }
            for (local, list) in lists {
                let ticks = tick(&basis.calendar, local);
                let list = list.iter().map(|text| tick(&basis.calendar, text));
                let expected = Listed(Ok(list.collect()));
                let given = (calls.local_to_utc)(&row, ticks);
                section.compare((&row, local), given, expected)?;
            }
        }
        written_out(section, calls)?;
        ends(section, basis, calls)?;
        refused(section, calls)
    })
}

/// The tick of a text like `2023-03-26 02:30` or `2023-03-26 23:59:59.999`, or
/// with a `-` behind it the tick before.
pub fn tick(calendar: &Calendar, text: &str) -> i64 {
    let whole = text.trim_end_matches('-');
    let parts: Vec<i16> = whole
        .split(['-', ' ', ':', '.'])
        .map(|part| part.parse().expect("a number"))
        .collect();
    let row = match parts[..] {
        [year, month, day, hour, minute] => [year, month, day, hour, minute, 0, 0, 0],
        [year, month, day, hour, minute, second, milliseconds] => {
            [year, month, day, hour, minute, second, milliseconds, 0]
        }
        _ => panic!("{text} is no date"),
    };
    let answer = fields_to_time(calendar, REVISION_1_2, TimeFields::from_row(row));
    assert!(answer.refusal == 0, "{text} has no TIME");
    answer.time - i64::from(whole != text)
}

/// The sheet's two examples of zone P as numbers.
fn written_out(section: &mut Section, calls: &Calls) -> Result<(), Enough> {
    let zone = row(0, [zone_p(0, 1)]);
    let march = 133_242_714_000_000_000;
    section.compare(
        march,
        (calls.local_to_utc)(&zone, march),
        Listed(Ok(vec![])),
    )?;
    let october = 133_430_202_000_000_000;
    let two = vec![133_430_130_000_000_000, 133_430_166_000_000_000];
    section.compare(
        october,
        (calls.local_to_utc)(&zone, october),
        Listed(Ok(two)),
    )
}

/// The ends of the window in zones of every kind, and of 64 bits.
fn ends(section: &mut Section, basis: &Basis, calls: &Calls) -> Result<(), Enough> {
    let day = 864_000_000_000;
    let last = WINDOW_END - 1;
    for bias in [-1_440, -60, 0, 60, 1_440] {
        let ticks = i64::from(bias) * 600_000_000;
        for first in [0, 1_601, 1_602] {
            let row = row(0, [fixed(first, bias)]);
            for utc in [WINDOW_START, WINDOW_START + 1, last - 1, last] {
                section.compare(utc, (calls.utc_to_local)(&row, utc), Ok(utc - ticks))?;
                let list = Listed(Ok(vec![utc]));
                section.compare(utc, (calls.local_to_utc)(&row, utc - ticks), list)?;
            }
            for utc in [WINDOW_START - 1, WINDOW_END] {
                section.compare(utc, (calls.utc_to_local)(&row, utc), Err(15))?;
                let none = Listed(Ok(vec![]));
                section.compare(utc, (calls.local_to_utc)(&row, utc - ticks), none)?;
            }
            for utc in [i64::MIN, -1, 0, WINDOW_END + 1, i64::MAX] {
                section.compare(utc, (calls.utc_to_local)(&row, utc), Err(15))?;
            }
            for local in [i64::MIN, -day, -1] {
                section.compare(local, (calls.local_to_utc)(&row, local), Listed(Err(15)))?;
            }
            for local in [0, 1, day, i64::MAX - day, i64::MAX - 1, i64::MAX] {
                let none = Listed(Ok(vec![]));
                section.compare(local, (calls.local_to_utc)(&row, local), none)?;
            }
        }
    }
    // 15 before 16; no 16 for local ticks.
    let row = row(0, [zone_p(2_000, 1)]);
    let first = tick(&basis.calendar, "2000-01-01 00:00");
    for (utc, expected) in [
        (i64::MIN, Err(15)),
        (0, Err(15)),
        (WINDOW_START - 1, Err(15)),
        (WINDOW_START, Err(16)),
        (first - 1, Err(16)),
        (first, Ok(first + 36_000_000_000)),
        (last, Ok(last + 36_000_000_000)),
        (WINDOW_END, Err(15)),
    ] {
        section.compare(utc, (calls.utc_to_local)(&row, utc), expected)?;
    }
    for (local, expected) in [
        ("1601-01-01 00:00-", Err(15)),
        ("1601-01-01 00:00", Ok(vec![])),
        ("1999-07-01 00:00", Ok(vec![])),
        ("2000-01-01 00:30", Ok(vec![])),
        ("2000-01-01 01:00-", Ok(vec![])),
        ("2000-01-01 01:00", Ok(vec![first])),
    ] {
        let ticks = tick(&basis.calendar, local);
        section.compare(local, (calls.local_to_utc)(&row, ticks), Listed(expected))?;
    }
    Ok(())
}

/// Rows that are not accepted, whatever the tick.
fn refused(section: &mut Section, calls: &Calls) -> Result<(), Enough> {
    let yearly = [0, 10, 0, 5, 3, 0];
    let in_2005 = [2005, 4, 0, 1, 0, 0];
    let one = |dates: [[u16; 6]; 2]| row(0, [rule(0, [0, 0, 0], dates[0], dates[1])]);
    let mut second_is_bad = row(0, [zone_p(0, 1), zone_p(1, 0)]);
    second_is_bad[1].daylight_date.month = 13;
    let many = |count: u16| -> Vec<Rule> {
        (0..count)
            .map(|year| zone_p(year, u8::from(year == 9)))
            .collect()
    };
    let rows = [
        (vec![], 6),
        (many(1_025), 6),
        (row(0, [zone_p(30_828, 1)]), 8),
        (row(0, [zone_p(2_000, 1), zone_p(2_000, 0)]), 8),
        (row(1, [zone_p(2_001, 1), zone_p(2_000, 0)]), 8),
        (row(0, [fixed(0, 1_441)]), 9),
        (row(0, [fixed(0, -1_441)]), 9),
        (row(0, [rule(0, [i32::MAX, 1, 0], yearly, yearly)]), 9),
        (row(0, [rule(0, [0, 0, 1_441], yearly, yearly)]), 9),
        (one([[1900, 2, 0, 29, 0, 0], [1900, 4, 0, 1, 0, 0]]), 10),
        (one([[0, 10, 7, 5, 3, 0], yearly]), 10),
        (one([yearly, [0, 10, 0, 6, 3, 0]]), 10),
        (one([yearly, [1_600, 4, 0, 1, 0, 0]]), 10),
        (one([UNSET, [0, 13, 0, 1, 0, 0]]), 10),
        // No second 60, not even at 23:59 on the last day of a month.
        (late(0, [60, 0]), 10),
        (late(2024, [60, 0]), 10),
        (late(0, [59, 1_000]), 10),
        (late(2024, [59, 1_000]), 10),
        (second_is_bad, 10),
        (one([yearly, UNSET]), 11),
        (one([[9, 0, 9, 9, 9, 9], yearly]), 11),
        (one([in_2005, yearly]), 11),
        (one([in_2005, [2006, 10, 0, 1, 0, 0]]), 11),
        (row(9, [zone_p(0, 0)]), 12),
        (vec![zone_p(0, 1), zone_p(1, 1)], 12),
        (many(9), 12),
    ];
    for (row, number) in rows {
        for ticks in [
            i64::MIN,
            -1,
            0,
            WINDOW_START,
            WINDOW_END - 1,
            WINDOW_END,
            i64::MAX,
        ] {
            let input = (row.len(), ticks, number);
            section.compare(input, (calls.utc_to_local)(&row, ticks), Err(number))?;
            let list = (calls.local_to_utc)(&row, ticks);
            section.compare(input, list, Listed(Err(number)))?;
        }
    }
    // The most rules there may be.
    let row = many(1_024);
    let shown = (calls.utc_to_local)(&row, WINDOW_START);
    section.compare(row.len(), shown, Ok(WINDOW_START + 36_000_000_000))
}
