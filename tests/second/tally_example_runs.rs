//! Runs from a fresh tally in zones of every kind, with the totals after each
//! run or the number of its refusal. Dates are UTC and written out; a `-`
//! behind one is the tick before.

use crate::library::Rule;
use crate::record_examples::zone_p;
use crate::run_ticks::Totals;
use crate::zone_example_rows::{fixed, late, row, rule};

/// From, to, and the totals of all runs so far or the number.
pub type Booked = (&'static str, &'static str, Result<Totals, u32>);

/// Totals told in minutes, by weekday from 0 on.
pub fn minutes(on: &[(usize, u64)]) -> Totals {
    let mut totals = [0; 7];
    for &(weekday, minutes) in on {
        totals[weekday] += minutes * 600_000_000;
    }
    totals
}

const SUN: usize = 0;
const MON: usize = 1;
const TUE: usize = 2;
const WED: usize = 3;
const THU: usize = 4;
const FRI: usize = 5;
const SAT: usize = 6;

const HOUR: u64 = 60;
const DAY: u64 = 1_440;

pub fn lists() -> Vec<(Vec<Rule>, Vec<Booked>)> {
    let p = || row(0, [zone_p(0, 1)]);
    let on = |minutes_on: &[(usize, u64)]| Ok(minutes(minutes_on));
    let mut lists = vec![
        // Local Sundays at both switches, with what lies between left out.
        (
            p(),
            vec![
                (
                    "2023-03-25 23:00",
                    "2023-03-26 22:00",
                    on(&[(SUN, 23 * HOUR)]),
                ),
                (
                    "2023-10-28 22:00",
                    "2023-10-29 23:00",
                    on(&[(SUN, 48 * HOUR)]),
                ),
                ("2023-10-29 22:59", "2023-10-29 23:30", Err(17)),
                (
                    "2023-10-29 23:00",
                    "2023-10-29 23:30",
                    on(&[(SUN, 48 * HOUR), (MON, 30)]),
                ),
            ],
        ),
        // Over local midnights, in summer and in winter, and not over that of
        // UTC.
        (
            p(),
            vec![
                (
                    "2023-01-07 22:30",
                    "2023-01-07 23:30",
                    on(&[(SAT, 30), (SUN, 30)]),
                ),
                (
                    "2023-07-01 21:00",
                    "2023-07-01 23:30",
                    on(&[(SAT, 90), (SUN, 120)]),
                ),
                (
                    "2023-07-01 23:30",
                    "2023-07-02 00:30",
                    on(&[(SAT, 90), (SUN, 180)]),
                ),
                (
                    "2023-07-02 22:00",
                    "2023-07-03 22:00",
                    on(&[(SAT, 90), (SUN, 180), (MON, DAY)]),
                ),
            ],
        ),
        // Switches at 23:59:59.999: in spring Sunday loses its last
        // millisecond, and the hour that follows begins on Monday at
        // 00:59:59.999; in autumn Sunday has 25 hours.
        (
            late(0, [59, 999]),
            vec![
                (
                    "2023-03-25 23:00",
                    "2023-03-26 23:00",
                    Ok([863_999_990_000, 10_000, 0, 0, 0, 0, 0]),
                ),
                (
                    "2023-10-28 22:00",
                    "2023-10-29 23:00",
                    Ok([1_763_999_990_000, 10_000, 0, 0, 0, 0, 0]),
                ),
            ],
        ),
        // The same in two runs that meet a tick before midnight.
        (
            late(0, [59, 999]),
            vec![
                (
                    "2023-03-25 23:00",
                    "2023-03-26 23:00-",
                    Ok([863_999_990_000, 9_999, 0, 0, 0, 0, 0]),
                ),
                (
                    "2023-03-26 23:00-",
                    "2023-03-26 23:00",
                    Ok([863_999_990_000, 10_000, 0, 0, 0, 0, 0]),
                ),
            ],
        ),
        (
            late(0, [60, 0]),
            vec![("2023-07-01 00:00", "2023-07-01 01:00", Err(10))],
        ),
        (
            late(0, [59, 1_000]),
            vec![("2023-07-01 00:00", "2023-07-01 01:00", Err(10))],
        ),
        // Over a switch by night, and the ticks beside it.
        (
            p(),
            vec![
                ("2023-03-26 00:30", "2023-03-26 01:30", on(&[(SUN, 60)])),
                ("2023-10-29 00:30", "2023-10-29 01:30", on(&[(SUN, 120)])),
            ],
        ),
        // An empty run after a gap only moves the end, and so shuts out what
        // starts before it.
        (
            p(),
            vec![
                ("2023-07-01 10:00", "2023-07-01 10:00", on(&[])),
                ("2023-07-01 09:00", "2023-07-01 09:00", Err(17)),
                ("2023-07-01 09:00", "2023-07-01 11:00", Err(17)),
                ("2023-07-01 10:00-", "2023-07-01 11:00", Err(17)),
                ("2023-07-01 10:00", "2023-07-01 10:00", on(&[])),
                ("2023-07-01 10:00", "2023-07-01 11:00", on(&[(SAT, 60)])),
            ],
        ),
        // Whole weeks, a year, and a leap year after it.
        (
            p(),
            vec![
                (
                    "2022-12-25 00:00",
                    "2023-01-01 00:00",
                    on(&[0, 1, 2, 3, 4, 5, 6].map(|weekday| (weekday, DAY))),
                ),
                // 53 Sundays but for the first hour, an hour of 2024, and
                // both switches.
                (
                    "2023-01-01 00:00",
                    "2024-01-01 00:00",
                    on(&[
                        (SUN, 54 * DAY - 60),
                        (MON, 53 * DAY + 60),
                        (TUE, 53 * DAY),
                        (WED, 53 * DAY),
                        (THU, 53 * DAY),
                        (FRI, 53 * DAY),
                        (SAT, 53 * DAY),
                    ]),
                ),
                // 53 Mondays and Tuesdays; it ends on a Wednesday at 01:00.
                (
                    "2024-01-01 00:00",
                    "2025-01-01 00:00",
                    on(&[
                        (SUN, 106 * DAY - 60),
                        (MON, 106 * DAY),
                        (TUE, 106 * DAY),
                        (WED, 105 * DAY + 60),
                        (THU, 105 * DAY),
                        (FRI, 105 * DAY),
                        (SAT, 105 * DAY),
                    ]),
                ),
            ],
        ),
    ];
    lists.extend(other_zones());
    lists
}

fn other_zones() -> Vec<(Vec<Rule>, Vec<Booked>)> {
    let on = |minutes_on: &[(usize, u64)]| Ok(minutes(minutes_on));
    vec![
        // Sydney, in the south.
        (
            row(
                0,
                [rule(
                    0,
                    [-600, 0, -60],
                    [0, 4, 0, 1, 3, 0],
                    [0, 10, 0, 1, 2, 0],
                )],
            ),
            vec![
                (
                    "2023-04-01 13:00",
                    "2023-04-02 14:00",
                    on(&[(SUN, 25 * HOUR)]),
                ),
                (
                    "2023-09-30 14:00",
                    "2023-10-01 13:00",
                    on(&[(SUN, 48 * HOUR)]),
                ),
                (
                    "2023-12-31 12:30",
                    "2024-01-01 13:30",
                    on(&[(SUN, 48 * HOUR + 30), (MON, 24 * HOUR), (TUE, 30)]),
                ),
            ],
        ),
        // Without dates, west of Greenwich. The additions do not count.
        (
            row(0, [rule(0, [300, 60, -60], [0; 6], [0; 6])]),
            vec![(
                "2023-07-02 04:00",
                "2023-07-02 06:00",
                on(&[(SAT, 60), (SUN, 60)]),
            )],
        ),
        // Dates of 2005: in that year alone there is daylight time.
        (
            row(
                0,
                [rule(
                    0,
                    [-60, 0, -60],
                    [2005, 10, 0, 30, 3, 0],
                    [2005, 3, 0, 27, 2, 0],
                )],
            ),
            vec![
                (
                    "2005-07-01 21:30",
                    "2005-07-01 22:30",
                    on(&[(FRI, 30), (SAT, 30)]),
                ),
                (
                    "2006-07-01 22:30",
                    "2006-07-01 23:30",
                    on(&[(FRI, 30), (SAT, 60), (SUN, 30)]),
                ),
            ],
        ),
        // The daylight date of 2024 is 23:30 UTC of 2023, and is seen from the
        // UTC new year on: the clock goes back from 01:00 on Monday to 23:00
        // on Sunday.
        (
            row(
                0,
                [rule(
                    0,
                    [0, -60, 60],
                    [0, 7, 0, 1, 3, 0],
                    [0, 1, 1, 1, 0, 30],
                )],
            ),
            vec![(
                "2023-12-31 23:00",
                "2024-01-01 02:00",
                on(&[(SUN, 60), (MON, 120)]),
            )],
        ),
        // From a day behind UTC to a day ahead and back: Monday and Tuesday
        // are left out, and Friday comes twice.
        (
            row(
                0,
                [rule(
                    0,
                    [0, 1_440, -1_440],
                    [2005, 10, 0, 1, 0, 0],
                    [2005, 5, 0, 2, 0, 0],
                )],
            ),
            vec![
                (
                    "2005-05-02 00:00",
                    "2005-05-05 00:00",
                    on(&[(SUN, DAY), (WED, DAY), (THU, DAY)]),
                ),
                (
                    "2005-09-29 00:00",
                    "2005-10-02 00:00",
                    on(&[(SUN, DAY), (WED, DAY), (THU, 2 * DAY), (FRI, 2 * DAY)]),
                ),
            ],
        ),
        // Both switches on one tick, but in years whose February has five
        // Sundays: one bias for forty years, then a week of another.
        (
            row(
                0,
                [rule(0, [0, 0, -60], [0, 2, 0, 5, 2, 0], [0, 2, 0, 4, 1, 0])],
            ),
            vec![
                (
                    "1880-03-01 00:00",
                    "1920-02-28 00:00",
                    on(&[
                        (SUN, 2_086 * DAY - 60),
                        (MON, 2_087 * DAY),
                        (TUE, 2_087 * DAY),
                        (WED, 2_087 * DAY),
                        (THU, 2_087 * DAY),
                        (FRI, 2_087 * DAY),
                        (SAT, 2_086 * DAY + 60),
                    ]),
                ),
                (
                    "1920-02-28 22:30",
                    "1920-02-29 22:30",
                    on(&[
                        (SUN, 2_087 * DAY - 90),
                        (MON, 2_087 * DAY),
                        (TUE, 2_087 * DAY),
                        (WED, 2_087 * DAY),
                        (THU, 2_087 * DAY),
                        (FRI, 2_087 * DAY),
                        (SAT, 2_086 * DAY + 90),
                    ]),
                ),
            ],
        ),
        // Two rules meet at a new year, and the later one is further east: an
        // hour of Saturday is left out. Before the first rule's year there is
        // none, for an empty run either.
        (
            row(1, [fixed(2_010, 0), fixed(2_011, -60)]),
            vec![
                ("2009-12-31 23:00", "2010-01-01 01:00", Err(16)),
                ("2010-01-01 00:00-", "2010-01-01 00:00-", Err(16)),
                ("2010-01-01 00:00", "2010-01-01 00:00", on(&[])),
                (
                    "2010-12-31 22:30",
                    "2011-01-01 00:30",
                    on(&[(FRI, 90), (SAT, 30)]),
                ),
                (
                    "2011-01-01 22:30",
                    "2011-01-01 23:30",
                    on(&[(FRI, 90), (SAT, 60), (SUN, 30)]),
                ),
                ("2011-01-01 23:30", "2011-01-01 23:00", Err(17)),
                ("2009-12-31 23:00", "2010-01-01 01:00", Err(17)),
            ],
        ),
    ]
}
