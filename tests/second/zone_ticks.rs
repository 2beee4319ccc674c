//! The ticks at which a zone's answers are asked for: those around every
//! place at which its bias can change, the window's ends, and any.

use crate::calendar::Calendar;
use crate::library::Rule;
use crate::seeded::{edges_i64, Seeded};
use crate::time_reference::{TICKS_PER_DAY, TICKS_PER_MINUTE};
use crate::zone_reference::{Dates, YearOfZone, Zone, MOST_BIAS, WINDOW_END, WINDOW_START};
use crate::zone_rules::is_set;

/// The first and the last year of the window.
const FIRST_YEAR: i64 = 1602;
const LAST_YEAR: i64 = 30_827;

/// At most so many rules of a row have the years around them looked at.
const RULES: usize = 4;

/// UTC ticks worth asking for.
pub fn utc_ticks(calendar: &Calendar, seeded: &mut Seeded, row: &[Rule]) -> Vec<i64> {
    let Ok(zone) = Zone::of(calendar, row) else {
        return any_utc_ticks(seeded);
    };
    let mut ticks = any_utc_ticks(seeded);
    for year in years(seeded, row) {
        for turn in turns(calendar, &zone, year) {
            let near = seeded.between(1, TICKS_PER_DAY);
            let far = seeded.between(1, 400 * TICKS_PER_DAY);
            ticks.extend([
                turn - 1,
                turn,
                turn + 1,
                turn - near,
                turn + near,
                turn.wrapping_add(far),
            ]);
        }
    }
    ticks
}

/// Local ticks worth asking for.
pub fn local_ticks(calendar: &Calendar, seeded: &mut Seeded, row: &[Rule]) -> Vec<i64> {
    let mut ticks = any_local_ticks(seeded);
    let Ok(zone) = Zone::of(calendar, row) else {
        return ticks;
    };
    for year in years(seeded, row) {
        // What clocks around this year show.
        let mut biases: Vec<i64> = (year - 1..=year + 1)
            .filter_map(|year| year_of_zone(&zone, year))
            .flat_map(|year| [year.standard, year.daylight])
            .collect();
        biases.sort_unstable();
        biases.dedup();
        for turn in turns(calendar, &zone, year) {
            let mut shown: Vec<i64> = biases
                .iter()
                .map(|bias| turn - bias * TICKS_PER_MINUTE)
                .collect();
            // Between two clocks lies what is left out or repeated.
            if let (Some(&low), Some(&high)) = (shown.last(), shown.first()) {
                shown.extend([seeded.between(low, high), seeded.between(low, high)]);
            }
            for local in shown {
                ticks.extend([local - 1, local]);
                if seeded.one_in(4) {
                    ticks.push(local + seeded.between(-TICKS_PER_DAY, TICKS_PER_DAY));
                }
            }
        }
    }
    ticks
}

/// Years of the window at whose turns something can happen.
fn years(seeded: &mut Seeded, row: &[Rule]) -> Vec<i64> {
    let mut years = vec![FIRST_YEAR, LAST_YEAR, seeded.between(FIRST_YEAR, LAST_YEAR)];
    for _ in 0..row.len().min(RULES) {
        let rule = seeded.pick(row);
        let year = i64::from(rule.year);
        years.extend([year - 1, year, year + seeded.between(1, 30)]);
        if is_set(&rule.standard_date) && rule.standard_date.year != 0 {
            let year = i64::from(rule.standard_date.year);
            years.extend([year, year + 1]);
        }
    }
    years.retain(|year| (FIRST_YEAR..=LAST_YEAR).contains(year));
    years.sort_unstable();
    years.dedup();
    years
}

fn year_of_zone(zone: &Zone, year: i64) -> Option<YearOfZone> {
    match year {
        FIRST_YEAR..=LAST_YEAR => zone.year(year as i16),
        _ => None,
    }
}

/// The year's first tick, the next year's, and both switches, wherever their
/// dates put them.
fn turns(calendar: &Calendar, zone: &Zone, year: i64) -> Vec<i64> {
    let mut turns = vec![
        calendar.first_day(year as i16) * TICKS_PER_DAY,
        calendar.first_day(year as i16 + 1) * TICKS_PER_DAY,
    ];
    if let Some(YearOfZone {
        dates: Dates::Set {
            daylight_from,
            standard_from,
        },
        ..
    }) = year_of_zone(zone, year)
    {
        turns.extend([daylight_from, standard_from]);
    }
    turns
}

fn any_utc_ticks(seeded: &mut Seeded) -> Vec<i64> {
    let mut ticks = vec![i64::MIN, i64::MAX];
    for edge in [0, WINDOW_START, WINDOW_END] {
        ticks.extend([edge - 1, edge, edge + 1]);
    }
    ticks.push(seeded.pick(&edges_i64()));
    ticks.push(seeded.any_i64());
    for _ in 0..6 {
        ticks.push(seeded.between(WINDOW_START, WINDOW_END - 1));
    }
    ticks
}

fn any_local_ticks(seeded: &mut Seeded) -> Vec<i64> {
    let mut ticks = vec![i64::MIN, i64::MAX, -1, 0];
    // As far as any clock can be from the window's ends.
    let day = MOST_BIAS * TICKS_PER_MINUTE;
    for edge in [WINDOW_START - day, WINDOW_END + day] {
        ticks.extend([edge - 1, edge]);
    }
    for edge in [WINDOW_START, WINDOW_END] {
        ticks.push(edge + seeded.between(-day, day));
    }
    ticks.push(i64::MAX - seeded.between(0, 3 * day));
    ticks.push(seeded.between(0, 2 * day));
    ticks.push(seeded.pick(&edges_i64()));
    ticks.push(seeded.any_i64());
    for _ in 0..3 {
        ticks.push(seeded.between(WINDOW_START, WINDOW_END));
    }
    ticks
}
