//! The calls on tallies in plain Rust, with the same checks in the same order.
//! A run is booked by stretches of one bias, at most three in a UTC year, and
//! whole weeks of a stretch add a day to every total at once.

// A slice crosses the boundary as the library's calls take it: pointer and length.
#![allow(improper_ctypes_definitions)]

use crate::library::{LengthAnswer, Rule, Tally, TallyAnswer, UtcTick};
use crate::plain_local_time::{rule_in_force, Clock, Year, NO_RULE, OUT_OF_RANGE, WINDOW};
use crate::plain_records::NO_ROOM;
use crate::plain_rules::check_row;

const RUN_ORDER: u32 = 17;
const NO_TALLY: u32 = 18;

const DAY: u64 = 864_000_000_000;
const WEEK: u64 = 7 * DAY;

const RECORD: usize = 68;

/// The length of what follows, and the kind.
const HEAD: [u8; 4] = [66, 0, 1, 0];

pub fn fresh() -> Tally {
    Tally {
        end: UtcTick {
            ticks: WINDOW.start,
        },
        totals: [0; 7],
    }
}

#[inline(never)]
pub extern "C" fn tally_holds(tally: Tally) -> bool {
    holds(&tally)
}

#[inline(always)]
fn holds(tally: &Tally) -> bool {
    let sum = || {
        tally
            .totals
            .iter()
            .try_fold(0u64, |sum, &total| sum.checked_add(total))
    };
    let end = tally.end.ticks;
    is_run_end(end) && sum().is_some_and(|sum| sum <= (end - WINDOW.start) as u64)
}

/// In the window, or its end.
fn is_run_end(tick: i64) -> bool {
    (WINDOW.start..=WINDOW.end).contains(&tick)
}

#[inline(never)]
pub extern "C" fn book(tally: Tally, row: &[Rule], from: UtcTick, to: UtcTick) -> TallyAnswer {
    match booked(&tally, row, from.ticks, to.ticks) {
        Ok(totals) => TallyAnswer::of(Tally { end: to, totals }),
        Err(refusal) => TallyAnswer::refused(refusal, tally),
    }
}

/// The totals after a run.
#[inline(always)]
fn booked(tally: &Tally, row: &[Rule], from: i64, to: i64) -> Result<[u64; 7], u32> {
    check_row(row)?;
    if !holds(tally) {
        return Err(NO_TALLY);
    }
    if !is_run_end(from) || !is_run_end(to) {
        return Err(OUT_OF_RANGE);
    }
    if to < from || from < tally.end.ticks {
        return Err(RUN_ORDER);
    }
    let (mut year, _) = Year::of_tick(from);
    let mut rule = rule_in_force(row, year.number).ok_or(NO_RULE)?;

    let mut totals = tally.totals;
    let mut at = from;
    while at < to {
        for (until, bias) in stretches(rule, &year) {
            let until = until.min(to);
            if at < until {
                add_stretch(&mut totals, (at - bias) as u64, (until - bias) as u64);
                at = until;
            }
        }
        year = year.after();
        rule = rule_in_force(row, year.number).unwrap_or(rule);
    }
    Ok(totals)
}

/// The bias, in ticks, up to each of three UTC ticks of a year, of which the
/// last is its end. A stretch that ends before it starts is none.
#[inline(always)]
fn stretches(rule: &Rule, year: &Year) -> [(i64, i64); 3] {
    let clock = Clock::of(rule, year);
    let is_south = clock.to_standard < clock.to_daylight;
    let (outer, inner) = match is_south {
        true => (clock.daylight, clock.standard),
        false => (clock.standard, clock.daylight),
    };
    let first = clock.to_standard.min(clock.to_daylight);
    let second = clock.to_standard.max(clock.to_daylight);
    let tick = |at: i64| year.start() + at.min(year.ticks());
    [
        (tick(first), outer),
        (tick(second), inner),
        (tick(year.ticks()), outer),
    ]
}

/// Adds the local ticks of a stretch, that has one at least.
#[inline(always)]
fn add_stretch(totals: &mut [u64; 7], from: u64, to: u64) {
    let weeks = (to - from) / WEEK;
    if weeks > 0 {
        for total in totals.iter_mut() {
            *total += weeks * DAY;
        }
    }
    let mut at = from + weeks * WEEK;
    let day = at / DAY;
    let mut midnight = (day + 1) * DAY;
    // Day 0 is a Monday.
    let mut weekday = ((day + 1) % 7) as usize;
    while midnight < to {
        totals[weekday] += midnight - at;
        at = midnight;
        midnight += DAY;
        weekday = if weekday == 6 { 0 } else { weekday + 1 };
    }
    totals[weekday] += to - at;
}

#[inline(never)]
pub extern "C" fn save_tally(tally: Tally, out: &mut [u8]) -> LengthAnswer {
    if !holds(&tally) {
        return LengthAnswer::refused(NO_TALLY);
    }
    let Some(out) = out.first_chunk_mut::<RECORD>() else {
        return LengthAnswer::refused(NO_ROOM);
    };
    out[..4].copy_from_slice(&HEAD);
    out[4..12].copy_from_slice(&tally.end.ticks.to_le_bytes());
    for (place, total) in out[12..].chunks_exact_mut(8).zip(tally.totals) {
        place.copy_from_slice(&total.to_le_bytes());
    }
    LengthAnswer::of(RECORD)
}

#[inline(never)]
pub extern "C" fn read_tally(bytes: &[u8]) -> TallyAnswer {
    match tally_in(bytes) {
        Some(tally) if holds(&tally) => TallyAnswer::of(tally),
        _ => TallyAnswer::unread(NO_TALLY),
    }
}

#[inline(always)]
fn tally_in(bytes: &[u8]) -> Option<Tally> {
    let bytes: &[u8; RECORD] = bytes.try_into().ok()?;
    if bytes[..4] != HEAD {
        return None;
    }
    let number = |at: usize| u64::from_le_bytes(*bytes[at..].first_chunk().unwrap());
    Some(Tally {
        end: UtcTick {
            ticks: number(4) as i64,
        },
        totals: std::array::from_fn(|weekday| number(12 + 8 * weekday)),
    })
}
