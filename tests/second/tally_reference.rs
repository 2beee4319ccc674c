//! What the calls on tallies have to answer, by document 01's "The tally" and
//! its order of refusals. Sums are of whole numbers, as wide as needed.

use crate::library::{Tally, TallyAnswer, UtcTick};
use crate::record_reference::{Written, ROOM};
use crate::run_ticks::{add, Counter, Run};
use crate::zone_reference::{in_window, Zone, NO_RULE, OUTSIDE, WINDOW_END, WINDOW_START};

pub const RUN_ORDER: u32 = 17;
pub const NO_TALLY: u32 = 18;

/// A saved record, what its length field counts, and its kind.
pub const RECORD: usize = 68;
pub const RECORD_SIZE: u16 = 66;
pub const KIND: u16 = 1;

pub fn fresh() -> Tally {
    Tally {
        end: UtcTick {
            ticks: WINDOW_START,
        },
        totals: [0; 7],
    }
}

pub fn holds(tally: &Tally) -> bool {
    let end = tally.end.ticks;
    if end < WINDOW_START || end > WINDOW_END {
        return false;
    }
    let sum: u128 = tally.totals.iter().map(|&total| u128::from(total)).sum();
    sum <= (end - WINDOW_START) as u128
}

/// What a booking answers in a row, or beside the number of its refusal.
pub fn book(row: &mut Result<Counter, u32>, tally: Tally, run: Run) -> TallyAnswer {
    match booked(row, tally, run) {
        Ok(tally) => TallyAnswer::of(tally),
        Err(number) => TallyAnswer::refused(number, tally),
    }
}

fn booked(row: &mut Result<Counter, u32>, tally: Tally, run: Run) -> Result<Tally, u32> {
    let counter = match row {
        Ok(counter) => counter,
        Err(number) => return Err(*number),
    };
    if !holds(&tally) {
        return Err(NO_TALLY);
    }
    check_run(&counter.zone, tally.end.ticks, run)?;
    let mut totals = tally.totals;
    add(&mut totals, &counter.count(run));
    Ok(Tally {
        end: UtcTick { ticks: run.to },
        totals,
    })
}

/// A run in an accepted zone, beside the end of a tally.
pub fn check_run(zone: &Zone, end: i64, run: Run) -> Result<(), u32> {
    for tick in [run.from, run.to] {
        if !in_window(tick) && tick != WINDOW_END {
            return Err(OUTSIDE);
        }
    }
    if run.to < run.from || run.from < end {
        return Err(RUN_ORDER);
    }
    match zone.rule_in_force(zone.year_of(run.from)) {
        Some(_) => Ok(()),
        None => Err(NO_RULE),
    }
}

pub fn save(tally: &Tally, room: usize) -> Written {
    if !holds(tally) {
        return Err(NO_TALLY);
    }
    if room < RECORD {
        return Err(ROOM);
    }
    Ok(record(tally))
}

/// The record of any tally, also of one that does not hold.
pub fn record(tally: &Tally) -> Vec<u8> {
    let mut out = Vec::new();
    out.extend(RECORD_SIZE.to_le_bytes());
    out.extend(KIND.to_le_bytes());
    out.extend(tally.end.ticks.to_le_bytes());
    for total in tally.totals {
        out.extend(total.to_le_bytes());
    }
    out
}

pub fn read(bytes: &[u8]) -> TallyAnswer {
    match tally_in(bytes) {
        Some(tally) if holds(&tally) => TallyAnswer::of(tally),
        _ => TallyAnswer::unread(NO_TALLY),
    }
}

/// The tally of bytes that have a record's length, its length field and its
/// kind.
fn tally_in(bytes: &[u8]) -> Option<Tally> {
    if bytes.len() != RECORD {
        return None;
    }
    let number = |at: usize| u16::from_le_bytes([bytes[at], bytes[at + 1]]);
    if number(0) != RECORD_SIZE || number(2) != KIND {
        return None;
    }
    let wide = |at: usize| {
        let eight = [0, 1, 2, 3, 4, 5, 6, 7].map(|place| bytes[at + place]);
        u64::from_le_bytes(eight)
    };
    Some(Tally {
        end: UtcTick {
            ticks: wide(4) as i64,
        },
        totals: [0, 1, 2, 3, 4, 5, 6].map(|weekday| wide(12 + 8 * weekday)),
    })
}
