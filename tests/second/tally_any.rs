//! Any tally and any bytes at all handed to the calls on tallies: tallies that
//! hold and come from no list of runs, tallies that nearly hold, and sums that
//! 64 bits cannot add up; records with every byte changed to every other.

use crate::library::{self, Tally, TallyAnswer};
use crate::record_calls::outcomes;
use crate::report::{Outcome, Section};
use crate::run_ticks::Counter;
use crate::seeded::Seeded;
use crate::seeded_rules::Source;
use crate::tally_calls::{compare_booked, compare_read, Caller, BOOKING_A_RUN, READING, SAVING};
use crate::tally_reference::{self as reference, holds, record, NO_TALLY, RECORD};
use crate::zone_reference::{WINDOW_END, WINDOW_START};
use crate::Basis;

/// Seeded tallies for the calls that take one alone.
const TALLIES: u64 = 60_000;

/// Seeded rows for booking, and bookings in each.
const ROWS: u64 = 4_000;
const BOOKINGS: u64 = 25;

/// Records that have every byte changed to every other.
const RECORDS: u64 = 24;

pub fn sections(basis: &Basis) -> Vec<Section> {
    vec![
        fresh(),
        any_held(basis),
        any_saved(basis),
        any_booked(basis),
        every_byte(basis),
        any_read(basis),
    ]
}

fn fresh() -> Section {
    Section::run("fresh_tally", &[Outcome::Answered], 1, |section| {
        let [given, expected] = [library::fresh_tally(), reference::fresh()];
        section.compare((), TallyAnswer::of(given), TallyAnswer::of(expected))
    })
}

const EARLY: &str = "an end before the window";
const LATE: &str = "an end after the window";
const WRAPS: &str = "a sum that wraps to one that is small enough";
const ONE_MORE: &str = "one tick too many";
const FULL: &str = "as many ticks as hold";
const AT_START: &str = "the window's start";
const AT_END: &str = "the window's end";

const CASES: [&str; 7] = [EARLY, LATE, WRAPS, ONE_MORE, FULL, AT_START, AT_END];

fn see(section: &mut Section, tally: &Tally) {
    let end = tally.end.ticks;
    if end < WINDOW_START {
        return section.saw(EARLY);
    }
    if end > WINDOW_END {
        return section.saw(LATE);
    }
    if end == WINDOW_START {
        section.saw(AT_START);
    }
    if end == WINDOW_END {
        section.saw(AT_END);
    }
    let time = (end - WINDOW_START) as u64;
    let sum: u128 = tally.totals.iter().map(|&total| u128::from(total)).sum();
    if sum == u128::from(time) {
        section.saw(FULL);
    }
    if sum == u128::from(time) + 1 {
        section.saw(ONE_MORE);
    }
    if sum > u128::from(time) && sum as u64 <= time {
        section.saw(WRAPS);
    }
}

fn any_held(basis: &Basis) -> Section {
    let name = "tally_holds, any tally";
    let mut seeded = Seeded::new(basis.seed, name);
    let outcomes = [Outcome::Yes, Outcome::No];
    Section::run(name, &outcomes, TALLIES, |section| {
        section.want(&CASES);
        for _ in 0..TALLIES {
            let tally = seeded.any_tally();
            see(section, &tally);
            section.compare(tally, library::tally_holds(tally), holds(&tally))?;
        }
        Ok(())
    })
}

fn any_saved(basis: &Basis) -> Section {
    let name = "save_tally, any tally";
    let mut seeded = Seeded::new(basis.seed, name);
    let mut caller = Caller::new(basis, name);
    Section::run(name, &outcomes(&SAVING), TALLIES, |section| {
        section.want(&CASES);
        for _ in 0..TALLIES {
            let tally = seeded.any_tally();
            see(section, &tally);
            let room = seeded.saving_room();
            caller.compare_saved(section, tally, room)?;
        }
        // Every room for a tally that holds and for one that does not.
        for room in 0..=3 * RECORD {
            let tally = seeded.tally_until(WINDOW_END);
            caller.compare_saved(section, tally, room)?;
            let tally = seeded.tally_that_fails();
            caller.compare_saved(section, tally, room)?;
        }
        Ok(())
    })
}

fn any_booked(basis: &Basis) -> Section {
    let name = "book, any tally";
    let mut source = Source::new(basis, name);
    let mut refusals = BOOKING_A_RUN.to_vec();
    refusals.push(NO_TALLY);
    Section::run(name, &outcomes(&refusals), ROWS * BOOKINGS, |section| {
        section.want(&CASES);
        for _ in 0..ROWS {
            let count = source.zone_length();
            let row = source.zone(count);
            let mut counter = Counter::of(&basis.calendar, &row);
            for _ in 0..BOOKINGS {
                let tally = source.seeded.any_tally();
                see(section, &tally);
                let run = source.run(&row, tally.end.ticks);
                compare_booked(section, &row, &mut counter, tally, run)?;
                // The same run after a tally that holds and ends before it.
                if (WINDOW_START..=WINDOW_END).contains(&run.from) {
                    let tally = source.seeded.tally_until(run.from);
                    compare_booked(section, &row, &mut counter, tally, run)?;
                }
            }
        }
        Ok(())
    })
}

fn every_byte(basis: &Basis) -> Section {
    let name = "read_tally, every byte changed to every other";
    let mut seeded = Seeded::new(basis.seed, name);
    let fewest = RECORDS * RECORD as u64 * 255;
    Section::run(name, &outcomes(&READING), fewest, |section| {
        for round in 0..RECORDS {
            let tally = match round {
                0 => reference::fresh(),
                _ => seeded.tally_until(WINDOW_END),
            };
            let sound = record(&tally);
            compare_read(section, &sound)?;
            for place in 0..RECORD {
                let mut bytes = sound.clone();
                for change in 1..=255 {
                    bytes[place] = sound[place] ^ change;
                    compare_read(section, &bytes)?;
                }
            }
        }
        Ok(())
    })
}

fn any_read(basis: &Basis) -> Section {
    let name = "read_tally, any bytes";
    let mut seeded = Seeded::new(basis.seed, name);
    Section::run(name, &outcomes(&READING), 200_000, |section| {
        // Every length field and every kind.
        let sound = record(&seeded.tally_until(WINDOW_END));
        for number in 0..=u16::MAX {
            let [low, high] = number.to_le_bytes();
            let mut bytes = sound.clone();
            bytes[..2].copy_from_slice(&[low, high]);
            compare_read(section, &bytes)?;
            bytes[..4].copy_from_slice(&[sound[0], sound[1], low, high]);
            compare_read(section, &bytes)?;
        }
        // Every length, with the length field of a record and with its own.
        for length in 0..=300 {
            let mut bytes = sound.clone();
            bytes.resize(length, 0);
            compare_read(section, &bytes)?;
            if length >= 2 {
                bytes[..2].copy_from_slice(&(length as u16 - 2).to_le_bytes());
                compare_read(section, &bytes)?;
            }
        }
        for _ in 0..TALLIES {
            let tally = seeded.any_tally();
            let bytes = record(&tally);
            compare_read(section, &bytes)?;
            let bytes = seeded.damaged_record(&bytes);
            compare_read(section, &bytes)?;
        }
        Ok(())
    })
}
