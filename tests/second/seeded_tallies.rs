//! Seeded tallies, that hold or do not, seeded runs, and damaged records.

use crate::library::{Rule, Tally, UtcTick};
use crate::run_ticks::{Run, Totals};
use crate::seeded::{edges_i64, Seeded};
use crate::seeded_rules::Source;
use crate::tally_reference::{holds, read, record};
use crate::time_reference::{TICKS_PER_DAY, TICKS_PER_HOUR, TICKS_PER_MINUTE};
use crate::zone_reference::{WINDOW_END, WINDOW_START};
use crate::zone_rules::LAST_YEAR;

const HALF: u64 = 1 << 63;

impl Seeded {
    /// A tally that holds, whose end is no later than a tick. Mostly it comes
    /// from no list of runs.
    pub fn tally_until(&mut self, latest: i64) -> Tally {
        let end = match self.between(0, 3) {
            0 => WINDOW_START,
            1 => latest,
            _ => self.between(WINDOW_START, latest),
        };
        let time = (end - WINDOW_START) as u64;
        let sum = match self.between(0, 3) {
            0 => 0,
            1 => time,
            _ => self.up_to(time),
        };
        Tally {
            end: UtcTick { ticks: end },
            totals: self.that_add_up_to(sum),
        }
    }

    /// Any tally: one that holds, or one that nearly does or by far does not.
    pub fn any_tally(&mut self) -> Tally {
        let mut tally = self.tally_until(WINDOW_END);
        match self.between(0, 9) {
            0 | 1 => tally.end.ticks = self.end_outside(),
            2 => self.raise_by(&mut tally.totals, 1),
            3 => {
                // As much as holds, and some more.
                let time = (tally.end.ticks - WINDOW_START) as u64;
                let more = self.up_to(1 << 40);
                tally.totals = self.that_add_up_to(time + more);
            }
            4 => {
                // Two halves, or all and one, wrap to nothing.
                let halves = self.pick(&[[HALF, HALF], [u64::MAX, 1]]);
                self.raise_two(&mut tally.totals, halves);
            }
            5 => {
                // Any six, and the seventh so that all wrap to a small sum.
                let sum = tally.totals.iter().sum::<u64>();
                let six = [(); 6].map(|()| self.any_u64());
                let wrapped = six.iter().fold(0, |sum: u64, &one| sum.wrapping_add(one));
                tally.totals[..6].copy_from_slice(&six);
                tally.totals[6] = sum.wrapping_sub(wrapped);
            }
            6 => {
                // As a signed number such a total is below zero.
                let more = self.pick(&[HALF, HALF + 1, u64::MAX - 1, u64::MAX]);
                self.raise_by(&mut tally.totals, more);
            }
            7 => {
                tally.totals = match self.one_in(4) {
                    true => [u64::MAX; 7],
                    false => [(); 7].map(|()| self.any_u64()),
                };
            }
            _ => {}
        }
        tally
    }

    /// One that does not hold.
    pub fn tally_that_fails(&mut self) -> Tally {
        loop {
            let tally = self.any_tally();
            if !holds(&tally) {
                return tally;
            }
        }
    }

    fn end_outside(&mut self) -> i64 {
        match self.between(0, 3) {
            0 => self.pick(&[WINDOW_START - 1, WINDOW_END + 1]),
            1 => self.pick(&[i64::MIN, -1, 0, 1, i64::MAX]),
            2 => self.between(i64::MIN, WINDOW_START - 1),
            _ => self.between(WINDOW_END + 1, i64::MAX),
        }
    }

    fn up_to(&mut self, most: u64) -> u64 {
        self.between(0, most as i64) as u64
    }

    /// Seven numbers with a sum: on one weekday, or over all.
    fn that_add_up_to(&mut self, sum: u64) -> Totals {
        let mut totals = [0; 7];
        if self.one_in(4) {
            totals[self.between_usize(0, 6)] = sum;
            return totals;
        }
        let mut left = sum;
        for total in &mut totals[..6] {
            *total = self.up_to(left);
            left -= *total;
        }
        totals[6] = left;
        totals.rotate_left(self.between_usize(0, 6));
        totals
    }

    fn raise_by(&mut self, totals: &mut Totals, more: u64) {
        let weekday = self.between_usize(0, 6);
        totals[weekday] = totals[weekday].saturating_add(more);
    }

    /// Two of the totals instead of what they were.
    fn raise_two(&mut self, totals: &mut Totals, two: [u64; 2]) {
        let first = self.between_usize(0, 6);
        let second = (first + self.between_usize(1, 6)) % 7;
        totals[first] = two[0];
        totals[second] = two[1];
    }

    /// A length of a run, or of the gap before one: from nothing to years.
    pub fn run_length(&mut self) -> i64 {
        let near = self.between(-1, 1);
        match self.between(0, 19) {
            0 => 0,
            1 => 1,
            2 => self.between(2, 100),
            3 => self.between(1, 90) * TICKS_PER_MINUTE,
            4..=7 => self.between(1, TICKS_PER_DAY),
            8 => self.between(1, 48) * TICKS_PER_HOUR + near,
            9 => self.between(1, 8) * TICKS_PER_DAY + near,
            10 | 11 => self.between(1, 8 * TICKS_PER_DAY),
            12 => self.between(1, 60) * 7 * TICKS_PER_DAY + near,
            13..=15 => self.between(1, 60 * TICKS_PER_DAY),
            16 => self.pick(&[365, 366]) * TICKS_PER_DAY + near,
            17 => self.between(1, 800 * TICKS_PER_DAY),
            18 => self.between(1, 15 * 365 * TICKS_PER_DAY),
            _ => self.long_length(),
        }
    }

    /// Mostly some years, seldom centuries or up to as long as the window.
    fn long_length(&mut self) -> i64 {
        let years = match self.between(0, 39) {
            0 => 29_000,
            1..=3 => 900,
            4..=9 => 120,
            _ => 30,
        };
        self.between(1, years * 365 * TICKS_PER_DAY)
    }

    /// Bytes that are no record of a tally that holds, though nearly.
    pub fn refused_record(&mut self, record: &[u8]) -> Vec<u8> {
        loop {
            let bytes = self.damaged_record(record);
            if read(&bytes).refusal != 0 {
                return bytes;
            }
        }
    }

    /// A record with something changed.
    pub fn damaged_record(&mut self, sound: &[u8]) -> Vec<u8> {
        let mut bytes = sound.to_vec();
        match self.between(0, 8) {
            0 => bytes.truncate(self.between_usize(0, sound.len())),
            1 => bytes.push(self.any_u8()),
            2 => {
                let more = self.between_usize(1, 80);
                bytes.extend(self.some_bytes(more));
            }
            3 => {
                let length = self.pick(&[68, 67, 65, 64, 0, 66 << 8, 322]);
                bytes[..2].copy_from_slice(&u16::to_le_bytes(length));
            }
            4 => {
                let kind = self.pick(&[0, 2, 3, 256, 257, u16::MAX]);
                bytes[2..4].copy_from_slice(&kind.to_le_bytes());
            }
            5 => {
                let end = self.end_outside();
                bytes[4..12].copy_from_slice(&end.to_le_bytes());
            }
            6 => bytes = record(&self.tally_that_fails()),
            7 => {
                let length = self.between_usize(0, 100);
                bytes = self.some_bytes(length);
            }
            _ => {
                let place = self.between_usize(0, sound.len() - 1);
                bytes[place] ^= 1 << self.between(0, 7);
            }
        }
        bytes
    }

    /// How much room a saving is given.
    pub fn saving_room(&mut self) -> usize {
        match self.one_in(2) {
            true => self.pick(&[0, 1, 66, 67, 68, 68, 68, 69, 100]),
            false => self.between_usize(0, 100),
        }
    }

    /// Any tick at all, mostly one of the window or close to it.
    pub fn any_run_end(&mut self) -> i64 {
        match self.between(0, 5) {
            0 => self.pick(&edges_i64()),
            1 => self.any_i64(),
            2 => self.pick(&[
                i64::MIN,
                0,
                WINDOW_START - 1,
                WINDOW_START,
                WINDOW_END,
                WINDOW_END + 1,
                i64::MAX,
            ]),
            _ => self.between(WINDOW_START, WINDOW_END),
        }
    }
}

impl Source<'_> {
    /// The first tick of the window that has a rule. In a row that is refused
    /// it may be any.
    pub fn first_with_rule(&self, row: &[Rule]) -> i64 {
        match row.first().map_or(0, |rule| rule.year) {
            year @ 1_603..=LAST_YEAR => self.calendar.first_day(year as i16) * TICKS_PER_DAY,
            _ => WINDOW_START,
        }
    }

    /// A run in a row, beside the end of a tally: mostly one that is
    /// accepted, else with one fault or several.
    pub fn run(&mut self, row: &[Rule], end: i64) -> Run {
        let first = self.first_with_rule(row);
        let seeded = &mut self.seeded;
        let soonest = end.clamp(first, WINDOW_END);
        let from = match seeded.between(0, 19) {
            0..=5 => end,
            6..=10 => soonest,
            11..=15 => soonest.saturating_add(seeded.run_length()).min(WINDOW_END),
            16 => end.saturating_sub(seeded.run_length()),
            17 => first - 1,
            18 => seeded.pick(&[WINDOW_END, WINDOW_START, WINDOW_START - 1, WINDOW_END + 1]),
            _ => seeded.any_run_end(),
        };
        let to = match seeded.between(0, 19) {
            0 => from.saturating_sub(seeded.run_length()),
            1 => seeded.pick(&[WINDOW_END + 1, WINDOW_START - 1, from.saturating_sub(1)]),
            2 if seeded.one_in(8) => seeded.any_run_end(),
            2..=4 => from,
            _ => from.saturating_add(seeded.run_length()).min(WINDOW_END),
        };
        Run { from, to }
    }
}
