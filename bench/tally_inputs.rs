//! Seeded runs and tallies.

use crate::library::{Rule, Tally, UtcTick};
use crate::local_time_inputs::{Zones, WINDOW_END, WINDOW_START};
use crate::plain_tally::fresh;
use crate::record_inputs::Source;

/// How long the runs are.
#[derive(Clone, Copy)]
pub enum Length {
    Hour,
    Day,
    Year,
}

pub const LENGTHS: [Length; 3] = [Length::Hour, Length::Day, Length::Year];

impl Length {
    pub fn name(self) -> &'static str {
        match self {
            Length::Hour => "an hour",
            Length::Day => "a day",
            Length::Year => "a year",
        }
    }

    fn ticks(self) -> i64 {
        const DAY: i64 = 864_000_000_000;
        match self {
            Length::Hour => DAY / 24,
            Length::Day => DAY,
            Length::Year => 365 * DAY,
        }
    }
}

/// A run, the tally before it, and the row of its zone.
#[derive(Clone, Copy)]
pub struct Booked {
    pub tally: Tally,
    pub row: &'static [Rule; 1],
    pub from: UtcTick,
    pub to: UtcTick,
}

const TALLIES: usize = 4096;

impl Source {
    /// Runs that start evenly spread over 1970 to 2099, every second one from
    /// a fresh tally.
    pub fn runs(&mut self, zones: Zones, length: Length) -> Vec<Booked> {
        let ticks = self.ticks(zones);
        ticks
            .into_iter()
            .map(|asked| Booked {
                tally: match self.below(2) {
                    0 => fresh(),
                    _ => self.tally_until(asked.tick),
                },
                row: asked.row,
                from: UtcTick { ticks: asked.tick },
                to: UtcTick {
                    ticks: asked.tick + length.ticks(),
                },
            })
            .collect()
    }

    /// The whole window from a fresh tally, in each zone.
    pub fn whole_window(&mut self, zones: Zones) -> Vec<Booked> {
        let rows = zones.rows().iter();
        rows.map(|row| Booked {
            tally: fresh(),
            row,
            from: UtcTick {
                ticks: WINDOW_START,
            },
            to: UtcTick { ticks: WINDOW_END },
        })
        .collect()
    }

    pub fn tallies(&mut self) -> Vec<Tally> {
        (0..TALLIES).map(|_| self.tally_until(WINDOW_END)).collect()
    }

    /// One that holds, with an end no later than a tick.
    pub fn tally_until(&mut self, latest: i64) -> Tally {
        let time = self.below((latest - WINDOW_START) as u64 + 1);
        let mut left = time;
        let mut totals = [0; 7];
        for total in &mut totals {
            *total = self.below(left + 1);
            left -= *total;
        }
        Tally {
            end: UtcTick {
                ticks: WINDOW_START + time as i64,
            },
            totals,
        }
    }

    /// The same with another number somewhere. Mostly it holds no longer.
    pub fn damaged_tally(&mut self, mut tally: Tally) -> Tally {
        let weekday = self.below(7) as usize;
        match self.below(5) {
            0 => tally.end.ticks = self.any_tick(),
            1 => tally.totals[weekday] = self.below(u64::MAX),
            2 => tally.totals[weekday] = tally.totals[weekday].wrapping_add(1),
            3 => {
                // Two halves wrap to nothing.
                tally.totals[weekday] = 1 << 63;
                tally.totals[(weekday + 1) % 7] = 1 << 63;
            }
            _ => {}
        }
        tally
    }
}
