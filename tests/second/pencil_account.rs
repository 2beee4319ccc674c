//! Document 01's pencil account. It is fed the calls' arguments except the
//! tally, and holds an end and the noted runs; its totals are counted from
//! the noted runs whenever they are asked for.

use crate::library::{Tally, UtcTick};
use crate::record_reference::{Written, ROOM};
use crate::run_ticks::{add, Counter, Run, Totals};
use crate::tally_reference::{check_run, read, record, RECORD};
use crate::zone_reference::WINDOW_START;

/// The account of one accepted zone.
pub struct Account<'a> {
    counter: Counter<'a>,
    end: i64,
    /// Each with its ticks by weekday.
    noted: Vec<(Run, Totals)>,
}

impl Account<'_> {
    pub fn of(counter: Counter) -> Account {
        Account {
            counter,
            end: WINDOW_START,
            noted: Vec::new(),
        }
    }

    pub fn tally(&self) -> Tally {
        let mut totals = [0; 7];
        for (_, ticks) in &self.noted {
            add(&mut totals, ticks);
        }
        Tally {
            end: UtcTick { ticks: self.end },
            totals,
        }
    }

    /// The lengths of the noted runs together.
    pub fn time_run(&self) -> u64 {
        let lengths = self.noted.iter().map(|(run, _)| (run.to - run.from) as u64);
        lengths.sum()
    }

    pub fn end(&self) -> i64 {
        self.end
    }

    pub fn counter(&self) -> &Counter<'_> {
        &self.counter
    }

    pub fn book(&mut self, run: Run) -> Result<Tally, u32> {
        self.note(run)?;
        Ok(self.tally())
    }

    /// The same without the totals.
    pub fn note(&mut self, run: Run) -> Result<(), u32> {
        check_run(&self.counter.zone, self.end, run)?;
        self.noted.push((run, self.counter.count(run)));
        self.end = run.to;
        Ok(())
    }

    pub fn save(&self, room: usize) -> Written {
        if room < RECORD {
            return Err(ROOM);
        }
        Ok(record(&self.tally()))
    }

    /// Of the last saved record, or of bytes that are refused.
    pub fn read(&self, bytes: &[u8]) -> Result<Tally, u32> {
        match read(bytes).refusal {
            0 => Ok(self.tally()),
            number => Err(number),
        }
    }
}
