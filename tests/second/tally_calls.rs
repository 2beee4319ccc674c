//! The calls on tallies, each with memory lent to it and compared with the
//! reference: the answer, all lent memory and what lies around it.

use crate::hex::Hex;
use crate::lent_memory::{lend_input, Beside, LentBytes};
use crate::library::{self, LengthAnswer, Rule, Tally, TallyAnswer, UtcTick};
use crate::record_calls::{expected_length, FirstRules};
use crate::record_reference::Written;
use crate::report::{Enough, Section};
use crate::run_ticks::{Counter, Run};
use crate::seeded::Seeded;
use crate::tally_reference as reference;
use crate::Basis;

/// What each call can answer, beside an answer that is no refusal.
pub const BOOKING: [u32; 10] = [6, 8, 9, 10, 11, 12, 15, 16, 17, 18];
pub const BOOKING_A_RUN: [u32; 3] = [15, 16, 17];
pub const SAVING: [u32; 2] = [13, 18];
pub const READING: [u32; 1] = [18];

/// Calls the library.
pub struct Caller {
    /// For what lent memory holds before a call.
    seeded: Seeded,
    bytes: LentBytes,
}

impl Caller {
    pub fn new(basis: &Basis, section: &str) -> Caller {
        Caller {
            seeded: Seeded::new(basis.seed, &format!("memory lent in {section}")),
            bytes: LentBytes::default(),
        }
    }

    /// Saves a tally, for which these bytes or a refusal are expected.
    pub fn save(
        &mut self,
        tally: Tally,
        room: usize,
        expected: &Written,
    ) -> Beside<LengthAnswer, u8> {
        let nothing = Vec::new();
        let written = expected.as_ref().unwrap_or(&nothing);
        self.bytes.lend(&mut self.seeded, room, written, |out| {
            library::save_tally(tally, out)
        })
    }

    pub fn compare_saved(
        &mut self,
        section: &mut Section,
        tally: Tally,
        room: usize,
    ) -> Result<(), Enough> {
        let expected = reference::save(&tally, room);
        let given = self.save(tally, room, &expected);
        section.compare((tally, room), given, expected_length(&expected))
    }
}

pub fn book(row: &[Rule], tally: Tally, run: Run) -> Beside<TallyAnswer, u8> {
    let [from, to] = [run.from, run.to].map(|ticks| UtcTick { ticks });
    lend_input(row, |row| {
        Beside::right(library::book(tally, row, from, to))
    })
}

pub fn read(bytes: &[u8]) -> Beside<TallyAnswer, u8> {
    lend_input(bytes, |bytes| Beside::right(library::read_tally(bytes)))
}

/// Compares a booking in a row with its counter, or the number of its
/// refusal.
pub fn compare_booked(
    section: &mut Section,
    row: &[Rule],
    counter: &mut Result<Counter, u32>,
    tally: Tally,
    run: Run,
) -> Result<(), Enough> {
    let expected = reference::book(counter, tally, run);
    section.compare(
        (FirstRules(row), tally, run),
        book(row, tally, run),
        Beside::right(expected),
    )
}

pub fn compare_read(section: &mut Section, bytes: &[u8]) -> Result<(), Enough> {
    let expected = Beside::right(reference::read(bytes));
    section.compare(Hex(bytes), read(bytes), expected)
}
