//! The seven calls on records, each with memory lent to it and compared with
//! the reference: the answer, all lent memory and what lies around it.

use crate::calendar::Calendar;
use crate::hex::Hex;
use crate::lent_memory::{lend_input, Beside, LentBytes, LentRow};
use crate::library::{
    self, CountAnswer, LengthAnswer, Name, RemoteDesktopAnswer, Rule, RuleAnswer,
};
use crate::record_reference::{self as reference, Written};
use crate::report::{Answer, Enough, Outcome, Section};
use crate::seeded::Seeded;
use crate::Basis;
use std::fmt::{self, Debug};

/// What each call can answer, beside an answer that is no refusal.
pub const READING_ONE_RULE: [u32; 4] = [2, 9, 10, 11];
pub const WRITING_ONE_RULE: [u32; 5] = [8, 9, 10, 11, 13];
pub const READING_A_DEFINITION: [u32; 14] = [1, 2, 3, 4, 5, 6, 7, 8, 9, 10, 11, 12, 13, 20];
pub const READING_WITHOUT_A_ROW: [u32; 13] = [1, 2, 3, 4, 5, 6, 7, 8, 9, 10, 11, 12, 20];
pub const WRITING_A_DEFINITION: [u32; 10] = [2, 5, 6, 8, 9, 10, 11, 12, 13, 20];

pub fn outcomes(refusals: &[u32]) -> Vec<Outcome> {
    let refused = refusals.iter().map(|&number| Outcome::Refused(number));
    std::iter::once(Outcome::Answered).chain(refused).collect()
}

/// Calls the library and compares.
pub struct Caller<'a> {
    calendar: &'a Calendar,
    /// For what lent memory holds before a call.
    seeded: Seeded,
    bytes: LentBytes,
    row: LentRow,
}

impl Caller<'_> {
    pub fn new<'a>(basis: &'a Basis, section: &str) -> Caller<'a> {
        Caller {
            calendar: &basis.calendar,
            seeded: Seeded::new(basis.seed, &format!("memory lent in {section}")),
            bytes: LentBytes::default(),
            row: LentRow::default(),
        }
    }

    pub fn read_registry(&mut self, section: &mut Section, bytes: &[u8]) -> Result<(), Enough> {
        let given: Beside<RuleAnswer, u8> =
            lend_input(bytes, |bytes| Beside::right(library::read_registry(bytes)));
        let expected = Beside::right(reference::read_registry(self.calendar, bytes));
        section.compare(Hex(bytes), given, expected)
    }

    pub fn write_registry(
        &mut self,
        section: &mut Section,
        rule: Rule,
        room: usize,
    ) -> Result<(), Enough> {
        let written = reference::write_registry(self.calendar, rule, room);
        let given = self.lend_output(room, &written, |out| library::write_registry(rule, out));
        section.compare((rule, room), given, expected_length(&written))
    }

    pub fn read_remote_desktop(
        &mut self,
        section: &mut Section,
        bytes: &[u8],
    ) -> Result<(), Enough> {
        let given: Beside<RemoteDesktopAnswer, u8> = lend_input(bytes, |bytes| {
            Beside::right(library::read_remote_desktop(bytes))
        });
        let expected = Beside::right(reference::read_remote_desktop(self.calendar, bytes));
        section.compare(Hex(bytes), given, expected)
    }

    pub fn write_remote_desktop(
        &mut self,
        section: &mut Section,
        rule: Rule,
        names: [Name; 2],
        room: usize,
    ) -> Result<(), Enough> {
        let written = reference::write_remote_desktop(self.calendar, rule, names, room);
        let given = self.lend_output(room, &written, |out| {
            library::write_remote_desktop(rule, names, out)
        });
        section.compare((rule, names, room), given, expected_length(&written))
    }

    pub fn read_definition(
        &mut self,
        section: &mut Section,
        bytes: &[u8],
        room: usize,
    ) -> Result<(), Enough> {
        let (stored, answer) = match reference::read_definition(self.calendar, bytes, room) {
            Ok(rules) => {
                let count = rules.len();
                (rules, CountAnswer::of(count))
            }
            Err(number) => (Vec::new(), CountAnswer::refused(number)),
        };
        let given = lend_input(bytes, |bytes| {
            self.row.lend(&mut self.seeded, room, &stored, |row| {
                library::read_definition(bytes, row)
            })
        });
        section.compare((Hex(bytes), room), given, Beside::right(answer))
    }

    pub fn definition_name(&mut self, section: &mut Section, bytes: &[u8]) -> Result<(), Enough> {
        let (reading, name) = match reference::whole_definition(self.calendar, bytes) {
            Ok(definition) => (0, definition.name),
            Err(number) => (number, 0..0),
        };
        let expected: Beside<Named, u8> = Beside::right(Named {
            reading,
            at: if name.is_empty() { 0 } else { name.start },
            name: Some(Hex(&bytes[name])),
        });
        let given = lend_input(bytes, |_| {
            let part = library::definition_name(bytes);
            Beside::right(Named {
                reading,
                at: part.at,
                name: part
                    .at
                    .checked_add(part.length)
                    .and_then(|end| bytes.get(part.at..end))
                    .map(Hex),
            })
        });
        section.compare(Hex(bytes), given, expected)
    }

    pub fn write_definition(
        &mut self,
        section: &mut Section,
        name: &[u8],
        row: &[Rule],
        room: usize,
    ) -> Result<(), Enough> {
        let written = reference::write_definition(self.calendar, name, row, room);
        let given = lend_input(name, |name| {
            lend_input(row, |row| {
                self.lend_output(room, &written, |out| {
                    library::write_definition(name, row, out)
                })
            })
        });
        let input = (Hex(name), FirstRules(row), room);
        section.compare(input, given, expected_length(&written))
    }

    fn lend_output(
        &mut self,
        room: usize,
        written: &Written,
        call: impl FnOnce(&mut [u8]) -> LengthAnswer,
    ) -> Beside<LengthAnswer, u8> {
        let nothing = Vec::new();
        let expected = written.as_ref().unwrap_or(&nothing);
        self.bytes.lend(&mut self.seeded, room, expected, call)
    }
}

pub fn expected_length(written: &Written) -> Beside<LengthAnswer, u8> {
    Beside::right(match written {
        Ok(bytes) => LengthAnswer::of(bytes.len()),
        Err(number) => LengthAnswer::refused(*number),
    })
}

/// What the name call handed back.
#[derive(PartialEq, Debug)]
struct Named<'a> {
    /// What reading has for these bytes where the row is long enough. It
    /// counts as the outcome, since the call itself has no number.
    reading: u32,
    /// An empty part stands at 0.
    at: usize,
    /// None for a part that is not within the bytes.
    name: Option<Hex<'a>>,
}

impl Answer for Named<'_> {
    fn outcome(&self) -> Outcome {
        Outcome::by_number(self.reading)
    }
}

/// A row to be shown; of many rules only the first.
pub struct FirstRules<'a>(pub &'a [Rule]);

impl Debug for FirstRules<'_> {
    fn fmt(&self, f: &mut fmt::Formatter<'_>) -> fmt::Result {
        write!(f, "{} rules", self.0.len())?;
        for rule in self.0.iter().take(8) {
            write!(f, "\n    {rule:?}")?;
        }
        Ok(())
    }
}
