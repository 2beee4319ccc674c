//! Examples of records as bytes written out: those of document 01's sheet,
//! and both sides of each place at which a reader or a writer could go
//! wrong. The library is held to them, and so is the reference.

use crate::definition_examples::definitions;
use crate::library::{self, Name, RemoteDesktopAnswer, Rule, RuleAnswer, SystemTime};
use crate::one_rule_examples::one_rule_records;
use crate::record_calls::{outcomes, READING_A_DEFINITION};
use crate::record_reference as reference;
use crate::report::Section;
use crate::Basis;

/// The bytes that a call writes, or its number.
pub type Written = Result<Vec<u8>, u32>;

/// The seven calls, of the library or of the reference. Writing is given the
/// room of its output, and reading a definition that of its row. A name that
/// is not a part of the bytes is none.
pub struct Calls<'a> {
    pub read_registry: &'a dyn Fn(&[u8]) -> RuleAnswer,
    pub write_registry: &'a dyn Fn(Rule, usize) -> Written,
    pub read_remote_desktop: &'a dyn Fn(&[u8]) -> RemoteDesktopAnswer,
    pub write_remote_desktop: &'a dyn Fn(Rule, [Name; 2], usize) -> Written,
    pub read_definition: &'a dyn Fn(&[u8], usize) -> Result<Vec<Rule>, u32>,
    pub definition_name: &'a dyn Fn(&[u8]) -> Option<Vec<u8>>,
    pub write_definition: &'a dyn Fn(&[u8], &[Rule], usize) -> Written,
}

pub fn sections(basis: &Basis) -> Vec<Section> {
    let calendar = &basis.calendar;
    let of_library = Calls {
        read_registry: &library::read_registry,
        write_registry: &|rule, room| {
            lend(room, 0xa5, |out| {
                let answer = library::write_registry(rule, out);
                (answer.refusal, answer.length)
            })
        },
        read_remote_desktop: &library::read_remote_desktop,
        write_remote_desktop: &|rule, names, room| {
            lend(room, 0xa5, |out| {
                let answer = library::write_remote_desktop(rule, names, out);
                (answer.refusal, answer.length)
            })
        },
        read_definition: &|bytes, room| {
            lend(room, zone_p(1, 1), |row| {
                let answer = library::read_definition(bytes, row);
                (answer.refusal, answer.count)
            })
        },
        definition_name: &|bytes| {
            let part = library::definition_name(bytes);
            let rest = bytes.get(part.at..);
            rest.and_then(|rest| rest.get(..part.length))
                .map(<[u8]>::to_vec)
        },
        write_definition: &|name, row, room| {
            lend(room, 0xa5, |out| {
                let answer = library::write_definition(name, row, out);
                (answer.refusal, answer.length)
            })
        },
    };
    let of_reference = Calls {
        read_registry: &|bytes| reference::read_registry(calendar, bytes),
        write_registry: &|rule, room| reference::write_registry(calendar, rule, room),
        read_remote_desktop: &|bytes| reference::read_remote_desktop(calendar, bytes),
        write_remote_desktop: &|rule, names, room| {
            reference::write_remote_desktop(calendar, rule, names, room)
        },
        read_definition: &|bytes, room| reference::read_definition(calendar, bytes, room),
        definition_name: &|bytes| Some(reference::definition_name(calendar, bytes).to_vec()),
        write_definition: &|name, row, room| reference::write_definition(calendar, name, row, room),
    };
    vec![
        held_to_examples("examples of records: the reference", &of_reference),
        held_to_examples("examples of records: the library", &of_library),
    ]
}

/// What a refused call is told by if it did not leave the memory as it was,
/// and an accepted one that touched more than it answers.
const TOUCHED: u32 = 0;

/// Lends memory that holds one thing throughout, with some more behind it,
/// and takes out as much as the answer, a number and a length, speaks of.
pub fn lend<T: Copy + PartialEq>(
    room: usize,
    held: T,
    call: impl FnOnce(&mut [T]) -> (u32, usize),
) -> Result<Vec<T>, u32> {
    let mut memory = vec![held; room + 100];
    let (refusal, length) = call(&mut memory[..room]);
    let taken = if refusal == 0 { length.min(room) } else { 0 };
    if memory[taken..].iter().any(|now| *now != held) {
        return Err(TOUCHED);
    }
    memory.truncate(taken);
    match refusal {
        0 => Ok(memory),
        number => Err(number),
    }
}

fn held_to_examples(name: &str, calls: &Calls) -> Section {
    Section::run(name, &outcomes(&READING_A_DEFINITION), 400, |section| {
        one_rule_records(section, calls)?;
        definitions(section, calls)
    })
}

/// Zone P of document 01: its biases, the last Sunday of October 03:00, and
/// the last Sunday of March 02:00.
pub const BIASES: &str = "C4FFFFFF 00000000 C4FFFFFF";
pub const OCTOBER: &str = "00000A00000005000300000000000000";
pub const MARCH: &str = "00000300000005000200000000000000";

pub const UNSET: &str = "00000000000000000000000000000000";

/// Zone P as a rule of a year.
pub fn zone_p(year: u16, active: u8) -> Rule {
    Rule {
        year,
        active,
        padding: 0,
        bias: -60,
        standard_bias: 0,
        daylight_bias: -60,
        standard_date: SystemTime::from_row([0, 10, 0, 5, 3, 0, 0, 0]),
        daylight_date: SystemTime::from_row([0, 3, 0, 5, 2, 0, 0, 0]),
    }
}
