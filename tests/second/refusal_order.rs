//! The order of the refusals. A sound input is accepted; then one or two
//! faults are put in, and the number is that of the fault which comes first
//! in document 01's order, with 20 where document 02 puts it, told by a table
//! beside each fault. The reference
//! is held to it, and the library to the reference.

use crate::definition_damage::{Fault, Place, Target};
use crate::hex::Hex;
use crate::library::Rule;
use crate::one_rule_calls::{registry_record, remote_desktop_record};
use crate::record_calls::{
    outcomes, Caller, READING_A_DEFINITION, READING_ONE_RULE, READING_WITHOUT_A_ROW,
    WRITING_A_DEFINITION, WRITING_ONE_RULE,
};
use crate::record_reference::{self as reference, definition_length};
use crate::report::{Enough, Section};
use crate::row_damage::{Outgoing, RowFault};
use crate::rule_damage::RuleFault;
use crate::seeded_rules::Source;
use crate::Basis;
use std::fmt::Debug;

/// Seeded inputs for each pair of faults.
const INPUTS: u64 = 120;

pub fn sections(basis: &Basis) -> Vec<Section> {
    vec![
        reading_a_definition(basis),
        name_of_a_definition(basis),
        writing_a_definition(basis),
        reading_one_rule(basis),
        writing_one_rule(basis),
    ]
}

/// Every fault alone, and every two.
pub fn pairs<F: Copy>(faults: &[F]) -> Vec<(F, F)> {
    let mut pairs = Vec::new();
    for (place, &one) in faults.iter().enumerate() {
        for &other in &faults[place..] {
            pairs.push((one, other));
        }
    }
    pairs
}

/// One fault or two, each with the rule that it is put into. The one that
/// comes first in the order stands first.
pub fn in_order<F: Copy + PartialEq>(
    (one, other): (F, F),
    mut aim: impl FnMut(F) -> (Place, Target),
) -> Vec<(F, Target)> {
    let mut faults = vec![(aim(one), one)];
    if one != other {
        faults.push((aim(other), other));
    }
    faults.sort_by_key(|&((place, _), _)| place);
    let aimed = faults.into_iter();
    aimed.map(|((_, target), fault)| (fault, target)).collect()
}

/// A sound definition, and what becomes of it with faults in it.
struct Definitions {
    sound: Vec<u8>,
    /// Two rules or more.
    kept: usize,
    faulty: Vec<u8>,
    /// That of the fault which comes first.
    number: u32,
}

fn definitions(source: &mut Source, faults: (Fault, Fault)) -> Definitions {
    let kept = source.seeded.between_usize(2, 4);
    let mut raw = source.definition(kept);
    let sound = raw.bytes();
    let faults = in_order(faults, |fault| {
        let target = fault.target(source, &raw);
        (fault.place(target), target)
    });
    // The one that comes first is put in last, so that it is surely there.
    for &(fault, target) in faults.iter().rev() {
        fault.put(source, &mut raw, target);
    }
    Definitions {
        sound,
        kept,
        faulty: raw.bytes(),
        number: faults[0].0.number(),
    }
}

fn reading_a_definition(basis: &Basis) -> Section {
    let name = "order of refusals: read_definition";
    let mut source = Source::new(basis, name);
    let mut caller = Caller::new(basis, name);
    Section::run(name, &outcomes(&READING_A_DEFINITION), 50_000, |section| {
        let mut ask = |bytes: &[u8], room: usize, faults: (Fault, Fault), expected| {
            let number = reference::read_definition(&basis.calendar, bytes, room);
            let count = number.map(|rules| rules.len());
            by_the_table(section, (Hex(bytes), room, faults), count, expected)?;
            caller.read_definition(section, bytes, room)
        };
        for faults in pairs(&Fault::ALL) {
            for _ in 0..INPUTS {
                let both = definitions(&mut source, faults);
                let kept = both.kept;
                let room = match source.seeded.one_in(2) {
                    true => 0,
                    false => kept + source.seeded.between_usize(0, 4),
                };
                ask(&both.faulty, room, faults, Err(both.number))?;
                match source.seeded.one_in(2) {
                    true => ask(&both.sound, kept, faults, Ok(kept))?,
                    false => ask(&both.sound, kept - 1, faults, Err(13))?,
                }
            }
        }
        Ok(())
    })
}

fn name_of_a_definition(basis: &Basis) -> Section {
    let name = "every refusal but 13 empties: definition_name";
    let mut source = Source::new(basis, name);
    let mut caller = Caller::new(basis, name);
    let outcomes = outcomes(&READING_WITHOUT_A_ROW);
    Section::run(name, &outcomes, 10_000, |section| {
        for fault in Fault::ALL {
            for _ in 0..4 * INPUTS {
                let both = definitions(&mut source, (fault, fault));
                caller.definition_name(section, &both.sound)?;
                caller.definition_name(section, &both.faulty)?;
            }
        }
        Ok(())
    })
}

fn writing_a_definition(basis: &Basis) -> Section {
    let name = "order of refusals: write_definition";
    let mut source = Source::new(basis, name);
    let mut caller = Caller::new(basis, name);
    Section::run(name, &outcomes(&WRITING_A_DEFINITION), 10_000, |section| {
        let mut ask = |outgoing: &Outgoing, room: usize, faults: (RowFault, RowFault), expected| {
            let Outgoing { name, row } = outgoing;
            let written = reference::write_definition(&basis.calendar, name, row, room);
            let length = written.map(|bytes| bytes.len());
            by_the_table(section, (room, faults), length, expected)?;
            caller.write_definition(section, name, row, room)
        };
        for faults in pairs(&RowFault::ALL) {
            let slow = faults.0 == RowFault::ManyRules || faults.1 == RowFault::ManyRules;
            for _ in 0..if slow { INPUTS / 8 } else { INPUTS } {
                let count = source.seeded.between_usize(2, 4);
                let mut outgoing = Outgoing {
                    name: source.definition_name(),
                    row: source.row(count),
                };
                let length = definition_length(outgoing.name.len(), count);
                match source.seeded.one_in(2) {
                    true => ask(&outgoing, length, faults, Ok(length))?,
                    false => ask(&outgoing, length - 1, faults, Err(13))?,
                }

                let put = in_order(faults, |fault| {
                    let target = fault.target(&mut source, &outgoing);
                    (fault.place(target), target)
                });
                for &(fault, target) in put.iter().rev() {
                    fault.put(&mut source, &mut outgoing, target);
                }
                let room = match source.seeded.one_in(2) {
                    true => source.seeded.between_usize(0, length - 1),
                    false => definition_length(outgoing.name.len(), outgoing.row.len()),
                };
                ask(&outgoing, room, faults, Err(put[0].0.number()))?;
            }
        }
        Ok(())
    })
}

/// A sound rule and what it becomes with one fault or two in it, with the
/// number that comes first.
fn rules(source: &mut Source, one: RuleFault, other: RuleFault) -> (Rule, Rule, u32) {
    let year = source.rule_year();
    let sound = source.rule(year);
    let mut faulty = sound;
    let (first, second) = match one.place() <= other.place() {
        true => (one, other),
        false => (other, one),
    };
    if first != second {
        second.put(source, &mut faulty, None);
    }
    first.put(source, &mut faulty, None);
    (sound, faulty, first.number())
}

fn reading_one_rule(basis: &Basis) -> Section {
    let name = "order of refusals: reading one rule";
    let mut source = Source::new(basis, name);
    let mut caller = Caller::new(basis, name);
    Section::run(name, &outcomes(&READING_ONE_RULE), 10_000, |section| {
        for faults in pairs(&RuleFault::OF_DATES_AND_BIASES) {
            for _ in 0..4 * INPUTS {
                let (sound, faulty, number) = rules(&mut source, faults.0, faults.1);
                let names = source.names();
                for (rule, expected) in [(sound, Ok(())), (faulty, Err(number))] {
                    let mut record = registry_record(&rule);
                    let read = |record: &[u8]| {
                        refused(reference::read_registry(&basis.calendar, record).refusal)
                    };
                    by_the_table(section, (rule, faults), read(&record), expected)?;
                    caller.read_registry(section, &record)?;
                    source.spoil_length(&mut record);
                    by_the_table(section, Hex(&record), read(&record), Err(2))?;
                    caller.read_registry(section, &record)?;

                    let mut record = remote_desktop_record(&rule, &names);
                    let read = |record: &[u8]| {
                        refused(reference::read_remote_desktop(&basis.calendar, record).refusal)
                    };
                    by_the_table(section, (rule, faults), read(&record), expected)?;
                    caller.read_remote_desktop(section, &record)?;
                    source.spoil_length(&mut record);
                    by_the_table(section, Hex(&record), read(&record), Err(2))?;
                    caller.read_remote_desktop(section, &record)?;
                }
            }
        }
        Ok(())
    })
}

fn writing_one_rule(basis: &Basis) -> Section {
    let name = "order of refusals: writing one rule";
    let mut source = Source::new(basis, name);
    let mut caller = Caller::new(basis, name);
    Section::run(name, &outcomes(&WRITING_ONE_RULE), 10_000, |section| {
        for faults in pairs(&RuleFault::ALL) {
            for _ in 0..4 * INPUTS {
                let (sound, faulty, number) = rules(&mut source, faults.0, faults.1);
                let names = source.names();
                let short = source.seeded.between_usize(1, 44);
                for (rule, short, expected) in [
                    (sound, 0, Ok(())),
                    (sound, short, Err(13)),
                    (faulty, 0, Err(number)),
                    (faulty, short, Err(number)),
                ] {
                    let room = reference::REGISTRY_LENGTH - short;
                    let written = reference::write_registry(&basis.calendar, rule, room);
                    let written = written.map(|_| ());
                    by_the_table(section, (rule, room, faults), written, expected)?;
                    caller.write_registry(section, rule, room)?;

                    let room = reference::REMOTE_DESKTOP_LENGTH - short;
                    let written =
                        reference::write_remote_desktop(&basis.calendar, rule, names, room);
                    let written = written.map(|_| ());
                    by_the_table(section, (rule, room, faults), written, expected)?;
                    caller.write_remote_desktop(section, rule, names, room)?;
                }
            }
        }
        Ok(())
    })
}

fn refused(number: u32) -> Result<(), u32> {
    match number {
        0 => Ok(()),
        number => Err(number),
    }
}

/// Holds the reference to the table.
pub fn by_the_table<T: PartialEq + Debug>(
    section: &mut Section,
    input: impl Debug,
    reference: Result<T, u32>,
    table: Result<T, u32>,
) -> Result<(), Enough> {
    section.compare(("the reference by the table", input), reference, table)
}

impl Source<'_> {
    fn spoil_length(&mut self, record: &mut Vec<u8>) {
        match self.seeded.one_in(2) {
            true => drop(record.pop()),
            false => record.push(self.seeded.any_u8()),
        }
    }
}
