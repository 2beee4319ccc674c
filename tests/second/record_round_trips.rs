//! Round trips through the library alone. Reading what was written gives the
//! rules made normal, and writing what was read gives a normal record.

use crate::hex::Hex;
use crate::library::{
    self, CountAnswer, LengthAnswer, Name, RemoteDesktopAnswer, Rule, RuleAnswer,
};
use crate::one_rule_calls::{registry_record, remote_desktop_record};
use crate::raw_definition::RawDefinition;
use crate::record_reference::{definition_length, REGISTRY_LENGTH, REMOTE_DESKTOP_LENGTH};
use crate::report::{Outcome, Section};
use crate::seeded_rules::Source;
use crate::zone_rules::normal;
use crate::Basis;

const TRIPS: u64 = 100_000;

pub fn sections(basis: &Basis) -> Vec<Section> {
    vec![
        registry_written_and_read(basis),
        registry_read_and_written(basis),
        remote_desktop_written_and_read(basis),
        remote_desktop_read_and_written(basis),
        definition_written_and_read(basis),
        definition_read_and_written(basis),
    ]
}

/// The one rule that a record of the registry or of a remote desktop gives.
fn as_one_rule(rule: Rule) -> Rule {
    Rule {
        year: 0,
        active: 1,
        ..normal(rule)
    }
}

fn registry_written_and_read(basis: &Basis) -> Section {
    let name = "read_registry of write_registry";
    let mut source = Source::new(basis, name);
    Section::run(name, &[Outcome::Answered], TRIPS, |section| {
        for _ in 0..TRIPS {
            let rule = source.sound_rule();
            let written = write(REGISTRY_LENGTH, |out| library::write_registry(rule, out));
            let expected = RuleAnswer::of(as_one_rule(rule));
            section.compare(rule, library::read_registry(&written), expected)?;
        }
        Ok(())
    })
}

fn registry_read_and_written(basis: &Basis) -> Section {
    let name = "write_registry of read_registry";
    let mut source = Source::new(basis, name);
    Section::run(name, &[Outcome::Answered], TRIPS, |section| {
        for _ in 0..TRIPS {
            let rule = source.sound_rule();
            let record = registry_record(&normal(rule));
            let read = library::read_registry(&record);
            let again = write(REGISTRY_LENGTH, |out| {
                library::write_registry(read.rule, out)
            });
            section.check(Hex(&record), read, "the record again", record == again)?;
        }
        Ok(())
    })
}

fn remote_desktop_written_and_read(basis: &Basis) -> Section {
    let name = "read_remote_desktop of write_remote_desktop";
    let mut source = Source::new(basis, name);
    Section::run(name, &[Outcome::Answered], TRIPS, |section| {
        for _ in 0..TRIPS {
            let rule = source.sound_rule();
            let names = source.names();
            let written = write(REMOTE_DESKTOP_LENGTH, |out| {
                library::write_remote_desktop(rule, names, out)
            });
            let expected = RemoteDesktopAnswer::of(as_one_rule(rule), names);
            section.compare(rule, library::read_remote_desktop(&written), expected)?;
        }
        Ok(())
    })
}

fn remote_desktop_read_and_written(basis: &Basis) -> Section {
    let name = "write_remote_desktop of read_remote_desktop";
    let mut source = Source::new(basis, name);
    Section::run(name, &[Outcome::Answered], TRIPS, |section| {
        for _ in 0..TRIPS {
            let rule = source.sound_rule();
            let record = remote_desktop_record(&normal(rule), &source.names());
            let read = library::read_remote_desktop(&record);
            let names: [Name; 2] = [read.standard_name, read.daylight_name];
            let again = write(REMOTE_DESKTOP_LENGTH, |out| {
                library::write_remote_desktop(read.rule, names, out)
            });
            section.check(Hex(&record), read, "the record again", record == again)?;
        }
        Ok(())
    })
}

fn definition_written_and_read(basis: &Basis) -> Section {
    let name = "read_definition of write_definition";
    let mut source = Source::new(basis, name);
    Section::run(name, &[Outcome::Answered], TRIPS, |section| {
        for trip in 0..TRIPS {
            let count = match trip % 1_000 {
                0 => 1_024,
                _ => source.few_rules(),
            };
            let name = source.definition_name();
            let row = source.row(count);
            let written = write(definition_length(name.len(), count), |out| {
                library::write_definition(&name, &row, out)
            });

            let (answer, back) = read(&written, count);
            let expected: Vec<Rule> = row.into_iter().map(normal).collect();
            let holds = back == expected && name_of(&written) == Some(&name[..]);
            section.check(Hex(&written), answer, "the rules and the name again", holds)?;
        }
        Ok(())
    })
}

/// A normal definition comes back byte for byte, and one that is not comes
/// back as the normal one of its rules.
fn definition_read_and_written(basis: &Basis) -> Section {
    let name = "write_definition of read_definition";
    let mut source = Source::new(basis, name);
    Section::run(name, &[Outcome::Answered], 2 * TRIPS, |section| {
        for trip in 0..TRIPS {
            let count = match trip % 1_000 {
                0 => 1_024,
                _ => source.few_rules(),
            };
            let name = source.definition_name();
            let row: Vec<Rule> = source.row(count).into_iter().map(normal).collect();
            let normal_one = RawDefinition::normal(&name, &row).bytes();
            let loose = source.definition_of(&name, &row).bytes();
            for bytes in [&normal_one, &loose] {
                let (answer, back) = read(bytes, count);
                let name = name_of(bytes).unwrap_or_default();
                let again = write(normal_one.len(), |out| {
                    library::write_definition(name, &back, out)
                });
                let holds = again == normal_one;
                section.check(Hex(bytes), answer, "the normal definition", holds)?;
            }
        }
        Ok(())
    })
}

/// Memory behind what is lent, in case a call does not stop where it should.
const BEHIND: usize = 100;

/// What a call wrote into so much room.
fn write(room: usize, call: impl FnOnce(&mut [u8]) -> LengthAnswer) -> Vec<u8> {
    let mut out = vec![0; room + BEHIND];
    let answer = call(&mut out[..room]);
    out.truncate(answer.length.min(room));
    out
}

/// The rules that reading stored in so much room.
fn read(bytes: &[u8], room: usize) -> (CountAnswer, Vec<Rule>) {
    let mut row = vec![Rule::default(); room + BEHIND];
    let answer = library::read_definition(bytes, &mut row[..room]);
    row.truncate(answer.count.min(room));
    (answer, row)
}

/// The name, if it is a part of the bytes.
fn name_of(bytes: &[u8]) -> Option<&[u8]> {
    let part = library::definition_name(bytes);
    bytes.get(part.at..)?.get(..part.length)
}
