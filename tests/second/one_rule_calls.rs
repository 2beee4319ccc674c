//! The registry and the remote desktop record, read and written, against the
//! reference.

use crate::library::{Name, Rule};
use crate::record_calls::{outcomes, Caller, READING_ONE_RULE, WRITING_ONE_RULE};
use crate::record_reference::{REGISTRY_LENGTH, REMOTE_DESKTOP_LENGTH};
use crate::report::Section;
use crate::rule_damage::RuleFault;
use crate::seeded_rules::Source;
use crate::Basis;

/// Seeded records of each call.
const RECORDS: u64 = 250_000;
const FEWEST: u64 = 200_000;

pub fn sections(basis: &Basis) -> Vec<Section> {
    vec![
        read_registry(basis),
        write_registry(basis),
        read_remote_desktop(basis),
        write_remote_desktop(basis),
    ]
}

fn read_registry(basis: &Basis) -> Section {
    let name = "read_registry";
    let mut source = Source::new(basis, name);
    let mut caller = Caller::new(basis, name);
    Section::run(name, &outcomes(&READING_ONE_RULE), FEWEST, |section| {
        for _ in 0..RECORDS {
            let rule = source.any_rule();
            let record = match source.seeded.one_in(50) {
                true => source.seeded.some_bytes(REGISTRY_LENGTH),
                false => registry_record(&rule),
            };
            let record = source.of_any_length(record);
            let damaged = source.damage(record, 8);
            caller.read_registry(section, damaged.bytes())?;
        }
        Ok(())
    })
}

fn write_registry(basis: &Basis) -> Section {
    let name = "write_registry";
    let mut source = Source::new(basis, name);
    let mut caller = Caller::new(basis, name);
    Section::run(name, &outcomes(&WRITING_ONE_RULE), FEWEST, |section| {
        for _ in 0..RECORDS {
            let rule = source.any_rule();
            let room = source.room_for(REGISTRY_LENGTH);
            caller.write_registry(section, rule, room)?;
        }
        Ok(())
    })
}

fn read_remote_desktop(basis: &Basis) -> Section {
    let name = "read_remote_desktop";
    let mut source = Source::new(basis, name);
    let mut caller = Caller::new(basis, name);
    Section::run(name, &outcomes(&READING_ONE_RULE), FEWEST, |section| {
        for _ in 0..RECORDS {
            let rule = source.any_rule();
            let names = source.names();
            let record = match source.seeded.one_in(50) {
                true => source.seeded.some_bytes(REMOTE_DESKTOP_LENGTH),
                false => remote_desktop_record(&rule, &names),
            };
            let record = source.of_any_length(record);
            let damaged = source.damage(record, 8);
            caller.read_remote_desktop(section, damaged.bytes())?;
        }
        Ok(())
    })
}

fn write_remote_desktop(basis: &Basis) -> Section {
    let name = "write_remote_desktop";
    let mut source = Source::new(basis, name);
    let mut caller = Caller::new(basis, name);
    Section::run(name, &outcomes(&WRITING_ONE_RULE), FEWEST, |section| {
        for _ in 0..RECORDS {
            let rule = source.any_rule();
            let names = source.names();
            let room = source.room_for(REMOTE_DESKTOP_LENGTH);
            caller.write_remote_desktop(section, rule, names, room)?;
        }
        Ok(())
    })
}

/// A rule as a registry record, whatever is in it.
pub fn registry_record(rule: &Rule) -> Vec<u8> {
    let mut record = vec![0; REGISTRY_LENGTH];
    put_bias(&mut record[0..4], rule.bias);
    put_bias(&mut record[4..8], rule.standard_bias);
    put_bias(&mut record[8..12], rule.daylight_bias);
    put_date(&mut record[12..28], rule.standard_date.as_row());
    put_date(&mut record[28..44], rule.daylight_date.as_row());
    record
}

/// The same as a remote desktop record.
pub fn remote_desktop_record(rule: &Rule, names: &[Name; 2]) -> Vec<u8> {
    let mut record = vec![0; REMOTE_DESKTOP_LENGTH];
    put_bias(&mut record[0..4], rule.bias);
    record[4..68].copy_from_slice(&names[0].bytes);
    put_date(&mut record[68..84], rule.standard_date.as_row());
    put_bias(&mut record[84..88], rule.standard_bias);
    record[88..152].copy_from_slice(&names[1].bytes);
    put_date(&mut record[152..168], rule.daylight_date.as_row());
    put_bias(&mut record[168..172], rule.daylight_bias);
    record
}

fn put_bias(place: &mut [u8], bias: i32) {
    place.copy_from_slice(&bias.to_le_bytes());
}

fn put_date(place: &mut [u8], row: [u16; 8]) {
    for (two, number) in place.chunks_mut(2).zip(row) {
        two.copy_from_slice(&number.to_le_bytes());
    }
}

impl Source<'_> {
    /// A sound rule of some year, active or not.
    pub fn sound_rule(&mut self) -> Rule {
        let year = self.rule_year();
        let active = self.seeded.pick(&[0, 1]);
        Rule {
            active,
            ..self.rule(year)
        }
    }

    /// A rule that is sound, or has up to three faults.
    fn any_rule(&mut self) -> Rule {
        let mut rule = self.sound_rule();
        for _ in 0..self.seeded.pick(&[0, 0, 1, 1, 2, 3]) {
            let fault = self.seeded.pick(&RuleFault::ALL);
            fault.put(self, &mut rule, None);
        }
        rule
    }

    /// Two names, at times of zeros.
    pub fn names(&mut self) -> [Name; 2] {
        [(); 2].map(|()| {
            let mut name = Name::ZEROS;
            if !self.seeded.one_in(5) {
                self.seeded.fill(&mut name.bytes);
            }
            name
        })
    }

    /// A record, at times longer or shorter than it should be.
    fn of_any_length(&mut self, mut record: Vec<u8>) -> Vec<u8> {
        if self.seeded.one_in(12) {
            let right = record.len();
            let lengths = [
                0,
                1,
                44,
                66,
                68,
                172,
                right - 1,
                right + 1,
                2 * right,
                256 + right,
            ];
            let length = self.seeded.pick(&lengths);
            record.resize(length, self.seeded.any_u8());
        }
        record
    }

    /// Room for so many bytes: exact, too short or longer.
    pub fn room_for(&mut self, length: usize) -> usize {
        match self.seeded.between(0, 9) {
            0..=3 => length,
            4 => length.saturating_sub(1),
            5 => length + 1,
            6 => self.seeded.between_usize(0, length),
            7 => 0,
            _ => length + self.seeded.between_usize(1, 300),
        }
    }
}
