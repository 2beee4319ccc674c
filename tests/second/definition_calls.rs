//! The TZDEFINITION read, its name, and the TZDEFINITION written, against the
//! reference.

use crate::definition_damage::{Damaged, Fault};
use crate::raw_definition::RawDefinition;
use crate::record_calls::{
    outcomes, Caller, READING_A_DEFINITION, READING_WITHOUT_A_ROW, WRITING_A_DEFINITION,
};
use crate::record_reference::{definition_length, whole_definition, MOST_RULES};
use crate::report::Section;
use crate::row_damage::{Outgoing, RowFault};
use crate::seeded_rules::Source;
use crate::Basis;

/// Seeded records of each call.
const RECORDS: u64 = 250_000;
const FEWEST: u64 = 200_000;

/// One in so many has about as many rules as there may be.
const LARGE: i64 = 250;

pub fn sections(basis: &Basis) -> Vec<Section> {
    vec![
        read_definition(basis),
        definition_name(basis),
        write_definition(basis),
    ]
}

fn read_definition(basis: &Basis) -> Section {
    let name = "read_definition";
    let mut source = Source::new(basis, name);
    let mut caller = Caller::new(basis, name);
    Section::run(name, &outcomes(&READING_A_DEFINITION), FEWEST, |section| {
        for _ in 0..RECORDS {
            let damaged = source.any_definition();
            let bytes = damaged.bytes();
            let kept = match whole_definition(source.calendar, bytes) {
                Ok(definition) => definition.rules.len(),
                Err(_) => source.seeded.between_usize(0, 4),
            };
            let room = source.row_room(kept);
            caller.read_definition(section, bytes, room)?;
        }
        Ok(())
    })
}

fn definition_name(basis: &Basis) -> Section {
    let name = "definition_name, by the number of its reading";
    let mut source = Source::new(basis, name);
    let mut caller = Caller::new(basis, name);
    Section::run(name, &outcomes(&READING_WITHOUT_A_ROW), FEWEST, |section| {
        for _ in 0..RECORDS {
            let damaged = source.any_definition();
            caller.definition_name(section, damaged.bytes())?;
        }
        Ok(())
    })
}

fn write_definition(basis: &Basis) -> Section {
    let name = "write_definition";
    let mut source = Source::new(basis, name);
    let mut caller = Caller::new(basis, name);
    Section::run(name, &outcomes(&WRITING_A_DEFINITION), FEWEST, |section| {
        for _ in 0..RECORDS {
            let outgoing = source.any_outgoing();
            let Outgoing { name, row } = &outgoing;
            let room = source.room_for(definition_length(name.len(), row.len()));
            caller.write_definition(section, name, row, room)?;
        }
        Ok(())
    })
}

impl Source<'_> {
    /// A definition that is sound, has up to three faults, or whose bytes
    /// were damaged.
    fn any_definition(&mut self) -> Damaged {
        if self.seeded.one_in(100) {
            let length = self.seeded.between_usize(0, 200);
            let mut bytes = self.seeded.some_bytes(length);
            let start = [2, 1, 6, 0, 2, 0, 0, 0, 1, 0, 2, 1, 62, 0];
            let kept = self.seeded.between_usize(0, start.len()).min(length);
            bytes[..kept].copy_from_slice(&start[..kept]);
            return self.damage(bytes, 8);
        }
        let mut raw = match self.seeded.one_in(LARGE) {
            true => self.large_definition(),
            false => {
                let kept = self.few_rules();
                self.definition(kept)
            }
        };
        for _ in 0..self.seeded.pick(&[0, 0, 0, 1, 1, 1, 2, 3]) {
            let fault = self.seeded.pick(&Fault::ALL);
            let target = fault.target(self, &raw);
            fault.put(self, &mut raw, target);
        }
        self.damage(raw.bytes(), 6)
    }

    /// About as many rules as there may be, all kept, most skipped, or long.
    fn large_definition(&mut self) -> RawDefinition {
        let many = self
            .seeded
            .pick(&[MOST_RULES - 1, MOST_RULES, MOST_RULES, MOST_RULES + 1]);
        let kept = match self.seeded.one_in(3) {
            true => many,
            false => self.seeded.between_usize(1, 3),
        };
        let mut raw = self.definition(kept);
        let mut rules = Vec::with_capacity(many);
        let mut left = raw.rules.drain(..);
        while rules.len() + left.len() < many {
            let places = many - rules.len();
            match self.seeded.between_usize(1, places) <= left.len() {
                true => rules.extend(left.next()),
                false => rules.push(self.skipped_rule()),
            }
        }
        rules.extend(left);
        raw.count = rules.len() as u16;
        raw.rules = rules;
        raw
    }

    /// A row for so many rules: exact, too short or longer.
    fn row_room(&mut self, kept: usize) -> usize {
        match self.seeded.between(0, 399) {
            0 => MOST_RULES,
            1 => MOST_RULES + self.seeded.between_usize(1, 100),
            2..=199 => kept,
            200..=229 => kept.saturating_sub(1),
            230..=249 => 0,
            _ => kept + self.seeded.between_usize(1, 4),
        }
    }

    /// A name and a row, sound or with up to three faults.
    fn any_outgoing(&mut self) -> Outgoing {
        let count = match self.seeded.one_in(LARGE) {
            true => self
                .seeded
                .pick(&[MOST_RULES - 1, MOST_RULES, MOST_RULES + 1]),
            false => self.few_rules(),
        };
        let mut outgoing = Outgoing {
            name: self.definition_name(),
            row: self.row(count),
        };
        for _ in 0..self.seeded.pick(&[0, 0, 0, 1, 1, 1, 2, 3]) {
            let fault = match self.seeded.pick(&RowFault::ALL) {
                // A thousand rules are slow to make.
                RowFault::ManyRules if !self.seeded.one_in(20) => RowFault::NoRules,
                fault => fault,
            };
            let target = fault.target(self, &outgoing);
            fault.put(self, &mut outgoing, target);
        }
        outgoing
    }
}
