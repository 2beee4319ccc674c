//! Seeded rules and records, sound and damaged.

use crate::inputs;
use crate::library::{self, Rule, SystemTime};

/// Which dates the rules have.
#[derive(Clone, Copy)]
pub enum Dates {
    /// As nearly every zone has them: one in 32 is at 23:59:59.999.
    Yearly,
    /// Yearly, in one year or not set, at a whole minute or at any
    /// millisecond, in no order.
    Mixed,
}

pub const DATES: [Dates; 2] = [Dates::Yearly, Dates::Mixed];

impl Dates {
    pub fn name(self) -> &'static str {
        match self {
            Dates::Yearly => "yearly dates",
            Dates::Mixed => "mixed dates",
        }
    }
}

const RECORDS: usize = 4096;
const DEFINITIONS: usize = 4;
pub const RULES: usize = 1024;

pub const REGISTRY: usize = 44;
pub const NAME: &[u8] = b"C\0e\0n\0t\0r\0a\0l\0 \0E\0u\0r\0o\0p\0e\0";
pub const DEFINITION: usize = 10 + NAME.len() + 66 * RULES;
pub const LONG_NAME: usize = 520;

pub struct Source {
    state: u64,
}

impl Source {
    pub fn new() -> Source {
        Source { state: 16_010_101 }
    }

    /// From 0 to before `end`.
    pub fn below(&mut self, end: u64) -> u64 {
        inputs::next(&mut self.state) % end
    }

    pub fn rules(&mut self, dates: Dates) -> Vec<Rule> {
        (0..RECORDS).map(|_| self.rule(dates)).collect()
    }

    /// Rows of as many rules as there may be, one of them active.
    pub fn rows(&mut self, dates: Dates) -> Vec<Vec<Rule>> {
        (0..DEFINITIONS).map(|_| self.row(dates)).collect()
    }

    fn row(&mut self, dates: Dates) -> Vec<Rule> {
        self.row_of(RULES, dates)
    }

    pub fn row_of(&mut self, count: usize, dates: Dates) -> Vec<Rule> {
        let mut row: Vec<Rule> = (0..count).map(|_| self.rule(dates)).collect();
        for (rule, year) in row.iter_mut().zip(1601..) {
            rule.year = year;
        }
        row[self.below(count as u64) as usize].active = 1;
        row
    }

    /// A name as long as it may be; one character in eight has two units.
    pub fn long_name(&mut self) -> Vec<u8> {
        let mut name = Vec::new();
        while name.len() < LONG_NAME {
            let outside = name.len() + 4 <= LONG_NAME && self.below(8) == 0;
            let character = match outside {
                true => 0x1_f300 + self.below(0x300) as u32,
                false => 0x20 + self.below(0x60) as u32,
            };
            let character = char::from_u32(character).unwrap();
            for unit in character.encode_utf16(&mut [0; 2]) {
                name.extend(unit.to_le_bytes());
            }
        }
        name
    }

    /// The same name with a surrogate in place of one unit.
    pub fn damaged_name(&mut self, name: &[u8]) -> Vec<u8> {
        let mut name = name.to_vec();
        let at = 2 * self.below(name.len() as u64 / 2) as usize;
        let surrogate = 0xd800 + self.below(0x800) as u16;
        name[at..at + 2].copy_from_slice(&surrogate.to_le_bytes());
        name
    }

    fn rule(&mut self, dates: Dates) -> Rule {
        let year = match dates {
            Dates::Yearly => Some(0),
            Dates::Mixed => match self.below(3) {
                0 => None,
                1 => Some(0),
                _ => Some(1601 + self.below(29_227) as u16),
            },
        };
        Rule {
            bias: self.below(1440) as i32 - 720,
            daylight_bias: -60,
            standard_date: self.date(dates, year),
            daylight_date: self.date(dates, year),
            ..Default::default()
        }
    }

    /// A date that is good in every year, or one that is not set.
    fn date(&mut self, dates: Dates, year: Option<u16>) -> SystemTime {
        let Some(year) = year else {
            return SystemTime::default();
        };
        SystemTime {
            year,
            month: 1 + self.below(12) as u16,
            weekday: if year == 0 { self.below(7) as u16 } else { 0 },
            day: 1 + self.below(if year == 0 { 5 } else { 28 }) as u16,
            ..self.time_of_day(dates)
        }
    }

    fn time_of_day(&mut self, dates: Dates) -> SystemTime {
        let [hour, minute] = [24, 60].map(|end| self.below(end) as u16);
        let [second, millisecond] = [60, 1000].map(|end| self.below(end) as u16);
        let [hour, minute, second, millisecond] = match dates {
            Dates::Yearly if self.below(32) == 0 => [23, 59, 59, 999],
            Dates::Mixed if self.below(2) == 0 => [hour, minute, second, millisecond],
            _ => [hour, minute, 0, 0],
        };
        SystemTime {
            hour,
            minute,
            second,
            millisecond,
            ..Default::default()
        }
    }

    /// Another byte somewhere, or the end cut off: every second time near the
    /// start, where a definition has its header.
    pub fn damaged(&mut self, bytes: &[u8]) -> Vec<u8> {
        let mut bytes = bytes.to_vec();
        let end = match self.below(2) {
            0 => bytes.len(),
            _ => bytes.len().min(100),
        };
        let at = self.below(end as u64) as usize;
        match self.below(8) {
            0 => bytes.truncate(at),
            1 => bytes[at] = self.below(256) as u8,
            _ => bytes[at] ^= 1 << self.below(8),
        }
        bytes
    }

    /// The same rule with another number somewhere.
    pub fn damaged_rule(&mut self, mut rule: Rule) -> Rule {
        let number = self.below(70) as u16;
        match self.below(6) {
            0 => rule.year = number.wrapping_mul(1000),
            1 => rule.active ^= 1,
            2 => rule.bias = i32::MAX - number as i32,
            3 => rule.daylight_bias = 40 * number as i32,
            4 => self.damage_date(&mut rule.standard_date, number),
            _ => self.damage_date(&mut rule.daylight_date, number),
        }
        rule
    }

    fn damage_date(&mut self, date: &mut SystemTime, number: u16) {
        let mut row = date.as_row();
        let place = self.below(8) as usize;
        // On both sides of 1000, too.
        row[place] = if place == 7 { 970 + number } else { number };
        *date = SystemTime::from_row(row);
    }

    /// The same row with one rule damaged.
    pub fn damaged_row(&mut self, row: &[Rule]) -> Vec<Rule> {
        let mut row = row.to_vec();
        let place = self.below(row.len() as u64) as usize;
        row[place] = self.damaged_rule(row[place]);
        row
    }
}

/// Records as the library writes them.
pub fn registry_record(rule: &Rule) -> [u8; REGISTRY] {
    let mut record = [0; REGISTRY];
    assert_eq!(library::write_registry(*rule, &mut record).refusal, 0);
    record
}

pub fn definition(row: &[Rule]) -> Vec<u8> {
    let mut bytes = vec![0; DEFINITION];
    assert_eq!(library::write_definition(NAME, row, &mut bytes).refusal, 0);
    bytes
}
