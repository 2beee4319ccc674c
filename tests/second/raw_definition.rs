//! A TZDEFINITION in its parts, each of which may hold anything. It is put
//! into bytes as it stands, whether it is sound or not.

use crate::library::Rule;
use crate::record_reference::RULE_SIZE;
use crate::seeded_rules::Source;

#[derive(Clone, Debug)]
pub struct RawDefinition {
    pub major: u8,
    pub minor: u8,
    pub size: u16,
    pub flags: u16,
    pub units: u16,
    pub name: Vec<u8>,
    pub count: u16,
    /// What a longer header has behind the count.
    pub header_rest: Vec<u8>,
    pub rules: Vec<RawRule>,
    pub after: Vec<u8>,
    /// How many bytes are missing at the end.
    pub cut: usize,
}

#[derive(Clone, Debug)]
pub struct RawRule {
    pub major: u8,
    pub minor: u8,
    pub size: u16,
    pub flags: u16,
    pub x: [u8; 14],
    /// Year, biases and dates; the flags are the mark.
    pub rule: Rule,
    /// What a longer rule has behind the dates.
    pub rest: Vec<u8>,
    /// What stands behind the size in place of all that.
    pub instead: Option<Vec<u8>>,
}

impl RawDefinition {
    /// A normal definition of these rules, if their dates are normal.
    pub fn normal(name: &[u8], row: &[Rule]) -> RawDefinition {
        let mark = |rule: &Rule| if rule.active == 1 { 3 } else { 0 };
        RawDefinition {
            major: 2,
            minor: 1,
            size: 6 + name.len() as u16,
            flags: 2,
            units: (name.len() / 2) as u16,
            name: name.to_vec(),
            count: row.len() as u16,
            header_rest: Vec::new(),
            rules: row
                .iter()
                .map(|rule| RawRule::plain(*rule, mark(rule)))
                .collect(),
            after: Vec::new(),
            cut: 0,
        }
    }

    pub fn bytes(&self) -> Vec<u8> {
        let mut bytes = vec![self.major, self.minor];
        for number in [self.size, self.flags, self.units] {
            bytes.extend(number.to_le_bytes());
        }
        bytes.extend(&self.name);
        bytes.extend(self.count.to_le_bytes());
        bytes.extend(&self.header_rest);
        for rule in &self.rules {
            rule.put(&mut bytes);
        }
        bytes.extend(&self.after);
        bytes.truncate(bytes.len().saturating_sub(self.cut));
        bytes
    }

    /// Gives it another name, and the header the sizes that belong to it.
    pub fn rename(&mut self, name: Vec<u8>) {
        let grown = (name.len() as u16).wrapping_sub(self.name.len() as u16);
        self.size = self.size.wrapping_add(grown);
        self.units = (name.len() / 2) as u16;
        self.name = name;
    }

    /// Cuts the bytes to so many.
    pub fn cut_to(&mut self, length: usize) {
        self.cut = 0;
        self.cut = self.bytes().len() - length;
    }

    /// How many bytes there are behind the head of a rule.
    pub fn bytes_behind_head(&self, place: usize) -> usize {
        let from_rule = self.rules[place..]
            .iter()
            .map(RawRule::length)
            .sum::<usize>();
        (from_rule + self.after.len()).saturating_sub(4 + self.cut)
    }

    /// The size that a header without a rest has to state.
    pub fn plain_size(&self) -> u16 {
        6 + self.name.len() as u16
    }

    /// Minor 1, so no rest.
    pub fn make_header_plain(&mut self) {
        self.minor = 1;
        self.header_rest.clear();
        self.size = self.plain_size();
    }

    /// Where the rules are that are not skipped.
    pub fn kept(&self) -> Vec<usize> {
        let places = 0..self.rules.len();
        places
            .filter(|&place| self.rules[place].major == 2)
            .collect()
    }
}

impl RawRule {
    /// A rule with nothing behind it.
    fn plain(rule: Rule, flags: u16) -> RawRule {
        RawRule {
            major: 2,
            minor: 1,
            size: RULE_SIZE,
            flags,
            x: [0; 14],
            rule,
            rest: Vec::new(),
            instead: None,
        }
    }

    pub fn length(&self) -> usize {
        match &self.instead {
            Some(bytes) => 4 + bytes.len(),
            None => 66 + self.rest.len(),
        }
    }

    fn put(&self, bytes: &mut Vec<u8>) {
        bytes.extend([self.major, self.minor]);
        bytes.extend(self.size.to_le_bytes());
        if let Some(instead) = &self.instead {
            bytes.extend(instead);
            return;
        }
        let rule = &self.rule;
        bytes.extend(self.flags.to_le_bytes());
        bytes.extend(rule.year.to_le_bytes());
        bytes.extend(self.x);
        for bias in [rule.bias, rule.standard_bias, rule.daylight_bias] {
            bytes.extend(bias.to_le_bytes());
        }
        for date in [rule.standard_date, rule.daylight_date] {
            for number in date.as_row() {
                bytes.extend(number.to_le_bytes());
            }
        }
        bytes.extend(&self.rest);
    }
}

impl Source<'_> {
    /// A sound definition with so many kept rules.
    pub fn definition(&mut self, kept: usize) -> RawDefinition {
        let name = self.definition_name();
        let row = self.row(kept);
        self.definition_of(&name, &row)
    }

    /// A definition of these rules. It may be of any minors, longer than it
    /// need be, and have rules to skip.
    pub fn definition_of(&mut self, name: &[u8], row: &[Rule]) -> RawDefinition {
        let mut raw = RawDefinition::normal(name, row);
        for rule in &mut raw.rules {
            self.loosen_rule(rule);
        }
        if row.len() < 1_000 && self.seeded.one_in(3) {
            for _ in 0..self.seeded.between(1, 3) {
                let place = self.seeded.between_usize(0, raw.rules.len());
                let skipped = self.skipped_rule();
                raw.rules.insert(place, skipped);
            }
            raw.count = raw.rules.len() as u16;
        }
        if self.seeded.one_in(3) {
            self.loosen_header(&mut raw);
        }
        raw
    }

    /// A few rules, as most definitions have.
    pub fn few_rules(&mut self) -> usize {
        match self.seeded.between(0, 9) {
            0..=5 => self.seeded.between_usize(1, 3),
            6..=8 => self.seeded.between_usize(4, 6),
            _ => self.seeded.between_usize(7, 12),
        }
    }

    /// A version that is not the known one, 0 included.
    pub fn other_than(&mut self, known: u8) -> u8 {
        match self.seeded.between(0, 3) {
            0 => 0,
            1 => known + 1,
            2 => 255,
            _ => match self.seeded.any_u8() {
                any if any == known => known + 2,
                any => any,
            },
        }
    }

    /// Other unused flag bits, at times another minor and a longer rule.
    fn loosen_rule(&mut self, raw: &mut RawRule) {
        if self.seeded.one_in(3) {
            raw.flags += 4 * self.seeded.pick(&[0x3fff, 1, 0x2000, 0x0fff]);
        }
        if self.seeded.one_in(4) {
            raw.minor = self.other_than(1);
            let more = match self.seeded.between(0, 19) {
                0..=5 => 0,
                6..=17 => self.seeded.between_usize(1, 9),
                18 => 66,
                _ => self.seeded.between_usize(190, 300),
            };
            raw.rest = self.seeded.some_bytes(more);
            raw.size = RULE_SIZE + more as u16;
        }
    }

    /// A rule of another major. It may look like a good one otherwise.
    pub fn skipped_rule(&mut self) -> RawRule {
        let year = self.rule_year();
        let mut raw = RawRule::plain(self.rule(year), self.seeded.edge_u16());
        raw.major = self.other_than(2);
        if self.seeded.one_in(2) {
            raw.minor = self.seeded.any_u8();
        }
        if self.seeded.one_in(3) {
            raw.flags = 3;
        } else if !self.seeded.one_in(3) {
            let length = match self.seeded.between(0, 9) {
                0 | 1 => 0,
                2 => 62,
                3..=8 => self.seeded.between_usize(1, 99),
                _ => self.seeded.between_usize(250, 700),
            };
            raw.size = length as u16;
            raw.instead = Some(self.seeded.some_bytes(length));
        }
        raw
    }

    /// Another header minor, and what it allows.
    fn loosen_header(&mut self, raw: &mut RawDefinition) {
        raw.minor = self.other_than(1);
        if !self.seeded.one_in(3) {
            let more = self.seeded.pick(&[1, 2, 3, 4, 5, 8, 66]);
            raw.header_rest = self.seeded.some_bytes(more);
            raw.size += more as u16;
        }
        if !self.seeded.one_in(3) {
            let more = self.seeded.pick(&[1, 2, 3, 4, 65, 66, 67]);
            raw.after = self.seeded.some_bytes(more);
        }
    }
}
