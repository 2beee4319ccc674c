//! The faults that a TZDEFINITION can have, and damage to its bytes.

use crate::raw_definition::RawDefinition;
use crate::record_reference::NAME_AT;
use crate::rule_damage::RuleFault;
use crate::seeded_rules::Source;

#[derive(Clone, Copy, PartialEq, Eq, Debug)]
pub enum Fault {
    HeaderMajor,
    HeaderFlags,
    Units,
    NameCut,
    LoneSurrogate,
    HeaderSize,
    CountCut,
    Count,
    HeaderPastBytes,
    RulePastBytes,
    Cut,
    RuleSize,
    X,
    Rule(RuleFault),
    TwoBits,
    NoneActive,
    TwoActive,
    AllSkipped,
    BytesAfter,
}

/// The rule that a fault is put into, and the kept rule before it.
#[derive(Clone, Copy, Debug)]
pub struct Target {
    pub rule: usize,
    pub before: Option<usize>,
}

/// A place in the order of the tests: the header's, a rule's or the last
/// ones; then the rule; then the place among those.
pub type Place = (usize, usize, usize);

impl Fault {
    pub const ALL: [Fault; 25] = [
        Fault::HeaderMajor,
        Fault::HeaderFlags,
        Fault::Units,
        Fault::NameCut,
        Fault::LoneSurrogate,
        Fault::HeaderSize,
        Fault::CountCut,
        Fault::Count,
        Fault::HeaderPastBytes,
        Fault::RulePastBytes,
        Fault::Cut,
        Fault::RuleSize,
        Fault::X,
        Fault::Rule(RuleFault::LateYear),
        Fault::Rule(RuleFault::YearNotAbove),
        Fault::Rule(RuleFault::StandardDate),
        Fault::Rule(RuleFault::DaylightDate),
        Fault::Rule(RuleFault::OneDate),
        Fault::Rule(RuleFault::TwoYears),
        Fault::Rule(RuleFault::Bias),
        Fault::TwoBits,
        Fault::NoneActive,
        Fault::TwoActive,
        Fault::AllSkipped,
        Fault::BytesAfter,
    ];

    /// The number in document 01's table, and document 02's 20.
    pub fn number(self) -> u32 {
        match self {
            Fault::HeaderMajor => 3,
            Fault::HeaderFlags => 4,
            Fault::Units => 5,
            Fault::HeaderSize | Fault::RuleSize | Fault::BytesAfter => 2,
            Fault::Count => 6,
            Fault::NameCut
            | Fault::CountCut
            | Fault::HeaderPastBytes
            | Fault::RulePastBytes
            | Fault::Cut => 1,
            Fault::LoneSurrogate => 20,
            Fault::X => 7,
            Fault::Rule(fault) => fault.number(),
            Fault::TwoBits | Fault::NoneActive | Fault::TwoActive | Fault::AllSkipped => 12,
        }
    }

    /// The place in document 01's order for reading a definition; that of 20
    /// by document 02.
    pub fn place(self, target: Target) -> Place {
        let of_rule = |place| (1, target.rule, place);
        match self {
            Fault::HeaderMajor => (0, 0, 0),
            Fault::HeaderFlags => (0, 0, 1),
            Fault::Units => (0, 0, 2),
            Fault::NameCut => (0, 0, 3),
            Fault::LoneSurrogate => (0, 0, 4),
            Fault::HeaderSize => (0, 0, 5),
            Fault::CountCut => (0, 0, 6),
            Fault::Count => (0, 0, 7),
            Fault::HeaderPastBytes => (0, 0, 8),
            Fault::RulePastBytes | Fault::Cut => of_rule(0),
            Fault::RuleSize => of_rule(1),
            Fault::X => of_rule(2),
            Fault::Rule(fault) => of_rule(3 + fault.place()),
            Fault::TwoBits | Fault::NoneActive | Fault::TwoActive | Fault::AllSkipped => (2, 0, 0),
            Fault::BytesAfter => (2, 0, 1),
        }
    }

    /// A rule that the fault can be put into.
    pub fn target(self, source: &mut Source, raw: &RawDefinition) -> Target {
        let kept = raw.kept();
        let seeded = &mut source.seeded;
        let rule = match self {
            Fault::Cut => raw.rules.len() - 1,
            Fault::RulePastBytes => seeded.between_usize(0, raw.rules.len() - 1),
            _ if kept.is_empty() => 0,
            Fault::Rule(RuleFault::YearNotAbove) if kept.len() > 1 => seeded.pick(&kept[1..]),
            _ => seeded.pick(&kept),
        };
        let before = kept.into_iter().filter(|&place| place < rule).last();
        Target { rule, before }
    }

    /// Puts the fault into a definition. It brings no other that comes before
    /// it in the order, but may take away or bring one that comes after.
    pub fn put(self, source: &mut Source, raw: &mut RawDefinition, target: Target) {
        match self {
            Fault::HeaderMajor => raw.major = source.other_than(2),
            Fault::HeaderFlags => {
                let wrong = [0, 1, 3, 6, 0x0102, 0x0200, 0x8002, 0xfffd, 0xffff];
                raw.flags = source.seeded.pick(&wrong);
            }
            Fault::Units => source.lengthen_name(raw),
            Fault::NameCut => {
                if raw.name.is_empty() {
                    raw.rename(vec![0x41, 0]);
                }
                let last = raw.name.len() - 1;
                let kept = match source.seeded.one_in(3) {
                    true => last,
                    false => source.seeded.between_usize(0, last),
                };
                raw.cut_to(NAME_AT + kept);
            }
            Fault::LoneSurrogate => raw.rename(source.name_with_lone_surrogate()),
            Fault::HeaderSize => source.spoil_header_size(raw),
            Fault::CountCut => {
                let kept = source.seeded.between_usize(0, 1);
                raw.cut_to(NAME_AT + raw.name.len() + kept);
            }
            Fault::Count => {
                // The last two would be low surrogates, were they of the name.
                let wrong = [0, 0, 1_025, 1_026, 2_048, 32_768, 65_535, 0xdc00, 0xdfff];
                raw.count = source.seeded.pick(&wrong);
            }
            Fault::HeaderPastBytes => {
                raw.minor = source.other_than(1);
                let past = (raw.bytes().len() as u16).wrapping_sub(3);
                raw.size = source.seeded.pick(&[past, past.wrapping_add(1), 65_535]);
            }
            Fault::RulePastBytes => {
                let past = (raw.bytes_behind_head(target.rule) as u16).wrapping_add(1);
                raw.rules[target.rule].size = source.seeded.pick(&[past, past.max(317), 65_535]);
            }
            Fault::Cut => {
                let last = &raw.rules[target.rule];
                let spare = last.length().saturating_sub(4 + usize::from(last.size));
                let gone = match source.seeded.one_in(3) {
                    true => spare + 1,
                    false => source.seeded.between_usize(spare + 1, last.length()),
                };
                raw.cut = raw.after.len() + gone;
            }
            Fault::RuleSize => source.spoil_rule_size(raw, target.rule),
            Fault::X => {
                keep(raw, target.rule);
                let byte = source.seeded.between_usize(0, 13);
                raw.rules[target.rule].x[byte] = match source.seeded.one_in(2) {
                    true => 1 << source.seeded.between(0, 7),
                    false => source.seeded.pick(&[1, 127, 128, 255]),
                };
            }
            Fault::Rule(fault) => {
                let before = target.before.map(|place| {
                    if fault == RuleFault::YearNotAbove {
                        keep(raw, place);
                    }
                    raw.rules[place].rule.year
                });
                keep(raw, target.rule);
                fault.put(source, &mut raw.rules[target.rule].rule, before);
            }
            Fault::TwoBits => {
                let flags = &mut raw.rules[target.rule].flags;
                *flags = *flags / 4 * 4 + source.seeded.pick(&[1, 2]);
            }
            Fault::NoneActive => {
                for rule in &mut raw.rules {
                    rule.flags = rule.flags / 4 * 4;
                }
            }
            Fault::TwoActive => {
                raw.rules[target.rule].flags |= 3;
                let kept = raw.kept();
                let another = kept.iter().copied().find(|&place| place != target.rule);
                if let Some(another) = another {
                    raw.rules[another].flags |= 3;
                }
            }
            Fault::AllSkipped => {
                for rule in &mut raw.rules {
                    if rule.major == 2 {
                        rule.major = source.other_than(2);
                    }
                }
            }
            Fault::BytesAfter => {
                raw.make_header_plain();
                let more = source.seeded.pick(&[1, 2, 3, 4, 65, 66, 67]);
                raw.after = source.seeded.some_bytes(more);
            }
        }
    }
}

/// Makes a rule one that is not skipped, whatever it was before.
fn keep(raw: &mut RawDefinition, place: usize) {
    raw.rules[place].major = 2;
}

impl Source<'_> {
    /// More units than there may be, whether they are there or not.
    fn lengthen_name(&mut self, raw: &mut RawDefinition) {
        raw.units = self.seeded.pick(&[261, 261, 262, 512, 32_768, 65_535]);
        if self.seeded.one_in(2) && raw.units <= 512 {
            raw.name = self.seeded.some_bytes(2 * usize::from(raw.units));
            raw.size = raw.plain_size() + raw.header_rest.len() as u16;
        }
    }

    /// A size that the header's minor does not allow.
    fn spoil_header_size(&mut self, raw: &mut RawDefinition) {
        let right = raw.plain_size();
        let below = [right - 1, right - 2, right - 4, right / 2, 5, 0];
        if raw.minor != 1 || self.seeded.one_in(2) {
            raw.size = self.seeded.pick(&below);
            return;
        }
        let more = self.seeded.pick(&[1, 2, 4, 66, 256, 65_535 - right]);
        raw.size = right + more;
        if more <= 256 {
            // With the bytes it speaks of, another minor would be good.
            raw.header_rest = self.seeded.some_bytes(usize::from(more));
        }
    }

    /// A size that the rule's minor does not allow, with the bytes at hand.
    fn spoil_rule_size(&mut self, raw: &mut RawDefinition, place: usize) {
        keep(raw, place);
        let rule = &mut raw.rules[place];
        if rule.minor != 1 || self.seeded.one_in(2) {
            rule.size = self.seeded.pick(&[61, 61, 60, 58, 31, 4, 1, 0]);
            return;
        }
        let more = self.seeded.pick(&[1, 1, 2, 4, 66, 256]);
        rule.size = 62 + more;
        rule.rest = self.seeded.some_bytes(usize::from(more));
    }
}

/// Bytes whose end may be cut off. What was there still lies behind them, so
/// that whoever reads on finds it.
pub struct Damaged {
    memory: Vec<u8>,
    length: usize,
}

impl Damaged {
    pub fn bytes(&self) -> &[u8] {
        &self.memory[..self.length]
    }
}

impl Source<'_> {
    /// Bytes as they are, or with some of them cut off, changed, put in or
    /// taken out.
    pub fn damage(&mut self, memory: Vec<u8>, chances: i64) -> Damaged {
        let mut damaged = Damaged {
            length: memory.len(),
            memory,
        };
        if !self.seeded.one_in(chances) {
            return damaged;
        }
        let memory = &mut damaged.memory;
        match self.seeded.between(0, 5) {
            0 => {
                damaged.length = self.seeded.between_usize(0, memory.len());
                return damaged;
            }
            1 | 2 => {
                for _ in 0..self.seeded.between(1, 3) {
                    let place = self.seeded.between_usize(0, memory.len());
                    if let Some(byte) = memory.get_mut(place) {
                        *byte ^= 1 << self.seeded.between(0, 7);
                    }
                }
            }
            3 => {
                let place = self.seeded.between_usize(0, memory.len());
                let more = self.seeded.between_usize(1, 4);
                memory.splice(place..place, self.seeded.some_bytes(more));
            }
            4 => {
                let place = self.seeded.between_usize(0, memory.len());
                let end = memory.len().min(place + self.seeded.between_usize(1, 4));
                memory.drain(place..end);
            }
            _ => {
                let place = self.seeded.between_usize(0, memory.len());
                let number = self.seeded.edge_u16();
                for (byte, new) in memory.iter_mut().skip(place).zip(number.to_le_bytes()) {
                    *byte = new;
                }
            }
        }
        damaged.length = damaged.memory.len();
        damaged
    }
}
