//! What is handed to writing a definition, and the faults that it can have.

use crate::definition_damage::{Place, Target};
use crate::library::Rule;
use crate::rule_damage::RuleFault;
use crate::seeded_rules::Source;

#[derive(Clone, Debug)]
pub struct Outgoing {
    pub name: Vec<u8>,
    pub row: Vec<Rule>,
}

#[derive(Clone, Copy, PartialEq, Eq, Debug)]
pub enum RowFault {
    OddName,
    LongName,
    LoneSurrogate,
    NoRules,
    ManyRules,
    Rule(RuleFault),
    NoneActive,
    TwoActive,
}

impl RowFault {
    pub const ALL: [RowFault; 14] = [
        RowFault::OddName,
        RowFault::LongName,
        RowFault::LoneSurrogate,
        RowFault::NoRules,
        RowFault::ManyRules,
        RowFault::Rule(RuleFault::LateYear),
        RowFault::Rule(RuleFault::YearNotAbove),
        RowFault::Rule(RuleFault::StandardDate),
        RowFault::Rule(RuleFault::DaylightDate),
        RowFault::Rule(RuleFault::OneDate),
        RowFault::Rule(RuleFault::TwoYears),
        RowFault::Rule(RuleFault::Bias),
        RowFault::NoneActive,
        RowFault::TwoActive,
    ];

    /// The number in document 01's table, and document 02's 20.
    pub fn number(self) -> u32 {
        match self {
            RowFault::OddName => 2,
            RowFault::LongName => 5,
            RowFault::LoneSurrogate => 20,
            RowFault::NoRules | RowFault::ManyRules => 6,
            RowFault::Rule(fault) => fault.number(),
            RowFault::NoneActive | RowFault::TwoActive => 12,
        }
    }

    /// The place in document 01's order for writing a definition; that of 20
    /// by document 02.
    pub fn place(self, target: Target) -> Place {
        match self {
            RowFault::OddName => (0, 0, 0),
            RowFault::LongName => (0, 0, 1),
            RowFault::LoneSurrogate => (0, 0, 2),
            RowFault::NoRules | RowFault::ManyRules => (0, 0, 3),
            RowFault::Rule(fault) => (1, target.rule, fault.place()),
            RowFault::NoneActive | RowFault::TwoActive => (2, 0, 0),
        }
    }

    /// A rule that the fault can be put into. The row may be empty.
    pub fn target(self, source: &mut Source, outgoing: &Outgoing) -> Target {
        let count = outgoing.row.len();
        let first = match self {
            RowFault::Rule(RuleFault::YearNotAbove) if count > 1 => 1,
            _ => 0,
        };
        let rule = source.seeded.between_usize(first, count.max(1) - 1);
        Target {
            rule,
            before: rule.checked_sub(1),
        }
    }

    /// Puts the fault in. It brings no other that comes before it in the
    /// order, but may take away or bring one that comes after.
    pub fn put(self, source: &mut Source, outgoing: &mut Outgoing, target: Target) {
        let Outgoing { name, row } = outgoing;
        match self {
            RowFault::OddName => {
                if name.len() % 2 == 0 && source.seeded.one_in(2) {
                    name.pop();
                }
                if name.len() % 2 == 0 {
                    name.push(source.seeded.any_u8());
                }
            }
            RowFault::LongName => {
                let length = match source.seeded.between(0, 49) {
                    // As 16 bits count them, these are few units.
                    0 => source.seeded.pick(&[131_072, 131_074, 131_592]),
                    1..=9 => 2 * source.seeded.between_usize(262, 700),
                    _ => source.seeded.pick(&[522, 524]),
                };
                *name = source.seeded.some_bytes(length);
            }
            RowFault::LoneSurrogate => *name = source.name_with_lone_surrogate(),
            RowFault::NoRules => row.clear(),
            RowFault::ManyRules => {
                if let Some(&last) = row.last() {
                    let count = source.seeded.pick(&[1_025, 1_025, 1_026, 1_100]);
                    row.resize(count, last);
                }
            }
            RowFault::Rule(fault) => {
                let before = target.before.map(|place| row[place].year);
                if let Some(rule) = row.get_mut(target.rule) {
                    fault.put(source, rule, before);
                }
            }
            RowFault::NoneActive => row.iter_mut().for_each(|rule| rule.active = 0),
            RowFault::TwoActive => {
                let count = row.len();
                for (place, rule) in row.iter_mut().enumerate() {
                    if place == target.rule || place == (target.rule + 1) % count {
                        rule.active = 1;
                    }
                }
            }
        }
    }
}
