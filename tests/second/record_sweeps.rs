//! Sweeps: every number in one field of a record, every byte in one place,
//! and every length that bytes can be cut to.

use crate::definition_damage::Fault;
use crate::library::{Name, Rule, SystemTime};
use crate::one_rule_calls::{registry_record, remote_desktop_record};
use crate::raw_definition::RawDefinition;
use crate::record_calls::{
    outcomes, Caller, READING_A_DEFINITION, READING_ONE_RULE, READING_WITHOUT_A_ROW,
    WRITING_A_DEFINITION,
};
use crate::record_reference::{definition_length, REGISTRY_LENGTH, REMOTE_DESKTOP_LENGTH};
use crate::report::Section;
use crate::seeded::{FIELD_EDGES, WIDE_EDGES};
use crate::seeded_names::{in_bytes, UNIT_EDGES};
use crate::seeded_rules::Source;
use crate::Basis;

/// Definitions that are cut to every length.
const CUT: u64 = 2_000;

pub fn sections(basis: &Basis) -> Vec<Section> {
    vec![
        dates_read(basis),
        dates_written(basis),
        biases(basis),
        fields_of_definition(basis),
        bytes_of_definition(basis),
        cut_definition(basis),
        units_of_name(basis),
        names_and_counts_written(basis),
    ]
}

/// Rules of every kind: with yearly dates, with dates of one year, without.
fn kinds_of_rule() -> [Rule; 3] {
    let yearly = Rule {
        bias: -60,
        daylight_bias: -60,
        standard_date: SystemTime::from_row([0, 10, 0, 5, 3, 0, 0, 0]),
        daylight_date: SystemTime::from_row([0, 3, 0, 5, 2, 0, 0, 0]),
        ..Default::default()
    };
    let dated = Rule {
        standard_date: SystemTime::from_row([2003, 2, 3, 28, 23, 59, 0, 0]),
        daylight_date: SystemTime::from_row([2003, 12, 1, 31, 0, 0, 0, 0]),
        ..yearly
    };
    let unset = Rule {
        standard_date: SystemTime::default(),
        daylight_date: SystemTime::default(),
        ..yearly
    };
    [yearly, dated, unset]
}

/// A rule with another number in one of the sixteen fields of its dates.
fn with_field(mut rule: Rule, field: usize, number: u16) -> Rule {
    let date = match field < 8 {
        true => &mut rule.standard_date,
        false => &mut rule.daylight_date,
    };
    let mut row = date.as_row();
    row[field % 8] = number;
    *date = SystemTime::from_row(row);
    rule
}

fn dates_read(basis: &Basis) -> Section {
    let name = "every number in a date: reading";
    let mut caller = Caller::new(basis, name);
    let outcomes: Vec<_> = outcomes(&READING_ONE_RULE[2..]);
    Section::run(name, &outcomes, 1_000_000, |section| {
        for rule in kinds_of_rule() {
            for field in 0..16 {
                for number in 0..=u16::MAX {
                    let changed = with_field(rule, field, number);
                    caller.read_registry(section, &registry_record(&changed))?;
                    if FIELD_EDGES.contains(&(number as i16)) {
                        let names = [Name::ZEROS; 2];
                        let record = remote_desktop_record(&changed, &names);
                        caller.read_remote_desktop(section, &record)?;
                    }
                }
            }
        }
        Ok(())
    })
}

fn dates_written(basis: &Basis) -> Section {
    let name = "every number in a date: writing";
    let mut caller = Caller::new(basis, name);
    let outcomes = outcomes(&[10, 11]);
    Section::run(name, &outcomes, 100_000, |section| {
        for rule in kinds_of_rule() {
            for field in 0..16 {
                for number in 0..=u16::MAX {
                    let edge = FIELD_EDGES.contains(&(number as i16));
                    if number % 16 != 0 && !edge {
                        continue;
                    }
                    let changed = with_field(rule, field, number);
                    caller.write_registry(section, changed, REGISTRY_LENGTH)?;
                    if edge {
                        let names = [Name::ZEROS; 2];
                        let room = REMOTE_DESKTOP_LENGTH;
                        caller.write_remote_desktop(section, changed, names, room)?;
                        let row = [Rule {
                            active: 1,
                            ..changed
                        }];
                        caller.write_definition(section, &[], &row, definition_length(0, 1))?;
                    }
                }
            }
        }
        Ok(())
    })
}

/// Each bias around the ends of its range and at the edges of 32 bits, the
/// other two being edges as well; and every year of a rule.
fn biases(basis: &Basis) -> Section {
    let name = "every bias around the ends, every year";
    let mut caller = Caller::new(basis, name);
    let outcomes = outcomes(&[8, 9]);
    Section::run(name, &outcomes, 100_000, |section| {
        let mut ask = |section: &mut Section, rule: Rule| {
            caller.read_registry(section, &registry_record(&rule))?;
            caller.write_registry(section, rule, REGISTRY_LENGTH)?;
            let names = [Name::ZEROS; 2];
            caller.read_remote_desktop(section, &remote_desktop_record(&rule, &names))
        };
        for rule in kinds_of_rule() {
            for minutes in -3_000..=3_000 {
                let [mut one, mut two, mut three] = [rule; 3];
                one.bias = minutes;
                two.standard_bias = minutes;
                three.daylight_bias = minutes;
                for changed in [one, two, three] {
                    ask(section, changed)?;
                }
            }
            for bias in WIDE_EDGES {
                for standard_bias in WIDE_EDGES {
                    for daylight_bias in WIDE_EDGES {
                        let changed = Rule {
                            bias,
                            standard_bias,
                            daylight_bias,
                            ..rule
                        };
                        ask(section, changed)?;
                    }
                }
            }
        }
        for year in 0..=u16::MAX {
            for active in [0, 1] {
                let rule = Rule {
                    year,
                    active,
                    ..kinds_of_rule()[0]
                };
                caller.write_registry(section, rule, REGISTRY_LENGTH)?;
            }
        }
        Ok(())
    })
}

/// A plain definition of two rules, and one of other minors with all that
/// they allow and a rule to skip.
fn kinds_of_definition(source: &mut Source) -> [RawDefinition; 2] {
    let [first, second, third] = kinds_of_rule();
    let rules = [
        Rule {
            year: 1_999,
            active: 1,
            ..first
        },
        Rule {
            year: 2_003,
            ..second
        },
        Rule {
            year: 2_010,
            ..third
        },
    ];
    let plain = RawDefinition::normal(b"P\0", &rules[..2]);
    let mut loose = RawDefinition::normal(b"P\0Q\0", &rules);
    loose.minor = 2;
    loose.header_rest = source.seeded.some_bytes(6);
    loose.size += 6;
    loose.rules[0].minor = 0;
    loose.rules[0].rest = source.seeded.some_bytes(5);
    loose.rules[0].size += 5;
    loose.rules[1].major = 3;
    loose.after = source.seeded.some_bytes(300);
    [plain, loose]
}

type Set = fn(&mut RawDefinition, u16);

/// The fields of 16 bits, each set to a number.
const FIELDS: [Set; 10] = [
    |raw, number| raw.size = number,
    |raw, number| raw.flags = number,
    |raw, number| raw.units = number,
    |raw, number| raw.count = number,
    |raw, number| raw.rules[0].size = number,
    |raw, number| raw.rules[0].flags = number,
    |raw, number| raw.rules[0].rule.year = number,
    |raw, number| raw.rules[1].size = number,
    |raw, number| raw.rules[1].flags = number,
    |raw, number| raw.rules[1].rule.year = number,
];

fn fields_of_definition(basis: &Basis) -> Section {
    let name = "every number in a field: read_definition";
    let mut source = Source::new(basis, name);
    let mut caller = Caller::new(basis, name);
    let outcomes = outcomes(&[1, 2, 4, 5, 6, 8, 12, 20]);
    Section::run(name, &outcomes, 1_000_000, |section| {
        for raw in kinds_of_definition(&mut source) {
            for set in FIELDS {
                for number in 0..=u16::MAX {
                    let mut changed = raw.clone();
                    set(&mut changed, number);
                    caller.read_definition(section, &changed.bytes(), 4)?;
                }
            }
        }
        Ok(())
    })
}

fn bytes_of_definition(basis: &Basis) -> Section {
    let name = "every byte in a place: read_definition";
    let mut source = Source::new(basis, name);
    let mut caller = Caller::new(basis, name);
    let outcomes = outcomes(&READING_WITHOUT_A_ROW);
    Section::run(name, &outcomes, 100_000, |section| {
        for raw in kinds_of_definition(&mut source) {
            let mut bytes = raw.bytes();
            for place in 0..bytes.len().min(230) {
                let before = bytes[place];
                for byte in 0..=255 {
                    bytes[place] = byte;
                    caller.read_definition(section, &bytes, 3)?;
                    caller.definition_name(section, &bytes)?;
                }
                bytes[place] = before;
            }
        }
        Ok(())
    })
}

/// Definitions, sound or not, cut to every length. What was cut off still
/// lies behind the bytes.
fn cut_definition(basis: &Basis) -> Section {
    let name = "cut to every length: read_definition";
    let mut source = Source::new(basis, name);
    let mut caller = Caller::new(basis, name);
    Section::run(name, &outcomes(&READING_A_DEFINITION), 300_000, |section| {
        for _ in 0..CUT {
            let kept = source.seeded.between_usize(1, 2);
            let mut raw = source.definition(kept);
            for _ in 0..source.seeded.pick(&[0, 1, 1, 2]) {
                let fault = source.seeded.pick(&Fault::ALL);
                let target = fault.target(&mut source, &raw);
                fault.put(&mut source, &mut raw, target);
            }
            let bytes = raw.bytes();
            let last = match source.seeded.one_in(4) {
                true => bytes.len(),
                false => bytes.len().min(300),
            };
            for length in 0..=last {
                caller.read_definition(section, &bytes[..length], 1)?;
            }
            caller.definition_name(section, &bytes[..last])?;
        }
        Ok(())
    })
}

/// Every unit as a name of its own and beside others, every name of up to four
/// units from the ends of the surrogates, and every rule count behind a name
/// that ends with half a character.
fn units_of_name(basis: &Basis) -> Section {
    let name = "every unit of a name: reading and writing";
    let mut caller = Caller::new(basis, name);
    let rule = Rule {
        active: 1,
        ..kinds_of_rule()[0]
    };
    Section::run(name, &outcomes(&[1, 6, 20]), 1_000_000, |section| {
        let mut ask = |units: &[u16]| {
            let name = in_bytes(units);
            let bytes = RawDefinition::normal(&name, &[rule]).bytes();
            caller.read_definition(section, &bytes, 1)?;
            caller.definition_name(section, &bytes)?;
            caller.write_definition(section, &name, &[rule], bytes.len())
        };
        for unit in 0..=u16::MAX {
            ask(&[unit])?;
            ask(&[unit, 0x41])?;
            ask(&[unit, 0xde00])?;
            ask(&[0x41, unit])?;
            ask(&[0xd83d, unit])?;
            ask(&[0xd83d, 0xde00, unit])?;
            ask(&[unit, 0xd83d, 0xde00])?;
        }
        for length in 0..=4 {
            for number in 0..UNIT_EDGES.len().pow(length) {
                let digit = |place| number / UNIT_EDGES.len().pow(place) % UNIT_EDGES.len();
                let units: Vec<u16> = (0..length).map(|place| UNIT_EDGES[digit(place)]).collect();
                ask(&units)?;
            }
        }
        for count in 0..=u16::MAX {
            for units in [[0x41, 0xd83d], [0xd83d, 0xde00]] {
                let mut raw = RawDefinition::normal(&in_bytes(&units), &[rule]);
                raw.count = count;
                caller.read_definition(section, &raw.bytes(), 1)?;
            }
        }
        Ok(())
    })
}

/// Every length of a name and every room for an output up to a little more
/// than there may be; every number of rules around the ends.
fn names_and_counts_written(basis: &Basis) -> Section {
    let name = "every name, count and room: writing";
    let mut source = Source::new(basis, name);
    let mut caller = Caller::new(basis, name);
    let mut possible = WRITING_A_DEFINITION.to_vec();
    possible.retain(|number| [2, 5, 6, 13].contains(number));
    Section::run(name, &outcomes(&possible), 1_000, |section| {
        let row = source.row(2);
        for length in 0..=530 {
            let mut name = source.sound_name(length / 2);
            name.resize(length, 0x41);
            let room = definition_length(length, row.len());
            for room in [room - 1, room, room + 1] {
                caller.write_definition(section, &name, &row, room)?;
            }
        }
        for count in (0..=12).chain(1_020..=1_028) {
            let row = match count {
                0 => Vec::new(),
                count => source.row(count),
            };
            let room = definition_length(0, count);
            for room in [room - 1, room, room + 1] {
                caller.write_definition(section, &[], &row, room)?;
            }
        }
        for room in 0..=definition_length(0, row.len()) + 100 {
            caller.write_definition(section, &[], &row, room)?;
        }
        for rule in kinds_of_rule() {
            for room in 0..=300 {
                caller.write_registry(section, rule, room)?;
                let names = source.names();
                caller.write_remote_desktop(section, rule, names, room)?;
            }
        }
        Ok(())
    })
}
