//! What each call on the three records has to answer, by document 01, what
//! document 02 adds to it, and the sources 000 to 003. Everything is found by its offset, and the tests stand
//! in the paper's order.

use crate::calendar::Calendar;
use crate::library::{Name, RemoteDesktopAnswer, Rule, RuleAnswer, SystemTime};
use crate::zone_rules::{check_dates_and_biases, check_year, normal};
use std::ops::Range;

pub const PAST_THE_BYTES: u32 = 1;
pub const SIZE: u32 = 2;
pub const HEADER_MAJOR: u32 = 3;
pub const HEADER_FLAGS: u32 = 4;
pub const NAME_LENGTH: u32 = 5;
pub const RULE_COUNT: u32 = 6;
pub const X_NOT_ZERO: u32 = 7;
pub const ACTIVE: u32 = 12;
pub const ROOM: u32 = 13;
pub const LONE_SURROGATE: u32 = 20;

pub const REGISTRY_LENGTH: usize = 44;
pub const REMOTE_DESKTOP_LENGTH: usize = 172;

/// The longest name in 16-bit units, and the most rules.
pub const MOST_UNITS: usize = 260;
pub const MOST_RULES: usize = 1_024;

/// A whole rule, and what its own size counts.
pub const RULE_LENGTH: usize = 66;
pub const RULE_SIZE: u16 = 62;

/// A name begins here.
pub const NAME_AT: usize = 8;

pub fn read_registry(calendar: &Calendar, bytes: &[u8]) -> RuleAnswer {
    if bytes.len() != REGISTRY_LENGTH {
        return RuleAnswer::refused(SIZE);
    }
    let rule = Rule {
        active: 1,
        bias: bias_at(bytes, 0),
        standard_bias: bias_at(bytes, 4),
        daylight_bias: bias_at(bytes, 8),
        standard_date: date_at(bytes, 12),
        daylight_date: date_at(bytes, 28),
        ..Default::default()
    };
    match check_dates_and_biases(calendar, &rule) {
        Ok(()) => RuleAnswer::of(normal(rule)),
        Err(number) => RuleAnswer::refused(number),
    }
}

pub fn read_remote_desktop(calendar: &Calendar, bytes: &[u8]) -> RemoteDesktopAnswer {
    if bytes.len() != REMOTE_DESKTOP_LENGTH {
        return RemoteDesktopAnswer::refused(SIZE);
    }
    let rule = Rule {
        active: 1,
        bias: bias_at(bytes, 0),
        standard_date: date_at(bytes, 68),
        standard_bias: bias_at(bytes, 84),
        daylight_date: date_at(bytes, 152),
        daylight_bias: bias_at(bytes, 168),
        ..Default::default()
    };
    match check_dates_and_biases(calendar, &rule) {
        Ok(()) => RemoteDesktopAnswer::of(normal(rule), [name_at(bytes, 4), name_at(bytes, 88)]),
        Err(number) => RemoteDesktopAnswer::refused(number),
    }
}

/// What writing puts at the output's start, or the number of its refusal.
pub type Written = Result<Vec<u8>, u32>;

pub fn write_registry(calendar: &Calendar, rule: Rule, room: usize) -> Written {
    check_year(&rule, None)?;
    check_dates_and_biases(calendar, &rule)?;
    if room < REGISTRY_LENGTH {
        return Err(ROOM);
    }
    let rule = normal(rule);
    let mut out = Vec::new();
    push_bias(&mut out, rule.bias);
    push_bias(&mut out, rule.standard_bias);
    push_bias(&mut out, rule.daylight_bias);
    push_date(&mut out, rule.standard_date);
    push_date(&mut out, rule.daylight_date);
    Ok(out)
}

pub fn write_remote_desktop(
    calendar: &Calendar,
    rule: Rule,
    names: [Name; 2],
    room: usize,
) -> Written {
    check_year(&rule, None)?;
    check_dates_and_biases(calendar, &rule)?;
    if room < REMOTE_DESKTOP_LENGTH {
        return Err(ROOM);
    }
    let rule = normal(rule);
    let mut out = Vec::new();
    push_bias(&mut out, rule.bias);
    out.extend(names[0].bytes);
    push_date(&mut out, rule.standard_date);
    push_bias(&mut out, rule.standard_bias);
    out.extend(names[1].bytes);
    push_date(&mut out, rule.daylight_date);
    push_bias(&mut out, rule.daylight_bias);
    Ok(out)
}

/// A definition that reading accepts, if only the row is long enough.
pub struct Definition {
    /// Where the name lies.
    pub name: Range<usize>,
    /// The kept rules, made normal.
    pub rules: Vec<Rule>,
}

/// Reading without a row: every refusal but 13.
pub fn whole_definition(calendar: &Calendar, bytes: &[u8]) -> Result<Definition, u32> {
    let header = header(bytes)?;

    let mut rules: Vec<Rule> = Vec::new();
    let mut bits_differ = false;
    let mut at = header.first_rule;
    for _ in 0..header.count {
        if bytes.len() < at + 4 {
            return Err(PAST_THE_BYTES);
        }
        let major = bytes[at];
        let minor = bytes[at + 1];
        let size = number_at(bytes, at + 2);
        let next = at + 4 + usize::from(size);
        if bytes.len() < next {
            return Err(PAST_THE_BYTES);
        }
        if major == 2 {
            if size < RULE_SIZE || (minor == 1 && size > RULE_SIZE) {
                return Err(SIZE);
            }
            if bytes[at + 8..at + 22].iter().any(|&byte| byte != 0) {
                return Err(X_NOT_ZERO);
            }
            let flags = number_at(bytes, at + 4);
            let rule = Rule {
                year: number_at(bytes, at + 6),
                active: u8::from(flags % 4 == 3),
                bias: bias_at(bytes, at + 22),
                standard_bias: bias_at(bytes, at + 26),
                daylight_bias: bias_at(bytes, at + 30),
                standard_date: date_at(bytes, at + 34),
                daylight_date: date_at(bytes, at + 50),
                ..Default::default()
            };
            check_year(&rule, rules.last().map(|before| before.year))?;
            check_dates_and_biases(calendar, &rule)?;
            if flags % 4 == 1 || flags % 4 == 2 {
                bits_differ = true;
            }
            rules.push(normal(rule));
        }
        at = next;
    }

    if bits_differ || !one_is_active(&rules) {
        return Err(ACTIVE);
    }
    if header.minor == 1 && bytes.len() > at {
        return Err(SIZE);
    }
    Ok(Definition {
        name: header.name,
        rules,
    })
}

struct Header {
    minor: u8,
    name: Range<usize>,
    count: u16,
    first_rule: usize,
}

fn header(bytes: &[u8]) -> Result<Header, u32> {
    let length = bytes.len();
    if length < 1 {
        return Err(PAST_THE_BYTES);
    }
    if bytes[0] != 2 {
        return Err(HEADER_MAJOR);
    }
    if length < 2 {
        return Err(PAST_THE_BYTES);
    }
    let minor = bytes[1];
    if length < 4 {
        return Err(PAST_THE_BYTES);
    }
    let size = usize::from(number_at(bytes, 2));
    if length < 6 {
        return Err(PAST_THE_BYTES);
    }
    if number_at(bytes, 4) != 0x0002 {
        return Err(HEADER_FLAGS);
    }
    if length < NAME_AT {
        return Err(PAST_THE_BYTES);
    }
    let units = usize::from(number_at(bytes, 6));
    if units > MOST_UNITS {
        return Err(NAME_LENGTH);
    }
    let name_end = NAME_AT + 2 * units;
    if length < name_end {
        return Err(PAST_THE_BYTES);
    }
    if !is_text(&bytes[NAME_AT..name_end]) {
        return Err(LONE_SURROGATE);
    }
    if size < 6 + 2 * units || (minor == 1 && size > 6 + 2 * units) {
        return Err(SIZE);
    }
    if length < name_end + 2 {
        return Err(PAST_THE_BYTES);
    }
    let count = number_at(bytes, name_end);
    if count == 0 || usize::from(count) > MOST_RULES {
        return Err(RULE_COUNT);
    }
    if length < 4 + size {
        return Err(PAST_THE_BYTES);
    }
    Ok(Header {
        minor,
        name: NAME_AT..name_end,
        count,
        first_rule: 4 + size,
    })
}

/// The rules that reading stores in a row with so much room, or its number.
pub fn read_definition(calendar: &Calendar, bytes: &[u8], room: usize) -> Result<Vec<Rule>, u32> {
    let definition = whole_definition(calendar, bytes)?;
    if definition.rules.len() > room {
        return Err(ROOM);
    }
    Ok(definition.rules)
}

/// The name, which is empty where reading refuses the bytes.
pub fn definition_name<'a>(calendar: &Calendar, bytes: &'a [u8]) -> &'a [u8] {
    match whole_definition(calendar, bytes) {
        Ok(definition) => &bytes[definition.name],
        Err(_) => &[],
    }
}

pub fn write_definition(calendar: &Calendar, name: &[u8], row: &[Rule], room: usize) -> Written {
    if name.len() % 2 != 0 {
        return Err(SIZE);
    }
    if name.len() / 2 > MOST_UNITS {
        return Err(NAME_LENGTH);
    }
    if !is_text(name) {
        return Err(LONE_SURROGATE);
    }
    check_row(calendar, row)?;
    if room < definition_length(name.len(), row.len()) {
        return Err(ROOM);
    }

    let mut out = vec![2, 1];
    push_number(&mut out, 6 + name.len());
    push_number(&mut out, 0x0002);
    push_number(&mut out, name.len() / 2);
    out.extend(name);
    push_number(&mut out, row.len());
    for &rule in row {
        let rule = normal(rule);
        out.extend([2, 1]);
        push_number(&mut out, usize::from(RULE_SIZE));
        push_number(&mut out, if rule.active == 1 { 3 } else { 0 });
        push_number(&mut out, usize::from(rule.year));
        out.extend([0; 14]);
        push_bias(&mut out, rule.bias);
        push_bias(&mut out, rule.standard_bias);
        push_bias(&mut out, rule.daylight_bias);
        push_date(&mut out, rule.standard_date);
        push_date(&mut out, rule.daylight_date);
    }
    Ok(out)
}

/// Document 01's checks of a row, from 6 to 12.
pub fn check_row(calendar: &Calendar, row: &[Rule]) -> Result<(), u32> {
    if row.is_empty() || row.len() > MOST_RULES {
        return Err(RULE_COUNT);
    }
    let mut before = None;
    for rule in row {
        check_year(rule, before)?;
        check_dates_and_biases(calendar, rule)?;
        before = Some(rule.year);
    }
    if !one_is_active(row) {
        return Err(ACTIVE);
    }
    Ok(())
}

/// The bytes that a written definition takes.
pub fn definition_length(name_bytes: usize, rules: usize) -> usize {
    10 + name_bytes + RULE_LENGTH * rules
}

/// Whether a name is UTF-16 of some text, as Rust's own decoder has it.
fn is_text(name: &[u8]) -> bool {
    let units: Vec<u16> = (0..name.len() / 2)
        .map(|i| number_at(name, 2 * i))
        .collect();
    String::from_utf16(&units).is_ok()
}

fn one_is_active(rules: &[Rule]) -> bool {
    rules.iter().filter(|rule| rule.active == 1).count() == 1
}

fn number_at(bytes: &[u8], at: usize) -> u16 {
    u16::from_le_bytes([bytes[at], bytes[at + 1]])
}

fn bias_at(bytes: &[u8], at: usize) -> i32 {
    i32::from_le_bytes([bytes[at], bytes[at + 1], bytes[at + 2], bytes[at + 3]])
}

fn date_at(bytes: &[u8], at: usize) -> SystemTime {
    SystemTime {
        year: number_at(bytes, at),
        month: number_at(bytes, at + 2),
        weekday: number_at(bytes, at + 4),
        day: number_at(bytes, at + 6),
        hour: number_at(bytes, at + 8),
        minute: number_at(bytes, at + 10),
        second: number_at(bytes, at + 12),
        millisecond: number_at(bytes, at + 14),
    }
}

fn name_at(bytes: &[u8], at: usize) -> Name {
    let mut name = Name::ZEROS;
    name.bytes.copy_from_slice(&bytes[at..at + 64]);
    name
}

/// Two bytes; every number that is written fits in them.
fn push_number(out: &mut Vec<u8>, number: usize) {
    out.extend([(number % 256) as u8, (number / 256) as u8]);
}

fn push_bias(out: &mut Vec<u8>, bias: i32) {
    out.extend(bias.to_le_bytes());
}

fn push_date(out: &mut Vec<u8>, date: SystemTime) {
    for number in date.as_row() {
        push_number(out, usize::from(number));
    }
}
