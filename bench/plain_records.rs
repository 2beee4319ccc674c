//! The calls on records in plain Rust, with the same checks in the same order.
//! A definition is checked as a whole before a rule of the row is touched.

// A slice crosses the boundary as the library's calls take it: pointer and length.
#![allow(improper_ctypes_definitions)]

use crate::library::{CountAnswer, LengthAnswer, Rule, RuleAnswer, SystemTime};
use crate::plain_rules::{check_dates, check_row, check_rule, normal, ACTIVE_RULES, RULE_COUNT};

const REGISTRY: usize = 44;
const RULE: usize = 66;

const PAST_THE_BYTES: u32 = 1;
const WRONG_SIZE: u32 = 2;
const HEADER_MAJOR: u32 = 3;
const HEADER_FLAGS: u32 = 4;
const NAME_TOO_LONG: u32 = 5;
const UNUSED_NOT_ZERO: u32 = 7;
pub const NO_ROOM: u32 = 13;
const LONE_SURROGATE: u32 = 20;

#[inline(never)]
pub extern "C" fn read_registry(bytes: &[u8]) -> RuleAnswer {
    let Ok(bytes) = bytes.try_into() else {
        return RuleAnswer::refused(WRONG_SIZE);
    };
    let rule = rule_of(bytes, 0, 1);
    match check_dates(&rule) {
        Ok(()) => RuleAnswer::of(normal(rule)),
        Err(refusal) => RuleAnswer::refused(refusal),
    }
}

#[inline(never)]
pub extern "C" fn write_registry(rule: Rule, out: &mut [u8]) -> LengthAnswer {
    if let Err(refusal) = check_rule(None, &rule) {
        return LengthAnswer::refused(refusal);
    }
    let Some(out) = out.first_chunk_mut() else {
        return LengthAnswer::refused(NO_ROOM);
    };
    put_fields(out, &normal(rule));
    LengthAnswer::of(REGISTRY)
}

#[inline(never)]
pub extern "C" fn read_definition(bytes: &[u8], row: &mut [Rule]) -> CountAnswer {
    match check_definition(bytes, row.len()) {
        Ok((rules, kept)) => {
            for (place, record) in row.iter_mut().zip(rules.flatten().flatten()) {
                *place = normal(rule_in(record));
            }
            CountAnswer::of(kept)
        }
        Err(refusal) => CountAnswer::refused(refusal),
    }
}

#[inline(never)]
pub extern "C" fn write_definition(name: &[u8], row: &[Rule], out: &mut [u8]) -> LengthAnswer {
    match check_output(name, row, out.len()) {
        Ok(length) => {
            put_definition(name, row, &mut out[..length]);
            LengthAnswer::of(length)
        }
        Err(refusal) => LengthAnswer::refused(refusal),
    }
}

/// The rules of a definition that reading accepts, and how many are kept.
fn check_definition(bytes: &[u8], room: usize) -> Result<(Rules<'_>, usize), u32> {
    let header = header(bytes)?;
    let rules = Rules {
        rest: &bytes[4 + header.size..],
        left: header.count,
    };
    let mut walk = rules.clone();
    let mut kept = 0;
    let mut active = 0;
    let mut agree = true;
    let mut before = None;
    for record in walk.by_ref() {
        let Some(record) = record? else { continue };
        if record[8..22] != [0; 14] {
            return Err(UNUSED_NOT_ZERO);
        }
        let rule = rule_in(record);
        check_rule(before, &rule)?;
        before = Some(rule.year);
        kept += 1;
        match record[4] % 4 {
            3 => active += 1,
            0 => {}
            _ => agree = false,
        }
    }
    if active != 1 || !agree {
        return Err(ACTIVE_RULES);
    }
    if header.minor == 1 && !walk.rest.is_empty() {
        return Err(WRONG_SIZE);
    }
    if room < kept {
        return Err(NO_ROOM);
    }
    Ok((rules, kept))
}

struct Header {
    minor: u8,
    size: usize,
    count: u16,
}

fn header(bytes: &[u8]) -> Result<Header, u32> {
    if *bytes.first().ok_or(PAST_THE_BYTES)? != 2 {
        return Err(HEADER_MAJOR);
    }
    let minor = *bytes.get(1).ok_or(PAST_THE_BYTES)?;
    let size = number_at(bytes, 2)? as usize;
    if number_at(bytes, 4)? != 2 {
        return Err(HEADER_FLAGS);
    }
    let units = number_at(bytes, 6)? as usize;
    if units > 260 {
        return Err(NAME_TOO_LONG);
    }
    let name_end = 8 + 2 * units;
    let name = bytes.get(8..name_end).ok_or(PAST_THE_BYTES)?;
    if has_lone_surrogate(name) {
        return Err(LONE_SURROGATE);
    }
    if !size_is_sound(minor, size, 6 + 2 * units) {
        return Err(WRONG_SIZE);
    }
    let count = number_at(bytes, name_end)?;
    if !(1..=1024).contains(&count) {
        return Err(RULE_COUNT);
    }
    if bytes.len() < 4 + size {
        return Err(PAST_THE_BYTES);
    }
    Ok(Header { minor, size, count })
}

fn has_lone_surrogate(name: &[u8]) -> bool {
    let mut after_high = false;
    for unit in name.chunks_exact(2) {
        let unit = u16::from_le_bytes([unit[0], unit[1]]);
        if (0xdc00..=0xdfff).contains(&unit) != after_high {
            return true;
        }
        after_high = (0xd800..=0xdbff).contains(&unit);
    }
    after_high
}

fn number_at(bytes: &[u8], at: usize) -> Result<u16, u32> {
    match bytes.get(at..at + 2) {
        Some(&[low, high]) => Ok(u16::from_le_bytes([low, high])),
        _ => Err(PAST_THE_BYTES),
    }
}

fn size_is_sound(minor: u8, stated: usize, size: usize) -> bool {
    stated == size || stated > size && minor != 1
}

/// The rules one after another: a kept rule's 66 bytes, none for a skipped one.
#[derive(Clone)]
struct Rules<'a> {
    rest: &'a [u8],
    left: u16,
}

impl<'a> Iterator for Rules<'a> {
    type Item = Result<Option<&'a [u8; RULE]>, u32>;

    fn next(&mut self) -> Option<Self::Item> {
        self.left = self.left.checked_sub(1)?;
        Some(self.next_rule())
    }
}

impl<'a> Rules<'a> {
    fn next_rule(&mut self) -> Result<Option<&'a [u8; RULE]>, u32> {
        let &[major, minor, low, high] = self.rest.first_chunk().ok_or(PAST_THE_BYTES)?;
        let size = u16::from_le_bytes([low, high]) as usize;
        let (rule, rest) = self.rest.split_at_checked(4 + size).ok_or(PAST_THE_BYTES)?;
        self.rest = rest;
        if major != 2 {
            return Ok(None);
        }
        match rule.first_chunk() {
            Some(record) if size_is_sound(minor, size, RULE - 4) => Ok(Some(record)),
            _ => Err(WRONG_SIZE),
        }
    }
}

#[inline(always)]
fn rule_in(record: &[u8; RULE]) -> Rule {
    let active = record[4] % 4 == 3;
    let year = u16::from_le_bytes([record[6], record[7]]);
    rule_of(record[22..].try_into().unwrap(), year, active as u8)
}

/// The biases and dates of a registry record, or of a rule's end.
#[inline(always)]
fn rule_of(bytes: &[u8; REGISTRY], year: u16, active: u8) -> Rule {
    let bias = |at: usize| i32::from_le_bytes(bytes[at..at + 4].try_into().unwrap());
    Rule {
        year,
        active,
        padding: 0,
        bias: bias(0),
        standard_bias: bias(4),
        daylight_bias: bias(8),
        standard_date: date_of(bytes[12..28].try_into().unwrap()),
        daylight_date: date_of(bytes[28..].try_into().unwrap()),
    }
}

fn date_of(bytes: &[u8; 16]) -> SystemTime {
    SystemTime::from_row(std::array::from_fn(|i| {
        u16::from_le_bytes([bytes[2 * i], bytes[2 * i + 1]])
    }))
}

/// All checks before a byte is written, and how many there are to write.
fn check_output(name: &[u8], row: &[Rule], room: usize) -> Result<usize, u32> {
    if name.len() % 2 != 0 {
        return Err(WRONG_SIZE);
    }
    if name.len() > 520 {
        return Err(NAME_TOO_LONG);
    }
    if has_lone_surrogate(name) {
        return Err(LONE_SURROGATE);
    }
    check_row(row)?;
    let length = 10 + name.len() + RULE * row.len();
    if room < length {
        return Err(NO_ROOM);
    }
    Ok(length)
}

fn put_definition(name: &[u8], row: &[Rule], out: &mut [u8]) {
    let (head, rules) = out.split_at_mut(10 + name.len());
    head[..2].copy_from_slice(&[2, 1]);
    put_number(head, 2, 6 + name.len() as u16);
    put_number(head, 4, 2);
    put_number(head, 6, name.len() as u16 / 2);
    head[8..8 + name.len()].copy_from_slice(name);
    put_number(head, 8 + name.len(), row.len() as u16);
    for (record, rule) in rules.chunks_exact_mut(RULE).zip(row) {
        put_rule(record.try_into().unwrap(), rule);
    }
}

fn put_rule(out: &mut [u8; RULE], rule: &Rule) {
    out[..4].copy_from_slice(&[2, 1, 62, 0]);
    put_number(out, 4, 3 * rule.active as u16);
    put_number(out, 6, rule.year);
    out[8..22].fill(0);
    let fields = (&mut out[22..]).try_into().unwrap();
    put_fields(fields, &normal(*rule));
}

fn put_fields(out: &mut [u8; REGISTRY], rule: &Rule) {
    out[..4].copy_from_slice(&rule.bias.to_le_bytes());
    out[4..8].copy_from_slice(&rule.standard_bias.to_le_bytes());
    out[8..12].copy_from_slice(&rule.daylight_bias.to_le_bytes());
    put_date(&mut out[12..28], &rule.standard_date);
    put_date(&mut out[28..], &rule.daylight_date);
}

fn put_date(out: &mut [u8], date: &SystemTime) {
    for (place, number) in out.chunks_exact_mut(2).zip(date.as_row()) {
        place.copy_from_slice(&number.to_le_bytes());
    }
}

fn put_number(out: &mut [u8], at: usize, number: u16) {
    out[at..at + 2].copy_from_slice(&number.to_le_bytes());
}
