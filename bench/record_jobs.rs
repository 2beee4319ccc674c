//! The calls on records, beside plain Rust. Both have to agree on every input
//! and on damaged copies of it, in their answers and in what they wrote.

use crate::library::{self, CountAnswer, LengthAnswer, Rule, RuleAnswer};
use crate::measure::{Job, Table};
use crate::plain_records as plain;
use crate::record_inputs::{self, Dates, Source, DEFINITION, NAME, REGISTRY};

pub const AT_MOST: Option<f64> = Some(1.5);

/// Damaged copies of each definition; a registry record has one.
const COPIES: usize = 2000;

pub fn add_all(table: &mut Table, dates: Dates) {
    table.add(read_registry(dates));
    table.add(write_registry(dates));
    table.add(read_definition(dates));
    table.add(write_definition(dates));
}

fn rule_sum(answer: RuleAnswer) -> u64 {
    (answer.rule.bias as u64)
        .wrapping_add(answer.rule.daylight_date.day as u64 + answer.refusal as u64)
}

pub fn length_sum(answer: LengthAnswer) -> u64 {
    answer.length as u64 + answer.refusal as u64
}

pub fn count_sum(answer: CountAnswer) -> u64 {
    answer.count as u64 + answer.refusal as u64
}

fn job<T>(
    name: &str,
    dates: Dates,
    inputs: &[T],
    ours: impl FnMut(&T) -> u64,
    plain: impl FnMut(&T) -> u64,
) -> Job {
    Job::measured(
        format!("{name}, {}", dates.name()),
        AT_MOST,
        inputs,
        ours,
        plain,
    )
}

fn read_registry(dates: Dates) -> Job {
    let mut source = Source::new();
    let rules = source.rules(dates);
    let records: Vec<_> = rules.iter().map(record_inputs::registry_record).collect();
    for record in &records {
        same_registry_read(record);
        same_registry_read(&source.damaged(record));
    }
    job(
        "read registry",
        dates,
        &records,
        |record| rule_sum(library::read_registry(record)),
        |record| rule_sum(plain::read_registry(record)),
    )
}

fn same_registry_read(bytes: &[u8]) {
    assert_eq!(
        library::read_registry(bytes),
        plain::read_registry(bytes),
        "{bytes:02x?}"
    );
}

fn write_registry(dates: Dates) -> Job {
    let mut source = Source::new();
    let rules = source.rules(dates);
    for &rule in &rules {
        same_registry_written(rule, REGISTRY);
        same_registry_written(rule, REGISTRY - 1);
        same_registry_written(source.damaged_rule(rule), REGISTRY + 1);
    }
    let mut ours = [0; REGISTRY];
    let mut theirs = [0; REGISTRY];
    job(
        "write registry",
        dates,
        &rules,
        |&rule| length_sum(library::write_registry(rule, &mut ours)),
        |&rule| length_sum(plain::write_registry(rule, &mut theirs)),
    )
}

fn same_registry_written(rule: Rule, room: usize) {
    let mut ours = vec![0xaa; room];
    let mut theirs = ours.clone();
    assert_eq!(
        library::write_registry(rule, &mut ours),
        plain::write_registry(rule, &mut theirs),
        "{rule:?}"
    );
    assert_eq!(ours, theirs, "{rule:?}");
}

fn read_definition(dates: Dates) -> Job {
    let mut source = Source::new();
    let rows = source.rows(dates);
    let definitions: Vec<_> = rows
        .iter()
        .map(|row| record_inputs::definition(row))
        .collect();
    let room = rows[0].len();
    for bytes in &definitions {
        same_definition_read(bytes, room);
        same_definition_read(bytes, room - 1);
        for _ in 0..COPIES {
            same_definition_read(&source.damaged(bytes), room + 1);
        }
    }
    let mut ours = vec![Rule::default(); room];
    let mut theirs = ours.clone();
    job(
        "read 1,024 rules",
        dates,
        &definitions,
        |bytes| count_sum(library::read_definition(bytes, &mut ours)),
        |bytes| count_sum(plain::read_definition(bytes, &mut theirs)),
    )
}

pub fn same_definition_read(bytes: &[u8], room: usize) {
    let mut ours = vec![Rule::default(); room];
    let mut theirs = ours.clone();
    assert_eq!(
        library::read_definition(bytes, &mut ours),
        plain::read_definition(bytes, &mut theirs),
        "{bytes:02x?}"
    );
    assert_eq!(ours, theirs, "{bytes:02x?}");
}

fn write_definition(dates: Dates) -> Job {
    let mut source = Source::new();
    let rows = source.rows(dates);
    for row in &rows {
        same_definition_written(NAME, row, DEFINITION);
        same_definition_written(NAME, row, DEFINITION - 1);
        same_definition_written(NAME, &row[1..], DEFINITION);
        same_definition_written(NAME, &[], DEFINITION);
        for length in [0, 519, 520, 521, 522] {
            same_definition_written(&[b'x'; 522][..length], row, 2 * DEFINITION);
        }
        for _ in 0..COPIES {
            same_definition_written(NAME, &source.damaged_row(row), DEFINITION + 1);
        }
    }
    let mut ours = vec![0; DEFINITION];
    let mut theirs = ours.clone();
    job(
        "write 1,024 rules",
        dates,
        &rows,
        |row| length_sum(library::write_definition(NAME, row, &mut ours)),
        |row| length_sum(plain::write_definition(NAME, row, &mut theirs)),
    )
}

pub fn same_definition_written(name: &[u8], row: &[Rule], room: usize) {
    let mut ours = vec![0xaa; room];
    let mut theirs = ours.clone();
    assert_eq!(
        library::write_definition(name, row, &mut ours),
        plain::write_definition(name, row, &mut theirs),
        "{row:?}"
    );
    assert_eq!(ours, theirs, "{row:?}");
}
