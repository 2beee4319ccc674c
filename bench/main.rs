//! How long the library's calls take, beside plain Rust that does the same by
//! the same method, and beside other calendars. Every job is run on the same
//! inputs in the same run, and the least of many samples counts.

#[path = "../tests/second/library.rs"]
#[allow(dead_code)]
mod library;

mod calendars;
#[cfg(has_chrono)]
mod chrono_calls;
mod formulas;
mod inputs;
mod local_time_inputs;
mod local_time_jobs;
mod measure;
mod name_jobs;
mod plain;
mod plain_local_time;
mod plain_records;
mod plain_rules;
mod plain_table;
mod plain_tally;
mod record_inputs;
mod record_jobs;
mod tally_inputs;
mod tally_jobs;

use calendars::CALENDARS;
use library::{FieldsAnswer, SecondsAnswer, TimeAnswer, TimeFields};
use measure::{Job, Other, Table, SAMPLES};
use plain::{REVISION_1_0, REVISION_1_2};
use std::hint::black_box;

const AT_MOST: Option<f64> = Some(1.25);

/// The revisions by which ours and plain Rust have to agree, and a number that
/// is none.
const REVISIONS: [u32; 3] = [REVISION_1_0, 11, REVISION_1_2];

fn main() {
    let mut table = Table::new();
    for span in inputs::spans() {
        table.add(time_to_fields(&span));
        table.add(fields_to_time(&span));
    }
    table.add(time_to_fields(&inputs::late()));
    let whole_range = &inputs::spans()[1].times;
    table.add(time_to_fields_by_table(whole_range));
    table.add(fields_to_time_by_table(whole_range));
    table.add(seconds_since_1970(&inputs::spans()[0]));
    for dates in record_inputs::DATES {
        record_jobs::add_all(&mut table, dates);
    }
    name_jobs::add_all(&mut table);
    local_time_jobs::add_all(&mut table);
    tally_jobs::add_all(&mut table);
    table.print();
}

/// What an answer leaves behind, so that no call is dropped.
fn fields_sum(answer: FieldsAnswer) -> u64 {
    answer.fields.day as u64 + answer.fields.milliseconds as u64 + answer.refusal as u64
}

fn time_sum(answer: TimeAnswer) -> u64 {
    (answer.time as u64).wrapping_add(answer.refusal as u64)
}

fn seconds_sum(answer: SecondsAnswer) -> u64 {
    answer.seconds as u64 + answer.refusal as u64
}

/// The revision that is timed. The compiler does not know which one it is, so
/// that it cannot build plain Rust's calls for that one alone.
fn timed_revision() -> u32 {
    black_box(REVISION_1_2)
}

/// Ours and plain Rust's, by each revision and by either calendar.
fn same_fields(time: i64) {
    for revision in black_box(REVISIONS) {
        let ours = library::time_to_fields(revision, time);
        assert_eq!(ours, plain::time_to_fields(revision, time));
        assert_eq!(ours, library::time_to_fields_by_table(revision, time));
        assert_eq!(ours, plain_table::time_to_fields(revision, time));
    }
}

/// The same of fields, and of second 60 on their day.
fn same_time(fields: TimeFields) {
    let second_60 = TimeFields {
        hour: 23,
        minute: 59,
        second: 60,
        ..fields
    };
    for revision in black_box(REVISIONS) {
        for fields in [fields, second_60] {
            let ours = library::fields_to_time(revision, fields);
            assert_eq!(ours, plain::fields_to_time(revision, fields));
            assert_eq!(ours, library::fields_to_time_by_table(revision, fields));
            assert_eq!(ours, plain_table::fields_to_time(revision, fields));
        }
    }
}

fn time_to_fields(span: &inputs::Span) -> Job {
    let revision = timed_revision();
    for &time in &span.times {
        same_fields(time);
        let ours = library::time_to_fields(revision, time);
        for calendar in CALENDARS {
            assert_eq!(ours, calendar.time_to_fields(time), "{}", calendar.name);
        }
    }
    let others = CALENDARS.iter().map(|calendar| {
        Other::new(calendar.name, |&time| {
            fields_sum(calendar.time_to_fields(time))
        })
    });
    Job::sampled(
        SAMPLES,
        format!("TIME to fields, {}", span.name),
        AT_MOST,
        &span.times,
        move |&time| fields_sum(library::time_to_fields(revision, time)),
        move |&time| fields_sum(plain::time_to_fields(revision, time)),
        others.collect(),
    )
}

fn fields_to_time(span: &inputs::Span) -> Job {
    let revision = timed_revision();
    let rows = fields_of(&span.times);
    for &fields in &rows {
        same_time(fields);
        let ours = library::fields_to_time(revision, fields);
        for calendar in CALENDARS {
            assert_eq!(ours, calendar.fields_to_time(fields), "{}", calendar.name);
        }
    }
    let others = CALENDARS.iter().map(|calendar| {
        Other::new(calendar.name, |&fields| {
            time_sum(calendar.fields_to_time(fields))
        })
    });
    Job::sampled(
        SAMPLES,
        format!("fields to TIME, {}", span.name),
        AT_MOST,
        &rows,
        move |&fields| time_sum(library::fields_to_time(revision, fields)),
        move |&fields| time_sum(plain::fields_to_time(revision, fields)),
        others.collect(),
    )
}

fn fields_of(times: &[i64]) -> Vec<TimeFields> {
    let fields = times
        .iter()
        .map(|&time| library::time_to_fields(REVISION_1_2, time).fields);
    fields.collect()
}

/// Without a bound: the kit builds a constant table anew at each call.
fn time_to_fields_by_table(times: &[i64]) -> Job {
    let revision = timed_revision();
    for &time in times {
        same_fields(time);
    }
    Job::measured(
        "TIME to fields, by table".to_string(),
        None,
        times,
        move |&time| fields_sum(library::time_to_fields_by_table(revision, time)),
        move |&time| fields_sum(plain_table::time_to_fields(revision, time)),
    )
}

fn fields_to_time_by_table(times: &[i64]) -> Job {
    let revision = timed_revision();
    let rows = fields_of(times);
    for &fields in &rows {
        same_time(fields);
    }
    Job::measured(
        "fields to TIME, by table".to_string(),
        None,
        &rows,
        move |&fields| time_sum(library::fields_to_time_by_table(revision, fields)),
        move |&fields| time_sum(plain_table::fields_to_time(revision, fields)),
    )
}

fn seconds_since_1970(span: &inputs::Span) -> Job {
    for &time in &span.times {
        assert_eq!(
            library::time_to_seconds_since_1970(time),
            plain::time_to_seconds_since_1970(time)
        );
    }
    Job::measured(
        format!("seconds since 1970, {}", span.name),
        AT_MOST,
        &span.times,
        |&time| seconds_sum(library::time_to_seconds_since_1970(time)),
        |&time| seconds_sum(plain::time_to_seconds_since_1970(time)),
    )
}
