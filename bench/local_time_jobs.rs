//! UTC and local time, beside plain Rust. Both have to agree on every input,
//! on damaged rules, at the ends of the window and of 64 bits, and in long rows
//! where one rule follows another.

use crate::library::{self, LocalAnswer, LocalTick, Rule, UtcAnswer, UtcTick};
use crate::local_time_inputs::{Asked, Zones, ZONES};
use crate::measure::{Job, Table};
use crate::plain_local_time as plain;
use crate::record_inputs::{Source, DATES};

const AT_MOST: Option<f64> = Some(1.5);

pub fn add_all(table: &mut Table) {
    same_in_long_rows();
    for zones in ZONES {
        table.add(utc_to_local(zones));
        table.add(local_to_utc(zones));
    }
}

fn local_sum(answer: LocalAnswer) -> u64 {
    (answer.local.ticks as u64).wrapping_add(answer.refusal as u64)
}

fn utc_sum(answer: UtcAnswer) -> u64 {
    (answer.first.ticks as u64)
        .wrapping_add(answer.second.ticks as u64)
        .wrapping_add(answer.count as u64 + answer.refusal as u64)
}

fn job(
    name: &str,
    zones: Zones,
    inputs: &[Asked],
    ours: impl FnMut(&Asked) -> u64,
    plain: impl FnMut(&Asked) -> u64,
) -> Job {
    Job::measured(
        format!("{name}, {}", zones.name()),
        AT_MOST,
        inputs,
        ours,
        plain,
    )
}

fn utc_to_local(zones: Zones) -> Job {
    let inputs = Source::new().ticks(zones);
    same_everywhere(&inputs);
    job(
        "UTC to local",
        zones,
        &inputs,
        |asked| local_sum(library::utc_to_local(asked.row, asked.utc())),
        |asked| local_sum(plain::utc_to_local(asked.row, asked.utc())),
    )
}

fn local_to_utc(zones: Zones) -> Job {
    let inputs = Source::new().local_ticks(zones);
    same_everywhere(&inputs);
    for count in 0..=2 {
        let is_so = |asked: &Asked| plain::local_to_utc(asked.row, asked.local()).count == count;
        assert!(inputs.iter().any(is_so), "no local tick has {count}");
    }
    job(
        "local to UTC",
        zones,
        &inputs,
        |asked| utc_sum(library::local_to_utc(asked.row, asked.local())),
        |asked| utc_sum(plain::local_to_utc(asked.row, asked.local())),
    )
}

impl Asked {
    fn utc(&self) -> UtcTick {
        UtcTick { ticks: self.tick }
    }

    fn local(&self) -> LocalTick {
        LocalTick { ticks: self.tick }
    }
}

/// Every input, its rule damaged, and its row at ticks from everywhere.
fn same_everywhere(inputs: &[Asked]) {
    let mut source = Source::new();
    for asked in inputs {
        same(asked.row, asked.tick);
        same(asked.row, source.any_tick());
        same(&asked.row.map(|rule| source.damaged_rule(rule)), asked.tick);
    }
}

/// The rule changes with each year, and the first has none before it.
fn same_in_long_rows() {
    let mut source = Source::new();
    for dates in DATES {
        for row in source.rows(dates) {
            let at = row.iter().position(|rule| rule.active == 1).unwrap();
            for _ in 0..500 {
                same(&row, source.near_new_year());
                same(&row[..=at], source.near_new_year());
                same(&row[at..], source.near_new_year());
                same(&source.damaged_row(&row), source.near_new_year());
            }
            same(&row[..at], source.any_tick());
            same(&[], source.any_tick());
        }
    }
}

fn same(row: &[Rule], ticks: i64) {
    let (utc, local) = (UtcTick { ticks }, LocalTick { ticks });
    assert_eq!(
        library::utc_to_local(row, utc),
        plain::utc_to_local(row, utc),
        "{ticks} in {row:?}"
    );
    assert_eq!(
        library::local_to_utc(row, local),
        plain::local_to_utc(row, local),
        "{ticks} in {row:?}"
    );
}
