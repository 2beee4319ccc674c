//! Booking, saving and reading back, beside plain Rust. Both have to agree on
//! every input and on damaged copies of it, at the ends of the window and of
//! 64 bits, and in long rows where one rule follows another.

use crate::library::{self, LengthAnswer, Rule, Tally, TallyAnswer, UtcTick};
use crate::local_time_inputs::{Zones, ZONES};
use crate::measure::{Job, Table};
use crate::plain_tally as plain;
use crate::record_inputs::{Source, DATES};
use crate::tally_inputs::{Booked, Length, LENGTHS};

const AT_MOST: Option<f64> = Some(1.5);

const RECORD: usize = 68;

/// A booking of the whole window takes milliseconds.
const FEW_SAMPLES: usize = 100;

pub fn add_all(table: &mut Table) {
    same_in_long_rows();
    for zones in ZONES {
        for length in LENGTHS {
            table.add(book(zones, length));
        }
        table.add(book_the_window(zones));
    }
    table.add(save());
    table.add(read());
}

fn tally_sum(answer: TallyAnswer) -> u64 {
    let totals = answer.tally.totals.iter();
    totals.fold(answer.refusal as u64, |sum, &total| sum.wrapping_add(total))
}

fn length_sum(answer: LengthAnswer) -> u64 {
    answer.length as u64 + answer.refusal as u64
}

fn ours(run: &Booked) -> u64 {
    tally_sum(library::book(run.tally, run.row, run.from, run.to))
}

fn theirs(run: &Booked) -> u64 {
    tally_sum(plain::book(run.tally, run.row, run.from, run.to))
}

fn book(zones: Zones, length: Length) -> Job {
    let inputs = Source::new().runs(zones, length);
    same_everywhere(&inputs);
    Job::measured(
        format!("book {}, {}", length.name(), zones.name()),
        AT_MOST,
        &inputs,
        ours,
        theirs,
    )
}

/// It should take no more than 10 ms, whatever the ratio.
fn book_the_window(zones: Zones) -> Job {
    let inputs = Source::new().whole_window(zones);
    for run in &inputs {
        same_booked(run.tally, run.row, run.from, run.to);
    }
    Job::sampled(
        FEW_SAMPLES,
        format!("book the window, {}", zones.name()),
        AT_MOST,
        &inputs,
        ours,
        theirs,
        Vec::new(),
    )
}

fn save() -> Job {
    let mut source = Source::new();
    let tallies = source.tallies();
    for &tally in &tallies {
        same_saved(tally, RECORD);
        same_saved(tally, RECORD - 1);
        same_saved(source.damaged_tally(tally), RECORD + 1);
        same_saved(source.damaged_tally(tally), 0);
    }
    let mut ours = [0; RECORD];
    let mut theirs = ours;
    Job::measured(
        "save a tally".to_string(),
        AT_MOST,
        &tallies,
        |&tally| length_sum(library::save_tally(tally, &mut ours)),
        |&tally| length_sum(plain::save_tally(tally, &mut theirs)),
    )
}

fn read() -> Job {
    let mut source = Source::new();
    let tallies = source.tallies();
    let mut records = Vec::new();
    for tally in tallies {
        let mut record = [0; RECORD];
        assert_eq!(library::save_tally(tally, &mut record).refusal, 0);
        same_read(&record);
        same_read(&source.damaged(&record));
        records.push(record);
    }
    Job::measured(
        "read a tally".to_string(),
        None,
        &records,
        |record| tally_sum(library::read_tally(record)),
        |record| tally_sum(plain::read_tally(record)),
    )
}

/// Every input, its rule or its tally damaged; and some runs to and from
/// anywhere, which may be as long as the window.
fn same_everywhere(inputs: &[Booked]) {
    let mut source = Source::new();
    for (place, run) in inputs.iter().enumerate() {
        let Booked {
            tally,
            row,
            from,
            to,
        } = *run;
        same_booked(tally, row, from, to);
        let damaged = row.map(|rule| source.damaged_rule(rule));
        same_booked(tally, &damaged, from, to);
        same_booked(source.damaged_tally(tally), row, from, to);
        same_booked(tally, row, to, from);
        let any = UtcTick {
            ticks: source.any_tick(),
        };
        same_booked(tally, row, any, any);
        if place % 64 == 0 {
            same_booked(tally, row, from, any);
            same_booked(tally, row, any, to);
        }
    }
}

/// The rule changes with each year, and the first has none before it.
fn same_in_long_rows() {
    let mut source = Source::new();
    for dates in DATES {
        for row in source.rows(dates) {
            let at = row.iter().position(|rule| rule.active == 1).unwrap();
            for _ in 0..200 {
                let [one, other] = [(); 2].map(|()| source.near_new_year());
                let [from, to] = [one.min(other), one.max(other)];
                same_run(&mut source, &row, from, to);
                same_run(&mut source, &row[..=at], from, to);
                same_run(&mut source, &row[at..], from, to);
                let damaged = source.damaged_row(&row);
                same_run(&mut source, &damaged, from, to);
            }
        }
    }
}

/// A run of any length, and one of some days, from a tally before it.
fn same_run(source: &mut Source, row: &[Rule], from: i64, to: i64) {
    let tally = source.tally_until(from.max(plain::fresh().end.ticks));
    let days = source.below(20 * 864_000_000_000) as i64;
    let [from, to, soon] = [from, to, from + days].map(|ticks| UtcTick { ticks });
    same_booked(tally, row, from, soon);
    same_booked(plain::fresh(), row, from, to);
}

fn same_booked(tally: Tally, row: &[Rule], from: UtcTick, to: UtcTick) {
    assert_eq!(
        library::book(tally, row, from, to),
        plain::book(tally, row, from, to),
        "{tally:?} {from:?} {to:?} in {row:?}"
    );
}

fn same_saved(tally: Tally, room: usize) {
    let mut ours = vec![0xaa; room];
    let mut theirs = ours.clone();
    assert_eq!(
        library::save_tally(tally, &mut ours),
        plain::save_tally(tally, &mut theirs),
        "{tally:?}"
    );
    assert_eq!(ours, theirs, "{tally:?}");
    assert_eq!(library::tally_holds(tally), plain::tally_holds(tally));
}

fn same_read(bytes: &[u8]) {
    assert_eq!(
        library::read_tally(bytes),
        plain::read_tally(bytes),
        "{bytes:02x?}"
    );
}
