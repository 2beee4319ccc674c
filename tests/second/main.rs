//! The second program: the library's calls against a reference that was
//! written from the papers alone, against the C library's dates and the
//! transitions of the system's zone data, and against the papers' own
//! examples.
//!
//! It takes a seed as its only argument, or has one of its own. It ends with
//! status 0 when nothing differed and every outcome came up, else with 1.
//!
//! With one of these arguments it calls no library:
//! - `hours-demo` prints what the program crates/hours_demo has to print;
//! - `monday-sheet` or `monday-sheet --csv` prints what the tool has to print
//!   of the log on standard input, in zone P;
//! - `zone-records FOLDER` writes a zone record of each kind into a folder;
//! - `tool PROGRAM FOLDER` runs the tool on seeded logs and times in a folder.

mod answers;
mod calendar;
mod definition_calls;
mod definition_damage;
mod definition_examples;
mod examples;
mod glibc;
mod hex;
mod hours_demo;
mod lent_memory;
mod library;
mod one_rule_calls;
mod one_rule_examples;
mod outside_zones;
mod pencil_account;
mod raw_definition;
mod record_calls;
mod record_examples;
mod record_reference;
mod record_round_trips;
mod record_sweeps;
mod refusal_order;
mod report;
mod revision_laws;
mod revisions;
mod row_damage;
mod rule_damage;
mod run_ticks;
mod script_lists;
mod seeded;
mod seeded_names;
mod seeded_rules;
mod seeded_tallies;
mod seeded_zones;
mod sheet_text;
mod tally_any;
mod tally_calls;
mod tally_example_runs;
mod tally_examples;
mod tally_lists;
mod tally_reference;
mod tally_refusals;
mod tally_sweeps;
mod time_calls;
mod time_inputs;
mod time_reference;
mod time_text;
mod tool_logs;
mod tool_long_logs;
mod tool_runs;
mod tool_times;
mod zdump;
mod zdump_runs;
mod zone_calls;
mod zone_example_rows;
mod zone_examples;
mod zone_files;
mod zone_laws;
mod zone_reference;
mod zone_refusals;
mod zone_rules;
mod zone_sweeps;
mod zone_ticks;

use calendar::Calendar;
use report::{Section, Sum};
use std::process::ExitCode;
use tool_runs::Tool;

/// What every section rests on.
pub struct Basis {
    pub calendar: Calendar,
    pub seed: u64,
}

const SEED: u64 = 16_010_101;

fn main() -> ExitCode {
    let arguments: Vec<String> = std::env::args().skip(1).collect();
    let words: Vec<&str> = arguments.iter().map(String::as_str).collect();
    match words[..] {
        [] => against_library(SEED),
        ["hours-demo"] => {
            hours_demo::print(&Calendar::walk());
            ExitCode::SUCCESS
        }
        ["monday-sheet"] => {
            sheet_text::print(&Calendar::walk(), false);
            ExitCode::SUCCESS
        }
        ["monday-sheet", "--csv"] => {
            sheet_text::print(&Calendar::walk(), true);
            ExitCode::SUCCESS
        }
        ["zone-records", folder] => {
            zone_files::write_records(&Calendar::walk(), folder);
            ExitCode::SUCCESS
        }
        ["tool", program, folder] => against_tool(program, folder),
        _ => match words[0].parse() {
            Ok(seed) => against_library(seed),
            Err(_) => {
                eprintln!("second program: the seed is a whole number below 2^64");
                ExitCode::from(2)
            }
        },
    }
}

fn against_tool(program: &str, folder: &str) -> ExitCode {
    let tool = Tool {
        program: program.into(),
        folder: folder.into(),
    };
    let basis = Basis {
        calendar: Calendar::walk(),
        seed: SEED,
    };
    let mut sum = Sum::default();
    let parts = [
        tool_logs::section,
        tool_long_logs::section,
        tool_times::section,
    ];
    for part in parts {
        sum.add(&part(&basis, &tool));
    }
    verdict(&sum)
}

fn against_library(seed: u64) -> ExitCode {
    println!("second program: seed {seed}");

    let basis = Basis {
        calendar: Calendar::walk(),
        seed,
    };
    let parts: [fn(&Basis) -> Vec<Section>; 23] = [
        examples::sections,
        time_calls::sections,
        revision_laws::sections,
        glibc::sections,
        record_examples::sections,
        refusal_order::sections,
        one_rule_calls::sections,
        definition_calls::sections,
        record_sweeps::sections,
        record_round_trips::sections,
        zone_examples::sections,
        zone_refusals::sections,
        zone_calls::sections,
        zone_sweeps::sections,
        zone_laws::sections,
        zdump::sections,
        tally_examples::sections,
        tally_refusals::sections,
        tally_any::sections,
        tally_sweeps::sections,
        tally_lists::sections,
        script_lists::sections,
        zdump_runs::sections,
    ];
    let mut sum = Sum::default();
    for part in parts {
        for section in part(&basis) {
            sum.add(&section);
        }
    }
    verdict(&sum)
}

fn verdict(sum: &Sum) -> ExitCode {
    if sum.finish() {
        ExitCode::SUCCESS
    } else {
        ExitCode::FAILURE
    }
}
