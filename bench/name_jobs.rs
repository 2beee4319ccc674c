//! Definitions with a name of 260 units, beside plain Rust: of one rule, where
//! the name is nearly all there is to do, and of as many as there may be. Both
//! have to agree on every input, and on names with a surrogate put into them.

use crate::library::{self, Rule};
use crate::measure::{Job, Table};
use crate::plain_records as plain;
use crate::record_inputs::{Dates, Source, LONG_NAME, RULES};
use crate::record_jobs::{
    count_sum, length_sum, same_definition_read, same_definition_written, AT_MOST,
};

/// Rules of each definition, how the row of the table calls them, and how many
/// definitions there are.
const KINDS: [(usize, &str, usize); 2] = [(1, "1 rule", 256), (RULES, "1,024 rules", 4)];

/// Names with a surrogate put into them, for each definition.
const COPIES: usize = 20;

pub fn add_all(table: &mut Table) {
    for (rules, name, definitions) in KINDS {
        let definitions = inputs(rules, definitions);
        table.add(read(name, &definitions));
        table.add(write(name, &definitions));
    }
}

struct Definition {
    name: Vec<u8>,
    row: Vec<Rule>,
    bytes: Vec<u8>,
}

fn inputs(rules: usize, definitions: usize) -> Vec<Definition> {
    let mut source = Source::new();
    let length = 10 + LONG_NAME + 66 * rules;
    let mut all = Vec::new();
    for _ in 0..definitions {
        let name = source.long_name();
        let row = source.row_of(rules, Dates::Yearly);
        let mut bytes = vec![0; length];
        let written = library::write_definition(&name, &row, &mut bytes);
        assert_eq!((written.refusal, written.length), (0, length));
        same_definition_read(&bytes, rules);
        same_definition_written(&name, &row, length);
        for _ in 0..COPIES {
            let damaged = source.damaged_name(&name);
            same_definition_written(&damaged, &row, length);
            let mut bytes = bytes.clone();
            bytes[8..8 + LONG_NAME].copy_from_slice(&damaged);
            same_definition_read(&bytes, rules);
        }
        all.push(Definition { name, row, bytes });
    }
    all
}

fn read(rules: &str, definitions: &[Definition]) -> Job {
    let mut ours = definitions[0].row.clone();
    let mut theirs = ours.clone();
    Job::measured(
        format!("read {rules}, 260 units"),
        AT_MOST,
        definitions,
        |it| count_sum(library::read_definition(&it.bytes, &mut ours)),
        |it| count_sum(plain::read_definition(&it.bytes, &mut theirs)),
    )
}

fn write(rules: &str, definitions: &[Definition]) -> Job {
    let mut ours = definitions[0].bytes.clone();
    let mut theirs = ours.clone();
    Job::measured(
        format!("write {rules}, 260 units"),
        AT_MOST,
        definitions,
        |it| length_sum(library::write_definition(&it.name, &it.row, &mut ours)),
        |it| length_sum(plain::write_definition(&it.name, &it.row, &mut theirs)),
    )
}
