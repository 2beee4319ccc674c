//! The tool's commands on times against the reference: each argument is
//! answered by a line, or named on standard error. The commands that take a
//! revision are asked by both, by none, and by others.

use crate::calendar::Calendar;
use crate::hours_demo::WEEKDAYS;
use crate::report::{Enough, Outcome, Section};
use crate::seeded::Seeded;
use crate::time_reference::{
    time_to_fields, REVISION_1_0, REVISION_1_2, TICKS_PER_DAY, TICKS_PER_MINUTE, UNKNOWN_REVISION,
};
use crate::time_text::{clock_text, local_time, utc_text, utc_time, Fault};
use crate::tool_runs::{said, Told, Tool};
use crate::zone_examples::tick;
use crate::zone_files::zone_files;
use crate::zone_reference::{Zone, WINDOW_END, WINDOW_START};
use crate::Basis;

const ROUNDS: usize = 20;
const TIMES: usize = 40;

/// How many UTC times a local time can have.
const LISTS: [&str; 5] = ["none", "one", "two", "three", "four"];

/// The commands that take a revision.
const BY_REVISION: [&str; 2] = ["fields", "time"];

/// What says a revision, the revision that it says, and the case of a second
/// 60 by it that revision 1.2 answers.
const REVISIONS: [(&[&str], u32, &str); 3] = [
    (&[], REVISION_1_2, "second 60"),
    (&["--revision", "10"], REVISION_1_0, "second 60 by 10"),
    (&["--revision", "12"], REVISION_1_2, "second 60 by 12"),
];

/// Texts that say no revision.
const OTHERS: [&str; 14] = [
    "11",
    "0",
    "1",
    "120",
    "266",
    "268",
    "65546",
    "4294967306",
    "4294967308",
    "18446744073709551626",
    "1.0",
    "1.2",
    "abc",
    "",
];

pub fn section(basis: &Basis, tool: &Tool) -> Section {
    let calendar = &basis.calendar;
    let outcomes = [Outcome::Answered, Outcome::No];
    Section::run("the tool: seeded times", &outcomes, 200, |section| {
        section.want(&LISTS);
        section.want(&["refused 14", "refused 15", "refused 16", "not a time"]);
        section.want(&["refused 22"]);
        section.want(&REVISIONS.map(|(_, _, case)| case));
        let mut times = Times {
            calendar,
            seeded: Seeded::new(basis.seed, "tool times"),
        };
        for _ in 0..ROUNDS {
            by_revisions(section, tool, &mut times)?;
            for file in zone_files(calendar) {
                let zone = Zone::of(calendar, &file.row).expect("an accepted zone");
                tool.write("zone", &file.record);
                let words = times.words("Z");
                ask(section, tool, &["local", "zone"], &words, |word| {
                    let time = utc_time(calendar, REVISION_1_2, word)?;
                    let local = zone.utc_to_local(time).map_err(Fault::Refused)?;
                    Ok(clock_text(calendar, local))
                })?;
                let words = times.words("");
                let mut lengths = Vec::new();
                ask(section, tool, &["utc", "zone"], &words, |word| {
                    let time = local_time(calendar, word)?;
                    let list = zone.local_to_utc(time).map_err(Fault::Refused)?;
                    lengths.push(list.len());
                    Ok(listed(calendar, &list))
                })?;
                for length in lengths {
                    section.saw(LISTS[length]);
                }
            }
        }
        by_others(section, tool, &mut times)
    })
}

/// The same words by each revision.
fn by_revisions(section: &mut Section, tool: &Tool, times: &mut Times) -> Result<(), Enough> {
    let calendar = times.calendar;
    let words = times.words("Z");
    let has_second_60 = SECOND_60
        .iter()
        .any(|text| words.contains(&format!("{text}Z")));
    for (options, revision, case) in REVISIONS {
        if has_second_60 {
            section.saw(case);
        }
        let [fields_by, time_by] = BY_REVISION.map(|command| [&[command], options].concat());
        ask(section, tool, &fields_by, &words, |word| {
            fields(calendar, revision, utc_time(calendar, revision, word)?)
        })?;
        ask(section, tool, &time_by, &words, |word| {
            Ok(utc_time(calendar, revision, word)?.to_string())
        })?;
    }
    Ok(())
}

/// Another number is named once, before any of the times is read.
fn by_others(section: &mut Section, tool: &Tool, times: &mut Times) -> Result<(), Enough> {
    for text in OTHERS {
        for command in BY_REVISION {
            let words = times.words("Z");
            let mut arguments = vec![command, "--revision", text];
            arguments.extend(words.iter().map(String::as_str));
            let what = said(Fault::Refused(UNKNOWN_REVISION), "not a time");
            section.saw(&what);
            let expected = Told {
                status: 1,
                output: String::new(),
                errors: vec![format!("hours: --revision: {what}")],
            };
            section.compare(&arguments, tool.run(&arguments, b""), expected)?;
        }
    }
    Ok(())
}

fn fields(calendar: &Calendar, revision: u32, time: i64) -> Result<String, Fault> {
    let answer = time_to_fields(calendar, revision, time);
    match answer.refusal {
        0 => {
            let weekday = WEEKDAYS[answer.fields.weekday as usize];
            Ok(format!("{} {weekday}", utc_text(calendar, time)))
        }
        number => Err(Fault::Refused(number)),
    }
}

fn listed(calendar: &Calendar, list: &[i64]) -> String {
    let texts: Vec<String> = list.iter().map(|&utc| utc_text(calendar, utc)).collect();
    match texts.is_empty() {
        true => "none".to_string(),
        false => texts.join(" "),
    }
}

/// Runs the tool on some words and compares what it tells.
fn ask(
    section: &mut Section,
    tool: &Tool,
    command: &[&str],
    words: &[String],
    mut answer: impl FnMut(&str) -> Result<String, Fault>,
) -> Result<(), Enough> {
    let mut expected = Told {
        status: 0,
        output: String::new(),
        errors: Vec::new(),
    };
    for word in words {
        match answer(word) {
            Ok(line) => expected.output += &(line + "\n"),
            Err(fault) => {
                let what = said(fault, "not a time");
                section.saw(&what);
                expected.errors.push(format!("hours: {word}: {what}"));
                expected.status = 1;
            }
        }
    }
    let arguments: Vec<&str> = command
        .iter()
        .copied()
        .chain(words.iter().map(String::as_str))
        .collect();
    section.compare(&arguments, tool.run(&arguments, b""), expected)
}

struct Times<'a> {
    calendar: &'a Calendar,
    seeded: Seeded,
}

impl Times<'_> {
    /// Texts of times with an ending, and at times one that is wrong.
    fn words(&mut self, ending: &str) -> Vec<String> {
        let is_wrong = self.seeded.one_in(2);
        (0..TIMES)
            .map(|_| match is_wrong && self.seeded.one_in(8) {
                true => self.seeded.pick(&WRONG).to_string() + ending,
                false => self.word(ending),
            })
            .collect()
    }

    fn word(&mut self, ending: &str) -> String {
        if self.seeded.one_in(60) {
            return self.seeded.pick(&SECOND_60).to_string() + ending;
        }
        let time = self.time();
        match time < 0 || self.seeded.one_in(3) {
            true => time.to_string(),
            false => clock_text(self.calendar, time) + ending,
        }
    }

    /// Around the switches of the three zones, in the window, or any.
    fn time(&mut self) -> i64 {
        let around = self.seeded.pick(&[
            "2000-12-31 23:00",
            "2001-01-01 00:00",
            "2023-03-26 02:00",
            "2023-10-29 02:00",
            "2023-04-02 02:00",
            "2023-10-01 02:00",
            "2019-03-10 02:00",
            "2019-11-03 02:00",
            "1999-12-31 23:00",
        ]);
        match self.seeded.between(0, 19) {
            0 => self.seeded.between(0, i64::MAX),
            1 => self.seeded.between(WINDOW_START, WINDOW_END),
            2 => self.seeded.between(0, 3) + WINDOW_START - 2,
            3 => self.seeded.between(0, 3) + WINDOW_END - 2,
            4 => tick(self.calendar, around) + self.seeded.between(-TICKS_PER_DAY, TICKS_PER_DAY),
            _ => tick(self.calendar, around) + self.seeded.between(-90, 150) * TICKS_PER_MINUTE,
        }
    }
}

/// Seconds 60 that revision 1.2 answers, with an ending behind them.
const SECOND_60: [&str; 4] = [
    "2016-12-31T23:59:60",
    "2023-10-31T23:59:60.9999999",
    "2000-02-29T23:59:60.5",
    "30828-08-31T23:59:60",
];

/// With an ending behind them.
const WRONG: [&str; 11] = [
    "-5",
    "+5",
    "",
    "-",
    "2023-02-30T00:00:00",
    "2023-10-30T23:59:60",
    "30828-09-30T23:59:60",
    "32767-12-31T23:59:60",
    "31000-01-01T00:00:00",
    "2023-10-23T04:00:00.",
    "2023-10-23 04:00:00",
];
