//! Seeded logs of runs, booked by the tool and by the pencil account: the
//! sheet in both forms, the tally file, the one from before and the zone's
//! file beside it, and for wrong logs which lines are named with which numbers.

use crate::calendar::Calendar;
use crate::pencil_account::Account;
use crate::report::{Enough, Outcome, Section};
use crate::run_ticks::{Counter, Run};
use crate::seeded::Seeded;
use crate::sheet_text::{book_log, csv, table};
use crate::tally_reference::{fresh, record};
use crate::time_reference::{TICKS_PER_DAY, TICKS_PER_HOUR, TICKS_PER_MINUTE};
use crate::time_text::{utc_text, Fault};
use crate::tool_runs::{said, Held, Told, Tool};
use crate::zone_examples::tick;
use crate::zone_files::{spelt, zone_files, ZoneFile, SPELLINGS};
use crate::zone_reference::{WINDOW_END, WINDOW_START};
use crate::Basis;
use std::fmt::{self, Debug};

const LOGS: usize = 210;

/// The tool names no more wrong lines than this.
const MOST_SAID: usize = 20;

const FILES: [&str; 7] = [
    "tally",
    "tally.zone",
    "tally.old",
    "cut",
    "cut.zone",
    "cut.old",
    "rest.log",
];

pub fn section(basis: &Basis, tool: &Tool) -> Section {
    let outcomes = [Outcome::Answered, Outcome::No];
    Section::run("the tool: seeded logs", &outcomes, 800, |section| {
        section.want(&SPELLINGS);
        section.want(&CASES);
        let mut logs = Logs {
            calendar: &basis.calendar,
            seeded: Seeded::new(basis.seed, "tool logs"),
        };
        let zones = zone_files(&basis.calendar);
        for number in 0..LOGS {
            let case = logs.case(&zones[number % zones.len()]);
            try_case(section, &basis.calendar, tool, &case)?;
        }
        Ok(())
    })
}

const CASES: [&str; 14] = [
    "registry",
    "remote-desktop",
    "definition",
    "on a tally",
    "standard input",
    "no last line end",
    "CRLF",
    "refused 14",
    "refused 15",
    "refused 16",
    "refused 17",
    "not a time",
    "not two times",
    "more than are said",
];

/// What the tool is handed.
struct Case<'a> {
    zone: &'a ZoneFile,
    spelling: &'static str,
    /// The zone's file.
    file: Vec<u8>,
    /// What was booked before.
    before: Vec<Run>,
    log: String,
    by_input: bool,
    as_csv: bool,
    /// After which line the log is cut in two.
    cut: usize,
}

impl Debug for Case<'_> {
    fn fmt(&self, f: &mut fmt::Formatter<'_>) -> fmt::Result {
        write!(f, "{} zone, {}; ", self.zone.name, self.spelling)?;
        write!(f, "after {:?}; {:?}", self.before, self.log)
    }
}

fn try_case(
    section: &mut Section,
    calendar: &Calendar,
    tool: &Tool,
    case: &Case,
) -> Result<(), Enough> {
    let counter = Counter::of(calendar, &case.zone.row).expect("an accepted zone");
    let mut account = Account::of(counter);
    tool.remove(&FILES);
    tool.write("zone", &case.file);
    tool.write("week.log", case.log.as_bytes());
    for &run in &case.before {
        account.book(run).expect("a run in its order");
    }
    let before = record(&account.tally());
    match case.before.is_empty() {
        true => begin(section, tool, case, "tally")?,
        false => {
            tool.write("tally", &before);
            tool.write("tally.zone", &case.zone.record);
        }
    }

    let faults = book_log(calendar, &mut account, &case.log);
    note(section, case, &faults);
    let forms = [table, csv].map(|form| form(calendar, &account.tally()));
    let [shown, other] = match case.as_csv {
        false => forms,
        true => [forms[1].clone(), forms[0].clone()],
    };
    let given = book(tool, case, "tally", "week.log");
    if !faults.is_empty() {
        let name = if case.by_input { "-" } else { "week.log" };
        section.compare(case, given, wrong(name, &faults))?;
        return stands(section, tool, case, "tally", [Some(before), None]);
    }
    section.compare(case, given, shows(shown))?;
    let saved = record(&account.tally());
    let held = [Some(saved.clone()), Some(before)];
    stands(section, tool, case, "tally", held)?;
    let again = match case.as_csv {
        false => tool.run(&["sheet", "--csv", "tally"], b""),
        true => tool.run(&["sheet", "tally"], b""),
    };
    section.compare(case, again, shows(other))?;
    match case.before.is_empty() {
        true => in_two(section, tool, case, &saved),
        false => Ok(()),
    }
}

/// Nothing is told, and a tally stands there on which nothing is booked.
fn begin(section: &mut Section, tool: &Tool, case: &Case, tally: &str) -> Result<(), Enough> {
    let begun = tool.run(&["new", "zone", tally], b"");
    section.compare(case, begun, shows(String::new()))?;
    stands(section, tool, case, tally, [Some(record(&fresh())), None])
}

/// What is held by the tally and by the one from before, with the zone beside
/// them.
fn stands(
    section: &mut Section,
    tool: &Tool,
    case: &Case,
    tally: &str,
    held: [Option<Vec<u8>>; 2],
) -> Result<(), Enough> {
    let [now, before] = held;
    section.compare(case, tool.held(tally), Held(now))?;
    section.compare(case, tool.held(&format!("{tally}.old")), Held(before))?;
    let zone = Held(Some(case.zone.record.clone()));
    section.compare(case, tool.held(&format!("{tally}.zone")), zone)
}

/// The same log in two, with a second start of the tool between them.
fn in_two(section: &mut Section, tool: &Tool, case: &Case, saved: &[u8]) -> Result<(), Enough> {
    begin(section, tool, case, "cut")?;
    let lines: Vec<&str> = case.log.split_inclusive('\n').collect();
    let (first, second) = lines.split_at(case.cut);
    for part in [first, second] {
        tool.write("rest.log", part.concat().as_bytes());
        book(tool, case, "cut", "rest.log");
    }
    section.compare(case, tool.held("cut"), Held(Some(saved.to_vec())))
}

fn book(tool: &Tool, case: &Case, tally: &str, log: &str) -> Told {
    let mut arguments = vec!["book"];
    if case.as_csv {
        arguments.push("--csv");
    }
    arguments.extend(["zone", tally]);
    if !case.by_input || log != "week.log" {
        arguments.push(log);
        return tool.run(&arguments, b"");
    }
    if case.cut % 2 == 0 {
        arguments.push("-");
    }
    tool.run(&arguments, case.log.as_bytes())
}

pub fn shows(output: String) -> Told {
    Told {
        status: 0,
        output,
        errors: Vec::new(),
    }
}

/// What is told of a log with wrong lines.
pub fn wrong(name: &str, faults: &[(usize, Fault)]) -> Told {
    let mut errors: Vec<String> = faults
        .iter()
        .take(MOST_SAID)
        .map(|&(line, fault)| {
            let what = said(
                fault,
                "not a time, as 2023-03-26T00:00:00Z or a TIME number",
            );
            format!("hours: {name}: line {line}: {what}")
        })
        .collect();
    let count = faults.len();
    let lines = if count == 1 { "line" } else { "lines" };
    errors.push(format!(
        "hours: {name}: {count} wrong {lines}; nothing is booked"
    ));
    Told {
        status: 1,
        output: String::new(),
        errors,
    }
}

fn note(section: &mut Section, case: &Case, faults: &[(usize, Fault)]) {
    section.saw(case.zone.name);
    section.saw(case.spelling);
    let seen = [
        (!case.before.is_empty(), "on a tally"),
        (case.by_input, "standard input"),
        (!case.log.ends_with('\n'), "no last line end"),
        (case.log.contains("\r\n"), "CRLF"),
        (faults.len() > MOST_SAID, "more than are said"),
    ];
    for (came_up, name) in seen {
        if came_up {
            section.saw(name);
        }
    }
    for (_, fault) in faults {
        match fault {
            Fault::Refused(number) => section.saw(&format!("refused {number}")),
            Fault::NotATime => section.saw("not a time"),
            Fault::NotTwoTimes => section.saw("not two times"),
        }
    }
}

// ---- making them

pub struct Logs<'a> {
    pub calendar: &'a Calendar,
    pub seeded: Seeded,
}

impl Logs<'_> {
    fn case<'z>(&mut self, zone: &'z ZoneFile) -> Case<'z> {
        let spelling = self.seeded.pick(&SPELLINGS);
        // Without a rule at first.
        let is_early = zone.row[0].year != 0 && self.seeded.one_in(6);
        let mut end = match is_early {
            true => tick(self.calendar, "1999-12-30 00:00"),
            false => self.start(zone),
        };
        let before = match !is_early && self.seeded.one_in(2) {
            true => {
                let count = self.seeded.between_usize(1, 5);
                self.runs(&mut end, count)
            }
            false => Vec::new(),
        };
        let count = self.seeded.between_usize(1, 60);
        let wrong_one_in = match self.seeded.between(0, 9) {
            0..=5 => None,
            6 => Some(2),
            _ => Some(12),
        };
        let log = self.log(&mut end, count, wrong_one_in);
        let lines = log.split_inclusive('\n').count();
        Case {
            spelling,
            file: spelt(&mut self.seeded, &zone.record, spelling),
            zone,
            before,
            by_input: self.seeded.one_in(4),
            as_csv: self.seeded.one_in(2),
            cut: self.seeded.between_usize(0, lines),
            log,
        }
    }

    /// Mostly these decades, at times an end of the window.
    fn start(&mut self, zone: &ZoneFile) -> i64 {
        let first = match zone.row[0].year {
            0 => WINDOW_START,
            year => self.calendar.first_day(year as i16) * TICKS_PER_DAY,
        };
        match self.seeded.between(0, 9) {
            0 => first,
            1 => WINDOW_END - self.seeded.between(1, 30) * TICKS_PER_DAY,
            2 | 3 => tick(self.calendar, "2000-12-30 00:00"),
            _ => {
                let from = tick(self.calendar, "2000-01-01 00:00");
                let to = tick(self.calendar, "2035-01-01 00:00");
                self.seeded.between(from, to)
            }
        }
    }

    fn runs(&mut self, end: &mut i64, count: usize) -> Vec<Run> {
        (0..count).map(|_| self.run(end)).collect()
    }

    /// A run in its order, with a gap before it or none.
    fn run(&mut self, end: &mut i64) -> Run {
        let from = match self.seeded.one_in(4) {
            true => *end,
            false => self.later(*end),
        };
        let to = self.later(from);
        *end = to;
        Run { from, to }
    }

    /// Often at a whole second, minute or hour.
    fn later(&mut self, time: i64) -> i64 {
        let length = match self.seeded.between(0, 19) {
            0 => 0,
            1 => 1,
            2..=4 => self.seeded.between(1, 90) * TICKS_PER_MINUTE,
            5..=9 => self.seeded.between(1, 24) * TICKS_PER_HOUR,
            10..=15 => self.seeded.between(1, 2 * TICKS_PER_DAY),
            16 | 17 => self.seeded.between(1, 9 * TICKS_PER_DAY),
            18 => self.seeded.between(1, 60) * 7 * TICKS_PER_DAY,
            _ => self.seeded.between(1, 800 * TICKS_PER_DAY),
        };
        let later = time.saturating_add(length).min(WINDOW_END);
        // So many digits of a fraction are left, or it is a whole hour.
        let round = match self.seeded.between(0, 9) {
            0 => TICKS_PER_HOUR,
            1 => TICKS_PER_MINUTE,
            digits => 10_i64.pow((9 - digits) as u32),
        };
        time.max(later - later % round)
    }

    fn log(&mut self, end: &mut i64, count: usize, wrong_one_in: Option<i64>) -> String {
        let mut log = String::new();
        let line_end = self.seeded.pick(&["\n", "\r\n"]);
        for place in 0..count {
            if self.seeded.one_in(8) {
                log += self.seeded.pick(&NO_RUNS);
                log += line_end;
            }
            log += &match wrong_one_in {
                Some(chances) if self.seeded.one_in(chances) => self.wrong_line(*end),
                _ => {
                    let run = self.run(end);
                    self.line(run)
                }
            };
            if place + 1 < count || !self.seeded.one_in(3) {
                log += line_end;
            }
        }
        log
    }

    pub fn line(&mut self, run: Run) -> String {
        let before = self.seeded.pick(&["", "", "", " ", "\t"]);
        let between = self.seeded.pick(&[" ", "  ", "\t", " \t "]);
        let after = self
            .seeded
            .pick(&["", "", "", " ", "\t", " # late shift", "#"]);
        let [from, to] = [run.from, run.to].map(|time| self.time(time));
        format!("{before}{from}{between}{to}{after}")
    }

    /// A TIME as a number, at times with zeros in front, or as a date with as
    /// few digits of a fraction as there must be, or some zeros more.
    fn time(&mut self, time: i64) -> String {
        match self.seeded.between(0, 9) {
            0..=2 => return time.to_string(),
            3 => return format!("{time:025}"),
            _ => {}
        }
        let whole = utc_text(self.calendar, time);
        let clock = whole.trim_end_matches('Z');
        let mut short = match clock.contains('.') {
            true => clock.trim_end_matches('0').to_string(),
            false => clock.to_string() + ".",
        };
        let digits = short.len() - short.find('.').unwrap_or_default() - 1;
        let more = self.seeded.between_usize(0, 7 - digits);
        short += &"0".repeat(more);
        short.trim_end_matches('.').to_string() + "Z"
    }

    pub fn wrong_line(&mut self, end: i64) -> String {
        let good = utc_text(self.calendar, end);
        let bad = self.seeded.pick(&WRONG_TIMES);
        match self.seeded.between(0, 9) {
            0 => format!("{bad} {good}"),
            1..=3 => format!("{good} {bad}"),
            4 => format!("{bad} {}", self.seeded.pick(&WRONG_TIMES)),
            5 => good,
            6 => format!("{good} {good} {good}"),
            // Before the end of the run before, or backwards.
            7 => format!("{} {good}", end - 1),
            8 => format!("{good} {}", end - 1),
            _ => format!("{} {}", WINDOW_START + 5, end),
        }
    }
}

/// Lines that are passed over.
pub const NO_RUNS: [&str; 6] = ["", " ", "\t", "# a comment", "   #", "#1 2 3"];

const WRONG_TIMES: [&str; 26] = [
    "0",
    "-1",
    "-9223372036854775808",
    "9223372036854775807",
    "9223372036854775808",
    "315359999999999",
    "9223149888000000001",
    "+133429680000000000",
    "1.5",
    "0x10",
    "Z",
    "monday",
    "2023-10-23T04:00:00",
    "2023-10-23T04:00:00z",
    "2023-10-23t04:00:00Z",
    "2023-10-23T04:00Z",
    "2023-10-23T4:00:00Z",
    "2023-10-23T04:00:00.Z",
    "2023-10-23T04:00:00.12345678Z",
    "2023-10-23T04:00:00+01:00",
    "2023-02-29T00:00:00Z",
    "2023-13-01T00:00:00Z",
    "2023-10-23T24:00:00Z",
    "2023-10-30T23:59:60Z",
    "30828-09-14T02:48:05.4775808Z",
    "99999-01-01T00:00:00Z",
];
