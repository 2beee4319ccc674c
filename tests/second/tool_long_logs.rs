//! Seeded logs that are longer than what the tool reads at once, by a file and
//! by a pipe that is written to in pieces. A run, or a wrong line, lies across
//! every place at which a read of 65,536 bytes can end.

use crate::calendar::Calendar;
use crate::pencil_account::Account;
use crate::report::{Enough, Outcome, Section};
use crate::run_ticks::{Counter, Run};
use crate::seeded::Seeded;
use crate::sheet_text::{book_log, csv, table};
use crate::tally_reference::record;
use crate::time_reference::{TICKS_PER_DAY, TICKS_PER_HOUR, TICKS_PER_MINUTE, TICKS_PER_SECOND};
use crate::time_text::{run_of, Fault};
use crate::tool_logs::{shows, wrong, Logs, NO_RUNS};
use crate::tool_runs::{Held, Tool};
use crate::zone_examples::tick;
use crate::zone_files::{zone_files, ZoneFile};
use crate::Basis;
use std::fmt::{self, Debug};

const LOGS: usize = 40;

/// As much as the tool may read at once.
const BORDER: usize = 65_536;

const SHORTEST: usize = 100_000;
const LONGEST: usize = 400_000;

/// The pipe is written to in pieces of up to so many bytes. There are many of
/// the shortest, so their logs are no longer than this.
const PIECES: [usize; 4] = [7, 1_000, 65_537, 200_000];
const LONGEST_BY_FEW: usize = 180_000;

const FILES: [&str; 6] = [
    "tally",
    "tally.zone",
    "tally.old",
    "piped",
    "piped.zone",
    "piped.old",
];

const CASES: [&str; 11] = [
    "LF",
    "CRLF",
    "no last line end",
    "a run across a border",
    "a wrong line across a border",
    "in pieces up to 7",
    "in pieces up to 1000",
    "in pieces up to 65537",
    "in pieces up to 200000",
    "without a fault",
    "more faults than are said",
];

pub fn section(basis: &Basis, tool: &Tool) -> Section {
    let outcomes = [Outcome::Answered, Outcome::No];
    Section::run("the tool: seeded long logs", &outcomes, 300, |section| {
        section.want(&CASES);
        let mut logs = Logs {
            calendar: &basis.calendar,
            seeded: Seeded::new(basis.seed, "tool long logs"),
        };
        let zones = zone_files(&basis.calendar);
        for number in 0..LOGS {
            let case = logs.long_case(number, &zones[number % zones.len()]);
            try_case(section, &basis.calendar, tool, &case)?;
        }
        Ok(())
    })
}

/// What the tool is handed.
struct Case<'a> {
    number: usize,
    zone: &'a ZoneFile,
    log: String,
    /// The longest piece, and where each one ends.
    longest_piece: usize,
    cuts: Vec<usize>,
    as_csv: bool,
}

impl Debug for Case<'_> {
    fn fmt(&self, f: &mut fmt::Formatter<'_>) -> fmt::Result {
        write!(f, "log {}, {} zone, ", self.number, self.zone.name)?;
        write!(f, "{} bytes, ", self.log.len())?;
        write!(f, "pieces up to {}; ", self.longest_piece)?;
        write!(f, "across borders {:?}", across_borders(&self.log))
    }
}

/// By a file, and by a pipe.
fn try_case(
    section: &mut Section,
    calendar: &Calendar,
    tool: &Tool,
    case: &Case,
) -> Result<(), Enough> {
    let counter = Counter::of(calendar, &case.zone.row).expect("an accepted zone");
    let mut account = Account::of(counter);
    let fresh = record(&account.tally());
    let faults = book_log(calendar, &mut account, &case.log);
    let booked = record(&account.tally());
    let form = if case.as_csv { csv } else { table };
    let sheet = form(calendar, &account.tally());
    note(section, calendar, case, &faults);

    tool.remove(&FILES);
    tool.write("zone", &case.zone.record);
    tool.write("long.log", case.log.as_bytes());
    for (tally, name) in [("tally", "long.log"), ("piped", "-")] {
        let begun = tool.run(&["new", "zone", tally], b"");
        section.compare(case, begun, shows(String::new()))?;
        let mut arguments = vec!["book", "zone", tally, name];
        if case.as_csv {
            arguments.insert(1, "--csv");
        }
        let given = match name {
            "-" => tool.run_in_pieces(&arguments, &pieces(case)),
            _ => tool.run(&arguments, b""),
        };
        let (told, now, before) = match faults.is_empty() {
            true => (shows(sheet.clone()), &booked, Some(fresh.clone())),
            false => (wrong(name, &faults), &fresh, None),
        };
        section.compare(case, given, told)?;
        section.compare(case, tool.held(tally), Held(Some(now.clone())))?;
        section.compare(case, tool.held(&format!("{tally}.old")), Held(before))?;
    }
    Ok(())
}

fn pieces<'a>(case: &'a Case) -> Vec<&'a [u8]> {
    let mut from = 0;
    let mut pieces = Vec::new();
    for &to in &case.cuts {
        pieces.push(&case.log.as_bytes()[from..to]);
        from = to;
    }
    pieces
}

/// For each border the line that has bytes before it and behind it, with its
/// number. None where a line begins there.
fn across_borders(log: &str) -> Vec<Option<(usize, &str)>> {
    let mut borders = (BORDER..log.len()).step_by(BORDER).peekable();
    let mut lines = Vec::new();
    let mut from = 0;
    for (place, line) in log.split_inclusive('\n').enumerate() {
        while let Some(border) = borders.next_if(|&border| border < from + line.len()) {
            lines.push((from < border).then_some((place + 1, line)));
        }
        from += line.len();
    }
    lines
}

/// What came up. A border that no run or wrong line lies across would make a
/// test that sees less than it says, and so would a run without a tick.
fn note(section: &mut Section, calendar: &Calendar, case: &Case, faults: &[(usize, Fault)]) {
    let lines = across_borders(&case.log);
    assert!(!lines.is_empty(), "no border: {case:?}");
    for line in lines {
        let (number, text) = line.unwrap_or_else(|| panic!("a line ends at a border: {case:?}"));
        if faults.iter().any(|&(wrong, _)| wrong == number) {
            section.saw("a wrong line across a border");
        } else {
            let run = run_of(calendar, text.trim_end_matches(['\r', '\n']));
            let counts = matches!(run, Ok(Some(Run { from, to })) if from < to);
            assert!(counts, "no run at a border: {case:?}");
            section.saw("a run across a border");
        }
    }
    section.saw(match case.log.contains("\r\n") {
        true => "CRLF",
        false => "LF",
    });
    if !case.log.ends_with('\n') {
        section.saw("no last line end");
    }
    section.saw(&format!("in pieces up to {}", case.longest_piece));
    match faults.len() {
        0 => section.saw("without a fault"),
        1..=20 => {}
        _ => section.saw("more faults than are said"),
    }
}

// ---- making them

impl Logs<'_> {
    fn long_case<'z>(&mut self, number: usize, zone: &'z ZoneFile) -> Case<'z> {
        let longest_piece = PIECES[number / 2 % PIECES.len()];
        let longest = match longest_piece {
            7 => LONGEST_BY_FEW,
            _ => LONGEST,
        };
        let length = self.seeded.between_usize(SHORTEST, longest);
        let wrong_one_in = match self.seeded.one_in(3) {
            true => Some(self.seeded.pick(&[60, 1_000, 100_000])),
            false => None,
        };
        let log = self.long_log(length, wrong_one_in);
        Case {
            number,
            zone,
            cuts: self.cuts(log.len(), longest_piece),
            longest_piece,
            as_csv: self.seeded.one_in(2),
            log,
        }
    }

    /// Half of the pieces are as long as may be.
    fn cuts(&mut self, length: usize, longest_piece: usize) -> Vec<usize> {
        let mut cuts = Vec::new();
        let mut at = 0;
        while at < length {
            at += match self.seeded.one_in(2) {
                true => longest_piece,
                false => self.seeded.between_usize(1, longest_piece),
            };
            at = at.min(length);
            cuts.push(at);
        }
        cuts
    }

    fn long_log(&mut self, length: usize, wrong_one_in: Option<i64>) -> String {
        let from = tick(self.calendar, "2000-01-02 00:00");
        let to = tick(self.calendar, "2035-01-01 00:00");
        let mut end = self.seeded.between(from, to);
        let line_end = self.seeded.pick(&["\n", "\r\n"]);
        let mut log = String::new();
        while log.len() < length {
            let mut line = match wrong_one_in {
                _ if self.seeded.one_in(8) => self.no_run(),
                Some(chances) if self.seeded.one_in(chances) => self.wrong_line(end),
                _ => self.short_run_line(&mut end, 0),
            };
            let border = (log.len() / BORDER + 1) * BORDER;
            if log.len() + line.len() + line_end.len() >= border {
                line = match wrong_one_in.is_some() && self.seeded.one_in(2) {
                    true => self.wrong_line(end),
                    false => self.short_run_line(&mut end, 1),
                };
                // Blanks in front, where it would not reach across.
                let stop = log.len() + line.len() + line_end.len();
                if stop <= border {
                    let blanks = border - stop + self.seeded.between_usize(1, line.len());
                    line.insert_str(0, &" ".repeat(blanks));
                }
            }
            log += &line;
            log += line_end;
        }
        if self.seeded.one_in(3) {
            log.truncate(log.len() - line_end.len());
        }
        log
    }

    fn no_run(&mut self) -> String {
        match self.seeded.one_in(4) {
            true => format!("# {}", "-".repeat(self.seeded.between_usize(0, 200))),
            false => self.seeded.pick(&NO_RUNS).to_string(),
        }
    }

    /// A day at most, so that a log is of some years.
    fn short_run_line(&mut self, end: &mut i64, shortest: i64) -> String {
        let from = *end + self.short_time();
        let to = from + self.short_time().max(shortest);
        *end = to;
        self.line(Run { from, to })
    }

    fn short_time(&mut self) -> i64 {
        match self.seeded.between(0, 9) {
            0 => 0,
            1 => 1,
            2 | 3 => self.seeded.between(1, 3) * TICKS_PER_HOUR,
            4 | 5 => self.seeded.between(1, 180) * TICKS_PER_MINUTE,
            6 => self.seeded.between(1, 9_999) * TICKS_PER_SECOND,
            7 => self.seeded.between(1, 9_999_999),
            8 => self.seeded.between(1, 6 * TICKS_PER_HOUR),
            _ => self.seeded.between(1, TICKS_PER_DAY),
        }
    }
}
