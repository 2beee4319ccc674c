//! Scripts: whole lists of calls in one call, against the pencil account. The
//! tally, the log of numbers and the buffer after all calls are compared, with
//! what lies around both. Rows that are refused, buffers of any length and logs
//! that are too short are handed in too.

use crate::library::{self, Rule, ScriptCall, Tally, TallyAnswer, UtcTick};
use crate::pencil_account::Account;
use crate::record_calls::{outcomes, FirstRules};
use crate::record_reference::Written;
use crate::report::{Answer, Outcome, Section};
use crate::row_damage::Outgoing;
use crate::run_ticks::{Counter, Run};
use crate::seeded::Seeded;
use crate::seeded_rules::Source;
use crate::tally_reference::{self as reference, RECORD};
use crate::zone_reference::WINDOW_START;
use crate::zone_refusals::row_faults;
use crate::Basis;

/// Seeded scripts, and the most calls in one.
const SCRIPTS: u64 = 12_000;
const MOST_CALLS: i64 = 40;

/// So many bytes before and behind lent memory are watched too.
const AROUND: usize = 16;

const BOOKED: &str = "a run booked";
const SAVED: &str = "a tally saved";
const READ_BACK: &str = "a record read back";
const LONGER_BUFFER: &str = "a record read back from a longer buffer";
const STALE: &str = "a reading after a run was booked since";
const NOTHING_SAVED: &str = "a reading before any saving";
const ROW: &str = "a booking refused by its row";
const NO_ROOM: &str = "a saving told 13";
const OUTSIDE: &str = "a booking told 15";
const BEFORE_RULES: &str = "a booking told 16";
const ORDER: &str = "a booking told 17";
const LONGER_LOG: &str = "a log longer than the calls";
const NO_CALLS: &str = "no calls at all";

const CASES: [&str; 13] = [
    BOOKED,
    SAVED,
    READ_BACK,
    LONGER_BUFFER,
    STALE,
    NOTHING_SAVED,
    ROW,
    NO_ROOM,
    OUTSIDE,
    BEFORE_RULES,
    ORDER,
    LONGER_LOG,
    NO_CALLS,
];

pub fn sections(basis: &Basis) -> Vec<Section> {
    vec![scripts(basis)]
}

fn scripts(basis: &Basis) -> Section {
    let name = "scripts of calls: the pencil account";
    let mut source = Source::new(basis, name);
    let mut lent = Seeded::new(basis.seed, &format!("memory lent in {name}"));
    Section::run(name, &outcomes(&[13]), SCRIPTS, |section| {
        section.want(&CASES);
        for _ in 0..SCRIPTS {
            let count = source.zone_length();
            let sound = source.zone(count);
            let row = match source.seeded.one_in(8) {
                true => damaged(&mut source, &sound),
                false => sound.clone(),
            };
            let room = source.seeded.saving_room();
            let mut script = Script {
                account: Counter::of(&basis.calendar, &row).map(Account::of),
                buffer: lent.some_bytes(room),
                kept: false,
                ever_saved: false,
                log: Vec::new(),
            };
            let before = script.buffer.clone();
            let count = source.seeded.between(0, MOST_CALLS);
            let calls: Vec<_> = (0..count)
                .map(|_| script.next(section, &mut source, &sound))
                .collect();
            if calls.is_empty() {
                section.saw(NO_CALLS);
            }
            // Mostly long enough.
            let length = match source.seeded.one_in(10) {
                true => source.seeded.between_usize(0, calls.len()),
                false => calls.len() + source.seeded.between_usize(0, 3),
            };
            let log = lent.some_bytes(length);
            let expected = script.ran(section, &before, &log);
            let given = run(&mut lent, &row, &calls, &before, &log);
            section.compare((FirstRules(&row), &calls, room), given, expected)?;
        }
        Ok(())
    })
}

/// The row with a fault for which it is refused.
fn damaged(source: &mut Source, sound: &[Rule]) -> Vec<Rule> {
    let mut outgoing = Outgoing {
        name: Vec::new(),
        row: sound.to_vec(),
    };
    let fault = source.seeded.pick(&row_faults());
    let target = fault.target(source, &outgoing);
    fault.put(source, &mut outgoing, target);
    outgoing.row
}

/// What came of a script. No call wrote outside what was lent to it, and the
/// row and the calls are as they were, if `around` holds.
#[derive(PartialEq, Debug)]
struct Ran {
    answer: TallyAnswer,
    buffer: Vec<u8>,
    log: Vec<u8>,
    around: bool,
}

impl Answer for Ran {
    fn outcome(&self) -> Outcome {
        Outcome::by_number(self.answer.refusal)
    }
}

/// Runs a script with lent memory that holds these bytes.
fn run(lent: &mut Seeded, row: &[Rule], calls: &[ScriptCall], buffer: &[u8], log: &[u8]) -> Ran {
    let edges: [Vec<u8>; 4] = std::array::from_fn(|_| lent.some_bytes(AROUND));
    let mut buffers = [&edges[0], buffer, &edges[1]].concat();
    let mut logs = [&edges[2], log, &edges[3]].concat();
    let (row_before, calls_before) = (row.to_vec(), calls.to_vec());
    let answer = library::run_script(
        row,
        calls,
        &mut buffers[AROUND..][..buffer.len()],
        &mut logs[AROUND..][..log.len()],
    );
    let buffer = buffers[AROUND..][..buffer.len()].to_vec();
    let log = logs[AROUND..][..log.len()].to_vec();
    let mut rules = row.iter().zip(&row_before);
    let around = buffers == [&edges[0], &buffer[..], &edges[1]].concat()
        && logs == [&edges[2], &log[..], &edges[3]].concat()
        && rules.all(|(now, before)| now.is_untouched(before))
        && calls == calls_before;
    Ran {
        answer,
        buffer,
        log,
        around,
    }
}

/// A script by the pencil account, as far as its calls have come.
struct Script<'a> {
    /// Of a row that is refused, its number: then nothing is ever noted.
    account: Result<Account<'a>, u32>,
    buffer: Vec<u8>,
    /// The buffer starts with the record that the last accepted saving wrote,
    /// and no run was accepted since.
    kept: bool,
    ever_saved: bool,
    log: Vec<u8>,
}

impl Script<'_> {
    /// The next call of a seeded script.
    fn next(&mut self, section: &mut Section, source: &mut Source, row: &[Rule]) -> ScriptCall {
        let kind = match (source.seeded.between(0, 9), self.kept) {
            (0 | 1, _) => 1,
            (2, _) | (3..=5, true) => match source.seeded.one_in(2) {
                true => 2,
                false => source.seeded.any_u32().max(2),
            },
            _ => 0,
        };
        let end = self.account.as_ref().map_or(WINDOW_START, Account::end);
        let run = source.run(row, end);
        let number = match kind {
            0 => self.book(section, run),
            1 => self.save(section),
            _ => self.read(section),
        };
        self.log.push(number as u8);
        let [from, to] = [run.from, run.to].map(|ticks| UtcTick { ticks });
        ScriptCall { kind, from, to }
    }

    fn tally(&self) -> Tally {
        match &self.account {
            Ok(account) => account.tally(),
            Err(_) => reference::fresh(),
        }
    }

    fn book(&mut self, section: &mut Section, run: Run) -> u32 {
        let account = match &mut self.account {
            Ok(account) => account,
            Err(number) => {
                section.saw(ROW);
                return *number;
            }
        };
        match account.book(run) {
            Ok(_) => {
                section.saw(BOOKED);
                self.kept = false;
                0
            }
            Err(number) => {
                section.saw(match number {
                    15 => OUTSIDE,
                    16 => BEFORE_RULES,
                    _ => ORDER,
                });
                number
            }
        }
    }

    fn save(&mut self, section: &mut Section) -> u32 {
        let room = self.buffer.len();
        let written: Written = match &self.account {
            Ok(account) => account.save(room),
            Err(_) => reference::save(&reference::fresh(), room),
        };
        match written {
            Ok(record) => {
                section.saw(SAVED);
                self.buffer[..RECORD].copy_from_slice(&record);
                self.kept = true;
                self.ever_saved = true;
                0
            }
            Err(number) => {
                section.saw(NO_ROOM);
                number
            }
        }
    }

    /// The account answers with its own tally, which stays.
    fn read(&self, section: &mut Section) -> u32 {
        if !self.kept {
            section.saw(match self.ever_saved {
                true => STALE,
                false => NOTHING_SAVED,
            });
            return reference::read(&[]).refusal;
        }
        section.saw(READ_BACK);
        if self.buffer.len() > RECORD {
            section.saw(LONGER_BUFFER);
        }
        reference::read(&self.buffer[..RECORD]).refusal
    }

    /// What comes of the whole, where buffer and log held these bytes.
    fn ran(self, section: &mut Section, before: &[u8], log: &[u8]) -> Ran {
        if log.len() < self.log.len() {
            return Ran {
                answer: TallyAnswer::unread(13),
                buffer: before.to_vec(),
                log: log.to_vec(),
                around: true,
            };
        }
        if log.len() > self.log.len() {
            section.saw(LONGER_LOG);
        }
        Ran {
            answer: TallyAnswer::of(self.tally()),
            log: [&self.log, &log[self.log.len()..]].concat(),
            buffer: self.buffer,
            around: true,
        }
    }
}
