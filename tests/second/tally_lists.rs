//! Demand 3: lists of calls in one accepted zone from a fresh tally, against
//! the pencil account. Bookings, savings and readings, refused ones included;
//! each answer, each saved record and the tally after each call are the
//! account's. And what two lists have in common that cover the same ticks.

use crate::hex::Hex;
use crate::lent_memory::Beside;
use crate::library::{self, Rule, Tally, TallyAnswer, UtcTick};
use crate::pencil_account::Account;
use crate::record_calls::{expected_length, outcomes, FirstRules};
use crate::report::{Enough, Outcome, Section};
use crate::run_ticks::{Counter, Run};
use crate::seeded_rules::Source;
use crate::tally_calls::{self, Caller};
use crate::tally_reference::{record, RECORD};
use crate::time_reference::TICKS_PER_DAY;
use crate::zone_reference::{in_window, WINDOW_END, WINDOW_START};
use crate::zone_ticks::utc_ticks;
use crate::Basis;

/// Seeded lists, and the most calls in one.
const LISTS: u64 = 24_000;
const MOST_CALLS: u64 = 40;

/// Runs that are booked whole and in parts.
const CUT_RUNS: u64 = 8_000;

pub fn sections(basis: &Basis) -> Vec<Section> {
    vec![lists(basis), cut_anywhere(basis)]
}

const TOUCHING: &str = "a touching run";
const GAP: &str = "a run after a gap";
const EMPTY: &str = "an empty run";
const EMPTY_AFTER_GAP: &str = "an empty run after a gap";
const SHUT_OUT: &str = "a run shut out by an empty one";
const AT_END: &str = "an empty run at the window's end";
const BACKWARD: &str = "b before a";
const TOO_SOON: &str = "a before the end";
const CENTURY: &str = "a run of a century or more";
const READ_BACK: &str = "a record read back";
const READ_TWICE: &str = "a record read back twice";
const BOOKED_AFTER: &str = "a run booked after a record was read back";
const DAMAGED: &str = "a damaged record refused";
const STALE: &str = "saved again after a run";

const CASES: [&str; 14] = [
    TOUCHING,
    GAP,
    EMPTY,
    EMPTY_AFTER_GAP,
    SHUT_OUT,
    AT_END,
    BACKWARD,
    TOO_SOON,
    CENTURY,
    READ_BACK,
    READ_TWICE,
    BOOKED_AFTER,
    DAMAGED,
    STALE,
];

fn lists(basis: &Basis) -> Section {
    let name = "lists of calls: the pencil account";
    let mut source = Source::new(basis, name);
    let mut caller = Caller::new(basis, name);
    let mut outcomes = outcomes(&[13, 15, 16, 17, 18]);
    // Of the seven totals' sum.
    outcomes.push(Outcome::Yes);
    Section::run(name, &outcomes, 10 * LISTS, |section| {
        section.want(&CASES);
        for _ in 0..LISTS {
            let count = source.zone_length();
            let row = source.zone(count);
            let Ok(counter) = Counter::of(&basis.calendar, &row) else {
                continue;
            };
            let list = List {
                row: &row,
                account: Account::of(counter),
                tally: library::fresh_tally(),
                saved: None,
                ever_saved: false,
                last: Last::Nothing,
            };
            list.run_through(section, &mut source, &mut caller)?;
        }
        Ok(())
    })
}

/// The last call that was accepted, as far as it matters.
#[derive(PartialEq)]
enum Last {
    Nothing,
    EmptyRun,
    Reading,
    Other,
}

/// A list of calls on its way.
struct List<'a> {
    row: &'a [Rule],
    account: Account<'a>,
    /// As the calls before left it.
    tally: Tally,
    /// What the last accepted saving wrote, if no run was accepted since.
    saved: Option<Vec<u8>>,
    ever_saved: bool,
    last: Last,
}

impl List<'_> {
    fn run_through(
        mut self,
        section: &mut Section,
        source: &mut Source,
        caller: &mut Caller,
    ) -> Result<(), Enough> {
        let calls = source.seeded.between(1, MOST_CALLS as i64);
        for _ in 0..calls {
            // Where there is a record to be read back, that is often done.
            match (source.seeded.between(0, 9), &self.saved) {
                (0 | 1, _) => self.save(section, source, caller)?,
                (2, _) | (3..=5, Some(_)) => self.read(section, source)?,
                _ => self.book(section, source)?,
            }
        }
        let is_time_run = wrapped_sum(&self.tally) == self.account.time_run();
        section.check(self.tally, is_time_run, "the time run", is_time_run)
    }

    fn book(&mut self, section: &mut Section, source: &mut Source) -> Result<(), Enough> {
        let run = self.next_run(source);
        self.see_run(section, run);
        let end = self.account.end();
        let expected = match self.account.book(run) {
            Ok(tally) => TallyAnswer::of(tally),
            Err(number) => TallyAnswer::refused(number, self.account.tally()),
        };
        let given = tally_calls::book(self.row, self.tally, run);
        if expected.refusal == 0 {
            self.see_booked(section, run, end);
            self.saved = None;
            self.last = match run.from == run.to {
                true => Last::EmptyRun,
                false => Last::Other,
            };
        }
        let answer = given.answer.tally;
        let input = (FirstRules(self.row), self.tally, run);
        section.compare(input, given, Beside::right(expected))?;
        // Refused or not: beside a refusal stands the tally that was handed in.
        self.tally = answer;
        Ok(())
    }

    /// Any run, or one at a place where the bias or the local day changes.
    fn next_run(&self, source: &mut Source) -> Run {
        let run = source.run(self.row, self.account.end());
        if !source.seeded.one_in(3) || !in_window(run.from) {
            return run;
        }
        match self.account.counter().zone.utc_to_local(run.from) {
            Ok(shown) => {
                let midnight = run.from + TICKS_PER_DAY - shown % TICKS_PER_DAY;
                let to = midnight + source.seeded.between(-1, 1);
                Run { to, ..run }
            }
            Err(_) => run,
        }
    }

    fn see_run(&self, section: &mut Section, run: Run) {
        let inside = |tick| in_window(tick) || tick == WINDOW_END;
        if !inside(run.from) || !inside(run.to) {
            return;
        }
        if run.to < run.from {
            section.saw(BACKWARD);
        }
        if run.from < self.account.end() {
            section.saw(TOO_SOON);
            if self.last == Last::EmptyRun {
                section.saw(SHUT_OUT);
            }
        }
    }

    /// An accepted run after an end.
    fn see_booked(&self, section: &mut Section, run: Run, end: i64) {
        section.saw(if run.from == end { TOUCHING } else { GAP });
        if run.from == run.to {
            section.saw(EMPTY);
            if run.from > end {
                section.saw(EMPTY_AFTER_GAP);
            }
            if run.to == WINDOW_END {
                section.saw(AT_END);
            }
        }
        if run.to - run.from >= 36_525 * TICKS_PER_DAY {
            section.saw(CENTURY);
        }
        if self.last == Last::Reading {
            section.saw(BOOKED_AFTER);
        }
    }

    fn save(
        &mut self,
        section: &mut Section,
        source: &mut Source,
        caller: &mut Caller,
    ) -> Result<(), Enough> {
        let room = source.seeded.saving_room();
        let expected = self.account.save(room);
        let given = caller.save(self.tally, room, &expected);
        section.compare((self.tally, room), given, expected_length(&expected))?;
        if let Ok(record) = expected {
            // The library wrote just that.
            if self.ever_saved && self.saved.is_none() {
                section.saw(STALE);
            }
            self.ever_saved = true;
            self.saved = Some(record);
        }
        Ok(())
    }

    fn read(&mut self, section: &mut Section, source: &mut Source) -> Result<(), Enough> {
        let bytes = match &self.saved {
            Some(saved) if !source.seeded.one_in(4) => saved.clone(),
            // A saved record that is no longer the last word is not read; it
            // is damaged like any other.
            _ => source.seeded.refused_record(&record(&self.tally)),
        };
        let expected = match self.account.read(&bytes) {
            Ok(tally) => TallyAnswer::of(tally),
            Err(number) => TallyAnswer::unread(number),
        };
        let given = tally_calls::read(&bytes);
        let answer = given.answer;
        section.compare(Hex(&bytes), given, Beside::right(expected))?;
        match answer.refusal {
            0 => {
                section.saw(match self.last {
                    Last::Reading => READ_TWICE,
                    _ => READ_BACK,
                });
                self.tally = answer.tally;
                self.last = Last::Reading;
            }
            _ => section.saw(DAMAGED),
        }
        Ok(())
    }
}

const AT_A_PLACE: &str = "cut where the bias can change, or next to it";
const EMPTY_PART: &str = "an empty part";
const RESTART: &str = "a restart between two parts";
const REFUSED: &str = "a refused run between two parts";

/// Lists that cover the same ticks, one booked whole and one in parts, with
/// restarts and refused runs in between: the library's totals are the same,
/// and they add up to the time run.
fn cut_anywhere(basis: &Basis) -> Section {
    let name = "lists of calls: the same ticks, the same totals";
    let mut source = Source::new(basis, name);
    Section::run(name, &[Outcome::Answered], 3 * CUT_RUNS, |section| {
        section.want(&[AT_A_PLACE, EMPTY_PART, RESTART, REFUSED]);
        for _ in 0..CUT_RUNS {
            let count = source.zone_length();
            let row = source.zone(count);
            let first = source.first_with_rule(&row);
            let mut places = utc_ticks(&basis.calendar, &mut source.seeded, &row);
            places.retain(|&tick| in_window(tick) && tick >= first);
            let place = source.seeded.pick(&places);
            let length = source.seeded.run_length();
            let before = source.seeded.between(0, length);
            let run = Run {
                from: (place - before).max(first),
                to: place.saturating_add(length - before).min(WINDOW_END),
            };
            let whole = book(&row, library::fresh_tally(), run);
            let parts = in_parts(section, &mut source, &row, run, place);
            section.compare((FirstRules(&row), run), parts, whole)?;

            let sum = wrapped_sum(&whole.tally);
            let is_time_run = whole.refusal == 0 && sum == (run.to - run.from) as u64;
            section.check((FirstRules(&row), run), whole, "the time run", is_time_run)?;
            // From another tally that ends earlier, each total grows as much.
            let tally = source.seeded.tally_until(run.from);
            let mut grown = whole;
            for (total, had) in grown.tally.totals.iter_mut().zip(tally.totals) {
                *total = total.wrapping_add(had);
            }
            section.compare((FirstRules(&row), run), book(&row, tally, run), grown)?;
        }
        Ok(())
    })
}

/// Of totals that are the library's, and so may be any.
fn wrapped_sum(tally: &Tally) -> u64 {
    let totals = tally.totals.iter();
    totals.fold(0, |sum: u64, &total| sum.wrapping_add(total))
}

fn book(row: &[Rule], tally: Tally, run: Run) -> TallyAnswer {
    let [from, to] = [run.from, run.to].map(|ticks| UtcTick { ticks });
    library::book(tally, row, from, to)
}

/// The same run cut at some ticks. Ends with the first refusal that there
/// should not be.
fn in_parts(
    section: &mut Section,
    source: &mut Source,
    row: &[Rule],
    run: Run,
    place: i64,
) -> TallyAnswer {
    let seeded = &mut source.seeded;
    let mut ends = vec![run.to];
    for _ in 0..seeded.between(1, 6) {
        let end = match seeded.one_in(2) {
            true => place + seeded.between(-1, 1),
            false => seeded.between(run.from, run.to),
        };
        if (run.from..=run.to).contains(&end) {
            ends.push(end);
            if (place - 1..=place + 1).contains(&end) {
                section.saw(AT_A_PLACE);
            }
        }
    }
    ends.sort_unstable();
    let mut answer = TallyAnswer::of(library::fresh_tally());
    let mut from = run.from;
    for to in ends {
        if from == to {
            section.saw(EMPTY_PART);
        }
        answer = book(row, answer.tally, Run { from, to });
        if answer.refusal != 0 {
            return answer;
        }
        from = to;
        if seeded.one_in(4) {
            // What comes too soon changes nothing.
            let tally = answer.tally;
            let soon = Run {
                from: to - 1,
                to: WINDOW_END,
            };
            if soon.from >= WINDOW_START {
                section.saw(REFUSED);
                answer = book(row, tally, soon);
                if answer.refusal != 17 {
                    return answer;
                }
            }
        }
        if seeded.one_in(3) {
            section.saw(RESTART);
            let mut saved = [0; RECORD];
            library::save_tally(answer.tally, &mut saved);
            answer = library::read_tally(&saved);
            if answer.refusal != 0 {
                return answer;
            }
        }
    }
    TallyAnswer::of(answer.tally)
}
