//! Runs in zones that there are, with totals counted from the transitions that
//! `zdump -v` prints. The library is held to them, and so is the reference.

use crate::calendar::Calendar;
use crate::library::{Rule, Tally, TallyAnswer, UtcTick};
use crate::outside_zones::zones;
use crate::report::{Enough, Outcome, Section};
use crate::run_ticks::{Counter, Run, Totals};
use crate::seeded::Seeded;
use crate::tally_calls::book;
use crate::tally_reference as reference;
use crate::time_reference::TICKS_PER_DAY;
use crate::zdump::{Clock, Missing, WANTED};
use crate::Basis;

/// Seeded runs for each zone, beside its local days and years.
const RUNS: usize = 400;

pub fn sections(basis: &Basis) -> Vec<Section> {
    let name = "zdump: runs in zones that there are";
    let mut seeded = Seeded::new(basis.seed, name);
    vec![Section::run(
        name,
        &[Outcome::Answered],
        10_000,
        |section| {
            let zones = zones();
            let names: Vec<&'static str> = zones.iter().map(|zone| zone.name).collect();
            section.want(&names);
            section.want(&[SHORT, LONG]);
            for zone in &zones {
                match Clock::of(&basis.calendar, zone) {
                    Ok(clock) => {
                        let mut asked = Asked {
                            name: zone.name,
                            row: &zone.row,
                            counter: Counter::of(&basis.calendar, &zone.row),
                            calendar: &basis.calendar,
                            clock,
                        };
                        asked.compare(section, &mut seeded)?;
                    }
                    Err(why) => section.check(zone.name, Missing(why), WANTED, false)?,
                }
            }
            Ok(())
        },
    )]
}

const SHORT: &str = "a local day of less than 24 hours";
const LONG: &str = "one of more";

struct Asked<'a> {
    name: &'static str,
    row: &'a [Rule],
    counter: Result<Counter<'a>, u32>,
    calendar: &'a Calendar,
    clock: Clock,
}

impl Asked<'_> {
    fn compare(&mut self, section: &mut Section, seeded: &mut Seeded) -> Result<(), Enough> {
        let [start, end] = [self.clock.start(), self.clock.end()];
        // The local days around each transition, and from one to the next.
        let transitions: Vec<i64> = self.clock.stretches[1..]
            .iter()
            .map(|stretch| stretch.from)
            .collect();
        for &at in &transitions {
            for run in self.local_days(at) {
                match run.to - run.from {
                    ..TICKS_PER_DAY => section.saw(SHORT),
                    TICKS_PER_DAY => {}
                    _ => section.saw(LONG),
                }
                self.run(section, run)?;
            }
            let near = seeded.between(1, TICKS_PER_DAY);
            for (from, to) in [(at - 1, at + 1), (at - near, at), (at, at + near)] {
                self.run(section, Run { from, to })?;
            }
        }
        for pair in transitions.windows(2) {
            let [from, to] = [pair[0], pair[1]];
            self.run(section, Run { from, to })?;
        }
        // Each year, and any run.
        let mut from = start;
        while from < end {
            let year = self.calendar.day(from / TICKS_PER_DAY).year;
            let to = self.calendar.first_day(year + 1) * TICKS_PER_DAY;
            self.run(section, Run { from, to })?;
            from = to;
        }
        self.run(
            section,
            Run {
                from: start,
                to: end,
            },
        )?;
        for _ in 0..RUNS {
            let from = seeded.between(start, end);
            let to = from.saturating_add(seeded.run_length()).min(end);
            self.run(section, Run { from, to })?;
        }
        Ok(())
    }

    /// The local days of the tick before a transition, of the one after, and
    /// the days next to them, as far as their midnights come just once.
    fn local_days(&self, at: i64) -> Vec<Run> {
        let near = self.clock.stretches.iter().map(|stretch| stretch.ahead);
        let mut days: Vec<i64> = near
            .flat_map(|ahead| [-1, 0, 1].map(|day| (at + ahead) / TICKS_PER_DAY + day))
            .collect();
        days.sort_unstable();
        days.dedup();
        let mut runs = Vec::new();
        for day in days {
            let midnights = [day, day + 1].map(|day| self.clock.shown_at(day * TICKS_PER_DAY));
            if let [[from], [to]] = [&midnights[0][..], &midnights[1][..]] {
                let [from, to] = [*from, *to];
                runs.push(Run { from, to });
            }
        }
        runs
    }

    fn run(&mut self, section: &mut Section, run: Run) -> Result<(), Enough> {
        section.saw(self.name);
        let [start, end] = [self.clock.start(), self.clock.end()];
        let [from, to] = [run.from, run.to].map(|tick| tick.clamp(start, end));
        let run = Run { from, to };
        let expected = TallyAnswer::of(Tally {
            end: UtcTick { ticks: to },
            totals: self.by_transitions(run),
        });
        let fresh = reference::fresh();
        let by_reference = reference::book(&mut self.counter, fresh, run);
        section.compare(("the reference", self.name, run), by_reference, expected)?;
        let given = book(self.row, fresh, run).answer;
        section.compare((self.name, run), given, expected)
    }

    /// Day by local day in each stretch between two transitions.
    fn by_transitions(&self, run: Run) -> Totals {
        let mut totals = [0; 7];
        for stretch in &self.clock.stretches {
            let mut local = run.from.max(stretch.from) + stretch.ahead;
            let end = run.to.min(stretch.to) + stretch.ahead;
            while local < end {
                let day = local / TICKS_PER_DAY;
                let to = end.min((day + 1) * TICKS_PER_DAY);
                let weekday = self.calendar.day(day).weekday;
                totals[usize::from(weekday)] += (to - local) as u64;
                local = to;
            }
        }
        totals
    }
}
