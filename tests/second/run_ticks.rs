//! How many ticks of a run are of each local weekday, in three ways: tick by
//! tick, as the pencil account's words have it; by a walk over local midnights
//! and the places at which the bias can change; and for long runs by years,
//! each counted once for every kind of year there is.

use crate::calendar::Calendar;
use crate::library::Rule;
use crate::time_reference::TICKS_PER_DAY;
use crate::zone_reference::{Dates, YearOfZone, Zone};
use std::collections::HashMap;

/// From Sunday on, in ticks.
pub type Totals = [u64; 7];

/// From a tick to before another, which may be the same or an earlier one.
#[derive(Clone, Copy, PartialEq, Eq, Debug)]
pub struct Run {
    pub from: i64,
    pub to: i64,
}

const RULED: &str = "a rule for every tick from the run's start on";

/// Runs of this many years or more are counted by years.
const MANY_YEARS: i16 = 40;

/// Counts the ticks of runs in a row that has passed its checks. Each run is
/// within the window and starts where there is a rule.
pub struct Counter<'a> {
    pub zone: Zone<'a>,
    calendar: &'a Calendar,
    /// By the year of the rule in force, and the kind of year.
    years: HashMap<u16, [Option<Totals>; KINDS]>,
}

/// Years under one rule that are alike in the weekday of their first day, in
/// their length, and in whether dates with a year are of that year, are alike
/// day by day, and so in their totals.
const KINDS: usize = 7 * 2 * 2;

/// A part of a run in which bias and local day stay.
#[derive(Clone, Copy)]
pub struct Step {
    pub from: i64,
    pub to: i64,
    /// What the first tick shows.
    pub local: i64,
    /// Of the first tick, in UTC, and of the rule in force.
    pub year: i16,
    pub rule_year: u16,
}

impl Step {
    pub fn local_day(&self) -> i64 {
        self.local / TICKS_PER_DAY
    }

    /// Local less UTC, in ticks.
    pub fn ahead(&self) -> i64 {
        self.local - self.from
    }
}

impl Counter<'_> {
    /// For a row, or the number of its refusal.
    pub fn of<'a>(calendar: &'a Calendar, row: &'a [Rule]) -> Result<Counter<'a>, u32> {
        Ok(Counter {
            zone: Zone::of(calendar, row)?,
            calendar,
            years: HashMap::new(),
        })
    }

    pub fn count(&mut self, run: Run) -> Totals {
        let years = self.zone.year_of(run.to) - self.zone.year_of(run.from);
        match years >= MANY_YEARS {
            true => self.by_years(run),
            false => self.by_midnights(run),
        }
    }

    /// Each tick by itself. For runs of a few.
    pub fn tick_by_tick(&self, run: Run) -> Totals {
        let mut totals = [0; 7];
        for utc in run.from..run.to {
            let local = self.zone.utc_to_local(utc).expect(RULED);
            totals[self.weekday(local / TICKS_PER_DAY)] += 1;
        }
        totals
    }

    pub fn by_midnights(&self, run: Run) -> Totals {
        let mut totals = [0; 7];
        self.walk(run, |step| {
            totals[self.weekday(step.local_day())] += (step.to - step.from) as u64;
        });
        totals
    }

    /// Hands over the steps of a run, one after another.
    pub fn walk(&self, run: Run, mut each: impl FnMut(Step)) {
        let mut at = run.from;
        while at < run.to {
            let year = self.year(at);
            let end = run.to.min(self.first_tick(year.year + 1));
            let switches = match year.dates {
                Dates::Set {
                    daylight_from,
                    standard_from,
                } => [daylight_from, standard_from],
                // Never inside the year.
                _ => [end, end],
            };
            while at < end {
                let local = year.shows(at);
                let mut to = end.min(at + TICKS_PER_DAY - local % TICKS_PER_DAY);
                for switch in switches {
                    if switch > at && switch < to {
                        to = switch;
                    }
                }
                each(Step {
                    from: at,
                    to,
                    local,
                    year: year.year,
                    rule_year: year.rule_year,
                });
                at = to;
            }
        }
    }

    /// Whole UTC years by their kind, and the rest at both ends by the walk.
    pub fn by_years(&mut self, run: Run) -> Totals {
        let first = self.zone.year_of(run.from) + 1;
        let last = self.zone.year_of(run.to);
        if first >= last {
            return self.by_midnights(run);
        }
        let mut totals = self.by_midnights(Run {
            from: run.from,
            to: self.first_tick(first),
        });
        for year in first..last {
            add(&mut totals, &self.whole_year(year));
        }
        let rest = Run {
            from: self.first_tick(last),
            to: run.to,
        };
        add(&mut totals, &self.by_midnights(rest));
        totals
    }

    fn whole_year(&mut self, year: i16) -> Totals {
        let rule = self.zone.rule_in_force(year).expect(RULED);
        let first_day = self.calendar.first_day(year);
        let weekday = usize::from(self.calendar.day(first_day).weekday);
        let is_leap = self.calendar.first_day(year + 1) - first_day == 366;
        let is_theirs = i64::from(rule.standard_date.year) == i64::from(year);
        let kind = 4 * weekday + 2 * usize::from(is_leap) + usize::from(is_theirs);
        let rule_year = rule.year;
        let known = self.years.get(&rule_year).and_then(|kinds| kinds[kind]);
        if let Some(totals) = known {
            return totals;
        }
        let totals = self.by_midnights(Run {
            from: self.first_tick(year),
            to: self.first_tick(year + 1),
        });
        let kinds = self.years.entry(rule_year).or_insert([None; KINDS]);
        kinds[kind] = Some(totals);
        totals
    }

    fn year(&self, utc: i64) -> YearOfZone {
        let year = self.zone.year(self.zone.year_of(utc));
        year.expect(RULED)
    }

    fn first_tick(&self, year: i16) -> i64 {
        self.calendar.first_day(year) * TICKS_PER_DAY
    }

    fn weekday(&self, day: i64) -> usize {
        usize::from(self.calendar.day(day).weekday)
    }
}

pub fn add(totals: &mut Totals, more: &Totals) {
    for (total, more) in totals.iter_mut().zip(more) {
        *total += more;
    }
}
