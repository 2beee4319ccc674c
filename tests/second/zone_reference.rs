//! What UTC to local and local to UTC have to answer, by document 01's
//! "Which bias is in force". UTC to local is a plain walk: all rules are
//! scanned, the days of a month are gone through one by one, and the calendar
//! is the one that counts days. Local to UTC tries every bias there can be.

use crate::calendar::Calendar;
use crate::library::{Rule, SystemTime};
use crate::record_reference::check_row;
use crate::time_reference::{
    TICKS_PER_DAY, TICKS_PER_HOUR, TICKS_PER_MILLISECOND, TICKS_PER_MINUTE, TICKS_PER_SECOND,
};
use crate::zone_rules::is_set;

pub const OUTSIDE: u32 = 15;
pub const NO_RULE: u32 = 16;

/// The window of UTC ticks: the first one in it, and the first one after it.
pub const WINDOW_START: i64 = 315_360_000_000_000;
pub const WINDOW_END: i64 = 9_223_149_888_000_000_000;

/// The longest bias, in minutes.
pub const MOST_BIAS: i64 = 1_440;

pub fn in_window(utc: i64) -> bool {
    utc >= WINDOW_START && utc < WINDOW_END
}

/// A row that has passed its checks.
pub struct Zone<'a> {
    calendar: &'a Calendar,
    row: &'a [Rule],
}

/// What a zone's rules say of one UTC year.
#[derive(Clone, Copy)]
pub struct YearOfZone {
    pub year: i16,
    /// The year of the rule in force.
    pub rule_year: u16,
    pub dates: Dates,
    /// In minutes. With dates not set both are Bias alone.
    pub standard: i64,
    pub daylight: i64,
}

#[derive(Clone, Copy, PartialEq)]
pub enum Dates {
    NotSet,
    OfAnotherYear,
    /// The UTC ticks from which it is daylight time and standard time.
    Set {
        daylight_from: i64,
        standard_from: i64,
    },
}

impl Zone<'_> {
    /// A row as a zone, or the number of its refusal.
    pub fn of<'a>(calendar: &'a Calendar, row: &'a [Rule]) -> Result<Zone<'a>, u32> {
        check_row(calendar, row)?;
        Ok(Zone { calendar, row })
    }

    pub fn utc_to_local(&self, utc: i64) -> Result<i64, u32> {
        if !in_window(utc) {
            return Err(OUTSIDE);
        }
        match self.year(self.year_of(utc)) {
            None => Err(NO_RULE),
            Some(year) => Ok(year.shows(utc)),
        }
    }

    /// Every whole-minute bias is tried, the lowest first, so that the ticks
    /// come in rising order, each once.
    pub fn local_to_utc(&self, local: i64) -> Result<Vec<i64>, u32> {
        if local < 0 {
            return Err(OUTSIDE);
        }
        let mut list = Vec::new();
        // The day of the bias before, with what the rules say of its year.
        let mut known = (0, None);
        for bias in -MOST_BIAS..=MOST_BIAS {
            let Some(utc) = local.checked_add(bias * TICKS_PER_MINUTE) else {
                continue;
            };
            if !in_window(utc) {
                continue;
            }
            let day = utc / TICKS_PER_DAY;
            if known.0 != day {
                known = (day, self.year(self.year_of(utc)));
            }
            if let Some(year) = &known.1 {
                if year.shows(utc) == local {
                    list.push(utc);
                }
            }
        }
        Ok(list)
    }

    /// The UTC year of a tick of the window.
    pub fn year_of(&self, utc: i64) -> i16 {
        self.calendar.day(utc / TICKS_PER_DAY).year
    }

    /// What the rules say of a UTC year. None before the first rule's.
    pub fn year(&self, year: i16) -> Option<YearOfZone> {
        let rule = self.rule_in_force(year)?;
        let bias = i64::from(rule.bias);
        if !is_set(&rule.standard_date) {
            return Some(YearOfZone {
                year,
                rule_year: rule.year,
                dates: Dates::NotSet,
                standard: bias,
                daylight: bias,
            });
        }
        let standard = bias + i64::from(rule.standard_bias);
        let daylight = bias + i64::from(rule.daylight_bias);
        let date_year = rule.standard_date.year;
        let dates = if date_year != 0 && i64::from(date_year) != i64::from(year) {
            Dates::OfAnotherYear
        } else {
            // Each date is told by the clock that it ends.
            Dates::Set {
                daylight_from: self.tick_of(&rule.daylight_date, year)
                    + standard * TICKS_PER_MINUTE,
                standard_from: self.tick_of(&rule.standard_date, year)
                    + daylight * TICKS_PER_MINUTE,
            }
        };
        Some(YearOfZone {
            year,
            rule_year: rule.year,
            dates,
            standard,
            daylight,
        })
    }

    /// The rule with the greatest year not after a year. All are looked at.
    pub fn rule_in_force(&self, year: i16) -> Option<&Rule> {
        let mut found: Option<&Rule> = None;
        for rule in self.row {
            if i64::from(rule.year) > i64::from(year) {
                continue;
            }
            if found.map_or(true, |found| rule.year > found.year) {
                found = Some(rule);
            }
        }
        found
    }

    /// The local tick of a set date in a year, found by going through the
    /// days of its month.
    fn tick_of(&self, date: &SystemTime, year: i16) -> i64 {
        let month = self.calendar.month(year, date.month as i16);
        let mut found = None;
        let mut met = 0;
        for number in month.first..month.first + i64::from(month.days) {
            let day = self.calendar.day(number);
            if date.year != 0 {
                if u16::from(day.day) == date.day {
                    found = Some(number);
                }
            } else if u16::from(day.weekday) == date.weekday {
                met += 1;
                // The last one met is the last one of the month.
                if met == date.day || date.day == 5 {
                    found = Some(number);
                }
            }
        }
        let day = found.expect("a day for every date that keeps its rule");
        day * TICKS_PER_DAY
            + i64::from(date.hour) * TICKS_PER_HOUR
            + i64::from(date.minute) * TICKS_PER_MINUTE
            + i64::from(date.second) * TICKS_PER_SECOND
            + i64::from(date.millisecond) * TICKS_PER_MILLISECOND
    }
}

impl YearOfZone {
    /// The local tick that a UTC tick of this year shows.
    pub fn shows(&self, utc: i64) -> i64 {
        let bias = match self.is_daylight(utc) {
            true => self.daylight,
            false => self.standard,
        };
        utc - bias * TICKS_PER_MINUTE
    }

    pub fn is_daylight(&self, utc: i64) -> bool {
        match self.dates {
            Dates::NotSet | Dates::OfAnotherYear => false,
            Dates::Set {
                daylight_from,
                standard_from,
            } => {
                if daylight_from < standard_from {
                    daylight_from <= utc && utc < standard_from
                } else if standard_from < daylight_from {
                    utc < standard_from || utc >= daylight_from
                } else {
                    false
                }
            }
        }
    }
}
