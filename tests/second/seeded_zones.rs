//! Seeded rows of rules whose dates fall where their rules are in force, and
//! often close to a new year or to one another. They are sound and need not
//! be normal.

use crate::library::{Rule, SystemTime};
use crate::seeded_rules::Source;
use crate::time_reference::{
    TICKS_PER_DAY, TICKS_PER_HOUR, TICKS_PER_MILLISECOND, TICKS_PER_MINUTE, TICKS_PER_SECOND,
};
use crate::zone_rules::{days_of_month, is_set, LAST_YEAR};

/// Bias and both additions of zones that there are, or nearly so.
const COMMON: [[i32; 3]; 16] = [
    [0, 0, -60],
    [-60, 0, -60],
    [-60, 60, 0],
    [300, 0, -60],
    [210, 0, -60],
    [-630, 0, -30],
    [-765, 0, -60],
    [-840, 0, -60],
    [720, 0, -60],
    [-330, 0, 0],
    [0, 0, -120],
    [0, -20, 20],
    [60, 0, 60],
    [1_380, 60, 0],
    [-1_380, 0, -60],
    [1_440, 0, -2_880],
];

/// The day of the year around which a date falls.
#[derive(Clone, Copy)]
enum Season {
    Spring,
    Autumn,
    NewYear,
    Any,
}

/// By how much a switch can miss another one.
const PARTS: [i64; 3] = [TICKS_PER_MINUTE, TICKS_PER_SECOND, TICKS_PER_MILLISECOND];

/// A date at another time of day, given as ticks that are whole milliseconds.
fn at_time(date: SystemTime, ticks: i64) -> SystemTime {
    SystemTime {
        hour: (ticks / TICKS_PER_HOUR) as u16,
        minute: (ticks % TICKS_PER_HOUR / TICKS_PER_MINUTE) as u16,
        second: (ticks % TICKS_PER_MINUTE / TICKS_PER_SECOND) as u16,
        millisecond: (ticks % TICKS_PER_SECOND / TICKS_PER_MILLISECOND) as u16,
        ..date
    }
}

impl Source<'_> {
    /// Milliseconds of a minute, in ticks: none, the last one, or any.
    fn part_of_minute(&mut self) -> i64 {
        let last = TICKS_PER_MINUTE / TICKS_PER_MILLISECOND - 1;
        let milliseconds = match self.seeded.between(0, 2) {
            0 => 0,
            1 => last,
            _ => self.seeded.between(0, last),
        };
        milliseconds * TICKS_PER_MILLISECOND
    }

    /// A sound row of so many rules, one of them active.
    pub fn zone(&mut self, count: usize) -> Vec<Rule> {
        if count >= 2 && self.seeded.one_in(4) {
            return self.zone_that_meets(count);
        }
        let years = self.zone_years(count);
        let mut row: Vec<Rule> = years.into_iter().map(|year| self.zone_rule(year)).collect();
        self.mark_one(&mut row);
        row
    }

    /// How many rules a row has: mostly few, at times as many as there may be.
    pub fn zone_length(&mut self) -> usize {
        match self.seeded.between(0, 99) {
            0 | 1 => self.seeded.pick(&[1_023, 1_024, 1_024]),
            2 => self.seeded.between_usize(13, 1_022),
            3..=29 => 1,
            30..=49 => 2,
            50..=89 => self.seeded.between_usize(3, 5),
            _ => self.seeded.between_usize(6, 12),
        }
    }

    fn mark_one(&mut self, row: &mut [Rule]) {
        let active = self.seeded.between_usize(0, row.len() - 1);
        for (place, rule) in row.iter_mut().enumerate() {
            rule.active = u8::from(place == active);
        }
    }

    /// Rising years, mostly close together.
    fn zone_years(&mut self, count: usize) -> Vec<u16> {
        if self.seeded.one_in(6) {
            return self.rising_years(count);
        }
        let farthest = self.seeded.pick(&[1, 1, 2, 3]);
        let mut years = vec![0];
        for place in 1..count {
            years.push(years[place - 1] + self.seeded.between_u16(1, farthest));
        }
        let span = years[count - 1];
        let first = match self.seeded.between(0, 7) {
            0 => 0,
            1 => self.seeded.between_u16(0, 1_602),
            2 => 1_602_u16.saturating_sub(self.seeded.between_u16(0, span)),
            3 => self.seeded.between_u16(1_598, 1_606),
            4 => LAST_YEAR - span,
            5 => (LAST_YEAR - span).saturating_sub(self.seeded.between_u16(0, 4)),
            6 => self
                .seeded
                .pick(&[1_699, 1_899, 1_999, 2_003, 2_099, 2_399]),
            _ => self.seeded.between_u16(1_602, LAST_YEAR),
        };
        let first = first.min(LAST_YEAR - span);
        years.into_iter().map(|year| first + year).collect()
    }

    /// A sound rule of a year, not active.
    fn zone_rule(&mut self, year: u16) -> Rule {
        if self.seeded.one_in(16) {
            return self.rule(year);
        }
        let mut rule = Rule {
            year,
            padding: self.seeded.any_u8(),
            ..Default::default()
        };
        match self.seeded.between(0, 7) {
            0 => {
                rule.standard_date = self.unset_date();
                rule.daylight_date = self.unset_date();
            }
            1 => self.set_dates(&mut rule, None, [Season::Autumn, Season::Spring]),
            2 => self.set_dates(&mut rule, None, [Season::Spring, Season::Autumn]),
            3 => self.set_dates(&mut rule, None, [Season::Any, Season::Any]),
            4 => {
                let seasons = self.one_at_new_year();
                self.set_dates(&mut rule, None, seasons);
            }
            5 => {
                let year = self.year_of_dates(year);
                self.set_dates(&mut rule, Some(year), [Season::Any, Season::Any]);
            }
            6 => {
                let year = self.year_of_dates(year);
                let seasons = self.one_at_new_year();
                self.set_dates(&mut rule, Some(year), seasons);
            }
            _ => return self.rule_with_one_switch(rule),
        }
        let set = is_set(&rule.standard_date);
        let [bias, standard_bias, daylight_bias] = match self.seeded.one_in(2) {
            true => self.seeded.pick(&COMMON),
            false => self.biases(set),
        };
        Rule {
            bias,
            standard_bias,
            daylight_bias,
            ..rule
        }
    }

    fn one_at_new_year(&mut self) -> [Season; 2] {
        self.seeded.pick(&[
            [Season::NewYear, Season::Spring],
            [Season::Autumn, Season::NewYear],
            [Season::NewYear, Season::Any],
            [Season::Any, Season::NewYear],
            [Season::NewYear, Season::NewYear],
        ])
    }

    /// Mostly the rule's own year, else one soon after or any.
    fn year_of_dates(&mut self, year: u16) -> u16 {
        let wanted = match self.seeded.between(0, 7) {
            0 => self.date_year(),
            1 => year + 1,
            2 => year + self.seeded.between_u16(2, 4),
            3 => year.saturating_sub(1),
            _ => year,
        };
        wanted.clamp(1_601, LAST_YEAR)
    }

    fn set_dates(&mut self, rule: &mut Rule, year: Option<u16>, seasons: [Season; 2]) {
        [rule.standard_date, rule.daylight_date] = seasons.map(|season| match year {
            None => self.yearly_in(season, rule.year),
            Some(year) => self.dated_in(season, year),
        });
    }

    /// A date for every year. One at a new year is often the first or the
    /// last day of the rule's own year.
    fn yearly_in(&mut self, season: Season, year: u16) -> SystemTime {
        let date = self.yearly_date();
        let (month, day) = match season {
            Season::Spring => (self.seeded.between_u16(2, 5), date.day),
            Season::Autumn => (self.seeded.between_u16(8, 11), date.day),
            Season::NewYear => self.seeded.pick(&[(1, 1), (12, 5)]),
            Season::Any => (date.month, date.day),
        };
        let mut date = SystemTime { month, day, ..date };
        if matches!(season, Season::NewYear) {
            let year = year.clamp(1_601, LAST_YEAR) as i16;
            let number = match month {
                1 => self.calendar.first_day(year),
                _ => self.calendar.first_day(year + 1) - 1,
            };
            if !self.seeded.one_in(4) {
                date.weekday = u16::from(self.calendar.day(number).weekday);
            }
            self.near_midnight(&mut date);
        }
        date
    }

    fn dated_in(&mut self, season: Season, year: u16) -> SystemTime {
        let date = self.dated(year);
        let (month, day) = match season {
            Season::Spring => (self.seeded.between_u16(3, 5), date.day.min(30)),
            Season::Autumn => (self.seeded.between_u16(8, 11), date.day.min(30)),
            Season::NewYear => {
                self.seeded
                    .pick(&[(1, 1), (1, 1), (1, 2), (12, 31), (12, 31), (12, 30)])
            }
            Season::Any => (date.month, date.day),
        };
        let mut date = SystemTime { month, day, ..date };
        if matches!(season, Season::NewYear) {
            self.near_midnight(&mut date);
        }
        date
    }

    /// Puts a date near a new year often into the hour next to it, and at
    /// times into the millisecond next to it.
    fn near_midnight(&mut self, date: &mut SystemTime) {
        let next = match date.month {
            1 => at_time(*date, 0),
            _ => at_time(*date, TICKS_PER_DAY - TICKS_PER_MILLISECOND),
        };
        match self.seeded.between(0, 3) {
            0 => date.hour = next.hour,
            1 => *date = next,
            _ => {}
        }
    }

    /// Both dates fall on one UTC tick, always or in most years, or lie a
    /// minute, a second or a millisecond apart.
    fn rule_with_one_switch(&mut self, rule: Rule) -> Rule {
        let mut date = match self.seeded.one_in(2) {
            true => self.yearly_date(),
            false => {
                let year = self.year_of_dates(rule.year);
                self.dated(year)
            }
        };
        let apart = self.seeded.between(0, 180);
        let daylight = self.seeded.between(-1_440, 1_440 - apart);
        let standard = daylight + apart;
        let at = self.seeded.between(1, 1_437 - apart) * TICKS_PER_MINUTE + self.part_of_minute();
        let near = match self.seeded.one_in(2) {
            true => 0,
            false => self.seeded.pick(&[-1, 1]) * self.seeded.pick(&PARTS),
        };
        let daylight_date = at_time(date, at);
        if date.year == 0 && date.day == 5 && self.seeded.one_in(2) {
            date.day = 4;
        }
        Rule {
            bias: 0,
            standard_bias: standard as i32,
            daylight_bias: daylight as i32,
            standard_date: at_time(date, at + apart * TICKS_PER_MINUTE + near),
            daylight_date,
            ..rule
        }
    }

    /// A row in which two rules meet at a new year so that one local tick has
    /// up to four UTC ticks: two in the old year and two in the new one, each
    /// pair around a switch.
    fn zone_that_meets(&mut self, count: usize) -> Vec<Rule> {
        let mut years = self.zone_years(count);
        // Two neighbours of which the later one is in the window.
        let later = self.seeded.between_usize(1, count - 1);
        if years[later] != years[later - 1] + 1 {
            years[later - 1] = years[later] - 1;
        }
        let mut row: Vec<Rule> = years.iter().map(|&year| self.zone_rule(year)).collect();
        let [old, new] = [years[later - 1], years[later]];
        if old >= 1_602 {
            // In minutes. The local tick is that long before the new year;
            // two biases are less and two are not, so that it has ticks on
            // both sides. The clock of the first bias shows the first switch
            // soon after it, still in the old year, and that of the third
            // one shows the second switch in the new year.
            let widest = self.seeded.pick(&[2, 30, 120, 288]);
            let early = self.seeded.between(2, widest);
            let mut some = || self.seeded.between(0, widest);
            let to_first = 1 + some() % (early - 1);
            let two = early - 1 - some();
            let one = two - to_first - some();
            let three = early + some();
            let to_second = early + some();
            let four = (three + to_second + some()).min(1_440);

            let new_year = self.calendar.first_day(new as i16) * TICKS_PER_DAY;
            let local = new_year - early * TICKS_PER_MINUTE + self.part_of_minute();
            let first = local + (one + to_first) * TICKS_PER_MINUTE;
            let second = local + (three + to_second) * TICKS_PER_MINUTE;
            self.switch_between(&mut row[later - 1], old, first, [one, two]);
            self.switch_between(&mut row[later], new, second, [three, four]);
        }
        self.mark_one(&mut row);
        row
    }

    /// Lets a rule switch at a UTC tick from one bias to another, if its
    /// clock shows that year there; the other switch is in the summer.
    fn switch_between(&mut self, rule: &mut Rule, year: u16, at: i64, biases: [i64; 2]) {
        let local = at - biases[0] * TICKS_PER_MINUTE;
        let day = self.calendar.day(local / TICKS_PER_DAY);
        if i64::from(day.year) != i64::from(year) {
            return;
        }
        let month = u16::from(day.month);
        let last = days_of_month(self.calendar, year, month);
        let yearly = self.seeded.one_in(2);
        let day_of_month = u16::from(day.day);
        let occurrence = match day_of_month + 7 > last && self.seeded.one_in(2) {
            true => 5,
            false => (day_of_month - 1) / 7 + 1,
        };
        let switch = SystemTime {
            year: if yearly { 0 } else { year },
            month,
            weekday: match yearly || self.seeded.one_in(2) {
                true => u16::from(day.weekday),
                false => u16::MAX,
            },
            day: if yearly { occurrence } else { day_of_month },
            ..Default::default()
        };
        let summer = SystemTime {
            month: 6,
            weekday: 0,
            day: 1,
            ..switch
        };
        let switch = at_time(switch, local % TICKS_PER_DAY);
        // To standard time or to daylight time.
        let [before, after] = biases.map(|bias| bias as i32);
        rule.bias = 0;
        if self.seeded.one_in(2) {
            rule.standard_date = switch;
            rule.daylight_date = summer;
            rule.standard_bias = after;
            rule.daylight_bias = before;
        } else {
            rule.daylight_date = switch;
            rule.standard_date = summer;
            rule.daylight_bias = after;
            rule.standard_bias = before;
        }
    }
}
