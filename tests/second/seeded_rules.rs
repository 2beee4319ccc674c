//! Seeded rules of a zone: sound ones, which need not be normal.

use crate::calendar::Calendar;
use crate::library::{Rule, SystemTime};
use crate::seeded::Seeded;
use crate::zone_rules::{days_of_month, is_set, LAST_YEAR};
use crate::Basis;

/// The ends of what a bias that counts may be.
const BIAS_EDGES: [i64; 9] = [-1_440, -1_439, -60, -1, 0, 1, 60, 1_439, 1_440];

/// Where rules and all that is made of them come from.
pub struct Source<'a> {
    pub calendar: &'a Calendar,
    pub seeded: Seeded,
}

impl Source<'_> {
    pub fn new<'a>(basis: &'a Basis, section: &str) -> Source<'a> {
        Source {
            calendar: &basis.calendar,
            seeded: Seeded::new(basis.seed, section),
        }
    }

    /// A sound rule of a year, not active.
    pub fn rule(&mut self, year: u16) -> Rule {
        let (standard_date, daylight_date) = match self.seeded.between(0, 2) {
            0 => (self.unset_date(), self.unset_date()),
            1 => (self.yearly_date(), self.yearly_date()),
            _ => {
                let year = self.date_year();
                (self.dated(year), self.dated(year))
            }
        };
        let [bias, standard_bias, daylight_bias] = self.biases(is_set(&standard_date));
        Rule {
            year,
            active: 0,
            padding: self.seeded.any_u8(),
            bias,
            standard_bias,
            daylight_bias,
            standard_date,
            daylight_date,
        }
    }

    /// A sound row of so many rules, one of them active.
    pub fn row(&mut self, count: usize) -> Vec<Rule> {
        let years = self.rising_years(count);
        let mut row: Vec<Rule> = years.into_iter().map(|year| self.rule(year)).collect();
        let active = self.seeded.between_usize(0, count - 1);
        row[active].active = 1;
        row
    }

    /// A year that a rule may have, if it stands alone.
    pub fn rule_year(&mut self) -> u16 {
        match self.seeded.between(0, 3) {
            0 => self
                .seeded
                .pick(&[0, 1, 1600, 1601, 1602, 30_826, LAST_YEAR]),
            1 => self.seeded.between_u16(1_980, 2_040),
            _ => self.seeded.between_u16(0, LAST_YEAR),
        }
    }

    pub fn rising_years(&mut self, count: usize) -> Vec<u16> {
        let mut years: Vec<u16> = (0..count).map(|_| self.rule_year()).collect();
        years.sort_unstable();
        // Each above the one before, then each below the one after.
        for place in 1..count {
            years[place] = years[place].max(years[place - 1] + 1);
        }
        years[count - 1] = years[count - 1].min(LAST_YEAR);
        for place in (1..count).rev() {
            years[place - 1] = years[place - 1].min(years[place] - 1);
        }
        years
    }

    /// Month 0, and often any numbers elsewhere.
    pub fn unset_date(&mut self) -> SystemTime {
        if self.seeded.one_in(2) {
            return SystemTime::default();
        }
        let mut row = [0; 8].map(|_: u16| self.seeded.edge_u16());
        if self.seeded.one_in(2) {
            // One number alone is not zero.
            let only = self.seeded.between_usize(0, 7);
            let number = self.seeded.between_u16(1, u16::MAX);
            row = [0; 8];
            row[only] = number;
        }
        SystemTime {
            month: 0,
            ..SystemTime::from_row(row)
        }
    }

    pub fn yearly_date(&mut self) -> SystemTime {
        SystemTime {
            year: 0,
            month: self.seeded.between_u16(1, 12),
            weekday: self.seeded.between_u16(0, 6),
            day: self.seeded.between_u16(1, 5),
            ..self.time_of_day()
        }
    }

    /// A year that a date may have.
    pub fn date_year(&mut self) -> u16 {
        match self.seeded.between(0, 3) {
            0 => self.seeded.pick(&[1601, 1602, 30_826, LAST_YEAR]),
            1 => self.seeded.pick(&[1900, 2000, 2004, 2100, 2400]),
            _ => self.seeded.between_u16(1601, LAST_YEAR),
        }
    }

    /// A day of that year, with any number as its weekday.
    pub fn dated(&mut self, year: u16) -> SystemTime {
        let month = match self.seeded.one_in(4) {
            true => 2,
            false => self.seeded.between_u16(1, 12),
        };
        let last = days_of_month(self.calendar, year, month);
        let day = match self.seeded.between(0, 3) {
            0 => last,
            1 => 1,
            _ => self.seeded.between_u16(1, last),
        };
        let true_weekday = {
            let first = self.calendar.month(year as i16, month as i16).first;
            u16::from(self.calendar.day(first + i64::from(day) - 1).weekday)
        };
        let weekday = match self.seeded.between(0, 3) {
            0 => 0,
            1 => true_weekday,
            2 => u16::MAX,
            _ => self.seeded.edge_u16(),
        };
        SystemTime {
            year,
            month,
            weekday,
            day,
            ..self.time_of_day()
        }
    }

    fn time_of_day(&mut self) -> SystemTime {
        let whole_minute = self.seeded.one_in(3);
        let mut part = |last: u16| match self.seeded.between(0, 3) {
            0 => 0,
            1 => last,
            _ => self.seeded.between_u16(0, last),
        };
        let time = SystemTime {
            hour: part(23),
            minute: part(59),
            second: part(59),
            millisecond: part(999),
            ..Default::default()
        };
        match whole_minute {
            true => SystemTime {
                second: 0,
                millisecond: 0,
                ..time
            },
            false => time,
        }
    }

    /// Bias and both additions, sound for dates that are set or not.
    pub fn biases(&mut self, set: bool) -> [i32; 3] {
        if !set {
            let bias = self.good_sum(-1_440, 1_440) as i32;
            return [bias, self.seeded.edge_i32(), self.seeded.edge_i32()];
        }
        let bias = match self.seeded.between(0, 3) {
            0 => self.seeded.edge_i32(),
            1 => self.seeded.pick(&[2_000, -2_000, i32::MAX, i32::MIN]),
            _ => self.seeded.between(-1_440, 1_440) as i32,
        };
        let [standard, daylight] = [(); 2].map(|()| self.good_addition(bias));
        [bias, standard, daylight]
    }

    /// An addition with which a bias has a sum that is in range.
    pub fn good_addition(&mut self, bias: i32) -> i32 {
        // Sums that 32 bits can reach from this bias.
        let low = i64::from(bias) + i64::from(i32::MIN);
        let high = i64::from(bias) + i64::from(i32::MAX);
        let sum = self.good_sum(low.max(-1_440), high.min(1_440));
        (sum - i64::from(bias)) as i32
    }

    fn good_sum(&mut self, low: i64, high: i64) -> i64 {
        match self.seeded.one_in(2) {
            true => self.seeded.pick(&BIAS_EDGES).clamp(low, high),
            false => self.seeded.between(low, high),
        }
    }
}
