//! The faults that a rule can have, whether it lies in a record or in memory.

use crate::library::{Rule, SystemTime};
use crate::seeded_rules::Source;
use crate::zone_rules::{days_of_month, is_set};

#[derive(Clone, Copy, PartialEq, Eq, Debug)]
pub enum RuleFault {
    LateYear,
    YearNotAbove,
    StandardDate,
    DaylightDate,
    OneDate,
    TwoYears,
    Bias,
}

impl RuleFault {
    pub const ALL: [RuleFault; 7] = [
        RuleFault::LateYear,
        RuleFault::YearNotAbove,
        RuleFault::StandardDate,
        RuleFault::DaylightDate,
        RuleFault::OneDate,
        RuleFault::TwoYears,
        RuleFault::Bias,
    ];

    /// Those that do not look at the rule's year.
    pub const OF_DATES_AND_BIASES: [RuleFault; 5] = [
        RuleFault::StandardDate,
        RuleFault::DaylightDate,
        RuleFault::OneDate,
        RuleFault::TwoYears,
        RuleFault::Bias,
    ];

    /// The number in document 01's table.
    pub fn number(self) -> u32 {
        match self {
            RuleFault::LateYear | RuleFault::YearNotAbove => 8,
            RuleFault::StandardDate | RuleFault::DaylightDate => 10,
            RuleFault::OneDate | RuleFault::TwoYears => 11,
            RuleFault::Bias => 9,
        }
    }

    /// The place in the order "8, 10 (standard first), 11, 9".
    pub fn place(self) -> usize {
        match self {
            RuleFault::LateYear | RuleFault::YearNotAbove => 0,
            RuleFault::StandardDate => 1,
            RuleFault::DaylightDate => 2,
            RuleFault::OneDate | RuleFault::TwoYears => 3,
            RuleFault::Bias => 4,
        }
    }

    /// Puts the fault into a rule. It brings no other that comes before it in
    /// the order, but may take away or bring one that comes after.
    pub fn put(self, source: &mut Source, rule: &mut Rule, before: Option<u16>) {
        match (self, before) {
            (RuleFault::YearNotAbove, Some(before)) => {
                rule.year = match source.seeded.between(0, 3) {
                    0 => 0,
                    1 => source.seeded.between_u16(0, before),
                    2 => before.saturating_sub(1),
                    _ => before,
                }
            }
            (RuleFault::LateYear | RuleFault::YearNotAbove, _) => {
                let late = [30_828, 30_829, 32_767, 32_768, 34_818, 65_535];
                rule.year = source.seeded.pick(&late);
            }
            (RuleFault::StandardDate, _) => {
                rule.standard_date = source.broken_date(rule.standard_date, rule.daylight_date);
            }
            (RuleFault::DaylightDate, _) => {
                rule.daylight_date = source.broken_date(rule.daylight_date, rule.standard_date);
            }
            (RuleFault::OneDate, _) => source.set_one_date(rule),
            (RuleFault::TwoYears, _) => source.set_two_years(rule),
            (RuleFault::Bias, _) => source.spoil_bias(rule),
        }
    }
}

impl Source<'_> {
    /// A set date, yearly or with a year.
    fn set_date(&mut self) -> SystemTime {
        if self.seeded.one_in(2) {
            self.yearly_date()
        } else {
            let year = self.date_year();
            self.dated(year)
        }
    }

    /// A date with one number wrong. One that is not set is replaced first,
    /// by a date of the other date's year where that one has a good year.
    fn broken_date(&mut self, date: SystemTime, other: SystemTime) -> SystemTime {
        let mut date = match (is_set(&date), is_set(&other), other.year) {
            (true, _, _) => date,
            (false, true, 1601..=30_827) => self.dated(other.year),
            (false, true, 0) => self.yearly_date(),
            (false, _, _) => self.set_date(),
        };
        match self.seeded.between(0, 7) {
            0 => {
                date.month = self
                    .seeded
                    .pick(&[13, 14, 255, 256, 257, 268, 32_768, 65_535])
            }
            1 => date.hour = self.seeded.pick(&[24, 25, 255, 256, 279, 32_768, 65_535]),
            2 => date.minute = self.seeded.pick(&[60, 61, 255, 256, 315, 32_768, 65_535]),
            // The first ones beyond, and numbers whose lowest bits alone would do.
            3 => date.second = self.seeded.pick(&[60, 61, 255, 256, 315, 32_768, 65_535]),
            4 => {
                date.millisecond = self
                    .seeded
                    .pick(&[1_000, 1_001, 1_023, 1_024, 2_023, 32_768, 33_767, 65_535])
            }
            5 => {
                date.year = self
                    .seeded
                    .pick(&[1, 1_600, 30_828, 32_767, 32_768, 65_535])
            }
            _ if date.year == 0 => self.spoil_yearly_day(&mut date),
            _ => self.spoil_day(&mut date),
        }
        date
    }

    /// The weekday or the occurrence of a yearly date.
    fn spoil_yearly_day(&mut self, date: &mut SystemTime) {
        if self.seeded.one_in(2) {
            date.weekday = self.seeded.pick(&[7, 8, 255, 256, 262, 32_768, 65_535]);
        } else {
            date.day = self
                .seeded
                .pick(&[0, 6, 7, 28, 31, 256, 257, 32_768, 65_535]);
        }
    }

    /// The day of a date with a year.
    fn spoil_day(&mut self, date: &mut SystemTime) {
        if self.seeded.one_in(2) {
            date.month = 2;
        }
        let known = (1..=12).contains(&date.month) && (1601..=30_827).contains(&date.year);
        let after = match known {
            true => days_of_month(self.calendar, date.year, date.month) + 1,
            false => 32,
        };
        date.day = match self.seeded.one_in(2) {
            true => after,
            false => self.seeded.pick(&[0, 32, 256, 257, 284, 32_768, 65_535]),
        };
    }

    /// Makes one date set and the other not.
    fn set_one_date(&mut self, rule: &mut Rule) {
        if !is_set(&rule.standard_date) && !is_set(&rule.daylight_date) {
            match self.seeded.one_in(2) {
                true => rule.standard_date = self.set_date(),
                false => rule.daylight_date = self.set_date(),
            }
            return;
        }
        match self.seeded.one_in(2) {
            true => {
                rule.standard_date = self.unset_date();
                if !is_set(&rule.daylight_date) {
                    rule.daylight_date = self.set_date();
                }
            }
            false => {
                rule.daylight_date = self.unset_date();
                if !is_set(&rule.standard_date) {
                    rule.standard_date = self.set_date();
                }
            }
        }
    }

    /// Two good dates of different years, at times one of them without.
    fn set_two_years(&mut self, rule: &mut Rule) {
        let year = self.date_year();
        let one = self.dated(year);
        let other = if self.seeded.one_in(2) {
            self.yearly_date()
        } else {
            let another = match year {
                1601 => 1602,
                30_827 => 30_826,
                _ => match self.seeded.between(0, 2) {
                    0 => year - 1,
                    1 => year + 1,
                    _ if year < 16_000 => 30_827,
                    _ => 1601,
                },
            };
            self.dated(another)
        };
        (rule.standard_date, rule.daylight_date) = match self.seeded.one_in(2) {
            true => (one, other),
            false => (other, one),
        };
    }

    /// Puts one bias or both that count out of range.
    fn spoil_bias(&mut self, rule: &mut Rule) {
        if !is_set(&rule.standard_date) && !is_set(&rule.daylight_date) {
            rule.bias = match self.seeded.between(0, 2) {
                0 => self.seeded.pick(&[1_441, -1_441]),
                1 => self
                    .seeded
                    .pick(&[i32::MIN, i32::MAX, 65_536, 65_596, -65_536, 256_000]),
                _ => match self.seeded.any_i32() {
                    -1_440..=1_440 => 1_442,
                    any => any,
                },
            };
            if self.seeded.one_in(3) {
                // Sums that would be good if they counted.
                rule.standard_bias = self.good_addition(rule.bias);
                rule.daylight_bias = self.good_addition(rule.bias);
            }
            return;
        }
        let sum = self.bad_sum();
        // Any bias from which an addition leads to that sum.
        let low = (sum - i64::from(i32::MAX)).max(i64::from(i32::MIN));
        let high = (sum - i64::from(i32::MIN)).min(i64::from(i32::MAX));
        let bias = match self.seeded.between(0, 3) {
            0 => low,
            1 => high,
            2 => self.seeded.between(low, high),
            _ => self.seeded.between(-1_440, 1_440).clamp(low, high),
        };
        let addition = (sum - bias) as i32;
        rule.bias = bias as i32;
        let good = self.good_addition(rule.bias);
        [rule.standard_bias, rule.daylight_bias] = match self.seeded.between(0, 2) {
            0 => [addition, good],
            1 => [good, addition],
            _ => [addition, addition],
        };
    }

    /// A sum out of range: just so, far away, or such that 16 or 32 bits
    /// would take it for one in range.
    fn bad_sum(&mut self) -> i64 {
        match self.seeded.between(0, 5) {
            0 | 1 => self.seeded.pick(&[1_441, -1_441, 1_442, -1_442]),
            2 => self
                .seeded
                .pick(&[1 << 31, -(1 << 31) - 1, (1 << 31) - 1, -(1 << 31)]),
            3 => self.seeded.pick(&[-1, 1]) * 65_536 + self.seeded.between(-1_440, 1_440),
            // 32 bits reach no further than these sums of two numbers.
            4 => (1 << 32) - self.seeded.between(2, 1_440),
            _ => -(1 << 32) + self.seeded.between(0, 1_440),
        }
    }
}
