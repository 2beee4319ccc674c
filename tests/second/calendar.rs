//! The reference calendar. It counts days: one walk, day by day, from Monday
//! 1601-01-01 to the end of the last year that a signed 16-bit field can
//! hold. Whatever is asked later is looked up in what the walk wrote down.

/// The last year of the walk.
pub const LAST_YEAR: i16 = i16::MAX;

/// One day, as the walk came through it.
#[derive(Clone, Copy)]
pub struct Day {
    pub year: i16,
    pub month: u8,
    pub day: u8,
    /// Sunday is 0.
    pub weekday: u8,
}

/// One month: the number of its first day, counted from 1601-01-01 as 0, and
/// how many days the walk spent in it.
#[derive(Clone, Copy, Default)]
pub struct Month {
    pub first: i64,
    pub days: i16,
}

pub struct Calendar {
    days: Vec<Day>,
    /// From 1601 on.
    years: Vec<[Month; 12]>,
}

impl Calendar {
    pub fn walk() -> Calendar {
        let mut days = Vec::with_capacity(11_400_000);
        let mut years = Vec::with_capacity(31_200);
        let mut leap = LeapCount::in_1601();
        let mut year = 1601;
        let mut weekday = 1;
        loop {
            let mut months = [Month::default(); 12];
            for month in 1..=12 {
                let written = &mut months[month as usize - 1];
                written.first = days.len() as i64;
                let mut day = 1;
                loop {
                    days.push(Day {
                        year,
                        month,
                        day,
                        weekday,
                    });
                    written.days += 1;
                    weekday = if weekday == 6 { 0 } else { weekday + 1 };
                    if day == last_day(month, leap.is_leap()) {
                        break;
                    }
                    day += 1;
                }
            }
            years.push(months);
            if year == LAST_YEAR {
                return Calendar { days, years };
            }
            year += 1;
            leap.next_year();
        }
    }

    /// The day of a number, counted from 1601-01-01 as 0.
    pub fn day(&self, number: i64) -> Day {
        self.days[number as usize]
    }

    /// A month of a year from 1601 on; months count from 1.
    pub fn month(&self, year: i16, month: i16) -> Month {
        self.years[year as usize - 1601][month as usize - 1]
    }

    /// The number of a year's first day.
    pub fn first_day(&self, year: i16) -> i64 {
        self.month(year, 1).first
    }
}

fn last_day(month: u8, leap: bool) -> u8 {
    match (month, leap) {
        (2, false) => 28,
        (2, true) => 29,
        (4 | 6 | 9 | 11, _) => 30,
        _ => 31,
    }
}

/// The leap rule, counted along with the years: how many years ago the last
/// year was that 4, 100 and 400 divide.
struct LeapCount {
    since_four: u16,
    since_hundred: u16,
    since_four_hundred: u16,
}

impl LeapCount {
    /// The year before, 1600, is divided by all three.
    fn in_1601() -> LeapCount {
        LeapCount {
            since_four: 1,
            since_hundred: 1,
            since_four_hundred: 1,
        }
    }

    fn next_year(&mut self) {
        fn step(count: &mut u16, round: u16) {
            *count += 1;
            if *count == round {
                *count = 0;
            }
        }
        step(&mut self.since_four, 4);
        step(&mut self.since_hundred, 100);
        step(&mut self.since_four_hundred, 400);
    }

    fn is_leap(&self) -> bool {
        if self.since_four_hundred == 0 {
            true
        } else if self.since_hundred == 0 {
            false
        } else {
            self.since_four == 0
        }
    }
}
