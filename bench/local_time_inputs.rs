//! Rows of one rule, and seeded ticks to be asked with them.

use crate::inputs;
use crate::library::{self, Rule, SystemTime, TimeFields};
use crate::plain::REVISION_1_2;
use crate::record_inputs::Source;

/// Which rows the ticks are asked with.
#[derive(Clone, Copy)]
pub enum Zones {
    /// Central European time, every time.
    One,
    /// Central European time, a zone of the south, one without switches and
    /// one that switches a millisecond before midnight, in no order.
    Mixed,
}

pub const ZONES: [Zones; 2] = [Zones::One, Zones::Mixed];

impl Zones {
    pub fn name(self) -> &'static str {
        match self {
            Zones::One => "one rule",
            Zones::Mixed => "mixed zones",
        }
    }

    pub fn rows(self) -> &'static [[Rule; 1]] {
        match self {
            Zones::One => &ROWS[..1],
            Zones::Mixed => &ROWS,
        }
    }
}

static ROWS: [[Rule; 1]; 4] = [
    // The papers' zone P.
    [zone(-60, yearly_sunday(10, 5, 3), yearly_sunday(3, 5, 2))],
    // The south-east of Australia: daylight time over the new year.
    [zone(-600, yearly_sunday(4, 1, 3), yearly_sunday(10, 1, 2))],
    [zone(300, NOT_SET, NOT_SET)],
    [zone(240, before_midnight(3, 4), before_midnight(10, 1))],
];

const NOT_SET: SystemTime = SystemTime {
    year: 0,
    month: 0,
    weekday: 0,
    day: 0,
    hour: 0,
    minute: 0,
    second: 0,
    millisecond: 0,
};

const fn yearly_sunday(month: u16, occurrence: u16, hour: u16) -> SystemTime {
    SystemTime {
        month,
        day: occurrence,
        hour,
        ..NOT_SET
    }
}

const fn before_midnight(month: u16, occurrence: u16) -> SystemTime {
    SystemTime {
        minute: 59,
        second: 59,
        millisecond: 999,
        ..yearly_sunday(month, occurrence, 23)
    }
}

const fn zone(bias: i32, standard_date: SystemTime, daylight_date: SystemTime) -> Rule {
    Rule {
        year: 0,
        active: 1,
        padding: 0,
        bias,
        standard_bias: 0,
        daylight_bias: -60,
        standard_date,
        daylight_date,
    }
}

/// A tick, UTC or local, and the row it is asked with.
#[derive(Clone, Copy)]
pub struct Asked {
    pub row: &'static [Rule; 1],
    pub tick: i64,
}

const MILLISECOND: i64 = 10_000;
const HOUR: i64 = 3_600_000 * MILLISECOND;

/// The ends of the window of UTC ticks.
pub const WINDOW_START: i64 = 315_360_000_000_000;
pub const WINDOW_END: i64 = 9_223_149_888_000_000_000;

impl Source {
    /// Evenly spread over 1970 to 2099.
    pub fn ticks(&mut self, zones: Zones) -> Vec<Asked> {
        let times = inputs::spans().swap_remove(0).times;
        let rows = zones.rows();
        times
            .into_iter()
            .map(|tick| Asked {
                row: &rows[self.below(rows.len() as u64) as usize],
                tick,
            })
            .collect()
    }

    /// The same, but an eighth of them lies within an hour of a switch, where
    /// local ticks are skipped or come twice.
    pub fn local_ticks(&mut self, zones: Zones) -> Vec<Asked> {
        let mut ticks = self.ticks(zones);
        for asked in ticks.iter_mut().step_by(8) {
            let [rule] = asked.row;
            let date = match self.below(2) {
                0 => &rule.standard_date,
                _ => &rule.daylight_date,
            };
            if *date != NOT_SET {
                let switch = sunday_switch(1970 + self.below(130) as i16, date);
                asked.tick = switch + self.within_hours(1);
            }
        }
        ticks
    }

    /// Any tick of 64 bits, or one at or within two days of an end of the
    /// window, of the first tick or of the last one.
    pub fn any_tick(&mut self) -> i64 {
        let near = match self.below(6) {
            0 => 0,
            1 => WINDOW_START,
            2 => WINDOW_END,
            3 => i64::MAX,
            _ => return self.below(u64::MAX) as i64,
        };
        near.saturating_add(match self.below(2) {
            0 => self.below(3) as i64 - 1,
            _ => self.within_hours(48),
        })
    }

    /// Within two days of a new year.
    pub fn near_new_year(&mut self) -> i64 {
        let year = 1602 + self.below(1100) as i16;
        tick_of(year, 1, 1).unwrap() + self.within_hours(48)
    }

    /// From so many hours before to so many after.
    fn within_hours(&mut self, hours: i64) -> i64 {
        self.below(2 * (hours * HOUR) as u64) as i64 - hours * HOUR
    }
}

/// The first tick of a day, if there is that day.
fn tick_of(year: i16, month: i16, day: i16) -> Option<i64> {
    let fields = TimeFields {
        year,
        month,
        day,
        ..Default::default()
    };
    let answer = library::fields_to_time(REVISION_1_2, fields);
    (answer.refusal == 0).then_some(answer.time)
}

/// The local tick of a yearly date on a Sunday.
fn sunday_switch(year: i16, date: &SystemTime) -> i64 {
    let days = (1..=31).filter_map(|day| tick_of(year, date.month as i16, day));
    let is_sunday = |&tick: &i64| library::time_to_fields(REVISION_1_2, tick).fields.weekday == 0;
    let sundays: Vec<i64> = days.filter(is_sunday).collect();
    let seconds = (date.hour as i64 * 60 + date.minute as i64) * 60 + date.second as i64;
    let milliseconds = seconds * 1000 + date.millisecond as i64;
    sundays[sundays.len().min(date.day as usize) - 1] + milliseconds * MILLISECOND
}
