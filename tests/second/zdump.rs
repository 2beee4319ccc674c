//! Outside dates of local time: the transitions that the system's zone data
//! has for zones that there are, as `zdump -v` prints them. The library is
//! held to them, and so is the reference.

use crate::calendar::Calendar;
use crate::library::{self, LocalAnswer, LocalTick, Rule, TimeFields, UtcAnswer, UtcTick};
use crate::outside_zones::{zones, OutsideZone};
use crate::report::{Answer, Enough, Outcome, Section};
use crate::seeded::Seeded;
use crate::time_reference::{fields_to_time, REVISION_1_2, TICKS_PER_DAY, TICKS_PER_SECOND};
use crate::zone_reference::{Dates, Zone};
use crate::Basis;
use std::fmt::{self, Debug};
use std::process::Command;

/// Seeded ticks for each zone, beside those around its transitions.
const TICKS: usize = 300;

pub fn sections(basis: &Basis) -> Vec<Section> {
    let name = "zdump: zones that there are";
    let outcomes = [
        Outcome::Answered,
        Outcome::Ticks(0),
        Outcome::Ticks(1),
        Outcome::Ticks(2),
    ];
    let mut seeded = Seeded::new(basis.seed, name);
    vec![Section::run(name, &outcomes, 20_000, |section| {
        let zones = zones();
        let names: Vec<&'static str> = zones.iter().map(|zone| zone.name).collect();
        section.want(&names);
        for zone in &zones {
            match Clock::of(&basis.calendar, zone) {
                Ok(clock) => {
                    let asked = Asked {
                        zone,
                        by_reference: Zone::of(&basis.calendar, &zone.row),
                        clock,
                    };
                    asked.compare(section, &basis.calendar, &mut seeded)?;
                }
                Err(why) => {
                    section.check(zone.name, Missing(why), WANTED, false)?;
                }
            }
        }
        Ok(())
    })]
}

/// Where the outside dates come from.
pub const WANTED: &str = "what `zdump -v` prints (Debian: libc-bin and tzdata)";

/// Why there are no outside dates. It is a difference, never passed over.
#[derive(PartialEq)]
pub struct Missing(pub String);

impl Debug for Missing {
    fn fmt(&self, f: &mut fmt::Formatter<'_>) -> fmt::Result {
        write!(f, "{}", self.0)
    }
}

impl Answer for Missing {
    fn outcome(&self) -> Outcome {
        Outcome::No
    }
}

/// One line of `zdump -v`: two clocks that show the same moment.
#[derive(Clone, Copy)]
struct Line {
    utc: i64,
    local: i64,
}

/// From one transition to the next.
#[derive(Clone, Copy)]
pub struct Stretch {
    pub from: i64,
    pub to: i64,
    /// Local less UTC, in ticks.
    pub ahead: i64,
}

/// What a zone's clocks show in its years.
pub struct Clock {
    lines: Vec<Line>,
    /// One after the other; the first starts and the last ends with the years.
    pub stretches: Vec<Stretch>,
}

impl Clock {
    pub fn of(calendar: &Calendar, zone: &OutsideZone) -> Result<Clock, String> {
        let lines = lines(calendar, zone.name)?;
        let start = calendar.first_day(zone.years.0) * TICKS_PER_DAY;
        let end = calendar.first_day(zone.years.1 + 1) * TICKS_PER_DAY;

        // A transition has two lines, the last second before it and the first
        // one after; the row may have it a little before that. What is ahead
        // before the years is known from the last transition before them.
        let mut ahead = None;
        let mut stretches: Vec<Stretch> = Vec::new();
        for pair in lines.windows(2) {
            let after = pair[1];
            if after.utc - pair[0].utc != TICKS_PER_SECOND || after.utc >= end {
                continue;
            }
            if after.utc > start {
                if stretches.is_empty() {
                    stretches.extend(ahead.map(|ahead| Stretch {
                        from: start,
                        to: end,
                        ahead,
                    }));
                }
                let from = after.utc - zone.early;
                if let Some(before) = stretches.last_mut() {
                    before.to = from;
                }
                stretches.push(Stretch {
                    from,
                    to: end,
                    ahead: after.local - after.utc,
                });
            }
            ahead = Some(after.local - after.utc);
        }
        match (stretches.is_empty(), ahead) {
            (_, None) => return Err("no transition is known".to_string()),
            (true, Some(ahead)) => stretches.push(Stretch {
                from: start,
                to: end,
                ahead,
            }),
            _ => {}
        }
        if stretches[0].from != start {
            return Err("no transition is known before the years".to_string());
        }
        let mut lines = lines;
        lines.retain(|line| (start..end).contains(&line.utc));
        Ok(Clock { lines, stretches })
    }

    pub fn start(&self) -> i64 {
        self.stretches[0].from
    }

    pub fn end(&self) -> i64 {
        self.stretches[self.stretches.len() - 1].to
    }

    /// What a tick of the years shows.
    fn shows(&self, utc: i64) -> i64 {
        let mut stretches = self.stretches.iter();
        let holds = stretches.find(|stretch| (stretch.from..stretch.to).contains(&utc));
        utc + holds.expect("stretches without a gap").ahead
    }

    /// The ticks of the years that show a local tick.
    pub fn shown_at(&self, local: i64) -> Vec<i64> {
        let stretches = self.stretches.iter();
        stretches
            .filter(|stretch| (stretch.from..stretch.to).contains(&(local - stretch.ahead)))
            .map(|stretch| local - stretch.ahead)
            .collect()
    }
}

/// Runs zdump for a zone. A transition that is lost on the way is seen where
/// the zone's row has a switch.
fn lines(calendar: &Calendar, zone: &str) -> Result<Vec<Line>, String> {
    let mut zdump = Command::new("zdump");
    zdump
        .args(["-v", "-c", "1850,2039", zone])
        .env("LC_ALL", "C");
    let output = match zdump.output() {
        Ok(output) => output,
        Err(error) => return Err(format!("zdump cannot be run: {error}")),
    };
    if !output.status.success() {
        let said = String::from_utf8_lossy(&output.stderr);
        return Err(format!("zdump failed: {said}"));
    }
    let text = String::from_utf8_lossy(&output.stdout);
    let lines: Vec<Line> = text
        .lines()
        .filter_map(|text| line(calendar, text))
        .collect();
    match lines.is_empty() {
        true => Err("zdump knows no transition of this zone".to_string()),
        false => Ok(lines),
    }
}

/// Like `Europe/Berlin  Sun Mar 26 01:00:00 2023 UT = Sun Mar 26 03:00:00
/// 2023 CEST isdst=1 gmtoff=7200`. Other lines are about the ends of time.
fn line(calendar: &Calendar, text: &str) -> Option<Line> {
    let (utc, local) = text.split_once(" = ")?;
    let utc: Vec<&str> = utc.split_whitespace().collect();
    let local: Vec<&str> = local.split_whitespace().collect();
    let [_, _, month, day, time, year, "UT" | "UTC"] = utc[..] else {
        return None;
    };
    let utc = [year, month, day, time];
    let [_, month, day, time, year, ..] = local[..] else {
        return None;
    };
    let local = [year, month, day, time];
    Some(Line {
        utc: moment(calendar, utc)?,
        local: moment(calendar, local)?,
    })
}

const MONTHS: [&str; 12] = [
    "Jan", "Feb", "Mar", "Apr", "May", "Jun", "Jul", "Aug", "Sep", "Oct", "Nov", "Dec",
];

fn moment(calendar: &Calendar, [year, month, day, time]: [&str; 4]) -> Option<i64> {
    let month = MONTHS.iter().position(|name| *name == month)? as i16 + 1;
    let parts: Vec<i16> = time
        .split(':')
        .filter_map(|part| part.parse().ok())
        .collect();
    let [hour, minute, second] = parts[..] else {
        return None;
    };
    let (year, day) = (year.parse().ok()?, day.parse().ok()?);
    let fields = TimeFields::from_row([year, month, day, hour, minute, second, 0, 0]);
    let answer = fields_to_time(calendar, REVISION_1_2, fields);
    (answer.refusal == 0).then_some(answer.time)
}

/// A zone with its clock, and the reference's zone.
struct Asked<'a> {
    zone: &'a OutsideZone,
    by_reference: Result<Zone<'a>, u32>,
    clock: Clock,
}

impl Asked<'_> {
    fn compare(
        &self,
        section: &mut Section,
        calendar: &Calendar,
        seeded: &mut Seeded,
    ) -> Result<(), Enough> {
        // As the lines say, to the letter.
        for line in &self.clock.lines {
            self.utc(section, line.utc, line.local)?;
        }
        // Transitions from both sides.
        for pair in self.clock.stretches.windows(2) {
            let at = pair[1].from;
            let near = seeded.between(1, TICKS_PER_DAY);
            for utc in [at - near, at - 1, at, at + 1, at + near] {
                self.utc(section, utc, self.clock.shows(utc))?;
            }
            let [before, after] = [at + pair[0].ahead, at + pair[1].ahead];
            let within = seeded.between(before.min(after), before.max(after) - 1);
            let locals = [
                before - 1,
                before,
                after - 1,
                after,
                within,
                before - near,
                after + near,
            ];
            for local in locals {
                self.local(section, local)?;
            }
        }
        // Where the row has a switch, so has the zone.
        for year in self.zone.years.0..=self.zone.years.1 {
            let mut ticks = vec![calendar.first_day(year) * TICKS_PER_DAY];
            let of_year = self
                .by_reference
                .as_ref()
                .ok()
                .and_then(|zone| zone.year(year));
            if let Some(Dates::Set {
                daylight_from,
                standard_from,
            }) = of_year.map(|of| of.dates)
            {
                ticks.extend([daylight_from, standard_from]);
            }
            for utc in ticks.into_iter().flat_map(|tick| [tick - 1, tick]) {
                if (self.clock.start()..self.clock.end()).contains(&utc) {
                    self.utc(section, utc, self.clock.shows(utc))?;
                }
            }
        }
        for _ in 0..TICKS {
            let utc = seeded.between(self.clock.start(), self.clock.end() - 1);
            self.utc(section, utc, self.clock.shows(utc))?;
            // What lies after the years is not known.
            let last = self.clock.end() - 2 * TICKS_PER_DAY;
            let local = seeded.between(self.clock.start() - TICKS_PER_DAY, last);
            self.local(section, local)?;
        }
        Ok(())
    }

    fn row(&self) -> &[Rule] {
        &self.zone.row
    }

    fn utc(&self, section: &mut Section, utc: i64, local: i64) -> Result<(), Enough> {
        section.saw(self.zone.name);
        let expected = LocalAnswer::of(local);
        let by_reference = match self.shown_by_reference(utc) {
            Ok(local) => LocalAnswer::of(local),
            Err(number) => LocalAnswer::refused(number),
        };
        section.compare(
            ("the reference", self.zone.name, utc),
            by_reference,
            expected,
        )?;
        let given = library::utc_to_local(self.row(), UtcTick { ticks: utc });
        section.compare((self.zone.name, utc), given, expected)
    }

    fn shown_by_reference(&self, utc: i64) -> Result<i64, u32> {
        match &self.by_reference {
            Ok(zone) => zone.utc_to_local(utc),
            Err(number) => Err(*number),
        }
    }

    fn local(&self, section: &mut Section, local: i64) -> Result<(), Enough> {
        section.saw(self.zone.name);
        let expected = UtcAnswer::of(&self.clock.shown_at(local));
        let listed = match &self.by_reference {
            Ok(zone) => zone.local_to_utc(local),
            Err(number) => Err(*number),
        };
        let by_reference = match listed {
            Ok(list) => UtcAnswer::of(&list),
            Err(number) => UtcAnswer::refused(number),
        };
        section.compare(
            ("the reference", self.zone.name, local),
            by_reference,
            expected,
        )?;
        let given = library::local_to_utc(self.row(), LocalTick { ticks: local });
        section.compare((self.zone.name, local), given, expected)
    }
}
