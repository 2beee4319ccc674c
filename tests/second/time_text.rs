//! Times and runs as text, by the words of the tool's man page. Logs and local
//! times go by revision 1.2 of the time paper.

use crate::calendar::Calendar;
use crate::library::TimeFields;
use crate::run_ticks::Run;
use crate::time_reference::{
    fields_to_time, time_to_fields, NOT_EXPRESSIBLE, REVISION_1_2, TICKS_PER_SECOND,
};

/// What is wrong with a text.
#[derive(Clone, Copy, PartialEq, Eq, Debug)]
pub enum Fault {
    Refused(u32),
    NotATime,
    NotTwoTimes,
}

pub const BLANKS: [char; 3] = [' ', '\t', '\r'];

/// The run of a line of a log. None where it is blank or a comment.
pub fn run_of(calendar: &Calendar, line: &str) -> Result<Option<Run>, Fault> {
    let text = line.split('#').next().unwrap_or_default();
    let words: Vec<&str> = text.split(BLANKS).filter(|word| !word.is_empty()).collect();
    match words[..] {
        [] => Ok(None),
        [from, to] => Ok(Some(Run {
            from: utc_time(calendar, REVISION_1_2, from)?,
            to: utc_time(calendar, REVISION_1_2, to)?,
        })),
        _ => Err(Fault::NotTwoTimes),
    }
}

pub fn utc_time(calendar: &Calendar, revision: u32, text: &str) -> Result<i64, Fault> {
    match text.strip_suffix('Z') {
        Some(clock) => clock_time(calendar, revision, clock),
        None => number(text),
    }
}

pub fn local_time(calendar: &Calendar, text: &str) -> Result<i64, Fault> {
    number(text).or_else(|_| clock_time(calendar, REVISION_1_2, text))
}

/// A number of ticks. Rust would take a plus sign, too.
fn number(text: &str) -> Result<i64, Fault> {
    match text.parse() {
        Ok(ticks) if !text.starts_with('+') => Ok(ticks),
        _ => Err(Fault::NotATime),
    }
}

/// A date, a T, a time of day, and perhaps a fraction of a second. Its form is
/// looked at before any of its numbers.
fn clock_time(calendar: &Calendar, revision: u32, text: &str) -> Result<i64, Fault> {
    let (date, clock) = text.split_once('T').ok_or(Fault::NotATime)?;
    let (clock, fraction) = clock.split_once('.').unwrap_or((clock, "0"));
    let [year, month, day] = three(date.split('-').collect())?;
    let [hour, minute, second] = three(clock.split(':').collect())?;
    let year = digits(year, 4, 5)?;
    let mut two = [0; 5];
    for (number, text) in two.iter_mut().zip([month, day, hour, minute, second]) {
        *number = digits(text, 2, 2)? as i16;
    }
    let [month, day, hour, minute, second] = two;
    // A tick is the seventh digit.
    digits(fraction, 1, 7)?;
    let ticks = digits(&format!("{fraction:0<7}"), 7, 7)?;

    // No field holds a later year.
    let Ok(year) = i16::try_from(year) else {
        return Err(Fault::Refused(NOT_EXPRESSIBLE));
    };
    let fields = TimeFields::from_row([year, month, day, hour, minute, second, 0, 0]);
    let answer = fields_to_time(calendar, revision, fields);
    match answer.refusal {
        0 => answer
            .time
            .checked_add(ticks)
            .ok_or(Fault::Refused(NOT_EXPRESSIBLE)),
        number => Err(Fault::Refused(number)),
    }
}

fn three(parts: Vec<&str>) -> Result<[&str; 3], Fault> {
    parts.try_into().map_err(|_| Fault::NotATime)
}

/// The number of a text that is so many digits and nothing else.
fn digits(text: &str, fewest: usize, most: usize) -> Result<i64, Fault> {
    let is_long_enough = (fewest..=most).contains(&text.len());
    if !is_long_enough || !text.bytes().all(|byte| byte.is_ascii_digit()) {
        return Err(Fault::NotATime);
    }
    text.parse().map_err(|_| Fault::NotATime)
}

/// A TIME from 0 up as a clock shows it.
pub fn clock_text(calendar: &Calendar, time: i64) -> String {
    let [year, month, day, hour, minute, second, ..] =
        time_to_fields(calendar, REVISION_1_2, time).fields.as_row();
    let fraction = match time % TICKS_PER_SECOND {
        0 => String::new(),
        ticks => format!(".{ticks:07}"),
    };
    format!("{year:04}-{month:02}-{day:02}T{hour:02}:{minute:02}:{second:02}{fraction}")
}

/// The same in UTC.
pub fn utc_text(calendar: &Calendar, time: i64) -> String {
    clock_text(calendar, time) + "Z"
}
