//! The Monday sheet as text, as the tool prints it, and the log that is booked
//! for it, all by the reference.

use crate::calendar::Calendar;
use crate::hours_demo::WEEKDAYS;
use crate::library::Tally;
use crate::pencil_account::Account;
use crate::record_examples::zone_p;
use crate::run_ticks::Counter;
use crate::time_reference::{TICKS_PER_HOUR, TICKS_PER_MINUTE};
use crate::time_text::{run_of, utc_text, Fault};
use std::io::Read;

/// The names of the sheet's rows with their ticks.
fn rows(tally: &Tally) -> impl Iterator<Item = (&'static str, u64)> + '_ {
    let names = WEEKDAYS.into_iter().chain(["total"]);
    names.zip(tally.totals.into_iter().chain([tally.totals.iter().sum()]))
}

/// Whole hours, and the minutes after them, rounded down.
fn hours(ticks: u64) -> (u64, u64) {
    let hours = ticks / TICKS_PER_HOUR as u64;
    let left = ticks - hours * TICKS_PER_HOUR as u64;
    (hours, left / TICKS_PER_MINUTE as u64)
}

pub fn table(calendar: &Calendar, tally: &Tally) -> String {
    let mut text = String::new();
    for (name, ticks) in rows(tally) {
        let (hours, minutes) = hours(ticks);
        text += &format!("{name:<10}{hours:>6}:{minutes:02}\n");
    }
    text + &format!("counted up to {}\n", utc_text(calendar, tally.end.ticks))
}

pub fn csv(calendar: &Calendar, tally: &Tally) -> String {
    let mut text = "weekday,hours,minutes,ticks,counted_up_to\n".to_string();
    let end = utc_text(calendar, tally.end.ticks);
    for (name, ticks) in rows(tally) {
        let (hours, minutes) = hours(ticks);
        text += &format!("{name},{hours},{minutes},{ticks},{end}\n");
    }
    text
}

/// Books the lines of a log. A wrong line changes nothing; it is answered with
/// its number, from 1 on, and what is wrong with it.
pub fn book_log(calendar: &Calendar, account: &mut Account, log: &str) -> Vec<(usize, Fault)> {
    let mut faults = Vec::new();
    for (place, line) in log.split('\n').enumerate() {
        let booked = match run_of(calendar, line) {
            Ok(None) => continue,
            Ok(Some(run)) => account.note(run).map_err(Fault::Refused),
            Err(fault) => Err(fault),
        };
        if let Err(fault) = booked {
            faults.push((place + 1, fault));
        }
    }
    faults
}

/// Prints the sheet of the log on standard input, in zone P.
pub fn print(calendar: &Calendar, as_csv: bool) {
    let mut log = String::new();
    let read = std::io::stdin().read_to_string(&mut log);
    read.expect("a log that is text");
    let row = [zone_p(0, 1)];
    let counter = Counter::of(calendar, &row).expect("zone P is accepted");
    let mut account = Account::of(counter);
    let faults = book_log(calendar, &mut account, &log);
    assert!(faults.is_empty(), "wrong lines: {faults:?}");
    let sheet = if as_csv { csv } else { table };
    print!("{}", sheet(calendar, &account.tally()));
}
