//! What the program crates/hours_demo has to print, made by the reference
//! alone: a week of runs in zone P by the pencil account, with a restart in
//! the middle and a run that is refused.

use crate::calendar::Calendar;
use crate::pencil_account::Account;
use crate::record_examples::zone_p;
use crate::run_ticks::{Counter, Run};
use crate::time_reference::TICKS_PER_MINUTE;
use crate::zone_examples::tick;

/// UTC, before the restart and after it.
const BEFORE: [[&str; 2]; 3] = [
    ["2023-10-23 04:00", "2023-10-23 12:00"],
    ["2023-10-23 20:00", "2023-10-24 04:30"],
    ["2023-10-25 05:15", "2023-10-25 17:00"],
];
const AFTER: [[&str; 2]; 2] = [
    ["2023-10-27 18:00", "2023-10-28 02:00"],
    ["2023-10-28 12:00", "2023-10-30 05:00"],
];
const REFUSED: [&str; 2] = ["2023-10-28 00:00", "2023-10-28 01:00"];

pub const WEEKDAYS: [&str; 7] = [
    "Sunday",
    "Monday",
    "Tuesday",
    "Wednesday",
    "Thursday",
    "Friday",
    "Saturday",
];

pub fn print(calendar: &Calendar) {
    let row = [zone_p(0, 1)];
    let counter = Counter::of(calendar, &row).expect("zone P is accepted");
    let mut account = Account::of(counter);
    let run = |[from, to]: [&str; 2]| Run {
        from: tick(calendar, from),
        to: tick(calendar, to),
    };
    for times in BEFORE {
        account.book(run(times)).expect("a run in its order");
    }
    let saved = account.save(68).expect("room enough");
    account.read(&saved).expect("the record that was saved");
    for times in AFTER {
        account.book(run(times)).expect("a run in its order");
    }
    let refused = account.book(run(REFUSED)).expect_err("a run out of order");

    for (weekday, ticks) in WEEKDAYS.iter().zip(account.tally().totals) {
        println!("{}", hours(weekday, ticks));
    }
    println!("{}", hours("total", account.time_run()));
    println!("{:<10}{refused:>5}", "refused");
}

/// Hours and minutes, rounded down.
fn hours(name: &str, ticks: u64) -> String {
    let minutes = ticks / TICKS_PER_MINUTE as u64;
    format!("{name:<10}{:>5}:{:02}", minutes / 60, minutes % 60)
}
