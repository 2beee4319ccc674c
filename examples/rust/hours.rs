//! Dohlenwerk from Rust, without a crate: hours run by weekday over the night
//! in which the clock goes forward, with a run that is refused and a restart.
//!
//!     make lib
//!     rustc --edition 2021 -O examples/rust/hours.rs -L target/lib -l static=dohlenwerk -o hours

use dohlenwerk::{book, read_registry, read_tally, save_tally, utc, Refusal, Tally};

/// What this program needs of dohlenwerk.h, with safe functions around it. All
/// `unsafe` is in here.
mod dohlenwerk {
    /// The number of a refusal; the header says what each means.
    #[derive(Clone, Copy, Debug)]
    pub struct Refusal(pub u32);

    #[repr(C)]
    #[derive(Clone, Copy)]
    pub struct UtcTick {
        ticks: i64,
    }

    /// Handed out by `fresh`, `book` and `read_tally` alone.
    #[repr(C)]
    #[derive(Clone, Copy)]
    pub struct Tally {
        end: UtcTick,
        totals: [u64; 7],
    }

    impl Tally {
        pub fn fresh() -> Tally {
            // SAFETY: it takes nothing.
            unsafe { dohlenwerk_fresh_tally() }
        }

        /// Ticks of 100 ns, from Sunday on.
        pub fn totals(&self) -> [u64; 7] {
            self.totals
        }
    }

    /// The length of a tally's saved record.
    pub const RECORD: usize = 68;

    #[repr(C)]
    #[derive(Clone, Copy)]
    struct SystemTime {
        year: u16,
        month: u16,
        weekday: u16,
        day: u16,
        hour: u16,
        minute: u16,
        second: u16,
        millisecond: u16,
    }

    /// Handed out by `read_registry` alone. `active` is true or false, as the
    /// header asks: a `bool` is nothing else.
    #[repr(C)]
    #[derive(Clone, Copy)]
    pub struct Rule {
        year: u16,
        active: bool,
        bias: i32,
        standard_bias: i32,
        daylight_bias: i32,
        standard_date: SystemTime,
        daylight_date: SystemTime,
    }

    #[repr(C)]
    struct TimeFields {
        year: i16,
        month: i16,
        day: i16,
        hour: i16,
        minute: i16,
        second: i16,
        milliseconds: i16,
        weekday: i16,
    }

    /// Every answer that can be refused has this shape in C. The number is 0
    /// where it is not refused.
    #[repr(C)]
    struct Answer<T> {
        refusal: u32,
        value: T,
    }

    impl<T> Answer<T> {
        fn result(self) -> Result<T, Refusal> {
            match self.refusal {
                0 => Ok(self.value),
                number => Err(Refusal(number)),
            }
        }
    }

    /// The revision of the time paper that dates go by.
    const REVISION_1_2: u32 = 12;

    extern "C" {
        fn dohlenwerk_fields_to_time(revision: u32, fields: TimeFields) -> Answer<i64>;
        fn dohlenwerk_read_registry(bytes: *const u8, length: usize) -> Answer<Rule>;
        fn dohlenwerk_fresh_tally() -> Tally;
        fn dohlenwerk_book(
            tally: Tally,
            row: *const Rule,
            count: usize,
            from: UtcTick,
            to: UtcTick,
        ) -> Answer<Tally>;
        fn dohlenwerk_save_tally(tally: Tally, out: *mut u8, room: usize) -> Answer<usize>;
        fn dohlenwerk_read_tally(bytes: *const u8, length: usize) -> Answer<Tally>;
    }

    // By the header any numbers may be handed in, and lent memory is a pointer
    // that is valid for its length and never null, not even for length 0; an
    // output overlaps no input. A slice is just that, and one that is lent for
    // writing overlaps nothing.

    /// The UTC tick of a year, month, day, hour and minute.
    pub fn utc([year, month, day, hour, minute]: [i16; 5]) -> Result<UtcTick, Refusal> {
        let fields = TimeFields {
            year,
            month,
            day,
            hour,
            minute,
            second: 0,
            milliseconds: 0,
            weekday: 0,
        };
        // SAFETY: numbers only.
        let ticks = unsafe { dohlenwerk_fields_to_time(REVISION_1_2, fields) }.result()?;
        Ok(UtcTick { ticks })
    }

    pub fn read_registry(bytes: &[u8]) -> Result<Rule, Refusal> {
        // SAFETY: the bytes are a slice.
        unsafe { dohlenwerk_read_registry(bytes.as_ptr(), bytes.len()) }.result()
    }

    /// The tally with a run in it, from one tick to before another.
    pub fn book(tally: Tally, row: &[Rule], from: UtcTick, to: UtcTick) -> Result<Tally, Refusal> {
        // SAFETY: the row is a slice, and each of its rules has a `bool`.
        unsafe { dohlenwerk_book(tally, row.as_ptr(), row.len(), from, to) }.result()
    }

    pub fn save_tally(tally: Tally) -> Result<[u8; RECORD], Refusal> {
        let mut record = [0; RECORD];
        // SAFETY: the record is an array of our own, and the tally goes in by value.
        unsafe { dohlenwerk_save_tally(tally, record.as_mut_ptr(), record.len()) }.result()?;
        Ok(record)
    }

    pub fn read_tally(bytes: &[u8]) -> Result<Tally, Refusal> {
        // SAFETY: the bytes are a slice.
        unsafe { dohlenwerk_read_tally(bytes.as_ptr(), bytes.len()) }.result()
    }
}

/// Central European time as the registry has it: Bias, StandardBias,
/// DaylightBias, StandardDate, DaylightDate.
#[rustfmt::skip]
const ZONE: [u8; 44] = [
    0xc4, 0xff, 0xff, 0xff, 0, 0, 0, 0, 0xc4, 0xff, 0xff, 0xff,
    0, 0, 10, 0, 0, 0, 5, 0, 3, 0, 0, 0, 0, 0, 0, 0, // the last Sunday of October, 03:00
    0, 0, 3, 0, 0, 0, 5, 0, 2, 0, 0, 0, 0, 0, 0, 0,  // the last Sunday of March, 02:00
];

/// Runs in UTC, from and to. The second starts before the first one's end.
const RUNS: [[[i16; 5]; 2]; 3] = [
    [[2023, 3, 25, 20, 0], [2023, 3, 26, 4, 0]],
    [[2023, 3, 26, 3, 0], [2023, 3, 26, 5, 0]],
    [[2023, 3, 26, 12, 0], [2023, 3, 27, 0, 30]],
];

fn main() -> Result<(), Refusal> {
    let record = save_tally(booked()?)?;
    println!("saved in {} bytes", record.len());

    // What is left after a restart: 68 bytes, wherever they were kept.
    print_hours(read_tally(&record)?);
    match read_tally(&record[1..]) {
        Ok(_) => println!("a cut record is read"),
        Err(Refusal(number)) => println!("a cut record is refused with {number}"),
    }
    Ok(())
}

/// The tally of the runs that are not refused.
fn booked() -> Result<Tally, Refusal> {
    // A record of one rule is a row of one.
    let row = [read_registry(&ZONE)?];
    let mut tally = Tally::fresh();
    for [from, to] in RUNS {
        print!("{} to {}: ", shown(from), shown(to));
        match book(tally, &row, utc(from)?, utc(to)?) {
            Ok(after) => {
                println!("booked");
                tally = after;
            }
            Err(Refusal(number)) => println!("refused with {number}"),
        }
    }
    Ok(tally)
}

fn shown([year, month, day, hour, minute]: [i16; 5]) -> String {
    format!("{year}-{month:02}-{day:02} {hour:02}:{minute:02} UTC")
}

fn print_hours(tally: Tally) {
    const WEEKDAYS: [&str; 7] = [
        "Sunday",
        "Monday",
        "Tuesday",
        "Wednesday",
        "Thursday",
        "Friday",
        "Saturday",
    ];
    for (weekday, ticks) in WEEKDAYS.iter().zip(tally.totals()) {
        let minutes = ticks / 600_000_000;
        println!("{weekday:<10}{:>5}:{:02}", minutes / 60, minutes % 60);
    }
}
