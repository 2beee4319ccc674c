//! Examples of tallies, as dates and bytes written out: those of document
//! 01's sheet, and both sides of each place at which a booking, a saving or a
//! reading could go wrong. The library is held to them, and so is the
//! reference.

use crate::hex::{bytes, Hex};
use crate::library::{self, Rule, Tally, TallyAnswer, UtcTick};
use crate::record_calls::outcomes;
use crate::record_examples::{lend, zone_p, Written};
use crate::report::{Enough, Outcome, Section};
use crate::run_ticks::{Counter, Run, Totals};
use crate::tally_calls::BOOKING_A_RUN;
use crate::tally_example_runs::lists;
use crate::tally_reference::{self as reference, NO_TALLY};
use crate::zone_example_rows::{fixed, row};
use crate::zone_examples::tick;
use crate::zone_reference::{WINDOW_END, WINDOW_START};
use crate::Basis;

/// The calls, of the library or of the reference. Saving is given the room of
/// its output.
struct Calls<'a> {
    fresh: &'a dyn Fn() -> Tally,
    holds: &'a dyn Fn(Tally) -> bool,
    book: &'a dyn Fn(Tally, &[Rule], Run) -> TallyAnswer,
    save: &'a dyn Fn(Tally, usize) -> Written,
    read: &'a dyn Fn(&[u8]) -> TallyAnswer,
}

pub fn sections(basis: &Basis) -> Vec<Section> {
    let of_reference = Calls {
        fresh: &reference::fresh,
        holds: &|tally| reference::holds(&tally),
        book: &|tally, row, run| {
            reference::book(&mut Counter::of(&basis.calendar, row), tally, run)
        },
        save: &|tally, room| reference::save(&tally, room),
        read: &reference::read,
    };
    let of_library = Calls {
        fresh: &library::fresh_tally,
        holds: &library::tally_holds,
        book: &|tally, row, run| {
            let [from, to] = [run.from, run.to].map(|ticks| UtcTick { ticks });
            library::book(tally, row, from, to)
        },
        save: &|tally, room| {
            lend(room, 0xa5, |out| {
                let answer = library::save_tally(tally, out);
                (answer.refusal, answer.length)
            })
        },
        read: &library::read_tally,
    };
    vec![
        held_to_examples("examples of tallies: the reference", basis, &of_reference),
        held_to_examples("examples of tallies: the library", basis, &of_library),
    ]
}

fn held_to_examples(name: &str, basis: &Basis, calls: &Calls) -> Section {
    let mut refusals = BOOKING_A_RUN.to_vec();
    refusals.extend([6, 10, 12, 13, NO_TALLY]);
    let mut outcomes = outcomes(&refusals);
    outcomes.extend([Outcome::Yes, Outcome::No]);
    Section::run(name, &outcomes, 150, |section| {
        written_out(section, calls)?;
        for (row, runs) in lists() {
            one_list(section, basis, calls, &row, &runs)?;
        }
        whole_window(section, calls)?;
        holding(section, calls)?;
        order(section, basis, calls)?;
        records(section, calls)
    })
}

/// Runs from a fresh tally, one after another, each with the totals after it
/// or the number of its refusal. After each the tally is saved and read back.
fn one_list(
    section: &mut Section,
    basis: &Basis,
    calls: &Calls,
    row: &[Rule],
    runs: &[(&str, &str, Result<Totals, u32>)],
) -> Result<(), Enough> {
    let mut tally = (calls.fresh)();
    for &(from, to, expected) in runs {
        let [from, to] = [from, to].map(|text| tick(&basis.calendar, text));
        let answer = (calls.book)(tally, row, Run { from, to });
        let expected = match expected {
            Ok(totals) => TallyAnswer::of(Tally {
                end: UtcTick { ticks: to },
                totals,
            }),
            Err(number) => TallyAnswer::refused(number, tally),
        };
        section.compare((row, from, to), answer, expected)?;
        let saved = (calls.save)(answer.tally, 68).unwrap_or_default();
        let read = (calls.read)(&saved);
        section.compare(Hex(&saved), read, TallyAnswer::of(answer.tally))?;
        tally = read.tally;
    }
    Ok(())
}

/// The sheet's numbers.
fn written_out(section: &mut Section, calls: &Calls) -> Result<(), Enough> {
    let fresh = Tally {
        end: UtcTick {
            ticks: 315_360_000_000_000,
        },
        totals: [0; 7],
    };
    let given = TallyAnswer::of((calls.fresh)());
    section.compare("fresh", given, TallyAnswer::of(fresh))?;
    let mut record = bytes("42 00 01 00 00 C0 C6 78 D1 1E 01 00");
    record.extend([0; 56]);
    section.compare(
        "fresh",
        (calls.save)(fresh, record.len()),
        Ok(record.clone()),
    )?;
    section.compare("fresh", (calls.read)(&record), TallyAnswer::of(fresh))?;

    let row = row(0, [zone_p(0, 1)]);
    for (from, to, sunday) in [
        (
            133_242_588_000_000_000,
            133_243_416_000_000_000,
            828_000_000_000,
        ),
        (
            133_430_040_000_000_000,
            133_430_940_000_000_000,
            900_000_000_000,
        ),
    ] {
        let answer = (calls.book)(fresh, &row, Run { from, to });
        let expected = TallyAnswer::of(Tally {
            end: UtcTick { ticks: to },
            totals: [sunday, 0, 0, 0, 0, 0, 0],
        });
        section.compare((from, to), answer, expected)?;
        // Cut in two, at any hour and beside it.
        for hour in 0..26 {
            for near in [-1, 0, 1] {
                let cut = (from + hour * 36_000_000_000 + near).clamp(from, to);
                let first = (calls.book)(fresh, &row, Run { from, to: cut });
                let second = (calls.book)(first.tally, &row, Run { from: cut, to });
                section.compare((from, cut, to), second, expected)?;
            }
        }
    }
    Ok(())
}

/// 10,674,577 days, the first a Tuesday: four weekdays have one more.
fn whole_window(section: &mut Section, calls: &Calls) -> Result<(), Enough> {
    let all = Run {
        from: WINDOW_START,
        to: WINDOW_END,
    };
    let day = 864_000_000_000;
    let mut days = [1_524_939; 7];
    for weekday in 2..=5 {
        days[weekday] += 1;
    }
    for bias in [0, -60, 60, 1_440, -1_440] {
        // What a clock shows of Tuesday before the window, or of Saturday
        // after it.
        let ticks = i64::from(bias).unsigned_abs() * 600_000_000;
        let mut totals = days.map(|days| days * day);
        if bias < 0 {
            totals[2] -= ticks;
            totals[6] += ticks;
        } else {
            totals[1] += ticks;
            totals[5] -= ticks;
        }
        let row = row(0, [fixed(0, bias)]);
        let answer = (calls.book)((calls.fresh)(), &row, all);
        let expected = Tally {
            end: UtcTick { ticks: WINDOW_END },
            totals,
        };
        section.compare((bias, all), answer, TallyAnswer::of(expected))?;
        // And then nothing but empty runs at the end.
        for (from, to, number) in [
            (WINDOW_END, WINDOW_END, 0),
            (WINDOW_END - 1, WINDOW_END, 17),
            (WINDOW_END, WINDOW_END - 1, 17),
            (WINDOW_END, WINDOW_END + 1, 15),
        ] {
            let run = Run { from, to };
            let answer = (calls.book)(expected, &row, run);
            let expected = TallyAnswer::refused(number, expected);
            section.compare((bias, run), answer, expected)?;
        }
    }
    Ok(())
}

fn holding(section: &mut Section, calls: &Calls) -> Result<(), Enough> {
    let half = 1 << 63;
    let all = (WINDOW_END - WINDOW_START) as u64;
    let tallies = [
        (WINDOW_START, [0; 7], true),
        (WINDOW_START - 1, [0; 7], false),
        (WINDOW_END, [0; 7], true),
        (WINDOW_END + 1, [0; 7], false),
        (0, [0; 7], false),
        (-1, [0; 7], false),
        (i64::MIN, [0; 7], false),
        (i64::MAX, [0; 7], false),
        (WINDOW_START, [0, 0, 0, 1, 0, 0, 0], false),
        (WINDOW_START + 1, [0, 0, 0, 1, 0, 0, 0], true),
        (WINDOW_START + 7, [1; 7], true),
        (WINDOW_START + 6, [1; 7], false),
        (WINDOW_END, [all, 0, 0, 0, 0, 0, 0], true),
        (WINDOW_END, [all, 0, 0, 0, 0, 0, 1], false),
        (WINDOW_END, [0, 0, 0, 0, 0, 0, all], true),
        (WINDOW_END, [half, half, 0, 0, 0, 0, 0], false),
        (WINDOW_END, [0, 0, half, 0, 0, half, 0], false),
        (WINDOW_END, [u64::MAX, 1, 0, 0, 0, 0, 0], false),
        (WINDOW_END, [1, 0, 0, 0, 0, 0, u64::MAX], false),
        (WINDOW_END, [u64::MAX; 7], false),
        (WINDOW_START, [half, half, 0, 0, 0, 0, 0], false),
        (WINDOW_START - 1, [u64::MAX, 0, 0, 0, 0, 0, 0], false),
    ];
    let row = row(0, [zone_p(0, 1)]);
    let at_end = Run {
        from: WINDOW_END,
        to: WINDOW_END,
    };
    for (end, totals, holds) in tallies {
        let tally = Tally {
            end: UtcTick { ticks: end },
            totals,
        };
        section.compare(tally, (calls.holds)(tally), holds)?;
        let number = if holds { 0 } else { NO_TALLY };
        let mut after = tally;
        if holds {
            after.end.ticks = WINDOW_END;
        }
        let booked = (calls.book)(tally, &row, at_end);
        section.compare(tally, booked, TallyAnswer::refused(number, after))?;

        let saved = (calls.save)(tally, 100);
        let expected = match holds {
            true => Ok(reference::record(&tally)),
            false => Err(NO_TALLY),
        };
        section.compare(tally, saved, expected)?;
        let read = (calls.read)(&reference::record(&tally));
        let expected = match holds {
            true => TallyAnswer::of(tally),
            false => TallyAnswer::unread(NO_TALLY),
        };
        section.compare(tally, read, expected)?;
        // 18 before 13.
        let short = if holds { 13 } else { NO_TALLY };
        for room in [0, 66, 67] {
            let saved = (calls.save)(tally, room);
            section.compare((tally, room), saved, Err(short))?;
        }
    }
    Ok(())
}

/// The row's number, 18, 15, 17 and 16, the first before the next.
fn order(section: &mut Section, basis: &Basis, calls: &Calls) -> Result<(), Enough> {
    let from_2000 = row(0, [zone_p(2_000, 1)]);
    let first = tick(&basis.calendar, "2000-01-01 00:00");
    let unmarked = row(9, [zone_p(2_000, 0)]);
    let fresh = (calls.fresh)();
    let none = Tally::default();
    let mut later = fresh;
    later.end.ticks = first - 1;
    let (start, end) = (WINDOW_START, WINDOW_END);
    let asked = [
        (none, vec![], start - 1, start - 2, 6),
        (none, unmarked, start - 1, start - 2, 12),
        (none, from_2000.clone(), start - 1, start - 2, 18),
        (fresh, from_2000.clone(), start - 1, start - 2, 15),
        (fresh, from_2000.clone(), start, start - 1, 15),
        (fresh, from_2000.clone(), start + 1, start, 17),
        (fresh, from_2000.clone(), start, start, 16),
        (fresh, from_2000.clone(), first - 1, first - 1, 16),
        (fresh, from_2000.clone(), first - 1, end, 16),
        (fresh, from_2000.clone(), first, first, 0),
        (later, from_2000.clone(), first - 2, first, 17),
        (later, from_2000.clone(), first - 1, first, 16),
        (later, from_2000.clone(), end, first, 17),
        (later, from_2000.clone(), end, end, 0),
        (later, from_2000.clone(), end, end + 1, 15),
        (later, from_2000, i64::MAX, i64::MIN, 15),
    ];
    for (tally, row, from, to, number) in asked {
        let mut after = tally;
        if number == 0 {
            after.end.ticks = to;
        }
        let answer = (calls.book)(tally, &row, Run { from, to });
        let expected = TallyAnswer::refused(number, after);
        section.compare((tally, &row, from, to), answer, expected)?;
    }
    Ok(())
}

/// Records beside the one that is right.
fn records(section: &mut Section, calls: &Calls) -> Result<(), Enough> {
    let tally = Tally {
        end: UtcTick {
            ticks: 0x0123_4567_89ab_cdef,
        },
        totals: [1, 2, 3, 4, 5, 6, 0x0100_0000_0000_0007],
    };
    let right = bytes(
        "4200 0100 EFCDAB8967452301 0100000000000000 0200000000000000 0300000000000000
         0400000000000000 0500000000000000 0600000000000000 0700000000000001",
    );
    for room in [68, 69, 100] {
        let saved = (calls.save)(tally, room);
        section.compare((tally, room), saved, Ok(right.clone()))?;
    }
    section.compare(Hex(&right), (calls.read)(&right), TallyAnswer::of(tally))?;
    let with = |place: usize, byte: u8| {
        let mut record = right.clone();
        record[place] = byte;
        record
    };
    let mut longer = right.clone();
    longer.push(0);
    let mut longer_with_its_length = longer.clone();
    longer_with_its_length[0] = 0x43;
    for record in [
        vec![],
        right[..67].to_vec(),
        right[..66].to_vec(),
        longer,
        longer_with_its_length,
        with(0, 0x44),
        with(0, 0x40),
        with(1, 1),
        with(2, 0),
        with(2, 2),
        with(2, 3),
        with(3, 1),
        // The end below zero, and too soon for the totals.
        with(11, 0x81),
        with(11, 0),
        vec![0; 68],
        // Totals above the time there was.
        with(67, 0x02),
        with(67, 0x80),
        with(67, 0xff),
        with(19, 0xff),
    ] {
        let read = (calls.read)(&record);
        section.compare(Hex(&record), read, TallyAnswer::unread(NO_TALLY))?;
    }
    // Another total is another tally.
    let mut other = tally;
    other.totals[0] = 255;
    let read = (calls.read)(&with(12, 0xff));
    section.compare("another total", read, TallyAnswer::of(other))
}
