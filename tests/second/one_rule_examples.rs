//! Examples of the registry's and of the remote desktop's record.

use crate::hex;
use crate::library::{Name, RemoteDesktopAnswer, Rule, RuleAnswer, SystemTime};
use crate::record_examples::{zone_p, Calls, BIASES, MARCH, OCTOBER, UNSET};
use crate::report::{Enough, Section};

pub fn one_rule_records(section: &mut Section, calls: &Calls) -> Result<(), Enough> {
    for (standard, daylight, number) in DATES {
        registry(section, calls, [BIASES, standard, daylight], number)?;
    }
    for (biases, number) in BIASES_OF_SET_DATES {
        registry(section, calls, [biases, OCTOBER, MARCH], number)?;
    }
    for (biases, number) in BIASES_WITHOUT_DATES {
        registry(section, calls, [biases, UNSET, UNSET], number)?;
    }
    for (standard, daylight, becomes) in MADE_NORMAL {
        let record = hex::bytes(&[BIASES, standard, daylight].concat());
        let normal = hex::bytes(&[BIASES, becomes[0], becomes[1]].concat());
        registry_as(section, calls, &record, Ok(normal))?;
    }
    registry(
        section,
        calls,
        ["00000080 00000080 00000080", OCTOBER, UNSET],
        11,
    )?;
    registry_lengths_and_rooms(section, calls)?;
    remote_desktop(section, calls)
}

/// Both dates of a record with zone P's biases, and the number that reading
/// and writing give; with 0 the record comes back byte for byte.
const DATES: [(&str, &str, u32); 51] = [
    (OCTOBER, MARCH, 0),
    (UNSET, UNSET, 0),
    // One date set, the other not, whatever else it holds.
    (OCTOBER, UNSET, 11),
    (UNSET, MARCH, 11),
    (OCTOBER, "00000000000005000200000000000000", 11),
    // Months 12, 13 and 256.
    ("00000C00000005000300000000000000", MARCH, 0),
    ("00000D00000005000300000000000000", MARCH, 10),
    ("00000D00000005000300000000000000", UNSET, 10),
    (UNSET, "00000D00000005000300000000000000", 10),
    ("00000001000000000000000000000000", UNSET, 10),
    // Weekdays 6, 7 and 65535, occurrences 1, 0, 6 and 31 of a yearly date.
    (OCTOBER, "00000300060001000200000000000000", 0),
    (OCTOBER, "00000300070001000200000000000000", 10),
    (OCTOBER, "00000300FFFF01000200000000000000", 10),
    (OCTOBER, "00000300060000000200000000000000", 10),
    (OCTOBER, "00000300060006000200000000000000", 10),
    (OCTOBER, "0000030006001F000200000000000000", 10),
    // 23:59, hours 24 and 65535, minute 60, second 1, millisecond 1, and
    // 23:59:59.999.
    (OCTOBER, "000003000000050017003B0000000000", 0),
    (OCTOBER, "00000300000005001800000000000000", 10),
    (OCTOBER, "0000030000000500FFFF000000000000", 10),
    (OCTOBER, "000003000000050002003C0000000000", 10),
    (OCTOBER, "00000300000005000200000001000000", 0),
    (OCTOBER, "00000300000005000200000000000100", 0),
    (OCTOBER, "000003000000050017003B003B00E703", 0),
    ("00000A000000050017003B003B00E703", MARCH, 0),
    // Second 60, 315 and 65535, millisecond 1000 and 65535.
    (OCTOBER, "000003000000050017003B003C000000", 10),
    ("00000A000000050017003B003C000000", MARCH, 10),
    (OCTOBER, "000003000000050017003B003B010000", 10),
    (OCTOBER, "000003000000050017003B00FFFF0000", 10),
    (OCTOBER, "000003000000050017003B003B00E803", 10),
    (OCTOBER, "000003000000050017003B003B00FFFF", 10),
    // The 29th of February of 2000, 1900 and 2023, and the day before.
    (
        "D0070A0000001F000300000000000000",
        "D007020000001D000200000000000000",
        0,
    ),
    (
        "D0070A0000001F000300000000000000",
        "D007020000001E000200000000000000",
        10,
    ),
    (
        "6C070A0000001F000300000000000000",
        "6C07020000001C000200000000000000",
        0,
    ),
    (
        "6C070A0000001F000300000000000000",
        "6C07020000001D000200000000000000",
        10,
    ),
    (
        "E7070A0000001F000300000000000000",
        "E707020000001D000200000000000000",
        10,
    ),
    // The 31st of November, and day 0.
    (
        "E7070B0000001F000300000000000000",
        "E707030000001F000200000000000000",
        10,
    ),
    (
        "E7070B0000001E000300000000000000",
        "E707030000001F000200000000000000",
        0,
    ),
    (
        "E7070A00000000000300000000000000",
        "E7070300000001000200000000000000",
        10,
    ),
    // 23:59:59.999, second 60 and millisecond 1000 of a date with a year, on
    // the last day of a month.
    (
        "E7070A0000001F0017003B003B00E703",
        "E7070300000001000200000000000000",
        0,
    ),
    (
        "E7070A0000001F0017003B003C000000",
        "E7070300000001000200000000000000",
        10,
    ),
    (
        "E7070A0000001F0017003B003B00E803",
        "E7070300000001000200000000000000",
        10,
    ),
    // Years 1, 1600, 1601, 30827, 30828 and 65535.
    (
        "01000A00000001000300000000000000",
        "01000300000001000200000000000000",
        10,
    ),
    (
        "40060A00000001000300000000000000",
        "40060300000001000200000000000000",
        10,
    ),
    (
        "41060A00000001000300000000000000",
        "41060300000001000200000000000000",
        0,
    ),
    (
        "6B780A00000001000300000000000000",
        "6B780300000001000200000000000000",
        0,
    ),
    (
        "6C780A00000001000300000000000000",
        "6C780300000001000200000000000000",
        10,
    ),
    (
        "FFFF0A00000001000300000000000000",
        "FFFF0300000001000200000000000000",
        10,
    ),
    // Two years, or one date with a year and one without. A year out of range
    // is a fault of its date, and comes before.
    (
        "E7070A00000001000300000000000000",
        "E8070300000001000200000000000000",
        11,
    ),
    ("E7070A00000001000300000000000000", MARCH, 11),
    (OCTOBER, "E8070300000001000200000000000000", 11),
    (OCTOBER, "40060300000001000200000000000000", 10),
];

/// Bias, StandardBias and DaylightBias with both dates set: only the sums
/// count.
const BIASES_OF_SET_DATES: [(&str, u32); 12] = [
    // 2000 with -2000 and -560: 0 and 1440. With -559 it is 1441.
    ("D0070000 30F8FFFF D0FDFFFF", 0),
    ("D0070000 30F8FFFF D1FDFFFF", 9),
    ("D0070000 D1FDFFFF 30F8FFFF", 9),
    ("A0050000 00000000 00000000", 0),
    ("A0050000 01000000 00000000", 9),
    ("60FAFFFF 00000000 00000000", 0),
    ("60FAFFFF 00000000 FFFFFFFF", 9),
    // The least Bias, both sums being -1.
    ("00000080 FFFFFF7F FFFFFF7F", 0),
    // 2147483647 and 1.
    ("FFFFFF7F 01000000 01000080", 9),
    // In 32 bits one sum of each would come out as 0 and as -2.
    ("00000080 00000080 FFFFFF7F", 9),
    ("FFFFFF7F 01000080 FFFFFF7F", 9),
    // In 16 bits both sums would be 0.
    ("00000100 00000000 00000000", 9),
];

/// The same with dates that are not set: Bias alone counts, and the additions
/// are kept.
const BIASES_WITHOUT_DATES: [(&str, u32); 9] = [
    ("A0050000 00000000 00000000", 0),
    ("A1050000 00000000 00000000", 9),
    ("A1050000 FFFFFFFF FFFFFFFF", 9),
    ("60FAFFFF 00000000 00000000", 0),
    ("5FFAFFFF 00000000 00000000", 9),
    ("00000080 00000000 00000000", 9),
    ("00000100 00000000 00000000", 9),
    ("00000000 FFFFFF7F 00000080", 0),
    ("60FAFFFF A0050000 00000080", 0),
];

/// Dates that are not normal, and what they become.
const MADE_NORMAL: [(&str, &str, [&str; 2]); 4] = [
    ("D0070000FFFF0600180001000200FFFF", UNSET, [UNSET; 2]),
    (UNSET, "00000000000000000000000000000100", [UNSET; 2]),
    (
        "FFFF0000000000000000000000000000",
        "00000000010000000000000000000000",
        [UNSET; 2],
    ),
    (
        "D0070A00FFFF1F000300000000000000",
        "D007020002001D000200000000000000",
        [
            "D0070A0000001F000300000000000000",
            "D007020000001D000200000000000000",
        ],
    ),
];

fn registry(
    section: &mut Section,
    calls: &Calls,
    parts: [&str; 3],
    number: u32,
) -> Result<(), Enough> {
    let record = hex::bytes(&parts.concat());
    let expected = match number {
        0 => Ok(record.clone()),
        number => Err(number),
    };
    registry_as(section, calls, &record, expected)
}

/// A registry record that is read and written, and a rule of its numbers that
/// is written: both give the record expected, or the number.
fn registry_as(
    section: &mut Section,
    calls: &Calls,
    record: &[u8],
    expected: Result<Vec<u8>, u32>,
) -> Result<(), Enough> {
    let read = (calls.read_registry)(record);
    match &expected {
        Ok(normal) => {
            let again = (calls.write_registry)(read.rule, 44);
            let one = read.refusal == 0 && read.rule.year == 0 && read.rule.active == 1;
            let holds = one && again.as_ref() == Ok(normal);
            section.check(hex::Hex(record), read, "one active rule, so written", holds)?;
        }
        Err(number) => {
            section.compare(hex::Hex(record), read, RuleAnswer::refused(*number))?;
        }
    }
    let written = (calls.write_registry)(rule_of(record), 44);
    section.compare(hex::Hex(record), written, expected)
}

/// A registry record's numbers as a rule, whatever they are.
fn rule_of(record: &[u8]) -> Rule {
    let number = |at: usize| u16::from(record[at]) + 256 * u16::from(record[at + 1]);
    let bias = |at: usize| i32::from(number(at)) + 65_536 * i32::from(number(at + 2) as i16);
    let date = |at: usize| SystemTime {
        year: number(at),
        month: number(at + 2),
        weekday: number(at + 4),
        day: number(at + 6),
        hour: number(at + 8),
        minute: number(at + 10),
        second: number(at + 12),
        millisecond: number(at + 14),
    };
    Rule {
        bias: bias(0),
        standard_bias: bias(4),
        daylight_bias: bias(8),
        standard_date: date(12),
        daylight_date: date(28),
        ..Default::default()
    }
}

fn registry_lengths_and_rooms(section: &mut Section, calls: &Calls) -> Result<(), Enough> {
    let record = hex::bytes(&[BIASES, OCTOBER, MARCH].concat());
    let expected = RuleAnswer::of(zone_p(0, 1));
    section.compare("zone P", (calls.read_registry)(&record), expected)?;
    for length in [0, 1, 43, 45, 88, 172] {
        let mut wrong = record.clone();
        wrong.resize(length, 0);
        let read = (calls.read_registry)(&wrong);
        section.compare(("length", length), read, RuleAnswer::refused(2))?;
    }

    // Year and mark are not written, but the year is looked at.
    for (year, active, room, number) in [
        (0, 1, 44, 0),
        (2000, 0, 44, 0),
        (30_827, 0, 45, 0),
        (30_828, 1, 44, 8),
        (65_535, 1, 44, 8),
        (30_828, 1, 0, 8),
        (2000, 1, 43, 13),
        (2000, 1, 0, 13),
    ] {
        let written = (calls.write_registry)(zone_p(year, active), room);
        let expected = match number {
            0 => Ok(record.clone()),
            number => Err(number),
        };
        section.compare((year, active, room), written, expected)?;
    }
    Ok(())
}

/// Zone P with StandardBias 30, and names that count up and down.
fn remote_desktop(section: &mut Section, calls: &Calls) -> Result<(), Enough> {
    let mut names = [Name::ZEROS; 2];
    for place in 0..64 {
        names[0].bytes[place] = place as u8;
        names[1].bytes[place] = 255 - place as u8;
    }
    let rule = Rule {
        standard_bias: 30,
        ..zone_p(0, 1)
    };
    let record = [
        hex::bytes("C4FFFFFF"),
        names[0].bytes.to_vec(),
        hex::bytes(OCTOBER),
        hex::bytes("1E000000"),
        names[1].bytes.to_vec(),
        hex::bytes(MARCH),
        hex::bytes("C4FFFFFF"),
    ]
    .concat();
    let read = |bytes: &[u8]| (calls.read_remote_desktop)(bytes);
    let write = |rule: Rule, room: usize| (calls.write_remote_desktop)(rule, names, room);

    let expected = RemoteDesktopAnswer::of(rule, names);
    section.compare("zone P", read(&record), expected)?;
    section.compare("zone P", write(rule, 172), Ok(record.clone()))?;
    for length in [0, 44, 171, 173, 344] {
        let mut wrong = record.clone();
        wrong.resize(length, 0);
        let expected = RemoteDesktopAnswer::refused(2);
        section.compare(("length", length), read(&wrong), expected)?;
    }

    // A byte changed, and the number: Bias and both additions out of range;
    // either date with month 13, month 0, second 60, millisecond 1024, or the
    // year 1792.
    for (place, byte, number) in [
        (2, 0x00, 9),
        (3, 0x7f, 9),
        (87, 0x80, 9),
        (171, 0x7f, 9),
        (70, 13, 10),
        (154, 13, 10),
        (70, 0, 11),
        (154, 0, 11),
        (80, 60, 10),
        (164, 60, 10),
        (83, 4, 10),
        (167, 4, 10),
        (69, 7, 11),
        (153, 7, 11),
    ] {
        let mut changed = record.clone();
        changed[place] = byte;
        let expected = RemoteDesktopAnswer::refused(number);
        section.compare((place, byte), read(&changed), expected)?;
    }
    // Both dates at 23:59:59.999, read and written.
    let last = hex::bytes("17003B003B00E703");
    let mut late = record.clone();
    late[76..84].copy_from_slice(&last);
    late[160..168].copy_from_slice(&last);
    let at_last = |date: SystemTime| SystemTime {
        hour: 23,
        minute: 59,
        second: 59,
        millisecond: 999,
        ..date
    };
    let late_rule = Rule {
        standard_date: at_last(rule.standard_date),
        daylight_date: at_last(rule.daylight_date),
        ..rule
    };
    let expected = RemoteDesktopAnswer::of(late_rule, names);
    section.compare("23:59:59.999", read(&late), expected)?;
    section.compare("23:59:59.999", write(late_rule, 172), Ok(late))?;
    let inactive = Rule {
        year: 30_827,
        active: 0,
        ..rule
    };
    section.compare("not active", write(inactive, 173), Ok(record.clone()))?;
    let late = Rule {
        year: 30_828,
        ..rule
    };
    section.compare("a late year", write(late, 0), Err(8))?;
    section.compare("a byte too few", write(rule, 171), Err(13))
}
