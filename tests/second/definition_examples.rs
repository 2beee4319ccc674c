//! Examples of the TZDEFINITION.

use crate::hex::{self, Hex};
use crate::library::{Rule, SystemTime};
use crate::record_examples::{zone_p, Calls, BIASES, MARCH, OCTOBER, UNSET};
use crate::report::{Enough, Section};

pub fn definitions(section: &mut Section, calls: &Calls) -> Result<(), Enough> {
    headers(section, calls)?;
    rules(section, calls)?;
    names(section, calls)?;
    shortest_and_longest(section, calls)?;
    long_sizes(section, calls)?;
    refused_writing(section, calls)?;
    half_a_character(section, calls)?;
    to_the_millisecond(section, calls)?;
    made_normal(section, calls)
}

/// Headers, cut short or wrong, with nothing behind them.
const HEADERS: [(&str, u32); 63] = [
    // Field by field: each is needed when it is its turn.
    ("", 1),
    ("00", 3),
    ("01", 3),
    ("03", 3),
    ("FF", 3),
    ("03 01 06 00 02 00 00 00 01 00", 3),
    ("02", 1),
    ("02 01", 1),
    ("02 01 06", 1),
    ("02 01 06 00", 1),
    ("02 01 06 00 02", 1),
    ("02 01 06 00 03", 1),
    ("02 01 06 00 03 00", 4),
    ("02 01 06 00 02 00", 1),
    ("02 01 06 00 02 00 05", 1),
    ("02 01 06 00 02 00 05 01", 5),
    ("02 01 0E 02 02 00 04 01", 1),
    ("02 01 06 00 02 00 FF FF", 5),
    // The header's size is taken before the flags and judged after the name.
    ("02 01 FF", 1),
    ("02 01 FF 00", 1),
    ("02 01 FF 00 03 00", 4),
    ("02 01 FF 00 02 00 05 01", 5),
    // Flags are one number, not bits.
    ("02 01 06 00 00 00", 4),
    ("02 01 06 00 01 00", 4),
    ("02 01 06 00 06 00", 4),
    ("02 01 06 00 02 01", 4),
    ("02 01 06 00 00 02", 4),
    // A name cut short comes before the header's size, and that before the
    // rule count.
    ("02 01 08 00 02 00 01 00 41", 1),
    ("02 01 09 00 02 00 01 00 41", 1),
    ("02 01 09 00 02 00 01 00 41 00", 2),
    ("02 01 08 00 02 00 01 00 41 00", 1),
    ("02 01 07 00 02 00 00 00", 2),
    ("02 01 07 00 02 00 00 00 01", 2),
    ("02 01 06 00 02 00 00 00", 1),
    ("02 01 06 00 02 00 00 00 01", 1),
    ("02 01 07 00 02 00 00 00 00 00", 2),
    ("02 01 05 00 02 00 00 00 01 00", 2),
    ("02 01 0A 00 02 00 00 00 01 00", 2),
    // Half a character comes after the end of the name and before the size,
    // the rule count and what it says. A count is no unit of the name.
    ("02 01 08 00 02 00 01 00 3D", 1),
    ("02 01 08 00 02 00 01 00 3D D8", 20),
    ("02 01 09 00 02 00 01 00 3D D8", 20),
    ("02 01 08 00 02 00 01 00 3D D8 00", 20),
    ("02 01 08 00 02 00 01 00 3D D8 00 00", 20),
    ("02 01 08 00 02 00 01 00 3D D8 00 DC", 20),
    ("02 01 08 00 02 00 01 00 00 DE 01 00", 20),
    ("02 01 10 02 02 00 05 01 3D D8", 5),
    // Both halves: high high low, high low low, low high; high low is whole.
    ("02 01 0C 00 02 00 03 00 3D D8 3D D8 00 DE 01 00", 20),
    ("02 01 0C 00 02 00 03 00 3D D8 00 DE 00 DE 01 00", 20),
    ("02 01 0A 00 02 00 02 00 00 DE 3D D8 01 00", 20),
    ("02 01 0A 00 02 00 02 00 3D D8 00 DE", 1),
    // D7FF and E000 are whole, and so is a unit whose low byte is D8.
    ("02 01 08 00 02 00 01 00 FF D7", 1),
    ("02 01 08 00 02 00 01 00 00 E0", 1),
    ("02 01 08 00 02 00 01 00 D8 3D", 1),
    // A name that is cut in its second half is not looked through.
    ("02 01 0A 00 02 00 02 00 3D D8 00", 1),
    // Another minor, 0 too, allows more but not less.
    ("02 00 05 00 02 00 00 00 01 00", 2),
    ("02 02 05 00 02 00 00 00", 2),
    // The rule count comes before the end of the stated size.
    ("02 02 FF FF 02 00 00 00 00 00", 6),
    ("02 02 FF FF 02 00 00 00 01 04", 6),
    ("02 02 FF FF 02 00 00 00 01 00", 1),
    ("02 01 06 00 02 00 00 00 00 00", 6),
    ("02 01 06 00 02 00 00 00 01 04", 6),
    ("02 01 06 00 02 00 00 00 FF FF", 6),
    ("02 01 06 00 02 00 00 00 00 04", 1),
];

fn headers(section: &mut Section, calls: &Calls) -> Result<(), Enough> {
    for (text, number) in HEADERS {
        let bytes = hex::bytes(text);
        for room in [0, 1, 2] {
            let read = (calls.read_definition)(&bytes, room);
            section.compare(text, read, Err(number))?;
        }
        let empty = (calls.definition_name)(&bytes) == Some(Vec::new());
        section.check(text, Err::<(), u32>(number), "an empty name", empty)?;
    }
    Ok(())
}

const X: &str = "0000000000000000000000000000";

const MONTH_13: &str = "00000D00000005000300000000000000";

const SECOND_60: &str = "00000A000000050017003B003C000000";
const MILLISECOND_1000: &str = "00000A000000050017003B003B00E803";

/// The head of a plain rule.
const HEAD: &str = "02013E00";

/// A rule of zone P with this head, flags and year.
fn rule(head: &str, flags: &str, year: &str) -> String {
    [head, flags, year, X, BIASES, OCTOBER, MARCH].concat()
}

/// The bytes of a text in which some words stand for many bytes:
/// - `count-N`: a plain header of N rules, without a name
/// - `P` and `Q`: zone P as an active rule of 2000, as another one of 2001
/// - `headed-HEAD`: P with another head
/// - `rule-FLAGS-YEAR`, `rule-HEAD-FLAGS-YEAR`: a rule of zone P
/// - `x-HEAD-YEAR-X`: an active one with that X
/// - `dates-STANDARD-DAYLIGHT`: Q with other dates
/// - `ff-N`: so many bytes that are FF
fn spelled(text: &str) -> Vec<u8> {
    let date = |name: &str| match name {
        "OCTOBER" => OCTOBER,
        "MARCH" => MARCH,
        "MONTH_13" => MONTH_13,
        "SECOND_60" => SECOND_60,
        "MILLISECOND_1000" => MILLISECOND_1000,
        _ => UNSET,
    };
    let mut bytes = Vec::new();
    for word in text.split_whitespace() {
        let parts: Vec<&str> = word.split('-').collect();
        let spelled = match parts[..] {
            ["count", count] => {
                let count: u16 = count.parse().expect("a count of rules");
                let [low, high] = count.to_le_bytes();
                format!("0201060002000000{low:02X}{high:02X}")
            }
            ["P"] => rule(HEAD, "0300", "D007"),
            ["Q"] => rule(HEAD, "0000", "D107"),
            ["headed", head] => rule(head, "0300", "D007"),
            ["rule", flags, year] => rule(HEAD, flags, year),
            ["rule", head, flags, year] => rule(head, flags, year),
            ["x", head, year, x] => [head, "0300", year, x, BIASES, OCTOBER, MARCH].concat(),
            ["dates", standard, daylight] => {
                let dates = [date(standard), date(daylight)].concat();
                [HEAD, "0000", "D107", X, BIASES, &dates].concat()
            }
            ["ff", count] => "FF".repeat(count.parse().expect("a count of bytes")),
            _ => word.to_string(),
        };
        bytes.extend(hex::bytes(&spelled));
    }
    bytes
}

/// Rules of zone P by year and mark, or the number.
type Read = Result<&'static [(u16, u8)], u32>;

const ONE: Read = Ok(&[(2000, 1)]);
const TWO: Read = Ok(&[(2000, 1), (2001, 0)]);

/// Definitions of one rule or a few, and the room of the row.
const RULES: [(&str, usize, Read); 71] = [
    ("count-1 P", 1, ONE),
    ("count-1 P", 0, Err(13)),
    ("count-1 P", 1_500, ONE),
    ("count-2 P Q", 2, TWO),
    ("count-2 P Q", 1, Err(13)),
    // Header minors 0 and 255, sizes 6, 7 and 8; the rule count comes right
    // after the name, and what a longer header has more comes after it.
    ("02000600020000000100 P", 1, ONE),
    ("02000700020000000100 FF P", 1, ONE),
    ("02FF0800020000000100 0000 P", 1, ONE),
    ("02020800020000000000 0100 P", 1, Err(6)),
    ("02010800020000000100 0000 P", 1, Err(2)),
    // Bytes after, even a whole rule.
    ("count-1 P 00", 1, Err(2)),
    ("count-1 P 00", 0, Err(2)),
    ("count-1 P Q", 2, Err(2)),
    ("02020600020000000100 P 00", 1, ONE),
    ("02020600020000000100 P Q", 1, ONE),
    ("02020600020000000100 P 00", 0, Err(13)),
    // Rule sizes 63 with 66 and 67 bytes, 65535, 61, 0; heads cut short.
    ("count-1 headed-02013F00", 1, Err(1)),
    ("count-1 headed-02013F00 00", 1, Err(2)),
    ("count-1 headed-0201FFFF", 1, Err(1)),
    ("count-1 headed-02013D00", 1, Err(2)),
    ("count-1 headed-02010000", 1, Err(2)),
    ("count-1 02010000", 1, Err(2)),
    ("count-1 02013D00 ff-61", 1, Err(2)),
    ("count-1 02013E00 ff-61", 1, Err(1)),
    ("count-1 02013E", 1, Err(1)),
    ("count-2 P", 2, Err(1)),
    ("count-2 P 03", 1, Err(1)),
    ("count-2 P 030100", 1, Err(1)),
    ("count-2 P 03010100", 1, Err(1)),
    // Rules of another major, of any minor, size and content.
    ("count-2 03010000 P", 1, ONE),
    ("count-2 P 01000100FF", 1, ONE),
    ("count-2 00013E00 ff-62 P", 1, ONE),
    ("count-2 FF013F00 ff-63 P", 1, ONE),
    ("count-1 headed-03013E00", 1, Err(12)),
    ("count-1 03010000", 0, Err(12)),
    // Between two kept rules: of the same year and active, of a later year.
    ("count-3 P headed-03013E00 Q", 2, TWO),
    ("count-3 P rule-03013E00-0000-0A08 Q", 2, TWO),
    // The kept rule before is of 2000, the one between of the year 1.
    (
        "count-3 P rule-03013E00-0000-0100 rule-0000-CF07",
        2,
        Err(8),
    ),
    // Rules of minors 0, 2 and 255: longer, but not shorter.
    ("count-1 headed-02003E00", 1, ONE),
    ("count-2 headed-02003F00 FF Q", 2, TWO),
    ("count-1 headed-02FF3E01 ff-256", 1, ONE),
    ("count-1 headed-02023D00", 1, Err(2)),
    ("count-1 headed-02003D00", 1, Err(2)),
    (
        "count-1 x-02023E00-D007-0000000000000000000000000001",
        1,
        Err(7),
    ),
    // The header's minor has no part in a rule's size, nor a rule's in what
    // follows.
    ("02020600020000000100 headed-02013F00 00", 1, Err(2)),
    ("count-1 headed-02023E00 00", 1, Err(2)),
    // X: its first and its last bit, before the year.
    (
        "count-1 x-02013E00-D007-0100000000000000000000000000",
        1,
        Err(7),
    ),
    (
        "count-1 x-02013E00-FFFF-0000000000000000000000000080",
        1,
        Err(7),
    ),
    // Years 0, 1 and 1600; 30827, 30828 and 65535; equal, and 0 later.
    (
        "count-3 rule-0000-0000 rule-0000-0100 rule-0300-4006",
        3,
        Ok(&[(0, 0), (1, 0), (1600, 1)]),
    ),
    ("count-1 rule-0300-6B78", 1, Ok(&[(30_827, 1)])),
    ("count-1 rule-0300-6C78", 1, Err(8)),
    ("count-1 rule-0300-FFFF", 1, Err(8)),
    ("count-2 P rule-0000-D007", 2, Err(8)),
    ("count-2 P rule-0000-0000", 2, Err(8)),
    // Flags: the lowest two bits alone, and exactly one active rule.
    ("count-1 rule-FFFF-D007", 1, ONE),
    ("count-2 P rule-FCFF-D107", 2, TWO),
    ("count-1 rule-FCFF-D007", 1, Err(12)),
    ("count-1 rule-0100-D007", 1, Err(12)),
    ("count-1 rule-0200-D007", 1, Err(12)),
    ("count-2 P rule-0100-D107", 2, Err(12)),
    ("count-2 rule-0000-D007 Q", 2, Err(12)),
    ("count-2 P rule-0300-D107", 2, Err(12)),
    // 12 waits for all rules, and comes before bytes after and the row.
    ("count-2 P rule-0300-D107 00", 0, Err(12)),
    ("count-3 P rule-0300-D107 02013E", 3, Err(1)),
    ("count-2 rule-0100-D007 dates-MONTH_13-MARCH", 2, Err(10)),
    // No second 60 and no millisecond 1000 in a date.
    ("count-2 P dates-SECOND_60-MARCH", 2, Err(10)),
    ("count-2 P dates-OCTOBER-SECOND_60", 2, Err(10)),
    ("count-2 P dates-MILLISECOND_1000-MARCH", 2, Err(10)),
    ("count-2 P dates-OCTOBER-MILLISECOND_1000", 2, Err(10)),
    // One date set in the second rule; then a byte after and no row as well.
    ("count-2 P dates-OCTOBER-UNSET", 2, Err(11)),
    ("count-2 P dates-OCTOBER-UNSET 00", 0, Err(11)),
];

fn rules(section: &mut Section, calls: &Calls) -> Result<(), Enough> {
    for (text, room, expected) in RULES {
        let read = (calls.read_definition)(&spelled(text), room);
        let expected = expected.map(|rules| {
            let rules = rules.iter().map(|&(year, active)| zone_p(year, active));
            rules.collect()
        });
        section.compare((text, room), read, expected)?;
    }
    Ok(())
}

/// Definitions with a name, or none, and the part that is handed back.
const NAMES: [(&str, &str); 12] = [
    ("02010A0002000200 41004200 0100 P", "41004200"),
    // A character of two units, half of one, and a zero.
    ("02010A0002000200 3DD800DE 0100 P", "3DD800DE"),
    ("0201080002000100 3DD8 0100 P", ""),
    ("0201080002000100 0000 0100 P", "0000"),
    ("count-1 P", ""),
    // Another minor, with one byte more in the header and one after.
    ("02070B0002000200 41004200 0100 FF P FF", "41004200"),
    // Refused: a byte after, a rule too few, none active, no rules, bad
    // dates in the second rule.
    ("02010A0002000200 41004200 0100 P FF", ""),
    ("02010A0002000200 41004200 0200 P", ""),
    ("02010A0002000200 41004200 0100 04010000", ""),
    ("02010A0002000200 41004200 0000", ""),
    ("02010B0002000200 41004200 0100 P", ""),
    ("02010A0002000200 41004200 0200 P dates-OCTOBER-UNSET", ""),
];

fn names(section: &mut Section, calls: &Calls) -> Result<(), Enough> {
    for (text, name) in NAMES {
        let given = (calls.definition_name)(&spelled(text));
        section.compare(text, Ok(given), Ok(Some(hex::bytes(name))))?;
    }
    // 260 units are read, 261 give 5.
    for (header, units, expected) in [
        ("02010E0202000401", 260, Ok(1)),
        ("0201100202000501", 261, Err(5)),
    ] {
        let name = "4E00".repeat(units);
        let text = [header, " ", &name, " 0100 P"].concat();
        let bytes = spelled(&text);
        let read = (calls.read_definition)(&bytes, 1).map(|rules| rules.len());
        section.compare(("units", units), read, expected)?;
        let length = (calls.definition_name)(&bytes).map(|name| name.len());
        let expected = if expected.is_ok() { 520 } else { 0 };
        section.compare(("units", units), Ok(length), Ok(Some(expected)))?;
    }
    Ok(())
}

/// 76 bytes; and 68,114: a name of 260 units and 1,024 rules.
fn shortest_and_longest(section: &mut Section, calls: &Calls) -> Result<(), Enough> {
    let text = ["02 01 06 00 02 00 00 00 01 00", &rule(HEAD, "0300", "0000")].concat();
    let shortest = hex::bytes(&text);
    let rules = vec![zone_p(0, 1)];
    let length = Ok::<usize, u32>(shortest.len());
    section.compare("the shortest", length, Ok(76))?;
    let read = (calls.read_definition)(&shortest, 1);
    section.compare("the shortest", read, Ok(rules.clone()))?;
    let written = (calls.write_definition)(&[], &rules, 76);
    section.compare("the shortest", written, Ok(shortest))?;
    let written = (calls.write_definition)(&[], &rules, 75);
    section.compare("the shortest", written, Err(13))?;

    let name = hex::bytes("3DD800DE").repeat(130);
    let mut longest = hex::bytes("02 01 0E 02 02 00 04 01");
    longest.extend(&name);
    longest.extend(hex::bytes("00 04"));
    let mut rules = Vec::new();
    for place in 0..1_024 {
        let year: u16 = 1_000 + 29 * place;
        let [low, high] = year.to_le_bytes();
        let last = place == 1_023;
        let flags = if last { "0300" } else { "0000" };
        let text = rule(HEAD, flags, &format!("{low:02X}{high:02X}"));
        longest.extend(hex::bytes(&text));
        rules.push(zone_p(year, u8::from(last)));
    }
    let length = Ok::<usize, u32>(longest.len());
    section.compare("the longest", length, Ok(68_114))?;

    let mut read = |bytes: &[u8], room: usize, expected: Result<bool, u32>| {
        let read = (calls.read_definition)(bytes, room).map(|read| read == rules);
        section.compare(("the longest, read", bytes.len(), room), read, expected)
    };
    read(&longest, 1_024, Ok(true))?;
    read(&longest, 1_025, Ok(true))?;
    read(&longest, 1_023, Err(13))?;
    read(&longest[..68_113], 1_024, Err(1))?;
    let mut longer = longest.clone();
    longer.push(0);
    read(&longer, 1_024, Err(2))?;
    longer.pop();
    longer[8 + 520] = 1;
    longer.extend(hex::bytes(&rule(HEAD, "0000", "6B78")));
    read(&longer, 1_025, Err(6))?;
    let given = (calls.definition_name)(&longest);
    section.compare("the longest, its name", Ok(given), Ok(Some(name.clone())))?;

    let mut write = |rules: &[Rule], room: usize, expected: Result<bool, u32>| {
        let written = (calls.write_definition)(&name, rules, room);
        let same = written.map(|written| written == longest);
        section.compare(("the longest, written", rules.len(), room), same, expected)
    };
    write(&rules, 68_114, Ok(true))?;
    write(&rules, 70_000, Ok(true))?;
    write(&rules, 68_113, Err(13))?;
    rules.push(zone_p(30_827, 0));
    write(&rules, 70_000, Err(6))?;
    // As 16 bits count them, this row has one rule.
    rules.resize(65_537, zone_p(30_827, 0));
    write(&rules, 70_000, Err(6))
}

/// Stated sizes up to 65535 with all their bytes, and many rules to skip.
fn long_sizes(section: &mut Section, calls: &Calls) -> Result<(), Enough> {
    for (text, room, expected) in [
        ("0202FFFF020000000100 ff-65529", 1, Err(1)),
        ("0202FFFF020000000100 ff-65529 P", 1, Ok(1)),
        ("count-2 0301FFFF ff-65535 P", 1, Ok(1)),
        ("count-2 0301FFFF ff-65535 02013E00 ff-61", 1, Err(1)),
        ("count-2 headed-0203FFFF ff-65473 Q", 2, Ok(2)),
        ("count-2 headed-0203FFFF ff-65472", 2, Err(1)),
    ] {
        let read = (calls.read_definition)(&spelled(text), room).map(|rules| rules.len());
        section.compare((text, room), read, expected)?;
    }

    // All but one are skipped, each of four bytes, the last of six.
    for (count, room, expected) in [(1_024, 1, Ok(1)), (1_024, 0, Err(13)), (1_025, 1, Err(6))] {
        let skipped = "04010000 ".repeat(count - 2);
        let text = format!("count-{count} {skipped} P 01020200FFFF");
        let read = (calls.read_definition)(&spelled(&text), room).map(|rules| rules.len());
        section.compare(("all but one are skipped", count, room), read, expected)?;
    }
    Ok(())
}

/// Names and rows that are not written.
fn refused_writing(section: &mut Section, calls: &Calls) -> Result<(), Enough> {
    let good = zone_p(2000, 1);
    let later = zone_p(2001, 0);
    let late = zone_p(30_828, 1);
    let mut one_date = good;
    one_date.standard_date.month = 0;
    let mut month_13 = good;
    month_13.daylight_date.month = 13;
    let mut far = good;
    far.bias = 1_441;
    for (what, name_bytes, row, room, number) in [
        ("odd, too long, no rules", 523, vec![], 0, 2),
        ("odd, no rules", 1, vec![], 0, 2),
        ("odd", 521, vec![good], 1_000, 2),
        ("too long, no rules", 522, vec![], 0, 5),
        ("too long, a late year", 522, vec![late], 0, 5),
        ("no units as 16 bits count", 131_072, vec![good], 200_000, 5),
        ("no rules", 520, vec![], 0, 6),
        ("no rules, no name", 0, vec![], 100, 6),
        ("a late year", 0, vec![late, later], 0, 8),
        ("equal years", 0, vec![good, good], 0, 8),
        ("falling years", 0, vec![later, good], 0, 8),
        ("equal years, a bias out of range", 0, vec![good, far], 0, 8),
        ("a bad date", 0, vec![month_13, good], 0, 10),
        ("one date set", 0, vec![one_date, good], 0, 11),
        ("a bias out of range", 0, vec![far, good], 0, 9),
        ("none active", 0, vec![later], 0, 12),
        ("two active", 0, vec![good, zone_p(2001, 1)], 0, 12),
        ("no room", 0, vec![good, later], 0, 13),
        ("a byte too few", 520, vec![good, later], 661, 13),
    ] {
        let name = vec![0x41; name_bytes];
        let written = (calls.write_definition)(&name, &row, room);
        section.compare((what, Hex(&name), room), written, Err(number))?;
    }
    Ok(())
}

/// Names with half a character that are not written: after 2 and 5, before 6.
fn half_a_character(section: &mut Section, calls: &Calls) -> Result<(), Enough> {
    let good = zone_p(2000, 1);
    let late = zone_p(30_828, 1);
    let pairs = |count: usize| "3DD800DE".repeat(count);
    for (what, name, row, room, expected) in [
        ("odd", "3DD841".into(), vec![], 0, Err(2)),
        ("odd, too long", pairs(130) + "3DD841", vec![], 0, Err(2)),
        ("too long", pairs(130) + "3DD8", vec![good], 1_000, Err(5)),
        ("no rules", "3DD8".into(), vec![], 0, Err(20)),
        ("a late year", "3DD8".into(), vec![late], 0, Err(20)),
        ("no room", "3DD8".into(), vec![good], 0, Err(20)),
        ("a low one", "00DE".into(), vec![good], 100, Err(20)),
        (
            "at the start",
            "00DE".to_string() + &pairs(129),
            vec![good],
            1_000,
            Err(20),
        ),
        (
            "at the end",
            pairs(129) + "3DD8",
            vec![good],
            1_000,
            Err(20),
        ),
        (
            "at the end of 260",
            pairs(129) + "41003DD8",
            vec![good],
            1_000,
            Err(20),
        ),
        ("whole, no rules", pairs(130), vec![], 0, Err(6)),
        ("whole", pairs(130), vec![good], 1_000, Ok(596)),
        ("D7FF, E000", "FFD700E0".into(), vec![good], 1_000, Ok(80)),
    ] {
        let name = hex::bytes(&name);
        let written = (calls.write_definition)(&name, &row, room).map(|bytes| bytes.len());
        section.compare((what, Hex(&name), room), written, expected)?;
    }
    Ok(())
}

/// Switches at 23:59:59.999 are written and read, yearly and once.
fn to_the_millisecond(section: &mut Section, calls: &Calls) -> Result<(), Enough> {
    let yearly = Rule {
        standard_date: SystemTime::from_row([0, 10, 0, 5, 23, 59, 59, 999]),
        daylight_date: SystemTime::from_row([0, 3, 0, 5, 23, 59, 59, 999]),
        ..zone_p(2000, 1)
    };
    let dated = Rule {
        standard_date: SystemTime::from_row([2001, 10, 0, 31, 23, 59, 59, 999]),
        daylight_date: SystemTime::from_row([2001, 2, 0, 28, 0, 0, 0, 1]),
        ..zone_p(2001, 0)
    };
    let text = [
        "count-2 02013E00 0300 D007",
        X,
        BIASES,
        "00000A000000050017003B003B00E703",
        "000003000000050017003B003B00E703",
        "02013E00 0000 D107",
        X,
        BIASES,
        "D1070A0000001F0017003B003B00E703",
        "D107020000001C000000000000000100",
    ]
    .join(" ");
    let bytes = spelled(&text);
    let row = vec![yearly, dated];
    let written = (calls.write_definition)(&[], &row, bytes.len());
    section.compare("23:59:59.999", written, Ok(bytes.clone()))?;
    section.compare("23:59:59.999", (calls.read_definition)(&bytes, 2), Ok(row))
}

/// Rules that are not normal are written so: anything in dates that are not
/// set, weekdays in dates with a year.
fn made_normal(section: &mut Section, calls: &Calls) -> Result<(), Enough> {
    let unset = Rule {
        standard_bias: i32::MAX,
        daylight_bias: i32::MIN,
        standard_date: SystemTime::from_row([2000, 0, 7, 32, 24, 60, 60, 1000]),
        daylight_date: SystemTime::from_row([0, 0, 0, 0, 0, 0, 0, 1]),
        ..zone_p(5, 0)
    };
    let dated = Rule {
        standard_date: SystemTime::from_row([2000, 10, 65_535, 29, 3, 0, 0, 0]),
        daylight_date: SystemTime::from_row([2000, 2, 2, 29, 2, 0, 0, 0]),
        ..zone_p(2000, 1)
    };
    let text = [
        "02 01 08 00 02 00 01 00 50 00 02 00",
        "02013E00 0000 0500",
        X,
        "C4FFFFFF FFFFFF7F 00000080",
        UNSET,
        UNSET,
        "02013E00 0300 D007",
        X,
        BIASES,
        "D0070A0000001D000300000000000000",
        "D007020000001D000200000000000000",
    ]
    .concat();
    for room in [144, 145, 200] {
        let written = (calls.write_definition)(&[0x50, 0], &[unset, dated], room);
        section.compare(("made normal", room), written, Ok(hex::bytes(&text)))?;
    }
    Ok(())
}
