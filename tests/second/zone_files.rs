//! Zones as the tool is handed them: one of each kind of record, as raw bytes
//! or as hex text in some spelling.

use crate::calendar::Calendar;
use crate::library::{Name, Rule};
use crate::record_examples::zone_p;
use crate::record_reference::{write_definition, write_registry, write_remote_desktop};
use crate::seeded::Seeded;
use crate::zone_example_rows::{fixed, row, rule, rule_at};
use std::path::Path;

pub struct ZoneFile {
    pub name: &'static str,
    pub row: Vec<Rule>,
    pub record: Vec<u8>,
}

const ROOM: usize = 1_000;

pub fn zone_files(calendar: &Calendar) -> [ZoneFile; 3] {
    let berlin = zone_p(0, 1);
    let sydney = sydney();
    let names = [*b"AUS Eastern Standard", *b"AUS Eastern Daylight"].map(name_of);
    let many = many_rules();
    [
        ZoneFile {
            name: "registry",
            record: write_registry(calendar, berlin, ROOM).expect("zone P"),
            row: vec![berlin],
        },
        ZoneFile {
            name: "remote-desktop",
            record: write_remote_desktop(calendar, sydney, names, ROOM).expect("Sydney"),
            row: vec![sydney],
        },
        ZoneFile {
            name: "definition",
            record: write_definition(calendar, &in_units(b"Hall 4"), &many, ROOM)
                .expect("a good row"),
            row: many,
        },
    ]
}

/// Each record in a file with its name.
pub fn write_records(calendar: &Calendar, folder: &str) {
    for file in zone_files(calendar) {
        let path = Path::new(folder).join(file.name);
        std::fs::write(path, file.record).expect("a file can be written");
    }
}

/// Daylight time over the new year.
fn sydney() -> Rule {
    rule(0, [-600, 0, -60], [0, 4, 0, 1, 3, 0], [0, 10, 0, 1, 2, 0])
}

/// The first two meet at a new year so that one local tick comes four times.
/// Then daylight time from March to November, over the new year with switches a
/// millisecond before midnight, and none at all.
fn many_rules() -> Vec<Rule> {
    row(
        4,
        [
            rule(
                2000,
                [0, 0, -60],
                [2000, 12, 0, 31, 23, 30],
                [2000, 6, 0, 1, 0, 0],
            ),
            rule(
                2001,
                [120, 0, -60],
                [2001, 1, 0, 1, 0, 0],
                [2001, 6, 0, 1, 0, 0],
            ),
            rule(2007, [300, 0, -60], [0, 11, 0, 1, 2, 0], [0, 3, 0, 2, 2, 0]),
            rule_at(
                2015,
                [240, 0, -60],
                [[0, 3, 6, 4, 23, 59], [0, 10, 6, 1, 23, 59]],
                [59, 999],
            ),
            fixed(2020, 270),
        ],
    )
}

fn name_of(text: [u8; 20]) -> Name {
    let mut bytes = [0; 64];
    for (place, letter) in in_units(&text).into_iter().enumerate() {
        bytes[place] = letter;
    }
    Name { bytes }
}

/// Each letter as two bytes.
fn in_units(text: &[u8]) -> Vec<u8> {
    text.iter().flat_map(|&letter| [letter, 0]).collect()
}

pub const SPELLINGS: [&str; 6] = ["raw", "upper", "lower", ".reg", "lines", "apart"];

/// A record as a file holds it.
pub fn spelt(seeded: &mut Seeded, record: &[u8], spelling: &str) -> Vec<u8> {
    let upper = |byte: &u8| format!("{byte:02X}");
    let lower = |byte: &u8| format!("{byte:02x}");
    let words = |each: &dyn Fn(&u8) -> String| record.iter().map(each).collect::<Vec<_>>();
    let text = match spelling {
        "raw" => return record.to_vec(),
        "upper" => words(&upper).concat(),
        "lower" => words(&lower).join(" ") + "\n",
        // As regedit exports a value: lines end with a backslash.
        ".reg" => {
            let lines: Vec<String> = words(&lower)
                .chunks(25)
                .map(|line| line.join(","))
                .collect();
            lines.join(",\\\r\n  ") + "\r\n"
        }
        "lines" => {
            let lines: Vec<String> = words(&upper).chunks(16).map(<[_]>::concat).collect();
            format!("\r\n\t{}\r\n\r\n", lines.join("\r\n\t"))
        }
        // Any case, and gaps wherever they like.
        _ => {
            let mut text = String::new();
            for digit in words(&lower).concat().chars() {
                if seeded.one_in(2) {
                    text.push(digit.to_ascii_uppercase());
                } else {
                    text.push(digit);
                }
                if seeded.one_in(3) {
                    text.push(seeded.pick(&[' ', '\t', ',', '\n', '\r', '\\']));
                }
            }
            text
        }
    };
    text.into_bytes()
}
