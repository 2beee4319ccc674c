//! The revision numbers that calls are asked by: those of the two revisions,
//! and numbers of no revision.

use crate::report::Outcome;
use crate::seeded::Seeded;
use crate::time_reference::{REVISION_1_0, REVISION_1_2, UNKNOWN_REVISION};
use std::fmt::{self, Display};

pub const REVISIONS: [u32; 2] = [REVISION_1_0, REVISION_1_2];

/// Numbers of no revision: the neighbours of 10 and 12, numbers that would be
/// one of them with fewer bits or another sign, and both ends.
const LISTED: [u32; 19] = [
    0,
    1,
    9,
    11,
    13,
    22,
    100,
    120,
    266,
    268,
    65_546,
    65_548,
    0x7fff_ffff,
    0x8000_0000,
    0x8000_000a,
    0x8000_000c,
    // -12 and -10 in 32 bits.
    0xffff_fff4,
    0xffff_fff6,
    0xffff_ffff,
];

/// One input in so many is asked by a number of no revision.
const SHARE: i64 = 8;

/// Every listed number, and 10 and 12 with each of their bits changed.
pub fn listed_others() -> Vec<u32> {
    let mut others = LISTED.to_vec();
    for revision in REVISIONS {
        others.extend((0..u32::BITS).map(|place| revision ^ (1 << place)));
    }
    others
}

/// A listed number, 10 or 12 with a bit changed, or any.
pub fn seeded_other(seeded: &mut Seeded) -> u32 {
    match seeded.between(0, 3) {
        0 => seeded.pick(&LISTED),
        1 => seeded.pick(&REVISIONS) ^ (1 << seeded.between(0, 31)),
        2 => not_a_revision(seeded.any_length_u32()),
        _ => not_a_revision(seeded.any_u32()),
    }
}

/// The number, or the one after it in place of 10 and 12.
fn not_a_revision(number: u32) -> u32 {
    match REVISIONS.contains(&number) {
        true => number + 1,
        false => number,
    }
}

/// What a section asks by.
#[derive(Clone, Copy)]
pub enum Asked {
    By(u32),
    ByOthers,
}

pub const ASKED: [Asked; 3] = [
    Asked::By(REVISION_1_0),
    Asked::By(REVISION_1_2),
    Asked::ByOthers,
];

impl Display for Asked {
    fn fmt(&self, f: &mut fmt::Formatter<'_>) -> fmt::Result {
        match self {
            Asked::By(revision) => write!(f, "revision {revision}"),
            Asked::ByOthers => write!(f, "other revisions"),
        }
    }
}

impl Asked {
    /// The outcomes that have to come up, where a revision has these.
    pub fn outcomes(self, of_revision: &[Outcome]) -> Vec<Outcome> {
        match self {
            Asked::By(_) => of_revision.to_vec(),
            Asked::ByOthers => vec![Outcome::Refused(UNKNOWN_REVISION)],
        }
    }

    /// The fewest comparisons, where a revision has so many.
    pub fn fewest(self, of_revision: u64) -> u64 {
        match self {
            Asked::By(_) => of_revision,
            Asked::ByOthers => of_revision / 10,
        }
    }

    /// The numbers that go with the inputs of a section.
    pub fn numbers(self, seed: u64, section: &str) -> Numbers {
        Numbers {
            asked: self,
            seeded: Seeded::new(seed, &format!("{section}: numbers")),
        }
    }
}

pub struct Numbers {
    asked: Asked,
    seeded: Seeded,
}

impl Numbers {
    /// The number that goes with the next input. None where that one is not
    /// asked.
    pub fn for_next(&mut self) -> Option<u32> {
        match self.asked {
            Asked::By(revision) => Some(revision),
            Asked::ByOthers => {
                let is_asked = self.seeded.one_in(SHARE);
                is_asked.then(|| seeded_other(&mut self.seeded))
            }
        }
    }
}
