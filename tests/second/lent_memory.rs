//! Memory that is lent to a call. Before the call it is filled with any
//! bytes or rules, and afterwards it is compared whole, together with what
//! lies before and behind it.

use crate::library::{Rule, SystemTime};
use crate::report::{Answer, Outcome};
use crate::seeded::Seeded;
use std::fmt::Debug;

/// An answer, and what became of the memory that was lent for it.
#[derive(PartialEq, Debug)]
pub struct Beside<A, M> {
    pub answer: A,
    /// The first place at which an output is not as it should be, counted
    /// from where it starts: what is there, and what should be.
    wrong: Option<(i64, M, M)>,
    input_changed: bool,
}

impl<A, M> Beside<A, M> {
    /// All memory as it should be.
    pub fn right(answer: A) -> Beside<A, M> {
        Beside {
            answer,
            wrong: None,
            input_changed: false,
        }
    }
}

impl<A: Answer, M: PartialEq + Debug> Answer for Beside<A, M> {
    fn outcome(&self) -> Outcome {
        self.answer.outcome()
    }
}

/// Something that an input is made of.
pub trait Lent: Clone {
    fn is_as(&self, before: &Self) -> bool;
}

impl Lent for u8 {
    fn is_as(&self, before: &u8) -> bool {
        self == before
    }
}

impl Lent for Rule {
    fn is_as(&self, before: &Rule) -> bool {
        self.is_untouched(before)
    }
}

/// Lends an input to a call, which has to leave it as it is.
pub fn lend_input<T: Lent, A, M>(
    input: &[T],
    call: impl FnOnce(&[T]) -> Beside<A, M>,
) -> Beside<A, M> {
    let before = input.to_vec();
    let mut beside = call(input);
    let mut pairs = input.iter().zip(&before);
    if !pairs.all(|(now, before)| now.is_as(before)) {
        beside.input_changed = true;
    }
    beside
}

/// Bytes for an output. What they should be afterwards is kept beside them.
#[derive(Default)]
pub struct LentBytes {
    memory: Vec<u8>,
    expected: Vec<u8>,
}

/// So many bytes before and behind an output are watched too.
const BYTES_AROUND: usize = 72;

impl LentBytes {
    /// Lends so much room to a call that should write these bytes at its
    /// start and nothing else.
    pub fn lend<A>(
        &mut self,
        seeded: &mut Seeded,
        room: usize,
        written: &[u8],
        call: impl FnOnce(&mut [u8]) -> A,
    ) -> Beside<A, u8> {
        self.memory.resize(BYTES_AROUND + room + BYTES_AROUND, 0);
        seeded.fill(&mut self.memory);
        self.expected.clone_from(&self.memory);
        self.expected[BYTES_AROUND..][..written.len()].copy_from_slice(written);

        let mut beside = Beside::right(call(&mut self.memory[BYTES_AROUND..][..room]));
        if self.memory != self.expected {
            let mut pairs = self.memory.iter().zip(&self.expected);
            if let Some(place) = pairs.position(|(given, expected)| given != expected) {
                let at = place as i64 - BYTES_AROUND as i64;
                beside.wrong = Some((at, self.memory[place], self.expected[place]));
            }
        }
        beside
    }
}

/// A row of rules to be filled.
#[derive(Default)]
pub struct LentRow {
    memory: Vec<Rule>,
    before: Vec<Rule>,
}

/// So many rules before and behind a row are watched too.
const RULES_AROUND: usize = 2;

impl LentRow {
    /// Lends a row of so much room to a call that should store these rules
    /// at its start and nothing else.
    pub fn lend<A>(
        &mut self,
        seeded: &mut Seeded,
        room: usize,
        stored: &[Rule],
        call: impl FnOnce(&mut [Rule]) -> A,
    ) -> Beside<A, Rule> {
        self.memory.clear();
        for _ in 0..RULES_AROUND + room + RULES_AROUND {
            self.memory.push(any_rule(seeded));
        }
        self.before.clone_from(&self.memory);

        let mut beside = Beside::right(call(&mut self.memory[RULES_AROUND..][..room]));
        for (place, given) in self.memory.iter().enumerate() {
            let in_row = place.wrapping_sub(RULES_AROUND);
            let (right, expected) = match stored.get(in_row) {
                // The byte between the fields of a stored rule is free.
                Some(rule) => (given == rule, rule),
                None => (given.is_untouched(&self.before[place]), &self.before[place]),
            };
            if !right {
                let at = place as i64 - RULES_AROUND as i64;
                beside.wrong = Some((at, *given, *expected));
                break;
            }
        }
        beside
    }
}

/// Any numbers in all fields. The mark is a bool in C, so it is 0 or 1.
fn any_rule(seeded: &mut Seeded) -> Rule {
    let mut bytes = [0; 48];
    seeded.fill(&mut bytes);
    let number = |at: usize| u16::from_le_bytes([bytes[at], bytes[at + 1]]);
    let wide = |at: usize| i32::from_le_bytes([0, 1, 2, 3].map(|place| bytes[at + place]));
    let date = |at: usize| {
        SystemTime::from_row([0, 2, 4, 6, 8, 10, 12, 14].map(|place| number(at + place)))
    };
    Rule {
        year: number(0),
        active: bytes[2] % 2,
        padding: bytes[3],
        bias: wide(4),
        standard_bias: wide(8),
        daylight_bias: wide(12),
        standard_date: date(16),
        daylight_date: date(32),
    }
}
