//! What was compared, how often each outcome came up, and what differed.

use std::fmt::{self, Debug, Display};

/// A section ends early after this many differences.
const ENOUGH: u64 = 5;

#[derive(Clone, Copy, PartialEq, Eq, Debug)]
pub enum Outcome {
    Answered,
    Refused(u32),
    Yes,
    No,
    /// So many ticks in a list.
    Ticks(u32),
}

impl Outcome {
    /// Of an answer whose number is 0, or that of its refusal.
    pub fn by_number(number: u32) -> Outcome {
        match number {
            0 => Outcome::Answered,
            refusal => Outcome::Refused(refusal),
        }
    }
}

impl Display for Outcome {
    fn fmt(&self, f: &mut fmt::Formatter<'_>) -> fmt::Result {
        match self {
            Outcome::Answered => write!(f, "answered"),
            Outcome::Refused(number) => write!(f, "refusal {number}"),
            Outcome::Yes => write!(f, "yes"),
            Outcome::No => write!(f, "no"),
            Outcome::Ticks(1) => write!(f, "1 tick"),
            Outcome::Ticks(count) => write!(f, "{count} ticks"),
        }
    }
}

/// Something that a call hands over.
pub trait Answer: PartialEq + Debug {
    fn outcome(&self) -> Outcome;
}

/// The section has seen enough differences and ends.
pub struct Enough;

/// One row of comparisons, mostly those of one call.
pub struct Section {
    name: String,
    /// Every outcome that has to come up, and how often it did.
    outcomes: Vec<(Outcome, u64)>,
    /// Every kind of input that has to come up beside the outcomes.
    cases: Vec<(&'static str, u64)>,
    /// The fewest comparisons that count as a check.
    fewest: u64,
    compared: u64,
    differences: u64,
}

impl Section {
    /// Does the comparisons of `body` until it ends or has seen enough, and
    /// prints the section's line.
    pub fn run(
        name: impl Into<String>,
        outcomes: &[Outcome],
        fewest: u64,
        body: impl FnOnce(&mut Section) -> Result<(), Enough>,
    ) -> Section {
        let mut section = Section {
            name: name.into(),
            outcomes: outcomes.iter().map(|&outcome| (outcome, 0)).collect(),
            cases: Vec::new(),
            fewest,
            compared: 0,
            differences: 0,
        };
        if let Err(Enough) = body(&mut section) {
            println!("{}: ended after {ENOUGH} differences", section.name);
        }
        section.print();
        section
    }

    /// Kinds of input that have to come up.
    pub fn want(&mut self, cases: &[&'static str]) {
        self.cases.extend(cases.iter().map(|&case| (case, 0)));
    }

    /// An input of a kind that is wanted came up.
    pub fn saw(&mut self, case: &str) {
        for (wanted, seen) in &mut self.cases {
            if *wanted == case {
                *seen += 1;
            }
        }
    }

    /// Compares what the library gave with what was expected.
    #[inline]
    pub fn compare<I: Debug, A: Answer>(
        &mut self,
        input: I,
        given: A,
        expected: A,
    ) -> Result<(), Enough> {
        self.compared += 1;
        if given == expected {
            self.count(given.outcome());
            Ok(())
        } else {
            self.differ(&input, &given, &expected)
        }
    }

    /// For an expectation that is not one value.
    pub fn check<I: Debug, A: Answer>(
        &mut self,
        input: I,
        given: A,
        expected: &str,
        holds: bool,
    ) -> Result<(), Enough> {
        self.compared += 1;
        if holds {
            self.count(given.outcome());
            Ok(())
        } else {
            self.differ(&input, &given, &format_args!("{expected}"))
        }
    }

    #[inline]
    fn count(&mut self, outcome: Outcome) {
        for (possible, seen) in &mut self.outcomes {
            if *possible == outcome {
                *seen += 1;
            }
        }
    }

    #[cold]
    fn differ(
        &mut self,
        input: &dyn Debug,
        given: &dyn Debug,
        expected: &dyn Debug,
    ) -> Result<(), Enough> {
        self.differences += 1;
        println!("{}: a difference", self.name);
        println!("  input    {input:?}");
        println!("  given    {given:?}");
        println!("  expected {expected:?}");
        if self.differences < ENOUGH {
            Ok(())
        } else {
            Err(Enough)
        }
    }

    fn print(&self) {
        let outcomes: Vec<String> = self
            .outcomes
            .iter()
            .map(|(outcome, seen)| format!("{outcome}: {seen}"))
            .collect();
        println!(
            "{:<45} {:>8} compared; {}",
            self.name,
            self.compared,
            outcomes.join(", ")
        );
        if !self.cases.is_empty() {
            let cases = self.cases.iter();
            let cases: Vec<String> = cases
                .map(|(case, seen)| format!("{case}: {seen}"))
                .collect();
            println!("{:<45} {}", "", cases.join(", "));
        }
        if self.differences == 0 {
            for lack in self.lacks() {
                println!("{}: {lack}", self.name);
            }
        }
    }

    /// What keeps a section without a difference from being a check.
    fn lacks(&self) -> Vec<String> {
        let mut lacks = Vec::new();
        for (outcome, seen) in &self.outcomes {
            if *seen == 0 {
                lacks.push(format!("the outcome '{outcome}' never came up"));
            }
        }
        for (case, seen) in &self.cases {
            if *seen == 0 {
                lacks.push(format!("the case '{case}' never came up"));
            }
        }
        let listed: u64 = self.outcomes.iter().map(|(_, seen)| seen).sum();
        if listed + self.differences != self.compared {
            lacks.push("an outcome came up that is not listed".to_string());
        }
        if self.compared < self.fewest {
            lacks.push(format!("at least {} comparisons are wanted", self.fewest));
        }
        lacks
    }
}

/// All sections together.
#[derive(Default)]
pub struct Sum {
    compared: u64,
    differences: u64,
    lacks: usize,
}

impl Sum {
    pub fn add(&mut self, section: &Section) {
        self.compared += section.compared;
        self.differences += section.differences;
        if section.differences == 0 {
            self.lacks += section.lacks().len();
        }
    }

    /// Prints the last line and says whether all is well.
    pub fn finish(&self) -> bool {
        let verdict = match (self.differences, self.lacks) {
            (0, 0) => "no difference".to_string(),
            (0, lacks) => format!("no difference, but {lacks} things are lacking"),
            (differences, _) => format!("{differences} differences"),
        };
        println!("second program: {} comparisons, {verdict}", self.compared);
        self.differences == 0 && self.lacks == 0
    }
}
