//! Least times of many samples, taken in turns, and their table.

use std::hint::black_box;
use std::time::Instant;

/// A job's nanoseconds for one call.
pub struct Job {
    name: String,
    at_most: Option<f64>,
    ours: f64,
    plain: f64,
    others: Vec<(&'static str, f64)>,
}

/// Another way to do a job, under the name of its column. It samples all inputs
/// once, so that the calls themselves are called directly.
pub struct Other<'a, T> {
    name: &'static str,
    sample: Box<dyn FnMut(&[T]) -> f64 + 'a>,
}

impl<'a, T> Other<'a, T> {
    pub fn new(name: &'static str, mut call: impl FnMut(&T) -> u64 + 'a) -> Other<'a, T> {
        Other {
            name,
            sample: Box::new(move |inputs| sample(inputs, &mut call)),
        }
    }
}

pub const SAMPLES: usize = 2000;

impl Job {
    pub fn measured<T>(
        name: String,
        at_most: Option<f64>,
        inputs: &[T],
        ours: impl FnMut(&T) -> u64,
        plain: impl FnMut(&T) -> u64,
    ) -> Job {
        Job::sampled(SAMPLES, name, at_most, inputs, ours, plain, Vec::new())
    }

    /// Runs all of them in turns, so that what disturbs the machine disturbs all of them.
    pub fn sampled<T>(
        samples: usize,
        name: String,
        at_most: Option<f64>,
        inputs: &[T],
        mut ours: impl FnMut(&T) -> u64,
        mut plain: impl FnMut(&T) -> u64,
        mut others: Vec<Other<T>>,
    ) -> Job {
        let mut job = Job {
            name,
            at_most,
            ours: f64::INFINITY,
            plain: f64::INFINITY,
            others: others.iter().map(|way| (way.name, f64::INFINITY)).collect(),
        };
        for _ in 0..samples {
            job.ours = job.ours.min(sample(inputs, &mut ours));
            job.plain = job.plain.min(sample(inputs, &mut plain));
            for (other, (_, least)) in others.iter_mut().zip(&mut job.others) {
                *least = least.min((other.sample)(inputs));
            }
        }
        job
    }
}

/// Nanoseconds for one call, over all inputs once.
fn sample<T>(inputs: &[T], call: &mut impl FnMut(&T) -> u64) -> f64 {
    let start = Instant::now();
    let mut sum = 0u64;
    for input in inputs {
        sum = sum.wrapping_add(call(input));
    }
    black_box(sum);
    start.elapsed().as_nanos() as f64 / inputs.len() as f64
}

pub struct Table {
    jobs: Vec<Job>,
}

impl Table {
    pub fn new() -> Table {
        Table { jobs: Vec::new() }
    }

    pub fn add(&mut self, job: Job) {
        self.jobs.push(job);
    }

    /// A column for each other way, from the first job that has it on.
    pub fn print(&self) {
        let mut columns: Vec<&str> = Vec::new();
        for (name, _) in self.jobs.iter().flat_map(|job| &job.others) {
            if !columns.contains(name) {
                columns.push(name);
            }
        }
        let names = columns.iter().map(|name| cell(name, name));
        println!(
            "{:<32} {:>11} {:>11} {:>6} {:>8}{}",
            "job",
            "ours",
            "plain Rust",
            "ratio",
            "at most",
            names.collect::<String>()
        );
        for job in &self.jobs {
            println!("{}", job.line(&columns).trim_end());
        }
    }
}

impl Job {
    fn line(&self, columns: &[&str]) -> String {
        let at_most = match self.at_most {
            Some(ratio) => format!("{ratio:.2}"),
            None => String::new(),
        };
        let others = columns.iter().map(|column| {
            let found = self.others.iter().find(|(name, _)| name == column);
            let shown = found.map(|&(_, least)| figure(least));
            cell(column, &shown.unwrap_or_default())
        });
        format!(
            "{:<32} {:>11} {:>11} {:>6.2} {at_most:>8}{}",
            self.name,
            figure(self.ours),
            figure(self.plain),
            self.ours / self.plain,
            others.collect::<String>()
        )
    }
}

/// A text in a column of some name.
fn cell(column: &str, text: &str) -> String {
    format!(" {text:>width$}", width = column.len().max(11))
}

/// In the unit that leaves one to three digits before the point.
fn figure(nanoseconds: f64) -> String {
    if nanoseconds < 1e3 {
        format!("{nanoseconds:.2} ns")
    } else if nanoseconds < 1e6 {
        format!("{:.2} µs", nanoseconds / 1e3)
    } else {
        format!("{:.2} ms", nanoseconds / 1e6)
    }
}
