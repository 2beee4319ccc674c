//! The tool `hours`, run as a process in a folder, and what it told.

use crate::report::{Answer, Outcome};
use crate::time_text::Fault;
use std::io::Write;
use std::path::{Path, PathBuf};
use std::process::{Command, Stdio};

pub struct Tool {
    pub program: PathBuf,
    pub folder: PathBuf,
}

/// Its exit status, and both outputs. Of a refusal only the number is kept,
/// and not its words.
#[derive(PartialEq, Debug)]
pub struct Told {
    pub status: i32,
    pub output: String,
    pub errors: Vec<String>,
}

impl Answer for Told {
    fn outcome(&self) -> Outcome {
        match self.status {
            0 => Outcome::Answered,
            _ => Outcome::No,
        }
    }
}

/// What a file holds. None where there is no file.
#[derive(PartialEq, Debug)]
pub struct Held(pub Option<Vec<u8>>);

impl Answer for Held {
    fn outcome(&self) -> Outcome {
        match self.0 {
            Some(_) => Outcome::Answered,
            None => Outcome::No,
        }
    }
}

impl Tool {
    pub fn run(&self, arguments: &[&str], input: &[u8]) -> Told {
        self.run_in_pieces(arguments, &[input])
    }

    /// With a pipe as its standard input, to which each piece is written by
    /// itself.
    pub fn run_in_pieces(&self, arguments: &[&str], pieces: &[&[u8]]) -> Told {
        let mut child = Command::new(&self.program)
            .args(arguments)
            .current_dir(&self.folder)
            .stdin(Stdio::piped())
            .stdout(Stdio::piped())
            .stderr(Stdio::piped())
            .spawn()
            .expect("the tool can be started");
        // The tool need not read it.
        let mut pipe = child.stdin.take().expect("a pipe");
        let _ = pieces.iter().try_for_each(|piece| pipe.write_all(piece));
        drop(pipe);
        let done = child.wait_with_output().expect("the tool ends");
        let text = |bytes: Vec<u8>| String::from_utf8_lossy(&bytes).into_owned();
        Told {
            // None where it was killed.
            status: done.status.code().unwrap_or(-1),
            output: text(done.stdout),
            errors: text(done.stderr).lines().map(without_words).collect(),
        }
    }

    pub fn write(&self, name: &str, bytes: &[u8]) {
        std::fs::write(self.path(name), bytes).expect("a file can be written");
    }

    pub fn held(&self, name: &str) -> Held {
        Held(std::fs::read(self.path(name)).ok())
    }

    /// Away with files, as far as they are there.
    pub fn remove(&self, names: &[&str]) {
        for name in names {
            let _ = std::fs::remove_file(self.path(name));
        }
    }

    fn path(&self, name: &str) -> PathBuf {
        Path::new(&self.folder).join(name)
    }
}

/// `hours: week.log: line 3: refused 17` and no more.
fn without_words(line: &str) -> String {
    let Some((before, after)) = line.split_once(": refused ") else {
        return line.to_string();
    };
    let number = after.split(':').next().unwrap_or_default();
    format!("{before}: refused {number}")
}

/// What is said of a text or of a line of a log, after its name.
pub fn said(fault: Fault, not_a_time: &str) -> String {
    match fault {
        Fault::Refused(number) => format!("refused {number}"),
        Fault::NotATime => not_a_time.to_string(),
        Fault::NotTwoTimes => "not two times, a run's start and its end".to_string(),
    }
}
