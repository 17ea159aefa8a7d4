//! How an answer leaves: as text for a person, as one JSON object for a machine, or not at all.

use crate::failure::{Failure, IO};
use crate::json::{Fields, Json};
use crate::progress::Progress;
use crate::sys;
use std::io::{self, ErrorKind, Write};

#[derive(Clone, Copy, PartialEq, Eq, Debug)]
pub enum Mode {
    Text,
    Json,
    /// No answer and no progress; what went wrong is still said.
    Quiet,
}

/// What a command that succeeded has to say.
pub struct Answer {
    pub text: String,
    pub fields: Fields,
}

pub struct Report {
    mode: Mode,
    command: &'static str,
    status: u8,
}

impl Report {
    pub fn new(mode: Mode, command: &'static str) -> Report {
        Report {
            mode,
            command,
            status: 0,
        }
    }

    /// Which command it is that speaks.
    pub fn is_about(&mut self, command: &'static str) {
        self.command = command;
    }

    pub fn speak(&mut self, mode: Mode) {
        self.mode = mode;
    }

    /// The status of the first failure, or 0.
    pub fn status(&self) -> u8 {
        self.status
    }

    pub fn answer(&mut self, answer: Answer) {
        match self.mode {
            Mode::Text => self.print(format!("{}\n", answer.text).as_bytes()),
            Mode::Json => self.print(&self.object(0, answer.fields)),
            Mode::Quiet => {}
        }
    }

    /// A line on the way to an answer: for a person only.
    pub fn line(&mut self, text: &str) {
        if self.mode == Mode::Text {
            self.print(format!("{text}\n").as_bytes());
        }
    }

    /// Bytes as they are.
    pub fn raw(&mut self, bytes: &[u8]) {
        if self.mode != Mode::Quiet {
            self.print(bytes);
        }
    }

    pub fn failure(&mut self, failure: &Failure) {
        if self.status == 0 {
            self.status = failure.status;
        }
        let words = self.words(failure);
        match self.mode {
            Mode::Json => self.print(&words),
            _ => drop(io::stderr().write_all(&words)),
        }
    }

    /// Progress on a terminal, unless nothing is to be said.
    pub fn progress(&self) -> Progress {
        Progress::new(self.mode != Mode::Quiet)
    }

    /// Has a mapped byte that the disk cannot give or take end the process with this failure.
    pub fn on_bus_error(&self, failure: &Failure) {
        let fd = if self.mode == Mode::Json { 1 } else { 2 };
        sys::on_bus_error(fd, self.words(failure), i32::from(failure.status));
    }

    fn words(&self, failure: &Failure) -> Vec<u8> {
        match self.mode {
            Mode::Json => self.object(failure.status, failure.fields()),
            _ => format!("{}\n", failure.line()).into_bytes(),
        }
    }

    fn object(&self, status: u8, fields: Fields) -> Vec<u8> {
        let mut whole = vec![
            ("command", Json::from(self.command)),
            ("status", Json::from(u64::from(status))),
        ];
        whole.extend(fields);
        format!("{}\n", Json::Object(whole)).into_bytes()
    }

    /// A reader that has gone away has read enough; any other error is one.
    fn print(&mut self, bytes: &[u8]) {
        let mut out = io::stdout().lock();
        let written = out.write_all(bytes).and_then(|()| out.flush());
        match written {
            Err(error) if error.kind() != ErrorKind::BrokenPipe => {
                let _ = writeln!(
                    io::stderr(),
                    "minnow: the answer cannot be written: {error}"
                );
                if self.status == 0 {
                    self.status = IO;
                }
            }
            _ => {}
        }
    }
}
