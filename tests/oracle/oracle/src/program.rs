//! A program that is asked: bytes on its standard input, bytes from its standard output.

use std::io;
use std::io::Read;
use std::io::Write;
use std::path::PathBuf;
use std::process::Command;
use std::process::ExitStatus;
use std::process::Stdio;
use std::thread;

use crate::words;

pub struct Program {
    pub path: PathBuf,
    /// What starts it, where it isn't started by itself.
    pub start: Option<PathBuf>,
}

/// What a program wrote, and how it ended.
pub struct Said {
    pub output: Vec<u8>,
    pub status: ExitStatus,
}

impl Said {
    pub fn words(&self) -> impl Iterator<Item = u64> {
        words::of_bytes(&self.output)
    }
}

impl Program {
    fn command(&self) -> Command {
        match &self.start {
            None => Command::new(&self.path),
            Some(start) => {
                let mut command = Command::new(start);
                command.arg(&self.path);
                command
            }
        }
    }

    /// Runs the program on `input`, while `meanwhile` is worked out here.
    pub fn ask<T>(&self, input: &[u8], meanwhile: impl FnOnce() -> T) -> Result<(Said, T), String> {
        self.try_to_ask(input, meanwhile).map_err(|error| format!("{}: {error}", self.path.display()))
    }

    fn try_to_ask<T>(&self, input: &[u8], meanwhile: impl FnOnce() -> T) -> io::Result<(Said, T)> {
        let mut child = self.command().stdin(Stdio::piped()).stdout(Stdio::piped()).spawn()?;
        let (Some(mut stdin), Some(mut stdout)) = (child.stdin.take(), child.stdout.take()) else {
            return Err(io::Error::other("no pipe to the program"));
        };
        thread::scope(|scope| {
            // A program that stops early leaves the rest unread, which shows in what it says.
            scope.spawn(move || drop(stdin.write_all(input)));
            let reading = scope.spawn(move || {
                let mut output = Vec::new();
                stdout.read_to_end(&mut output).map(|_| output)
            });
            let worked = meanwhile();
            let output = reading.join().map_err(|_| io::Error::other("reading failed"))??;
            Ok((Said { output, status: child.wait()? }, worked))
        })
    }
}
