//! Runs one of the real programs on an input.

use std::io::Write;
use std::path::Path;
use std::process::{ChildStdin, Command, ExitStatus, Stdio};

/// How the bytes reach the program's standard input.
#[derive(Clone, Copy, Debug, PartialEq, Eq)]
pub enum Feeding {
    AtOnce,
    InPieces(usize),
}

/// What a program leaves when it has ended.
pub struct Said {
    pub status: ExitStatus,
    pub output: Vec<u8>,
    /// What stands on standard error.
    pub complaint: String,
}

impl Said {
    /// An error where the status is another one: the program failed, crashed or did not end.
    pub fn expect_status(&self, status: i32) -> Result<(), String> {
        if self.status.code() == Some(status) {
            return Ok(());
        }
        Err(format!("expected status {}, got {}, with {:?} on standard error", status, self.status, self.complaint))
    }
}

/// Runs a program; an error where it does not start.
pub fn run(program: &Path, arguments: &[&str], input: &[u8], feeding: Feeding) -> Result<Said, String> {
    let mut process = Command::new(program)
        .args(arguments)
        .stdin(Stdio::piped())
        .stdout(Stdio::piped())
        .stderr(Stdio::piped())
        .spawn()
        .map_err(|error| format!("{} does not start: {}", program.display(), error))?;
    let fed = process.stdin.take().expect("standard input is piped");
    let bytes = input.to_vec();
    let feeder = std::thread::spawn(move || feed(fed, &bytes, feeding));
    let ended = process.wait_with_output().map_err(|error| error.to_string())?;
    feeder.join().expect("feeding does not fail");
    let complaint = String::from_utf8_lossy(&ended.stderr).into_owned();
    Ok(Said { status: ended.status, output: ended.stdout, complaint })
}

/// Writes the bytes; a program that has read enough may close its input.
fn feed(mut input: ChildStdin, bytes: &[u8], feeding: Feeding) {
    let piece = match feeding {
        Feeding::AtOnce => bytes.len().max(1),
        Feeding::InPieces(length) => length,
    };
    for part in bytes.chunks(piece) {
        if input.write_all(part).and_then(|()| input.flush()).is_err() {
            return;
        }
        std::thread::yield_now();
    }
}
