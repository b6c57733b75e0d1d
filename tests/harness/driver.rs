//! Talks to the driver, the C program that runs the real functions.

use crate::request::{Left, Request};
use std::io::{BufReader, Read, Write};
use std::path::{Path, PathBuf};
use std::process::{Child, ChildStdin, ChildStdout, Command, Stdio};

/// What the driver says of one call.
pub struct Answer {
    pub left: Left,
    pub stack: u32,
    pub strayed: bool,
}

/// A running driver; one that dies is started again for the next call.
pub struct Driver {
    path: PathBuf,
    running: Option<Running>,
}

struct Running {
    process: Child,
    to: ChildStdin,
    from: BufReader<ChildStdout>,
}

impl Driver {
    pub fn at(path: &Path) -> Driver {
        Driver { path: path.to_path_buf(), running: None }
    }

    /// Runs one call. An error says how the driver ended in place of an answer.
    pub fn ask(&mut self, request: &Request, placing: u8) -> Result<Answer, String> {
        let running = match self.running.take() {
            Some(running) => running,
            None => Running::start(&self.path)?,
        };
        let running = self.running.insert(running);
        match running.exchange(request, placing) {
            Ok(answer) => Ok(answer),
            Err(_) => Err(self.running.take().map_or_else(String::new, Running::end)),
        }
    }
}

impl Running {
    fn start(path: &Path) -> Result<Running, String> {
        let mut process = Command::new(path)
            .stdin(Stdio::piped())
            .stdout(Stdio::piped())
            .spawn()
            .map_err(|error| format!("the driver does not start: {}", error))?;
        let to = process.stdin.take().expect("standard input is piped");
        let from = process.stdout.take().expect("standard output is piped");
        Ok(Running { process, to, from: BufReader::new(from) })
    }

    fn exchange(&mut self, request: &Request, placing: u8) -> std::io::Result<Answer> {
        self.to.write_all(&request.for_driver(placing))?;
        self.to.flush()?;
        let reply = u64::from_le_bytes(self.take()?);
        let stack = u32::from_le_bytes(self.take()?);
        let strayed = u32::from_le_bytes(self.take()?) != 0;
        let mut slices = request.slices.clone();
        for slice in &mut slices {
            self.from.read_exact(slice)?;
        }
        Ok(Answer { left: Left { reply, slices }, stack, strayed })
    }

    fn take<const WIDTH: usize>(&mut self) -> std::io::Result<[u8; WIDTH]> {
        let mut bytes = [0; WIDTH];
        self.from.read_exact(&mut bytes)?;
        Ok(bytes)
    }

    fn end(mut self) -> String {
        drop(self.to);
        match self.process.wait() {
            Ok(status) => format!("the call crashed or did not end: the driver ended with {}", status),
            Err(error) => format!("the driver is lost: {}", error),
        }
    }
}
