//! A call of one of the C functions: its arguments, its bytes for the driver, and what is expected of it.

use crate::records::Lent;
use second::calls;

/// The C functions by the driver's numbers; `Idle` runs a thread that calls none.
#[derive(Clone, Copy, Debug, PartialEq, Eq)]
pub enum Call {
    Idle = 0,
    Solve = 1,
    ReadCuts = 2,
    ReadFile = 3,
    WriteFile = 4,
    Summarize = 5,
}

/// All of them.
pub const CALLS: [Call; 5] = [Call::Solve, Call::ReadCuts, Call::ReadFile, Call::WriteFile, Call::Summarize];

impl Call {
    pub fn name(self) -> &'static str {
        ["idle", "solve", "read_cuts", "read_file", "write_file", "summarize"][self as usize]
    }

    fn number_names(self) -> &'static [&'static str] {
        match self {
            Call::Solve => &["dmax"],
            Call::ReadCuts => &["n", "d", "kernel"],
            Call::WriteFile => &["form"],
            Call::Summarize => &["first", "length"],
            Call::Idle | Call::ReadFile => &[],
        }
    }

    pub fn slice_names(self) -> &'static [&'static str] {
        match self {
            Call::Idle => &[],
            Call::Solve => &["body", "channels", "costs", "starts"],
            Call::ReadCuts => &["starts", "out"],
            Call::ReadFile => &["file"],
            Call::WriteFile => &["entries", "bodies", "out"],
            Call::Summarize => &["body", "channels", "out"],
        }
    }
}

/// One call with the bytes of every lent slice.
#[derive(Clone, Debug)]
pub struct Request {
    pub call: Call,
    pub numbers: [u64; 3],
    pub slices: Vec<Vec<u8>>,
}

/// What a call leaves: its reply and the bytes of every lent slice.
#[derive(Clone, Debug, PartialEq, Eq)]
pub struct Left {
    pub reply: u64,
    pub slices: Vec<Vec<u8>>,
}

/// A reply taken apart.
#[derive(Clone, Copy, Debug, PartialEq, Eq)]
pub struct Parts {
    pub code: u64,
    pub place: u64,
    pub position: u64,
}

impl Parts {
    pub fn in_words(self) -> String {
        format!("code {} place {} position {}", self.code, self.place, self.position)
    }
}

impl Left {
    pub fn parts(&self) -> Parts {
        Parts { code: self.reply & 0xff, place: self.reply >> 8 & 0xff_ffff, position: self.reply >> 32 }
    }

    pub fn code(&self) -> u64 {
        self.parts().code
    }
}

impl Request {
    pub fn idle() -> Request {
        Request { call: Call::Idle, numbers: [0; 3], slices: Vec::new() }
    }

    pub fn solve(record: Lent, most: u64, costs: Vec<u8>, starts: Vec<u8>) -> Request {
        Request { call: Call::Solve, numbers: [most, 0, 0], slices: vec![record.body, record.channels, costs, starts] }
    }

    pub fn read_cuts(starts: Vec<u8>, n: u64, count: u64, kernel: u64, out: Vec<u8>) -> Request {
        Request { call: Call::ReadCuts, numbers: [n, count, kernel], slices: vec![starts, out] }
    }

    pub fn read_file(file: Vec<u8>) -> Request {
        Request { call: Call::ReadFile, numbers: [0; 3], slices: vec![file] }
    }

    pub fn write_file(form: u64, entries: Vec<u8>, bodies: Vec<u8>, out: Vec<u8>) -> Request {
        Request { call: Call::WriteFile, numbers: [form, 0, 0], slices: vec![entries, bodies, out] }
    }

    pub fn summarize(record: Lent, first: u64, length: u64, out: Vec<u8>) -> Request {
        Request { call: Call::Summarize, numbers: [first, length, 0], slices: vec![record.body, record.channels, out] }
    }

    /// What the second program says of this call.
    pub fn expected(&self) -> Left {
        let mut slices = self.slices.clone();
        let [first, second, third] = self.numbers;
        let reply = match (self.call, &mut slices[..]) {
            (Call::Solve, [body, channels, costs, starts]) => calls::solve(body, channels, first, costs, starts),
            (Call::ReadCuts, [starts, out]) => calls::read_cuts(starts, first, second, third, out),
            (Call::ReadFile, [file]) => calls::read_file(file),
            (Call::WriteFile, [entries, bodies, out]) => calls::write_file(first, entries, bodies, out),
            (Call::Summarize, [body, channels, out]) => calls::summarize(body, channels, first, second, out),
            _ => 0,
        };
        Left { reply, slices }
    }

    /// The bytes that ask the driver for this call.
    pub fn for_driver(&self, placing: u8) -> Vec<u8> {
        let mut sent = vec![self.call as u8, placing];
        for number in self.numbers {
            sent.extend(number.to_le_bytes());
        }
        for slice in &self.slices {
            sent.extend((slice.len() as u64).to_le_bytes());
            sent.extend(slice);
        }
        sent
    }

    /// The call in words: its numbers, and its slices up to so many bytes of each.
    pub fn in_words(&self, most: usize) -> String {
        let mut words = self.call.name().to_string();
        for (name, number) in self.call.number_names().iter().zip(self.numbers) {
            words += &format!(" {} {}", name, number);
        }
        for (name, slice) in self.call.slice_names().iter().zip(&self.slices) {
            let shown: String = slice.iter().take(most).map(|byte| format!("{:02x}", byte)).collect();
            let more = if slice.len() > most { ".." } else { "" };
            words += &format!("\n    {} of {} bytes: {}{}", name, slice.len(), shown, more);
        }
        words
    }
}
