//! What the cases have met: calls, files, codes, and the stack used.

use crate::request::{Call, CALLS};
use std::collections::BTreeMap;

/// The codes that each C function can be brought to answer with, and the cases must. 12, whose reason
/// never holds, is not among them.
pub const CODES: [(Call, &[u64]); CALLS.len()] = [
    (Call::Solve, &[0, 1, 2, 3, 4, 5, 6, 7, 8, 9, 10, 11, 24, 29]),
    (Call::ReadCuts, &[0, 1, 2, 4, 5, 6, 7, 13]),
    (Call::ReadFile, &[0, 20, 21, 22, 23, 24, 25, 26, 28, 29]),
    (Call::WriteFile, &[0, 20, 21, 23, 24, 25, 26, 27, 28, 29]),
    (Call::Summarize, &[0, 1, 2, 3, 6, 7, 8, 9, 10, 11, 14, 24, 29]),
];

/// How often each code is expected of each C function, and in the text of a file.
pub type Codes = BTreeMap<(&'static str, u64), u64>;

/// The name under which the codes of texts are counted.
pub const TEXT: &str = "cuts";

/// The tally of one worker, or of all.
#[derive(Default)]
pub struct Met {
    pub calls: [u64; 1 + CALLS.len()],
    pub files: u64,
    pub stack: [u32; 1 + CALLS.len()],
    pub on_purpose: Codes,
    pub by_chance: Codes,
}

impl Met {
    pub fn note_call(&mut self, call: Call, code: u64, by_chance: bool, stack: u32) {
        self.calls[call as usize] += 1;
        self.stack[call as usize] = self.stack[call as usize].max(stack);
        if call != Call::Idle {
            self.note_code(call.name(), code, by_chance);
        }
    }

    /// Notes a file and the codes in the text expected for it.
    pub fn note_file(&mut self, text: &str, by_chance: bool) {
        self.files += 1;
        for line in text.lines() {
            let mut words = line.split(' ').skip_while(|&word| word != "code").skip(1);
            if let Some(code) = words.next().and_then(|word| word.parse().ok()) {
                self.note_code(TEXT, code, by_chance);
            }
        }
    }

    fn note_code(&mut self, name: &'static str, code: u64, by_chance: bool) {
        let codes = if by_chance { &mut self.by_chance } else { &mut self.on_purpose };
        *codes.entry((name, code)).or_insert(0) += 1;
    }

    pub fn add(&mut self, other: &Met) {
        for call in 0..self.calls.len() {
            self.calls[call] += other.calls[call];
            self.stack[call] = self.stack[call].max(other.stack[call]);
        }
        self.files += other.files;
        add_codes(&mut self.on_purpose, &other.on_purpose);
        add_codes(&mut self.by_chance, &other.by_chance);
    }
}

fn add_codes(codes: &mut Codes, more: &Codes) {
    for (&named, times) in more {
        *codes.entry(named).or_insert(0) += times;
    }
}
