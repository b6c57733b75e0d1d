//! Says where what was left differs from what was expected.

use crate::request::{Call, Left, Request};
use second::number::number;
use second::record::{observation, CHANNEL};

/// The first difference in words, or none.
pub fn between(request: &Request, expected: &Left, got: &Left) -> Option<String> {
    if expected.reply != got.reply {
        return Some(format!("reply: expected {}, got {}", expected.parts().in_words(), got.parts().in_words()));
    }
    let names = request.call.slice_names();
    (0..names.len()).find_map(|which| in_slice(request, which, &expected.slices[which], &got.slices[which]))
}

fn in_slice(request: &Request, which: usize, expected: &[u8], got: &[u8]) -> Option<String> {
    let place = expected.iter().zip(got).position(|(one, other)| one != other)?;
    let name = request.call.slice_names()[which];
    let before = request.slices[which][place];
    let words = format!(
        "{}: byte {} was {} before the call, expected {}, got {}",
        name, place, before, expected[place], got[place]
    );
    Some(words + &entry_words(request, which, place, expected, got))
}

/// Names the table entry, or the part of a summary, that a byte of what a call writes lies in.
fn entry_words(request: &Request, which: usize, place: usize, expected: &[u8], got: &[u8]) -> String {
    let width = match (request.call, request.call.slice_names()[which]) {
        (Call::Solve, "starts") => 2,
        (Call::Solve, "costs") | (Call::Summarize, "out") => 8,
        _ => return String::new(),
    };
    let entry = place / width;
    let bytes = entry * width..(entry * width + width).min(expected.len());
    let held = |left: &[u8]| number(&left[bytes.clone()]);
    format!("; {}: expected {}, got {}", name_of_entry(request, entry), held(expected), held(got))
}

fn name_of_entry(request: &Request, entry: usize) -> String {
    if request.call == Call::Summarize {
        return format!("{} of summary {}", ["first index", "length", "sum", "mean's bits"][entry % 4], entry / 4);
    }
    let columns = request.slices[0].len() / observation(request.slices[1].len() / CHANNEL) + 1;
    format!("row D = {}, column t = {}", entry / columns + 1, entry % columns)
}

/// The first line that differs.
pub fn between_texts(expected: &str, got: &str) -> String {
    let line = expected.lines().zip(got.lines()).take_while(|(one, other)| one == other).count();
    format!(
        "line {}: expected {:?}, got {:?} ({} and {} bytes in all)",
        line + 1,
        expected.lines().nth(line),
        got.lines().nth(line),
        expected.len(),
        got.len()
    )
}

/// The first byte that differs.
pub fn between_files(expected: &[u8], got: &[u8]) -> String {
    let place = expected.iter().zip(got).take_while(|(one, other)| one == other).count();
    format!(
        "byte {}: expected {:?}, got {:?} ({} and {} bytes in all)",
        place,
        expected.get(place),
        got.get(place),
        expected.len(),
        got.len()
    )
}
