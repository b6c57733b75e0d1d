//! The text that the program `cuts` prints.

use crate::cuttings::{choices, Choices};
use crate::file::{self, Entry};
use crate::gram::SegmentCosts;
use crate::record::{judge, judge_counts, judge_kernels, Record};

/// The whole text for a file.
pub fn text(contents: &[u8]) -> String {
    match file::parse(contents) {
        Ok(entries) => entries.iter().map(of_term).collect(),
        Err(refusal) => format!("file code {} place {} at {}\n", refusal.code, refusal.place, refusal.position),
    }
}

/// The lines of one term.
fn of_term(entry: &Entry) -> String {
    let numbers = |n: u64| judge_counts(n, entry.most).and_then(|()| judge_kernels(&entry.channels));
    match judge(&entry.body, &entry.channels, numbers) {
        Ok(record) => format!("term {} code 0 place 0\n{}", entry.term, of_record(&record, entry)),
        Err(refusal) => format!("term {} code {} place {}\n", entry.term, refusal.code, refusal.place),
    }
}

fn of_record(record: &Record, entry: &Entry) -> String {
    let segments = SegmentCosts::new(&entry.channels, &record.samples);
    let most = entry.most as usize;
    let chosen = choices(record.samples.len(), most, &segments);
    (1..=most).map(|count| of_count(record, &chosen, count)).collect()
}

fn of_count(record: &Record, chosen: &Choices, count: usize) -> String {
    let cutting = chosen.of(count, record.samples.len()).expect("at least as many observations as segments");
    let mut line = format!("{} {}", count, cutting.cost);
    for &start in &cutting.starts()[1..] {
        let start = usize::from(start);
        let date = (record.days[start - 1] + record.days[start]) / 2;
        line += &format!(" {}:{}", start, date);
    }
    line + "\n"
}
