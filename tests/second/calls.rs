//! The five C functions: the reply, and every byte of every lent slice.

use crate::cuttings::{choices, Choices, MOST};
use crate::gram::SegmentCosts;
use crate::number::{bytes, number};
use crate::record::{channels_of, judge, judge_counts, judge_kernel, judge_kernels, judge_length, MOST_CHANNELS};
use crate::{exact, file, refuse_if, Refusal};

/// The bytes that read starts go to.
pub const STARTS_OUT: usize = 2 * MOST;

/// The width of a summary, and the bytes that all summaries go to.
pub const SUMMARY: usize = 32;
pub const SUMMARIES_OUT: usize = SUMMARY * MOST_CHANNELS;

fn reply(result: Result<(), Refusal>) -> u64 {
    result.map_or_else(Refusal::reply, |()| 0)
}

/// Solves a record into the two lent tables.
pub fn solve(body: &[u8], list: &[u8], most: u64, costs: &mut [u8], starts: &mut [u8]) -> u64 {
    let entries = (costs.len() / 8).min(starts.len() / 2) as u64;
    reply(channels_of(list).and_then(|channels| {
        let record = judge(body, &channels, |n| {
            judge_counts(n, most)?;
            judge_kernels(&channels)?;
            refuse_if(entries < most * (n + 1), 7)
        })?;
        let n = record.samples.len();
        let segments = SegmentCosts::new(&channels, &record.samples);
        fill(&choices(n, most as usize, &segments), n, most as usize, costs, starts);
        Ok(())
    }))
}

fn fill(chosen: &Choices, n: usize, most: usize, costs: &mut [u8], starts: &mut [u8]) {
    for count in 1..=most {
        for t in 0..=n {
            let (cost, start) = match chosen.of(count, t) {
                Some(cutting) => (cutting.cost as u64, cutting.last()),
                None => (18_446_744_073_709_551_615, 65_535),
            };
            let entry = (count - 1) * (n + 1) + t;
            costs[8 * entry..8 * entry + 8].copy_from_slice(&bytes(cost, 8));
            starts[2 * entry..2 * entry + 2].copy_from_slice(&bytes(u64::from(start), 2));
        }
    }
}

/// Reads the cuts for one count of segments into the first 24 bytes of `out`.
pub fn read_cuts(starts: &[u8], n: u64, count: u64, kernel: u64, out: &mut [u8]) -> u64 {
    reply(walked(starts, n, count, kernel, out.len()).map(|walk| {
        for (place, start) in walk.iter().chain([0; MOST].iter()).take(MOST).enumerate() {
            out[2 * place..2 * place + 2].copy_from_slice(&bytes(*start as u64, 2));
        }
    }))
}

fn walked(starts: &[u8], n: u64, count: u64, kernel: u64, out: usize) -> Result<Vec<usize>, Refusal> {
    judge_counts(n, count)?;
    judge_kernel(kernel)?;
    refuse_if(((starts.len() / 2) as u64) < count * (n + 1) || out < STARTS_OUT, 7)?;
    let table: Vec<usize> = starts.chunks_exact(2).map(|two| number(two) as usize).collect();
    walk(&table, n as usize, n as usize, count as usize).ok_or_else(|| Refusal::plain(13))
}

/// The starts of the cutting of the first `end` observations into `count` segments, if there is a walk.
fn walk(table: &[usize], n: usize, end: usize, count: usize) -> Option<Vec<usize>> {
    let start = table[(count - 1) * (n + 1) + end];
    let allowed = if count == 1 { 0..1 } else { count - 1..end };
    if !allowed.contains(&start) {
        return None;
    }
    let mut before = if count == 1 { Vec::new() } else { walk(table, n, start, count - 1)? };
    before.push(start);
    Some(before)
}

/// Judges a record file.
pub fn read_file(contents: &[u8]) -> u64 {
    reply(file::parse(contents).map(|_| ()))
}

/// Writes a record file of the form into `out`.
pub fn write_file(form: u64, entries: &[u8], bodies: &[u8], out: &mut [u8]) -> u64 {
    reply(file::compose(form, entries, bodies).and_then(|composed| {
        refuse_if(out.len() < composed.len(), 27)?;
        out[..composed.len()].copy_from_slice(&composed);
        Ok(())
    }))
}

/// Summarizes the stretch of the first index and the length, channel by channel, into `out`.
pub fn summarize(body: &[u8], list: &[u8], first: u64, length: u64, out: &mut [u8]) -> u64 {
    reply(summaries(body, list, first, length).and_then(|summaries| {
        refuse_if(out.len() < SUMMARIES_OUT, 7)?;
        let unused = vec![0; SUMMARIES_OUT - summaries.len()];
        out[..SUMMARIES_OUT].copy_from_slice(&[summaries, unused].concat());
        Ok(())
    }))
}

/// The bytes of the summaries of all channels.
fn summaries(body: &[u8], list: &[u8], first: u64, length: u64) -> Result<Vec<u8>, Refusal> {
    let channels = channels_of(list)?;
    let record = judge(body, &channels, |n| {
        judge_length(n)?;
        judge_kernels(&channels)
    })?;
    let n = record.samples.len() as u128;
    refuse_if(length == 0 || u128::from(first) + u128::from(length) > n, 14)?;
    let stretch = &record.samples[first as usize..(first + length) as usize];
    let summaries = channels.iter().enumerate().map(|(place, channel)| {
        let summed = if channel.kernel == 2 { 0 } else { stretch.iter().map(|samples| samples[place]).sum() };
        [first, length, summed as u64, exact::mean(summed, length)].map(|number| bytes(number, 8)).concat()
    });
    Ok(summaries.collect::<Vec<_>>().concat())
}
