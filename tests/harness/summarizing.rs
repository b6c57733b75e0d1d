//! Stretches of records, summarized channel by channel.

use crate::peers::{Outcome, Peers};
use crate::records::{channel, length, Look, Record, LIMIT, LOOKS, SPELLING};
use crate::request::Request;
use crate::rng::Rng;
use second::calls::{SUMMARIES_OUT, SUMMARY};
use second::number::number;
use second::record::{Channel, MOST_CHANNELS};

/// A stretch: its first index and its length.
type Stretch = (usize, usize);

/// The numbers of a summary: first index, length, sum, and the bits of the mean.
type Numbers = [u64; 4];

/// Summarizes a stretch, and holds the four summaries to what is worked here by plain sums and one division.
fn summarize(rng: &mut Rng, peers: &mut Peers, record: &Record, stretch: Stretch) -> Outcome {
    let spare = rng.pick(&[0, 0, 0, 1, 31, 72]);
    let out = rng.bytes(SUMMARIES_OUT + spare);
    let request = Request::summarize(record.lent(), stretch.0 as u64, stretch.1 as u64, out);
    let left = peers.call_for(0, &request)?;
    let found: Vec<Numbers> = left.slices[2].chunks_exact(SUMMARY).take(MOST_CHANNELS).map(numbers).collect();
    let due: Vec<Numbers> = (0..MOST_CHANNELS).map(|place| summary(record, place, stretch)).collect();
    if found == due {
        Ok(())
    } else {
        Err(format!("the stretch {:?} is summarized by {:?}, due is {:?}\n  {:?}", stretch, found, due, record))
    }
}

fn numbers(summary: &[u8]) -> Numbers {
    [0, 8, 16, 24].map(|at| number(&summary[at..at + 8]))
}

fn summary(record: &Record, place: usize, (first, length): Stretch) -> Numbers {
    let sum: i64 = match record.channels.get(place) {
        Some(&Channel { kernel: SPELLING, .. }) => 0,
        Some(_) => record.samples[place][first..first + length].iter().sum(),
        None => return [0; 4],
    };
    [first as u64, length as u64, sum as u64, (sum as f64 / length as f64).to_bits()]
}

fn stretch(rng: &mut Rng, n: usize) -> Stretch {
    let first = rng.below(n);
    (first, 1 + rng.below(n - first))
}

/// A few stretches of a record of any look, and the whole of it.
pub fn drawn(rng: &mut Rng, index: usize, peers: &mut Peers) -> Outcome {
    let n = length(rng);
    let record = Record::new(rng, LOOKS[index % LOOKS.len()], n);
    for _ in 0..3 {
        let stretch = stretch(rng, n);
        summarize(rng, peers, &record, stretch)?;
    }
    summarize(rng, peers, &record, (0, n))
}

/// Every stretch of a small record, and every one that is empty or passes the end of it by little.
pub const SMALL: usize = 6 * MOST_CHANNELS;

pub fn every(rng: &mut Rng, index: usize, peers: &mut Peers) -> Outcome {
    let n = 1 + index / MOST_CHANNELS;
    let channels: Vec<Channel> = (0..=index % MOST_CHANNELS).map(|_| channel(rng)).collect();
    let record = Record::of_channels(rng, Look::Small, n, &channels);
    for first in 0..=n + 1 {
        for length in 0..=n + 1 {
            if length > 0 && first + length <= n {
                summarize(rng, peers, &record, (first, length))?;
            } else {
                let request = Request::summarize(record.lent(), first as u64, length as u64, rng.bytes(SUMMARIES_OUT));
                peers.call_for(14, &request)?;
            }
        }
    }
    Ok(())
}

/// The longest records, whose samples all lie at one limit or the other: the largest sums there are.
pub const LARGEST: usize = MOST_CHANNELS * 4;

pub fn largest(rng: &mut Rng, index: usize, peers: &mut Peers) -> Outcome {
    let channels: Vec<Channel> = (0..=index % MOST_CHANNELS).map(|_| channel(rng)).collect();
    let mut record = Record::of_channels(rng, Look::Extreme, 400, &channels);
    for own in &mut record.samples {
        *own = vec![rng.pick(&[-LIMIT, LIMIT]); 400];
    }
    let length = 390 + rng.below(10);
    summarize(rng, peers, &record, (400 - length, length))?;
    summarize(rng, peers, &record, (0, 400))
}

const ROOMS: [usize; 17] = [0, 1, 8, 31, 32, 33, 63, 64, 95, 96, 120, 126, 127, 128, 129, 200, 1000];

/// Room for the summaries, too short, exact and longer: for each count of channels, and for a stretch that is not
/// there, which is told first.
pub const ROOM: usize = ROOMS.len() * MOST_CHANNELS * 2;

pub fn room(rng: &mut Rng, index: usize, peers: &mut Peers) -> Outcome {
    let room = ROOMS[index % ROOMS.len()];
    let channels: Vec<Channel> = (0..=index / ROOMS.len() % MOST_CHANNELS).map(|_| channel(rng)).collect();
    let record = Record::of_channels(rng, Look::Uniform, 9, &channels).lent();
    let there = index / ROOMS.len() / MOST_CHANNELS == 0;
    let code = match (there, room < SUMMARIES_OUT) {
        (false, _) => 14,
        (true, true) => 7,
        (true, false) => 0,
    };
    let first = if there { 6 } else { 7 };
    peers.call_for(code, &Request::summarize(record, first, 3, rng.bytes(room))).map(|_| ())
}

/// First indices and lengths at every edge, also of fewer bits, for records of some lengths.
const EDGES: [u64; 14] =
    [0, 1, 2, 399, 400, 401, 255, 256, 65_536, 1 << 32, 1 << 32 | 1, 1 << 63, u64::MAX - 399, u64::MAX];
const LENGTHS: [usize; 4] = [1, 2, 256, 400];
pub const NUMBERS: usize = EDGES.len() * EDGES.len() * LENGTHS.len();

pub fn edges(rng: &mut Rng, index: usize, peers: &mut Peers) -> Outcome {
    let (first, length) = (EDGES[index % EDGES.len()], EDGES[index / EDGES.len() % EDGES.len()]);
    let n = LENGTHS[index / EDGES.len() / EDGES.len()];
    let lent = Record::new(rng, Look::Tidy, n).lent();
    let passes = length == 0 || u128::from(first) + u128::from(length) > n as u128;
    let code = if passes { 14 } else { 0 };
    peers.call_for(code, &Request::summarize(lent, first, length, rng.bytes(SUMMARIES_OUT))).map(|_| ())
}
