//! Numbers and lengths at and beside every edge.

use crate::peers::{Outcome, Peers};
use crate::records::{channel, Lent, Look, Record, KERNELS, LOOKS};
use crate::request::Request;
use crate::rng::Rng;
use second::calls::{STARTS_OUT, SUMMARIES_OUT};
use second::record::{observation, Channel, CHANNEL, MOST_CHANNELS};

/// Values that a 64-bit number would take on if it were cut to fewer bits.
const WIDE: [u64; 8] = [256 + 1, 256 + 2, 65_536 + 1, 65_536 + 12, 1 << 32 | 1, 1 << 32 | 12, 1 << 63 | 1, u64::MAX];

/// Bytes of noise, `delta` more or fewer than needed.
fn lent(rng: &mut Rng, needed: usize, delta: i64) -> Vec<u8> {
    rng.bytes((needed as i64 + delta).max(0) as usize)
}

/// Enough entries for any count that may be accepted.
fn entries(n: usize, most: u64) -> usize {
    most.min(13) as usize * (n + 1)
}

const LENGTHS: [usize; 12] = [0, 1, 2, 3, 11, 12, 13, 14, 398, 399, 400, 401];

/// How many counts of segments are tried for each length.
const COUNTS: usize = 9 + WIDE.len();

fn counts(n: usize) -> Vec<u64> {
    let n = n as u64;
    [&[0, 1, 2, 11, 12, 13, n.saturating_sub(1), n, n + 1][..], &WIDE].concat()
}

/// Every length with every count of segments.
pub const LENGTHS_AND_COUNTS: usize = LENGTHS.len() * COUNTS;

pub fn lengths_and_counts(rng: &mut Rng, index: usize, peers: &mut Peers) -> Outcome {
    let n = LENGTHS[index / COUNTS];
    let most = counts(n)[index % COUNTS];
    let record = Record::new(rng, LOOKS[index % LOOKS.len()], n);
    let (costs, starts) = (lent(rng, 8 * entries(n, most), 0), lent(rng, 2 * entries(n, most), 0));
    peers.call(&Request::solve(record.lent(), most, costs, starts)).map(|_| ())
}

/// Solves a record for a few segments, and summarizes a stretch of it.
fn solve_and_summarize(rng: &mut Rng, peers: &mut Peers, record: Lent, n: usize) -> Outcome {
    let most = n.clamp(1, 3);
    let (costs, starts) = (lent(rng, 8 * most * (n + 1), 0), lent(rng, 2 * most * (n + 1), 0));
    peers.call(&Request::solve(record.clone(), most as u64, costs, starts))?;
    peers.call(&Request::summarize(record, 0, most as u64, rng.bytes(SUMMARIES_OUT))).map(|_| ())
}

const KINDS: [u8; 7] = [0, 1, 2, 3, 127, 128, 255];
const KERNEL_BYTES: [u8; 10] = [0, 1, 2, 3, 4, 127, 128, 129, 131, 255];

/// Every kind with every kernel, in every place of one to four channels.
pub const KINDS_AND_KERNELS: usize = KINDS.len() * KERNEL_BYTES.len() * 10;

pub fn kinds_and_kernels(rng: &mut Rng, index: usize, peers: &mut Peers) -> Outcome {
    let (count, place) = [(1, 0), (2, 0), (2, 1), (3, 0), (3, 1), (3, 2), (4, 0), (4, 1), (4, 2), (4, 3)][index % 10];
    let channels: Vec<Channel> = (0..count).map(|_| channel(rng)).collect();
    let mut record = Record::of_channels(rng, Look::Small, 5, &channels).lent();
    record.channels[CHANNEL * place] = KERNEL_BYTES[index / 10 % KERNEL_BYTES.len()];
    record.channels[CHANNEL * place + 1] = KINDS[index / 10 / KERNEL_BYTES.len()];
    solve_and_summarize(rng, peers, record, 5)
}

/// Lengths of a list of channels: up to 20, and such as a length cut to fewer bits would be in order.
const FAR_LISTS: [usize; 6] = [255, 256, 256 + 2, 256 + 8, 65_536 + 2, 65_536 + 8];

/// Every length, with lists of channels that are in order, of zeros, and of noise.
pub const LIST_LENGTHS: usize = (21 + FAR_LISTS.len()) * 3;

pub fn list_lengths(rng: &mut Rng, index: usize, peers: &mut Peers) -> Outcome {
    let length = if index / 3 <= 20 { index / 3 } else { FAR_LISTS[index / 3 - 21] };
    let channels = match index % 3 {
        0 => (0..length).map(|at| if at % CHANNEL == 0 { rng.pick(&KERNELS) } else { rng.below(2) as u8 }).collect(),
        1 => vec![0; length],
        _ => rng.bytes(length),
    };
    let count = length / CHANNEL;
    let width = observation(if length % CHANNEL == 0 && (1..=MOST_CHANNELS).contains(&count) { count } else { 1 });
    let mut body = vec![0; 3 * width];
    (0..3).for_each(|index| body[width * index] = index as u8);
    let code = if length % CHANNEL != 0 || count == 0 || count > MOST_CHANNELS { 29 } else { 0 };
    let record = Lent { body, channels };
    if code == 29 || index % 3 == 0 {
        let solve = Request::solve(record.clone(), 3, lent(rng, 8 * 12, 0), lent(rng, 2 * 12, 0));
        peers.call_at(code, 0, 0, &solve)?;
        return peers.call_at(code, 0, 0, &Request::summarize(record, 1, 2, rng.bytes(SUMMARIES_OUT)));
    }
    solve_and_summarize(rng, peers, record, 3)
}

const WALK_LENGTHS: [u64; 8] = [0, 1, 2, 12, 13, 400, 401, 65_535];
const WALK_KERNELS: [u64; 8] = [0, 1, 2, 3, 4, 255, 256, 256 + 3];

fn with_wide(values: &[u64]) -> Vec<u64> {
    [values, &WIDE].concat()
}

/// Every n with every count, and kernels in turn, for reading cuts.
pub const WALK_NUMBERS: usize = (WALK_LENGTHS.len() + WIDE.len()) * COUNTS;

pub fn walk_numbers(rng: &mut Rng, index: usize, peers: &mut Peers) -> Outcome {
    let n = with_wide(&WALK_LENGTHS)[index / COUNTS];
    let count = counts(n.min(401) as usize)[index % COUNTS];
    let kernel = with_wide(&WALK_KERNELS)[rng.pick(&[1, 2, 3, index % 16])];
    let starts = lent(rng, 2 * entries(n.min(400) as usize, count), 0);
    peers.call(&Request::read_cuts(starts, n, count, kernel, rng.bytes(STARTS_OUT))).map(|_| ())
}

/// Bodies of every length up to 60 bytes, round the longest record, and far beyond it, for each count of channels.
const BODIES: usize = 61 + 49 + 5;
pub const BODY_LENGTHS: usize = BODIES * MOST_CHANNELS;

pub fn body_lengths(rng: &mut Rng, index: usize, peers: &mut Peers) -> Outcome {
    let (index, count) = (index % BODIES, 1 + index / BODIES);
    let width = observation(count);
    let length = match index {
        0..=60 => index,
        61..=109 => 398 * width + (index - 61) * count,
        _ => [width * 512, width * 512 + 1, 65_536, 120_000, 1_000_000][index - 110],
    };
    let n = length / width;
    let channels: Vec<Channel> = (0..count).map(|_| channel(rng)).collect();
    let mut record = Record::of_channels(rng, Look::Uniform, n + 1, &channels).lent();
    record.body.truncate(length);
    solve_and_summarize(rng, peers, record, n)
}

const COST_DELTAS: [i64; 10] = [-1_000_000, -9, -8, -7, -1, 0, 1, 7, 8, 9];
const START_DELTAS: [i64; 8] = [-1_000_000, -3, -2, -1, 0, 1, 2, 3];
const TABLE_RECORDS: [(usize, u64); 4] = [(1, 1), (5, 3), (13, 12), (100, 2)];

/// Tables too short, exact, and with spare bytes; the longest delta lends none at all.
pub const TABLE_LENGTHS: usize = COST_DELTAS.len() * START_DELTAS.len() * TABLE_RECORDS.len();

pub fn table_lengths(rng: &mut Rng, index: usize, peers: &mut Peers) -> Outcome {
    let (n, most) = TABLE_RECORDS[index % 4];
    let (costs, starts) = (COST_DELTAS[index / 4 % 10], START_DELTAS[index / 40]);
    let record = Record::new(rng, Look::Tied, n);
    let needed = entries(n, most);
    let (costs, starts) = (lent(rng, 8 * needed, costs), lent(rng, 2 * needed, starts));
    peers.call(&Request::solve(record.lent(), most, costs, starts)).map(|_| ())
}

const OUT_LENGTHS: [usize; 9] = [0, 1, 12, 23, 24, 25, 26, 48, 1000];

/// Start tables and places for the cuts, too short, exact and longer.
pub const OUTS: usize = OUT_LENGTHS.len() * START_DELTAS.len();

pub fn outs(rng: &mut Rng, index: usize, peers: &mut Peers) -> Outcome {
    let (n, count) = TABLE_RECORDS[index % 4];
    let mut starts = vec![0; 2 * entries(n, count)];
    for row in 1..count as usize {
        for column in 0..=n {
            starts[2 * (row * (n + 1) + column)] = row as u8;
        }
    }
    starts.extend(rng.bytes(8));
    starts.truncate((starts.len() as i64 - 8 + START_DELTAS[index % 8]).max(0) as usize);
    let out = rng.bytes(OUT_LENGTHS[index / 8]);
    peers.call(&Request::read_cuts(starts, n as u64, count, 1 + index as u64 % 3, out)).map(|_| ())
}
