//! Start tables of every content, read for their cuts.

use crate::peers::{Outcome, Peers};
use crate::request::Request;
use crate::rng::Rng;
use second::calls::STARTS_OUT;
use second::cuttings::MOST;
use second::number::number;

/// A start table of any content for n observations and `count` segments.
struct Table {
    n: usize,
    count: usize,
    entries: Vec<u16>,
}

impl Table {
    fn of_noise(rng: &mut Rng, n: usize, count: usize) -> Table {
        let entries = (0..count * (n + 1)).map(|_| rng.next() as u16).collect();
        Table { n, count, entries }
    }

    fn entry(&mut self, count: usize, end: usize) -> &mut u16 {
        &mut self.entries[(count - 1) * (self.n + 1) + end]
    }

    /// Writes a walk of the first `end` observations in `count` segments into the table, as far as
    /// there is one, and returns its steps: count, end and start.
    fn lay_walk(&mut self, rng: &mut Rng, count: usize, mut end: usize) -> Vec<(usize, usize, usize)> {
        let mut steps = Vec::new();
        for count in (1..=count).rev() {
            if end < count || end > self.n {
                break;
            }
            let start = if count == 1 { 0 } else { count - 1 + rng.below(end - count + 1) };
            *self.entry(count, end) = start as u16;
            steps.push((count, end, start));
            end = start;
        }
        steps
    }

    fn request(&self, rng: &mut Rng) -> Request {
        let mut starts: Vec<u8> = self.entries.iter().flat_map(|entry| entry.to_le_bytes()).collect();
        let spare = rng.below(6);
        starts.extend(rng.bytes(spare));
        let more = rng.pick(&[0, 0, 1, 7]);
        let kernel = 1 + rng.below(3) as u64;
        Request::read_cuts(starts, self.n as u64, self.count as u64, kernel, rng.bytes(STARTS_OUT + more))
    }
}

fn size(rng: &mut Rng) -> (usize, usize) {
    let n = match rng.below(10) {
        0 => rng.pick(&[399, 400]),
        1 => 13 + rng.below(300),
        _ => 1 + rng.below(16),
    };
    (n, 1 + rng.below(n.min(MOST)))
}

/// A walk through noise: accepted, whatever stands beside it.
pub fn laid(rng: &mut Rng, _: usize, peers: &mut Peers) -> Outcome {
    let (n, count) = size(rng);
    let mut table = Table::of_noise(rng, n, count);
    let steps = table.lay_walk(rng, count, n);
    let left = peers.call_for(0, &table.request(rng))?;
    let read = left.slices[1].chunks(2).map(number);
    match steps.iter().rev().zip(read).position(|((_, _, start), read)| *start as u64 != read) {
        Some(place) => Err(format!("start {} of the walk {:?} is read otherwise", place, steps)),
        None => Ok(()),
    }
}

/// A walk with one step moved to an edge of what is allowed, or just past it, and laid on from there.
pub fn moved(rng: &mut Rng, _: usize, peers: &mut Peers) -> Outcome {
    let (n, count) = size(rng);
    let mut table = Table::of_noise(rng, n, count);
    let steps = table.lay_walk(rng, count, n);
    let (count, end, start) = steps[rng.below(steps.len())];
    let (low, high) = (count as u16 - 1, end as u16);
    let edges = [low.wrapping_sub(1), low, high - 1, high, high + 1, 65_535, start as u16 | 256, 0];
    let moved = rng.pick(&edges);
    table.lay_walk(rng, count - 1, usize::from(moved));
    *table.entry(count, end) = moved;
    peers.call(&table.request(rng)).map(|_| ())
}

/// A table of small numbers, in which walks come about and break off by chance.
pub fn wild(rng: &mut Rng, _: usize, peers: &mut Peers) -> Outcome {
    let (n, count) = size(rng);
    let mut table = Table::of_noise(rng, n, count);
    for row in 1..=count {
        for end in 0..=n {
            let near = if rng.chance(85) { end.max(1) } else { n + 2 };
            *table.entry(row, end) = rng.below(near) as u16;
        }
    }
    if rng.chance(70) {
        for end in 0..=n {
            *table.entry(1, end) = 0;
        }
    }
    peers.call(&table.request(rng)).map(|_| ())
}

/// A reading of cuts in the making: a table that holds a walk, and what is asked.
struct Draft {
    n: u64,
    count: u64,
    kernel: u64,
    starts: Vec<u8>,
    out: usize,
}

/// Damage that is meant for a code.
type Fault = (u64, fn(&mut Rng, &mut Draft));

/// In the order in which they are tried.
const FAULTS: [Fault; 8] = [
    (1, |_, draft| draft.n = 0),
    (2, |rng, draft| draft.n = rng.pick(&[401, 402, 65_536 + 5, 1 << 32 | 5, u64::MAX])),
    (4, |rng, draft| draft.count = rng.pick(&[0, 13, 256 + 1, 1 << 32 | 1, u64::MAX])),
    (5, |_, draft| draft.count = draft.n + 1),
    (6, |rng, draft| draft.kernel = rng.pick(&[0, 4, 256 + 1, 1 << 32 | 1, u64::MAX])),
    (7, |rng, draft| {
        let needed = 2 * draft.count.min(12) as usize * (draft.n.min(400) as usize + 1);
        draft.starts.truncate(needed - 1 - rng.below(3));
    }),
    (7, |rng, draft| draft.out = rng.pick(&[0, 2, 22, 23])),
    (13, |_, draft| {
        let last = 2 * (draft.count * (draft.n + 1) - 1) as usize;
        draft.starts[last..].copy_from_slice(&(draft.n as u16).to_le_bytes());
    }),
];

impl Draft {
    /// A walk of few observations, so that more segments than those are not more than 12.
    fn sound(rng: &mut Rng) -> Draft {
        let n = 2 + rng.below(10);
        let count = 1 + rng.below(n);
        let mut table = Table::of_noise(rng, n, count);
        table.lay_walk(rng, count, n);
        let starts = table.entries.iter().flat_map(|entry| entry.to_le_bytes()).collect();
        let kernel = 1 + rng.below(3) as u64;
        Draft { n: n as u64, count: count as u64, kernel, starts, out: STARTS_OUT }
    }

    fn read_for(&self, rng: &mut Rng, peers: &mut Peers, code: u64) -> Outcome {
        let out = rng.bytes(self.out);
        let request = Request::read_cuts(self.starts.clone(), self.n, self.count, self.kernel, out);
        peers.call_at(code, 0, 0, &request)
    }
}

/// How many cases try every two refusals together.
pub const TOGETHER: usize = FAULTS.len() * FAULTS.len() * 4;

/// The fault that is tried later is there first, and is told; with the other the other is.
pub fn together(rng: &mut Rng, index: usize, peers: &mut Peers) -> Outcome {
    let (one, other) = (index % FAULTS.len(), index / FAULTS.len() % FAULTS.len());
    let mut draft = Draft::sound(rng);
    for which in [one.max(other), one.min(other)] {
        let (code, fault) = FAULTS[which];
        fault(rng, &mut draft);
        draft.read_for(rng, peers, code)?;
    }
    Ok(())
}
