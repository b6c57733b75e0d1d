//! Demand 3 tried on what comes out: shift, sign and recoding of channels, reversal, joining.

use crate::peers::{Outcome, Peers};
use crate::records::{channel, length, Record, LIMIT, LOOKS, SPELLING};
use crate::request::Request;
use crate::rng::Rng;
use crate::solving::fit;
use second::cuttings::MOST;
use second::number::number;
use second::record::MOST_CHANNELS;

/// The tables that the real solve leaves.
struct Solved {
    n: usize,
    costs: Vec<u8>,
    starts: Vec<u8>,
}

impl Solved {
    fn of(peers: &mut Peers, record: &Record, most: usize) -> Result<Solved, String> {
        let entries = most * (record.n() + 1);
        let request = Request::solve(record.lent(), most as u64, vec![7; 8 * entries], vec![7; 2 * entries]);
        let mut slices = peers.call_for(0, &request)?.slices;
        let starts = slices.pop().expect("solve lends starts");
        let costs = slices.pop().expect("solve lends costs");
        Ok(Solved { n: record.n(), costs, starts })
    }

    /// The least cost of the whole record in `count` segments.
    fn least(&self, count: usize) -> u64 {
        let entry = (count - 1) * (self.n + 1) + self.n;
        number(&self.costs[8 * entry..8 * entry + 8])
    }
}

/// A record and a count of segments for it.
fn drawn(rng: &mut Rng) -> (Record, usize) {
    let n = length(rng);
    let look = rng.pick(&LOOKS);
    (Record::new(rng, look, n), fit(rng, n))
}

/// Solves the record and the moved one, and holds both tables of the two against each other.
fn same_tables(peers: &mut Peers, record: &Record, moved: &Record, most: usize) -> Outcome {
    let (one, other) = (Solved::of(peers, record, most)?, Solved::of(peers, moved, most)?);
    if (one.costs, one.starts) == (other.costs, other.starts) {
        Ok(())
    } else {
        Err(format!("up to {} segments: the tables of {:?} and {:?} differ", most, record, moved))
    }
}

/// A move of the samples of one channel.
type Move = fn(&mut Rng, &[i64]) -> Vec<i64>;

/// Adding one whole number to all samples.
pub fn shift(rng: &mut Rng, samples: &[i64]) -> Vec<i64> {
    let low = samples.iter().min().copied().unwrap_or(0);
    let high = samples.iter().max().copied().unwrap_or(0);
    let by = match rng.below(3) {
        0 => -LIMIT - low,
        1 => LIMIT - high,
        _ => rng.between(-LIMIT - low, LIMIT - high),
    };
    samples.iter().map(|x| x + by).collect()
}

/// Changing all signs.
pub fn sign(_: &mut Rng, samples: &[i64]) -> Vec<i64> {
    samples.iter().map(|x| -x).collect()
}

/// New codes for all spellings.
fn recoding(rng: &mut Rng, samples: &[i64]) -> Vec<i64> {
    let mut codes = samples.to_vec();
    codes.sort_unstable();
    codes.dedup();
    let mut fresh: Vec<i64> = Vec::new();
    while fresh.len() < codes.len() {
        let code = rng.between(-LIMIT, LIMIT);
        if !fresh.contains(&code) {
            fresh.push(code);
        }
    }
    samples.iter().map(|x| fresh[codes.binary_search(x).expect("every code is listed")]).collect()
}

/// One channel is moved, and the others stay.
pub fn moved(rng: &mut Rng, peers: &mut Peers, by: Move) -> Outcome {
    let (record, most) = drawn(rng);
    let place = rng.below(record.channels.len());
    let mut samples = record.samples.clone();
    samples[place] = by(rng, &record.samples[place]);
    same_tables(peers, &record, &record.with(samples), most)
}

/// One channel of spellings is recoded, and the others stay.
pub fn recoded(rng: &mut Rng, _: usize, peers: &mut Peers) -> Outcome {
    let (mut record, most) = drawn(rng);
    let place = rng.below(record.channels.len());
    record.channels[place].kernel = SPELLING;
    let mut samples = record.samples.clone();
    samples[place] = recoding(rng, &record.samples[place]);
    same_tables(peers, &record, &record.with(samples), most)
}

/// Every channel is moved, each in a way of its own.
pub fn all_moved(rng: &mut Rng, _: usize, peers: &mut Peers) -> Outcome {
    let (record, most) = drawn(rng);
    let mut samples = Vec::new();
    for (channel, own) in record.channels.iter().zip(&record.samples) {
        let moves: &[Move] = if channel.kernel == SPELLING { &[shift, sign, recoding] } else { &[shift, sign] };
        samples.push(rng.pick(moves)(rng, own));
    }
    same_tables(peers, &record, &record.with(samples), most)
}

/// The channels in another order, and beside one that never changes: the tables stay.
pub fn regrouped(rng: &mut Rng, _: usize, peers: &mut Peers) -> Outcome {
    let (record, most) = drawn(rng);
    let mut moved = record.clone();
    if moved.channels.len() < MOST_CHANNELS {
        moved.channels.push(channel(rng));
        moved.samples.push(vec![rng.between(-LIMIT, LIMIT); record.n()]);
    }
    for last in (1..moved.channels.len()).rev() {
        let place = rng.below(last + 1);
        moved.channels.swap(last, place);
        moved.samples.swap(last, place);
    }
    same_tables(peers, &record, &moved, most)
}

/// Samples read backwards with the days kept: every least cost stays.
pub fn reversal(rng: &mut Rng, _: usize, peers: &mut Peers) -> Outcome {
    let (record, most) = drawn(rng);
    let backwards = record.samples.iter().map(|channel| channel.iter().rev().copied().collect()).collect();
    let (one, other) = (Solved::of(peers, &record, most)?, Solved::of(peers, &record.with(backwards), most)?);
    match (1..=most).find(|&count| one.least(count) != other.least(count)) {
        Some(count) => Err(format!("in {} segments {:?} costs otherwise backwards", count, record)),
        None => Ok(()),
    }
}

/// The least cost in a + b segments against the two sides of every place, each solved by itself.
pub fn joining(rng: &mut Rng, _: usize, peers: &mut Peers) -> Outcome {
    let n = 2 + rng.below(18);
    let look = rng.pick(&LOOKS);
    let record = Record::new(rng, look, n);
    let whole = Solved::of(peers, &record, n.min(MOST))?;
    let mut sides = Vec::new();
    for place in 1..n {
        let before = Solved::of(peers, &record.part(0, place), place.min(MOST - 1))?;
        let after = Solved::of(peers, &record.part(place, n), (n - place).min(MOST - 1))?;
        sides.push((before, after));
    }
    for sum in 2..=n.min(MOST) {
        for a in 1..sum {
            let joined = joined(&sides, a, sum - a);
            if joined != Some(whole.least(sum)) {
                return Err(format!("joining {} and {} gives {:?} on {:?}", a, sum - a, joined, record));
            }
        }
    }
    Ok(())
}

/// The least, over the places that leave enough on both sides, of both sides' least costs.
fn joined(sides: &[(Solved, Solved)], a: usize, b: usize) -> Option<u64> {
    let wide_enough = sides.iter().filter(|(before, after)| before.n >= a && after.n >= b);
    wide_enough.map(|(before, after)| before.least(a) + after.least(b)).min()
}
