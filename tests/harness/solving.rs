//! Records of every look, solved and read back.

use crate::peers::{Outcome, Peers};
use crate::records::{length, Look, Record, KERNELS, LIMIT, LOOKS, SPELLING};
use crate::request::{Left, Request};
use crate::rng::Rng;
use second::calls::{STARTS_OUT, SUMMARIES_OUT};
use second::cuttings::{choices, MOST};
use second::gram::SegmentCosts;
use second::number::number;
use second::record::{Channel, MOST_CHANNELS};

/// A count of segments that a record of n observations is cut into.
pub fn fit(rng: &mut Rng, n: usize) -> usize {
    let widest = n.min(MOST);
    if rng.chance(60) {
        widest
    } else {
        1 + rng.below(widest)
    }
}

/// A lent table of noise: the entries, now and then more of them, and spare bytes.
fn table(rng: &mut Rng, entries: usize, width: usize) -> Vec<u8> {
    let more = if rng.chance(30) { rng.below(20) } else { 0 };
    let spare = rng.below(width);
    rng.bytes(width * (entries + more) + spare)
}

/// Solves a record into tables of noise.
fn solve(rng: &mut Rng, peers: &mut Peers, record: &Record, most: usize) -> Result<Left, String> {
    let entries = most * (record.n() + 1);
    let costs = table(rng, entries, 8);
    let starts = table(rng, entries, 2);
    peers.call_for(0, &Request::solve(record.lent(), most as u64, costs, starts))
}

/// Solves a record and reads the cuts off the start table that the real solve left.
fn solve_and_read(rng: &mut Rng, peers: &mut Peers, record: &Record, most: usize) -> Outcome {
    let left = solve(rng, peers, record, most)?;
    let counts: Vec<usize> = if record.n() <= 24 { (1..=most).collect() } else { vec![most, 1 + rng.below(most)] };
    for count in counts {
        let read = read(rng, peers, record, count, &left.slices[3])?;
        let chosen = chosen(record, count);
        if read != chosen {
            return Err(format!("cuts read {:?}, chosen {:?}\n  {:?}", read, chosen, record));
        }
    }
    Ok(())
}

/// Reads the cuts for one count off a start table.
fn read(rng: &mut Rng, peers: &mut Peers, record: &Record, count: usize, starts: &[u8]) -> Result<Vec<u16>, String> {
    let spare = rng.below(9);
    let out = rng.bytes(STARTS_OUT + spare);
    let first_kernel = u64::from(record.channels[0].kernel);
    let request = Request::read_cuts(starts.to_vec(), record.n() as u64, count as u64, first_kernel, out);
    let left = peers.call_for(0, &request)?;
    Ok(left.slices[1].chunks(2).take(count).map(|two| number(two) as u16).collect())
}

/// The starts of the cutting that the second program chooses.
fn chosen(record: &Record, count: usize) -> Vec<u16> {
    let costs = SegmentCosts::new(&record.channels, &record.by_index());
    let chosen = choices(record.n(), count, &costs);
    chosen.of(count, record.n()).expect("count is at most n").starts().to_vec()
}

/// A record of a look, of any length.
pub fn of_look(rng: &mut Rng, peers: &mut Peers, look: Look) -> Outcome {
    let n = length(rng);
    let record = Record::new(rng, look, n);
    let most = fit(rng, n);
    solve_and_read(rng, peers, &record, most)
}

/// How many cases try the longest records: every look and every count of channels, at 399 and 400.
pub const LONGEST: usize = LOOKS.len() * MOST_CHANNELS * 2;

/// The first channel has each kernel in turn.
pub fn longest(rng: &mut Rng, index: usize, peers: &mut Peers) -> Outcome {
    let look = LOOKS[index % LOOKS.len()];
    let rest = index / LOOKS.len();
    let channels = mix_of(rng.below(1296), 1 + rest / 2);
    let mut record = Record::of_channels(rng, look, 399 + rest % 2, &channels);
    record.channels[0].kernel = KERNELS[index % KERNELS.len()];
    solve_and_read(rng, peers, &record, MOST)
}

/// The longest records of one to four channels of one kernel whose samples lie half at one limit and half at the other:
/// all before and all after the middle, and in turn.
pub const LARGEST: usize = MOST_CHANNELS * KERNELS.len() * 2 * 2;

/// The cost in one segment is the same for both: 200 * 200 pairs that differ, over 400 days, in each channel.
pub fn largest(rng: &mut Rng, index: usize, peers: &mut Peers) -> Outcome {
    let (count, kernel) = (1 + index % MOST_CHANNELS, KERNELS[index / MOST_CHANNELS % 3]);
    let in_turn = index / MOST_CHANNELS / 3 % 2 == 1;
    let mixed = vec![Channel { kernel, kind: (index % 2) as u8 }; count];
    let mut record = Record::of_channels(rng, Look::Equal, 400, &mixed);
    for own in &mut record.samples {
        let first = rng.pick(&[-LIMIT, LIMIT]);
        let is_first = |place: usize| if in_turn { place % 2 == 0 } else { place < 200 };
        *own = (0..400).map(|place| if is_first(place) { first } else { -first }).collect();
    }
    let left = solve(rng, peers, &record, MOST)?;
    let of_pair = [4 * LIMIT as u64 * LIMIT as u64, 2, 2 * LIMIT as u64][usize::from(kernel) - 1];
    let (cost, due) = (number(&left.slices[2][8 * 400..8 * 401]), 4096 * 100 * of_pair * count as u64);
    if cost == due {
        solve_and_read(rng, peers, &record, MOST)
    } else {
        Err(format!("in one segment {} channels of kernel {} cost {}, due is {}", count, kernel, cost, due))
    }
}

/// The channels of a number: each of so many has one of six kernels and kinds.
fn mix_of(number: usize, count: usize) -> Vec<Channel> {
    let own = |place: u32| number / 6usize.pow(place) % 6;
    (0..count as u32).map(|place| Channel { kernel: KERNELS[own(place) / 2], kind: own(place) as u8 % 2 }).collect()
}

/// Every mix of kernels and kinds in one to four channels.
pub const MIXES: usize = 6 + 36 + 216 + 1296;

pub fn mix(rng: &mut Rng, index: usize, peers: &mut Peers) -> Outcome {
    let (mut count, mut rest) = (1, index);
    while rest >= 6usize.pow(count) {
        rest -= 6usize.pow(count);
        count += 1;
    }
    let look = LOOKS[index % LOOKS.len()];
    let n = 2 + rng.below(8);
    let record = Record::of_channels(rng, look, n, &mix_of(rest, count as usize));
    let summaries = Request::summarize(record.lent(), 1, n as u64 - 1, rng.bytes(SUMMARIES_OUT));
    peers.call_for(0, &summaries)?;
    solve_and_read(rng, peers, &record, n)
}

/// The records of up to five samples from three values, each with every kernel.
const VALUES: [i64; 3] = [-1, 0, 2];
pub const SMALLEST: usize = 3 * (3 + 9 + 27 + 81 + 243);

pub fn smallest(rng: &mut Rng, index: usize, peers: &mut Peers) -> Outcome {
    let (mut n, mut rest) = (1, index / 3);
    while rest >= 3usize.pow(n) {
        rest -= 3usize.pow(n);
        n += 1;
    }
    let samples: Vec<i64> = (0..n).map(|place| VALUES[rest / 3usize.pow(place) % 3]).collect();
    let mut record = Record::of(&[(KERNELS[index % 3], &samples)]);
    record.channels[0].kind = (index % 2) as u8;
    solve_and_read(rng, peers, &record, n as usize)
}

/// Two channels whose jumps weigh alike: their kernels and the heights of the jumps, R of a pair being equal.
const ALIKE: [[(u8, i64); 2]; 9] = [
    [(1, 1), (1, -1)],
    [(3, 5), (3, -5)],
    [(2, 1), (2, 900)],
    [(2, 7), (3, 2)],
    [(1, 1), (3, 1)],
    [(1, -2), (3, 4)],
    [(1, 1000), (3, 1_000_000)],
    [(3, -2), (2, 1)],
    [(3, 9), (1, -3)],
];

/// Two channels that jump alike, the same way from either end, with a third and fourth that never change: in two
/// segments either jump may be cut, and the earlier is, whichever channel has it.
pub const TIES: usize = ALIKE.len() * 8;

pub fn tie(rng: &mut Rng, index: usize, peers: &mut Peers) -> Outcome {
    let from_ends = 1 + rng.below(6);
    let n = 2 * from_ends + 1 + rng.below(9);
    let places = if index / ALIKE.len() % 2 == 0 { [from_ends, n - from_ends] } else { [n - from_ends, from_ends] };
    let jumps = ALIKE[index % ALIKE.len()].iter().zip(places);
    let mut channels: Vec<(u8, Vec<i64>)> = jumps.map(|(&(kernel, high), at)| (kernel, jump(n, at, high))).collect();
    for _ in 0..index / ALIKE.len() / 2 % 3 {
        let level = rng.between(-LIMIT, LIMIT);
        channels.insert(rng.below(channels.len() + 1), (rng.pick(&KERNELS), vec![level; n]));
    }
    let lent: Vec<(u8, &[i64])> = channels.iter().map(|(kernel, samples)| (*kernel, &samples[..])).collect();
    let record = Record::of(&lent);
    let left = solve(rng, peers, &record, 3)?;
    let due = [0, from_ends as u16, (n - from_ends) as u16];
    for count in [2, 3] {
        let read = read(rng, peers, &record, count, &left.slices[3])?;
        if read != due[..count] {
            return Err(format!("cuts read {:?}, due {:?}\n  {:?}", read, due, record));
        }
    }
    Ok(())
}

/// Samples that are 0 up to the place, and of one height from there on.
fn jump(n: usize, at: usize, high: i64) -> Vec<i64> {
    (0..n).map(|index| if index < at { 0 } else { high }).collect()
}

/// One record of spellings whose codes come in every order, beside channels that stay: both tables stay the same.
pub fn spelling_orders(rng: &mut Rng, index: usize, peers: &mut Peers) -> Outcome {
    let spellings = 2 + index % 3;
    let n = 1 + rng.below(30);
    let mut record = Record::new(rng, Look::Small, n);
    let spelled = rng.below(record.channels.len());
    record.channels[spelled].kernel = SPELLING;
    let led: Vec<usize> = (0..n).map(|_| rng.below(spellings)).collect();
    let codes: Vec<i64> = (0..spellings as i64).map(|i| i * 300_001 + rng.between(0, 90_000) - LIMIT / 2).collect();
    let most = fit(rng, n);
    let (costs, starts) = (table(rng, most * (n + 1), 8), table(rng, most * (n + 1), 2));
    let mut first: Option<Vec<Vec<u8>>> = None;
    for order in orders(spellings) {
        record.samples[spelled] = led.iter().map(|&spelling| codes[order[spelling]]).collect();
        let request = Request::solve(record.lent(), most as u64, costs.clone(), starts.clone());
        let tables = peers.call_for(0, &request)?.slices[2..].to_vec();
        if *first.get_or_insert_with(|| tables.clone()) != tables {
            return Err(format!("the cuts moved with the codes {:?}: {:?}", codes, order));
        }
    }
    Ok(())
}

/// Every order of the numbers below `count`.
fn orders(count: usize) -> Vec<Vec<usize>> {
    if count == 0 {
        return vec![Vec::new()];
    }
    let shorter = orders(count - 1);
    let insert = |order: &Vec<usize>, place: usize| [&order[..place], &[count - 1], &order[place..]].concat();
    shorter.iter().flat_map(|order| (0..count).map(move |place| insert(order, place))).collect()
}
