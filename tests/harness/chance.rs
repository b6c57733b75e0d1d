//! Calls and files drawn so that every reply comes about by chance.

use crate::files::{form, of_lengths, put, sound, Records};
use crate::peers::{Outcome, Peers};
use crate::records::{Lent, Record, LOOKS};
use crate::request::Request;
use crate::rng::Rng;
use second::calls::{STARTS_OUT, SUMMARIES_OUT};
use second::cuttings::MOST;
use second::record::observation;

/// Flips bits, overwrites, cuts and extends, a few times in all.
fn damage(rng: &mut Rng, bytes: &mut Vec<u8>, often: usize) {
    for _ in 0..rng.below(often + 1) {
        let length = bytes.len();
        match rng.below(6) {
            0 => bytes.truncate(length - rng.below(length.min(30) + 1)),
            1 => bytes.extend(vec![rng.next() as u8; 1 + rng.below(14)]),
            _ if length == 0 => {}
            2 => bytes[rng.below(length)] = rng.pick(&[0, 1, 2, 255]),
            3 => bytes[rng.below(length)] = rng.next() as u8,
            4 => bytes.swap(rng.below(length), rng.below(length)),
            _ => bytes[rng.below(length)] ^= 1 << rng.below(8),
        }
    }
}

/// A small number mostly, and now and then any.
fn small(rng: &mut Rng, most: usize) -> u64 {
    match rng.below(20) {
        0 => rng.next(),
        1 => rng.below(most + 4) as u64 | 1 << (8 + rng.below(50)),
        _ => rng.below(most + 1) as u64,
    }
}

fn length(rng: &mut Rng) -> usize {
    match rng.below(12) {
        0 => 396 + rng.below(10),
        1 => 0,
        _ => 1 + rng.below(14),
    }
}

/// A length round the one needed.
fn round(rng: &mut Rng, needed: usize) -> usize {
    (needed + rng.below(24)).saturating_sub(rng.pick(&[0, 0, 0, 3, 8]))
}

/// A record of n observations with damage here and there.
fn damaged_record(rng: &mut Rng, n: usize) -> Lent {
    let look = rng.pick(&LOOKS);
    let record = Record::new(rng, look, n);
    let mut lent = record.lent();
    if n > 0 && rng.chance(30) {
        let mostly_ones = rng.next() | rng.next() | rng.next() | rng.next();
        let channel = rng.below(record.channels.len());
        let at = observation(record.channels.len()) * rng.below(n) + observation(channel);
        put(&mut lent.body, (at, 8), mostly_ones);
    }
    damage(rng, &mut lent.body, 2);
    if rng.chance(25) {
        damage(rng, &mut lent.channels, 1);
    }
    lent
}

pub fn solve(rng: &mut Rng, _: usize, peers: &mut Peers) -> Outcome {
    let n = length(rng);
    let lent = damaged_record(rng, n);
    let most = small(rng, (n + 1).min(MOST + 1));
    let entries = most.min(MOST as u64) as usize * (n + 1);
    let (costs, starts) = (round(rng, 8 * entries), round(rng, 2 * entries));
    peers.call(&Request::solve(lent, most, rng.bytes(costs), rng.bytes(starts))).map(|_| ())
}

pub fn summarize(rng: &mut Rng, _: usize, peers: &mut Peers) -> Outcome {
    let n = length(rng);
    let lent = damaged_record(rng, n);
    let first = small(rng, n);
    let stretch = small(rng, n.saturating_sub(first as usize % 500) + 1);
    let out = SUMMARIES_OUT + rng.below(24) - rng.pick(&[0, 0, 1, 24, SUMMARIES_OUT]);
    peers.call(&Request::summarize(lent, first, stretch, rng.bytes(out))).map(|_| ())
}

pub fn read_cuts(rng: &mut Rng, _: usize, peers: &mut Peers) -> Outcome {
    let n = length(rng);
    let count = small(rng, (n + 1).min(MOST + 1));
    let kernel = if rng.chance(85) { 1 + rng.below(3) as u64 } else { small(rng, 4) };
    let columns = n + 1;
    let entries = count.min(MOST as u64) as usize * columns;
    let near = |entry: usize| entry % columns / 2 + entry / columns / 2;
    let mut starts: Vec<u8> = (0..entries).flat_map(|entry| (near(entry) as u16).to_le_bytes()).collect();
    if let Some(first) = starts.get_mut(..2 * columns) {
        first.fill(0);
    }
    damage(rng, &mut starts, 1);
    let n = if rng.chance(5) { rng.next() } else { n as u64 };
    let out = round(rng, STARTS_OUT);
    peers.call(&Request::read_cuts(starts, n, count, kernel, rng.bytes(out))).map(|_| ())
}

/// A file of a few records, damaged mostly in its count, form and contents.
pub fn damaged_file(rng: &mut Rng) -> Vec<u8> {
    let count = if rng.chance(10) { 60 + rng.below(8) } else { 1 + rng.below(5) };
    let records = sound_and_short(rng, count);
    let mut file = records.file();
    let mut head: Vec<u8> = file.drain(..records.contents().min(file.len())).collect();
    match rng.below(4) {
        0 => damage(rng, &mut file, 3),
        1 => damage(rng, &mut head, 2),
        2 => damage(rng, &mut head, 1),
        _ => {
            head.truncate(rng.below(head.len() + 1));
            file.truncate(if rng.chance(50) { 0 } else { file.len() });
        }
    }
    if rng.chance(4) {
        file.resize(65_530 + rng.below(40), 7);
    }
    [head, file].concat()
}

fn sound_and_short(rng: &mut Rng, count: usize) -> Records {
    let form = form(rng);
    if count < 6 {
        return sound(rng, form, count);
    }
    let lengths: Vec<usize> = (0..count).map(|_| 1 + rng.below(6)).collect();
    of_lengths(rng, form, &lengths)
}

pub fn read_file(rng: &mut Rng, _: usize, peers: &mut Peers) -> Outcome {
    let file = if rng.chance(15) {
        let length = rng.below(200);
        rng.bytes(length)
    } else {
        damaged_file(rng)
    };
    peers.call(&Request::read_file(file)).map(|_| ())
}

pub fn write_file(rng: &mut Rng, _: usize, peers: &mut Peers) -> Outcome {
    let count = if rng.chance(10) { 60 + rng.below(8) } else { 1 + rng.below(5) };
    let mut records = sound_and_short(rng, count);
    if rng.chance(5) {
        let last = &mut records.entries[count - 1];
        let n = 5_400 + rng.below(300);
        last.fill(rng, n);
    }
    let fitting = records.contents() + records.bodies().len();
    let (mut lent, mut run) = (records.lent(), records.bodies());
    damage(rng, &mut lent, 1);
    if rng.chance(20) {
        damage(rng, &mut run, 1);
    }
    let form = if rng.chance(10) { small(rng, 3) } else { records.form };
    let out = round(rng, fitting);
    peers.call(&Request::write_file(form, lent, run, rng.bytes(out))).map(|_| ())
}
