//! Solves and summaries that are damaged on purpose: each refusal alone, every two together, and two bad samples.

use crate::peers::{Outcome, Peers};
use crate::records::{bits, body, channel, channels, list, Lent, Look, Record, LIMIT};
use crate::request::Request;
use crate::rng::Rng;
use crate::solving::fit;
use second::calls::SUMMARIES_OUT;
use second::cuttings::MOST;
use second::record::{observation, Channel, MOST_CHANNELS};

/// A call on a record in the making.
struct Draft {
    days: Vec<u32>,
    /// The bits of each channel's samples.
    bits: Vec<Vec<u64>>,
    channels: Vec<Channel>,
    /// A list of channels lent in place of theirs.
    list: Option<Vec<u8>>,
    /// Bytes of a last observation that is cut short.
    cut_short: usize,
    most: u64,
    costs_short: usize,
    starts_short: usize,
    /// Which of the bad stretches is asked for, if one is.
    stretch: Option<usize>,
    out: usize,
    /// The first bad sample.
    spoiled: Option<(usize, usize)>,
}

/// Damage that is meant for a code; it returns the place that is due.
type Fault = (u64, fn(&mut Rng, &mut Draft) -> usize);

/// In the order in which both calls try them.
const OF_CHANNELS: [Fault; 2] = [
    (29, |rng, draft| {
        let channels = list(&draft.channels);
        let length = rng.pick(&[0, 1, channels.len() - 1, channels.len() + 1, 10, 16, 256 + 2, 256 + 8, 65_536 + 4]);
        draft.list = Some(channels.into_iter().cycle().take(length).collect());
        0
    }),
    (24, |rng, draft| {
        let place = rng.below(draft.channels.len());
        draft.channels[place].kind = rng.pick(&[2, 3, 128, 255]);
        0
    }),
];
const OF_BODY: [Fault; 3] = [
    (3, |rng, draft| {
        draft.cut_short = 1 + rng.below(observation(draft.channels.len()) - 1);
        0
    }),
    (1, |_, draft| draft.keep(0)),
    (2, |rng, draft| draft.grow(401 + rng.below(20))),
];
const OF_SEGMENTS: [Fault; 2] = [
    (4, |rng, draft| {
        draft.most = rng.pick(&[0, 13, 14, 255, 1 << 32, u64::MAX]);
        0
    }),
    (5, |rng, draft| {
        draft.keep(1 + rng.below(11));
        draft.most = 1 + draft.days.len() as u64;
        0
    }),
];
const OF_KERNELS: [Fault; 1] = [(6, |rng, draft| {
    let place = rng.below(draft.channels.len());
    draft.channels[place].kernel = rng.pick(&[0, 4, 128, 255]);
    0
})];
const OF_TABLES: [Fault; 2] = [
    (7, |rng, draft| {
        draft.costs_short = 1 + rng.below(9);
        0
    }),
    (7, |rng, draft| {
        draft.starts_short = 1 + rng.below(3);
        0
    }),
];
const OF_OBSERVATIONS: [Fault; 4] = [
    (8, |rng, draft| draft.turn_back(rng)),
    (9, |rng, draft| draft.spoil_somewhere(rng, 9)),
    (10, |rng, draft| draft.spoil_somewhere(rng, 10)),
    (11, |rng, draft| draft.spoil_somewhere(rng, 11)),
];
const OF_STRETCH: [Fault; 2] = [
    (14, |rng, draft| {
        draft.stretch = Some(rng.below(STRETCHES));
        0
    }),
    (7, |rng, draft| {
        draft.out = rng.pick(&[0, 1, 32, 96, 126, 127]);
        0
    }),
];

/// The faults of a solve and of a summary, in the order in which the calls try them.
fn of_solve() -> Vec<Fault> {
    [&OF_CHANNELS[..], &OF_BODY, &OF_SEGMENTS, &OF_KERNELS, &OF_TABLES, &OF_OBSERVATIONS].concat()
}

fn of_summary() -> Vec<Fault> {
    [&OF_CHANNELS[..], &OF_BODY, &OF_KERNELS, &OF_OBSERVATIONS, &OF_STRETCH].concat()
}

const SOLVE_FAULTS: usize = 14;
const SUMMARY_FAULTS: usize = 12;

/// How many bad stretches there are.
const STRETCHES: usize = 10;

/// A stretch of n observations that is empty or passes their end, also where a sum of 64 or 32 bits does not.
fn bad_stretch(which: usize, n: u64) -> (u64, u64) {
    let stretches = [
        (n / 2, 0),
        (n, 1),
        (0, n + 1),
        (n.saturating_sub(1), 2),
        (u64::MAX, 1),
        (1, u64::MAX),
        (1 << 63, 1 << 63),
        (1 << 32, 1),
        (0, 1 << 32 | 1),
        (u64::MAX, u64::MAX),
    ];
    stretches[which]
}

/// A bad sample of a share (9, 10, 11) or of a count (10).
fn bad_bits(rng: &mut Rng, code: u64, kind: u8) -> u64 {
    let wild = rng.next() | 1 << 51;
    let far = rng.between(LIMIT + 1, 1 << 40);
    let half = (rng.between(-LIMIT, LIMIT - 1) as f64 + 0.5) / 65_536.0;
    match code {
        9 => rng.pick(&[0x7ff0 << 48, 0xfff0 << 48, 0x7ff0 << 48 | wild, 1 | 0x7ff << 52]),
        10 => bits(rng.pick(&[LIMIT + 1, -LIMIT - 1, far, -far, i64::MIN, i64::MAX]), kind),
        _ => rng.pick(&[half.to_bits(), 1, 0x3fb9_9999_9999_999a, 1 << 63 | 1]),
    }
}

impl Draft {
    fn sound(rng: &mut Rng) -> Draft {
        let n = 2 + rng.below(18);
        let channels = channels(rng);
        Draft::of(rng, n, channels)
    }

    fn of(rng: &mut Rng, n: usize, channels: Vec<Channel>) -> Draft {
        let record = Record::of_channels(rng, Look::Uniform, n, &channels);
        let measured = record.samples.iter().zip(&channels);
        Draft {
            days: record.days,
            bits: measured.map(|(own, channel)| own.iter().map(|&x| bits(x, channel.kind)).collect()).collect(),
            channels,
            list: None,
            cut_short: 0,
            most: fit(rng, n) as u64,
            costs_short: 0,
            starts_short: 0,
            stretch: None,
            out: SUMMARIES_OUT + rng.pick(&[0, 0, 1, 72]),
            spoiled: None,
        }
    }

    fn keep(&mut self, n: usize) -> usize {
        self.days.truncate(n);
        self.bits.iter_mut().for_each(|channel| channel.truncate(n));
        self.most = self.most.min(n.max(1) as u64);
        0
    }

    fn grow(&mut self, n: usize) -> usize {
        self.days.extend(self.days.len() as u32..n as u32);
        self.bits.iter_mut().for_each(|channel| channel.resize(n, 0));
        0
    }

    /// Makes one day not above the day before it; returns its index.
    fn turn_back(&mut self, rng: &mut Rng) -> usize {
        let later = 1 + rng.below(self.days.len() - 1);
        let before = self.days[later - 1];
        self.days[later] = rng.pick(&[before, before.saturating_sub(1), 0]);
        later
    }

    /// Puts a bad sample before those that are bad already, or in the place of the first; returns its index.
    fn spoil_somewhere(&mut self, rng: &mut Rng, code: u64) -> usize {
        let count = self.channels.len();
        let before = self.spoiled.map_or(self.days.len() * count, |(index, channel)| index * count + channel);
        let place = rng.below(before.max(1));
        self.spoil(rng, code, (place / count, place % count))
    }

    /// Puts a bad sample into a place, an index and a channel. Counts become shares where only a share is refused so.
    fn spoil(&mut self, rng: &mut Rng, code: u64, (index, channel): (usize, usize)) -> usize {
        let kind = &mut self.channels[channel].kind;
        if code != 10 && *kind == 0 {
            *kind = 1;
            self.bits[channel].iter_mut().for_each(|held| *held = bits(*held as i64, 1));
        }
        self.bits[channel][index] = bad_bits(rng, code, *kind);
        self.spoiled = Some((index, channel));
        index
    }

    fn lent(&self, rng: &mut Rng) -> Lent {
        let cut_short = rng.bytes(self.cut_short);
        let body = [body(&self.days, &self.bits), cut_short].concat();
        Lent { body, channels: self.list.clone().unwrap_or_else(|| list(&self.channels)) }
    }

    fn solve(&self, rng: &mut Rng) -> Request {
        let entries = self.most.min(MOST as u64) as usize * (self.days.len() + 1);
        let costs = rng.bytes((8 * entries).saturating_sub(self.costs_short));
        let starts = rng.bytes((2 * entries).saturating_sub(self.starts_short));
        Request::solve(self.lent(rng), self.most, costs, starts)
    }

    fn summary(&self, rng: &mut Rng) -> Request {
        let n = self.days.len();
        let first = rng.below(n.max(1));
        let sound = (first as u64, 1 + rng.below((n - first).max(1)) as u64);
        let (first, length) = self.stretch.map_or(sound, |which| bad_stretch(which, n as u64));
        Request::summarize(self.lent(rng), first, length, rng.bytes(self.out))
    }
}

/// One of the two calls that a draft is made into.
type Made = fn(&Draft, &mut Rng) -> Request;

/// How many cases try each refusal alone.
pub const SOLVES_ALONE: usize = SOLVE_FAULTS * 25;
pub const SUMMARIES_ALONE: usize = SUMMARY_FAULTS * 25;

pub fn solve_alone(rng: &mut Rng, index: usize, peers: &mut Peers) -> Outcome {
    alone(rng, peers, of_solve()[index % SOLVE_FAULTS], Draft::solve)
}

pub fn summary_alone(rng: &mut Rng, index: usize, peers: &mut Peers) -> Outcome {
    alone(rng, peers, of_summary()[index % SUMMARY_FAULTS], Draft::summary)
}

fn alone(rng: &mut Rng, peers: &mut Peers, (code, fault): Fault, made: Made) -> Outcome {
    let mut draft = Draft::sound(rng);
    let place = fault(rng, &mut draft);
    peers.call_at(code, place, 0, &made(&draft, rng))
}

/// How many cases try every two refusals together.
pub const SOLVES_TOGETHER: usize = SOLVE_FAULTS * SOLVE_FAULTS * 2;
pub const SUMMARIES_TOGETHER: usize = SUMMARY_FAULTS * SUMMARY_FAULTS * 2;

pub fn solve_together(rng: &mut Rng, index: usize, peers: &mut Peers) -> Outcome {
    together(rng, index, peers, &of_solve(), Draft::solve)
}

pub fn summary_together(rng: &mut Rng, index: usize, peers: &mut Peers) -> Outcome {
    together(rng, index, peers, &of_summary(), Draft::summary)
}

/// The fault that is tried later is there first, and is told; with the other the other is.
fn together(rng: &mut Rng, index: usize, peers: &mut Peers, faults: &[Fault], made: Made) -> Outcome {
    let (one, other) = (index % faults.len(), index / faults.len() % faults.len());
    if one == other {
        return alone(rng, peers, faults[one], made);
    }
    let mut draft = Draft::sound(rng);
    for which in [one.max(other), one.min(other)] {
        let (code, fault) = faults[which];
        let place = fault(rng, &mut draft);
        peers.call_at(code, place, 0, &made(&draft, rng))?;
    }
    Ok(())
}

/// Two bad samples in one observation or in two, the second in a channel after or before that of the first: the one
/// of the lower index is told, and in one observation that of the earlier channel.
pub const BAD_SAMPLES: usize = 9 * 3 * 2 * 4;

pub fn bad_samples(rng: &mut Rng, index: usize, peers: &mut Peers) -> Outcome {
    let (code, later_code) = (9 + index as u64 % 3, 9 + index as u64 / 3 % 3);
    let n = 3 + rng.below(10);
    let channels: Vec<Channel> = (0..2 + rng.below(MOST_CHANNELS - 1)).map(|_| channel(rng)).collect();
    let early = rng.below(channels.len() - 1);
    let late = early + 1 + rng.below(channels.len() - 1 - early);
    let first = rng.below(n - 1);
    let second = first + 1 + rng.below(n - 1 - first);
    let (told, other) = match index / 9 % 3 {
        0 => ((first, early), (first, late)),
        1 => ((first, late), (second, early)),
        _ => ((first, early), (second, late)),
    };
    let mut draft = Draft::of(rng, n, channels);
    draft.spoil(rng, later_code, other);
    draft.spoil(rng, code, told);
    let made: Made = if index / 27 % 2 == 0 { Draft::solve } else { Draft::summary };
    peers.call_at(code, first, 0, &made(&draft, rng))
}
