//! Records to try: days and samples of many kinds, and their bodies.

use crate::rng::Rng;
use second::record::{Channel, MOST_CHANNELS};

/// The largest magnitude of a sample.
pub const LIMIT: i64 = 1_000_000;

/// The numbers of all kernels, and that of spellings.
pub const KERNELS: [u8; 3] = [1, 2, 3];
pub const SPELLING: u8 = 2;

/// A record whose samples are whole and in range.
#[derive(Clone, Debug)]
pub struct Record {
    pub days: Vec<u32>,
    pub channels: Vec<Channel>,
    /// The samples of each channel.
    pub samples: Vec<Vec<i64>>,
}

/// The bytes of a record as a call is lent them.
#[derive(Clone, Debug)]
pub struct Lent {
    pub body: Vec<u8>,
    pub channels: Vec<u8>,
}

/// What the samples of a record look like.
#[derive(Clone, Copy, Debug)]
pub enum Look {
    Tidy,
    Tied,
    Equal,
    Extreme,
    Uniform,
    Small,
    Ramp,
    Codes,
}

pub const LOOKS: [Look; 8] =
    [Look::Tidy, Look::Tied, Look::Equal, Look::Extreme, Look::Uniform, Look::Small, Look::Ramp, Look::Codes];

impl Record {
    /// A record of a look with channels of any kernel and kind, most often one.
    pub fn new(rng: &mut Rng, look: Look, n: usize) -> Record {
        let channels = channels(rng);
        Record::of_channels(rng, look, n, &channels)
    }

    /// A record with the channels, one of which has another look now and then.
    pub fn of_channels(rng: &mut Rng, look: Look, n: usize, channels: &[Channel]) -> Record {
        let mut drawn = |_: &Channel| {
            let look = if rng.chance(15) { rng.pick(&LOOKS) } else { look };
            samples(rng, look, n)
        };
        let samples = channels.iter().map(&mut drawn).collect();
        Record { days: days(rng, n), channels: channels.to_vec(), samples }
    }

    /// The record of channels of counts on consecutive days, each given by its kernel and its samples.
    pub fn of(channels: &[(u8, &[i64])]) -> Record {
        let samples: Vec<Vec<i64>> = channels.iter().map(|(_, samples)| samples.to_vec()).collect();
        Record {
            days: (1..=samples[0].len() as u32).collect(),
            channels: channels.iter().map(|&(kernel, _)| Channel { kernel, kind: 0 }).collect(),
            samples,
        }
    }

    pub fn n(&self) -> usize {
        self.days.len()
    }

    /// The samples of each observation, as the second program takes them.
    pub fn by_index(&self) -> Vec<Vec<i64>> {
        (0..self.n()).map(|index| self.samples.iter().map(|channel| channel[index]).collect()).collect()
    }

    /// The bytes of the record, with its samples as counts (kind 0) or as shares (kind 1).
    pub fn lent(&self) -> Lent {
        let bits_of =
            |(samples, channel): (&Vec<i64>, &Channel)| samples.iter().map(|&x| bits(x, channel.kind)).collect();
        let bits: Vec<Vec<u64>> = self.samples.iter().zip(&self.channels).map(bits_of).collect();
        Lent { body: body(&self.days, &bits), channels: list(&self.channels) }
    }

    /// The observations from one index up to, but not with, another.
    pub fn part(&self, from: usize, to: usize) -> Record {
        let samples = self.samples.iter().map(|channel| channel[from..to].to_vec()).collect();
        Record { days: self.days[from..to].to_vec(), channels: self.channels.clone(), samples }
    }

    /// The same days and channels with other samples.
    pub fn with(&self, samples: Vec<Vec<i64>>) -> Record {
        Record { samples, ..self.clone() }
    }
}

/// The 8 bytes of a whole x as a number: a count, or the share x / 65,536.
pub fn bits(x: i64, kind: u8) -> u64 {
    if kind == 1 {
        (x as f64 / 65_536.0).to_bits()
    } else {
        x as u64
    }
}

/// The body of the days and of the bits of each channel's samples.
pub fn body(days: &[u32], bits: &[Vec<u64>]) -> Vec<u8> {
    let mut body = Vec::new();
    for (index, day) in days.iter().enumerate() {
        body.extend(day.to_le_bytes());
        bits.iter().for_each(|channel| body.extend(channel[index].to_le_bytes()));
    }
    body
}

/// The bytes of a list of channels.
pub fn list(channels: &[Channel]) -> Vec<u8> {
    channels.iter().flat_map(|channel| [channel.kernel, channel.kind]).collect()
}

/// A channel of any kernel and kind.
pub fn channel(rng: &mut Rng) -> Channel {
    Channel { kernel: rng.pick(&KERNELS), kind: rng.below(2) as u8 }
}

/// One to four channels, most often one.
pub fn channels(rng: &mut Rng) -> Vec<Channel> {
    let count = rng.pick(&[1, 1, 1, 2, 2, 3, MOST_CHANNELS, MOST_CHANNELS]);
    (0..count).map(|_| channel(rng)).collect()
}

/// Strictly increasing days: in a row, with gaps, or spread to both ends of the range.
pub fn days(rng: &mut Rng, n: usize) -> Vec<u32> {
    let widest = match rng.below(4) {
        0 => 1,
        1 => 9,
        _ => (u32::MAX as usize / n.max(1)).max(1),
    };
    let mut gaps: Vec<u64> = (0..n).map(|_| 1 + rng.below(widest) as u64).collect();
    if let Some(first) = gaps.first_mut() {
        *first = 0;
    }
    let spare = u64::from(u32::MAX) - gaps.iter().sum::<u64>();
    let start = match rng.below(3) {
        0 => 0,
        1 => spare,
        _ => rng.below(spare as usize + 1) as u64,
    };
    gaps.iter()
        .scan(start, |day, gap| {
            *day += gap;
            Some(*day as u32)
        })
        .collect()
}

fn samples(rng: &mut Rng, look: Look, n: usize) -> Vec<i64> {
    match look {
        Look::Tidy => plateaus(rng, n),
        Look::Tied => few(rng, n, 2),
        Look::Equal => vec![rng.between(-LIMIT, LIMIT); n],
        Look::Extreme => (0..n).map(|_| rng.pick(&[-LIMIT, LIMIT, -LIMIT, LIMIT, 0, 1 - LIMIT, LIMIT - 1])).collect(),
        Look::Uniform => (0..n).map(|_| rng.between(-LIMIT, LIMIT)).collect(),
        Look::Small => (0..n).map(|_| rng.between(-3, 3)).collect(),
        Look::Ramp => ramp(rng, n),
        Look::Codes => few(rng, n, 5),
    }
}

fn plateaus(rng: &mut Rng, n: usize) -> Vec<i64> {
    let noise = rng.pick(&[0, 0, 1, 40]);
    let mut level = rng.between(-1000, 1000);
    (0..n)
        .map(|_| {
            if rng.chance(8) {
                level = rng.between(-1000, 1000);
            }
            level + rng.between(-noise, noise)
        })
        .collect()
}

/// Samples of few distinct values, anywhere in range.
fn few(rng: &mut Rng, n: usize, distinct: usize) -> Vec<i64> {
    let near = rng.chance(50);
    let values: Vec<i64> =
        (0..distinct).map(|_| if near { rng.between(-2, 2) } else { rng.between(-LIMIT, LIMIT) }).collect();
    (0..n).map(|_| rng.pick(&values)).collect()
}

fn ramp(rng: &mut Rng, n: usize) -> Vec<i64> {
    let steepest = (2 * LIMIT) / n.max(1) as i64;
    let step = rng.pick(&[1, 2, 7, steepest]);
    (0..n as i64).map(|index| (-LIMIT + step * index).min(LIMIT)).collect()
}

/// A length: mostly small, sometimes long, sometimes the longest.
pub fn length(rng: &mut Rng) -> usize {
    match rng.below(100) {
        0..=64 => 1 + rng.below(12),
        65..=89 => 13 + rng.below(40),
        90..=96 => 60 + rng.below(330),
        _ => rng.pick(&[399, 400]),
    }
}
