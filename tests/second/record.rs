//! A record from a body's bytes, judged in the order of the rules.

use crate::{cuttings, exact, number::number, refuse_if, Refusal};

/// The most observations of a record, and the most channels.
pub const LONGEST: u64 = 400;
pub const MOST_CHANNELS: usize = 4;

/// The width of a channel in a list: kernel and sample kind.
pub const CHANNEL: usize = 2;

/// What the two bytes of a channel hold, of any kernel and kind.
#[derive(Clone, Copy, Debug, PartialEq, Eq)]
pub struct Channel {
    pub kernel: u8,
    pub kind: u8,
}

/// The width of an observation: the day, and a sample for each channel.
pub const fn observation(channels: usize) -> usize {
    4 + 8 * channels
}

/// An accepted record.
#[derive(Debug)]
pub struct Record {
    pub days: Vec<u64>,
    /// For each observation its samples, one a channel.
    pub samples: Vec<Vec<i64>>,
}

/// The channels of a list, or 29.
pub fn channels_of(list: &[u8]) -> Result<Vec<Channel>, Refusal> {
    let count = list.len() / CHANNEL;
    refuse_if(list.len() % CHANNEL != 0 || count == 0 || count > MOST_CHANNELS, 29)?;
    Ok(list.chunks(CHANNEL).map(|two| Channel { kernel: two[0], kind: two[1] }).collect())
}

/// Tries the count of observations: 1, 2.
pub fn judge_length(n: u64) -> Result<(), Refusal> {
    refuse_if(n == 0, 1)?;
    refuse_if(n > LONGEST, 2)
}

/// Tries n and a count of segments: 1, 2, 4, 5.
pub fn judge_counts(n: u64, segments: u64) -> Result<(), Refusal> {
    judge_length(n)?;
    refuse_if(segments == 0 || segments > cuttings::MOST as u64, 4)?;
    refuse_if(segments > n, 5)
}

/// Tries a kernel: 6.
pub fn judge_kernel(kernel: u64) -> Result<(), Refusal> {
    refuse_if(!(1..=3).contains(&kernel), 6)
}

/// Tries the kernels of all channels: 6.
pub fn judge_kernels(channels: &[Channel]) -> Result<(), Refusal> {
    channels.iter().try_for_each(|channel| judge_kernel(u64::from(channel.kernel)))
}

/// Judges a body. What the call asks of the count of observations is tried after 24 and 3, before the days.
pub fn judge(
    body: &[u8],
    channels: &[Channel],
    numbers: impl FnOnce(u64) -> Result<(), Refusal>,
) -> Result<Record, Refusal> {
    refuse_if(channels.iter().any(|channel| channel.kind > 1), 24)?;
    let width = observation(channels.len());
    refuse_if(body.len() % width != 0, 3)?;
    let observations: Vec<&[u8]> = body.chunks(width).collect();
    numbers(observations.len() as u64)?;
    let days: Vec<u64> = observations.iter().map(|one| number(&one[..4])).collect();
    judge_days(&days)?;
    let judged = observations.iter().enumerate().map(|(index, one)| judge_samples(index, &one[4..], channels));
    Ok(Record { days, samples: judged.collect::<Result<_, _>>()? })
}

fn judge_days(days: &[u64]) -> Result<(), Refusal> {
    match days.windows(2).position(|pair| pair[1] <= pair[0]) {
        Some(earlier) => Err(Refusal::at(8, earlier + 1)),
        None => Ok(()),
    }
}

/// The samples of one observation, channel by channel.
fn judge_samples(index: usize, bytes: &[u8], channels: &[Channel]) -> Result<Vec<i64>, Refusal> {
    let lent = bytes.chunks(8).map(number).zip(channels);
    lent.map(|(bits, channel)| exact::sample(channel.kind, bits).map_err(|code| Refusal::at(code, index))).collect()
}
