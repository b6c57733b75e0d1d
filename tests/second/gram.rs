//! Segment costs from the kernel's definition: A and B from sums over the Gram matrix.

use crate::record::Channel;

/// k(x, y) for kernel 1 (linear), 2 (spelling) and 3 (energy).
fn kernel(which: u8, x: i64, y: i64) -> i128 {
    let (x, y) = (i128::from(x), i128::from(y));
    match which {
        1 => x * y,
        2 => i128::from(x == y),
        3 => (x.abs() + y.abs() - (x - y).abs()) / 2,
        _ => unreachable!("kernels are 1, 2 and 3"),
    }
}

/// The kernel of two observations: the sum over the channels of their kernels.
fn kernel_of_days(channels: &[Channel], one: &[i64], other: &[i64]) -> i128 {
    let pairs = one.iter().zip(other);
    channels.iter().zip(pairs).map(|(channel, (&x, &y))| kernel(channel.kernel, x, y)).sum()
}

/// The cost in units of every segment of a record.
pub struct SegmentCosts {
    width: usize,
    units: Vec<u128>,
}

impl SegmentCosts {
    /// The costs for the samples of each observation, one a channel.
    pub fn new(channels: &[Channel], samples: &[Vec<i64>]) -> SegmentCosts {
        let gram = Gram::new(channels, samples);
        let width = samples.len() + 1;
        let mut units = vec![0; width * width];
        for start in 0..width {
            for end in start + 1..width {
                units[start * width + end] = gram.units(start, end);
            }
        }
        SegmentCosts { width, units }
    }

    /// The cost of the segment from index `start` up to, but not with, `end`.
    pub fn of(&self, start: usize, end: usize) -> u128 {
        assert!(start < end && end < self.width);
        self.units[start * self.width + end]
    }
}

/// Sums of the Gram matrix: `corner` over the first rows and columns, `diagonal` over k(x, x).
struct Gram {
    width: usize,
    corner: Vec<i128>,
    diagonal: Vec<i128>,
}

impl Gram {
    fn new(channels: &[Channel], samples: &[Vec<i64>]) -> Gram {
        let width = samples.len() + 1;
        let mut corner = vec![0; width * width];
        let mut diagonal = vec![0; width];
        for (i, one) in samples.iter().enumerate() {
            diagonal[i + 1] = diagonal[i] + kernel_of_days(channels, one, one);
            let mut row = 0;
            for (j, other) in samples.iter().enumerate() {
                row += kernel_of_days(channels, one, other);
                corner[(i + 1) * width + j + 1] = corner[i * width + j + 1] + row;
            }
        }
        Gram { width, corner, diagonal }
    }

    /// 4,096 times R over m rounded down, where R = mA - B.
    fn units(&self, start: usize, end: usize) -> u128 {
        let m = (end - start) as i128;
        let a = self.diagonal[end] - self.diagonal[start];
        let at = |row: usize, column: usize| self.corner[row * self.width + column];
        let b = at(end, end) - at(start, end) - at(end, start) + at(start, start);
        let r = m * a - b;
        assert!(r >= 0, "R is never negative");
        (4096 * r / m) as u128
    }
}
