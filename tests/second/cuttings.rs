//! The chosen cutting of every first t observations into every count of segments.

use crate::gram::SegmentCosts;
use std::cmp::Ordering;

/// The largest count of segments.
pub const MOST: usize = 12;

/// Records up to this length are also cut in every possible way.
const SMALL: usize = 12;

/// A cutting: its cost and the first index of each segment, in order.
#[derive(Clone, Copy, Debug, PartialEq, Eq)]
pub struct Cutting {
    pub cost: u128,
    count: usize,
    starts: [u16; MOST],
}

impl Cutting {
    fn whole(cost: u128) -> Cutting {
        Cutting { cost, count: 1, starts: [0; MOST] }
    }

    /// This cutting with one more segment after it.
    fn followed(mut self, start: usize, cost: u128) -> Cutting {
        self.starts[self.count] = start as u16;
        self.count += 1;
        self.cost += cost;
        self
    }

    pub fn starts(&self) -> &[u16] {
        &self.starts[..self.count]
    }

    pub fn last(&self) -> u16 {
        self.starts[self.count - 1]
    }

    /// Less cost first; then the last segment earliest, then the one before it, and so on.
    fn order(&self, other: &Cutting) -> Ordering {
        let backwards = self.starts().iter().rev();
        self.cost.cmp(&other.cost).then_with(|| backwards.cmp(other.starts().iter().rev()))
    }
}

/// The chosen cuttings: row `count` - 1, column t. None where t is less than the count.
#[derive(PartialEq, Eq)]
pub struct Choices {
    rows: Vec<Vec<Option<Cutting>>>,
}

impl Choices {
    fn none(n: usize, most: usize) -> Choices {
        Choices { rows: vec![vec![None; n + 1]; most] }
    }

    pub fn of(&self, count: usize, t: usize) -> Option<&Cutting> {
        self.rows[count - 1][t].as_ref()
    }

    fn offer(&mut self, t: usize, offered: Cutting) {
        let held = &mut self.rows[offered.count - 1][t];
        let better = match held {
            Some(cutting) if offered.cost > cutting.cost => false,
            Some(cutting) => offered.order(cutting) == Ordering::Less,
            None => true,
        };
        if better {
            *held = Some(offered);
        }
    }
}

/// The chosen cuttings of n observations; for a small n both methods must agree.
pub fn choices(n: usize, most: usize, costs: &SegmentCosts) -> Choices {
    let grown = by_growing(n, most, costs);
    if n <= SMALL {
        assert!(grown == by_trying_all(n, most, costs), "the second program's two methods differ");
    }
    grown
}

/// Tries every cutting of every first t observations: each set of inner starts is one.
fn by_trying_all(n: usize, most: usize, costs: &SegmentCosts) -> Choices {
    let mut chosen = Choices::none(n, most);
    for t in 1..=n {
        for inner in 0u32..1 << (t - 1) {
            if (inner.count_ones() as usize) < most {
                chosen.offer(t, cutting_at(inner, t, costs));
            }
        }
    }
    chosen
}

/// The cutting whose segments after the first start at i + 1 for each bit i of `inner`.
fn cutting_at(inner: u32, t: usize, costs: &SegmentCosts) -> Cutting {
    let mut starts: Vec<usize> = vec![0];
    starts.extend((1..t).filter(|start| inner >> (start - 1) & 1 == 1));
    let ends = starts[1..].iter().copied().chain([t]);
    let mut pieces = starts.iter().zip(ends).map(|(&start, end)| (start, costs.of(start, end)));
    let (_, first) = pieces.next().expect("a cutting has a segment");
    pieces.fold(Cutting::whole(first), |cutting, (start, cost)| cutting.followed(start, cost))
}

/// Grows forward: each chosen cutting of the first s observations offers one more segment to every end.
fn by_growing(n: usize, most: usize, costs: &SegmentCosts) -> Choices {
    let mut chosen = Choices::none(n, most);
    for t in 1..=n {
        chosen.offer(t, Cutting::whole(costs.of(0, t)));
    }
    for start in 1..n {
        for count in 1..most.min(start + 1) {
            if let Some(&cutting) = chosen.of(count, start) {
                for end in start + 1..=n {
                    chosen.offer(end, cutting.followed(start, costs.of(start, end)));
                }
            }
        }
    }
    chosen
}
