//! Shares of every kind: at the edges of range and wholeness, and drawn over all bits.

use crate::peers::{Outcome, Peers};
use crate::records::{body, days, list, Lent, KERNELS};
use crate::request::Request;
use crate::rng::Rng;
use second::record::{Channel, MOST_CHANNELS};

/// Shares at an edge, by their bits without the sign.
const EDGES: [u64; 24] = [
    0,
    1,
    0x000f_ffff_ffff_ffff, // the largest subnormal share
    0x0010_0000_0000_0000, // the smallest normal share
    0x3ee0_0000_0000_0000, // 2^-17: x is a half
    0x3ef0_0000_0000_0000, // 2^-16: x is 1
    0x3eef_ffff_ffff_ffff,
    0x3ef0_0000_0000_0001,
    0x402e_847f_ffff_ffff,
    0x402e_8480_0000_0000, // x is 1,000,000
    0x402e_8480_0000_0001,
    0x402e_8478_0000_0000, // x is 999,999
    0x402e_847c_0000_0000, // x is 999,999 and a half
    0x402e_8484_0000_0000, // x is 1,000,000 and a half
    0x402e_8488_0000_0000, // x is 1,000,001
    0x4030_0000_0000_0000,
    0x43e0_0000_0000_0000, // x is 2^79
    0x7ee0_0000_0000_0000, // x is 2^1023
    0x7eef_ffff_ffff_ffff, // x is the largest finite number
    0x7ef0_0000_0000_0000, // x is 2^1024, infinite in 64 bits
    0x7fef_ffff_ffff_ffff, // the largest finite share
    0x7ff0_0000_0000_0000, // infinity
    0x7ff0_0000_0000_0001, // a signalling NaN
    0x7fff_ffff_ffff_ffff, // a quiet NaN, all bits set
];

/// Every edge with both signs, alone and in every place of three, as the sample of each of four channels in turn.
pub const AT_EDGES: usize = EDGES.len() * 2 * 4;

pub fn at_edges(rng: &mut Rng, index: usize, peers: &mut Peers) -> Outcome {
    let share = EDGES[index / 8] | (index as u64 % 2) << 63;
    let place = index / 2 % 4;
    let mut shares = vec![share];
    if place < 3 {
        shares = vec![0x3fe0_0000_0000_0000, 0xbff0_0000_0000_0000, 0x4000_0000_0000_0000];
        shares[place] = share;
    }
    for before in 0..MOST_CHANNELS {
        let mut channels: Vec<Vec<u64>> = vec![vec![1.0f64.to_bits(); shares.len()]; before];
        channels.push(shares.clone());
        solve_shares(rng, peers, &channels)?;
    }
    Ok(())
}

/// Shares drawn so that whole, fractional and far ones are all common.
pub fn drawn(rng: &mut Rng, _: usize, peers: &mut Peers) -> Outcome {
    let n = 1 + rng.below(6);
    let count = rng.pick(&[1, 1, 1, 2, 3, MOST_CHANNELS]);
    let channels: Vec<Vec<u64>> = (0..count).map(|_| (0..n).map(|_| draw(rng)).collect()).collect();
    solve_shares(rng, peers, &channels)
}

fn draw(rng: &mut Rng) -> u64 {
    if rng.chance(6) {
        return rng.next();
    }
    let sign = rng.next() << 63;
    let exponent = (1023 + rng.between(-17, 4)) as u64;
    let kept = if rng.chance(70) { rng.below(21) } else { rng.below(53) };
    let fraction = rng.next() & ((1 << 52) - 1) & !((1u64 << 52 >> kept) - 1);
    sign | exponent << 52 | fraction
}

/// Solves a record whose channels all hold shares.
fn solve_shares(rng: &mut Rng, peers: &mut Peers, shares: &[Vec<u64>]) -> Outcome {
    let n = shares[0].len();
    let most = n.min(2);
    let entries = most * (n + 1);
    let channels: Vec<Channel> = shares.iter().map(|_| Channel { kernel: rng.pick(&KERNELS), kind: 1 }).collect();
    let lent = Lent { body: body(&days(rng, n), shares), channels: list(&channels) };
    peers.call(&Request::solve(lent, most as u64, rng.bytes(8 * entries), rng.bytes(2 * entries))).map(|_| ())
}
