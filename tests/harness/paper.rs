//! The tables of the rules themselves, with the values printed there, and records of several channels with values
//! worked by hand.

use crate::peers::{Outcome, Peers};
use crate::program::Feeding;
use crate::records::{body, list, Lent, Record};
use crate::request::Request;
use crate::rng::Rng;
use second::calls::STARTS_OUT;
use second::cuttings::MOST;
use second::number::number;
use second::record::{Channel, MOST_CHANNELS};

/// A record case: the kernel and the samples of each channel, D, and cost and starts or the code of a refusal.
type RecordCase = (&'static [(u8, &'static [i64])], u64, Result<(u64, &'static [u64]), u64>);

const FAR: &[i64] = &[-1_000_000, 1_000_000];
const EARLY: &[i64] = &[0, 1, 1];
const LATE: &[i64] = &[0, 0, 1];

pub const RECORDS: [RecordCase; 27] = [
    (&[(1, &[5])], 1, Ok((0, &[0]))),
    (&[(2, &[5])], 1, Ok((0, &[0]))),
    (&[(3, &[5])], 1, Ok((0, &[0]))),
    (&[(1, &[0, 0, 10, 10])], 1, Ok((409_600, &[0]))),
    (&[(1, &[0, 0, 10, 10])], 2, Ok((0, &[0, 2]))),
    (&[(1, &[0, 0, 10, 10])], 3, Ok((0, &[0, 1, 2]))),
    (&[(1, &[0, 0, 1])], 1, Ok((2_730, &[0]))),
    (&[(1, &[3, -2])], 1, Ok((51_200, &[0]))),
    (&[(2, &[3, -2])], 1, Ok((4_096, &[0]))),
    (&[(3, &[3, -2])], 1, Ok((10_240, &[0]))),
    (&[(2, &[7, 7, 9])], 1, Ok((5_461, &[0]))),
    (&[(2, &[4, 4, 4])], 2, Ok((0, &[0, 1]))),
    (&[(1, &[0, 1, 3])], 2, Ok((2_048, &[0, 2]))),
    (&[(1, FAR)], 1, Ok((8_192_000_000_000_000, &[0]))),
    (&[(1, &[0, 1, 3])], 1, Ok((19_114, &[0]))),
    (&[(1, &[0, 1, 3])], 4, Err(5)),
    // R is 400 + 8, over 4 days.
    (&[(1, &[0, 0, 10, 10]), (2, &[1, 1, 2, 2])], 1, Ok((417_792, &[0]))),
    (&[(1, &[0, 0, 10, 10]), (2, &[1, 1, 2, 2])], 2, Ok((0, &[0, 2]))),
    // 51,200 + 4,096 + 10,240.
    (&[(1, &[3, -2]), (2, &[3, -2]), (3, &[3, -2])], 1, Ok((65_536, &[0]))),
    // R is 2 + 4, over 3 days: 2,730 and 5,461 rounded apart would be 8,191.
    (&[(1, &[0, 0, 1]), (2, &[7, 7, 9])], 1, Ok((8_192, &[0]))),
    (&[(1, FAR), (1, FAR), (1, FAR), (1, FAR)], 1, Ok((32_768_000_000_000_000, &[0]))),
    (&[(3, FAR), (2, FAR), (3, FAR), (2, FAR)], 1, Ok((8_192_008_192, &[0]))),
    // Either start leaves one jump of one channel: the earlier start, whichever channel jumps there.
    (&[(1, EARLY), (1, LATE)], 2, Ok((2_048, &[0, 1]))),
    (&[(1, LATE), (1, EARLY)], 2, Ok((2_048, &[0, 1]))),
    (&[(2, LATE), (3, &[0, 2, 2])], 2, Ok((4_096, &[0, 1]))),
    (&[(3, LATE), (1, EARLY)], 2, Ok((2_048, &[0, 1]))),
    (&[(2, &[8, 8, 8]), (1, LATE), (1, EARLY)], 3, Ok((0, &[0, 1, 2]))),
];

/// A record case, solved with Dmax = D and read for D.
pub fn record_case(rng: &mut Rng, index: usize, peers: &mut Peers) -> Outcome {
    let (channels, count, due) = RECORDS[index];
    let record = Record::of(channels);
    let entries = count as usize * (record.n() + 1);
    let request = Request::solve(record.lent(), count, rng.bytes(8 * entries), rng.bytes(2 * entries));
    let (cost, starts) = match due {
        Ok(cutting) => cutting,
        Err(code) => return peers.call_for(code, &request).map(|_| ()),
    };
    let left = peers.call_for(0, &request)?;
    let found = number(&left.slices[2][8 * (entries - 1)..]);
    let out = rng.bytes(STARTS_OUT);
    let first_kernel = u64::from(channels[0].0);
    let read = Request::read_cuts(left.slices[3].clone(), record.n() as u64, count, first_kernel, out);
    let left = peers.call_for(0, &read)?;
    let walked: Vec<u64> = left.slices[1].chunks(2).map(number).collect();
    let due = [starts, &[0; MOST][starts.len()..]].concat();
    if (found, &walked) == (cost, &due) {
        Ok(())
    } else {
        Err(format!("{:?}: cost {} and starts {:?}", RECORDS[index], found, walked))
    }
}

/// A line of the share table, and shares beside its lines: the share's bits, and its x or the code.
const SHARES: [(u64, Result<u64, u64>); 15] = [
    (0x3fe0_0000_0000_0000, Ok(32_768)),    // 0.5
    (0x402e_8480_0000_0000, Ok(1_000_000)), // 15.2587890625
    (0x4030_0000_0000_0000, Err(10)),       // 16.0
    (0x3fb9_9999_9999_999a, Err(11)),       // 0.1
    (0x7ff8_0000_0000_0000, Err(9)),        // NaN
    (0x7ff0_0000_0000_0000, Err(9)),        // infinity
    (0xfff0_0000_0000_0000, Err(9)),        // negative infinity
    (0x0000_0000_0000_0000, Ok(0)),         // 0.0
    (0x8000_0000_0000_0000, Ok(0)),         // -0.0
    (0xc02e_8480_0000_0000, Ok(1_000_000)), // -15.2587890625, whose x is -1,000,000
    (0x402e_8480_0000_0001, Err(10)),       // the next above 15.2587890625
    (0x402e_847f_ffff_ffff, Err(11)),       // the next below it
    (0x7fef_ffff_ffff_ffff, Err(10)),       // the largest finite share
    (0x0000_0000_0000_0001, Err(11)),       // the smallest share above 0
    (0xfff4_0000_0000_0001, Err(9)),        // a negative signalling NaN
];

/// Each share in the last of one to four channels.
pub const SHARES_IN_CHANNELS: usize = SHARES.len() * MOST_CHANNELS;

/// A share beside a 0: under kernel 1 the two cost 2,048 times x squared, which tells x. The channels before it hold
/// counts of 0, which cost nothing.
pub fn share_case(rng: &mut Rng, index: usize, peers: &mut Peers) -> Outcome {
    let (bits, due) = SHARES[index % SHARES.len()];
    let before = index / SHARES.len();
    let mut channels = vec![Channel { kernel: 1, kind: 0 }; before];
    channels.push(Channel { kernel: 1, kind: 1 });
    let mut samples = vec![vec![0, 0]; before];
    samples.push(vec![bits, 0]);
    let lent = Lent { body: body(&[3, 4], &samples), channels: list(&channels) };
    let request = Request::solve(lent, 1, rng.bytes(24), rng.bytes(6));
    let code = due.err().unwrap_or(0);
    let left = peers.call_for(code, &request)?;
    let cost = number(&left.slices[2][16..24]);
    match due {
        Ok(x) if cost != 2_048 * x * x => Err(format!("the share {:016x} costs {}", bits, cost)),
        _ => Ok(()),
    }
}

/// The entries of the examples, with what stands before them and the offsets: the rules' own in both forms, and one
/// with a channel of spellings beside its counts.
const IN_FORM_0: [u8; 14] = [1, 0, 5, 0, 1, 0, 2, 0, 3, 0, 14, 0, 0, 0];
const IN_FORM_1: [u8; 21] = [1, 1, 5, 0, 1, 1, 0, 0, 0, 0, 0, 0, 0, 2, 0, 3, 0, 21, 0, 0, 0];
const OF_TWO: [u8; 21] = [1, 1, 5, 0, 2, 1, 0, 2, 0, 0, 0, 0, 0, 2, 0, 3, 0, 21, 0, 0, 0];

/// The rules' example: its 50 bytes in form 0, and in form 1.
pub fn example(form: u64) -> Vec<u8> {
    let entry: &[u8] = if form == 0 { &IN_FORM_0 } else { &IN_FORM_1 };
    [entry, &body(&[10, 11, 14], &[vec![0, 0, 10]])].concat()
}

fn example_of_two() -> Vec<u8> {
    [&OF_TWO[..], &body(&[10, 11, 14], &[vec![0, 0, 10], vec![7, 7, 9]])].concat()
}

/// What `cuts` prints for the examples, to the byte. With the spellings R is 200 + 4, over 3 days.
const EXAMPLE_TEXT: &str = "term 5 code 0 place 0\n1 273066\n2 0 2:12\n";
const TEXT_OF_TWO: &str = "term 5 code 0 place 0\n1 278528\n2 0 2:12\n";

/// How many pieces the examples are fed in at most.
const PIECES: usize = 12;
pub const EXAMPLES: usize = 3 * PIECES;

pub fn example_case(_: &mut Rng, index: usize, peers: &mut Peers) -> Outcome {
    let (file, text) = match index / PIECES {
        0 => (example(0), EXAMPLE_TEXT),
        1 => (example(1), EXAMPLE_TEXT),
        _ => (example_of_two(), TEXT_OF_TWO),
    };
    let feeding = if index % PIECES == 0 { Feeding::AtOnce } else { Feeding::InPieces(index % PIECES) };
    let printed = peers.cuts(&file, feeding)?;
    if printed == text {
        Ok(())
    } else {
        Err(format!("an example prints {:?}", printed))
    }
}
