//! Files given to the programs that print cuts: sound, damaged and as large as can be.

use crate::chance::damaged_file;
use crate::files::{form, longest, of_lengths, sound, Entry, Field, Records, SEVERAL, SINGLE};
use crate::paper::example;
use crate::peers::{Outcome, Peers};
use crate::program::Feeding;
use crate::reading::of_size;
use crate::rng::Rng;
use second::cuttings::MOST;
use second::file::MOST_RECORDS;

fn feeding(rng: &mut Rng, length: usize) -> Feeding {
    match rng.below(3) {
        0 => Feeding::InPieces(1 + rng.below(length.max(1)) / 3 + length / 50),
        _ => Feeding::AtOnce,
    }
}

fn print(rng: &mut Rng, peers: &mut Peers, file: &[u8]) -> Outcome {
    let feeding = feeding(rng, file.len());
    peers.cuts(file, feeding).map(|_| ())
}

pub fn sound_file(rng: &mut Rng, index: usize, peers: &mut Peers) -> Outcome {
    let count = 1 + rng.below(6);
    let file = sound(rng, index as u64 % 2, count).file();
    print(rng, peers, &file)
}

/// A refused record does not stop the others.
pub fn refused_records(rng: &mut Rng, index: usize, peers: &mut Peers) -> Outcome {
    let count = 2 + rng.below(5);
    let mut records = sound(rng, index as u64 % 2, count);
    for _ in 0..1 + rng.below(3) {
        let place = rng.below(count);
        records.entries[place].spoil_record(rng);
    }
    print(rng, peers, &records.file())
}

/// A record that is too long to solve, beside one that is not.
const TOO_LONG: [usize; 4] = [401, 402, 512, 1800];
pub const LONG: usize = TOO_LONG.len() * 2 * 2;

pub fn long_record(rng: &mut Rng, index: usize, peers: &mut Peers) -> Outcome {
    let file = of_lengths(rng, index as u64 % 2, &[3, TOO_LONG[index / 4]]).file();
    print(rng, peers, &file)
}

/// As many records as a file may have, of few observations or of as many as there is room for.
pub const MANY: usize = 12;

pub fn many_records(rng: &mut Rng, index: usize, peers: &mut Peers) -> Outcome {
    let form = index as u64 % 2;
    let room = if form == SINGLE { 84 } else { 27 };
    let longest = [1, 12, room][index / 2 % 3];
    let lengths: Vec<usize> =
        (0..MOST_RECORDS).map(|_| if longest == room { room } else { 1 + rng.below(longest) }).collect();
    let mut records = of_lengths(rng, form, &lengths);
    records.entries.iter_mut().zip(&lengths).for_each(|(entry, &n)| entry.most = n.min(MOST) as u16);
    print(rng, peers, &records.file())
}

/// The longest file of either form.
pub const LARGEST: usize = 4;

pub fn largest(rng: &mut Rng, index: usize, peers: &mut Peers) -> Outcome {
    let file = longest(rng, index as u64 % 2).file();
    print(rng, peers, &file)
}

/// Sizes round both ends of what a file may have.
const SIZES: [usize; 12] = [0, 1, 2, 3, 13, 14, 65_535, 65_536, 65_537, 65_600, 200_000, 2_000_000];
pub const SIZED: usize = SIZES.len();

pub fn sized(rng: &mut Rng, index: usize, peers: &mut Peers) -> Outcome {
    let form = form(rng);
    let mut file = of_size(rng, form, 65_534, 2);
    file.resize(SIZES[index], 0);
    print(rng, peers, &file)
}

/// The rules' example in both forms, cut short at every length.
pub const CUT: usize = 50 + 57;

pub fn cut_short(rng: &mut Rng, index: usize, peers: &mut Peers) -> Outcome {
    if index < 50 {
        print(rng, peers, &example(SINGLE)[..index])
    } else {
        print(rng, peers, &example(SEVERAL)[..index - 50])
    }
}

/// The rules' example in both forms, with one of every two bits flipped.
pub const FLIPPED: usize = (50 + 57) * 4;

pub fn flipped(rng: &mut Rng, index: usize, peers: &mut Peers) -> Outcome {
    let mut bit = 2 * index + rng.below(2);
    let mut file = example(SINGLE);
    if bit >= 8 * file.len() {
        bit -= 8 * file.len();
        file = example(SEVERAL);
    }
    file[bit / 8] ^= 1 << (bit % 8);
    print(rng, peers, &file)
}

/// The rules' example in both forms, with each byte in the place of its form.
pub const FORMED: usize = 2 * 256;

pub fn formed(rng: &mut Rng, index: usize, peers: &mut Peers) -> Outcome {
    let mut file = example(index as u64 % 2);
    file[1] = (index / 2) as u8;
    if file[1] > 1 {
        return printed_as(rng, peers, &file, "file code 21 place 0 at 0\n");
    }
    print(rng, peers, &file)
}

/// A full file of either form with a wrong offset, or cut short inside a body, at some of its entries.
const WRONG_AT: [usize; 6] = [0, 1, 9, 31, 62, 63];
pub const WRONG: usize = 4 * WRONG_AT.len();

pub fn wrong_body(rng: &mut Rng, index: usize, peers: &mut Peers) -> Outcome {
    let (form, entry) = (index as u64 / 2 % 2, WRONG_AT[index / 4]);
    let records = of_lengths(rng, form, &[2; MOST_RECORDS]);
    let mut file = records.file();
    let (at, width) = Field::Offset.in_file(form, entry);
    let due = if index % 2 == 0 {
        file[at + rng.below(width)] ^= 1 + rng.below(255) as u8;
        format!("file code 22 place {} at {}\n", entry, at)
    } else {
        let begin = file.len() - records.bodies_from(entry).len();
        file.truncate(begin + rng.below(records.entries[entry].body.len()));
        format!("file code 28 place {} at {}\n", entry, file.len())
    };
    printed_as(rng, peers, &file, &due)
}

/// Prints a file that is to be printed so.
fn printed_as(rng: &mut Rng, peers: &mut Peers, file: &[u8], due: &str) -> Outcome {
    let feeding = feeding(rng, file.len());
    let printed = peers.cuts(file, feeding)?;
    if printed == due {
        Ok(())
    } else {
        Err(format!("meant for {:?}, got {:?}", due, printed))
    }
}

/// A full file whose channel counts, kinds or unused channels are wrong at some of its entries, or whose form is.
pub const WRONG_CHANNELS: usize = 4 * WRONG_AT.len();

pub fn wrong_channels(rng: &mut Rng, index: usize, peers: &mut Peers) -> Outcome {
    let entry = WRONG_AT[index / 4];
    let mut records = of_lengths(rng, SEVERAL, &[2; MOST_RECORDS]);
    records.entries[entry].measure(rng, 3, 2);
    let mut file = records.file();
    let (code, (at, _), byte) = match index % 4 {
        0 => (29, Field::Count.in_file(SEVERAL, entry), rng.pick(&[0, 5, 255])),
        1 => (24, Field::Kind(rng.below(3)).in_file(SEVERAL, entry), 2),
        2 => (24, rng.pick(&[Field::Kernel(3), Field::Kind(3)]).in_file(SEVERAL, entry), 1),
        _ => (21, (1, 1), rng.pick(&[2, 3, 255])),
    };
    file[at] = byte;
    let place = if code == 21 { 0 } else { entry };
    printed_as(rng, peers, &file, &format!("file code {} place {} at 0\n", code, place))
}

/// A file damaged by chance.
pub fn damaged(rng: &mut Rng, _: usize, peers: &mut Peers) -> Outcome {
    let file = damaged_file(rng);
    print(rng, peers, &file)
}

/// One term in two files with other neighbours, of one form or of two: its lines are the same.
pub fn same_term(rng: &mut Rng, index: usize, peers: &mut Peers) -> Outcome {
    let n = 1 + rng.below(40);
    let (one, other) = [(SINGLE, SINGLE), (SINGLE, SEVERAL), (SEVERAL, SEVERAL)][index % 3];
    let mut shared = Entry::sound(rng, one, 30_000, n);
    if rng.chance(40) {
        shared.spoil_record(rng);
    }
    let (one, other) = (beside(rng, one, &shared), beside(rng, other, &shared));
    let (one, other) = (peers.cuts(&one, Feeding::AtOnce)?, peers.cuts(&other, Feeding::AtOnce)?);
    if lines_of(&one, 30_000) == lines_of(&other, 30_000) {
        Ok(())
    } else {
        Err(format!("the lines of one term differ:\n{}\n{}", one, other))
    }
}

/// A file of the form with the entry among others.
fn beside(rng: &mut Rng, form: u64, shared: &Entry) -> Vec<u8> {
    let count = 1 + rng.below(4);
    let mut records = sound(rng, form, count);
    records.entries.retain(|entry| entry.term != shared.term);
    records.entries.push(shared.clone());
    records.entries.sort_by_key(|entry| entry.term);
    records.file()
}

/// Terms of one channel in files of both forms, some of them refused: the two texts are the same.
pub fn in_both_forms(rng: &mut Rng, _: usize, peers: &mut Peers) -> Outcome {
    let count = 1 + rng.below(5);
    let mut records = sound(rng, SINGLE, count);
    for place in 0..count {
        if rng.chance(20) {
            records.entries[place].spoil_record(rng);
        }
    }
    let several = Records::of(SEVERAL, records.entries.clone());
    let one = peers.cuts(&records.file(), Feeding::AtOnce)?;
    let other = peers.cuts(&several.file(), Feeding::AtOnce)?;
    if one == other {
        Ok(())
    } else {
        Err(format!("the text of form 0 and that of form 1 differ:\n{}\n{}", one, other))
    }
}

fn lines_of(text: &str, term: u16) -> Vec<&str> {
    let first = format!("term {} ", term);
    let mut lines = text.lines().skip_while(|line| !line.starts_with(&first));
    let head: Vec<&str> = lines.by_ref().take(1).collect();
    head.into_iter().chain(lines.take_while(|line| !line.starts_with("term "))).collect()
}
