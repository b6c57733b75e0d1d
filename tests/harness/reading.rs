//! Files read by the C function: sound, and damaged in every way.

use crate::files::{fields, held, longest, of_lengths, put, sound, Entry, Field, Records, Span, SEVERAL, SINGLE};
use crate::paper::example;
use crate::peers::{Outcome, Peers};
use crate::records::Record;
use crate::request::Request;
use crate::rng::Rng;
use second::file::{file_entry, HEAD};

/// Three small records, the second of one observation, the same for every seed. In form 1 the first has a second
/// channel, and the third has three more.
fn three(form: u64) -> Records {
    let record = |term, most, channels: &[(u8, &[i64])]| {
        let record = Record::of(channels);
        Entry { term, most, body: record.lent().body, channels: record.channels }
    };
    let all: [&[(u8, &[i64])]; 3] = [
        &[(1, &[4, 4]), (2, &[1, 2])],
        &[(1, &[-7])],
        &[(1, &[0, 9, 9]), (3, &[5, 5, 5]), (2, &[1, 1, 2]), (1, &[0, 0, 0])],
    ];
    let channels = all.map(|channels| if form == SINGLE { &channels[..1] } else { channels });
    let entries = vec![record(3, 2, channels[0]), record(256, 1, channels[1]), record(65_535, 3, channels[2])];
    Records::of(form, entries)
}

/// The fixed files: the rules' example and the three records, each in both forms.
fn fixed() -> [Vec<u8>; 4] {
    [example(SINGLE), example(SEVERAL), three(SINGLE).file(), three(SEVERAL).file()]
}

fn read(peers: &mut Peers, file: Vec<u8>) -> Outcome {
    peers.call(&Request::read_file(file)).map(|_| ())
}

pub fn sound_file(rng: &mut Rng, index: usize, peers: &mut Peers) -> Outcome {
    let count = 1 + rng.below(8);
    let file = sound(rng, index as u64 % 2, count).file();
    peers.call_for(0, &Request::read_file(file)).map(|_| ())
}

/// The fixed files cut short at every length, and with bytes after their end.
pub const CUT: usize = 50 + 57 + 110 + 219;
pub const LONGER: usize = 4 * 26;

pub fn cut_short(_: &mut Rng, index: usize, peers: &mut Peers) -> Outcome {
    let mut length = index;
    for mut file in fixed() {
        if length < file.len() {
            file.truncate(length);
            return read(peers, file);
        }
        length -= file.len();
    }
    Err(format!("the fixed files are cut short in {} cases", index - length))
}

pub fn longer(rng: &mut Rng, index: usize, peers: &mut Peers) -> Outcome {
    let mut file = fixed()[index % 4].clone();
    file.extend(rng.bytes(index / 4));
    let code = if index / 4 == 0 { 0 } else { 25 };
    peers.call_for(code, &Request::read_file(file)).map(|_| ())
}

/// Every bit of the count, form and contents of the fixed files, and of the example's body.
pub const FLIPS: usize = (50 + 21 + 38 + 59) * 8;

pub fn flipped(_: &mut Rng, index: usize, peers: &mut Peers) -> Outcome {
    let (mut byte, bit) = (index / 8, index % 8);
    for (mut file, flipped) in fixed().into_iter().zip([50, 21, 38, 59]) {
        if byte < flipped {
            file[byte] ^= 1 << bit;
            return read(peers, file);
        }
        byte -= flipped;
    }
    Err("there are fewer bytes".to_string())
}

/// Two fields of one width change places, within an entry or between two.
pub fn swapped(rng: &mut Rng, index: usize, peers: &mut Peers) -> Outcome {
    let count = 2 + rng.below(4);
    let form = index as u64 % 2;
    let mut file = sound(rng, form, count).file();
    let width = rng.pick(&[1, 2, 4, file_entry(form)]);
    let contents = file_entry(form) * count / width;
    let (one, other) = (rng.below(contents), rng.below(contents));
    for i in 0..width {
        file.swap(HEAD + width * one + i, HEAD + width * other + i);
    }
    read(peers, file)
}

/// How many values are tried of a field.
const BESIDE: usize = 9;

/// Values of each field of each of three entries, at and beside what stands there, in both forms.
pub const SET: usize = 3 * (6 + 13) * BESIDE;

pub fn field_set(_: &mut Rng, index: usize, peers: &mut Peers) -> Outcome {
    let all = [SINGLE, SEVERAL].map(fields);
    let spans = (0..3).flat_map(|entry| {
        let in_form = |form: u64| all[form as usize].iter().map(move |field| (form, field.in_file(form, entry)));
        in_form(SINGLE).chain(in_form(SEVERAL))
    });
    let (form, span) = spans.collect::<Vec<(u64, Span)>>()[index / BESIDE];
    let mut file = three(form).file();
    set_beside(&mut file, span, index % BESIDE);
    read(peers, file)
}

pub fn set_beside(file: &mut [u8], span: Span, which: usize) {
    let there = held(file, span);
    let largest = 1 << (8 * span.1 - 1);
    let beside = [0, 1, 2, there.wrapping_sub(1), there + 1, there + 12, there.wrapping_sub(12), largest, u64::MAX];
    put(file, span, beside[which]);
}

/// Every count of records on files of both forms that hold 1, 3, 64 and 65 of them.
pub const COUNTED: usize = 256 * 2 * 4;

pub fn counted(rng: &mut Rng, index: usize, peers: &mut Peers) -> Outcome {
    let held = [1, 3, 64, 65][index % 4];
    let mut file = of_lengths(rng, index as u64 / 4 % 2, &vec![1; held]).file();
    file[0] = (index / 8) as u8;
    let code = match usize::from(file[0]) {
        0 | 65.. => 21,
        count if count == held => 0,
        _ => return read(peers, file),
    };
    peers.call_for(code, &Request::read_file(file)).map(|_| ())
}

/// Every form on files of both forms, sound and with a fault that is tried later.
pub const FORMED: usize = 256 * 2 * 2;

pub fn formed(rng: &mut Rng, index: usize, peers: &mut Peers) -> Outcome {
    let made = index as u64 / 2 % 2;
    let count = 1 + rng.below(3);
    let mut file = sound(rng, made, count).file();
    file[1] = (index / 4) as u8;
    if index % 2 == 1 {
        let kept = rng.below(file.len() - HEAD);
        file.truncate(HEAD + kept);
    }
    let code = match u64::from(file[1]) {
        2.. => 21,
        form if form == made && index % 2 == 0 => 0,
        _ => return read(peers, file),
    };
    peers.call_at(code, 0, 0, &Request::read_file(file))
}

/// Every byte in the place of the channel count and in that of each channel's kernel and kind, used and unused, for
/// records of one to four channels.
pub const CHANNEL_BYTES: usize = 9 * 256;

pub fn channel_byte(rng: &mut Rng, index: usize, peers: &mut Peers) -> Outcome {
    let byte = (index % 256) as u64;
    let field = match index / 256 {
        0 => Field::Count,
        place if place % 2 == 1 => Field::Kernel(place / 2),
        place => Field::Kind(place / 2 - 1),
    };
    let records = of_lengths(rng, SEVERAL, &[2, 1, 3]);
    let entry = rng.below(3);
    let used = records.entries[entry].channels.len();
    let mut file = records.file();
    put(&mut file, field.in_file(SEVERAL, entry), byte);
    let code = match (field, byte) {
        (Field::Count, 0 | 5..) => 29,
        (Field::Count, _) if byte as usize == used => 0,
        (Field::Count, _) => return read(peers, file),
        (Field::Kernel(place), 1..) if place >= used => 24,
        (Field::Kind(place), 1..) if place >= used => 24,
        (Field::Kind(_), 2..) => 24,
        _ => 0,
    };
    let place = if code == 0 { 0 } else { entry };
    peers.call_at(code, place, 0, &Request::read_file(file))
}

/// Lengths of whole files of form 0, and how many bytes follow the last body.
const SIZES: [(usize, usize); 10] = [
    (65_534, 0),
    (65_534, 1),
    (65_534, 2),
    (65_534, 3),
    (65_522, 12),
    (65_522, 14),
    (65_546, 0),
    (65_534, 100),
    (65_534, 65_536),
    (1_000_010, 0),
];

pub const SIZED: usize = SIZES.len() * 4;

/// A file whose bodies are noise, as long as can be up to the length: of form 0, where it has the length if that is 2
/// above a multiple of 12, or of form 1.
pub fn of_size(rng: &mut Rng, form: u64, length: usize, count: usize) -> Vec<u8> {
    let mut records = of_lengths(rng, form, &vec![1; count]);
    let mut left = length - records.contents();
    for (place, entry) in records.entries.iter_mut().enumerate() {
        let share = if place + 1 == count { left } else { left / (count - place) };
        let n = (share / entry.width()).min(65_535);
        entry.fill(rng, n);
        left -= entry.body.len();
    }
    records.file()
}

pub fn sized(rng: &mut Rng, index: usize, peers: &mut Peers) -> Outcome {
    let (length, more) = SIZES[index / 4];
    let mut file = of_size(rng, index as u64 % 2, length, if index / 2 % 2 == 0 { 2 } else { 64 });
    file.extend(rng.bytes(more));
    let code = match (file.len(), more) {
        (65_537.., _) => 26,
        (_, 0) => 0,
        _ => 25,
    };
    peers.call_for(code, &Request::read_file(file)).map(|_| ())
}

/// The longest file of either form, alone and with a byte more.
pub const LONGEST_FILES: usize = 4;

pub fn longest_file(rng: &mut Rng, index: usize, peers: &mut Peers) -> Outcome {
    let mut file = longest(rng, index as u64 % 2).file();
    if file.len() != [65_534, 65_536][index % 2] {
        return Err(format!("the longest file has {} bytes", file.len()));
    }
    file.extend(vec![0; index / 2]);
    let code = if index < 2 { 0 } else { [25, 26][index % 2] };
    peers.call_for(code, &Request::read_file(file)).map(|_| ())
}
