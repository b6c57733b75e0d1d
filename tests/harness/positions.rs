//! Replies with a position: a wrong offset (22) and a body past the end (28), at every entry of a full file
//! and beside every other fault of an entry. The place and the position that are due are worked out here.

use crate::files::{fields, held, of_lengths, put, Field, Records, Span, SEVERAL, SINGLE};
use crate::peers::{Outcome, Peers};
use crate::records::KERNELS;
use crate::request::Request;
use crate::rng::Rng;
use second::file::{LONGEST, MOST_RECORDS};
use second::record::{observation, Channel};

/// As many records as a file may have, in either form. A case tries one of the entries.
pub const FULL: usize = 2 * MOST_RECORDS;

/// The form and the entry of a case.
fn full(index: usize) -> (u64, usize) {
    (index as u64 % 2, index / 2)
}

/// The largest count of observations that an entry can name, and the bytes of such a body of one channel.
const MOST: usize = 65_535;
const LARGEST: usize = observation(1) * MOST;

/// Entries whose bodies are noise of a length from `least` up to `most` observations.
fn drawn(rng: &mut Rng, form: u64, count: usize, (least, most): (usize, usize)) -> Records {
    let mut records = of_lengths(rng, form, &vec![1; count]);
    for entry in &mut records.entries {
        let n = least + rng.below(most - least + 1);
        entry.fill(rng, n);
    }
    records
}

/// The file with the bytes set to the number.
fn with(file: &[u8], span: Span, number: usize) -> Vec<u8> {
    let mut file = file.to_vec();
    put(&mut file, span, number as u64);
    file
}

/// An offset that differs in one of its bytes, each in turn, alone and with a body that would pass the end.
pub fn misplaced(rng: &mut Rng, index: usize, peers: &mut Peers) -> Outcome {
    let (form, entry) = full(index);
    let sound = drawn(rng, form, MOST_RECORDS, (1, 6)).file();
    let (at, width) = Field::Offset.in_file(form, entry);
    for byte in at..at + width {
        let mut file = sound.clone();
        file[byte] ^= 1 + rng.below(255) as u8;
        let longer = with(&file, Field::Length.in_file(form, entry), MOST);
        peers.call_at(22, entry, at, &Request::read_file(longer))?;
        peers.call_at(22, entry, at, &Request::read_file(file))?;
    }
    Ok(())
}

/// A body with one observation too many, or with the most, also in the longest file; and the file cut short at the
/// body's first or last byte.
pub fn past_end(rng: &mut Rng, index: usize, peers: &mut Peers) -> Outcome {
    let (form, entry) = full(index);
    let records = drawn(rng, form, MOST_RECORDS, (1, 6));
    let file = records.file();
    let (length, body) = (Field::Length.in_file(form, entry), records.bodies_from(entry).len());
    let fitting = body / records.entries[entry].width();
    for n in [fitting + 1, MOST] {
        peers.call_at(28, entry, file.len(), &Request::read_file(with(&file, length, n)))?;
    }
    let mut longest = with(&file, length, MOST);
    longest.resize(LONGEST, 7);
    peers.call_at(28, entry, LONGEST, &Request::read_file(longest))?;
    let begin = file.len() - body;
    for length in [begin, begin + 1, begin + records.entries[entry].body.len() - 1] {
        peers.call_at(28, entry, length, &Request::read_file(file[..length].to_vec()))?;
    }
    let ending = begin + fitting * records.entries[entry].width();
    ends_with_the_file(peers, &with(&file[..ending], length, fitting), entry)
}

/// A body that ends where the file does is in order; the next entry's offset then is not.
fn ends_with_the_file(peers: &mut Peers, file: &[u8], entry: usize) -> Outcome {
    let request = Request::read_file(file.to_vec());
    match entry + 1 {
        MOST_RECORDS => peers.call_at(0, 0, 0, &request),
        next => peers.call_at(22, next, Field::Offset.in_file(u64::from(file[1]), next).0, &request),
    }
}

/// A write of the records with a run in place of their bodies, and with room for so many bytes.
fn write(rng: &mut Rng, records: &Records, run: &[u8], out: usize) -> Request {
    Request::write_file(records.form, records.lent(), run.to_vec(), rng.bytes(out))
}

/// A run that ends inside a body, at its first or last byte: a short one, and one that is longer than a file may
/// be from some entry on.
pub fn run_ends(rng: &mut Rng, index: usize, peers: &mut Peers) -> Outcome {
    let (form, entry) = full(index);
    for lengths in [(1, 6), (90, 130)] {
        let records = drawn(rng, form, MOST_RECORDS, lengths);
        let run = records.bodies();
        let begin = run.len() - records.bodies_from(entry).len();
        for length in [begin, begin + 1, begin + records.entries[entry].body.len() - 1] {
            let request = write(rng, &records, &run[..length], 300);
            peers.call_at(28, entry, length, &request)?;
        }
    }
    no_run(rng, index, peers)
}

/// An empty run, where the bodies before the entry's own are empty too.
fn no_run(rng: &mut Rng, index: usize, peers: &mut Peers) -> Outcome {
    let (form, entry) = full(index);
    let mut records = drawn(rng, form, MOST_RECORDS, (1, 3));
    records.entries[..entry].iter_mut().for_each(|one| one.body.clear());
    let request = write(rng, &records, &[], 300);
    peers.call_at(28, entry, 0, &request)
}

/// Lengths of a run, round those of whole bodies and of the longest file.
const RUNS: [usize; 12] = [
    0,
    1,
    LONGEST - 1,
    LONGEST,
    LONGEST + 1,
    2 * LONGEST,
    LARGEST - 1,
    LARGEST,
    LARGEST + 1,
    1_048_577,
    2 * LARGEST - 1,
    2 * LARGEST,
];

/// Each length with no room for the output, and with room for the longest file, in both forms.
pub const LONG_RUNS: usize = 4 * RUNS.len();

pub fn long_run(rng: &mut Rng, index: usize, peers: &mut Peers) -> Outcome {
    let mut lent = drawn(rng, SINGLE, MOST_RECORDS, (1, 1)).lent();
    for entry in 0..MOST_RECORDS {
        put(&mut lent, Field::Length.in_lent(entry), MOST as u64);
    }
    let length = RUNS[index % RUNS.len()];
    let out = rng.bytes(LONGEST * (index / RUNS.len() % 2));
    let request = Request::write_file(index as u64 / RUNS.len() as u64 / 2, lent, vec![7; length], out);
    peers.call_at(28, length / LARGEST, length, &request)
}

/// A fault of an entry that is not the first: the code, the field that it sets, and the number it sets it to, given
/// what the field holds and what that of the entry before does. All entries have channels to spare.
type Fault = (u64, Field, fn(u64, u64) -> u64);

/// In the order in which an entry is tried for them; those of one code are one try.
const FAULTS: [Fault; 9] = [
    (23, Field::Term, |_, before| before),
    (29, Field::Count, |_, _| 0),
    (29, Field::Count, |_, _| 5),
    (24, Field::Kind(0), |held, _| held + 2),
    (24, Field::Kind(1), |_, _| 255),
    (24, Field::Kernel(3), |_, _| 1),
    (24, Field::Kind(3), |_, _| 1),
    (22, Field::Offset, |held, _| held + 1),
    (28, Field::Length, |_, _| MOST as u64),
];

/// The faults of the entries of a file of the form: form 0 has no channel count and no second channel.
fn of_file(form: u64) -> Vec<Fault> {
    FAULTS.into_iter().filter(|(_, field, _)| fields(form).contains(field)).collect()
}

/// The faults of entries lent for a file of the form: the writer gives no 22, and a channel count above 1 has its own
/// refusal in form 0.
fn of_lent(form: u64) -> Vec<Fault> {
    let has_room = |field: Field, set: fn(u64, u64) -> u64| form == SEVERAL || field != Field::Count || set(0, 0) == 0;
    FAULTS.into_iter().filter(|&(_, field, set)| field != Field::Offset && has_room(field, set)).collect()
}

/// Does the fault to bytes in which the fields stand where it is said.
fn damage(bytes: &mut [u8], entry: usize, (_, field, number_of): Fault, span: impl Fn(Field, usize) -> Span) {
    let set = number_of(held(bytes, span(field, entry)), held(bytes, span(field, entry - 1)));
    put(bytes, span(field, entry), set);
}

/// How many entries there are where two faults are tried.
const ENTRIES: usize = 6;

/// Records of which each has channels to spare: two in form 1.
fn sparing(rng: &mut Rng, form: u64) -> Records {
    let mut records = drawn(rng, form, ENTRIES, (1, 20));
    for entry in &mut records.entries {
        let n = entry.n();
        if form == SEVERAL {
            entry.channels.resize(2, Channel { kernel: rng.pick(&KERNELS), kind: 0 });
        }
        entry.fill(rng, n);
    }
    records
}

/// Two faults with the entries they are done to: both to one, or the second to a later one. The first is told.
fn two_faults(rng: &mut Rng, index: usize, faults: &[Fault]) -> [(usize, Fault); 2] {
    let kinds = faults.len();
    let (one, other) = (index % kinds, index / kinds % kinds);
    let entry = 1 + rng.below(ENTRIES - 2);
    if index / kinds / kinds % 2 == 0 {
        return [(entry, faults[one.min(other)]), (entry, faults[one.max(other)])];
    }
    let later = entry + 1 + rng.below(ENTRIES - 1 - entry);
    [(entry, faults[one]), (later, faults[other])]
}

/// Every two faults of a file's entries, in both forms, without and with bytes after the last body.
pub const READ_TWO: usize = 4 * 2 * FAULTS.len() * FAULTS.len();

pub fn read_two(rng: &mut Rng, index: usize, peers: &mut Peers) -> Outcome {
    let form = index as u64 % 2;
    let mut file = sparing(rng, form).file();
    let faults = two_faults(rng, index / 4, &of_file(form));
    for (entry, fault) in faults {
        damage(&mut file, entry, fault, |field, entry| field.in_file(form, entry));
    }
    if index / 2 % 2 == 1 {
        let more = 1 + rng.below(30);
        file.extend(rng.bytes(more));
    }
    let (entry, (code, _, _)) = faults[0];
    let position = match code {
        22 => Field::Offset.in_file(form, entry).0,
        28 => file.len(),
        _ => 0,
    };
    peers.call_at(code, entry, position, &Request::read_file(file))
}

/// Every two faults of lent entries, for both forms: alone, with a file that is too long, and with no room for it.
pub const WRITE_TWO: usize = 6 * 2 * FAULTS.len() * FAULTS.len();

pub fn write_two(rng: &mut Rng, index: usize, peers: &mut Peers) -> Outcome {
    let (form, variant) = (index as u64 % 2, index / 2 % 3);
    let mut records = sparing(rng, form);
    if variant == 1 {
        let last = &mut records.entries[ENTRIES - 1];
        last.fill(rng, LONGEST / last.width());
    }
    let (mut lent, run) = (records.lent(), records.bodies());
    let faults = two_faults(rng, index / 6, &of_lent(form));
    for (entry, fault) in faults {
        damage(&mut lent, entry, fault, Field::in_lent);
    }
    let (entry, (code, _, _)) = faults[0];
    let position = if code == 28 { run.len() } else { 0 };
    let out = if variant == 2 { 0 } else { LONGEST };
    peers.call_at(code, entry, position, &Request::write_file(form, lent, run, rng.bytes(out)))
}
