//! Files written by the C function: there and back again, and damaged in every way.

use crate::files::{held, longest, of_lengths, put, Entry, Field, Records, SEVERAL, SINGLE};
use crate::peers::{Outcome, Peers};
use crate::request::Request;
use crate::rng::Rng;
use second::file::{parse, LONGEST, MOST_RECORDS};
use second::record::MOST_CHANNELS;

/// A write in the making.
pub struct Draft {
    pub form: u64,
    pub entries: Vec<u8>,
    pub bodies: Vec<u8>,
    /// How long the run of bodies is without damage.
    pub whole: usize,
    pub out: usize,
}

impl Draft {
    pub fn of(records: &Records) -> Draft {
        Draft {
            form: records.form,
            entries: records.lent(),
            bodies: records.bodies(),
            whole: records.bodies().len(),
            out: records.contents() + records.bodies().len(),
        }
    }

    /// What a field of a lent entry holds.
    pub fn held(&self, field: Field, entry: usize) -> u64 {
        held(&self.entries, field.in_lent(entry))
    }

    pub fn set(&mut self, field: Field, entry: usize, number: u64) {
        put(&mut self.entries, field.in_lent(entry), number);
    }

    pub fn request(&self, rng: &mut Rng) -> Request {
        Request::write_file(self.form, self.entries.clone(), self.bodies.clone(), rng.bytes(self.out))
    }
}

/// Entries with any kernels and Dmax, and bodies that are noise to the bit, some of them empty.
fn drawn(rng: &mut Rng, form: u64, count: usize) -> Records {
    let mut records = of_lengths(rng, form, &vec![1; count]);
    for entry in &mut records.entries {
        let n = rng.pick(&[0, 1, 1, 2, 5, 30]);
        entry.fill(rng, n);
        entry.channels.iter_mut().for_each(|channel| channel.kernel = rng.next() as u8);
        entry.most = rng.next() as u16;
    }
    records
}

/// Writes entries, reads the file back the same, and writes what was read to the same bytes.
pub fn there_and_back(rng: &mut Rng, index: usize, peers: &mut Peers) -> Outcome {
    let count = if index / 2 % 10 == 0 { MOST_RECORDS } else { 1 + rng.below(9) };
    let records = drawn(rng, index as u64 % 2, count);
    if records.file().len() > LONGEST {
        return peers.call_for(26, &Draft::of(&records).request(rng)).map(|_| ());
    }
    let mut draft = Draft::of(&records);
    draft.out += rng.pick(&[0, 0, 1, 12, 100]);
    let written = peers.call_for(0, &draft.request(rng))?.slices.remove(2);
    let file = written[..records.file().len()].to_vec();
    if file != records.file() {
        return Err("the file written is not the file of its entries".to_string());
    }
    peers.call_for(0, &Request::read_file(file.clone()))?;
    let again = Draft::of(&read_back(&file)?);
    let rewritten = peers.call_for(0, &again.request(rng))?.slices.remove(2);
    if rewritten == file && (again.entries, again.bodies) == (draft.entries, draft.bodies) {
        Ok(())
    } else {
        Err("what was read back and written again differs".to_string())
    }
}

fn read_back(file: &[u8]) -> Result<Records, String> {
    let read = parse(file).map_err(|refusal| format!("the file written is refused: {:?}", refusal))?;
    let entry = |one: second::file::Entry| Entry {
        term: one.term as u16,
        channels: one.channels,
        most: one.most as u16,
        body: one.body,
    };
    Ok(Records::of(u64::from(file[1]), read.into_iter().map(entry).collect()))
}

/// Forms that there are not, also such as a number cut to fewer bits would be one.
pub const UNKNOWN_FORMS: [u64; 12] = [2, 3, 127, 128, 255, 256, 257, 65_536, 65_537, 1 << 32, 1 << 32 | 1, u64::MAX];

/// An unknown form, or form 0 and one entry of several channels, whichever entry that is, and whatever else is wrong
/// with it or with those before it; a last entry cut short is told before.
pub const FORMS: usize = UNKNOWN_FORMS.len() * 4 + MOST_RECORDS * 4;

pub fn forms(rng: &mut Rng, index: usize, peers: &mut Peers) -> Outcome {
    let unknown = UNKNOWN_FORMS.len() * 4;
    let (which, fault) = (index / 4, index % 4);
    let mut draft = Draft::of(&drawn(rng, SINGLE, if index < unknown { 3 } else { MOST_RECORDS }));
    let entry = if index < unknown { rng.below(3) } else { which - UNKNOWN_FORMS.len() };
    if index < unknown {
        draft.form = UNKNOWN_FORMS[which];
    } else {
        draft.set(Field::Count, entry, rng.pick(&[2, 3, 4, 5, 128, 255]));
    }
    match fault {
        1 => draft.set(Field::Kind(0), rng.below(entry + 1), 2),
        2 => draft.bodies.clear(),
        3 => draft.entries.extend([1; 14]),
        _ => {}
    }
    let code = if fault == 3 { 20 } else { 21 };
    peers.call_at(code, 0, 0, &draft.request(rng))
}

/// A channel count of 0 or above 4, an unknown kind, or an unused channel that is not 0, at every entry of a full
/// file of either form; in form 0 a count above 1 is told by the form.
pub const CHANNELS: usize = MOST_RECORDS * 2;

pub fn channels(rng: &mut Rng, index: usize, peers: &mut Peers) -> Outcome {
    let (form, entry) = (index as u64 % 2, index / 2);
    let draft = Draft::of(&drawn(rng, form, MOST_RECORDS));
    let used = draft.held(Field::Count, entry) as usize;
    let mut faults = vec![(29, Field::Count, 0), (24, Field::Kind(rng.below(used)), 2)];
    if form == SEVERAL {
        faults.extend([(29, Field::Count, 5), (29, Field::Count, 255)]);
    }
    for place in used..MOST_CHANNELS {
        faults.extend([(24, Field::Kernel(place), 1), (24, Field::Kind(place), 1)]);
    }
    for (code, field, number) in faults {
        let mut damaged = Draft { entries: draft.entries.clone(), bodies: draft.bodies.clone(), ..draft };
        damaged.set(field, entry, number);
        peers.call_at(code, entry, 0, &damaged.request(rng))?;
    }
    Ok(())
}

/// Outputs too short by some bytes, exact, and longer.
const OUT_DELTAS: [i64; 11] = [-1_000_000, -100, -19, -13, -12, -2, -1, 0, 1, 2, 77];
pub const OUTS: usize = OUT_DELTAS.len() * 3 * 2 * 2;

pub fn outs(rng: &mut Rng, index: usize, peers: &mut Peers) -> Outcome {
    let rest = index / OUT_DELTAS.len();
    let mut records = of_lengths(rng, rest as u64 % 2, &vec![1; [1, 2, 64][rest / 2 % 3]]);
    records.entries.iter_mut().for_each(|entry| entry.fill(rng, 3));
    let mut draft = Draft::of(&records);
    let delta = OUT_DELTAS[index % OUT_DELTAS.len()];
    draft.out = (draft.out as i64 + delta).max(0) as usize;
    let code = if delta < 0 { 27 } else { 0 };
    peers.call_for(code, &draft.request(rng)).map(|_| ())
}

/// The longest file of either form, and the same with an observation more.
pub const LONGEST_FILES: usize = 4;

pub fn longest_file(rng: &mut Rng, index: usize, peers: &mut Peers) -> Outcome {
    let mut records = longest(rng, index as u64 % 2);
    if index >= 2 {
        let last = records.entries.last_mut().expect("a file has records");
        last.fill(rng, last.n() + 1);
    }
    let code = if index < 2 { 0 } else { 26 };
    peers.call_for(code, &Draft::of(&records).request(rng)).map(|_| ())
}

/// Files round the longest: so many bytes of bodies, as far as whole observations go.
const TOTALS: [usize; 6] = [65_484, 65_496, 65_508, 65_520, 65_532, 96_000];
pub const SIZED: usize = TOTALS.len() * 4 * 2;

pub fn sized(rng: &mut Rng, index: usize, peers: &mut Peers) -> Outcome {
    let count = 1 + index / 2 % 4;
    let mut left = TOTALS[index / 8];
    let mut records = of_lengths(rng, index as u64 % 2, &vec![1; count]);
    for (place, entry) in records.entries.iter_mut().enumerate() {
        let n = left / (count - place) / entry.width();
        entry.fill(rng, n);
        left -= entry.body.len();
    }
    let draft = Draft::of(&records);
    let code = if draft.out > LONGEST { 26 } else { 0 };
    peers.call_for(code, &draft.request(rng)).map(|_| ())
}
