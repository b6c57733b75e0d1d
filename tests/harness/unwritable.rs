//! Writes that are refused on purpose: each refusal alone, and every two together.

use crate::files::{form, of_lengths, Field, SINGLE};
use crate::peers::{Outcome, Peers};
use crate::rng::Rng;
use crate::writing::{Draft, UNKNOWN_FORMS};
use second::file::LENT_ENTRY;
use second::record::observation;

/// Damage that is meant for a code, done to the entry, which is not the first.
type Fault = (u64, fn(&mut Rng, &mut Draft, usize));

/// In the order in which they are tried.
const FAULTS: [Fault; 14] = [
    (20, |rng, draft, _| {
        let more = 1 + rng.below(LENT_ENTRY - 1);
        draft.entries.extend(rng.bytes(more));
    }),
    (21, |_, draft, _| draft.entries.clear()),
    (21, |rng, draft, _| draft.entries.extend(rng.bytes(LENT_ENTRY * 64))),
    (21, |rng, draft, _| draft.form = rng.pick(&UNKNOWN_FORMS)),
    (21, |rng, draft, entry| {
        draft.form = SINGLE;
        draft.set(Field::Count, entry, rng.pick(&[2, 4, 5, 255]));
    }),
    (23, |rng, draft, entry| {
        let before = draft.held(Field::Term, entry - 1);
        draft.set(Field::Term, entry, if rng.chance(50) { 0 } else { before });
    }),
    (29, |rng, draft, entry| {
        let counts: &[u64] = if draft.form == SINGLE { &[0] } else { &[0, 5, 128, 255] };
        draft.set(Field::Count, entry, rng.pick(counts));
    }),
    (24, |rng, draft, entry| draft.set(Field::Kind(0), entry, rng.pick(&[2, 3, 128, 255]))),
    (24, |rng, draft, entry| {
        let used = draft.held(Field::Count, entry).clamp(1, 3);
        draft.set(Field::Count, entry, used);
        draft.set(rng.pick(&[Field::Kernel(3), Field::Kind(3)]), entry, rng.pick(&[1, 2, 255]));
    }),
    (28, |_, draft, entry| {
        let n = draft.held(Field::Length, entry);
        draft.set(Field::Length, entry, n | 0xff00);
    }),
    (28, |rng, draft, _| draft.bodies.truncate(draft.whole - 1 - rng.below(13))),
    (25, |rng, draft, _| {
        let more = 1 + rng.below(30);
        draft.bodies.extend(rng.bytes(more));
    }),
    (26, |rng, draft, entry| draft.lengthen(rng, entry)),
    (27, |rng, draft, _| draft.out = draft.out.saturating_sub(1 + rng.below(20))),
];

/// Which of the faults cuts the run short.
const CUTS_SHORT: usize = 10;

/// How many cases try each refusal alone, and every two together.
pub const ALONE: usize = FAULTS.len() * 16;
pub const TOGETHER: usize = FAULTS.len() * FAULTS.len() * 3;

impl Draft {
    /// Gives the entry so many more observations that the file is too long.
    fn lengthen(&mut self, rng: &mut Rng, entry: usize) {
        let more = 5500 + rng.below(200);
        let n = self.held(Field::Length, entry) + more as u64;
        let added = observation(self.held(Field::Count, entry) as usize) * more;
        self.set(Field::Length, entry, n);
        self.bodies.extend(rng.bytes(added));
        self.whole += added;
    }

    /// Writes the file, which is meant for the code, at the entry if the code has a place.
    fn write_for(&self, rng: &mut Rng, peers: &mut Peers, code: u64, entry: usize) -> Outcome {
        let place = if matches!(code, 23 | 24 | 28 | 29) { entry } else { 0 };
        let position = if code == 28 { self.bodies.len() } else { 0 };
        peers.call_at(code, place, position, &self.request(rng))
    }
}

fn draft(rng: &mut Rng) -> (Draft, usize) {
    let lengths: Vec<usize> = (0..2 + rng.below(5)).map(|_| 2 + rng.below(20)).collect();
    let form = form(rng);
    (Draft::of(&of_lengths(rng, form, &lengths)), lengths.len())
}

pub fn alone(rng: &mut Rng, index: usize, peers: &mut Peers) -> Outcome {
    let which = index % FAULTS.len();
    let (code, fault) = FAULTS[which];
    let (mut draft, count) = draft(rng);
    let entry = 1 + rng.below(count - 1);
    fault(rng, &mut draft, entry);
    draft.write_for(rng, peers, code, if which == CUTS_SHORT { count - 1 } else { entry })
}

/// The fault that is tried later is there first, and is told; with the other the other is.
pub fn together(rng: &mut Rng, index: usize, peers: &mut Peers) -> Outcome {
    let (one, other) = (index % FAULTS.len(), index / FAULTS.len() % FAULTS.len());
    if one == other {
        return alone(rng, one, peers);
    }
    let (mut draft, count) = draft(rng);
    let entry = 1 + rng.below(count - 1);
    for which in [one.max(other), one.min(other)] {
        let (code, fault) = FAULTS[which];
        fault(rng, &mut draft, entry);
        let cut_short = which == CUTS_SHORT;
        draft.write_for(rng, peers, code, if cut_short { count - 1 } else { entry })?;
    }
    Ok(())
}
