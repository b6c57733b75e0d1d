//! Files that are refused on purpose: each refusal alone, and every two together.

use crate::files::{form, held, of_lengths, put, Field, Span, SEVERAL, SINGLE};
use crate::peers::{Outcome, Peers};
use crate::reading::set_beside;
use crate::request::Request;
use crate::rng::Rng;
use second::file::{file_entry, HEAD};
use second::record::MOST_CHANNELS;

/// A file in the making, and the entry that is damaged, which is not the first.
struct Draft {
    file: Vec<u8>,
    form: u64,
    entry: usize,
    /// How many records there are, and how long the file is, without damage.
    count: usize,
    whole: usize,
}

impl Draft {
    fn of_form(rng: &mut Rng, form: u64) -> Draft {
        let lengths: Vec<usize> = (0..2 + rng.below(5)).map(|_| 1 + rng.below(20)).collect();
        let file = of_lengths(rng, form, &lengths).file();
        let count = lengths.len();
        Draft { form, entry: 1 + rng.below(count - 1), count, whole: file.len(), file }
    }

    fn span(&self, field: Field) -> Span {
        field.in_file(self.form, self.entry)
    }

    fn set(&mut self, field: Field, number: u64) {
        let span = self.span(field);
        put(&mut self.file, span, number);
    }

    /// How many channels of the entry are used.
    fn used(&self) -> usize {
        match self.form {
            SINGLE => 1,
            _ => (held(&self.file, self.span(Field::Count)) as usize).clamp(1, MOST_CHANNELS),
        }
    }

    fn set_kind(&mut self, rng: &mut Rng) {
        self.set(Field::Kind(rng.below(self.used())), rng.pick(&[2, 3, 128, 255]));
    }

    /// Puts a byte into an unused channel; where there is none, a kind is set.
    fn set_unused(&mut self, rng: &mut Rng) {
        let used = self.used();
        if self.form == SINGLE || used == MOST_CHANNELS {
            return self.set_kind(rng);
        }
        let place = used + rng.below(MOST_CHANNELS - used);
        let field = rng.pick(&[Field::Kernel(place), Field::Kind(place)]);
        self.set(field, rng.pick(&[1, 3, 255]));
    }

    /// Reads the file, which is meant for the code, at the entry if the code has a place: at the last where the file is
    /// cut short.
    fn read_for(&self, peers: &mut Peers, code: u64, cut_short: bool) -> Outcome {
        let position = match code {
            22 => self.span(Field::Offset).0,
            28 => self.file.len(),
            _ => 0,
        };
        let place = match code {
            28 if cut_short => self.count - 1,
            22..=24 | 28 | 29 => self.entry,
            _ => 0,
        };
        peers.call_at(code, place, position, &Request::read_file(self.file.clone()))
    }
}

/// Damage that is meant for a code. Form 0 has none for 29.
type Fault = (u64, fn(&mut Rng, &mut Draft));

/// In the order in which they are tried.
const FAULTS: [Fault; 13] = [
    (26, |rng, draft| draft.file.extend(rng.bytes(65_537))),
    (20, |rng, draft| draft.file.truncate(rng.below(2))),
    (21, |rng, draft| draft.file[0] = rng.pick(&[0, 65, 128, 255])),
    (21, |rng, draft| draft.file[1] = rng.pick(&[2, 3, 128, 255])),
    (20, |rng, draft| draft.file.truncate(HEAD + rng.below(file_entry(draft.form) * draft.count))),
    (23, |rng, draft| {
        let before = held(&draft.file, Field::Term.in_file(draft.form, draft.entry - 1));
        draft.set(Field::Term, rng.pick(&[before, before.saturating_sub(1), 0]));
    }),
    (29, |rng, draft| draft.set(Field::Count, rng.pick(&[0, 5, 6, 128, 255]))),
    (24, |rng, draft| draft.set_kind(rng)),
    (24, |rng, draft| draft.set_unused(rng)),
    (22, |rng, draft| {
        let span = draft.span(Field::Offset);
        set_beside(&mut draft.file, span, 3 + rng.below(6));
    }),
    (28, |_, draft| draft.set(Field::Length, 65_535)),
    (28, |rng, draft| draft.file.truncate(draft.whole - 1 - rng.below(12))),
    (25, |rng, draft| {
        let more = 1 + rng.below(30);
        draft.file.extend(rng.bytes(more));
    }),
];

/// Which of the faults cuts the last body short.
const CUTS_SHORT: usize = 11;

/// How many cases try each refusal alone, and every two together.
pub const ALONE: usize = FAULTS.len() * 16;
pub const TOGETHER: usize = FAULTS.len() * FAULTS.len() * 4;

/// A draft of either form that has room for the faults.
fn draft_for(rng: &mut Rng, faults: &[usize]) -> Draft {
    let form = if faults.iter().any(|&fault| FAULTS[fault].0 == 29) { SEVERAL } else { form(rng) };
    Draft::of_form(rng, form)
}

pub fn alone(rng: &mut Rng, index: usize, peers: &mut Peers) -> Outcome {
    let which = index % FAULTS.len();
    let (code, fault) = FAULTS[which];
    let mut draft = draft_for(rng, &[which]);
    fault(rng, &mut draft);
    draft.read_for(peers, code, which == CUTS_SHORT)
}

/// The fault that is tried later is there first, and is told; with the other the other is.
pub fn together(rng: &mut Rng, index: usize, peers: &mut Peers) -> Outcome {
    let (one, other) = (index % FAULTS.len(), index / FAULTS.len() % FAULTS.len());
    if one == other {
        return alone(rng, one, peers);
    }
    let mut draft = draft_for(rng, &[one, other]);
    for which in [one.max(other), one.min(other)] {
        let (code, fault) = FAULTS[which];
        fault(rng, &mut draft);
        draft.read_for(peers, code, which == CUTS_SHORT)?;
    }
    Ok(())
}
