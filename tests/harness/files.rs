//! Record files to try: sound ones of both forms, and the places of their fields.

use crate::records::{bits, channel, channels, length, list, Record, LIMIT, LOOKS};
use crate::rng::Rng;
use second::cuttings::MOST as MOST_SEGMENTS;
use second::file::{file_entry, HEAD, LENT_ENTRY, LONGEST};
use second::number::number;
use second::record::{observation, Channel, CHANNEL, MOST_CHANNELS};

/// The form whose records have one channel, and the one whose records have any count of them.
pub const SINGLE: u64 = 0;
pub const SEVERAL: u64 = 1;

/// A field of an entry.
#[derive(Clone, Copy, Debug, PartialEq, Eq)]
pub enum Field {
    Term,
    /// The channel count, which an entry of form 0 has not.
    Count,
    Kernel(usize),
    Kind(usize),
    Most,
    Length,
    /// The offset, which a lent entry has not.
    Offset,
}

/// Where bytes begin, and how many they are.
pub type Span = (usize, usize);

impl Field {
    /// Its bytes within an entry of the form; lent entries are as those of form 1.
    fn within(self, form: u64) -> Span {
        let channels = if form == SINGLE { 2 } else { 3 };
        let after = channels + CHANNEL * if form == SINGLE { 1 } else { MOST_CHANNELS };
        match self {
            Field::Term => (0, 2),
            Field::Count => (2, 1),
            Field::Kernel(channel) => (channels + CHANNEL * channel, 1),
            Field::Kind(channel) => (channels + CHANNEL * channel + 1, 1),
            Field::Most => (after, 2),
            Field::Length => (after + 2, 2),
            Field::Offset => (after + 4, 4),
        }
    }

    /// Its bytes in a file of the form.
    pub fn in_file(self, form: u64, entry: usize) -> Span {
        let (at, width) = self.within(form);
        (HEAD + file_entry(form) * entry + at, width)
    }

    /// Its bytes in lent entries.
    pub fn in_lent(self, entry: usize) -> Span {
        let (at, width) = self.within(SEVERAL);
        (LENT_ENTRY * entry + at, width)
    }
}

/// The fields of an entry of a file of the form.
pub fn fields(form: u64) -> Vec<Field> {
    let places = 0..if form == SINGLE { 1 } else { MOST_CHANNELS };
    let channels = places.flat_map(|place| [Field::Kernel(place), Field::Kind(place)]);
    let count = (form == SEVERAL).then_some(Field::Count);
    [Field::Term].into_iter().chain(count).chain(channels).chain([Field::Most, Field::Length, Field::Offset]).collect()
}

/// The number that the bytes hold.
pub fn held(bytes: &[u8], (at, width): Span) -> u64 {
    number(&bytes[at..at + width])
}

/// Writes a number into the bytes.
pub fn put(bytes: &mut [u8], (at, width): Span, number: u64) {
    bytes[at..at + width].copy_from_slice(&number.to_le_bytes()[..width]);
}

/// A record with the fields of its entry.
#[derive(Clone, Debug, PartialEq, Eq)]
pub struct Entry {
    pub term: u16,
    pub channels: Vec<Channel>,
    pub most: u16,
    pub body: Vec<u8>,
}

impl Entry {
    /// An entry whose record is accepted, with channels that the form has room for.
    pub fn sound(rng: &mut Rng, form: u64, term: u16, n: usize) -> Entry {
        let look = rng.pick(&LOOKS);
        let channels = if form == SINGLE { vec![channel(rng)] } else { channels(rng) };
        let body = Record::of_channels(rng, look, n, &channels).lent().body;
        Entry { term, channels, most: 1 + rng.below(n.min(MOST_SEGMENTS)) as u16, body }
    }

    /// The width of an observation.
    pub fn width(&self) -> usize {
        observation(self.channels.len())
    }

    pub fn n(&self) -> usize {
        self.body.len() / self.width()
    }

    /// Gives the entry so many channels and an accepted record of n observations, to be cut as finely as can be.
    pub fn measure(&mut self, rng: &mut Rng, count: usize, n: usize) {
        let look = rng.pick(&LOOKS);
        self.channels = (0..count).map(|_| channel(rng)).collect();
        self.body = Record::of_channels(rng, look, n, &self.channels).lent().body;
        self.most = n.min(MOST_SEGMENTS) as u16;
    }

    /// A body of noise for so many observations.
    pub fn fill(&mut self, rng: &mut Rng, n: usize) {
        self.body = rng.bytes(self.width() * n);
    }

    /// The bytes of a sample of the body.
    pub fn sample(&self, index: usize, channel: usize) -> Span {
        (self.width() * index + observation(channel), 8)
    }

    /// The entry as it is lent to the writer.
    pub fn lent(&self) -> Vec<u8> {
        let unused = vec![0; CHANNEL * (MOST_CHANNELS - self.channels.len())];
        let [term, most, n] = [self.term, self.most, self.n() as u16].map(u16::to_le_bytes);
        [&term[..], &[self.channels.len() as u8], &list(&self.channels), &unused, &most, &n].concat()
    }

    /// The entry of a file of the form, up to its offset.
    fn in_form(&self, form: u64) -> Vec<u8> {
        if form == SEVERAL {
            return self.lent();
        }
        let [term, most, n] = [self.term, self.most, self.n() as u16].map(u16::to_le_bytes);
        [&term[..], &list(&self.channels), &most, &n].concat()
    }

    /// Damages what is judged only when the record is solved.
    pub fn spoil_record(&mut self, rng: &mut Rng) {
        let channel = rng.below(self.channels.len());
        let index = rng.below(self.n().max(1));
        let (day, sample) = ((self.width() * index, 4), self.sample(index, channel));
        match rng.below(8) {
            0 => self.channels[channel].kernel = rng.pick(&[0, 4, 255]),
            1 => self.most = rng.pick(&[0, 13, 256, 257, 65_535]),
            2 => self.most = MOST_SEGMENTS as u16,
            3 => self.body.clear(),
            4 => self.channels[channel].kind ^= 1,
            _ if self.body.is_empty() => {}
            5 => put(&mut self.body, day, 0),
            6 => put(&mut self.body, sample, bits(LIMIT + 1, self.channels[channel].kind)),
            _ => put(&mut self.body, sample, rng.next()),
        }
    }
}

/// The records of a file, in the form that it is to have.
#[derive(Clone, Debug, PartialEq, Eq)]
pub struct Records {
    pub form: u64,
    pub entries: Vec<Entry>,
}

impl Records {
    /// Entries in the form, which has room for their channels.
    pub fn of(form: u64, entries: Vec<Entry>) -> Records {
        Records { form, entries }
    }

    pub fn lent(&self) -> Vec<u8> {
        self.entries.iter().flat_map(Entry::lent).collect()
    }

    pub fn bodies(&self) -> Vec<u8> {
        self.bodies_from(0)
    }

    /// The bodies of an entry and of all after it.
    pub fn bodies_from(&self, entry: usize) -> Vec<u8> {
        self.entries[entry..].iter().flat_map(|entry| entry.body.clone()).collect()
    }

    /// How long the contents are, with the count and the form.
    pub fn contents(&self) -> usize {
        HEAD + file_entry(self.form) * self.entries.len()
    }

    pub fn file(&self) -> Vec<u8> {
        let mut offset = self.contents();
        let mut file = vec![self.entries.len() as u8, self.form as u8];
        for entry in &self.entries {
            file.extend(entry.in_form(self.form));
            file.extend((offset as u32).to_le_bytes());
            offset += entry.body.len();
        }
        file.extend(self.bodies());
        file
    }
}

/// One of the two forms.
pub fn form(rng: &mut Rng) -> u64 {
    rng.pick(&[SINGLE, SEVERAL])
}

/// Increasing term numbers.
fn terms(rng: &mut Rng, count: usize) -> Vec<u16> {
    let widest = rng.pick(&[1, 5, 65_536 / count]);
    let mut term = rng.below(65_536 - widest * count + widest);
    let mut terms = Vec::new();
    for _ in 0..count {
        terms.push(term as u16);
        term += 1 + rng.below(widest);
    }
    terms
}

/// Records that are all accepted, of any length that leaves their file short enough.
pub fn sound(rng: &mut Rng, form: u64, count: usize) -> Records {
    let widest = observation(if form == SINGLE { 1 } else { MOST_CHANNELS });
    let most = LONGEST / widest / count - 1;
    let lengths: Vec<usize> = (0..count).map(|_| length(rng).min(most)).collect();
    of_lengths(rng, form, &lengths)
}

/// The records of the longest file of the form, all accepted: 65,534 bytes in form 0, and 65,536 in form 1.
pub fn longest(rng: &mut Rng, form: u64) -> Records {
    let several = [(4, 400), (4, 400), (4, 400), (4, 400), (3, 200), (1, 185)];
    let single: Vec<(usize, usize)> = (0..14).map(|place| (1, if place < 13 { 400 } else { 247 })).collect();
    let sizes = if form == SINGLE { &single[..] } else { &several };
    let mut records = of_lengths(rng, form, &vec![1; sizes.len()]);
    records.entries.iter_mut().zip(sizes).for_each(|(entry, &(channels, n))| entry.measure(rng, channels, n));
    records
}

/// Records that are all accepted, of the lengths.
pub fn of_lengths(rng: &mut Rng, form: u64, lengths: &[usize]) -> Records {
    let terms = terms(rng, lengths.len());
    Records::of(form, terms.into_iter().zip(lengths).map(|(term, &n)| Entry::sound(rng, form, term, n)).collect())
}
