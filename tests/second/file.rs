//! The record file: a parser that takes the bytes from the front, and a composer.

use crate::number::{bytes, number};
use crate::record::{channels_of, observation, Channel, CHANNEL, MOST_CHANNELS};
use crate::{refuse_if, Refusal};

/// The most bytes of a file.
pub const LONGEST: usize = 65_536;

/// The most records of a file.
pub const MOST_RECORDS: usize = 64;

/// The width of the count of records and the form, a byte each.
pub const HEAD: usize = 2;

/// The width of an entry as it is lent to the writer: term, channel count, all channels, Dmax, n.
pub const LENT_ENTRY: usize = 15;

/// The width of the offset, which ends an entry of a file.
pub const OFFSET: usize = 4;

/// The width of an entry in a file of the form.
pub const fn file_entry(form: u64) -> usize {
    if form == 0 {
        12
    } else {
        LENT_ENTRY + OFFSET
    }
}

/// An entry of form 0, without its offset, as it is lent to the writer: its one channel is the first.
fn widened(entry: &[u8]) -> Vec<u8> {
    [&entry[..2], &[1], &entry[2..4], &[0; 6], &entry[4..8]].concat()
}

/// A lent entry as a file of the form has it, without its offset.
fn in_form(form: u64, entry: &[u8]) -> Vec<u8> {
    if form == 0 {
        [&entry[..2], &entry[3..5], &entry[11..15]].concat()
    } else {
        entry.to_vec()
    }
}

/// One record of an accepted file.
#[derive(Clone, Debug, PartialEq, Eq)]
pub struct Entry {
    pub term: u64,
    pub channels: Vec<Channel>,
    pub most: u64,
    pub body: Vec<u8>,
}

/// What a lent entry says.
struct Fields {
    term: u64,
    count: usize,
    channels: Vec<u8>,
    most: u64,
    n: usize,
}

impl Fields {
    fn of(entry: &[u8]) -> Fields {
        Fields {
            term: number(&entry[..2]),
            count: usize::from(entry[2]),
            channels: entry[3..11].to_vec(),
            most: number(&entry[11..13]),
            n: number(&entry[13..15]) as usize,
        }
    }

    /// Tries 23, 29 and 24.
    fn judge(&self, place: usize, term_before: Option<u64>) -> Result<(), Refusal> {
        if term_before.map_or(false, |before| self.term <= before) {
            return Err(Refusal::at(23, place));
        }
        if self.count == 0 || self.count > MOST_CHANNELS {
            return Err(Refusal::at(29, place));
        }
        let (used, unused) = self.channels.split_at(CHANNEL * self.count);
        if used.chunks(CHANNEL).any(|channel| channel[1] > 1) || unused.iter().any(|&byte| byte != 0) {
            return Err(Refusal::at(24, place));
        }
        Ok(())
    }

    fn body_length(&self) -> usize {
        observation(self.count) * self.n
    }

    fn with_body(self, body: &[u8]) -> Result<Entry, Refusal> {
        let channels = channels_of(&self.channels[..CHANNEL * self.count])?;
        Ok(Entry { term: self.term, channels, most: self.most, body: body.to_vec() })
    }
}

/// Takes bytes off the front, or refuses.
fn take<'a>(rest: &mut &'a [u8], length: usize, refusal: Refusal) -> Result<&'a [u8], Refusal> {
    if rest.len() < length {
        return Err(refusal);
    }
    let (front, back) = rest.split_at(length);
    *rest = back;
    Ok(front)
}

fn judge_head(count: usize, form: u64) -> Result<(), Refusal> {
    refuse_if(count == 0 || count > MOST_RECORDS || form > 1, 21)
}

/// The records of a file, or its refusal.
pub fn parse(file: &[u8]) -> Result<Vec<Entry>, Refusal> {
    refuse_if(file.len() > LONGEST, 26)?;
    let mut rest = file;
    let head = take(&mut rest, HEAD, Refusal::plain(20))?;
    let (count, form) = (usize::from(head[0]), u64::from(head[1]));
    judge_head(count, form)?;
    let width = file_entry(form);
    let contents = take(&mut rest, width * count, Refusal::plain(20))?;
    let mut entries: Vec<Entry> = Vec::new();
    for (place, entry) in contents.chunks(width).enumerate() {
        let (entry, offset) = entry.split_at(width - OFFSET);
        let fields = if form == 0 { Fields::of(&widened(entry)) } else { Fields::of(entry) };
        fields.judge(place, entries.last().map(|before| before.term))?;
        if number(offset) != (file.len() - rest.len()) as u64 {
            return Err(Refusal::at(22, place).on_byte(HEAD + width * (place + 1) - OFFSET));
        }
        let body = take(&mut rest, fields.body_length(), Refusal::at(28, place).on_byte(file.len()))?;
        entries.push(fields.with_body(body)?);
    }
    refuse_if(!rest.is_empty(), 25)?;
    Ok(entries)
}

/// Tries the entries lent and the form: 20, 21.
fn judge_lent(form: u64, lent: &[u8]) -> Result<(), Refusal> {
    refuse_if(lent.len() % LENT_ENTRY != 0, 20)?;
    judge_head(lent.len() / LENT_ENTRY, form)?;
    refuse_if(form == 0 && lent.chunks(LENT_ENTRY).any(|entry| entry[2] > 1), 21)
}

/// The file of lent entries and one run of all bodies, or the refusal, 27 apart.
pub fn compose(form: u64, lent: &[u8], bodies: &[u8]) -> Result<Vec<u8>, Refusal> {
    judge_lent(form, lent)?;
    let count = lent.len() / LENT_ENTRY;
    let mut rest = bodies;
    let mut contents = Vec::new();
    let mut term_before = None;
    for (place, entry) in lent.chunks(LENT_ENTRY).enumerate() {
        let fields = Fields::of(entry);
        fields.judge(place, term_before)?;
        let offset = HEAD + file_entry(form) * count + bodies.len() - rest.len();
        take(&mut rest, fields.body_length(), Refusal::at(28, place).on_byte(bodies.len()))?;
        contents.extend([in_form(form, entry), bytes(offset as u64, OFFSET)].concat());
        term_before = Some(fields.term);
    }
    refuse_if(!rest.is_empty(), 25)?;
    let file = [&[count as u8, form as u8], &contents[..], bodies].concat();
    refuse_if(file.len() > LONGEST, 26)?;
    Ok(file)
}
