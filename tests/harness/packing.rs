//! Texts given to the program that packs them: sound, damaged, of words, and of shares to be rounded.

use crate::calendar::DATED;
use crate::difference;
use crate::files::{held, of_lengths, put, Entry, Records, SEVERAL, SINGLE};
use crate::packed::Packed;
use crate::peers::{Outcome, Peers};
use crate::records::{bits, body, channel, days, length, KERNELS, LIMIT, SPELLING};
use crate::rng::Rng;
use crate::telling::refusals;
use crate::texts::{in_decimals, in_digits, rows_of, Row, Text, Written};
use second::file::LONGEST;
use second::record::{observation, Channel, MOST_CHANNELS};

/// Packs a text of which the file is to come.
fn pack_into(peers: &mut Peers, text: &Text, file: &[u8]) -> Outcome {
    peers.pack(&text.bytes, |packed| match packed {
        Packed::File(made) if made == file => Ok(()),
        Packed::File(made) => Err(difference::between_files(file, &made)),
        Packed::Faults(lines) => Err(format!("faults of the lines {:?} are told", lines)),
    })
}

/// Packs a text in which the lines have a fault each.
fn pack_in_vain(peers: &mut Peers, text: &Text, faulty: &[usize]) -> Outcome {
    peers.pack(&text.bytes, |packed| match packed {
        Packed::File(_) => Err(format!("packed in spite of the lines {:?}", faulty)),
        Packed::Faults(lines) if lines == faulty => Ok(()),
        Packed::Faults(lines) => Err(format!("faults of the lines {:?} are told, not of {:?}", lines, faulty)),
    })
}

/// The file that is made of entries: of form 0 where every term has one channel.
fn file_of(entries: &[Entry]) -> Vec<u8> {
    let form = if entries.iter().all(|entry| entry.channels.len() == 1) { SINGLE } else { SEVERAL };
    Records::of(form, entries.to_vec()).file()
}

/// A few sound entries, their lengths drawn so, in half of the texts of one channel each. Their days often have
/// dates, and their shares are -0.0 now and then.
fn drawn(rng: &mut Rng, length: fn(&mut Rng) -> usize) -> Vec<Entry> {
    let count = 1 + rng.below(6);
    let most = LONGEST / observation(MOST_CHANNELS) / count - 1;
    let lengths: Vec<usize> = (0..count).map(|_| length(rng).min(most)).collect();
    let form = rng.pick(&[SINGLE, SEVERAL]);
    let mut entries = of_lengths(rng, form, &lengths).entries;
    for entry in &mut entries {
        if rng.chance(60) {
            put_dated_days(rng, entry);
        }
        let place = rng.below(entry.channels.len());
        if entry.channels[place].kind == 1 && rng.chance(30) {
            let span = entry.sample(rng.below(entry.n()), place);
            put(&mut entry.body, span, (-0.0f64).to_bits());
        }
    }
    entries
}

/// Puts days that all have dates: in a row, or spread over all such days.
fn put_dated_days(rng: &mut Rng, entry: &mut Entry) {
    let (n, width) = (entry.n(), entry.width());
    let widest = rng.pick(&[1, 40, DATED as usize / n]);
    let mut day = rng.below(DATED as usize - widest * n + 1);
    for index in 0..n {
        put(&mut entry.body, (width * index, 4), day as u64);
        day += 1 + rng.below(widest);
    }
}

/// The entries in one of the ways to write them.
fn text_of(rng: &mut Rng, entries: &[Entry]) -> Text {
    let mut rows = Vec::new();
    for entry in entries {
        let written: Vec<Written> = (0..entry.channels.len()).map(|place| written(rng, entry, place)).collect();
        rows.extend(rows_of(rng, entry, &written));
    }
    Text::of(rng, &rows)
}

/// The samples of a channel as numbers.
fn written(rng: &mut Rng, entry: &Entry, place: usize) -> Written {
    let kind = entry.channels[place].kind;
    let samples = (0..entry.n()).map(|index| sample(rng, kind, held(&entry.body, entry.sample(index, place))));
    (["counts", "shares"][usize::from(kind)], samples.collect())
}

fn sample(rng: &mut Rng, kind: u8, bits: u64) -> String {
    if kind == 1 {
        in_decimals(rng, f64::from_bits(bits))
    } else {
        in_digits(rng, bits as i64)
    }
}

pub fn sound_text(rng: &mut Rng, _: usize, peers: &mut Peers) -> Outcome {
    let entries = drawn(rng, length);
    let text = text_of(rng, &entries);
    pack_into(peers, &text, &file_of(&entries))
}

/// Words that differ in little, and words that are to stand in quotes.
const WORDS: [&str; 20] = [
    "matinee",
    "matin\u{e9}e",
    "matine\u{301}e",
    "mattinay",
    "Matinee",
    "matinee ",
    " matinee",
    "matinee coat",
    "coat, knitted",
    ",",
    "the \"matinee\"",
    "\"",
    "\"\"",
    "#1",
    "#",
    "a#b",
    "\t",
    "term",
    "1",
    "01",
];

fn word(rng: &mut Rng, numbered: bool) -> String {
    if numbered {
        format!("coat {}", rng.below(1000))
    } else {
        rng.pick(&WORDS).to_string()
    }
}

/// The codes of words: equal words have equal codes, and each new one has the next.
fn codes_of(words: &[String]) -> Vec<u64> {
    let mut met: Vec<&String> = Vec::new();
    let mut codes = Vec::new();
    for word in words {
        let known = met.iter().position(|&one| one == word);
        codes.push(1 + known.unwrap_or(met.len()) as u64);
        if known.is_none() {
            met.push(word);
        }
    }
    codes
}

/// Terms with channels of words, beside counts; each channel counts its words anew.
pub fn words(rng: &mut Rng, _: usize, peers: &mut Peers) -> Outcome {
    let (mut entries, mut rows): (Vec<Entry>, Vec<Row>) = (Vec::new(), Vec::new());
    for term in 0..1 + rng.below(4) as u16 {
        let (n, count) = (length(rng), 1 + rng.below(MOST_CHANNELS));
        let mut measured: Vec<(Channel, Written, Vec<u64>)> = (1..count).map(|_| words_or_counts(rng, n)).collect();
        measured.insert(rng.below(count), of_words(rng, n));
        let bits: Vec<Vec<u64>> = measured.iter().map(|(_, _, bits)| bits.clone()).collect();
        let written: Vec<Written> = measured.iter().map(|(_, written, _)| written.clone()).collect();
        let channels = measured.iter().map(|(channel, _, _)| *channel).collect();
        let most = 1 + rng.below(n.min(12)) as u16;
        let entry = Entry { term, channels, most, body: body(&days(rng, n), &bits) };
        rows.extend(rows_of(rng, &entry, &written));
        entries.push(entry);
    }
    let text = Text::of(rng, &rows);
    pack_into(peers, &text, &file_of(&entries))
}

fn of_words(rng: &mut Rng, n: usize) -> (Channel, Written, Vec<u64>) {
    let numbered = rng.chance(20);
    let words: Vec<String> = (0..n).map(|_| word(rng, numbered)).collect();
    let codes = codes_of(&words);
    (Channel { kernel: SPELLING, kind: 0 }, ("words", words), codes)
}

fn words_or_counts(rng: &mut Rng, n: usize) -> (Channel, Written, Vec<u64>) {
    if rng.chance(50) {
        return of_words(rng, n);
    }
    let counts: Vec<i64> = (0..n).map(|_| rng.between(-LIMIT, LIMIT)).collect();
    let written = counts.iter().map(|&count| in_digits(rng, count)).collect();
    (Channel { kernel: rng.pick(&KERNELS), kind: 0 }, ("counts", written), counts.iter().map(|&x| x as u64).collect())
}

/// So many parts are made of each 1/65,536.
const PARTS: i64 = 1024;

/// A count of parts, often at an end of the range, beside 0, or in the middle between two multiples.
fn parts(rng: &mut Rng) -> i64 {
    let anywhere = rng.between(-LIMIT, LIMIT);
    let whole = rng.pick(&[-LIMIT - 1, -LIMIT, LIMIT, -1, 0, anywhere, anywhere]);
    let some = rng.between(0, PARTS - 1);
    whole * PARTS + rng.pick(&[0, PARTS / 2 - 1, PARTS / 2, PARTS / 2, PARTS / 2 + 1, PARTS - 1, some])
}

/// The nearest whole multiple, halves away from 0.
fn nearest(parts: i64) -> i64 {
    parts.signum() * ((parts.abs() + PARTS / 2) / PARTS)
}

fn in_range(parts: i64) -> bool {
    nearest(parts).abs() <= LIMIT
}

/// Shares between multiples of 1/65,536, alone or behind a channel of zeros; what is out of range when it is rounded
/// is a fault of its line.
pub fn rounded(rng: &mut Rng, index: usize, peers: &mut Peers) -> Outcome {
    let (n, far) = (length(rng).min(60), rng.chance(20));
    let parts: Vec<i64> = (0..n).map(|_| parts(rng)).filter(|&parts| far || in_range(parts)).chain([0]).collect();
    let shares = parts.iter().map(|&parts| parts as f64 / (PARTS * 65_536) as f64);
    let mut written = vec![("rounded-shares", shares.map(|share| in_decimals(rng, share)).collect())];
    let mut channels = vec![Channel { kind: 1, ..channel(rng) }];
    let mut samples: Vec<Vec<u64>> = vec![parts.iter().map(|&parts| bits(nearest(parts), 1)).collect()];
    if index % 3 == 0 {
        written.insert(0, ("counts", vec!["0".to_string(); parts.len()]));
        channels.insert(0, Channel { kind: 0, ..channel(rng) });
        samples.insert(0, vec![0; parts.len()]);
    }
    let entry = Entry { term: 5, channels, most: 1, body: body(&days(rng, parts.len()), &samples) };
    let rows = rows_of(rng, &entry, &written);
    let text = Text::of(rng, &rows);
    let lines = text.numbers[1..].iter().zip(&parts);
    let faulty: Vec<usize> = lines.filter(|(_, &parts)| !in_range(parts)).map(|(&line, _)| line).collect();
    if faulty.is_empty() {
        pack_into(peers, &text, &file_of(&[entry]))
    } else {
        pack_in_vain(peers, &text, &faulty)
    }
}

/// Deletes, doubles or replaces a byte, or deletes or doubles a line, or swaps it with the line before it.
fn damage(rng: &mut Rng, text: &mut Vec<u8>) {
    if text.is_empty() {
        return;
    }
    let at = rng.below(text.len());
    match rng.below(7) {
        0 => drop(text.remove(at)),
        1 => text.insert(at, text[at]),
        2 => text[at] = rng.next() as u8,
        3 => text[at] = rng.pick(b"0123456789-.,eE\"# \t\n"),
        4 => damage_line(rng, text, |lines, at| {
            lines.remove(at);
        }),
        5 => damage_line(rng, text, |lines, at| lines.insert(at, lines[at])),
        _ => damage_line(rng, text, |lines, at| lines.swap(at.saturating_sub(1), at)),
    }
}

/// Damages one of the lines.
fn damage_line(rng: &mut Rng, text: &mut Vec<u8>, damage: fn(&mut Vec<&[u8]>, usize)) {
    let mut lines: Vec<&[u8]> = text.split_inclusive(|&byte| byte == b'\n').collect();
    let at = rng.below(lines.len());
    damage(&mut lines, at);
    *text = lines.concat();
}

/// Terms of few observations, none more than segments: damage meets their term lines, and one line less is a fault.
fn tight(rng: &mut Rng) -> Vec<Entry> {
    let mut entries = drawn(rng, |rng| 1 + rng.below(4));
    entries.iter_mut().for_each(|entry| entry.most = entry.n() as u16);
    entries
}

/// A damaged text is packed into a file of terms that are all done, or its faults are told.
pub fn damaged(rng: &mut Rng, index: usize, peers: &mut Peers) -> Outcome {
    let entries = if index % 2 == 0 { tight(rng) } else { drawn(rng, length) };
    let mut text = text_of(rng, &entries).bytes;
    for _ in 0..1 + rng.below(3) {
        damage(rng, &mut text);
    }
    peers.pack(&text, |packed| match packed {
        Packed::File(made) if refusals(&second::lines::text(&made)).is_empty() => Ok(()),
        Packed::File(made) => Err(format!("what is packed is refused:\n{}", second::lines::text(&made))),
        Packed::Faults(_) => Ok(()),
    })
}
