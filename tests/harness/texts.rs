//! Texts to pack: lines of fields, written in any of the ways that a text may be written.

use crate::calendar::{date_of, DATED};
use crate::files::Entry;
use crate::rng::Rng;
use second::number::number;

/// The fields of a line.
pub type Row = Vec<String>;

/// What the samples of a channel are called, and how each of them is written.
pub type Written = (&'static str, Vec<String>);

/// A text in the making.
#[derive(Default)]
pub struct Text {
    pub bytes: Vec<u8>,
    /// The number of the line that each row stands on.
    pub numbers: Vec<usize>,
    lines: usize,
}

/// How one text is written: how often of a hundred a freedom is taken.
struct Hand {
    quoting: usize,
    blanks: usize,
    comments: usize,
    fillers: usize,
    ends: &'static [&'static str],
}

const SEPARATORS: [&str; 9] = [" ", "  ", "\t", " \t ", ",", ", ", " ,", " , ", "\t,\t"];
const BLANKS: [&str; 4] = [" ", "\t", "   ", "\t "];
const COMMENTS: [&str; 6] = ["#", "# queries", "#,", "# \"matin\u{e9}e\", 5", "## term 1 kernel", "#\t\""];
const MARK: &str = "\u{feff}";

impl Hand {
    fn drawn(rng: &mut Rng) -> Hand {
        let mut freedom = || rng.pick(&[0, 0, 5, 50]);
        let (quoting, blanks, comments, fillers) = (freedom(), freedom(), freedom(), freedom());
        let ends: [&[&str]; 3] = [&["\n"], &["\r\n"], &["\n", "\r\n"]];
        Hand { quoting, blanks, comments, fillers, ends: rng.pick(&ends) }
    }

    fn blanks(&self, rng: &mut Rng) -> &'static str {
        if rng.chance(self.blanks) {
            rng.pick(&BLANKS)
        } else {
            ""
        }
    }

    /// A field as it is, or in quotes where it would be read otherwise.
    fn field(&self, rng: &mut Rng, field: &str) -> String {
        let needed = field.starts_with('#') || field.contains(&[' ', '\t', ',', '"'][..]);
        if needed || rng.chance(self.quoting) {
            format!("\"{}\"", field.replace('"', "\"\""))
        } else {
            field.to_string()
        }
    }

    fn line(&self, rng: &mut Rng, row: &[String]) -> String {
        let mut line = self.blanks(rng).to_string();
        for (index, field) in row.iter().enumerate() {
            line += if index > 0 { rng.pick(&SEPARATORS) } else { "" };
            line += &self.field(rng, field);
        }
        if rng.chance(self.comments) {
            line += rng.pick(&BLANKS);
            line += rng.pick(&COMMENTS);
        }
        line + self.blanks(rng)
    }

    /// A line without a field.
    fn filler(&self, rng: &mut Rng) -> String {
        let comment = if rng.chance(50) { rng.pick(&COMMENTS) } else { "" };
        self.blanks(rng).to_string() + comment
    }
}

impl Text {
    /// The rows in one of the ways to write them.
    pub fn of(rng: &mut Rng, rows: &[Row]) -> Text {
        let hand = Hand::drawn(rng);
        let mut text = Text::default();
        if rng.chance(20) {
            text.bytes.extend(MARK.bytes());
        }
        for row in rows {
            text.add_fillers(rng, &hand);
            text.numbers.push(text.lines + 1);
            let line = hand.line(rng, row);
            text.add(rng, &hand, &line);
        }
        text.add_fillers(rng, &hand);
        if rng.chance(25) {
            text.leave_unended();
        }
        text
    }

    fn add(&mut self, rng: &mut Rng, hand: &Hand, line: &str) {
        self.bytes.extend(line.bytes());
        self.bytes.extend(rng.pick(hand.ends).bytes());
        self.lines += 1;
    }

    fn add_fillers(&mut self, rng: &mut Rng, hand: &Hand) {
        while rng.chance(hand.fillers) {
            let filler = hand.filler(rng);
            self.add(rng, hand, &filler);
        }
    }

    /// Takes the end of the last line off.
    fn leave_unended(&mut self) {
        for end in [b'\n', b'\r'] {
            if self.bytes.last() == Some(&end) {
                self.bytes.pop();
            }
        }
    }
}

/// The rows of a term: what its line says, and a row for each observation with the samples as they are written for
/// each channel.
pub fn rows_of(rng: &mut Rng, entry: &Entry, written: &[Written]) -> Vec<Row> {
    let days = entry.body.chunks(entry.width()).map(|observation| number(&observation[..4]) as u32);
    let mut rows = vec![term_row(rng, entry, written)];
    for (index, day) in days.enumerate() {
        let samples = written.iter().map(|(_, samples)| samples[index].clone());
        rows.push([in_days(rng, day)].into_iter().chain(samples).collect());
    }
    rows
}

/// A key and its value.
type Pair = (&'static str, String);

/// The term first, then the other pairs: of one channel in any order, of several with what is said of a channel's
/// samples behind its kernel.
fn term_row(rng: &mut Rng, entry: &Entry, written: &[Written]) -> Row {
    let said = entry.channels.iter().zip(written);
    let mut pairs: Vec<Pair> = said.flat_map(|(channel, (named, _))| pairs_of(rng, channel.kernel, named)).collect();
    let dmax = in_digits(rng, i64::from(entry.most));
    pairs.insert(rng.below(pairs.len() + 1), ("dmax", dmax));
    if entry.channels.len() == 1 {
        for last in (1..pairs.len()).rev() {
            pairs.swap(last, rng.below(last + 1));
        }
    }
    pairs.insert(0, ("term", in_digits(rng, i64::from(entry.term))));
    pairs.into_iter().flat_map(|(key, value)| [key.to_string(), value]).collect()
}

/// The kernel of a channel, and what its samples are; counts need not be named.
fn pairs_of(rng: &mut Rng, kernel: u8, named: &str) -> Vec<Pair> {
    let names = ["linear", "spelling", "energy"].map(String::from);
    let by_number = in_digits(rng, i64::from(kernel));
    let kernel = if rng.chance(50) { by_number } else { names[usize::from(kernel) - 1].clone() };
    let samples = (named != "counts" || rng.chance(50)).then(|| ("samples", named.to_string()));
    [("kernel", kernel)].into_iter().chain(samples).collect()
}

/// A day as a number or, if it has one, as its date.
fn in_days(rng: &mut Rng, day: u32) -> String {
    if day < DATED && rng.chance(60) {
        date_of(day)
    } else {
        in_digits(rng, i64::from(day))
    }
}

/// A whole number.
pub fn in_digits(rng: &mut Rng, whole: i64) -> String {
    with_zeros(rng, whole.to_string())
}

/// A share in as many digits as tell it from others, or in more.
pub fn in_decimals(rng: &mut Rng, share: f64) -> String {
    let decimals = match rng.below(4) {
        0 => format!("{}", share),
        1 => format!("{:e}", share),
        2 => format!("{:E}", share),
        _ => format!("{:.30}", share),
    };
    with_zeros(rng, decimals)
}

/// A number with zeros before its digits now and then.
fn with_zeros(rng: &mut Rng, text: String) -> String {
    let zeros = "0".repeat(if rng.chance(10) { 1 + rng.below(24) } else { 0 });
    match text.strip_prefix('-') {
        Some(digits) => format!("-{}{}", zeros, digits),
        None => zeros + &text,
    }
}
