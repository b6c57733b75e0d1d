//! What the program that packs a text answers.

use crate::program::Said;

/// What comes of a text: a file, or the lines whose faults are told.
pub enum Packed {
    File(Vec<u8>),
    Faults(Vec<usize>),
}

/// How many faults are told at most; how many more there are is told in a line after them.
const MOST_TOLD: usize = 100;

impl Packed {
    /// What the program says of a text; an error where it has no form of an answer.
    pub fn of(said: Said, text: &[u8]) -> Result<Packed, String> {
        if said.status.code() == Some(0) && said.complaint.is_empty() {
            return Ok(Packed::File(said.output));
        }
        said.expect_status(1)?;
        if !said.output.is_empty() {
            return Err(format!("{} bytes are written beside {:?}", said.output.len(), said.complaint));
        }
        match told_lines(&said.complaint).filter(|told| may_be_told(told, text)) {
            Some(told) => Ok(Packed::Faults(told)),
            None => Err(format!("faults are told in another form: {:?}", said.complaint)),
        }
    }
}

/// The numbers of the lines whose faults are told before the last line; none where it has another form.
fn told_lines(complaint: &str) -> Option<Vec<usize>> {
    let faults = complaint.strip_suffix("nothing is written\n")?;
    let mut lines: Vec<&str> = faults.split_terminator('\n').collect();
    if lines.len() == MOST_TOLD + 1 {
        lines.pop()?.strip_prefix("and ")?.strip_suffix(" faults more")?.parse::<usize>().ok()?;
    }
    lines.into_iter().map(told_line).collect()
}

fn told_line(line: &str) -> Option<usize> {
    let (number, words) = line.strip_prefix("line ")?.split_once(": ")?;
    number.parse().ok().filter(|_| !words.is_empty())
}

/// Whether there is a fault, and all are of lines of the text, in their order. An empty text counts as a line.
fn may_be_told(told: &[usize], text: &[u8]) -> bool {
    let lines = text.split_inclusive(|&byte| byte == b'\n').count().max(1);
    let in_order = told.windows(2).all(|pair| pair[0] <= pair[1]);
    !told.is_empty() && told.len() <= MOST_TOLD && in_order && told.iter().all(|line| (1..=lines).contains(line))
}
