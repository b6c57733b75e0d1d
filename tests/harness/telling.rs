//! How a program tells the refusals that stand in a text of cuts: by its status, and by a sentence
//! for each on standard error.

/// The codes whose place counts observations, and those whose place counts entries.
const AT_INDEX: [u64; 4] = [8, 9, 10, 11];
const AT_ENTRY: [u64; 5] = [22, 23, 24, 28, 29];

/// A refusal that stands in a text.
pub struct Refusal<'a> {
    /// `file`, or `term` and its number.
    who: &'a str,
    code: u64,
    place: &'a str,
    /// The byte position, `0` where there is none.
    position: &'a str,
}

impl<'a> Refusal<'a> {
    /// The refusal that a line of the text is, if it is one. The line of a file has a position at its end.
    fn of(line: &'a str) -> Option<Refusal<'a>> {
        let (who, rest) = line.split_once(" code ")?;
        let (code, rest) = rest.split_once(" place ")?;
        let (place, position) = match who {
            "file" => rest.split_once(" at ").expect("the line of a refused file ends in a position"),
            _ => (rest, "0"),
        };
        let code = code.parse().expect("a code is a number");
        (code != 0).then_some(Refusal { who, code, place, position })
    }

    /// What a sentence says of the place; nothing for a code that has none.
    fn place_in_words(&self) -> String {
        match self.code {
            code if AT_INDEX.contains(&code) => format!(", at index {}", self.place),
            code if AT_ENTRY.contains(&code) => format!(", at entry {}", self.place),
            _ => String::new(),
        }
    }

    fn position_in_words(&self) -> String {
        match self.position {
            "0" => String::new(),
            position => format!(", byte {}", position),
        }
    }

    fn end_of_sentence(&self) -> String {
        format!("{}{} (code {})", self.place_in_words(), self.position_in_words(), self.code)
    }

    /// Whether a sentence tells this refusal, and in words between its two ends.
    fn is_told(&self, sentence: &str) -> bool {
        let words = sentence
            .strip_prefix(self.who)
            .and_then(|rest| rest.strip_prefix(": "))
            .and_then(|rest| rest.strip_suffix(&self.end_of_sentence()));
        words.map_or(false, |words| !words.trim().is_empty() && !words.contains(", at ") && !words.contains(", byte "))
    }
}

/// The refusals that stand in a text, in order.
pub fn refusals(text: &str) -> Vec<Refusal<'_>> {
    text.lines().filter_map(Refusal::of).collect()
}

/// 2 where the file is refused, 1 where some term is, else 0.
pub fn status(refusals: &[Refusal]) -> i32 {
    match refusals.first() {
        Some(refusal) if refusal.who == "file" => 2,
        Some(_) => 1,
        None => 0,
    }
}

/// An error where the complaint is not one whole line for each refusal, in order.
pub fn judge_sentences(refusals: &[Refusal], complaint: &str) -> Result<(), String> {
    let sentences: Vec<&str> = complaint.lines().collect();
    if sentences.len() != refusals.len() || !(complaint.is_empty() || complaint.ends_with('\n')) {
        return Err(format!("expected {} lines on standard error, got {:?}", refusals.len(), complaint));
    }
    match refusals.iter().zip(sentences).find(|(refusal, sentence)| !refusal.is_told(sentence)) {
        Some((refusal, sentence)) => {
            Err(format!("expected \"{}: ..{}\", got {:?}", refusal.who, refusal.end_of_sentence(), sentence))
        }
        None => Ok(()),
    }
}
