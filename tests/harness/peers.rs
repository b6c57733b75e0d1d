//! Puts each case to the real side and to the second program, and compares what they say.

use crate::difference;
use crate::driver::Driver;
use crate::met::Met;
use crate::options::Options;
use crate::packed::Packed;
use crate::printers::Printer;
use crate::program::{run, Feeding};
use crate::request::{Left, Parts, Request};
use std::path::PathBuf;

/// What became of a case; an error says what differs.
pub type Outcome = Result<(), String>;

/// The real side: the C functions behind the driver, the programs that print cuts, and the one that packs texts.
pub struct Peers {
    driver: Driver,
    printers: Vec<Printer>,
    packer: PathBuf,
    case: usize,
    placing: u8,
    by_chance: bool,
    /// How many bytes of a slice or file are shown where something differs.
    shown: usize,
    pub met: Met,
}

impl Peers {
    /// The real side that the options name; a case that is run alone is shown whole.
    pub fn new(options: &Options) -> Peers {
        Peers {
            driver: Driver::at(&options.driver),
            printers: Printer::named(options),
            packer: options.pack.clone(),
            case: 0,
            placing: 0,
            by_chance: false,
            shown: if options.case.is_some() { usize::MAX } else { 48 },
            met: Met::default(),
        }
    }

    /// Begins a case, so that it runs the same alone as among others.
    pub fn begin(&mut self, case: usize, by_chance: bool) {
        self.case = case;
        self.placing = (case % 4) as u8;
        self.by_chance = by_chance;
    }

    /// Runs a call; what it leaves is returned where both sides agree on every byte.
    pub fn call(&mut self, request: &Request) -> Result<Left, String> {
        self.compared(request).map_err(|words| self.told(request, &words))
    }

    fn compared(&mut self, request: &Request) -> Result<Left, String> {
        let expected = request.expected();
        self.placing = (self.placing + 1) % 4;
        let answer = self.driver.ask(request, self.placing)?;
        self.met.note_call(request.call, expected.code(), self.by_chance, answer.stack);
        if answer.strayed {
            return Err("bytes beside a lent slice changed".to_string());
        }
        match difference::between(request, &expected, &answer.left) {
            Some(words) => Err(words),
            None => Ok(answer.left),
        }
    }

    /// Runs a call that is meant to be answered with the code.
    pub fn call_for(&mut self, code: u64, request: &Request) -> Result<Left, String> {
        let left = self.call(request)?;
        if left.code() == code {
            return Ok(left);
        }
        let words = format!("meant for code {}, got {}", code, left.code());
        Err(self.told(request, &words))
    }

    /// Runs a call that is meant to be answered with the code at the place, with the position.
    pub fn call_at(&mut self, code: u64, place: usize, position: usize, request: &Request) -> Outcome {
        let meant = Parts { code, place: place as u64, position: position as u64 };
        let got = self.call(request)?.parts();
        if got == meant {
            return Ok(());
        }
        let words = format!("meant for {}, got {}", meant.in_words(), got.in_words());
        Err(self.told(request, &words))
    }

    fn told(&self, request: &Request, words: &str) -> String {
        format!("{}\n  {}", words, request.in_words(self.shown))
    }

    /// Prints the cuts of a file; the text is returned where all programs agree.
    pub fn cuts(&mut self, file: &[u8], feeding: Feeding) -> Result<String, String> {
        let expected = second::lines::text(file);
        self.met.note_file(&expected, self.by_chance);
        for printer in self.printers.iter().filter(|printer| printer.is_run_in(self.case)) {
            printer.compare(file, feeding, &expected).map_err(|words| {
                let request = Request::read_file(file.to_vec());
                format!("{}, fed {:?}: {}", printer.name, feeding, self.told(&request, &words))
            })?;
        }
        Ok(expected)
    }

    /// Packs a text, and judges what comes of it.
    pub fn pack(&mut self, text: &[u8], judge: impl FnOnce(Packed) -> Outcome) -> Outcome {
        let said = run(&self.packer, &[], text, Feeding::AtOnce)?;
        Packed::of(said, text).and_then(judge).map_err(|words| {
            let shown = String::from_utf8_lossy(&text[..text.len().min(self.shown)]);
            let more = if text.len() > self.shown { ".." } else { "" };
            format!("make_record: {}\n  text of {} bytes: {:?}{}", words, text.len(), shown, more)
        })
    }
}
