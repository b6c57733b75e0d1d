//! The programs that print the cuts of a file.

use crate::difference;
use crate::options::Options;
use crate::peers::Outcome;
use crate::program::{run, Feeding};
use crate::telling;
use std::path::{Path, PathBuf};

/// One of the programs: all print the same text.
pub struct Printer {
    pub name: &'static str,
    path: PathBuf,
    arguments: &'static [&'static str],
    /// Whether it tells refusals beside the text; one that does not ends with status 0 and says nothing more.
    tells: bool,
    /// It is run in cases whose number this divides.
    every: usize,
}

/// The command is a shell script and takes a while. The number is odd, so that it falls to each worker in turn.
const COMMAND_EVERY: usize = 13;

impl Printer {
    /// One that tells refusals and is run without arguments in every case.
    fn at(path: &Path, name: &'static str) -> Printer {
        Printer { name, path: path.to_path_buf(), arguments: &[], tells: true, every: 1 }
    }

    /// Those that the options name.
    pub fn named(options: &Options) -> Vec<Printer> {
        let cuts = options.cuts.iter().map(|path| Printer { tells: false, ..Printer::at(path, "cuts") });
        let example = options.example.iter().map(|path| Printer::at(path, "the C example"));
        let command = options.command.iter().map(|path| Printer {
            arguments: &["-"],
            every: COMMAND_EVERY,
            ..Printer::at(path, "the command ./cuts")
        });
        cuts.chain(example).chain(command).collect()
    }

    pub fn is_run_in(&self, case: usize) -> bool {
        case % self.every == 0
    }

    /// Runs it on a file, and holds what it says to the text.
    pub fn compare(&self, file: &[u8], feeding: Feeding, text: &str) -> Outcome {
        let said = run(&self.path, self.arguments, file, feeding)?;
        let refusals = if self.tells { telling::refusals(text) } else { Vec::new() };
        said.expect_status(telling::status(&refusals))?;
        let printed = String::from_utf8_lossy(&said.output);
        if printed != text {
            return Err(difference::between_texts(text, &printed));
        }
        telling::judge_sentences(&refusals, &said.complaint)
    }
}
