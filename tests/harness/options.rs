//! The harness's arguments: those of tests/run, and those that tests/run adds.

use std::path::PathBuf;

/// What a run is asked for.
pub struct Options {
    pub driver: PathBuf,
    /// The program that prints the cuts of a file and says nothing more.
    pub cuts: Option<PathBuf>,
    /// The C example and the command, which print the same and tell refusals.
    pub example: Option<PathBuf>,
    pub command: Option<PathBuf>,
    /// The program that makes a record file of a text.
    pub pack: PathBuf,
    /// The command that compares the same two sides again.
    pub again: String,
    pub seed: u64,
    /// Only this case.
    pub case: Option<usize>,
    /// Only families whose name has one of these words, if there are any.
    pub only: Vec<String>,
    /// Only each case whose number this divides.
    pub every: usize,
    /// Passed and failed checks made before, to be counted in the last line.
    pub carried: (usize, usize),
}

pub const USAGE: &str = "tests/run [--stand-in FOLDER] [--seed S] [--case N] [--only WORDS]... [--every K]";

impl Options {
    /// Whether all cases are asked for.
    pub fn whole(&self) -> bool {
        self.case.is_none() && self.only.is_empty() && self.every == 1
    }

    /// Whether families of the name are asked for.
    pub fn wants(&self, family: &str) -> bool {
        self.only.is_empty() || self.only.iter().any(|words| family.contains(words))
    }

    pub fn from(arguments: impl Iterator<Item = String>) -> Option<Options> {
        let mut options = Options {
            driver: PathBuf::new(),
            cuts: None,
            example: None,
            command: None,
            pack: PathBuf::new(),
            again: String::new(),
            seed: 1,
            case: None,
            only: Vec::new(),
            every: 1,
            carried: (0, 0),
        };
        let mut arguments = arguments;
        while let Some(name) = arguments.next() {
            options.set(&name, arguments.next()?)?;
        }
        options.prints().then_some(options)
    }

    /// Whether some program prints the cuts of every file.
    fn prints(&self) -> bool {
        self.cuts.is_some() || self.example.is_some()
    }

    fn set(&mut self, name: &str, value: String) -> Option<()> {
        match name {
            "--driver" => self.driver = PathBuf::from(value),
            "--cuts" => self.cuts = Some(PathBuf::from(value)),
            "--example" => self.example = Some(PathBuf::from(value)),
            "--command" => self.command = Some(PathBuf::from(value)),
            "--pack" => self.pack = PathBuf::from(value),
            "--again" => self.again = value,
            "--seed" => self.seed = value.parse().ok()?,
            "--case" => self.case = Some(value.parse().ok()?),
            "--only" => self.only.push(value),
            "--every" => self.every = value.parse().ok().filter(|&every| every > 0)?,
            "--carried" => {
                let (passed, failed) = value.split_once(',')?;
                self.carried = (passed.parse().ok()?, failed.parse().ok()?);
            }
            _ => return None,
        }
        Some(())
    }
}
