//! The command line that the comparisons share: `--cases N --seed S`, and `--replay FILE`.

use std::env;
use std::path::PathBuf;

/// The seed of every run that names none.
pub const SEED: u64 = 1;

/// What the command line asks for.
#[derive(Debug, PartialEq, Eq)]
pub struct Options {
    pub cases: u64,
    pub seed: u64,
    pub replay: Option<PathBuf>,
}

impl Options {
    /// The options of this process, or what is wrong with them.
    pub fn of_process(cases: u64) -> Result<Options, String> {
        Options::parse(cases, env::args().skip(1))
    }

    fn parse(cases: u64, arguments: impl Iterator<Item = String>) -> Result<Options, String> {
        let mut options = Options {
            cases,
            seed: SEED,
            replay: None,
        };
        let mut arguments = arguments;
        while let Some(name) = arguments.next() {
            let value = arguments.next().ok_or(format!("{name} needs a value"))?;
            match name.as_str() {
                "--cases" => options.cases = number(&value)?,
                "--seed" => options.seed = number(&value)?,
                "--replay" => options.replay = Some(PathBuf::from(value)),
                _ => return Err(format!("{name}: no such option")),
            }
        }
        Ok(options)
    }
}

fn number(text: &str) -> Result<u64, String> {
    let digits = text.replace('_', "");
    digits.parse().map_err(|_| format!("{text}: no number"))
}

#[cfg(test)]
mod tests {
    use super::*;

    fn parsed(arguments: &[&str]) -> Result<Options, String> {
        Options::parse(7, arguments.iter().map(ToString::to_string))
    }

    #[test]
    fn defaults_and_values() {
        let defaults = parsed(&[]).unwrap();
        assert_eq!((defaults.cases, defaults.seed), (7, SEED));
        let named = parsed(&["--seed", "5", "--cases", "1_000"]).unwrap();
        assert_eq!((named.cases, named.seed), (1000, 5));
        assert!(parsed(&["--cases"]).is_err());
        assert!(parsed(&["--cases", "x"]).is_err());
        assert!(parsed(&["--else", "1"]).is_err());
    }
}
