//! The words behind a command. Names of files are as the system has them, which needn't be
//! text.

use crate::failure::Failure;
use bisquetower::refusal::grouped;
use std::ffi::{OsStr, OsString};
use std::ops::RangeInclusive;

/// Words that name things, and options: switches, and some with a value.
#[derive(Debug, Default)]
pub struct Args {
    pub names: Vec<OsString>,
    options: Vec<(String, OsString)>,
}

/// What options a command has.
pub struct Options {
    pub command: &'static str,
    pub switches: &'static [&'static str],
    pub valued: &'static [&'static str],
}

impl Options {
    pub fn read(&self, words: &[OsString]) -> Result<Args, Failure> {
        let mut args = Args::default();
        let mut words = words.iter();
        while let Some(word) = words.next() {
            if word == "--" {
                args.names.extend(words.cloned());
                break;
            }
            if word == "-" || !word.as_encoded_bytes().starts_with(b"-") {
                args.names.push(word.clone());
                continue;
            }
            let (option, value) = self.option(word)?;
            let value = match (self.switches.contains(&option), value) {
                (true, None) => OsString::new(),
                (true, Some(_)) => return Err(self.wrong(format!("{option} takes no value"))),
                (false, _) if !self.valued.contains(&option) => {
                    return Err(self.wrong(format!("there is no option {option}")));
                }
                (false, Some(value)) => value.into(),
                (false, None) => match words.next() {
                    Some(value) => value.clone(),
                    None => return Err(self.wrong(format!("{option} wants a value"))),
                },
            };
            args.options.push((option.to_string(), value));
        }
        Ok(args)
    }

    /// An option, and its value if that stands in the same word.
    fn option<'a>(&self, word: &'a OsStr) -> Result<(&'a str, Option<&'a str>), Failure> {
        let Some(text) = word.to_str() else {
            let word = word.display();
            let what = format!("{word} isn't text: give the value as a word of its own");
            return Err(self.wrong(what));
        };
        Ok(match text.split_once('=') {
            Some((option, value)) => (option, Some(value)),
            None => (text, None),
        })
    }

    /// The names, if they are `N`, as the command wants them.
    pub fn names<const N: usize>(&self, args: &Args, what: &str) -> Result<[OsString; N], Failure> {
        let names = args.names.clone().try_into();
        names.map_err(|names: Vec<OsString>| {
            self.wrong(format!("{what} is wanted, not {} names", names.len()))
        })
    }

    /// The number that an option has.
    pub fn number(&self, args: &Args, option: &str) -> Result<Option<u64>, Failure> {
        let Some(value) = args.value(option) else {
            return Ok(None);
        };
        let number = value.to_str().and_then(|value| value.parse().ok());
        let wrong = || self.wrong(format!("{option} wants a number"));
        number.map(Some).ok_or_else(wrong)
    }

    /// The number that an option has, if it is one of these.
    pub fn number_in(
        &self,
        args: &Args,
        option: &str,
        allowed: RangeInclusive<u64>,
    ) -> Result<Option<u64>, Failure> {
        let number = self.number(args, option)?;
        if number.is_none_or(|number| allowed.contains(&number)) {
            return Ok(number);
        }
        let [least, most] = [allowed.start(), allowed.end()].map(|&number| grouped(number));
        Err(self.wrong(format!("{option} wants a number from {least} to {most}")))
    }

    pub fn wrong(&self, what: impl Into<String>) -> Failure {
        Failure::usage(what, self.command)
    }
}

impl Args {
    pub fn has(&self, switch: &str) -> bool {
        self.value(switch).is_some()
    }

    /// The last value of an option counts.
    pub fn value(&self, option: &str) -> Option<&OsStr> {
        let mut options = self.options.iter().rev();
        let found = options.find(|(name, _)| name == option)?;
        Some(&found.1)
    }
}

/// Whether the words ask for help.
pub fn wants_help(words: &[OsString]) -> bool {
    let mut words = words.iter().take_while(|word| *word != "--");
    words.any(|word| word == "--help" || word == "-h")
}
