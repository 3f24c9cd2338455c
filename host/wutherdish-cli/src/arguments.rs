//! The arguments of a call.

use std::collections::VecDeque;
use std::ffi::{OsStr, OsString};
use std::os::unix::ffi::OsStrExt;

use crate::problem::{Problem, shown};
use crate::usage::{self, Opt};

/// Arguments that nothing has taken yet.
#[derive(Default)]
pub struct Arguments {
    options: Vec<(&'static Opt, Option<OsString>)>,
    words: VecDeque<OsString>,
}

impl Arguments {
    /// Tells options, with their values, from words. After `--` there are words alone.
    pub fn read(mut arguments: impl Iterator<Item = OsString>) -> Result<Self, Problem> {
        let mut read = Self::default();
        while let Some(argument) = arguments.next() {
            if argument == "--" {
                read.words.extend(arguments);
                break;
            }
            if is_option(&argument) {
                read.add(&argument, &mut arguments)?;
            } else {
                read.words.push_back(argument);
            }
        }
        Ok(read)
    }

    /// Adds an option. Its value stands after it, or in it after `=`.
    fn add(&mut self, argument: &OsStr, rest: &mut impl Iterator<Item = OsString>) -> Result<(), Problem> {
        let (name, joined) = split(argument);
        let Some(option) = name.to_str().and_then(usage::option) else { return Err(unknown(name)) };
        let value = match (option.value, joined) {
            (None, Some(_)) => return Err(wrong(format!("{} takes no value", shown(name)))),
            (None, None) => None,
            (Some(_), joined) => joined.map(OsStr::to_os_string).or_else(|| rest.next()),
        };
        if option.value.is_some() && value.as_ref().is_none_or(|value| value.is_empty()) {
            return Err(wrong(format!("{} needs a value", option.name)));
        }
        if self.options.iter().any(|(other, _)| other.name == option.name) {
            return Err(wrong(format!("{} stands twice", option.name)));
        }
        self.options.push((option, value));
        Ok(())
    }

    /// Takes an option that stands alone.
    pub fn flag(&mut self, option: &Opt) -> bool {
        self.take(option).is_some()
    }

    /// Takes the value of an option.
    pub fn value(&mut self, option: &Opt) -> Option<OsString> {
        self.take(option).flatten()
    }

    fn take(&mut self, option: &Opt) -> Option<Option<OsString>> {
        let place = self.options.iter().position(|(other, _)| other.name == option.name)?;
        Some(self.options.remove(place).1)
    }

    /// Takes the first word that is left.
    pub fn next(&mut self) -> Option<OsString> {
        self.words.pop_front()
    }

    /// Nothing is left.
    pub fn done(mut self) -> Result<(), Problem> {
        if let Some((option, _)) = self.options.first() {
            return Err(unknown(OsStr::new(option.name)));
        }
        match self.next() {
            None => Ok(()),
            Some(other) => Err(wrong(format!("{} is one argument too many", shown(&other)))),
        }
    }
}

fn is_option(argument: &OsStr) -> bool {
    argument.len() > 1 && argument.as_bytes().starts_with(b"-")
}

/// An option's name, and the value after a `=`. A name of one letter is all that stands before a value.
fn split(argument: &OsStr) -> (&OsStr, Option<&OsStr>) {
    let bytes = argument.as_bytes();
    match bytes.iter().position(|byte| *byte == b'=').filter(|_| bytes.starts_with(b"--")) {
        None => (argument, None),
        Some(place) => (OsStr::from_bytes(&bytes[..place]), Some(OsStr::from_bytes(&bytes[place + 1..]))),
    }
}

fn unknown(option: &OsStr) -> Problem {
    wrong(format!("{} is no option here", shown(option)))
}

fn wrong(what: String) -> Problem {
    Problem::Usage(what)
}
