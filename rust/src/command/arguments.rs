//! The arguments of a subcommand: words in their order, and options with a value each, as `--limit 3` or `--limit=3`.

use crate::{failed, Command, Failure};
use std::ffi::{OsStr, OsString};

pub struct Arguments {
    command: &'static str,
    words: Vec<OsString>,
    options: Vec<(&'static str, String)>,
}

impl Arguments {
    /// Reads the arguments of a command; `None` where its help is asked for.
    pub fn read(command: &Command, mut given: impl Iterator<Item = OsString>) -> Result<Option<Arguments>, Failure> {
        let mut read = Arguments { command: command.name, words: Vec::new(), options: Vec::new() };
        while let Some(word) = given.next() {
            let text = word.to_string_lossy();
            match text.as_ref() {
                "--" => read.words.extend(given.by_ref()),
                "--help" | "-h" => return Ok(None),
                "-" => read.words.push(word),
                text if text.starts_with('-') => {
                    let (name, value) = match text.split_once('=') {
                        Some((name, value)) => (name, Some(value.to_string())),
                        None => (text, None),
                    };
                    let Some(name) = command.options.iter().find(|option| **option == name) else {
                        return read.wrong(format!("there is no option {name}; a file of that name is read after --"));
                    };
                    let Some(value) = value.or_else(|| given.next().map(|value| value.to_string_lossy().into_owned())) else {
                        return read.wrong(format!("{name} takes a value"));
                    };
                    if read.options.iter().any(|(before, _)| before == name) {
                        return read.wrong(format!("{name} is given twice"));
                    }
                    read.options.push((name, value));
                }
                _ => read.words.push(word),
            }
        }
        Ok(Some(read))
    }

    /// The words, where there are as many as the command takes; `usage` names them.
    pub fn words(&self, usage: &str, least: usize, most: usize) -> Result<Vec<&OsStr>, Failure> {
        if self.words.len() < least || self.words.len() > most {
            return self.wrong(format!("it takes {usage}, and not {} words", self.words.len()));
        }
        Ok(self.words.iter().map(OsString::as_os_str).collect())
    }

    /// The value of an option as `parse` has it, where the option is given; `what` says which values there are.
    pub fn option<T>(&self, name: &str, what: &str, parse: impl Fn(&str) -> Option<T>) -> Result<Option<T>, Failure> {
        let Some((_, value)) = self.options.iter().find(|(option, _)| *option == name) else { return Ok(None) };
        match parse(value) {
            Some(value) => Ok(Some(value)),
            None => self.wrong(format!("{name} takes {what}, and not {value:?}")),
        }
    }

    /// Fails by what is wrong with the arguments.
    pub fn wrong<T>(&self, what: impl AsRef<str>) -> Result<T, Failure> {
        failed(format!("{}: {}; kitfinder {0} --help tells more", self.command, what.as_ref()))
    }
}
