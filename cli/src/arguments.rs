//! The words of the command line: options, their values, files.

use std::collections::VecDeque;
use std::ffi::OsString;
use std::os::unix::ffi::OsStringExt;

use crate::end::Trouble;
use crate::text::{quoted, shown};

/// A word of the command line; any bytes but 0.
pub type Word = Vec<u8>;

/// The name of a file that is standard input, or output.
pub const STANDARD: &[u8] = b"-";

/// The words that are left.
pub struct Words {
    left: VecDeque<Word>,
}

/// An option and, where an "=" stands behind it, its value.
pub struct Given {
    pub name: Word,
    value: Option<Word>,
}

impl Words {
    pub fn given() -> Self {
        Self { left: std::env::args_os().skip(1).map(OsString::into_vec).collect() }
    }

    pub fn next(&mut self) -> Option<Word> {
        self.left.pop_front()
    }

    /// The option that comes next. A lone "-" is a file, and "--" ends the options.
    pub fn option(&mut self) -> Option<Given> {
        let word = self.left.pop_front_if(|word| word.len() > 1 && word[0] == b'-' && *word != b"--")?;
        let split = word.iter().position(|byte| *byte == b'=').filter(|_| word.starts_with(b"--"));
        Some(match split {
            Some(place) => Given { name: word[..place].to_vec(), value: Some(word[place + 1..].to_vec()) },
            None => Given { name: word, value: None },
        })
    }

    /// The value of an option, which has this long name. One that begins with "-"
    /// may be an option that was meant, so it is taken only behind "=".
    pub fn value(&mut self, option: Given, long: &str) -> Result<Word, Trouble> {
        if let Some(value) = option.value {
            return Ok(value);
        }
        let name = shown(&option.name);
        match self.left.pop_front() {
            None => Err(Trouble::usage(format!("{name} needs a value"))),
            Some(word) if word.starts_with(b"-") => {
                let (word, whole) = (quoted(&word), shown(&word));
                Err(Trouble::usage(format!(
                    "{name}: {word} looks like an option; if it is the value, write {long}={whole}"
                )))
            }
            Some(word) => Ok(word),
        }
    }

    /// The value of an option that names a file; a lone "-" is one.
    pub fn file(&mut self, option: Given, long: &str) -> Result<Word, Trouble> {
        match self.left.front() {
            Some(word) if word == STANDARD && option.value.is_none() => Ok(self.next().unwrap_or_default()),
            _ => self.value(option, long),
        }
    }

    /// The files that are left behind the options, which are given to `take`.
    pub fn files(
        &mut self,
        mut take: impl FnMut(&mut Self, Given) -> Result<(), Trouble>,
    ) -> Result<Vec<Word>, Trouble> {
        let mut files = Vec::new();
        loop {
            while let Some(option) = self.option() {
                take(self, option)?;
            }
            match self.next() {
                Some(word) if word == b"--" => files.extend(self.left.drain(..)),
                Some(file) => files.push(file),
                None => return Ok(files),
            }
        }
    }
}

impl Given {
    /// An option without a value.
    pub fn flag(&self) -> Result<bool, Trouble> {
        match self.value {
            None => Ok(true),
            Some(_) => Err(Trouble::usage(format!("{} takes no value", shown(&self.name)))),
        }
    }

    pub fn unknown(&self, command: &str) -> Trouble {
        Trouble::usage(format!("{command}: there is no option {}; see `lampsickle --help`", shown(&self.name)))
    }
}

#[cfg(test)]
pub fn words(words: &[&str]) -> Words {
    Words { left: words.iter().map(|word| word.as_bytes().to_vec()).collect() }
}
