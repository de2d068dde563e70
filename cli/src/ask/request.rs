//! The options of `ask`.

use lampsickle::Standing;

use super::warnings::Kind;
use crate::arguments::{Given, Word, Words, STANDARD};
use crate::demand::Demand;
use crate::end::Trouble;
use crate::journal;
use crate::text::quoted;

/// What `ask` was given, each in the order given.
#[derive(Default)]
pub struct Request {
    pub values: Vec<Word>,
    pub requesters: Vec<Word>,
    pub attributes: Vec<Attributes>,
    pub files: Vec<(Trust, Word)>,
    /// Where to write the record instead of asking.
    pub record: Option<Word>,
    /// The journal that is to hold the answer before it is printed.
    pub journal: Option<Word>,
    pub json: bool,
    pub demand: Demand,
    /// Warnings that aren't wanted.
    pub unsaid: Vec<Kind>,
}

/// Attributes given on the command line or in a file.
pub enum Attributes {
    Pair(Word),
    File(Word),
}

/// What the user says of a file of assertions.
#[derive(Clone, Copy, Debug, PartialEq, Eq)]
pub enum Trust {
    Local,
    /// The file is one credential, and its signature was verified.
    Verified,
    /// The file holds credentials, and the signature of each was verified.
    AllVerified,
    Unverified,
}

impl Trust {
    pub fn option(self) -> &'static str {
        match self {
            Self::Local => "--local",
            Self::Verified => "--verified",
            Self::AllVerified => "--all-verified",
            Self::Unverified => "--unverified",
        }
    }

    pub fn standing(self) -> Standing {
        match self {
            Self::Local => Standing::Local,
            Self::Verified | Self::AllVerified => Standing::Verified,
            Self::Unverified => Standing::Unverified,
        }
    }

    /// The standing in words.
    pub fn name(self) -> &'static str {
        match self.standing() {
            Standing::Local => "local",
            Standing::Verified => "verified",
            Standing::Unverified => "unverified",
        }
    }
}

/// The request; none where help is asked for.
pub fn read(mut words: Words) -> Result<Option<Request>, Trouble> {
    let mut request = Request::default();
    while let Some(option) = words.option() {
        if matches!(option.name.as_slice(), b"--help" | b"-h") {
            return Ok(None);
        }
        if let Some(option) = request.demand.take(&mut words, option)? {
            request.take(&mut words, option)?;
        }
    }
    match words.next() {
        Some(word) => Err(Trouble::usage(format!("ask: {} belongs to no option", quoted(&word)))),
        None => request.checked().map(Some),
    }
}

impl Request {
    fn take(&mut self, words: &mut Words, option: Given) -> Result<(), Trouble> {
        match option.name.as_slice() {
            b"--json" => self.json = option.flag()?,
            b"--record" if self.record.is_some() => return Err(Trouble::usage("--record is given twice")),
            b"--record" => self.record = Some(words.file(option, "--record")?),
            b"--journal" if self.journal.is_some() => return Err(Trouble::usage("--journal is given twice")),
            b"--journal" => self.journal = Some(words.file(option, "--journal")?),
            b"--value" | b"-v" => self.values.push(words.value(option, "--value")?),
            b"--values" => self.values.extend(listed(&words.value(option, "--values")?)),
            b"--requester" | b"-r" => self.requesters.push(words.value(option, "--requester")?),
            b"--attribute" | b"-a" => self.attributes.push(Attributes::Pair(words.value(option, "--attribute")?)),
            b"--attributes" => self.attributes.push(Attributes::File(words.file(option, "--attributes")?)),
            b"--no-warn" => self.unsaid.extend(kinds(&words.value(option, "--no-warn")?)?),
            _ => {
                let trust = trust(&option)?;
                self.files.push((trust, words.file(option, trust.option())?));
            }
        }
        Ok(())
    }

    /// Refuses what can't be meant.
    fn checked(self) -> Result<Self, Trouble> {
        let files = self.files.iter().map(|(_, file)| file);
        let of_attributes = self.attributes.iter().filter_map(|given| match given {
            Attributes::Pair(_) => None,
            Attributes::File(file) => Some(file),
        });
        if files.chain(of_attributes).filter(|file| *file == STANDARD).count() > 1 {
            return Err(Trouble::usage("ask: standard input (\"-\") is named twice, and can be read once"));
        }
        if self.record.is_some() && (self.json || self.demand.strict || self.demand.require.is_some()) {
            return Err(Trouble::usage(
                "--record asks nothing, so --json, --strict and --require have no meaning with it",
            ));
        }
        match (&self.record, &self.journal) {
            (Some(_), Some(_)) => return Err(Trouble::usage("--record asks nothing, so --journal keeps nothing")),
            (None, Some(file)) => journal::named("--journal", file)?,
            _ => {}
        }
        match &self.demand.require {
            Some(class) if !self.values.contains(class) => {
                Err(Trouble::usage(format!("--require {}: not among the compliance values", quoted(class))))
            }
            _ => Ok(self),
        }
    }
}

fn trust(option: &Given) -> Result<Trust, Trouble> {
    match option.name.as_slice() {
        b"--local" | b"-l" => Ok(Trust::Local),
        b"--verified" | b"-c" => Ok(Trust::Verified),
        b"--all-verified" => Ok(Trust::AllVerified),
        b"--unverified" | b"-u" => Ok(Trust::Unverified),
        _ => Err(option.unknown("ask")),
    }
}

/// Words in one, joined by commas.
fn listed(word: &[u8]) -> impl Iterator<Item = Word> + '_ {
    word.split(|byte| *byte == b',').map(<[u8]>::to_vec)
}

fn kinds(word: &[u8]) -> Result<Vec<Kind>, Trouble> {
    let kind = |name: Word| {
        Kind::named(&name).ok_or_else(|| {
            let all: Vec<&str> = Kind::ALL.iter().map(|kind| kind.name()).collect();
            Trouble::usage(format!("--no-warn {}: warnings are {}", quoted(&name), all.join(", ")))
        })
    };
    listed(word).map(kind).collect()
}

#[cfg(test)]
mod tests {
    use super::*;
    use crate::arguments::words;

    fn request(given: &[&str]) -> Request {
        match read(words(given)) {
            Ok(Some(request)) => request,
            Ok(None) => panic!("help"),
            Err(trouble) => panic!("{}", trouble.words),
        }
    }

    fn owned(words: &[&str]) -> Vec<Word> {
        words.iter().map(|word| word.as_bytes().to_vec()).collect()
    }

    #[test]
    fn options() {
        let request = request(&["--values=a,b", "-v", "c,d", "-r", "x", "--attribute=n=v=w", "-l", "-", "--json"]);
        assert_eq!(request.values, owned(&["a", "b", "c,d"]));
        assert_eq!(request.requesters, owned(&["x"]));
        assert!(matches!(&request.attributes[..], [Attributes::Pair(pair)] if pair == b"n=v=w"));
        assert_eq!(request.files, [(Trust::Local, b"-".to_vec())]);
        assert!(request.json && request.record.is_none());
    }

    #[test]
    fn values_that_begin_with_a_hyphen() {
        assert_eq!(request(&["--requester=--json", "--value=-1"]).requesters, owned(&["--json"]));
        for given in [&["-r", "--json"][..], &["-r", "-"], &["-v", "-1"], &["-l", "--json"], &["-a", "-"]] {
            assert!(read(words(given)).is_err(), "{given:?}");
        }
    }

    #[test]
    fn mistakes() {
        let all = [
            &["--valeu", "x"][..],
            &["x"],
            &["-v"],
            &["--json=1"],
            &["--local", "-", "--attributes", "-"],
            &["--record", "x", "--record", "y"],
            &["--record", "x", "--strict"],
            &["--record", "x", "--journal", "y"],
            &["--journal", "x", "--journal", "y"],
            &["--journal", "-"],
            &["--values", "a,b", "--require", "c"],
            &["--values", "a,b", "--require", "a", "--require", "b"],
            &["--no-warn", "unset,x"],
        ];
        for given in all {
            assert!(read(words(given)).is_err(), "{given:?}");
        }
    }
}
