//! What a command comes to, and its exit status.

use std::io;

/// What a command came to. Of several the later in this order counts.
#[derive(Clone, Copy, Debug, PartialEq, Eq, PartialOrd, Ord)]
pub enum End {
    Answered,
    /// The class is lower than the one required.
    Lower,
    /// Under `--strict` an assertion was set aside.
    SetAside,
    Refused,
    /// One file of several wasn't read, or one not to its end.
    Unread,
}

impl End {
    pub fn status(self) -> u8 {
        match self {
            Self::Answered => 0,
            Self::Lower => 1,
            Self::SetAside => 5,
            Self::Refused => 3,
            Self::Unread => Cause::File.status(),
        }
    }
}

/// What stops a command before it has anything to say.
pub struct Trouble {
    cause: Cause,
    pub words: String,
}

#[derive(Clone, Copy)]
enum Cause {
    /// The command line is wrong.
    Usage,
    /// A file can't be read, or not as what it was given for.
    File,
    /// The journal refuses what was to be kept.
    Refused,
}

impl Cause {
    fn status(self) -> u8 {
        match self {
            Self::Usage => 2,
            Self::File => 4,
            Self::Refused => End::Refused.status(),
        }
    }
}

impl Trouble {
    pub fn usage(words: impl Into<String>) -> Self {
        Self { cause: Cause::Usage, words: words.into() }
    }

    pub fn file(words: impl Into<String>) -> Self {
        Self { cause: Cause::File, words: words.into() }
    }

    pub fn refused(words: impl Into<String>) -> Self {
        Self { cause: Cause::Refused, words: words.into() }
    }

    /// An error of the system's with a file or with an output.
    pub fn with(what: &str, error: &io::Error) -> Self {
        Self::file(format!("{what}: {error}"))
    }

    pub fn status(&self) -> u8 {
        self.cause.status()
    }
}
