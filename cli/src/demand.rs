//! What is demanded of an answer: `--require` and `--strict`.

use lampsickle::Answer;

use crate::arguments::{Given, Word, Words};
use crate::end::{End, Trouble};
use crate::text::{counted, quoted};

#[derive(Default)]
pub struct Demand {
    /// The lowest class that will do.
    pub require: Option<Word>,
    /// Nothing may be set aside.
    pub strict: bool,
}

impl Demand {
    /// Takes an option that is a demand; another is handed back.
    pub fn take(&mut self, words: &mut Words, option: Given) -> Result<Option<Given>, Trouble> {
        match option.name.as_slice() {
            b"--strict" => self.strict = option.flag()?,
            b"--require" if self.require.is_some() => return Err(Trouble::usage("--require is given twice")),
            b"--require" => self.require = Some(words.value(option, "--require")?),
            _ => return Ok(Some(option)),
        }
        Ok(None)
    }

    /// What an answer comes to, and why it isn't enough.
    pub fn end(&self, values: &[Word], answer: &Answer) -> (End, Option<String>) {
        if let Some(words) = self.aside(answer) {
            return (End::SetAside, Some(words));
        }
        match self.lower(values, answer) {
            Some(words) => (End::Lower, Some(words)),
            None => (End::Answered, None),
        }
    }

    fn aside(&self, answer: &Answer) -> Option<String> {
        let count = answer.entries.iter().filter(|entry| entry.reason != 0).count();
        let all = counted(answer.entries.len(), "assertion");
        (self.strict && count > 0).then(|| format!("{count} of {all} set aside (--strict)"))
    }

    fn lower(&self, values: &[Word], answer: &Answer) -> Option<String> {
        let require = self.require.as_ref()?;
        let rank = usize::from(answer.rank);
        match values.iter().position(|value| value == require) {
            Some(least) if least <= rank => None,
            Some(_) => {
                let class = values.get(rank).map_or(String::new(), |value| quoted(value));
                Some(format!("the class {class} is lower than {} (--require)", quoted(require)))
            }
            None => Some(format!("{} isn't among the compliance values (--require)", quoted(require))),
        }
    }
}
