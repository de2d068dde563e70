//! The words of `register`: a file, a call and its numbers.

use super::change::Change;
use super::paths::Paths;
use crate::arguments::{Given, Word, Words};
use crate::end::Trouble;
use crate::text::{counted, quoted, shown};

pub struct Request {
    pub paths: Paths,
    pub call: Call,
}

#[derive(Clone, Copy, Debug, PartialEq, Eq)]
pub enum Call {
    Create,
    Change(Change),
    Find(u32),
    List,
}

const PRINCIPAL: &str = "PRINCIPAL";
const AMOUNT: &str = "AMOUNT";

/// The calls by name, and what stands behind each.
const CALLS: [(&str, &[&str]); 7] = [
    ("create", &[]),
    ("issue", &[PRINCIPAL, AMOUNT]),
    ("pass", &["FROM", "TO", AMOUNT]),
    ("spend", &[PRINCIPAL, AMOUNT]),
    ("remove", &[PRINCIPAL]),
    ("find", &[PRINCIPAL]),
    ("list", &[]),
];

/// What is asked for; none where that is help.
pub fn read(mut words: Words) -> Result<Option<Request>, Trouble> {
    let mut help = false;
    let given = words.files(|_, option| {
        help = help || is_help(&option)?;
        Ok(())
    })?;
    match help {
        true => Ok(None),
        false => request(&given).map(Some),
    }
}

fn is_help(option: &Given) -> Result<bool, Trouble> {
    match option.name.as_slice() {
        b"--help" | b"-h" => option.flag(),
        [b'-', b'0'..=b'9', ..] => {
            Err(Trouble::usage(format!("register: {}: a number has no sign", quoted(&option.name))))
        }
        _ => Err(option.unknown("register")),
    }
}

fn request(given: &[Word]) -> Result<Request, Trouble> {
    let Some((file, rest)) = given.split_first() else {
        return Err(Trouble::usage(format!("register: no FILE; write {}", form("CALL", &["…"]))));
    };
    if found(file).is_some() {
        let (call, whole) = (quoted(file), shown(file));
        return Err(Trouble::usage(format!(
            "register: {call} is a call, and FILE stands before it; if a file is meant, write ./{whole}"
        )));
    }
    let paths = Paths::of(file)?;
    let Some((name, numbers)) = rest.split_first() else {
        return Err(Trouble::usage(format!("register: no call; {}", all())));
    };
    let Some((name, wanted)) = found(name) else {
        return Err(Trouble::usage(format!("register: {} is no call; {}", quoted(name), all())));
    };
    if numbers.len() != wanted.len() {
        let (count, form) = (counted(numbers.len(), "word"), form(name, wanted));
        return Err(Trouble::usage(format!("register: {count} behind {name}; write {form}")));
    }
    Ok(Request { paths, call: call(name, numbers)? })
}

fn found(word: &[u8]) -> Option<(&'static str, &'static [&'static str])> {
    CALLS.into_iter().find(|(name, _)| name.as_bytes() == word)
}

fn form(name: &str, wanted: &[&str]) -> String {
    format!("`{}`", [&["lampsickle register FILE", name], wanted].concat().join(" "))
}

fn all() -> String {
    format!("there are {}", CALLS.map(|(name, _)| name).join(", "))
}

fn call(name: &str, numbers: &[Word]) -> Result<Call, Trouble> {
    Ok(match (name, numbers) {
        ("create", []) => Call::Create,
        ("issue", [to, many]) => Call::Change(Change::Issue { principal: principal(to)?, amount: amount(many)? }),
        ("pass", [from, to, many]) => {
            let (payer, receiver) = (principal(from)?, principal(to)?);
            Call::Change(Change::Pass { payer, receiver, amount: amount(many)? })
        }
        ("spend", [by, many]) => Call::Change(Change::Spend { payer: principal(by)?, amount: amount(many)? }),
        ("remove", [whom]) => Call::Change(Change::Remove { principal: principal(whom)? }),
        ("find", [whom]) => Call::Find(principal(whom)?),
        _ => Call::List,
    })
}

fn principal(word: &[u8]) -> Result<u32, Trouble> {
    let number = number("principal", word)?.and_then(|number| u32::try_from(number).ok());
    number.ok_or_else(|| wrong("principal", word, &format!("a principal is a number from 0 to {}", u32::MAX)))
}

/// An amount of any size that the library can be asked about.
fn amount(word: &[u8]) -> Result<u64, Trouble> {
    number("amount", word)?.ok_or_else(|| wrong("amount", word, "this number is too large for any amount"))
}

/// A number in digits alone; none where it doesn't fit in eight bytes.
fn number(what: &str, word: &[u8]) -> Result<Option<u64>, Trouble> {
    match word {
        [] => Err(wrong(what, word, "there is nothing in it")),
        _ if !word.iter().all(u8::is_ascii_digit) => {
            Err(wrong(what, word, "a number is written in the digits 0 to 9 alone"))
        }
        [b'0', _, ..] => Err(wrong(what, word, "a number is written without zeros before it")),
        _ => Ok(std::str::from_utf8(word).ok().and_then(|digits| digits.parse().ok())),
    }
}

fn wrong(what: &str, word: &[u8], why: &str) -> Trouble {
    Trouble::usage(format!("register: {what} {}: {why}", quoted(word)))
}

#[cfg(test)]
mod tests {
    use super::*;
    use crate::arguments::words;

    fn of(given: &[&str]) -> Result<Call, String> {
        let request = read(words(given)).map_err(|trouble| trouble.words)?;
        Ok(request.expect("no help").call)
    }

    #[test]
    fn every_call() {
        assert_eq!(of(&["m", "create"]), Ok(Call::Create));
        assert_eq!(of(&["m", "issue", "0", "0"]), Ok(Call::Change(Change::Issue { principal: 0, amount: 0 })));
        let pass = Change::Pass { payer: 4_294_967_295, receiver: 9, amount: u64::MAX };
        assert_eq!(of(&["m", "pass", "4294967295", "9", "18446744073709551615"]), Ok(Call::Change(pass)));
        assert_eq!(of(&["--", "m", "spend", "7", "1"]), Ok(Call::Change(Change::Spend { payer: 7, amount: 1 })));
        assert_eq!(of(&["m", "remove", "7"]), Ok(Call::Change(Change::Remove { principal: 7 })));
        assert_eq!(of(&["m", "find", "7"]), Ok(Call::Find(7)));
        assert_eq!(of(&["m", "list"]), Ok(Call::List));
        assert!(read(words(&["m", "issue", "-h"])).is_ok_and(|request| request.is_none()));
    }

    /// Each call with its words, and with one more or one less.
    #[test]
    fn every_count_of_words() {
        for (name, wanted) in CALLS {
            for count in 0..=wanted.len() + 1 {
                let given: Vec<&str> = ["m", name].into_iter().chain(std::iter::repeat_n("1", count)).collect();
                assert_eq!(of(&given).is_ok(), count == wanted.len(), "{given:?}");
            }
        }
    }
}
