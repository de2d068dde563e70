//! Queries with 32 names, made to be hard or easy to tell apart, and how often
//! and where one of them is looked up.

use crate::draft::Draft;
use crate::limits;

/// How the names of a query differ.
#[derive(Clone, Copy, Debug, PartialEq, Eq)]
pub enum Kind {
    LastByte,
    MiddleByte,
    Lengths,
    Short,
}

/// Which of the names is looked up.
#[derive(Clone, Copy, Debug, PartialEq, Eq)]
pub enum Place {
    First,
    Last,
    Nowhere,
}

pub const KINDS: [Kind; 4] = [Kind::LastByte, Kind::MiddleByte, Kind::Lengths, Kind::Short];
pub const PLACES: [Place; 3] = [Place::First, Place::Last, Place::Nowhere];

/// As many names as a query may have.
pub const COUNT: usize = limits::ATTRIBUTES.most;
const LONG: usize = 2_000;

impl Kind {
    pub fn words(self) -> &'static str {
        match self {
            Self::LastByte => "2,000 bytes, the last differs",
            Self::MiddleByte => "2,000 bytes, one in the middle differs",
            Self::Lengths => "1,969 to 2,000 bytes",
            Self::Short => "short",
        }
    }

    /// The name with that number; the one behind the last is none of a query's.
    pub fn name(self, number: usize) -> Vec<u8> {
        let mark = b"ABCDEFGHIJKLMNOPQRSTUVWXYZ0123456"[number];
        let mut name = vec![b'n'; LONG];
        match self {
            Self::LastByte => name[LONG - 1] = mark,
            Self::MiddleByte => name[LONG / 2] = mark,
            Self::Lengths => name.truncate(LONG - number),
            Self::Short => name = format!("vessel_{number}").into_bytes(),
        }
        name
    }
}

impl Place {
    pub fn words(self) -> &'static str {
        match self {
            Self::First => "found first",
            Self::Last => "found last",
            Self::Nowhere => "not found",
        }
    }

    /// The number of the name among as many as there are.
    pub fn number(self, count: usize) -> usize {
        match self {
            Self::First => 0,
            Self::Last => count - 1,
            Self::Nowhere => count,
        }
    }
}

/// A query whose text looks a name up that often, or as often as it can. A long
/// name is the value of another, "p", and is looked up by "$p"; "p" is then the
/// last attribute.
pub fn query(kind: Kind, place: Place, times: Option<usize>) -> Draft {
    let named = match kind {
        Kind::Short => (0..COUNT).fold(Draft::plain(), |draft, number| draft.attribute(kind.name(number), "")),
        _ => (0..COUNT - 1)
            .fold(Draft::plain(), |draft, number| draft.attribute(kind.name(number), ""))
            .attribute("p", kind.name(place.number(COUNT - 1))),
    };
    let looked = match kind {
        Kind::Short => String::from_utf8(kind.name(place.number(COUNT))).expect("a name is text"),
        _ => "$p".into(),
    };
    let head = "Authorizer: \"POLICY\"\nLicensees: \"a\"\nConditions: ";
    let test = format!("{looked}==\"\"&&");
    // The assertion's standing and length take three bytes.
    let room = (limits::RECORD_BYTES - named.record().len() - 3).min(limits::TEXT_BYTES.most);
    let most = (room - head.len() - "true;".len()) / test.len();
    let text = format!("{head}{}true;", test.repeat(times.unwrap_or(most).min(most)));
    named.local(text)
}

#[cfg(test)]
mod tests {
    use super::*;
    use crate::answer;
    use crate::print::PAGE;

    #[test]
    fn every_query_is_answered() {
        for kind in KINDS {
            for place in PLACES {
                for times in [Some(1), Some(100), None] {
                    let record = query(kind, place, times).record();
                    let outcome = answer(&record, &mut [0; PAGE]);
                    assert_eq!((outcome.number, outcome.rank), (0, 1), "{kind:?} {place:?} {times:?}");
                }
            }
        }
    }

    #[test]
    fn names_differ() {
        for kind in KINDS {
            let mut names: Vec<_> = (0..=COUNT).map(|number| kind.name(number)).collect();
            names.sort();
            names.dedup();
            assert_eq!(names.len(), COUNT + 1);
        }
    }
}
