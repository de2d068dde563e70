//! What is wrong with a query before it is asked, in words that name the argument.

use lampsickle::limits::Range;
use lampsickle::{Fault, Item, What};

use super::attributes::{Attribute, Origin};
use crate::end::Trouble;
use crate::report::Source;
use crate::text::{counted, quoted, shown};

/// Where the parts of a query came from.
pub struct Origins<'a> {
    pub values: &'a [Vec<u8>],
    pub requesters: &'a [Vec<u8>],
    pub attributes: &'a [Attribute],
    pub assertions: &'a [Source],
}

/// The mistake is in a file, or in the arguments.
pub fn trouble(fault: Fault, origins: &Origins) -> Trouble {
    let words = words(fault, origins);
    let file = match fault.item {
        Item::Name(index) | Item::Attribute(index) => matches!(origins.attributes[index].origin, Origin::Line(_)),
        Item::Assertion(_) => true,
        _ => false,
    };
    if file {
        Trouble::file(words)
    } else {
        Trouble::usage(words)
    }
}

fn words(fault: Fault, origins: &Origins) -> String {
    let (argument, noun) = (argument(fault.item, origins), noun(fault.item));
    match fault.what {
        What::Range(count, range) => range_words(fault.item, &argument, noun, count, range, origins),
        What::Byte(byte, place) => {
            let byte = quoted(&[byte]);
            format!("{argument}: {byte} at {place} isn't permitted in {noun}{}", rule(fault.item, origins))
        }
        What::Repeated(index) => {
            format!("{argument}: {noun} that stands twice, first {}", first(fault.item, index, origins))
        }
        What::Policy => format!("{argument}: nobody asks as POLICY; name who asks"),
    }
}

fn argument(item: Item, origins: &Origins) -> String {
    match item {
        Item::Values => "--value".into(),
        Item::Value(index) => format!("--value {}", quoted(&origins.values[index])),
        Item::Requesters => "--requester".into(),
        Item::Requester(index) => format!("--requester {}", quoted(&origins.requesters[index])),
        Item::Attributes => "--attribute".into(),
        Item::Name(index) | Item::Attribute(index) => origins.attributes[index].origin.words().into(),
        Item::Assertions => "--local, --verified, --unverified".into(),
        Item::Assertion(index) => at(&origins.assertions[index]),
        Item::Record => "all together".into(),
    }
}

fn at(source: &Source) -> String {
    format!("{}:{}", source.file, source.line)
}

fn noun(item: Item) -> &'static str {
    match item {
        Item::Values | Item::Value(_) => "a compliance value",
        Item::Requesters | Item::Requester(_) => "a requester",
        Item::Attributes | Item::Attribute(_) => "an attribute's value",
        Item::Name(_) => "an attribute's name",
        Item::Assertions | Item::Assertion(_) => "an assertion",
        Item::Record => "a record",
    }
}

/// Why a byte isn't permitted.
fn rule(item: Item, origins: &Origins) -> &'static str {
    let Item::Name(index) = item else {
        return "";
    };
    match origins.attributes[index].name.as_slice() {
        b"_ACTION_AUTHORIZERS" => ": it is set from the requesters, which --requester gives",
        [b'_', ..] => ": names that begin so are set by the evaluator",
        _ => ": a letter, then letters, digits and underscores",
    }
}

fn range_words(item: Item, argument: &str, noun: &str, count: usize, range: Range, origins: &Origins) -> String {
    let Range { least, most } = range;
    let number = |things: &str, beyond: Option<String>| {
        let beyond = beyond.map_or(String::new(), |first| format!("; the first too many is {first}"));
        format!("{argument}: {}, but a query has {least} to {most}{beyond}", counted(count, things))
    };
    match item {
        Item::Values => number("compliance value", origins.values.get(most).map(|value| quoted(value))),
        Item::Requesters => number("requester", origins.requesters.get(most).map(|requester| quoted(requester))),
        Item::Attributes => number("attribute", origins.attributes.get(most).map(|attribute| shown(&attribute.name))),
        Item::Assertions => number("assertion", origins.assertions.get(most).map(at)),
        _ => format!("{argument}: {}, but {noun} has {least} to {most}", counted(count, "byte")),
    }
}

fn first(item: Item, index: usize, origins: &Origins) -> String {
    match item {
        Item::Name(_) => format!("in {}", origins.attributes[index].origin.words()),
        _ => format!("as number {}", index + 1),
    }
}
