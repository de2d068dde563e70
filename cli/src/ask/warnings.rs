//! What may be a mistake in a query that is answered: told, and no more.

use std::collections::HashSet;

use lampsickle::{Answer, Entry, Query};

use super::attributes::Attribute;
use crate::assertion::reading::{principals, read, reserved, Conversion, Reading};
use crate::report::Source;
use crate::text::{brief, quoted};

#[derive(Clone, Copy, Debug, PartialEq, Eq)]
pub enum Kind {
    /// "@" or "&" makes 0 of a string, since it is no number or none in range.
    Number,
    /// What stands behind "~=" is no pattern.
    Pattern,
    /// A name is read that isn't set.
    Unset,
    /// An attribute is set that nothing reads.
    Unread,
}

impl Kind {
    pub const ALL: [Kind; 4] = [Kind::Number, Kind::Pattern, Kind::Unset, Kind::Unread];

    pub fn name(self) -> &'static str {
        match self {
            Self::Number => "number",
            Self::Pattern => "pattern",
            Self::Unset => "unset",
            Self::Unread => "unread",
        }
    }

    pub fn named(name: &[u8]) -> Option<Kind> {
        Self::ALL.into_iter().find(|kind| kind.name().as_bytes() == name)
    }
}

/// What the assertions of a query that were kept read.
pub fn readings<'a>(query: &Query, sources: &'a [Source], answer: &Answer) -> Vec<(&'a Source, Reading)> {
    let kept = sources.iter().zip(&answer.entries).filter(|(_, entry)| entry.reason == 0);
    kept.map(|(source, _)| (source, read(&source.text, query))).collect()
}

/// What those read for their identifiers that were set aside for one.
pub fn set_aside(query: &Query, sources: &[Source], answer: &Answer) -> Vec<Reading> {
    let one = |entry: &Entry| entry.reason == 10 || entry.reason == 9 && entry.place > 0;
    let aside = sources.iter().zip(&answer.entries).filter(|(_, entry)| one(entry));
    aside.map(|(source, _)| principals(&source.text, query)).collect()
}

/// The warnings of these kinds, in words.
pub fn found(
    kinds: &[Kind],
    query: &Query,
    attributes: &[Attribute],
    readings: &[(&Source, Reading)],
    aside: &[Reading],
) -> Vec<(Kind, String)> {
    let mut told = Told { query, names: HashSet::new(), warnings: Vec::new() };
    for kind in kinds {
        match kind {
            Kind::Number => readings.iter().for_each(|(source, reading)| told.numbers(source, reading)),
            Kind::Pattern => readings.iter().for_each(|(source, reading)| told.patterns(source, reading)),
            Kind::Unset => readings.iter().for_each(|(source, reading)| told.unset_names(source, reading)),
            Kind::Unread => told.unread(attributes, readings.iter().map(|(_, reading)| reading).chain(aside).collect()),
        }
    }
    told.warnings
}

/// What was said already, each name once.
struct Told<'a> {
    query: &'a Query,
    names: HashSet<Vec<u8>>,
    warnings: Vec<(Kind, String)>,
}

impl Told<'_> {
    fn numbers(&mut self, source: &Source, reading: &Reading) {
        reading.conversions.iter().for_each(|conversion| self.number(source, conversion));
    }

    fn patterns(&mut self, source: &Source, reading: &Reading) {
        for flaw in &reading.flaws {
            self.warnings.push((Kind::Pattern, format!("{}: {}", source.at(flaw.place), flaw.told())));
        }
    }

    fn unset_names(&mut self, source: &Source, reading: &Reading) {
        reading.names.iter().for_each(|(name, place)| self.unset(source, name, *place));
    }

    fn number(&mut self, source: &Source, conversion: &Conversion) {
        let Conversion { place, to, string } = conversion;
        let told = string.name.as_ref().is_some_and(|name| self.names.contains(name));
        if told || to.holds(&string.value) {
            return;
        }
        self.names.extend(string.name.clone());
        let (value, range) = (quoted(&string.value), to.range());
        let what = match &string.name {
            Some(name) if !string.set => format!("{}, which isn't set", brief(name)),
            Some(name) => format!("{}, which is {value}, no {range}", brief(name)),
            None => format!("{value}, which is no {range}"),
        };
        self.warnings.push((Kind::Number, format!("{}: \"{}\" makes 0 of {what}", source.at(*place), to.sign())));
    }

    fn unset(&mut self, source: &Source, name: &[u8], place: usize) {
        let test = name.eq_ignore_ascii_case(b"true") || name.eq_ignore_ascii_case(b"false");
        if test || self.is_set(name) || !self.names.insert(name.to_vec()) {
            return;
        }
        self.warnings.push((Kind::Unset, format!("{}: {} isn't set, so it is empty", source.at(place), brief(name))));
    }

    fn is_set(&self, name: &[u8]) -> bool {
        reserved(name, self.query).is_some() || self.query.attributes.iter().any(|attribute| attribute.0 == name)
    }

    /// Where a name is computed any may be read, so that nothing can be said.
    fn unread(&mut self, attributes: &[Attribute], readings: Vec<&Reading>) {
        if readings.iter().any(|reading| reading.computed) {
            return;
        }
        let names: HashSet<&Vec<u8>> =
            readings.iter().flat_map(|reading| &reading.names).map(|(name, _)| name).collect();
        for attribute in attributes.iter().filter(|attribute| !names.contains(&attribute.name)) {
            let (origin, name) = (attribute.origin.words(), brief(&attribute.name));
            self.warnings.push((Kind::Unread, format!("{origin}: no assertion that was kept reads {name}")));
        }
    }
}
