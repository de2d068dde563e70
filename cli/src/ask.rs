//! `ask`: from policy files and attributes to an answer.

mod attributes;
mod faults;
mod parts;
mod request;
mod warnings;

use std::ffi::OsStr;
use std::fs;
use std::os::unix::ffi::OsStrExt;

use lampsickle::{Answer, Query};

use crate::arguments::{Words, STANDARD};
use crate::end::{End, Trouble};
use crate::output::{answered, aside, told};
use crate::report::{all_set_aside, class_json, class_text, entry_json, refusal_json, refusal_text, Source};
use crate::text::shown;
use crate::{help, journal};
use attributes::Attribute;
use faults::Origins;
use request::{Attributes, Request, Trust};
use warnings::Kind;

/// The query and where its parts came from.
struct Gathered {
    query: Query,
    attributes: Vec<Attribute>,
    sources: Vec<Source>,
    trusts: Vec<Trust>,
}

pub fn run(words: Words) -> Result<End, Trouble> {
    let Some(request) = request::read(words)? else {
        return help::print();
    };
    let gathered = gather(&request)?;
    let record = record(&gathered)?;
    let asked = lampsickle::ask(&record);
    if let Some(file) = &request.record {
        let end = write_record(file, &record)?;
        asked.iter().for_each(|answer| warn(&request, &gathered, answer));
        return Ok(end);
    }
    match asked {
        Ok(answer) => tell(&request, &gathered, &answer),
        Err(refusal) if request.json => {
            answered((refusal_json(refusal).done() + "\n").as_bytes())?;
            Ok(End::Refused)
        }
        Err(refusal) => {
            told(&refusal_text(refusal));
            Ok(End::Refused)
        }
    }
}

/// The answer in the journal, then on standard output, then all there is to say about it
/// on the other.
fn tell(request: &Request, gathered: &Gathered, answer: &Answer) -> Result<End, Trouble> {
    let values = &gathered.query.values;
    let text = match request.json {
        true => answer_json(gathered, answer),
        false => class_text(values, answer),
    };
    if let Some(file) = &request.journal {
        journal::keep("--journal", file, text.as_bytes())?;
    }
    answered(text.as_bytes())?;
    if !request.json {
        aside(&all_set_aside(&gathered.query, &gathered.sources, answer));
    }
    warn(request, gathered, answer);
    let (end, why) = request.demand.end(values, answer);
    why.iter().for_each(|why| told(why));
    Ok(end)
}

fn warn(request: &Request, gathered: &Gathered, answer: &Answer) {
    let kinds: Vec<Kind> = Kind::ALL.into_iter().filter(|kind| !request.unsaid.contains(kind)).collect();
    let readings = warnings::readings(&gathered.query, &gathered.sources, answer);
    let aside = warnings::set_aside(&gathered.query, &gathered.sources, answer);
    for (kind, words) in warnings::found(&kinds, &gathered.query, &gathered.attributes, &readings, &aside) {
        told(&format!("warning: {words} (--no-warn {})", kind.name()));
    }
}

fn gather(request: &Request) -> Result<Gathered, Trouble> {
    let (mut given, mut sources, mut trusts) = (Vec::new(), Vec::new(), Vec::new());
    let mut query =
        Query { values: request.values.clone(), requesters: request.requesters.clone(), ..Query::default() };
    for item in &request.attributes {
        match item {
            Attributes::Pair(word) => given.push(attributes::pair(word)?),
            Attributes::File(file) => given.extend(attributes::of_file(file)?),
        }
    }
    query.attributes = given.iter().map(|item| (item.name.clone(), item.value.clone())).collect();
    for (trust, file) in &request.files {
        for source in parts::of_file(*trust, file)? {
            query.assertions.push((trust.standing(), source.text.clone()));
            sources.push(source);
            trusts.push(*trust);
        }
    }
    Ok(Gathered { query, attributes: given, sources, trusts })
}

fn record(gathered: &Gathered) -> Result<Vec<u8>, Trouble> {
    let origins = Origins {
        values: &gathered.query.values,
        requesters: &gathered.query.requesters,
        attributes: &gathered.attributes,
        assertions: &gathered.sources,
    };
    gathered.query.record().map_err(|fault| faults::trouble(fault, &origins))
}

fn write_record(file: &[u8], record: &[u8]) -> Result<End, Trouble> {
    if file == STANDARD {
        return answered(record).map(|_| End::Answered);
    }
    let done = fs::write(OsStr::from_bytes(file), record);
    done.map(|()| End::Answered).map_err(|error| Trouble::with(&format!("--record {}", shown(file)), &error))
}

fn answer_json(gathered: &Gathered, answer: &Answer) -> String {
    let items = gathered.sources.iter().zip(&gathered.trusts).zip(&answer.entries);
    let query = &gathered.query;
    let assertions: Vec<String> =
        items.map(|((source, trust), entry)| entry_json(query, source, Some(trust.name()), *entry)).collect();
    class_json(&gathered.query.values, answer).list("assertions", &assertions).done() + "\n"
}
