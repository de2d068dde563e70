//! A query to be written as a record; nothing in it is tested.

use crate::record::Query;

/// The parts of a query record, in order.
#[derive(Clone, Debug, Default, PartialEq, Eq)]
pub struct Draft {
    pub values: Vec<Vec<u8>>,
    pub requesters: Vec<Vec<u8>>,
    pub attributes: Vec<(Vec<u8>, Vec<u8>)>,
    pub assertions: Vec<(u8, Vec<u8>)>,
}

impl Draft {
    /// Two values, "hold" and "immediate", and the requester "a".
    pub fn plain() -> Self {
        Self::default().value("hold").value("immediate").requester("a")
    }

    /// A query that was read, to be written again.
    pub fn of(query: &Query) -> Self {
        Self {
            values: query.values.iter().map(|value| value.to_vec()).collect(),
            requesters: query.requesters.iter().map(|requester| requester.to_vec()).collect(),
            attributes: query.attributes.iter().map(|item| (item.name.to_vec(), item.value.to_vec())).collect(),
            assertions: query.statements.iter().map(|item| (item.standing, item.text.to_vec())).collect(),
        }
    }

    pub fn value(mut self, value: impl AsRef<[u8]>) -> Self {
        self.values.push(value.as_ref().to_vec());
        self
    }

    pub fn requester(mut self, requester: impl AsRef<[u8]>) -> Self {
        self.requesters.push(requester.as_ref().to_vec());
        self
    }

    pub fn attribute(mut self, name: impl AsRef<[u8]>, value: impl AsRef<[u8]>) -> Self {
        self.attributes.push((name.as_ref().to_vec(), value.as_ref().to_vec()));
        self
    }

    /// A local assertion.
    pub fn local(self, text: impl AsRef<[u8]>) -> Self {
        self.assertion(1, text)
    }

    pub fn assertion(mut self, standing: u8, text: impl AsRef<[u8]>) -> Self {
        self.assertions.push((standing, text.as_ref().to_vec()));
        self
    }

    /// The record. Counts and lengths that don't fit their bytes are cut.
    pub fn record(&self) -> Vec<u8> {
        let mut record = vec![crate::limits::RECORD_VERSION, self.values.len() as u8];
        for value in &self.values {
            measured(&mut record, value);
        }
        record.push(self.requesters.len() as u8);
        for requester in &self.requesters {
            measured(&mut record, requester);
        }
        record.push(self.attributes.len() as u8);
        for (name, value) in &self.attributes {
            measured(&mut record, name);
            measured(&mut record, value);
        }
        record.push(self.assertions.len() as u8);
        for (standing, text) in &self.assertions {
            record.push(*standing);
            measured(&mut record, text);
        }
        record
    }
}

fn measured(record: &mut Vec<u8>, content: &[u8]) {
    record.extend_from_slice(&(content.len() as u16).to_be_bytes());
    record.extend_from_slice(content);
}
