//! What names stand for while an assertion is evaluated.

use std::cell::OnceCell;

use crate::record::Query;
use crate::store::{Row, Store};

/// The names of a query, beside which an assertion has its constants.
pub struct Environment<'a> {
    pub query: &'a Query<'a>,
    pub store: &'a Store,
    values: OnceCell<Vec<u8>>,
    authorizers: OnceCell<Vec<u8>>,
}

impl<'a> Environment<'a> {
    pub fn new(query: &'a Query<'a>, store: &'a Store) -> Self {
        Self { query, store, values: OnceCell::new(), authorizers: OnceCell::new() }
    }

    /// A name's value: the first of the constants, the reserved names and the
    /// query's attributes that has it, else empty.
    pub fn lookup(&self, constants: Row, name: &[u8]) -> &[u8] {
        let show = |piece| self.store.show(self.query, piece);
        for constant in constants.of(&self.store.constants) {
            if show(constant.name) == name {
                return show(constant.value);
            }
        }
        if name.first() == Some(&b'_') {
            return self.reserved(name);
        }
        let attribute = self.query.attributes.iter().find(|attribute| attribute.name == name);
        attribute.map_or(&[], |attribute| attribute.value)
    }

    fn reserved(&self, name: &[u8]) -> &[u8] {
        let values: &[&[u8]] = &self.query.values;
        match name {
            b"_MIN_TRUST" => values[0],
            b"_MAX_TRUST" => values[values.len() - 1],
            b"_VALUES" => self.values.get_or_init(|| values.join(&b',')),
            b"_ACTION_AUTHORIZERS" => self.authorizers.get_or_init(|| self.query.requesters.join(&b',')),
            _ => &[],
        }
    }

    /// The rank that a string names; one outside the value set names the lowest.
    pub fn rank(&self, value: &[u8]) -> u8 {
        self.query.values.iter().position(|known| *known == value).unwrap_or(0) as u8
    }
}
