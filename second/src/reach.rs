//! The principals in a query's reach, for tests that ask who is in it.

use std::collections::{HashMap, HashSet};

use crate::check::POLICY;
use crate::principal::form_of;
use crate::record::Query;
use crate::store::Assertion;
use crate::Reading;

/// The canonical forms of the principals in a reach.
pub struct Reach(HashSet<Vec<u8>>);

impl Reach {
    pub fn holds(&self, identifier: &[u8]) -> bool {
        self.0.contains(&form_of(identifier))
    }
}

/// POLICY and, repeatedly, the licensees of assertions made within.
pub fn of(query: &Query, reading: &Reading) -> Reach {
    let store = &reading.store;
    let mut made: HashMap<Vec<u8>, Vec<&Assertion>> = HashMap::new();
    for assertion in &reading.kept {
        made.entry(form_of(store.show(query, assertion.authorizer))).or_default().push(assertion);
    }
    let mut reach = HashSet::new();
    let mut waiting = vec![form_of(POLICY)];
    while let Some(principal) = waiting.pop() {
        let by_it = made.remove(&principal).unwrap_or_default();
        reach.insert(principal);
        for fields in by_it.iter().filter_map(|assertion| assertion.licensees) {
            let forms = fields.principals.of(&store.principals).iter().map(|piece| form_of(store.show(query, *piece)));
            waiting.extend(forms.filter(|form| !reach.contains(form)));
        }
    }
    Reach(reach)
}

/// Where an assertion stands to a reach.
#[derive(Clone, Copy, Debug, PartialEq, Eq)]
pub enum Place {
    SetAside,
    /// Kept, and its authorizer isn't in the reach.
    Outside,
    Within,
}

/// The place of every assertion of a query, by this query's reach or another's.
pub fn places(query: &Query, reading: &Reading, reach: &Reach) -> Vec<Place> {
    let place = |kept: Option<&Assertion>| match kept {
        None => Place::SetAside,
        Some(assertion) if reach.holds(reading.store.show(query, assertion.authorizer)) => Place::Within,
        Some(_) => Place::Outside,
    };
    reading.assertions().map(place).collect()
}
