//! Demand 3: attributes that nothing reads which may, and pairs of queries alike
//! but for the values of such attributes.

use crate::draft::Draft;
use crate::limits;
use crate::random::Random;
use crate::reach;
use crate::read_assertions;
use crate::record::{self, Query};
use crate::store::{Node, Row, Store};

/// For each attribute of a query whether it is read: by an assertion made within
/// the reach in its Conditions, or in Authorizer or Licensees by any text that is
/// formed, reached or not, set aside for an identifier or not. A "$" reads all.
pub fn read_attributes(query: &Query) -> Vec<bool> {
    let reading = read_assertions(query);
    let reach = reach::of(query, &reading);
    let mut marks = Marks { query, store: &reading.store, read: vec![false; query.attributes.len()] };
    for formed in reading.formed.iter().flatten() {
        marks.mark(formed.authorizer.nodes, formed.authorizer_constants);
        for fields in formed.licensees.iter() {
            for expression in fields.expressions.of(&reading.store.expressions) {
                marks.mark(expression.nodes, fields.constants);
            }
        }
    }
    for assertion in reading.kept.iter() {
        if reach.holds(reading.store.show(query, assertion.authorizer)) {
            marks.mark(assertion.conditions.unwrap_or_default(), assertion.constants);
        }
    }
    marks.read
}

struct Marks<'a> {
    query: &'a Query<'a>,
    store: &'a Store,
    read: Vec<bool>,
}

impl Marks<'_> {
    /// Marks what the nodes dereference from the query beside the constants.
    fn mark(&mut self, nodes: Row, constants: Row) {
        for node in nodes.of(&self.store.nodes) {
            match node {
                Node::Dereference => self.read.fill(true),
                Node::Name(piece) => {
                    let show = |piece| self.store.show(self.query, piece);
                    let name = show(*piece);
                    let hidden = constants.of(&self.store.constants).iter().any(|constant| show(constant.name) == name);
                    let place = self.query.attributes.iter().position(|attribute| attribute.name == name);
                    if let (false, Some(place)) = (hidden, place) {
                        self.read[place] = true;
                    }
                }
                _ => {}
            }
        }
    }
}

/// A record alike but for the values of some attributes that aren't read; none
/// where the record is refused, or no such record fits.
pub fn partner(random: &mut Random, record: &[u8]) -> Option<Vec<u8>> {
    let query = record::read(record).ok()?;
    let read = read_attributes(&query);
    let mut draft = Draft::of(&query);
    let all = random.once_in(2);
    for (attribute, read) in draft.attributes.iter_mut().zip(read) {
        if !read && (all || random.once_in(2)) {
            attribute.1 = value(random);
        }
    }
    let partner = draft.record();
    (partner.len() <= limits::RECORD_BYTES).then_some(partner)
}

fn value(random: &mut Random) -> Vec<u8> {
    const VALUES: [&[u8]; 6] = [b"", b"1", b"x", b"true", b"_MAX_TRUST", b"a,b"];
    match random.below(4) {
        0 => vec![b'v'; random.between(0, limits::ATTRIBUTE_BYTES.most)],
        1 => (0..random.below(20)).map(|_| random.between(1, 255) as u8).collect(),
        _ => random.pick(&VALUES).to_vec(),
    }
}
