//! The identifiers of the texts that are formed, in a query: an assertion that is
//! kept, or reason 9 or 10. Every expression counts, whoever reaches it.

use crate::check::{IDENTIFIER, POLICY, STANDING};
use crate::environment::Environment;
use crate::eval::Evaluator;
use crate::limits;
use crate::line::Fault;
use crate::record::Query;
use crate::store::{Assertion, Expression, Formed, FormedLicensees, Licensees, Node, Piece, Row, Store};

/// The standing of a verified credential.
const CREDENTIAL: u8 = 2;

/// The assertions that are kept. Formed texts that are set aside get their fault.
pub fn all(
    query: &Query,
    formed: &[Option<Formed>],
    store: &mut Store,
    faults: &mut [Option<Fault>],
) -> Vec<Assertion> {
    let environment = Environment::new(query, store);
    let mut names = Names {
        query,
        store,
        evaluator: Evaluator::new(&environment),
        principals: Vec::with_capacity(store.expressions.len()),
        identifiers: Vec::new(),
    };
    let mut kept = Vec::with_capacity(formed.len());
    for ((statement, formed), fault) in query.statements.iter().zip(formed).zip(faults) {
        let Some(formed) = formed else { continue };
        match names.assertion(formed, statement.standing) {
            Ok(assertion) => kept.push(assertion),
            Err(found) => *fault = Some(found),
        }
    }
    let Names { principals, identifiers, .. } = names;
    (store.principals, store.identifiers) = (principals, identifiers);
    kept
}

struct Names<'a> {
    query: &'a Query<'a>,
    store: &'a Store,
    evaluator: Evaluator<'a>,
    principals: Vec<Piece>,
    identifiers: Vec<u8>,
}

impl Names<'_> {
    /// The earlier fault of the two fields, whichever field stands first.
    fn assertion(&mut self, formed: &Formed, standing: u8) -> Result<Assertion, Fault> {
        let first = self.principals.len();
        let authorizer = self.authorizer(formed, standing);
        let licensees = formed.licensees.map(|fields| self.licensees(&fields)).transpose();
        match (authorizer, licensees) {
            (Ok(authorizer), Ok(licensees)) => {
                let Formed { conditions, constants, .. } = *formed;
                Ok(Assertion { authorizer, licensees, conditions, constants })
            }
            (authorizer, licensees) => {
                self.principals.truncate(first);
                Err(authorizer.err().into_iter().chain(licensees.err()).min().expect("one of the two"))
            }
        }
    }

    /// A verified credential doesn't speak for POLICY.
    fn authorizer(&mut self, formed: &Formed, standing: u8) -> Result<Piece, Fault> {
        let (piece, policy) = self.identifier(&formed.authorizer, formed.authorizer_constants)?;
        match standing == CREDENTIAL && policy {
            true => Err(Fault { place: formed.authorizer.place, reason: STANDING }),
            false => Ok(piece),
        }
    }

    fn licensees(&mut self, fields: &FormedLicensees) -> Result<Licensees, Fault> {
        let first = self.principals.len();
        for expression in fields.expressions.of(&self.store.expressions) {
            let (piece, _) = self.identifier(expression, fields.constants)?;
            self.principals.push(piece);
        }
        Ok(Licensees { licences: fields.licences, principals: Row::new(first, self.principals.len()) })
    }

    /// Where an identifier lies, and whether it is POLICY.
    fn identifier(&mut self, expression: &Expression, constants: Row) -> Result<(Piece, bool), Fault> {
        let fault = Fault { place: expression.place, reason: IDENTIFIER };
        // A literal by itself lies where it stands.
        let (bytes, literal) = match *expression.nodes.of(&self.store.nodes) {
            [Node::Text(piece)] => (self.store.show(self.query, piece), Some(piece)),
            _ => (self.evaluator.string(expression.nodes, constants).map_err(|_| fault)?, None),
        };
        if !limits::PRINCIPAL_BYTES.holds(bytes.len()) {
            return Err(fault);
        }
        let policy = bytes == POLICY;
        let piece = literal.unwrap_or_else(|| {
            let start = self.identifiers.len();
            self.identifiers.extend_from_slice(bytes);
            Store::identifier(start, bytes.len())
        });
        Ok((piece, policy))
    }
}
