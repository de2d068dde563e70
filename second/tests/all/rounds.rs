//! Ranks, rounds and reach of generated webs, computed again from the equations
//! over all principals by name. A principal goes by the first of its spellings.

use std::collections::{BTreeMap, BTreeSet};

use crate::principals::same;
use second::environment::Environment;
use second::eval::Evaluator;
use second::generate::{of_sort, Sort};
use second::print::PAGE;
use second::random::Random;
use second::record::{self, Query};
use second::store::{Assertion, Licence, Store};
use second::{answer, read_assertions};

type Ranks = BTreeMap<Vec<u8>, u8>;

/// The spellings met so far, none of them the same principal as another.
#[derive(Default)]
struct Names(Vec<Vec<u8>>);

impl Names {
    fn of(&mut self, identifier: &[u8]) -> Vec<u8> {
        match self.0.iter().find(|name| same(name, identifier)) {
            Some(name) => name.clone(),
            None => {
                self.0.push(identifier.to_vec());
                identifier.to_vec()
            }
        }
    }
}

struct Made {
    authorizer: Vec<u8>,
    conditions: u8,
    licensees: Option<(Vec<Licence>, Vec<Vec<u8>>)>,
}

fn made(query: &Query, store: &Store, assertion: &Assertion, evaluator: &mut Evaluator, names: &mut Names) -> Made {
    let mut show = |piece| names.of(store.show(query, piece));
    let licensees = assertion.licensees.map(|fields| {
        let principals = fields.principals.of(&store.principals).iter().map(|&piece| show(piece));
        (fields.licences.of(&store.licences).to_vec(), principals.collect())
    });
    Made { authorizer: show(assertion.authorizer), conditions: evaluator.conditions(assertion), licensees }
}

fn licensed(made: &Made, ranks: &Ranks, top: u8) -> u8 {
    let Some((licences, principals)) = &made.licensees else { return top };
    let mut waiting = principals.iter();
    let mut stack: Vec<u8> = Vec::new();
    for licence in licences {
        let rank = match licence {
            Licence::Principal => ranks[waiting.next().unwrap()],
            Licence::And => stack.pop().unwrap().min(stack.pop().unwrap()),
            Licence::Or => stack.pop().unwrap().max(stack.pop().unwrap()),
            Licence::Threshold { least, listed } => {
                let list = stack.split_off(stack.len() - usize::from(*listed));
                // The highest rank that at least K of the list have.
                let enough = |rank: &u8| list.iter().filter(|&other| other >= rank).count() >= usize::from(*least);
                (0..=top).rev().find(enough).unwrap()
            }
        };
        stack.push(rank);
    }
    stack.pop().unwrap_or(0)
}

fn round(all: &[Made], direct: &Ranks, ranks: &Ranks, top: u8) -> Ranks {
    let mut next = direct.clone();
    for made in all {
        let rank = licensed(made, ranks, top).min(made.conditions);
        let held = next.get_mut(&made.authorizer).unwrap();
        *held = (*held).max(rank);
    }
    next
}

fn reach(all: &[Made]) -> BTreeSet<Vec<u8>> {
    let mut reach = BTreeSet::from([b"POLICY".to_vec()]);
    loop {
        let within = all.iter().filter(|made| reach.contains(&made.authorizer));
        let further: BTreeSet<_> =
            within.flat_map(|made| made.licensees.iter().flat_map(|(_, list)| list.clone())).collect();
        if further.is_subset(&reach) {
            return reach;
        }
        reach.extend(further);
    }
}

fn solved_by_name(record: &[u8]) {
    let query = record::read(record).unwrap();
    let reading = read_assertions(&query);
    let environment = Environment::new(&query, &reading.store);
    let mut evaluator = Evaluator::new(&environment);
    let mut names = Names::default();
    let policy = names.of(b"POLICY");
    let requesters: Vec<Vec<u8>> = query.requesters.iter().map(|requester| names.of(requester)).collect();
    let all: Vec<Made> =
        reading.kept.iter().map(|item| made(&query, &reading.store, item, &mut evaluator, &mut names)).collect();
    let top = query.top();
    let rank = |name: &Vec<u8>| if requesters.contains(name) { top } else { 0 };
    let direct: Ranks = names.0.iter().map(|name| (name.clone(), rank(name))).collect();
    let mut ranks: Ranks = names.0.iter().map(|name| (name.clone(), 0)).collect();
    let reach = reach(&all);
    let mut rounds = 0;
    loop {
        let next = round(&all, &direct, &ranks, top);
        if reach.iter().all(|name| next[name] == ranks[name]) {
            break;
        }
        ranks = next;
        rounds += 1;
    }
    let outcome = answer(record, &mut [0; PAGE]);
    assert_eq!((outcome.number, outcome.rank), (0, ranks[&policy]));
    assert_eq!((outcome.rounds, outcome.reached), (rounds, reach.len()));
    assert!(rounds <= reach.len());
}

#[test]
fn equations_by_name() {
    let mut random = Random::new(23);
    for _ in 0..6_000 {
        solved_by_name(&of_sort(&mut random, Sort::Web));
    }
    for _ in 0..6_000 {
        solved_by_name(&of_sort(&mut random, Sort::Keys));
    }
}

/// With up to 200 assertions.
#[test]
fn equations_of_crowds() {
    let mut random = Random::new(29);
    let mut solved = 0;
    while solved < 40 {
        let record = of_sort(&mut random, Sort::Crowd);
        if record::read(&record).is_ok() {
            solved_by_name(&record);
            solved += 1;
        }
    }
}
