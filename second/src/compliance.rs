//! The rank of POLICY: the reach, and rounds up to the least solution.

use crate::check::POLICY;
use crate::environment::Environment;
use crate::eval::Evaluator;
use crate::limits;
use crate::principal::{Form, Principals};
use crate::store::{Assertion, Licence};

/// What an answered query is given.
#[derive(Clone, Copy, Debug, PartialEq, Eq)]
pub struct Solution {
    pub rank: u8,
    pub rounds: usize,
    pub reached: usize,
}

/// An assertion made within the reach.
#[derive(Clone, Copy)]
struct Made<'a> {
    authorizer: usize,
    conditions: u8,
    /// The Licensees field: its steps and the numbers of its principals.
    licensees: Option<(&'a [Licence], usize)>,
}

/// Solves the equations of the kept assertions in a query. Identifiers of one
/// form are one principal.
pub fn solve(environment: &Environment, kept: &[Assertion], form: Form) -> Solution {
    let (query, store) = (environment.query, environment.store);
    let mut principals = Principals::new(form, 1 + kept.len() + store.principals.len());
    let policy = principals.number(POLICY);
    let authorizers: Vec<u16> =
        kept.iter().map(|assertion| principals.number(store.show(query, assertion.authorizer)) as u16).collect();
    let licensees: Vec<u16> =
        store.principals.iter().map(|piece| principals.number(store.show(query, *piece)) as u16).collect();
    let reach = Reach::new(policy, principals.len(), kept, &authorizers, &licensees);

    let mut evaluator = Evaluator::new(environment);
    let mut made: Vec<Made> = Vec::with_capacity(kept.len());
    for (assertion, &authorizer) in kept.iter().zip(authorizers.iter()) {
        let authorizer = usize::from(authorizer);
        if reach.holds(authorizer) {
            let licensees = assertion
                .licensees
                .map(|licensees| (licensees.licences.of(&store.licences), licensees.principals.first as usize));
            made.push(Made { authorizer, conditions: evaluator.conditions(assertion), licensees });
        }
    }

    let mut direct = vec![0; principals.len()];
    for requester in query.requesters.iter() {
        match principals.find(requester) {
            Some(number) if reach.holds(number) => direct[number] = query.top(),
            _ => {}
        }
    }
    let (ranks, rounds) = least_solution(&direct, &made, &licensees, query.top());
    Solution { rank: ranks[policy], rounds, reached: reach.count }
}

/// Applies the equations round by round until a round repeats the one before.
/// Ranks outside the reach stay 0.
fn least_solution(direct: &[u8], made: &[Made], licensees: &[u16], top: u8) -> (Vec<u8>, usize) {
    let mut ranks = vec![0; direct.len()];
    let mut next = direct.to_vec();
    let mut rounds = 0;
    loop {
        for assertion in made {
            let licensed = match assertion.licensees {
                Some((licences, first)) => licensees_rank(licences, &licensees[first..], &ranks),
                None => top,
            };
            let rank = licensed.min(assertion.conditions);
            next[assertion.authorizer] = next[assertion.authorizer].max(rank);
        }
        if next == ranks {
            return (ranks, rounds);
        }
        rounds += 1;
        std::mem::swap(&mut ranks, &mut next);
        next.copy_from_slice(direct);
    }
}

/// The rank of a Licensees field, 0 if it is empty.
fn licensees_rank(licences: &[Licence], principals: &[u16], ranks: &[u8]) -> u8 {
    let mut stack = [0u8; limits::LICENSEES];
    let mut depth = 0;
    let mut used = 0;
    for licence in licences {
        match *licence {
            Licence::Principal => {
                stack[depth] = ranks[usize::from(principals[used])];
                used += 1;
                depth += 1;
            }
            Licence::And => {
                depth -= 1;
                stack[depth - 1] = stack[depth - 1].min(stack[depth]);
            }
            Licence::Or => {
                depth -= 1;
                stack[depth - 1] = stack[depth - 1].max(stack[depth]);
            }
            Licence::Threshold { least, listed } => {
                let first = depth - usize::from(listed);
                stack[first] = highest(&mut stack[first..depth], usize::from(least));
                depth = first + 1;
            }
        }
    }
    stack[0]
}

/// The K-th highest of the ranks, counted with multiplicity.
fn highest(ranks: &mut [u8], k: usize) -> u8 {
    ranks.sort_unstable_by(|left, right| right.cmp(left));
    ranks[k - 1]
}

/// POLICY and, repeatedly, every licensee of assertions made within.
struct Reach {
    within: Vec<bool>,
    count: usize,
}

/// No assertion: ends a row of assertions by one principal.
const NONE: u16 = u16::MAX;

impl Reach {
    /// Each principal that is added is visited once, and with it each of its
    /// assertions.
    fn new(policy: usize, principals: usize, kept: &[Assertion], authorizers: &[u16], licensees: &[u16]) -> Self {
        // The last assertion of each principal, and before each assertion the
        // one by the same principal.
        let mut last = vec![NONE; principals];
        let mut before = vec![NONE; kept.len()];
        for (index, &authorizer) in authorizers.iter().enumerate() {
            before[index] = std::mem::replace(&mut last[usize::from(authorizer)], index as u16);
        }
        let mut reach = Self { within: vec![false; principals], count: 0 };
        let mut waiting = Vec::with_capacity(kept.len() + 1);
        reach.add(policy);
        waiting.push(policy);
        while let Some(principal) = waiting.pop() {
            let mut index = usize::from(last[principal]);
            while let Some(assertion) = kept.get(index) {
                let listed = assertion.licensees.map_or(&[][..], |fields| fields.principals.of(licensees));
                // Those who made nothing lead no further.
                let new = listed.iter().map(|&licensee| usize::from(licensee)).filter(|&licensee| reach.add(licensee));
                waiting.extend(new.filter(|&licensee| last[licensee] != NONE));
                index = usize::from(before[index]);
            }
        }
        reach
    }

    fn holds(&self, principal: usize) -> bool {
        self.within[principal]
    }

    /// Whether the principal is new.
    fn add(&mut self, principal: usize) -> bool {
        let new = !std::mem::replace(&mut self.within[principal], true);
        self.count += usize::from(new);
        new
    }
}
