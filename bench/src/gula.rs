//! GULA, the general usage algorithm for learning from transitions, for one value of a target: it starts from the rule
//! without conditions, and for each negative state in turn replaces every rule that matches it by its least
//! specializations that do not, of which it keeps those that no other rule dominates.
//!
//! A rule is eight bytes in one word, a byte for each feature: bit v says that the condition holds of the value v. So a rule
//! dominates another where its bits contain the other's, and matches a state where they contain the state's, which has one
//! bit for each feature. A feature that is not there has no bits.
use crate::input::{Input, Kind, Row};
use std::time::Instant;

/// Which rules a new one is compared with.
#[derive(Clone, Copy, PartialEq, Eq)]
pub enum Compare {
    /// As published: with every rule that is kept.
    All,
    /// Only with the rules that miss the negative state at the narrowed feature and at no other. No other rule can
    /// dominate the new one or be dominated by it, so the rules are the same.
    NearMisses,
}

/// The deadline came first.
pub struct TooLong;

fn contains(weak: u64, strong: u64) -> bool {
    strong & !weak == 0
}

fn lane(feature: usize) -> u32 {
    8 * feature as u32
}

/// A state as a rule that matches nothing else.
fn bits_of(row: &Row, features: usize) -> u64 {
    (0..features)
        .map(|i| 1 << (lane(i) + u32::from(row.state[i])))
        .sum()
}

/// The states that were shown and never with the value, in lexicographic order.
fn negatives(input: &Input, value: u8) -> Vec<u64> {
    let mut shown: Vec<([u8; 8], bool, u64)> = input
        .rows
        .iter()
        .map(|r| (r.state, r.outcome != value, bits_of(r, input.features)))
        .collect();
    shown.sort_unstable();
    // Of the rows of one state the first has the value if any has.
    shown.dedup_by_key(|s| s.0);
    shown.iter().filter(|s| s.1).map(|s| s.2).collect()
}

/// The feature at which a rule misses a state, where it misses it at one feature only.
fn only_miss(rule: u64, state: u64) -> Option<usize> {
    let missed = state & !rule;
    (missed & (missed - 1) == 0).then(|| missed.trailing_zeros() as usize / 8)
}

/// Whether a rule of the list dominates another: by blocks, without a branch inside a block.
fn any_dominates(rules: &[u64], strong: u64) -> bool {
    let (blocks, rest) = rules.as_chunks::<16>();
    let in_block = |b: &[u64; 16]| {
        b.iter()
            .fold(false, |found, r| found | contains(*r, strong))
    };
    blocks.iter().any(in_block) || rest.iter().any(|r| contains(*r, strong))
}

/// The weakest conditions below one, as bits, that do not hold of a value of which it holds.
fn narrowed(kind: Kind, condition: u64, value: u64) -> impl Iterator<Item = u64> {
    let below = condition & (value - 1);
    let above = condition & !(value - 1) & !value;
    let parts: [u64; 8] = match kind {
        // A range falls into the part below the value and the part above it.
        Kind::Band => [below, above, 0, 0, 0, 0, 0, 0],
        // Any value but one: equality with each of the others. Equality has nothing below it.
        Kind::Exact => std::array::from_fn(|v| (below | above) & 1 << v),
    };
    parts.into_iter().filter(|p| *p != 0)
}

struct Learner {
    kind: Kind,
    features: usize,
    compare: Compare,
    /// the rules so far: none dominates another
    rules: Vec<u64>,
    /// those that match the present state
    conflicting: Vec<u64>,
    /// by feature, those that miss the present state only there
    near: [Vec<u64>; 8],
    /// the new rules of the present state; by feature where near misses are compared, else all in the first
    new: [Vec<u64>; 8],
}

impl Learner {
    /// Takes the rules that match the state out.
    fn split(&mut self, state: u64) {
        self.conflicting.clear();
        self.near.iter_mut().for_each(Vec::clear);
        let (conflicting, near) = (&mut self.conflicting, &mut self.near);
        let near_misses = self.compare == Compare::NearMisses;
        self.rules.retain(|rule| {
            if contains(*rule, state) {
                conflicting.push(*rule);
                return false;
            }
            if near_misses && let Some(feature) = only_miss(*rule, state) {
                near[feature].push(*rule);
            }
            true
        });
    }

    /// Adds a rule that was narrowed at a feature, unless another dominates it; the new ones that it dominates go.
    fn add(&mut self, rule: u64, feature: usize) {
        let (kept, new) = match self.compare {
            Compare::All => (&self.rules, &mut self.new[0]),
            Compare::NearMisses => (&self.near[feature], &mut self.new[feature]),
        };
        if any_dominates(kept, rule) || any_dominates(new, rule) {
            return;
        }
        new.retain(|other| !contains(rule, *other));
        new.push(rule);
    }

    /// Adds the least specializations of a rule that do not match the state.
    fn specialize(&mut self, rule: u64, state: u64) {
        for feature in 0..self.features {
            let condition = rule >> lane(feature) & 0xFF;
            let value = state >> lane(feature) & 0xFF;
            let others = rule & !(0xFF << lane(feature));
            for part in narrowed(self.kind, condition, value) {
                self.add(others | part << lane(feature), feature);
            }
        }
    }

    /// Revises the rules so that none matches the state.
    fn revise(&mut self, state: u64, deadline: Instant) -> Result<(), TooLong> {
        self.split(state);
        for i in 0..self.conflicting.len() {
            if Instant::now() > deadline {
                return Err(TooLong);
            }
            self.specialize(self.conflicting[i], state);
        }
        for new in &mut self.new {
            self.rules.append(new);
        }
        Ok(())
    }
}

/// The optimal rules of a value of the target, in no order.
pub fn learn(
    input: &Input,
    value: u8,
    compare: Compare,
    deadline: Instant,
) -> Result<Vec<u64>, TooLong> {
    let any = (1u64 << input.size) - 1;
    let mut learner = Learner {
        kind: input.kind,
        features: input.features,
        compare,
        rules: vec![(0..input.features).map(|i| any << lane(i)).sum()],
        conflicting: Vec::new(),
        near: Default::default(),
        new: Default::default(),
    };
    for state in negatives(input, value) {
        learner.revise(state, deadline)?;
    }
    Ok(learner.rules)
}

/// The code of a condition, as the library has it.
fn code(kind: Kind, size: u8, condition: u64) -> u8 {
    let first = condition.trailing_zeros() as u8;
    let lacks = size - condition.count_ones() as u8;
    match kind {
        Kind::Exact if lacks == 0 => 0,
        Kind::Exact => first + 1,
        Kind::Band => lacks * (lacks + 1) / 2 + first,
    }
}

/// The rules in rising order of their codes, eight bytes each.
pub fn coded(input: &Input, rules: &[u64]) -> Vec<[u8; 8]> {
    let mut coded: Vec<[u8; 8]> = rules
        .iter()
        .map(|rule| {
            let mut codes = [0; 8];
            for (i, c) in codes[..input.features].iter_mut().enumerate() {
                *c = code(input.kind, input.size, rule >> lane(i) & 0xFF);
            }
            codes
        })
        .collect();
    coded.sort_unstable();
    coded
}
