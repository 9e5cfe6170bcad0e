//! GULA with its rules as they are written: a condition for each feature, as the range of the values of which it holds.
//! Every comparison is the published one, feature by feature.
use crate::gula::TooLong;
use crate::input::{Input, Kind};
use std::collections::BTreeMap;
use std::time::Instant;

/// The first and the last value of each condition.
#[derive(Clone)]
pub struct Rule(Vec<(u8, u8)>);

impl Rule {
    fn matches(&self, state: &[u8]) -> bool {
        self.0
            .iter()
            .zip(state)
            .all(|((first, last), v)| first <= v && v <= last)
    }

    fn dominates(&self, other: &Rule) -> bool {
        self.0
            .iter()
            .zip(&other.0)
            .all(|(weak, strong)| weak.0 <= strong.0 && strong.1 <= weak.1)
    }

    /// The weakest rules below this one that do not match a state that it matches.
    fn least_specializations(&self, kind: Kind, state: &[u8]) -> Vec<Rule> {
        let mut rules = Vec::new();
        for (i, (&(first, last), &v)) in self.0.iter().zip(state).enumerate() {
            let parts: Vec<(u8, u8)> = match kind {
                Kind::Band => [(first, v.wrapping_sub(1)), (v + 1, last)]
                    .into_iter()
                    .filter(|(a, b)| *b != u8::MAX && a <= b)
                    .collect(),
                Kind::Exact => (first..=last).filter(|w| *w != v).map(|w| (w, w)).collect(),
            };
            for part in parts {
                let mut rule = self.clone();
                rule.0[i] = part;
                rules.push(rule);
            }
        }
        rules
    }
}

/// The states that were shown and never with the value, in lexicographic order.
fn negatives(input: &Input, value: u8) -> Vec<Vec<u8>> {
    let mut shown: BTreeMap<Vec<u8>, bool> = BTreeMap::new();
    for row in &input.rows {
        let with = shown
            .entry(row.state[..input.features].to_vec())
            .or_default();
        *with |= row.outcome == value;
    }
    shown
        .into_iter()
        .filter(|(_, with)| !with)
        .map(|(s, _)| s)
        .collect()
}

/// The optimal rules of a value of the target, in no order.
pub fn learn(input: &Input, value: u8, deadline: Instant) -> Result<Vec<Rule>, TooLong> {
    let mut rules = vec![Rule(vec![(0, input.size - 1); input.features])];
    for state in negatives(input, value) {
        let (conflicting, mut kept): (Vec<Rule>, Vec<Rule>) =
            rules.into_iter().partition(|r| r.matches(&state));
        let mut new: Vec<Rule> = Vec::new();
        for rule in conflicting {
            if Instant::now() > deadline {
                return Err(TooLong);
            }
            for special in rule.least_specializations(input.kind, &state) {
                if kept.iter().chain(&new).any(|r| r.dominates(&special)) {
                    continue;
                }
                new.retain(|r| !special.dominates(r));
                new.push(special);
            }
        }
        kept.append(&mut new);
        rules = kept;
    }
    Ok(rules)
}

/// The rules in rising order of their codes, eight bytes each.
pub fn coded(input: &Input, rules: &[Rule]) -> Vec<[u8; 8]> {
    let code = |(first, last): (u8, u8)| {
        let lacks = input.size - (last - first + 1);
        match input.kind {
            Kind::Exact if lacks == 0 => 0,
            Kind::Exact => first + 1,
            Kind::Band => lacks * (lacks + 1) / 2 + first,
        }
    };
    let mut coded: Vec<[u8; 8]> = rules
        .iter()
        .map(|rule| {
            let mut codes = [0; 8];
            for (c, range) in codes.iter_mut().zip(&rule.0) {
                *c = code(*range);
            }
            codes
        })
        .collect();
    coded.sort_unstable();
    coded
}
