//! The inputs: a shape with one target of two values, a condition kind, and random rows.
use crate::random::Random;

#[derive(Clone, Copy, PartialEq, Eq)]
pub enum Kind {
    Exact,
    Band,
}

/// A state, one value for each feature with 0 beyond them, and the value of the target.
#[derive(Clone, Copy)]
pub struct Row {
    pub state: [u8; 8],
    pub outcome: u8,
}

pub struct Input {
    pub name: &'static str,
    pub kind: Kind,
    pub features: usize,
    pub size: u8,
    pub rows: Vec<Row>,
}

/// How many values the target has, so how many heads are listed.
pub const VALUES: u8 = 2;

const SEED: u64 = 0x9E37_79B9_7F4A_7C15;

impl Input {
    fn new(name: &'static str, kind: Kind, features: usize, size: u8, count: usize) -> Input {
        let mut random = Random::new(SEED);
        let rows = (0..count)
            .map(|_| {
                let mut state = [0; 8];
                for value in &mut state[..features] {
                    *value = random.below(size);
                }
                Row {
                    state,
                    outcome: random.below(VALUES),
                }
            })
            .collect();
        Input {
            name,
            kind,
            features,
            size,
            rows,
        }
    }
}

pub fn inputs() -> Vec<Input> {
    vec![
        Input::new("8 of 2, 60 rows, exact", Kind::Exact, 8, 2, 60),
        Input::new("8 of 2, 256 rows, exact", Kind::Exact, 8, 2, 256),
        Input::new("3 of 8, 500 rows, band", Kind::Band, 3, 8, 500),
        Input::new("8 of 4, 4,094 rows, exact", Kind::Exact, 8, 4, 4094),
        Input::new("6 of 4, 4,094 rows, band", Kind::Band, 6, 4, 4094),
    ]
}
