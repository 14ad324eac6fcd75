//! The calls of a history. Some have one damage, with which they are refused: so an accepted one has the rows drawn.

use crate::{
    case::{Call, Row},
    draw::{beside, damage, elements, params, with_rows, written},
    field::Field,
    history::{Of, Step},
    random::Random,
};

/// Those that add or take out, as often as each is to be drawn.
const ADDING: [Call; 10] = [
    Call::Accumulate,
    Call::Accumulate,
    Call::Accumulate,
    Call::Accumulate,
    Call::Merge,
    Call::Merge,
    Call::Subtract,
    Call::Subtract,
    Call::Subtract,
    Call::Unmerge,
];

/// Draws them one after the other.
pub struct Calls {
    pub field: &'static Field,
    pub d: u64,
    /// All that were drawn, added or not.
    pub shares: Vec<Vec<u64>>,
    /// How many aggregates are still to be emptied at first, and how many calls there are from then on.
    to_empty: usize,
    left: u64,
    /// Those that are read back at the end.
    two: [usize; 2],
}

impl Calls {
    pub fn new(random: &mut Random, field: &'static Field, aggregates: usize) -> Calls {
        let (d, two) = (params::dimension(random), two_of(random, aggregates));
        Calls { field, d, shares: vec![], to_empty: aggregates, left: random.between(6, 41), two }
    }

    fn sound(&self, random: &mut Random, call: Call, rows: Vec<(Of, Row)>) -> Step {
        let (of, rows) = rows.into_iter().unzip();
        Step { case: with_rows(call, params::of_dimension(random, self.field, self.d), rows), of }
    }

    fn empty(&self, random: &mut Random, agg: usize, aggregates: &[Vec<u64>]) -> Step {
        self.sound(random, Call::EmptyAggregate, vec![(Of::Aggregate(agg), Row::Written(aggregates[agg].clone()))])
    }

    /// One that was drawn before, mostly where it is taken out, or another.
    fn share(&mut self, random: &mut Random, call: Call, agg: &[u64]) -> usize {
        let again = if call == Call::Subtract { 3 } else { 1 };
        if !self.shares.is_empty() && random.below(4) < again {
            return random.index(self.shares.len());
        }
        let share = beside(random, self.field, call, &self.field.elements(agg));
        self.keep(&share)
    }

    fn keep(&mut self, share: &[u128]) -> usize {
        self.shares.push(self.field.row(share));
        self.shares.len() - 1
    }

    /// Adds a row to an aggregate, or takes it out.
    fn with(&self, random: &mut Random, call: Call, agg: usize, second: Of, aggregates: &[Vec<u64>]) -> Step {
        let row = match second {
            Of::Aggregate(other) => &aggregates[other],
            Of::Share(share) => &self.shares[share],
            Of::Result => unreachable!(),
        };
        let first = (Of::Aggregate(agg), Row::Aggregate(aggregates[agg].clone()));
        self.sound(random, call, vec![first, (second, Row::Elements(row.clone()))])
    }

    fn adding(&mut self, random: &mut Random, call: Call, aggregates: &[Vec<u64>]) -> Step {
        let [agg, other] = two_of(random, aggregates.len());
        let second = if matches!(call, Call::Merge | Call::Unmerge) {
            Of::Aggregate(other)
        } else {
            Of::Share(self.share(random, call, &aggregates[agg]))
        };
        self.with(random, call, agg, second, aggregates)
    }

    /// Adds a share with which the sums of the two can be decoded.
    fn completing(&mut self, random: &mut Random, aggregates: &[Vec<u64>]) -> Step {
        let field = self.field;
        let mut lacking = elements::totals(random, field, self.d as usize);
        for agg in self.two {
            lacking = elements::lacking(field, &lacking, &field.elements(&aggregates[agg]));
        }
        let share = self.keep(&lacking);
        self.with(random, Call::Accumulate, self.two[0], Of::Share(share), aggregates)
    }

    fn unshard(&self, random: &mut Random, aggregates: &[Vec<u64>]) -> Step {
        let two = self.two.map(|i| (Of::Aggregate(i), Row::Elements(aggregates[i].clone())));
        let mut rows = Vec::from(two);
        rows.push((Of::Result, written(random, self.d as usize)));
        self.sound(random, Call::Unshard, rows)
    }

    fn any(&mut self, random: &mut Random, aggregates: &[Vec<u64>]) -> Step {
        let mut step = if random.once_in(24) {
            let agg = random.index(aggregates.len());
            self.empty(random, agg, aggregates)
        } else {
            let call = random.pick(&ADDING);
            self.adding(random, call, aggregates)
        };
        match random.below(8) {
            0 => step.case.param.d = random.near(self.d).max(1),
            1 | 2 => damage::once(random, &mut step.case),
            _ => (),
        }
        step
    }

    /// Each is emptied, then come any calls, most often one after which two can be read back, and these are.
    pub fn next(&mut self, random: &mut Random, aggregates: &[Vec<u64>]) -> Option<Step> {
        if self.to_empty > 0 {
            self.to_empty -= 1;
            return Some(self.empty(random, self.to_empty, aggregates));
        }
        self.left = self.left.checked_sub(1)?;
        Some(match self.left {
            0 => self.unshard(random, aggregates),
            1 if !random.once_in(4) => self.completing(random, aggregates),
            _ => self.any(random, aggregates),
        })
    }
}

fn two_of(random: &mut Random, many: usize) -> [usize; 2] {
    let first = random.index(many);
    [first, (first + 1 + random.index(many - 1)) % many]
}
