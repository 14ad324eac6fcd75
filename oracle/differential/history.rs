//! A history: calls over one field on a few aggregates, ours on the rows that our calls left, the original's on those
//! that its own did.

use crate::{
    case::{Call, Case, Row},
    compare::{compare_on, equal, Same},
    draw::Calls,
    field::Field,
    lent::Lent,
    random::Random,
    rules::ACCEPTED,
    whole,
};
use std::collections::BTreeMap;

/// What a row of a call is, by its number among the history's.
#[derive(Clone, Copy)]
pub enum Of {
    Aggregate(usize),
    Share(usize),
    Result,
}

pub struct Step {
    pub case: Case,
    /// Of each row.
    pub of: Vec<Of>,
}

/// How often each share is in an aggregate: below 0 where it was taken out more often than added.
type Tally = BTreeMap<usize, i128>;

pub struct History {
    calls: Calls,
    /// In the same memory all the time; none while it is lent.
    ours: Vec<Option<Lent>>,
    original: Vec<Vec<u64>>,
    tallies: Vec<Tally>,
}

impl History {
    /// The aggregates hold random words at first.
    pub fn new(random: &mut Random, field: &'static Field) -> History {
        let many = random.between(2, 4) as usize;
        let calls = Calls::new(random, field, many);
        let original: Vec<Vec<u64>> = (0..many).map(|_| random.words(field.words * calls.d as usize)).collect();
        let ours = original.iter().map(|row| Some(Lent::new(random, &Row::Written(row.clone())))).collect();
        History { calls, ours, original, tallies: vec![Tally::new(); many] }
    }

    pub fn field(&self) -> &'static Field {
        self.calls.field
    }

    pub fn next(&mut self, random: &mut Random) -> Option<Step> {
        self.calls.next(random, &self.original)
    }

    /// An aggregate itself; of one that is damaged for this call, a copy.
    fn lend(&mut self, random: &mut Random, row: &Row, of: Of) -> Lent {
        let own = match of {
            Of::Aggregate(i) if row.words() == self.original[i] => self.ours[i].take(),
            _ => None,
        };
        own.unwrap_or_else(|| Lent::new(random, row))
    }

    fn take_back(&mut self, rows: Vec<Lent>, of: &[Of]) {
        for (row, of) in rows.into_iter().zip(of) {
            if let Of::Aggregate(i) = of {
                self.ours[*i].get_or_insert(row);
            }
        }
    }

    /// Enters what a row brings into an aggregate's tally, once or minus once.
    fn count(&mut self, agg: usize, row: Of, times: i128) {
        let brought = match row {
            Of::Aggregate(other) => self.tallies[other].clone(),
            Of::Share(share) => Tally::from([(share, 1)]),
            Of::Result => unreachable!(),
        };
        for (share, number) in brought {
            *self.tallies[agg].entry(share).or_default() += times * number;
        }
    }

    /// Keeps what an accepted call did.
    fn keep(&mut self, step: &Step, mut written: Vec<Vec<u64>>) {
        let Of::Aggregate(agg) = step.of[0] else { unreachable!() };
        match step.case.call {
            Call::EmptyAggregate => self.tallies[agg].clear(),
            Call::Accumulate | Call::Merge => self.count(agg, step.of[1], 1),
            Call::Subtract | Call::Unmerge => self.count(agg, step.of[1], -1),
            _ => return,
        }
        self.original[agg] = written.remove(0);
        self.ours[agg].as_mut().unwrap().settle();
    }

    fn aggregates(&self) -> impl Iterator<Item = (usize, &Lent)> {
        (1..).zip(self.ours.iter().flatten())
    }

    /// Makes the call on both sides; every aggregate that it does not write must stay.
    pub fn make(&mut self, random: &mut Random, step: &Step) -> Result<Same, String> {
        let mut rows = vec![];
        for (row, of) in step.case.rows.iter().zip(&step.of) {
            rows.push(self.lend(random, row, *of));
        }
        let mut same = compare_on(&mut rows, &step.case)?;
        self.take_back(rows, &step.of);
        if same.answer == ACCEPTED {
            self.keep(step, std::mem::take(&mut same.written));
        }
        match self.aggregates().find(|(_, row)| !row.is_unchanged()) {
            None => Ok(same),
            Some((at, _)) => Err(format!("aggregate {at} or the memory beside it is changed")),
        }
    }

    /// Whether each aggregate is what its tally adds up to.
    pub fn is_tallied(&self) -> Result<(), String> {
        let (field, d) = (self.field(), self.calls.d as usize);
        for ((at, row), tally) in self.aggregates().zip(&self.tallies) {
            let shares = tally.iter().map(|(share, number)| (*number, &self.calls.shares[*share][..]));
            let wanted = field.row(&whole::combined(field, d, shares));
            equal(&format!("aggregate {at}, by its tally"), &row.now(), &wanted)?;
        }
        Ok(())
    }
}
