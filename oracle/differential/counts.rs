//! How many calls there were, by call and rule, as a table.

use crate::{
    case::{Case, CALLS},
    compare::Same,
    field::FIELDS,
};

const RULES: [usize; 19] = [1, 2, 3, 4, 5, 6, 7, 8, 9, 10, 11, 12, 13, 17, 18, 19, 20, 21, 23];

#[derive(Clone, Copy, Default)]
struct Count {
    /// By the answer's number.
    answers: [u64; 24],
    compared: u64,
    unchanged: u64,
    prepared: u64,
}

impl Count {
    fn add(&mut self, other: &Count) {
        self.answers.iter_mut().zip(&other.answers).for_each(|(x, y)| *x += y);
        self.compared += other.compared;
        self.unchanged += other.unchanged;
        self.prepared += other.prepared;
    }

    fn calls(&self) -> u64 {
        self.answers.iter().sum()
    }

    /// The numbers of its row; a rule that refused none is left blank.
    fn cells(&self) -> Vec<String> {
        let refused = RULES.map(|rule| match self.answers[rule] {
            0 => String::new(),
            many => grouped(many),
        });
        let mut cells = vec![grouped(self.calls()), grouped(self.answers[0])];
        cells.extend(refused);
        cells.extend([grouped(self.compared), grouped(self.unchanged)]);
        cells
    }
}

/// By field, an element of which has so many words, and call.
#[derive(Default)]
pub struct Counts([[Count; CALLS.len()]; FIELDS.len()]);

impl Counts {
    pub fn add(&mut self, case: &Case, same: &Same) {
        let mut one = Count { compared: same.compared as u64, unchanged: same.unchanged as u64, ..Count::default() };
        one.prepared = same.prepared.into();
        one.answers[same.answer.number as usize] = 1;
        self.0[case.field().words - 1][case.call as usize].add(&one);
    }

    /// Says where the calls were; nothing where there were none.
    pub fn show(&self, title: &str) {
        let mut all = Count::default();
        self.0.iter().flatten().for_each(|count| all.add(count));
        if all.calls() == 0 {
            return;
        }
        println!("\n{} calls {title}:\n", grouped(all.calls()));
        let rules = RULES.map(|rule| format!(" {rule} |"));
        println!("| call | calls | accepted |{} elements compared | elements unchanged |", rules.concat());
        println!("|---|{}", "---:|".repeat(RULES.len() + 4));
        for (field, counts) in FIELDS.into_iter().zip(&self.0) {
            for (call, count) in CALLS.into_iter().zip(counts).filter(|(_, count)| count.calls() > 0) {
                println!("| `{}{}` | {} |", call.name(), field.name, count.cells().join(" | "));
            }
        }
        println!("| all | {} |", all.cells().join(" | "));
        if all.prepared > 0 {
            println!(
                "\n{} of the reports cut had their proofs made and accepted by the original",
                grouped(all.prepared)
            );
        }
    }
}

/// With a comma before every three digits.
pub fn grouped(x: u64) -> String {
    let digits = x.to_string();
    let mut grouped = String::new();
    for (i, digit) in digits.chars().enumerate() {
        if i > 0 && (digits.len() - i) % 3 == 0 {
            grouped.push(',');
        }
        grouped.push(digit);
    }
    grouped
}
