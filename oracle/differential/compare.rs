//! One case put to both, and everything compared.

use crate::{
    case::{Call, Case, Row},
    draw,
    lent::Lent,
    original,
    ours::{self, Given},
    param::Param,
    random::Random,
    rules::{self, Answer, ACCEPTED},
};

/// What was found the same.
pub struct Same {
    pub answer: Answer,
    /// Values and elements that are the original's.
    pub compared: usize,
    /// Elements that had to stay.
    pub unchanged: usize,
    /// The rows that an accepted call wrote.
    pub written: Vec<Vec<u64>>,
    /// Whether the original's servers prepared the report.
    pub prepared: bool,
}

type Outcome = Result<(), String>;

pub fn equal(what: &str, ours: &[u64], wanted: &[u64]) -> Outcome {
    if ours.len() != wanted.len() {
        return Err(format!("{what}: the length of ours is {}, wanted {}", ours.len(), wanted.len()));
    }
    match ours.iter().zip(wanted).position(|(x, y)| x != y) {
        None => Ok(()),
        Some(i) => Err(format!("{what}, at {i}: ours {:x}, wanted {:x}", ours[i], wanted[i])),
    }
}

fn unchanged(rows: &[(usize, &Lent)]) -> Outcome {
    match rows.iter().find(|(_, row)| !row.is_unchanged()) {
        None => Ok(()),
        Some((at, _)) => Err(format!("row {at} or the memory beside it is changed")),
    }
}

fn len_of(rows: &[(usize, &Lent)]) -> usize {
    rows.iter().map(|(_, row)| row.len).sum()
}

fn refused(answer: Answer, given: &Given, rows: &[(usize, &Lent)]) -> Result<Same, String> {
    equal("the values beside a refusal", &given.values, &vec![0; given.values.len()])?;
    unchanged(rows)?;
    Ok(Same { answer, compared: 0, unchanged: len_of(rows), written: vec![], prepared: false })
}

fn accepted(case: &Case, given: &Given, rows: &[(usize, &Lent)]) -> Result<Same, String> {
    let original = original::call(case).map_err(|said| format!("the original does not accept: {said}"))?;
    equal("the values", &given.values, &original.values)?;
    let (written, read): (Vec<_>, Vec<_>) = rows.iter().partition(|(at, _)| case.rows[at - 1].is_written());
    assert_eq!(written.len(), original.rows.len());
    for ((at, row), wanted) in written.iter().zip(&original.rows) {
        equal(&format!("row {at}"), &row.now(), wanted)?;
        if !row.has_its_guards() {
            return Err(format!("the memory beside row {at} is changed"));
        }
    }
    unchanged(&read)?;
    let (compared, unchanged) = (given.values.len() + len_of(&written), len_of(&read));
    Ok(Same { answer: ACCEPTED, compared, unchanged, written: original.rows, prepared: false })
}

/// What was the same, or both answers and the first difference. The rows lent hold what the case's do.
pub fn compare_on(rows: &mut [Lent], case: &Case) -> Result<Same, String> {
    let answer = rules::answer(case);
    let given = ours::call(case, rows);
    let rows: Vec<(usize, &Lent)> = (1..).zip(&*rows).collect();
    let found = if given.answer != answer {
        Err("the answers differ".into())
    } else if answer == ACCEPTED {
        accepted(case, &given, &rows)
    } else {
        refused(answer, &given, &rows)
    };
    found.map_err(|difference| format!("ours {}, by docs/PINE.md {answer}; {difference}", given.answer))
}

fn lend(random: &mut Random, case: &Case) -> Vec<Lent> {
    case.rows.iter().map(|row| Lent::new(random, row)).collect()
}

/// One in so many reports that were cut goes through the original's proofs and prepare.
const PREPARED: u64 = 8;

/// The longest gradient of these.
const MOST: u64 = 300;

/// On a report that encoding wrote.
fn circuits_give_zero(random: &mut Random, param: Param, written: &[Vec<u64>]) -> Outcome {
    let full = || Row::Elements(written.concat());
    let joint_rand = Row::Elements(param.field.row(&[0; 3].map(|_| draw::element(random, param.field))));
    for (call, rows) in [(Call::Valid, vec![full(), joint_rand]), (Call::ValidSqNormEqual, vec![full()])] {
        let circuit = Case { call, param, number: 1, rows };
        let given = ours::call(&circuit, &mut lend(random, &circuit));
        let what = format!("{} of the report, the answer's number and the value", circuit.name());
        let found = [&[given.answer.number], &given.values[..param.field.words]].concat();
        equal(&what, &found, &vec![0; found.len()])?;
    }
    Ok(())
}

pub fn compare(random: &mut Random, case: &Case) -> Result<Same, String> {
    let mut same = compare_on(&mut lend(random, case), case)?;
    if matches!(case.call, Call::Encode | Call::EncodeSeed) && same.answer == ACCEPTED {
        circuits_give_zero(random, case.param, &same.written)?;
    }
    if case.call == Call::Cut && same.answer == ACCEPTED && case.param.d <= MOST && random.once_in(PREPARED) {
        same.prepared = original::prepare(case, &same.written)?;
    }
    Ok(same)
}
