//! Compares the sides with each other and with expected answers.

use crate::answers::Check;
use crate::case::{Case, Outcome, Side};
use crate::generate;
use crate::random::Random;
use std::collections::BTreeMap;

/// Cases for each random object, with different store lengths, words, rooms and budgets.
const CASES_FOR_OBJECT: usize = 3;

/// with_answers runs cases whose answers are known on every side.
pub fn with_answers(sides: &[Side], source: &str, checks: &[Check]) -> Result<(), String> {
    for check in checks {
        for side in sides {
            if let Some(failure) = check.failure(*side) {
                return Err(failure);
            }
        }
    }
    println!("{source}: {} answers as expected from {}", checks.len(), names(sides));
    Ok(())
}

/// with_each_other runs random objects on every side. It fails at the first difference, and if an answer that there
/// is never came.
pub fn with_each_other(sides: &[Side], objects: usize, seed: u64) -> Result<(), String> {
    let mut random = Random::new(seed);
    let mut tally = Tally::default();
    for _ in 0..objects {
        let mut case = generate::case(&mut random);
        for _ in 0..CASES_FOR_OBJECT {
            tally.count(&agreed(sides, &case)?);
            case = generate::again(&mut random, &case);
        }
    }
    let found = if sides.len() > 1 { "agree" } else { "alone, nothing to compare with" };
    println!("{objects} random objects of seed {seed}, {CASES_FOR_OBJECT} cases each: {} {found}", names(sides));
    tally.print();
    match tally.missing() {
        Some(answer) if objects >= 5_000 => Err(format!("{answer} never came")),
        _ => Ok(()),
    }
}

fn names(sides: &[Side]) -> String {
    sides.iter().map(|side| side.name).collect::<Vec<_>>().join(" and ")
}

/// agreed gives the outcome that all sides have.
fn agreed(sides: &[Side], case: &Case) -> Result<Outcome, String> {
    let outcomes: Vec<Outcome> = sides.iter().map(|side| case.run(*side)).collect();
    for (side, outcome) in sides.iter().zip(&outcomes) {
        let unsound = outcome.unsound(case).map(|wrong| format!("{}: {wrong}", side.name));
        let different = || outcomes[0].difference(outcome).map(|what| format!("plain against {}: {what}", side.name));
        if let Some(wrong) = unsound.or_else(different) {
            return Err(format!("{wrong}\n  {}", case.text()));
        }
    }
    outcomes.into_iter().next().ok_or("no side".into())
}

/// Tally counts how often each answer came.
#[derive(Default)]
struct Tally {
    answers: BTreeMap<String, u64>,
    runs: u64,
    steps: u64,
}

impl Tally {
    fn count(&mut self, outcome: &Outcome) {
        let [stop, verdict, steps, ..] = outcome.report;
        let answer = match (outcome.refusal, stop) {
            (0, 0) => format!("verdict {verdict}"),
            (0, _) => format!("pause {stop}"),
            (number, _) => format!("refusal {number}"),
        };
        *self.answers.entry(answer).or_default() += 1;
        if outcome.refusal == 0 {
            self.runs += 1;
            self.steps += steps;
        }
    }

    fn print(&self) {
        println!("  {} runs were made, with {} steps; the other cases were refused", self.runs, self.steps);
        for (answer, times) in &self.answers {
            println!("  {answer}: {times}");
        }
    }

    /// missing names an answer that never came.
    fn missing(&self) -> Option<String> {
        let verdicts = (0..=9).map(|number| format!("verdict {number}"));
        let pauses = (1..=3).map(|number| format!("pause {number}"));
        let refusals = (13..=16).map(|number| format!("refusal {number}"));
        verdicts.chain(pauses).chain(refusals).find(|answer| !self.answers.contains_key(answer))
    }
}
