//! A case: an object with all that a run of it is lent, and what the run leaves behind.

use crate::plain;
#[cfg(proved)]
use crate::proved;

/// Case is an object, the words that wait, the lengths of the stores, the room and the budget.
#[derive(Clone, Default)]
pub struct Case {
    pub object: Vec<u8>,
    pub words: Vec<i32>,
    pub data: usize,
    pub heap: usize,
    pub call: usize,
    pub operand: usize,
    pub room: usize,
    pub budget: u64,
}

/// Outcome is everything that a host can see after a run.
#[derive(Clone, PartialEq)]
pub struct Outcome {
    pub refusal: u32,
    pub report: [u64; 5],
    pub data: Vec<i32>,
    pub heap: Vec<i32>,
    pub call: Vec<i32>,
    pub operand: Vec<i32>,
    pub out: Vec<u8>,
}

/// RunObject is the boundary that both interpreters have.
pub type RunObject =
    fn(&[u8], &[i32], &mut [i32], &mut [i32], &mut [i32], &mut [i32], &mut [u8], u64, &mut [u64; 5]) -> u32;

/// Side is one of the interpreters.
#[derive(Clone, Copy)]
pub struct Side {
    pub name: &'static str,
    pub run_object: RunObject,
}

/// sides gives the interpreters that this program was built with, the plain one first.
pub fn sides() -> Vec<Side> {
    vec![
        Side { name: "plain", run_object: plain::run_object },
        #[cfg(proved)]
        Side { name: "proved", run_object: proved::run_object },
    ]
}

/// What the host leaves in stores, buffer and report before a run, so that a word too many or too few is seen.
const LEFT_WORD: i32 = 0x5a5a_5a5a;
const LEFT_BYTE: u8 = 0xa5;
const LEFT_ENTRY: u64 = 77;

impl Case {
    /// fresh is the outcome before the run.
    pub fn fresh(&self) -> Outcome {
        Outcome {
            refusal: 0,
            report: [LEFT_ENTRY; 5],
            data: vec![LEFT_WORD; self.data],
            heap: vec![LEFT_WORD; self.heap],
            call: vec![LEFT_WORD; self.call],
            operand: vec![LEFT_WORD; self.operand],
            out: vec![LEFT_BYTE; self.room],
        }
    }

    /// run makes the run on one side.
    pub fn run(&self, side: Side) -> Outcome {
        let mut outcome = self.fresh();
        self.run_in(side, &mut outcome);
        outcome
    }

    /// run_in makes the run in the stores and the buffer of an outcome.
    pub fn run_in(&self, side: Side, outcome: &mut Outcome) {
        outcome.refusal = (side.run_object)(
            &self.object, &self.words, &mut outcome.data, &mut outcome.heap, &mut outcome.call, &mut outcome.operand,
            &mut outcome.out, self.budget, &mut outcome.report,
        );
        if outcome.refusal != 0 {
            // Only the offset is said of the report of a refusal.
            outcome.report[1..].fill(0);
        }
    }

    /// text says how to make the run again.
    pub fn text(&self) -> String {
        let hex: String = self.object.iter().map(|byte| format!("{byte:02x}")).collect();
        format!(
            "object {hex} words {:?} data {} heap {} call {} operand {} room {} budget {}",
            self.words, self.data, self.heap, self.call, self.operand, self.room, self.budget
        )
    }
}

impl Outcome {
    /// summary names the answer: a refusal with its offset, or the report.
    pub fn summary(&self) -> String {
        let [stop, verdict, steps, taken, written] = self.report;
        match (self.refusal, stop) {
            (0, 0) => format!("verdict {verdict}, {steps} steps, {taken} taken, {written} written"),
            (0, _) => format!("pause {stop}, {steps} steps, {taken} taken, {written} written, verdict entry {verdict}"),
            (number, offset) => format!("refusal {number} at {offset}"),
        }
    }

    /// written gives the bytes that the program wrote.
    pub fn written(&self) -> &[u8] {
        &self.out[..(self.report[4] as usize).min(self.out.len())]
    }

    /// difference names the first thing in which two outcomes differ.
    pub fn difference(&self, other: &Outcome) -> Option<String> {
        if (self.refusal, self.report) != (other.refusal, other.report) {
            return Some(format!("{} against {}", self.summary(), other.summary()));
        }
        let stores = [
            ("data", &self.data, &other.data),
            ("heap", &self.heap, &other.heap),
            ("call", &self.call, &other.call),
            ("operand", &self.operand, &other.operand),
        ];
        for (name, ours, theirs) in stores {
            if let Some(at) = (0..ours.len()).find(|&at| ours[at] != theirs[at]) {
                return Some(format!("{name}[{at}] is {} against {}", ours[at], theirs[at]));
            }
        }
        let at = (0..self.out.len()).find(|&at| self.out[at] != other.out[at])?;
        Some(format!("byte {at} of the buffer is {} against {}", self.out[at], other.out[at]))
    }

    /// unsound names what is wrong with an outcome whatever the program does: a refusal that changed something, or
    /// a changed byte behind the written ones.
    pub fn unsound(&self, case: &Case) -> Option<String> {
        let fresh = case.fresh();
        if self.refusal != 0 {
            let stores = (&self.data, &self.heap, &self.call, &self.operand, &self.out);
            let before = (&fresh.data, &fresh.heap, &fresh.call, &fresh.operand, &fresh.out);
            return (stores != before).then(|| "a refusal changed a store or the buffer".into());
        }
        let [stop, verdict, steps, taken, written] = self.report;
        let known = stop <= 3 && verdict <= 9 && (stop == 0 || verdict == 0);
        let within = steps <= case.budget && taken <= case.words.len() as u64 && written <= case.room as u64;
        if !known || !within {
            return Some(format!("report {:?} is out of range", self.report));
        }
        let behind = self.out[written as usize..].iter().any(|&byte| byte != LEFT_BYTE);
        behind.then(|| "a byte behind the written ones changed".into())
    }
}
