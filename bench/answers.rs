//! Cases with their expected answers: files of them, and the tests of docs/DECISIONS.md.

use crate::assembler::object_file;
use crate::case::{Case, Outcome, Side};
use std::{error::Error, fs, path::Path};

/// Expected is what is known of the outcome of a case.
enum Expected {
    Accepted,
    Refused { number: u32, offset: u64 },
    Run { stop: u64, verdict: u64, steps: u64, taken: Option<u64>, bytes: Vec<u8>, globals: Vec<i32> },
}

/// Check is a case with its expected answer, and where it comes from.
pub struct Check {
    from: String,
    case: Case,
    expected: Expected,
}

type Read<T> = Result<T, Box<dyn Error>>;

impl Check {
    /// failure says how the answer of a side differs from the expected one.
    pub fn failure(&self, side: Side) -> Option<String> {
        let outcome = self.case.run(side);
        let wrong = outcome.unsound(&self.case).or_else(|| self.mismatch(&outcome))?;
        Some(format!("{}, {}: {wrong}\n  {}", self.from, side.name, self.case.text()))
    }

    fn mismatch(&self, outcome: &Outcome) -> Option<String> {
        let [stop, verdict, steps, taken, _] = outcome.report;
        let right = match &self.expected {
            Expected::Accepted => outcome.refusal == 0,
            Expected::Refused { number, offset } => (outcome.refusal, stop) == (*number, *offset),
            Expected::Run { stop: s, verdict: v, steps: n, taken: t, bytes, globals } => {
                (outcome.refusal, stop, verdict, steps) == (0, *s, *v, *n)
                    && t.is_none_or(|t| taken == t)
                    && outcome.written() == bytes
                    && outcome.data.starts_with(globals)
            }
        };
        (!right).then(|| {
            let bytes = String::from_utf8_lossy(outcome.written());
            format!("{}, bytes {bytes:?}, data {:?}", outcome.summary(), outcome.data)
        })
    }
}

/// of_folder reads the files check.txt and run.txt of a folder.
pub fn of_folder(folder: &Path) -> Read<Vec<Check>> {
    let mut checks = Vec::new();
    for (name, read) in [("check.txt", inspection as fn(&str) -> Read<_>), ("run.txt", run)] {
        for (at, line) in fs::read_to_string(folder.join(name))?.lines().enumerate() {
            if line.starts_with('#') {
                continue;
            }
            let from = format!("{name}:{}", at + 1);
            let (case, expected) = read(line).map_err(|error| format!("{from}: {error}"))?;
            checks.push(Check { from, case, expected });
        }
    }
    Ok(checks)
}

/// inspection reads `OBJECT ok CODESIZE GLOBALS MAINPC` or `OBJECT refused NUMBER OFFSET`.
fn inspection(line: &str) -> Read<(Case, Expected)> {
    let fields: Vec<&str> = line.split_whitespace().collect();
    let mut case = Case { heap: 1, call: 1, operand: 32, ..Case::default() };
    let expected = match fields[..] {
        [_, "ok", _, globals, _] => {
            case.data = globals.parse()?;
            Expected::Accepted
        }
        [_, "refused", number, offset] => Expected::Refused { number: number.parse()?, offset: offset.parse()? },
        _ => return Err("neither accepted nor refused".into()),
    };
    case.object = hex(fields[0])?;
    Ok((case, expected))
}

/// run reads `OBJECT WORDS HEAP CALL OPERAND ROOM BUDGET STOP VERDICT STEPS TAKEN BYTES GLOBALS`.
fn run(line: &str) -> Read<(Case, Expected)> {
    let fields: Vec<&str> = line.split_whitespace().collect();
    let [object, words, heap, call, operand, room, budget, stop, verdict, steps, taken, bytes, globals] = fields[..]
    else {
        return Err("not 13 fields".into());
    };
    let globals = list(globals)?;
    let case = Case {
        object: hex(object)?,
        words: list(words)?,
        data: globals.len(),
        heap: heap.parse()?,
        call: call.parse()?,
        operand: operand.parse()?,
        room: room.parse()?,
        budget: budget.parse()?,
    };
    let stop = match stop {
        "verdict" => 0,
        "A" => 1,
        "B" => 2,
        "C" => 3,
        _ => return Err("an unknown stop".into()),
    };
    let verdict = if stop == 0 { verdict.parse()? } else { 0 };
    let (steps, taken) = (steps.parse()?, Some(taken.parse()?));
    Ok((case, Expected::Run { stop, verdict, steps, taken, bytes: hex(bytes)?, globals }))
}

fn list(text: &str) -> Read<Vec<i32>> {
    match text {
        "-" => Ok(Vec::new()),
        _ => text.split(',').map(|word| Ok(word.parse()?)).collect(),
    }
}

fn hex(text: &str) -> Read<Vec<u8>> {
    match text {
        "-" => Ok(Vec::new()),
        _ => text.as_bytes().chunks(2).map(|pair| Ok(u8::from_str_radix(str::from_utf8(pair)?, 16)?)).collect(),
    }
}

/// of_decisions reads the tests of a page: the tables that have the columns Code, Given and Answer.
pub fn of_decisions(page: &Path) -> Read<Vec<Check>> {
    let mut checks = Vec::new();
    let mut of_code = false;
    for (at, line) in fs::read_to_string(page)?.lines().enumerate() {
        let columns: Vec<&str> = line.split('|').map(str::trim).collect();
        let ["", code, given, answer, ""] = columns[..] else { continue };
        if given == "Given" {
            of_code = code == "Code";
        }
        if !of_code {
            continue;
        }
        let Some(code) = code.strip_prefix('`').and_then(|code| code.strip_suffix('`')) else { continue };
        let from = format!("{}:{}", page.display(), at + 1);
        let test = decision(code, given, answer).map_err(|error| format!("{from}: {error}"))?;
        checks.push(Check { from, case: test.0, expected: test.1 });
    }
    Ok(checks)
}

fn decision(code: &str, given: &str, answer: &str) -> Read<(Case, Expected)> {
    let code: Vec<u8> = code.split(' ').map(|byte| Ok(byte.parse()?)).collect::<Read<_>>()?;
    let (mut globals, mut main, mut data) = (0, 0, None);
    let mut case =
        Case { heap: 4_096, call: 4_096, operand: 1_024, room: 1_000_000, budget: 1_000_000, ..Case::default() };
    for part in given.split(", ").filter(|part| !part.is_empty()) {
        let (name, value) = part.split_once(' ').ok_or("a name without a value")?;
        match name {
            "globals" => globals = value.parse()?,
            "main" => main = value.parse()?,
            "words" => case.words = words(value)?,
            "data" => data = Some(value.parse()?),
            "heap" => case.heap = value.parse()?,
            "call" => case.call = value.parse()?,
            "operand" => case.operand = value.parse()?,
            "room" => case.room = value.parse()?,
            "budget" => case.budget = value.parse()?,
            _ => return Err(format!("an unknown name, {name}").into()),
        }
    }
    case.object = object_file(&code, globals, main);
    case.data = data.unwrap_or(globals as usize);
    Ok((case, decided(answer)?))
}

/// decided reads an answer, such as ``verdict 0, 13 steps, writes 2 blanks and `a`, globals 1``.
fn decided(answer: &str) -> Read<Expected> {
    if let Some(refusal) = answer.strip_prefix("refusal ") {
        let (number, offset) = refusal.split_once(" at ").unwrap_or((refusal, "0"));
        return Ok(Expected::Refused { number: number.parse()?, offset: offset.parse()? });
    }
    let (mut stop, mut verdict, mut steps, mut taken) = (0, 0, None, None);
    let (mut bytes, mut globals) = (Vec::new(), Vec::new());
    for part in answer.split(", ") {
        match part.split_once(' ') {
            None => {
                stop = 1 + ["Budget", "Input", "Output"].iter().position(|p| *p == part).ok_or("an unknown pause")?
            }
            Some(("verdict", number)) => verdict = number.parse()?,
            Some(("takes", number)) => taken = Some(number.parse()?),
            Some(("writes", text)) => bytes = written(text)?,
            Some(("globals", values)) => globals = words(values)?,
            Some((number, "steps")) => steps = Some(number.parse()?),
            Some(_) => return Err(format!("an unknown part, {part}").into()),
        }
    }
    let steps = steps.ok_or("no steps")?;
    Ok(Expected::Run { stop: stop as u64, verdict, steps, taken, bytes, globals })
}

fn words(text: &str) -> Read<Vec<i32>> {
    text.split(' ').map(|word| Ok(word.parse()?)).collect()
}

/// written reads `` `TEXT` `` or ``N blanks and `TEXT` ``.
fn written(text: &str) -> Read<Vec<u8>> {
    let (blanks, quoted) = match text.split_once(" blanks and ") {
        Some((number, quoted)) => (number.parse()?, quoted),
        None => (0, text),
    };
    let plain = quoted.strip_prefix('`').and_then(|text| text.strip_suffix('`')).ok_or("no text")?;
    Ok([vec![b' '; blanks], plain.into()].concat())
}
