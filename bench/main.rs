//! Compares the proved machine with a plain interpreter, and times both. README.md says how to run it.

mod answers;
mod assembler;
mod case;
mod compare;
mod generate;
mod opcode;
mod plain;
mod programs;
#[cfg(proved)]
mod proved;
mod random;
mod timing;

use std::{env, path::PathBuf, process::ExitCode, str::FromStr};

const USAGE: &str =
    "usage: bench [--answers] [--vectors DIR] [--compare OBJECTS] [--seed N] [--time STEPS] [--repetitions N]";
const DECISIONS: &str = "docs/DECISIONS.md";

/// Request is what is asked for. A part that is None is left out.
struct Request {
    answers: bool,
    vectors: Option<PathBuf>,
    objects: Option<usize>,
    seed: u64,
    steps: Option<u64>,
    repetitions: usize,
}

impl Request {
    /// read reads the arguments. If they name no part, it is all parts that need no other files.
    fn read(mut arguments: impl Iterator<Item = String>) -> Option<Self> {
        let mut request =
            Request { answers: false, vectors: None, objects: None, seed: 1, steps: None, repetitions: 5 };
        while let Some(argument) = arguments.next() {
            match argument.as_str() {
                "--answers" => request.answers = true,
                "--vectors" => request.vectors = Some(arguments.next()?.into()),
                "--compare" => request.objects = Some(number(arguments.next())?),
                "--seed" => request.seed = number(arguments.next())?,
                "--time" => request.steps = Some(number(arguments.next())?),
                "--repetitions" => request.repetitions = number(arguments.next()).filter(|times| *times > 0)?,
                _ => return None,
            }
        }
        if !request.answers && request.vectors.is_none() && request.objects.is_none() && request.steps.is_none() {
            request.answers = true;
            request.objects = Some(100_000);
            request.steps = Some(100_000_000);
        }
        Some(request)
    }

    fn meet(&self) -> Result<(), String> {
        let sides = case::sides();
        if self.answers {
            let checks = answers::of_decisions(DECISIONS.as_ref()).map_err(|error| error.to_string())?;
            compare::with_answers(&sides, DECISIONS, &checks)?;
        }
        if let Some(folder) = &self.vectors {
            let checks = answers::of_folder(folder).map_err(|error| error.to_string())?;
            compare::with_answers(&sides, &folder.display().to_string(), &checks)?;
        }
        if let Some(objects) = self.objects {
            compare::with_each_other(&sides, objects, self.seed)?;
        }
        match self.steps {
            Some(steps) => timing::measure(&sides, steps, self.repetitions),
            None => Ok(()),
        }
    }
}

fn number<T: FromStr>(argument: Option<String>) -> Option<T> {
    argument?.parse().ok()
}

fn main() -> ExitCode {
    let Some(request) = Request::read(env::args().skip(1)) else {
        eprintln!("{USAGE}");
        return ExitCode::FAILURE;
    };
    match request.meet() {
        Ok(()) => ExitCode::SUCCESS,
        Err(failure) => {
            eprintln!("bench: {failure}");
            ExitCode::FAILURE
        }
    }
}
