//! Times the sides, in turn, on the same objects and the same stores.

use crate::assembler::object_file;
use crate::case::{Case, Outcome, Side};
use crate::opcode::{JMP, POP, RETURN};
use crate::programs::{self, Program};
use std::{hint::black_box, time::Duration, time::Instant};

/// Job is a case that is called a number of times in one measurement, and what its time is divided by.
struct Job {
    name: String,
    case: Case,
    calls: u32,
    unit: &'static str,
    units: u64,
}

/// Figures are the times of one side, the shortest first.
struct Figures(Vec<Duration>);

impl Figures {
    fn sorted(mut times: Vec<Duration>) -> Self {
        times.sort();
        Figures(times)
    }

    fn best(&self) -> Duration {
        self.0[0]
    }

    fn median(&self) -> Duration {
        self.0[self.0.len() / 2]
    }
}

/// measure times every job and prints a line for each. It fails if a result is wrong or the sides disagree.
pub fn measure(sides: &[Side], steps: u64, repetitions: usize) -> Result<(), String> {
    println!("Both sides set the four stores to 0 at the start of each run; that time is included.");
    println!(
        "Times are in nanoseconds for each unit: the best and the median of {repetitions} repetitions, sides in turn."
    );
    println!("plain/proved is time over time: 0.5 means that the proved machine takes twice as long.");
    print!("{:<38}{:>12} {:<6}", "", "units", "unit");
    for side in sides {
        print!("{:>13}{:>9}", format!("{} best", side.name), "median");
    }
    println!("{}", if sides.len() > 1 { "   plain/proved   median" } else { "" });
    let mut jobs = Vec::new();
    for program in programs::all() {
        jobs.push(job_of(&program, sides, steps)?);
    }
    jobs.push(inspection(steps));
    jobs.push(clearing(steps));
    for job in jobs {
        let figures = repeat(&job, sides, repetitions)?;
        print_line(&job, &figures);
    }
    Ok(())
}

fn print_line(job: &Job, figures: &[Figures]) {
    let per_unit = |time: Duration| time.as_nanos() as f64 / job.units as f64;
    print!("{:<38}{:>12} {:<6}", job.name, job.units, job.unit);
    for figures in figures {
        print!("{:>13.3}{:>9.3}", per_unit(figures.best()), per_unit(figures.median()));
    }
    if let [plain, proved] = figures {
        print!("{:>15.3}", plain.best().as_secs_f64() / proved.best().as_secs_f64());
        print!("{:>9.3}", plain.median().as_secs_f64() / proved.median().as_secs_f64());
    }
    println!();
}

/// repeat takes the sides in turn, so that a slow moment of the computer meets both.
fn repeat(job: &Job, sides: &[Side], repetitions: usize) -> Result<Vec<Figures>, String> {
    let mut times = vec![Vec::new(); sides.len()];
    let mut first: Option<Outcome> = None;
    for _ in 0..repetitions {
        for (side, times) in sides.iter().zip(&mut times) {
            let (outcome, time) = timed(job, *side);
            times.push(time);
            let first = first.get_or_insert_with(|| outcome.clone());
            if let Some(difference) = first.difference(&outcome) {
                return Err(format!("{}: {}: {difference}", job.name, side.name));
            }
        }
    }
    Ok(times.into_iter().map(Figures::sorted).collect())
}

fn timed(job: &Job, side: Side) -> (Outcome, Duration) {
    let mut outcome = job.case.fresh();
    let begin = Instant::now();
    for _ in 0..job.calls {
        black_box(&job.case).run_in(side, black_box(&mut outcome));
    }
    (outcome, begin.elapsed())
}

/// job_of gives a program so many rounds that it takes about the steps wanted, and checks what every side prints.
fn job_of(program: &Program, sides: &[Side], steps: u64) -> Result<Job, String> {
    let case = |rounds: i32| Case {
        object: program.object.clone(),
        words: vec![rounds],
        data: 16,
        heap: 4_096,
        call: 4_096,
        operand: 1_024,
        room: 16,
        budget: u64::MAX,
    };
    let steps_of = |rounds| case(rounds).run(sides[0]).report[2];
    let rounds = (10 * steps / (steps_of(11) - steps_of(1))).max(1) as i32;
    let expected = (program.expected)(rounds).to_string();
    let mut units = 0;
    for side in sides {
        let outcome = case(rounds).run(*side);
        let [stop, verdict, ..] = outcome.report;
        if (outcome.refusal, stop, verdict) != (0, 0, 0) || outcome.written() != expected.as_bytes() {
            return Err(format!("{}: {}: {}, not {expected}", program.name, side.name, outcome.summary()));
        }
        units = outcome.report[2];
    }
    Ok(Job { name: program.name.into(), case: case(rounds), calls: 1, unit: "step", units })
}

/// inspection is the longest code, with many jumps, and no step.
fn inspection(steps: u64) -> Job {
    let mut code = [JMP, 0, 3, POP].repeat(2_047);
    code.extend([JMP, 0, 3, RETURN]);
    let case = Case { heap: 1, call: 1, operand: 32, object: object_file(&code, 0, 0), ..Case::default() };
    let calls = (steps / 100_000).max(1) as u32;
    let units = u64::from(calls) * code.len() as u64;
    Job { name: "inspection of 8,192 bytes of code".into(), case, calls, unit: "byte", units }
}

/// clearing is a start in stores of the greatest length, and no step.
fn clearing(steps: u64) -> Job {
    const LENGTH: usize = 1_048_576;
    let object = object_file(&[RETURN], 0, 0);
    let case = Case { object, data: LENGTH, heap: LENGTH, call: LENGTH, operand: LENGTH, ..Case::default() };
    let calls = (steps / 5_000_000).max(1) as u32;
    let units = u64::from(calls) * 4 * LENGTH as u64;
    Job { name: "start in the longest stores".into(), case, calls, unit: "word", units }
}
