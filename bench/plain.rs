//! An interpreter of the machine of docs/machine.md and docs/object-file.md in plain Rust, written by hand and not
//! proved. The proved machine is compared with it and timed against it.
//!
//! It is written for speed within safe Rust: one `match` on the opcode for each step, the registers in local
//! variables of the loop, no allocation. The two numbers that can be any word, `pc` and `frame`, are held as `usize`
//! with their sign extended. So a negative one lies above every length, and a sum with one is exact.

mod console;
mod inspection;
mod step;

use console::Console;
use inspection::inspect;

const MAX_STORE_LENGTH: usize = 1_048_576;
/// The free words of the operand store that a start and an `enter` ask for.
const FREE_OPERANDS: usize = 32;

/// Verdict is how a program ends. Its number is that of docs/machine.md.
#[derive(Clone, Copy)]
enum Verdict {
    Finished = 0,
    MissingReturn = 1,
    NullReference = 2,
    IndexOutOfRange = 3,
    DivisionByZero = 4,
    NegativeLength = 5,
    HeapExhausted = 6,
    CallStackExhausted = 7,
    OperandStackExhausted = 8,
    IllegalStep = 9,
}

/// Pause is why a run stops before the program ends.
#[derive(Clone, Copy)]
enum Pause {
    Budget = 1,
    Input = 2,
    Output = 3,
}

/// Stop is how a run stops.
#[derive(Clone, Copy)]
enum Stop {
    Ended(Verdict),
    Paused(Pause),
}

/// Refusal is why no run was made, with the code offset where there is one.
#[allow(clippy::enum_variant_names)]
enum Refusal {
    UnfitHeader,
    UnfitInstruction(usize),
    UnfitTarget(usize),
    UnfitStore,
}

/// Checked is an object file that passed the inspection.
struct Checked<'a> {
    code: &'a [u8],
    globals: usize,
    main: usize,
}

/// Stores are the four slices of words that the host lends.
struct Stores<'a> {
    data: &'a mut [i32],
    heap: &'a mut [i32],
    call: &'a mut [i32],
    operand: &'a mut [i32],
}

/// Machine is what a run works on. A run uses it up: a paused run is not continued here.
struct Machine<'a> {
    code: &'a [u8],
    data: &'a mut [i32],
    heap: &'a mut [i32],
    call: &'a mut [i32],
    operand: &'a mut [i32],
    pc: usize,
    frame: usize,
    top: usize,
    height: usize,
    free: usize,
}

/// Run is what one call of `advance` answers.
struct Run {
    stop: Stop,
    steps: u64,
}

/// run_object inspects an object, starts a machine in the four stores and makes one run. It answers 0 and a report of
/// the stop, the verdict, the steps, the words taken and the bytes written, or the number of a refusal and a report
/// whose first entry is the offset.
#[allow(clippy::too_many_arguments)]
pub fn run_object(
    object: &[u8],
    words: &[i32],
    data: &mut [i32],
    heap: &mut [i32],
    call: &mut [i32],
    operand: &mut [i32],
    out: &mut [u8],
    budget: u64,
    report: &mut [u64; 5],
) -> u32 {
    let stores = Stores { data, heap, call, operand };
    match inspect(object).and_then(|checked| start(checked, stores)) {
        Ok(machine) => {
            let mut console = Console::new(words, out);
            let run = machine.advance(budget, &mut console);
            let (stop, verdict) = match run.stop {
                Stop::Ended(verdict) => (0, verdict as u64),
                Stop::Paused(pause) => (pause as u64, 0),
            };
            *report = [stop, verdict, run.steps, console.taken() as u64, console.written() as u64];
            0
        }
        Err(refusal) => {
            let (number, offset) = refusal.number_and_offset();
            report[0] = offset as u64;
            number
        }
    }
}

impl Refusal {
    fn number_and_offset(&self) -> (u32, usize) {
        match *self {
            Refusal::UnfitHeader => (13, 0),
            Refusal::UnfitInstruction(offset) => (14, offset),
            Refusal::UnfitTarget(offset) => (15, offset),
            Refusal::UnfitStore => (16, 0),
        }
    }
}

/// start clears the four stores and gives a machine, or refuses their lengths and leaves them alone.
fn start<'a>(checked: Checked<'a>, stores: Stores<'a>) -> Result<Machine<'a>, Refusal> {
    let Stores { data, heap, call, operand } = stores;
    let lengths = [data.len(), heap.len(), call.len(), operand.len()];
    let least = [checked.globals, 1, 1, FREE_OPERANDS];
    if lengths.iter().zip(least).any(|(&length, least)| length < least || length > MAX_STORE_LENGTH) {
        return Err(Refusal::UnfitStore);
    }
    for store in [&mut *data, &mut *heap, &mut *call, &mut *operand] {
        store.fill(0);
    }
    call[0] = -1;
    let (code, pc) = (checked.code, checked.main);
    Ok(Machine { code, data, heap, call, operand, pc, frame: 0, top: 1, height: 0, free: 1 })
}

impl Machine<'_> {
    /// advance makes one run.
    #[inline(never)]
    fn advance(self, budget: u64, console: &mut Console<'_>) -> Run {
        let mut machine = self;
        let mut steps = 0;
        while steps < budget {
            match machine.step(console) {
                Ok(()) => steps += 1,
                Err(stop @ Stop::Ended(_)) => return Run { stop, steps: steps + 1 },
                Err(stop @ Stop::Paused(_)) => return Run { stop, steps },
            }
        }
        Run { stop: Stop::Paused(Pause::Budget), steps }
    }
}
