//! Random code that no translator writes: instructions in any order, and code that misuses the call stack.

use crate::assembler::{Assembler, Label};
use crate::opcode::*;
use crate::random::Random;

/// Palette is a choice of instructions that work on the same thing.
type Palette = &'static [u8];

const PUSHES: Palette =
    &[LOAD, LOAD_0, LOAD_1, LOAD_3, GETSTATIC, CONST_0, CONST_1, CONST_2, CONST_3, CONST_5, CONST_M1, CONST, DUP];

const PALETTES: [Palette; 6] = [
    // everything
    &[
        LOAD, LOAD_0, LOAD_1, LOAD_2, LOAD_3, STORE, STORE_0, STORE_1, STORE_2, STORE_3, GETSTATIC, PUTSTATIC, CONST_0,
        CONST_1, CONST_2, CONST_3, CONST_4, CONST_5, CONST_M1, CONST, ADD, SUB, MUL, DIV, REM, NEG, INC, NEWARRAY,
        ALOAD, ASTORE, BALOAD, BASTORE, ARRAYLENGTH, POP, DUP, DUP2, JMP, JEQ, JNE, JLT, JLE, JGT, JGE, CALL, RETURN,
        ENTER, EXIT, READ, PRINT, BREAD, BPRINT, TRAP,
    ],
    // the call stack
    &[
        ENTER, ENTER, CALL, CALL, RETURN, EXIT, LOAD, LOAD_0, LOAD_1, LOAD_2, STORE, STORE_0, STORE_1, STORE_2,
        STORE_3, CONST, CONST_5, CONST_M1, INC, JMP, JNE, POP,
    ],
    // arrays
    &[
        NEWARRAY, NEWARRAY, ALOAD, ALOAD, ASTORE, ASTORE, BALOAD, BALOAD, BASTORE, BASTORE, ARRAYLENGTH, STORE_1,
        LOAD_1, STORE_2, LOAD_2, DUP, DUP2, ADD, CONST, CONST_1, CONST_2,
    ],
    // arithmetic
    &[CONST, CONST, ADD, SUB, MUL, DIV, REM, NEG, DUP, DUP2, INC, LOAD_2, STORE_2, PUTSTATIC, GETSTATIC, JEQ, JLT, JLE],
    // the console
    &[READ, BREAD, PRINT, PRINT, BPRINT, CONST, CONST_2, CONST_M1, PUTSTATIC, POP, DUP],
    // jumps
    &[JMP, JEQ, JNE, JLT, JLE, JGT, JGE, CONST_0, CONST_1, CONST, DUP, DUP2, INC, LOAD_1, STORE_1, ADD, SUB],
];

/// sequence puts instructions of a palette one behind the other, with pushes where operands are missing.
pub fn sequence(random: &mut Random, globals: u32) -> Vec<u8> {
    let palette = random.one_of(&PALETTES);
    let mut a = Assembler::default();
    let labels: Vec<Label> = (0..1 + random.below(60)).map(|_| a.label()).collect();
    let prepared = a.here();
    let mut height = prepare(random, &mut a);
    for label in &labels {
        a.place(*label);
        let opcode = match random.one_of(palette) {
            opcode if height < needed(opcode) && !random.one_in(40) => random.one_of(PUSHES),
            opcode => opcode,
        };
        match opcode {
            ALOAD..=BASTORE if !random.one_in(6) => element(random, &mut a, opcode),
            DIV | REM if random.one_in(8) => extremes(random, &mut a),
            _ => {}
        }
        height = (height - needed(opcode)).max(0) + left(opcode);
        instruction(random, &mut a, opcode, &labels);
    }
    if random.one_in(300) {
        let size = random.one_of(&[8_190, 8_191, 8_192, 8_193]);
        while a.size() < size {
            a.op(random.one_of(&[POP, CONST_0, DUP]));
        }
    }
    let main = if random.one_in(5) { random.one_of(&labels) } else { prepared };
    a.object(globals, main)
}

/// prepare opens a frame, makes arrays and pushes words. It gives the number of these words.
fn prepare(random: &mut Random, a: &mut Assembler) -> i32 {
    a.enter(0, 4 + random.below(4) as u8);
    for local in 1..=random.below(4) as u8 {
        a.constant(random.below(10) as i32);
        a.new_array(random.kind());
        a.store(local);
    }
    let full = random.one_in(15);
    let height = if full { 30 + random.below(8) } else { random.below(8) };
    for _ in 0..height {
        a.constant(random.word());
    }
    if full {
        a.op(random.one_of(&[READ, BREAD, DUP, DUP2, LOAD_1, POP]));
    }
    height as i32
}

/// element pushes a reference and an index, and for a store a word.
fn element(random: &mut Random, a: &mut Assembler, opcode: u8) {
    a.load(1 + random.below(3) as u8);
    a.constant(random.below(6) as i32);
    if matches!(opcode, ASTORE | BASTORE) {
        a.constant(random.word());
    }
}

/// extremes pushes a dividend and a divisor at the limits of words.
fn extremes(random: &mut Random, a: &mut Assembler) {
    a.constant(random.one_of(&[i32::MIN, i32::MIN + 1, i32::MAX]));
    a.constant(random.one_of(&[-1, 1, i32::MIN, i32::MAX]));
}

/// needed gives how many operands an instruction pops; `enter` is counted as if it popped none.
fn needed(opcode: u8) -> i32 {
    match opcode {
        STORE..=STORE_3 | PUTSTATIC | NEG | NEWARRAY | ARRAYLENGTH | POP | DUP => 1,
        ADD..=REM | ALOAD | BALOAD | DUP2 | JEQ..=JGE | PRINT | BPRINT => 2,
        ASTORE | BASTORE => 3,
        _ => 0,
    }
}

/// left gives how many operands an instruction pushes.
fn left(opcode: u8) -> i32 {
    match opcode {
        LOAD..=LOAD_3 | GETSTATIC | CONST_0..=NEG | NEWARRAY | ALOAD | BALOAD | ARRAYLENGTH | READ | BREAD => 1,
        DUP => 2,
        DUP2 => 4,
        _ => 0,
    }
}

fn instruction(random: &mut Random, a: &mut Assembler, opcode: u8, labels: &[Label]) {
    let far = random.one_in(30);
    match opcode {
        LOAD | STORE => a.bytes(&[opcode, if far { random.byte() } else { random.below(12) as u8 }]),
        GETSTATIC | PUTSTATIC => {
            let n = if far { random.one_of(&[255, 256, 299, 65_535]) } else { random.below(6) as u16 };
            let [high, low] = n.to_be_bytes();
            a.bytes(&[opcode, high, low]);
        }
        CONST => {
            a.op(CONST);
            a.bytes(&random.word().to_be_bytes());
        }
        INC => {
            let n = if far { random.byte() } else { random.below(5) as u8 };
            a.bytes(&[INC, n, random.byte()]);
        }
        NEWARRAY => a.new_array(random.kind()),
        JMP..=CALL => a.jump(opcode, random.one_of(labels)),
        ENTER => {
            let locals = if far { random.byte() } else { random.below(5) as u8 };
            let parameters = random.below(locals as usize + 1) as u8;
            a.enter(if random.one_in(3) { parameters } else { 0 }, locals);
        }
        TRAP => a.bytes(&[TRAP, random.below(3) as u8]),
        _ => a.op(opcode),
    }
}

/// hidden is code that returns into the operand of a `const`, where other instructions stand, complete or not.
pub fn hidden(random: &mut Random, globals: u32) -> Vec<u8> {
    let mut a = Assembler::default();
    let count = 1 + random.below(6);
    for _ in 0..count {
        let [first, second, third] = [random.below(5) as u8, random.below(5) as u8, random.below(60) as u8];
        a.op(CONST);
        match random.below(6) {
            0 => a.bytes(&[NEWARRAY, first, second, third]),
            1 => a.bytes(&[ENTER, first, second, third]),
            2 => a.bytes(&[random.one_of(PALETTES[0]), first, second, third]),
            3 => a.bytes(&[JMP, random.one_of(&[0, 255]), random.byte(), third]),
            4 => a.bytes(&[CALL, random.one_of(&[0, 127, 128, 255]), random.byte(), RETURN]),
            _ => a.bytes(&[random.below(60) as u8, third, second, random.byte()]),
        }
    }
    let main = a.here();
    for _ in 0..random.below(5) {
        a.constant(random.below(5) as i32);
    }
    // Before an `enter`, local 0 is the return address.
    a.constant(random.below(5 * count + 2) as i32);
    a.store(0);
    a.op(RETURN);
    a.object(globals, main)
}

/// overwritten is code that fills the call stack with numbers and then takes them for frames and return addresses.
pub fn overwritten(random: &mut Random, globals: u32) -> Vec<u8> {
    let mut a = Assembler::default();
    let labels: Vec<Label> = (0..1 + random.below(20)).map(|_| a.label()).collect();
    // The `return` of main finds the saved frame 0 and goes here. The `call` then overwrites that saved frame.
    a.jump(CALL, labels[0]);
    for (at, label) in labels.iter().enumerate() {
        a.place(*label);
        let opcode =
            if at < 2 { EXIT } else { random.one_of(&[EXIT, EXIT, RETURN, LOAD, LOAD, STORE, INC, CALL, ENTER, JMP]) };
        let n = if random.one_in(2) { random.byte() } else { random.below(12) as u8 };
        match opcode {
            LOAD => a.load(n),
            STORE => a.store(n),
            INC => a.increment(n, random.byte() as i8),
            _ => instruction(random, &mut a, opcode, &labels),
        }
    }
    let main = a.here();
    for n in 0..random.below(60) as u8 {
        a.constant(random.below(80) as i32 - 20);
        a.store(n);
    }
    a.enter(0, 0);
    a.op(RETURN);
    a.object(globals, main)
}
