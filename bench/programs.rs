//! The programs that are timed. Each reads a number of rounds, works, and prints one number, which is computed here
//! once more in Rust.

use crate::assembler::{Assembler, Kind};
use crate::opcode::*;

/// Program is an object file with the number that it prints.
pub struct Program {
    pub name: &'static str,
    pub object: Vec<u8>,
    pub expected: fn(i32) -> i32,
}

/// all gives every program that is timed.
pub fn all() -> Vec<Program> {
    vec![
        Program { name: "arithmetic, locals", object: arithmetic(LOCALS), expected: arithmetic_result },
        Program { name: "arithmetic, globals", object: arithmetic(GLOBALS), expected: arithmetic_result },
        Program { name: "calls", object: calls(), expected: calls_result },
        Program { name: "int array", object: sorting(Kind::Int), expected: |rounds| sorting_result(rounds, |x| x) },
        Program {
            name: "char array",
            object: sorting(Kind::Char),
            expected: |rounds| sorting_result(rounds, |x| x & 0xff),
        },
    ]
}

/// Variables is how a program reads and writes its variables.
struct Variables {
    get: fn(&mut Assembler, u8),
    put: fn(&mut Assembler, u8),
}

const LOCALS: Variables = Variables { get: Assembler::load, put: Assembler::store };
const GLOBALS: Variables = Variables { get: |a, n| a.get_static(n.into()), put: |a, n| a.put_static(n.into()) };

impl Assembler {
    /// constant_and pushes a word for an instruction that takes it.
    fn constant_and(&mut self, word: i32, opcode: u8) {
        self.constant(word);
        self.op(opcode);
    }

    /// print_and_leave ends main with the number on the operand stack.
    fn print_and_leave(&mut self) {
        self.constant_and(0, PRINT);
        self.leave();
    }
}

const MULTIPLIER: i32 = 1_103_515_245;
const INCREMENT: i32 = 12_345;
const LIMIT: i32 = 1_000_000;

/// arithmetic adds up parts of a sequence of pseudorandom numbers.
fn arithmetic(variables: Variables) -> Vec<u8> {
    const ROUNDS: u8 = 0;
    const NUMBER: u8 = 1;
    const SUM: u8 = 2;
    let Variables { get, put } = variables;
    let mut a = Assembler::default();
    let main = a.here();
    a.enter(0, 3);
    a.op(READ);
    put(&mut a, ROUNDS);
    let round = a.here();
    get(&mut a, NUMBER);
    a.constant_and(MULTIPLIER, MUL);
    a.constant_and(INCREMENT, ADD);
    put(&mut a, NUMBER);
    get(&mut a, SUM);
    get(&mut a, NUMBER);
    a.constant_and(65_536, DIV);
    a.constant_and(1_000, REM);
    a.op(ADD);
    put(&mut a, SUM);
    let small = a.label();
    get(&mut a, SUM);
    a.constant(LIMIT);
    a.jump(JLT, small);
    get(&mut a, SUM);
    a.op(NEG);
    put(&mut a, SUM);
    a.place(small);
    get(&mut a, ROUNDS);
    a.constant_and(1, SUB);
    a.op(DUP);
    put(&mut a, ROUNDS);
    a.constant(0);
    a.jump(JGT, round);
    get(&mut a, SUM);
    a.print_and_leave();
    a.object(3, main)
}

fn arithmetic_result(rounds: i32) -> i32 {
    let (mut number, mut sum) = (0_i32, 0_i32);
    for _ in 0..rounds {
        number = number.wrapping_mul(MULTIPLIER).wrapping_add(INCREMENT);
        sum += number / 65_536 % 1_000;
        if sum >= LIMIT {
            sum = -sum;
        }
    }
    sum
}

const FIBONACCI_OF: i32 = 15;

/// calls computes a Fibonacci number by two calls each, with a local besides the parameter.
fn calls() -> Vec<u8> {
    let mut a = Assembler::default();
    let fibonacci = a.here();
    let deeper = a.label();
    a.enter(1, 2);
    a.load(0);
    a.constant(2);
    a.jump(JGE, deeper);
    a.load(0);
    a.leave();
    a.place(deeper);
    a.load(0);
    a.constant_and(1, SUB);
    a.jump(CALL, fibonacci);
    a.store(1);
    a.load(0);
    a.constant_and(2, SUB);
    a.jump(CALL, fibonacci);
    a.load(1);
    a.op(ADD);
    a.leave();
    let main = a.here();
    a.enter(0, 2);
    a.op(READ);
    a.store(0);
    let round = a.here();
    a.load(1);
    a.constant_and(31, MUL);
    a.constant(FIBONACCI_OF);
    a.jump(CALL, fibonacci);
    a.op(ADD);
    a.store(1);
    a.increment(0, -1);
    a.load(0);
    a.constant(0);
    a.jump(JGT, round);
    a.load(1);
    a.print_and_leave();
    a.object(0, main)
}

fn calls_result(rounds: i32) -> i32 {
    let (fibonacci, _) = (0..FIBONACCI_OF).fold((0, 1), |(a, b), _| (b, a + b));
    (0..rounds).fold(0, |sum: i32, _| sum.wrapping_mul(31).wrapping_add(fibonacci))
}

const LENGTH: i32 = 100;

/// sorting fills an array with pseudorandom numbers, sorts it by insertion and adds it up, round by round.
fn sorting(kind: Kind) -> Vec<u8> {
    const ROUNDS: u8 = 0;
    const ARRAY: u8 = 1;
    const NUMBER: u8 = 2;
    const SUM: u8 = 3;
    let mut a = Assembler::default();
    let main = a.here();
    a.enter(0, 7);
    a.op(READ);
    a.store(ROUNDS);
    a.constant(LENGTH);
    a.new_array(kind);
    a.store(ARRAY);
    let round = a.here();
    fill(&mut a, kind, ARRAY, NUMBER);
    sort(&mut a, kind, ARRAY);
    add_up(&mut a, kind, ARRAY, SUM);
    a.increment(ROUNDS, -1);
    a.load(ROUNDS);
    a.constant(0);
    a.jump(JGT, round);
    a.load(SUM);
    a.print_and_leave();
    a.object(0, main)
}

/// The locals that the parts of sorting use for themselves.
const I: u8 = 4;
const J: u8 = 5;
const VALUE: u8 = 6;

/// for_each executes the body with I from a first index to the end of the array.
fn for_each(a: &mut Assembler, array: u8, first: i32, body: impl FnOnce(&mut Assembler)) {
    let (next, done) = (a.label(), a.label());
    a.constant(first);
    a.store(I);
    a.place(next);
    a.load(I);
    a.load(array);
    a.op(ARRAYLENGTH);
    a.jump(JGE, done);
    body(a);
    a.increment(I, 1);
    a.jump(JMP, next);
    a.place(done);
}

fn fill(a: &mut Assembler, kind: Kind, array: u8, number: u8) {
    for_each(a, array, 0, |a| {
        a.load(number);
        a.constant_and(MULTIPLIER, MUL);
        a.constant_and(INCREMENT, ADD);
        a.store(number);
        a.load(array);
        a.load(I);
        a.load(number);
        a.constant_and(65_536, DIV);
        a.array_store(kind);
    });
}

fn sort(a: &mut Assembler, kind: Kind, array: u8) {
    for_each(a, array, 1, |a| {
        let (shift, done) = (a.label(), a.label());
        a.load(array);
        a.load(I);
        a.array_load(kind);
        a.store(VALUE);
        a.load(I);
        a.store(J);
        a.place(shift);
        a.load(J);
        a.constant(0);
        a.jump(JLE, done);
        a.load(array);
        a.load(J);
        a.constant_and(1, SUB);
        a.array_load(kind);
        a.load(VALUE);
        a.jump(JLE, done);
        a.load(array);
        a.load(J);
        a.op(DUP2);
        a.constant_and(1, SUB);
        a.array_load(kind);
        a.array_store(kind);
        a.increment(J, -1);
        a.jump(JMP, shift);
        a.place(done);
        a.load(array);
        a.load(J);
        a.load(VALUE);
        a.array_store(kind);
    });
}

fn add_up(a: &mut Assembler, kind: Kind, array: u8, sum: u8) {
    for_each(a, array, 0, |a| {
        a.load(sum);
        a.constant_and(31, MUL);
        a.load(array);
        a.load(I);
        a.array_load(kind);
        a.op(ADD);
        a.store(sum);
    });
}

fn sorting_result(rounds: i32, stored: fn(i32) -> i32) -> i32 {
    let mut number = 0_i32;
    let mut array = [0; LENGTH as usize];
    (0..rounds).fold(0, |sum, _| {
        for element in &mut array {
            number = number.wrapping_mul(MULTIPLIER).wrapping_add(INCREMENT);
            *element = stored(number / 65_536);
        }
        array.sort_unstable();
        array.iter().fold(sum, |sum: i32, element| sum.wrapping_mul(31).wrapping_add(*element))
    })
}
