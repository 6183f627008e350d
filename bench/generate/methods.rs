//! Random code in the manner of translated code: methods with statements and expressions.

use crate::assembler::{Assembler, Kind, Label};
use crate::opcode::*;
use crate::random::Random;

/// Method is what its callers and its body know of a method.
#[derive(Clone, Copy)]
struct Method {
    label: Label,
    parameters: u8,
    locals: u8,
}

/// The last locals of a method: two arrays and two counters of loops, an inner one and an outer one.
const RESERVED: u8 = 4;

impl Method {
    fn array(self, kind: Kind) -> u8 {
        self.locals - 1 - kind as u8
    }

    fn counter(self, depth: usize) -> u8 {
        self.locals - 3 - depth as u8
    }
}

/// Writer writes the bodies of methods. Each of its parts but `value` leaves the operand stack as it was.
struct Writer<'r> {
    random: &'r mut Random,
    a: Assembler,
    methods: Vec<Method>,
    globals: u32,
}

/// methods makes a program of some methods that call each other, in the manner of translated code.
pub fn methods(random: &mut Random, globals: u32) -> Vec<u8> {
    let mut a = Assembler::default();
    let count = 1 + random.below(4);
    let methods = (0..count).map(|_| {
        let parameters = random.below(4) as u8;
        Method { label: a.label(), parameters, locals: parameters + RESERVED + 1 + random.below(4) as u8 }
    });
    let mut methods: Vec<Method> = methods.collect();
    methods[0].parameters = 0;
    let mut writer = Writer { random, a, methods: methods.clone(), globals };
    for method in &methods {
        writer.a.place(method.label);
        writer.a.enter(method.parameters, method.locals);
        writer.begin(*method);
        for _ in 0..1 + writer.random.below(5) {
            writer.statement(*method, 2);
        }
        if method.label == methods[0].label {
            writer.a.leave();
        } else {
            writer.end(*method);
        }
    }
    writer.a.object(globals, methods[0].label)
}

impl Writer<'_> {
    /// begin makes an array of each kind.
    fn begin(&mut self, method: Method) {
        for kind in [Kind::Char, Kind::Int] {
            let length = self.random.below(7) as i32;
            self.a.constant(length);
            self.a.new_array(kind);
            self.a.store(method.array(kind));
        }
    }

    /// end leaves a result for the caller, or is a `trap`.
    fn end(&mut self, method: Method) {
        if self.random.one_in(12) {
            self.a.bytes(&[TRAP, 1]);
        } else {
            self.value(method, 1);
            self.a.leave();
        }
    }

    fn statement(&mut self, method: Method, depth: usize) {
        match self.random.below(if depth == 0 { 8 } else { 11 }) {
            0 | 1 => {
                self.value(method, 2);
                self.assign(method);
            }
            2 => {
                self.value(method, 1);
                let width = self.random.word();
                self.a.constant(width);
                let print = self.random.one_of(&[PRINT, BPRINT]);
                self.a.op(print);
            }
            3 => {
                let read = self.random.one_of(&[READ, BREAD]);
                self.a.op(read);
                self.assign(method);
            }
            4 => self.make_array(method),
            5 | 6 => {
                let kind = self.element(method);
                self.value(method, 1);
                self.a.array_store(kind);
            }
            7 => {
                let (n, by) = (self.local(method), self.random.byte() as i8);
                self.a.increment(n, by);
            }
            8 | 9 => self.repeat(method, depth - 1),
            _ => self.choose(method, depth - 1),
        }
    }

    /// local chooses a local, seldom a reserved one.
    fn local(&mut self, method: Method) -> u8 {
        let reserved = if self.random.one_in(40) { 0 } else { RESERVED };
        self.random.below((method.locals - reserved).into()) as u8
    }

    fn assign(&mut self, method: Method) {
        if self.globals > 0 && self.random.one_in(3) {
            let n = self.random.below(self.globals as usize) as u16;
            self.a.put_static(n);
        } else {
            let n = self.local(method);
            self.a.store(n);
        }
    }

    fn make_array(&mut self, method: Method) {
        let (kind, length) = (self.random.kind(), self.random.below(9) as i32);
        self.a.constant(length);
        self.a.new_array(kind);
        self.assign(method);
    }

    /// element pushes a reference and an index, and gives the kind that is meant.
    fn element(&mut self, method: Method) -> Kind {
        let (kind, other) = (self.random.kind(), self.random.kind());
        match self.random.below(20) {
            0 => self.value(method, 0),
            1 => self.a.load(method.array(other)),
            _ => self.a.load(method.array(kind)),
        }
        let index = self.random.below(4) as i32;
        if self.random.one_in(10) {
            self.value(method, 0)
        } else {
            self.a.constant(index)
        }
        kind
    }

    /// repeat executes a statement some times, unless the statement changes the counter.
    fn repeat(&mut self, method: Method, depth: usize) {
        let counter = method.counter(depth);
        let times = 1 + self.random.below(9) as i32;
        self.a.constant(times);
        self.a.store(counter);
        let again = self.a.here();
        self.statement(method, depth);
        self.a.increment(counter, -1);
        self.a.load(counter);
        self.a.constant(0);
        self.a.jump(JGT, again);
    }

    fn choose(&mut self, method: Method, depth: usize) {
        let (otherwise, end) = (self.a.label(), self.a.label());
        self.value(method, 1);
        self.value(method, 1);
        let jump = self.random.one_of(&[JEQ, JNE, JLT, JLE, JGT, JGE]);
        self.a.jump(jump, otherwise);
        self.statement(method, depth);
        self.a.jump(JMP, end);
        self.a.place(otherwise);
        self.statement(method, depth);
        self.a.place(end);
    }

    /// value pushes one word.
    fn value(&mut self, method: Method, depth: usize) {
        match self.random.below(if depth == 0 { 4 } else { 10 }) {
            0 | 1 => {
                let word = self.random.word();
                self.a.constant(word);
            }
            2 if self.globals > 0 => {
                let n = self.random.below(self.globals as usize) as u16;
                self.a.get_static(n);
            }
            2 | 3 => {
                let n = self.local(method);
                self.a.load(n);
            }
            4 | 5 => {
                self.value(method, depth - 1);
                self.value(method, depth - 1);
                let operator = self.random.one_of(&[ADD, ADD, SUB, SUB, MUL, MUL, DIV, REM]);
                self.a.op(operator);
            }
            6 => {
                self.value(method, depth - 1);
                self.a.op(NEG);
            }
            7 => {
                let kind = self.element(method);
                self.a.array_load(kind);
            }
            8 => {
                let kind = self.random.kind();
                self.a.load(method.array(kind));
                self.a.op(ARRAYLENGTH);
            }
            _ => self.call(method, depth - 1),
        }
    }

    /// call pushes the result of a method, mostly one that stands later; of the first, which has none, a 0.
    fn call(&mut self, method: Method, depth: usize) {
        let later = 1 + self.methods.iter().position(|other| other.label == method.label).unwrap_or(0);
        let first = if self.random.one_in(20) { 0 } else { later };
        if first == self.methods.len() {
            return self.value(method, depth);
        }
        let at = first + self.random.below(self.methods.len() - first);
        let callee = self.methods[at];
        for _ in 0..callee.parameters {
            self.value(method, depth);
        }
        self.a.jump(CALL, callee.label);
        if at == 0 {
            self.a.constant(0);
        }
    }
}
