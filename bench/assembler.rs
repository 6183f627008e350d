//! A small assembler for object files: instructions are appended one by one, and jumps go to labels.

use crate::opcode::*;

/// Label stands for a code offset that may not be known yet.
#[derive(Clone, Copy, PartialEq)]
pub struct Label(usize);

/// Kind is that of an array and its instructions.
#[derive(Clone, Copy, PartialEq)]
pub enum Kind {
    Char = 0,
    Int = 1,
}

/// Assembler collects the code of one object file.
#[derive(Default)]
pub struct Assembler {
    code: Vec<u8>,
    places: Vec<usize>,
    jumps: Vec<(usize, Label)>,
}

impl Assembler {
    /// size is the number of code bytes so far.
    pub fn size(&self) -> usize {
        self.code.len()
    }

    /// label makes a label that `place` is to give an offset.
    pub fn label(&mut self) -> Label {
        self.places.push(0);
        Label(self.places.len() - 1)
    }

    /// place lets a label stand for the next instruction.
    pub fn place(&mut self, label: Label) {
        self.places[label.0] = self.code.len();
    }

    /// here makes a label for the next instruction.
    pub fn here(&mut self) -> Label {
        let label = self.label();
        self.place(label);
        label
    }

    /// bytes appends an instruction as it is.
    pub fn bytes(&mut self, bytes: &[u8]) {
        self.code.extend_from_slice(bytes);
    }

    /// op appends an instruction without operands.
    pub fn op(&mut self, opcode: u8) {
        self.code.push(opcode);
    }

    pub fn load(&mut self, n: u8) {
        self.local(LOAD, n);
    }

    pub fn store(&mut self, n: u8) {
        self.local(STORE, n);
    }

    fn local(&mut self, opcode: u8, n: u8) {
        match n {
            0..=3 => self.op(opcode + 1 + n),
            _ => self.bytes(&[opcode, n]),
        }
    }

    pub fn get_static(&mut self, n: u16) {
        let [high, low] = n.to_be_bytes();
        self.bytes(&[GETSTATIC, high, low]);
    }

    pub fn put_static(&mut self, n: u16) {
        let [high, low] = n.to_be_bytes();
        self.bytes(&[PUTSTATIC, high, low]);
    }

    pub fn constant(&mut self, word: i32) {
        match word {
            0..=5 => self.op(CONST_0 + word as u8),
            -1 => self.op(CONST_M1),
            _ => {
                self.op(CONST);
                self.bytes(&word.to_be_bytes());
            }
        }
    }

    pub fn increment(&mut self, n: u8, by: i8) {
        self.bytes(&[INC, n, by as u8]);
    }

    pub fn new_array(&mut self, kind: Kind) {
        self.bytes(&[NEWARRAY, kind as u8]);
    }

    pub fn array_load(&mut self, kind: Kind) {
        self.op(if kind == Kind::Int { ALOAD } else { BALOAD });
    }

    pub fn array_store(&mut self, kind: Kind) {
        self.op(if kind == Kind::Int { ASTORE } else { BASTORE });
    }

    /// jump appends a jump or a call.
    pub fn jump(&mut self, opcode: u8, label: Label) {
        self.jumps.push((self.code.len(), label));
        self.bytes(&[opcode, 0, 0]);
    }

    pub fn enter(&mut self, parameters: u8, locals: u8) {
        self.bytes(&[ENTER, parameters, locals]);
    }

    /// leave appends the end of a method.
    pub fn leave(&mut self) {
        self.bytes(&[EXIT, RETURN]);
    }

    /// object gives the file, with the distances of all jumps and calls.
    pub fn object(mut self, globals: u32, main: Label) -> Vec<u8> {
        for &(at, label) in &self.jumps {
            let distance = self.places[label.0] as isize - at as isize;
            self.code[at + 1..at + 3].copy_from_slice(&(distance as i16).to_be_bytes());
        }
        object_file(&self.code, globals, self.places[main.0] as u32)
    }
}

/// object_file puts the header in front of the code.
pub fn object_file(code: &[u8], globals: u32, main: u32) -> Vec<u8> {
    let mut object = b"MJ".to_vec();
    for field in [code.len() as u32, globals, main] {
        object.extend(field.to_be_bytes());
    }
    object.extend(code);
    object
}
