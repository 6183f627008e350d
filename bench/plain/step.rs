//! One step of the machine: an instruction is decoded, tested and executed.

use super::{Console, FREE_OPERANDS, Machine, Stop, Verdict};
use crate::opcode::*;

const ILLEGAL: Stop = Stop::Ended(Verdict::IllegalStep);

/// extend gives a word as a number that is below no length if the word is negative.
fn extend(word: i32) -> usize {
    word as isize as usize
}

impl Machine<'_> {
    /// step executes one instruction. Every test comes before every change.
    #[inline(always)]
    pub fn step(&mut self, console: &mut Console<'_>) -> Result<(), Stop> {
        let opcode = *self.code.get(self.pc).ok_or(ILLEGAL)?;
        match opcode {
            LOAD => self.load(self.u8_behind()?, 2),
            LOAD_0 => self.load(0, 1),
            LOAD_1 => self.load(1, 1),
            LOAD_2 => self.load(2, 1),
            LOAD_3 => self.load(3, 1),
            STORE => self.store(self.u8_behind()?, 2),
            STORE_0 => self.store(0, 1),
            STORE_1 => self.store(1, 1),
            STORE_2 => self.store(2, 1),
            STORE_3 => self.store(3, 1),
            GETSTATIC => self.get_static(),
            PUTSTATIC => self.put_static(),
            CONST_0 => self.push(0, 1),
            CONST_1 => self.push(1, 1),
            CONST_2 => self.push(2, 1),
            CONST_3 => self.push(3, 1),
            CONST_4 => self.push(4, 1),
            CONST_5 => self.push(5, 1),
            CONST_M1 => self.push(-1, 1),
            CONST => self.push(i32::from_be_bytes(self.bytes_behind()?), 5),
            ADD => self.binary(i32::wrapping_add),
            SUB => self.binary(i32::wrapping_sub),
            MUL => self.binary(i32::wrapping_mul),
            DIV => self.divide(i32::wrapping_div),
            REM => self.divide(i32::wrapping_rem),
            NEG => self.negate(),
            INC => self.increment(),
            NEWARRAY => self.new_array(),
            ALOAD => self.load_int(),
            ASTORE => self.store_int(),
            BALOAD => self.load_char(),
            BASTORE => self.store_char(),
            ARRAYLENGTH => self.array_length(),
            POP => self.pop(),
            DUP => self.dup(),
            DUP2 => self.dup2(),
            JMP => self.jump(),
            JEQ => self.jump_if(i32::eq),
            JNE => self.jump_if(i32::ne),
            JLT => self.jump_if(i32::lt),
            JLE => self.jump_if(i32::le),
            JGT => self.jump_if(i32::gt),
            JGE => self.jump_if(i32::ge),
            CALL => self.call(),
            RETURN => self.return_(),
            ENTER => self.enter(),
            EXIT => self.exit(),
            READ => self.read(console, |word| word),
            BREAD => self.read(console, |word| word & 0xff),
            PRINT => self.print(console, |x, w, console| console.put_int(x, w)),
            BPRINT => self.print(console, |x, w, console| console.put(&[x as u8], w)),
            TRAP => self.trap(),
            _ => Err(ILLEGAL),
        }
    }

    /// bytes_behind gives the operand bytes behind the opcode.
    #[inline(always)]
    fn bytes_behind<const K: usize>(&self) -> Result<[u8; K], Stop> {
        self.code.get(self.pc + 1..).and_then(|code| code.first_chunk()).copied().ok_or(ILLEGAL)
    }

    #[inline(always)]
    fn u8_behind(&self) -> Result<u8, Stop> {
        self.bytes_behind().map(u8::from_be_bytes)
    }

    #[inline(always)]
    fn u16_behind(&self) -> Result<usize, Stop> {
        self.bytes_behind().map(|bytes| u16::from_be_bytes(bytes).into())
    }

    /// target gives the code offset that the jump or call at `pc` goes to.
    #[inline(always)]
    fn target(&self) -> Result<usize, Stop> {
        self.bytes_behind().map(|bytes| self.pc.wrapping_add_signed(i16::from_be_bytes(bytes).into()))
    }

    /// topmost gives the topmost K operands, the deepest first. They are not copied as one piece: a load of two words
    /// that were just stored one by one would have to wait for both stores.
    #[inline(always)]
    fn topmost<const K: usize>(&self) -> Result<&[i32; K], Stop> {
        self.operand.get(..self.height).and_then(|used| used.last_chunk()).ok_or(ILLEGAL)
    }

    /// replace pops K operands that are known to be there, and pushes one.
    #[inline(always)]
    fn replace<const K: usize>(&mut self, word: i32) -> Result<(), Stop> {
        self.operand[self.height - K] = word;
        self.height = self.height - K + 1;
        self.pc += 1;
        Ok(())
    }

    #[inline(always)]
    fn push(&mut self, word: i32, size: usize) -> Result<(), Stop> {
        *self.operand.get_mut(self.height).ok_or(ILLEGAL)? = word;
        self.height += 1;
        self.pc += size;
        Ok(())
    }

    #[inline(always)]
    fn local(&mut self, n: u8) -> Result<&mut i32, Stop> {
        self.call.get_mut(self.frame.wrapping_add(n.into())).ok_or(ILLEGAL)
    }

    #[inline(always)]
    fn load(&mut self, n: u8, size: usize) -> Result<(), Stop> {
        let word = *self.local(n)?;
        self.push(word, size)
    }

    #[inline(always)]
    fn store(&mut self, n: u8, size: usize) -> Result<(), Stop> {
        let &[x] = self.topmost()?;
        *self.local(n)? = x;
        self.height -= 1;
        self.pc += size;
        Ok(())
    }

    #[inline(always)]
    fn get_static(&mut self) -> Result<(), Stop> {
        let word = *self.data.get(self.u16_behind()?).ok_or(ILLEGAL)?;
        self.push(word, 3)
    }

    #[inline(always)]
    fn put_static(&mut self) -> Result<(), Stop> {
        let &[x] = self.topmost()?;
        let n = self.u16_behind()?;
        *self.data.get_mut(n).ok_or(ILLEGAL)? = x;
        self.height -= 1;
        self.pc += 3;
        Ok(())
    }

    #[inline(always)]
    fn binary(&mut self, operator: impl Fn(i32, i32) -> i32) -> Result<(), Stop> {
        let &[x, y] = self.topmost()?;
        self.replace::<2>(operator(x, y))
    }

    #[inline(always)]
    fn divide(&mut self, operator: impl Fn(i32, i32) -> i32) -> Result<(), Stop> {
        let &[x, y] = self.topmost()?;
        if y == 0 {
            return Err(Stop::Ended(Verdict::DivisionByZero));
        }
        self.replace::<2>(operator(x, y))
    }

    #[inline(always)]
    fn negate(&mut self) -> Result<(), Stop> {
        let &[x] = self.topmost()?;
        self.replace::<1>(x.wrapping_neg())
    }

    #[inline(always)]
    fn increment(&mut self) -> Result<(), Stop> {
        let [n, by] = self.bytes_behind()?;
        let local = self.local(n)?;
        *local = local.wrapping_add((by as i8).into());
        self.pc += 3;
        Ok(())
    }

    #[inline(always)]
    fn new_array(&mut self) -> Result<(), Stop> {
        let kind = self.u8_behind()?;
        if kind > 1 {
            return Err(ILLEGAL);
        }
        let &[n] = self.topmost()?;
        let length = usize::try_from(n).map_err(|_| Stop::Ended(Verdict::NegativeLength))?;
        let words = if kind == 1 { length } else { length.div_ceil(4) };
        let array = self.heap[self.free..].get_mut(..=words).ok_or(Stop::Ended(Verdict::HeapExhausted))?;
        array[0] = n;
        array[1..].fill(0);
        self.operand[self.height - 1] = self.free as i32;
        self.free += 1 + words;
        self.pc += 2;
        Ok(())
    }

    /// element gives the number of the heap word of element i, where a word holds some elements.
    #[inline(always)]
    fn element<const PER_WORD: usize>(&self, r: i32, i: i32) -> Result<usize, Stop> {
        if r == 0 {
            return Err(Stop::Ended(Verdict::NullReference));
        }
        if i < 0 {
            return Err(Stop::Ended(Verdict::IndexOutOfRange));
        }
        let used = self.heap.get(..self.free).ok_or(ILLEGAL)?;
        let length = *used.get(extend(r)).ok_or(ILLEGAL)?;
        if i >= length {
            return Err(Stop::Ended(Verdict::IndexOutOfRange));
        }
        let at = extend(r) + 1 + i as usize / PER_WORD;
        if at < used.len() { Ok(at) } else { Err(ILLEGAL) }
    }

    #[inline(always)]
    fn load_int(&mut self) -> Result<(), Stop> {
        let &[r, i] = self.topmost()?;
        let at = self.element::<1>(r, i)?;
        self.replace::<2>(self.heap[at])
    }

    #[inline(always)]
    fn store_int(&mut self) -> Result<(), Stop> {
        let &[r, i, x] = self.topmost()?;
        let at = self.element::<1>(r, i)?;
        self.heap[at] = x;
        self.height -= 3;
        self.pc += 1;
        Ok(())
    }

    #[inline(always)]
    fn load_char(&mut self) -> Result<(), Stop> {
        let &[r, i] = self.topmost()?;
        let at = self.element::<4>(r, i)?;
        self.replace::<2>(self.heap[at] >> (i % 4 * 8) & 0xff)
    }

    #[inline(always)]
    fn store_char(&mut self) -> Result<(), Stop> {
        let &[r, i, x] = self.topmost()?;
        let at = self.element::<4>(r, i)?;
        let shift = i % 4 * 8;
        self.heap[at] = self.heap[at] & !(0xff << shift) | (x & 0xff) << shift;
        self.height -= 3;
        self.pc += 1;
        Ok(())
    }

    #[inline(always)]
    fn array_length(&mut self) -> Result<(), Stop> {
        let &[r] = self.topmost()?;
        if r == 0 {
            return Err(Stop::Ended(Verdict::NullReference));
        }
        let length = *self.heap.get(..self.free).and_then(|used| used.get(extend(r))).ok_or(ILLEGAL)?;
        self.replace::<1>(length)
    }

    #[inline(always)]
    fn pop(&mut self) -> Result<(), Stop> {
        self.height = self.height.checked_sub(1).ok_or(ILLEGAL)?;
        self.pc += 1;
        Ok(())
    }

    #[inline(always)]
    fn dup(&mut self) -> Result<(), Stop> {
        let &[x] = self.topmost()?;
        self.push(x, 1)
    }

    #[inline(always)]
    fn dup2(&mut self) -> Result<(), Stop> {
        let &[x, y] = self.topmost()?;
        let space = self.operand.get_mut(self.height..).and_then(|space| space.first_chunk_mut());
        let [first, second] = space.ok_or(ILLEGAL)?;
        (*first, *second) = (x, y);
        self.height += 2;
        self.pc += 1;
        Ok(())
    }

    #[inline(always)]
    fn jump(&mut self) -> Result<(), Stop> {
        self.pc = self.target()?;
        Ok(())
    }

    #[inline(always)]
    fn jump_if(&mut self, relation: impl Fn(&i32, &i32) -> bool) -> Result<(), Stop> {
        let target = self.target()?;
        let &[x, y] = self.topmost()?;
        self.height -= 2;
        self.pc = if relation(&x, &y) { target } else { self.pc + 3 };
        Ok(())
    }

    #[inline(always)]
    fn call(&mut self) -> Result<(), Stop> {
        let target = self.target()?;
        *self.call.get_mut(self.top).ok_or(Stop::Ended(Verdict::CallStackExhausted))? = self.pc as i32 + 3;
        self.top += 1;
        self.pc = target;
        Ok(())
    }

    #[inline(always)]
    fn return_(&mut self) -> Result<(), Stop> {
        let top = self.top.wrapping_sub(1);
        let address = *self.call.get(top).ok_or(ILLEGAL)?;
        if address == -1 {
            return Err(Stop::Ended(Verdict::Finished));
        }
        self.top = top;
        self.pc = extend(address);
        Ok(())
    }

    #[inline(always)]
    fn enter(&mut self) -> Result<(), Stop> {
        let [parameters, locals] = self.bytes_behind()?;
        if parameters > locals {
            return Err(ILLEGAL);
        }
        let space = self.call.get_mut(self.top..).and_then(|space| space.get_mut(..=usize::from(locals)));
        let (saved, locals) =
            space.and_then(|space| space.split_first_mut()).ok_or(Stop::Ended(Verdict::CallStackExhausted))?;
        let height = self.height.checked_sub(parameters.into()).ok_or(ILLEGAL)?;
        if self.operand.len() - height < FREE_OPERANDS {
            return Err(Stop::Ended(Verdict::OperandStackExhausted));
        }
        *saved = self.frame as i32;
        let (first, rest) = locals.split_at_mut(parameters.into());
        first.copy_from_slice(&self.operand[height..self.height]);
        rest.fill(0);
        self.frame = self.top + 1;
        self.top = self.frame + locals.len();
        self.height = height;
        self.pc += 3;
        Ok(())
    }

    #[inline(always)]
    fn exit(&mut self) -> Result<(), Stop> {
        let top = self.frame.wrapping_sub(1);
        self.frame = extend(*self.call.get(top).ok_or(ILLEGAL)?);
        self.top = top;
        self.pc += 1;
        Ok(())
    }

    #[inline(always)]
    fn read(&mut self, console: &mut Console<'_>, value: impl Fn(i32) -> i32) -> Result<(), Stop> {
        if self.height >= self.operand.len() {
            return Err(ILLEGAL);
        }
        let word = console.take()?;
        self.push(value(word), 1)
    }

    #[inline(always)]
    fn print(
        &mut self,
        console: &mut Console<'_>,
        put: impl Fn(i32, i32, &mut Console<'_>) -> Result<(), Stop>,
    ) -> Result<(), Stop> {
        let &[x, width] = self.topmost()?;
        put(x, width, console)?;
        self.height -= 2;
        self.pc += 1;
        Ok(())
    }

    #[inline(always)]
    fn trap(&self) -> Result<(), Stop> {
        Err(if self.u8_behind()? == 1 { Stop::Ended(Verdict::MissingReturn) } else { ILLEGAL })
    }
}
