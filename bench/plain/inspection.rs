//! The inspection of an object file.

use super::{Checked, Refusal};
use crate::opcode::*;

const HEADER_SIZE: usize = 14;
const MAX_CODE_SIZE: usize = 8_192;
const MAX_GLOBALS: usize = 65_536;

/// inspect decides whether the bytes are an object file.
pub fn inspect(object: &[u8]) -> Result<Checked<'_>, Refusal> {
    let checked = read_header(object).ok_or(Refusal::UnfitHeader)?;
    let mut begins = [false; MAX_CODE_SIZE];
    find_instructions(checked.code, &mut begins)?;
    let jump = find_unfit_jump(checked.code, &begins);
    let main = (!begins[checked.main]).then_some(checked.main);
    match jump.into_iter().chain(main).min() {
        Some(offset) => Err(Refusal::UnfitTarget(offset)),
        None => Ok(checked),
    }
}

fn read_header(object: &[u8]) -> Option<Checked<'_>> {
    let (header, code) = object.split_first_chunk::<HEADER_SIZE>()?;
    let field = |at: usize| u32::from_be_bytes([header[at], header[at + 1], header[at + 2], header[at + 3]]) as usize;
    let (size, globals, main) = (field(2), field(6), field(10));
    let fit = header.starts_with(b"MJ")
        && (1..=MAX_CODE_SIZE).contains(&size)
        && size == code.len()
        && globals <= MAX_GLOBALS
        && main < size;
    fit.then_some(Checked { code, globals, main })
}

/// find_instructions marks the offsets at which instructions begin when they are read one behind the other.
fn find_instructions(code: &[u8], begins: &mut [bool; MAX_CODE_SIZE]) -> Result<(), Refusal> {
    let mut at = 0;
    while at < code.len() {
        begins[at] = true;
        at += instruction_size(&code[at..]).ok_or(Refusal::UnfitInstruction(at))?;
    }
    Ok(())
}

/// find_unfit_jump gives the first jump or call that goes to no instruction.
fn find_unfit_jump(code: &[u8], begins: &[bool; MAX_CODE_SIZE]) -> Option<usize> {
    (0..code.len()).filter(|&at| begins[at]).find(|&at| match code[at..] {
        [JMP..=CALL, high, low, ..] => {
            let target = at.wrapping_add_signed(i16::from_be_bytes([high, low]).into());
            begins.get(target) != Some(&true)
        }
        _ => false,
    })
}

/// instruction_size gives the size of the complete instruction that the bytes begin with.
fn instruction_size(code: &[u8]) -> Option<usize> {
    match *code {
        [LOAD_0..=LOAD_3 | STORE_0..=STORE_3 | CONST_0..=CONST_M1 | ADD..=NEG | ALOAD..=DUP2, ..] => Some(1),
        [RETURN | EXIT..=BPRINT, ..] => Some(1),
        [LOAD | STORE | TRAP, _, ..] | [NEWARRAY, 0 | 1, ..] => Some(2),
        [GETSTATIC | PUTSTATIC | INC | JMP..=CALL, _, _, ..] => Some(3),
        [ENTER, parameters, locals, ..] if parameters <= locals => Some(3),
        [CONST, _, _, _, _, ..] => Some(5),
        _ => None,
    }
}
