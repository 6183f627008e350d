//! Random cases: objects that are accepted and do something, and objects with a fault in them.

mod methods;
mod sequences;

use crate::assembler::object_file;
use crate::case::Case;
use crate::random::Random;

/// case makes a case, a part of them with a fault in the object or in the stores.
pub fn case(random: &mut Random) -> Case {
    let globals = match random.below(400) {
        0 => random.one_of(&[65_535, 65_536, 65_537]),
        _ => random.below(5) as u32,
    };
    let mut object = match random.below(20) {
        0..=8 => methods::methods(random, globals),
        9 => noise(random, globals),
        10 => sequences::hidden(random, globals),
        11 => sequences::overwritten(random, globals),
        _ => sequences::sequence(random, globals),
    };
    if random.one_in(5) {
        for _ in 0..=random.below(3) {
            damage(random, &mut object);
        }
    }
    let mut case = lend(random, globals as usize);
    case.object = object;
    case
}

/// again lends other stores, words, room and budget to the same object.
pub fn again(random: &mut Random, case: &Case) -> Case {
    let globals = case.object.get(6..10).map_or(0, |field| field.iter().fold(0, |sum, byte| sum << 8 | *byte as usize));
    let lent = lend(random, if globals <= 65_536 { globals } else { 0 });
    Case { object: case.object.clone(), ..lent }
}

/// lend chooses everything but the object: mostly enough for a long run, now and then too little.
fn lend(random: &mut Random, globals: usize) -> Case {
    let mut length =
        |scarce: &[usize], ample: &[usize]| if random.one_in(5) { random.one_of(scarce) } else { random.one_of(ample) };
    let mut case = Case {
        object: Vec::new(),
        words: Vec::new(),
        data: globals + length(&[1, 2, 300], &[0]),
        heap: length(&[1, 2, 3, 4, 6, 9, 14], &[40, 100, 300, 2_000]),
        call: length(&[1, 2, 3, 4, 5, 6, 8, 12, 16], &[40, 100, 300, 700]),
        operand: length(&[32, 33, 34, 35, 36], &[40, 64, 200]),
        room: length(&[0, 1, 3, 8, 12], &[40, 254, 255, 256, 1_000]),
        budget: length(&[0, 1, 2, 3, 5, 8, 13, 20, 30], &[50, 80, 130, 200, 400, 1_000, 4_000]) as u64,
    };
    case.words = (0..random.below(12)).map(|_| random.word()).collect();
    if random.one_in(60) {
        let (stores, fewest) =
            ([&mut case.data, &mut case.heap, &mut case.call, &mut case.operand], [globals, 1, 1, 32]);
        let at = random.below(4);
        *stores.into_iter().nth(at).expect("one of four") = match random.below(40) {
            0 => 1_048_576,
            1 => 1_048_577,
            2 | 3 => 0,
            _ => fewest[at].saturating_sub(1 + random.below(2)),
        };
    }
    case
}

/// noise is code of which little is known: opcodes and small numbers in any order.
fn noise(random: &mut Random, globals: u32) -> Vec<u8> {
    let code: Vec<u8> = (0..1 + random.below(40)).map(|_| random.below(60) as u8).collect();
    object_file(&code, globals, random.below(code.len()) as u32)
}

/// damage makes one change that the header, the code or the length may not survive.
fn damage(random: &mut Random, object: &mut Vec<u8>) {
    let end = object.len();
    let at = random.below(end);
    match random.below(9) {
        0 => object[at] = random.byte(),
        1 => object[at] ^= 1 << random.below(8),
        2 => object[at.min(13)] = random.byte(),
        3 => object.truncate(at.max(1)),
        4 => object.push(random.byte()),
        5 if end > 14 => object[14 + at % (end - 14)] = random.below(60) as u8,
        6 | 7 if end > 14 => {
            let size = end as u32 - 14;
            let limits = [0, 1, size - 1, size, size + 1, 8_192, 8_193, 65_536, 65_537, 1 << 31, u32::MAX];
            let value = if random.one_in(2) { random.below(size as usize) as u32 } else { random.one_of(&limits) };
            let field = random.one_of(&[2, 6, 10, 10, 10]);
            object[field..field + 4].copy_from_slice(&value.to_be_bytes());
        }
        _ if end > 15 => {
            // A byte of the code is left out, and the header agrees.
            object.remove(14 + at % (end - 14));
            let size = object.len() as u32 - 14;
            object[2..6].copy_from_slice(&size.to_be_bytes());
        }
        _ => object[at] = random.byte(),
    }
}
