//! Traces that are none: the reader must stop at the damaged record.

use crate::model::{Model, ARRAY_TARGET};
use crate::random::Random;
use crate::trace::{self, op, Record, OUTPUT, STORE};

/// A trace that ends in a record that is none.
pub fn damage(random: &mut Random, records: &[Record]) -> Vec<u8> {
    let place = random.below(records.len());
    let before = trace::write(&records[..place]);
    let after = trace::write(&records[place + 1..]);
    let mut bytes = trace::write(&records[place..=place]);
    match random.below(8) {
        0 => bytes.truncate(random.between(1, bytes.len() - 1)),
        1 => {
            bytes = [bytes, after].concat();
            let cut = random.between(1, 3);
            bytes.truncate(bytes.len() - cut);
            return [before, bytes].concat();
        }
        2 => return [before, wrong_count(random, bytes), after].concat(),
        3 => {
            let code: u32 = random.pick(&[
                0,
                0x09,
                0x0f,
                0x1c,
                0x25,
                0x38,
                0x4b,
                0x51,
                0x63,
                0x74,
                0x7d,
                0xff,
                0x100,
                0x210,
                u32::MAX,
            ]);
            bytes[..4].copy_from_slice(&code.to_le_bytes());
            return [before, bytes, after].concat();
        }
        _ => {
            let bad = trace::write(&[bad_record(random)]);
            return [before, bad, bytes, after].concat();
        }
    }
    [before, bytes].concat()
}

/// The record's number of words, one off or far off.
fn wrong_count(random: &mut Random, mut bytes: Vec<u8>) -> Vec<u8> {
    let n = u32::from_le_bytes(bytes[4..8].try_into().unwrap());
    let wrong = random.pick(&[n + 1, n.wrapping_sub(1), n + 65_601, u32::MAX]);
    bytes[4..8].copy_from_slice(&wrong.to_le_bytes());
    bytes
}

fn bad_record(random: &mut Random) -> Record {
    let long = vec![0; 16_385];
    let list = |op, head: &[u32]| Record::new(op, &[head, &[16_385], &long[..]].concat());
    let padded = |op, head: &[u32]| {
        let mut record = Record::with_bytes(op, head, &[1, 2, 3, 4, 5]);
        *record.words.last_mut().unwrap() |= 0x00010000;
        record
    };
    let upload = [0; 8_193];
    match random.below(28) {
        0 => padded(op::BUFFER_SUB_DATA, &[ARRAY_TARGET, 0]),
        1 => padded(op::BUFFER_DATA, &[ARRAY_TARGET, 5, 0, 1]),
        2 => padded(op::GUEST, &[0]),
        3 => padded(op::STORE_BYTES, &[0]),
        4 => Record::new(op::GUEST_FILL, &[0, 262_145, 0]),
        5 => Record::new(op::STORE_LEN, &[65_601]),
        6 => Record::new(op::DRAW_LIST, &[4, 0, OUTPUT + 1, 0]),
        7 => Record::new(op::DRAW_ARRAYS, &[4, 0, OUTPUT + 1, 0, 0]),
        8 => Record::new(op::DRAW_GUEST, &[4, 0, u32::MAX, 0, 0x1401, 0]),
        9 => list(op::DELETE, &[]),
        10 => list(op::DRAW_LIST, &[4, 0, 0]),
        11 => Record::with_bytes(op::BUFFER_DATA, &[ARRAY_TARGET, 5, 0, 1], &upload),
        12 => Record::with_bytes(op::BUFFER_SUB_DATA, &[ARRAY_TARGET, 0], &upload),
        13 => Record::new(op::CLIENT_STATE, &[0x8074, 2]),
        14 => Record::new(op::CAPABILITY, &[0x0b71, 2]),
        15 => Record::with_bytes(op::BUFFER_DATA, &[ARRAY_TARGET, 5, 0, 2], &[1]),
        16 => Record::with_bytes(op::BUFFER_DATA, &[ARRAY_TARGET, 5, 0, 0], &[1]),
        17 => Record::new(op::META, &[0; 17]),
        18 => Record::with_bytes(op::STORE_BYTES, &[65_599], &[1, 2]),
        19 => Record::new(op::STACK_PUSH, &[4]),
        20 => Record::new(op::DUMP, &[32]),
        21 => Record::new(op::BUFFER_SUB_DATA, &[ARRAY_TARGET, 0, 9, 0, 0]),
        22 => Record::new(op::DRAW_LIST, &[4, 0, 0, 3, 0, 1]),
        23 => Record::new(op::UNSOUND, &[random.pick(&[0, 13, u32::MAX])]),
        24 => Record::new(op::STACK_SHOW, &[random.pick(&[4, u32::MAX])]),
        25 => Record::new(op::GEN, &[]),
        26 => Record::new(op::TAKE_ERROR, &[0]),
        _ => Record::new(op::STACK_SET, &[0; 17]),
    }
}

/// The opcodes that a later program may know.
const RESERVED: [u32; 16] = [
    0x82, 0x83, 0x86, 0x87, 0x8a, 0x8b, 0x8c, 0x90, 0x91, 0xa0, 0xa1, 0xa2, 0xb0, 0xb1, 0xb2, 0xb3,
];

/// A few words of the trace changed at random, if the format says what must come of it.
pub fn nonsense(random: &mut Random, records: &[Record]) -> Option<Vec<u8>> {
    let mut bytes = trace::write(records);
    for _ in 0..random.between(1, 3) {
        let at = 4 * random.below(bytes.len() / 4);
        let old = u32::from_le_bytes(bytes[at..at + 4].try_into().unwrap());
        let flipped = old ^ 1 << random.below(32);
        let small = random.below(20) as u32;
        let any = random.word();
        let new = random.pick(&[flipped, flipped, old.wrapping_add(1), small, any, u32::MAX]);
        bytes[at..at + 4].copy_from_slice(&new.to_le_bytes());
    }
    settled(&bytes).then_some(bytes)
}

/// Is there one right answer? Not at a reserved opcode, nor where a trace may not hold a record,
/// nor on an unsound context, which shows the driver's choices, nor without the list's beginning.
fn settled(bytes: &[u8]) -> bool {
    let (records, stop) = trace::read(bytes);
    let beginning = [Record::new(op::FRESH, &[]), Record::new(op::STORE_LEN, &[STORE])];
    if !records.starts_with(&beginning) {
        return false;
    }
    let mut model = Model::new(None);
    let mut text = Vec::new();
    let legal = |r: &Record| r.op != op::UNSOUND && model.run(r, &mut text).is_ok();
    if !records.iter().all(legal) {
        return false;
    }
    let rest = &bytes[trace::write(&records).len()..];
    let code = rest.first_chunk().map(|w| u32::from_le_bytes(*w));
    stop.is_none() || !code.is_some_and(|code| RESERVED.contains(&code))
}
