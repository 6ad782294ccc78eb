//! The trace format, version 1: records of little-endian words.

/// A record: opcode and words, the number of words left out.
#[derive(Clone, Debug, PartialEq)]
pub struct Record {
    pub op: u32,
    pub words: Vec<u32>,
}

/// Where reading stopped, and why.
#[derive(Clone, Debug, PartialEq)]
pub struct Stop {
    pub record: usize,
    pub reason: &'static str,
}

macro_rules! opcodes {
    ($($name:ident = $code:expr),* $(,)?) => {
        pub mod op {
            $(pub const $name: u32 = $code;)*
        }
        /// The name that stands in the answers; empty for an unknown opcode.
        pub fn name(code: u32) -> &'static str {
            match code {
                $(op::$name => stringify!($name),)*
                _ => "",
            }
        }
    };
}

opcodes! {
    META = 0x01, FRESH = 0x02, STORE_FILL = 0x03, STORE_BYTES = 0x04, STORE_LEN = 0x05,
    GUEST = 0x06, GUEST_FILL = 0x07, GUEST_BASE = 0x08,
    MATRIX_MODE = 0x10, LOAD_IDENTITY = 0x11, LOAD = 0x12, MULT = 0x13, PUSH = 0x14, POP = 0x15,
    TRANSLATE = 0x16, SCALE = 0x17, ROTATE = 0x18, ROTATE_ZERO = 0x19, FRUSTUM = 0x1a, ORTHO = 0x1b,
    GEN = 0x20, BIND = 0x21, DELETE = 0x22, BUFFER_DATA = 0x23, BUFFER_SUB_DATA = 0x24,
    VERTEX_POINTER = 0x30, COLOR_POINTER = 0x31, NORMAL_POINTER = 0x32, TEXCOORD_POINTER = 0x33,
    CLIENT_STATE = 0x34, CLIENT_UNIT = 0x35, COLOR = 0x36, MULTI_TEXCOORD = 0x37,
    ACTIVE_UNIT = 0x40, CAPABILITY = 0x41, TEX_ENV = 0x42, TEX_ENV_COLOR = 0x43,
    DEPTH_FUNC = 0x44, ALPHA_FUNC = 0x45, BLEND_FUNC = 0x46, CULL_FACE = 0x47, FRONT_FACE = 0x48,
    FOG = 0x49, DEPTH_RANGE = 0x4a, TAKE_ERROR = 0x50,
    DRAW_LIST = 0x60, DRAW_ARRAYS = 0x61, DRAW_GUEST = 0x62,
    STACK_SET = 0x70, STACK_PUSH = 0x71, STACK_POP = 0x72, STACK_SHOW = 0x73,
    UNSOUND = 0x7e, DUMP = 0x7f,
}

pub const STORE: u32 = 65_536;
pub const STORE_AREA: u32 = 65_600;
pub const RECORD_WORDS: u32 = 65_600;
pub const GUEST_BYTES: u32 = 262_144;
pub const ENTRIES: u32 = 16_384;
pub const OUTPUT: u32 = 51 * 16_384;
pub const UPLOAD: u32 = 8_192;

/// Does this opcode make one of the document's calls?
pub fn is_call(code: u32) -> bool {
    (0x10..=0x62).contains(&code) || code == op::STACK_PUSH || code == op::STACK_POP
}

pub fn is_draw(code: u32) -> bool {
    (0x60..=0x62).contains(&code)
}

impl Record {
    pub fn new(op: u32, words: &[u32]) -> Self {
        let words = words.to_vec();
        Record { op, words }
    }

    /// A record that ends in bytes(L); the length is put in before them.
    pub fn with_bytes(op: u32, words: &[u32], bytes: &[u8]) -> Self {
        let mut all = words.to_vec();
        all.push(bytes.len() as u32);
        all.extend(bytes.chunks(4).map(|part| {
            let mut word = [0; 4];
            word[..part.len()].copy_from_slice(part);
            u32::from_le_bytes(word)
        }));
        Record { op, words: all }
    }

    /// Word i as the f32 with these bits.
    pub fn float(&self, i: usize) -> f32 {
        f32::from_bits(self.words[i])
    }

    pub fn floats<const N: usize>(&self, from: usize) -> [f32; N] {
        std::array::from_fn(|i| self.float(from + i))
    }

    /// The bytes whose length stands in word i.
    pub fn bytes(&self, i: usize) -> Vec<u8> {
        let length = self.words[i] as usize;
        let mut all: Vec<u8> = self.words[i + 1..].iter().flat_map(|w| w.to_le_bytes()).collect();
        all.truncate(length);
        all
    }
}

/// Byte i of a filled area.
pub fn fill_byte(i: u32, seed: u32) -> u8 {
    (i.wrapping_mul(2_654_435_761).wrapping_add(seed) >> 24) as u8
}

pub fn fill(length: u32, seed: u32) -> Vec<u8> {
    (0..length).map(|i| fill_byte(i, seed)).collect()
}

pub fn write(records: &[Record]) -> Vec<u8> {
    let mut out = Vec::new();
    for record in records {
        out.extend(record.op.to_le_bytes());
        out.extend((record.words.len() as u32).to_le_bytes());
        out.extend(record.words.iter().flat_map(|w| w.to_le_bytes()));
    }
    out
}

/// All records up to the end or up to the first that is none.
pub fn read(bytes: &[u8]) -> (Vec<Record>, Option<Stop>) {
    let mut records = Vec::new();
    let mut rest = bytes;
    while !rest.is_empty() {
        match read_one(&mut rest) {
            Ok(record) => records.push(record),
            Err(reason) => {
                let record = records.len();
                return (records, Some(Stop { record, reason }));
            }
        }
    }
    (records, None)
}

const ENDS: &str = "the file ends inside the record";

fn read_word(rest: &mut &[u8]) -> Result<u32, &'static str> {
    let (word, after) = rest.split_at_checked(4).ok_or(ENDS)?;
    *rest = after;
    Ok(u32::from_le_bytes(word.try_into().unwrap()))
}

fn read_one(rest: &mut &[u8]) -> Result<Record, &'static str> {
    let op = read_word(rest)?;
    let n = read_word(rest)?;
    if name(op).is_empty() {
        return Err("unknown opcode");
    }
    if n > RECORD_WORDS {
        return Err("record too long");
    }
    let words = (0..n).map(|_| read_word(rest)).collect::<Result<Vec<u32>, _>>()?;
    check(op, &words)?;
    Ok(Record { op, words })
}

fn claim(yes: bool, reason: &'static str) -> Result<(), &'static str> {
    yes.then_some(()).ok_or(reason)
}

fn bounded(value: u32, most: u32) -> Result<(), &'static str> {
    claim(value <= most, "a bound is passed")
}

fn count(words: &[u32], n: usize) -> Result<(), &'static str> {
    claim(words.len() == n, "wrong number of words")
}

fn at_least(words: &[u32], n: usize) -> Result<(), &'static str> {
    claim(words.len() >= n, "wrong number of words")
}

fn flag(value: u32) -> Result<(), &'static str> {
    claim(value <= 1, "a flag is neither 0 nor 1")
}

/// bytes(L), L in word i, up to the record's end.
fn packed(words: &[u32], i: usize, most: u32) -> Result<(), &'static str> {
    at_least(words, i + 1)?;
    let length = words[i];
    bounded(length, most)?;
    count(words, i + 1 + length.div_ceil(4) as usize)?;
    let tail = length % 4;
    let last = *words.last().unwrap();
    claim(tail == 0 || last >> (8 * tail) == 0, "nonzero padding")
}

/// k in word i and then k entries.
fn entries(words: &[u32], i: usize) -> Result<(), &'static str> {
    at_least(words, i + 1)?;
    bounded(words[i], ENTRIES)?;
    count(words, i + 1 + words[i] as usize)
}

/// Does the record keep the format?
fn check(code: u32, w: &[u32]) -> Result<(), &'static str> {
    use op::*;
    match code {
        META => claim(w.len() <= 16, "wrong number of words"),
        FRESH | LOAD_IDENTITY | PUSH | POP | TAKE_ERROR => count(w, 0),
        STORE_FILL | GUEST_BASE | MATRIX_MODE | GEN | CLIENT_UNIT | ACTIVE_UNIT | DEPTH_FUNC
        | CULL_FACE | FRONT_FACE => count(w, 1),
        STORE_BYTES => {
            packed(w, 1, STORE_AREA)?;
            bounded(w[0], STORE_AREA - w[1])
        }
        STORE_LEN => {
            count(w, 1)?;
            bounded(w[0], STORE_AREA)
        }
        GUEST => packed(w, 1, GUEST_BYTES),
        GUEST_FILL => {
            count(w, 3)?;
            bounded(w[1], GUEST_BYTES)
        }
        LOAD | MULT => count(w, 16),
        BIND | TEX_ENV | ALPHA_FUNC | BLEND_FUNC | FOG | DEPTH_RANGE => count(w, 2),
        TRANSLATE | SCALE | NORMAL_POINTER | MULTI_TEXCOORD => count(w, 3),
        VERTEX_POINTER | COLOR_POINTER | TEXCOORD_POINTER | COLOR | TEX_ENV_COLOR | ROTATE_ZERO => {
            count(w, 4)
        }
        FRUSTUM | ORTHO => count(w, 6),
        ROTATE => count(w, 9),
        DELETE => entries(w, 0),
        BUFFER_DATA => check_data(w),
        BUFFER_SUB_DATA => packed(w, 2, UPLOAD),
        CLIENT_STATE | CAPABILITY => {
            count(w, 2)?;
            flag(w[1])
        }
        DRAW_LIST => {
            entries(w, 3)?;
            bounded(w[2], OUTPUT)
        }
        DRAW_ARRAYS => {
            count(w, 5)?;
            bounded(w[2], OUTPUT)
        }
        DRAW_GUEST => {
            count(w, 6)?;
            bounded(w[2], OUTPUT)
        }
        STACK_SET => check_stack(w),
        STACK_PUSH | STACK_POP | STACK_SHOW => {
            count(w, 1)?;
            bounded(w[0], 3)
        }
        UNSOUND => {
            count(w, 1)?;
            claim((1..=12).contains(&w[0]), "unknown kind")
        }
        DUMP => {
            count(w, 1)?;
            bounded(w[0], 31)
        }
        _ => Err("unknown opcode"),
    }
}

fn check_data(w: &[u32]) -> Result<(), &'static str> {
    packed(w, 4, UPLOAD)?;
    flag(w[3])?;
    claim(w[3] == 1 || w[4] == 0, "bytes without data")
}

fn check_stack(w: &[u32]) -> Result<(), &'static str> {
    at_least(w, 2)?;
    bounded(w[0], 3)?;
    count(w, 2 + 16 * (1 + w[1].min(15) as usize))
}

/// A record in words, for a reader.
pub fn show(record: &Record) -> String {
    let words: Vec<String> = record.words.iter().map(|w| format!("{w:x}")).collect();
    format!("{} {}", name(record.op), words.join(" "))
}
