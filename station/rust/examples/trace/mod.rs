//! Traces for the examples (docs/TRACE.md): the records of a file, and how answers are printed.

use std::io::{self, Write};

macro_rules! codes {
    ($($name:ident = $code:literal),* $(,)?) => {
        #[allow(dead_code)]
        pub mod code {
            $(pub const $name: u32 = $code;)*
        }

        /// The name of a record in the answers.
        pub fn name(code: u32) -> Option<&'static str> {
            match code {
                $($code => Some(stringify!($name)),)*
                _ => None,
            }
        }
    };
}

codes! {
    META = 0x01, FRESH = 0x02, STORE_FILL = 0x03, STORE_BYTES = 0x04, STORE_LEN = 0x05,
    GUEST = 0x06, GUEST_FILL = 0x07, GUEST_BASE = 0x08,
    MATRIX_MODE = 0x10, LOAD_IDENTITY = 0x11, LOAD = 0x12, MULT = 0x13, PUSH = 0x14, POP = 0x15,
    TRANSLATE = 0x16, SCALE = 0x17, ROTATE = 0x18, ROTATE_ZERO = 0x19, FRUSTUM = 0x1a, ORTHO = 0x1b,
    GEN = 0x20, BIND = 0x21, DELETE = 0x22, BUFFER_DATA = 0x23, BUFFER_SUB_DATA = 0x24,
    VERTEX_POINTER = 0x30, COLOR_POINTER = 0x31, NORMAL_POINTER = 0x32, TEXCOORD_POINTER = 0x33,
    CLIENT_STATE = 0x34, CLIENT_UNIT = 0x35, COLOR = 0x36, MULTI_TEXCOORD = 0x37,
    ACTIVE_UNIT = 0x40, CAPABILITY = 0x41, TEX_ENV = 0x42, TEX_ENV_COLOR = 0x43,
    DEPTH_FUNC = 0x44, ALPHA_FUNC = 0x45, BLEND_FUNC = 0x46, CULL_FACE = 0x47, FRONT_FACE = 0x48,
    FOG = 0x49, DEPTH_RANGE = 0x4a, TAKE_ERROR = 0x50,
    DRAW_LIST = 0x60, DRAW_ARRAYS = 0x61, DRAW_GUEST = 0x62,
    STACK_SET = 0x70, STACK_PUSH = 0x71, STACK_POP = 0x72, STACK_SHOW = 0x73,
    UNSOUND = 0x7e, DUMP = 0x7f,
}

/// A record: its code and its words.
#[derive(Clone, Debug)]
pub struct Record {
    pub code: u32,
    pub words: Vec<u32>,
}

impl Record {
    /// The words from i on as f32.
    pub fn floats<const N: usize>(&self, i: usize) -> [f32; N] {
        std::array::from_fn(|k| f32::from_bits(self.words[i + k]))
    }

    pub fn float(&self, i: usize) -> f32 {
        self.floats::<1>(i)[0]
    }

    /// The bytes whose number stands in word i; they begin in the next.
    pub fn bytes(&self, i: usize) -> Vec<u8> {
        let mut bytes: Vec<u8> = self.words[i + 1..].iter().flat_map(|w| w.to_le_bytes()).collect();
        bytes.truncate(self.words[i] as usize);
        bytes
    }
}

/// The bytes of a filled area.
pub fn filled(len: u32, seed: u32) -> Vec<u8> {
    let byte = |i: u32| (i.wrapping_mul(2_654_435_761).wrapping_add(seed) >> 24) as u8;
    (0..len).map(byte).collect()
}

/// The records of a trace. None where it is damaged; the words of a record are not looked at.
pub fn read(trace: &[u8]) -> Option<Vec<Record>> {
    let mut words = trace.chunks(4).map(|w| w.try_into().map(u32::from_le_bytes).ok());
    let mut records = Vec::new();
    while let Some(code) = words.next() {
        let code = code.filter(|&code| name(code).is_some())?;
        let n = words.next()??;
        let words = (0..n).map(|_| words.next()?).collect::<Option<Vec<u32>>>()?;
        records.push(Record { code, words });
    }
    Some(records)
}

/// Prints `NAME n n ..`.
pub fn line(page: &mut impl Write, code: u32, numbers: &[u32]) -> io::Result<()> {
    write!(page, "{}", name(code).unwrap_or("?"))?;
    for n in numbers {
        write!(page, " {n}")?;
    }
    writeln!(page)
}

/// Prints the bits of f32, any NaN as 7fc00000.
pub fn floats(page: &mut impl Write, values: &[f32]) -> io::Result<()> {
    let mut line = Vec::with_capacity(9 * values.len());
    for x in values {
        let bits: u32 = if x.is_nan() { 0x7fc0_0000 } else { x.to_bits() };
        line.extend((0..8).rev().map(|i| b"0123456789abcdef"[(bits >> (4 * i) & 15) as usize]));
        line.push(b' ');
    }
    line.pop();
    line.push(b'\n');
    page.write_all(&line)
}

/// What word i of a draw's output holds before the draw.
pub fn mark(i: usize) -> f32 {
    f32::from_bits(0x5ead_0000 + (i as u32 & 0xffff))
}

/// Prints the triangles that a draw put into its output, and the first word besides that it has
/// changed.
pub fn triangles(page: &mut impl Write, out: &[f32], count: usize) -> io::Result<()> {
    for triangle in out.chunks(51).take(count) {
        floats(page, triangle)?;
    }
    let touched = (51 * count..out.len()).find(|&i| out[i].to_bits() != mark(i).to_bits());
    touched.map_or(Ok(()), |i| writeln!(page, "TOUCHED {i}"))
}
