//! The library: calls as words (crates/list_records/specs/Encoding.antt), made by `beonasul_repeat`.

use crate::call::{Call, Draw, Indices, Work, BASE};

pub const STORE: usize = 65_536;

extern "C" {
    // A slice is passed as its pointer and its length.
    fn beonasul_repeat(
        first: *const u32,
        first_len: usize,
        again: *const u32,
        again_len: usize,
        times: u32,
        bytes: *const u8,
        bytes_len: usize,
        store: *mut u8,
        store_len: usize,
        out: *mut f32,
        out_len: usize,
    ) -> usize;
}

pub struct Ours {
    first: Vec<u32>,
    again: Vec<u32>,
    bytes: Vec<u8>,
    store: Vec<u8>,
    pub out: Vec<f32>,
}

impl Ours {
    pub fn new(work: &Work, room: usize) -> Self {
        let mut bytes = work.guest.clone();
        let guest = bytes.len();
        let first = encode(&work.first, guest, room, &mut bytes);
        let again = encode(&work.again, guest, room, &mut bytes);
        Ours { first, again, bytes, store: vec![0; STORE], out: vec![-7.5; room] }
    }

    /// Makes the first calls once and the others so many times.
    pub fn run(&mut self, times: u32) {
        let read =
            call(&self.first, &self.again, times, &self.bytes, &mut self.store, &mut self.out);
        assert_eq!(read, self.first.len(), "the first list was not read whole");
    }

    /// Both lists as one: were all their words read?
    pub fn check(&mut self) {
        let all = [&self.first[..], &self.again[..]].concat();
        let read = call(&all, &[], 0, &self.bytes, &mut self.store, &mut self.out);
        assert_eq!(read, all.len(), "the lists were not read whole");
    }
}

fn call(
    first: &[u32],
    again: &[u32],
    times: u32,
    bytes: &[u8],
    store: &mut [u8],
    out: &mut [f32],
) -> usize {
    let (fp, fl, ap, al) = (first.as_ptr(), first.len(), again.as_ptr(), again.len());
    let (bp, bl, sp, sl) = (bytes.as_ptr(), bytes.len(), store.as_mut_ptr(), store.len());
    unsafe { beonasul_repeat(fp, fl, ap, al, times, bp, bl, sp, sl, out.as_mut_ptr(), out.len()) }
}

fn long(n: usize) -> [u32; 2] {
    [n as u32, (n as u64 >> 32) as u32]
}

fn bits(f: &[f32]) -> Vec<u32> {
    f.iter().map(|x| x.to_bits()).collect()
}

/// Puts data to the bytes that are lent: where they begin, and how many there are.
fn keep(data: &[u8], bytes: &mut Vec<u8>) -> [[u32; 2]; 2] {
    let at = bytes.len();
    bytes.extend(data);
    [long(at), long(data.len())]
}

fn encode(calls: &[Call], guest: usize, room: usize, bytes: &mut Vec<u8>) -> Vec<u32> {
    let mut words = Vec::new();
    for call in calls {
        let (code, arguments) = record(call, guest, room, bytes);
        words.extend([code, arguments.len() as u32]);
        words.extend(arguments);
    }
    words
}

fn record(call: &Call, guest: usize, room: usize, bytes: &mut Vec<u8>) -> (u32, Vec<u32>) {
    match call {
        Call::Mode(mode) => (0x10, vec![*mode]),
        Call::Load(m) => (0x12, bits(m)),
        Call::Push => (0x14, vec![]),
        Call::Pop => (0x15, vec![]),
        Call::Translate(x, y, z) => (0x16, bits(&[*x, *y, *z])),
        Call::Rotate(angle, axis) => {
            let radians = angle.to_radians();
            (0x18, bits(&[&[radians.cos(), radians.sin()], &axis[..]].concat()))
        }
        Call::Frustum(f) => (0x1a, bits(f)),
        Call::Bind(target, name) => (0x21, vec![*target, *name]),
        Call::Data(target, data) => {
            let [at, n] = keep(data, bytes);
            (0x23, [&[*target], &n[..], &[0], &at, &n].concat())
        }
        Call::SubData(target, offset, data) => {
            let [at, n] = keep(data, bytes);
            (0x24, [&[*target, *offset], &at[..], &n].concat())
        }
        Call::VertexPointer(a, b, c, d) => (0x30, vec![*a, *b, *c, *d]),
        Call::ColorPointer(a, b, c, d) => (0x31, vec![*a, *b, *c, *d]),
        Call::TexcoordPointer(a, b, c, d) => (0x33, vec![*a, *b, *c, *d]),
        Call::ClientState(array, on) => (0x34, vec![*array, *on as u32]),
        Call::ClientUnit(unit) => (0x35, vec![*unit]),
        Call::Color(c) => (0x36, bits(c)),
        Call::Coded(code, words) => (*code, words.clone()),
        Call::Draw(draw) => draw_record(draw, guest, room),
    }
}

fn draw_record(draw: &Draw, guest: usize, room: usize) -> (u32, Vec<u32>) {
    let (r, n) = (long(room), long(guest));
    let mut words = vec![draw.mode, draw.stages, r[0], r[1], BASE, 0, 0, n[0], n[1]];
    let code = match &draw.indices {
        Indices::Lent(list) => {
            words.extend(list);
            0x60
        }
        Indices::Range(first, count) => {
            words.extend([*first, *count]);
            0x61
        }
        Indices::Stored(count, ty, pointer) => {
            words.extend([*count, *ty, *pointer]);
            0x62
        }
    };
    (code, words)
}
