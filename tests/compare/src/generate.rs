//! Call lists by seed, heavy on both sides of every limit. A model runs along: it tells what is
//! live and in reach, and a list meant for the domain drops each call answered outside it.

use crate::damage::{damage, nonsense};
use crate::model::{self, Model, ARRAY_TARGET, ELEMENT_TARGET};
use crate::oracle::{host_rotation, zero_axis};
use crate::random::Random;
use crate::trace::{self, op, Record, OUTPUT, STORE};

#[derive(Clone, Copy, Debug, PartialEq)]
pub enum Kind {
    /// In the document's domain: no answer 1 to 6 or 11.
    Inside,
    /// May leave the domain.
    Outside,
    /// Not a trace: the reader must stop.
    Damaged,
}

pub struct List {
    pub kind: Kind,
    pub records: Vec<Record>,
    /// The bytes of a damaged trace.
    pub damaged: Vec<u8>,
}

impl List {
    pub fn bytes(&self) -> Vec<u8> {
        match self.kind {
            Kind::Damaged => self.damaged.clone(),
            _ => trace::write(&self.records),
        }
    }
}

/// List `number` of a seed.
pub fn list(seed: u64, number: u64) -> List {
    let mut random = Random::new(seed, number);
    // Rare, for its size.
    if number % 2000 == 1000 {
        return big(random);
    }
    let kind = match number % 20 {
        19 => Kind::Damaged,
        n if n % 3 == 2 => Kind::Outside,
        _ => Kind::Inside,
    };
    let calls = match kind {
        Kind::Damaged => random.between(5, 25),
        _ => random.between(60, 160),
    };
    let list = make(random, kind, calls, 12);
    match number % 20 {
        18 => spoilt(seed, number, list),
        _ => list,
    }
}

/// The list with some words changed: often damaged, sometimes another list.
fn spoilt(seed: u64, number: u64, list: List) -> List {
    let mut random = Random::new(!seed, number);
    let mut tries = (0..20).filter_map(|_| nonsense(&mut random, &list.records));
    let Some(bytes) = tries.next() else {
        return list;
    };
    match trace::read(&bytes) {
        (records, None) => List { kind: Kind::Outside, records, damaged: Vec::new() },
        (_, Some(_)) => List { kind: Kind::Damaged, records: Vec::new(), damaged: bytes },
    }
}

/// Every bound of the format, reached and not passed.
fn big(random: Random) -> List {
    let mut maker = Maker::new(random, false, 12);
    maker.call(op::META, &[u32::MAX; 16]);
    maker.call(op::FRESH, &[]);
    maker.call(op::STORE_LEN, &[STORE]);
    let area = maker.random_bytes(trace::STORE_AREA as usize);
    maker.put(Record::with_bytes(op::STORE_BYTES, &[0], &area));
    let block = maker.random_bytes(trace::GUEST_BYTES as usize);
    let base = maker.random.pick(&[4, 0u32.wrapping_sub(trace::GUEST_BYTES)]);
    maker.put(Record::with_bytes(op::GUEST, &[base], &block));
    maker.call(op::BIND, &[ARRAY_TARGET, 1]);
    let bytes = maker.random_bytes(trace::UPLOAD as usize);
    maker.put(Record::with_bytes(op::BUFFER_DATA, &[ARRAY_TARGET, 4096, 0, 1], &bytes));
    maker.put(Record::with_bytes(op::BUFFER_SUB_DATA, &[ARRAY_TARGET, 0], &bytes));
    maker.call(op::BIND, &[ARRAY_TARGET, 0]);
    maker.big_draws(base);
    let names: Vec<u32> = (0..trace::ENTRIES).map(|i| i % 7).collect();
    maker.call(op::DELETE, &[&[trace::ENTRIES], &names[..]].concat());
    maker.end();
    List { kind: Kind::Inside, records: maker.records, damaged: Vec::new() }
}

/// The most indices of a draw in a stored sample.
const SAMPLE: usize = 6;

/// A short list in the domain, for stored samples.
pub fn sample(seed: u64, number: u64) -> List {
    let mut random = Random::new(seed, number);
    let calls = random.between(15, 35);
    make(random, Kind::Inside, calls, SAMPLE)
}

fn make(random: Random, kind: Kind, calls: usize, longest: usize) -> List {
    let mut maker = Maker::new(random, kind != Kind::Inside, longest);
    maker.begin();
    while maker.records.len() < calls {
        maker.step();
    }
    maker.end();
    let damaged = match kind {
        Kind::Damaged => damage(&mut maker.random, &maker.records),
        _ => Vec::new(),
    };
    List { kind, records: maker.records, damaged }
}

const ARRAYS: [u32; 4] = [0x8074, 0x8075, 0x8076, 0x8078];
const TYPES: [u32; 6] = [0x1400, 0x1401, 0x1402, 0x1403, 0x1406, 0x140c];
const OTHER_TYPES: [u32; 8] = [0, 0x13ff, 0x1404, 0x1405, 0x1407, 0x140b, 0x140d, u32::MAX];
const FUNCS: [u32; 8] = [0x0200, 0x0201, 0x0202, 0x0203, 0x0204, 0x0205, 0x0206, 0x0207];
const FACTORS: [u32; 11] =
    [0, 1, 0x0300, 0x0301, 0x0302, 0x0303, 0x0304, 0x0305, 0x0306, 0x0307, 0x0308];
const CAPS: [u32; 18] = [
    0x0b71, 0x0bc0, 0x0be2, 0x0b44, 0x0b44, 0x0c11, 0x0de1, 0x0de1, 0x0b60, 0x0b50, 0x0bd0, 0x0ba1,
    0x0b90, 0x0b57, 0x8037, 0x4000, 0x4008, 0x400f,
];
const OTHER_CAPS: [u32; 10] =
    [0x3fff, 0x4010, 0x8038, 0x0b61, 0x0b45, 0x809d, 0, u32::MAX, 0x8074, 0x0de0];
const ENVS: [u32; 6] = [0x2100, 0x1e01, 0x2101, 0x0104, 0x0be2, 0x8570];
const FOGS: [u32; 4] = [0x0b62, 0x0b63, 0x0b64, 0x0b65];

/// How often each group of calls comes.
const WEIGHTS: [[usize; 10]; 5] = [
    // matrix, stack, buffer, array, attribute, setting, error, draw, dump, lent
    [10, 4, 12, 18, 6, 1, 4, 40, 2, 1],
    [12, 8, 16, 16, 8, 8, 6, 18, 3, 2],
    [2, 1, 50, 12, 2, 1, 6, 20, 5, 1],
    [45, 22, 1, 4, 2, 1, 5, 12, 3, 5],
    [2, 1, 2, 4, 12, 60, 8, 5, 6, 1],
];

struct Maker {
    random: Random,
    model: Model,
    records: Vec<Record>,
    outside: bool,
    /// 0 plain numbers, 1 zeros of both signs and subnormals too, 2 all numbers.
    heat: usize,
    weights: [usize; 10],
    /// The most indices of a draw.
    longest: usize,
    /// Sections of a dump that do not show an unsound context's free parts.
    sections: u32,
    names: Vec<u32>,
    slots: [bool; 4],
}

impl Maker {
    fn new(mut random: Random, outside: bool, longest: usize) -> Self {
        let heat = random.pick(&[0, 0, 0, 0, 1, 1, 1, 2, 2]);
        let theme = random.pick(&[0, 0, 0, 0, 1, 1, 1, 2, 2, 3, 4]);
        Maker {
            random,
            model: Model::new(None),
            records: Vec::new(),
            outside,
            heat,
            weights: WEIGHTS[theme],
            longest,
            sections: 31,
            names: Vec::new(),
            slots: [false; 4],
        }
    }

    /// Runs the record and keeps it, unless its answer leaves the domain and may not.
    fn put(&mut self, record: Record) -> u32 {
        let mut text = Vec::new();
        let number = self.model.run(&record, &mut text).expect("a legal record");
        if self.outside || !model::outside(number) {
            self.records.push(record);
        }
        number
    }

    fn pick<T: Copy>(&mut self, from: &[T]) -> T {
        self.random.pick(from)
    }

    fn call(&mut self, op: u32, words: &[u32]) -> u32 {
        self.put(Record::new(op, words))
    }

    fn call_floats(&mut self, op: u32, values: &[f32]) {
        let words: Vec<u32> = values.iter().map(|x| x.to_bits()).collect();
        self.call(op, &words);
    }

    /// Every list stands by itself: it sets all that outlasts FRESH.
    fn begin(&mut self) {
        self.call(op::FRESH, &[]);
        self.call(op::STORE_LEN, &[STORE]);
        if self.random.chance(5) {
            let words = vec![op::DRAW_LIST; self.random.below(17)];
            self.call(op::META, &words);
        }
        if self.random.chance(40) {
            let seed = self.random.word();
            self.call(op::STORE_FILL, &[seed]);
        }
        if self.random.chance(10) {
            let at = self.pick(&[0, 1, 4095, 4096, 65_535, 65_590]);
            let bytes = self.random_bytes(9);
            self.put(Record::with_bytes(op::STORE_BYTES, &[at], &bytes));
        }
        self.guest();
        if self.weights[7] > 10 {
            self.prepare();
        }
    }

    fn end(&mut self) {
        self.call(op::DUMP, &[self.sections]);
        self.call(op::TAKE_ERROR, &[]);
        self.call(op::TAKE_ERROR, &[]);
    }

    fn step(&mut self) {
        if self.outside && self.random.chance(6) {
            return self.leave();
        }
        match self.random.weighted(&self.weights) {
            0 => self.matrix_call(),
            1 => self.stack_calls(),
            2 => self.buffer_call(),
            3 => self.array_call(),
            4 => self.attribute(),
            5 => self.setting(),
            6 => {
                self.call(op::TAKE_ERROR, &[]);
            }
            7 if self.random.chance(3) => self.revive(),
            7 => self.draw(),
            8 => {
                let sections = self.random.word() & self.sections;
                self.call(op::DUMP, &[sections]);
            }
            _ => self.lent(),
        }
        // A stored sample has one FRESH for each list.
        if self.longest > SAMPLE && self.random.chance(1) && self.random.chance(50) {
            self.renew();
        }
    }

    /// A fresh context in the middle of a list.
    fn renew(&mut self) {
        self.call(op::FRESH, &[]);
        self.sections = 31;
        self.prepare();
    }

    // ---- numbers ----

    fn float(&mut self) -> f32 {
        let odds = self.random.below(100);
        match self.heat {
            1 if odds < 35 => self.small(),
            2 if odds < 25 => self.small(),
            2 if odds < 45 => self.wild(),
            _ => self.plain(),
        }
    }

    fn plain(&mut self) -> f32 {
        let whole = self.random.below(17) as f32 - 8.0;
        match self.random.below(4) {
            0 => whole,
            1 => whole / 4.0,
            2 => self.pick(&[0.0, 1.0, -1.0, 0.5, 2.0]),
            _ => (self.random.word() as i32 as f32) / 500_000_000.0,
        }
    }

    /// Zeros of both signs, subnormals and the least and some very great normal numbers.
    fn small(&mut self) -> f32 {
        let bits = self.pick(&[
            0, 0, 0x80000000, 0x80000000, 0x80000000, 1, 0x80000001, 0x007fffff, 0x807fffff,
            0x00800000, 0x80800000, 0x3f800001, 0x5d800000, 0xdd800000,
        ]);
        f32::from_bits(bits)
    }

    fn wild(&mut self) -> f32 {
        let any = self.random.word();
        let bits = self.pick(&[
            0x7f800000, 0xff800000, 0x7fc00000, 0xffc00000, 0x7f800001, 0xffffffff, 0x7f7fffff,
            0xff7fffff, any,
        ]);
        f32::from_bits(bits)
    }

    fn floats<const N: usize>(&mut self) -> [f32; N] {
        std::array::from_fn(|_| self.float())
    }

    /// One of the list, or a code beside it.
    fn code(&mut self, known: &[u32]) -> u32 {
        let code = self.pick(known);
        match self.random.below(16) {
            0 => code.wrapping_add(1),
            1 => code.wrapping_sub(1),
            2 => self.pick(&[0, 7, 0x0500, 0x80000000, u32::MAX]),
            _ => code,
        }
    }

    fn random_bytes(&mut self, length: usize) -> Vec<u8> {
        (0..length).map(|_| self.random.word() as u8).collect()
    }

    /// Array data: floats of the list's heat, small numbers, or any bytes.
    fn blob(&mut self, length: usize) -> Vec<u8> {
        let mut bytes = Vec::new();
        while bytes.len() < length {
            let way = self.random.below(5);
            for _ in 0..8 {
                let word = match way {
                    0..=2 => self.float().to_bits(),
                    3 => self.pick(&[
                        98_304,
                        16_777_217,
                        0x80000000,
                        0x7fffffff,
                        0x80808080,
                        0x7f7f7fff,
                        0x80007fff,
                        0xffff8001,
                        u32::MAX,
                        0xfeffffff,
                    ]),
                    _ => self.random.word(),
                };
                bytes.extend(word.to_le_bytes());
            }
        }
        bytes.truncate(length);
        bytes
    }

    /// Small indices, as bytes or shorts.
    fn index_blob(&mut self, length: usize) -> Vec<u8> {
        let wide = self.random.chance(60);
        let most = self.pick(&[3, 4, 4, 6, 9]);
        (0..length)
            .map(|i| match wide && i % 2 == 1 {
                true => 0,
                false => self.random.below(most) as u8,
            })
            .collect()
    }

    // ---- the guest ----

    /// Arrays first, then 64 bytes of indices.
    fn guest(&mut self) {
        if self.random.chance(8) {
            return self.bare_guest();
        }
        let length = self.pick(&[16, 48, 60, 64, 96, 100, 144, 150, 200, 255]);
        let mut bytes = self.blob(length);
        bytes.extend(self.index_blob(64));
        let top = 0u32.wrapping_sub(bytes.len() as u32);
        let far = self.random.word() % 0xffff0000;
        let base = self.pick(&[0, 1, 4, 0x1000, 0x1001, 0x80000000, far, top, top, top - 1]);
        self.put(Record::with_bytes(op::GUEST, &[base], &bytes));
    }

    /// No bytes, one byte, or a filled block, at either end of the addresses.
    fn bare_guest(&mut self) {
        let length = self.pick(&[0, 0, 1, 2, 300]);
        let top = 0u32.wrapping_sub(length);
        let base = self.pick(&[0, 1, 0x1000, top]);
        let seed = self.random.word();
        self.call(op::GUEST_FILL, &[base, length, seed]);
    }

    // ---- matrices ----

    fn matrix(&mut self) -> [f32; 16] {
        match self.random.below(4) {
            0 => std::array::from_fn(|_| self.float()),
            1 => std::array::from_fn(|_| self.pick(&[0.0, -0.0, 1.0, -1.0])),
            2 => std::array::from_fn(|_| self.pick(&[0.0, -0.0, -0.0, -0.0, 2.0])),
            _ => {
                let mut m = [0.0; 16];
                (0..4).for_each(|i| m[5 * i] = 1.0);
                for _ in 0..self.random.below(5) {
                    m[self.random.below(16)] = self.float();
                }
                m
            }
        }
    }

    fn matrix_call(&mut self) {
        match self.random.below(14) {
            0..=2 => {
                let mode = self.code(&[0x1700, 0x1701, 0x1702]);
                self.call(op::MATRIX_MODE, &[mode]);
            }
            3 => {
                self.call(op::LOAD_IDENTITY, &[]);
            }
            4 | 5 => {
                let m = self.matrix();
                self.call_floats(op::LOAD, &m);
            }
            6 => {
                let m = self.matrix();
                self.call_floats(op::MULT, &m);
            }
            7 => {
                let v = self.floats::<3>();
                self.call_floats(op::TRANSLATE, &v);
            }
            8 => {
                let v = self.floats::<3>();
                self.call_floats(op::SCALE, &v);
            }
            9 | 10 => self.rotate(),
            11 | 12 => self.box_call(op::FRUSTUM),
            _ => self.box_call(op::ORTHO),
        }
    }

    fn rotate(&mut self) {
        let any = self.float();
        let angle = self.pick(&[0.0, 30.0, 45.0, 90.0, 180.0, -60.0, 1e9, any]);
        let axis = match self.random.below(8) {
            0 => [0.0, 0.0, 0.0],
            1 => [-0.0, 0.0, 1e-30],
            2 => [0.0, 0.0, 1.0],
            3 => [0.0, -2.0, 0.0],
            _ => self.floats(),
        };
        let from = [angle, axis[0], axis[1], axis[2]];
        if zero_axis(axis) {
            return self.call_floats(op::ROTATE_ZERO, &from);
        }
        let mut made = host_rotation(from);
        if self.outside && self.random.chance(5) {
            made = std::array::from_fn(|_| match self.random.chance(30) {
                true => self.wild(),
                false => self.float(),
            });
        }
        self.call_floats(op::ROTATE, &[&made[..], &from[..]].concat());
    }

    /// Frustum or ortho, often with one bound spoilt.
    fn box_call(&mut self, op: u32) {
        let mut v = [-1.0, 1.0, -1.0, 1.0, 1.0, 3.0];
        for x in &mut v {
            if self.random.chance(30) {
                *x += self.random.below(9) as f32 / 8.0;
            }
        }
        if self.random.chance(50) {
            let place = self.random.below(6);
            let twin = v[place ^ 1];
            let any = self.float();
            let odd = [
                0.0,
                -0.0,
                -1.0,
                f32::NAN,
                -f32::NAN,
                f32::INFINITY,
                -f32::INFINITY,
                1e-40,
                -1e-40,
                any,
                any,
                twin,
                twin,
                twin,
            ];
            v[place] = self.pick(&odd);
        }
        self.call_floats(op, &v);
    }

    fn stack_calls(&mut self) {
        let pushes = |m: &Model| m.context.stacks[m.context.mode].count;
        match self.random.below(12) {
            0 => {
                let goal = self.random.between(14, 17);
                (0..goal).for_each(|_| {
                    self.call(op::PUSH, &[]);
                });
            }
            1 => {
                let saved = pushes(&self.model) as usize;
                let most = saved.min(16) + 1;
                (0..self.random.between(1, most)).for_each(|_| {
                    self.call(op::POP, &[]);
                });
            }
            2..=6 => {
                self.call(op::POP, &[]);
            }
            _ => {
                self.call(op::PUSH, &[]);
            }
        }
    }

    /// Stacks outside the context.
    fn lent(&mut self) {
        let slot = self.random.below(4);
        if !self.slots[slot] || self.random.chance(30) {
            self.slots[slot] = true;
            self.lend(slot as u32);
        }
        for _ in 0..self.random.between(1, 4) {
            let op = self.pick(&[op::STACK_PUSH, op::STACK_POP, op::STACK_SHOW]);
            if trace::is_call(op) && self.model.store_len != STORE {
                continue;
            }
            self.call(op, &[slot as u32]);
        }
    }

    fn lend(&mut self, slot: u32) {
        let mut count = self.pick(&[0, 0, 1, 2, 14, 15]);
        if self.outside && self.random.chance(40) {
            count = self.pick(&[16, 17, 255, 256, u32::MAX]);
        }
        let mut words = vec![slot, count];
        for _ in 0..=count.min(15) {
            words.extend(self.matrix().map(f32::to_bits));
        }
        self.call(op::STACK_SET, &words);
    }

    // ---- buffers ----

    fn target(&mut self) -> u32 {
        match self.random.below(14) {
            0 => self.pick(&[0, 0x8891, 0x8894, 1, u32::MAX]),
            1..=9 => ARRAY_TARGET,
            _ => ELEMENT_TARGET,
        }
    }

    /// Live, dead, new, 0 or far.
    fn name(&mut self) -> u32 {
        let live: Vec<u32> = self.model.context.buffers.keys().copied().collect();
        let next = self.model.context.next as u32;
        match self.random.below(20) {
            0 | 1 => 0,
            2..=4 if !self.names.is_empty() => self.random.pick(&self.names),
            5 => next,
            6 => self.random.between(1, 30) as u32,
            7 if self.random.chance(12) => {
                self.pick(&[u32::MAX, u32::MAX - 1, u32::MAX - 2, u32::MAX - 17, 1 << 31])
            }
            _ if !live.is_empty() => self.pick(&live),
            _ => self.random.between(1, 4) as u32,
        }
    }

    fn buffer_call(&mut self) {
        match self.random.below(20) {
            0..=1 => {
                let most = 16 - self.model.context.buffers.len() as u32;
                let small = self.random.below(4) as u32;
                let n = self.pick(&[small, small, small, 0, 1, most, most + 1, u32::MAX]);
                self.call(op::GEN, &[n]);
            }
            2..=8 => {
                let (target, name) = (self.target(), self.name());
                self.names.push(name);
                self.call(op::BIND, &[target, name]);
            }
            9..=10 => self.delete(),
            11..=15 => {
                let target = self.target();
                self.data(target);
            }
            _ => {
                let target = self.target();
                self.sub_data(target);
            }
        }
    }

    fn delete(&mut self) {
        let mut names: Vec<u32> = (0..self.random.below(4)).map(|_| self.name()).collect();
        if self.random.chance(20) {
            names.extend(self.model.context.buffers.keys());
        }
        if self.random.chance(20) {
            names.extend(names.clone());
        }
        names.insert(0, names.len() as u32);
        self.call(op::DELETE, &names);
    }

    fn bound(&self, target: u32) -> usize {
        let c = &self.model.context;
        let name = match target {
            ARRAY_TARGET => c.bound_array,
            ELEMENT_TARGET => c.bound_element,
            _ => 0,
        };
        c.buffers.get(&name).map_or(0, |b| b.len())
    }

    fn upload(&mut self, target: u32, length: usize) -> Vec<u8> {
        match target == ELEMENT_TARGET {
            true => self.index_blob(length),
            false => self.blob(length),
        }
    }

    fn data(&mut self, target: u32) {
        let small = self.random.between(1, 150);
        let size = self.pick(&[
            small, small, small, small, small, small, 0, 1, 48, 64, 96, 144, 4095, 4096, 4096,
            4097, 70_000,
        ]);
        let usage = self.pick(&[0x88e4, 0x88e8, 0]);
        let length = match self.random.below(8) {
            0 => size / 2,
            1 => size + 1,
            2 => 0,
            _ => size,
        };
        let length = match self.random.chance(3) {
            true => length.min(trace::UPLOAD as usize),
            false => length.min(160),
        };
        if self.random.chance(12) {
            let words = [target, size as u32, usage, 0];
            self.put(Record::with_bytes(op::BUFFER_DATA, &words, &[]));
            return;
        }
        let bytes = self.upload(target, length);
        let words = [target, size as u32, usage, 1];
        self.put(Record::with_bytes(op::BUFFER_DATA, &words, &bytes));
    }

    fn sub_data(&mut self, target: u32) {
        let size = self.bound(target);
        let length = self.pick(&[0, 0, 1, 2, 3, 4, 8, 13, size, size + 1]).min(64);
        let last = size.saturating_sub(length);
        let inside = self.random.below(last + 1);
        let at = self.pick(&[inside, inside, inside, 0, last, last, last + 1, size, size + 1]);
        let mut at = at as u32;
        if self.random.chance(5) {
            at = self.pick(&[u32::MAX, u32::MAX - length as u32, 0x80000000]);
        }
        let bytes = self.upload(target, length);
        self.put(Record::with_bytes(op::BUFFER_SUB_DATA, &[target, at], &bytes));
    }

    // ---- arrays and attributes ----

    /// A vertex array that can be drawn from, and often colours and coordinates.
    fn prepare(&mut self) {
        if self.random.chance(50) {
            self.call(op::BIND, &[ARRAY_TARGET, 1]);
            self.data(ARRAY_TARGET);
        }
        if self.random.chance(30) {
            self.call(op::BIND, &[ELEMENT_TARGET, 2]);
            self.data(ELEMENT_TARGET);
        }
        self.pointer(op::VERTEX_POINTER);
        self.call(op::CLIENT_STATE, &[0x8074, 1]);
        if self.random.chance(60) {
            self.pointer(op::COLOR_POINTER);
            self.call(op::CLIENT_STATE, &[0x8076, 1]);
        }
        for unit in 0..4 {
            if self.random.chance(40) {
                self.call(op::CLIENT_UNIT, &[unit]);
                self.pointer(op::TEXCOORD_POINTER);
                self.call(op::CLIENT_STATE, &[0x8078, 1]);
            }
        }
    }

    fn array_call(&mut self) {
        match self.random.below(12) {
            0..=3 => self.pointer(op::VERTEX_POINTER),
            4 | 5 => self.pointer(op::COLOR_POINTER),
            6 => self.pointer(op::NORMAL_POINTER),
            7 | 8 => self.pointer(op::TEXCOORD_POINTER),
            9 => {
                let unit = self.pick(&[0, 1, 2, 3, 3, 4, u32::MAX]);
                self.call(op::CLIENT_UNIT, &[unit]);
            }
            _ => {
                let array = self.code(&ARRAYS);
                let on = self.random.chance(85) as u32;
                self.call(op::CLIENT_STATE, &[array, on]);
            }
        }
    }

    fn pointer(&mut self, op: u32) {
        let kind = match self.random.below(12) {
            0 if self.random.chance(40) => self.pick(&OTHER_TYPES),
            1..=5 => 0x1406,
            _ => self.pick(&TYPES),
        };
        let width = width(kind).unwrap_or(4);
        let size = match self.random.below(30) {
            0 | 1 => 0,
            2 => 5,
            3 => 6,
            4 if self.random.chance(30) => {
                self.pick(&[0x3fffffff, 0x40000000, 0x7fffffff, 0x80000000, u32::MAX])
            }
            _ => self.random.between(1, 4) as u32,
        };
        let size = if op == op::NORMAL_POINTER { 3 } else { size };
        let packed = width.wrapping_mul(size);
        let stride = self.stride(packed);
        let pointer = self.place(packed);
        if op == op::NORMAL_POINTER {
            self.call(op, &[kind, stride, pointer]);
        } else {
            self.call(op, &[size, kind, stride, pointer]);
        }
    }

    fn stride(&mut self, packed: u32) -> u32 {
        match self.random.below(24) {
            0..=9 => 0,
            10..=13 => packed,
            14 => packed.wrapping_add(1),
            15 => packed / 2,
            16 => self.pick(&[1, 3, 5, 7]),
            17 => self.random.between(1, 40) as u32,
            18 if self.random.chance(30) => {
                self.pick(&[0x55555555, 0x55555556, 0x80000000, u32::MAX])
            }
            _ => packed.wrapping_add(self.pick(&[0, 4, 8])),
        }
    }

    /// Near the beginning of the source, or around its last element.
    fn place(&mut self, packed: u32) -> u32 {
        let stored = self.model.context.bound_array != 0;
        let (start, length) = match stored {
            true => (0, self.bound(ARRAY_TARGET) as u32),
            false => (self.model.base, self.model.guest.len() as u32),
        };
        let last = length.saturating_sub(packed);
        let small = self.random.below(24) as u32;
        let offset = match self.random.below(20) {
            0 => last,
            1 => last + 1,
            2 => last.saturating_sub(packed),
            3 => length,
            4 => length + 1,
            5 => u32::MAX,
            6 | 7 => self.random.below(last.min(4096) as usize + 1) as u32,
            8..=12 => 4 * (small / 4),
            13 => small,
            _ => 0,
        };
        let place = start.wrapping_add(offset);
        match self.random.below(40) {
            0 => 0,
            1 => u32::MAX - self.random.below(20) as u32,
            // A pointer of 0 without a buffer is never tried: mostly stay clear of it.
            _ if place == 0 && !stored && self.random.chance(70) => 4,
            _ => place,
        }
    }

    fn attribute(&mut self) {
        if self.random.chance(40) {
            let color = self.floats::<4>();
            return self.call_floats(op::COLOR, &color);
        }
        let code = self.pick(&[
            0x84c0,
            0x84c1,
            0x84c2,
            0x84c3,
            0x84c3,
            0x84c4,
            0x84bf,
            0,
            3,
            0x84d0,
            u32::MAX,
        ]);
        let [s, t] = self.floats();
        self.call(op::MULTI_TEXCOORD, &[code, s.to_bits(), t.to_bits()]);
    }

    // ---- settings ----

    fn setting(&mut self) {
        match self.random.below(12) {
            0 => {
                let unit = self.pick(&[0, 1, 2, 3, 3, 4, u32::MAX]);
                self.call(op::ACTIVE_UNIT, &[unit]);
            }
            1 | 2 => {
                let cap = match self.random.chance(80) {
                    true => self.pick(&CAPS),
                    false => self.pick(&OTHER_CAPS),
                };
                let on = self.random.below(2) as u32;
                self.call(op::CAPABILITY, &[cap, on]);
            }
            3 => {
                let pname = self.pick(&[0x2200, 0x2200, 0x2200, 0x2201, 0x21ff, 0]);
                let value = self.code(&ENVS);
                self.call(op::TEX_ENV, &[pname, value]);
            }
            4 => {
                let color = self.floats::<4>();
                self.call_floats(op::TEX_ENV_COLOR, &color);
            }
            5 => {
                let func = self.code(&FUNCS);
                self.call(op::DEPTH_FUNC, &[func]);
            }
            6 => {
                let (func, reference) = (self.code(&FUNCS), self.fraction());
                self.call(op::ALPHA_FUNC, &[func, reference.to_bits()]);
            }
            7 => {
                let (source, destination) = (self.code(&FACTORS), self.code(&FACTORS));
                self.call(op::BLEND_FUNC, &[source, destination]);
            }
            8 => {
                let face = self.code(&[0x0404, 0x0405, 0x0408]);
                self.call(op::CULL_FACE, &[face]);
            }
            9 => {
                let face = self.code(&[0x0900, 0x0901]);
                self.call(op::FRONT_FACE, &[face]);
            }
            10 => self.fog(),
            _ => {
                let (near, far) = (self.fraction(), self.fraction());
                self.call_floats(op::DEPTH_RANGE, &[near, far]);
            }
        }
    }

    /// A number around 0 to 1, or any.
    fn fraction(&mut self) -> f32 {
        let any = match self.random.chance(50) {
            true => self.wild(),
            false => self.small(),
        };
        let below_one = f32::from_bits(0x3f7fffff);
        let values = [0.0, -0.0, 0.25, 1.0, below_one, 1.5, -0.5, f32::NAN, any, any];
        self.pick(&values)
    }

    fn fog(&mut self) {
        let pname = self.code(&FOGS);
        let any = self.wild();
        let values = [
            2048.0, 2048.9, 2049.0, 2049.5, 9729.0, 9729.9, 2047.9, 2050.0, 9728.9, 9730.0,
            -2048.0, 4.3e9, any,
        ];
        let mut value = self.pick(&values);
        if pname != 0x0b65 {
            value = self.fraction();
        }
        self.call(op::FOG, &[pname, value.to_bits()]);
    }

    // ---- draws ----

    /// Gives the vertex array something to read, if there is anything.
    fn mend(&mut self) {
        let stored = self.model.context.bound_array != 0;
        if stored && self.bound(ARRAY_TARGET) < 48 {
            let size = self.random.between(48, 150);
            let bytes = self.blob(size);
            let words = [ARRAY_TARGET, size as u32, 0, 1];
            self.put(Record::with_bytes(op::BUFFER_DATA, &words, &bytes));
        }
        let kind = self.pick(&TYPES);
        let size = self.random.between(1, 4) as u32;
        let packed = width(kind).unwrap_or(4) * size;
        let stride = self.pick(&[0, 0, packed, packed + 1, 5]);
        let start = if stored { 0 } else { self.model.base.max(1) };
        self.call(op::VERTEX_POINTER, &[size, kind, stride, start]);
        self.call(op::CLIENT_STATE, &[0x8074, 1]);
    }

    /// An array whose buffer is deleted, made again and filled again.
    fn revive(&mut self) {
        let name = self.random.between(1, 5) as u32;
        let pointer = self.pick(&[op::VERTEX_POINTER, op::VERTEX_POINTER, op::COLOR_POINTER]);
        self.call(op::BIND, &[ARRAY_TARGET, name]);
        self.data(ARRAY_TARGET);
        self.pointer(pointer);
        self.call(op::CLIENT_STATE, &[0x8074, 1]);
        self.call(op::CLIENT_STATE, &[0x8076, 1]);
        self.draw_list();
        self.call(op::DELETE, &[1, name]);
        self.draw_list();
        self.call(op::BIND, &[ARRAY_TARGET, name]);
        self.draw_list();
        self.data(ARRAY_TARGET);
        self.draw_list();
    }

    /// How many elements of the vertex array can be fetched.
    fn reach(&self) -> u64 {
        let a = &self.model.context.arrays[0];
        let Some(width) = width(a.kind) else {
            return 0;
        };
        let packed = width as u64 * a.size as u64;
        let (offset, length) = match self.model.context.buffers.get(&a.buffer) {
            Some(buffer) => (Some(a.pointer), buffer.len() as u64),
            None if a.buffer != 0 => return 0,
            None => (a.pointer.checked_sub(self.model.base), self.model.guest.len() as u64),
        };
        let Some(offset) = offset else {
            return 0;
        };
        if offset as u64 + packed > length {
            return 0;
        }
        let stride = if a.stride == 0 { packed } else { a.stride as u64 };
        match stride {
            0 => u32::MAX as u64,
            _ => (length - offset as u64 - packed) / stride + 1,
        }
    }

    fn draw(&mut self) {
        if self.reach() < 3 && self.random.chance(60) && self.model.store_len == STORE {
            self.mend();
        }
        match self.random.below(10) {
            0..=3 => self.draw_list(),
            4..=6 => self.draw_arrays(),
            _ => self.draw_guest(),
        }
    }

    fn mode(&mut self) -> u32 {
        match self.random.below(20) {
            0 | 1 => self.random.below(4) as u32,
            2 => self.pick(&[7, 8, 0x1404, u32::MAX]),
            _ => self.random.between(4, 6) as u32,
        }
    }

    fn mask(&mut self) -> u32 {
        if self.outside && self.random.chance(3) {
            return self.pick(&[16, 17, 0x1f, 0x80000000, u32::MAX]);
        }
        self.pick(&[0, 1, 2, 4, 8, 15, 15, 3, 5, 6, 10, 12, 9, 7, 11, 13, 14])
    }

    /// Chooses the output's length by what the draw makes.
    fn finish(&mut self, mut record: Record) {
        record.words[2] = OUTPUT;
        let need = 51 * self.model.draw(&record).triangles.len() as u32;
        let more = self.random.below(200) as u32;
        let mut room = self.pick(&[need, need, need + 1, need + 50, need + 51, need + more]);
        if self.outside && need > 0 && self.random.chance(8) {
            room = self.pick(&[need - 1, need - 51, 0, need - 50]);
        }
        record.words[2] = room;
        self.put(record);
    }

    fn draw_list(&mut self) {
        let reach = self.reach();
        let count = self.random.below(self.longest + 1);
        let most = reach.clamp(1, 64) as usize;
        let mut indices: Vec<u32> = (0..count).map(|_| self.random.below(most) as u32).collect();
        if reach > 64 && self.random.chance(30) {
            indices.iter_mut().for_each(|i| *i = u32::MAX - *i);
        }
        if count > 0 && self.random.chance(10) {
            let place = self.pick(&[0, count - 1, count / 2]);
            let edge = reach.min(u32::MAX as u64) as u32;
            let odd = [edge, edge, edge.wrapping_sub(1), u32::MAX, 0x80000000, 0x40000000];
            indices[place] = self.pick(&odd);
        }
        let mut words = vec![self.mode(), self.mask(), 0, count as u32];
        words.extend(indices);
        self.finish(Record::new(op::DRAW_LIST, &words));
    }

    fn draw_arrays(&mut self) {
        let reach = self.reach();
        let enabled = self.model.context.arrays[0].enabled;
        let count = self.random.below(self.longest + 1) as u64;
        let mut first = self.pick(&[0, 0, 0, 1, 2, 3]);
        let mut count = match self.random.below(8) {
            0 => reach.saturating_sub(first).min(24),
            1 => reach.saturating_sub(first).min(24) + 1,
            2 => count,
            _ => count.min(reach.saturating_sub(first)),
        } as u32;
        let everywhere = reach >= u32::MAX as u64;
        if self.random.chance(if everywhere { 50 } else { 3 }) {
            let back = self.random.below(6) as u64;
            first = u32::MAX as u64 - back;
            count = self.pick(&[0, 1, 2, 3, 4, 5, 6, 7, u32::MAX]);
        }
        if !enabled && self.random.chance(30) {
            count = self.pick(&[u32::MAX, 16_385, 0x80000000]);
        }
        let words = [self.mode(), self.mask(), 0, first as u32, count];
        self.finish(Record::new(op::DRAW_ARRAYS, &words));
    }

    fn draw_guest(&mut self) {
        let stored = self.model.context.bound_element != 0;
        let kind = match self.random.below(20) {
            0 => self.pick(&[0x1400, 0x1402, 0x1404, 0x1405, 0x1406, 0, u32::MAX]),
            1..=9 => 0x1401,
            _ => 0x1403,
        };
        let width = if kind == 0x1403 { 2 } else { 1 };
        let (start, length) = match stored {
            true => (0, self.bound(ELEMENT_TARGET) as u32),
            false => (self.model.base, self.model.guest.len() as u32),
        };
        let mut count = self.random.below(self.longest + 1) as u32;
        let indices = if stored { 0 } else { length.saturating_sub(64) };
        let last = length.saturating_sub(width * count);
        let small = 2 * self.random.below(8) as u32;
        let offset = match self.random.below(16) {
            0 => last,
            1 => last + 1,
            2 => length,
            3 => length + 1,
            4 => u32::MAX,
            5 => 0,
            _ => (indices + small).min(last),
        };
        if self.random.chance(5) {
            count = self.pick(&[0, 0, 0x7fffffff, 0x80000000, u32::MAX]);
        }
        let pointer = start.wrapping_add(offset);
        let words = [self.mode(), self.mask(), 0, count, kind, pointer];
        self.finish(Record::new(op::DRAW_GUEST, &words));
    }

    /// Draws of 16,384 indices.
    fn big_draws(&mut self, base: u32) {
        let count = trace::ENTRIES;
        // An element of one byte: indices reach far.
        self.call(op::VERTEX_POINTER, &[1, 0x1401, 0, base]);
        self.call(op::CLIENT_STATE, &[0x8074, 1]);
        let far = trace::GUEST_BYTES - count;
        self.call(op::DRAW_ARRAYS, &[4, 0, OUTPUT, far, count]);
        let indices: Vec<u32> = (0..count).map(|_| self.random.below(4000) as u32).collect();
        let head = [self.pick(&[4, 5, 6]), 5, OUTPUT, count];
        self.call(op::DRAW_LIST, &[&head[..], &indices[..]].concat());
        let at = base + trace::GUEST_BYTES - 2 * count;
        self.call(op::DRAW_GUEST, &[4, 0, OUTPUT, count, 0x1403, at]);
        self.call(op::DRAW_GUEST, &[7, 0, OUTPUT, count, 0x1403, at.wrapping_add(1)]);
    }

    // ---- out of the domain ----

    fn leave(&mut self) {
        match self.random.below(12) {
            0 | 1 => self.wrong_store(),
            2 | 3 => self.wrong_guest(),
            4 => self.many_names(),
            5 => self.far_names(),
            6 => {
                self.call(op::BIND, &[ARRAY_TARGET, 1]);
                let size = self.pick(&[4096, 4097, 8192, u32::MAX]);
                self.put(Record::with_bytes(op::BUFFER_DATA, &[ARRAY_TARGET, size, 0, 1], &[7; 5]));
            }
            7 => {
                self.prepare();
                (0..3).for_each(|_| self.draw());
            }
            8 => self.lent(),
            9 if self.random.chance(40) => self.unsound(),
            10 => self.guest(),
            _ => self.draw(),
        }
    }

    /// Calls lent a store of another length.
    fn wrong_store(&mut self) {
        let length = self.pick(&[0, 1, 4096, 65_535, 65_537, 65_600]);
        self.call(op::STORE_LEN, &[length]);
        for _ in 0..self.random.between(1, 4) {
            let target = self.target();
            match self.random.below(4) {
                0 => self.data(target),
                1 => self.sub_data(target),
                _ => self.draw(),
            }
        }
        self.call(op::STORE_LEN, &[STORE]);
    }

    /// A guest view at, and one byte past, the end of the addresses.
    fn wrong_guest(&mut self) {
        let kept = self.model.base;
        let length = self.model.guest.len() as u32;
        let top = 0u32.wrapping_sub(length);
        if length > 1 {
            let base = self.pick(&[top, top + 1, u32::MAX]);
            self.call(op::GUEST_BASE, &[base]);
        }
        self.pointer(op::VERTEX_POINTER);
        (0..2).for_each(|_| self.draw());
        self.call(op::GUEST_BASE, &[kept]);
    }

    /// 15, 16 and 17 names.
    fn many_names(&mut self) {
        let live = self.model.context.buffers.len() as u32;
        let left = 16u32.saturating_sub(live);
        let n = self.pick(&[left, left + 1, left.saturating_sub(1)]);
        self.call(op::GEN, &[n]);
        for _ in 0..3 {
            let (target, any) = (self.target(), self.name());
            let fresh = self.model.context.next as u32;
            let name = self.pick(&[fresh, any]);
            self.call(op::BIND, &[target, name]);
        }
        self.call(op::GEN, &[1]);
    }

    fn far_names(&mut self) {
        let far = self.pick(&[u32::MAX, u32::MAX - 1, u32::MAX - 2, u32::MAX - 3]);
        let target = self.target();
        self.call(op::BIND, &[target, far]);
        for _ in 0..3 {
            let n = self.random.below(4) as u32;
            self.call(op::GEN, &[n]);
        }
    }

    /// Every later call answers 1, until FRESH.
    fn unsound(&mut self) {
        if !self.model.context.sound {
            return;
        }
        if self.model.context.buffers.is_empty() {
            self.call(op::BIND, &[ARRAY_TARGET, 3]);
        }
        let kind = self.random.between(1, 12) as u32;
        self.call(op::UNSOUND, &[kind]);
        // Which values make it so is the driver's choice: those sections are not shown.
        self.sections = match kind {
            1..=3 => 30,
            6..=8 => 27,
            11 | 12 => 29,
            _ => 31,
        };
        let weights = [10; 10];
        for _ in 0..self.random.between(5, 30) {
            let kept = std::mem::replace(&mut self.weights, weights);
            self.step();
            self.weights = kept;
        }
        self.renew();
    }
}

fn width(kind: u32) -> Option<u32> {
    match kind {
        0x1400 | 0x1401 => Some(1),
        0x1402 | 0x1403 => Some(2),
        0x1406 | 0x140c => Some(4),
        _ => None,
    }
}
