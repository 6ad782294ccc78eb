//! A model of the vertex front end, written from document 01. It answers every trace, in the
//! domain or not. A planted fault spoils one of its rules.

use crate::answer::{self, Text};
use crate::faults::Fault;
use crate::trace::{self, name, op, Record, STORE};
use std::collections::BTreeMap;

pub type Matrix = [f32; 16];
pub type Triangle = [f32; 51];

const IDENTITY: Matrix =
    [1.0, 0.0, 0.0, 0.0, 0.0, 1.0, 0.0, 0.0, 0.0, 0.0, 1.0, 0.0, 0.0, 0.0, 0.0, 1.0];

/// The greatest number of 32 bits.
pub const MOST: u64 = u32::MAX as u64;

/// Numbers of the answers from 0x0500.
const ENUM: u32 = 0x0500;
const VALUE: u32 = 0x0501;
const OPERATION: u32 = 0x0502;
const OVERFLOW: u32 = 0x0503;
const UNDERFLOW: u32 = 0x0504;

pub const ARRAY_TARGET: u32 = 0x8892;
pub const ELEMENT_TARGET: u32 = 0x8893;
const UNIT_0: u32 = 0x84c0;

/// A stack; `count` is what it says of itself, more than it holds if it is unsound.
#[derive(Clone)]
pub struct Stack {
    pub current: Matrix,
    pub saved: Vec<Matrix>,
    pub count: u32,
}

#[derive(Clone, Copy)]
pub struct Array {
    pub enabled: bool,
    pub size: u32,
    pub kind: u32,
    pub stride: u32,
    pub pointer: u32,
    pub buffer: u32,
}

/// Settings by their enumerants.
#[derive(Clone)]
pub struct Pipeline {
    depth: bool,
    alpha: bool,
    blend: bool,
    cull: bool,
    fog: bool,
    depth_func: u32,
    alpha_func: u32,
    source: u32,
    destination: u32,
    cull_face: u32,
    front_face: u32,
    fog_mode: u32,
    reference: f32,
    density: f32,
    start: f32,
    end: f32,
    near: f32,
    far: f32,
    textured: [bool; 4],
    env: [u32; 4],
    env_color: [[f32; 4]; 4],
}

/// Arrays: 0 vertices, 1 colours, 2 normals, 3 to 6 the units. Stacks: modelview, projection, texture.
#[derive(Clone)]
pub struct Context {
    pub sound: bool,
    pub mode: usize,
    pub stacks: [Stack; 3],
    pub buffers: BTreeMap<u32, Vec<u8>>,
    pub next: u64,
    pub bound_array: u32,
    pub bound_element: u32,
    pub arrays: [Array; 7],
    pub client: u32,
    pub active: u32,
    pub color: [f32; 4],
    pub pairs: [[f32; 2]; 4],
    pub pipeline: Pipeline,
    pub slot: u32,
}

/// The context and what the driver of a trace holds beside it.
#[derive(Clone)]
pub struct Model {
    pub fault: Option<Fault>,
    pub context: Context,
    pub store_len: u32,
    pub base: u32,
    pub guest: Vec<u8>,
    pub lent: [Stack; 4],
}

/// A draw's answer; `touched` is a word of the output changed without leave.
pub struct Drawn {
    pub number: u32,
    pub triangles: Vec<Triangle>,
    pub touched: Option<u32>,
}

fn fresh_stack() -> Stack {
    Stack { current: IDENTITY, saved: Vec::new(), count: 0 }
}

fn fresh_pipeline() -> Pipeline {
    Pipeline {
        depth: false,
        alpha: false,
        blend: false,
        cull: false,
        fog: false,
        depth_func: 0x0201,
        alpha_func: 0x0207,
        source: 1,
        destination: 0,
        cull_face: 0x0405,
        front_face: 0x0901,
        fog_mode: 0x0800,
        reference: 0.0,
        density: 1.0,
        start: 0.0,
        end: 1.0,
        near: 0.0,
        far: 1.0,
        textured: [false; 4],
        env: [0x2100; 4],
        env_color: [[0.0; 4]; 4],
    }
}

fn fresh() -> Context {
    let array = Array { enabled: false, size: 4, kind: 0x1406, stride: 0, pointer: 0, buffer: 0 };
    Context {
        sound: true,
        mode: 0,
        stacks: [fresh_stack(), fresh_stack(), fresh_stack()],
        buffers: BTreeMap::new(),
        next: 1,
        bound_array: 0,
        bound_element: 0,
        arrays: [array; 7],
        client: 0,
        active: 0,
        color: [1.0; 4],
        pairs: [[0.0; 2]; 4],
        pipeline: fresh_pipeline(),
        slot: 0,
    }
}

/// Is this number outside the domain?
pub fn outside(number: u32) -> bool {
    (1..=6).contains(&number) || number == 11
}

/// All answers to a trace.
pub fn answers(bytes: &[u8], fault: Option<Fault>) -> Text {
    let (records, stop) = trace::read(bytes);
    let mut out = Text::new();
    let mut model = Model::new(fault);
    for (i, record) in records.iter().enumerate() {
        if let Err(reason) = model.run(record, &mut out) {
            answer::stop(&mut out, i, reason);
            return out;
        }
    }
    if let Some(stop) = stop {
        answer::stop(&mut out, stop.record, stop.reason);
    }
    out
}

impl Model {
    pub fn new(fault: Option<Fault>) -> Self {
        Model {
            fault,
            context: fresh(),
            store_len: STORE,
            base: 0,
            guest: Vec::new(),
            lent: std::array::from_fn(|_| fresh_stack()),
        }
    }

    fn is(&self, fault: Fault) -> bool {
        self.fault == Some(fault)
    }

    /// The spoilt value or the right one.
    fn either<T>(&self, fault: Fault, spoilt: T, right: T) -> T {
        if self.is(fault) {
            spoilt
        } else {
            right
        }
    }

    /// Runs a record and prints its answer. Gives the call's number, 0 for a setting, or the reason
    /// why the trace may not hold this record here.
    pub fn run(&mut self, r: &Record, out: &mut Text) -> Result<u32, &'static str> {
        self.permitted(r)?;
        let w = &r.words;
        match r.op {
            op::META | op::STORE_FILL | op::STORE_BYTES => {}
            op::FRESH => {
                self.context = fresh();
                answer::line(out, "FRESH", &[0]);
            }
            op::STORE_LEN => self.store_len = w[0],
            op::GUEST => (self.base, self.guest) = (w[0], r.bytes(1)),
            op::GUEST_FILL => (self.base, self.guest) = (w[0], trace::fill(w[1], w[2])),
            op::GUEST_BASE => self.base = w[0],
            op::STACK_SET => self.stack_set(r),
            op::STACK_SHOW => show_stack(out, "STACK_SHOW", &[], &self.lent[w[0] as usize]),
            op::STACK_PUSH | op::STACK_POP => return Ok(self.lent_call(r, out)),
            op::UNSOUND => self.unsound(w[0], out),
            op::DUMP => self.dump(w[0], out),
            op::GEN => return Ok(self.gen_call(w[0], out)),
            op::TAKE_ERROR => return Ok(self.take_error(out)),
            op::DRAW_LIST | op::DRAW_ARRAYS | op::DRAW_GUEST => return Ok(self.draw_call(r, out)),
            _ => {
                let number = self.call(r);
                self.note(number);
                answer::line(out, name(r.op), &[number]);
                return Ok(number);
            }
        }
        Ok(0)
    }

    /// What the format asks of a trace beyond its single records.
    fn permitted(&self, r: &Record) -> Result<(), &'static str> {
        let w = &r.words;
        let lives = !self.context.buffers.is_empty();
        let lent = matches!(r.op, op::BUFFER_DATA | op::BUFFER_SUB_DATA) || trace::is_draw(r.op);
        if self.store_len != STORE && trace::is_call(r.op) && !lent {
            return Err("a call that is not lent the store");
        }
        match r.op {
            op::STORE_FILL | op::STORE_BYTES if lives => Err("a buffer lives"),
            op::UNSOUND if !lives => Err("no buffer lives"),
            op::DRAW_ARRAYS if self.context.arrays[0].enabled => {
                let end = (w[3] as u64 + w[4] as u64).min(MOST);
                bound(end - w[3] as u64)
            }
            op::DRAW_GUEST => match self.guest_indices(w[3], w[4], w[5]) {
                Ok(_) => bound(w[3] as u64),
                Err(_) => Ok(()),
            },
            _ => Ok(()),
        }
    }

    /// Only codes from 0x0500 enter the slot, and only while it is empty.
    fn note(&mut self, number: u32) {
        let free = self.context.slot == 0 || self.is(Fault::SlotKeepsLast);
        if number >= ENUM && free {
            self.context.slot = number;
        }
        if number != 0 && number < ENUM && self.is(Fault::SlotTakesSmall) && free {
            self.context.slot = number;
        }
    }

    fn take_error(&mut self, out: &mut Text) -> u32 {
        let number = if self.context.sound { 0 } else { 1 };
        let code = if number == 0 { self.context.slot } else { 0 };
        if number == 0 && !self.is(Fault::SlotNotEmptied) {
            self.context.slot = 0;
        }
        answer::line(out, "TAKE_ERROR", &[number, code]);
        number
    }

    fn gen_call(&mut self, n: u32, out: &mut Text) -> u32 {
        let (number, first) = self.generate(n);
        self.note(number);
        answer::line(out, "GEN", &[number, first]);
        number
    }

    fn draw_call(&mut self, r: &Record, out: &mut Text) -> u32 {
        let drawn = self.draw(r);
        self.note(drawn.number);
        answer::line(out, name(r.op), &[drawn.number, drawn.triangles.len() as u32]);
        for triangle in &drawn.triangles {
            answer::triangle(out, triangle);
        }
        if let Some(i) = drawn.touched {
            answer::line(out, "TOUCHED", &[i]);
        }
        drawn.number
    }

    /// Calls whose answer is a number alone.
    fn call(&mut self, r: &Record) -> u32 {
        if !self.context.sound {
            return 1;
        }
        let w = &r.words;
        match r.op {
            op::MATRIX_MODE => self.matrix_mode(w[0]),
            op::LOAD_IDENTITY => self.load(IDENTITY),
            op::LOAD => self.load(r.floats(0)),
            op::MULT => self.mult(r.floats(0)),
            op::PUSH => self.push(),
            op::POP => self.pop(),
            op::TRANSLATE => self.mult(translation(r.floats(0))),
            op::SCALE => self.mult(scaling(r.floats(0))),
            op::ROTATE => self.mult(self.rotation(r.floats(0))),
            op::ROTATE_ZERO if self.is(Fault::ZeroAxisSkipped) => 0,
            op::ROTATE_ZERO => self.mult(IDENTITY),
            op::FRUSTUM => self.frustum(r.floats(0)),
            op::ORTHO => self.ortho(r.floats(0)),
            op::BIND => self.bind(w[0], w[1]),
            op::DELETE => self.delete(&w[1..]),
            op::BUFFER_DATA => self.buffer_data(w[0], w[1], &r.bytes(4)),
            op::BUFFER_SUB_DATA => self.buffer_sub_data(w[0], w[1], &r.bytes(2)),
            op::VERTEX_POINTER => self.pointer(0, [w[0], w[1], w[2], w[3]]),
            op::COLOR_POINTER => self.pointer(1, [w[0], w[1], w[2], w[3]]),
            op::NORMAL_POINTER => self.pointer(2, [3, w[0], w[1], w[2]]),
            op::TEXCOORD_POINTER => self.pointer(self.unit_array(), [w[0], w[1], w[2], w[3]]),
            op::CLIENT_STATE => self.client_state(w[0], w[1] == 1),
            op::CLIENT_UNIT => unit(&mut self.context.client, w[0]),
            op::ACTIVE_UNIT => unit(&mut self.context.active, w[0]),
            op::COLOR => {
                self.context.color = r.floats(0);
                0
            }
            op::MULTI_TEXCOORD => self.multi_texcoord(w[0], r.floats(1)),
            _ => self.setting(r),
        }
    }

    // ---- matrices ----

    fn matrix_mode(&mut self, mode: u32) -> u32 {
        if !(0x1700..=0x1702).contains(&mode) {
            return ENUM;
        }
        self.context.mode = (mode - 0x1700) as usize;
        0
    }

    fn stack(&mut self) -> &mut Stack {
        &mut self.context.stacks[self.context.mode]
    }

    fn load(&mut self, m: Matrix) -> u32 {
        self.stack().current = m;
        0
    }

    /// Multiplies on the right.
    fn mult(&mut self, m: Matrix) -> u32 {
        let current = self.stack().current;
        self.stack().current = if self.is(Fault::MultOnTheLeft) {
            self.product(&m, &current)
        } else {
            self.product(&current, &m)
        };
        0
    }

    /// Each entry's sum starts at +0.0.
    fn product(&self, a: &Matrix, b: &Matrix) -> Matrix {
        let mut result = [0.0; 16];
        for col in 0..4 {
            for row in 0..4 {
                let term = |k: usize| a[4 * k + row] * b[4 * col + k];
                result[4 * col + row] = if self.is(Fault::MultiplyStart) {
                    term(0) + term(1) + term(2) + term(3)
                } else {
                    0.0 + term(0) + term(1) + term(2) + term(3)
                };
            }
        }
        result
    }

    /// The sum starts with its first product.
    fn transform(&self, m: &Matrix, v: [f32; 4]) -> [f32; 4] {
        let start = self.is(Fault::TransformStart);
        let pairs = self.is(Fault::TransformInPairs);
        std::array::from_fn(|row| {
            let term = |k: usize| m[4 * k + row] * v[k];
            if start {
                0.0 + term(0) + term(1) + term(2) + term(3)
            } else if pairs {
                (term(0) + term(1)) + (term(2) + term(3))
            } else {
                term(0) + term(1) + term(2) + term(3)
            }
        })
    }

    fn rotation(&self, [c, s, x, y, z]: [f32; 5]) -> Matrix {
        let s = self.either(Fault::RotateSign, -s, s);
        let rest = 1.0 - c;
        let mut m = IDENTITY;
        m[0] = x * x * rest + c;
        m[1] = y * x * rest + z * s;
        m[2] = x * z * rest - y * s;
        m[4] = x * y * rest - z * s;
        m[5] = y * y * rest + c;
        m[6] = y * z * rest + x * s;
        m[8] = x * z * rest + y * s;
        m[9] = y * z * rest - x * s;
        m[10] = z * z * rest + c;
        m
    }

    fn frustum(&mut self, [l, r, b, t, n, f]: [f32; 6]) -> u32 {
        let nan = self.is(Fault::FrustumNan) && (n.is_nan() || f.is_nan());
        if n <= 0.0 || f <= 0.0 || l == r || b == t || n == f || nan {
            return VALUE;
        }
        let (width, height, depth) = (r - l, t - b, f - n);
        let mut m = [0.0; 16];
        m[0] = 2.0 * n / width;
        m[5] = 2.0 * n / height;
        m[8] = (r + l) / width;
        m[9] = (t + b) / height;
        m[10] = -(f + n) / depth;
        m[11] = -1.0;
        m[14] = -2.0 * f * n / depth;
        if self.is(Fault::FrustumSign) {
            m[10] = (f + n) / depth;
        }
        self.mult(m)
    }

    fn ortho(&mut self, [l, r, b, t, n, f]: [f32; 6]) -> u32 {
        let like_frustum = self.is(Fault::OrthoNear) && (n <= 0.0 || f <= 0.0);
        if l == r || b == t || n == f || like_frustum {
            return VALUE;
        }
        let (width, height, depth) = (r - l, t - b, f - n);
        let mut m = IDENTITY;
        (m[0], m[5], m[10]) = (2.0 / width, 2.0 / height, -2.0 / depth);
        (m[12], m[13]) = (-(r + l) / width, -(t + b) / height);
        m[14] = -(f + n) / depth;
        self.mult(m)
    }

    fn push(&mut self) -> u32 {
        let limit = self.either(Fault::SixteenPushes, 16, 15);
        push(self.stack(), limit)
    }

    fn pop(&mut self) -> u32 {
        let oldest = self.is(Fault::PopOrder);
        pop(self.stack(), oldest)
    }

    // ---- stacks lent from outside ----

    fn stack_set(&mut self, r: &Record) {
        let count = r.words[1];
        let saved = (0..count.min(15) as usize).map(|i| r.floats(18 + 16 * i));
        self.lent[r.words[0] as usize] =
            Stack { current: r.floats(2), saved: saved.collect(), count };
    }

    fn lent_call(&mut self, r: &Record, out: &mut Text) -> u32 {
        let sound = self.is(Fault::LentUnchecked);
        let stack = &mut self.lent[r.words[0] as usize];
        let number = if stack.count > 15 && !sound {
            1
        } else if r.op == op::STACK_PUSH {
            push(stack, 15)
        } else {
            pop(stack, false)
        };
        answer::line(out, name(r.op), &[number]);
        number
    }

    // ---- buffers ----

    fn generate(&mut self, n: u32) -> (u32, u32) {
        let live = self.context.buffers.len() as u64;
        if !self.context.sound {
            return (1, 0);
        }
        if live + n as u64 > 16 {
            return (4, 0);
        }
        let most = self.either(Fault::NamesToTheEnd, MOST + 1, MOST);
        if self.context.next + n as u64 > most {
            return (5, 0);
        }
        let first = if n == 0 { 0 } else { self.context.next as u32 };
        for _ in 0..n {
            let made = self.context.next as u32;
            self.context.buffers.insert(made, Vec::new());
            self.context.next += 1;
        }
        (0, first)
    }

    fn bind(&mut self, target: u32, name: u32) -> u32 {
        if name == u32::MAX {
            return 5;
        }
        let live = self.context.buffers.contains_key(&name);
        let rows = self.either(Fault::SeventeenNames, 17, 16);
        if name != 0 && !live && self.context.buffers.len() >= rows {
            return 4;
        }
        let known = target == ARRAY_TARGET || target == ELEMENT_TARGET;
        if name != 0 && (known || !self.is(Fault::BadTargetMakesNothing)) {
            self.context.buffers.entry(name).or_default();
            if !self.is(Fault::NextNotLifted) {
                self.context.next = self.context.next.max(name as u64 + 1);
            }
        }
        match target {
            ARRAY_TARGET => self.context.bound_array = name,
            ELEMENT_TARGET => self.context.bound_element = name,
            _ => return ENUM,
        }
        0
    }

    fn delete(&mut self, names: &[u32]) -> u32 {
        for &name in names {
            if self.context.buffers.remove(&name).is_none() {
                continue;
            }
            if self.context.bound_array == name && !self.is(Fault::DeleteKeepsBinding) {
                self.context.bound_array = 0;
            }
            if self.context.bound_element == name {
                self.context.bound_element = 0;
            }
            if self.is(Fault::DeleteClearsArray) {
                let arrays = self.context.arrays.iter_mut();
                arrays.filter(|a| a.buffer == name).for_each(|a| a.buffer = 0);
            }
        }
        0
    }

    /// The name bound at the target, 0 for a target that is none.
    fn bound_at(&self, target: u32) -> u32 {
        match target {
            ARRAY_TARGET => self.context.bound_array,
            ELEMENT_TARGET => self.context.bound_element,
            _ => 0,
        }
    }

    fn buffer_data(&mut self, target: u32, size: u32, bytes: &[u8]) -> u32 {
        if self.store_len != STORE {
            return 1;
        }
        if target != ARRAY_TARGET && target != ELEMENT_TARGET {
            return ENUM;
        }
        let name = self.bound_at(target);
        if name == 0 {
            return OPERATION;
        }
        let most = self.either(Fault::Accepts4097, 4097, 4096);
        if size > most {
            return 6;
        }
        let stale = self.is(Fault::StaleBytes);
        let Some(buffer) = self.context.buffers.get_mut(&name) else {
            return 0;
        };
        if !stale {
            buffer.clear();
        }
        buffer.resize(size as usize, 0);
        let n = bytes.len().min(size as usize);
        buffer[..n].copy_from_slice(&bytes[..n]);
        0
    }

    fn buffer_sub_data(&mut self, target: u32, offset: u32, bytes: &[u8]) -> u32 {
        if self.store_len != STORE {
            return 1;
        }
        if self.is(Fault::SubDataEnum) && target != ARRAY_TARGET && target != ELEMENT_TARGET {
            return ENUM;
        }
        let name = self.bound_at(target);
        let short = self.is(Fault::SubDataShort);
        let Some(buffer) = self.context.buffers.get_mut(&name) else {
            return OPERATION;
        };
        let end = offset as usize + bytes.len();
        if end > buffer.len() || (short && end == buffer.len()) {
            return VALUE;
        }
        buffer[offset as usize..end].copy_from_slice(bytes);
        0
    }

    // ---- pointers and attributes ----

    fn unit_array(&self) -> usize {
        if self.is(Fault::PointerByActive) {
            return 3 + self.context.active as usize;
        }
        3 + self.context.client as usize
    }

    fn pointer(&mut self, i: usize, [size, kind, stride, pointer]: [u32; 4]) -> u32 {
        let kept = self.context.arrays[i].enabled && !self.is(Fault::PointerDisables);
        self.context.arrays[i] =
            Array { enabled: kept, size, kind, stride, pointer, buffer: self.context.bound_array };
        0
    }

    fn client_state(&mut self, array: u32, on: bool) -> u32 {
        let i = match array {
            0x8074 => 0,
            0x8075 => 2,
            0x8076 => 1,
            0x8078 => self.unit_array(),
            _ => return ENUM,
        };
        self.context.arrays[i].enabled = on;
        0
    }

    fn multi_texcoord(&mut self, code: u32, pair: [f32; 2]) -> u32 {
        if self.is(Fault::UnitBelowRefused) && code < UNIT_0 {
            return ENUM;
        }
        let unit = code.saturating_sub(UNIT_0);
        if unit >= 4 {
            return ENUM;
        }
        self.context.pairs[unit as usize] = pair;
        0
    }

    // ---- pipeline settings ----

    fn setting(&mut self, r: &Record) -> u32 {
        let w = &r.words;
        let active = self.context.active as usize;
        let nan_stays = !self.is(Fault::AlphaNan);
        let known_func = (0x0200..=0x0207).contains(&w[0]);
        match r.op {
            op::CAPABILITY => return self.capability(w[0], w[1] == 1),
            op::TEX_ENV => return self.tex_env(w[0], w[1]),
            op::FOG => return self.fog(w[0], r.float(1)),
            op::BLEND_FUNC => return self.blend_func(w[0], w[1]),
            _ => {}
        }
        let p = &mut self.context.pipeline;
        match r.op {
            op::TEX_ENV_COLOR => p.env_color[active] = r.floats(0),
            op::DEPTH_FUNC if known_func => p.depth_func = w[0],
            op::ALPHA_FUNC if known_func => {
                p.alpha_func = w[0];
                p.reference = clamped(r.float(1));
                if p.reference.is_nan() && !nan_stays {
                    p.reference = 0.0;
                }
            }
            op::CULL_FACE if matches!(w[0], 0x0404 | 0x0405 | 0x0408) => p.cull_face = w[0],
            op::FRONT_FACE if matches!(w[0], 0x0900 | 0x0901) => p.front_face = w[0],
            op::DEPTH_RANGE => (p.near, p.far) = (clamped(r.float(0)), clamped(r.float(1))),
            _ => return ENUM,
        }
        0
    }

    fn blend_func(&mut self, source: u32, destination: u32) -> u32 {
        let known = |f: u32| f <= 1 || (0x0300..=0x0308).contains(&f);
        if self.is(Fault::BlendHalf) && known(source) {
            self.context.pipeline.source = source;
        }
        if !known(source) || !known(destination) {
            return ENUM;
        }
        self.context.pipeline.source = source;
        self.context.pipeline.destination = destination;
        0
    }

    fn capability(&mut self, cap: u32, on: bool) -> u32 {
        let active = self.context.active as usize;
        let lights = self.either(Fault::EightLights, 0x4008, 0x4010);
        let p = &mut self.context.pipeline;
        match cap {
            0x0b71 => p.depth = on,
            0x0bc0 => p.alpha = on,
            0x0be2 => p.blend = on,
            0x0b44 => p.cull = on,
            0x0b60 => p.fog = on,
            0x0de1 => p.textured[active] = on,
            // Scissor, lighting, dither, normalise, stencil, colour material, polygon offset.
            0x0c11 | 0x0b50 | 0x0bd0 | 0x0ba1 | 0x0b90 | 0x0b57 | 0x8037 => {}
            _ if cap >= 0x4000 && cap < lights => {}
            _ => return ENUM,
        }
        0
    }

    fn tex_env(&mut self, pname: u32, value: u32) -> u32 {
        if pname != 0x2200 {
            return self.either(Fault::EnvNameRefused, ENUM, 0);
        }
        let mode = match value {
            0x8570 if self.is(Fault::CombineKept) => 0x8570,
            0x8570 => 0x2100,
            0x2100 | 0x1e01 | 0x2101 | 0x0104 | 0x0be2 => value,
            _ => return ENUM,
        };
        self.context.pipeline.env[self.context.active as usize] = mode;
        0
    }

    fn fog(&mut self, pname: u32, value: f32) -> u32 {
        let rounds = self.is(Fault::FogRounds);
        let p = &mut self.context.pipeline;
        match pname {
            0x0b62 => p.density = value,
            0x0b63 => p.start = value,
            0x0b64 => p.end = value,
            0x0b65 => {
                let whole = if rounds { value.round() } else { value.trunc() };
                let known = [0x0800, 0x0801, 0x2601];
                let Some(&mode) = known.iter().find(|&&mode| mode as f32 == whole) else {
                    return ENUM;
                };
                p.fog_mode = mode;
            }
            _ => return ENUM,
        }
        0
    }

    // ---- fetch ----

    /// L bytes at an address of the buffer or, with buffer 0, of the guest.
    fn part(&self, buffer: u32, at: u64, length: u64) -> Option<&[u8]> {
        let (bytes, at) = if buffer == 0 {
            (&self.guest, at.checked_sub(self.base as u64)?)
        } else {
            (self.context.buffers.get(&buffer)?, at)
        };
        if self.is(Fault::LengthZeroPasses) && length == 0 {
            return Some(&[]);
        }
        let end = at + length;
        if end > bytes.len() as u64 {
            return None;
        }
        Some(&bytes[at as usize..end as usize])
    }

    /// Where element `index` begins.
    fn address(&self, a: &Array, packed: u64, index: u32) -> Option<u64> {
        let stride =
            if a.stride == 0 && !self.is(Fault::StrideZero) { packed } else { a.stride as u64 };
        let step = stride * index as u64;
        let at = a.pointer as u64 + step;
        if self.is(Fault::AddressWraps) {
            return Some(at & MOST);
        }
        (step <= MOST && at <= MOST).then_some(at)
    }

    pub fn fetch(&self, a: &Array, index: u32, color: bool) -> Option<[f32; 4]> {
        let width = component_bytes(a.kind)?;
        let packed = width * a.size as u64;
        if packed > MOST {
            return None;
        }
        let at = self.address(a, packed, index)?;
        let length = self.either(Fault::FourOfFive, packed.min(4 * width), packed);
        let bytes = self.part(a.buffer, at, length)?;
        let mut result = [0.0, 0.0, 0.0, 1.0];
        if self.is(Fault::AbsentIsZero) {
            result[3] = 0.0;
        }
        let parts = bytes.chunks_exact(width as usize);
        for (part, place) in parts.zip(&mut result) {
            *place = self.component(part, a.kind, color);
        }
        Some(result)
    }

    /// One little-endian component.
    fn component(&self, b: &[u8], kind: u32, color: bool) -> f32 {
        let byte = self.either(Fault::Normalise128, 128.0, 127.0);
        let word = || u32::from_le_bytes([b[0], b[1], b[2], b[3]]);
        let half = || u16::from_le_bytes([b[0], b[1]]);
        let held = |x: f32| {
            if x < -1.0 && !self.is(Fault::NotHeld) {
                -1.0
            } else {
                x
            }
        };
        let normal = color || self.is(Fault::AllNormalised);
        match kind {
            0x1400 if normal => held(b[0] as i8 as f32 / byte),
            0x1400 => b[0] as i8 as f32,
            0x1401 if normal => b[0] as f32 / 255.0,
            0x1401 => b[0] as f32,
            0x1402 if normal => held(half() as i16 as f32 / 32_767.0),
            0x1402 => half() as i16 as f32,
            0x1403 if normal => half() as f32 / 65_535.0,
            0x1403 => half() as f32,
            0x140c if self.is(Fault::FixedTruncates) => {
                (word() as i32 >> 16) as f32 + (word() & 0xff00) as f32 / 65_536.0
            }
            0x140c => word() as i32 as f32 / 65_536.0,
            _ => f32::from_bits(word()),
        }
    }

    // ---- draws ----

    /// The stored indices of a guest-indexed draw, or the number of the first "no".
    pub fn guest_indices(&self, count: u32, kind: u32, pointer: u32) -> Result<Vec<u32>, u32> {
        let width = match kind {
            0x1401 => 1,
            0x1403 => 2,
            _ => return Err(ENUM),
        };
        let element = self.either(Fault::ElementIgnored, 0, self.context.bound_element);
        let length = width * count as u64;
        let refusal = if element != 0 { VALUE } else { 7 };
        let bytes = self.part(element, pointer as u64, length).ok_or(refusal)?;
        let chunks = bytes.chunks_exact(width as usize);
        Ok(chunks.map(|c| c.iter().rev().fold(0, |n, &b| 256 * n + b as u32)).collect())
    }

    /// Answers a draw; the caller notes the number.
    pub fn draw(&self, r: &Record) -> Drawn {
        let refused = |number| Drawn { number, triangles: Vec::new(), touched: None };
        match self.triangles(r) {
            Ok(triangles) => {
                let room = r.words[2] as usize;
                let need = 51 * triangles.len();
                let tight = self.is(Fault::ExactRefused) && need == room && need > 0;
                if need > room || tight {
                    return refused(11);
                }
                let spoilt = self.is(Fault::OutputTouched) && need < room;
                Drawn { number: 0, triangles, touched: spoilt.then_some(need as u32) }
            }
            Err(number) => refused(number),
        }
    }

    /// The questions up to the room, in the document's order.
    fn triangles(&self, r: &Record) -> Result<Vec<Triangle>, u32> {
        let (mode, mask) = (r.words[0], r.words[1]);
        if !self.context.sound || self.store_len != STORE {
            return Err(1);
        }
        if self.base as u64 + self.guest.len() as u64 > 1 << 32 {
            return Err(2);
        }
        if mask >= 16 {
            return Err(3);
        }
        if self.is(Fault::ModeFirst) {
            known_mode(mode)?;
        }
        let indices = match r.op {
            op::DRAW_LIST => r.words[4..].to_vec(),
            op::DRAW_ARRAYS => {
                self.source_ready()?;
                self.range(r.words[3], r.words[4])
            }
            _ => self.guest_indices(r.words[3], r.words[4], r.words[5])?,
        };
        let empty_ends = r.op == op::DRAW_GUEST && !self.is(Fault::EmptyAsksMode);
        if indices.is_empty() && empty_ends {
            return Ok(Vec::new());
        }
        self.source_ready()?;
        let vertices = self.vertices(&indices, mask, mode)?;
        known_mode(mode)?;
        if mode < 4 {
            return Err(self.either(Fault::LinesDone, 0, 10));
        }
        let corners = self.corners(mode, vertices.len());
        Ok(corners.iter().map(|c| join(&vertices, c)).collect())
    }

    fn source_ready(&self) -> Result<(), u32> {
        let a = &self.context.arrays[0];
        let placed = a.buffer != 0 || a.pointer != 0 || self.is(Fault::PointerZero);
        (a.enabled && placed).then_some(()).ok_or(8)
    }

    /// first up to min(first+count, 2^32-1), the end left out.
    fn range(&self, first: u32, count: u32) -> Vec<u32> {
        let end = (first as u64 + count as u64).min(MOST);
        if self.is(Fault::RangeEndIncluded) {
            return (first as u64..=end).map(|i| i as u32).collect();
        }
        if self.is(Fault::RangeToTheEnd) {
            let end = (first as u64 + count as u64).min(MOST + 1);
            return (first as u64..end).map(|i| i as u32).collect();
        }
        (first as u64..end).map(|i| i as u32).collect()
    }

    /// The vertex of every index, also of those in no triangle; 9 at a position that fails.
    fn vertices(&self, indices: &[u32], mask: u32, mode: u32) -> Result<Vec<[f32; 17]>, u32> {
        let [modelview, projection, _] = &self.context.stacks;
        let mvp = if self.is(Fault::ProductTurned) {
            self.product(&modelview.current, &projection.current)
        } else {
            self.product(&projection.current, &modelview.current)
        };
        let mut used = indices.len();
        if self.is(Fault::UnusedNotFetched) && mode == 4 {
            used -= used % 3;
        }
        let vertex = |&index: &u32| self.vertex(index, mask, &mvp).ok_or(9);
        indices[..used].iter().map(vertex).collect()
    }

    fn vertex(&self, index: u32, mask: u32, mvp: &Matrix) -> Option<[f32; 17]> {
        let c = &self.context;
        let object = self.fetch(&c.arrays[0], index, false)?;
        let mut result = [0.0; 17];
        result[..4].copy_from_slice(&self.transform(mvp, object));
        result[4..8].copy_from_slice(&self.color(index));
        let mask = self.either(Fault::MaskTurned, mask.reverse_bits() >> 28, mask);
        for unit in (0..4).filter(|unit| mask >> unit & 1 == 1) {
            let pair = self.pair(unit, index);
            result[8 + 2 * unit..10 + 2 * unit].copy_from_slice(&pair);
        }
        let eye = self.transform(&c.stacks[0].current, object);
        result[16] = self.either(Fault::FogSign, eye[2], eye[2].abs());
        Some(result)
    }

    fn color(&self, index: u32) -> [f32; 4] {
        let array = &self.context.arrays[1];
        if !array.enabled {
            return self.context.color;
        }
        match self.fetch(array, index, true) {
            Some(color) => color,
            None if self.is(Fault::FailedColorWhite) => [1.0; 4],
            None => self.context.color,
        }
    }

    fn pair(&self, unit: usize, index: u32) -> [f32; 2] {
        let texture = &self.context.stacks[2].current;
        let array = &self.context.arrays[3 + unit];
        let current = self.context.pairs[unit];
        if !array.enabled && !self.is(Fault::CurrentTransformed) {
            return current;
        }
        let [s, t, ..] = if !array.enabled {
            [current[0], current[1], 0.0, 1.0]
        } else {
            match self.fetch(array, index, false) {
                Some(found) => found,
                None if self.is(Fault::FailedPairCurrent) => return current,
                None if self.is(Fault::FailedPairPlain) => return [0.0, 0.0],
                None => [0.0; 4],
            }
        };
        if self.is(Fault::TextureMatrixSkipped) {
            return [s, t];
        }
        let last = self.either(Fault::PairLastZero, 0.0, 1.0);
        let [s, t, ..] = self.transform(texture, [s, t, 0.0, last]);
        [s, t]
    }

    /// Places of the corners in the list of indices.
    fn corners(&self, mode: u32, n: usize) -> Vec<[usize; 3]> {
        let parity = self.either(Fault::StripParity, 1, 0);
        let hub = |i: usize| self.either(Fault::FanHub, i - 2, 0);
        match mode {
            4 => (0..n / 3).map(|i| [3 * i, 3 * i + 1, 3 * i + 2]).collect(),
            5 => (2..n)
                .map(|i| if i % 2 == parity { [i - 2, i - 1, i] } else { [i - 1, i - 2, i] })
                .collect(),
            _ => (2..n).map(|i| [hub(i), i - 1, i]).collect(),
        }
    }

    // ---- unsound contexts, dumps ----

    /// All that shows of an unsound context is here; the rest is only known to be unsound.
    fn unsound(&mut self, kind: u32, out: &mut Text) {
        let c = &mut self.context;
        c.sound = false;
        match kind {
            1..=3 => c.stacks[kind as usize - 1].count = 16,
            4 => c.active = 4,
            5 => c.client = 4,
            _ => {}
        }
        if self.is(Fault::UnsoundAccepted) && kind == 9 {
            self.context.sound = true;
        }
        answer::line(out, "UNSOUND", &[0]);
    }

    fn dump(&self, sections: u32, out: &mut Text) {
        answer::line(out, "DUMP", &[sections]);
        let parts = [
            Self::dump_stacks,
            Self::dump_arrays,
            Self::dump_buffers,
            Self::dump_current,
            Self::dump_pipeline,
        ];
        for (bit, part) in parts.iter().enumerate() {
            if sections >> bit & 1 == 1 {
                part(self, out);
            }
        }
    }

    fn dump_stacks(&self, out: &mut Text) {
        answer::line(out, "mode", &[0x1700 + self.context.mode as u32]);
        for (i, stack) in self.context.stacks.iter().enumerate() {
            show_stack(out, "stack", &[i as u32], stack);
        }
    }

    fn dump_arrays(&self, out: &mut Text) {
        let c = &self.context;
        for (i, a) in c.arrays.iter().enumerate() {
            let on = a.enabled as u32;
            let fields = [i as u32, on, a.size, a.kind, a.stride, a.pointer, a.buffer];
            answer::line(out, "array", &fields);
        }
        answer::put(out, "bound");
        answer::number(out, c.bound_array);
        answer::number(out, c.bound_element);
        answer::line(out, " units", &[c.client, c.active]);
    }

    fn dump_buffers(&self, out: &mut Text) {
        for (&name, bytes) in &self.context.buffers {
            answer::put(out, "buffer");
            answer::number(out, name);
            answer::number(out, bytes.len() as u32);
            out.push(b' ');
            answer::hex(out, answer::hash(bytes));
            out.push(b'\n');
        }
    }

    fn dump_current(&self, out: &mut Text) {
        answer::mixed(out, "color", &[], &self.context.color);
        for (u, pair) in self.context.pairs.iter().enumerate() {
            answer::mixed(out, "pair", &[u as u32], pair);
        }
    }

    fn dump_pipeline(&self, out: &mut Text) {
        let p = &self.context.pipeline;
        let flags = [p.depth, p.alpha, p.blend, p.cull, p.fog];
        answer::line(out, "flags", &flags.map(|f| f as u32));
        let modes = [p.cull_face, p.front_face, p.fog_mode];
        let funcs = [p.depth_func, p.alpha_func, p.source, p.destination];
        answer::line(out, "codes", &[&funcs[..], &modes[..]].concat());
        let floats = [p.reference, p.density, p.start, p.end, p.near, p.far];
        answer::mixed(out, "floats", &[], &floats);
        for u in 0..4 {
            let numbers = [u as u32, p.textured[u] as u32, p.env[u]];
            answer::mixed(out, "env", &numbers, &p.env_color[u]);
        }
    }
}

fn bound(count: u64) -> Result<(), &'static str> {
    if count > trace::ENTRIES as u64 {
        return Err("a bound is passed");
    }
    Ok(())
}

fn unit(field: &mut u32, unit: u32) -> u32 {
    if unit >= 4 {
        return ENUM;
    }
    *field = unit;
    0
}

/// Within 0 to 1; -0.0 and NaN stay.
fn clamped(x: f32) -> f32 {
    if x < 0.0 {
        return 0.0;
    }
    if x > 1.0 {
        return 1.0;
    }
    x
}

pub fn component_bytes(kind: u32) -> Option<u64> {
    match kind {
        0x1400 | 0x1401 => Some(1),
        0x1402 | 0x1403 => Some(2),
        0x1406 | 0x140c => Some(4),
        _ => None,
    }
}

fn known_mode(mode: u32) -> Result<(), u32> {
    (mode <= 6).then_some(()).ok_or(ENUM)
}

fn join(vertices: &[[f32; 17]], corners: &[usize; 3]) -> Triangle {
    std::array::from_fn(|i| vertices[corners[i / 17]][i % 17])
}

fn translation([x, y, z]: [f32; 3]) -> Matrix {
    let mut m = IDENTITY;
    (m[12], m[13], m[14]) = (x, y, z);
    m
}

fn scaling([x, y, z]: [f32; 3]) -> Matrix {
    let mut m = IDENTITY;
    (m[0], m[5], m[10]) = (x, y, z);
    m
}

fn push(stack: &mut Stack, limit: u32) -> u32 {
    if stack.count >= limit {
        return OVERFLOW;
    }
    stack.saved.push(stack.current);
    stack.count += 1;
    0
}

fn pop(stack: &mut Stack, oldest: bool) -> u32 {
    if stack.saved.is_empty() {
        return UNDERFLOW;
    }
    let place = if oldest { 0 } else { stack.saved.len() - 1 };
    stack.current = stack.saved.remove(place);
    stack.count -= 1;
    0
}

/// `NAME .. count` and the current matrix, then the saved ones.
fn show_stack(out: &mut Text, name: &str, before: &[u32], stack: &Stack) {
    let numbers = [before, &[stack.count]].concat();
    answer::mixed(out, name, &numbers, &stack.current);
    for m in &stack.saved {
        answer::mixed(out, "saved", &[], m);
    }
}
