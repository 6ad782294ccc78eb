//! PocketHLE's `Context`. A stage is a unit with a complete 1x1 texture, as in the differential runs.

use crate::call::{make_call, Call, Draw, Indices, Work, BASE};
use pocket::context::{Context, GuestMemory};
use pocket::raster;
use pocket::texture::Texture;

const TEXTURE: u32 = 1;

struct Guest {
    bytes: Vec<u8>,
}

impl GuestMemory for Guest {
    fn read(&mut self, addr: u32, len: usize, out: &mut Vec<u8>) -> bool {
        let from = addr.wrapping_sub(BASE) as usize;
        let there = addr >= BASE && from + len <= self.bytes.len();
        if there {
            out.clear();
            out.extend_from_slice(&self.bytes[from..from + len]);
        }
        there
    }
}

pub struct Theirs {
    context: Context,
    guest: Guest,
    again: Vec<Call>,
}

impl Theirs {
    pub fn new(work: &Work) -> Self {
        let guest = Guest { bytes: work.guest.clone() };
        let mut theirs = Theirs { context: fresh(), guest, again: work.again.clone() };
        for call in &work.first {
            make(&mut theirs.context, &mut theirs.guest, call);
        }
        theirs
    }

    /// Makes the calls so many times, each draw from the front of the buffer.
    pub fn run(&mut self, times: u32) {
        for _ in 0..times {
            for call in &self.again {
                make(&mut self.context, &mut self.guest, call);
            }
        }
    }

    /// Makes a call. Gives the words of a draw's triangles.
    pub fn make(&mut self, call: &Call) -> Vec<f32> {
        make(&mut self.context, &mut self.guest, call);
        if matches!(call, Call::Draw(_)) {
            return self.words();
        }
        Vec::new()
    }

    /// Takes a fresh context.
    pub fn reset(&mut self) {
        self.context = fresh();
    }

    /// The words of the last draw's triangles.
    pub fn words(&self) -> Vec<f32> {
        let mut all = Vec::new();
        for v in raster::kept().as_flattened() {
            all.extend(v.pos);
            all.extend(v.color);
            all.extend(v.texcoord.as_flattened());
            all.push(v.fog_depth);
        }
        all
    }
}

fn fresh() -> Context {
    let mut context = Context::new(1, 1);
    let mut texture = Texture::default();
    texture.define_level(0, 1, 1, vec![255; 4]);
    context.textures.insert(TEXTURE, texture);
    for unit in &mut context.texture_units {
        unit.bound_texture = TEXTURE;
    }
    context
}

/// The current colour is a field of the Rust.
trait SetColor {
    fn set_color(&mut self, color: [f32; 4]);
}

impl SetColor for Context {
    fn set_color(&mut self, color: [f32; 4]) {
        self.current_color = color;
    }
}

fn make(c: &mut Context, guest: &mut Guest, call: &Call) {
    make_call!(c, call, {
        Call::Data(target, data) => c.buffer_data(*target, data.len(), Some(data), 0),
        Call::SubData(target, offset, data) => c.buffer_sub_data(*target, *offset, data),
        Call::Draw(draw) => make_draw(c, guest, draw),
    })
}

fn make_draw(c: &mut Context, guest: &mut Guest, draw: &Draw) {
    raster::rewind();
    for (u, unit) in c.texture_units.iter_mut().enumerate() {
        unit.texture_enabled = draw.stages >> u & 1 == 1;
    }
    match &draw.indices {
        Indices::Lent(list) => c.draw_elements(guest, draw.mode, list),
        Indices::Range(first, count) => c.draw_arrays(guest, draw.mode, *first, *count),
        Indices::Stored(count, ty, at) => {
            c.draw_elements_from_guest(guest, draw.mode, *count, *ty, *at)
        }
    }
}
