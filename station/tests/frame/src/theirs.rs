//! The frame as the unchanged PocketHLE draws it.

use crate::host;
use crate::player::{Memory, Way};
use crate::trace::{code, Record};
use pocket::context::{Context, GuestMemory};
use pocket::raster::RenderTarget;

impl GuestMemory for Memory {
    fn read(&mut self, addr: u32, len: usize, out: &mut Vec<u8>) -> bool {
        crate::adapter::GuestMemory::read(self, addr, len, out)
    }
}

/// The one call of the trace for which PocketHLE has a field.
trait SetColor {
    fn set_color(&mut self, color: [f32; 4]);
}

impl SetColor for Context {
    fn set_color(&mut self, color: [f32; 4]) {
        self.current_color = color;
    }
}

pub fn frame(records: &[Record], way: Way) -> RenderTarget {
    let (mut context, mut memory) = (host::fresh(), Memory::new(way));
    for r in records {
        play(&mut context, &mut memory, r);
    }
    context.target
}

fn play(context: &mut Context, memory: &mut Memory, r: &Record) {
    let w = &r.words;
    match r.code {
        code::META => {}
        code::FRESH => *context = host::fresh(),
        code::GUEST | code::GUEST_FILL | code::GUEST_BASE => memory.set(r),
        code::GEN => drop(context.gen_buffers(w[0] as usize)),
        code::TAKE_ERROR => drop(context.take_error()),
        code::BUFFER_DATA => {
            let data = r.bytes(4);
            context.buffer_data(w[0], w[1] as usize, (w[3] == 1).then_some(&data[..]), w[2]);
        }
        code::BUFFER_SUB_DATA => context.buffer_sub_data(w[0], w[1], &r.bytes(2)),
        code::DRAW_LIST..=code::DRAW_GUEST => draw(context, memory, r),
        _ => make_call!(*context, r),
    }
}

/// Draws while exactly the units of the mask sample their textures.
fn draw(context: &mut Context, memory: &mut Memory, r: &Record) {
    let (w, kept) = (&r.words, context.texture_units);
    for (unit, state) in (0..).zip(&mut context.texture_units) {
        state.texture_enabled = w[1] >> unit & 1 == 1;
        state.bound_texture = unit + 1;
    }
    match r.code {
        code::DRAW_LIST => context.draw_elements(memory, w[0], &w[4..]),
        code::DRAW_ARRAYS => context.draw_arrays(memory, w[0], w[3], w[4]),
        _ => context.draw_elements_from_guest(memory, w[0], w[3], w[4], w[5]),
    }
    context.texture_units = kept;
}
