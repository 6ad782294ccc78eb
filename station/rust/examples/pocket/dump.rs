//! Prints parts of a context's state, as the trace program does at DUMP.

use crate::adapter::Context;
use crate::trace;
use beonasul::state::{MatrixStack, State};
use std::io::{Result, Write};

/// Prints the sections whose bits are set.
pub fn dump(page: &mut impl Write, context: &Context, sections: u32) -> Result<()> {
    let state = context.state();
    writeln!(page, "DUMP {sections}")?;
    if sections & 1 != 0 {
        stacks(page, state)?;
    }
    if sections & 2 != 0 {
        arrays(page, state)?;
    }
    if sections & 4 != 0 {
        buffers(page, context)?;
    }
    if sections & 8 != 0 {
        attributes(page, state)?;
    }
    if sections & 16 != 0 {
        settings(page, state)?;
    }
    Ok(())
}

fn stacks(page: &mut impl Write, state: &State) -> Result<()> {
    let stacks = &state.stacks;
    writeln!(page, "mode {}", state.mode)?;
    for (i, stack) in [&stacks.modelview, &stacks.projection, &stacks.texture].iter().enumerate() {
        write!(page, "stack {i} {} ", stack.depth)?;
        matrices(page, stack)?;
    }
    Ok(())
}

fn matrices(page: &mut impl Write, stack: &MatrixStack) -> Result<()> {
    trace::floats(page, &stack.current.entries)?;
    for saved in &stack.saved[..stack.depth] {
        write!(page, "saved ")?;
        trace::floats(page, &saved.entries)?;
    }
    Ok(())
}

fn arrays(page: &mut impl Write, state: &State) -> Result<()> {
    let arrays = &state.arrays;
    let all = [arrays.vertex, arrays.color, arrays.normal].into_iter().chain(arrays.texcoord);
    for (i, a) in all.enumerate() {
        let fields = [a.enabled as u32, a.size, a.ty, a.stride, a.pointer, a.buffer];
        writeln!(page, "array {i} {}", fields.map(|field| field.to_string()).join(" "))?;
    }
    let (array, element) = (state.buffers.array_buffer, state.buffers.element_buffer);
    let (client, active) = (arrays.client_active_texture, state.settings.active_texture);
    writeln!(page, "bound {array} {element} units {client} {active}")
}

fn buffers(page: &mut impl Write, context: &Context) -> Result<()> {
    let slots = context.state().buffers.slots;
    let mut names: Vec<u32> = slots.iter().map(|slot| slot.name).filter(|&n| n != 0).collect();
    names.sort_unstable();
    for name in names {
        let bytes = context.buffer(name).unwrap_or_default();
        let hash = bytes.iter().fold(0x811c_9dc5, fnv);
        writeln!(page, "buffer {name} {} {hash:08x}", bytes.len())?;
    }
    Ok(())
}

/// A step of 32-bit FNV-1a.
fn fnv(hash: u32, byte: &u8) -> u32 {
    (hash ^ *byte as u32).wrapping_mul(0x0100_0193)
}

fn attributes(page: &mut impl Write, state: &State) -> Result<()> {
    write!(page, "color ")?;
    trace::floats(page, &state.attributes.color)?;
    for (unit, pair) in state.attributes.pairs.iter().enumerate() {
        write!(page, "pair {unit} ")?;
        trace::floats(page, &[pair.s, pair.t])?;
    }
    Ok(())
}

fn settings(page: &mut impl Write, state: &State) -> Result<()> {
    let s = &state.settings;
    let flags = [s.depth_test, s.alpha_test, s.blend, s.cull, s.fog];
    writeln!(page, "flags {}", flags.map(|on| (on as u32).to_string()).join(" "))?;
    let codes = [s.depth_func, s.alpha_func, s.src, s.dst, s.cull_mode, s.front_face, s.fog_mode];
    writeln!(page, "codes {}", codes.map(|code| code.to_string()).join(" "))?;
    write!(page, "floats ")?;
    trace::floats(page, &[s.reference, s.density, s.start, s.end, s.near, s.far])?;
    for (u, unit) in s.units.iter().enumerate() {
        write!(page, "env {u} {} {} ", unit.enabled as u32, unit.env_mode)?;
        trace::floats(page, &unit.env_color)?;
    }
    Ok(())
}
