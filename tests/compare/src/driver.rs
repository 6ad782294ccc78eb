//! Runs a list on the `Context` of the module above, which `oracle.rs` makes once for each Rust.
//! Two contexts get the same calls: `real` keeps its error slot, `probe`'s is emptied before each
//! call, so that what it holds after is the call's answer. What the document alone refuses (1 to 6,
//! 11) is answered here and not asked of the Rust.

use super::context::{ArrayPointer, Context, GuestMemory};
use crate::answer::{self, Text};
use crate::oracle::{from_host, lent, show_stack, zero_axis, Guest, Lasting};
use crate::trace::{self, name, op, Record, STORE};
use pocket::matrix::MatrixMode;
use pocket::raster::{self, BlendFactor, CompareFunc, CullMode, FogMode, FrontFace, TexEnvMode};
use pocket::texture::Texture;

/// The name of the 1x1 texture that makes a unit a stage.
const TEXTURE: u32 = 1;
/// A mode that no draw knows.
const UNKNOWN_MODE: u32 = 7;

impl GuestMemory for Guest {
    fn read(&mut self, addr: u32, len: usize, out: &mut Vec<u8>) -> bool {
        Guest::read(self, addr, len, out)
    }
}

struct Driver<'a> {
    real: Context,
    probe: Context,
    /// The next buffer name, which the Rust keeps to itself.
    next: u64,
    /// Set where the Rust cannot follow.
    lost: bool,
    lasting: &'a mut Lasting,
}

/// Runs a list from fresh.
pub fn run(list: &[Record], lasting: &mut Lasting, out: &mut Text) {
    let mut driver = Driver { real: fresh(), probe: fresh(), next: 1, lost: false, lasting };
    for record in list {
        driver.run(record, out);
    }
}

fn fresh() -> Context {
    let mut context = Context::new(1, 1);
    let mut texture = Texture::default();
    texture.define_level(0, 1, 1, vec![255; 4]);
    context.textures.insert(TEXTURE, texture);
    context
}

impl Driver<'_> {
    fn run(&mut self, r: &Record, out: &mut Text) {
        let w = &r.words;
        match r.op {
            op::META | op::STORE_FILL | op::STORE_BYTES => {}
            op::FRESH => answer::line(out, "FRESH", &[0]),
            op::STORE_LEN => self.lasting.store_len = w[0],
            op::GUEST => self.lasting.guest.set(w[0], r.bytes(1)),
            op::GUEST_FILL => self.lasting.guest.set(w[0], trace::fill(w[1], w[2])),
            op::GUEST_BASE => self.lasting.guest.base = w[0],
            op::STACK_SET => self.lasting.lent[w[0] as usize] = lent(r),
            op::STACK_PUSH | op::STACK_POP => {
                let number = self.lasting.lent[w[0] as usize].call(r.op);
                if !self.lost {
                    answer::line(out, name(r.op), &[number]);
                }
            }
            _ if self.lost => {}
            op::STACK_SHOW => self.lasting.lent[w[0] as usize].show(out),
            op::UNSOUND => self.lose("UNSOUND", out),
            op::ROTATE if !from_host(r) => self.lose("ROTATE", out),
            op::ROTATE_ZERO if !zero_axis(r.floats(1)) => self.lose("ROTATE_ZERO", out),
            op::DUMP => self.dump(w[0], out),
            op::GEN => self.generate(w[0], out),
            op::TAKE_ERROR => answer::line(out, "TAKE_ERROR", &[0, self.real.take_error()]),
            _ if trace::is_draw(r.op) => self.draw(r, out),
            _ => {
                let number = self.refused(r).unwrap_or_else(|| self.call(r));
                answer::line(out, name(r.op), &[number]);
            }
        }
    }

    fn lose(&mut self, name: &str, out: &mut Text) {
        self.lost = true;
        answer::put(out, name);
        answer::put(out, " ?\n");
    }

    /// The numbers that the document adds to calls other than draws.
    fn refused(&mut self, r: &Record) -> Option<u32> {
        let w = &r.words;
        let lent = matches!(r.op, op::BUFFER_DATA | op::BUFFER_SUB_DATA);
        if lent && self.lasting.store_len != STORE {
            return Some(1);
        }
        match r.op {
            op::BIND => {
                let new = w[1] != 0 && !self.real.buffers.contains_key(&w[1]);
                if w[1] == u32::MAX {
                    return Some(5);
                }
                if new && self.real.buffers.len() == 16 {
                    return Some(4);
                }
                self.next = self.next.max(w[1] as u64 + 1);
                None
            }
            op::BUFFER_DATA => {
                let bound = match w[0] {
                    0x8892 => self.real.array_buffer,
                    0x8893 => self.real.element_array_buffer,
                    _ => 0,
                };
                (bound != 0 && w[1] > 4096).then_some(6)
            }
            _ => None,
        }
    }

    /// Makes the call on both; the probe's slot is the answer.
    fn call(&mut self, r: &Record) -> u32 {
        self.probe.take_error();
        make(&mut self.real, r);
        make(&mut self.probe, r);
        self.probe.take_error()
    }

    fn generate(&mut self, n: u32, out: &mut Text) {
        let live = self.real.buffers.len() as u64;
        let number = if live + n as u64 > 16 {
            4
        } else if self.next + n as u64 > u32::MAX as u64 {
            5
        } else {
            0
        };
        let mut first = 0;
        if number == 0 {
            let names = self.real.gen_buffers(n as usize);
            self.probe.gen_buffers(n as usize);
            first = names.first().copied().unwrap_or(0);
            self.next += n as u64;
        }
        answer::line(out, "GEN", &[number, first]);
    }

    fn draw(&mut self, r: &Record, out: &mut Text) {
        let number = self.draw_number(r);
        let mut triangles = Vec::new();
        if number == 0 || number >= 0x0500 || (7..=10).contains(&number) {
            with_stages(&mut self.real, r.words[1], |c| draw(c, &mut self.lasting.guest, r));
            triangles = raster::take_triangles();
        }
        answer::line(out, name(r.op), &[number, triangles.len() as u32]);
        for triangle in &triangles {
            answer::triangle(out, &flat(triangle));
        }
    }

    /// The draw's number, found on the probe.
    fn draw_number(&mut self, r: &Record) -> u32 {
        let (mode, mask, room) = (r.words[0], r.words[1], r.words[2] as usize);
        if self.lasting.store_len != STORE {
            return 1;
        }
        if self.lasting.guest.base as u64 + self.lasting.guest.bytes.len() as u64 > 1 << 32 {
            return 2;
        }
        if mask >= 16 {
            return 3;
        }
        let code = self.try_draw(r, mode);
        let triangles = raster::take_triangles().len();
        if code != 0 {
            return code;
        }
        if 51 * triangles > room {
            return 11;
        }
        if triangles > 0 {
            return 0;
        }
        self.silent(r, mode)
    }

    /// Which silent return was it? A draw with an unknown mode shows how far the Rust goes: it
    /// answers 0x0500 exactly when all positions were fetched.
    fn silent(&mut self, r: &Record, mode: u32) -> u32 {
        if r.op == op::DRAW_GUEST {
            if self.probe.element_array_buffer == 0 && !self.index_read(r) {
                return 7;
            }
            if r.words[3] == 0 {
                return 0;
            }
        }
        let empty = Record::new(op::DRAW_LIST, &[0, 0, 0, 0]);
        if self.try_draw(&empty, UNKNOWN_MODE) == 0 {
            return 8;
        }
        if self.try_draw(r, UNKNOWN_MODE) == 0 {
            return 9;
        }
        if mode < 4 {
            return 10;
        }
        0
    }

    /// Are the indices readable? Asked without a vertex array, so that nothing else is read.
    fn index_read(&mut self, r: &Record) -> bool {
        let kept = self.probe.vertex_array;
        self.probe.vertex_array = ArrayPointer::default();
        self.try_draw(r, UNKNOWN_MODE);
        self.probe.vertex_array = kept;
        self.lasting.guest.succeeded
    }

    /// Draws on the probe with this mode; gives the code in its slot.
    fn try_draw(&mut self, r: &Record, mode: u32) -> u32 {
        let mut turned = r.clone();
        turned.words[0] = mode;
        self.probe.take_error();
        with_stages(&mut self.probe, r.words[1], |c| draw(c, &mut self.lasting.guest, &turned));
        self.probe.take_error()
    }

    // ---- dumps ----

    fn dump(&mut self, sections: u32, out: &mut Text) {
        answer::line(out, "DUMP", &[sections]);
        if sections & 1 != 0 {
            dump_stacks(&self.real, out);
        }
        if sections & 2 != 0 {
            dump_arrays(&self.real, out);
        }
        if sections & 4 != 0 {
            dump_buffers(&self.real, out);
        }
        if sections & 8 != 0 {
            answer::mixed(out, "color", &[], &self.real.current_color);
            for (u, unit) in self.real.texture_units.iter().enumerate() {
                answer::mixed(out, "pair", &[u as u32], &unit.current_texcoord);
            }
        }
        if sections & 16 != 0 {
            dump_pipeline(&mut self.real, out);
        }
    }
}

/// A call that the Rust has a method or a public field for.
fn make(c: &mut Context, r: &Record) {
    use op::*;
    let w = &r.words;
    let f = |i: usize| r.float(i);
    match r.op {
        MATRIX_MODE => c.set_matrix_mode(w[0]),
        LOAD_IDENTITY => c.load_identity(),
        LOAD => c.load_matrix(r.floats(0)),
        MULT => c.mult_matrix(r.floats(0)),
        PUSH => c.push_matrix(),
        POP => c.pop_matrix(),
        TRANSLATE => c.translate(f(0), f(1), f(2)),
        SCALE => c.scale(f(0), f(1), f(2)),
        ROTATE => c.rotate(f(5), f(6), f(7), f(8)),
        ROTATE_ZERO => c.rotate(f(0), f(1), f(2), f(3)),
        FRUSTUM => c.frustum(f(0), f(1), f(2), f(3), f(4), f(5)),
        ORTHO => c.ortho(f(0), f(1), f(2), f(3), f(4), f(5)),
        BIND => c.bind_buffer(w[0], w[1]),
        DELETE => c.delete_buffers(&w[1..]),
        BUFFER_DATA => {
            let bytes = r.bytes(4);
            let given = (w[3] == 1).then_some(&bytes[..]);
            c.buffer_data(w[0], w[1] as usize, given, w[2]);
        }
        BUFFER_SUB_DATA => c.buffer_sub_data(w[0], w[1], &r.bytes(2)),
        VERTEX_POINTER => c.set_vertex_pointer(w[0], w[1], w[2], w[3]),
        COLOR_POINTER => c.set_color_pointer(w[0], w[1], w[2], w[3]),
        NORMAL_POINTER => c.set_normal_pointer(w[0], w[1], w[2]),
        TEXCOORD_POINTER => c.set_texcoord_pointer(w[0], w[1], w[2], w[3]),
        CLIENT_STATE => c.set_client_state(w[0], w[1] == 1),
        CLIENT_UNIT => c.set_client_active_texture(w[0]),
        COLOR => c.current_color = r.floats(0),
        MULTI_TEXCOORD => c.set_multi_texcoord(w[0], f(1), f(2)),
        ACTIVE_UNIT => c.set_active_texture(w[0]),
        CAPABILITY => c.set_capability(w[0], w[1] == 1),
        TEX_ENV => c.tex_env(w[0], w[1]),
        TEX_ENV_COLOR => c.set_tex_env_color(r.floats(0)),
        DEPTH_FUNC => c.set_depth_func(w[0]),
        ALPHA_FUNC => c.set_alpha_func(w[0], f(1)),
        BLEND_FUNC => c.set_blend_func(w[0], w[1]),
        CULL_FACE => c.set_cull_face(w[0]),
        FRONT_FACE => c.set_front_face(w[0]),
        FOG => c.set_fog(w[0], f(1)),
        DEPTH_RANGE => c.set_depth_range(f(0), f(1)),
        _ => unreachable!("not a call of this kind"),
    }
}

fn draw(c: &mut Context, guest: &mut Guest, r: &Record) {
    let w = &r.words;
    match r.op {
        op::DRAW_LIST => c.draw_elements(guest, w[0], &w[4..]),
        op::DRAW_ARRAYS => c.draw_arrays(guest, w[0], w[3], w[4]),
        _ => c.draw_elements_from_guest(guest, w[0], w[3], w[4], w[5]),
    }
}

/// Does something while exactly the units of the mask have a complete texture.
fn with_stages(c: &mut Context, mask: u32, work: impl FnOnce(&mut Context)) {
    let kept = c.texture_units;
    for (u, unit) in c.texture_units.iter_mut().enumerate() {
        unit.texture_enabled = mask >> u & 1 == 1;
        unit.bound_texture = TEXTURE;
    }
    work(c);
    c.texture_units = kept;
}

fn flat(triangle: &[raster::Vertex; 3]) -> [f32; 51] {
    let mut all = [0.0; 51];
    for (v, part) in triangle.iter().zip(all.chunks_exact_mut(17)) {
        part[..4].copy_from_slice(&v.pos);
        part[4..8].copy_from_slice(&v.color);
        part[8..16].copy_from_slice(v.texcoord.as_flattened());
        part[16] = v.fog_depth;
    }
    all
}

fn dump_stacks(c: &Context, out: &mut Text) {
    let mode = match c.matrix_mode {
        MatrixMode::Modelview => 0x1700,
        MatrixMode::Projection => 0x1701,
        MatrixMode::Texture => 0x1702,
    };
    answer::line(out, "mode", &[mode]);
    for (i, stack) in [&c.modelview, &c.projection, &c.texture_matrix].into_iter().enumerate() {
        show_stack(out, "stack", &[i as u32], stack);
    }
}

fn dump_arrays(c: &Context, out: &mut Text) {
    let units = c.texture_units.iter().map(|u| u.texcoord_array);
    let arrays = [c.vertex_array, c.color_array, c.normal_array];
    for (i, a) in arrays.into_iter().chain(units).enumerate() {
        let on = a.enabled as u32;
        let fields = [i as u32, on, a.size, a.ty, a.stride, a.pointer, a.buffer];
        answer::line(out, "array", &fields);
    }
    let (array, element) = (c.array_buffer, c.element_array_buffer);
    let (client, active) = (c.client_active_texture, c.active_texture);
    let text = format!("bound {array} {element} units {client} {active}\n");
    answer::put(out, &text);
}

fn dump_buffers(c: &Context, out: &mut Text) {
    let mut names: Vec<&u32> = c.buffers.keys().collect();
    names.sort();
    for name in names {
        let bytes = &c.buffers[name].data;
        let hash = answer::hash(bytes);
        answer::put(out, &format!("buffer {name} {} {hash:08x}\n", bytes.len()));
    }
}

/// The cull face is private: it shows while culling is on.
fn cull_face(c: &mut Context) -> u32 {
    let on = c.state.cull.is_some();
    c.set_capability(0x0b44, true);
    let face = match c.state.cull {
        Some(CullMode::Front) => 0x0404,
        Some(CullMode::Back) => 0x0405,
        Some(CullMode::FrontAndBack) => 0x0408,
        None => 0,
    };
    c.set_capability(0x0b44, on);
    face
}

fn dump_pipeline(c: &mut Context, out: &mut Text) {
    let face = cull_face(c);
    let s = &c.state;
    let flags = [s.depth_test, s.alpha_test, s.blend, s.cull.is_some(), s.fog];
    answer::line(out, "flags", &flags.map(|f| f as u32));
    let front = match s.front_face {
        FrontFace::Cw => 0x0900,
        FrontFace::Ccw => 0x0901,
    };
    let fog = match s.fog_mode {
        FogMode::Exp => 0x0800,
        FogMode::Exp2 => 0x0801,
        FogMode::Linear => 0x2601,
    };
    let (depth, alpha) = (compare(s.depth_func), compare(s.alpha_func));
    let (from, to) = (factor(s.blend_src), factor(s.blend_dst));
    answer::line(out, "codes", &[depth, alpha, from, to, face, front, fog]);
    let fogs = [s.alpha_ref, s.fog_density, s.fog_start, s.fog_end];
    let (near, far) = s.depth_range;
    answer::mixed(out, "floats", &[], &[&fogs[..], &[near, far]].concat());
    for (u, unit) in c.texture_units.iter().enumerate() {
        let mode = match unit.tex_env {
            TexEnvMode::Modulate => 0x2100,
            TexEnvMode::Replace => 0x1e01,
            TexEnvMode::Decal => 0x2101,
            TexEnvMode::Add => 0x0104,
            TexEnvMode::Blend => 0x0be2,
        };
        let numbers = [u as u32, unit.texture_enabled as u32, mode];
        answer::mixed(out, "env", &numbers, &unit.tex_env_color);
    }
}

/// The enumerant that the Rust reads as this function.
fn compare(func: CompareFunc) -> u32 {
    let mut codes = 0x0200..=0x0207;
    codes.find(|&code| CompareFunc::from_enum(code) == Some(func)).unwrap()
}

/// The enumerant that the Rust reads as this factor.
fn factor(factor: BlendFactor) -> u32 {
    let mut codes = (0..=1).chain(0x0300..=0x0308);
    codes.find(|&code| BlendFactor::from_enum(code) == Some(factor)).unwrap()
}
