//! The calls that are timed, for both sides.

pub const BASE: u32 = 0x1000;
pub const FLOAT: u32 = 0x1406;
pub const FIXED: u32 = 0x140c;
pub const BYTE: u32 = 0x1400;
pub const UBYTE: u32 = 0x1401;
pub const SHORT: u32 = 0x1402;
pub const USHORT: u32 = 0x1403;
pub const ARRAY: u32 = 0x8892;
pub const ELEMENTS: u32 = 0x8893;

#[derive(Clone)]
pub enum Indices {
    Lent(Vec<u32>),
    Range(u32, u32),
    /// Count, type and pointer: in the element buffer, or in guest memory where none is bound.
    Stored(u32, u32, u32),
}

#[derive(Clone)]
pub struct Draw {
    pub mode: u32,
    pub stages: u32,
    pub indices: Indices,
}

#[derive(Clone)]
pub enum Call {
    Mode(u32),
    Load([f32; 16]),
    Push,
    Pop,
    Translate(f32, f32, f32),
    /// An angle, about an axis of length 1.
    Rotate(f32, [f32; 3]),
    Frustum([f32; 6]),
    Bind(u32, u32),
    Data(u32, Vec<u8>),
    SubData(u32, u32, Vec<u8>),
    VertexPointer(u32, u32, u32, u32),
    ColorPointer(u32, u32, u32, u32),
    TexcoordPointer(u32, u32, u32, u32),
    ClientState(u32, bool),
    ClientUnit(u32),
    Color([f32; 4]),
    /// Any other call by its code and words.
    Coded(u32, Vec<u32>),
    Draw(Draw),
}

/// What is timed: `again` after `first`, over guest memory from BASE on.
pub struct Work {
    pub first: Vec<Call>,
    pub again: Vec<Call>,
    pub guest: Vec<u8>,
    /// The triangles of `again`, and of its last draw; of a frame, of its largest draw.
    pub triangles: usize,
    pub last: usize,
}

impl Work {
    /// The same work up to each of its draws.
    pub fn up_to_each_draw(&self) -> impl Iterator<Item = Work> + '_ {
        let ends = (0..self.again.len()).filter(|&i| matches!(self.again[i], Call::Draw(_)));
        ends.map(|end| Work {
            first: self.first.clone(),
            again: self.again[..=end].to_vec(),
            guest: self.guest.clone(),
            ..*self
        })
    }
}

/// Makes a call by its method: PocketHLE's `Context`, the station's and its `List` have the same names. The calls whose arguments differ are given.
macro_rules! make_call {
    ($c:ident, $call:expr, { $($given:pat => $made:expr,)* }) => {
        match $call {
            $($given => $made,)*
            Call::Mode(mode) => _ = $c.set_matrix_mode(*mode),
            Call::Load(m) => _ = $c.load_matrix(*m),
            Call::Push => _ = $c.push_matrix(),
            Call::Pop => _ = $c.pop_matrix(),
            Call::Translate(x, y, z) => _ = $c.translate(*x, *y, *z),
            Call::Rotate(angle, [x, y, z]) => _ = $c.rotate(*angle, *x, *y, *z),
            Call::Frustum([l, r, b, t, n, f]) => _ = $c.frustum(*l, *r, *b, *t, *n, *f),
            Call::Bind(target, name) => _ = $c.bind_buffer(*target, *name),
            Call::VertexPointer(size, ty, stride, at) => {
                _ = $c.set_vertex_pointer(*size, *ty, *stride, *at)
            }
            Call::ColorPointer(size, ty, stride, at) => {
                _ = $c.set_color_pointer(*size, *ty, *stride, *at)
            }
            Call::TexcoordPointer(size, ty, stride, at) => {
                _ = $c.set_texcoord_pointer(*size, *ty, *stride, *at)
            }
            Call::ClientState(array, on) => _ = $c.set_client_state(*array, *on),
            Call::ClientUnit(unit) => _ = $c.set_client_active_texture(*unit),
            Call::Color(color) => _ = $c.set_color(*color),
            Call::Coded(code, words) => $crate::call::make_coded!($c, *code, words),
        }
    };
}
pub(crate) use make_call;

/// The same of a call by its code (crates/list_records/specs/Encoding.antt).
macro_rules! make_coded {
    ($c:ident, $code:expr, $words:expr) => {{
        let w: &[u32] = $words;
        let f = |i: usize| f32::from_bits(w[i]);
        match $code {
            0x11 => _ = $c.load_identity(),
            0x13 => _ = $c.mult_matrix(std::array::from_fn(f)),
            0x17 => _ = $c.scale(f(0), f(1), f(2)),
            0x1b => _ = $c.ortho(f(0), f(1), f(2), f(3), f(4), f(5)),
            0x20 => _ = $c.gen_buffers(w[0] as usize),
            0x22 => _ = $c.delete_buffers(w),
            0x32 => _ = $c.set_normal_pointer(w[0], w[1], w[2]),
            0x37 => _ = $c.set_multi_texcoord(w[0], f(1), f(2)),
            0x40 => _ = $c.set_active_texture(w[0]),
            0x41 => _ = $c.set_capability(w[0], w[1] == 1),
            0x42 => _ = $c.tex_env(w[0], w[1]),
            0x43 => _ = $c.set_tex_env_color(std::array::from_fn(f)),
            0x44 => _ = $c.set_depth_func(w[0]),
            0x45 => _ = $c.set_alpha_func(w[0], f(1)),
            0x46 => _ = $c.set_blend_func(w[0], w[1]),
            0x47 => _ = $c.set_cull_face(w[0]),
            0x48 => _ = $c.set_front_face(w[0]),
            0x49 => _ = $c.set_fog(w[0], f(1)),
            0x4a => _ = $c.set_depth_range(f(0), f(1)),
            0x50 => _ = $c.take_error(),
            code => unreachable!("no such call: {code:#x}"),
        }
    }};
}
pub(crate) use make_coded;
