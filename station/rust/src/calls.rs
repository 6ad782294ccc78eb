//! Every call once, and how a call becomes a record: its code, the number of its words, the words.
//! The library's definition of them is crates/list_records/specs/Encoding.antt.

/// Hands the table of the calls that borrow nothing to the macro `$make`: the code of the call's
/// record, its name, its arguments, what it gives. `Context` and `List` have a method for each.
macro_rules! calls {
    ($make:ident) => {
        $make! {
            /// `glMatrixMode`: the matrix calls are on the stack of this mode from now on.
            0x10 set_matrix_mode(mode: u32) -> ();
            /// `glLoadIdentity`.
            0x11 load_identity() -> ();
            /// `glLoadMatrixf`. The matrix stands column by column.
            0x12 load_matrix(m: [f32; 16]) -> ();
            /// `glMultMatrixf`: multiplies the current matrix by `m` on the right.
            0x13 mult_matrix(m: [f32; 16]) -> ();
            /// `glPushMatrix`: saves a copy of the current matrix, of which there may be 15.
            0x14 push_matrix() -> ();
            /// `glPopMatrix`: the matrix saved last is current again.
            0x15 pop_matrix() -> ();
            /// `glTranslatef`.
            0x16 translate(x: f32, y: f32, z: f32) -> ();
            /// `glScalef`.
            0x17 scale(x: f32, y: f32, z: f32) -> ();
            /// `glRotatef` of an angle with this cosine and sine, about an axis of length 1.
            0x18 rotate_by(cosine: f32, sine: f32, axis: [f32; 3]) -> ();
            /// `glFrustumf`: left, right, bottom, top, near, far.
            0x1a frustum(l: f32, r: f32, b: f32, t: f32, n: f32, f: f32) -> ();
            /// `glOrthof`: left, right, bottom, top, near, far.
            0x1b ortho(l: f32, r: f32, b: f32, t: f32, n: f32, f: f32) -> ();
            /// `glGenBuffers`: makes `n` empty buffers. Their names follow one another; the value
            /// is the first, 0 where `n` is 0.
            0x20 gen_buffers(n: usize) -> u32;
            /// `glBindBuffer`, at 0x8892 (arrays) or 0x8893 (elements). A new name makes a buffer.
            0x21 bind_buffer(target: u32, name: u32) -> ();
            /// `glDeleteBuffers`. Names that do not live are left out.
            0x22 delete_buffers(names: &[u32]) -> ();
            /// `glVertexPointer`. The array takes the buffer that is bound at 0x8892.
            0x30 set_vertex_pointer(size: u32, ty: u32, stride: u32, pointer: u32) -> ();
            /// `glColorPointer`, as `set_vertex_pointer`.
            0x31 set_color_pointer(size: u32, ty: u32, stride: u32, pointer: u32) -> ();
            /// `glNormalPointer`, as `set_vertex_pointer`. No draw reads normals.
            0x32 set_normal_pointer(ty: u32, stride: u32, pointer: u32) -> ();
            /// `glTexCoordPointer` of the client unit, as `set_vertex_pointer`.
            0x33 set_texcoord_pointer(size: u32, ty: u32, stride: u32, pointer: u32) -> ();
            /// `glEnableClientState` and `glDisableClientState`.
            0x34 set_client_state(array: u32, on: bool) -> ();
            /// `glClientActiveTexture`; the unit is 0 to 3.
            0x35 set_client_active_texture(unit: u32) -> ();
            /// `glColor4f`: the current colour.
            0x36 set_color(color: [f32; 4]) -> ();
            /// `glMultiTexCoord4f`: the current pair of a unit, which is 0x84C0 plus its number.
            0x37 set_multi_texcoord(unit: u32, s: f32, t: f32) -> ();
            /// `glActiveTexture`; the unit is 0 to 3.
            0x40 set_active_texture(unit: u32) -> ();
            /// `glEnable` and `glDisable`.
            0x41 set_capability(cap: u32, on: bool) -> ();
            /// `glTexEnvi` of the active unit. Only the mode, 0x2200, is kept.
            0x42 tex_env(pname: u32, value: u32) -> ();
            /// `glTexEnvfv` of the active unit: the environment's colour.
            0x43 set_tex_env_color(color: [f32; 4]) -> ();
            /// `glDepthFunc`.
            0x44 set_depth_func(func: u32) -> ();
            /// `glAlphaFunc`. The reference is held within 0 to 1.
            0x45 set_alpha_func(func: u32, reference: f32) -> ();
            /// `glBlendFunc`.
            0x46 set_blend_func(src: u32, dst: u32) -> ();
            /// `glCullFace`.
            0x47 set_cull_face(mode: u32) -> ();
            /// `glFrontFace`.
            0x48 set_front_face(mode: u32) -> ();
            /// `glFogf`. A mode counts by the whole part of the value.
            0x49 set_fog(pname: u32, value: f32) -> ();
            /// `glDepthRangef`. Both ends are held within 0 to 1.
            0x4a set_depth_range(near: f32, far: f32) -> ();
            /// `glGetError`: the value is the code in the error slot, which is then empty.
            0x50 take_error() -> u32;
        }
    };
}
pub(crate) use calls;

/// The codes of the records that more than the table knows.
pub(crate) mod code {
    pub const MULT: u32 = 0x13;
    pub const ROTATE: u32 = 0x18;
    pub const GEN: u32 = 0x20;
    pub const DELETE: u32 = 0x22;
    pub const BUFFER_DATA: u32 = 0x23;
    pub const BUFFER_SUB_DATA: u32 = 0x24;
    pub const DRAW_ELEMENTS: u32 = 0x60;
    pub const DRAW_ARRAYS: u32 = 0x61;
    pub const DRAW_ELEMENTS_FROM_GUEST: u32 = 0x62;
}

/// Whether the call writes a buffer.
pub(crate) fn is_upload(code: u32) -> bool {
    matches!(code, code::BUFFER_DATA | code::BUFFER_SUB_DATA)
}

pub(crate) fn is_draw(code: u32) -> bool {
    matches!(code, code::DRAW_ELEMENTS | code::DRAW_ARRAYS | code::DRAW_ELEMENTS_FROM_GUEST)
}

/// An argument of a call, as the words of a record.
pub(crate) trait Argument {
    fn put(&self, words: &mut Vec<u32>);
}

impl Argument for u32 {
    fn put(&self, words: &mut Vec<u32>) {
        words.push(*self);
    }
}

impl Argument for bool {
    fn put(&self, words: &mut Vec<u32>) {
        words.push(*self as u32);
    }
}

impl Argument for f32 {
    fn put(&self, words: &mut Vec<u32>) {
        words.push(self.to_bits());
    }
}

/// Two words, the lower one first.
impl Argument for usize {
    fn put(&self, words: &mut Vec<u32>) {
        words.extend([*self as u32, (*self as u64 >> 32) as u32]);
    }
}

impl<const N: usize> Argument for [f32; N] {
    fn put(&self, words: &mut Vec<u32>) {
        words.extend(self.map(f32::to_bits));
    }
}

impl Argument for &[u32] {
    fn put(&self, words: &mut Vec<u32>) {
        words.extend_from_slice(self);
    }
}

/// What a call gives, made from the value of its reply.
pub(crate) trait Value {
    fn of(value: usize) -> Self;
}

impl Value for () {
    fn of(_: usize) {}
}

impl Value for u32 {
    fn of(value: usize) -> u32 {
        value as u32
    }
}

/// Appends a record whose words are the arguments, one after the other. Inlined, it knows their
/// types: that saves some nanoseconds a call.
#[inline(always)]
pub(crate) fn append(words: &mut Vec<u32>, code: u32, arguments: &[&dyn Argument]) {
    words.push(code);
    let count = words.len();
    words.push(0);
    for argument in arguments {
        argument.put(words);
    }
    let n = words.len() - count - 1;
    words[count] = u32::try_from(n).expect("a record has fewer than 2^32 words");
}

/// A part of the bytes that are lent to a list: where it begins, and how many there are.
#[derive(Clone, Copy, Debug, Default)]
pub(crate) struct Part {
    pub place: usize,
    pub len: usize,
}

/// Appends a `buffer_data`, its data being a part of the lent bytes.
pub(crate) fn append_data(words: &mut Vec<u32>, target: u32, size: usize, data: Part, usage: u32) {
    append(words, code::BUFFER_DATA, &[&target, &size, &usage, &data.place, &data.len]);
}

/// Appends a `buffer_sub_data`, its data being a part of the lent bytes.
pub(crate) fn append_sub_data(words: &mut Vec<u32>, target: u32, offset: u32, data: Part) {
    append(words, code::BUFFER_SUB_DATA, &[&target, &offset, &data.place, &data.len]);
}

/// A draw before its indices are known.
#[derive(Clone, Copy, Debug)]
pub(crate) struct Drawn {
    pub mode: u32,
    pub stages: u32,
    pub base: u32,
    pub guest: Part,
}

/// Where a draw's indices come from.
#[derive(Clone, Copy, Debug)]
pub(crate) enum Indices<'a> {
    Lent(&'a [u32]),
    Range { first: u32, count: u32 },
    Stored { count: u32, ty: u32, pointer: u32 },
}

impl Indices<'_> {
    /// The code of their draw's record.
    fn code(&self) -> u32 {
        match self {
            Indices::Lent(_) => code::DRAW_ELEMENTS,
            Indices::Range { .. } => code::DRAW_ARRAYS,
            Indices::Stored { .. } => code::DRAW_ELEMENTS_FROM_GUEST,
        }
    }

    /// How many there are, if they can be read.
    pub fn count(&self) -> usize {
        match *self {
            Indices::Lent(list) => list.len(),
            Indices::Range { first, count } => (first.saturating_add(count) - first) as usize,
            Indices::Stored { count, .. } => count as usize,
        }
    }
}

impl Argument for Indices<'_> {
    fn put(&self, words: &mut Vec<u32>) {
        match *self {
            Indices::Lent(list) => words.extend_from_slice(list),
            Indices::Range { first, count } => words.extend([first, count]),
            Indices::Stored { count, ty, pointer } => words.extend([count, ty, pointer]),
        }
    }
}

/// Appends a draw. It may use all of the output that is lent.
pub(crate) fn append_draw(words: &mut Vec<u32>, drawn: Drawn, indices: Indices) {
    let Drawn { mode, stages, base, guest } = drawn;
    let (room, Part { place, len }) = (usize::MAX, guest);
    append(words, indices.code(), &[&mode, &stages, &room, &base, &place, &len, &indices]);
}

/// A rotation by an angle in degrees, as the host works it out.
pub(crate) enum Rotation {
    By {
        cosine: f32,
        sine: f32,
        axis: [f32; 3],
    },
    /// The axis has no length.
    Identity,
}

/// The matrix that changes nothing.
pub(crate) const IDENTITY: [f32; 16] =
    [1.0, 0.0, 0.0, 0.0, 0.0, 1.0, 0.0, 0.0, 0.0, 0.0, 1.0, 0.0, 0.0, 0.0, 0.0, 1.0];

impl Rotation {
    pub fn new(angle: f32, [x, y, z]: [f32; 3]) -> Self {
        let length = (x * x + y * y + z * z).sqrt();
        if length == 0.0 {
            return Rotation::Identity;
        }
        let radians = angle.to_radians();
        let axis = [x / length, y / length, z / length];
        Rotation::By { cosine: radians.cos(), sine: radians.sin(), axis }
    }

    pub fn append(self, words: &mut Vec<u32>) {
        match self {
            Rotation::By { cosine, sine, axis } => {
                append(words, code::ROTATE, &[&cosine, &sine, &axis])
            }
            Rotation::Identity => append(words, code::MULT, &[&IDENTITY]),
        }
    }
}
