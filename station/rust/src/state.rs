//! The state of a context, as the library keeps it: a record of numbers, each choice as its
//! OpenGL ES enumerant.

/// All state of a context but the bytes of its buffers, which are in the store.
#[repr(C)]
#[derive(Clone, Copy, Debug, PartialEq)]
pub struct State {
    /// The matrix stacks.
    pub stacks: Stacks,
    /// The buffer objects.
    pub buffers: Buffers,
    /// The client arrays.
    pub arrays: Arrays,
    /// Current colour and texture coordinates.
    pub attributes: Attributes,
    /// The pipeline settings, which no draw reads.
    pub settings: Settings,
    /// The error slot: 0, or the first code since `take_error`.
    pub error: u32,
    /// The matrix mode in force, 0x1700 to 0x1702.
    pub mode: u32,
}

/// The stacks of the three matrix modes.
#[repr(C)]
#[derive(Clone, Copy, Debug, PartialEq)]
pub struct Stacks {
    /// That of mode 0x1700.
    pub modelview: MatrixStack,
    /// That of mode 0x1701.
    pub projection: MatrixStack,
    /// That of mode 0x1702.
    pub texture: MatrixStack,
}

/// A current matrix and up to 15 saved ones.
#[repr(C)]
#[derive(Clone, Copy, Debug, PartialEq)]
pub struct MatrixStack {
    /// The current matrix.
    pub current: Matrix,
    /// How many matrices are saved.
    pub depth: usize,
    /// The saved ones, the oldest first. Those from `depth` on have no meaning.
    pub saved: [Matrix; 15],
}

/// A matrix, column by column.
#[repr(C)]
#[derive(Clone, Copy, Debug, PartialEq)]
pub struct Matrix {
    /// The 16 entries.
    pub entries: [f32; 16],
}

/// The buffer objects: 16 slots, of which the live ones have a name.
#[repr(C)]
#[derive(Clone, Copy, Debug, PartialEq)]
pub struct Buffers {
    /// The slots. The bytes of slot k begin at 4096 * k in the store.
    pub slots: [Slot; 16],
    /// The next name that `gen_buffers` gives.
    pub next: u32,
    /// The buffer bound at 0x8892, or 0.
    pub array_buffer: u32,
    /// The buffer bound at 0x8893, or 0.
    pub element_buffer: u32,
}

/// One buffer object.
#[repr(C)]
#[derive(Clone, Copy, Debug, PartialEq)]
pub struct Slot {
    /// Its name; 0 for a free slot.
    pub name: u32,
    /// How many bytes it has.
    pub len: u32,
}

/// The client arrays.
#[repr(C)]
#[derive(Clone, Copy, Debug, PartialEq)]
pub struct Arrays {
    /// Positions.
    pub vertex: ArrayPointer,
    /// Colours.
    pub color: ArrayPointer,
    /// Normals.
    pub normal: ArrayPointer,
    /// Texture coordinates of the four units.
    pub texcoord: [ArrayPointer; 4],
    /// The unit that the texture coordinate calls are on.
    pub client_active_texture: u32,
}

/// A client array.
#[repr(C)]
#[derive(Clone, Copy, Debug, PartialEq)]
pub struct ArrayPointer {
    /// Whether draws read it.
    pub enabled: bool,
    /// Components of an element.
    pub size: u32,
    /// Type of a component.
    pub ty: u32,
    /// Bytes from one element to the next; 0 where they lie side by side.
    pub stride: u32,
    /// A guest address, or a place in the buffer.
    pub pointer: u32,
    /// The buffer's name, or 0 for guest memory.
    pub buffer: u32,
}

/// Current colour and texture coordinates.
#[repr(C)]
#[derive(Clone, Copy, Debug, PartialEq)]
pub struct Attributes {
    /// Red, green, blue, alpha.
    pub color: [f32; 4],
    /// A pair for each texture unit.
    pub pairs: [Pair; 4],
}

/// A pair of texture coordinates.
#[repr(C)]
#[derive(Clone, Copy, Debug, PartialEq)]
pub struct Pair {
    /// The first.
    pub s: f32,
    /// The second.
    pub t: f32,
}

/// The pipeline settings.
#[repr(C)]
#[derive(Clone, Copy, Debug, PartialEq)]
pub struct Settings {
    /// The unit that the texture calls are on.
    pub active_texture: u32,
    /// The texture units.
    pub units: [TextureUnit; 4],
    /// Depth test on.
    pub depth_test: bool,
    /// Its comparison.
    pub depth_func: u32,
    /// The near end of the depth range.
    pub near: f32,
    /// Its far end.
    pub far: f32,
    /// Alpha test on.
    pub alpha_test: bool,
    /// Its comparison.
    pub alpha_func: u32,
    /// Its reference value.
    pub reference: f32,
    /// Blending on.
    pub blend: bool,
    /// The source factor.
    pub src: u32,
    /// The destination factor.
    pub dst: u32,
    /// Face culling on.
    pub cull: bool,
    /// Which faces are culled.
    pub cull_mode: u32,
    /// Which faces are front faces.
    pub front_face: u32,
    /// Fog on.
    pub fog: bool,
    /// Its mode.
    pub fog_mode: u32,
    /// Its density.
    pub density: f32,
    /// Where linear fog begins.
    pub start: f32,
    /// Where it is full.
    pub end: f32,
}

/// A texture unit.
#[repr(C)]
#[derive(Clone, Copy, Debug, PartialEq)]
pub struct TextureUnit {
    /// Texturing on.
    pub enabled: bool,
    /// The environment's mode.
    pub env_mode: u32,
    /// The environment's colour.
    pub env_color: [f32; 4],
}
