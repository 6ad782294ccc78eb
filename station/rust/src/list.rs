//! Lists of calls, made once and run as often as wanted.

use crate::calls::{
    append, append_data, append_draw, append_sub_data, calls, Drawn, Indices, Part, Rotation,
};

/// A list of calls. Its methods are those of [`Context`](crate::Context); each appends a call.
/// [`Context::run`](crate::Context::run) makes them all, at less cost than one by one.
///
/// The list holds the bytes that its calls borrow. Draws read the guest memory that was put in by
/// [`guest`](List::guest) last before them.
///
/// ```
/// use beonasul::{Context, List, Store, Triangle};
///
/// let (mut context, mut store) = (Context::new(), Store::new());
/// let mut list = List::new();
/// list.set_vertex_pointer(2, 0x1400, 0, 4096).set_client_state(0x8074, true);
/// list.guest(4096, &[0, 0, 1, 0, 0, 1]).translate(1.0, 0.0, 0.0).draw_arrays(4, 0, 0, 3);
/// let mut out = [0.0; 51];
/// let reply = context.run(&mut store, &list, &mut out);
/// assert_eq!((reply.made, reply.result()?), (4, 1));
/// assert_eq!(Triangle::slice_of(&out)[0].vertices[1].position, [2.0, 0.0, 0.0, 1.0]);
/// # Ok::<(), beonasul::Error>(())
/// ```
#[derive(Clone, Debug, Default)]
pub struct List {
    words: Vec<u32>,
    bytes: Vec<u8>,
    base: u32,
    guest: Part,
    calls: usize,
    /// Where in the words a rotation stands, and the angle and axis that it was made from.
    rotations: Vec<(usize, [f32; 4])>,
}

impl List {
    /// A list without calls.
    pub fn new() -> Self {
        List::default()
    }

    /// Takes all calls and bytes out, and keeps their memory for the next.
    pub fn clear(&mut self) {
        let (mut words, mut bytes) =
            (std::mem::take(&mut self.words), std::mem::take(&mut self.bytes));
        words.clear();
        bytes.clear();
        *self = List { words, bytes, ..List::default() };
    }

    /// How many calls it has.
    pub fn len(&self) -> usize {
        self.calls
    }

    /// Whether it has no call.
    pub fn is_empty(&self) -> bool {
        self.calls == 0
    }

    /// The guest memory of all later draws of the list: the bytes from address `base` on.
    pub fn guest(&mut self, base: u32, bytes: &[u8]) -> &mut Self {
        self.base = base;
        self.guest = self.keep(bytes);
        self
    }

    /// `glRotatef`, as [`Context::rotate`](crate::Context::rotate).
    pub fn rotate(&mut self, angle: f32, x: f32, y: f32, z: f32) -> &mut Self {
        self.rotations.push((self.words.len(), [angle, x, y, z]));
        Rotation::new(angle, [x, y, z]).append(&mut self.words);
        self.count()
    }

    /// `glBufferData`, as [`Context::buffer_data`](crate::Context::buffer_data).
    pub fn buffer_data(
        &mut self,
        target: u32,
        size: usize,
        data: Option<&[u8]>,
        usage: u32,
    ) -> &mut Self {
        let data = self.keep(data.unwrap_or(&[]));
        append_data(&mut self.words, target, size, data, usage);
        self.count()
    }

    /// `glBufferSubData`, as [`Context::buffer_sub_data`](crate::Context::buffer_sub_data).
    pub fn buffer_sub_data(&mut self, target: u32, offset: u32, data: &[u8]) -> &mut Self {
        let data = self.keep(data);
        append_sub_data(&mut self.words, target, offset, data);
        self.count()
    }

    /// As [`Context::draw_elements`](crate::Context::draw_elements).
    pub fn draw_elements(&mut self, mode: u32, stages: u32, indices: &[u32]) -> &mut Self {
        self.draw(mode, stages, Indices::Lent(indices))
    }

    /// As [`Context::draw_arrays`](crate::Context::draw_arrays).
    pub fn draw_arrays(&mut self, mode: u32, stages: u32, first: u32, count: u32) -> &mut Self {
        self.draw(mode, stages, Indices::Range { first, count })
    }

    /// As [`Context::draw_elements_from_guest`](crate::Context::draw_elements_from_guest).
    pub fn draw_elements_from_guest(
        &mut self,
        mode: u32,
        stages: u32,
        count: u32,
        ty: u32,
        pointer: u32,
    ) -> &mut Self {
        self.draw(mode, stages, Indices::Stored { count, ty, pointer })
    }

    pub(crate) fn words(&self) -> &[u32] {
        &self.words
    }

    pub(crate) fn bytes(&self) -> &[u8] {
        &self.bytes
    }

    /// The record of each call, with the angle and axis of a rotation.
    pub(crate) fn records(&self) -> impl Iterator<Item = (&[u32], Option<[f32; 4]>)> {
        let (mut at, mut rotations) = (0, self.rotations.iter().peekable());
        (0..self.calls).map(move |_| {
            let from = at;
            at += 2 + self.words[from + 1] as usize;
            let rotation = rotations.next_if(|(place, _)| *place == from);
            (&self.words[from..at], rotation.map(|(_, asked)| *asked))
        })
    }

    fn draw(&mut self, mode: u32, stages: u32, indices: Indices) -> &mut Self {
        let drawn = Drawn { mode, stages, base: self.base, guest: self.guest };
        append_draw(&mut self.words, drawn, indices);
        self.count()
    }

    fn keep(&mut self, bytes: &[u8]) -> Part {
        let part = Part { place: self.bytes.len(), len: bytes.len() };
        self.bytes.extend_from_slice(bytes);
        part
    }

    fn count(&mut self) -> &mut Self {
        self.calls += 1;
        self
    }
}

macro_rules! methods {
    ($(
        $(#[$doc:meta])*
        $code:literal $name:ident($($argument:ident: $type:ty),*) -> $value:ty;
    )*) => {
        impl List {
            $(
                $(#[$doc])*
                pub fn $name(&mut self, $($argument: $type),*) -> &mut Self {
                    append(&mut self.words, $code, &[$(&$argument),*]);
                    self.count()
                }
            )*
        }
    };
}
calls!(methods);
