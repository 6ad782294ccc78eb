//! The context and its calls.

use crate::caller::Caller;
use crate::calls::{append, append_data, append_sub_data, calls, Part, Rotation, Value};
use crate::draw::Triangle;
use crate::list::List;
use crate::state::State;
use crate::store::Store;
use crate::{Error, Result};
use std::cell::Cell;
use std::fmt;
use std::marker::PhantomData;

/// What a list of calls answers.
#[repr(C)]
#[derive(Clone, Copy, Debug, Default, PartialEq, Eq)]
pub struct Reply {
    /// The number of the last call that was made: 0 for done, else that of an [`Error`].
    pub number: u32,
    /// Its value: the triangles of a draw, the first name of `gen_buffers`, the code of
    /// `take_error`, else 0.
    pub value: usize,
    /// How many calls were made.
    pub made: usize,
}

impl Reply {
    /// The value of the last call, or why it was refused.
    pub fn result(self) -> Result<usize> {
        if self.number == 0 {
            return Ok(self.value);
        }
        Err(Error::from_number(self.number).expect("the library answers with the numbers of Error"))
    }
}

/// A context of the front end, with a method for each call.
///
/// A refused call changes nothing but the error slot (see [`Error`]).
///
/// # Matrices
///
/// The calls are on the stack of the mode in force: 0x1700 modelview, 0x1701 projection, 0x1702
/// texture. All but the loads multiply the current matrix on the right.
///
/// ```
/// use beonasul::{Context, Error};
///
/// let mut context = Context::new();
/// context.set_matrix_mode(0x1701)?;
/// context.frustum(-1.0, 1.0, -1.0, 1.0, 1.0, 3.0)?;
/// assert_eq!(context.state().stacks.projection.current.entries[10], -2.0);
/// context.set_matrix_mode(0x1700)?;
/// context.push_matrix()?;
/// context.rotate(90.0, 0.0, 0.0, 2.0)?;
/// context.pop_matrix()?;
/// assert_eq!(context.pop_matrix(), Err(Error::StackUnderflow));
/// assert_eq!(context.take_error()?, 0x0504);
/// # Ok::<(), Error>(())
/// ```
///
/// # Buffers
///
/// There are 16 buffers of at most 4,096 bytes. The calls that write them borrow the [`Store`].
///
/// ```
/// use beonasul::{Context, Error, Store};
///
/// let (mut context, mut store) = (Context::new(), Store::new());
/// let first = context.gen_buffers(2)?;
/// context.bind_buffer(0x8892, first)?;
/// context.buffer_data(&mut store, 0x8892, 6, Some(&[0, 0, 1, 0, 0, 1]), 0x88E4)?;
/// context.buffer_sub_data(&mut store, 0x8892, 2, &[3])?;
/// assert_eq!(context.buffer_sub_data(&mut store, 0x8892, 5, &[1, 2]), Err(Error::InvalidValue));
/// context.delete_buffers(&[first + 1])?;
/// let live = context.state().buffers.slots.iter().filter(|slot| slot.name != 0);
/// assert_eq!(live.map(|slot| (slot.name, slot.len)).collect::<Vec<_>>(), [(first, 6)]);
/// # Ok::<(), Error>(())
/// ```
///
/// # Arrays and attributes
///
/// A pointer is a guest address, or a place in the buffer that is bound at 0x8892. The current
/// colour and pairs stand in for arrays that are not enabled.
///
/// ```
/// use beonasul::Context;
///
/// let mut context = Context::new();
/// context.set_vertex_pointer(3, 0x140C, 0, 4096)?; // fixed point
/// context.set_client_state(0x8074, true)?;
/// context.set_color([0.5, 0.5, 0.5, 1.0])?;
/// context.set_client_active_texture(1)?;
/// context.set_texcoord_pointer(2, 0x1406, 8, 8192)?;
/// context.set_multi_texcoord(0x84C0 + 1, 0.25, 0.75)?;
/// let arrays = &context.state().arrays;
/// assert!(arrays.vertex.enabled && !arrays.texcoord[1].enabled);
/// assert_eq!(arrays.texcoord[1].pointer, 8192);
/// # Ok::<(), beonasul::Error>(())
/// ```
///
/// # Settings
///
/// They are kept for the rasteriser: no draw reads them. An unknown enumerant is refused.
///
/// ```
/// use beonasul::{Context, Error};
///
/// let mut context = Context::new();
/// context.set_capability(0x0B71, true)?; // the depth test
/// context.set_depth_func(0x0203)?;
/// context.set_blend_func(0x0302, 0x0303)?;
/// context.set_fog(0x0B65, 9729.0)?; // the mode, linear
/// assert_eq!(context.set_cull_face(0x0407), Err(Error::InvalidEnum));
/// let settings = &context.state().settings;
/// assert!(settings.depth_test && settings.depth_func == 0x0203);
/// assert_eq!(settings.fog_mode, 0x2601);
/// # Ok::<(), Error>(())
/// ```
///
/// # Draws
///
/// Each has two forms. One keeps the triangles in the context until the next call and gives them
/// as structs; the other fills a slice of yours, 51 f32 for each triangle.
///
/// ```
/// use beonasul::{Context, Error, Guest, Store, Triangle};
///
/// let (mut context, mut store) = (Context::new(), Store::new());
/// let guest = Guest { base: 4096, bytes: &[0, 0, 1, 0, 0, 1, 1, 1] };
/// context.set_vertex_pointer(2, 0x1400, 0, 4096)?;
/// context.set_client_state(0x8074, true)?;
/// for triangle in context.draw_elements(&mut store, guest, 5, 0, &[0, 1, 2, 3])? {
///     assert_eq!(triangle.vertices[0].color, [1.0; 4]);
/// }
/// let mut out = [0.0; 102];
/// let count = context.draw_arrays_into(&mut store, guest, 6, 0, 0, 4, &mut out)?;
/// assert_eq!(count, 2);
/// assert_eq!(Triangle::slice_of(&out)[1].vertices[2].position, [1.0, 1.0, 0.0, 1.0]);
/// let refused = context.draw_arrays(&mut store, guest, 4, 0, 0, 5);
/// assert_eq!(refused.err(), Some(Error::PositionUnreadable));
/// # Ok::<(), Error>(())
/// ```
///
/// # Recording
///
/// ```
/// use beonasul::Context;
/// use std::fs::File;
/// use std::io::BufWriter;
///
/// # let path = std::env::temp_dir().join(format!("beonasul-{}.trace", std::process::id()));
/// let mut context = Context::new();
/// context.record(BufWriter::new(File::create(&path)?))?;
/// context.translate(1.0, 2.0, 3.0)?;
/// context.stop_recording()?;
/// assert_eq!(std::fs::read(&path)?.len(), 8 + 20); // two records: FRESH, TRANSLATE x y z
/// # std::fs::remove_file(path)?;
/// # Ok::<(), Box<dyn std::error::Error>>(())
/// ```
///
/// # Threads
///
/// A context may go to another thread, but no two threads may share one.
///
/// ```compile_fail,E0277
/// fn is_sync<T: Sync>() {}
/// is_sync::<beonasul::Context>();
/// ```
pub struct Context {
    pub(crate) caller: Caller,
    /// The record of the call that is being made.
    pub(crate) words: Vec<u32>,
    /// What the last draw gave.
    pub(crate) out: Vec<Triangle>,
    not_sync: PhantomData<Cell<()>>,
}

impl Context {
    /// A fresh context.
    ///
    /// # Panics
    /// Where the library that is linked is of another version than this crate.
    pub fn new() -> Self {
        Context {
            caller: Caller::new(),
            words: Vec::with_capacity(32),
            out: Vec::new(),
            not_sync: PhantomData,
        }
    }

    /// All state, to look at.
    pub fn state(&self) -> &State {
        &self.caller.state
    }

    /// `glRotatef`: an angle in degrees about an axis of any length.
    ///
    /// Cosine, sine and unit axis are worked out here; about an axis of length 0 the current
    /// matrix is multiplied by the identity.
    pub fn rotate(&mut self, angle: f32, x: f32, y: f32, z: f32) -> Result<()> {
        self.words.clear();
        Rotation::new(angle, [x, y, z]).append(&mut self.words);
        self.caller.plain(&self.words, Some([angle, x, y, z])).result().map(<()>::of)
    }

    /// `glBufferData`: the bound buffer has `size` bytes from now on, those of `data` and then 0.
    pub fn buffer_data(
        &mut self,
        store: &mut Store,
        target: u32,
        size: usize,
        data: Option<&[u8]>,
        usage: u32,
    ) -> Result<()> {
        let data = data.unwrap_or(&[]);
        self.words.clear();
        append_data(&mut self.words, target, size, Part { place: 0, len: data.len() }, usage);
        self.caller.upload(&self.words, store, data).result().map(<()>::of)
    }

    /// `glBufferSubData`: puts bytes into the bound buffer.
    pub fn buffer_sub_data(
        &mut self,
        store: &mut Store,
        target: u32,
        offset: u32,
        data: &[u8],
    ) -> Result<()> {
        self.words.clear();
        append_sub_data(&mut self.words, target, offset, Part { place: 0, len: data.len() });
        self.caller.upload(&self.words, store, data).result().map(<()>::of)
    }

    /// Makes the calls of a list, one after the other. Each draw writes its triangles from the
    /// start of `out`, 51 f32 each, so a list has one draw, at its end, where those of each are
    /// wanted. A refused call does not end the list. While the context records, the calls are made
    /// one by one.
    pub fn run(&mut self, store: &mut Store, list: &List, out: &mut [f32]) -> Reply {
        self.caller.run(list, store, out)
    }
}

macro_rules! methods {
    ($(
        $(#[$doc:meta])*
        $code:literal $name:ident($($argument:ident: $type:ty),*) -> $value:ty;
    )*) => {
        impl Context {
            $(
                $(#[$doc])*
                pub fn $name(&mut self, $($argument: $type),*) -> Result<$value> {
                    self.words.clear();
                    append(&mut self.words, $code, &[$(&$argument),*]);
                    self.caller.plain(&self.words, None).result().map(<$value>::of)
                }
            )*
        }
    };
}
calls!(methods);

impl Default for Context {
    fn default() -> Self {
        Context::new()
    }
}

impl fmt::Debug for Context {
    fn fmt(&self, f: &mut fmt::Formatter<'_>) -> fmt::Result {
        f.debug_struct("Context").field("state", &self.caller.state).finish_non_exhaustive()
    }
}
