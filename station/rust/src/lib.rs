//! The proved vertex front end of an OpenGL ES 1.x renderer, for programs in Rust.
//!
//! A [`Context`] takes the calls of a viewer: matrices, buffers, arrays, settings, draws. Its
//! methods have the names and the order of arguments of PocketHLE's `Context`, and each answers
//! with a [`Result`]. A draw gives [`Triangles`]; three positions in guest memory, moved by 1 along
//! x, make one:
//!
//! ```
//! use beonasul::{Context, Guest, Store};
//!
//! let (mut context, mut store) = (Context::new(), Store::new());
//! let guest = Guest { base: 4096, bytes: &[0, 0, 1, 0, 0, 1] };
//! context.set_vertex_pointer(2, 0x1400, 0, guest.base)?;
//! context.set_client_state(0x8074, true)?;
//! context.translate(1.0, 0.0, 0.0)?;
//! let mut triangles = context.draw_arrays(&mut store, guest, 4, 0, 0, 3)?;
//! let [a, b, c] = triangles.next().unwrap().vertices.map(|corner| corner.position);
//! assert_eq!([a, b, c], [[1.0, 0.0, 0.0, 1.0], [2.0, 0.0, 0.0, 1.0], [1.0, 1.0, 0.0, 1.0]]);
//! # Ok::<(), beonasul::Error>(())
//! ```
//!
//! What is proved of each call stands in the repository's docs/PROMISES.md. The library is proved
//! of what it is lent: this crate lends it memory of its own or borrowed for the call, never twice
//! and never to two threads, so a program that has no `unsafe` of its own keeps the rules.
//!
//! Enumerants are those of OpenGL ES 1.1, as numbers. A [`List`] makes many calls at the cost of
//! few. [`Context::record`] writes a trace of all calls, which the program `replay` makes again
//! elsewhere.
//!
//! The build takes the library `libstation.a` from the folder that the variable `BEONASUL_LIB`
//! names, else from the repository's target/staticlib, where `station/library` puts it, else from
//! where `./install` put it.

#![deny(missing_docs)]

mod caller;
mod calls;
mod context;
mod draw;
mod error;
mod ffi;
mod list;
mod record;
mod recorder;
pub mod state;
mod store;

pub use context::{Context, Reply};
pub use draw::{Guest, Triangle, Triangles, Vertex, TRIANGLE_FLOATS};
pub use error::{Error, Result};
pub use list::List;
pub use record::RecordError;
pub use state::State;
pub use store::Store;

// A context or a store may go to another thread, with all that belongs to it.
const _: () = {
    const fn is_send<T: Send>() {}
    is_send::<Context>();
    is_send::<Store>();
    is_send::<List>();
    is_send::<RecordError>();
};

/// The README's program is run as an example, too.
#[cfg(doctest)]
#[doc = include_str!("../README.md")]
struct Readme;
