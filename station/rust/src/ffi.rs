//! The boundary: the library's three functions, and the only place that calls them.

use crate::state::State;
use crate::store::STORE_BYTES;
use crate::Reply;
use std::mem::size_of;
use std::sync::OnceLock;

/// The version of the boundary that this crate is written for.
const VERSION: u32 = 1;

/// What both sides must agree on: the boundary's version, and the bytes of a context, of a reply
/// and of a store.
#[repr(C)]
#[derive(Clone, Copy, Debug, PartialEq)]
struct Layout {
    version: u32,
    context: u32,
    reply: u32,
    store: u32,
}

const LAYOUT: Layout = Layout {
    version: VERSION,
    context: size_of::<State>() as u32,
    reply: size_of::<Reply>() as u32,
    store: STORE_BYTES as u32,
};

extern "C" {
    fn beonasul_layout() -> Layout;
    fn beonasul_fresh() -> State;
    // A slice is passed as its pointer and its length.
    fn beonasul_run(
        context: &mut State,
        store: *mut u8,
        store_len: usize,
        words: *const u32,
        words_len: usize,
        bytes: *const u8,
        bytes_len: usize,
        out: *mut f32,
        out_len: usize,
    ) -> Reply;
}

/// Panics if the library is not the one that the crate is written for.
fn check(library: Layout) {
    assert!(library == LAYOUT, "the library is {library:?}, this crate was written for {LAYOUT:?}");
}

/// The state of a fresh context. The library is looked at once, before it makes the first.
pub(crate) fn fresh() -> Box<State> {
    static CHECKED: OnceLock<()> = OnceLock::new();
    // SAFETY: the function has no argument and reads no memory.
    CHECKED.get_or_init(|| check(unsafe { beonasul_layout() }));
    // SAFETY: the two sides agree on the size of what is handed back.
    Box::new(unsafe { beonasul_fresh() })
}

/// Makes the calls of the records in `words`.
pub(crate) fn run(
    state: &mut State,
    store: &mut [u8],
    words: &[u32],
    bytes: &[u8],
    out: &mut [f32],
) -> Reply {
    let (sp, sl, wp, wl) = (store.as_mut_ptr(), store.len(), words.as_ptr(), words.len());
    let (bp, bl, op, ol) = (bytes.as_ptr(), bytes.len(), out.as_mut_ptr(), out.len());
    // SAFETY: all pointers come from slices that are borrowed for the call; those that are written
    // are borrowed alone, so no two areas overlap. Only `fresh` makes a state, so the library was
    // looked at, and only the library has written it, so its bools are 0 or 1.
    unsafe { beonasul_run(state, sp, sl, wp, wl, bp, bl, op, ol) }
}

#[cfg(test)]
mod tests {
    use super::*;

    #[test]
    fn the_library_is_the_one_that_is_meant() {
        assert_eq!(LAYOUT, Layout { version: 1, context: 3640, reply: 24, store: 65_536 });
        check(unsafe { beonasul_layout() });
    }

    #[test]
    #[should_panic(expected = "this crate was written for")]
    fn another_version_is_refused() {
        check(Layout { version: VERSION + 1, ..LAYOUT });
    }

    #[test]
    #[should_panic(expected = "this crate was written for")]
    fn another_size_is_refused() {
        check(Layout { context: LAYOUT.context + 8, ..LAYOUT });
    }
}
