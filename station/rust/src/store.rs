//! The store, which holds the bytes of the buffers.

use std::cell::Cell;
use std::fmt;
use std::marker::PhantomData;
use std::sync::atomic::{AtomicU64, Ordering};

/// How many bytes a store has.
pub(crate) const STORE_BYTES: usize = 65_536;

#[repr(C, align(64))]
struct Area([u8; STORE_BYTES]);

/// The memory in which the buffers of a [`Context`](crate::Context) lie: 65,536 bytes.
///
/// It is lent to the calls that read or write buffers. A context's buffers are in the one store
/// that it was always lent; two contexts need two stores.
///
/// As a context it may go to another thread, but no two threads may share one.
///
/// ```compile_fail,E0277
/// fn is_sync<T: Sync>() {}
/// is_sync::<beonasul::Store>();
/// ```
pub struct Store {
    area: Box<Area>,
    stamp: u64,
    not_sync: PhantomData<Cell<()>>,
}

impl Store {
    /// A store of zero bytes.
    pub fn new() -> Self {
        let area = Box::new(Area([0; STORE_BYTES]));
        Store { area, stamp: next_stamp(), not_sync: PhantomData }
    }

    /// All bytes. Those that no live buffer holds have no meaning.
    pub fn as_bytes(&self) -> &[u8] {
        &self.area.0
    }

    pub(crate) fn bytes(&mut self) -> &mut [u8] {
        &mut self.area.0
    }

    /// A number that no other store has and that this one had not before its last buffer call.
    pub(crate) fn stamp(&self) -> u64 {
        self.stamp
    }

    /// To be called at each buffer call.
    pub(crate) fn renew_stamp(&mut self) {
        self.stamp = next_stamp();
    }
}

fn next_stamp() -> u64 {
    static LAST: AtomicU64 = AtomicU64::new(0);
    LAST.fetch_add(1, Ordering::Relaxed)
}

impl Default for Store {
    fn default() -> Self {
        Store::new()
    }
}

impl fmt::Debug for Store {
    fn fmt(&self, f: &mut fmt::Formatter<'_>) -> fmt::Result {
        f.debug_struct("Store").finish_non_exhaustive()
    }
}
