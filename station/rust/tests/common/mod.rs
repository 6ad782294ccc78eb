//! What the tests share.
#![allow(dead_code)]

use beonasul::{Context, Guest, State, Store};
use std::io::{self, Write};
use std::sync::{Arc, Mutex};

/// Four positions of two bytes each, from address 4096 on: the corners of a square.
pub const SQUARE: Guest = Guest { base: 4096, bytes: &[0, 0, 1, 0, 0, 1, 1, 1] };

pub const VERTEX_ARRAY: u32 = 0x8074;
pub const ARRAY_BUFFER: u32 = 0x8892;
pub const ELEMENT_BUFFER: u32 = 0x8893;
pub const BYTE: u32 = 0x1400;
pub const UNSIGNED_BYTE: u32 = 0x1401;
pub const TRIANGLES: u32 = 4;
pub const STRIP: u32 = 5;

/// A context whose vertex array is the square's, and a store.
pub fn with_square() -> (Context, Store) {
    let mut context = Context::new();
    point_to_square(&mut context);
    (context, Store::new())
}

pub fn point_to_square(context: &mut Context) {
    context.set_vertex_pointer(2, BYTE, 0, SQUARE.base).unwrap();
    context.set_client_state(VERTEX_ARRAY, true).unwrap();
}

/// Every number of a state: equal states print alike, and -0 is not 0.
pub fn shown(state: &State) -> String {
    format!("{state:?}")
}

/// A writer whose bytes can be seen while another has it.
#[derive(Clone, Default)]
pub struct Page(Arc<Mutex<Vec<u8>>>);

impl Page {
    pub fn bytes(&self) -> Vec<u8> {
        self.0.lock().unwrap().clone()
    }

    /// The bytes as words.
    pub fn words(&self) -> Vec<u32> {
        let bytes = self.bytes();
        bytes.chunks(4).map(|word| u32::from_le_bytes(word.try_into().unwrap())).collect()
    }
}

impl Write for Page {
    fn write(&mut self, bytes: &[u8]) -> io::Result<usize> {
        self.0.lock().unwrap().extend_from_slice(bytes);
        Ok(bytes.len())
    }

    fn flush(&mut self) -> io::Result<()> {
        Ok(())
    }
}
