//! PocketHLE's calls (examples/pocket/adapter.rs) on guest memories of several kinds.

#[allow(dead_code)]
#[path = "../examples/pocket/adapter.rs"]
mod adapter;

use adapter::{Context, GuestMemory};
use beonasul::{Guest, Triangle};
use std::ops::Range;

const BYTE: u32 = 0x1400;
const UNSIGNED_BYTE: u32 = 0x1401;
const VERTEX_ARRAY: u32 = 0x8074;
const COLOR_ARRAY: u32 = 0x8076;
const ARRAY_BUFFER: u32 = 0x8892;
const TRIANGLES: u32 = 4;
const FAN: u32 = 6;
const CURRENT: [f32; 4] = [0.25, 0.5, 0.75, 1.0];

/// Byte i of each memory here is the lowest byte of its address.
struct Pieces {
    readable: Vec<Range<u64>>,
    /// Every read that succeeded: address and length.
    reads: Vec<(u32, usize)>,
}

impl Pieces {
    fn new(readable: &[Range<u64>]) -> Self {
        Pieces { readable: readable.to_vec(), reads: Vec::new() }
    }
}

impl GuestMemory for Pieces {
    fn read(&mut self, addr: u32, len: usize, out: &mut Vec<u8>) -> bool {
        let asked = addr as u64..addr as u64 + len as u64;
        let holds = |piece: &Range<u64>| piece.start <= asked.start && asked.end <= piece.end;
        let readable = self.readable.iter().any(holds);
        if readable {
            self.reads.push((addr, len));
            *out = asked.map(|address| address as u8).collect();
        }
        readable
    }
}

/// A memory that is lent as it lies there.
struct Whole(Vec<u8>);

impl GuestMemory for Whole {
    fn read(&mut self, _: u32, _: usize, _: &mut Vec<u8>) -> bool {
        panic!("a memory with a view is not read")
    }

    fn view(&self) -> Option<Guest<'_>> {
        Some(Guest { base: 4096, bytes: &self.0 })
    }
}

/// Positions of one byte at `positions`, colours of one byte at `colors`.
fn context(positions: u32, colors: u32) -> Context {
    let mut context = Context::new();
    context.set_vertex_pointer(1, BYTE, 0, positions);
    context.set_client_state(VERTEX_ARRAY, true);
    context.set_color_pointer(1, UNSIGNED_BYTE, 0, colors);
    context.set_client_state(COLOR_ARRAY, true);
    context.set_color(CURRENT);
    context
}

/// x and red of each corner that a draw of these indices hands over.
fn drawn(
    context: &mut Context,
    mem: &mut dyn GuestMemory,
    mode: u32,
    list: &[u32],
) -> Vec<[f32; 2]> {
    let mut corners = Vec::new();
    let mut keep = |triangle: &Triangle| {
        corners.extend(triangle.vertices.map(|v| [v.position[0], v.color[0]]));
    };
    context.draw_elements(mem, mode, list, &mut keep);
    corners
}

fn red(byte: u8) -> f32 {
    byte as f32 / 255.0
}

#[test]
fn a_view_is_lent_as_it_lies_there() {
    let mut context = context(4096, 4097);
    let corners = drawn(&mut context, &mut Whole((0..8).collect()), TRIANGLES, &[0, 1, 2]);
    assert_eq!(corners, [[0.0, red(1)], [1.0, red(2)], [2.0, red(3)]]);
    let mut count = 0;
    context.draw_elements_from_guest(
        &mut Whole((0..8).collect()),
        FAN,
        4,
        UNSIGNED_BYTE,
        4096,
        |_| count += 1,
    );
    assert_eq!((context.number(), count), (0, 2));
}

#[test]
fn arrays_side_by_side_are_read_once() {
    let piece = 0x1000..0x1100;
    let mut mem = Pieces::new(&[piece]);
    let corners = drawn(&mut context(0x1001, 0x1040), &mut mem, TRIANGLES, &[4, 2, 3]);
    assert_eq!(corners, [[5.0, red(0x44)], [3.0, red(0x42)], [4.0, red(0x43)]]);
    assert_eq!(mem.reads, [(0x1003, 0x42)]);
}

#[test]
fn arrays_far_apart_are_read_one_by_one() {
    let top = 1 << 32;
    let mut mem = Pieces::new(&[0x1000..0x1100, top - 3..top]);
    let corners = drawn(&mut context(0x1001, 0xffff_fffd), &mut mem, TRIANGLES, &[0, 1, 2]);
    assert_eq!(corners, [[1.0, red(0xfd)], [2.0, red(0xfe)], [3.0, red(0xff)]]);
    assert_eq!(mem.reads, [(0x1001, 3), (0xffff_fffd, 3)]);
}

#[test]
fn a_memory_that_goes_on_past_the_last_address_is_read_so() {
    let top: u64 = 1 << 32;
    let mut mem = Pieces::new(&[0x1000..0x1100, top - 2..top + 2]);
    let mut context = context(0x1001, 0xffff_fffe);
    context.set_color_pointer(2, UNSIGNED_BYTE, 1, 0xffff_fffe);
    // The second colour ends past the last address, the third would begin there.
    let corners = drawn(&mut context, &mut mem, TRIANGLES, &[0, 1, 2]);
    assert_eq!(corners, [[1.0, red(0xfe)], [2.0, red(0xff)], [3.0, CURRENT[0]]]);
}

#[test]
fn elements_in_a_hole_take_the_current_values() {
    let mut mem = Pieces::new(&[0x1000..0x1042, 0x1043..0x1100]);
    let mut context = context(0x1001, 0x1041);
    context.bind_buffer(ARRAY_BUFFER, 7);
    let before = *context.state();
    let corners = drawn(&mut context, &mut mem, FAN, &[0, 1, 2, 1]);
    let (a, b, c) = ([1.0, red(0x41)], [2.0, CURRENT[0]], [3.0, red(0x43)]);
    assert_eq!(corners, [a, b, c, a, c, b]);
    assert_eq!(*context.state(), before);
}

#[test]
fn a_position_in_a_hole_ends_the_draw() {
    let mut mem = Pieces::new(&[0x1000..0x1002, 0x1003..0x1100]);
    let mut context = context(0x1001, 0x1041);
    for mode in [TRIANGLES, 0, 7] {
        assert!(drawn(&mut context, &mut mem, mode, &[0, 1, 2]).is_empty());
        assert_eq!(context.number(), 9);
    }
    assert_eq!(context.take_error(), 0);
}

#[test]
fn modes_are_asked_on_a_memory_with_holes_too() {
    let mut mem = Pieces::new(&[0x1000..0x1042, 0x1043..0x1100]);
    let mut context = context(0x1001, 0x1041);
    for (mode, number) in [(7, 0x0500), (1, 10)] {
        assert!(drawn(&mut context, &mut mem, mode, &[0, 1, 2]).is_empty());
        assert_eq!(context.number(), number);
    }
    assert_eq!(context.take_error(), 0x0500);
}

#[test]
fn indices_that_cannot_be_read_end_the_draw() {
    let piece = 0x1000..0x1100;
    let mut mem = Pieces::new(&[piece]);
    let mut context = context(0x1001, 0x1041);
    for (count, pointer, number) in [(4, 0x10fd, 7), (0, 0, 7), (0, 0x1100, 0), (4, 0x10fc, 9)] {
        context.draw_elements_from_guest(&mut mem, FAN, count, UNSIGNED_BYTE, pointer, |_| {
            panic!("there is nothing to draw")
        });
        assert_eq!(context.number(), number);
    }
}

#[test]
fn a_long_range_ends_at_the_first_position_that_is_not_there() {
    let piece = 0x1000..0x1100;
    let mut mem = Pieces::new(&[piece]);
    let mut context = context(0x1001, 0x1041);
    context.draw_arrays(&mut mem, TRIANGLES, 0, u32::MAX, |_| panic!("nothing is drawn"));
    assert_eq!(context.number(), 9);
    // With the positions in a buffer, nothing else is read for it.
    context.bind_buffer(ARRAY_BUFFER, 1);
    context.buffer_data(ARRAY_BUFFER, 6, None, 0);
    context.set_vertex_pointer(1, BYTE, 0, 0);
    context.draw_arrays(&mut mem, TRIANGLES, 0, u32::MAX, |_| panic!("nothing is drawn"));
    assert_eq!(context.number(), 9);
    let mut count = 0;
    context.draw_arrays(&mut mem, TRIANGLES, 0, 6, |_| count += 1);
    assert_eq!((context.number(), count), (0, 2));
}
