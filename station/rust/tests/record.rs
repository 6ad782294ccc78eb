//! The recorder: what it writes, and where it stops.

mod common;

use beonasul::{Context, Error, Guest, List, RecordError, Store};
use common::*;
use std::io::{self, Write};

const FRESH: [u32; 2] = [0x02, 0];

/// A fresh context that is recorded.
fn recorded() -> (Context, Store, Page) {
    let (mut context, page) = (Context::new(), Page::default());
    context.record(page.clone()).unwrap();
    (context, Store::new(), page)
}

/// The words of the trace after FRESH.
fn trace(page: &Page) -> Vec<u32> {
    let words = page.words();
    assert_eq!(words[..2], FRESH);
    words[2..].to_vec()
}

fn bits<const N: usize>(floats: [f32; N]) -> [u32; N] {
    floats.map(f32::to_bits)
}

#[test]
fn a_rotation_is_written_with_angle_and_axis() {
    let (mut context, _, page) = recorded();
    context.rotate(60.0, 0.0, 3.0, 4.0).unwrap();
    let radians = 60f32.to_radians();
    let [cosine, sine] = [radians.cos(), radians.sin()];
    let words = [&[0x18, 9][..], &bits([cosine, sine, 0.0, 0.6, 0.8, 60.0, 0.0, 3.0, 4.0])];
    assert_eq!(trace(&page), words.concat());
}

#[test]
fn a_rotation_about_no_axis_is_written_as_such() {
    let (mut context, _, page) = recorded();
    context.rotate(60.0, 0.0, 1e-30, -0.0).unwrap();
    context.rotate(60.0, f32::NAN, 0.0, 0.0).unwrap();
    let words = trace(&page);
    assert_eq!(words[..6], [&[0x19, 4][..], &bits([60.0, 0.0, 1e-30, -0.0])].concat());
    assert_eq!(words[6..8], [0x18, 9]);
}

#[test]
fn a_rotation_by_cosine_and_sine_is_written_with_its_angle() {
    let (mut context, _, page) = recorded();
    context.rotate_by(0.0, 1.0, [1.0, 0.0, 0.0]).unwrap();
    let words = [&[0x18, 9][..], &bits([0.0, 1.0, 1.0, 0.0, 0.0, 90.0, 1.0, 0.0, 0.0])];
    assert_eq!(trace(&page), words.concat());
}

#[test]
fn buffer_calls_are_written_with_their_bytes() {
    let (mut context, mut store, page) = recorded();
    context.gen_buffers(2).unwrap();
    context.delete_buffers(&[2, 7]).unwrap();
    context.bind_buffer(ARRAY_BUFFER, 1).unwrap();
    context.buffer_data(&mut store, ARRAY_BUFFER, 6, Some(&[1, 2, 3, 4, 5]), 0x88E4).unwrap();
    context.buffer_data(&mut store, ARRAY_BUFFER, 6, None, 0x88E4).unwrap();
    context.buffer_sub_data(&mut store, ARRAY_BUFFER, 1, &[6, 7]).unwrap();
    let words: [&[u32]; 6] = [
        &[0x20, 1, 2],
        &[0x22, 3, 2, 2, 7],
        &[0x21, 2, ARRAY_BUFFER, 1],
        &[0x23, 7, ARRAY_BUFFER, 6, 0x88E4, 1, 5, 0x04030201, 5],
        &[0x23, 5, ARRAY_BUFFER, 6, 0x88E4, 0, 0],
        &[0x24, 4, ARRAY_BUFFER, 1, 2, 0x0706],
    ];
    assert_eq!(trace(&page), words.concat());
}

#[test]
fn the_guest_view_is_written_where_it_changed() {
    let (mut context, mut store, page) = recorded();
    let other = Guest { base: 8192, ..SQUARE };
    let mut out = [0.0; 60];
    for guest in [SQUARE, SQUARE, other, other, Guest::none()] {
        let _ = context.draw_arrays_into(&mut store, guest, 4, 0, 0, 3, &mut out);
    }
    let _ = context.draw_elements(&mut store, Guest::none(), 5, 1, &[4, 5, 6, 7, 8]);
    let _ = context.draw_elements_from_guest(&mut store, Guest::none(), 4, 0, 9, 0x1403, 4096);
    let draw = [0x61, 5, 4, 0, 60, 0, 3];
    let words: [&[u32]; 10] = [
        &[0x06, 4, 4096, 8, 0x00010000, 0x01010100],
        &draw,
        &draw,
        &[0x08, 1, 8192],
        &draw,
        &draw,
        &[0x06, 2, 0, 0],
        &draw,
        &[0x60, 9, 5, 1, 153, 5, 4, 5, 6, 7, 8],
        &[0x62, 6, 4, 0, 153, 9, 0x1403, 4096],
    ];
    assert_eq!(trace(&page), words.concat());
}

#[test]
fn a_draw_that_makes_the_output_grow_is_written_once() {
    let (mut context, mut store, page) = recorded();
    point_to_square(&mut context);
    let before = page.words().len();
    assert_eq!(context.draw_arrays(&mut store, SQUARE, STRIP, 0, 0, 4).unwrap().len(), 2);
    let words = page.words().split_off(before);
    assert_eq!(words[words.len() - 7..], [0x61, 5, STRIP, 0, 102, 0, 4]);
    assert_eq!(words.len(), 6 + 7);
}

#[test]
fn an_output_longer_than_a_trace_has_is_written_as_long_as_it_has() {
    let (mut context, mut store, page) = recorded();
    let mut out = vec![0.0; 835_585];
    let _ = context.draw_arrays_into(&mut store, Guest::none(), 4, 0, 0, 3, &mut out);
    assert_eq!(trace(&page)[4..], [0x61, 5, 4, 0, 835_584, 0, 3]);
}

#[test]
fn only_a_fresh_context_can_be_recorded() {
    let mut context = Context::new();
    context.load_identity().unwrap();
    assert!(matches!(context.record(Page::default()), Err(RecordError::NotFresh)));
    context.reset();
    context.record(Page::default()).unwrap();
    assert!(matches!(context.record(Page::default()), Err(RecordError::Recording)));
    context.stop_recording().unwrap();
    context.record(Page::default()).unwrap();
}

#[test]
fn a_context_made_fresh_again_is_written_so() {
    let (mut context, mut store, page) = recorded();
    context.reset();
    assert_eq!(trace(&page), []);
    context.bind_buffer(ARRAY_BUFFER, 1).unwrap();
    context.buffer_data(&mut store, ARRAY_BUFFER, 0, None, 0).unwrap();
    let before = page.words().len();
    context.reset();
    assert_eq!(shown(context.state()), shown(Context::new().state()));
    assert_eq!(page.words()[before..], FRESH);
    context.bind_buffer(ARRAY_BUFFER, 1).unwrap();
    let mut other = Store::new();
    context.buffer_data(&mut other, ARRAY_BUFFER, 0, None, 0).unwrap();
    context.stop_recording().unwrap();
}

/// The recorder stops at the call, which is the `after`th: the trace keeps its words.
fn stops(context: &mut Context, page: &Page, words: &[u32], after: u64, text: &str) {
    let error = context.record_error().expect("the recorder has stopped").to_string();
    assert_eq!(error, format!("call {after} is not recorded: {text}"));
    assert_eq!(page.words(), words, "something was written of a call that is not recorded");
    context.load_identity().unwrap();
    assert_eq!(page.words(), words, "something was written after the recorder has stopped");
    assert_eq!(context.stop_recording().unwrap_err().to_string(), error);
    assert!(context.record_error().is_none());
}

/// Makes a call after two others, the recorder stops at it: what the call answers.
fn beyond<T>(text: &str, call: impl FnOnce(&mut Context, &mut Store) -> T) -> T {
    let (mut context, mut store, page) = recorded();
    point_to_square(&mut context);
    let words = page.words();
    let answer = call(&mut context, &mut store);
    stops(&mut context, &page, &words, 2, text);
    answer
}

#[test]
fn a_draw_beyond_the_bounds_is_made_but_not_recorded() {
    let large = vec![0; 262_145];
    let view = |len| Guest { base: 4096, bytes: &large[..len] };
    let made = beyond("a trace has at most 262144 bytes of guest memory", |context, store| {
        context.draw_arrays(store, view(262_145), 4, 0, 0, 3).map(|drawn| drawn.len())
    });
    assert_eq!(made, Ok(1));
    let text = "a trace has at most 16384 indices";
    let made = beyond(text, |context, store| {
        context.draw_elements(store, SQUARE, 4, 0, &[0; 16_385]).map(|drawn| drawn.len())
    });
    assert_eq!(made, Ok(5_461));
    let made = beyond(text, |context, store| {
        context.draw_arrays(store, SQUARE, 4, 0, 0, 16_385).map(|drawn| drawn.len())
    });
    assert_eq!(made, Err(Error::PositionUnreadable));
    let made = beyond(text, |context, store| {
        let drawn =
            context.draw_elements_from_guest(store, view(16_385), 4, 0, 16_385, 0x1401, 4096);
        drawn.map(|drawn| drawn.len())
    });
    assert_eq!(made, Ok(5_461));
}

#[test]
fn a_buffer_call_beyond_the_bounds_is_made_but_not_recorded() {
    let names = |context: &mut Context, _: &mut Store| context.delete_buffers(&[0; 16_385]);
    assert_eq!(beyond("a trace has at most 16384 names to delete", names), Ok(()));
    let names = |context: &mut Context, _: &mut Store| context.gen_buffers(1 << 32);
    let made = beyond("a trace has at most 4294967295 names to make", names);
    assert_eq!(made, Err(Error::NoBufferLeft));
    let made = beyond("a trace has at most 4294967295 bytes in a buffer", |context, store| {
        context.buffer_data(store, ARRAY_BUFFER, 1 << 32, None, 0)
    });
    assert_eq!(made, Err(Error::InvalidOperation));
    let text = "a trace has at most 8192 bytes for a buffer";
    let made = beyond(text, |context, store| {
        context.buffer_data(store, ARRAY_BUFFER, 4, Some(&[0; 8_193]), 0)
    });
    assert_eq!(made, Err(Error::InvalidOperation));
    let made =
        beyond(text, |context, store| context.buffer_sub_data(store, ARRAY_BUFFER, 0, &[0; 8_193]));
    assert_eq!(made, Err(Error::InvalidOperation));
}

#[test]
fn a_call_at_the_bounds_is_recorded() {
    let (mut context, mut store, _) = recorded();
    let large = vec![0; 262_144];
    let guest = Guest { base: 4096, bytes: &large };
    let _ = context.draw_arrays(&mut store, guest, 1, 0, 0, u32::MAX);
    point_to_square(&mut context);
    assert_eq!(context.draw_elements(&mut store, guest, 5, 0, &[0; 16_384]).unwrap().len(), 16_382);
    assert_eq!(context.draw_arrays(&mut store, guest, 5, 0, 0, 16_384).unwrap().len(), 16_382);
    let mut draw = |count, ty, pointer| {
        context.draw_elements_from_guest(&mut store, guest, 4, 0, count, ty, pointer).err()
    };
    assert_eq!(draw(16_384, 0x1401, 4096), None);
    assert_eq!(draw(16_385, 0x1402, 4096), Some(Error::InvalidEnum));
    assert_eq!(draw(16_385, 0x1403, 4095), Some(Error::IndicesUnreadable));
    assert_eq!(draw(131_073, 0x1403, 4096), Some(Error::IndicesUnreadable));
    context.bind_buffer(ELEMENT_BUFFER, 1).unwrap();
    let refused = context.draw_elements_from_guest(&mut store, guest, 4, 0, 16_385, 0x1401, 4096);
    assert_eq!(refused.err(), Some(Error::InvalidValue));
    context.buffer_data(&mut store, ELEMENT_BUFFER, 4, Some(&large[..8_192]), 0).unwrap();
    context.delete_buffers(&[0; 16_384]).unwrap();
    context.stop_recording().unwrap();
}

#[test]
fn another_store_stops_the_recorder() {
    let text = "the store is not that of the calls before";
    let (mut context, mut store, page) = recorded();
    context.bind_buffer(ARRAY_BUFFER, 1).unwrap();
    context.buffer_data(&mut store, ARRAY_BUFFER, 4, Some(&[1; 4]), 0).unwrap();
    let _ = context.draw_arrays(&mut store, SQUARE, 4, 0, 0, 3);
    let words = page.words();
    let _ = context.draw_arrays(&mut Store::new(), SQUARE, 4, 0, 0, 3);
    stops(&mut context, &page, &words, 3, text);
}

#[test]
fn a_store_that_another_context_has_written_stops_the_recorder() {
    let text = "the store is not that of the calls before";
    let (mut context, mut store, page) = recorded();
    let mut other = Context::new();
    for context in [&mut context, &mut other] {
        context.bind_buffer(ARRAY_BUFFER, 1).unwrap();
        context.buffer_data(&mut store, ARRAY_BUFFER, 4, Some(&[1; 4]), 0).unwrap();
    }
    let words = page.words();
    context.buffer_sub_data(&mut store, ARRAY_BUFFER, 0, &[2]).unwrap();
    stops(&mut context, &page, &words, 2, text);
}

#[test]
fn a_store_that_another_list_has_written_stops_the_recorder() {
    let text = "the store is not that of the calls before";
    let (mut context, mut store, page) = recorded();
    context.bind_buffer(ARRAY_BUFFER, 1).unwrap();
    context.buffer_data(&mut store, ARRAY_BUFFER, 4, Some(&[1; 4]), 0).unwrap();
    let words = page.words();
    let mut list = List::new();
    list.bind_buffer(ARRAY_BUFFER, 1).buffer_data(ARRAY_BUFFER, 4, None, 0);
    assert_eq!(Context::new().run(&mut store, &list, &mut []).number, 0);
    let _ = context.draw_arrays(&mut store, SQUARE, 4, 0, 0, 3);
    stops(&mut context, &page, &words, 2, text);
}

/// A writer with room for so many bytes.
struct Full(usize);

/// A writer that loses what it was given.
struct Lost;

impl Write for Lost {
    fn write(&mut self, bytes: &[u8]) -> io::Result<usize> {
        Ok(bytes.len())
    }

    fn flush(&mut self) -> io::Result<()> {
        Err(io::ErrorKind::StorageFull.into())
    }
}

impl Write for Full {
    fn write(&mut self, bytes: &[u8]) -> io::Result<usize> {
        self.0 = self.0.checked_sub(bytes.len()).ok_or(io::ErrorKind::StorageFull)?;
        Ok(bytes.len())
    }

    fn flush(&mut self) -> io::Result<()> {
        Ok(())
    }
}

#[test]
fn a_writer_that_fails_stops_the_recorder() {
    let mut context = Context::new();
    assert!(matches!(context.record(Full(7)), Err(RecordError::Write(_))));
    context.record(Full(16)).unwrap();
    context.load_identity().unwrap();
    assert!(context.record_error().is_none());
    assert_eq!(context.pop_matrix(), Err(Error::StackUnderflow));
    assert!(matches!(context.record_error(), Some(RecordError::Write(_))));
    let error = context.stop_recording().unwrap_err();
    assert!(std::error::Error::source(&error).is_some());
    context.reset();
    context.record(Lost).unwrap();
    assert!(matches!(context.stop_recording(), Err(RecordError::Write(_))));
}

#[test]
fn a_recorded_context_can_go_to_another_thread() {
    let (mut context, mut store, page) = recorded();
    std::thread::spawn(move || {
        point_to_square(&mut context);
        assert_eq!(context.draw_arrays(&mut store, SQUARE, STRIP, 0, 0, 4).unwrap().len(), 2);
        context.stop_recording().unwrap();
    })
    .join()
    .unwrap();
    assert_eq!(trace(&page).len(), 6 + 4 + 6 + 7);
}
