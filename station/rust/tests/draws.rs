//! The draws: both forms, the three sources of indices, an output that grows.

mod common;

use beonasul::{Error, Guest, Store, Triangle};
use common::*;

fn positions(triangles: &[Triangle]) -> Vec<[[f32; 2]; 3]> {
    let corner = |v: beonasul::Vertex| [v.position[0], v.position[1]];
    triangles.iter().map(|triangle| triangle.vertices.map(corner)).collect()
}

#[test]
fn the_three_sources_of_indices_draw_alike() {
    let (mut context, mut store) = with_square();
    let two = [[[0.0, 0.0], [1.0, 0.0], [0.0, 1.0]], [[0.0, 1.0], [1.0, 0.0], [1.0, 1.0]]];
    let drawn = context.draw_elements(&mut store, SQUARE, STRIP, 0, &[0, 1, 2, 3]).unwrap();
    assert_eq!(positions(drawn.as_slice()), two);
    let drawn = context.draw_arrays(&mut store, SQUARE, STRIP, 0, 0, 4).unwrap();
    assert_eq!(positions(drawn.as_slice()), two);
    context.bind_buffer(ELEMENT_BUFFER, 1).unwrap();
    context.buffer_data(&mut store, ELEMENT_BUFFER, 4, Some(&[0, 1, 2, 3]), 0).unwrap();
    let drawn = context
        .draw_elements_from_guest(&mut store, SQUARE, STRIP, 0, 4, UNSIGNED_BYTE, 0)
        .unwrap();
    assert_eq!(positions(drawn.as_slice()), two);
}

#[test]
fn a_slice_is_filled_as_the_iterator_gives() {
    let (mut context, mut store) = with_square();
    context.set_color([0.25, 0.5, 0.75, 1.0]).unwrap();
    context.set_multi_texcoord(0x84C1, 3.0, 4.0).unwrap();
    let drawn = context.draw_arrays(&mut store, SQUARE, STRIP, 2, 0, 4).unwrap();
    let (floats, whole) = (drawn.as_floats().to_vec(), drawn.as_slice().to_vec());
    assert_eq!(drawn.map(|triangle| triangle.vertices[0].texcoord[1]).last(), Some([3.0, 4.0]));
    let mut out = [-7.5; 110];
    let indices = [0, 1, 2, 3];
    let into = context.draw_elements_into(&mut store, SQUARE, STRIP, 2, &indices, &mut out);
    assert_eq!(into, Ok(2));
    assert_eq!(out[..102], floats[..]);
    assert_eq!(out[102..], [-7.5; 8]);
    assert_eq!(Triangle::slice_of(&out), &whole[..]);
}

#[test]
fn an_output_that_is_too_short_stays_as_it_was() {
    let (mut context, mut store) = with_square();
    let mut out = [-7.5; 101];
    let into = context.draw_arrays_into(&mut store, SQUARE, STRIP, 0, 0, 4, &mut out);
    assert_eq!(into, Err(Error::OutputTooShort));
    assert_eq!(out, [-7.5; 101]);
}

#[test]
fn the_output_of_a_context_grows_and_is_used_again() {
    let (mut context, mut store) = with_square();
    for count in [3, 300, 6, 3000, 0] {
        let indices: Vec<u32> = (0..count).map(|i| i % 4).collect();
        let drawn = context.draw_elements(&mut store, SQUARE, TRIANGLES, 0, &indices).unwrap();
        assert_eq!(drawn.len(), count as usize / 3);
        assert_eq!(drawn.size_hint(), (drawn.len(), Some(drawn.len())));
        let each = drawn.zip((0..).step_by(3));
        for (triangle, i) in each {
            let want = [i, i + 1, i + 2].map(|i| [(i % 2) as f32, (i % 4 / 2) as f32]);
            assert_eq!(positions(&[*triangle]), [want]);
        }
    }
}

#[test]
fn refused_draws_give_their_number() {
    let (mut context, mut store) = with_square();
    let draw = |context: &mut beonasul::Context, store: &mut Store, guest, mode, stages, count| {
        context.draw_arrays(store, guest, mode, stages, 0, count).map(|drawn| drawn.len()).err()
    };
    let late = Guest { base: u32::MAX, ..SQUARE };
    assert_eq!(draw(&mut context, &mut store, late, 4, 0, 3), Some(Error::GuestTooLong));
    assert_eq!(draw(&mut context, &mut store, SQUARE, 4, 16, 3), Some(Error::StageMask));
    assert_eq!(draw(&mut context, &mut store, SQUARE, 7, 0, 5), Some(Error::PositionUnreadable));
    assert_eq!(draw(&mut context, &mut store, SQUARE, 7, 0, 3), Some(Error::InvalidEnum));
    assert_eq!(draw(&mut context, &mut store, SQUARE, 1, 0, 3), Some(Error::NoTriangles));
    let none = Guest::none();
    assert_eq!(draw(&mut context, &mut store, none, 4, 0, 3), Some(Error::PositionUnreadable));
    context.set_client_state(VERTEX_ARRAY, false).unwrap();
    assert_eq!(draw(&mut context, &mut store, SQUARE, 4, 0, 3), Some(Error::NoVertexArray));
    assert_eq!(context.take_error(), Ok(0x0500));
}
