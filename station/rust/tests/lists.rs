//! A list makes the calls that its methods name, as a context's methods do.

mod common;

use beonasul::{Context, Error, List, Reply, Store};
use common::*;

const MATRIX: [f32; 16] =
    [2.0, -0.0, 0.5, 1.0, 3.0, 1.0, 0.0, 0.25, 1.5, 1.0, -2.0, 0.0, 4.0, 0.5, 0.125, 1.0];

/// Every call that borrows nothing, each with other arguments, on a context or a list.
macro_rules! plain_calls {
    ($to:expr) => {{
        let to = $to;
        let _ = to.set_color([0.1, 0.2, 0.3, 0.4]);
        let _ = to.set_multi_texcoord(0x84C2, 0.5, 0.75);
        let _ = to.set_client_active_texture(2);
        let _ = to.set_texcoord_pointer(3, 0x1402, 12, 77);
        let _ = to.set_color_pointer(4, 0x1401, 16, 78);
        let _ = to.set_normal_pointer(0x140C, 20, 79);
        let _ = to.set_client_state(0x8078, true);
        let _ = to.set_client_state(0x8075, true);
        let _ = to.set_client_state(0x8075, false);
        let _ = to.set_active_texture(3);
        let _ = to.set_capability(0x0DE1, true);
        let _ = to.tex_env(0x2200, 0x2101);
        let _ = to.set_tex_env_color([0.5, 0.6, 0.7, 0.8]);
        let _ = to.set_depth_func(0x0205);
        let _ = to.set_alpha_func(0x0204, 0.5);
        let _ = to.set_blend_func(0x0302, 0x0303);
        let _ = to.set_cull_face(0x0404);
        let _ = to.set_front_face(0x0900);
        let _ = to.set_fog(0x0B62, 0.5);
        let _ = to.set_depth_range(0.25, 0.75);
        let _ = to.set_matrix_mode(0x1702);
        let _ = to.load_matrix(MATRIX);
        let _ = to.push_matrix();
        let _ = to.mult_matrix(MATRIX);
        let _ = to.translate(1.0, 2.0, 3.0);
        let _ = to.set_matrix_mode(0x1701);
        let _ = to.frustum(-1.0, 1.0, -2.0, 1.0, 1.0, 3.0);
        let _ = to.ortho(-1.0, 1.5, -1.0, 1.0, 1.0, 4.0);
        let _ = to.set_matrix_mode(0x1700);
        let _ = to.load_identity();
        let _ = to.push_matrix();
        let _ = to.push_matrix();
        let _ = to.scale(2.0, 3.0, 4.0);
        let _ = to.rotate(33.0, 1.0, 2.0, 3.0);
        let _ = to.rotate(33.0, 0.0, 0.0, 0.0);
        let _ = to.rotate_by(0.6, 0.8, [0.0, 1.0, 0.0]);
        let _ = to.pop_matrix();
        let _ = to.gen_buffers(3);
        let _ = to.bind_buffer(ARRAY_BUFFER, 2);
        let _ = to.delete_buffers(&[3, 9]);
        let _ = to.set_depth_func(1);
        let _ = to.take_error();
        let _ = to.set_cull_face(1);
    }};
}

const PLAIN_CALLS: usize = 43;

/// The calls that borrow, the last of them a draw of the square.
fn call_borrowing(context: &mut Context, store: &mut Store, out: &mut [f32]) -> Reply {
    context.buffer_data(store, ARRAY_BUFFER, 8, Some(&[9; 8]), 0x88E4).unwrap();
    context.buffer_sub_data(store, ARRAY_BUFFER, 0, SQUARE.bytes).unwrap();
    context.set_vertex_pointer(2, BYTE, 0, 0).unwrap();
    context.set_client_state(VERTEX_ARRAY, true).unwrap();
    context.draw_elements_into(store, SQUARE, STRIP, 4, &[3, 2, 1, 0], out).unwrap();
    context.bind_buffer(ELEMENT_BUFFER, 1).unwrap();
    context.buffer_data(store, ELEMENT_BUFFER, 4, None, 0).unwrap();
    let guest = (4, UNSIGNED_BYTE, 0);
    context
        .draw_elements_from_guest_into(store, SQUARE, STRIP, 0, guest.0, guest.1, guest.2, out)
        .unwrap();
    let drawn = context.draw_arrays_into(store, SQUARE, STRIP, 4, 1, 3, out);
    Reply { number: 0, value: drawn.unwrap(), made: 9 }
}

fn list_borrowing(list: &mut List) {
    list.buffer_data(ARRAY_BUFFER, 8, Some(&[9; 8]), 0x88E4)
        .buffer_sub_data(ARRAY_BUFFER, 0, SQUARE.bytes)
        .set_vertex_pointer(2, BYTE, 0, 0)
        .set_client_state(VERTEX_ARRAY, true)
        .guest(SQUARE.base, SQUARE.bytes)
        .draw_elements(STRIP, 4, &[3, 2, 1, 0])
        .bind_buffer(ELEMENT_BUFFER, 1)
        .buffer_data(ELEMENT_BUFFER, 4, None, 0)
        .draw_elements_from_guest(STRIP, 0, 4, UNSIGNED_BYTE, 0)
        .draw_arrays(STRIP, 4, 1, 3);
}

fn long_list() -> List {
    let mut list = List::new();
    plain_calls!(&mut list);
    list_borrowing(&mut list);
    list
}

/// What all calls leave behind: state, live bytes of the store, output, reply, trace.
type Left = (String, Vec<u8>, Vec<u32>, Reply, Vec<u8>);

fn left(context: &Context, store: &Store, out: &[f32], reply: Reply, page: &Page) -> Left {
    let bits = out.iter().map(|x| x.to_bits()).collect();
    (shown(context.state()), store.as_bytes().to_vec(), bits, reply, page.bytes())
}

fn left_by_calls(recorded: bool) -> Left {
    let (mut context, mut store, page, mut out) =
        (Context::new(), Store::new(), Page::default(), [0.5; 110]);
    if recorded {
        context.record(page.clone()).unwrap();
    }
    plain_calls!(&mut context);
    let reply = call_borrowing(&mut context, &mut store, &mut out);
    let reply = Reply { made: reply.made + PLAIN_CALLS, ..reply };
    context.stop_recording().unwrap();
    left(&context, &store, &out, reply, &page)
}

fn left_by_list(recorded: bool) -> Left {
    let (mut context, mut store, page, mut out) =
        (Context::new(), Store::new(), Page::default(), [0.5; 110]);
    if recorded {
        context.record(page.clone()).unwrap();
    }
    let reply = context.run(&mut store, &long_list(), &mut out);
    context.stop_recording().unwrap();
    left(&context, &store, &out, reply, &page)
}

#[test]
fn a_list_leaves_what_its_calls_leave() {
    assert_eq!(left_by_list(false), left_by_calls(false));
    assert_eq!(long_list().len(), PLAIN_CALLS + 9);
}

#[test]
fn a_list_is_recorded_as_its_calls_are() {
    let (list, calls) = (left_by_list(true), left_by_calls(true));
    assert!(!list.4.is_empty());
    assert_eq!(list, calls);
    assert_eq!((list.0, list.2, list.3), {
        let alone = left_by_list(false);
        (alone.0, alone.2, alone.3)
    });
}

#[test]
fn every_call_of_the_list_has_its_effect() {
    let mut context = Context::new();
    plain_calls!(&mut context);
    let state = context.state();
    assert_eq!(state.attributes.color, [0.1, 0.2, 0.3, 0.4]);
    assert_eq!((state.attributes.pairs[2].s, state.attributes.pairs[2].t), (0.5, 0.75));
    let texcoord = state.arrays.texcoord[2];
    assert_eq!((texcoord.size, texcoord.ty, texcoord.stride), (3, 0x1402, 12));
    assert_eq!((texcoord.pointer, texcoord.enabled), (77, true));
    let normal = state.arrays.normal;
    assert_eq!((normal.size, normal.ty, normal.stride, normal.pointer), (3, 0x140C, 20, 79));
    let settings = state.settings;
    let unit = settings.units[3];
    assert_eq!((unit.enabled, unit.env_mode, unit.env_color[3]), (true, 0x2101, 0.8));
    assert_eq!(
        (settings.depth_func, settings.alpha_func, settings.reference),
        (0x0205, 0x0204, 0.5)
    );
    assert_eq!((settings.src, settings.dst, settings.cull_mode), (0x0302, 0x0303, 0x0404));
    assert_eq!((settings.front_face, settings.density), (0x0900, 0.5));
    assert_eq!((settings.near, settings.far), (0.25, 0.75));
    let stacks = &state.stacks;
    assert_eq!((stacks.texture.depth, stacks.modelview.depth), (1, 1));
    assert_eq!(stacks.texture.saved[0].entries, MATRIX);
    assert_eq!((state.buffers.next, state.buffers.array_buffer), (4, 2));
    assert_eq!(state.error, 0x0500);
}

#[test]
fn the_reply_is_that_of_the_last_call() {
    let (mut context, mut store) = (Context::new(), Store::new());
    let mut list = List::new();
    assert!(list.is_empty());
    assert_eq!(context.run(&mut store, &list, &mut []), Reply::default());
    list.pop_matrix().gen_buffers(2);
    let reply = context.run(&mut store, &list, &mut []);
    assert_eq!(reply, Reply { number: 0, value: 1, made: 2 });
    list.clear();
    list.set_depth_func(7);
    let reply = context.run(&mut store, &list, &mut []);
    assert_eq!(reply.result(), Err(Error::InvalidEnum));
    assert_eq!(reply, Reply { number: 0x0500, value: 0, made: 1 });
}

#[test]
fn a_cleared_list_has_no_guest_memory() {
    let (mut context, mut store) = with_square();
    let mut list = List::new();
    list.guest(SQUARE.base, SQUARE.bytes).rotate(1.0, 1.0, 0.0, 0.0).clear();
    assert!(list.is_empty());
    // The list has as many bytes again, but no guest memory.
    list.buffer_sub_data(ARRAY_BUFFER, 0, SQUARE.bytes).draw_arrays(TRIANGLES, 0, 0, 3);
    let reply = context.run(&mut store, &list, &mut [0.0; 51]);
    assert_eq!((reply.made, reply.result()), (2, Err(Error::PositionUnreadable)));
}
