//! The call of each record, for every context that has PocketHLE's method names.

/// Makes the call of a record that borrows no bytes and gives no value, on a context; gives what
/// the method gives.
macro_rules! make_call {
    ($context:expr, $record:expr) => {{
        let (context, r) = (&mut $context, $record);
        let (w, f) = (&r.words, |i: usize| r.float(i));
        match r.code {
            code::MATRIX_MODE => context.set_matrix_mode(w[0]),
            code::LOAD_IDENTITY => context.load_identity(),
            code::LOAD => context.load_matrix(r.floats(0)),
            code::MULT => context.mult_matrix(r.floats(0)),
            code::PUSH => context.push_matrix(),
            code::POP => context.pop_matrix(),
            code::TRANSLATE => context.translate(f(0), f(1), f(2)),
            code::SCALE => context.scale(f(0), f(1), f(2)),
            code::ROTATE => context.rotate(f(5), f(6), f(7), f(8)),
            code::ROTATE_ZERO => context.rotate(f(0), f(1), f(2), f(3)),
            code::FRUSTUM => context.frustum(f(0), f(1), f(2), f(3), f(4), f(5)),
            code::ORTHO => context.ortho(f(0), f(1), f(2), f(3), f(4), f(5)),
            code::BIND => context.bind_buffer(w[0], w[1]),
            code::DELETE => context.delete_buffers(&w[1..]),
            code::VERTEX_POINTER => context.set_vertex_pointer(w[0], w[1], w[2], w[3]),
            code::COLOR_POINTER => context.set_color_pointer(w[0], w[1], w[2], w[3]),
            code::NORMAL_POINTER => context.set_normal_pointer(w[0], w[1], w[2]),
            code::TEXCOORD_POINTER => context.set_texcoord_pointer(w[0], w[1], w[2], w[3]),
            code::CLIENT_STATE => context.set_client_state(w[0], w[1] == 1),
            code::CLIENT_UNIT => context.set_client_active_texture(w[0]),
            code::COLOR => context.set_color(r.floats(0)),
            code::MULTI_TEXCOORD => context.set_multi_texcoord(w[0], f(1), f(2)),
            code::ACTIVE_UNIT => context.set_active_texture(w[0]),
            code::CAPABILITY => context.set_capability(w[0], w[1] == 1),
            code::TEX_ENV => context.tex_env(w[0], w[1]),
            code::TEX_ENV_COLOR => context.set_tex_env_color(r.floats(0)),
            code::DEPTH_FUNC => context.set_depth_func(w[0]),
            code::ALPHA_FUNC => context.set_alpha_func(w[0], f(1)),
            code::BLEND_FUNC => context.set_blend_func(w[0], w[1]),
            code::CULL_FACE => context.set_cull_face(w[0]),
            code::FRONT_FACE => context.set_front_face(w[0]),
            code::FOG => context.set_fog(w[0], f(1)),
            code::DEPTH_RANGE => context.set_depth_range(f(0), f(1)),
            _ => unreachable!("a call that borrows no bytes"),
        }
    }};
}
