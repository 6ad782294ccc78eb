//! What the crate works out before the library is called.

mod common;

use beonasul::Context;
use common::shown;

/// A context with some matrix.
fn moved() -> Context {
    let mut context = Context::new();
    context.translate(1.0, 2.0, 3.0).unwrap();
    context.scale(0.5, -0.25, 4.0).unwrap();
    context
}

#[test]
fn a_rotation_is_one_by_cosine_sine_and_unit_axis() {
    let (mut by_angle, mut by_cosine) = (moved(), moved());
    by_angle.rotate(-123.5, 2.0, -3.0, 6.0).unwrap();
    let radians = -123.5f32.to_radians();
    let axis = [2.0 / 7.0, -3.0 / 7.0, 6.0 / 7.0];
    by_cosine.rotate_by(radians.cos(), radians.sin(), axis).unwrap();
    assert_eq!(shown(by_angle.state()), shown(by_cosine.state()));
    assert_ne!(shown(by_angle.state()), shown(moved().state()));
}

#[test]
fn a_quarter_turn_about_z_takes_x_to_y() {
    let mut context = Context::new();
    context.rotate(90.0, 0.0, 0.0, 5.0).unwrap();
    let entries = context.state().stacks.modelview.current.entries;
    assert!(entries[0].abs() < 1e-6 && entries[1] == 1.0 && entries[4] == -1.0);
}

#[test]
fn a_rotation_about_no_axis_multiplies_by_the_identity() {
    // The squares of the axis are too small for an f32.
    for axis in [[0.0, 0.0, 0.0], [1e-30, -1e-30, 0.0]] {
        let (mut rotated, mut multiplied) = (moved(), moved());
        rotated.rotate(45.0, axis[0], axis[1], axis[2]).unwrap();
        let identity = std::array::from_fn(|i| if i % 5 == 0 { 1.0 } else { 0.0 });
        multiplied.mult_matrix(identity).unwrap();
        assert_eq!(shown(rotated.state()), shown(multiplied.state()));
    }
}
