//! What a viewer has beside the vertex side, the same for both frames: textures, viewport, target.

use pocket::context::Context;
use pocket::texture::Texture;

const WIDTH: u32 = 640;
const HEIGHT: u32 = 360;
/// The sky, as it lies in the target.
pub const CLEAR: [u8; 4] = [153, 191, 230, 255];
/// The sides of a texture.
const TEXELS: u32 = 8;

/// PocketHLE's context with an empty frame and a texture for each unit, whose name is the unit's
/// number plus 1.
pub fn fresh() -> Context {
    let mut context = Context::new(WIDTH, HEIGHT);
    context.set_viewport(0, 0, WIDTH as i32, HEIGHT as i32);
    context.clear_color = CLEAR.map(|byte| byte as f32 / 255.0);
    context.state.fog_color = context.clear_color;
    context.clear(0x4000 | 0x0100);
    for unit in 0..4 {
        let mut texture = Texture::default();
        texture.define_level(0, TEXELS, TEXELS, pattern(unit));
        context.textures.insert(unit + 1, texture);
    }
    context
}

/// Squares of two shades, in a tint for each unit.
fn pattern(unit: u32) -> Vec<u8> {
    let tint = [[255, 240, 220], [220, 255, 240], [240, 220, 255], [255, 255, 200]][unit as usize];
    let texel = |i: u32| {
        let dark = (i % TEXELS / 2 + i / TEXELS / 2) % 2;
        let [r, g, b] = tint.map(|part: u8| part >> dark);
        [r, g, b, 255]
    };
    (0..TEXELS * TEXELS).flat_map(texel).collect()
}
