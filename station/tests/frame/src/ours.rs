//! The frame that PocketHLE's rasteriser draws from the library's triangles and settings.

use crate::host;
use crate::player::{Player, Way};
use crate::trace::{code, Record};
use beonasul::state::{Settings, TextureUnit};
use beonasul::Triangle;
use pocket::context::Context;
use pocket::raster::{
    self, BlendFactor, CompareFunc, CullMode, FogMode, FrontFace, PipelineState, RenderTarget,
    TexEnvMode, TextureStage, Vertex,
};

/// The triangle of which a bit is changed, and the bit of its first corner's x.
const SPOILT: (usize, u32) = (100, 1 << 14);

/// A viewer: the library's vertex side, PocketHLE's textures, settings besides and target.
struct Viewer {
    player: Player,
    host: Context,
    triangles: usize,
    refused: usize,
    spoils: bool,
}

/// A frame, and what was drawn for it.
pub struct Frame {
    pub target: RenderTarget,
    pub triangles: usize,
    /// Draws that gave none and said why.
    pub refused: usize,
}

pub fn frame(records: &[Record], way: Way, spoils: bool) -> Frame {
    let (player, host) = (Player::new(way), host::fresh());
    let mut viewer = Viewer { player, host, triangles: 0, refused: 0, spoils };
    for r in records {
        match r.code {
            code::DRAW_LIST..=code::DRAW_GUEST => viewer.draw(r),
            code::FRESH => {
                viewer.player.play(r);
                viewer.host = host::fresh();
            }
            _ => drop(viewer.player.play(r)),
        }
    }
    let Viewer { host, triangles, refused, .. } = viewer;
    Frame { target: host.target, triangles, refused }
}

impl Viewer {
    fn draw(&mut self, r: &Record) {
        let Viewer { player, host, triangles, refused, spoils } = self;
        let settings = &player.context.state().settings;
        let state = pipeline(settings, host.state.clone());
        let stages = stages(settings, r.words[1]);
        let Context { textures, target, .. } = host;
        let sample = |unit: usize, s, t, dsdx, dtdx, dsdy, dtdy| {
            let texture = textures.get(&(unit as u32 + 1));
            texture.map(|texture| texture.sample_with_gradients(s, t, dsdx, dtdx, dsdy, dtdy))
        };
        player.draw(r, |triangle| {
            let mut corners = corners(triangle);
            if *spoils && *triangles == SPOILT.0 {
                let x = &mut corners[0].pos[0];
                *x = f32::from_bits(x.to_bits() ^ SPOILT.1);
            }
            *triangles += 1;
            raster::draw_triangle(target, &state, &sample, &stages, corners);
        });
        *refused += (player.context.number() != 0) as usize;
    }
}

fn corners(triangle: &Triangle) -> [Vertex; 3] {
    triangle.vertices.map(|vertex| Vertex {
        pos: vertex.position,
        color: vertex.color,
        texcoord: vertex.texcoord,
        fog_depth: vertex.fog_depth,
    })
}

/// What the rasteriser takes: the library's settings, and what the viewer keeps besides.
fn pipeline(s: &Settings, besides: PipelineState) -> PipelineState {
    let compare = |code| CompareFunc::from_enum(code).expect("the settings hold known choices");
    let factor = |code| BlendFactor::from_enum(code).expect("the settings hold known choices");
    PipelineState {
        depth_range: (s.near, s.far),
        depth_test: s.depth_test,
        depth_func: compare(s.depth_func),
        alpha_test: s.alpha_test,
        alpha_func: compare(s.alpha_func),
        alpha_ref: s.reference,
        blend: s.blend,
        blend_src: factor(s.src),
        blend_dst: factor(s.dst),
        cull: s.cull.then_some(match s.cull_mode {
            0x0404 => CullMode::Front,
            0x0405 => CullMode::Back,
            _ => CullMode::FrontAndBack,
        }),
        front_face: if s.front_face == 0x0900 { FrontFace::Cw } else { FrontFace::Ccw },
        fog: s.fog,
        fog_mode: match s.fog_mode {
            0x0800 => FogMode::Exp,
            0x0801 => FogMode::Exp2,
            _ => FogMode::Linear,
        },
        fog_start: s.start,
        fog_end: s.end,
        fog_density: s.density,
        ..besides
    }
}

/// The stages of the units in the mask.
fn stages(settings: &Settings, mask: u32) -> Vec<TextureStage> {
    let units = settings.units.iter().enumerate().filter(|(unit, _)| mask >> unit & 1 == 1);
    units
        .map(|(unit, kept)| TextureStage { unit, env: env(kept), env_color: kept.env_color })
        .collect()
}

fn env(unit: &TextureUnit) -> TexEnvMode {
    match unit.env_mode {
        0x1e01 => TexEnvMode::Replace,
        0x2101 => TexEnvMode::Decal,
        0x0be2 => TexEnvMode::Blend,
        0x0104 => TexEnvMode::Add,
        _ => TexEnvMode::Modulate,
    }
}
