//! `frame TRACE PICTURE`: draws the frame of a trace (docs/TRACE.md) twice and compares it pixel
//! for pixel, colour and depth. Once all is PocketHLE's. Once the vertex side is the library's,
//! behind pocket/adapter.rs of the crate's examples, and PocketHLE's rasteriser draws its
//! triangles. The frame is then written to PICTURE as a PNG.

#[path = "../../../rust/examples/pocket/adapter.rs"]
mod adapter;
#[macro_use]
#[path = "../../../rust/examples/trace/calls.rs"]
mod calls;
mod host;
mod ours;
#[path = "../../../rust/examples/pocket/player.rs"]
mod player;
mod png;
mod theirs;
#[allow(dead_code)]
#[path = "../../../rust/examples/trace/mod.rs"]
mod trace;

use player::Way;
use pocket::raster::RenderTarget;
use std::collections::HashSet;
use std::fs;
use std::process::ExitCode;
use trace::{code, Record};

/// A frame of which less is covered, or which has fewer colours, shows too little.
const LEAST_COVERED: usize = 20_000;
const LEAST_COLORS: usize = 200;

/// Cuts the railings of the sample deck.
const HOLES: Way = Way::Holes { period: 256, length: 8 };

/// The trace, with fog that lets something be seen: linear, from 5 to 45.
fn with_thin_fog(records: Vec<Record>) -> Vec<Record> {
    let fog =
        |pname: u32, value: f32| Record { code: code::FOG, words: vec![pname, value.to_bits()] };
    let thin = [fog(0x0b65, 9729.0), fog(0x0b63, 5.0), fog(0x0b64, 45.0)];
    let mut all = Vec::new();
    for record in records {
        let fresh = record.code == code::FRESH;
        all.push(record);
        if fresh {
            all.extend(thin.clone());
        }
    }
    all
}

/// How many pixels differ, in colour or depth.
fn differences(a: &RenderTarget, b: &RenderTarget) -> usize {
    let colors = a.color.chunks(4).zip(b.color.chunks(4)).map(|(a, b)| a != b);
    let depths = a.depth.iter().zip(&b.depth).map(|(a, b)| a.to_bits() != b.to_bits());
    colors.zip(depths).filter(|(color, depth)| *color || *depth).count()
}

/// Whether enough can be seen in the frame.
fn shows(frame: &RenderTarget) -> bool {
    let pixels = || frame.color.chunks(4);
    let covered = pixels().filter(|pixel| **pixel != host::CLEAR).count();
    let colors = pixels().collect::<HashSet<_>>().len();
    let (w, h) = (frame.width, frame.height);
    println!("{w} x {h} pixels, {covered} covered, {colors} colours");
    covered >= LEAST_COVERED && colors >= LEAST_COLORS
}

/// Draws both frames and counts the pixels that differ.
fn parted(name: &str, records: &[Record], way: Way) -> usize {
    let ours = ours::frame(records, way, false);
    let found = differences(&theirs::frame(records, way), &ours.target);
    let (triangles, refused) = (ours.triangles, ours.refused);
    println!("{name}: {triangles} triangles, {refused} draws refused, {found} pixels differ");
    found
}

fn compare(records: &[Record], picture: &str) -> bool {
    let ways = [("read", Way::Read), ("view", Way::View), ("read with holes", HOLES)];
    let found: usize = ways.map(|(name, way)| parted(name, records, way)).iter().sum();
    let theirs = theirs::frame(records, Way::Read);
    let spoilt = differences(&theirs, &ours::frame(records, Way::Read, true).target);
    println!("one bit of one vertex changed: {spoilt} pixels differ");
    let written = fs::write(picture, png::encode(theirs.width, theirs.height, &theirs.color));
    if let Err(error) = &written {
        eprintln!("{picture}: {error}");
    }
    shows(&theirs) && found == 0 && spoilt > 0 && written.is_ok()
}

fn main() -> ExitCode {
    let arguments: Vec<String> = std::env::args().skip(1).collect();
    let [path, picture] = &arguments[..] else {
        eprintln!("usage: frame TRACE PICTURE");
        return ExitCode::from(2);
    };
    let Some(records) = fs::read(path).ok().and_then(|bytes| trace::read(&bytes)) else {
        eprintln!("{path}: no trace");
        return ExitCode::from(2);
    };
    match compare(&with_thin_fog(records), picture) {
        true => ExitCode::SUCCESS,
        false => ExitCode::FAILURE,
    }
}
