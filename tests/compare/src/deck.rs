//! The sample traces: a small bridge deck, as a viewer sends it. Two hours differ in the bytes of one upload, the surveyed joint.
//! Every number is written so that no library function of the machine is asked: the files are the same wherever they are made.

use crate::model::{ARRAY_TARGET, ELEMENT_TARGET};
use crate::trace::{op, write, Record};

const UNSIGNED_BYTE: u32 = 0x1401;
const UNSIGNED_SHORT: u32 = 0x1403;
const FLOAT: u32 = 0x1406;
const FIXED: u32 = 0x140c;
const MODELVIEW: u32 = 0x1700;
const PROJECTION: u32 = 0x1701;
const TEXTURE: u32 = 0x1702;
const VERTICES: u32 = 0x8074;
const COLORS: u32 = 0x8076;
const PAIRS: u32 = 0x8078;
const LINES: u32 = 1;
const TRIANGLES: u32 = 4;
const STRIP: u32 = 5;

/// Bays along and across, with a vertex more each way.
const LONG: u32 = 16;
const WIDE: u32 = 4;
const ROW: u32 = WIDE + 1;
/// The row of vertices at the joint, over the second pier.
const JOINT: u32 = 6;
/// Metres as 16.16 numbers.
const METRE: i32 = 65_536;
/// How far the joint has opened at 10 o'clock: 3 mm at one edge of the deck down to 1 mm at the other.
const OPENED: [i32; ROW as usize] = [197, 164, 131, 98, 66];
/// Where the guest bytes begin; they hold the railing.
const BASE: u32 = 0x4000;
/// Places in the element buffer: four strips of shorts, then a box of bytes.
const STRIP_INDICES: u32 = 2 * (LONG + 1);
const BOX_AT: u32 = WIDE * STRIP_INDICES * 2;
const BOX: [u8; 36] = [
    0, 2, 1, 2, 3, 1, 4, 5, 6, 5, 7, 6, 0, 1, 4, 1, 5, 4, 2, 6, 3, 6, 7, 3, 0, 4, 2, 4, 6, 2, 1, 3,
    5, 3, 7, 5,
];
/// Names of the buffers, in the order of GEN.
const POSITIONS: u32 = 1;
const COLOR_BYTES: u32 = 2;
const PAIR_FLOATS: u32 = 3;
const INDICES: u32 = 4;
const BOX_CORNERS: u32 = 5;

struct Deck {
    records: Vec<Record>,
}

impl Deck {
    fn call(&mut self, op: u32, words: &[u32]) {
        self.records.push(Record::new(op, words));
    }

    fn floats(&mut self, op: u32, values: &[f32]) {
        let words: Vec<u32> = values.iter().map(|x| x.to_bits()).collect();
        self.call(op, &words);
    }

    /// Binds the buffer at the target and fills it.
    fn upload(&mut self, target: u32, name: u32, bytes: &[u8]) {
        self.call(op::BIND, &[target, name]);
        let head = [target, bytes.len() as u32, 0x88e4, 1];
        self.records.push(Record::with_bytes(op::BUFFER_DATA, &head, bytes));
    }

    fn enable(&mut self, array: u32, flag: u32) {
        self.call(op::CLIENT_STATE, &[array, flag]);
    }

    /// Indices from the bound element buffer.
    fn draw_stored(&mut self, mode: u32, mask: u32, count: u32, kind: u32, at: u32) {
        self.call(op::DRAW_GUEST, &[mode, mask, 51 * count, count, kind, at]);
    }

    fn draw_list(&mut self, mode: u32, mask: u32, indices: &[u32]) {
        let count = indices.len() as u32;
        self.call(op::DRAW_LIST, &[&[mode, mask, 51 * count, count], indices].concat());
    }

    fn draw_range(&mut self, mode: u32, mask: u32, first: u32, count: u32) {
        self.call(op::DRAW_ARRAYS, &[mode, mask, 51 * count, first, count]);
    }
}

/// A vertex of the deck in 16.16 metres: 64 m long, 8 m wide, 0.64 m higher in the middle.
fn vertex(row: u32, column: u32) -> [i32; 3] {
    let along = row as i32 - 8;
    let height = 6 * METRE + (64 - along * along) * METRE / 100;
    [4 * along * METRE, height, (2 * column as i32 - 4) * METRE]
}

fn bytes_of(vertices: impl Iterator<Item = [i32; 3]>) -> Vec<u8> {
    vertices.flatten().flat_map(i32::to_le_bytes).collect()
}

fn floats_of(values: impl Iterator<Item = f32>) -> Vec<u8> {
    values.flat_map(f32::to_le_bytes).collect()
}

fn places() -> impl Iterator<Item = (u32, u32)> {
    (0..=LONG).flat_map(|row| (0..ROW).map(move |column| (row, column)))
}

fn positions() -> Vec<u8> {
    bytes_of(places().map(|(row, column)| vertex(row, column)))
}

fn colors() -> Vec<u8> {
    places()
        .flat_map(|(row, column)| [90 + 8 * row as u8, 100, 110 + 20 * column as u8, 255])
        .collect()
}

fn pairs() -> Vec<u8> {
    floats_of(places().flat_map(|(row, column)| [row as f32 / 4.0, column as f32 / 4.0]))
}

fn indices() -> Vec<u8> {
    let strip =
        |column| (0..=LONG).flat_map(move |row| [ROW * row + column, ROW * row + column + 1]);
    let shorts = (0..WIDE).flat_map(strip).flat_map(|i| (i as u16).to_le_bytes());
    shorts.chain(BOX).collect()
}

/// Corners of a box around the origin, each side 1 long.
fn corners() -> Vec<u8> {
    let side = |i: u32, bit: u32| if i >> bit & 1 == 1 { 0.5 } else { -0.5 };
    floats_of((0..8).flat_map(|i| [side(i, 0), side(i, 1), side(i, 2)]))
}

/// Foot and top of the railing's posts, for a strip.
fn railing() -> Vec<u8> {
    floats_of((0..=LONG).flat_map(|row| {
        let [x, y, _] = vertex(row, 0).map(|v| v as f32 / METRE as f32);
        [x, y, 0.0, x, y + 1.125, 0.0]
    }))
}

/// The joint as it was surveyed at this hour.
fn joint(opened: [i32; ROW as usize]) -> Vec<u8> {
    bytes_of((0..ROW).zip(opened).map(|(column, by)| {
        let [x, y, z] = vertex(JOINT, column);
        [x + by, y, z]
    }))
}

fn settings(deck: &mut Deck) {
    deck.call(op::FRESH, &[]);
    deck.call(op::CAPABILITY, &[0x0b71, 1]);
    deck.call(op::DEPTH_FUNC, &[0x0203]);
    deck.call(op::CAPABILITY, &[0x0b60, 1]);
    deck.floats(op::COLOR, &[1.0, 0.75, 0.0, 1.0]);
    deck.records.push(Record::with_bytes(op::GUEST, &[BASE], &railing()));
}

/// Elevation seen from a little above: a turn with cosine 0.8 and sine 0.6 about x.
fn camera(deck: &mut Deck) {
    deck.call(op::MATRIX_MODE, &[PROJECTION]);
    deck.call(op::LOAD_IDENTITY, &[]);
    deck.floats(op::ORTHO, &[-40.0, 40.0, -10.0, 20.0, -50.0, 50.0]);
    deck.call(op::MATRIX_MODE, &[TEXTURE]);
    deck.floats(op::SCALE, &[0.5, 0.5, 1.0]);
    deck.call(op::MATRIX_MODE, &[MODELVIEW]);
    deck.call(op::LOAD_IDENTITY, &[]);
    deck.floats(op::TRANSLATE, &[0.0, 0.0, -20.0]);
    let turn = [1.0, 0.0, 0.0, 0.0, 0.0, 0.8, 0.6, 0.0, 0.0, -0.6, 0.8, 0.0, 0.0, 0.0, 0.0, 1.0];
    deck.floats(op::MULT, &turn);
}

fn buffers(deck: &mut Deck, opened: [i32; ROW as usize]) {
    deck.call(op::GEN, &[5]);
    deck.upload(ARRAY_TARGET, COLOR_BYTES, &colors());
    deck.upload(ARRAY_TARGET, PAIR_FLOATS, &pairs());
    deck.upload(ARRAY_TARGET, BOX_CORNERS, &corners());
    deck.upload(ELEMENT_TARGET, INDICES, &indices());
    deck.upload(ARRAY_TARGET, POSITIONS, &positions());
    let head = [ARRAY_TARGET, 12 * ROW * JOINT];
    deck.records.push(Record::with_bytes(op::BUFFER_SUB_DATA, &head, &joint(opened)));
}

/// Unit 0 takes its pairs from an array, unit 1 the current pair.
fn slab(deck: &mut Deck) {
    deck.call(op::VERTEX_POINTER, &[3, FIXED, 0, 0]);
    deck.enable(VERTICES, 1);
    deck.call(op::BIND, &[ARRAY_TARGET, COLOR_BYTES]);
    deck.call(op::COLOR_POINTER, &[4, UNSIGNED_BYTE, 0, 0]);
    deck.enable(COLORS, 1);
    deck.call(op::BIND, &[ARRAY_TARGET, PAIR_FLOATS]);
    deck.call(op::CLIENT_UNIT, &[0]);
    deck.call(op::TEXCOORD_POINTER, &[2, FLOAT, 0, 0]);
    deck.enable(PAIRS, 1);
    deck.call(op::MULTI_TEXCOORD, &[0x84c1, 0.25f32.to_bits(), 0.75f32.to_bits()]);
    for column in 0..WIDE {
        let at = column * STRIP_INDICES * 2;
        deck.draw_stored(STRIP, 3, STRIP_INDICES, UNSIGNED_SHORT, at);
    }
}

/// Cover plates over the bay after the joint, in the current colour, a little above the slab.
fn plates(deck: &mut Deck) {
    deck.enable(COLORS, 0);
    deck.call(op::PUSH, &[]);
    deck.floats(op::TRANSLATE, &[0.0, 0.0625, 0.0]);
    let quad = |column| {
        let (near, far) = (ROW * JOINT + column, ROW * (JOINT + 1) + column);
        [near, far, near + 1, near + 1, far, far + 1]
    };
    let indices: Vec<u32> = (0..WIDE).flat_map(quad).collect();
    deck.draw_list(TRIANGLES, 2, &indices);
    deck.call(op::POP, &[]);
}

/// Four piers, each a shaft and, one push deeper, its cap.
fn piers(deck: &mut Deck) {
    deck.enable(PAIRS, 0);
    deck.call(op::BIND, &[ARRAY_TARGET, BOX_CORNERS]);
    deck.call(op::VERTEX_POINTER, &[3, FLOAT, 12, 0]);
    for x in [-24.0, -8.0, 8.0, 24.0] {
        deck.call(op::PUSH, &[]);
        deck.floats(op::TRANSLATE, &[x, 2.5, 0.0]);
        deck.call(op::PUSH, &[]);
        deck.floats(op::TRANSLATE, &[0.0, 2.75, 0.0]);
        deck.floats(op::SCALE, &[2.0, 0.5, 7.0]);
        deck.draw_stored(TRIANGLES, 0, 36, UNSIGNED_BYTE, BOX_AT);
        deck.call(op::POP, &[]);
        deck.floats(op::SCALE, &[1.0, 5.0, 5.0]);
        deck.draw_stored(TRIANGLES, 0, 36, UNSIGNED_BYTE, BOX_AT);
        deck.call(op::POP, &[]);
    }
}

/// The railing on either side, from guest bytes, as a range.
fn railings(deck: &mut Deck) {
    deck.call(op::BIND, &[ARRAY_TARGET, 0]);
    deck.call(op::VERTEX_POINTER, &[3, FLOAT, 12, BASE]);
    for z in [-4.0, 4.0] {
        deck.call(op::PUSH, &[]);
        deck.floats(op::TRANSLATE, &[0.0, 0.0, z]);
        deck.draw_range(STRIP, 0, 0, STRIP_INDICES);
        deck.call(op::POP, &[]);
    }
}

/// What a viewer may do wrong: lines, a vertex that is not there, a pop too many. The code of the last is fetched.
fn mistakes(deck: &mut Deck) {
    deck.draw_range(LINES, 0, 0, 2);
    deck.draw_list(TRIANGLES, 0, &[0, 1, STRIP_INDICES]);
    deck.call(op::POP, &[]);
    deck.call(op::TAKE_ERROR, &[]);
}

/// The trace of an hour, 09 or 10.
pub fn trace(hour: &str) -> Option<Vec<u8>> {
    let opened = match hour {
        "09" => [0; ROW as usize],
        "10" => OPENED,
        _ => return None,
    };
    let mut deck = Deck { records: Vec::new() };
    settings(&mut deck);
    camera(&mut deck);
    buffers(&mut deck, opened);
    slab(&mut deck);
    plates(&mut deck);
    piers(&mut deck);
    railings(&mut deck);
    mistakes(&mut deck);
    Some(write(&deck.records))
}
