//! Lists that go through a rule's cases one by one. They come before the seeded ones.

use crate::generate::{Kind, List};
use crate::model::{ARRAY_TARGET, ELEMENT_TARGET};
use crate::oracle::host_rotation;
use crate::trace::{op, Record, STORE};

/// Codes beside all enumerants of the document.
const EXTREMES: [u32; 4] = [0x00010000, 0x7fffffff, 0x80000000, u32::MAX];
const TYPES: [u32; 7] = [0x1400, 0x1401, 0x1402, 0x1403, 0x1406, 0x140c, 0x1404];
const ROOM: u32 = 51 * 64;
const BASE: u32 = 0x1000;

/// Records one after another.
struct Script {
    records: Vec<Record>,
}

impl Script {
    fn new() -> Self {
        let mut script = Script { records: Vec::new() };
        script.call(op::FRESH, &[]);
        script.call(op::STORE_LEN, &[STORE]);
        script.guest(BASE, &[]);
        script
    }

    fn call(&mut self, op: u32, words: &[u32]) {
        self.records.push(Record::new(op, words));
    }

    fn floats(&mut self, op: u32, values: &[f32]) {
        let words: Vec<u32> = values.iter().map(|x| x.to_bits()).collect();
        self.call(op, &words);
    }

    fn guest(&mut self, base: u32, bytes: &[u8]) {
        let record = Record::with_bytes(op::GUEST, &[base], bytes);
        self.records.push(record);
    }

    fn data(&mut self, target: u32, size: u32, bytes: &[u8]) {
        let record = Record::with_bytes(op::BUFFER_DATA, &[target, size, 0, 1], bytes);
        self.records.push(record);
    }

    fn sub_data(&mut self, target: u32, at: u32, bytes: &[u8]) {
        let record = Record::with_bytes(op::BUFFER_SUB_DATA, &[target, at], bytes);
        self.records.push(record);
    }

    /// A vertex array of 64 shorts in the guest, enabled.
    fn vertices(&mut self) {
        let bytes: Vec<u8> = (0..128).map(|i| i * 7).collect();
        self.guest(BASE, &bytes);
        self.call(op::VERTEX_POINTER, &[2, 0x1402, 0, BASE]);
        self.call(op::CLIENT_STATE, &[0x8074, 1]);
    }

    fn draw_list(&mut self, mode: u32, mask: u32, room: u32, indices: &[u32]) {
        let head = [mode, mask, room, indices.len() as u32];
        self.call(op::DRAW_LIST, &[&head[..], indices].concat());
    }

    fn done(self) -> List {
        List { kind: Kind::Outside, records: self.records, damaged: Vec::new() }
    }
}

/// All sweeps, by name.
pub fn lists() -> Vec<(&'static str, List)> {
    vec![
        ("enumerants", enumerants()),
        ("fog modes", fog_modes()),
        ("fetches", fetches()),
        ("bytes and shorts", bytes_and_shorts()),
        ("addresses", addresses()),
        ("questions of a draw", questions()),
        ("corners and room", corners()),
        ("ranges", ranges()),
        ("stored indices", stored_indices()),
        ("guest views", guest_views()),
        ("stacks", stacks()),
        ("names", names()),
        ("far names", far_names()),
        ("buffer bytes", buffer_bytes()),
        ("boxes", boxes()),
        ("signs of zero", signs()),
        ("special numbers", specials()),
        ("unsound contexts", unsound()),
        ("stores", stores()),
    ]
}

/// Every code up to past the greatest enumerant, for each call that takes one.
fn enumerants() -> List {
    let mut s = Script::new();
    s.vertices();
    for code in (0..0x8900).chain(EXTREMES) {
        s.call(op::MATRIX_MODE, &[code]);
        s.call(op::CLIENT_STATE, &[code, 1]);
        s.call(op::CAPABILITY, &[code, 1]);
        s.call(op::TEX_ENV, &[0x2200, code]);
        s.call(op::DEPTH_FUNC, &[code]);
        s.call(op::ALPHA_FUNC, &[code, 0x3f000000]);
        s.call(op::BLEND_FUNC, &[code, 1]);
        s.call(op::BLEND_FUNC, &[1, code]);
        s.call(op::CULL_FACE, &[code]);
        s.call(op::FRONT_FACE, &[code]);
        s.call(op::FOG, &[code, 0x45000000]);
        s.call(op::MULTI_TEXCOORD, &[code, code, 1]);
        s.call(op::BIND, &[code, 1 + code % 3]);
        if code % 256 == 0 || code % 256 == 9 {
            s.call(op::DUMP, &[30]);
        }
        s.call(op::TAKE_ERROR, &[]);
    }
    for code in (0..0x8900).step_by(16).chain(0..40).chain(EXTREMES) {
        s.draw_list(code, 0, ROOM, &[0, 1, 2]);
        s.call(op::CLIENT_UNIT, &[code]);
        s.call(op::ACTIVE_UNIT, &[code]);
        s.call(op::TEX_ENV, &[code, 0x2101]);
    }
    s.call(op::DUMP, &[31]);
    s.done()
}

/// Fog modes a little below, at and above each whole number around the known ones.
fn fog_modes() -> List {
    let mut s = Script::new();
    for mode in [0.0f32, 1.0, 2047.0, 2048.0, 2049.0, 2050.0, 9728.0, 9729.0, 9730.0] {
        for bits in [mode.to_bits().saturating_sub(1), mode.to_bits(), mode.to_bits() + 1] {
            s.call(op::FOG, &[0x0b65, bits]);
            s.call(op::FOG, &[0x0b65, bits | 0x80000000]);
            s.floats(op::FOG, &[f32::from_bits(0x0b65), mode + 0.75]);
            s.call(op::DUMP, &[16]);
        }
    }
    for bits in [0x7f800000, 0xff800000, 0x7fc00000, 0x4f800000, 0x4f7fffff, 0xcf000000] {
        s.call(op::FOG, &[0x0b65, bits]);
    }
    s.call(op::DUMP, &[16]);
    s.done()
}

/// Types, sizes and strides, the bytes just enough, one too few and one too many.
fn fetches() -> List {
    let mut s = Script::new();
    let bytes: Vec<u8> = (0..255).map(|i| i * 37 + 11).collect();
    s.call(op::CLIENT_STATE, &[0x8074, 1]);
    s.call(op::CLIENT_STATE, &[0x8076, 1]);
    s.call(op::CLIENT_STATE, &[0x8078, 1]);
    for kind in TYPES {
        for size in 0..=6 {
            let packed: u32 = size
                * match kind {
                    0x1402 | 0x1403 => 2,
                    0x1406 | 0x140c => 4,
                    _ => 1,
                };
            for stride in [0, 1, packed, packed + 1, packed.saturating_sub(1)] {
                let step = if stride == 0 { packed } else { stride };
                let need = 2 * step + packed;
                for length in [need, need.saturating_sub(1), need + 1] {
                    fetch_both(&mut s, &bytes[..length as usize], [size, kind, stride]);
                }
            }
        }
    }
    s.done()
}

/// Three vertices from a buffer and from the guest.
fn fetch_both(s: &mut Script, bytes: &[u8], [size, kind, stride]: [u32; 3]) {
    s.call(op::BIND, &[ARRAY_TARGET, 1]);
    s.data(ARRAY_TARGET, bytes.len() as u32, bytes);
    s.call(op::VERTEX_POINTER, &[size, kind, stride, 0]);
    s.call(op::DRAW_ARRAYS, &[4, 0, ROOM, 0, 3]);
    s.call(op::BIND, &[ARRAY_TARGET, 0]);
    s.guest(BASE, bytes);
    s.call(op::COLOR_POINTER, &[size, kind, stride, BASE]);
    s.call(op::TEXCOORD_POINTER, &[size, kind, stride, BASE]);
    s.call(op::DRAW_ARRAYS, &[4, 1, ROOM, 0, 3]);
    s.call(op::VERTEX_POINTER, &[size, kind, stride, BASE]);
    s.call(op::DRAW_ARRAYS, &[4, 1, ROOM, 0, 3]);
}

/// Every byte and every short, as position, colour and coordinate.
fn bytes_and_shorts() -> List {
    let mut s = Script::new();
    s.call(op::CLIENT_STATE, &[0x8074, 1]);
    s.call(op::CLIENT_STATE, &[0x8076, 1]);
    let bytes: Vec<u8> = (0..=255).chain(0..12).collect();
    s.guest(BASE, &bytes);
    for kind in [0x1400, 0x1401] {
        s.call(op::VERTEX_POINTER, &[4, kind, 0, BASE]);
        s.call(op::COLOR_POINTER, &[4, kind, 0, BASE]);
        s.call(op::DRAW_ARRAYS, &[4, 0, ROOM, 0, 66]);
    }
    let shorts: Vec<u8> = (0..=65_535u16).flat_map(u16::to_le_bytes).collect();
    s.guest(BASE, &shorts);
    for kind in [0x1402, 0x1403] {
        s.call(op::VERTEX_POINTER, &[4, kind, 0, BASE]);
        s.call(op::COLOR_POINTER, &[4, kind, 0, BASE]);
        s.call(op::DRAW_ARRAYS, &[4, 0, 51 * 5461, 0, 16_383]);
        s.call(op::DRAW_ARRAYS, &[4, 0, 51, 16_381, 3]);
    }
    s.done()
}

/// Products and sums at 2^32-1.
fn addresses() -> List {
    let mut s = Script::new();
    let bytes = [1; 64];
    let top = 0u32.wrapping_sub(64);
    s.call(op::CLIENT_STATE, &[0x8074, 1]);
    for base in [top, top - 1, 0] {
        s.guest(base, &bytes);
        for (stride, index) in [
            (0x55555555, 3),
            (0x55555556, 3),
            (0x80000000, 1),
            (0x80000000, 2),
            (1, u32::MAX),
            (u32::MAX, 1),
            (u32::MAX, 2),
            (0, u32::MAX),
            (0xffff, 0x1_0001),
            (0x1_0000, 0x1_0000),
        ] {
            for size in [0, 1, 2, 4] {
                for pointer in [0, 1, 2, top, top + 60, top + 63, u32::MAX] {
                    s.call(op::VERTEX_POINTER, &[size, 0x1401, stride, pointer]);
                    s.draw_list(4, 0, ROOM, &[index; 3]);
                }
            }
        }
    }
    for size in [0x3fffffff, 0x40000000, 0x7fffffff, 0x80000000, u32::MAX] {
        for kind in TYPES {
            s.call(op::VERTEX_POINTER, &[size, kind, 4, top]);
            s.draw_list(4, 0, ROOM, &[0; 3]);
        }
    }
    s.done()
}

/// Every mixture of what a draw is asked: the first "no" gives the number.
fn questions() -> List {
    let mut s = Script::new();
    s.vertices();
    for (on, pointer) in [(1, BASE), (0, BASE), (1, 0), (1, BASE + 126)] {
        s.call(op::VERTEX_POINTER, &[2, 0x1402, 0, pointer]);
        s.call(op::CLIENT_STATE, &[0x8074, on]);
        for mode in [0, 3, 4, 5, 6, 7, u32::MAX] {
            for mask in [0, 15, 16] {
                for room in [ROOM, 51, 50, 0] {
                    for indices in [&[][..], &[0, 1, 2], &[0, 1, 99], &[0, 1, 2, 99]] {
                        s.draw_list(mode, mask, room, indices);
                    }
                    let count = room % 5;
                    s.call(op::DRAW_ARRAYS, &[mode, mask, room, 0, count]);
                    for (kind, at) in [(0x1401, 0), (0x1403, 0), (0x1402, 0), (0x1401, 999)] {
                        let words = [mode, mask, room, count, kind, BASE + at];
                        s.call(op::DRAW_GUEST, &words);
                    }
                    s.call(op::TAKE_ERROR, &[]);
                }
            }
        }
    }
    s.done()
}

/// Lists, strips and fans of 0 to 13 indices, each with too little, enough and more room.
fn corners() -> List {
    let mut s = Script::new();
    s.vertices();
    for n in 0..14 {
        let indices: Vec<u32> = (7..7 + n).collect();
        for mode in 0..8 {
            let triangles = if mode == 4 { n / 3 } else { n.saturating_sub(2) };
            let need = 51 * triangles;
            for room in [need, need + 1, need.saturating_sub(1), 0] {
                s.draw_list(mode, 0, room, &indices);
                s.call(op::DRAW_ARRAYS, &[mode, 0, room, 7, n]);
            }
        }
    }
    s.done()
}

/// Ranges near 2^32-1 on an array that can be fetched everywhere.
fn ranges() -> List {
    let mut s = Script::new();
    s.vertices();
    s.call(op::VERTEX_POINTER, &[0, 0x1406, 0, BASE]);
    for first in [0, 1, 0x7fffffff].into_iter().chain(u32::MAX - 6..=u32::MAX) {
        for count in 0..9 {
            for mode in [4, 5, 6, 7] {
                s.call(op::DRAW_ARRAYS, &[mode, 0, ROOM, first, count]);
            }
        }
        if first > 0x80000000 {
            s.call(op::DRAW_ARRAYS, &[5, 0, ROOM, first, u32::MAX]);
        }
    }
    s.call(op::CLIENT_STATE, &[0x8074, 0]);
    s.call(op::DRAW_ARRAYS, &[5, 0, ROOM, 0, u32::MAX]);
    s.done()
}

/// Indices from the element buffer and the guest, around the last that fits.
fn stored_indices() -> List {
    let mut s = Script::new();
    s.vertices();
    let bytes: Vec<u8> = (0..24).map(|i| if i % 2 == 0 { i / 2 } else { 0 }).collect();
    for element in [0, 1] {
        s.call(op::BIND, &[ELEMENT_TARGET, element]);
        s.data(ELEMENT_TARGET, 24, &bytes);
        let start = if element == 0 { BASE } else { 0 };
        for kind in [0x1401, 0x1403, 0x1405] {
            for count in [0, 1, 3, 11, 12, 13, 24, 25, 128, 129, 0x80000000, u32::MAX] {
                for at in [0, 1, 2, 21, 22, 23, 24, 25, 104, 105, 127, 128, 129, u32::MAX - BASE] {
                    let pointer = start.wrapping_add(at);
                    s.call(op::DRAW_GUEST, &[4, 0, ROOM, count, kind, pointer]);
                    s.call(op::DRAW_GUEST, &[99, 0, ROOM, count, kind, pointer]);
                }
            }
        }
        s.call(op::TAKE_ERROR, &[]);
    }
    s.done()
}

/// Views whose end lies before, at and past 2^32, and reads at their ends.
fn guest_views() -> List {
    let mut s = Script::new();
    s.call(op::CLIENT_STATE, &[0x8074, 1]);
    for length in [0usize, 1, 2, 16] {
        let bytes = vec![9; length];
        let end = 0u32.wrapping_sub(length as u32);
        for base in [0, 1, 100, end.wrapping_sub(1), end, end.wrapping_add(1), u32::MAX] {
            s.guest(base, &bytes);
            let after = base.wrapping_add(length as u32);
            for pointer in
                [base.wrapping_sub(1), base, after.wrapping_sub(1), after, after.wrapping_add(1)]
            {
                for size in 0..=2 {
                    s.call(op::VERTEX_POINTER, &[size, 0x1401, 0, pointer]);
                    s.draw_list(4, 0, ROOM, &[0; 3]);
                }
                s.call(op::DRAW_GUEST, &[4, 0, ROOM, 0, 0x1401, pointer]);
                s.call(op::DRAW_GUEST, &[7, 0, ROOM, 1, 0x1401, pointer]);
            }
        }
    }
    s.call(op::DUMP, &[2]);
    s.done()
}

/// 17 pushes and pops on every stack, the lent ones too.
fn stacks() -> List {
    let mut s = Script::new();
    for mode in 0x1700..=0x1702 {
        s.call(op::MATRIX_MODE, &[mode]);
        for i in 0..17 {
            s.floats(op::TRANSLATE, &[i as f32, 0.5, -0.0]);
            s.call(op::PUSH, &[]);
            s.call(op::DUMP, &[1]);
        }
        for _ in 0..17 {
            s.call(op::POP, &[]);
            s.call(op::DUMP, &[1]);
        }
        s.call(op::TAKE_ERROR, &[]);
    }
    for count in [0, 1, 14, 15, 16, 17, 0x80000000, u32::MAX] {
        let mut words = vec![2, count];
        words.extend((0..16 * (1 + count.min(15))).map(|i| (i as f32).to_bits()));
        s.call(op::STACK_SET, &words);
        for op in [op::STACK_SHOW, op::STACK_PUSH, op::STACK_PUSH, op::STACK_SHOW] {
            s.call(op, &[2]);
        }
        for _ in 0..18 {
            s.call(op::STACK_POP, &[2]);
        }
        s.call(op::STACK_SHOW, &[2]);
    }
    s.done()
}

/// gen, bind and delete around 16 names.
fn names() -> List {
    let mut s = Script::new();
    for live in 0..=16 {
        for n in (0..=17).chain([u32::MAX, u32::MAX - 15]) {
            s.call(op::FRESH, &[]);
            s.call(op::GEN, &[live]);
            s.call(op::GEN, &[n]);
            s.call(op::DUMP, &[4]);
        }
        for target in [ARRAY_TARGET, ELEMENT_TARGET, 0] {
            for name in [0, 1, 16, 17, 18, 5000] {
                s.call(op::FRESH, &[]);
                s.call(op::GEN, &[live]);
                s.call(op::BIND, &[target, name]);
                s.call(op::DELETE, &[5, 0, 3, 3, 99, 16]);
                s.call(op::BIND, &[target, name]);
                s.call(op::GEN, &[1]);
                s.call(op::DUMP, &[6]);
                s.call(op::TAKE_ERROR, &[]);
            }
        }
    }
    s.done()
}

/// Names up to 2^32-1.
fn far_names() -> List {
    let mut s = Script::new();
    for far in u32::MAX - 4..=u32::MAX {
        for target in [ARRAY_TARGET, 0] {
            for n in 0..6 {
                s.call(op::FRESH, &[]);
                s.call(op::BIND, &[target, far]);
                s.call(op::GEN, &[n]);
                s.call(op::GEN, &[1]);
                s.call(op::GEN, &[0]);
                s.call(op::DELETE, &[1, far]);
                s.call(op::DUMP, &[6]);
                s.call(op::TAKE_ERROR, &[]);
            }
        }
    }
    // All 16 rows taken and a name too far: 5 is asked first.
    s.call(op::GEN, &[16]);
    s.call(op::BIND, &[0, u32::MAX]);
    s.call(op::BIND, &[0, u32::MAX - 1]);
    s.done()
}

/// Sizes, data lengths and offsets around each end; store bytes that must not show.
fn buffer_bytes() -> List {
    let mut s = Script::new();
    s.call(op::STORE_FILL, &[0x5a5a5a5a]);
    for target in [ARRAY_TARGET, ELEMENT_TARGET, 0] {
        s.data(target, 4097, &[1]);
        s.sub_data(target, 0, &[]);
    }
    for target in [ARRAY_TARGET, ELEMENT_TARGET] {
        s.call(op::BIND, &[target, 2]);
        for size in [0, 1, 5, 4095, 4096, 4097, 65_536, u32::MAX] {
            for length in [0, 1, 4, 5, 6, 4096, 4097, 8192] {
                let bytes: Vec<u8> = (0..length).map(|i| i as u8 + 1).collect();
                s.data(target, size, &bytes);
                s.call(op::DUMP, &[4]);
            }
            s.call(op::BUFFER_DATA, &[target, size, 7, 0, 0]);
            s.call(op::DUMP, &[4]);
        }
        s.data(target, 5, &[1, 2, 3, 4, 5]);
        for at in [0, 1, 4, 5, 6, u32::MAX - 1, u32::MAX] {
            for length in 0..7 {
                s.sub_data(target, at, &vec![9 + length as u8; length]);
                s.call(op::DUMP, &[4]);
            }
        }
        s.call(op::TAKE_ERROR, &[]);
    }
    s.done()
}

/// Frustum and ortho with one or two bounds changed.
fn boxes() -> List {
    let mut s = Script::new();
    let odd =
        [0.0, -0.0, 1.0, -1.0, 3.0, f32::NAN, f32::INFINITY, f32::NEG_INFINITY, 1e-45, -1e-45];
    for op in [op::FRUSTUM, op::ORTHO] {
        for place in 0..6 {
            for x in odd {
                for other in [0.0, 1.0, -1.0, f32::NAN] {
                    let mut v = [-1.0, 1.0, -1.0, 1.0, 1.0, 3.0];
                    v[place] = x;
                    s.call(op::LOAD_IDENTITY, &[]);
                    s.floats(op, &v);
                    v[(place + 1) % 6] = other;
                    s.floats(op, &v);
                    s.call(op::DUMP, &[1]);
                }
            }
        }
    }
    s.call(op::TAKE_ERROR, &[]);
    s.done()
}

/// Four numbers, negated where the bit is set.
fn signed(bits: u32, x: f32) -> [f32; 4] {
    std::array::from_fn(|k| if bits >> k & 1 == 1 { -x } else { x })
}

/// A matrix whose column k is one of four numbers.
fn by_columns(columns: [f32; 4]) -> [f32; 16] {
    std::array::from_fn(|i| columns[i / 4])
}

/// Vertices of four floats in the guest.
fn float_vertices(s: &mut Script, vertices: &[[f32; 4]]) {
    let bytes: Vec<u8> = vertices.iter().flatten().flat_map(|x| x.to_le_bytes()).collect();
    s.guest(BASE, &bytes);
    s.call(op::VERTEX_POINTER, &[4, 0x1406, 0, BASE]);
    s.call(op::TEXCOORD_POINTER, &[2, 0x1406, 16, BASE]);
    s.call(op::CLIENT_STATE, &[0x8074, 1]);
    s.call(op::CLIENT_STATE, &[0x8078, 1]);
}

/// Sums of zeros of either sign, in every mixture, by transform and by multiply.
fn signs() -> List {
    let mut s = Script::new();
    let zeros = (0..16).map(|bits| signed(bits, 0.0));
    let vertices: Vec<_> = zeros.chain((0..16).map(|bits| signed(bits, 1.0))).collect();
    float_vertices(&mut s, &vertices);
    for mode in [0x1700, 0x1701, 0x1702] {
        s.call(op::MATRIX_MODE, &[mode]);
        for bits in 0..16 {
            for x in [0.0, 1.0] {
                s.floats(op::LOAD, &by_columns(signed(bits, x)));
                s.call(op::DRAW_ARRAYS, &[5, 1, ROOM, 0, 32]);
            }
        }
        s.call(op::LOAD_IDENTITY, &[]);
    }
    for (left, right) in (0..256).map(|i| (i % 16, i / 16)) {
        s.floats(op::LOAD, &by_columns(signed(left, 0.0)));
        let rows = signed(right, 1.0);
        let turned: [f32; 16] = std::array::from_fn(|i| rows[i % 4]);
        s.floats(op::MULT, &turned);
        s.call(op::DUMP, &[1]);
    }
    s.done()
}

/// Every pair of special numbers as a product and as a sum.
fn specials() -> List {
    let mut s = Script::new();
    let numbers: Vec<f32> = [
        0, 0x80000000, 1, 0x80000001, 0x007fffff, 0x00800000, 0x3f800000, 0xbf800000, 0x3f800001,
        0x3fffffff, 0x4b800001, 0x5d800000, 0x7f7fffff, 0xff7fffff, 0x7f800000, 0xff800000,
        0x7fc00000, 0xffc00000, 0x7f800001, 0xffffffff,
    ]
    .map(f32::from_bits)
    .to_vec();
    let vertices: Vec<[f32; 4]> = numbers.iter().map(|&x| [x, 1.0, x, 1.0]).collect();
    float_vertices(&mut s, &vertices);
    for &x in &numbers {
        for op in [op::SCALE, op::TRANSLATE] {
            for mode in [0x1700, 0x1701, 0x1702] {
                s.call(op::MATRIX_MODE, &[mode]);
                s.call(op::LOAD_IDENTITY, &[]);
                s.floats(op, &[x, -x, x]);
            }
            s.call(op::DRAW_ARRAYS, &[5, 1, ROOM, 0, vertices.len() as u32]);
            s.call(op::DUMP, &[1]);
        }
        s.floats(op::COLOR, &[x; 4]);
        s.floats(op::DEPTH_RANGE, &[x, -x]);
        s.call(op::ALPHA_FUNC, &[0x0203, x.to_bits()]);
        s.call(op::FOG, &[0x0b63, x.to_bits()]);
        s.floats(op::TEX_ENV_COLOR, &[x; 4]);
        s.call(op::MULTI_TEXCOORD, &[0x84c1, x.to_bits(), x.to_bits()]);
        s.call(op::DRAW_ARRAYS, &[4, 3, ROOM, 0, 3]);
        s.call(op::DUMP, &[24]);
    }
    s.done()
}

/// One record of each call.
fn every_call(s: &mut Script) {
    s.call(op::MATRIX_MODE, &[0x1701]);
    s.call(op::LOAD_IDENTITY, &[]);
    s.floats(op::LOAD, &[2.0; 16]);
    s.floats(op::MULT, &[3.0; 16]);
    s.call(op::PUSH, &[]);
    s.call(op::POP, &[]);
    s.floats(op::TRANSLATE, &[1.0; 3]);
    s.floats(op::SCALE, &[2.0; 3]);
    let from = [90.0, 1.0, 0.0, 0.0];
    s.floats(op::ROTATE, &[&host_rotation(from)[..], &from[..]].concat());
    s.floats(op::ROTATE_ZERO, &[90.0, 0.0, 0.0, 0.0]);
    s.floats(op::FRUSTUM, &[-1.0, 1.0, -1.0, 1.0, 1.0, 3.0]);
    s.floats(op::ORTHO, &[-1.0, 1.0, -1.0, 1.0, 1.0, 1.0]);
    s.call(op::GEN, &[1]);
    s.call(op::BIND, &[0, 7]);
    s.call(op::DELETE, &[1, 1]);
    s.data(ARRAY_TARGET, 4, &[1]);
    s.sub_data(0, 0, &[2]);
    s.call(op::VERTEX_POINTER, &[1, 2, 3, 4]);
    s.call(op::COLOR_POINTER, &[1, 2, 3, 4]);
    s.call(op::NORMAL_POINTER, &[2, 3, 4]);
    s.call(op::TEXCOORD_POINTER, &[1, 2, 3, 4]);
    s.call(op::CLIENT_STATE, &[0x8074, 0]);
    s.call(op::CLIENT_UNIT, &[9]);
    s.floats(op::COLOR, &[0.5; 4]);
    s.call(op::MULTI_TEXCOORD, &[0x84c0, 1, 2]);
    s.call(op::ACTIVE_UNIT, &[2]);
    s.call(op::CAPABILITY, &[0x0b71, 1]);
    s.call(op::TEX_ENV, &[0x2200, 0x2101]);
    s.floats(op::TEX_ENV_COLOR, &[0.25; 4]);
    s.call(op::DEPTH_FUNC, &[0x0204]);
    s.call(op::ALPHA_FUNC, &[0x0204, 0]);
    s.call(op::BLEND_FUNC, &[0x0300, 0x0301]);
    s.call(op::CULL_FACE, &[0x0404]);
    s.call(op::FRONT_FACE, &[0x0900]);
    s.call(op::FOG, &[0x0b62, 0]);
    s.floats(op::DEPTH_RANGE, &[0.5, 0.5]);
    s.call(op::TAKE_ERROR, &[]);
    s.draw_list(4, 99, ROOM, &[0, 1, 2]);
    s.call(op::DRAW_ARRAYS, &[7, 0, ROOM, 0, 3]);
    s.call(op::DRAW_GUEST, &[4, 0, 0, 3, 0, 0]);
}

/// Each kind of unsound context, and all calls on it.
fn unsound() -> List {
    let mut s = Script::new();
    for kind in 1..=12 {
        s.call(op::FRESH, &[]);
        s.vertices();
        s.call(op::BIND, &[ARRAY_TARGET, 4]);
        s.call(op::BIND, &[ELEMENT_TARGET, 2]);
        s.call(op::MATRIX_MODE, &[0]);
        s.call(op::UNSOUND, &[kind]);
        every_call(&mut s);
        // The sections that show the driver's own choice are left out.
        let sections = match kind {
            1..=3 => 30,
            6..=8 => 27,
            11 | 12 => 29,
            _ => 31,
        };
        s.call(op::DUMP, &[sections]);
    }
    // An unsound context takes no call, so its vertex array stays off and a range past the bound may come.
    for kind in 1..=12 {
        s.call(op::FRESH, &[]);
        s.call(op::BIND, &[ARRAY_TARGET, 4]);
        s.call(op::UNSOUND, &[kind]);
        s.call(op::CLIENT_STATE, &[0x8074, 1]);
        s.call(op::DRAW_ARRAYS, &[4, 0, ROOM, 0, 0x80000000]);
    }
    s.call(op::FRESH, &[]);
    every_call(&mut s);
    s.call(op::DUMP, &[31]);
    s.done()
}

/// Stores of other lengths.
fn stores() -> List {
    let mut s = Script::new();
    s.vertices();
    s.call(op::BIND, &[ARRAY_TARGET, 1]);
    s.data(ARRAY_TARGET, 4, &[1, 2, 3, 4]);
    for length in [0, 1, 4096, 65_535, 65_537, 65_600, 65_536] {
        s.call(op::STORE_LEN, &[length]);
        s.data(ARRAY_TARGET, 4, &[5, 6]);
        s.data(ARRAY_TARGET, 4097, &[5, 6]);
        s.data(0, 4, &[5, 6]);
        s.sub_data(ARRAY_TARGET, 3, &[7]);
        s.sub_data(0, 3, &[7]);
        s.draw_list(4, 0, ROOM, &[0, 1, 2]);
        s.draw_list(7, 16, 0, &[0, 1, 99]);
        s.call(op::DRAW_ARRAYS, &[4, 0, ROOM, 0, 3]);
        s.call(op::DRAW_GUEST, &[4, 0, ROOM, 3, 0x1401, BASE]);
        s.call(op::DRAW_GUEST, &[4, 0, ROOM, 3, 0, BASE]);
        s.call(op::STORE_LEN, &[STORE]);
        s.call(op::DUMP, &[4]);
        s.call(op::TAKE_ERROR, &[]);
    }
    s.done()
}
