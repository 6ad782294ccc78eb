//! Counts how often the lists come to each case of document 01, on both sides of every limit.

use crate::generate::{Kind, List};
use crate::model::{component_bytes, Array, Model, ARRAY_TARGET, ELEMENT_TARGET, MOST};
use crate::trace::{self, name, op, Record, STORE};
use std::collections::{BTreeMap, BTreeSet};

const SETTINGS: [u32; 13] = [
    op::MATRIX_MODE,
    op::CLIENT_STATE,
    op::CLIENT_UNIT,
    op::MULTI_TEXCOORD,
    op::ACTIVE_UNIT,
    op::CAPABILITY,
    op::TEX_ENV,
    op::DEPTH_FUNC,
    op::ALPHA_FUNC,
    op::BLEND_FUNC,
    op::CULL_FACE,
    op::FRONT_FACE,
    op::FOG,
];
const DRAWS: [u32; 3] = [op::DRAW_LIST, op::DRAW_ARRAYS, op::DRAW_GUEST];
const ROLES: [&str; 3] = ["position", "colour", "pair"];
const SOURCES: [&str; 2] = ["buffer", "guest"];
const STACKS: [&str; 4] = ["modelview", "projection", "texture", "lent"];
const CLASSES: [&str; 7] =
    ["+NaN", "-NaN", "+infinity", "-infinity", "+subnormal", "-subnormal", "-0.0"];
/// Ends of a fetch before its source is asked.
const ADDRESSES: [&str; 9] = [
    "an unknown type",
    "bytes times size past 2^32-1",
    "bytes times size just below 2^32",
    "stride times index past 2^32-1",
    "stride times index just below 2^32",
    "pointer plus product past 2^32-1",
    "address 2^32-1",
    "a buffer that is absent",
    "an address below the guest's base",
];
/// Ends of a fetch by where its bytes end.
const ENDS: [&str; 4] =
    ["up to the end", "one byte past the end", "no bytes at the end", "no bytes one past the end"];

/// Where a call's floats stand, if it has any.
fn floats(code: u32) -> Option<(usize, usize)> {
    Some(match code {
        op::LOAD | op::MULT => (0, 16),
        op::TRANSLATE | op::SCALE => (0, 3),
        op::ROTATE => (0, 5),
        op::FRUSTUM | op::ORTHO => (0, 6),
        op::COLOR | op::TEX_ENV_COLOR => (0, 4),
        op::MULTI_TEXCOORD => (1, 3),
        op::ALPHA_FUNC | op::FOG => (1, 2),
        op::DEPTH_RANGE => (0, 2),
        _ => return None,
    })
}

/// The numbers that the document lets a call answer.
fn numbers(code: u32) -> &'static [u32] {
    match code {
        op::PUSH | op::STACK_PUSH => &[0, 1, 0x0503],
        op::POP | op::STACK_POP => &[0, 1, 0x0504],
        op::FRUSTUM | op::ORTHO => &[0, 1, 0x0501],
        op::GEN => &[0, 1, 4, 5],
        op::BIND => &[0, 1, 4, 5, 0x0500],
        op::BUFFER_DATA => &[0, 1, 6, 0x0500, 0x0502],
        op::BUFFER_SUB_DATA => &[0, 1, 0x0501, 0x0502],
        op::DRAW_LIST | op::DRAW_ARRAYS => &[0, 1, 2, 3, 8, 9, 10, 11, 0x0500],
        op::DRAW_GUEST => &[0, 1, 2, 3, 7, 8, 9, 10, 11, 0x0500, 0x0501],
        _ if SETTINGS.contains(&code) => &[0, 1, 0x0500],
        _ => &[0, 1],
    }
}

fn class(x: f32) -> Option<&'static str> {
    let negative = x.is_sign_negative() as usize;
    match x {
        _ if x.is_nan() => Some(CLASSES[negative]),
        _ if x.is_infinite() => Some(CLASSES[2 + negative]),
        _ if x.is_subnormal() => Some(CLASSES[4 + negative]),
        _ if x == 0.0 && negative == 1 => Some(CLASSES[6]),
        _ => None,
    }
}

fn number_text(number: u32) -> String {
    if number < 16 {
        return number.to_string();
    }
    format!("{number:#06x}")
}

/// Every case that must come.
fn rows() -> Vec<String> {
    let mut rows = Vec::new();
    for code in (0x10..=0x72).filter(|&code| trace::is_call(code) && !name(code).is_empty()) {
        for &number in numbers(code) {
            rows.push(format!("{} answers {}", name(code), number_text(number)));
        }
        if floats(code).is_some() {
            rows.extend(CLASSES.map(|class| format!("{} of {class}", name(code))));
        }
    }
    rows.extend(CLASSES.map(|class| format!("STACK_SET of {class}")));
    for stack in STACKS {
        for text in ["15th push", "16th push", "last pop", "pop too many"] {
            rows.push(format!("{stack} stack: {text}"));
        }
    }
    for text in BUFFER_ROWS {
        rows.push(text.into());
    }
    for code in [op::BUFFER_DATA, op::BUFFER_SUB_DATA].into_iter().chain(DRAWS) {
        for length in [0, STORE - 1, STORE + 1] {
            rows.push(format!("{} lent a store of {length}", name(code)));
        }
    }
    for text in SETTING_ROWS {
        rows.push(text.into());
    }
    for role in ROLES {
        for text in ADDRESSES {
            rows.push(format!("{role}: {text}"));
        }
        for (source, text) in SOURCES.iter().flat_map(|s| ENDS.map(|e| (s, e))) {
            rows.push(format!("{role}: {source}, {text}"));
        }
        for kind in [0x1400, 0x1401, 0x1402, 0x1403, 0x1406, 0x140c] {
            rows.extend((0..=6).map(|size| format!("{role}: type {kind:#06x}, size {size}")));
        }
        rows.extend(CLASSES.map(|class| format!("{role}: array of {class}")));
        rows.push(format!("{role}: revived array"));
    }
    for text in ["array", "failed array", "current"] {
        rows.push(format!("colour: {text}"));
        rows.extend((0..4).map(|unit| format!("unit {unit}: {text}")));
    }
    rows.extend((0..4).map(|unit| format!("unit {unit}: no stage")));
    for draw in DRAWS.map(name) {
        for mode in ["list", "strip", "fan"] {
            // A guest-indexed draw of none has rows of its own.
            for n in (draw == "DRAW_GUEST") as u32..6 {
                rows.push(format!("{draw}: {mode} of {n}"));
            }
        }
        rows.extend((0..8).map(|mode| format!("{draw}: mode {mode}")));
        for text in DRAW_ROWS {
            rows.push(format!("{draw}: {text}"));
        }
    }
    for source in ["element buffer", "guest"] {
        for kind in ["bytes", "shorts"] {
            for text in ["drawn", "up to the end", "one byte past the end"] {
                rows.push(format!("indices: {kind} of the {source}, {text}"));
            }
        }
        for text in ["none, and a mode that is unknown", "none, past the end"] {
            rows.push(format!("indices of the {source}: {text}"));
        }
    }
    for text in [
        "ends at 2^32-2",
        "ends at 2^32-1",
        "would end at 2^32",
        "would end past 2^32",
        "triangles of a shortened one",
        "count 2^32-1 without an array",
    ] {
        rows.push(format!("range: {text}"));
    }
    rows.extend((1..=12).map(|kind| format!("unsound context of kind {kind}")));
    for text in STOPS {
        rows.push(format!("the reader stops: {text}"));
    }
    for text in ["in the domain", "outside", "damaged"] {
        rows.push(format!("lists {text}"));
    }
    rows
}

const BUFFER_ROWS: [&str; 38] = [
    "GEN of 0",
    "GEN up to 16 live",
    "GEN up to 17 live",
    "GEN with next + n = 2^32-1",
    "GEN with next + n = 2^32",
    "GEN after 16 live, one deleted",
    "BIND of 0",
    "BIND of 2^32-2",
    "BIND of 2^32-1",
    "BIND of 2^32-1 with 16 live",
    "BIND of a new name with 15 live",
    "BIND of a new name with 16 live",
    "BIND of a live name with 16 live",
    "BIND of 0 with 16 live",
    "BIND of a new name at a bad target",
    "BIND of a live name at a bad target",
    "BIND of 0 at a bad target",
    "BIND of a new name below next",
    "DELETE of nothing",
    "DELETE of 0",
    "DELETE of an unknown name",
    "DELETE of a name twice",
    "DELETE of the array binding",
    "DELETE of the element binding",
    "DELETE of an array's buffer",
    "BUFFER_DATA of 0 bytes",
    "BUFFER_DATA of 4095 bytes",
    "BUFFER_DATA of 4096 bytes",
    "BUFFER_DATA of 4097 bytes",
    "BUFFER_DATA without data",
    "BUFFER_DATA with less data",
    "BUFFER_DATA with more data",
    "BUFFER_DATA with nothing bound",
    "BUFFER_SUB_DATA at a bad target",
    "BUFFER_SUB_DATA with nothing bound",
    "BUFFER_SUB_DATA up to the end",
    "BUFFER_SUB_DATA one byte past the end",
    "BUFFER_SUB_DATA with offset + length past 2^32-1",
];

const SETTING_ROWS: [&str; 44] = [
    "FRUSTUM refused by n <= 0 alone",
    "FRUSTUM refused by f <= 0 alone",
    "FRUSTUM refused by l = r alone",
    "FRUSTUM refused by b = t alone",
    "FRUSTUM refused by n = f alone",
    "ORTHO refused by l = r alone",
    "ORTHO refused by b = t alone",
    "ORTHO refused by n = f alone",
    "ORTHO with n <= 0",
    "ORTHO with f <= 0",
    "CAPABILITY 0x3fff",
    "CAPABILITY 0x4000",
    "CAPABILITY 0x400f",
    "CAPABILITY 0x4010",
    "CAPABILITY 0x0c11",
    "CLIENT_UNIT 3",
    "CLIENT_UNIT 4",
    "ACTIVE_UNIT 3",
    "ACTIVE_UNIT 4",
    "MULTI_TEXCOORD 0x84bf",
    "MULTI_TEXCOORD 0x84c0",
    "MULTI_TEXCOORD 0x84c3",
    "MULTI_TEXCOORD 0x84c4",
    "TEX_ENV of another pname",
    "TEX_ENV of COMBINE",
    "BLEND_FUNC with a bad source alone",
    "BLEND_FUNC with a bad destination alone",
    "FOG of a bad pname",
    "FOG of a bad mode",
    "FOG of a mode that is not whole",
    "FOG of a negative mode",
    "ALPHA_FUNC below 0",
    "ALPHA_FUNC above 1",
    "ALPHA_FUNC with a bad code",
    "DEPTH_RANGE below 0",
    "DEPTH_RANGE above 1",
    "STACK_SET of 15",
    "STACK_SET of 16",
    "ROTATE_ZERO of an axis that is not 0",
    "TAKE_ERROR of a code",
    "TAKE_ERROR of none",
    "a code while the slot is full",
    "a number below 0x0500 while the slot is empty",
    "MATRIX_MODE refused under another mode than modelview",
];

const DRAW_ROWS: [&str; 18] = [
    "mask 15",
    "mask 16",
    "view ends at 2^32",
    "view ends at 2^32+1",
    "view without bytes",
    "no vertex array",
    "pointer 0 without a buffer",
    "pointer 0 in a buffer",
    "first position fails",
    "last position fails",
    "position of no triangle fails",
    "unknown mode and a position that fails",
    "line mode and a position that fails",
    "exact output",
    "output one too short",
    "output one too long",
    "output of 0 for no triangle",
    "output of 0 for a triangle",
];

const STOPS: [&str; 9] = [
    "unknown opcode",
    "record too long",
    "the file ends inside the record",
    "wrong number of words",
    "a bound is passed",
    "a flag is neither 0 nor 1",
    "nonzero padding",
    "bytes without data",
    "unknown kind",
];

/// What a call's cases are told by, from before the call.
struct Before {
    live: u64,
    next: u64,
    saved: u32,
    lent: u32,
    mode: usize,
    slot: u32,
    bound: u32,
    length: u64,
    bindings: [u32; 2],
    names: BTreeSet<u32>,
}

pub struct Coverage {
    counts: BTreeMap<String, [u64; 2]>,
    /// 0 for a sweep, 1 for a list by seed.
    column: usize,
    /// Arrays whose buffer was deleted since their pointer call.
    dead: BTreeSet<usize>,
    /// Were there 16 live names since FRESH?
    full: bool,
}

impl Coverage {
    pub fn new() -> Self {
        let counts = rows().into_iter().map(|row| (row, [0; 2])).collect();
        Coverage { counts, column: 0, dead: BTreeSet::new(), full: false }
    }

    fn hit(&mut self, row: &str) {
        self.counts.get_mut(row).unwrap_or_else(|| panic!("no row '{row}'"))[self.column] += 1;
    }

    fn hit_if(&mut self, yes: bool, row: &str) {
        if yes {
            self.hit(row);
        }
    }

    pub fn add(&mut self, list: &List, seeded: bool) {
        self.column = seeded as usize;
        self.hit(match list.kind {
            Kind::Inside => "lists in the domain",
            Kind::Outside => "lists outside",
            Kind::Damaged => "lists damaged",
        });
        let (records, stop) = trace::read(&list.bytes());
        if let Some(stop) = stop {
            self.hit(&format!("the reader stops: {}", stop.reason));
        }
        let mut model = Model::new(None);
        let mut text = Vec::new();
        for r in &records {
            let before = before(&model, r);
            let deleted = arrays_of_deleted(&model, r);
            text.clear();
            let number = model.run(r, &mut text).expect("a legal record");
            self.setting(&model, r);
            if !trace::is_call(r.op) {
                continue;
            }
            self.answer(r, number, &before);
            if model.store_len != STORE {
                self.store(r, model.store_len);
                continue;
            }
            if r.op == op::STACK_PUSH || r.op == op::STACK_POP {
                self.stack(3, r.op, number, before.lent);
            }
            if !model.context.sound {
                continue;
            }
            self.call(r, number, &before, &text);
            self.hit_if(!deleted.is_empty(), "DELETE of an array's buffer");
            self.dead.extend(deleted);
            self.dead.retain(|&i| !pointed(&model, r, i));
            if trace::is_draw(r.op) {
                self.draw(&model, r, number);
            }
        }
    }

    /// Records that are no calls.
    fn setting(&mut self, model: &Model, r: &Record) {
        match r.op {
            op::FRESH => {
                self.dead.clear();
                self.full = false;
            }
            op::UNSOUND => self.hit(&format!("unsound context of kind {}", r.words[0])),
            op::STACK_SET => {
                self.hit_if(r.words[1] == 15, "STACK_SET of 15");
                self.hit_if(r.words[1] == 16, "STACK_SET of 16");
                for i in 2..r.words.len() {
                    self.number("STACK_SET", r.float(i));
                }
            }
            _ => {}
        }
        self.full |= model.context.buffers.len() == 16;
    }

    fn number(&mut self, what: &str, x: f32) {
        if let Some(class) = class(x) {
            self.hit(&format!("{what} of {class}"));
        }
    }

    fn answer(&mut self, r: &Record, number: u32, before: &Before) {
        let name = name(r.op);
        self.hit(&format!("{name} answers {}", number_text(number)));
        if let (0, Some((from, to))) = (number, floats(r.op)) {
            (from..to).for_each(|i| self.number(name, r.float(i)));
        }
        self.hit_if(number >= 0x0500 && before.slot != 0, "a code while the slot is full");
        let small = (2..16).contains(&number) && before.slot == 0;
        self.hit_if(small, "a number below 0x0500 while the slot is empty");
    }

    fn store(&mut self, r: &Record, length: u32) {
        if [0, STORE - 1, STORE + 1].contains(&length) {
            self.hit(&format!("{} lent a store of {length}", name(r.op)));
        }
    }

    fn stack(&mut self, stack: usize, code: u32, number: u32, saved: u32) {
        let push = code == op::PUSH || code == op::STACK_PUSH;
        let text = match (push, number, saved) {
            (true, 0, 14) => "15th push",
            (true, 0x0503, 15) => "16th push",
            (false, 0, 1) => "last pop",
            (false, 0x0504, 0) => "pop too many",
            _ => return,
        };
        self.hit(&format!("{} stack: {text}", STACKS[stack]));
    }

    fn call(&mut self, r: &Record, number: u32, before: &Before, text: &[u8]) {
        let w = &r.words;
        match r.op {
            op::PUSH | op::POP => self.stack(before.mode, r.op, number, before.saved),
            op::FRUSTUM | op::ORTHO => self.planes(r, number),
            op::GEN => self.generate(w[0] as u64, number, before),
            op::BIND => self.bind(w[0], w[1], number, before),
            op::DELETE => self.delete(&w[1..], before),
            op::BUFFER_DATA => self.data(r, number),
            op::BUFFER_SUB_DATA => self.sub_data(r, number, before),
            op::CAPABILITY if [0x3fff, 0x4000, 0x400f, 0x4010, 0x0c11].contains(&w[0]) => {
                self.hit(&format!("CAPABILITY {:#06x}", w[0]));
            }
            op::CLIENT_UNIT | op::ACTIVE_UNIT if w[0] == 3 || w[0] == 4 => {
                self.hit(&format!("{} {}", name(r.op), w[0]));
            }
            op::MULTI_TEXCOORD if [0x84bf, 0x84c0, 0x84c3, 0x84c4].contains(&w[0]) => {
                self.hit(&format!("MULTI_TEXCOORD {:#06x}", w[0]));
            }
            op::TEX_ENV => {
                self.hit_if(w[0] != 0x2200, "TEX_ENV of another pname");
                self.hit_if(w[0] == 0x2200 && w[1] == 0x8570, "TEX_ENV of COMBINE");
            }
            op::BLEND_FUNC => {
                let good = |f: u32| f <= 1 || (0x0300..=0x0308).contains(&f);
                self.hit_if(!good(w[0]) && good(w[1]), "BLEND_FUNC with a bad source alone");
                self.hit_if(good(w[0]) && !good(w[1]), "BLEND_FUNC with a bad destination alone");
            }
            op::FOG => self.fog(w[0], r.float(1), number),
            op::ALPHA_FUNC => {
                self.hit_if(number == 0 && r.float(1) < 0.0, "ALPHA_FUNC below 0");
                self.hit_if(number == 0 && r.float(1) > 1.0, "ALPHA_FUNC above 1");
                self.hit_if(number == 0x0500, "ALPHA_FUNC with a bad code");
            }
            op::DEPTH_RANGE => {
                self.hit_if(r.float(0) < 0.0 || r.float(1) < 0.0, "DEPTH_RANGE below 0");
                self.hit_if(r.float(0) > 1.0 || r.float(1) > 1.0, "DEPTH_RANGE above 1");
            }
            op::ROTATE_ZERO => {
                let tiny = (1..4).any(|i| r.float(i) != 0.0);
                self.hit_if(tiny, "ROTATE_ZERO of an axis that is not 0");
            }
            op::TAKE_ERROR => {
                let none = text == b"TAKE_ERROR 0 0\n";
                self.hit(if none { "TAKE_ERROR of none" } else { "TAKE_ERROR of a code" });
            }
            op::MATRIX_MODE => {
                let kept = number != 0 && before.mode != 0;
                self.hit_if(kept, "MATRIX_MODE refused under another mode than modelview");
            }
            _ => {}
        }
    }

    /// A box refused for one reason alone, or an ortho behind the eye.
    fn planes(&mut self, r: &Record, number: u32) {
        let [l, right, b, t, n, f] = r.floats(0);
        let name = name(r.op);
        let eye = r.op == op::FRUSTUM;
        let reasons = [
            (eye && n <= 0.0, "n <= 0"),
            (eye && f <= 0.0, "f <= 0"),
            (l == right, "l = r"),
            (b == t, "b = t"),
            (n == f, "n = f"),
        ];
        let mut met = reasons.iter().filter(|(yes, _)| *yes);
        if let (Some((_, text)), None) = (met.next(), met.next()) {
            self.hit(&format!("{name} refused by {text} alone"));
        }
        self.hit_if(!eye && number == 0 && n <= 0.0, "ORTHO with n <= 0");
        self.hit_if(!eye && number == 0 && f <= 0.0, "ORTHO with f <= 0");
    }

    fn generate(&mut self, n: u64, number: u32, before: &Before) {
        let (live, next) = (before.live + n, before.next + n);
        self.hit_if(n == 0 && number == 0, "GEN of 0");
        self.hit_if(n > 0 && live == 16 && number == 0, "GEN up to 16 live");
        self.hit_if(live == 17 && number == 4, "GEN up to 17 live");
        self.hit_if(n > 0 && next == MOST && number == 0, "GEN with next + n = 2^32-1");
        self.hit_if(next == MOST + 1 && number == 5, "GEN with next + n = 2^32");
        let again = self.full && before.live < 16 && n > 0 && number == 0;
        self.hit_if(again, "GEN after 16 live, one deleted");
    }

    fn bind(&mut self, target: u32, name: u32, number: u32, before: &Before) {
        let known = before.bound == name;
        let new = name != 0 && !known;
        let full = before.live == 16;
        self.hit_if(name == 0, "BIND of 0");
        self.hit_if(name == u32::MAX - 1 && number == 0, "BIND of 2^32-2");
        self.hit_if(name == u32::MAX && !full, "BIND of 2^32-1");
        self.hit_if(name == u32::MAX && full, "BIND of 2^32-1 with 16 live");
        self.hit_if(new && before.live == 15 && number == 0, "BIND of a new name with 15 live");
        self.hit_if(new && full && number == 4, "BIND of a new name with 16 live");
        self.hit_if(name != 0 && known && full, "BIND of a live name with 16 live");
        self.hit_if(name == 0 && full, "BIND of 0 with 16 live");
        self.hit_if(new && (name as u64) < before.next, "BIND of a new name below next");
        if target == ARRAY_TARGET || target == ELEMENT_TARGET || number != 0x0500 {
            return;
        }
        self.hit(match (name, new) {
            (0, _) => "BIND of 0 at a bad target",
            (_, true) => "BIND of a new name at a bad target",
            _ => "BIND of a live name at a bad target",
        });
    }

    fn delete(&mut self, names: &[u32], before: &Before) {
        let held = |name: &u32| before.names.contains(name);
        let twice = names.iter().enumerate().any(|(i, n)| held(n) && names[..i].contains(n));
        let [array, element] = before.bindings;
        self.hit_if(names.is_empty(), "DELETE of nothing");
        self.hit_if(names.contains(&0), "DELETE of 0");
        self.hit_if(names.iter().any(|n| *n != 0 && !held(n)), "DELETE of an unknown name");
        self.hit_if(twice, "DELETE of a name twice");
        self.hit_if(array != 0 && names.contains(&array), "DELETE of the array binding");
        self.hit_if(element != 0 && names.contains(&element), "DELETE of the element binding");
    }

    fn data(&mut self, r: &Record, number: u32) {
        let (target, size, given, length) = (r.words[0], r.words[1], r.words[3], r.words[4]);
        let known = target == ARRAY_TARGET || target == ELEMENT_TARGET;
        self.hit_if(known && number == 0x0502, "BUFFER_DATA with nothing bound");
        if [0, 4095, 4096].contains(&size) && number == 0 || size == 4097 && number == 6 {
            self.hit(&format!("BUFFER_DATA of {size} bytes"));
        }
        let done = number == 0 && size > 0;
        self.hit_if(done && given == 0, "BUFFER_DATA without data");
        self.hit_if(done && given == 1 && length < size, "BUFFER_DATA with less data");
        self.hit_if(done && length > size, "BUFFER_DATA with more data");
    }

    fn sub_data(&mut self, r: &Record, number: u32, before: &Before) {
        let (target, end) = (r.words[0], r.words[1] as u64 + r.words[2] as u64);
        let known = target == ARRAY_TARGET || target == ELEMENT_TARGET;
        self.hit_if(!known && number == 0x0502, "BUFFER_SUB_DATA at a bad target");
        self.hit_if(known && number == 0x0502, "BUFFER_SUB_DATA with nothing bound");
        if !known || before.bound == 0 {
            return;
        }
        self.hit_if(end == before.length, "BUFFER_SUB_DATA up to the end");
        self.hit_if(end == before.length + 1, "BUFFER_SUB_DATA one byte past the end");
        self.hit_if(end > MOST, "BUFFER_SUB_DATA with offset + length past 2^32-1");
    }

    fn fog(&mut self, pname: u32, value: f32, number: u32) {
        let mode = pname == 0x0b65;
        self.hit_if(number == 0x0500 && !mode, "FOG of a bad pname");
        self.hit_if(number == 0x0500 && mode, "FOG of a bad mode");
        self.hit_if(number == 0 && mode && value.fract() != 0.0, "FOG of a mode that is not whole");
        self.hit_if(mode && value < 0.0, "FOG of a negative mode");
    }

    // ---- draws ----

    fn draw(&mut self, m: &Model, r: &Record, number: u32) {
        let (mode, mask, room) = (r.words[0], r.words[1], r.words[2]);
        let draw = name(r.op);
        let end = m.base as u64 + m.guest.len() as u64;
        self.hit_if(end == MOST + 1 && number != 2, &format!("{draw}: view ends at 2^32"));
        self.hit_if(end == MOST + 2 && number == 2, &format!("{draw}: view ends at 2^32+1"));
        self.hit_if(m.guest.is_empty() && number == 0, &format!("{draw}: view without bytes"));
        self.hit_if(mask == 16 && number == 3, &format!("{draw}: mask 16"));
        if number == 2 || number == 3 {
            return;
        }
        self.hit_if(mask == 15, &format!("{draw}: mask 15"));
        self.hit_if(mode < 8, &format!("{draw}: mode {mode}"));
        let indices = match r.op {
            op::DRAW_LIST => r.words[4..].to_vec(),
            op::DRAW_ARRAYS => self.range(m, r, number),
            _ => match self.stored(m, r, number) {
                Some(indices) => indices,
                None => return,
            },
        };
        let a = &m.context.arrays[0];
        if number == 8 {
            let null = a.enabled && a.pointer == 0;
            let text = if null { "pointer 0 without a buffer" } else { "no vertex array" };
            return self.hit(&format!("{draw}: {text}"));
        }
        self.hit_if(
            a.buffer != 0 && a.pointer == 0 && number == 0 && !indices.is_empty(),
            &format!("{draw}: pointer 0 in a buffer"),
        );
        self.fetches(m, r, &indices, number);
        if number == 9 {
            self.failed(m, draw, mode, &indices);
        }
        if (4..=6).contains(&mode) && (number == 0 || number == 11) {
            self.made(draw, mode, indices.len() as u32, room, number);
        }
    }

    fn range(&mut self, m: &Model, r: &Record, number: u32) -> Vec<u32> {
        let (first, count) = (r.words[3] as u64, r.words[4] as u64);
        let end = first + count;
        if number == 8 {
            self.hit_if(count == MOST, "range: count 2^32-1 without an array");
            return Vec::new();
        }
        self.hit_if(count > 0 && end == MOST - 1, "range: ends at 2^32-2");
        self.hit_if(count > 0 && end == MOST, "range: ends at 2^32-1");
        self.hit_if(end == MOST + 1, "range: would end at 2^32");
        self.hit_if(end > MOST + 1, "range: would end past 2^32");
        let drawn = end > MOST && number == 0 && m.draw(r).triangles.len() > 1;
        self.hit_if(drawn, "range: triangles of a shortened one");
        (first..end.min(MOST)).map(|i| i as u32).collect()
    }

    /// A guest-indexed draw's list, if it goes on to the other questions.
    fn stored(&mut self, m: &Model, r: &Record, number: u32) -> Option<Vec<u32>> {
        let (count, kind, pointer) = (r.words[3], r.words[4], r.words[5]);
        let (text, width) = match kind {
            0x1401 => ("bytes", 1),
            0x1403 => ("shorts", 2),
            _ => return None,
        };
        let element = m.context.bound_element;
        let (source, start, length) = match element {
            0 => ("guest", m.base as u64, m.guest.len() as u64),
            _ => ("element buffer", 0, m.context.buffers[&element].len() as u64),
        };
        let end = (pointer as u64 + width * count as u64).saturating_sub(start);
        let found = m.guest_indices(count, kind, pointer);
        let row = |text2: &str| format!("indices: {text} of the {source}, {text2}");
        if count > 0 && pointer as u64 >= start {
            self.hit_if(end == length && found.is_ok(), &row("up to the end"));
            self.hit_if(end == length + 1, &row("one byte past the end"));
        }
        let drawn = number == 0 && !m.draw(r).triangles.is_empty();
        self.hit_if(drawn, &row("drawn"));
        let unknown = count == 0 && number == 0 && r.words[0] > 6;
        let row = |text2: &str| format!("indices of the {source}: {text2}");
        self.hit_if(unknown, &row("none, and a mode that is unknown"));
        self.hit_if(count == 0 && found.is_err(), &row("none, past the end"));
        found.ok().filter(|list| !list.is_empty())
    }

    /// Every fetch of the draw, up to the first position that fails.
    fn fetches(&mut self, m: &Model, r: &Record, indices: &[u32], number: u32) {
        let c = &m.context;
        let triangles = number == 0 && !m.draw(r).triangles.is_empty();
        for &index in indices {
            if !self.fetch(m, 0, 0, index, triangles) {
                return;
            }
            if c.arrays[1].enabled {
                let done = self.fetch(m, 1, 1, index, triangles);
                self.hit(if done { "colour: array" } else { "colour: failed array" });
            } else {
                self.hit("colour: current");
            }
            for unit in 0..4 {
                let text = if r.words[1] >> unit & 1 == 0 {
                    "no stage"
                } else if !c.arrays[3 + unit].enabled {
                    "current"
                } else if self.fetch(m, 2, 3 + unit, index, triangles) {
                    "array"
                } else {
                    "failed array"
                };
                self.hit(&format!("unit {unit}: {text}"));
            }
        }
    }

    /// One fetch; tells whether it succeeds.
    fn fetch(&mut self, m: &Model, role: usize, i: usize, index: u32, triangles: bool) -> bool {
        let a = &m.context.arrays[i];
        let role = ROLES[role];
        for text in address_cases(m, a, index) {
            self.hit(&format!("{role}: {text}"));
        }
        let Some(found) = m.fetch(a, index, i == 1) else {
            return false;
        };
        if a.size <= 6 {
            self.hit(&format!("{role}: type {:#06x}, size {}", a.kind, a.size));
        }
        if triangles {
            let size = a.size.min(4) as usize;
            let kept = found[..size].iter().filter(|_| a.kind == 0x1406);
            for class in kept.filter_map(|&x| class(x)) {
                self.hit(&format!("{role}: array of {class}"));
            }
            let revived = self.dead.contains(&i) && a.size > 0;
            self.hit_if(revived, &format!("{role}: revived array"));
        }
        true
    }

    fn failed(&mut self, m: &Model, draw: &str, mode: u32, indices: &[u32]) {
        let fails = |&i: &u32| m.fetch(&m.context.arrays[0], i, false).is_none();
        let Some(place) = indices.iter().position(fails) else {
            return;
        };
        let n = indices.len();
        let alone = mode == 4 && place >= n - n % 3;
        self.hit_if(place == 0 && n > 1, &format!("{draw}: first position fails"));
        self.hit_if(place > 0 && place == n - 1, &format!("{draw}: last position fails"));
        self.hit_if(alone, &format!("{draw}: position of no triangle fails"));
        self.hit_if(mode > 6, &format!("{draw}: unknown mode and a position that fails"));
        self.hit_if(mode < 4, &format!("{draw}: line mode and a position that fails"));
    }

    fn made(&mut self, draw: &str, mode: u32, n: u32, room: u32, number: u32) {
        let shape = ["list", "strip", "fan"][mode as usize - 4];
        self.hit_if(n < 6 && number == 0, &format!("{draw}: {shape} of {n}"));
        let triangles = if mode == 4 { n / 3 } else { n.saturating_sub(2) };
        let need = 51 * triangles;
        self.hit_if(need > 0 && room == need, &format!("{draw}: exact output"));
        self.hit_if(need > 0 && room + 1 == need, &format!("{draw}: output one too short"));
        self.hit_if(need > 0 && room == need + 1, &format!("{draw}: output one too long"));
        self.hit_if(room == 0 && need == 0, &format!("{draw}: output of 0 for no triangle"));
        self.hit_if(room == 0 && need > 0, &format!("{draw}: output of 0 for a triangle"));
    }

    /// Prints the table; is there no case that the seeded lists leave out?
    pub fn print(&self) -> bool {
        println!("{:>10} {:>10}  case", "sweeps", "lists");
        for row in rows() {
            let [sweeps, lists] = self.counts[&row];
            let mark = if lists == 0 { "  NONE" } else { "" };
            println!("{sweeps:>10} {lists:>10}  {row}{mark}");
        }
        let none = self.counts.values().filter(|[_, lists]| *lists == 0).count();
        println!("cases {}, not reached {none}", self.counts.len());
        none == 0
    }
}

fn before(m: &Model, r: &Record) -> Before {
    let c = &m.context;
    let word = r.words.first().copied().unwrap_or(0);
    let bound = match (r.op, word) {
        // Bind's own name if it is live.
        (op::BIND, _) if c.buffers.contains_key(&r.words[1]) => r.words[1],
        (op::BIND, _) => 0,
        (_, ARRAY_TARGET) => c.bound_array,
        (_, ELEMENT_TARGET) => c.bound_element,
        _ => 0,
    };
    let names = match r.op {
        op::DELETE => c.buffers.keys().copied().collect(),
        _ => BTreeSet::new(),
    };
    Before {
        live: c.buffers.len() as u64,
        next: c.next,
        saved: c.stacks[c.mode].count,
        lent: m.lent[word.min(3) as usize].count,
        mode: c.mode,
        slot: c.slot,
        bound,
        length: c.buffers.get(&bound).map_or(0, |b| b.len() as u64),
        bindings: [c.bound_array, c.bound_element],
        names,
    }
}

/// Arrays whose buffer this record deletes.
fn arrays_of_deleted(m: &Model, r: &Record) -> Vec<usize> {
    let c = &m.context;
    let gone = |a: &Array| c.buffers.contains_key(&a.buffer) && r.words[1..].contains(&a.buffer);
    match r.op {
        op::DELETE => (0..7).filter(|&i| gone(&c.arrays[i])).collect(),
        _ => Vec::new(),
    }
}

/// The limits that a fetch comes to, by the document's questions.
fn address_cases(m: &Model, a: &Array, index: u32) -> Vec<String> {
    let one = |i: usize| vec![ADDRESSES[i].to_string()];
    let Some(width) = component_bytes(a.kind) else {
        return one(0);
    };
    let packed = width * a.size as u64;
    if packed > MOST {
        return one(1);
    }
    let step = if a.stride == 0 { packed } else { a.stride as u64 } * index as u64;
    if step > MOST {
        return one(3);
    }
    let at = a.pointer as u64 + step;
    if at > MOST {
        return one(5);
    }
    let (source, start, length) = match (a.buffer, m.context.buffers.get(&a.buffer)) {
        (0, _) => (SOURCES[1], m.base as u64, m.guest.len() as u64),
        (_, Some(buffer)) => (SOURCES[0], 0, buffer.len() as u64),
        (_, None) => return one(7),
    };
    let mut cases = Vec::new();
    let limits = [(packed > MOST - 4, 2), (step > MOST - 16, 4), (at == MOST, 6), (at < start, 8)];
    let met = limits.iter().filter(|(yes, _)| *yes);
    cases.extend(met.map(|&(_, i)| ADDRESSES[i].to_string()));
    if at < start {
        return cases;
    }
    let past = (at - start + packed).wrapping_sub(length);
    if past <= 1 {
        let none = if packed == 0 { 2 } else { 0 };
        cases.push(format!("{source}, {}", ENDS[none + past as usize]));
    }
    cases
}

/// Is this a pointer call of array i?
fn pointed(m: &Model, r: &Record, i: usize) -> bool {
    match r.op {
        op::VERTEX_POINTER => i == 0,
        op::COLOR_POINTER => i == 1,
        op::NORMAL_POINTER => i == 2,
        op::TEXCOORD_POINTER => i == 3 + m.context.client as usize,
        _ => false,
    }
}
