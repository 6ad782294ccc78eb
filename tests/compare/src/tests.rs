//! Document 01's examples, on model and oracle, and the format's own rules.

use crate::answer;
use crate::differ;
use crate::generate::{self, Kind};
use crate::model::{self, Model};
use crate::oracle;
use crate::random::Random;
use crate::station::station_list;
use crate::trace::{self, op, Record};

const ROOM: u32 = 51 * 16;

/// What both answer.
fn both(records: &[Record]) -> String {
    let bytes = trace::write(records);
    let model = String::from_utf8(model::answers(&bytes, None)).unwrap();
    let oracle = String::from_utf8(oracle::answers(&bytes)).unwrap();
    assert_eq!(model, oracle);
    model
}

fn call(op: u32, words: &[u32]) -> Record {
    Record::new(op, words)
}

fn call_floats(op: u32, values: &[f32]) -> Record {
    let words: Vec<u32> = values.iter().map(|x| x.to_bits()).collect();
    Record::new(op, &words)
}

/// A buffer with these bytes as the vertex array.
fn array(size: u32, kind: u32, bytes: &[u8]) -> Vec<Record> {
    let data = [0x8892, bytes.len() as u32, 0, 1];
    vec![
        call(op::BIND, &[0x8892, 1]),
        Record::with_bytes(op::BUFFER_DATA, &data, bytes),
        call(op::VERTEX_POINTER, &[size, kind, 0, 0]),
        call(op::CLIENT_STATE, &[0x8074, 1]),
    ]
}

fn draw(mode: u32, indices: &[u32]) -> Record {
    let head = [mode, 0, ROOM, indices.len() as u32];
    call(op::DRAW_LIST, &[&head[..], indices].concat())
}

/// Word i of each line from the first triangle on.
fn words(text: &str, i: usize) -> Vec<f32> {
    let lines = text.lines().filter(|l| l.split(' ').count() == 51);
    lines
        .map(|l| u32::from_str_radix(l.split(' ').nth(i).unwrap(), 16).unwrap())
        .map(f32::from_bits)
        .collect()
}

/// The x of the three corners of each triangle.
fn corners(mode: u32, indices: &[u32]) -> Vec<[f32; 3]> {
    let bytes: Vec<u8> = (0..16).collect();
    let mut records = array(1, 0x1401, &bytes);
    records.push(draw(mode, indices));
    let text = both(&records);
    let [a, b, c] = [0, 17, 34].map(|i| words(&text, i));
    (0..a.len()).map(|i| [a[i], b[i], c[i]]).collect()
}

/// The last line.
fn last(records: &[Record]) -> String {
    both(records).lines().last().unwrap().into()
}

#[test]
fn p1_to_p3_corners() {
    let list = [7, 8, 9, 10];
    assert_eq!(corners(5, &list), [[7.0, 8.0, 9.0], [9.0, 8.0, 10.0]]);
    assert_eq!(corners(6, &list), [[7.0, 8.0, 9.0], [7.0, 9.0, 10.0]]);
    assert_eq!(corners(4, &[1, 2, 3, 4, 5]), [[1.0, 2.0, 3.0]]);
    assert!(corners(5, &[1, 2]).is_empty());
}

#[test]
fn p4_fixed() {
    for (fixed, value) in [(98_304u32, 1.5), (16_777_217, 256.0)] {
        let mut records = array(1, 0x140c, &fixed.to_le_bytes());
        records.push(draw(4, &[0, 0, 0]));
        assert_eq!(words(&both(&records), 0), [value]);
    }
}

#[test]
fn p5_colors() {
    for (kind, byte, value) in [(0x1400, 128, -1.0), (0x1401, 255, 1.0)] {
        let mut records = array(1, 0x1401, &[byte]);
        records.push(call(op::COLOR_POINTER, &[1, kind, 0, 0]));
        records.push(call(op::CLIENT_STATE, &[0x8076, 1]));
        records.push(draw(4, &[0, 0, 0]));
        assert_eq!(words(&both(&records), 4), [value]);
    }
}

#[test]
fn p6_pushes() {
    let text = both(&vec![call(op::PUSH, &[]); 16]);
    assert_eq!(text, "PUSH 0\n".repeat(15) + "PUSH 1283\n");
}

#[test]
fn p7_frustum() {
    let frustum = call_floats(op::FRUSTUM, &[-1.0, 1.0, -1.0, 1.0, 1.0, 3.0]);
    let text = both(&[frustum, call(op::DUMP, &[1])]);
    let line = "stack 0 0 3f800000 00000000 00000000 00000000 00000000 3f800000 00000000 00000000 \
                00000000 00000000 c0000000 bf800000 00000000 00000000 c0400000 00000000";
    assert_eq!(text.lines().nth(3), Some(line));
}

#[test]
fn p8_translate() {
    let ones = [1.0f32; 4].map(f32::to_le_bytes).concat();
    let mut records = array(4, 0x1406, &ones);
    records.push(call_floats(op::TRANSLATE, &[1.0, 2.0, 3.0]));
    records.push(draw(4, &[0, 0, 0]));
    let text = both(&records);
    let position = [0, 1, 2, 3].map(|i| words(&text, i)[0]);
    assert_eq!(position, [2.0, 3.0, 4.0, 1.0]);
}

#[test]
fn p9_five_floats() {
    for (length, line) in [(16, "DRAW_LIST 9 0"), (19, "DRAW_LIST 9 0")] {
        let mut records = array(5, 0x1406, &vec![0; length]);
        records.push(draw(4, &[0, 0, 0]));
        assert_eq!(last(&records), line);
    }
    let mut records = array(5, 0x1406, &[0; 20]);
    records.push(draw(4, &[0, 0, 0]));
    assert!(both(&records).contains("DRAW_LIST 0 1\n"));
}

#[test]
fn p10_range() {
    let drawn = |first| {
        let mut records = array(0, 0x1406, &[]);
        records.push(call(op::DRAW_ARRAYS, &[6, 0, ROOM, first, 5]));
        both(&records)
    };
    // Two indices make no triangle, three make one.
    assert!(drawn(4_294_967_293).ends_with("DRAW_ARRAYS 0 0\n"));
    assert!(drawn(4_294_967_292).contains("DRAW_ARRAYS 0 1\n"));
}

#[test]
fn other_examples() {
    let mut records = array(1, 0x1401, &[1, 2]);
    records.push(draw(7, &[0, 1, 2]));
    records.push(call(op::TAKE_ERROR, &[]));
    records.push(draw(7, &[0, 1, 1]));
    records.push(call(op::TAKE_ERROR, &[]));
    let text = both(&records);
    let tail: Vec<&str> = text.lines().skip(4).collect();
    let wanted = ["DRAW_LIST 9 0", "TAKE_ERROR 0 0", "DRAW_LIST 1280 0", "TAKE_ERROR 0 1280"];
    assert_eq!(tail, wanted);
    let bind = [call(op::BIND, &[0, 5]), call(op::DUMP, &[4]), call(op::GEN, &[1])];
    assert_eq!(both(&bind), "BIND 1280\nDUMP 4\nbuffer 5 0 811c9dc5\nGEN 0 6\n");
    let size = |n| call(op::BUFFER_DATA, &[0x8892, n, 0, 0, 0]);
    let sizes = [call(op::BIND, &[0x8892, 1]), size(4096), size(4097)];
    assert_eq!(both(&sizes), "BIND 0\nBUFFER_DATA 0\nBUFFER_DATA 6\n");
}

#[test]
fn a_fresh_dump() {
    let one = "3f800000 00000000 00000000 00000000 00000000 3f800000 00000000 00000000 \
               00000000 00000000 3f800000 00000000 00000000 00000000 00000000 3f800000";
    let mut text = "DUMP 31\nmode 5888\n".to_string();
    (0..3).for_each(|i| text += &format!("stack {i} 0 {one}\n"));
    (0..7).for_each(|i| text += &format!("array {i} 0 4 5126 0 0 0\n"));
    text += "bound 0 0 units 0 0\ncolor 3f800000 3f800000 3f800000 3f800000\n";
    (0..4).for_each(|i| text += &format!("pair {i} 00000000 00000000\n"));
    text += "flags 0 0 0 0 0\ncodes 513 519 1 0 1029 2305 2048\n";
    text += "floats 00000000 3f800000 00000000 3f800000 00000000 3f800000\n";
    (0..4).for_each(|i| text += &format!("env {i} 0 8448 00000000 00000000 00000000 00000000\n"));
    assert_eq!(both(&[call(op::DUMP, &[31])]), text);
}

#[test]
fn words_are_printed() {
    let mut text = Vec::new();
    answer::mixed(&mut text, "x", &[0, 4_294_967_295], &[-0.0, -f32::NAN]);
    assert_eq!(text, b"x 0 4294967295 80000000 7fc00000\n");
    assert_eq!(answer::hash(b""), 0x811c9dc5);
    assert_eq!(answer::hash(b"a"), 0xe40c292c);
}

#[test]
fn bytes_are_packed() {
    let record = Record::with_bytes(op::GUEST, &[9], &[1, 2, 3, 4, 5]);
    assert_eq!(record.words, [9, 5, 0x04030201, 5]);
    assert_eq!(record.bytes(1), [1, 2, 3, 4, 5]);
    assert_eq!(trace::fill(3, 0x01000000), [1, 159, 61]);
}

#[test]
fn records_come_back() {
    for number in 0..40 {
        let list = generate::list(5, number);
        let (records, stop) = trace::read(&trace::write(&list.records));
        assert_eq!((records, stop), (list.records, None));
    }
}

#[test]
fn damage_stops_the_reader() {
    for number in (0..4000).filter(|n| n % 20 == 19) {
        let list = generate::list(6, number);
        assert_eq!(list.kind, Kind::Damaged);
        assert!(trace::read(&list.damaged).1.is_some(), "list {number}");
    }
}

#[test]
fn stops_name_the_record() {
    let mut bytes = trace::write(&[call(op::FRESH, &[]), call(op::PUSH, &[])]);
    bytes.push(0);
    let text = String::from_utf8(model::answers(&bytes, None)).unwrap();
    assert!(text.starts_with("FRESH 0\nPUSH 0\nerror: record 2: "));
}

#[test]
fn lists_stand_by_themselves() {
    let (mut together, mut apart) = (Vec::new(), Vec::new());
    let lists = (0..200).map(|n| generate::list(7, n));
    for list in lists.filter(|l| l.kind != Kind::Damaged) {
        together.extend(list.bytes());
        apart.extend(model::answers(&list.bytes(), None));
    }
    assert!(model::answers(&together, None) == apart);
}

#[test]
fn nonsense_is_answered() {
    for number in 0..2000 {
        let mut random = Random::new(9, number);
        let bytes: Vec<u8> = (0..random.below(60)).map(|_| (random.word() % 40) as u8).collect();
        model::answers(&bytes, None);
        oracle::answers(&bytes);
    }
}

#[test]
fn inside_is_inside() {
    let lists = (0..200).map(|n| generate::list(8, n));
    for list in lists.filter(|l| l.kind == Kind::Inside) {
        let mut model = Model::new(None);
        for record in &list.records {
            let number = model.run(record, &mut Vec::new()).unwrap();
            assert!(!model::outside(number), "{}", trace::show(record));
        }
    }
}

#[test]
fn what_may_differ() {
    let same = |a: &str, b: &str| differ::texts(a.as_bytes(), b.as_bytes()).is_none();
    assert!(same("TAKE_ERROR 1 0\n", "TAKE_ERROR 1 1280\n"));
    assert!(!same("TAKE_ERROR 0 0\n", "TAKE_ERROR 0 1280\n"));
    assert!(same("error: record 3: a\n", "error: record 3: b\n"));
    assert!(!same("error: record 3: a\n", "error: record 4: a\n"));
    assert!(same("UNSOUND 0\nPUSH 1\nFRESH 0\nPUSH 0\n", "UNSOUND 1\nFRESH 0\nPUSH 0\n"));
    assert!(!same("UNSOUND 0\nPUSH 1\nFRESH 0\nPUSH 0\n", "UNSOUND 1\nFRESH 0\nPUSH 1\n"));
    assert!(!same("PUSH 0\nFRESH 0\n", "UNSOUND 1\nFRESH 0\n"));
    assert!(!same("PUSH 0\n", "PUSH ?\n"));
    assert!(same("ROTATE ?\n", "ROTATE 0\nPUSH 0\n"));
    assert!(!same("PUSH 0\nPUSH 0\n", "PUSH 0\n"));
    assert!(!same("FRESH 0\nFRESH 0\n", "FRESH 0\n"));
}

/// The oracle follows what is left of a list for the station to its end, and nothing more is left out.
#[test]
fn lists_for_the_station() {
    let mut shorter = 0;
    for number in (0..200).filter(|n| n % 20 < 18) {
        let list = generate::list(1, number).records;
        let kept = station_list(&list);
        shorter += (kept.len() < list.len()) as u32;
        assert!(kept.iter().any(|r| trace::is_draw(r.op)), "list {number} has no draw");
        assert_eq!(station_list(&kept), kept);
        let text = String::from_utf8(oracle::answers(&trace::write(&kept))).unwrap();
        assert!(!text.lines().any(|line| line.ends_with('?')), "list {number}");
    }
    assert!(shorter > 0);
}

/// A read that touches a hole fails; one between two holes does not.
#[test]
fn holes_in_the_guest_memory() {
    let holes = Some(oracle::Holes { period: 16, length: 2 });
    let guest = Record::with_bytes(op::GUEST, &[16], &[1; 32]);
    let answers = |pointer: u32, size: u32| {
        let mut records = vec![guest.clone(), call(op::CLIENT_STATE, &[0x8074, 1])];
        records.push(call(op::VERTEX_POINTER, &[size, 0x1401, 0, pointer]));
        records.push(draw(4, &[0]));
        let text = oracle::answers_with(&trace::write(&records), holes);
        String::from_utf8(text).unwrap().lines().last().unwrap().to_string()
    };
    for (pointer, size) in [(18, 14), (31, 1), (34, 4), (17, 0)] {
        assert_eq!(answers(pointer, size), "DRAW_LIST 0 0");
    }
    for (pointer, size) in [(17, 4), (18, 15), (16, 1), (33, 1), (20, 24)] {
        assert_eq!(answers(pointer, size), "DRAW_LIST 9 0");
    }
}
