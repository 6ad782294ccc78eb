//! Traces of the repository, played through the crate with the recorder on: what it writes holds
//! the same calls, with the same guest memory.

mod common;
#[allow(dead_code)]
#[path = "../examples/deck.rs"]
mod deck;

use beonasul::Context;
use common::Page;
use deck::trace::{self, code, Record};
use deck::Viewer;

/// Lists of calls whose rotations the Rust has worked out.
const LISTS: &str = "tests/recorded/lists.trace";

/// A call with all that the trace says of it; a draw has the guest view in force.
#[derive(Debug, PartialEq)]
struct Call {
    code: u32,
    words: Vec<u32>,
    guest: Option<(u32, Vec<u8>)>,
}

/// The calls of a trace. No data and empty data are the same; a rotation is made by its first five
/// words.
fn calls(records: &[Record]) -> Vec<Call> {
    let (mut viewer, mut calls) = (Viewer::default(), Vec::new());
    for r in records {
        let (code, mut words) = (r.code, r.words.clone());
        match code {
            code::GUEST..=code::GUEST_BASE => viewer.set_guest(r),
            code::BUFFER_DATA => words[3] = (words[4] > 0) as u32,
            code::ROTATE => words.truncate(5),
            _ => {}
        }
        let guest = (code >= code::DRAW_LIST).then(|| (viewer.base, viewer.guest.clone()));
        if code == code::FRESH || (code::MATRIX_MODE..=code::DRAW_GUEST).contains(&code) {
            calls.push(Call { code, words, guest });
        }
    }
    calls
}

/// Answers and recording of a trace.
fn play(records: &[Record]) -> (Vec<u8>, Vec<u8>) {
    let (mut viewer, page, mut answers) = (Viewer::default(), Page::default(), Vec::new());
    viewer.context.record(page.clone()).unwrap();
    for record in records {
        viewer.play(record, &mut answers).unwrap();
    }
    viewer.context.stop_recording().unwrap();
    (answers, page.bytes())
}

/// The records of a trace of the repository.
fn read(path: &str) -> Vec<Record> {
    let place = format!("{}/../../{path}", env!("CARGO_MANIFEST_DIR"));
    let bytes = std::fs::read(&place).unwrap_or_else(|error| panic!("{place}: {error}"));
    trace::read(&bytes).unwrap()
}

/// Plays a trace.
fn holds_its_calls(records: Vec<Record>) {
    let (answers, recording) = play(&records);
    let recorded = trace::read(&recording).unwrap();
    let (want, got) = (calls(&records), calls(&recorded));
    assert!(want.len() > 100);
    assert_eq!(want.len(), got.len());
    for (want, got) in want.iter().zip(&got) {
        assert_eq!(want, got);
    }
    assert!(play(&recorded) == (answers, recording), "a recording gives another recording");
}

#[test]
fn a_recorded_deck_has_its_calls() {
    holds_its_calls(read("samples/deck-09.trace"));
}

#[test]
fn recorded_lists_have_their_calls() {
    holds_its_calls(read(LISTS));
}

#[test]
fn rotations_are_worked_out_as_in_the_lists() {
    let mut rotations = 0;
    for r in read(LISTS).iter().filter(|r| r.code == code::ROTATE) {
        let (mut context, page) = (Context::new(), Page::default());
        context.record(page.clone()).unwrap();
        context.rotate(r.float(5), r.float(6), r.float(7), r.float(8)).unwrap();
        assert_eq!(page.words()[4..], r.words);
        rotations += 1;
    }
    assert!(rotations > 10);
}
