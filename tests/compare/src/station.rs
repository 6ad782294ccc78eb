//! Lists for a program behind the station's boundary, which makes PocketHLE's own calls.
//! What these do not have is left out of the lists before either side runs them.

use crate::commands::{self, Item};
use crate::generate::{Kind, List};
use crate::model::Model;
use crate::oracle::{self, from_host, zero_axis, Holes};
use crate::replay::{self, Judge, Trial};
use crate::sweep;
use crate::trace::{self, op, Record, OUTPUT};

/// The number of a draw whose guest view ends past the last address. No memory of PocketHLE does.
const GUEST_TOO_LONG: u32 = 2;

/// Has PocketHLE no call for it? These are the stores and stacks that a caller lends, contexts that
/// are not sound, and rotations that it does not work out itself.
fn is_strange(r: &Record) -> bool {
    match r.op {
        op::STORE_FILL | op::STORE_BYTES | op::STORE_LEN | op::UNSOUND => true,
        op::STACK_SET | op::STACK_PUSH | op::STACK_POP | op::STACK_SHOW => true,
        op::ROTATE => !from_host(r),
        op::ROTATE_ZERO => !zero_axis(r.floats(1)),
        _ => false,
    }
}

/// The draws of PocketHLE have no output length: a trace's is then the greatest.
fn with_room(mut r: Record) -> Record {
    if trace::is_draw(r.op) {
        r.words[2] = OUTPUT;
    }
    r
}

/// The list as far as PocketHLE's calls can say it. A model runs along: what is left out may change
/// what the format allows after it.
pub fn station_list(records: &[Record]) -> Vec<Record> {
    let mut model = Model::new(None);
    let kept = records.iter().filter(|r| !is_strange(r)).cloned().map(with_room);
    kept.filter(|r| matches!(model.run(r, &mut Vec::new()), Ok(number) if number != GUEST_TOO_LONG))
        .collect()
}

fn fits(records: &[Record]) -> bool {
    station_list(records) == records
}

/// The sweeps, then so many lists of a seed; no damaged one.
fn items(seed: u64, count: u64) -> impl Iterator<Item = Item> {
    let swept = sweep::lists().len();
    let good = commands::items(seed, u64::MAX).filter(|item| item.list.kind != Kind::Damaged);
    good.take(swept + count as usize).map(|Item { label, list }| {
        let records = station_list(&list.records);
        Item { label, list: List { records, ..list } }
    })
}

/// The oracle alone judges: it can follow these lists to their ends. Where the guest memory has holes,
/// the program's last arguments say which.
fn trial(program: &[&str], holes: Option<Holes>) -> Trial {
    let mut program: Vec<String> = program.iter().map(|word| word.to_string()).collect();
    if let Some(Holes { period, length }) = holes {
        program.extend(["holes".into(), period.to_string(), length.to_string()]);
    }
    let oracle: Judge = ("oracle", Box::new(move |bytes| oracle::answers_with(bytes, holes)));
    Trial { program, judges: vec![oracle], fits }
}

/// The lists through a program of PocketHLE's calls.
pub fn compare(seed: u64, count: u64, program: &[&str], holes: Option<Holes>) -> bool {
    let trial = trial(program, holes);
    replay::compare(&trial, items(seed, count), sweep::lists().len() as u64 + count)
}

/// Does a program with a planted fault show it on these lists?
pub fn shows(seed: u64, count: u64, program: &[&str], holes: Option<Holes>) -> bool {
    let lists = items(seed, count).skip(sweep::lists().len()).collect();
    let (parted, first) = replay::parted(&trial(program, holes), lists);
    println!("{parted} of {count} lists differ");
    if let Some((label, d)) = &first {
        let cut = |line: &str| line.chars().take(100).collect::<String>();
        println!("  {label}: oracle '{}', program '{}'", cut(&d.left), cut(&d.right));
    }
    first.is_some()
}
