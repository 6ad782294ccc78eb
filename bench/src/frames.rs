//! Whole frames through the crate, beside the Rust.

use crate::call::{Call, Draw, Indices, Work, BASE};
use crate::station::{deeper, list_of, Station};
use crate::theirs::Theirs;
use crate::{compare_words, count, mix, raster, time, Plan};
use beonasul::List;

/// The ways to make a frame's calls.
const WAYS: [&str; 3] = ["call by call", "a list for each draw", "one list"];

/// A frame, and the least ratio to the Rust that a full run asks of each way; 0 where it asks none.
struct Frame {
    name: &'static str,
    work: Work,
    bars: [f64; 3],
}

fn frames() -> [Frame; 2] {
    let mixes = ["strip, f32, byte colours, 1 stage", "guest shorts, list, six times"];
    let large = mix::frame(&mixes.map(mix::named), 20, 500);
    [
        Frame { name: "sample deck", work: sample(), bars: [0.0, 0.0, 1.0] },
        Frame { name: "large deck", work: large, bars: [2.5, 0.0, 0.0] },
    ]
}

// ---- the sample deck ----

/// The calls of samples/deck-09.trace (docs/TRACE.md). FRESH is left out: every pass begins with it.
fn sample() -> Work {
    let bytes = include_bytes!("../../samples/deck-09.trace");
    let word = |four: &[u8]| u32::from_le_bytes(four.try_into().unwrap());
    let words: Vec<u32> = bytes.chunks(4).map(word).collect();
    let (mut again, mut guest) = (Vec::new(), Vec::new());
    let mut rest = &words[..];
    while let [code, n, after @ ..] = rest {
        let (w, next) = after.split_at(*n as usize);
        match code {
            0x02 => {}
            0x06 => {
                guest = vec![0; (w[0] - BASE) as usize];
                guest.extend(packed(&w[1..]));
            }
            _ => again.push(call(*code, w)),
        }
        rest = next;
    }
    Work { first: Vec::new(), again, guest, triangles: 296, last: 64 }
}

/// Bytes after the word with their number.
fn packed(words: &[u32]) -> Vec<u8> {
    let bytes = words[1..].iter().flat_map(|w| w.to_le_bytes());
    bytes.take(words[0] as usize).collect()
}

fn call(code: u32, w: &[u32]) -> Call {
    let f = |i: usize| f32::from_bits(w[i]);
    let draw = |indices| Call::Draw(Draw { mode: w[0], stages: w[1], indices });
    match code {
        0x10 => Call::Mode(w[0]),
        0x14 => Call::Push,
        0x15 => Call::Pop,
        0x16 => Call::Translate(f(0), f(1), f(2)),
        0x21 => Call::Bind(w[0], w[1]),
        0x23 => Call::Data(w[0], packed(&w[4..])),
        0x24 => Call::SubData(w[0], w[1], packed(&w[2..])),
        0x30 => Call::VertexPointer(w[0], w[1], w[2], w[3]),
        0x31 => Call::ColorPointer(w[0], w[1], w[2], w[3]),
        0x33 => Call::TexcoordPointer(w[0], w[1], w[2], w[3]),
        0x34 => Call::ClientState(w[0], w[1] == 1),
        0x35 => Call::ClientUnit(w[0]),
        0x36 => Call::Color([f(0), f(1), f(2), f(3)]),
        0x60 => draw(Indices::Lent(w[4..].to_vec())),
        0x61 => draw(Indices::Range(w[3], w[4])),
        0x62 => draw(Indices::Stored(w[3], w[4], w[5])),
        _ => Call::Coded(code, w.to_vec()),
    }
}

// ---- the ways to make a frame ----

/// A way to make the calls of a frame, each time from fresh.
trait Way {
    fn reset(&mut self);
    fn pass(&mut self);
}

impl Way for Theirs {
    fn reset(&mut self) {
        Theirs::reset(self);
    }

    fn pass(&mut self) {
        self.run(1);
    }
}

struct Singles {
    station: Station,
    calls: Vec<Call>,
}

impl Way for Singles {
    fn reset(&mut self) {
        self.station.context.reset();
    }

    fn pass(&mut self) {
        for call in &self.calls {
            self.station.make(call);
        }
    }
}

/// Lists one after the other, each into the same output.
struct Lists {
    station: Station,
    lists: Vec<List>,
    out: Vec<f32>,
}

impl Lists {
    fn new(work: &Work, parts: &[&[Call]]) -> Self {
        let lists = parts.iter().map(|calls| list_of(calls, &work.guest)).collect();
        Lists { station: Station::new(work), lists, out: vec![-7.5; 51 * work.last] }
    }
}

impl Way for Lists {
    fn reset(&mut self) {
        self.station.context.reset();
    }

    fn pass(&mut self) {
        for list in &self.lists {
            self.station.run(list, &mut self.out);
        }
    }
}

/// The Rust, and the library in each way.
fn ways(work: &Work) -> [Box<dyn Way>; 4] {
    let singles = Singles { station: Station::new(work), calls: work.again.clone() };
    let each = Lists::new(work, &up_to_draws(&work.again));
    let one = Lists::new(work, &[&work.again]);
    raster::keep(work.last);
    [Box::new(Theirs::new(work)), Box::new(singles), Box::new(each), Box::new(one)]
}

/// The frame's calls in parts that each end in a draw, and what is left.
fn up_to_draws(calls: &[Call]) -> Vec<&[Call]> {
    calls.split_inclusive(|call| matches!(call, Call::Draw(_))).collect()
}

/// Compares the words of every draw, made call by call, by lists and by one list, with those of the Rust, and what is left of the states.
fn compare(work: &Work) {
    raster::keep(work.last);
    let (mut theirs, mut station) = (Theirs::new(work), Station::new(work));
    let parts = up_to_draws(&work.again);
    let mut each = Lists::new(work, &parts);
    let mut one = Lists::new(work, &[&work.again]);
    let mut left = one.out.clone();
    let mut triangles = 0;
    for (part, list) in parts.iter().zip(&each.lists) {
        let mut words = Vec::new();
        for call in *part {
            words = theirs.make(call);
            compare_words(&words, station.make(call));
        }
        assert_eq!(each.station.run(list, &mut each.out), part.len(), "a list was not made whole");
        compare_words(&words, &each.out[..words.len()]);
        left[..words.len()].copy_from_slice(&words);
        triangles += words.len() / 51;
    }
    assert_eq!(triangles, work.triangles, "another number of triangles in the frame");
    let made = one.station.run(&one.lists[0], &mut one.out);
    assert_eq!(made, work.again.len(), "the list was not made whole");
    compare_words(&left, &one.out);
    station.assert_same(&each.station);
    station.assert_same(&one.station);
}

// ---- the table ----

/// Nanoseconds of a frame, by the Rust and in each way, by turns. The fresh context that a pass begins with is made before.
fn times(plan: &Plan, work: &Work) -> [f64; 4] {
    let mut ways = ways(work);
    let timed = |way: &mut Box<dyn Way>| {
        way.reset();
        time(|| way.pass())
    };
    let n = [0, 1, 2, 3].map(|i| count(plan, |n| (0..n).for_each(|_| _ = timed(&mut ways[i]))));
    let mut best = [f64::MAX; 4];
    for round in 0..plan.rounds {
        for ((way, n), best) in ways.iter_mut().zip(n).zip(&mut best) {
            let sum = deeper(round, &mut || (0..n).map(|_| timed(way)).sum());
            *best = best.min(sum / n as f64);
        }
    }
    best
}

/// Some ways of some frames so many times, for a profiler.
pub fn profile(plan: &Plan, side: &str, times: u32) {
    for Frame { name, work, .. } in frames() {
        for (way, mut calls) in ["theirs"].into_iter().chain(WAYS).zip(ways(&work)) {
            let name = format!("{name}, {way}");
            if plan.is_chosen(&name) && (side == "theirs") == (way == side) {
                for _ in 0..times {
                    calls.reset();
                    calls.pass();
                }
                println!("{name}: {times} times");
            }
        }
    }
}

/// Prints the table, and gives the frames that are below their bar.
pub fn table(plan: &Plan) -> Vec<String> {
    println!("\n## As the station sees it: frames, µs: Rust / ours = ratio\n");
    println!("| frame | calls | draws | triangles | {} |", WAYS.join(" | "));
    println!("|---|---|---|---|---|---|---|");
    let mut below = Vec::new();
    for Frame { name, work, bars } in frames().into_iter().filter(|f| plan.is_chosen(f.name)) {
        compare(&work);
        let [theirs, ours @ ..] = times(plan, &work).map(|ns| ns / 1000.0);
        let cells = ours.map(|ours| format!("{theirs:.1} / {ours:.1} = {:.2}", theirs / ours));
        let calls = work.again.len();
        let draws = work.again.iter().filter(|call| matches!(call, Call::Draw(_))).count();
        println!("| {name} | {calls} | {draws} | {} | {} |", work.triangles, cells.join(" | "));
        for ((way, ours), bar) in WAYS.iter().zip(ours).zip(bars) {
            let ratio = theirs / ours;
            if ratio < bar {
                below.push(format!("{name}, {way}: {ratio:.2}, bar {bar:.1}"));
            }
        }
    }
    below
}
