//! Times the library beside PocketHLE's Rust: the same calls, in one process, turn about, the best of many rounds.

// Without the station's crate (bench/turns) some of what is timed through it is not used.
#![cfg_attr(not(feature = "station"), allow(dead_code, unused_mut))]

mod call;
#[cfg(feature = "station")]
mod frames;
mod mix;
mod ours;
#[cfg(feature = "station")]
mod station;
mod theirs;

use call::{Call, Work, ARRAY, ELEMENTS, FLOAT};
use ours::Ours;
use pocket::raster;
use std::hint::black_box;
use std::time::{Duration, Instant};
use theirs::Theirs;

/// Bytes of the library's Context: three stacks, buffers, arrays, current values, settings.
const CONTEXT: usize = 3600;

/// How often a state call stands in the list that is repeated.
const LIST: usize = 64;

struct Plan {
    rounds: u32,
    slice: Duration,
    sizes: usize,
    only: Option<String>,
}

fn main() {
    let words: Vec<String> = std::env::args().skip(1).collect();
    let word =
        |name: &str| words.iter().position(|w| w == name).and_then(|i| words.get(i + 1)).cloned();
    let smoke = words.iter().any(|w| w == "--smoke");
    let plan = Plan {
        rounds: if smoke { 3 } else { 25 },
        slice: Duration::from_millis(if smoke { 2 } else { 8 }),
        sizes: if smoke { 1 } else { 3 },
        only: word("--only"),
    };
    if let Some(side) = word("--side") {
        return profile(&plan, &side, word("--times").map_or(100, |n| n.parse().unwrap()));
    }
    if words.iter().any(|w| w == "--own") {
        return own(&Plan { rounds: 5, slice: Duration::from_millis(4), ..plan });
    }
    let mut below = draws(&plan);
    floors(&plan);
    states(&plan);
    other_states(&plan);
    #[cfg(feature = "station")]
    below.extend(station::tables(&plan));
    if !smoke {
        tell(&below);
    }
}

/// The end of a full run: what is below its bar (mix.rs), with status 1 if anything is. A short run has no bars.
fn tell(below: &[String]) {
    println!("\n## Bars\n");
    below.iter().for_each(|row| println!("- {row}"));
    match below.len() {
        0 => println!("Every row meets its bar."),
        n => println!("\n{n} below their bar."),
    }
    std::process::exit(!below.is_empty() as i32);
}

/// This library's own times, a line for each size of a row, for bench/turns.
fn own(plan: &Plan) {
    for mix in chosen(plan) {
        for &size in &mix.sizes {
            let work = mix.work(size);
            let ns = alone(&mut Ours::new(&work, 51 * work.last), plan, || ());
            println!("{}; {size}\t{:.3}", mix.name, ns / work.triangles as f64);
        }
    }
    let stated = state_calls().into_iter().chain(other_calls());
    for (name, calls) in stated.filter(|(name, _)| plan.is_chosen(name)) {
        let again = vec![calls; LIST].concat();
        let each = again.len() as f64;
        let ns = alone(&mut Ours::new(&stored_work(again), 0), plan, || ());
        println!("{name}\t{:.3}", ns / each);
    }
}

/// One side alone, for a profiler: the draws of 100 triangles, the state calls and the frames; of the station the frames alone.
fn profile(plan: &Plan, side: &str, times: u32) {
    #[cfg(feature = "station")]
    if side != "ours" {
        frames::profile(plan, side, times);
    }
    if side == "station" {
        return;
    }
    let draws = chosen(plan).into_iter().map(|mix| (mix.name.clone(), mix.work(mix.sizes[0])));
    let calls = state_calls().into_iter().filter(|(name, _)| plan.is_chosen(name));
    for (name, work) in
        draws.chain(calls.map(|(name, call)| (name.into(), state_work(vec![call; LIST].concat()))))
    {
        raster::keep(work.last.max(1));
        match side {
            "ours" => Ours::new(&work, 51 * work.last).run(times),
            _ => Theirs::new(&work).run(times),
        }
        println!("{name}: {times} times");
    }
}

impl Plan {
    fn is_chosen(&self, name: &str) -> bool {
        self.only.as_ref().is_none_or(|part| name.contains(part))
    }
}

fn chosen(plan: &Plan) -> Vec<mix::Mix> {
    mix::all().into_iter().filter(|m| plan.is_chosen(&m.name)).collect()
}

// ---- draws ----

/// Prints the table, and gives the rows that are below their bar.
fn draws(plan: &Plan) -> Vec<String> {
    println!("## Draws, ns a triangle: Rust / ours = ratio\n");
    println!("| mix | 100 triangles | 10,000 | 100,000 in parts | growth |\n|---|---|---|---|---|");
    let mut least = [f64::MAX; 2];
    let mut below = Vec::new();
    for mix in chosen(plan) {
        let mut cells = Vec::new();
        let mut ns = Vec::new();
        let bar = mix.bar();
        for &size in mix.sizes.iter().take(plan.sizes) {
            let work = mix.work(size);
            let (theirs, ours) = both(&work, plan, || ());
            let each = work.triangles as f64;
            let ratio = theirs / ours;
            let kind = &mut least[mix.common as usize];
            *kind = kind.min(ratio);
            ns.push(ours / each);
            if ratio < bar {
                below.push(format!("{}, {size}: {ratio:.2}, bar {bar:.1}", mix.name));
            }
            let size = if mix.sizes.len() == 3 { String::new() } else { format!("{size}: ") };
            cells.push(format!("{size}{:.1} / {:.1} = {ratio:.2}", theirs / each, ours / each));
        }
        let growth = ns.iter().fold(0.0f64, |a, b| a.max(*b)) / ns[0];
        if growth > mix::GROWTH {
            below.push(format!("{}: growth {growth:.2}, bar {:.1}", mix.name, mix::GROWTH));
        }
        let name = if mix.common { format!("**{}**", mix.name) } else { mix.name.clone() };
        cells.resize(3, String::new());
        println!("| {name} | {} | {:.2} |", cells.join(" | "), growth);
    }
    println!("\nLeast ratio: {:.2} of the common mixes (bold), {:.2} of the others. Growth: the dearest size against 100 triangles, ours.\n", least[1], least[0]);
    below
}

/// Nanoseconds of one pass over `again`, the Rust's and ours; both outputs are compared first. Each round does `beside` too.
fn both(work: &Work, plan: &Plan, mut beside: impl FnMut()) -> (f64, f64) {
    raster::keep(work.last.max(1));
    let mut theirs = Theirs::new(work);
    let mut ours = Ours::new(work, 51 * work.last);
    work.up_to_each_draw().for_each(|part| compare(&part));
    let (mut t, mut o) = (f64::MAX, f64::MAX);
    let times = [count(plan, |n| theirs.run(n)), count(plan, |n| ours.run(n))];
    let mut start = f64::MAX;
    for _ in 0..plan.rounds {
        t = t.min(time(|| theirs.run(times[0])) / times[0] as f64);
        start = start.min(time(|| ours.run(0)));
        o = o.min(time(|| ours.run(times[1])));
        beside();
    }
    (t, (o - start) / times[1] as f64)
}

/// Nanoseconds of one pass of the library over `again`.
fn alone(ours: &mut Ours, plan: &Plan, mut beside: impl FnMut()) -> f64 {
    let n = count(plan, |n| ours.run(n));
    let (mut start, mut best) = (f64::MAX, f64::MAX);
    for _ in 0..plan.rounds {
        start = start.min(time(|| ours.run(0)));
        best = best.min(time(|| ours.run(n)));
        beside();
    }
    (best - start) / n as f64
}

/// Are the words of the last draw the same? Any NaN equals any.
fn compare(work: &Work) {
    let mut theirs = Theirs::new(work);
    let mut ours = Ours::new(work, 51 * work.last);
    theirs.run(1);
    let words = theirs.words();
    assert_eq!(words.len(), 51 * work.last, "the Rust drew another number of triangles");
    for pass in 0..2 {
        ours.out.fill(-7.5);
        if pass == 0 {
            ours.check();
        } else {
            ours.run(2);
        }
        compare_words(&words, &ours.out);
    }
}

fn compare_words(theirs: &[f32], ours: &[f32]) {
    assert_eq!(theirs.len(), ours.len(), "another number of triangles than in the Rust");
    for (i, (a, b)) in theirs.iter().zip(ours).enumerate() {
        let same = a.to_bits() == b.to_bits() || a.is_nan() && b.is_nan();
        assert!(same, "word {i}: {a} in the Rust, {b} here");
    }
}

/// How often to repeat so that it takes one slice.
fn count(plan: &Plan, mut work: impl FnMut(u32)) -> u32 {
    let mut n = 1;
    loop {
        let spent = time(|| work(n));
        if spent >= plan.slice.as_nanos() as f64 || n >= 1 << 24 {
            return n;
        }
        n *= 2;
    }
}

fn time(work: impl FnOnce()) -> f64 {
    let start = Instant::now();
    work();
    start.elapsed().as_nanos() as f64
}

fn best(plan: &Plan, mut work: impl FnMut(u32)) -> f64 {
    let n = count(plan, &mut work);
    (0..plan.rounds).map(|_| time(|| work(n)) / n as f64).fold(f64::MAX, f64::min)
}

// ---- floors ----

fn floors(plan: &Plan) {
    println!("## Floors\n");
    for size in [100, 10_000, 100_000] {
        let from = vec![1.5f32; 51 * size];
        let mut to = vec![0.0f32; 51 * size];
        let ns = best(plan, |n| {
            for _ in 0..n {
                to.copy_from_slice(black_box(&from));
                black_box(&mut to);
            }
        });
        println!("- copying the output of {size} triangles: {:.2} ns a triangle", ns / size as f64);
    }
    let mut copies = Copies::new(CONTEXT);
    println!(
        "- copying a context of {CONTEXT} bytes in and out: {:.0} ns\n",
        best(plan, |n| copies.run(n))
    );
}

/// A context that is copied in and out: what a state call is measured by.
struct Copies {
    from: Vec<u8>,
    to: Vec<u8>,
}

impl Copies {
    fn new(bytes: usize) -> Self {
        Copies { from: vec![1; bytes], to: vec![0; bytes] }
    }

    fn run(&mut self, times: u32) {
        for _ in 0..times {
            self.to.copy_from_slice(black_box(&self.from));
            black_box(&mut self.to);
            self.from.copy_from_slice(black_box(&self.to));
            black_box(&mut self.from);
        }
    }
}

// ---- state calls ----

fn state_calls() -> Vec<(&'static str, Vec<Call>)> {
    vec![
        ("translate", vec![Call::Translate(0.0, 0.0, 0.0)]),
        ("push_matrix, pop_matrix", vec![Call::Push, Call::Pop]),
        ("bind_buffer", vec![Call::Bind(ARRAY, 1)]),
        ("set_vertex_pointer", vec![Call::VertexPointer(3, FLOAT, 0, 4096)]),
        ("set_color", vec![Call::Color([0.5, 0.5, 0.5, 1.0])]),
        ("buffer_data of 4,096 bytes", vec![Call::Data(ARRAY, vec![7; 4096])]),
    ]
}

fn state_work(again: Vec<Call>) -> Work {
    let mut first = mix::matrices();
    first.push(Call::Bind(ARRAY, 1));
    Work { first, again, guest: vec![0; 16], triangles: 0, last: 0 }
}

/// The same with 4,096 bytes in the buffer, for a buffer_sub_data of them.
fn stored_work(again: Vec<Call>) -> Work {
    let mut work = state_work(again);
    work.first.push(Call::Data(ARRAY, vec![7; 4096]));
    work
}

fn states(plan: &Plan) {
    println!("## State calls, ns a call\n");
    println!("| call | Rust | ours | copies of a context in and out |\n|---|---|---|---|");
    let mut copies = Copies::new(CONTEXT);
    let times = count(plan, |n| copies.run(n));
    for (name, call) in state_calls().into_iter().filter(|(name, _)| plan.is_chosen(name)) {
        let again = vec![call; LIST].concat();
        let each = again.len() as f64;
        let mut copy = f64::MAX;
        let beside = || copy = copy.min(time(|| copies.run(times)) / times as f64);
        let (theirs, ours) = both(&state_work(again), plan, beside);
        let (theirs, ours) = (theirs / each, ours / each);
        println!("| {name} | {theirs:.1} | {ours:.1} | {:.2} |", ours / copy);
    }
}

/// Every other state call.
fn other_calls() -> Vec<(&'static str, Vec<Call>)> {
    let f = |numbers: &[f32]| numbers.iter().map(|x| x.to_bits()).collect::<Vec<u32>>();
    let unit: [f32; 16] = std::array::from_fn(|i| (i % 5 == 0) as u32 as f32);
    let one = |code: u32, words: Vec<u32>| vec![Call::Coded(code, words)];
    let made_and_deleted = [vec![Call::Bind(ELEMENTS, 2)], one(0x22, vec![2])].concat();
    vec![
        ("set_matrix_mode", vec![Call::Mode(0x1700)]),
        ("set_matrix_mode, refused", vec![Call::Mode(0)]),
        ("load_identity", one(0x11, vec![])),
        ("load_matrix", vec![Call::Load(unit)]),
        ("mult_matrix", one(0x13, f(&unit))),
        ("pop_matrix, refused", vec![Call::Pop]),
        ("scale", one(0x17, f(&[1.0, 1.0, 1.0]))),
        ("rotate", vec![Call::Rotate(0.0, [1.0, 0.0, 0.0])]),
        ("frustum", vec![Call::Frustum([-1.0, 1.0, -1.0, 1.0, 1.0, 3.0])]),
        ("frustum, refused", vec![Call::Frustum([1.0, 1.0, -1.0, 1.0, 1.0, 3.0])]),
        ("ortho", one(0x1b, f(&[-1.0, 1.0, -1.0, 1.0, -1.0, 1.0]))),
        ("ortho, refused", one(0x1b, f(&[1.0, 1.0, -1.0, 1.0, -1.0, 1.0]))),
        ("bind_buffer of a new name, delete_buffers", made_and_deleted),
        ("gen_buffers of no name", one(0x20, vec![0, 0])),
        ("gen_buffers, refused", one(0x20, vec![17, 0])),
        ("buffer_sub_data of 4,096 bytes", vec![Call::SubData(ARRAY, 0, vec![7; 4096])]),
        ("set_color_pointer", vec![Call::ColorPointer(4, 0x1401, 0, 4096)]),
        ("set_normal_pointer", one(0x32, vec![FLOAT, 0, 4096])),
        ("set_texcoord_pointer", vec![Call::TexcoordPointer(2, FLOAT, 0, 4096)]),
        ("set_client_state", vec![Call::ClientState(0x8074, true)]),
        ("set_client_active_texture", vec![Call::ClientUnit(0x84c1)]),
        ("set_multi_texcoord", one(0x37, vec![0x84c0, 0, 0])),
        ("set_active_texture", one(0x40, vec![0x84c1])),
        ("set_capability", one(0x41, vec![0x0b71, 1])),
        ("tex_env", one(0x42, vec![0x2200, 0x2100])),
        ("set_tex_env_color", one(0x43, vec![0; 4])),
        ("set_depth_func", one(0x44, vec![0x0201])),
        ("set_alpha_func", one(0x45, vec![0x0201, 0])),
        ("set_blend_func", one(0x46, vec![1, 0])),
        ("set_cull_face", one(0x47, vec![0x0404])),
        ("set_front_face", one(0x48, vec![0x0900])),
        ("set_fog", one(0x49, vec![0x0b62, 0])),
        ("set_depth_range", one(0x4a, vec![0, 0])),
        ("take_error", one(0x50, vec![])),
    ]
}

fn other_states(plan: &Plan) {
    println!("\n## The other state calls, ns a call, this library alone\n");
    println!("| call | ours | copies of a context in and out |\n|---|---|---|");
    let mut copies = Copies::new(CONTEXT);
    let times = count(plan, |n| copies.run(n));
    let mut most = 0.0f64;
    for (name, calls) in other_calls().into_iter().filter(|(name, _)| plan.is_chosen(name)) {
        let again = vec![calls; LIST].concat();
        let each = again.len() as f64;
        let mut ours = Ours::new(&stored_work(again), 0);
        ours.check();
        let mut copy = f64::MAX;
        let beside = || copy = copy.min(time(|| copies.run(times)) / times as f64);
        let ns = alone(&mut ours, plan, beside) / each;
        most = most.max(ns / copy);
        println!("| {name} | {ns:.1} | {:.2} |", ns / copy);
    }
    println!("\nMost: {most:.2}.");
}
