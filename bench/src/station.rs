//! The library as a station sees it: through the boundary and the crate over it (station/rust).

use crate::call::{make_call, Call, Draw, Indices, Work, BASE};
use crate::ours::Ours;
use crate::theirs::Theirs;
use crate::{compare_words, count, other_calls, state_calls, stored_work, time, Copies, Plan};
use crate::{frames, mix, raster, LIST};
use beonasul::{Context, Guest, List, State, Store};
use std::hint::black_box;

/// Bytes of a context that a station keeps.
const CONTEXT: usize = size_of::<State>();

/// The most that a single state call may take, in copies of a context's bytes in and out.
const SINGLE: f64 = 4.0;

/// The most that a state call in a list may take, against the same in `beonasul_repeat`: the rest is noise.
const IN_LIST: f64 = 1.1;

/// A context with its store and the guest memory of its draws.
pub struct Station {
    pub context: Context,
    pub store: Store,
    guest: Vec<u8>,
}

impl Station {
    pub fn new(work: &Work) -> Self {
        let (context, store) = (Context::new(), Store::new());
        let mut station = Station { context, store, guest: work.guest.clone() };
        for call in &work.first {
            station.make(call);
        }
        station
    }

    /// Makes a call by its method. Gives the words of a draw's triangles, none if it is refused.
    pub fn make(&mut self, call: &Call) -> &[f32] {
        let Station { context: c, store, guest } = self;
        make_call!(c, call, {
            Call::Data(target, data) => {
                _ = c.buffer_data(store, *target, data.len(), Some(data), 0)
            },
            Call::SubData(target, offset, data) => {
                _ = c.buffer_sub_data(store, *target, *offset, data)
            },
            Call::Draw(draw) => return make_draw(c, store, guest, draw),
        });
        &[]
    }

    /// Makes the calls of a list. Gives how many were made.
    pub fn run(&mut self, list: &List, out: &mut [f32]) -> usize {
        self.context.run(&mut self.store, list, out).made
    }

    /// Have the same calls left the same state and the same buffers?
    pub fn assert_same(&self, other: &Station) {
        assert_eq!(self.context.state(), other.context.state(), "a list left another state");
        assert!(self.store.as_bytes() == other.store.as_bytes(), "a list left other buffers");
    }

    /// Makes a draw into an output. Gives the number of its triangles.
    fn draw_into(&mut self, draw: &Draw, out: &mut [f32]) -> usize {
        let Station { context: c, store, guest } = self;
        let guest = Guest { base: BASE, bytes: guest };
        let (mode, stages) = (draw.mode, draw.stages);
        let count = match &draw.indices {
            Indices::Lent(list) => c.draw_elements_into(store, guest, mode, stages, list, out),
            Indices::Range(first, count) => {
                c.draw_arrays_into(store, guest, mode, stages, *first, *count, out)
            }
            Indices::Stored(count, ty, at) => {
                c.draw_elements_from_guest_into(store, guest, mode, stages, *count, *ty, *at, out)
            }
        };
        count.unwrap_or(0)
    }
}

fn make_draw<'a>(c: &'a mut Context, store: &mut Store, guest: &[u8], draw: &Draw) -> &'a [f32] {
    let guest = Guest { base: BASE, bytes: guest };
    let (mode, stages) = (draw.mode, draw.stages);
    let triangles = match &draw.indices {
        Indices::Lent(list) => c.draw_elements(store, guest, mode, stages, list),
        Indices::Range(first, count) => c.draw_arrays(store, guest, mode, stages, *first, *count),
        Indices::Stored(count, ty, at) => {
            c.draw_elements_from_guest(store, guest, mode, stages, *count, *ty, *at)
        }
    };
    triangles.map_or(&[], |triangles| triangles.as_floats())
}

/// The calls as one list, which has the guest memory of its draws.
pub fn list_of(calls: &[Call], guest: &[u8]) -> List {
    let mut list = List::new();
    list.guest(BASE, guest);
    for call in calls {
        let l = &mut list;
        make_call!(l, call, {
            Call::Data(target, data) => { _ = l.buffer_data(*target, data.len(), Some(data), 0) },
            Call::SubData(target, offset, data) => { _ = l.buffer_sub_data(*target, *offset, data) },
            Call::Draw(Draw { mode, stages, indices }) => {
                _ = match indices {
                    Indices::Lent(list) => l.draw_elements(*mode, *stages, list),
                    Indices::Range(first, count) => l.draw_arrays(*mode, *stages, *first, *count),
                    Indices::Stored(count, ty, at) => {
                        l.draw_elements_from_guest(*mode, *stages, *count, *ty, *at)
                    }
                }
            },
        })
    }
    list
}

/// Times several works by turns, each so often that it takes one slice. Gives the nanoseconds of each, the best of all rounds.
fn by_turns<const N: usize>(plan: &Plan, mut works: [&mut dyn FnMut(u32); N]) -> [f64; N] {
    let times: Vec<u32> = works.iter_mut().map(|work| count(plan, &mut **work)).collect();
    let mut best = [f64::MAX; N];
    for round in 0..plan.rounds {
        for ((work, &n), best) in works.iter_mut().zip(&times).zip(&mut best) {
            *best = best.min(deeper(round, &mut || time(|| work(n))) / n as f64);
        }
    }
    best
}

/// Does something so many steps further down the stack: where the stack lies can change the time of a call by a third and more.
pub fn deeper(steps: u32, work: &mut dyn FnMut() -> f64) -> f64 {
    let room = black_box([0u8; 208]);
    let ns = if steps == 0 { work() } else { deeper(steps - 1, work) };
    black_box(&room);
    ns
}

// ---- state calls ----

/// What a state call takes, in nanoseconds.
struct Taken {
    single: f64,
    in_list: f64,
    /// In a list, by `beonasul_repeat`.
    repeated: f64,
    /// Beside it: an empty list, and a copy of a context in and out.
    empty: f64,
    copy: f64,
}

/// Prints the tables, and gives the rows that are below their bar.
pub fn tables(plan: &Plan) -> Vec<String> {
    let mut below = states(plan);
    draws(plan);
    below.extend(frames::table(plan));
    below
}

fn states(plan: &Plan) -> Vec<String> {
    println!("\n## As the station sees it: state calls, ns a call\n");
    println!("| call | one by one | copies of a context in and out | in a list | in a list of `beonasul_repeat` |\n|---|---|---|---|---|");
    let mut below = Vec::new();
    let mut copies = Copies::new(CONTEXT);
    let (mut least_empty, mut least_copy) = (f64::MAX, f64::MAX);
    let stated = state_calls().into_iter().chain(other_calls());
    for (name, calls) in stated.filter(|(name, _)| plan.is_chosen(name)) {
        let Taken { single, in_list, repeated, empty, copy } = state(plan, &calls, &mut copies);
        (least_empty, least_copy) = (least_empty.min(empty), least_copy.min(copy));
        let copies = single / copy;
        println!("| {name} | {single:.0} | {copies:.2} | {in_list:.1} | {repeated:.1} |");
        if copies > SINGLE {
            below.push(format!("{name}, one by one: {copies:.2} copies, bar {SINGLE:.1}"));
        }
        if in_list > IN_LIST * repeated {
            let more = in_list / repeated;
            below.push(format!("{name}, in a list: {more:.2} of beonasul_repeat, bar {IN_LIST}"));
        }
    }
    println!("\nLeast: an empty list {least_empty:.0} ns, a copy of a kept context of {CONTEXT} bytes in and out {least_copy:.0} ns.");
    below
}

/// The times of a few calls, each in the mean.
fn state(plan: &Plan, calls: &[Call], copies: &mut Copies) -> Taken {
    let work = stored_work(vec![calls; LIST].concat());
    let list = list_of(&work.again, &work.guest);
    let [mut one, mut other, mut idle] = std::array::from_fn(|_| Station::new(&work));
    work.again.iter().for_each(|call| _ = one.make(call));
    assert_eq!(other.run(&list, &mut []), work.again.len(), "the list was not made whole");
    one.assert_same(&other);

    let mut repeated = Ours::new(&work, 0);
    repeated.check();
    let none = List::new();
    let [single, full, empty, repeated, copy] = by_turns(
        plan,
        [
            &mut |n| (0..n).for_each(|_| calls.iter().for_each(|call| _ = one.make(call))),
            &mut |n| (0..n).for_each(|_| _ = other.run(&list, &mut [])),
            &mut |n| (0..n).for_each(|_| _ = idle.run(&none, &mut [])),
            &mut |n| repeated.run(n),
            &mut |n| copies.run(n),
        ],
    );
    let (few, all) = (calls.len() as f64, work.again.len() as f64);
    let (single, in_list) = (single / few, (full - empty) / all);
    Taken { single, in_list, repeated: repeated / all, empty, copy }
}

// ---- draws ----

/// A mix for each form of a draw.
const DRAWS: [(&str, &str); 4] = [
    ("draw_elements", "f32, byte colours, 1 stages, list, each vertex six times"),
    ("draw_arrays", "range, list"),
    ("draw_elements_from_guest, guest memory", "guest shorts, list, six times"),
    ("draw_elements_from_guest, element buffer", "element buffer, list, six times"),
];

fn draws(plan: &Plan) {
    println!("\n## As the station sees it: draws, ns a triangle\n");
    println!("| draw | triangles | `beonasul_repeat` | crate, its own output | crate, an output of the host | in a list |");
    println!("|---|---|---|---|---|---|");
    for (name, mixed) in DRAWS.into_iter().filter(|(name, _)| plan.is_chosen(name)) {
        let mix = mix::named(mixed);
        for &size in mix.sizes.iter().take(plan.sizes.min(2)) {
            let taken = draw(plan, &mix.work(size)).map(|ns| format!("{:.1}", ns / size as f64));
            println!("| {name} | {size} | {} |", taken.join(" | "));
        }
    }
}

/// Nanoseconds of the draw of a work, in the order of the table.
fn draw(plan: &Plan, work: &Work) -> [f64; 4] {
    let [call] = &work.again[..] else { unreachable!("a draw by itself") };
    let Call::Draw(draw) = call else { unreachable!("a draw") };
    raster::keep(work.last);
    let mut theirs = Theirs::new(work);
    theirs.run(1);
    let words = theirs.words();

    let list = list_of(&work.again, &work.guest);
    let [mut own, mut host, mut listed] = std::array::from_fn(|_| Station::new(work));
    let mut outs = [vec![-7.5; words.len()], vec![-7.5; words.len()]];
    compare_words(&words, own.make(call));
    host.draw_into(draw, &mut outs[0]);
    listed.run(&list, &mut outs[1]);
    outs.iter().for_each(|out| compare_words(&words, out));

    let mut repeated = Ours::new(work, words.len());
    let [mut first, mut second] = outs;
    by_turns(
        plan,
        [
            &mut |n| repeated.run(n),
            &mut |n| (0..n).for_each(|_| _ = own.make(call)),
            &mut |n| (0..n).for_each(|_| _ = host.draw_into(draw, &mut first)),
            &mut |n| (0..n).for_each(|_| _ = listed.run(&list, &mut second)),
        ],
    )
}
