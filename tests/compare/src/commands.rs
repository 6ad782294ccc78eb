//! The subcommands.

use crate::answer::Text;
use crate::coverage::Coverage;
use crate::differ::{self, Difference};
use crate::faults::{Fault, ALL};
use crate::generate::{self, Kind, List};
use crate::model;
use crate::oracle;
use crate::replay::{self, Trial};
use crate::sweep;
use crate::trace::{self, op, Record};
use std::collections::BTreeMap;
use std::path::Path;
use std::time::{Duration, Instant};

/// The most records that a report prints, and the most words of each.
const SHOWN: usize = 100;
const SHOWN_WORDS: usize = 40;
/// How often a run says how far it is.
const PROGRESS: Duration = Duration::from_secs(10);
/// A record of N lists looks at so many times N.
const LOOKED_AT: u64 = 10;
const VERSION: u32 = 1;

/// What a run has seen.
pub struct Counts {
    pub lists: u64,
    calls: u64,
    triangles: u64,
    damaged: u64,
    pub unsound: u64,
    pub differences: u64,
    numbers: BTreeMap<u32, u64>,
    start: Instant,
    told: Instant,
}

impl Counts {
    pub fn new() -> Self {
        let start = Instant::now();
        Counts {
            lists: 0,
            calls: 0,
            triangles: 0,
            damaged: 0,
            unsound: 0,
            differences: 0,
            numbers: BTreeMap::new(),
            start,
            told: start,
        }
    }

    pub fn add(&mut self, list: &List) {
        self.lists += 1;
        self.damaged += (list.kind == Kind::Damaged) as u64;
        let made = match list.kind {
            Kind::Damaged => &trace::read(&list.damaged).0,
            _ => &list.records,
        };
        self.calls += made.iter().filter(|r| trace::is_call(r.op)).count() as u64;
    }

    /// Counts triangles and the numbers that the calls answer.
    pub fn read(&mut self, text: &[u8]) {
        for line in text.split(|&b| b == b'\n') {
            self.unsound += (line == b"UNSOUND 0") as u64;
            // Only a triangle's line is as long as this without a name.
            if line.len() == 51 * 9 - 1 {
                self.triangles += 1;
            } else if let Some(number) = number_in(line) {
                *self.numbers.entry(number).or_default() += 1;
            }
        }
    }

    /// A line now and then.
    pub fn tell(&mut self, count: u64) {
        if self.told.elapsed() < PROGRESS {
            return;
        }
        self.told = Instant::now();
        let (lists, calls, differences) = (self.lists, self.calls, self.differences);
        let seconds = self.start.elapsed().as_secs();
        println!(
            ".. {lists} of {count} lists, {calls} calls, {differences} differences, {seconds} s"
        );
    }

    pub fn print(&self) {
        let (lists, calls, triangles) = (self.lists, self.calls, self.triangles);
        let numbers: Vec<String> = self
            .numbers
            .iter()
            .map(|(n, k)| {
                format!("{}: {k}", if *n < 16 { n.to_string() } else { format!("{n:#06x}") })
            })
            .collect();
        println!("answers by number: {}", numbers.join(", "));
        let seconds = self.start.elapsed().as_secs_f64();
        println!(
            "damaged lists {}, unsound contexts {}, {seconds:.1} s",
            self.damaged, self.unsound
        );
        println!(
            "lists {lists}, calls {calls}, triangles {triangles}, differences {}",
            self.differences
        );
    }
}

/// The number that a call's line answers.
fn number_in(line: &[u8]) -> Option<u32> {
    let text = std::str::from_utf8(line).ok()?;
    let mut words = text.split(' ');
    let name = words.next()?;
    let known = (0x10..=0x72).any(|code| trace::is_call(code) && trace::name(code) == name);
    if name.is_empty() || !known {
        return None;
    }
    words.next()?.parse().ok()
}

fn meta(seed: u64) -> Record {
    Record::new(op::META, &[VERSION, seed as u32, (seed >> 32) as u32])
}

/// One trace of all lists that are not damaged.
pub fn one_trace(seed: u64, count: u64) -> Vec<u8> {
    let mut bytes = trace::write(&[meta(seed)]);
    let lists = (0..count).map(|n| generate::list(seed, n));
    for list in lists.filter(|list| list.kind != Kind::Damaged) {
        bytes.extend(list.bytes());
    }
    bytes
}

/// One trace of all sweeps.
pub fn all_sweeps() -> Vec<u8> {
    let lists = sweep::lists();
    lists.iter().flat_map(|(_, list)| list.bytes()).collect()
}

fn written(path: &Path, bytes: &[u8]) -> bool {
    let done = std::fs::write(path, bytes);
    if let Err(error) = &done {
        eprintln!("{}: {error}", path.display());
    }
    done.is_ok()
}

fn folder(dir: &Path) -> bool {
    let done = std::fs::create_dir_all(dir);
    if let Err(error) = &done {
        eprintln!("{}: {error}", dir.display());
    }
    done.is_ok()
}

/// One file for each list.
pub fn write_lists(seed: u64, count: u64, dir: &str) -> bool {
    folder(Path::new(dir))
        && (0..count).all(|n| {
            let path = Path::new(dir).join(format!("{n:05}.trace"));
            written(&path, &generate::list(seed, n).bytes())
        })
}

/// A trace in words, a line for each record.
pub fn shown(bytes: &[u8]) -> Text {
    let (records, stop) = trace::read(bytes);
    let mut lines: Vec<String> = records.iter().map(trace::show).collect();
    lines.extend(stop.map(|s| format!("stop at record {}: {}", s.record, s.reason)));
    lines.push(String::new());
    lines.join("\n").into_bytes()
}

/// The first small lists in the domain, then later ones that show a planted fault not seen before.
fn samples(seed: u64, count: u64) -> Vec<u8> {
    let mut bytes = trace::write(&[meta(seed)]);
    let mut lists = 0;
    let mut unseen: Vec<Fault> = ALL.iter().map(|&(fault, _)| fault).collect();
    for n in 0..LOOKED_AT * count {
        let list = generate::sample(seed, n).bytes();
        let sound = model::answers(&list, None);
        let before = unseen.len();
        unseen.retain(|&fault| model::answers(&list, Some(fault)) == sound);
        if n < count || unseen.len() < before {
            bytes.extend(list);
            lists += 1;
        }
    }
    println!("{lists} lists, {} of {} faults show", ALL.len() - unseen.len(), ALL.len());
    bytes
}

/// One trace of small lists in the domain, and the oracle's answers to it.
pub fn record(seed: u64, count: u64, dir: &str) -> bool {
    let bytes = samples(seed, count);
    let answers = oracle::answers(&bytes);
    if let Some((_, d)) = differ::texts(&answers, &model::answers(&bytes, None)) {
        eprintln!("oracle and model part: {d:?}");
        return false;
    }
    let dir = Path::new(dir);
    folder(dir)
        && written(&dir.join("lists.trace"), &bytes)
        && written(&dir.join("lists.answers"), &answers)
}

/// A list and what it is called in a report.
pub struct Item {
    pub label: String,
    pub list: List,
}

/// The sweeps, then the lists of a seed.
pub fn items(seed: u64, count: u64) -> impl Iterator<Item = Item> {
    let sweeps = sweep::lists()
        .into_iter()
        .map(|(name, list)| Item { label: format!("sweep '{name}'"), list });
    let seeded = (0..count).map(move |number| Item {
        label: format!("seed {seed} list {number}"),
        list: generate::list(seed, number),
    });
    sweeps.chain(seeded)
}

pub fn report(label: &str, names: [&str; 2], d: &Difference, list: &[Record]) {
    println!("difference: {label}");
    println!("  {}: {}", names[0], d.left);
    println!("  {}: {}", names[1], d.right);
    let pairs = d.left.split(' ').zip(d.right.split(' '));
    if let Some((i, (a, b))) = pairs.enumerate().find(|(_, (a, b))| a != b) {
        println!("  first at word {i}: {a}, {b}");
    }
    println!("  smallest list ({} records):", list.len());
    for record in list.iter().take(SHOWN) {
        let line = trace::show(record);
        match line.match_indices(' ').nth(SHOWN_WORDS) {
            Some((end, _)) => println!("    {} .. ({} words)", &line[..end], record.words.len()),
            None => println!("    {line}"),
        }
    }
    if list.len() > SHOWN {
        println!("    ..");
    }
}

/// Every list through the replay program at `path`.
pub fn compare(seed: u64, count: u64, path: &str) -> bool {
    let trial = Trial {
        program: vec![path.into()],
        judges: vec![
            ("model", Box::new(|bytes| model::answers(bytes, None))),
            ("oracle", Box::new(oracle::answers)),
        ],
        fits: |_| true,
    };
    replay::compare(&trial, items(seed, count), count + sweep::lists().len() as u64)
}

// ---- oracle against model ----

/// How oracle and model part on these records.
fn parted(records: &[Record]) -> Option<Difference> {
    let bytes = trace::write(records);
    let model = model::answers(&bytes, None);
    differ::texts(&oracle::answers(&bytes), &model).map(|(_, d)| d)
}

/// Does the model stop at the damage?
fn stops(list: &List) -> bool {
    let text = model::answers(&list.damaged, None);
    let last = text.split(|&b| b == b'\n').rev().nth(1);
    last.is_some_and(|line| line.starts_with(b"error: record "))
}

pub fn compare_self(seed: u64, count: u64) -> bool {
    let mut counts = Counts::new();
    for Item { label, list } in items(seed, count) {
        counts.add(&list);
        if list.kind == Kind::Damaged {
            if !stops(&list) {
                println!("{label}: the damage is not seen");
                counts.differences += 1;
            }
            continue;
        }
        let bytes = list.bytes();
        let model = model::answers(&bytes, None);
        counts.read(&model);
        if differ::texts(&oracle::answers(&bytes), &model).is_some() {
            counts.differences += 1;
            if counts.differences == 1 {
                let small = differ::smallest(&list.records, &|r| parted(r).is_some());
                let d = parted(&small).expect("the small list differs");
                report(&label, ["oracle", "model"], &d, &small);
            }
        }
    }
    counts.print();
    counts.differences == 0
}

/// Which cases of the document the lists come to.
pub fn coverage(seed: u64, count: u64) -> bool {
    let mut coverage = Coverage::new();
    sweep::lists().iter().for_each(|(_, list)| coverage.add(list, false));
    (0..count).for_each(|n| coverage.add(&generate::list(seed, n), true));
    coverage.print()
}

// ---- planted faults ----

/// Where each fault was first seen.
struct Hunt {
    fault: Fault,
    what: &'static str,
    by_model: Option<u64>,
    by_oracle: Option<u64>,
}

impl Hunt {
    /// Runs the spoilt model on a list, against the sound model and against the oracle.
    fn search(&mut self, number: u64, bytes: &[u8], sound: &[u8], oracle: &[u8]) {
        if self.by_model.is_some() && self.by_oracle.is_some() {
            return;
        }
        let spoilt = model::answers(bytes, Some(self.fault));
        if self.by_model.is_none() && differ::texts(sound, &spoilt).is_some() {
            self.by_model = Some(number);
        }
        if self.by_oracle.is_none() && differ::texts(oracle, &spoilt).is_some() {
            self.by_oracle = Some(number);
        }
    }
}

/// Every fault must be seen against the sound model. The oracle is shown beside it: it cannot see
/// what lies outside its reach.
pub fn faults(seed: u64, count: u64) -> bool {
    let hunt = |&(fault, what): &(Fault, &'static str)| Hunt {
        fault,
        what,
        by_model: None,
        by_oracle: None,
    };
    let mut hunts: Vec<Hunt> = ALL.iter().map(hunt).collect();
    let lists = (0..count).map(|n| (n, generate::list(seed, n)));
    for (number, list) in lists.filter(|(_, l)| l.kind != Kind::Damaged) {
        let bytes = list.bytes();
        let sound = model::answers(&bytes, None);
        let oracle = oracle::answers(&bytes);
        for hunt in &mut hunts {
            hunt.search(number, &bytes, &sound, &oracle);
        }
    }
    for hunt in &hunts {
        let place = |seen: Option<u64>| seen.map_or("not seen".into(), |n| format!("list {n}"));
        let (model, oracle) = (place(hunt.by_model), place(hunt.by_oracle));
        println!("{:?}: model {model}, oracle {oracle} ({})", hunt.fault, hunt.what);
    }
    let caught = hunts.iter().filter(|h| h.by_model.is_some()).count();
    let by_oracle = hunts.iter().filter(|h| h.by_oracle.is_some()).count();
    println!("{} faults, {caught} caught, {by_oracle} by the oracle too", hunts.len());
    caught == hunts.len()
}
