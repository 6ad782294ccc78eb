//! Runs a program on lists and compares its answers with those of the judges: the model's and the
//! oracle's. A thread makes the lists and the answers to them while the program runs.

use crate::answer::Text;
use crate::commands::{self, Counts, Item};
use crate::differ::{self, Difference};
use crate::generate::Kind;
use crate::trace::{self, op, Record};
use std::collections::VecDeque;
use std::io::{Read, Write};
use std::process::{Child, Command, Stdio};
use std::sync::mpsc::{Receiver, RecvTimeoutError, SyncSender};
use std::sync::{Arc, Mutex};
use std::time::{Duration, Instant};

/// Lists in one trace.
const LISTS: usize = 200;
/// How many programs run at a time.
const PROGRAMS: usize = 2;
/// How long the program may go without an answer.
const LIMIT: Duration = Duration::from_secs(60);
/// The same, for a single list while a program that does not end is looked into.
const SHORT_LIMIT: Duration = Duration::from_secs(4);
/// No trace of ours has so long answers.
const MOST_TEXT: usize = 1 << 27;

/// How a line begins that is put after the answers, and the line for a program that had to be stopped.
const FAULT: &str = "the program ";
const HANGS: &str = "the program does not end";

/// A name for reports, and the answers that a trace must have.
pub type Judge = (&'static str, Box<dyn Fn(&[u8]) -> Text + Send + Sync>);

/// What runs the lists, and what is asked of its answers.
pub struct Trial {
    /// Path and arguments.
    pub program: Vec<String>,
    /// The first also answers a damaged trace.
    pub judges: Vec<Judge>,
    /// May a list be given to the program? Asked of the smaller lists that a report looks for.
    pub fits: fn(&[Record]) -> bool,
}

/// A program at work on a trace. It is killed when this is dropped.
struct Replay {
    child: Child,
    answers: Arc<Mutex<Text>>,
    ended: Receiver<()>,
}

impl Replay {
    /// Starts the program; a thread feeds it, another reads it.
    fn start(program: &[String], bytes: Vec<u8>) -> Self {
        let mut command = Command::new(&program[0]);
        command.args(&program[1..]);
        let started = command.stdin(Stdio::piped()).stdout(Stdio::piped()).spawn();
        let mut child = started.unwrap_or_else(|error| {
            eprintln!("{}: {error}", program[0]);
            std::process::exit(2)
        });
        let mut stdin = child.stdin.take().unwrap();
        let stdout = child.stdout.take().unwrap();
        // A program that stops early closes its input: that shows in its answers.
        std::thread::spawn(move || stdin.write_all(&bytes));
        let answers = Arc::new(Mutex::new(Text::new()));
        let (send, ended) = std::sync::mpsc::channel();
        let kept = answers.clone();
        std::thread::spawn(move || {
            collect(stdout, &kept);
            send.send(())
        });
        Replay { child, answers, ended }
    }

    /// Its answers. A last line tells of a program that hangs or is killed by a signal, and, after a
    /// trace without damage, of an exit status that is not 0.
    fn finish(mut self, limit: Duration, damaged: bool) -> Text {
        let code = match self.ends(limit) {
            true => self.child.wait().expect("the program ended").code(),
            false => None,
        };
        let hangs = matches!(self.child.try_wait(), Ok(None));
        let mut text = std::mem::take(&mut *self.answers.lock().unwrap());
        let fault = match code {
            _ if hangs => HANGS.into(),
            None => format!("{FAULT}is killed by a signal"),
            Some(code) if code != 0 && !damaged => format!("{FAULT}ends with status {code}"),
            Some(_) => return text,
        };
        if text.last().is_some_and(|&b| b != b'\n') {
            text.push(b'\n');
        }
        text.extend(format!("{fault}\n").bytes());
        text
    }

    /// Waits for its end as long as answers come.
    fn ends(&mut self, limit: Duration) -> bool {
        let (mut seen, mut since) = (0, Instant::now());
        while let Err(RecvTimeoutError::Timeout) = self.ended.recv_timeout(limit / 10) {
            let length = self.answers.lock().unwrap().len();
            if length != seen {
                (seen, since) = (length, Instant::now());
            } else if since.elapsed() > limit {
                return false;
            }
        }
        let until = Instant::now() + limit;
        while matches!(self.child.try_wait(), Ok(None)) {
            if Instant::now() > until {
                return false;
            }
            std::thread::sleep(Duration::from_micros(100));
        }
        true
    }
}

impl Drop for Replay {
    fn drop(&mut self) {
        self.child.kill().ok();
        self.child.wait().ok();
    }
}

/// Reads to the end, or to more than any trace asks for.
fn collect(mut stdout: impl Read, kept: &Mutex<Text>) {
    let mut part = vec![0; 1 << 16];
    while let Ok(n @ 1..) = stdout.read(&mut part) {
        let mut text = kept.lock().unwrap();
        text.extend_from_slice(&part[..n]);
        if text.len() > MOST_TEXT {
            return;
        }
    }
}

/// Lists that run as one trace, and each judge's answers to it. A damaged list runs alone.
struct Batch {
    items: Vec<Item>,
    bytes: Vec<u8>,
    answers: Vec<(&'static str, Text)>,
}

impl Batch {
    fn new(items: Vec<Item>, judges: &[Judge]) -> Self {
        let bytes: Vec<u8> = items.iter().flat_map(|item| item.list.bytes()).collect();
        let mut batch = Batch { items, bytes, answers: Vec::new() };
        let asked = if batch.damaged() { &judges[..1] } else { judges };
        let answers = asked.iter().map(|(name, answers)| (*name, answers(&batch.bytes)));
        batch.answers = answers.collect();
        batch
    }

    fn damaged(&self) -> bool {
        self.items[0].list.kind == Kind::Damaged
    }

    /// The lists whose answers differ, each with its first difference.
    fn differences(&self, text: &[u8]) -> Vec<(usize, Difference)> {
        let owners = owners(&self.items);
        let place = |i: usize| owners.get(i).copied().unwrap_or(self.items.len() - 1);
        let mut found = Vec::new();
        for (_, answers) in &self.answers {
            found.extend(differ::all(answers, text).into_iter().map(|(i, d)| (place(i), d)));
        }
        found.sort_by_key(|(place, _)| *place);
        found.dedup_by_key(|(place, _)| *place);
        found
    }
}

/// Which item holds each segment? Each FRESH begins one.
fn owners(items: &[Item]) -> Vec<usize> {
    let segments = |(place, item): (usize, &Item)| {
        let fresh = item.list.records.iter().filter(|r| r.op == op::FRESH);
        vec![place; fresh.count()]
    };
    items.iter().enumerate().flat_map(segments).collect()
}

/// Makes the batches, as long as someone takes them.
fn make(
    items: impl Iterator<Item = Item>,
    judges: &[Judge],
    send: SyncSender<Batch>,
) -> Option<()> {
    let mut items = items.peekable();
    while items.peek().is_some() {
        let some = items.by_ref().take(LISTS);
        let (damaged, good): (Vec<Item>, Vec<Item>) =
            some.partition(|item| item.list.kind == Kind::Damaged);
        if !good.is_empty() {
            send.send(Batch::new(good, judges)).ok()?;
        }
        for item in damaged {
            send.send(Batch::new(vec![item], judges)).ok()?;
        }
    }
    Some(())
}

/// The program to look into, and how long it may go without an answer.
struct Suspect<'a> {
    trial: &'a Trial,
    limit: Duration,
}

impl Suspect<'_> {
    /// How the program parts from the first judge that it parts from, on this trace.
    fn on(&self, bytes: &[u8], damaged: bool) -> Option<(&'static str, Difference)> {
        let text = Replay::start(&self.trial.program, bytes.to_vec()).finish(self.limit, damaged);
        let mut parted = self.trial.judges.iter().filter_map(|(name, answers)| {
            differ::texts(&answers(bytes), &text).map(|(_, d)| (*name, d))
        });
        let (name, mut d) = parted.next()?;
        let last = String::from_utf8_lossy(text.rsplit(|&b| b == b'\n').nth(1).unwrap_or(&[]));
        if last.starts_with(FAULT) && d.right != last {
            d.right += &format!(" ({last})");
        }
        Some((name, d))
    }

    /// Shows the smallest list that still differs; `rest` is what stands behind it.
    fn show(&self, label: &str, records: &[Record], rest: &[u8]) {
        let damaged = !rest.is_empty();
        let differs = |r: &[Record]| {
            (self.trial.fits)(r)
                && self.on(&[&trace::write(r)[..], rest].concat(), damaged).is_some()
        };
        let small = differ::smallest(records, &differs);
        let bytes = [&trace::write(&small)[..], rest].concat();
        let Some((name, d)) = self.on(&bytes, damaged) else {
            println!("difference: {label}: it comes and goes with the same list");
            return;
        };
        commands::report(label, [name, "program"], &d, &small);
        if damaged {
            let shown: Vec<String> = rest.iter().take(64).map(|b| format!("{b:02x}")).collect();
            println!("    and {} bytes that are no record: {}", rest.len(), shown.join(" "));
        }
        let path = std::env::temp_dir().join("difference.trace");
        if std::fs::write(&path, bytes).is_ok() {
            println!("  written to {}", path.display());
        }
    }
}

/// Shows a difference of a batch. The program may keep answers back, so that the list where they
/// part need not be the one that is to blame.
fn show(trial: &Trial, batch: &Batch, place: usize, hangs: bool) {
    let items = &batch.items;
    let limit = if hangs { SHORT_LIMIT } else { LIMIT };
    let suspect = Suspect { trial, limit };
    if batch.damaged() {
        let (records, _) = trace::read(&batch.bytes);
        let (sound, rest) = batch.bytes.split_at(trace::write(&records).len());
        let early = suspect.on(sound, false).is_some();
        return suspect.show(&items[0].label, &records, if early { &[] } else { rest });
    }
    let alone = |&&at: &&usize| suspect.on(&items[at].list.bytes(), false).is_some();
    let order: Vec<usize> = (place..items.len()).chain(0..place).collect();
    if let Some(&at) = order.iter().find(alone) {
        return suspect.show(&items[at].label, &items[at].list.records, &[]);
    }
    let label = format!("{} to {}, as one trace", items[0].label, items[place].label);
    let lists = items[..=place].iter().flat_map(|item| item.list.records.clone());
    suspect.show(&label, &lists.collect::<Vec<_>>(), &[]);
}

/// How many lists differ if they run as one trace, and the first of them.
pub fn parted(trial: &Trial, items: Vec<Item>) -> (usize, Option<(String, Difference)>) {
    let batch = Batch::new(items, &trial.judges);
    let replay = Replay::start(&trial.program, batch.bytes.clone());
    let found = batch.differences(&replay.finish(LIMIT, false));
    let count = found.len();
    let first = found.into_iter().next();
    (count, first.map(|(place, d)| (batch.items[place].label.clone(), d)))
}

/// Every list through the program; `all` is how many there are.
pub fn compare(trial: &Trial, items: impl Iterator<Item = Item> + Send, all: u64) -> bool {
    let mut counts = Counts::new();
    let text = Replay::start(&trial.program, Vec::new()).finish(LIMIT, false);
    if !text.is_empty() {
        println!(
            "difference: empty trace\n  program: {}",
            String::from_utf8_lossy(&text).trim_end()
        );
        counts.differences += 1;
    }
    std::thread::scope(|scope| {
        let (send, batches) = std::sync::mpsc::sync_channel(8);
        scope.spawn(move || make(items, &trial.judges, send));
        run(trial, batches, &mut counts, all);
    });
    counts.print();
    if counts.lists != all {
        println!("only {} of {all} lists were run", counts.lists);
    }
    counts.differences == 0 && counts.lists == all
}

/// Runs the batches as they come.
fn run(trial: &Trial, batches: Receiver<Batch>, counts: &mut Counts, all: u64) {
    let mut shown = false;
    let mut unmade = 0;
    let mut running: VecDeque<(Batch, Replay)> = VecDeque::new();
    loop {
        while running.len() < PROGRAMS {
            let Ok(batch) = batches.recv() else {
                break;
            };
            let replay = Replay::start(&trial.program, batch.bytes.clone());
            running.push_back((batch, replay));
        }
        let Some((batch, replay)) = running.pop_front() else {
            break;
        };
        let text = replay.finish(LIMIT, batch.damaged());
        let hangs = text.ends_with(format!("{HANGS}\n").as_bytes());
        unmade += text.split(|&b| b == b'\n').filter(|line| line == b"UNSOUND 1").count();
        batch.items.iter().for_each(|item| counts.add(&item.list));
        counts.read(&batch.answers[0].1);
        let found = batch.differences(&text);
        if let (false, Some(&(place, _))) = (shown, found.first()) {
            show(trial, &batch, place, hangs);
            shown = true;
        }
        counts.differences += found.len() as u64;
        if hangs {
            println!("{HANGS}: the run stops here");
            break;
        }
        counts.tell(all);
    }
    if counts.unsound > 0 {
        println!("unsound contexts that the program does not make: {unmade}");
    }
}
