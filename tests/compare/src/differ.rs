//! Compares two texts of answers, and makes a list that shows a difference small.

use crate::answer::Text;
use crate::model::Model;
use crate::trace::{self, op, Record};
use std::time::{Duration, Instant};

/// How long a smaller list is looked for.
const TIME: Duration = Duration::from_secs(30);

/// The first two lines that part; an empty one where a text has ended.
#[derive(Debug)]
pub struct Difference {
    pub left: String,
    pub right: String,
}

fn line(text: &[u8]) -> (&[u8], &[u8]) {
    match text.iter().position(|&b| b == b'\n') {
        Some(end) => (&text[..end], &text[end + 1..]),
        None => (text, &[]),
    }
}

/// The parts of a text that begin with `FRESH 0`; what comes before the first is a part too.
pub fn segments(text: &[u8]) -> Vec<&[u8]> {
    let mut parts = Vec::new();
    let (mut start, mut at) = (0, 0);
    while at < text.len() {
        let (first, rest) = line(&text[at..]);
        if first == b"FRESH 0" && at > start {
            parts.push(&text[start..at]);
            start = at;
        }
        at = text.len() - rest.len();
    }
    parts.push(&text[start..]);
    parts
}

/// After these lines the answers do not count, up to the next FRESH: the oracle cannot follow, or
/// the program cannot make its context unsound.
fn ends_comparison(left: &[u8], right: &[u8]) -> bool {
    left.ends_with(b" ?") || (left == b"UNSOUND 0" && right == b"UNSOUND 1")
}

/// `error: record R`, without the reason.
fn stop(line: &[u8]) -> Option<&[u8]> {
    let rest = line.strip_prefix(b"error: record ")?;
    rest.split(|&b| b == b':').next()
}

/// Equal, or free to differ: the code beside TAKE_ERROR's answer 1, the reason of a stop.
fn agree(left: &[u8], right: &[u8]) -> bool {
    let one = b"TAKE_ERROR 1 ";
    left == right
        || (left.starts_with(one) && right.starts_with(one))
        || (stop(left).is_some() && stop(left) == stop(right))
}

/// The first difference of two segments; the left one is the oracle's or the model's.
pub fn segment(left: &[u8], right: &[u8]) -> Option<Difference> {
    if left == right {
        return None;
    }
    let (mut left, mut right) = (left, right);
    while !left.is_empty() || !right.is_empty() {
        let (a, b);
        (a, left) = line(left);
        (b, right) = line(right);
        if ends_comparison(a, b) {
            return None;
        }
        if !agree(a, b) {
            return Some(Difference {
                left: String::from_utf8_lossy(a).into(),
                right: String::from_utf8_lossy(b).into(),
            });
        }
    }
    None
}

/// Every segment that differs, and how.
pub fn all(left: &[u8], right: &[u8]) -> Vec<(usize, Difference)> {
    if left == right {
        return Vec::new();
    }
    let (left, right) = (segments(left), segments(right));
    let part = |all: &[&[u8]], i: usize| all.get(i).map_or(Text::new(), |s| s.to_vec());
    (0..left.len().max(right.len()))
        .filter_map(|i| segment(&part(&left, i), &part(&right, i)).map(|d| (i, d)))
        .collect()
}

/// The first segment that differs, and how.
pub fn texts(left: &[u8], right: &[u8]) -> Option<(usize, Difference)> {
    all(left, right).into_iter().next()
}

/// May a trace hold these records?
fn legal(records: &[Record]) -> bool {
    let mut model = Model::new(None);
    let mut text = Text::new();
    trace::read(&trace::write(records)).1.is_none()
        && records.iter().all(|r| model.run(r, &mut text).is_ok())
}

/// A list that differs, the test that it does, and how long it may be asked.
struct Shrinking<'a> {
    list: Vec<Record>,
    differs: &'a dyn Fn(&[Record]) -> bool,
    until: Instant,
}

impl Shrinking<'_> {
    fn late(&self) -> bool {
        Instant::now() > self.until
    }

    /// Takes a list that still differs.
    fn take(&mut self, candidate: Vec<Record>) -> bool {
        if self.late() || !legal(&candidate) {
            return false;
        }
        let still = (self.differs)(&candidate);
        if still {
            self.list = candidate;
        }
        still
    }

    /// Leaves out records: halves, quarters, .., single ones until none can go.
    fn shorten(&mut self) {
        let mut size = self.list.len().div_ceil(2).max(1);
        loop {
            let before = self.list.len();
            let mut at = 0;
            while at < self.list.len() {
                let end = (at + size).min(self.list.len());
                let shorter = [&self.list[..at], &self.list[end..]].concat();
                if !self.take(shorter) {
                    at = end;
                }
            }
            if self.late() || (size == 1 && self.list.len() == before) {
                return;
            }
            size = size.div_ceil(2);
        }
    }

    /// Drops the last indices of lists and turns words into 0.
    fn simplify(&mut self) {
        for at in 0..self.list.len() {
            while self.list[at].op == op::DRAW_LIST && self.list[at].words[3] > 0 {
                let mut simpler = self.list.clone();
                simpler[at].words.pop();
                simpler[at].words[3] -= 1;
                if !self.take(simpler) {
                    break;
                }
            }
            for i in 0..self.list[at].words.len() {
                let mut simpler = self.list.clone();
                if std::mem::replace(&mut simpler[at].words[i], 0) != 0 {
                    self.take(simpler);
                }
            }
        }
    }
}

/// A small list that still differs.
pub fn smallest(records: &[Record], differs: &dyn Fn(&[Record]) -> bool) -> Vec<Record> {
    let mut shrinking = Shrinking { list: records.to_vec(), differs, until: Instant::now() + TIME };
    shrinking.shorten();
    shrinking.simplify();
    shrinking.shorten();
    shrinking.list
}
