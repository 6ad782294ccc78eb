//! The recorder, which turns the records of calls into those of a trace (docs/TRACE.md).

use crate::calls::{code, is_draw, Indices};
use crate::record::{Outcome, RecordError};
use crate::state::State;
use std::io::Write;

/// The records of a trace that no list has.
mod trace {
    pub const FRESH: u32 = 0x02;
    pub const GUEST: u32 = 0x06;
    pub const GUEST_BASE: u32 = 0x08;
    pub const ROTATE_ZERO: u32 = 0x19;
}

// The bounds of a trace.
const GUEST_BYTES: usize = 262_144;
const ENTRIES: usize = 16_384;
const OUTPUT: usize = 51 * ENTRIES;
const UPLOAD: usize = 8_192;
const WORD: usize = u32::MAX as usize;

/// A call that the recorder is told of.
#[derive(Clone, Copy, Debug)]
pub(crate) struct Made<'a> {
    /// The call's record.
    pub words: &'a [u32],
    /// The bytes that it borrows a part of.
    pub bytes: &'a [u8],
    /// Angle and axis, where the record holds what the host made of them.
    pub rotation: Option<[f32; 4]>,
    /// The f32 of a draw's output.
    pub room: usize,
    /// The stamp of the store that it is lent.
    pub stamp: Option<u64>,
}

impl<'a> Made<'a> {
    /// A call that borrows nothing.
    pub fn new(words: &'a [u32]) -> Self {
        Made { words, bytes: &[], rotation: None, room: 0, stamp: None }
    }

    /// The part of the bytes whose place and length stand in the record's words from `i` on.
    fn part(&self, i: usize) -> &'a [u8] {
        let w = &self.words[2..];
        let (place, len) = (long(w, i), long(w, i + 2));
        &self.bytes[place..place + len]
    }
}

/// A number of two words.
fn long(words: &[u32], i: usize) -> usize {
    (words[i] as u64 | (words[i + 1] as u64) << 32) as usize
}

pub(crate) struct Recorder {
    writer: Box<dyn Write + Send>,
    /// The guest view that was written last.
    base: u32,
    view: Option<Vec<u8>>,
    /// The stamp of the store after the last buffer call.
    stamp: Option<u64>,
    /// How many calls it was told of.
    calls: u64,
    /// Why nothing is written any more.
    stopped: Option<RecordError>,
    /// The record that is being written.
    record: Vec<u8>,
}

impl Recorder {
    pub fn new(writer: Box<dyn Write + Send>) -> Self {
        let (view, stamp, stopped, record) = (None, None, None, Vec::new());
        Recorder { writer, base: 0, view, stamp, calls: 0, stopped, record }
    }

    /// To be called before the call is made.
    pub fn tell(&mut self, state: &State, made: Made) {
        if self.stopped.is_none() {
            self.stopped = self.write_call(state, made).err();
            self.calls += 1;
        }
    }

    /// The store has this stamp after a buffer call.
    pub fn follow(&mut self, stamp: u64) {
        self.stamp = Some(stamp);
    }

    pub fn tell_fresh(&mut self) {
        if self.stopped.is_none() {
            self.stopped = self.write_fresh().err();
        }
    }

    pub fn end(mut self) -> Outcome {
        match self.stopped {
            Some(error) => Err(error),
            None => self.writer.flush().map_err(RecordError::Write),
        }
    }

    pub fn write_fresh(&mut self) -> Outcome {
        self.stamp = None;
        self.put(trace::FRESH, &[], &[])
    }

    /// Why nothing is written any more.
    pub fn error(&self) -> Option<&RecordError> {
        self.stopped.as_ref()
    }

    fn write_call(&mut self, state: &State, made: Made) -> Outcome {
        if self.stamp.is_some() && made.stamp.is_some_and(|stamp| Some(stamp) != self.stamp) {
            return Err(RecordError::Store { call: self.calls });
        }
        let (code, w) = (made.words[0], &made.words[2..]);
        match (code, made.rotation) {
            (code::MULT, Some(asked)) => {
                self.put(trace::ROTATE_ZERO, &[&asked.map(f32::to_bits)], &[])
            }
            (code::ROTATE, asked) => {
                let asked = asked.unwrap_or_else(|| angle_and_axis(w));
                self.put(code, &[w, &asked.map(f32::to_bits)], &[])
            }
            (code::GEN, _) => {
                let n = self.within(long(w, 0), WORD, "names to make")?;
                self.put(code, &[&[n]], &[])
            }
            (code::DELETE, _) => {
                let k = self.within(w.len(), ENTRIES, "names to delete")?;
                self.put(code, &[&[k], w], &[])
            }
            (code::BUFFER_DATA, _) => self.write_data(w, made.part(4)),
            (code::BUFFER_SUB_DATA, _) => {
                let bytes = made.part(2);
                let len = self.within(bytes.len(), UPLOAD, "bytes for a buffer")?;
                self.put(code, &[&[w[0], w[1], len]], bytes)
            }
            _ if is_draw(code) => self.write_draw(state, made),
            _ => self.put(code, &[w], &[]),
        }
    }

    /// No data acts as empty data, and is written so.
    fn write_data(&mut self, w: &[u32], bytes: &[u8]) -> Outcome {
        let size = self.within(long(w, 1), WORD, "bytes in a buffer")?;
        let len = self.within(bytes.len(), UPLOAD, "bytes for a buffer")?;
        self.put(code::BUFFER_DATA, &[&[w[0], size, w[3], (len > 0) as u32, len]], bytes)
    }

    /// A draw that a trace can hold needs at most `OUTPUT` f32, so a longer output makes no
    /// difference.
    fn write_draw(&mut self, state: &State, made: Made) -> Outcome {
        let (code, w) = (made.words[0], &made.words[2..]);
        let (base, guest, rest) = (w[4], made.part(5), &w[9..]);
        self.within(guest.len(), GUEST_BYTES, "bytes of guest memory")?;
        self.within(indices_read(state, base, guest, code, rest), ENTRIES, "indices")?;
        self.write_view(base, guest)?;
        let head = [w[0], w[1], made.room.min(OUTPUT) as u32];
        if code == code::DRAW_ELEMENTS {
            return self.put(code, &[&head, &[rest.len() as u32], rest], &[]);
        }
        self.put(code, &[&head, rest], &[])
    }

    /// The guest view, if it is not the one that was written last.
    fn write_view(&mut self, base: u32, bytes: &[u8]) -> Outcome {
        if self.view.as_deref() != Some(bytes) {
            self.put(trace::GUEST, &[&[base, bytes.len() as u32]], bytes)?;
            self.view = Some(bytes.to_vec());
        } else if self.base != base {
            self.put(trace::GUEST_BASE, &[&[base]], &[])?;
        }
        self.base = base;
        Ok(())
    }

    /// The value as a word; an error where it is more than a trace can hold.
    fn within(&self, value: usize, most: usize, what: &'static str) -> Outcome<u32> {
        if value > most {
            return Err(RecordError::Bound { call: self.calls, what, most });
        }
        Ok(value as u32)
    }

    /// Writes a record: the words of all parts, and bytes packed four to a word.
    fn put(&mut self, code: u32, parts: &[&[u32]], bytes: &[u8]) -> Outcome {
        let words: usize = parts.iter().map(|part| part.len()).sum();
        let n = words + bytes.len().div_ceil(4);
        self.record.clear();
        for word in [code, n as u32].iter().chain(parts.iter().copied().flatten()) {
            self.record.extend(word.to_le_bytes());
        }
        self.record.extend_from_slice(bytes);
        self.record.resize(8 + 4 * n, 0);
        self.writer.write_all(&self.record).map_err(RecordError::Write)
    }
}

/// The angle in degrees and the axis of a rotation that was asked for by cosine and sine.
fn angle_and_axis(w: &[u32]) -> [f32; 4] {
    let [cosine, sine, x, y, z] = [0, 1, 2, 3, 4].map(|i| f32::from_bits(w[i]));
    [sine.atan2(cosine).to_degrees(), x, y, z]
}

/// How many indices a draw would read; 0 where it is refused before.
fn indices_read(state: &State, base: u32, guest: &[u8], code: u32, rest: &[u32]) -> usize {
    match code {
        code::DRAW_ELEMENTS => rest.len(),
        code::DRAW_ARRAYS if state.arrays.vertex.enabled => {
            Indices::Range { first: rest[0], count: rest[1] }.count()
        }
        code::DRAW_ELEMENTS_FROM_GUEST if state.buffers.element_buffer == 0 => {
            let [count, ty, pointer] = [rest[0] as usize, rest[1] as usize, rest[2] as usize];
            let width = match ty {
                0x1401 => 1,
                0x1403 => 2,
                _ => return 0,
            };
            let from = pointer.checked_sub(base as usize);
            let readable = from.is_some_and(|from| from + count * width <= guest.len());
            if readable {
                count
            } else {
                0
            }
        }
        // An element buffer holds fewer than a trace's bound.
        _ => 0,
    }
}
