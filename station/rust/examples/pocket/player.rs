//! Plays the records of a trace through PocketHLE's calls.

use crate::adapter::{Context, GuestMemory};
use crate::trace::{self, code, Record};
use beonasul::{Guest, Triangle};

/// How the guest memory answers.
#[derive(Clone, Copy)]
pub enum Way {
    Read,
    View,
    /// By `read`; at each multiple of `period`, the next `length` bytes cannot be read.
    Holes {
        period: u32,
        length: u32,
    },
}

/// The guest view of a trace.
pub struct Memory {
    base: u32,
    bytes: Vec<u8>,
    way: Way,
}

impl Memory {
    /// No bytes yet.
    pub fn new(way: Way) -> Self {
        Memory { base: 0, bytes: Vec::new(), way }
    }

    /// Takes the view that a record says.
    pub fn set(&mut self, r: &Record) {
        self.base = r.words[0];
        match r.code {
            code::GUEST => self.bytes = r.bytes(1),
            code::GUEST_FILL => self.bytes = trace::filled(r.words[1], r.words[2]),
            _ => {}
        }
    }

    /// Is there a hole in the range?
    fn is_cut(&self, addr: u32, len: usize) -> bool {
        let Way::Holes { period, length } = self.way else {
            return false;
        };
        let at = addr % period;
        len > 0 && (at < length || at as usize + len > period as usize)
    }
}

impl GuestMemory for Memory {
    fn read(&mut self, addr: u32, len: usize, out: &mut Vec<u8>) -> bool {
        let from = addr.wrapping_sub(self.base) as usize;
        let inside = addr >= self.base && from + len <= self.bytes.len();
        if !inside || self.is_cut(addr, len) {
            return false;
        }
        out.clear();
        out.extend_from_slice(&self.bytes[from..from + len]);
        true
    }

    fn view(&self) -> Option<Guest<'_>> {
        let whole = matches!(self.way, Way::View);
        whole.then_some(Guest { base: self.base, bytes: &self.bytes })
    }
}

/// What a trace's calls work on.
pub struct Player {
    pub context: Context,
    pub memory: Memory,
}

impl Player {
    pub fn new(way: Way) -> Self {
        Player { context: Context::new(), memory: Memory::new(way) }
    }

    /// Does what a record says that is no draw; the value of the call, if it has one.
    pub fn play(&mut self, r: &Record) -> Option<u32> {
        let (context, w) = (&mut self.context, &r.words);
        match r.code {
            code::META => {}
            code::FRESH => context.reset(),
            code::GUEST | code::GUEST_FILL | code::GUEST_BASE => self.memory.set(r),
            code::GEN => {
                return Some(context.gen_buffers(w[0] as usize).first().copied().unwrap_or(0));
            }
            code::TAKE_ERROR => return Some(context.take_error()),
            code::BUFFER_DATA => {
                let data = r.bytes(4);
                context.buffer_data(w[0], w[1] as usize, (w[3] == 1).then_some(&data[..]), w[2]);
            }
            code::BUFFER_SUB_DATA => context.buffer_sub_data(w[0], w[1], &r.bytes(2)),
            _ => make_call!(*context, r),
        }
        None
    }

    /// Makes the draw of a record; hands over its triangles.
    pub fn draw(&mut self, r: &Record, triangle: impl FnMut(&Triangle)) {
        let (context, memory, w) = (&mut self.context, &mut self.memory, &r.words);
        context.stages = w[1];
        match r.code {
            code::DRAW_LIST => context.draw_elements(memory, w[0], &w[4..], triangle),
            code::DRAW_ARRAYS => context.draw_arrays(memory, w[0], w[3], w[4], triangle),
            _ => context.draw_elements_from_guest(memory, w[0], w[3], w[4], w[5], triangle),
        }
    }
}
