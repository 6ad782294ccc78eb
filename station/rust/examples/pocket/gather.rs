//! Gathers what a draw can read of guest memory into one view.

use super::{GuestMemory, Kind};
use beonasul::state::ArrayPointer;
use beonasul::Guest;
use std::ops::Range;

/// Where the addresses end.
const END: u64 = 1 << 32;
/// The area begins and ends at multiples of this.
const GRAIN: u64 = 1 << 24;
/// Elements are read by one read where it has at most so many times their bytes, and some more.
const SPARSE: u64 = 8;
const SOME_MORE: u64 = 4096;

/// The indices of a draw, with the least and the greatest of them.
pub struct Indices<'a> {
    all: All<'a>,
    pub bounds: Option<(u32, u32)>,
}

enum All<'a> {
    List(&'a [u32]),
    Range(Range<u32>),
}

impl<'a> Indices<'a> {
    pub fn list(list: &'a [u32]) -> Self {
        let bounds = list.iter().min().zip(list.iter().max());
        Indices {
            all: All::List(list),
            bounds: bounds.map(|(&least, &greatest)| (least, greatest)),
        }
    }

    /// From `first` up to `end`, which is left out.
    pub fn range(first: u32, end: u32) -> Self {
        let bounds = (first < end).then(|| (first, end - 1));
        Indices { all: All::Range(first..end), bounds }
    }

    fn count(&self) -> usize {
        match &self.all {
            All::List(list) => list.len(),
            All::Range(range) => range.len(),
        }
    }

    /// All, in their order.
    pub fn iter(&self) -> Box<dyn Iterator<Item = u32> + '_> {
        match &self.all {
            All::List(list) => Box::new(list.iter().copied()),
            All::Range(range) => Box::new(range.clone()),
        }
    }

    /// Each once.
    fn distinct(&self) -> Box<dyn Iterator<Item = u32>> {
        match &self.all {
            All::List(list) => {
                let mut list = list.to_vec();
                list.sort_unstable();
                list.dedup();
                Box::new(list.into_iter())
            }
            All::Range(range) => Box::new(range.clone()),
        }
    }
}

/// Address and length of an array's element; none where the type is unknown or the sum passes
/// 2^32-1. In a buffer the address is a place.
pub fn element(array: &ArrayPointer, index: u32) -> Option<(u32, u32)> {
    let width = match array.ty {
        0x1400 | 0x1401 => 1,
        0x1402 | 0x1403 => 2,
        0x1406 | 0x140c => 4,
        _ => return None,
    };
    let len = array.size.checked_mul(width)?;
    let step = if array.stride == 0 { len } else { array.stride };
    let address = array.pointer.checked_add(step.checked_mul(index)?)?;
    Some((address, len))
}

/// What of guest memory a draw is lent.
pub enum Gathered<'a> {
    View(Guest<'a>),
    /// No view tells what can be read from what cannot: something unreadable lies in between, or
    /// there is no room for all that lies between the arrays.
    Apart,
}

/// What was read for a draw; kept, as the next draw reads much the same.
pub struct Gather {
    /// What was read last.
    bytes: Vec<u8>,
    /// Copies of guest memory, each byte at the distance of its address from `start`. Only the
    /// pages that were written cost memory.
    area: Vec<u8>,
    start: u64,
}

/// What one draw can read.
struct Found {
    /// From the lowest to the highest address that was read.
    span: Option<Range<u64>>,
    /// Where elements could not be read.
    unreadable: Vec<Range<u64>>,
}

impl Found {
    fn add(&mut self, part: Range<u64>) {
        let span = self.span.get_or_insert(part.clone());
        *span = span.start.min(part.start)..span.end.max(part.end);
    }

    /// The addresses of the view, unless it would show something that cannot be read.
    fn view(&self) -> Option<Range<u64>> {
        let view = self.span.clone().unwrap_or(0..0);
        let inside = |part: &Range<u64>| view.start <= part.start && part.end <= view.end;
        (view.end <= END && !self.unreadable.iter().any(inside)).then_some(view)
    }
}

impl Gather {
    pub fn new() -> Self {
        Gather { bytes: Vec::new(), area: Vec::new(), start: 0 }
    }

    /// These bytes, if they can be read.
    pub fn read(
        &mut self,
        mem: &mut dyn GuestMemory,
        address: u32,
        len: Option<usize>,
    ) -> Option<&[u8]> {
        let len = len?;
        mem.read(address, len, &mut self.bytes).then(|| &self.bytes[..len])
    }

    /// A view of all elements that a draw of these indices reads.
    pub fn view(
        &mut self,
        mem: &mut dyn GuestMemory,
        arrays: &[(Kind, ArrayPointer)],
        indices: &Indices,
    ) -> Gathered<'_> {
        let Some(reach) = indices.bounds.and_then(|bounds| reach(arrays, bounds)) else {
            return Gathered::View(Guest::none());
        };
        let used: u64 = arrays.iter().map(|(_, array)| used(array, indices)).sum();
        if self.read_dense(mem, reach.clone(), used) {
            let bytes = &self.bytes[..(reach.end - reach.start) as usize];
            return Gathered::View(Guest { base: reach.start as u32, bytes });
        }
        if !self.cover(reach.start..reach.end.min(END)) {
            return Gathered::Apart;
        }
        let mut found = Found { span: None, unreadable: Vec::new() };
        for (kind, array) in arrays {
            let whole = self.read_array(mem, array, indices, *kind == Kind::Vertex, &mut found);
            if !whole && *kind == Kind::Vertex {
                return Gathered::View(Guest::none());
            }
        }
        let Some(view) = found.view() else {
            return Gathered::Apart;
        };
        let bytes = &self.area[self.places(&view)];
        Gathered::View(Guest { base: view.start as u32, bytes })
    }

    /// Where these addresses lie in the area.
    fn places(&self, part: &Range<u64>) -> Range<usize> {
        let place = |address: u64| address.saturating_sub(self.start) as usize;
        place(part.start)..place(part.end)
    }

    /// Makes the area reach over these addresses too. False if there is no room.
    fn cover(&mut self, part: Range<u64>) -> bool {
        let end = self.start + self.area.len() as u64;
        if self.start <= part.start && part.end <= end {
            return true;
        }
        let (from, to) = match self.area.is_empty() {
            true => (part.start, part.end),
            false => (part.start.min(self.start), part.end.max(end)),
        };
        let (from, to) = (from / GRAIN * GRAIN, to.next_multiple_of(GRAIN));
        let length = (to - from) as usize;
        let fits = has_room(length);
        if fits {
            // No page of zeros is written yet.
            (self.area, self.start) = (vec![0; length], from);
        }
        fits
    }

    /// One read, where little in it is not asked for.
    fn read_dense(&mut self, mem: &mut dyn GuestMemory, part: Range<u64>, used: u64) -> bool {
        let len = part.end - part.start;
        part.end <= END
            && len <= used.saturating_mul(SPARSE).saturating_add(SOME_MORE)
            && mem.read(part.start as u32, len as usize, &mut self.bytes)
    }

    /// Puts the elements into the area: all by one read, or else each that can be read. False if
    /// one cannot; if all are needed, the others are then not read.
    fn read_array(
        &mut self,
        mem: &mut dyn GuestMemory,
        array: &ArrayPointer,
        indices: &Indices,
        needed: bool,
        found: &mut Found,
    ) -> bool {
        if let Some(run) = indices.bounds.and_then(|bounds| run(array, bounds)) {
            if self.read_dense(mem, run.clone(), used(array, indices)) {
                self.put(run, found);
                return true;
            }
        }
        let mut whole = true;
        for index in indices.distinct() {
            whole &= self.read_element(mem, array, index, found);
            if needed && !whole {
                break;
            }
        }
        whole
    }

    fn read_element(
        &mut self,
        mem: &mut dyn GuestMemory,
        array: &ArrayPointer,
        index: u32,
        found: &mut Found,
    ) -> bool {
        let Some((address, len)) = element(array, index) else {
            return false;
        };
        let part = address as u64..address as u64 + len as u64;
        let readable = mem.read(address, len as usize, &mut self.bytes);
        match readable {
            true => self.put(part, found),
            false => found.unreadable.push(part),
        }
        readable
    }

    /// Copies what was read last to its place.
    fn put(&mut self, part: Range<u64>, found: &mut Found) {
        if part.end <= END {
            let places = self.places(&part);
            let len = places.len();
            self.area[places].copy_from_slice(&self.bytes[..len]);
        }
        found.add(part);
    }
}

/// From the beginning of the first element to the end of the last.
fn run(array: &ArrayPointer, (least, greatest): (u32, u32)) -> Option<Range<u64>> {
    let (first, _) = element(array, least)?;
    let (last, len) = element(array, greatest)?;
    Some(first as u64..last as u64 + len as u64)
}

/// How many bytes the elements have at most.
fn used(array: &ArrayPointer, indices: &Indices) -> u64 {
    element(array, 0).map_or(0, |(_, len)| (len as u64).saturating_mul(indices.count() as u64))
}

/// From the lowest to the highest address that the draw can ask for, if there is one.
fn reach(arrays: &[(Kind, ArrayPointer)], bounds: (u32, u32)) -> Option<Range<u64>> {
    let mut all: Option<Range<u64>> = None;
    for (_, array) in arrays {
        let Some((first, _)) = element(array, bounds.0) else {
            continue;
        };
        let end = run(array, bounds).map_or(END, |run| run.end);
        let all = all.get_or_insert(first as u64..end);
        *all = all.start.min(first as u64)..all.end.max(end);
    }
    all
}

/// Does the system give so much memory? The compiler must not take the answer for granted.
fn has_room(length: usize) -> bool {
    let mut room = Vec::<u8>::new();
    let fits = room.try_reserve_exact(length).is_ok();
    std::hint::black_box(&room);
    fits
}
