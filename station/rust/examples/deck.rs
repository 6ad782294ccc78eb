//! `deck TRACE [RECORDING]`: makes the calls of a trace (docs/TRACE.md), for example those of the
//! sample deck, and prints their answers as the program `replay` does. With a second file it
//! records what it does there.
//!
//! A trace has more than the calls of a context: stacks lent from outside and state printed are
//! left out, with their answers; it stops at an unsound context and at a store of another length.

#[macro_use]
#[path = "trace/calls.rs"]
mod calls;
pub mod trace;

use beonasul::{Context, Error, Guest, Result, Store};
use std::fs::{self, File};
use std::io::{self, BufWriter, Write};
use trace::{code, Record};

type Outcome<T = ()> = std::result::Result<T, Box<dyn std::error::Error>>;

/// What a trace's calls work on.
#[derive(Default)]
pub struct Viewer {
    pub context: Context,
    store: Store,
    pub base: u32,
    pub guest: Vec<u8>,
    out: Vec<f32>,
}

/// Number and value of a call.
fn answer(result: Result<u32>) -> [u32; 2] {
    result.map_or_else(|error| [error.number(), 0], |value| [0, value])
}

impl Viewer {
    pub fn play(&mut self, r: &Record, page: &mut impl Write) -> Outcome {
        match r.code {
            code::FRESH => {
                self.context.reset();
                trace::line(page, r.code, &[0])?;
            }
            code::GUEST | code::GUEST_FILL | code::GUEST_BASE => self.set_guest(r),
            code::STORE_LEN if r.words[0] == 65_536 => {}
            code::STORE_LEN | code::UNSOUND => return Err("the crate has no such record".into()),
            code::META..=code::STORE_BYTES | code::STACK_SET..=code::DUMP => {}
            code::DRAW_LIST..=code::DRAW_GUEST => {
                let [number, count] = answer(self.draw(r).map(|count| count as u32));
                trace::line(page, r.code, &[number, count])?;
                trace::triangles(page, &self.out, count as usize)?;
            }
            code::GEN => {
                trace::line(page, r.code, &answer(self.context.gen_buffers(r.words[0] as usize)))?
            }
            code::TAKE_ERROR => trace::line(page, r.code, &answer(self.context.take_error()))?,
            _ => {
                let number = self.call(r).err().map_or(0, Error::number);
                trace::line(page, r.code, &[number])?;
            }
        }
        Ok(())
    }

    pub fn set_guest(&mut self, r: &Record) {
        self.base = r.words[0];
        match r.code {
            code::GUEST => self.guest = r.bytes(1),
            code::GUEST_FILL => self.guest = trace::filled(r.words[1], r.words[2]),
            _ => {}
        }
    }

    /// A call that answers a number alone.
    fn call(&mut self, r: &Record) -> Result<()> {
        let (context, store, w) = (&mut self.context, &mut self.store, &r.words);
        match r.code {
            code::ROTATE => context.rotate_by(r.float(0), r.float(1), r.floats(2)),
            code::BUFFER_DATA => {
                let data = r.bytes(4);
                let data = (w[3] == 1).then_some(&data[..]);
                context.buffer_data(store, w[0], w[1] as usize, data, w[2])
            }
            code::BUFFER_SUB_DATA => context.buffer_sub_data(store, w[0], w[1], &r.bytes(2)),
            _ => make_call!(*context, r),
        }
    }

    /// A draw, into an output of the length that the trace says.
    fn draw(&mut self, r: &Record) -> Result<usize> {
        let Viewer { context, store, base, guest, out } = self;
        let (guest, w) = (Guest { base: *base, bytes: guest }, &r.words);
        out.clear();
        out.extend((0..w[2] as usize).map(trace::mark));
        let (mode, stages) = (w[0], w[1]);
        match r.code {
            code::DRAW_LIST => context.draw_elements_into(store, guest, mode, stages, &w[4..], out),
            code::DRAW_ARRAYS => {
                context.draw_arrays_into(store, guest, mode, stages, w[3], w[4], out)
            }
            _ => context
                .draw_elements_from_guest_into(store, guest, mode, stages, w[3], w[4], w[5], out),
        }
    }
}

fn main() -> Outcome {
    let mut arguments = std::env::args_os().skip(1);
    let trace = arguments.next().ok_or("usage: deck TRACE [RECORDING]")?;
    let records = trace::read(&fs::read(trace)?).ok_or("the trace is damaged")?;
    let mut viewer = Viewer::default();
    if let Some(recording) = arguments.next() {
        viewer.context.record(BufWriter::new(File::create(recording)?))?;
    }
    let mut page = BufWriter::new(io::stdout().lock());
    for record in &records {
        viewer.play(record, &mut page)?;
    }
    viewer.context.stop_recording()?;
    Ok(page.flush()?)
}
