//! Recording: the trace (docs/TRACE.md) of every call that is made through a context.

use crate::caller::Caller;
use crate::context::Context;
use crate::recorder::Recorder;
use std::fmt;
use std::io::{self, Write};

/// Why a context does not record, or records no longer.
#[derive(Debug)]
#[non_exhaustive]
pub enum RecordError {
    /// Calls were made on the context before: a trace begins with a fresh one.
    NotFresh,
    /// The context records already.
    Recording,
    /// A call has more of something than a trace can hold. The trace ends before it.
    Bound {
        /// The call, counted from 0.
        call: u64,
        /// Of what it has too much.
        what: &'static str,
        /// How much a trace can hold.
        most: usize,
    },
    /// A call was lent another store than the buffer calls before it, or one that another context
    /// has written since. The trace ends before it.
    Store {
        /// The call, counted from 0.
        call: u64,
    },
    /// The writer failed. The trace may end inside a record.
    Write(io::Error),
}

impl fmt::Display for RecordError {
    fn fmt(&self, f: &mut fmt::Formatter<'_>) -> fmt::Result {
        match self {
            RecordError::NotFresh => f.write_str("calls were made on the context before"),
            RecordError::Recording => f.write_str("the context records already"),
            RecordError::Bound { call, what, most } => {
                write!(f, "call {call} is not recorded: a trace has at most {most} {what}")
            }
            RecordError::Store { call } => {
                write!(f, "call {call} is not recorded: the store is not that of the calls before")
            }
            RecordError::Write(error) => write!(f, "the trace cannot be written: {error}"),
        }
    }
}

impl std::error::Error for RecordError {
    fn source(&self) -> Option<&(dyn std::error::Error + 'static)> {
        match self {
            RecordError::Write(error) => Some(error),
            _ => None,
        }
    }
}

pub(crate) type Outcome<T = ()> = std::result::Result<T, RecordError>;

impl Context {
    /// Writes the trace of every call from now on into `writer`, until
    /// [`stop_recording`](Context::stop_recording) or the context's end. The program `replay`
    /// makes the same calls from it and prints their answers.
    ///
    /// The context must be fresh. A call that a trace cannot hold, or a writer that fails, stops
    /// the recorder and not the call: [`record_error`](Context::record_error) then says why. Each
    /// record is written by itself, so a file should come in a [`BufWriter`](std::io::BufWriter).
    ///
    /// A trace has angle and axis of each rotation, for programs that work it out by themselves.
    /// Those of [`rotate_by`](Context::rotate_by) are made from cosine and sine, and such a
    /// program may come to other bits; `replay` does not.
    pub fn record(&mut self, writer: impl Write + Send + 'static) -> Outcome {
        if self.caller.recorder.is_some() {
            return Err(RecordError::Recording);
        }
        if !self.caller.fresh {
            return Err(RecordError::NotFresh);
        }
        let mut recorder = Recorder::new(Box::new(writer));
        recorder.write_fresh()?;
        self.caller.recorder = Some(recorder);
        Ok(())
    }

    /// Why the recorder stopped, if it did.
    pub fn record_error(&self) -> Option<&RecordError> {
        self.caller.recorder.as_ref()?.error()
    }

    /// Ends the recording: flushes the writer and lets it go. An error if not every call since
    /// [`record`](Context::record) was written.
    pub fn stop_recording(&mut self) -> Outcome {
        self.caller.recorder.take().map_or(Ok(()), Recorder::end)
    }

    /// Makes the context fresh again, if it is not. A recorder goes on: a trace can have that too.
    pub fn reset(&mut self) {
        if self.caller.fresh {
            return;
        }
        let recorder = self.caller.recorder.take();
        self.caller = Caller { recorder, ..Caller::new() };
        if let Some(recorder) = &mut self.caller.recorder {
            recorder.tell_fresh();
        }
    }
}
