//! What makes a context's calls: its state, and the recorder that is told of each call before.

use crate::calls::{is_draw, is_upload};
use crate::context::Reply;
use crate::ffi;
use crate::list::List;
use crate::recorder::{Made, Recorder};
use crate::state::State;
use crate::store::Store;

pub(crate) struct Caller {
    pub state: Box<State>,
    /// No call was made yet.
    pub fresh: bool,
    pub recorder: Option<Recorder>,
}

impl Caller {
    pub fn new() -> Self {
        Caller { state: ffi::fresh(), fresh: true, recorder: None }
    }

    /// Tells the recorder, if there is one, of the call that is made next.
    pub fn tell(&mut self, made: Made) {
        if let Some(recorder) = &mut self.recorder {
            recorder.tell(&self.state, made);
        }
    }

    /// Makes a call that borrows nothing.
    pub fn plain(&mut self, words: &[u32], rotation: Option<[f32; 4]>) -> Reply {
        self.tell(Made { rotation, ..Made::new(words) });
        self.make(words, &mut [], &[], &mut [])
    }

    /// Makes a call that writes a buffer.
    pub fn upload(&mut self, words: &[u32], store: &mut Store, bytes: &[u8]) -> Reply {
        self.tell(Made { bytes, stamp: Some(store.stamp()), ..Made::new(words) });
        store.renew_stamp();
        if let Some(recorder) = &mut self.recorder {
            recorder.follow(store.stamp());
        }
        self.make(words, store.bytes(), bytes, &mut [])
    }

    /// Makes a draw of which the recorder knows.
    pub fn draw(
        &mut self,
        words: &[u32],
        store: &mut Store,
        bytes: &[u8],
        out: &mut [f32],
    ) -> Reply {
        self.make(words, store.bytes(), bytes, out)
    }

    /// Makes the calls of a list. The recorder asks for the state before each: with it they are
    /// made one by one.
    pub fn run(&mut self, list: &List, store: &mut Store, out: &mut [f32]) -> Reply {
        if self.recorder.is_none() {
            store.renew_stamp();
            return self.make(list.words(), store.bytes(), list.bytes(), out);
        }
        let mut last = Reply::default();
        for (words, rotation) in list.records() {
            let reply = self.step(words, rotation, list.bytes(), store, out);
            last = Reply { made: last.made + reply.made, ..reply };
        }
        last
    }

    /// Makes one call of a list.
    fn step(
        &mut self,
        words: &[u32],
        rotation: Option<[f32; 4]>,
        bytes: &[u8],
        store: &mut Store,
        out: &mut [f32],
    ) -> Reply {
        if is_upload(words[0]) {
            return self.upload(words, store, bytes);
        }
        if is_draw(words[0]) {
            let (stamp, room) = (Some(store.stamp()), out.len());
            self.tell(Made { bytes, stamp, room, ..Made::new(words) });
            return self.draw(words, store, bytes, out);
        }
        self.plain(words, rotation)
    }

    fn make(&mut self, words: &[u32], store: &mut [u8], bytes: &[u8], out: &mut [f32]) -> Reply {
        self.fresh = false;
        ffi::run(&mut self.state, store, words, bytes, out)
    }
}
