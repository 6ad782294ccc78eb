//! The Rust's answers to a trace. Each list, from a FRESH up to the next, runs on one Rust: the
//! unchanged files, or a test copy of `context.rs` (README.md, Test copies).

use crate::answer::{self, Text};
use crate::trace::{self, op, Record, STORE};
use pocket::matrix::{self, MatrixStack};

/// A driver over the `Context` at a path, in a module of its own: its types are those of that Rust.
macro_rules! driver {
    ($name:ident: $context:path) => {
        #[path = "."]
        mod $name {
            use $context as context;
            #[path = "driver.rs"]
            mod driver;
            pub use driver::run;
        }
    };
}

driver!(unchanged: pocket::context);

/// Runs a list, given what outlasts lists.
type Run = fn(&[Record], &mut Lasting, &mut Text);

/// Which lists a copy is for, and the copy's driver. The newest copy stands first: it holds the
/// replacements of all others.
const COPIES: &[(fn(&[Record]) -> bool, Run)] = &[];

/// The driver of the first copy that is for the list, else that of the unchanged files.
fn driver_of(list: &[Record]) -> Run {
    let copy = COPIES.iter().find(|(is_for, _)| is_for(list));
    copy.map_or(unchanged::run, |&(_, run)| run)
}

/// All answers to a trace. After a line that ends in ` ?` the list goes on unanswered.
pub fn answers(bytes: &[u8]) -> Text {
    answers_with(bytes, None)
}

/// The same, on a guest memory with holes.
pub fn answers_with(bytes: &[u8], holes: Option<Holes>) -> Text {
    let (records, stop) = trace::read(bytes);
    let mut out = Text::new();
    let mut lasting = Lasting::new(holes);
    for list in records.chunk_by(|_, next| next.op != op::FRESH) {
        driver_of(list)(list, &mut lasting, &mut out);
    }
    if let Some(stop) = stop {
        answer::stop(&mut out, stop.record, stop.reason);
    }
    out
}

/// What outlasts FRESH, but for the store's bytes.
pub struct Lasting {
    pub store_len: u32,
    pub guest: Guest,
    pub lent: [Lent; 4],
}

/// The guest view; remembers whether its last read succeeded.
pub struct Guest {
    pub base: u32,
    pub bytes: Vec<u8>,
    pub succeeded: bool,
    holes: Option<Holes>,
}

/// What cannot be read of a guest memory: at each multiple of `period`, the next `length` bytes.
#[derive(Clone, Copy)]
pub struct Holes {
    pub period: u32,
    pub length: u32,
}

impl Holes {
    /// Do the bytes from this address on, `len` of them, lie in no hole?
    fn spare(&self, addr: u32, len: usize) -> bool {
        let place = (addr % self.period) as usize;
        len == 0 || place >= self.length as usize && place + len <= self.period as usize
    }
}

/// A stack lent from outside; none if it says that it holds more than 15.
pub struct Lent {
    count: u32,
    stack: Option<MatrixStack>,
    shown: Vec<[f32; 16]>,
}

impl Lasting {
    fn new(holes: Option<Holes>) -> Self {
        Lasting {
            store_len: STORE,
            guest: Guest { base: 0, bytes: Vec::new(), succeeded: false, holes },
            lent: std::array::from_fn(|_| fresh_lent()),
        }
    }
}

impl Guest {
    pub fn set(&mut self, base: u32, bytes: Vec<u8>) {
        (self.base, self.bytes) = (base, bytes);
    }

    pub fn read(&mut self, addr: u32, len: usize, out: &mut Vec<u8>) -> bool {
        let from = addr.wrapping_sub(self.base) as usize;
        let inside = addr >= self.base && from + len <= self.bytes.len();
        self.succeeded = inside && self.holes.is_none_or(|holes| holes.spare(addr, len));
        if self.succeeded {
            out.clear();
            out.extend_from_slice(&self.bytes[from..from + len]);
        }
        self.succeeded
    }
}

impl Lent {
    pub fn call(&mut self, code: u32) -> u32 {
        let Some(stack) = &mut self.stack else {
            return 1;
        };
        if code == op::STACK_PUSH {
            if stack.push() {
                0
            } else {
                0x0503
            }
        } else if stack.pop() {
            0
        } else {
            0x0504
        }
    }

    pub fn show(&self, out: &mut Text) {
        if let Some(stack) = &self.stack {
            return show_stack(out, "STACK_SHOW", &[], stack);
        }
        answer::mixed(out, "STACK_SHOW", &[self.count], &self.shown[0]);
        for m in &self.shown[1..] {
            answer::mixed(out, "saved", &[], m);
        }
    }
}

fn fresh_lent() -> Lent {
    Lent { count: 0, stack: Some(MatrixStack::new(16)), shown: Vec::new() }
}

/// STACK_SET's stack; one above the limit is only kept to be shown.
pub fn lent(r: &Record) -> Lent {
    let count = r.words[1];
    let matrices = 1 + count.min(15) as usize;
    let shown: Vec<[f32; 16]> = (0..matrices).map(|i| r.floats(2 + 16 * i)).collect();
    if count > 15 {
        return Lent { count, stack: None, shown };
    }
    let mut stack = MatrixStack::new(16);
    for &saved in &shown[1..] {
        stack.load(saved);
        stack.push();
    }
    stack.load(shown[0]);
    Lent { count, stack: Some(stack), shown: Vec::new() }
}

/// The saved matrices are private: a copy is popped empty.
pub fn show_stack(out: &mut Text, name: &str, before: &[u32], stack: &MatrixStack) {
    let count = stack.depth() as u32 - 1;
    let numbers = [before, &[count]].concat();
    answer::mixed(out, name, &numbers, stack.current());
    let mut copy = stack.clone();
    let mut saved: Vec<matrix::Matrix4> = Vec::new();
    while copy.pop() {
        saved.push(*copy.current());
    }
    for m in saved.iter().rev() {
        answer::mixed(out, "saved", &[], m);
    }
}

/// Cosine, sine and unit axis as the Rust makes them.
pub fn host_rotation([angle, x, y, z]: [f32; 4]) -> [f32; 5] {
    let length = (x * x + y * y + z * z).sqrt();
    let radians = angle.to_radians();
    let (c, s) = (radians.cos(), radians.sin());
    [c, s, x / length, y / length, z / length]
}

/// Is the axis one for which the Rust gives `IDENTITY`?
pub fn zero_axis([x, y, z]: [f32; 3]) -> bool {
    (x * x + y * y + z * z).sqrt() == 0.0
}

/// Did the host make a rotation's arguments from the angle and axis beside them?
pub fn from_host(r: &Record) -> bool {
    let made = host_rotation(r.floats(5)).map(answer::bits);
    let given = r.floats::<5>(0).map(answer::bits);
    made == given && !zero_axis(r.floats(6))
}
