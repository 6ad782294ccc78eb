//! The mixes: what a draw is made of, and the calls for it.

use crate::call::*;

#[derive(Clone, Copy, PartialEq)]
pub enum Source {
    Lent,
    Range,
    Shorts,
    Elements,
}

#[derive(Clone)]
pub struct Mix {
    pub name: String,
    pub mode: u32,
    pub source: Source,
    pub position: u32,
    /// The type of the colour array, if there is one.
    pub color: Option<u32>,
    pub texcoord: u32,
    pub stages: u32,
    /// An indexed mesh in which each inner vertex is used six times.
    pub shared: bool,
    /// Arrays in buffers, not in guest memory.
    pub buffered: bool,
    pub common: bool,
    pub sizes: Vec<usize>,
}

/// The most that a triangle of a larger draw may take, against one of 100.
pub const GROWTH: f64 = 1.1;

/// The most triangles of one draw; more are drawn in parts.
pub const PART: usize = 10_000;

/// A small generator of numbers, always the same.
struct Numbers(u64);

impl Numbers {
    fn next(&mut self) -> u32 {
        self.0 = self.0.wrapping_mul(6364136223846793005).wrapping_add(1442695040888963407);
        (self.0 >> 33) as u32
    }

    /// From -1 to 1.
    fn float(&mut self) -> f32 {
        self.next() as f32 / (1u64 << 30) as f32 - 1.0
    }

    fn component(&mut self, ty: u32, bytes: &mut Vec<u8>) {
        match ty {
            FLOAT => bytes.extend(self.float().to_le_bytes()),
            FIXED => bytes.extend(self.next().to_le_bytes()),
            SHORT => bytes.extend((self.next() as u16).to_le_bytes()),
            _ => bytes.push(self.next() as u8),
        }
    }

    fn array(&mut self, ty: u32, size: usize, vertices: usize) -> Vec<u8> {
        let mut bytes = Vec::new();
        for _ in 0..size * vertices {
            self.component(ty, &mut bytes);
        }
        bytes
    }
}

fn grid(triangles: usize) -> (usize, usize) {
    match triangles {
        100 => (5, 10),
        600 => (15, 20),
        _ => (50, triangles / 100),
    }
}

impl Mix {
    fn vertices(&self, triangles: usize) -> usize {
        match self.mode {
            4 if self.shared => {
                let (w, h) = grid(triangles);
                (w + 1) * (h + 1)
            }
            4 => 3 * triangles,
            _ => triangles + 2,
        }
    }

    fn indices(&self, triangles: usize) -> Vec<u32> {
        if !self.shared {
            return (0..self.vertices(triangles) as u32).collect();
        }
        let (w, h) = grid(triangles);
        let at = |x: usize, y: usize| (y * (w + 1) + x) as u32;
        let mut list = Vec::new();
        for y in 0..h {
            for x in 0..w {
                let (a, b, c, d) = (at(x, y), at(x + 1, y), at(x, y + 1), at(x + 1, y + 1));
                list.extend([a, b, c, b, d, c]);
            }
        }
        list
    }

    /// The least ratio to the Rust that a full run asks of each size.
    pub fn bar(&self) -> f64 {
        match self {
            Mix { texcoord: SHORT | FIXED, .. } | Mix { color: Some(FLOAT), .. } => 1.5,
            Mix { mode: 4, shared: false, .. } => 6.0,
            _ => 2.2,
        }
    }

    /// The calls and bytes of this mix with so many triangles.
    pub fn work(&self, triangles: usize) -> Work {
        let part = triangles.min(PART);
        let parts = triangles / part;
        let mut numbers = Numbers(7);
        let mut maker = Maker { mix: self, first: matrices(), guest: vec![0; 16], name: 1 };
        let draw = maker.draw(part);
        let mut again = Vec::new();
        for _ in 0..parts {
            let pointers = maker.arrays(&mut numbers, self.vertices(part));
            if parts == 1 {
                maker.first.extend(pointers);
            } else {
                again.extend(pointers);
            }
            again.push(Call::Draw(draw.clone()));
        }
        Work { first: maker.first, again, guest: maker.guest, triangles, last: part }
    }
}

/// A frame of many draws, the mixes by turns: each draw has arrays and a translation of its own.
pub fn frame(mixes: &[Mix], draws: usize, triangles: usize) -> Work {
    let mut numbers = Numbers(7);
    let mut maker = Maker { mix: &mixes[0], first: Vec::new(), guest: vec![0; 16], name: 1 };
    let mut again = matrices();
    for i in 0..draws {
        maker.mix = &mixes[i % mixes.len()];
        again.extend([Call::Push, Call::Translate(i as f32 / draws as f32, 0.0, 0.0)]);
        again.extend(maker.arrays(&mut numbers, maker.mix.vertices(triangles)));
        again.push(Call::Draw(maker.draw(triangles)));
        again.push(Call::Pop);
    }
    let Maker { first, guest, .. } = maker;
    Work { first, again, guest, triangles: draws * triangles, last: triangles }
}

struct Maker<'a> {
    mix: &'a Mix,
    first: Vec<Call>,
    guest: Vec<u8>,
    name: u32,
}

impl Maker<'_> {
    /// Bytes put into guest memory, and their address.
    fn guest(&mut self, bytes: &[u8]) -> u32 {
        let at = self.guest.len();
        self.guest.extend(bytes);
        BASE + at as u32
    }

    /// A draw, whose indices are where the mix has them.
    fn draw(&mut self, triangles: usize) -> Draw {
        let list = self.mix.indices(triangles);
        let shorts: Vec<u8> = list.iter().flat_map(|i| (*i as u16).to_le_bytes()).collect();
        let count = list.len() as u32;
        let indices = match self.mix.source {
            Source::Lent => Indices::Lent(list),
            Source::Range => Indices::Range(0, count),
            Source::Shorts => Indices::Stored(count, USHORT, self.guest(&shorts)),
            Source::Elements => {
                self.first.push(Call::Bind(ELEMENTS, 99));
                self.first.push(Call::Data(ELEMENTS, shorts));
                Indices::Stored(count, USHORT, 0)
            }
        };
        Draw { mode: self.mix.mode, stages: (1 << self.mix.stages) - 1, indices }
    }

    /// Bytes for an array: in a buffer that is then bound, or in guest memory. Gives the pointer.
    fn place(&mut self, bytes: Vec<u8>) -> u32 {
        if !self.mix.buffered {
            return self.guest(&bytes);
        }
        self.first.push(Call::Bind(ARRAY, self.name));
        self.first.push(Call::Data(ARRAY, bytes));
        self.name += 1;
        0
    }

    fn arrays(&mut self, numbers: &mut Numbers, vertices: usize) -> Vec<Call> {
        let ty = self.mix.position;
        let at = self.place(numbers.array(ty, 3, vertices));
        let mut calls = vec![Call::VertexPointer(3, ty, 0, at), Call::ClientState(0x8074, true)];
        if self.mix.buffered {
            self.first.append(&mut calls);
        }
        if let Some(ty) = self.mix.color {
            let at = self.place(numbers.array(ty, 4, vertices));
            calls.extend([Call::ColorPointer(4, ty, 0, at), Call::ClientState(0x8076, true)]);
            if self.mix.buffered {
                self.first.append(&mut calls);
            }
        }
        for unit in 0..self.mix.stages {
            let ty = self.mix.texcoord;
            let at = self.place(numbers.array(ty, 2, vertices));
            calls.push(Call::ClientUnit(unit));
            calls.extend([Call::TexcoordPointer(2, ty, 0, at), Call::ClientState(0x8078, true)]);
            if self.mix.buffered {
                self.first.append(&mut calls);
            }
        }
        calls
    }
}

/// A perspective, a turned and moved model, and a texture matrix that is not IDENTITY.
pub fn matrices() -> Vec<Call> {
    let turned = [0.8, 0.6, 0.0, 0.0, -0.6, 0.8, 0.0, 0.0, 0.0, 0.0, 1.0, 0.0, 0.1, 0.2, 0.3, 1.0];
    vec![
        Call::Mode(0x1701),
        Call::Frustum([-1.0, 1.0, -1.0, 1.0, 1.0, 100.0]),
        Call::Mode(0x1702),
        Call::Load(turned),
        Call::Mode(0x1700),
        Call::Load(turned),
        Call::Translate(0.5, 0.25, -3.0),
        Call::Color([0.5, 0.25, 0.75, 1.0]),
    ]
}

/// All mixes: the common ones, then each with one thing changed.
pub fn all() -> Vec<Mix> {
    let sizes = vec![100, 10_000, 100_000];
    let base = Mix {
        name: String::new(),
        mode: 4,
        source: Source::Lent,
        position: FLOAT,
        color: Some(UBYTE),
        texcoord: FLOAT,
        stages: 0,
        shared: false,
        buffered: false,
        common: true,
        sizes,
    };
    let mut mixes = Vec::new();
    for (position, named) in [(FLOAT, "f32"), (SHORT, "short")] {
        for stages in [0, 1] {
            for shared in [false, true] {
                let kind = if shared { "each vertex six times" } else { "unshared" };
                let name = format!("{named}, byte colours, {stages} stages, list, {kind}");
                mixes.push(Mix { name, position, stages, shared, ..base.clone() });
            }
        }
    }
    let one = Mix { stages: 1, ..base.clone() };
    let mut add = |name: &str, mix: Mix| mixes.push(Mix { name: name.into(), ..mix });
    add("strip, f32, byte colours, 1 stage", Mix { mode: 5, ..one.clone() });
    add("fan, f32, byte colours, 1 stage", Mix { mode: 6, ..one.clone() });
    add("range, list", Mix { source: Source::Range, ..one.clone() });
    add("range, strip", Mix { source: Source::Range, mode: 5, ..one.clone() });
    add("guest shorts, list, unshared", Mix { source: Source::Shorts, ..one.clone() });
    add(
        "guest shorts, list, six times",
        Mix { source: Source::Shorts, shared: true, ..one.clone() },
    );
    add(
        "element buffer, list, six times",
        Mix { source: Source::Elements, shared: true, sizes: vec![100, 600], ..one.clone() },
    );
    add(
        "arrays in buffers, list, unshared",
        Mix { buffered: true, sizes: vec![100], ..one.clone() },
    );
    let rare = Mix { common: false, ..one.clone() };
    add("fixed, byte colours, 1 stage", Mix { position: FIXED, ..rare.clone() });
    add("byte, byte colours, 1 stage", Mix { position: BYTE, ..rare.clone() });
    add("f32, no colour array, 0 stages", Mix { color: None, stages: 0, ..rare.clone() });
    add("f32, no colour array, 1 stage", Mix { color: None, ..rare.clone() });
    add("f32, byte colours, 4 stages, unshared", Mix { stages: 4, ..rare.clone() });
    add("f32, byte colours, 4 stages, six times", Mix { stages: 4, shared: true, ..rare.clone() });
    add(
        "short, byte colours, 4 stages, strip",
        Mix { position: SHORT, stages: 4, mode: 5, ..rare.clone() },
    );
    let mesh = Mix { shared: true, ..rare };
    let short = Mix { texcoord: SHORT, ..mesh.clone() };
    add("f32, byte colours, 1 stage of short coordinates, six times", short);
    let fixed = Mix { texcoord: FIXED, ..mesh.clone() };
    add("f32, byte colours, 1 stage of fixed coordinates, six times", fixed);
    add("f32, f32 colours, 1 stage, six times", Mix { color: Some(FLOAT), ..mesh });
    mixes
}

/// The mix of that name.
pub fn named(name: &str) -> Mix {
    all().into_iter().find(|mix| mix.name == name).expect("there is such a mix")
}
