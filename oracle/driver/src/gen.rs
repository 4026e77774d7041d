//! Inputs: random numbers from a seed, frames, damaged frames, streams.

/// A xorshift generator (Marsaglia's 13, 7, 17), so that a seed gives the same inputs everywhere.
#[derive(Clone)]
pub struct Rng(u64);

impl Rng {
    pub fn new(seed: u64) -> Rng {
        let mut r = Rng(seed.wrapping_mul(0x9E37_79B9_7F4A_7C15) | 1);
        for _ in 0..8 {
            r.next();
        }
        r
    }
    pub fn next(&mut self) -> u64 {
        self.0 ^= self.0 << 13;
        self.0 ^= self.0 >> 7;
        self.0 ^= self.0 << 17;
        self.0
    }
    pub fn byte(&mut self) -> u8 {
        (self.next() >> 29) as u8
    }
    /// One of 0 up to n - 1.
    pub fn below(&mut self, n: usize) -> usize {
        ((self.next() >> 11) % n as u64) as usize
    }
    pub fn one_of<T: Copy>(&mut self, from: &[T]) -> T {
        from[self.below(from.len())]
    }
    pub fn fill(&mut self, bytes: &mut [u8]) {
        for b in bytes {
            *b = self.byte();
        }
    }
    /// One of lo up to hi.
    pub fn within(&mut self, lo: i64, hi: i64) -> i64 {
        lo.wrapping_add(((self.next() >> 3) % (hi.wrapping_sub(lo) as u64 + 1)) as i64)
    }
}

/// The listed addresses (RULES 3).
pub const ADDRESSES: [u8; 24] = [
    0x00, 0x0E, 0x10, 0x12, 0x13, 0x14, 0x80, 0x90, 0x91, 0x92, 0x93, 0x94, 0x95, 0x96, 0x97, 0xC0, 0xC2, 0xC4, 0xC8, 0xCC, 0xCE, 0xEA, 0xEC, 0xEE,
];

/// Bytes on both sides of each test that the framing makes: addresses and their neighbours, lengths 1, 2, 3, 61 to 63, the ends.
pub const EDGES: [u8; 32] = [
    0x00, 0x01, 0x02, 0x03, 0x04, 0x0D, 0x0E, 0x0F, 0x10, 0x11, 0x12, 0x14, 0x15, 0x3D, 0x3E, 0x3F, 0x40, 0x7F, 0x80, 0x8F, 0x90, 0x97, 0x98, 0xC0,
    0xC8, 0xC9, 0xCE, 0xD5, 0xEA, 0xEE, 0xEF, 0xFF,
];

/// The check byte, bit by bit: for making inputs.
pub fn check_byte(bytes: &[u8]) -> u8 {
    let mut r = 0u8;
    for b in bytes {
        r ^= b;
        for _ in 0..8 {
            r = if r & 0x80 != 0 { (r << 1) ^ 0xD5 } else { r << 1 };
        }
    }
    r
}

/// A frame. `body` is its type and payload, 1 to 61 bytes.
pub fn frame(address: u8, body: &[u8]) -> Vec<u8> {
    let mut f = vec![address, body.len() as u8 + 1];
    f.extend_from_slice(body);
    f.push(check_byte(body));
    f
}

/// A frame of any listed address and length, its body full of bytes that look like starts.
pub fn random_frame(r: &mut Rng) -> Vec<u8> {
    let n = 1 + r.below(61);
    let address = r.one_of(&ADDRESSES);
    let body: Vec<u8> = (0..n).map(|_| if r.below(3) == 0 { r.one_of(&EDGES) } else { r.byte() }).collect();
    frame(address, &body)
}

/// A frame whose body holds a frame, and so on inwards; the outer ones with a wrong check byte as often as not.
pub fn nested_frame(r: &mut Rng) -> Vec<u8> {
    let n = 1 + r.below(6);
    let mut inner = frame(r.one_of(&ADDRESSES), &(0..n).map(|_| r.byte()).collect::<Vec<u8>>());
    loop {
        let before = r.below(6);
        let after = r.below(4);
        if before + inner.len() + after + 1 > 61 || r.below(6) == 0 {
            return inner;
        }
        let mut body: Vec<u8> = (0..before + 1).map(|_| r.one_of(&EDGES)).collect();
        body.extend_from_slice(&inner);
        body.extend((0..after).map(|_| r.byte()));
        let mut f = frame(r.one_of(&ADDRESSES), &body);
        if r.below(2) == 0 {
            *f.last_mut().expect("a frame has bytes") ^= 1 + r.byte() % 255;
        }
        inner = f;
    }
}

/// A damaged copy: a bit flipped, a byte changed, lost, put in, or the end cut off.
pub fn damaged(r: &mut Rng, f: &[u8]) -> Vec<u8> {
    let mut d = f.to_vec();
    let at = r.below(d.len());
    match r.below(5) {
        0 => d[at] ^= 1 << r.below(8),
        1 => d[at] = r.byte(),
        2 => drop(d.remove(at)),
        3 => d.insert(at, r.byte()),
        _ => d.truncate(at),
    }
    d
}

/// At least `len` bytes of frames, nested and damaged ones, runs of addresses, edge bytes and noise.
pub fn stream(r: &mut Rng, len: usize) -> Vec<u8> {
    let mut s = vec![];
    while s.len() < len {
        match r.below(10) {
            0..=3 => s.extend(random_frame(r)),
            4 => {
                let f = random_frame(r);
                s.extend(damaged(r, &f));
            }
            5 => s.extend(nested_frame(r)),
            6 => {
                let f = nested_frame(r);
                s.extend(damaged(r, &f));
            }
            7 => {
                let a = r.one_of(&ADDRESSES);
                let n = r.below(80);
                s.extend(std::iter::repeat(a).take(n));
            }
            8 => {
                let n = r.below(20);
                s.extend((0..n).map(|_| r.one_of(&EDGES)));
            }
            _ => {
                let n = r.below(20);
                s.extend((0..n).map(|_| r.byte()));
            }
        }
    }
    s
}

/// The types and payloads of what a receiver sends: mostly channels (26 bytes), then link statistics, GPS and battery.
pub const TYPICAL: [(u8, usize); 8] = [(0x16, 22), (0x16, 22), (0x14, 10), (0x16, 22), (0x16, 22), (0x02, 15), (0x16, 22), (0x08, 8)];

/// Such frames with random fields, at least `len` bytes.
pub fn typical(r: &mut Rng, len: usize) -> Vec<u8> {
    let mut s = vec![];
    for (kind, payload) in TYPICAL.iter().cycle() {
        if s.len() >= len {
            break;
        }
        let mut body = vec![*kind];
        body.extend((0..*payload).map(|_| r.byte()));
        s.extend(frame(0xC8, &body));
    }
    s
}

/// A position: 0, any, one below a power of two, which a stream passes, or one of the last.
pub fn position(r: &mut Rng) -> u64 {
    let near = r.below(200) as u64;
    match r.below(4) {
        0 => 0,
        1 => r.next() >> r.below(64),
        2 => (1_u64 << r.below(64)).wrapping_sub(near),
        _ => u64::MAX - near,
    }
}

/// A number in groups of seven bits, lowest first (RULES 9).
pub fn groups(mut number: u64) -> Vec<u8> {
    let mut all = vec![];
    while number >= 0x80 {
        all.push(number as u8 | 0x80);
        number >>= 7;
    }
    all.push(number as u8);
    all
}

/// The saved form of a parser (RULES 9), from the rules alone.
pub fn saved_form(position: u64, held: &[u8]) -> Vec<u8> {
    [&[0x40], &groups(position)[..], &older_form(held)].concat()
}

/// The form that was saved before there were positions, and is restored at 0.
pub fn older_form(held: &[u8]) -> Vec<u8> {
    [&[held.len() as u8], held].concat()
}

/// An entry of a kit log (RULES 16), from the rules alone: seconds and length in groups of seven bits, and the frame.
pub fn log_entry(seconds: u32, frame: &[u8]) -> Vec<u8> {
    [&groups(seconds.into())[..], &groups(frame.len() as u64), frame].concat()
}

/// Seconds since the entry before, as in a log that is written while frames come: a few, and now and then up to hours.
pub fn seconds(r: &mut Rng) -> u32 {
    if r.below(16) == 0 {
        r.below(20_000) as u32
    } else {
        r.below(4) as u32
    }
}

pub fn hex(bytes: &[u8]) -> String {
    bytes.iter().map(|b| format!("{b:02X}")).collect::<Vec<_>>().join(" ")
}
