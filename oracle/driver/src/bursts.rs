//! Bursts: sets of channels written as frames one behind the other, all of them or none. The Rust has no burst: it writes the frame of each set by a
//! call of its own, behind the one before, up to the first that it refuses. What it can't be asked is by the rules (RULES 1 and 17).
use crate::gen::{hex, Rng, ADDRESSES};
use crate::ours::{self, Answer};
use crate::records::{edges, number_of, RECORDS};
use crate::report::{Family, Report};
use std::fmt;
use std::ops::Range;
use uf_crsf::packets::{write_packet_to_buffer, RcChannelsPacked};
use uf_crsf::{CrsfParsingError, PacketAddress};

/// The most sets of a burst.
pub const SETS: usize = 8;
/// The channels of a set.
pub const CHANNELS: usize = 16;
/// The bytes of a set's frame.
pub const FRAME: usize = 26;
/// How many bytes stand beside the buffer, on each side of it.
const BESIDE: usize = 3;

/// One call: `count` sets at the front of the numbers, into a buffer of `len` bytes.
#[derive(Clone)]
struct Burst {
    dest: u8,
    numbers: Vec<u16>,
    count: usize,
    len: usize,
    /// From which the bytes come that stand in the buffer and beside it.
    fill: u8,
}

/// What is answered, and all bytes afterwards: those of the buffer and those beside it.
type Written = (Answer, Vec<u8>);

/// What ours is held against: its name, and what it writes.
type Side = (&'static str, fn(&Burst) -> Written);

const RUST: Side = ("the Rust", Burst::rust);
const RULES: Side = ("the rules", Burst::by_rules);

impl fmt::Display for Burst {
    fn fmt(&self, f: &mut fmt::Formatter<'_>) -> fmt::Result {
        let Burst { dest, numbers, count, len, .. } = self;
        let shown = &numbers[..numbers.len().min(CHANNELS * (SETS + 1))];
        write!(f, "a burst of {count} sets from {} numbers {shown:?} to {dest:02X} in {len} bytes and {BESIDE} on each side", numbers.len())
    }
}

impl Burst {
    fn bytes_before(&self) -> Vec<u8> {
        (0..self.len + 2 * BESIDE).map(|i| self.fill.wrapping_add((i * 37) as u8)).collect()
    }

    fn lent(&self) -> Range<usize> {
        BESIDE..BESIDE + self.len
    }

    fn ours(&self) -> Written {
        let mut bytes = self.bytes_before();
        (ours::write_rc_channels_burst(&mut bytes[self.lent()], self.dest, &self.numbers, self.count), bytes)
    }

    /// The Rust's frames, and how many bytes they have together; or the first refusal, behind the frames before it.
    fn rust(&self) -> Written {
        fn one_by_one<'n>(sets: impl Iterator<Item = &'n [u16]>, address: PacketAddress, buffer: &mut [u8]) -> Result<usize, CrsfParsingError> {
            let mut at = 0;
            for set in sets {
                let record = RcChannelsPacked(set.try_into().expect("a set has sixteen channels"));
                at += write_packet_to_buffer(&mut buffer[at..], address, &record)?;
            }
            Ok(at)
        }
        let mut bytes = self.bytes_before();
        let sets = self.numbers.chunks_exact(CHANNELS).take(self.count);
        // The Rust's caller can't name an unlisted address: its own conversion refuses it.
        let answer = match PacketAddress::try_from(self.dest) {
            Err(_) => Answer::refusal(ours::BAD_ADDRESS),
            Ok(address) => match one_by_one(sets, address, &mut bytes[self.lent()]) {
                Ok(written) => Answer::wrote(written),
                Err(refusal) => Answer::refusal(number_of(refusal)),
            },
        };
        (answer, bytes)
    }

    /// The first refusal that applies, in the order 7, 4, 6, 5.
    fn refusal(&self) -> Option<Answer> {
        if !ADDRESSES.contains(&self.dest) {
            return Some(Answer::refusal(ours::BAD_ADDRESS));
        }
        if self.count > SETS || self.numbers.len() < CHANNELS * self.count {
            return Some(Answer::refusal(ours::INVALID_PAYLOAD_LENGTH));
        }
        if let Some(at) = self.numbers[..CHANNELS * self.count].iter().position(|&channel| channel > 2047) {
            return Some(Answer { number: ours::CHANNEL_RANGE, first: (at / CHANNELS) as u8, second: (at % CHANNELS) as u8, ..Answer::default() });
        }
        (self.len < FRAME * self.count).then(|| Answer::refusal(ours::BUFFER_OVERFLOW))
    }

    /// A refusal, and no byte changed; else what the Rust writes.
    fn by_rules(&self) -> Written {
        self.refusal().map_or_else(|| self.rust(), |refusal| (refusal, self.bytes_before()))
    }

    /// Whether the Rust and ours are to agree: both write all, or refuse the address, or both have no room for the first frame.
    fn is_as_the_rust(&self) -> bool {
        match self.refusal() {
            None => true,
            Some(refusal) => refusal.number == ours::BAD_ADDRESS || refusal.number == ours::BUFFER_OVERFLOW && self.len < FRAME,
        }
    }

    /// Whether our answer and all bytes are that side's.
    fn agrees_with(&self, (_, written): Side) -> bool {
        written(self) == self.ours()
    }

    fn told(&self, (name, written): Side) -> String {
        let told = |(answer, bytes): Written| format!("{answer:?} and {}", hex(&bytes));
        format!("{self}: {name} {}, ours {}", told(written(self)), told(self.ours()))
    }

    /// Takes sets off the end, then the numbers behind the sets, and makes the others 0, as long as something still differs.
    fn smallest(&self, side: Side) -> String {
        let mut b = self.clone();
        while (1..=SETS).contains(&b.count) {
            let fewer = Burst { count: b.count - 1, ..b.clone() };
            if fewer.agrees_with(side) {
                break;
            }
            b = fewer;
        }
        let mut fewer = b.clone();
        fewer.numbers.truncate(b.count.saturating_mul(CHANNELS));
        if !fewer.agrees_with(side) {
            b = fewer;
        }
        for i in 0..b.numbers.len() {
            let was = std::mem::replace(&mut b.numbers[i], 0);
            if b.agrees_with(side) {
                b.numbers[i] = was;
            }
        }
        b.told(side)
    }
}

struct Bursts<'f> {
    family: &'f mut Family,
    rng: Rng,
}

impl Bursts<'_> {
    fn same(&mut self, burst: &Burst, side: Side) {
        self.family.compared(1);
        if !burst.agrees_with(side) {
            self.family.differs(|| burst.smallest(side));
        }
    }

    fn as_the_rust(&mut self, burst: &Burst) {
        assert!(burst.is_as_the_rust(), "{burst} is compared in a family of its own");
        self.same(burst, RUST);
    }

    /// What the Rust does otherwise: ours is held against the rules, and its difference from the Rust is counted as listed.
    fn not_as_the_rust(&mut self, burst: &Burst, listed: bool) {
        self.same(burst, RULES);
        if !burst.agrees_with(RUST) {
            self.family.differs_as(listed, || burst.smallest(RUST));
        }
    }

    /// So many channels that may be written.
    fn channels(&mut self, count: usize) -> Vec<u16> {
        (0..count).map(|_| RECORDS[1].random_field(&mut self.rng, 0) as u16).collect()
    }

    /// So many sets of channels that may be written, and numbers of any kind behind them.
    fn sets(&mut self, count: usize, behind: usize) -> Vec<u16> {
        let mut numbers = self.channels(CHANNELS * count);
        numbers.extend((0..behind).map(|_| self.rng.next() as u16));
        numbers
    }

    fn burst(&mut self, dest: u8, numbers: Vec<u16>, count: usize, len: usize) -> Burst {
        Burst { dest, numbers, count, len, fill: self.rng.byte() }
    }
}

pub fn compare(report: &mut Report, seed: u64, random: u64) {
    let some_fit = report.lists("a burst of channels into a buffer for some of its frames (the smallest: two sets into 26 bytes)");
    let spills = report.lists("channel 0 set to 2048, the others 0");
    let mut nth = 0;
    let mut run = |name, each: &dyn Fn(&mut Bursts<'_>)| {
        nth += 1;
        report.family(name, |family| each(&mut Bursts { family, rng: Rng::new(seed.wrapping_add(nth << 44)) }));
    };
    run("bursts written: every count and destination, edges of buffers", &at_edges);
    run("bursts written: each channel of each set at its edges", &each_channel);
    run("bursts written: random sets, buffers, numbers behind them", &|s| at_random(s, random));
    run("bursts into too short a buffer: the Rust writes what fits", &|s| too_short(s, some_fit));
    run("bursts with a channel above 2047: the Rust lets it spill", &|s| above(s, spills, random / 10));
    run("bursts of any count and numbers: by RULES 1 and 17 alone", &|s| any(s, random / 2));
}

/// Counts 0 to 8. The Rust and ours agree: buffers for some of the frames are left out.
fn at_edges(s: &mut Bursts<'_>) {
    let mut written = |dest, count, lens: &[usize], behind: &[usize]| {
        for (&len, &behind) in lens.iter().flat_map(|len| behind.iter().map(move |behind| (len, behind))) {
            let numbers = s.sets(count, behind);
            let burst = s.burst(dest, numbers, count, len);
            if burst.is_as_the_rust() {
                s.as_the_rust(&burst);
            }
        }
    };
    for (count, needed) in (0..=SETS).map(|count| (count, FRAME * count)) {
        for dest in 0..=255 {
            written(dest, count, &[0, 1, FRAME - 1, needed, needed + 1, SETS * FRAME, SETS * FRAME + 1], &[0, 1, CHANNELS]);
        }
        // Among those that are far longer: the low byte or the low word of each is too short.
        let lens = [needed + FRAME - 1, needed + FRAME, 255, 256, 257, 256 + 25, 65536, 65536 + 207];
        written(0xC8, count, &lens, &[0, 15, 17, 128, 256 - CHANNELS * count, 65536 - CHANNELS * count]);
    }
}

fn each_channel(s: &mut Bursts<'_>) {
    for (at, value) in (0..SETS * CHANNELS).flat_map(|at| edges(0, 2047).into_iter().map(move |value| (at, value))) {
        for others in [0, 2047] {
            let mut numbers = vec![others; SETS * CHANNELS];
            numbers[at] = value as u16;
            let burst = s.burst(0xC8, numbers, SETS, SETS * FRAME);
            s.as_the_rust(&burst);
        }
    }
    // One above 2047, behind the sets that are written: it changes nothing.
    for (count, value) in (0..=SETS).flat_map(|count| [2048, 65535].map(|value| (count, value))) {
        for at in CHANNELS * count..CHANNELS * (SETS + 1) {
            let mut numbers = vec![992; CHANNELS * (SETS + 1)];
            numbers[at] = value;
            let burst = s.burst(0xC8, numbers, count, SETS * FRAME);
            s.as_the_rust(&burst);
        }
    }
}

fn at_random(s: &mut Bursts<'_>, random: u64) {
    for _ in 0..random {
        let count = s.rng.below(SETS + 1);
        let dest = if s.rng.below(16) == 0 { s.rng.byte() } else { s.rng.one_of(&ADDRESSES) };
        let len = if s.rng.below(16) == 0 { s.rng.below(FRAME) } else { FRAME * count + s.rng.one_of(&[0, 0, 1, 7, 26, 40]) };
        let behind = s.rng.one_of(&[0, 0, 1, 15, 16, 40]);
        let numbers = s.sets(count, behind);
        let burst = s.burst(dest, numbers, count, len);
        s.as_the_rust(&burst);
    }
}

/// A buffer for some of the frames: the Rust writes those and refuses the next with 5, ours refuses with 5 and writes none.
fn too_short(s: &mut Bursts<'_>, listed: bool) {
    for (count, len) in (2..=SETS).flat_map(|count| (FRAME..FRAME * count).map(move |len| (count, len))) {
        for dest in ADDRESSES.into_iter().chain([0x01, 0xC9]) {
            let numbers = s.sets(count, 0);
            let burst = s.burst(dest, numbers, count, len);
            s.not_as_the_rust(&burst, listed);
            // What is listed of the Rust.
            if ADDRESSES.contains(&dest) {
                let (_, those_that_fit) = Burst { count: len / FRAME, ..burst.clone() }.rust();
                let refused = Answer::refusal(ours::BUFFER_OVERFLOW);
                s.family.same((refused, those_that_fit), burst.rust(), || format!("the Rust's own frames of {burst}"));
            }
        }
    }
}

/// A channel above 2047: the Rust lets it spill into its neighbours, ours refuses with 6, tells the set and the channel, and writes none.
fn above(s: &mut Bursts<'_>, listed: bool, random: u64) {
    for (count, at) in (1..=SETS).flat_map(|count| (0..CHANNELS * count).map(move |at| (count, at))) {
        for (value, dest) in [2048, 2049, 4095, 4096, 32768, 65535].into_iter().flat_map(|value| [0xC8, 0xC9].map(|dest| (value, dest))) {
            for len in [0, FRAME - 1, FRAME * count - 1, FRAME * count, FRAME * count + 1] {
                let mut numbers = s.sets(count, 0);
                numbers[at] = value;
                let burst = s.burst(dest, numbers, count, len);
                s.not_as_the_rust(&burst, listed);
                // What is listed of the Rust: it writes them all the same.
                if dest == 0xC8 && len >= FRAME * count {
                    s.family.same(Answer::wrote(FRAME * count), burst.rust().0, || format!("the Rust's own frames of {burst}"));
                }
            }
        }
    }
    // Several: the first of them is told.
    for _ in 0..random {
        let count = 1 + s.rng.below(SETS);
        let mut numbers = s.sets(count, 20);
        for _ in 0..1 + s.rng.below(4) {
            numbers[s.rng.below(CHANNELS * count)] = s.rng.within(2048, 65535) as u16;
        }
        let len = s.rng.below(FRAME * (SETS + 1));
        let burst = s.burst(0xC8, numbers, count, len);
        s.not_as_the_rust(&burst, listed);
    }
}

/// Too many sets, too few numbers, and every refusal beside every other: which is given first is by the rules.
fn any(s: &mut Bursts<'_>, random: u64) {
    // Among those that are far more: the low byte, word or half of each is a count that may be written, or that of sixteen times it is.
    let far = [255, 256, 256 + 1, 256 + 8, 65536 + 1, 1 << 31, (1 << 32) + 1, 1 << 59, 1 << 60, (1 << 60) + 1, (1 << 63) + 8, usize::MAX];
    for (count, dest) in (0..=12).chain([16]).chain(far).flat_map(|count| [0xC8, 0x00, 0xC9].map(|dest| (count, dest))) {
        for given in [0_usize, 1, 15, 16, 17, 31, 32, 127, 128, 129, 143, 144, 145, 160, 256] {
            for len in [0, FRAME - 1, FRAME, SETS * FRAME - 1, SETS * FRAME, (SETS + 1) * FRAME, 512] {
                // Channels that may be written; the first of them above 2047; the last.
                for above in [given, 0, given.saturating_sub(1)] {
                    let mut numbers = s.channels(given);
                    numbers.iter_mut().skip(above).take(1).for_each(|number| *number = 2048);
                    let burst = s.burst(dest, numbers, count, len);
                    s.same(&burst, RULES);
                }
            }
        }
    }
    /// About as many as are needed, or any.
    fn near(r: &mut Rng, needed: usize) -> usize {
        match r.below(3) {
            0 => r.below(needed + 40),
            _ => (needed + r.one_of(&[0, 1, 2, 30])).saturating_sub(1),
        }
    }
    for _ in 0..random {
        let count = s.rng.below(SETS + 3);
        let (given, len) = (near(&mut s.rng, CHANNELS * count), near(&mut s.rng, FRAME * count));
        let mut numbers = s.channels(given);
        for _ in 0..s.rng.one_of(&[0, 0, 0, 1, 2]).min(given) {
            numbers[s.rng.below(given)] = s.rng.within(2048, 65535) as u16;
        }
        let dest = if s.rng.below(8) == 0 { s.rng.byte() } else { s.rng.one_of(&ADDRESSES) };
        let burst = s.burst(dest, numbers, count, len);
        s.same(&burst, RULES);
    }
}
