//! The stream call: the Rust's parser and the port's, fed the same windows of the same bytes, every answer compared.
//!
//! The Rust has no positions. They are counted here, from what it took and dropped: an answer begins behind all bytes that were dropped before it, since
//! the reset, or since the position that was restored.
use crate::gen::{self, hex, Rng, ADDRESSES, EDGES};
use crate::ours::{self, Answer, Places, State};
use crate::report::{Family, Report};
use uf_crsf::{CrsfParser, CrsfStreamError};

/// One thing that a host does.
#[derive(Clone, Copy, Debug, PartialEq)]
enum Op {
    /// A call on that many of the unread bytes, or on all where there are fewer.
    Call(usize),
    /// A reset: what is held is forgotten on both sides.
    Reset,
    /// The port's state is saved and restored into another that is full of old bytes. The Rust goes on as it is.
    Saved,
    /// The same from a form of the held bytes that was not saved here: at that position, or the form that has none.
    Restored(Option<u64>),
}

/// What differed, in words.
pub struct Difference(String);

/// How often each kind of answer came up.
#[derive(Default)]
pub struct Tally {
    in_piece: u64,
    in_held: u64,
    /// By number.
    refused: [u64; 13],
    more: u64,
    resets: u64,
    saved: u64,
    restored: u64,
}

impl Tally {
    pub fn print(&self) {
        let [_, sync, length, crc, .., range] = self.refused;
        println!(
            "    of these: {} frames in the piece, {} among the held bytes, {sync} sync, {length} length, {crc} crc, {} ask for more, {range} past the last \
             position; {} resets, {} saves, {} restores of other forms",
            self.in_piece, self.in_held, self.more, self.resets, self.saved, self.restored
        );
    }
}

/// What a stream begins with: a state that holds nothing, and how many places are lent for the position of an answer.
#[derive(Clone, Copy, PartialEq)]
struct Begin {
    state: State,
    lent: usize,
}

impl Begin {
    fn position(&self) -> u64 {
        position_in(&self.state)
    }
}

/// The position that stands in a state.
fn position_in(state: &State) -> u64 {
    u64::from_be_bytes(*state.last_chunk().expect("a state ends with its position"))
}

/// Both parsers, on one byte string.
pub struct Both<'a> {
    bytes: &'a [u8],
    at: usize,
    held: usize,
    /// Where the first byte stands that the Rust holds, else the next one.
    position: u64,
    rust: CrsfParser,
    state: State,
    lent: usize,
    ops: &'a mut Vec<Op>,
    tally: &'a mut Tally,
}

/// What the Rust says of one call, as the port's entry would put it. Of a held frame, where it stands is the port's own affair.
fn as_answer(number: u8, taken: usize, first: u8, second: u8) -> Answer {
    Answer { number, taken: taken as u8, first, second, ..Answer::default() }
}

/// The number of a framing error, and what it carries.
pub fn carried(error: &CrsfStreamError) -> (u8, u8, u8) {
    match *error {
        CrsfStreamError::InvalidSync(b) => (ours::INVALID_SYNC, b, 0),
        CrsfStreamError::InvalidPacketLength(l) => (ours::INVALID_PACKET_LENGTH, l, 0),
        CrsfStreamError::InvalidCrc { calculated_crc, packet_crc } => (ours::INVALID_CRC, calculated_crc, packet_crc),
        ref other => panic!("{other:?} is no framing error"),
    }
}

impl<'a> Both<'a> {
    fn new(bytes: &'a [u8], begin: &Begin, ops: &'a mut Vec<Op>, tally: &'a mut Tally) -> Both<'a> {
        ops.clear();
        Both { bytes, at: 0, held: 0, position: begin.position(), rust: CrsfParser::new(), state: begin.state, lent: begin.lent, ops, tally }
    }

    /// How many bytes more there are positions for.
    fn room(&self) -> u64 {
        u64::MAX - self.position - self.held as u64
    }

    /// One call on both sides. Whether both ask for more, or ours refuses the piece because there are no positions for it.
    pub fn call(&mut self, window: usize) -> Result<bool, Difference> {
        self.ops.push(Op::Call(window));
        let input = &self.bytes[self.at..self.bytes.len().min(self.at.saturating_add(window))];
        let was = self.state;
        let mut places = Places::NEW;
        let got = ours::next_raw_packet(&mut self.state, input, &mut places.0[..self.lent]);
        if self.room() < input.len() as u64 {
            // By RULES 18 alone: the Rust would take it, and is not asked.
            self.tally.refused[usize::from(ours::POSITION_RANGE)] += 1;
            if (got, places, self.state) != (Answer::refusal(ours::POSITION_RANGE), Places::NEW, was) {
                let (len, room, state) = (input.len(), self.room(), hex(&self.state));
                return Err(Difference(format!("{len} bytes, positions for {room}: ours {got:?} at {places:?}, and its state is {state}")));
            }
            return Ok(true);
        }
        let mut left = input;
        let told = self.rust.next_raw_packet(&mut left);
        let taken = input.len() - left.len();
        let mut dropped = 1;
        let stop = told.is_none();
        let expected = match &told {
            None => {
                dropped = 0;
                self.tally.more += 1;
                as_answer(ours::MORE, taken, 0, 0)
            }
            Some(Ok(frame)) => {
                let frame = frame.as_slice();
                dropped = frame.len();
                let mut expected = as_answer(ours::FRAME, taken, 0, 0);
                expected.len = frame.len() as u8;
                let bytes = if input.as_ptr_range().contains(&frame.as_ptr()) {
                    self.tally.in_piece += 1;
                    input
                } else {
                    self.tally.in_held += 1;
                    expected.in_state = 1;
                    expected.at = got.at;
                    &self.state[..]
                };
                let from = usize::from(got.at);
                if bytes.get(from..from + frame.len()) != Some(frame) {
                    return Err(Difference(format!("the Rust's frame is {}, ours {got:?} of {}", hex(frame), hex(bytes))));
                }
                expected
            }
            Some(Err(error)) => {
                let (number, first, second) = carried(error);
                self.tally.refused[usize::from(number)] += 1;
                as_answer(number, taken, first, second)
            }
        };
        let began = if stop { Places::NEW } else { Places::told(self.lent, self.position) };
        if (got, places) != (expected, began) {
            return Err(Difference(format!("the Rust {expected:?} at {began:?}, ours {got:?} at {places:?}")));
        }
        self.at += taken;
        self.held = self.held + taken - dropped;
        self.position += dropped as u64;
        self.same_state()?;
        Ok(stop)
    }

    /// What the port holds is what the Rust has taken and not dropped, and its position is where that begins.
    fn same_state(&mut self) -> Result<(), Difference> {
        let expected = self.held();
        let count = ours::held(&self.state);
        let (start, end) = (usize::from(self.state[0]), usize::from(self.state[1]));
        let held = self.state[2..66].get(start..end).unwrap_or(&[]);
        if count != Answer::wrote(expected.len()) || held != expected {
            return Err(Difference(format!("the Rust holds {}, ours says {count:?} and holds {}", hex(expected), hex(held))));
        }
        let mut places = Places::NEW;
        let got = ours::position(&self.state, &mut places.0[..1]);
        let (position, written) = (self.position, position_in(&self.state));
        if (got, places, written) != (Answer::wrote(1), Places::told(1, position), position) {
            return Err(Difference(format!("the Rust is at {position}, ours says {got:?} and {places:?}, and {written} stands in its state")));
        }
        Ok(())
    }

    fn reset(&mut self) -> Result<(), Difference> {
        self.ops.push(Op::Reset);
        self.tally.resets += 1;
        self.rust.reset();
        let got = ours::reset(&mut self.state);
        if got != Answer::default() {
            return Err(Difference(format!("a reset says {got:?}")));
        }
        self.held = 0;
        self.position = 0;
        self.same_state()
    }

    fn held(&self) -> &'a [u8] {
        &self.bytes[self.at - self.held..self.at]
    }

    fn save_and_restore(&mut self) -> Result<(), Difference> {
        self.ops.push(Op::Saved);
        self.tally.saved += 1;
        let form = gen::saved_form(self.position, self.held());
        let mut out = [0u8; 80];
        let got = ours::save(&self.state, &mut out);
        if got != Answer::wrote(form.len()) || out[..form.len()] != form {
            return Err(Difference(format!("a save of {} says {got:?} and writes {}", hex(&form), hex(&out))));
        }
        self.state = [0xC8; 74];
        self.restore(&form)
    }

    /// A form of what is held, at another position, or the older form, which is at 0.
    pub fn restored(&mut self, position: Option<u64>) -> Result<(), Difference> {
        self.ops.push(Op::Restored(position));
        self.tally.restored += 1;
        let form = position.map_or_else(|| gen::older_form(self.held()), |position| gen::saved_form(position, self.held()));
        if position.is_some_and(|position| position.checked_add(self.held as u64).is_none()) {
            let got = ours::restore(&mut self.state, &form);
            if got != Answer::refusal(ours::BAD_STATE) {
                return Err(Difference(format!("a restore of {}, which ends past the last position, says {got:?}", hex(&form))));
            }
            return self.same_state();
        }
        self.position = position.unwrap_or(0);
        self.restore(&form)
    }

    fn restore(&mut self, form: &[u8]) -> Result<(), Difference> {
        let got = ours::restore(&mut self.state, form);
        if got != Answer::wrote(self.held) {
            return Err(Difference(format!("a restore of {} says {got:?}", hex(form))));
        }
        self.same_state()
    }

    fn apply(&mut self, op: Op) -> Result<(), Difference> {
        match op {
            Op::Call(window) => self.call(window).map(|_| ()),
            Op::Reset => self.reset(),
            Op::Saved => self.save_and_restore(),
            Op::Restored(position) => self.restored(position),
        }
    }

    /// The bytes up to `end` as one piece: calls on what is unread of it until both ask for more.
    fn piece(&mut self, end: usize) -> Result<(), Difference> {
        while !self.call(end - self.at)? {}
        Ok(())
    }

    /// Pieces of that many bytes, and a call on nothing at the end.
    fn pieces(&mut self, size: usize) -> Result<(), Difference> {
        let mut end = self.at;
        while end < self.bytes.len() {
            end = self.bytes.len().min(end + size);
            self.piece(end)?;
        }
        self.call(0).map(|_| ())
    }

    /// Cut after byte i + 1 where bit i is set.
    fn cut_by(&mut self, mask: u64) -> Result<(), Difference> {
        for i in 0..self.bytes.len().saturating_sub(1).min(64) {
            if mask >> i & 1 == 1 {
                self.piece(i + 1)?;
            }
        }
        self.piece(self.bytes.len())?;
        self.call(0).map(|_| ())
    }

    /// Random pieces, each read until both ask for more.
    pub fn random_pieces(&mut self, r: &mut Rng) -> Result<(), Difference> {
        let most = r.one_of(&[1, 3, 8, 20, 64, 200]);
        let mut end = self.at;
        while end < self.bytes.len() {
            end = self.bytes.len().min(end + 1 + r.below(most));
            self.piece(end)?;
        }
        self.call(0).map(|_| ())
    }

    /// Calls on windows of any length, none among them, as they come: answers are not waited for. Resets and saves midway.
    pub fn loosely(&mut self, r: &mut Rng, resets: bool) -> Result<(), Difference> {
        let most = r.one_of(&[2, 5, 16, 40, 100, 1000]);
        loop {
            let stop = self.call(r.below(most))?;
            if stop && (self.at == self.bytes.len() || self.room() == 0) {
                break;
            }
            match r.below(64) {
                0 if resets => self.reset()?,
                1 | 2 => self.save_and_restore()?,
                3 => {
                    let position = gen::position(r) >> 1;
                    self.restored(r.one_of(&[None, Some(position)]))?
                }
                _ => (),
            }
        }
        self.drain()
    }

    /// Pieces about as long as there are positions for, until none is left or all is read. At the last position, what a host may do there; then a new
    /// stream of the rest.
    pub fn to_the_last(&mut self, r: &mut Rng) -> Result<(), Difference> {
        while self.at < self.bytes.len() && self.room() > 0 {
            let room = self.room().min(self.bytes.len() as u64) as usize;
            let any = r.below(room + 1);
            self.call(r.one_of(&[any, room - 1, room, room + 1, room + 2]))?;
        }
        self.drain()?;
        self.call(1)?;
        self.save_and_restore()?;
        self.call(usize::MAX)?;
        self.reset()?;
        self.random_pieces(r)
    }

    /// Calls on nothing, until both ask for more.
    pub fn drain(&mut self) -> Result<(), Difference> {
        while !self.call(0)? {}
        Ok(())
    }
}

/// What a host did.
#[derive(Clone, PartialEq)]
struct Case {
    begin: Begin,
    bytes: Vec<u8>,
    ops: Vec<Op>,
}

impl Case {
    /// Does it once more. What differs, and the case up to there.
    fn rerun(mut self) -> Option<(Case, Difference)> {
        let (mut done, mut tally) = (vec![], Tally::default());
        let mut both = Both::new(&self.bytes, &self.begin, &mut done, &mut tally);
        let (last, difference) = self.ops.iter().enumerate().find_map(|(i, op)| Some((i, both.apply(*op).err()?)))?;
        self.ops.truncate(last + 1);
        Some((self, difference))
    }
}

/// Takes away bytes and ops, and makes windows, positions and bytes smaller, as long as something still differs.
fn smallest(case: Case) -> String {
    let Some(mut found) = case.rerun() else {
        return "differs, and not when run again".to_string();
    };
    fn attempt(found: &mut (Case, Difference), change: impl FnOnce(&mut Case)) -> bool {
        let mut tried = found.0.clone();
        change(&mut tried);
        tried != found.0 && tried.rerun().map(|still| *found = still).is_some()
    }
    loop {
        let before = found.0.clone();
        let mut size = before.bytes.len().max(before.ops.len()).max(1);
        while size > 0 {
            let mut i = 0;
            while i < found.0.bytes.len() {
                if !attempt(&mut found, |c| drop(c.bytes.drain(i..(i + size).min(c.bytes.len())))) {
                    i += size;
                }
            }
            let mut i = 0;
            while i < found.0.ops.len() {
                if !attempt(&mut found, |c| drop(c.ops.drain(i..(i + size).min(c.ops.len())))) {
                    i += size;
                }
            }
            size /= 2;
        }
        for i in 0..found.0.ops.len() {
            for less in [0, 1, 2, 4, found.0.bytes.len()] {
                if matches!(found.0.ops.get(i), Some(Op::Call(window)) if less < *window) {
                    attempt(&mut found, |c| c.ops[i] = Op::Call(less));
                }
            }
            if let Some(Op::Restored(Some(position))) = found.0.ops.get(i).copied() {
                for less in [0, position / 2] {
                    attempt(&mut found, |c| c.ops[i] = Op::Restored(Some(less)));
                }
            }
        }
        for i in 0..found.0.bytes.len() {
            for less in [0x00, 0x02, 0xC8] {
                if less < found.0.bytes[i] {
                    attempt(&mut found, |c| c.bytes[i] = less);
                }
            }
        }
        attempt(&mut found, |c| c.begin.state[66..].fill(0));
        attempt(&mut found, |c| c.begin.lent = 1);
        if found.0 == before {
            let (Case { begin, bytes, ops }, difference) = found;
            let from = format!("from position {}, {} places for positions", begin.position(), begin.lent);
            return format!("bytes {}, {from}, {ops:?}: at the last, {}", hex(&bytes), difference.0);
        }
    }
}

/// Compares streams, and counts.
pub struct Streams<'f> {
    family: &'f mut Family,
    tally: &'f mut Tally,
    ops: Vec<Op>,
    pub rng: Rng,
}

impl<'f> Streams<'f> {
    pub fn new(family: &'f mut Family, tally: &'f mut Tally, rng: Rng) -> Streams<'f> {
        Streams { family, tally, ops: vec![], rng }
    }
    /// A state in which nothing is held, with any bytes in its places and any place for nothing, at any position that leaves room for every stream.
    fn begin(&mut self) -> Begin {
        let mut state = [self.rng.one_of(&EDGES); 74];
        let at = self.rng.below(65) as u8;
        (state[0], state[1]) = (at, at);
        let position = gen::position(&mut self.rng) >> 1;
        state[66..].copy_from_slice(&position.to_be_bytes());
        Begin { state, lent: self.rng.one_of(&[1, 1, 1, 0, 2, 3]) }
    }
    pub fn compare(&mut self, bytes: &[u8], run: impl FnOnce(&mut Both<'_>) -> Result<(), Difference>) {
        let begin = self.begin();
        let outcome = run(&mut Both::new(bytes, &begin, &mut self.ops, self.tally));
        self.family.compared(self.ops.len() as u64);
        if outcome.is_err() {
            self.family.differs(|| smallest(Case { begin, bytes: bytes.to_vec(), ops: self.ops.clone() }));
        }
    }
    fn every_cut(&mut self, bytes: &[u8]) {
        for mask in 0..1u64 << bytes.len().saturating_sub(1) {
            self.compare(bytes, |b| b.cut_by(mask));
        }
    }
    /// Whole, in single bytes, and cut at random.
    fn some_cuts(&mut self, bytes: &[u8]) {
        self.compare(bytes, |b| b.pieces(usize::MAX / 2));
        self.compare(bytes, |b| b.pieces(1));
        let mut r = self.rng.clone();
        self.compare(bytes, |b| b.random_pieces(&mut r));
        self.compare(bytes, |b| b.loosely(&mut r, false));
        self.rng = r;
    }
}

/// Every string of n over the alphabet.
fn strings(alphabet: &[u8], n: usize, mut each: impl FnMut(&[u8])) {
    let mut digits = vec![0usize; n];
    let mut bytes = vec![alphabet[0]; n];
    loop {
        each(&bytes);
        let Some(i) = digits.iter().rposition(|&d| d + 1 < alphabet.len()) else { return };
        for j in i..n {
            digits[j] = if j == i { digits[j] + 1 } else { 0 };
            bytes[j] = alphabet[digits[j]];
        }
    }
}

/// A frame of this length byte, right or wrong in its check byte.
fn sample(r: &mut Rng, address: u8, length: u8, right: bool) -> Vec<u8> {
    let body: Vec<u8> = (0..length.max(2) - 1).map(|_| if r.below(4) == 0 { r.one_of(&EDGES) } else { r.byte() }).collect();
    let mut f = vec![address, length];
    f.extend_from_slice(&body);
    f.push(gen::check_byte(&body) ^ if right { 0 } else { 1 + r.byte() % 255 });
    f
}

pub fn compare(report: &mut Report, seed: u64, random_bytes: u64) {
    let mut tally = Tally::default();
    let all: Vec<u8> = (0..=255).collect();
    let mut nth = 0;
    let mut run = |report: &mut Report, name: &'static str, each: &mut dyn FnMut(&mut Streams<'_>)| {
        nth += 1;
        report.family(name, |family| each(&mut Streams::new(family, &mut tally, Rng::new(seed.wrapping_add(nth << 32)))));
    };
    run(report, "framing: every string of 0 to 2 bytes, every cut", &mut |s| {
        for n in 0..=2 {
            strings(&all, n, |bytes| s.every_cut(bytes));
        }
    });
    run(report, "framing: every string of 3 edge bytes, every cut", &mut |s| strings(&EDGES, 3, |bytes| s.every_cut(bytes)));
    run(report, "framing: C8 02 and every two bytes, every cut", &mut |s| {
        strings(&all, 2, |end| s.every_cut(&[0xC8, 0x02, end[0], end[1]]));
    });
    run(report, "framing: every string of 4 to 6 over 00 01 02 03 C8, every cut", &mut |s| {
        for n in 4..=6 {
            strings(&[0x00, 0x01, 0x02, 0x03, 0xC8], n, |bytes| s.every_cut(bytes));
        }
    });
    run(report, "framing: every first byte and length byte, ends about it", &mut |s| {
        for address in 0..=255 {
            for length in 0..=255 {
                let right = s.rng.below(2) == 0;
                let f = sample(&mut s.rng, address, length, right);
                for n in [2, 3, f.len() - 1, f.len(), f.len() + 1] {
                    let mut bytes = f.clone();
                    bytes.resize(n, 0xC8);
                    let mut r = s.rng.clone();
                    s.compare(&bytes, |b| if n % 2 == 0 { b.pieces(usize::MAX / 2) } else { b.random_pieces(&mut r) });
                    s.rng.next();
                }
            }
        }
    });
    run(report, "framing: frames of every address and length, cut at every place", &mut |s| {
        for address in ADDRESSES {
            for length in 2..=62 {
                let mut two = sample(&mut s.rng, address, length, address % 3 != 0);
                two.extend(sample(&mut s.rng, 0xC8, 2, true));
                for at in 0..two.len() {
                    s.compare(&two, |b| {
                        b.piece(at)?;
                        b.piece(b.bytes.len())?;
                        b.call(0).map(|_| ())
                    });
                }
            }
        }
    });
    run(report, "framing: frames of every length, each bit flipped", &mut |s| {
        for length in 2..=62u8 {
            let f = sample(&mut s.rng, 0xC8, length, true);
            for bit in 0..f.len() * 8 {
                let mut d = f.clone();
                d[bit / 8] ^= 1 << (bit % 8);
                d.extend_from_slice(&[0xC8, 2, 0, 0]);
                s.some_cuts(&d);
            }
        }
    });
    run(report, "framing: frames inside frames, and damaged copies", &mut |s| {
        for _ in 0..6000 {
            let mut bytes = gen::nested_frame(&mut s.rng);
            s.some_cuts(&bytes);
            let d = gen::damaged(&mut s.rng, &bytes);
            bytes.extend(d);
            s.some_cuts(&bytes);
        }
    });
    run(report, "framing: long runs of each byte", &mut |s| {
        for byte in 0..=255u8 {
            for n in [61, 62, 63, 64, 65, 66, 128, 200] {
                let mut bytes = vec![byte; n];
                s.some_cuts(&bytes);
                bytes.extend_from_slice(&[0xC8, 2, 0, 0]);
                s.compare(&bytes, |b| b.pieces(7));
            }
        }
    });
    run(report, "framing: streams cut off at every place, then another", &mut |s| {
        for _ in 0..40 {
            let bytes = gen::stream(&mut s.rng, 90);
            for at in 0..bytes.len() {
                let mut r = s.rng.clone();
                s.compare(&bytes, |b| {
                    b.piece(at)?;
                    b.reset()?;
                    b.call(0)?;
                    b.random_pieces(&mut r)
                });
                s.rng.next();
            }
        }
    });
    run(report, "framing: streams of 5 to 12 bytes, every cut", &mut |s| {
        for i in 0..160 {
            let mut bytes = gen::stream(&mut s.rng, 12);
            bytes.truncate(5 + i % 8);
            s.every_cut(&bytes);
            let mut frames: Vec<u8> = [gen::frame(0xC8, &[i as u8]), gen::frame(0x00, &[0x00, i as u8]), gen::frame(0xEE, &[0xC8, 2])].concat();
            frames.truncate(12);
            s.every_cut(&frames[i % 4..]);
        }
    });
    run(report, "framing: random streams, cuts, windows, resets, saves", &mut |s| {
        let mut bytes_left = random_bytes as i64;
        while bytes_left > 0 {
            let len = s.rng.one_of(&[30, 200, 1000, 4000]);
            let bytes = gen::stream(&mut s.rng, len);
            bytes_left -= bytes.len() as i64;
            let mut r = s.rng.clone();
            match r.below(4) {
                0 => s.compare(&bytes, |b| b.random_pieces(&mut r)),
                1 => s.compare(&bytes, |b| b.loosely(&mut r, false)),
                2 => s.compare(&bytes, |b| b.loosely(&mut r, true)),
                _ => s.compare(&bytes, |b| b.pieces(usize::MAX / 2)),
            }
            s.rng = r;
        }
    });
    tally.print();
}
