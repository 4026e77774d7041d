//! Kit logs, against a plain model: what a whole string says as a log, from the rules alone (RULES 16). Nothing of the archive is asked for what is
//! expected. Every call is compared with it: entries, seconds, frames and where they stand, refusals, bytes taken, and the state.
use crsf_host::{log_entry, log_start, LogError, LogReader, LOG_ENTRY_MAX};
use LogError::{BadState, BufferOverflow, InvalidFrame, InvalidLog};

const ADDRESSES: [u8; 24] =
    [0x00, 0x0E, 0x10, 0x12, 0x13, 0x14, 0x80, 0x90, 0x91, 0x92, 0x93, 0x94, 0x95, 0x96, 0x97, 0xC0, 0xC2, 0xC4, 0xC8, 0xCC, 0xCE, 0xEA, 0xEC, 0xEE];

/// The check byte, bit by bit (RULES 4.5).
fn check_byte(bytes: &[u8]) -> u8 {
    bytes.iter().fold(0, |rest, byte| (0..8).fold(rest ^ byte, |rest: u8, _| if rest & 0x80 == 0 { rest << 1 } else { rest << 1 ^ 0xD5 }))
}

fn is_one_whole_frame(bytes: &[u8]) -> bool {
    let n = bytes.len();
    (4..=64).contains(&n) && ADDRESSES.contains(&bytes[0]) && usize::from(bytes[1]) == n - 2 && bytes[n - 1] == check_byte(&bytes[2..n - 1])
}

/// A number in its shortest form.
fn number(mut number: u32) -> Vec<u8> {
    let mut bytes = vec![];
    while number > 0x7F {
        bytes.push(number as u8 | 0x80);
        number >>= 7;
    }
    bytes.push(number as u8);
    bytes
}

fn entry_bytes(seconds: u32, frame: &[u8]) -> Vec<u8> {
    [number(seconds), number(frame.len() as u32), frame.to_vec()].concat()
}

/// Where a reader stands: the places of the state that are in use, and beside them the held bytes.
#[derive(Clone, Debug, PartialEq)]
enum Stand {
    /// Stage 0, 1 or 2: which number, how many of its bytes have come, its value so far; of stage 2 the entry's seconds.
    Number {
        stage: u8,
        groups: u8,
        value: u32,
        seconds: u32,
    },
    Frame {
        size: usize,
        held: Vec<u8>,
        seconds: u32,
    },
    Ended,
    Refused(LogError),
}

const BOUNDARY: Stand = Stand::Number { stage: 1, groups: 0, value: 0, seconds: 0 };

impl Stand {
    /// The first eleven bytes of the state.
    fn fields(&self) -> [u8; 11] {
        let (stage, count, size, value, seconds) = match *self {
            Stand::Number { stage, groups, value, seconds } => (stage, groups, 0, value, seconds),
            Stand::Frame { size, ref held, seconds } => (3, held.len() as u8, size as u8, 0, seconds),
            Stand::Ended => (4, 0, 0, 0, 0),
            Stand::Refused(InvalidLog) => (5, 0, 0, 0, 0),
            Stand::Refused(_) => (6, 0, 0, 0, 0),
        };
        let (v, s) = (value.to_be_bytes(), seconds.to_be_bytes());
        [stage, count, size, v[0], v[1], v[2], v[3], s[0], s[1], s[2], s[3]]
    }
    fn held(&self) -> &[u8] {
        match self {
            Stand::Frame { held, .. } => held,
            _ => &[],
        }
    }
    /// What an end answers there: a log ends between entries and nowhere else.
    fn end(&self) -> Result<(), LogError> {
        match self {
            Stand::Refused(refusal) => Err(*refusal),
            Stand::Ended => Ok(()),
            _ if *self == BOUNDARY => Ok(()),
            _ => Err(InvalidLog),
        }
    }
}

#[derive(Clone, Debug, PartialEq)]
struct Entry {
    seconds: u32,
    /// Where its frame stands in the string.
    at: usize,
    len: usize,
}

/// What a string says as a log.
#[derive(Debug)]
struct Reading {
    entries: Vec<Entry>,
    behind: Stand,
    /// How many of its bytes are taken: of a refusal, up to and with the byte that is refused.
    taken: usize,
}

enum Number {
    Whole(u32),
    Unfinished(u8, u32),
    Malformed,
}

/// The number at `at`, which goes on behind it. It is judged at its last byte or its fifth, form first.
fn number_at(bytes: &[u8], at: &mut usize) -> Number {
    let mut value = 0u64;
    for groups in 0..5 {
        let Some(&byte) = bytes.get(*at) else { return Number::Unfinished(groups, value as u32) };
        *at += 1;
        value += u64::from(byte & 0x7F) << (7 * groups);
        if byte < 0x80 {
            let is_shortest = byte != 0 || groups == 0;
            return if is_shortest && value <= u64::from(u32::MAX) { Number::Whole(value as u32) } else { Number::Malformed };
        }
    }
    Number::Malformed
}

fn reading(bytes: &[u8]) -> Reading {
    let (mut entries, mut taken) = (vec![], 0);
    let behind = walk(bytes, &mut taken, &mut entries);
    Reading { entries, behind, taken }
}

fn walk(bytes: &[u8], at: &mut usize, entries: &mut Vec<Entry>) -> Stand {
    match number_at(bytes, at) {
        Number::Whole(1) => (),
        Number::Unfinished(groups, value) => return Stand::Number { stage: 0, groups, value, seconds: 0 },
        _ => return Stand::Refused(InvalidLog),
    }
    loop {
        let seconds = match number_at(bytes, at) {
            Number::Whole(seconds) => seconds,
            Number::Unfinished(groups, value) => return Stand::Number { stage: 1, groups, value, seconds: 0 },
            Number::Malformed => return Stand::Refused(InvalidLog),
        };
        let size = match number_at(bytes, at) {
            Number::Whole(size @ 4..=64) => size as usize,
            Number::Whole(_) => return Stand::Refused(InvalidFrame),
            Number::Unfinished(groups, value) => return Stand::Number { stage: 2, groups, value, seconds },
            Number::Malformed => return Stand::Refused(InvalidLog),
        };
        let first = *at;
        // The first byte that no valid frame of this size has there.
        for i in 0..size {
            let Some(&byte) = bytes.get(*at) else { return Stand::Frame { size, held: bytes[first..].to_vec(), seconds } };
            *at += 1;
            let is_fine = match i {
                0 => ADDRESSES.contains(&byte),
                1 => usize::from(byte) == size - 2,
                _ if i == size - 1 => byte == check_byte(&bytes[first + 2..first + i]),
                _ => true,
            };
            if !is_fine {
                return Stand::Refused(InvalidFrame);
            }
        }
        entries.push(Entry { seconds, at: first, len: size });
    }
}

/// Random numbers, the same each time.
struct Noise(u64);

impl Noise {
    fn next(&mut self) -> u32 {
        self.0 = self.0.wrapping_mul(6364136223846793005).wrapping_add(1442695040888963407);
        (self.0 >> 32) as u32
    }
    fn below(&mut self, n: usize) -> usize {
        self.next() as usize % n
    }
    fn byte(&mut self) -> u8 {
        self.next() as u8
    }
    fn frame(&mut self, size: usize) -> Vec<u8> {
        let mut frame = vec![ADDRESSES[self.below(24)], size as u8 - 2];
        frame.extend((3..size).map(|_| self.byte()));
        frame.push(check_byte(&frame[2..]));
        frame
    }
    fn seconds(&mut self) -> u32 {
        if self.below(3) == 0 {
            self.next() >> self.below(32)
        } else {
            SECONDS[self.below(SECONDS.len())]
        }
    }
}

const SECONDS: [u32; 15] = [0, 1, 127, 128, 129, 255, 16383, 16384, 2097151, 2097152, 268435455, 268435456, 0x7FFF_FFFF, 0x8000_0000, 0xFFFF_FFFF];

/// A string with what it says, and where a reader is behind each of its beginnings.
struct Text {
    bytes: Vec<u8>,
    said: Reading,
    behind: Vec<Stand>,
}

impl Text {
    fn new(bytes: Vec<u8>) -> Text {
        let said = reading(&bytes);
        let behind = (0..=bytes.len()).map(|n| if n < said.taken { reading(&bytes[..n]).behind } else { said.behind.clone() }).collect();
        Text { bytes, said, behind }
    }
    fn refusal(&self) -> Option<LogError> {
        match self.said.behind {
            Stand::Refused(refusal) => Some(refusal),
            _ => None,
        }
    }
}

/// A reader of a text's bytes, beside the model.
struct Both<'t> {
    text: &'t Text,
    reader: LogReader,
    /// The next byte.
    from: usize,
    /// How many entries were given.
    given: usize,
    /// Where noise comes from that spoils before each call what the state does not use, or none.
    spoils: Option<Noise>,
}

impl<'t> Both<'t> {
    fn new(text: &'t Text, spoils: Option<Noise>) -> Self {
        Both { text, reader: LogReader::new(), from: 0, given: 0, spoils }
    }

    /// Changes what the state does not use: fields that the stage has no use for, and the places beside the held bytes.
    fn spoil(&mut self) {
        let Some(noise) = &mut self.spoils else { return };
        let mut state = *self.reader.state();
        let stage = state[0];
        let held = if stage == 3 { usize::from(state[1]) } else { 0 };
        for (i, byte) in state.iter_mut().enumerate() {
            let is_used = match i {
                0 => true,
                1 => stage <= 3,
                2 => stage == 3,
                3..=6 => stage <= 2,
                7..=10 => stage == 2 || stage == 3,
                _ => i < 11 + held,
            };
            if !is_used {
                *byte = noise.byte();
            }
        }
        self.reader = LogReader::from_state(state).unwrap();
    }

    fn stands(&self, stand: &Stand) {
        let state = self.reader.state();
        assert_eq!(state[..11], stand.fields());
        assert_eq!(&state[11..11 + stand.held().len()], stand.held());
        assert_eq!(LogReader::from_state(*state).as_ref(), Ok(&self.reader));
    }

    /// One call on the bytes from the next one up to `end`. Whether it gave an entry, and there may be more in the piece.
    fn call(&mut self, end: usize) -> bool {
        self.spoil();
        let Text { bytes, said, behind } = self.text;
        let piece = &bytes[self.from..end];
        let mut input = piece;
        let answer = self.reader.next_entry(&mut input);
        let taken = piece.len() - input.len();
        assert!(taken <= 71);
        if let Some(entry) = said.entries.get(self.given).filter(|entry| entry.at + entry.len <= end) {
            let got = answer.unwrap().unwrap();
            let frame = &bytes[entry.at..entry.at + entry.len];
            assert_eq!((got.seconds, got.frame.as_bytes(), taken), (entry.seconds, frame, entry.at + entry.len - self.from));
            // Nothing is copied where the frame stands whole in the piece.
            let (lent, state) = (got.frame.as_bytes().as_ptr(), self.reader.state());
            assert_eq!(lent, if entry.at < self.from { state[11..].as_ptr() } else { frame.as_ptr() });
            self.given += 1;
            self.from += taken;
            self.stands(&BOUNDARY);
            return true;
        }
        if let Some(refusal) = self.text.refusal().filter(|_| said.taken <= end) {
            assert_eq!((answer, taken), (Err(refusal), said.taken - self.from));
        } else {
            assert_eq!((answer, taken), (Ok(None), end - self.from));
        }
        self.from += taken;
        self.stands(&behind[self.from]);
        false
    }

    /// A piece up to `end`, all of it. With a refusal the rest of it is not taken.
    fn piece(&mut self, end: usize) {
        if self.from <= end {
            while self.call(end) {}
        }
    }

    /// The caller says that the log ends; and what comes of it: ends, empty pieces and bytes behind, a reset.
    fn end(&mut self) {
        let answer = self.text.behind[self.from].end();
        let ended = answer.map_or_else(Stand::Refused, |()| Stand::Ended);
        for _ in 0..2 {
            self.spoil();
            assert_eq!(self.reader.end(), answer);
            self.stands(&ended);
            self.spoil();
            assert_eq!(self.reader.next_entry(&mut &[][..]), answer.map(|()| None));
            self.stands(&ended);
        }
        let refusal = answer.err().unwrap_or(InvalidLog);
        for byte in [0, 1, 0xC8] {
            let bytes = [byte];
            let mut input = &bytes[..];
            assert_eq!(self.reader.next_entry(&mut input), Err(refusal));
            assert_eq!(input, bytes);
            assert_eq!(self.reader.next_entry(&mut &[][..]), Err(refusal));
            assert_eq!(self.reader.end(), Err(refusal));
            self.stands(&Stand::Refused(refusal));
        }
        self.spoil();
        let mut state = *self.reader.state();
        state[..11].fill(0);
        self.reader.reset();
        assert_eq!(self.reader.state(), &state);
    }
}

/// In pieces that end at these places, and the end.
fn cut(text: &Text, ends: impl IntoIterator<Item = usize>, spoils: Option<Noise>) {
    let mut both = Both::new(text, spoils);
    for end in ends {
        both.piece(end);
    }
    both.end();
}

/// The beginning of `n` bytes in pieces of several sizes, and in two pieces at every place.
fn every_cut(text: &Text, n: usize) {
    for size in [1, 2, 3, 5, 7, 16, 64, 71, 10_000] {
        cut(text, (0..n).step_by(size).map(|at| n.min(at + size)), None);
    }
    for at in 0..=n {
        cut(text, [at, n], None);
    }
    cut(text, [n], Some(Noise(n as u64)));
    cut(text, 0..=n, Some(Noise(n as u64)));
}

/// Some cuts of all of it, and at times single calls on pieces whose rest is a part of the next one.
fn some_cuts(text: &Text, noise: &mut Noise) {
    let n = text.bytes.len();
    cut(text, [n], None);
    cut(text, 0..=n, Some(Noise(n as u64)));
    let most = [2, 3, 8, 20, 80, 300][noise.below(6)];
    let mut both = Both::new(text, (noise.below(2) == 0).then_some(Noise(7)));
    let mut end = 0;
    while end < n {
        end = n.min(end + noise.below(most));
        if noise.below(2) == 0 {
            both.piece(end);
        } else if both.from <= end {
            both.call(end);
        }
    }
    both.piece(n);
    both.end();
}

/// An accepted log written again is that log.
fn written_again(text: &Text) {
    if text.said.behind.end().is_ok() {
        let mut out = vec![0xAA; text.bytes.len() + 1];
        let mut n = log_start(&mut out).unwrap();
        for Entry { seconds, at, len } in &text.said.entries {
            n += log_entry(*seconds, &text.bytes[*at..at + len], &mut out[n..]).unwrap();
        }
        assert_eq!((&out[..n], out[n..].len()), (&text.bytes[..], 1));
    }
}

/// Three entries, with seconds of one, two and five bytes and frames of 4, 17 and 64.
fn three_entries(noise: &mut Noise) -> Vec<u8> {
    [vec![1], entry_bytes(0, &noise.frame(4)), entry_bytes(128, &noise.frame(17)), entry_bytes(u32::MAX, &noise.frame(64))].concat()
}

#[test]
fn every_beginning_in_every_two_pieces_with_an_end_after_each_byte() {
    for seed in 0..3 {
        let text = Text::new(three_entries(&mut Noise(seed)));
        assert_eq!((text.said.entries.len(), text.said.behind.end(), text.bytes.len()), (3, Ok(()), 97));
        written_again(&text);
        for n in 0..=text.bytes.len() {
            every_cut(&text, n);
        }
    }
}

#[test]
fn every_change_of_a_byte() {
    let bytes = three_entries(&mut Noise(5));
    let mut accepted = 0;
    for at in 0..bytes.len() {
        for byte in (0..=255).filter(|byte| *byte != bytes[at]) {
            let mut changed = bytes.clone();
            changed[at] = byte;
            let text = Text::new(changed);
            let n = text.bytes.len();
            cut(&text, [n], None);
            cut(&text, 0..=n, Some(Noise(at as u64)));
            for size in [2, 3, 7, 16, 64] {
                cut(&text, (0..n).step_by(size).map(|at| n.min(at + size)), None);
            }
            // Two pieces at every place near the change, and at some others.
            for place in (0..=n).filter(|place| place.abs_diff(at) < 4 || (place + at) % 9 == 0) {
                cut(&text, [place, n], None);
            }
            written_again(&text);
            accepted += usize::from(text.refusal().is_none());
        }
    }
    // Other addresses of the three frames, and other seconds: one byte for 0, a first byte for 80 01.
    assert!(accepted > 3 * 23 + 127 + 127, "{accepted}");
}

#[test]
fn two_changes_of_a_byte() {
    let mut noise = Noise(2);
    for turn in 0..6000 {
        let mut bytes = three_entries(&mut Noise(turn / 100));
        for _ in 0..2 {
            let at = noise.below(bytes.len());
            bytes[at] = if noise.below(3) == 0 { bytes[at] ^ 1 << noise.below(8) } else { noise.byte() };
        }
        let text = Text::new(bytes);
        some_cuts(&text, &mut noise);
        written_again(&text);
    }
}

#[test]
fn logs_and_noise_at_random() {
    const LIKELY: [u8; 15] = [0x00, 0x01, 0x02, 0x03, 0x04, 0x05, 0x0F, 0x10, 0x40, 0x41, 0x7F, 0x80, 0x81, 0xC8, 0xFF];
    let mut noise = Noise(3);
    for turn in 0..4000 {
        let mut bytes = vec![1];
        if turn % 4 == 3 {
            bytes.extend((0..noise.below(120)).map(|_| if noise.below(2) == 0 { LIKELY[noise.below(15)] } else { noise.byte() }).collect::<Vec<_>>());
            bytes.drain(..noise.below(2));
        } else {
            for _ in 0..noise.below(9) {
                let size = 4 + noise.below(61);
                let frame = noise.frame(size);
                bytes.extend(entry_bytes(noise.seconds(), &frame));
            }
            let at = noise.below(bytes.len());
            match turn % 4 {
                1 => bytes[at] = noise.byte(),
                2 if noise.below(2) == 0 => drop(bytes.remove(at)),
                2 => bytes.insert(at, LIKELY[noise.below(15)]),
                _ => (),
            }
            if noise.below(8) == 0 {
                bytes.truncate(noise.below(bytes.len() + 1));
            }
        }
        let text = Text::new(bytes);
        some_cuts(&text, &mut noise);
        written_again(&text);
    }
}

/// These bytes give entries with these seconds, then this answer at their end, with so many bytes taken.
fn says(bytes: &[u8], seconds: &[u32], end: Result<(), LogError>, taken: usize) {
    let text = Text::new(bytes.to_vec());
    let got: Vec<u32> = text.said.entries.iter().map(|entry| entry.seconds).collect();
    assert_eq!((&got[..], text.said.behind.end(), text.said.taken), (seconds, end, taken), "{bytes:02X?}");
    every_cut(&text, bytes.len());
    written_again(&text);
}

#[test]
fn edges() {
    const LOG: Result<(), LogError> = Err(InvalidLog);
    const FRAME: Result<(), LogError> = Err(InvalidFrame);
    // No bytes, the 1 alone, another first number, malformed ones.
    says(&[], &[], LOG, 0);
    says(&[1], &[], Ok(()), 1);
    says(&[2], &[], LOG, 1);
    says(&[0], &[], LOG, 1);
    says(&[0x81, 0], &[], LOG, 2);
    says(&[0x81, 0x80, 0x80, 0x80, 0x80], &[], LOG, 5);
    // Seconds.
    let entry = |seconds: &[u8]| [&[1], seconds, &[4, 0xC8, 2, 0, 0]].concat();
    says(&entry(&[0]), &[0], Ok(()), 7);
    says(&entry(&[0x7F]), &[127], Ok(()), 7);
    says(&entry(&[0x80, 1]), &[128], Ok(()), 8);
    says(&entry(&[0xFF, 0xFF, 0xFF, 0xFF, 0x0F]), &[u32::MAX], Ok(()), 11);
    says(&entry(&[0x80, 0x80, 0x80, 0x80, 0x10]), &[], LOG, 6);
    says(&entry(&[0x80, 0]), &[], LOG, 3);
    says(&entry(&[0x80, 0x80, 0x80, 0x80, 0]), &[], LOG, 6);
    says(&entry(&[0x80, 0x80, 0x80, 0x80, 0x80, 1]), &[], LOG, 6);
    says(&entry(&[0xFF, 0xFF, 0xFF, 0xFF, 0xFF]), &[], LOG, 6);
    // Lengths: form first, and then what it means.
    says(&[1, 0, 3], &[], FRAME, 3);
    says(&[1, 0, 4], &[], LOG, 3);
    says(&[1, 0, 64], &[], LOG, 3);
    says(&[1, 0, 65], &[], FRAME, 3);
    says(&[1, 0, 0x84, 0], &[], LOG, 4);
    says(&[1, 0, 0x84, 1], &[], FRAME, 4);
    says(&[1, 0, 0xFF, 0xFF, 0xFF, 0xFF, 0x0F], &[], FRAME, 7);
    says(&[1, 0, 0x80, 0x80, 0x80, 0x80, 0x10], &[], LOG, 7);
    // Frames: the address, the length byte, the check byte.
    says(&[1, 0, 4, 0xC9, 2, 0, 0], &[], FRAME, 4);
    says(&[1, 0, 4, 0xC8, 3, 0, 0], &[], FRAME, 5);
    says(&[1, 0, 4, 0xC8, 2, 0, 1], &[], FRAME, 7);
    // Behind an entry.
    says(&[1, 9, 4, 0xC8, 2, 0, 0, 0x80], &[9], LOG, 8);
    says(&[1, 9, 4, 0xC8, 2, 0, 0, 0, 3, 0xC8], &[9], FRAME, 9);
    says(&[1, 9, 4, 0xC8, 2, 0, 0, 7, 4, 0xC8, 2, 0, 0], &[9, 7], Ok(()), 13);
    for size in 4..=64 {
        let mut noise = Noise(size as u64);
        says(&[vec![1], entry_bytes(u32::MAX, &noise.frame(size)), entry_bytes(5, &noise.frame(68 - size))].concat(), &[u32::MAX, 5], Ok(()), {
            1 + 6 + size + 2 + 68 - size
        });
    }
    assert_eq!(LogReader::default(), LogReader::new());
    assert_eq!(LogReader::new().state(), &[0; 75]);
}

/// Whether some log leads to these bytes, and if so a string that does, but for an end.
fn leads_to(state: &[u8; 75]) -> Option<Vec<u8>> {
    let [stage, count, size] = [state[0], state[1], state[2]];
    let value = u32::from_be_bytes([state[3], state[4], state[5], state[6]]);
    let seconds = number(u32::from_be_bytes([state[7], state[8], state[9], state[10]]));
    let groups =
        || (count <= 4 && u64::from(value) < 1 << (7 * count)).then(|| (0..count).map(|i| 0x80 | (value >> (7 * i)) as u8).collect::<Vec<u8>>());
    match stage {
        0 => groups(),
        1 => Some([vec![1], groups()?].concat()),
        2 => Some([vec![1], seconds, groups()?].concat()),
        3 => {
            let held = state[11..].get(..usize::from(count))?;
            let is_fine = (4..=64).contains(&size)
                && count < size
                && (held.is_empty() || ADDRESSES.contains(&held[0]))
                && (held.len() < 2 || held[1] == size - 2);
            is_fine.then(|| [vec![1], seconds, vec![size], held.to_vec()].concat())
        }
        4 => Some(vec![1]),
        5 => Some(vec![2]),
        6 => Some(vec![1, 0, 3]),
        _ => None,
    }
}

/// These bytes as a state: refused, or read on as behind a string that leads there. Whether they are a state.
fn lent(state: [u8; 75], input: &[u8]) -> bool {
    let Some(mut bytes) = leads_to(&state) else {
        assert_eq!(LogReader::from_state(state), Err(BadState), "{state:02X?}");
        return false;
    };
    let mut reader = LogReader::from_state(state).unwrap();
    assert_eq!(reader.state(), &state);
    let from = bytes.len();
    if state[0] == 4 {
        assert_eq!(reader.clone().end(), Ok(()));
        assert_eq!(reader.next_entry(&mut &input[..]), if input.is_empty() { Ok(None) } else { Err(InvalidLog) });
        return true;
    }
    bytes.extend(input);
    let text = Text::new(bytes);
    let mut both = Both { text: &text, reader, from, given: 0, spoils: None };
    both.piece(text.bytes.len());
    both.end();
    true
}

#[test]
fn states_that_no_log_leads_to_are_refused() {
    let mut noise = Noise(4);
    let text = Text::new(three_entries(&mut noise));
    let mut states = vec![[0; 75]];
    for n in 0..=text.bytes.len() {
        let mut both = Both::new(&text, Some(Noise(n as u64)));
        both.piece(n);
        both.spoil();
        states.push(*both.reader.state());
    }
    for stage in [4, 5, 6] {
        states.push(std::array::from_fn(|i| if i == 0 { stage } else { noise.byte() }));
    }
    let mut count = [0; 2];
    for state in states {
        for at in 0..14 {
            for byte in 0..=255 {
                let mut changed = state;
                changed[at] = byte;
                lent(changed, &[]);
                count[usize::from(lent(changed, &[[1, 0x80, 0xC8][noise.below(3)], 0, 4, 0xC8, 2, 0, 0]))] += 1;
            }
        }
    }
    assert!(count.iter().all(|n| *n > 100_000), "{count:?}");
    // Each stage with each count and size, and values about the greatest that a count has.
    for stage in 0..9 {
        for count in 0..67 {
            for size in 0..70u8 {
                let mut state: [u8; 75] = std::array::from_fn(|_| noise.byte());
                (state[0], state[1], state[2]) = (stage, count, size);
                if count < 5 {
                    let value = (1u64 << (7 * count)).wrapping_add(u64::from(size % 5)).wrapping_sub(3) as u32;
                    state[3..7].copy_from_slice(&value.to_be_bytes());
                }
                if size % 4 != 0 {
                    state[11] = ADDRESSES[noise.below(24)];
                }
                if size % 4 > 1 {
                    state[12] = size.wrapping_sub(2);
                }
                lent(state, &[1, 0, 4, 0xC8, 2, 0, 0][..noise.below(8)]);
            }
        }
    }
}

/// One entry into so much room: what is answered, and every byte of the buffer.
fn writes(seconds: u32, frame: &[u8], room: usize) {
    let (mut out, mut want) = ([0xAA; 90], [0xAA; 90]);
    let entry = entry_bytes(seconds, frame);
    let expected = if !is_one_whole_frame(frame) {
        Err(InvalidFrame)
    } else if room < entry.len() {
        Err(BufferOverflow)
    } else {
        want[..entry.len()].copy_from_slice(&entry);
        assert!(entry.len() <= LOG_ENTRY_MAX);
        Ok(entry.len())
    };
    assert_eq!(log_entry(seconds, frame, &mut out[..room]), expected, "{seconds} {frame:02X?} {room}");
    assert_eq!(out, want);
}

#[test]
fn entries_written() {
    for room in 0..4 {
        let mut out = [0xAA; 4];
        assert_eq!(log_start(&mut out[..room]), if room == 0 { Err(BufferOverflow) } else { Ok(1) });
        assert_eq!(out, [if room == 0 { 0xAA } else { 1 }, 0xAA, 0xAA, 0xAA]);
    }
    let mut noise = Noise(6);
    for size in 4..=64 {
        for seconds in SECONDS {
            let mut frame = noise.frame(size);
            for room in 0..=80 {
                writes(seconds, &frame, room);
            }
            frame.resize(80, 0);
            for n in 0..=80 {
                writes(seconds, &frame[..n], noise.below(81));
            }
        }
    }
    for seconds in (0..32).flat_map(|bit| [1 << bit, (1 << bit) - 1]) {
        let frame = noise.frame(20);
        for room in 0..=80 {
            writes(seconds, &frame, room);
        }
    }
    for size in [4, 5, 26, 64] {
        let frame = noise.frame(size);
        for at in 0..size {
            for byte in 0..=255 {
                let mut changed = frame.clone();
                changed[at] = byte;
                writes(noise.seconds(), &changed, 80);
                writes(noise.seconds(), &changed, noise.below(8));
            }
        }
    }
    for n in 65..600 {
        let mut long = vec![0; n];
        (long[0], long[1]) = (0xC8, (n - 2) as u8);
        long[n - 1] = check_byte(&long[2..n - 1]);
        writes(0, &long, 80);
        writes(0, &long, 0);
    }
}
