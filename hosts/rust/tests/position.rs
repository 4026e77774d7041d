//! The stream and its positions, against a plain model: what each entry of the state answers, and what then stands in the state, in a saved form and
//! in the places for a position, from the rules alone. Nothing of the archive is asked for what is expected. Each call is made by the entry itself, for
//! the eight bytes of its answer, and through the wrapper, where there is a parser of that state.
use crsf_host::{CrsfParser, CrsfStreamError, StreamAnswer, SAVED_MAX};
use CrsfStreamError::{BadState, InvalidCrc, InvalidPacketLength, InvalidSync, PositionRange};

const ADDRESSES: [u8; 24] =
    [0x00, 0x0E, 0x10, 0x12, 0x13, 0x14, 0x80, 0x90, 0x91, 0x92, 0x93, 0x94, 0x95, 0x96, 0x97, 0xC0, 0xC2, 0xC4, 0xC8, 0xCC, 0xCE, 0xEA, 0xEC, 0xEE];

/// The last position.
const TOP: u64 = u64::MAX;

/// The longest state, form and buffer, and how many bytes on each side of them are looked at.
const LONGEST: usize = 100;
const BESIDE: usize = 16;

extern "C" {
    fn crsf_next_raw_packet(state: *mut u8, state_len: usize, input: *const u8, input_len: usize, position: *mut u64, position_len: usize) -> u64;
    fn crsf_reset(state: *mut u8, state_len: usize) -> u64;
    fn crsf_save(state: *const u8, state_len: usize, out: *mut u8, out_len: usize) -> u64;
    fn crsf_restore(state: *mut u8, state_len: usize, form: *const u8, form_len: usize) -> u64;
    fn crsf_held(state: *const u8, state_len: usize) -> u64;
    fn crsf_position(state: *const u8, state_len: usize, position: *mut u64, position_len: usize) -> u64;
}

/// The check byte, bit by bit (RULES 4.5).
fn check_byte(bytes: &[u8]) -> u8 {
    bytes.iter().fold(0, |rest, byte| (0..8).fold(rest ^ byte, |rest: u8, _| if rest & 0x80 == 0 { rest << 1 } else { rest << 1 ^ 0xD5 }))
}

/// The first answer of some bytes (RULES 5): a frame's bytes or a refusal, and by how many bytes it was judged.
type First<'b> = (Result<&'b [u8], CrsfStreamError>, usize);

fn first_answer(bytes: &[u8]) -> Option<First<'_>> {
    let &address = bytes.first()?;
    if !ADDRESSES.contains(&address) {
        return Some((Err(InvalidSync(address)), 1));
    }
    let &length = bytes.get(1)?;
    if !(2..=62).contains(&length) {
        return Some((Err(InvalidPacketLength(length)), 2));
    }
    let size = usize::from(length) + 2;
    let frame = bytes.get(..size)?;
    let (calculated, carried) = (check_byte(&frame[2..size - 1]), frame[size - 1]);
    Some((if calculated == carried { Ok(frame) } else { Err(InvalidCrc { calculated, carried }) }, size))
}

/// How many bytes an answer drops.
fn drops(result: &Result<&[u8], CrsfStreamError>) -> usize {
    result.map_or(1, <[u8]>::len)
}

/// Where a parser is, and what it holds.
#[derive(Clone, Debug, PartialEq)]
struct Model {
    position: u64,
    held: Vec<u8>,
}

/// What a call says: nothing where more is asked for.
type Said = Option<Result<Vec<u8>, CrsfStreamError>>;

impl Model {
    /// What a state's bytes say.
    fn of(state: &[u8]) -> Option<Model> {
        let (start, end) = (usize::from(*state.first()?), usize::from(*state.get(1)?));
        if state.len() != 74 || start > end || end > 64 {
            return None;
        }
        Some(Model { position: u64::from_be_bytes(state[66..].try_into().unwrap()), held: state[2 + start..2 + end].to_vec() })
    }

    /// Whether the position behind the held bytes, and so many more, is above the last one.
    fn is_above(&self, more: usize) -> bool {
        u128::from(self.position) + (self.held.len() + more) as u128 > u128::from(TOP)
    }

    /// A call (RULES 6): what it says, and how many bytes of the input it takes.
    fn call(&mut self, input: &[u8]) -> (Said, usize) {
        if self.is_above(input.len()) {
            return (Some(Err(PositionRange)), 0);
        }
        let all = [&self.held[..], input].concat();
        let before = self.held.len();
        let Some((result, judged)) = first_answer(&all) else {
            self.held = all;
            return (None, input.len());
        };
        let dropped = drops(&result);
        let taken = if before == 0 { dropped } else { judged.saturating_sub(before) };
        self.held = all[dropped..before + taken].to_vec();
        self.position += dropped as u64;
        (Some(result.map(<[u8]>::to_vec)), taken)
    }

    fn form(&self) -> Vec<u8> {
        let mut form = vec![0x40];
        let mut rest = self.position;
        while rest > 0x7F {
            form.push(rest as u8 | 0x80);
            rest >>= 7;
        }
        form.push(rest as u8);
        form.push(self.held.len() as u8);
        form.extend(&self.held);
        form
    }

    /// What a save writes.
    fn save(&self) -> Option<Vec<u8>> {
        (self.held.len() < 64 && !self.is_above(0)).then(|| self.form())
    }

    /// What a form says: with the mark a number in groups of seven bits first, in its shortest form; then a count and as many bytes.
    fn restore(form: &[u8]) -> Option<Model> {
        let (position, rest) = match form {
            [0x40, groups @ ..] => {
                let n = groups.iter().position(|&group| group < 0x80)? + 1;
                if n > 10 || (n > 1 && groups[n - 1] == 0) {
                    return None;
                }
                (groups[..n].iter().rev().fold(0, |number: u128, group| number << 7 | u128::from(group & 0x7F)), &groups[n..])
            }
            _ => (0, form),
        };
        let (&count, held) = rest.split_first()?;
        let parser = Model { position: position.try_into().ok()?, held: held.to_vec() };
        (count <= 63 && held.len() == usize::from(count) && !parser.is_above(0)).then_some(parser)
    }
}

/// What a refusal's bytes are: its number, and the two values that it carries.
fn row(refusal: CrsfStreamError) -> [u8; 3] {
    match refusal {
        InvalidSync(byte) => [1, byte, 0],
        InvalidPacketLength(length) => [2, length, 0],
        InvalidCrc { calculated, carried } => [3, calculated, carried],
        BadState => [8, 0, 0],
        PositionRange => [12, 0, 0],
    }
}

/// An answer that carries a count, or is refused.
fn counted(answer: Result<usize, u8>) -> [u8; 8] {
    match answer {
        Ok(len) => [0, 0, 0, 0, len as u8, 0, 0, 0],
        Err(number) => [number, 0, 0, 0, 0, 0, 0, 0],
    }
}

/// What is lent, with bytes on both sides of it.
fn lent(bytes: &[u8], before: u8) -> Vec<u8> {
    [&[before; BESIDE][..], bytes, &[before; BESIDE]].concat()
}

fn between(lent: &mut [u8]) -> &mut [u8] {
    let n = lent.len();
    &mut lent[BESIDE..n - BESIDE]
}

fn position_in(state: &mut [u8], position: u64) {
    state[66..].copy_from_slice(&position.to_be_bytes());
}

fn parser_of(state: &[u8]) -> Option<CrsfParser> {
    CrsfParser::from_state(state.try_into().ok()?).ok()
}

/// Numbers that are no better than noise, the same each time.
struct Noise(u64);

impl Noise {
    fn number(&mut self) -> u32 {
        self.0 = self.0.wrapping_mul(6364136223846793005).wrapping_add(1442695040888963407);
        (self.0 >> 32) as u32
    }

    fn below(&mut self, most: usize) -> usize {
        self.number() as usize % most
    }

    fn byte(&mut self) -> u8 {
        self.number() as u8
    }

    fn bytes(&mut self, count: usize) -> Vec<u8> {
        (0..count).map(|_| self.byte()).collect()
    }

    fn state(&mut self, start: usize, held: &[u8], position: u64) -> Vec<u8> {
        let mut state = self.bytes(74);
        (state[0], state[1]) = (start as u8, (start + held.len()) as u8);
        state[2 + start..2 + start + held.len()].copy_from_slice(held);
        position_in(&mut state, position);
        state
    }

    /// With the held bytes anywhere among the places.
    fn state_of(&mut self, held: &[u8], position: u64) -> Vec<u8> {
        let start = self.below(65 - held.len());
        self.state(start, held, position)
    }

    fn frame(&mut self, size: usize) -> Vec<u8> {
        let mut frame = vec![ADDRESSES[self.below(24)], size as u8 - 2];
        frame.extend(self.bytes(size - 3));
        frame.push(check_byte(&frame[2..]));
        frame
    }

    /// Bytes that begin with a frame in three of four.
    fn input(&mut self) -> Vec<u8> {
        let size = 4 + self.below(61);
        let front = if self.below(4) > 0 { self.frame(size) } else { vec![] };
        [front, self.bytes(264)].concat()
    }

    /// Frames, frames with a wrong check byte, wrong lengths, waiting ones, and noise.
    fn stream(&mut self) -> Vec<u8> {
        let mut bytes = vec![];
        while bytes.len() < 500 && self.below(16) > 0 {
            let size = 4 + self.below(61);
            let mut next = self.frame(size);
            match self.below(6) {
                0 => next[size - 1] ^= 1 + self.below(255) as u8,
                1 => next[1] = [62, self.byte()][self.below(2)],
                2 => next = self.bytes(size),
                3 => next.truncate(1 + self.below(size)),
                _ => (),
            }
            bytes.extend(next);
        }
        bytes
    }

    fn edge(&mut self) -> u64 {
        let edges = edges();
        edges[self.below(edges.len())]
    }

    /// One call of the stream: the answer, the state, the places for a position, and the bytes on both sides. The state is then what the call left.
    fn next(&mut self, state: &mut [u8], input: &[u8], slots: usize) -> Said {
        let about = || format!("{:02X?} on {:02X?}, {} bytes", state, &input[..input.len().min(64)], input.len());
        let was = Model::of(state);
        let mut now = was.clone();
        let (said, taken) = now.as_mut().map_or((Some(Err(BadState)), 0), |parser| parser.call(input));
        let moves = !matches!(said, Some(Err(BadState | PositionRange)));
        let answers = moves && said.is_some();

        let mut got = lent(state, self.byte());
        let mut places = [self.number().into(); 5];
        let mut wanted = places;
        if answers && slots > 0 {
            wanted[1] = was.as_ref().unwrap().position;
        }
        let (before, after) = (got.clone(), between(&mut got));
        // SAFETY: each slice is passed as its own pointer and length, and the entry keeps nothing.
        let eight = unsafe {
            let slots = &mut places[1..1 + slots];
            crsf_next_raw_packet(after.as_mut_ptr(), after.len(), input.as_ptr(), input.len(), slots.as_mut_ptr(), slots.len())
        };
        let eight = eight.to_le_bytes();
        let in_state = was.as_ref().is_some_and(|parser| !parser.held.is_empty());
        let expected = match &said {
            None => [255, taken as u8, 0, 0, 0, 0, 0, 0],
            Some(Ok(frame)) if in_state => {
                let at = usize::from(eight[3]);
                assert!(at >= 2 && at + frame.len() <= 66 && after[at..at + frame.len()] == frame[..], "{}", about());
                [0, taken as u8, 1, eight[3], frame.len() as u8, 0, 0, 0]
            }
            Some(Ok(frame)) => [0, taken as u8, 0, 0, frame.len() as u8, 0, 0, 0],
            Some(Err(refusal)) => {
                let [number, first, second] = row(*refusal);
                [number, taken as u8, 0, 0, 0, first, second, 0]
            }
        };
        assert_eq!(eight, expected, "{}", about());
        assert_eq!(places, wanted, "{}", about());
        let after = after.to_vec();
        if moves {
            // Where the held bytes stand, and what is beside them there, is free.
            assert_eq!(Model::of(&after), now, "{}", about());
            assert_eq!((&got[..BESIDE], &got[BESIDE + 74..]), (&before[..BESIDE], &before[BESIDE + 74..]));
        } else {
            assert_eq!(got, before, "{}", about());
        }

        if let Some(parser) = parser_of(state) {
            let (mut by_answer, mut by_packet) = (parser.clone(), parser.clone());
            let (mut unread, mut left) = (input, input);
            match (by_answer.next_answer(&mut unread), &said) {
                (None, None) => (),
                (Some(StreamAnswer { position, result }), Some(expected)) => {
                    assert_eq!(position, was.as_ref().unwrap().position, "{}", about());
                    assert_eq!(result.map(|frame| frame.as_bytes().to_vec()), *expected, "{}", about());
                }
                (answer, said) => panic!("{answer:02X?} and not {said:02X?}: {}", about()),
            }
            assert_eq!(by_packet.next_raw_packet(&mut left).map(|result| result.map(|frame| frame.as_bytes().to_vec())), said, "{}", about());
            assert_eq!((unread.len(), left.len()), (input.len() - taken, input.len() - taken), "{}", about());
            assert_eq!((&by_answer.state()[..], &by_packet.state()[..]), (&after[..], &after[..]), "{}", about());
            assert_eq!(Some(by_answer.position()), now.map(|parser| parser.position));
        }
        state.copy_from_slice(&after);
        said
    }

    fn reset(&mut self, state: &mut [u8]) {
        let mut got = lent(state, self.byte());
        let mut want = got.clone();
        let whole = state.len() == 74;
        if whole {
            let want = between(&mut want);
            want[..2].fill(0);
            want[66..].fill(0);
        }
        let after = between(&mut got);
        // SAFETY: the slice is passed as its own pointer and length, and the entry keeps nothing.
        let eight = unsafe { crsf_reset(after.as_mut_ptr(), after.len()) };
        assert_eq!(eight.to_le_bytes(), counted(if whole { Ok(0) } else { Err(8) }));
        assert_eq!(got, want);
        if let Some(mut parser) = parser_of(state) {
            parser.reset();
            assert_eq!(parser.state()[..], want[BESIDE..BESIDE + 74]);
        }
        state.copy_from_slice(between(&mut got));
    }

    /// The saved form into `room` bytes, where it is not refused.
    fn save(&mut self, state: &[u8], room: usize) -> Option<Vec<u8>> {
        let form = Model::of(state).and_then(|parser| parser.save());
        let blank = self.byte();
        let mut got = lent(&vec![blank; room], !blank);
        let mut want = got.clone();
        let expected = match &form {
            None => Err(8),
            Some(form) if room < form.len() => Err(5),
            Some(form) => {
                between(&mut want)[..form.len()].copy_from_slice(form);
                Ok(form.len())
            }
        };
        let out = between(&mut got);
        // SAFETY: both slices are passed as their own pointer and length, and the entry keeps nothing.
        let eight = unsafe { crsf_save(state.as_ptr(), state.len(), out.as_mut_ptr(), out.len()) };
        assert_eq!(eight.to_le_bytes(), counted(expected), "{state:02X?} into {room} bytes");
        assert_eq!(got, want, "{state:02X?} into {room} bytes");
        if let Some(parser) = parser_of(state) {
            assert_eq!(parser.save().map(|saved| saved.as_ref().to_vec()), form.clone().ok_or(BadState));
        }
        form.filter(|_| expected.is_ok())
    }

    fn restore(&mut self, state: &mut [u8], form: &[u8]) -> Option<Model> {
        let parser = Model::restore(form);
        let says = parser.clone().filter(|_| state.len() == 74);
        let mut got = lent(state, self.byte());
        let mut want = got.clone();
        if let Some(parser) = &says {
            let (want, held) = (between(&mut want), parser.held.len());
            (want[0], want[1]) = (0, held as u8);
            want[2..2 + held].copy_from_slice(&parser.held);
            position_in(want, parser.position);
        }
        let after = between(&mut got);
        // SAFETY: both slices are passed as their own pointer and length, and the entry keeps nothing.
        let eight = unsafe { crsf_restore(after.as_mut_ptr(), after.len(), form.as_ptr(), form.len()) };
        assert_eq!(eight.to_le_bytes(), counted(says.as_ref().map(|parser| parser.held.len()).ok_or(8)), "{form:02X?}");
        assert_eq!(got, want, "{form:02X?}");
        match (CrsfParser::restore(form), &parser) {
            (Ok(restored), Some(parser)) => assert_eq!(Model::of(restored.state()).as_ref(), Some(parser)),
            (restored, _) => assert_eq!((restored, &parser), (Err(BadState), &None), "{form:02X?}"),
        }
        state.copy_from_slice(between(&mut got));
        says
    }

    /// How many bytes are held, and where the parser is, into up to three places.
    fn ask(&mut self, state: &[u8]) {
        let parser = Model::of(state);
        // SAFETY: each slice is passed as its own pointer and length, and the entries keep nothing.
        let held = unsafe { crsf_held(state.as_ptr(), state.len()) };
        assert_eq!(held.to_le_bytes(), counted(parser.as_ref().map(|parser| parser.held.len()).ok_or(8)), "{state:02X?}");
        for slots in 0..=3 {
            let mut places = [self.number().into(); 5];
            let mut wanted = places;
            let expected = match &parser {
                None => Err(8),
                Some(_) if slots == 0 => Err(5),
                Some(parser) => {
                    wanted[1] = parser.position;
                    Ok(1)
                }
            };
            let lent = &mut places[1..1 + slots];
            // SAFETY: as above.
            let eight = unsafe { crsf_position(state.as_ptr(), state.len(), lent.as_mut_ptr(), lent.len()) };
            assert_eq!((eight.to_le_bytes(), places), (counted(expected), wanted), "{state:02X?}, {slots} places");
        }
        let asked = parser_of(state).map(|parser| (parser.position(), parser.held()));
        assert_eq!(asked, parser.map(|parser| (parser.position, Ok(parser.held.len()))));
    }

    /// Every entry on the same state.
    fn each_entry(&mut self, state: &[u8], input: &[u8]) {
        self.ask(state);
        for slots in 0..=3 {
            self.next(&mut state.to_vec(), input, slots);
        }
        self.save(state, 0);
        if let Some(form) = self.save(state, LONGEST) {
            self.save(state, form.len());
            self.save(state, form.len() - 1);
            assert_eq!(self.restore(&mut [0xEE; 74], &form), Model::of(state));
        }
        for form in [&[2, 0xC8, 0x3E][..], &[0x40, 0x85, 1, 2, 0xC8, 0x3E], &[0x40]] {
            self.restore(&mut state.to_vec(), form);
        }
        self.reset(&mut state.to_vec());
    }
}

/// 0; each power of two and the numbers beside it, so that each count of groups begins and ends; and the last ones.
fn edges() -> Vec<u64> {
    let powers = (0..64).flat_map(|bit| [(1 << bit) - 1, 1 << bit, (1u64 << bit).wrapping_add(1)]);
    powers.chain((0..70).map(|less| TOP - less)).collect()
}

#[test]
fn every_edge_with_every_count_of_held_bytes() {
    let mut noise = Noise(1);
    for position in edges() {
        for held in 0..=64 {
            let all = noise.input();
            let state = noise.state_of(&all[..held], position);
            let n = noise.below(65);
            noise.each_entry(&state, &all[held..held + n]);
        }
    }
}

/// From three bytes short of the last position to three behind it, for every count of held bytes and of the input.
#[test]
fn what_just_ends_at_the_last_position() {
    let mut noise = Noise(2);
    for held in 0..=64usize {
        for n in (0..=70).chain([100, 127, 128, 129, 199, 200]) {
            for end in 0..=6 {
                let Some(less) = (held + n + 3).checked_sub(end) else { continue };
                let all = noise.input();
                let mut state = noise.state_of(&all[..held], TOP - less as u64);
                let slots = noise.below(4);
                let said = noise.next(&mut state, &all[held..held + n], slots);
                assert_eq!(said == Some(Err(PositionRange)), end > 3);
            }
        }
    }
}

/// Every start and end, at the first and the last positions: 8 where they are not valid, also where 12 would be.
#[test]
fn every_start_and_end() {
    let mut noise = Noise(3);
    for start in 0..=255 {
        for end in 0..=255 {
            let position = [0, TOP - 64, TOP - 4, TOP - 1, TOP][noise.below(5)];
            let mut state = noise.state(0, &[], position);
            (state[0], state[1]) = (start, end);
            let n = noise.below(5);
            noise.each_entry(&state, &[0xC8, 2, 0, 0][..n]);
        }
    }
}

#[test]
fn every_length_of_a_state() {
    let mut noise = Noise(4);
    for n in 0..=LONGEST {
        for turn in 0..20 {
            let mut state = noise.bytes(n);
            state.iter_mut().take(2).for_each(|byte| *byte = turn % 3);
            noise.each_entry(&state, &[0xC8, 2, 0, 0]);
        }
    }
}

/// As they are and without their position, cut anywhere and with bytes behind; and with any byte in place of each up to the first ones that are held.
#[test]
fn every_form_cut_and_changed() {
    let mut noise = Noise(5);
    let mut state = noise.state(3, &[7; 60], 99);
    for position in edges() {
        for held in 0..=63 {
            let parser = Model { position, held: noise.bytes(held) };
            let form = parser.form();
            for cut in 0..form.len() {
                assert_eq!(noise.restore(&mut state, &form[..cut]), None);
            }
            assert_eq!(noise.restore(&mut state, &form), Some(parser.clone()).filter(|parser| !parser.is_above(0)));
            assert_eq!(noise.restore(&mut state, &[&form[..], &[0]].concat()), None);
            let old = &form[form.len() - held - 1..];
            assert_eq!(noise.restore(&mut state, old), Some(Model { position: 0, held: parser.held }));
            for at in (0..form.len().min(14)).filter(|_| [0, 1, 63].contains(&held)) {
                let mut changed = form.clone();
                for byte in 0..=255 {
                    changed[at] = byte;
                    noise.restore(&mut state, &changed);
                }
            }
        }
    }
}

/// Every form of up to two bytes, and of three with the mark; and many of groups of few kinds.
#[test]
fn any_form() {
    const FRONT: [u8; 8] = [0x80, 0x80, 0x80, 0x81, 0xFF, 0xFF, 0xBF, 0xC0];
    const LAST: [u8; 7] = [0, 1, 2, 3, 0x3F, 0x40, 0x7F];
    let mut noise = Noise(6);
    let mut state = noise.state(3, &[7; 60], 99);
    noise.restore(&mut state, &[]);
    for first in 0..=255 {
        noise.restore(&mut state, &[first]);
        for second in 0..=255 {
            noise.restore(&mut state, &[first, second]);
            noise.restore(&mut state, &[0x40, first, second]);
        }
    }
    let mut says = 0;
    for _ in 0..100_000 {
        let mut form = vec![0x40];
        form.extend((1..noise.below(13)).map(|_| FRONT[noise.below(8)]));
        form.push(LAST[noise.below(7)]);
        let held = noise.below(4);
        form.push(held as u8);
        form.extend(noise.bytes(held));
        if noise.below(8) == 0 {
            let at = noise.below(form.len());
            form[at] = [FRONT[noise.below(8)], LAST[noise.below(7)]][noise.below(2)];
        }
        says += usize::from(noise.restore(&mut state, &form).is_some());
    }
    assert!(says > 20_000);
}

#[test]
fn a_save_into_every_length() {
    let mut noise = Noise(7);
    for position in edges() {
        for held in [0, 1, 2, 31, 62, 63, 64] {
            for room in 0..=80 {
                let bytes = noise.bytes(held);
                let state = noise.state_of(&bytes, position);
                noise.save(&state, room);
            }
        }
    }
}

/// In pieces, from a position on, put away between calls and taken up elsewhere: each answer is that of the whole stream's reading, at the place of its
/// first byte. A piece with no position behind it is refused, and a shorter one is read.
#[test]
fn streams_in_any_pieces() {
    let mut noise = Noise(8);
    for turn in 0..3000 {
        let bytes = noise.stream();
        let first = match turn % 3 {
            0 => 0,
            1 => noise.edge(),
            // The last byte is near the last position.
            _ => TOP.wrapping_sub(bytes.len() as u64).wrapping_add(noise.below(40) as u64).wrapping_sub(20),
        };
        let fits = bytes.len().min((TOP - first).try_into().unwrap());
        let mut reading = vec![];
        let mut at = 0;
        while let Some((result, _)) = first_answer(&bytes[at..fits]) {
            reading.push((first + at as u64, result.map(<[u8]>::to_vec)));
            at += drops(&result);
        }

        let mut parser = CrsfParser::restore(&Model { position: first, held: vec![] }.form()).unwrap();
        let (mut from, mut said) = (0, vec![]);
        let most = 1 + noise.below(150);
        loop {
            let mut end = bytes.len().min(from + noise.below(most + 1));
            if end > fits {
                let (mut piece, before) = (&bytes[from..end], parser.clone());
                for _ in 0..2 {
                    let refusal = StreamAnswer { position: parser.position(), result: Err(PositionRange) };
                    assert_eq!(parser.next_answer(&mut piece), Some(refusal));
                    assert_eq!(parser.next_raw_packet(&mut piece), Some(Err(PositionRange)));
                }
                assert_eq!((piece.len(), &parser), (end - from, &before));
                end = fits;
            }
            let mut piece = &bytes[from..end];
            loop {
                if noise.below(4) == 0 {
                    parser = CrsfParser::restore(parser.save().unwrap().as_ref()).unwrap();
                }
                let Some(answer) = parser.next_answer(&mut piece) else { break };
                said.push((answer.position, answer.result.map(|frame| frame.as_bytes().to_vec())));
                assert!(said.len() <= reading.len(), "{:02X?}", said.last());
            }
            from = end;
            if from == fits {
                break;
            }
        }
        assert_eq!(said, reading);
        assert_eq!((parser.position(), parser.held()), (first + at as u64, Ok(fits - at)));
        assert_eq!(parser.next_raw_packet(&mut &bytes[fits..]), (fits < bytes.len()).then_some(Err(PositionRange)));
    }
}

/// In any order on one state, which any bytes begin, and of which a byte is spoilt at times.
#[test]
fn any_calls() {
    let mut noise = Noise(9);
    let (mut state, mut bytes) = (vec![], vec![]);
    for turn in 0..150_000 {
        if turn % 40 == 0 {
            let held = noise.below(64);
            let any = noise.bytes(held);
            let position = noise.edge();
            state = noise.state_of(&any, position);
            bytes = [noise.stream(), noise.bytes(300)].concat();
        }
        if noise.below(30) == 0 {
            let at = noise.below(74);
            state[at] = noise.byte();
        }
        let from = noise.below(100);
        let n = [noise.below(8), noise.below(8), noise.below(200)][noise.below(3)];
        match noise.below(16) {
            0 => noise.reset(&mut state),
            1 => drop(noise.save(&state, n.min(80))),
            2 => drop(noise.restore(&mut state, &bytes[from..from + n])),
            3 => {
                let form = Model { position: noise.edge(), held: bytes[from..from + n.min(63)].to_vec() }.form();
                noise.restore(&mut state, &form);
            }
            4 => noise.ask(&state),
            _ => {
                let slots = noise.below(4);
                noise.next(&mut state, &bytes[from..from + n], slots);
            }
        }
    }
}

/// By hand, without the model, as are those below.
#[test]
fn a_stream_that_is_saved_midway() {
    let stream = [0xC8, 2, 0, 0, 0x55, 0xC8, 2, 0];
    let mut parser = CrsfParser::new();
    let mut input = &stream[..];
    let frame = parser.next_answer(&mut input).unwrap();
    assert_eq!((frame.position, frame.result.unwrap().as_bytes()), (0, &stream[..4]));
    assert_eq!(parser.position(), 4);
    assert_eq!(parser.next_answer(&mut input), Some(StreamAnswer { position: 4, result: Err(InvalidSync(0x55)) }));
    assert_eq!(parser.next_answer(&mut input), None);
    assert_eq!((parser.position(), parser.held(), input.len()), (5, Ok(3), 0));
    let saved = parser.save().unwrap();
    assert_eq!(saved.as_ref(), [0x40, 5, 3, 0xC8, 2, 0]);
    let mut other = CrsfParser::restore(saved.as_ref()).unwrap();
    let frame = other.next_answer(&mut &[0][..]).unwrap();
    assert_eq!((frame.position, frame.result.unwrap().as_bytes()), (5, &[0xC8, 2, 0, 0][..]));
    assert_eq!((other.position(), parser.position()), (9, 5));
    parser.reset();
    assert_eq!((parser.position(), parser.held()), (0, Ok(0)));
}

#[test]
fn forms_by_hand() {
    let ten = |group: u8, last: &[u8]| [&[0x40][..], &[group; 9], last].concat();
    for (form, position, held) in [
        (vec![0], 0, 0),
        (vec![1, 0xC8], 0, 1),
        (vec![0x40, 0, 0], 0, 0),
        (vec![0x40, 0x7F, 0], 127, 0),
        (vec![0x40, 0x7F, 1, 0xC8], 127, 1),
        (vec![0x40, 0x80, 1, 0], 128, 0),
        (vec![0x40, 0x80, 1, 1, 0xC8], 128, 1),
        (ten(0x80, &[1, 0]), 1 << 63, 0),
        (ten(0x80, &[1, 1, 0xC8]), 1 << 63, 1),
        (ten(0xFF, &[1, 0]), TOP, 0),
    ] {
        let parser = CrsfParser::restore(&form).unwrap();
        assert_eq!((parser.position(), parser.held()), (position, Ok(held)), "{form:02X?}");
        let whole = if form[0] == 0x40 { form } else { [&[0x40, 0][..], &form].concat() };
        assert_eq!(parser.save().unwrap().as_ref(), whole);
    }
    for form in [
        vec![],
        vec![0x40],
        vec![0x40, 0],
        vec![0x40, 0, 1],
        vec![0x40, 0, 0, 0],
        vec![0x40, 0x80, 1],
        vec![0x40, 0x80, 0, 0],
        vec![0x40, 0, 0x80, 0],
        vec![0x41, 0, 0],
        ten(0xFF, &[1, 1, 0xC8]),
        ten(0x80, &[0, 0]),
        ten(0x80, &[2, 0]),
        ten(0x80, &[0x81, 0, 0]),
        ten(0x80, &[0x80, 1, 0]),
    ] {
        assert_eq!(CrsfParser::restore(&form), Err(BadState), "{form:02X?}");
    }
}

#[test]
fn the_longest_form() {
    let mut state = [0xFF; 74];
    (state[0], state[1], state[73]) = (1, 64, 0xC0);
    let saved = CrsfParser::from_state(state).unwrap().save().unwrap();
    assert_eq!((saved.as_ref().len(), SAVED_MAX), (75, 75));
    assert_eq!(saved.as_ref()[..12], [0x40, 0xC0, 0xFF, 0xFF, 0xFF, 0xFF, 0xFF, 0xFF, 0xFF, 0xFF, 1, 63]);
    let mut out = [0xAA; 75];
    // SAFETY: both slices are passed as their own pointer and length, and the entry keeps nothing.
    let eight = unsafe { crsf_save(state.as_ptr(), 74, out.as_mut_ptr(), 74) };
    assert_eq!((eight, out), (5, [0xAA; 75]));
}

#[test]
fn the_last_positions() {
    let mut state = [0; 74];
    state[66..].fill(0xFF);
    let mut parser = CrsfParser::from_state(state).unwrap();
    assert_eq!(parser.next_raw_packet(&mut &[][..]), None);
    let refusal = Some(StreamAnswer { position: TOP, result: Err(PositionRange) });
    assert_eq!(parser.next_answer(&mut &[0x55][..]), refusal);
    assert_eq!(parser.state(), &state);
    assert_eq!(PositionRange.to_string(), "the position behind the input would be above 2^64 - 1");
    // One byte is held at the last position: it has no saved form, and it can be asked and reset.
    state[1] = 1;
    let mut parser = CrsfParser::from_state(state).unwrap();
    assert_eq!(parser.next_answer(&mut &[][..]), refusal);
    assert_eq!((parser.save().err(), parser.held(), parser.position()), (Some(BadState), Ok(1), TOP));
    parser.reset();
    assert_eq!(parser.next_answer(&mut &[0x55][..]), Some(StreamAnswer { position: 0, result: Err(InvalidSync(0x55)) }));
    assert_eq!(parser.position(), 1);
    // 8 comes before 12.
    state[0] = 2;
    assert_eq!(CrsfParser::from_state(state), Err(BadState));
}
