//! Bursts of channel frames written, against a plain model: what is answered and what then stands in the buffer, from the rules alone. Nothing of the
//! archive is asked for what is expected. Each is written by the entry itself, for the eight bytes of its answer and for any count of sets; and where
//! the numbers are just those of the sets, also through the wrapper.
use crsf_host::{write_rc_channels_burst, CrsfPacket, CrsfParser, CrsfParsingError, RcChannelsPacked, BURST_MAX, BURST_SETS_MAX};

const ADDRESSES: [u8; 24] =
    [0x00, 0x0E, 0x10, 0x12, 0x13, 0x14, 0x80, 0x90, 0x91, 0x92, 0x93, 0x94, 0x95, 0x96, 0x97, 0xC0, 0xC2, 0xC4, 0xC8, 0xCC, 0xCE, 0xEA, 0xEC, 0xEE];

/// Two addresses, and two bytes that are none.
const SOME: [u8; 4] = [0xC8, 0x00, 0xC9, 0xFF];

/// The numbers of eight sets, and more numbers than any burst looks at.
const PLACES: usize = 128;
const NUMBERS: usize = 400;

/// The longest buffer, and how many bytes on each side of it are looked at.
const LONGEST: usize = 300;
const BESIDE: usize = 16;

extern "C" {
    fn crsf_write_rc_channels_burst(buffer: *mut u8, buffer_len: usize, dest: u8, channels: *const u16, channels_len: usize, count: usize) -> u64;
}

/// The check byte, bit by bit (RULES 4.5).
fn check_byte(bytes: &[u8]) -> u8 {
    bytes.iter().fold(0, |rest, byte| (0..8).fold(rest ^ byte, |rest: u8, _| if rest & 0x80 == 0 { rest << 1 } else { rest << 1 ^ 0xD5 }))
}

/// The frame of a set (RULES 4 and 10.10): eleven bits for each channel, the lowest first.
fn frame_of(dest: u8, set: &[u16]) -> Vec<u8> {
    let bits: Vec<u16> = set.iter().flat_map(|channel| (0..11).map(move |bit| channel >> bit & 1)).collect();
    let mut frame = vec![dest, 24, 0x16];
    frame.extend(bits.chunks(8).map(|eight| eight.iter().rev().fold(0, |byte, &bit| byte << 1 | bit as u8)));
    frame.push(check_byte(&frame[2..]));
    frame
}

/// A refusal: its number, and the two values that it carries.
type Refusal = (u8, u8, u8);

/// The bytes that are written to a buffer of `lent` bytes, or the refusal.
fn model(numbers: &[u16], count: usize, dest: u8, lent: usize) -> Result<Vec<u8>, Refusal> {
    if !ADDRESSES.contains(&dest) {
        return Err((7, 0, 0));
    }
    if count > 8 || numbers.len() < 16 * count {
        return Err((4, 0, 0));
    }
    let sets: Vec<&[u16]> = numbers.chunks(16).take(count).collect();
    for (s, set) in sets.iter().enumerate() {
        if let Some(c) = set.iter().position(|&channel| channel > 2047) {
            return Err((6, s as u8, c as u8));
        }
    }
    if lent < 26 * count {
        return Err((5, 0, 0));
    }
    Ok(sets.iter().flat_map(|set| frame_of(dest, set)).collect())
}

/// Writes a burst, and compares the answer, every byte of the buffer and those on both sides of it with the model's. What was written is just the
/// frames of the sets.
fn writes(numbers: &[u16], count: usize, dest: u8, lent: usize, before: u8) {
    let said = model(numbers, count, dest, lent);
    let about = || format!("{count} sets of {numbers:?} to {dest:02X} in {lent} bytes");
    let mut want = [before; BESIDE + LONGEST + BESIDE];
    let (mut by_entry, mut by_wrapper, mut answer) = (want, want, [0; 8]);
    match &said {
        Ok(frames) => {
            want[BESIDE..BESIDE + frames.len()].copy_from_slice(frames);
            answer[4] = frames.len() as u8;
        }
        Err((number, first, second)) => (answer[0], answer[5], answer[6]) = (*number, *first, *second),
    }

    let buffer = &mut by_entry[BESIDE..BESIDE + lent];
    // SAFETY: both slices are passed as their own pointer and length, and the entry keeps nothing.
    let eight = unsafe { crsf_write_rc_channels_burst(buffer.as_mut_ptr(), buffer.len(), dest, numbers.as_ptr(), numbers.len(), count) };
    assert_eq!(eight.to_le_bytes(), answer, "{}", about());
    assert!(by_entry == want, "{}: {by_entry:02X?} and not {want:02X?}", about());
    if said.is_ok() {
        reads(&by_entry[BESIDE..BESIDE + 26 * count], &numbers[..16 * count], dest);
    }

    if count.checked_mul(16) == Some(numbers.len()) {
        let sets: Vec<[u16; 16]> = numbers.chunks(16).map(|set| set.try_into().unwrap()).collect();
        let expected = match &said {
            Ok(frames) => Ok(frames.len()),
            Err((4, ..)) => Err(CrsfParsingError::InvalidPayloadLength),
            Err((5, ..)) => Err(CrsfParsingError::BufferOverflow),
            Err((6, set, channel)) => Err(CrsfParsingError::SetChannelRange { set: usize::from(*set), channel: usize::from(*channel) }),
            Err(_) => Err(CrsfParsingError::BadAddress),
        };
        assert_eq!(write_rc_channels_burst(&mut by_wrapper[BESIDE..BESIDE + lent], dest, &sets), expected, "{}", about());
        assert!(by_wrapper == want, "{}: {by_wrapper:02X?} and not {want:02X?}", about());
        singly(&sets, dest, &want[BESIDE..BESIDE + lent], expected, before);
    }
}

/// What was written is a stream of just the frames of the sets, in their order, and nothing is held behind them.
fn reads(mut written: &[u8], numbers: &[u16], dest: u8) {
    let mut parser = CrsfParser::new();
    for set in numbers.chunks(16) {
        let front = &written[..26];
        let frame = parser.next_raw_packet(&mut written).unwrap().unwrap();
        assert_eq!((frame.as_bytes(), frame.dst_addr(), frame.raw_packet_type()), (front, dest, RcChannelsPacked::PACKET_TYPE));
        assert_eq!(RcChannelsPacked::from_bytes(frame.payload()).unwrap().0, set);
    }
    assert_eq!(parser.next_raw_packet(&mut written), None);
    assert_eq!((written.len(), parser.held()), (0, Ok(0)));
}

/// As many calls of the writer of one set write the same to the same places; where the burst is refused for a channel, so is its set.
fn singly(sets: &[[u16; 16]], dest: u8, want: &[u8], expected: Result<usize, CrsfParsingError>, before: u8) {
    let mut buffer = vec![before; want.len()];
    match expected {
        Ok(n) => {
            let counts: usize = sets.iter().enumerate().map(|(i, &set)| written_singly(set, dest, &mut buffer[26 * i..]).unwrap()).sum();
            assert_eq!((counts, &buffer[..]), (n, want));
        }
        Err(CrsfParsingError::SetChannelRange { set, channel }) => {
            assert_eq!(written_singly(sets[set], dest, &mut buffer), Err(CrsfParsingError::ChannelRange(channel)));
        }
        Err(_) => (),
    }
}

fn written_singly(set: [u16; 16], dest: u8, buffer: &mut [u8]) -> Result<usize, CrsfParsingError> {
    RcChannelsPacked(set).write_packet_to_buffer(buffer, dest)
}

/// Numbers that are no better than noise, the same each time.
struct Noise(u64);

impl Noise {
    fn number(&mut self) -> u32 {
        self.0 = self.0.wrapping_mul(6364136223846793005).wrapping_add(1442695040888963407);
        (self.0 >> 32) as u32
    }

    fn below(&mut self, most: usize) -> usize {
        self.number() as usize % most
    }

    fn byte(&mut self) -> u8 {
        self.number() as u8
    }

    /// Channels that are all written.
    fn numbers(&mut self) -> [u16; NUMBERS] {
        std::array::from_fn(|_| self.below(2048) as u16)
    }

    /// A channel that is not: one of four is 2048.
    fn above(&mut self) -> u16 {
        if self.below(4) == 0 {
            2048
        } else {
            (2048 + self.below(63488)) as u16
        }
    }

    fn write(&mut self, numbers: &[u16], count: usize, dest: u8, lent: usize) {
        writes(numbers, count, dest, lent, self.byte());
    }

    /// Few and many numbers around those that so many sets have, in short and long buffers around what they need. A count that is refused has what 0
    /// and 1 sets have too: what its products are where these wrap.
    fn around(&mut self, numbers: &[u16; NUMBERS], count: usize) {
        let few = count.min(BURST_SETS_MAX);
        let (given, need) = (16 * few, 26 * few);
        for dest in SOME {
            for given in [0, 1, 15, 16, 17, given.saturating_sub(1), given, given + 1, given + 16, 256, NUMBERS] {
                for lent in [0, 1, 25, 26, 27, need.saturating_sub(1), need, need + 1, BURST_MAX, BURST_MAX + 1, LONGEST] {
                    self.write(&numbers[..given], count, dest, lent);
                }
            }
        }
    }
}

/// With good numbers, and with one above 2047 in the first set, in the eighth and in the ninth.
fn with_and_without_a_fault(noise: &mut Noise, counts: &[usize]) {
    for bad in [None, Some(0), Some(15), Some(PLACES - 1), Some(PLACES)] {
        let mut numbers = noise.numbers();
        if let Some(place) = bad {
            numbers[place] = 2048;
        }
        for &count in counts {
            noise.around(&numbers, count);
        }
    }
}

#[test]
fn every_count_up_to_300() {
    with_and_without_a_fault(&mut Noise(1), &(0..=300).collect::<Vec<_>>());
}

/// Powers of two and the numbers around them, and those around what 16, 26, 32 and 416 times them do not fit a word any more. Many a product that wraps
/// is that of 0 sets or of 1.
#[test]
fn counts_whose_products_wrap() {
    let powers = (4..usize::BITS).map(|bit| (1 << bit) - 1);
    let turns = [16, 26, 32, 416].map(|turns| usize::MAX / turns);
    for first in powers.chain(turns).chain([usize::MAX - 10]) {
        with_and_without_a_fault(&mut Noise(2), &(0..=10).map(|more| first + more).collect::<Vec<_>>());
    }
}

#[test]
fn every_buffer() {
    let mut noise = Noise(3);
    for count in 0..=9 {
        for lent in 0..=LONGEST {
            for more in [0, 1 + noise.below(100)] {
                let numbers = noise.numbers();
                noise.write(&numbers[..16 * count + more], count, 0xC8, lent);
            }
        }
    }
}

/// With good numbers and bad ones, enough and too few, in a buffer that is long enough, too short, and empty.
#[test]
fn every_destination() {
    let mut noise = Noise(4);
    for dest in 0..=255 {
        for count in 0..=9usize {
            for bad in [false, true] {
                let mut numbers = noise.numbers();
                if bad {
                    numbers[noise.below(PLACES)] = noise.above();
                }
                for given in [16 * count, (16 * count).saturating_sub(1)] {
                    for lent in [LONGEST, 26 * count, (26 * count).saturating_sub(1), 0] {
                        noise.write(&numbers[..given], count, dest, lent);
                    }
                }
            }
        }
    }
}

/// One channel of its own at each place, also past the sets that are written: above 2047 it is refused where its set is written, and nowhere else; 2047
/// among zeros, and 0 among others, have their own bits.
#[test]
fn every_place() {
    let mut noise = Noise(5);
    for place in 0..PLACES + 16 {
        for value in [0, 1, 1024, 2047, 2048, 2049, 4095, 4096, 32767, 32768, 65535] {
            for count in 0..=8usize {
                for mut numbers in [[0; NUMBERS], [2047; NUMBERS], noise.numbers()] {
                    numbers[place] = value;
                    noise.write(&numbers[..16 * count], count, 0xC8, 26 * count);
                    noise.write(&numbers, count, 0xC8, LONGEST);
                    noise.write(&numbers[..16 * count], count, 0xC8, (26 * count).saturating_sub(1));
                    noise.write(&numbers[..16 * count], count, 0xC8, 0);
                }
            }
        }
    }
}

/// Two channels above 2047, at each pair of places: the first one is named, whichever is greater.
#[test]
fn every_two_places() {
    let mut noise = Noise(6);
    for one in 0..PLACES {
        for other in one + 1..=PLACES {
            let mut numbers = noise.numbers();
            (numbers[one], numbers[other]) = (noise.above(), noise.above());
            let lent = [BURST_MAX, noise.below(LONGEST)][noise.below(2)];
            noise.write(&numbers[..PLACES], BURST_SETS_MAX, 0xC8, lent);
            let count = noise.below(9);
            noise.write(&numbers, count, 0xC8, LONGEST);
        }
    }
}

/// Faults in every combination, whatever their number: the first in the order of the rules is given.
#[test]
fn every_combination_of_faults() {
    let mut noise = Noise(7);
    let huge = [usize::MAX, usize::MAX / 16 + 1, usize::MAX / 16 + 2, usize::MAX / 2 + 1, usize::MAX / 2 + 2];
    for count in [0, 1, 2, 7, 8, 9, 10, 255, 256, 257].into_iter().chain(huge) {
        let some = if count <= 9 { count } else { 1 };
        let (given, need) = (16 * some, 26 * some);
        for dest in [0xEE, 0xEF] {
            for given in [given, given.saturating_sub(1), 0] {
                for bad in [None, Some(0), Some((16 * some).saturating_sub(1)), Some(16 * some)] {
                    for lent in [LONGEST, need, need.saturating_sub(1), 0] {
                        let mut numbers = noise.numbers();
                        if let Some(place) = bad {
                            numbers[place] = noise.above();
                        }
                        noise.write(&numbers[..given], count, dest, lent);
                    }
                }
            }
        }
    }
}

/// To an address in three of four, of numbers and in a buffer that are mostly enough, with channels above 2047 in one of four.
#[test]
fn any_burst() {
    let mut noise = Noise(8);
    for _ in 0..60000 {
        let mut numbers = noise.numbers();
        while noise.below(4) == 0 {
            numbers[noise.below(PLACES + 16)] = noise.above();
        }
        let count = noise.below(10);
        let dest = [ADDRESSES[noise.below(24)], ADDRESSES[noise.below(24)], ADDRESSES[noise.below(24)], noise.byte()][noise.below(4)];
        let given = [16 * count, 16 * count, 16 * count + noise.below(40), noise.below(NUMBERS)][noise.below(4)];
        let lent = [26 * count, 26 * count + noise.below(40), LONGEST, noise.below(LONGEST)][noise.below(4)];
        noise.write(&numbers[..given], count, dest, lent);
    }
}

/// The frames of a burst, in pieces of any size.
#[test]
fn bursts_read_in_any_pieces() {
    let mut noise = Noise(9);
    for count in 0..=8 {
        let numbers = noise.numbers();
        let sets: Vec<[u16; 16]> = numbers.chunks(16).take(count).map(|set| set.try_into().unwrap()).collect();
        let mut buffer = [0; BURST_MAX];
        let n = write_rc_channels_burst(&mut buffer, 0xEA, &sets).unwrap();
        for size in 1..=BURST_MAX {
            let mut parser = CrsfParser::new();
            let mut read = vec![];
            for mut piece in buffer[..n].chunks(size) {
                while let Some(frame) = parser.next_raw_packet(&mut piece) {
                    read.push(RcChannelsPacked::from_bytes(frame.unwrap().payload()).unwrap().0);
                }
            }
            assert_eq!((&read, parser.held()), (&sets, Ok(0)), "in pieces of {size}");
        }
    }
}

/// By hand, without the model.
#[test]
fn two_sets_and_the_most() {
    assert_eq!((BURST_SETS_MAX, BURST_MAX), (8, 208));
    let mut sets = [[0; 16]; 9];
    (sets[0][0], sets[1][15]) = (2047, 2047);
    let mut two = [0; 52];
    (two[0], two[1], two[2], two[3], two[4], two[25]) = (0xC8, 24, 0x16, 0xFF, 0x07, 0x03);
    (two[26], two[27], two[28], two[49], two[50], two[51]) = (0xC8, 24, 0x16, 0xE0, 0xFF, 0xB7);
    let mut buffer = [0xAA; 209];
    assert_eq!(write_rc_channels_burst(&mut buffer[..52], 0xC8, &sets[..2]), Ok(52));
    assert_eq!((&buffer[..52], &buffer[52..]), (&two[..], &[0xAA; 157][..]));

    let before = buffer;
    (sets[2][9], sets[7][15]) = (2048, 65535);
    for lent in 0..=209 {
        assert_eq!(write_rc_channels_burst(&mut buffer[..lent], 0xC9, &sets), Err(CrsfParsingError::BadAddress));
        assert_eq!(write_rc_channels_burst(&mut buffer[..lent], 0xC8, &sets), Err(CrsfParsingError::InvalidPayloadLength));
        let refusal = write_rc_channels_burst(&mut buffer[..lent], 0xC8, &sets[..8]);
        assert_eq!(refusal, Err(CrsfParsingError::SetChannelRange { set: 2, channel: 9 }));
        assert_eq!(write_rc_channels_burst(&mut buffer[..lent], 0xC9, &[]), Err(CrsfParsingError::BadAddress));
        assert_eq!(write_rc_channels_burst(&mut buffer[..lent], 0xC8, &[]), Ok(0));
    }
    sets[2][9] = 2047;
    let refusal = write_rc_channels_burst(&mut buffer, 0xC8, &sets[..8]).unwrap_err();
    assert_eq!(refusal, CrsfParsingError::SetChannelRange { set: 7, channel: 15 });
    assert_eq!(refusal.to_string(), "channel 15 of set 7 is above 2047");
    sets[7][15] = 2047;
    assert_eq!(write_rc_channels_burst(&mut buffer[..207], 0xC8, &sets[..8]), Err(CrsfParsingError::BufferOverflow));
    assert_eq!(buffer, before);
    assert_eq!(write_rc_channels_burst(&mut buffer[..208], 0xC8, &sets[..8]), Ok(208));
    assert_eq!((&buffer[..52], buffer[52], buffer[182], buffer[207], buffer[208]), (&two[..], 0xC8, 0xC8, 0xB7, 0xAA));
}
