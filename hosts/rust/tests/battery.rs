//! Batteries written, against a plain model: what is answered and what then stands in the buffer, from the rules alone (RULES 1.2, 2, 4 and 10.7).
//! Nothing of the archive is asked for what is expected. Each is written twice: through the wrapper, and by the entry itself, for the eight bytes of
//! its answer.
use crsf_host::{Battery, CrsfPacket, CrsfParser, CrsfParsingError};

const ADDRESSES: [u8; 24] =
    [0x00, 0x0E, 0x10, 0x12, 0x13, 0x14, 0x80, 0x90, 0x91, 0x92, 0x93, 0x94, 0x95, 0x96, 0x97, 0xC0, 0xC2, 0xC4, 0xC8, 0xCC, 0xCE, 0xEA, 0xEC, 0xEE];

/// 0, 1, and the numbers on both sides of 2^24, and far above it.
const EDGES: [u32; 10] = [0, 1, 0xFF_FFFE, 0xFF_FFFF, 0x100_0000, 0x100_0001, 0x200_0000, 0x7FFF_FFFF, 0x8000_0000, 0xFFFF_FFFF];

/// Two addresses, and two bytes that are none.
const SOME: [u8; 4] = [0xC8, 0x00, 0xC9, 0xFF];

/// The longest buffer, and how many bytes on each side of it are looked at.
const LONGEST: usize = 300;
const BESIDE: usize = 16;

extern "C" {
    fn crsf_write_battery(buffer: *mut u8, buffer_len: usize, dest: u8, voltage: i16, current: i16, capacity_used: u32, remaining: u8, id: u8)
        -> u64;
}

/// The check byte, bit by bit (RULES 4.5).
fn check_byte(bytes: &[u8]) -> u8 {
    bytes.iter().fold(0, |rest, byte| (0..8).fold(rest ^ byte, |rest: u8, _| if rest & 0x80 == 0 { rest << 1 } else { rest << 1 ^ 0xD5 }))
}

/// The frame that is written to a buffer of `lent` bytes, or the number of the refusal.
fn model(battery: &Battery, dest: u8, lent: usize) -> Result<Vec<u8>, u8> {
    if !ADDRESSES.contains(&dest) {
        return Err(7);
    }
    if battery.capacity_used > 16_777_215 {
        return Err(11);
    }
    let mut frame = vec![dest, 0, 0x08];
    frame.extend(battery.voltage.to_be_bytes());
    frame.extend(battery.current.to_be_bytes());
    frame.extend(&battery.capacity_used.to_be_bytes()[1..]);
    frame.push(battery.remaining);
    if battery.id != 0 {
        frame.push(battery.id);
    }
    frame[1] = frame.len() as u8 - 1;
    frame.push(check_byte(&frame[2..]));
    if lent < frame.len() {
        return Err(5);
    }
    Ok(frame)
}

/// Writes a battery, and compares the answer, every byte of the buffer and those on both sides of it with the model's. What was written is one frame,
/// and its payload is read as the same battery.
fn writes(battery: Battery, dest: u8, lent: usize, before: u8) {
    let said = model(&battery, dest, lent);
    let mut want = [before; BESIDE + LONGEST + BESIDE];
    let (mut by_wrapper, mut by_entry, mut answer) = (want, want, [0; 8]);
    match &said {
        Ok(frame) => {
            want[BESIDE..BESIDE + frame.len()].copy_from_slice(frame);
            answer[4] = frame.len() as u8;
        }
        Err(number) => answer[0] = *number,
    }

    let buffer = &mut by_entry[BESIDE..BESIDE + lent];
    let Battery { voltage, current, capacity_used, remaining, id } = battery;
    // SAFETY: the buffer is passed as its own pointer and length, and the entry keeps nothing.
    let eight = unsafe { crsf_write_battery(buffer.as_mut_ptr(), buffer.len(), dest, voltage, current, capacity_used, remaining, id) };
    assert_eq!(eight.to_le_bytes(), answer, "{battery:?} to {dest:02X} in {lent} bytes");
    assert_eq!(by_entry, want, "{battery:?} to {dest:02X} in {lent} bytes");

    let expected = match &said {
        Ok(frame) => Ok(frame.len()),
        Err(5) => Err(CrsfParsingError::BufferOverflow),
        Err(7) => Err(CrsfParsingError::BadAddress),
        Err(_) => Err(CrsfParsingError::CapacityRange),
    };
    assert_eq!(battery.write_packet_to_buffer(&mut by_wrapper[BESIDE..BESIDE + lent], dest), expected, "{battery:?} to {dest:02X} in {lent} bytes");
    assert_eq!(by_wrapper, want, "{battery:?} to {dest:02X} in {lent} bytes");

    if let Ok(n) = expected {
        let mut parser = CrsfParser::new();
        let mut input = &by_wrapper[BESIDE..BESIDE + n];
        let frame = parser.next_raw_packet(&mut input).unwrap().unwrap();
        assert_eq!((frame.as_bytes(), input.len()), (&want[BESIDE..BESIDE + n], 0));
        assert_eq!(Battery::from_bytes(frame.payload()), Ok(battery));
    }
}

/// Numbers that are no better than noise, the same each time.
struct Noise(u64);

impl Noise {
    fn number(&mut self) -> u32 {
        self.0 = self.0.wrapping_mul(6364136223846793005).wrapping_add(1442695040888963407);
        (self.0 >> 32) as u32
    }

    /// A voltage or a current: any, or an extreme one.
    fn tenths(&mut self) -> i16 {
        let any = self.number() as i16;
        [any, any, any, 0, -1, 256, i16::MAX, i16::MIN][self.number() as usize % 8]
    }

    /// A capacity, with an id and without one, to these addresses, in buffers of these lengths.
    fn write(&mut self, capacity_used: u32, to: &[u8], lengths: std::ops::RangeInclusive<usize>) {
        for id in [0, 5, 255] {
            for &dest in to {
                for lent in lengths.clone() {
                    let (voltage, current, remaining) = (self.tenths(), self.tenths(), self.number() as u8);
                    writes(Battery { voltage, current, capacity_used, remaining, id }, dest, lent, self.number() as u8);
                }
            }
        }
    }
}

#[test]
fn edges_to_every_address_in_every_buffer() {
    let all: Vec<u8> = (0..=255).collect();
    let mut noise = Noise(1);
    for capacity in EDGES {
        noise.write(capacity, &all, 0..=16);
        noise.write(capacity, &SOME, 17..=LONGEST);
    }
}

#[test]
fn capacities_around_every_power_of_two() {
    let mut noise = Noise(2);
    for power in (0..32).map(|bit| 1 << bit) {
        for capacity in [power - 1, power, power + 1] {
            noise.write(capacity, &SOME, 0..=16);
        }
    }
}

#[test]
fn any_capacity() {
    let mut noise = Noise(3);
    for _ in 0..1000 {
        let any = noise.number();
        for capacity in [any, any >> (noise.number() % 32), 0x100_0000 - 500 + any % 1000] {
            noise.write(capacity, &SOME, 0..=16);
        }
    }
}

/// By hand, without the model.
#[test]
fn the_most_and_one_more() {
    assert_eq!(Battery::MAX_CAPACITY, 16_777_215);
    let most = Battery { voltage: 120, current: 15, capacity_used: Battery::MAX_CAPACITY, remaining: 50, id: 0 };
    let mut buffer = [0xAA; 14];
    assert_eq!(most.write_packet_to_buffer(&mut buffer, 0xC8), Ok(12));
    assert_eq!(buffer[..11], [0xC8, 10, 8, 0, 120, 0, 15, 0xFF, 0xFF, 0xFF, 50]);
    let before = buffer;
    let more = Battery { capacity_used: Battery::MAX_CAPACITY + 1, ..most };
    for lent in 0..=14 {
        assert_eq!(more.write_packet_to_buffer(&mut buffer[..lent], 0xC8), Err(CrsfParsingError::CapacityRange));
        assert_eq!(more.write_packet_to_buffer(&mut buffer[..lent], 0xC9), Err(CrsfParsingError::BadAddress));
    }
    assert_eq!(buffer, before);
    assert_eq!(CrsfParsingError::CapacityRange.to_string(), "the capacity is above 16777215 mAh");
}
