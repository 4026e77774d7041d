//! One run of the timing: rounds of each side in turn, and the best of each side. medians.rs makes the table of seven runs.
//!
//! Each side is called in the same way, through a pointer of which the compiler knows nothing (`kept`), so that nothing of either side is compiled
//! into the loop that times it, and each call is a call through a register.
use crate::bursts::{CHANNELS, FRAME, SETS};
use crate::gen::{self, Rng};
use crate::listing::Listing;
use crate::logs;
use crate::ours::{self, kept, Answer, Entries, LogState, State};
use crate::queries::CHECK;
use crate::records::{self, Record, RECORDS};
use crc::Crc;
use std::hint::black_box;
use std::time::Instant;
use uf_crsf::packets::{write_packet_to_buffer, CrsfPacket};
use uf_crsf::packets::{BaroAltitude, Battery, Gps, GpsExtended, LinkStatistics, RcChannelsPacked, Rpm, Temp, Voltages};
use uf_crsf::{CrsfParser, CrsfParsingError, CrsfStreamError, PacketAddress, RawCrsfPacket};

/// How often a run comes to each row, so that all rows have their share of its quiet moments and of its fast clock.
const VISITS: usize = 31;
/// How many rounds of each side a visit has, in turn.
const TURNS: usize = 5;
pub const ROUNDS: usize = VISITS * TURNS;
/// How many times a run starts each listing program.
pub const LISTINGS: usize = 5;
/// Bytes of a stream: a round is short, so that some rounds of each side are left in peace by whatever else runs.
const STREAM: usize = 60_000;
/// The length of a piece that is the whole stream.
const WHOLE: usize = STREAM * 2;

pub const CONTIGUOUS: &str = "typical frames, contiguous";
pub const SIXTEEN: &str = "typical frames in 16-byte pieces";
pub const BYTES: &str = "typical frames in 1-byte pieces";
/// A log of the same frames. The Rust has none: its side is its stream, over the frames alone.
pub const LOG: &str = "log of typical frames, contiguous; the Rust, its frames alone";
pub const LOG_SIXTEEN: &str = "log of typical frames in 16-byte pieces; the Rust, its frames alone";
/// Channel frames one behind the other: how many, the row of a burst, and that of a call for each, which is the Rust's side in both.
pub const BURSTS: [(usize, &str, &str); 2] = [
    (SETS, "eight channel frames in a burst; the Rust, a call for each", "eight channel frames, a call for each"),
    (1, "one channel frame in a burst; the Rust, its call", "one channel frame, a call"),
];
/// Both again with a call that reads the length byte and nothing else, so that what is left is the driver's own loop and the call.
const LOOP: &str = "the driver's own loop, contiguous";
pub const LOOP_BYTES: &str = "the driver's own loop in 1-byte pieces";
/// The contiguous loop, and in it the check byte of each frame.
pub const FLOOR: &str = "the driver's own loop and the check byte";
pub const CHECKS: &str = "check byte of each typical frame";

/// The archives that are timed: the one before, where there is one, and ours.
pub fn archives() -> Vec<&'static Entries> {
    vec![
        #[cfg(before)]
        &ours::BEFORE,
        &ours::NOW,
    ]
}

/// Nanoseconds of each side for each of `count` things: the Rust, the archive before where there is one, ours.
fn say(name: &str, unit: &str, count: usize, seconds: &[f64]) {
    let ns: Vec<String> = seconds.iter().map(|seconds| format!("{}", seconds * 1e9 / count as f64)).collect();
    println!("{name}\t{unit}\t{}", ns.join("\t"));
}

/// A row that is timed: what each side does in a round, and the best of each side so far, in seconds.
struct Row {
    name: String,
    unit: &'static str,
    count: usize,
    sides: Vec<Box<dyn Fn() -> u64>>,
    best: Vec<f64>,
}

struct Rows {
    rows: Vec<Row>,
    /// The archives that the next rows are timed with.
    archives: Vec<&'static Entries>,
}

impl Rows {
    /// One more row. All sides give a sum, which must be the same.
    fn add(&mut self, name: &str, unit: &'static str, count: usize, rust: impl Fn() -> u64 + 'static, ours: impl Fn(&Entries) -> u64 + Copy + 'static) {
        let mut sides: Vec<Box<dyn Fn() -> u64>> = vec![Box::new(rust)];
        for &entries in &self.archives {
            sides.push(Box::new(move || ours(entries)));
        }
        assert!(sides.iter().all(|side| side() == sides[0]()), "{name}: the sides gave different sums");
        let best = vec![f64::MAX; sides.len()];
        self.rows.push(Row { name: name.to_string(), unit, count, sides, best });
    }

    /// Times them all: the rows in turn, and in each the sides in turn, each side first as often as another.
    fn time(&mut self) {
        for visit in 0..VISITS {
            for row in &mut self.rows {
                for turn in 0..TURNS {
                    for i in 0..row.sides.len() {
                        let side = (visit + turn + i) % row.sides.len();
                        let t = Instant::now();
                        black_box((row.sides[side])());
                        row.best[side] = row.best[side].min(t.elapsed().as_secs_f64());
                    }
                }
            }
        }
        for row in &self.rows {
            say(&row.name, row.unit, row.count, &row.best);
        }
    }
}

/// The Rust's call for the next frame.
type Next = for<'p, 'i> fn(&'p mut CrsfParser, &mut &'i [u8]) -> Option<Result<RawCrsfPacket<'p>, CrsfStreamError>>;

/// The Rust's own function as such a pointer.
fn next_rust() -> Next {
    let next: fn(&'static mut CrsfParser, &mut &'static [u8]) -> Option<Result<RawCrsfPacket<'static>, CrsfStreamError>> = CrsfParser::next_raw_packet;
    // Its type asks that the input outlives the frame, which a pointer's type can't say; here the input outlives all.
    unsafe { std::mem::transmute::<_, Next>(next) }
}

/// A stream in pieces through the Rust's call, each piece until it asks for more. The sum is of frames' types and lengths.
#[inline(never)]
fn stream_rust(next: Next, bytes: &[u8], piece: usize) -> u64 {
    let next = kept(&next);
    let mut parser = CrsfParser::new();
    let mut sum = 0;
    for piece in bytes.chunks(piece) {
        let mut left = piece;
        while let Some(answer) = next(&mut parser, &mut left) {
            sum += match answer {
                Ok(frame) => frame.len() as u64 + (u64::from(frame.raw_packet_type()) << 32),
                Err(_) => 1 << 52,
            };
        }
    }
    sum
}

/// How many bytes an archive's state has: 66 before there were positions.
fn state_len(entries: &Entries) -> usize {
    let mut state: State = [0; 74];
    if entries.reset(&mut state) == Answer::default() {
        state.len()
    } else {
        66
    }
}

/// The same through the port's entry, with so many places lent for the position of an answer. A host lends one. An entry from before there were positions
/// takes four arguments and doesn't look at the registers in which two more come, so that one loop serves both.
#[inline(never)]
fn stream_ours<const LENT: usize>(entries: &Entries, bytes: &[u8], piece: usize) -> u64 {
    let entries = entries.kept();
    let mut state: State = [0; 74];
    let state = &mut state[..state_len(&entries)];
    let mut position = [0; LENT];
    let mut sum = 0;
    for piece in bytes.chunks(piece) {
        let mut left = piece;
        loop {
            let a = entries.next_raw_packet(state, left, &mut position);
            if a.number == ours::MORE {
                break;
            }
            sum += if a.number == ours::FRAME {
                let frame = if a.in_state == 1 { &state[usize::from(a.at)..] } else { left };
                u64::from(a.len) + (u64::from(frame[2]) << 32)
            } else {
                1 << 52
            };
            left = &left[usize::from(a.taken)..];
        }
    }
    sum
}

/// A log through the port's entry. The sum is of the same, and the seconds go to their place.
#[inline(never)]
fn log_ours(entries: &Entries, log: &[u8], piece: usize) -> u64 {
    let entries = entries.kept();
    let mut state: LogState = [0; 75];
    let (mut sum, mut seconds) = (0, 0);
    for piece in log.chunks(piece) {
        let mut left = piece;
        loop {
            let a = entries.log_next(&mut state, left, &mut seconds);
            if a.number == ours::MORE {
                break;
            }
            sum += if a.number == ours::FRAME {
                let place = if a.in_state == 1 { &state[..] } else { left };
                black_box(seconds);
                u64::from(a.len) + (u64::from(place[usize::from(a.at) + 2]) << 32)
            } else {
                1 << 52
            };
            left = &left[usize::from(a.taken)..];
        }
    }
    sum
}

/// In the place of the Rust's call: reads the length byte and answers a frame of that length. Nothing is checked.
fn walk_rust<'p>(_: &'p mut CrsfParser, input: &mut &[u8]) -> Option<Result<RawCrsfPacket<'p>, CrsfStreamError>> {
    let chunk = *input;
    let len = usize::from(*chunk.get(1)?) + 2;
    let (frame, rest) = chunk.split_at_checked(len)?;
    *input = rest;
    // As in `next_rust`: the input outlives the frame.
    let frame: &'p [u8] = unsafe { std::mem::transmute(frame) };
    RawCrsfPacket::new(frame).map(Ok)
}

/// The same in the place of the port's entry.
unsafe extern "C" fn walk_ours(_: *mut u8, _: usize, input: *const u8, len: usize, _: *mut u64, _: usize) -> Answer {
    /// Kept apart, so that a test stays a branch: a conditional move would make each frame wait for the test of the one before.
    #[cold]
    #[inline(never)]
    fn torn() -> Answer {
        Answer::refusal(ours::MORE)
    }
    if len < 2 {
        return Answer::refusal(ours::MORE);
    }
    let frame = unsafe { *input.add(1) }.wrapping_add(2);
    if usize::from(frame) > len {
        return torn();
    }
    Answer { number: ours::FRAME, taken: frame, len: frame, ..Answer::default() }
}

/// The archive's entries, but for the stream that which only walks.
fn walking(entries: &Entries) -> Entries {
    Entries { crsf_next_raw_packet: walk_ours, ..*entries }
}

type CheckRust = fn(&Crc<u8>, &[u8]) -> u8;

/// The loop that only walks, and of each frame the check byte.
#[inline(never)]
fn floor_rust(bytes: &[u8]) -> u64 {
    let (next, check) = kept(&(walk_rust as Next, Crc::<u8>::checksum as CheckRust));
    let mut parser = CrsfParser::new();
    let mut sum = 0;
    let mut left = bytes;
    while let Some(Ok(frame)) = next(&mut parser, &mut left) {
        let bytes = frame.as_slice();
        sum += u64::from(check(&CHECK, &bytes[2..bytes.len() - 1]) == bytes[bytes.len() - 1]);
    }
    sum
}

#[inline(never)]
fn floor_ours(entries: &Entries, bytes: &[u8]) -> u64 {
    let entries = walking(entries).kept();
    let mut state: State = [0; 74];
    let mut position = [0; 1];
    let mut sum = 0;
    let mut left = bytes;
    loop {
        let a = entries.next_raw_packet(&mut state, left, &mut position);
        if a.number == ours::MORE {
            break;
        }
        let (bytes, rest) = left.split_at(usize::from(a.taken));
        sum += u64::from(entries.checksum(&bytes[2..bytes.len() - 1]) == bytes[bytes.len() - 1]);
        left = rest;
    }
    sum
}

/// The type and payload of each frame of a stream of whole frames.
fn bodies(stream: &[u8]) -> Vec<&[u8]> {
    let mut at = 0;
    let mut all = vec![];
    while at < stream.len() {
        let end = at + usize::from(stream[at + 1]) + 2;
        all.push(&stream[at + 2..end - 1]);
        at = end;
    }
    all
}

#[inline(always)]
fn check_bytes(all: &[&[u8]], check: impl Fn(&[u8]) -> u8) -> u64 {
    all.iter().map(|bytes| u64::from(check(bytes))).sum()
}

/// The check byte of each of these, by the Rust.
#[inline(never)]
fn checks_rust(all: &[&[u8]]) -> u64 {
    let check = kept(&(Crc::<u8>::checksum as CheckRust));
    check_bytes(all, |bytes| check(&CHECK, bytes))
}

#[inline(never)]
fn checks_ours(entries: &Entries, all: &[&[u8]]) -> u64 {
    let entries = entries.kept();
    check_bytes(all, |bytes| entries.checksum(bytes))
}

/// How many records a round reads or writes.
const MANY: usize = 4096;

/// Reads a payload after another, into places that are lent once for all.
#[inline(always)]
fn reads<N: Copy + Default, const PLACES: usize>(payloads: &[Vec<u8>], each: impl Fn(&[u8], &mut [N; PLACES]) -> bool) -> u64 {
    let mut out = [N::default(); PLACES];
    let mut sum = 0;
    for i in 0..MANY {
        sum += u64::from(each(black_box(&payloads[i % 64]), &mut out));
        black_box(&out);
    }
    sum
}

/// Writes a record after another into one buffer.
#[inline(always)]
fn writes<R>(all: &[R], each: impl Fn(&mut [u8], &R) -> u64) -> u64 {
    let mut b = [0u8; 64];
    (0..MANY).map(|i| each(black_box(&mut b[..]), black_box(&all[i % 64]))).sum()
}

type ReadRust<R> = fn(&[u8]) -> Result<R, CrsfParsingError>;
type WriteRust<R> = fn(&mut [u8], PacketAddress, &R) -> Result<usize, CrsfParsingError>;

/// The Rust's reader to its struct.
#[inline(never)]
fn structs<R>(payloads: &[Vec<u8>], read: ReadRust<R>) -> u64 {
    let read = kept(&read);
    reads::<i32, 1>(payloads, |p, _| {
        let answer = read(p);
        black_box(&answer);
        answer.is_ok()
    })
}

/// The Rust's writer.
#[inline(never)]
fn frames<R>(all: &[R], write: WriteRust<R>) -> u64 {
    let write = kept(&write);
    writes(all, |b, r| write(b, PacketAddress::FlightController, r).unwrap_or(0) as u64)
}

/// A kind of record for timing. The Rust reads into its struct, and once more into lent numbers, which is what the port's entry does.
macro_rules! record_rows {
    ($rows:expr, $name:expr, $kind:ty, $record:expr, $make:expr, $number:ty, $places:expr, $numbers:expr, $read_ours:expr, $write_ours:expr) => {{
        fn read_numbers(p: &[u8], out: &mut [$number]) -> Result<(), CrsfParsingError> {
            let r = <$kind>::from_bytes(p)?;
            let Some(out) = out.first_chunk_mut::<$places>() else { return Err(CrsfParsingError::BufferOverflow) };
            #[inline(always)]
            fn numbers(r: &$kind, f: impl FnOnce(&$kind, &mut [$number; $places]), out: &mut [$number; $places]) {
                f(r, out)
            }
            numbers(&r, $numbers, out);
            Ok(())
        }
        let record: &Record = $record;
        let mut r = Rng::new(7);
        let all: &'static [$kind] = (0..64).map(|_| $make(&record.random_fields(&mut r))).collect::<Vec<_>>().leak();
        let payloads: &'static [Vec<u8>] = all
            .iter()
            .map(|x| {
                let mut b = [0; 64];
                let n = write_packet_to_buffer(&mut b, PacketAddress::FlightController, x).expect("64 bytes are enough");
                b[3..n - 1].to_vec()
            })
            .collect::<Vec<_>>()
            .leak();
        let read_ours = move |entries: &Entries| {
            let entries = entries.kept();
            reads::<$number, $places>(payloads, |p, out| $read_ours(&entries, p, &mut out[..]).number == ours::OK)
        };
        let rust_numbers = move || {
            let read = kept(&(read_numbers as fn(&[u8], &mut [$number]) -> Result<(), CrsfParsingError>));
            reads::<$number, $places>(payloads, |p, out| read(p, &mut out[..]).is_ok())
        };
        $rows.add(&format!("{} read, the Rust to its struct", $name), "record", MANY, || structs(payloads, <$kind>::from_bytes), read_ours);
        $rows.add(&format!("{} read, both to numbers", $name), "record", MANY, rust_numbers, read_ours);
        $rows.add(&format!("{} written", $name), "frame", MANY, || frames(all, write_packet_to_buffer::<$kind>), |entries| {
            let entries = entries.kept();
            writes(all, |b, r| u64::from($write_ours(&entries, b, 0xC8, r).len))
        });
    }};
}

/// Both sides' altitudes are of this type, so that one loop times them all.
type Number<A, B> = unsafe extern "C" fn(A) -> B;

extern "C" fn pack_rust(decimetres: i32) -> u16 {
    BaroAltitude::get_altitude_packed(decimetres)
}

extern "C" fn unpack_rust(packed: u16) -> i32 {
    BaroAltitude { altitude_packed: packed, vertical_speed_packed: 0 }.get_altitude_dm()
}

extern "C" fn empty(decimetres: i32) -> u16 {
    decimetres as u16
}

#[inline(never)]
fn numbers<A: Copy, B: Into<i64>>(inputs: &[A], each: Number<A, B>) -> u64 {
    let each = kept(&each);
    inputs.iter().map(|x| unsafe { each(black_box(*x)) }.into() as u64).fold(0, u64::wrapping_add)
}

fn altitude_rows(rows: &mut Rows) {
    let heights: &'static [i32] = (0..MANY as i32).map(|i| i * 80 - 10_000).collect::<Vec<_>>().leak();
    let words: &'static [u16] = (0..MANY as u16).map(|i| i.wrapping_mul(17)).collect::<Vec<_>>().leak();
    rows.add("altitude packed", "value", MANY, || numbers(heights, pack_rust), |e| numbers(heights, e.crsf_pack_altitude));
    rows.add("altitude unpacked", "value", MANY, || numbers(words, unpack_rust), |e| numbers(words, e.crsf_baro_decimetres));
    rows.add("altitude, an empty call", "value", MANY, || numbers(heights, empty), |_| numbers(heights, empty));
}

/// What a record costs before anything of it is read or written: calls of link statistics' own signatures that answer at once.
fn empty_rows(rows: &mut Rows) {
    fn read_rust(_: &[u8]) -> Result<LinkStatistics, CrsfParsingError> {
        Ok(records::link_statistics(&[0; 10]))
    }
    fn write_rust(_: &mut [u8], _: PacketAddress, _: &LinkStatistics) -> Result<usize, CrsfParsingError> {
        Ok(14)
    }
    unsafe extern "C" fn read_ours(_: *const u8, _: usize, _: *mut i32, _: usize) -> Answer {
        Answer::default()
    }
    #[rustfmt::skip]
    unsafe extern "C" fn write_ours(
        _: *mut u8, _: usize, _: u8, _: u8, _: u8, _: u8, _: i8, _: u8, _: u8, _: u8, _: u8, _: u8, _: i8,
    ) -> Answer {
        Answer::wrote(14)
    }
    let payloads: &'static [Vec<u8>] = vec![vec![0; 10]; 64].leak();
    rows.add("link statistics, empty readers", "record", MANY, || structs(payloads, read_rust), |e| {
        let e = Entries { crsf_read_link_statistics: read_ours, ..*e }.kept();
        reads::<i32, 10>(payloads, |p, out| e.read_link_statistics(p, out).number == ours::OK)
    });
    let all: &'static [LinkStatistics] = vec![records::link_statistics(&[0; 10]); 64].leak();
    rows.add("link statistics, empty writers", "frame", MANY, || frames(all, write_rust), |e| {
        let e = Entries { crsf_write_link_statistics: write_ours, ..*e }.kept();
        writes(all, |b, r| u64::from(e.write_link_statistics(b, 0xC8, r).len))
    });
}

/// So many values of a series, in their type, to which `narrow` takes them.
fn values_of<N, const COUNT: usize>(f: &[i64], narrow: fn(i64) -> N) -> [N; COUNT] {
    std::array::from_fn(|i| narrow(f.get(1 + i).copied().unwrap_or(i as i64)))
}

fn rpm_of(f: &[i64]) -> Rpm {
    Rpm::new(f[0] as u8, &values_of::<_, 4>(f, |x| x as i32)).expect("four values are allowed")
}

fn temp_of(f: &[i64]) -> Temp {
    Temp::new(f[0] as u8, &values_of::<_, 4>(f, |x| x as i16)).expect("four values are allowed")
}

fn voltages_of(f: &[i64]) -> Voltages {
    Voltages::new(f[0] as u8, &values_of::<_, 6>(f, |x| x as u16)).expect("six values are allowed")
}

fn record_row_of_each_kind(rows: &mut Rows) {
    record_rows!(
        rows, "link statistics", LinkStatistics, &RECORDS[0], records::link_statistics, i32, 10,
        |r, o| {
            o[0] = i32::from(r.uplink_rssi_1);
            o[1] = i32::from(r.uplink_rssi_2);
            o[2] = i32::from(r.uplink_link_quality);
            o[3] = i32::from(r.uplink_snr);
            o[4] = i32::from(r.active_antenna);
            o[5] = i32::from(r.rf_mode);
            o[6] = i32::from(r.uplink_tx_power);
            o[7] = i32::from(r.downlink_rssi);
            o[8] = i32::from(r.downlink_link_quality);
            o[9] = i32::from(r.downlink_snr);
        },
        Entries::read_link_statistics, Entries::write_link_statistics
    );
    record_rows!(
        rows, "channels", RcChannelsPacked, &RECORDS[1], |f: &[i64]| RcChannelsPacked(std::array::from_fn(|i| f[i] as u16)), u16, 16,
        |r, o| *o = r.0,
        Entries::read_rc_channels_packed, |e: &Entries, b: &mut [u8], dest, r: &RcChannelsPacked| e.write_rc_channels_packed(b, dest, &r.0)
    );
    record_rows!(
        rows, "GPS", Gps, &RECORDS[2], records::gps, i32, 6,
        |r, o| {
            o[0] = r.latitude;
            o[1] = r.longitude;
            o[2] = i32::from(r.groundspeed);
            o[3] = i32::from(r.heading);
            o[4] = i32::from(r.altitude);
            o[5] = i32::from(r.satellites);
        },
        Entries::read_gps, Entries::write_gps
    );
    record_rows!(
        rows, "GPS extended", GpsExtended, &RECORDS[3], records::gps_extended, i32, 12,
        |r, o| {
            o[0] = i32::from(r.fix_type);
            o[1] = i32::from(r.n_speed);
            o[2] = i32::from(r.e_speed);
            o[3] = i32::from(r.v_speed);
            o[4] = i32::from(r.h_speed_acc);
            o[5] = i32::from(r.track_acc);
            o[6] = i32::from(r.alt_ellipsoid);
            o[7] = i32::from(r.h_acc);
            o[8] = i32::from(r.v_acc);
            o[9] = i32::from(r.reserved);
            o[10] = i32::from(r.h_dop);
            o[11] = i32::from(r.v_dop);
        },
        Entries::read_gps_extended, Entries::write_gps_extended
    );
    record_rows!(
        rows, "battery", Battery, &RECORDS[4], records::battery, i32, 5,
        |r, o| {
            o[0] = i32::from(r.voltage);
            o[1] = i32::from(r.current);
            o[2] = r.capacity_used as i32;
            o[3] = i32::from(r.remaining);
            o[4] = i32::from(r.id);
        },
        Entries::read_battery, Entries::write_battery
    );
    record_rows!(
        rows, "altitude", BaroAltitude, &RECORDS[5], records::baro_altitude, i32, 2,
        |r, o| {
            o[0] = i32::from(r.altitude_packed);
            o[1] = i32::from(r.vertical_speed_packed);
        },
        Entries::read_baro_altitude, Entries::write_baro_altitude
    );
    record_rows!(
        rows, "RPM of 4 values", Rpm, &RECORDS[6], rpm_of, i32, 19,
        |r, o| o[..r.rpm_values().len()].copy_from_slice(r.rpm_values()),
        Entries::read_rpm, |e: &Entries, b: &mut [u8], dest, r: &Rpm| e.write_rpm(b, dest, r.rpm_source_id, r.rpm_values())
    );
    record_rows!(
        rows, "temperatures of 4 values", Temp, &RECORDS[7], temp_of, i16, 20,
        |r, o| o[..r.temperatures().len()].copy_from_slice(r.temperatures()),
        Entries::read_temp, |e: &Entries, b: &mut [u8], dest, r: &Temp| e.write_temp(b, dest, r.temp_source_id, r.temperatures())
    );
    record_rows!(
        rows, "voltages of 6 values", Voltages, &RECORDS[8], voltages_of, u16, 29,
        |r, o| o[..r.voltage_values().len()].copy_from_slice(r.voltage_values()),
        Entries::read_voltages, |e: &Entries, b: &mut [u8], dest, r: &Voltages| e.write_voltages(b, dest, r.voltage_source_id, r.voltage_values())
    );
}

/// Buffers for so many channel frames, one after another, and the first set of each.
#[inline(always)]
fn bursts<const COUNT: usize>(each: impl Fn(&mut [u8], usize) -> u64) -> u64 {
    let mut b = [0u8; SETS * FRAME];
    (0..MANY / COUNT).map(|i| each(black_box(&mut b[..COUNT * FRAME]), i * COUNT % 64)).sum()
}

/// A call for each set, into the same places as a burst.
#[inline(always)]
fn one_by_one<const COUNT: usize>(all: &[RcChannelsPacked], each: impl Fn(&mut [u8], &RcChannelsPacked) -> u64) -> u64 {
    bursts::<COUNT>(|b, at| b.chunks_exact_mut(FRAME).zip(black_box(&all[at..at + COUNT])).map(|(b, set)| each(b, set)).sum())
}

#[inline(never)]
fn one_by_one_rust<const COUNT: usize>(all: &[RcChannelsPacked]) -> u64 {
    let write = kept(&(write_packet_to_buffer as WriteRust<RcChannelsPacked>));
    one_by_one::<COUNT>(all, |b, set| write(b, PacketAddress::FlightController, set).unwrap_or(0) as u64)
}

#[inline(never)]
fn one_by_one_ours<const COUNT: usize>(entries: &Entries, all: &[RcChannelsPacked]) -> u64 {
    let entries = entries.kept();
    one_by_one::<COUNT>(all, |b, set| u64::from(entries.write_rc_channels_packed(b, 0xC8, &set.0).len))
}

#[inline(never)]
fn bursts_ours<const COUNT: usize>(entries: &Entries, numbers: &[u16]) -> u64 {
    let entries = entries.kept();
    bursts::<COUNT>(|b, at| {
        let numbers = black_box(&numbers[CHANNELS * at..CHANNELS * (at + COUNT)]);
        u64::from(entries.write_rc_channels_burst(b, 0xC8, numbers, COUNT).len)
    })
}

/// Sets of channels in bursts of so many, and by a call for each. What is timed is first held against the Rust's bytes.
fn burst_rows<const COUNT: usize>(rows: &mut Rows) {
    let mut r = Rng::new(7);
    let numbers: &'static [u16] = (0..64).flat_map(|_| RECORDS[1].random_fields(&mut r)).map(|x| x as u16).collect::<Vec<_>>().leak();
    let set = |numbers: &[u16]| RcChannelsPacked(numbers.try_into().expect("a set has sixteen channels"));
    let all: &'static [RcChannelsPacked] = numbers.chunks(CHANNELS).map(set).collect::<Vec<_>>().leak();
    for (all, numbers) in all.chunks(COUNT).zip(numbers.chunks(CHANNELS * COUNT)) {
        let (mut rust, mut single, mut burst) = ([0; SETS * FRAME], [0; SETS * FRAME], [0; SETS * FRAME]);
        for ((rust, single), set) in rust.chunks_mut(FRAME).zip(single.chunks_mut(FRAME)).zip(all) {
            write_packet_to_buffer(rust, PacketAddress::FlightController, set).expect("26 bytes are enough");
            ours::write_rc_channels_packed(single, 0xC8, &set.0);
        }
        ours::write_rc_channels_burst(&mut burst, 0xC8, numbers, COUNT);
        assert!(single == rust && burst == rust, "what is written of {numbers:?} is not what the Rust writes");
    }
    let (_, burst, calls) = BURSTS.into_iter().find(|(count, ..)| *count == COUNT).expect("there are rows of that count");
    rows.add(calls, "frame", MANY, || one_by_one_rust::<COUNT>(all), |e| one_by_one_ours::<COUNT>(e, all));
    let archives = std::mem::replace(&mut rows.archives, vec![&ours::NOW]);
    rows.add(burst, "frame", MANY, || one_by_one_rust::<COUNT>(all), |e| bursts_ours::<COUNT>(e, numbers));
    rows.archives = archives;
}

/// The stream of typical frames, and a log of them.
fn typical_and_log(r: &mut Rng) -> (Vec<u8>, Vec<logs::Entry>) {
    let typical = gen::typical(r, STREAM);
    let mut r = Rng::new(43);
    let entries = bodies(&typical).iter().map(|body| (gen::seconds(&mut r), gen::frame(0xC8, body))).collect();
    (typical, entries)
}

/// How many frames the typical stream has, and how many bytes it and its log have.
pub fn lengths() -> (usize, usize, usize) {
    let (typical, entries) = typical_and_log(&mut Rng::new(42));
    (entries.len(), typical.len(), logs::by_rules(&entries).len())
}

/// Logs of the typical frames. What is read is first held against what was written.
fn log_rows(rows: &mut Rows, typical: &'static [u8], entries: &[logs::Entry]) {
    let log: &'static [u8] = logs::by_rules(entries).leak();
    assert_eq!(logs::written(entries).as_deref(), Ok(log), "the log that was written");
    let archives = std::mem::replace(&mut rows.archives, vec![&ours::NOW]);
    for (name, piece) in [(LOG, WHOLE), (LOG_SIXTEEN, 16)] {
        for archive in &rows.archives {
            let read = logs::read(archive, log, logs::pieces(log.len(), piece));
            assert_eq!(read.as_deref(), Ok(entries), "{name}: what was read is not what was written");
        }
        rows.add(name, "entry", entries.len(), move || stream_rust(next_rust(), typical, piece), move |e| log_ours(e, log, piece));
    }
    rows.archives = archives;
}

/// One run: a line for each row.
pub fn once(listing: Listing) {
    let mut r = Rng::new(42);
    let (typical, entries) = typical_and_log(&mut r);
    let typical: &'static [u8] = typical.leak();
    let frames: &'static [&[u8]] = bodies(typical).leak();
    let mut noise = vec![0; STREAM];
    r.fill(&mut noise);
    let noise: &'static [u8] = noise.leak();
    let mut damaged = vec![];
    for (i, body) in frames.iter().enumerate() {
        let mut f = gen::frame(0xC8, body);
        f[5] ^= if i % 4 == 0 { 0x55 } else { 0 };
        damaged.extend(f);
    }
    let mut rows = Rows { rows: vec![], archives: archives() };
    let mut stream = |name: &str, unit, count, bytes: &'static [u8], piece| {
        rows.add(name, unit, count, move || stream_rust(next_rust(), bytes, piece), move |e| stream_ours::<1>(e, bytes, piece))
    };
    stream(CONTIGUOUS, "frame", frames.len(), typical, WHOLE);
    stream("typical frames in 64-byte pieces", "byte", typical.len(), typical, 64);
    stream(SIXTEEN, "byte", typical.len(), typical, 16);
    stream(BYTES, "byte", typical.len(), typical, 1);
    stream("noise, contiguous", "byte", noise.len(), noise, WHOLE);
    stream("noise in 16-byte pieces", "byte", noise.len(), noise, 16);
    stream("runs of C8, contiguous", "byte", STREAM / 2, vec![0xC8; STREAM / 2].leak(), WHOLE);
    stream("each fourth frame damaged, contiguous", "byte", damaged.len(), damaged.leak(), WHOLE);
    for (name, unit, count, bytes) in [(CONTIGUOUS, "frame", frames.len(), typical), ("noise, contiguous", "byte", noise.len(), noise)] {
        let name = format!("{name}; no place for positions");
        rows.add(&name, unit, count, move || stream_rust(next_rust(), bytes, WHOLE), move |e| stream_ours::<0>(e, bytes, WHOLE));
    }
    log_rows(&mut rows, typical, &entries);
    rows.add(CHECKS, "frame", frames.len(), || checks_rust(frames), |e| checks_ours(e, frames));
    rows.add("check byte of a long string", "byte", noise.len(), || checks_rust(&[noise]), |e| checks_ours(e, &[noise]));
    record_row_of_each_kind(&mut rows);
    burst_rows::<SETS>(&mut rows);
    burst_rows::<1>(&mut rows);
    altitude_rows(&mut rows);
    rows.add(LOOP, "frame", frames.len(), || stream_rust(walk_rust, typical, WHOLE), |e| stream_ours::<1>(&walking(e), typical, WHOLE));
    rows.add(LOOP_BYTES, "byte", typical.len(), || stream_rust(walk_rust, typical, 1), |e| stream_ours::<1>(&walking(e), typical, 1));
    rows.add(FLOOR, "frame", frames.len(), || floor_rust(typical), |e| floor_ours(e, typical));
    empty_rows(&mut rows);
    rows.time();
    if listing.ours.is_some() {
        listing_row(&listing);
    }
}

/// Whole programs over a file: typical frames, and some that are damaged and some noise between.
fn listing_row(listing: &Listing) {
    const BYTES: usize = 50_000_000;
    let mut r = Rng::new(9);
    let mut stream = vec![];
    while stream.len() < BYTES {
        stream.extend(gen::typical(&mut r, 20_000));
        stream.extend(gen::stream(&mut r, 200));
    }
    let mut best = vec![];
    for _ in 0..LISTINGS {
        let runs = listing.run(&stream);
        assert!(runs.iter().all(|run| run.lines == runs[0].lines), "the listings differ");
        best.resize(runs.len(), f64::MAX);
        for (best, run) in best.iter_mut().zip(&runs) {
            *best = run.seconds.min(*best);
        }
    }
    say(&format!("listing, whole program, {} MB", stream.len() / 1_000_000), "byte", stream.len(), &best);
}
