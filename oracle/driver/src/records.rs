//! The nine records, read from payloads and written as frames: fields, counts, refusals, the bytes written and the bytes beside.
use crate::beyond::beyond;
use crate::gen::{hex, Rng, ADDRESSES};
use crate::ours::{self, Answer};
use crate::report::{Family, Report};
use uf_crsf::packets::{write_packet_to_buffer, CrsfPacket};
use uf_crsf::packets::{BaroAltitude, Battery, Gps, GpsExtended, LinkStatistics, RcChannelsPacked, Rpm, Temp, Voltages};
use uf_crsf::{CrsfParsingError, PacketAddress};

type RustAnswer = Result<usize, CrsfParsingError>;

/// One kind of record on both sides. Its fields are numbers in the struct's order; of a series the id, then the values.
pub struct Record {
    pub name: &'static str,
    /// The least and the greatest of each field: its type's or, of channels and of a battery's capacity, those that may be written (RULES 10).
    pub ranges: &'static [(i64, i64)],
    pub write_rust: fn(&[i64], PacketAddress, &mut [u8]) -> RustAnswer,
    pub write_ours: fn(&[i64], u8, &mut [u8]) -> Answer,
    pub read_rust: fn(&[u8], &mut Vec<i64>) -> Result<(), CrsfParsingError>,
    pub read_ours: fn(&[u8], &mut Out) -> Answer,
}

/// The places that a reader is lent, more than it fills, and how many of them it is lent.
pub struct Out {
    pub places: [i64; PLACES],
    pub lent: usize,
}

pub const PLACES: usize = 34;
/// What stands in a place before it is written.
pub const UNTOUCHED: i64 = 0x2A5A;

impl Out {
    pub fn new(lent: usize) -> Out {
        Out { places: [UNTOUCHED; PLACES], lent }
    }
    /// Lends the places as numbers of the reader's type, and keeps what is written.
    fn lend<N: Copy + TryFrom<i64> + Into<i64>>(&mut self, read: impl FnOnce(&mut [N]) -> Answer) -> Answer {
        let mut places = self.places.map(|x| N::try_from(x).ok().expect("what stands there before fits every type"));
        let answer = read(&mut places[..self.lent]);
        self.places = places.map(N::into);
        answer
    }
}

const U8: (i64, i64) = (0, 255);
const I8: (i64, i64) = (-128, 127);
const U16: (i64, i64) = (0, 65535);
const I16: (i64, i64) = (-32768, 32767);
const I32: (i64, i64) = (i32::MIN as i64, i32::MAX as i64);
pub const U32: (i64, i64) = (0, u32::MAX as i64);
const CHANNEL: (i64, i64) = (0, 2047);
pub const CAPACITY: (i64, i64) = (0, (1 << 24) - 1);

fn channels(f: &[i64]) -> [u16; 16] {
    std::array::from_fn(|i| f[i] as u16)
}

/// The values of a series, in their type, to which `narrow` takes them.
fn values<N>(f: &[i64], narrow: fn(i64) -> N) -> Vec<N> {
    f[1..].iter().map(|&x| narrow(x)).collect()
}

/// The ranges of a series: of the id, then of `FIELDS - 1` values.
const fn series_ranges<const FIELDS: usize>(values: (i64, i64)) -> [(i64, i64); FIELDS] {
    let mut ranges = [values; FIELDS];
    ranges[0] = U8;
    ranges
}

pub const RECORDS: [Record; 9] = [
    Record {
        name: "link statistics",
        ranges: &[U8, U8, U8, I8, U8, U8, U8, U8, U8, I8],
        write_rust: |f, dest, b| write_packet_to_buffer(b, dest, &link_statistics(f)),
        write_ours: |f, dest, b| ours::write_link_statistics(b, dest, &link_statistics(f)),
        read_rust: |p, out| {
            let r = LinkStatistics::from_bytes(p)?;
            out.extend([r.uplink_rssi_1, r.uplink_rssi_2, r.uplink_link_quality].map(i64::from));
            out.push(i64::from(r.uplink_snr));
            out.extend([r.active_antenna, r.rf_mode, r.uplink_tx_power, r.downlink_rssi, r.downlink_link_quality].map(i64::from));
            out.push(i64::from(r.downlink_snr));
            Ok(())
        },
        read_ours: |p, out| out.lend(|o| ours::read_link_statistics(p, o)),
    },
    Record {
        name: "channels",
        ranges: &[CHANNEL; 16],
        write_rust: |f, dest, b| write_packet_to_buffer(b, dest, &RcChannelsPacked(channels(f))),
        write_ours: |f, dest, b| ours::write_rc_channels_packed(b, dest, &channels(f)),
        read_rust: |p, out| {
            out.extend(RcChannelsPacked::from_bytes(p)?.0.map(i64::from));
            Ok(())
        },
        read_ours: |p, out| out.lend(|o| ours::read_rc_channels_packed(p, o)),
    },
    Record {
        name: "GPS",
        ranges: &[I32, I32, U16, U16, U16, U8],
        write_rust: |f, dest, b| write_packet_to_buffer(b, dest, &gps(f)),
        write_ours: |f, dest, b| ours::write_gps(b, dest, &gps(f)),
        read_rust: |p, out| {
            let r = Gps::from_bytes(p)?;
            out.extend([r.latitude, r.longitude].map(i64::from));
            out.extend([r.groundspeed, r.heading, r.altitude, u16::from(r.satellites)].map(i64::from));
            Ok(())
        },
        read_ours: |p, out| out.lend(|o| ours::read_gps(p, o)),
    },
    Record {
        name: "GPS extended",
        ranges: &[U8, I16, I16, I16, I16, I16, I16, I16, I16, U8, U8, U8],
        write_rust: |f, dest, b| write_packet_to_buffer(b, dest, &gps_extended(f)),
        write_ours: |f, dest, b| ours::write_gps_extended(b, dest, &gps_extended(f)),
        read_rust: |p, out| {
            let r = GpsExtended::from_bytes(p)?;
            out.push(i64::from(r.fix_type));
            out.extend([r.n_speed, r.e_speed, r.v_speed, r.h_speed_acc, r.track_acc, r.alt_ellipsoid, r.h_acc, r.v_acc].map(i64::from));
            out.extend([r.reserved, r.h_dop, r.v_dop].map(i64::from));
            Ok(())
        },
        read_ours: |p, out| out.lend(|o| ours::read_gps_extended(p, o)),
    },
    Record {
        name: "battery",
        ranges: &[I16, I16, CAPACITY, U8, U8],
        write_rust: |f, dest, b| write_packet_to_buffer(b, dest, &battery(f)),
        write_ours: |f, dest, b| ours::write_battery(b, dest, &battery(f)),
        read_rust: |p, out| {
            let r = Battery::from_bytes(p)?;
            out.extend([r.voltage, r.current].map(i64::from));
            out.extend([r.capacity_used, u32::from(r.remaining), u32::from(r.id)].map(i64::from));
            Ok(())
        },
        read_ours: |p, out| out.lend(|o| ours::read_battery(p, o)),
    },
    Record {
        name: "altitude",
        ranges: &[U16, I8],
        write_rust: |f, dest, b| write_packet_to_buffer(b, dest, &baro_altitude(f)),
        write_ours: |f, dest, b| ours::write_baro_altitude(b, dest, &baro_altitude(f)),
        read_rust: |p, out| {
            let r = BaroAltitude::from_bytes(p)?;
            out.extend([i64::from(r.altitude_packed), i64::from(r.vertical_speed_packed)]);
            Ok(())
        },
        read_ours: |p, out| out.lend(|o| ours::read_baro_altitude(p, o)),
    },
    Record {
        name: "RPM",
        ranges: &series_ranges::<20>(I32),
        write_rust: |f, dest, b| write_packet_to_buffer(b, dest, &Rpm::new(f[0] as u8, &values(f, |x| x as i32))?),
        write_ours: |f, dest, b| ours::write_rpm(b, dest, f[0] as u8, &values(f, |x| x as i32)),
        read_rust: |p, out| {
            let r = Rpm::from_bytes(p)?;
            out.push(i64::from(r.rpm_source_id));
            out.extend(r.rpm_values().iter().map(|&x| i64::from(x)));
            Ok(())
        },
        read_ours: |p, out| out.lend(|o| ours::read_rpm(p, o)),
    },
    Record {
        name: "temperatures",
        ranges: &series_ranges::<21>(I16),
        write_rust: |f, dest, b| write_packet_to_buffer(b, dest, &Temp::new(f[0] as u8, &values(f, |x| x as i16))?),
        write_ours: |f, dest, b| ours::write_temp(b, dest, f[0] as u8, &values(f, |x| x as i16)),
        read_rust: |p, out| {
            let r = Temp::from_bytes(p)?;
            out.push(i64::from(r.temp_source_id));
            out.extend(r.temperatures().iter().map(|&x| i64::from(x)));
            Ok(())
        },
        read_ours: |p, out| out.lend(|o| ours::read_temp(p, o)),
    },
    Record {
        name: "voltages",
        ranges: &series_ranges::<30>(U16),
        write_rust: |f, dest, b| write_packet_to_buffer(b, dest, &Voltages::new(f[0] as u8, &values(f, |x| x as u16))?),
        write_ours: |f, dest, b| ours::write_voltages(b, dest, f[0] as u8, &values(f, |x| x as u16)),
        read_rust: |p, out| {
            let r = Voltages::from_bytes(p)?;
            out.push(i64::from(r.voltage_source_id));
            out.extend(r.voltage_values().iter().map(|&x| i64::from(x)));
            Ok(())
        },
        read_ours: |p, out| out.lend(|o| ours::read_voltages(p, o)),
    },
];

pub fn link_statistics(f: &[i64]) -> LinkStatistics {
    LinkStatistics {
        uplink_rssi_1: f[0] as u8,
        uplink_rssi_2: f[1] as u8,
        uplink_link_quality: f[2] as u8,
        uplink_snr: f[3] as i8,
        active_antenna: f[4] as u8,
        rf_mode: f[5] as u8,
        uplink_tx_power: f[6] as u8,
        downlink_rssi: f[7] as u8,
        downlink_link_quality: f[8] as u8,
        downlink_snr: f[9] as i8,
    }
}

pub fn gps(f: &[i64]) -> Gps {
    Gps {
        latitude: f[0] as i32,
        longitude: f[1] as i32,
        groundspeed: f[2] as u16,
        heading: f[3] as u16,
        altitude: f[4] as u16,
        satellites: f[5] as u8,
    }
}

pub fn gps_extended(f: &[i64]) -> GpsExtended {
    GpsExtended {
        fix_type: f[0] as u8,
        n_speed: f[1] as i16,
        e_speed: f[2] as i16,
        v_speed: f[3] as i16,
        h_speed_acc: f[4] as i16,
        track_acc: f[5] as i16,
        alt_ellipsoid: f[6] as i16,
        h_acc: f[7] as i16,
        v_acc: f[8] as i16,
        reserved: f[9] as u8,
        h_dop: f[10] as u8,
        v_dop: f[11] as u8,
    }
}

pub fn battery(f: &[i64]) -> Battery {
    Battery { voltage: f[0] as i16, current: f[1] as i16, capacity_used: f[2] as u32, remaining: f[3] as u8, id: f[4] as u8 }
}

pub fn baro_altitude(f: &[i64]) -> BaroAltitude {
    BaroAltitude { altitude_packed: f[0] as u16, vertical_speed_packed: f[1] as i8 }
}

/// The number of a refusal that the Rust's records give (RULES 1).
pub fn number_of(refusal: CrsfParsingError) -> u8 {
    match refusal {
        CrsfParsingError::InvalidPayloadLength => ours::INVALID_PAYLOAD_LENGTH,
        CrsfParsingError::BufferOverflow => ours::BUFFER_OVERFLOW,
        other => panic!("no record of these gives {other:?}"),
    }
}

impl Record {
    /// Whether it is a series: an id, then values of one width.
    pub fn is_series(&self) -> bool {
        ["RPM", "temperatures", "voltages"].contains(&self.name)
    }

    /// What is not compared when written (docs/DIFFERENCES.md). Temperatures and voltages without a value, an id alone: the Rust makes and writes them,
    /// ours refuses them with 4; a new RPM record without a value is refused by both. A battery with a capacity of 2^24 or more: the Rust writes the low
    /// 24 bits, ours refuses it with 11.
    pub fn is_left_out(&self, fields: &[i64]) -> bool {
        match self.name {
            "temperatures" | "voltages" => fields.len() == 1,
            "battery" => fields[2] > CAPACITY.1,
            _ => false,
        }
    }

    /// What is not compared when read: RPM of 3 bytes. The Rust reads a record without a value, ours refuses it with 4 (docs/DIFFERENCES.md).
    pub fn is_left_out_read(&self, payload: &[u8]) -> bool {
        self.name == "RPM" && payload.len() == 3
    }

    /// What the Rust writes of a series without a value, of this id: of RPM it makes no such record, but reads one from 3 bytes.
    pub fn write_rust_empty(&self, id: u8, dest: PacketAddress, buffer: &mut [u8]) -> RustAnswer {
        match self.name {
            "RPM" => write_packet_to_buffer(buffer, dest, &Rpm::from_bytes(&[id, 0, 0])?),
            _ => (self.write_rust)(&[i64::from(id)], dest, buffer),
        }
    }

    /// What both sides write of these fields into a buffer of that many bytes, amid others. None where all agree.
    pub fn write_differs(&self, fields: &[i64], dest: u8, len: usize, fill: u8) -> Option<String> {
        self.write_differs_from(|address, buffer| (self.write_rust)(fields, address, buffer), fields, dest, len, fill)
    }

    /// The same, of what `write_rust` has the Rust write.
    pub fn write_differs_from(
        &self,
        write_rust: impl FnOnce(PacketAddress, &mut [u8]) -> RustAnswer,
        fields: &[i64],
        dest: u8,
        len: usize,
        fill: u8,
    ) -> Option<String> {
        let mut rust = [fill; 80];
        for (i, b) in rust.iter_mut().enumerate() {
            *b = b.wrapping_add((i * 37) as u8);
        }
        let mut ours = rust;
        let lent = 3..3 + len;
        // The Rust's caller can't name an unlisted address: its own conversion refuses it.
        let expected = match PacketAddress::try_from(dest) {
            Err(_) => Answer::refusal(ours::BAD_ADDRESS),
            Ok(address) => match write_rust(address, &mut rust[lent.clone()]) {
                Ok(written) => Answer::wrote(written),
                Err(refusal) => Answer::refusal(number_of(refusal)),
            },
        };
        let got = (self.write_ours)(fields, dest, &mut ours[lent.clone()]);
        if got == expected && ours == rust {
            return None;
        }
        Some(format!(
            "write {} {fields:?} to {dest:02X} in {len} bytes: the Rust {expected:?} and {}, ours {got:?} and {}",
            self.name,
            hex(&rust[lent.clone()]),
            hex(&ours[lent])
        ))
    }

    /// What both sides read of this payload. None where all agree.
    pub fn read_differs(&self, payload: &[u8], scratch: &mut Vec<i64>) -> Option<String> {
        scratch.clear();
        let mut out = Out::new(PLACES);
        let got = (self.read_ours)(payload, &mut out);
        let expected = match (self.read_rust)(payload, scratch) {
            Err(refusal) => Answer::refusal(number_of(refusal)),
            Ok(()) => {
                let first = if self.is_series() { scratch.remove(0) as u8 } else { 0 };
                Answer { number: ours::OK, len: scratch.len() as u8, first, ..Answer::default() }
            }
        };
        let count = scratch.len();
        if got == expected && out.places[..count] == scratch[..] && out.places[count..].iter().all(|&x| x == UNTOUCHED) {
            return None;
        }
        Some(format!("read {} {}: the Rust {expected:?} and {scratch:?}, ours {got:?} and {:?}", self.name, hex(payload), out.places))
    }

    pub fn random_field(&self, r: &mut Rng, i: usize) -> i64 {
        let (lo, hi) = self.ranges[i];
        match r.below(4) {
            // an end of the type, or next to a power of two, on either side of 0
            0 => r.one_of(&[lo, lo + 1, hi - 1, hi, 0, 1, -1]).clamp(lo, hi),
            1 => ((1i64 << r.below(33)) * r.one_of(&[1, -1]) + r.one_of(&[-1, 0, 1])).clamp(lo, hi),
            _ => r.within(lo, hi),
        }
    }

    /// Fields at random: of a series, any count of values that is compared.
    pub fn random_fields(&self, r: &mut Rng) -> Vec<i64> {
        let least = if self.is_series() && self.is_left_out(&[0]) { 2 } else { 1 };
        let n = if self.is_series() { least + r.below(self.ranges.len() + 1 - least) } else { self.ranges.len() };
        (0..n).map(|i| self.random_field(r, i)).collect()
    }
}

/// Both sides of each end and of each power of two.
pub fn edges(lo: i64, hi: i64) -> Vec<i64> {
    let mut e = vec![lo, lo + 1, hi - 1, hi, 0];
    for k in 0..32 {
        for x in [1i64 << k, -(1i64 << k)] {
            e.extend([x - 1, x, x + 1]);
        }
    }
    e.retain(|x| (lo..=hi).contains(x));
    e.sort_unstable();
    e.dedup();
    e
}

/// Takes bytes off the end, and makes the others 0, as long as something still differs.
fn smallest_payload(record: &Record, payload: &[u8]) -> String {
    let mut p = payload.to_vec();
    let mut scratch = vec![];
    while !p.is_empty() {
        let fewer = &p[..p.len() - 1];
        if record.is_left_out_read(fewer) || record.read_differs(fewer, &mut scratch).is_none() {
            break;
        }
        p.pop();
    }
    for i in 0..p.len() {
        let was = std::mem::replace(&mut p[i], 0);
        if record.read_differs(&p, &mut scratch).is_none() {
            p[i] = was;
        }
    }
    record.read_differs(&p, &mut scratch).unwrap_or_else(|| "differs, and not when run again".to_string())
}

/// Takes values off the end (of a series), and makes fields 0, as long as something still differs.
fn smallest_fields(record: &Record, fields: &[i64], dest: u8, len: usize, fill: u8) -> String {
    let mut f = fields.to_vec();
    while record.is_series() && f.len() > 1 {
        let fewer = &f[..f.len() - 1];
        if record.is_left_out(fewer) || record.write_differs(fewer, dest, len, fill).is_none() {
            break;
        }
        f.pop();
    }
    for i in 0..f.len() {
        for less in [0, 1, 255] {
            let was = std::mem::replace(&mut f[i], less);
            if record.write_differs(&f, dest, len, fill).is_some() {
                break;
            }
            f[i] = was;
        }
    }
    record.write_differs(&f, dest, len, fill).unwrap_or_else(|| "differs, and not when run again".to_string())
}

struct Records<'f> {
    family: &'f mut Family,
    scratch: Vec<i64>,
    rng: Rng,
}

impl Records<'_> {
    fn write(&mut self, record: &Record, fields: &[i64], dest: u8, len: usize) {
        assert!(!record.is_left_out(fields), "{} {fields:?} is compared in a family of its own", record.name);
        let fill = self.rng.byte();
        self.family.compared(1);
        if record.write_differs(fields, dest, len, fill).is_some() {
            self.family.differs(|| smallest_fields(record, fields, dest, len, fill));
        }
    }
    fn read(&mut self, record: &Record, payload: &[u8]) {
        if record.is_left_out_read(payload) {
            return;
        }
        self.family.compared(1);
        if record.read_differs(payload, &mut self.scratch).is_some() {
            self.family.differs(|| smallest_payload(record, payload));
        }
    }
}

pub fn compare(report: &mut Report, seed: u64, random: u64) {
    let mut nth = 0;
    let mut run = |report: &mut Report, name: &'static str, each: &mut dyn FnMut(&mut Records<'_>, &Record)| {
        nth += 1;
        report.family(name, |family| {
            let mut records = Records { family, scratch: vec![], rng: Rng::new(seed.wrapping_add(nth << 40)) };
            for record in &RECORDS {
                each(&mut records, record);
            }
        });
    };
    run(report, "records written: every field at its edges", &mut |s, record| {
        for i in 0..record.ranges.len() {
            let (lo, hi) = record.ranges[i];
            for value in edges(lo, hi) {
                let at_random = record.ranges.iter().enumerate().map(|(j, _)| record.random_field(&mut s.rng, j)).collect::<Vec<_>>();
                let backgrounds = [vec![0; record.ranges.len()], record.ranges.iter().map(|r| r.0).collect(), record.ranges.iter().map(|r| r.1).collect(), at_random];
                for mut fields in backgrounds {
                    fields[i] = value;
                    let dest = s.rng.one_of(&ADDRESSES);
                    s.write(record, &fields, dest, 64);
                }
            }
        }
    });
    run(report, "records written: random fields, buffers of 0 to 70 bytes", &mut |s, record| {
        for len in 0..=70 {
            for _ in 0..random / 71 {
                let fields = record.random_fields(&mut s.rng);
                let dest = s.rng.one_of(&ADDRESSES);
                s.write(record, &fields, dest, len);
            }
        }
    });
    run(report, "records written: every destination byte, buffers of 0 to 70 bytes", &mut |s, record| {
        for dest in 0..=255 {
            for len in 0..=70 {
                let fields = record.random_fields(&mut s.rng);
                s.write(record, &fields, dest, len);
            }
        }
    });
    run(report, "records written: series of any count, single channels", &mut |s, record| {
        // Among those that are far more: the low byte of each is a count that may be written.
        let counts = (0..=35).chain([256 + 1, 256 + 19, 256 + 20, 256 + 29, 65536 + 1]);
        for n in counts.filter(|_| record.is_series()) {
            for (dest, len) in [0xC8, 0xC9].into_iter().flat_map(|dest| (0..=70).map(move |len| (dest, len))) {
                let fields: Vec<i64> = (0..=n).map(|i| record.random_field(&mut s.rng, i.min(record.ranges.len() - 1))).collect();
                if !record.is_left_out(&fields) {
                    s.write(record, &fields, dest, len);
                }
            }
        }
        for (channel, value) in (0..16).flat_map(|c| (0..2048).map(move |v| (c, v))) {
            if record.name == "channels" {
                for others in [0, 2047] {
                    let mut fields = [others; 16];
                    fields[channel] = value;
                    s.write(record, &fields, 0xC8, 26);
                }
            }
        }
    });
    run(report, "records read: every payload length 0 to 64, some to 1000", &mut |s, record| {
        // Among those that are far more: 257 values of two bytes (515), 257 and 275 of three (772, 826), counts whose low byte may be read.
        for len in (0..=64).chain([65, 66, 127, 128, 129, 255, 256, 257, 258, 259, 511, 512, 513, 515, 767, 769, 772, 826, 1000]) {
            for fill in [0x00, 0x01, 0x7F, 0x80, 0xFF] {
                s.read(record, &vec![fill; len]);
            }
            for _ in 0..random / 65 {
                let mut payload = [0u8; 64];
                s.rng.fill(&mut payload);
                let payload: Vec<u8> = payload.into_iter().cycle().take(len).collect();
                s.read(record, &payload);
            }
        }
    });
    run(report, "records read: each byte of a payload at every value", &mut |s, record| {
        for at in 0..60 {
            for value in 0..=255 {
                for fill in [0x00, 0xFF] {
                    let mut payload = [fill; 60];
                    payload[at] = value;
                    for len in [at + 1, 22, 41, 58, 59] {
                        s.read(record, &payload[..len]);
                    }
                }
            }
        }
    });
    run(report, "records written: capacities at their edges, below 2^24", &mut |s, record| {
        if record.name == "battery" {
            for (capacity, id) in edges(CAPACITY.0, CAPACITY.1).into_iter().flat_map(|capacity| [0, 5, 255].map(|id| (capacity, id))) {
                for (dest, len) in (0..=255).flat_map(|dest| (0..=16).map(move |len| (dest, len))) {
                    let mut fields = record.random_fields(&mut s.rng);
                    (fields[2], fields[4]) = (capacity, id);
                    s.write(record, &fields, dest, len);
                }
            }
        }
    });
    beyond(report, seed);
}
