//! What needs no stream: addresses, header kinds, the check byte, altitudes; and what the rules add to the Rust.
use crate::gen::{hex, Rng};
use crate::ours::{self, Answer};
use crate::report::Report;
use crc::{Crc, CRC_8_DVB_S2};
use uf_crsf::packets::BaroAltitude;
use uf_crsf::{PacketAddress, PacketType, RawCrsfPacket};

/// The check byte as the Rust is built here: the crate crc is a stand-in.
pub static CHECK: Crc<u8> = Crc::<u8>::new(&CRC_8_DVB_S2);

/// 0 unlisted, 1 short, 2 extended.
pub fn header_of(packet_type: u8) -> u8 {
    match PacketType::try_from(packet_type) {
        Err(_) => 0,
        Ok(kind) => 1 + u8::from(kind.is_extended()),
    }
}

pub fn compare(report: &mut Report, seed: u64) {
    let mut r = Rng::new(seed ^ 0x5EED);
    report.family("addresses: all 256 bytes", |f| {
        for b in 0..=255 {
            f.same(PacketAddress::try_from(b).is_ok(), ours::is_address(b), || format!("address {b:02X}"));
        }
    });
    report.family("packet types, short or extended: all 256 bytes", |f| {
        for b in 0..=255 {
            f.same(header_of(b), ours::header_of(b), || format!("type {b:02X}"));
        }
    });
    report.family("check byte: every string of 0 to 2, every length to 300, random", |f| {
        let mut one = |bytes: &[u8]| f.same(CHECK.checksum(bytes), ours::checksum(bytes), || format!("check byte of {}", hex(bytes)));
        one(&[]);
        for a in 0..=255 {
            one(&[a]);
            for b in 0..=255 {
                one(&[a, b]);
            }
        }
        for len in 0..=300 {
            let mut bytes = vec![0; len];
            for _ in 0..500 {
                r.fill(&mut bytes);
                one(&bytes);
            }
        }
    });
    altitudes(report, &mut r);
    microseconds(report);
    raw_views(report, &mut r);
}

fn altitudes(report: &mut Report, r: &mut Rng) {
    report.family("altitude packed: every d from -10100 to 328000, ends of i32, random", |f| {
        let random: Vec<i32> = (0..200_000).map(|_| r.next() as i32).collect();
        let ends = [i32::MIN, i32::MIN + 1, i32::MAX - 1, i32::MAX];
        for d in (-10100..=328_000).chain(ends).chain(random) {
            f.same(BaroAltitude::get_altitude_packed(d), ours::pack_altitude(d), || format!("{d} dm"));
        }
    });
    report.family("altitude unpacked: every packed word", |f| {
        for packed in 0..=u16::MAX {
            let rust = BaroAltitude { altitude_packed: packed, vertical_speed_packed: 0 }.get_altitude_dm();
            f.same(rust, ours::baro_decimetres(packed), || format!("packed {packed:04X}"));
        }
    });
    report.family("GPS metres: every word, by RULES 11 alone", |f| {
        for raw in 0..=u16::MAX {
            f.same(i32::from(raw) - 1000, ours::gps_metres(raw), || format!("metres of {raw}"));
        }
    });
}

/// The Rust has the formula in a comment and no function: it is computed here in its own f32.
fn microseconds(report: &mut Report) {
    report.family("channel microseconds: every word, by RULES 12 alone", |f| {
        for raw in 0..=u16::MAX {
            let us = (f32::from(raw) - 992.0) * 5.0 / 8.0 + 1500.0;
            let (answer, none, bits) = if raw <= 2047 {
                (Answer::wrote(1), Answer::refusal(ours::BUFFER_OVERFLOW), us.to_bits())
            } else {
                (Answer::refusal(ours::CHANNEL_RANGE), Answer::refusal(ours::CHANNEL_RANGE), 0x7777_7777)
            };
            let mut out = [0x7777_7777; 2];
            f.same((answer, [bits, 0x7777_7777]), (ours::channel_microseconds(raw, &mut out), out), || format!("microseconds of {raw}"));
            f.same(none, ours::channel_microseconds(raw, &mut []), || format!("microseconds of {raw}, without a place"));
        }
    });
}

fn raw_views(report: &mut Report, r: &mut Rng) {
    report.family("raw view: every string of 0 to 2, every length to 300", |f| {
        let mut one = |bytes: &[u8]| {
            let (rust, payload) = match RawCrsfPacket::new(bytes) {
                Some(p) => ([0, p.dst_addr(), p.raw_packet_type(), p.crc(), 0, 0, 0, 0], p.payload()),
                None => ([ours::INVALID_PAYLOAD_LENGTH, 0, 0, 0, 0, 0, 0, 0], &[][..]),
            };
            let ours = ours::raw_view(bytes);
            let behind = if ours[0] == ours::OK { &bytes[3..bytes.len() - 1] } else { &[][..] };
            f.same((rust, payload), (ours, behind), || format!("raw view of {}", hex(bytes)));
        };
        one(&[]);
        for a in 0..=255 {
            one(&[a]);
            for b in 0..=255 {
                one(&[a, b]);
            }
        }
        for len in 0..=300 {
            let mut bytes = vec![0; len];
            for _ in 0..500 {
                r.fill(&mut bytes);
                one(&bytes);
            }
        }
    });
}
