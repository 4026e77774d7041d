//! The worked cases of the rules, cuts, saves and restores midway, hostile states, and the records, through the wrappers.
use crsf_host::*;

/// What a stream says, in the listing's lines with their positions, in pieces of `piece` bytes, with a save and a restore before the call numbered
/// `save_at`.
fn lines(bytes: &[u8], piece: usize, save_at: usize) -> Vec<String> {
    let mut parser = CrsfParser::new();
    let (mut out, mut calls) = (Vec::new(), 0);
    for mut input in bytes.chunks(piece) {
        loop {
            if calls == save_at {
                let saved = parser.save().unwrap();
                parser = CrsfParser::restore(saved.as_ref()).unwrap();
            }
            calls += 1;
            let Some(StreamAnswer { position, result }) = parser.next_answer(&mut input) else { break };
            out.push(match result {
                Ok(frame) => format!("{position} frame {:02X} {:02X} {}", frame.dst_addr(), frame.raw_packet_type(), frame.payload().len()),
                Err(CrsfStreamError::InvalidSync(byte)) => format!("{position} sync {byte:02X}"),
                Err(CrsfStreamError::InvalidPacketLength(length)) => format!("{position} length {length:02X}"),
                Err(CrsfStreamError::InvalidCrc { calculated, carried }) => format!("{position} crc {calculated:02X} {carried:02X}"),
                Err(refusal) => panic!("the parser's own state: {refusal}"),
            });
        }
        assert!(input.is_empty());
    }
    out.push(format!("{} held {}", parser.position(), parser.held().unwrap()));
    out
}

const CASES: [(&[u8], &[&str]); 8] = [
    (&[0xC8, 2, 0, 0], &["0 frame C8 00 0", "4 held 0"]),
    (&[0xC8, 2, 0, 0, 0x55, 0xC8, 2, 0], &["0 frame C8 00 0", "4 sync 55", "5 held 3"]),
    (&[0xC8, 2, 0, 1], &["0 crc 00 01", "1 sync 02", "2 length 01", "3 sync 01", "4 held 0"]),
    (&[0xC8, 1], &["0 length 01", "1 sync 01", "2 held 0"]),
    (&[0, 0], &["0 length 00", "1 held 1"]),
    (&[0xC8, 0x3F], &["0 length 3F", "1 sync 3F", "2 held 0"]),
    (&[0xC8, 0x3E], &["0 held 2"]),
    (&[0xC8], &["0 held 1"]),
];

#[test]
fn cases_in_any_pieces_with_a_save_anywhere() {
    for (bytes, expected) in CASES {
        for piece in 1..=bytes.len() {
            for save_at in 0..=2 * bytes.len() {
                assert_eq!(lines(bytes, piece, save_at), expected, "{bytes:02X?} in pieces of {piece}, saved at {save_at}");
            }
        }
    }
}

/// Bytes that are no better than noise, the same each time.
fn noise(count: usize, mut seed: u64) -> Vec<u8> {
    (0..count)
        .map(|_| {
            seed = seed.wrapping_mul(6364136223846793005).wrapping_add(1442695040888963407);
            (seed >> 56) as u8
        })
        .collect()
}

/// Frames of every record, with noise between them.
fn stream() -> Vec<u8> {
    let mut bytes = Vec::new();
    let mut buffer = [0; 64];
    for round in 0..8u8 {
        let channels = RcChannelsPacked(std::array::from_fn(|i| (i as u16 * 131 + u16::from(round)) % 2048));
        let gps = Gps { latitude: -i32::from(round), longitude: 7, groundspeed: 1, heading: 2, altitude: 1000, satellites: round };
        let rpm = Rpm::new(round, &[-1, 8388607, -8388608]).unwrap();
        let n = channels.write_packet_to_buffer(&mut buffer, 0xC8).unwrap();
        bytes.extend(&buffer[..n]);
        bytes.extend(noise(usize::from(round) * 5, round.into()));
        let n = gps.write_packet_to_buffer(&mut buffer, 0xEA).unwrap();
        bytes.extend(&buffer[..n - usize::from(round % 2)]);
        let n = rpm.write_packet_to_buffer(&mut buffer, 0xC8).unwrap();
        bytes.extend(&buffer[..n]);
    }
    bytes
}

#[test]
fn no_answer_is_lost_or_repeated() {
    let bytes = stream();
    let whole = lines(&bytes, bytes.len(), usize::MAX);
    assert!(whole.iter().filter(|line| line.contains(" frame ")).count() > 15);
    for piece in [1, 2, 3, 5, 7, 16, 63, 64, 65, 200] {
        assert_eq!(lines(&bytes, piece, usize::MAX), whole);
        for save_at in (0..bytes.len()).step_by(13) {
            assert_eq!(lines(&bytes, piece, save_at), whole, "in pieces of {piece}, saved at {save_at}");
        }
    }
}

#[test]
fn a_frame_is_lent_whole() {
    let mut parser = CrsfParser::new();
    let mut buffer = [0; 64];
    let packet = Battery { voltage: 120, current: 15, capacity_used: 0x010203, remaining: 50, id: 5 };
    let n = packet.write_packet_to_buffer(&mut buffer, 0xC8).unwrap();
    let mut input = &buffer[..n];
    assert_eq!(parser.next_raw_packet(&mut input).unwrap().unwrap().as_bytes(), &buffer[..n]);
    for cut in 1..n {
        let mut input = &buffer[..cut];
        assert_eq!(parser.next_raw_packet(&mut input), None);
        let mut input = &buffer[cut..n];
        let frame = parser.next_raw_packet(&mut input).unwrap().unwrap();
        assert_eq!(frame.as_bytes(), &buffer[..n]);
        assert_eq!((frame.dst_addr(), frame.raw_packet_type(), frame.crc()), (0xC8, Battery::PACKET_TYPE, buffer[n - 1]));
        assert_eq!(Battery::from_bytes(frame.payload()), Ok(packet));
        assert_eq!(RawCrsfPacket::new(&buffer[..n]), Some(frame));
        assert!(input.is_empty());
    }
    assert_eq!(RawCrsfPacket::new(&[0xC8, 2, 0]), None);
}

#[test]
fn hostile_states_are_refused() {
    for start in 0..=255u8 {
        for end in 0..=255u8 {
            let mut state = [0x5A; 74];
            (state[0], state[1]) = (start, end);
            if start > end || end > 64 {
                assert_eq!(CrsfParser::from_state(state), Err(CrsfStreamError::BadState));
                continue;
            }
            let mut parser = CrsfParser::from_state(state).unwrap();
            assert_eq!(parser.state(), &state);
            assert_eq!((parser.held(), parser.position()), (Ok(usize::from(end - start)), 0x5A5A_5A5A_5A5A_5A5A));
            assert_eq!(parser.save().is_ok(), end - start < 64);
            assert_ne!(parser.next_raw_packet(&mut &[0xC8, 2, 0, 0][..]), Some(Err(CrsfStreamError::BadState)));
            parser.reset();
            assert_eq!((parser.held(), parser.position()), (Ok(0), 0));
        }
    }
}

#[test]
fn malformed_forms_are_refused() {
    for form in [&[][..], &[1], &[0, 0], &[2, 7], &[64; 65], &[0x80, 0], &[63; 63]] {
        assert_eq!(CrsfParser::restore(form), Err(CrsfStreamError::BadState), "{form:02X?}");
    }
    for count in 0..64usize {
        let mut form = vec![0xC8; count + 1];
        form[0] = count as u8;
        let parser = CrsfParser::restore(&form).unwrap();
        assert_eq!(parser.held(), Ok(count));
        let saved = parser.save().unwrap();
        assert_eq!(saved.as_ref(), [&[0x40, 0][..], &form].concat());
        assert_eq!(CrsfParser::restore(saved.as_ref()), Ok(parser));
    }
}

/// The check byte, bit by bit (RULES 4.5): nothing of the archive is asked.
fn check_byte(bytes: &[u8]) -> u8 {
    bytes.iter().fold(0, |rest, byte| (0..8).fold(rest ^ byte, |rest: u8, _| if rest & 0x80 == 0 { rest << 1 } else { rest << 1 ^ 0xD5 }))
}

/// Written, read back through a parser, and every shorter buffer refused.
fn comes_back<P: CrsfPacket + PartialEq + std::fmt::Debug>(packet: P, payload: &[u8]) {
    let mut buffer = [0xAA; 70];
    let n = write_packet_to_buffer(&mut buffer, 0xC8, &packet).unwrap();
    assert_eq!(buffer[n..], [0xAA; 70][n..]);
    let mut parser = CrsfParser::new();
    let mut input = &buffer[..n];
    let frame = parser.next_raw_packet(&mut input).unwrap().unwrap();
    assert_eq!((frame.dst_addr(), frame.raw_packet_type(), frame.payload()), (0xC8, P::PACKET_TYPE, payload));
    assert_eq!(frame.crc(), check_byte(&frame.as_bytes()[2..n - 1]));
    assert_eq!(P::from_bytes(frame.payload()).as_ref(), Ok(&packet));
    for short in 0..n {
        let mut buffer = [0xAA; 70];
        assert_eq!(packet.write_packet_to_buffer(&mut buffer[..short], 0xC8), Err(CrsfParsingError::BufferOverflow));
        assert_eq!(packet.write_packet_to_buffer(&mut buffer[..short], 0xC9), Err(CrsfParsingError::BadAddress));
        assert_eq!(buffer, [0xAA; 70]);
    }
}

#[test]
fn records_come_back() {
    comes_back(
        LinkStatistics {
            uplink_rssi_1: 1,
            uplink_rssi_2: 2,
            uplink_link_quality: 3,
            uplink_snr: -4,
            active_antenna: 5,
            rf_mode: 6,
            uplink_tx_power: 7,
            downlink_rssi: 8,
            downlink_link_quality: 9,
            downlink_snr: -128,
        },
        &[1, 2, 3, 0xFC, 5, 6, 7, 8, 9, 0x80],
    );
    comes_back(
        Gps { latitude: -2, longitude: i32::MIN, groundspeed: 0x0506, heading: 65535, altitude: 1000, satellites: 255 },
        &[0xFF, 0xFF, 0xFF, 0xFE, 0x80, 0, 0, 0, 5, 6, 0xFF, 0xFF, 3, 0xE8, 255],
    );
    comes_back(
        GpsExtended {
            fix_type: 3,
            n_speed: -1,
            e_speed: 2,
            v_speed: -3,
            h_speed_acc: 4,
            track_acc: -5,
            alt_ellipsoid: 6,
            h_acc: -7,
            v_acc: i16::MIN,
            reserved: 9,
            h_dop: 10,
            v_dop: 11,
        },
        &[3, 0xFF, 0xFF, 0, 2, 0xFF, 0xFD, 0, 4, 0xFF, 0xFB, 0, 6, 0xFF, 0xF9, 0x80, 0, 9, 10, 11],
    );
    comes_back(Battery { voltage: 120, current: 15, capacity_used: 0x010203, remaining: 50, id: 0 }, &[0, 0x78, 0, 0x0F, 1, 2, 3, 0x32]);
    comes_back(Battery { voltage: 120, current: 15, capacity_used: 0x010203, remaining: 50, id: 5 }, &[0, 0x78, 0, 0x0F, 1, 2, 3, 0x32, 5]);
    comes_back(Battery { voltage: -1, current: 0, capacity_used: 0xFFFFFF, remaining: 0, id: 255 }, &[255, 255, 0, 0, 255, 255, 255, 0, 255]);
    comes_back(BaroAltitude { altitude_packed: 0x88E5, vertical_speed_packed: -2 }, &[0x88, 0xE5, 0xFE]);
    comes_back(Rpm::new(7, &[-1, -8388608]).unwrap(), &[7, 0xFF, 0xFF, 0xFF, 0x80, 0, 0]);
    comes_back(Temp::new(7, &[i16::MIN, -1, 0, i16::MAX]).unwrap(), &[7, 0x80, 0, 0xFF, 0xFF, 0, 0, 0x7F, 0xFF]);
    comes_back(Voltages::new(255, &[0, 1, 0x7FFF, 0x8000, u16::MAX]).unwrap(), &[255, 0, 0, 0, 1, 0x7F, 0xFF, 0x80, 0, 0xFF, 0xFF]);
    let mut channels = [0; 16];
    channels[15] = 2047;
    let mut payload = [0; 22];
    (payload[20], payload[21]) = (0xE0, 0xFF);
    comes_back(RcChannelsPacked(channels), &payload);
}

#[test]
fn refusals_in_their_order() {
    let mut buffer = [0; 64];
    let mut channels = [0; 16];
    (channels[9], channels[12]) = (2048, 65535);
    let packet = RcChannelsPacked(channels);
    assert_eq!(packet.write_packet_to_buffer(&mut buffer, 0xC9), Err(CrsfParsingError::BadAddress));
    assert_eq!(packet.write_packet_to_buffer(&mut buffer[..3], 0xC8), Err(CrsfParsingError::ChannelRange(9)));
    let packet = Battery { voltage: 120, current: 15, capacity_used: 1 << 24, remaining: 50, id: 5 };
    assert_eq!(packet.write_packet_to_buffer(&mut buffer[..3], 0xC9), Err(CrsfParsingError::BadAddress));
    assert_eq!(packet.write_packet_to_buffer(&mut buffer[..3], 0xC8), Err(CrsfParsingError::CapacityRange));
    assert_eq!(Rpm::new(0, &[]), Err(CrsfParsingError::InvalidPayloadLength));
    assert_eq!(Rpm::new(0, &[0; 20]), Err(CrsfParsingError::InvalidPayloadLength));
    assert_eq!(Rpm::from_bytes(&[7, 1, 2]), Err(CrsfParsingError::InvalidPayloadLength));
    let one = Rpm::from_bytes(&[7, 1, 2, 3]).unwrap();
    assert_eq!((one.rpm_source_id, one.rpm_values()), (7, &[0x010203][..]));
    assert_eq!(one.write_packet_to_buffer(&mut buffer[..0], 0xC9), Err(CrsfParsingError::BadAddress));
    assert_eq!(one.write_packet_to_buffer(&mut buffer[..7], 0xC8), Err(CrsfParsingError::BufferOverflow));
    assert_eq!(Gps::from_bytes(&[0; 14]), Err(CrsfParsingError::InvalidPayloadLength));
    assert_eq!(Battery::from_bytes(&[0; 7]), Err(CrsfParsingError::InvalidPayloadLength));
    assert!(Gps::from_bytes(&[0; 40]).is_ok());
}

#[test]
fn rpm_read() {
    for len in (0..=64).chain([65, 66, 128, 255, 256, 257, 770, 772, 826, 1000]) {
        for seed in 0..20 {
            let payload = noise(len, seed);
            let rpm = Rpm::from_bytes(&payload).map(|rpm| (rpm.rpm_source_id, rpm.rpm_values().to_vec()));
            let expected = if len < 4 || 19 < (len - 1) / 3 {
                Err(CrsfParsingError::InvalidPayloadLength)
            } else {
                Ok((payload[0], payload[1..].chunks_exact(3).map(|b| i32::from_be_bytes([b[0], b[1], b[2], 0]) >> 8).collect()))
            };
            assert_eq!(rpm, expected, "{payload:02X?}");
        }
    }
}

#[test]
fn rpm_written() {
    const EXTREMES: [i32; 7] = [0, 1, -1, 8388607, -8388608, 65536, -256];
    for count in 0..=25 {
        for shift in 0..7 {
            let values: Vec<i32> = (0..count).map(|i| EXTREMES[(i + shift) % 7]).collect();
            let payload: Vec<u8> = std::iter::once(shift as u8).chain(values.iter().flat_map(|v| v.to_be_bytes()[1..].to_vec())).collect();
            made(Rpm::new(shift as u8, &values), count, 19, &payload);
        }
    }
}

/// The id and the values of a payload that has two bytes for each, from the layout alone.
fn series_of<N>(payload: &[u8], most: usize, value: fn([u8; 2]) -> N) -> Result<(u8, Vec<N>), CrsfParsingError> {
    if payload.len() < 3 || most < (payload.len() - 1) / 2 {
        return Err(CrsfParsingError::InvalidPayloadLength);
    }
    Ok((payload[0], payload[1..].chunks_exact(2).map(|two| value([two[0], two[1]])).collect()))
}

#[test]
fn series_of_two_byte_values_read() {
    for len in (0..=64).chain([65, 66, 128, 255, 256, 257, 511, 513, 1000]) {
        let fills = [0x00, 0x01, 0x7F, 0x80, 0xFF].map(|fill| vec![fill; len]);
        for payload in fills.into_iter().chain((0..20).map(|seed| noise(len, seed))) {
            let temp = Temp::from_bytes(&payload).map(|temp| (temp.temp_source_id, temp.temperatures().to_vec()));
            assert_eq!(temp, series_of(&payload, 20, i16::from_be_bytes), "{payload:02X?}");
            let voltages = Voltages::from_bytes(&payload).map(|voltages| (voltages.voltage_source_id, voltages.voltage_values().to_vec()));
            assert_eq!(voltages, series_of(&payload, 29, u16::from_be_bytes), "{payload:02X?}");
        }
    }
}

/// A record of 1 to `most` values was made, and comes back; one of any other count was refused.
fn made<P: CrsfPacket + PartialEq + std::fmt::Debug>(record: Result<P, CrsfParsingError>, count: usize, most: usize, payload: &[u8]) {
    match record {
        Ok(record) if (1..=most).contains(&count) => comes_back(record, payload),
        other => assert_eq!((other.err(), (1..=most).contains(&count)), (Some(CrsfParsingError::InvalidPayloadLength), false), "{count} values"),
    }
}

#[test]
fn series_of_two_byte_values_written() {
    const EXTREMES: [u16; 5] = [0, 1, 0x7FFF, 0x8000, 0xFFFF];
    for count in 0..=35 {
        for seed in 0..20 {
            let mut payload = noise(1 + 2 * count, seed);
            for (i, two) in payload[1..].chunks_exact_mut(2).enumerate().filter(|_| seed < 10) {
                two.copy_from_slice(&EXTREMES[(i + seed as usize) % EXTREMES.len()].to_be_bytes());
            }
            let voltages: Vec<u16> = payload[1..].chunks_exact(2).map(|two| u16::from_be_bytes([two[0], two[1]])).collect();
            let temperatures: Vec<i16> = voltages.iter().map(|&bits| bits as i16).collect();
            made(Temp::new(payload[0], &temperatures), count, 20, &payload);
            made(Voltages::new(payload[0], &voltages), count, 29, &payload);
        }
    }
}

#[test]
fn queries() {
    assert_eq!((0..=255u8).filter(|&byte| is_address(byte)).count(), 24);
    assert_eq!([header_of(0x02), header_of(0x29), header_of(0xFF)], [Header::Short, Header::Extended, Header::Unlisted]);
    assert_eq!(checksum(b"123456789"), 0xBC);
}

#[test]
fn altitudes_in_their_units() {
    assert_eq!(BaroAltitude::get_altitude_packed(22767), 0x7FFF);
    assert_eq!(BaroAltitude::get_altitude_packed(22768), 0x88E5);
    assert_eq!(BaroAltitude { altitude_packed: 0xFFFF, vertical_speed_packed: 0 }.get_altitude_dm(), 327670);
    assert_eq!(BaroAltitude { altitude_packed: 10000, vertical_speed_packed: 0 }.get_altitude_dm(), 0);
    let gps = Gps { latitude: 0, longitude: 0, groundspeed: 0, heading: 0, altitude: 1120, satellites: 0 };
    assert_eq!(gps.altitude_metres(), 120);
}

#[test]
fn microseconds_of_every_raw_value() {
    for raw in 0..=u16::MAX {
        let expected = if raw <= 2047 { Ok((f32::from(raw) - 992.0) * 5.0 / 8.0 + 1500.0) } else { Err(CrsfParsingError::ChannelRange(0)) };
        assert_eq!(RcChannelsPacked::to_microseconds(raw), expected, "{raw}");
    }
}

#[test]
fn raw_views_of_any_bytes() {
    for len in 0..=300 {
        for seed in 0..20 {
            let bytes = noise(len, seed);
            let view = RawCrsfPacket::new(&bytes);
            assert_eq!(view.is_some(), len >= 4);
            if let Some(view) = view {
                assert_eq!((view.dst_addr(), view.raw_packet_type(), view.crc()), (bytes[0], bytes[2], bytes[len - 1]));
                assert_eq!((view.as_bytes(), view.len(), view.payload()), (&bytes[..], len, &bytes[3..len - 1]));
            }
        }
    }
}
