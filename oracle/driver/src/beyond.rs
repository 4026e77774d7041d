//! What the Rust's own types rule out or get wrong, and the rules decide. Of what docs/DIFFERENCES.md lists, our answer is compared with the rules, the
//! Rust's with what is listed of it, and each difference between the two is counted as listed.
use crate::gen::{hex, Rng, ADDRESSES};
use crate::ours::{self, Answer};
use crate::records::{edges, number_of, Out, CAPACITY, PLACES, RECORDS, U32, UNTOUCHED};
use crate::report::Report;
use uf_crsf::PacketAddress;

pub fn beyond(report: &mut Report, seed: u64) {
    channels_above(report);
    capacities_above(report, seed);
    empty_series(report);
    rpm_of_three(report);
    too_few_places(report);
}

/// Channels above 2047 (RULES 10): the Rust lets them spill into their neighbours, ours refuses with 6.
fn channels_above(report: &mut Report) {
    let spills = report.lists("channel 0 set to 2048, the others 0");
    report.family("channels above 2047: the Rust lets them spill, ours refuses", |family| {
        let record = &RECORDS[1];
        for (channel, others) in (0..16).flat_map(|c| [0, 992].map(|others| (c, others))) {
            for value in [2048, 2049, 4095, 4096, 32768, 65535] {
                for len in [26, 30, 25, 0] {
                    let mut fields = [others; 16];
                    fields[channel] = value;
                    let mut buffer = [0x5A; 40];
                    let got = (record.write_ours)(&fields, 0xC8, &mut buffer[..len]);
                    let by_rules = Answer { number: ours::CHANNEL_RANGE, first: channel as u8, ..Answer::default() };
                    family.same((by_rules, [0x5A; 40]), (got, buffer), || format!("channel {channel} at {value} in {len} bytes, by RULES 10"));
                    if let Some(told) = record.write_differs(&fields, 0xC8, len, 0x5A) {
                        family.differs_as(spills, || told);
                    }
                }
            }
        }
    });
}

/// Batteries with a capacity of 2^24 or more, written (RULES 10): the Rust writes the low 24 bits, ours refuses with 11.
fn capacities_above(report: &mut Report, seed: u64) {
    let low_bits = report.lists("a battery with a capacity of 16,777,216 or more, written (the smallest: 16,777,216)");
    report.family("capacities of 2^24 or more: the Rust writes the low 24 bits", |family| {
        let record = &RECORDS[4];
        let mut rng = Rng::new(seed.wrapping_add(11 << 40));
        let at_edges = edges(U32.0, U32.1).into_iter().map(|capacity| [0, 0, capacity, 0, 0]).filter(|fields| record.is_left_out(fields));
        // None stands for fields at random.
        for (fields, id) in at_edges.map(Some).chain([None; 40]).flat_map(|fields| [0, 5, 255].map(|id| (fields, id))) {
            // Buffers that are long enough come first, so that the first difference shows what the Rust writes.
            for (dest, len) in (0..=255).flat_map(|dest| (12..=16).chain(0..12).map(move |len| (dest, len))) {
                let mut fields = fields.unwrap_or_else(|| {
                    let mut at_random = std::array::from_fn(|i| record.random_field(&mut rng, i));
                    at_random[2] = rng.within(CAPACITY.1 + 1, U32.1);
                    at_random
                });
                fields[4] = id;
                let mut buffer = [0x5A; 20];
                let got = (record.write_ours)(&fields, dest, &mut buffer[..len]);
                let number = if ADDRESSES.contains(&dest) { ours::CAPACITY_RANGE } else { ours::BAD_ADDRESS };
                let input = || format!("battery {fields:?} to {dest:02X} in {len} bytes, by RULES 10");
                family.same((Answer::refusal(number), [0x5A; 20]), (got, buffer), input);
                if let Some(told) = record.write_differs(&fields, dest, len, 0x5A) {
                    family.differs_as(low_bits, || told);
                }
                // What is listed of the Rust: its answer and its bytes are those of the low 24 bits.
                if let Ok(address) = PacketAddress::try_from(dest) {
                    let of_capacity = |capacity| {
                        let mut buffer = [0x5A; 20];
                        let answer = (record.write_rust)(&[fields[0], fields[1], capacity, fields[3], id], address, &mut buffer[..len]);
                        (answer.map_err(number_of), buffer)
                    };
                    let input = || format!("the Rust's own battery {fields:?} to {dest:02X} in {len} bytes");
                    family.same(of_capacity(fields[2] % (1 << 24)), of_capacity(fields[2]), input);
                }
            }
        }
    });
}

/// Series without a value, written (RULES 10): the Rust writes the id, ours refuses with 4.
fn empty_series(report: &mut Report) {
    let rpm_empty = report.lists("an RPM record without a value, as the Rust reads it from 00 00 00, written");
    let new_empty = report.lists("`Temp::new(0, &[])`, and the same of `Voltages`: no value");
    report.family("series without a value, written: the Rust writes the id", |family| {
        for record in RECORDS.iter().filter(|record| record.is_series()) {
            let listed = if record.name == "RPM" { rpm_empty } else { new_empty };
            for (dest, len) in (0..=255).flat_map(|dest| (0..=70).map(move |len| (dest, len))) {
                let mut buffer = [0x5A; 70];
                let got = (record.write_ours)(&[0], dest, &mut buffer[..len]);
                let number = if ADDRESSES.contains(&dest) { ours::INVALID_PAYLOAD_LENGTH } else { ours::BAD_ADDRESS };
                let input = || format!("{} without a value to {dest:02X} in {len} bytes, by RULES 10", record.name);
                family.same((Answer::refusal(number), [0x5A; 70]), (got, buffer), input);
                let rust = |address, buffer: &mut [u8]| record.write_rust_empty(0, address, buffer);
                if let Some(told) = record.write_differs_from(rust, &[0], dest, len, 0x5A) {
                    family.differs_as(listed, || told);
                }
            }
            // What is listed of the Rust: it writes the id alone.
            for id in 0..=255 {
                let mut frame = [0; 5];
                let written = record.write_rust_empty(id, PacketAddress::FlightController, &mut frame).ok();
                let kind = match record.name {
                    "RPM" => 0x0C,
                    "temperatures" => 0x0D,
                    _ => 0x0E,
                };
                family.same((Some(5), [0xC8, 3, kind, id]), (written, [frame[0], frame[1], frame[2], frame[3]]), || {
                    format!("the Rust's own {} without a value", record.name)
                });
            }
        }
    });
}

/// RPM of 3 bytes, read (RULES 10): the Rust reads a record without a value, ours refuses with 4.
fn rpm_of_three(report: &mut Report) {
    let three = report.lists("00 00 00 read as RPM");
    report.family("RPM of 3 bytes, read: the Rust reads no value", |family| {
        let record = &RECORDS[6];
        let mut scratch = vec![];
        for (id, rest) in (0..=255).flat_map(|id| [[0, 0], [0, 1], [0x7F, 0xFF], [0x80, 0], [0xFF, 0xFF]].map(|rest| (id, rest))) {
            let payload = [id, rest[0], rest[1]];
            for lent in 0..=PLACES {
                let mut out = Out::new(lent);
                let got = (record.read_ours)(&payload, &mut out);
                let input = || format!("RPM {} into {lent} places, by RULES 10", hex(&payload));
                family.same((Answer::refusal(ours::INVALID_PAYLOAD_LENGTH), [UNTOUCHED; PLACES]), (got, out.places), input);
            }
            if let Some(told) = record.read_differs(&payload, &mut scratch) {
                family.differs_as(three, || told);
            }
            // What is listed of the Rust: it reads the id alone.
            let mut fields = vec![];
            let read = (record.read_rust)(&payload, &mut fields).is_ok();
            family.same((true, vec![i64::from(id)]), (read, fields), || format!("the Rust's own RPM {}", hex(&payload)));
        }
    });
}

/// Too few places to read into (RULES 14).
fn too_few_places(report: &mut Report) {
    report.family("places to read into, 0 to 34: by RULES 14 alone", |family| {
        for record in &RECORDS {
            for (lent, len) in (0..=PLACES).flat_map(|lent| (0..=64).map(move |len| (lent, len))) {
                let payload: Vec<u8> = (0..len).map(|i| (i * 29 + 131) as u8).collect();
                if record.is_left_out_read(&payload) {
                    continue;
                }
                let mut fields = vec![];
                let read = (record.read_rust)(&payload, &mut fields);
                let first = if record.is_series() && read.is_ok() { fields.remove(0) as u8 } else { 0 };
                let mut want = Out::new(lent);
                let expected = match read {
                    Err(refusal) => Answer::refusal(number_of(refusal)),
                    Ok(()) if lent < fields.len() => Answer::refusal(ours::BUFFER_OVERFLOW),
                    Ok(()) => {
                        want.places[..fields.len()].copy_from_slice(&fields);
                        Answer { number: ours::OK, len: fields.len() as u8, first, ..Answer::default() }
                    }
                };
                let mut out = Out::new(lent);
                let got = (record.read_ours)(&payload, &mut out);
                family.same((expected, want.places), (got, out.places), || format!("read {} of {len} bytes into {lent} places", record.name));
            }
        }
    });
}
