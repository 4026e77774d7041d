//! Records a sample of the Rust's answers, which crate `replay` compares inside the gate, where there is no Rust. Nothing of the port is asked here.
//!
//! The file is made of pages of 4096 bytes; a page is a run of cases and then zeros. A case is its kind, the lengths of its three parts a, b and c,
//! the eight bytes that the port's entry is to answer (0 where it has none; the place of a held frame, which is free, as 0), and the parts:
//!
//! | kind | a | b | c |
//! |---|---|---|---|
//! | 1 a reset | | | |
//! | 2 a call of the stream | the input | | the frame, or what is held afterwards |
//! | 3 the header of a packet type | the type | | 0 unlisted, 1 short, 2 extended |
//! | 4 an address | the byte | | 1 listed, 0 unlisted |
//! | 5 a check byte | the bytes | | the check byte |
//! | 6 an altitude packed | decimetres, 4 bytes, highest first | | the packed word, highest first |
//! | 7 an altitude unpacked | the packed word, highest first | | decimetres, 4 bytes, highest first |
//! | 10 + r a record read | the payload | | the fields, each 4 bytes, highest first |
//! | 20 + r a record written | the fields, each 4 bytes, highest first | destination, byte that fills the buffer | the whole buffer afterwards |
//!
//! r counts link statistics, channels, GPS, GPS extended, battery, altitude, RPM, temperatures, voltages from 0. Of the last three, written, a has the
//! id as its first field and a value in each other one; read, the id stands in the answer and c has the values. Temperatures and voltages without a
//! value, and batteries with a capacity of 2^24 or more, are not written (`Record::is_left_out`), and RPM of 3 bytes is not read
//! (`Record::is_left_out_read`).
use crate::framing;
use crate::gen::{self, Rng, ADDRESSES, EDGES};
use crate::ours::{self, Answer};
use crate::queries::{self, CHECK};
use crate::records::{number_of, Record, RECORDS};
use uf_crsf::packets::BaroAltitude;
use uf_crsf::{CrsfParser, PacketAddress};

const PAGE: usize = 4096;

struct Pages {
    bytes: Vec<u8>,
    cases: usize,
}

fn eight(a: Answer) -> [u8; 8] {
    [a.number, a.taken, a.in_state, a.at, a.len, a.first, a.second, a.zero]
}

impl Pages {
    fn case(&mut self, kind: u8, a: &[u8], b: &[u8], answer: Answer, c: &[u8]) {
        let mut case = vec![kind, a.len() as u8, b.len() as u8, c.len() as u8];
        assert!(a.len() < 256 && b.len() < 256 && c.len() < 256, "a part is short");
        case.extend_from_slice(&eight(answer));
        case.extend_from_slice(a);
        case.extend_from_slice(b);
        case.extend_from_slice(c);
        // A kind of 0 ends a page: there is room for one.
        if self.bytes.len() % PAGE + case.len() >= PAGE {
            self.end_page();
        }
        self.bytes.extend(case);
        self.cases += 1;
    }
    fn end_page(&mut self) {
        let pages = self.bytes.len().div_ceil(PAGE);
        self.bytes.resize(pages * PAGE, 0);
    }
}

/// A stream through the Rust's parser, in windows of at most 80 bytes.
fn stream(pages: &mut Pages, r: &mut Rng, bytes: &[u8]) {
    pages.case(1, &[], &[], Answer::default(), &[]);
    let most = r.one_of(&[2, 10, 30, 81]);
    let mut parser = CrsfParser::new();
    let (mut at, mut held) = (0, 0);
    loop {
        let input = &bytes[at..bytes.len().min(at + r.below(most))];
        let mut left = input;
        let told = parser.next_raw_packet(&mut left);
        let taken = input.len() - left.len();
        at += taken;
        held += taken;
        let stop = told.is_none();
        let mut a = Answer { taken: taken as u8, ..Answer::default() };
        let mut frame = vec![];
        match told {
            None => a.number = ours::MORE,
            Some(Ok(f)) => {
                frame = f.as_slice().to_vec();
                a.in_state = u8::from(!input.as_ptr_range().contains(&f.as_slice().as_ptr()));
                a.len = f.len() as u8;
                held -= f.len();
            }
            Some(Err(e)) => {
                held -= 1;
                (a.number, a.first, a.second) = framing::carried(&e);
            }
        }
        let after = if frame.is_empty() { &bytes[at - held..at] } else { &frame[..] };
        pages.case(2, input, &[], a, after);
        if stop && at == bytes.len() {
            return;
        }
    }
}

fn wide(fields: &[i64]) -> Vec<u8> {
    fields.iter().flat_map(|f| (*f as u32).to_be_bytes()).collect()
}

fn read(pages: &mut Pages, r: usize, record: &Record, payload: &[u8]) {
    let mut fields = vec![];
    let mut a = Answer::default();
    match (record.read_rust)(payload, &mut fields) {
        Err(refusal) => a.number = number_of(refusal),
        Ok(()) => {
            a.first = if record.is_series() { fields.remove(0) as u8 } else { 0 };
            a.len = fields.len() as u8;
        }
    }
    pages.case(10 + r as u8, payload, &[], a, &wide(&fields));
}

fn write(pages: &mut Pages, r: usize, record: &Record, fields: &[i64], dest: u8, len: usize, fill: u8) {
    assert!(!record.is_left_out(fields), "{} {fields:?} is left out", record.name);
    let mut buffer = vec![fill; len];
    let answer = match PacketAddress::try_from(dest) {
        Err(_) => Answer::refusal(ours::BAD_ADDRESS),
        Ok(address) => match (record.write_rust)(fields, address, &mut buffer) {
            Ok(written) => Answer::wrote(written),
            Err(refusal) => Answer::refusal(number_of(refusal)),
        },
    };
    pages.case(20 + r as u8, &wide(fields), &[dest, fill], answer, &buffer);
}

/// The sample's bytes, and how many cases it has.
pub fn sample(seed: u64) -> (Vec<u8>, usize) {
    let mut r = Rng::new(seed);
    let mut pages = Pages { bytes: vec![], cases: 0 };
    for byte in 0..=255 {
        pages.case(3, &[byte], &[], Answer::default(), &[queries::header_of(byte)]);
        pages.case(4, &[byte], &[], Answer::default(), &[u8::from(PacketAddress::try_from(byte).is_ok())]);
    }
    for len in 0..=66 {
        let mut bytes = vec![0; len];
        r.fill(&mut bytes);
        pages.case(5, &bytes, &[], Answer::default(), &[CHECK.checksum(&bytes)]);
    }
    let near = |d: i32| d - 2..=d + 2;
    let random: Vec<i32> = (0..100).map(|_| r.within(-12_000, 330_000) as i32).collect();
    for d in near(-10_000).chain(near(0)).chain(near(22_768)).chain(near(327_655)).chain([i32::MIN, i32::MAX]).chain(random) {
        pages.case(6, &d.to_be_bytes(), &[], Answer::default(), &BaroAltitude::get_altitude_packed(d).to_be_bytes());
    }
    for packed in (0..=u16::MAX).step_by(499).chain([0x7FFE, 0x7FFF, 0x8000, 0x8001, 0xFFFE, 0xFFFF]) {
        let rust = BaroAltitude { altitude_packed: packed, vertical_speed_packed: 0 }.get_altitude_dm();
        pages.case(7, &packed.to_be_bytes(), &[], Answer::default(), &rust.to_be_bytes());
    }
    for length in [0, 1, 2, 3, 10, 24, 61, 62, 63, 64, 255] {
        for address in [0xC8, 0x00, 0x97, 0x98] {
            let body: Vec<u8> = (0..61.min(length.max(2) - 1)).map(|_| r.one_of(&EDGES)).collect();
            let mut bytes = gen::frame(address, &body);
            bytes[1] = length;
            stream(&mut pages, &mut r, &bytes);
        }
    }
    for _ in 0..40 {
        let bytes = gen::stream(&mut r, 100);
        stream(&mut pages, &mut r, &bytes);
        let typical = gen::typical(&mut r, 60);
        stream(&mut pages, &mut r, &typical);
    }
    for (i, record) in RECORDS.iter().enumerate() {
        for len in 0..=64 {
            let mut payload = vec![0; len];
            r.fill(&mut payload);
            if !record.is_left_out_read(&payload) {
                read(&mut pages, i, record, &payload);
            }
        }
        for len in 0..=70 {
            let fields = record.random_fields(&mut r);
            let dest = if len % 10 == 9 { r.byte() } else { r.one_of(&ADDRESSES) };
            let fill = r.byte();
            write(&mut pages, i, record, &fields, dest, len, fill);
        }
    }
    // Every count of values, up to one too many.
    for (i, record) in RECORDS.iter().enumerate().filter(|(_, record)| record.is_series()) {
        for count in 0..=record.ranges.len() {
            let fields: Vec<i64> = (0..=count).map(|i| record.random_field(&mut r, i.min(record.ranges.len() - 1))).collect();
            if !record.is_left_out(&fields) {
                write(&mut pages, i, record, &fields, 0xC8, 70, 0xA5);
            }
        }
    }
    // The greatest capacity that a battery may have, without an id and with one, in buffers too short, just long enough and longer.
    for (id, len) in [0, 5].into_iter().flat_map(|id| (11..=14).map(move |len| (id, len))) {
        write(&mut pages, 4, &RECORDS[4], &[120, 15, (1 << 24) - 1, 50, id], 0xC8, len, 0xA5);
    }
    pages.end_page();
    (pages.bytes, pages.cases)
}
