//! The listing over the Rust original: standard input's answers, a line for each, in the listing's words (RULES 13).
use std::io::{self, Read, Write};
use uf_crsf::{CrsfParser, CrsfStreamError};

fn hex(line: &mut Vec<u8>, byte: u8) {
    const DIGITS: &[u8; 16] = b"0123456789ABCDEF";
    line.extend_from_slice(&[b' ', DIGITS[usize::from(byte >> 4)], DIGITS[usize::from(byte & 15)]]);
}

/// A number below 100.
fn decimal(line: &mut Vec<u8>, n: usize) {
    line.push(b' ');
    if n >= 10 {
        line.push(b'0' + (n / 10) as u8);
    }
    line.push(b'0' + (n % 10) as u8);
}

fn main() -> io::Result<()> {
    let mut parser = CrsfParser::new();
    let (mut input, mut output) = (io::stdin().lock(), io::stdout().lock());
    let mut piece = vec![0; 1 << 16];
    let mut lines = Vec::with_capacity(1 << 20);
    let mut held = 0;
    loop {
        let n = input.read(&mut piece)?;
        if n == 0 {
            break;
        }
        let mut left = &piece[..n];
        held += n;
        while let Some(answer) = parser.next_raw_packet(&mut left) {
            held -= 1;
            match answer {
                Ok(frame) => {
                    held -= frame.len() - 1;
                    lines.extend_from_slice(b"frame");
                    hex(&mut lines, frame.dst_addr());
                    hex(&mut lines, frame.raw_packet_type());
                    decimal(&mut lines, frame.payload().len());
                }
                Err(CrsfStreamError::InvalidSync(b)) => {
                    lines.extend_from_slice(b"sync");
                    hex(&mut lines, b);
                }
                Err(CrsfStreamError::InvalidPacketLength(l)) => {
                    lines.extend_from_slice(b"length");
                    hex(&mut lines, l);
                }
                Err(CrsfStreamError::InvalidCrc { calculated_crc, packet_crc }) => {
                    lines.extend_from_slice(b"crc");
                    hex(&mut lines, calculated_crc);
                    hex(&mut lines, packet_crc);
                }
                Err(other) => unreachable!("{other:?} is no framing error"),
            }
            lines.push(b'\n');
        }
        output.write_all(&lines)?;
        lines.clear();
    }
    lines.extend_from_slice(b"held");
    decimal(&mut lines, held);
    lines.push(b'\n');
    output.write_all(&lines)
}
