//! Reads a file in pieces of a given size, saves and restores midway, and prints the frames: `listing FILE [PIECE]`, PIECE bytes at a time (64).
use crsf_host::{CrsfParser, CrsfStreamError};
use std::io::{Read, Write};
use std::{env, error, fs, io};

fn main() -> Result<(), Box<dyn error::Error>> {
    let path = env::args().nth(1).ok_or("usage: listing FILE [PIECE]")?;
    let size: usize = env::args().nth(2).map_or(Ok(64), |word| word.parse())?;
    let mut file = fs::File::open(&path)?;
    let half = file.metadata()?.len() / 2;
    let mut out = io::stdout().lock();
    let mut parser = CrsfParser::new();
    let mut piece = vec![0; size.max(1)];
    let (mut read, mut moved) = (0, false);
    loop {
        let n = file.read(&mut piece)?;
        if n == 0 {
            break;
        }
        let mut input = &piece[..n];
        while let Some(answer) = parser.next_raw_packet(&mut input) {
            match answer {
                Ok(frame) => writeln!(out, "frame {:02X} {:02X} {}", frame.dst_addr(), frame.raw_packet_type(), frame.payload().len())?,
                Err(CrsfStreamError::InvalidSync(byte)) => writeln!(out, "sync {byte:02X}")?,
                Err(CrsfStreamError::InvalidPacketLength(length)) => writeln!(out, "length {length:02X}")?,
                Err(CrsfStreamError::InvalidCrc { calculated, carried }) => writeln!(out, "crc {calculated:02X} {carried:02X}")?,
                Err(nothing_taken @ (CrsfStreamError::BadState | CrsfStreamError::PositionRange)) => return Err(nothing_taken.into()),
            }
        }
        read += n as u64;
        if !moved && half <= read {
            // Midway the parser is put away, and another one goes on: no answer is lost, and none comes twice.
            let saved = parser.save()?;
            parser = CrsfParser::restore(saved.as_ref())?;
            moved = true;
        }
    }
    writeln!(out, "held {}", parser.held()?)?;
    Ok(())
}
