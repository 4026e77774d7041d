//! CRSF frames for a host in Rust, over the entries of the proved archive. What those promise is proved of their code, for every input; this package
//! only puts them into Rust's own words.
//!
//! [`CrsfParser::next_raw_packet`] cuts a stream into frames, and [`CrsfParser::next_answer`] also says where in the stream each answer began.
//!
//! The archive comes first: `hosts/archive` writes it, and `./install PREFIX` installs it. It is looked for in the folder that `CRSF_ARCHIVE_DIR`
//! names; without that variable in the repository's `target/staticlib`, or, from an installed package, in `PREFIX/lib`.
#![deny(missing_debug_implementations, missing_docs)]

mod entry;
mod error;
mod log;
mod packets;
mod parser;

pub use error::{CrsfParsingError, CrsfStreamError, LogError};
pub use log::{log_entry, log_start, LogEntry, LogReader, LOG_ENTRY_MAX};
pub use packets::{
    write_packet_to_buffer, write_rc_channels_burst, BaroAltitude, Battery, CrsfPacket, Gps, GpsExtended, LinkStatistics, RcChannelsPacked, Rpm,
    Temp, Voltages, BURST_MAX, BURST_SETS_MAX,
};
pub use parser::{CrsfParser, RawCrsfPacket, SavedParser, StreamAnswer, SAVED_MAX};

/// How a packet type's header is made.
#[derive(Clone, Copy, Debug, PartialEq, Eq)]
pub enum Header {
    /// The type is not in the list.
    Unlisted,
    /// The payload follows the type.
    Short,
    /// The payload begins with a destination and an origin.
    Extended,
}

/// Whether a byte is one of the 24 addresses.
pub fn is_address(byte: u8) -> bool {
    entry::is_address(byte)
}

/// Whether a packet type is unlisted, or has a short or an extended header.
pub fn header_of(packet_type: u8) -> Header {
    match entry::header_of(packet_type) {
        1 => Header::Short,
        2 => Header::Extended,
        _ => Header::Unlisted,
    }
}

/// The check byte of a type and its payload (CRC-8/DVB-S2).
pub fn checksum(bytes: &[u8]) -> u8 {
    entry::checksum(bytes)
}
