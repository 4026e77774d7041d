//! Refusals, with the numbers that the entries give them.
use crate::entry::Answer;
use std::fmt;

/// What a stream refuses. With the first three one byte is dropped, and the next call goes on behind it; the others take nothing.
#[derive(Clone, Copy, Debug, PartialEq, Eq)]
pub enum CrsfStreamError {
    /// 1: the byte is not an address.
    InvalidSync(u8),
    /// 2: the length byte is not 2 to 62.
    InvalidPacketLength(u8),
    /// 3: a whole frame whose check byte differs.
    InvalidCrc {
        /// What the check byte should be.
        calculated: u8,
        /// What it is.
        carried: u8,
    },
    /// 8: the bytes are not a valid state, a saved form is malformed, at a save 64 bytes are held, or at a save or a restore the position behind the held
    /// bytes is above 2^64 - 1. Nothing is changed.
    BadState,
    /// 12: the position behind the held bytes and the input would be above 2^64 - 1. Nothing is taken or changed, so that the same call gives it again;
    /// a shorter input may still be taken.
    PositionRange,
}

/// What a record's reader or writer refuses. Nothing is made or written then.
#[derive(Clone, Copy, Debug, PartialEq, Eq)]
pub enum CrsfParsingError {
    /// 4: a payload under the record's minimum, a wrong number of values, or more than eight sets of a burst.
    InvalidPayloadLength,
    /// 5: the buffer is too short for what would be written.
    BufferOverflow,
    /// 6: the index of the first channel above 2047.
    ChannelRange(usize),
    /// 6, of a burst: the first channel above 2047.
    SetChannelRange {
        /// The index of the set that has it.
        set: usize,
        /// Its index in that set.
        channel: usize,
    },
    /// 7: the destination is not an address.
    BadAddress,
    /// 11: a battery's capacity of 2^24 or more, for which its 24 bits have no room.
    CapacityRange,
}

/// What a log's reader or writer refuses.
#[derive(Clone, Copy, Debug, PartialEq, Eq)]
pub enum LogError {
    /// 5, of a writer: the buffer is too short for what would be written. Nothing is written.
    BufferOverflow,
    /// 8, of a reader's bytes: they are not a valid state. Nothing is changed.
    BadState,
    /// 9, of a reader: a malformed number, a first number other than 1, an end inside an entry or before the 1, or a byte behind the end.
    InvalidLog,
    /// 10: a length that is not 4 to 64, or bytes that are not one whole valid frame. A writer writes nothing then.
    InvalidFrame,
}

impl CrsfStreamError {
    pub(crate) fn of(answer: Answer) -> Self {
        match answer.number {
            1 => CrsfStreamError::InvalidSync(answer.first),
            2 => CrsfStreamError::InvalidPacketLength(answer.first),
            3 => CrsfStreamError::InvalidCrc { calculated: answer.first, carried: answer.second },
            12 => CrsfStreamError::PositionRange,
            _ => CrsfStreamError::BadState,
        }
    }
}

impl CrsfParsingError {
    pub(crate) fn of(answer: Answer) -> Self {
        match answer.number {
            4 => CrsfParsingError::InvalidPayloadLength,
            6 => CrsfParsingError::ChannelRange(answer.first.into()),
            7 => CrsfParsingError::BadAddress,
            11 => CrsfParsingError::CapacityRange,
            _ => CrsfParsingError::BufferOverflow,
        }
    }
}

impl LogError {
    pub(crate) fn of(answer: Answer) -> Self {
        match answer.number {
            5 => LogError::BufferOverflow,
            9 => LogError::InvalidLog,
            10 => LogError::InvalidFrame,
            _ => LogError::BadState,
        }
    }
}

impl fmt::Display for CrsfStreamError {
    fn fmt(&self, f: &mut fmt::Formatter<'_>) -> fmt::Result {
        match self {
            CrsfStreamError::InvalidSync(byte) => write!(f, "{byte:02X} is not an address"),
            CrsfStreamError::InvalidPacketLength(length) => write!(f, "the length byte {length:02X} is not 2 to 62"),
            CrsfStreamError::InvalidCrc { calculated, carried } => write!(f, "the check byte is {carried:02X}, not {calculated:02X}"),
            CrsfStreamError::BadState => write!(f, "not a valid state or saved form"),
            CrsfStreamError::PositionRange => write!(f, "the position behind the input would be above 2^64 - 1"),
        }
    }
}

impl fmt::Display for CrsfParsingError {
    fn fmt(&self, f: &mut fmt::Formatter<'_>) -> fmt::Result {
        match self {
            CrsfParsingError::InvalidPayloadLength => write!(f, "too few bytes, or a wrong number of values or of sets"),
            CrsfParsingError::BufferOverflow => write!(f, "the buffer is too short"),
            CrsfParsingError::ChannelRange(index) => write!(f, "channel {index} is above 2047"),
            CrsfParsingError::SetChannelRange { set, channel } => write!(f, "channel {channel} of set {set} is above 2047"),
            CrsfParsingError::BadAddress => write!(f, "the destination is not an address"),
            CrsfParsingError::CapacityRange => write!(f, "the capacity is above 16777215 mAh"),
        }
    }
}

impl fmt::Display for LogError {
    fn fmt(&self, f: &mut fmt::Formatter<'_>) -> fmt::Result {
        match self {
            LogError::BufferOverflow => write!(f, "the buffer is too short"),
            LogError::BadState => write!(f, "not a valid state of a log's reader"),
            LogError::InvalidLog => write!(f, "not a log"),
            LogError::InvalidFrame => write!(f, "not one whole valid frame"),
        }
    }
}

impl std::error::Error for CrsfStreamError {}
impl std::error::Error for CrsfParsingError {}
impl std::error::Error for LogError {}
