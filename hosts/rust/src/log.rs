//! Kit logs: a reader over a state of 75 bytes that is lent to each call, and the writer's two calls.
//!
//! A log is the number 1 and then entries: the seconds since the entry before, the length of a frame, and the frame.
use crate::entry::{self, Answer};
use crate::error::LogError;
use crate::parser::RawCrsfPacket;

const STATE_SIZE: usize = 75;

/// The longest entry, in bytes: five of seconds, one of length, 64 of frame.
pub const LOG_ENTRY_MAX: usize = 70;

/// Reads a log, in pieces of any size. However it is cut, the entries and the refusal are the same.
///
/// ```
/// use crsf_host::{log_entry, log_start, LogError, LogReader, LOG_ENTRY_MAX};
///
/// # fn main() -> Result<(), LogError> {
/// let mut log = [0; 1 + 2 * LOG_ENTRY_MAX];
/// let mut n = log_start(&mut log)?;
/// n += log_entry(0, &[0xC8, 2, 0, 0], &mut log[n..])?;
/// n += log_entry(300, &[0xEE, 3, 0x7F, 1, 6], &mut log[n..])?;
///
/// let mut reader = LogReader::new();
/// let mut seconds = Vec::new();
/// for mut piece in log[..n].chunks(4) {
///     while let Some(entry) = reader.next_entry(&mut piece)? {
///         seconds.push((entry.seconds, entry.frame.dst_addr()));
///     }
/// }
/// reader.end()?;
/// assert_eq!(seconds, [(0, 0xC8), (300, 0xEE)]);
/// assert_eq!(reader.next_entry(&mut &log[..1]), Err(LogError::InvalidLog)); // a byte behind the end
/// # Ok(())
/// # }
/// ```
#[derive(Clone, Debug, PartialEq, Eq)]
pub struct LogReader {
    /// Stage, count, size, value and seconds, then the 64 places of a frame's held bytes: `crsf_log_state` in crsf.h.
    state: [u8; STATE_SIZE],
}

/// An entry of a log, its frame lent.
#[derive(Clone, Copy, Debug, PartialEq, Eq)]
pub struct LogEntry<'r> {
    /// The seconds since the entry before.
    pub seconds: u32,
    /// The frame: from the piece where it stands whole there, else from the reader.
    pub frame: RawCrsfPacket<'r>,
}

impl Default for LogReader {
    fn default() -> Self {
        Self::new()
    }
}

impl LogReader {
    /// A reader before the first byte.
    pub const fn new() -> Self {
        LogReader { state: [0; STATE_SIZE] }
    }

    /// A reader over the 75 bytes of a state that was kept elsewhere. Bytes that no log leads to are refused with `BadState`, so no reader has them.
    pub fn from_state(state: [u8; STATE_SIZE]) -> Result<Self, LogError> {
        // An empty piece takes nothing, and says whether the state is valid.
        match entry::log_next(&mut { state }, &[], &mut 0).number {
            8 => Err(LogError::BadState),
            _ => Ok(LogReader { state }),
        }
    }

    /// The 75 bytes of the state.
    pub const fn state(&self) -> &[u8; STATE_SIZE] {
        &self.state
    }

    /// The next entry, or `None` where more input is needed; `input` goes on behind what was taken, at most 71 bytes.
    ///
    /// With `None` all of `input` is taken. With a refusal the bytes up to and with the one that is refused are taken; from then on every call gives
    /// this refusal and takes nothing, until a reset. It is never `BadState`, since a reader's state is valid.
    pub fn next_entry<'r, 'i: 'r>(&'r mut self, input: &mut &'i [u8]) -> Result<Option<LogEntry<'r>>, LogError> {
        let piece: &'i [u8] = input;
        let mut seconds = 0;
        let answer = entry::log_next(&mut self.state, piece, &mut seconds);
        *input = &piece[answer.taken..];
        match answer.number {
            255 => Ok(None),
            0 => {
                let place: &'r [u8] = if answer.in_state { &self.state } else { piece };
                // A frame has 4 bytes at least, so there is a view of it.
                Ok(RawCrsfPacket::new(&place[answer.at..answer.at + answer.len]).map(|frame| LogEntry { seconds, frame }))
            }
            _ => Err(LogError::of(answer)),
        }
    }

    /// Says that the log ends here. Refused inside an entry and before the 1; after a refusal it is that one.
    ///
    /// After an accepted end another one is accepted, an empty piece asks for more, and a byte is refused until a reset.
    pub fn end(&mut self) -> Result<(), LogError> {
        counted(entry::log_end(&mut self.state)).map(|_| ())
    }

    /// Before the first byte again.
    pub fn reset(&mut self) {
        entry::log_reset(&mut self.state);
    }
}

/// Writes what a log begins with to the front of `out`; the count of its bytes, 1.
pub fn log_start(out: &mut [u8]) -> Result<usize, LogError> {
    counted(entry::log_start(out))
}

/// Writes an entry to the front of `out`; the count of its bytes, at most [`LOG_ENTRY_MAX`]. Bytes that are not one whole valid frame are refused, and
/// then a buffer that is too short; a refusal writes nothing.
pub fn log_entry(seconds: u32, frame: &[u8], out: &mut [u8]) -> Result<usize, LogError> {
    counted(entry::log_entry(seconds, frame, out))
}

fn counted(answer: Answer) -> Result<usize, LogError> {
    if answer.number == 0 {
        Ok(answer.len)
    } else {
        Err(LogError::of(answer))
    }
}
