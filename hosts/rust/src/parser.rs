//! The parser: a state of 74 bytes that is lent to each call, and the frames that it lends.
use crate::entry::{self, Raw};
use crate::error::CrsfStreamError;

const STATE_SIZE: usize = 74;
/// The most bytes that a saved form has: the mark, ten for the position, one for the count, 63 held.
pub const SAVED_MAX: usize = 75;

/// Cuts a byte stream, in pieces of any size, into frames.
#[derive(Clone, Debug, PartialEq, Eq)]
pub struct CrsfParser {
    /// Start, end, then the 64 places of the held bytes, then the position, highest byte first.
    state: [u8; STATE_SIZE],
}

impl Default for CrsfParser {
    fn default() -> Self {
        Self::new()
    }
}

impl CrsfParser {
    /// A parser that holds nothing, at position 0.
    pub const fn new() -> Self {
        CrsfParser { state: [0; STATE_SIZE] }
    }

    /// A parser over the 74 bytes of a state that was kept elsewhere. Bytes that are not a valid state are refused with `BadState`, so no parser has
    /// them. Whatever its position is, the state is valid; but where the position behind its held bytes is above 2^64 - 1, it has no saved form, and
    /// every call of the stream gives `PositionRange` until a reset.
    pub fn from_state(state: [u8; STATE_SIZE]) -> Result<Self, CrsfStreamError> {
        let parser = CrsfParser { state };
        parser.held()?;
        Ok(parser)
    }

    /// The 74 bytes of the state: start, end, the 64 places of the held bytes, and the position, highest byte first.
    pub const fn state(&self) -> &[u8; STATE_SIZE] {
        &self.state
    }

    /// The next frame or refusal of the stream, or `None` where more input is needed; `input` goes on behind what was taken.
    ///
    /// A frame is lent from `input` if nothing was held before the call, else from the parser. Call again until `None`: an answer may be due with no
    /// input left. With `None` all of `input` is taken. After a refusal one byte is dropped, and the next call goes on behind it; it is never
    /// `BadState`, since a parser's state is valid. With `PositionRange` alone nothing is taken, and asking again changes nothing: a loop
    /// `while let Some(..)` has to end there. It comes where the position behind `input` would be above 2^64 - 1.
    ///
    /// ```
    /// use crsf_host::{CrsfParser, CrsfStreamError};
    ///
    /// let mut parser = CrsfParser::new();
    /// let bytes = [0xC8, 2, 0, 0, 0x55, 0xC8, 2, 0];
    /// let mut input = bytes.as_slice();
    /// let frame = parser.next_raw_packet(&mut input).unwrap().unwrap();
    /// assert_eq!((frame.dst_addr(), frame.raw_packet_type(), frame.payload()), (0xC8, 0, &[][..]));
    /// assert_eq!(parser.next_raw_packet(&mut input), Some(Err(CrsfStreamError::InvalidSync(0x55))));
    /// assert_eq!(parser.next_raw_packet(&mut input), None);
    /// assert_eq!(parser.held(), Ok(3));
    /// ```
    pub fn next_raw_packet<'p, 'i: 'p>(&'p mut self, input: &mut &'i [u8]) -> Option<Result<RawCrsfPacket<'p>, CrsfStreamError>> {
        self.next_answer(input).map(|answer| answer.result)
    }

    /// What [`CrsfParser::next_raw_packet`] gives, with the position where it began in the stream, however that was cut.
    ///
    /// With `PositionRange` nothing is taken, and asking again changes nothing: a loop `while let Some(..)` has to end there.
    ///
    /// ```
    /// use crsf_host::{CrsfParser, CrsfStreamError};
    ///
    /// let mut parser = CrsfParser::new();
    /// let mut found = Vec::new();
    /// for mut piece in [0xC8, 2, 0, 0, 0x55, 0xC8, 2, 0, 0, 0xC8].chunks(3) {
    ///     while let Some(answer) = parser.next_answer(&mut piece) {
    ///         if answer.result == Err(CrsfStreamError::PositionRange) {
    ///             break;
    ///         }
    ///         found.push((answer.position, answer.result.is_ok()));
    ///     }
    /// }
    /// assert_eq!(found, [(0, true), (4, false), (5, true)]);
    /// assert_eq!(parser.position(), 9); // of the byte that is held
    /// ```
    pub fn next_answer<'p, 'i: 'p>(&'p mut self, input: &mut &'i [u8]) -> Option<StreamAnswer<'p>> {
        let piece: &'i [u8] = input;
        let mut position = [0];
        let answer = entry::next_raw_packet(&mut self.state, piece, &mut position);
        *input = &piece[answer.taken..];
        let result = match answer.number {
            255 => return None,
            0 => {
                let place: &'p [u8] = if answer.in_state { &self.state } else { piece };
                // A frame has 4 bytes at least, so there is a view of it.
                Ok(RawCrsfPacket::new(&place[answer.at..answer.at + answer.len])?)
            }
            _ => Err(CrsfStreamError::of(answer)),
        };
        // Of these only `PositionRange` leaves the place for a position untouched; the parser is then where it was.
        let position = if result == Err(CrsfStreamError::PositionRange) { self.position() } else { position[0] };
        Some(StreamAnswer { position, result })
    }

    /// The position of the first held byte, or, where nothing is held, of the next byte: how many bytes of the stream came before it.
    pub fn position(&self) -> u64 {
        let mut position = [0];
        // Never refused, since a parser's state is valid.
        entry::position(&self.state, &mut position);
        position[0]
    }

    /// Forgets the held bytes. Unread input then begins a new stream, at position 0.
    pub fn reset(&mut self) {
        entry::reset(&mut self.state);
    }

    /// How many bytes are held.
    pub fn held(&self) -> Result<usize, CrsfStreamError> {
        let answer = entry::held(&self.state);
        if answer.number == 0 {
            Ok(answer.len)
        } else {
            Err(CrsfStreamError::of(answer))
        }
    }

    /// The saved form of the position and of what is held: a parser restored from it goes on where this one is. After `None` it is never refused.
    pub fn save(&self) -> Result<SavedParser, CrsfStreamError> {
        let mut form = [0; SAVED_MAX];
        let answer = entry::save(&self.state, &mut form);
        if answer.number == 0 {
            Ok(SavedParser { form, len: answer.len })
        } else {
            Err(CrsfStreamError::of(answer))
        }
    }

    /// The parser of a saved form. A form that no save writes is refused; one that was saved before version 0.7.0, without a position, is at 0.
    pub fn restore(form: &[u8]) -> Result<Self, CrsfStreamError> {
        let mut parser = CrsfParser::new();
        let answer = entry::restore(&mut parser.state, form);
        if answer.number == 0 {
            Ok(parser)
        } else {
            Err(CrsfStreamError::of(answer))
        }
    }
}

/// An answer of the stream, its frame lent.
#[derive(Clone, Copy, Debug, PartialEq, Eq)]
pub struct StreamAnswer<'p> {
    /// Where it began in the stream: the position of its first byte. Of `PositionRange`, which takes none, the parser's own.
    pub position: u64,
    /// What [`CrsfParser::next_raw_packet`] gives.
    pub result: Result<RawCrsfPacket<'p>, CrsfStreamError>,
}

/// A saved form: the position, a count, and the held bytes. To be kept as the bytes that `as_ref` shows, 3 to [`SAVED_MAX`].
#[derive(Clone, Debug)]
pub struct SavedParser {
    form: [u8; SAVED_MAX],
    len: usize,
}

impl AsRef<[u8]> for SavedParser {
    fn as_ref(&self) -> &[u8] {
        &self.form[..self.len]
    }
}

/// A frame, lent: address, length, type, payload, check byte.
#[derive(Clone, Copy, Debug, PartialEq, Eq)]
pub struct RawCrsfPacket<'p> {
    bytes: &'p [u8],
    shown: Raw,
}

impl<'p> RawCrsfPacket<'p> {
    /// A view of any 4 bytes or more; nothing else is tested.
    pub fn new(bytes: &'p [u8]) -> Option<Self> {
        let shown = entry::raw_view(bytes);
        (shown.number == 0).then_some(RawCrsfPacket { bytes, shown })
    }

    /// The whole frame.
    pub fn as_bytes(&self) -> &'p [u8] {
        self.bytes
    }

    /// How many bytes they are: of a frame 4 to 64.
    #[allow(clippy::len_without_is_empty)]
    pub fn len(&self) -> usize {
        self.bytes.len()
    }

    /// The address that it was sent to.
    pub fn dst_addr(&self) -> u8 {
        self.shown.address
    }

    /// The packet type, as `Battery::PACKET_TYPE`.
    pub fn raw_packet_type(&self) -> u8 {
        self.shown.packet_type
    }

    /// The bytes between the type and the check byte.
    pub fn payload(&self) -> &'p [u8] {
        &self.bytes[3..self.bytes.len() - 1]
    }

    /// The check byte that it carries.
    pub fn crc(&self) -> u8 {
        self.shown.check
    }
}
