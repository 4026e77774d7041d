//! The records: each is read from a payload and written as a whole frame.
use crate::entry::{self, Answer};
use crate::error::CrsfParsingError;

/// A record of a packet type.
pub trait CrsfPacket: Sized {
    /// The type of a frame that carries the record.
    const PACKET_TYPE: u8;

    /// The record of a payload. Bytes behind the record are ignored; of a series those of an unfinished value. A series without a whole value, or with
    /// more than it has at most, is refused.
    fn from_bytes(payload: &[u8]) -> Result<Self, CrsfParsingError>;

    /// The record as a whole frame at the front of `buffer`; the count of its bytes, at most 64. Refused, in this order: a `dest` that is not an
    /// address, a channel above 2047 or a battery's capacity above 16,777,215, and a `buffer` that is too short. A refusal writes nothing.
    fn write_packet_to_buffer(&self, buffer: &mut [u8], dest: u8) -> Result<usize, CrsfParsingError>;
}

/// The record as a whole frame, as the Rust original names it.
pub fn write_packet_to_buffer<P: CrsfPacket>(buffer: &mut [u8], dest: u8, packet: &P) -> Result<usize, CrsfParsingError> {
    packet.write_packet_to_buffer(buffer, dest)
}

fn counted(answer: Answer) -> Result<usize, CrsfParsingError> {
    if answer.number == 0 {
        Ok(answer.len)
    } else {
        Err(CrsfParsingError::of(answer))
    }
}

/// A record whose numbers all have fields of their own.
macro_rules! record {
    ($(#[$about:meta])* $record:ident, $packet_type:literal, $count:literal, $read:ident, $write:ident, { $($(#[$note:meta])* $field:ident: $type:ty),* $(,)? }) => {
        $(#[$about])*
        #[derive(Clone, Copy, Debug, PartialEq, Eq)]
        pub struct $record {
            $($(#[$note])* pub $field: $type,)*
        }

        impl CrsfPacket for $record {
            const PACKET_TYPE: u8 = $packet_type;

            fn from_bytes(payload: &[u8]) -> Result<Self, CrsfParsingError> {
                let mut numbers = [0; $count];
                counted(entry::$read(payload, &mut numbers))?;
                let [$($field),*] = numbers;
                Ok($record { $($field: $field as $type),* })
            }

            fn write_packet_to_buffer(&self, buffer: &mut [u8], dest: u8) -> Result<usize, CrsfParsingError> {
                counted(entry::$write(buffer, dest $(, self.$field)*))
            }
        }
    };
}

record!(
/// The quality of the radio link. Uplink is from the ground to the craft, downlink the other way.
LinkStatistics, 0x14, 10, read_link_statistics, write_link_statistics, {
    /// Uplink: signal strength at antenna 1, in dBm without its minus sign: 90 is -90 dBm.
    uplink_rssi_1: u8,
    /// Uplink: the same at antenna 2.
    uplink_rssi_2: u8,
    /// Uplink: packets that arrive, in percent.
    uplink_link_quality: u8,
    /// Uplink: signal above noise, in dB.
    uplink_snr: i8,
    /// The antenna in use.
    active_antenna: u8,
    /// The radio's profile: 0 is 4 frames a second, 1 is 50, 2 is 150.
    rf_mode: u8,
    /// A step of power: 0 to 8 are 0, 10, 25, 100, 500, 1000, 2000, 250 and 50 mW.
    uplink_tx_power: u8,
    /// Downlink: signal strength, in dBm without its minus sign.
    downlink_rssi: u8,
    /// Downlink: packets that arrive, in percent.
    downlink_link_quality: u8,
    /// Downlink: signal above noise, in dB.
    downlink_snr: i8,
});

record!(
/// Where the craft is.
Gps, 0x02, 6, read_gps, write_gps, {
    /// Degrees times 10^7.
    latitude: i32,
    /// Degrees times 10^7.
    longitude: i32,
    /// Hundredths of a km/h.
    groundspeed: u16,
    /// Hundredths of a degree.
    heading: u16,
    /// Metres with 1000 added: `altitude_metres` takes them off.
    altitude: u16,
    /// How many satellites are in view.
    satellites: u8,
});

impl Gps {
    /// The altitude in metres.
    pub fn altitude_metres(&self) -> i32 {
        entry::gps_metres(self.altitude)
    }
}

record!(
/// How the craft moves, and how well that is known.
GpsExtended, 0x06, 12, read_gps_extended, write_gps_extended, {
    /// The quality of the fix.
    fix_type: u8,
    /// Speed to the north, in cm/s.
    n_speed: i16,
    /// Speed to the east, in cm/s.
    e_speed: i16,
    /// Speed upwards, in cm/s.
    v_speed: i16,
    /// How exact the horizontal speed is, in cm/s.
    h_speed_acc: i16,
    /// How exact the heading is, in tenths of a degree.
    track_acc: i16,
    /// Height above the GPS ellipsoid (not above the sea), in metres.
    alt_ellipsoid: i16,
    /// How exact the place is, in cm.
    h_acc: i16,
    /// How exact the height is, in cm.
    v_acc: i16,
    /// Carried unchanged.
    reserved: u8,
    /// Horizontal dilution of precision, in tenths.
    h_dop: u8,
    /// Vertical dilution of precision, in tenths.
    v_dop: u8,
});

record!(
/// A battery.
Battery, 0x08, 5, read_battery, write_battery, {
    /// Tenths of a volt: 120 is 12 V.
    voltage: i16,
    /// Tenths of an ampere: 15 is 1.5 A.
    current: i16,
    /// mAh. It is written in 24 bits: a battery with more than [`Battery::MAX_CAPACITY`] is not written.
    capacity_used: u32,
    /// Percent.
    remaining: u8,
    /// The sensor. 0 is not written, and a payload without one is read as 0.
    id: u8,
});

impl Battery {
    /// The most mAh that a battery is written with.
    pub const MAX_CAPACITY: u32 = 0xFF_FFFF;
}

record!(
/// Altitude by air pressure.
BaroAltitude, 0x09, 2, read_baro_altitude, write_baro_altitude, {
    /// Altitude above the starting point, packed: see `get_altitude_packed` and `get_altitude_dm`.
    altitude_packed: u16,
    /// Vertical speed on a logarithmic scale, negative downwards; carried as it is.
    vertical_speed_packed: i8,
});

impl BaroAltitude {
    /// The altitude in decimetres.
    pub fn get_altitude_dm(&self) -> i32 {
        entry::baro_decimetres(self.altitude_packed)
    }

    /// Decimetres of altitude as the record carries them: below -10000 gives 0, above 327655 gives 0xFFFE.
    pub fn get_altitude_packed(decimetres: i32) -> u16 {
        entry::pack_altitude(decimetres)
    }
}

/// The sixteen channels of a remote control. A channel x of 0 to 2047 stands for (x - 992) * 5 / 8 + 1500 microseconds: 992 is the middle. One above
/// 2047 is not written.
#[derive(Clone, Copy, Debug, PartialEq, Eq)]
pub struct RcChannelsPacked(pub [u16; 16]);

impl RcChannelsPacked {
    /// The microseconds of a raw channel value: exactly (x - 992) * 5 / 8 + 1500. One above 2047 is refused.
    ///
    /// ```
    /// use crsf_host::{CrsfParsingError, RcChannelsPacked};
    ///
    /// assert_eq!(RcChannelsPacked::to_microseconds(992), Ok(1500.0));
    /// assert_eq!(RcChannelsPacked::to_microseconds(2048), Err(CrsfParsingError::ChannelRange(0)));
    /// ```
    pub fn to_microseconds(channel: u16) -> Result<f32, CrsfParsingError> {
        let mut bits = [0];
        counted(entry::channel_microseconds(channel, &mut bits))?;
        Ok(f32::from_bits(bits[0]))
    }
}

impl CrsfPacket for RcChannelsPacked {
    const PACKET_TYPE: u8 = 0x16;

    fn from_bytes(payload: &[u8]) -> Result<Self, CrsfParsingError> {
        let mut channels = [0; 16];
        counted(entry::read_rc_channels_packed(payload, &mut channels))?;
        Ok(RcChannelsPacked(channels))
    }

    fn write_packet_to_buffer(&self, buffer: &mut [u8], dest: u8) -> Result<usize, CrsfParsingError> {
        counted(entry::write_rc_channels_packed(buffer, dest, &self.0))
    }
}

/// The most sets of a burst.
pub const BURST_SETS_MAX: usize = 8;

/// The most bytes that a burst has: a frame of 26 for each set.
pub const BURST_MAX: usize = 208;

/// A burst, as for a run on a bench: the frames of several sets of channels, one after another at the front of `buffer`; the count of their bytes, 26
/// for each. Each is the frame that [`RcChannelsPacked`] writes of its set. Refused, in this order: a `dest` that is not an address, more than
/// [`BURST_SETS_MAX`] sets, a channel above 2047, and a `buffer` that is too short. A refusal writes nothing. With no set nothing is written, and a
/// buffer of any length will do.
///
/// ```
/// use crsf_host::{write_rc_channels_burst, CrsfParser, CrsfParsingError, BURST_MAX};
///
/// # fn main() -> Result<(), CrsfParsingError> {
/// let mut sets = [[992; 16]; 3];
/// sets[1][4] = 1811;
/// let mut buffer = [0; BURST_MAX];
/// let n = write_rc_channels_burst(&mut buffer, 0xC8, &sets)?;
///
/// let mut parser = CrsfParser::new();
/// let mut input = &buffer[..n];
/// let mut frames = 0;
/// while let Some(frame) = parser.next_raw_packet(&mut input) {
///     frames += usize::from(frame.is_ok());
/// }
/// assert_eq!((n, frames), (78, 3));
///
/// sets[2][9] = 2048;
/// let refusal = write_rc_channels_burst(&mut buffer, 0xC8, &sets);
/// assert_eq!(refusal, Err(CrsfParsingError::SetChannelRange { set: 2, channel: 9 }));
/// # Ok(())
/// # }
/// ```
pub fn write_rc_channels_burst(buffer: &mut [u8], dest: u8, sets: &[[u16; 16]]) -> Result<usize, CrsfParsingError> {
    let answer = entry::write_rc_channels_burst(buffer, dest, sets);
    match answer.number {
        // The only writer whose refusal 6 names a set too.
        6 => Err(CrsfParsingError::SetChannelRange { set: answer.first.into(), channel: answer.second.into() }),
        _ => counted(answer),
    }
}

/// A series: an id, then values of one type.
macro_rules! series {
    ($(#[$about:meta])* $record:ident, $packet_type:literal, $most:literal, $read:ident, $write:ident, {
        $(#[$id_note:meta])* $id:ident, $(#[$note:meta])* $values:ident: $type:ty $(,)?
    }) => {
        $(#[$about])*
        #[derive(Clone, Debug, PartialEq, Eq)]
        pub struct $record {
            $(#[$id_note])* pub $id: u8,
            values: [$type; $most],
            count: usize,
        }

        impl $record {
            #[doc = concat!("A record of 1 to ", $most, " values.")]
            pub fn new($id: u8, $values: &[$type]) -> Result<Self, CrsfParsingError> {
                if $values.is_empty() || $most < $values.len() {
                    return Err(CrsfParsingError::InvalidPayloadLength);
                }
                let mut values = [0; $most];
                values[..$values.len()].copy_from_slice($values);
                Ok($record { $id, values, count: $values.len() })
            }

            $(#[$note])*
            pub fn $values(&self) -> &[$type] {
                &self.values[..self.count]
            }
        }

        impl CrsfPacket for $record {
            const PACKET_TYPE: u8 = $packet_type;

            fn from_bytes(payload: &[u8]) -> Result<Self, CrsfParsingError> {
                let mut values = [0; $most];
                let answer = entry::$read(payload, &mut values);
                let count = counted(answer)?;
                Ok($record { $id: answer.first, values, count })
            }

            fn write_packet_to_buffer(&self, buffer: &mut [u8], dest: u8) -> Result<usize, CrsfParsingError> {
                counted(entry::$write(buffer, dest, self.$id, self.$values()))
            }
        }
    };
}

series!(
/// Revolutions per minute of motors or propellers: 1 to 19 values, negative in reverse. The low 24 bits of each are written.
Rpm, 0x0C, 19, read_rpm, write_rpm, {
    /// Where the values come from: 0 is the first motor, 1 the second.
    rpm_source_id,
    /// The values.
    rpm_values: i32,
});

series!(
/// Temperatures of one source: 1 to 20 values.
Temp, 0x0D, 20, read_temp, write_temp, {
    /// Where the values come from: 0 is the flight controller, 1 the air around it.
    temp_source_id,
    /// The values, in tenths of a degree Celsius: 250 is 25.0, -5 is half a degree below zero.
    temperatures: i16,
});

series!(
/// Voltages of one source, as those of a battery's cells: 1 to 29 values.
Voltages, 0x0E, 29, read_voltages, write_voltages, {
    /// Where the values come from.
    voltage_source_id,
    /// The values, in millivolts: 3850 is 3.85 V.
    voltage_values: u16,
});
