//! The port's host entries, each behind a safe function that lends slices; and the same of an earlier archive, where one is timed beside it.
use std::fmt;
use uf_crsf::packets::{BaroAltitude, Battery, Gps, GpsExtended, LinkStatistics};

/// What an entry answers: eight bytes in one register, which is how this struct is returned by value.
#[repr(C)]
#[derive(Clone, Copy, Default, PartialEq, Eq)]
pub struct Answer {
    pub number: u8,
    pub taken: u8,
    pub in_state: u8,
    pub at: u8,
    pub len: u8,
    pub first: u8,
    pub second: u8,
    pub zero: u8,
}

pub const FRAME: u8 = 0;
pub const OK: u8 = 0;
pub const INVALID_SYNC: u8 = 1;
pub const INVALID_PACKET_LENGTH: u8 = 2;
pub const INVALID_CRC: u8 = 3;
pub const INVALID_PAYLOAD_LENGTH: u8 = 4;
pub const BUFFER_OVERFLOW: u8 = 5;
pub const CHANNEL_RANGE: u8 = 6;
pub const BAD_ADDRESS: u8 = 7;
pub const BAD_STATE: u8 = 8;
pub const INVALID_FRAME: u8 = 10;
pub const CAPACITY_RANGE: u8 = 11;
pub const POSITION_RANGE: u8 = 12;
pub const MORE: u8 = 255;

/// Start, end, 64 places, and the position, highest byte first.
pub type State = [u8; 74];

/// Places for positions, of which some are lent.
#[derive(Clone, Copy, PartialEq)]
pub struct Places(pub [u64; 3]);

impl Places {
    /// What stands in a place that nothing was put into.
    const UNTOUCHED: u64 = 0x7777_7777_7777_7777;
    pub const NEW: Places = Places([Places::UNTOUCHED; 3]);
    /// With so many lent and a position told.
    pub fn told(lent: usize, position: u64) -> Places {
        let mut places = Places::NEW;
        places.0[..lent.min(1)].fill(position);
        places
    }
}

impl fmt::Debug for Places {
    fn fmt(&self, f: &mut fmt::Formatter<'_>) -> fmt::Result {
        let each = |place: &u64| if *place == Places::UNTOUCHED { "-".to_string() } else { place.to_string() };
        write!(f, "{}", self.0.each_ref().map(each).join(" "))
    }
}

/// Of a log's reader: eleven bytes, and 64 places.
pub type LogState = [u8; 75];

impl fmt::Debug for Answer {
    /// The number, and what is not 0 beside it.
    fn fmt(&self, f: &mut fmt::Formatter<'_>) -> fmt::Result {
        write!(f, "[{}", self.number)?;
        let places = ["taken", "in_state", "at", "len", "first", "second", "zero"];
        let values = [self.taken, self.in_state, self.at, self.len, self.first, self.second, self.zero];
        for (place, value) in places.iter().zip(values).filter(|(_, value)| *value != 0) {
            write!(f, " {place} {value}")?;
        }
        write!(f, "]")
    }
}

impl Answer {
    /// An answer that is a refusal and carries nothing.
    pub fn refusal(number: u8) -> Answer {
        Answer { number, ..Answer::default() }
    }
    /// What a writer or a save answers that wrote `len` bytes.
    pub fn wrote(len: usize) -> Answer {
        Answer { number: OK, len: len as u8, ..Answer::default() }
    }
}

/// A copy of which the compiler knows nothing.
#[inline(always)]
pub fn kept<T: Copy>(place: &T) -> T {
    #[inline(never)]
    fn hidden<T>(place: &T) -> &T {
        std::hint::black_box(place)
    }
    *hidden(place)
}

/// Declares the entries of both archives and a table of pointers to each. An earlier archive may lack those marked `new`: libhost.a's stand in its
/// table for them, and their rows are timed with `Rows::archives` set to libhost.a alone.
macro_rules! entries {
    (
        $(fn $name:ident($($place:ident: $kind:ty),* $(,)?) -> $answer:ty;)*
        $(new fn $new:ident($($new_place:ident: $new_kind:ty),* $(,)?) -> $new_answer:ty;)*
    ) => {
        /// Pointers to an archive's entries.
        #[derive(Clone, Copy)]
        pub struct Entries {
            $(pub $name: unsafe extern "C" fn($($kind),*) -> $answer,)*
            $(pub $new: unsafe extern "C" fn($($new_kind),*) -> $new_answer,)*
        }

        impl Entries {
            /// The same pointers, of which the compiler knows nothing: a call by one of them stays a call through a register.
            #[inline(always)]
            pub fn kept(&self) -> Entries {
                kept(self)
            }
        }

        /// libhost.a.
        pub static NOW: Entries = {
            extern "C" {
                $(fn $name($($place: $kind),*) -> $answer;)*
                $(fn $new($($new_place: $new_kind),*) -> $new_answer;)*
            }
            Entries { $($name,)* $($new,)* }
        };

        /// The archive that `oracle/run --before` names, its symbols with `before_` in front.
        #[cfg(before)]
        pub static BEFORE: Entries = {
            extern "C" {
                $(
                    #[link_name = concat!("before_", stringify!($name))]
                    fn $name($($place: $kind),*) -> $answer;
                )*
                $(fn $new($($new_place: $new_kind),*) -> $new_answer;)*
            }
            Entries { $($name,)* $($new,)* }
        };
    };
}

entries! {
    fn crsf_next_raw_packet(
        state: *mut u8, state_len: usize, input: *const u8, input_len: usize, position: *mut u64, position_len: usize,
    ) -> Answer;
    fn crsf_reset(state: *mut u8, state_len: usize) -> Answer;
    fn crsf_save(state: *const u8, state_len: usize, out: *mut u8, out_len: usize) -> Answer;
    fn crsf_restore(state: *mut u8, state_len: usize, form: *const u8, form_len: usize) -> Answer;
    fn crsf_held(state: *const u8, state_len: usize) -> Answer;
    fn crsf_is_address(byte: u8) -> bool;
    fn crsf_header_of(packet_type: u8) -> u8;
    fn crsf_checksum(bytes: *const u8, len: usize) -> u8;
    fn crsf_write_link_statistics(
        b: *mut u8, n: usize, dest: u8, rssi_1: u8, rssi_2: u8, quality: u8, snr: i8, antenna: u8, rf_mode: u8, tx_power: u8, down_rssi: u8,
        down_quality: u8, down_snr: i8,
    ) -> Answer;
    fn crsf_write_rc_channels_packed(b: *mut u8, n: usize, dest: u8, channels: *const u16, count: usize) -> Answer;
    fn crsf_write_gps(
        b: *mut u8, n: usize, dest: u8, latitude: i32, longitude: i32, groundspeed: u16, heading: u16, altitude: u16, satellites: u8,
    ) -> Answer;
    fn crsf_write_gps_extended(
        b: *mut u8, n: usize, dest: u8, fix_type: u8, n_speed: i16, e_speed: i16, v_speed: i16, h_speed_acc: i16, track_acc: i16,
        alt_ellipsoid: i16, h_acc: i16, v_acc: i16, reserved: u8, h_dop: u8, v_dop: u8,
    ) -> Answer;
    fn crsf_write_battery(b: *mut u8, n: usize, dest: u8, voltage: i16, current: i16, capacity_used: u32, remaining: u8, id: u8) -> Answer;
    fn crsf_write_baro_altitude(b: *mut u8, n: usize, dest: u8, altitude_packed: u16, vertical_speed_packed: i8) -> Answer;
    fn crsf_write_rpm(b: *mut u8, n: usize, dest: u8, rpm_source_id: u8, values: *const i32, count: usize) -> Answer;
    fn crsf_write_temp(b: *mut u8, n: usize, dest: u8, temp_source_id: u8, temperatures: *const i16, count: usize) -> Answer;
    fn crsf_write_voltages(b: *mut u8, n: usize, dest: u8, voltage_source_id: u8, values: *const u16, count: usize) -> Answer;
    fn crsf_read_link_statistics(p: *const u8, n: usize, out: *mut i32, out_len: usize) -> Answer;
    fn crsf_read_rc_channels_packed(p: *const u8, n: usize, out: *mut u16, out_len: usize) -> Answer;
    fn crsf_read_gps(p: *const u8, n: usize, out: *mut i32, out_len: usize) -> Answer;
    fn crsf_read_gps_extended(p: *const u8, n: usize, out: *mut i32, out_len: usize) -> Answer;
    fn crsf_read_battery(p: *const u8, n: usize, out: *mut i32, out_len: usize) -> Answer;
    fn crsf_read_baro_altitude(p: *const u8, n: usize, out: *mut i32, out_len: usize) -> Answer;
    fn crsf_read_rpm(p: *const u8, n: usize, out: *mut i32, out_len: usize) -> Answer;
    fn crsf_read_temp(p: *const u8, n: usize, out: *mut i16, out_len: usize) -> Answer;
    fn crsf_read_voltages(p: *const u8, n: usize, out: *mut u16, out_len: usize) -> Answer;
    fn crsf_pack_altitude(decimetres: i32) -> u16;
    fn crsf_baro_decimetres(packed: u16) -> i32;
    fn crsf_gps_metres(raw: u16) -> i32;
    new fn crsf_position(state: *const u8, state_len: usize, position: *mut u64, position_len: usize) -> Answer;
    new fn crsf_log_next(state: *mut u8, state_len: usize, input: *const u8, input_len: usize, seconds: *mut u32) -> Answer;
    new fn crsf_log_end(state: *mut u8, state_len: usize) -> Answer;
    new fn crsf_log_start(out: *mut u8, out_len: usize) -> Answer;
    new fn crsf_log_entry(seconds: u32, frame: *const u8, frame_len: usize, out: *mut u8, out_len: usize) -> Answer;
    new fn crsf_write_rc_channels_burst(b: *mut u8, n: usize, dest: u8, channels: *const u16, channels_len: usize, count: usize) -> Answer;
}

/// A safe function for each entry: a method by the table's pointer, and a function that calls libhost.a's. Not each is called in both ways.
macro_rules! lent {
    ($($(#[$about:meta])* fn $name:ident($($place:ident: $kind:ty),*) -> $answer:ty = $entry:ident($($value:expr),* $(,)?);)*) => {
        // Each entry reads and writes only the slices that it is lent, which is proved of it (docs/PROMISES.md).
        impl Entries {
            $(
                $(#[$about])*
                #[inline(always)]
                pub fn $name(&self, $($place: $kind),*) -> $answer {
                    unsafe { (self.$entry)($($value),*) }
                }
            )*
        }
        $(
            $(#[$about])*
            #[inline]
            #[allow(dead_code)]
            pub fn $name($($place: $kind),*) -> $answer {
                NOW.$name($($place),*)
            }
        )*
    };
}

lent! {
    /// Where the answer began goes to the first of `position`, if there is one.
    fn next_raw_packet(state: &mut [u8], input: &[u8], position: &mut [u64]) -> Answer =
        crsf_next_raw_packet(state.as_mut_ptr(), state.len(), input.as_ptr(), input.len(), position.as_mut_ptr(), position.len());
    fn reset(state: &mut [u8]) -> Answer = crsf_reset(state.as_mut_ptr(), state.len());
    fn save(state: &[u8], out: &mut [u8]) -> Answer = crsf_save(state.as_ptr(), state.len(), out.as_mut_ptr(), out.len());
    fn restore(state: &mut [u8], form: &[u8]) -> Answer = crsf_restore(state.as_mut_ptr(), state.len(), form.as_ptr(), form.len());
    fn held(state: &[u8]) -> Answer = crsf_held(state.as_ptr(), state.len());
    /// The parser's own.
    fn position(state: &[u8], position: &mut [u64]) -> Answer = crsf_position(state.as_ptr(), state.len(), position.as_mut_ptr(), position.len());
    fn is_address(byte: u8) -> bool = crsf_is_address(byte);
    /// 0 unlisted, 1 short, 2 extended.
    fn header_of(packet_type: u8) -> u8 = crsf_header_of(packet_type);
    fn checksum(bytes: &[u8]) -> u8 = crsf_checksum(bytes.as_ptr(), bytes.len());
    fn write_link_statistics(b: &mut [u8], dest: u8, r: &LinkStatistics) -> Answer = crsf_write_link_statistics(
        b.as_mut_ptr(), b.len(), dest, r.uplink_rssi_1, r.uplink_rssi_2, r.uplink_link_quality, r.uplink_snr, r.active_antenna, r.rf_mode,
        r.uplink_tx_power, r.downlink_rssi, r.downlink_link_quality, r.downlink_snr,
    );
    fn write_rc_channels_packed(b: &mut [u8], dest: u8, channels: &[u16]) -> Answer =
        crsf_write_rc_channels_packed(b.as_mut_ptr(), b.len(), dest, channels.as_ptr(), channels.len());
    fn write_gps(b: &mut [u8], dest: u8, r: &Gps) -> Answer =
        crsf_write_gps(b.as_mut_ptr(), b.len(), dest, r.latitude, r.longitude, r.groundspeed, r.heading, r.altitude, r.satellites);
    fn write_gps_extended(b: &mut [u8], dest: u8, r: &GpsExtended) -> Answer = crsf_write_gps_extended(
        b.as_mut_ptr(), b.len(), dest, r.fix_type, r.n_speed, r.e_speed, r.v_speed, r.h_speed_acc, r.track_acc, r.alt_ellipsoid, r.h_acc, r.v_acc,
        r.reserved, r.h_dop, r.v_dop,
    );
    fn write_battery(b: &mut [u8], dest: u8, r: &Battery) -> Answer =
        crsf_write_battery(b.as_mut_ptr(), b.len(), dest, r.voltage, r.current, r.capacity_used, r.remaining, r.id);
    fn write_baro_altitude(b: &mut [u8], dest: u8, r: &BaroAltitude) -> Answer =
        crsf_write_baro_altitude(b.as_mut_ptr(), b.len(), dest, r.altitude_packed, r.vertical_speed_packed);
    fn write_rpm(b: &mut [u8], dest: u8, id: u8, values: &[i32]) -> Answer =
        crsf_write_rpm(b.as_mut_ptr(), b.len(), dest, id, values.as_ptr(), values.len());
    fn write_temp(b: &mut [u8], dest: u8, id: u8, values: &[i16]) -> Answer =
        crsf_write_temp(b.as_mut_ptr(), b.len(), dest, id, values.as_ptr(), values.len());
    fn write_voltages(b: &mut [u8], dest: u8, id: u8, values: &[u16]) -> Answer =
        crsf_write_voltages(b.as_mut_ptr(), b.len(), dest, id, values.as_ptr(), values.len());
    fn read_link_statistics(p: &[u8], out: &mut [i32]) -> Answer = crsf_read_link_statistics(p.as_ptr(), p.len(), out.as_mut_ptr(), out.len());
    fn read_rc_channels_packed(p: &[u8], out: &mut [u16]) -> Answer =
        crsf_read_rc_channels_packed(p.as_ptr(), p.len(), out.as_mut_ptr(), out.len());
    fn read_gps(p: &[u8], out: &mut [i32]) -> Answer = crsf_read_gps(p.as_ptr(), p.len(), out.as_mut_ptr(), out.len());
    fn read_gps_extended(p: &[u8], out: &mut [i32]) -> Answer = crsf_read_gps_extended(p.as_ptr(), p.len(), out.as_mut_ptr(), out.len());
    fn read_battery(p: &[u8], out: &mut [i32]) -> Answer = crsf_read_battery(p.as_ptr(), p.len(), out.as_mut_ptr(), out.len());
    fn read_baro_altitude(p: &[u8], out: &mut [i32]) -> Answer = crsf_read_baro_altitude(p.as_ptr(), p.len(), out.as_mut_ptr(), out.len());
    fn read_rpm(p: &[u8], out: &mut [i32]) -> Answer = crsf_read_rpm(p.as_ptr(), p.len(), out.as_mut_ptr(), out.len());
    fn read_temp(p: &[u8], out: &mut [i16]) -> Answer = crsf_read_temp(p.as_ptr(), p.len(), out.as_mut_ptr(), out.len());
    fn read_voltages(p: &[u8], out: &mut [u16]) -> Answer = crsf_read_voltages(p.as_ptr(), p.len(), out.as_mut_ptr(), out.len());
    fn pack_altitude(decimetres: i32) -> u16 = crsf_pack_altitude(decimetres);
    fn baro_decimetres(packed: u16) -> i32 = crsf_baro_decimetres(packed);
    fn gps_metres(raw: u16) -> i32 = crsf_gps_metres(raw);
    /// The seconds of an entry go to `seconds`.
    fn log_next(state: &mut [u8], input: &[u8], seconds: &mut u32) -> Answer =
        crsf_log_next(state.as_mut_ptr(), state.len(), input.as_ptr(), input.len(), seconds);
    fn log_end(state: &mut [u8]) -> Answer = crsf_log_end(state.as_mut_ptr(), state.len());
    fn log_start(out: &mut [u8]) -> Answer = crsf_log_start(out.as_mut_ptr(), out.len());
    fn log_entry(seconds: u32, frame: &[u8], out: &mut [u8]) -> Answer =
        crsf_log_entry(seconds, frame.as_ptr(), frame.len(), out.as_mut_ptr(), out.len());
    /// So many sets of sixteen, at the front of the numbers.
    fn write_rc_channels_burst(b: &mut [u8], dest: u8, channels: &[u16], count: usize) -> Answer =
        crsf_write_rc_channels_burst(b.as_mut_ptr(), b.len(), dest, channels.as_ptr(), channels.len(), count);
}

// Entries that an archive of `oracle/run --before` may lack: these stand in no table.
extern "C" {
    fn crsf_channel_microseconds(raw: u16, out: *mut u32, out_len: usize) -> Answer;
    fn crsf_raw_view(bytes: *const u8, len: usize) -> u64;
}

pub fn channel_microseconds(raw: u16, out: &mut [u32]) -> Answer {
    unsafe { crsf_channel_microseconds(raw, out.as_mut_ptr(), out.len()) }
}

/// Number, address, type, check byte, and four that are 0.
pub fn raw_view(bytes: &[u8]) -> [u8; 8] {
    unsafe { crsf_raw_view(bytes.as_ptr(), bytes.len()) }.to_le_bytes()
}
