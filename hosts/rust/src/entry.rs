//! The entries of the archive, and an answer taken apart. All `unsafe` of the package is here: each function hands over whole slices, with their own
//! lengths, and any bytes are welcome there.

/// What an entry answers, in the order of its eight bytes.
#[derive(Clone, Copy, Debug, PartialEq, Eq)]
pub struct Answer {
    pub number: u8,
    pub taken: usize,
    pub in_state: bool,
    pub at: usize,
    pub len: usize,
    pub first: u8,
    pub second: u8,
}

impl From<u64> for Answer {
    fn from(answer: u64) -> Self {
        let [number, taken, in_state, at, len, first, second, _] = answer.to_le_bytes();
        Answer { number, taken: taken.into(), in_state: in_state != 0, at: at.into(), len: len.into(), first, second }
    }
}

/// What a raw view answers, in the order of its eight bytes.
#[derive(Clone, Copy, Debug, PartialEq, Eq)]
pub struct Raw {
    pub number: u8,
    pub address: u8,
    pub packet_type: u8,
    pub check: u8,
}

impl From<u64> for Raw {
    fn from(answer: u64) -> Self {
        let [number, address, packet_type, check, ..] = answer.to_le_bytes();
        Raw { number, address, packet_type, check }
    }
}

mod archive {
    extern "C" {
        pub fn crsf_next_raw_packet(
            state: *mut u8,
            state_len: usize,
            input: *const u8,
            input_len: usize,
            position: *mut u64,
            position_len: usize,
        ) -> u64;
        pub fn crsf_reset(state: *mut u8, state_len: usize) -> u64;
        pub fn crsf_save(state: *const u8, state_len: usize, out: *mut u8, out_len: usize) -> u64;
        pub fn crsf_restore(state: *mut u8, state_len: usize, form: *const u8, form_len: usize) -> u64;
        pub fn crsf_held(state: *const u8, state_len: usize) -> u64;
        pub fn crsf_position(state: *const u8, state_len: usize, position: *mut u64, position_len: usize) -> u64;
        pub fn crsf_is_address(byte: u8) -> bool;
        pub fn crsf_header_of(packet_type: u8) -> u8;
        pub fn crsf_checksum(bytes: *const u8, bytes_len: usize) -> u8;
        pub fn crsf_pack_altitude(decimetres: i32) -> u16;
        pub fn crsf_baro_decimetres(packed: u16) -> i32;
        pub fn crsf_gps_metres(raw: u16) -> i32;
        pub fn crsf_channel_microseconds(raw: u16, out: *mut u32, out_len: usize) -> u64;
        pub fn crsf_raw_view(bytes: *const u8, bytes_len: usize) -> u64;
        pub fn crsf_write_link_statistics(
            buffer: *mut u8,
            buffer_len: usize,
            dest: u8,
            uplink_rssi_1: u8,
            uplink_rssi_2: u8,
            uplink_link_quality: u8,
            uplink_snr: i8,
            active_antenna: u8,
            rf_mode: u8,
            uplink_tx_power: u8,
            downlink_rssi: u8,
            downlink_link_quality: u8,
            downlink_snr: i8,
        ) -> u64;
        pub fn crsf_write_rc_channels_packed(buffer: *mut u8, buffer_len: usize, dest: u8, channels: *const u16, channels_len: usize) -> u64;
        pub fn crsf_write_rc_channels_burst(
            buffer: *mut u8,
            buffer_len: usize,
            dest: u8,
            channels: *const u16,
            channels_len: usize,
            count: usize,
        ) -> u64;
        pub fn crsf_write_gps(
            buffer: *mut u8,
            buffer_len: usize,
            dest: u8,
            latitude: i32,
            longitude: i32,
            groundspeed: u16,
            heading: u16,
            altitude: u16,
            satellites: u8,
        ) -> u64;
        pub fn crsf_write_gps_extended(
            buffer: *mut u8,
            buffer_len: usize,
            dest: u8,
            fix_type: u8,
            n_speed: i16,
            e_speed: i16,
            v_speed: i16,
            h_speed_acc: i16,
            track_acc: i16,
            alt_ellipsoid: i16,
            h_acc: i16,
            v_acc: i16,
            reserved: u8,
            h_dop: u8,
            v_dop: u8,
        ) -> u64;
        pub fn crsf_write_battery(
            buffer: *mut u8,
            buffer_len: usize,
            dest: u8,
            voltage: i16,
            current: i16,
            capacity_used: u32,
            remaining: u8,
            id: u8,
        ) -> u64;
        pub fn crsf_write_baro_altitude(buffer: *mut u8, buffer_len: usize, dest: u8, altitude_packed: u16, vertical_speed_packed: i8) -> u64;
        pub fn crsf_write_rpm(buffer: *mut u8, buffer_len: usize, dest: u8, rpm_source_id: u8, rpm_values: *const i32, rpm_values_len: usize) -> u64;
        pub fn crsf_write_temp(
            buffer: *mut u8,
            buffer_len: usize,
            dest: u8,
            temp_source_id: u8,
            temperatures: *const i16,
            temperatures_len: usize,
        ) -> u64;
        pub fn crsf_write_voltages(
            buffer: *mut u8,
            buffer_len: usize,
            dest: u8,
            voltage_source_id: u8,
            voltage_values: *const u16,
            voltage_values_len: usize,
        ) -> u64;
        pub fn crsf_read_link_statistics(payload: *const u8, payload_len: usize, out: *mut i32, out_len: usize) -> u64;
        pub fn crsf_read_rc_channels_packed(payload: *const u8, payload_len: usize, out: *mut u16, out_len: usize) -> u64;
        pub fn crsf_read_gps(payload: *const u8, payload_len: usize, out: *mut i32, out_len: usize) -> u64;
        pub fn crsf_read_gps_extended(payload: *const u8, payload_len: usize, out: *mut i32, out_len: usize) -> u64;
        pub fn crsf_read_battery(payload: *const u8, payload_len: usize, out: *mut i32, out_len: usize) -> u64;
        pub fn crsf_read_baro_altitude(payload: *const u8, payload_len: usize, out: *mut i32, out_len: usize) -> u64;
        pub fn crsf_read_rpm(payload: *const u8, payload_len: usize, out: *mut i32, out_len: usize) -> u64;
        pub fn crsf_read_temp(payload: *const u8, payload_len: usize, out: *mut i16, out_len: usize) -> u64;
        pub fn crsf_read_voltages(payload: *const u8, payload_len: usize, out: *mut u16, out_len: usize) -> u64;
        pub fn crsf_log_next(state: *mut u8, state_len: usize, input: *const u8, input_len: usize, seconds: *mut u32) -> u64;
        pub fn crsf_log_end(state: *mut u8, state_len: usize) -> u64;
        pub fn crsf_log_reset(state: *mut u8, state_len: usize) -> u64;
        pub fn crsf_log_start(out: *mut u8, out_len: usize) -> u64;
        pub fn crsf_log_entry(seconds: u32, frame: *const u8, frame_len: usize, out: *mut u8, out_len: usize) -> u64;
    }
}

// SAFETY, of every call below: a slice is passed as its own pointer and length, a `&mut` one overlaps no other argument, and the entries keep nothing.
// A number that is lent is a `&mut` of its own.

pub fn next_raw_packet(state: &mut [u8], input: &[u8], position: &mut [u64]) -> Answer {
    let (places, count) = (position.as_mut_ptr(), position.len());
    unsafe { archive::crsf_next_raw_packet(state.as_mut_ptr(), state.len(), input.as_ptr(), input.len(), places, count) }.into()
}

pub fn reset(state: &mut [u8]) -> Answer {
    unsafe { archive::crsf_reset(state.as_mut_ptr(), state.len()) }.into()
}

pub fn save(state: &[u8], out: &mut [u8]) -> Answer {
    unsafe { archive::crsf_save(state.as_ptr(), state.len(), out.as_mut_ptr(), out.len()) }.into()
}

pub fn restore(state: &mut [u8], form: &[u8]) -> Answer {
    unsafe { archive::crsf_restore(state.as_mut_ptr(), state.len(), form.as_ptr(), form.len()) }.into()
}

pub fn held(state: &[u8]) -> Answer {
    unsafe { archive::crsf_held(state.as_ptr(), state.len()) }.into()
}

pub fn position(state: &[u8], position: &mut [u64]) -> Answer {
    unsafe { archive::crsf_position(state.as_ptr(), state.len(), position.as_mut_ptr(), position.len()) }.into()
}

pub fn is_address(byte: u8) -> bool {
    unsafe { archive::crsf_is_address(byte) }
}

pub fn header_of(packet_type: u8) -> u8 {
    unsafe { archive::crsf_header_of(packet_type) }
}

pub fn checksum(bytes: &[u8]) -> u8 {
    unsafe { archive::crsf_checksum(bytes.as_ptr(), bytes.len()) }
}

pub fn pack_altitude(decimetres: i32) -> u16 {
    unsafe { archive::crsf_pack_altitude(decimetres) }
}

pub fn baro_decimetres(packed: u16) -> i32 {
    unsafe { archive::crsf_baro_decimetres(packed) }
}

pub fn gps_metres(raw: u16) -> i32 {
    unsafe { archive::crsf_gps_metres(raw) }
}

/// The bits of the f32 go to `out`.
pub fn channel_microseconds(raw: u16, out: &mut [u32]) -> Answer {
    unsafe { archive::crsf_channel_microseconds(raw, out.as_mut_ptr(), out.len()) }.into()
}

pub fn raw_view(bytes: &[u8]) -> Raw {
    unsafe { archive::crsf_raw_view(bytes.as_ptr(), bytes.len()) }.into()
}

/// A writer's wrapper: the buffer, the address, and then the record's numbers and slices.
macro_rules! writer {
    ($name:ident = $entry:ident($($number:ident: $type:ty),* $(; $slice:ident: $item:ty)?)) => {
        #[allow(clippy::too_many_arguments)]
        pub fn $name(buffer: &mut [u8], dest: u8 $(, $number: $type)* $(, $slice: &[$item])?) -> Answer {
            unsafe { archive::$entry(buffer.as_mut_ptr(), buffer.len(), dest $(, $number)* $(, $slice.as_ptr(), $slice.len())?) }.into()
        }
    };
}

writer!(write_link_statistics = crsf_write_link_statistics(
    uplink_rssi_1: u8, uplink_rssi_2: u8, uplink_link_quality: u8, uplink_snr: i8, active_antenna: u8, rf_mode: u8, uplink_tx_power: u8,
    downlink_rssi: u8, downlink_link_quality: u8, downlink_snr: i8));
writer!(write_rc_channels_packed = crsf_write_rc_channels_packed(; channels: u16));
writer!(write_gps = crsf_write_gps(latitude: i32, longitude: i32, groundspeed: u16, heading: u16, altitude: u16, satellites: u8));
writer!(write_gps_extended = crsf_write_gps_extended(
    fix_type: u8, n_speed: i16, e_speed: i16, v_speed: i16, h_speed_acc: i16, track_acc: i16, alt_ellipsoid: i16, h_acc: i16, v_acc: i16,
    reserved: u8, h_dop: u8, v_dop: u8));
writer!(write_battery = crsf_write_battery(voltage: i16, current: i16, capacity_used: u32, remaining: u8, id: u8));
writer!(write_baro_altitude = crsf_write_baro_altitude(altitude_packed: u16, vertical_speed_packed: i8));
writer!(write_rpm = crsf_write_rpm(rpm_source_id: u8; rpm_values: i32));
writer!(write_temp = crsf_write_temp(temp_source_id: u8; temperatures: i16));
writer!(write_voltages = crsf_write_voltages(voltage_source_id: u8; voltage_values: u16));

/// The numbers of the sets stand one after another, sixteen for each, so that the slice is passed with sixteen times its length. That has no overflow:
/// a slice has fewer bytes than `isize` can count, and a set has 32.
pub fn write_rc_channels_burst(buffer: &mut [u8], dest: u8, sets: &[[u16; 16]]) -> Answer {
    let (numbers, count) = (sets.as_ptr().cast::<u16>(), sets.len());
    unsafe { archive::crsf_write_rc_channels_burst(buffer.as_mut_ptr(), buffer.len(), dest, numbers, 16 * count, count) }.into()
}

/// A reader's wrapper.
macro_rules! reader {
    ($name:ident = $entry:ident($item:ty)) => {
        pub fn $name(payload: &[u8], out: &mut [$item]) -> Answer {
            unsafe { archive::$entry(payload.as_ptr(), payload.len(), out.as_mut_ptr(), out.len()) }.into()
        }
    };
}

reader!(read_link_statistics = crsf_read_link_statistics(i32));
reader!(read_rc_channels_packed = crsf_read_rc_channels_packed(u16));
reader!(read_gps = crsf_read_gps(i32));
reader!(read_gps_extended = crsf_read_gps_extended(i32));
reader!(read_battery = crsf_read_battery(i32));
reader!(read_baro_altitude = crsf_read_baro_altitude(i32));
reader!(read_rpm = crsf_read_rpm(i32));
reader!(read_temp = crsf_read_temp(i16));
reader!(read_voltages = crsf_read_voltages(u16));

/// The seconds of an entry go to `seconds`, which stays as it is with any other answer.
pub fn log_next(state: &mut [u8], input: &[u8], seconds: &mut u32) -> Answer {
    unsafe { archive::crsf_log_next(state.as_mut_ptr(), state.len(), input.as_ptr(), input.len(), seconds) }.into()
}

pub fn log_end(state: &mut [u8]) -> Answer {
    unsafe { archive::crsf_log_end(state.as_mut_ptr(), state.len()) }.into()
}

pub fn log_reset(state: &mut [u8]) -> Answer {
    unsafe { archive::crsf_log_reset(state.as_mut_ptr(), state.len()) }.into()
}

pub fn log_start(out: &mut [u8]) -> Answer {
    unsafe { archive::crsf_log_start(out.as_mut_ptr(), out.len()) }.into()
}

pub fn log_entry(seconds: u32, frame: &[u8], out: &mut [u8]) -> Answer {
    unsafe { archive::crsf_log_entry(seconds, frame.as_ptr(), frame.len(), out.as_mut_ptr(), out.len()) }.into()
}
