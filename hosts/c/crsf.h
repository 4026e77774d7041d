/*
 * CRSF frames for a host in C: cut a byte stream into frames and say where each begins, save and restore midway, write and read records, write and
 * read kit logs.
 *
 * Link the archive: libcrsf.a where `./install PREFIX` put it (`pkg-config --cflags --libs crsf` has the flags), or target/staticlib/libhost.a
 * where `hosts/archive` wrote it. It is for x86-64 Linux, allocates nothing, keeps nothing between calls, and needs nothing from outside, not
 * even memcpy.
 *
 *     // Hands every frame of a piece to on_frame, with where it begins in the stream. Answers 0; or 8 or 12, with nothing of the piece taken.
 *     int take(crsf_state *state, const uint8_t *piece, size_t len)
 *     {
 *         for (;;) {
 *             crsf_call a = crsf_next(state, piece, len);
 *             if (a.number == CRSF_MORE)
 *                 return 0;                            // the whole piece is taken: go on with the next one
 *             if (a.number == CRSF_BAD_STATE || a.number == CRSF_POSITION_RANGE)
 *                 return a.number;                     // nothing was taken, and asking again changes nothing
 *             if (a.number == CRSF_FRAME)              // a.len bytes, valid until the next call
 *                 on_frame(a.position, crsf_frame_bytes(state, piece, a), a.len);
 *             piece += a.taken;                        // after a refusal, 1 to 3, one byte was dropped: go on behind it
 *             len -= a.taken;
 *         }
 *     }
 *
 * Every function takes any bytes and any lengths: nothing has to be tested first. What it promises is proved of its code, for every input. What
 * the caller owes is what C always asks: a pointer with a length points to that many readable elements (writable ones where it is not const); a
 * buffer that is written overlaps no other argument; no other thread touches the arguments meanwhile. With length 0 a pointer may be NULL.
 *
 * Stack: bytes that a call needs at most, with its return address and its arguments counted in. Measured on x86-64 by painting the stack:
 * `hosts/test --stack` measures again, and fails where a call needs more than this.
 *     crsf_next_raw_packet              120        crsf_reset                         24
 *     crsf_save                          72        crsf_restore                       72
 *     crsf_held                          24        crsf_position                      24
 *     crsf_is_address                    24        crsf_header_of                     24
 *     crsf_checksum                      24        crsf_pack_altitude                 24
 *     crsf_baro_decimetres               24        crsf_gps_metres                    24
 *     crsf_channel_microseconds          24        crsf_raw_view                      24
 *     crsf_write_link_statistics        216        crsf_write_rc_channels_packed     248
 *     crsf_write_rc_channels_burst      120        crsf_write_gps                    168
 *     crsf_write_gps_extended           248        crsf_write_battery                152
 *     crsf_write_baro_altitude          136        crsf_write_rpm                    168
 *     crsf_write_temp                   168        crsf_write_voltages               168
 *     crsf_read_link_statistics          24        crsf_read_rc_channels_packed       76
 *     crsf_read_gps                      24        crsf_read_gps_extended             24
 *     crsf_read_battery                  24        crsf_read_baro_altitude            24
 *     crsf_read_rpm                      48        crsf_read_temp                     48
 *     crsf_read_voltages                 48        crsf_log_next                     168
 *     crsf_log_end                      152        crsf_log_reset                     24
 *     crsf_log_start                     24        crsf_log_entry                    104
 */
#ifndef CRSF_H
#define CRSF_H

#include <stdbool.h>
#include <stddef.h>
#include <stdint.h>
#include <string.h>

/* The version of this header and of the archive, and nowhere else decided: CHANGELOG.md says what changed. */
#define CRSF_VERSION_MAJOR 0
#define CRSF_VERSION_MINOR 8
#define CRSF_VERSION_PATCH 0
#define CRSF_VERSION "0.8.0"

#ifdef __cplusplus
extern "C" {
#endif

/* ---- What every function answers ---------------------------------------------------------------------------------------------------------- */

/* A field that an answer does not speak of is 0: after CRSF_MORE and after a refusal, len is 0. The struct comes back by value, in one register. */
typedef struct crsf_answer {
    uint8_t number;   /* CRSF_OK or CRSF_FRAME, 0; CRSF_MORE; or a refusal, 1 to 12 */
    uint8_t taken;    /* how many bytes of the input were taken: by crsf_next_raw_packet at most 64, by crsf_log_next at most 71 */
    uint8_t in_state; /* of a frame: 1 where its bytes stand in the state, 0 where they stand in the input */
    uint8_t at;       /* of a frame: where it begins, in the bytes of the state or in the input */
    uint8_t len;      /* the bytes of a frame; or how many bytes were written or are held; or how many numbers were given */
    uint8_t first;    /* what a refusal carries, see below; the source id of RPM, temperatures or voltages that were read */
    uint8_t second;   /* CRSF_INVALID_CRC: the carried check byte; CRSF_CHANNEL_RANGE of a burst: the channel's index in its set */
    uint8_t zero;     /* 0 */
} crsf_answer;

enum {
    CRSF_OK = 0,
    CRSF_FRAME = 0,
    CRSF_INVALID_SYNC = 1,           /* first: a byte that is not an address. It is dropped */
    CRSF_INVALID_PACKET_LENGTH = 2,  /* first: a length byte that is not 2 to 62. One byte is dropped, the address before it */
    CRSF_INVALID_CRC = 3,            /* first: the calculated check byte; second: the carried one. One byte is dropped */
    CRSF_INVALID_PAYLOAD_LENGTH = 4, /* a payload too short for its record; more values than the record has at most, or none to write; not sixteen
                                      * channels; more than eight sets of a burst, or fewer numbers than its sets have; a raw view of fewer
                                      * than four bytes */
    CRSF_BUFFER_OVERFLOW = 5,        /* a buffer too short for what would be written: nothing was */
    CRSF_CHANNEL_RANGE = 6,          /* first: the index of the first channel above 2047, 0 of a single one; of a burst, first: the set that has
                                      * it, second: its index in that set. Nothing was written */
    CRSF_BAD_ADDRESS = 7,            /* a destination that is not an address. Nothing was written */
    CRSF_BAD_STATE = 8,              /* not a valid state, or a malformed saved form; at a save 64 held bytes; at a save or a restore a
                                      * position behind the held bytes that is above 2^64 - 1. Nothing was taken or changed */
    CRSF_INVALID_LOG = 9,            /* of a log: a malformed number, a first number other than 1, an end inside an entry or before the 1, a byte
                                      * behind the end */
    CRSF_INVALID_FRAME = 10,         /* of a log: a length that is not 4 to 64, or bytes that are not one whole valid frame */
    CRSF_CAPACITY_RANGE = 11,        /* a battery's capacity of 2^24 or more, for which its 24 bits have no room. Nothing was written */
    CRSF_POSITION_RANGE = 12,        /* of the stream: the position behind the held bytes and the input would be above 2^64 - 1. Nothing was
                                      * taken or changed */
    CRSF_MORE = 255                  /* no answer yet: all of the input is taken, and more is asked for */
};

/* ---- The stream ---------------------------------------------------------------------------------------------------------------------------- */

/* The bytes held between calls, places[start] up to places[end - 1]; and where the parser is in its stream: the position of the first held byte, or,
 * where nothing is held, of the next byte. The first byte of a stream has position 0. All zero is a state that holds nothing, at position 0. It is
 * valid where start <= end <= 64. */
typedef struct crsf_state {
    uint8_t start;
    uint8_t end;
    uint8_t places[64];
    uint8_t position[8]; /* highest byte first: crsf_position_of has the number */
} crsf_state;

enum {
    CRSF_STATE_SIZE = 74, /* sizeof(crsf_state) */
    CRSF_FRAME_MAX = 64,  /* the longest frame */
    CRSF_SAVED_MAX = 75   /* the longest saved form: its mark, ten bytes of position, a count and 63 held bytes */
};

/* The functions of the archive. A slice is a pointer and then its length; a state of another length than 74 is refused with 8. */

/* The first answer of the held bytes followed by the input. With CRSF_MORE all of the input is taken; with any other answer the bytes from
 * input + taken on are unread, and the next call goes on there (with no input at all if none is left).
 *   position   its first place gets the position where the answer began, of a frame and of refusals 1 to 3: that of its first byte, which is where
 *              the parser was before the call. Nothing else is written there, and nothing at all with CRSF_MORE, 8 and 12. position_len may be 0
 * Refusal 8 is tested first, then 12: the parser's position, the count of held bytes and input_len add up to more than 2^64 - 1. A shorter input may
 * still be taken. */
crsf_answer crsf_next_raw_packet(uint8_t *state, size_t state_len, const uint8_t *input, size_t input_len, uint64_t *position,
                                 size_t position_len);

/* Forgets the held bytes. Unread input then begins a new stream, at position 0. */
crsf_answer crsf_reset(uint8_t *state, size_t state_len);

/* Writes the saved form of the parser's position and of the held bytes to the front of out; len is its length. */
crsf_answer crsf_save(const uint8_t *state, size_t state_len, uint8_t *out, size_t out_len);

/* Makes the state hold what a saved form says, whatever it held before, and go on from its position; len is how many bytes are held. A form that was
 * saved before version 0.7.0 says no position: it goes on from 0. */
crsf_answer crsf_restore(uint8_t *state, size_t state_len, const uint8_t *form, size_t form_len);

/* len is how many bytes are held. */
crsf_answer crsf_held(const uint8_t *state, size_t state_len);

/* Where the parser is: its position goes to position[0], and len is 1. Refusal 8, then 5 where position_len is 0, with position unchanged. */
crsf_answer crsf_position(const uint8_t *state, size_t state_len, uint64_t *position, size_t position_len);

/* ---- Queries ------------------------------------------------------------------------------------------------------------------------------- */

/* Whether a byte is one of the 24 addresses. */
bool crsf_is_address(uint8_t byte);

enum { CRSF_UNLISTED = 0, CRSF_SHORT = 1, CRSF_EXTENDED = 2 };

/* Whether a packet type is unlisted, or has a short or an extended header. */
uint8_t crsf_header_of(uint8_t packet_type);

/* The check byte of a type and its payload (CRC-8/DVB-S2). */
uint8_t crsf_checksum(const uint8_t *bytes, size_t bytes_len);

/* Decimetres of altitude as a barometric record carries them: below -10000 gives 0, above 327655 gives 0xFFFE. */
uint16_t crsf_pack_altitude(int32_t decimetres);

/* The altitude that a barometric record carries, in decimetres. */
int32_t crsf_baro_decimetres(uint16_t packed);

/* The altitude that a GPS record carries, in metres. */
int32_t crsf_gps_metres(uint16_t raw);

/* The microseconds of a raw channel value x of 0 to 2047: (x - 992) * 5 / 8 + 1500, exactly. The bits of that float go to out[0], and len is 1.
 * Refusal 6 for a value above 2047, then 5 where out_len is 0, with out unchanged. crsf_channel_us has the float itself. */
crsf_answer crsf_channel_microseconds(uint16_t raw, uint32_t *out, size_t out_len);

/* What any four bytes or more show as a frame, in eight bytes as an answer has. The payload is the bytes_len - 4 bytes from bytes + 3 on. */
typedef struct crsf_raw {
    uint8_t number;  /* CRSF_OK; CRSF_INVALID_PAYLOAD_LENGTH for fewer than four bytes, and then the other fields are 0 */
    uint8_t address; /* byte 0 */
    uint8_t type;    /* byte 2 */
    uint8_t check;   /* the last byte */
    uint8_t zero[4]; /* 0 */
} crsf_raw;

/* The raw view. Nothing else is tested: not the address, not the length byte, not the check byte. */
crsf_raw crsf_raw_view(const uint8_t *bytes, size_t bytes_len);

/* ---- Records ------------------------------------------------------------------------------------------------------------------------------- */

enum {
    CRSF_TYPE_GPS = 0x02,
    CRSF_TYPE_GPS_EXTENDED = 0x06,
    CRSF_TYPE_BATTERY = 0x08,
    CRSF_TYPE_BARO_ALTITUDE = 0x09,
    CRSF_TYPE_RPM = 0x0C,
    CRSF_TYPE_TEMP = 0x0D,
    CRSF_TYPE_VOLTAGES = 0x0E,
    CRSF_TYPE_LINK_STATISTICS = 0x14,
    CRSF_TYPE_RC_CHANNELS_PACKED = 0x16
};

/* Writers: a whole frame to the front of the buffer, and len is how many bytes it has; or refusal 7, then 4, 6 or 11, then 5, with the buffer
 * unchanged. A frame never has more than 64 bytes, the frames of a burst together never more than 208, and no byte past them is touched. dest is
 * the address that they are sent to, as 0xC8, the flight controller's. */

/* The quality of the radio link. Uplink is from the ground to the craft, downlink the other way.
 *   uplink_rssi_1, uplink_rssi_2  signal strength at antenna 1 and at antenna 2, in dBm without its minus sign: 90 is -90 dBm
 *   uplink_link_quality           packets that arrive, in percent
 *   uplink_snr                    signal above noise, in dB
 *   active_antenna                the antenna in use
 *   rf_mode                       the radio's profile: 0 is 4 frames a second, 1 is 50, 2 is 150
 *   uplink_tx_power               a step of power: 0 to 8 are 0, 10, 25, 100, 500, 1000, 2000, 250 and 50 mW
 *   downlink_rssi, downlink_link_quality, downlink_snr    the same of the downlink */
crsf_answer crsf_write_link_statistics(uint8_t *buffer, size_t buffer_len, uint8_t dest, uint8_t uplink_rssi_1, uint8_t uplink_rssi_2,
                                       uint8_t uplink_link_quality, int8_t uplink_snr, uint8_t active_antenna, uint8_t rf_mode,
                                       uint8_t uplink_tx_power, uint8_t downlink_rssi, uint8_t downlink_link_quality, int8_t downlink_snr);

/* The sixteen channels of a remote control. A channel x of 0 to 2047 stands for (x - 992) * 5 / 8 + 1500 microseconds: 992 is the middle.
 * channels_len has to be 16 (else 4), and no channel above 2047 (else 6). */
crsf_answer crsf_write_rc_channels_packed(uint8_t *buffer, size_t buffer_len, uint8_t dest, const uint16_t *channels, size_t channels_len);

enum {
    CRSF_BURST_SETS_MAX = 8, /* the most sets of a burst */
    CRSF_BURST_MAX = 208     /* the most bytes that it has: a frame of 26 for each set */
};

/* A burst, as for a run on a bench: the frames of several sets of channels, in one call. Each is the frame that crsf_write_rc_channels_packed writes
 * of its set; they stand one after another, and len is 26 * count. All of them are written, or none.
 *   channels   the sets one after another, sixteen numbers each, at least 16 * count of them (else 4). Those past the last set are not looked at
 *   count      how many sets, 0 to CRSF_BURST_SETS_MAX (else 4)
 * The refusals come in this order: 7, 4, 6 for the first channel above 2047 in one of the sets, 5. With count 0 nothing is written, and a buffer of
 * any length will do; dest is tested all the same. */
crsf_answer crsf_write_rc_channels_burst(uint8_t *buffer, size_t buffer_len, uint8_t dest, const uint16_t *channels, size_t channels_len,
                                         size_t count);

/* Where the craft is.
 *   latitude, longitude   degrees times 10^7
 *   groundspeed           hundredths of a km/h
 *   heading               hundredths of a degree
 *   altitude              metres with 1000 added: crsf_gps_metres takes them off
 *   satellites            how many are in view */
crsf_answer crsf_write_gps(uint8_t *buffer, size_t buffer_len, uint8_t dest, int32_t latitude, int32_t longitude, uint16_t groundspeed,
                           uint16_t heading, uint16_t altitude, uint8_t satellites);

/* How the craft moves, and how well that is known.
 *   fix_type                    the quality of the fix
 *   n_speed, e_speed, v_speed   speed to the north, to the east and up, in cm/s
 *   h_speed_acc                 how exact the horizontal speed is, in cm/s
 *   track_acc                   how exact the heading is, in tenths of a degree
 *   alt_ellipsoid               height above the GPS ellipsoid (not above the sea), in metres
 *   h_acc, v_acc                how exact the place and the height are, in cm
 *   reserved                    carried unchanged
 *   h_dop, v_dop                dilution of precision, horizontal and vertical, in tenths */
crsf_answer crsf_write_gps_extended(uint8_t *buffer, size_t buffer_len, uint8_t dest, uint8_t fix_type, int16_t n_speed, int16_t e_speed,
                                    int16_t v_speed, int16_t h_speed_acc, int16_t track_acc, int16_t alt_ellipsoid, int16_t h_acc,
                                    int16_t v_acc, uint8_t reserved, uint8_t h_dop, uint8_t v_dop);

enum { CRSF_CAPACITY_MAX = 16777215 }; /* the most mAh that a battery is written with */

/* A battery.
 *   voltage         tenths of a volt: 120 is 12 V
 *   current         tenths of an ampere: 15 is 1.5 A
 *   capacity_used   mAh, at most CRSF_CAPACITY_MAX (else 11), since it is written in 24 bits
 *   remaining       percent
 *   id              the sensor; 0 is not written, and a payload without one is read as 0 */
crsf_answer crsf_write_battery(uint8_t *buffer, size_t buffer_len, uint8_t dest, int16_t voltage, int16_t current, uint32_t capacity_used,
                               uint8_t remaining, uint8_t id);

/* Altitude by air pressure.
 *   altitude_packed         above the starting point, packed: crsf_pack_altitude makes it from decimetres, crsf_baro_decimetres turns it back
 *   vertical_speed_packed   on a logarithmic scale, negative downwards; carried as it is */
crsf_answer crsf_write_baro_altitude(uint8_t *buffer, size_t buffer_len, uint8_t dest, uint16_t altitude_packed, int8_t vertical_speed_packed);

/* Revolutions per minute of motors or propellers.
 *   rpm_source_id   where the values come from: 0 is the first motor, 1 the second
 *   rpm_values      1 to 19 of them (else 4), negative in reverse; of each the low 24 bits are written */
crsf_answer crsf_write_rpm(uint8_t *buffer, size_t buffer_len, uint8_t dest, uint8_t rpm_source_id, const int32_t *rpm_values,
                           size_t rpm_values_len);

/* Temperatures of one source.
 *   temp_source_id   where the values come from: 0 is the flight controller, 1 the air around it
 *   temperatures     1 to 20 of them (else 4), in tenths of a degree Celsius: 250 is 25.0, -5 is half a degree below zero */
crsf_answer crsf_write_temp(uint8_t *buffer, size_t buffer_len, uint8_t dest, uint8_t temp_source_id, const int16_t *temperatures,
                            size_t temperatures_len);

/* Voltages of one source, as those of a battery's cells.
 *   voltage_source_id   where the values come from
 *   voltage_values      1 to 29 of them (else 4), in millivolts: 3850 is 3.85 V */
crsf_answer crsf_write_voltages(uint8_t *buffer, size_t buffer_len, uint8_t dest, uint8_t voltage_source_id, const uint16_t *voltage_values,
                                size_t voltage_values_len);

/* Readers: the numbers of a payload to the front of out, in the order and the units of the writer's parameters; len is how many. Refusal 4 for
 * a payload that is too short, then 5 where out is too short, with out unchanged. Bytes of the payload past the record are ignored, but not
 * those of the last three. */

enum {
    CRSF_LINK_STATISTICS_NUMBERS = 10,
    CRSF_RC_CHANNELS = 16,
    CRSF_GPS_NUMBERS = 6,
    CRSF_GPS_EXTENDED_NUMBERS = 12,
    CRSF_BATTERY_NUMBERS = 5,
    CRSF_BARO_ALTITUDE_NUMBERS = 2,
    CRSF_RPM_VALUES_MAX = 19,
    CRSF_TEMPERATURES_MAX = 20,
    CRSF_VOLTAGE_VALUES_MAX = 29
};

crsf_answer crsf_read_link_statistics(const uint8_t *payload, size_t payload_len, int32_t *out, size_t out_len);
crsf_answer crsf_read_rc_channels_packed(const uint8_t *payload, size_t payload_len, uint16_t *out, size_t out_len);
crsf_answer crsf_read_gps(const uint8_t *payload, size_t payload_len, int32_t *out, size_t out_len);
crsf_answer crsf_read_gps_extended(const uint8_t *payload, size_t payload_len, int32_t *out, size_t out_len);
crsf_answer crsf_read_battery(const uint8_t *payload, size_t payload_len, int32_t *out, size_t out_len);
crsf_answer crsf_read_baro_altitude(const uint8_t *payload, size_t payload_len, int32_t *out, size_t out_len);
/* Of these three the values; first is the source id. Refusal 4 for a payload without a whole value (of RPM fewer than 4 bytes, of the others
 * fewer than 3), and for more values than the record has at most; so many places of out are always enough. Left-over bytes of an unfinished
 * value are ignored. */
crsf_answer crsf_read_rpm(const uint8_t *payload, size_t payload_len, int32_t *out, size_t out_len);
crsf_answer crsf_read_temp(const uint8_t *payload, size_t payload_len, int16_t *out, size_t out_len);
crsf_answer crsf_read_voltages(const uint8_t *payload, size_t payload_len, uint16_t *out, size_t out_len);

/* ---- Kit logs ------------------------------------------------------------------------------------------------------------------------------ */

/* A log is the number 1 and then entries: the seconds since the entry before, the length of a frame, and the frame. The number 1 alone is a log. A
 * number has seven bits in each byte, the lowest first, with the top bit set in all but the last; it is in its shortest form and at most
 * 2^32 - 1. */

/* Where a reader is, between calls. All zero is before the first byte. What a stage does not use is not looked at, and 0 after a call. It is valid
 * where the stage is at most 6, a number's count at most 4 and its value below 128^count, a frame's size 4 to 64 and its count below that, a first
 * held byte an address, and a second one size - 2. */
typedef struct crsf_log_state {
    uint8_t stage;       /* 0 in the first number, 1 in an entry's seconds, 2 in its length, 3 in its frame, 4 ended, 5 refused with 9, 6 with 10 */
    uint8_t count;       /* of a number: how many of its bytes have come, 0 to 4; of a frame: how many are held */
    uint8_t size;        /* of a frame: its length, 4 to 64 */
    uint8_t value[4];    /* of a number: its value so far, highest byte first */
    uint8_t seconds[4];  /* of an entry, in stages 2 and 3: its seconds, highest byte first */
    uint8_t places[64];  /* the held bytes of a frame: places[0] up to places[count - 1] */
} crsf_log_state;

enum {
    CRSF_LOG_STATE_SIZE = 75, /* sizeof(crsf_log_state) */
    CRSF_LOG_START_SIZE = 1,  /* what a log begins with */
    CRSF_LOG_ENTRY_MAX = 70,  /* the longest entry: five bytes of seconds, one of length, 64 of frame */
    CRSF_LOG_TAKEN_MAX = 71   /* the most that one call takes: the 1 and the longest entry */
};

/* The next entry of the log, whatever pieces it comes in. Refusal 8, tested first and with nothing taken or changed, for a state of another length
 * than 75 and for one that no log leads to.
 *   CRSF_FRAME       an entry: its seconds are in *seconds, and its frame has len bytes, in the input where it stands whole there, else in the
 *                    state. The bytes from input + taken on are unread, and the next call goes on there
 *   CRSF_MORE        all of the input is taken
 *   refusals 9, 10   the bytes up to and with the one that is refused are taken. From then on every call gives this refusal and takes nothing, until
 *                    a reset
 * A number is judged at its last byte or its fifth, a frame at the first byte that no valid frame of its length has there. seconds is not NULL, and
 * with any other answer than an entry *seconds stays as it is. */
crsf_answer crsf_log_next(uint8_t *state, size_t state_len, const uint8_t *input, size_t input_len, uint32_t *seconds);

/* Says that the log ends here: CRSF_OK, or refusal 9 inside an entry or before the 1, or the refusal that was given before, or 8. After CRSF_OK
 * another end says so again, an empty input asks for more, and a byte is refused with 9, and not taken, until a reset. */
crsf_answer crsf_log_end(uint8_t *state, size_t state_len);

/* Before the first byte again. Refusal 8 for a state of another length than 75, and for no other. */
crsf_answer crsf_log_reset(uint8_t *state, size_t state_len);

/* Writes what a log begins with, the number 1, to the front of out; len is 1. Refusal 5 where out_len is 0. */
crsf_answer crsf_log_start(uint8_t *out, size_t out_len);

/* Writes an entry to the front of out; len is its length, 6 to 70. Refusal 10 for bytes that are not one whole valid frame, then 5, with out
 * unchanged. */
crsf_answer crsf_log_entry(uint32_t seconds, const uint8_t *frame, size_t frame_len, uint8_t *out, size_t out_len);

/* ---- Conveniences -------------------------------------------------------------------------------------------------------------------------- */

/* An answer with a position: the fields of crsf_answer, and one more. */
typedef struct crsf_call {
    uint8_t number;
    uint8_t taken;
    uint8_t in_state;
    uint8_t at;
    uint8_t len;
    uint8_t first;
    uint8_t second;
    uint8_t zero;
    uint64_t position; /* crsf_next: where in the stream a frame or a refusal, 1 to 3, began; crsf_position_of: where the parser is; else 0 */
} crsf_call;

/* For whoever calls crsf_next_raw_packet: its answer with a position, as crsf_frame_bytes takes it. */
static inline crsf_call crsf_call_of(crsf_answer answer, uint64_t position)
{
    const crsf_call call = {answer.number, answer.taken, answer.in_state, answer.at, answer.len, answer.first, answer.second, answer.zero, position};
    return call;
}

static inline crsf_call crsf_next(crsf_state *state, const uint8_t *input, size_t input_len)
{
    uint64_t position = 0;
    const crsf_answer answer = crsf_next_raw_packet((uint8_t *)state, sizeof *state, input, input_len, &position, 1);
    return crsf_call_of(answer, position);
}

static inline crsf_answer crsf_forget(crsf_state *state)
{
    return crsf_reset((uint8_t *)state, sizeof *state);
}

static inline crsf_answer crsf_save_state(const crsf_state *state, uint8_t *out, size_t out_len)
{
    return crsf_save((const uint8_t *)state, sizeof *state, out, out_len);
}

static inline crsf_answer crsf_restore_state(crsf_state *state, const uint8_t *form, size_t form_len)
{
    return crsf_restore((uint8_t *)state, sizeof *state, form, form_len);
}

static inline crsf_answer crsf_held_count(const crsf_state *state)
{
    return crsf_held((const uint8_t *)state, sizeof *state);
}

/* Where the parser is: the answer of crsf_position, with the position. */
static inline crsf_call crsf_position_of(const crsf_state *state)
{
    uint64_t position = 0;
    const crsf_answer answer = crsf_position((const uint8_t *)state, sizeof *state, &position, 1);
    return crsf_call_of(answer, position);
}

/* The bytes of a frame, of which there are call.len: valid until the state or the input changes. Only where call.number is CRSF_FRAME. */
static inline const uint8_t *crsf_frame_bytes(const crsf_state *state, const uint8_t *input, crsf_call call)
{
    return call.in_state ? (const uint8_t *)state + call.at : input + call.at;
}

static inline crsf_answer crsf_log_read(crsf_log_state *state, const uint8_t *input, size_t input_len, uint32_t *seconds)
{
    return crsf_log_next((uint8_t *)state, sizeof *state, input, input_len, seconds);
}

static inline crsf_answer crsf_log_finish(crsf_log_state *state)
{
    return crsf_log_end((uint8_t *)state, sizeof *state);
}

static inline crsf_answer crsf_log_forget(crsf_log_state *state)
{
    return crsf_log_reset((uint8_t *)state, sizeof *state);
}

/* The bytes of an entry's frame, as crsf_frame_bytes has those of the stream. */
static inline const uint8_t *crsf_log_frame_bytes(const crsf_log_state *state, const uint8_t *input, crsf_answer answer)
{
    return answer.in_state ? (const uint8_t *)state + answer.at : input + answer.at;
}

/* The microseconds of a raw channel value. They go to *us where the answer is CRSF_OK; with refusal 6 it stays as it is. */
static inline crsf_answer crsf_channel_us(uint16_t raw, float *us)
{
    uint32_t bits = 0;
    crsf_answer answer = crsf_channel_microseconds(raw, &bits, 1);
    if (answer.number == CRSF_OK)
        memcpy(us, &bits, sizeof *us);
    return answer;
}

/* The parts of a frame of len bytes, 4 to 64. */
static inline uint8_t crsf_frame_address(const uint8_t *frame) { return frame[0]; }
static inline uint8_t crsf_frame_type(const uint8_t *frame) { return frame[2]; }
static inline const uint8_t *crsf_frame_payload(const uint8_t *frame) { return frame + 3; }
static inline size_t crsf_frame_payload_len(size_t len) { return len - 4; }

#ifdef __cplusplus
}
#endif

#endif
