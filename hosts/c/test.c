/* Every entry of the archive, called from C on known bytes. Prints what it ran, and stops at the first difference. */
#include "check.h"

/* What a stream says, in the lines of the listing with their positions, whatever the pieces. The state is saved after save_at calls, spoilt and
 * restored. */
static void list(const uint8_t *bytes, size_t n, size_t piece, unsigned save_at, char *out)
{
    crsf_state state = {0};
    unsigned calls = 0;
    char *end = out;
    for (size_t from = 0; from < n; from += piece) {
        const uint8_t *rest = bytes + from;
        size_t left = n - from < piece ? n - from : piece;
        for (;;) {
            if (calls++ == save_at) {
                uint8_t form[CRSF_SAVED_MAX];
                crsf_answer held = crsf_held_count(&state), saved = crsf_save_state(&state, form, sizeof form);
                CHECK(held.number == CRSF_OK && saved.number == CRSF_OK);
                memset(&state, 0xEE, sizeof state);
                CHECK(count(crsf_restore_state(&state, form, saved.len), held.len));
            }
            crsf_call a = crsf_next(&state, rest, left);
            CHECK(a.taken <= left);
            const uint8_t *frame = crsf_frame_bytes(&state, rest, a);
            if (a.number != CRSF_MORE)
                end += sprintf(end, "%u ", (unsigned)a.position);
            if (a.number == CRSF_FRAME)
                end += sprintf(end, "frame %02X %02X %zu\n", crsf_frame_address(frame), crsf_frame_type(frame), crsf_frame_payload_len(a.len));
            else if (a.number == CRSF_INVALID_SYNC)
                end += sprintf(end, "sync %02X\n", a.first);
            else if (a.number == CRSF_INVALID_PACKET_LENGTH)
                end += sprintf(end, "length %02X\n", a.first);
            else if (a.number == CRSF_INVALID_CRC)
                end += sprintf(end, "crc %02X %02X\n", a.first, a.second);
            else
                CHECK(a.number == CRSF_MORE && a.taken == left && a.position == 0);
            rest += a.taken;
            left -= a.taken;
            if (a.number == CRSF_MORE)
                break;
        }
    }
    crsf_answer held = crsf_held_count(&state);
    CHECK(held.number == CRSF_OK);
    sprintf(end, "%u held %u\n", (unsigned)crsf_position_of(&state).position, held.len);
}

/* The same lines in pieces of any size, and with a save and a restore before any call. */
static void lists(const uint8_t *bytes, size_t n, const char *lines)
{
    char out[4096];
    for (size_t piece = 1; piece <= n; piece++)
        for (unsigned save_at = 0; save_at <= 2 * n; save_at++) {
            list(bytes, n, piece, save_at, out);
            CHECK(strcmp(out, lines) == 0);
        }
}

static void stream(void)
{
    lists((const uint8_t[]){0xC8, 2, 0, 0}, 4, "0 frame C8 00 0\n4 held 0\n");
    lists((const uint8_t[]){0xC8, 2, 0, 0, 0x55, 0xC8, 2, 0}, 8, "0 frame C8 00 0\n4 sync 55\n5 held 3\n");
    lists((const uint8_t[]){0xC8, 2, 0, 1}, 4, "0 crc 00 01\n1 sync 02\n2 length 01\n3 sync 01\n4 held 0\n");
    lists((const uint8_t[]){0xC8, 1}, 2, "0 length 01\n1 sync 01\n2 held 0\n");
    lists((const uint8_t[]){0, 0}, 2, "0 length 00\n1 held 1\n");
    lists((const uint8_t[]){0xC8, 0x3F}, 2, "0 length 3F\n1 sync 3F\n2 held 0\n");
    lists((const uint8_t[]){0xC8, 0x3E}, 2, "0 held 2\n");
    lists((const uint8_t[]){0xC8}, 1, "0 held 1\n");
}

static void calls(void)
{
    crsf_state state = {0};
    const uint8_t frame[4] = {0xC8, 2, 0, 0};
    const uint8_t wrong[4] = {0xC8, 2, 0, 1};
    CHECK(sizeof state == CRSF_STATE_SIZE && sizeof(crsf_answer) == 8 && sizeof(crsf_call) == 16);
    /* in the input; then in the state */
    CHECK(is_at(crsf_next(&state, frame, 4), 0, CRSF_FRAME, 4, 0, 0, 4, 0, 0));
    CHECK(asks_more(crsf_next(&state, frame, 3), 3));
    crsf_call a = crsf_next(&state, frame + 3, 1);
    CHECK(a.number == CRSF_FRAME && a.taken == 1 && a.in_state == 1 && a.len == 4 && a.position == 4);
    CHECK(memcmp(crsf_frame_bytes(&state, frame + 3, a), frame, 4) == 0);
    CHECK(is_at(crsf_next(&state, wrong, 4), 8, CRSF_INVALID_CRC, 1, 0, 0, 0, 0, 1));
    CHECK(asks_more(crsf_next(&state, NULL, 0), 0));
    CHECK(is_at(crsf_position_of(&state), 9, CRSF_OK, 0, 0, 0, 1, 0, 0));
    /* a state of a wrong length, and one that is not valid, stay as they are; so does a place for a position */
    uint8_t bytes[80];
    uint64_t position = 77;
    for (size_t n = 0; n < sizeof bytes; n++)
        if (n != CRSF_STATE_SIZE) {
            memset(bytes, 0x5A, sizeof bytes);
            CHECK(refusal(crsf_next_raw_packet(bytes, n, frame, 4, &position, 1), CRSF_BAD_STATE));
            CHECK(refusal(crsf_position(bytes, n, &position, 1), CRSF_BAD_STATE) && position == 77);
            CHECK(refusal(crsf_reset(bytes, n), CRSF_BAD_STATE));
            CHECK(refusal(crsf_restore(bytes, n, (const uint8_t[]){0}, 1), CRSF_BAD_STATE));
            CHECK(refusal(crsf_save(bytes, n, bytes, 0), CRSF_BAD_STATE));
            CHECK(refusal(crsf_held(bytes, n), CRSF_BAD_STATE));
            for (size_t i = 0; i < sizeof bytes; i++)
                CHECK(bytes[i] == 0x5A);
        }
    for (unsigned start = 0; start < 256; start++)
        for (unsigned end = 0; end < 256; end++)
            if (start > end || end > 64) {
                memset(bytes, 0x5A, sizeof bytes);
                bytes[0] = (uint8_t)start;
                bytes[1] = (uint8_t)end;
                uint8_t before[80], out[CRSF_SAVED_MAX];
                memcpy(before, bytes, sizeof bytes);
                CHECK(refusal(crsf_next_raw_packet(bytes, 74, frame, 4, &position, 1), CRSF_BAD_STATE));
                CHECK(refusal(crsf_save(bytes, 74, out, sizeof out), CRSF_BAD_STATE));
                CHECK(refusal(crsf_held(bytes, 74), CRSF_BAD_STATE));
                CHECK(refusal(crsf_position(bytes, 74, &position, 1), CRSF_BAD_STATE));
                CHECK(memcmp(before, bytes, sizeof bytes) == 0 && position == 77);
                CHECK(count(crsf_reset(bytes, 74), 0));
                CHECK(count(crsf_held(bytes, 74), 0));
            }
}

/* After CRSF_MORE and after a refusal, len is 0, and so is every other field that the answer does not speak of. */
static void empty_fields(void)
{
    crsf_state state = {0};
    uint8_t buffer[70];
    int32_t out[20];
    CHECK(asks_more(crsf_next(&state, (const uint8_t[]){0xC8, 2}, 2), 2));
    CHECK(asks_more(crsf_next(&state, NULL, 0), 0));
    CHECK(is_at(crsf_next(&state, (const uint8_t[]){0, 7}, 2), 0, CRSF_INVALID_CRC, 2, 0, 0, 0, 0, 7));
    crsf_forget(&state);
    CHECK(is_at(crsf_next(&state, (const uint8_t[]){0x55}, 1), 0, CRSF_INVALID_SYNC, 1, 0, 0, 0, 0x55, 0));
    CHECK(is_at(crsf_next(&state, (const uint8_t[]){0xC8, 1}, 2), 1, CRSF_INVALID_PACKET_LENGTH, 1, 0, 0, 0, 1, 0));
    CHECK(asks_more(crsf_next(&state, (const uint8_t[]){0xC8}, 1), 1));
    memset(state.position, 0xFF, sizeof state.position);
    CHECK(call_refused(crsf_next(&state, buffer, 0), CRSF_POSITION_RANGE));
    state.start = 200;
    state.end = 3;
    CHECK(call_refused(crsf_next(&state, buffer, 0), CRSF_BAD_STATE));
    CHECK(call_refused(crsf_position_of(&state), CRSF_BAD_STATE));
    CHECK(refusal(crsf_read_gps(buffer, 14, out, 20), CRSF_INVALID_PAYLOAD_LENGTH));
    CHECK(refusal(crsf_write_baro_altitude(buffer, 6, 0xC8, 1, 2), CRSF_BUFFER_OVERFLOW));
    CHECK(refusal(crsf_write_baro_altitude(buffer, 70, 0x55, 1, 2), CRSF_BAD_ADDRESS));
}

static void version(void)
{
    char text[32];
    sprintf(text, "%d.%d.%d", CRSF_VERSION_MAJOR, CRSF_VERSION_MINOR, CRSF_VERSION_PATCH);
    CHECK(strcmp(text, CRSF_VERSION) == 0);
}

static void saves(void)
{
    crsf_state state = {0};
    uint8_t form[CRSF_SAVED_MAX];
    const uint8_t waiting[3] = {0xC8, 0x3E, 7};
    CHECK(count(crsf_save_state(&state, form, 3), 3) && memcmp(form, (const uint8_t[]){0x40, 0, 0}, 3) == 0);
    state.position[6] = 1;
    CHECK(crsf_next(&state, waiting, 3).number == CRSF_MORE);
    memset(form, 0xAA, sizeof form);
    CHECK(refusal(crsf_save_state(&state, form, 6), CRSF_BUFFER_OVERFLOW) && form[0] == 0xAA);
    CHECK(count(crsf_save_state(&state, form, sizeof form), 7));
    CHECK(memcmp(form, (const uint8_t[]){0x40, 0x80, 2, 3, 0xC8, 0x3E, 7, 0xAA}, 8) == 0);
    CHECK(refusal(crsf_restore_state(&state, form, 6), CRSF_BAD_STATE));
    CHECK(refusal(crsf_restore_state(&state, form, 8), CRSF_BAD_STATE));
    CHECK(refusal(crsf_restore_state(&state, form, 0), CRSF_BAD_STATE));
    CHECK(refusal(crsf_restore_state(&state, (const uint8_t[]){0x80, 0}, 2), CRSF_BAD_STATE));
    CHECK(count(crsf_held_count(&state), 3) && crsf_position_of(&state).position == 256);
    CHECK(count(crsf_forget(&state), 0) && count(crsf_held_count(&state), 0) && crsf_position_of(&state).position == 0);
    CHECK(count(crsf_restore_state(&state, form, 7), 3) && crsf_position_of(&state).position == 256);
    /* what was saved without a position goes on from 0 */
    CHECK(count(crsf_restore_state(&state, form + 3, 4), 3) && crsf_position_of(&state).position == 0);
    /* 64 held bytes have no saved form */
    memset(&state, 0, sizeof state);
    state.end = 64;
    CHECK(refusal(crsf_save_state(&state, form, sizeof form), CRSF_BAD_STATE));
    state.start = 1;
    CHECK(count(crsf_save_state(&state, form, sizeof form), 66) && form[2] == 63);
}

/* The payload of a frame that was just written. The frame is read as itself. */
static const uint8_t *payload_of(const uint8_t *buffer, size_t size, crsf_answer written, uint8_t type, uint8_t len)
{
    crsf_state state = {0};
    CHECK(count(written, (uint8_t)(len + 4)) && written.len <= size);
    CHECK(is_at(crsf_next(&state, buffer, written.len), 0, CRSF_FRAME, written.len, 0, 0, written.len, 0, 0));
    CHECK(crsf_frame_address(buffer) == 0xC8 && crsf_frame_type(buffer) == type);
    CHECK(crsf_checksum(buffer + 2, (size_t)written.len - 3) == buffer[written.len - 1]);
    for (size_t i = written.len; i < size; i++)
        CHECK(buffer[i] == 0xAA);
    return crsf_frame_payload(buffer);
}

#define WRITTEN(type, size, call) (memset(b, 0xAA, sizeof b), payload_of(b, sizeof b, call, type, size))
#define BYTES(...) ((const uint8_t[]){__VA_ARGS__}), sizeof((const uint8_t[]){__VA_ARGS__})
#define READS(entry, payload, size, ...)                                                       \
    do {                                                                                       \
        const int32_t want[] = {__VA_ARGS__};                                                  \
        const uint8_t n = sizeof want / sizeof *want;                                          \
        int32_t got[20];                                                                       \
        memset(got, 0x77, sizeof got);                                                         \
        CHECK(refusal(entry(payload, (size)-1, got, 20), CRSF_INVALID_PAYLOAD_LENGTH));        \
        CHECK(refusal(entry(payload, size, got, n - 1u), CRSF_BUFFER_OVERFLOW));               \
        CHECK(got[0] == 0x77777777);                                                           \
        CHECK(count(entry(payload, size, got, n), n));                                         \
        CHECK(memcmp(got, want, sizeof want) == 0 && got[n] == 0x77777777);                    \
    } while (0)

static void records(void)
{
    uint8_t b[70];
    const uint8_t *p;

    p = WRITTEN(CRSF_TYPE_LINK_STATISTICS, 10, crsf_write_link_statistics(b, sizeof b, 0xC8, 1, 2, 3, -4, 5, 6, 7, 8, 9, -128));
    CHECK(memcmp(p, BYTES(1, 2, 3, 0xFC, 5, 6, 7, 8, 9, 0x80)) == 0);
    READS(crsf_read_link_statistics, p, 10, 1, 2, 3, -4, 5, 6, 7, 8, 9, -128);

    p = WRITTEN(CRSF_TYPE_GPS, 15, crsf_write_gps(b, sizeof b, 0xC8, -2, 0x01020304, 0x0506, 65535, 1000, 9));
    CHECK(memcmp(p, BYTES(0xFF, 0xFF, 0xFF, 0xFE, 1, 2, 3, 4, 5, 6, 0xFF, 0xFF, 3, 0xE8, 9)) == 0);
    READS(crsf_read_gps, p, 15, -2, 0x01020304, 0x0506, 65535, 1000, 9);

    p = WRITTEN(CRSF_TYPE_GPS_EXTENDED, 20, crsf_write_gps_extended(b, sizeof b, 0xC8, 3, -1, 2, -3, 4, -5, 6, -7, -32768, 9, 10, 11));
    CHECK(memcmp(p, BYTES(3, 0xFF, 0xFF, 0, 2, 0xFF, 0xFD, 0, 4, 0xFF, 0xFB, 0, 6, 0xFF, 0xF9, 0x80, 0, 9, 10, 11)) == 0);
    READS(crsf_read_gps_extended, p, 20, 3, -1, 2, -3, 4, -5, 6, -7, -32768, 9, 10, 11);

    p = WRITTEN(CRSF_TYPE_BATTERY, 8, crsf_write_battery(b, sizeof b, 0xC8, 120, 15, 0x010203, 50, 0));
    CHECK(memcmp(p, BYTES(0, 0x78, 0, 0x0F, 1, 2, 3, 0x32)) == 0);
    READS(crsf_read_battery, p, 8, 120, 15, 0x010203, 50, 0);
    p = WRITTEN(CRSF_TYPE_BATTERY, 9, crsf_write_battery(b, sizeof b, 0xC8, -120, 15, 0xFFFFFF, 50, 5));
    CHECK(memcmp(p, BYTES(0xFF, 0x88, 0, 0x0F, 0xFF, 0xFF, 0xFF, 0x32, 5)) == 0);
    {
        int32_t got[5];
        CHECK(count(crsf_read_battery(p, 9, got, 5), 5) && got[0] == -120 && got[2] == 0xFFFFFF && got[4] == 5);
    }
    CHECK(refusal(crsf_write_battery(b, sizeof b, 0xC8, -120, 15, 0x1000000, 50, 5), CRSF_CAPACITY_RANGE));
    CHECK(refusal(crsf_write_battery(b, sizeof b, 0xC8, -120, 15, 0xFFFFFFFF, 50, 0), CRSF_CAPACITY_RANGE));

    p = WRITTEN(CRSF_TYPE_BARO_ALTITUDE, 3, crsf_write_baro_altitude(b, sizeof b, 0xC8, 0x88E5, -2));
    CHECK(memcmp(p, BYTES(0x88, 0xE5, 0xFE)) == 0);
    READS(crsf_read_baro_altitude, p, 3, 0x88E5, -2);

    uint16_t channels[16] = {2047}, back[17];
    p = WRITTEN(CRSF_TYPE_RC_CHANNELS_PACKED, 22, crsf_write_rc_channels_packed(b, sizeof b, 0xC8, channels, 16));
    CHECK(p[0] == 0xFF && p[1] == 7 && p[2] == 0 && p[21] == 0);
    channels[0] = 0;
    channels[15] = 2047;
    p = WRITTEN(CRSF_TYPE_RC_CHANNELS_PACKED, 22, crsf_write_rc_channels_packed(b, sizeof b, 0xC8, channels, 16));
    CHECK(p[0] == 0 && p[19] == 0 && p[20] == 0xE0 && p[21] == 0xFF);
    memset(back, 0x77, sizeof back);
    CHECK(refusal(crsf_read_rc_channels_packed(p, 21, back, 17), CRSF_INVALID_PAYLOAD_LENGTH));
    CHECK(refusal(crsf_read_rc_channels_packed(p, 22, back, 15), CRSF_BUFFER_OVERFLOW) && back[0] == 0x7777);
    CHECK(count(crsf_read_rc_channels_packed(p, 22, back, 17), 16) && memcmp(back, channels, 32) == 0 && back[16] == 0x7777);
    channels[9] = 2048;
    channels[12] = 3000;
    CHECK(is(crsf_write_rc_channels_packed(b, sizeof b, 0xC8, channels, 16), CRSF_CHANNEL_RANGE, 0, 0, 0, 0, 9, 0));
    CHECK(refusal(crsf_write_rc_channels_packed(b, sizeof b, 0xC8, channels, 15), CRSF_INVALID_PAYLOAD_LENGTH));
    CHECK(refusal(crsf_write_rc_channels_packed(b, sizeof b, 0xC9, channels, 15), CRSF_BAD_ADDRESS));

    /* two sets, and a number past them that is not looked at; a third set, which has it */
    uint16_t sets[48] = {0};
    sets[0] = sets[31] = 2047;
    sets[36] = 2048;
    memset(b, 0xAA, sizeof b);
    CHECK(count(crsf_write_rc_channels_burst(b, sizeof b, 0xC8, sets, 48, 2), 52) && b[52] == 0xAA);
    CHECK(memcmp(b, BYTES(0xC8, 24, CRSF_TYPE_RC_CHANNELS_PACKED, 0xFF, 7, 0)) == 0 && b[25] == check_byte(b + 2, 23));
    CHECK(memcmp(b + 26, BYTES(0xC8, 24, CRSF_TYPE_RC_CHANNELS_PACKED, 0)) == 0 && memcmp(b + 48, BYTES(0, 0xE0, 0xFF)) == 0);
    CHECK(b[51] == check_byte(b + 28, 23));
    CHECK(is(crsf_write_rc_channels_burst(b, 0, 0xC8, sets, 48, 3), CRSF_CHANNEL_RANGE, 0, 0, 0, 0, 2, 4));
    CHECK(refusal(crsf_write_rc_channels_burst(b, 51, 0xC8, sets, 32, 2), CRSF_BUFFER_OVERFLOW));
    CHECK(refusal(crsf_write_rc_channels_burst(b, sizeof b, 0xC8, sets, 31, 2), CRSF_INVALID_PAYLOAD_LENGTH));
    CHECK(refusal(crsf_write_rc_channels_burst(b, sizeof b, 0xC8, sets, 48, CRSF_BURST_SETS_MAX + 1), CRSF_INVALID_PAYLOAD_LENGTH));
    CHECK(refusal(crsf_write_rc_channels_burst(b, sizeof b, 0xC9, sets, 0, CRSF_BURST_SETS_MAX + 1), CRSF_BAD_ADDRESS));
    CHECK(refusal(crsf_write_rc_channels_burst(NULL, 0, 0xC9, NULL, 0, 0), CRSF_BAD_ADDRESS));
    CHECK(count(crsf_write_rc_channels_burst(NULL, 0, 0xC8, NULL, 0, 0), 0) && b[0] == 0xC8 && b[51] == check_byte(b + 28, 23) && b[52] == 0xAA);

    const int32_t values[20] = {-1, -8388608, 5};
    int32_t got[20];
    p = WRITTEN(CRSF_TYPE_RPM, 10, crsf_write_rpm(b, sizeof b, 0xC8, 7, values, 3));
    CHECK(memcmp(p, BYTES(7, 0xFF, 0xFF, 0xFF, 0x80, 0, 0, 0, 0, 5)) == 0);
    memset(got, 0x77, sizeof got);
    CHECK(is(crsf_read_rpm(p, 10, got, 3), CRSF_OK, 0, 0, 0, 3, 7, 0) && memcmp(got, values, 12) == 0 && got[3] == 0x77777777);
    CHECK(is(crsf_read_rpm(p, 4, got, 1), CRSF_OK, 0, 0, 0, 1, 7, 0) && got[0] == -1);
    CHECK(refusal(crsf_read_rpm(p, 3, got, 0), CRSF_INVALID_PAYLOAD_LENGTH));
    CHECK(refusal(crsf_read_rpm(p, 3, got, 20), CRSF_INVALID_PAYLOAD_LENGTH));
    CHECK(refusal(crsf_read_rpm(p, 10, got, 2), CRSF_BUFFER_OVERFLOW));
    CHECK(count(crsf_write_rpm(b, sizeof b, 0xC8, 7, values, 19), 62));
    CHECK(refusal(crsf_write_rpm(b, sizeof b, 0xC8, 7, values, 20), CRSF_INVALID_PAYLOAD_LENGTH));
    CHECK(refusal(crsf_write_rpm(b, sizeof b, 0xC8, 7, NULL, 0), CRSF_INVALID_PAYLOAD_LENGTH));

    const int16_t degrees[4] = {-32768, -1, 0, 32767};
    int16_t read_degrees[5] = {0, 0, 0, 0, 0x7777};
    p = WRITTEN(CRSF_TYPE_TEMP, 9, crsf_write_temp(b, sizeof b, 0xC8, 7, degrees, 4));
    CHECK(memcmp(p, BYTES(7, 0x80, 0, 0xFF, 0xFF, 0, 0, 0x7F, 0xFF)) == 0);
    CHECK(is(crsf_read_temp(p, 9, read_degrees, 5), CRSF_OK, 0, 0, 0, 4, 7, 0));
    CHECK(memcmp(read_degrees, degrees, sizeof degrees) == 0 && read_degrees[4] == 0x7777);

    const uint16_t millivolts[5] = {0, 1, 0x7FFF, 0x8000, 0xFFFF};
    uint16_t read_millivolts[6] = {0, 0, 0, 0, 0, 0x7777};
    p = WRITTEN(CRSF_TYPE_VOLTAGES, 11, crsf_write_voltages(b, sizeof b, 0xC8, 255, millivolts, 5));
    CHECK(memcmp(p, BYTES(255, 0, 0, 0, 1, 0x7F, 0xFF, 0x80, 0, 0xFF, 0xFF)) == 0);
    CHECK(is(crsf_read_voltages(p, 11, read_millivolts, 6), CRSF_OK, 0, 0, 0, 5, 255, 0));
    CHECK(memcmp(read_millivolts, millivolts, sizeof millivolts) == 0 && read_millivolts[5] == 0x7777);

    /* 7 comes before 5, and a refusal writes nothing */
    memset(b, 0xAA, sizeof b);
    CHECK(refusal(crsf_write_gps(b, 3, 0xC9, 1, 2, 3, 4, 5, 6), CRSF_BAD_ADDRESS));
    CHECK(refusal(crsf_write_gps(b, 18, 0xC8, 1, 2, 3, 4, 5, 6), CRSF_BUFFER_OVERFLOW));
    for (size_t i = 0; i < sizeof b; i++)
        CHECK(b[i] == 0xAA);
}

/* A series, an id and values, of two bytes a value: temperatures and voltages, both by the bits of their values. */
typedef struct series {
    uint8_t type;
    size_t most;
    crsf_answer (*read)(const uint8_t *payload, size_t payload_len, uint16_t *out, size_t out_len);
    crsf_answer (*write)(uint8_t *buffer, size_t buffer_len, uint8_t dest, uint8_t id, const uint16_t *values, size_t values_len);
} series;

static crsf_answer read_temp_bits(const uint8_t *payload, size_t payload_len, uint16_t *out, size_t out_len)
{
    return crsf_read_temp(payload, payload_len, (int16_t *)out, out_len);
}

static crsf_answer write_temp_bits(uint8_t *buffer, size_t buffer_len, uint8_t dest, uint8_t id, const uint16_t *values, size_t values_len)
{
    return crsf_write_temp(buffer, buffer_len, dest, id, (const int16_t *)values, values_len);
}

enum { SERIES_PLACES = 40, SERIES_BUFFER = 80, SERIES_PAYLOAD = 1000 };

/* What a reader is to answer and to leave in its places, from the layout alone. */
static void series_reads(const series *r, const uint8_t *payload, size_t n, size_t lent)
{
    uint16_t want[SERIES_PLACES], got[SERIES_PLACES];
    memset(want, 0x77, sizeof want);
    memset(got, 0x77, sizeof got);
    const crsf_answer a = r->read(payload, n, got, lent);
    const size_t values = n ? (n - 1) / 2 : 0;
    if (n < 3 || values > r->most)
        CHECK(refusal(a, CRSF_INVALID_PAYLOAD_LENGTH));
    else if (lent < values)
        CHECK(refusal(a, CRSF_BUFFER_OVERFLOW));
    else {
        CHECK(is(a, CRSF_OK, 0, 0, 0, (uint8_t)values, payload[0], 0));
        for (size_t i = 0; i < values; i++)
            want[i] = (uint16_t)(payload[1 + 2 * i] * 256 + payload[2 + 2 * i]);
    }
    CHECK(memcmp(got, want, sizeof want) == 0);
}

/* What a writer is to answer and to leave in its buffer, from the layout alone. The payload that it wrote is read as the values. */
static void series_writes(const series *r, uint8_t dest, bool listed, uint8_t id, const uint16_t *values, size_t n, size_t lent)
{
    uint8_t want[SERIES_BUFFER], got[SERIES_BUFFER];
    memset(want, 0xAA, sizeof want);
    memset(got, 0xAA, sizeof got);
    const crsf_answer a = r->write(got, lent, dest, id, values, n);
    if (!listed)
        CHECK(refusal(a, CRSF_BAD_ADDRESS));
    else if (n == 0 || n > r->most)
        CHECK(refusal(a, CRSF_INVALID_PAYLOAD_LENGTH));
    else if (lent < 5 + 2 * n)
        CHECK(refusal(a, CRSF_BUFFER_OVERFLOW));
    else {
        const uint8_t head[] = {dest, (uint8_t)(3 + 2 * n), r->type, id};
        uint16_t back[SERIES_PLACES];
        memcpy(want, head, sizeof head);
        for (size_t i = 0; i < n; i++) {
            want[4 + 2 * i] = (uint8_t)(values[i] / 256);
            want[5 + 2 * i] = (uint8_t)(values[i] % 256);
        }
        want[4 + 2 * n] = check_byte(want + 2, 2 + 2 * n);
        CHECK(count(a, (uint8_t)(5 + 2 * n)));
        CHECK(is(r->read(crsf_frame_payload(got), crsf_frame_payload_len(a.len), back, n), CRSF_OK, 0, 0, 0, (uint8_t)n, id, 0));
        CHECK(memcmp(back, values, n * sizeof *values) == 0);
    }
    CHECK(memcmp(got, want, sizeof want) == 0);
}

/* Every payload of 0 to 64 bytes and some longer, into every number of places; every count of values, up to six too many, into every buffer, to
 * addresses and to others. */
static void each_series(void)
{
    const series all[] = {
        {CRSF_TYPE_TEMP, CRSF_TEMPERATURES_MAX, read_temp_bits, write_temp_bits},
        {CRSF_TYPE_VOLTAGES, CRSF_VOLTAGE_VALUES_MAX, crsf_read_voltages, crsf_write_voltages},
    };
    const size_t longer[] = {65, 66, 127, 128, 129, 255, 256, 257, 258, 259, 511, 512, 513, 515, SERIES_PAYLOAD};
    const uint16_t extremes[] = {0, 1, 0x00FF, 0x0100, 0x7FFE, 0x7FFF, 0x8000, 0x8001, 0xFEFF, 0xFFFE, 0xFFFF};
    const struct {
        uint8_t dest;
        bool listed;
    } to[] = {{0xC8, true}, {0xC9, false}, {0x00, true}, {0xFF, false}};
    enum { EXTREMES = sizeof extremes / sizeof *extremes };
    uint8_t payload[SERIES_PAYLOAD];
    uint16_t values[SERIES_PLACES];
    for (const series *r = all; r < all + 2; r++) {
        for (unsigned shift = 0; shift <= EXTREMES; shift++) {
            for (size_t i = 0; i < SERIES_PLACES; i++)
                values[i] = shift < EXTREMES ? extremes[(i + shift) % EXTREMES] : (uint16_t)(i * 40503u + 12345u);
            for (size_t i = 0; i < SERIES_PAYLOAD; i++)
                payload[i] = (uint8_t)(values[i / 2 % SERIES_PLACES] >> (i % 2 ? 0 : 8));
            for (size_t lent = 0; lent <= r->most + 2; lent++) {
                for (size_t n = 0; n <= 64; n++)
                    series_reads(r, payload + shift % 2, n, lent);
                for (size_t i = 0; i < sizeof longer / sizeof *longer; i++)
                    series_reads(r, payload, longer[i], lent);
            }
            for (size_t n = 0; n <= r->most + 6; n++)
                for (size_t lent = 0; lent <= 70; lent++)
                    for (size_t i = 0; i < sizeof to / sizeof *to; i++)
                        series_writes(r, to[i].dest, to[i].listed, (uint8_t)(shift * 23 + n), values, n, lent);
        }
        /* counts whose low byte is a good one */
        static const uint16_t many[600];
        for (size_t n = 200; n <= 600; n++)
            for (size_t lent = 0; lent <= 70; lent += 35) {
                uint8_t got[70];
                memset(got, 0xAA, sizeof got);
                CHECK(refusal(r->write(got, lent, 0xC8, 7, many, n), CRSF_INVALID_PAYLOAD_LENGTH));
                CHECK(refusal(r->write(got, lent, 0xC9, 7, many, n), CRSF_BAD_ADDRESS));
                for (size_t i = 0; i < sizeof got; i++)
                    CHECK(got[i] == 0xAA);
            }
        CHECK(refusal(r->read(NULL, 0, NULL, 0), CRSF_INVALID_PAYLOAD_LENGTH));
        CHECK(refusal(r->read(payload, 3, NULL, 0), CRSF_BUFFER_OVERFLOW));
        CHECK(refusal(r->write(NULL, 0, 0xC9, 7, NULL, 0), CRSF_BAD_ADDRESS));
        CHECK(refusal(r->write(NULL, 0, 0xC8, 7, NULL, 0), CRSF_INVALID_PAYLOAD_LENGTH));
        CHECK(refusal(r->write(NULL, 0, 0xC8, 7, values, 1), CRSF_BUFFER_OVERFLOW));
    }
}

/* RPM in the same way: three bytes a value, signed, 1 to 19 of them. Every payload of 0 to 1000 bytes. */
static void each_rpm(void)
{
    uint8_t payload[SERIES_PAYLOAD];
    int32_t values[26];
    const int32_t extremes[] = {0, 1, -1, 255, 256, 65535, 65536, 8388607, -8388608, 8388608, -8388609, 2147483647, -2147483647 - 1};
    for (unsigned shift = 0; shift < 13; shift++) {
        for (size_t i = 0; i < 26; i++)
            values[i] = extremes[(i + shift) % 13];
        for (size_t i = 0; i < sizeof payload; i++)
            payload[i] = (uint8_t)((i + shift) % 3 == 0 ? 0x80 : (i + shift) % 3 == 1 ? 0xFF : i * 29);
        for (size_t n = 0; n <= sizeof payload; n++)
            for (size_t lent = 0; lent <= 21; lent++) {
                int32_t want[22], got[22];
                memset(want, 0x77, sizeof want);
                memset(got, 0x77, sizeof got);
                const crsf_answer a = crsf_read_rpm(payload, n, got, lent);
                const size_t whole = n ? (n - 1) / 3 : 0;
                if (n < 4 || whole > 19)
                    CHECK(refusal(a, CRSF_INVALID_PAYLOAD_LENGTH));
                else if (lent < whole)
                    CHECK(refusal(a, CRSF_BUFFER_OVERFLOW));
                else {
                    CHECK(is(a, CRSF_OK, 0, 0, 0, (uint8_t)whole, payload[0], 0));
                    for (size_t i = 0; i < whole; i++) {
                        const uint8_t *b = payload + 1 + 3 * i;
                        want[i] = b[0] * 65536 + b[1] * 256 + b[2] - (b[0] & 0x80 ? 16777216 : 0);
                    }
                }
                CHECK(memcmp(got, want, sizeof want) == 0);
            }
        for (size_t n = 0; n <= 26; n++)
            for (size_t lent = 0; lent <= 70; lent++)
                for (unsigned dest = 0xC8; dest <= 0xC9; dest++) {
                    uint8_t want[80], got[80];
                    memset(want, 0xAA, sizeof want);
                    memset(got, 0xAA, sizeof got);
                    const crsf_answer a = crsf_write_rpm(got, lent, (uint8_t)dest, (uint8_t)shift, values, n);
                    if (dest == 0xC9)
                        CHECK(refusal(a, CRSF_BAD_ADDRESS));
                    else if (n == 0 || n > 19)
                        CHECK(refusal(a, CRSF_INVALID_PAYLOAD_LENGTH));
                    else if (lent < 5 + 3 * n)
                        CHECK(refusal(a, CRSF_BUFFER_OVERFLOW));
                    else {
                        const uint8_t head[] = {0xC8, (uint8_t)(3 + 3 * n), CRSF_TYPE_RPM, (uint8_t)shift};
                        memcpy(want, head, sizeof head);
                        for (size_t i = 0; i < 3 * n; i++)
                            want[4 + i] = (uint8_t)((uint32_t)values[i / 3] >> (16 - 8 * (i % 3)));
                        want[4 + 3 * n] = check_byte(want + 2, 2 + 3 * n);
                        CHECK(count(a, (uint8_t)(5 + 3 * n)));
                    }
                    CHECK(memcmp(got, want, sizeof want) == 0);
                }
    }
    /* counts whose low byte is a good one */
    static const int32_t many[600];
    for (size_t n = 200; n <= 600; n++)
        for (size_t lent = 0; lent <= 70; lent += 35) {
            uint8_t got[70];
            memset(got, 0xAA, sizeof got);
            CHECK(refusal(crsf_write_rpm(got, lent, 0xC8, 7, many, n), CRSF_INVALID_PAYLOAD_LENGTH));
            CHECK(refusal(crsf_write_rpm(got, lent, 0xC9, 7, many, n), CRSF_BAD_ADDRESS));
            for (size_t i = 0; i < sizeof got; i++)
                CHECK(got[i] == 0xAA);
        }
    CHECK(refusal(crsf_read_rpm(NULL, 0, NULL, 0), CRSF_INVALID_PAYLOAD_LENGTH));
    CHECK(refusal(crsf_read_rpm(payload, 3, NULL, 0), CRSF_INVALID_PAYLOAD_LENGTH));
    CHECK(refusal(crsf_read_rpm(payload, 4, NULL, 0), CRSF_BUFFER_OVERFLOW));
    CHECK(refusal(crsf_write_rpm(NULL, 0, 0xC9, 7, NULL, 0), CRSF_BAD_ADDRESS));
    CHECK(refusal(crsf_write_rpm(NULL, 0, 0xC8, 7, NULL, 0), CRSF_INVALID_PAYLOAD_LENGTH));
    CHECK(refusal(crsf_write_rpm(NULL, 0, 0xC8, 7, values, 1), CRSF_BUFFER_OVERFLOW));
}

static void queries(void)
{
    unsigned addresses = 0;
    for (unsigned byte = 0; byte < 256; byte++)
        addresses += crsf_is_address((uint8_t)byte);
    CHECK(addresses == 24 && crsf_is_address(0xC8) && crsf_is_address(0x97) && !crsf_is_address(0x98));
    CHECK(crsf_header_of(CRSF_TYPE_GPS) == CRSF_SHORT && crsf_header_of(0x29) == CRSF_EXTENDED && crsf_header_of(0xFF) == CRSF_UNLISTED);
    CHECK(crsf_checksum((const uint8_t *)"123456789", 9) == 0xBC && crsf_checksum(NULL, 0) == 0);
    CHECK(crsf_pack_altitude(22767) == 0x7FFF && crsf_pack_altitude(22768) == 0x88E5 && crsf_pack_altitude(327656) == 0xFFFE);
    CHECK(crsf_pack_altitude(-10001) == 0 && crsf_baro_decimetres(0xFFFF) == 327670 && crsf_gps_metres(0) == -1000);
}

/* Every raw value, with a place and without one, against the formula in C's own floats. */
static void microseconds(void)
{
    for (unsigned raw = 0; raw <= 0xFFFF; raw++) {
        uint32_t out[2] = {0x77777777, 0x77777777};
        float us = -1, want = ((float)raw - 992) * 5 / 8 + 1500;
        if (raw > 2047) {
            CHECK(is(crsf_channel_microseconds((uint16_t)raw, out, 2), CRSF_CHANNEL_RANGE, 0, 0, 0, 0, 0, 0));
            CHECK(is(crsf_channel_microseconds((uint16_t)raw, NULL, 0), CRSF_CHANNEL_RANGE, 0, 0, 0, 0, 0, 0));
            CHECK(crsf_channel_us((uint16_t)raw, &us).number == CRSF_CHANNEL_RANGE && us == -1);
            CHECK(out[0] == 0x77777777 && out[1] == 0x77777777);
        } else {
            CHECK(refusal(crsf_channel_microseconds((uint16_t)raw, out, 0), CRSF_BUFFER_OVERFLOW) && out[0] == 0x77777777);
            CHECK(count(crsf_channel_microseconds((uint16_t)raw, out, 2), 1) && out[1] == 0x77777777);
            CHECK(memcmp(out, &want, sizeof want) == 0);
            CHECK(count(crsf_channel_us((uint16_t)raw, &us), 1) && us == want);
        }
    }
    float us;
    crsf_channel_us(992, &us);
    CHECK(us == 1500.0f);
}

/* Raw views of 0 to 300 bytes. */
static void raw_views(void)
{
    uint8_t bytes[300];
    for (size_t i = 0; i < sizeof bytes; i++)
        bytes[i] = (uint8_t)(i * 167 + i / 3 + 1);
    for (size_t n = 0; n <= sizeof bytes; n++)
        for (size_t from = 0; from <= sizeof bytes - n; from += 7) {
            crsf_raw want = {CRSF_INVALID_PAYLOAD_LENGTH, 0, 0, 0, {0}};
            const uint8_t *b = bytes + from;
            if (n >= 4)
                want = (crsf_raw){CRSF_OK, b[0], b[2], b[n - 1], {0}};
            crsf_raw got = crsf_raw_view(b, n);
            CHECK(memcmp(&got, &want, sizeof want) == 0);
        }
    CHECK(sizeof(crsf_raw) == 8 && crsf_raw_view(NULL, 0).number == CRSF_INVALID_PAYLOAD_LENGTH);
}

int main(void)
{
    version();
    calls();
    empty_fields();
    saves();
    stream();
    records();
    each_series();
    each_rpm();
    queries();
    microseconds();
    raw_views();
    printf("C: %u checks of every entry hold\n", checks);
    return 0;
}
