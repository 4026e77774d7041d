/*
 * How much stack each entry needs, seen by painting: an entry is called on a stack of its own that was filled with one byte, and the lowest
 * byte that changed says how deep it went. Prints a line `ENTRY BYTES` for each entry, the most of all its calls: its return address and the
 * arguments that go by the stack are counted in. For x86-64, to be linked with -z now: else the first call of memcpy has the loader on this
 * stack too.
 */
#include "crsf.h"

#include <stdio.h>
#include <string.h>

enum { SIZE = 1 << 13 };
static _Alignas(64) uint8_t stack[SIZE];

/* Calls f with the stack pointer at the end of the painted stack. */
void on_stack(void (*f)(void), uint8_t *top);
__asm__(".text\n"
        ".globl on_stack\n"
        ".type on_stack, @function\n"
        "on_stack:\n"
        "    push %rbp\n"
        "    mov %rsp, %rbp\n"
        "    mov %rsi, %rsp\n"
        "    call *%rdi\n"
        "    mov %rbp, %rsp\n"
        "    pop %rbp\n"
        "    ret\n"
        ".size on_stack, .-on_stack\n"
        ".section .note.GNU-stack,\"\",@progbits\n"
        ".text\n");

/* The bytes that changed from the deepest one up. Painted twice, with two colours: a byte that was written with the one differs from the other. */
static size_t depth(void (*f)(void), void (*before)(void))
{
    size_t deepest = 0;
    for (int colour = 0; colour < 2; colour++) {
        const uint8_t paint = colour ? 0xA5 : 0x5A;
        size_t untouched = 0;
        before();
        memset(stack, paint, SIZE);
        on_stack(f, stack + SIZE);
        while (untouched < SIZE && stack[untouched] == paint)
            untouched++;
        if (deepest < SIZE - untouched)
            deepest = SIZE - untouched;
    }
    return deepest;
}

/* What the calls are about. */
static crsf_state state, first_state;
static crsf_log_state log_state, first_log_state;
static uint8_t bytes[256], buffer[80], form[CRSF_SAVED_MAX], frame[CRSF_FRAME_MAX], log_bytes[80];
static size_t count, room, places, form_len, frame_len, log_len;
static uint64_t position[1];
static uint8_t dest;
static uint16_t channels[16], sets[CRSF_BURST_SETS_MAX * 16];
static uint8_t burst[CRSF_BURST_MAX];
static size_t sets_len, burst_room;
static int32_t numbers[20];
static int16_t temperatures[CRSF_TEMPERATURES_MAX + 1];
static uint16_t voltages[CRSF_VOLTAGE_VALUES_MAX + 1];
static uint32_t bits[1], seconds;
static volatile unsigned sink;

static void same(void)
{
    state = first_state;
    log_state = first_log_state;
}

#define CALL(name, ...) static void call_##name(void) { sink += crsf_##name(__VA_ARGS__).number; }
#define ASK(name, ...) static void call_##name(void) { sink += (unsigned)crsf_##name(__VA_ARGS__); }
#define STATE (uint8_t *)&state, sizeof state
#define LOG_STATE (uint8_t *)&log_state, sizeof log_state

CALL(next_raw_packet, STATE, bytes, count, position, places)
CALL(reset, STATE)
CALL(save, STATE, buffer, room)
CALL(restore, STATE, form, form_len)
CALL(held, STATE)
CALL(position, STATE, position, places)
ASK(is_address, bytes[0])
ASK(header_of, bytes[0])
ASK(checksum, bytes, count)
ASK(pack_altitude, numbers[0])
ASK(baro_decimetres, channels[0])
ASK(gps_metres, channels[0])
CALL(channel_microseconds, channels[0], bits, room % 2)
CALL(raw_view, bytes, count % 9)
CALL(write_link_statistics, buffer, room, dest, 1, 2, 3, 4, 5, 6, 7, 8, 9, 10)
CALL(write_rc_channels_packed, buffer, room, dest, channels, count % 17)
CALL(write_rc_channels_burst, burst, burst_room, dest, sets, sets_len, count % (CRSF_BURST_SETS_MAX + 2))
CALL(write_gps, buffer, room, dest, 1, 2, 3, 4, 5, 6)
CALL(write_gps_extended, buffer, room, dest, 1, 2, 3, 4, 5, 6, 7, 8, 9, 10, 11, 12)
CALL(write_battery, buffer, room, dest, 1, 2, (uint32_t)numbers[0] >> count % 32, 4, bytes[0])
CALL(write_baro_altitude, buffer, room, dest, 1, 2)
CALL(write_rpm, buffer, room, dest, 1, numbers, count % 21)
CALL(write_temp, buffer, room, dest, 1, temperatures, count % (CRSF_TEMPERATURES_MAX + 2))
CALL(write_voltages, buffer, room, dest, 1, voltages, count % (CRSF_VOLTAGE_VALUES_MAX + 2))
CALL(read_link_statistics, bytes, count, numbers, room % 21)
CALL(read_rc_channels_packed, bytes, count, channels, room % 17)
CALL(read_gps, bytes, count, numbers, room % 21)
CALL(read_gps_extended, bytes, count, numbers, room % 21)
CALL(read_battery, bytes, count, numbers, room % 21)
CALL(read_baro_altitude, bytes, count, numbers, room % 21)
CALL(read_rpm, bytes, count, numbers, room % 21)
CALL(read_temp, bytes, count, temperatures, room % (CRSF_TEMPERATURES_MAX + 2))
CALL(read_voltages, bytes, count, voltages, room % (CRSF_VOLTAGE_VALUES_MAX + 2))
CALL(log_next, LOG_STATE, log_bytes, log_len, &seconds)
CALL(log_end, LOG_STATE)
CALL(log_reset, LOG_STATE)
CALL(log_start, buffer, room)
CALL(log_entry, (uint32_t)numbers[0], frame, frame_len, buffer, room)

#define ENTRY(name) {"crsf_" #name, call_##name, 0}
static struct {
    const char *name;
    void (*call)(void);
    size_t most;
} entries[] = {
    ENTRY(next_raw_packet), ENTRY(reset), ENTRY(save), ENTRY(restore), ENTRY(held), ENTRY(position),
    ENTRY(is_address), ENTRY(header_of), ENTRY(checksum), ENTRY(pack_altitude), ENTRY(baro_decimetres), ENTRY(gps_metres),
    ENTRY(channel_microseconds), ENTRY(raw_view),
    ENTRY(write_link_statistics), ENTRY(write_rc_channels_packed), ENTRY(write_rc_channels_burst), ENTRY(write_gps), ENTRY(write_gps_extended),
    ENTRY(write_battery), ENTRY(write_baro_altitude), ENTRY(write_rpm), ENTRY(write_temp), ENTRY(write_voltages),
    ENTRY(read_link_statistics), ENTRY(read_rc_channels_packed), ENTRY(read_gps), ENTRY(read_gps_extended), ENTRY(read_battery),
    ENTRY(read_baro_altitude), ENTRY(read_rpm), ENTRY(read_temp), ENTRY(read_voltages),
    ENTRY(log_next), ENTRY(log_end), ENTRY(log_reset), ENTRY(log_start), ENTRY(log_entry),
};
enum { ENTRIES = sizeof entries / sizeof *entries };

static void measure(void)
{
    for (size_t i = 0; i < ENTRIES; i++) {
        const size_t d = depth(entries[i].call, same);
        if (entries[i].most < d)
            entries[i].most = d;
    }
}

static unsigned noise(void)
{
    static uint64_t seed = 1;
    seed = seed * 6364136223846793005u + 1442695040888963407u;
    return (unsigned)(seed >> 40);
}

/* A log of one entry, right or with a byte changed, of which some bytes are read already; at times any bytes for a state. */
static void make_log(unsigned turn)
{
    uint8_t whole[1 + CRSF_LOG_ENTRY_MAX];
    frame_len = crsf_write_rpm(frame, sizeof frame, 0xC8, 1, numbers, 1 + turn % 19).len;
    const size_t n = 1 + crsf_log_entry((uint32_t)numbers[turn % 20] >> noise() % 32, frame, frame_len, whole + 1, sizeof whole - 1).len;
    whole[0] = 1;
    if (turn % 4 == 3)
        whole[noise() % n] = (uint8_t)noise();
    const size_t cut = turn % 3 ? noise() % n : 0;
    memset(&first_log_state, 0, sizeof first_log_state);
    crsf_log_read(&first_log_state, whole, cut, &seconds);
    log_len = n - cut;
    memcpy(log_bytes, whole + cut, log_len);
    if (turn % 13 == 0)
        memcpy(&first_log_state, bytes, sizeof first_log_state);
    if (turn % 7 == 0)
        frame[noise() % frame_len] ^= 1;
}

int main(void)
{
    /* Every count of payload bytes, held bytes and room: of frames, of noise, and of what is refused. */
    for (unsigned turn = 0; turn < 4000; turn++) {
        count = noise() % 130;
        room = turn % 3 ? 79 : noise() % 80;
        places = noise() % 2;
        dest = turn % 5 ? 0xC8 : (uint8_t)noise();
        for (size_t i = 0; i < sizeof bytes; i++)
            bytes[i] = turn % 2 ? (uint8_t)noise() : (uint8_t)(i % 7 ? i : 0xC8);
        for (size_t i = 0; i < 16; i++)
            channels[i] = (uint16_t)(noise() % (turn % 4 ? 2048 : 4096));
        for (size_t i = 0; i < sizeof sets / sizeof *sets; i++)
            sets[i] = (uint16_t)(turn % 4 || noise() % 64 ? noise() % 2048 : noise());
        sets_len = turn % 6 ? sizeof sets / sizeof *sets : noise() % (sizeof sets / sizeof *sets);
        burst_room = turn % 3 ? sizeof burst : noise() % sizeof burst;
        for (size_t i = 0; i < 20; i++)
            numbers[i] = (int32_t)(noise() * 331u);
        memcpy(temperatures, bytes, sizeof temperatures);
        memcpy(voltages, bytes, sizeof voltages);
        memset(&first_state, 0, sizeof first_state);
        first_state.start = turn % 7 ? (uint8_t)(noise() % 65) : 0;
        first_state.end = (uint8_t)(first_state.start + noise() % (65u - first_state.start));
        for (size_t i = 0; i < 64; i++)
            first_state.places[i] = bytes[255 - i];
        for (size_t i = 0; i < 8; i++)
            first_state.position[i] = (uint8_t)(turn % 4 == 0 ? 0 : turn % 4 == 1 && i < 7 ? 0xFF : noise());
        if (turn % 2) {
            /* A whole frame at the front, of which some bytes are held already. */
            crsf_answer w = crsf_write_rpm(bytes, sizeof bytes, 0xC8, 1, numbers, 1 + turn % 19);
            const size_t cut = turn % 3 ? noise() % w.len : 0;
            first_state.start = 0;
            first_state.end = (uint8_t)cut;
            memcpy(first_state.places, bytes, cut);
            memmove(bytes, bytes + cut, sizeof bytes - cut);
            count = turn % 11 ? w.len - cut : count;
        }
        /* Its form, as it is, without its position, and with a byte changed. */
        form_len = crsf_save_state(&first_state, form, sizeof form).len;
        if (turn % 5 == 0 && form_len > 0) {
            form_len = first_state.end - first_state.start + 1u;
            form[0] = (uint8_t)(form_len - 1);
        }
        if (turn % 5 == 1)
            form[noise() % sizeof form] = (uint8_t)noise();
        make_log(turn);
        measure();
    }
    for (size_t i = 0; i < ENTRIES; i++) {
        if (SIZE / 2 < entries[i].most)
            return 1; /* not enough was painted to tell */
        printf("%s %zu\n", entries[i].name, entries[i].most);
    }
    return 0;
}
