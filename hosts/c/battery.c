/*
 * Batteries written from C, against a plain model: what is answered and what then stands in the buffer, from the rules alone. Nothing of the archive is
 * asked for what is expected. Prints what it ran, and stops at the first difference.
 */
#include "check.h"

/* A battery by its numbers. */
typedef struct battery {
    int16_t voltage, current;
    uint32_t capacity_used;
    uint8_t remaining, id;
} battery;

enum { BATTERY_BUFFER = 300, BATTERY_BESIDE = 16 };

/* Writes a battery, and compares with what the rules say (RULES 1.2, 2, 4 and 10.7), in their own numbers: the eight bytes of the answer, every byte of
 * the buffer, and the bytes on both sides of it. What was written is one frame, and its payload is read as the same battery. */
static void battery_writes(const battery *r, uint8_t dest, size_t lent)
{
    uint8_t want[BATTERY_BESIDE + BATTERY_BUFFER + BATTERY_BESIDE], got[sizeof want], said[8] = {0};
    const uint8_t before = (uint8_t)noise(), n = r->id ? 13 : 12;
    memset(want, before, sizeof want);
    memset(got, before, sizeof got);
    if (!listed(dest))
        said[0] = 7;
    else if (r->capacity_used > 16777215)
        said[0] = 11;
    else if (lent < n)
        said[0] = 5;
    else {
        const unsigned volts = (uint16_t)r->voltage, amperes = (uint16_t)r->current, used = r->capacity_used;
        const uint8_t front[] = {dest, n - 2, 0x08, volts / 256, volts % 256, amperes / 256, amperes % 256,
                                 used / 65536, used / 256 % 256, used % 256, r->remaining, r->id};
        uint8_t *frame = want + BATTERY_BESIDE;
        memcpy(frame, front, n - 1u);
        frame[n - 1] = check_byte(frame + 2, n - 3u);
        said[4] = n;
    }
    const uint8_t *frame = got + BATTERY_BESIDE;
    const crsf_answer a = crsf_write_battery(got + BATTERY_BESIDE, lent, dest, r->voltage, r->current, r->capacity_used, r->remaining, r->id);
    CHECK(memcmp(&a, said, sizeof said) == 0);
    CHECK(memcmp(got, want, sizeof want) == 0);
    if (said[0] == 0) {
        crsf_state state = {0};
        int32_t back[6] = {0, 0, 0, 0, 0, 0x77777777};
        CHECK(is_at(crsf_next(&state, frame, n), 0, 0, n, 0, 0, n, 0, 0));
        CHECK(count(crsf_read_battery(frame + 3, n - 4u, back, 5), 5) && back[5] == 0x77777777);
        CHECK(back[0] == r->voltage && back[1] == r->current && (uint32_t)back[2] == r->capacity_used);
        CHECK(back[3] == r->remaining && back[4] == r->id);
    }
}

/* A capacity, with an id and without one, to addresses and to other bytes, in buffers of these lengths. */
static void battery_of(uint32_t capacity, const uint8_t *to, size_t to_len, size_t shortest, size_t longest)
{
    const int16_t extremes[] = {0, 1, -1, 120, 255, 256, 32767, -32768};
    const uint8_t ids[] = {0, 5, 255};
    for (size_t i = 0; i < sizeof ids; i++)
        for (size_t j = 0; j < to_len; j++)
            for (size_t lent = shortest; lent <= longest; lent++) {
                battery r = {0, 0, capacity, (uint8_t)noise(), ids[i]};
                r.voltage = lent % 2 ? (int16_t)noise() : extremes[noise() % 8];
                r.current = lent % 2 ? (int16_t)noise() : extremes[noise() % 8];
                battery_writes(&r, to[j], lent);
            }
}

/* A battery's capacity has 24 bits: each number around a power of two, and many others, in each buffer of 0 to 16 bytes; those at the edges also to
 * each of the 256 destinations, and in each buffer of up to 300 bytes. */
static void each_capacity(void)
{
    const uint32_t edges[] = {0, 1, 0xFFFFFE, 0xFFFFFF, 0x1000000, 0x1000001, 0x2000000, 0x7FFFFFFF, 0x80000000, 0xFFFFFFFF};
    const uint8_t some[] = {0xC8, 0x00, 0xC9, 0xFF};
    uint8_t all[256];
    for (unsigned byte = 0; byte < 256; byte++)
        all[byte] = (uint8_t)byte;
    for (size_t i = 0; i < sizeof edges / sizeof *edges; i++) {
        battery_of(edges[i], all, sizeof all, 0, 16);
        battery_of(edges[i], some, sizeof some, 17, BATTERY_BUFFER);
    }
    for (unsigned bit = 0; bit < 32; bit++)
        for (unsigned less = 0; less <= 2; less++)
            battery_of(((uint32_t)1 << bit) + 1 - less, some, sizeof some, 0, 16);
    for (unsigned turn = 0; turn < 3000; turn++) {
        uint32_t capacity = noise() << 8;
        capacity ^= noise();
        if (turn % 3 == 1)
            capacity >>= noise() % 32;
        else if (turn % 3 == 2)
            capacity = 0x1000000 - 500 + capacity % 1000;
        battery_of(capacity, some, sizeof some, 0, 16);
    }
    uint8_t frame[13];
    CHECK(count(crsf_write_battery(frame, 13, 0xC8, 1, 2, CRSF_CAPACITY_MAX, 3, 4), 13));
    CHECK(refusal(crsf_write_battery(frame, 13, 0xC8, 1, 2, (uint32_t)CRSF_CAPACITY_MAX + 1, 3, 4), CRSF_CAPACITY_RANGE));
    CHECK(refusal(crsf_write_battery(NULL, 0, 0xC9, 1, 2, 0x1000000, 3, 4), 7));
    CHECK(refusal(crsf_write_battery(NULL, 0, 0xC8, 1, 2, 0x1000000, 3, 4), 11));
    CHECK(refusal(crsf_write_battery(NULL, 0, 0xC8, 1, 2, 0xFFFFFF, 3, 4), 5));
}

int main(void)
{
    each_capacity();
    printf("C: %u checks of batteries written hold\n", checks);
    return 0;
}
