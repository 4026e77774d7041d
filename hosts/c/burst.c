/*
 * Bursts of channel frames written from C, against a plain model: what is answered and what then stands in the buffer, from the rules alone. Nothing of
 * the archive is asked for what is expected. Prints what it ran, and stops at the first difference.
 */
#include "check.h"

enum { SETS = 8, SET = 16, PLACES = SETS * SET, FRAME = 26, NUMBERS = 400, BUFFER = 300, BESIDE = 16, WORD = 8 * sizeof(size_t) };

/* The numbers that a burst is made of, more than any burst looks at. */
static uint16_t numbers[NUMBERS];

static void fill(uint16_t number)
{
    for (size_t i = 0; i < NUMBERS; i++)
        numbers[i] = number;
}

static void fill_with_noise(void)
{
    for (size_t i = 0; i < NUMBERS; i++)
        numbers[i] = (uint16_t)(noise() % 2048);
}

/* The frame of a set (RULES 4 and 10.10), its payload bit by bit. */
static void model_frame(uint8_t *frame, uint8_t dest, const uint16_t *set)
{
    const uint8_t head[] = {dest, 24, 0x16};
    memset(frame, 0, FRAME);
    memcpy(frame, head, sizeof head);
    for (unsigned bit = 0; bit < 11 * SET; bit++)
        if (set[bit / 11] >> bit % 11 & 1)
            frame[3 + bit / 8] |= (uint8_t)(1 << bit % 8);
    frame[FRAME - 1] = check_byte(frame + 2, FRAME - 3);
}

/* What was written, the bytes of as many sets: what as many calls of the writer of one set write to the same places, and a stream of just their frames,
 * in their order, with nothing held. */
static void burst_is_frames(const uint8_t *bytes, uint8_t dest, size_t sets)
{
    uint8_t singly[SETS * FRAME];
    crsf_state state = {0};
    for (size_t i = 0; i < sets; i++) {
        uint16_t back[SET + 1] = {0};
        back[SET] = 0x7777;
        CHECK(count(crsf_write_rc_channels_packed(singly + i * FRAME, (sets - i) * FRAME, dest, numbers + i * SET, SET), FRAME));
        CHECK(is_at(crsf_next(&state, bytes + i * FRAME, (sets - i) * FRAME), i * FRAME, 0, FRAME, 0, 0, FRAME, 0, 0));
        CHECK(count(crsf_read_rc_channels_packed(bytes + i * FRAME + 3, FRAME - 4, back, SET + 1), SET) && back[SET] == 0x7777);
        CHECK(memcmp(back, numbers + i * SET, SET * sizeof *back) == 0);
    }
    CHECK(memcmp(bytes, singly, sets * FRAME) == 0);
    CHECK(asks_more(crsf_next(&state, bytes, 0), 0) && count(crsf_held_count(&state), 0));
}

/* Writes a burst of the first numbers, of which so many are given, and compares with what the rules say, in their own numbers: the eight bytes of the
 * answer, every byte of the buffer, the bytes on both sides of it, and the numbers, which stay. */
static void burst_writes(uint8_t dest, size_t given, size_t sets, size_t lent)
{
    static uint16_t kept[NUMBERS];
    uint8_t want[BESIDE + BUFFER + BESIDE], got[sizeof want], said[8] = {0};
    const uint8_t before = (uint8_t)noise();
    memset(want, before, sizeof want);
    memset(got, before, sizeof got);
    memcpy(kept, numbers, sizeof numbers);
    if (!listed(dest))
        said[0] = 7;
    else if (sets > 8 || given < 16 * sets)
        said[0] = 4;
    else {
        size_t place = 0;
        while (place < 16 * sets && numbers[place] <= 2047)
            place++;
        if (place < 16 * sets) {
            said[0] = 6;
            said[5] = (uint8_t)(place / 16);
            said[6] = (uint8_t)(place % 16);
        } else if (lent < 26 * sets)
            said[0] = 5;
        else {
            for (size_t i = 0; i < sets; i++)
                model_frame(want + BESIDE + 26 * i, dest, numbers + 16 * i);
            said[4] = (uint8_t)(26 * sets);
        }
    }
    const crsf_answer a = crsf_write_rc_channels_burst(got + BESIDE, lent, dest, numbers, given, sets);
    CHECK(memcmp(&a, said, sizeof said) == 0);
    CHECK(memcmp(got, want, sizeof want) == 0);
    CHECK(memcmp(numbers, kept, sizeof numbers) == 0);
    if (said[0] == 0)
        burst_is_frames(got + BESIDE, dest, sets);
    else if (said[0] == 6)
        CHECK(is(crsf_write_rc_channels_packed(got + BESIDE, lent, dest, numbers + 16 * said[5], 16), 6, 0, 0, 0, 0, said[6], 0));
}

/* Few and many numbers around those that so many sets have, in short and long buffers around what they need, to addresses and to other bytes. A count
 * that is refused has what 0 and 1 sets have too: what its products are where these wrap. */
static void burst_around(size_t sets)
{
    const uint8_t to[] = {0xC8, 0x00, 0xC9, 0xFF};
    const size_t few = sets <= SETS ? sets : SETS;
    const size_t given[] = {0, 1, 15, 16, 17, few * SET - (few > 0), few * SET, few * SET + 1, few * SET + SET, 256, NUMBERS};
    const size_t lent[] = {0, 1, 25, 26, 27, few * FRAME - (few > 0), few * FRAME, few * FRAME + 1, SETS * FRAME, SETS * FRAME + 1, BUFFER};
    for (size_t i = 0; i < sizeof to; i++)
        for (size_t j = 0; j < sizeof given / sizeof *given; j++)
            for (size_t k = 0; k < sizeof lent / sizeof *lent; k++)
                burst_writes(to[i], given[j], sets, lent[k]);
}

/* Each count of 0 to 300; each power of two, the numbers around it, and those around what 16, 26, 32 and 416 times them do not fit a word any more. With
 * good numbers, and with one above 2047 in the first set, in the eighth and in the ninth. */
static void each_count(void)
{
    const size_t bad[] = {0, 15, PLACES - 1, PLACES};
    const size_t turns[] = {16, 26, 32, 416};
    for (size_t turn = 0; turn <= sizeof bad / sizeof *bad; turn++) {
        fill_with_noise();
        if (turn > 0)
            numbers[bad[turn - 1]] = 2048;
        for (size_t sets = 0; sets <= 300; sets++)
            burst_around(sets);
        for (unsigned bit = 4; bit < WORD; bit++)
            for (size_t more = 0; more <= 10; more++)
                burst_around(((size_t)1 << bit) + more - 1);
        for (size_t i = 0; i < sizeof turns / sizeof *turns; i++)
            for (size_t more = 0; more <= 10; more++)
                burst_around(SIZE_MAX / turns[i] + more);
        for (size_t less = 0; less <= 10; less++)
            burst_around(SIZE_MAX - less);
    }
}

/* Each buffer of 0 to 300 bytes, for each count, of numbers that are just enough and of more. */
static void each_buffer(void)
{
    for (size_t sets = 0; sets <= SETS + 1; sets++)
        for (size_t lent = 0; lent <= BUFFER; lent++)
            for (size_t more = 0; more <= 1; more++) {
                fill_with_noise();
                burst_writes(0xC8, sets * SET + more * (noise() % 100), sets, lent);
            }
}

/* Each of the 256 destinations, for each count, with good numbers and bad ones, enough and too few, in a buffer that is long enough, too short and
 * empty. */
static void each_destination(void)
{
    for (unsigned dest = 0; dest < 256; dest++)
        for (size_t sets = 0; sets <= SETS + 1; sets++)
            for (unsigned bad = 0; bad <= 1; bad++) {
                fill_with_noise();
                if (bad)
                    numbers[noise() % PLACES] = 2048;
                for (size_t less = 0; less <= (sets > 0); less++) {
                    burst_writes((uint8_t)dest, sets * SET - less, sets, BUFFER);
                    burst_writes((uint8_t)dest, sets * SET - less, sets, sets * FRAME);
                    burst_writes((uint8_t)dest, sets * SET - less, sets, sets * FRAME - (sets > 0));
                    burst_writes((uint8_t)dest, sets * SET - less, sets, 0);
                }
            }
}

/* One channel of its own at each place, also past the sets that are written: above 2047 it is refused where its set is written, and nowhere else; 2047
 * among zeros, and 0 among others, have their own bits. */
static void each_place(void)
{
    const uint16_t values[] = {0, 1, 1024, 2047, 2048, 2049, 4095, 4096, 32767, 32768, 65535};
    for (size_t place = 0; place < PLACES + SET; place++)
        for (size_t i = 0; i < sizeof values / sizeof *values; i++)
            for (size_t sets = 0; sets <= SETS; sets++)
                for (unsigned around = 0; around < 3; around++) {
                    if (around < 2)
                        fill(around ? 2047 : 0);
                    else
                        fill_with_noise();
                    numbers[place] = values[i];
                    burst_writes(0xC8, sets * SET, sets, sets * FRAME);
                    burst_writes(0xC8, NUMBERS, sets, BUFFER);
                    burst_writes(0xC8, sets * SET, sets, sets * FRAME - (sets > 0));
                    burst_writes(0xC8, sets * SET, sets, 0);
                }
}

/* Two channels above 2047, at each pair of places: the first one is named, whichever is greater. */
static void each_two(void)
{
    for (size_t one = 0; one < PLACES; one++)
        for (size_t other = one + 1; other < PLACES + 1; other++) {
            fill_with_noise();
            numbers[one] = noise() % 2 ? 2048 : (uint16_t)(2048 + noise() % 63488);
            numbers[other] = noise() % 2 ? 2048 : (uint16_t)(2048 + noise() % 63488);
            burst_writes(0xC8, PLACES, SETS, noise() % 2 ? SETS * FRAME : noise() % BUFFER);
            burst_writes(0xC8, NUMBERS, noise() % (SETS + 1), BUFFER);
        }
}

/* Faults in every combination, whatever their number: the first in the order of the rules is given. */
static void each_order(void)
{
    const size_t counts[] = {0, 1, 2, 7, 8, 9, 10, 255, 256, 257, SIZE_MAX, SIZE_MAX / 16 + 1, SIZE_MAX / 16 + 2, SIZE_MAX / 2 + 1, SIZE_MAX / 2 + 2};
    for (size_t i = 0; i < sizeof counts / sizeof *counts; i++)
        for (unsigned address = 0; address <= 1; address++)
            for (unsigned few = 0; few <= 2; few++)
                for (unsigned bad = 0; bad <= 3; bad++)
                    for (unsigned cut = 0; cut <= 3; cut++) {
                        const size_t sets = counts[i], some = sets <= SETS + 1 ? sets : 1;
                        const size_t given[] = {some * SET, some * SET - (some > 0), 0};
                        const size_t lent[] = {BUFFER, some * FRAME, some * FRAME - (some > 0), 0};
                        const size_t places[] = {0, some * SET - (some > 0), some * SET};
                        fill_with_noise();
                        if (bad > 0)
                            numbers[places[bad - 1]] = noise() % 2 ? 2048 : 65535;
                        burst_writes(address ? 0xEE : 0xEF, given[few], sets, lent[cut]);
                    }
}

/* Any sets: to an address in three of four, of numbers and in a buffer that are mostly enough, with a channel above 2047 in one of four. */
static void any_burst(void)
{
    const uint8_t to[] = {0x00, 0x10, 0x80, 0x97, 0xC8, 0xEC};
    for (unsigned turn = 0; turn < 60000; turn++) {
        const size_t sets = noise() % (SETS + 2);
        fill_with_noise();
        for (unsigned bad = noise() % 4; bad == 3; bad = noise() % 4)
            numbers[noise() % (PLACES + SET)] = (uint16_t)noise();
        const uint8_t dest = noise() % 4 ? to[noise() % sizeof to] : (uint8_t)noise();
        const size_t given = noise() % 4 ? sets * SET + noise() % 40 : noise() % NUMBERS;
        const size_t lent = noise() % 4 ? sets * FRAME + noise() % 40 : noise() % BUFFER;
        burst_writes(dest, given, sets, lent);
    }
}

/* By hand, without the model. */
static void by_hand(void)
{
    const uint8_t two[] = {0xC8, 24, 0x16, 0xFF, 7, 0, 0, 0, 0, 0, 0, 0, 0, 0, 0, 0, 0, 0, 0, 0, 0, 0, 0, 0, 0, 0x03,
                           0xC8, 24, 0x16, 0, 0, 0, 0, 0, 0, 0, 0, 0, 0, 0, 0, 0, 0, 0, 0, 0, 0, 0, 0, 0xE0, 0xFF, 0xB7};
    uint8_t buffer[CRSF_BURST_MAX + 1];
    CHECK(CRSF_BURST_SETS_MAX == 8 && CRSF_BURST_MAX == 208);
    fill(0);
    numbers[0] = numbers[31] = 2047;
    numbers[32] = 2048;
    memset(buffer, 0xAA, sizeof buffer);
    CHECK(count(crsf_write_rc_channels_burst(buffer, 52, 0xC8, numbers, 32, 2), 52));
    CHECK(memcmp(buffer, two, sizeof two) == 0 && buffer[52] == 0xAA);
    CHECK(is(crsf_write_rc_channels_burst(buffer, 78, 0xC8, numbers, 48, 3), CRSF_CHANNEL_RANGE, 0, 0, 0, 0, 2, 0));
    numbers[32] = 2047;
    numbers[127] = 65535;
    CHECK(is(crsf_write_rc_channels_burst(buffer, 0, 0xC8, numbers, 128, CRSF_BURST_SETS_MAX), CRSF_CHANNEL_RANGE, 0, 0, 0, 0, 7, 15));
    numbers[127] = 2047;
    CHECK(refusal(crsf_write_rc_channels_burst(buffer, CRSF_BURST_MAX - 1, 0xC8, numbers, 128, CRSF_BURST_SETS_MAX), CRSF_BUFFER_OVERFLOW));
    CHECK(refusal(crsf_write_rc_channels_burst(buffer, sizeof buffer, 0xC8, numbers, 144, CRSF_BURST_SETS_MAX + 1), CRSF_INVALID_PAYLOAD_LENGTH));
    CHECK(memcmp(buffer, two, sizeof two) == 0 && buffer[52] == 0xAA);
    CHECK(count(crsf_write_rc_channels_burst(buffer, CRSF_BURST_MAX, 0xC8, numbers, 128, CRSF_BURST_SETS_MAX), CRSF_BURST_MAX));
    CHECK(memcmp(buffer, two, sizeof two) == 0 && buffer[52] == 0xC8 && buffer[182] == 0xC8 && buffer[208] == 0xAA);
    CHECK(count(crsf_write_rc_channels_burst(NULL, 0, 0xC8, NULL, 0, 0), 0));
    CHECK(refusal(crsf_write_rc_channels_burst(NULL, 0, 0xC9, NULL, 0, 0), 7));
    CHECK(refusal(crsf_write_rc_channels_burst(NULL, 0, 0xC9, NULL, 0, 9), 7));
    CHECK(refusal(crsf_write_rc_channels_burst(NULL, 0, 0xC8, NULL, 0, 1), 4));
    CHECK(refusal(crsf_write_rc_channels_burst(NULL, 0, 0xC8, NULL, 0, 9), 4));
    CHECK(refusal(crsf_write_rc_channels_burst(NULL, 0, 0xC8, NULL, 0, (size_t)1 << (WORD - 1)), 4));
    CHECK(refusal(crsf_write_rc_channels_burst(NULL, 0, 0xC8, numbers, 16, 1), 5));
}

int main(void)
{
    by_hand();
    each_count();
    each_buffer();
    each_destination();
    each_place();
    each_two();
    each_order();
    any_burst();
    printf("C: %u checks of bursts written hold\n", checks);
    return 0;
}
