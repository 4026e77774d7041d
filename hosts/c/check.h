/* What the tests in C share: a check that stops at the first difference, an answer by its eight bytes and one with a position, the addresses, the check
 * byte bit by bit, and numbers that are no better than noise. */
#ifndef CHECK_H
#define CHECK_H

#include "crsf.h"

#include <stdio.h>
#include <stdlib.h>
#include <string.h>

static unsigned checks;

#define CHECK(what)                                                                  \
    do {                                                                             \
        checks++;                                                                    \
        if (!(what)) {                                                               \
            printf("%s:%d: not so: %s\n", __FILE__, __LINE__, #what);                \
            exit(1);                                                                 \
        }                                                                            \
    } while (0)

/* An answer by its eight bytes. */
static inline int is(crsf_answer a, uint8_t number, uint8_t taken, uint8_t in_state, uint8_t at, uint8_t len, uint8_t first, uint8_t second)
{
    return a.number == number && a.taken == taken && a.in_state == in_state && a.at == at && a.len == len && a.first == first
        && a.second == second && a.zero == 0;
}

static inline int refusal(crsf_answer a, uint8_t number)
{
    return is(a, number, 0, 0, 0, 0, 0, 0);
}

static inline int count(crsf_answer a, uint8_t len)
{
    return is(a, CRSF_OK, 0, 0, 0, len, 0, 0);
}

/* An answer with a position. */
static inline int is_at(crsf_call a, uint64_t position, uint8_t number, uint8_t taken, uint8_t in_state, uint8_t at, uint8_t len, uint8_t first,
                        uint8_t second)
{
    const crsf_answer answer = {a.number, a.taken, a.in_state, a.at, a.len, a.first, a.second, a.zero};
    return a.position == position && is(answer, number, taken, in_state, at, len, first, second);
}

/* More is asked for, and so many bytes were taken; or the call is refused, and none were. Neither speaks of a position. */
static inline int asks_more(crsf_call a, uint8_t taken)
{
    return is_at(a, 0, CRSF_MORE, taken, 0, 0, 0, 0, 0);
}

static inline int call_refused(crsf_call a, uint8_t number)
{
    return is_at(a, 0, number, 0, 0, 0, 0, 0, 0);
}

/* Whether a byte is an address (RULES 3.1): nothing of the archive is asked, here and for the check byte. */
static inline bool listed(uint8_t byte)
{
    static const uint8_t addresses[] = {0x00, 0x0E, 0x10, 0x12, 0x13, 0x14, 0x80, 0x90, 0x91, 0x92, 0x93, 0x94,
                                        0x95, 0x96, 0x97, 0xC0, 0xC2, 0xC4, 0xC8, 0xCC, 0xCE, 0xEA, 0xEC, 0xEE};
    return memchr(addresses, byte, sizeof addresses) != NULL;
}

/* The check byte, bit by bit (RULES 4.5). */
static inline uint8_t check_byte(const uint8_t *bytes, size_t n)
{
    unsigned rest = 0;
    for (size_t i = 0; i < n; i++) {
        rest ^= bytes[i];
        for (int bit = 0; bit < 8; bit++)
            rest = rest & 0x80 ? (rest << 1 ^ 0xD5) & 0xFF : rest << 1;
    }
    return (uint8_t)rest;
}

/* 24 bits, the same ones each time that a test is run. */
static inline unsigned noise(void)
{
    static uint64_t seed = 1;
    seed = seed * 6364136223846793005u + 1442695040888963407u;
    return (unsigned)(seed >> 40);
}

#endif
