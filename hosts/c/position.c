/*
 * The stream and its positions from C, against a plain model: what each entry of the state answers, and what then stands in the state, in a saved form
 * and in the places for a position, from the rules alone. Nothing of the archive is asked for what is expected. Prints what it ran, and stops at the
 * first difference.
 */
#define _DEFAULT_SOURCE /* for a mapping without a file */
#include "check.h"

#include <sys/mman.h>

enum { STATE = 74, AT = 66, LONGEST = 100, BESIDE = 16, LENT = BESIDE + LONGEST + BESIDE, SLOTS = 3 };
static const uint64_t TOP = UINT64_MAX;

/* ---- The model */

/* What a state's bytes say. */
typedef struct parser {
    uint64_t position;
    size_t held;
    uint8_t bytes[64 + 64];
} parser;

static bool is_state(const uint8_t *state, size_t n)
{
    return n == STATE && state[0] <= state[1] && state[1] <= 64;
}

static parser parser_of(const uint8_t *state)
{
    parser p = {0, (size_t)(state[1] - state[0]), {0}};
    memcpy(p.bytes, state + 2 + state[0], p.held);
    for (size_t i = AT; i < STATE; i++)
        p.position = p.position * 256 + state[i];
    return p;
}

static void put_position(uint8_t *state, uint64_t position)
{
    for (size_t i = STATE; i-- > AT; position /= 256)
        state[i] = (uint8_t)(position % 256);
}

/* Whether the position behind so many bytes is above 2^64 - 1. */
static bool beyond(uint64_t position, size_t n)
{
    return n > TOP - position;
}

/* The first answer of some bytes (RULES 5): what it carries, by how many of them it was judged, and how many it drops. */
typedef struct answer {
    uint8_t number, first, second;
    size_t judged, drops;
} answer;

static answer first_answer(const uint8_t *s, size_t n)
{
    const answer more = {255, 0, 0, 0, 0};
    if (n == 0)
        return more;
    if (!listed(s[0]))
        return (answer){1, s[0], 0, 1, 1};
    if (n == 1)
        return more;
    if (s[1] < 2 || s[1] > 62)
        return (answer){2, s[1], 0, 2, 1};
    const size_t size = s[1] + 2u;
    if (n < size)
        return more;
    const uint8_t check = check_byte(s + 2, size - 3);
    if (check != s[size - 1])
        return (answer){3, check, s[size - 1], size, 1};
    return (answer){0, 0, 0, size, size};
}

/* The saved form of a position and held bytes; its length. */
static size_t form_of(uint8_t *form, uint64_t position, const uint8_t *bytes, size_t held)
{
    size_t n = 0;
    form[n++] = 0x40;
    for (; position >= 128; position /= 128)
        form[n++] = (uint8_t)(128 + position % 128);
    form[n++] = (uint8_t)position;
    form[n++] = (uint8_t)held;
    memcpy(form + n, bytes, held);
    return n + held;
}

/* Whether a form says anything, and what. One with a position is read as it comes, and has to be the form that is written of what was read. */
static bool form_says(const uint8_t *form, size_t n, parser *p)
{
    uint8_t again[LONGEST];
    size_t at = 0;
    p->position = 0;
    if (n > 0 && form[0] == 0x40) {
        uint64_t unit = 1;
        do {
            if (++at == n)
                return false;
            p->position += form[at] % 128 * unit;
            unit *= 128;
        } while (form[at] >= 128);
        at++;
    }
    if (at == n || form[at] > 63 || n - at - 1 != form[at])
        return false;
    p->held = form[at];
    memcpy(p->bytes, form + at + 1, p->held);
    if (at > 0 && (form_of(again, p->position, p->bytes, p->held) != n || memcmp(again, form, n) != 0))
        return false;
    return !beyond(p->position, p->held);
}

/* ---- The entries beside it */

/* Two copies of what is lent, with the same bytes on both sides. */
static void lend(uint8_t *got, uint8_t *want, const uint8_t *bytes, size_t n)
{
    memset(want, (int)(noise() % 256), LENT);
    memcpy(want + BESIDE, bytes, n);
    memcpy(got, want, LENT);
}

/* A call on a parser that is not refused with 8 or 12 (RULES 6): the eight bytes that it says, but for a frame's place in the state. The parser is
 * what it was, with the input behind its bytes; how many of them it then holds, behind those that the answer drops, comes back. */
static size_t goes_on(parser *p, answer *a, const uint8_t *input, size_t input_len, uint8_t *said)
{
    const size_t seen = input_len < 64 ? input_len : 64;
    if (seen > 0)
        memcpy(p->bytes + p->held, input, seen);
    *a = first_answer(p->bytes, p->held + seen);
    size_t taken = a->judged > p->held ? a->judged - p->held : 0;
    if (a->number == 255)
        taken = input_len;
    else if (p->held == 0)
        taken = a->drops;
    const bool frame = a->number == 0;
    const uint8_t eight[] = {a->number, (uint8_t)taken, frame && p->held > 0, 0, frame ? (uint8_t)a->judged : 0, a->first, a->second, 0};
    memcpy(said, eight, sizeof eight);
    return p->held + taken - a->drops;
}

/* One call of the stream, also through the wrapper: the answer, the state, the places for a position, and the bytes on both sides. The state is then
 * what the call left. */
static crsf_answer next_is(uint8_t *state, size_t n, const uint8_t *input, size_t input_len, size_t slots)
{
    uint8_t got[LENT], want[LENT], said[8] = {0}, *after = got + BESIDE;
    uint64_t places[1 + SLOTS + 1], wanted[1 + SLOTS + 1];
    const uint64_t before = noise() * (TOP / 0x1000000);
    const bool valid = is_state(state, n);
    const parser was = valid ? parser_of(state) : (parser){0, 0, {0}};
    const bool range = valid && (beyond(was.position, was.held) || beyond(was.position + was.held, input_len));
    parser p = was;
    answer model = {0, 0, 0, 0, 0};
    size_t held = 0;
    if (!valid || range)
        said[0] = valid ? 12 : 8;
    else
        held = goes_on(&p, &model, input, input_len, said);
    const bool answers = said[0] <= 3;
    for (size_t i = 0; i < 1 + SLOTS + 1; i++)
        places[i] = wanted[i] = before;
    if (answers && slots > 0)
        wanted[1] = was.position;

    lend(got, want, state, n);
    const crsf_answer a = crsf_next_raw_packet(after, n, input, input_len, places + 1, slots);
    if (said[2] == 1) {
        CHECK(a.at >= 2 && a.at + said[4] <= AT && memcmp(after + a.at, p.bytes, said[4]) == 0);
        said[3] = a.at;
    }
    CHECK(memcmp(&a, said, sizeof said) == 0);
    CHECK(memcmp(places, wanted, sizeof places) == 0);
    if (valid && !range) {
        CHECK(is_state(after, n));
        const parser now = parser_of(after);
        CHECK(now.position == was.position + model.drops && now.held == held && memcmp(now.bytes, p.bytes + model.drops, held) == 0);
        memcpy(want + BESIDE, after, n); /* where the held bytes stand, and what is beside them there, is free */
    }
    CHECK(memcmp(got, want, sizeof got) == 0);
    if (n == STATE) {
        crsf_state s;
        memcpy(&s, state, n);
        const crsf_call c = crsf_next(&s, input, input_len);
        CHECK(memcmp(&c, &a, sizeof a) == 0 && c.position == (answers ? was.position : 0) && memcmp(&s, after, n) == 0);
        if (said[0] == 0)
            CHECK(memcmp(crsf_frame_bytes(&s, input, c), p.bytes, c.len) == 0);
    }
    memcpy(state, after, n);
    return a;
}

static void reset_is(uint8_t *state, size_t n)
{
    uint8_t got[LENT], want[LENT];
    lend(got, want, state, n);
    if (n == STATE) {
        want[BESIDE] = want[BESIDE + 1] = 0;
        put_position(want + BESIDE, 0);
        CHECK(count(crsf_reset(got + BESIDE, n), 0));
    } else
        CHECK(refusal(crsf_reset(got + BESIDE, n), 8));
    CHECK(memcmp(got, want, sizeof got) == 0);
    memcpy(state, got + BESIDE, n);
}

/* The saved form into so many bytes; it is returned in out, with its length, which is 0 where the save is refused. */
static size_t save_is(const uint8_t *state, size_t n, uint8_t *out, size_t lent)
{
    uint8_t got[LENT], want[LENT], blank[LONGEST], form[LONGEST];
    memset(blank, (int)(noise() % 256), sizeof blank);
    lend(got, want, blank, lent);
    const crsf_answer a = crsf_save(state, n, got + BESIDE, lent);
    const parser p = is_state(state, n) ? parser_of(state) : (parser){0, 64, {0}};
    size_t len = p.held < 64 ? form_of(form, p.position, p.bytes, p.held) : 0;
    if (p.held == 64 || beyond(p.position, p.held)) {
        CHECK(refusal(a, 8));
        len = 0;
    } else if (lent < len) {
        CHECK(refusal(a, 5));
        len = 0;
    } else {
        CHECK(count(a, (uint8_t)len));
        memcpy(want + BESIDE, form, len);
        memcpy(out, form, len);
    }
    CHECK(memcmp(got, want, sizeof got) == 0);
    return len;
}

static bool restore_is(uint8_t *state, size_t n, const uint8_t *form, size_t form_len)
{
    uint8_t got[LENT], want[LENT];
    parser p;
    const bool says = n == STATE && form_says(form, form_len, &p);
    lend(got, want, state, n);
    const crsf_answer a = crsf_restore(got + BESIDE, n, form, form_len);
    if (says) {
        CHECK(count(a, (uint8_t)p.held));
        want[BESIDE] = 0;
        want[BESIDE + 1] = (uint8_t)p.held;
        memcpy(want + BESIDE + 2, p.bytes, p.held);
        put_position(want + BESIDE, p.position);
    } else
        CHECK(refusal(a, 8));
    CHECK(memcmp(got, want, sizeof got) == 0);
    memcpy(state, got + BESIDE, n);
    return says;
}

/* What a state is asked: how many bytes it holds and where it is, into 0 to 3 places. */
static void asks(const uint8_t *state, size_t n)
{
    const bool valid = is_state(state, n);
    const parser p = valid ? parser_of(state) : (parser){0, 0, {0}};
    const crsf_answer held = crsf_held(state, n);
    CHECK(valid ? count(held, (uint8_t)p.held) : refusal(held, 8));
    for (size_t slots = 0; slots <= SLOTS; slots++) {
        uint64_t places[1 + SLOTS + 1] = {7, 7, 7, 7, 7}, wanted[1 + SLOTS + 1] = {7, 7, 7, 7, 7};
        const crsf_answer a = crsf_position(state, n, places + 1, slots);
        CHECK(valid && slots > 0 ? count(a, 1) : refusal(a, valid ? 5 : 8));
        if (valid && slots > 0)
            wanted[1] = p.position;
        CHECK(memcmp(places, wanted, sizeof places) == 0);
    }
    if (n == STATE) {
        crsf_state s;
        memcpy(&s, state, n);
        CHECK(valid ? is_at(crsf_position_of(&s), p.position, 0, 0, 0, 0, 1, 0, 0) : call_refused(crsf_position_of(&s), 8));
    }
}

/* Every entry on the same state. */
static void each_entry(const uint8_t *state, size_t n, const uint8_t *input, size_t input_len)
{
    uint8_t copy[LONGEST], form[LONGEST];
    asks(state, n);
    for (size_t slots = 0; slots <= SLOTS; slots++) {
        memcpy(copy, state, n);
        next_is(copy, n, input, input_len, slots);
    }
    const size_t len = save_is(state, n, form, LONGEST);
    if (len > 0) {
        CHECK(len <= CRSF_SAVED_MAX);
        save_is(state, n, form, len);
        save_is(state, n, form, len - 1);
        memset(copy, 0xEE, sizeof copy);
        CHECK(restore_is(copy, n, form, len));
    }
    save_is(state, n, form, 0);
    memcpy(copy, state, n);
    restore_is(copy, n, (const uint8_t[]){2, 0xC8, 0x3E}, 3);
    memcpy(copy, state, n);
    restore_is(copy, n, (const uint8_t[]){0x40, 0x85, 1, 2, 0xC8, 0x3E}, 6);
    memcpy(copy, state, n);
    reset_is(copy, n);
}

/* ---- What they are run on */

static uint8_t bytes[600];

static void fill_with_noise(uint8_t *to, size_t n)
{
    for (size_t i = 0; i < n; i++)
        to[i] = (uint8_t)noise();
}

/* A frame of this size. */
static void put_frame(uint8_t *to, size_t size)
{
    const uint8_t addresses[] = {0xC8, 0x00, 0xEA, 0x13};
    to[0] = addresses[noise() % 4];
    to[1] = (uint8_t)(size - 2);
    fill_with_noise(to + 2, size - 3);
    to[size - 1] = check_byte(to + 2, size - 3);
}

/* Frames, frames with a wrong check byte, wrong lengths, waiting ones, and noise. */
static size_t make_stream(void)
{
    size_t n = 0;
    while (n < 500 && noise() % 16) {
        const size_t size = 4 + noise() % 61;
        const unsigned kind = noise() % 6;
        put_frame(bytes + n, size);
        if (kind == 2)
            bytes[n + size - 1] ^= (uint8_t)(1 + noise() % 255);
        if (kind == 3)
            bytes[n + 1] = (uint8_t)(noise() % 2 ? 62 : 63 + noise() % 193);
        if (kind == 4)
            fill_with_noise(bytes + n, size);
        n += kind == 5 ? 1 + noise() % size : size;
    }
    return n;
}

static void put_state(uint8_t *state, size_t start, size_t held, uint64_t position)
{
    fill_with_noise(state, AT);
    state[0] = (uint8_t)start;
    state[1] = (uint8_t)(start + held);
    put_position(state, position);
}

/* 0; each power of two and the numbers beside it, so that each count of groups begins and ends; and the last ones. */
enum { EDGES = 1 + 3 * 64 + 70 };

static uint64_t edge(size_t i)
{
    if (i == 0)
        return 0;
    if (i <= 3 * 64)
        return ((uint64_t)1 << (i - 1) / 3) + (i - 1) % 3 - 1;
    return TOP - (i - 3 * 64 - 1);
}

/* The input that comes behind so many held bytes, and those in the state: a frame's, and of each fourth noise. */
static const uint8_t *put_held(uint8_t *state, size_t held)
{
    static uint8_t all[64 + 200];
    fill_with_noise(all, sizeof all);
    if (noise() % 4)
        put_frame(all, 4 + noise() % 61);
    memcpy(state + 2 + state[0], all, held);
    return all + held;
}

/* Every entry, on every edge with every count of held bytes. */
static void each_edge(void)
{
    uint8_t state[STATE];
    for (size_t i = 0; i < EDGES; i++)
        for (size_t held = 0; held <= 64; held++) {
            put_state(state, noise() % (65 - held), held, edge(i));
            each_entry(state, STATE, put_held(state, held), noise() % 65);
        }
}

/* Every count of held bytes and of the input, with the position behind them from three short of the last one to three above it. */
static void each_end(void)
{
    uint8_t state[STATE];
    const size_t longer[] = {100, 127, 128, 129, 199, 200};
    for (size_t held = 0; held <= 64; held++)
        for (size_t i = 0; i <= 70 + sizeof longer / sizeof *longer; i++)
            for (size_t end = 0; end <= 6; end++) {
                const size_t n = i <= 70 ? i : longer[i - 71];
                if (held + n + 3 < end)
                    continue;
                put_state(state, noise() % (65 - held), held, TOP - (held + n + 3 - end));
                const crsf_answer a = next_is(state, STATE, put_held(state, held), n, noise() % (SLOTS + 1));
                CHECK((a.number == 12) == (end > 3));
            }
}

/* Inputs of more than 32 bits, of which nothing but the front is looked at. */
static void each_long_input(void)
{
    const size_t longest = ((size_t)1 << 32) + 64;
    const uint8_t *zeros = mmap(NULL, longest, PROT_READ, MAP_PRIVATE | MAP_ANONYMOUS, -1, 0);
    CHECK(zeros != MAP_FAILED);
    for (size_t less = 0; less <= 64; less += 16)
        for (size_t held = 0; held <= 3; held++)
            for (size_t more = 0; more <= 2; more++) {
                uint8_t state[STATE];
                put_state(state, 5, held, TOP - (longest - less) - held - 1 + more);
                CHECK((next_is(state, STATE, zeros, longest - less, 1).number == 12) == (more == 2));
            }
}

/* Every start and end, at the first and the last positions: 8 where they are not valid, also where 12 would be; and every length of a state. */
static void each_state(void)
{
    const uint64_t positions[] = {0, TOP - 64, TOP - 4, TOP - 1, TOP};
    const uint8_t frame[] = {0xC8, 2, 0, 0};
    uint8_t state[LONGEST];
    for (unsigned start = 0; start < 256; start++)
        for (unsigned end = 0; end < 256; end++)
            for (size_t i = 0; i < 5; i++) {
                put_state(state, 0, 0, positions[i]);
                state[0] = (uint8_t)start;
                state[1] = (uint8_t)end;
                each_entry(state, STATE, frame, noise() % 5);
            }
    for (size_t n = 0; n <= LONGEST; n++)
        for (unsigned turn = 0; turn < 20; turn++) {
            fill_with_noise(state, LONGEST);
            state[0] = state[1] = (uint8_t)(turn % 3);
            each_entry(state, n, frame, noise() % 5);
        }
}

/* The forms of every edge with every count of held bytes, as they are and without their position, cut anywhere and with bytes behind; and with any byte
 * in place of each up to the first ones that are held. */
static void each_form(void)
{
    uint8_t state[STATE], form[LONGEST], any[64];
    put_state(state, 3, 60, 99);
    for (size_t i = 0; i < EDGES; i++)
        for (size_t held = 0; held <= 63; held++) {
            fill_with_noise(any, sizeof any);
            fill_with_noise(form, sizeof form);
            const size_t n = form_of(form, edge(i), any, held);
            for (size_t cut = 0; cut <= n + 2; cut++)
                CHECK(restore_is(state, STATE, form, cut) == (cut == n && !beyond(edge(i), held)));
            CHECK(restore_is(state, STATE, form + n - held - 1, held + 1) && parser_of(state).position == 0);
            for (size_t at = 0; (held <= 2 || held >= 62) && at < n && at < 14; at++) {
                const uint8_t kept = form[at];
                for (unsigned byte = 0; byte < 256; byte++) {
                    form[at] = (uint8_t)byte;
                    restore_is(state, STATE, form, n);
                }
                form[at] = kept;
            }
        }
}

/* Every form of up to two bytes, and of three with the mark; and many of groups of few kinds. */
static void any_form(void)
{
    const uint8_t kinds[] = {0x80, 0x80, 0x80, 0x81, 0xFF, 0xFF, 0xBF, 0xC0, 0, 1, 2, 3, 0x3F, 0x40, 0x7F};
    uint8_t state[STATE], form[LONGEST];
    put_state(state, 3, 60, 99);
    fill_with_noise(form, sizeof form);
    restore_is(state, STATE, form, 0);
    for (unsigned first = 0; first < 256; first++) {
        form[0] = (uint8_t)first;
        restore_is(state, STATE, form, 1);
        for (unsigned second = 0; second < 256; second++) {
            form[0] = (uint8_t)first;
            form[1] = (uint8_t)second;
            restore_is(state, STATE, form, 2);
            form[0] = 0x40;
            form[1] = (uint8_t)first;
            form[2] = (uint8_t)second;
            restore_is(state, STATE, form, 3);
        }
    }
    unsigned says = 0;
    for (unsigned turn = 0; turn < 300000; turn++) {
        size_t n = 0, held = noise() % 4;
        form[n++] = 0x40;
        for (size_t groups = noise() % 13; groups > 1; groups--)
            form[n++] = kinds[noise() % 8];
        form[n++] = kinds[8 + noise() % 7];
        form[n++] = (uint8_t)held;
        n += held;
        if (noise() % 8 == 0)
            form[noise() % n] = kinds[noise() % sizeof kinds];
        says += restore_is(state, STATE, form, n - noise() % 16 / 15);
    }
    CHECK(says > 50000);
}

/* A save into every length of bytes. */
static void each_save(void)
{
    uint8_t state[STATE], form[LONGEST];
    for (size_t i = 0; i < EDGES; i++)
        for (size_t held = 0; held <= 64; held += 1 + noise() % 20)
            for (size_t lent = 0; lent <= 80; lent++) {
                put_state(state, noise() % (65 - held), held, edge(i));
                save_is(state, STATE, form, lent);
            }
}

/* A stream in pieces, from a position on, that is put away between calls and taken up in another state: each answer is its reading's, at the place of
 * its first byte, whatever the pieces. A piece with no position behind it is refused, and a shorter one is read. */
static void reads_from(uint64_t first, size_t n)
{
    uint8_t state[STATE], other[STATE], form[LONGEST];
    const size_t fits = beyond(first, n) ? (size_t)(TOP - first) : n, most = 1 + noise() % 150;
    size_t from = 0, at = 0; /* the next byte of the stream, and where the next answer begins */
    put_state(state, noise() % 65, 0, first);
    for (bool done = false; !done;) {
        size_t left = noise() % (most + 1);
        if (left > n - from)
            left = n - from;
        for (;;) {
            if (noise() % 4 == 0) {
                put_state(other, 0, noise() % 65, noise());
                CHECK(restore_is(other, STATE, form, save_is(state, STATE, form, LONGEST)));
                memcpy(state, other, sizeof state);
            }
            const crsf_answer a = next_is(state, STATE, bytes + from, left, noise() % (SLOTS + 1));
            if (from + left > fits) {
                CHECK(refusal(a, 12));
                left = fits - from;
                continue;
            }
            const answer model = first_answer(bytes + at, from + left - at);
            CHECK(a.number == model.number && a.first == model.first && a.second == model.second);
            from += a.taken;
            left -= a.taken;
            at += model.drops;
            CHECK(parser_of(state).position == first + at && parser_of(state).held == from - at);
            if (a.number == CRSF_MORE)
                break;
        }
        done = from == fits;
    }
    if (fits < n)
        CHECK(refusal(next_is(state, STATE, bytes + from, 1, 1), 12));
}

static void streams(void)
{
    for (unsigned turn = 0; turn < 6000; turn++) {
        const size_t n = make_stream();
        uint64_t first = turn % 3 == 0 ? 0 : edge(noise() % EDGES);
        if (turn % 3 == 1)
            first = TOP - n + noise() % 40 - 20; /* the last byte is near the last position */
        reads_from(first, n);
    }
}

/* Calls in any order on one state, which any bytes begin, and of which a byte is spoilt at times. */
static void any_calls(void)
{
    uint8_t state[STATE], form[LONGEST];
    for (unsigned turn = 0; turn < 400000; turn++) {
        if (turn % 40 == 0)
            put_state(state, noise() % 80, noise() % 3 ? noise() % 64 : 0, edge(noise() % EDGES));
        if (noise() % 30 == 0)
            state[noise() % STATE] = (uint8_t)noise();
        if (turn % 100 == 0)
            make_stream();
        const unsigned kind = noise() % 16;
        if (kind == 0)
            reset_is(state, STATE);
        else if (kind == 1)
            save_is(state, STATE, form, noise() % 80);
        else if (kind == 2)
            restore_is(state, STATE, bytes, noise() % 70);
        else if (kind == 3)
            restore_is(state, STATE, form, form_of(form, edge(noise() % EDGES), bytes, noise() % 64));
        else if (kind == 4)
            asks(state, STATE);
        else
            next_is(state, STATE, bytes + noise() % 100, noise() % 3 ? noise() % 8 : noise() % 200, noise() % (SLOTS + 1));
    }
}

/* By hand, without the model. */
static void by_hand(void)
{
    const uint8_t stream[] = {0xC8, 2, 0, 0, 0x55, 0xC8, 2, 0, 0};
    const struct {
        size_t n;
        uint8_t form[14];
        bool good;
        uint64_t position;
        uint8_t held;
    } forms[] = {
        {1, {0}, true, 0, 0},
        {2, {1, 0xC8}, true, 0, 1},
        {3, {0x40, 0, 0}, true, 0, 0},
        {4, {0x40, 0, 1, 0xC8}, true, 0, 1},
        {3, {0x40, 0x7F, 0}, true, 127, 0},
        {4, {0x40, 0x7F, 1, 0xC8}, true, 127, 1},
        {4, {0x40, 0x80, 1, 0}, true, 128, 0},
        {5, {0x40, 0x80, 1, 1, 0xC8}, true, 128, 1},
        {12, {0x40, 0x80, 0x80, 0x80, 0x80, 0x80, 0x80, 0x80, 0x80, 0x80, 1, 0}, true, (uint64_t)1 << 63, 0},
        {13, {0x40, 0x80, 0x80, 0x80, 0x80, 0x80, 0x80, 0x80, 0x80, 0x80, 1, 1, 0xC8}, true, (uint64_t)1 << 63, 1},
        {12, {0x40, 0xFF, 0xFF, 0xFF, 0xFF, 0xFF, 0xFF, 0xFF, 0xFF, 0xFF, 1, 0}, true, TOP, 0},
        {13, {0x40, 0xFE, 0xFF, 0xFF, 0xFF, 0xFF, 0xFF, 0xFF, 0xFF, 0xFF, 1, 1, 0xC8}, true, TOP - 1, 1},
        {13, {0x40, 0xFF, 0xFF, 0xFF, 0xFF, 0xFF, 0xFF, 0xFF, 0xFF, 0xFF, 1, 1, 0xC8}, false, 0, 0}, /* its byte would be behind the last */
        {12, {0x40, 0x80, 0x80, 0x80, 0x80, 0x80, 0x80, 0x80, 0x80, 0x80, 2, 0}, false, 0, 0},       /* 2^64 */
        {12, {0x40, 0x80, 0x80, 0x80, 0x80, 0x80, 0x80, 0x80, 0x80, 0x80, 0, 0}, false, 0, 0},
        {13, {0x40, 0x80, 0x80, 0x80, 0x80, 0x80, 0x80, 0x80, 0x80, 0x80, 0x81, 0, 0}, false, 0, 0}, /* eleven groups */
        {13, {0x40, 0x80, 0x80, 0x80, 0x80, 0x80, 0x80, 0x80, 0x80, 0x80, 0x80, 1, 0}, false, 0, 0},
        {4, {0x40, 0x80, 0, 0}, false, 0, 0},                                                         /* not the shortest */
        {0, {0}, false, 0, 0},
        {1, {0x40}, false, 0, 0},
        {2, {0x40, 0}, false, 0, 0},
        {3, {0x40, 0x80, 1}, false, 0, 0},
        {4, {0x40, 0, 0, 0}, false, 0, 0},
        {3, {0x40, 0, 1}, false, 0, 0},
        {3, {0x41, 0, 0}, false, 0, 0},
        {4, {0x40, 0, 0x80, 0}, false, 0, 0},
    };
    crsf_state state = {0}, other;
    uint8_t form[CRSF_SAVED_MAX];
    uint64_t places[SLOTS] = {7, 7, 7};
    CHECK(CRSF_STATE_SIZE == 74 && sizeof state == 74 && sizeof(crsf_call) == 16 && CRSF_SAVED_MAX == 75 && CRSF_POSITION_RANGE == 12);

    /* a stream that is saved midway */
    CHECK(is_at(crsf_next(&state, stream, 8), 0, CRSF_FRAME, 4, 0, 0, 4, 0, 0));
    CHECK(is_at(crsf_next(&state, stream + 4, 4), 4, CRSF_INVALID_SYNC, 1, 0, 0, 0, 0x55, 0));
    CHECK(asks_more(crsf_next(&state, stream + 5, 3), 3));
    CHECK(count(crsf_save_state(&state, form, sizeof form), 6) && memcmp(form, (const uint8_t[]){0x40, 5, 3, 0xC8, 2, 0}, 6) == 0);
    memset(&other, 0xEE, sizeof other);
    CHECK(count(crsf_restore_state(&other, form, 6), 3) && crsf_position_of(&other).position == 5);
    CHECK(is(crsf_next_raw_packet((uint8_t *)&other, STATE, stream + 8, 1, places, SLOTS), CRSF_FRAME, 1, 1, 2, 4, 0, 0));
    CHECK(places[0] == 5 && places[1] == 7 && places[2] == 7 && crsf_position_of(&other).position == 9);
    CHECK(is(crsf_next_raw_packet((uint8_t *)&state, STATE, stream + 8, 1, NULL, 0), CRSF_FRAME, 1, 1, 2, 4, 0, 0));
    CHECK(count(crsf_forget(&state), 0) && crsf_position_of(&state).position == 0);

    for (size_t i = 0; i < sizeof forms / sizeof *forms; i++) {
        uint8_t again[CRSF_SAVED_MAX];
        memset(&state, 0xEE, sizeof state);
        other = state;
        const crsf_answer a = crsf_restore_state(&state, forms[i].form, forms[i].n);
        if (!forms[i].good) {
            CHECK(refusal(a, CRSF_BAD_STATE) && memcmp(&state, &other, sizeof state) == 0);
            continue;
        }
        CHECK(count(a, forms[i].held) && crsf_position_of(&state).position == forms[i].position);
        const size_t n = forms[i].n + (forms[i].form[0] == 0x40 ? 0 : 2);
        CHECK(count(crsf_save_state(&state, again, sizeof again), (uint8_t)n));
        CHECK(memcmp(again + n - forms[i].n, forms[i].form, forms[i].n) == 0 && again[0] == 0x40);
    }

    /* the longest form, and no room for it */
    memset(&state, 0xFF, sizeof state);
    state.start = 1;
    state.end = 64;
    state.position[7] = 0xC0;
    memset(form, 0xAA, sizeof form);
    CHECK(refusal(crsf_save_state(&state, form, 74), CRSF_BUFFER_OVERFLOW) && form[0] == 0xAA && form[73] == 0xAA);
    CHECK(count(crsf_save_state(&state, form, 75), 75) && form[0] == 0x40 && form[1] == 0xC0 && form[10] == 1 && form[11] == 63);

    /* the last positions: what has none behind it is refused, again and again; a state like that can be asked, reset and restored */
    memset(state.position, 0xFF, sizeof state.position);
    state.start = state.end = 0;
    CHECK(asks_more(crsf_next(&state, NULL, 0), 0));
    CHECK(call_refused(crsf_next(&state, stream, 1), CRSF_POSITION_RANGE));
    CHECK(call_refused(crsf_next(&state, stream, 1), CRSF_POSITION_RANGE));
    CHECK(count(crsf_save_state(&state, form, sizeof form), 12));
    state.position[7] = 0xFE;
    CHECK(is_at(crsf_next(&state, stream + 4, 1), TOP - 1, CRSF_INVALID_SYNC, 1, 0, 0, 0, 0x55, 0));
    CHECK(is_at(crsf_position_of(&state), TOP, CRSF_OK, 0, 0, 0, 1, 0, 0));
    state.end = 1;
    CHECK(call_refused(crsf_next(&state, NULL, 0), CRSF_POSITION_RANGE));
    CHECK(refusal(crsf_save_state(&state, form, sizeof form), CRSF_BAD_STATE));
    CHECK(count(crsf_held_count(&state), 1) && is_at(crsf_position_of(&state), TOP, CRSF_OK, 0, 0, 0, 1, 0, 0));
    CHECK(refusal(crsf_position((const uint8_t *)&state, STATE, NULL, 0), CRSF_BUFFER_OVERFLOW));
    other = state;
    CHECK(count(crsf_restore_state(&other, (const uint8_t[]){0}, 1), 0) && crsf_position_of(&other).position == 0);
    CHECK(count(crsf_forget(&state), 0) && crsf_position_of(&state).position == 0);
    CHECK(is_at(crsf_next(&state, stream, sizeof stream), 0, CRSF_FRAME, 4, 0, 0, 4, 0, 0));
}

int main(void)
{
    by_hand();
    each_edge();
    each_end();
    each_long_input();
    each_state();
    each_form();
    any_form();
    each_save();
    streams();
    any_calls();
    printf("C: %u checks of the stream and its positions hold\n", checks);
    return 0;
}
