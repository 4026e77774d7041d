/*
 * Kit logs from C, against a plain model: what a whole string says as a log, from the rules alone (RULES 16). Nothing of the archive is asked for
 * what is expected. Every call is compared with it: the answer's eight bytes, the seconds, the frame's bytes and where they stand, and the state.
 * Prints what it ran, and stops at the first difference.
 */
#include "check.h"

/* ---- The model ------------------------------------------------------------------------------------------------------------------------------ */

enum { LONGEST = 1024, ENTRIES_MAX = LONGEST / 6, FIELDS = 11 };

/* An entry: its seconds, and where its frame stands in the string. */
typedef struct entry {
    uint32_t seconds;
    size_t at, len;
} entry;

/* Where a reader is behind a string: the state but for its places, and how many of the string's last bytes are in them. */
typedef struct stand {
    uint8_t fields[FIELDS];
    size_t held;
} stand;

typedef struct reading {
    size_t count;
    entry entries[ENTRIES_MAX];
    uint8_t refusal; /* 9, 10 or 0 */
    size_t taken;    /* up to and with the byte that is refused */
    stand behind;
} reading;

static bool one_whole_frame(const uint8_t *bytes, size_t n)
{
    return n >= 4 && n <= 64 && listed(bytes[0]) && bytes[1] == n - 2 && bytes[n - 1] == check_byte(bytes + 2, n - 3);
}

static void high_first(uint8_t *out, uint32_t number)
{
    for (int i = 0; i < 4; i++)
        out[i] = (uint8_t)(number >> (24 - 8 * i));
}

static stand standing(uint8_t stage, size_t count, size_t size, uint64_t value, uint32_t seconds)
{
    stand s = {{stage, (uint8_t)count, (uint8_t)size}, stage == 3 ? count : 0};
    high_first(s.fields + 3, (uint32_t)value);
    high_first(s.fields + 7, seconds);
    return s;
}

static stand refused(uint8_t refusal)
{
    return standing(refusal == CRSF_INVALID_LOG ? 5 : 6, 0, 0, 0, 0);
}

typedef enum { WHOLE, UNFINISHED, MALFORMED } verdict;

/* The number at *at, which goes on behind it. It is judged at its last byte or its fifth. */
static verdict number(const uint8_t *bytes, size_t n, size_t *at, uint64_t *value, size_t *groups)
{
    *value = 0;
    *groups = 0;
    while (*at < n) {
        const uint8_t byte = bytes[(*at)++];
        *value += (uint64_t)(byte & 0x7F) << (7 * (*groups)++);
        if (byte < 0x80)
            return (byte == 0 && *groups > 1) || *value > 0xFFFFFFFFu ? MALFORMED : WHOLE;
        if (*groups == 5)
            return MALFORMED;
    }
    return UNFINISHED;
}

/* The frame of this size at *at. It is judged at the first byte that no valid frame of its size has there. */
static verdict frame(const uint8_t *bytes, size_t n, size_t *at, size_t size)
{
    const uint8_t *first = bytes + *at;
    for (size_t i = 0; i < size; i++) {
        if (*at == n)
            return UNFINISHED;
        const uint8_t byte = bytes[(*at)++];
        if ((i == 0 && !listed(byte)) || (i == 1 && byte != size - 2) || (i == size - 1 && byte != check_byte(first + 2, size - 3)))
            return MALFORMED;
    }
    return WHOLE;
}

/* Where a reader is behind a string, with its entries, and in *at how many bytes are taken. */
static stand walk(const uint8_t *bytes, size_t n, size_t *at, reading *r)
{
    size_t groups;
    uint64_t value;
    verdict v = number(bytes, n, at, &value, &groups);
    if (v == UNFINISHED)
        return standing(0, groups, 0, value, 0);
    if (v == MALFORMED || value != 1)
        return refused(CRSF_INVALID_LOG);
    for (;;) {
        v = number(bytes, n, at, &value, &groups);
        if (v == UNFINISHED)
            return standing(1, groups, 0, value, 0);
        if (v == MALFORMED)
            return refused(CRSF_INVALID_LOG);
        const uint32_t seconds = (uint32_t)value;
        v = number(bytes, n, at, &value, &groups);
        if (v == UNFINISHED)
            return standing(2, groups, 0, value, seconds);
        if (v == MALFORMED)
            return refused(CRSF_INVALID_LOG);
        if (value < 4 || value > 64)
            return refused(CRSF_INVALID_FRAME);
        const size_t first = *at, size = (size_t)value;
        v = frame(bytes, n, at, size);
        if (v == UNFINISHED)
            return standing(3, *at - first, size, 0, seconds);
        if (v == MALFORMED)
            return refused(CRSF_INVALID_FRAME);
        r->entries[r->count++] = (entry){seconds, first, size};
    }
}

/* What a string says as a log. */
static void read_log(const uint8_t *bytes, size_t n, reading *r)
{
    r->count = r->taken = 0;
    r->behind = walk(bytes, n, &r->taken, r);
    r->refusal = r->behind.fields[0] < 5 ? 0 : r->behind.fields[0] + 4;
}

static bool same_fields(const stand *one, const stand *other)
{
    return memcmp(one->fields, other->fields, FIELDS) == 0;
}

/* What an end answers there: a log ends between entries and nowhere else. */
static uint8_t ends_with(const stand *s)
{
    const stand boundary = standing(1, 0, 0, 0, 0), ended = standing(4, 0, 0, 0, 0);
    if (s->fields[0] == 6)
        return CRSF_INVALID_FRAME;
    return same_fields(s, &boundary) || same_fields(s, &ended) ? CRSF_OK : CRSF_INVALID_LOG;
}

/* What a writer puts: a number in its shortest form, an entry. */
static size_t put_number(uint8_t *out, uint32_t number)
{
    size_t n = 0;
    for (; number > 0x7F; number >>= 7)
        out[n++] = (uint8_t)(0x80 | (number & 0x7F));
    out[n++] = (uint8_t)number;
    return n;
}

static size_t put_entry(uint8_t *out, uint32_t seconds, const uint8_t *bytes, size_t n)
{
    size_t at = put_number(out, seconds);
    at += put_number(out + at, (uint32_t)n);
    memcpy(out + at, bytes, n);
    return at + n;
}

/* ---- A reader beside the model -------------------------------------------------------------------------------------------------------------- */

/* A string, what it says, and where a reader is behind each of its beginnings that is not refused. */
typedef struct text {
    size_t n;
    uint8_t bytes[LONGEST];
    reading said;
    stand behind[LONGEST + 1];
} text;

/* The string that is being read, shown where a check fails. */
static const text *shown;

static void show(void)
{
    if (shown) {
        printf("the string:");
        for (size_t i = 0; i < shown->n; i++)
            printf(" %02X", shown->bytes[i]);
        printf("\n");
    }
}

/* What the string says now that its bytes from `from` on are others. */
static void understand(text *t, size_t from)
{
    static reading part;
    read_log(t->bytes, t->n, &t->said);
    for (size_t k = from; k <= t->n && !(t->said.refusal && k >= t->said.taken); k++) {
        read_log(t->bytes, k, &part);
        t->behind[k] = part.behind;
    }
    shown = t;
}

static const uint8_t guard[8] = {0xA7, 0x5B, 0xA7, 0x5B, 0xA7, 0x5B, 0xA7, 0x5B};

/* A reader of a string, with bytes about its state that are not its own. */
typedef struct reader {
    const text *of;
    size_t from;  /* the next byte */
    size_t given; /* how many entries were given */
    bool spoilt;  /* whether what a state does not use is changed before each call */
    uint8_t guarded[sizeof guard + CRSF_LOG_STATE_SIZE + sizeof guard];
} reader;

static uint8_t *state_of(reader *r)
{
    return r->guarded + sizeof guard;
}

static void begin(reader *r, const text *t, bool spoilt)
{
    r->of = t;
    r->from = r->given = 0;
    r->spoilt = spoilt;
    memcpy(r->guarded, guard, sizeof guard);
    memset(state_of(r), 0, CRSF_LOG_STATE_SIZE);
    memcpy(state_of(r) + CRSF_LOG_STATE_SIZE, guard, sizeof guard);
}

/* Changes what the state does not use: fields that the stage has no use for, and the places beside the held bytes. */
static void spoil(uint8_t *state)
{
    const uint8_t stage = state[0];
    const size_t held = stage == 3 ? state[1] : 0;
    for (size_t i = 1; i < FIELDS; i++) {
        const bool used = i == 1 ? stage <= 3 : i == 2 ? stage == 3 : i < 7 ? stage <= 2 : stage == 2 || stage == 3;
        if (!used)
            state[i] = (uint8_t)noise();
    }
    memset(state + FIELDS + held, (uint8_t)noise(), 64 - held);
}

/* The state is this one, it holds these bytes, and what stands about it is untouched. */
static void stands(reader *r, const stand *s, const uint8_t *end)
{
    CHECK(memcmp(state_of(r), s->fields, FIELDS) == 0);
    CHECK(s->held == 0 || memcmp(state_of(r) + FIELDS, end - s->held, s->held) == 0);
    CHECK(memcmp(r->guarded, guard, sizeof guard) == 0 && memcmp(r->guarded + sizeof guard + CRSF_LOG_STATE_SIZE, guard, sizeof guard) == 0);
}

/* One call on the bytes from the next one up to `end`. Whether it gave an entry, and there may be more in the piece. */
static bool call(reader *r, size_t end)
{
    const reading *said = &r->of->said;
    const uint8_t *piece = r->of->bytes + r->from;
    const entry *e = said->entries + r->given;
    const bool gives = r->given < said->count && e->at + e->len <= end;
    const bool refuses = !gives && said->refusal && said->taken <= end;
    const stand boundary = standing(1, 0, 0, 0, 0);
    uint32_t seconds = 0x5EC04D5;
    if (r->spoilt)
        spoil(state_of(r));
    const crsf_answer a = crsf_log_next(state_of(r), CRSF_LOG_STATE_SIZE, r->from < end ? piece : NULL, end - r->from, &seconds);
    CHECK(a.taken <= CRSF_LOG_TAKEN_MAX);
    if (gives) {
        const bool in_state = e->at < r->from;
        const size_t taken = e->at + e->len - r->from, at = in_state ? FIELDS : e->at - r->from;
        CHECK(is(a, CRSF_FRAME, (uint8_t)taken, in_state, (uint8_t)at, (uint8_t)e->len, 0, 0));
        CHECK(in_state || a.at <= 7);
        CHECK(seconds == e->seconds);
        CHECK(memcmp(crsf_log_frame_bytes((crsf_log_state *)state_of(r), piece, a), r->of->bytes + e->at, e->len) == 0);
        r->given++;
        r->from = e->at + e->len;
        stands(r, &boundary, NULL);
        return true;
    }
    CHECK(seconds == 0x5EC04D5);
    if (refuses) {
        CHECK(is(a, said->refusal, (uint8_t)(said->taken - r->from), 0, 0, 0, 0, 0));
        r->from = said->taken;
        stands(r, &said->behind, NULL);
        return false;
    }
    CHECK(is(a, CRSF_MORE, (uint8_t)(end - r->from), 0, 0, 0, 0, 0));
    r->from = end;
    stands(r, &r->of->behind[end], r->of->bytes + end);
    return false;
}

/* A piece up to `end`, all of it. With a refusal the rest of it is not taken. */
static void piece(reader *r, size_t end)
{
    if (r->from <= end)
        while (call(r, end))
            ;
}

/* The caller says that the log ends; and what comes of it: ends, empty pieces and bytes behind, a reset. */
static void end(reader *r)
{
    const reading *said = &r->of->said;
    const bool is_refused = said->refusal && said->taken <= r->from;
    const uint8_t answer = is_refused ? said->refusal : ends_with(&r->of->behind[r->from]);
    const stand ended = standing(4, 0, 0, 0, 0), stays = refused(answer ? answer : CRSF_INVALID_LOG);
    uint8_t *state = state_of(r), byte = (uint8_t)noise(), places[64];
    uint32_t seconds = 0x5EC04D5;
    for (int again = 0; again < 2; again++) {
        if (r->spoilt)
            spoil(state);
        CHECK(refusal(crsf_log_end(state, CRSF_LOG_STATE_SIZE), answer));
        stands(r, answer ? &stays : &ended, NULL);
        if (r->spoilt)
            spoil(state);
        CHECK(refusal(crsf_log_next(state, CRSF_LOG_STATE_SIZE, NULL, 0, &seconds), answer ? answer : CRSF_MORE));
        stands(r, answer ? &stays : &ended, NULL);
    }
    for (int again = 0; again < 2; again++) {
        CHECK(refusal(crsf_log_next(state, CRSF_LOG_STATE_SIZE, &byte, 1, &seconds), stays.fields[0] + 4));
        stands(r, &stays, NULL);
        CHECK(refusal(crsf_log_next(state, CRSF_LOG_STATE_SIZE, NULL, 0, &seconds), stays.fields[0] + 4));
        CHECK(refusal(crsf_log_end(state, CRSF_LOG_STATE_SIZE), stays.fields[0] + 4));
        stands(r, &stays, NULL);
    }
    CHECK(seconds == 0x5EC04D5);
    const stand reset = standing(0, 0, 0, 0, 0);
    if (r->spoilt)
        spoil(state);
    memcpy(places, state + FIELDS, sizeof places);
    CHECK(refusal(crsf_log_reset(state, CRSF_LOG_STATE_SIZE), CRSF_OK));
    stands(r, &reset, NULL);
    CHECK(memcmp(places, state + FIELDS, sizeof places) == 0);
}

/* The beginning of n bytes in pieces of this size, and the end. */
static void in_pieces(const text *t, size_t n, size_t size, bool spoilt)
{
    reader r;
    begin(&r, t, spoilt);
    for (size_t at = 0; at < n; at += size)
        piece(&r, n - at < size ? n : at + size);
    end(&r);
}

/* In two pieces, the first of them of `cut` bytes, and the end. */
static void in_two(const text *t, size_t n, size_t cut, bool spoilt)
{
    reader r;
    begin(&r, t, spoilt);
    piece(&r, cut);
    piece(&r, n);
    end(&r);
}

/* In pieces of any sizes, empty ones among them, and at times only one call on a piece: its rest is then a part of the next one. */
static void in_any(const text *t)
{
    static const size_t most[] = {2, 3, 8, 20, 80, 300};
    const size_t sizes = most[noise() % 6];
    reader r;
    begin(&r, t, noise() % 2);
    for (size_t at = 0; at < t->n;) {
        at += noise() % sizes;
        if (at > t->n)
            at = t->n;
        if (noise() % 2)
            piece(&r, at);
        else if (r.from <= at)
            call(&r, at);
    }
    piece(&r, t->n);
    end(&r);
}

/* An accepted log written again is that log. */
static void written_again(const text *t)
{
    uint8_t out[LONGEST];
    if (t->said.refusal || ends_with(&t->said.behind) != CRSF_OK)
        return;
    size_t at = 1;
    CHECK(count(crsf_log_start(out, sizeof out), CRSF_LOG_START_SIZE));
    for (const entry *e = t->said.entries; e < t->said.entries + t->said.count; e++) {
        const crsf_answer a = crsf_log_entry(e->seconds, t->bytes + e->at, e->len, out + at, sizeof out - at);
        CHECK(count(a, a.len));
        at += a.len;
    }
    CHECK(at == t->n && memcmp(out, t->bytes, at) == 0);
}

/* ---- Strings -------------------------------------------------------------------------------------------------------------------------------- */

static text t;

static void add(const uint8_t *bytes, size_t n)
{
    for (size_t i = 0; i < n; i++)
        t.bytes[t.n++] = bytes[i];
}

/* A valid frame of so many bytes. */
static void make_frame(uint8_t *out, uint8_t address, size_t size)
{
    out[0] = address;
    out[1] = (uint8_t)(size - 2);
    for (size_t i = 2; i < size - 1; i++)
        out[i] = (uint8_t)noise();
    out[size - 1] = check_byte(out + 2, size - 3);
}

static void add_entry(uint32_t seconds, uint8_t address, size_t size)
{
    uint8_t bytes[64];
    make_frame(bytes, address, size);
    t.n += put_entry(t.bytes + t.n, seconds, bytes, size);
}

static const uint32_t all_seconds[] = {0,       1,       127,       128,       129,        255,        256,        16383,     16384,
                                       2097151, 2097152, 268435455, 268435456, 0x7FFFFFFF, 0x80000000, 0xFFFFFFFE, 0xFFFFFFFF};
enum { SECONDS = sizeof all_seconds / sizeof *all_seconds };

static uint32_t some_seconds(void)
{
    if (noise() % 3)
        return all_seconds[noise() % SECONDS];
    uint32_t number = noise() << 8;
    number ^= noise();
    return number >> noise() % 32;
}

static uint8_t some_address(void)
{
    uint8_t byte;
    do
        byte = (uint8_t)noise();
    while (!listed(byte));
    return byte;
}

static entry add_some_entry(void)
{
    const uint32_t seconds = some_seconds();
    const uint8_t address = some_address();
    const size_t size = 4 + noise() % 61;
    add_entry(seconds, address, size);
    return (entry){seconds, t.n - size, size};
}

/* Three entries, with seconds of one, two and five bytes and frames of 4, 17 and 64. */
static void three_entries(void)
{
    t.n = 0;
    add((const uint8_t[]){1}, 1);
    add_entry(0, 0xC8, 4);
    add_entry(128, 0x00, 17);
    add_entry(0xFFFFFFFF, 0xEE, 64);
    understand(&t, 0);
    CHECK(t.n == 1 + 6 + 20 + 70 && t.said.count == 3 && t.said.refusal == 0 && ends_with(&t.said.behind) == CRSF_OK);
}

static void every_cut(size_t n, bool spoilt)
{
    static const size_t sizes[] = {1, 2, 3, 5, 7, 16, 64, 71, LONGEST};
    for (size_t i = 0; i < sizeof sizes / sizeof *sizes; i++)
        in_pieces(&t, n, sizes[i], spoilt);
    for (size_t cut = 0; cut <= n; cut++)
        in_two(&t, n, cut, spoilt);
}

/* Each beginning of the three entries, with an end after each byte, in every two pieces and several sizes. */
static void beginnings(void)
{
    three_entries();
    written_again(&t);
    for (size_t n = 0; n <= t.n; n++) {
        every_cut(n, false);
        every_cut(n, true);
    }
}

/* Each byte of the three entries changed to each other one, in every two pieces and several sizes. */
static void changes(void)
{
    size_t accepted = 0;
    three_entries();
    for (size_t i = 0; i < t.n; i++) {
        const uint8_t was = t.bytes[i];
        for (unsigned byte = 0; byte < 256; byte++)
            if (byte != was) {
                t.bytes[i] = (uint8_t)byte;
                understand(&t, i);
                every_cut(t.n, byte % 2);
                written_again(&t);
                accepted += t.said.refusal == 0;
            }
        t.bytes[i] = was;
        understand(&t, i);
    }
    /* other addresses of three frames; other seconds: one byte below 128 for 0; each byte of 80 01 but those that end the number; and of the five */
    CHECK(accepted > 3 * 23 + 127);
}

/* What each of two bytes is changed to: any byte, or the one that it is with a bit changed. */
static void change(void)
{
    const size_t at = noise() % t.n;
    if (noise() % 3)
        t.bytes[at] = (uint8_t)noise();
    else
        t.bytes[at] ^= (uint8_t)(1u << noise() % 8);
}

static void two_changes(void)
{
    for (unsigned turn = 0; turn < 20000; turn++) {
        three_entries();
        change();
        change();
        understand(&t, 0);
        in_pieces(&t, t.n, LONGEST, false);
        in_pieces(&t, t.n, 1 + noise() % 20, true);
        in_two(&t, t.n, noise() % (t.n + 1), false);
        in_any(&t);
        written_again(&t);
    }
}

/* Logs of any entries, and what is left of them after a byte was changed, lost or put in, or their end cut off; and bytes of any kind. */
static void at_random(void)
{
    static const uint8_t likely[] = {0x00, 0x01, 0x02, 0x03, 0x04, 0x05, 0x0F, 0x10, 0x40, 0x41, 0x7F, 0x80, 0x81, 0xC8, 0xFF};
    for (unsigned turn = 0; turn < 8000; turn++) {
        t.n = 0;
        if (turn % 4 == 3) {
            const size_t n = noise() % 120;
            for (size_t i = 0; i < n; i++)
                add((const uint8_t[]){(uint8_t)(noise() % 2 ? likely[noise() % sizeof likely] : noise())}, 1);
            if (t.n && noise() % 4)
                t.bytes[0] = 1;
        } else {
            add((const uint8_t[]){1}, 1);
            for (size_t left = noise() % 9; left; left--)
                add_some_entry();
            const size_t at = noise() % t.n;
            if (turn % 4 == 1)
                t.bytes[at] = (uint8_t)noise();
            if (turn % 4 == 2 && noise() % 2)
                memmove(t.bytes + at, t.bytes + at + 1, --t.n - at);
            else if (turn % 4 == 2) {
                memmove(t.bytes + at + 1, t.bytes + at, t.n++ - at);
                t.bytes[at] = likely[noise() % sizeof likely];
            }
            if (noise() % 8 == 0)
                t.n = noise() % (t.n + 1);
        }
        understand(&t, 0);
        in_pieces(&t, t.n, LONGEST, turn % 2);
        in_pieces(&t, t.n, 1, turn % 2);
        in_pieces(&t, t.n, 1 + noise() % 100, turn % 2);
        in_any(&t);
        in_any(&t);
        written_again(&t);
    }
}

/* Every string of up to five bytes on both sides of what a number is judged by; and behind an entry's beginning. */
static void short_strings(void)
{
    static const uint8_t alphabet[] = {0x00, 0x01, 0x02, 0x04, 0x0F, 0x10, 0x40, 0x7F, 0x80, 0xC8, 0xFF};
    enum { LETTERS = sizeof alphabet };
    static const struct {
        size_t n;
        uint8_t bytes[7];
    } heads[] = {{0, {0}}, {1, {1}}, {2, {1, 5}}, {3, {1, 5, 4}}, {5, {1, 0x80, 0x80, 0x80, 0x80}}, {7, {1, 0xFF, 0xFF, 0xFF, 0xFF, 0x0F, 0x84}}};
    for (size_t h = 0; h < sizeof heads / sizeof *heads; h++)
        for (size_t n = 1, strings = LETTERS; n <= (h < 2 ? 5 : 4); n++, strings *= LETTERS)
            for (size_t i = 0; i < strings; i++) {
                t.n = 0;
                add(heads[h].bytes, heads[h].n);
                for (size_t k = 0, rest = i; k < n; k++, rest /= LETTERS)
                    add(&alphabet[rest % LETTERS], 1);
                understand(&t, 0);
                in_pieces(&t, t.n, LONGEST, false);
                in_pieces(&t, t.n, 1, true);
                in_two(&t, t.n, i % (t.n + 1), false);
            }
}

/* ---- Edges, written out --------------------------------------------------------------------------------------------------------------------- */

/* These bytes give so many entries, the last of them with these seconds, and then this refusal, 0 where there is none, with so many bytes taken; an
 * end behind them answers so. */
static void says(const uint8_t *bytes, size_t n, size_t entries, uint32_t last, uint8_t refusal_, size_t taken, uint8_t at_end)
{
    t.n = 0;
    add(bytes, n);
    understand(&t, 0);
    CHECK(t.said.count == entries && t.said.refusal == refusal_ && t.said.taken == taken);
    CHECK(entries == 0 || t.said.entries[entries - 1].seconds == last);
    CHECK((refusal_ ? refusal_ : ends_with(&t.said.behind)) == at_end);
    every_cut(n, false);
    every_cut(n, true);
    written_again(&t);
}

#define BYTES(...) ((const uint8_t[]){__VA_ARGS__}), sizeof((const uint8_t[]){__VA_ARGS__})
#define SMALLEST 0xC8, 2, 0, 0

static void edges(void)
{
    enum { OK = 0, LOG = CRSF_INVALID_LOG, FRAME = CRSF_INVALID_FRAME };
    /* no bytes, the 1 alone, another first number, malformed ones */
    says(BYTES(0) - 1, 0, 0, 0, 0, LOG);
    says(BYTES(1), 0, 0, 0, 1, OK);
    says(BYTES(0), 0, 0, LOG, 1, LOG);
    says(BYTES(2), 0, 0, LOG, 1, LOG);
    says(BYTES(0x7F), 0, 0, LOG, 1, LOG);
    says(BYTES(0x81), 0, 0, 0, 1, LOG);
    says(BYTES(0x81, 0), 0, 0, LOG, 2, LOG);
    says(BYTES(0x81, 1), 0, 0, LOG, 2, LOG);
    says(BYTES(0x81, 0x80, 0x80, 0x80, 0x80), 0, 0, LOG, 5, LOG);
    /* seconds */
    says(BYTES(1, 0, 4, SMALLEST), 1, 0, 0, 7, OK);
    says(BYTES(1, 0x7F, 4, SMALLEST), 1, 127, 0, 7, OK);
    says(BYTES(1, 0x80, 1, 4, SMALLEST), 1, 128, 0, 8, OK);
    says(BYTES(1, 0xFF, 0xFF, 0xFF, 0xFF, 0x0F, 4, SMALLEST), 1, 0xFFFFFFFF, 0, 11, OK);
    says(BYTES(1, 0x80, 0x80, 0x80, 0x80, 0x10, 4, SMALLEST), 0, 0, LOG, 6, LOG);
    says(BYTES(1, 0x80, 0x80, 0x80, 0x80, 0x08, 4, SMALLEST), 1, 0x80000000, 0, 11, OK);
    says(BYTES(1, 0x80, 0, 4, SMALLEST), 0, 0, LOG, 3, LOG);
    says(BYTES(1, 0x80, 0x80, 0x80, 0x80, 0, 4, SMALLEST), 0, 0, LOG, 6, LOG);
    says(BYTES(1, 0x80, 0x80, 0x80, 0x80, 0x80, 1, 4, SMALLEST), 0, 0, LOG, 6, LOG);
    says(BYTES(1, 0xFF, 0xFF, 0xFF, 0xFF, 0xFF), 0, 0, LOG, 6, LOG);
    says(BYTES(1, 0xFF, 0xFF, 0xFF, 0xFF, 0x7F), 0, 0, LOG, 6, LOG);
    /* lengths: form first, and then what it means */
    says(BYTES(1, 0, 0), 0, 0, FRAME, 3, FRAME);
    says(BYTES(1, 0, 3, SMALLEST), 0, 0, FRAME, 3, FRAME);
    says(BYTES(1, 0, 4), 0, 0, 0, 3, LOG);
    says(BYTES(1, 0, 64), 0, 0, 0, 3, LOG);
    says(BYTES(1, 0, 65), 0, 0, FRAME, 3, FRAME);
    says(BYTES(1, 0, 0x7F), 0, 0, FRAME, 3, FRAME);
    says(BYTES(1, 0, 0x84), 0, 0, 0, 3, LOG);
    says(BYTES(1, 0, 0x84, 0), 0, 0, LOG, 4, LOG);
    says(BYTES(1, 0, 0x84, 1), 0, 0, FRAME, 4, FRAME);
    says(BYTES(1, 0, 0xFF, 0xFF, 0xFF, 0xFF, 0x0F), 0, 0, FRAME, 7, FRAME);
    says(BYTES(1, 0, 0x80, 0x80, 0x80, 0x80, 0x10), 0, 0, LOG, 7, LOG);
    says(BYTES(1, 0, 0x80, 0x80, 0x80, 0x80, 0x80), 0, 0, LOG, 7, LOG);
    /* frames: the address, the length byte, the check byte */
    says(BYTES(1, 0, 4, 0xC9, 2, 0, 0), 0, 0, FRAME, 4, FRAME);
    says(BYTES(1, 0, 4, 0xC8, 3, 0, 0), 0, 0, FRAME, 5, FRAME);
    says(BYTES(1, 0, 5, 0xC8, 2, 0, 0, 0), 0, 0, FRAME, 5, FRAME);
    says(BYTES(1, 0, 4, 0xC8, 2, 0, 1), 0, 0, FRAME, 7, FRAME);
    says(BYTES(1, 0, 4, 0xC8, 2, 7), 0, 0, 0, 6, LOG);
    /* behind an entry */
    says(BYTES(1, 9, 4, SMALLEST, 0x80), 1, 9, 0, 8, LOG);
    says(BYTES(1, 9, 4, SMALLEST, 0), 1, 9, 0, 8, LOG);
    says(BYTES(1, 9, 4, SMALLEST, 0, 4, 0xC8), 1, 9, 0, 10, LOG);
    says(BYTES(1, 9, 4, SMALLEST, 0, 3, 0xC8), 1, 9, FRAME, 9, FRAME);
    says(BYTES(1, 9, 4, SMALLEST, 7, 4, SMALLEST), 2, 7, 0, 13, OK);
    /* every length of a frame, every first number of one byte, every length of one byte */
    for (size_t size = 4; size <= 64; size++) {
        t.n = 0;
        add((const uint8_t[]){1}, 1);
        add_entry(0xFFFFFFFF, some_address(), size);
        add_entry(size, some_address(), 68 - size);
        understand(&t, 0);
        CHECK(t.said.count == 2);
        every_cut(t.n, false);
        written_again(&t);
    }
    for (unsigned byte = 0; byte < 256; byte++) {
        says((const uint8_t[]){(uint8_t)byte}, 1, 0, 0, byte < 128 && byte != 1 ? LOG : 0, 1, byte == 1 ? OK : LOG);
        const uint8_t refusal_ = byte < 128 && (byte < 4 || byte > 64) ? FRAME : 0;
        says((const uint8_t[]){1, 0, (uint8_t)byte}, 3, 0, 0, refusal_, 3, refusal_ ? refusal_ : LOG);
    }
    /* the calls that the header has for its own struct; a call takes 71 bytes at most, and gives the frame from the seventh on */
    crsf_log_state state;
    uint8_t bytes[71] = {1}, one[64];
    uint32_t seconds = 0;
    memset(&state, 0, sizeof state);
    make_frame(one, 0xC8, 64);
    CHECK(sizeof state == CRSF_LOG_STATE_SIZE && 1 + put_entry(bytes + 1, 0xFFFFFFFF, one, 64) == CRSF_LOG_TAKEN_MAX);
    const crsf_answer a = crsf_log_read(&state, bytes, sizeof bytes, &seconds);
    CHECK(is(a, CRSF_FRAME, 71, 0, 7, 64, 0, 0) && seconds == 0xFFFFFFFF && crsf_log_frame_bytes(&state, bytes, a) == bytes + 7);
    CHECK(refusal(crsf_log_finish(&state), CRSF_OK) && state.stage == 4);
    CHECK(refusal(crsf_log_read(&state, NULL, 0, &seconds), CRSF_MORE) && state.stage == 4);
    CHECK(refusal(crsf_log_finish(&state), CRSF_OK) && state.stage == 4);
    CHECK(refusal(crsf_log_read(&state, bytes, 1, &seconds), CRSF_INVALID_LOG) && state.stage == 5);
    CHECK(refusal(crsf_log_finish(&state), CRSF_INVALID_LOG) && refusal(crsf_log_forget(&state), CRSF_OK) && state.stage == 0);
    CHECK(is(crsf_log_read(&state, bytes, 70, &seconds), CRSF_MORE, 70, 0, 0, 0, 0, 0) && state.count == 63 && state.size == 64);
    const crsf_answer last = crsf_log_read(&state, bytes + 70, 1, &seconds);
    CHECK(is(last, CRSF_FRAME, 1, 1, 11, 64, 0, 0) && crsf_log_frame_bytes(&state, bytes + 70, last) == state.places);
}

/* ---- States --------------------------------------------------------------------------------------------------------------------------------- */

static uint32_t number_at(const uint8_t *four)
{
    return (uint32_t)four[0] << 24 | (uint32_t)four[1] << 16 | (uint32_t)four[2] << 8 | four[3];
}

/* Whether some log leads to these 75 bytes. */
static bool is_state(const uint8_t *state)
{
    const uint8_t stage = state[0], groups = state[1], size = state[2], *held = state + FIELDS;
    if (stage <= 2)
        return groups <= 4 && number_at(state + 3) < (uint64_t)1 << (7 * groups);
    if (stage == 3)
        return size >= 4 && size <= 64 && groups < size && (groups < 1 || listed(held[0])) && (groups < 2 || held[1] == size - 2);
    return stage <= 6;
}

/* A string that leads to a state of stage 0 to 3. */
static void leads_to(const uint8_t *state)
{
    t.n = 0;
    if (state[0] > 0)
        add((const uint8_t[]){1}, 1);
    if (state[0] > 1)
        t.n += put_number(t.bytes + t.n, number_at(state + 7));
    if (state[0] == 3) {
        add(&state[2], 1);
        add(state + FIELDS, state[1]);
    } else
        for (unsigned i = 0; i < state[1]; i++)
            add((const uint8_t[]){(uint8_t)(0x80 | (number_at(state + 3) >> (7 * i) & 0x7F))}, 1);
}

/* How many states were lent that are refused, that read on, and that have ended or refused: so that none of the three is left out unseen. */
static unsigned bad_states, reading_states, closed_states;

/* These 75 bytes, lent to each call with some bytes: refused with 8 and unchanged, or read on as behind a string that leads there. */
static void lent(const uint8_t *state, const uint8_t *input, size_t n)
{
    uint8_t bytes[CRSF_LOG_STATE_SIZE];
    uint32_t seconds = 0x5EC04D5;
    memcpy(bytes, state, sizeof bytes);
    if (!is_state(state)) {
        bad_states++;
        CHECK(refusal(crsf_log_next(bytes, sizeof bytes, input, n, &seconds), CRSF_BAD_STATE));
        CHECK(refusal(crsf_log_next(bytes, sizeof bytes, NULL, 0, &seconds), CRSF_BAD_STATE));
        CHECK(refusal(crsf_log_end(bytes, sizeof bytes), CRSF_BAD_STATE));
        CHECK(memcmp(bytes, state, sizeof bytes) == 0 && seconds == 0x5EC04D5);
        CHECK(refusal(crsf_log_reset(bytes, sizeof bytes), CRSF_OK));
        const stand reset = standing(0, 0, 0, 0, 0);
        CHECK(memcmp(bytes, reset.fields, FIELDS) == 0 && memcmp(bytes + FIELDS, state + FIELDS, 64) == 0);
        return;
    }
    const uint8_t stage = state[0];
    if (stage >= 4) {
        closed_states++;
        const uint8_t next = stage >= 5 ? stage + 4 : n ? CRSF_INVALID_LOG : CRSF_MORE;
        const stand after = standing(stage == 4 && n ? 5 : stage, 0, 0, 0, 0), ended = standing(stage, 0, 0, 0, 0);
        CHECK(refusal(crsf_log_next(bytes, sizeof bytes, input, n, &seconds), next) && seconds == 0x5EC04D5);
        CHECK(memcmp(bytes, after.fields, FIELDS) == 0);
        memcpy(bytes, state, sizeof bytes);
        CHECK(refusal(crsf_log_end(bytes, sizeof bytes), stage == 4 ? CRSF_OK : stage + 4));
        CHECK(memcmp(bytes, ended.fields, FIELDS) == 0);
        return;
    }
    reading_states++;
    leads_to(state);
    const size_t from = t.n;
    add(input, n);
    understand(&t, from);
    reader r;
    begin(&r, &t, false);
    r.from = from;
    memcpy(state_of(&r), state, sizeof bytes);
    CHECK(t.behind[from].fields[0] == stage && t.said.taken >= from);
    piece(&r, t.n);
    end(&r);
    begin(&r, &t, false);
    r.from = from;
    memcpy(state_of(&r), state, sizeof bytes);
    end(&r);
}

/* A state, and each of its first eleven bytes and of its first held ones changed to each other one. */
static void about(const uint8_t *state)
{
    uint8_t changed[CRSF_LOG_STATE_SIZE], input[3][80];
    static const uint8_t first[3] = {0x01, 0x80, 0xC8};
    for (size_t i = 0; i < 3; i++) {
        for (size_t k = 0; k < sizeof input[i]; k++)
            input[i][k] = (uint8_t)noise();
        input[i][0] = first[i];
    }
    for (size_t i = 0; i < FIELDS + 4; i++)
        for (unsigned byte = 0; byte < 256; byte++) {
            /* anew each time: gcc 12 drops a store at the loop's end that puts the byte back */
            memcpy(changed, state, sizeof changed);
            changed[i] = (uint8_t)byte;
            lent(changed, NULL, 0);
            lent(changed, input[byte % 3], 1 + noise() % sizeof input[0]);
        }
}

static void states(void)
{
    uint8_t state[CRSF_LOG_STATE_SIZE];
    CHECK(CRSF_LOG_STATE_SIZE == 75);
    memset(state, 0, sizeof state);
    about(state);
    /* every beginning of the three entries, as a reader leaves its state; at each of them all changes */
    three_entries();
    static text three;
    three = t;
    for (size_t n = 0; n <= three.n; n++) {
        reader r;
        begin(&r, &three, false);
        piece(&r, n);
        memcpy(state, state_of(&r), sizeof state);
        spoil(state);
        about(state);
    }
    /* each stage with each count and each size, values about the greatest that a count has, and any bytes */
    for (unsigned stage = 0; stage < 9; stage++)
        for (unsigned groups = 0; groups < 67; groups++)
            for (unsigned turn = 0; turn < 70; turn++) {
                for (size_t i = 0; i < sizeof state; i++)
                    state[i] = (uint8_t)noise();
                state[0] = (uint8_t)stage;
                state[1] = (uint8_t)groups;
                state[2] = (uint8_t)turn;
                if (groups < 5)
                    high_first(state + 3, (uint32_t)(((uint64_t)1 << (7 * groups)) + turn % 5 - 3));
                if (turn % 4)
                    state[FIELDS] = some_address();
                if (turn % 4 > 1)
                    state[FIELDS + 1] = (uint8_t)(turn - 2);
                lent(state, NULL, 0);
                lent(state, (const uint8_t[]){1, 0, 4, SMALLEST}, 1 + noise() % 7);
            }
    CHECK(bad_states > 200000 && reading_states > 200000 && closed_states > 10000);
    /* other lengths */
    static uint8_t many[400], before[400];
    for (size_t n = 0; n <= 332; n++)
        for (unsigned fill = 0; fill < 2; fill++)
            if (n != CRSF_LOG_STATE_SIZE) {
                uint32_t seconds = 0x5EC04D5;
                memset(many, fill ? 0x5A : 0, sizeof many);
                memcpy(before, many, sizeof many);
                CHECK(refusal(crsf_log_next(many, n, BYTES(1, 0, 4, SMALLEST), &seconds), CRSF_BAD_STATE));
                CHECK(refusal(crsf_log_next(many, n, NULL, 0, &seconds), CRSF_BAD_STATE));
                CHECK(refusal(crsf_log_end(many, n), CRSF_BAD_STATE));
                CHECK(refusal(crsf_log_reset(many, n), CRSF_BAD_STATE));
                CHECK(memcmp(before, many, sizeof many) == 0 && seconds == 0x5EC04D5);
            }
    uint32_t seconds = 0x5EC04D5;
    CHECK(refusal(crsf_log_next(NULL, 0, NULL, 0, &seconds), CRSF_BAD_STATE) && seconds == 0x5EC04D5);
    CHECK(refusal(crsf_log_end(NULL, 0), CRSF_BAD_STATE) && refusal(crsf_log_reset(NULL, 0), CRSF_BAD_STATE));
}

/* ---- The writer ----------------------------------------------------------------------------------------------------------------------------- */

/* One entry into so much room: what is answered, and every byte of the buffer. */
static void writes(uint32_t seconds, const uint8_t *bytes, size_t n, size_t room)
{
    uint8_t want[90], got[90], whole[90];
    memset(want, 0xAA, sizeof want);
    memset(got, 0xAA, sizeof got);
    const crsf_answer a = crsf_log_entry(seconds, n ? bytes : NULL, n, room ? got : NULL, room);
    if (!one_whole_frame(bytes, n))
        CHECK(refusal(a, CRSF_INVALID_FRAME));
    else {
        const size_t len = put_entry(whole, seconds, bytes, n);
        if (room < len)
            CHECK(refusal(a, CRSF_BUFFER_OVERFLOW));
        else {
            CHECK(count(a, (uint8_t)len) && len <= CRSF_LOG_ENTRY_MAX);
            memcpy(want, whole, len);
        }
    }
    CHECK(memcmp(got, want, sizeof want) == 0);
}

static void every_room(uint32_t seconds, const uint8_t *bytes, size_t n)
{
    for (size_t room = 0; room <= 80; room++)
        writes(seconds, bytes, n, room);
}

static void writer(void)
{
    uint8_t one[80], out[4];
    shown = NULL;
    for (size_t room = 0; room <= 4; room++) {
        memset(out, 0xAA, sizeof out);
        const crsf_answer a = crsf_log_start(room ? out : NULL, room);
        CHECK(room ? count(a, CRSF_LOG_START_SIZE) && out[0] == 1 : refusal(a, CRSF_BUFFER_OVERFLOW) && out[0] == 0xAA);
        CHECK(out[1] == 0xAA && out[2] == 0xAA && out[3] == 0xAA);
    }
    for (size_t size = 4; size <= 64; size++)
        for (size_t i = 0; i < SECONDS; i++) {
            memset(one, 0, sizeof one);
            make_frame(one, some_address(), size);
            every_room(all_seconds[i], one, size);
            /* a byte less, a byte more, and of every other number of bytes */
            writes(all_seconds[i], one, size - 1, 80);
            writes(all_seconds[i], one, size + 1, 80);
            for (size_t n = 0; n <= sizeof one; n++)
                writes(all_seconds[i], one, n, noise() % 81);
        }
    for (unsigned bit = 0; bit < 32; bit++)
        for (unsigned less = 0; less < 2; less++) {
            make_frame(one, some_address(), 4 + bit);
            every_room(((uint32_t)1 << bit) - less, one, 4 + bit);
        }
    /* each byte of a frame changed to each other one, with room and without */
    static const size_t sizes[] = {4, 5, 14, 26, 63, 64};
    for (size_t s = 0; s < 6; s++) {
        make_frame(one, 0xC8, sizes[s]);
        for (size_t i = 0; i < sizes[s]; i++) {
            const uint8_t was = one[i];
            for (unsigned byte = 0; byte < 256; byte++) {
                one[i] = (uint8_t)byte;
                writes(some_seconds(), one, sizes[s], 80);
                const uint32_t seconds = some_seconds();
                writes(seconds, one, sizes[s], noise() % 8);
            }
            one[i] = was;
        }
    }
    /* 10 comes before 5, and lengths whose low byte is a good one */
    static uint8_t many[600];
    make_frame(many, 0xC8, 64);
    for (size_t n = 65; n <= sizeof many; n++) {
        memset(one, 0xAA, sizeof one);
        many[1] = (uint8_t)(n - 2);
        many[n - 1] = check_byte(many + 2, n - 3);
        CHECK(refusal(crsf_log_entry(0, many, n, one, sizeof one), CRSF_INVALID_FRAME));
        CHECK(refusal(crsf_log_entry(0, many, n, NULL, 0), CRSF_INVALID_FRAME));
        for (size_t i = 0; i < sizeof one; i++)
            CHECK(one[i] == 0xAA);
        many[n - 1] = 0;
    }
    CHECK(refusal(crsf_log_entry(0, NULL, 0, NULL, 0), CRSF_INVALID_FRAME));
}

/* A log written by the archive, entry by entry, is the model's, and is read as what was written. */
static void there_and_back(void)
{
    for (unsigned turn = 0; turn < 1000; turn++) {
        uint8_t out[LONGEST];
        size_t at = crsf_log_start(out, sizeof out).len;
        t.n = 0;
        add((const uint8_t[]){1}, 1);
        for (size_t left = noise() % 12; left; left--) {
            const size_t first = t.n;
            const entry e = add_some_entry();
            const crsf_answer a = crsf_log_entry(e.seconds, t.bytes + e.at, e.len, out + at, sizeof out - at);
            CHECK(count(a, (uint8_t)(t.n - first)));
            at += a.len;
        }
        CHECK(at == t.n && memcmp(out, t.bytes, at) == 0);
        understand(&t, 0);
        CHECK(t.said.refusal == 0 && ends_with(&t.said.behind) == CRSF_OK);
        in_pieces(&t, t.n, LONGEST, false);
        in_pieces(&t, t.n, 1 + turn % 80, false);
        in_any(&t);
        written_again(&t);
    }
}

int main(void)
{
    atexit(show);
    edges();
    beginnings();
    changes();
    two_changes();
    short_strings();
    at_random();
    states();
    writer();
    there_and_back();
    shown = NULL;
    printf("C: %u checks of kit logs hold\n", checks);
    return 0;
}
