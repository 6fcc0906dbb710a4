/* A card's search in plain C, three times: position by position; as the library does it, eight positions with a load; and as
 * quick as plain C was found to be. */
#include "calls.h"
#include "plain.h"

enum { ROWS = 64, LONGEST = 65536 };

/* Some bits that a frame must have: where they stand, counted from its first bit, how many, and the number that they are. */
typedef struct {
    size_t at;
    uint32_t width, want;
} row;

/* The identifiers' components, and the frame's bits. */
typedef struct {
    row rows[ROWS];
    uint32_t count;
    size_t bits;
} sieve;

/* Every component is its bits of the value, also those that overlap. */
static void sift_more(const uint8_t *t, const uint8_t *parameter, const size_t *begins, sieve *s) {
    uint32_t size = component_size_of(get2(t + 14));
    const uint8_t *sample = t + get4(t + 24) + 8 * get2(parameter + 8);
    const uint8_t *component = t + get4(t + 28) + size * get2(sample + 4);
    uint64_t rest = get4(parameter + 12);
    for (uint32_t k = 0; k < get2(sample + 6) && s->count < ROWS; k++, component += size) {
        uint32_t home = get2(component) - 1u, width = component[5] - component[4] + 1u;
        size_t at = begins[home] + (get2(component + 2) - 1u) * get2(t + 36 + 20 * home) + component[4] - 1u;
        s->rows[s->count++] = (row){at, width, (uint32_t)rest & ((1u << width) - 1)};
        rest >>= width - (size == 8 ? component[6] : 0u);
    }
}

static void sieve_of(const uint8_t *t, sieve *s) {
    size_t begins[32];
    s->bits = 0;
    s->count = 0;
    for (uint32_t i = 0; i < get2(t + 4); i++) {
        const uint8_t *f = t + 36 + 20 * i;
        begins[i] = s->bits + get2(f + 4);
        s->bits += get2(f + 4) + get2(f + 2) * get2(f) + get2(f + 6);
    }
    for (uint32_t i = 0; i < get2(t + 6); i++) {
        const uint8_t *parameter = t + get4(t + 20) + 16 * i;
        if (parameter[3] >= 2) {
            sift_more(t, parameter, begins, s);
        }
    }
}

/* The n bits from bit k on, at most 16; zeros beyond the end. */
static inline uint32_t bits_at(const uint8_t *stream, size_t length, size_t k, uint32_t n) {
    size_t a = k / 8;
    uint32_t v = 0;
    if (a + 4 <= length) {
        memcpy(&v, stream + a, 4);
    } else {
        for (size_t i = 0; i < 3 && a + i < length; i++) {
            v |= (uint32_t)stream[a + i] << (8 * i);
        }
    }
    return v >> (k % 8) & ((1u << n) - 1);
}

static inline bool sifts(const uint8_t *stream, size_t length, size_t p, const sieve *s, uint32_t from) {
    for (uint32_t e = from; e < s->count; e++) {
        if (bits_at(stream, length, p + s->rows[e].at, s->rows[e].width) != s->rows[e].want) {
            return false;
        }
    }
    return true;
}

/* Position after position, identifier after identifier, each read where it stands; the first that differs ends the position. */
static size_t search_each(const uint8_t *stream, size_t length, size_t from, const sieve *s) {
    for (size_t p = from; p + s->bits <= 8 * length; p++) {
        if (sifts(stream, length, p, s, 0)) {
            return p;
        }
    }
    return 8 * length + 1;
}

/* From one of the eight lowest bits of v on the bits under the mask are `want`. */
static inline bool one_of_eight(uint64_t v, uint64_t mask, uint64_t want) {
    return (v & mask) == want || (v >> 1 & mask) == want || (v >> 2 & mask) == want || (v >> 3 & mask) == want ||
           (v >> 4 & mask) == want || (v >> 5 & mask) == want || (v >> 6 & mask) == want || (v >> 7 & mask) == want;
}

/* A position from k on before which the n bits are never `want`. */
static size_t skip_unlike(const uint8_t *stream, size_t length, size_t k, uint32_t n, uint64_t want) {
    uint64_t mask = ((uint64_t)1 << n) - 1;
    size_t a = k / 8;
    for (; a + 4 <= length; a++) {
        uint64_t v = get4(stream + a);
        if (one_of_eight(v, mask, want)) {
            for (size_t q = 8 * a < k ? k : 8 * a; q < 8 * a + 8; q++) {
                if ((v >> (q - 8 * a) & mask) == want) {
                    return q;
                }
            }
        }
    }
    return 8 * a < k ? k : 8 * a;
}

/* The library's search: the first row passes over most positions, and the rest is as above. */
static size_t search_bytes(const uint8_t *stream, size_t length, size_t from, const sieve *s) {
    row r = s->rows[0];
    size_t p = skip_unlike(stream, length, from + r.at, r.width, r.want) - r.at;
    while (p + s->bits <= 8 * length) {
        if (sifts(stream, length, p, s, 0)) {
            return p;
        }
        p = skip_unlike(stream, length, p + 1 + r.at, r.width, r.want) - r.at;
    }
    return 8 * length + 1;
}

/* The first row's bits by a window of 64, 32 positions with each load, without a test between them. */
static size_t search_windows(const uint8_t *stream, size_t length, size_t from, const sieve *s) {
    size_t p = from, at = s->rows[0].at, end = 8 * length;
    uint64_t mask = ((uint64_t)1 << s->rows[0].width) - 1, want = s->rows[0].want;
    while (p + s->bits <= end) {
        size_t a = (p + at) / 8;
        if (a + 8 > length) {
            return search_each(stream, length, p, s);
        }
        uint64_t v;
        memcpy(&v, stream + a, 8);
        v >>= (p + at) % 8;
        uint32_t hits = 0;
        for (uint32_t j = 0; j < 32; j++) {
            hits |= (uint32_t)((v >> j & mask) == want) << j;
        }
        for (; hits != 0; hits &= hits - 1) {
            size_t q = p + (size_t)__builtin_ctz(hits);
            if (q + s->bits <= end && sifts(stream, length, q, s, 1)) {
                return q;
            }
        }
        p += 32;
    }
    return end + 1;
}

static size_t hand_out(const uint8_t *t, const uint8_t *stream, size_t length, size_t p, uint16_t *words) {
    size_t count = 0;
    for (uint32_t i = 0; i < get2(t + 4); i++) {
        const uint8_t *f = t + 36 + 20 * i;
        p += get2(f + 4);
        for (uint32_t w = 0; w < get2(f + 2); w++, p += get2(f)) {
            words[count++] = (uint16_t)bits_at(stream, length, p, get2(f));
        }
        p += get2(f + 6);
    }
    return count;
}

/* Nobody can tell what the margins of form 1 are. */
static bool margins_known(const uint8_t *t) {
    for (uint32_t i = 0; i < get2(t + 4); i++) {
        const uint8_t *f = t + 36 + 20 * i;
        if (get2(f + 4) == UNKNOWN || get2(f + 6) == UNKNOWN) {
            return false;
        }
    }
    return get2(t + 14) != 1;
}

static size_t words_of(const uint8_t *t) {
    size_t count = 0;
    for (uint32_t i = 0; i < get2(t + 4); i++) {
        count += get2(t + 36 + 20 * i + 2);
    }
    return count;
}

static orb_carded card_by(size_t (*searched)(const uint8_t *, size_t, size_t, const sieve *), const uint8_t *table,
                          size_t table_len, const uint8_t *stream, size_t stream_len, uint32_t from, uint16_t *words,
                          size_t words_len) {
    if (plain_check(table, table_len) != 0) {
        return (orb_carded){18, 0, 0};
    }
    if (get2(table + 6) == 0) {
        return (orb_carded){27, 0, 0};
    }
    if (!margins_known(table)) {
        return (orb_carded){26, 0, 0};
    }
    if (stream_len > LONGEST) {
        return (orb_carded){38, 0, 0};
    }
    sieve s;
    sieve_of(table, &s);
    size_t p = searched(stream, stream_len, from, &s);
    if (p > 8 * stream_len) {
        return (orb_carded){25, 0, 0};
    }
    if (words_len < words_of(table)) {
        return (orb_carded){28, 0, 0};
    }
    return (orb_carded){0, (uint32_t)p, (uint32_t)hand_out(table, stream, stream_len, p, words)};
}

orb_carded each_card_from(const uint8_t *table, size_t table_len, const uint8_t *stream, size_t stream_len, uint32_t from,
                          uint16_t *words, size_t words_len) {
    return card_by(search_each, table, table_len, stream, stream_len, from, words, words_len);
}

orb_carded plain_card_from(const uint8_t *table, size_t table_len, const uint8_t *stream, size_t stream_len, uint32_t from,
                           uint16_t *words, size_t words_len) {
    return card_by(search_bytes, table, table_len, stream, stream_len, from, words, words_len);
}

orb_carded quick_card_from(const uint8_t *table, size_t table_len, const uint8_t *stream, size_t stream_len, uint32_t from,
                           uint16_t *words, size_t words_len) {
    return card_by(search_windows, table, table_len, stream, stream_len, from, words, words_len);
}
