/* The library's jobs once more, in plain C and without a proof: the measure for its speed. Each function does the whole
 * job of the orb_ function of the same name, with the same answers. */
#ifndef PLAIN_H
#define PLAIN_H

#include "orbelundri.h"

orb_made plain_make(const uint8_t *sheet, size_t sheet_len, uint8_t *table, size_t table_len);

uint32_t plain_check(const uint8_t *table, size_t table_len);

orb_sample plain_read(const uint8_t *table, size_t table_len, const uint16_t *words, size_t words_len,
                      uint32_t parameter, uint32_t sample);

/* One check and one fit of the frame for the whole page. */
orb_paged plain_page(const uint8_t *table, size_t table_len, const uint16_t *words, size_t words_len,
                     const orb_request *requests, size_t requests_len, orb_sample *results, size_t results_len);

/* After one check the frame so many times over: the values of all its samples, as far as there is room. Answers how many
 * it has, or 0 where table or frame is refused. */
size_t plain_read_all(const uint8_t *table, size_t table_len, const uint16_t *words, size_t words_len, int64_t *values,
                      size_t room, uint32_t times);

/* A card's first frame from a bit on: position by position; as the library looks for it; by windows of 64 bits, the quickest
 * found. */
orb_carded each_card_from(const uint8_t *table, size_t table_len, const uint8_t *stream, size_t stream_len, uint32_t from,
                          uint16_t *words, size_t words_len);
orb_carded plain_card_from(const uint8_t *table, size_t table_len, const uint8_t *stream, size_t stream_len, uint32_t from,
                           uint16_t *words, size_t words_len);
orb_carded quick_card_from(const uint8_t *table, size_t table_len, const uint8_t *stream, size_t stream_len, uint32_t from,
                           uint16_t *words, size_t words_len);

/* A margin that is not known, from form 2 on. */
enum { UNKNOWN = 65535 };

/* From form 3 on a component has an overlap and a zero byte. */
static inline uint32_t component_size_of(uint32_t form) { return form < 3 ? 6 : 8; }

/* Numbers in a table's bytes, the lowest byte first. */
static inline uint32_t get2(const uint8_t *t) { return t[0] | (uint32_t)t[1] << 8; }

static inline uint32_t get4(const uint8_t *t) { return get2(t) | get2(t + 2) << 16; }

static inline uint64_t get8(const uint8_t *t) { return get4(t) | (uint64_t)get4(t + 4) << 32; }

static inline void put2(uint8_t *t, uint32_t n) {
    t[0] = (uint8_t)n;
    t[1] = (uint8_t)(n >> 8);
}

static inline void put4(uint8_t *t, uint32_t n) {
    put2(t, n);
    put2(t + 2, n >> 16);
}

static inline void put8(uint8_t *t, uint64_t n) {
    put4(t, (uint32_t)n);
    put4(t + 4, (uint32_t)(n >> 32));
}

static inline uint64_t common_divisor(uint64_t a, uint64_t b) {
    while (b != 0) {
        uint64_t rest = a % b;
        a = b;
        b = rest;
    }
    return a;
}

/* A byte loop: most texts are short, and a call would cost more than the comparison. */
static inline bool same_bytes(const uint8_t *a, const uint8_t *b, size_t n) {
    for (size_t i = 0; i < n; i++) {
        if (a[i] != b[i]) {
            return false;
        }
    }
    return true;
}

#endif
