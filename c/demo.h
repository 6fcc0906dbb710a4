/* What the two files of the demo share. */
#ifndef DEMO_H
#define DEMO_H

#include "orbelundri.h"

/* Counts an answer; a wrong one is told. */
void answer(int right, const char *what);

/* Pages by the wall's table, of 140 bytes, and by the one with overlap, of 148. */
void paging(const uint8_t *table);
void paging_overlap(const uint8_t *table);

static inline int is_of_kind(orb_sample s, uint32_t kind, uint32_t width, uint32_t raw, int64_t value) {
    return s.number == 0 && s.kind == kind && s.width == width && s.raw == raw && s.value == value;
}

static inline int is_sample(orb_sample s, uint32_t width, uint32_t raw, int64_t value) {
    return is_of_kind(s, 1, width, raw, value);
}

static inline int is_refused(orb_sample s, uint32_t number) {
    return s.number == number && s.kind == 0 && s.width == 0 && s.raw == 0 && s.value == 0;
}

#endif
