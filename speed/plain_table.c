/* The check of a table and the reading of samples, in plain C. */
#include "plain.h"

/* Where the parts of a table begin, and how many entries each has. */
typedef struct {
    const uint8_t *subframes, *parameters, *samples, *components, *text;
    uint32_t form, component_size, subframe_count, parameter_count, sample_count, component_count, text_length;
} view;

static bool counts_ok(const view *v) {
    return 1 <= v->subframe_count && v->subframe_count <= 32 && v->parameter_count <= 512 && v->sample_count <= 4096 &&
           v->component_count <= 4096;
}

/* The header; every offset follows from the counts. */
static bool open_table(const uint8_t *t, size_t length, view *v) {
    if (length < 36 || get4(t) != length) {
        return false;
    }
    v->subframe_count = get2(t + 4);
    v->parameter_count = get2(t + 6);
    v->sample_count = get2(t + 8);
    v->component_count = get2(t + 10);
    v->form = get2(t + 14);
    if (!counts_ok(v) || get2(t + 12) > 1 || v->form < 1 || v->form > 3) {
        return false;
    }
    v->component_size = component_size_of(v->form);
    uint32_t parameters = 36 + 20 * v->subframe_count;
    uint32_t samples = parameters + 16 * v->parameter_count;
    uint32_t components = samples + 8 * v->sample_count;
    uint32_t text = components + v->component_size * v->component_count;
    if (get4(t + 16) != 36 || get4(t + 20) != parameters || get4(t + 24) != samples || get4(t + 28) != components ||
        get4(t + 32) != text || text > length) {
        return false;
    }
    v->subframes = t + 36;
    v->parameters = t + parameters;
    v->samples = t + samples;
    v->components = t + components;
    v->text = t + text;
    v->text_length = (uint32_t)length - text;
    return true;
}

static bool seconds_ok(uint64_t above, uint64_t below) {
    return above >= 1 && below >= 1 && below <= 1000000 && above < 1000000 * below && common_divisor(above, below) == 1;
}

/* Form 1 has no unknown margin. */
static bool margin_ok(uint32_t form, uint32_t margin) { return margin <= 4095 || (margin == UNKNOWN && form != 1); }

static bool subframe_ok(uint32_t form, const uint8_t *f) {
    uint32_t bits = get2(f), words = get2(f + 2);
    return 1 <= bits && bits <= 16 && 1 <= words && words <= 1024 && margin_ok(form, get2(f + 4)) &&
           margin_ok(form, get2(f + 6)) && seconds_ok(get8(f + 8), get4(f + 16));
}

static bool subframes_ok(const view *v) {
    for (uint32_t i = 0; i < v->subframe_count; i++) {
        if (!subframe_ok(v->form, v->subframes + 20 * i)) {
            return false;
        }
    }
    return true;
}

static bool text_ok(const uint8_t *text, uint32_t length) {
    if (length > 64) {
        return false;
    }
    for (uint32_t i = 0; i < length; i++) {
        if (text[i] < 32 || text[i] > 126 || text[i] == ',') {
            return false;
        }
    }
    return length == 0 || (text[0] != ' ' && text[length - 1] != ' ');
}

static bool component_ok(const view *v, const uint8_t *c) {
    uint32_t subframe = get2(c), word = get2(c + 2), low = c[4], high = c[5];
    if (subframe < 1 || subframe > v->subframe_count) {
        return false;
    }
    if (v->component_size == 8 && c[7] != 0) {
        return false;
    }
    const uint8_t *f = v->subframes + 20 * (subframe - 1);
    return 1 <= word && word <= get2(f + 2) && 1 <= low && low <= high && high <= get2(f);
}

/* How many of its top bits stand in the next component too: none before form 3. */
static uint32_t overlap_of(const view *v, const uint8_t *c) { return v->component_size == 8 ? c[6] : 0; }

/* Two components of one word with a bit in common. */
static bool clash(const uint8_t *a, const uint8_t *b) {
    return get4(a) == get4(b) && a[4] <= b[5] && b[4] <= a[5];
}

/* The width of a sample whose components begin here; 0 where one is bad, a bit stands twice, an overlap is not below its own
 * bits or above the next one's, the last one has some, or it is too wide. */
static uint32_t width_of(const view *v, const uint8_t *components, uint32_t count) {
    uint32_t width = 0, overlap = 0;
    for (uint32_t k = 0; k < count; k++) {
        const uint8_t *c = components + v->component_size * k;
        if (!component_ok(v, c)) {
            return 0;
        }
        for (uint32_t i = 0; i < k; i++) {
            if (clash(components + v->component_size * i, c)) {
                return 0;
            }
        }
        uint32_t bits = c[5] - c[4] + 1u;
        if (overlap > bits) {
            return 0;
        }
        overlap = overlap_of(v, c);
        if (overlap >= bits) {
            return 0;
        }
        width += bits - overlap;
    }
    return overlap == 0 && width <= 32 ? width : 0;
}

/* A sample whose first component is the next; its width, or 0. */
static uint32_t sample_width(const view *v, const uint8_t *s, uint32_t next) {
    uint32_t count = get2(s + 6);
    if (get4(s) > 999999999 || get2(s + 4) != next || count < 1 || count > 8 || next + count > v->component_count) {
        return 0;
    }
    return width_of(v, v->components + v->component_size * next, count);
}

/* All samples of a parameter have one width. Moves on past their components. */
static bool samples_ok(const view *v, uint32_t first, uint32_t count, uint32_t *components) {
    uint32_t width = 0;
    for (uint32_t j = first; j < first + count; j++) {
        const uint8_t *s = v->samples + 8 * j;
        uint32_t this_width = sample_width(v, s, *components);
        if (this_width == 0 || (j > first && this_width != width)) {
            return false;
        }
        width = this_width;
        *components += get2(s + 6);
    }
    return true;
}

static bool texts_ok(const uint8_t *e, const uint8_t *text) {
    return e[0] >= 1 && text_ok(text, e[0]) && text_ok(text + e[0], e[1]) && text_ok(text + e[0] + e[1], e[2]);
}

/* Every parameter, with its texts and samples at once behind those of the one before. */
static bool parameters_ok(const view *v) {
    uint32_t samples = 0, components = 0, text = 0;
    for (uint32_t i = 0; i < v->parameter_count; i++) {
        const uint8_t *e = v->parameters + 16 * i;
        uint32_t length = e[0] + e[1] + e[2], count = get2(e + 10);
        if (e[3] > 3 || get4(e + 4) != text || get2(e + 8) != samples || (e[3] < 2 && get4(e + 12) != 0)) {
            return false;
        }
        if (text + length > v->text_length || !texts_ok(e, v->text + text)) {
            return false;
        }
        if (count < 1 || count > 64 || samples + count > v->sample_count ||
            !samples_ok(v, samples, count, &components)) {
            return false;
        }
        text += length;
        samples += count;
    }
    return samples == v->sample_count && components == v->component_count && text == v->text_length;
}

static bool same_text(const uint8_t *a, uint32_t n, const uint8_t *b, uint32_t m) {
    return n == m && same_bytes(a, b, n);
}

/* Whether a name, or a mnemonic or identification that is not empty, is that of an earlier parameter. */
static bool repeats(const view *v, const uint8_t *d, const uint8_t *e) {
    const uint8_t *a = v->text + get4(d + 4), *b = v->text + get4(e + 4);
    if (same_text(a, d[0], b, e[0])) {
        return true;
    }
    if (e[1] != 0 && same_text(a + d[0], d[1], b + e[0], e[1])) {
        return true;
    }
    return e[2] != 0 && same_text(a + d[0] + d[1], d[2], b + e[0] + e[1], e[2]);
}

static bool names_ok(const view *v) {
    for (uint32_t i = 0; i < v->parameter_count; i++) {
        for (uint32_t k = 0; k < i; k++) {
            if (repeats(v, v->parameters + 16 * k, v->parameters + 16 * i)) {
                return false;
            }
        }
    }
    return true;
}

/* The subframe in which an identifier lies: 0 unless it has one sample in one subframe, is unsigned and its value fits. */
static uint32_t identified(const view *v, const uint8_t *e) {
    const uint8_t *s = v->samples + 8 * get2(e + 8);
    const uint8_t *components = v->components + v->component_size * get2(s + 4);
    uint32_t count = get2(s + 6), subframe = get2(components), width = 0;
    if (get2(e + 10) != 1 || (e[3] & 1) != 0) {
        return 0;
    }
    for (uint32_t k = 0; k < count; k++) {
        const uint8_t *c = components + v->component_size * k;
        if (get2(c) != subframe) {
            return 0;
        }
        width += c[5] - c[4] + 1u - overlap_of(v, c);
    }
    return (uint64_t)get4(e + 12) >> width == 0 ? subframe : 0;
}

/* Each identifier takes a subframe with a value of its own, and every subframe is taken. */
static bool identifiers_ok(const view *v) {
    bool taken[33] = {false};
    uint32_t values[32], found = 0;
    for (uint32_t i = 0; i < v->parameter_count; i++) {
        const uint8_t *e = v->parameters + 16 * i;
        if (e[3] < 2) {
            continue;
        }
        uint32_t subframe = identified(v, e);
        if (subframe == 0 || taken[subframe]) {
            return false;
        }
        for (uint32_t k = 0; k < found; k++) {
            if (values[k] == get4(e + 12)) {
                return false;
            }
        }
        taken[subframe] = true;
        values[found++] = get4(e + 12);
    }
    return v->parameter_count == 0 || found == v->subframe_count;
}

static bool is_table(const uint8_t *t, size_t length, view *v) {
    return open_table(t, length, v) && subframes_ok(v) && parameters_ok(v) && names_ok(v) && identifiers_ok(v);
}

uint32_t plain_check(const uint8_t *table, size_t table_len) {
    view v;
    return is_table(table, table_len, &v) ? 0 : 18;
}

/* How many words stand before each subframe; answers how many there are in all. */
static size_t bases_of(const view *v, size_t *before) {
    size_t sum = 0;
    for (uint32_t i = 0; i < v->subframe_count; i++) {
        before[i] = sum;
        sum += get2(v->subframes + 20 * i + 2);
    }
    return sum;
}

/* Every word is below two to its bits. */
static bool words_ok(const view *v, const uint16_t *words) {
    for (uint32_t i = 0; i < v->subframe_count; i++) {
        const uint8_t *f = v->subframes + 20 * i;
        uint32_t bits = get2(f), count = get2(f + 2);
        for (uint32_t w = 0; w < count; w++) {
            if (words[w] >> bits != 0) {
                return false;
            }
        }
        words += count;
    }
    return true;
}

/* 19, then 20. */
static uint32_t fit_of(const view *v, const uint16_t *words, size_t words_len, size_t *before) {
    if (bases_of(v, before) != words_len) {
        return 19;
    }
    return words_ok(v, words) ? 0 : 20;
}

/* The components joined, the least significant first, and the sign. Where two overlap the higher one's bits stand; the kind is 2
 * where the lower one's are others. */
static orb_sample join(const view *v, const size_t *before, const uint16_t *words, const uint8_t *s, bool is_signed) {
    const uint8_t *c = v->components + v->component_size * get2(s + 4);
    uint32_t count = get2(s + 6), width = 0, overlap = 0, kind = 1;
    uint64_t raw = 0;
    for (uint32_t k = 0; k < count; k++, c += v->component_size) {
        uint32_t word = words[before[get2(c) - 1] + get2(c + 2) - 1];
        uint32_t bits = c[5] - c[4] + 1u;
        uint64_t piece = word >> (c[4] - 1) & ((1u << bits) - 1);
        if (overlap != 0) {
            width -= overlap;
            if (raw >> width != (piece & ((1u << overlap) - 1))) {
                kind = 2;
            }
            raw &= ((uint64_t)1 << width) - 1;
        }
        raw |= piece << width;
        width += bits;
        overlap = overlap_of(v, c);
    }
    int64_t value = (int64_t)raw;
    if (is_signed && raw >> (width - 1) != 0) {
        value -= (int64_t)1 << width;
    }
    return (orb_sample){0, kind, width, (uint32_t)raw, value};
}

static orb_sample refused(uint32_t number) { return (orb_sample){number, 0, 0, 0, 0}; }

/* One sample of a checked table and a frame of this fit: 21, 22, then the frame's 19 or 20. */
static orb_sample asked(const view *v, uint32_t fit, const size_t *before, const uint16_t *words, uint32_t parameter,
                        uint32_t sample) {
    if (parameter < 1 || parameter > v->parameter_count) {
        return refused(21);
    }
    const uint8_t *e = v->parameters + 16 * (parameter - 1);
    if (sample < 1 || sample > get2(e + 10)) {
        return refused(22);
    }
    if (fit != 0) {
        return refused(fit);
    }
    return join(v, before, words, v->samples + 8 * (get2(e + 8) + sample - 1), e[3] & 1);
}

orb_sample plain_read(const uint8_t *table, size_t table_len, const uint16_t *words, size_t words_len, uint32_t parameter,
                      uint32_t sample) {
    view v;
    size_t before[32];
    if (!is_table(table, table_len, &v)) {
        return refused(18);
    }
    return asked(&v, fit_of(&v, words, words_len, before), before, words, parameter, sample);
}

orb_paged plain_page(const uint8_t *table, size_t table_len, const uint16_t *words, size_t words_len,
                     const orb_request *requests, size_t requests_len, orb_sample *results, size_t results_len) {
    view v;
    size_t before[32];
    if (requests_len > 256) {
        return (orb_paged){29, 0};
    }
    if (results_len < requests_len) {
        return (orb_paged){28, 0};
    }
    bool good = requests_len != 0 && is_table(table, table_len, &v);
    uint32_t fit = good ? fit_of(&v, words, words_len, before) : 18;
    for (size_t i = 0; i < requests_len; i++) {
        results[i] = good ? asked(&v, fit, before, words, requests[i].parameter, requests[i].sample) : refused(18);
    }
    return (orb_paged){0, (uint32_t)requests_len};
}

/* The values of all samples of a frame; 0 where it is refused. */
static size_t frame_values(const view *v, const uint16_t *words, size_t words_len, int64_t *values, size_t room) {
    size_t before[32], at = 0;
    if (fit_of(v, words, words_len, before) != 0) {
        return 0;
    }
    for (uint32_t i = 0; i < v->parameter_count; i++) {
        const uint8_t *e = v->parameters + 16 * i;
        const uint8_t *s = v->samples + 8 * get2(e + 8);
        uint32_t count = get2(e + 10);
        for (uint32_t j = 0; j < count; j++) {
            if (at == room) {
                return at;
            }
            values[at++] = join(v, before, words, s + 8 * j, e[3] & 1).value;
        }
    }
    return at;
}

size_t plain_read_all(const uint8_t *table, size_t table_len, const uint16_t *words, size_t words_len, int64_t *values,
                      size_t room, uint32_t times) {
    view v;
    size_t count = 0;
    if (!is_table(table, table_len, &v)) {
        return 0;
    }
    for (uint32_t n = 0; n < times; n++) {
        count = frame_values(&v, words, words_len, values, room);
    }
    return count;
}
