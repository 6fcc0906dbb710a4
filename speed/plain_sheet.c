/* From a sheet to its table, in plain C: one walk over the lines that judges and keeps what they say, then the writing. */
#include "plain.h"

enum { MOST_FIELDS = 14 };

typedef struct {
    const uint8_t *at;
    size_t length;
} piece;

typedef struct {
    uint32_t bits, words, leading, trailing, denominator;
    uint64_t numerator;
} subframe;

/* The texts are name, mnemonic and identification; line is that of the PARAMETER: keyword. */
typedef struct {
    piece texts[3];
    uint32_t value, line, first, count, width;
    bool identifier, is_signed;
} parameter;

typedef struct {
    uint32_t time, first, count;
} sample;

typedef struct {
    uint32_t subframe, word, low, high, overlap;
} component;

/* The sheet, the line in hand and its fields, and all that the lines have said so far. */
typedef struct {
    const uint8_t *at, *end;
    uint32_t line;
    size_t field_count;
    piece fields[MOST_FIELDS];
    bool sequential;
    uint32_t subframe_count, parameter_count, sample_count, component_count, text_length;
    subframe subframes[32];
    parameter parameters[512];
    sample samples[4096];
    component components[4096];
} book;

/* The functions below answer 0 or the number of the refusal; the line is the one in hand. */
#define TRY(call)             \
    do {                      \
        uint32_t no = (call); \
        if (no != 0) {        \
            return no;        \
        }                     \
    } while (0)

/* ---- fields ---- */

static bool is_blank(uint8_t b) { return b == ' ' || b == '\t'; }

static piece trimmed(const uint8_t *from, const uint8_t *to) {
    while (from < to && is_blank(*from)) {
        from++;
    }
    while (from < to && is_blank(to[-1])) {
        to--;
    }
    return (piece){from, (size_t)(to - from)};
}

static bool is_text(piece f, const char *text, size_t length) {
    return f.length == length && same_bytes(f.at, (const uint8_t *)text, length);
}

#define IS(f, text) is_text(f, text, sizeof(text) - 1)

static const uint8_t *find(piece f, uint8_t b) {
    for (size_t i = 0; i < f.length; i++) {
        if (f.at[i] == b) {
            return f.at + i;
        }
    }
    return NULL;
}

/* 7, 8, 6. */
static uint32_t text(piece f, size_t most, bool mandatory) {
    if (f.length > most) {
        return 7;
    }
    if (mandatory && f.length == 0) {
        return 8;
    }
    return find(f, '\t') != NULL ? 6 : 0;
}

static uint32_t texts(const piece *f, size_t count) {
    for (size_t k = 0; k < count; k++) {
        TRY(text(f[k], 200, false));
    }
    return 0;
}

static uint32_t empty(piece f) { return f.length == 0 ? 0 : 10; }

static uint32_t boolean(piece f, bool *says) {
    if (f.length == 0) {
        return 8;
    }
    *says = IS(f, "True") || IS(f, "true") || IS(f, "TRUE");
    return *says || IS(f, "False") || IS(f, "false") || IS(f, "FALSE") ? 0 : 6;
}

/* 1 to most digits that are the whole piece. */
static bool digits(piece f, size_t most, uint32_t base, uint64_t *value) {
    uint64_t sum = 0;
    if (f.length < 1 || f.length > most) {
        return false;
    }
    for (size_t i = 0; i < f.length; i++) {
        uint32_t digit = (uint32_t)f.at[i] - '0';
        if (digit >= base) {
            return false;
        }
        sum = sum * base + digit;
    }
    *value = sum;
    return true;
}

static uint32_t integer(piece f, size_t most_digits, uint64_t least, uint64_t most, uint32_t *value) {
    uint64_t v;
    if (f.length == 0) {
        return 8;
    }
    if (!digits(f, most_digits, 10, &v)) {
        return 6;
    }
    if (v < least || v > most) {
        return 11;
    }
    *value = (uint32_t)v;
    return 0;
}

/* Leading and trailing bits: empty says unknown. */
static uint32_t margin(piece f, uint32_t *value) {
    *value = UNKNOWN;
    return f.length == 0 ? 0 : integer(f, 6, 0, 4095, value);
}

/* A number that counts something declared: 11 for 0, 13 beyond. */
static uint32_t declared(piece f, uint32_t count, uint32_t *value) {
    TRY(integer(f, 6, 1, 999999, value));
    return *value > count ? 13 : 0;
}

/* Splits at a mark: false where there is none. */
static bool split(piece f, uint8_t mark, piece *left, piece *right) {
    const uint8_t *m = find(f, mark);
    if (m == NULL) {
        return false;
    }
    *left = (piece){f.at, (size_t)(m - f.at)};
    *right = (piece){m + 1, f.length - left->length - 1};
    return true;
}

/* A decimal in millionths; the field is not empty. */
static uint32_t decimal(piece f, size_t most_digits, uint64_t *millionths) {
    piece left, right;
    uint64_t whole, part = 0;
    if (!split(f, '.', &left, &right)) {
        left = f;
    } else if (!digits(right, 6, 10, &part)) {
        return 6;
    } else {
        for (size_t i = right.length; i < 6; i++) {
            part *= 10;
        }
    }
    if (!digits(left, most_digits, 10, &whole)) {
        return 6;
    }
    *millionths = 1000000 * whole + part;
    return 0;
}

/* Bits `a` or `a-b`: 8, 6, 11. */
static uint32_t bit_range(piece f, uint32_t *low, uint32_t *high) {
    piece left, right;
    uint64_t a, b;
    if (f.length == 0) {
        return 8;
    }
    if (split(f, '-', &left, &right)) {
        if (!digits(left, 6, 10, &a) || !digits(right, 6, 10, &b)) {
            return 6;
        }
    } else {
        if (!digits(f, 6, 10, &a)) {
            return 6;
        }
        b = a;
    }
    *low = (uint32_t)a;
    *high = (uint32_t)b;
    return a == 0 || a > b ? 11 : 0;
}

/* `N/D` or `W N/D`. */
static uint32_t fraction(piece left, piece right, uint64_t *above, uint64_t *below) {
    piece before, after;
    uint64_t whole = 0;
    bool mixed = split(left, ' ', &before, &after);
    if (mixed && !digits(before, 6, 10, &whole)) {
        return 6;
    }
    if (!digits(mixed ? after : left, 6, 10, above) || !digits(right, 6, 10, below)) {
        return 6;
    }
    if (*below == 0 || (mixed && (*above == 0 || *above >= *below))) {
        return 11;
    }
    *above += whole * *below;
    return 0;
}

static uint32_t seconds(piece f, subframe *s) {
    piece left, right;
    uint64_t above, below = 1000000;
    if (f.length == 0) {
        return 8;
    }
    if (split(f, '/', &left, &right)) {
        TRY(fraction(left, right, &above, &below));
    } else {
        TRY(decimal(f, 6, &above));
    }
    if (above == 0) {
        return 11;
    }
    uint64_t divisor = common_divisor(above, below);
    s->numerator = above / divisor;
    s->denominator = (uint32_t)(below / divisor);
    return 0;
}

/* ---- lines ---- */

static bool is_clean(const uint8_t *from, const uint8_t *to) {
    for (; from < to; from++) {
        if ((*from < 32 || *from > 126) && *from != '\t') {
            return false;
        }
    }
    return true;
}

/* Counts all fields and keeps as many as any line may have. A blank line has none. */
static void part_fields(book *b, const uint8_t *from, const uint8_t *to) {
    b->field_count = 0;
    if (trimmed(from, to).length == 0) {
        return;
    }
    const uint8_t *start = from;
    for (const uint8_t *p = from; p <= to; p++) {
        if (p == to || *p == ',') {
            if (b->field_count < MOST_FIELDS) {
                b->fields[b->field_count] = trimmed(start, p);
            }
            b->field_count++;
            start = p + 1;
        }
    }
}

/* The next line: 4, 3, 2. */
static uint32_t next_line(book *b) {
    const uint8_t *from = b->at, *to = from;
    b->line++;
    while (to < b->end && *to != '\n') {
        to++;
    }
    if (to == b->end) {
        return 4;
    }
    if (to - from > 1024) {
        return 3;
    }
    if (!is_clean(from, to)) {
        return 2;
    }
    part_fields(b, from, to);
    b->at = to + 1;
    return 0;
}

static bool is_word(const book *b, const char *word, size_t length) {
    return b->field_count == 1 && is_text(b->fields[0], word, length);
}

#define WORD(b, text) is_word(b, text, sizeof(text) - 1)

static uint32_t line_of(book *b, size_t field_count) {
    TRY(next_line(b));
    return b->field_count == field_count ? 0 : 5;
}

/* ---- header and records ---- */

static uint32_t header_line(book *b) {
    const piece *f = b->fields;
    TRY(line_of(b, 14));
    TRY(text(f[0], 200, true));
    if (!IS(f[0], "2.0")) {
        return 9;
    }
    TRY(text(f[1], 200, false));
    TRY(text(f[2], 200, true));
    TRY(texts(f + 3, 2));
    TRY(text(f[5], 200, true));
    TRY(texts(f + 6, 2));
    TRY(boolean(f[8], &b->sequential));
    TRY(empty(f[9]));
    TRY(empty(f[10]));
    TRY(integer(f[11], 6, 1, 32, &b->subframe_count));
    return texts(f + 12, 2);
}

static uint32_t record_line(book *b, subframe *s) {
    const piece *f = b->fields;
    TRY(line_of(b, 5));
    TRY(integer(f[0], 6, 1, 16, &s->bits));
    TRY(integer(f[1], 6, 1, 1024, &s->words));
    TRY(margin(f[2], &s->leading));
    TRY(margin(f[3], &s->trailing));
    return seconds(f[4], s);
}

/* One pair for all subframes, or one for each. Leaves the line after them in hand. */
static uint32_t records(book *b) {
    uint32_t pairs = 0;
    do {
        if (pairs == b->subframe_count) {
            return 5;
        }
        TRY(record_line(b, &b->subframes[pairs]));
        pairs++;
        TRY(next_line(b));
    } while (WORD(b, "RECORD:"));
    if (pairs != 1 && pairs != b->subframe_count) {
        return 5;
    }
    for (; pairs < b->subframe_count; pairs++) {
        b->subframes[pairs] = b->subframes[0];
    }
    return 0;
}

/* ---- samples ---- */

static uint32_t bits_of(const component *c) { return c->high - c->low + 1; }

/* A bit twice in the sample, an overlap not below its own bits or, of the one before, above them, or a width above 32. The
 * width is that of the components so far without the last one's overlap. */
static uint32_t joins(const book *b, const sample *s, const component *c, uint32_t *width) {
    for (uint32_t k = s->first; k < b->component_count; k++) {
        const component *d = &b->components[k];
        if (d->subframe == c->subframe && d->word == c->word && d->low <= c->high && c->low <= d->high) {
            return 14;
        }
    }
    if (s->count > 0 && c[-1].overlap > bits_of(c)) {
        return 14;
    }
    if (c->overlap >= bits_of(c) || *width + bits_of(c) > 32) {
        return 14;
    }
    *width += bits_of(c) - c->overlap;
    return 0;
}

static uint32_t component_line(book *b, sample *s, uint32_t *width) {
    const piece *f = b->fields;
    component *c = &b->components[b->component_count];
    if (s->count == 8 || b->component_count == 4096) {
        return 12;
    }
    TRY(declared(f[0], b->subframe_count, &c->subframe));
    TRY(declared(f[1], b->subframes[c->subframe - 1].words, &c->word));
    TRY(integer(f[2], 6, 0, 999999, &c->overlap));
    TRY(bit_range(f[3], &c->low, &c->high));
    if (c->high > b->subframes[c->subframe - 1].bits) {
        return 13;
    }
    TRY(joins(b, s, c, width));
    s->count++;
    b->component_count++;
    return 0;
}

static uint32_t time_line(book *b, sample *s) {
    uint64_t time;
    TRY(decimal(b->fields[0], 3, &time));
    s->time = (uint32_t)time;
    return 0;
}

/* The line in hand is its first component. */
static uint32_t one_sample(book *b, parameter *p) {
    sample *s = &b->samples[b->sample_count];
    uint32_t width = 0;
    if (p->count == 64 || b->sample_count == 4096) {
        return 12;
    }
    s->first = b->component_count;
    s->count = 0;
    do {
        TRY(component_line(b, s, &width));
        TRY(next_line(b));
    } while (b->field_count == 4);
    if (b->field_count != 1) {
        return 5;
    }
    TRY(time_line(b, s));
    if (b->components[b->component_count - 1].overlap != 0 || (p->count > 0 && width != p->width)) {
        return 14;
    }
    p->width = width;
    p->count++;
    b->sample_count++;
    return 0;
}

static uint32_t all_samples(book *b, parameter *p) {
    TRY(line_of(b, 4));
    do {
        TRY(one_sample(b, p));
        TRY(next_line(b));
    } while (b->field_count == 4);
    if (b->field_count == 2) {
        return 10;
    }
    return b->field_count == 0 ? 0 : 5;
}

/* ---- parameters ---- */

static bool same_piece(piece a, piece b) { return a.length == b.length && same_bytes(a.at, b.at, a.length); }

static uint32_t repeated(const book *b, const parameter *p) {
    for (uint32_t i = 0; i < b->parameter_count; i++) {
        const parameter *q = &b->parameters[i];
        for (size_t k = 0; k < 3; k++) {
            if (p->texts[k].length != 0 && same_piece(p->texts[k], q->texts[k])) {
                return 15;
            }
        }
    }
    return 0;
}

static uint32_t name_line(book *b, parameter *p) {
    const piece *f = b->fields;
    TRY(line_of(b, 7));
    for (size_t k = 0; k < 3; k++) {
        TRY(text(f[k], 64, k == 0));
        p->texts[k] = f[k];
    }
    TRY(boolean(f[3], &p->identifier));
    TRY(empty(f[4]));
    TRY(texts(f + 5, 2));
    return repeated(b, p);
}

static uint32_t signed_line(book *b, parameter *p) {
    const piece *f = b->fields;
    TRY(line_of(b, 5));
    TRY(boolean(f[0], &p->is_signed));
    TRY(empty(f[1]));
    TRY(empty(f[2]));
    TRY(text(f[3], 200, false));
    return empty(f[4]);
}

static uint32_t range_line(book *b, parameter *p) {
    const piece *f = b->fields;
    uint64_t delay;
    TRY(line_of(b, 4));
    p->value = 0;
    TRY(p->identifier ? integer(f[0], 10, 0, 4294967295, &p->value) : text(f[0], 200, false));
    TRY(empty(f[1]));
    TRY(text(f[2], 200, false));
    return f[3].length == 0 ? 0 : decimal(f[3], 6, &delay);
}

static uint32_t label(piece f) {
    uint64_t v;
    if (f.length == 0) {
        return 8;
    }
    if (!digits(f, 3, 8, &v)) {
        return 6;
    }
    return v > 255 ? 11 : 0;
}

static uint32_t source_bits(piece f) {
    uint32_t low, high;
    if (f.length == 0) {
        return 0;
    }
    TRY(bit_range(f, &low, &high));
    return high > 32 ? 11 : 0;
}

static uint32_t label_line(book *b) {
    const piece *f = b->fields;
    bool says;
    if (f[0].length != 0) {
        TRY(boolean(f[0], &says));
    }
    TRY(label(f[1]));
    TRY(source_bits(f[2]));
    return text(f[3], 200, false);
}

/* The line in hand is that of three texts. */
static uint32_t source(book *b) {
    TRY(texts(b->fields, 3));
    TRY(next_line(b));
    if (b->field_count == 4) {
        TRY(label_line(b));
        TRY(next_line(b));
    }
    return b->field_count == 0 ? 0 : 5;
}

static uint32_t sources(book *b) {
    TRY(line_of(b, 3));
    do {
        TRY(source(b));
        TRY(next_line(b));
    } while (b->field_count == 3);
    return b->field_count == 0 ? 0 : 5;
}

/* The line in hand is the keyword. */
static uint32_t one_parameter(book *b) {
    parameter *p = &b->parameters[b->parameter_count];
    if (b->parameter_count == 512) {
        return 12;
    }
    p->line = b->line;
    p->first = b->sample_count;
    p->count = 0;
    TRY(name_line(b, p));
    TRY(all_samples(b, p));
    TRY(signed_line(b, p));
    TRY(range_line(b, p));
    TRY(sources(b));
    b->text_length += (uint32_t)(p->texts[0].length + p->texts[1].length + p->texts[2].length);
    b->parameter_count++;
    return 0;
}

static uint32_t parameters(book *b) {
    for (;;) {
        TRY(WORD(b, "PARAMETER:") ? 0 : 5);
        TRY(one_parameter(b));
        if (b->at == b->end) {
            return 0;
        }
        TRY(next_line(b));
    }
}

/* ---- the sheet ---- */

/* An identifier has one sample in one subframe, is unsigned, and its value fits: that subframe, or 0. */
static uint32_t identified(const book *b, const parameter *p) {
    const sample *s = &b->samples[p->first];
    const component *c = &b->components[s->first];
    if (p->count != 1 || p->is_signed || (uint64_t)p->value >> p->width != 0) {
        return 0;
    }
    for (uint32_t k = 1; k < s->count; k++) {
        if (c[k].subframe != c[0].subframe) {
            return 0;
        }
    }
    return c[0].subframe;
}

/* 16, at the line of the keyword, or at none where a subframe is not taken. */
static uint32_t identifiers(book *b) {
    bool taken[33] = {false};
    uint32_t values[32], found = 0;
    for (uint32_t i = 0; i < b->parameter_count; i++) {
        const parameter *p = &b->parameters[i];
        if (!p->identifier) {
            continue;
        }
        b->line = p->line;
        uint32_t home = identified(b, p);
        if (home == 0 || taken[home]) {
            return 16;
        }
        for (uint32_t k = 0; k < found; k++) {
            if (values[k] == p->value) {
                return 16;
            }
        }
        taken[home] = true;
        values[found++] = p->value;
    }
    b->line = 0;
    return found == b->subframe_count ? 0 : 16;
}

static uint32_t judge(book *b) {
    TRY(next_line(b));
    TRY(WORD(b, "HEADER:") ? 0 : 5);
    TRY(header_line(b));
    TRY(next_line(b));
    TRY(WORD(b, "RECORD:") ? 0 : 5);
    TRY(records(b));
    if (WORD(b, "NONE")) {
        if (b->at == b->end) {
            return 0;
        }
        TRY(next_line(b));
        return 5;
    }
    TRY(parameters(b));
    return identifiers(b);
}

/* ---- the table ---- */

static uint8_t *put_header(uint8_t *t, const book *b, uint32_t total) {
    uint32_t parameters = 36 + 20 * b->subframe_count;
    uint32_t samples = parameters + 16 * b->parameter_count;
    uint32_t components = samples + 8 * b->sample_count;
    put4(t, total);
    put2(t + 4, b->subframe_count);
    put2(t + 6, b->parameter_count);
    put2(t + 8, b->sample_count);
    put2(t + 10, b->component_count);
    put2(t + 12, b->sequential);
    put2(t + 14, 3);
    put4(t + 16, 36);
    put4(t + 20, parameters);
    put4(t + 24, samples);
    put4(t + 28, components);
    put4(t + 32, components + 8 * b->component_count);
    return t + 36;
}

static uint8_t *put_subframe(uint8_t *t, const subframe *s) {
    put2(t, s->bits);
    put2(t + 2, s->words);
    put2(t + 4, s->leading);
    put2(t + 6, s->trailing);
    put8(t + 8, s->numerator);
    put4(t + 16, s->denominator);
    return t + 20;
}

static uint8_t *put_parameter(uint8_t *t, const parameter *p, uint32_t text_start) {
    t[0] = (uint8_t)p->texts[0].length;
    t[1] = (uint8_t)p->texts[1].length;
    t[2] = (uint8_t)p->texts[2].length;
    t[3] = (uint8_t)(p->is_signed + 2 * p->identifier);
    put4(t + 4, text_start);
    put2(t + 8, p->first);
    put2(t + 10, p->count);
    put4(t + 12, p->value);
    return t + 16;
}

static uint8_t *put_sample(uint8_t *t, const sample *s) {
    put4(t, s->time);
    put2(t + 4, s->first);
    put2(t + 6, s->count);
    return t + 8;
}

static uint8_t *put_component(uint8_t *t, const component *c) {
    put2(t, c->subframe);
    put2(t + 2, c->word);
    t[4] = (uint8_t)c->low;
    t[5] = (uint8_t)c->high;
    t[6] = (uint8_t)c->overlap;
    t[7] = 0;
    return t + 8;
}

static uint8_t *put_texts(uint8_t *t, const parameter *p) {
    for (size_t k = 0; k < 3; k++) {
        for (size_t i = 0; i < p->texts[k].length; i++) {
            *t++ = p->texts[k].at[i];
        }
    }
    return t;
}

static void put_table(uint8_t *t, const book *b, uint32_t total) {
    uint32_t text_start = 0;
    t = put_header(t, b, total);
    for (uint32_t i = 0; i < b->subframe_count; i++) {
        t = put_subframe(t, &b->subframes[i]);
    }
    for (uint32_t i = 0; i < b->parameter_count; i++) {
        const parameter *p = &b->parameters[i];
        t = put_parameter(t, p, text_start);
        text_start += (uint32_t)(p->texts[0].length + p->texts[1].length + p->texts[2].length);
    }
    for (uint32_t j = 0; j < b->sample_count; j++) {
        t = put_sample(t, &b->samples[j]);
    }
    for (uint32_t k = 0; k < b->component_count; k++) {
        t = put_component(t, &b->components[k]);
    }
    for (uint32_t i = 0; i < b->parameter_count; i++) {
        t = put_texts(t, &b->parameters[i]);
    }
}

static void open_book(book *b, const uint8_t *sheet, size_t length) {
    b->at = sheet;
    b->end = sheet + length;
    b->line = 0;
    b->parameter_count = 0;
    b->sample_count = 0;
    b->component_count = 0;
    b->text_length = 0;
}

orb_made plain_make(const uint8_t *sheet, size_t sheet_len, uint8_t *table, size_t table_len) {
    book b;
    if (sheet_len > 65536) {
        return (orb_made){1, 0};
    }
    open_book(&b, sheet, sheet_len);
    uint32_t number = judge(&b);
    if (number != 0) {
        return (orb_made){number, b.line};
    }
    uint32_t total = 36 + 20 * b.subframe_count + 16 * b.parameter_count + 8 * b.sample_count + 8 * b.component_count +
                     b.text_length;
    if (total > table_len) {
        return (orb_made){17, 0};
    }
    put_table(table, &b, total);
    return (orb_made){0, total};
}
