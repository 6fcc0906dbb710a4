/* The proved functions and the plain C side by side, on the same inputs, in one run: only the ratio counts. Every answer,
 * and every byte written, is held to be the same before anything is timed. Pages are in speed_page.c. */
#include "calls.h"
#include "speed.h"

/* The header has no call for all samples of a frame: crates/speedlib has one, for measuring alone. Without that crate its
 * rows are left out. */
#ifdef ALL_SAMPLES
size_t speed_read_all(const uint8_t *table, size_t table_len, const uint16_t *words, size_t words_len, int64_t *values,
                      size_t room, uint32_t times);
static const bool all_samples = true;
#else
#define speed_read_all plain_read_all
static const bool all_samples = false;
#endif

enum { ROUNDS = 31, FRAMES = 256, LENT = 70000, VALUES = 4096, WORDS = 1024, STREAM = 65536 };

static char sheet[70000];
static size_t sheet_length;
static uint8_t proved_table[LENT], plain_table[LENT];
static size_t table_length;
static uint16_t words[WORDS];
static uint8_t stream[STREAM];
static size_t word_count;
static int64_t proved_values[VALUES], plain_values[VALUES];
static uint32_t last_parameter, last_sample;
static int differences;
static uint64_t kept;

/* ---- the sheets ---- */

static void say(const char *text) { sheet_length += (size_t)sprintf(sheet + sheet_length, "%s", text); }

static void opening(uint32_t count) {
    sheet_length = 0;
    word_count = count;
    say("HEADER:\n2.0,A,TypeX,,,001,,,True,,,1,,\nRECORD:\n");
    sheet_length += (size_t)sprintf(sheet + sheet_length, "12,%u,,,1.0\n", count);
    say("PARAMETER:\nSync,,,True,,,\n1,1,0,1-12\n0\n\nFalse,,,,\n583,,,\n,,\n\n\n");
}

static void wall(void) {
    opening(4);
    say("PARAMETER:\nPitch,PCH,,False,,,\n1,2,0,1-4\n1,4,0,2-3\n0.5\n\nTrue,,,deg,\n,,,\n,,\n\n\n");
}

static void named(uint32_t i) {
    sheet_length += (size_t)sprintf(sheet + sheet_length, "PARAMETER:\nN%03u,M%03u,,False,,,\n", i, i);
}

static void sampled(uint32_t word, uint32_t low, const char *time) {
    sheet_length += (size_t)sprintf(sheet + sheet_length, "1,%u,0,%u-%u\n%s\n", word, low, low + 3, time);
}

static void closed(void) { say("\nTrue,,,deg,\n,,,\n,,\n\n\n"); }

/* So many parameters of one sample each. */
static void many(uint32_t parameters, uint32_t count) {
    opening(count);
    for (uint32_t i = 1; i < parameters; i++) {
        named(i);
        sampled(2 + i % (count - 1), 1 + i % 9, "0.5");
        closed();
    }
}

/* So many parameters of one sample each, joined of 12 bits with overlap 1 to 11 and 12 bits. */
static void overlapped(uint32_t parameters, uint32_t count) {
    opening(count);
    for (uint32_t i = 1; i < parameters; i++) {
        named(i);
        sheet_length += (size_t)sprintf(sheet + sheet_length, "1,%u,%u,1-12\n1,%u,0,1-12\n0\n", 2 + i % (count - 2), 1 + i % 11,
                                        3 + i % (count - 2));
        closed();
    }
}

/* Sources of the last parameter fill the sheet. */
static void filled(size_t length) {
    sheet_length--;
    while (sheet_length + 45 <= length) {
        say(",a source's text,0123456789\n\n");
    }
    say("\n");
}

/* 4,096 samples in all, 64 to a parameter: short lines, for the sheet has 65,536 bytes at most. */
static void sampled_much(uint32_t count) {
    uint32_t samples = 1;
    opening(count);
    for (uint32_t i = 1; samples < 4096; i++) {
        named(i);
        for (uint32_t j = 0; j < 64 && samples < 4096; j++, samples++) {
            sampled(2 + samples % (count - 1), 1 + samples % 9, "0");
        }
        closed();
    }
}

/* So many subframes of 64 words, an identifier of 12 bits in the first word of each: 583, 1464, 2631, 3512. */
static void carded(uint32_t subframes) {
    static const uint32_t marks[4] = {583, 1464, 2631, 3512};
    sheet_length = 0;
    word_count = 64 * subframes;
    sheet_length += (size_t)sprintf(sheet, "HEADER:\n2.0,A,TypeX,,,001,,,True,,,%u,,\n", subframes);
    for (uint32_t i = 0; i < subframes; i++) {
        say("RECORD:\n12,64,0,0,1.0\n");
    }
    for (uint32_t i = 0; i < subframes; i++) {
        sheet_length += (size_t)sprintf(
            sheet + sheet_length, "PARAMETER:\nSync%u,,,True,,,\n%u,1,0,1-12\n0\n\nFalse,,,,\n%u,,,\n,,\n\n\n", i + 1, i + 1,
            marks[i]);
    }
}

/* ---- the same answers ---- */

void same(bool is_same, const char *what, const char *size) {
    if (!is_same) {
        printf("DIFFERS: %s, %s\n", what, size);
        differences++;
    }
}

bool same_sample(orb_sample a, orb_sample b) {
    return a.number == b.number && a.kind == b.kind && a.width == b.width && a.raw == b.raw && a.value == b.value;
}

static void same_made(const char *size) {
    memset(proved_table, 165, LENT);
    memset(plain_table, 165, LENT);
    orb_made a = orb_make((uint8_t *)sheet, sheet_length, proved_table, LENT);
    orb_made b = plain_make((uint8_t *)sheet, sheet_length, plain_table, LENT);
    same(a.number == 0 && b.number == 0 && a.at == b.at, "make", size);
    same(memcmp(proved_table, plain_table, LENT) == 0, "make, bytes", size);
    table_length = a.at;
    same(orb_check(proved_table, table_length) == 0, "check", size);
    same(plain_check(proved_table, table_length) == 0, "check", size);
}

static void same_values(const char *size) {
    size_t a = speed_read_all(proved_table, table_length, words, word_count, proved_values, VALUES, 1);
    size_t b = plain_read_all(proved_table, table_length, words, word_count, plain_values, VALUES, 1);
    same(a == get2(proved_table + 8) && a == b, "all samples", size);
    same(memcmp(proved_values, plain_values, sizeof plain_values) == 0, "all samples, values", size);
}

/* Sample after sample, by the numbers that the table gives; every 37th, for each read checks the table anew. */
static void same_read(const char *size) {
    const uint8_t *t = proved_table;
    uint32_t at = 0;
    last_parameter = get2(t + 6);
    for (uint32_t i = 1; i <= last_parameter; i++) {
        last_sample = get2(t + get4(t + 20) + 16 * (i - 1) + 10);
        for (uint32_t j = 1; j <= last_sample; j++, at++) {
            if (at % 37 != 0 && at + 1 != get2(t + 8)) {
                continue;
            }
            orb_sample a = orb_read(t, table_length, words, word_count, i, j);
            orb_sample b = plain_read(t, table_length, words, word_count, i, j);
            same(same_sample(a, b) && a.number == 0, "one read", size);
            same(!all_samples || a.value == proved_values[at], "one read and all samples", size);
        }
    }
}

/* ---- the times ---- */

static double now(void) {
    calls_time t;
    clock_gettime(1, &t);
    return (double)t.seconds * 1e6 + (double)t.nanoseconds / 1e3;
}

static void proved_card(void) {
    kept += 1 + orb_card(proved_table, table_length, stream, STREAM, words, WORDS).position;
}
static void c_card(void) {
    kept += 1 + plain_card_from(proved_table, table_length, stream, STREAM, 0, words, WORDS).position;
}
static void each_card(void) {
    kept += 1 + each_card_from(proved_table, table_length, stream, STREAM, 0, words, WORDS).position;
}
static void quick_card(void) {
    kept += 1 + quick_card_from(proved_table, table_length, stream, STREAM, 0, words, WORDS).position;
}

static void proved_make(void) { kept += orb_make((uint8_t *)sheet, sheet_length, proved_table, LENT).at; }
static void c_make(void) { kept += plain_make((uint8_t *)sheet, sheet_length, plain_table, LENT).at; }
static void proved_check(void) { kept += orb_check(proved_table, table_length); }
static void c_check(void) { kept += plain_check(proved_table, table_length); }
static void proved_all(uint32_t times) {
    kept += speed_read_all(proved_table, table_length, words, word_count, proved_values, VALUES, times);
}
static void c_all(uint32_t times) {
    kept += plain_read_all(proved_table, table_length, words, word_count, plain_values, VALUES, times);
}
static void proved_first(void) { proved_all(1); }
static void c_first(void) { c_all(1); }
static void proved_frames(void) { proved_all(1 + FRAMES); }
static void c_frames(void) { c_all(1 + FRAMES); }
static void proved_read(void) {
    kept += orb_read(proved_table, table_length, words, word_count, last_parameter, last_sample).raw;
}
static void c_read(void) {
    kept += plain_read(proved_table, table_length, words, word_count, last_parameter, last_sample).raw;
}

static double per_call(job *f, uint32_t calls) {
    double from = now();
    for (uint32_t i = 0; i < calls; i++) {
        f();
    }
    return (now() - from) / calls;
}

/* Calls that take some milliseconds together. */
static uint32_t calls_of(job *f) {
    double once = per_call(f, 1);
    return once > 3000 ? 1 : (uint32_t)(3000 / once) + 1;
}

/* The best of the rounds, in which the two take turns: what else the machine does slows both. */
void timed(job *proved, job *plain, double *a, double *b) {
    uint32_t p = calls_of(proved), q = calls_of(plain);
    *a = *b = 1e18;
    for (int r = 0; r < ROUNDS; r++) {
        double x = per_call(proved, p), y = per_call(plain, q);
        *a = x < *a ? x : *a;
        *b = y < *b ? y : *b;
    }
}

void line(const char *what, const char *size, double a, double b, const char *goal) {
    printf("| %-26s | %-21s | %10.2f | %10.2f | %6.2f | %-4s |\n", what, size, a, b, a / b, goal);
}

static void measured_frames(const char *size) {
    double a, b, c, d;
    same_values(size);
    timed(proved_first, c_first, &a, &b);
    line("check and all samples", size, a, b, "");
    timed(proved_frames, c_frames, &c, &d);
    line("all samples, once checked", size, (c - a) / FRAMES, (d - b) / FRAMES, "1.05");
}

/* Every parameter's first sample, its kind too. */
static void same_kinds(const char *size) {
    uint32_t kinds[3] = {0};
    for (uint32_t i = 1; i <= get2(proved_table + 6); i++) {
        orb_sample a = orb_read(proved_table, table_length, words, word_count, i, 1);
        same(same_sample(a, plain_read(proved_table, table_length, words, word_count, i, 1)), "one read", size);
        kinds[a.kind]++;
    }
    same(kinds[1] > 1 && kinds[2] > 1, "both kinds", size);
}

static void measured(const char *size) {
    double a, b;
    for (size_t i = 0; i < word_count; i++) {
        words[i] = (uint16_t)(i * 2654435761u >> 7 & 4095);
    }
    same_made(size);
    timed(proved_make, c_make, &a, &b);
    line("make", size, a, b, "4");
    timed(proved_check, c_check, &a, &b);
    line("check", size, a, b, "1.1");
    if (all_samples) {
        measured_frames(size);
    }
    same_read(size);
    timed(proved_read, c_read, &a, &b);
    line("one read with its check", size, a, b, "");
}

/* A stream of pseudo-random bits; where one identifier alone would be met by chance its bits are broken, so that nothing fits. */
static void random_stream(uint32_t subframes) {
    uint64_t x = 88172645463325252u;
    for (size_t i = 0; i < STREAM; i++) {
        x ^= x << 13;
        x ^= x >> 7;
        x ^= x << 17;
        stream[i] = (uint8_t)(x >> 32);
    }
    orb_carded found = plain_card_from(proved_table, table_length, stream, STREAM, 0, words, WORDS);
    while (subframes == 1 && found.number == 0) {
        stream[found.position / 8] ^= (uint8_t)(1u << found.position % 8);
        found = plain_card_from(proved_table, table_length, stream, STREAM, found.position / 16 * 16, words, WORDS);
    }
}

static bool same_carded(orb_carded a, orb_carded b) {
    return a.number == b.number && a.position == b.position && a.count == b.count;
}

/* All four on streams with and without a frame, from many bits on. */
static void same_cards(const char *size) {
    static uint16_t others[WORDS];
    uint8_t last = stream[40000];
    for (uint32_t from = 0; from < 8 * STREAM + 100; from += 4999) {
        stream[40000] = (uint8_t)(last + from);
        orb_carded a = orb_card_from(proved_table, table_length, stream, STREAM, from, words, WORDS);
        same(same_carded(a, plain_card_from(proved_table, table_length, stream, STREAM, from, others, WORDS)), "card", size);
        same(a.number != 0 || memcmp(words, others, 2 * a.count) == 0, "card, words", size);
        same(same_carded(a, each_card_from(proved_table, table_length, stream, STREAM, from, others, WORDS)), "card", size);
        same(same_carded(a, quick_card_from(proved_table, table_length, stream, STREAM, from, others, WORDS)), "card", size);
    }
    stream[40000] = last;
}

static void same_26(const char *size) {
    orb_carded a = orb_card_from(proved_table, table_length, stream, STREAM, 0, words, WORDS);
    orb_carded b = plain_card_from(proved_table, table_length, stream, STREAM, 0, words, WORDS);
    same(a.number == 26 && same_carded(a, b), "card, 26", size);
}

/* The made table as form 1 has it, with components of 6 bytes. */
static void to_form_1(void) {
    uint8_t *components = proved_table + get4(proved_table + 28), *text = proved_table + get4(proved_table + 32);
    uint32_t count = get2(proved_table + 10), fewer = 2 * count;
    for (uint32_t k = 1; k < count; k++) {
        memcpy(components + 6 * k, components + 8 * k, 6);
    }
    for (uint8_t *at = text; at < proved_table + table_length; at++) {
        *(at - fewer) = *at;
    }
    table_length -= fewer;
    put4(proved_table, (uint32_t)table_length);
    put2(proved_table + 14, 1);
    put4(proved_table + 32, get4(proved_table + 32) - fewer);
}

/* The same table in form 1, and with the last trailing bits unknown. */
static void same_unknown(const char *size) {
    uint8_t *trailing = proved_table + get4(proved_table + 20) - 14;
    to_form_1();
    same_26(size);
    same_made(size);
    put2(trailing, UNKNOWN);
    same_26(size);
    put2(trailing, 0);
}

static void measured_card(uint32_t subframes, const char *size) {
    double a, b;
    carded(subframes);
    same_made(size);
    random_stream(subframes);
    same_unknown(size);
    same_cards(size);
    same(orb_card(proved_table, table_length, stream, STREAM, words, WORDS).number == 25, "card, 25", size);
    timed(proved_card, c_card, &a, &b);
    line("card in which nothing fits", size, a, b, "1.25");
    timed(proved_card, quick_card, &a, &b);
    line("card, by windows of 64", size, a, b, "2");
    timed(proved_card, each_card, &a, &b);
    line("card, position by position", size, a, b, "");
}

int main(void) {
    printf("| %-26s | %-21s | %10s | %10s | %6s | %-4s |\n", "what", "size", "proved us", "plain us", "ratio", "goal");
    printf("|---|---|---|---|---|---|\n");
    wall();
    measured("wall, 2 parameters");
    measured_pages(proved_table, table_length, words, word_count, "wall, 2 parameters");
    many(120, 64);
    measured("8 KB, 120 parameters");
    measured_pages(proved_table, table_length, words, word_count, "8 KB, 120 parameters");
    many(512, 512);
    filled(65536);
    measured("64 KB, 512 parameters");
    sampled_much(64);
    measured("4,096 samples");
    measured_pages(proved_table, table_length, words, word_count, "4,096 samples");
    overlapped(120, 64);
    measured("120 with overlap");
    same_kinds("120 with overlap");
    measured_card(1, "64 KB, 1 identifier");
    measured_card(4, "64 KB, 4 identifiers");
    printf("%d differences\n", differences);
    return differences != 0 || kept == 0;
}
