/* Pages: the proved call beside the plain C, and beside proved reads one by one. */
#include "calls.h"
#include "speed.h"

enum { MOST = 256, LENT = 260 };

static const uint8_t *table;
static uint16_t *words;
static size_t table_length, word_count;
static orb_request requests[MOST + 1];
static size_t asked;
static orb_sample proved_results[LENT], plain_results[LENT];

/* The sample in this place, counted from 0 over all parameters. */
static orb_request sample_at(uint32_t at) {
    const uint8_t *e = table + get4(table + 20);
    uint32_t parameter = 1;
    while (at >= get2(e + 8) + get2(e + 10)) {
        e += 16;
        parameter++;
    }
    return (orb_request){parameter, at - get2(e + 8) + 1};
}

/* So many requests, evenly over the table's samples; where it has fewer, one after the other and over again. */
static void spread(size_t count) {
    uint32_t samples = get2(table + 8), step = samples > count ? samples / (uint32_t)count : 1;
    for (uint32_t i = 0; i < count; i++) {
        requests[i] = sample_at(i * step % samples);
    }
    asked = count;
}

static void proved_page(void) {
    orb_page(table, table_length, words, word_count, requests, asked, proved_results, LENT);
}

static void c_page(void) {
    plain_page(table, table_length, words, word_count, requests, asked, plain_results, LENT);
}

static void single_reads(void) {
    for (size_t i = 0; i < asked; i++) {
        plain_results[i] = orb_read(table, table_length, words, word_count, requests[i].parameter, requests[i].sample);
    }
}

/* By so many bytes of the table and words of the frame, with so many results lent: the answer, and every result. */
static void same_page(size_t table_len, size_t words_len, size_t lent, uint32_t number, const char *size) {
    memset(proved_results, 165, sizeof proved_results);
    memset(plain_results, 165, sizeof plain_results);
    orb_paged a = orb_page(table, table_len, words, words_len, requests, asked, proved_results, lent);
    orb_paged b = plain_page(table, table_len, words, words_len, requests, asked, plain_results, lent);
    same(a.number == number && a.count == (number == 0 ? asked : 0), "page", size);
    same(a.number == b.number && a.count == b.count, "page", size);
    same(memcmp(proved_results, plain_results, sizeof plain_results) == 0, "page, results", size);
}

static void same_reads(const char *size) {
    proved_page();
    single_reads();
    for (size_t i = 0; i < asked; i++) {
        same(same_sample(proved_results[i], plain_results[i]), "page and single reads", size);
    }
}

/* Good requests alone, and with others among them; a frame and a table that are refused; 28 and 29. */
static void same_pages(size_t count, const char *size) {
    uint16_t last = words[word_count - 1];
    spread(count);
    same_page(table_length, word_count, LENT, 0, size);
    same_reads(size);
    requests[3] = (orb_request){0, 1};
    requests[17] = (orb_request){get2(table + 6) + 1, 1};
    requests[29] = (orb_request){1, 0};
    requests[count - 1] = (orb_request){1, 4294967295u};
    same_page(table_length, word_count, count, 0, size);
    same_reads(size);
    same_page(table_length, word_count - 1, LENT, 0, size);
    words[word_count - 1] = 65535;
    same_page(table_length, word_count, LENT, 0, size);
    words[word_count - 1] = last;
    same_page(table_length - 1, word_count, LENT, 0, size);
    same_page(table_length, word_count, count - 1, 28, size);
    asked = MOST + 1;
    same_page(table_length, word_count, count, 29, size);
    asked = 0;
    same_page(0, 0, 0, 0, size);
}

void measured_pages(const uint8_t *t, size_t table_len, uint16_t *frame, size_t words_len, const char *size) {
    double a, b;
    table = t;
    table_length = table_len;
    words = frame;
    word_count = words_len;
    same_pages(60, size);
    same_pages(MOST, size);
    spread(60);
    timed(proved_page, c_page, &a, &b);
    line("page of 60", size, a, b, "1.25");
    timed(proved_page, single_reads, &a, &b);
    line("page of 60 / single reads", size, a, b, "");
    spread(MOST);
    timed(proved_page, c_page, &a, &b);
    line("page of 256", size, a, b, "1.25");
}
