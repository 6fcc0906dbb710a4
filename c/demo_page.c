/* Pages by the C interface, each answer against 01's and 02's. */
#include "demo.h"

enum { MOST = 256, LENT = 260 };

static const uint16_t frame[4] = {583, 5, 0, 6};

/* Pitch, a parameter that is not there, Sync, a sample that is not there */
static const orb_request asked[4] = {{2, 1}, {3, 1}, {1, 1}, {2, 2}};

/* lent in every call, and these stand in them before it */
static orb_sample results[LENT];
static const orb_sample before = {7, 7, 7, 7, -7};

static void fill(void) {
    for (size_t i = 0; i < LENT; i++) {
        results[i] = before;
    }
}

static int is_paged(orb_paged p, uint32_t number, uint32_t count) { return p.number == number && p.count == count; }

static int same(orb_sample a, orb_sample b) {
    return a.number == b.number && a.kind == b.kind && a.width == b.width && a.raw == b.raw && a.value == b.value;
}

/* from this one on every result stands as before */
static int stay(size_t from) {
    for (size_t i = from; i < LENT; i++) {
        if (!same(results[i], before)) {
            return 0;
        }
    }
    return 1;
}

/* these four refusals at the front, and nothing else */
static int are_refused(uint32_t a, uint32_t b, uint32_t c, uint32_t d) {
    return is_refused(results[0], a) && is_refused(results[1], b) && is_refused(results[2], c) && is_refused(results[3], d) &&
           stay(4);
}

static void answering(const uint8_t *table) {
    fill();
    answer(is_paged(orb_page(table, 140, frame, 4, asked, 4, results, LENT), 0, 4), "a page of four");
    answer(is_sample(results[0], 6, 53, -11), "Pitch is 53 in a page, that is -11");
    answer(is_refused(results[1], 21), "parameter 3 in a page: 21");
    answer(is_sample(results[2], 12, 583, 583), "behind a refusal Sync is 583");
    answer(is_refused(results[3], 22), "sample 2 in a page: 22");
    answer(stay(4), "results beyond the requests stay");
    fill();
    answer(is_paged(orb_page(table, 140, frame, 4, asked, 3, results, 3), 0, 3), "as many results as requests");
    answer(is_sample(results[0], 6, 53, -11) && is_sample(results[2], 12, 583, 583) && stay(3), "and three are written");
    fill();
    answer(is_paged(orb_page(NULL, 0, NULL, 0, NULL, 0, NULL, 0), 0, 0), "nothing asked for, nothing lent");
    answer(is_paged(orb_page(table, 140, frame, 4, NULL, 0, results, LENT), 0, 0), "nothing asked for");
    answer(is_paged(orb_page(table, 139, frame, 3, asked, 0, results, LENT), 0, 0), "nothing asked for, and no table");
    answer(stay(0), "writes nothing");
}

/* The table and the frame are judged for each result, in the order of a read: 18, 21, 22, 19, 20. */
static void refusing(const uint8_t *table) {
    const uint16_t high[4] = {583, 5, 4096, 6};
    uint8_t damaged[140];
    for (size_t i = 0; i < 140; i++) {
        damaged[i] = table[i];
    }
    damaged[119] = 1;
    fill();
    answer(is_paged(orb_page(table, 140, frame, 3, asked, 4, results, LENT), 0, 4), "a page of three words");
    answer(are_refused(19, 21, 19, 22), "is 19 in each result, after 21 and 22");
    fill();
    answer(is_paged(orb_page(table, 140, high, 4, asked, 4, results, LENT), 0, 4), "a page with word 4096");
    answer(are_refused(20, 21, 20, 22), "is 20 in each result, after 21 and 22");
    fill();
    answer(is_paged(orb_page(damaged, 140, frame, 4, asked, 4, results, LENT), 0, 4), "a page of a damaged table");
    answer(are_refused(18, 18, 18, 18), "is 18 in each result");
    fill();
    answer(is_paged(orb_page(NULL, 0, NULL, 0, asked, 4, results, LENT), 0, 4), "a page of no bytes");
    answer(are_refused(18, 18, 18, 18), "is 18 in each result too");
}

/* 29, then 28, before all others. */
static void refusing_all(const uint8_t *table) {
    orb_request many[MOST + 1];
    for (size_t i = 0; i < MOST + 1; i++) {
        many[i] = asked[i % 2 * 2];
    }
    fill();
    answer(is_paged(orb_page(table, 140, frame, 4, asked, 3, results, 2), 28, 0), "two results for three: 28");
    answer(is_paged(orb_page(table, 140, frame, 4, asked, 1, NULL, 0), 28, 0), "no result for one: 28");
    answer(is_paged(orb_page(table, 139, frame, 3, asked, 4, results, 3), 28, 0), "28 before 18 and 19");
    answer(is_paged(orb_page(table, 140, frame, 4, many, MOST, results, MOST - 1), 28, 0), "255 results for 256: 28");
    answer(is_paged(orb_page(table, 140, frame, 4, many, MOST + 1, results, LENT), 29, 0), "257 requests: 29");
    answer(is_paged(orb_page(table, 140, frame, 4, many, MOST + 1, results, 2), 29, 0), "29 before 28");
    answer(is_paged(orb_page(table, 139, frame, 3, many, MOST + 1, NULL, 0), 29, 0), "29 before 18 and 28");
    answer(stay(0), "no refused page writes a result");
    answer(is_paged(orb_page(table, 140, frame, 4, many, MOST, results, MOST), 0, MOST), "256 requests pass");
    int right = 1;
    for (size_t i = 0; i < MOST; i++) {
        right &= i % 2 == 0 ? is_sample(results[i], 6, 53, -11) : is_sample(results[i], 12, 583, 583);
    }
    answer(right && stay(MOST), "each with its own result");
}

/* Every parameter and sample up to 3, a number of 17 bits and the highest, in one page and one by one. */
static void as_one_by_one(const uint8_t *table) {
    static const uint32_t numbers[6] = {0, 1, 2, 3, 65537, 4294967295u};
    orb_request each[36];
    int right = 1;
    for (size_t i = 0; i < 36; i++) {
        each[i] = (orb_request){numbers[i / 6], numbers[i % 6]};
    }
    fill();
    answer(is_paged(orb_page(table, 140, frame, 4, each, 36, results, LENT), 0, 36), "a page of 36");
    for (size_t i = 0; i < 36; i++) {
        right &= same(results[i], orb_read(table, 140, frame, 4, each[i].parameter, each[i].sample));
    }
    answer(right && stay(36), "is what the single read answers, one by one");
}

void paging(const uint8_t *table) {
    answering(table);
    refusing(table);
    refusing_all(table);
    as_one_by_one(table);
}

void paging_overlap(const uint8_t *table) {
    const uint16_t higher[4] = {71, 0, 9, 1};
    const orb_request both[4] = {{2, 1}, {1, 1}, {2, 1}, {1, 2}};
    fill();
    answer(is_paged(orb_page(table, 148, higher, 4, both, 4, results, LENT), 0, 4), "a page of samples with overlap");
    answer(is_of_kind(results[0], 2, 18, 2048, 2048), "copies differ in a page: kind 2");
    answer(is_sample(results[1], 12, 583, 583), "copies agree in a page: kind 1");
    answer(same(results[2], results[0]), "the same asked for again");
    answer(is_refused(results[3], 22) && stay(4), "sample 2 of Sync: 22");
}
