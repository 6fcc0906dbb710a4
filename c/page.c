/* A page of samples: page FOLDER
 *
 * The folder has a location sheet in sheet.frcs, a frame in frame.bin (words of two bytes, the low one first) and the page in
 * page.txt: a line for each sample wanted, the parameter's number, a space, the sample's number. All of them are asked for in one
 * call. Writes a heading and a line for each, in the page's order: what was asked for, and the result's number, kind, width, raw
 * and value; or `refused N L` alone, the refusal's number and the sheet's line, 0 where none is named: for a sheet that is
 * refused, a frame with an odd byte (19), more than 256 lines (29). A missing file counts as empty.
 *
 * Exit status: 0 a page, 1 refused, 2 page.txt is no list of requests. Built by c/build; `.ci/x86 target/c/page examples/page`. */
#include "orbelundri.h"

/* by hand, so that no header of the C library is needed */
typedef struct file file;
file *fopen(const char *path, const char *mode);
size_t fread(void *to, size_t size, size_t count, file *from);
int fclose(file *file);
int printf(const char *format, ...);
int dprintf(int to, const char *format, ...);
int snprintf(char *to, size_t room, const char *format, ...);

/* Each with a byte or a word more than is read, so that what is too long is seen. The longest table has 172,708 bytes. */
enum { SHEET = 65537, TABLE = 200000, FRAME = 65538, PAGE = 65537, RESULTS = 256 };

static uint8_t sheet[SHEET], table[TABLE], frame[FRAME], page[PAGE];
static uint16_t words[FRAME / 2];
static orb_request requests[PAGE / 4 + 1];
static orb_sample results[RESULTS];

static size_t load(const char *folder, const char *name, uint8_t *to, size_t room) {
    char path[4096];
    if (snprintf(path, sizeof path, "%s/%s", folder, name) >= (int)sizeof path) {
        return 0;
    }
    file *from = fopen(path, "rb");
    if (from == NULL) {
        return 0;
    }
    size_t length = fread(to, 1, room, from);
    fclose(from);
    return length;
}

/* Digits that end with this byte, a number of at most 32 bits; moves on behind it. 0 where there is none. */
static int number(const uint8_t **at, const uint8_t *end, uint8_t ends_with, uint32_t *to) {
    const uint8_t *digit = *at;
    uint64_t sum = 0;
    while (digit < end && '0' <= *digit && *digit <= '9') {
        sum = 10 * sum + (uint64_t)(*digit++ - '0');
        if (sum > 4294967295u) {
            return 0;
        }
    }
    if (digit == *at || digit == end || *digit != ends_with) {
        return 0;
    }
    *at = digit + 1;
    *to = (uint32_t)sum;
    return 1;
}

/* The page's lines as requests. Answers the first line that is none, or 0. */
static size_t taken(size_t length, size_t *count) {
    const uint8_t *at = page, *end = page + length;
    for (*count = 0; at < end; ++*count) {
        orb_request *request = &requests[*count];
        if (!number(&at, end, ' ', &request->parameter) || !number(&at, end, '\n', &request->sample)) {
            return *count + 1;
        }
    }
    return 0;
}

static int refused(uint32_t number, uint32_t line) {
    printf("refused %u %u\n", number, line);
    return 1;
}

static int written(size_t table_len, size_t words_len, size_t count) {
    orb_paged paged = orb_page(table, table_len, words, words_len, requests, count, results, RESULTS);
    if (paged.number != 0) {
        return refused(paged.number, 0);
    }
    printf("parameter,sample,number,kind,width,raw,value\n");
    for (size_t i = 0; i < paged.count; i++) {
        orb_sample r = results[i];
        printf("%u,%u,%u,%u,%u,%u,%lld\n", requests[i].parameter, requests[i].sample, r.number, r.kind, r.width, r.raw,
               (long long)r.value);
    }
    return 0;
}

int main(int argc, char **argv) {
    if (argc != 2) {
        dprintf(2, "usage: page FOLDER\n");
        return 2;
    }
    size_t page_len = load(argv[1], "page.txt", page, PAGE), count;
    size_t bad = taken(page_len, &count);
    if (bad != 0 || page_len == PAGE) {
        dprintf(2, page_len == PAGE ? "page.txt: too long\n" : "page.txt: line %u is no request\n", (unsigned)bad);
        return 2;
    }
    orb_made made = orb_make(sheet, load(argv[1], "sheet.frcs", sheet, SHEET), table, TABLE);
    if (made.number != 0) {
        return refused(made.number, made.at);
    }
    size_t frame_len = load(argv[1], "frame.bin", frame, FRAME);
    if (frame_len % 2 != 0) {
        return refused(19, 0);
    }
    for (size_t i = 0; i < frame_len / 2; i++) {
        words[i] = (uint16_t)(frame[2 * i] | frame[2 * i + 1] << 8);
    }
    return written(made.at, frame_len / 2, count);
}
