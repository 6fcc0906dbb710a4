/* The stored sheets, judged by the plain C and by the proved functions: writes the lines of crates/sheets/stdout, and
 * `DIFFERS` where the two differ. Of each table made, every byte is changed in turn, and both check what comes of it.
 * Runs in crates/sheets/data. */
#include "calls.h"
#include "plain.h"

static uint8_t list[65536], sheet[65538];
static uint8_t proved_table[200000], plain_table[200000];
static int differences;
static unsigned checks;

static size_t load(const char *path, uint8_t *to, size_t room) {
    calls_file *file = fopen(path, "rb");
    if (file == NULL) {
        return 0;
    }
    size_t n = fread(to, 1, room, file);
    fclose(file);
    return n;
}

static void differs(const char *what) {
    printf(" DIFFERS: %s", what);
    differences++;
}

static void checked(uint8_t *t, size_t length) {
    checks++;
    if (orb_check(t, length) != plain_check(t, length)) {
        differs("a changed table's check");
    }
}

/* Changed in turn and put back; long tables at some bytes only. */
static void changed_tables(uint8_t *t, size_t length) {
    static const uint8_t changes[] = {1, 2, 3, 4, 16, 64, 128, 255};
    size_t step = length < 2000 ? 1 : 997;
    for (size_t i = 0; i < length; i += step) {
        uint8_t kept = t[i];
        for (size_t k = 0; k < sizeof changes; k++) {
            t[i] = kept ^ changes[k];
            checked(t, length);
            t[i] = (uint8_t)(kept + changes[k]);
            checked(t, length);
        }
        t[i] = kept;
    }
    checked(t, length);
    checked(t, length - 1);
}

static void one_case(const char *file, size_t lent) {
    size_t n = load(file, sheet, sizeof sheet);
    memset(proved_table, 165, lent);
    memset(plain_table, 165, lent);
    orb_made a = orb_make(sheet, n, proved_table, lent);
    orb_made b = plain_make(sheet, n, plain_table, lent);
    if (b.number == 0) {
        printf("%s: made %u", file, b.at);
    } else {
        printf("%s: %u at %u", file, b.number, b.at);
    }
    if (a.number != b.number || a.at != b.at) {
        differs("the answer");
    }
    if (memcmp(proved_table, plain_table, lent) != 0) {
        differs("the bytes");
    }
    if (b.number == 0) {
        changed_tables(plain_table, b.at);
    }
    printf("\n");
}

/* FILE LENT DESCRIPTION */
static size_t one_line(size_t at) {
    char file[200];
    size_t n = 0, lent = 0;
    for (; list[at] != ' '; at++) {
        file[n++] = (char)list[at];
    }
    file[n] = 0;
    for (at++; list[at] != ' '; at++) {
        lent = 10 * lent + list[at] - '0';
    }
    while (list[at] != '\n') {
        at++;
    }
    one_case(file, lent);
    return at + 1;
}

int main(void) {
    size_t length = load("list", list, sizeof list);
    for (size_t at = 0; at < length;) {
        at = one_line(at);
    }
    printf("plain C and the proved functions: %u changed tables checked, %d differences\n", checks, differences);
    return differences != 0;
}
