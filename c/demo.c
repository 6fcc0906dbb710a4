/* Each call of the C interface on the sheet on the wall and its frame, each answer against 01's; pages are in demo_page.c. */
#include "demo.h"

/* by hand, so that no header of the C library is needed */
int printf(const char *format, ...);

static const char wall[] = "HEADER:\n"
                           "2.0,A,TypeX,,,001,,,True,,,1,,\n"
                           "RECORD:\n"
                           "12,4,,,1.0\n"
                           "PARAMETER:\n"
                           "Sync,,,True,,,\n"
                           "1,1,0,1-12\n"
                           "0\n"
                           "\n"
                           "False,,,,\n"
                           "583,,,\n"
                           ",,\n"
                           "\n"
                           "\n"
                           "PARAMETER:\n"
                           "Pitch,PCH,,False,,,\n"
                           "1,2,0,1-4\n"
                           "1,4,0,2-3\n"
                           "0.5\n"
                           "\n"
                           "True,,,deg,\n"
                           ",,,\n"
                           ",,\n"
                           "\n"
                           "\n";
static const size_t wall_len = sizeof wall - 1;

/* The wall with a Sync of 8 bits with overlap 2 and 6 bits, and a Pitch of 12 bits with overlap 1 and 7 bits. */
static const char overlap[] = "HEADER:\n"
                              "2.0,A,TypeX,,,001,,,True,,,1,,\n"
                              "RECORD:\n"
                              "12,4,0,0,1.0\n"
                              "PARAMETER:\n"
                              "Sync,,,True,,,\n"
                              "1,1,2,1-8\n"
                              "1,3,0,1-6\n"
                              "0\n"
                              "\n"
                              "False,,,,\n"
                              "583,,,\n"
                              ",,\n"
                              "\n"
                              "\n"
                              "PARAMETER:\n"
                              "Pitch,PCH,,False,,,\n"
                              "1,2,1,1-12\n"
                              "1,4,0,1-7\n"
                              "0.5\n"
                              "\n"
                              "True,,,deg,\n"
                              ",,,\n"
                              ",,\n"
                              "\n"
                              "\n";

/* the same frame with no parameter */
static const char none[] = "HEADER:\n"
                           "2.0,A,TypeX,,,001,,,True,,,1,,\n"
                           "RECORD:\n"
                           "12,4,,,1.0\n"
                           "NONE\n";

/* The wall's frame on a card: behind four bits three leading ones, its words, a trailing one. */
static const uint8_t stream[7] = {0xa0, 0x23, 0x29, 0, 0, 0x30, 0x80};

/* a card with a byte too many */
static const uint8_t longer[65537];

static unsigned answers;
static unsigned wrong;

void answer(int right, const char *what) {
    answers++;
    if (!right) {
        wrong++;
        printf("wrong: %s\n", what);
    }
}

static const uint8_t *bytes(const char *text) { return (const uint8_t *)text; }

static int is_made(orb_made made, uint32_t number, uint32_t at) { return made.number == number && made.at == at; }

static int is_compared(orb_compared c, uint32_t number, uint32_t subframe) {
    return c.number == number && c.subframe == subframe;
}

static int is_name(orb_name n, uint32_t number, size_t start, size_t length) {
    return n.number == number && n.start == start && n.length == length;
}

static int is_carded(orb_carded c, uint32_t number, uint32_t position, uint32_t count) {
    return c.number == number && c.position == position && c.count == count;
}

/* the four words of a frame */
static int is_frame(const uint16_t *words, uint16_t a, uint16_t b, uint16_t c, uint16_t d) {
    return words[0] == a && words[1] == b && words[2] == c && words[3] == d;
}

/* every one of these bytes is 165 */
static int untouched(const uint8_t *lent, size_t from, size_t to) {
    for (size_t i = from; i < to; i++) {
        if (lent[i] != 165) {
            return 0;
        }
    }
    return 1;
}

static int says(const uint8_t *part, const char *text, size_t length) {
    for (size_t i = 0; i < length; i++) {
        if (part[i] != (uint8_t)text[i]) {
            return 0;
        }
    }
    return 1;
}

static int is_two(const uint8_t *at, uint32_t number) { return (at[0] | (uint32_t)at[1] << 8) == number; }

static void put_two(uint8_t *at, uint32_t number) {
    at[0] = (uint8_t)number;
    at[1] = (uint8_t)(number >> 8);
}

/* the wall's table in this form, with these leading and trailing bits */
static void put_form(uint8_t *table, uint32_t form, uint32_t leading, uint32_t trailing) {
    put_two(table + 14, form);
    put_two(table + 40, leading);
    put_two(table + 42, trailing);
}

/* leaves the wall's table in the first 140 bytes */
static void making(uint8_t *lent, size_t lent_len) {
    const uint8_t *sheet = bytes(wall);
    answer(is_made(orb_make(sheet, 0, lent, lent_len), 4, 1), "an empty sheet is 4 at line 1");
    answer(is_made(orb_make(sheet, wall_len - 1, lent, lent_len), 4, 25), "one blank line less is 4 at line 25");
    answer(is_made(orb_make(sheet + 1, wall_len - 1, lent, lent_len), 5, 1), "another keyword is 5 at line 1");
    answer(is_made(orb_make(sheet, wall_len, lent, 139), 17, 0), "139 bytes are 17 at no line");
    answer(is_made(orb_make(NULL, 0, NULL, 0), 4, 1), "length 0 comes with any pointer");
    answer(untouched(lent, 0, lent_len), "no refusal writes a byte");
    answer(is_made(orb_make(sheet, wall_len, lent, lent_len), 0, 140), "the wall's table has 140 bytes");
    answer(untouched(lent, 140, lent_len), "later bytes stay");
    answer(is_two(lent + 14, 3), "it is of form 3");
    answer(is_two(lent + 40, 65535) && is_two(lent + 42, 65535), "its blank margins are 65,535");
}

static void checking(uint8_t *table) {
    answer(orb_check(table, 140) == 0, "the made table is one");
    answer(orb_check(table, 141) == 18, "one byte more is 18");
    answer(orb_check(NULL, 0) == 18, "no bytes are 18");
    put_form(table, 3, 4095, 0);
    answer(orb_check(table, 140) == 0, "4,095 leading bits are accepted");
    put_form(table, 3, 0, 4096);
    answer(orb_check(table, 140) == 18, "4,096 trailing bits are 18");
    put_form(table, 2, 0, 0);
    answer(orb_check(table, 140) == 18, "components of 8 bytes are 18 in form 2");
    put_form(table, 4, 0, 0);
    answer(orb_check(table, 140) == 18, "form 4 is 18");
    put_form(table, 3, 65535, 65535);
    table[119] = 1;
    answer(orb_check(table, 140) == 18, "a component's zero byte of 1 is 18");
    table[119] = 0;
    table[110] = 1;
    answer(orb_check(table, 140) == 18, "an overlap of an only component is 18");
    table[110] = 0;
}

static void reading(const uint8_t *table) {
    const uint16_t words[4] = {583, 5, 0, 6};
    const uint16_t high[4] = {583, 5, 0, 4096};
    answer(is_sample(orb_read(table, 140, words, 4, 1, 1), 12, 583, 583), "Sync reads 583");
    answer(is_sample(orb_read(table, 140, words, 4, 2, 1), 6, 53, -11), "Pitch reads 53, that is -11");
    answer(is_refused(orb_read(table, 139, words, 4, 2, 1), 18), "no table: 18");
    answer(is_refused(orb_read(table, 140, words, 4, 0, 1), 21), "parameter 0: 21");
    answer(is_refused(orb_read(table, 140, words, 4, 3, 1), 21), "parameter 3: 21");
    answer(is_refused(orb_read(table, 140, words, 4, 2, 2), 22), "sample 2: 22");
    answer(is_refused(orb_read(table, 140, words, 3, 2, 1), 19), "three words: 19");
    answer(is_refused(orb_read(table, 140, high, 4, 2, 1), 20), "word 4096: 20");
}

static void placing(const uint8_t *table) {
    uint16_t words[4] = {583, 5, 0, 6};
    answer(orb_place(table, 140, words, 4, 2, 1, 64) == 23, "64 is 23");
    answer(orb_place(table, 140, words, 4, 2, 1, UINT64_MAX) == 23, "the highest value is 23");
    answer(orb_place(table, 140, words, 4, 3, 1, 63) == 21, "placing into parameter 3: 21");
    answer(is_frame(words, 583, 5, 0, 6), "no refusal writes a word");
    answer(orb_place(table, 140, words, 4, 2, 1, 63) == 0, "63 is placed");
    answer(is_frame(words, 583, 15, 0, 6), "63 in Pitch gives 583, 15, 0, 6");
    answer(is_sample(orb_read(table, 140, words, 4, 2, 1), 6, 63, -1), "and reads back");
}

static void comparing(const uint8_t *table) {
    uint16_t words[4] = {583, 5, 0, 6};
    answer(is_compared(orb_compare(table, 140, words, 4), 0, 0), "the frame passes");
    answer(is_compared(orb_compare(table, 140, words, 5), 19, 0), "five words: 19");
    words[0] = 582;
    answer(is_compared(orb_compare(table, 140, words, 4), 24, 1), "582 is 24 at subframe 1");
    answer(is_compared(orb_compare(table, 0, words, 4), 18, 0), "comparing without a table: 18");
}

static void naming(const uint8_t *table) {
    answer(is_name(orb_name_of(table, 140, 1), 0, 128, 4), "the name of parameter 1 stands at 128");
    answer(says(table + 128, "Sync", 4), "and is Sync");
    answer(is_name(orb_name_of(table, 140, 2), 0, 132, 5), "the name of parameter 2 stands at 132");
    answer(says(table + 132, "Pitch", 5), "and is Pitch");
    answer(is_name(orb_name_by(table, 140, bytes("PCH"), 3), 0, 132, 5), "PCH is the same");
    answer(is_name(orb_name_of(table, 140, 3), 21, 0, 0), "the name of parameter 3: 21");
    answer(is_name(orb_name_of(table, 139, 1), 18, 0, 0), "naming without a table: 18");
    answer(is_name(orb_name_by(table, 140, bytes("PC"), 2), 21, 0, 0), "PC is unknown: 21");
    answer(is_name(orb_name_by(table, 140, NULL, 0), 21, 0, 0), "an empty mnemonic: 21");
    answer(is_name(orb_name_by(table, 139, bytes("PCH"), 3), 18, 0, 0), "a mnemonic without a table: 18");
}

/* The wall's table as form 1 or 2 has it: components of 6 bytes, from byte 104 on, and then the text. */
static void put_old(const uint8_t *table, uint8_t *old, uint32_t form, uint32_t leading, uint32_t trailing) {
    for (size_t i = 0; i < 104; i++) {
        old[i] = table[i];
    }
    for (size_t i = 0; i < 18; i++) {
        old[104 + i] = table[104 + i / 6 * 8 + i % 6];
    }
    for (size_t i = 0; i < 12; i++) {
        old[122 + i] = table[128 + i];
    }
    put_two(old, 134);
    put_two(old + 32, 122);
    put_form(old, form, leading, trailing);
}

/* By tables made before form 3 all is as it was, and in form 1 a margin of 65,535 is none. */
static void in_old_forms(const uint8_t *table) {
    uint8_t old[134];
    for (uint32_t form = 1; form <= 2; form++) {
        uint16_t words[4] = {583, 5, 0, 6};
        put_old(table, old, form, 0, 0);
        answer(orb_check(old, 134) == 0, "forms 1 and 2 are tables");
        answer(is_sample(orb_read(old, 134, words, 4, 2, 1), 6, 53, -11), "by an old form Pitch reads 53, that is -11");
        answer(is_compared(orb_compare(old, 134, words, 4), 0, 0), "by an old form the frame passes");
        answer(orb_place(old, 134, words, 4, 2, 1, 63) == 0, "by an old form 63 is placed");
        answer(is_frame(words, 583, 15, 0, 6), "and gives 583, 15, 0, 6");
        answer(is_name(orb_name_of(old, 134, 2), 0, 126, 5), "by an old form the name of parameter 2 stands at 126");
        answer(is_name(orb_name_by(old, 134, bytes("PCH"), 3), 0, 126, 5), "and PCH is the same");
        put_old(table, old, form, 0, 65535);
        answer(orb_check(old, 134) == (form == 1 ? 18u : 0u), "a margin of 65,535 is 18 in form 1, not in form 2");
        put_old(table, old, 3, 0, 0);
        answer(orb_check(old, 134) == 18, "components of 6 bytes are 18 in form 3");
    }
}

/* a card that has the frame, from its first bit and from another on, and one with a byte too many */
static int is_26(const uint8_t *table, size_t table_len, uint16_t *words) {
    return is_carded(orb_card(table, table_len, stream, 7, words, 4), 26, 0, 0) &&
           is_carded(orb_card_from(table, table_len, stream, 7, 4, words, 4), 26, 0, 0) &&
           is_carded(orb_card(table, table_len, longer, 65537, words, 4), 26, 0, 0);
}

/* The wall's table as it was made, with one margin blank, and of form 1. */
static void margins_unknown(uint8_t *table) {
    uint16_t words[4] = {7, 7, 7, 7};
    uint8_t old[134];
    answer(is_26(table, 140, words), "blank margins: 26, before 38");
    answer(orb_frame_bits(table, 140) == 0, "and a frame's bits are 0");
    put_form(table, 3, 65535, 1);
    answer(is_26(table, 140, words), "leading bits blank: 26");
    answer(orb_frame_bits(table, 140) == 0, "and a frame's bits are 0, the leading ones being blank");
    put_form(table, 3, 3, 65535);
    answer(is_26(table, 140, words), "trailing bits blank: 26");
    answer(orb_frame_bits(table, 140) == 0, "and a frame's bits are 0, the trailing ones being blank");
    put_form(table, 3, 65535, 65535);
    put_old(table, old, 1, 0, 0);
    answer(is_26(old, 134, words), "form 1: 26");
    answer(orb_frame_bits(old, 134) == 0, "and by form 1 a frame's bits are 0");
    put_old(table, old, 1, 3, 1);
    answer(is_26(old, 134, words), "form 1 without a 0 for a margin: 26 too");
    answer(orb_frame_bits(old, 134) == 0, "and a frame's bits are 0 too");
    answer(is_frame(words, 7, 7, 7, 7), "no 26 writes a word");
    put_old(table, old, 2, 3, 1);
    answer(is_carded(orb_card(old, 134, stream, 7, words, 4), 0, 4, 4), "form 2 with its margins: the frame is found");
}

/* The wall's sheet with three leading bits and one trailing: its table, which the wall's has but for four bytes. */
static void carding(uint8_t *table) {
    uint16_t words[5] = {7, 7, 7, 7, 7};
    uint8_t bare[56];
    answer(is_made(orb_make(bytes(none), sizeof none - 1, bare, 56), 0, 56), "a table without parameters has 56 bytes");
    answer(is_carded(orb_card(bare, 56, longer, 65537, words, 5), 27, 0, 0), "it is 27, before 26 and 38");
    put_form(table, 3, 3, 1);
    answer(orb_frame_bits(table, 140) == 52, "a frame has 52 bits");
    answer(orb_frame_bits(table, 139) == 0, "no table has none");
    answer(is_carded(orb_card(table, 139, stream, 7, words, 5), 18, 0, 0), "a card without a table: 18");
    answer(is_carded(orb_card(table, 140, longer, 65537, words, 5), 38, 0, 0), "65,537 bytes: 38");
    answer(is_carded(orb_card(table, 140, stream, 6, words, 5), 25, 0, 0), "one byte less: 25");
    answer(is_carded(orb_card(table, 140, NULL, 0, words, 5), 25, 0, 0), "an empty card: 25");
    answer(is_carded(orb_card(table, 140, stream, 7, words, 3), 28, 0, 0), "three words lent: 28");
    answer(is_carded(orb_card_from(table, 140, stream, 7, 5, words, 5), 25, 0, 0), "from bit 5 on: 25");
    answer(is_carded(orb_card_from(table, 140, stream, 7, 4294967295u, words, 5), 25, 0, 0), "from beyond the end: 25");
    answer(is_frame(words, 7, 7, 7, 7), "no refused card writes a word");
    answer(is_carded(orb_card(table, 140, stream, 7, words, 5), 0, 4, 4), "the frame stands behind four bits");
    answer(is_frame(words, 583, 5, 0, 6) && words[4] == 7, "its words are handed out, the next one stays");
    answer(is_carded(orb_card_from(table, 140, stream, 7, 4, words, 5), 0, 4, 4), "from bit 4 on it is found too");
    answer(is_sample(orb_read(table, 140, words, 4, 2, 1), 6, 53, -11), "and Pitch reads 53, that is -11");
    put_form(table, 3, 65535, 65535);
}

/* 583 is 71 in its low 8 bits and 9 from bit 7 on. Its frame on a card is 71, 2048, 9, 1, the low bits first; before it stands one
 * with 7 for 71, whose raw value is 583 too. */
static void overlapping(void) {
    static const uint8_t card[12] = {0x07, 0x00, 0x80, 0x09, 0x10, 0x00, 0x47, 0x00, 0x80, 0x09, 0x10, 0x00};
    uint16_t agree[4] = {71, 2048, 9, 1}, higher[4] = {71, 0, 9, 1}, off[4] = {7, 2048, 9, 1}, short_of[1] = {71};
    uint16_t words[4] = {7, 7, 7, 7};
    uint8_t table[148];
    answer(is_made(orb_make(bytes(overlap), sizeof overlap - 1, table, 148), 0, 148), "a table with overlap has 148 bytes");
    answer(table[110] == 2 && table[118] == 0 && table[126] == 1 && table[134] == 0, "each component has its overlap");
    answer(is_sample(orb_read(table, 148, agree, 4, 1, 1), 12, 583, 583), "an identifier joined of 8 and 6 bits");
    answer(is_sample(orb_read(table, 148, agree, 4, 2, 1), 18, 2048, 2048), "copies agree: kind 1");
    answer(is_of_kind(orb_read(table, 148, higher, 4, 2, 1), 2, 18, 2048, 2048), "copies differ: kind 2");
    answer(is_of_kind(orb_read(table, 148, off, 4, 1, 1), 2, 12, 583, 583), "kind 2 of an identifier");
    answer(orb_place(table, 148, agree, 4, 2, 1, 0) == 10, "placing into a sample with overlap: 10");
    answer(orb_place(table, 148, short_of, 1, 2, 1, UINT64_MAX) == 10, "10 before 19 and 23");
    answer(orb_place(table, 148, agree, 4, 2, 2, 0) == 22, "22 before 10");
    answer(is_frame(agree, 71, 2048, 9, 1), "no 10 writes a word");
    answer(is_compared(orb_compare(table, 148, agree, 4), 0, 0), "an identifier with overlap passes");
    answer(is_compared(orb_compare(table, 148, off, 4), 24, 1), "its raw value with a copy that differs: 24");
    answer(is_carded(orb_card(table, 148, card, 12, words, 4), 0, 48, 4), "on a card the copy that differs is passed over");
    answer(is_frame(words, 71, 2048, 9, 1), "and the frame without one is handed out");
    paging_overlap(table);
    table[126] = 8;
    answer(orb_check(table, 148) == 18, "an overlap above the next one's bits is 18");
}

int main(void) {
    uint8_t table[200];
    for (size_t i = 0; i < sizeof table; i++) {
        table[i] = 165;
    }
    making(table, sizeof table);
    checking(table);
    reading(table);
    placing(table);
    paging(table);
    comparing(table);
    naming(table);
    in_old_forms(table);
    margins_unknown(table);
    carding(table);
    overlapping();
    if (wrong != 0) {
        return 1;
    }
    printf("c interface: %u answers, all right\n", answers);
    return 0;
}
