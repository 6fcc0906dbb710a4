/* The bench for programs in C, and for whatever links as C does. `c/build` proves and builds the archive,
 * target/staticlib/libffi.a. It is for x86-64 Linux alone, and of the C library it needs memcpy and memset.
 *
 * Every call answers for every input, keeps nothing between calls, and asks for no memory. What it answers and what it
 * leaves in the lent bytes, words and results is proved. `number` is 0, or the refusal's number (docs/REFUSALS.md); a call that
 * refuses writes nothing.
 * Lines, parameters, samples and subframes are counted from 1.
 *
 * The caller's duties, which no proof covers:
 *   - a length is true: that many bytes, words, requests or results may be read there, and written where the pointer is
 *     not const; with length 0 the pointer may be any, also null;
 *   - words are aligned for uint16_t, requests for orb_request, results for orb_sample;
 *   - what a call writes overlaps nothing else it is lent: the sheet and the table of orb_make, the table and the words
 *     of orb_place, the table, the stream and the words of orb_card and orb_card_from, the results of orb_page and its
 *     table, words and requests;
 *   - nobody changes what is lent while a call runs;
 *   - the stack has room: 64 kilobytes for orb_make, 8 for each other call (46, and 7 for a card, were measured).
 */
#ifndef ORBELUNDRI_H
#define ORBELUNDRI_H

#include <stddef.h>
#include <stdint.h>

#ifdef __cplusplus
extern "C" {
#endif

/* number 0: at is the table's length. Else at is the line, or 0 where no line is named. */
typedef struct {
    uint32_t number;
    uint32_t at;
} orb_made;

/* number 0: kind is 1, a sample of width bits, 1 to 32, or 2, the same with copies of a bit that differ (below). raw is its
 * components joined, the first lowest: 0 to two to the width less 1. value is raw, or for a signed parameter raw minus two to the
 * width where the sample's top bit is set. Else all else is 0.
 *
 * Overlap: a component's top bits may stand in the next component too, as many as the sheet says. They count once in width, and
 * in raw the next component's stand. Kind 2 says that some component is not its bits of raw: the value was counted on between two
 * components, and the standard calls such a sample invalid. raw, width and value are told all the same. */
typedef struct {
    uint32_t number;
    uint32_t kind;
    uint32_t width;
    uint32_t raw;
    int64_t value;
} orb_sample;

/* number 24: subframe is the first that differs. Else it is 0. */
typedef struct {
    uint32_t number;
    uint32_t subframe;
} orb_compared;

/* number 0: the name is the length bytes of the table lent from start on, not a copy. Else both are 0. */
typedef struct {
    uint32_t number;
    size_t start;
    size_t length;
} orb_name;

/* number 0: position is the number of bits before the frame, count its words, which stand at the front of the lent ones. Else
 * both are 0. */
typedef struct {
    uint32_t number;
    uint32_t position;
    uint32_t count;
} orb_carded;

/* One of the samples a page asks for: a parameter's number and a sample's, any numbers. */
typedef struct {
    uint32_t parameter;
    uint32_t sample;
} orb_request;

/* number 0: count results were written, one for each request, at the front of the lent ones. Else count is 0. */
typedef struct {
    uint32_t number;
    uint32_t count;
} orb_paged;

/* The sheet's table at the front of the bytes lent for it; later bytes stay. It is of form 3: each component has its overlap, and
 * leading or trailing bits that the sheet leaves blank are unknown in it, not 0. Refuses with 1 to 17; 14 for an overlap that is not
 * smaller than its component's bits, larger than the next one's, or the last component's. */
orb_made orb_make(const uint8_t *sheet, size_t sheet_len, uint8_t *table, size_t table_len);

/* Whether the bytes are a table, of form 1, 2 or 3, whoever made them: 0 or 18. The length is the table's own. Forms 1 and 2 have
 * no overlap. By them all is answered as by form 3, but for cards by form 1. */
uint32_t orb_check(const uint8_t *table, size_t table_len);

/* One sample of a frame. Refuses with 18, 21, 22, 19 or 20, tested in this order. */
orb_sample orb_read(const uint8_t *table, size_t table_len, const uint16_t *words, size_t words_len,
                    uint32_t parameter, uint32_t sample);

/* Many samples of one frame at once, 256 at most. Each result is what orb_read answers for the request in the same place, its
 * refusal too: 21 or 22 in one says nothing of the others, and where the bytes are no table 18 stands in every one. The same may be
 * asked for twice. Results beyond the requests stay. Refuses with 29 (more than 256 requests) or 28 (fewer results than requests),
 * tested in this order and before all else: only these two are the call's own number, and they write nothing. With no requests
 * number and count are 0 and nothing is written, whatever the table and the frame are. */
orb_paged orb_page(const uint8_t *table, size_t table_len, const uint16_t *words, size_t words_len,
                   const orb_request *requests, size_t requests_len, orb_sample *results, size_t results_len);

/* A raw value, as orb_sample's raw, placed into a frame: 0, or 18, 21, 22, 10, 19, 20 or 23, tested in this order. Other
 * bits stay. For a signed parameter -11 in six bits is placed as 53. 10: the sample has an overlap; the table's other samples
 * are placed as ever. */
uint32_t orb_place(const uint8_t *table, size_t table_len, uint16_t *words, size_t words_len, uint32_t parameter,
                   uint32_t sample, uint64_t value);

/* The frame against its record identifiers: every component of each must be its bits of the value, so that a copy that differs
 * is 24 though raw is the value. Refuses with 18, 19, 20 or 24, tested in this order. */
orb_compared orb_compare(const uint8_t *table, size_t table_len, const uint16_t *words, size_t words_len);

/* The name of the parameter with this number. Refuses with 18 or 21. */
orb_name orb_name_of(const uint8_t *table, size_t table_len, uint32_t parameter);

/* The name of the parameter with this mnemonic. Refuses with 18 or 21; an empty mnemonic is 21. */
orb_name orb_name_by(const uint8_t *table, size_t table_len, const uint8_t *mnemonic, size_t mnemonic_len);

/* The first frame on a quick access card: the first bit position at which a whole frame fits, its last trailing bit too, and
 * every record identifier agrees as in orb_compare. The stream takes the low bit of each byte and of each word first. Refuses with
 * 18, 27 (no parameters), 26 (margins not known), 38 (more than 65,536 bytes), 25 (no such position) or 28 (too few words lent),
 * tested in this order. Words beyond the frame's stay.
 *
 * 26: a subframe's leading or trailing bits are unknown, so nobody can tell where its words stand on a card. They are where the
 * sheet leaves them blank, in any subframe, and in every table of form 1, whatever its margins: there a blank was stored as 0.
 * A new table of a sheet with every margin written, 0 where there is none, is never 26. */
orb_carded orb_card(const uint8_t *table, size_t table_len, const uint8_t *stream, size_t stream_len, uint16_t *words,
                    size_t words_len);

/* The same, 26 too, from bit position from on, any number: beyond the stream's end it is 25. A card's next frame is looked for
 * from the last one's position plus the frame's bits on. */
orb_carded orb_card_from(const uint8_t *table, size_t table_len, const uint8_t *stream, size_t stream_len, uint32_t from,
                         uint16_t *words, size_t words_len);

/* How many bits a frame has on a card: every subframe's leading bits, words and trailing bits. 0 where the bytes are no table or
 * its margins are not known: in form 1, or with an unknown one. */
uint32_t orb_frame_bits(const uint8_t *table, size_t table_len);

#ifdef __cplusplus
}
#endif

#endif
