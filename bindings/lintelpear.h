/* The public calls for C. Link dist/liblintelpear.a, which `./build` leaves; `rt lib --cpu=x86-64` in crates/c_api writes the same as out/libc_api.a.
 *
 * A record is five words: kind (4, 6 or 8), lg_k (4 to 21), cur_min, num_at_cur_min, aux_count. Slices are a pointer and a length in
 * elements. Every call answers for every content of its record and slices: it refuses what is not in good order, by the numbers below,
 * and leaves what it was lent as it was, save scratch and what it answers with, which becomes zeros: the record of lp_start and lp_open,
 * *taken, sums, *len. Only lp_feed and lp_feed_image at LP_NO_ROOM keep what they took, and lp_open and lp_feed_image say in *place where
 * an image is wrong. A call asks only that pointers hold as many elements as their lengths say (no null, not even for a length of zero),
 * and that what it writes does not lie within anything else that it is lent.
 *
 * Register bytes: k/2, 3k/4+1 or k for kinds 4, 6, 8, where k = 2^lg_k. Only kind 4 uses the exception area, of any number of words (2k
 * are always enough), and scratch, at least as many. A coupon has its value in the upper 6 bits and its slot in the lower 26. */
#ifndef LINTELPEAR_H
#define LINTELPEAR_H

#include <stddef.h>
#include <stdint.h>

#ifdef __cplusplus
extern "C" {
#endif

enum {
    LP_OK = 0,
    LP_KIND = 1,
    LP_LGK = 2,
    LP_SIZE = 3,
    LP_DAMAGED = 4,
    LP_FINER = 5,
    LP_NO_ROOM = 6,
    LP_SHORT = 7,
    LP_HEADER = 8,
    LP_MODE = 9,
    LP_COUNTS = 10,
    LP_LGARR = 11,
    LP_VALUE = 12,
    /* 13 is not used: 21 to 25 tell apart what it stood for. */
    LP_SPARE = 14,
    LP_TALLY = 15,
    LP_OUT = 16,
    /* What is wrong with an image's exception words, and what lp_open's *place says of it. Positions are counted from 0, with the zero
     * words that an image without the compact flag may have. The earliest wrong word is told; for one word, the first of these. A word with
     * a slot and no value is not empty: it is LP_AUX_TWICE or LP_AUX_LOW in every image. */
    LP_AUX_EMPTY = 21, /* a word of a compact image is zero: its position */
    LP_AUX_TWICE = 22, /* a word's slot is that of an earlier word: its position */
    LP_AUX_LOW = 23,   /* a word's value is below cur_min + 15: its position */
    LP_AUX_COUNT = 24, /* no word is wrong, but there are more or fewer than the image's count: 0 */
    LP_AUX_MATCH = 25, /* the words' slots are not those whose nibble is 15: the smallest slot that is one and not the other */
    /* What only lp_feed_image answers, and what its *place says of it. */
    LP_FORM = 26,      /* a list or set without the compact flag: 0 */
    LP_LISTEMPTY = 27  /* a word of a list or set is zero: the first one's position, from 0 */
};

/* Makes an empty sketch: register bytes and, for kind 4, the exception area become zeros. Refused, the record becomes zeros. */
uint32_t lp_start(uint32_t kind, uint32_t lg_k, uint32_t record[5],
                  uint8_t *regs, size_t regs_len, uint32_t *aux, size_t aux_len);

/* Takes coupons in order; at LP_NO_ROOM record and memory hold the *taken first ones. Any other refusal takes none. */
uint32_t lp_feed(uint32_t record[5], uint8_t *regs, size_t regs_len, uint32_t *aux, size_t aux_len,
                 uint32_t *scratch, size_t scratch_len, const uint32_t *coupons, size_t coupons_len, size_t *taken);

/* Takes the coupons of an image as lp_feed does: of a compact list or set, which DataSketches writes while there are few. Its lg_k, byte 3,
 * has to be no smaller than the sketch's, else LP_FINER. Every word is looked at before any is fed; one of value 0 with a slot raises
 * nothing and counts as taken. *place is written at every call: with LP_LISTEMPTY as it says, with any other answer 0. */
uint32_t lp_feed_image(uint32_t record[5], uint8_t *regs, size_t regs_len, uint32_t *aux, size_t aux_len,
                       uint32_t *scratch, size_t scratch_len, const uint8_t *image, size_t image_len, size_t *taken, uint32_t *place);

/* Writes the k registers, a byte each; out_len is k. */
uint32_t lp_unpack(const uint32_t record[5], const uint8_t *regs, size_t regs_len, const uint32_t *aux, size_t aux_len,
                   uint8_t *out, size_t out_len);

/* Of kind 8, how many bytes at regs are the sketch's registers: all k, or none where a check refuses. */
size_t lp_view(const uint32_t record[5], const uint8_t *regs, size_t regs_len);

/* Merges a sketch of any kind into a target of kind 8 whose lg_k is no larger. */
uint32_t lp_merge(uint32_t target[5], uint8_t *tregs, size_t tregs_len,
                  const uint32_t source[5], const uint8_t *sregs, size_t sregs_len, const uint32_t *saux, size_t saux_len);

/* Writes kxq0 and kxq1, exact; +0 where refused. */
uint32_t lp_sums(const uint32_t record[5], const uint8_t *regs, size_t regs_len, const uint32_t *aux, size_t aux_len,
                 double sums[2]);

/* Writes the image over the front of out, of *len bytes: 40, the register bytes, and four for each exception. Bytes past it stay. */
uint32_t lp_write(const uint32_t record[5], const uint8_t *regs, size_t regs_len, const uint32_t *aux, size_t aux_len,
                  uint8_t *out, size_t out_len, size_t *len);

/* Makes the sketch of an image. Its kind and lg_k, bytes 7 and 3, say how long the register bytes must be. Refused, the record becomes zeros.
 * *place is written at every call: with LP_AUX_EMPTY to LP_AUX_MATCH as they say, with any other answer 0.
 * An image of kind 4 with exceptions takes up to 20 KiB of stack, from lg_k 18 on up to 70 KiB; any other call takes less than 4 KiB. */
uint32_t lp_open(const uint8_t *image, size_t image_len, uint32_t record[5],
                 uint8_t *regs, size_t regs_len, uint32_t *aux, size_t aux_len, uint32_t *scratch, size_t scratch_len, uint32_t *place);

#ifdef __cplusplus
}
#endif

#endif
