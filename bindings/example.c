/* Starts, feeds, merges, sums, writes, opens and feeds images over the C interface, and checks what comes back: it ends with status 0 if all is
 * as it should be. */
#include "lintelpear.h"

#include <stdio.h>
#include <string.h>

enum { LG_K = 5, K = 1 << LG_K, AREA = 2 * K };

static int faults = 0;

static void expect(int holds, const char *what)
{
    printf("%s: %s\n", holds ? "ok" : "FAILED", what);
    faults += !holds;
}

static uint32_t coupon(uint32_t slot, uint32_t value)
{
    return value << 26 | slot;
}

/* What an image is opened into; the place is any number before the call. */
static uint32_t opened[5], more[AREA], scratch[AREA], place;
static uint8_t again[K / 2];

static uint32_t open_image(const uint8_t *image, size_t len)
{
    place = 99;
    return lp_open(image, len, opened, again, sizeof again, more, AREA, scratch, AREA, &place);
}

/* A word of an image, lowest byte first. */
static void put(uint8_t *at, uint32_t word)
{
    for (int i = 0; i < 4; i++)
        at[i] = (uint8_t)(word >> 8 * i);
}

/* A sketch of kind 4 that lists and sets are fed to, and how many coupons were taken. */
static uint32_t few[5], some[AREA];
static uint8_t nibbles[K / 2];
static size_t taken;

static uint32_t feed_image(size_t area, const uint8_t *image, size_t len)
{
    place = taken = 99;
    return lp_feed_image(few, nibbles, sizeof nibbles, some, area, scratch, area, image, len, &taken, &place);
}

/* Refused by this number, with nothing taken or written and no place told. */
static void refused(uint32_t answer, const uint8_t *image, size_t len, const char *what)
{
    uint32_t record[5], words[AREA];
    uint8_t bytes[sizeof nibbles];
    memcpy(record, few, sizeof few);
    memcpy(words, some, sizeof some);
    memcpy(bytes, nibbles, sizeof nibbles);
    expect(feed_image(AREA, image, len) == answer && place == 0, what);
    expect(taken == 0 && !memcmp(record, few, sizeof few) && !memcmp(words, some, sizeof some) && !memcmp(bytes, nibbles, sizeof nibbles),
           "and nothing was taken or written");
}

/* The same of an image with one byte replaced, which is then put back. */
static void replaced(size_t at, uint8_t byte, uint32_t answer, uint8_t *image, size_t len, const char *what)
{
    const uint8_t kept = image[at];
    image[at] = byte;
    refused(answer, image, len, what);
    image[at] = kept;
}

/* Coupon lists and sets, which are sent while there are few coupons. */
static void lists(void)
{
    uint8_t registers[K], list[8 + 4 * 4] = { 2, 1, 7, LG_K, 3, 8, 4, 8 }, set[12 + 4 * 4] = { 3, 1, 7, LG_K + 1, 5, 8, 0, 9, 4 };
    const size_t list_len = sizeof list, set_len = sizeof set;
    for (uint32_t i = 0; i < 4; i++) {
        put(list + 8 + 4 * i, coupon(i, 20));
        put(set + 12 + 4 * i, coupon(K + i, 21 + i));
    }
    expect(lp_start(4, LG_K, few, nibbles, sizeof nibbles, some, AREA) == LP_OK, "start for a list");
    expect(feed_image(AREA, list, list_len) == LP_OK && taken == 4 && place == 0, "a list of four");
    expect(feed_image(AREA, set, set_len) == LP_OK && taken == 4 && place == 0, "a set of four, of a finer sketch");
    expect(lp_unpack(few, nibbles, sizeof nibbles, some, AREA, registers, K) == LP_OK, "unpack after them");
    expect(registers[0] == 21 && registers[3] == 24 && registers[4] == 0, "each slot holds its largest value");
    list[6] = set[8] = 0;
    expect(feed_image(AREA, list, 8) == LP_OK && taken == 0, "a list of none");
    expect(feed_image(AREA, set, 12) == LP_OK && taken == 0, "a set of none");
    list[6] = set[8] = 4;

    /* What is wrong with the sketch comes first. */
    few[0] = 5;
    refused(LP_KIND, list, 0, "a sketch of kind 5");
    few[0] = 4, few[1] = 3;
    refused(LP_LGK, list, 0, "a sketch of lg_k 3");
    few[1] = LG_K - 1;
    refused(LP_SIZE, list, 0, "register bytes of another lg_k");
    few[1] = LG_K, few[3] ^= 1;
    refused(LP_DAMAGED, list, 0, "a damaged record");
    few[3] ^= 1;

    /* Then what is wrong with the image, in this order. */
    refused(LP_SHORT, list, 7, "seven bytes");
    replaced(0, 10, LP_HEADER, list, list_len, "byte 0 of registers");
    replaced(1, 2, LP_HEADER, list, list_len, "another version");
    replaced(2, 8, LP_HEADER, set, set_len, "another family");
    refused(LP_SHORT, set, 11, "eleven bytes of a set");
    replaced(7, 9, LP_MODE, list, list_len, "a list with a set's mode");
    replaced(7, 8, LP_MODE, set, set_len, "a set with a list's mode");
    replaced(3, 22, LP_LGK, list, list_len, "lg_k 22");
    replaced(5, 4, LP_FORM, set, set_len, "no compact flag");
    refused(LP_SHORT, list, list_len - 1, "a byte short");
    replaced(11, 255, LP_SHORT, set, set_len, "more words than bytes can be");
    replaced(3, LG_K - 1, LP_FINER, list, list_len, "an image that is coarser than the sketch");
    put(list + 8 + 4 * 3, 0);
    put(set + 12 + 4 * 1, 0);
    put(set + 12 + 4 * 2, 0);
    expect(feed_image(AREA, list, list_len) == LP_LISTEMPTY && taken == 0 && place == 3, "word 3 of a list is zero");
    expect(feed_image(AREA, set, set_len) == LP_LISTEMPTY && taken == 0 && place == 1, "word 1 of a set is zero, and then word 2");
    put(list + 8 + 4 * 3, coupon(3, 20));
    put(set + 12 + 4 * 1, coupon(K + 1, 0));
    put(set + 12 + 4 * 2, coupon(K + 2, 0));
    expect(feed_image(AREA, set, set_len) == LP_OK && taken == 4 && place == 0, "words of value 0 raise nothing");

    /* An area of four words holds three exceptions. */
    expect(lp_start(4, LG_K, few, nibbles, sizeof nibbles, some, 4) == LP_OK, "start over for a list");
    expect(feed_image(4, list, list_len) == LP_NO_ROOM && place == 0, "no room for a fourth exception of a list");
    expect(taken == 3 && few[4] == 3, "three of a list are taken");
}

int main(void)
{
    /* Kind 4 with an exception: slot 3 at 2, slot 19 at 40. */
    static uint32_t record[5], aux[AREA], none[1];
    static uint8_t regs[K / 2], registers[K];
    const uint32_t coupons[] = { coupon(3, 2), coupon(19, 40), coupon(3, 1) };
    taken = 99;
    expect(lp_start(4, LG_K, record, regs, sizeof regs, aux, AREA) == LP_OK, "start of kind 4");
    expect(lp_feed(record, regs, sizeof regs, aux, AREA, scratch, AREA, coupons, 3, &taken) == LP_OK, "feed");
    expect(taken == 3, "all three coupons are taken");
    expect(record[3] == K - 2 && record[4] == 1, "two registers are above zero, one is an exception");
    expect(lp_unpack(record, regs, sizeof regs, aux, AREA, registers, K) == LP_OK, "unpack");
    expect(registers[3] == 2 && registers[19] == 40 && registers[4] == 0, "each slot holds its largest value");

    /* Merged into a smaller target: slots 3 and 19 become one. */
    static uint32_t target[5];
    static uint8_t values[K / 2];
    double sums[2];
    expect(lp_start(8, LG_K - 1, target, values, sizeof values, none, 0) == LP_OK, "start of kind 8");
    expect(lp_merge(target, values, sizeof values, record, regs, sizeof regs, aux, AREA) == LP_OK, "merge");
    expect(lp_view(target, values, sizeof values) == sizeof values && values[3] == 40, "view shows the larger value");
    expect(lp_sums(target, values, sizeof values, none, 0, sums) == LP_OK, "sums");
    expect(sums[0] == 15.0 && sums[1] == 1.0 / (1ull << 40), "fifteen registers at 0, one at 40");

    /* Refusals leave what was lent. */
    uint8_t before[sizeof regs];
    memcpy(before, regs, sizeof regs);
    expect(lp_merge(record, regs, sizeof regs, target, values, sizeof values, none, 0) == LP_KIND, "a target of kind 4 is refused");
    expect(lp_feed(record, regs, sizeof regs - 1, aux, AREA, scratch, AREA, coupons, 3, &taken) == LP_SIZE, "a byte too few is refused");
    record[3] ^= 1;
    expect(lp_feed(record, regs, sizeof regs, aux, AREA, scratch, AREA, coupons, 3, &taken) == LP_DAMAGED, "a damaged record is refused");
    record[3] ^= 1;
    expect(taken == 0 && memcmp(before, regs, sizeof regs) == 0, "and nothing was taken or written");

    /* An area of four words holds three exceptions. */
    static uint32_t four[4];
    const uint32_t high[] = { coupon(0, 20), coupon(1, 20), coupon(2, 20), coupon(3, 20) };
    expect(lp_start(4, LG_K, record, regs, sizeof regs, four, 4) == LP_OK, "start over");
    expect(lp_feed(record, regs, sizeof regs, four, 4, scratch, AREA, high, 4, &taken) == LP_NO_ROOM, "no room for a fourth exception");
    expect(taken == 3 && record[4] == 3, "three are taken");

    /* Written, and opened into other memory. */
    static uint8_t image[40 + K / 2 + 4 * K];
    size_t len = 99;
    expect(lp_write(record, regs, sizeof regs, four, 4, image, 40 + sizeof regs + 11, &len) == LP_OUT && len == 0, "a byte too few to write");
    expect(lp_write(record, regs, sizeof regs, four, 4, image, sizeof image, &len) == LP_OK, "write");
    expect(len == 40 + sizeof regs + 12 && image[0] == 10 && image[3] == LG_K && image[7] == 2, "an image of kind 4");
    expect(open_image(image, len) == LP_OK && place == 0, "open");
    expect(memcmp(opened, record, sizeof opened) == 0 && memcmp(again, regs, sizeof again) == 0, "the same sketch");
    expect(open_image(image, len - 1) == LP_SHORT && place == 0, "a byte short is refused");
    expect(opened[0] == 0 && opened[1] == 0 && opened[3] == 0, "with a record of zeros");

    /* The three exception words, slots 0 to 2 at 20, with one thing wrong at a time: the answer says what and the place says where. */
    uint8_t *const words = image + 40 + sizeof regs;
    put(words + 4, coupon(1, 15));
    expect(open_image(image, len) == LP_OK && place == 0, "the least value of an exception");
    put(words + 4, coupon(1, 14));
    expect(open_image(image, len) == LP_AUX_LOW && place == 1, "a value below it in word 1");
    put(words + 4, coupon(1, 0));
    expect(open_image(image, len) == LP_AUX_LOW && place == 1, "no value in word 1, which has a slot");
    put(words + 4, coupon(K, 0));
    expect(open_image(image, len) == LP_AUX_TWICE && place == 1, "no value in word 1, whose slot is word 0's");
    put(words + 4, 0);
    expect(open_image(image, len) == LP_AUX_EMPTY && place == 1, "an empty word 1");
    put(words + 4, coupon(1, 20));
    put(words + 8, coupon(1 + K, 20));
    expect(open_image(image, len) == LP_AUX_TWICE && place == 2, "slot 1 again in word 2");
    put(words + 8, coupon(K - 1, 20));
    expect(open_image(image, len) == LP_AUX_MATCH && place == 2, "slot 2 is not listed");
    put(words + 8, coupon(2, 20));
    image[40 + 1] |= 15 << 4;
    expect(open_image(image, len) == LP_AUX_MATCH && place == 3, "slot 3 is not listed");
    image[40 + 1] &= 15;
    expect(open_image(image, len) == LP_OK && place == 0, "nothing is wrong");

    /* The second form, of eight words, passes over empty ones and counts them. */
    image[4] = 3;
    image[5] = 0;
    for (int i = 7; i >= 0; i--)
        put(words + 4 * i, i < 5 ? 0 : coupon((uint32_t)i - 5, 20));
    len = 40 + sizeof regs + 32;
    expect(open_image(image, len) == LP_OK && place == 0, "words 5 to 7 of the second form");
    put(words + 16, coupon(3, 0));
    expect(open_image(image, len) == LP_AUX_LOW && place == 4, "no value in word 4, which has a slot");
    put(words + 16, 0);
    image[36] = 2;
    expect(open_image(image, len) == LP_AUX_COUNT && place == 0, "three words and a count of two");
    put(words + 28, coupon(1, 20));
    expect(open_image(image, len) == LP_AUX_TWICE && place == 7, "slot 1 again in word 7, behind the count");

    lists();
    return faults != 0;
}
