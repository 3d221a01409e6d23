/*
 * Every call of rudderfig.h, with answers that another order of its arguments would change. A page of two blocks, each corrected up to 2 flips, is
 * written from 2 bytes of metadata and 8 of data, worn, looked at, taken, judged, claimed and ruined; an erased page is looked at, taken and judged;
 * each call about a page is made around a factory's mark, and in edition 2 with a level of 62; a remainder is located and handed to a hardware
 * locator; a message is taken in one piece; layouts, blocks and page bits are explained.
 * The program is C99 and C++. The exit status is 0 where every answer and every byte is as it should be; else the first line that was not is printed.
 */
#include <stdio.h>
#include <string.h>

#include "rudderfig.h"

#define CHECK(right)                                    \
    do                                                  \
        if (!(right)) {                                 \
            printf("line %d: not %s\n", __LINE__, #right); \
            return 1;                                   \
        }                                               \
    while (0)

enum { EDITION = 1, RECORD = 8, METADATA = 2, DATA = 8, COUNTS = 2, PAGE = 17 };

static const uint8_t record[RECORD] = {0x01, 0x02, 0x08, 0x01, 0x00, 0x11, 0x08, 0x01};
static const uint8_t metadata[METADATA] = {0xAB, 0xCD};
static const uint8_t data[DATA] = {0x01, 0x23, 0x45, 0x67, 0x89, 0x9A, 0xBC, 0xDE};
static const uint8_t message_0[6] = {0xAB, 0xCD, 0x01, 0x23, 0x45, 0x67};

static int layouts(void)
{
    uint64_t answer;

    CHECK(rudderfig_check_layout(EDITION, record, RECORD) == RUDDERFIG_DONE);
    CHECK(rudderfig_check_layout(EDITION, record, RECORD - 1) == RUDDERFIG_BUFFER_LENGTH);

    answer = rudderfig_locate_bit(EDITION, record, RECORD, 75);
    CHECK(rudderfig_reply(answer) == RUDDERFIG_DONE && !rudderfig_in_tail(answer) && !rudderfig_in_mark(answer));
    CHECK(rudderfig_located_block(answer) == 1 && rudderfig_located_exponent(answer) == 56);
    CHECK(rudderfig_in_tail(rudderfig_locate_bit(EDITION, record, RECORD, 132)));

    answer = rudderfig_bit_position(EDITION, record, RECORD, 1, 56);
    CHECK(rudderfig_reply(answer) == RUDDERFIG_DONE && rudderfig_value(answer) == 75);
    return 0;
}

/* Block 0 is ruined and block 1 has two flips: a look writes the counts, a take and a look with counts of a wrong length write nothing. */
static int ruined(const uint8_t *page)
{
    uint8_t metadata_taken[METADATA] = {7, 7}, data_taken[DATA] = {7, 7, 7, 7, 7, 7, 7, 7}, counts[COUNTS] = {9, 9};
    uint64_t answer;

    CHECK(rudderfig_look_page(EDITION, record, RECORD, page, PAGE, counts, 1) == RUDDERFIG_BUFFER_LENGTH && counts[0] == 9 && counts[1] == 9);
    answer = rudderfig_look_page(EDITION, record, RECORD, page, PAGE, counts, COUNTS);
    CHECK(rudderfig_reply(answer) == RUDDERFIG_UNCORRECTABLE && rudderfig_block(answer) == 0);
    CHECK(counts[0] == RUDDERFIG_RUINED && rudderfig_is_ruined(counts[0]) && !rudderfig_is_erased(counts[0]) && rudderfig_zeros(counts[0]) == 0);
    CHECK(counts[1] == 2 && !rudderfig_is_ruined(counts[1]) && !rudderfig_is_erased(counts[1]));

    answer = rudderfig_take_page(EDITION, record, RECORD, page, PAGE, metadata_taken, METADATA, data_taken, DATA);
    CHECK(rudderfig_reply(answer) == RUDDERFIG_UNCORRECTABLE && rudderfig_block(answer) == 0);
    for (int i = 0; i < DATA; i++)
        CHECK(data_taken[i] == 7 && metadata_taken[i % METADATA] == 7);
    return 0;
}

/* Bit 1 of block 0 and bits 0 and 5 of block 1 turned over: exponents 72, and 57 and 52. */
static int pages(void)
{
    static const uint16_t right[2] = {57, 52};
    uint8_t page[PAGE], metadata_taken[METADATA] = {0, 0}, data_taken[DATA] = {0}, counts[COUNTS] = {9, 9};
    uint64_t answer;

    memset(page, 0, PAGE);
    CHECK(rudderfig_write_page(EDITION, record, RECORD, metadata, METADATA, data, DATA, page, PAGE) == RUDDERFIG_DONE);
    CHECK(memcmp(page, message_0, sizeof message_0) == 0);

    page[0] = page[0] ^ 0x40;
    page[9] = page[9] ^ 0x21;
    CHECK(rudderfig_look_page(EDITION, record, RECORD, page, PAGE, counts, COUNTS) == RUDDERFIG_DONE);
    CHECK(counts[0] == 1 && counts[1] == 2);
    CHECK(rudderfig_take_page(EDITION, record, RECORD, page, PAGE, metadata_taken, METADATA, data_taken, DATA) == RUDDERFIG_DONE);
    CHECK(memcmp(metadata_taken, metadata, METADATA) == 0 && memcmp(data_taken, data, DATA) == 0);

    answer = rudderfig_judge_block(EDITION, record, RECORD, page, PAGE, 1);
    CHECK(rudderfig_reply(answer) == RUDDERFIG_DONE && rudderfig_value(answer) == 2);

    CHECK(rudderfig_check_claim(EDITION, record, RECORD, page, PAGE, 1, right, 2) == RUDDERFIG_DONE);
    CHECK(rudderfig_check_claim(EDITION, record, RECORD, page, PAGE, 0, right, 2) == RUDDERFIG_CLAIM_WRONG);

    page[1] = page[1] ^ 0xFF;
    return ruined(page);
}

/* A page of ones but for a zero in block 1. Three zeros there, of which two are parity, are more than t = 2. */
static int erased(void)
{
    uint8_t page[PAGE], ones[DATA], metadata_taken[METADATA] = {0, 0}, data_taken[DATA] = {0}, counts[COUNTS] = {9, 9};
    uint64_t answer;

    memset(page, 0xFF, PAGE);
    memset(ones, 0xFF, DATA);
    page[10] = 0xFE;
    CHECK(rudderfig_look_page(EDITION, record, RECORD, page, PAGE, counts, COUNTS) == RUDDERFIG_DONE);
    CHECK(rudderfig_is_erased(counts[0]) && rudderfig_zeros(counts[0]) == 0);
    CHECK(rudderfig_is_erased(counts[1]) && rudderfig_zeros(counts[1]) == 1 && !rudderfig_is_ruined(counts[1]));
    CHECK(rudderfig_take_page(EDITION, record, RECORD, page, PAGE, metadata_taken, METADATA, data_taken, DATA) == RUDDERFIG_DONE);
    CHECK(memcmp(metadata_taken, ones, METADATA) == 0 && memcmp(data_taken, ones, DATA) == 0);

    answer = rudderfig_judge_block(EDITION, record, RECORD, page, PAGE, 1);
    CHECK(rudderfig_reply(answer) == RUDDERFIG_DONE && rudderfig_is_erased(rudderfig_value(answer)));
    CHECK(rudderfig_zeros(rudderfig_value(answer)) == 1);
    CHECK(!rudderfig_is_erased(2) && rudderfig_zeros(2) == 0);

    page[15] = 0xFC;
    answer = rudderfig_judge_block(EDITION, record, RECORD, page, PAGE, 1);
    CHECK(rudderfig_reply(answer) == RUDDERFIG_UNCORRECTABLE && rudderfig_block(answer) == 1);
    return 0;
}

/* The same layout with a mark of two bytes behind the first byte of the metadata. */
enum { MARKED_RECORD = 12, MARK = 2, MARKED_PAGE = PAGE + MARK };

static const uint8_t marked_record[MARKED_RECORD] = {0x01, 0x02, 0x08, 0x01, 0x00, MARKED_PAGE, 0x08, 0x01, 0x00, 0x01, MARK, 0x00};

/* The bits around the mark, and records that are refused: of another length, too small a page beside the mark, a mark outside, zero bits not zero. */
static int marked_layouts(void)
{
    uint8_t wrong[MARKED_RECORD];
    uint64_t answer;

    CHECK(rudderfig_check_layout(EDITION, marked_record, MARKED_RECORD) == RUDDERFIG_DONE);
    CHECK(rudderfig_check_layout(EDITION, marked_record, MARKED_RECORD - 1) == RUDDERFIG_BUFFER_LENGTH);
    memcpy(wrong, marked_record, MARKED_RECORD);
    wrong[5] = PAGE;
    CHECK(rudderfig_check_layout(EDITION, wrong, MARKED_RECORD) == RUDDERFIG_PAGE_TOO_SMALL);
    wrong[9] = PAGE;
    CHECK(rudderfig_check_layout(EDITION, wrong, MARKED_RECORD) == RUDDERFIG_MARK_OUTSIDE);
    memcpy(wrong, marked_record, MARKED_RECORD);
    wrong[11] = 0x01;
    CHECK(rudderfig_check_layout(EDITION, wrong, MARKED_RECORD) == RUDDERFIG_MARK_OUTSIDE);

    answer = rudderfig_locate_bit(EDITION, marked_record, MARKED_RECORD, 8);
    CHECK(rudderfig_reply(answer) == RUDDERFIG_DONE && rudderfig_in_mark(answer) && !rudderfig_in_tail(answer) && rudderfig_value(answer) == 0);
    CHECK(rudderfig_in_mark(rudderfig_locate_bit(EDITION, marked_record, MARKED_RECORD, 23)));
    answer = rudderfig_locate_bit(EDITION, marked_record, MARKED_RECORD, 91);
    CHECK(rudderfig_kind(answer) == 0 && rudderfig_located_block(answer) == 1 && rudderfig_located_exponent(answer) == 56);
    CHECK(rudderfig_value(rudderfig_bit_position(EDITION, marked_record, MARKED_RECORD, 1, 56)) == 91);
    answer = rudderfig_locate_bit(EDITION, marked_record, MARKED_RECORD, 148);
    CHECK(rudderfig_in_tail(answer) && !rudderfig_in_mark(answer));
    return 0;
}

/* Around the mark the page is the one without it. The mark keeps what was lent, and whatever it holds afterwards, the page is read alike. */
static int marked_pages(void)
{
    static const uint16_t right[1] = {72};
    uint8_t plain[PAGE], page[MARKED_PAGE], metadata_taken[METADATA] = {0, 0}, data_taken[DATA] = {0}, counts[COUNTS] = {9, 9};
    uint64_t answer;

    memset(plain, 0, PAGE);
    memset(page, 0x77, MARKED_PAGE);
    CHECK(rudderfig_write_page(EDITION, record, RECORD, metadata, METADATA, data, DATA, plain, PAGE) == RUDDERFIG_DONE);
    CHECK(rudderfig_write_page(EDITION, marked_record, MARKED_RECORD, metadata, METADATA, data, DATA, page, MARKED_PAGE) == RUDDERFIG_DONE);
    CHECK(page[0] == plain[0] && page[1] == 0x77 && page[2] == 0x77 && memcmp(page + 1 + MARK, plain + 1, PAGE - 1) == 0);

    page[0] = page[0] ^ 0x40;
    page[1] = 0x00;
    page[2] = 0xFF;
    CHECK(rudderfig_look_page(EDITION, marked_record, MARKED_RECORD, page, MARKED_PAGE, counts, COUNTS) == RUDDERFIG_DONE);
    CHECK(counts[0] == 1 && counts[1] == 0);
    answer = rudderfig_take_page(EDITION, marked_record, MARKED_RECORD, page, MARKED_PAGE, metadata_taken, METADATA, data_taken, DATA);
    CHECK(answer == RUDDERFIG_DONE && memcmp(metadata_taken, metadata, METADATA) == 0 && memcmp(data_taken, data, DATA) == 0);
    CHECK(rudderfig_value(rudderfig_judge_block(EDITION, marked_record, MARKED_RECORD, page, MARKED_PAGE, 0)) == 1);
    CHECK(rudderfig_check_claim(EDITION, marked_record, MARKED_RECORD, page, MARKED_PAGE, 0, right, 1) == RUDDERFIG_DONE);
    return 0;
}

/* x^9 + x^3 with t = 4 and m = 14; for the hardware locator x^33 + x^3 with t = 8. */
static int remainders(void)
{
    static const uint8_t two[7] = {0, 0, 0, 0, 0, 0x02, 0x08};
    static const uint8_t apart[13] = {0, 0, 0, 0, 0, 0, 0, 0, 0x02, 0, 0, 0, 0x08};
    uint16_t places[5] = {0xAAAA, 0xAAAA, 0xAAAA, 0xAAAA, 0xAAAA};
    uint32_t fragments[RUDDERFIG_FRAGMENTS];
    uint8_t back[13];
    uint64_t answer;

    answer = rudderfig_locate_errors(EDITION, 2, 1, 100, two, sizeof two, places, 5);
    CHECK(rudderfig_reply(answer) == RUDDERFIG_DONE && rudderfig_value(answer) == 2);
    CHECK(places[0] == 9 && places[1] == 3 && places[2] == 0xAAAA);

    memset(fragments, 0xFF, sizeof fragments);
    CHECK(rudderfig_export_fragments(4, apart, sizeof apart, fragments, RUDDERFIG_FRAGMENTS) == RUDDERFIG_DONE);
    CHECK(fragments[0] == 8 && fragments[1] == 2 && fragments[6] == 0);

    memset(back, 0xFF, sizeof back);
    CHECK(rudderfig_import_fragments(4, fragments, RUDDERFIG_FRAGMENTS, back, sizeof back) == RUDDERFIG_DONE);
    CHECK(memcmp(back, apart, sizeof back) == 0);

    fragments[6] = RUDDERFIG_START_BIT;
    CHECK(rudderfig_import_fragments(4, fragments, RUDDERFIG_FRAGMENTS, back, sizeof back) == RUDDERFIG_REMAINDER_TOO_WIDE);
    return 0;
}

/* The parity of block 0's message is that of the written page, which starts at bit 48 there. */
static int pieces(void)
{
    struct rudderfig_parity state;
    uint8_t page[PAGE], parity[4] = {0, 0, 0, 0};
    uint32_t found, stored;

    CHECK(rudderfig_write_page(EDITION, record, RECORD, metadata, METADATA, data, DATA, page, PAGE) == RUDDERFIG_DONE);
    stored = page[6] * UINT32_C(0x40000) + page[7] * UINT32_C(0x400) + page[8] * UINT32_C(4) + page[9] / 64;

    memset(&state, 0xA5, sizeof state);
    CHECK(rudderfig_parity_start(&state, EDITION, 1, 0, sizeof message_0) == RUDDERFIG_DONE);
    CHECK(rudderfig_parity_feed(&state, message_0, sizeof message_0) == RUDDERFIG_DONE);
    CHECK(rudderfig_parity_finish(&state, parity, sizeof parity) == RUDDERFIG_DONE);
    found = parity[0] * UINT32_C(0x1000000) + parity[1] * UINT32_C(0x10000) + parity[2] * UINT32_C(0x100) + parity[3];
    CHECK(found == stored);
    return 0;
}

/* The word of an explanation by its numbers. */
static int explains(uint64_t answer, unsigned reply, unsigned about, uint32_t found, uint32_t limit)
{
    return rudderfig_reply(answer) == reply && rudderfig_about(answer) == about && rudderfig_found(answer) == found && rudderfig_limit(answer) == limit;
}

/* An accepted layout is 0. A page of 17 bytes has 120 bits beside the mark, and the blocks need 132. */
static int explained_layouts(void)
{
    uint8_t wrong[MARKED_RECORD];

    CHECK(rudderfig_explain_layout(EDITION, record, RECORD) == 0 && rudderfig_explain_layout(EDITION, marked_record, MARKED_RECORD) == 0);
    CHECK(explains(rudderfig_explain_layout(3, record, RECORD), RUDDERFIG_OUT_OF_RANGE, RUDDERFIG_ABOUT_EDITION, 3, 2));
    CHECK(explains(rudderfig_explain_layout(EDITION, record, 7), RUDDERFIG_BUFFER_LENGTH, RUDDERFIG_ABOUT_RECORD, 7, 8));
    memcpy(wrong, marked_record, MARKED_RECORD);
    wrong[5] = PAGE;
    CHECK(explains(rudderfig_explain_layout(EDITION, wrong, MARKED_RECORD), RUDDERFIG_PAGE_TOO_SMALL, RUDDERFIG_ABOUT_PAGE, 132, 120));
    wrong[11] = 3;
    CHECK(explains(rudderfig_explain_layout(EDITION, wrong, MARKED_RECORD), RUDDERFIG_MARK_OUTSIDE, RUDDERFIG_ABOUT_PAGE, 3, 0));
    wrong[9] = PAGE;
    CHECK(explains(rudderfig_explain_layout(EDITION, wrong, MARKED_RECORD), RUDDERFIG_MARK_OUTSIDE, RUDDERFIG_ABOUT_PAGE, PAGE + MARK, PAGE));
    wrong[7] = 0;
    CHECK(explains(rudderfig_explain_layout(EDITION, wrong, MARKED_RECORD), RUDDERFIG_EMPTY_MESSAGE, RUDDERFIG_ABOUT_LATER_BLOCK, 0, 1));
    wrong[2] = 0xA8;
    CHECK(explains(rudderfig_explain_layout(EDITION, wrong, MARKED_RECORD), RUDDERFIG_LEVEL_TOO_HIGH, RUDDERFIG_ABOUT_BLOCK_0, 21, 20));
    return 0;
}

/* Block 1 with flips at positions 74 and 79, in byte 9; erased with one zero; and ruined. */
static int explained_blocks(void)
{
    uint8_t page[PAGE];
    uint32_t list[3] = {7, 7, 7};
    uint64_t answer;

    CHECK(rudderfig_write_page(EDITION, record, RECORD, metadata, METADATA, data, DATA, page, PAGE) == RUDDERFIG_DONE);
    page[9] = page[9] ^ 0x21;
    answer = rudderfig_explain_block(EDITION, record, RECORD, page, PAGE, 1, list, 1);
    CHECK(explains(answer, RUDDERFIG_BUFFER_LENGTH, RUDDERFIG_ABOUT_LENT_LIST, 1, 2));
    answer = rudderfig_explain_block(EDITION, record, RECORD, page, PAGE, 2, list, 0);
    CHECK(explains(answer, RUDDERFIG_OUT_OF_RANGE, RUDDERFIG_ABOUT_BLOCK, 2, 2));
    answer = rudderfig_explain_block(EDITION, record, RECORD, page, PAGE - 1, UINT64_C(0x100000000), list, 3);
    CHECK(explains(answer, RUDDERFIG_PAGE_LENGTH, RUDDERFIG_ABOUT_LENT_PAGE, PAGE - 1, PAGE));
    answer = rudderfig_explain_block(EDITION, record, RECORD, page, PAGE, UINT64_C(0x100000000), list, 3);
    CHECK(explains(answer, RUDDERFIG_OUT_OF_RANGE, RUDDERFIG_ABOUT_BLOCK, 0xFFFFFF, 2));
    CHECK(list[0] == 7 && list[1] == 7 && list[2] == 7);
    answer = rudderfig_explain_block(EDITION, record, RECORD, page, PAGE, 1, list, 3);
    CHECK(explains(answer, RUDDERFIG_DONE, 0, 2, 2) && !rudderfig_explains_erased(answer));
    CHECK(list[0] == 74 && list[1] == 79 && list[2] == 7);

    memset(page, 0xFF, PAGE);
    page[10] = 0xFE;
    answer = rudderfig_explain_block(EDITION, record, RECORD, page, PAGE, 1, list, 2);
    CHECK(rudderfig_explains_erased(answer) && rudderfig_found(answer) == 1 && rudderfig_limit(answer) == 2);
    page[15] = 0xFC;
    answer = rudderfig_explain_block(EDITION, record, RECORD, page, PAGE, 1, list, 2);
    CHECK(explains(answer, RUDDERFIG_UNCORRECTABLE, RUDDERFIG_ABOUT_BLOCK, 1, 2) && !rudderfig_explains_erased(answer));
    CHECK(list[0] == 74 && list[1] == 79);
    return 0;
}

/* A page bit by the numbers of its place. */
static int is_place(uint64_t answer, unsigned part, unsigned block, unsigned page_byte, unsigned page_bit, unsigned part_byte)
{
    return rudderfig_reply(answer) == RUDDERFIG_DONE && rudderfig_part(answer) == part && rudderfig_part_block(answer) == block &&
           rudderfig_page_byte(answer) == page_byte && rudderfig_page_bit(answer) == page_bit && rudderfig_part_byte(answer) == part_byte;
}

/* The message of block 1 starts at position 74, behind 26 bits of parity, with byte 4 of the data. The mark moves it on by 16. */
static int explained_bits(void)
{
    CHECK(is_place(rudderfig_explain_bit(EDITION, record, RECORD, 9), RUDDERFIG_PART_METADATA, 0, 1, 6, 1));
    CHECK(is_place(rudderfig_explain_bit(EDITION, record, RECORD, 50), RUDDERFIG_PART_PARITY, 0, 6, 5, 0));
    CHECK(is_place(rudderfig_explain_bit(EDITION, record, RECORD, 74), RUDDERFIG_PART_DATA, 1, 9, 5, 4));
    CHECK(is_place(rudderfig_explain_bit(EDITION, record, RECORD, 132), RUDDERFIG_PART_TAIL, 0, 16, 3, 0));
    CHECK(explains(rudderfig_explain_bit(EDITION, record, RECORD, 136), RUDDERFIG_OUT_OF_RANGE, RUDDERFIG_ABOUT_POSITION, 136, 136));
    CHECK(is_place(rudderfig_explain_bit(EDITION, marked_record, MARKED_RECORD, 8), RUDDERFIG_PART_MARK, 0, 1, 7, 0));
    CHECK(is_place(rudderfig_explain_bit(EDITION, marked_record, MARKED_RECORD, 90), RUDDERFIG_PART_DATA, 1, 11, 5, 4));
    return 0;
}

/* Edition 2: one block of 4 bytes with m = 14 and t = 62, so 868 bits of parity. */
enum { STRONG_EDITION = 2, LEVEL_FIELD = 31, STRONG = 62, STRONG_DATA = 4, STRONG_PARITY = 109, STRONG_PAGE = 113 };

static const uint8_t strong_record[RECORD] = {0x00, 0x00, 0xFC, 0x01, 0x00, STRONG_PAGE, 0x00, 0x00};

/* Edition 1 has no such level, and there is no edition 3: that is looked at before a record's length. */
static int strong_layouts(void)
{
    static const uint8_t none[STRONG_PARITY] = {0};
    uint16_t places[STRONG];
    struct rudderfig_parity state;
    uint64_t answer;

    CHECK(rudderfig_check_layout(STRONG_EDITION, strong_record, RECORD) == RUDDERFIG_DONE);
    CHECK(rudderfig_check_layout(EDITION, strong_record, RECORD) == RUDDERFIG_LEVEL_TOO_HIGH);
    CHECK(rudderfig_check_layout(3, strong_record, RECORD - 1) == RUDDERFIG_OUT_OF_RANGE);
    CHECK(rudderfig_check_layout(0, record, RECORD) == RUDDERFIG_OUT_OF_RANGE);
    answer = rudderfig_locate_bit(STRONG_EDITION, strong_record, RECORD, 1);
    CHECK(rudderfig_reply(answer) == RUDDERFIG_DONE && rudderfig_located_block(answer) == 0 && rudderfig_located_exponent(answer) == 898);
    CHECK(rudderfig_locate_bit(EDITION, strong_record, RECORD, 1) == RUDDERFIG_LEVEL_TOO_HIGH);
    CHECK(rudderfig_value(rudderfig_bit_position(STRONG_EDITION, strong_record, RECORD, 0, 898)) == 1);
    CHECK(rudderfig_bit_position(EDITION, strong_record, RECORD, 0, 898) == RUDDERFIG_LEVEL_TOO_HIGH);

    CHECK(rudderfig_locate_errors(STRONG_EDITION, LEVEL_FIELD, 1, 900, none, STRONG_PARITY, places, STRONG) == RUDDERFIG_DONE);
    CHECK(rudderfig_locate_errors(EDITION, LEVEL_FIELD, 1, 900, none, STRONG_PARITY, places, STRONG) == RUDDERFIG_LEVEL_TOO_HIGH);
    CHECK(rudderfig_locate_errors(STRONG_EDITION, LEVEL_FIELD + 1, 1, 900, none, STRONG_PARITY, places, STRONG) == RUDDERFIG_LEVEL_TOO_HIGH);
    CHECK(rudderfig_locate_errors(3, LEVEL_FIELD, 1, 900, none, STRONG_PARITY, places, STRONG) == RUDDERFIG_OUT_OF_RANGE);
    CHECK(rudderfig_parity_start(&state, EDITION, LEVEL_FIELD, 1, STRONG_DATA) == RUDDERFIG_LEVEL_TOO_HIGH);
    CHECK(rudderfig_parity_start(&state, 3, LEVEL_FIELD, 1, STRONG_DATA) == RUDDERFIG_OUT_OF_RANGE);
    return 0;
}

/* The parity of the message in one piece is the one in the page, four bits further on there. */
static int strong_pieces(const uint8_t *page)
{
    struct rudderfig_parity state;
    uint8_t parity[STRONG_PARITY];

    CHECK(rudderfig_parity_start(&state, STRONG_EDITION, LEVEL_FIELD, 1, STRONG_DATA) == RUDDERFIG_DONE);
    CHECK(rudderfig_parity_feed(&state, data, STRONG_DATA) == RUDDERFIG_DONE);
    CHECK(rudderfig_parity_finish(&state, parity, STRONG_PARITY) == RUDDERFIG_DONE);
    CHECK(parity[0] / 16 == 0);
    for (int i = 0; i + 1 < STRONG_PARITY; i++)
        CHECK(page[STRONG_DATA + i] == parity[i] % 16 * 16 + parity[i + 1] / 16);
    return 0;
}

/* The first 62 bits turned over: of a written page, and of one of ones. */
static int strong_pages(void)
{
    uint8_t page[STRONG_PAGE], taken[STRONG_DATA] = {0}, count = 9;
    uint16_t claims[STRONG];
    uint64_t answer;

    CHECK(rudderfig_write_page(EDITION, strong_record, RECORD, NULL, 0, data, STRONG_DATA, page, STRONG_PAGE) == RUDDERFIG_LEVEL_TOO_HIGH);
    CHECK(rudderfig_write_page(STRONG_EDITION, strong_record, RECORD, NULL, 0, data, STRONG_DATA, page, STRONG_PAGE) == RUDDERFIG_DONE);
    if (strong_pieces(page))
        return 1;
    for (int i = 0; i < STRONG; i++) {
        page[i / 8] = page[i / 8] ^ (0x80 >> i % 8);
        claims[i] = 899 - i;
    }
    CHECK(rudderfig_look_page(STRONG_EDITION, strong_record, RECORD, page, STRONG_PAGE, &count, 1) == RUDDERFIG_DONE && count == STRONG);
    CHECK(rudderfig_take_page(STRONG_EDITION, strong_record, RECORD, page, STRONG_PAGE, NULL, 0, taken, STRONG_DATA) == RUDDERFIG_DONE);
    CHECK(memcmp(taken, data, STRONG_DATA) == 0);
    CHECK(rudderfig_value(rudderfig_judge_block(STRONG_EDITION, strong_record, RECORD, page, STRONG_PAGE, 0)) == STRONG);
    CHECK(rudderfig_check_claim(STRONG_EDITION, strong_record, RECORD, page, STRONG_PAGE, 0, claims, STRONG) == RUDDERFIG_DONE);
    CHECK(rudderfig_check_claim(STRONG_EDITION, strong_record, RECORD, page, STRONG_PAGE, 0, claims, STRONG - 1) == RUDDERFIG_CLAIM_WRONG);

    CHECK(rudderfig_look_page(EDITION, strong_record, RECORD, page, STRONG_PAGE, &count, 1) == RUDDERFIG_LEVEL_TOO_HIGH);
    CHECK(rudderfig_take_page(EDITION, strong_record, RECORD, page, STRONG_PAGE, NULL, 0, taken, STRONG_DATA) == RUDDERFIG_LEVEL_TOO_HIGH);
    CHECK(rudderfig_judge_block(EDITION, strong_record, RECORD, page, STRONG_PAGE, 0) == RUDDERFIG_LEVEL_TOO_HIGH);
    CHECK(rudderfig_check_claim(EDITION, strong_record, RECORD, page, STRONG_PAGE, 0, claims, STRONG) == RUDDERFIG_LEVEL_TOO_HIGH);

    memset(page, 0xFF, STRONG_PAGE);
    for (int i = 0; i < STRONG; i++)
        page[i / 8] = page[i / 8] ^ (0x80 >> i % 8);
    answer = rudderfig_judge_block(STRONG_EDITION, strong_record, RECORD, page, STRONG_PAGE, 0);
    CHECK(rudderfig_value(answer) == 190 && rudderfig_is_erased(190) && !rudderfig_is_ruined(190) && rudderfig_zeros(190) == STRONG);
    return 0;
}

int main(void)
{
    if (layouts() || pages() || erased() || marked_layouts() || marked_pages() || strong_layouts() || strong_pages() || remainders() || pieces())
        return 1;
    if (explained_layouts() || explained_blocks() || explained_bits())
        return 1;
    printf("every call of version %s answers as it should\n", RUDDERFIG_VERSION);
    return 0;
}
