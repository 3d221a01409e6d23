/*
 * A first program with the library: a page of the layout of case A of document 01 (8 blocks of 512 bytes, each corrected up to 16 flips) is written,
 * worn, looked at and taken, ruined, and at last looked at as it is in flash that was never written.
 *
 *     make lib
 *     cc -Iinclude host/c/first.c include/librudderfig.a -o target/first && target/first
 */
#include <stdio.h>
#include <string.h>

#include "rudderfig.h"

enum { EDITION = 1, METADATA = 10, DATA = 4096, BLOCKS = 8, PAGE = 4314 };

static const uint8_t record[8] = {0x07, 0x0A, 0x40, 0x80, 0x10, 0xDA, 0x40, 0x80};
static uint8_t metadata[METADATA], data[DATA], counts[BLOCKS], page[PAGE];

static unsigned look(void)
{
    uint64_t answer = rudderfig_look_page(EDITION, record, sizeof record, page, PAGE, counts, BLOCKS);

    printf("look replies %u", rudderfig_reply(answer));
    if (rudderfig_reply(answer) == RUDDERFIG_UNCORRECTABLE)
        printf(" for block %u", rudderfig_block(answer));
    printf(", by block");
    for (int block = 0; block < BLOCKS; block++) {
        if (rudderfig_is_ruined(counts[block]))
            printf(" ruined");
        else if (rudderfig_is_erased(counts[block]))
            printf(" erased:%u", rudderfig_zeros(counts[block]));
        else
            printf(" %u", counts[block]);
    }
    return rudderfig_reply(answer);
}

static unsigned take(void)
{
    uint64_t answer = rudderfig_take_page(EDITION, record, sizeof record, page, PAGE, metadata, METADATA, data, DATA);

    printf("; take replies %u", rudderfig_reply(answer));
    return rudderfig_reply(answer);
}

int main(void)
{
    uint64_t answer;

    memset(metadata, 0x11, METADATA);
    memset(data, 0x22, DATA);
    answer = rudderfig_write_page(EDITION, record, sizeof record, metadata, METADATA, data, DATA, page, PAGE);
    printf("written: write replies %u\n", rudderfig_reply(answer));

    page[100] ^= 0xFF;
    page[2000] ^= 0x80;
    memset(data, 0, DATA);
    printf("worn: ");
    if (look() != RUDDERFIG_DONE || take() != RUDDERFIG_DONE)
        return 1;
    printf(", data as written: %s\n", data[90] == 0x22 && data[1980] == 0x22 ? "yes" : "no");

    memset(page + 3000, 0x55, 10);
    printf("ruined: ");
    if (look() != RUDDERFIG_UNCORRECTABLE || take() != RUDDERFIG_UNCORRECTABLE)
        return 1;
    printf("\n");

    memset(page, 0xFF, PAGE);
    page[2000] ^= 0x80;
    printf("never written: ");
    if (look() != RUDDERFIG_DONE)
        return 1;
    printf("\n");
    return 0;
}
