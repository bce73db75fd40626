/*
 * Examines the candidate 300, 75, 20 of Case A and prints the listing.
 *
 * From the root of the repository:
 *   bash host/build-library.sh
 *   gcc -Iinclude examples/case_a.c host/lib/libinterface.a -o host/lib/case_a
 *   host/lib/case_a
 */
#include <inttypes.h>
#include <stdio.h>
#include <string.h>

#include "pewgull.h"

enum { WORDS = PEWGULL_EXAMINE_LENGTH / 4 };

/* The bits of a value in mg/l. */
static uint32_t bits(float value)
{
    uint32_t word;
    memcpy(&word, &value, sizeof word);
    return word;
}

/* Writes the words as bytes, the lowest byte first. */
static void encode(const uint32_t words[WORDS], uint8_t request[PEWGULL_EXAMINE_LENGTH])
{
    for (size_t i = 0; i < PEWGULL_EXAMINE_LENGTH; i++)
        request[i] = (uint8_t)(words[i / 4] >> (8 * (i % 4)));
}

int main(void)
{
    const uint32_t case_a[WORDS] = {
        PEWGULL_VERSION,
        1200, 5000, 600,      /* load, flow, wet weather flow */
        12, 20, 100,          /* temperatures, sludge volume index */
        10000, 1000,          /* nitrate and phosphorus targets */
        120, 200, 9000,       /* peak factors, oxygen saturation */
        1000, 5000,           /* site: surface, depth */
        0, 0, 0, 0, 0,        /* pre-anoxic, iron, horizontal, scraper, none */
        0, bits(200.0f),      /* BOD, measured */
        0, bits(400.0f),      /* COD */
        0, bits(150.0f),      /* solids */
        0, bits(46.0f),       /* nitrogen */
        0, bits(8.0f),        /* phosphorus */
        0,                    /* dose of external carbon */
        0,                    /* number of terms of the consent */
        0, 0, 0, 0, 0, 0,     /* four entries for terms, not looked at */
        0, 0, 0, 0, 0, 0,
        0, 0, 0, 0, 0, 0,
        0, 0, 0, 0, 0, 0,
        0,                    /* way of sludge and oxygen: bod */
        300, 75, 20           /* fraction, return ratio, thickening time */
    };
    uint8_t request[PEWGULL_EXAMINE_LENGTH];
    uint8_t page[PEWGULL_PAGE_LENGTH];
    uint64_t written;
    uint32_t number;

    encode(case_a, request);
    number = pewgull_examine(request, sizeof request, page, sizeof page, &written);
    fwrite(page, 1, (size_t)written, stdout);
    if (number != PEWGULL_SHEET)
        fprintf(stderr, "no sheet: %" PRIu32 "\n", number);
    return number == PEWGULL_SHEET ? 0 : 1;
}
