/*
 * Chooses for Case A on a page of just the listing's length, and prints it:
 * the length is asked first, and so much memory is lent. On a page one byte
 * shorter the same call gives 11 and writes nothing, which standard error
 * shows.
 *
 * From the root of the repository:
 *   bash host/build-library.sh
 *   gcc -Iinclude examples/length.c host/lib/libinterface.a -o host/lib/length
 *   host/lib/length
 */
#include <inttypes.h>
#include <stdio.h>
#include <stdlib.h>
#include <string.h>

#include "pewgull.h"

enum { WORDS = PEWGULL_CHOOSE_LENGTH / 4 };

/* The bits of a value in mg/l. */
static uint32_t bits(float value)
{
    uint32_t word;
    memcpy(&word, &value, sizeof word);
    return word;
}

/* Writes the words as bytes, the lowest byte first. */
static void encode(const uint32_t words[WORDS], uint8_t request[PEWGULL_CHOOSE_LENGTH])
{
    for (size_t i = 0; i < PEWGULL_CHOOSE_LENGTH; i++)
        request[i] = (uint8_t)(words[i / 4] >> (8 * (i % 4)));
}

int main(void)
{
    const uint32_t case_a[WORDS] = {
        PEWGULL_VERSION,
        1200, 5000, 600,      /* load, flow, wet weather flow */
        12, 20, 100,          /* temperatures, sludge volume index */
        10000, 1000,          /* nitrate and phosphorus targets */
        120, 200, 9000,       /* peak factors, oxygen saturation */
        1000, 5000,           /* site: surface, depth */
        0, 0, 0, 0, 0,        /* pre-anoxic, iron, horizontal, scraper, none */
        0, bits(200.0f),      /* BOD, measured */
        0, bits(400.0f),      /* COD */
        0, bits(150.0f),      /* solids */
        0, bits(46.0f),       /* nitrogen */
        0, bits(8.0f)         /* phosphorus; no dose, no terms, way bod */
    };
    uint8_t request[PEWGULL_CHOOSE_LENGTH];
    uint64_t length, written;
    uint32_t number;
    uint8_t *page;

    encode(case_a, request);
    number = pewgull_length_choose(request, sizeof request, &length);
    page = malloc((size_t)length);
    if (page == NULL)
        return 2;
    fprintf(stderr, "the listing takes %" PRIu64 " bytes\n", length);
    if (length > 0)
        fprintf(stderr, "a byte less: %" PRIu32 "\n",
                pewgull_choose(request, sizeof request, page, (size_t)length - 1, &written));
    if (pewgull_choose(request, sizeof request, page, (size_t)length, &written) != number)
        return 2;
    fwrite(page, 1, (size_t)written, stdout);
    free(page);
    return number == PEWGULL_SHEET ? 0 : 1;
}
