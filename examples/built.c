/*
 * Asks whether the tanks of examples/existing-works.plant hold every sludge
 * volume index of 90..160, and prints "held", or "lost" and the smallest index
 * that they do not hold. Each index stands for itself: after a lost one the
 * rest of the span is asked for again, so that standard error shows all of
 * them.
 *
 * From the root of the repository:
 *   bash host/build-library.sh
 *   gcc -Iinclude examples/built.c host/lib/libinterface.a -o host/lib/built
 *   host/lib/built
 */
#include <inttypes.h>
#include <stdio.h>
#include <string.h>

#include "pewgull.h"

enum { WORDS = PEWGULL_BUILT_LENGTH / 4 };

/* The span, and the places of its ends in a request. */
enum { LEAST = 90, MOST = 160, LEAST_WORD = 61, MOST_WORD = 62 };

/* The bits of a value in mg/l. */
static uint32_t bits(float value)
{
    uint32_t word;
    memcpy(&word, &value, sizeof word);
    return word;
}

/* Writes the words as bytes, the lowest byte first. */
static void encode(const uint32_t words[WORDS], uint8_t request[PEWGULL_BUILT_LENGTH])
{
    for (size_t i = 0; i < PEWGULL_BUILT_LENGTH; i++)
        request[i] = (uint8_t)(words[i / 4] >> (8 * (i % 4)));
}

/* The smallest index from the least on that is lost, or 0, in *index. */
static uint32_t ask(uint32_t words[WORDS], uint32_t least, uint64_t *index)
{
    uint8_t request[PEWGULL_BUILT_LENGTH];
    uint8_t page[PEWGULL_BUILT_PAGE];
    uint64_t written;
    uint32_t number;

    words[LEAST_WORD] = least;
    words[MOST_WORD] = MOST;
    encode(words, request);
    number = pewgull_built(request, sizeof request, page, sizeof page, &written);
    *index = 0;
    for (size_t i = 0; i < written; i++)
        *index |= (uint64_t)page[i] << (8 * i);
    return number;
}

int main(void)
{
    uint32_t words[WORDS] = {
        PEWGULL_VERSION,
        1080, 4000, 420,      /* load, flow, wet weather flow */
        12, 20, 110,          /* temperatures, sludge volume index */
        12000, 1000,          /* nitrate and phosphorus targets */
        120, 200, 9000,       /* peak factors, oxygen saturation */
        400, 6000,            /* site: surface, depth */
        1, 0, 1, 2, 0,        /* simultaneous, iron, vertical, hopper, none */
        0, bits(250.0f),      /* BOD, measured */
        0, bits(500.0f),      /* COD */
        0, bits(190.0f),      /* solids */
        0, bits(48.0f),       /* nitrogen */
        0, bits(8.0f),        /* phosphorus */
        0,                    /* dose of external carbon */
        2,                    /* number of terms of the consent */
        11, 1, 3, 31, 10, 18000,
        4, 1, 10, 31, 13, 12000,
        0, 0, 0, 0, 0, 0,     /* entries past them, not looked at */
        0, 0, 0, 0, 0, 0,
        0,                    /* way of sludge and oxygen: bod */
        4450, 300, 5000,      /* as built: reactor, surface, depth */
        400, 24               /* fraction, thickening time; then the span */
    };
    uint64_t index;
    uint32_t number = ask(words, LEAST, &index);

    if (number != PEWGULL_SHEET) {
        fprintf(stderr, "refused: %" PRIu32 "\n", number);
        return 1;
    }
    if (index == 0)
        puts("held");
    else
        printf("lost %" PRIu64 "\n", index);
    while (number == PEWGULL_SHEET && index != 0) {
        fprintf(stderr, "%" PRIu64 " is lost\n", index);
        if (index == MOST)
            break;
        number = ask(words, (uint32_t)index + 1, &index);
    }
    return 0;
}
