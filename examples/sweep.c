/*
 * Sweeps for Case A by 1,000 candidates at a time. In the middle the sweep is
 * put down: its state is copied away, a candidate is examined, and the sweep
 * goes on from the copy. Standard error shows how far it is; at last the
 * listing of the design chosen is printed.
 *
 * From the root of the repository:
 *   bash host/build-library.sh
 *   gcc -Iinclude examples/sweep.c host/lib/libinterface.a -o host/lib/sweep
 *   host/lib/sweep
 */
#include <inttypes.h>
#include <stdio.h>
#include <string.h>

#include "pewgull.h"

enum { WORDS = PEWGULL_CHOOSE_LENGTH / 4 };

/* Candidates of the grid in horizontal flow, and half of them or so. */
enum { GRID = 83076, MIDDLE = 42000 };

/* The bits of a value in mg/l. */
static uint32_t bits(float value)
{
    uint32_t word;
    memcpy(&word, &value, sizeof word);
    return word;
}

/* Writes Case A as bytes, the lowest of each word first. */
static void case_a(uint8_t request[PEWGULL_CHOOSE_LENGTH])
{
    const uint32_t words[WORDS] = {
        PEWGULL_VERSION,
        1200, 5000, 600,      /* load, flow, wet weather flow */
        12, 20, 100,          /* temperatures, sludge volume index */
        10000, 1000,          /* nitrate and phosphorus targets */
        120, 200, 9000,       /* peak factors, oxygen saturation */
        1000, 5000,           /* site: surface, depth */
        0, 0, 0, 0, 0,        /* pre-anoxic, iron, horizontal, scraper, none */
        0, bits(200.0f),      /* BOD, measured */
        0, bits(400.0f),      /* COD */
        0, bits(150.0f),      /* solids */
        0, bits(46.0f),       /* nitrogen */
        0, bits(8.0f)         /* phosphorus; no dose, no terms, by the BOD */
    };

    for (size_t i = 0; i < PEWGULL_CHOOSE_LENGTH; i++)
        request[i] = (uint8_t)(words[i / 4] >> (8 * (i % 4)));
}

/* A word of the state. */
static uint32_t word(const uint8_t state[PEWGULL_STATE_LENGTH], size_t place)
{
    uint32_t word = 0;
    for (size_t i = 0; i < 4; i++)
        word |= (uint32_t)state[4 * place + i] << (8 * i);
    return word;
}

/* How far the sweep is: word 56, and the best so far in words 57 to 59. */
static void show(const uint8_t state[PEWGULL_STATE_LENGTH])
{
    uint32_t fraction = word(state, 57);

    fprintf(stderr, "%" PRIu32 " of %d candidates, ", word(state, 56), GRID);
    if (fraction == 0)
        fprintf(stderr, "none permitted yet\n");
    else
        fprintf(stderr, "best so far %" PRIu32 " %" PRIu32 " %" PRIu32 "\n",
                fraction, word(state, 58), word(state, 59));
}

/* Advances until so many candidates are asked for, or until there is an answer. */
static uint32_t sweep(uint8_t state[PEWGULL_STATE_LENGTH], uint32_t until,
                      uint8_t page[PEWGULL_PAGE_LENGTH], uint64_t *written)
{
    uint32_t number = PEWGULL_UNFINISHED;

    while (number == PEWGULL_UNFINISHED && word(state, 56) < until) {
        number = pewgull_sweep_advance(state, PEWGULL_STATE_LENGTH, PEWGULL_ADVANCE_MOST,
                                       page, PEWGULL_PAGE_LENGTH, written);
        if (number == PEWGULL_UNFINISHED)
            show(state);
    }
    return number;
}

int main(void)
{
    uint8_t request[PEWGULL_CHOOSE_LENGTH];
    uint8_t state[PEWGULL_STATE_LENGTH], copy[PEWGULL_STATE_LENGTH];
    uint8_t page[PEWGULL_PAGE_LENGTH];
    uint64_t written;
    uint32_t number;

    case_a(request);
    number = pewgull_sweep_start(request, sizeof request, state, sizeof state, &written);
    if (number != PEWGULL_SHEET) {
        fprintf(stderr, "no sweep: %" PRIu32 "\n", number);
        return 1;
    }
    sweep(state, MIDDLE, page, &written);

    /* put down: these bytes may be stored, sent, and gone on from elsewhere */
    memcpy(copy, state, sizeof copy);

    number = pewgull_sweep_examine(copy, sizeof copy, 300, 75, 20, page, sizeof page, &written);
    fprintf(stderr, "300 75 20, examined meanwhile: %" PRIu32 "\n", number);

    number = sweep(copy, GRID, page, &written);
    fwrite(page, 1, (size_t)written, stdout);
    if (number != PEWGULL_SHEET)
        fprintf(stderr, "no design: %" PRIu32 "\n", number);
    return number == PEWGULL_SHEET ? 0 : 1;
}
