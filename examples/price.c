/*
 * Prices the design that is chosen for Case A by the tariff of
 * examples/concrete.tariff, and prints "price" and the cents. The choice goes
 * by volume, not by price: standard error shows its two volumes and its price
 * beside those of the candidate 300, 67, 20, which takes more and costs less.
 *
 * From the root of the repository:
 *   bash host/build-library.sh
 *   gcc -Iinclude examples/price.c host/lib/libinterface.a -o host/lib/price
 *   host/lib/price
 */
#include <inttypes.h>
#include <stdio.h>
#include <string.h>

#include "pewgull.h"

/* Words of the data, of a candidate and of a tariff. */
enum { DATA = 56, CANDIDATE = 3, TARIFF = 14 };

/* Places of a page's numbers. */
enum { REACTOR = 7, SETTLING = 10, PRICE = 15, NUMBERS = 16 };

static const uint32_t candidate[CANDIDATE] = { 300, 67, 20 };

static const uint32_t tariff[TARIFF] = {
    4,                                /* number of bands */
    500, 2000, 5000, 0, 0, 0,         /* limits, m3; the fourth band has none */
    42000, 34000, 28000, 25000, 0, 0, /* prices, cents per m3 */
    80                                /* surcharge, thousandths */
};

/* The bits of a value in mg/l. */
static uint32_t bits(float value)
{
    uint32_t word;
    memcpy(&word, &value, sizeof word);
    return word;
}

/* Writes words as bytes, the lowest byte first, and gives where they end. */
static uint8_t *put(uint8_t *bytes, const uint32_t *words, size_t count)
{
    for (size_t i = 0; i < 4 * count; i++)
        bytes[i] = (uint8_t)(words[i / 4] >> (8 * (i % 4)));
    return bytes + 4 * count;
}

/* Reads the numbers of a page. */
static void take(const uint8_t page[PEWGULL_PRICE_PAGE], uint64_t numbers[NUMBERS])
{
    for (size_t i = 0; i < NUMBERS; i++) {
        numbers[i] = 0;
        for (size_t byte = 0; byte < 8; byte++)
            numbers[i] |= (uint64_t)page[8 * i + byte] << (8 * byte);
    }
}

/* Prices the design that is chosen for the data. */
static uint32_t chosen(const uint32_t data[DATA], uint64_t numbers[NUMBERS])
{
    uint8_t request[PEWGULL_PRICE_CHOOSE_LENGTH];
    uint8_t page[PEWGULL_PRICE_PAGE] = { 0 };
    uint64_t written;
    uint32_t number;

    put(put(request, data, DATA), tariff, TARIFF);
    number = pewgull_price_choose(request, sizeof request, page, sizeof page, &written);
    take(page, numbers);
    return number;
}

/* Prices the candidate. */
static uint32_t examined(const uint32_t data[DATA], uint64_t numbers[NUMBERS])
{
    uint8_t request[PEWGULL_PRICE_EXAMINE_LENGTH];
    uint8_t page[PEWGULL_PRICE_PAGE] = { 0 };
    uint64_t written;
    uint32_t number;

    put(put(put(request, data, DATA), candidate, CANDIDATE), tariff, TARIFF);
    number = pewgull_price_examine(request, sizeof request, page, sizeof page, &written);
    take(page, numbers);
    return number;
}

/* A line on standard error. */
static void show(const char *what, const uint64_t numbers[NUMBERS])
{
    fprintf(stderr, "%s: reactor %" PRIu64 " m3, settling %" PRIu64 " m3, %" PRIu64 " cents\n",
            what, numbers[REACTOR], numbers[SETTLING], numbers[PRICE]);
}

int main(void)
{
    const uint32_t case_a[DATA] = {
        PEWGULL_VERSION,
        1200, 5000, 600,      /* load, flow, wet weather flow */
        12, 20, 100,          /* temperatures, sludge volume index */
        10000, 1000,          /* nitrate and phosphorus targets */
        120, 200, 9000,       /* peak factors, oxygen saturation */
        1000, 5000,           /* site: surface, depth */
        0, 0, 0, 0, 0,        /* pre-anoxic, iron, horizontal, scraper, none */
        0, bits(200.0f),      /* BOD, measured */
        0, bits(400.0f),      /* COD */
        0, bits(150.0f),      /* solids */
        0, bits(46.0f),       /* nitrogen */
        0, bits(8.0f)         /* phosphorus; then no dose, no terms, by BOD */
    };
    uint64_t choice[NUMBERS], other[NUMBERS];
    uint32_t number = chosen(case_a, choice);

    if (number != PEWGULL_SHEET) {
        fprintf(stderr, "refused: %" PRIu32 "\n", number);
        return 1;
    }
    printf("price %" PRIu64 "\n", choice[PRICE]);
    show("chosen", choice);
    if (examined(case_a, other) == PEWGULL_SHEET)
        show("300, 67, 20", other);
    return 0;
}
