/*
 * Pewgull: dimensioning of single-stage activated sludge plants with nitrogen
 * removal. Seventeen calls, for x86-64 and its C calling convention (System V).
 *
 * Each call takes the bytes of a request, of a day log or of a sweep's state,
 * writes on a page that the caller lends, stores the number of bytes written
 * in *written, and gives a number. Later bytes of the page stay unchanged. The
 * three calls for a length take no page and store the length of a listing. No
 * call allocates memory, keeps anything between calls, or reads or writes
 * anything else: what a sweep hands on is in the state, which the caller
 * keeps. Several threads may call at once, each with memory of its own; two
 * that go on with one sweep take turns, or a copy of its state each. A choice
 * takes 9 kB of stack, a works 14 kB, a line of a works, an advance of a sweep
 * and a choice that is priced 10 kB; examining, also in a sweep or priced,
 * explaining, a census, a load, a target, existing tanks and the start of a
 * sweep take 3 kB, and the length of a listing as much as the call that writes
 * it. The archive needs memcpy and memset, and nothing more.
 *
 * What the caller sees to
 *   - request points to request_length readable bytes, log to log_length,
 *     state to state_length; page points to page_length writable bytes, and
 *     state to writable ones where a sweep is started or advanced; written
 *     and length point to a uint64_t. None of them is a null pointer, also
 *     where a length is 0.
 *   - The page, *written, *length and a state that is written overlap neither
 *     the request, log or state that is read nor each other.
 *   - No alignment is needed for the request, the log, the state or the page.
 *
 * The request, version 4: 32-bit unsigned numbers, little-endian, no padding.
 * Data outside their ranges are refused with a number; every other number is
 * answered for.
 *
 *   word   bytes      what
 *   0      0..3       version: 4
 *   1      4..7       raw BOD5 load, 1..100000 kg/d
 *   2      8..11      daily flow, 1..200000 m3/d
 *   3      12..15     wet weather flow, 1..50000 m3/h
 *   4      16..19     design temperature, 10..20 degrees Celsius
 *   5      20..23     aeration temperature, 10..20 degrees Celsius
 *   6      24..27     sludge volume index, 50..180 l/kg; 181..200 gets
 *                     17
 *   7      28..31     nitrate target, 1000..50000 mg/m3
 *   8      32..35     phosphorus target, 0..100000 mg/m3
 *   9      36..39     carbon peak factor, 100..300 hundredths
 *   10     40..43     nitrogen peak factor, 100..300 hundredths
 *   11     44..47     oxygen saturation, 6000..15000 mg/m3
 *   12     48..51     site: largest settling surface, 1..100000 m2
 *   13     52..55     site: largest settling depth, 3000..10000 mm
 *   14     56..59     process: 0 pre-anoxic, 1 simultaneous, 2 intermittent,
 *                     3 step-feed in two steps, 4 step-feed in three steps
 *   15     60..63     precipitant: 0 iron, 1 aluminium
 *   16     64..67     tank flow: 0 horizontal, 1 vertical
 *   17     68..71     sludge removal: 0 scraper, 1 suction, 2 hopper
 *   18     72..75     primary settling: 0 none, 1 short, 2 long
 *   19,20  76..83     reading of BOD, 20..2000 mg/l: kind, then value
 *   21,22  84..91     reading of COD, 20..4400 mg/l
 *   23,24  92..99     reading of solids, 0..2000 mg/l
 *   25,26  100..107   reading of nitrogen, 0..500 mg/l
 *   27,28  108..115   reading of phosphorus, 0..100 mg/l
 *   29     116..119   dose of external carbon, 0..500000 mg/m3 as COD; 0 where
 *                     nothing is dosed
 *   30     120..123   number of terms of the consent, 0..4
 *   31..54 124..219   four entries for terms, of six words each
 *   55     220..223   way of sludge and oxygen: 0 bod, 1 cod
 *                     A request to choose, for a census or to start a sweep
 *                     ends here; one for a works or for a line goes on in
 *                     words of its own (see pewgull_works), and so do one for
 *                     existing tanks (see pewgull_built), one for a price (see
 *                     pewgull_price_choose) and the state of a sweep (see
 *                     pewgull_sweep_start).
 *   56     224..227   fraction, 200..500 thousandths
 *   57     228..231   return ratio, 30..75 (vertical flow 30..100) hundredths
 *   58     232..235   thickening time, 20..25 tenths of an hour
 *                     A request to examine or to explain ends here; one that
 *                     is priced goes on (see pewgull_price_examine).
 *
 *   A term of the consent, by its six words: month and day of its first day,
 *   month and day of its last, both included; its lowest temperature, 4..20
 *   degrees Celsius; its nitrate target, 1000..50000 mg/m3. 29 February is a
 *   day. A term whose last day comes before its first runs over the new year;
 *   where they are equal it is one day. Entries past the number of terms are
 *   not looked at. A candidate is held to its rules in every term, whatever
 *   the days are.
 *
 *   Kind of a reading and its value: 0 measured, the bits of a binary32 in
 *   mg/l; 1 below a limit, the bits of the limit in mg/l, of which half
 *   counts; 2 head count, 1..2000000. The range is that of the concentration
 *   that comes out.
 *
 *   The way says what carbon sludge and carbon's oxygen come from: the BOD, or
 *   the COD by the appendix of A 131E (docs/cod-way.md). Where it is the COD,
 *   4 is never due; a dose above 10000 mg/m3 adds sludge; and in the
 *   simultaneous and the intermittent process the nitrate that the tank's own
 *   carbon removes comes from that oxygen, in every term too. The other
 *   processes remove it by the BOD in both ways.
 *
 * A sheet's listing: fifteen lines, each a label, a space, a decimal number
 * and a newline
 *
 *   fraction       denitrification fraction, thousandths
 *   return         return ratio, hundredths
 *   thickening     thickening time, tenths of an hour
 *   age            sludge age, thousandths of a day
 *   sludge         sludge production, g/d
 *   mass           sludge mass in the reactor, kg
 *   solids         solids at the reactor's outflow, g/m3
 *   reactor        reactor volume, m3
 *   surface        settling surface, m2
 *   depth          settling depth, mm
 *   settling       settling volume, m3
 *   total          reactor and settling volume, m3
 *   recirculation  recirculation ratio, thousandths
 *   oxygen         hourly oxygen uptake, g/h
 *   transfer       oxygen transfer of the aeration, g/h
 *                  (of an intermittent plant while the blowers run)
 */
#ifndef PEWGULL_H
#define PEWGULL_H

#include <stddef.h>
#include <stdint.h>

#ifdef __cplusplus
extern "C" {
#endif

/* Word 0 of a request. */
#define PEWGULL_VERSION 4

/* Lengths of a request, in bytes. */
#define PEWGULL_CHOOSE_LENGTH 224
#define PEWGULL_EXAMINE_LENGTH 236
#define PEWGULL_EXPLAIN_LENGTH 236
#define PEWGULL_TARGET_LENGTH 112
#define PEWGULL_WORKS_LENGTH 260
#define PEWGULL_LINE_LENGTH 264
#define PEWGULL_BUILT_LENGTH 252
#define PEWGULL_PRICE_CHOOSE_LENGTH 280
#define PEWGULL_PRICE_EXAMINE_LENGTH 292

/* Length of a sweep's state, in bytes. */
#define PEWGULL_STATE_LENGTH 240

/* Most candidates of an advance. */
#define PEWGULL_ADVANCE_MOST 1000

/* A page of this length takes every listing; pewgull_length_choose and its
 * like give the length of one. */
#define PEWGULL_PAGE_LENGTH 512

/* Bytes that pewgull_explain writes, and the least length of its page. */
#define PEWGULL_FIGURES_LENGTH 232

/* Bytes that pewgull_census writes, and the least length of its page. */
#define PEWGULL_CENSUS_LENGTH 256

/* Bytes that pewgull_load writes, and the least length of its page. */
#define PEWGULL_LOAD_PAGE 16

/* Bytes that pewgull_target writes, and the least length of its page. */
#define PEWGULL_TARGET_PAGE 8

/* Bytes that pewgull_works writes, and the least length of its page. */
#define PEWGULL_WORKS_PAGE 1024

/* Bytes that pewgull_built writes, and the least length of its page. */
#define PEWGULL_BUILT_PAGE 8

/* Bytes that pewgull_price_choose and pewgull_price_examine write, and the
 * least length of their page. */
#define PEWGULL_PRICE_PAGE 128

/* Numbers that the calls give. */
#define PEWGULL_SHEET 0          /* a sheet, figures, counts, a load, a target, a works, an index, a price or a sweep */
#define PEWGULL_PLANT_DATA 1     /* a plant or site figure outside its range, or a line's 0 */
#define PEWGULL_NO_NUMBER 2      /* a reading not finite, or below zero */
#define PEWGULL_READING_RANGE 3  /* a head count or a result outside its range */
#define PEWGULL_COD_RATIO 4      /* 5 COD > 11 BOD, where the way is bod */
#define PEWGULL_NO_DESIGN 5      /* no candidate of the grid is permitted */
#define PEWGULL_OFF_GRID 6       /* the candidate, or what existing tanks are run at, is not on the grid */
#define PEWGULL_NITRATE 7        /* the nitrate is not covered */
#define PEWGULL_SOLIDS 8         /* solids too low, or diluted sludge volume too large */
#define PEWGULL_SURFACE 9        /* settling surface above the site's */
#define PEWGULL_DEPTH 10         /* settling depth above the site's */
#define PEWGULL_SHORT_PAGE 11    /* page too short: nothing written */
#define PEWGULL_DAY_LOG 12       /* a day log of another count or length */
#define PEWGULL_DAY_VALUE 13     /* a value of a day not finite, below zero or too large */
#define PEWGULL_TERMS 14         /* too many terms, or a term or the date asked for not valid */
#define PEWGULL_NITRIFICATION 15 /* nitrification lost in a term */
#define PEWGULL_TERM_NITRATE 16  /* the nitrate is not covered in a term */
#define PEWGULL_BULKING 17       /* bulking sludge: a sludge volume index of 181..200 l/kg */
#define PEWGULL_LINES 18         /* number of lines or shares wrong, or no such line */
#define PEWGULL_ADVANCE 19       /* an advance by too many candidates, or from a state that is not valid */
#define PEWGULL_SPAN 20          /* a span of sludge volume indices that is empty or not within 50..180 */
#define PEWGULL_BUILT_SIZE 21    /* a built size of 0 */
#define PEWGULL_TARIFF 22        /* the tariff or its surcharge is not valid */
#define PEWGULL_UNFINISHED 100   /* no refusal: the sweep has candidates left */
#define PEWGULL_BAD_LENGTH 101   /* request or state of another length: nothing written */
#define PEWGULL_BAD_VERSION 102  /* request or state of another version, which is tested first: nothing written */
#define PEWGULL_BAD_KIND 103     /* an unknown kind in a request or state: nothing written */

/*
 * Examines the candidate of a request of PEWGULL_EXAMINE_LENGTH bytes.
 * Gives 0 and writes the sheet's listing. Gives the first that is due of 1,
 * 17, 2 to 4, 14, 6, 7, 15, 16 and 8 to 10, in this order, and writes
 * "refused ", the number and a newline. Gives 11 or 101 to 103, writes nothing on the page
 * and stores 0 in *written. The listing has no terminating zero byte: its
 * length is *written.
 */
uint32_t pewgull_examine(const uint8_t *request, size_t request_length,
                         uint8_t *page, size_t page_length,
                         uint64_t *written);

/*
 * Chooses for a request of PEWGULL_CHOOSE_LENGTH bytes the permitted
 * candidate of least total volume; of several, the one of least fraction,
 * then return ratio, then thickening time. Gives 0 and writes the sheet's
 * listing, or gives 1, 17, 2 to 4, 14 or 5 and writes the refusal; the rest as above.
 */
uint32_t pewgull_choose(const uint8_t *request, size_t request_length,
                        uint8_t *page, size_t page_length,
                        uint64_t *written);

/*
 * Gives the figures that the candidate of a request of
 * PEWGULL_EXPLAIN_LENGTH bytes is judged by, whatever refusals 7 to 10, 15
 * and 16 say of it. Gives 0 and writes PEWGULL_FIGURES_LENGTH bytes, 29
 * 64-bit unsigned numbers, little-endian:
 *
 *   bytes    what                                   held to
 *   0..7     nitrate to be removed, mg/m3
 *   8..15    nitrate removed by the tank's BOD, or
 *            by its COD (see below), mg/m3
 *   16..23   nitrate removed by the dose, mg/m3
 *   24..31   nitrate the tank can remove, the sum   at least the first (7)
 *            of the two before it, mg/m3
 *   32..39   solids, g/m3                           at least 1,000 (8)
 *   40..47   diluted sludge volume, l/m3            at most 600 (8)
 *   48..55   settling surface, m2                   at most the site's (9)
 *   56..63   settling depth, mm                     at most the site's (10)
 *   64..71   the verdict: 0 where all of these and the terms' are kept, else
 *            the number of the first of 7, 15, 16 and 8 to 10 that is broken
 *
 * Then five numbers for each of the four entries for terms, from byte 72, 112,
 * 152 and 192 on; zeros past the number of terms. Of the first term:
 *
 *   bytes    what                                   held to
 *   72..79   aerobic share: the part of the sludge  at most 1,000 in every
 *            age that nitrification takes in the    term (15)
 *            term, thousandths
 *   80..87   fraction in the term, thousandths: the
 *            smaller of the candidate's and 1,000
 *            less the share; under 200 the tank's
 *            BOD or COD removes nothing
 *   88..95   nitrate to be removed there, mg/m3
 *   96..103  nitrate removed there by the tank's
 *            BOD or COD, mg/m3
 *   104..111 nitrate the tank can remove there,     at least the third
 *            with what the dose removes, mg/m3      (16)
 *
 * Where the way is cod and the process simultaneous or intermittent, the
 * nitrate of bytes 8..15 and 96..103 is reckoned from the COD; everywhere else
 * from the BOD.
 *
 * Gives 1, 17, 2 to 4, 14 or 6 and writes 232 bytes of zeros. Gives 11 for a page of
 * fewer than 232 bytes, or 101 to 103, and writes nothing.
 */
uint32_t pewgull_explain(const uint8_t *request, size_t request_length,
                         uint8_t *page, size_t page_length,
                         uint64_t *written);

/*
 * Counts the candidates of the grid by their answers, for a request of
 * PEWGULL_CHOOSE_LENGTH bytes. Gives 0 and writes PEWGULL_CENSUS_LENGTH
 * bytes, 32 64-bit unsigned numbers, little-endian. The eight bytes from
 * 8 k on count the candidates that pewgull_examine answers with k:
 *
 *   bytes    candidates
 *   0..7     permitted (0)
 *   56..63   refused for nitrate (7)
 *   64..71   refused for solids (8)
 *   72..79   refused for surface (9)
 *   80..87   refused for depth (10)
 *   120..127 refused for nitrification (15)
 *   128..135 refused for term nitrate (16)
 *
 * The other counts are 0 today. Each candidate is counted once, at the first
 * rule that it breaks: the counts add up to the grid's size, 83,076 in
 * horizontal and 128,226 in vertical flow. For such a request pewgull_choose
 * gives 5 exactly where the first count is 0.
 *
 * Gives 1, 17, 2 to 4 or 14 and writes 256 bytes of zeros. Gives 11 for a page of
 * fewer than 256 bytes, or 101 to 103, and writes nothing.
 */
uint32_t pewgull_census(const uint8_t *request, size_t request_length,
                        uint8_t *page, size_t page_length,
                        uint64_t *written);

/*
 * Finds in a day log the highest load over 14 consecutive days. The log is
 * 32-bit words, little-endian, no padding, for n days of 14..3660:
 *
 *   bytes             what
 *   0..3              n, the count of days
 *   4..4n+3           flow of each day, the bits of a binary32 in m3/d
 *   4n+4..8n+3        BOD of each day, the bits of a binary32 in mg/l
 *
 * Each value is turned into thousandths as a measured reading is; a flow may
 * then be at most 200000 m3/d, a BOD at most 2000 mg/l. The load of a day is
 * their product, in millionths of g/d. Gives 0 and writes PEWGULL_LOAD_PAGE
 * bytes, two 64-bit unsigned numbers, little-endian:
 *
 *   bytes    what
 *   0..7     sum: the largest sum of 14 consecutive daily loads
 *   8..15    day: the first day, counted from 1, on which such days start
 *
 * Gives 12 where n is outside its range or the log is not of 4 + 8 n bytes,
 * or else 13 where a value is not finite, below zero or too large, and writes
 * 16 bytes of zeros. Gives 11 for a page of fewer than 16 bytes, whatever the
 * log, and writes nothing; never 101 to 103.
 *
 * For word 1 of a request take the mean of the 14 daily loads: the sum divided
 * by 14 and by 1,000,000,000, rounded up to a whole kg/d.
 */
uint32_t pewgull_load(const uint8_t *log, size_t log_length,
                      uint8_t *page, size_t page_length,
                      uint64_t *written);

/*
 * Finds the lowest nitrate target that is in force on a date, for a request of
 * PEWGULL_TARGET_LENGTH bytes of its own:
 *
 *   word   bytes      what
 *   0      0..3       version: 4
 *   1      4..7       number of terms, 0..4
 *   2..25  8..103     four entries for terms, of six words each, as above
 *   26     104..107   month of the date asked for
 *   27     108..111   day of the date asked for
 *
 * Gives 0 and writes PEWGULL_TARGET_PAGE bytes, a 64-bit unsigned number,
 * little-endian: the lowest target of the terms that run on that date, mg/m3,
 * or 0 where none runs. Gives 14 where there are more than four terms, or
 * where a term or the date is not valid, and writes 8 bytes of zeros. Gives 11
 * for a page of fewer than 8 bytes, 101 or 102, and writes nothing.
 */
uint32_t pewgull_target(const uint8_t *request, size_t request_length,
                        uint8_t *page, size_t page_length,
                        uint64_t *written);

/*
 * Chooses for each line of a works that is built in several lines side by
 * side, and adds up. The request has PEWGULL_WORKS_LENGTH bytes:
 *
 *   word   bytes      what
 *   0..55  0..223     the data of the whole works, as for a choice
 *   56     224..227   number of lines, 2..8
 *   57..64 228..259   eight entries for the lines' shares, thousandths of the
 *                     whole, each at least 1, which add up to 1000; entries
 *                     past the number of lines are not looked at
 *
 * A line is a plant of its own. Its daily flow, wet weather flow and site
 * surface are its part of the whole works': up to each line the shares are
 * added up, down(whole * shares / 1000) is taken of the sum, and the line's
 * part is that less the one before it, so that the parts add up to the whole.
 * All else is the whole works', the load and the concentrations too: head
 * counts are turned into concentrations on the whole flow.
 *
 * Gives 0 and writes PEWGULL_WORKS_PAGE bytes, 128 64-bit unsigned numbers,
 * little-endian. The first eight are the sums over the lines, of what the
 * listing calls so:
 *
 *   bytes    sum
 *   0..7     sludge, g/d
 *   8..15    mass, kg
 *   16..23   surface, m2
 *   24..31   reactor, m3
 *   32..39   settling, m3
 *   40..47   total, m3
 *   48..55   oxygen, g/h
 *   56..63   transfer, g/h
 *
 * Then the sheet of each of eight lines, from byte 64, 184, 304, 424, 544,
 * 664, 784 and 904 on: its fifteen figures in the order of the listing, the
 * fraction first; zeros past the number of lines.
 *
 * Gives 18 where the number of lines or a share is wrong, before any of the
 * data are looked at; else 1, 17, 2 to 4 or 14 where the data of the whole
 * works get it; else the number of the first line that is refused, 1 where its
 * daily flow, wet weather flow or surface comes out 0, 5 where it has no
 * design. Then it writes 1024 bytes of zeros. Gives 11 for a page of fewer
 * than 1024 bytes, or 101 to 103, and writes nothing.
 */
uint32_t pewgull_works(const uint8_t *request, size_t request_length,
                       uint8_t *page, size_t page_length,
                       uint64_t *written);

/*
 * Chooses for one line of a works, whatever the other lines get: it tells why
 * a works is refused. The request has PEWGULL_LINE_LENGTH bytes:
 *
 *   word   bytes      what
 *   0..64  0..259     the works, as above
 *   65     260..263   number of the line, counted from 1
 *
 * Gives 0 and writes the listing of the line's sheet, or gives 18, also for a
 * line 0 or past the number of lines, 1, 17, 2 to 4, 14 or 5 and writes the
 * refusal; the rest as for a choice.
 */
uint32_t pewgull_line(const uint8_t *request, size_t request_length,
                      uint8_t *page, size_t page_length,
                      uint64_t *written);

/*
 * Asks whether the tanks of an existing works hold every sludge volume index
 * of a span: an owner who fears bulking learns which index is too much. The
 * request has PEWGULL_BUILT_LENGTH bytes:
 *
 *   word   bytes      what
 *   0..55  0..223     the data, as for a choice; their sludge volume index is
 *                     checked and not used further
 *   56     224..227   reactor volume as built, m3, at least 1
 *   57     228..231   settling surface as built, m2, at least 1
 *   58     232..235   settling depth as built, mm, at least 1
 *   59     236..239   fraction, 200..500 thousandths
 *   60     240..243   thickening time, 20..25 tenths of an hour
 *   61     244..247   least sludge volume index of the span, 50..180 l/kg
 *   62     248..251   largest one, 50..180 l/kg, at least the least
 *
 * An index is held where, for these data with that index, pewgull_examine
 * gives a sheet for some return ratio of the grid whose reactor, surface and
 * depth are at most those as built. Every return ratio is tried. Else the index
 * is lost. Gives 0 and writes PEWGULL_BUILT_PAGE bytes, a 64-bit unsigned
 * number, little-endian: 0 where every index of the span is held, else the
 * smallest of the span that is lost.
 *
 * Each index stands for itself, and may have a return ratio of its own. Where
 * one is lost, all smaller ones of the span are held; of the larger ones
 * nothing is said, and some may be held. To learn of them ask again, with a
 * span that starts after it (examples/built.c). The limits of the site, words
 * 12 and 13, are held to as ever: an existing works has its own surface and
 * depth there, or larger ones.
 *
 * Gives 20 where the span is empty or not within 50..180, before anything else
 * is looked at; else 21 where a built size is 0; else 1, 17, 2 to 4 or 14 where
 * the data get it; else 6 where the fraction or the thickening time is not on
 * the grid. Then it writes 8 bytes of zeros. Gives 11 for a page of fewer than
 * 8 bytes, or 101 to 103, and writes nothing.
 */
uint32_t pewgull_built(const uint8_t *request, size_t request_length,
                       uint8_t *page, size_t page_length,
                       uint64_t *written);

/*
 * Chooses as pewgull_choose does, and prices the concrete of what is chosen.
 * The choice goes by volume, whatever the tariff: the cheapest design is not
 * looked for. The request has PEWGULL_PRICE_CHOOSE_LENGTH bytes:
 *
 *   word   bytes      what
 *   0..55  0..223     the data, as for a choice
 *   56     224..227   number of bands of the tariff, 1..6
 *   57..62 228..251   six entries for the upper limits of bands, m3, rising
 *                     from at least 1; the last band has none
 *   63..68 252..275   six entries for the prices of bands, 0..1000000 cents
 *                     per m3
 *   69     276..279   surcharge, 0..500 thousandths of the sum
 *
 * Entries past the number of bands are not looked at, nor is the last band's
 * limit. Each limit is above the one before it. A cubic metre has the price of
 * the first band that reaches it; reactor and settling tank are counted by
 * themselves, each from its cubic metre 1 on. The surcharge is taken on the sum
 * of both, and rounded up to a cent that one time.
 *
 * Gives 0 and writes PEWGULL_PRICE_PAGE bytes, sixteen 64-bit unsigned numbers,
 * little-endian: the fifteen figures of the sheet in the order of the listing,
 * the fraction first, and the price with its surcharge, cents, in bytes
 * 120..127.
 *
 * Gives 1, 17, 2 to 4, 14 or 5 where pewgull_choose does, else 22 where the
 * tariff or the surcharge is not valid, and writes 128 bytes of zeros. Gives 11
 * for a page of fewer than 128 bytes, or 101 to 103, and writes nothing.
 */
uint32_t pewgull_price_choose(const uint8_t *request, size_t request_length,
                              uint8_t *page, size_t page_length,
                              uint64_t *written);

/*
 * Examines as pewgull_examine does, and prices the concrete of the candidate.
 * The request has PEWGULL_PRICE_EXAMINE_LENGTH bytes:
 *
 *   word   bytes      what
 *   0..58  0..235     the data and the candidate, as for an examination
 *   59     236..239   number of bands of the tariff, 1..6
 *   60..65 240..263   six entries for the upper limits of bands, as above
 *   66..71 264..287   six entries for the prices of bands, as above
 *   72     288..291   surcharge, 0..500 thousandths of the sum
 *
 * Gives 0 and writes the sheet and the price as above. Gives the refusal that
 * pewgull_examine gives, else 22, and writes 128 bytes of zeros; the rest as
 * above.
 */
uint32_t pewgull_price_examine(const uint8_t *request, size_t request_length,
                               uint8_t *page, size_t page_length,
                               uint64_t *written);

/*
 * Gives how many bytes the listing takes that pewgull_examine writes for the
 * same request, without writing it, so that a printer can reserve paper or a
 * caller lend a page that just fits. Gives the number that pewgull_examine
 * gives, a refusal's too, which has a listing of its own, and stores the length
 * in *length, at most 432. On a page of that length or a longer one
 * pewgull_examine gives this number and stores this length in *written; on a
 * page of fewer bytes it gives 11. Gives 101 to 103 and stores 0.
 */
uint32_t pewgull_length_examine(const uint8_t *request, size_t request_length,
                                uint64_t *length);

/*
 * The same for pewgull_choose, and so for the listing that a finished sweep
 * over the same data writes.
 */
uint32_t pewgull_length_choose(const uint8_t *request, size_t request_length,
                               uint64_t *length);

/*
 * The same for pewgull_line.
 */
uint32_t pewgull_length_line(const uint8_t *request, size_t request_length,
                             uint64_t *length);

/*
 * Starts a sweep for a request of PEWGULL_CHOOSE_LENGTH bytes: a choice that
 * goes on by some candidates at a time, and can be put down in between. Gives
 * 0 and writes PEWGULL_STATE_LENGTH bytes, the state of the sweep, 32-bit
 * unsigned numbers, little-endian:
 *
 *   word   bytes      what
 *   0..55  0..223     the request, byte for byte
 *   56     224..227   number of candidates asked for so far, at most the
 *                     grid's: 83,076 in horizontal flow, 128,226 in vertical
 *   57     228..231   fraction, of the best permitted candidate among them
 *   58     232..235   return ratio, of the same
 *   59     236..239   thickening time, of the same; 0, 0, 0: none yet
 *
 * At the start words 56 to 59 are 0. The best is the one that pewgull_choose
 * would give of these candidates: by total volume, then fraction, then return
 * ratio, then thickening time. A host that shows progress reads word 56 and
 * words 57 to 59.
 *
 * These bytes are all that a sweep is. They can be copied, stored and sent,
 * and are the same on every machine; a sweep goes on from any copy, in another
 * program or after a restart. Any bytes are answered: what is no valid state
 * gets 19 or 101 to 103. Nothing tells whether a valid one was reached from a
 * start; an advance goes by what it holds.
 *
 * Gives 1, 17, 2 to 4 or 14 where the data get it: there is no sweep then.
 * Gives 11 for a state of fewer than 240 bytes, or 101 to 103. With all of
 * these nothing is written and *written is 0.
 */
uint32_t pewgull_sweep_start(const uint8_t *request, size_t request_length,
                             uint8_t *state, size_t state_length,
                             uint64_t *written);

/*
 * Goes on with a sweep by a number of candidates, 0 to PEWGULL_ADVANCE_MOST;
 * the state, of PEWGULL_STATE_LENGTH bytes, is changed in place. Candidates
 * come by rising fraction, then return ratio, then thickening time, which
 * changes at each step.
 *
 * Gives 100 while fewer candidates than the grid's have been asked for, those
 * of this advance counted: word 56 is then their number and words 57 to 59 are
 * the best of them; nothing is written on the page and *written is 0. From the
 * grid's number on, at which word 56 stays, gives 0 and writes the listing of
 * the best's sheet, or gives 5 and writes the refusal where there is none: for
 * a sweep from a start this is what pewgull_choose gives. Asked for more
 * candidates it answers the same again.
 *
 * Gives 19 and writes the refusal where more than 1000 candidates are asked
 * for; or where the state's data are not accepted, its word 56 is above the
 * grid's number, or its words 57 to 59 are neither 0, 0, 0 nor a permitted
 * candidate. Gives 11 where the page is too short for the listing, or 101 to
 * 103, and writes nothing. With all of these the state stays as it was.
 */
uint32_t pewgull_sweep_advance(uint8_t *state, size_t state_length,
                               uint32_t candidates,
                               uint8_t *page, size_t page_length,
                               uint64_t *written);

/*
 * Examines a candidate of the plant of a sweep: gives and writes what
 * pewgull_examine does for the data of the state, of PEWGULL_STATE_LENGTH
 * bytes, and these three numbers, whatever words 56 to 59 are. The state is
 * only read: the sweep stays where it is.
 */
uint32_t pewgull_sweep_examine(const uint8_t *state, size_t state_length,
                               uint32_t fraction, uint32_t return_ratio,
                               uint32_t thickening,
                               uint8_t *page, size_t page_length,
                               uint64_t *written);

#ifdef __cplusplus
}
#endif

#endif
