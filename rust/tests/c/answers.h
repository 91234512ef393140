/*
 * The calls of the header, with buffers that are filled before each of them, and what a call answered, wrote, and had
 * to leave as it was.
 */
#ifndef ANSWERS_H
#define ANSWERS_H

#include <stdio.h>
#include <string.h>

#include "baarqidho.h"

#define LENGTH(array) (sizeof(array) / sizeof((array)[0]))
#define FILLING 0xA5

/* Room for all ticks of four flows. */
#define ROOM (4 * (BAARQIDHO_MAX_TICKS + 1))

/* What the calls write into; each uses one of the first two, or both, the long run all three, and felt inputs the
   last. */
static uint8_t bytes[ROOM];
static uint32_t words[ROOM];
static uint32_t tallies[BAARQIDHO_MAX_FLOWS];
static uint64_t sets[BAARQIDHO_MAX_FLOWS + 1];

/* The answer of the last call, and what it was. */
static uint32_t number, flow, tick, count;
static const char *call;
static int is_wrong;

static inline void begin(const char *name)
{
    call = name;
    number = flow = tick = count = 99;
    memset(bytes, FILLING, sizeof bytes);
    memset(words, FILLING, sizeof words);
    memset(tallies, FILLING, sizeof tallies);
    memset(sets, FILLING, sizeof sets);
}

static inline void same(const char *part, uint32_t found, uint32_t expected)
{
    if (found != expected) {
        fprintf(stderr, "%s: %s is %lu, expected %lu\n", call, part, (unsigned long)found, (unsigned long)expected);
        is_wrong = 1;
    }
}

static inline void answers(uint32_t of_number, uint32_t of_flow, uint32_t of_tick, uint32_t of_count)
{
    same("number", number, of_number);
    same("flow", flow, of_flow);
    same("tick", tick, of_tick);
    same("count", count, of_count);
}

/* A buffer has exactly these words, and is as it was behind them. */
static inline void has(const char *part, const uint32_t *buffer, size_t len, const uint32_t *of_words,
                       size_t words_len)
{
    uint32_t filling;
    size_t place;

    memset(&filling, FILLING, sizeof filling);
    for (place = 0; place < len; place++)
        same(part, buffer[place], place < words_len ? of_words[place] : filling);
}

/* The buffers have exactly these bytes and words, and are as they were behind them. */
static inline void wrote(const uint8_t *of_bytes, size_t bytes_len, const uint32_t *of_words, size_t words_len)
{
    size_t place;

    for (place = 0; place < LENGTH(bytes); place++)
        same("a byte", bytes[place], place < bytes_len ? of_bytes[place] : FILLING);
    has("a word", words, LENGTH(words), of_words, words_len);
}

/* The sets are exactly these, and as they were behind them. */
static inline void felt(const uint64_t *of_sets, size_t sets_len)
{
    uint64_t expected;
    size_t place;

    for (place = 0; place < LENGTH(sets); place++) {
        memset(&expected, FILLING, sizeof expected);
        if (place < sets_len)
            expected = of_sets[place];
        same("the lower half of a set", (uint32_t)sets[place], (uint32_t)expected);
        same("the upper half of a set", (uint32_t)(sets[place] >> 32), (uint32_t)(expected >> 32));
    }
}

static inline void refuses(uint32_t of_number, uint32_t of_flow)
{
    answers(of_number, of_flow, 0, 0);
    wrote(NULL, 0, NULL, 0);
    has("a tally", tallies, LENGTH(tallies), NULL, 0);
    felt(NULL, 0);
}

static inline void reads(const char *name, const uint8_t *packed, size_t packed_len, size_t words_len)
{
    begin(name);
    number = baarqidho_read(packed, packed_len, words, words_len, &flow, &tick, &count);
}

static inline void writes(const char *name, uint32_t plan_count, const uint32_t *of, size_t words_len,
                          size_t packed_len)
{
    begin(name);
    number = baarqidho_write(plan_count, of, words_len, bytes, packed_len, &flow, &tick, &count);
}

static inline void checks(const char *name, const uint32_t *of, size_t words_len, size_t clocks_len)
{
    begin(name);
    number = baarqidho_check((uint32_t)(words_len / BAARQIDHO_ROW_WORDS), of, words_len, words, clocks_len,
                             &flow, &tick, &count);
}

static inline void runs(const char *name, const uint32_t *of, size_t words_len, const uint32_t *log, size_t log_len,
                        uint32_t ticks, size_t marks_len, size_t values_len)
{
    begin(name);
    number = baarqidho_run((uint32_t)(words_len / BAARQIDHO_ROW_WORDS), of, words_len, log, log_len, ticks,
                           bytes, marks_len, words, values_len, &flow, &tick, &count);
}

static inline void runs_long(const char *name, const uint32_t *of, size_t words_len, size_t log_len, uint32_t ticks,
                             size_t marks_len, size_t values_len, size_t tallies_len)
{
    static const uint32_t log[] = {71, 72};

    begin(name);
    number = baarqidho_long_run((uint32_t)(words_len / BAARQIDHO_ROW_WORDS), of, words_len, log, log_len, ticks,
                                bytes, marks_len, words, values_len, tallies, tallies_len, &flow, &tick, &count);
}

static inline void lists(const char *name, const uint8_t *packed, size_t packed_len, size_t text_len)
{
    begin(name);
    number = baarqidho_listing(packed, packed_len, bytes, text_len, &flow, &tick, &count);
}

static inline void pages(const char *name, const uint32_t *of, size_t words_len, const uint16_t *times,
                         size_t times_len, size_t page_len)
{
    begin(name);
    number = baarqidho_load_page((uint32_t)(words_len / BAARQIDHO_ROW_WORDS), of, words_len, times, times_len,
                                 bytes, page_len, &flow, &tick, &count);
}

static inline void takes_least(const char *name, int of_flows, uint32_t plan_count, const uint32_t *of,
                               size_t words_len, size_t len)
{
    begin(name);
    if (of_flows)
        number = baarqidho_least_flows(plan_count, of, words_len, words, len, &flow, &tick, &count);
    else
        number = baarqidho_least_part(plan_count, of, words_len, words, len, &flow, &tick, &count);
}

/* The least part, and then its flows, are refused alike. */
static inline void refuses_least(const char *name, const uint32_t *of, size_t words_len, size_t len,
                                 uint32_t of_number, uint32_t of_flow)
{
    int of_flows;

    for (of_flows = 0; of_flows < 2; of_flows++) {
        takes_least(name, of_flows, (uint32_t)(words_len / BAARQIDHO_ROW_WORDS), of, words_len, len);
        refuses(of_number, of_flow);
    }
}

static inline void fills(const char *name, uint32_t plan_count, const uint32_t *of, size_t words_len, size_t filled_len)
{
    begin(name);
    number = baarqidho_fill_rates(plan_count, of, words_len, words, filled_len, &flow, &tick, &count);
}

static inline void counts_stored(const char *name, const uint32_t *of, size_t words_len, uint32_t ticks)
{
    begin(name);
    number = baarqidho_stored_words((uint32_t)(words_len / BAARQIDHO_ROW_WORDS), of, words_len, ticks,
                                    &flow, &tick, &count);
}

static inline void stores(const char *name, const uint32_t *of, size_t words_len, uint32_t ticks,
                          const uint8_t *marks, size_t marks_len, const uint32_t *values, size_t values_len,
                          size_t stored_len)
{
    begin(name);
    number = baarqidho_store((uint32_t)(words_len / BAARQIDHO_ROW_WORDS), of, words_len, ticks, marks, marks_len,
                             values, values_len, words, stored_len, &flow, &tick, &count);
}

static inline void restores(const char *name, const uint32_t *of, size_t words_len, uint32_t ticks,
                            const uint32_t *stored, size_t stored_len, size_t marks_len, size_t values_len)
{
    begin(name);
    number = baarqidho_restore((uint32_t)(words_len / BAARQIDHO_ROW_WORDS), of, words_len, ticks, stored, stored_len,
                               bytes, marks_len, words, values_len, &flow, &tick, &count);
}

static inline void feels(const char *name, uint32_t plan_count, const uint32_t *of, size_t words_len, size_t sets_len)
{
    begin(name);
    number = baarqidho_felt_inputs(plan_count, of, words_len, sets, sets_len, &flow, &tick, &count);
}

#endif /* ANSWERS_H */
