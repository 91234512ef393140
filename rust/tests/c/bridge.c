/*
 * Makes the calls that standard input asks for and writes to standard output what each gave.
 *
 * A request is the letter of a call and its arguments in the header's order, without the last three pointers: a number
 * as four bytes, a slice as its length and its elements. A slice that the call writes into comes as it was before. The
 * reply is number, flow, tick and count, then the slices written into, as they are afterwards. All in the machine's
 * order of bytes.
 *
 * `declared.h` is made from `baarqidho.h` by the test: READ_DECLARED and the thirteen others are the calls with the
 * header's own parameter names for arguments. A name that stands in another's place there is a wrong argument here.
 */
#include <stdio.h>
#include <stdlib.h>

#include "baarqidho.h"
#include "declared.h"

/* The slices of the request at hand. */
static void *taken[5];
static size_t takes;

static void take(void *place, size_t size)
{
    if (fread(place, 1, size, stdin) != size)
        exit(2);
}

static uint32_t take_number(void)
{
    uint32_t number;

    take(&number, sizeof number);
    return number;
}

static void *take_slice(size_t *len, size_t size)
{
    void *slice;

    *len = take_number();
    slice = malloc(*len * size + 1);
    if (slice == NULL)
        exit(3);
    take(slice, *len * size);
    taken[takes++] = slice;
    return slice;
}

static void give(const void *place, size_t size)
{
    if (fwrite(place, 1, size, stdout) != size)
        exit(4);
}

/* Declares a slice and its length under the header's names, and takes it from the request. */
#define TAKE(type, name) \
    size_t name##_len;   \
    type *name = (type *)take_slice(&name##_len, sizeof(type))

/* Declares where flow, tick and count go, and makes the call. */
#define ANSWER(call)                                                      \
    uint32_t parts[4] = {0, 99, 99, 99};                                  \
    uint32_t *flow = &parts[1], *tick = &parts[2], *count = &parts[3];    \
    parts[0] = call;                                                      \
    give(parts, sizeof parts)

#define GIVE(name) give(name, name##_len * sizeof *name)

static void answer_read(void)
{
    TAKE(uint8_t, packed);
    TAKE(uint32_t, words);
    ANSWER(READ_DECLARED);
    GIVE(words);
}

static void answer_write(void)
{
    uint32_t plan_count = take_number();
    TAKE(uint32_t, words);
    TAKE(uint8_t, packed);
    ANSWER(WRITE_DECLARED);
    GIVE(packed);
}

static void answer_check(void)
{
    uint32_t plan_count = take_number();
    TAKE(uint32_t, words);
    TAKE(uint32_t, clocks);
    ANSWER(CHECK_DECLARED);
    GIVE(clocks);
}

/* Declares and takes what both runs have in common. */
#define TAKE_RUN                         \
    uint32_t plan_count = take_number(); \
    TAKE(uint32_t, words);               \
    TAKE(uint32_t, log);                 \
    uint32_t ticks = take_number();      \
    TAKE(uint8_t, marks);                \
    TAKE(uint32_t, values)

static void answer_run(void)
{
    TAKE_RUN;
    ANSWER(RUN_DECLARED);
    GIVE(marks);
    GIVE(values);
}

static void answer_long_run(void)
{
    TAKE_RUN;
    TAKE(uint32_t, tallies);
    ANSWER(LONG_RUN_DECLARED);
    GIVE(marks);
    GIVE(values);
    GIVE(tallies);
}

static void answer_listing(void)
{
    TAKE(uint8_t, packed);
    TAKE(uint8_t, text);
    ANSWER(LISTING_DECLARED);
    GIVE(text);
}

static void answer_load_page(void)
{
    uint32_t plan_count = take_number();
    TAKE(uint32_t, words);
    TAKE(uint16_t, times);
    TAKE(uint8_t, page);
    ANSWER(LOAD_PAGE_DECLARED);
    GIVE(page);
}

static void answer_least_part(void)
{
    uint32_t plan_count = take_number();
    TAKE(uint32_t, words);
    TAKE(uint32_t, part);
    ANSWER(LEAST_PART_DECLARED);
    GIVE(part);
}

static void answer_least_flows(void)
{
    uint32_t plan_count = take_number();
    TAKE(uint32_t, words);
    TAKE(uint32_t, flows);
    ANSWER(LEAST_FLOWS_DECLARED);
    GIVE(flows);
}

static void answer_fill_rates(void)
{
    uint32_t plan_count = take_number();
    TAKE(uint32_t, words);
    TAKE(uint32_t, filled);
    ANSWER(FILL_RATES_DECLARED);
    GIVE(filled);
}

/* Declares and takes what the calls of the archive have in common. */
#define TAKE_TICKS                       \
    uint32_t plan_count = take_number(); \
    TAKE(uint32_t, words);               \
    uint32_t ticks = take_number()

static void answer_stored_words(void)
{
    TAKE_TICKS;
    ANSWER(STORED_WORDS_DECLARED);
}

static void answer_store(void)
{
    TAKE_TICKS;
    TAKE(uint8_t, marks);
    TAKE(uint32_t, values);
    TAKE(uint32_t, stored);
    ANSWER(STORE_DECLARED);
    GIVE(stored);
}

static void answer_restore(void)
{
    TAKE_TICKS;
    TAKE(uint32_t, stored);
    TAKE(uint8_t, marks);
    TAKE(uint32_t, values);
    ANSWER(RESTORE_DECLARED);
    GIVE(marks);
    GIVE(values);
}

static void answer_felt_inputs(void)
{
    uint32_t plan_count = take_number();
    TAKE(uint32_t, words);
    TAKE(uint64_t, sets);
    ANSWER(FELT_INPUTS_DECLARED);
    GIVE(sets);
}

int main(void)
{
    int letter;

    while ((letter = getchar()) != EOF) {
        switch (letter) {
        case 'r': answer_read(); break;
        case 'w': answer_write(); break;
        case 'c': answer_check(); break;
        case 'x': answer_run(); break;
        case 'X': answer_long_run(); break;
        case 'l': answer_listing(); break;
        case 'p': answer_load_page(); break;
        case 'm': answer_least_part(); break;
        case 'n': answer_least_flows(); break;
        case 'f': answer_fill_rates(); break;
        case 'k': answer_stored_words(); break;
        case 's': answer_store(); break;
        case 'S': answer_restore(); break;
        case 'i': answer_felt_inputs(); break;
        default: return 1;
        }
        fflush(stdout);
        while (takes > 0)
            free(taken[--takes]);
    }
    return 0;
}
