/*
 * Reaches every number of the header by its name through a real call, and every limit. Parts of answers, lengths and
 * contents are chosen to differ from each other, so that none can stand for another. `views.c` has number 40,
 * `archive.c` 41 to 43.
 */
#include "answers.h"

/* Input (10, 0), and slower 2 of it. */
static const uint8_t packed_plan[] = {0x02, 0x00, 0x05, 0x00, 0x02, 0x40, 0x08};
static const uint32_t plan[] = {0, 10, 0, 0, 9, 0, 2, 0};

/* Two inputs without a rate. */
static const uint8_t packed_open[] = {0x02, 0x84, 0x00};
static const uint32_t open_plan[] = {16, 0, 0, 0, 16, 0, 0, 0};

/* A read of the plan's bytes with another one at a place. */
static void reads_with(const char *name, size_t place, uint8_t byte)
{
    uint8_t packed[sizeof packed_plan];

    memcpy(packed, packed_plan, sizeof packed);
    packed[place] = byte;
    reads(name, packed, sizeof packed, LENGTH(words));
}

static void all_of_read(void)
{
    reads("read", packed_plan, sizeof packed_plan, LENGTH(plan));
    answers(BAARQIDHO_OK, 0, 0, 2);
    wrote(NULL, 0, plan, LENGTH(plan));
    reads("read into too little", packed_plan, sizeof packed_plan, 2 * BAARQIDHO_ROW_WORDS - 1);
    refuses(BAARQIDHO_OUTPUT_TOO_SHORT, 0);
    reads_with("read, count 65", 0, BAARQIDHO_MAX_FLOWS + 1);
    refuses(BAARQIDHO_BAD_COUNT, 0);
    reads("read, bits end", packed_plan, sizeof packed_plan - 1, LENGTH(words));
    refuses(BAARQIDHO_ENDS_TOO_EARLY, 1);
    reads("read, kind 16", packed_open, sizeof packed_open, LENGTH(words));
    answers(BAARQIDHO_OK, 0, 0, 2);
    wrote(NULL, 0, open_plan, LENGTH(open_plan));
    reads_with("read, kind 21", 4, 0x05);
    refuses(BAARQIDHO_UNKNOWN_KIND, 1);
    reads_with("read, k 0", 6, 0x00);
    refuses(BAARQIDHO_FIELD_OUT_OF_RANGE, 1);
    reads_with("read, operand itself", 5, 0x41);
    refuses(BAARQIDHO_BAD_OPERAND, 1);
    reads_with("read, filling 1", 6, 0x09);
    refuses(BAARQIDHO_NOT_THE_END, 0);
}

static void all_of_write(void)
{
    uint32_t longest[BAARQIDHO_MAX_FLOWS * BAARQIDHO_ROW_WORDS];
    size_t row;

    writes("write", 2, plan, LENGTH(plan), sizeof packed_plan);
    answers(BAARQIDHO_OK, 0, 0, sizeof packed_plan);
    wrote(packed_plan, sizeof packed_plan, NULL, 0);
    writes("write into too little", 2, plan, LENGTH(plan), sizeof packed_plan - 1);
    refuses(BAARQIDHO_OUTPUT_TOO_SHORT, 0);
    writes("write, kind 16", 2, open_plan, LENGTH(open_plan), LENGTH(bytes));
    answers(BAARQIDHO_OK, 0, 0, sizeof packed_open);
    wrote(packed_open, sizeof packed_open, NULL, 0);
    writes("write, count 3", 3, plan, LENGTH(plan), sizeof bytes);
    refuses(BAARQIDHO_BAD_COUNT, 0);

    for (row = 0; row < LENGTH(longest); row += BAARQIDHO_ROW_WORDS) {
        longest[row] = 1;
        longest[row + 1] = 7;
        longest[row + 2] = longest[row + 3] = 4095;
    }
    writes("write, the longest", BAARQIDHO_MAX_FLOWS, longest, LENGTH(longest), BAARQIDHO_PACKED_MAX);
    answers(BAARQIDHO_OK, 0, 0, BAARQIDHO_PACKED_MAX);
}

/* Inputs (10, 0) and (20, 0), and their sum. */
static const uint32_t differing[] = {0, 10, 0, 0, 0, 20, 0, 0, 2, 0, 1, 0};

/* Inputs (4, 1), (4, 1), when, when-not, and the tail of a sampled flow. */
static const uint32_t sampled[] = {0, 4, 1, 0, 0, 4, 1, 0, 13, 0, 1, 0, 14, 2, 2, 0, 12, 2, 0, 0};

/* Slower 32 of an input of period 2048. */
static const uint32_t beyond[] = {0, 1, 0, 0, 0, 2048, 0, 0, 0, 1, 0, 0, 9, 1, 32, 0};

static void all_of_check(void)
{
    static const uint32_t clocks[] = {4, 1, 0, 0, 0, 0, 0, 0, 0, 0, 0, 4, 1, 0, 0, 0, 0, 0, 0, 0, 0, 0,
                                      4, 1, 1, 3, 0, 0, 0, 0, 0, 0, 0, 4, 1, 2, 3, 4, 0, 0, 0, 0, 0, 0};

    checks("check", sampled, 4 * BAARQIDHO_ROW_WORDS, 4 * BAARQIDHO_CLOCK_WORDS);
    answers(BAARQIDHO_OK, 0, 0, 4);
    wrote(NULL, 0, clocks, LENGTH(clocks));
    checks("check into too little", sampled, 4 * BAARQIDHO_ROW_WORDS, 4 * BAARQIDHO_CLOCK_WORDS - 1);
    refuses(BAARQIDHO_OUTPUT_TOO_SHORT, 0);
    checks("check, kind 16", open_plan, LENGTH(open_plan), 0);
    refuses(BAARQIDHO_UNKNOWN_KIND, 0);
    checks("check, clocks differ", differing, LENGTH(differing), LENGTH(words));
    refuses(BAARQIDHO_CLOCKS_DIFFER, 2);
    checks("check, period 65536", beyond, LENGTH(beyond), LENGTH(words));
    refuses(BAARQIDHO_BEYOND_LIMITS, 3);
    checks("check, tail of a sampled flow", sampled, LENGTH(sampled), LENGTH(words));
    refuses(BAARQIDHO_NOT_PLAIN, 4);
}

static void all_of_run(void)
{
    static const uint32_t constant[] = {1, 5, 1, 0};
    static const uint32_t log[] = {71, 72, 0, 0, 0, 0, 0, 0, 0, 0, 0, 0, 0, 0, 0, 0, 0, 0, 0, 0, 73, 74};
    static const uint8_t marks[] = {1, 1, 1, 0, 0, 0, 0, 0, 0, 0, 0, 0, 0, 0, 0, 0,
                                    0, 0, 0, 0, 0, 0, 0, 0, 0, 0, 0, 0, 0, 0, 1, 0};
    static const uint32_t values[] = {71, 72, 143, 0, 0, 0, 0, 0, 0, 0, 0, 0, 0, 0, 0, 0,
                                      0,  0,  0,   0, 0, 0, 0, 0, 0, 0, 0, 0, 0, 0, 73, 0};
    /* A reading, the constant 0, and the less and the larger of the two. */
    static const uint32_t torque[] = {0, 1, 0, 0, 1, 0, 1, 0, 4, 0, 1, 0, 6, 0, 1, 0};
    static const uint8_t present[] = {1, 1, 1, 1};
    static const uint32_t below_zero[] = {(uint32_t)-3, 0, 1, 0};

    runs("run", differing, LENGTH(differing), log, 20, 10, 31, 32);
    answers(BAARQIDHO_OK, 0, 0, 10);
    wrote(marks, 30, values, 30);
    runs("run, a clash", differing, LENGTH(differing), log, 22, 11, 33, 34);
    answers(BAARQIDHO_CLASH, 2, 10, 0);
    wrote(marks, 32, values, 32);
    runs("run, a reading below zero", torque, LENGTH(torque), below_zero, 1, 1, 5, 6);
    answers(BAARQIDHO_OK, 0, 0, 1);
    wrote(present, 4, below_zero, 4);
    runs("run, all ticks", constant, LENGTH(constant), log, 0, BAARQIDHO_MAX_TICKS, LENGTH(bytes), LENGTH(words));
    answers(BAARQIDHO_OK, 0, 0, BAARQIDHO_MAX_TICKS);
    runs("run, kind 16", open_plan, LENGTH(open_plan), log, 0, 0, LENGTH(bytes), LENGTH(words));
    refuses(BAARQIDHO_UNKNOWN_KIND, 0);
    runs("run, too many ticks", constant, LENGTH(constant), log, 0, BAARQIDHO_MAX_TICKS + 1, LENGTH(bytes),
         LENGTH(words));
    refuses(BAARQIDHO_TOO_MANY_TICKS, 0);
    runs("run, log too long", differing, LENGTH(differing), log, 21, 10, 31, 32);
    refuses(BAARQIDHO_BAD_LOG_LENGTH, 0);
    runs("run, marks too short", differing, LENGTH(differing), log, 20, 10, 29, 32);
    refuses(BAARQIDHO_TRACE_TOO_SHORT, 0);
    runs("run, values too short", differing, LENGTH(differing), log, 20, 10, 31, 29);
    refuses(BAARQIDHO_TRACE_TOO_SHORT, 0);
}

/* The constant 1, a register of the sum, and the sum of both: tick t has 1, t and t + 1. */
static const uint32_t counting[] = {1, 1, 1, 0, 7, 0, 0, 2, 2, 0, 1, 0};

#define CELLS (3 * BAARQIDHO_WINDOW_TICKS)
#define TALLIES (3 * BAARQIDHO_TALLY_WORDS)

/* A long run of the counting plan, with more room than it needs. */
static void counts(const char *name, uint32_t ticks)
{
    static uint8_t marks[CELLS];
    static uint32_t values[CELLS];
    uint32_t tally[TALLIES], t;
    size_t cells = ticks < BAARQIDHO_WINDOW_TICKS ? 3 * ticks : CELLS, place;

    for (t = 0; t < ticks; t++) {
        place = 3 * (t % BAARQIDHO_WINDOW_TICKS);
        memset(marks + place, 1, 3);
        values[place] = 1;
        values[place + 1] = t;
        values[place + 2] = t + 1;
    }
    tally[0] = tally[2] = tally[4] = ticks;
    tally[1] = ticks == 0 ? 0 : 1;
    tally[3] = ticks == 0 ? 0 : ticks - 1;
    tally[5] = ticks;
    runs_long(name, counting, LENGTH(counting), 0, ticks, CELLS + 1, CELLS + 2, TALLIES + 3);
    answers(BAARQIDHO_OK, 0, 0, ticks);
    wrote(marks, cells, values, cells);
    has("a tally", tallies, LENGTH(tallies), tally, TALLIES);
}

static void all_of_long_run(void)
{
    counts("long run of no ticks", 0);
    counts("long run of few ticks", 5);
    counts("long run past the window", BAARQIDHO_WINDOW_TICKS + 10);
    counts("long run, all ticks", BAARQIDHO_MAX_LONG_TICKS);
    runs_long("long run, too many ticks", counting, LENGTH(counting), 0, BAARQIDHO_MAX_LONG_TICKS + 1, CELLS, CELLS,
              TALLIES);
    refuses(BAARQIDHO_TOO_MANY_TICKS, 0);
    runs_long("long run, log too long", counting, LENGTH(counting), 1, 5, CELLS, CELLS, TALLIES);
    refuses(BAARQIDHO_BAD_LOG_LENGTH, 0);
    runs_long("long run, marks too short", counting, LENGTH(counting), 0, 5, CELLS - 1, CELLS, TALLIES);
    refuses(BAARQIDHO_WINDOW_TOO_SHORT, 0);
    runs_long("long run, values too short", counting, LENGTH(counting), 0, 5, CELLS, CELLS - 1, TALLIES);
    refuses(BAARQIDHO_WINDOW_TOO_SHORT, 0);
    runs_long("long run, tallies too short", counting, LENGTH(counting), 0, 5, CELLS, CELLS, TALLIES - 1);
    refuses(BAARQIDHO_WINDOW_TOO_SHORT, 0);
    runs_long("long run, kind 16", open_plan, LENGTH(open_plan), 0, 0, CELLS, CELLS, TALLIES);
    refuses(BAARQIDHO_UNKNOWN_KIND, 0);
    runs_long("long run, no words", counting, 0, 0, 5, CELLS, CELLS, TALLIES);
    refuses(BAARQIDHO_BAD_COUNT, 0);
    runs_long("long run, clocks differ", differing, LENGTH(differing), 2, 1, CELLS, CELLS, TALLIES);
    refuses(BAARQIDHO_CLOCKS_DIFFER, 2);
    runs_long("long run, period 65536", beyond, LENGTH(beyond), 0, 0, LENGTH(bytes), LENGTH(words), LENGTH(tallies));
    refuses(BAARQIDHO_BEYOND_LIMITS, 3);
    runs_long("long run, tail of a sampled flow", sampled, LENGTH(sampled), 0, 0, LENGTH(bytes), LENGTH(words),
              LENGTH(tallies));
    refuses(BAARQIDHO_NOT_PLAIN, 4);
}

static void all_of_listing(void)
{
    static const char text[] = "ok 2\n0 10 0 -\n1 20 0 -\n";
    static const char refusal[] = "no 12 1\n";
    static const char unrated[] = "no 13 0\n";

    lists("listing", packed_plan, sizeof packed_plan, BAARQIDHO_LISTING_MAX);
    answers(BAARQIDHO_OK, 0, 0, sizeof text - 1);
    wrote((const uint8_t *)text, sizeof text - 1, NULL, 0);
    lists("listing of a refusal", packed_plan, sizeof packed_plan - 1, BAARQIDHO_LISTING_MAX);
    answers(BAARQIDHO_OK, 0, 0, sizeof refusal - 1);
    wrote((const uint8_t *)refusal, sizeof refusal - 1, NULL, 0);
    lists("listing, kind 16", packed_open, sizeof packed_open, BAARQIDHO_LISTING_MAX);
    answers(BAARQIDHO_OK, 0, 0, sizeof unrated - 1);
    wrote((const uint8_t *)unrated, sizeof unrated - 1, NULL, 0);
    lists("listing into too little", packed_plan, sizeof packed_plan, BAARQIDHO_LISTING_MAX - 1);
    refuses(BAARQIDHO_OUTPUT_TOO_SHORT, 0);
}

static void all_of_load_page(void)
{
    /* Input (16, 3), the constant 7 at (4, 0), and the constant where it is not 0. */
    static const uint32_t costly[] = {0, 16, 3, 0, 1, 7, 4, 0, 13, 1, 1, 0};
    static const uint16_t times[] = {1, 65535, 9, 8};
    static const char page[] = " 1     4     0 0 16383750\n"
                               " 2     4     0 1     2250\n"
                               " 0    16     3 0       62\n"
                               "total            16386062\n";
    /* Inputs (4, 2), (4, 0) and (4, 2), and the second where it is not 0. */
    static const uint32_t phased[] = {0, 4, 2, 0, 0, 4, 0, 0, 0, 4, 2, 0, 13, 1, 1, 0};
    static const char by_phase[] = " 1     4     0 0 16383750\n"
                                   " 3     4     0 1     2000\n"
                                   " 0     4     2 0      250\n"
                                   " 2     4     2 0     2250\n"
                                   "total            16388250\n";
    static const char total[] = "total          4194240000\n";
    uint32_t busiest[BAARQIDHO_MAX_FLOWS * BAARQIDHO_ROW_WORDS];
    uint16_t greatest[BAARQIDHO_MAX_FLOWS];
    size_t row;

    pages("load page", costly, LENGTH(costly), times, 3, 4 * BAARQIDHO_PAGE_LINE);
    answers(BAARQIDHO_OK, 0, 0, sizeof page - 1);
    wrote((const uint8_t *)page, sizeof page - 1, NULL, 0);
    pages("load page, more room than it needs", costly, LENGTH(costly), times, 3, BAARQIDHO_PAGE_MAX);
    answers(BAARQIDHO_OK, 0, 0, 4 * BAARQIDHO_PAGE_LINE);
    wrote((const uint8_t *)page, sizeof page - 1, NULL, 0);
    pages("load page, equal periods", phased, LENGTH(phased), times, 4, 5 * BAARQIDHO_PAGE_LINE);
    answers(BAARQIDHO_OK, 0, 0, sizeof by_phase - 1);
    wrote((const uint8_t *)by_phase, sizeof by_phase - 1, NULL, 0);
    pages("load page, too few times", costly, LENGTH(costly), times, 2, BAARQIDHO_PAGE_MAX);
    refuses(BAARQIDHO_BAD_TIMES_LENGTH, 0);
    pages("load page, too many times", costly, LENGTH(costly), times, 4, 0);
    refuses(BAARQIDHO_BAD_TIMES_LENGTH, 0);
    pages("load page into too little", costly, LENGTH(costly), times, 3, 4 * BAARQIDHO_PAGE_LINE - 1);
    refuses(BAARQIDHO_PAGE_TOO_SHORT, 0);
    pages("load page, no words", costly, 0, times, 3, BAARQIDHO_PAGE_MAX);
    refuses(BAARQIDHO_BAD_COUNT, 0);
    pages("load page, kind 16", open_plan, LENGTH(open_plan), times, 3, 0);
    refuses(BAARQIDHO_UNKNOWN_KIND, 0);
    pages("load page, clocks differ", differing, LENGTH(differing), times, 3, BAARQIDHO_PAGE_MAX);
    refuses(BAARQIDHO_CLOCKS_DIFFER, 2);
    pages("load page, period 65536", beyond, LENGTH(beyond), times, 3, BAARQIDHO_PAGE_MAX);
    refuses(BAARQIDHO_BEYOND_LIMITS, 3);
    pages("load page, tail of a sampled flow", sampled, LENGTH(sampled), times, 4, 0);
    refuses(BAARQIDHO_NOT_PLAIN, 4);

    for (row = 0; row < BAARQIDHO_MAX_FLOWS; row++) {
        busiest[row * BAARQIDHO_ROW_WORDS] = busiest[row * BAARQIDHO_ROW_WORDS + 2] = 1;
        busiest[row * BAARQIDHO_ROW_WORDS + 1] = busiest[row * BAARQIDHO_ROW_WORDS + 3] = 0;
        greatest[row] = 65535;
    }
    pages("load page, the longest", busiest, LENGTH(busiest), greatest, LENGTH(greatest), BAARQIDHO_PAGE_MAX);
    answers(BAARQIDHO_OK, 0, 0, BAARQIDHO_PAGE_MAX);
    for (row = 0; row < BAARQIDHO_PAGE_LINE; row++)
        same("the total", bytes[BAARQIDHO_MAX_FLOWS * BAARQIDHO_PAGE_LINE + row], (uint8_t)total[row]);
}

static void all_of_least(void)
{
    /* Inputs (6, 0), (7, 1) and (4, 2), a register, the sum of the last two inputs, and faster 2 gap 3 of the first. */
    static const uint32_t refused[] = {0, 6, 0, 0, 0, 7, 1, 0, 0, 4, 2, 0, 7, 9, 2, 4, 2, 1, 2, 0, 8, 0, 2, 3};
    static const uint32_t part[] = {0, 7, 1, 0, 0, 4, 2, 0, 2, 0, 1, 0};
    static const uint32_t flows[] = {1, 2, 4};
    uint32_t chain[BAARQIDHO_MAX_FLOWS * BAARQIDHO_ROW_WORDS];
    size_t row;

    takes_least("least part", 0, 6, refused, LENGTH(refused), 3 * BAARQIDHO_ROW_WORDS);
    answers(BAARQIDHO_OK, 0, 0, 3);
    wrote(NULL, 0, part, LENGTH(part));
    takes_least("flows of the least part", 1, 6, refused, LENGTH(refused), 3);
    answers(BAARQIDHO_OK, 0, 0, 3);
    wrote(NULL, 0, flows, LENGTH(flows));
    takes_least("least part, more room than it needs", 0, 6, refused, LENGTH(refused), LENGTH(words));
    answers(BAARQIDHO_OK, 0, 0, 3);
    wrote(NULL, 0, part, LENGTH(part));
    takes_least("least part into too little", 0, 6, refused, LENGTH(refused), 3 * BAARQIDHO_ROW_WORDS - 1);
    refuses(BAARQIDHO_OUTPUT_TOO_SHORT, 0);
    takes_least("flows of the least part into too little", 1, 6, refused, LENGTH(refused), 2);
    refuses(BAARQIDHO_OUTPUT_TOO_SHORT, 0);
    takes_least("least part, count 5", 0, 5, refused, LENGTH(refused), LENGTH(words));
    refuses(BAARQIDHO_BAD_COUNT, 0);
    takes_least("flows of the least part, count 5", 1, 5, refused, LENGTH(refused), LENGTH(words));
    refuses(BAARQIDHO_BAD_COUNT, 0);
    refuses_least("least part of an accepted plan", plan, LENGTH(plan), 0, BAARQIDHO_NOT_DIFFERING, 0);
    refuses_least("least part, period 4158", beyond, LENGTH(beyond), LENGTH(words), BAARQIDHO_NOT_DIFFERING, 0);
    refuses_least("least part, tail of a sampled flow", sampled, LENGTH(sampled), LENGTH(words),
                  BAARQIDHO_NOT_DIFFERING, 0);

    memset(chain, 0, sizeof chain);
    chain[1] = 1;
    for (row = 1; row < BAARQIDHO_MAX_FLOWS; row++) {
        chain[row * BAARQIDHO_ROW_WORDS] = 10;
        chain[row * BAARQIDHO_ROW_WORDS + 1] = (uint32_t)row - 1;
        chain[row * BAARQIDHO_ROW_WORDS + 2] = 3;
    }
    /* The last row is a head of the one before it. */
    row = (BAARQIDHO_MAX_FLOWS - 1) * BAARQIDHO_ROW_WORDS;
    chain[row] = 11;
    takes_least("least part, all flows", 0, BAARQIDHO_MAX_FLOWS, chain, LENGTH(chain), LENGTH(chain));
    answers(BAARQIDHO_OK, 0, 0, BAARQIDHO_MAX_FLOWS);
    wrote(NULL, 0, chain, LENGTH(chain));
    chain[row] = 16;
    refuses_least("least part, kind 16", chain, LENGTH(chain), 0, BAARQIDHO_UNKNOWN_KIND, BAARQIDHO_MAX_FLOWS - 1);
    chain[row] = 19;
    refuses_least("least part, kind 19", chain, LENGTH(chain), 0, BAARQIDHO_UNKNOWN_KIND, BAARQIDHO_MAX_FLOWS - 1);
    chain[row] = 12;
    refuses_least("least part, unused word", chain, LENGTH(chain), 0, BAARQIDHO_FIELD_OUT_OF_RANGE,
                  BAARQIDHO_MAX_FLOWS - 1);
    chain[row] = 10;
    chain[row + 1]++;
    refuses_least("least part, operand itself", chain, LENGTH(chain), 0, BAARQIDHO_BAD_OPERAND,
                  BAARQIDHO_MAX_FLOWS - 1);
}

static void all_of_fill_rates(void)
{
    /* An input without a rate, slower 3 of it, input (12, 5), the sum of both, an input without a rate, later 2 of it,
       and a register of the sum with that for its source. */
    static const uint32_t open[] = {16, 0, 0, 0, 9,  0, 3, 0, 0, 12, 5, 0, 2, 1,
                                    2,  0, 16, 0, 0, 0, 10, 4, 2, 0, 7, 9, 3, 5};
    static const uint32_t filled[] = {0, 4, 5, 0,  9, 0, 3,  0, 0, 12, 5, 0, 2, 1,
                                      2, 0, 0, 12, 3, 0, 10, 4, 2, 0,  7, 9, 3, 5};
    uint32_t other[LENGTH(open)];
    size_t row;

    fills("fill rates", 7, open, LENGTH(open), LENGTH(filled));
    answers(BAARQIDHO_OK, 0, 0, 7);
    wrote(NULL, 0, filled, LENGTH(filled));
    fills("fill rates, more room than it needs", 7, open, LENGTH(open), LENGTH(words));
    answers(BAARQIDHO_OK, 0, 0, 7);
    wrote(NULL, 0, filled, LENGTH(filled));
    fills("fill rates, none to fill in", 7, filled, LENGTH(filled), LENGTH(filled));
    answers(BAARQIDHO_OK, 0, 0, 7);
    wrote(NULL, 0, filled, LENGTH(filled));
    fills("fill rates into too little", 7, open, LENGTH(open), 7 * BAARQIDHO_ROW_WORDS - 1);
    refuses(BAARQIDHO_OUTPUT_TOO_SHORT, 0);
    fills("fill rates, count 6", 6, open, LENGTH(open), LENGTH(words));
    refuses(BAARQIDHO_BAD_COUNT, 0);
    fills("fill rates, nothing joins", 6, open, 6 * BAARQIDHO_ROW_WORDS, 0);
    refuses(BAARQIDHO_UNJOINED, 4);
    fills("fill rates, clocks differ", 3, differing, LENGTH(differing), 0);
    refuses(BAARQIDHO_CLOCKS_DIFFER, 0);
    fills("fill rates, period 4158", 4, beyond, LENGTH(beyond), 0);
    refuses(BAARQIDHO_CLOCKS_DIFFER, 0);
    fills("fill rates, tail of a sampled flow", 5, sampled, LENGTH(sampled), LENGTH(words));
    refuses(BAARQIDHO_CLOCKS_DIFFER, 0);

    memcpy(other, open, sizeof open);
    other[BAARQIDHO_ROW_WORDS + 2] = 5;
    fills("fill rates, period 12 / 5", 7, other, LENGTH(other), LENGTH(words));
    refuses(BAARQIDHO_CLOCKS_DIFFER, 0);
    row = 4 * BAARQIDHO_ROW_WORDS;
    other[row] = 19;
    fills("fill rates, kind 19", 7, other, LENGTH(other), LENGTH(words));
    refuses(BAARQIDHO_UNKNOWN_KIND, 4);
    other[row] = 16;
    other[row + 3] = 1;
    fills("fill rates, unused word", 7, other, LENGTH(other), LENGTH(words));
    refuses(BAARQIDHO_FIELD_OUT_OF_RANGE, 4);
    other[row + 3] = 0;
    other[row + 5] = 5;
    fills("fill rates, operand itself", 7, other, LENGTH(other), LENGTH(words));
    refuses(BAARQIDHO_BAD_OPERAND, 5);
}

int main(void)
{
    all_of_read();
    all_of_write();
    all_of_check();
    all_of_run();
    all_of_long_run();
    all_of_listing();
    all_of_load_page();
    all_of_least();
    all_of_fill_rates();
    return is_wrong;
}
