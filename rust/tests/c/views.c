/*
 * Conditions seen at a slower pace, kinds 17 and 18, through every call, and number 40 by its name.
 */
#include "answers.h"

/* Inputs (2, 1) and (3, 0), and the first where the second is seen not to be 0 every 6 ticks, and to be 0 every 12. */
static const uint8_t packed_plan[] = {0x04, 0x00, 0x01, 0x00, 0x08, 0x00, 0x0C, 0x00,
                                      0x22, 0x00, 0x20, 0x0D, 0x20, 0x01, 0x00, 0xC0};
static const uint32_t plan[] = {0, 2, 1, 0, 0, 3, 0, 0, 17, 0, 1, 6, 18, 0, 1, 12};

/* The same with a view period of 4 in flow 2, no multiple of the second input's period. */
static const uint32_t bad_view[] = {0, 2, 1, 0, 0, 3, 0, 0, 17, 0, 1, 4, 18, 0, 1, 12};

static void all_of_read_and_write(void)
{
    uint8_t other[sizeof packed_plan];

    reads("read", packed_plan, sizeof packed_plan, LENGTH(plan));
    answers(BAARQIDHO_OK, 0, 0, 4);
    wrote(NULL, 0, plan, LENGTH(plan));
    reads("read, bits end within w", packed_plan, sizeof packed_plan - 1, LENGTH(words));
    refuses(BAARQIDHO_ENDS_TOO_EARLY, 3);
    memcpy(other, packed_plan, sizeof other);
    other[15] = 0x00;
    reads("read, w 0", other, sizeof other, LENGTH(words));
    refuses(BAARQIDHO_FIELD_OUT_OF_RANGE, 3);
    other[12] = 0x30;
    reads("read, kind 19", other, sizeof other, LENGTH(words));
    refuses(BAARQIDHO_UNKNOWN_KIND, 3);
    writes("write", 4, plan, LENGTH(plan), sizeof packed_plan);
    answers(BAARQIDHO_OK, 0, 0, sizeof packed_plan);
    wrote(packed_plan, sizeof packed_plan, NULL, 0);
}

/* A check of the plan with another word at a place. */
static void checks_with(const char *name, size_t place, uint32_t word)
{
    uint32_t other[LENGTH(plan)];

    memcpy(other, plan, sizeof other);
    other[place] = word;
    checks(name, other, LENGTH(other), LENGTH(words));
}

static void all_of_check(void)
{
    static const uint32_t clocks[] = {2, 1, 0, 0, 0, 0, 0, 0, 0, 0, 0, 3, 0, 0, 0, 0, 0, 0, 0,  0, 0, 0,
                                      2, 1, 1, 3, 0, 0, 0, 6, 0, 0, 0, 2, 1, 1, 2, 0, 0, 0, 12, 0, 0, 0};
    /* Input (2, 0), it where it is seen not to be 0, and it where that is seen to be 0, with a bad view period. */
    static const uint32_t twice[] = {0, 2, 0, 0, 17, 0, 0, 2, 18, 0, 1, 5};

    checks("check", plan, LENGTH(plan), 4 * BAARQIDHO_CLOCK_WORDS);
    answers(BAARQIDHO_OK, 0, 0, 4);
    wrote(NULL, 0, clocks, LENGTH(clocks));
    checks("check into too little", plan, LENGTH(plan), 4 * BAARQIDHO_CLOCK_WORDS - 1);
    refuses(BAARQIDHO_OUTPUT_TOO_SHORT, 0);
    checks("check, w 4 over period 3", bad_view, LENGTH(bad_view), LENGTH(words));
    refuses(BAARQIDHO_BAD_VIEW, 2);
    checks_with("check, w 9 over period 2", 15, 9);
    refuses(BAARQIDHO_BAD_VIEW, 3);
    checks_with("check, c from tick 2 on", 6, 2);
    refuses(BAARQIDHO_BAD_VIEW, 2);
    checks_with("check, a under a condition", 13, 2);
    refuses(BAARQIDHO_NOT_PLAIN, 3);
    checks("check, c under a condition", twice, LENGTH(twice), LENGTH(words));
    refuses(BAARQIDHO_NOT_PLAIN, 2);
    checks_with("check, w 0", 11, 0);
    refuses(BAARQIDHO_FIELD_OUT_OF_RANGE, 2);
    checks_with("check, w 4096", 15, 4096);
    refuses(BAARQIDHO_FIELD_OUT_OF_RANGE, 3);
    checks_with("check, c itself", 10, 2);
    refuses(BAARQIDHO_BAD_OPERAND, 2);
    checks_with("check, kind 19", 8, 19);
    refuses(BAARQIDHO_UNKNOWN_KIND, 2);
}

static void all_of_run(void)
{
    /* Flow 1 has 0 at tick 0, which counts for ticks 1, 3 and 5 of flow 2 and for all of flow 3; 9 at tick 6 counts for
       tick 7 of flow 2, and 8 at tick 3 for none. */
    static const uint32_t log[] = {99, 0, 71, 99, 99, 99, 73, 8, 99, 99, 75, 99, 99, 9, 77, 99};
    static const uint8_t marks[] = {0, 1, 0, 0, 1, 0, 0, 1, 0, 0, 0, 0, 1, 1, 0, 1,
                                    0, 0, 0, 0, 1, 0, 0, 1, 0, 1, 0, 0, 1, 0, 1, 1};
    static const uint32_t values[] = {0, 0, 0, 0, 71, 0, 0, 71, 0, 0, 0, 0, 73, 8, 0,  73,
                                      0, 0, 0, 0, 75, 0, 0, 75, 0, 9, 0, 0, 77, 0, 77, 77};
    /* Inputs (1, 1) and (1, 2), and the first where the second, which has not begun, is seen to be 0. */
    static const uint32_t not_begun[] = {0, 1, 1, 0, 0, 1, 2, 0, 18, 0, 1, 1};
    static const uint8_t first_marks[] = {0, 0, 0, 1, 0};
    static const uint32_t first_values[] = {0, 0, 0, 71, 0};

    runs("run", plan, LENGTH(plan), log, LENGTH(log), 8, 33, 34);
    answers(BAARQIDHO_OK, 0, 0, 8);
    wrote(marks, LENGTH(marks), values, LENGTH(values));
    runs("run, c absent where it is seen", bad_view, LENGTH(bad_view), log, LENGTH(log), 8, 33, 34);
    answers(BAARQIDHO_CLASH, 2, 5, 0);
    wrote(marks, 22, values, 22);
    runs("run, c not begun", not_begun, LENGTH(not_begun), log, 4, 2, 7, 8);
    answers(BAARQIDHO_CLASH, 2, 1, 0);
    wrote(first_marks, 5, first_values, 5);
}

static void all_of_long_run(void)
{
    static const uint8_t marks[] = {0, 1, 0, 0};
    static const uint32_t values[] = {0, 72, 0, 0};
    static const uint32_t tally[] = {0, 0, 1, 72, 0, 0, 0, 0};

    runs_long("long run", plan, LENGTH(plan), 2, 1, LENGTH(bytes), LENGTH(words), LENGTH(tallies));
    answers(BAARQIDHO_OK, 0, 0, 1);
    wrote(marks, LENGTH(marks), values, LENGTH(values));
    has("a tally", tallies, LENGTH(tallies), tally, LENGTH(tally));
    runs_long("long run, w 4 over period 3", bad_view, LENGTH(bad_view), 0, 0, 0, 0, 0);
    refuses(BAARQIDHO_BAD_VIEW, 2);
}

static void all_of_texts(void)
{
    static const char text[] = "ok 4\n0 2 1 -\n1 3 0 -\n2 2 1 c1+@6\n3 2 1 c1-@12\n";
    static const uint16_t times[] = {1, 65535, 9, 8};
    static const char page[] = " 0     2     1 0      500\n"
                               " 2     2     1 1     4500\n"
                               " 3     2     1 1     4000\n"
                               " 1     3     0 0 21845000\n"
                               "total            21854000\n";

    lists("listing", packed_plan, sizeof packed_plan, BAARQIDHO_LISTING_MAX);
    answers(BAARQIDHO_OK, 0, 0, sizeof text - 1);
    wrote((const uint8_t *)text, sizeof text - 1, NULL, 0);
    pages("load page", plan, LENGTH(plan), times, 4, 5 * BAARQIDHO_PAGE_LINE);
    answers(BAARQIDHO_OK, 0, 0, sizeof page - 1);
    wrote((const uint8_t *)page, sizeof page - 1, NULL, 0);
    pages("load page, w 4 over period 3", bad_view, LENGTH(bad_view), times, 3, 0);
    refuses(BAARQIDHO_BAD_VIEW, 2);
}

static void all_of_least(void)
{
    /* Inputs (2, 1), (9, 9) and (3, 0), the first where the third is seen not to be 0, and the sum of it with and
       without that condition. */
    static const uint32_t refused[] = {0, 2, 1, 0, 0, 9, 9, 0, 0, 3, 0, 0, 17, 0, 2, 6, 2, 0, 3, 0};
    static const uint32_t part[] = {0, 2, 1, 0, 0, 3, 0, 0, 17, 0, 1, 6, 2, 0, 2, 0};

    takes_least("least part", 0, 5, refused, LENGTH(refused), LENGTH(part));
    answers(BAARQIDHO_OK, 0, 0, 4);
    wrote(NULL, 0, part, LENGTH(part));
    refuses_least("least part, w 4 over period 3", bad_view, LENGTH(bad_view), LENGTH(words), BAARQIDHO_NOT_DIFFERING,
                  0);
}

static void all_of_fill_rates(void)
{
    /* An input without a rate, input (3, 0), the first where that is seen not to be 0, and the sum with (2, 1). */
    static const uint32_t open[] = {16, 0, 0, 0, 0, 3, 0, 0, 17, 0, 1, 6, 0, 2, 1, 0, 2, 0, 3, 0};
    static const uint32_t filled[] = {0, 2, 1, 0, 0, 3, 0, 0, 17, 0, 1, 6, 0, 2, 1, 0, 2, 0, 3, 0};
    /* Input (2, 1), and it where an input without a rate is seen not to be 0. */
    static const uint32_t unjoined[] = {0, 2, 1, 0, 16, 0, 0, 0, 17, 0, 1, 6};

    fills("fill rates", 5, open, LENGTH(open), LENGTH(filled));
    answers(BAARQIDHO_OK, 0, 0, 5);
    wrote(NULL, 0, filled, LENGTH(filled));
    fills("fill rates, c is not joined", 3, unjoined, LENGTH(unjoined), 0);
    refuses(BAARQIDHO_UNJOINED, 1);
    fills("fill rates, w 4 over period 3", 4, bad_view, LENGTH(bad_view), 0);
    refuses(BAARQIDHO_CLOCKS_DIFFER, 0);
}

int main(void)
{
    all_of_read_and_write();
    all_of_check();
    all_of_run();
    all_of_long_run();
    all_of_texts();
    all_of_least();
    all_of_fill_rates();
    return is_wrong;
}
