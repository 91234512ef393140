/*
 * A slow recorder: a clock at its limits, and a run of all ticks in which the last one is needed.
 */
#include "answers.h"

/* Every 17th value of an input (3855, 0), those from the second on, and copies that should fill a tick. */
static const uint32_t plan[] = {0, 3855, 0, 0, 9, 0, 17, 0, 12, 1, 0, 0, 8, 2, 1, 1};

/* Without the copies. */
#define RECORDER (3 * BAARQIDHO_ROW_WORDS)

static void all_of_check(void)
{
    uint32_t clocks[3 * BAARQIDHO_CLOCK_WORDS] = {3855};
    /* The recorder, and its values a tick later still. */
    uint32_t late[4 * BAARQIDHO_ROW_WORDS];

    clocks[BAARQIDHO_CLOCK_WORDS] = BAARQIDHO_MAX_DERIVED;
    clocks[2 * BAARQIDHO_CLOCK_WORDS] = clocks[2 * BAARQIDHO_CLOCK_WORDS + 1] = BAARQIDHO_MAX_DERIVED;
    checks("check, period and phase at the limit", plan, RECORDER, LENGTH(words));
    answers(BAARQIDHO_OK, 0, 0, 3);
    wrote(NULL, 0, clocks, LENGTH(clocks));
    checks("check, copies", plan, LENGTH(plan), LENGTH(words));
    refuses(BAARQIDHO_CLOCKS_DIFFER, 3);
    memcpy(late, plan, sizeof late);
    late[RECORDER] = 10;
    late[RECORDER + 2] = 1;
    late[RECORDER + 3] = 0;
    checks("check, a tick later", late, LENGTH(late), LENGTH(words));
    refuses(BAARQIDHO_BEYOND_LIMITS, 3);
}

static void all_of_run(void)
{
    static const uint32_t log[BAARQIDHO_MAX_TICKS + 1] = {0};
    uint8_t marks[4];
    uint32_t ticks;

    for (ticks = BAARQIDHO_MAX_TICKS - 1; ticks <= BAARQIDHO_MAX_TICKS; ticks++) {
        runs("run of the recorder", plan, RECORDER, log, ticks, ticks, LENGTH(bytes), LENGTH(words));
        answers(BAARQIDHO_OK, 0, 0, ticks);
    }
    runs("run, all ticks but one", plan, LENGTH(plan), log, BAARQIDHO_MAX_TICKS - 1, BAARQIDHO_MAX_TICKS - 1,
         LENGTH(bytes), LENGTH(words));
    answers(BAARQIDHO_OK, 0, 0, BAARQIDHO_MAX_TICKS - 1);
    runs("run, all ticks", plan, LENGTH(plan), log, BAARQIDHO_MAX_TICKS, BAARQIDHO_MAX_TICKS, LENGTH(bytes),
         LENGTH(words));
    answers(BAARQIDHO_CLASH, 3, BAARQIDHO_MAX_TICKS - 1, 0);
    /* The last tick: all but the copies are there. */
    memcpy(marks, bytes + 4 * (BAARQIDHO_MAX_TICKS - 1), sizeof marks);
    same("the reading's mark", marks[0], 1);
    same("the recorder's mark", marks[1], 1);
    same("the tail's mark", marks[2], 1);
    same("what stood at the copies", marks[3], FILLING);
    runs("run, a tick too many", plan, LENGTH(plan), log, BAARQIDHO_MAX_TICKS + 1, BAARQIDHO_MAX_TICKS + 1,
         LENGTH(bytes), LENGTH(words));
    refuses(BAARQIDHO_TOO_MANY_TICKS, 0);
}

int main(void)
{
    all_of_check();
    all_of_run();
    return is_wrong;
}
