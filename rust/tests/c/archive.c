/*
 * Traces in the archive: stored and given back, up to as many ticks as there may be, and numbers 41 to 43 by their names.
 */
#include "answers.h"

/* Input (2, 1), every second of its values, and all of them 3 ticks later: at ticks 1, 3, 5 and 7, at 1 and 5, and at
   4 and 6 of 8. */
static const uint32_t plan[] = {0, 2, 1, 0, 9, 0, 2, 0, 10, 0, 3, 0};
static const uint8_t marks[] = {0, 0, 0, 1, 1, 0, 0, 0, 0, 1, 0, 0, 0, 0, 1, 1, 1, 0, 0, 0, 1, 1, 0, 0};
static const uint32_t values[] = {0, 0, 0, 71, 71, 0, 0, 0, 0, 73, 0, 0, 0, 0, 71, 75, 75, 0, 0, 0, 73, 77, 0, 0};
static const uint32_t stored[] = {71, 73, 75, 77, 71, 75, 71, 73};

#define TICKS 8
#define CELLS LENGTH(marks)

/* Input (2, 1), it where it is not 0 and where it is, and both merged. */
static const uint32_t merged[] = {0, 2, 1, 0, 13, 0, 0, 0, 14, 0, 0, 0, 15, 0, 1, 2};

/* Inputs (2, 1) and (3, 0), and the first where the second is seen to be 0. */
static const uint32_t seen[] = {0, 2, 1, 0, 0, 3, 0, 0, 18, 0, 1, 6};

/* Inputs (10, 0) and (20, 0), and their sum. */
static const uint32_t differing[] = {0, 10, 0, 0, 0, 20, 0, 0, 2, 0, 1, 0};

/* All three calls are refused alike, however long the buffers are. */
static void all_refuse(const char *name, const uint32_t *of, size_t words_len, uint32_t ticks, uint32_t of_number,
                       uint32_t of_flow)
{
    size_t cells;

    counts_stored(name, of, words_len, ticks);
    refuses(of_number, of_flow);
    for (cells = 0; cells <= CELLS; cells += CELLS) {
        stores(name, of, words_len, ticks, marks, cells, values, cells, LENGTH(words));
        refuses(of_number, of_flow);
        restores(name, of, words_len, ticks, stored, LENGTH(stored), cells, cells);
        refuses(of_number, of_flow);
    }
}

static void all_of_refusals(void)
{
    uint32_t other[LENGTH(plan)];

    all_refuse("archive, no words", plan, 0, TICKS, BAARQIDHO_BAD_COUNT, 0);
    memcpy(other, plan, sizeof other);
    other[8] = 16;
    all_refuse("archive, kind 16", other, LENGTH(other), TICKS, BAARQIDHO_UNKNOWN_KIND, 2);
    other[8] = 9;
    other[10] = 64;
    all_refuse("archive, k 64", other, LENGTH(other), TICKS, BAARQIDHO_FIELD_OUT_OF_RANGE, 2);
    other[9] = other[10] = 2;
    all_refuse("archive, operand itself", other, LENGTH(other), TICKS, BAARQIDHO_BAD_OPERAND, 2);
    all_refuse("archive, clocks differ", differing, LENGTH(differing), BAARQIDHO_MAX_TICKS + 1,
               BAARQIDHO_CLOCKS_DIFFER, 2);
    all_refuse("archive, too many ticks", merged, LENGTH(merged), BAARQIDHO_MAX_TICKS + 1, BAARQIDHO_TOO_MANY_TICKS,
               0);
    all_refuse("archive, conditions and a merge", merged, LENGTH(merged), TICKS, BAARQIDHO_HAS_CONDITIONS, 0);
    all_refuse("archive, a view", seen, LENGTH(seen), 0, BAARQIDHO_HAS_CONDITIONS, 0);
}

static void all_of_stored_words(void)
{
    /* Every 17th value of an input (3855, 0), and those from the second on: at ticks 0, 65535 and 131070. */
    static const uint32_t slow[] = {0, 3855, 0, 0, 9, 0, 17, 0, 12, 1, 0, 0};

    counts_stored("stored words", plan, LENGTH(plan), TICKS);
    answers(BAARQIDHO_OK, 0, 0, LENGTH(stored));
    counts_stored("stored words, no ticks", plan, LENGTH(plan), 0);
    answers(BAARQIDHO_OK, 0, 0, 0);
    counts_stored("stored words, all ticks", slow, LENGTH(slow), BAARQIDHO_MAX_TICKS);
    answers(BAARQIDHO_OK, 0, 0, 35 + 3 + 2);
    counts_stored("stored words, all ticks but one", slow, LENGTH(slow), BAARQIDHO_MAX_TICKS - 1);
    answers(BAARQIDHO_OK, 0, 0, 34 + 2 + 1);
}

static void all_of_store(void)
{
    static const uint32_t log[TICKS] = {99, 71, 99, 73, 99, 75, 99, 77};
    uint8_t other_marks[CELLS];
    uint32_t other_values[CELLS];

    runs("run", plan, LENGTH(plan), log, LENGTH(log), TICKS, CELLS, CELLS);
    wrote(marks, CELLS, values, CELLS);
    stores("store", plan, LENGTH(plan), TICKS, marks, CELLS, values, CELLS, LENGTH(stored));
    answers(BAARQIDHO_OK, 0, 0, LENGTH(stored));
    wrote(NULL, 0, stored, LENGTH(stored));
    stores("store, no ticks", plan, LENGTH(plan), 0, marks, 0, values, 0, 0);
    answers(BAARQIDHO_OK, 0, 0, 0);
    wrote(NULL, 0, NULL, 0);
    stores("store, a mark too few", plan, LENGTH(plan), TICKS, marks, CELLS - 1, values, CELLS, LENGTH(stored));
    refuses(BAARQIDHO_WRONG_LENGTH, 0);
    stores("store, a value too few", plan, LENGTH(plan), TICKS, marks, CELLS, values, CELLS - 1, LENGTH(stored));
    refuses(BAARQIDHO_WRONG_LENGTH, 0);
    stores("store, a word too few", plan, LENGTH(plan), TICKS, marks, CELLS, values, CELLS, LENGTH(stored) - 1);
    refuses(BAARQIDHO_WRONG_LENGTH, 0);
    stores("store, a word too many", plan, LENGTH(plan), TICKS, marks, CELLS, values, CELLS, LENGTH(stored) + 1);
    refuses(BAARQIDHO_WRONG_LENGTH, 0);
    stores("store, a tick less", plan, LENGTH(plan), TICKS - 1, marks, CELLS, values, CELLS, LENGTH(stored) - 1);
    refuses(BAARQIDHO_WRONG_LENGTH, 0);

    memcpy(other_marks, marks, sizeof marks);
    memcpy(other_values, values, sizeof values);
    other_marks[21] = 2;
    stores("store, a mark of 2", plan, LENGTH(plan), TICKS, other_marks, CELLS, values, CELLS, LENGTH(stored));
    refuses(BAARQIDHO_OFF_CALENDAR, 0);
    other_marks[21] = 0;
    other_values[21] = 0;
    stores("store, a mark less", plan, LENGTH(plan), TICKS, other_marks, CELLS, other_values, CELLS, LENGTH(stored));
    refuses(BAARQIDHO_OFF_CALENDAR, 0);
    other_values[21] = 77;
    other_values[23] = 1;
    stores("store, an absent value", plan, LENGTH(plan), TICKS, marks, CELLS, other_values, CELLS, LENGTH(stored));
    refuses(BAARQIDHO_OFF_CALENDAR, 0);
    other_marks[21] = other_marks[23] = 1;
    stores("store, a mark more", plan, LENGTH(plan), TICKS, other_marks, CELLS, other_values, CELLS, LENGTH(stored));
    refuses(BAARQIDHO_OFF_CALENDAR, 0);
}

static void all_of_restore(void)
{
    restores("restore", plan, LENGTH(plan), TICKS, stored, LENGTH(stored), CELLS, CELLS);
    answers(BAARQIDHO_OK, 0, 0, CELLS);
    wrote(marks, CELLS, values, CELLS);
    restores("restore, no ticks", plan, LENGTH(plan), 0, stored, 0, 0, 0);
    answers(BAARQIDHO_OK, 0, 0, 0);
    wrote(NULL, 0, NULL, 0);
    restores("restore, a word too few", plan, LENGTH(plan), TICKS, stored, LENGTH(stored) - 1, CELLS, CELLS);
    refuses(BAARQIDHO_WRONG_LENGTH, 0);
    restores("restore, a mark too many", plan, LENGTH(plan), TICKS, stored, LENGTH(stored), CELLS + 1, CELLS);
    refuses(BAARQIDHO_WRONG_LENGTH, 0);
    restores("restore, a value too many", plan, LENGTH(plan), TICKS, stored, LENGTH(stored), CELLS, CELLS + 1);
    refuses(BAARQIDHO_WRONG_LENGTH, 0);
    restores("restore, a tick more", plan, LENGTH(plan), TICKS + 1, stored, LENGTH(stored), CELLS + 3, CELLS + 3);
    refuses(BAARQIDHO_WRONG_LENGTH, 0);
}

/* As many ticks as there may be, of four flows that are present at each of them: any words, given back and stored. */
static void all_ticks(void)
{
    static const uint32_t dense[] = {0, 1, 0, 0, 0, 1, 0, 0, 0, 1, 0, 0, 0, 1, 0, 0};
    static uint32_t all[4 * BAARQIDHO_MAX_TICKS], of_cells[4 * BAARQIDHO_MAX_TICKS];
    static uint8_t present[4 * BAARQIDHO_MAX_TICKS];
    size_t place;

    for (place = 0; place < LENGTH(all); place++) {
        all[place] = 3 * (uint32_t)place + 1;
        of_cells[place % BAARQIDHO_MAX_TICKS * 4 + place / BAARQIDHO_MAX_TICKS] = all[place];
    }
    memset(present, 1, sizeof present);
    restores("restore, all ticks", dense, LENGTH(dense), BAARQIDHO_MAX_TICKS, all, LENGTH(all), LENGTH(all),
             LENGTH(all));
    answers(BAARQIDHO_OK, 0, 0, LENGTH(all));
    wrote(present, LENGTH(present), of_cells, LENGTH(of_cells));
    stores("store, all ticks", dense, LENGTH(dense), BAARQIDHO_MAX_TICKS, present, LENGTH(all), of_cells, LENGTH(all),
           LENGTH(all));
    answers(BAARQIDHO_OK, 0, 0, LENGTH(all));
    wrote(NULL, 0, all, LENGTH(all));
}

int main(void)
{
    all_of_refusals();
    all_of_stored_words();
    all_of_store();
    all_of_restore();
    all_ticks();
    return is_wrong;
}
