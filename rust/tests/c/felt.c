/*
 * The inputs that each flow feels, up to as many flows as there may be, and every refusal by its name.
 */
#include "answers.h"

#define BIT(flow) ((uint64_t)1 << (flow))

/* Inputs (2, 0) and (2, 0), a register that the sum below feeds, the sum of the second input and the register, the
   first input where the sum is not 0, input (3, 0), and the first input where that is seen to be 0. */
static const uint32_t plan[] = {0, 2, 0, 0, 0,  2, 0, 0, 7, 9, 1, 3, 2,  1,
                                2, 0, 13, 0, 3, 0, 0, 3, 0, 0, 18, 0, 5, 6};
static const uint64_t of_plan[] = {0x01, 0x02, 0x02, 0x02, 0x03, 0x20, 0x21};

static void all_of_sets(void)
{
    /* Two constants and their difference. */
    static const uint32_t constants[] = {1, 5, 1, 0, 1, 6, 1, 0, 3, 0, 1, 0};
    static const uint64_t none[] = {0, 0, 0};
    /* A constant, an input, and the input less itself. */
    static const uint32_t nothing[] = {1, 5, 1, 0, 0, 1, 0, 0, 3, 1, 1, 0};
    static const uint64_t of_nothing[] = {0, 2, 2};

    feels("felt inputs", 7, plan, LENGTH(plan), 7);
    answers(BAARQIDHO_OK, 0, 0, 7);
    wrote(NULL, 0, NULL, 0);
    felt(of_plan, LENGTH(of_plan));
    feels("felt inputs, more room than needed", 7, plan, LENGTH(plan), LENGTH(sets));
    answers(BAARQIDHO_OK, 0, 0, 7);
    felt(of_plan, LENGTH(of_plan));
    feels("felt inputs of a part", 4, plan, 4 * BAARQIDHO_ROW_WORDS, 4);
    answers(BAARQIDHO_OK, 0, 0, 4);
    felt(of_plan, 4);
    feels("felt inputs, constants alone", 3, constants, LENGTH(constants), 3);
    answers(BAARQIDHO_OK, 0, 0, 3);
    felt(none, LENGTH(none));
    feels("felt inputs, an input less itself", 3, nothing, LENGTH(nothing), 4);
    answers(BAARQIDHO_OK, 0, 0, 3);
    felt(of_nothing, LENGTH(of_nothing));
}

/* As many flows as there may be: inputs alone; and an input as the last row, which registers hand on to the first. */
static void all_of_flows(void)
{
    uint32_t rows[BAARQIDHO_MAX_FLOWS * BAARQIDHO_ROW_WORDS];
    uint64_t expected[BAARQIDHO_MAX_FLOWS];
    size_t row, last = BAARQIDHO_MAX_FLOWS - 1;

    memset(rows, 0, sizeof rows);
    for (row = 0; row < BAARQIDHO_MAX_FLOWS; row++) {
        rows[row * BAARQIDHO_ROW_WORDS + 1] = (uint32_t)row + 1;
        expected[row] = BIT(row);
    }
    feels("felt inputs, inputs alone", BAARQIDHO_MAX_FLOWS, rows, LENGTH(rows), BAARQIDHO_MAX_FLOWS);
    answers(BAARQIDHO_OK, 0, 0, BAARQIDHO_MAX_FLOWS);
    felt(expected, LENGTH(expected));
    feels("felt inputs, a set too few", BAARQIDHO_MAX_FLOWS, rows, LENGTH(rows), BAARQIDHO_MAX_FLOWS - 1);
    refuses(BAARQIDHO_OUTPUT_TOO_SHORT, 0);

    memset(rows, 0, sizeof rows);
    rows[0] = rows[2] = 1;
    expected[0] = 0;
    for (row = 1; row < last; row++) {
        rows[row * BAARQIDHO_ROW_WORDS] = 7;
        rows[row * BAARQIDHO_ROW_WORDS + 3] = (uint32_t)row + 1;
        expected[row] = BIT(last);
    }
    rows[last * BAARQIDHO_ROW_WORDS + 1] = 1;
    feels("felt inputs, through all sources", BAARQIDHO_MAX_FLOWS, rows, LENGTH(rows), BAARQIDHO_MAX_FLOWS);
    answers(BAARQIDHO_OK, 0, 0, BAARQIDHO_MAX_FLOWS);
    felt(expected, LENGTH(expected));
}

/* The plan with another word at a place is refused, with room and without. */
static void refuses_with(const char *name, size_t place, uint32_t word, uint32_t of_number, uint32_t of_flow)
{
    uint32_t other[LENGTH(plan)];
    size_t len;

    memcpy(other, plan, sizeof other);
    other[place] = word;
    for (len = 0; len <= LENGTH(sets); len += LENGTH(sets)) {
        feels(name, 7, other, LENGTH(other), len);
        refuses(of_number, of_flow);
    }
}

static void all_of_refusals(void)
{
    /* Slower 32 of an input of period 2048. */
    static const uint32_t beyond[] = {0, 2048, 0, 0, 9, 0, 32, 0};

    feels("felt inputs, count 6", 6, plan, LENGTH(plan), LENGTH(sets));
    refuses(BAARQIDHO_BAD_COUNT, 0);
    feels("felt inputs, no words", 0, plan, 0, LENGTH(sets));
    refuses(BAARQIDHO_BAD_COUNT, 0);
    refuses_with("felt inputs, kind 16", 20, 16, BAARQIDHO_UNKNOWN_KIND, 5);
    refuses_with("felt inputs, kind 19", 20, 19, BAARQIDHO_UNKNOWN_KIND, 5);
    refuses_with("felt inputs, unused word", 23, 1, BAARQIDHO_FIELD_OUT_OF_RANGE, 5);
    refuses_with("felt inputs, source 7", 11, 7, BAARQIDHO_BAD_OPERAND, 2);
    refuses_with("felt inputs, clocks differ", 6, 1, BAARQIDHO_CLOCKS_DIFFER, 4);
    refuses_with("felt inputs, the source's clock differs", 11, 5, BAARQIDHO_CLOCKS_DIFFER, 2);
    refuses_with("felt inputs, a view of a sampled flow", 25, 4, BAARQIDHO_NOT_PLAIN, 6);
    refuses_with("felt inputs, w 4 over period 3", 27, 4, BAARQIDHO_BAD_VIEW, 6);
    feels("felt inputs, period 65536", 2, beyond, LENGTH(beyond), 1);
    refuses(BAARQIDHO_BEYOND_LIMITS, 1);
    feels("felt inputs into too little", 7, plan, LENGTH(plan), 6);
    refuses(BAARQIDHO_OUTPUT_TOO_SHORT, 0);
    feels("felt inputs into nothing", 7, plan, LENGTH(plan), 0);
    refuses(BAARQIDHO_OUTPUT_TOO_SHORT, 0);
}

int main(void)
{
    all_of_sets();
    all_of_flows();
    all_of_refusals();
    return is_wrong;
}
