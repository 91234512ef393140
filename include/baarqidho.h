/*
 * Baarqidho: a checker and runner for bench plans, proved to agree.
 *
 * A plan is a table of 1 to 64 flows. In plain form it is its count of flows and, for each row, four 32-bit words:
 * kind, then up to three fields; unused words are 0.
 *
 *   kind      name                                  fields
 *   0         input                                 period, phase
 *   1         constant                              value, period, phase
 *   2 to 6    add, subtract, less, equal, larger    a, b
 *   7         register                              initial value, beat b, source a
 *   8         faster                                a, k, gap
 *   9         slower                                a, k
 *   10        later                                 a, d
 *   11        head                                  a, value, tick s
 *   12        tail                                  a
 *   13, 14    when, when-not                        a, c
 *   15        merge                                 c, a, b
 *   16        input without a rate                  none
 *   17, 18    when-seen, when-not-seen              a, c, view period w
 *
 * Kind 16 is an input whose period and phase are not written. Reading and writing take it, and baarqidho_fill_rates
 * makes an input of kind 0 of it; every other call refuses it with 13, the listing in its text.
 *
 * Kinds 17 and 18 have the values of a where c is not zero (17) or zero (18), as kinds 13 and 14 have, but c need not
 * be at a's pace: it is looked at every w ticks, 1 to 4095, and what was seen counts for w ticks of a. baarqidho_check
 * says what it asks of a, c and w, and baarqidho_run at which tick c is looked at.
 *
 * A value is any 32-bit word. Less and larger read it as a signed number, in two's complement: less is 1 where a is
 * below b, else 0, and larger is the greater of the two. Add and subtract are modulo 2 to the 32, for signed numbers and
 * others alike.
 *
 * Every call returns the number of its answer, 0 for success, and puts flow, tick and count through its last three
 * pointers; parts that an answer does not name are 0. A slice is passed as a pointer and then its length in elements.
 * The calls take any numbers, any lengths and any contents. What C itself asks of the caller: each pointer is aligned,
 * not NULL and valid for its length, no buffer that is written overlaps another, and flow, tick and count point to
 * three words.
 */
#ifndef BAARQIDHO_H
#define BAARQIDHO_H

#include <stddef.h>
#include <stdint.h>

#ifdef __cplusplus
extern "C" {
#endif

/* The greatest period and phase of a clock. Those that are written, in rows, are at most 4095. */
#define BAARQIDHO_MAX_DERIVED 65535

/* The most flows of a table, and the most ticks of a run (and of a trace in the archive) and of a long run. */
#define BAARQIDHO_MAX_FLOWS 64
#define BAARQIDHO_MAX_TICKS 131071
#define BAARQIDHO_MAX_LONG_TICKS 4194303

/* The ticks of a long run's window. */
#define BAARQIDHO_WINDOW_TICKS 131072

/* The words of a row in plain form, of a clock, and of a flow's tally. */
#define BAARQIDHO_ROW_WORDS 4
#define BAARQIDHO_CLOCK_WORDS 11
#define BAARQIDHO_TALLY_WORDS 2

/* The bytes of the longest packed table. */
#define BAARQIDHO_PACKED_MAX 489

/* The bytes that a text buffer needs before any listing is made. */
#define BAARQIDHO_LISTING_MAX 2374

/* The bytes of a load page's line, its line feed too, and of the longest page. */
#define BAARQIDHO_PAGE_LINE 26
#define BAARQIDHO_PAGE_MAX 1690

/* The numbers of the answers. */
enum baarqidho_number {
    BAARQIDHO_OK = 0,
    BAARQIDHO_OUTPUT_TOO_SHORT = 10,   /* the output has fewer cells than needed */
    BAARQIDHO_BAD_COUNT = 11,          /* count not 1 to 64, or plain words not 4 a flow */
    BAARQIDHO_ENDS_TOO_EARLY = 12,     /* packed bits end too early; the row in flow */
    BAARQIDHO_UNKNOWN_KIND = 13,       /* kind above 18, or 16 where rates have to be written; the row in flow */
    BAARQIDHO_FIELD_OUT_OF_RANGE = 14, /* field outside its range, or unused word not 0; the row in flow */
    BAARQIDHO_BAD_OPERAND = 15,        /* operand not a lower flow, or source not in the table; the row in flow */
    BAARQIDHO_NOT_THE_END = 16,        /* filling bit not 0, or a further byte */
    BAARQIDHO_CLOCKS_DIFFER = 21,      /* clocks not as the rules need; names the flow, 0 where rates are filled in */
    BAARQIDHO_BEYOND_LIMITS = 22,      /* derived period or phase above 65,535, or a fifth condition; names the flow */
    BAARQIDHO_NOT_PLAIN = 23,          /* kinds 8 to 12, 17 and 18 over a clock with conditions; names the flow */
    BAARQIDHO_TOO_MANY_TICKS = 31,     /* more than 131,071 ticks, or 4,194,303 in a long run */
    BAARQIDHO_BAD_LOG_LENGTH = 32,     /* log length not ticks x inputs */
    BAARQIDHO_TRACE_TOO_SHORT = 33,    /* mark or value trace below ticks x flows */
    BAARQIDHO_CLASH = 34,              /* in a run: operands do not fit together; names tick and flow */
    BAARQIDHO_WINDOW_TOO_SHORT = 35,   /* marks or values below 131,072 x flows, or tallies below 2 x flows */
    BAARQIDHO_BAD_TIMES_LENGTH = 36,   /* worst times not one a flow */
    BAARQIDHO_PAGE_TOO_SHORT = 37,     /* page below 26 x (flows + 1) bytes */
    BAARQIDHO_NOT_DIFFERING = 38,      /* the check does not answer the plan with 21 */
    BAARQIDHO_UNJOINED = 39,           /* no chain joins the flow to a rated one; names the lowest such flow */
    BAARQIDHO_BAD_VIEW = 40,           /* w no multiple of both periods, or c's phase above a's; names the flow */
    BAARQIDHO_HAS_CONDITIONS = 41,     /* kinds 13 to 15, 17 or 18 in a plan whose traces go into the archive */
    BAARQIDHO_WRONG_LENGTH = 42,       /* marks, values or stored words not exactly as many as plan and ticks ask */
    BAARQIDHO_OFF_CALENDAR = 43        /* a trace to store whose marks are not the clocks', or absent values not 0 */
};

/*
 * Reads a packed table into plain words.
 *
 * Success: count is the number of flows; exactly 4 x count words are written, later ones are left as they were.
 * Refusals, in this order, each of which leaves all of `words` as it was:
 *   12  no bytes at all (flow 0)
 *   11  the count byte is not 1 to 64
 *   row by row, the row in flow: 12 the bits end within the kind, 13 the kind is above 18, 12 they end within the
 *       fields, 14 a field is outside its range, 15 an operand is not a lower flow or a source not in the table
 *   16  a filling bit is not 0, or a further byte follows
 *   10  `words` has fewer than 4 words a flow
 */
uint32_t baarqidho_read(const uint8_t *packed, size_t packed_len,
                        uint32_t *words, size_t words_len,
                        uint32_t *flow, uint32_t *tick, uint32_t *count);

/*
 * Writes a plain table in packed form.
 *
 * Success: count is the number of bytes; exactly those are written, later ones are left as they were.
 * Refusals, in this order, each of which leaves all of `packed` as it was:
 *   11  plan_count is not 1 to 64, or words_len is not 4 x plan_count
 *   row by row, the row in flow: 13 the kind is above 18, 14 a field is outside its range or an unused word is not 0,
 *       15 an operand is not a lower flow or a source not in the table
 *   10  `packed` has fewer bytes than the table needs (BAARQIDHO_PACKED_MAX is enough for every table)
 */
uint32_t baarqidho_write(uint32_t plan_count, const uint32_t *words, size_t words_len,
                         uint8_t *packed, size_t packed_len,
                         uint32_t *flow, uint32_t *tick, uint32_t *count);

/*
 * Gives each flow its clock in eleven words:
 *   0        period
 *   1        phase
 *   2        how many conditions
 *   3 to 6   the conditions in order of sampling, each 2 x flow + 1 for true or 2 x flow for false, unused ones 0
 *   7 to 10  the view period of each condition in the same order, 0 where it is sampled directly, unused ones 0
 *
 * Success: count is the number of flows; exactly 11 x count words are written, later ones are left as they were.
 * Refusals, in this order, each of which leaves all of `clocks` as it was:
 *   11, then row by row 13, 14, 15, as in baarqidho_write, but 13 for kind 16 too
 *   10  `clocks` has fewer than 11 words a flow
 *   row by row, the flow named: 23 kinds 8 to 12 over a clock with conditions, kinds 17 and 18 where a or c has one,
 *       21 the clocks are not as the rules need, 22 a derived period or phase above BAARQIDHO_MAX_DERIVED or a fifth
 *       condition, 40 kinds 17 and 18 where w is not a multiple of both periods or c's phase is above a's
 *   21  a register whose source has another clock than its beat, lowest register first, the register named
 */
uint32_t baarqidho_check(uint32_t plan_count, const uint32_t *words, size_t words_len,
                         uint32_t *clocks, size_t clocks_len,
                         uint32_t *flow, uint32_t *tick, uint32_t *count);

/*
 * Runs a table over a log. The log has, for each tick from 0, one word per input row in row order. The trace has one
 * cell per tick and flow, tick after tick: a mark (1 present, 0 absent) and a value, 0 where absent.
 *
 * Kinds 17 and 18 are absent where a is. Where a is present, at tick t, let a's first presence be at tick s and c's at
 * tick r. Then c's value at tick r + w x ((t - s) / w) decides, the quotient without its fraction: the row has a's
 * value if it is not zero (17) or zero (18), else it is absent. It is a clash if c has had no presence by tick t, if
 * the tick that decides is past t, or if c is absent at it.
 *
 * Success: count is `ticks`; exactly ticks x plan_count cells are written in each trace, later ones are left as they
 * were. Refusals, in this order:
 *   11, then row by row 13, 14, 15, as in baarqidho_check
 *   31  more than BAARQIDHO_MAX_TICKS ticks
 *   32  log_len is not ticks x the number of input rows
 *   33  marks_len or values_len is below ticks x plan_count
 *   34  a clash: tick and flow are named
 * All but 34 leave both traces as they were. A clash has every cell before it written. One found at a flow leaves that
 * flow's cell and all later ones as they were; one found after all flows of a tick, which names a register, has that
 * tick written and leaves all later ones.
 */
uint32_t baarqidho_run(uint32_t plan_count, const uint32_t *words, size_t words_len,
                       const uint32_t *log, size_t log_len, uint32_t ticks,
                       uint8_t *marks, size_t marks_len,
                       uint32_t *values, size_t values_len,
                       uint32_t *flow, uint32_t *tick, uint32_t *count);

/*
 * Checks a table and runs it over a log for many ticks. It keeps the cells of the last BAARQIDHO_WINDOW_TICKS ticks,
 * the window, and a tally of each flow. The log and each cell are as in baarqidho_run. The cell of flow f at tick t has
 * the place (t % BAARQIDHO_WINDOW_TICKS) x plan_count + f in `marks` and in `values`. `tallies` has at 2 x f how many
 * values flow f had in all ticks, and at 2 x f + 1 its last value, 0 if it had none.
 *
 * Success: count is `ticks`. The window has the last BAARQIDHO_WINDOW_TICKS ticks, or all of them if there are fewer;
 * its other places, and all cells and words behind the window and the tallies, are left as they were. Every flow's
 * tally is written, 0 and 0 after no ticks. Refusals, in this order:
 *   11, then row by row 13, 14, 15, as in baarqidho_check
 *   row by row 23, 21, 22, 40, then 21 of a register's source, as in baarqidho_check
 *   31  more than BAARQIDHO_MAX_LONG_TICKS ticks
 *   32  log_len is not ticks x the number of input rows
 *   35  marks_len or values_len is below BAARQIDHO_WINDOW_TICKS x plan_count, however few the ticks, or tallies_len is
 *       below BAARQIDHO_TALLY_WORDS x plan_count
 * Each leaves all three buffers as they were.
 */
uint32_t baarqidho_long_run(uint32_t plan_count, const uint32_t *words, size_t words_len,
                            const uint32_t *log, size_t log_len, uint32_t ticks,
                            uint8_t *marks, size_t marks_len,
                            uint32_t *values, size_t values_len,
                            uint32_t *tallies, size_t tallies_len,
                            uint32_t *flow, uint32_t *tick, uint32_t *count);

/*
 * Lists a packed table as text: a line `ok COUNT` and for each flow a line `FLOW PERIOD PHASE CONDITIONS`, or the one
 * line `no NUMBER FLOW` of a refusal, of reading or of the check. CONDITIONS is `-` where there are none; a condition
 * is `c`, its flow, `+` for true or `-` for false, and, if it has a view period, `@` and that, as in `c1+@30c2-`. Every
 * line ends in a line feed; no zero byte follows.
 *
 * In both cases the number is 0 and count is the length of the text; exactly that many bytes are written, later ones
 * are left as they were. Refusal:
 *   10  `text` has fewer than BAARQIDHO_LISTING_MAX bytes; all of it is left as it was, count is 0
 */
uint32_t baarqidho_listing(const uint8_t *packed, size_t packed_len,
                           uint8_t *text, size_t text_len,
                           uint32_t *flow, uint32_t *tick, uint32_t *count);

/*
 * Checks a table and writes what each flow costs as text, the load page. `times` has one worst time a flow, in
 * thousandths of a tick. Each flow has a line: flow in 2 characters, period in 5, phase in 5, how many conditions in 1
 * and load in 8, each right-aligned, one space between. The load is 1000 x worst time / period to the nearest whole,
 * a half going to the even neighbour. Lines stand by period ascending, equal periods by phase ascending, and only then
 * by flow. The last line is `total` and the sum of the loads as they are printed, right-aligned in 20. Every line has 25
 * characters and a line feed; no zero byte follows.
 *
 * Success: count is the length of the page, BAARQIDHO_PAGE_LINE x (plan_count + 1); exactly that many bytes are
 * written, later ones are left as they were. Refusals, in this order, each of which leaves all of `page` as it was:
 *   11, then row by row 13, 14, 15, as in baarqidho_check
 *   row by row 23, 21, 22, 40, then 21 of a register's source, as in baarqidho_check
 *   36  times_len is not plan_count
 *   37  `page` has fewer bytes than the page needs (BAARQIDHO_PAGE_MAX is enough for every table)
 */
uint32_t baarqidho_load_page(uint32_t plan_count, const uint32_t *words, size_t words_len,
                             const uint16_t *times, size_t times_len,
                             uint8_t *page, size_t page_len,
                             uint32_t *flow, uint32_t *tick, uint32_t *count);

/*
 * Gives the least part of a plan that the check still answers with 21. A part is a set of flows that has, with a flow,
 * all its operands, beats and sources; as a plan it has their rows in order, its flows renumbered from 0 on. The least
 * part is the one with fewest flows; among equals, the one drawn from the lowest single flow that leads to all the rest
 * of its part.
 *
 * Success: count is the number of the part's flows; its rows are written in plain form, exactly 4 x count words, later
 * ones are left as they were. Refusals, in this order, each of which leaves all of `part` as it was:
 *   11, then row by row 13, 14, 15, as in baarqidho_check
 *   38  the check answers the plan with 0, 22, 23 or 40, even if it would answer a part of it with 21
 *   10  `part` has fewer than 4 words for each flow of the least part (words_len words are enough)
 */
uint32_t baarqidho_least_part(uint32_t plan_count, const uint32_t *words, size_t words_len,
                              uint32_t *part, size_t part_len,
                              uint32_t *flow, uint32_t *tick, uint32_t *count);

/*
 * Gives the numbers that the flows of the same part have in the plan, ascending: row i of baarqidho_least_part is that
 * of flow flows[i].
 *
 * Success: count is the number of the part's flows; exactly count words are written, later ones are left as they were.
 * Refusals, in this order, each of which leaves all of `flows` as it was:
 *   11, then row by row 13, 14, 15, and 38, as in baarqidho_least_part
 *   10  `flows` has fewer words than the least part has flows (plan_count words are enough)
 */
uint32_t baarqidho_least_flows(uint32_t plan_count, const uint32_t *words, size_t words_len,
                               uint32_t *flows, size_t flows_len,
                               uint32_t *flow, uint32_t *tick, uint32_t *count);

/*
 * Fills in period and phase of each input without a rate. Two flows are joined when they stand in one row, a result
 * with its operands, beat and source; kinds 17 and 18 join their result with a only. A flow is rated when it is an
 * input of kind 0 or a constant. Where a chain joins each flow to a rated one, the check accepts at most one filling
 * with periods 1 to 4095 and phases 0 to 4095. A plan without kind 16 has one filling, itself.
 *
 * Success: count is the number of flows; the plan with each row of kind 16 as an input of kind 0 is written in plain
 * form, exactly 4 x count words, later ones are left as they were. The check accepts it. Refusals, in this order, each
 * of which leaves all of `filled` as it was:
 *   11, then row by row 13, 14, 15, as in baarqidho_write: 13 is for kinds above 18
 *   39  no chain joins a flow to a rated one, even if the check accepts some filling; the lowest such flow is named
 *   21  the check accepts no filling, whatever it answers them with; flow is 0
 *   10  `filled` has fewer than 4 words a flow (words_len words are enough)
 */
uint32_t baarqidho_fill_rates(uint32_t plan_count, const uint32_t *words, size_t words_len,
                              uint32_t *filled, size_t filled_len,
                              uint32_t *flow, uint32_t *tick, uint32_t *count);

/*
 * Tells how many words a trace has in the archive. The archive is for plans that the check accepts and that have no row
 * of kinds 13 to 15, 17 and 18: there a flow is present exactly at its phase plus whole periods. Of a trace of `ticks`
 * ticks it has, flow after flow, the values present, each flow's in time order. A flow with period n and phase p has no
 * word where ticks is at most p, else (ticks - p - 1) / n + 1 words, the quotient without its fraction.
 *
 * Success: count is the number of words of all flows. Refusals, in this order:
 *   11, then row by row 13, 14, 15, as in baarqidho_check
 *   row by row 23, 21, 22, 40, then 21 of a register's source, as in baarqidho_check
 *   31  more than BAARQIDHO_MAX_TICKS ticks
 *   41  a row of kinds 13 to 15, 17 or 18; no flow is named
 */
uint32_t baarqidho_stored_words(uint32_t plan_count, const uint32_t *words, size_t words_len, uint32_t ticks,
                                uint32_t *flow, uint32_t *tick, uint32_t *count);

/*
 * Stores a trace of `ticks` ticks, marks and values as baarqidho_run leaves them, in the words that
 * baarqidho_stored_words counts.
 *
 * Success: count is the number of words; all of `stored` is written. Refusals, in this order, each of which leaves all
 * of `stored` as it was:
 *   11, then row by row 13, 14, 15, then 23, 21, 22, 40, then 31 and 41, as in baarqidho_stored_words
 *   42  marks_len or values_len is not exactly ticks x plan_count, or stored_len not exactly the number of words
 *   43  a mark is not 1 where its flow is present or not 0 where it is absent, or an absent value is not 0; neither
 *       tick nor flow is named
 */
uint32_t baarqidho_store(uint32_t plan_count, const uint32_t *words, size_t words_len, uint32_t ticks,
                         const uint8_t *marks, size_t marks_len,
                         const uint32_t *values, size_t values_len,
                         uint32_t *stored, size_t stored_len,
                         uint32_t *flow, uint32_t *tick, uint32_t *count);

/*
 * Gives a trace of `ticks` ticks back: marks by the clocks, and the stored words as the values present, 0 where absent.
 * Any words will do, as many as there have to be; baarqidho_store gives them again.
 *
 * Success: count is ticks x plan_count, the number of cells, absent ones too; all of `marks` and `values` is written.
 * Refusals, in this order, each of which leaves all of `marks` and `values` as it was:
 *   11, then row by row 13, 14, 15, then 23, 21, 22, 40, then 31 and 41, as in baarqidho_stored_words
 *   42  stored_len, marks_len or values_len is wrong, as in baarqidho_store
 */
uint32_t baarqidho_restore(uint32_t plan_count, const uint32_t *words, size_t words_len, uint32_t ticks,
                           const uint32_t *stored, size_t stored_len,
                           uint8_t *marks, size_t marks_len,
                           uint32_t *values, size_t values_len,
                           uint32_t *flow, uint32_t *tick, uint32_t *count);

/*
 * Gives for each flow the inputs that it feels, as a set in 64 bits, the lowest one for row 0: bit i of sets[f] is 1
 * exactly where row i is an input of kind 0 from which flow f can be reached. A flow can be reached from itself, from
 * each flow that its row names (operands, beat and source) or that a condition of its clock is about, and from whatever
 * these can be reached from. So registers may feed each other and themselves.
 *
 * Two runs of more than t ticks whose logs agree on the inputs of a flow's set, at those inputs' own ticks (phase plus
 * whole periods) up to tick t, give that flow the same marks and values up to tick t; the runs need not have equally
 * many ticks. A set may have more inputs than the values feel, as that of x - x has.
 *
 * Success: count is the number of flows; exactly count sets are written, later ones are left as they were. Refusals, in
 * this order, each of which leaves all of `sets` as it was:
 *   11, then row by row 13, 14, 15, as in baarqidho_check
 *   row by row 23, 21, 22, 40, then 21 of a register's source, as in baarqidho_check
 *   10  `sets` has fewer than plan_count sets (BAARQIDHO_MAX_FLOWS is enough for every table)
 */
uint32_t baarqidho_felt_inputs(uint32_t plan_count, const uint32_t *words, size_t words_len,
                               uint64_t *sets, size_t sets_len,
                               uint32_t *flow, uint32_t *tick, uint32_t *count);

#ifdef __cplusplus
}
#endif

#endif /* BAARQIDHO_H */
