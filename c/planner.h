/* The planner for car-parking towers, for C.
 *
 * Link with target/staticlib/libplanner.a (.ci/archive planner), which has every function below, or with libplan_check.a (.ci/archive
 * plan_check), which has planner_check_plan alone. Link one of the two. Neither needs another library than C's own, of which they call
 * memcpy and memset at most.
 *
 * Every slice is a pointer and a length in elements: bytes, but for tables, whose elements are planner_entry, and a row, whose elements
 * are uint32_t. The caller owns all memory: a call reads the slices while it runs, writes to those that its declaration does not mark const
 * and as it says there, touches nothing past their lengths, keeps no pointer and allocates nothing. A slice of length 0 may have a null
 * pointer; any other pointer must be valid for its length, and one to tables or to a row aligned as its elements are. A slice that is
 * written overlaps no other slice of the call; while the call runs nobody else uses it, and nobody writes to any other. There is no global
 * state and there are no locks, so calls on slices of their own may run at the same time.
 *
 * Stack: less than PLANNER_STACK for planner_build_tables, planner_spread and planner_search, less than 16 KB for every other call,
 * whatever its input. Measured: 160 KB for a build, 370 KB for a search.
 *
 * Every input is allowed: a call always returns, with an answer or with the number of a refusal. A refused call leaves every slice as
 * found, apart from refusal 11.
 */
#ifndef PLANNER_H
#define PLANNER_H

#include <stddef.h>
#include <stdint.h>

#ifdef __cplusplus
extern "C" {
#endif

/* The bytes of a record: a task in the form that every call but the reader takes. What a longer slice holds after them is ignored.
 *
 * offset  bytes                what stands there
 *    0    1                    N, the number of variables, 1 to 16
 *    1    1                    M, the number of moves, 0 to 64
 *    2    1                    P, the number of patterns, 0 to 8
 *    3    1                    the limit, a cost from 0 to 255
 *    4    4                    the budget, 0 to 1000000, lowest byte first
 *    8    16                   the size of each variable, 2 to 16; 0 from N on
 *   24    16                   the goal: the value of each variable that it names, else 255
 *   40    16                   the start, a state: a value for each variable, 255 from N on
 *   56    8 times 16           each pattern: 1 for a variable that is in it, else 0
 *  184    64 times 145         each move: the number of its outcomes, 1 to 8, its need (16) and eight outcomes (16 each), written as the
 *                              goal is; of outcomes that it does not have every byte is 255, of moves from M on the number is 0 and
 *                              every other byte 255
 * 9464    64                   the cost of each move, 1 to 255; 0 from M on */
#define PLANNER_RECORD_SIZE 9528

/* The bytes of a record of the first form, which had no costs: see planner_upgrade_record. */
#define PLANNER_FIRST_RECORD_SIZE 9464

/* Where the start stands in a record: PLANNER_STATE_SIZE bytes. */
#define PLANNER_START 40

/* The bytes of a state: a value for each of the N variables, 255 after them. */
#define PLANNER_STATE_SIZE 16

/* The most entries that the tables of a task can need: 8 patterns of 4096 states. */
#define PLANNER_MOST_ENTRIES 32768

/* An entry of a table: a cost, or PLANNER_INFINITE. */
typedef uint32_t planner_entry;

/* The table entry of a state that no plan brings out, infinite. */
#define PLANNER_INFINITE 4294967295u

/* The largest cost that an entry can be: a plan need not pass a state twice, so it has at most 4095 moves of cost 255 on a path. */
#define PLANNER_MOST_COST 1044225

/* The counts of a row: one for each value from 0 to 1044225, then the one of the infinite states. */
#define PLANNER_ROW_SIZE 1044227

/* Where a row counts the infinite states. */
#define PLANNER_ROW_INFINITE 1044226

/* The byte of a plan that says "arrived". */
#define PLANNER_ARRIVED 254

/* The byte that fills a plan's buffer after the plan. */
#define PLANNER_NO_BYTE 255

/* Bytes of stack that are enough for any call. */
#define PLANNER_STACK 524288

/* An answer. number is 0 if the call answers; what kind, first, second and third then hold is told at each function, and those of them that
 * are not named there are 0. Else number is the refusal's, first its second number, and kind, second and third are 0.
 *
 * number  meaning                                                   first
 *  1      a line has not the key that is due, is missing or extra   its number, from 1
 *  2      the form of a number or list                              the line's number
 *  3      a number outside its range                                the line's number
 *  4      a list: a variable not below N or not ascending, a value  the line's number
 *         not below its size, a start that is not N long
 *  5      the record is shorter than 9528 bytes                     record_length
 *  6      a cell of the record is outside its rule                  its offset in the record, the lowest (4 for the budget)
 *  7      a pattern has more than 4096 states                       the lowest such pattern
 *  8      the tables are too short                                  the entries needed
 * 18      the row is shorter than 1044227 counts                    row_length
 *  9      the patterns are not additive (see planner_additive)      the lowest move that touches two of them
 * 10      the state's length is not 16                              16
 * 10      a cell of the state is outside its rule                   its offset in the state, the lowest
 * 11      the plan found is longer than the buffer                  the bytes needed
 * 12      the plan ends where a move or 254 is due                  plan_length
 * 13      a byte is neither 254 nor a move's number                 its offset in the plan
 * 15      a byte is 254, and the state there is no goal             its offset in the plan
 * 17      a move after 255 moves on the path                        its offset in the plan
 * 14      a move does not apply: its need is not met, or the state  its offset in the plan
 *         there is a goal
 * 16      there are bytes after the plan, whatever they are         the offset of the first of them
 *
 * A call tests, in this order, those that are named at its declaration; planner_read_text tests 5 first, and planner_upgrade_record tests
 * as is told there. The lines from 12 down to 14 are tested at each byte of a plan, from left to right, and 16 where the plan has ended. */
struct planner_answer {
    uint64_t number;
    uint64_t kind;
    uint64_t first;
    uint64_t second;
    uint64_t third;
};

/* Reads a text into a record. Refusals 1 to 5, 5 first; of several faulty lines the lowest is told.
 *
 * text    lines key=value, parted by byte 10; the last line counts alike with or without it. After the line need= of a move one line
 *         cost= may stand, 1 to 255; a move without it costs 1
 * record  PLANNER_RECORD_SIZE bytes or more; that many are written, and nothing after them
 *
 * If the text is read: number 0, kind 0. */
struct planner_answer planner_read_text(const uint8_t *text, size_t text_length, uint8_t *record, size_t record_length);

/* Writes a stored record of the first form as a record in which each move costs 1. Refusals 5, 6, and 5 once more.
 *
 * old     PLANNER_FIRST_RECORD_SIZE bytes or more: what a record holds before the costs, with a limit of at most 32. What a longer slice
 *         holds after them is ignored, costs too
 * record  PLANNER_RECORD_SIZE bytes or more; that many are written, and nothing after them. As every slice that is written it overlaps
 *         no other, so no record is lengthened in its own place
 *
 * The refusals in their order: 5 if old is shorter than PLANNER_FIRST_RECORD_SIZE, first old_length; 6 if a cell of old is outside its
 * rule, first its offset, the lowest (3 for a limit above 32); 5 if record is shorter than PLANNER_RECORD_SIZE, first record_length.
 *
 * If it is written: number 0, kind 0. The record is sound. It holds the first PLANNER_FIRST_RECORD_SIZE bytes of old, then a cost of 1 for
 * each of its moves and 0 from M on. After a refusal record is as it was. */
struct planner_answer planner_upgrade_record(const uint8_t *old, size_t old_length, uint8_t *record, size_t record_length);

/* Whether a record is sound. Refusals 5 and 6. If it is: number 0, kind 0. Records that planner_read_text wrote are. */
struct planner_answer planner_check_record(const uint8_t *record, size_t record_length);

/* Whether bytes are a state of the record's task. Refusals 5, 6 and 10. If they are: number 0, kind 0. */
struct planner_answer planner_check_state(const uint8_t *record, size_t record_length, const uint8_t *state, size_t state_length);

/* Builds the tables of the record's patterns. Refusals 5 to 8.
 *
 * tables  at least as many entries as all patterns together have states; PLANNER_MOST_ENTRIES are always enough
 *
 * If they are built: number 0, kind 0, first the entries written. Table follows table in the order of the patterns. A pattern's entry for
 * a state is the least cost with which a plan brings that state, of which only the pattern's variables are kept, to a goal, at most
 * PLANNER_MOST_COST, or PLANNER_INFINITE. A plan costs what the moves on its dearest path cost together. The index of a state is the sum
 * of value times weight; the weight of the lowest variable is 1, and each next is the previous weight times the previous size. Entries
 * after the last stay as they were. */
struct planner_answer planner_build_tables(const uint8_t *record, size_t record_length, planner_entry *tables, size_t tables_length);

/* Counts how many states of a pattern have each value, in tables that it builds. Refusals 5 to 8 and 18.
 *
 * pattern  the pattern's number, from 0. Any number is allowed: one that is not below P names no states
 * tables   as for planner_build_tables: the call builds them anew, and what they held before does not matter
 * row      PLANNER_ROW_SIZE counts or more; that many are written, and nothing after them
 *
 * If they are counted: number 0, kind 0, first the states counted, which is the sum of the counts and the number of the pattern's states,
 * and 0 if pattern is not below P. row[v], for v from 0 to 1044225, is then the number of the pattern's states whose entry is v, and
 * row[PLANNER_ROW_INFINITE] the number of those whose entry is PLANNER_INFINITE; no entry has another value. The tables of all patterns are
 * as planner_build_tables leaves them, whatever pattern is. After a refusal nothing is built, and tables and row are as they were. */
struct planner_answer planner_spread(const uint8_t *record, size_t record_length, uint64_t pattern, planner_entry *tables,
                                     size_t tables_length, uint32_t *row, size_t row_length);

/* Whether the record's patterns are additive: no move touches two of them. Refusals 5 and 6.
 *
 * A move touches a pattern if one of its outcomes gives a value to one of the pattern's variables. The value that the move's own need
 * demands of that variable does not count, since the variable has it then; any other value does, also one that the variable may have.
 *
 * If they are: number 0, kind 0. If not: number 0, kind 1, first the lowest move that touches two, second and third the lowest two. */
struct planner_answer planner_additive(const uint8_t *record, size_t record_length);

/* The value of a state: the sum of its entries in the tables, which the call takes as they are. Refusals 5 to 10.
 *
 * state   PLANNER_STATE_SIZE bytes
 * tables  as planner_build_tables left them for the same record. Then no plan from the state costs less than its value, and an infinite
 *         value means that there is no plan.
 *
 * kind 0  first is the value
 * kind 1  the value is infinite: an entry is PLANNER_INFINITE */
struct planner_answer planner_value(const uint8_t *record, size_t record_length, const uint8_t *state, size_t state_length,
                                    const planner_entry *tables, size_t tables_length);

/* Searches a cheapest strong plan from the record's start, up to its limit, a cost, and up to its budget. Refusals 5 to 9 and 11.
 *
 * tables  as for planner_build_tables: the search builds them anew, and what they held before does not matter
 * plan    the buffer for the plan
 *
 * The count is the number of examinations of the search as it is defined, in which a state that is met again is examined again. It is not
 * a measure of what the call did: what is known from an earlier examination is counted and not examined again. The budget is a bound on
 * this count.
 *
 * kind 0  found: first is the cost, second the count, third the plan's length. No strong plan from the start costs less, and
 *         planner_check_plan passes the first bytes of plan, third of them, at the record's start, with this cost and length
 * kind 1  over: second is the count. Every strong plan from the start costs more than the limit
 * kind 2  spent: the count has reached the budget. first is the round in which it ended, a cost, second the count, which is the budget.
 *         Every strong plan from the start costs at least first
 * kind 3  none: second is the count, 0. There is no strong plan from the start
 *
 * After an answer and after refusal 11 the tables are as planner_build_tables leaves them, and the buffer holds PLANNER_NO_BYTE
 * throughout, but for a plan found, which stands at its start. */
struct planner_answer planner_search(const uint8_t *record, size_t record_length, planner_entry *tables, size_t tables_length,
                                     uint8_t *plan, size_t plan_length);

/* Whether a plan, from any producer, is a strong plan of at most 255 moves depth from a state. Refusals 5, 6, 10 and 12 to 17.
 *
 * state   PLANNER_STATE_SIZE bytes
 * plan    254 for arrived, else a move's number followed by the plans for its outcomes in order
 *
 * If it is one: number 0, kind 0, first the plan's cost (the costs of the moves on its dearest path, added up; at most 65025), second its
 * length in bytes, which is then plan_length. The time is that of the record's check and a time for each byte of the plan up to the
 * refusal. */
struct planner_answer planner_check_plan(const uint8_t *record, size_t record_length, const uint8_t *state, size_t state_length,
                                         const uint8_t *plan, size_t plan_length);

#ifdef __cplusplus
}
#endif

#endif
