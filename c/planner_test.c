/* Runs the sample tower's text through every function of the library, with each refusal, then random towers whose answers must fit
 * together.
 *
 *     planner_test [TOWERS]
 *
 * TOWERS (default 3000) is the number of random towers. */
#include "planner.h"

#include <pthread.h>
#include <stdio.h>
#include <stdlib.h>
#include <string.h>

#define ENTRIES 16384
#define PLAN_ROOM 65536
#define AROUND 0xa5
#define COSTS 9464
#define MOST_MOVES 64

/* The numbers of planner.h against those that the document names or that follow from them. */
_Static_assert(PLANNER_RECORD_SIZE == 9528 && PLANNER_FIRST_RECORD_SIZE == 9464, "the record has 64 bytes more than its first form");
_Static_assert(sizeof(planner_entry) == 4 && PLANNER_INFINITE == UINT32_MAX, "entries are 32 bits, infinite 4,294,967,295");
_Static_assert(PLANNER_MOST_COST == 255 * 4095 && PLANNER_ROW_INFINITE == PLANNER_MOST_COST + 1 && PLANNER_ROW_SIZE == 1044227,
               "a count per value from 0 to 1,044,225, then infinite");

static const char sample[] =
    "vars=2\nsize=4\nsize=2\nmoves=4\nneed=0:0\noutcomes=1\neff=0:1\nneed=0:1\noutcomes=2\neff=0:2\neff=0:3\nneed=0:3\noutcomes=1\neff=0:2\n"
    "need=1:0\noutcomes=1\neff=1:1\ngoal=0:2,1:1\nstart=0,0\npatterns=2\npattern=0\npattern=1\nlimit=32\nbudget=100";

static const uint8_t sample_plan[] = {0, 1, 3, 254, 2, 3, 254, 254};

/* -- Comparing ------------------------------------------------------------------------------------------------------------------------ */

static int failures, comparisons;

static void expect_true(const char *what, int holds) {
    comparisons++;
    if (holds) return;
    failures++;
    printf("FAILED %s\n", what);
}

static void expect(const char *what, struct planner_answer got, uint64_t number, uint64_t kind, uint64_t first, uint64_t second,
                   uint64_t third) {
    struct planner_answer want = {number, kind, first, second, third};
    comparisons++;
    if (memcmp(&got, &want, sizeof got) == 0) return;
    failures++;
    printf("FAILED %s: got %llu %llu %llu %llu %llu, expected %llu %llu %llu %llu %llu\n", what, (unsigned long long)got.number,
           (unsigned long long)got.kind, (unsigned long long)got.first, (unsigned long long)got.second, (unsigned long long)got.third,
           (unsigned long long)number, (unsigned long long)kind, (unsigned long long)first, (unsigned long long)second,
           (unsigned long long)third);
}

static void expect_refusal(const char *what, struct planner_answer got, uint64_t number, uint64_t second) {
    expect(what, got, number, 0, second, 0, 0);
}

/* The first byte is the one asked for, and each byte is as the next. */
static int all_bytes(const uint8_t *bytes, size_t length, uint8_t held) {
    return length == 0 || (bytes[0] == held && !memcmp(bytes, bytes + 1, length - 1));
}

/* A block of memory of just this length, so that valgrind sees an access past it. It lives until 64 others were asked for. */
static void *block(size_t length, int held) {
    static void *blocks[64];
    static size_t next;
    free(blocks[next]);
    void *bytes = malloc(length ? length : 1);
    if (!bytes) exit(2);
    blocks[next] = bytes;
    next = (next + 1) % 64;
    return memset(bytes, held, length);
}

/* -- Texts and records ---------------------------------------------------------------------------------------------------------------- */

/* The sample's text with some of it replaced. */
static const char *changed(const char *from, const char *to) {
    const char *at = strstr(sample, from);
    if (!at) exit(2);
    char *text = block(sizeof sample + strlen(to), 0);
    memcpy(text, sample, (size_t)(at - sample));
    strcpy(text + (at - sample), to);
    strcat(text, at + strlen(from));
    return text;
}

/* The sample's text up to the end of some of it. */
static const char *cut_after(const char *what) {
    size_t length = (size_t)(strstr(sample, what) - sample) + strlen(what);
    char *text = block(length + 1, 0);
    return memcpy(text, sample, length);
}

/* A text with a line cost= after the need of each move. A cost of 0 leaves the line out. */
static const char *with_costs(const char *text, const int *costs) {
    char *longer = block(strlen(text) + MOST_MOVES * 12 + 1, 0), *at = longer;
    for (const char *line = text, *next; *line; line = next) {
        size_t length = strcspn(line, "\n");
        next = line + length + (line[length] == '\n');
        at += sprintf(at, "%.*s", (int)(next - line), line);
        if (!strncmp(line, "need=", 5) && *costs++) at += sprintf(at, "cost=%d\n", costs[-1]);
    }
    return longer;
}

static struct planner_answer read_into(const char *text, uint8_t *record, size_t room) {
    size_t length = strlen(text);
    uint8_t *bytes = block(length, 0);
    memcpy(bytes, text, length);
    return planner_read_text(bytes, length, record, room);
}

/* The record of a text that must be sound. */
static uint8_t *record_of(const char *text) {
    uint8_t *record = block(PLANNER_RECORD_SIZE, AROUND);
    expect("a sound text", read_into(text, record, PLANNER_RECORD_SIZE), 0, 0, 0, 0, 0);
    expect("the record that was read", planner_check_record(record, PLANNER_RECORD_SIZE), 0, 0, 0, 0, 0);
    return record;
}

static uint8_t *state_of(uint8_t pallet, uint8_t door) {
    uint8_t *state = block(PLANNER_STATE_SIZE, 255);
    state[0] = pallet;
    state[1] = door;
    return state;
}

/* -- The reader ----------------------------------------------------------------------------------------------------------------------- */

static void test_reader(void) {
    uint8_t *plain = record_of(sample), *broken = record_of(changed("budget=100", "budget=100\n"));
    expect_true("the last line break changes nothing", !memcmp(plain, broken, PLANNER_RECORD_SIZE));
    uint8_t *longer = block(PLANNER_RECORD_SIZE + 9, AROUND);
    expect("a longer record", read_into(sample, longer, PLANNER_RECORD_SIZE + 9), 0, 0, 0, 0, 0);
    expect_true("9528 bytes are written", !memcmp(plain, longer, PLANNER_RECORD_SIZE));
    expect_true("and nothing after", all_bytes(longer + PLANNER_RECORD_SIZE, 9, AROUND));
}

/* The sample's text with some of it replaced, and its refusal. */
struct fault {
    const char *from, *to;
    uint64_t number, line;
};

static void expect_faults(const struct fault *faults, size_t count) {
    for (size_t i = 0; i < count; i++) {
        uint8_t *record = block(PLANNER_RECORD_SIZE, AROUND);
        expect_refusal(faults[i].to, read_into(changed(faults[i].from, faults[i].to), record, PLANNER_RECORD_SIZE), faults[i].number,
                       faults[i].line);
        expect_true("a refused text writes nothing", all_bytes(record, PLANNER_RECORD_SIZE, AROUND));
    }
}

static void test_reader_refusals(void) {
    static const struct fault faults[] = {
        {"moves=4", "move=4", 1, 4},              {"\nbudget=100", "", 1, 24},       {"budget=100", "budget=100\nx=1", 1, 25},
        {"budget=100", "budget=100\n\n", 1, 25},  {"size=4", "size=04", 2, 2},       {"start=0,0", "start=", 2, 19},
        {"budget=100", "budget=12345678", 2, 24}, {"limit=32", "limit=256", 3, 23},  {"size=2", "size=17", 3, 3},
        {"goal=0:2,1:1", "goal=1:1,0:2", 4, 18},  {"start=0,0", "start=0", 4, 19},   {"need=0:3", "need=0:4", 4, 12},
        {"pattern=1", "pattern=2", 4, 22}};
    expect_faults(faults, sizeof faults / sizeof faults[0]);
    uint8_t *shorter = block(PLANNER_RECORD_SIZE - 1, AROUND);
    expect_refusal("5 goes before 1", read_into("x", shorter, PLANNER_RECORD_SIZE - 1), 5, PLANNER_RECORD_SIZE - 1);
    expect_refusal("an empty text", planner_read_text(NULL, 0, shorter, 0), 5, 0);
    expect_refusal("no line", planner_read_text(NULL, 0, block(PLANNER_RECORD_SIZE, AROUND), PLANNER_RECORD_SIZE), 1, 1);
}

/* -- Costs in texts ------------------------------------------------------------------------------------------------------------------- */

/* The costs of a record of four moves. */
static void expect_costs(const char *what, const char *text, int c0, int c1, int c2, int c3) {
    const uint8_t *record = record_of(text), want[4] = {(uint8_t)c0, (uint8_t)c1, (uint8_t)c2, (uint8_t)c3};
    expect_true(what, !memcmp(record + COSTS, want, 4));
    expect_true("0 for unused moves", all_bytes(record + COSTS + 4, MOST_MOVES - 4, 0));
    expect_true("costs change nothing else of the record", !memcmp(record, record_of(sample), COSTS));
}

/* A tower with some moves that change nothing, where every state is a goal. */
static const char *idle_text(int moves) {
    char *text = block(4096, 0), *at = text + sprintf(text, "vars=1\nsize=2\nmoves=%d\n", moves);
    for (int m = 0; m < moves; m++) at += sprintf(at, "need=\noutcomes=1\neff=\n");
    sprintf(at, "goal=\nstart=0\npatterns=0\nlimit=32\nbudget=0");
    return text;
}

static void test_costs(void) {
    int costs[MOST_MOVES], kept = 1;
    expect_costs("costs left out are 1", sample, 1, 1, 1, 1);
    expect_costs("costs of 1", with_costs(sample, (int[]){1, 1, 1, 1}), 1, 1, 1, 1);
    expect_costs("each cost given", with_costs(sample, (int[]){1, 2, 254, 255}), 1, 2, 254, 255);
    expect_costs("the first alone", with_costs(sample, (int[]){255, 0, 0, 0}), 255, 1, 1, 1);
    expect_costs("the second alone", with_costs(sample, (int[]){0, 3, 0, 0}), 1, 3, 1, 1);
    expect_costs("the last alone", with_costs(sample, (int[]){0, 0, 0, 10}), 1, 1, 1, 10);
    expect_costs("all but one", with_costs(sample, (int[]){9, 99, 0, 100}), 9, 99, 1, 100);
    for (int m = 0; m < MOST_MOVES; m++) costs[m] = 255 - 3 * m;
    uint8_t *full = record_of(with_costs(idle_text(MOST_MOVES), costs));
    for (int m = 0; m < MOST_MOVES; m++) kept &= full[COSTS + m] == costs[m];
    expect_true("the costs of 64 moves", kept);
    uint8_t *most = record_of(changed("limit=32", "limit=255")), *least = record_of(changed("limit=32", "limit=0"));
    expect_true("a limit from 0 to 255", most[3] == 255 && least[3] == 0);
}

/* The line of a cost stands after its need. What stands there and is no cost is taken for the line outcomes=. */
static void test_cost_refusals(void) {
    static const struct fault faults[] = {
        {"need=0:1", "need=0:1\ncost=0", 3, 9},          {"need=0:1", "need=0:1\ncost=256", 3, 9},
        {"need=0:1", "need=0:1\ncost=1234567", 3, 9},    {"need=0:1", "need=0:1\ncost=12345678", 2, 9},
        {"need=0:1", "need=0:1\ncost=", 2, 9},           {"need=0:1", "need=0:1\ncost=03", 2, 9},
        {"need=0:1", "need=0:1\ncost=00", 2, 9},         {"need=0:1", "need=0:1\ncost=-1", 2, 9},
        {"need=0:1", "need=0:1\ncost=3 ", 2, 9},         {"need=0:1", "need=0:1\ncost= 3", 2, 9},
        {"need=0:1", "need=0:1\ncost=3,3", 2, 9},        {"need=0:1", "need=0:1\ncost=0:3", 2, 9},
        {"need=0:1", "need=0:1\ncost=3\ncost=3", 1, 10}, {"need=0:1", "need=0:1\ncost=0\ncost=3", 3, 9},
        {"need=0:1", "need=0:1\ncost", 1, 9},            {"need=0:1", "need=0:1\ncost:3", 1, 9},
        {"need=0:1", "need=0:1\ncosts=3", 1, 9},         {"need=0:1", "need=0:1\nCost=3", 1, 9},
        {"need=0:1", "need=0:1\n cost=3", 1, 9},         {"need=0:1", "need=0:1\n", 1, 9},
        {"need=0:1", "need=0:1\n\ncost=3", 1, 9},        {"need=0:1", "need=0:1\ncost=3\n", 1, 10},
        {"need=0:1", "need=0:1\neff=0:2", 1, 9},         {"need=0:1", "need=0:1\ncost=3\neff=0:2", 1, 10},
        {"need=0:1", "need=0:4\ncost=0", 4, 8},          {"need=0:1", "need=0:1\ncost=3\noutcomes=9", 3, 10},
        {"need=0:1\n", "need=0:1\ncost=255\noutcomes=0\n", 3, 10},
        {"need=0:0", "need=0:0\ncost=256", 3, 6},        {"need=1:0", "need=1:0\ncost=256", 3, 16},
        {"need=0:0", "cost=3\nneed=0:0", 1, 5},          {"outcomes=1", "outcomes=1\ncost=3", 1, 7},
        {"eff=0:1", "eff=0:1\ncost=3", 1, 8},            {"goal=", "cost=3\ngoal=", 1, 18},
        {"moves=4", "cost=3\nmoves=4", 1, 4},            {"budget=100", "budget=100\ncost=3", 1, 25}};
    expect_faults(faults, sizeof faults / sizeof faults[0]);
}

/* Where the text ends, and lines after costs. */
static void test_lines_of_costs(void) {
    uint8_t *record = block(PLANNER_RECORD_SIZE, AROUND);
    expect_refusal("an end where a cost may stand", read_into(cut_after("need=0:1"), record, PLANNER_RECORD_SIZE), 1, 9);
    expect_refusal("and after a line break", read_into(cut_after("need=0:1\n"), record, PLANNER_RECORD_SIZE), 1, 9);
    const char *ends = with_costs(cut_after("need=0:1\n"), (int[]){2, 3});
    expect_refusal("an end after a cost", read_into(ends, record, PLANNER_RECORD_SIZE), 1, 11);
    const char *lower = with_costs(changed("limit=32", "limit=256"), (int[]){1, 0, 3, 4});
    expect_refusal("each cost is a line", read_into(lower, record, PLANNER_RECORD_SIZE), 3, 26);
    expect_true("a refused text writes nothing", all_bytes(record, PLANNER_RECORD_SIZE, AROUND));
}

/* -- Records and states --------------------------------------------------------------------------------------------------------------- */

static void test_checks(void) {
    uint8_t *record = record_of(sample);
    expect("a state", planner_check_state(record, PLANNER_RECORD_SIZE, state_of(3, 1), 16), 0, 0, 0, 0, 0);
    expect_refusal("a value as high as its size", planner_check_state(record, PLANNER_RECORD_SIZE, state_of(0, 2), 16), 10, 1);
    expect_refusal("a short state", planner_check_state(record, PLANNER_RECORD_SIZE, state_of(0, 0), 15), 10, 16);
    expect_refusal("a null state", planner_check_state(record, PLANNER_RECORD_SIZE, NULL, 0), 10, 16);
    expect_refusal("a null record", planner_check_record(NULL, 0), 5, 0);
    expect_refusal("a short record", planner_check_record(record, 100), 5, 100);
    record[6] = 255;
    expect_refusal("a budget too high", planner_check_record(record, PLANNER_RECORD_SIZE), 6, 4);
    expect_refusal("6 goes before 10", planner_check_state(record, PLANNER_RECORD_SIZE, NULL, 0), 6, 4);
    expect_refusal("6 of the verdict", planner_additive(record, PLANNER_RECORD_SIZE), 6, 4);
    expect_refusal("6 of a build", planner_build_tables(record, PLANNER_RECORD_SIZE, NULL, 0), 6, 4);
    expect_refusal("6 of a spread", planner_spread(record, PLANNER_RECORD_SIZE, 0, NULL, 0, NULL, 0), 6, 4);
    expect_refusal("6 of a value", planner_value(record, PLANNER_RECORD_SIZE, NULL, 0, NULL, 0), 6, 4);
    expect_refusal("6 of a search", planner_search(record, PLANNER_RECORD_SIZE, NULL, 0, NULL, 0), 6, 4);
    expect_refusal("6 of a plan's check", planner_check_plan(record, PLANNER_RECORD_SIZE, NULL, 0, NULL, 0), 6, 4);
}

/* A record without its costs, or with some of them: 5 comes first in every call. */
static void test_short_records(void) {
    static uint8_t whole[PLANNER_RECORD_SIZE];
    memcpy(whole, record_of(sample), sizeof whole);
    for (size_t length = PLANNER_FIRST_RECORD_SIZE; length < PLANNER_RECORD_SIZE; length++) {
        uint8_t *record = memcpy(block(length, 0), whole, length);
        expect_refusal("a short record", planner_check_record(record, length), 5, length);
        expect_refusal("5 of a state", planner_check_state(record, length, NULL, 0), 5, length);
        expect_refusal("5 of the verdict", planner_additive(record, length), 5, length);
        expect_refusal("5 of a build", planner_build_tables(record, length, NULL, 0), 5, length);
        expect_refusal("5 of a spread", planner_spread(record, length, 0, NULL, 0, NULL, 0), 5, length);
        expect_refusal("5 of a value", planner_value(record, length, NULL, 0, NULL, 0), 5, length);
        expect_refusal("5 of a search", planner_search(record, length, NULL, 0, NULL, 0), 5, length);
        expect_refusal("5 of a plan's check", planner_check_plan(record, length, NULL, 0, NULL, 0), 5, length);
        expect_refusal("5 of the reader", read_into(sample, record, length), 5, length);
        expect_true("a refused text writes nothing", !memcmp(record, whole, length));
    }
}

/* Each cost cell of the sample, with some values that it may not have and one that it may. */
static void test_cost_cells(void) {
    for (size_t m = 0; m < MOST_MOVES; m++) {
        uint8_t *record = record_of(sample);
        record[COSTS + m] = m < 4 ? 0 : 1;
        expect_refusal("a cost outside its rule", planner_check_record(record, PLANNER_RECORD_SIZE), 6, COSTS + m);
        record[COSTS + m] = m < 4 ? 0 : 255;
        expect_refusal("a cost outside its rule", planner_check_record(record, PLANNER_RECORD_SIZE), 6, COSTS + m);
        record[COSTS + MOST_MOVES - 1] = 9;
        expect_refusal("the lowest cost counts", planner_check_record(record, PLANNER_RECORD_SIZE), 6, COSTS + m);
        record[COSTS - 1] = 0;
        expect_refusal("a move's cell before a cost", planner_check_record(record, PLANNER_RECORD_SIZE), 6, COSTS - 1);
        record[3] = 255;
        record[6] = 255;
        expect_refusal("the budget before a cost", planner_check_record(record, PLANNER_RECORD_SIZE), 6, 4);
    }
    uint8_t *record = record_of(sample);
    memset(record + COSTS, 255, 4);
    record[3] = 255;
    expect("the highest limit and costs", planner_check_record(record, PLANNER_RECORD_SIZE), 0, 0, 0, 0, 0);
    record[1] = 3;
    expect_refusal("the cells of a move more", planner_check_record(record, PLANNER_RECORD_SIZE), 6, 184 + 3 * 145);
}

/* Every slice null. */
static void test_null(void) {
    expect_refusal("nothing read", planner_read_text(NULL, 0, NULL, 0), 5, 0);
    expect_refusal("nothing lengthened", planner_upgrade_record(NULL, 0, NULL, 0), 5, 0);
    expect_refusal("no state", planner_check_state(NULL, 0, NULL, 0), 5, 0);
    expect_refusal("no build", planner_build_tables(NULL, 0, NULL, 0), 5, 0);
    expect_refusal("no spread", planner_spread(NULL, 0, 0, NULL, 0, NULL, 0), 5, 0);
    expect_refusal("no verdict", planner_additive(NULL, 0), 5, 0);
    expect_refusal("no value", planner_value(NULL, 0, NULL, 0, NULL, 0), 5, 0);
    expect_refusal("no search", planner_search(NULL, 0, NULL, 0, NULL, 0), 5, 0);
    expect_refusal("no plan", planner_check_plan(NULL, 0, NULL, 0, NULL, 0), 5, 0);
}

/* -- Stored records of the first form ------------------------------------------------------------------------------------------------- */

/* The bytes of a record before its costs, as they were stored, in a slice of some length; what stands after them has no meaning. */
static uint8_t *stored(const uint8_t *record, size_t length) {
    uint8_t *old = block(length, AROUND);
    return memcpy(old, record, length < PLANNER_FIRST_RECORD_SIZE ? length : PLANNER_FIRST_RECORD_SIZE);
}

/* The stored form becomes what is read from the text without costs, and what stands behind the target stays. */
static void expect_upgrade(const char *what, const uint8_t *record, size_t length, size_t room, const uint8_t *want) {
    uint8_t *old = stored(record, length), *same = stored(record, length), *target = block(room, AROUND);
    expect(what, planner_upgrade_record(old, length, target, room), 0, 0, 0, 0, 0);
    expect_true(what, !memcmp(target, want, PLANNER_RECORD_SIZE));
    expect_true("nothing after the target", all_bytes(target + PLANNER_RECORD_SIZE, room - PLANNER_RECORD_SIZE, AROUND));
    expect_true("the stored record stays", !memcmp(old, same, length));
    expect("a lengthened record", planner_check_record(target, room), 0, 0, 0, 0, 0);
}

static void test_upgrade(void) {
    static const planner_entry built[] = {3, 2, 0, 1, 1, 0};
    uint8_t *plain = record_of(sample), *dear = record_of(with_costs(sample, (int[]){255, 3, 2, 77}));
    expect_upgrade("lengthened", plain, PLANNER_FIRST_RECORD_SIZE, PLANNER_RECORD_SIZE, plain);
    expect_upgrade("a longer stored record", plain, PLANNER_FIRST_RECORD_SIZE + 1, PLANNER_RECORD_SIZE + 1, plain);
    expect_upgrade("as long as a record is now", plain, PLANNER_RECORD_SIZE, PLANNER_RECORD_SIZE + 100, plain);
    uint8_t *target = block(PLANNER_RECORD_SIZE, AROUND), *state = memcpy(block(16, 0), plain + PLANNER_START, 16), *plan = block(9, 0);
    expect("costs are not kept", planner_upgrade_record(dear, PLANNER_RECORD_SIZE, target, PLANNER_RECORD_SIZE), 0, 0, 0, 0, 0);
    expect_true("each move costs 1", !memcmp(target, plain, PLANNER_RECORD_SIZE));
    planner_entry *tables = block(sizeof built, AROUND);
    expect("a search of it", planner_search(target, PLANNER_RECORD_SIZE, tables, 6, plan, 9), 0, 0, 4, 7, 7);
    expect_true("its tables", !memcmp(tables, built, sizeof built));
    expect("its value", planner_value(target, PLANNER_RECORD_SIZE, state, 16, tables, 6), 0, 0, 4, 0, 0);
    expect("its plan", planner_check_plan(target, PLANNER_RECORD_SIZE, state, 16, plan, 7), 0, 0, 4, 7, 0);
    for (int moves = 0; moves <= MOST_MOVES; moves += MOST_MOVES) {
        uint8_t *idle = record_of(idle_text(moves));
        expect_upgrade("no move, or as many as may be", idle, PLANNER_FIRST_RECORD_SIZE, PLANNER_RECORD_SIZE, idle);
        expect_true("costs up to M", all_bytes(idle + COSTS, (size_t)moves, 1));
    }
}

static void expect_refused_upgrade(const char *what, const uint8_t *record, size_t length, size_t room, uint64_t number, uint64_t second) {
    uint8_t *old = stored(record, length), *target = block(room, AROUND);
    expect_refusal(what, planner_upgrade_record(old, length, target, room), number, second);
    expect_true("a refused record is not written", all_bytes(target, room, AROUND));
}

/* Each refusal where all that come after it would be due as well, and where none would. */
static void test_refused_upgrades(void) {
    static uint8_t sound[PLANNER_RECORD_SIZE], faulty[PLANNER_RECORD_SIZE];
    size_t first = PLANNER_FIRST_RECORD_SIZE;
    memcpy(sound, record_of(sample), sizeof sound);
    memcpy(faulty, sound, sizeof faulty);
    faulty[3] = 33;
    expect_refused_upgrade("5 of the stored record", faulty, first - 1, PLANNER_RECORD_SIZE - 1, 5, first - 1);
    expect_refused_upgrade("5 of it alone", sound, first - 1, PLANNER_RECORD_SIZE, 5, first - 1);
    expect_refused_upgrade("nothing stored", sound, 0, PLANNER_RECORD_SIZE, 5, 0);
    expect_refused_upgrade("6 goes before 5 of the target", faulty, first, PLANNER_RECORD_SIZE - 1, 6, 3);
    expect_refused_upgrade("6 goes before 5 of no target", faulty, first, 0, 6, 3);
    expect_refused_upgrade("6 alone", faulty, first, PLANNER_RECORD_SIZE, 6, 3);
    for (size_t room = first - 1; room < PLANNER_RECORD_SIZE; room++)
        expect_refused_upgrade("5 of the target", sound, room > first ? room : first, room, 5, room);
    expect_refused_upgrade("5 of an empty target", sound, first, 0, 5, 0);
    expect_refusal("5 of a null target", planner_upgrade_record(stored(sound, first), first, NULL, 0), 5, 0);
    static const struct {
        size_t at;
        uint8_t value;
        uint64_t told;
    } cells[] = {{0, 0, 0},   {1, 65, 1},  {2, 9, 2},   {3, 255, 3}, {6, 255, 4},   {7, 1, 4},     {8, 1, 8},     {10, 2, 10},
                 {24, 4, 24}, {26, 0, 26}, {40, 4, 40}, {55, 0, 55}, {40, 255, 40}, {56, 2, 56},   {58, 1, 58},   {88, 1, 88},
                 {184, 0, 184}, {184, 9, 184}, {185, 4, 185}, {217, 0, 217}, {764, 1, 764}, {9463, 0, 9463}};
    for (size_t i = 0; i < sizeof cells / sizeof cells[0]; i++) {
        uint8_t *record = record_of(sample);
        record[cells[i].at] = cells[i].value;
        expect_refused_upgrade("6 of a stored record", record, first, PLANNER_RECORD_SIZE, 6, cells[i].told);
        record[9463] = 1;
        expect_refused_upgrade("the lowest of two cells", record, first, PLANNER_RECORD_SIZE, 6, cells[i].told);
    }
}

/* -- Tables and values ---------------------------------------------------------------------------------------------------------------- */

static void expect_tables(const char *what, const char *text, const planner_entry want[6]) {
    uint8_t *record = record_of(text);
    planner_entry *tables = block(8 * sizeof *tables, AROUND);
    expect(what, planner_build_tables(record, PLANNER_RECORD_SIZE, tables, 8), 0, 0, 6, 0, 0);
    expect_true(what, !memcmp(tables, want, 6 * sizeof *tables));
    expect_true("entries after the last stay untouched", all_bytes((uint8_t *)(tables + 6), 2 * sizeof *tables, AROUND));
}

static void test_tables(void) {
    static const planner_entry built[] = {3, 2, 0, 1, 1, 0}, lost[] = {4294967295u, 4294967295u, 0, 1, 1, 0};
    static const planner_entry dear[] = {5, 4, 0, 1, 1, 0}, dearest[] = {765, 510, 0, 255, 255, 0}, each[] = {410, 400, 0, 200, 7, 0};
    expect_tables("the sample's tables", sample, built);
    expect_tables("a lift that may fall back", changed("eff=0:3", "eff=0:0"), lost);
    expect_tables("a cost of 3 at move 1", with_costs(sample, (int[]){0, 3, 0, 0}), dear);
    expect_tables("every move as dear as may be", with_costs(sample, (int[]){255, 255, 255, 255}), dearest);
    expect_tables("a cost for each", with_costs(sample, (int[]){10, 200, 200, 7}), each);
    expect_tables("dear moves that lead nowhere", with_costs(changed("eff=0:3", "eff=0:0"), (int[]){255, 255, 0, 0}), lost);
    uint8_t *record = record_of(sample);
    planner_entry *tables = block(5 * sizeof *tables, AROUND);
    expect_refusal("tables too short", planner_build_tables(record, PLANNER_RECORD_SIZE, tables, 5), 8, 6);
    expect_true("a refused build writes nothing", all_bytes((uint8_t *)tables, 5 * sizeof *tables, AROUND));
    expect("additive", planner_additive(record, PLANNER_RECORD_SIZE), 0, 0, 0, 0, 0);
}

static void test_values(void) {
    planner_entry built[] = {3, 2, 0, 1, 1, 0}, *tables = block(sizeof built, 0);
    memcpy(tables, built, sizeof built);
    uint8_t *record = record_of(sample);
    expect("the start's value", planner_value(record, PLANNER_RECORD_SIZE, state_of(0, 0), 16, tables, 6), 0, 0, 4, 0, 0);
    expect("a goal's value", planner_value(record, PLANNER_RECORD_SIZE, state_of(2, 1), 16, tables, 6), 0, 0, 0, 0, 0);
    expect_refusal("8 goes before 10", planner_value(record, PLANNER_RECORD_SIZE, NULL, 0, tables, 5), 8, 6);
    expect_refusal("10", planner_value(record, PLANNER_RECORD_SIZE, state_of(4, 0), 16, tables, 6), 10, 0);
    tables[0] = PLANNER_INFINITE;
    expect("an infinite value", planner_value(record, PLANNER_RECORD_SIZE, state_of(0, 0), 16, tables, 6), 0, 1, 0, 0, 0);
    tables[0] = PLANNER_INFINITE - 1;
    expect("any tables", planner_value(record, PLANNER_RECORD_SIZE, state_of(0, 0), 16, tables, 6), 0, 0, 4294967295u, 0, 0);
    tables[4] = PLANNER_INFINITE - 1;
    expect("a sum above 32 bits", planner_value(record, PLANNER_RECORD_SIZE, state_of(0, 0), 16, tables, 6), 0, 0, 8589934588u, 0, 0);
    tables[0] = 65535;
    tables[4] = 65536;
    expect("no entry of 16 bits", planner_value(record, PLANNER_RECORD_SIZE, state_of(0, 0), 16, tables, 6), 0, 0, 131071, 0, 0);
    uint8_t *both = record_of(changed("eff=1:1", "eff=0:2,1:1"));
    expect("a conflict", planner_additive(both, PLANNER_RECORD_SIZE), 0, 1, 3, 0, 1);
    expect_refusal("9 goes before 10", planner_value(both, PLANNER_RECORD_SIZE, NULL, 0, tables, 6), 9, 3);
}

/* -- Values that are restated --------------------------------------------------------------------------------------------------------- */

/* The sample with this need and these outcomes of move 1, which carries the pallet from the lift to bay or edge. */
static uint8_t *with_move_1(const char *lines) {
    return record_of(changed("need=0:1\noutcomes=2\neff=0:2\neff=0:3", lines));
}

/* What a move writes down of its own need does not touch: the answers are those of the sample. */
static void expect_restated(const char *what, const char *lines) {
    static const planner_entry built[] = {3, 2, 0, 1, 1, 0};
    uint8_t *record = with_move_1(lines);
    planner_entry *tables = block(sizeof built, AROUND);
    uint8_t *plan = block(9, AROUND);
    expect(what, planner_additive(record, PLANNER_RECORD_SIZE), 0, 0, 0, 0, 0);
    expect(what, planner_search(record, PLANNER_RECORD_SIZE, tables, 6, plan, 9), 0, 0, 4, 7, 7);
    expect_true("the plan with a restated value", !memcmp(plan, sample_plan, 7) && all_bytes(plan + 7, 2, PLANNER_NO_BYTE));
    expect_true("the tables with a restated value", !memcmp(tables, built, sizeof built));
    expect(what, planner_value(record, PLANNER_RECORD_SIZE, state_of(0, 0), 16, tables, 6), 0, 0, 4, 0, 0);
    expect(what, planner_check_plan(record, PLANNER_RECORD_SIZE, state_of(0, 0), 16, plan, 7), 0, 0, 4, 7, 0);
}

/* Any other value does, so move 1 touches patterns 0 and 1. */
static void expect_conflict_at_1(const char *what, const char *lines) {
    uint8_t *record = with_move_1(lines);
    planner_entry *tables = block(6 * sizeof *tables, AROUND);
    uint8_t *plan = block(9, AROUND);
    expect(what, planner_additive(record, PLANNER_RECORD_SIZE), 0, 1, 1, 0, 1);
    expect_refusal(what, planner_search(record, PLANNER_RECORD_SIZE, tables, 6, plan, 9), 9, 1);
    expect_refusal(what, planner_value(record, PLANNER_RECORD_SIZE, state_of(0, 0), 16, tables, 6), 9, 1);
    expect_true("a refused search writes nothing", all_bytes(plan, 9, AROUND) && all_bytes((uint8_t *)tables, 24, AROUND));
}

static void test_restated(void) {
    expect_restated("a restated value", "need=0:1,1:0\noutcomes=2\neff=0:2,1:0\neff=0:3");
    expect_restated("a value restated twice", "need=0:1,1:0\noutcomes=2\neff=0:2,1:0\neff=0:3,1:0");
    expect_conflict_at_1("another value", "need=0:1,1:0\noutcomes=2\neff=0:2,1:1\neff=0:3");
    expect_conflict_at_1("a restated value, then another", "need=0:1,1:0\noutcomes=2\neff=0:2,1:0\neff=0:3,1:1");
    expect_conflict_at_1("another value, then a restated one", "need=0:1,1:0\noutcomes=2\neff=0:2,1:1\neff=0:3,1:0");
    expect_conflict_at_1("the need of another move", "need=0:1\noutcomes=2\neff=0:2,1:0\neff=0:3");
    /* Move 1 restates, move 3 does not. */
    uint8_t *later = record_of(
        changed("need=0:1\noutcomes=2\neff=0:2\neff=0:3\nneed=0:3\noutcomes=1\neff=0:2\nneed=1:0\noutcomes=1\neff=1:1",
                "need=0:1,1:0\noutcomes=2\neff=0:2,1:0\neff=0:3\nneed=0:3\noutcomes=1\neff=0:2\nneed=1:0\noutcomes=1\neff=0:2,1:1"));
    expect("the lowest move that touches two", planner_additive(later, PLANNER_RECORD_SIZE), 0, 1, 3, 0, 1);
}

/* A record of `variables` variables of `size` with one pattern of them all. */
static uint8_t *wide_record(int variables, int size) {
    static char text[1024], all[64], start[64];
    all[0] = start[0] = 0;
    for (int v = 0; v < variables; v++) {
        sprintf(all + strlen(all), v ? ",%d" : "%d", v);
        strcat(start, v ? ",0" : "0");
    }
    int length = sprintf(text, "vars=%d\n", variables);
    for (int v = 0; v < variables; v++) length += sprintf(text + length, "size=%d\n", size);
    sprintf(text + length, "moves=0\ngoal=\nstart=%s\npatterns=1\npattern=%s\nlimit=0\nbudget=1", start, all);
    return record_of(text);
}

static void test_wide_patterns(void) {
    planner_entry *tables = block(ENTRIES * sizeof *tables, AROUND);
    expect("twelve variables", planner_build_tables(wide_record(12, 2), PLANNER_RECORD_SIZE, tables, ENTRIES), 0, 0, 4096, 0, 0);
    expect_refusal("thirteen", planner_build_tables(wide_record(13, 2), PLANNER_RECORD_SIZE, tables, ENTRIES), 7, 0);
    expect_refusal("sixteen of 16", planner_build_tables(wide_record(16, 16), PLANNER_RECORD_SIZE, tables, ENTRIES), 7, 0);
    expect_refusal("7 goes before 8", planner_build_tables(wide_record(16, 16), PLANNER_RECORD_SIZE, tables, 0), 7, 0);
}

/* -- Spreads -------------------------------------------------------------------------------------------------------------------------- */

/* What is lent in front of a row, so that a write there is seen. */
#define ROW_FRONT 4

/* A row of this length, up to the end of its block. It lives until the next one is lent, since rows are long. */
static uint32_t *lent_row(size_t counts) {
    static uint32_t *lent;
    size_t bytes = (ROW_FRONT + counts) * sizeof *lent;
    free(lent);
    lent = malloc(bytes);
    if (!lent) exit(2);
    memset(lent, AROUND, bytes);
    return lent + ROW_FRONT;
}

/* Whether a row counts each of these entries once, nothing else, and has around its counts what was lent. It takes their counts out. */
static int row_holds(uint32_t *row, size_t length, const planner_entry *entries, size_t states) {
    for (size_t i = 0; i < states; i++) {
        if (entries[i] != PLANNER_INFINITE && entries[i] > PLANNER_MOST_COST) return 0;
        row[entries[i] == PLANNER_INFINITE ? PLANNER_ROW_INFINITE : entries[i]]--;
    }
    return all_bytes((uint8_t *)row, PLANNER_ROW_SIZE * sizeof *row, 0) &&
           all_bytes((uint8_t *)(row - ROW_FRONT), ROW_FRONT * sizeof *row, AROUND) &&
           all_bytes((uint8_t *)(row + PLANNER_ROW_SIZE), (length - PLANNER_ROW_SIZE) * sizeof *row, AROUND);
}

/* A spread of the sample or of a tower like it, whose pattern has these entries. */
static void expect_spread(const char *what, const char *text, uint64_t pattern, size_t length, size_t states,
                          const planner_entry *entries) {
    uint8_t *record = record_of(text);
    planner_entry *tables = block(8 * sizeof *tables, AROUND), *built = block(8 * sizeof *built, AROUND);
    uint32_t *row = lent_row(length);
    expect(what, planner_build_tables(record, PLANNER_RECORD_SIZE, built, 8), 0, 0, 6, 0, 0);
    expect(what, planner_spread(record, PLANNER_RECORD_SIZE, pattern, tables, 8, row, length), 0, 0, states, 0, 0);
    expect_true("a spread leaves the tables as a build does", !memcmp(tables, built, 8 * sizeof *tables));
    expect_true(what, row_holds(row, length, entries, states));
}

static void test_spreads(void) {
    static const planner_entry pallet[] = {3, 2, 0, 1}, door[] = {1, 0}, lost[] = {PLANNER_INFINITE, PLANNER_INFINITE, 0, 1};
    static const planner_entry dear[] = {5, 4, 0, 1}, equal[] = {510, 255, 0, 255};
    expect_spread("the pallet's spread", sample, 0, PLANNER_ROW_SIZE, 4, pallet);
    expect_spread("the door's spread", sample, 1, PLANNER_ROW_SIZE, 2, door);
    expect_spread("a longer row", sample, 0, PLANNER_ROW_SIZE + 3, 4, pallet);
    expect_spread("a lift that may fall back", changed("eff=0:3", "eff=0:0"), 0, PLANNER_ROW_SIZE, 4, lost);
    expect_spread("a cost of 3 at move 1", with_costs(sample, (int[]){0, 3, 0, 0}), 0, PLANNER_ROW_SIZE, 4, dear);
    expect_spread("a dear move elsewhere", with_costs(sample, (int[]){0, 3, 0, 0}), 1, PLANNER_ROW_SIZE + 1, 2, door);
    expect_spread("a value twice", with_costs(changed("eff=0:3", "eff=0:2"), (int[]){255, 255, 255, 9}), 0, PLANNER_ROW_SIZE, 4, equal);
    static const uint64_t none[] = {2, 3, 8, 255, 256, 257, 65536, 1ull << 32, (1ull << 32) + 1, 1ull << 63, UINT64_MAX};
    for (size_t i = 0; i < sizeof none / sizeof none[0]; i++) expect_spread("no pattern", sample, none[i], PLANNER_ROW_SIZE + 1, 0, NULL);
    uint8_t *record = record_of(changed("patterns=2\npattern=0\npattern=1", "patterns=0"));
    uint32_t *row = lent_row(PLANNER_ROW_SIZE);
    expect("no patterns", planner_spread(record, PLANNER_RECORD_SIZE, 0, NULL, 0, row, PLANNER_ROW_SIZE), 0, 0, 0, 0, 0);
    expect_true("no states", row_holds(row, PLANNER_ROW_SIZE, NULL, 0));
}

static void expect_refused_spread(const char *what, const uint8_t *record, size_t record_length, size_t entries, size_t counts,
                                  uint64_t number, uint64_t second) {
    planner_entry *tables = block(entries * sizeof *tables, AROUND);
    uint32_t *row = lent_row(counts);
    expect_refusal(what, planner_spread(record, record_length, 0, tables, entries, row, counts), number, second);
    expect_true("a refused spread builds nothing", all_bytes((uint8_t *)tables, entries * sizeof *tables, AROUND));
    expect_true("a refused spread counts nothing", all_bytes((uint8_t *)(row - ROW_FRONT), (ROW_FRONT + counts) * sizeof *row, AROUND));
}

/* Each refusal where all that come after it would be due as well, and where none would. */
static void test_refused_spreads(void) {
    uint8_t *sound = record_of(sample), *faulty = record_of(sample), *wide = wide_record(13, 2);
    faulty[6] = 255;
    expect_refused_spread("5 of a spread", faulty, PLANNER_RECORD_SIZE - 1, 5, 9, 5, PLANNER_RECORD_SIZE - 1);
    expect_refused_spread("5 alone", sound, PLANNER_RECORD_SIZE - 1, 6, PLANNER_ROW_SIZE, 5, PLANNER_RECORD_SIZE - 1);
    expect_refused_spread("6 goes before 8 and 18", faulty, PLANNER_RECORD_SIZE, 5, 9, 6, 4);
    expect_refused_spread("6 alone", faulty, PLANNER_RECORD_SIZE, 6, PLANNER_ROW_SIZE, 6, 4);
    expect_refused_spread("7 goes before 8 and 18", wide, PLANNER_RECORD_SIZE, 0, 0, 7, 0);
    expect_refused_spread("7 goes before 18", wide, PLANNER_RECORD_SIZE, ENTRIES, 9, 7, 0);
    expect_refused_spread("7 alone", wide, PLANNER_RECORD_SIZE, ENTRIES, PLANNER_ROW_SIZE, 7, 0);
    expect_refused_spread("8 goes before 18", sound, PLANNER_RECORD_SIZE, 5, PLANNER_ROW_SIZE - 1, 8, 6);
    expect_refused_spread("8 alone", sound, PLANNER_RECORD_SIZE, 5, PLANNER_ROW_SIZE, 8, 6);
    expect_refused_spread("18", sound, PLANNER_RECORD_SIZE, 6, PLANNER_ROW_SIZE - 1, 18, PLANNER_ROW_SIZE - 1);
    expect_refused_spread("18 of a row for costs of 1", sound, PLANNER_RECORD_SIZE, 6, 4097, 18, 4097);
    expect_refused_spread("18 of no row", sound, PLANNER_RECORD_SIZE, 8, 0, 18, 0);
    expect_refusal("18 of a null row", planner_spread(sound, PLANNER_RECORD_SIZE, 9, block(24, 0), 6, NULL, 0), 18, 0);
}

/* Appends variables 0 to `last`: those below it with one value, itself with another. */
static char *counter_pairs(char *at, const char *key, int last, int below, int own) {
    at += sprintf(at, "%s=", key);
    for (int v = 0; v < last; v++) at += sprintf(at, "%d:%d,", v, below);
    return at + sprintf(at, "%d:%d\n", last, own);
}

/* Twelve variables that count up to 4095: the table has every multiple of the cost from 0 to 4095 times it once. */
static void test_deepest_spread(int cost) {
    static char text[8192];
    static planner_entry entries[4096];
    char *at = text + sprintf(text, "vars=12\n");
    for (int v = 0; v < 12; v++) at += sprintf(at, "size=2\n");
    at += sprintf(at, "moves=12\n");
    for (int v = 0; v < 12; v++) {
        at = counter_pairs(at, "need", v, 1, 0);
        at += sprintf(at, "cost=%d\noutcomes=1\n", cost);
        at = counter_pairs(at, "eff", v, 0, 1);
    }
    at = counter_pairs(at, "goal", 11, 1, 1);
    sprintf(at, "start=0,0,0,0,0,0,0,0,0,0,0,0\npatterns=1\npattern=0,1,2,3,4,5,6,7,8,9,10,11\nlimit=0\nbudget=1");
    planner_entry *tables = block(sizeof entries, AROUND);
    uint32_t *row = lent_row(PLANNER_ROW_SIZE);
    for (size_t i = 0; i < 4096; i++) entries[i] = (planner_entry)((4095 - i) * (size_t)cost);
    uint8_t *record = record_of(text);
    expect("the deepest table", planner_spread(record, PLANNER_RECORD_SIZE, 0, tables, 4096, row, PLANNER_ROW_SIZE), 0, 0, 4096, 0, 0);
    expect_true("the entries of a counter", !memcmp(tables, entries, sizeof entries));
    expect_true("every value once", row_holds(row, PLANNER_ROW_SIZE, entries, 4096));
}

/* -- Searches ------------------------------------------------------------------------------------------------------------------------- */

static struct planner_answer search_text(const char *text, planner_entry *tables, size_t entries, uint8_t *plan, size_t room) {
    return planner_search(record_of(text), PLANNER_RECORD_SIZE, tables, entries, plan, room);
}

/* The sample or a tower like it, in buffers of every length. Its plan is the sample's. */
static void expect_found(const char *text, const planner_entry built[6], uint64_t cost) {
    for (size_t room = 0; room <= 9; room++) {
        planner_entry *tables = block(8 * sizeof *tables, AROUND);
        uint8_t *plan = block(room, AROUND);
        struct planner_answer got = search_text(text, tables, 8, plan, room);
        size_t length = room < 7 ? 0 : 7;
        if (room < 7) expect_refusal("a buffer too short", got, 11, 7);
        else expect("found", got, 0, 0, cost, 7, 7);
        expect_true("the plan", !memcmp(plan, sample_plan, length));
        expect_true("255 after it", all_bytes(plan + length, room - length, PLANNER_NO_BYTE));
        expect_true("the tables of a search", !memcmp(tables, built, 6 * sizeof *tables));
        expect_true("entries after the last stay untouched", all_bytes((uint8_t *)(tables + 6), 2 * sizeof *tables, AROUND));
    }
}

static void test_found(void) {
    static const planner_entry built[] = {3, 2, 0, 1, 1, 0}, dear[] = {5, 4, 0, 1, 1, 0};
    expect_found(sample, built, 4);
    expect_found(with_costs(sample, (int[]){1, 1, 1, 1}), built, 4);
    expect_found(with_costs(sample, (int[]){0, 3, 0, 0}), dear, 6);
}

static void test_other_answers(void) {
    planner_entry *tables = block(6 * sizeof *tables, AROUND);
    uint8_t *plan = block(9, AROUND);
    expect("budget 7", search_text(changed("budget=100", "budget=7"), tables, 6, plan, 9), 0, 0, 4, 7, 7);
    expect("budget 6", search_text(changed("budget=100", "budget=6"), tables, 6, plan, 9), 0, 2, 4, 6, 0);
    expect_true("255 after spent", all_bytes(plan, 9, PLANNER_NO_BYTE));
    expect("limit 3", search_text(changed("limit=32", "limit=3"), tables, 6, plan, 9), 0, 1, 0, 0, 0);
    expect("no plan", search_text(changed("eff=0:3", "eff=0:0"), tables, 6, plan, 9), 0, 3, 0, 0, 0);
    expect("rounds", search_text(changed("patterns=2\npattern=0\npattern=1", "patterns=0"), tables, 6, plan, 9), 0, 0, 4, 31, 7);
    memset(plan, AROUND, 9);
    expect_refusal("not additive", search_text(changed("eff=1:1", "eff=0:2,1:1"), tables, 6, plan, 9), 9, 3);
    expect_refusal("tables too short", search_text(sample, tables, 5, plan, 9), 8, 6);
    expect_true("a refused search writes nothing", all_bytes(plan, 9, AROUND));
}

/* The sample with a cost of 3 at move 1 and something else changed. */
static void expect_dear(const char *from, const char *to, uint64_t kind, uint64_t first, uint64_t second, uint64_t third) {
    planner_entry *tables = block(6 * sizeof *tables, AROUND);
    uint8_t *plan = block(9, AROUND);
    const char *text = with_costs(changed(from, to), (int[]){0, 3, 0, 0});
    expect(to, search_text(text, tables, 6, plan, 9), 0, kind, first, second, third);
    expect_true("255 after the plan", all_bytes(plan + third, 9 - third, PLANNER_NO_BYTE));
}

/* One move, or none, from 0 to the goal. A move dearer than the depth left is not tried, but the state is examined. */
static void expect_one_move(const char *what, int cost, const char *patterns, int limit, int budget, uint64_t kind, uint64_t first,
                            uint64_t second, uint64_t third) {
    char text[256];
    planner_entry tables[2];
    uint8_t *plan = block(2, AROUND);
    sprintf(text, "vars=1\nsize=2\nmoves=1\nneed=0:0\ncost=%d\noutcomes=1\neff=0:1\ngoal=0:1\nstart=0\n%s\nlimit=%d\nbudget=%d", cost,
            patterns, limit, budget);
    expect(what, search_text(text, tables, 2, plan, 2), 0, kind, first, second, third);
    expect_true("its plan", third ? plan[0] == 0 && plan[1] == 254 : all_bytes(plan, 2, PLANNER_NO_BYTE));
}

/* Two ways from 0 to 3: move 0 with this cost, or moves 1 and 2, which cost 1 and 2. */
static void expect_two_ways(const char *what, int cost, uint64_t least, uint64_t count, uint64_t length) {
    static const uint8_t direct[] = {0, 254}, around[] = {1, 2, 254};
    char text[256];
    planner_entry tables[4];
    uint8_t *plan = block(3, AROUND);
    sprintf(text,
            "vars=1\nsize=4\nmoves=3\nneed=0:0\ncost=%d\noutcomes=1\neff=0:3\nneed=0:0\noutcomes=1\neff=0:1\nneed=0:1\ncost=2\noutcomes=1\n"
            "eff=0:3\ngoal=0:3\nstart=0\npatterns=1\npattern=0\nlimit=255\nbudget=100",
            cost);
    expect(what, search_text(text, tables, 4, plan, 3), 0, 0, least, count, length);
    expect_true(what, !memcmp(plan, length == 2 ? direct : around, length) && all_bytes(plan + length, 3 - length, PLANNER_NO_BYTE));
    expect_true(what, tables[0] == least && tables[1] == 2 && tables[2] == PLANNER_INFINITE && tables[3] == 0);
}

static void test_dear_searches(void) {
    expect_dear("limit=32", "limit=6", 0, 6, 7, 7);
    expect_dear("limit=32", "limit=5", 1, 0, 0, 0);
    expect_dear("budget=100", "budget=7", 0, 6, 7, 7);
    expect_dear("budget=100", "budget=6", 2, 6, 6, 0);
    expect_dear("budget=100", "budget=0", 2, 6, 0, 0);
    expect_dear("eff=0:3", "eff=0:0", 3, 0, 0, 0);
    expect_dear("patterns=2\npattern=0\npattern=1", "patterns=0", 0, 6, 41, 7);
    expect_one_move("the dearest move", 255, "patterns=1\npattern=0", 255, 100, 0, 255, 2, 2);
    expect_one_move("dearer than the limit", 255, "patterns=1\npattern=0", 254, 100, 1, 0, 0, 0);
    expect_one_move("a round for each cost", 255, "patterns=0", 255, 1000, 0, 255, 257, 2);
    expect_one_move("a round for each cost up to the limit", 255, "patterns=0", 254, 1000, 1, 0, 255, 0);
    expect_one_move("rounds up to the budget", 255, "patterns=0", 255, 100, 2, 100, 100, 0);
    expect_one_move("spent before the goal", 255, "patterns=0", 255, 256, 2, 255, 256, 0);
    expect_one_move("a cheap move", 1, "patterns=0", 255, 1000, 0, 1, 3, 2);
    expect_two_ways("the way around is cheaper", 4, 3, 3, 3);
    expect_two_ways("the lowest move of two that cost the same", 3, 3, 2, 2);
    expect_two_ways("the direct way is cheaper", 2, 2, 2, 2);
}

/* -- Plans ---------------------------------------------------------------------------------------------------------------------------- */

static struct planner_answer check_at_start(const uint8_t *plan, size_t length) {
    uint8_t *bytes = block(length, 0);
    memcpy(bytes, plan, length);
    return planner_check_plan(record_of(sample), PLANNER_RECORD_SIZE, state_of(0, 0), 16, bytes, length);
}

static void test_plans(void) {
    static const uint8_t no_goal[] = {254}, not_applying[] = {3, 3}, no_move[] = {4};
    expect("the sample's plan", check_at_start(sample_plan, 7), 0, 0, 4, 7, 0);
    expect_refusal("a plan that ends early", check_at_start(sample_plan, 4), 12, 4);
    expect_refusal("254 at no goal", check_at_start(no_goal, 1), 15, 0);
    expect_refusal("a move that does not apply", check_at_start(not_applying, 2), 14, 1);
    expect_refusal("a byte that is no move", check_at_start(no_move, 1), 13, 0);
    expect_refusal("a byte after the plan", check_at_start(sample_plan, 8), 16, 7);
}

/* Moves 0 and 1 from the start: one changes nothing, the other arrives. */
static void test_deep_plans(int cost) {
    char text[256];
    uint8_t turns[257] = {0};
    sprintf(text,
            "vars=1\nsize=2\nmoves=2\nneed=\ncost=%d\noutcomes=1\neff=\nneed=\ncost=%d\noutcomes=1\neff=0:1\ngoal=0:1\nstart=0\n"
            "patterns=0\nlimit=32\nbudget=1",
            cost, cost);
    uint8_t *record = record_of(text), *start = record + PLANNER_START;
    expect_refusal("a 256th move", planner_check_plan(record, PLANNER_RECORD_SIZE, start, 16, turns, 256), 17, 255);
    expect_refusal("no 256th move", planner_check_plan(record, PLANNER_RECORD_SIZE, start, 16, turns, 255), 12, 255);
    turns[255] = 1;
    turns[256] = 254;
    expect_refusal("a 256th move that arrives", planner_check_plan(record, PLANNER_RECORD_SIZE, start, 16, turns, 257), 17, 255);
    turns[254] = 1;
    turns[255] = 254;
    expect("255 moves", planner_check_plan(record, PLANNER_RECORD_SIZE, start, 16, turns, 256), 0, 0, 255 * (uint64_t)cost, 256, 0);
    turns[32] = 1;
    turns[33] = 254;
    expect("33 moves", planner_check_plan(record, PLANNER_RECORD_SIZE, start, 16, turns, 34), 0, 0, 33 * (uint64_t)cost, 34, 0);
}

/* Move 0 may lead to 1 or to 2. From one of them a dear move arrives, from the other two cheap ones. */
static void test_dearest_path(void) {
    static const uint8_t dear_first[] = {0, 1, 254, 2, 3, 254}, dear_last[] = {0, 2, 3, 254, 1, 254};
    static const char tower[] =
        "vars=1\nsize=5\nmoves=4\nneed=0:0\ncost=10\noutcomes=2\neff=0:%d\neff=0:%d\nneed=0:1\ncost=200\noutcomes=1\neff=0:4\nneed=0:2\n"
        "outcomes=1\neff=0:3\nneed=0:3\ncost=2\noutcomes=1\neff=0:4\ngoal=0:4\nstart=0\npatterns=1\npattern=0\nlimit=255\nbudget=100";
    for (int swapped = 0; swapped < 2; swapped++) {
        char text[sizeof tower];
        planner_entry tables[5];
        uint8_t plan[6];
        sprintf(text, tower, 1 + swapped, 2 - swapped);
        uint8_t *record = record_of(text);
        const uint8_t *want = swapped ? dear_last : dear_first;
        expect("the dearest path", planner_check_plan(record, PLANNER_RECORD_SIZE, record + PLANNER_START, 16, want, 6), 0, 0, 210, 6, 0);
        expect("its search", planner_search(record, PLANNER_RECORD_SIZE, tables, 5, plan, 6), 0, 0, 210, 6, 6);
        expect_true("its plan", !memcmp(plan, want, 6));
    }
}

/* -- Random towers -------------------------------------------------------------------------------------------------------------------- */

static uint64_t seed = 20261116;

/* xorshift64*: the same numbers everywhere. */
static uint32_t draw(uint32_t below) {
    seed ^= seed >> 12;
    seed ^= seed << 25;
    seed ^= seed >> 27;
    return (uint32_t)((seed * 2685821657736338717u) >> 33) % below;
}

/* Names some variables with a value, at random; the others have -1. */
static void draw_cells(int *cells, const int *sizes, int variables, uint32_t one_in) {
    for (int v = 0; v < variables; v++) cells[v] = draw(one_in) ? -1 : (int)draw((uint32_t)sizes[v]);
}

static char *write_pairs(char *at, const char *key, const int *cells, int variables) {
    int named = 0;
    at += sprintf(at, "%s=", key);
    for (int v = 0; v < variables; v++)
        if (cells[v] >= 0) at += sprintf(at, "%s%d:%d", named++ ? "," : "", v, cells[v]);
    return at + sprintf(at, "\n");
}

/* A move whose outcomes change one variable, or any; every third outcome restates what the need demands of the others. */
static char *write_move(char *at, const int *sizes, int variables) {
    int needs[6], cells[6], only = draw(8) ? (int)draw((uint32_t)variables) : -1, outcomes = 1 + (int)draw(3);
    draw_cells(needs, sizes, variables, 3);
    at = write_pairs(at, "need", needs, variables);
    at += sprintf(at, "outcomes=%d\n", outcomes);
    for (int k = 0; k < outcomes; k++) {
        draw_cells(cells, sizes, variables, only < 0 ? 3 : 1);
        int restates = !draw(3);
        for (int v = 0; v < variables; v++) {
            if (only >= 0 && v != only) cells[v] = -1;
            if (restates && cells[v] < 0) cells[v] = needs[v];
        }
        at = write_pairs(at, "eff", cells, variables);
    }
    return at;
}

/* The costs of a tower's moves: all 1, all the same, small, large, or any; in every other tower some lines are left out. */
static void draw_costs(int *costs) {
    uint32_t kind = draw(5), same = 1 + draw(255), some = draw(2);
    for (int m = 0; m < MOST_MOVES; m++) {
        uint32_t cost = kind == 0 ? 1 : kind == 1 ? same : kind == 2 ? 1 + draw(4) : kind == 3 ? 200 + draw(56) : 1 + draw(255);
        costs[m] = some && !draw(3) ? 0 : (int)cost;
    }
}

/* A tower with each variable in a pattern of its own, where moves name few variables, without costs. */
static const char *random_text(void) {
    static char text[16384];
    int sizes[6], goal[6], variables = 1 + (int)draw(6), moves = (int)draw(12);
    char *at = text + sprintf(text, "vars=%d\n", variables);
    for (int v = 0; v < variables; v++) at += sprintf(at, "size=%d\n", sizes[v] = 2 + (int)draw(3));
    at += sprintf(at, "moves=%d\n", moves);
    for (int m = 0; m < moves; m++) at = write_move(at, sizes, variables);
    draw_cells(goal, sizes, variables, 2);
    at = write_pairs(at, "goal", goal, variables);
    at += sprintf(at, "start=");
    for (int v = 0; v < variables; v++) at += sprintf(at, "%s%u", v ? "," : "", draw((uint32_t)sizes[v]));
    at += sprintf(at, "\npatterns=%d\n", variables);
    for (int v = 0; v < variables; v++) at += sprintf(at, "pattern=%d\n", v);
    sprintf(at, "limit=%u\nbudget=%u\n", draw(draw(2) ? 20 : 256), draw(4) ? 20000 : draw(50));
    return text;
}

/* Its costs are in the record, and 1 where the line was left out. Without them it is what its first form, as far as there is one, is
 * lengthened to. */
static void test_tower_records(const uint8_t *record, const char *text, const int *costs) {
    uint8_t *old = stored(record, PLANNER_FIRST_RECORD_SIZE), *longer = block(PLANNER_RECORD_SIZE, AROUND);
    int kept = 1;
    for (int m = 0; m < MOST_MOVES; m++) kept &= record[COSTS + m] == (m >= record[1] ? 0 : costs[m] ? costs[m] : 1);
    expect_true("a tower's costs", kept);
    struct planner_answer got = planner_upgrade_record(old, PLANNER_FIRST_RECORD_SIZE, longer, PLANNER_RECORD_SIZE);
    if (record[3] > 32) expect_refusal("a limit that the first form had not", got, 6, 3);
    else expect("a stored tower", got, 0, 0, 0, 0, 0);
    expect_true("a stored tower", record[3] > 32 ? all_bytes(longer, PLANNER_RECORD_SIZE, AROUND)
                                                 : !memcmp(longer, record_of(text), PLANNER_RECORD_SIZE));
}

/* The spread of every pattern of a tower, counted again from the tables of a build. Each pattern is one variable. */
static void test_tower_spreads(const uint8_t *record, const planner_entry *built) {
    planner_entry tables[24];
    for (size_t pattern = 0, from = 0; pattern < record[2]; pattern++) {
        size_t states = record[8 + pattern];
        uint32_t *row = lent_row(PLANNER_ROW_SIZE);
        expect("a tower's spread", planner_spread(record, PLANNER_RECORD_SIZE, pattern, tables, 24, row, PLANNER_ROW_SIZE), 0, 0, states, 0,
               0);
        expect_true("the counts of its entries", row_holds(row, PLANNER_ROW_SIZE, built + from, states));
        from += states;
    }
}

/* Whether an abstract state has the values that a need or a goal names. Values that the pattern leaves out are 255. */
static int meets(const uint8_t *cells, const uint8_t *values) {
    for (int v = 0; v < 16; v++)
        if (cells[v] != 255 && values[v] != 255 && cells[v] != values[v]) return 0;
    return 1;
}

/* Where a pattern's table has the state after an outcome, which may change nothing. */
static size_t index_after(const uint8_t *record, const uint8_t *values, const uint8_t *outcome) {
    size_t index = 0, weight = 1;
    for (int v = 0; v < record[0]; v++) {
        if (values[v] == 255) continue;
        index += weight * (outcome[v] == 255 ? values[v] : outcome[v]);
        weight *= record[8 + v];
    }
    return index;
}

/* "0 at a goal, infinite where nothing applies, else the least over applying moves of" the move's cost "plus the largest cost among its
 * outcomes". Since no move costs 0, one table alone has all its entries so. */
static uint64_t entry_by_definition(const uint8_t *record, const uint8_t *values, const planner_entry *table) {
    uint64_t least = PLANNER_INFINITE;
    if (meets(record + 24, values)) return 0;
    for (int m = 0; m < record[1]; m++) {
        const uint8_t *move = record + 184 + 145 * m;
        uint64_t largest = 0;
        if (!meets(move + 1, values)) continue;
        for (int k = 0; k < move[0]; k++) {
            uint64_t entry = table[index_after(record, values, move + 17 + 16 * k)];
            if (entry > largest) largest = entry;
        }
        if (largest != PLANNER_INFINITE && largest + record[COSTS + m] < least) least = largest + record[COSTS + m];
    }
    return least;
}

/* Whether a pattern's table is by the definition; the number of its states goes to the caller. */
static int table_by_definition(const uint8_t *record, const uint8_t *pattern, const planner_entry *table, size_t *states) {
    size_t count = 1;
    for (int v = 0; v < record[0]; v++)
        if (pattern[v]) count *= record[8 + v];
    *states = count;
    for (size_t index = 0; index < count; index++) {
        uint8_t values[16];
        size_t rest = index;
        memset(values, 255, sizeof values);
        for (int v = 0; v < record[0]; v++) {
            if (!pattern[v]) continue;
            values[v] = (uint8_t)(rest % record[8 + v]);
            rest /= record[8 + v];
        }
        if (table[index] != entry_by_definition(record, values, table)) return 0;
    }
    return 1;
}

static void test_tower_tables(const uint8_t *record, const planner_entry *built) {
    for (size_t pattern = 0, from = 0, states; pattern < record[2]; pattern++, from += states)
        expect_true("a tower's table", table_by_definition(record, record + 56 + 16 * pattern, built + from, &states));
}

/* What the exact cost of the start says of the answer of any search. */
static void expect_exact(struct planner_answer search, uint64_t cost, uint64_t limit) {
    if (search.number == 11) return;
    expect_true("a search answers", search.number == 0);
    if (search.kind == 0) expect_true("a found plan has the least cost", search.first == cost && cost <= limit);
    if (search.kind == 1) expect_true("over the limit", cost > limit);
    if (search.kind == 2) expect_true("spent in a round that no plan is below", search.first <= cost && search.first <= limit);
    if (search.kind == 3) expect_true("none where there is no plan", cost == PLANNER_INFINITE);
}

/* The same tower with one pattern of all variables: its table has the exact costs, which bound the answers of the tower's own search, and
 * of one without patterns, which begins with round 0. */
static void test_exact(const uint8_t *record, struct planner_answer search) {
    static planner_entry exact[4096];
    static uint8_t plan[PLAN_ROOM];
    uint8_t *all = memcpy(block(PLANNER_RECORD_SIZE, 0), record, PLANNER_RECORD_SIZE);
    size_t start = 0, states;
    memset(all + 56, 0, 8 * 16);
    memset(all + 56, 1, record[0]);
    all[2] = 1;
    struct planner_answer got = planner_search(all, PLANNER_RECORD_SIZE, exact, 4096, plan, sizeof plan);
    expect_true("the table of all variables", table_by_definition(all, all + 56, exact, &states));
    for (size_t v = 0, weight = 1; v < record[0]; weight *= record[8 + v], v++) start += weight * record[PLANNER_START + v];
    uint64_t cost = exact[start], limit = record[3];
    if (cost == PLANNER_INFINITE) expect("no plan, by the exact cost", got, 0, 3, 0, 0, 0);
    else if (cost > limit) expect("over, by the exact cost", got, 0, 1, 0, 0, 0);
    else if (got.number != 11) expect_true("found, or spent in the first round", got.number == 0 && got.kind % 2 == 0 && got.first == cost);
    expect_exact(search, cost, limit);
    memset(all + 56, 0, record[0]);
    all[2] = 0;
    all[4] = 2000 % 256;
    all[5] = 2000 / 256;
    struct planner_answer blind = planner_search(all, PLANNER_RECORD_SIZE, NULL, 0, plan, sizeof plan);
    expect_exact(blind, cost, limit);
    if (blind.number != 0 || blind.kind != 0) return;
    expect("its plan passes", planner_check_plan(record, PLANNER_RECORD_SIZE, record + PLANNER_START, 16, plan, blind.third), 0, 0, cost,
           blind.third, 0);
}

/* What the answers about one tower have to do with each other. A spread takes long, so few towers have theirs counted. */
static void test_tower(int counts[4], int spreads) {
    static uint8_t plan[PLAN_ROOM];
    planner_entry tables[24], built[24];
    int costs[MOST_MOVES];
    const char *text = random_text();
    draw_costs(costs);
    uint8_t *record = record_of(with_costs(text, costs));
    struct planner_answer verdict = planner_additive(record, PLANNER_RECORD_SIZE);
    struct planner_answer search = planner_search(record, PLANNER_RECORD_SIZE, tables, 24, plan, sizeof plan);
    struct planner_answer build = planner_build_tables(record, PLANNER_RECORD_SIZE, built, 24);
    struct planner_answer value = planner_value(record, PLANNER_RECORD_SIZE, record + 40, 16, built, 24);
    test_tower_records(record, text, costs);
    test_tower_tables(record, built);
    if (spreads) test_tower_spreads(record, built);
    if (verdict.kind == 1) {
        expect_refusal("a search of patterns that are not additive", search, 9, verdict.first);
        expect_refusal("their value", value, 9, verdict.first);
        return;
    }
    if (search.number == 11) return;
    expect_true("a search builds the tables", search.number == 0 && !memcmp(tables, built, build.first * sizeof *tables));
    expect_true("none where the value is infinite", (search.kind == 3) == (value.kind == 1));
    counts[search.kind]++;
    if (search.kind == 0) {
        expect_true("a plan costs at least the start's value", search.first >= value.first && search.first <= record[3]);
        expect("a found plan passes", planner_check_plan(record, PLANNER_RECORD_SIZE, record + 40, 16, plan, search.third), 0, 0,
               search.first, search.third, 0);
    }
    uint64_t budget = record[4] + 256u * record[5];
    if (search.kind == 2) expect_true("spent at the budget", search.second == budget && search.first >= value.first);
    test_exact(record, search);
}

static void test_towers(int towers) {
    int counts[4] = {0};
    for (int t = 0; t < towers; t++) test_tower(counts, t % 20 == 0);
    expect_true("every answer comes up", towers < 1000 || (counts[0] && counts[1] && counts[2] && counts[3]));
}

/* The stack that the tests need besides that of a call. */
#define OWN_STACK 65536

static void *test_all(void *towers) {
    test_reader();
    test_reader_refusals();
    test_costs();
    test_cost_refusals();
    test_lines_of_costs();
    test_checks();
    test_short_records();
    test_cost_cells();
    test_null();
    test_upgrade();
    test_refused_upgrades();
    test_tables();
    test_values();
    test_restated();
    test_wide_patterns();
    test_spreads();
    test_refused_spreads();
    test_deepest_spread(1);
    test_deepest_spread(255);
    test_found();
    test_other_answers();
    test_dear_searches();
    test_plans();
    test_deep_plans(1);
    test_deep_plans(255);
    test_dearest_path();
    test_towers(*(int *)towers);
    return NULL;
}

/* The tests run on a stack of the size that planner.h tells: a call that needs more ends the program. */
int main(int argc, char **argv) {
    int towers = argc > 1 ? atoi(argv[1]) : 3000;
    pthread_attr_t attributes;
    pthread_t tests;
    if (towers < 1) {
        fprintf(stderr, "usage: planner_test [TOWERS], 1 or more\n");
        return 2;
    }
    /* What failed is told even if a later call ends the program. */
    setvbuf(stdout, NULL, _IOLBF, BUFSIZ);
    if (pthread_attr_init(&attributes) || pthread_attr_setstacksize(&attributes, PLANNER_STACK + OWN_STACK)) return 2;
    if (pthread_create(&tests, &attributes, test_all, &towers) || pthread_join(tests, NULL)) return 2;
    printf("planner_test: %d comparisons, %d failures\n", comparisons, failures);
    return failures != 0;
}
