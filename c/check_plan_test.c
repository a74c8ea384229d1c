/* Tests planner_check_plan against the document's examples and against a plain check written here with a list of pending states.
 *
 *     check_plan_test [LEVELS]
 *
 * LEVELS (default 19) is the height of the tower whose random plans are long: about 2 to the power LEVELS arrivals. */
#include "planner.h"

#include <stdio.h>
#include <stdlib.h>
#include <string.h>

#define MOVE_SIZE 145
#define MAX_DEPTH 255
#define NONE 255

/* -- Records, by the layout of the document ------------------------------------------------------------------------------------------- */

static uint8_t *goal_of(uint8_t *record) { return record + 24; }
static uint8_t *start_of(uint8_t *record) { return record + 40; }
static uint8_t *pattern_of(uint8_t *record, int p) { return record + 56 + 16 * p; }
static uint8_t *move_of(uint8_t *record, int m) { return record + 184 + MOVE_SIZE * m; }
static uint8_t *need_of(uint8_t *record, int m) { return move_of(record, m) + 1; }
static uint8_t *outcome_of(uint8_t *record, int m, int k) { return move_of(record, m) + 17 + 16 * k; }
static uint8_t *cost_of(uint8_t *record, int m) { return record + 184 + MOVE_SIZE * 64 + m; }

/* A record without variables and moves: every cell unused. */
static void clear_record(uint8_t *record) {
    memset(record, NONE, PLANNER_RECORD_SIZE);
    memset(record, 0, 24);
    memset(pattern_of(record, 0), 0, 8 * 16);
    for (int m = 0; m < 64; m++) *move_of(record, m) = *cost_of(record, m) = 0;
    record[3] = 255;
    record[4] = 100;
}

static void add_variable(uint8_t *record, uint8_t size) {
    start_of(record)[record[0]] = 0;
    record[8 + record[0]++] = size;
}

/* A move with cost 1. */
static int add_move(uint8_t *record, int variable, uint8_t value) {
    need_of(record, record[1])[variable] = value;
    *cost_of(record, record[1]) = 1;
    return record[1]++;
}

static uint8_t *add_outcome(uint8_t *record, int m, int variable, uint8_t value) {
    uint8_t *cells = outcome_of(record, m, (*move_of(record, m))++);
    cells[variable] = value;
    return cells;
}

/* "Variable 0 is the pallet (store, lift, bay, edge), 1 the door (shut, open)." */
static void sample_record(uint8_t *record) {
    clear_record(record);
    add_variable(record, 4);
    add_variable(record, 2);
    add_outcome(record, add_move(record, 0, 0), 0, 1);
    int lift = add_move(record, 0, 1);
    add_outcome(record, lift, 0, 2);
    add_outcome(record, lift, 0, 3);
    add_outcome(record, add_move(record, 0, 3), 0, 2);
    add_outcome(record, add_move(record, 1, 0), 1, 1);
    goal_of(record)[0] = 2;
    goal_of(record)[1] = 1;
    record[2] = 2;
    pattern_of(record, 0)[0] = 1;
    pattern_of(record, 1)[1] = 1;
}

/* A tower of up to 30 levels, the goal on top. From each level one move leads up in one way, one in two and one in three. Variables 0
 * and 1 hold the level, variable 2 tells the outcomes apart. */
static void level_record(uint8_t *record, int levels) {
    clear_record(record);
    for (int v = 0; v < 3; v++) add_variable(record, 16);
    for (int level = 0; level < levels; level++) {
        int variable = level < 15 ? 0 : 1;
        for (int ways = 1; ways <= 3 && record[1] < 64; ways++) {
            int m = add_move(record, variable, (uint8_t)(level % 15));
            if (level >= 15) need_of(record, m)[0] = 15;
            for (int k = 0; k < ways; k++) add_outcome(record, m, variable, (uint8_t)(level % 15 + 1))[2] = (uint8_t)k;
        }
    }
    goal_of(record)[0] = (uint8_t)(levels < 15 ? levels : 15);
    if (levels > 15) goal_of(record)[1] = (uint8_t)(levels - 15);
}

/* A tower of 256 levels. Variable 0 goes up to 15, then variable 1 goes up by one and variable 0 starts again; on the highest level a
 * move sets variable 2, the goal. The moves of variable 0 come in three forms: alone, and with an outcome that arrives before or after. */
static void deep_record(uint8_t *record) {
    clear_record(record);
    add_variable(record, 16);
    add_variable(record, 16);
    add_variable(record, 2);
    for (uint8_t from = 0; from < 15; from++) {
        for (int form = 0; form < 3; form++) {
            int m = add_move(record, 0, from);
            if (form == 1) add_outcome(record, m, 2, 1);
            add_outcome(record, m, 0, (uint8_t)(from + 1));
            if (form == 2) add_outcome(record, m, 2, 1);
        }
        int m = add_move(record, 1, from);
        need_of(record, m)[0] = 15;
        add_outcome(record, m, 1, (uint8_t)(from + 1))[0] = 0;
    }
    int last = add_move(record, 0, 15);
    need_of(record, last)[1] = 15;
    add_outcome(record, last, 2, 1);
    goal_of(record)[2] = 1;
}

/* -- The check once more, with a list of pending states ------------------------------------------------------------------------------ */

/* A state, how many moves led to it, and what they cost. */
struct pending {
    uint8_t state[16];
    int moves, paid;
};

/* Every pending state has at most 255 moves behind it, and each of them left at most 7 others pending. */
static struct pending stack[MAX_DEPTH * 8 + 8];

static int meets(const uint8_t *cells, const uint8_t *state) {
    for (int v = 0; v < 16; v++)
        if (cells[v] != NONE && cells[v] != state[v]) return 0;
    return 1;
}

static int applies(uint8_t *record, int m, const uint8_t *state) {
    return meets(need_of(record, m), state) && !meets(goal_of(record), state);
}

/* Replaces the top state by the states after the move, the first outcome on top. */
static int push_outcomes(uint8_t *record, int m, int top) {
    struct pending from = stack[top - 1];
    int count = *move_of(record, m);
    for (int k = 0; k < count; k++) {
        struct pending *to = &stack[top - 1 + count - 1 - k];
        *to = from;
        to->moves++;
        to->paid += *cost_of(record, m);
        for (int v = 0; v < 16; v++)
            if (outcome_of(record, m, k)[v] != NONE) to->state[v] = outcome_of(record, m, k)[v];
    }
    return top - 1 + count;
}

/* Pending is a state, with no move behind it. */
static void begin(const uint8_t *state) {
    memcpy(stack[0].state, state, 16);
    stack[0].moves = stack[0].paid = 0;
}

static struct planner_answer answer(uint64_t number, uint64_t first, uint64_t second) {
    struct planner_answer a = {number, 0, first, second, 0};
    return a;
}

/* For a sound record and a good state. */
static struct planner_answer plain_check(uint8_t *record, const uint8_t *state, const uint8_t *plan, size_t length) {
    int top = 1, cost = 0;
    size_t at = 0;
    begin(state);
    for (; top > 0; at++) {
        const struct pending *now = &stack[top - 1];
        if (at == length) return answer(12, at, 0);
        if (plan[at] == PLANNER_ARRIVED) {
            if (!meets(goal_of(record), now->state)) return answer(15, at, 0);
            if (now->paid > cost) cost = now->paid;
            top--;
            continue;
        }
        if (plan[at] >= record[1]) return answer(13, at, 0);
        if (now->moves >= MAX_DEPTH) return answer(17, at, 0);
        if (!applies(record, plan[at], now->state)) return answer(14, at, 0);
        top = push_outcomes(record, plan[at], top);
    }
    if (at < length) return answer(16, at, 0);
    return answer(0, (uint64_t)cost, at);
}

/* -- Comparing ------------------------------------------------------------------------------------------------------------------------ */

static int failures, comparisons;

static void expect_same(const char *what, struct planner_answer got, struct planner_answer want) {
    comparisons++;
    if (memcmp(&got, &want, sizeof got) == 0) return;
    failures++;
    printf("FAILED %s: got %llu %llu %llu %llu %llu, expected %llu %llu %llu %llu %llu\n", what, (unsigned long long)got.number,
           (unsigned long long)got.kind, (unsigned long long)got.first, (unsigned long long)got.second, (unsigned long long)got.third,
           (unsigned long long)want.number, (unsigned long long)want.kind, (unsigned long long)want.first, (unsigned long long)want.second,
           (unsigned long long)want.third);
}

/* The slices end where their blocks of memory end, so that valgrind sees a read past one. */
static void expect(const char *what, const uint8_t *record, size_t record_length, const uint8_t *state, size_t state_length,
                   const uint8_t *plan, size_t plan_length, struct planner_answer want) {
    uint8_t *r = malloc(record_length + 1), *s = malloc(state_length + 1), *p = malloc(plan_length + 1);
    if (!r || !s || !p) exit(2);
    uint8_t *rec = r + 1, *sta = s + 1, *pla = p + 1;
    memcpy(rec, record, record_length);
    memcpy(sta, state, state_length);
    memcpy(pla, plan, plan_length);
    expect_same(what, planner_check_plan(rec, record_length, sta, state_length, pla, plan_length), want);
    if (memcmp(rec, record, record_length) || memcmp(sta, state, state_length) || memcmp(pla, plan, plan_length)) {
        failures++;
        printf("FAILED %s: a slice was written\n", what);
    }
    free(r);
    free(s);
    free(p);
}

static void compare(const char *what, uint8_t *record, const uint8_t *state, const uint8_t *plan, size_t length) {
    struct planner_answer want = plain_check(record, state, plan, length);
    expect(what, record, PLANNER_RECORD_SIZE, state, 16, plan, length, want);
}

/* -- The sample tower and each refusal ----------------------------------------------------------------------------------------------- */

static const uint8_t sample_plan[] = {0, 1, 3, 254, 2, 3, 254, 254};

static void test_sample(void) {
    static uint8_t record[PLANNER_RECORD_SIZE + 10];
    sample_record(record);
    const uint8_t *start = start_of(record);
    const uint8_t no_goal[] = {254}, not_applying[] = {3, 3}, no_move[] = {4}, at_goal[] = {0, 1, 3, 3};
#define CHECK(what, plan, length, number, second) \
    expect(what, record, PLANNER_RECORD_SIZE, start, 16, plan, length, answer(number, second, 0))
    expect("the sample's plan", record, PLANNER_RECORD_SIZE, start, 16, sample_plan, 7, answer(0, 4, 7));
    expect("a longer record", record, sizeof record, start, 16, sample_plan, 7, answer(0, 4, 7));
    CHECK("a plan that ends early", sample_plan, 4, 12, 4);
    CHECK("an empty plan", sample_plan, 0, 12, 0);
    CHECK("254 at no goal", no_goal, 1, 15, 0);
    CHECK("a move that does not apply", not_applying, 2, 14, 1);
    CHECK("a move at a goal", at_goal, 4, 14, 3);
    CHECK("a byte that is no move", no_move, 1, 13, 0);
    CHECK("a byte after the plan", sample_plan, 8, 16, 7);
#undef CHECK
}

/* The sample's plan with costs: its dearest path goes over the edge, through all four moves. */
static void test_costs(void) {
    static const uint8_t costs[][5] = {{1, 3, 1, 1, 6}, {2, 1, 1, 1, 5}, {1, 1, 9, 1, 12}, {1, 1, 1, 50, 53}, {10, 20, 30, 40, 100}};
    static uint8_t record[PLANNER_RECORD_SIZE];
    for (size_t i = 0; i < sizeof costs / sizeof costs[0]; i++) {
        sample_record(record);
        memcpy(cost_of(record, 0), costs[i], 4);
        expect("the sample's plan with costs", record, sizeof record, start_of(record), 16, sample_plan, 7, answer(0, costs[i][4], 7));
    }
    memset(cost_of(record, 0), 255, 4);
    expect("the sample's plan at its dearest", record, sizeof record, start_of(record), 16, sample_plan, 7, answer(0, 1020, 7));
}

/* Move 0 may lead to 1 or to 2. From 1 a dear move arrives, from 2 two cheap ones: the longest path is not the dearest. */
static void test_dearest_path(void) {
    static const uint8_t dear_first[] = {0, 1, 254, 2, 3, 254}, dear_last[] = {0, 2, 3, 254, 1, 254};
    static uint8_t record[PLANNER_RECORD_SIZE];
    clear_record(record);
    add_variable(record, 5);
    int first = add_move(record, 0, 0);
    add_outcome(record, first, 0, 1);
    add_outcome(record, first, 0, 2);
    add_outcome(record, add_move(record, 0, 1), 0, 4);
    add_outcome(record, add_move(record, 0, 2), 0, 3);
    add_outcome(record, add_move(record, 0, 3), 0, 4);
    goal_of(record)[0] = 4;
    memcpy(cost_of(record, 0), (uint8_t[]){10, 200, 3, 4}, 4);
    expect("the dearest path first", record, sizeof record, start_of(record), 16, dear_first, 6, answer(0, 210, 6));
    outcome_of(record, 0, 0)[0] = 2;
    outcome_of(record, 0, 1)[0] = 1;
    expect("the dearest path last", record, sizeof record, start_of(record), 16, dear_last, 6, answer(0, 210, 6));
    *cost_of(record, 1) = 6;
    expect("the longest path is the dearest", record, sizeof record, start_of(record), 16, dear_last, 6, answer(0, 17, 6));
}

/* Move 0 leaves the door shut, move 1 opens it. 17 counts moves, whatever they cost. */
static void test_depth(uint8_t cost) {
    static uint8_t record[PLANNER_RECORD_SIZE];
    uint8_t plan[MAX_DEPTH + 2];
    clear_record(record);
    add_variable(record, 2);
    add_outcome(record, add_move(record, 0, 0), 0, 0);
    add_outcome(record, add_move(record, 0, 0), 0, 1);
    memset(cost_of(record, 0), cost, 2);
    goal_of(record)[0] = 1;
    memset(plan, 0, sizeof plan);
    expect("a 256th move", record, sizeof record, start_of(record), 16, plan, MAX_DEPTH + 1, answer(17, MAX_DEPTH, 0));
    expect("the plan ends before it", record, sizeof record, start_of(record), 16, plan, MAX_DEPTH, answer(12, MAX_DEPTH, 0));
    plan[MAX_DEPTH] = 9;
    expect("no move at depth 256", record, sizeof record, start_of(record), 16, plan, MAX_DEPTH + 1, answer(13, MAX_DEPTH, 0));
    plan[MAX_DEPTH] = 254;
    expect("254 at no goal at depth 256", record, sizeof record, start_of(record), 16, plan, MAX_DEPTH + 1, answer(15, MAX_DEPTH, 0));
    plan[MAX_DEPTH - 1] = 1;
    expect("255 moves", record, sizeof record, start_of(record), 16, plan, MAX_DEPTH + 1, answer(0, MAX_DEPTH * cost, MAX_DEPTH + 1));
    plan[MAX_DEPTH] = 1;
    expect("17 before 14", record, sizeof record, start_of(record), 16, plan, MAX_DEPTH + 1, answer(17, MAX_DEPTH, 0));
    plan[32] = 1;
    plan[33] = 254;
    expect("33 moves", record, sizeof record, start_of(record), 16, plan, 34, answer(0, 33 * cost, 34));
}

/* Move 0 arrives or leads back, so a plan is the bytes 0, 254 over and over. Moves of paths that ended do not count. */
static void test_depth_of_branches(void) {
    static uint8_t record[PLANNER_RECORD_SIZE], plan[2 * MAX_DEPTH + 3];
    clear_record(record);
    add_variable(record, 2);
    int turn = add_move(record, 0, 0), last = add_move(record, 0, 0);
    add_outcome(record, turn, 0, 1);
    add_outcome(record, turn, 0, 0);
    add_outcome(record, last, 0, 1);
    *cost_of(record, turn) = 2;
    *cost_of(record, last) = 255;
    goal_of(record)[0] = 1;
    for (int i = 0; i <= MAX_DEPTH; i++) {
        plan[2 * i] = 0;
        plan[2 * i + 1] = 254;
    }
    expect("a 256th move aside", record, sizeof record, start_of(record), 16, plan, 2 * MAX_DEPTH + 2, answer(17, 2 * MAX_DEPTH, 0));
    plan[2 * MAX_DEPTH - 2] = 1;
    uint64_t cost = 2 * (MAX_DEPTH - 1) + 255, length = 2 * MAX_DEPTH;
    expect("255 moves aside", record, sizeof record, start_of(record), 16, plan, length, answer(0, cost, length));
    expect("a byte after them", record, sizeof record, start_of(record), 16, plan, length + 1, answer(16, length, 0));
    expect("and before their end", record, sizeof record, start_of(record), 16, plan, length - 1, answer(12, length - 1, 0));
}

static void test_slices(void) {
    static uint8_t record[PLANNER_RECORD_SIZE];
    uint8_t state[17];
    sample_record(record);
    memset(state, NONE, sizeof state);
    memcpy(state, start_of(record), 16);
#define CHECK(what, length, state_length, number, second) \
    expect(what, record, length, state, state_length, sample_plan, 7, answer(number, second, 0))
    CHECK("an empty record", 0, 16, 5, 0);
    for (size_t length = 9464; length < 9528; length++) CHECK("a record without its costs", length, 16, 5, length);
    CHECK("a short record goes before a short state", 100, 15, 5, 100);
    CHECK("an empty state", PLANNER_RECORD_SIZE, 0, 10, 16);
    CHECK("a short state", PLANNER_RECORD_SIZE, 15, 10, 16);
    CHECK("a long state", PLANNER_RECORD_SIZE, 17, 10, 16);
    state[5] = 0;
    CHECK("a cell past N", PLANNER_RECORD_SIZE, 16, 10, 5);
    state[1] = 2;
    CHECK("a value as high as its size", PLANNER_RECORD_SIZE, 16, 10, 1);
#undef CHECK
    expect_same("a null record", planner_check_plan(NULL, 0, state, 16, sample_plan, 7), answer(5, 0, 0));
    expect_same("a null state", planner_check_plan(record, sizeof record, NULL, 0, sample_plan, 7), answer(10, 16, 0));
    expect_same("a null plan", planner_check_plan(record, sizeof record, start_of(record), 16, NULL, 0), answer(12, 0, 0));
    expect_same("three null slices", planner_check_plan(NULL, 0, NULL, 0, NULL, 0), answer(5, 0, 0));
}

/* Refusal 6, at some cells of each kind. */
static void test_record_cells(void) {
    static const struct {
        int offset;
        uint8_t value;
        int told;
    } bad[] = {{0, 0, 0},   {0, 17, 0},  {1, 65, 1},  {2, 9, 2},     {6, 255, 4},   {7, 1, 4},     {8, 1, 8},     {9, 17, 9},
               {10, 2, 10}, {24, 4, 24}, {26, 0, 26}, {40, 4, 40},   {40, 255, 40}, {55, 0, 55},   {56, 2, 56},   {58, 1, 58},
               {88, 1, 88}, {184, 0, 184}, {184, 9, 184}, {185, 4, 185}, {217, 0, 217}, {764, 1, 764}, {9463, 0, 9463}, {9464, 0, 9464},
               {9467, 0, 9467}, {9468, 1, 9468}, {9468, 255, 9468}, {9527, 1, 9527}, {9527, 255, 9527}};
    static uint8_t record[PLANNER_RECORD_SIZE];
    uint8_t state[16];
    char what[64];
    sample_record(record);
    memcpy(state, start_of(record), 16);
    for (size_t i = 0; i < sizeof bad / sizeof bad[0]; i++) {
        sample_record(record);
        record[bad[i].offset] = bad[i].value;
        snprintf(what, sizeof what, "record cell %d holds %d", bad[i].offset, bad[i].value);
        expect(what, record, sizeof record, state, 16, sample_plan, 7, answer(6, (uint64_t)bad[i].told, 0));
        expect("6 goes before 10", record, sizeof record, state, 3, sample_plan, 7, answer(6, (uint64_t)bad[i].told, 0));
        if (bad[i].offset < 9527) record[9527] = 7;
        expect("the lowest of two", record, sizeof record, state, 16, sample_plan, 7, answer(6, (uint64_t)bad[i].told, 0));
    }
    for (int limit = 0; limit < 256; limit++) {
        sample_record(record);
        record[3] = (uint8_t)limit;
        expect("any limit", record, sizeof record, state, 16, sample_plan, 7, answer(0, 4, 7));
    }
}

/* -- Random plans --------------------------------------------------------------------------------------------------------------------- */

static uint64_t seed = 20261115;

/* xorshift64*: the same numbers everywhere. */
static uint32_t draw(uint32_t below) {
    seed ^= seed >> 12;
    seed ^= seed << 25;
    seed ^= seed >> 27;
    return (uint32_t)((seed * 2685821657736338717u) >> 33) % below;
}

/* A cost for each move: all 1, all the same, small, large, or any. */
static void random_costs(uint8_t *record) {
    uint32_t kind = draw(5), same = 1 + draw(255);
    for (int m = 0; m < record[1]; m++)
        *cost_of(record, m) =
            (uint8_t)(kind == 0 ? 1 : kind == 1 ? same : kind == 2 ? 1 + draw(4) : kind == 3 ? 200 + draw(56) : 1 + draw(255));
}

/* A random sound record. Most values are 0 or 1, needs name little, and outcomes and goals name 1, so that many plans arrive. */
static void random_record(uint8_t *record) {
    clear_record(record);
    uint32_t variables = 1 + draw(16), moves = draw(65);
    for (uint32_t v = 0; v < variables; v++) add_variable(record, (uint8_t)(2 + draw(15)));
    for (uint32_t i = 0; i < moves; i++) {
        int m = add_move(record, (int)draw(variables), (uint8_t)(draw(3) ? NONE : draw(2)));
        for (uint32_t k = 1 + draw(draw(3) ? 2 : 8); k > 0; k--) {
            uint8_t *cells = add_outcome(record, m, (int)draw(variables), (uint8_t)(draw(9) ? 1 : draw(2) ? 0 : NONE));
            while (draw(2)) cells[draw(variables)] = draw(5) != 0;
        }
    }
    for (uint32_t g = draw(9) ? 1 + draw(2) : draw(9); g > 0; g--) goal_of(record)[draw(variables)] = draw(9) != 0;
    random_costs(record);
}

/* A move that applies, each as likely as the others; the number of moves if there is none. */
static int random_move(uint8_t *record, const uint8_t *state) {
    int found[64], count = 0;
    for (int m = 0; m < record[1]; m++)
        if (applies(record, m, state)) found[count++] = m;
    return count ? found[draw((uint32_t)count)] : record[1];
}

/* Bytes for the pending states one after the other: 254 at a goal, elsewhere a move that applies; one in `odd` is any byte. It ends with a
 * byte that is wrong where no move applies, or with a move after `most` moves on the path, which from 255 on is wrong too. */
static size_t random_plan(uint8_t *record, const uint8_t *state, uint8_t *plan, size_t room, uint32_t odd, int most) {
    int top = 1;
    size_t length = 0;
    begin(state);
    while (top > 0 && length < room) {
        const struct pending *now = &stack[top - 1];
        int arrived = meets(goal_of(record), now->state);
        int byte = arrived ? PLANNER_ARRIVED : random_move(record, now->state);
        plan[length++] = odd && !draw(odd) ? (uint8_t)draw(256) : (uint8_t)byte;
        if (!arrived && (byte == record[1] || now->moves >= most)) break;
        top = arrived ? top - 1 : push_outcomes(record, byte, top);
    }
    return length;
}

static void test_random_tasks(int tasks) {
    static uint8_t record[PLANNER_RECORD_SIZE], plan[4096];
    uint8_t state[16];
    for (int t = 0; t < tasks; t++) {
        random_record(record);
        memset(state, NONE, sizeof state);
        for (int v = 0; v < record[0]; v++) state[v] = (uint8_t)draw(draw(3) ? 2 : record[8 + v]);
        size_t length = random_plan(record, state, plan, draw(8) ? sizeof plan : draw(64), draw(2) ? 0 : 1 + draw(200),
                                    draw(16) ? 32 : MAX_DEPTH);
        if (!draw(10) && length < sizeof plan) plan[length++] = (uint8_t)draw(256);
        compare("a random plan of a random task", record, state, plan, length);
    }
}

/* Plans of up to 256 moves depth: valid ones, but for those from the lowest level, some with a byte changed, and some cut short. */
static void test_deep_plans(int plans) {
    static uint8_t record[PLANNER_RECORD_SIZE], plan[4096];
    uint8_t state[16];
    deep_record(record);
    for (int i = 0; i < plans; i++) {
        random_costs(record);
        memcpy(state, start_of(record), 16);
        state[0] = (uint8_t)(draw(3) ? draw(2) : draw(16));
        state[1] = (uint8_t)(draw(3) ? 0 : draw(16));
        size_t length = random_plan(record, state, plan, sizeof plan, 0, MAX_DEPTH);
        compare("a deep plan", record, state, plan, length);
        compare("a deep plan cut short", record, state, plan, draw((uint32_t)length));
        plan[draw((uint32_t)length)] = (uint8_t)(draw(4) ? draw(record[1]) : draw(256));
        compare("a deep plan with a byte changed", record, state, plan, length);
    }
}

/* Long plans: valid ones, some with a byte changed, and plain random bytes of the same length. */
static void test_long_plans(int levels) {
    size_t room = ((size_t)64) << levels, million = ((size_t)1) << (levels + 1);
    static uint8_t record[PLANNER_RECORD_SIZE];
    uint8_t *plan = malloc(room);
    if (!plan) exit(2);
    level_record(record, levels);
    for (int i = 0; i < 4; i++) {
        random_costs(record);
        size_t length = random_plan(record, start_of(record), plan, room, 0, MAX_DEPTH);
        compare("a long random plan", record, start_of(record), plan, length);
        plan[draw((uint32_t)length)] = (uint8_t)draw(256);
        compare("a long random plan with a byte changed", record, start_of(record), plan, length);
        compare("a long random plan cut short", record, start_of(record), plan, length - 1 - draw((uint32_t)length / 2));
    }
    for (int i = 0; i < 8; i++) {
        for (size_t k = 0; k < million; k++) plan[k] = (uint8_t)(i < 2 ? draw(256) : draw(20) ? draw(record[1]) : PLANNER_ARRIVED);
        compare("random bytes", record, start_of(record), plan, million);
    }
    memset(goal_of(record), NONE, 16);
    memset(plan, PLANNER_ARRIVED, million);
    compare("every state a goal", record, start_of(record), plan, million);
    free(plan);
}

int main(int argc, char **argv) {
    int levels = argc > 1 ? atoi(argv[1]) : 19;
    if (levels < 1 || levels > 20) {
        fprintf(stderr, "usage: check_plan_test [LEVELS], from 1 to 20\n");
        return 2;
    }
    test_sample();
    test_costs();
    test_dearest_path();
    test_depth(1);
    test_depth(255);
    test_depth_of_branches();
    test_slices();
    test_record_cells();
    test_random_tasks(levels > 15 ? 20000 : 500);
    test_deep_plans(levels > 15 ? 1000 : 50);
    test_long_plans(levels);
    printf("check_plan_test: %d comparisons, %d failures\n", comparisons, failures);
    return failures != 0;
}
