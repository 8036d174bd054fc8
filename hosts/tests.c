/* Tests of the header: every function from C, on a board with two struck slots. What the library answers in general is tested from Rust (tests/ at the top).
   With the word texts it prints the refusals and their texts. */
#include "berth.h"
#include <stdio.h>

static int failed = 0;

static void same(const char *what, long found, long wanted) {
    if (found == wanted)
        return;
    printf("%s: %ld, not %ld\n", what, found, wanted);
    failed = 1;
}

static void same_record(const char *what, struct berth_summary found, int open, int struck, int rules) {
    same(what, found.open, open);
    same(what, found.struck, struck);
    same(what, found.rules, rules);
}

/* A board, and bytes behind it that nobody may write. */
struct fenced {
    struct berth_board board;
    uint8_t behind[64];
};

static void raise_fence(struct fenced *fenced) {
    memset(fenced->behind, 0xa5, sizeof fenced->behind);
}

static void same_fence(const struct fenced *fenced) {
    for (int i = 0; i < 64; i++)
        same("byte behind a board", fenced->behind[i], 0xa5);
}

/* A board that was cleared is a fresh one, whatever it held. The bytes of its marks stay as they were. */
static void clear(struct berth_board *board) {
    struct berth_marked_value fresh = berth_fresh();
    memset(board, 7, sizeof *board);
    same("clear", berth_board_clear(board), 1);
    same("fresh value and names", memcmp(&board->value, &fresh, sizeof fresh), 0);
    for (int i = 0; i < BERTH_ROWS; i++)
        same("fresh row byte", board->rows[i], BERTH_NONE);
    for (int i = 0; i < BERTH_KILLERS; i++)
        same("fresh killer byte", board->killers[i], BERTH_NONE);
    for (int i = 0; i < BERTH_SLOTS; i++)
        same("fresh slot byte", board->slots[i], BERTH_SLOT_ABSENT);
    for (int i = 0; i < BERTH_MARKS; i++)
        same("byte of the marks beside a fresh board", board->marks[i], 7);
    for (int name = 0; name < 2; name++)
        same("kept beside a fresh board", board->value.names[name].kept, 0);
    for (int i = 0; i < BERTH_RECORDS; i++)
        same_record("fresh record", board->table[i], 0, 0, 0);
    same("open slots without a board", berth_board_open_slots(board, 0).number, BERTH_NO_BOARD);
}

/* Two calls of two slots. Rule 0 joins equal slots, and rule 5 leaves slot 0 of call 0: slot 1 of each call is struck, of call 0 by rule 5 and of call 1 by rule 0. */
static void make_board(struct berth_board *board) {
    static const uint8_t counts[] = {2, 2}, calls[] = {0, 1}, row_0[] = {0, 0}, row_1[] = {1, 1};
    same("board", berth_board_start(board, counts, 2).number, 0);
    same("head", berth_board_head(board, 0, calls, 2).number, 0);
    same("row", berth_board_row(board, row_0, 2).number, 0);
    same("row", berth_board_row(board, row_1, 2).number, 0);
    same("put", berth_board_put(board).number, 0);
    same_record("record of call 0 under rule 0", berth_board_summary(board, 0), 2, 0, 1);
    same_record("record of call 1 under rule 0", berth_board_summary(board, 1), 2, 0, 1);
    same("head", berth_board_head(board, 5, calls, 1).number, 0);
    same("row", berth_board_row(board, row_0, 1).number, 0);
    struct berth_command_reply reply = berth_board_put(board);
    same("put", reply.number, 0);
    same("S", (long)reply.struck, 2);
    same("R", (long)reply.reopened, 0);
    same("T", (long)reply.touched, 2);
}

/* The table of that board. */
static void same_table(const char *what, const struct berth_summary *table) {
    same_record(what, table[0], 1, 1, 2);
    same_record(what, table[1], 1, 1, 1);
    for (int call = 2; call < BERTH_RECORDS; call++)
        same_record(what, table[call], 0, 0, 0);
}

/* The board's records, and of a number that no call has. */
static void summarise(const struct berth_board *board) {
    same_table("table", board->table);
    same_record("record of call 0", berth_board_summary(board, 0), 1, 1, 2);
    same_record("record of call 1", berth_board_summary(board, 1), 1, 1, 1);
    same_record("record of call 31", berth_board_summary(board, 31), 0, 0, 0);
    same_record("record 32", berth_board_summary(board, 32), 0, 0, 0);
    same_record("record 255", berth_board_summary(board, 255), 0, 0, 0);
}

/* The bytes that are made are these. */
static void same_bytes(const char *what, struct berth_command_bytes made, const uint8_t *wanted, size_t length) {
    same(what, (long)made.length, (long)length);
    same(what, memcmp(made.bytes, wanted, length), 0);
}

static void build(void) {
    static const uint8_t fields[34] = {3, 1, 2, 0}, board[33] = {1, 3, 1, 2}, whole[33] = {1, 3, 1, 2, 0};
    static const uint8_t head[7] = {2, 9, 2, 3, 1, 255, 255}, head_5[7] = {2, 9, 5, 3, 1, 2, 0}, row[5] = {3, 3, 1, 2, 255}, put[1] = {4}, lift[2] = {5, 63};
    static const uint8_t gap[6] = {6, 2, 9, 31, 0, 5}, mark[2] = {7, 1}, back[2] = {8, 255}, cancel[2] = {9, 31};
    same_bytes("board's bytes", berth_make_board(fields, 3), board, 33);
    same_bytes("bytes of a board of 32 calls", berth_make_board(fields, 32), whole, 33);
    same_bytes("head's bytes", berth_make_head(9, fields, 2), head, 7);
    same_bytes("row's bytes", berth_make_row(fields, 3), row, 5);
    same_bytes("put's bytes", berth_make_put(), put, 1);
    same_bytes("lift's bytes", berth_make_lift(63), lift, 2);
    same_bytes("gap's bytes", berth_make_gap(BERTH_APART, 9, 31, 0, 5), gap, 6);
    same_bytes("mark's bytes", berth_make_mark(1), mark, 2);
    same_bytes("back's bytes", berth_make_back(255), back, 2);
    same_bytes("cancel's bytes", berth_make_cancel(31), cancel, 2);
    same("a board of 33 calls", (long)berth_make_board(fields, 33).length, 34);
    same_bytes("a head of five calls", berth_make_head(9, fields, 5), head_5, 7);
    same("a head of 258 calls", berth_make_head(9, fields, 258).bytes[2], 255);
    same("a row of five slots", (long)berth_make_row(fields, 5).length, 6);
    same("no slots", berth_make_row(NULL, 0).bytes[1], 255);
}

static void same_check(const char *what, struct berth_plan_reply found, int number, int broken) {
    same(what, found.number, number);
    same(what, found.broken, broken);
}

/* The buffers that questions are lent, in another order than a board's, and a plan; with room for a byte more of each buffer, and for more of the plan. */
struct lent_plan {
    uint8_t plan[BERTH_PLAN + 256];
    uint8_t slots[BERTH_SLOTS + 1];
    uint8_t killers[BERTH_KILLERS + 1];
    uint8_t rows[BERTH_ROWS + 1];
};

static void lend_buffers(struct lent_plan *lent, const struct berth_board *board) {
    memcpy(lent->rows, board->rows, BERTH_ROWS);
    memcpy(lent->killers, board->killers, BERTH_KILLERS);
    memcpy(lent->slots, board->slots, BERTH_SLOTS);
}

static int is_off(const struct berth_board *board, int call) {
    return board->slots[32 * call] == BERTH_SLOT_CANCELLED;
}

/* One rule against a plan that is laid in part, by the words of the order: unless it has a laid call, and its calls are all laid or cancelled, it asks nothing.
   Whatever the board holds, it has at most four columns and 64 rows, and calls below 32. */
static int rule_stays(const struct berth_board *board, const uint8_t *plan, int rule) {
    const struct berth_heads *heads = &board->value.value.heads;
    int columns = heads->arity[rule] < 4 ? heads->arity[rule] : 4, rows = heads->lengths[rule] < 64 ? heads->lengths[rule] : 64, laid = 0;
    for (int k = 0; k < columns; k++) {
        int call = heads->scope[4 * rule + k] % 32;
        if (plan[call] == BERTH_NONE && !is_off(board, call))
            return 1;
        laid = laid || plan[call] != BERTH_NONE;
    }
    for (int w = 0; laid && w < rows; w++) {
        int fits = 1;
        for (int k = 0; k < columns; k++) {
            int call = heads->scope[4 * rule + k] % 32;
            fits = fits && (is_off(board, call) || board->rows[256 * rule + 4 * w + k] == plan[call]);
        }
        if (fits)
            return 1;
    }
    return !laid;
}

/* Lays the calls from one on, and looks at every rule with each slot. */
static uint8_t lay_literally(const struct berth_board *board, int call, uint32_t ceiling, struct berth_first_reply *reply) {
    while (call < 32 && (board->value.value.heads.counts[call] == 0 || is_off(board, call)))
        call++;
    if (call == 32)
        return BERTH_PLAN_FOUND;
    for (int slot = 0; slot < 32; slot++) {
        if (board->slots[32 * call + slot] != BERTH_SLOT_OPEN)
            continue;
        if (reply->trials == ceiling)
            return BERTH_SEARCH_STOPPED;
        reply->trials++;
        reply->plan[call] = (uint8_t)slot;
        int stays = 1;
        for (int rule = 0; rule < 64; rule++)
            stays = stays && rule_stays(board, reply->plan, rule);
        uint8_t ending = stays ? lay_literally(board, call + 1, ceiling, reply) : BERTH_NO_PLAN;
        if (ending != BERTH_NO_PLAN)
            return ending;
    }
    reply->plan[call] = BERTH_NONE;
    return BERTH_NO_PLAN;
}

/* A reply to a search, with these slots first in its plan, and BERTH_NONE behind them. */
static struct berth_first_reply first_reply(uint8_t number, uint8_t ending, uint32_t trials, const uint8_t *slots, size_t calls) {
    struct berth_first_reply reply;
    reply.trials = trials;
    reply.number = number;
    reply.ending = ending;
    memset(reply.plan, BERTH_NONE, sizeof reply.plan);
    if (calls > 0)
        memcpy(reply.plan, slots, calls);
    return reply;
}

static struct berth_first_reply search_literally(const struct berth_board *board, uint32_t ceiling) {
    struct berth_first_reply reply = first_reply(0, BERTH_NO_PLAN, 0, NULL, 0);
    if (board->value.value.heads.counts[0] == 0)
        return first_reply(BERTH_NO_BOARD, 254, 0, NULL, 0);
    reply.ending = lay_literally(board, 0, ceiling, &reply);
    return first_reply(0, reply.ending, reply.trials, reply.plan, reply.ending == BERTH_PLAN_FOUND ? BERTH_PLAN : 0);
}

static void same_first(const char *what, struct berth_first_reply found, struct berth_first_reply wanted) {
    same(what, found.number, wanted.number);
    same(what, found.ending, wanted.ending);
    same(what, (long)found.trials, (long)wanted.trials);
    for (int call = 0; call < BERTH_PLAN; call++)
        same(what, found.plan[call], wanted.plan[call]);
}

/* The search within the ceiling gets this reply: from the board, and where a copy of it is lent. Nothing changes. */
static void same_search(const char *what, const struct berth_board *board, uint32_t ceiling, struct berth_first_reply wanted) {
    static struct berth_board before;
    static struct lent_plan lent, all;
    lend_buffers(&lent, board);
    before = *board;
    all = lent;
    same_first(what, berth_board_first_plan(board, ceiling), wanted);
    same_first(what, berth_first_plan(board->value.value, BERTH_BUFFERS(&lent), ceiling), wanted);
    same("board after a search", memcmp(board, &before, sizeof before), 0);
    same("memory that was lent for a search", memcmp(&lent, &all, sizeof all), 0);
}

/* The search on a board that only commands wrote is the literal one, and a plan that it finds is kept. */
static void search_board(const struct berth_board *board, uint32_t ceiling) {
    struct berth_first_reply wanted = search_literally(board, ceiling);
    same_search("literal search", board, ceiling, wanted);
    if (wanted.ending == BERTH_PLAN_FOUND)
        same_check("plan that was found", berth_board_check_plan(board, wanted.plan, BERTH_PLAN), 0, BERTH_NONE);
}

/* The search ends so after so many trials, with ceilings from there on, and is stopped at those below: at each where they are few. A plan that it finds is kept. */
static void same_ending(const char *what, const struct berth_board *board, uint8_t ending, uint32_t trials, const uint8_t *slots, size_t calls) {
    struct berth_first_reply wanted = first_reply(0, ending, trials, slots, calls);
    same_search(what, board, trials, wanted);
    same_search(what, board, trials + 1, wanted);
    same_search(what, board, UINT32_MAX, wanted);
    for (uint32_t ceiling = 0; ceiling < trials; ceiling += trials < 100 ? 1 : trials - 1)
        same_search(what, board, ceiling, first_reply(0, BERTH_SEARCH_STOPPED, ceiling, NULL, 0));
    if (ending == BERTH_PLAN_FOUND)
        same_check(what, berth_board_check_plan(board, wanted.plan, BERTH_PLAN), 0, BERTH_NONE);
}

static void same_found(const char *what, const struct berth_board *board, uint32_t trials, const uint8_t *slots, size_t calls) {
    same_ending(what, board, BERTH_PLAN_FOUND, trials, slots, calls);
}

static void same_no_plan(const char *what, const struct berth_board *board, uint32_t trials) {
    same_ending(what, board, BERTH_NO_PLAN, trials, NULL, 0);
}

/* A plan with these slots, and BERTH_NONE for the calls past them, gets this reply: from the board, and where a copy of it is lent. Nothing changes. */
static void same_reply(const char *what, const struct berth_board *board, const uint8_t *slots, size_t calls, int number, int broken) {
    static struct berth_board before;
    static struct lent_plan lent, all;
    lend_buffers(&lent, board);
    memset(lent.plan, BERTH_NONE, sizeof lent.plan);
    memcpy(lent.plan, slots, calls);
    before = *board;
    all = lent;
    same_check(what, berth_board_check_plan(board, lent.plan, BERTH_PLAN), number, broken);
    same_check(what, berth_check_plan(board->value.value, BERTH_BUFFERS(&lent), lent.plan, BERTH_PLAN), number, broken);
    same("board after a plan", memcmp(board, &before, sizeof before), 0);
    same("memory that was lent with a plan", memcmp(&lent, &all, sizeof all), 0);
    search_board(board, 200);
}

static void same_kept(const char *what, const struct berth_board *board, const uint8_t *slots, size_t calls) {
    same_reply(what, board, slots, calls, 0, BERTH_NONE);
}

static void same_broken(const char *what, const struct berth_board *board, const uint8_t *slots, size_t calls, uint8_t rule) {
    same_reply(what, board, slots, calls, 0, rule);
}

static void same_bad_byte(const char *what, const struct berth_board *board, const uint8_t *slots, size_t calls) {
    same_reply(what, board, slots, calls, BERTH_BAD_PLAN_BYTE, 254);
}

static void ask(const struct berth_board *board) {
    same("mask", berth_board_open_slots(board, 1).mask, 1);
    same("ones", berth_board_open_slots(board, 1).ones, 1);
    same("no call", berth_board_open_slots(board, 2).number, BERTH_NO_SUCH_CALL);
    same("open slot", berth_board_slot_state(board, 0, 0).cause, BERTH_SLOT_OPEN);
    same("cause on call 0", berth_board_slot_state(board, 0, 1).cause, 5);
    same("cause on call 1", berth_board_slot_state(board, 1, 1).cause, 0);
    same("no slot", berth_board_slot_state(board, 1, 2).number, BERTH_NO_SUCH_SLOT);
    same("no slot's cause", berth_board_slot_state(board, 1, 2).cause, BERTH_SLOT_ABSENT);
    same("living row", berth_board_row_state(board, 0, 0).killer, BERTH_NONE);
    same("killer", berth_board_row_state(board, 0, 1).killer, 0);
    same("no row", berth_board_row_state(board, 0, 2).number, BERTH_NO_SUCH_ROW);
    same("row's place", berth_board_row_bytes(board, 5, 0) == board->rows + 1280, 1);
    same("row's bytes", berth_board_row_bytes(board, 0, 1) == board->rows + 4, 1);
    same("row's byte", board->rows[5], 1);
    same("no row's bytes", berth_board_row_bytes(board, 1, 0) == NULL, 1);
    same("support", berth_board_support(board, 0, 1, 0).row, 0);
    same("no support", berth_board_support(board, 0, 1, 1).row, BERTH_NONE);
    same("no column", berth_board_support(board, 5, 1, 0).number, BERTH_NO_SUCH_COLUMN);
    same("rule not in force", berth_board_support(board, 9, 0, 0).number, BERTH_NOT_IN_FORCE);
    same_kept("plan of open slots", board, (const uint8_t[]){0, 0}, 2);
    same_broken("plan of struck slots", board, (const uint8_t[]){1, 1}, 2, 5);
    same_broken("plan against rule 0", board, (const uint8_t[]){0, 1}, 2, 0);
    same_broken("plan against both rules", board, (const uint8_t[]){1, 0}, 2, 0);
    same_bad_byte("plan without a slot for call 1", board, (const uint8_t[]){0}, 1);
    same_found("first plan", board, 2, (const uint8_t[]){0, 0}, 2);
}

/* Of rows with the slot in the column, the lowest that lives is given: row 1 where all three live, row 2 while row 1 is dead. */
static void support_lowest(struct berth_board *board) {
    same("board", berth_board_start(board, (const uint8_t[]){2, 3}, 2).number, 0);
    same("head", berth_board_head(board, 4, (const uint8_t[]){0, 1}, 2).number, 0);
    same("row of the other slot", berth_board_row(board, (const uint8_t[]){1, 2}, 2).number, 0);
    same("low row", berth_board_row(board, (const uint8_t[]){0, 1}, 2).number, 0);
    same("high row", berth_board_row(board, (const uint8_t[]){0, 0}, 2).number, 0);
    same("put", berth_board_put(board).number, 0);
    same("lowest of two", berth_board_support(board, 4, 0, 0).row, 1);
    same("head", berth_board_head(board, 6, (const uint8_t[]){1}, 1).number, 0);
    same("row", berth_board_row(board, (const uint8_t[]){0}, 1).number, 0);
    same("put", (long)berth_board_put(board).struck, 3);
    same("lowest that lives", berth_board_support(board, 4, 0, 0).row, 2);
    same("lift", (long)berth_board_lift(board, 6).reopened, 3);
    same("lowest again", berth_board_support(board, 4, 0, 0).row, 1);
}

/* A refusal leaves value and names; a buffer of another length is one. */
static void refuse(struct berth_board *board) {
    static const uint8_t lift[2] = {5, 5}, counts[33] = {1};
    struct berth_marked_value before = board->value;
    struct berth_command_reply reply = berth_command(BERTH_HELD(board), lift, 2, board->rows, BERTH_ROWS - 1, board->killers, BERTH_KILLERS, board->slots,
                                                     BERTH_SLOTS, board->marks, BERTH_MARKS, board->table, BERTH_RECORDS);
    same("short rows", reply.number, BERTH_BUFFER_LENGTH);
    same("value and names", memcmp(&board->value, &before, sizeof before), 0);
    same("body cut short", berth_board_command(board, lift, 1).number, BERTH_BODY_LENGTH);
    same("no byte", berth_board_command(board, lift, 0).number, BERTH_UNKNOWN_KIND);
    same("too many counts", berth_board_start(board, counts, 33).number, BERTH_BODY_LENGTH);
    same("no counts", berth_board_start(board, counts, 0).number, BERTH_BAD_COUNTS);
    same("five calls", berth_board_head(board, 9, counts, 5).number, BERTH_BAD_ARITY);
    same("too many calls", berth_board_head(board, 9, counts, 257).number, BERTH_BAD_ARITY);
    same("lift of what is not there", berth_board_lift(board, 9).number, BERTH_NOT_IN_FORCE);
    same("put without a draft", berth_board_put(board).number, BERTH_NO_DRAFT);
}

static void same_row(const char *what, const struct berth_board *board, uint8_t rule, uint8_t w, uint8_t first, uint8_t second) {
    const uint8_t wanted[4] = {first, second, 255, 255}, *row = berth_board_row_bytes(board, rule, w);
    same(what, row != NULL && memcmp(row, wanted, 4) == 0, 1);
}

/* Puts rule 7 by its gap, on call 0 of four slots and call 1 of three, and lifts it: its rows are these pairs, and the open slots these. */
static void put_gap(struct berth_board *board, uint8_t form, uint8_t gap, const uint8_t *pairs, uint8_t count, uint32_t first, uint32_t second) {
    static struct berth_board before;
    before = *board;
    struct berth_command_reply reply = berth_board_gap(board, form, 7, 0, 1, gap);
    same("gap", reply.number, 0);
    same("its S, R and T", (long)(reply.struck + reply.reopened + reply.touched), 0);
    before.value.value.draft = board->value.value.draft;
    same("all but the draft", memcmp(board, &before, sizeof before), 0);
    reply = berth_board_put(board);
    same("put of a gap rule", reply.number, 0);
    for (uint8_t w = 0; w < count; w++) {
        same_row("row of a gap rule", board, 7, w, pairs[2 * w], pairs[2 * w + 1]);
        same("living row of a gap rule", berth_board_row_state(board, 7, w).killer, BERTH_NONE);
    }
    same("row past a gap rule's last", berth_board_row_state(board, 7, count).number, BERTH_NO_SUCH_ROW);
    same("first call under a gap rule", berth_board_open_slots(board, 0).mask, first);
    same("second call under a gap rule", berth_board_open_slots(board, 1).mask, second);
    same("S", (long)reply.struck, 7 - (long)(berth_board_open_slots(board, 0).ones + berth_board_open_slots(board, 1).ones));
    if (count == 0) {
        same_no_plan("first plan under a gap rule without rows", board, 0);
    } else {
        uint32_t trials = 1; /* the first pair's slot of call 0, and those of call 1 up to its other */
        for (uint8_t slot = 0; slot <= pairs[1]; slot++)
            trials += second >> slot & 1;
        same_found("first plan under a gap rule", board, trials, pairs, 2);
    }
    same("lift of a gap rule", (long)berth_board_lift(board, 7).reopened, (long)reply.struck);
}

/* Each form, and forms that no pair fits: they leave nothing open. A gap rule's draft takes the place of another, and takes more rows, but none that it has. */
static void draft_gaps(struct berth_board *board) {
    same("board", berth_board_start(board, (const uint8_t[]){4, 3}, 2).number, 0);
    put_gap(board, BERTH_BEFORE, 1, (const uint8_t[]){0, 1, 0, 2, 1, 2}, 3, 3, 6);
    put_gap(board, BERTH_APART, 2, (const uint8_t[]){0, 2, 2, 0, 3, 0, 3, 1}, 4, 13, 7);
    put_gap(board, BERTH_SAME, 0, (const uint8_t[]){0, 0, 1, 1, 2, 2}, 3, 7, 7);
    put_gap(board, BERTH_BEFORE, 3, NULL, 0, 0, 0);
    put_gap(board, BERTH_APART, 31, NULL, 0, 0, 0);
    same("head", berth_board_head(board, 9, (const uint8_t[]){0}, 1).number, 0);
    same("gap", berth_board_gap(board, BERTH_BEFORE, 7, 1, 0, 3).number, 0);
    same("row of the gap", berth_board_row(board, (const uint8_t[]){0, 3}, 2).number, BERTH_ROW_TWICE);
    same("another row", berth_board_row(board, (const uint8_t[]){2, 0}, 2).number, 0);
    same("put", (long)berth_board_put(board).struck, 3);
    same("first row", berth_board_support(board, 7, 1, 3).row, 0);
    same("row behind it", berth_board_support(board, 7, 1, 0).row, 1);
    same("draft that was replaced", berth_board_lift(board, 9).number, BERTH_NOT_IN_FORCE);
}

/* Each refusal of kind 6 comes before the next, and all stays as it was: the draft, too, which can be put then. 64 pairs are taken, and 72 and 65 are not. */
static void refuse_gaps(struct berth_board *board) {
    static const uint8_t wrong[][6] = { /* the refusal, and the fields */
        {BERTH_NUMBER_OVER_63, 0, 64, 5, 5, 32}, {BERTH_NUMBER_OVER_63, 3, 255, 0, 1, 0},
        {BERTH_BAD_FORM, 0, 63, 5, 5, 32}, {BERTH_BAD_FORM, 4, 63, 0, 1, 0}, {BERTH_BAD_FORM, 255, 63, 0, 1, 0},
        {BERTH_CALL_OFF_BOARD, 1, 63, 5, 5, 32}, {BERTH_CALL_OFF_BOARD, 1, 63, 5, 0, 32}, {BERTH_CALL_OFF_BOARD, 3, 63, 0, 255, 0},
        {BERTH_CALL_TWICE, 2, 63, 2, 2, 32}, {BERTH_CALL_TWICE, 3, 63, 0, 0, 0},
        {BERTH_BAD_GAP, 1, 63, 0, 2, 32}, {BERTH_BAD_GAP, 2, 63, 0, 2, 255}, {BERTH_BAD_GAP, 3, 63, 0, 2, 1},
        {BERTH_TOO_MANY_PAIRS, 2, 63, 0, 2, 0}, {BERTH_TOO_MANY_PAIRS, 1, 63, 3, 4, 0},
    };
    static struct berth_board before;
    struct berth_command_bytes made = berth_make_gap(BERTH_BEFORE, 7, 0, 1, 0);
    same("clear", berth_board_clear(board), 1);
    same("gap without a board", berth_board_gap(board, 0, 64, 5, 5, 32).number, BERTH_NO_BOARD);
    same("board", berth_board_start(board, (const uint8_t[]){8, 8, 9, 5, 15}, 5).number, 0);
    same("head", berth_board_head(board, 9, (const uint8_t[]){2}, 1).number, 0);
    same("row", berth_board_row(board, (const uint8_t[]){5}, 1).number, 0);
    before = *board;
    for (size_t i = 0; i < sizeof wrong / sizeof *wrong; i++) {
        const uint8_t *fields = wrong[i];
        struct berth_command_reply reply = berth_board_gap(board, fields[1], fields[2], fields[3], fields[4], fields[5]);
        same("refused gap", reply.number, fields[0]);
        same("its S, R and T", (long)(reply.struck + reply.reopened + reply.touched), 0);
        same("board after a refused gap", memcmp(board, &before, sizeof before), 0);
    }
    same("gap cut short", berth_board_command(board, made.bytes, 5).number, BERTH_BODY_LENGTH);
    same("gap that is too long", berth_board_command(board, made.bytes, 7).number, BERTH_BODY_LENGTH);
    same("table of a gap", berth_command(BERTH_HELD(board), made.bytes, 6, BERTH_BUFFERS_AND_MARKS(board), board->table, 31).number, BERTH_TABLE_LENGTH);
    same("board after them", memcmp(board, &before, sizeof before), 0);
    same("put of the old draft", (long)berth_board_put(board).struck, 8);
    same("its open slot", berth_board_open_slots(board, 2).mask, 1 << 5);
    same("64 pairs", berth_board_gap(board, BERTH_APART, 63, 0, 1, 0).number, 0);
    same("a row more", berth_board_row(board, (const uint8_t[]){0, 0}, 2).number, BERTH_DRAFT_FULL);
    same("put of 64 pairs", berth_board_put(board).number, 0);
    same_row("last of 64 pairs", board, 63, 63, 7, 7);
    same("all of them fit", berth_board_open_slots(board, 0).mask, 255);
}

/* A value, names, marks and a table between bytes that nobody may write; marks and table with room for one more. */
struct guarded {
    uint8_t before[64];
    struct berth_name names[2];
    uint8_t behind_names[64];
    struct berth_value value;
    uint8_t behind_value[64];
    uint8_t marks[BERTH_MARKS + 1];
    uint8_t between[64];
    struct berth_summary table[BERTH_RECORDS + 1];
    uint8_t behind[64];
};

static void same_guard(const char *what, const struct guarded *guarded) {
    for (int i = 0; i < 64; i++) {
        same(what, guarded->before[i], 0xa5);
        same(what, guarded->behind_names[i], 0xa5);
        same(what, guarded->behind_value[i], 0xa5);
        same(what, guarded->between[i], 0xa5);
        same(what, guarded->behind[i], 0xa5);
    }
    same(what, guarded->marks[BERTH_MARKS], 0xa5);
    same_record(what, guarded->table[BERTH_RECORDS], 0xa5, 0xa5, 0xa5);
}

/* A table of another length is refused just after a buffer of one, and before the command is read. Nothing changes then: not the board, and not what is lent. */
static void refuse_table(struct berth_board *board) {
    static const uint8_t lift[2] = {5, 5}, long_file[BERTH_FILE + 1];
    static const size_t lengths[] = {31, 33, 0};
    static struct berth_board before;
    static struct guarded lent, all;
    memset(&all, 0xa5, sizeof all);
    lent = all;
    before = *board;
    for (int i = 0; i < 3; i++) {
        size_t n = lengths[i];
        struct berth_command_reply reply = berth_command(BERTH_HELD(board), lift, 2, BERTH_BUFFERS_AND_MARKS(board), lent.table, n);
        same("table of another length", reply.number, BERTH_TABLE_LENGTH);
        same("S, R and T", (long)(reply.struck + reply.reopened + reply.touched), 0);
        reply = berth_command(BERTH_HELD(board), lift, 0, BERTH_BUFFERS_AND_MARKS(board), lent.table, n);
        same("table before the kind", reply.number, BERTH_TABLE_LENGTH);
        reply = berth_command(BERTH_HELD(board), lift, 1, BERTH_BUFFERS_AND_MARKS(board), lent.table, n);
        same("table before the body", reply.number, BERTH_TABLE_LENGTH);
        reply = berth_command(BERTH_HELD(board), lift, 2, board->rows, BERTH_ROWS, board->killers, BERTH_KILLERS, board->slots, 0, board->marks, BERTH_MARKS,
                              lent.table, n);
        same("buffer before the table", reply.number, BERTH_BUFFER_LENGTH);
        struct berth_replay_reply ran = berth_replay(BERTH_HELD(board), lift, 2, BERTH_BUFFERS_AND_MARKS(board), lent.table, n);
        same("table of a file", ran.number, BERTH_TABLE_LENGTH);
        ran = berth_replay(BERTH_HELD(board), long_file, sizeof long_file, BERTH_BUFFERS_AND_MARKS(board), lent.table, n);
        same("table before the file", ran.number, BERTH_TABLE_LENGTH);
        ran = berth_fresh_board(BERTH_HELD(board), BERTH_BUFFERS_AND_MARKS(board), lent.table, n);
        same("table of a fresh board", ran.number, BERTH_TABLE_LENGTH);
        same("table that was lent", memcmp(&lent, &all, sizeof all), 0);
        same("board", memcmp(board, &before, sizeof before), 0);
    }
}

/* Marks of another length are refused as any buffer is, with every kind: before table, command and file are looked at. Nothing changes then. */
static void refuse_marks(struct berth_board *board) {
    static const size_t lengths[] = {0, BERTH_MARKS / 2, BERTH_MARKS - 1, BERTH_MARKS + 1};
    static const uint8_t long_file[BERTH_FILE + 1];
    static struct berth_board before;
    static struct guarded lent, all;
    struct berth_command_bytes made[] = {
        berth_make_board((const uint8_t[]){2, 2}, 2), berth_make_head(9, (const uint8_t[]){1}, 1), berth_make_row((const uint8_t[]){1}, 1), berth_make_put(),
        berth_make_lift(5), berth_make_gap(BERTH_SAME, 9, 0, 1, 0), berth_make_mark(0), berth_make_back(0), berth_make_cancel(0), berth_make_lift(99),
    };
    memset(&all, 0xa5, sizeof all);
    lent = all;
    before = *board;
    for (size_t i = 0; i < sizeof lengths / sizeof *lengths; i++) {
        size_t n = lengths[i];
        struct berth_replay_reply ran;
        for (size_t k = 0; k < sizeof made / sizeof *made; k++) {
            const uint8_t *bytes = made[k].bytes;
            size_t length = made[k].length;
            struct berth_command_reply reply = berth_command(BERTH_HELD(board), bytes, length, BERTH_BUFFERS(board), lent.marks, n, lent.table, BERTH_RECORDS);
            same("marks of another length", reply.number, BERTH_BUFFER_LENGTH);
            same("S, R and T", (long)(reply.struck + reply.reopened + reply.touched), 0);
            reply = berth_command(BERTH_HELD(board), bytes, length, BERTH_BUFFERS(board), lent.marks, n, lent.table, 31);
            same("marks before the table", reply.number, BERTH_BUFFER_LENGTH);
            reply = berth_command(BERTH_HELD(board), bytes, 0, BERTH_BUFFERS(board), lent.marks, n, lent.table, BERTH_RECORDS);
            same("marks before the kind", reply.number, BERTH_BUFFER_LENGTH);
        }
        ran = berth_replay(BERTH_HELD(board), made[0].bytes, made[0].length, BERTH_BUFFERS(board), lent.marks, n, lent.table, BERTH_RECORDS);
        same("marks of a file", ran.number, BERTH_BUFFER_LENGTH);
        ran = berth_replay(BERTH_HELD(board), long_file, sizeof long_file, BERTH_BUFFERS(board), lent.marks, n, lent.table, 31);
        same("marks before the file", ran.number, BERTH_BUFFER_LENGTH);
        ran = berth_fresh_board(BERTH_HELD(board), BERTH_BUFFERS(board), lent.marks, n, lent.table, BERTH_RECORDS);
        same("marks of a fresh board", ran.number, BERTH_BUFFER_LENGTH);
        same("marks that were lent", memcmp(&lent, &all, sizeof all), 0);
        same("board", memcmp(board, &before, sizeof before), 0);
    }
}

/* What the table held has no effect: questions leave it, a refused command too, and an accepted one makes it current. */
static void alter_table(struct berth_board *board) {
    static const uint8_t head[7] = {2, 9, 1, 1, 255, 255, 255}, put_by_mistake[2] = {4, 4};
    static struct guarded lent, all;
    memset(&all, 0xa5, sizeof all);
    lent = all;
    memset(board->table, 0xa5, sizeof board->table);
    ask(board);
    same("table after questions", memcmp(board->table, all.table, sizeof board->table), 0);
    same("refused", berth_command(BERTH_HELD(board), put_by_mistake, 2, BERTH_BUFFERS_AND_MARKS(board), lent.table, BERTH_RECORDS).number, BERTH_BODY_LENGTH);
    same("table after a refusal", memcmp(&lent, &all, sizeof all), 0);
    same("head", berth_command(BERTH_HELD(board), head, 7, BERTH_BUFFERS_AND_MARKS(board), lent.table, BERTH_RECORDS).number, 0);
    same_table("table after a head", lent.table);
    same_guard("beside the table", &lent);
    same("head", berth_board_command(board, head, 7).number, 0);
    same_table("board's table after a head", board->table);
    memset(board->table, 0xa5, sizeof board->table);
    same("row", berth_board_row(board, (const uint8_t[]){1}, 1).number, 0);
    same_table("board's table after a row", board->table);
    same("put", berth_board_put(board).number, 0);
    same_record("record of call 0 under rule 9", berth_board_summary(board, 0), 0, 2, 2);
    same_record("record of call 1 under rule 9", berth_board_summary(board, 1), 0, 2, 2);
    same("lift", berth_board_lift(board, 9).number, 0);
    same_table("board's table after a lift", board->table);
    memset(board->table, 0xa5, sizeof board->table);
    same("gap", berth_board_gap(board, BERTH_SAME, 9, 0, 1, 0).number, 0);
    same_table("board's table after a gap", board->table);
    memset(board->table, 0xa5, sizeof board->table);
    same("mark", berth_board_mark(board, 0).number, 0);
    same_table("board's table after a mark", board->table);
    memset(board->table, 0xa5, sizeof board->table);
    same("back of nothing", berth_board_back(board, 1).number, BERTH_NOTHING_KEPT);
    same("board's table after a refused back", memcmp(board->table, all.table, sizeof board->table), 0);
    same("back", berth_board_back(board, 0).number, 0);
    same_table("board's table after a back", board->table);
    memset(board->table, 0xa5, sizeof board->table);
    same("cancel", berth_board_cancel(board, 0).number, 0);
    same_record("record of a cancelled call", berth_board_summary(board, 0), 0, 0, 2);
    same_record("record beside it", berth_board_summary(board, 1), 2, 0, 1);
    same_record("record of no call beside it", berth_board_summary(board, 2), 0, 0, 0);
    same("back", berth_board_back(board, 0).number, 0);
    same_table("board's table after a back", board->table);
}

/* What an accepted mark leaves of a board, and what a back: whatever the board holds. */
static void keep_under(struct berth_board *board, uint8_t name) {
    uint8_t *half = board->marks + BERTH_MARKS / 2 * name;
    memcpy(half, board->rows, BERTH_ROWS);
    memcpy(half + BERTH_ROWS, board->killers, BERTH_KILLERS);
    memcpy(half + BERTH_ROWS + BERTH_KILLERS, board->slots, BERTH_SLOTS);
    board->value.names[name].kept = 1;
    board->value.names[name].heads = board->value.value.heads;
}

static void bring_back(struct berth_board *board, uint8_t name) {
    const uint8_t *half = board->marks + BERTH_MARKS / 2 * name;
    memcpy(board->rows, half, BERTH_ROWS);
    memcpy(board->killers, half + BERTH_ROWS, BERTH_KILLERS);
    memcpy(board->slots, half + BERTH_ROWS + BERTH_KILLERS, BERTH_SLOTS);
    board->value.value.heads = board->value.names[name].heads;
    board->value.value.draft = berth_fresh().value.draft;
}

/* A mark on a board whose table is current: the board under the name, and nothing else, is new. */
static void same_mark(struct berth_board *board, uint8_t name) {
    static struct berth_board wanted;
    wanted = *board;
    keep_under(&wanted, name);
    struct berth_command_reply reply = berth_board_mark(board, name);
    same("mark", reply.number, 0);
    same("its S, R and T", (long)(reply.struck + reply.reopened + reply.touched), 0);
    same("board after a mark", memcmp(board, &wanted, sizeof wanted), 0);
    search_board(board, 200);
}

/* A back strikes and reopens so many slots. What was kept is there again, with this table and without a draft, and stays kept. */
static void same_back(struct berth_board *board, uint8_t name, long struck, long reopened, const struct berth_summary *table) {
    static struct berth_board wanted;
    wanted = *board;
    bring_back(&wanted, name);
    memcpy(wanted.table, table, sizeof wanted.table);
    struct berth_command_reply reply = berth_board_back(board, name);
    same("back", reply.number, 0);
    same("its S", (long)reply.struck, struck);
    same("its R", (long)reply.reopened, reopened);
    same("its T", (long)reply.touched, struck + reopened);
    same("board after a back", memcmp(board, &wanted, sizeof wanted), 0);
    same("put of a draft from before the back", berth_board_put(board).number, BERTH_NO_DRAFT);
    search_board(board, 200);
}

/* A refused command leaves all as it was. */
static void same_refusal(struct berth_board *board, struct berth_command_bytes made, uint8_t number) {
    static struct berth_board before;
    before = *board;
    struct berth_command_reply reply = berth_board_obey(board, made);
    same("refused command", reply.number, number);
    same("its S, R and T", (long)(reply.struck + reply.reopened + reply.touched), 0);
    same("board after it", memcmp(board, &before, sizeof before), 0);
    search_board(board, 200);
}

/* Without a board, with every name that is over 1, and where nothing is kept: each refusal comes before the next. */
static void refuse_names(struct berth_board *board) {
    same("clear", berth_board_clear(board), 1);
    for (int name = 0; name < 256; name++) {
        same_refusal(board, berth_make_mark((uint8_t)name), BERTH_NO_BOARD);
        same_refusal(board, berth_make_back((uint8_t)name), BERTH_NO_BOARD);
    }
    make_board(board);
    same("gap", berth_board_gap(board, BERTH_SAME, 9, 0, 1, 0).number, 0);
    same_refusal(board, berth_make_back(0), BERTH_NOTHING_KEPT);
    same_refusal(board, berth_make_back(1), BERTH_NOTHING_KEPT);
    for (int name = 2; name < 256; name++) {
        same_refusal(board, berth_make_mark((uint8_t)name), BERTH_NAME_OVER_1);
        same_refusal(board, berth_make_back((uint8_t)name), BERTH_NAME_OVER_1);
    }
    for (uint8_t kind = BERTH_MARK; kind <= BERTH_BACK; kind++) {
        same_refusal(board, berth_make_blank(kind, 1, 0), BERTH_BODY_LENGTH);
        same_refusal(board, berth_make_blank(kind, 3, 0), BERTH_BODY_LENGTH);
    }
}

/* Two boards are kept and brought back by turns. The first is that of make_board; on the second it is slot 0 of each call that is struck. */
static void keep_boards(struct berth_board *board) {
    static struct berth_board first, second;
    same("clear", berth_board_clear(board), 1);
    memset(board->marks, 0xa5, sizeof board->marks);
    make_board(board);
    same("head", berth_board_head(board, 9, (const uint8_t[]){1}, 1).number, 0);
    same("row", berth_board_row(board, (const uint8_t[]){1}, 1).number, 0);
    first = *board;
    same_mark(board, 0);
    same_refusal(board, berth_make_back(1), BERTH_NOTHING_KEPT);
    same("put of the draft that a mark leaves", (long)berth_board_put(board).struck, 2);
    same("lift", (long)berth_board_lift(board, 5).reopened, 2);
    same("gap", berth_board_gap(board, BERTH_SAME, 7, 0, 1, 0).number, 0);
    second = *board;
    same_mark(board, 1);
    same_back(board, 0, 2, 2, first.table);
    ask(board);
    same_back(board, 0, 0, 0, first.table);
    same_back(board, 1, 2, 2, second.table);
    same("killer on the second board", berth_board_row_state(board, 0, 0).killer, second.killers[0]);
    same("rule of the first board", berth_board_lift(board, 5).number, BERTH_NOT_IN_FORCE);
    same("rule of the second board", (long)berth_board_lift(board, 9).reopened, 2);
    same_back(board, 0, 2, 0, first.table);
    same("lift", (long)berth_board_lift(board, 5).reopened, 2);
    same_back(board, 1, 2, 0, second.table);
    same_back(board, 0, 2, 2, first.table);
    same_mark(board, 1);
    same("mark in place of another", memcmp(board->marks, board->marks + BERTH_MARKS / 2, BERTH_MARKS / 2), 0);
    same_back(board, 1, 0, 0, first.table);
}

/* Both names of keep_boards are forgotten with a new board, unless it is refused; another with a file's fresh board. The bytes of the marks stay. */
static void forget_boards(struct berth_board *board) {
    static struct berth_board before;
    struct berth_marked_value fresh = berth_fresh();
    before = *board;
    same("no counts", berth_board_start(board, NULL, 0).number, BERTH_BAD_COUNTS);
    same_back(board, 0, 0, 0, before.table);
    same_back(board, 1, 0, 0, before.table);
    same("new board", berth_board_start(board, (const uint8_t[]){2, 2}, 2).number, 0);
    same("names beside a new board", memcmp(board->value.names, fresh.names, sizeof fresh.names), 0);
    same("their bytes", memcmp(board->marks, before.marks, sizeof before.marks), 0);
    same_refusal(board, berth_make_back(0), BERTH_NOTHING_KEPT);
    same_refusal(board, berth_make_back(1), BERTH_NOTHING_KEPT);
    same_mark(board, 1);
    before = *board;
    struct berth_command_bytes made = berth_make_board((const uint8_t[]){2, 2}, 2);
    same("a file", berth_board_replay(board, made.bytes, made.length).number, 0);
    same("names beside a file's board", memcmp(board->value.names, fresh.names, sizeof fresh.names), 0);
    same("their bytes", memcmp(board->marks, before.marks, sizeof before.marks), 0);
    same_refusal(board, berth_make_back(1), BERTH_NOTHING_KEPT);
}

static void same_report(const char *what, struct berth_command_reply reply, long struck, long reopened, long touched) {
    same(what, reply.number, 0);
    same(what, (long)reply.struck, struck);
    same(what, (long)reply.reopened, reopened);
    same(what, (long)reply.touched, touched);
}

/* Every slot of a cancelled call is so, and no slot beyond; no row supports one. */
static void same_cancelled(const struct berth_board *board, uint8_t call, uint8_t count, uint8_t rules) {
    for (uint8_t slot = 0; slot < 32; slot++) {
        struct berth_state_reply reply = berth_board_slot_state(board, call, slot);
        same("state of a cancelled slot", reply.number, slot < count ? 0 : BERTH_NO_SUCH_SLOT);
        same("its cause", reply.cause, slot < count ? BERTH_SLOT_CANCELLED : BERTH_SLOT_ABSENT);
        same("its byte", board->slots[32 * call + slot], slot < count ? BERTH_SLOT_CANCELLED : BERTH_SLOT_ABSENT);
    }
    same("mask of a cancelled call", berth_board_open_slots(board, call).mask, 0);
    same("its ones", berth_board_open_slots(board, call).ones, 0);
    same("it is asked for its mask", berth_board_open_slots(board, call).number, 0);
    same_record("its record", berth_board_summary(board, call), 0, 0, rules);
}

/* On make_board's board call 0 is cancelled: slot 1 of call 1, which only its column struck, is open again, and the row with it lives. One mark keeps the
   cancellation, and the other none: backs cancel and uncancel, and the call's own slots are in no count. */
static void cancel_call(struct berth_board *board) {
    static struct berth_board before, first, second;
    same("clear", berth_board_clear(board), 1);
    make_board(board);
    same_mark(board, 0);
    first = before = *board;
    same_report("cancel", berth_board_cancel(board, 0), 0, 1, 1);
    same_cancelled(board, 0, 2, 2);
    same("value and names after a cancel", memcmp(&board->value, &before.value, sizeof before.value), 0);
    same("rows after it", memcmp(board->rows, before.rows, sizeof before.rows), 0);
    same("marks after it", memcmp(board->marks, before.marks, sizeof before.marks), 0);
    same("other call", berth_board_open_slots(board, 1).mask, 3);
    same_record("its record", berth_board_summary(board, 1), 2, 0, 1);
    for (uint8_t slot = 0; slot < 2; slot++) {
        same("row whose cancelled column counts no more", berth_board_row_state(board, 0, slot).killer, BERTH_NONE);
        same("support in the cancelled column", berth_board_support(board, 0, 0, slot).row, BERTH_NONE);
        same("it is asked", berth_board_support(board, 0, 0, slot).number, 0);
        same("support in the other column", berth_board_support(board, 0, 1, slot).row, slot);
    }
    same("slot that the cancelled call never had", berth_board_support(board, 0, 0, 2).number, BERTH_NO_SUCH_SLOT);
    second = *board;
    same_mark(board, 1);
    same_back(board, 0, 1, 0, first.table);
    ask(board);
    same_back(board, 1, 0, 1, second.table);
    same_cancelled(board, 0, 2, 2);
    same_report("cancel of the other call", berth_board_cancel(board, 1), 0, 0, 0);
    same_cancelled(board, 1, 2, 1);
    same_back(board, 0, 0, 0, first.table);
    same("new board", berth_board_start(board, (const uint8_t[]){2, 2}, 2).number, 0);
    same("call of the new board", berth_board_open_slots(board, 0).mask, 3);
}

/* Each refusal of a cancel comes before the next, and 29 just after 9; all stays as it was, and a draft among it. It can get rows, with any slot that the call
   had, and be put: it strikes on its other call alone. */
static void refuse_cancelled(struct berth_board *board) {
    same("clear", berth_board_clear(board), 1);
    for (int call = 0; call < 256; call++)
        same_refusal(board, berth_make_cancel((uint8_t)call), BERTH_NO_BOARD);
    same("board", berth_board_start(board, (const uint8_t[]){3, 3, 2}, 3).number, 0);
    for (int call = 3; call < 256; call++)
        same_refusal(board, berth_make_cancel((uint8_t)call), BERTH_NO_SUCH_CALL);
    same_refusal(board, berth_make_blank(BERTH_CANCEL, 1, 0), BERTH_BODY_LENGTH);
    same_refusal(board, berth_make_blank(BERTH_CANCEL, 3, 0), BERTH_BODY_LENGTH);
    same_refusal(board, berth_make_blank(BERTH_CANCEL + 1, 2, 0), BERTH_UNKNOWN_KIND);
    same("head", berth_board_head(board, 4, (const uint8_t[]){0, 2}, 2).number, 0);
    same("row", berth_board_row(board, (const uint8_t[]){0, 1}, 2).number, 0);
    same_report("cancel of a call of the draft", berth_board_cancel(board, 0), 0, 0, 0);
    same_refusal(board, berth_make_cancel(0), BERTH_ALREADY_CANCELLED);
    same_refusal(board, berth_make_head(5, (const uint8_t[]){0}, 1), BERTH_CANCELLED_CALL);
    same_refusal(board, berth_make_head(5, (const uint8_t[]){1, 2, 0}, 3), BERTH_CANCELLED_CALL);
    same_refusal(board, berth_make_head(5, (const uint8_t[]){0, 3}, 2), BERTH_CALL_OFF_BOARD);
    same_refusal(board, berth_make_head(5, (const uint8_t[]){0, 0}, 2), BERTH_CANCELLED_CALL);
    same_refusal(board, berth_make_gap(BERTH_SAME, 5, 0, 1, 1), BERTH_CANCELLED_CALL);
    same_refusal(board, berth_make_gap(BERTH_SAME, 5, 1, 0, 0), BERTH_CANCELLED_CALL);
    same_refusal(board, berth_make_gap(BERTH_SAME, 5, 0, 0, 0), BERTH_CANCELLED_CALL);
    same_refusal(board, berth_make_gap(BERTH_SAME, 5, 0, 3, 0), BERTH_CALL_OFF_BOARD);
    same_refusal(board, berth_make_gap(0, 5, 0, 1, 0), BERTH_BAD_FORM);
    struct berth_command_bytes spare = berth_make_head(5, (const uint8_t[]){1, 0}, 2);
    spare.bytes[2] = 1; /* the cancelled call stands past the arity */
    same_refusal(board, spare, BERTH_SPARE_FIELD);
    same_refusal(board, berth_make_row((const uint8_t[]){3, 1}, 2), BERTH_SLOT_OFF_CALL);
    same("row of the draft from before", berth_board_row(board, (const uint8_t[]){2, 1}, 2).number, 0);
    same_report("put of it", berth_board_put(board), 1, 0, 1);
    same("its other call", berth_board_open_slots(board, 2).mask, 2);
    same("its rows live", berth_board_row_state(board, 4, 0).killer + berth_board_row_state(board, 4, 1).killer, 510);
    same_cancelled(board, 0, 3, 1);
    same_report("lift of it", berth_board_lift(board, 4), 0, 1, 1);
}

/* A rule without rows goes on striking its other call when one is cancelled, and nothing when both are. */
static void cancel_without_rows(struct berth_board *board) {
    same("board", berth_board_start(board, (const uint8_t[]){2, 3}, 2).number, 0);
    same("head", berth_board_head(board, 0, (const uint8_t[]){0, 1}, 2).number, 0);
    same_report("put", berth_board_put(board), 5, 0, 5);
    same_report("cancel", berth_board_cancel(board, 0), 0, 0, 0);
    same_record("record of the other call", berth_board_summary(board, 1), 0, 3, 1);
    same_report("lift", berth_board_lift(board, 0), 0, 3, 3);
    same("head without the cancelled call", berth_board_head(board, 0, (const uint8_t[]){1}, 1).number, 0);
    same_report("cancel of the last call", berth_board_cancel(board, 1), 0, 0, 0);
    same_report("put on cancelled calls alone", berth_board_put(board), 0, 0, 0);
    same_cancelled(board, 1, 3, 1);
    same_report("lift of it", berth_board_lift(board, 0), 0, 0, 0);
}

/* A rule with so many rows comes into force, and its report is as it should be: nothing reopens. */
static void same_put(struct berth_board *board, uint8_t number, const uint8_t *calls, uint8_t arity, const uint8_t *rows, uint8_t count, long struck) {
    same("head", berth_board_head(board, number, calls, arity).number, 0);
    for (uint8_t w = 0; w < count; w++)
        same("row", berth_board_row(board, rows + arity * w, arity).number, 0);
    same_report("put", berth_board_put(board), struck, 0, struck);
    search_board(board, 200);
}

/* Three slots are struck: this rule leaves call 0 its slot 0, and rule 1 passes slot 1 on to call 1. Rule 2 strikes that slot too, but comes too late to be its cause. */
static void make_touched(struct berth_board *board, uint8_t number) {
    same("board", berth_board_start(board, (const uint8_t[]){3, 2}, 2).number, 0);
    same_put(board, number, (const uint8_t[]){0}, 1, (const uint8_t[]){0}, 1, 2);
    same_put(board, 1, (const uint8_t[]){0, 1}, 2, (const uint8_t[]){0, 0, 1, 1, 2, 0}, 3, 1);
    same_put(board, 2, (const uint8_t[]){1}, 1, (const uint8_t[]){0}, 1, 0);
    same("cause on call 0", berth_board_slot_state(board, 0, 1).cause, number);
    same("cause on call 1", berth_board_slot_state(board, 1, 1).cause, 1);
}

/* T is the size of the whole touched set, also of what is struck again at once. It goes by the recorded causes: rule 3 says what rule 0 says, and the one put first is the
   cause. Of the other a lift touches nothing, though the same slots are struck. */
static void touch_to_the_slot(struct berth_board *board) {
    make_touched(board, 0);
    same_report("lift that reopens one of three", berth_board_lift(board, 0), 0, 1, 3);
    same("what it leaves open", berth_board_open_slots(board, 0).mask, 5);
    make_touched(board, 0);
    same_put(board, 3, (const uint8_t[]){0}, 1, (const uint8_t[]){0}, 1, 0);
    same_report("lift that reopens nothing", berth_board_lift(board, 0), 0, 0, 3);
    make_touched(board, 3);
    same_put(board, 0, (const uint8_t[]){0}, 1, (const uint8_t[]){0}, 1, 0);
    same_report("lift of a rule that is no cause", berth_board_lift(board, 0), 0, 0, 0);
    same_report("cancel whose own slots are not counted", berth_board_cancel(board, 0), 0, 0, 1);
    same("what it leaves open", berth_board_open_slots(board, 1).mask, 1);
}

/* Two rules on three calls, put by falling number, and a draft, which is not in force. Where a plan breaks both rules the lower number is named, whichever was put
   first. A plan with a struck slot breaks a rule; the one that is named may be on other calls. */
static void check_plans(struct berth_board *board) {
    static const uint8_t struck[] = {2, 0, 1}, struck_and_broken[] = {2, 0, 2};
    same("board", berth_board_start(board, (const uint8_t[]){3, 2, 4}, 3).number, 0);
    same_kept("plan without rules", board, (const uint8_t[]){2, 1, 0}, 3);
    same_put(board, 7, (const uint8_t[]){0, 1}, 2, (const uint8_t[]){0, 0, 1, 1}, 2, 1);
    same_put(board, 3, (const uint8_t[]){1, 2}, 2, (const uint8_t[]){0, 1, 1, 2, 1, 3}, 3, 1);
    same("head", berth_board_head(board, 0, (const uint8_t[]){0}, 1).number, 0);
    same_kept("kept plan", board, (const uint8_t[]){0, 0, 1}, 3);
    same_kept("kept plan of last rows", board, (const uint8_t[]){1, 1, 3}, 3);
    same_broken("plan against the rule that was put first", board, (const uint8_t[]){0, 1, 2}, 3, 7);
    same_broken("plan against the rule that was put last", board, (const uint8_t[]){0, 0, 2}, 3, 3);
    same_broken("plan against both", board, (const uint8_t[]){0, 1, 1}, 3, 3);
    same("struck slot", berth_board_slot_state(board, 0, 2).cause, 7);
    same_broken("plan with a struck slot", board, struck, 3, 7);
    same_broken("plan with a struck slot and against a rule on other calls", board, struck_and_broken, 3, 3);
    same_report("lift", berth_board_lift(board, 3), 0, 1, 1);
    same_broken("plan against the other rule", board, struck_and_broken, 3, 7);
    same_report("lift", berth_board_lift(board, 7), 0, 1, 1);
    same_kept("plan without rules again", board, struck_and_broken, 3);
}

/* 64 rules that want the same slot of two neighbours. Of those in force that a plan breaks the lowest is named, whichever number that is. */
static void check_all_rules(struct berth_board *board) {
    uint8_t counts[32], plan[BERTH_PLAN];
    memset(counts, 2, sizeof counts);
    same("board", berth_board_start(board, counts, 32).number, 0);
    for (uint8_t number = 0; number < 64; number++) {
        same("gap", berth_board_gap(board, BERTH_SAME, number, number % 32, (number + 1) % 32, 0).number, 0);
        same("put", berth_board_put(board).number, 0);
    }
    for (uint8_t call = 0; call < 32; call++) {
        memset(plan, 1, sizeof plan);
        same_kept("plan of equal slots", board, plan, 32);
        plan[call] = 0;
        same_broken("plan with one other slot", board, plan, 32, call == 0 ? 0 : call - 1);
    }
    for (uint8_t call = 0; call < 32; call++)
        plan[call] = call % 2;
    for (uint8_t number = 0; number < 64; number++) {
        same_broken("plan against all rules", board, plan, 32, number);
        same("lift", berth_board_lift(board, number).number, 0);
    }
    same_kept("plan without rules", board, plan, 32);
}

/* A rule wants the same slot of four calls, and any of them are cancelled: their columns are not compared, and a plan has no slot for them. Where all four are, the
   rule asks nothing. */
static void check_cancelled_columns(struct berth_board *board) {
    for (int cancelled = 0; cancelled < 16; cancelled++) {
        same("board", berth_board_start(board, (const uint8_t[]){2, 2, 2, 2}, 4).number, 0);
        same_put(board, 9, (const uint8_t[]){0, 1, 2, 3}, 4, (const uint8_t[]){0, 0, 0, 0, 1, 1, 1, 1}, 2, 0);
        for (uint8_t call = 0; call < 4; call++)
            if (cancelled >> call & 1)
                same_report("cancel", berth_board_cancel(board, call), 0, 0, 0);
        for (int slots = 0; slots < 16; slots++) {
            int rest = 15 & ~cancelled, ones = slots & rest;
            uint8_t plan[4];
            for (int call = 0; call < 4; call++)
                plan[call] = (uint8_t)(slots >> call & 1);
            if (cancelled)
                same_bad_byte("plan with a slot for a cancelled call", board, plan, 4);
            for (int call = 0; call < 4; call++)
                plan[call] = cancelled >> call & 1 ? BERTH_NONE : plan[call];
            if (ones == 0 || ones == rest)
                same_kept("plan of equal slots beside cancelled calls", board, plan, 4);
            else
                same_broken("plan of other slots beside cancelled calls", board, plan, 4, 9);
        }
        uint8_t first[4];
        uint32_t trials = 0;
        for (int call = 0; call < 4; call++) {
            first[call] = cancelled >> call & 1 ? BERTH_NONE : 0;
            trials += first[call] == 0;
        }
        same_found("first plan beside cancelled calls", board, trials, first, 4);
    }
}

/* A rule without rows is broken by every plan as long as one of its calls is not cancelled, and by none when both are. */
static void check_without_rows(struct berth_board *board) {
    same("board", berth_board_start(board, (const uint8_t[]){2, 3}, 2).number, 0);
    same_put(board, 4, (const uint8_t[]){0, 1}, 2, NULL, 0, 5);
    for (uint8_t first = 0; first < 2; first++)
        for (uint8_t second = 0; second < 3; second++)
            same_broken("plan against a rule without rows", board, (const uint8_t[]){first, second}, 2, 4);
    same_report("cancel", berth_board_cancel(board, 0), 0, 0, 0);
    for (uint8_t second = 0; second < 3; second++)
        same_broken("plan beside a cancelled call of it", board, (const uint8_t[]){BERTH_NONE, second}, 2, 4);
    same_report("cancel", berth_board_cancel(board, 1), 0, 0, 0);
    same_kept("plan where all its calls are cancelled", board, (const uint8_t[]){BERTH_NONE, BERTH_NONE}, 2);
}

/* Any byte for any call: of a call that is not cancelled its slots are taken, struck or not, and of all others 255 alone. */
static void check_bytes(struct berth_board *board) {
    static const int counts[32] = {3, 0, 32, 1}; /* of a cancelled call none */
    static struct berth_board before;
    same("board", berth_board_start(board, (const uint8_t[]){3, 2, 32, 1}, 4).number, 0);
    same_put(board, 8, (const uint8_t[]){0}, 1, (const uint8_t[]){1}, 1, 2);
    same_report("cancel", berth_board_cancel(board, 1), 0, 0, 0);
    before = *board;
    for (int call = 0; call < BERTH_PLAN; call++)
        for (int byte = 0; byte < 256; byte++) {
            uint8_t plan[BERTH_PLAN] = {1, BERTH_NONE, 0, 0};
            memset(plan + 4, BERTH_NONE, sizeof plan - 4);
            plan[call] = (uint8_t)byte;
            struct berth_plan_reply reply = berth_board_check_plan(board, plan, BERTH_PLAN);
            if (counts[call] == 0 ? byte != BERTH_NONE : byte >= counts[call])
                same_check("plan with a wrong byte", reply, BERTH_BAD_PLAN_BYTE, 254);
            else
                same_check("plan without a wrong byte", reply, 0, call == 0 && byte != 1 ? 8 : BERTH_NONE);
        }
    same("board after the plans", memcmp(board, &before, sizeof before), 0);
}

/* Each refusal of a plan comes before the next, on a board and without one. Every plan of one byte alone is wrong on the board; one that is kept there is refused for
   its length. */
static void refuse_plans(struct berth_board *board) {
    static const size_t lengths[] = {0, 1, 31, BERTH_PLAN, 33, 64, BERTH_PLAN + 256}, sizes[3] = {BERTH_ROWS, BERTH_KILLERS, BERTH_SLOTS};
    static const uint8_t bytes[] = {0, 32, 254, 255};
    static struct lent_plan lent, all;
    same("clear", berth_board_clear(board), 1);
    for (int started = 0; started < 2; started++) {
        if (started)
            make_board(board);
        for (size_t i = 0; i < sizeof bytes * (sizeof lengths / sizeof *lengths); i++) {
            size_t length = lengths[i / sizeof bytes];
            int number = length != BERTH_PLAN ? BERTH_PLAN_LENGTH : started ? BERTH_BAD_PLAN_BYTE : BERTH_NO_BOARD;
            lend_buffers(&lent, board);
            memset(lent.plan, bytes[i % sizeof bytes], sizeof lent.plan);
            all = lent;
            same_check("refused plan", berth_board_check_plan(board, lent.plan, length), number, 254);
            same_check("refused plan", berth_check_plan(board->value.value, BERTH_BUFFERS(&lent), lent.plan, length), number, 254);
            for (int part = 0; part < 3; part++)
                for (int wrong = 0; wrong < 3; wrong++) {
                    size_t n[3] = {sizes[0], sizes[1], sizes[2]};
                    n[part] = wrong == 0 ? 0 : wrong == 1 ? n[part] - 1 : n[part] + 1;
                    struct berth_plan_reply reply =
                        berth_check_plan(board->value.value, lent.rows, n[0], lent.killers, n[1], lent.slots, n[2], lent.plan, length);
                    same_check("buffer before the plan", reply, BERTH_BUFFER_LENGTH, 254);
                }
            same("memory that was lent with a refused plan", memcmp(&lent, &all, sizeof all), 0);
        }
    }
    memset(lent.plan, BERTH_NONE, sizeof lent.plan);
    lent.plan[0] = lent.plan[1] = 0;
    for (size_t i = 0; i < sizeof lengths / sizeof *lengths; i++) {
        int fits = lengths[i] == BERTH_PLAN;
        struct berth_plan_reply reply = berth_board_check_plan(board, lent.plan, lengths[i]);
        same_check("plan of each length", reply, fits ? 0 : BERTH_PLAN_LENGTH, fits ? BERTH_NONE : 254);
    }
}

/* A plan that is kept at a mark is broken by a rule that is put then, and wrong when a call is cancelled; after a back it is kept again. */
static void check_after_back(struct berth_board *board) {
    static const uint8_t plan[] = {0, 0}, after_cancel[] = {0, BERTH_NONE};
    same("clear", berth_board_clear(board), 1);
    make_board(board);
    same("mark", berth_board_mark(board, 0).number, 0);
    same_put(board, 9, (const uint8_t[]){1}, 1, (const uint8_t[]){1}, 1, 2);
    same_broken("plan from before the mark", board, plan, 2, 9);
    same("back", berth_board_back(board, 0).number, 0);
    same_kept("plan after a back", board, plan, 2);
    same("cancel", berth_board_cancel(board, 1).number, 0);
    same_bad_byte("plan from before a cancel", board, plan, 2);
    same_kept("plan after a cancel", board, after_cancel, 2);
    same("back", berth_board_back(board, 0).number, 0);
    same_kept("plan after another back", board, plan, 2);
    same_bad_byte("plan from before the back", board, after_cancel, 2);
}

/* Two calls of two slots are kept apart. */
static void put_apart(struct berth_board *board, uint8_t number, uint8_t first, uint8_t second) {
    same_put(board, number, (const uint8_t[]){first, second}, 2, (const uint8_t[]){0, 1, 1, 0}, 2, 0);
}

/* Three calls of two slots, each two of them apart: every slot is open, and there is no full plan. */
static void make_triangle(struct berth_board *board) {
    same("board", berth_board_start(board, (const uint8_t[]){2, 2, 2}, 3).number, 0);
    put_apart(board, 0, 0, 1);
    put_apart(board, 1, 1, 2);
    put_apart(board, 2, 0, 2);
}

/* The sample searches S1 to S8 of docs/SCOPE.md, with their ceilings and with others: S1 and S2 are one board. */
static void search_samples(struct berth_board *board) {
    static const uint8_t s1[] = {0, 1, 0}, s4[] = {0, BERTH_NONE, 1}, s7[] = {1, 0, 2};
    same("board", berth_board_start(board, (const uint8_t[]){3, 3, 2}, 3).number, 0);
    same_put(board, 0, (const uint8_t[]){0, 1}, 2, (const uint8_t[]){0, 1, 0, 2, 1, 2}, 3, 2);
    same_search("S1", board, 3, first_reply(0, BERTH_PLAN_FOUND, 3, s1, 3));
    same_search("S2", board, 2, first_reply(0, BERTH_SEARCH_STOPPED, 2, NULL, 0));
    same_found("S1 and S2", board, 3, s1, 3);
    make_triangle(board);
    same_search("S3", board, 10, first_reply(0, BERTH_NO_PLAN, 10, NULL, 0));
    same_no_plan("S3", board, 10);
    same("cancel", berth_board_cancel(board, 1).number, 0);
    same_search("S4", board, 100, first_reply(0, BERTH_PLAN_FOUND, 3, s4, 3));
    same_found("S4", board, 3, s4, 3);
    same("cancel", berth_board_cancel(board, 0).number, 0);
    same("cancel", berth_board_cancel(board, 2).number, 0);
    same_search("S5", board, 0, first_reply(0, BERTH_PLAN_FOUND, 0, NULL, 0));
    same_found("S5", board, 0, NULL, 0);
    same("board", berth_board_start(board, (const uint8_t[]){2, 2}, 2).number, 0);
    same_put(board, 0, (const uint8_t[]){1}, 1, NULL, 0, 2);
    same_search("S6", board, 100, first_reply(0, BERTH_NO_PLAN, 2, NULL, 0));
    same_no_plan("S6", board, 2);
    same("board", berth_board_start(board, (const uint8_t[]){2, 2, 3}, 3).number, 0);
    put_apart(board, 0, 0, 1);
    same_put(board, 1, (const uint8_t[]){1, 2}, 2, (const uint8_t[]){0, 1, 1, 0, 0, 2}, 3, 0);
    same_put(board, 2, (const uint8_t[]){0, 2}, 2, (const uint8_t[]){0, 1, 1, 0, 1, 2}, 3, 0);
    same_search("S7", board, UINT32_MAX, first_reply(0, BERTH_PLAN_FOUND, 11, s7, 3));
    same_found("S7", board, 11, s7, 3);
    same("clear", berth_board_clear(board), 1);
    same_search("S8", board, 100, first_reply(BERTH_NO_BOARD, 254, 0, NULL, 0));
}

/* Rules without rows. On call 0 one leaves nothing to lay: there is no plan, with 0 trials and with ceiling 0. Where all its calls are cancelled it asks nothing
   of the calls that are laid, and nothing where none is. A draft asks nothing either. */
static void search_without_rows(struct berth_board *board) {
    same("board", berth_board_start(board, (const uint8_t[]){2, 3, 2}, 3).number, 0);
    same("head", berth_board_head(board, 63, (const uint8_t[]){0}, 1).number, 0);
    same_found("first plan beside a draft without rows", board, 3, (const uint8_t[]){0, 0, 0}, 3);
    same_put(board, 4, (const uint8_t[]){0, 1}, 2, NULL, 0, 5);
    same_no_plan("first plan where call 0 has no open slot", board, 0);
    same_report("cancel", berth_board_cancel(board, 0), 0, 0, 0);
    same_no_plan("first plan where call 1 has no open slot", board, 0);
    same_report("cancel", berth_board_cancel(board, 1), 0, 0, 0);
    same_found("first plan beside a rule that binds nothing", board, 1, (const uint8_t[]){BERTH_NONE, BERTH_NONE, 0}, 3);
    same_report("cancel", berth_board_cancel(board, 2), 0, 0, 0);
    same_found("first plan without a call", board, 0, NULL, 0);
}

/* The triangle on three of 32 calls, the others with one slot, and under any three neighbouring numbers: a rule is looked at with the last of its calls,
   whichever number it has, and wherever its calls are. */
static void search_all_rules(struct berth_board *board) {
    static const uint8_t corners[][3] = {{0, 1, 2}, {29, 30, 31}, {0, 15, 31}}, trials[] = {10, 39, 68};
    for (uint8_t number = 0; number < 64; number++)
        for (int i = 0; i < 3; i++) {
            uint8_t counts[32];
            memset(counts, 1, sizeof counts);
            for (int corner = 0; corner < 3; corner++)
                counts[corners[i][corner]] = 2;
            same("board", berth_board_start(board, counts, 32).number, 0);
            put_apart(board, number, corners[i][2], corners[i][0]);
            put_apart(board, (number + 1) % 64, corners[i][1], corners[i][2]);
            put_apart(board, (number + 2) % 64, corners[i][0], corners[i][1]);
            same_no_plan("triangle under each number", board, trials[i]);
        }
}

/* Nine calls of eight slots, each two of them apart. As many trials as ways to lay up to eight different slots, and each time eight of the next call. */
static void search_long(struct berth_board *board) {
    uint8_t counts[9], number = 0;
    uint32_t ways = 1, trials = 0;
    memset(counts, 8, sizeof counts);
    same("board", berth_board_start(board, counts, 9).number, 0);
    for (uint8_t second = 1; second < 9; second++)
        for (uint8_t first = 0; first < second; first++) {
            same("gap", berth_board_gap(board, BERTH_APART, number++, first, second, 1).number, 0);
            same_report("put", berth_board_put(board), 0, 0, 0);
        }
    for (uint32_t laid = 0; laid <= 8; laid++) {
        trials += 8 * ways;
        ways *= 8 - laid;
    }
    same("trials", (long)trials, 876808);
    same_no_plan("nine calls in eight slots", board, trials);
    same("cancel", berth_board_cancel(board, 3).number, 0);
    same_found("eight calls in eight slots", board, 36, (const uint8_t[]){0, 1, 2, BERTH_NONE, 3, 4, 5, 6, 7}, 9);
}

/* A buffer of another length is refused before it is seen that there is no board. A refusal has no trials and no plan, whatever the ceiling. */
static void refuse_search(struct berth_board *board) {
    static const size_t sizes[3] = {BERTH_ROWS, BERTH_KILLERS, BERTH_SLOTS};
    static const uint32_t ceilings[] = {0, 1, 2, 1000, UINT32_MAX};
    static struct lent_plan lent, all;
    same("clear", berth_board_clear(board), 1);
    for (int started = 0; started < 2; started++) {
        if (started)
            make_board(board);
        lend_buffers(&lent, board);
        all = lent;
        for (size_t i = 0; i < sizeof ceilings / sizeof *ceilings; i++) {
            if (!started)
                same_search("search without a board", board, ceilings[i], first_reply(BERTH_NO_BOARD, 254, 0, NULL, 0));
            for (int part = 0; part < 3; part++)
                for (int wrong = 0; wrong < 3; wrong++) {
                    size_t n[3] = {sizes[0], sizes[1], sizes[2]};
                    n[part] = wrong == 0 ? 0 : wrong == 1 ? n[part] - 1 : n[part] + 1;
                    struct berth_first_reply reply =
                        berth_first_plan(board->value.value, lent.rows, n[0], lent.killers, n[1], lent.slots, n[2], ceilings[i]);
                    same_first("buffer before the board", reply, first_reply(BERTH_BUFFER_LENGTH, 254, 0, NULL, 0));
                }
        }
        same("memory that was lent for a refused search", memcmp(&lent, &all, sizeof all), 0);
    }
    same_found("search after the refused ones", board, 2, (const uint8_t[]){0, 0}, 2);
}

/* The plan of a mark is found again after a back, and others between: where a rule is put, and where calls are cancelled. */
static void search_after_back(struct berth_board *board) {
    same("clear", berth_board_clear(board), 1);
    make_triangle(board);
    same("lift", berth_board_lift(board, 2).number, 0);
    same_mark(board, 1);
    same_found("first plan at a mark", board, 4, (const uint8_t[]){0, 1, 0}, 3);
    same_put(board, 9, (const uint8_t[]){2}, 1, (const uint8_t[]){1}, 1, 3);
    same_found("first plan under another rule", board, 3, (const uint8_t[]){1, 0, 1}, 3);
    same("back", berth_board_back(board, 1).number, 0);
    same_found("first plan after a back", board, 4, (const uint8_t[]){0, 1, 0}, 3);
    same("cancel", berth_board_cancel(board, 1).number, 0);
    same_found("first plan after a cancel", board, 2, (const uint8_t[]){0, BERTH_NONE, 0}, 3);
    same("back", berth_board_back(board, 1).number, 0);
    same_found("first plan after another back", board, 4, (const uint8_t[]){0, 1, 0}, 3);
}

/* A command on a board of any contents writes nothing beside the value, the names, the marks and the table that it is lent, and of names and marks no more than
   it has to; refused, it writes nothing at all. A cancel leaves the value and the rows. */
static void obey_altered(struct berth_board *board, struct berth_command_bytes made) {
    static struct berth_board wanted;
    static struct guarded lent, was;
    uint8_t kind = made.bytes[0], name = made.bytes[1];
    memset(&was, 0xa5, sizeof was);
    was.value = board->value.value;
    memcpy(was.names, board->value.names, sizeof was.names);
    memcpy(was.marks, board->marks, BERTH_MARKS);
    lent = was;
    wanted = *board;
    uint8_t number =
        berth_command(&lent.value, lent.names, made.bytes, made.length, BERTH_BUFFERS(board), lent.marks, BERTH_MARKS, lent.table, BERTH_RECORDS).number;
    same_guard("beside what an altered board is lent", &lent);
    same("an altered board's own value and names", memcmp(&board->value, &wanted.value, sizeof board->value), 0);
    same("an altered board's own marks", memcmp(board->marks, wanted.marks, sizeof board->marks), 0);
    same("an altered board's own table", memcmp(board->table, wanted.table, sizeof board->table), 0);
    board->value.value = lent.value;
    memcpy(board->value.names, lent.names, sizeof lent.names);
    memcpy(board->marks, lent.marks, BERTH_MARKS);
    if (number != 0) {
        same("an altered board that refuses", memcmp(board, &wanted, sizeof wanted), 0);
        same("its table", memcmp(lent.table, was.table, sizeof was.table), 0);
    } else if (kind == BERTH_MARK) {
        keep_under(&wanted, name);
        same("a mark of an altered board", memcmp(board, &wanted, sizeof wanted), 0);
    } else if (kind == BERTH_BACK) {
        bring_back(&wanted, name);
        same("a back on altered memory", memcmp(board, &wanted, sizeof wanted), 0);
    } else {
        struct berth_marked_value left = kind == BERTH_BOARD ? berth_fresh() : wanted.value;
        same("names of an altered board", memcmp(board->value.names, left.names, sizeof left.names), 0);
        same("marks of an altered board", memcmp(board->marks, wanted.marks, sizeof board->marks), 0);
    }
    if (kind == BERTH_CANCEL && number == 0) {
        same("value after a cancel on altered memory", memcmp(&board->value, &wanted.value, sizeof board->value), 0);
        same("rows after it", memcmp(board->rows, wanted.rows, sizeof board->rows), 0);
        same("state after it", berth_board_slot_state(board, made.bytes[1], 0).cause, BERTH_SLOT_CANCELLED);
    }
    if (kind == BERTH_BOARD) {
        same("a new board on altered memory", number, 0);
        same("kept beside it", board->value.names[0].kept + board->value.names[1].kept, 0);
        same_record("its record of call 1", lent.table[1], 2, 0, 0);
        same_record("its record of call 2", lent.table[2], 0, 0, 0);
    }
}

/* A plan on a board of any contents is kept, breaks a rule, or is refused. */
static struct berth_plan_reply check_altered(const struct berth_board *board, const uint8_t *plan) {
    struct berth_plan_reply reply = berth_board_check_plan(board, plan, BERTH_PLAN);
    if (reply.number == 0)
        same("reply to a plan on an altered board", reply.broken == BERTH_NONE || reply.broken < 64, 1);
    else
        same("refused plan on an altered board", reply.broken, 254);
    return reply;
}

/* A plan with no wrong byte, whatever the board holds: this slot, or the last of a call that does not have it. */
static void make_plan(const struct berth_board *board, uint8_t slot, uint8_t *plan) {
    for (uint8_t call = 0; call < BERTH_PLAN; call++) {
        uint8_t count = board->value.value.heads.counts[call];
        plan[call] = slot < count ? slot : count - 1; /* BERTH_NONE where the count is 0 */
        if (berth_board_slot_state(board, call, 0).cause == BERTH_SLOT_CANCELLED)
            plan[call] = BERTH_NONE;
    }
}

/* The questions on a board of any contents write nothing. */
static void ask_altered(const struct berth_board *board) {
    static const uint8_t numbers[] = {0, 1, 31, 63, 255};
    static struct berth_board before;
    uint8_t plan[BERTH_PLAN];
    before = *board;
    for (size_t i = 0; i < sizeof numbers; i++) {
        uint8_t number = numbers[i];
        berth_board_open_slots(board, number);
        berth_board_slot_state(board, number, 31);
        berth_board_row_state(board, number, 63);
        berth_board_row_bytes(board, number, 63);
        berth_board_support(board, number, 3, 31);
        memset(plan, number, sizeof plan);
        check_altered(board, plan);
        make_plan(board, number, plan);
        same("plan without a wrong byte", check_altered(board, plan).number, board->value.value.heads.counts[0] == 0 ? BERTH_NO_BOARD : 0);
        same_search("search on an altered board", board, number / 4, search_literally(board, number / 4));
    }
    same("an altered board that is asked", memcmp(board, &before, sizeof before), 0);
}

enum { COMMANDS = 26 };

/* Commands for altered boards: all kinds, with marks, backs and cancels between them. */
static void make_any(struct berth_command_bytes *made) {
    const struct berth_command_bytes all[COMMANDS] = {
        berth_make_head(0, (const uint8_t[]){0}, 1), berth_make_row((const uint8_t[]){1}, 1), berth_make_put(), berth_make_lift(0),
        berth_make_back(1), berth_make_put(), berth_make_lift(63), berth_make_cancel(1), berth_make_mark(0),
        berth_make_gap(BERTH_BEFORE, 63, 0, 31, 22), berth_make_gap(BERTH_APART, 0, 31, 30, 0), berth_make_gap(BERTH_SAME, 1, 2, 3, 200),
        berth_make_gap(255, 255, 255, 255, 255), berth_make_mark(2), berth_make_back(255), berth_make_cancel(255), berth_make_cancel(31),
        berth_make_gap(BERTH_SAME, 0, 1, 0, 0), berth_make_row((const uint8_t[]){3, 1}, 2), berth_make_put(), berth_make_mark(1),
        berth_make_back(0), berth_make_lift(0), berth_make_cancel(0), berth_make_back(1), berth_make_board((const uint8_t[]){2, 2}, 2),
    };
    memcpy(made, all, sizeof all);
}

static const uint8_t altered_bytes[] = {0, 1, 3, 4, 31, 32, 63, 64, 200, 253, 254, 255};

/* Each command on altered memory, and one after another. */
static void alter_board(void) {
    static struct fenced alone, chain;
    struct berth_command_bytes made[COMMANDS];
    make_any(made);
    raise_fence(&alone);
    raise_fence(&chain);
    for (size_t i = 0; i < sizeof altered_bytes; i++) {
        memset(&chain.board, altered_bytes[i], sizeof chain.board);
        for (size_t k = 0; k < COMMANDS; k++) {
            memset(&alone.board, altered_bytes[i], sizeof alone.board);
            obey_altered(&alone.board, made[k]);
            obey_altered(&chain.board, made[k]);
            ask_altered(&chain.board);
        }
    }
    same_fence(&alone);
    same_fence(&chain);
}

/* The host alters the bytes of both marks, their names, or both: a back brings what it finds there, and commands on that board return and stay inside. */
static void alter_marks(void) {
    static struct fenced fenced;
    struct berth_board *board = &fenced.board;
    struct berth_command_bytes made[COMMANDS];
    make_any(made);
    raise_fence(&fenced);
    for (size_t i = 0; i < sizeof altered_bytes; i++)
        for (int part = 1; part <= 3; part++) {
            same("clear", berth_board_clear(board), 1);
            make_board(board);
            same("mark", berth_board_mark(board, 0).number, 0);
            same("mark", berth_board_mark(board, 1).number, 0);
            if (part & 1)
                memset(board->marks, altered_bytes[i], sizeof board->marks);
            if (part & 2)
                memset(board->value.names, altered_bytes[i], sizeof board->value.names);
            ask(board);
            obey_altered(board, berth_make_back(0));
            ask_altered(board);
            for (size_t k = 0; k < COMMANDS; k++) {
                obey_altered(board, made[k]);
                ask_altered(board);
            }
        }
    same_fence(&fenced);
}

/* The host writes 253 where no call was cancelled: on a call's first slot alone, on others alone, past the slots, and on a call that is not there. Commands
   return and stay inside. */
static void strew_cancelled(void) {
    static const int places[] = {0, 1, 2, 31, 32, 33, 34, 64, 1023};
    static struct fenced fenced;
    struct berth_board *board = &fenced.board;
    struct berth_command_bytes made[COMMANDS];
    make_any(made);
    raise_fence(&fenced);
    for (size_t i = 0; i < sizeof places / sizeof *places; i++)
        for (size_t j = i; j < sizeof places / sizeof *places; j++) {
            same("clear", berth_board_clear(board), 1);
            make_board(board);
            board->slots[places[i]] = board->slots[places[j]] = BERTH_SLOT_CANCELLED;
            for (size_t k = 0; k < COMMANDS; k++) {
                obey_altered(board, made[k]);
                ask_altered(board);
            }
        }
    same_fence(&fenced);
}

/* The host writes counts, arities, calls and lengths that do not go together, and any rows and killers; every third call is cancelled. Questions return and write
   nothing. */
static void mix_heads(void) {
    static const uint8_t bytes[] = {0, 31, 200, 255};
    static struct fenced fenced;
    struct berth_board *board = &fenced.board;
    struct berth_heads *heads = &board->value.value.heads;
    raise_fence(&fenced);
    same("clear", berth_board_clear(board), 1);
    memset(board->slots, BERTH_SLOT_OPEN, sizeof board->slots);
    for (int call = 0; call < 32; call += 3)
        memset(board->slots + 32 * call, BERTH_SLOT_CANCELLED, 32);
    for (int mix = 0; mix < 1024; mix++) {
        memset(heads->counts, bytes[mix & 3], sizeof heads->counts);
        memset(heads->arity, bytes[mix >> 2 & 3], sizeof heads->arity);
        memset(heads->scope, bytes[mix >> 4 & 3], sizeof heads->scope);
        memset(heads->lengths, bytes[mix >> 6 & 3], sizeof heads->lengths);
        memset(board->rows, bytes[mix >> 8], sizeof board->rows);
        memset(board->killers, bytes[mix >> 8], sizeof board->killers);
        ask_altered(board);
    }
    same_fence(&fenced);
}

/* A number below this one, of a sequence that is the same in each run. */
static uint32_t below(uint32_t count) {
    static uint32_t state = 1;
    state ^= state << 13;
    state ^= state >> 17;
    state ^= state << 5;
    return state % count;
}

/* Any bytes in the value and the buffers, or such as lead far into a search; half of the slots are open, or few. The search ends, and is the literal one. */
static void strew_bytes(void) {
    static struct fenced fenced;
    struct berth_board *board = &fenced.board;
    long endings[3] = {0, 0, 0};
    raise_fence(&fenced);
    memset(board, 0xa5, sizeof *board);
    for (int round = 0; round < 2000; round++) {
        uint8_t *parts[] = {(uint8_t *)&board->value.value, board->rows, board->killers, board->slots};
        const size_t sizes[] = {sizeof board->value.value, BERTH_ROWS, BERTH_KILLERS, BERTH_SLOTS};
        for (int part = 0; part < 4; part++)
            for (size_t i = 0; i < sizes[part]; i++)
                parts[part][i] = (uint8_t)(round % 2 ? below(256) : below(8) ? below(3) : altered_bytes[below(sizeof altered_bytes)]);
        for (int i = 0; round % 3 && i < BERTH_SLOTS; i++)
            board->slots[i] = below(2) ? BERTH_SLOT_OPEN : board->slots[i];
        for (int i = 0; round % 4 && i < 64; i++)
            board->value.value.heads.arity[i] = below(40) ? 0 : board->value.value.heads.arity[i];
        uint32_t ceiling = below(4) ? below(200) : below(3);
        struct berth_first_reply wanted = search_literally(board, ceiling);
        same_search("search on any bytes", board, ceiling, wanted);
        if (wanted.number == 0)
            endings[wanted.ending]++;
    }
    for (int ending = 0; ending < 3; ending++)
        same("searches on any bytes that end in each way", endings[ending] > 100, 1);
    same_fence(&fenced);
}

/* A file leaves what its commands leave one by one, up to one that cannot be read; one that is too long changes nothing. */
static void replay(struct berth_board *board) {
    static const uint8_t lift_without_board[] = {5, 9, 4, 0};
    static uint8_t file[BERTH_FILE + 1];
    static struct fenced fenced;
    struct berth_board *other = &fenced.board;
    struct berth_command_bytes made[] = {
        berth_make_lift(9), berth_make_board((const uint8_t[]){2, 2}, 2), berth_make_head(0, (const uint8_t[]){0}, 1), berth_make_row((const uint8_t[]){1}, 1),
        berth_make_put(), berth_make_mark(0), berth_make_cancel(1), berth_make_lift(0), berth_make_mark(1), berth_make_back(0),
        berth_make_gap(BERTH_SAME, 1, 0, 1, 0), berth_make_cancel(1),
    };
    size_t length = 0;
    raise_fence(&fenced);
    same("clear", berth_board_clear(other), 1);
    for (size_t i = 0; i < sizeof made / sizeof *made; i++) {
        memcpy(file + length, made[i].bytes, made[i].length);
        length += made[i].length;
        berth_board_obey(other, made[i]);
    }
    struct berth_replay_reply reply = berth_board_replay(board, file, length);
    same("commands run", (long)reply.ran, 12);
    same("end of the file", reply.number, 0);
    same("board after the file", memcmp(board, other, sizeof *other), 0);
    same_record("record after the file", board->table[0], 1, 1, 1);
    same_record("record of the cancelled call", board->table[1], 0, 0, 0);
    same("file that is too long", berth_board_replay(board, file, sizeof file).number, BERTH_FILE_LENGTH);
    same("board after it", memcmp(board, other, sizeof *other), 0);
    reply = berth_board_replay(board, lift_without_board, 4);
    same("commands before an unknown kind", (long)reply.ran, 2);
    same("unknown kind", reply.number, BERTH_UNKNOWN_KIND);
    same("clear", berth_board_clear(other), 1);
    same("board after refusals alone", memcmp(board, other, sizeof *other), 0);
    reply = berth_fresh_board(BERTH_HELD(board), board->rows, 1, board->killers, BERTH_KILLERS, board->slots, BERTH_SLOTS, board->marks, BERTH_MARKS,
                              board->table, BERTH_RECORDS);
    same("short rows", reply.number, BERTH_BUFFER_LENGTH);
    same_fence(&fenced);
}

/* The first plan that is kept of all that the slots of the calls make, in rising order: 1, or 0 where there is none. */
static int first_kept(const struct berth_board *board, uint8_t *plan, int call) {
    if (call == 32)
        return berth_board_check_plan(board, plan, BERTH_PLAN).broken == BERTH_NONE;
    uint8_t count = board->value.value.heads.counts[call];
    plan[call] = BERTH_NONE;
    if (count == 0 || is_off(board, call))
        return first_kept(board, plan, call + 1);
    for (plan[call] = 0; plan[call] < count; plan[call]++)
        if (first_kept(board, plan, call + 1))
            return 1;
    return 0;
}

/* Up to five calls of up to three slots, rules with any rows, gap rules, and now and then a call that is cancelled. What is refused is left out. */
static void make_random(struct berth_board *board) {
    uint8_t counts[5], calls[5] = {0, 1, 2, 3, 4}, count = (uint8_t)(1 + below(5));
    for (int call = 0; call < count; call++)
        counts[call] = (uint8_t)(below(4) ? 2 : 1 + below(3));
    same("board", berth_board_start(board, counts, count).number, 0);
    for (uint32_t rules = below(5); rules > 0; rules--) {
        uint8_t arity = (uint8_t)(1 + below(count < 4 ? count : 4)), row[4];
        for (uint8_t k = 0; k < arity; k++) {
            uint32_t other = k + below((uint32_t)(count - k));
            uint8_t call = calls[other];
            calls[other] = calls[k];
            calls[k] = call;
        }
        berth_board_head(board, (uint8_t)below(64), calls, arity);
        for (uint32_t rows = 2 + below(20); rows > 0; rows--) {
            for (int k = 0; k < arity; k++)
                row[k] = (uint8_t)below(counts[calls[k]]);
            berth_board_row(board, row, arity);
        }
        berth_board_put(board);
        if (below(12) == 0)
            berth_board_cancel(board, (uint8_t)below(count));
    }
    for (uint32_t gaps = below(6); gaps > 0; gaps--) {
        berth_board_gap(board, BERTH_APART, (uint8_t)below(64), (uint8_t)below(count), (uint8_t)below(count), 1);
        berth_board_put(board);
    }
}

/* On random boards the search is the literal one, at its count, one below and anywhere, and its plan the first that is kept of all. Some of them have no plan
   though every slot that is left is supported, and some have one behind slots in vain. */
static void search_random(struct berth_board *board) {
    long none = 0, behind = 0;
    for (int round = 0; round < 3000; round++) {
        uint8_t plan[BERTH_PLAN];
        make_random(board);
        struct berth_first_reply reply = search_literally(board, UINT32_MAX);
        int calls = 0;
        for (int call = 0; call < BERTH_PLAN; call++)
            calls += reply.plan[call] != BERTH_NONE;
        search_board(board, UINT32_MAX);
        search_board(board, reply.trials);
        search_board(board, below(reply.trials + 1));
        if (reply.trials > 0)
            search_board(board, reply.trials - 1);
        same("a plan is found where one is kept", reply.ending, first_kept(board, plan, 0) ? BERTH_PLAN_FOUND : BERTH_NO_PLAN);
        if (reply.ending == BERTH_PLAN_FOUND)
            same("first plan that is kept", memcmp(reply.plan, plan, sizeof plan), 0);
        none += reply.ending == BERTH_NO_PLAN && reply.trials > 0;
        behind += reply.ending == BERTH_PLAN_FOUND && reply.trials > (uint32_t)calls;
    }
    same("random boards without a plan", none > 50, 1);
    same("random boards with a plan behind slots in vain", behind > 50, 1);
}

/* The sizes that the header says, and the library's own. */
static void measure(void) {
    same("version", (long)berth_version(), BERTH_VERSION);
    same("size of value and names", (long)berth_value_size(), BERTH_VALUE_SIZE);
    same("header fits", berth_header_fits(), 1);
    same("size of the board's value", (long)sizeof(struct berth_value), 679);
    same("a name's size", (long)sizeof(struct berth_name), 417);
    same("a board's size", (long)sizeof(struct berth_board), 66121);
    same("a record's size", (long)sizeof(struct berth_summary), 3);
    same("size of a command's reply", (long)sizeof(struct berth_command_reply), 32);
    same("size of a replay's reply", (long)sizeof(struct berth_replay_reply), 16);
    same("size of a search's reply", (long)sizeof(struct berth_first_reply), 40);
}

/* Every number with its text; berth.rs has to say the same. */
static void print_texts(void) {
    for (int number = 0; number < 256; number++)
        printf("%d %s\n", number, berth_refusal_text((uint8_t)number));
}

int main(int words, char **word) {
    static struct fenced fenced;
    struct berth_board *board = &fenced.board;
    if (words > 1 && strcmp(word[1], "texts") == 0) {
        print_texts();
        return 0;
    }
    measure();
    build();
    raise_fence(&fenced);
    clear(board);
    make_board(board);
    summarise(board);
    ask(board);
    refuse(board);
    refuse_table(board);
    refuse_marks(board);
    alter_table(board);
    alter_board();
    alter_marks();
    strew_cancelled();
    mix_heads();
    strew_bytes();
    replay(board);
    support_lowest(board);
    draft_gaps(board);
    refuse_gaps(board);
    refuse_names(board);
    keep_boards(board);
    forget_boards(board);
    cancel_call(board);
    refuse_cancelled(board);
    cancel_without_rows(board);
    touch_to_the_slot(board);
    check_plans(board);
    check_all_rules(board);
    check_cancelled_columns(board);
    check_without_rows(board);
    check_bytes(board);
    refuse_plans(board);
    check_after_back(board);
    search_samples(board);
    search_without_rows(board);
    search_all_rules(board);
    search_long(board);
    refuse_search(board);
    search_after_back(board);
    search_random(board);
    same_fence(&fenced);
    printf("header: %s\n", failed ? "FAILED" : "every function answers from C as it should");
    return failed;
}
