/* Measures the stack that the library's functions need, which no contract speaks of: a thread paints its stack, sends a command or asks the questions, and looks
   how deep the paint is gone. The board is the largest, and its commands strike, reopen, keep boards, bring them back, cancel calls, and refuse; in the end they
   are replayed as a file. The plans that are checked are kept, so every rule is looked at. The search for a first plan takes the most, so it is measured apart
   from the rest, and in the end on the board where its way down is longest. Fails where it is more than the header says, where not all of a file is run, where a
   plan is not kept, and where a search does not find the plan or makes other trials than it should. */
#define _XOPEN_SOURCE 700
#include "berth.h"
#include <pthread.h>
#include <stdio.h>

enum { AREA = 1 << 20, PAINT = 0xA5, OWN = 256, REST = 12288 }; /* REST is what the header says is enough for all but the search */

static uint8_t area[AREA] __attribute__((aligned(4096)));
static struct berth_board board;
static size_t deepest, deepest_search;
static unsigned long commands, file_commands;
static uint8_t file[BERTH_FILE];
static size_t file_length;
static int replayed = 1;
static int kept = 1;
static int found = 1;

/* Paints all of the thread's stack that lies below this function's own frame. */
static __attribute__((noinline)) void paint(void) {
    const uint8_t *frame = __builtin_frame_address(0);
    memset(area, PAINT, (size_t)(frame - area) - OWN);
}

static __attribute__((noinline)) void look(const uint8_t *place, size_t *most) {
    size_t left = 0;
    while (area[left] == PAINT)
        left++;
    size_t depth = (size_t)(place - area) - left;
    *most = depth > *most ? depth : *most;
}

/* A command for the next replay. */
static void append(struct berth_command_bytes made) {
    memcpy(file + file_length, made.bytes, made.length);
    file_length += made.length;
    file_commands++;
}

static void command(struct berth_command_bytes made) {
    const uint8_t *place = __builtin_frame_address(0);
    paint();
    berth_board_obey(&board, made);
    look(place, &deepest);
    commands++;
    append(made);
}

static void replay(void) {
    const uint8_t *place = __builtin_frame_address(0);
    paint();
    int cleared = berth_board_clear(&board);
    struct berth_replay_reply reply = berth_board_replay(&board, file, file_length);
    look(place, &deepest);
    replayed = replayed && cleared && reply.ran == file_commands;
    file_commands = 0;
    file_length = 0;
}

/* A search that is to find this plan with so many trials, and is stopped where it may make one less. */
static void search(const uint8_t *plan, uint32_t trials) {
    const uint8_t *place = __builtin_frame_address(0);
    paint();
    struct berth_first_reply reply = berth_board_first_plan(&board, trials);
    uint8_t ending = trials > 0 ? berth_board_first_plan(&board, trials - 1).ending : BERTH_SEARCH_STOPPED;
    look(place, &deepest_search);
    found = found && reply.ending == BERTH_PLAN_FOUND && reply.trials == trials && memcmp(reply.plan, plan, sizeof reply.plan) == 0;
    found = found && ending == BERTH_SEARCH_STOPPED;
}

/* The plan has slot 0 of each call that is not cancelled. It is kept: every rule of the session has a row with slot 0 in all columns. So it is the first, and
   its slots are the only trials. */
static void questions(uint8_t number) {
    static uint8_t plan[BERTH_PLAN];
    const uint8_t *place = __builtin_frame_address(0);
    uint32_t slots = 0;
    for (uint8_t call = 0; call < BERTH_PLAN; call++) {
        plan[call] = berth_board_slot_state(&board, call, 0).cause == BERTH_SLOT_CANCELLED ? BERTH_NONE : 0;
        slots += plan[call] == 0;
    }
    paint();
    berth_board_open_slots(&board, number);
    berth_board_slot_state(&board, number, 31);
    berth_board_row_state(&board, number, 31);
    berth_board_row_bytes(&board, number, 31);
    berth_board_support(&board, number, 0, 31);
    struct berth_plan_reply reply = berth_board_check_plan(&board, plan, sizeof plan);
    look(place, &deepest);
    kept = kept && reply.broken == BERTH_NONE;
    search(plan, slots);
}

/* A rule with as many rows as the slots given: the same slot in each column. */
static void rule(uint8_t number, const uint8_t *calls, size_t arity, uint8_t slots) {
    command(berth_make_head(number, calls, arity));
    for (uint8_t slot = 0; slot < slots; slot++) {
        uint8_t row[4] = {slot, slot, slot, slot};
        command(berth_make_row(row, arity));
    }
    command(berth_make_put());
}

/* A gap rule on calls 0 and 31, put and lifted; where it is refused, so are these two. */
static void gap_rule(uint8_t form, uint8_t gap) {
    command(berth_make_gap(form, 63, 0, 31, gap));
    command(berth_make_put());
    command(berth_make_lift(63));
}

/* A back, a mark and a back again under each name, and under one that there is not. The first is refused where nothing is kept. */
static void back_and_mark(void) {
    for (uint8_t name = 0; name < 3; name++) {
        command(berth_make_back(name));
        command(berth_make_mark(name));
        command(berth_make_back(name));
    }
}

/* Each call is cancelled, and then it cannot be; nor can the one past the last. The first, on which all strikes lean, reopens those of the others. No rule can be on
   one then. */
static void cancel_calls(void) {
    for (uint8_t call = 0; call <= 32; call++) {
        command(berth_make_cancel(call));
        questions(call);
        command(berth_make_cancel(call));
    }
    command(berth_make_head(62, (const uint8_t[]){0, 1, 2, 3}, 4));
    command(berth_make_gap(BERTH_SAME, 62, 0, 31, 0));
}

/* The longest way down: two rules on each two neighbours, and all pairs of slots that both have are with the last slot of the first call. Every slot is open.
   Each of its other 31 slots is one trial, and 32 of the next call in vain; the last stays. That is 1,024 trials for each call but call 31, where the first slot
   stays. So the search is at the last slot of every call but one when it ends. */
static void search_deepest(void) {
    uint8_t counts[32], plan[BERTH_PLAN];
    memset(counts, 32, sizeof counts);
    append(berth_make_board(counts, 32));
    for (uint8_t number = 0; number < 62; number++) {
        uint8_t call = number / 2, second = number % 2;
        append(berth_make_head(number, (const uint8_t[]){call, call + 1}, 2));
        for (uint8_t slot = 0; slot < 32; slot++)
            append(berth_make_row((const uint8_t[]){31, slot}, 2));
        for (uint8_t slot = 0; slot < 31; slot++)
            append(berth_make_row((const uint8_t[]){slot, second}, 2));
        append(berth_make_put());
    }
    replay();
    memset(plan, 31, sizeof plan);
    plan[31] = 0;
    search(plan, 31745);
}

/* Rules of four neighbours, twice over; beside them gap rules one by one, and then a rule that leaves a single slot of each call, put and lifted. The board without
   this rule is kept, and brought back when nothing is in force. In the end it is put once more, and the calls are cancelled. */
static void *session(void *nothing) {
    uint8_t counts[33];
    memset(counts, 32, sizeof counts);
    command(berth_make_lift(0));
    command(berth_make_mark(0));
    command(berth_make_back(0));
    command(berth_make_board(counts, 32));
    for (uint8_t number = 0; number < 63; number++) {
        uint8_t calls[4];
        for (uint8_t k = 0; k < 4; k++)
            calls[k] = (uint8_t)((number + k) % 32);
        rule(number, calls, 4, 32);
    }
    for (uint8_t form = 0; form <= BERTH_SAME; form++) {
        gap_rule(form, 0);
        gap_rule(form, 25);
    }
    back_and_mark();
    rule(63, (const uint8_t[]){0}, 1, 1);
    questions(0);
    command(berth_make_put());
    for (int number = 63; number >= 0; number--)
        command(berth_make_lift((uint8_t)number));
    questions(0);
    back_and_mark();
    questions(0);
    rule(63, (const uint8_t[]){0}, 1, 1);
    cancel_calls();
    back_and_mark();
    command(berth_make_board(counts, 33));
    replay();
    search_deepest();
    return nothing;
}

int main(void) {
    pthread_attr_t attributes;
    pthread_t thread;
    if (pthread_attr_init(&attributes) != 0 || pthread_attr_setstack(&attributes, area, AREA) != 0)
        return 1;
    if (!berth_board_clear(&board) || pthread_create(&thread, &attributes, session, NULL) != 0 || pthread_join(thread, NULL) != 0)
        return 1;
    printf("stack: %zu bytes at most for the search of a plan, %zu for all else over %lu commands; the header says %d and %d\n", deepest_search, deepest, commands,
           BERTH_STACK, REST);
    return deepest_search > BERTH_STACK || deepest > REST || !replayed || !kept || !found;
}
