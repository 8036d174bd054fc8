/* The worked session of docs/SCOPE.md on a board of a C host, behind it a gap rule that is tried between a mark and a back, and a call that is cancelled: a line
   for each command, as the sheet program writes it, and after puts, lifts, the back and the cancellation the open slots of every call and its figures from the
   summary table. Plans are checked on the way, and the first plan is searched. What was refused, and why, goes to standard error. */
#include "berth.h"
#include <stdio.h>

static void print_reply(enum berth_kind kind, struct berth_command_reply reply) {
    if (reply.number == 0) {
        printf("a %d %zu %zu\n", kind, reply.struck, reply.reopened);
        return;
    }
    printf("r %d %d\n", kind, reply.number);
    fprintf(stderr, "refused: %s\n", berth_refusal_text(reply.number));
}

static void print_calls(const struct berth_board *board) {
    for (uint8_t call = 0; call < 32; call++) {
        struct berth_slots_reply reply = berth_board_open_slots(board, call);
        if (reply.number != 0)
            return;
        printf("c %d", call);
        if (berth_board_slot_state(board, call, 0).cause == BERTH_SLOT_CANCELLED)
            printf(" -"); /* the call is cancelled */
        for (int slot = 0; slot < 32; slot++)
            if (reply.mask >> slot & 1)
                printf(" %d", slot);
        printf("\n");
        struct berth_summary figures = berth_board_summary(board, call);
        printf("call %d: open %d, struck %d, rules %d\n", call, figures.open, figures.struck, figures.rules);
    }
}

/* A plan from elsewhere: a slot for each of the two calls, BERTH_NONE for a cancelled one, and for those that are not on the board. */
static void print_plan(const struct berth_board *board, uint8_t first, uint8_t second) {
    uint8_t plan[BERTH_PLAN];
    memset(plan, BERTH_NONE, sizeof plan);
    plan[0] = first;
    plan[1] = second;
    struct berth_plan_reply reply = berth_board_check_plan(board, plan, sizeof plan);
    printf("plan %d %d: ", first, second);
    if (reply.number != 0) {
        printf("refused %d\n", reply.number);
        fprintf(stderr, "refused: %s\n", berth_refusal_text(reply.number));
    } else if (reply.broken == BERTH_NONE) {
        printf("kept\n");
    } else {
        printf("breaks rule %d\n", reply.broken);
    }
}

/* The first full plan within so many trials. It is then checked, and kept. */
static void print_first_plan(const struct berth_board *board, uint32_t ceiling) {
    struct berth_first_reply reply = berth_board_first_plan(board, ceiling);
    printf("first plan within %u: ", (unsigned)ceiling);
    if (reply.number != 0) {
        printf("refused %d\n", reply.number);
        fprintf(stderr, "refused: %s\n", berth_refusal_text(reply.number));
        return;
    }
    const char *ending = reply.ending == BERTH_PLAN_FOUND ? "found" : reply.ending == BERTH_NO_PLAN ? "none" : "stopped";
    printf("%s, trials %u\n", ending, (unsigned)reply.trials);
    if (reply.ending == BERTH_PLAN_FOUND)
        print_plan(board, reply.plan[0], reply.plan[1]);
}

int main(void) {
    static const uint8_t counts[] = {2, 2}, calls[] = {0, 1}, row_0[] = {0, 0}, row_1[] = {1, 1};
    static struct berth_board board;
    if (!berth_board_clear(&board)) {
        fprintf(stderr, "libberth.a is not the library of this berth.h (versions %u and %u)\n", (unsigned)berth_version(), BERTH_VERSION);
        return 1;
    }
    print_reply(BERTH_BOARD, berth_board_start(&board, counts, 2));
    print_reply(BERTH_HEAD, berth_board_head(&board, 0, calls, 2));
    print_reply(BERTH_ROW, berth_board_row(&board, row_0, 2));
    print_reply(BERTH_ROW, berth_board_row(&board, row_1, 2));
    print_reply(BERTH_PUT, berth_board_put(&board));
    print_calls(&board);
    print_reply(BERTH_HEAD, berth_board_head(&board, 5, calls, 1));
    print_reply(BERTH_ROW, berth_board_row(&board, row_0, 1));
    print_reply(BERTH_PUT, berth_board_put(&board));
    print_calls(&board);
    print_plan(&board, 0, 0);
    print_plan(&board, 1, 1);
    print_first_plan(&board, 100);
    print_reply(BERTH_LIFT, berth_board_lift(&board, 5));
    print_calls(&board);
    print_reply(BERTH_LIFT, berth_board_lift(&board, 5));
    print_reply(BERTH_MARK, berth_board_mark(&board, 0));
    print_reply(BERTH_LIFT, berth_board_lift(&board, 0));
    print_reply(BERTH_GAP, berth_board_gap(&board, BERTH_BEFORE, 0, 0, 1, 1));
    print_reply(BERTH_PUT, berth_board_put(&board));
    print_calls(&board);
    print_first_plan(&board, 2);
    print_first_plan(&board, 1);
    print_reply(BERTH_BACK, berth_board_back(&board, 0));
    print_calls(&board);
    print_reply(BERTH_CANCEL, berth_board_cancel(&board, 1));
    print_calls(&board);
    print_plan(&board, 1, BERTH_NONE);
    print_first_plan(&board, 100);
    printf("end\n");
    return 0;
}
