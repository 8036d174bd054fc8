/*
 * The berth board, for a host in C (C99 and later) or C++. Link libberth.a.
 *
 * A board has 1 to 32 calls, each with 1 to 32 slots, and up to 64 rules. Everything is numbered from 0 and is one unsigned byte. The library keeps nothing:
 * the host holds a value, the names of two marks, four buffers and a summary table. It lends all of it to commands, which write it in place, and to questions
 * three of the buffers; the value they are handed as a copy. struct berth_board below holds all of it.
 *
 * Each function is proved to return, and to stay inside what it is lent, whatever the value, the names, the buffers, the table and the bytes of a command, a file
 * or a plan hold. What the host has to see to: the library is the header's (berth_header_fits), a pointer is not null and reaches as far as its length says, or
 * as one value or two names do, and what is lent to one call, value and names among it, does not overlap.
 *
 * A board takes 66,121 bytes, 43,008 of them the marks'; value and names, which are held beside the buffers, are 1,513. The library takes nothing from a heap. It
 * has no variables, so boards have nothing to do with each other: threads may work on different boards at once. A board is one thread's at a time, except that
 * several may ask it questions while none sends a command.
 *
 * Memory that is lent, in bytes:
 *   value       679  struct berth_value: the calls, the heads of the rules in force, and the draft.
 *   names       834  two of struct berth_name, that of name 0 first: whether a board is kept under the name, its calls and the heads of its rules. Only a mark
 *                    command writes here, and only its own name, and a board command and a replay, which forget both.
 *   rows     16,384  row w of rule r fills four bytes from 256 * r + 4 * w: a slot for each column, 255 in a spare column. Rows beyond a rule's last, and
 *                    rules out of force, hold 255.
 *   killers   4,096  byte 64 * r + w is the column (0 to 3) of a struck slot in row w of rule r where that row is dead, else 255. The
 *                    column of a cancelled call kills no row.
 *   slots     1,024  byte 32 * call + slot is 255 for an open slot, 254 for one that is not on the board, 253 for one of a cancelled call, which is neither open
 *                    nor struck, else its cause: the number of a rule on its call. No other byte says that a call is cancelled.
 *   marks    43,008  two marks of 21,504 bytes, that of name 0 first: the three buffers above, in their order, of the board that is kept under the name. Only a
 *                    mark command writes here, and only its own name's half; where nothing is kept the bytes are any.
 *   table        96  record c, of three bytes, has the figures of call c: its open slots, its struck slots, and the rules in force on it. A call that is not on
 *                    the board has zeros; a cancelled one has no open and no struck slot, and the rules on it are counted as ever.
 * Before the first command rows, killers, slots and table hold 255, 255, 254 and 0 throughout, and the marks anything, beside the value and the names of
 * berth_fresh(). As long as only commands write value, names and buffers, what is open is arc consistent under the rules in force, taken without the columns of
 * cancelled calls, and no larger set of slots is; and a command that is accepted brings all of the table up to date, whatever it held. If the host alters any of
 * it, a mark or its name among it, functions still return, stay inside and change nothing when they refuse; of an altered mark, a back brings back what it finds.
 *
 * A command is one byte of kind and a body:
 *   1 board  32 slot counts, 0 after the last call      a new board, without rules, draft, marks and cancelled calls
 *   2 head   number, arity (1 to 4), four calls         a draft of a rule, in place of any other
 *   3 row    four slots                                 one more row of the draft
 *   4 put    nothing                                    brings the draft into force, and leaves no draft
 *   5 lift   number                                     the rule leaves force, and the draft stays
 *   6 gap    form, number, first and second call, gap   a draft of a gap rule with its rows, in place of any other
 *   7 mark   name (0 or 1)                              keeps the board under the name, in place of any other; the draft stays
 *   8 back   name                                       brings the board under the name back, and leaves no draft; the mark stays kept
 *   9 cancel call                                       cancels the call until the next board command; the draft stays
 * Calls and slots past the arity are 255. A mark keeps calls, rules, rows and slots, causes and killers, and which calls are cancelled: a back may cancel some
 * and uncancel others.
 *
 * The column of a cancelled call counts in no row: a row lives as long as its slots in the other columns are open. A rule all of whose calls are cancelled binds
 * nothing; one without rows strikes its other calls. A new rule cannot be on a cancelled call, but a draft from before can get more rows, with any slot that the
 * call had, and be put.
 *
 * A gap rule is on two calls. Its rows are all pairs of slots, a of the first call and b of the second, that fit its form, in rising order of a, then of b:
 *   1 before  a + gap is at most b
 *   2 apart   a and b are the gap or more apart, whichever is lower
 *   3 same    a is b, and the gap is 0
 * There may be none. Its draft is one like any other: more rows may follow.
 */
#ifndef BERTH_H
#define BERTH_H

#include <stddef.h>
#include <stdint.h>
#include <string.h>

#ifdef __cplusplus
extern "C" {
#endif

#define BERTH_ROWS 16384
#define BERTH_KILLERS 4096
#define BERTH_SLOTS 1024
#define BERTH_MARKS 43008

/* The bytes of slots that have no cause, in the buffer and in the answer on a slot's state. */
#define BERTH_SLOT_OPEN 255
#define BERTH_SLOT_ABSENT 254 /* not on the board; in an answer, refused */
#define BERTH_SLOT_CANCELLED 253

/* A row's killer where it lives, the row where there is no support, a field past the arity, a plan's byte for a call without a slot, and a plan that is kept. */
#define BERTH_NONE 255

/* Value and names together, struct berth_marked_value. */
#define BERTH_VALUE_SIZE 1513

/* The summary table's length, in records. */
#define BERTH_RECORDS 32

/* The longest file of commands that is read. */
#define BERTH_FILE 32768

/* The bytes of a plan. */
#define BERTH_PLAN 32

/*
 * The stack that a call needs, with the copies of the value that the questions are handed. It is measured and not proved, on x86-64. berth_first_plan alone
 * needs so much: on the board where its way down is longest, hosts/stack.c found 21,584 bytes. Over every other function and the commands of a full board it
 * found 12,008, the most: for a host that never asks for a plan, 12,288 are enough. That the search needs no more rests on the compiler of the library, which
 * makes a loop of the step from slot to slot, and keeps the words of the rows once; each run of the gate
 * measures both again.
 */
#define BERTH_STACK 32768

/* The version that this header is of. It rises with any change of a struct, of a function or of what one means. */
#define BERTH_VERSION 11

/* The version of the library, and the bytes of its value and names. They are plain numbers, so that they can be asked whatever else differs. */
uint32_t berth_version(void);
size_t berth_value_size(void);

/* The kinds of commands. */
enum berth_kind {
    BERTH_BOARD = 1,
    BERTH_HEAD = 2,
    BERTH_ROW = 3,
    BERTH_PUT = 4,
    BERTH_LIFT = 5,
    BERTH_GAP = 6,
    BERTH_MARK = 7,
    BERTH_BACK = 8,
    BERTH_CANCEL = 9
};

/* The forms of gap rules. */
enum berth_form { BERTH_BEFORE = 1, BERTH_APART = 2, BERTH_SAME = 3 };

/* How the search for a plan ended. */
enum berth_ending { BERTH_NO_PLAN = 0, BERTH_PLAN_FOUND = 1, BERTH_SEARCH_STOPPED = 2 };

/*
 * A reply's number: 0, or why it was refused; berth_refusal_text has the conditions. The first that holds decides: commands and questions check in the order
 * that stands with them below. BERTH_FILE_LENGTH is of whole files alone, of berth_replay's and the sheet program's; BERTH_TABLE_LENGTH is of no question.
 */
enum berth_refusal {
    BERTH_BUFFER_LENGTH = 1,
    BERTH_FILE_LENGTH = 2,
    BERTH_UNKNOWN_KIND = 3,
    BERTH_BODY_LENGTH = 4,
    BERTH_BAD_COUNTS = 5,
    BERTH_NO_BOARD = 6,
    BERTH_NUMBER_OVER_63 = 7,
    BERTH_BAD_ARITY = 8,
    BERTH_CALL_OFF_BOARD = 9,
    BERTH_CALL_TWICE = 10,
    BERTH_SPARE_FIELD = 11,
    BERTH_NO_DRAFT = 12,
    BERTH_DRAFT_FULL = 13,
    BERTH_SLOT_OFF_CALL = 14,
    BERTH_ROW_TWICE = 15,
    BERTH_NUMBER_IN_FORCE = 16,
    BERTH_NOT_IN_FORCE = 17,
    BERTH_NO_SUCH_CALL = 18,
    BERTH_NO_SUCH_SLOT = 19,
    BERTH_NO_SUCH_ROW = 20,
    BERTH_NO_SUCH_COLUMN = 21,
    BERTH_TABLE_LENGTH = 22,
    BERTH_BAD_FORM = 23,
    BERTH_BAD_GAP = 24,
    BERTH_TOO_MANY_PAIRS = 25,
    BERTH_NAME_OVER_1 = 26,
    BERTH_NOTHING_KEPT = 27,
    BERTH_ALREADY_CANCELLED = 28,
    BERTH_CANCELLED_CALL = 29,
    BERTH_PLAN_LENGTH = 32,
    BERTH_BAD_PLAN_BYTE = 33
};

/* The condition that a refusal's number stands for; of 0, that there was none. */
static inline const char *berth_refusal_text(uint8_t number) {
    switch (number) {
    case 0: return "accepted";
    case BERTH_BUFFER_LENGTH: return "a buffer is not of its length";
    case BERTH_FILE_LENGTH: return "the input is over 32,768 bytes";
    case BERTH_UNKNOWN_KIND: return "no kind has this number, or there is no byte at all";
    case BERTH_BODY_LENGTH: return "the body is cut short, or bytes are left over behind it";
    case BERTH_BAD_COUNTS: return "the first count is 0, one is over 32, or one is not 0 after a 0";
    case BERTH_NO_BOARD: return "there is no board";
    case BERTH_NUMBER_OVER_63: return "the rule's number is over 63";
    case BERTH_BAD_ARITY: return "the arity is not 1 to 4";
    case BERTH_CALL_OFF_BOARD: return "a call of the rule is not on the board";
    case BERTH_CALL_TWICE: return "a call stands twice in the rule";
    case BERTH_SPARE_FIELD: return "a field past the arity is not 255";
    case BERTH_NO_DRAFT: return "there is no draft";
    case BERTH_DRAFT_FULL: return "the draft has 64 rows";
    case BERTH_SLOT_OFF_CALL: return "a slot of the row is not on its call";
    case BERTH_ROW_TWICE: return "the row is in the draft already";
    case BERTH_NUMBER_IN_FORCE: return "the draft's number is in force already";
    case BERTH_NOT_IN_FORCE: return "no rule of this number is in force";
    case BERTH_NO_SUCH_CALL: return "there is no such call";
    case BERTH_NO_SUCH_SLOT: return "there is no such slot";
    case BERTH_NO_SUCH_ROW: return "the rule has no such row";
    case BERTH_NO_SUCH_COLUMN: return "the rule has no such column";
    case BERTH_TABLE_LENGTH: return "the summary table is not 32 records";
    case BERTH_BAD_FORM: return "the form is not 1 to 3";
    case BERTH_BAD_GAP: return "the gap is over 31, or not 0 in form 3";
    case BERTH_TOO_MANY_PAIRS: return "more than 64 pairs of slots fit";
    case BERTH_NAME_OVER_1: return "the mark's name is over 1";
    case BERTH_NOTHING_KEPT: return "nothing is kept under the name";
    case BERTH_ALREADY_CANCELLED: return "the call is cancelled already";
    case BERTH_CANCELLED_CALL: return "a call of the new rule is cancelled";
    case BERTH_PLAN_LENGTH: return "the plan is not 32 bytes";
    case BERTH_BAD_PLAN_BYTE: return "a byte of the plan is no slot of its call, or is not 255 where the call gets none";
    default: return "no refusal has this number";
    }
}

/* The calls and the heads of the rules in force. */
struct berth_heads {
    uint8_t counts[32];  /* slots of each call; 0 after the last call */
    uint8_t arity[64];   /* columns of each rule; 0 where the number is not in force */
    uint8_t scope[256];  /* calls of rule r from 4 * r on; 255 past its columns */
    uint8_t lengths[64]; /* rows of each rule */
};

/* A rule. An arity of 0 means that there is none. */
struct berth_rule {
    uint8_t arity;
    uint8_t scope[4];  /* its calls; 255 past its columns */
    uint8_t length;    /* number of rows */
    uint8_t rows[256]; /* row w from 4 * w on; 255 past its columns and rows */
};

/* The rule that is being written, and the number that it is to come into force under. */
struct berth_draft {
    uint8_t number;
    struct berth_rule rule;
};

/* The board's value: what commands are lent, and questions are handed. */
struct berth_value {
    struct berth_heads heads;
    struct berth_draft draft;
};

/* The name of a mark: what is held of the mark beside its bytes. */
struct berth_name {
    uint8_t kept;             /* 1 where a board is kept, 0 where none is */
    struct berth_heads heads; /* its calls and the heads of its rules; a fresh board's where none is */
};

/* All that is held beside the buffers, with no padding. */
struct berth_marked_value {
    struct berth_value value;
    struct berth_name names[2];
};

/* The figures of a call: a record of the summary table. */
struct berth_summary {
    uint8_t open;   /* its open slots; 0 where it is cancelled */
    uint8_t struck; /* its struck slots; 0 where it is cancelled */
    uint8_t rules;  /* the rules in force on it, cancelled or not */
};

/* The compiler leaves no room between the fields. */
typedef char berth_value_is_packed[sizeof(struct berth_marked_value) == BERTH_VALUE_SIZE ? 1 : -1];
typedef char berth_summary_is_packed[sizeof(struct berth_summary) == 3 ? 1 : -1];

/* Whether the linked library is the one that this header describes: 1, or 0, and then no other function may be called. */
static inline int berth_header_fits(void) {
    return berth_version() == BERTH_VERSION && berth_value_size() == sizeof(struct berth_marked_value);
}

/* The value and the names before the first command. */
struct berth_marked_value berth_fresh(void);

/*
 * A command. The value, the two names, the buffers and the table are written in place; where it is refused, all of them stay as they were. None of them may
 * overlap another or the command's bytes. Of the names an accepted mark writes its own, an accepted board both, and any other kind neither.
 * Checked, by kind: 1, 22, 3, 4, then
 *   board 5; head 6, 7, 8, 9, 29, 10, 11; row 6, 12, 13, 14, 11, 15; put 6, 12, 16; lift 6, 7, 17; gap 6, 7, 23, 9, 29, 10, 24, 25; mark 6, 26; back 6, 26, 27;
 *   cancel 6, 18, 28.
 * A slot of a call that is cancelled, before the command or after it, is in none of the three counts: so a cancel strikes nothing.
 */
struct berth_command_reply {
    size_t struck;   /* S: slots open before and struck after */
    size_t reopened; /* R: slots struck before and open after */
    size_t touched;  /* T: of a put S; of a back S + R. Of a lift the size of the smallest set that has the slots whose cause is the rule, and each slot that stands
                        in a row of its cause with the row's killer in the set: so those reopened, and those struck again. Of a cancel the same from the struck
                        slots of the call, which are not counted */
    uint8_t number;  /* 0, or the refusal; S, R and T are 0 then, and for all kinds but put, lift, back and cancel */
};

struct berth_command_reply berth_command(struct berth_value *value, struct berth_name *names, const uint8_t *bytes, size_t bytes_length, uint8_t *rows,
                                         size_t rows_length, uint8_t *killers, size_t killers_length, uint8_t *slots, size_t slots_length, uint8_t *marks,
                                         size_t marks_length, struct berth_summary *table, size_t table_length);

/*
 * A file of commands, one after another, at most BERTH_FILE bytes. The memory becomes a fresh board's, whatever it held: nothing is kept under either name, and
 * the bytes of the marks stay. Then each command is run, and those that are refused change nothing, up to the file's end or the first that cannot be read (3, 4).
 * The table is current then, too. All is lent as to berth_command. Checked before anything is changed: 1, 22, 2.
 */
struct berth_replay_reply {
    size_t ran;     /* commands that were run, also those that were refused */
    uint8_t number; /* 1, 22 or 2, and nothing was changed; else how the file ended: 0 where all of it was run, or 3 or 4 */
};

struct berth_replay_reply berth_replay(struct berth_value *value, struct berth_name *names, const uint8_t *file, size_t file_length, uint8_t *rows,
                                       size_t rows_length, uint8_t *killers, size_t killers_length, uint8_t *slots, size_t slots_length, uint8_t *marks,
                                       size_t marks_length, struct berth_summary *table, size_t table_length);

/* The memory becomes a fresh board's, whatever it held: a file without commands is replayed. Checked: 1, 22; where it is refused nothing changes. */
static inline struct berth_replay_reply berth_fresh_board(struct berth_value *value, struct berth_name *names, uint8_t *rows, size_t rows_length,
                                                          uint8_t *killers, size_t killers_length, uint8_t *slots, size_t slots_length, uint8_t *marks,
                                                          size_t marks_length, struct berth_summary *table, size_t table_length) {
    static const uint8_t no_commands[1] = {0};
    return berth_replay(value, names, no_commands, 0, rows, rows_length, killers, killers_length, slots, slots_length, marks, marks_length, table, table_length);
}

/*
 * The questions. They write nothing, so each is handed a copy of the value, and they are lent neither the names, nor the marks, nor the table.
 *
 * The slots of a call. Checked: 1, 6, 18.
 */
struct berth_slots_reply {
    uint32_t mask;  /* bit s is set exactly for an open slot s; 0 where refused, and of a cancelled call */
    uint32_t ones;  /* the number of open slots; 0 where refused, and of a cancelled call */
    uint8_t number; /* 0, or the refusal */
};

struct berth_slots_reply berth_open_slots(struct berth_value value, const uint8_t *rows, size_t rows_length, const uint8_t *killers, size_t killers_length,
                                          const uint8_t *slots, size_t slots_length, uint8_t call);

/* The state of a slot. Checked: 1, 6, 18, 19. */
struct berth_state_reply {
    uint8_t number; /* 0, or the refusal */
    uint8_t cause;  /* BERTH_SLOT_OPEN; BERTH_SLOT_CANCELLED, with its call; else the cause; BERTH_SLOT_ABSENT where refused */
};

struct berth_state_reply berth_slot_state(struct berth_value value, const uint8_t *rows, size_t rows_length, const uint8_t *killers, size_t killers_length,
                                          const uint8_t *slots, size_t slots_length, uint8_t call, uint8_t slot);

/* A row of a rule. Checked: 1, 6, 7, 17, 20. */
struct berth_row_reply {
    uint8_t number; /* 0, or the refusal */
    uint8_t killer; /* BERTH_NONE where the row lives; else the killer's column; 254 where refused */
};

struct berth_row_reply berth_row_state(struct berth_value value, const uint8_t *rows, size_t rows_length, const uint8_t *killers, size_t killers_length,
                                       const uint8_t *slots, size_t slots_length, uint8_t rule, uint8_t row);

/* Where the same row's four bytes stand in the row buffer that was lent. */
struct berth_place_reply {
    size_t place;
    size_t length; /* 4; 0, with place 0, where berth_row_state refuses */
};

struct berth_place_reply berth_row_place(struct berth_value value, const uint8_t *rows, size_t rows_length, const uint8_t *killers, size_t killers_length,
                                         const uint8_t *slots, size_t slots_length, uint8_t rule, uint8_t row);

/* The lowest-numbered living row of the rule with the slot in the column: one answer for one board, however it came about. Checked: 1, 6, 7, 17, 21, 19. */
struct berth_support_reply {
    uint8_t number; /* 0, or the refusal */
    uint8_t row;    /* the row's number; BERTH_NONE where there is none, as in every column of a cancelled call; 254 where refused */
};

struct berth_support_reply berth_support(struct berth_value value, const uint8_t *rows, size_t rows_length, const uint8_t *killers, size_t killers_length,
                                         const uint8_t *slots, size_t slots_length, uint8_t rule, uint8_t column, uint8_t slot);

/*
 * A plan from elsewhere, of BERTH_PLAN bytes: byte c is the slot of call c, and BERTH_NONE where the call is cancelled or not on the board. It is kept if
 * each rule in force has a row that agrees with it in every column, those of cancelled calls left out; a rule all of whose calls are cancelled asks nothing.
 * A struck slot is a slot of its call, so it is not refused; but a plan with one breaks some rule, which need not be on that call. Checked: 1, 32, 6, 33.
 */
struct berth_plan_reply {
    uint8_t number; /* 0, or the refusal */
    uint8_t broken; /* BERTH_NONE where the plan is kept; else the lowest number of a rule that it breaks; 254 where refused */
};

struct berth_plan_reply berth_check_plan(struct berth_value value, const uint8_t *rows, size_t rows_length, const uint8_t *killers, size_t killers_length,
                                         const uint8_t *slots, size_t slots_length, const uint8_t *plan, size_t plan_length);

/*
 * The first full plan: a slot for each call that is not cancelled, so that berth_check_plan keeps it. Calls are laid in rising order, each with its open slots
 * in rising order. A slot that is laid is one trial. It stays if each rule in force that has a laid call, and whose other calls are laid or cancelled, has a row
 * that agrees with the plan in every column but those of cancelled calls. Otherwise its call gets the next slot; where there is none, the call before gets its
 * next. So of all full plans it is the one with the lowest slot for call 0, then for call 1, and so on. Where every call is cancelled it is found with 0
 * trials.
 *
 * The ceiling is the most trials that may be made, any number of 32 bits. It bounds the time, which can be minutes with the highest. A search that needs as many
 * is not stopped; one that needs more is, and then there may be a full plan or none. Checked: 1, 6.
 */
struct berth_first_reply {
    uint32_t trials;          /* the slots that were laid; the ceiling where the search was stopped; 0 where refused */
    uint8_t number;           /* 0, or the refusal */
    uint8_t ending;           /* BERTH_PLAN_FOUND; BERTH_NO_PLAN where there is none; BERTH_SEARCH_STOPPED at the ceiling; 254 where refused */
    uint8_t plan[BERTH_PLAN]; /* as berth_check_plan takes it: BERTH_NONE for a call that gets no slot; where no plan was found, for all of them */
};

/* Two bytes behind the plan fill up the last word. */
typedef char berth_first_reply_is_laid_out[offsetof(struct berth_first_reply, plan) == 6 && sizeof(struct berth_first_reply) == 40 ? 1 : -1];

struct berth_first_reply berth_first_plan(struct berth_value value, const uint8_t *rows, size_t rows_length, const uint8_t *killers, size_t killers_length,
                                          const uint8_t *slots, size_t slots_length, uint32_t ceiling);

/* The caller has to look at what such a function returns. */
#if defined(__GNUC__)
#define BERTH_CHECKED __attribute__((warn_unused_result))
#else
#define BERTH_CHECKED
#endif

/* A board with its memory. The functions on it lend its parts to the functions above. */
struct berth_board {
    struct berth_marked_value value;
    uint8_t rows[BERTH_ROWS];
    uint8_t killers[BERTH_KILLERS];
    uint8_t slots[BERTH_SLOTS];
    uint8_t marks[BERTH_MARKS];
    struct berth_summary table[BERTH_RECORDS];
};

/* Three buffers, in the order in which every function takes them; with the value, as questions do; and value and names, and the buffers with the marks, as
   commands do. */
#define BERTH_BUFFERS(board) (board)->rows, BERTH_ROWS, (board)->killers, BERTH_KILLERS, (board)->slots, BERTH_SLOTS
#define BERTH_PARTS(board) (board)->value.value, BERTH_BUFFERS(board)
#define BERTH_HELD(board) &(board)->value.value, (board)->value.names
#define BERTH_BUFFERS_AND_MARKS(board) BERTH_BUFFERS(board), (board)->marks, BERTH_MARKS

/* Makes it a fresh board, before any command, and returns 1. Where the library is not the header's it returns 0 and does nothing. */
BERTH_CHECKED static inline int berth_board_clear(struct berth_board *board) {
    if (!berth_header_fits())
        return 0;
    berth_fresh_board(BERTH_HELD(board), BERTH_BUFFERS_AND_MARKS(board), board->table, BERTH_RECORDS);
    return 1;
}

/* Makes it a fresh board and runs a file of commands on it. */
static inline struct berth_replay_reply berth_board_replay(struct berth_board *board, const uint8_t *bytes, size_t length) {
    return berth_replay(BERTH_HELD(board), bytes, length, BERTH_BUFFERS_AND_MARKS(board), board->table, BERTH_RECORDS);
}

static inline struct berth_command_reply berth_board_command(struct berth_board *board, const uint8_t *bytes, size_t length) {
    return berth_command(BERTH_HELD(board), bytes, length, BERTH_BUFFERS_AND_MARKS(board), board->table, BERTH_RECORDS);
}

/*
 * The bytes of a command. Too many counts or slots make it one byte too long, and the board refuses it (BERTH_BODY_LENGTH); a head of more than four calls it
 * refuses for its arity (BERTH_BAD_ARITY).
 */
struct berth_command_bytes {
    size_t length;
    uint8_t bytes[34];
};

/* A command of so many bytes, with nothing but its kind and what stands for fields that are left out. */
static inline struct berth_command_bytes berth_make_blank(uint8_t kind, size_t length, uint8_t spare) {
    struct berth_command_bytes made;
    memset(made.bytes, spare, sizeof made.bytes);
    made.bytes[0] = kind;
    made.length = length;
    return made;
}

/* The command with these fields from the place on. */
static inline struct berth_command_bytes berth_make_filled(struct berth_command_bytes made, size_t place, const uint8_t *fields, size_t count) {
    size_t room = made.length - place;
    if (count > room)
        made.length++;
    else if (count > 0)
        memcpy(made.bytes + place, fields, count);
    return made;
}

/* A new board with a slot count for each of its calls. */
static inline struct berth_command_bytes berth_make_board(const uint8_t *counts, size_t calls) {
    return berth_make_filled(berth_make_blank(BERTH_BOARD, 33, 0), 1, counts, calls);
}

/* The start of a draft: the rule's number, and the calls of its columns. */
static inline struct berth_command_bytes berth_make_head(uint8_t number, const uint8_t *calls, size_t arity) {
    struct berth_command_bytes made = berth_make_blank(BERTH_HEAD, 7, BERTH_NONE);
    made.bytes[1] = number;
    made.bytes[2] = (uint8_t)(arity < 255 ? arity : 255);
    return berth_make_filled(made, 3, calls, arity < 4 ? arity : 4);
}

/* A row of the draft: a slot for each column. */
static inline struct berth_command_bytes berth_make_row(const uint8_t *slots, size_t arity) {
    return berth_make_filled(berth_make_blank(BERTH_ROW, 5, BERTH_NONE), 1, slots, arity);
}

static inline struct berth_command_bytes berth_make_put(void) {
    return berth_make_blank(BERTH_PUT, 1, 0);
}

static inline struct berth_command_bytes berth_make_lift(uint8_t number) {
    return berth_make_filled(berth_make_blank(BERTH_LIFT, 2, 0), 1, &number, 1);
}

/* The draft of a gap rule: its form (enum berth_form), its number, its two calls, and the gap between their slots. */
static inline struct berth_command_bytes berth_make_gap(uint8_t form, uint8_t number, uint8_t first, uint8_t second, uint8_t gap) {
    const uint8_t fields[5] = {form, number, first, second, gap};
    return berth_make_filled(berth_make_blank(BERTH_GAP, 6, 0), 1, fields, 5);
}

/* The board is kept under a name, 0 or 1; and brought back. */
static inline struct berth_command_bytes berth_make_mark(uint8_t name) {
    return berth_make_filled(berth_make_blank(BERTH_MARK, 2, 0), 1, &name, 1);
}

static inline struct berth_command_bytes berth_make_back(uint8_t name) {
    return berth_make_filled(berth_make_blank(BERTH_BACK, 2, 0), 1, &name, 1);
}

static inline struct berth_command_bytes berth_make_cancel(uint8_t call) {
    return berth_make_filled(berth_make_blank(BERTH_CANCEL, 2, 0), 1, &call, 1);
}

static inline struct berth_command_reply berth_board_obey(struct berth_board *board, struct berth_command_bytes made) {
    return berth_board_command(board, made.bytes, made.length);
}

/* The kinds on a board, each made as above. */
static inline struct berth_command_reply berth_board_start(struct berth_board *board, const uint8_t *counts, size_t calls) {
    return berth_board_obey(board, berth_make_board(counts, calls));
}

static inline struct berth_command_reply berth_board_head(struct berth_board *board, uint8_t number, const uint8_t *calls, size_t arity) {
    return berth_board_obey(board, berth_make_head(number, calls, arity));
}

static inline struct berth_command_reply berth_board_row(struct berth_board *board, const uint8_t *slots, size_t arity) {
    return berth_board_obey(board, berth_make_row(slots, arity));
}

static inline struct berth_command_reply berth_board_put(struct berth_board *board) {
    return berth_board_obey(board, berth_make_put());
}

static inline struct berth_command_reply berth_board_lift(struct berth_board *board, uint8_t number) {
    return berth_board_obey(board, berth_make_lift(number));
}

static inline struct berth_command_reply berth_board_gap(struct berth_board *board, uint8_t form, uint8_t number, uint8_t first, uint8_t second, uint8_t gap) {
    return berth_board_obey(board, berth_make_gap(form, number, first, second, gap));
}

static inline struct berth_command_reply berth_board_mark(struct berth_board *board, uint8_t name) {
    return berth_board_obey(board, berth_make_mark(name));
}

static inline struct berth_command_reply berth_board_back(struct berth_board *board, uint8_t name) {
    return berth_board_obey(board, berth_make_back(name));
}

static inline struct berth_command_reply berth_board_cancel(struct berth_board *board, uint8_t call) {
    return berth_board_obey(board, berth_make_cancel(call));
}

/* The record of a call, read from the board's table; zeros for a call that is not on the board. */
static inline struct berth_summary berth_board_summary(const struct berth_board *board, uint8_t call) {
    static const struct berth_summary none = {0, 0, 0};
    return call < BERTH_RECORDS ? board->table[call] : none;
}

static inline struct berth_slots_reply berth_board_open_slots(const struct berth_board *board, uint8_t call) {
    return berth_open_slots(BERTH_PARTS(board), call);
}

static inline struct berth_state_reply berth_board_slot_state(const struct berth_board *board, uint8_t call, uint8_t slot) {
    return berth_slot_state(BERTH_PARTS(board), call, slot);
}

static inline struct berth_row_reply berth_board_row_state(const struct berth_board *board, uint8_t rule, uint8_t row) {
    return berth_row_state(BERTH_PARTS(board), rule, row);
}

/* The row's four bytes where they lie, or NULL where berth_row_state refuses. */
static inline const uint8_t *berth_board_row_bytes(const struct berth_board *board, uint8_t rule, uint8_t row) {
    struct berth_place_reply reply = berth_row_place(BERTH_PARTS(board), rule, row);
    return reply.length == 0 ? NULL : board->rows + reply.place;
}

static inline struct berth_support_reply berth_board_support(const struct berth_board *board, uint8_t rule, uint8_t column, uint8_t slot) {
    return berth_support(BERTH_PARTS(board), rule, column, slot);
}

static inline struct berth_plan_reply berth_board_check_plan(const struct berth_board *board, const uint8_t *plan, size_t length) {
    return berth_check_plan(BERTH_PARTS(board), plan, length);
}

static inline struct berth_first_reply berth_board_first_plan(const struct berth_board *board, uint32_t ceiling) {
    return berth_first_plan(BERTH_PARTS(board), ceiling);
}

#ifdef __cplusplus
}
#endif

#endif
