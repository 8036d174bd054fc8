/* The library in another process than its host. A library that is not proved is run by `rt try` alone, and only as a program: that program asks
   here for the next call, makes it, and hands back what it wrote and replied. The host has the same functions as ever, which leave their call in
   memory that both share, and wait. A byte through a pipe says that a call, or a reply, is there; a process that is gone closes its pipes.
   tests/breaks compiles this three times, with FOLDER, where memory and pipes are, and one of SERVER, LIBRARY and SHEET, the sheet program. */
#include <fcntl.h>
#include <stdint.h>
#include <stdio.h>
#include <stdlib.h>
#include <string.h>
#include <sys/mman.h>
#include <unistd.h>

#include "berth.h"

enum kind { COMMAND, REPLAY, OPEN_SLOTS, SLOT_STATE, ROW_STATE, ROW_PLACE, SUPPORT, CHECK_PLAN, FIRST_PLAN, FRESH, NUMBERS, SHEET_OF };
enum { ROOM = 1 << 20 };

/* A call: the lengths of what is lent, and the small arguments. */
struct call {
    size_t bytes, rows, killers, slots, marks, table;
    uint32_t kind, ceiling;
    uint8_t first, second, third;
};

struct numbers {
    uint32_t version;
    size_t size;
};

struct shared {
    struct call call;
    struct berth_value value;
    struct berth_name names[2];
    uint8_t bytes[ROOM], rows[ROOM], killers[ROOM], slots[ROOM], marks[ROOM];
    struct berth_summary table[ROOM];
    uint8_t reply[4096], sheet[ROOM];
    size_t sheet_length;
};

static struct shared *shared;
static int requests, replies;

static void fail(const char *why) {
    perror(why);
    exit(3);
}

static void open_shared(int how_requests, int how_replies) {
    if (shared) return;
    requests = open(FOLDER "/requests", how_requests);
    replies = open(FOLDER "/replies", how_replies);
    int file = open(FOLDER "/shared", O_RDWR | O_CREAT, 0600);
    if (requests < 0 || replies < 0 || file < 0 || ftruncate(file, sizeof *shared)) fail("memory and pipes");
    shared = mmap(0, sizeof *shared, PROT_READ | PROT_WRITE, MAP_SHARED, file, 0);
    if (shared == MAP_FAILED) fail("shared memory");
}

static void tell(int pipe) {
    if (write(pipe, "", 1) != 1) fail("the other process is gone");
}

static void await(int pipe) {
    char byte;
    if (read(pipe, &byte, 1) != 1) fail("the other process is gone");
}

static void copy(void *to, const void *from, size_t n, size_t room) {
    if (n > room) fail("more is lent than there is room for");
    if (n > 0) memcpy(to, from, n);
}

#ifdef SERVER
void next_call(struct call *call, struct berth_value *value, struct berth_name *names, uint8_t *bytes, size_t bytes_room, uint8_t *rows, size_t rows_room,
               uint8_t *killers, size_t killers_room, uint8_t *slots, size_t slots_room, uint8_t *marks, size_t marks_room, struct berth_summary *table,
               size_t table_room) {
    open_shared(O_RDWR, O_WRONLY); /* the first not to be told that a host has ended, since another may come */
    await(requests);
    *call = shared->call;
    *value = shared->value;
    memcpy(names, shared->names, sizeof shared->names);
    copy(bytes, shared->bytes, call->bytes, bytes_room);
    copy(rows, shared->rows, call->rows, rows_room);
    copy(killers, shared->killers, call->killers, killers_room);
    copy(slots, shared->slots, call->slots, slots_room);
    copy(marks, shared->marks, call->marks, marks_room);
    copy(table, shared->table, call->table * sizeof *table, table_room * sizeof *table);
}

void put_held(const struct berth_value *value, const struct berth_name *names, const uint8_t *rows, size_t rows_length, const uint8_t *killers,
              size_t killers_length, const uint8_t *slots, size_t slots_length, const uint8_t *marks, size_t marks_length,
              const struct berth_summary *table, size_t table_length) {
    shared->value = *value;
    memcpy(shared->names, names, sizeof shared->names);
    copy(shared->rows, rows, rows_length, ROOM);
    copy(shared->killers, killers, killers_length, ROOM);
    copy(shared->slots, slots, slots_length, ROOM);
    copy(shared->marks, marks, marks_length, ROOM);
    copy(shared->table, table, table_length * sizeof *table, ROOM * sizeof *table);
}

void put_sheet(const uint8_t *sheet, size_t length) {
    copy(shared->sheet, sheet, length, ROOM);
    shared->sheet_length = length;
    tell(replies);
}

#define PUT(name, type) \
    void put_##name(type reply) { \
        memcpy(shared->reply, &reply, sizeof reply); \
        tell(replies); \
    }
PUT(command, struct berth_command_reply)
PUT(replay, struct berth_replay_reply)
PUT(slots, struct berth_slots_reply)
PUT(state, struct berth_state_reply)
PUT(row, struct berth_row_reply)
PUT(place, struct berth_place_reply)
PUT(support, struct berth_support_reply)
PUT(plan, struct berth_plan_reply)
PUT(first, struct berth_first_reply)
PUT(fresh, struct berth_marked_value)
PUT(numbers, struct numbers)
#else
static void make_call(struct call call, const struct berth_value *value, const struct berth_name *names, const uint8_t *bytes, const uint8_t *rows,
                      const uint8_t *killers, const uint8_t *slots, const uint8_t *marks, const struct berth_summary *table) {
    open_shared(O_WRONLY, O_RDONLY);
    shared->call = call;
    if (value) shared->value = *value;
    if (names) memcpy(shared->names, names, sizeof shared->names);
    copy(shared->bytes, bytes, call.bytes, ROOM);
    copy(shared->rows, rows, call.rows, ROOM);
    copy(shared->killers, killers, call.killers, ROOM);
    copy(shared->slots, slots, call.slots, ROOM);
    copy(shared->marks, marks, call.marks, ROOM);
    copy(shared->table, table, call.table * sizeof *table, ROOM * sizeof *table);
    tell(requests);
    await(replies);
}
#endif

#ifdef LIBRARY
static struct numbers numbers(void) {
    struct numbers reply;
    make_call((struct call){.kind = NUMBERS}, 0, 0, 0, 0, 0, 0, 0, 0);
    memcpy(&reply, shared->reply, sizeof reply);
    return reply;
}

uint32_t berth_version(void) { return numbers().version; }
size_t berth_value_size(void) { return numbers().size; }

struct berth_marked_value berth_fresh(void) {
    struct berth_marked_value reply;
    make_call((struct call){.kind = FRESH}, 0, 0, 0, 0, 0, 0, 0, 0);
    memcpy(&reply, shared->reply, sizeof reply);
    return reply;
}

#define HELD \
    struct berth_value *value, struct berth_name *names, const uint8_t *bytes, size_t b, uint8_t *rows, size_t r, uint8_t *killers, size_t k, uint8_t *slots, \
        size_t s, uint8_t *marks, size_t m, struct berth_summary *table, size_t t
#define WRITES(name, number, type) \
    type name(HELD) { \
        type reply; \
        make_call((struct call){.kind = number, .bytes = b, .rows = r, .killers = k, .slots = s, .marks = m, .table = t}, value, names, bytes, rows, killers, \
                  slots, marks, table); \
        *value = shared->value; \
        memcpy(names, shared->names, sizeof shared->names); \
        copy(rows, shared->rows, r, ROOM); \
        copy(killers, shared->killers, k, ROOM); \
        copy(slots, shared->slots, s, ROOM); \
        copy(marks, shared->marks, m, ROOM); \
        copy(table, shared->table, t * sizeof *table, ROOM * sizeof *table); \
        memcpy(&reply, shared->reply, sizeof reply); \
        return reply; \
    }
WRITES(berth_command, COMMAND, struct berth_command_reply)
WRITES(berth_replay, REPLAY, struct berth_replay_reply)

#define PARTS struct berth_value value, const uint8_t *rows, size_t r, const uint8_t *killers, size_t k, const uint8_t *slots, size_t s
#define ASK(type, lent, ...) \
    type reply; \
    make_call((struct call){.rows = r, .killers = k, .slots = s, __VA_ARGS__}, &value, 0, lent, rows, killers, slots, 0, 0); \
    memcpy(&reply, shared->reply, sizeof reply); \
    return reply
struct berth_slots_reply berth_open_slots(PARTS, uint8_t call) { ASK(struct berth_slots_reply, 0, .kind = OPEN_SLOTS, .first = call); }
struct berth_state_reply berth_slot_state(PARTS, uint8_t call, uint8_t slot) {
    ASK(struct berth_state_reply, 0, .kind = SLOT_STATE, .first = call, .second = slot);
}
struct berth_row_reply berth_row_state(PARTS, uint8_t rule, uint8_t row) {
    ASK(struct berth_row_reply, 0, .kind = ROW_STATE, .first = rule, .second = row);
}
struct berth_place_reply berth_row_place(PARTS, uint8_t rule, uint8_t row) {
    ASK(struct berth_place_reply, 0, .kind = ROW_PLACE, .first = rule, .second = row);
}
struct berth_support_reply berth_support(PARTS, uint8_t rule, uint8_t column, uint8_t slot) {
    ASK(struct berth_support_reply, 0, .kind = SUPPORT, .first = rule, .second = column, .third = slot);
}
struct berth_plan_reply berth_check_plan(PARTS, const uint8_t *plan, size_t p) { ASK(struct berth_plan_reply, plan, .kind = CHECK_PLAN, .bytes = p); }
struct berth_first_reply berth_first_plan(PARTS, uint32_t ceiling) { ASK(struct berth_first_reply, 0, .kind = FIRST_PLAN, .ceiling = ceiling); }
#endif

#ifdef SHEET
/* The sheet of standard input. */
int main(void) {
    static uint8_t file[ROOM];
    size_t n = 0;
    for (ssize_t k = 1; k > 0 && n < sizeof file; n += (size_t)k)
        if ((k = read(0, file + n, sizeof file - n)) < 0) fail("standard input");
    make_call((struct call){.kind = SHEET_OF, .bytes = n}, 0, 0, file, 0, 0, 0, 0, 0);
    for (size_t at = 0; at < shared->sheet_length;) {
        ssize_t k = write(1, shared->sheet + at, shared->sheet_length - at);
        if (k <= 0) fail("standard output");
        at += (size_t)k;
    }
    return 0;
}
#endif
