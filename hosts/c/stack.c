/* How much of the machine's stack each call takes: it is made on a painted stack, and the paint that is gone is counted,
 * arguments and return address included. A call that takes more than SCOPES_CALL_STACK fails. To be compiled with
 * optimization, so that a call over a handle has no frame of its own, and linked so that memset is not looked up in a call. */
#define _XOPEN_SOURCE 700
#include <string.h>
#include <ucontext.h>

#include "check.h"

/* The scratch store has 65 blocks, whose used bits cross a word of the state. */
enum { PERMANENT = 64, SCRATCH = 65 * SCOPES_BLOCK_WORDS, MAP = SCOPES_MAP_WORDS(PERMANENT, SCRATCH) };
enum { STACK_BYTES = 65536, PAINT = 0xa5 };

static uint64_t permanent[PERMANENT], scratch[SCRATCH], map[MAP], written[MAP];
static scopes_core core;
static scopes_stack record;

/* An object with a slot and 80 data words, whose bits cross a map word. */
static uint64_t object;

static uint8_t stack[STACK_BYTES];
static ucontext_t home, away;

/* What the last call answered, kept from the compiler's sight. */
static volatile uint64_t status;

static void nothing(void) { status = SCOPES_OK; }
static void version(void) { status = scopes_version() - SCOPES_VERSION; }
static void set_up_in_place(void)
{
    status = scopes_core_set_up(&core, permanent, PERMANENT, scratch, SCRATCH, map, MAP, written, MAP, 32, 32);
}
static void start(void) { status = scopes_core_start(&core, 0, SCOPES_REAL_TIME).status; }
static void start_helper(void) { status = scopes_core_start_helper(&core, 0, SCOPES_REAL_TIME, 1).status; }
static void make(void) { status = scopes_core_make(&core, 0, 2, SCRATCH).status; }
static void enter(void) { status = scopes_core_enter(&core, 0, 2).status; }
static void allocate(void)
{
    scopes_answer answer = scopes_core_allocate(&core, 0, 1, 80);
    object = answer.value;
    status = answer.status;
}
static void store(void) { status = scopes_core_store(&core, 0, object, 0, object).status; }
static void load(void) { status = scopes_core_load(&core, 0, object, 0).status; }
static void write_word(void) { status = scopes_core_write(&core, 0, object, 79, 7).status; }
static void read_word(void) { status = scopes_core_read(&core, 0, object, 79).status; }
static void view_status(void) { status = scopes_core_view_status(&core, 0, object).status; }
static void view_place(void) { status = scopes_core_view_place(&core, 0, object).status; }
static void leave(void) { status = scopes_core_exit(&core, 0).status; }
static void leave_last(void) { status = scopes_core_exit(&core, 1).status; }
static void remove_scope(void) { status = scopes_core_remove(&core, 0, 2).status; }
static void end(void) { status = scopes_core_end(&core, 0).status; }
static void load_rights(void)
{
    static const uint8_t digits[] = "111100110000111111111111000011111111";
    status = scopes_core_load_rights(&core, digits, SCOPES_RIGHTS_DIGITS).status;
}
static void stack_empty(void) { record = scopes_stack_empty(); status = record.len; }
static void stack_push(void) { status = scopes_stack_push(&record, 5).status; }
static void stack_pop(void) { status = scopes_stack_pop(&record).status; }

/* Every call, in an order in which each is accepted. */
static const struct { const char *name; void (*call)(void); } calls[] = {
    {"version", version},           {"set_up_in_place", set_up_in_place},
    {"load_rights", load_rights},   {"start", start},
    {"make", make},                 {"enter", enter},
    {"start_helper", start_helper}, {"allocate", allocate},
    {"store", store},               {"load", load},
    {"write", write_word},          {"read", read_word},
    {"view_status", view_status},   {"view_place", view_place},
    {"exit", leave},                {"exit, the last", leave_last},
    {"remove", remove_scope},       {"end", end},
    {"stack_empty", stack_empty},   {"stack_push", stack_push},
    {"stack_pop", stack_pop},
};

/* The function to be measured, and the painted bytes that it leaves, counted before anything else runs on that stack. */
static void (*measured)(void);
static size_t left;

static void run(void)
{
    measured();
    for (left = 0; stack[left] == PAINT; left++) {
    }
}

/* The bytes of stack that a function takes with all that it calls. */
static size_t taken_by(void (*call)(void))
{
    memset(stack, PAINT, sizeof stack);
    CHECK(getcontext(&away) == 0);
    away.uc_stack.ss_sp = stack;
    away.uc_stack.ss_size = sizeof stack;
    away.uc_link = &home;
    measured = call;
    makecontext(&away, run, 0);
    CHECK(swapcontext(&home, &away) == 0);
    return sizeof stack - left;
}

int main(void)
{
    size_t bare = taken_by(nothing);
    for (size_t i = 0; i < sizeof calls / sizeof *calls; i++) {
        size_t taken = taken_by(calls[i].call) - bare;
        printf("%-16s %4zu bytes of stack\n", calls[i].name, taken);
        check_status(calls[i].name, status, SCOPES_OK, __LINE__);
        CHECK(taken > 0 && taken <= SCOPES_CALL_STACK);
    }
    return failures != 0;
}
