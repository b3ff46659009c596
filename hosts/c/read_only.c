/* Refused calls, and calls that only read, on tables and buffers in read-only memory: a write, even of the same bytes,
 * would end the program by a signal. 17 takes 2^44 - 1 entries and does not come. */
#define _DEFAULT_SOURCE
#include <stdlib.h>
#include <sys/mman.h>

#include "check.h"

enum { HEAP = 32, IMMORTAL = 32, PERMANENT = HEAP + IMMORTAL, SCRATCH = 96, MAP = SCOPES_MAP_WORDS(PERMANENT, SCRATCH) };

/* Threads by their kind, one in a scope under another above a heap entry, one whose stack is full of heap entries above a
 * scope, and one that is not started. */
enum { REAL_TIME, ORDINARY, NO_HEAP, NESTED, FULL, IDLE };

/* Two open scopes, one that is not, one that was never made, and one that was removed. */
enum { OUTER = 2, INNER = 3, CLOSED = 4, UNMADE = 5, REMOVED = 6 };

/* All memory of a core in one piece, which is mapped. */
typedef struct memory {
    scopes_core core;
    uint64_t permanent[PERMANENT];
    uint64_t scratch[SCRATCH];
    uint64_t map[MAP];
    uint64_t written[MAP];
    uint8_t text[SCOPES_RIGHTS_DIGITS + 1];
} memory;

static memory *lent;
static scopes_core *core;

/* Objects of the heap, of immortal memory and of both scopes; one that is dead. */
static uint64_t in_heap, in_immortal, in_outer, in_inner, dead;

static void protect(int protection)
{
    if (mprotect(lent, sizeof *lent, protection) != 0) {
        perror("mprotect");
        exit(2);
    }
}

static void map_memory(void)
{
    void *pages = mmap(NULL, sizeof *lent, PROT_READ | PROT_WRITE, MAP_PRIVATE | MAP_ANONYMOUS, -1, 0);
    if (pages == MAP_FAILED) {
        perror("mmap");
        exit(2);
    }
    lent = pages;
    core = &lent->core;
}

static uint64_t allocate(uint64_t thread)
{
    scopes_answer answer = scopes_core_allocate(core, thread, 3, 1);
    CHECK_ANSWER(answer, SCOPES_OK);
    return answer.value;
}

static void start_threads(void)
{
    CHECK_ANSWER(scopes_core_start(core, REAL_TIME, SCOPES_REAL_TIME), SCOPES_OK);
    CHECK_ANSWER(scopes_core_start(core, ORDINARY, SCOPES_ORDINARY), SCOPES_OK);
    CHECK_ANSWER(scopes_core_start(core, NO_HEAP, SCOPES_NO_HEAP), SCOPES_OK);
    CHECK_ANSWER(scopes_core_start(core, NESTED, SCOPES_REAL_TIME), SCOPES_OK);
    CHECK_ANSWER(scopes_core_start(core, FULL, SCOPES_REAL_TIME), SCOPES_OK);
}

/* Of the six blocks of scratch the second and the last two are free. */
static void make_scopes(void)
{
    CHECK_ANSWER(scopes_core_make(core, NESTED, OUTER, 16), SCOPES_OK);
    CHECK_ANSWER(scopes_core_make(core, NESTED, REMOVED, 16), SCOPES_OK);
    CHECK_ANSWER(scopes_core_make(core, NESTED, INNER, 16), SCOPES_OK);
    CHECK_ANSWER(scopes_core_make(core, NESTED, CLOSED, 16), SCOPES_OK);
    CHECK_ANSWER(scopes_core_remove(core, NESTED, REMOVED), SCOPES_OK);
}

static void make_objects(void)
{
    CHECK_ANSWER(scopes_core_enter(core, NESTED, SCOPES_HEAP), SCOPES_OK);
    CHECK_ANSWER(scopes_core_enter(core, NESTED, OUTER), SCOPES_OK);
    dead = allocate(NESTED);
    CHECK_ANSWER(scopes_core_exit(core, NESTED), SCOPES_OK);
    CHECK_ANSWER(scopes_core_enter(core, NESTED, OUTER), SCOPES_OK);
    in_outer = allocate(NESTED);
    CHECK_ANSWER(scopes_core_enter(core, NESTED, INNER), SCOPES_OK);
    in_inner = allocate(NESTED);
    in_heap = allocate(REAL_TIME);
    CHECK_ANSWER(scopes_core_enter(core, REAL_TIME, SCOPES_IMMORTAL), SCOPES_OK);
    in_immortal = allocate(REAL_TIME);
    CHECK_ANSWER(scopes_core_exit(core, REAL_TIME), SCOPES_OK);
}

static void fill_stack(void)
{
    CHECK_ANSWER(scopes_core_enter(core, FULL, OUTER), SCOPES_OK);
    for (unsigned i = 1; i < SCOPES_STACK_ENTRIES; i++) {
        CHECK_ANSWER(scopes_core_enter(core, FULL, SCOPES_HEAP), SCOPES_OK);
    }
}

/* Slot 0 of the inner object holds a heap object, slot 1 a word that is no live handle, which a host alone can write. */
static void fill_slots(void)
{
    CHECK_ANSWER(scopes_core_store(core, NESTED, in_inner, 0, in_heap), SCOPES_OK);
    scopes_view view = scopes_core_view_place(core, NESTED, in_inner);
    CHECK_ANSWER(view, SCOPES_OK);
    lent->scratch[view.from - 2] = dead;
}

/* The data words of the inner and the immortal object are written, those of the others are not. */
static void write_data(void)
{
    CHECK_ANSWER(scopes_core_write(core, NESTED, in_inner, 0, 7), SCOPES_OK);
    CHECK_ANSWER(scopes_core_write(core, REAL_TIME, in_immortal, 0, 7), SCOPES_OK);
}

static uint64_t set_up(scopes_core *into, uint64_t heap)
{
    return scopes_core_set_up(
        into, lent->permanent, PERMANENT, lent->scratch, SCRATCH, lent->map, MAP, lent->written, MAP, heap, IMMORTAL);
}

static void begin(void)
{
    CHECK_STATUS(set_up(core, HEAP), SCOPES_OK);
    start_threads();
    make_scopes();
    make_objects();
    fill_stack();
    fill_slots();
    write_data();
}

static void refused_threads(void)
{
    CHECK_ANSWER(scopes_core_start(core, SCOPES_THREADS, SCOPES_REAL_TIME), SCOPES_THREAD);
    CHECK_ANSWER(scopes_core_start(core, NESTED, SCOPES_REAL_TIME), SCOPES_STARTED);
    CHECK_ANSWER(scopes_core_start(core, IDLE, 4), SCOPES_KIND);
    CHECK_ANSWER(scopes_core_end(core, IDLE), SCOPES_THREAD);
    CHECK_ANSWER(scopes_core_end(core, NESTED), SCOPES_ENTRIES);
}

/* A no-heap helper may stand in the scopes of its starter, but not in its heap entry, the lowest or the highest. */
static void refused_helpers(void)
{
    CHECK_ANSWER(scopes_core_start_helper(core, SCOPES_THREADS, SCOPES_REAL_TIME, IDLE), SCOPES_THREAD);
    CHECK_ANSWER(scopes_core_start_helper(core, IDLE, SCOPES_REAL_TIME, IDLE), SCOPES_THREAD);
    CHECK_ANSWER(scopes_core_start_helper(core, NESTED, SCOPES_REAL_TIME, SCOPES_THREADS), SCOPES_THREAD);
    CHECK_ANSWER(scopes_core_start_helper(core, NESTED, SCOPES_REAL_TIME, NESTED), SCOPES_STARTED);
    CHECK_ANSWER(scopes_core_start_helper(core, NESTED, SCOPES_REAL_TIME, FULL), SCOPES_STARTED);
    CHECK_ANSWER(scopes_core_start_helper(core, NESTED, 4, IDLE), SCOPES_KIND);
    CHECK_ANSWER(scopes_core_start_helper(core, NESTED, SCOPES_ORDINARY, IDLE), SCOPES_RIGHT);
    CHECK_ANSWER(scopes_core_start_helper(core, NESTED, SCOPES_NO_HEAP, IDLE), SCOPES_RIGHT);
    CHECK_ANSWER(scopes_core_start_helper(core, FULL, SCOPES_NO_HEAP, IDLE), SCOPES_RIGHT);
}

/* Three blocks are free, but no more than two of them side by side. */
static void refused_scopes(void)
{
    CHECK_ANSWER(scopes_core_make(core, IDLE, UNMADE, 1), SCOPES_THREAD);
    CHECK_ANSWER(scopes_core_make(core, NESTED, SCOPES_HEAP, 1), SCOPES_AREA);
    CHECK_ANSWER(scopes_core_make(core, NESTED, SCOPES_AREAS, 1), SCOPES_AREA);
    CHECK_ANSWER(scopes_core_make(core, NESTED, INNER, 1), SCOPES_MADE);
    CHECK_ANSWER(scopes_core_make(core, NESTED, CLOSED, 1), SCOPES_MADE);
    CHECK_ANSWER(scopes_core_make(core, NESTED, UNMADE, 0), SCOPES_SIZE);
    CHECK_ANSWER(scopes_core_make(core, NESTED, REMOVED, 2 * SCOPES_BLOCK_WORDS + 1), SCOPES_SIZE);
    CHECK_ANSWER(scopes_core_make(core, NESTED, UNMADE, UINT64_MAX), SCOPES_SIZE);
    CHECK_ANSWER(scopes_core_remove(core, IDLE, CLOSED), SCOPES_THREAD);
    CHECK_ANSWER(scopes_core_remove(core, NESTED, SCOPES_IMMORTAL), SCOPES_AREA);
    CHECK_ANSWER(scopes_core_remove(core, NESTED, SCOPES_AREAS), SCOPES_AREA);
    CHECK_ANSWER(scopes_core_remove(core, NESTED, UNMADE), SCOPES_AREA);
    CHECK_ANSWER(scopes_core_remove(core, NESTED, REMOVED), SCOPES_AREA);
    CHECK_ANSWER(scopes_core_remove(core, NESTED, OUTER), SCOPES_OPEN);
    CHECK_ANSWER(scopes_core_remove(core, ORDINARY, INNER), SCOPES_OPEN);
}

static void refused_areas(void)
{
    CHECK_ANSWER(scopes_core_enter(core, IDLE, OUTER), SCOPES_THREAD);
    CHECK_ANSWER(scopes_core_enter(core, NESTED, UNMADE), SCOPES_AREA);
    CHECK_ANSWER(scopes_core_enter(core, NESTED, REMOVED), SCOPES_AREA);
    CHECK_ANSWER(scopes_core_enter(core, ORDINARY, OUTER), SCOPES_RIGHT);
    CHECK_ANSWER(scopes_core_enter(core, NO_HEAP, SCOPES_HEAP), SCOPES_RIGHT);
    CHECK_ANSWER(scopes_core_enter(core, FULL, SCOPES_IMMORTAL), SCOPES_STACK_FULL);
    CHECK_ANSWER(scopes_core_enter(core, REAL_TIME, INNER), SCOPES_PARENT);
    CHECK_ANSWER(scopes_core_exit(core, IDLE), SCOPES_THREAD);
    CHECK_ANSWER(scopes_core_exit(core, REAL_TIME), SCOPES_ENTRIES);
    CHECK_ANSWER(scopes_core_allocate(core, IDLE, 0, 1), SCOPES_THREAD);
    CHECK_ANSWER(scopes_core_allocate(core, NO_HEAP, 0, 1), SCOPES_RIGHT);
    CHECK_ANSWER(scopes_core_allocate(core, NESTED, 0, 16), SCOPES_ROOM);
}

static void refused_references(void)
{
    CHECK_ANSWER(scopes_core_store(core, IDLE, in_inner, 0, SCOPES_NULL), SCOPES_THREAD);
    CHECK_ANSWER(scopes_core_store(core, NESTED, dead, 0, SCOPES_NULL), SCOPES_OBJECT);
    CHECK_ANSWER(scopes_core_store(core, ORDINARY, in_inner, 0, SCOPES_NULL), SCOPES_RIGHT);
    CHECK_ANSWER(scopes_core_store(core, NESTED, in_inner, 3, SCOPES_NULL), SCOPES_INDEX);
    CHECK_ANSWER(scopes_core_store(core, NESTED, in_inner, 0, dead), SCOPES_TARGET);
    CHECK_ANSWER(scopes_core_store(core, NO_HEAP, in_inner, 0, in_heap), SCOPES_RIGHT);
    CHECK_ANSWER(scopes_core_store(core, NESTED, in_outer, 0, in_inner), SCOPES_ASSIGNMENT);
    CHECK_ANSWER(scopes_core_store(core, NESTED, in_heap, 0, in_outer), SCOPES_ASSIGNMENT);
    CHECK_ANSWER(scopes_core_load(core, IDLE, in_inner, 0), SCOPES_THREAD);
    CHECK_ANSWER(scopes_core_load(core, NESTED, SCOPES_NULL, 0), SCOPES_OBJECT);
    CHECK_ANSWER(scopes_core_load(core, ORDINARY, in_inner, 0), SCOPES_RIGHT);
    CHECK_ANSWER(scopes_core_load(core, NESTED, in_inner, 3), SCOPES_INDEX);
    CHECK_ANSWER(scopes_core_load(core, NESTED, in_inner, 1), SCOPES_TARGET);
    CHECK_ANSWER(scopes_core_load(core, NO_HEAP, in_inner, 0), SCOPES_RIGHT);
}

static void refused_data(void)
{
    CHECK_ANSWER(scopes_core_write(core, IDLE, in_inner, 0, 7), SCOPES_THREAD);
    CHECK_ANSWER(scopes_core_write(core, NESTED, dead, 0, 7), SCOPES_OBJECT);
    CHECK_ANSWER(scopes_core_write(core, NO_HEAP, in_heap, 0, 7), SCOPES_RIGHT);
    CHECK_ANSWER(scopes_core_write(core, NESTED, in_inner, 1, 7), SCOPES_INDEX);
    CHECK_ANSWER(scopes_core_read(core, IDLE, in_inner, 0), SCOPES_THREAD);
    CHECK_ANSWER(scopes_core_read(core, NESTED, dead, 0), SCOPES_OBJECT);
    CHECK_ANSWER(scopes_core_read(core, NO_HEAP, in_heap, 0), SCOPES_RIGHT);
    CHECK_ANSWER(scopes_core_read(core, NESTED, in_inner, 1), SCOPES_INDEX);
    CHECK_ANSWER(scopes_core_read(core, NESTED, in_outer, 0), SCOPES_UNWRITTEN);
    CHECK_ANSWER(scopes_core_read(core, ORDINARY, in_heap, 0), SCOPES_UNWRITTEN);
    CHECK_ANSWER(scopes_core_view_status(core, IDLE, in_inner), SCOPES_THREAD);
    CHECK_ANSWER(scopes_core_view_status(core, NESTED, dead), SCOPES_OBJECT);
    CHECK_ANSWER(scopes_core_view_status(core, ORDINARY, in_inner), SCOPES_RIGHT);
    CHECK_ANSWER(scopes_core_view(core, IDLE, in_inner), SCOPES_THREAD);
    CHECK_ANSWER(scopes_core_view(core, NESTED, dead), SCOPES_OBJECT);
    CHECK_ANSWER(scopes_core_view(core, ORDINARY, in_inner), SCOPES_RIGHT);
}

static void refused_loads(void)
{
    CHECK_ANSWER(scopes_core_load_rights(core, NULL, 0), SCOPES_TABLE);
    CHECK_ANSWER(scopes_core_load_rights(core, lent->text, SCOPES_RIGHTS_DIGITS + 1), SCOPES_TABLE);
    CHECK_ANSWER(scopes_core_load_rights(core, lent->text, SCOPES_RIGHTS_DIGITS), SCOPES_RUNNING);
}

/* Every call on buffers of other lengths. */
static void refused_lengths(void)
{
    CHECK_ANSWER(scopes_core_start(core, IDLE, SCOPES_REAL_TIME), SCOPES_LENGTHS);
    CHECK_ANSWER(scopes_core_start_helper(core, NESTED, SCOPES_REAL_TIME, IDLE), SCOPES_LENGTHS);
    CHECK_ANSWER(scopes_core_end(core, ORDINARY), SCOPES_LENGTHS);
    CHECK_ANSWER(scopes_core_make(core, NESTED, UNMADE, 1), SCOPES_LENGTHS);
    CHECK_ANSWER(scopes_core_remove(core, NESTED, CLOSED), SCOPES_LENGTHS);
    CHECK_ANSWER(scopes_core_enter(core, NESTED, SCOPES_HEAP), SCOPES_LENGTHS);
    CHECK_ANSWER(scopes_core_exit(core, NESTED), SCOPES_LENGTHS);
    CHECK_ANSWER(scopes_core_allocate(core, NESTED, 0, 1), SCOPES_LENGTHS);
    CHECK_ANSWER(scopes_core_store(core, NESTED, in_inner, 0, SCOPES_NULL), SCOPES_LENGTHS);
    CHECK_ANSWER(scopes_core_load(core, NESTED, in_inner, 0), SCOPES_LENGTHS);
    CHECK_ANSWER(scopes_core_write(core, NESTED, in_inner, 0, 7), SCOPES_LENGTHS);
    CHECK_ANSWER(scopes_core_read(core, NESTED, in_inner, 0), SCOPES_LENGTHS);
    CHECK_ANSWER(scopes_core_view_status(core, NESTED, in_inner), SCOPES_LENGTHS);
    CHECK_ANSWER(scopes_core_view(core, NESTED, in_inner), SCOPES_LENGTHS);
}

/* The same where a buffer is one word short. */
static void refused_word_short(size_t *len)
{
    protect(PROT_READ | PROT_WRITE);
    --*len;
    protect(PROT_READ);
    refused_lengths();
    protect(PROT_READ | PROT_WRITE);
    ++*len;
    protect(PROT_READ);
}

/* Calls whose pointers are all const, accepted. */
static void accepted_looks(void)
{
    CHECK_ANSWER(scopes_core_load(core, NESTED, in_inner, 0), SCOPES_OK);
    CHECK_ANSWER(scopes_core_load(core, NESTED, in_inner, 2), SCOPES_OK);
    CHECK_ANSWER(scopes_core_read(core, NESTED, in_inner, 0), SCOPES_OK);
    CHECK_ANSWER(scopes_core_read(core, ORDINARY, in_immortal, 0), SCOPES_OK);
    CHECK_ANSWER(scopes_core_view_status(core, NESTED, in_outer), SCOPES_OK);
    CHECK_ANSWER(scopes_core_view(core, ORDINARY, in_heap), SCOPES_OK);
    CHECK_ANSWER(scopes_core_view(core, NESTED, in_inner), SCOPES_OK);
}

/* A set-up only reads the buffers, refused or not. */
static void set_ups_elsewhere(void)
{
    static scopes_core other;
    CHECK_STATUS(set_up(&other, HEAP), SCOPES_OK);
    CHECK_STATUS(set_up(&other, HEAP + 1), SCOPES_LENGTHS);
}

int main(void)
{
    map_memory();
    for (unsigned i = 0; i < SCOPES_RIGHTS_DIGITS; i++) {
        lent->text[i] = '1';
    }
    begin();
    protect(PROT_READ);
    refused_threads();
    refused_helpers();
    refused_scopes();
    refused_areas();
    refused_references();
    refused_data();
    refused_loads();
    accepted_looks();
    set_ups_elsewhere();
    refused_word_short(&core->permanent_len);
    refused_word_short(&core->scratch_len);
    refused_word_short(&core->map_len);
    refused_word_short(&core->written_len);
    return failures != 0;
}
