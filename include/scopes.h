/* The scoped-memory core for C and C++: every function that the archive libscopes.a exports, and calls over a handle.
 *
 * A host holds a scopes_core and makes the calls scopes_core_.. at the end of this file. Under them are the functions of
 * the archive, which take a state and its buffers one by one; what a call does is said there. README.md, "From C", shows
 * how to build and link. For C11, C99 with gcc or clang, and C++11, or later ones.
 *
 * What is proved. The archive is compiled from proved code (the crates host_.. of the folder crates). For any arguments
 * whatever, each call's status, its value, the state that it leaves and every word of the four lent buffers are those that
 * the specification defines (document 01, and of document 02 the requests that have landed); a refused call changes nothing;
 * no call touches memory outside what it is lent; every call ends (the contract `Answers` of each function). Over every list
 * of calls, by any threads and under any rights that are loaded, of the tables and buffers that the host then holds: a
 * thread in a scope stands in all its ancestors, whether it entered them or was started there as a helper and never called
 * enter; a scope's count is the number of its entries on all stacks; the used blocks of scratch are those of the made
 * scopes and no others, and no two made scopes share a word; no reference outlives its object; a dead handle is never
 * accepted again, also where its scope is removed and made again; and a read of a live handle, by a thread with right U, at
 * an index below the object's data words gives the last word accepted for that handle and index, or SCOPES_UNWRITTEN if
 * there is none since the object was made (the theorem `served_claims`, crates/served). Not covered: the compiler's back
 * end, the few lines of C below, and a host that breaks these rules.
 *
 * What the caller owes. A proof about these functions rests on it, and C cannot check it:
 *  - A state comes only from a set-up and from the calls made with it since. Never write into its words or bytes, never
 *    make one by hand, and never put an older copy back. The same holds of a scopes_stack, and of a scopes_core's fields.
 *  - Words and bytes that are passed together belong to one state.
 *  - Every pointer is valid for the length beside it (a buffer's in words, a text's in bytes) and aligned for its type. A
 *    buffer or a text of length 0 may be null; tables, handles and records may not. The state and the four buffers do not
 *    overlap, nor do the state and a text. A buffer's length other than set-up's is no fault: it is refused by 1.
 *  - One call at a time for a state: calls by several threads need a lock around them. Calls whose pointers are all const
 *    only read: any number of them may run at once, while no other call on that state does.
 *  - The lent words may hold anything, and a call does what is specified whatever they hold. But what is said of a
 *    whole list of calls (no reference outlives its object, a read gives the last word written) holds only while nothing
 *    else writes the permanent store, the scratch store, the start map or the written map between the calls.
 *
 * What a call does not do. A refused call writes nothing, not even the same bytes; nor does a call whose pointers are all
 * const write anything (hosts/c/read_only.c tries both in read-only memory). There are two exceptions: a set-up writes its
 * tables, refused or not, since a refused one gives a state too; and a refused push or pop may write its record as it was.
 *
 * Stack. No call takes more than SCOPES_CALL_STACK bytes, its arguments and its return address included, the C library's
 * memset apart (hosts/c/stack.c measures each). Without optimization a call over a handle has a frame of its own besides.
 * scopes_set_up gives its state by value: 7.6 KB more, the caller's own.
 *
 * Time. Constant, whatever the depth and the number of threads, areas and objects, but for four calls. An accepted
 * allocation is linear in the object's words, and a start of a helper in its starter's entries, which are 32 at most. A make
 * looks at no more than two bits for each block of scratch, 2,048 at most, and passes over clear ones side by side in one
 * word at once; an accepted make or remove writes the words with the bits of its scope's blocks, 64 in a word. A set-up
 * writes the 7.6 KB of its tables. A list of n calls, such as the frames of target/bin/frames, is linear in n and the words
 * that it allocates.
 *
 * Interrupts. There is no lock, no errno, no memory of the functions' own, and no floating-point number; of the C library
 * they call memset and memcpy at most. So a call may be made from an interrupt or signal handler, if the code that was
 * interrupted was in no call on that state, or both calls only read. The functions use SSE registers (xmm) and no x87, MMX
 * or AVX ones: a handler that calls them saves these, and those of the host's own memset. They also use the red zone of the
 * System V convention: a handler on the stack of interrupted code leaves the 128 bytes below its stack pointer alone.
 *
 * Threads are numbers that the host gives to its own threads; a call may be made on behalf of any of them.
 */
#ifndef SCOPES_H
#define SCOPES_H

#if !defined(__x86_64__) || !defined(__LP64__) || defined(__CYGWIN__)
#error "scopes.h: the archive libscopes.a is for x86-64 with the System V calling convention (LP64) alone"
#endif

#include <stddef.h>
#include <stdint.h>

/* ---- What the compiler can check. These names are taken back at the end. */

/* A result that must be looked at. */
#if (defined(__cplusplus) && __cplusplus >= 201703L) || (defined(__STDC_VERSION__) && __STDC_VERSION__ >= 202311L)
#define SCOPES_RESULT [[nodiscard]]
#elif defined(__GNUC__)
#define SCOPES_RESULT __attribute__((warn_unused_result))
#else
#define SCOPES_RESULT
#endif

/* Parameters, by number, that are never null; the first two are a state's words and bytes. */
#ifdef __GNUC__
#define SCOPES_NONNULL(...) __attribute__((nonnull(__VA_ARGS__)))
#else
#define SCOPES_NONNULL(...)
#endif

/* A field at a multiple of 64 bytes, and a fact that the compiler tests; the name is told where it is false. */
#ifdef __cplusplus
#define SCOPES_ALIGNED alignas(64)
#define SCOPES_FACT(name, fact) static_assert(fact, #name)
#elif defined(__STDC_VERSION__) && __STDC_VERSION__ >= 201112L
#define SCOPES_ALIGNED _Alignas(64)
#define SCOPES_FACT(name, fact) _Static_assert(fact, #name)
#else
#define SCOPES_ALIGNED __attribute__((aligned(64)))
#define SCOPES_FACT(name, fact) typedef char name[(fact) ? 1 : -1]
#endif

#ifdef __cplusplus
extern "C" {
#endif

/* ---- Version */

/* Major * 1,000,000 + minor * 1,000 + patch: 0.5.0. */
#define SCOPES_VERSION 5000u

/* The version of the archive, to compare with that of this header. */
SCOPES_RESULT
uint64_t scopes_version(void);

/* ---- Limits */

#define SCOPES_STATE_WORDS 563u       /* words of a state: 4,504 bytes */
#define SCOPES_STATE_BYTES 3108u      /* bytes of a state, beside its words: 7,612 bytes in all */
#define SCOPES_THREADS 16u            /* threads are 0 to 15 */
#define SCOPES_AREAS 64u              /* areas are 0 to 63 */
#define SCOPES_STACK_ENTRIES 32u      /* entries of one thread's stack */
#define SCOPES_STORE_WORDS 16384u     /* most words of the permanent store, and of the scratch store */
#define SCOPES_BLOCK_WORDS 16u        /* words of a block: scopes get whole blocks of the scratch store */
#define SCOPES_RIGHTS_DIGITS 36u      /* digits of a rights table */
#define SCOPES_CALL_STACK 256u        /* most bytes of the machine's stack that a call takes */
#define SCOPES_LAST_GENERATION 17592186044415u /* 2^44 - 1: a scope is opened at most so often, made again or not */

/* Words of the start map, and of the written map, for stores of these lengths. */
#define SCOPES_MAP_WORDS(permanent_len, scratch_len) (((permanent_len) + (scratch_len) + 63u) / 64u)

/* ---- Areas: 2 to 63 are scopes */

#define SCOPES_HEAP 0u
#define SCOPES_IMMORTAL 1u
#define SCOPES_FIRST_SCOPE 2u

/* The handle that names no object. */
#define SCOPES_NULL 0u

/* ---- Kinds of threads, with what the built-in rights table lets them do; scopes_load_rights puts another in its place */

typedef enum scopes_kind {
    SCOPES_ORDINARY = 1,  /* heap; uses and refers to immortal objects */
    SCOPES_REAL_TIME = 2, /* every area */
    SCOPES_NO_HEAP = 3    /* every area but the heap */
} scopes_kind;

/* ---- Statuses: 0, or why the call was refused. A refusal's value is 0. */

typedef enum scopes_status {
    SCOPES_OK = 0,
    SCOPES_LENGTHS = 1,          /* the buffers' lengths are not those of set-up; set-up: they do not fit */
    SCOPES_THREAD = 2,           /* thread above 15, or not started (start, and the helper of start_helper: above 15 only) */
    SCOPES_STARTED = 3,          /* thread (start_helper: the helper) started and not ended */
    SCOPES_KIND = 4,             /* kind not 1, 2 or 3 */
    SCOPES_RIGHT = 5,            /* the thread's kind (start_helper: the helper's) lacks the right, by the table in force */
    SCOPES_AREA = 6,             /* area above 63, or scope not made (make: outside 2 to 63; remove: that, or not made) */
    SCOPES_MADE = 7,             /* scope already made */
    SCOPES_SIZE = 8,             /* size 0, or no run of free blocks holds it */
    SCOPES_STACK_FULL = 9,       /* stack has 32 entries */
    SCOPES_PARENT = 10,          /* scope open with another parent */
    SCOPES_ENTRIES = 11,         /* exit or pop with an empty stack; end with entries */
    SCOPES_ROOM = 12,            /* the object does not fit into the current area */
    SCOPES_OBJECT = 13,          /* object null or not live */
    SCOPES_INDEX = 14,           /* slot or data index not below the object's */
    SCOPES_TARGET = 15,          /* target or loaded word neither null nor live */
    SCOPES_ASSIGNMENT = 16,      /* the assignment rule forbids the reference */
    SCOPES_GENERATIONS_OUT = 17, /* scope not open, its generation the last one */
    SCOPES_NO_FRAME = 18,        /* a line is no frame: of the program alone, no function gives it */
    SCOPES_UNWRITTEN = 19,       /* read: nobody wrote this data word since the object was made */
    SCOPES_OPEN = 20,            /* remove: the scope is open */
    SCOPES_TABLE = 23,           /* not 36 digits, a digit other than 0 and 1, or A without U */
    SCOPES_RUNNING = 24          /* a thread is started */
} scopes_status;

/* The name of a status as it stands above; of any other number, "unknown status". */
SCOPES_RESULT
static inline const char *scopes_status_name(uint64_t status)
{
#define SCOPES_NAMED(status) case status: return #status
    switch (status) {
        SCOPES_NAMED(SCOPES_OK);
        SCOPES_NAMED(SCOPES_LENGTHS);
        SCOPES_NAMED(SCOPES_THREAD);
        SCOPES_NAMED(SCOPES_STARTED);
        SCOPES_NAMED(SCOPES_KIND);
        SCOPES_NAMED(SCOPES_RIGHT);
        SCOPES_NAMED(SCOPES_AREA);
        SCOPES_NAMED(SCOPES_MADE);
        SCOPES_NAMED(SCOPES_SIZE);
        SCOPES_NAMED(SCOPES_STACK_FULL);
        SCOPES_NAMED(SCOPES_PARENT);
        SCOPES_NAMED(SCOPES_ENTRIES);
        SCOPES_NAMED(SCOPES_ROOM);
        SCOPES_NAMED(SCOPES_OBJECT);
        SCOPES_NAMED(SCOPES_INDEX);
        SCOPES_NAMED(SCOPES_TARGET);
        SCOPES_NAMED(SCOPES_ASSIGNMENT);
        SCOPES_NAMED(SCOPES_GENERATIONS_OUT);
        SCOPES_NAMED(SCOPES_NO_FRAME);
        SCOPES_NAMED(SCOPES_UNWRITTEN);
        SCOPES_NAMED(SCOPES_OPEN);
        SCOPES_NAMED(SCOPES_TABLE);
        SCOPES_NAMED(SCOPES_RUNNING);
        default: return "unknown status";
    }
#undef SCOPES_NAMED
}

/* ---- The RTSJ's names. What a Java over this core throws at a refusal, and which of its methods or instructions makes a
 * call. `none` where the RTSJ has no such thing, mostly since there a thread, an area or an object is no number that can be
 * wrong.
 *
 *    1        none: a mistake of the host
 *    2        none: the caller is a started thread, and one to be started has no number
 *    3        IllegalThreadStateException
 *    4        none: a thread's kind is its class
 *    5        U or R: MemoryAccessError, as for a no-heap thread that meets a heap reference
 *             E or A: InaccessibleAreaException is nearest, which the RTSJ has for an area that is not on the scope stack;
 *             where an ordinary thread enters a scope, IllegalThreadStateException
 *             E of a helper: IllegalArgumentException is nearest, as for a NoHeapRealtimeThread that is given the heap
 *    6, 7     none: an area is an object
 *    8        size 0: IllegalArgumentException; no run of free blocks: OutOfMemoryError
 *    9, 17    none; ResourceLimitError is nearest
 *   10        ScopedCycleException
 *   11        none: run() returns once for each entry
 *   12        OutOfMemoryError
 *   13        null: NullPointerException; not live: none, what the other checks keep from coming about
 *   14        a slot or word of an array: ArrayIndexOutOfBoundsException; a field: none, the compiler has its number
 *   15        none: as 13, not live
 *   16        IllegalAssignmentError
 *   19        none: a field or an element that nobody wrote is 0
 *   20        none: an area is an object, which the collector takes, never while a thread stands in it
 *   18, 23, 24   none
 *
 *   set-up          none: the machine's own start, after which HeapMemory.instance() and ImmortalMemory.instance() are there
 *   start           Thread.start of a Thread (kind 1), RealtimeThread (2) or NoHeapRealtimeThread (3), with an empty scope
 *                   stack, as by a starter that stands in no area
 *   start_helper    the same by a starter in areas: the new thread inherits its scope stack as its initial one, and
 *                   ScopedMemory.getReferenceCount() of each scope there rises
 *   end             the return of the thread's run()
 *   make            new LTMemory(size)
 *   remove          none: the collector takes an area that nothing refers to any more, and frees its room
 *   enter           MemoryArea.enter(logic), up to logic.run(); of a scope ScopedMemory.enter
 *   exit            the return of that run(), or of the thread's own where an entry is inherited; the value is then
 *                   ScopedMemory.getReferenceCount()
 *   allocate        new, in the current allocation context; newInstance in another area has no call
 *   store           putfield or aastore of a reference
 *   load            getfield or aaload of a reference
 *   write, read     the same of a primitive value: putfield, lastore; getfield, laload
 *   view_status, view_place   none: RawMemoryAccess shows physical memory, not an object
 *   load_rights     none: the rights of each class of threads are fixed
 *   stack_..        none: the scope stack is the machine's own
 */

/* ---- Answers and records */

/* Status 0 and a value, or a refusal and 0. */
typedef struct scopes_answer {
    uint64_t status;
    uint64_t value;
} scopes_answer;

/* What a set-up by value gives: its status, and the state in two tables. Where the status is 1 the state is the one of
 * empty buffers. The tables may be moved elsewhere before the first call: here they do not lie at multiples of 64 bytes, as
 * they do in a scopes_core. */
typedef struct scopes_new_state {
    uint64_t status;
    uint64_t words[SCOPES_STATE_WORDS];
    uint8_t bytes[SCOPES_STATE_BYTES];
} scopes_new_state;

/* Where an object's data words lie: in the permanent (0) or the scratch store (1), from a word on. */
typedef struct scopes_view {
    uint64_t status;
    uint64_t store;
    uint64_t from;
    uint64_t len;
} scopes_view;

/* The same as a pointer and a length in words; a refusal has a null pointer and length 0. */
typedef struct scopes_span {
    uint64_t status;
    const uint64_t *words;
    size_t len;
} scopes_span;

/* One thread's stack as a record that the host's scheduler holds; the top is the last entry. It comes from
 * scopes_stack_empty and the pushes and pops since alone. */
typedef struct scopes_stack {
    uint64_t len;
    uint8_t entries[SCOPES_STACK_ENTRIES];
} scopes_stack;

/* The handle of a core: a state, and the buffers of its set-up with their lengths in words. It comes from
 * scopes_core_set_up and the calls since alone; it may be moved, and is never kept twice. It lies at a multiple of 64 bytes
 * (on the heap: aligned_alloc), and so do its words and its bytes, so that no area's record and no display crosses a cache
 * line and entries are fastest. */
typedef struct scopes_core {
    SCOPES_ALIGNED uint64_t words[SCOPES_STATE_WORDS];
    SCOPES_ALIGNED uint8_t bytes[SCOPES_STATE_BYTES];
    uint64_t *permanent;
    size_t permanent_len;
    uint64_t *scratch;
    size_t scratch_len;
    uint64_t *map;
    size_t map_len;
    uint64_t *written;
    size_t written_len;
} scopes_core;

/* The layouts that the archive has, and the Rust wrapper beside it. */
#define SCOPES_SIZE_IS(type, size) SCOPES_FACT(type##_has_its_size, sizeof(type) == (size))
#define SCOPES_OFFSET_IS(type, field, offset) SCOPES_FACT(type##_has_its_##field, offsetof(type, field) == (offset))
SCOPES_SIZE_IS(scopes_answer, 16);
SCOPES_OFFSET_IS(scopes_answer, value, 8);
SCOPES_SIZE_IS(scopes_new_state, 7624);
SCOPES_OFFSET_IS(scopes_new_state, words, 8);
SCOPES_OFFSET_IS(scopes_new_state, bytes, 4512);
SCOPES_SIZE_IS(scopes_view, 32);
SCOPES_OFFSET_IS(scopes_view, store, 8);
SCOPES_OFFSET_IS(scopes_view, from, 16);
SCOPES_OFFSET_IS(scopes_view, len, 24);
SCOPES_SIZE_IS(scopes_stack, 40);
SCOPES_OFFSET_IS(scopes_stack, entries, 8);
SCOPES_SIZE_IS(scopes_core, 7744);
SCOPES_OFFSET_IS(scopes_core, words, 0);
SCOPES_OFFSET_IS(scopes_core, bytes, 4544);
SCOPES_OFFSET_IS(scopes_core, permanent, 7656);
SCOPES_OFFSET_IS(scopes_core, permanent_len, 7664);
SCOPES_OFFSET_IS(scopes_core, scratch, 7672);
SCOPES_OFFSET_IS(scopes_core, scratch_len, 7680);
SCOPES_OFFSET_IS(scopes_core, map, 7688);
SCOPES_OFFSET_IS(scopes_core, map_len, 7696);
SCOPES_OFFSET_IS(scopes_core, written, 7704);
SCOPES_OFFSET_IS(scopes_core, written_len, 7712);

/* ---- Set-up: a first state for a heap and an immortal memory of these sizes in words, with the built-in rights table.
 * Refused by 1 unless heap + immortal is permanent_len, no store is longer than 16,384 words, and each map has
 * SCOPES_MAP_WORDS words; the state is then the one of empty buffers. Writes no lent word.
 *
 * Both maps have a bit for each word of the stores, the permanent store's words first: word w has bit w mod 64 of map word
 * w / 64. In the start map a 1 says that an object begins there, in the written map that the data word was written since its
 * object was made. An allocation puts both in order for the words of its object, so they too may hold anything at first.
 *
 * The scratch store has scratch_len / SCOPES_BLOCK_WORDS whole blocks, 1,024 at most, which make hands out and remove takes
 * back; a shorter rest behind them is not used. */

/* Writes the state into the host's own words and bytes, whatever they hold, and gives the status. Where the words lie at a
 * multiple of 64 bytes and the bytes at a multiple of 32 bytes, no area's record and no display crosses a cache line, and
 * entries are fastest. */
SCOPES_RESULT SCOPES_NONNULL(1, 2)
uint64_t scopes_set_up_in_place(
    uint64_t words[SCOPES_STATE_WORDS], uint8_t bytes[SCOPES_STATE_BYTES],
    const uint64_t *permanent, size_t permanent_len,
    const uint64_t *scratch, size_t scratch_len,
    const uint64_t *map, size_t map_len,
    const uint64_t *written, size_t written_len,
    uint64_t heap, uint64_t immortal);

/* Gives the state by value. */
SCOPES_RESULT
scopes_new_state scopes_set_up(
    const uint64_t *permanent, size_t permanent_len,
    const uint64_t *scratch, size_t scratch_len,
    const uint64_t *map, size_t map_len,
    const uint64_t *written, size_t written_len,
    uint64_t heap, uint64_t immortal);

/* ---- Calls. Each takes the state and the four buffers of its set-up; the refusals stand in the order of their tests. */

/* Starts a thread of a kind. Refusals 1, 2, 3, 4. Value 0. */
SCOPES_RESULT SCOPES_NONNULL(1, 2)
scopes_answer scopes_start(
    uint64_t words[SCOPES_STATE_WORDS], const uint8_t bytes[SCOPES_STATE_BYTES],
    const uint64_t *permanent, size_t permanent_len,
    const uint64_t *scratch, size_t scratch_len,
    const uint64_t *map, size_t map_len,
    const uint64_t *written, size_t written_len,
    uint64_t thread, uint64_t kind);

/* Starts a helper: a thread of a kind that begins with the entries of its starter, which makes the call. It then stands in
 * the same areas without having entered them, and the count of each scope rises by 1 for each entry. It leaves them and
 * ends like any thread, before or after its starter. Refusals 1, 2 (starter), 2 (helper above 15), 3 (helper), 4, 5 (the
 * helper's kind lacks E for any entry; where there is none, no right is asked for). 9 does not come: the starter's stack
 * may be full. Value 0. */
SCOPES_RESULT SCOPES_NONNULL(1, 2)
scopes_answer scopes_start_helper(
    uint64_t words[SCOPES_STATE_WORDS], uint8_t bytes[SCOPES_STATE_BYTES],
    const uint64_t *permanent, size_t permanent_len,
    const uint64_t *scratch, size_t scratch_len,
    const uint64_t *map, size_t map_len,
    const uint64_t *written, size_t written_len,
    uint64_t thread, uint64_t kind, uint64_t helper);

/* Ends a thread. Refusals 1, 2, 11. Value 0. */
SCOPES_RESULT SCOPES_NONNULL(1, 2)
scopes_answer scopes_end(
    uint64_t words[SCOPES_STATE_WORDS], const uint8_t bytes[SCOPES_STATE_BYTES],
    const uint64_t *permanent, size_t permanent_len,
    const uint64_t *scratch, size_t scratch_len,
    const uint64_t *map, size_t map_len,
    const uint64_t *written, size_t written_len,
    uint64_t thread);

/* Makes a scope of a size in words. It gets the lowest run of adjacent free blocks that holds them, and keeps it, open or
 * not, until it is removed; its objects get no more than the size that was asked for. A scope that was removed may lie
 * elsewhere now, and its generations go on, so that its old handles stay dead. Refusals 1, 2, 6, 7, 8. Value 0. */
SCOPES_RESULT SCOPES_NONNULL(1, 2)
scopes_answer scopes_make(
    uint64_t words[SCOPES_STATE_WORDS], const uint8_t bytes[SCOPES_STATE_BYTES],
    const uint64_t *permanent, size_t permanent_len,
    const uint64_t *scratch, size_t scratch_len,
    const uint64_t *map, size_t map_len,
    const uint64_t *written, size_t written_len,
    uint64_t thread, uint64_t area, uint64_t size);

/* Removes a scope that is not open: it counts as not made from then on, and its blocks are free for other scopes. No lent
 * word changes. Refusals 1, 2, 6, 20. Value 0. */
SCOPES_RESULT SCOPES_NONNULL(1, 2)
scopes_answer scopes_remove(
    uint64_t words[SCOPES_STATE_WORDS], const uint8_t bytes[SCOPES_STATE_BYTES],
    const uint64_t *permanent, size_t permanent_len,
    const uint64_t *scratch, size_t scratch_len,
    const uint64_t *map, size_t map_len,
    const uint64_t *written, size_t written_len,
    uint64_t thread, uint64_t area);

/* Enters an area. Refusals 1, 2, 6, 5, 9, 10, 17. The value is the area's generation. */
SCOPES_RESULT SCOPES_NONNULL(1, 2)
scopes_answer scopes_enter(
    uint64_t words[SCOPES_STATE_WORDS], uint8_t bytes[SCOPES_STATE_BYTES],
    const uint64_t *permanent, size_t permanent_len,
    const uint64_t *scratch, size_t scratch_len,
    const uint64_t *map, size_t map_len,
    const uint64_t *written, size_t written_len,
    uint64_t thread, uint64_t area);

/* Leaves the current area; a scope that its last thread leaves is emptied, and keeps its blocks. Refusals 1, 2, 11. The
 * value is the count of entries left of a scope, else 0. */
SCOPES_RESULT SCOPES_NONNULL(1, 2)
scopes_answer scopes_exit(
    uint64_t words[SCOPES_STATE_WORDS], const uint8_t bytes[SCOPES_STATE_BYTES],
    const uint64_t *permanent, size_t permanent_len,
    const uint64_t *scratch, size_t scratch_len,
    const uint64_t *map, size_t map_len,
    const uint64_t *written, size_t written_len,
    uint64_t thread);

/* Allocates an object in the thread's current area; its slots are null, its data words 0 and unwritten. Refusals 1, 2, 5,
 * 12. The value is its handle. */
SCOPES_RESULT SCOPES_NONNULL(1, 2)
scopes_answer scopes_allocate(
    uint64_t words[SCOPES_STATE_WORDS], const uint8_t bytes[SCOPES_STATE_BYTES],
    uint64_t *permanent, size_t permanent_len,
    uint64_t *scratch, size_t scratch_len,
    uint64_t *map, size_t map_len,
    uint64_t *written, size_t written_len,
    uint64_t thread, uint64_t slots, uint64_t data_words);

/* Stores a reference, a handle or null, in a slot. Refusals 1, 2, 13, 5, 14, 15, 5, 16. Value 0. */
SCOPES_RESULT SCOPES_NONNULL(1, 2)
scopes_answer scopes_store(
    const uint64_t words[SCOPES_STATE_WORDS], const uint8_t bytes[SCOPES_STATE_BYTES],
    uint64_t *permanent, size_t permanent_len,
    uint64_t *scratch, size_t scratch_len,
    const uint64_t *map, size_t map_len,
    const uint64_t *written, size_t written_len,
    uint64_t thread, uint64_t object, uint64_t slot, uint64_t target);

/* Loads a reference. Refusals 1, 2, 13, 5, 14, 15, 5. The value is the stored handle, or null. */
SCOPES_RESULT SCOPES_NONNULL(1, 2)
scopes_answer scopes_load(
    const uint64_t words[SCOPES_STATE_WORDS], const uint8_t bytes[SCOPES_STATE_BYTES],
    const uint64_t *permanent, size_t permanent_len,
    const uint64_t *scratch, size_t scratch_len,
    const uint64_t *map, size_t map_len,
    const uint64_t *written, size_t written_len,
    uint64_t thread, uint64_t object, uint64_t slot);

/* Writes a data word; writing 0 is a writing too. Refusals 1, 2, 13, 5, 14. Value 0. */
SCOPES_RESULT SCOPES_NONNULL(1, 2)
scopes_answer scopes_write(
    const uint64_t words[SCOPES_STATE_WORDS], const uint8_t bytes[SCOPES_STATE_BYTES],
    uint64_t *permanent, size_t permanent_len,
    uint64_t *scratch, size_t scratch_len,
    const uint64_t *map, size_t map_len,
    uint64_t *written, size_t written_len,
    uint64_t thread, uint64_t object, uint64_t index, uint64_t word);

/* Reads a data word that was written. Refusals 1, 2, 13, 5, 14, 19. The value is the word. */
SCOPES_RESULT SCOPES_NONNULL(1, 2)
scopes_answer scopes_read(
    const uint64_t words[SCOPES_STATE_WORDS], const uint8_t bytes[SCOPES_STATE_BYTES],
    const uint64_t *permanent, size_t permanent_len,
    const uint64_t *scratch, size_t scratch_len,
    const uint64_t *map, size_t map_len,
    const uint64_t *written, size_t written_len,
    uint64_t thread, uint64_t object, uint64_t index);

/* ---- The shown part: an object's data words where they lie, without a copy, whether anybody wrote them or not */

/* Whether a thread may see an object's data. Refusals 1, 2, 13, 5. Value 0. */
SCOPES_RESULT SCOPES_NONNULL(1, 2)
scopes_answer scopes_view_status(
    const uint64_t words[SCOPES_STATE_WORDS], const uint8_t bytes[SCOPES_STATE_BYTES],
    const uint64_t *permanent, size_t permanent_len,
    const uint64_t *scratch, size_t scratch_len,
    const uint64_t *map, size_t map_len,
    const uint64_t *written, size_t written_len,
    uint64_t thread, uint64_t object);

/* Where they lie, with the same status; a refusal gives store, from and len 0. The part is the object's until the next
 * call that empties its scope; an open scope is not removed, so that its words stay. Read it; writing it is
 * scopes_write's. */
SCOPES_RESULT SCOPES_NONNULL(1, 2)
scopes_view scopes_view_place(
    const uint64_t words[SCOPES_STATE_WORDS], const uint8_t bytes[SCOPES_STATE_BYTES],
    const uint64_t *permanent, size_t permanent_len,
    const uint64_t *scratch, size_t scratch_len,
    const uint64_t *map, size_t map_len,
    const uint64_t *written, size_t written_len,
    uint64_t thread, uint64_t object);

/* A view as a pointer into the stores of its call, and a length. */
SCOPES_RESULT
static inline scopes_span scopes_view_span(scopes_view view, const uint64_t *permanent, const uint64_t *scratch)
{
    scopes_span span = {view.status, NULL, view.len};
    if (view.status == SCOPES_OK)
        span.words = (view.store == 0 ? permanent : scratch) + view.from;
    return span;
}

/* ---- Rights: a call that takes the state and is lent no buffer, so that 1 does not come */

/* Puts a rights table of the host's own in force, until the next load. The text is 36 digits, no line feed behind them,
 * ordered by kind (1 to 3), class of areas (heap, immortal memory, scopes) and right (E, A, U, R); 1 where the kind has
 * the right: E to enter such an area or start there as a helper, A to allocate in it, U to use an object of it, R to store
 * or load a reference to one. A is allowed only with U. target/bin/rights_table prints the digits (README.md, "Rights").
 * Objects made before the load live on. Refusals 23, 24. Value 0. */
SCOPES_RESULT SCOPES_NONNULL(1, 2)
scopes_answer scopes_load_rights(
    const uint64_t words[SCOPES_STATE_WORDS], uint8_t bytes[SCOPES_STATE_BYTES],
    const uint8_t *text, size_t text_len);

/* ---- A scope stack for the host's scheduler. It knows of no state and is never put back into one. */

SCOPES_RESULT
scopes_stack scopes_stack_empty(void);

/* Puts an area on top. Refusals 6 (area above 63), 9 (32 entries). Value 0. */
SCOPES_RESULT SCOPES_NONNULL(1)
scopes_answer scopes_stack_push(scopes_stack *stack, uint64_t area);

/* Takes the top off. Refusal 11 (no entry). The value is the area. */
SCOPES_RESULT SCOPES_NONNULL(1)
scopes_answer scopes_stack_pop(scopes_stack *stack);

/* ---- The calls over a handle: each is the function of the same name above, on the handle's state and buffers. A buffer
 * that comes to every call is one more field of the handle, and one more line here. */

#define SCOPES_PARTS(core)                    \
    (core)->words, (core)->bytes,             \
    (core)->permanent, (core)->permanent_len, \
    (core)->scratch, (core)->scratch_len,     \
    (core)->map, (core)->map_len,             \
    (core)->written, (core)->written_len

/* Takes the buffers, which the handle keeps, and sets up its state in place. Refused by 1 as above; every call on buffers
 * that are not empty is refused by 1 then too. */
SCOPES_RESULT SCOPES_NONNULL(1)
static inline uint64_t scopes_core_set_up(
    scopes_core *core,
    uint64_t *permanent, size_t permanent_len,
    uint64_t *scratch, size_t scratch_len,
    uint64_t *map, size_t map_len,
    uint64_t *written, size_t written_len,
    uint64_t heap, uint64_t immortal)
{
    core->permanent = permanent;
    core->permanent_len = permanent_len;
    core->scratch = scratch;
    core->scratch_len = scratch_len;
    core->map = map;
    core->map_len = map_len;
    core->written = written;
    core->written_len = written_len;
    return scopes_set_up_in_place(SCOPES_PARTS(core), heap, immortal);
}

SCOPES_RESULT SCOPES_NONNULL(1)
static inline scopes_answer scopes_core_start(scopes_core *core, uint64_t thread, uint64_t kind)
{
    return scopes_start(SCOPES_PARTS(core), thread, kind);
}

SCOPES_RESULT SCOPES_NONNULL(1)
static inline scopes_answer scopes_core_start_helper(scopes_core *core, uint64_t thread, uint64_t kind, uint64_t helper)
{
    return scopes_start_helper(SCOPES_PARTS(core), thread, kind, helper);
}

SCOPES_RESULT SCOPES_NONNULL(1)
static inline scopes_answer scopes_core_end(scopes_core *core, uint64_t thread)
{
    return scopes_end(SCOPES_PARTS(core), thread);
}

SCOPES_RESULT SCOPES_NONNULL(1)
static inline scopes_answer scopes_core_make(scopes_core *core, uint64_t thread, uint64_t area, uint64_t size)
{
    return scopes_make(SCOPES_PARTS(core), thread, area, size);
}

SCOPES_RESULT SCOPES_NONNULL(1)
static inline scopes_answer scopes_core_remove(scopes_core *core, uint64_t thread, uint64_t area)
{
    return scopes_remove(SCOPES_PARTS(core), thread, area);
}

SCOPES_RESULT SCOPES_NONNULL(1)
static inline scopes_answer scopes_core_enter(scopes_core *core, uint64_t thread, uint64_t area)
{
    return scopes_enter(SCOPES_PARTS(core), thread, area);
}

SCOPES_RESULT SCOPES_NONNULL(1)
static inline scopes_answer scopes_core_exit(scopes_core *core, uint64_t thread)
{
    return scopes_exit(SCOPES_PARTS(core), thread);
}

SCOPES_RESULT SCOPES_NONNULL(1)
static inline scopes_answer scopes_core_allocate(scopes_core *core, uint64_t thread, uint64_t slots, uint64_t data_words)
{
    return scopes_allocate(SCOPES_PARTS(core), thread, slots, data_words);
}

SCOPES_RESULT SCOPES_NONNULL(1)
static inline scopes_answer scopes_core_store(
    scopes_core *core, uint64_t thread, uint64_t object, uint64_t slot, uint64_t target)
{
    return scopes_store(SCOPES_PARTS(core), thread, object, slot, target);
}

SCOPES_RESULT SCOPES_NONNULL(1)
static inline scopes_answer scopes_core_load(const scopes_core *core, uint64_t thread, uint64_t object, uint64_t slot)
{
    return scopes_load(SCOPES_PARTS(core), thread, object, slot);
}

SCOPES_RESULT SCOPES_NONNULL(1)
static inline scopes_answer scopes_core_write(
    scopes_core *core, uint64_t thread, uint64_t object, uint64_t index, uint64_t word)
{
    return scopes_write(SCOPES_PARTS(core), thread, object, index, word);
}

SCOPES_RESULT SCOPES_NONNULL(1)
static inline scopes_answer scopes_core_read(const scopes_core *core, uint64_t thread, uint64_t object, uint64_t index)
{
    return scopes_read(SCOPES_PARTS(core), thread, object, index);
}

SCOPES_RESULT SCOPES_NONNULL(1)
static inline scopes_answer scopes_core_view_status(const scopes_core *core, uint64_t thread, uint64_t object)
{
    return scopes_view_status(SCOPES_PARTS(core), thread, object);
}

SCOPES_RESULT SCOPES_NONNULL(1)
static inline scopes_view scopes_core_view_place(const scopes_core *core, uint64_t thread, uint64_t object)
{
    return scopes_view_place(SCOPES_PARTS(core), thread, object);
}

/* An object's data words as a pointer and a length, valid for as long as scopes_view_place says. */
SCOPES_RESULT SCOPES_NONNULL(1)
static inline scopes_span scopes_core_view(const scopes_core *core, uint64_t thread, uint64_t object)
{
    return scopes_view_span(scopes_core_view_place(core, thread, object), core->permanent, core->scratch);
}

SCOPES_RESULT SCOPES_NONNULL(1)
static inline scopes_answer scopes_core_load_rights(scopes_core *core, const uint8_t *text, size_t text_len)
{
    return scopes_load_rights(core->words, core->bytes, text, text_len);
}

#ifdef __cplusplus
}
#endif

#undef SCOPES_PARTS
#undef SCOPES_OFFSET_IS
#undef SCOPES_SIZE_IS
#undef SCOPES_FACT
#undef SCOPES_ALIGNED
#undef SCOPES_NONNULL
#undef SCOPES_RESULT

#endif
