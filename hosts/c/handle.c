/* Every call over a handle once, with what it answers; the set-ups, views and stack record beside them; buffers and texts of
 * length 0 by a null pointer. Both a C and a C++ program. */
#include <string.h>

#include "check.h"

enum { HEAP = 32, IMMORTAL = 32, PERMANENT = HEAP + IMMORTAL, SCRATCH = 64, MAP = SCOPES_MAP_WORDS(PERMANENT, SCRATCH) };
enum { THREAD = 0, HELPER = 1, SCOPE = 2 };

/* The digits of the built-in rights table. */
static const uint8_t digits[] = "111100110000" "111111111111" "000011111111";

static uint64_t permanent[PERMANENT], scratch[SCRATCH], map[MAP], written[MAP];
static scopes_core core;

static uint64_t set_up(uint64_t heap, size_t written_len)
{
    return scopes_core_set_up(&core, permanent, PERMANENT, scratch, SCRATCH, map, MAP, written, written_len, heap, IMMORTAL);
}

static int is_answer(scopes_answer answer, uint64_t value)
{
    return answer.status == SCOPES_OK && answer.value == value;
}

/* A refused view is empty, flat or over the handle. */
static void check_refused_view(uint64_t object)
{
    scopes_span span = scopes_core_view(&core, THREAD, object);
    CHECK(span.status == SCOPES_OBJECT && span.words == NULL && span.len == 0);
    span = scopes_view_span(scopes_core_view_place(&core, THREAD, object), permanent, scratch);
    CHECK(span.status == SCOPES_OBJECT && span.words == NULL && span.len == 0);
}

/* An accepted one lies in its store. */
static void check_view(uint64_t object, const uint64_t *words, size_t len)
{
    scopes_span span = scopes_core_view(&core, THREAD, object);
    CHECK(span.status == SCOPES_OK && span.words == words && span.len == len);
    span = scopes_view_span(scopes_core_view_place(&core, THREAD, object), permanent, scratch);
    CHECK(span.status == SCOPES_OK && span.words == words && span.len == len);
    CHECK(is_answer(scopes_core_view_status(&core, THREAD, object), 0));
}

static void every_call(void)
{
    uint64_t outer, inner;
    CHECK_STATUS(set_up(HEAP, MAP), SCOPES_OK);
    scopes_answer loaded = scopes_core_load_rights(&core, digits, SCOPES_RIGHTS_DIGITS);
    CHECK(is_answer(loaded, 0));
    CHECK(is_answer(scopes_core_start(&core, THREAD, SCOPES_REAL_TIME), 0));
    CHECK(is_answer(scopes_core_make(&core, THREAD, SCOPE, 16), 0));
    outer = scopes_core_allocate(&core, THREAD, 1, 2).value;
    CHECK(outer == (uint64_t)1 << 20);
    CHECK(is_answer(scopes_core_enter(&core, THREAD, SCOPE), 1));
    CHECK(is_answer(scopes_core_start_helper(&core, THREAD, SCOPES_NO_HEAP, HELPER), 0));
    inner = scopes_core_allocate(&core, THREAD, 2, 3).value;
    CHECK(is_answer(scopes_core_store(&core, THREAD, inner, 1, outer), 0));
    CHECK(is_answer(scopes_core_load(&core, THREAD, inner, 1), outer));
    CHECK(is_answer(scopes_core_write(&core, THREAD, inner, 2, 43), 0));
    CHECK(is_answer(scopes_core_read(&core, THREAD, inner, 2), 43));
    check_view(outer, permanent + 2, 2);
    check_view(inner, scratch + 3, 3);
    CHECK(is_answer(scopes_core_exit(&core, THREAD), 1));
    check_view(inner, scratch + 3, 3);
    CHECK(is_answer(scopes_core_exit(&core, HELPER), 0));
    check_refused_view(inner);
    CHECK(is_answer(scopes_core_end(&core, HELPER), 0));
    CHECK(is_answer(scopes_core_remove(&core, THREAD, SCOPE), 0));
    CHECK_ANSWER(scopes_core_enter(&core, THREAD, SCOPE), SCOPES_AREA);
    CHECK(is_answer(scopes_core_end(&core, THREAD), 0));
}

/* An object with a slot and two data words, which nobody has written: a read tells, the view shows 0. */
static uint64_t check_unwritten(void)
{
    uint64_t object = scopes_core_allocate(&core, THREAD, 1, 2).value;
    scopes_span span = scopes_core_view(&core, THREAD, object);
    CHECK_ANSWER(scopes_core_read(&core, THREAD, object, 0), SCOPES_UNWRITTEN);
    CHECK_ANSWER(scopes_core_read(&core, THREAD, object, 1), SCOPES_UNWRITTEN);
    CHECK_ANSWER(scopes_core_read(&core, THREAD, object, 2), SCOPES_INDEX);
    CHECK(span.len == 2 && span.words[0] == 0 && span.words[1] == 0);
    return object;
}

/* 0 is a writing, of one word alone; the next object in that place is unwritten again. */
static void unwritten_words(void)
{
    uint64_t object;
    CHECK_STATUS(set_up(HEAP, MAP), SCOPES_OK);
    CHECK(is_answer(scopes_core_start(&core, THREAD, SCOPES_REAL_TIME), 0));
    CHECK(is_answer(scopes_core_make(&core, THREAD, SCOPE, 16), 0));
    CHECK(is_answer(scopes_core_enter(&core, THREAD, SCOPE), 1));
    object = check_unwritten();
    CHECK(is_answer(scopes_core_write(&core, THREAD, object, 1, 0), 0));
    CHECK(is_answer(scopes_core_read(&core, THREAD, object, 1), 0));
    CHECK_ANSWER(scopes_core_read(&core, THREAD, object, 0), SCOPES_UNWRITTEN);
    CHECK(is_answer(scopes_core_exit(&core, THREAD), 0));
    CHECK(is_answer(scopes_core_enter(&core, THREAD, SCOPE), 2));
    check_unwritten();
}

/* Makes a scope, enters it and allocates an object of one data word, which begins a block then. Yields its handle. */
static uint64_t check_made_at(uint64_t scope, uint64_t size, uint64_t generation, size_t block)
{
    uint64_t object;
    CHECK(is_answer(scopes_core_make(&core, THREAD, scope, size), 0));
    CHECK(is_answer(scopes_core_enter(&core, THREAD, scope), generation));
    object = scopes_core_allocate(&core, THREAD, 0, 1).value;
    check_view(object, scratch + block * SCOPES_BLOCK_WORDS + 1, 1);
    return object;
}

/* A scope gets the lowest run of free blocks, whole ones; what is removed is free again, and its handles stay dead. */
static void removed_scopes(void)
{
    uint64_t old;
    CHECK_STATUS(set_up(HEAP, MAP), SCOPES_OK);
    CHECK(is_answer(scopes_core_start(&core, THREAD, SCOPES_REAL_TIME), 0));
    old = check_made_at(SCOPE, SCOPES_BLOCK_WORDS, 1, 0);
    check_made_at(SCOPE + 1, SCOPES_BLOCK_WORDS + 1, 1, 1);
    CHECK_ANSWER(scopes_core_remove(&core, THREAD, SCOPE), SCOPES_OPEN);
    CHECK(is_answer(scopes_core_exit(&core, THREAD), 0));
    CHECK(is_answer(scopes_core_exit(&core, THREAD), 0));
    CHECK_ANSWER(scopes_core_make(&core, THREAD, SCOPE, 1), SCOPES_MADE);
    CHECK(is_answer(scopes_core_remove(&core, THREAD, SCOPE), 0));
    CHECK_ANSWER(scopes_core_make(&core, THREAD, SCOPE + 2, SCOPES_BLOCK_WORDS + 1), SCOPES_SIZE);
    check_made_at(SCOPE + 2, 2, 1, 0);
    CHECK_ANSWER(scopes_core_allocate(&core, THREAD, 0, 0), SCOPES_ROOM);
    check_made_at(SCOPE, SCOPES_BLOCK_WORDS, 2, 3);
    check_refused_view(old);
}

/* Both set-ups give the same state, also where they are refused. */
static void check_same_set_up(uint64_t heap, size_t written_len, uint64_t expected)
{
    scopes_new_state by_value =
        scopes_set_up(permanent, PERMANENT, scratch, SCRATCH, map, MAP, written, written_len, heap, IMMORTAL);
    CHECK_STATUS(by_value.status, expected);
    CHECK_STATUS(set_up(heap, written_len), expected);
    CHECK(memcmp(core.words, by_value.words, sizeof core.words) == 0);
    CHECK(memcmp(core.bytes, by_value.bytes, sizeof core.bytes) == 0);
}

/* Each buffer, and a text, of length 0 as a null pointer. */
static void null_buffers(void)
{
    CHECK_STATUS(scopes_core_set_up(&core, NULL, 0, NULL, 0, NULL, 0, NULL, 0, 0, 0), SCOPES_OK);
    CHECK_ANSWER(scopes_core_load_rights(&core, NULL, 0), SCOPES_TABLE);
    CHECK(is_answer(scopes_core_load_rights(&core, digits, SCOPES_RIGHTS_DIGITS), 0));
    CHECK(is_answer(scopes_core_start(&core, THREAD, SCOPES_REAL_TIME), 0));
    CHECK_ANSWER(scopes_core_make(&core, THREAD, SCOPE, 1), SCOPES_SIZE);
    CHECK_ANSWER(scopes_core_remove(&core, THREAD, SCOPE), SCOPES_AREA);
    CHECK(is_answer(scopes_core_enter(&core, THREAD, SCOPES_IMMORTAL), 1));
    CHECK_ANSWER(scopes_core_start_helper(&core, THREAD, SCOPES_ORDINARY, HELPER), SCOPES_RIGHT);
    CHECK(is_answer(scopes_core_start_helper(&core, THREAD, SCOPES_NO_HEAP, HELPER), 0));
    CHECK_ANSWER(scopes_core_allocate(&core, THREAD, 0, 0), SCOPES_ROOM);
    CHECK_ANSWER(scopes_core_store(&core, THREAD, 1, 0, SCOPES_NULL), SCOPES_OBJECT);
    CHECK_ANSWER(scopes_core_load(&core, THREAD, 1, 0), SCOPES_OBJECT);
    CHECK_ANSWER(scopes_core_write(&core, THREAD, 1, 0, 7), SCOPES_OBJECT);
    CHECK_ANSWER(scopes_core_read(&core, THREAD, 1, 0), SCOPES_OBJECT);
    check_refused_view((uint64_t)1 << 20);
    CHECK(is_answer(scopes_core_exit(&core, THREAD), 0));
    CHECK(is_answer(scopes_core_end(&core, THREAD), 0));
    CHECK_STATUS(scopes_core_set_up(&core, NULL, 0, NULL, 0, NULL, 0, NULL, 0, 1, 0), SCOPES_LENGTHS);
}

/* Scopes alone, or heap and immortal memory alone: the other store has length 0. */
static void null_store(void)
{
    uint64_t object;
    CHECK_STATUS(scopes_core_set_up(&core, NULL, 0, scratch, SCRATCH, map, 1, written, 1, 0, 0), SCOPES_OK);
    CHECK(is_answer(scopes_core_start(&core, THREAD, SCOPES_REAL_TIME), 0));
    CHECK(is_answer(scopes_core_make(&core, THREAD, SCOPE, SCRATCH), 0));
    CHECK_ANSWER(scopes_core_allocate(&core, THREAD, 0, 0), SCOPES_ROOM);
    CHECK(is_answer(scopes_core_enter(&core, THREAD, SCOPE), 1));
    object = scopes_core_allocate(&core, THREAD, 0, SCRATCH - 1).value;
    check_view(object, scratch + 1, SCRATCH - 1);
    CHECK_STATUS(
        scopes_core_set_up(&core, permanent, PERMANENT, NULL, 0, map, 1, written, 1, HEAP, IMMORTAL), SCOPES_OK);
    CHECK(is_answer(scopes_core_start(&core, THREAD, SCOPES_ORDINARY), 0));
    object = scopes_core_allocate(&core, THREAD, 1, HEAP - 2).value;
    CHECK(is_answer(scopes_core_store(&core, THREAD, object, 0, object), 0));
    check_view(object, permanent + 2, HEAP - 2);
}

static void stack_record(void)
{
    scopes_stack stack = scopes_stack_empty();
    CHECK(stack.len == 0);
    CHECK(is_answer(scopes_stack_push(&stack, SCOPE), 0));
    CHECK_ANSWER(scopes_stack_push(&stack, SCOPES_AREAS), SCOPES_AREA);
    CHECK(is_answer(scopes_stack_pop(&stack), SCOPE));
    CHECK_ANSWER(scopes_stack_pop(&stack), SCOPES_ENTRIES);
}

static void names(void)
{
    CHECK(strcmp(scopes_status_name(SCOPES_ASSIGNMENT), "SCOPES_ASSIGNMENT") == 0);
    CHECK(strcmp(scopes_status_name(25), "unknown status") == 0);
    CHECK(strcmp(scopes_status_name((uint64_t)1 << 32), "unknown status") == 0);
    CHECK(scopes_version() == SCOPES_VERSION);
}

int main(void)
{
    every_call();
    unwritten_words();
    removed_scopes();
    check_same_set_up(HEAP, MAP, SCOPES_OK);
    check_same_set_up(HEAP + 1, MAP, SCOPES_LENGTHS);
    check_same_set_up(HEAP, MAP - 1, SCOPES_LENGTHS);
    null_buffers();
    null_store();
    stack_record();
    names();
    return failures != 0;
}
