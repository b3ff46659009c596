/* A first host: one thread measures a sample in a scope. */
#include <inttypes.h>
#include <stdio.h>

#include "scopes.h"

enum { HEAP = 64, IMMORTAL = 64, PERMANENT = HEAP + IMMORTAL, SCRATCH = 256, MAP = SCOPES_MAP_WORDS(PERMANENT, SCRATCH) };
enum { METER = 0, SAMPLE = 2 }; /* thread 0, scope 2 */

static uint64_t permanent[PERMANENT], scratch[SCRATCH], map[MAP], written[MAP];
static scopes_core core;

/* Tells a refused call. */
static int refused(const char *call, uint64_t status)
{
    if (status != SCOPES_OK)
        fprintf(stderr, "%s: %s\n", call, scopes_status_name(status));
    return status != SCOPES_OK;
}

/* Three points of a sample, in the current scope. */
static int measure(void)
{
    scopes_answer points = scopes_core_allocate(&core, METER, 0, 3); /* no slot, 3 data words */
    if (refused("allocate", points.status) || refused("write", scopes_core_write(&core, METER, points.value, 0, 41).status))
        return 1;
    scopes_span span = scopes_core_view(&core, METER, points.value); /* the words where they lie, no copy */
    for (size_t i = 0; i < span.len; i++) { /* they are 0 where nobody wrote; a read tells */
        int measured = scopes_core_read(&core, METER, points.value, i).status != SCOPES_UNWRITTEN;
        printf("point %zu: %" PRIu64 "%s\n", i, span.words[i], measured ? "" : ", not measured");
    }
    return refused("view", span.status);
}

int main(void)
{
    if (scopes_version() != SCOPES_VERSION) {
        fprintf(stderr, "scopes.h and libscopes.a are of different versions\n");
        return 1;
    }
    uint64_t status =
        scopes_core_set_up(&core, permanent, PERMANENT, scratch, SCRATCH, map, MAP, written, MAP, HEAP, IMMORTAL);
    return refused("set-up", status)
        || refused("start", scopes_core_start(&core, METER, SCOPES_REAL_TIME).status)
        || refused("make", scopes_core_make(&core, METER, SAMPLE, 32).status)
        || refused("enter", scopes_core_enter(&core, METER, SAMPLE).status)
        || measure()
        || refused("exit", scopes_core_exit(&core, METER).status); /* the last thread leaves: the scope is emptied */
}
