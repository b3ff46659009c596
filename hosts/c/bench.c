/* A measuring bench in C: calls by its threads, in orders that broke earlier versions of the core, with what the core
 * answers. An assistant leaves a parent while its child is open; a plotter keeps a reference into a sample that is emptied; a
 * driver starts its plotter inside a sample, and leaves before it; a laboratory takes samples down, and makes others in their
 * room. At the end the bench loads a rights table of its own. */
#include <inttypes.h>
#include <stdio.h>
#include <string.h>

#include "scopes.h"

enum { HEAP_WORDS = 64, IMMORTAL_WORDS = 64, PERMANENT_WORDS = HEAP_WORDS + IMMORTAL_WORDS, SCRATCH_WORDS = 256 };
enum { MAP_WORDS = SCOPES_MAP_WORDS(PERMANENT_WORDS, SCRATCH_WORDS) };

/* The threads of this bench and its scopes. */
enum { METER = 0, ASSISTANT = 1, PLOTTER = 2, CLERK = 3, DRIVER = 4 };
enum { RUN = 2, SAMPLE = 3, OAK = 4, PINE = 5, LARCH = 6, YEW = 7 };

/* The memory that this host lends, and its core. */
static uint64_t permanent[PERMANENT_WORDS];
static uint64_t scratch[SCRATCH_WORDS];
static uint64_t map[MAP_WORDS];
static uint64_t written[MAP_WORDS];
static scopes_core core;

/* The first part of a call's line: what it is, its status and the status's name. */
static void show_status(const char *call, uint64_t status)
{
    printf("%-62s status %2" PRIu64 " %-17s", call, status, scopes_status_name(status));
}

/* One line for a call, with its value. Yields the value. */
static uint64_t show(const char *call, scopes_answer answer)
{
    show_status(call, answer.status);
    printf("  value %" PRIu64 "\n", answer.value);
    return answer.value;
}

static void title(const char *words)
{
    printf("\n%s\n", words);
}

static void begin(void)
{
    uint64_t status = scopes_core_set_up(
        &core, permanent, PERMANENT_WORDS, scratch, SCRATCH_WORDS, map, MAP_WORDS, written, MAP_WORDS, HEAP_WORDS,
        IMMORTAL_WORDS);
    printf("set-up gives status %" PRIu64 " %s\n", status, scopes_status_name(status));
    show("meter starts, real-time", scopes_core_start(&core, METER, SCOPES_REAL_TIME));
    show("assistant starts, real-time", scopes_core_start(&core, ASSISTANT, SCOPES_REAL_TIME));
    show("plotter starts, real-time", scopes_core_start(&core, PLOTTER, SCOPES_REAL_TIME));
    show("meter makes the scope run, 32 words", scopes_core_make(&core, METER, RUN, 32));
    show("meter makes the scope sample, 32 words", scopes_core_make(&core, METER, SAMPLE, 32));
}

/* The assistant works on a sample too, and leaves the run before the meter leaves the sample. */
static void parent_left_under_child(void)
{
    title("An assistant leaves a parent while its child is open");
    show("meter enters run", scopes_core_enter(&core, METER, RUN));
    uint64_t limits = show("meter allocates limits in run, 1 data word", scopes_core_allocate(&core, METER, 0, 1));
    show("meter writes 70 into limits", scopes_core_write(&core, METER, limits, 0, 70));
    show("assistant enters sample by itself", scopes_core_enter(&core, ASSISTANT, SAMPLE));
    show("meter enters sample under run", scopes_core_enter(&core, METER, SAMPLE));
    show("assistant leaves sample", scopes_core_exit(&core, ASSISTANT));
    show("meter enters sample under run", scopes_core_enter(&core, METER, SAMPLE));
    show("assistant enters sample by itself", scopes_core_enter(&core, ASSISTANT, SAMPLE));
    show("assistant enters run", scopes_core_enter(&core, ASSISTANT, RUN));
    show("assistant enters sample under run", scopes_core_enter(&core, ASSISTANT, SAMPLE));
    uint64_t curve = show("meter allocates curve in sample, 1 slot", scopes_core_allocate(&core, METER, 1, 0));
    show("meter stores limits in curve", scopes_core_store(&core, METER, curve, 0, limits));
    show("assistant leaves sample, the meter stays", scopes_core_exit(&core, ASSISTANT));
    show("assistant leaves run, the meter stays", scopes_core_exit(&core, ASSISTANT));
    show("meter loads limits from curve", scopes_core_load(&core, METER, curve, 0));
    show("meter reads limits", scopes_core_read(&core, METER, limits, 0));
    show("meter stores curve in limits, which has no slot", scopes_core_store(&core, METER, limits, 0, curve));
}

/* An object's data where they lie in the store that this host lent. */
static void show_view(const char *call, scopes_span view)
{
    show_status(call, view.status);
    printf("  words");
    for (size_t i = 0; i < view.len; i++) {
        printf(" %" PRIu64, view.words[i]);
    }
    printf("\n");
}

/* The plotter, which stands in no scope, keeps the handle of a sample's points beyond the sample's end. */
static void reference_into_emptied_sample(void)
{
    title("A plotter keeps a reference into an emptied sample");
    uint64_t figure = show("plotter allocates figure in the heap, 1 slot", scopes_core_allocate(&core, PLOTTER, 1, 0));
    uint64_t points = show("meter allocates points in sample, 3 data words", scopes_core_allocate(&core, METER, 0, 3));
    show("meter writes 41 into points", scopes_core_write(&core, METER, points, 0, 41));
    show("meter writes 43 into points", scopes_core_write(&core, METER, points, 2, 43));
    show("plotter reads points", scopes_core_read(&core, PLOTTER, points, 0));
    show("plotter reads the point that nobody measured", scopes_core_read(&core, PLOTTER, points, 1));
    show_view("plotter is shown points", scopes_core_view(&core, PLOTTER, points));
    show("plotter stores points in figure", scopes_core_store(&core, PLOTTER, figure, 0, points));
    show("meter leaves sample, the last one", scopes_core_exit(&core, METER));
    show("plotter reads points", scopes_core_read(&core, PLOTTER, points, 0));
    show_view("plotter is shown points", scopes_core_view(&core, PLOTTER, points));
    show("plotter stores points in figure", scopes_core_store(&core, PLOTTER, figure, 0, points));
    show("plotter loads from figure", scopes_core_load(&core, PLOTTER, figure, 0));
    show("meter enters sample again", scopes_core_enter(&core, METER, SAMPLE));
    show("meter allocates an object in the place of curve", scopes_core_allocate(&core, METER, 0, 1));
    uint64_t again = show("meter allocates points in their old place", scopes_core_allocate(&core, METER, 0, 3));
    show("plotter reads the old points", scopes_core_read(&core, PLOTTER, points, 0));
    show("plotter reads the new points", scopes_core_read(&core, PLOTTER, again, 0));
    show("meter writes 0 into the new points", scopes_core_write(&core, METER, again, 0, 0));
    show("plotter reads the new points", scopes_core_read(&core, PLOTTER, again, 0));
}

/* The sample opens under another parent: the display of its last generation is gone. */
static void another_nesting(void)
{
    title("An emptied scope nests anew");
    show("meter leaves sample", scopes_core_exit(&core, METER));
    uint64_t total = show("meter allocates total in run", scopes_core_allocate(&core, METER, 0, 1));
    show("plotter enters sample by itself", scopes_core_enter(&core, PLOTTER, SAMPLE));
    uint64_t curve = show("plotter allocates curve in sample, 1 slot", scopes_core_allocate(&core, PLOTTER, 1, 0));
    show("plotter stores total in curve: run is no ancestor now", scopes_core_store(&core, PLOTTER, curve, 0, total));
    show("meter enters sample under run", scopes_core_enter(&core, METER, SAMPLE));
    show("plotter leaves sample", scopes_core_exit(&core, PLOTTER));
    show("meter leaves run", scopes_core_exit(&core, METER));
    show("meter ends", scopes_core_end(&core, METER));
    show("assistant ends", scopes_core_end(&core, ASSISTANT));
    show("plotter ends", scopes_core_end(&core, PLOTTER));
}

/* The plotter begins with the driver's entries, and works on alone in a run and a sample that it never entered. */
static void plotter_born_in_sample(void)
{
    title("A driver starts its plotter inside a sample");
    show("driver starts, real-time", scopes_core_start(&core, DRIVER, SCOPES_REAL_TIME));
    show("driver enters run", scopes_core_enter(&core, DRIVER, RUN));
    uint64_t limits = show("driver allocates limits in run, 1 data word", scopes_core_allocate(&core, DRIVER, 0, 1));
    show("driver writes 70 into limits", scopes_core_write(&core, DRIVER, limits, 0, 70));
    show("driver enters sample under run", scopes_core_enter(&core, DRIVER, SAMPLE));
    show("driver enters the heap", scopes_core_enter(&core, DRIVER, SCOPES_HEAP));
    show("driver starts the plotter there, no-heap", scopes_core_start_helper(&core, DRIVER, SCOPES_NO_HEAP, PLOTTER));
    show("driver leaves the heap", scopes_core_exit(&core, DRIVER));
    show("driver starts the plotter in sample, no-heap", scopes_core_start_helper(&core, DRIVER, SCOPES_NO_HEAP, PLOTTER));
    show("driver starts the plotter again", scopes_core_start_helper(&core, DRIVER, SCOPES_NO_HEAP, PLOTTER));
    uint64_t curve = show("plotter allocates curve in sample, 1 slot", scopes_core_allocate(&core, PLOTTER, 1, 0));
    show("plotter stores limits in curve", scopes_core_store(&core, PLOTTER, curve, 0, limits));
    show("driver leaves sample, the plotter stays", scopes_core_exit(&core, DRIVER));
    show("driver leaves run, the plotter stays", scopes_core_exit(&core, DRIVER));
    show("driver ends", scopes_core_end(&core, DRIVER));
    show("plotter loads limits from curve", scopes_core_load(&core, PLOTTER, curve, 0));
    show("plotter reads limits", scopes_core_read(&core, PLOTTER, limits, 0));
    show("plotter ends in sample", scopes_core_end(&core, PLOTTER));
    show("plotter leaves sample, the last one", scopes_core_exit(&core, PLOTTER));
    show("plotter leaves run, the last one", scopes_core_exit(&core, PLOTTER));
    show("plotter reads limits", scopes_core_read(&core, PLOTTER, limits, 0));
    show("plotter ends", scopes_core_end(&core, PLOTTER));
}

/* Where an object's data lie: the first word of them in its store. */
static void show_place(const char *call, scopes_view place)
{
    show_status(call, place.status);
    printf("  from word %" PRIu64 "\n", place.from);
}

/* The scratch store has 16 blocks: run and sample have two of them each, the samples of three trees four each. An emptied
 * sample keeps its blocks, and an open one is not removed. Yields the handle of the oak's rings, which are gone then. */
static uint64_t scratch_runs_out(void)
{
    title("A laboratory's scratch runs out");
    show("meter starts, real-time", scopes_core_start(&core, METER, SCOPES_REAL_TIME));
    show("meter makes the scope oak, 64 words", scopes_core_make(&core, METER, OAK, 64));
    show("meter makes the scope pine, 49 words", scopes_core_make(&core, METER, PINE, 49));
    show("meter makes the scope larch, 64 words", scopes_core_make(&core, METER, LARCH, 64));
    show("meter makes the scope yew, 1 word", scopes_core_make(&core, METER, YEW, 1));
    show("meter enters oak", scopes_core_enter(&core, METER, OAK));
    uint64_t rings = show("meter allocates rings in oak, 1 data word", scopes_core_allocate(&core, METER, 0, 1));
    show("meter writes 11 into the rings", scopes_core_write(&core, METER, rings, 0, 11));
    show_place("meter asks where the rings lie", scopes_core_view_place(&core, METER, rings));
    show("meter removes oak, where it stands", scopes_core_remove(&core, METER, OAK));
    show("meter reads the rings", scopes_core_read(&core, METER, rings, 0));
    show("meter leaves oak, the last one", scopes_core_exit(&core, METER));
    show("meter makes the scope yew, 1 word", scopes_core_make(&core, METER, YEW, 1));
    return rings;
}

/* Oak and larch are taken down. The yew gets the room of the oak; the oak, made again, that of the larch, since what the yew
 * left is too short. */
static void samples_change(uint64_t rings)
{
    title("A laboratory changes its samples");
    show("meter removes oak", scopes_core_remove(&core, METER, OAK));
    show("meter removes oak again", scopes_core_remove(&core, METER, OAK));
    show("meter enters oak", scopes_core_enter(&core, METER, OAK));
    show("meter removes larch", scopes_core_remove(&core, METER, LARCH));
    show("meter makes yew, 65 words: 8 free blocks, no 5 side by side", scopes_core_make(&core, METER, YEW, 65));
    show("meter makes yew, 48 words", scopes_core_make(&core, METER, YEW, 48));
    show("meter enters yew", scopes_core_enter(&core, METER, YEW));
    uint64_t bark = show("meter allocates bark in yew, 1 data word", scopes_core_allocate(&core, METER, 0, 1));
    show_place("meter asks where the bark lies", scopes_core_view_place(&core, METER, bark));
    show("meter reads the rings of oak", scopes_core_read(&core, METER, rings, 0));
    show("meter makes oak again, 64 words", scopes_core_make(&core, METER, OAK, 64));
    show("meter enters oak under yew", scopes_core_enter(&core, METER, OAK));
    uint64_t again = show("meter allocates rings in oak, 1 slot, 1 data word", scopes_core_allocate(&core, METER, 1, 1));
    show_place("meter asks where the new rings lie", scopes_core_view_place(&core, METER, again));
    show("meter reads the old rings", scopes_core_read(&core, METER, rings, 0));
    show("meter stores the old rings in the new ones", scopes_core_store(&core, METER, again, 0, rings));
    show("meter stores bark in the new rings", scopes_core_store(&core, METER, again, 0, bark));
    show("meter removes yew, which it entered before oak", scopes_core_remove(&core, METER, YEW));
    show("meter leaves oak", scopes_core_exit(&core, METER));
    show("meter leaves yew", scopes_core_exit(&core, METER));
    show("meter ends", scopes_core_end(&core, METER));
}

/* A stack that the scheduler holds by itself, and a call that is lent too little. */
static void beside_the_calls(void)
{
    title("Beside the calls");
    scopes_stack stack = scopes_stack_empty();
    show("scheduler pushes run", scopes_stack_push(&stack, RUN));
    show("scheduler pushes area 64", scopes_stack_push(&stack, SCOPES_AREAS));
    show("scheduler pops", scopes_stack_pop(&stack));
    show("scheduler pops", scopes_stack_pop(&stack));
    show("meter starts, with a scratch store one word short",
         scopes_start(core.words, core.bytes, permanent, PERMANENT_WORDS, scratch, SCRATCH_WORDS - 1, map, MAP_WORDS,
                      written, MAP_WORDS, METER, SCOPES_REAL_TIME));
}

/* The table of this bench: ff0, fff, 0ff, where the built-in one has f30 in its first line. Ordinary threads have every
 * right in immortal memory too. */
#define OWN_RIGHTS "111111110000" "111111111111" "000011111111"
_Static_assert(sizeof(OWN_RIGHTS) - 1 == SCOPES_RIGHTS_DIGITS, "digits of a table");

static scopes_answer load_rights(const char *digits)
{
    return scopes_core_load_rights(&core, (const uint8_t *)digits, strlen(digits));
}

/* The clerk, an ordinary thread, writes into immortal memory once the bench's own table is in force. */
static void rights_of_its_own(void)
{
    title("Rights of the bench's own");
    show("clerk starts, ordinary", scopes_core_start(&core, CLERK, SCOPES_ORDINARY));
    show("clerk enters immortal memory", scopes_core_enter(&core, CLERK, SCOPES_IMMORTAL));
    show("bench loads its own table, the clerk is started", load_rights(OWN_RIGHTS));
    show("clerk ends", scopes_core_end(&core, CLERK));
    show("bench loads its own table with a line feed behind it", load_rights(OWN_RIGHTS "\n"));
    show("bench loads its own table", load_rights(OWN_RIGHTS));
    show("clerk starts, ordinary", scopes_core_start(&core, CLERK, SCOPES_ORDINARY));
    show("clerk enters immortal memory", scopes_core_enter(&core, CLERK, SCOPES_IMMORTAL));
    uint64_t entry = show("clerk allocates entry in immortal memory, 1 data word", scopes_core_allocate(&core, CLERK, 0, 1));
    show("clerk writes 12 into entry", scopes_core_write(&core, CLERK, entry, 0, 12));
    show("clerk enters sample", scopes_core_enter(&core, CLERK, SAMPLE));
    show("clerk leaves immortal memory", scopes_core_exit(&core, CLERK));
    show("clerk ends", scopes_core_end(&core, CLERK));
}

int main(void)
{
    begin();
    parent_left_under_child();
    reference_into_emptied_sample();
    another_nesting();
    plotter_born_in_sample();
    samples_change(scratch_runs_out());
    beside_the_calls();
    rights_of_its_own();
    return 0;
}
