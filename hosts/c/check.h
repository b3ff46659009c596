/* Checks for the test programs: a failed one is told with its line, and counted. */
#ifndef CHECK_H
#define CHECK_H

#include <stdio.h>

#include "scopes.h"

static unsigned failures;

static inline void check_status(const char *call, uint64_t status, uint64_t expected, int line)
{
    if (status != expected) {
        printf("line %d: %s gives %s, expected %s\n", line, call, scopes_status_name(status), scopes_status_name(expected));
        failures++;
    }
}

static inline void check_true(const char *fact, int holds, int line)
{
    if (!holds) {
        printf("line %d: %s does not hold\n", line, fact);
        failures++;
    }
}

/* A call's answer has a status; a bare status is what is expected; a fact holds. */
#define CHECK_ANSWER(call, expected) check_status(#call, (call).status, expected, __LINE__)
#define CHECK_STATUS(call, expected) check_status(#call, call, expected, __LINE__)
#define CHECK(fact) check_true(#fact, fact, __LINE__)

#endif
