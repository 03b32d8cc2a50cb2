/* What the tests of calls share: how many calls there were, how many of them weren't as written, and the result of the last one. */
#include <stdint.h>
#include <stdio.h>
#include <string.h>

#include "yaml_c.h"

static int failures;
static int calls;

static struct yaml_c_result result;

/* Takes the status of a call, which must be this one, with this length and error and nothing else in the result. */
static void gives(const char *name, int32_t got, int32_t status, size_t length, uint32_t error) {
    calls++;
    if (got == status && result.length == length && result.error == error && result.event == 0 && result.line == 0 && result.column == 0) return;
    failures++;
    printf("%s: status %d, length %lu, error %lu\n", name, (int)got, (unsigned long)result.length, (unsigned long)result.error);
}

/* Says how many calls there were. Returns the program's status. */
static int ended(void) {
    printf("%d calls, %d not as written\n", calls, failures);
    return failures != 0;
}
