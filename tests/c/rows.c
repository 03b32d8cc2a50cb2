/* The scripts of tests/scripts/rows, run by yaml_c_run, and again with each allocation refused in turn; a line for each run that ends
 * otherwise than was worked out by hand. Linked with --wrap for malloc, realloc and free.
 *
 * Standard input has a record for each script, from `tests/scripts/rows/run --records`: a line with its length, the status, the line that is
 * reported (0 if none is) and the output's length; then the script and the output. */
#include <stdint.h>
#include <stdio.h>
#include <stdlib.h>

#include "refusing.h"
#include "yaml_c.h"

static char script[16384];
static uint8_t wanted[4096], out[4096];
static struct yaml_c_result result;
static int failures;

static void fail(const char *what) {
    failures++;
    printf("allocation %lu refused: %s\n%s\n", (unsigned long)refused_at, what, script);
}

/* The status of a run, which leaves nothing in memory. */
static int32_t run(size_t length) {
    int32_t status;
    growths = 0;
    memset(out, 0xa5, sizeof out);
    memset(&result, 0xff, sizeof result);
    status = yaml_c_run((const uint8_t *)script, length, out, sizeof out, &result);
    if (blocks != 0) fail("a block is left");
    return status;
}

/* Whether all bytes of the output from this one on are as they were. */
static int is_left(size_t from) {
    while (from < sizeof out && out[from] == 0xa5) from++;
    return from == sizeof out;
}

/* Expects the run of a script to end so. */
static void expect(int32_t status, int32_t wanted_status, uint64_t line, size_t length) {
    size_t written = wanted_status == YAML_C_DONE ? length : 0;
    if (status != wanted_status || result.line != line || result.length != written) fail("another status, line or length");
    if (memcmp(out, wanted, written) != 0 || !is_left(written)) fail("another output");
}

/* Runs a script, then with the first allocation refused, the second, and so on, until there is none to refuse. */
static void check(size_t script_length, int32_t wanted_status, uint64_t line, size_t length) {
    int32_t status;
    refused_at = 0;
    expect(run(script_length), wanted_status, line, length);
    for (refused_at = 1;; refused_at++) {
        status = run(script_length);
        if (growths < refused_at) break;
        expect(status, YAML_C_NO_MEMORY, 0, 0);
    }
    expect(status, wanted_status, line, length);
}

int main(void) {
    unsigned long count = 0, script_length, status, line, length;
    while (scanf("%lu %lu %lu %lu", &script_length, &status, &line, &length) == 4 && getchar() == '\n') {
        if (script_length >= sizeof script || length > sizeof wanted) {
            printf("a script of %lu bytes with an output of %lu is too long\n", script_length, length);
            return 1;
        }
        if (fread(script, 1, script_length, stdin) != script_length || fread(wanted, 1, length, stdin) != length) return 1;
        script[script_length] = 0;
        check(script_length, (int32_t)status, line, length);
        count++;
    }
    printf("%lu scripts, each allocation refused in turn: %d times not as written\n", count, failures);
    return !feof(stdin) || count == 0 || failures != 0;
}
