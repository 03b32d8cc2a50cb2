/* Calls of yaml_c_is_canonical and yaml_c_canonical_from_json over values that nest as deep as they may, each in a stack of its own of 64 KB, which
 * the header names. Prints a line for each that isn't as the header says, or that writes below its stack. (`canonical.c` has values that nest
 * too deep.) */
#define _XOPEN_SOURCE 700
#include <stdio.h>
#include <string.h>
#include <ucontext.h>

#include "nested.h"
#include "yaml_c.h"

/* The sanitizer of addresses needs more stack: gcc and clang say in their own ways that it is on. */
#ifdef __SANITIZE_ADDRESS__
#define SANITIZED
#elif defined(__has_feature)
#if __has_feature(address_sanitizer)
#define SANITIZED
#endif
#endif

#define STACK 65536
#define MARK 0xa5
#define MOST 1000
#define LARGEST 4194304

static const struct yaml_c_canonical_settings defaults = {0}, allowing = {1};
static const struct yaml_c_canonical_settings *settings;
static uint8_t bytes[LARGEST], out[LARGEST];
static char text[16 * MOST];
static size_t length;
static struct yaml_c_result result;
static int32_t status;
static int calls, failures;

static void check_bytes(void) { status = yaml_c_is_canonical(bytes, length, settings, &result); }

static void make_bytes(void) {
    status = yaml_c_canonical_from_json((const uint8_t *)text, strlen(text), settings, out, sizeof out, &result);
}

/* Makes a call in the stack. Returns whether nothing below it was written. */
static int called(void (*call)(void)) {
#ifdef SANITIZED
    call();
    return 1;
#else
    /* The stack, and before it what it may not reach. */
    static uint8_t below_and_stack[2 * STACK];
    static ucontext_t here, there;
    size_t i;
    memset(below_and_stack, MARK, sizeof below_and_stack);
    getcontext(&there);
    there.uc_stack.ss_sp = below_and_stack + STACK;
    there.uc_stack.ss_size = STACK;
    there.uc_link = &here;
    makecontext(&there, call, 0);
    swapcontext(&here, &there);
    for (i = 0; i < STACK && below_and_stack[i] == MARK; i++) {}
    return i == STACK;
#endif
}

/* Makes a call that is done, with a result of this length. */
static void expect_done(const char *name, void (*call)(void), size_t wanted) {
    int fits;
    memset(&result, 0xff, sizeof result);
    fits = called(call);
    calls++;
    if (fits && status == YAML_C_DONE && result.length == wanted && !result.event && !result.line && !result.column && !result.error) return;
    failures++;
    printf("%s: status %d, line %lu, column %lu%s\n", name, (int)status, (unsigned long)result.line, (unsigned long)result.column,
           fits ? "" : ", and more stack than there is");
}

/* The bytes are canonical. */
static void expect_canonical(const char *name, size_t size) {
    length = size;
    expect_done(name, check_bytes, 0);
}

/* They are those of the text. */
static void expect_of_json(const char *name, size_t size) {
    length = size;
    expect_done(name, make_bytes, size);
    if (memcmp(out, bytes, size) != 0) {
        failures++;
        printf("%s: other bytes\n", name);
    }
}

/* So many maps, each the value of the only key of the one around it, but for the innermost two: there another key follows. */
static size_t nested_maps(size_t maps) {
    size_t depth, size = put_line(bytes, 0, 0, "---\n");
    size = put_line(bytes, size, 0, "!!map {\n");
    for (depth = 1; depth < maps - 1; depth++) {
        size = put_line(bytes, size, depth, "? !!str \"\"\n");
        size = put_line(bytes, size, depth, ": !!map {\n");
    }
    size = put_line(bytes, size, depth, "? !!str \"\"\n");
    size = put_line(bytes, size, depth, ": !!map {},\n");
    size = put_line(bytes, size, depth, "? !!str \"a\"\n");
    size = put_line(bytes, size, depth, ": !!null \"null\",\n");
    while (--depth > 0) size = put_line(bytes, size, depth, "},\n");
    return put_line(bytes, size, 0, "}\n");
}

/* The same as JSON: an object for each map. */
static void nested_objects(size_t objects) {
    size_t i;
    text[0] = 0;
    for (i = 1; i < objects; i++) strcat(text, "{\"\":");
    strcat(text, "{},\"a\":null");
    for (i = 1; i < objects; i++) strcat(text, "}");
}

static void nested_arrays(size_t arrays) {
    memset(text, '[', arrays);
    memset(text + arrays, ']', arrays);
    text[2 * arrays] = 0;
}

int main(void) {
    for (settings = &defaults; settings != NULL; settings = settings == &defaults ? &allowing : NULL) {
        expect_canonical("a map in lists", nested(bytes, MOST - 1, "!!map {},\n"));
        expect_canonical("null in lists", nested(bytes, MOST, "!!null \"null\",\n"));
        expect_canonical("maps", nested_maps(MOST));
        nested_objects(MOST);
        expect_of_json("objects", nested_maps(MOST));
        expect_canonical("lists", nested(bytes, MOST - 1, "!!seq [],\n"));
        nested_arrays(MOST);
        expect_of_json("arrays", nested(bytes, MOST - 1, "!!seq [],\n"));
    }
    printf("%d calls, %d not as written\n", calls, failures);
    return failures != 0;
}
