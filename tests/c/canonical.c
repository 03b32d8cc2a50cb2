/* Calls of yaml_c_is_canonical and yaml_c_canonical_from_json, for each status but YAML_C_NO_MEMORY and with NULL; a line for each that isn't as
 * the header says, and for each text of which other bytes are canonical than were counted by hand. (`depths.c` has values that nest as deep
 * as they may.) */
#include <stdio.h>
#include <string.h>

#include "nested.h"
#include "yaml_c.h"

static struct yaml_c_result result;
/* The settings of each call, and those by which keys may repeat: any number but 0 is on. */
static const struct yaml_c_canonical_settings *settings;
static const struct yaml_c_canonical_settings allowing = {7};
static int calls, failures;

/* Whether this is all that was reported. */
static int reports(size_t length, uint64_t line, uint64_t column) {
    return result.length == length && result.line == line && result.column == column && result.event == 0 && result.error == 0;
}

static void tell(const char *name, int32_t status, int good) {
    calls++;
    failures += !good;
    if (!good)
        printf("%s: status %d, length %lu, line %lu, column %lu\n", name, (int)status, (unsigned long)result.length,
               (unsigned long)result.line, (unsigned long)result.column);
}

/* Checks the status and the place of so many bytes. */
static void check_bytes(const char *name, const uint8_t *bytes, size_t length, int32_t status, uint64_t line, uint64_t column) {
    int32_t got;
    memset(&result, 0xff, sizeof result);
    got = yaml_c_is_canonical(bytes, length, settings, &result);
    tell(name, got, got == status && reports(0, line, column));
}

static void expect_check(const char *bytes, int32_t status, uint64_t line, uint64_t column) {
    check_bytes(bytes, (const uint8_t *)bytes, strlen(bytes), status, line, column);
}

/* Bytes, and the line and the column of the first word that no canonical bytes have there, worked out by hand. */
static const struct {
    const char *bytes;
    uint64_t line, column;
} misplaced[] = {
    /* The marker. */
    {"", 1, 1},
    {"--- ", 1, 1},
    {"!!null \"null\"\n", 1, 1},
    {"\357\273\277---\n!!null \"null\"\n", 1, 1},
    {"---\n", 2, 1},
    {"---\n---\n", 2, 1},
    /* Tags, and what isn't canonical between them and the text. */
    {"---\n\"a\"\n", 2, 1},
    {"---\n!!float \"1.0\"\n", 2, 1},
    {"---\n!!str  \"a\"\n", 2, 7},
    {"---\n!!str a\n", 2, 7},
    {"---\n!!null \"~\"\n", 2, 8},
    {"---\n!!bool \"True\"\n", 2, 8},
    /* Integers. */
    {"---\n!!int \"07\"\n", 2, 7},
    {"---\n!!int \"+7\"\n", 2, 7},
    {"---\n!!int \"-0\"\n", 2, 7},
    {"---\n!!int \"\"\n", 2, 7},
    {"---\n!!int \"9223372036854775808\"\n", 2, 7},
    {"---\n!!int \"7\t\"\n", 2, 7},
    {"---\n!!int \"7\n", 2, 7},
    {"---\n!!int \"7", 2, 7},
    {"---\n!!int 7\n", 2, 7},
    /* Texts. */
    {"---\n!!str \"a\n", 2, 9},
    {"---\n!!str \"a", 2, 9},
    {"---\n!!str \"a\tb\"\n", 2, 9},
    {"---\n!!str \"\303\251\\x41\"\n", 2, 9},
    {"---\n!!str \"ab\\x0A\"\n", 2, 10},
    {"---\n!!str \"\\x7f\"\n", 2, 8},
    {"---\n!!str \"\\u007F\"\n", 2, 8},
    {"---\n!!str \"\\U0000FEFF\"\n", 2, 8},
    {"---\n!!str \"\\_\"\n", 2, 8},
    {"---\n!!str \"\\/\"\n", 2, 8},
    {"---\n!!str \"\\", 2, 8},
    {"---\n!!str \"a\303\"\n", 2, 9},
    /* Lists and maps. */
    {"---\n!!seq [ ]\n", 2, 8},
    {"---\n!!seq [\n]\n", 3, 1},
    {"---\n!!seq [\n !!int \"7\",\n]\n", 3, 1},
    {"---\n!!seq [\n   !!int \"7\",\n]\n", 3, 3},
    {"---\n!!seq [\n  !!int \"7\"\n]\n", 3, 12},
    {"---\n!!seq [\n  !!int \"7\",\n   ]\n", 4, 3},
    {"---\n!!seq [\n  !!int \"7\",\n}\n", 4, 1},
    {"---\n!!seq [\n  !!int \"7\",\n]", 4, 2},
    {"---\n!!seq [\n  !!seq [\n    !!int \"7\",\n],\n]\n", 5, 1},
    {"---\n!!map {\n  !!int \"7\",\n}\n", 3, 3},
    {"---\n!!map {\n  ? !!int \"7\",\n}\n", 3, 14},
    {"---\n!!map {\n  ? !!int \"7\"\n  !!int \"7\",\n}\n", 4, 1},
    {"---\n!!map {\n  ? !!int \"7\"\n  : !!int \"7\",\n]\n", 5, 1},
    /* What follows. */
    {"---\n!!int \"7\" \n", 2, 10},
    {"---\n!!int \"7\"\r\n", 2, 10},
    {"---\n!!int \"7\"\n\n", 3, 1},
    {"---\n!!int \"7\"\n...\n", 3, 1},
};

static void places(void) {
    size_t row;
    for (row = 0; row < sizeof misplaced / sizeof *misplaced; row++)
        expect_check(misplaced[row].bytes, YAML_C_NOT_CANONICAL, misplaced[row].line, misplaced[row].column);
}

static void checks(void) {
    expect_check("---\n!!null \"null\"\n", YAML_C_DONE, 0, 0);
    expect_check("---\n!!seq [\n  !!bool \"true\",\n  !!int \"-5\",\n  !!str \"b\303\251\",\n  !!map {},\n]\n", YAML_C_DONE, 0, 0);
    expect_check("---\n!!str \"\360\"\n", YAML_C_NOT_CANONICAL, 2, 8);
    expect_check("---\n!!str \"a\"\n---\n", YAML_C_NOT_CANONICAL, 3, 1);
    expect_check("---\n!!map {\n  ? !!int \"1\"\n  : !!int \"2\",\n}\n", YAML_C_DONE, 0, 0);
}

/* The canonical bytes of a map with a key twice; of one that is a key, and in it after another map two keys that are equal lists; and of one
 * with a key twice, which doesn't end. The place is where the second of the two keys begins. */
#define TWICE "---\n!!map {\n  ? !!str \"a\"\n  : !!int \"1\",\n  ? !!str \"a\"\n  : !!int \"2\",\n}\n"
#define TWICE_WITHIN \
    "---\n!!map {\n  ? !!map {\n    ? !!seq [\n      !!null \"null\",\n    ]\n    : !!map {\n      ? !!null \"null\"\n      : !!int \"1\",\n" \
    "    },\n    ? !!seq [\n      !!null \"null\",\n    ]\n    : !!int \"1\",\n  }\n  : !!int \"1\",\n}\n"
#define TWICE_UNENDED "---\n!!map {\n  ? !!str \"a\"\n  : !!int \"1\",\n  ? !!str \"a\"\n  : !!nul\n"

/* Keys that differ: a text and an integer, a text and a list of it; a key of a map that is a key, and of one that is a value. */
#define DIFFERENT \
    "---\n!!map {\n  ? !!str \"1\"\n  : !!int \"1\",\n  ? !!int \"1\"\n  : !!map {\n    ? !!str \"1\"\n    : !!int \"1\",\n  },\n" \
    "  ? !!seq [\n    !!str \"1\",\n    !!str \"1\",\n  ]\n  : !!int \"1\",\n  ? !!map {\n    ? !!str \"1\"\n    : !!int \"1\",\n  }\n" \
    "  : !!int \"1\",\n}\n"

static void keys(void) {
    expect_check(TWICE, YAML_C_DUPLICATE_NAME, 5, 5);
    expect_check(TWICE_WITHIN, YAML_C_DUPLICATE_NAME, 11, 7);
    expect_check(TWICE_UNENDED, YAML_C_DUPLICATE_NAME, 5, 5);
    expect_check(DIFFERENT, YAML_C_DONE, 0, 0);
    /* A key is compared only if `: ` follows it, and bytes that aren't UTF-8 are reported first. */
    expect_check("---\n!!map {\n  ? !!str \"a\"\n  : !!int \"1\",\n  ? !!str \"a\",\n}\n", YAML_C_NOT_CANONICAL, 5, 14);
    expect_check(TWICE "\360", YAML_C_NOT_CANONICAL, 8, 1);
    settings = &allowing;
    expect_check(TWICE, YAML_C_DONE, 0, 0);
    expect_check(TWICE_WITHIN, YAML_C_DONE, 0, 0);
    expect_check(TWICE_UNENDED, YAML_C_NOT_CANONICAL, 6, 5);
    expect_check(DIFFERENT, YAML_C_DONE, 0, 0);
    settings = NULL;
}

/* Canonical bytes of values of each kind, and how many other bytes in place of one of theirs give the canonical bytes of another value in which
 * no map has a key twice. */
static const struct {
    const char *bytes;
    int others;
} taken[] = {
    {"---\n!!null \"null\"\n", 0},
    {"---\n!!bool \"true\"\n", 0},
    {"---\n!!bool \"false\"\n", 0},
    /* Each other digit. */
    {"---\n!!int \"7\"\n", 9},
    /* Neither a first 0 nor a 0 after a sign: in place of the sign 9 digits, after it 8 others. */
    {"---\n!!int \"-5\"\n", 17},
    /* In place of the 1 a digit that isn't 0 and no sign, in place of the 0 each other digit. */
    {"---\n!!int \"10\"\n", 17},
    /* 95 characters of ASCII are printable; the quote and the backslash can't be alone. */
    {"---\n!!str \"a\"\n", 92},
    {"---\n!!str \"\"\n", 0},
    /* The backslash may become one of 93 characters, the letter another of 14. */
    {"---\n!!str \"\\n\"\n", 106},
    {"---\n!!seq []\n", 0},
    {"---\n!!map {}\n", 0},
    {"---\n!!seq [\n  !!int \"5\",\n  !!str \"a\",\n]\n", 101},
    {"---\n!!map {\n  ? !!str \"k\"\n  : !!bool \"false\",\n}\n", 92},
    {"---\n!!map {\n  ? !!seq [\n    !!map {},\n    !!seq [],\n  ]\n  : !!map {\n    ? !!null \"null\"\n    : !!int \"0\",\n"
     "    ? !!bool \"true\"\n    : !!str \"\",\n  },\n}\n", 9},
    /* Each other digit in each key, but for the other key's. */
    {"---\n!!map {\n  ? !!int \"1\"\n  : !!null \"null\",\n  ? !!int \"2\"\n  : !!null \"null\",\n}\n", 16},
};

/* Returns whether bytes are canonical, and no map has a key twice. Bytes that aren't so must have a place. */
static int is_taken(const char *name, const uint8_t *bytes, size_t length) {
    int32_t got;
    int placed;
    memset(&result, 0xff, sizeof result);
    got = yaml_c_is_canonical(bytes, length, settings, &result);
    placed = result.line > 0 && result.column > 0 && reports(0, result.line, result.column);
    tell(name, got, got == YAML_C_DONE ? reports(0, 0, 0) : (got == YAML_C_NOT_CANONICAL || got == YAML_C_DUPLICATE_NAME) && placed);
    return got == YAML_C_DONE;
}

/* How many other bytes in place of the one at an offset are canonical. */
static int count_others(const char *name, uint8_t *bytes, size_t length, size_t offset) {
    uint8_t byte, kept = bytes[offset];
    int count = 0;
    for (byte = kept + 1; byte != kept; byte++) {
        bytes[offset] = byte;
        count += is_taken(name, bytes, length);
    }
    bytes[offset] = kept;
    return count;
}

/* Checks bytes unchanged, with each of them replaced by each other one, and cut off before each of them. */
static void check_spoiled(const char *text, int others) {
    static uint8_t bytes[256];
    size_t offset, length = strlen(text);
    int whole, count = 0, cut = 0;
    memcpy(bytes, text, length);
    whole = is_taken(text, bytes, length);
    for (offset = 0; offset < length; offset++) {
        count += count_others(text, bytes, length, offset);
        cut += is_taken(text, bytes, offset);
    }
    if (!whole || count != others || cut) {
        failures++;
        printf("%s: canonical: %d unchanged, %d with another byte, not %d, %d cut off\n", text, whole, count, others, cut);
    }
}

static void spoiled(void) {
    size_t row;
    for (row = 0; row < sizeof taken / sizeof *taken; row++) check_spoiled(taken[row].bytes, taken[row].others);
    /* The two other digits, too, if keys may repeat. */
    settings = &allowing;
    check_spoiled(taken[row - 1].bytes, taken[row - 1].others + 2);
    settings = NULL;
}

/* The level of number N is on line N + 1, after N - 1 indentations; the last line, 2 N, has the outermost closing bracket. Few levels
 * are used here, since the stack is small: `depths.c` has many. */
static void deep(void) {
    static const char *const begins[] = {"!!seq []", "!!map {}", "!!seq [", "!!map {"};
    static uint8_t bytes[2016064];
    size_t row, length = nested(bytes, 49, "!!seq [],\n");
    check_bytes("deep", bytes, length, YAML_C_DONE, 0, 0);
    check_bytes("deep, without its end", bytes, length - 1, YAML_C_NOT_CANONICAL, 100, 2);
    length = nested(bytes, 1000, "!!seq [],\n");
    check_bytes("too deep", bytes, length, YAML_C_TOO_DEEP, 1002, 2001);
    for (row = 0; row < sizeof begins / sizeof *begins; row++) {
        length = begun(bytes, 1000, begins[row]);
        check_bytes(begins[row], bytes, length, YAML_C_TOO_DEEP, 1002, 2001);
    }
}

/* The canonical bytes of a text of JSON: in a buffer that has just their size, then in one that is a byte too small. */
static void expect_bytes(const char *text, const char *bytes) {
    static uint8_t out[256];
    size_t length = strlen(bytes);
    int32_t got;
    memset(&result, 0xff, sizeof result);
    memset(out, 'x', sizeof out);
    got = yaml_c_canonical_from_json((const uint8_t *)text, strlen(text), settings, out, length, &result);
    tell(text, got, got == YAML_C_DONE && reports(length, 0, 0) && memcmp(out, bytes, length) == 0 && out[length] == 'x');
    got = yaml_c_is_canonical(out, length, settings, &result);
    tell(text, got, got == YAML_C_DONE && reports(0, 0, 0));
    memset(out, 'x', sizeof out);
    got = yaml_c_canonical_from_json((const uint8_t *)text, strlen(text), settings, out, length - 1, &result);
    tell(text, got, got == YAML_C_TOO_SMALL && reports(length, 0, 0) && out[0] == 'x');
}

/* Why a text of JSON has none. */
static void expect_none(const char *name, const char *text, size_t length, int32_t status, uint64_t line, uint64_t column) {
    static uint8_t out[256];
    int32_t got;
    memset(&result, 0xff, sizeof result);
    memset(out, 'x', sizeof out);
    got = yaml_c_canonical_from_json((const uint8_t *)text, length, settings, out, sizeof out, &result);
    tell(name, got, got == status && reports(0, line, column) && out[0] == 'x');
}

/* Texts of JSON, and their canonical bytes, worked out by hand. */
static const struct {
    const char *text, *bytes;
} written[] = {
    {" null ", "---\n!!null \"null\"\n"},
    {"[true, -5, \"\\u00e9\\n\"]", "---\n!!seq [\n  !!bool \"true\",\n  !!int \"-5\",\n  !!str \"\303\251\\n\",\n]\n"},
    {"{\"b\": [], \"a\": {\"\": {}}}",
     "---\n!!map {\n  ? !!str \"b\"\n  : !!seq [],\n  ? !!str \"a\"\n  : !!map {\n    ? !!str \"\"\n    : !!map {},\n  },\n}\n"},
    {"{\"b\": [1, true, null], \"a\": \"\\u00e9\"}",
     "---\n!!map {\n  ? !!str \"b\"\n  : !!seq [\n    !!int \"1\",\n    !!bool \"true\",\n    !!null \"null\",\n  ],\n"
     "  ? !!str \"a\"\n  : !!str \"\303\251\",\n}\n"},
    {"-9223372036854775808", "---\n!!int \"-9223372036854775808\"\n"},
    {" 9223372036854775807\n", "---\n!!int \"9223372036854775807\"\n"},
};

/* Texts that have none, with the status and the place. */
static const struct {
    const char *text;
    int32_t status;
    uint64_t line, column;
} refused[] = {
    /* The first number that isn't an integer of 64 bits. */
    {"9223372036854775808", YAML_C_NOT_INTEGER, 1, 1},
    {"[1,\n 1.0]", YAML_C_NOT_INTEGER, 2, 2},
    {"[1,\n 1.0, 1e2]", YAML_C_NOT_INTEGER, 2, 2},
    {"{\"a\": 1e2}", YAML_C_NOT_INTEGER, 1, 7},
    {"[-0]", YAML_C_NOT_INTEGER, 1, 2},
    {"[\"\303\251\", -0]", YAML_C_NOT_INTEGER, 1, 7},
    {"[\"\303\251\", 0.5, 0.5]", YAML_C_NOT_INTEGER, 1, 7},
    /* Texts that aren't JSON are refused first. */
    {"[0.5, nul]", YAML_C_NOT_JSON, 1, 7},
    {"[\"\360\"]", YAML_C_NOT_JSON, 1, 3},
    {"{\"a\": 1, \"a\": 2}", YAML_C_DUPLICATE_NAME, 1, 10},
    {"{\"a\": 0.5, \"a\": 2}", YAML_C_DUPLICATE_NAME, 1, 12},
    {"{\"a\": 1,\n \"\\u0061\": 2}", YAML_C_DUPLICATE_NAME, 2, 2},
};

static void texts_of_json(void) {
    static char deep_text[1001];
    size_t row;
    for (row = 0; row < sizeof written / sizeof *written; row++) expect_bytes(written[row].text, written[row].bytes);
    for (row = 0; row < sizeof refused / sizeof *refused; row++)
        expect_none(refused[row].text, refused[row].text, strlen(refused[row].text), refused[row].status, refused[row].line,
                    refused[row].column);
    memset(deep_text, '[', sizeof deep_text);
    expect_none("deep", deep_text, sizeof deep_text, YAML_C_TOO_DEEP, 1, 1001);
    settings = &allowing;
    expect_bytes("{\"a\": 1, \"\\u0061\": 2}", TWICE);
    expect_none("a fraction, and a name twice", "{\"a\": 0.5, \"a\": 2}", 18, YAML_C_NOT_INTEGER, 1, 7);
    settings = NULL;
}

/* No text, no settings and no buffer. */
static void nothing(void) {
    int32_t got;
    memset(&result, 0xff, sizeof result);
    got = yaml_c_canonical_from_json(NULL, 0, NULL, NULL, 0, &result);
    tell("no text", got, got == YAML_C_NOT_JSON && reports(0, 1, 1));
    got = yaml_c_canonical_from_json((const uint8_t *)"1", 1, NULL, NULL, 0, &result);
    tell("no buffer", got, got == YAML_C_TOO_SMALL && reports(14, 0, 0));
}

int main(void) {
    int32_t got;
    checks();
    places();
    keys();
    spoiled();
    texts_of_json();
    nothing();
    memset(&result, 0xff, sizeof result);
    got = yaml_c_is_canonical(NULL, 0, NULL, &result);
    tell("no bytes", got, got == YAML_C_NOT_CANONICAL && reports(0, 1, 1));
    deep();
    printf("%d calls, %d not as written\n", calls, failures);
    return failures != 0;
}
