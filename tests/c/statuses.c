/* Calls of yaml_c_emit, one for each status and for each kind of event that has no reading, of yaml_c_from_json and yaml_c_from_toml, one for
 * each setting and status, and of these and yaml_c_run with NULL for an empty text, array or buffer. Prints a line for each that isn't as written here. */
#include <stdio.h>
#include <stdlib.h>
#include <string.h>

#include "arena.h"

#define COUNT(array) (sizeof(array) / sizeof *(array))

static int failures;
static int calls;

static struct yaml_c_directive directives[4];
static struct yaml_c_event events[12];
static struct yaml_c_settings settings;
static uint8_t out[256];
static struct yaml_c_result result;

/* A stream of one document with one scalar: its version, a directive, an anchor, a tag and a value. */
static void begin(void) {
    memset(events, 0, sizeof events);
    memset(directives, 0, sizeof directives);
    memset(&settings, 0, sizeof settings);
    texts_len = 0;
    directives[0].handle = place("!e!");
    directives[0].prefix = place("tag:e,2000:");
    events[0].kind = YAML_C_STREAM_START;
    events[1].kind = YAML_C_DOCUMENT_START;
    events[1].has_version = 1;
    events[1].major = 1;
    events[1].minor = 1;
    events[1].directives.length = 1;
    events[2].kind = YAML_C_SCALAR;
    events[2].has_anchor = 7; /* any number but 0 is on */
    events[2].anchor = place("a1");
    events[2].has_tag = 1;
    events[2].tag = place("tag:e,2000:city");
    events[2].value = place("Oslo");
    events[3].kind = YAML_C_DOCUMENT_END;
    events[3].implicit = 1;
    events[4].kind = YAML_C_STREAM_END;
}

static const char yaml[] = "%YAML 1.1\n%TAG !e! tag:e,2000:\n--- &a1 !e!city Oslo\n";

/* Checks the results of a call with the first `count` events and a buffer of `capacity` bytes, and that the buffer past `written` stays. */
static void expect(const char *name, size_t count, size_t capacity, int32_t status, size_t length, uint64_t event, uint32_t error,
                   const char *written) {
    size_t i, size = strlen(written);
    int32_t got;
    memset(out, 0xa5, sizeof out);
    memset(&result, 0xff, sizeof result);
    got = yaml_c_emit(events, count, directives, COUNT(directives), texts, texts_len, &settings, out, capacity, &result);
    calls++;
    int good = got == status && result.length == length && result.event == event && result.error == error && memcmp(out, written, size) == 0;
    for (i = size; i < sizeof out; i++) good = good && out[i] == 0xa5;
    if (good) return;
    failures++;
    printf("%s: status %d, length %lu, event %lu, error %lu\n%.*s\n", name, (int)got, (unsigned long)result.length,
           (unsigned long)result.event, (unsigned long)result.error, (int)result.length, (const char *)out);
}

static void expect_bad(const char *name, uint64_t event) { expect(name, 5, sizeof out, YAML_C_BAD_EVENT, 0, event, 0, ""); }

static void done(void) {
    char unended[sizeof yaml] = "";
    begin();
    expect("a stream", 5, sizeof out, YAML_C_DONE, sizeof yaml - 1, 0, 0, yaml);
    expect("a buffer of just its length", 5, sizeof yaml - 1, YAML_C_DONE, sizeof yaml - 1, 0, 0, yaml);
    expect("a buffer one byte short", 5, sizeof yaml - 2, YAML_C_TOO_SMALL, sizeof yaml - 1, 0, 0, "");
    settings.skip = 10;
    expect("the first line skipped", 5, sizeof yaml - 11, YAML_C_DONE, sizeof yaml - 1, 0, 0, yaml + 10);
    expect("a buffer short of the rest", 5, sizeof yaml - 12, YAML_C_TOO_SMALL, sizeof yaml - 1, 0, 0, "");
    settings.skip = SIZE_MAX;
    expect("more skipped than there is", 5, 0, YAML_C_DONE, sizeof yaml - 1, 0, 0, "");
    settings.skip = 0;
    expect("no event", 0, sizeof out, YAML_C_DONE, 0, 0, 0, "");
    memcpy(unended, yaml, sizeof yaml - 2); /* the line of a document's root is ended with the document */
    expect("a stream that isn't ended", 3, sizeof out, YAML_C_DONE, sizeof yaml - 2, 0, 0, unended);
}

static void bad_settings(void) {
    begin();
    settings.encoding = 4;
    expect("encoding 4", 5, sizeof out, YAML_C_BAD_SETTINGS, 0, 0, 0, "");
    settings.encoding = 0;
    settings.line_break = 4;
    expect("line break 4", 5, sizeof out, YAML_C_BAD_SETTINGS, 0, 0, 0, "");
}

static void bad_numbers(void) {
    static const uint32_t kinds[] = {0, 11, UINT32_MAX};
    static const uint32_t starts[] = {YAML_C_SEQUENCE_START, YAML_C_MAPPING_START};
    size_t i;
    for (i = 0; i < COUNT(kinds); i++) {
        begin();
        events[2].kind = kinds[i];
        expect_bad("an unknown kind", 2);
    }
    begin();
    events[0].style = 4;
    expect_bad("an encoding", 0);
    begin();
    events[2].style = 6;
    expect_bad("a scalar's style", 2);
    for (i = 0; i < COUNT(starts); i++) {
        begin();
        events[2].kind = starts[i];
        events[2].style = 3;
        expect_bad("a collection's style", 2);
    }
}

/* The stream with this span in place of one of its own. */
static void expect_bad_span(const char *name, struct yaml_c_span *span, size_t start, size_t length, uint64_t event) {
    begin();
    span->start = start;
    span->length = length;
    expect_bad(name, event);
}

static void bad_spans(void) {
    struct yaml_c_span *value = &events[2].value;
    begin();
    expect_bad_span("one byte past the arena", value, texts_len - 4, 5, 2);
    expect_bad_span("a sum that overflows", value, SIZE_MAX, SIZE_MAX, 2);
    expect_bad_span("a sum that comes to 0", value, 1, SIZE_MAX, 2);
    expect_bad_span("nothing, after the arena", &events[2].anchor, texts_len + 1, 0, 2);
    expect_bad_span("a tag past the arena", &events[2].tag, 0, 1000, 2);
    expect_bad_span("more directives than there are", &events[1].directives, 0, COUNT(directives) + 1, 1);
    expect_bad_span("directives whose sum overflows", &events[1].directives, SIZE_MAX, SIZE_MAX, 1);
    expect_bad_span("a handle past the arena", &directives[0].handle, SIZE_MAX, 3, 1);
    expect_bad_span("a prefix past the arena", &directives[0].prefix, 3, SIZE_MAX, 1);
    begin();
    events[2].kind = YAML_C_ALIAS;
    events[2].anchor.length = 1000;
    expect_bad("an alias past the arena", 2);
}

static void bad_texts(void) {
    static const char *const bad[] = {"\xff", "\xc3", "\xc0\x80", "\xed\xa0\x80", "\xf4\x90\x80\x80"};
    size_t i;
    for (i = 0; i < COUNT(bad); i++) {
        begin();
        events[2].value = place(bad[i]);
        expect_bad("a value that isn't UTF-8", 2);
    }
    begin();
    events[2].tag = place("\x80");
    expect_bad("a tag that isn't UTF-8", 2);
    begin();
    events[2].value = place("\xc3\xa9");
    events[2].value.length = 1;
    expect_bad("half a character", 2);
}

/* Fields that a kind doesn't read may hold anything. */
static void unread(void) {
    begin();
    events[4].style = 99;
    events[4].value.length = SIZE_MAX;
    events[3].has_anchor = 1;
    events[3].anchor.start = SIZE_MAX;
    events[2].directives.length = SIZE_MAX;
    expect("fields that aren't read", 5, sizeof out, YAML_C_DONE, sizeof yaml - 1, 0, 0, yaml);
    events[2].has_anchor = 0;
    events[2].anchor.length = SIZE_MAX;
    expect("an anchor that isn't there", 5, sizeof out, YAML_C_DONE, sizeof yaml - 5, 0, 0,
           "%YAML 1.1\n%TAG !e! tag:e,2000:\n--- !e!city Oslo\n");
}

static void refused(void) {
    begin();
    expect("an event before the stream", 0, 0, YAML_C_DONE, 0, 0, 0, "");
    events[0].kind = YAML_C_STREAM_END;
    expect("no stream's start", 5, sizeof out, YAML_C_REFUSED, 0, 0, YAML_C_EXPECTED_STREAM_START, "");
    begin();
    events[1].minor = 3;
    expect("a version that can't be written", 5, sizeof out, YAML_C_REFUSED, 0, 2, YAML_C_INCOMPATIBLE_VERSION, "");
    begin();
    events[1].directives.length = 2;
    directives[1] = directives[0];
    expect("a handle that comes twice", 5, sizeof out, YAML_C_REFUSED, 0, 2, YAML_C_DUPLICATE_DIRECTIVE, "");
    begin();
    events[2].anchor.length = 0;
    expect("an empty anchor", 5, sizeof out, YAML_C_REFUSED, 0, 2, YAML_C_ANCHOR_EMPTY, "");
    begin();
    events[3].kind = YAML_C_SCALAR;
    expect("a second root", 5, sizeof out, YAML_C_REFUSED, 0, 3, YAML_C_EXPECTED_DOCUMENT_END, "");
    begin();
    settings.limit = sizeof yaml - 1;
    expect("a limit that is kept", 5, sizeof out, YAML_C_DONE, sizeof yaml - 1, 0, 0, yaml);
    settings.limit--;
    expect("a limit that is passed", 5, sizeof out, YAML_C_REFUSED, 0, 3, YAML_C_PAST_LIMIT, "");
    begin();
    events[2].anchor.length = 0;
    events[3].kind = 0;
    expect("a refusal before a bad event", 5, sizeof out, YAML_C_REFUSED, 0, 2, YAML_C_ANCHOR_EMPTY, "");
    begin();
    events[2].anchor.length = 0;
    events[1].kind = 0;
    expect_bad("a bad event before a refusal", 1);
}

/* Checks the results of a call of yaml_c_from_json with a buffer of `capacity` bytes; nothing else is reported. */
static void expect_json(const char *name, const char *text, struct yaml_c_json_settings given, int32_t status, uint64_t line, uint64_t column,
                        const char *written) {
    size_t i, size = strlen(written);
    int32_t got;
    memset(out, 0xa5, sizeof out);
    memset(&result, 0xff, sizeof result);
    got = yaml_c_from_json((const uint8_t *)text, strlen(text), &given, out, sizeof out, &result);
    calls++;
    int good = got == status && result.length == size && result.line == line && result.column == column && result.event == 0
        && result.error == 0 && memcmp(out, written, size) == 0;
    for (i = size; i < sizeof out; i++) good = good && out[i] == 0xa5;
    if (good) return;
    failures++;
    printf("%s: status %d, length %lu, line %lu, column %lu\n%.*s\n", name, (int)got, (unsigned long)result.length, (unsigned long)result.line,
           (unsigned long)result.column, (int)result.length, (const char *)out);
}

/* Seven words that fill columns 11 to 79 after `--- aaaaaa `. */
#define EIGHTY "bbbbbbbbb ccccccccc ddddddddd eeeeeeeee fffffffff ggggggggg hhhhhhhhh"

/* A text by the default settings, and with this flag of theirs. */
static void json_flag(const char *name, const char *text, struct yaml_c_json_settings *given, uint32_t *flag, const char *off, const char *on) {
    memset(given, 0, sizeof *given);
    expect_json(name, text, *given, YAML_C_DONE, 0, 0, off);
    *flag = 1;
    expect_json(name, text, *given, YAML_C_DONE, 0, 0, on);
}

static void json_settings(void) {
    static const char text[] = "{\"a\": [1, {\"b\": 2}]}", words[] = "\"aaaa bbbb cccc dddd eeee ffff\"";
    struct yaml_c_json_settings given;
    memset(&given, 0, sizeof given);
    expect_json("the defaults", text, given, YAML_C_DONE, 0, 0, "---\na:\n  - 1\n  - b: 2\n");
    expect_json("no line is folded", "\"aaaaaaa " EIGHTY " iiii\"", given, YAML_C_DONE, 0, 0, "--- aaaaaaa " EIGHTY " iiii\n");
    given.values.width = 80;
    expect_json("a space in column 80", "\"aaaaaa " EIGHTY " iiii\"", given, YAML_C_DONE, 0, 0, "--- aaaaaa " EIGHTY " iiii\n");
    expect_json("a space in column 81", "\"aaaaaaa " EIGHTY " iiii\"", given, YAML_C_DONE, 0, 0, "--- aaaaaaa " EIGHTY "\n  iiii\n");
    given.values.width = 0;
    given.values.indent = 4;
    expect_json("an indent of 4", text, given, YAML_C_DONE, 0, 0, "---\na:\n    - 1\n    -   b: 2\n");
    given.values.compact_sequences = 1;
    expect_json("and sequences that aren't indented", text, given, YAML_C_DONE, 0, 0, "---\na:\n- 1\n-   b: 2\n");
    given.values.allow_unportable = 1;
    expect_json("and not portable", text, given, YAML_C_DONE, 0, 0, "a:\n- 1\n-   b: 2\n");
    given.values.flow = 1;
    expect_json("and in flow", text, given, YAML_C_DONE, 0, 0, "{a: [1, {b: 2}]}\n");
    json_flag("double quotes", "[\"no\", \"a: b\"]", &given, &given.values.double_quotes, "---\n- 'no'\n- 'a: b'\n", "---\n- \"no\"\n- \"a: b\"\n");
    json_flag("no characters past ASCII", "\"\xc3\xa9\"", &given, &given.values.ascii_only, "--- \xc3\xa9\n", "--- \"\\xE9\"\n");
    json_flag("canonical form", "[1]", &given, &given.values.canonical, "---\n- 1\n", "---\n[\n  !!int \"1\",\n]\n");
    json_flag("no literal blanks", "[\"a \\nb\"]", &given, &given.values.quoted_blanks, "---\n- |-\n  a \n  b\n", "---\n- \"a \\nb\"\n");
    memset(&given, 0, sizeof given);
    given.values.line_breaks_1_2 = 1;
    given.values.allow_unportable = 1;
    expect_json("line breaks of 1.2", "\"\\u2028\"", given, YAML_C_DONE, 0, 0, "\"\\L\"\n");
    memset(&given, 0, sizeof given);
    given.values.width = 20;
    expect_json("a width of 20", words, given, YAML_C_DONE, 0, 0, "--- aaaa bbbb cccc dddd\n  eeee ffff\n");
    given.allow_duplicates = 1;
    expect_json("a name twice, which is allowed", "{\"a\":1,\"a\":2}", given, YAML_C_DONE, 0, 0, "---\na: 1\na: 2\n");
    given.values.depth = 2;
    expect_json("as deep as may be", "[[1]]", given, YAML_C_DONE, 0, 0, "---\n- - 1\n");
}

static void json_refused(void) {
    struct yaml_c_json_settings given;
    memset(&given, 0, sizeof given);
    expect_json("a name twice", "{\"a\":1,\n\"a\":2}", given, YAML_C_DUPLICATE_NAME, 2, 1, "");
    expect_json("no JSON", "[1,]", given, YAML_C_NOT_JSON, 1, 4, "");
    expect_json("a control character in a string", "[\n\"\xc3\xa9\t\"]", given, YAML_C_NOT_JSON, 2, 3, "");
    expect_json("a byte order mark", "\xef\xbb\xbf{}", given, YAML_C_NOT_JSON, 1, 1, "");
    expect_json("no UTF-8", "\"\xff\"", given, YAML_C_NOT_JSON, 1, 2, "");
    expect_json("half a character in the third line", "[\n1,\n \"\xc3\xa9\xc3", given, YAML_C_NOT_JSON, 3, 4, "");
    expect_json("no UTF-8 in a text that is no JSON", "]\x80", given, YAML_C_NOT_JSON, 1, 2, "");
    expect_json("no UTF-8 after a text that is no JSON", "]\xf0", given, YAML_C_NOT_JSON, 1, 2, "");
    expect_json("no UTF-8 after JSON", "1 \xf0", given, YAML_C_NOT_JSON, 1, 3, "");
    expect_json("no UTF-8 after JSON and a text that is none", "[1] ]\xf0", given, YAML_C_NOT_JSON, 1, 6, "");
    expect_json("no UTF-8 after a name twice", "{\"a\":1,\"a\":2}\xf0", given, YAML_C_NOT_JSON, 1, 14, "");
    given.values.depth = 1;
    expect_json("too deep", "[[1]]", given, YAML_C_TOO_DEEP, 1, 2, "");
    expect_json("too deep in the second line", "[1,\n {}]", given, YAML_C_TOO_DEEP, 2, 2, "");
}

/* Checks the results of a call of yaml_c_from_toml with a buffer of `capacity` bytes, if the whole YAML has `length` bytes. */
static void expect_toml(const char *name, const char *text, struct yaml_c_value_settings given, size_t capacity, int32_t status, size_t length,
                        uint64_t line, uint64_t column, const char *written) {
    size_t i, size = strlen(written);
    int32_t got;
    memset(out, 0xa5, sizeof out);
    memset(&result, 0xff, sizeof result);
    got = yaml_c_from_toml((const uint8_t *)text, strlen(text), &given, out, capacity, &result);
    calls++;
    int good = got == status && result.length == length && result.line == line && result.column == column && result.event == 0
        && result.error == 0 && memcmp(out, written, size) == 0;
    for (i = size; i < sizeof out; i++) good = good && out[i] == 0xa5;
    if (good) return;
    failures++;
    printf("%s, TOML: status %d, length %lu, line %lu, column %lu\n%.*s\n", name, (int)got, (unsigned long)result.length,
           (unsigned long)result.line, (unsigned long)result.column, (int)result.length, (const char *)out);
}

static void toml_done(const char *name, const char *text, struct yaml_c_value_settings given, const char *written) {
    expect_toml(name, text, given, sizeof out, YAML_C_DONE, strlen(written), 0, 0, written);
}

static void toml_stops(const char *name, const char *text, struct yaml_c_value_settings given, int32_t status, uint64_t line, uint64_t column) {
    expect_toml(name, text, given, sizeof out, status, 0, line, column, "");
}

static void toml_settings(void) {
    static const char text[] = "a = [1, {b = 2}]\n", yaml[] = "---\na:\n  - 1\n  - b: 2\n";
    struct yaml_c_value_settings given;
    memset(&given, 0, sizeof given);
    toml_done("the defaults", text, given, yaml);
    expect_toml("a buffer of just its length", text, given, sizeof yaml - 1, YAML_C_DONE, sizeof yaml - 1, 0, 0, yaml);
    expect_toml("a buffer one byte short", text, given, sizeof yaml - 2, YAML_C_TOO_SMALL, sizeof yaml - 1, 0, 0, "");
    toml_done("no key", "# nothing\n", given, "--- {}\n");
    toml_done("keys as they are first defined", "b.d = 1 # one\na = 2\nb.c = 3\n", given, "---\nb:\n  d: 1\n  c: 3\na: 2\n");
    given.indent = 4;
    toml_done("an indent of 4", text, given, "---\na:\n    - 1\n    -   b: 2\n");
    given.compact_sequences = 1;
    toml_done("and sequences that aren't indented", text, given, "---\na:\n- 1\n-   b: 2\n");
    given.allow_unportable = 1;
    toml_done("and not portable", text, given, "a:\n- 1\n-   b: 2\n");
    given.flow = 1;
    toml_done("and in flow", text, given, "{a: [1, {b: 2}]}\n");
    memset(&given, 0, sizeof given);
    toml_done("single quotes", "a = \"no\"\n", given, "---\na: 'no'\n");
    given.double_quotes = 1;
    toml_done("double quotes", "a = 'no'\n", given, "---\na: \"no\"\n");
    given.width = 20;
    toml_done("a width of 20", "a = 'aaaa bbbb cccc dddd eeee ffff'\n", given, "---\na: aaaa bbbb cccc dddd\n  eeee ffff\n");
    given.depth = 2;
    toml_done("as deep as may be", "a = [1]\n", given, "---\na:\n  - 1\n");
}

static void toml_refused(void) {
    struct yaml_c_value_settings given;
    memset(&given, 0, sizeof given);
    toml_stops("no TOML", "a = 1\nb c = 1\n", given, YAML_C_NOT_TOML, 2, 3);
    toml_stops("no UTF-8", "a = \"\xff\"\n", given, YAML_C_NOT_TOML, 1, 6);
    toml_stops("no UTF-8 after a character of two bytes", "a = \"\xc3\xa9\xff\"\n", given, YAML_C_NOT_TOML, 1, 7);
    toml_stops("a key twice", "a = 1\nb = 2\na = 3\n", given, YAML_C_DUPLICATE_NAME, 3, 1);
    toml_stops("a table twice", "[a]\nb = 1\n[a]\n", given, YAML_C_DUPLICATE_NAME, 3, 1);
#define TEN_ARRAYS "[[[[[[[[[["
#define EIGHTY_ARRAYS TEN_ARRAYS TEN_ARRAYS TEN_ARRAYS TEN_ARRAYS TEN_ARRAYS TEN_ARRAYS TEN_ARRAYS TEN_ARRAYS
    toml_stops("80 arrays without their ends", "a = " EIGHTY_ARRAYS, given, YAML_C_NOT_TOML, 1, 85);
    toml_stops("a table in 80 arrays", "a = " EIGHTY_ARRAYS "{}", given, YAML_C_TOO_DEEP, 1, 85);
#define TEN_PARTS "a.a.a.a.a.a.a.a.a.a."
#define EIGHTY_PARTS TEN_PARTS TEN_PARTS TEN_PARTS TEN_PARTS TEN_PARTS TEN_PARTS TEN_PARTS TEN_PARTS
    toml_stops("a key of 81 parts", "b = 1\n" EIGHTY_PARTS "a = 1\n", given, YAML_C_TOO_DEEP, 2, 1);
    toml_stops("a header of 81 parts", "[" EIGHTY_PARTS "a]\n", given, YAML_C_TOO_DEEP, 1, 2);
    toml_stops("80 parts and a dot", EIGHTY_PARTS "= 1\n", given, YAML_C_NOT_TOML, 1, 161);
    given.depth = 1;
    toml_stops("too deep", "a = 1\nb = []\n", given, YAML_C_TOO_DEEP, 0, 0);
}

/* Arrays in arrays, 100,000 deep, by yaml_c_from_json, over a text and a buffer of so many bytes, and 5 more. */
static int is_deep_json(size_t levels, uint8_t *text, uint8_t *brackets) {
    struct yaml_c_json_settings given;
    memset(&given, 0, sizeof given);
    given.values.flow = 1;
    given.values.width = -1;
    given.values.depth = levels;
    memset(text, '[', levels);
    memset(text + levels, ']', levels);
    return yaml_c_from_json(text, 2 * levels, &given, brackets, 2 * levels + 5, &result) == YAML_C_DONE && memcmp(brackets, "--- [[", 6) == 0
        && result.length == 2 * levels + 5 && brackets[2 * levels + 4] == '\n';
}

/* Tables in tables, 6,400 deep, by yaml_c_from_toml: 80 in braces, each after a key of 80 parts. */
static int is_deep_toml(uint8_t *text, uint8_t *written) {
    const size_t tables = 80, parts = 80, levels = 6400, length = 5 * levels + 7;
    struct yaml_c_value_settings given;
    uint8_t *end = text;
    size_t i;
    memset(&given, 0, sizeof given);
    given.flow = 1;
    given.width = -1;
    given.depth = levels + 1;
    for (i = 0; i < tables * parts; i++) {
        *end++ = 'a';
        *end++ = i % parts == parts - 1 ? '=' : '.';
        if (i % parts == parts - 1) *end++ = '{';
    }
    memset(end, '}', tables);
    end += tables;
    return yaml_c_from_toml(text, (size_t)(end - text), &given, written, length, &result) == YAML_C_DONE && result.length == length
        && memcmp(written, "--- {a: {a: ", 12) == 0 && memcmp(written + length - levels - 4, " {}}", 4) == 0 && written[length - 1] == '\n';
}

/* Collections that nest deep, which take no stack. */
static void deep(void) {
    const size_t levels = 100000, count = 2 * levels + 4;
    struct yaml_c_event *nested = (struct yaml_c_event *)calloc(count, sizeof *nested);
    uint8_t *brackets = (uint8_t *)calloc(count + 1, 1), *text = (uint8_t *)calloc(count, 1);
    size_t i;
    int good = nested != NULL && brackets != NULL && text != NULL;
    calls += 3;
    begin();
    settings.width = -1;
    if (good) {
        nested[0].kind = YAML_C_STREAM_START;
        nested[1].kind = YAML_C_DOCUMENT_START;
        nested[1].implicit = 1;
        for (i = 0; i < levels; i++) {
            nested[2 + i].kind = YAML_C_SEQUENCE_START;
            nested[2 + i].implicit = 1;
            nested[2 + i].style = YAML_C_FLOW;
            nested[2 + levels + i].kind = YAML_C_SEQUENCE_END;
        }
        nested[2 + 2 * levels].kind = YAML_C_DOCUMENT_END;
        nested[2 + 2 * levels].implicit = 1;
        nested[3 + 2 * levels].kind = YAML_C_STREAM_END;
        good = yaml_c_emit(nested, count, directives, 0, texts, 0, &settings, brackets, count, &result) == YAML_C_DONE
            && result.length == 2 * levels + 1 && brackets[levels - 1] == '[' && brackets[levels] == ']' && brackets[2 * levels] == '\n';
    }
    good = good && is_deep_json(levels, text, brackets) && is_deep_toml(text, brackets);
    free(nested);
    free(brackets);
    free(text);
    if (good) return;
    failures++;
    printf("sequences in sequences: length %lu, event %lu\n", (unsigned long)result.length, (unsigned long)result.event);
}

/* A scalar of many letters, by a buffer of just the length: without its first `skip` letters, or with a byte too few for it. */
static int is_long(size_t letters, const uint8_t *text, size_t skip, size_t missing, uint8_t *buffer) {
    size_t i, length = letters + 1 - skip, written = missing == 0 ? length : 0;
    int32_t status = missing == 0 ? YAML_C_DONE : YAML_C_TOO_SMALL;
    int good;
    memset(buffer, 0xa5, letters + 2);
    calls++;
    settings.skip = skip;
    good = yaml_c_emit(events, 5, directives, 0, text, letters, &settings, buffer, length - missing, &result) == status
        && result.length == letters + 1;
    for (i = 0; i < written; i++) good = good && buffer[i] == (i + 1 == length ? '\n' : text[skip + i]);
    for (i = written; i < letters + 2; i++) good = good && buffer[i] == 0xa5;
    return good;
}

/* An output that is moved to the buffer in several parts. */
static void long_output(void) {
    const size_t letters = 4000000;
    uint8_t *text = (uint8_t *)malloc(letters), *buffer = (uint8_t *)malloc(letters + 2);
    size_t i;
    int good = text != NULL && buffer != NULL;
    begin();
    memset(events + 1, 0, 2 * sizeof *events);
    events[1].kind = YAML_C_DOCUMENT_START;
    events[1].implicit = 1;
    events[2].kind = YAML_C_SCALAR;
    events[2].implicit = 1;
    events[2].value.length = letters;
    settings.width = -1;
    for (i = 0; good && i < letters; i++) text[i] = (uint8_t)('a' + i % 23);
    good = good && is_long(letters, text, 0, 0, buffer) && is_long(letters, text, 100000, 0, buffer) && is_long(letters, text, letters, 0, buffer)
        && is_long(letters, text, 0, 1, buffer) && is_long(letters, text, 100000, 1, buffer);
    free(text);
    free(buffer);
    if (good) return;
    failures++;
    printf("a long output: length %lu, event %lu\n", (unsigned long)result.length, (unsigned long)result.event);
}

/* Checks a call with NULL: its status, and the length of its YAML, which `out` has if it is done. */
static void expect_null(const char *name, int32_t got, int32_t status, const char *written) {
    size_t i, length = strlen(written), size = status == YAML_C_DONE ? length : 0;
    int good = got == status && result.length == length && result.error == 0 && memcmp(out, written, size) == 0;
    for (i = size; i < sizeof out; i++) good = good && out[i] == 0xa5;
    calls++;
    failures += !good;
    if (!good) printf("%s: status %d, length %lu\n%.*s\n", name, (int)got, (unsigned long)result.length, (int)result.length, (const char *)out);
    memset(out, 0xa5, sizeof out);
    memset(&result, 0xff, sizeof result);
}

static void null_scripts(void) {
    static const uint8_t script[] = "+STR any\n+DOC 1 -\n=VAL any 1 1 - - \"one\"\n-DOC 1\n-STR\n";
    const size_t length = sizeof script - 1;
    expect_null("no script", yaml_c_run(NULL, 0, out, sizeof out, &result), YAML_C_DONE, "");
    expect_null("no room for a script's YAML", yaml_c_run(script, length, NULL, 0, &result), YAML_C_TOO_SMALL, "one\n");
    expect_null("neither", yaml_c_run(NULL, 0, NULL, 0, &result), YAML_C_DONE, "");
    expect_null("a direct call", (yaml_c_run)(script, length, out, sizeof out, &result), YAML_C_DONE, "one\n");
}

static void null_json(void) {
    static const uint8_t text[] = "[1]";
    const struct yaml_c_json_settings *defaults = NULL;
    expect_null("no JSON", yaml_c_from_json(NULL, 0, defaults, out, sizeof out, &result), YAML_C_NOT_JSON, "");
    expect_null("no settings of JSON", yaml_c_from_json(text, 3, NULL, out, sizeof out, &result), YAML_C_DONE, "---\n- 1\n");
    expect_null("no room for JSON's YAML", yaml_c_from_json(text, 3, defaults, NULL, 0, &result), YAML_C_TOO_SMALL, "---\n- 1\n");
    expect_null("neither", yaml_c_from_json(NULL, 0, NULL, NULL, 0, &result), YAML_C_NOT_JSON, "");
}

static void null_toml(void) {
    static const uint8_t text[] = "a = 1\n";
    static const struct yaml_c_value_settings zeros = {0, 0, 0, 0, 0, 0, 0, 0, 0, 0, 0};
    const struct yaml_c_value_settings *defaults = NULL;
    expect_null("no TOML", yaml_c_from_toml(NULL, 0, defaults, out, sizeof out, &result), YAML_C_DONE, "--- {}\n");
    expect_null("no settings of TOML", yaml_c_from_toml(text, 6, NULL, out, sizeof out, &result), YAML_C_DONE, "---\na: 1\n");
    expect_null("no room for TOML's YAML", yaml_c_from_toml(text, 6, defaults, NULL, 0, &result), YAML_C_TOO_SMALL, "---\na: 1\n");
    expect_null("neither", yaml_c_from_toml(NULL, 0, NULL, NULL, 0, &result), YAML_C_TOO_SMALL, "--- {}\n");
    expect_null("a direct call", (yaml_c_from_toml)(text, 6, &zeros, out, sizeof out, &result), YAML_C_DONE, "---\na: 1\n");
}

static void null_events(void) {
    begin();
    expect_null("no events", yaml_c_emit(NULL, 0, directives, 1, texts, texts_len, &settings, out, sizeof out, &result), YAML_C_DONE, "");
    expect_null("no settings", yaml_c_emit(events, 5, directives, 1, texts, texts_len, NULL, out, sizeof out, &result), YAML_C_DONE, yaml);
    expect_null("no room", yaml_c_emit(events, 5, directives, 1, texts, texts_len, &settings, NULL, 0, &result), YAML_C_TOO_SMALL, yaml);
    expect_null("nothing", yaml_c_emit(NULL, 0, NULL, 0, NULL, 0, NULL, NULL, 0, &result), YAML_C_DONE, "");
    events[1].directives.length = events[2].has_tag = 0;
    events[2].implicit = 1;
    expect_null("no directives", yaml_c_emit(events, 5, NULL, 0, texts, texts_len, &settings, out, sizeof out, &result), YAML_C_DONE,
                "%YAML 1.1\n--- &a1 Oslo\n");
    events[2].has_anchor = events[2].value.start = events[2].value.length = 0;
    expect_null("no texts", yaml_c_emit(events, 5, directives, 1, NULL, 0, &settings, out, sizeof out, &result), YAML_C_DONE, "%YAML 1.1\n---\n");
    events[2].value.length = 1;
    expect_null("a text of none", yaml_c_emit(events, 5, NULL, 0, NULL, 0, NULL, NULL, 0, &result), YAML_C_BAD_EVENT, "");
}

static void nulls(void) {
    memset(out, 0xa5, sizeof out);
    memset(&result, 0xff, sizeof result);
    null_scripts();
    null_json();
    null_toml();
    null_events();
}

int main(void) {
    if (yaml_c_version() != YAML_C_VERSION) return 1;
    done();
    long_output();
    bad_settings();
    bad_numbers();
    bad_spans();
    bad_texts();
    unread();
    refused();
    json_settings();
    json_refused();
    toml_settings();
    toml_refused();
    nulls();
    deep();
    printf("%d calls, %d not as written\n", calls, failures);
    return failures != 0;
}
