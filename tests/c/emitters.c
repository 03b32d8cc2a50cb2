/* Emitters that are kept from call to call: the results of each call, its output, and the emitter after an error. Prints a line for each
 * call that isn't as written here. */
#include "calls.h"

static struct yaml_c_emitter kept[2];
static struct yaml_c_emitter *emitter = &kept[0];
static struct yaml_c_settings settings;
static struct yaml_c_directive directives[2];

static void make(const char *name, int32_t status) {
    memset(&result, 0, sizeof result);
    gives(name, yaml_c_emitter_new(&settings, emitter), status, 0, 0);
}

/* Gives an event whose value is this text. */
static void give(uint32_t kind, const char *text, int32_t status, uint32_t error) {
    struct yaml_c_event event;
    memset(&event, 0, sizeof event);
    memset(&result, 0xff, sizeof result);
    event.kind = kind;
    event.implicit = event.quoted_implicit = 1;
    event.value.length = strlen(text);
    gives(text, yaml_c_emitter_emit(emitter, &event, directives, 0, (const uint8_t *)text, event.value.length, &result), status, 0, error);
}

static void begin(void) {
    make("a new emitter", YAML_C_DONE);
    give(YAML_C_STREAM_START, "", YAML_C_DONE, 0);
    give(YAML_C_DOCUMENT_START, "", YAML_C_DONE, 0);
}

/* Takes the output into a buffer of `capacity` bytes: these bytes, or with YAML_C_TOO_SMALL only their number. */
static void take(const char *name, size_t capacity, const char *bytes) {
    uint8_t out[128];
    size_t i, length = strlen(bytes), written = length <= capacity ? length : 0;
    memset(out, 0xa5, sizeof out);
    memset(&result, 0xff, sizeof result);
    gives(name, yaml_c_emitter_take_output(emitter, out, capacity, &result), length <= capacity ? YAML_C_DONE : YAML_C_TOO_SMALL, length, 0);
    for (i = written; i < sizeof out && out[i] == 0xa5; i++) {}
    if (i == sizeof out && memcmp(out, bytes, written) == 0) return;
    failures++;
    printf("%s: other bytes\n", name);
}

static void flush(int32_t status, uint32_t error) {
    memset(&result, 0xff, sizeof result);
    gives("a flush", yaml_c_emitter_flush(emitter, &result), status, 0, error);
}

static void written(void) {
    begin();
    take("nothing is written", 0, "");
    give(YAML_C_SEQUENCE_START, "", YAML_C_DONE, 0);
    give(YAML_C_SCALAR, "one", YAML_C_DONE, 0);
    give(YAML_C_SCALAR, "two", YAML_C_DONE, 0);
    take("nothing is flushed", 128, "");
    flush(YAML_C_DONE, 0);
    take("one byte too few", 10, "- one\n- two");
    take("just enough", 11, "- one\n- two");
    take("nothing is left", 0, "");
    give(YAML_C_SCALAR, "three", YAML_C_DONE, 0);
    give(YAML_C_SEQUENCE_END, "", YAML_C_DONE, 0);
    give(YAML_C_DOCUMENT_END, "", YAML_C_DONE, 0);
    give(YAML_C_STREAM_END, "", YAML_C_DONE, 0);
    take("the rest", 128, "\n- three\n");
    give(YAML_C_SCALAR, "late", YAML_C_REFUSED, YAML_C_EXPECTED_NOTHING);
    yaml_c_emitter_delete(emitter);
}

/* A version, a directive, an anchor and a tag. */
static void named(void) {
    static const char texts[] = "!e!" "tag:e,2000:" "a1" "tag:e,2000:city" "Oslo";
    struct yaml_c_event start, city;
    memset(&start, 0, sizeof start);
    memset(&city, 0, sizeof city);
    start.kind = YAML_C_DOCUMENT_START;
    start.has_version = start.directives.length = 1;
    start.major = start.minor = 1;
    directives[0].handle.length = 3;
    directives[0].prefix.start = 3;
    directives[0].prefix.length = 11;
    city.kind = YAML_C_SCALAR;
    city.has_anchor = city.has_tag = 1;
    city.anchor.start = 14;
    city.anchor.length = 2;
    city.tag.start = 16;
    city.tag.length = 15;
    city.value.start = 31;
    city.value.length = 4;
    make("a new emitter", YAML_C_DONE);
    give(YAML_C_STREAM_START, "", YAML_C_DONE, 0);
    gives("a start", yaml_c_emitter_emit(emitter, &start, directives, 1, (const uint8_t *)texts, sizeof texts - 1, &result), YAML_C_DONE, 0, 0);
    gives("a city", yaml_c_emitter_emit(emitter, &city, directives, 0, (const uint8_t *)texts, sizeof texts - 1, &result), YAML_C_DONE, 0, 0);
    city.value.length = 5;
    gives("a text past the arena", yaml_c_emitter_emit(emitter, &city, directives, 0, (const uint8_t *)texts, sizeof texts - 1, &result),
          YAML_C_BAD_EVENT, 0, 0);
    give(YAML_C_DOCUMENT_END, "", YAML_C_DONE, 0);
    take("a document", 128, "%YAML 1.1\n%TAG !e! tag:e,2000:\n--- &a1 !e!city Oslo\n");
    yaml_c_emitter_delete(emitter);
}

static void refused(void) {
    begin();
    give(11, "", YAML_C_BAD_EVENT, 0);
    give(YAML_C_SCALAR, "\xff", YAML_C_BAD_EVENT, 0);
    give(YAML_C_SCALAR, "one", YAML_C_DONE, 0);
    give(YAML_C_DOCUMENT_END, "", YAML_C_DONE, 0);
    give(YAML_C_SCALAR, "two", YAML_C_REFUSED, YAML_C_EXPECTED_DOCUMENT_START);
    give(YAML_C_DOCUMENT_START, "", YAML_C_REFUSED, YAML_C_EXPECTED_DOCUMENT_START);
    give(11, "", YAML_C_BAD_EVENT, 0);
    give(YAML_C_SCALAR, "\xff", YAML_C_BAD_EVENT, 0);
    give(YAML_C_SCALAR, "two", YAML_C_REFUSED, YAML_C_EXPECTED_DOCUMENT_START);
    flush(YAML_C_REFUSED, YAML_C_EXPECTED_DOCUMENT_START);
    take("the output before the refused event", 128, "one\n");
    yaml_c_emitter_delete(emitter);
}

static void set(void) {
    settings.encoding = 4;
    make("an unknown encoding", YAML_C_BAD_SETTINGS);
    settings.encoding = 0;
    settings.line_break = YAML_C_CRLF;
    settings.limit = 5;
    settings.skip = 2; /* not read */
    begin();
    give(YAML_C_SCALAR, "one", YAML_C_DONE, 0);
    give(YAML_C_DOCUMENT_END, "", YAML_C_DONE, 0);
    take("CR and LF", 5, "one\r\n");
    give(YAML_C_STREAM_END, "", YAML_C_DONE, 0);
    yaml_c_emitter_delete(emitter);
    settings.limit = 4;
    begin();
    give(YAML_C_SCALAR, "one", YAML_C_DONE, 0);
    give(YAML_C_DOCUMENT_END, "", YAML_C_REFUSED, YAML_C_PAST_LIMIT);
    take("up to the limit", 128, "one\r");
    yaml_c_emitter_delete(emitter);
    memset(&settings, 0, sizeof settings);
}

/* Scalars that keep their tags: tag, value, and flags that would say otherwise. */
static void typed(void) {
    static const char *const tags[] = {YAML_C_STR_TAG,  YAML_C_STR_TAG,  YAML_C_INT_TAG, YAML_C_INT_TAG, YAML_C_INT_TAG,
                                       YAML_C_BOOL_TAG, YAML_C_NULL_TAG, "!t",           NULL};
    static const char *const values[] = {"yes", "a", "3", "0x1F", "08", "true", "null", "no", "no"};
    size_t i;
    begin();
    give(YAML_C_SEQUENCE_START, "", YAML_C_DONE, 0);
    for (i = 0; i < sizeof values / sizeof values[0]; i++) {
        struct yaml_c_event event;
        char texts[64];
        memset(&event, 0, sizeof event);
        sprintf(texts, "%s%s", tags[i] ? tags[i] : "", values[i]);
        event.kind = YAML_C_SCALAR;
        event.implicit = event.quoted_implicit = event.typed = 1;
        event.has_tag = tags[i] != NULL;
        event.tag.length = event.value.start = strlen(texts) - strlen(values[i]);
        event.value.length = strlen(values[i]);
        gives(values[i], yaml_c_emitter_emit(emitter, &event, directives, 0, (const uint8_t *)texts, strlen(texts), &result), YAML_C_DONE, 0, 0);
    }
    give(YAML_C_SEQUENCE_END, "", YAML_C_DONE, 0);
    give(YAML_C_DOCUMENT_END, "", YAML_C_DONE, 0);
    take("types", 128, "- 'yes'\n- a\n- 3\n- 0x1F\n- !!int 08\n- true\n- null\n- !t no\n- no\n");
    yaml_c_emitter_delete(emitter);
}

/* Two emitters, by turns. */
static void two(void) {
    begin();
    give(YAML_C_SCALAR, "first", YAML_C_DONE, 0);
    emitter = &kept[1];
    begin();
    give(YAML_C_SCALAR, "second", YAML_C_DONE, 0);
    give(YAML_C_DOCUMENT_END, "", YAML_C_DONE, 0);
    take("the second", 128, "second\n");
    yaml_c_emitter_delete(emitter);
    emitter = &kept[0];
    give(YAML_C_DOCUMENT_END, "", YAML_C_DONE, 0);
    take("the first", 128, "first\n");
    yaml_c_emitter_delete(emitter);
}

/* NULL for settings, for directives and texts of which there are none, and for a buffer without room. */
static void nulls(void) {
    struct yaml_c_event start, item;
    memset(&start, 0, sizeof start);
    memset(&item, 0, sizeof item);
    memset(&result, 0, sizeof result);
    start.kind = YAML_C_STREAM_START;
    item.kind = YAML_C_ALIAS;
    gives("no settings", yaml_c_emitter_new(NULL, emitter), YAML_C_DONE, 0, 0);
    gives("no arrays", yaml_c_emitter_emit(emitter, &start, NULL, 0, NULL, 0, &result), YAML_C_DONE, 0, 0);
    gives("no room, and none needed", yaml_c_emitter_take_output(emitter, NULL, 0, &result), YAML_C_DONE, 0, 0);
    give(YAML_C_DOCUMENT_START, "", YAML_C_DONE, 0);
    give(YAML_C_SCALAR, "one", YAML_C_DONE, 0);
    give(YAML_C_DOCUMENT_END, "", YAML_C_DONE, 0);
    gives("no room", yaml_c_emitter_take_output(emitter, NULL, 0, &result), YAML_C_TOO_SMALL, 4, 0);
    item.anchor.length = 1;
    gives("a text of none", yaml_c_emitter_emit(emitter, &item, NULL, 0, NULL, 0, &result), YAML_C_BAD_EVENT, 0, 0);
    take("what didn't fit", 4, "one\n");
    yaml_c_emitter_delete(emitter);
}

/* A JSON text: its status, and the place that is reported. */
static void give_json(const char *text, int32_t status, uint32_t line, uint32_t column) {
    static struct yaml_c_json_settings by;
    int32_t got;
    by.values.depth = 2;
    memset(&result, 0xff, sizeof result);
    got = yaml_c_emitter_emit_json(emitter, (const uint8_t *)text, strlen(text), &by, &result);
    calls++;
    if (got == status && result.line == line && result.column == column && result.length == 0 && result.event == 0 && result.error == 0) return;
    failures++;
    printf("%s: status %d, line %lu, column %lu\n", text, (int)got, (unsigned long)result.line, (unsigned long)result.column);
}

/* JSON within events: as a value, as an item, in canonical form, and texts that aren't JSON. */
static void json(void) {
    settings = yaml_c_settings_for_values();
    begin();
    give(YAML_C_MAPPING_START, "", YAML_C_DONE, 0);
    give(YAML_C_SCALAR, "a", YAML_C_DONE, 0);
    give_json("[\"no\", 1e5]", YAML_C_DONE, 0, 0);
    give(YAML_C_SCALAR, "b", YAML_C_DONE, 0);
    give_json("\xff", YAML_C_NOT_JSON, 1, 1);
    give_json("{\"c\": true}", YAML_C_DONE, 0, 0);
    give(YAML_C_MAPPING_END, "", YAML_C_DONE, 0);
    give(YAML_C_DOCUMENT_END, "", YAML_C_DONE, 0);
    take("JSON among events", 128, "---\na:\n  - 'no'\n  - 1.0e+5\nb:\n  c: true\n");
    give(YAML_C_DOCUMENT_START, "", YAML_C_DONE, 0);
    give_json("[1, [2], [[", YAML_C_TOO_DEEP, 1, 11);
    take("nothing of it is flushed", 0, "");
    yaml_c_emitter_delete(emitter);
    begin();
    give_json("{\"a\": 1,\n \"a\": 2}", YAML_C_DUPLICATE_NAME, 2, 2);
    yaml_c_emitter_delete(emitter);
    begin();
    give_json("", YAML_C_NOT_JSON, 1, 1);
    yaml_c_emitter_delete(emitter);
    memset(&settings, 0, sizeof settings);
    settings.canonical = 1;
    begin();
    give_json("[1, null]", YAML_C_DONE, 0, 0);
    give(YAML_C_DOCUMENT_END, "", YAML_C_DONE, 0);
    take("with all tags", 128, "---\n[\n  !!int \"1\",\n  !!null \"null\",\n]\n");
    yaml_c_emitter_delete(emitter);
    memset(&settings, 0, sizeof settings);
}

int main(void) {
    json();
    typed();
    written();
    named();
    refused();
    set();
    two();
    nulls();
    return ended();
}
