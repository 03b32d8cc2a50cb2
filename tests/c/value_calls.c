/* Documents that are written value by value on a kept emitter: the status of each call, and the output, which is written here by the rules of
 * docs/GUIDE.md, "Values". Prints a line for each call that isn't as written here. */
#include <math.h>

#include "calls.h"

static struct yaml_c_emitter kept;
static struct yaml_c_emitter *emitter = &kept;
static struct yaml_c_settings settings;

/* Before each call the result holds other bytes than those that the call writes. */
static void done(const char *name, int32_t got) {
    gives(name, got, YAML_C_DONE, 0, 0);
    memset(&result, 0xff, sizeof result);
}

static void misplaced(const char *name, int32_t got) {
    gives(name, got, YAML_C_MISPLACED, 0, 0);
    memset(&result, 0xff, sizeof result);
}

static void unreadable(const char *name, int32_t got) {
    gives(name, got, YAML_C_BAD_EVENT, 0, 0);
    memset(&result, 0xff, sizeof result);
}

static void make(void) {
    memset(&result, 0, sizeof result);
    done("a new emitter", yaml_c_emitter_new(&settings, emitter));
}

static void text(const char *words) { done(words, yaml_c_emitter_string(emitter, words, &result)); }
static void number(int64_t value) { done("an integer", yaml_c_emitter_int(emitter, value, &result)); }
static void sequence(uint32_t style) { done("a sequence", yaml_c_emitter_begin_sequence(emitter, style, &result)); }
static void mapping(uint32_t style) { done("a mapping", yaml_c_emitter_begin_mapping(emitter, style, &result)); }
static void end(void) { done("an end", yaml_c_emitter_end(emitter, &result)); }
static void finish(void) { done("the end of the stream", yaml_c_emitter_finish(emitter, &result)); }

/* Takes the output, which must be these bytes, and frees the emitter. */
static void written(const char *bytes) {
    uint8_t out[1024];
    int32_t status = yaml_c_emitter_take_output(emitter, out, sizeof out, &result);
    calls++;
    if (status != YAML_C_DONE || result.length != strlen(bytes) || memcmp(out, bytes, result.length) != 0) {
        failures++;
        printf("in place of\n%s%.*s", bytes, status == YAML_C_DONE ? (int)result.length : 0, (const char *)out);
    }
    yaml_c_emitter_delete(emitter);
}

/* Texts: quoted if they read back as another type. */
static void texts(void) {
    make();
    sequence(0);
    text("a");
    text("two words");
    text("no");
    text("1.0");
    text("0x1F");
    text("~");
    text("2024-01-01");
    text("");
    text("# a");
    text("it's");
    text("\xc3\xa9");
    text("a\nb");
    done("a text with a zero", yaml_c_emitter_text(emitter, "a\0b", 3, &result));
    done("no text", yaml_c_emitter_text(emitter, NULL, 0, &result));
    end();
    finish();
    written("---\n- a\n- two words\n- 'no'\n- '1.0'\n- '0x1F'\n- '~'\n- '2024-01-01'\n- ''\n- '# a'\n- it's\n- \xc3\xa9\n- |-\n  a\n  b\n"
            "- \"a\\0b\"\n- ''\n");
}

/* Numbers, booleans and null. */
static void numbers(void) {
    static volatile double zero;
    static const double values[] = {0.5, 1, -0.0, 100, 1e9, 1e21, 1.5e-7, 1e100, 0.1, 5e-324};
    size_t i;
    make();
    sequence(0);
    number(0);
    number(-1);
    number(-9223372036854775807 - 1);
    number(9223372036854775807);
    done("the greatest", yaml_c_emitter_uint(emitter, 18446744073709551615u, &result));
    for (i = 0; i < sizeof values / sizeof values[0]; i++) done("a float", yaml_c_emitter_double(emitter, values[i], &result));
    done("infinity", yaml_c_emitter_double(emitter, HUGE_VAL, &result));
    done("negative infinity", yaml_c_emitter_double(emitter, -HUGE_VAL, &result));
    done("no number", yaml_c_emitter_double(emitter, zero / zero, &result));
    done("false", yaml_c_emitter_bool(emitter, 0, &result));
    done("true", yaml_c_emitter_bool(emitter, 1, &result));
    done("true", yaml_c_emitter_bool(emitter, 256, &result));
    done("null", yaml_c_emitter_null(emitter, &result));
    end();
    finish();
    written("---\n- 0\n- -1\n- -9223372036854775808\n- 9223372036854775807\n- 18446744073709551615\n- 0.5\n- 1.0\n- -0.0\n- 100.0\n"
            "- 1000000000.0\n- 1.0e+21\n- 1.5e-7\n- 1.0e+100\n- 0.1\n- 5.0e-324\n- .inf\n- -.inf\n- .nan\n- false\n- true\n- true\n- null\n");
}

/* Collections in collections, in each style, and empty ones. */
static void nested(void) {
    make();
    mapping(YAML_C_BLOCK);
    text("a");
    sequence(0);
    number(1);
    mapping(YAML_C_FLOW);
    text("b");
    number(2);
    text("c");
    sequence(0);
    end();
    end();
    sequence(0);
    number(3);
    end();
    end();
    text("d");
    mapping(0);
    end();
    text("e");
    sequence(YAML_C_FLOW);
    number(4);
    number(5);
    end();
    end();
    finish();
    written("---\na:\n  - 1\n  - {b: 2, c: []}\n  - - 3\nd: {}\ne: [4, 5]\n");
}

/* Calls that have no place: a status, and nothing changed. */
static void wrong(void) {
    make();
    misplaced("an end at the start", yaml_c_emitter_end(emitter, &result));
    misplaced("another document at the start", yaml_c_emitter_next_document(emitter, &result));
    misplaced("a finish at the start", yaml_c_emitter_finish(emitter, &result));
    unreadable("an unknown style", yaml_c_emitter_begin_mapping(emitter, 3, &result));
    unreadable("no UTF-8", yaml_c_emitter_text(emitter, "\xff", 1, &result));
    mapping(0);
    misplaced("another document in a mapping", yaml_c_emitter_next_document(emitter, &result));
    text("a");
    misplaced("an end after a key", yaml_c_emitter_end(emitter, &result));
    unreadable("an unknown style", yaml_c_emitter_begin_sequence(emitter, 3, &result));
    unreadable("no UTF-8", yaml_c_emitter_text(emitter, "\xc3", 1, &result));
    sequence(0);
    misplaced("a finish in a sequence", yaml_c_emitter_finish(emitter, &result));
    number(1);
    end();
    text("b");
    misplaced("an end after the second key", yaml_c_emitter_end(emitter, &result));
    number(2);
    end();
    misplaced("an end after the root", yaml_c_emitter_end(emitter, &result));
    misplaced("a second root", yaml_c_emitter_string(emitter, "c", &result));
    misplaced("a second root", yaml_c_emitter_begin_sequence(emitter, 0, &result));
    misplaced("a second root", yaml_c_emitter_null(emitter, &result));
    finish();
    misplaced("a value after the end", yaml_c_emitter_int(emitter, 3, &result));
    misplaced("an end after the end", yaml_c_emitter_end(emitter, &result));
    misplaced("a second finish", yaml_c_emitter_finish(emitter, &result));
    written("---\na:\n  - 1\nb: 2\n");
}

/* Several documents, of which each is flushed at its end. */
static void documents(void) {
    uint8_t out[8];
    make();
    text("one");
    done("the next document", yaml_c_emitter_next_document(emitter, &result));
    calls++;
    if (yaml_c_emitter_take_output(emitter, out, sizeof out, &result) != YAML_C_DONE || result.length != 8 || memcmp(out, "--- one\n", 8) != 0) {
        failures++;
        puts("the first document isn't flushed");
    }
    misplaced("a finish without a root", yaml_c_emitter_finish(emitter, &result));
    sequence(YAML_C_FLOW);
    end();
    done("the next document", yaml_c_emitter_next_document(emitter, &result));
    number(3);
    finish();
    written("--- []\n--- 3\n");
}

/* Without the settings for values: as libyaml writes, but for the quotes. */
static void plain(void) {
    memset(&settings, 0, sizeof settings);
    make();
    mapping(0);
    text("on");
    sequence(0);
    text("1");
    number(1);
    end();
    end();
    finish();
    written("'on':\n- '1'\n- 1\n");
    settings.canonical = 1;
    make();
    sequence(0);
    number(1);
    done("a float", yaml_c_emitter_double(emitter, 1, &result));
    done("true", yaml_c_emitter_bool(emitter, 1, &result));
    done("null", yaml_c_emitter_null(emitter, &result));
    text("a");
    end();
    finish();
    written("---\n[\n  !!int \"1\",\n  !!float \"1.0\",\n  !!bool \"true\",\n  !!null \"null\",\n  \"a\",\n]\n");
}

/* An emitter that failed: each later call tells the same. */
static void failing(void) {
    settings = yaml_c_settings_for_values();
    settings.limit = 6;
    make();
    text("one");
    gives("the limit", yaml_c_emitter_finish(emitter, &result), YAML_C_REFUSED, 0, YAML_C_PAST_LIMIT);
    gives("a text after the limit", yaml_c_emitter_string(emitter, "a", &result), YAML_C_REFUSED, 0, YAML_C_PAST_LIMIT);
    gives("an end after the limit", yaml_c_emitter_end(emitter, &result), YAML_C_REFUSED, 0, YAML_C_PAST_LIMIT);
    gives("a mapping after the limit", yaml_c_emitter_begin_mapping(emitter, 0, &result), YAML_C_REFUSED, 0, YAML_C_PAST_LIMIT);
    written("--- on");
    settings.limit = 0;
}

/* After an event or a JSON text the program keeps the places itself. */
static void mixed(void) {
    struct yaml_c_event event;
    memset(&event, 0, sizeof event);
    make();
    event.kind = YAML_C_STREAM_START;
    done("the start", yaml_c_emitter_emit(emitter, &event, NULL, 0, NULL, 0, &result));
    misplaced("a value among events", yaml_c_emitter_int(emitter, 1, &result));
    misplaced("a mapping among events", yaml_c_emitter_begin_mapping(emitter, 0, &result));
    event.kind = YAML_C_DOCUMENT_START;
    event.implicit = 1;
    done("a document", yaml_c_emitter_emit(emitter, &event, NULL, 0, NULL, 0, &result));
    done("a text of JSON", yaml_c_emitter_emit_json(emitter, (const uint8_t *)"[1]", 3, NULL, &result));
    event.kind = YAML_C_DOCUMENT_END;
    done("its end", yaml_c_emitter_emit(emitter, &event, NULL, 0, NULL, 0, &result));
    written("---\n- 1\n");
}

int main(void) {
    settings = yaml_c_settings_for_values();
    texts();
    numbers();
    nested();
    wrong();
    documents();
    mixed();
    failing();
    plain();
    return ended();
}
