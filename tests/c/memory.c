/* Calls in which one allocation is refused, each in turn: what they return, what they leave of the buffer and of an emitter, and that
 * nothing stays in memory; a line for each that isn't as the header says. Linked with --wrap for malloc, realloc and free. */
#include <stdio.h>
#include <stdlib.h>
#include <string.h>

#include "refusing.h"
#include "yaml_c.h"

static int failures;

static void fail(const char *name, const char *what) {
    failures++;
    printf("%s, allocation %lu: %s\n", name, (unsigned long)refused_at, what);
}

static uint8_t out[4096];
static struct yaml_c_result result;

/* ---- calls that keep nothing */

#define LETTERS "aaaaaaaaaaaaaaaaaaaaaaaaaaaaaaaaaaaaaaaaaaaaaaaaaaaaaaaaaaaaaaaaaaaaaaaaaaaaaaaaaaaaaaaaaaaaaaaaaaaa"

/* The arena, with spans by their first bytes and lengths. */
static const char texts[] = "!e!" "tag:e,2000:" "root" "tag:e,2000:list" "first" LETTERS LETTERS LETTERS LETTERS;
static struct yaml_c_directive directives[1];
static struct yaml_c_event events[12];
static size_t count;

static struct yaml_c_event *event(uint32_t kind) {
    struct yaml_c_event *last = &events[count++];
    last->kind = kind;
    last->implicit = last->quoted_implicit = 1;
    return last;
}

static struct yaml_c_span span(size_t start, size_t length) {
    struct yaml_c_span named;
    named.start = start;
    named.length = length;
    return named;
}

/* A document with a version and a directive; a list with an anchor and a tag; a short text, which the list's start waits for, and
 * long ones. */
static void fill(void) {
    struct yaml_c_event *last;
    directives[0].handle = span(0, 3);
    directives[0].prefix = span(3, 11);
    event(YAML_C_STREAM_START);
    last = event(YAML_C_DOCUMENT_START);
    last->has_version = last->major = last->minor = 1;
    last->directives = span(0, 1);
    last = event(YAML_C_SEQUENCE_START);
    last->implicit = 0;
    last->has_anchor = last->has_tag = 1;
    last->anchor = span(14, 4);
    last->tag = span(18, 15);
    event(YAML_C_SCALAR)->value = span(33, 5);
    event(YAML_C_SCALAR)->value = span(38, 400);
    event(YAML_C_ALIAS)->anchor = span(14, 4);
    event(YAML_C_SCALAR)->value = span(38, 399);
    event(YAML_C_SEQUENCE_END);
    event(YAML_C_DOCUMENT_END);
    event(YAML_C_STREAM_END);
}

static int32_t emit(size_t capacity) {
    static struct yaml_c_settings settings;
    settings.width = -1;
    return yaml_c_emit(events, count, directives, 1, (const uint8_t *)texts, sizeof texts - 1, &settings, out, capacity, &result);
}

static int32_t run(size_t capacity) {
    static const char script[] =
        "+STR any\n+DOC 1 -\n+SEQ any 1 - -\n=VAL any 1 1 - - \"first\"\n=VAL any 1 1 - - \"" LETTERS LETTERS "\"\n-SEQ\n-DOC 1\n-STR\n";
    return yaml_c_run((const uint8_t *)script, sizeof script - 1, out, capacity, &result);
}

static int32_t from_json(size_t capacity) {
    static const struct yaml_c_json_settings settings = {{0, 0, 0, 0, 0, 0, 0, 0, 0, 0, 0}, 0};
    static const char text[] = "{\"first\": [1, {\"a\\tb\": \"" LETTERS "\"}], \"second\": \"" LETTERS LETTERS "\"}";
    return yaml_c_from_json((const uint8_t *)text, sizeof text - 1, &settings, out, capacity, &result);
}

static int32_t from_toml(size_t capacity) {
    static const struct yaml_c_value_settings settings = {0, 0, 0, 0, 0, 0, 0, 0, 0, 0, 0};
    static const char text[] = "first = [1, {\"a\\tb\" = \"" LETTERS "\"}]\n[second]\nthird.fourth = \"" LETTERS LETTERS "\"\n";
    return yaml_c_from_toml((const uint8_t *)text, sizeof text - 1, &settings, out, capacity, &result);
}

/* A map with a list and a map as keys. */
static int32_t is_canonical(size_t capacity) {
    static const struct yaml_c_canonical_settings settings = {0};
    static const char bytes[] =
        "---\n!!map {\n  ? !!seq [\n    !!int \"1\",\n  ]\n  : !!null \"null\",\n  ? !!map {\n    ? !!str \"" LETTERS "\"\n    : !!int \"1\",\n  }\n"
        "  : !!str \"a\\tb\",\n}\n";
    (void)capacity;
    return yaml_c_is_canonical((const uint8_t *)bytes, sizeof bytes - 1, &settings, &result);
}

static int32_t canonical_from_json(size_t capacity) {
    static const struct yaml_c_canonical_settings settings = {0};
    static const char text[] = "{\"first\": [1, {\"a\\tb\": \"" LETTERS "\"}], \"second\": \"" LETTERS LETTERS "\"}";
    return yaml_c_canonical_from_json((const uint8_t *)text, sizeof text - 1, &settings, out, capacity, &result);
}

static int32_t comment_lines(size_t capacity) {
    static const char text[] = LETTERS "\n\n" LETTERS LETTERS LETTERS;
    return yaml_c_comment_lines(text, sizeof text - 1, out, capacity, &result);
}

static int32_t give_kind(struct yaml_c_emitter *kept, uint32_t kind) {
    struct yaml_c_event event;
    memset(&event, 0, sizeof event);
    event.kind = kind;
    event.implicit = 1;
    return yaml_c_emitter_emit(kept, &event, NULL, 0, NULL, 0, &result);
}

/* The same text, given to an emitter that is kept. */
static int32_t json_in_stream(size_t capacity) {
    static const char text[] = "{\"first\": [1, {\"a\\tb\": \"" LETTERS "\"}], \"second\": \"" LETTERS LETTERS "\"}";
    struct yaml_c_emitter kept;
    struct yaml_c_settings settings = yaml_c_settings_for_values();
    int32_t status = yaml_c_emitter_new(&settings, &kept);
    memset(&result, 0, sizeof result);
    if (status != YAML_C_DONE) return status;
    status = give_kind(&kept, YAML_C_STREAM_START);
    if (status == YAML_C_DONE) status = give_kind(&kept, YAML_C_DOCUMENT_START);
    if (status == YAML_C_DONE) status = yaml_c_emitter_emit_json(&kept, (const uint8_t *)text, sizeof text - 1, NULL, &result);
    if (status == YAML_C_DONE) status = give_kind(&kept, YAML_C_DOCUMENT_END);
    if (status == YAML_C_DONE) status = give_kind(&kept, YAML_C_STREAM_END);
    if (status == YAML_C_DONE) status = yaml_c_emitter_take_output(&kept, out, capacity, &result);
    yaml_c_emitter_delete(&kept);
    return status;
}

/* Whether nothing is reported of a call that memory ran out for, but of yaml_c_emit the event, none before `event`; and the buffer is as
 * it was. */
static int says_nothing_else(uint64_t event) {
    size_t i;
    for (i = 0; i < sizeof out && out[i] == 0xa5; i++) {}
    return i == sizeof out && result.length == 0 && result.line == 0 && result.column == 0
        && (result.error == 0 ? result.event == 0 && event == 0 : result.error == YAML_C_EMITTER_NO_MEMORY && result.event >= event && result.event < count);
}

/* Refuses the first growth of a call, then the second, and so on, until none is left to refuse. Returns the last event that is reported. */
static uint64_t refuse_each(const char *name, int32_t (*call)(size_t capacity)) {
    static uint8_t whole[sizeof out];
    uint64_t event = 0;
    size_t length;
    int32_t status;
    refused_at = 0;
    if (call(sizeof out) != YAML_C_DONE) fail(name, "not done");
    memcpy(whole, out, sizeof out);
    length = result.length;
    for (refused_at = 1;; refused_at++) {
        growths = 0;
        memset(out, 0xa5, sizeof out);
        memset(&result, 0xff, sizeof result);
        status = call(sizeof out);
        if (blocks != 0) fail(name, "a block is left");
        if (growths < refused_at) break;
        if (status != YAML_C_NO_MEMORY) fail(name, "another status");
        if (!says_nothing_else(event)) fail(name, "something else is reported or written");
        if (call != emit && call != json_in_stream && result.error != 0) fail(name, "an error is reported");
        event = result.event;
    }
    if (refused_at < 3) fail(name, "too few allocations");
    if (status != YAML_C_DONE || result.length != length || memcmp(out, whole, length) != 0) fail(name, "other YAML although none is refused");
    return event;
}

/* ---- kept emitters */

static struct yaml_c_emitter emitter;
static uint8_t taken[sizeof out];
static size_t taken_length;

/* The calls that were refused a growth. */
static int refused_new, refused_texts, refused_events, refused_flushes;

static void take(void) {
    if (yaml_c_emitter_take_output(&emitter, taken + taken_length, sizeof taken - taken_length, &result) != YAML_C_DONE)
        fail("a kept emitter", "its output isn't taken");
    taken_length += result.length;
}

/* The status of a call, which reports nothing but an error with YAML_C_NO_MEMORY. */
static int32_t reported(int32_t status) {
    int has_error = result.error == YAML_C_EMITTER_NO_MEMORY && status == YAML_C_NO_MEMORY;
    if (result.length || result.event || result.line || result.column || (result.error && !has_error)) fail("a kept emitter", "something else is reported");
    return status;
}

static int32_t give(size_t number) {
    memset(&result, 0xff, sizeof result);
    return reported(yaml_c_emitter_emit(&emitter, &events[number], directives, 1, (const uint8_t *)texts, sizeof texts - 1, &result));
}

static int32_t flush(void) {
    memset(&result, 0xff, sizeof result);
    return reported(yaml_c_emitter_flush(&emitter, &result));
}

/* After an error of the emitter each call returns it, and no byte comes. */
static void expect_ended(void) {
    size_t i, length;
    take();
    length = taken_length;
    for (i = 0; i < count; i++)
        if (give(i) != YAML_C_NO_MEMORY) fail("a kept emitter", "it goes on after an error");
    if (flush() != YAML_C_NO_MEMORY || result.error != YAML_C_EMITTER_NO_MEMORY) fail("a kept emitter", "it flushes after an error");
    take();
    if (taken_length != length) fail("a kept emitter", "it writes after an error");
}

/* Gives all events, flushing and taking after each or not; one that wasn't taken is given again. Returns whether all were taken. */
static int give_all(int flushes) {
    size_t i;
    for (i = 0; i < count; i++) {
        int32_t status = give(i);
        if (status == YAML_C_NO_MEMORY && result.error == 0) {
            refused_texts++;
            status = give(i);
        }
        if (status != YAML_C_DONE) {
            if (status != YAML_C_NO_MEMORY) fail("a kept emitter", "another status");
            refused_events++;
            return 0;
        }
        if (flushes && flush() != YAML_C_DONE) {
            size_t length = taken_length;
            refused_flushes++;
            take();
            if (taken_length != length) fail("a flush", "the output isn't as it was");
            return 0;
        }
        if (flushes) take();
    }
    return 1;
}

/* Refuses the first growth of an emitter, then the second, and so on; it writes `whole`, or after an error what that begins with. */
static void refuse_each_of_kept(int flushes, const uint8_t *whole, size_t length) {
    static struct yaml_c_settings settings;
    int32_t made;
    settings.width = -1;
    for (refused_at = 1;; refused_at++) {
        growths = taken_length = 0;
        made = yaml_c_emitter_new(&settings, &emitter);
        if (made == YAML_C_DONE) {
            int is_whole = give_all(flushes);
            if (!is_whole) expect_ended();
            take();
            if (taken_length > length || memcmp(taken, whole, taken_length) != 0) fail("a kept emitter", "other YAML");
            if (is_whole && taken_length != length) fail("a kept emitter", "not all YAML");
            yaml_c_emitter_delete(&emitter);
        } else {
            refused_new++;
            if (made != YAML_C_NO_MEMORY) fail("a new emitter", "another status");
        }
        if (blocks != 0) fail("a kept emitter", "a block is left");
        if (growths < refused_at) break;
    }
}

/* Expects that an emitter has failed for good: each call tells it. */
static void expect_failed(struct yaml_c_emitter *kept) {
    const char *name = "yaml_c_emitter_emit_json, after a refusal within the text";
    if (yaml_c_emitter_emit_json(kept, (const uint8_t *)"1", 1, NULL, &result) != YAML_C_NO_MEMORY || result.error != YAML_C_EMITTER_NO_MEMORY)
        fail(name, "another text is taken");
    if (give_kind(kept, YAML_C_DOCUMENT_END) != YAML_C_NO_MEMORY || result.error != YAML_C_EMITTER_NO_MEMORY) fail(name, "an event is taken");
    if (yaml_c_emitter_flush(kept, &result) != YAML_C_NO_MEMORY || result.error != YAML_C_EMITTER_NO_MEMORY) fail(name, "it is flushed");
    if (yaml_c_emitter_take_output(kept, out, sizeof out, &result) != YAML_C_DONE || result.length != 0) fail(name, "there is output");
}

/* Gives the emitter a text, which may follow the start of a list. */
static int32_t give_json(struct yaml_c_emitter *kept, const char *text) {
    memset(&result, 0xff, sizeof result);
    return yaml_c_emitter_emit_json(kept, (const uint8_t *)text, strlen(text), NULL, &result);
}

/* Begins a document, and in it a list if that is asked for. */
static int begin_document(struct yaml_c_emitter *kept, int in_list) {
    return give_kind(kept, YAML_C_STREAM_START) == YAML_C_DONE && give_kind(kept, YAML_C_DOCUMENT_START) == YAML_C_DONE
        && (!in_list || give_kind(kept, YAML_C_SEQUENCE_START) == YAML_C_DONE);
}

/* Ends the document, unless that is refused its memory, and takes its YAML. Returns whether it is ended. */
static int end_document(struct yaml_c_emitter *kept, const char *text, int in_list) {
    if ((in_list && give_kind(kept, YAML_C_SEQUENCE_END) != YAML_C_DONE) || give_kind(kept, YAML_C_DOCUMENT_END) != YAML_C_DONE) {
        if (growths < refused_at || result.error != YAML_C_EMITTER_NO_MEMORY) fail(text, "its document isn't ended");
        return 0;
    }
    if (yaml_c_emitter_take_output(kept, out, sizeof out, &result) != YAML_C_DONE) fail(text, "its YAML isn't taken");
    return 1;
}

/* Refuses each growth of a call with a text in turn. Without an error the text is given again, and its YAML is whole; with one the emitter
 * has failed. Counts both. */
static void refuse_each_of_text(const char *text, int in_list, int *again, int *failed) {
    static uint8_t whole[sizeof out];
    struct yaml_c_settings settings = yaml_c_settings_for_values();
    struct yaml_c_emitter kept;
    size_t length = 0;
    *again = *failed = 0;
    for (refused_at = 0;; refused_at++) {
        growths = 0;
        if (yaml_c_emitter_new(&settings, &kept) != YAML_C_DONE) continue;
        if (begin_document(&kept, in_list)) {
            int32_t status = give_json(&kept, text);
            if (status == YAML_C_NO_MEMORY && result.error == 0) {
                ++*again;
                status = give_json(&kept, text);
                if (status != YAML_C_DONE) fail(text, "it isn't written although memory ran out before");
            }
            if (status == YAML_C_NO_MEMORY) {
                ++*failed;
                expect_failed(&kept);
            } else if (status != YAML_C_DONE) {
                fail(text, "another status");
            } else if (end_document(&kept, text, in_list)) {
                if (refused_at == 0) memcpy(whole, out, length = result.length);
                if (result.length != length || memcmp(out, whole, length) != 0) fail(text, "other YAML");
            }
        }
        yaml_c_emitter_delete(&kept);
        if (blocks != 0) fail(text, "a block is left");
        if (growths < refused_at) break;
    }
}

/* A text that needs no memory of its own is given again only if the call's own growths are refused; the others also if their first token or
 * the lists of what is open need memory, or a text that waits for its place in a list. Texts of several tokens are refused more growths once
 * an event was given than those that the emitter needs. */
static void refuse_each_of_texts(void) {
    static const char *const texts_of_json[] = {"[\"a\\u0041\", {\"b\": [1, \"c\\u0041\"]}]", "{\"a\\u0041\": [{\"b\": 1}]}", "\"a\\u0041\"", "[]"};
    int least, own, again, failed;
    size_t i;
    refuse_each_of_text("1", 0, &least, &own);
    if (least == 0 || own == 0) fail("1", "no growth of the call or of the emitter is refused");
    refuse_each_of_text("\"" LETTERS "\"", 1, &again, &failed);
    if (again <= least) fail("a text in a list", "its copy isn't refused");
    for (i = 0; i < sizeof texts_of_json / sizeof *texts_of_json; i++) {
        refuse_each_of_text(texts_of_json[i], 0, &again, &failed);
        if (again <= least) fail(texts_of_json[i], "no growth is refused between its start and the first event");
        if (i < 2 && failed <= own) fail(texts_of_json[i], "no growth is refused within it");
    }
}

/* ---- values */

/* Frees an emitter after calls of which the last had this status. Either the emitter failed for want of memory, and `more` tells it again, or
 * its output is this. Returns whether it failed. */
static int has_failed(const char *name, struct yaml_c_emitter *kept, int32_t status, int32_t (*more)(struct yaml_c_emitter *), const char *yaml) {
    int failed = status == YAML_C_NO_MEMORY && result.error == YAML_C_EMITTER_NO_MEMORY;
    size_t length = strlen(yaml);
    if (failed) {
        if (more(kept) != YAML_C_NO_MEMORY || result.error != YAML_C_EMITTER_NO_MEMORY) fail(name, "more is taken");
    } else if (status != YAML_C_DONE) {
        fail(name, "another status");
    } else if (yaml_c_emitter_take_output(kept, out, sizeof out, &result) != YAML_C_DONE || result.length != length || memcmp(out, yaml, length) != 0) {
        fail(name, "other YAML");
    }
    yaml_c_emitter_delete(kept);
    return failed;
}

/* Makes the call of this number, of those that write a mapping. */
static int32_t give_value(struct yaml_c_emitter *kept, int number) {
    memset(&result, 0xff, sizeof result);
    switch (number) {
    case 0: return yaml_c_emitter_begin_mapping(kept, YAML_C_BLOCK, &result);
    case 1: return yaml_c_emitter_string(kept, "a", &result);
    case 2: return yaml_c_emitter_begin_sequence(kept, YAML_C_BLOCK, &result);
    case 3: return yaml_c_emitter_double(kept, 1e21, &result);
    case 4: return yaml_c_emitter_string(kept, LETTERS, &result);
    case 5: case 6: return yaml_c_emitter_end(kept, &result);
    default: return yaml_c_emitter_finish(kept, &result);
    }
}

static int32_t give_name(struct yaml_c_emitter *kept) { return give_value(kept, 1); }

/* Refuses each growth of these calls in turn. Without an error a call is made again, and the YAML is whole; with one the emitter has failed. */
static void refuse_each_of_values(void) {
    static const char yaml[] = "---\na:\n  - 1.0e+21\n  - " LETTERS "\n";
    struct yaml_c_settings settings = yaml_c_settings_for_values();
    struct yaml_c_emitter kept;
    int again = 0, failed = 0;
    for (refused_at = 1;; refused_at++) {
        growths = 0;
        if (yaml_c_emitter_new(&settings, &kept) == YAML_C_DONE) {
            int32_t status = YAML_C_DONE;
            int number;
            for (number = 0; number < 8 && status == YAML_C_DONE; number++) {
                status = give_value(&kept, number);
                if (status != YAML_C_NO_MEMORY || result.error != 0) continue;
                again++;
                status = give_value(&kept, number);
            }
            failed += has_failed("values", &kept, status, give_name, yaml);
        }
        if (blocks != 0) fail("values", "a block is left");
        if (growths < refused_at) break;
    }
    if (again == 0 || failed == 0) fail("values", "no growth of a call or of the emitter is refused");
}

/* ---- nodes */

/* Gives a mapping of a shared text to a sequence, with a tag, of that text and another one, twice. */
static int32_t give_nodes(struct yaml_c_emitter *kept) {
    static const char node_texts[] = "first" "!mine" LETTERS LETTERS;
    static const int32_t numbers[] = {2, 3, 2, 4, 4};
    static struct yaml_c_node nodes[4];
    nodes[0].kind = YAML_C_MAPPING_NODE;
    nodes[0].content = span(0, 2);
    nodes[1].kind = nodes[3].kind = YAML_C_SCALAR_NODE;
    nodes[1].content = span(0, 5);
    nodes[2].kind = YAML_C_SEQUENCE_NODE;
    nodes[2].has_tag = 1;
    nodes[2].tag = span(5, 5);
    nodes[2].content = span(2, 3);
    nodes[3].content = span(10, sizeof node_texts - 11);
    memset(&result, 0xff, sizeof result);
    return yaml_c_emitter_dump(kept, nodes, 4, numbers, 5, (const uint8_t *)node_texts, sizeof node_texts - 1, &result);
}

/* Refuses each growth of the call and of the stream's end in turn. Without an error nothing changed, and the call is made again. */
static void refuse_each_of_nodes(void) {
    static const char yaml[] = "---\n&id001 first: !mine\n  - *id001\n  - &id002 " LETTERS LETTERS "\n  - *id002\n";
    struct yaml_c_settings settings = yaml_c_settings_for_values();
    struct yaml_c_emitter kept;
    int again = 0, failed = 0;
    for (refused_at = 1;; refused_at++) {
        growths = 0;
        if (yaml_c_emitter_new(&settings, &kept) == YAML_C_DONE) {
            int32_t status = give_nodes(&kept);
            if (status == YAML_C_NO_MEMORY && result.error == 0) {
                again++;
                if (yaml_c_emitter_finish(&kept, &result) != YAML_C_MISPLACED) fail("nodes", "a document is opened");
                status = give_nodes(&kept);
            }
            if (status == YAML_C_DONE) status = yaml_c_emitter_finish(&kept, &result);
            failed += has_failed("nodes", &kept, status, give_nodes, yaml);
        }
        if (blocks != 0) fail("nodes", "a block is left");
        if (growths < refused_at) break;
    }
    if (again == 0 || failed == 0) fail("nodes", "no growth of the call or of the emitter is refused");
}

int main(void) {
    static uint8_t whole[sizeof out];
    size_t length;
    fill();
    if (refuse_each("yaml_c_emit", emit) == 0) fail("yaml_c_emit", "no event is reported");
    memcpy(whole, out, sizeof out);
    length = result.length;
    refuse_each_of_kept(0, whole, length);
    refuse_each_of_kept(1, whole, length);
    refuse_each("yaml_c_run", run);
    refuse_each("yaml_c_from_json", from_json);
    refuse_each("yaml_c_from_toml", from_toml);
    refuse_each("yaml_c_is_canonical", is_canonical);
    refuse_each("yaml_c_canonical_from_json", canonical_from_json);
    refuse_each("yaml_c_emitter_emit_json", json_in_stream);
    refuse_each_of_texts();
    refuse_each_of_values();
    refuse_each("yaml_c_comment_lines", comment_lines);
    refuse_each_of_nodes();
    if (!refused_new || !refused_texts || !refused_events || !refused_flushes)
        printf("refused: %d new, %d texts, %d events, %d flushes\n", refused_new, refused_texts, refused_events, refused_flushes);
    printf("each allocation refused in turn: %d times not as written\n", failures);
    return failures != 0;
}
