/* Random streams through the drop-in for libyaml, flushed now and then, and the same events in one call of yaml_c_emit: the same bytes. */
#include <stdio.h>
#include <stdlib.h>
#include <string.h>
#include <yaml.h>

#include "yaml_c.h"

#define STREAMS 20000

static const char *const values[] = {"", "a", "...", "x ...", "\n", "a\n", "a\n\n", "\n\n", "a\n...", "...\n", "a\n...\n\n", "some words that are folded where lines are short",
    "- ...", "\xc3\xa9\n\n", " a\n\n"};
static yaml_tag_directive_t tag_directive = {(yaml_char_t *)"!e!", (yaml_char_t *)"tag:e,2000:"};

static struct yaml_c_event records[64];
static size_t count;
static uint8_t arena[4096];
static size_t arena_length;
static uint8_t one_call[65536], by_drop_in[65536];

static uint32_t chosen(uint32_t below) {
    static uint64_t state = 1;
    state = state * 6364136223846793005u + 1442695040888963407u;
    return (uint32_t)(state >> 33) % below;
}

static struct yaml_c_span place(const char *text) {
    struct yaml_c_span span = {arena_length, strlen(text)};
    memcpy(arena + arena_length, text, span.length);
    arena_length += span.length;
    return span;
}

static struct yaml_c_event *record(uint32_t kind) {
    struct yaml_c_event *last = &records[count++];
    memset(last, 0, sizeof *last);
    last->kind = kind;
    return last;
}

/* Gives an event to the drop-in. */
static void give(yaml_emitter_t *emitter, yaml_event_t *event, int made) {
    if (!made || !yaml_emitter_emit(emitter, event) || (chosen(8) == 0 && !yaml_emitter_flush(emitter))) {
        printf("the drop-in: error %d, %s\n", emitter->error, emitter->problem ? emitter->problem : "no problem");
        exit(1);
    }
}

static void scalar(yaml_emitter_t *emitter) {
    const char *value = values[chosen(sizeof values / sizeof *values)];
    struct yaml_c_event *last = record(YAML_SCALAR_EVENT);
    yaml_event_t event;
    last->style = chosen(6);
    last->implicit = last->quoted_implicit = 1;
    last->value = place(value);
    give(emitter, &event, yaml_scalar_event_initialize(&event, NULL, NULL, (const yaml_char_t *)value, (int)strlen(value), 1, 1, (yaml_scalar_style_t)last->style));
}

static void document(yaml_emitter_t *emitter) {
    yaml_version_directive_t version = {1, 1};
    int has_version = chosen(3) == 0, has_tag = chosen(3) == 0, start = (int)chosen(2), end = (int)chosen(2);
    uint32_t items = chosen(4);
    struct yaml_c_event *last = record(YAML_DOCUMENT_START_EVENT);
    yaml_event_t event;
    last->implicit = (uint32_t)start, last->has_version = (uint32_t)has_version, last->major = last->minor = 1;
    last->directives.length = (size_t)has_tag;
    give(emitter, &event, yaml_document_start_event_initialize(&event, has_version ? &version : NULL, &tag_directive, &tag_directive + has_tag, start));
    if (items == 0) scalar(emitter);
    else {
        record(YAML_SEQUENCE_START_EVENT)->implicit = 1;
        give(emitter, &event, yaml_sequence_start_event_initialize(&event, NULL, NULL, 1, YAML_ANY_SEQUENCE_STYLE));
        while (--items) scalar(emitter);
        record(YAML_SEQUENCE_END_EVENT);
        give(emitter, &event, yaml_sequence_end_event_initialize(&event));
    }
    record(YAML_DOCUMENT_END_EVENT)->implicit = (uint32_t)end;
    give(emitter, &event, yaml_document_end_event_initialize(&event, end));
}

/* Whether a stream is the same by both. */
static int is_same(void) {
    static struct yaml_c_directive directives[1];
    struct yaml_c_settings settings = {.encoding = chosen(4), .line_break = chosen(4), .canonical = chosen(6) == 0, .unicode = chosen(2), .indent = (int32_t)chosen(10)};
    uint32_t documents = chosen(6);
    struct yaml_c_result result;
    yaml_emitter_t emitter;
    yaml_event_t event;
    size_t length;
    settings.width = (int32_t)chosen(3) * 40 - 1;
    count = arena_length = 0;
    directives[0].handle = place("!e!"), directives[0].prefix = place("tag:e,2000:");
    if (!yaml_emitter_initialize(&emitter) || emitter.buffer.end != NULL) exit(2); /* libyaml sets this pointer, the drop-in doesn't */
    yaml_emitter_set_output_string(&emitter, by_drop_in, sizeof by_drop_in, &length);
    emitter.encoding = (yaml_encoding_t)settings.encoding, emitter.line_break = (yaml_break_t)settings.line_break;
    emitter.canonical = (int)settings.canonical, emitter.unicode = (int)settings.unicode;
    emitter.best_indent = settings.indent, emitter.best_width = settings.width;
    record(YAML_STREAM_START_EVENT)->style = chosen(4);
    give(&emitter, &event, yaml_stream_start_event_initialize(&event, (yaml_encoding_t)records[0].style));
    while (documents--) document(&emitter);
    record(YAML_STREAM_END_EVENT);
    give(&emitter, &event, yaml_stream_end_event_initialize(&event));
    yaml_emitter_delete(&emitter);
    return yaml_c_emit(records, count, directives, 1, arena, arena_length, &settings, one_call, sizeof one_call, &result) == YAML_C_DONE
        && result.length == length && memcmp(one_call, by_drop_in, length) == 0;
}

int main(void) {
    int i, others = 0;
    for (i = 0; i < STREAMS; i++) others += !is_same();
    printf("clients: %d streams by the drop-in, %d of them otherwise than in one call\n", STREAMS, others);
    return others != 0;
}
