/* Keeps an emitter from call to call: events are given one by one, and the flushed bytes are written after each document, and once within
 * one. */
#include <stdio.h>
#include <string.h>

#include "yaml_c.h"

static struct yaml_c_emitter emitter;
static struct yaml_c_result result;

/* Gives an event other than a scalar. */
static int give(uint32_t kind) {
    struct yaml_c_event event = {.kind = kind, .implicit = 1};
    return yaml_c_emitter_emit(&emitter, &event, NULL, 0, NULL, 0, &result) == YAML_C_DONE;
}

/* Gives a text, which stays a text: "yes" is written in quotes, since it would be read as true without them. */
static int give_text(const char *text) {
    static const char tag[] = YAML_C_STR_TAG;
    uint8_t texts[64];
    size_t tag_length = sizeof tag - 1, length = strlen(text);
    if (tag_length + length > sizeof texts) return 0;
    memcpy(texts, tag, tag_length);
    memcpy(texts + tag_length, text, length);
    struct yaml_c_event event = {
        .kind = YAML_C_SCALAR, .typed = 1, .has_tag = 1, .tag = {0, tag_length}, .value = {tag_length, length}};
    return yaml_c_emitter_emit(&emitter, &event, NULL, 0, texts, tag_length + length, &result) == YAML_C_DONE;
}

/* Writes the flushed bytes, and their number. */
static int write_flushed(void) {
    uint8_t out[64];
    if (yaml_c_emitter_take_output(&emitter, out, sizeof out, &result) != YAML_C_DONE) return 0;
    return fwrite(out, 1, result.length, stdout) == result.length && printf(" # %zu bytes\n", result.length) > 0;
}

/* Writes the part of a document that isn't ended. */
static int write_so_far(void) { return yaml_c_emitter_flush(&emitter, &result) == YAML_C_DONE && write_flushed(); }

static int give_document(const char *first, const char *second) {
    return give(YAML_C_DOCUMENT_START) && give(YAML_C_SEQUENCE_START) && give_text(first) && give_text(second)
        && give(YAML_C_SEQUENCE_END) && give(YAML_C_DOCUMENT_END);
}

int main(void) {
    if (yaml_c_emitter_new(NULL, &emitter) != YAML_C_DONE) return 1;
    int done = give(YAML_C_STREAM_START);
    done = done && give_document("one", "yes") && write_flushed() && give_document("two", "x: y") && write_flushed();
    done = done && give(YAML_C_DOCUMENT_START) && give(YAML_C_SEQUENCE_START) && give_text("three");
    done = done && give_text("four") && write_so_far();
    done = done && give_text("five") && give(YAML_C_SEQUENCE_END) && give(YAML_C_DOCUMENT_END) && write_flushed();
    if (done && !give_text("six")) printf("refused: %s\n", yaml_c_error_text(result.error));
    yaml_c_emitter_delete(&emitter);
    return !done;
}
