/* Writes JSON texts as the documents of a stream. Each text is converted once, and the output is taken after each. Before a text that isn't
 * JSON all documents are written. */
#include <inttypes.h>
#include <stdio.h>
#include <stdlib.h>
#include <string.h>

#include "yaml_c.h"

static struct yaml_c_emitter emitter;
static struct yaml_c_result result;

/* Gives an event that has no text. */
static int give(uint32_t kind) {
    struct yaml_c_event event = {.kind = kind, .implicit = 1};
    return yaml_c_emitter_emit(&emitter, &event, NULL, 0, NULL, 0, &result) == YAML_C_DONE;
}

/* Writes what is flushed: as much as the emitter says. */
static int write_flushed(void) {
    if (yaml_c_emitter_take_output(&emitter, NULL, 0, &result) == YAML_C_DONE) return 1;
    uint8_t *yaml = malloc(result.length);
    int done = yaml && yaml_c_emitter_take_output(&emitter, yaml, result.length, &result) == YAML_C_DONE
        && fwrite(yaml, 1, result.length, stdout) == result.length;
    free(yaml);
    return done;
}

/* Gives a text as a document. */
static int32_t give_document(const char *text) {
    if (!give(YAML_C_DOCUMENT_START)) return YAML_C_REFUSED;
    int32_t status = yaml_c_emitter_emit_json(&emitter, (const uint8_t *)text, strlen(text), NULL, &result);
    return status == YAML_C_DONE && !(give(YAML_C_DOCUMENT_END) && write_flushed()) ? YAML_C_NO_MEMORY : status;
}

int main(void) {
    static const char *texts[] = {"{\"country\": \"no\", \"ports\": [80]}", "[1e9]", "[1,\n 2 3]"};
    struct yaml_c_settings settings = yaml_c_settings_for_values();
    int32_t status = YAML_C_DONE;
    if (yaml_c_emitter_new(&settings, &emitter) != YAML_C_DONE || !give(YAML_C_STREAM_START)) return 1;
    for (size_t i = 0; status == YAML_C_DONE && i < sizeof texts / sizeof *texts; i++) status = give_document(texts[i]);
    printf("line %" PRIu64 ", column %" PRIu64 ": %s\n", result.line, result.column, yaml_c_status_text(status));
    yaml_c_emitter_delete(&emitter);
    return 0;
}
