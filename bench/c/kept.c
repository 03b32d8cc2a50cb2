/* kept DOCUMENTS SCALARS: the events that libyaml.c gives, one by one to an emitter that is kept; writes what is flushed.
 * cc -O2 -I ../../crates/yaml_c/include -o kept kept.c libyaml_c.a liblibc_c.a */
#include <stdio.h>
#include <stdlib.h>

#include "texts.h"
#include "yaml_c.h"

enum { PART = 16384 }; /* events between two looks at the output */

static struct yaml_c_emitter emitter;
static struct yaml_c_result result;
static uint8_t *out;
static size_t capacity, given;

/* Writes what is flushed, with a larger buffer where it wants one. */
static int write_flushed(void) {
    int status = yaml_c_emitter_take_output(&emitter, out, capacity, &result);
    if (status == YAML_C_TOO_SMALL) {
        capacity = result.length * 2;
        out = realloc(out, capacity);
        if (out == NULL) return 0;
        status = yaml_c_emitter_take_output(&emitter, out, capacity, &result);
    }
    return status == YAML_C_DONE && fwrite(out, 1, result.length, stdout) == result.length;
}

static int give(uint32_t kind, const char *text) {
    static const struct yaml_c_directive none[1];
    struct yaml_c_event event = {.kind = kind, .implicit = 1, .quoted_implicit = 1};
    event.value.length = strlen(text);
    if (yaml_c_emitter_emit(&emitter, &event, none, 0, (const uint8_t *)text, event.value.length, &result) != YAML_C_DONE) return 0;
    if (++given % PART != 0) return 1;
    return yaml_c_emitter_flush(&emitter, &result) == YAML_C_DONE && write_flushed();
}

static int document(size_t scalars) {
    if (!give(3, "") || !give(7, "")) return 0;
    for (size_t i = 0; i < scalars; i++)
        if (!give(6, texts[i % TEXTS])) return 0;
    return give(8, "") && give(4, "");
}

int main(int count, char **words) {
    static const struct yaml_c_settings settings;
    if (count != 3) return 2;
    capacity = 1 << 20;
    out = malloc(capacity);
    if (out == NULL || yaml_c_emitter_new(&settings, &emitter) != YAML_C_DONE || !give(1, "")) return 3;
    for (size_t i = strtoul(words[1], NULL, 10); i > 0; i--)
        if (!document(strtoul(words[2], NULL, 10))) return 1;
    if (!give(2, "") || !write_flushed()) return 1;
    yaml_c_emitter_delete(&emitter);
    return 0;
}
