/* yaml_c DOCUMENTS SCALARS: the events that libyaml.c gives, as an array, by one call of yaml_c_emit; writes the stream. The last line on
 * standard error is what the events, their texts and the output take, in bytes.
 * cc -O2 -I ../../crates/yaml_c/include -o yaml_c yaml_c.c libyaml_c.a liblibc_c.a */
#include <stdio.h>
#include <stdlib.h>

#include "texts.h"
#include "yaml_c.h"

struct stream { struct yaml_c_event *events; uint8_t *arena; size_t count, length; };

static void give(struct stream *stream, uint32_t kind, const char *text) {
    struct yaml_c_event event = {.kind = kind, .implicit = 1, .quoted_implicit = 1};
    event.value.start = stream->length;
    event.value.length = strlen(text);
    memcpy(stream->arena + stream->length, text, event.value.length);
    stream->length += event.value.length;
    stream->events[stream->count++] = event;
}

int main(int count, char **words) {
    static const struct yaml_c_settings settings;
    static const struct yaml_c_directive none[1];
    if (count != 3) return 2;
    size_t documents = strtoul(words[1], NULL, 10), scalars = strtoul(words[2], NULL, 10), total = documents * (scalars + 4) + 2;
    struct stream stream = {malloc(total * sizeof *stream.events), malloc(total * 48), 0, 0};
    size_t capacity = total * 64; /* what isn't written takes no memory */
    uint8_t *out = malloc(capacity);
    struct yaml_c_result result;
    if (stream.events == NULL || stream.arena == NULL || out == NULL) return 3;
    give(&stream, 1, "");
    for (size_t i = 0; i < documents; i++) {
        give(&stream, 3, "");
        give(&stream, 7, "");
        for (size_t j = 0; j < scalars; j++) give(&stream, 6, texts[j % TEXTS]);
        give(&stream, 8, "");
        give(&stream, 4, "");
    }
    give(&stream, 2, "");
    if (yaml_c_emit(stream.events, stream.count, none, 0, stream.arena, stream.length, &settings, out, capacity, &result) != YAML_C_DONE) return 1;
    fwrite(out, 1, result.length, stdout);
    fprintf(stderr, "%zu\n", stream.count * sizeof *stream.events + stream.length + result.length);
    return 0;
}
