/* libyaml DOCUMENTS SCALARS: emits documents, each a sequence of so many scalars, by libyaml's calls, and writes the stream.
 * cc -O2 -o libyaml libyaml.c -lyaml */
#include <stdio.h>
#include <stdlib.h>
#include <yaml.h>

#include "texts.h"

static int give(yaml_emitter_t *emitter, yaml_event_t *event, int made) { return made && yaml_emitter_emit(emitter, event); }

static int document(yaml_emitter_t *emitter, long scalars) {
    yaml_event_t event;
    if (!give(emitter, &event, yaml_document_start_event_initialize(&event, NULL, NULL, NULL, 1))) return 0;
    if (!give(emitter, &event, yaml_sequence_start_event_initialize(&event, NULL, NULL, 1, YAML_ANY_SEQUENCE_STYLE))) return 0;
    for (long i = 0; i < scalars; i++) {
        const char *text = texts[i % TEXTS];
        int made = yaml_scalar_event_initialize(&event, NULL, NULL, (const yaml_char_t *)text, (int)strlen(text), 1, 1, YAML_ANY_SCALAR_STYLE);
        if (!give(emitter, &event, made)) return 0;
    }
    return give(emitter, &event, yaml_sequence_end_event_initialize(&event))
        && give(emitter, &event, yaml_document_end_event_initialize(&event, 1));
}

int main(int count, char **words) {
    yaml_emitter_t emitter;
    yaml_event_t event;
    if (count != 3 || !yaml_emitter_initialize(&emitter)) return 2;
    yaml_emitter_set_output_file(&emitter, stdout);
    if (!give(&emitter, &event, yaml_stream_start_event_initialize(&event, YAML_UTF8_ENCODING))) return 1;
    for (long i = atol(words[1]); i > 0; i--)
        if (!document(&emitter, atol(words[2]))) return 1;
    if (!give(&emitter, &event, yaml_stream_end_event_initialize(&event))) return 1;
    yaml_emitter_delete(&emitter);
    return 0;
}
