/* peer FILE: the YAML of a JSON file on standard output, by libyaml alone: its parser reads the text, and its emitter
 * writes the events in blocks, each scalar in the style that it chooses.  A string isn't plain in JSON, so that it stands in
 * quotes; its emitter may not write it plain.  cc -O2 -o peer peer.c -lyaml */
#include <stdio.h>
#include <yaml.h>

/* Lets the emitter choose the styles. */
static void restyle(yaml_event_t *event) {
    switch (event->type) {
    case YAML_DOCUMENT_START_EVENT: event->data.document_start.implicit = 0; break;
    case YAML_SCALAR_EVENT: event->data.scalar.style = YAML_ANY_SCALAR_STYLE; break;
    case YAML_SEQUENCE_START_EVENT: event->data.sequence_start.style = YAML_BLOCK_SEQUENCE_STYLE; break;
    case YAML_MAPPING_START_EVENT: event->data.mapping_start.style = YAML_BLOCK_MAPPING_STYLE; break;
    default: break;
    }
}

/* Passes all events on; 0 where one of the two fails. */
static int convert(yaml_parser_t *parser, yaml_emitter_t *emitter) {
    yaml_event_t event;
    yaml_event_type_t type;
    do {
        if (!yaml_parser_parse(parser, &event)) return 0;
        type = event.type;
        restyle(&event);
        if (!yaml_emitter_emit(emitter, &event)) return 0;
    } while (type != YAML_STREAM_END_EVENT);
    return 1;
}

int main(int count, char **words) {
    yaml_parser_t parser;
    yaml_emitter_t emitter;
    FILE *file = count == 2 ? fopen(words[1], "rb") : NULL;
    if (!file) {
        fputs("usage: peer FILE\n", stderr);
        return 2;
    }
    if (!yaml_parser_initialize(&parser) || !yaml_emitter_initialize(&emitter)) return 3;
    yaml_parser_set_input_file(&parser, file);
    yaml_emitter_set_output_file(&emitter, stdout);
    yaml_emitter_set_unicode(&emitter, 1);
    int done = convert(&parser, &emitter);
    if (!done) fprintf(stderr, "peer: %s\n", parser.problem ? parser.problem : emitter.problem);
    yaml_emitter_delete(&emitter);
    yaml_parser_delete(&parser);
    fclose(file);
    return done ? 0 : 1;
}
