/* Prints the fields of libyaml's emitter that hold its settings, before its first event and after it, for each encoding that is set
 * and given, for each line break, and for indents and widths in and out of their bounds; and after a first event that is refused, at
 * once or later. With an argument the emitter must be the drop-in. */
#include <stdio.h>
#include <stdlib.h>
#include <yaml.h>

static int ignore(void *data, unsigned char *bytes, size_t length) {
    (void)data, (void)bytes, (void)length;
    return 1;
}

static void print(const yaml_emitter_t *emitter, const char *when) {
    printf("%s: error %d, encoding %d, canonical %d, indent %d, width %d, unicode %d, break %d, opened %d, closed %d\n", when, (int)emitter->error,
           (int)emitter->encoding, emitter->canonical, emitter->best_indent, emitter->best_width, emitter->unicode, (int)emitter->line_break,
           emitter->opened, emitter->closed);
}

static int is_drop_in;

static int make(yaml_event_t *event, yaml_event_type_t type, int encoding) {
    if (type == YAML_STREAM_START_EVENT) return yaml_stream_start_event_initialize(event, (yaml_encoding_t)encoding);
    if (type == YAML_STREAM_END_EVENT) return yaml_stream_end_event_initialize(event);
    return yaml_document_start_event_initialize(event, NULL, NULL, NULL, 1);
}

/* An emitter with these settings, whose first event is of this type. */
static void start(int set, int given, int line_break, int indent, int width, yaml_event_type_t type) {
    yaml_emitter_t emitter;
    yaml_event_t event;
    if (!yaml_emitter_initialize(&emitter)) exit(1);
    if ((emitter.buffer.end == NULL) != is_drop_in) exit(3); /* libyaml sets this pointer, the drop-in doesn't */
    yaml_emitter_set_output(&emitter, ignore, NULL);
    if (set) yaml_emitter_set_encoding(&emitter, (yaml_encoding_t)set);
    yaml_emitter_set_break(&emitter, (yaml_break_t)line_break);
    yaml_emitter_set_canonical(&emitter, 5);
    emitter.best_indent = indent;
    emitter.best_width = width;
    print(&emitter, "set");
    if (!make(&event, type, given)) exit(1);
    printf("%d ", yaml_emitter_emit(&emitter, &event));
    print(&emitter, "given");
    yaml_emitter_delete(&emitter);
}

int main(int count, char **words) {
    static const int indents[] = {-1, 0, 1, 2, 9, 10}, widths[] = {-7, -1, 0, 4, 5, 18, 19, 80};
    int i, j;
    (void)words;
    is_drop_in = count > 1;
    for (i = 0; i < 4; i++) for (j = 0; j < 4; j++) start(i, j, j, 2, 80, YAML_STREAM_START_EVENT);
    for (i = 0; i < 6; i++) for (j = 0; j < 8; j++) start(0, 0, 0, indents[i], widths[j], YAML_STREAM_START_EVENT);
    start(0, 2, 0, 0, 0, YAML_STREAM_END_EVENT);
    start(0, 2, 0, 0, 0, YAML_DOCUMENT_START_EVENT);
    return 0;
}
