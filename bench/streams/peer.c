/* The same scripts through libyaml: reads a script that is known to be good from standard input, emits its
 * events, and writes the stream to standard output.  With the argument `time` it prints instead the output's length
 * in bytes and the microseconds that emitting took, without reading and writing.  cc -O2 -o peer peer.c -lyaml */
#include <stdio.h>
#include <stdlib.h>
#include <string.h>
#include <time.h>
#include <yaml.h>

struct bytes { unsigned char *start; size_t length, room; };

static void grow(struct bytes *all, size_t more) {
    if (all->length + more <= all->room) return;
    while (all->length + more > all->room) all->room = all->room ? all->room * 2 : 65536;
    all->start = realloc(all->start, all->room);
    if (!all->start) abort();
}

static int keep(void *all, unsigned char *bytes, size_t length) {
    struct bytes *output = all;
    grow(output, length);
    memcpy(output->start + output->length, bytes, length);
    output->length += length;
    return 1;
}

/* A character of `\u{..}` as UTF-8. */
static unsigned char *put_character(unsigned char *end, unsigned long c) {
    if (c < 0x80) { *end++ = c; return end; }
    int more = c < 0x800 ? 1 : c < 0x10000 ? 2 : 3;
    *end++ = (0xF00 >> more) | (c >> (6 * more));
    while (more--) *end++ = 0x80 | ((c >> (6 * more)) & 0x3F);
    return end;
}

/* The next field of a line, ended by NUL in place; a text is undone in place. */
static unsigned char *field(unsigned char **next, size_t *length) {
    unsigned char *start = *next, *from = start, *end;
    if (*start != '"') {
        end = start + strcspn((char *)start, " ");
        *next = *end ? end + 1 : end;
        *length = end - start;
        *end = 0;
        return strcmp((char *)start, "-") ? start : NULL;
    }
    end = start;
    for (from++; *from != '"';) {
        if (*from != '\\') *end++ = *from++;
        else if (from[1] == 'n') { *end++ = '\n'; from += 2; }
        else if (from[1] == 'u') end = put_character(end, strtoul((char *)from + 3, (char **)&from, 16)), from++;
        else { *end++ = from[1]; from += 2; }
    }
    *next = from[1] ? from + 2 : from + 1;
    *length = end - start;
    *end = 0;
    return start;
}

static int place(const char *word, const char *const *words) {
    for (int n = 0; words[n]; n++) if (!strcmp(word, words[n])) return n;
    return 0;
}

static const char *const encodings[] = {"any", "utf8", "utf16le", "utf16be", NULL};
static const char *const scalars[] = {"any", "plain", "single", "double", "literal", "folded", NULL};
static const char *const collections[] = {"any", "block", "flow", NULL};

/* An event of a line; 0 where the line sets something or says nothing. */
static int read_event(unsigned char *line, yaml_emitter_t *emitter, yaml_event_t *event) {
    size_t size;
    unsigned char *next = line;
    if (!*line || *line == '#') return 0;
    const char *name = (char *)field(&next, &size);
    if (!strcmp(name, "=VAL")) {
        int style = place((char *)field(&next, &size), scalars), plain = *field(&next, &size) == '1', quoted = *field(&next, &size) == '1';
        unsigned char *anchor = field(&next, &size), *tag = field(&next, &size), *value = field(&next, &size);
        return yaml_scalar_event_initialize(event, anchor, tag, value, size, plain, quoted, style);
    }
    if (!strcmp(name, "+SEQ") || !strcmp(name, "+MAP")) {
        int is_sequence = name[1] == 'S', style = place((char *)field(&next, &size), collections), implicit = *field(&next, &size) == '1';
        unsigned char *anchor = field(&next, &size), *tag = field(&next, &size);
        return is_sequence ? yaml_sequence_start_event_initialize(event, anchor, tag, implicit, style)
                           : yaml_mapping_start_event_initialize(event, anchor, tag, implicit, style);
    }
    if (!strcmp(name, "-SEQ")) return yaml_sequence_end_event_initialize(event);
    if (!strcmp(name, "-MAP")) return yaml_mapping_end_event_initialize(event);
    if (!strcmp(name, "+DOC")) return yaml_document_start_event_initialize(event, NULL, NULL, NULL, *field(&next, &size) == '1');
    if (!strcmp(name, "-DOC")) return yaml_document_end_event_initialize(event, *field(&next, &size) == '1');
    if (!strcmp(name, "=ALI")) return yaml_alias_event_initialize(event, field(&next, &size));
    if (!strcmp(name, "+STR")) return yaml_stream_start_event_initialize(event, place((char *)field(&next, &size), encodings));
    if (!strcmp(name, "-STR")) return yaml_stream_end_event_initialize(event);
    const char *value = (char *)field(&next, &size);
    if (!strcmp(name, "canonical")) yaml_emitter_set_canonical(emitter, !strcmp(value, "on"));
    else if (!strcmp(name, "unicode")) yaml_emitter_set_unicode(emitter, !strcmp(value, "on"));
    else if (!strcmp(name, "indent")) yaml_emitter_set_indent(emitter, atoi(value));
    else if (!strcmp(name, "width")) yaml_emitter_set_width(emitter, atoi(value));
    else abort();
    return 0;
}

int main(int words, char **word) {
    struct bytes script = {0}, output = {0};
    grow(&script, 65536);
    for (size_t count; (count = fread(script.start + script.length, 1, script.room - script.length - 1, stdin)) > 0;) {
        script.length += count;
        if (script.length + 1 == script.room) grow(&script, 2);
    }
    script.start[script.length] = 0;
    yaml_emitter_t emitter;
    yaml_emitter_initialize(&emitter);
    yaml_emitter_set_output(&emitter, keep, &output);
    /* All events are read before the first is emitted. */
    yaml_event_t *events = NULL;
    size_t count = 0, room = 0;
    for (unsigned char *line = script.start, *end; *line; line = end + 1) {
        end = (unsigned char *)strchr((char *)line, '\n');
        if (!end) abort();
        *end = 0;
        if (count == room) events = realloc(events, (room = room ? room * 2 : 1024) * sizeof *events);
        count += read_event(line, &emitter, events + count);
    }
    free(script.start);
    struct timespec start, end;
    clock_gettime(CLOCK_MONOTONIC, &start);
    for (size_t n = 0; n < count; n++)
        if (!yaml_emitter_emit(&emitter, events + n)) { fprintf(stderr, "event %zu: %s\n", n, emitter.problem); return 1; }
    yaml_emitter_flush(&emitter);
    clock_gettime(CLOCK_MONOTONIC, &end);
    if (words > 1 && !strcmp(word[1], "time"))
        printf("%zu %ld\n", output.length, (end.tv_sec - start.tv_sec) * 1000000L + (end.tv_nsec - start.tv_nsec) / 1000);
    else
        fwrite(output.start, 1, output.length, stdout);
    return 0;
}
