/*
 * Writes YAML anew: libyaml's parser reads standard input, and a kept emitter writes each event.
 *
 *   reformat [--indent=COLUMNS] [--width=COLUMN] [--indented-sequences] [--portable] [--canonical] < IN > OUT
 *
 * Comments, blank lines, the places of line breaks and the spelling of escapes are lost. Documents, directives, anchors, tags, the order of
 * keys, and the style of each text and collection are kept, if that style can hold them. It links with -lyaml.
 * Status: 0 done, 1 the input is no YAML or is refused, 2 the arguments aren't understood, 3 reading, writing or memory failed.
 */
#include <stdio.h>
#include <stdlib.h>
#include <string.h>
#include <yaml.h>

#include "yaml_c.h"

struct block { void *bytes; size_t room; };

static struct yaml_c_settings settings = {.unicode = 1, .width = -1};
static struct yaml_c_emitter emitter;
static struct yaml_c_result result;
static struct block texts, directives, out;
static size_t texts_length;

static void stop(int status, const char *why) {
    fprintf(stderr, "%s\n", why);
    exit(status);
}

static void reserve(struct block *block, size_t size) {
    if (size <= block->room) return;
    if (!(block->bytes = realloc(block->bytes, block->room = 2 * size))) stop(3, "out of memory");
}

/* Puts a text into the arena. */
static struct yaml_c_span text(const yaml_char_t *bytes, size_t length) {
    struct yaml_c_span span = {texts_length, length};
    reserve(&texts, texts_length + length);
    if (length) memcpy((char *)texts.bytes + texts_length, bytes, length);
    texts_length += length;
    return span;
}

static struct yaml_c_span name(const yaml_char_t *bytes) { return text(bytes, bytes ? strlen((const char *)bytes) : 0); }

static void read_start(struct yaml_c_event *record, const yaml_event_t *event) {
    const yaml_version_directive_t *version = event->data.document_start.version_directive;
    const yaml_tag_directive_t *tag = event->data.document_start.tag_directives.start, *end = event->data.document_start.tag_directives.end;
    if (version) record->has_version = 1, record->major = version->major, record->minor = version->minor;
    record->implicit = event->data.document_start.implicit;
    record->directives.length = (size_t)(end - tag);
    reserve(&directives, record->directives.length * sizeof(struct yaml_c_directive));
    for (struct yaml_c_directive *directive = directives.bytes; tag != end; tag++)
        *directive++ = (struct yaml_c_directive){name(tag->handle), name(tag->prefix)};
}

static void read_names(struct yaml_c_event *record, const yaml_char_t *anchor, const yaml_char_t *tag) {
    record->has_anchor = anchor != NULL, record->anchor = name(anchor);
    record->has_tag = tag != NULL, record->tag = name(tag);
}

/* Makes a record of an event; kinds, styles and encodings have libyaml's numbers. */
static struct yaml_c_event read_event(const yaml_event_t *event) {
    struct yaml_c_event record = {.kind = event->type};
    texts_length = 0;
    if (event->type == YAML_STREAM_START_EVENT) record.style = event->data.stream_start.encoding;
    if (event->type == YAML_DOCUMENT_START_EVENT) read_start(&record, event);
    if (event->type == YAML_DOCUMENT_END_EVENT) record.implicit = event->data.document_end.implicit;
    if (event->type == YAML_ALIAS_EVENT) record.anchor = name(event->data.alias.anchor);
    if (event->type == YAML_SCALAR_EVENT) {
        record.style = event->data.scalar.style;
        record.implicit = event->data.scalar.plain_implicit, record.quoted_implicit = event->data.scalar.quoted_implicit;
        record.value = text(event->data.scalar.value, event->data.scalar.length);
        read_names(&record, event->data.scalar.anchor, event->data.scalar.tag);
    }
    if (event->type == YAML_SEQUENCE_START_EVENT) {
        record.style = event->data.sequence_start.style, record.implicit = event->data.sequence_start.implicit;
        read_names(&record, event->data.sequence_start.anchor, event->data.sequence_start.tag);
    }
    if (event->type == YAML_MAPPING_START_EVENT) {
        record.style = event->data.mapping_start.style, record.implicit = event->data.mapping_start.implicit;
        read_names(&record, event->data.mapping_start.anchor, event->data.mapping_start.tag);
    }
    return record;
}

/* Gives an event, and writes the flushed bytes, at the end of each document. */
static void give(const yaml_event_t *event) {
    struct yaml_c_event record = read_event(event);
    int32_t status = yaml_c_emitter_emit(&emitter, &record, directives.bytes, record.directives.length, texts.bytes, texts_length, &result);
    if (status == YAML_C_DONE && event->type == YAML_STREAM_END_EVENT) status = yaml_c_emitter_flush(&emitter, &result);
    if (status == YAML_C_NO_MEMORY) stop(3, yaml_c_status_text(status));
    if (status != YAML_C_DONE) stop(1, status == YAML_C_REFUSED ? yaml_c_error_text(result.error) : yaml_c_status_text(status));
    while (yaml_c_emitter_take_output(&emitter, out.bytes, out.room, &result) == YAML_C_TOO_SMALL) reserve(&out, result.length);
    if (fwrite(out.bytes, 1, result.length, stdout) != result.length) stop(3, "cannot write");
}

/* Prints the parser's error and its place, which a reader's error doesn't have. */
static void stop_reading(const yaml_parser_t *parser) {
    if (parser->error == YAML_MEMORY_ERROR) stop(3, "out of memory");
    if (ferror(stdin)) stop(3, "cannot read");
    if (parser->error != YAML_READER_ERROR)
        fprintf(stderr, "line %zu, column %zu: ", parser->problem_mark.line + 1, parser->problem_mark.column + 1);
    stop(1, parser->problem);
}

/* A number after `=`, or a flag. */
static int is_set(const char *word, const char *option, int32_t *number, uint32_t *flag) {
    size_t length = strlen(option);
    char *end = NULL;
    if (flag) return strcmp(word, option) == 0 && (*flag = 1);
    if (strncmp(word, option, length) || word[length] != '=' || !word[length + 1]) return 0;
    return *number = (int32_t)strtol(word + length + 1, &end, 10), *end == 0;
}

int main(int count, char **words) {
    for (char **word = words + 1; word < words + count; word++)
        if (!is_set(*word, "--indent", &settings.indent, NULL) && !is_set(*word, "--width", &settings.width, NULL)
            && !is_set(*word, "--indented-sequences", NULL, &settings.indented_sequences)
            && !is_set(*word, "--portable", NULL, &settings.portable) && !is_set(*word, "--canonical", NULL, &settings.canonical))
            stop(2, "usage: reformat [--indent=COLUMNS] [--width=COLUMN] [--indented-sequences] [--portable] [--canonical]");
    yaml_parser_t parser;
    yaml_event_t event = {0};
    if (!yaml_parser_initialize(&parser) || yaml_c_emitter_new(&settings, &emitter) != YAML_C_DONE) stop(3, "out of memory");
    yaml_parser_set_input_file(&parser, stdin);
    for (int ended = 0; !ended; yaml_event_delete(&event)) {
        if (!yaml_parser_parse(&parser, &event)) stop_reading(&parser);
        give(&event);
        ended = event.type == YAML_STREAM_END_EVENT;
    }
    yaml_parser_delete(&parser);
    yaml_c_emitter_delete(&emitter);
    if (fflush(stdout)) stop(3, "cannot write");
    return 0;
}
