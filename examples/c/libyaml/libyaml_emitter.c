/* libyaml's calls that emit events, over an emitter of yaml_c that is kept from call to call. See README.md. */
#include <limits.h>
#include <stdlib.h>
#include <string.h>
#include <yaml.h>

#include "yaml_c.h"

/* After so many events the flushed bytes are handed on, even within a document. */
#define EVENTS_HELD 1024

struct block { void *bytes; size_t size; };

struct kept {
    struct yaml_c_emitter emitter;
    struct yaml_c_result result;    /* of the last call */
    int open;
    unsigned held;                  /* events since bytes were handed on */
    struct block directives, texts; /* of one event */
    size_t texts_length;
    struct block out;
};

/* The emitter has one pointer that nothing else reads. */
static struct kept *kept_by(const yaml_emitter_t *emitter) { return (struct kept *)emitter->buffer.start; }

static int fail(yaml_emitter_t *emitter, yaml_error_type_t error, const char *problem) {
    emitter->error = error;
    emitter->problem = problem;
    return 0;
}

/* Whether a call succeeded. */
static int is_done(yaml_emitter_t *emitter, int32_t status) {
    if (status == YAML_C_DONE) return 1;
    if (status == YAML_C_NO_MEMORY) return fail(emitter, YAML_MEMORY_ERROR, NULL);
    uint32_t error = kept_by(emitter)->result.error;
    return fail(emitter, YAML_EMITTER_ERROR, status == YAML_C_REFUSED ? yaml_c_error_text(error) : yaml_c_status_text(status));
}

/* Makes a block at least so large. */
static int reserve(struct block *block, size_t size) {
    if (size <= block->size) return 1;
    void *bytes = realloc(block->bytes, size);
    if (bytes) *block = (struct block){bytes, size};
    return bytes != NULL;
}

/* Puts a text after those that the event has so far. */
static int add_text(struct kept *kept, struct yaml_c_span *span, const yaml_char_t *text, size_t length) {
    *span = (struct yaml_c_span){kept->texts_length, length};
    if (!reserve(&kept->texts, kept->texts_length += length)) return 0;
    if (length) memcpy((char *)kept->texts.bytes + span->start, text, length);
    return 1;
}

static int add_name(struct kept *kept, struct yaml_c_span *span, const yaml_char_t *name) {
    return add_text(kept, span, name, name ? strlen((const char *)name) : 0);
}

static int read_names(struct kept *kept, struct yaml_c_event *record, const yaml_char_t *anchor, const yaml_char_t *tag) {
    record->has_anchor = anchor != NULL;
    record->has_tag = tag != NULL;
    return add_name(kept, &record->anchor, anchor) && add_name(kept, &record->tag, tag);
}

static int read_start(struct kept *kept, struct yaml_c_event *record, const yaml_event_t *event) {
    const yaml_version_directive_t *version = event->data.document_start.version_directive;
    const yaml_tag_directive_t *tag = event->data.document_start.tag_directives.start, *end = event->data.document_start.tag_directives.end;
    record->implicit = event->data.document_start.implicit;
    if (version) record->has_version = 1, record->major = version->major, record->minor = version->minor;
    record->directives.length = (size_t)(end - tag);
    if (!reserve(&kept->directives, record->directives.length * sizeof(struct yaml_c_directive))) return 0;
    for (struct yaml_c_directive *directive = kept->directives.bytes; tag != end; tag++, directive++)
        if (!add_name(kept, &directive->handle, tag->handle) || !add_name(kept, &directive->prefix, tag->prefix)) return 0;
    return 1;
}

/* Reads an event into a record and the blocks. A value that is its only text isn't copied: it is the arena. */
static int read_event(struct kept *kept, struct yaml_c_event *record, const yaml_event_t *event) {
    kept->texts_length = 0;
    switch (record->kind = event->type) {
    case YAML_STREAM_START_EVENT: record->style = event->data.stream_start.encoding; return 1;
    case YAML_DOCUMENT_START_EVENT: return read_start(kept, record, event);
    case YAML_DOCUMENT_END_EVENT: record->implicit = event->data.document_end.implicit; return 1;
    case YAML_ALIAS_EVENT: return read_names(kept, record, event->data.alias.anchor, NULL);
    case YAML_SCALAR_EVENT:
        record->style = event->data.scalar.style;
        record->implicit = event->data.scalar.plain_implicit;
        record->quoted_implicit = event->data.scalar.quoted_implicit;
        record->value.length = event->data.scalar.length;
        return read_names(kept, record, event->data.scalar.anchor, event->data.scalar.tag)
            && (kept->texts_length == 0 || add_text(kept, &record->value, event->data.scalar.value, event->data.scalar.length));
    case YAML_SEQUENCE_START_EVENT:
    case YAML_MAPPING_START_EVENT: /* with the same fields, in the same order */
        record->style = event->data.sequence_start.style;
        record->implicit = event->data.sequence_start.implicit;
        return read_names(kept, record, event->data.sequence_start.anchor, event->data.sequence_start.tag);
    default: return 1;
    }
}

static int give(yaml_emitter_t *emitter, const yaml_event_t *event) {
    struct kept *kept = kept_by(emitter);
    struct yaml_c_event record = {0};
    if (!read_event(kept, &record, event)) return fail(emitter, YAML_MEMORY_ERROR, NULL);
    int is_copied = record.value.length <= kept->texts_length;
    return is_done(emitter, yaml_c_emitter_emit(&kept->emitter, &record, kept->directives.bytes, record.directives.length,
        is_copied ? kept->texts.bytes : event->data.scalar.value, is_copied ? kept->texts_length : record.value.length, &kept->result));
}

/* Hands on the flushed bytes. */
static int hand_on(yaml_emitter_t *emitter) {
    struct kept *kept = kept_by(emitter);
    kept->held = 0;
    while (yaml_c_emitter_take_output(&kept->emitter, kept->out.bytes, kept->out.size, &kept->result) == YAML_C_TOO_SMALL)
        if (!reserve(&kept->out, kept->result.length)) return fail(emitter, YAML_MEMORY_ERROR, NULL);
    size_t length = kept->result.length;
    return !length || emitter->write_handler(emitter->write_handler_data, kept->out.bytes, length) || fail(emitter, YAML_WRITER_ERROR, "write error");
}

int yaml_emitter_flush(yaml_emitter_t *emitter) {
    struct kept *kept = kept_by(emitter);
    if (emitter->error || !kept->open) return !emitter->error;
    return is_done(emitter, yaml_c_emitter_flush(&kept->emitter, &kept->result)) && hand_on(emitter);
}

/* The settings are those that the emitter has when the first event comes. */
static int open(yaml_emitter_t *emitter) {
    struct yaml_c_settings settings = {.encoding = emitter->encoding, .line_break = emitter->line_break, .canonical = emitter->canonical,
        .unicode = emitter->unicode, .indent = emitter->best_indent, .width = emitter->best_width};
    return kept_by(emitter)->open = is_done(emitter, yaml_c_emitter_new(&settings, &kept_by(emitter)->emitter));
}

/* After STREAM-START the fields hold the chosen settings, as in libyaml. */
static void keep_chosen(yaml_emitter_t *emitter, yaml_encoding_t encoding) {
    if (!emitter->encoding) emitter->encoding = encoding ? encoding : YAML_UTF8_ENCODING;
    if (emitter->best_indent < 2 || emitter->best_indent > 9) emitter->best_indent = 2;
    if (emitter->best_width >= 0 && emitter->best_width <= emitter->best_indent * 2) emitter->best_width = 80;
    if (emitter->best_width < 0) emitter->best_width = INT_MAX;
    if (!emitter->line_break) emitter->line_break = YAML_LN_BREAK;
}

/* Gives an event, and hands on the flushed bytes at the ends of documents and of the stream. */
int yaml_emitter_emit(yaml_emitter_t *emitter, yaml_event_t *event) {
    struct kept *kept = kept_by(emitter);
    yaml_event_type_t type = event->type;
    int done = !emitter->error && (kept->open || open(emitter)) && give(emitter, event);
    if (done && type == YAML_STREAM_START_EVENT) keep_chosen(emitter, event->data.stream_start.encoding);
    yaml_event_delete(event);
    if (!done) return 0;
    if (type == YAML_STREAM_END_EVENT) return yaml_emitter_flush(emitter);
    return (type != YAML_DOCUMENT_END_EVENT && ++kept->held < EVENTS_HELD) || hand_on(emitter);
}

int yaml_emitter_initialize(yaml_emitter_t *emitter) {
    memset(emitter, 0, sizeof *emitter);
    emitter->buffer.start = calloc(1, sizeof(struct kept));
    return emitter->buffer.start || fail(emitter, YAML_MEMORY_ERROR, NULL);
}

void yaml_emitter_delete(yaml_emitter_t *emitter) {
    struct kept *kept = kept_by(emitter);
    if (kept && kept->open) yaml_c_emitter_delete(&kept->emitter);
    if (kept) free(kept->directives.bytes), free(kept->texts.bytes), free(kept->out.bytes), free(kept);
    memset(emitter, 0, sizeof *emitter);
}
