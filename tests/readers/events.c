/* What libyaml's parser reads: streams on standard input, each after its length in bytes and a line break; events on
 * standard output, a line each. Texts stand in hexadecimal digits after an `x`, `-` stands for none. After the events of
 * a stream comes a line `.`, or `!` and the parser's words where it found a fault.
 *
 *     cc -O2 -o events events.c -lyaml */
#include <stdio.h>
#include <stdlib.h>
#include <string.h>
#include <yaml.h>

static void put(const yaml_char_t *text, size_t length) {
    if (!text) { printf(" -"); return; }
    printf(" x");
    for (size_t i = 0; i < length; i++) printf("%02x", text[i]);
}

static void put_string(const yaml_char_t *text) { put(text, text ? strlen((const char *)text) : 0); }

static void put_document(const yaml_event_t *event) {
    const yaml_version_directive_t *version = event->data.document_start.version_directive;
    if (version) printf("document %d.%d", version->major, version->minor);
    else printf("document -");
    for (yaml_tag_directive_t *d = event->data.document_start.tag_directives.start; d != event->data.document_start.tag_directives.end; d++) {
        put_string(d->handle);
        put_string(d->prefix);
    }
    printf("\n");
}

static void put_collection(const char *kind, const yaml_char_t *anchor, const yaml_char_t *tag) {
    printf("%s", kind);
    put_string(anchor);
    put_string(tag);
    printf("\n");
}

static void put_event(const yaml_event_t *event) {
    switch (event->type) {
    case YAML_DOCUMENT_START_EVENT: put_document(event); break;
    case YAML_DOCUMENT_END_EVENT: printf("document-end\n"); break;
    case YAML_ALIAS_EVENT:
        printf("alias");
        put_string(event->data.alias.anchor);
        printf("\n");
        break;
    case YAML_SCALAR_EVENT:
        printf("scalar");
        put_string(event->data.scalar.anchor);
        put_string(event->data.scalar.tag);
        printf(" %s", event->data.scalar.plain_implicit ? "plain" : "quoted");
        put(event->data.scalar.value, event->data.scalar.length);
        printf("\n");
        break;
    case YAML_SEQUENCE_START_EVENT: put_collection("sequence", event->data.sequence_start.anchor, event->data.sequence_start.tag); break;
    case YAML_SEQUENCE_END_EVENT: printf("sequence-end\n"); break;
    case YAML_MAPPING_START_EVENT: put_collection("mapping", event->data.mapping_start.anchor, event->data.mapping_start.tag); break;
    case YAML_MAPPING_END_EVENT: printf("mapping-end\n"); break;
    default: break;
    }
}

static void read_stream(const unsigned char *bytes, size_t length) {
    yaml_parser_t parser;
    yaml_event_t event;
    int type;
    if (!yaml_parser_initialize(&parser)) abort();
    yaml_parser_set_input_string(&parser, bytes, length);
    do {
        if (!yaml_parser_parse(&parser, &event)) {
            printf("! %s\n", parser.problem ? parser.problem : "no memory");
            yaml_parser_delete(&parser);
            return;
        }
        type = event.type;
        put_event(&event);
        yaml_event_delete(&event);
    } while (type != YAML_STREAM_END_EVENT);
    printf(".\n");
    yaml_parser_delete(&parser);
}

int main(void) {
    size_t length;
    while (scanf("%zu", &length) == 1) {
        unsigned char *bytes = malloc(length + 1);
        if (getchar() != '\n' || !bytes || fread(bytes, 1, length, stdin) != length) return 1;
        read_stream(bytes, length);
        free(bytes);
    }
    return 0;
}
