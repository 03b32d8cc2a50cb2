/* Dumps random documents, whose nodes may be shared or hold themselves, and prints the streams, with the emitter's fields after each
 * document. The last document of some streams has no nodes, which ends them. With an argument the emitter must be the drop-in. */
#include <stdint.h>
#include <stdio.h>
#include <stdlib.h>
#include <yaml.h>

#define STREAMS 3000

static const char *const values[] = {"", "a", "no", "two\nlines\n", "- x", "some words", "\xc3\xa9"};
static const char *const tags[] = {NULL, NULL, NULL, "!own", "tag:e,2000:thing"};
static yaml_tag_directive_t tag_directive = {(yaml_char_t *)"!e!", (yaml_char_t *)"tag:e,2000:"};

static uint32_t chosen(uint32_t below) {
    static uint64_t state = 1;
    state = state * 6364136223846793005u + 1442695040888963407u;
    return (uint32_t)(state >> 33) % below;
}

/* Adds nodes, then gives each collection some of them for children. */
static void fill(yaml_document_t *document, int nodes) {
    int number, added = 1;
    for (number = 1; number <= nodes && added; number++) {
        const yaml_char_t *tag = (const yaml_char_t *)tags[chosen(5)], *value = (const yaml_char_t *)values[chosen(7)];
        uint32_t kind = number == 1 ? 1 + chosen(2) : chosen(3), style = chosen(3);
        if (kind == 0) added = yaml_document_add_scalar(document, tag, value, -1, (yaml_scalar_style_t)chosen(4));
        if (kind == 1) added = yaml_document_add_sequence(document, tag, (yaml_sequence_style_t)style);
        if (kind == 2) added = yaml_document_add_mapping(document, tag, (yaml_mapping_style_t)style);
    }
    for (number = 1; number <= nodes && added; number++) {
        yaml_node_type_t type = yaml_document_get_node(document, number)->type;
        uint32_t children = type == YAML_SCALAR_NODE ? 0 : chosen(4);
        for (; children && added; children--) {
            int first = 1 + (int)chosen((uint32_t)nodes), second = 1 + (int)chosen((uint32_t)nodes);
            added = type == YAML_SEQUENCE_NODE ? yaml_document_append_sequence_item(document, number, first)
                                               : yaml_document_append_mapping_pair(document, number, first, second);
        }
    }
    if (!added) exit(2);
}

static void dump(yaml_emitter_t *emitter, int nodes) {
    yaml_version_directive_t version = {1, 1};
    yaml_document_t document;
    int has_version = chosen(3) == 0, has_tag = chosen(3) == 0;
    if (!yaml_document_initialize(&document, has_version ? &version : NULL, &tag_directive, &tag_directive + has_tag, (int)chosen(2), (int)chosen(2)))
        exit(2);
    fill(&document, nodes);
    printf("# dump %d", yaml_emitter_dump(emitter, &document));
    printf(": error %d, opened %d, closed %d, anchors %d, %d, document %d\n", (int)emitter->error, emitter->opened, emitter->closed,
           emitter->anchors != NULL, emitter->last_anchor_id, emitter->document != NULL);
}

int main(int count, char **words) {
    int stream;
    (void)words;
    for (stream = 0; stream < STREAMS; stream++) {
        yaml_emitter_t emitter;
        uint32_t documents = chosen(4);
        if (!yaml_emitter_initialize(&emitter)) return 2;
        if ((emitter.buffer.end == NULL) != (count > 1)) return 3; /* libyaml sets this pointer, the drop-in doesn't */
        yaml_emitter_set_output_file(&emitter, stdout);
        yaml_emitter_set_unicode(&emitter, (int)chosen(2));
        if (chosen(2)) printf("# open %d\n", yaml_emitter_open(&emitter));
        while (documents--) dump(&emitter, 1 + (int)chosen(8));
        if (chosen(2) || !emitter.opened) dump(&emitter, 0);
        printf("# close %d\n", yaml_emitter_close(&emitter));
        yaml_emitter_delete(&emitter);
    }
    return 0;
}
