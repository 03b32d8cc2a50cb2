/* Writes a heading, and a document of nodes, of which one is shared. */
#include <stdio.h>
#include <string.h>

#include "yaml_c.h"

static const char texts[] = "home" "work" "city" "Oslo" "code" "0150" YAML_C_INT_TAG;

/* The nodes 1 to 8: a mapping of 2 to 4 and of 3 to 4, and the mapping 4 of 5 to 6 and of 7 to 8. */
static const int32_t numbers[] = {2, 4, 3, 4, 5, 6, 7, 8};
static const struct yaml_c_node nodes[] = {
    {.kind = YAML_C_MAPPING_NODE, .content = {0, 4}},
    {.kind = YAML_C_SCALAR_NODE, .content = {0, 4}},
    {.kind = YAML_C_SCALAR_NODE, .content = {4, 4}},
    {.kind = YAML_C_MAPPING_NODE, .content = {4, 4}},
    {.kind = YAML_C_SCALAR_NODE, .content = {8, 4}},
    {.kind = YAML_C_SCALAR_NODE, .content = {12, 4}},
    {.kind = YAML_C_SCALAR_NODE, .content = {16, 4}},
    {.kind = YAML_C_SCALAR_NODE, .has_tag = 1, .tag = {24, sizeof YAML_C_INT_TAG - 1}, .content = {20, 4}},
};

int main(void) {
    static const char heading[] = "Written by shared_nodes.c.\n\nDo not edit.";
    struct yaml_c_settings settings = yaml_c_settings_for_values();
    struct yaml_c_emitter emitter;
    struct yaml_c_result result;
    uint8_t out[256];
    int32_t failed;
    if (yaml_c_comment_lines(heading, strlen(heading), out, sizeof out, &result) != YAML_C_DONE) return 1;
    fwrite(out, 1, result.length, stdout);
    if (yaml_c_emitter_new(&settings, &emitter) != YAML_C_DONE) return 1;
    failed = yaml_c_emitter_dump(&emitter, nodes, sizeof nodes / sizeof *nodes, numbers, sizeof numbers / sizeof *numbers,
                                 (const uint8_t *)texts, sizeof texts - 1, &result);
    failed |= yaml_c_emitter_finish(&emitter, &result);
    failed |= yaml_c_emitter_take_output(&emitter, out, sizeof out, &result);
    if (!failed) fwrite(out, 1, result.length, stdout);
    yaml_c_emitter_delete(&emitter);
    return failed != 0;
}
