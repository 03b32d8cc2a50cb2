/* Emits events: a call that tells how much room they need, then one that writes; and an event that is refused. */
#include <inttypes.h>
#include <stdio.h>
#include <stdlib.h>

#include "yaml_c.h"

/* The arena: every text of the events, one after another. */
static const uint8_t texts[] = "from" "Oslo" "to" "place" "!city";

static const struct yaml_c_event events[] = {
    {.kind = YAML_C_STREAM_START},
    {.kind = YAML_C_DOCUMENT_START, .implicit = 1},
    {.kind = YAML_C_MAPPING_START, .implicit = 1},
    {.kind = YAML_C_SCALAR, .implicit = 1, .quoted_implicit = 1, .value = {0, 4}},
    {.kind = YAML_C_SCALAR, .has_anchor = 1, .anchor = {10, 5}, .has_tag = 1, .tag = {15, 5}, .value = {4, 4}},
    {.kind = YAML_C_SCALAR, .implicit = 1, .quoted_implicit = 1, .value = {8, 2}},
    {.kind = YAML_C_ALIAS, .anchor = {10, 5}},
    {.kind = YAML_C_MAPPING_END},
    {.kind = YAML_C_DOCUMENT_END, .implicit = 1},
    {.kind = YAML_C_STREAM_END},
};

/* By the settings of a new emitter, without directives. */
static int32_t emit(size_t count, uint8_t *out, size_t capacity, struct yaml_c_result *result) {
    return yaml_c_emit(events, count, NULL, 0, texts, sizeof texts - 1, NULL, out, capacity, result);
}

int main(void) {
    size_t count = sizeof events / sizeof *events;
    struct yaml_c_result result;
    if (emit(count, NULL, 0, &result) != YAML_C_TOO_SMALL) return 1;
    printf("%zu bytes\n", result.length);
    uint8_t *yaml = malloc(result.length);
    if (yaml == NULL) return 1;
    if (emit(count, yaml, result.length, &result) != YAML_C_DONE) return 1;
    fwrite(yaml, 1, result.length, stdout);
    free(yaml);
    int32_t status =
        yaml_c_emit((struct yaml_c_event[]){{.kind = YAML_C_STREAM_START}, {.kind = YAML_C_MAPPING_END}}, 2, NULL, 0, NULL, 0, NULL, NULL, 0, &result);
    if (status != YAML_C_REFUSED) return 1;
    printf("%s: event %" PRIu64 ", %s\n", yaml_c_status_text(status), result.event, yaml_c_error_text(result.error));
    if (yaml_c_version() != YAML_C_VERSION) return 1;
    return 0;
}
