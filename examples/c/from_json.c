/* Writes a JSON text as YAML: a call that tells how much room it needs, then one that writes; and a text that isn't JSON. */
#include <inttypes.h>
#include <stdio.h>
#include <stdlib.h>
#include <string.h>

#include "yaml_c.h"

static int32_t from_json(const char *text, uint8_t *out, size_t capacity, struct yaml_c_result *result) {
    return yaml_c_from_json((const uint8_t *)text, strlen(text), NULL, out, capacity, result);
}

int main(void) {
    static const char text[] = "{\"country\": \"no\", \"ports\": [80, 1e9], \"proxy\": null}";
    static const struct yaml_c_json_settings in_flow = {.values = {.flow = 1, .width = -1}};
    uint8_t line[80];
    struct yaml_c_result result;
    if (from_json(text, NULL, 0, &result) != YAML_C_TOO_SMALL) return 1;
    uint8_t *yaml = malloc(result.length);
    if (yaml == NULL) return 1;
    if (from_json(text, yaml, result.length, &result) != YAML_C_DONE) return 1;
    fwrite(yaml, 1, result.length, stdout);
    free(yaml);
    if (yaml_c_from_json((const uint8_t *)text, strlen(text), &in_flow, line, sizeof line, &result) != YAML_C_DONE) return 1;
    fwrite(line, 1, result.length, stdout);
    int32_t status = from_json("{\n  \"a\": nul\n}", NULL, 0, &result);
    printf("line %" PRIu64 ", column %" PRIu64 ": %s\n", result.line, result.column, yaml_c_status_text(status));
    return 0;
}
