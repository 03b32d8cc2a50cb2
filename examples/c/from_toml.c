/* Writes a text of TOML as YAML: a call that tells how much room it needs, then one that writes; and texts that are refused. */
#include <inttypes.h>
#include <stdio.h>
#include <stdlib.h>
#include <string.h>

#include "yaml_c.h"

static int32_t from_toml(const char *text, uint8_t *out, size_t capacity, struct yaml_c_result *result) {
    return yaml_c_from_toml((const uint8_t *)text, strlen(text), NULL, out, capacity, result);
}

static void show_refusal(const char *text, const struct yaml_c_value_settings *settings) {
    struct yaml_c_result result;
    int32_t status = yaml_c_from_toml((const uint8_t *)text, strlen(text), settings, NULL, 0, &result);
    printf("line %" PRIu64 ", column %" PRIu64 ": %s\n", result.line, result.column, yaml_c_status_text(status));
}

int main(void) {
    static const char text[] = "country = \"no\" # a code\n[server]\nports = [80, 1e9]\nopens = 07:32:00\n";
    static const struct yaml_c_value_settings in_flow = {.flow = 1, .allow_unportable = 1}, one_level = {.depth = 1};
    uint8_t line[80];
    struct yaml_c_result result;
    if (from_toml(text, NULL, 0, &result) != YAML_C_TOO_SMALL) return 1;
    uint8_t *yaml = malloc(result.length);
    if (yaml == NULL) return 1;
    if (from_toml(text, yaml, result.length, &result) != YAML_C_DONE) return 1;
    fwrite(yaml, 1, result.length, stdout);
    free(yaml);
    if (yaml_c_from_toml((const uint8_t *)text, strlen(text), &in_flow, line, sizeof line, &result) != YAML_C_DONE) return 1;
    fwrite(line, 1, result.length, stdout);
    show_refusal("a = 1\nb = nul\n", NULL);
    show_refusal("a = \"\303\251\377\"\n", NULL);
    show_refusal("a = 1\n[a]\n", NULL);
    show_refusal("a = []\n", &one_level);
    return 0;
}
