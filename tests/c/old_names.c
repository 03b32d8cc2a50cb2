/* A program for version 0.8, by the names of that version: its calls, statuses, errors and settings, and a pointer to a call. */
#include <stdio.h>
#include <string.h>

#include "yaml_c.h"

static uint8_t out[64];
static struct yaml_c_result result;

static void show(int32_t status) { printf("%s: %.*s\n", yaml_status_text(status), (int)result.length, (const char *)out); }

static const uint8_t *bytes_of(const char *text) { return (const uint8_t *)text; }

int main(void) {
    static const char script[] = "+STR any\n+DOC 1 -\n=VAL any 1 1 - - \"a\"\n-DOC 1\n-STR\n";
    static const char json[] = "\"\xc3\xa9\"", toml[] = "b = [1]\n", canonical[] = "---\n!!int \"7\"\n";
    int32_t (*of_json)(const uint8_t *, size_t, const struct yaml_c_json_settings *, uint8_t *, size_t, struct yaml_c_result *) = yaml_from_json;
    struct yaml_c_json_settings settings;
    struct yaml_c_event end;
    enum yaml_status status = YAML_DONE;
    enum yaml_error error = YAML_EXPECTED_STREAM_START;
    memset(&settings, 0, sizeof settings);
    memset(&end, 0, sizeof end);
    settings.values.no_unicode = 1;
    end.kind = YAML_C_STREAM_END;
    show(yaml_run(bytes_of(script), sizeof script - 1, out, sizeof out, &result));
    show(yaml_from_json(bytes_of(json), sizeof json - 1, &settings, out, sizeof out, &result));
    show(of_json(bytes_of(json), sizeof json - 1, NULL, out, sizeof out, &result));
    settings.values.no_indented_sequences = settings.values.no_portable = settings.values.no_literal_blanks = 1;
    show(yaml_from_toml(bytes_of(toml), sizeof toml - 1, &settings.values, out, sizeof out, &result));
    show(yaml_canonical_from_json(bytes_of("7"), 1, NULL, out, sizeof out, &result));
    if (yaml_is_canonical(bytes_of(canonical), sizeof canonical - 1, NULL, &result) != (int32_t)status) puts("not canonical");
    show(yaml_emit(&end, 1, NULL, 0, NULL, 0, NULL, out, sizeof out, &result));
    if (result.error == (uint32_t)error) puts(yaml_error_text(result.error));
    return 0;
}
