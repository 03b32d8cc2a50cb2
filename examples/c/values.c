/* Writes a document value by value. */
#include <stdio.h>

#include "yaml_c.h"

int main(void) {
    struct yaml_c_settings settings = yaml_c_settings_for_values();
    struct yaml_c_emitter emitter;
    struct yaml_c_result result;
    uint8_t yaml[256];
    int32_t failed;
    if (yaml_c_emitter_new(&settings, &emitter) != YAML_C_DONE) return 1;
    failed = yaml_c_emitter_begin_mapping(&emitter, YAML_C_ANY_COLLECTION_STYLE, &result);
    failed |= yaml_c_emitter_string(&emitter, "country", &result);
    failed |= yaml_c_emitter_string(&emitter, "no", &result);
    failed |= yaml_c_emitter_string(&emitter, "ports", &result);
    failed |= yaml_c_emitter_begin_sequence(&emitter, YAML_C_FLOW, &result);
    failed |= yaml_c_emitter_int(&emitter, 80, &result);
    failed |= yaml_c_emitter_int(&emitter, 443, &result);
    failed |= yaml_c_emitter_end(&emitter, &result);
    failed |= yaml_c_emitter_string(&emitter, "share", &result);
    failed |= yaml_c_emitter_double(&emitter, 0.5, &result);
    failed |= yaml_c_emitter_string(&emitter, "proxy", &result);
    failed |= yaml_c_emitter_null(&emitter, &result);
    failed |= yaml_c_emitter_end(&emitter, &result);
    failed |= yaml_c_emitter_finish(&emitter, &result);
    failed |= yaml_c_emitter_take_output(&emitter, yaml, sizeof yaml, &result);
    if (!failed) fwrite(yaml, 1, result.length, stdout);
    yaml_c_emitter_delete(&emitter);
    return failed != 0;
}
