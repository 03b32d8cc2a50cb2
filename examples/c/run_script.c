/* Writes the YAML of a script of events: a call that tells how much room it needs, then one that writes. */
#include <inttypes.h>
#include <stdio.h>
#include <stdlib.h>
#include <string.h>

#include "yaml_c.h"

static const char script[] =
    "portable on\n"
    "+STR any\n"
    "+DOC 1 -\n"
    "+SEQ block 1 - -\n"
    "=VAL any 1 1 - - \"one\"\n"
    "=VAL double 1 1 - - \"two\\n\"\n"
    "-SEQ\n"
    "-DOC 1\n"
    "-STR\n";

static int32_t run(const char *text, uint8_t *out, size_t capacity, struct yaml_c_result *result) {
    return yaml_c_run((const uint8_t *)text, strlen(text), out, capacity, result);
}

int main(void) {
    struct yaml_c_result result;
    if (run(script, NULL, 0, &result) != YAML_C_TOO_SMALL) return 1;
    printf("%zu bytes\n", result.length);
    uint8_t *yaml = malloc(result.length);
    if (yaml == NULL) return 1;
    if (run(script, yaml, result.length, &result) != YAML_C_DONE) return 1;
    fwrite(yaml, 1, result.length, stdout);
    free(yaml);
    if (run("+STR any\n+STR\n", NULL, 0, &result) != YAML_C_BAD_LINE) return 1;
    printf("line %" PRIu64 " can't be read\n", result.line);
    if (run("+STR any\n-DOC 1\n", NULL, 0, &result) != YAML_C_REFUSED) return 1;
    printf("the event of line %" PRIu64 " is refused\n", result.line);
    return 0;
}
