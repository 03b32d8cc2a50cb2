/* The answers of yaml_c_is_canonical to texts on standard input, each after its length in bytes and a line break: two lines for each, with the line,
 * the column and the words of the status. For the first line keys must differ, for the second they may repeat. */
#include <stdio.h>
#include <stdlib.h>
#include <string.h>

#include "yaml_c.h"

static void check(const uint8_t *bytes, size_t length, uint32_t allow_duplicates) {
    struct yaml_c_canonical_settings settings;
    struct yaml_c_result result;
    int32_t status;
    settings.allow_duplicates = allow_duplicates;
    memset(&result, 0xff, sizeof result);
    status = yaml_c_is_canonical(bytes, length, &settings, &result);
    printf("%lu %lu %s\n", (unsigned long)result.line, (unsigned long)result.column,
           result.length || result.event || result.error ? "not a place alone" : yaml_c_status_text(status));
}

int main(void) {
    unsigned long length;
    while (scanf("%lu", &length) == 1) {
        uint8_t *bytes = malloc(length + 1);
        if (getchar() != '\n' || !bytes || fread(bytes, 1, length, stdin) != length) return 1;
        check(bytes, length, 0);
        check(bytes, length, 1);
        free(bytes);
    }
    return 0;
}
