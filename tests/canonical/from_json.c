/* The results of yaml_c_canonical_from_json for texts on standard input, each after its length in bytes and a line break: two for each, a line with the
 * line, the column, the number of bytes and the words of the status, and then the bytes. For the first names must differ, for the second they may
 * repeat. */
#include <stdio.h>
#include <stdlib.h>
#include <string.h>

#include "yaml_c.h"

enum { MARGIN = 16 };

/* Whether so many bytes have this value. */
static int all(const uint8_t *bytes, size_t count, uint8_t value) {
    while (count > 0)
        if (bytes[--count] != value) return 0;
    return 1;
}

/* Writes to a buffer of just the length that a call without one tells, and to no byte after it. */
static int convert(const uint8_t *text, size_t length, uint32_t allow_duplicates) {
    struct yaml_c_canonical_settings settings;
    struct yaml_c_result first, result;
    uint8_t *out = NULL;
    size_t written = 0;
    int32_t status;
    settings.allow_duplicates = allow_duplicates;
    memset(&first, 0xff, sizeof first);
    status = yaml_c_canonical_from_json(text, length, &settings, NULL, 0, &first);
    result = first;
    if (status == YAML_C_TOO_SMALL) {
        out = malloc(first.length + MARGIN);
        if (!out) return 1;
        memset(out, 0xa5, first.length + MARGIN);
        memset(&result, 0xff, sizeof result);
        status = yaml_c_canonical_from_json(text, length, &settings, out, first.length, &result);
        if (status == YAML_C_DONE) written = result.length;
        if (written != first.length || !all(out + written, MARGIN, 0xa5)) return 1;
    }
    printf("%lu %lu %lu %s\n", (unsigned long)result.line, (unsigned long)result.column, (unsigned long)written,
           result.event || result.error || result.length != written ? "not what the status has" : yaml_c_status_text(status));
    if (written > 0) fwrite(out, 1, written, stdout);
    free(out);
    return 0;
}

int main(void) {
    unsigned long length;
    while (scanf("%lu", &length) == 1) {
        uint8_t *text = malloc(length + 1);
        if (getchar() != '\n' || !text || fread(text, 1, length, stdin) != length) return 1;
        if (convert(text, length, 0) || convert(text, length, 1)) return 1;
        free(text);
    }
    return 0;
}
