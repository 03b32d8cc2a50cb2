/* Canonical bytes of lists within one another. */
#include <stdint.h>
#include <string.h>

/* Puts a line after so many indentations; returns the length with it. */
static size_t put_line(uint8_t *bytes, size_t length, size_t depth, const char *line) {
    size_t width = strlen(line);
    memset(bytes + length, ' ', 2 * depth);
    memcpy(bytes + length + 2 * depth, line, width);
    return length + 2 * depth + width;
}

/* So many lists, each the only item of the one around it, begun one by one, and this line in the innermost; fills `bytes`, and returns how
 * many they are. */
static size_t begun(uint8_t *bytes, size_t lists, const char *innermost) {
    size_t depth, length = put_line(bytes, 0, 0, "---\n");
    for (depth = 0; depth < lists; depth++) length = put_line(bytes, length, depth, "!!seq [\n");
    return put_line(bytes, length, lists, innermost);
}

/* The same with their ends. */
static size_t nested(uint8_t *bytes, size_t lists, const char *innermost) {
    size_t depth, length = begun(bytes, lists, innermost);
    for (depth = lists - 1; depth > 0; depth--) length = put_line(bytes, length, depth, "],\n");
    return put_line(bytes, length, 0, "]\n");
}
