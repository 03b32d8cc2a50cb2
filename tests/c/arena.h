/* An arena of texts, which spans name. */
#include <stdint.h>
#include <string.h>

#include "yaml_c.h"

static uint8_t texts[256];
static size_t texts_len;

/* Adds a text; returns its span. */
static struct yaml_c_span place(const char *text) {
    struct yaml_c_span span;
    span.start = texts_len;
    span.length = strlen(text);
    memcpy(texts + texts_len, text, span.length);
    texts_len += span.length;
    return span;
}
