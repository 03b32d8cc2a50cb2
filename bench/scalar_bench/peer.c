/* Times libyaml's emitter on the values of main.rt: a root scalar in the named style, width 80, unicode on.
 * cc -O2 -o peer peer.c -lyaml; lines of standard input as there. */
#include <stdio.h>
#include <stdlib.h>
#include <string.h>
#include <time.h>
#include <yaml.h>

static const char *prose = "On a slow warm evening in July all the boats had come home before supper; nobody on the "
    "harbour wall looked up, for it's known that boats will sail as they like in a summer as dry as this one. ";
static const char *lines = "On a slow warm evening in July all the boats had come home before supper; nobody on the "
    "harbour wall looked up, for it's known that boats will sail as they like in a summer as dry as this one.\n"
    "She said \"so be it\", shut the window and went on reading where she had left off the evening before.\n\n";
static unsigned char *out; static size_t out_n, out_cap;

static int sink(void *data, unsigned char *bytes, size_t n) {
    (void)data;
    while (out_n + n > out_cap) { out_cap = out_cap ? out_cap * 2 : 65536; out = realloc(out, out_cap); }
    memcpy(out + out_n, bytes, n); out_n += n; return 1;
}

int main(void) {
    char style[16]; size_t count;
    while (scanf("%15s %zu", style, &count) == 2) {
        int plain = !strcmp(style, "plain");
        const char *paragraph = plain ? prose : lines;
        size_t one = strlen(paragraph), n = 0;
        char *value = malloc(one * count + 16);
        for (size_t i = 0; i < count; i++) { memcpy(value + n, paragraph, one); n += one; }
        if (plain) { memcpy(value + n, "The end.", 8); n += 8; }
        yaml_scalar_style_t how = plain ? YAML_PLAIN_SCALAR_STYLE : !strcmp(style, "single") ? YAML_SINGLE_QUOTED_SCALAR_STYLE
            : !strcmp(style, "double") ? YAML_DOUBLE_QUOTED_SCALAR_STYLE : !strcmp(style, "literal") ? YAML_LITERAL_SCALAR_STYLE : YAML_FOLDED_SCALAR_STYLE;
        yaml_emitter_t emitter; yaml_event_t event;
        out_n = 0;
        yaml_emitter_initialize(&emitter); yaml_emitter_set_output(&emitter, sink, NULL);
        yaml_emitter_set_width(&emitter, 80); yaml_emitter_set_unicode(&emitter, 1);
        yaml_stream_start_event_initialize(&event, YAML_UTF8_ENCODING); yaml_emitter_emit(&emitter, &event);
        yaml_document_start_event_initialize(&event, NULL, NULL, NULL, 1); yaml_emitter_emit(&emitter, &event);
        yaml_scalar_event_initialize(&event, NULL, NULL, (yaml_char_t *)value, (int)n, 1, 1, how);
        struct timespec a, b; clock_gettime(CLOCK_MONOTONIC, &a);
        int good = yaml_emitter_emit(&emitter, &event);
        yaml_emitter_flush(&emitter);
        clock_gettime(CLOCK_MONOTONIC, &b);
        printf("%s %zu %zu %ld %s\n", style, n, out_n, (b.tv_sec - a.tv_sec) * 1000000L + (b.tv_nsec - a.tv_nsec) / 1000, good ? "true" : "false");
        yaml_emitter_delete(&emitter); free(value);
    }
    return 0;
}
