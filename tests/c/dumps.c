/* Lines of comments, and documents of nodes on a kept emitter: the status of each call, and the output, which is written here by the rules of
 * docs/GUIDE.md. Prints a line for each call that isn't as written here. */
#include "arena.h"
#include "calls.h"

#define COUNT(array) (sizeof(array) / sizeof *(array))

/* ---- lines of comments */

/* Writes a text as lines of comments to a buffer of `capacity` bytes, of which only those of the lines change. */
static void comments(const char *text, size_t length, size_t capacity, int32_t status, const char *lines) {
    uint8_t out[64];
    size_t i, size = strlen(lines), written = status == YAML_C_DONE ? size : 0;
    int32_t got;
    memset(out, 0xa5, sizeof out);
    memset(&result, 0xff, sizeof result);
    got = yaml_c_comment_lines(text, length, capacity ? out : NULL, capacity, &result);
    gives(lines, got, status, size, 0);
    for (i = written; i < sizeof out && out[i] == 0xa5; i++) {}
    if (i == sizeof out && memcmp(out, lines, written) == 0) return;
    failures++;
    printf("%s: other bytes\n", lines);
}

static void headings(void) {
    comments("a", 1, 64, YAML_C_DONE, "# a\n");
    comments("one\n\ntwo\n", 9, 64, YAML_C_DONE, "# one\n#\n# two\n");
    comments("\n", 1, 64, YAML_C_DONE, "#\n");
    comments(NULL, 0, 0, YAML_C_DONE, "");
    comments("# a: [", 6, 64, YAML_C_DONE, "# # a: [\n");
    comments("a\rb\1c\177", 6, 64, YAML_C_DONE, "# a b c \n");
    comments("\xc2\x85\xe2\x80\xa8\xe2\x80\xa9", 8, 64, YAML_C_DONE, "#    \n");
    comments("\xc3\xa9", 2, 64, YAML_C_DONE, "# \xc3\xa9\n");
    comments("one\ntwo", 7, 12, YAML_C_DONE, "# one\n# two\n");
    comments("one\ntwo", 7, 11, YAML_C_TOO_SMALL, "# one\n# two\n");
    comments("one", 3, 0, YAML_C_TOO_SMALL, "# one\n");
    comments("a\xff", 2, 64, YAML_C_BAD_EVENT, "");
}

/* ---- documents of nodes */

static struct yaml_c_emitter kept;
static struct yaml_c_emitter *emitter = &kept;
static struct yaml_c_settings settings;
static struct yaml_c_node nodes[8];
static size_t count;

static void begin(void) {
    memset(nodes, 0, sizeof nodes);
    count = 0;
    texts_len = 0;
}

static struct yaml_c_node *node(uint32_t kind, uint32_t style, const char *tag) {
    struct yaml_c_node *last = &nodes[count++];
    last->kind = kind;
    last->style = style;
    last->has_tag = tag != NULL;
    if (tag) last->tag = place(tag);
    return last;
}

static void scalar(const char *tag, const char *value) {
    struct yaml_c_node *last = node(YAML_C_SCALAR_NODE, YAML_C_ANY_SCALAR_STYLE, tag);
    last->content = place(value);
}

static void collection(uint32_t kind, uint32_t style, size_t start, size_t length) {
    struct yaml_c_node *last = node(kind, style, NULL);
    last->content.start = start;
    last->content.length = length;
}

static void make(void) {
    memset(&result, 0, sizeof result);
    gives("a new emitter", yaml_c_emitter_new(&settings, emitter), YAML_C_DONE, 0, 0);
}

/* Gives the nodes, with an array of numbers. Before the call the result holds other bytes than those that the call writes. */
static void dump(const char *name, const int32_t *numbers, size_t length, int32_t status, uint32_t error) {
    memset(&result, 0xff, sizeof result);
    gives(name, yaml_c_emitter_dump(emitter, nodes, count, numbers, length, texts, texts_len, &result), status, 0, error);
}

/* Ends the stream, takes the output, which must be these bytes, and frees the emitter. */
static void written(const char *bytes) {
    uint8_t out[256];
    int32_t status;
    memset(&result, 0xff, sizeof result);
    gives("the end of the stream", yaml_c_emitter_finish(emitter, &result), YAML_C_DONE, 0, 0);
    status = yaml_c_emitter_take_output(emitter, out, sizeof out, &result);
    calls++;
    if (status != YAML_C_DONE || result.length != strlen(bytes) || memcmp(out, bytes, result.length) != 0) {
        failures++;
        printf("in place of\n%s%.*s", bytes, status == YAML_C_DONE ? (int)result.length : 0, (const char *)out);
    }
    yaml_c_emitter_delete(emitter);
}

/* A document of one scalar. */
static void alone(const char *tag, const char *value, const char *bytes) {
    begin();
    scalar(tag, value);
    make();
    dump(value, NULL, 0, YAML_C_DONE, 0);
    written(bytes);
}

/* Each scalar keeps its tag. */
static void typed(void) {
    alone(NULL, "a", "a\n");
    alone(NULL, "no", "'no'\n");
    alone(YAML_C_STR_TAG, "3", "'3'\n");
    alone(YAML_C_INT_TAG, "3", "3\n");
    alone(YAML_C_INT_TAG, "010", "!!int 010\n");
    alone(YAML_C_FLOAT_TAG, "1.50", "1.50\n");
    alone(YAML_C_BOOL_TAG, "yes", "!!bool yes\n");
    alone(YAML_C_NULL_TAG, "~", "~\n");
    alone("!mine", "3", "!mine 3\n");
}

/* Collections, and nodes that are shared or not reached. */
static void graphs(void) {
    static const int32_t items[] = {2, 2};
    static const int32_t pairs[] = {9, 2, 3, 4, 5, 9};
    static const int32_t itself[] = {1};
    begin();
    collection(YAML_C_SEQUENCE_NODE, YAML_C_BLOCK, 0, 2);
    scalar(YAML_C_INT_TAG, "3");
    scalar(NULL, "not reached");
    make();
    dump("a shared item", items, COUNT(items), YAML_C_DONE, 0);
    written("- &id001 3\n- *id001\n");
    begin();
    collection(YAML_C_MAPPING_NODE, YAML_C_ANY_COLLECTION_STYLE, 1, 4);
    scalar(NULL, "country");
    scalar(NULL, "no");
    scalar(NULL, "size");
    scalar(YAML_C_INT_TAG, "3");
    make();
    dump("a mapping", pairs, COUNT(pairs), YAML_C_DONE, 0);
    written("country: 'no'\nsize: 3\n");
    nodes[0].style = YAML_C_FLOW;
    nodes[0].has_tag = 1;
    nodes[0].tag = place("!ports");
    make();
    dump("a mapping with a tag", pairs, COUNT(pairs), YAML_C_DONE, 0);
    written("!ports {country: 'no', size: 3}\n");
    begin();
    collection(YAML_C_SEQUENCE_NODE, YAML_C_BLOCK, 0, 1);
    make();
    dump("a sequence that holds itself", itself, 1, YAML_C_DONE, 0);
    written("&id001\n- *id001\n");
    begin();
    collection(YAML_C_MAPPING_NODE, YAML_C_ANY_COLLECTION_STYLE, 0, 0);
    make();
    dump("no pairs", NULL, 0, YAML_C_DONE, 0);
    written("{}\n");
}

/* Roots among documents that are written value by value. */
static void documents(void) {
    settings = yaml_c_settings_for_values();
    begin();
    scalar(YAML_C_INT_TAG, "3");
    make();
    gives("a text", yaml_c_emitter_string(emitter, "one", &result), YAML_C_DONE, 0, 0);
    dump("a second root", NULL, 0, YAML_C_MISPLACED, 0);
    gives("the next document", yaml_c_emitter_next_document(emitter, &result), YAML_C_DONE, 0, 0);
    dump("a root", NULL, 0, YAML_C_DONE, 0);
    dump("a third root", NULL, 0, YAML_C_MISPLACED, 0);
    gives("a text after the root", yaml_c_emitter_string(emitter, "one", &result), YAML_C_MISPLACED, 0, 0);
    gives("the next document", yaml_c_emitter_next_document(emitter, &result), YAML_C_DONE, 0, 0);
    gives("a sequence", yaml_c_emitter_begin_sequence(emitter, YAML_C_FLOW, &result), YAML_C_DONE, 0, 0);
    dump("a root in a sequence", NULL, 0, YAML_C_MISPLACED, 0);
    gives("its end", yaml_c_emitter_end(emitter, &result), YAML_C_DONE, 0, 0);
    written("--- one\n--- 3\n--- []\n");
    make();
    dump("the first root", NULL, 0, YAML_C_DONE, 0);
    gives("the next document", yaml_c_emitter_next_document(emitter, &result), YAML_C_DONE, 0, 0);
    gives("an integer", yaml_c_emitter_int(emitter, 4, &result), YAML_C_DONE, 0, 0);
    written("--- 3\n--- 4\n");
    memset(&settings, 0, sizeof settings);
}

/* Nodes that have no reading: nothing changed, so a text is the first root then. */
static void unreadable(const char *name, const int32_t *numbers, size_t length) {
    make();
    dump(name, numbers, length, YAML_C_BAD_EVENT, 0);
    gives("a root", yaml_c_emitter_string(emitter, "a", &result), YAML_C_DONE, 0, 0);
    dump("a second root", numbers, length, YAML_C_MISPLACED, 0);
    written("a\n");
}

static void bad(void) {
    static const int32_t numbers[] = {2, 2, 3, 0, -1};
    begin();
    unreadable("no nodes", NULL, 0);
    scalar(NULL, "a");
    nodes[0].kind = 0;
    unreadable("no such kind", NULL, 0);
    nodes[0].kind = 4;
    unreadable("no such kind", NULL, 0);
    nodes[0].kind = YAML_C_SCALAR_NODE;
    nodes[0].style = 6;
    unreadable("no such style of scalars", NULL, 0);
    nodes[0].style = 0;
    nodes[0].content.length = 2;
    unreadable("a text past the arena", NULL, 0);
    nodes[0].content.length = 1;
    texts[0] = 0xff;
    unreadable("a text that isn't UTF-8", NULL, 0);
    texts[0] = 'a';
    nodes[0].has_tag = 1;
    nodes[0].tag.start = 2;
    unreadable("a tag past the arena", NULL, 0);
    begin();
    collection(YAML_C_SEQUENCE_NODE, 3, 0, 2);
    scalar(NULL, "a");
    unreadable("no such style of sequences", numbers, 5);
    nodes[0].style = 0;
    unreadable("items past the array", numbers, 1);
    nodes[0].content.start = 2;
    nodes[0].content.length = 1;
    unreadable("an item of a number past the nodes", numbers, 5);
    nodes[0].content.start = 3;
    unreadable("an item of the number 0", numbers, 5);
    nodes[0].content.start = 4;
    unreadable("an item of the number -1", numbers, 5);
    nodes[0].kind = YAML_C_MAPPING_NODE;
    nodes[0].content.start = 0;
    nodes[0].content.length = 3;
    unreadable("a key without a value", numbers, 5);
    nodes[0].content.length = 4;
    unreadable("a value of a number past the nodes", numbers, 5);
    nodes[0].content.length = 2;
    nodes[0].style = 3;
    unreadable("no such style of mappings", numbers, 5);
    nodes[0].style = 0;
    make();
    dump("a mapping", numbers, 5, YAML_C_DONE, 0);
    written("&id001 a: *id001\n");
}

/* An emitter that failed: each later call tells the same. */
static void refused(void) {
    static const int32_t items[] = {2, 3};
    begin();
    collection(YAML_C_SEQUENCE_NODE, YAML_C_BLOCK, 0, 2);
    scalar(NULL, "a");
    scalar("", "b");
    make();
    dump("an empty tag", items, 2, YAML_C_REFUSED, YAML_C_TAG_EMPTY);
    dump("nodes after an error", items, 2, YAML_C_REFUSED, YAML_C_TAG_EMPTY);
    count = 0;
    dump("no nodes after an error", items, 2, YAML_C_REFUSED, YAML_C_TAG_EMPTY);
    gives("a text after an error", yaml_c_emitter_string(emitter, "a", &result), YAML_C_REFUSED, 0, YAML_C_TAG_EMPTY);
    yaml_c_emitter_delete(emitter);
}

int main(void) {
    headings();
    typed();
    graphs();
    documents();
    bad();
    refused();
    return ended();
}
