/* An allocator that refuses the growth of one number, in the place of malloc, realloc and free; linked with --wrap for each. */
#include <stddef.h>
#include <string.h>

/* The size of a block is stored before it. */
#define HEAD 16

static size_t growths;    /* so many were asked for */
static size_t refused_at; /* the number of the one that is refused, counted from 1; 0: none */
static size_t blocks;     /* so many are in use */

static int is_refused(void) { return ++growths == refused_at; }

#ifdef __cplusplus
extern "C" {
#endif
void *__real_malloc(size_t size);
void *__real_realloc(void *block, size_t size);
void __real_free(void *block);
void *__wrap_malloc(size_t size);
void *__wrap_realloc(void *block, size_t size);
void __wrap_free(void *block);

static void *sized(char *head, size_t size) {
    if (head == NULL) return NULL;
    memcpy(head, &size, sizeof size);
    return head + HEAD;
}

void *__wrap_malloc(size_t size) {
    void *block = is_refused() ? NULL : sized((char *)__real_malloc(size + HEAD), size);
    blocks += block != NULL;
    return block;
}

/* A block that shrinks is no growth. */
void *__wrap_realloc(void *block, size_t size) {
    char *head = (char *)block - HEAD;
    size_t had;
    if (block == NULL) return __wrap_malloc(size);
    memcpy(&had, head, sizeof had);
    if (size > had && is_refused()) return NULL;
    return sized((char *)__real_realloc(head, size + HEAD), size);
}

void __wrap_free(void *block) {
    if (block == NULL) return;
    blocks--;
    __real_free((char *)block - HEAD);
}
#ifdef __cplusplus
}
#endif
