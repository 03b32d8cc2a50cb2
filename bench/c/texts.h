/* The texts of the scalars that both programs emit, one after another, again and again. */
#include <stddef.h>
#include <string.h>

static const char *const texts[] = {"name", "a short text", "8080/tcp", "yes", "of some forty letters, as lines often are", "./run.sh", "100Mi", "x: y"};
#define TEXTS (sizeof texts / sizeof *texts)
