/* The three functions that the proved archive asks of its host, over the heap of the C library. */
#include <stddef.h>
#include <stdint.h>
#include <stdlib.h>

/* `ok` is 0 or 1, and `at` is never null. */
typedef struct { uint64_t ok; void *at; } block;

static char nothing[16];

static block told(void *at) {
    block b = { at != NULL, at ? at : nothing };
    return b;
}

__attribute__((visibility("hidden"))) block rattle_alloc(size_t size, size_t align) { return told(malloc(size ? size : align)); }

__attribute__((visibility("hidden"))) block rattle_realloc(void *at, size_t old, size_t size, size_t align) {
    (void)old;
    return told(realloc(at, size ? size : align));
}

__attribute__((visibility("hidden"))) void rattle_dealloc(void *at) { free(at); }
