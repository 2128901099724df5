/* The heap calls of the library over malloc, realloc and free: each answers whether there is memory, and where it is. */
#include <stdint.h>
#include <stdlib.h>

typedef struct {
    uint64_t ok;
    void *at;
} Tried;

static char none[16];

static Tried tried(void *at) {
    return (Tried){at != NULL, at ? at : none};
}

Tried rattle_alloc(size_t size, size_t alignment);
Tried rattle_realloc(void *old, size_t kept, size_t size, size_t alignment);
void rattle_dealloc(void *at);

Tried rattle_alloc(size_t size, size_t alignment) {
    return tried(malloc(size ? size : alignment));
}

Tried rattle_realloc(void *old, size_t kept, size_t size, size_t alignment) {
    (void)kept;
    return tried(realloc(old, size ? size : alignment));
}

void rattle_dealloc(void *at) {
    free(at);
}
