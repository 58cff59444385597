/* What the library asks of C: memory, by malloc, realloc and free. */
#include <stdbool.h>
#include <stddef.h>
#include <stdlib.h>

struct request {
    bool granted;
    void *block;
};

/* a block that is never null, also where none was granted */
static struct request request(void *block) {
    static char none;
    return (struct request){block != NULL, block != NULL ? block : &none};
}

struct request rattle_alloc(size_t size, size_t align) {
    return request(malloc(size != 0 ? size : align));
}

struct request rattle_realloc(void *block, size_t kept, size_t size, size_t align) {
    (void)kept;
    return request(realloc(block, size != 0 ? size : align));
}

void rattle_dealloc(void *block) {
    free(block);
}
