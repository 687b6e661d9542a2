/* The library's heap over malloc, realloc and free, which liboca.a and liboca.so have. C11 or C++11. */
#include <stdbool.h>
#include <stddef.h>
#include <stdint.h>
#include <stdlib.h>

#ifdef __cplusplus
extern "C" {
#endif

struct tried { bool ok; void *at; };
struct tried rattle_alloc(size_t size, size_t align);
struct tried rattle_realloc(void *old, size_t kept, size_t size, size_t align);
void rattle_dealloc(void *at);

static uint8_t nothing[1];

static struct tried answer(void *at) {
    struct tried given = {at != NULL, at != NULL ? at : nothing};
    return given;
}

/* The library asks for blocks aligned to 16 at most, as malloc's are; a block of no bytes is one of a byte. */
struct tried rattle_alloc(size_t size, size_t align) {
    (void)align;
    return answer(malloc(size ? size : 1));
}

/* The first `kept` bytes stay, which realloc does of more; where it is refused the old block stays whole. */
struct tried rattle_realloc(void *old, size_t kept, size_t size, size_t align) {
    (void)kept, (void)align;
    return answer(realloc(old, size ? size : 1));
}

void rattle_dealloc(void *at) { free(at); }

#ifdef __cplusplus
}
#endif
