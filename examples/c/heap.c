/* A heap for firmware that has no malloc: an arena of fixed size, from which nothing is given back but by the last block where it shrinks.
 * Link it with liboca_c.a in place of liboca.a. ARENA is its size in bytes, any number; docs/EMBEDDING-C.md says how much a device takes. C11
 * or C++11. */
#include <stdbool.h>
#include <stddef.h>
#include <stdint.h>
#include <string.h>

#ifndef ARENA
#define ARENA (2u << 20)
#endif
#define ALIGNMENT 16u /* of each block; the library asks for no more */

#ifdef __cplusplus
#define ALIGNED alignas(ALIGNMENT)
extern "C" {
#else
#define ALIGNED _Alignas(ALIGNMENT)
#endif

struct tried { bool ok; void *at; };
struct tried rattle_alloc(size_t size, size_t align);
struct tried rattle_realloc(void *old, size_t kept, size_t size, size_t align);
void rattle_dealloc(void *at);

ALIGNED static uint8_t arena[(ARENA) + 1u]; /* no array has 0 bytes */
ALIGNED static uint8_t nothing[ALIGNMENT];

/* How many bytes of the arena are handed out at most, how many are (with what stands between blocks), and how often was asked. Before each
 * block its size stands. */
size_t heap_room = ARENA, heap_used, heap_requests;

struct tried rattle_alloc(size_t size, size_t align) {
    struct tried refused = {false, nothing}, given = {true, nothing};
    size_t at = ((heap_used + (ALIGNMENT - 1)) & ~(size_t)(ALIGNMENT - 1)) + ALIGNMENT, takes = size ? size : 1;
    heap_requests++;
    if (align > ALIGNMENT || at > heap_room || takes > heap_room - at) return refused;
    given.at = arena + at;
    memcpy(arena + at - ALIGNMENT, &takes, sizeof takes);
    heap_used = at + takes;
    return given;
}

/* A block that shrinks stays where it is. */
struct tried rattle_realloc(void *old, size_t kept, size_t size, size_t align) {
    struct tried given = {true, old};
    uint8_t *block = (uint8_t *)old;
    size_t has = 0, takes = size ? size : 1;
    memcpy(&has, block - ALIGNMENT, sizeof has);
    if (takes > has || align > ALIGNMENT) {
        given = rattle_alloc(size, align);
        if (given.ok) memcpy(given.at, old, kept < size ? kept : size);
    } else if (block + has == arena + heap_used) {
        heap_used -= has - takes;
        memcpy(block - ALIGNMENT, &takes, sizeof takes);
    }
    return given;
}

void rattle_dealloc(void *at) { (void)at; }

#ifdef __cplusplus
}
#endif
