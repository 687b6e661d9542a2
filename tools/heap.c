/* The arena of examples/c/heap.c, of each size from 0 to 4,096 bytes: blocks of many sizes are asked for until none is given. Each must
 * lie within the arena's bytes, aligned, behind the block before; what is refused must not fit. C11 and C++11. */
#define ARENA 4096u
#include "../examples/c/heap.c"
#include <assert.h>
#include "c_checks.h"

/* The arena says how it is aligned: that it lies so here anyway may be the compiler's doing. */
static_assert(__alignof__(arena) >= ALIGNMENT, "the arena is aligned");

static void expect(bool good, size_t room, size_t size) {
    if (good) passed++;
    else if (failed++ < 9) printf("WRONG: a block of %zu in an arena of %zu\n", size, room);
}

/* Asks for a block, writes each byte of it, and answers whether it was given. */
static bool asks(size_t room, size_t size, size_t align) {
    size_t before = heap_used, at = (before + 15) / 16 * 16 + 16;
    struct tried given = rattle_alloc(size, align);
    bool fits = align <= 16 && at <= room && size <= room - at && (size > 0 || at < room);
    expect(given.ok == fits, room, size);
    if (!given.ok || !fits) {
        expect(heap_used == before, room, size);
        return false;
    }
    expect((uintptr_t)given.at % 16 == 0 && (uint8_t *)given.at == arena + at && at + size <= heap_used && heap_used <= room, room, size);
    memset(given.at, 0xa5, size);
    return true;
}

/* Two blocks of 40 bytes: each shrinks where it is, the last one gives back what it no longer has; what grows is copied, and a growth that
 * finds no room leaves it whole. */
static void resizes(size_t room) {
    uint8_t kept[40];
    heap_room = room;
    heap_used = 0;
    for (size_t i = 0; i < sizeof kept; i++) kept[i] = (uint8_t)(i * 7 + 1);
    struct tried first = rattle_alloc(40, 16), last = rattle_alloc(40, 16);
    if (!last.ok) return;
    memcpy(first.at, kept, sizeof kept);
    memcpy(last.at, kept, sizeof kept);
    const size_t used = heap_used;
    struct tried same = rattle_realloc(first.at, 3, 5, 16);
    expect(same.ok && same.at == first.at && heap_used == used, room, 5);
    same = rattle_realloc(first.at, 3, 40, 16);
    expect(same.ok && same.at == first.at && heap_used == used, room, 40);
    same = rattle_realloc(last.at, 0, 0, 16);
    expect(same.ok && same.at == last.at && heap_used == used - 39, room, 0);
    heap_used = 0;
    first = rattle_alloc(40, 16), last = rattle_alloc(40, 16);
    memcpy(last.at, kept, sizeof kept);
    same = rattle_realloc(last.at, 9, 10, 16);
    expect(same.ok && same.at == last.at && heap_used == used - 30, room, 10);
    struct tried more = rattle_realloc(last.at, 9, 11, 16), none = rattle_realloc(last.at, 9, SIZE_MAX, 16);
    const bool fits = (used - 30 + 15) / 16 * 16 + 16 + 11 <= room;
    expect(more.ok == fits && (!fits || (more.at != last.at && memcmp(more.at, kept, 9) == 0)) && !none.ok, room, 11);
    expect(memcmp(last.at, kept, 10) == 0, room, 10);
}

int main(void) {
    static const size_t sizes[] = {0, 1, 15, 16, 17, 40, 255, 1000, 4095, 4096, 4097, SIZE_MAX, SIZE_MAX - 15};
    for (size_t room = 0; room <= 4096; room++) {
        resizes(room);
        for (size_t i = 0; i < sizeof sizes / sizeof *sizes; i++) {
            heap_room = room;
            heap_used = 0;
            size_t given = 0;
            while (given <= room && asks(room, sizes[i], 16)) given++;
            asks(room, 1, 32);
            asks(room, 1, 8);
            asks(room, SIZE_MAX, 16); /* behind a block, where a sum with its place would wrap */
            asks(room, SIZE_MAX - 15, 16);
        }
    }
    return verdict();
}
