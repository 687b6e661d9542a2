/* What the tests in C count, and what they print of a value that is not as it must be. Each ends with `return verdict();`. */
#include <stdint.h>
#include <stdio.h>
#include <string.h>

static unsigned long passed, failed;

static inline void compare(const char *what, long got, long wanted) {
    if (got == wanted) passed++;
    else { failed++; printf("WRONG: %s: %ld in place of %ld\n", what, got, wanted); }
}
#define same(what, got, wanted) compare(what, (long)(got), (long)(wanted))

/* A response in a PDU of its own. */
static inline size_t response(uint8_t *out, uint32_t handle, uint8_t status, uint8_t count, const uint8_t *params, uint32_t len) {
    const uint32_t whole = 19 + len, inner = 10 + len;
    const uint8_t front[] = {0x3b, 0, 1, 0, 0, (uint8_t)(whole >> 8), (uint8_t)whole, 3, 0, 1, 0, 0, (uint8_t)(inner >> 8), (uint8_t)inner,
                             (uint8_t)(handle >> 24), (uint8_t)(handle >> 16), (uint8_t)(handle >> 8), (uint8_t)handle, status, count};
    memcpy(out, front, sizeof front);
    memcpy(out + sizeof front, params, len);
    return sizeof front + len;
}

static inline int verdict(void) {
    printf("%lu passed, %lu failed\n", passed, failed);
    return failed != 0;
}
