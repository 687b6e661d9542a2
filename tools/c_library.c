/* Each call of the C library on a closed handle, at its limits, and once as it should be: the calls are rows, and here is what they need. It prints
 * what is wrong. With a word, of a socket alone, over tools/unreliable.c: whether receives are interrupted. */
#define _POSIX_C_SOURCE 200809L
#include <oca.h>

#include <fcntl.h>
#include <signal.h>
#include <sys/time.h>

#include "c_checks.h"

#ifdef COUNTS_BLOCKS
/* A heap that counts the blocks that were not given back. */
#include <stdlib.h>
struct tried { bool ok; void *at; };
static long blocks, requests, refused = -1; /* the request of this number is refused, counted from 0 */
static size_t asked, held; /* bytes: in all, and of the blocks that were not given back; before each block its size stands */
static struct tried sized(bool may_be, size_t *block, size_t size) {
    struct tried given = {requests++ != refused && may_be, NULL};
    if (!given.ok) return given;
    held += size - (block ? *block : 0), asked += size, blocks += !block;
    block = (size_t *)realloc(block, size + 16);
    *block = size;
    given.at = (char *)block + 16;
    return given;
}
struct tried rattle_alloc(size_t size, size_t align) { return sized(align <= 16, NULL, size); }
struct tried rattle_realloc(void *old, size_t kept, size_t size, size_t align) {
    return sized(align <= 16 && kept <= size, (size_t *)(void *)((char *)old - 16), size);
}
void rattle_dealloc(void *at) {
    size_t *block = (size_t *)(void *)((char *)at - 16);
    held -= *block, blocks--;
    free(block);
}
#else
static const long blocks = 0;
static const size_t asked = 0;
#endif

static const uint8_t *text(const char *words) { return (const uint8_t *)words; }

static const uint8_t get_state[] = {0x3b, 0, 1, 0, 0, 0, 0x1a, 1, 0, 1, 0, 0, 0, 0x11, 0, 0, 0, 1, 0, 0, 0x10, 1, 0, 4, 0, 1, 0};
static const uint8_t muted[] = {0x3b, 0, 1, 0, 0, 0, 0x14, 3, 0, 1, 0, 0, 0, 0x0b, 0, 0, 0, 1, 0, 1, 1};

static const struct oca_name positions[] = {{3, "off"}, {3, "low"}, {4, "high"}};
static const struct oca_name bad_name[] = {{1, {0xff}}}, long_name[] = {{65, "off"}};

static const uint8_t keep_alive[] = {0x3b, 0, 1, 0, 0, 0, 0x0b, 4, 0, 1, 0, 5};
static const uint8_t unmute[] = {0x3b, 0, 1, 0, 0, 0, 0x1b, 1, 0, 1, 0, 0, 0, 0x12, 0, 0, 0, 2, 0, 0, 0x10, 1, 0, 4, 0, 2, 1, 2};
static const uint8_t done[] = {0x3b, 0, 1, 0, 0, 0, 0x13, 3, 0, 1, 0, 0, 0, 0x0a, 0, 0, 0, 2, 0, 0};

/* So many keep-alives, and then an unmute, as one datagram. */
static size_t keep_alives(uint8_t *out, size_t count, bool with_unmute) {
    size_t at = 0;
    for (; count > 0; count--, at += sizeof keep_alive) memcpy(out + at, keep_alive, sizeof keep_alive);
    if (with_unmute) memcpy(out + at, unmute, sizeof unmute), at += sizeof unmute;
    return at;
}

/* A command in a PDU of its own. */
static size_t command(uint8_t *out, uint32_t handle, uint16_t ono, uint8_t level, uint8_t index, uint8_t count, const uint8_t *params, uint8_t size) {
    const uint8_t front[] = {0x3b, 0, 1, 0, 0, 0, (uint8_t)(26 + size), 1, 0, 1, 0, 0, 0, (uint8_t)(17 + size), 0, 0, (uint8_t)(handle >> 8), (uint8_t)handle,
                             0, 0, (uint8_t)(ono >> 8), (uint8_t)ono, 0, level, 0, index, count};
    memcpy(out, front, sizeof front);
    memcpy(out + sizeof front, params, size);
    return sizeof front + size;
}

/* A response in a PDU of its own, with so many parameters, which begin with the handle and rise. */
static size_t answer_of(uint8_t *out, uint32_t handle, uint32_t status, uint8_t count, uint32_t params) {
    uint8_t rising[OCA_MOST_ANSWER];
    for (uint32_t i = 0; i < params; i++) rising[i] = (uint8_t)(handle + i);
    return response(out, handle, (uint8_t)status, count, rising, params);
}

/* Opens a link of the full size, or a small one. */
static enum oca_result opened_of(struct oca_link *l, bool is_small, uint32_t ip, uint16_t port, uint32_t first, uint64_t now, uint8_t span) {
    return is_small ? oca_link_open_small(l, ip, port, first, now, span) : oca_link_open(l, ip, port, first, now, span);
}

/* The status of a datagram's only response. */
static uint32_t status_of(struct oca_device *d) {
    uint8_t bytes[OCA_MOST_BYTES] = {0};
    size_t size = 0;
    return oca_device_packet(d, 0, bytes, sizeof bytes, &size) == OCA_DONE ? bytes[18] : 99;
}

static enum oca_result spec_added(struct oca_device *d, struct oca_spec spec) { return oca_device_add(d, 4096, 4200, &spec); }

static bool same_object(const struct oca_spec *told, const struct oca_spec *given) { return memcmp(told, given, sizeof *told) == 0; }

/* A device over a socket, and a panel at it: what the server calls, and between what. */
struct watched { struct oca_server *server; int held, locks, calls, stores; uint32_t last; bool is_wrong; int peers, executed, others; };
static void holds(void *context) {
    struct watched *it = (struct watched *)context;
    it->is_wrong = it->is_wrong || it->held++ != 0;
    it->locks++;
}
static void lets_go(void *context) {
    struct watched *it = (struct watched *)context;
    it->is_wrong = it->is_wrong || it->held-- != 1;
}
static void writes(void *context, uint32_t ono) {
    struct watched *it = (struct watched *)context;
    it->is_wrong = it->is_wrong || it->held != 1 || oca_serve(it->server, 0) != OCA_NOTHING;
    oca_serve_end(it->server);
    it->last = ono;
    it->calls++;
}
static void wrote_by(void *context, uint32_t ono, uint32_t ip, uint16_t port) {
    struct watched *it = (struct watched *)context;
    it->is_wrong = it->is_wrong || it->held != 1 || it->last != ono || ip != 0x7F000001 || port == 0;
    it->peers++;
}
static void did_for(void *context, const struct oca_effect *effect, uint32_t ip, uint16_t port) {
    struct watched *it = (struct watched *)context;
    it->is_wrong = it->is_wrong || it->held != 1 || effect->ono != 4097 || effect->method != OCA_SET_STATE || ip != 0x7F000001 || port == 0;
    it->executed += effect->outcome == OCA_EXECUTED && effect->status == OCA_STATUS_OK;
    it->others += effect->outcome != OCA_EXECUTED;
}
static void stores(void *context, enum oca_store_result stored) {
    struct watched *it = (struct watched *)context;
    it->is_wrong = it->is_wrong || it->held != 0 || oca_serve(it->server, 0) != OCA_NOTHING;
    oca_serve_end(it->server);
    it->stores = it->stores * 10 + (int)stored + 1;
}

static void on_alarm(int number) { (void)number; }

#include "c_library_calls.h" /* made by c_rows.py of rows/c_library_calls.toml */

int main(int count, char **words) {
    if (count > 1) of_a_socket(words[1][0] == 'i');
    else each();
    return verdict();
}
