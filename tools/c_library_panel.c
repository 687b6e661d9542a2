/* The panel of the C library over a network and a clock of its own: a device of the library behind it, or a peer that answers as a test
 * wants. It prints what is wrong. With a word, a port of this machine, it prints the objects of the device there, as `ocactl tree` does. */
/* What a panel hands to its link goes by this file's `handed`: c/panel.c is compiled beside it, with the same name for it. */
#define oca_link_datagram handed
#include <oca.h>
#undef oca_link_datagram

#include <stdlib.h>

#include "c_checks.h"

#ifdef __cplusplus
extern "C"
#endif
enum oca_result oca_link_datagram(struct oca_link *link, uint32_t ip, uint16_t port, const uint8_t *bytes, size_t bytes_len, uint64_t now, uint32_t *reception, uint32_t *answered);

/* How many datagrams panels handed to their links, and the most bytes that one had. */
static uint32_t handed_over;
static size_t longest_handed;

enum oca_result handed(struct oca_link *link, uint32_t ip, uint16_t port, const uint8_t *bytes, size_t bytes_len, uint64_t now, uint32_t *reception, uint32_t *answered) {
    handed_over++;
    if (bytes_len > longest_handed) longest_handed = bytes_len;
    return oca_link_datagram(link, ip, port, bytes, bytes_len, now, reception, answered);
}

enum { QUEUED = 64, DEVICE_IP = 0x0a000001, DEVICE_PORT = 65000 };
struct datagram { uint64_t at; size_t len; uint32_t ip; uint16_t port; uint8_t bytes[OCA_MOST_BYTES + 100]; };

/* The network between a panel at its own port and its peer: what is under way to the panel, the clock, what goes wrong of 100 datagrams, and
 * the answer that a peer without a device gives. */
struct network {
    uint64_t now;
    uint32_t random, lost, doubled, delayed;
    struct oca_device *device;
    uint16_t port;
    bool silent;
    uint32_t sent, handles[32], handles_len;
    uint32_t (*answers)(struct network *network, uint32_t ono, uint32_t method, const uint8_t *params, uint8_t *status, uint8_t *count, uint8_t *out);
    size_t queued;
    struct datagram queue[QUEUED];
    uint8_t answer[OCA_MOST_ANSWER + 50];
    uint32_t answer_len, answer_count, answer_status, stranger, more; /* so many bytes more stand behind an answer */
    bool cuts; /* a datagram that has no room is told with the length of the room */
    bool hurries; /* a receive waits for a millisecond at most */
    bool stands; /* the clock stands still, and nothing comes */
    uint32_t receives, flood; /* with a flood of 8 for a millisecond, but each eighth receive gets a stranger's datagram at once */
};

static bool happens(struct network *network, uint32_t of_100) {
    network->random = network->random * 1664525 + 1013904223;
    return (network->random >> 8) % 100 < of_100;
}

static uint32_t number_at(const uint8_t *bytes, size_t size) {
    uint32_t number = 0;
    for (size_t i = 0; i < size; i++) number = number << 8 | bytes[i];
    return number;
}

static void put(uint8_t *bytes, uint32_t number, size_t size) {
    for (size_t i = 0; i < size; i++) bytes[i] = (uint8_t)(number >> 8 * (size - 1 - i));
}

static void under_way(struct network *network, const uint8_t *bytes, size_t len, uint32_t ip, uint16_t port) {
    if (happens(network, network->lost)) return;
    for (int copy = happens(network, network->doubled) ? 2 : 1; copy > 0 && network->queued < QUEUED; copy--) {
        struct datagram next = {network->now + 1 + (happens(network, network->delayed) ? network->random % 700 : 0), len, ip, port, {0}};
        memcpy(next.bytes, bytes, len < sizeof next.bytes ? len : sizeof next.bytes);
        network->queue[network->queued++] = next;
    }
}

static void to_device(struct network *network, const uint8_t *bytes, size_t len) {
    struct oca_verdict verdict = {0, 0, 0, 0, 0, 0, 0};
    uint8_t packet[OCA_MOST_BYTES] = {0};
    size_t size = 0;
    if (oca_device_datagram(network->device, 0x0a000002, network->port, bytes, len, network->now, &verdict) != OCA_DONE) return;
    for (size_t i = 0; oca_device_packet(network->device, i, packet, sizeof packet, &size) == OCA_DONE; i++)
        under_way(network, packet, size, DEVICE_IP, DEVICE_PORT);
}

static void send_to(void *context, const uint8_t *bytes, size_t len) {
    struct network *network = (struct network *)context;
    uint8_t out[OCA_MOST_BYTES + 100], params[OCA_MOST_ANSWER + 50] = {0}, status = 0, count = 0;
    network->sent++;
    if (network->silent || happens(network, network->lost)) return;
    if (network->device) {
        to_device(network, bytes, len);
        return;
    }
    if (bytes[7] != 1) return;
    const uint32_t handle = number_at(bytes + 14, 4);
    if (network->handles_len < 32) network->handles[network->handles_len++] = handle;
    const uint32_t size = network->answers(network, number_at(bytes + 18, 4), number_at(bytes + 22, 4), bytes + 27, &status, &count, params);
    if (network->stranger) {
        static const uint8_t another[3] = {9, 9, 9};
        under_way(network, out, response(out, handle, 3, 0, another, 0), DEVICE_IP + 1, DEVICE_PORT);
        under_way(network, out, response(out, handle, 3, 0, another, 0), DEVICE_IP, DEVICE_PORT + 1);
        under_way(network, out, response(out, handle + 7, 3, 0, another, 0), DEVICE_IP, DEVICE_PORT);
        under_way(network, another, 3, DEVICE_IP, DEVICE_PORT);
    }
    size_t whole = response(out, handle, status, count, params, size);
    for (uint32_t k = 0; k < network->more; k++) out[whole++] = 0x3b;
    under_way(network, out, whole, DEVICE_IP, DEVICE_PORT);
}

static uint64_t now_of(void *context) { return ((struct network *)context)->now; }

static bool receive(void *context, uint64_t until, uint8_t *out, size_t out_len, size_t *len, uint32_t *ip, uint16_t *port) {
    struct network *network = (struct network *)context;
    size_t first = QUEUED;
    network->receives++;
    if (network->stands) return false;
    if (network->flood && network->receives % 8) {
        if (network->receives % network->flood == 0) network->now++;
        *len = 3;
        *ip = DEVICE_IP + 1;
        *port = DEVICE_PORT;
        memcpy(out, "\x3b\0\1", 3);
        return true;
    }
    if (network->flood) until = network->now;
    if (network->hurries && until > network->now + 1) until = network->now + 1;
    for (size_t i = 0; i < network->queued; i++)
        if (network->queue[i].at <= until && (first == QUEUED || network->queue[i].at < network->queue[first].at)) first = i;
    if (first == QUEUED) {
        if (until > network->now) network->now = until;
        return false;
    }
    const struct datagram *next = &network->queue[first];
    if (next->at > network->now) network->now = next->at;
    *len = network->cuts && next->len > out_len ? out_len : next->len;
    *ip = next->ip;
    *port = next->port;
    memcpy(out, next->bytes, next->len < out_len ? next->len : out_len);
    network->queue[first] = network->queue[--network->queued];
    return true;
}

static bool is_name(const struct oca_name *name, const char *text) {
    return name->size == strlen(text) && memcmp(name->text, text, name->size) == 0;
}

struct seen { uint32_t len, at_most; struct oca_visit visits[4100]; };

static bool visits(void *context, const struct oca_visit *visit) {
    struct seen *seen = (struct seen *)context;
    if (seen->len < 4100) seen->visits[seen->len++] = *visit;
    return seen->len < seen->at_most;
}

/* The class of an object that was visited, or 99. */
static uint32_t class_of(const struct oca_visit *visit) { return visit->described.asked == OCA_ASKED_DONE ? visit->id.class_number : 99; }

static struct oca_walk walk;
static struct seen seen;

/* What a visitor has that asks the panel itself. */
struct asking { struct oca_panel *panel; struct network *network; uint32_t visits; };

/* ---- a peer that answers as a test wants ---- */

static uint32_t answers_set(struct network *network, uint32_t ono, uint32_t method, const uint8_t *params, uint8_t *status, uint8_t *count, uint8_t *out) {
    (void)ono, (void)method, (void)params;
    *status = (uint8_t)network->answer_status;
    *count = (uint8_t)network->answer_count;
    memcpy(out, network->answer, network->answer_len);
    return network->answer_len;
}

/* A device whose root lists blocks without end, the same ones again and itself. */
static uint32_t answers_without_end(struct network *network, uint32_t ono, uint32_t method, const uint8_t *params, uint8_t *status, uint8_t *count, uint8_t *out) {
    static const uint8_t block[] = {0, 3, 0, 1, 0, 1, 0, 3, 0, 2}, role[] = {0, 1, 'r'};
    (void)network, (void)params;
    *status = 0;
    *count = 1;
    if (method == OCA_GET_CLASS_IDENTIFICATION) return memcpy(out, block, sizeof block), (uint32_t)sizeof block;
    if (method == OCA_GET_ROLE) return memcpy(out, role, sizeof role), (uint32_t)sizeof role;
    put(out, 90, 2);
    for (uint32_t k = 0; k < 90; k++) {
        put(out + 2 + 14 * k, k == 0 ? ono : k == 1 ? 100 : ono * 3 + k / 2, 4);
        memcpy(out + 6 + 14 * k, block, sizeof block);
    }
    return 2 + 90 * 14;
}

enum question { ASKS_CLASS, ASKS_ROLE, ASKS_NAMES, ASKS_MEMBERS, ASKS_GAIN, QUESTIONS };

/* The name of a position is asked for by both of its bytes, and the answer has them as letters. */
static uint32_t answers_position(struct network *network, uint32_t ono, uint32_t method, const uint8_t *params,
                                 uint8_t *status, uint8_t *count, uint8_t *out) {
    const uint8_t text[] = {0, 2, (uint8_t)('a' + params[0]), (uint8_t)('a' + params[1])};
    (void)network, (void)ono;
    *status = method == OCA_GET_POSITION_NAME ? 0 : 9;
    *count = 1;
    memcpy(out, text, sizeof text);
    return sizeof text;
}

/* ---- a device at a port of this machine ---- */

static bool prints(void *context, const struct oca_visit *visit) {
    (void)context;
    if (visit->described.asked != OCA_ASKED_DONE) printf("%u: %s\n", visit->ono, oca_outcome_text(visit->described));
    printf("%u ", visit->ono);
    for (uint32_t i = 0; i < visit->id.count; i++) printf("%s%u", i ? "." : "", visit->id.fields[i]);
    printf(" %u %.*s\n", visit->container, (int)visit->role.size, (const char *)visit->role.text);
    return true;
}

static int prints_objects(uint16_t port) {
    struct oca_panel panel = OCA_PANEL_INIT;
    struct oca_socket own = OCA_SOCKET_INIT;
    if (oca_socket_open_towards(&own, 0x7f000001, port, 0) != OCA_SOCKET_DONE) return 2;
    const struct oca_end end = oca_socket_end(&own);
    if (oca_panel_open(&panel, &end, own.device_ip, port, 1, 16, 10500) != OCA_DONE) return 2;
    const struct oca_outcome outcome = oca_panel_walk(&panel, &walk, prints, NULL);
    if (outcome.asked != OCA_ASKED_DONE) printf("%s\n", oca_outcome_text(outcome));
    oca_panel_close(&panel);
    return outcome.asked != OCA_ASKED_DONE;
}

#include "c_library_panel_calls.h" /* made by c_rows.py of rows/c_library_panel_calls.toml */

int main(int count, char **words) {
    if (count > 1) return prints_objects((uint16_t)atoi(words[1]));
    each();
    return verdict();
}
