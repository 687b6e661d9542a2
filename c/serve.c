/* The loop of a device over a socket: include/oca.h has its calls. It needs POSIX (poll), also by c/socket.c and c/store.c. */
#define _POSIX_C_SOURCE 200809L
#include <oca.h>

#include <poll.h>
#include <string.h>

/* In milliseconds: what is a standstill; the longest one that the device's clock does not count in full; the longest wait of a receive, so that a standstill within it is noticed; for how long what is sent again
 * is collected before it is stored; after how long a store that failed is tried again; and the longest rest where nothing can be received. */
enum { STANDSTILL = 1000, PARDONED = 60000, WAIT = 500, COLLECT = 300, RETRY = 1000, REST = 100 };

/* The most datagrams before the objects are stored once. */
enum { MOST_TURNS = 64 };

/* A datagram, its sender, and the device's moment at which it came. */
struct datagram { uint64_t moment; size_t size; uint32_t ip; uint16_t port; uint8_t bytes[OCA_MOST_BYTES + 1]; };

/* Answers that wait until the objects are stored, each behind whom it is for and its size. */
struct answer { uint32_t ip; uint16_t port, size; };
struct held { size_t size; uint8_t bytes[4096]; };

static void hold(const struct oca_server *server) {
    if (server->lock) server->lock(server->context);
}

static void let_go(const struct oca_server *server) {
    if (server->unlock) server->unlock(server->context);
}

/* The struct as it was up to version 1.15 has no counts and no clock of the device. */
static bool is_whole(const struct oca_server *server) { return server->size == sizeof *server; }
static bool is_server(const struct oca_server *server) { return is_whole(server) || server->size == offsetof(struct oca_server, counts); }

/* Waits for so many milliseconds, and receives nothing. */
static void rest(uint64_t ms) { (void)poll(NULL, 0, (int)ms); }

static uint64_t later(uint64_t moment, uint64_t ms) { return moment > UINT64_MAX - ms ? UINT64_MAX : moment + ms; }

/* ---- storing ---- */

/* Stores the objects as they are now; whether they are stored. Where there is no store, they are. */
static bool store_objects(struct oca_server *server) {
    size_t count = 0;
    if (!server->store) return true;
    hold(server);
    const enum oca_result kept = oca_device_keep(server->device, server->kept, server->room, &count);
    server->is_set = false;
    let_go(server);
    server->stored = kept == OCA_DONE ? oca_store_save(server->store, server->kept, count * sizeof *server->kept) : OCA_STORE_TOO_SMALL;
    hold(server);
    if (server->stored == OCA_STORE_DONE) (void)oca_device_stored(server->device);
    else server->is_set = true;
    let_go(server);
    if (server->told) server->told(server->context, server->stored);
    return server->stored == OCA_STORE_DONE;
}

/* Stores what was set at the local front panel; where that fails, again a second later. */
static void store_front(struct oca_server *server, bool at_once) {
    hold(server);
    const bool wanted = server->is_set && server->store;
    let_go(server);
    if (wanted && (at_once || oca_socket_now() >= server->next) && !store_objects(server)) server->next = later(oca_socket_now(), RETRY);
}

/* ---- receiving ---- */

/* Leaves out what the device's clock does not count: of a standstill of at most a minute, since this moment, all but 1,000 ms. */
static void leave_out(struct oca_server *server, uint64_t since, uint64_t now) {
    const uint64_t passed = since > 0 && now > since ? now - since : 0;
    if (is_whole(server) && passed > STANDSTILL && passed <= PARDONED) server->behind += passed - STANDSTILL;
}

/* The device's moment behind a receive that returned now. */
static uint64_t moment_at(struct oca_server *server, uint64_t now) {
    if (!is_whole(server)) return now;
    server->returned = now;
    return now > server->behind ? now - server->behind : 0;
}

/* Drops what waits in the socket, as the network may lose it. Where there is a store, what is sent again is then waited for, so that it is
 * stored together. Returns the present moment. */
static uint64_t drop(struct oca_server *server) {
    uint64_t until = 0, now = 0;
    do {
        uint32_t count = 0;
        (void)oca_socket_drop(server->socket, &count);
        if (is_whole(server)) server->counts.dropped += count;
        until = later(oca_socket_now(), COLLECT);
        if (server->store) rest(COLLECT);
        now = oca_socket_now();
        leave_out(server, until, now);
    } while (now > later(until, STANDSTILL));
    return now;
}

/* Receives until this moment, or what is there; of what waited over a standstill, before the call or in it, nothing. */
static enum oca_socket_result receive(struct oca_server *server, uint64_t until, struct datagram *came) {
    uint64_t now = oca_socket_now();
    if (is_whole(server)) leave_out(server, server->returned, now);
    if (is_whole(server) && server->returned > 0 && now > later(server->returned, STANDSTILL)) now = drop(server);
    const uint64_t longest = later(now, WAIT);
    until = until < now ? now : until < longest ? until : longest;
    enum oca_socket_result result = oca_socket_wait(server->socket, until);
    if (result == OCA_SOCKET_DONE) result = oca_socket_receive(server->socket, came->bytes, sizeof came->bytes, &came->size, &came->ip, &came->port);
    now = oca_socket_now();
    leave_out(server, until, now);
    if (now > later(until, STANDSTILL)) {
        if (is_whole(server)) server->counts.dropped += result == OCA_SOCKET_DONE;
        now = drop(server);
        if (result == OCA_SOCKET_DONE) result = OCA_SOCKET_NOTHING;
    }
    came->moment = moment_at(server, now);
    if (is_whole(server)) server->counts.oversize += result == OCA_SOCKET_DONE && came->size > OCA_MOST_BYTES;
    return result;
}

/* Whether a receive brought a datagram that a device handles. */
static bool has_come(enum oca_socket_result received, const struct datagram *came) { return received == OCA_SOCKET_DONE && came->size <= OCA_MOST_BYTES; }

/* Until when a turn waits for a datagram: until a clock reading changes something, or what was set at the local front panel is to be stored. */
static uint64_t wait_until(struct oca_server *server, uint64_t until) {
    uint64_t lapse = 0;
    hold(server);
    if (oca_device_next_lapse(server->device, &lapse) == OCA_DONE) {
        const uint64_t moment = later(lapse, is_whole(server) ? server->behind : 0);
        if (moment < until) until = moment;
    }
    if (server->is_set && server->store && server->next < until) until = server->next;
    let_go(server);
    return until;
}

/* ---- serving ---- */

static void count(struct oca_server *server, const struct oca_verdict *verdict) {
    if (!is_whole(server)) return;
    server->counts.datagrams++;
    server->counts.executed += verdict->executed;
    server->counts.kept += verdict->kept;
    server->counts.old += verdict->old;
    server->counts.reused += verdict->reused;
    server->counts.malformed += verdict->kind == 1;
    server->counts.no_room += verdict->kind == 2;
}

/* Tells of each object that the last datagram, of this peer, wrote to, and of each of its commands, under the lock. */
static void tell_written(struct oca_server *server, uint32_t ip, uint16_t port) {
    uint32_t onos[OCA_MOST_WRITTEN] = {0};
    struct oca_effect effect = {0, 0, 0, 0};
    size_t written = 0;
    const bool tells = is_whole(server) && server->wrote;
    hold(server);
    if ((server->written || tells) && oca_device_written(server->device, onos, OCA_MOST_WRITTEN, &written) == OCA_DONE)
        for (size_t i = 0; i < written; i++) {
            if (server->written) server->written(server->context, onos[i]);
            if (tells) server->wrote(server->context, onos[i], ip, port);
        }
    for (size_t i = 0; is_whole(server) && server->did && oca_device_effect(server->device, i, &effect) == OCA_DONE; i++)
        server->did(server->context, &effect, ip, port);
    let_go(server);
}

static void send_bytes(struct oca_server *server, const uint8_t *bytes, size_t size, uint32_t ip, uint16_t port) {
    if (oca_socket_send(server->socket, bytes, size, ip, port) != OCA_SOCKET_DONE && is_whole(server)) server->counts.failed_sends++;
}

/* Writes the packet of this number that answers the last datagram to a place with so much room; whether it had room. There, `size` is its size. */
static bool has_packet(struct oca_server *server, size_t number, uint8_t *out, size_t room, size_t *size) {
    hold(server);
    const enum oca_result answer = oca_device_packet(server->device, number, out, room, size);
    let_go(server);
    return answer == OCA_DONE;
}

/* Sends what answers the last datagram. */
static void send_packets(struct oca_server *server, size_t packets, uint32_t ip, uint16_t port) {
    uint8_t bytes[OCA_MOST_BYTES] = {0};
    size_t size = 0;
    for (size_t i = 0; i < packets; i++)
        if (has_packet(server, i, bytes, sizeof bytes, &size)) send_bytes(server, bytes, size, ip, port);
}

/* Holds what answers the last datagram; where there is no room for all of it, none is held. */
static bool hold_packets(struct oca_server *server, size_t packets, uint32_t ip, uint16_t port, struct held *held) {
    size_t end = held->size, size = 0;
    for (size_t i = 0; i < packets; i++, end += size) {
        uint8_t *const front = held->bytes + end;
        end += sizeof(struct answer);
        if (end > sizeof held->bytes || !has_packet(server, i, held->bytes + end, sizeof held->bytes - end, &size)) return false;
        const struct answer answer = {ip, port, (uint16_t)size};
        memcpy(front, &answer, sizeof answer);
    }
    held->size = end;
    return true;
}

static void send_held(struct oca_server *server, const struct held *held) {
    struct answer answer = {0, 0, 0};
    for (size_t at = 0; at < held->size; at += sizeof answer + answer.size) {
        memcpy(&answer, held->bytes + at, sizeof answer);
        send_bytes(server, held->bytes + at + sizeof answer, answer.size, answer.ip, answer.port);
    }
}

/* Hands a datagram in: how many packets answer it, and whether they wait until the objects are stored. What need not wait is sent. */
static enum oca_result take_in(struct oca_server *server, const struct datagram *came, size_t *packets, bool *waits) {
    struct oca_verdict verdict = {0, 0, 0, 0, 0, 0, 0};
    hold(server);
    const enum oca_result taken = oca_device_datagram(server->device, came->ip, came->port, came->bytes, came->size, came->moment, &verdict);
    if (taken == OCA_DONE) (void)oca_device_packets(server->device, packets);
    if (taken == OCA_DONE) (void)oca_device_waits(server->device, waits);
    let_go(server);
    if (taken != OCA_DONE) return taken;
    *waits = *waits && server->store;
    count(server, &verdict);
    if (!*waits) send_packets(server, *packets, came->ip, came->port);
    tell_written(server, came->ip, came->port);
    return OCA_DONE;
}

/* Serves a datagram, and, where its answers wait for the store, those that have come already: all are stored once, and then answered. Where
 * storing fails, those that wait are not. The answers to the last datagram stay with the device until then. */
static enum oca_result serve_group(struct oca_server *server, struct datagram *came) {
    struct held held = {0, {0}};
    size_t packets = 0;
    bool waits = false, is_due = false;
    enum oca_result taken = take_in(server, came, &packets, &waits);
    for (int turn = 1; taken == OCA_DONE && (is_due || waits) && turn < MOST_TURNS; turn++) {
        is_due = true;
        if (waits && !hold_packets(server, packets, came->ip, came->port, &held)) break;
        waits = false;
        if (!has_come(receive(server, 0, came), came)) break;
        taken = take_in(server, came, &packets, &waits);
    }
    if ((is_due || waits) && store_objects(server)) {
        send_held(server, &held);
        if (waits) send_packets(server, packets, came->ip, came->port);
    }
    return taken;
}

/* A turn of a server that none of its functions has called. */
static enum oca_result take_turn(struct oca_server *server, uint64_t until) {
    struct datagram came = {0, 0, 0, 0, {0}};
    size_t objects = 0;
    hold(server);
    enum oca_result done = oca_device_objects(server->device, &objects);
    let_go(server);
    if (done != OCA_DONE) return done;
    if (server->store && (!server->kept || server->room < objects)) return OCA_TOO_SMALL;
    store_front(server, false);
    server->received = receive(server, wait_until(server, until), &came);
    if (has_come(server->received, &came)) return serve_group(server, &came);
    hold(server);
    done = oca_device_tick(server->device, came.moment);
    let_go(server);
    if (server->received == OCA_SOCKET_DONE || server->received == OCA_SOCKET_NOTHING) return done;
    const uint64_t now = oca_socket_now();
    if (until > now) rest(until - now < REST ? until - now : (uint64_t)REST);
    return done;
}

enum oca_result oca_serve(struct oca_server *server, uint64_t until) {
    if (!is_server(server)) return OCA_BAD_SIZE;
    if (server->is_busy) return OCA_NOTHING;
    server->is_busy = true;
    const enum oca_result done = take_turn(server, until);
    server->is_busy = false;
    return done;
}

uint64_t oca_serve_due(struct oca_server *server) {
    const uint64_t now = oca_socket_now();
    if (!server || !is_server(server)) return now;
    const uint64_t until = wait_until(server, later(now, WAIT));
    return until > now ? until : now;
}

void oca_serve_end(struct oca_server *server) {
    if (!server || !is_server(server) || server->is_busy) return;
    server->is_busy = true;
    store_front(server, true);
    server->is_busy = false;
}
