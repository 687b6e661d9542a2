/* The stack that each call of the library for C takes, without that of an empty thread: a line for each, the call and its bytes. A call runs on
 * a thread of its own whose stack was filled before; what is no more as it was, was used. A device, started in full or small, is served by a
 * thread of its own, so that a panel can be measured that speaks to it. Usage: c_stack FILE, where a store may be. */
#define _GNU_SOURCE
#include <oca.h>

#include <pthread.h>
#include <stdio.h>
#include <stdlib.h>
#include <string.h>
#include <sys/mman.h>

enum { ROOM = 1 << 20, FILLED = 0xa5, OBJECTS = 8 };

static struct oca_device device = OCA_DEVICE_INIT, served = OCA_DEVICE_INIT;
static struct oca_link line = OCA_LINK_INIT;
static struct oca_panel panel = OCA_PANEL_INIT;
static struct oca_socket own = OCA_SOCKET_INIT, panels = OCA_SOCKET_INIT, third = OCA_SOCKET_INIT;
static struct oca_store store = OCA_STORE_INIT;
static struct oca_server server, storing;
static struct oca_kept kept[OBJECTS];
static struct oca_spec spec, mode;
static struct oca_walk walk;
static struct oca_verdict verdict;
static struct oca_effect effect;
static struct oca_object object;
static struct oca_setting setting;
static struct oca_reading reading;
static struct oca_value value;
static struct oca_request request;
static struct oca_answer answer;
static struct oca_names names;
static struct oca_members members;
static struct oca_class_id id;
static struct oca_name text;
static uint8_t bytes[OCA_MOST_BYTES], packet[OCA_MOST_BYTES];
static uint32_t onos[OCA_MOST_WRITTEN], number, other, ip;
static uint64_t moment;
static uint16_t port;
static size_t size, length, count;
static bool truth;
static volatile bool is_over;
static const char *path;

/* ---- measuring ---- */

static void (*what)(void);

static void *run(void *nothing) {
    what();
    return nothing;
}

static size_t used_by(void (*call)(void)) {
    unsigned char *stack = (unsigned char *)mmap(NULL, ROOM, PROT_READ | PROT_WRITE, MAP_PRIVATE | MAP_ANONYMOUS, -1, 0);
    pthread_attr_t how;
    pthread_t thread;
    size_t left = 0;
    if (stack == MAP_FAILED) abort();
    memset(stack, FILLED, ROOM);
    what = call;
    if (pthread_attr_init(&how) || pthread_attr_setstack(&how, stack, ROOM) || pthread_create(&thread, &how, run, NULL)) abort();
    pthread_join(thread, NULL);
    while (left < ROOM && stack[left] == FILLED) left++;
    pthread_attr_destroy(&how);
    munmap(stack, ROOM);
    return ROOM - left;
}

/* ---- what is called ---- */

/* A datagram of commands that each set a mute, or of one that reads its members. */
static size_t commands(uint8_t *out, uint32_t many, uint16_t ono, uint8_t level, uint8_t index, uint8_t params) {
    size_t at = 10;
    for (uint32_t i = 0; i < many; i++) {
        const uint8_t one[] = {0, 0, 0, (uint8_t)(17 + params), 0, 0, 1, (uint8_t)(i + 1), 0, 0, (uint8_t)(ono >> 8), (uint8_t)ono, 0, level, 0, index, params, 1};
        memcpy(out + at, one, sizeof one - 1 + params);
        at += sizeof one - 1 + params;
    }
    const uint8_t front[] = {0x3b, 0, 1, 0, 0, (uint8_t)((at - 1) >> 8), (uint8_t)(at - 1), 1, 0, (uint8_t)many};
    memcpy(out, front, sizeof front);
    return at;
}


static bool visits(void *context, const struct oca_visit *visit) {
    (void)context;
    return visit->ono > 0;
}

#define CALLS(CALL) \
    CALL(device_open, oca_device_open(&device, OBJECTS)) CALL(device_close, oca_device_close(&device)) \
    CALL(device_open_with, oca_device_open_with(&device, OBJECTS, &spec)) CALL(device_close, oca_device_close(&device)) \
    CALL(device_open_kept, oca_device_open_kept(&device, OBJECTS, &spec, kept, 0)) \
    CALL(device_add, oca_device_add(&device, 100, 4097, &spec)) CALL(device_add_kept, oca_device_add_kept(&device, 100, 4099, &mode, kept, 0)) \
    CALL(device_add_int64, oca_device_add_int64(&device, 100, 4098, text.text, 4, true, 0, -9, 9)) \
    CALL(device_add_switch, oca_device_add_switch(&device, 100, 4100, text.text, 4, true, names.names, 3, 0)) \
    CALL(device_start, oca_device_start(&device, 32, 16)) \
    CALL(device_datagram, oca_device_datagram(&device, 1, 2, bytes, size, 1, &verdict)) CALL(device_packets, oca_device_packets(&device, &count)) \
    CALL(device_packet, oca_device_packet(&device, 0, packet, sizeof packet, &length)) CALL(device_left_out, oca_device_left_out(&device, &truth)) \
    CALL(device_written, oca_device_written(&device, onos, OCA_MOST_WRITTEN, &count)) CALL(device_effect, oca_device_effect(&device, 0, &effect)) CALL(device_waits, oca_device_waits(&device, &truth)) \
    CALL(device_stored, oca_device_stored(&device)) CALL(device_tick, oca_device_tick(&device, 2)) \
    CALL(device_next_lapse, oca_device_next_lapse(&device, &moment)) CALL(device_set, oca_device_set(&device, 4097, &value)) \
    CALL(device_set_signed, oca_device_set_signed(&device, 4098, 3)) CALL(device_set_label, oca_device_set_label(&device, 4097, text.text, 4)) \
    CALL(device_set_enabled, oca_device_set_enabled(&device, 4097, true)) CALL(device_unlock, oca_device_unlock(&device, 4097)) \
    CALL(device_set_failing, oca_device_set_failing(&device, 4097, false)) CALL(device_is_failing, oca_device_is_failing(&device, 4097, &truth)) \
    CALL(device_setting, oca_device_setting(&device, 4097, &setting)) CALL(device_object, oca_device_object(&device, 1, &object)) \
    CALL(device_spec, oca_device_spec(&device, 1, &spec)) CALL(device_spec_of, oca_device_spec_of(&device, 4099, &mode)) \
    CALL(device_peers, oca_device_peers(&device, &count)) CALL(device_peer, oca_device_peer(&device, 0, &ip, &port)) \
    CALL(device_lock, oca_device_lock(&device, 4097, &number, &ip, &port)) CALL(device_keep, oca_device_keep(&device, kept, OBJECTS, &count)) \
    CALL(spec_restore, oca_spec_restore(&spec, &kept[1].spec)) CALL(device_close, oca_device_close(&device)) \
    CALL(device_open, oca_device_open(&device, OBJECTS)) CALL(device_start_small, oca_device_start_small(&device, 8, 4, 7)) \
    CALL(device_datagram, oca_device_datagram(&device, 1, 2, bytes, commands(bytes, 2, 4097, 4, 2, 1), 1, &verdict)) CALL(device_close, oca_device_close(&device)) \
    CALL(link_open_small, oca_link_open_small(&line, 1, 2, 3, 4, 16)) CALL(link_close, oca_link_close(&line)) \
    CALL(link_open, oca_link_open(&line, 1, 2, 3, 4, 16)) CALL(link_ask, oca_link_ask(&line, 4097, &request, 5, &number)) \
    CALL(link_due, oca_link_due(&line, 6, packet, sizeof packet, &length, &other, &number)) \
    CALL(link_datagram, oca_link_datagram(&line, 1, 2, packet, length, 7, &other, &number)) \
    CALL(link_take, oca_link_take(&line, 3, &other, &number, answer.params, sizeof answer.params, &answer.params_len)) \
    CALL(link_next_due, oca_link_next_due(&line, &moment)) CALL(link_close, oca_link_close(&line)) \
    CALL(value_put, oca_value_put(&value, packet, sizeof packet, &length)) CALL(value_read, oca_value_read(2, packet, length, &reading)) \
    CALL(value_text, oca_value_text(&value, packet, sizeof packet, &length)) CALL(value_from_text, oca_value_from_text(2, packet, length, &value)) \
    CALL(text_put, oca_text_put(&text, packet, sizeof packet, &length)) CALL(text_read, oca_text_read(packet, length, &text)) \
    CALL(names_read, oca_names_read(packet, length, &names)) CALL(members_read, oca_members_read(packet, length, &members)) \
    CALL(class_read, oca_class_read(packet, length, &id)) \
    CALL(store_open, oca_store_open(path, &store)) CALL(store_save, oca_store_save(&store, kept, sizeof kept)) \
    CALL(store_load, oca_store_load(&store, kept, sizeof kept, &length)) \
    CALL(socket_open_towards, oca_socket_open_towards(&third, 0x7f000001, own.port, 0)) CALL(socket_drop, oca_socket_drop(&third, &number))

#define OF_PANEL(CALL) \
    CALL(panel_open, open_panel()) CALL(panel_set, oca_panel_set(&panel, 4097, value)) \
    CALL(panel_get, oca_panel_get(&panel, 4097, &reading)) CALL(panel_turn, oca_panel_turn(&panel)) CALL(panel_poll, oca_panel_poll(&panel)) \
    CALL(panel_walk, oca_panel_walk(&panel, &walk, visits, NULL)) CALL(panel_close, oca_panel_close(&panel))

#define OF_SERVER(CALL) CALL(serve, oca_serve(&server, 0)) CALL(serve_due, oca_serve_due(&server)) CALL(serve_end, oca_serve_end(&server))

static void open_panel(void) {
    const struct oca_end end = oca_socket_end(&panels);
    if (oca_panel_open(&panel, &end, 0x7f000001, own.port, 1, 16, 10500) != OCA_DONE) abort();
}

/* One function for each place of a call: its number is that of its place. */
static unsigned at;
#define CASE(name, call) \
    case __COUNTER__ - FIRST - 1: (void)call; break;
enum { FIRST = __COUNTER__ };
static void calls(void) {
    switch (at) { CALLS(CASE) OF_PANEL(CASE) OF_SERVER(CASE) }
}

#define NAME(name, call) "oca_" #name,
static const char *const called[] = {CALLS(NAME) OF_PANEL(NAME) OF_SERVER(NAME)};
enum { OF_ALL = sizeof called / sizeof *called, SERVER_CALLS = 3 };

static void *serve(void *nothing) {
    while (!is_over) (void)oca_serve(&storing, oca_socket_now() + 20);
    return nothing;
}

/* ---- the server's calls: with a datagram of 86 commands that waits, and a store ---- */

static void build(struct oca_device *of) {
    struct oca_spec mute = oca_spec_of("mute", oca_alone(oca_mute(true)));
    if (oca_device_open(of, OBJECTS) != OCA_DONE || oca_device_add(of, 100, 4097, &mute) != OCA_DONE || oca_device_start(of, 32, 16) != OCA_DONE) abort();
}

int main(int words, char **word) {
    pthread_t thread;
    struct oca_socket second = OCA_SOCKET_INIT;
    path = words > 1 ? word[1] : "c_stack.kept";
    spec = oca_spec_of("mute", oca_alone(oca_mute(true)));
    mode = oca_spec_of("mode", oca_alone(oca_position(1)));
    oca_spec_position(&mode, "off"), oca_spec_position(&mode, "on");
    text = oca_name_of("text");
    for (int i = 0; i < 3; i++) names.names[i] = text;
    value = oca_mute(false);
    size = commands(bytes, 81, 4097, 4, 2, 1);
    (void)oca_set_request(&value, &request);
    for (size_t i = 0; i < OBJECTS; i++) kept[i].spec.size = (uint32_t)sizeof kept[i].spec;
    build(&served);
    if (oca_socket_open(&own, 0x7f000001, 0) != OCA_SOCKET_DONE || oca_socket_open_towards(&panels, 0x7f000001, own.port, 0) != OCA_SOCKET_DONE) abort();
    storing = oca_server_of(&served, &own);
    at = OF_ALL;
    const size_t empty = used_by(calls);
    if (pthread_create(&thread, NULL, serve, NULL)) abort();
    for (at = 0; at < OF_ALL - SERVER_CALLS; at++) printf("%s %zu\n", called[at], used_by(calls) - empty);
    is_over = true;
    pthread_join(thread, NULL);
    if (oca_socket_open(&second, 0x7f000001, 0) != OCA_SOCKET_DONE) abort();
    server = oca_server_of(&served, &second);
    server.store = &store, server.kept = kept, server.room = OBJECTS;
    size = commands(bytes, 81, 4097, 4, 2, 1);
    for (int i = 0; i < 3; i++) (void)oca_socket_send(&third, bytes, size, 0x7f000001, second.port);
    for (; at < OF_ALL; at++) printf("%s %zu\n", called[at], used_by(calls) - empty);
    return server.counts.executed == 81 && server.stored == OCA_STORE_DONE ? 0 : 1;
}
