/* A mixer of 32 channels in C, which comes up as it was left: each channel has a mute, a gain in tenths of a decibel and a source.
 * Usage: mixer FILE [PORT [SECONDS]]     Without SECONDS it runs until it is stopped.
 * Lines on standard input are its front: "mute 5", "open 5", "gain 5 -60", "source 5 2". What a panel was told to be set is in FILE before
 * it is told so; what is set at the local front panel is there a tenth of a second later. It prints where it listens on standard error. */
#define _POSIX_C_SOURCE 200809L
#include <oca.h>

#include <poll.h>
#include <pthread.h>
#include <stdio.h>
#include <stdlib.h>
#include <string.h>
#include <unistd.h>

enum { CHANNELS = 32, OBJECTS = 1 + 4 * CHANNELS, MUTE = 1, GAIN = 2, SOURCE = 3 };

static struct oca_device device = OCA_DEVICE_INIT;
static struct oca_store store = OCA_STORE_INIT;
static struct oca_socket own = OCA_SOCKET_INIT;
static struct oca_server server;
static struct oca_kept kept[OBJECTS];
static pthread_mutex_t lock = PTHREAD_MUTEX_INITIALIZER; /* of two threads: one has the socket and the file, and one reads the front */
static uint64_t end; /* when both threads end */
static void hold_lock(void *path) { (void)path, (void)pthread_mutex_lock(&lock); }
static void let_lock_go(void *path) { (void)path, (void)pthread_mutex_unlock(&lock); }
static uint32_t block_of(uint32_t channel) { return 4096 + 16 * channel; }

/* Says why the file is not what is wanted; while the desk is served, that it is not kept, once until it is again. */
static void tell(void *path, enum oca_store_result result) {
    static enum oca_store_result before = OCA_STORE_DONE;
    const char *why = result == OCA_STORE_SYSTEM ? strerror(store.error) : oca_store_text(result), *call = store.call;
    if (result != OCA_STORE_DONE && before == OCA_STORE_DONE)
        fprintf(stderr, "%s%s%s%s: %s\n", end > 0 ? "not kept: " : "", (const char *)path, call ? ": " : "", call ? call : "", why);
    before = result;
}

/* Opens the file and reads how many objects of the desk were kept: none in a new one. */
static enum oca_store_result load(const char *path, size_t *count) {
    size_t length = 0;
    enum oca_store_result result = oca_store_open(path, &store);
    if (result == OCA_STORE_DONE) result = oca_store_load(&store, kept, sizeof kept, &length);
    *count = length / sizeof *kept;
    if (result == OCA_STORE_DONE && length % sizeof *kept != 0) return OCA_STORE_BROKEN;
    return result == OCA_STORE_NOTHING ? OCA_STORE_DONE : result;
}

/* Makes the desk, as it was kept where it was. */
static enum oca_result build(size_t count) {
    struct oca_spec specs[] = {oca_spec_of_block("root"), oca_spec_of("mute", oca_alone(oca_mute(true))),
                               oca_spec_of("gain", oca_within(oca_int16(0), oca_int16(-600), oca_int16(100))), oca_spec_of("source", oca_alone(oca_position(0)))};
    oca_spec_position(&specs[SOURCE], "mic"), oca_spec_position(&specs[SOURCE], "line"), oca_spec_position(&specs[SOURCE], "player");
    enum oca_result answer = oca_device_open_kept(&device, OBJECTS, &specs[0], kept, count);
    for (uint32_t at = 0; at < 4 * CHANNELS && answer == OCA_DONE; at++) {
        const uint32_t block = block_of(at / 4), which = at % 4;
        char role[16];
        snprintf(role, sizeof role, "channel %u", (unsigned)at / 4 + 1);
        specs[0].role = oca_name_of(role);
        answer = oca_device_add_kept(&device, which ? block : 100, block + which, &specs[which], kept, count);
    }
    return answer == OCA_DONE ? oca_device_start(&device, 32, 16) : answer;
}

/* A line of the front panel; whether it set something. */
static bool turn_knob(const char *line) {
    char word[8], number[8] = "";
    unsigned channel = 0;
    struct oca_reading knob = oca_alone(oca_mute(true));
    if (sscanf(line, "%7s %u %7s", word, &channel, number) < 2 || channel < 1 || channel > CHANNELS) return false;
    const char *text = strcmp(word, "mute") == 0 ? "muted" : strcmp(word, "open") == 0 ? "unmuted" : number;
    const uint32_t which = text != number ? MUTE : strcmp(word, "gain") == 0 ? GAIN : strcmp(word, "source") == 0 ? SOURCE : 0;
    const uint32_t ono = block_of(channel - 1) + which; /* of another word the block's, which has no value */
    pthread_mutex_lock(&lock);
    const bool good = oca_device_value(&device, ono, &knob) == OCA_DONE
        && oca_value_from_text(knob.value.class_number, (const uint8_t *)text, strlen(text), &knob.value) == OCA_DONE
        && oca_device_set(&device, ono, &knob.value) == OCA_DONE;
    server.is_set = server.is_set || good;
    pthread_mutex_unlock(&lock);
    return good;
}

/* Reads the front panel, line by line; one above 62 bytes is none. */
static void *front(void *nothing) {
    char line[64], byte;
    size_t size = 0;
    struct pollfd input = {STDIN_FILENO, POLLIN, 0};
    while (oca_socket_now() < end) {
        if (poll(&input, 1, 100) <= 0) continue;
        if (read(STDIN_FILENO, &byte, 1) != 1) break;
        if (byte != '\n' && size < sizeof line) line[size++] = byte;
        if (byte != '\n') continue;
        line[size < sizeof line ? size : 0] = 0;
        if (!turn_knob(line)) fprintf(stderr, "front: no such line\n");
        size = 0;
    }
    return nothing;
}

int main(int count, char **words) {
    size_t objects = 0;
    pthread_t reading;
    if (count < 2) return fprintf(stderr, "usage: mixer FILE [PORT [SECONDS]]\n"), 2;
    const enum oca_store_result loaded = load(words[1], &objects);
    tell(words[1], loaded);
    if (loaded != OCA_STORE_DONE) return 1;
    const enum oca_result answer = build(objects);
    server = oca_server_of(&device, &own);
    server.store = &store, server.kept = kept, server.room = OBJECTS;
    server.context = words[1], server.lock = hold_lock, server.unlock = let_lock_go, server.told = tell;
    bool good = answer == OCA_DONE && oca_socket_open(&own, 0x7F000001, count > 2 ? (uint16_t)atoi(words[2]) : 0) == OCA_SOCKET_DONE;
    if (answer != OCA_DONE) fprintf(stderr, "not started: %s\n", oca_result_text(answer));
    else if (!good) fprintf(stderr, "socket: %s: %s\n", own.call, strerror(own.error));
    else fprintf(stderr, "listening 127.0.0.1:%u\n", (unsigned)own.port);
    end = count > 3 ? oca_socket_now() + 1000 * (uint64_t)atoi(words[3]) : UINT64_MAX;
    good = good && pthread_create(&reading, NULL, front, NULL) == 0;
    while (good && oca_socket_now() < end) (void)oca_serve(&server, oca_socket_now() + 100);
    if (good) pthread_join(reading, NULL);
    oca_serve_end(&server);
    oca_socket_close(&own), oca_device_close(&device), oca_store_close(&store);
    return good ? 0 : 1;
}
