/* A two-channel amplifier in C: each channel has a mute and a gain in tenths of a decibel.
 * Usage: device [PORT [SECONDS]]     It prints where it listens on standard error, and each change of its channels. Without SECONDS it runs
 * until SIGTERM or SIGINT stops it. */
#define _POSIX_C_SOURCE 200809L
#include <oca.h>

#include <signal.h>
#include <stdio.h>
#include <stdlib.h>
#include <string.h>

/* The objects' numbers: the block of a channel has 4096 + 16 * channel, its mute 1 more and its gain 2 more. */
enum { CHANNELS = 2, FIRST = 4096, EACH = 16, MUTE = 1, GAIN = 2, FAULT = 4200 /* a light that panels read and cannot set */ };

/* The objects: for each channel a block with a mute and a gain; and a fault light. */
static enum oca_result build(struct oca_device *device) {
    const struct oca_spec mute = oca_spec_of("mute", oca_alone(oca_mute(true)));
    const struct oca_spec gain = oca_spec_of("gain", oca_within(oca_int16(0), oca_int16(-600), oca_int16(100)));
    enum oca_result answer = oca_device_open(device, 128);
    const struct oca_spec fault = oca_spec_of("fault", oca_alone(oca_boolean(false)));
    if (answer == OCA_DONE) answer = oca_device_add(device, 100, FAULT, &fault);
    for (uint32_t channel = 0; channel < CHANNELS && answer == OCA_DONE; channel++) {
        const uint32_t number = FIRST + EACH * channel;
        char role[16];
        snprintf(role, sizeof role, "channel %u", (unsigned)channel + 1);
        const struct oca_spec block = oca_spec_of_block(role);
        answer = oca_device_add(device, 100, number, &block);
        if (answer == OCA_DONE) answer = oca_device_add(device, number, number + MUTE, &mute);
        if (answer == OCA_DONE) answer = oca_device_add(device, number, number + GAIN, &gain);
    }
    return answer == OCA_DONE ? oca_device_start(device, 32, 16) : answer;
}

/* What the channels are to be, and whether that is new. */
struct channels { struct oca_device *device; bool muted[CHANNELS]; int gain[CHANNELS]; bool is_new; };

/* Brings an object that was written to into the channels: here the hardware is to follow it. */
static void follow(void *context, uint32_t ono) {
    struct channels *channels = (struct channels *)context;
    struct oca_reading now = oca_alone(oca_mute(true));
    const uint32_t channel = (ono - FIRST) / EACH, part = ono % EACH;
    if (ono < FIRST || channel >= CHANNELS || oca_device_value(channels->device, ono, &now) != OCA_DONE) return; /* a block, or no channel's */
    const bool muted = part == MUTE ? now.value.bits == OCA_MUTED : channels->muted[channel];
    const int gain = part == GAIN ? (int)oca_value_signed(now.value) : channels->gain[channel];
    channels->is_new = channels->is_new || muted != channels->muted[channel] || gain != channels->gain[channel];
    channels->muted[channel] = muted;
    channels->gain[channel] = gain;
}

static void print(struct channels *channels) {
    printf("1: %s %d dB/10, 2: %s %d dB/10\n", channels->muted[0] ? "muted" : "open", channels->gain[0],
           channels->muted[1] ? "muted" : "open", channels->gain[1]);
    fflush(stdout);
    channels->is_new = false;
}

static volatile sig_atomic_t is_stopped;

static void stop(int number) {
    (void)number;
    is_stopped = 1;
}

int main(int count, char **words) {
    struct sigaction stopping;
    struct oca_device device = OCA_DEVICE_INIT;
    struct oca_socket own = OCA_SOCKET_INIT;
    struct channels channels = {&device, {true, true}, {0, 0}, false};
    const enum oca_result answer = build(&device);
    const bool good = answer == OCA_DONE && oca_socket_open(&own, 0x7F000001, count > 1 ? (uint16_t)atoi(words[1]) : 0) == OCA_SOCKET_DONE;
    if (answer == OCA_DONE) (void)oca_device_set_failing(&device, FAULT, true); /* a set of it is answered ProcessingFailed */
    if (answer != OCA_DONE) fprintf(stderr, "not started: %u\n", (unsigned)answer);
    else if (!good) fprintf(stderr, "socket: %s: %s\n", own.call, strerror(own.error));
    struct oca_server server = oca_server_of(&device, &own);
    server.context = &channels;
    server.written = follow;
    if (good) fprintf(stderr, "listening 127.0.0.1:%u\n", (unsigned)own.port);
    memset(&stopping, 0, sizeof stopping);
    stopping.sa_handler = stop;
    (void)sigaction(SIGTERM, &stopping, NULL);
    (void)sigaction(SIGINT, &stopping, NULL);
    const uint64_t end = count > 2 ? oca_socket_now() + 1000 * (uint64_t)atoi(words[2]) : UINT64_MAX;
    while (good && !is_stopped && oca_socket_now() < end) {
        (void)oca_serve(&server, end);
        if (channels.is_new) print(&channels);
    }
    oca_socket_close(&own);
    oca_device_close(&device);
    return good ? 0 : 1;
}
