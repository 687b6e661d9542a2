/* A panel for an amplifier in C: it opens channel 1, sets its gain to -6 dB, and reads the gain back.
 * Usage: panel PORT [MUTE GAIN]     The amplifier is at 127.0.0.1; its mute and its gain are 4097 and 4098 unless named. */
#include <oca.h>

#include <stdio.h>
#include <stdlib.h>

enum { HERE = 0x7F000001 };

int main(int count, char **words) {
    struct oca_socket own = OCA_SOCKET_INIT;
    struct oca_panel panel = OCA_PANEL_INIT;
    struct oca_reading gain = oca_alone(oca_int16(0));
    const uint16_t port = count > 1 ? (uint16_t)atoi(words[1]) : 0;
    const uint32_t channel_mute = count > 3 ? (uint32_t)atoi(words[2]) : 4097, channel_gain = count > 3 ? (uint32_t)atoi(words[3]) : 4098;
    if (count < 2 || oca_socket_open_towards(&own, HERE, port, 0) != OCA_SOCKET_DONE) return 2;
    const struct oca_end end = oca_socket_end(&own);
    const enum oca_result opened = oca_panel_open(&panel, &end, HERE, port, 1, 16, 10500);
    if (opened != OCA_DONE) {
        fprintf(stderr, "not opened: %u\n", (unsigned)opened);
        oca_socket_close(&own);
        return 1;
    }
    struct oca_outcome outcome = oca_panel_set(&panel, channel_mute, oca_mute(false));
    bool heard = outcome.asked <= OCA_ASKED_REFUSED;
    if (heard) printf("open channel 1: status %u\n", outcome.status);
    if (heard) outcome = oca_panel_set(&panel, channel_gain, oca_int16(-60));
    heard = heard && outcome.asked <= OCA_ASKED_REFUSED;
    if (heard) printf("gain to -6 dB: status %u\n", outcome.status);
    if (heard) outcome = oca_panel_get(&panel, channel_gain, &gain);
    if (heard && outcome.asked == OCA_ASKED_DONE) printf("gain: %d dB/10\n", (int)oca_value_signed(gain.value));
    else printf("gain: %s\n", oca_outcome_text(outcome));
    oca_panel_close(&panel);
    oca_socket_close(&own);
    return outcome.asked <= OCA_ASKED_UNREADABLE ? 0 : 1;
}
