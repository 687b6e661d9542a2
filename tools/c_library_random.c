/* Random calls of the library: of devices and links that are closed, built, started or lost, with sizes, numbers and moments at their
 * edges, and of panels whose sockets give anything. What a call writes stands between bytes that must stay as they are, an answer must be
 * one that the header names, what is closed answers so, and what is refused leaves what it would have told.
 * It prints which results each call answered. Usage: random CALLS SEED */
#include <oca.h>
#include "c_checks.h"
#include "c_library_random_calls.h" /* made by c_rows.py of rows/c_library_random_calls.toml */
#include <stdlib.h>

static uint64_t state;

static uint32_t below(uint32_t most) {
    state = state * UINT64_C(6364136223846793005) + UINT64_C(1442695040888963407);
    return (uint32_t)(state >> 33) % most;
}

/* A number at an edge, a small one, or any. */
static uint64_t number(void) {
    static const uint64_t edges[] = {0, 1, 2, 16, 17, 32, 33, 64, 65, 100, 122, 123, 4095, 4096, 4097, 65535, 65536, UINT32_MAX, UINT64_MAX - 1, UINT64_MAX};
    const uint32_t kind = below(4);
    if (kind == 0) return edges[below(sizeof edges / sizeof *edges)];
    if (kind == 1) return 4096 + below(20);
    if (kind == 2) return below(200);
    return (uint64_t)below(UINT32_MAX) << 32 | below(UINT32_MAX);
}

/* The names of the calls that were made, each with the results that it answered, a bit for each. */
#define CALL(name) (called = #name, name)
static const char *called = "", *names_of_calls[64];
static uint32_t results_of[64];

static void told(enum oca_result result) {
    int k = 0;
    while (k < 63 && names_of_calls[k] && strcmp(names_of_calls[k], called) != 0) k++;
    names_of_calls[k] = called;
    results_of[k] |= UINT32_C(1) << (result & 31);
}

static void expect(bool is_well, const char *what) {
    if (is_well) passed++;
    else if (failed++ < 9) printf("WRONG: %s\n", what);
}

/* A place of so many bytes for what a call writes, between others that stay as they are. */
struct place { size_t size; uint8_t *whole, before[2048]; };
enum { EDGE = 64 };
static struct place places[4];

static void *room(int which, size_t size) {
    struct place *place = &places[which];
    place->size = size;
    for (size_t i = 0; i < size + 2 * EDGE; i++) place->whole[i] = place->before[i] = (uint8_t)below(256);
    return place->whole + EDGE;
}

#define ROOM(which, type) ((type *)room(which, sizeof(type)))
#define ROOMS(which, type, count) ((type *)room(which, sizeof(type) * (count)))
#define FLAG ((bool *)memset(room(0, 1), 0, 1))

/* That nothing beside the places was written to, and nothing in them where the call refused it. */
static void looks(int count, bool may_write, const char *what) {
    for (int k = 0; k < count; k++) {
        const struct place *it = &places[k];
        expect(memcmp(it->whole, it->before, EDGE) == 0 && memcmp(it->whole + EDGE + it->size, it->before + EDGE + it->size, EDGE) == 0, what);
        expect(may_write || memcmp(it->whole, it->before, it->size + 2 * EDGE) == 0, what);
    }
}

static struct oca_value any_value(void) {
    struct oca_value value = oca_value_of(below(15), below(3) ? below(4) : number());
    value.zero = below(20) == 0;
    return value;
}

static struct oca_spec any_spec(void) {
    struct oca_spec spec = oca_spec_of(below(9) ? "role" : "", oca_alone(any_value()));
    if (below(2)) spec.reading.greatest = oca_value_of(spec.reading.value.class_number, number());
    for (uint32_t k = below(18); k > 0 && spec.reading.value.class_number == OCA_CLASS_SWITCH; k--) oca_spec_position(&spec, "position");
    if (below(20) == 0) spec.size = (uint32_t)number();
    if (below(20) == 0) spec.zeros[below(6)] = (uint8_t)below(256);
    if (below(20) == 0) spec.label.size = (uint8_t)below(256);
    if (below(20) == 0) spec.names[below(16)].size = (uint8_t)below(256);
    if (below(20) == 0) spec.positions = (uint16_t)number();
    spec.enabled = (uint8_t)below(3);
    return spec;
}

/* A datagram of anything, or one with a command. */
static size_t any_datagram(uint8_t *bytes, uint32_t handle) {
    size_t len = below(8) ? below(60) : below(OCA_MOST_BYTES + 1);
    for (size_t i = 0; i < len; i++) bytes[i] = (uint8_t)(below(4) ? below(5) : below(256));
    if (below(3) == 0) return len;
    const uint8_t head[] = {0x3b, 0, 1, 0, 0, 0, 0, (uint8_t)(below(5)), 0, 1, 0, 0, 0, 0, 0, 0, 0, (uint8_t)handle, 0, 0, 0x10, (uint8_t)below(20),
        0, (uint8_t)below(6), 0, (uint8_t)below(10), (uint8_t)below(3)};
    if (len < sizeof head) len = sizeof head;
    memcpy(bytes, head, sizeof head);
    bytes[5] = (uint8_t)((len - 1) >> 8), bytes[6] = (uint8_t)(len - 1);
    bytes[12] = (uint8_t)((len - 10) >> 8), bytes[13] = (uint8_t)(len - 10);
    return len;
}

/* A description of an object is read into a struct of its size, or of another one. */
static enum oca_result reads_spec(struct oca_device *d, uint32_t ono) {
    struct oca_spec *read = ROOM(0, struct oca_spec);
    read->size = below(3) ? (uint32_t)sizeof *read : (uint32_t)number();
    memcpy(places[0].before + EDGE, &read->size, 4);
    const enum oca_result result = below(2) ? CALL(oca_device_spec)(d, below(12), read) : CALL(oca_device_spec_of)(d, below(3) ? ono : 100, read);
    expect(read->size == sizeof *read || result != OCA_DONE, "a struct of another size is written to");
    return result;
}

/* What a call of a device or a link answered, which was open before or not, and that may open it. */
static void judge(enum oca_result result, bool was_open, bool may_open, bool is_sound) {
    told(result);
    expect(result <= OCA_NO_VALUE, "a result of a device or a link");
    expect(was_open || may_open || result == OCA_CLOSED, "what is closed answers so");
    expect(!was_open || !may_open || result == OCA_OPEN, "what is open is not opened");
    expect(is_sound, "a device or a link is open or not");
}

/* A call of a device. */
static void calls_device(struct oca_device *d) {
    static const uint8_t role[] = {'r', 'o', 'l', 'e', 0xff}, zeros[80] = {0};
    uint8_t bytes[OCA_MOST_BYTES];
    const bool was_open = d->is_open;
    const uint32_t ono = below(3) ? 4096 + below(8) : (uint32_t)number(), container = below(3) ? 100 : 4096 + below(9);
    const size_t size = below(4) ? below(80) : 0;
    const struct oca_value value = any_value();
    static struct oca_kept kept[3];
    struct oca_spec spec = any_spec();
    enum oca_result result = OCA_DONE;
    int count = 0;
    bool may_open = false;
    switch (below(DEVICE_COUNT)) { DEVICE_CALLS }
    judge(result, was_open, may_open, d->is_open == (d->at != NULL));
    looks(count, result == OCA_DONE || result == OCA_TOO_SMALL, "what a call of a device writes");
}

/* A stored struct is restored over any other. */
static enum oca_result restores(const struct oca_spec *stored) {
    struct oca_spec *spec = ROOM(0, struct oca_spec);
    *spec = any_spec();
    memcpy(places[0].before + EDGE, spec, sizeof *spec);
    return CALL(oca_spec_restore)(spec, stored);
}

/* A call without a device: a stored struct, and words for values. */
static void calls_values(void) {
    static const char *const words[] = {"muted", "unmuted", "on", "off", "inverted", "-0", "+1", "255", "-129", "9223372036854775808", "\xff", ""};
    const struct oca_value value = any_value();
    const struct oca_spec stored = any_spec();
    const char *word = words[below(sizeof words / sizeof *words)];
    const size_t size = below(24);
    enum oca_result result = OCA_DONE;
    int count = 0;
    switch (below(VALUE_COUNT)) { VALUE_CALLS }
    told(result);
    looks(count, result == OCA_DONE, "what a call of a value writes");
}

/* A call of a link. */
static void calls_link(struct oca_link *l) {
    uint8_t bytes[OCA_MOST_BYTES] = {0};
    const bool was_open = l->is_open;
    const uint64_t now = number();
    const size_t size = below(2) ? (size_t)OCA_MOST_BYTES : below(OCA_MOST_BYTES + 1);
    enum oca_result result = OCA_DONE;
    int count = 0;
    bool may_open = false;
    switch (below(LINK_COUNT)) { LINK_CALLS }
    judge(result, was_open, may_open, l->is_open == (l->at != NULL));
    looks(count, result == OCA_DONE, "what a call of a link writes");
}

/* A socket that gives anything, by a clock that goes on, stands still, or is at its end. */
static uint64_t moment;
static uint64_t any_now(void *context) { return (void)context, moment; }
static void any_send(void *context, const uint8_t *bytes, size_t len) { (void)context, expect(len <= OCA_MOST_BYTES && bytes[0] == 0x3b, "what a panel sends"); }
static bool any_receive(void *context, uint64_t until, uint8_t *out, size_t out_len, size_t *len, uint32_t *ip, uint16_t *port) {
    uint8_t bytes[OCA_MOST_BYTES];
    (void)context;
    if (until > moment && below(3)) moment = below(2) ? until : moment + (until - moment + 1) / 2;
    if (below(4) == 0) return false;
    const size_t size = any_datagram(bytes, below(8));
    memcpy(out, bytes, size < out_len ? size : out_len);
    *len = below(50) ? size : (size_t)number();
    *ip = below(3), *port = (uint16_t)below(3);
    return true;
}

static bool visits(void *context, const struct oca_visit *visit) {
    (void)context;
    expect(visit->described.asked <= OCA_ASKED_NO_HANDLE && visit->role.size <= 64 && visit->id.count <= 16, "a visit");
    return below(30) != 0;
}

/* A call of a panel. */
static void calls_panel(struct oca_panel *panel) {
    static struct oca_walk walk;
    static struct oca_answer answer;
    static struct oca_names names;
    static struct oca_members members;
    struct oca_end end = {below(9) ? sizeof end : (size_t)number(), NULL, any_now, any_send, any_receive};
    struct oca_reading reading = oca_alone(any_value());
    struct oca_class_id id = {0, {0}, 0};
    struct oca_name name = {(uint8_t)(below(4) ? below(65) : below(256)), {0}};
    struct oca_outcome outcome = {0, 0, 0};
    uint8_t bytes[OCA_MOST_BYTES] = {0};
    uint32_t handle = 0;
    const uint32_t ono = (uint32_t)number(), wait_ms = below(3) ? below(400) : 0;
    switch (below(PANEL_COUNT)) { PANEL_CALLS }
    expect(outcome.asked <= OCA_ASKED_NO_HANDLE && outcome.status <= 255 && strlen(oca_outcome_text(outcome)) > 0, "an outcome");
    expect(panel->link.is_open == (panel->link.at != NULL), "a panel is open or not");
    if (moment > UINT64_MAX - 1000000 && below(4)) moment = number() >> 30;
}

int main(int count, char **words) {
    struct oca_device devices[2] = {OCA_DEVICE_INIT, OCA_DEVICE_INIT};
    struct oca_link links[2] = {OCA_LINK_INIT, OCA_LINK_INIT};
    struct oca_panel panel = OCA_PANEL_INIT;
    const long calls = count > 1 ? atol(words[1]) : 100000;
    state = count > 2 ? (uint64_t)atoll(words[2]) : 1;
    for (int k = 0; k < 4; k++) places[k].whole = (uint8_t *)malloc(sizeof places[k].before);
    for (long k = 0; k < calls; k++) {
        const uint32_t which = below(22);
        if (which > 19) calls_values();
        else if (which < 9) calls_device(&devices[which % 2]);
        else if (which < 18) calls_link(&links[which % 2]);
        else calls_panel(&panel);
    }
    for (int k = 0; k < 2; k++) oca_device_close(&devices[k]), oca_link_close(&links[k]);
    oca_panel_close(&panel);
    for (int k = 0; k < 4; k++) free(places[k].whole);
    for (int k = 0; k < 64 && names_of_calls[k]; k++) {
        printf("%s", names_of_calls[k]);
        for (uint32_t result = 0; result < 32; result++)
            if (results_of[k] >> result & 1) printf(" %u", result);
        printf("\n");
    }
    return verdict();
}
