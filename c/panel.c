/* A panel: a link, driven over the caller's socket. include/oca.h has its calls. It needs nothing of the system, and no heap. */
#include <oca.h>

enum oca_result oca_panel_open(struct oca_panel *panel, const struct oca_end *end, uint32_t ip, uint16_t port, uint32_t first_handle, uint8_t span, uint32_t wait_ms) {
    if (panel->link.is_open) return OCA_OPEN;
    if (end->size != sizeof *end) return OCA_BAD_SIZE;
    panel->end = *end;
    panel->wait_ms = wait_ms;
    return oca_link_open(&panel->link, ip, port, first_handle, end->now(end->context), span);
}

void oca_panel_close(struct oca_panel *panel) {
    if (panel) oca_link_close(&panel->link);
}

/* The present moment of a panel's end, and whether its link can go on then. */
static uint64_t now_of(const struct oca_panel *panel) { return panel->end.now(panel->end.context); }
static struct oca_outcome state_at(struct oca_panel *panel, uint64_t now) {
    bool lost = false, late = false;
    const enum oca_result found = oca_link_is_lost(&panel->link, &lost);
    if (found != OCA_DONE) return oca_outcome_of(OCA_ASKED_NOT_SENT, 0, found);
    if (lost) return oca_outcome_of(OCA_ASKED_LOST, 0, 0);
    (void)oca_link_is_late(&panel->link, now, &late);
    return oca_outcome_of(late ? OCA_ASKED_LATE : OCA_ASKED_DONE, 0, 0);
}

struct oca_outcome oca_panel_state(struct oca_panel *panel) {
    if (!panel->link.is_open) return oca_outcome_of(OCA_ASKED_NOT_SENT, 0, OCA_CLOSED);
    return state_at(panel, now_of(panel));
}

/* Sends all that is due. */
static struct oca_outcome send_due(struct oca_panel *panel) {
    uint8_t bytes[OCA_MOST_BYTES] = {0};
    uint32_t due = OCA_DUE_NOTHING, handle = 0;
    size_t len = 0;
    const uint64_t now = now_of(panel);
    const struct oca_outcome state = state_at(panel, now);
    while (state.asked == OCA_ASKED_DONE) {
        const enum oca_result found = oca_link_due(&panel->link, now, bytes, sizeof bytes, &len, &due, &handle);
        if (found != OCA_DONE) return oca_outcome_of(OCA_ASKED_NOT_SENT, 0, found);
        if (due == OCA_DUE_LOST) return oca_outcome_of(OCA_ASKED_LOST, 0, 0);
        if (due == OCA_DUE_NOTHING) return state;
        panel->end.send(panel->end.context, bytes, len);
    }
    return state;
}

/* The moment so many milliseconds behind another one, and at most the last there is. */
static uint64_t moment_after(uint64_t moment, uint32_t ms) { return moment > UINT64_MAX - ms ? UINT64_MAX : moment + ms; }

/* Receives once, until this moment; whether a datagram came. */
static bool receive_until(struct oca_panel *panel, uint64_t until) {
    uint8_t bytes[OCA_MOST_BYTES + 1] = {0};
    size_t len = 0;
    uint32_t ip = 0, reception = 0, answered = 0;
    uint16_t port = 0;
    const bool came = panel->end.receive(panel->end.context, until, bytes, sizeof bytes, &len, &ip, &port);
    if (came && len <= OCA_MOST_BYTES) (void)oca_link_datagram(&panel->link, ip, port, bytes, len, now_of(panel), &reception, &answered);
    return came;
}

/* A turn that receives until a moment at most. */
static struct oca_outcome turn_until(struct oca_panel *panel, uint64_t until) {
    uint64_t due = 0;
    if (!panel->link.is_open) return oca_panel_state(panel);
    if (oca_link_next_due(&panel->link, &due) == OCA_DONE && due < until) until = due;
    (void)receive_until(panel, until);
    return send_due(panel);
}

struct oca_outcome oca_panel_poll(struct oca_panel *panel) {
    if (!panel->link.is_open) return oca_panel_state(panel);
    for (int i = 0; i < 64 && receive_until(panel, 0); i++) {}
    return send_due(panel);
}

struct oca_outcome oca_panel_turn(struct oca_panel *panel) {
    if (!panel->link.is_open) return oca_panel_state(panel);
    return turn_until(panel, moment_after(now_of(panel), 50));
}

enum oca_result oca_panel_begin(struct oca_panel *panel, uint32_t ono, uint32_t method, uint8_t count, const uint8_t *params, size_t params_len, uint32_t *handle) {
    const struct oca_outcome state = oca_panel_state(panel);
    if (state.asked == OCA_ASKED_LATE) return OCA_LOST;
    if (!panel->link.is_open) return OCA_CLOSED;
    const enum oca_result taken = oca_link_call(&panel->link, ono, method, count, params, params_len, now_of(panel), handle);
    if (taken == OCA_DONE) (void)send_due(panel);
    return taken;
}

enum oca_result oca_panel_begin_set(struct oca_panel *panel, uint32_t ono, struct oca_value value, uint32_t *handle) {
    struct oca_request request = {0, 0, 0, 0, {0}};
    const enum oca_result found = oca_set_request(&value, &request);
    if (found != OCA_DONE) return found;
    return oca_panel_begin(panel, ono, (uint32_t)request.level << 16 | request.index, request.count, request.params, request.size, handle);
}

enum oca_result oca_panel_begin_get(struct oca_panel *panel, uint32_t ono, uint32_t class_number, uint32_t *handle) {
    struct oca_request request = {0, 0, 0, 0, {0}};
    const enum oca_result found = oca_get_request(class_number, &request);
    if (found != OCA_DONE) return found;
    return oca_panel_begin(panel, ono, (uint32_t)request.level << 16 | request.index, request.count, request.params, request.size, handle);
}

struct oca_outcome oca_panel_try_finish(struct oca_panel *panel, uint32_t handle, struct oca_answer *answer) {
    uint32_t status = 0;
    bool in_flight = true;
    const enum oca_result taken = oca_link_take(&panel->link, handle, &status, &answer->count, answer->params, sizeof answer->params, &answer->params_len);
    if (taken == OCA_DONE) return oca_outcome_of(status == OCA_STATUS_OK ? OCA_ASKED_DONE : OCA_ASKED_REFUSED, status, 0);
    if (oca_link_in_flight(&panel->link, handle, &in_flight) == OCA_DONE && !in_flight) return oca_outcome_of(OCA_ASKED_NO_HANDLE, 0, handle);
    const struct oca_outcome state = oca_panel_state(panel);
    return state.asked == OCA_ASKED_DONE ? oca_outcome_of(OCA_ASKED_UNANSWERED, 0, handle) : state;
}

struct oca_outcome oca_panel_finish(struct oca_panel *panel, uint32_t handle, struct oca_answer *answer) {
    struct oca_outcome outcome = oca_panel_try_finish(panel, handle, answer);
    if (outcome.asked != OCA_ASKED_UNANSWERED) return outcome;
    uint64_t now = now_of(panel), latest = now;
    const uint64_t until = moment_after(now, panel->wait_ms);
    for (uint32_t still = 0; now < until && still < 100000 && outcome.asked == OCA_ASKED_UNANSWERED; still++) {
        const uint64_t turn = moment_after(now, 50);
        (void)turn_until(panel, turn < until ? turn : until);
        outcome = oca_panel_try_finish(panel, handle, answer);
        now = now_of(panel);
        if (now > latest) {
            latest = now;
            still = 0;
        }
    }
    return outcome;
}

enum oca_result oca_flight_push(struct oca_flight *flight, uint32_t handle, void *item) {
    if (flight->count >= 32) return OCA_SPAN_FULL;
    const uint32_t at = (flight->first % 32 + flight->count++) % 32;
    flight->handles[at] = handle;
    flight->items[at] = item;
    return OCA_DONE;
}

/* Takes the first command out, once it is known how it came out. */
static struct oca_outcome take_first(struct oca_flight *flight, struct oca_outcome outcome, void **item) {
    *item = flight->items[flight->first % 32];
    if (outcome.asked == OCA_ASKED_UNANSWERED) return outcome;
    flight->first = (flight->first + 1) % 32;
    flight->count--;
    return outcome;
}

struct oca_outcome oca_flight_finish(struct oca_flight *flight, struct oca_panel *panel, struct oca_answer *answer, void **item) {
    if (flight->count == 0) return oca_outcome_of(OCA_ASKED_NO_HANDLE, 0, 0);
    return take_first(flight, oca_panel_finish(panel, flight->handles[flight->first % 32], answer), item);
}

struct oca_outcome oca_flight_try_finish(struct oca_flight *flight, struct oca_panel *panel, struct oca_answer *answer, void **item) {
    if (flight->count == 0) return oca_outcome_of(OCA_ASKED_NO_HANDLE, 0, 0);
    return take_first(flight, oca_panel_try_finish(panel, flight->handles[flight->first % 32], answer), item);
}

struct oca_outcome oca_flight_try_any(struct oca_flight *flight, struct oca_panel *panel, struct oca_answer *answer, void **item) {
    struct oca_outcome outcome = oca_outcome_of(OCA_ASKED_NO_HANDLE, 0, 0);
    for (uint32_t k = 0; k < flight->count && k < 32; k++) {
        uint32_t at = (flight->first % 32 + k) % 32;
        outcome = oca_panel_try_finish(panel, flight->handles[at], answer);
        if (outcome.asked == OCA_ASKED_UNANSWERED) continue;
        void *const found = flight->items[at];
        for (; k > 0; k--, at = (at + 31) % 32) {
            flight->handles[at] = flight->handles[(at + 31) % 32];
            flight->items[at] = flight->items[(at + 31) % 32];
        }
        (void)take_first(flight, outcome, item);
        *item = found;
        break;
    }
    return outcome;
}

/* The outcome of a command that the link did not take, by why. */
static struct oca_outcome refused(enum oca_result result) {
    if (result == OCA_LOST) return oca_outcome_of(OCA_ASKED_LOST, 0, 0);
    return result == OCA_NO_VALUE ? oca_outcome_of(OCA_ASKED_NO_VALUE, 0, 0) : oca_outcome_of(OCA_ASKED_NOT_SENT, 0, result);
}

struct oca_outcome oca_panel_ask(struct oca_panel *panel, uint32_t ono, uint32_t method, uint8_t count, const uint8_t *params, size_t params_len, struct oca_answer *answer) {
    uint32_t handle = 0;
    const enum oca_result begun = oca_panel_begin(panel, ono, method, count, params, params_len, &handle);
    return begun == OCA_DONE ? oca_panel_finish(panel, handle, answer) : refused(begun);
}

struct oca_outcome oca_panel_read(struct oca_panel *panel, uint32_t ono, uint32_t method, struct oca_answer *answer) {
    static const uint8_t none[1] = {0};
    return oca_panel_ask(panel, ono, method, 0, none, 0, answer);
}

struct oca_outcome oca_panel_finish_set(struct oca_panel *panel, uint32_t handle) {
    struct oca_answer answer = {0, 0, {0}};
    return oca_panel_finish(panel, handle, &answer);
}

struct oca_outcome oca_panel_finish_get(struct oca_panel *panel, uint32_t handle, uint32_t class_number, struct oca_reading *reading) {
    struct oca_answer answer = {0, 0, {0}};
    const struct oca_outcome outcome = oca_panel_finish(panel, handle, &answer);
    if (outcome.asked != OCA_ASKED_DONE) return outcome;
    return oca_outcome_of(oca_value_read(class_number, answer.params, answer.params_len, reading) == OCA_DONE ? OCA_ASKED_DONE : OCA_ASKED_UNREADABLE, 0, 0);
}

struct oca_outcome oca_panel_set(struct oca_panel *panel, uint32_t ono, struct oca_value value) {
    uint32_t handle = 0;
    const enum oca_result begun = oca_panel_begin_set(panel, ono, value, &handle);
    return begun == OCA_DONE ? oca_panel_finish_set(panel, handle) : refused(begun);
}

struct oca_outcome oca_panel_get_of(struct oca_panel *panel, uint32_t ono, uint32_t class_number, struct oca_reading *reading) {
    uint32_t handle = 0;
    const enum oca_result begun = oca_panel_begin_get(panel, ono, class_number, &handle);
    return begun == OCA_DONE ? oca_panel_finish_get(panel, handle, class_number, reading) : refused(begun);
}

/* What became of a question whose answer was read. */
static struct oca_outcome was_read(enum oca_result read) {
    return oca_outcome_of(read == OCA_DONE ? OCA_ASKED_DONE : OCA_ASKED_UNREADABLE, 0, 0);
}

static struct oca_outcome text_of(const struct oca_answer *answer, struct oca_outcome outcome, struct oca_name *name) {
    return outcome.asked == OCA_ASKED_DONE ? was_read(oca_text_read(answer->params, answer->params_len, name)) : outcome;
}

struct oca_outcome oca_panel_class(struct oca_panel *panel, uint32_t ono, struct oca_class_id *id) {
    struct oca_answer answer = {0, 0, {0}};
    const struct oca_outcome outcome = oca_panel_read(panel, ono, OCA_GET_CLASS_IDENTIFICATION, &answer);
    return outcome.asked == OCA_ASKED_DONE ? was_read(oca_class_read(answer.params, answer.params_len, id)) : outcome;
}

struct oca_outcome oca_panel_get(struct oca_panel *panel, uint32_t ono, struct oca_reading *reading) {
    struct oca_class_id id = {0, {0}, 0};
    const struct oca_outcome outcome = oca_panel_class(panel, ono, &id);
    return outcome.asked == OCA_ASKED_DONE ? oca_panel_get_of(panel, ono, id.class_number, reading) : outcome;
}

struct oca_outcome oca_panel_lock(struct oca_panel *panel, uint32_t ono) {
    struct oca_answer answer = {0, 0, {0}};
    return oca_panel_read(panel, ono, OCA_LOCK_TOTAL, &answer);
}

struct oca_outcome oca_panel_unlock(struct oca_panel *panel, uint32_t ono) {
    struct oca_answer answer = {0, 0, {0}};
    return oca_panel_read(panel, ono, OCA_UNLOCK, &answer);
}

struct oca_outcome oca_panel_role(struct oca_panel *panel, uint32_t ono, struct oca_name *role) {
    struct oca_answer answer = {0, 0, {0}};
    const struct oca_outcome outcome = oca_panel_read(panel, ono, OCA_GET_ROLE, &answer);
    return text_of(&answer, outcome, role);
}

struct oca_outcome oca_panel_label(struct oca_panel *panel, uint32_t ono, struct oca_name *label) {
    struct oca_answer answer = {0, 0, {0}};
    const struct oca_outcome outcome = oca_panel_read(panel, ono, OCA_GET_LABEL, &answer);
    return text_of(&answer, outcome, label);
}

struct oca_outcome oca_panel_set_label(struct oca_panel *panel, uint32_t ono, const struct oca_name *label) {
    uint8_t params[66] = {0};
    size_t len = 0;
    struct oca_answer answer = {0, 0, {0}};
    const enum oca_result put = oca_text_put(label, params, sizeof params, &len);
    return put == OCA_DONE ? oca_panel_ask(panel, ono, OCA_SET_LABEL, 1, params, len, &answer) : refused(put);
}

struct oca_outcome oca_panel_position_name(struct oca_panel *panel, uint32_t ono, uint16_t position, struct oca_name *name) {
    const uint8_t params[2] = {(uint8_t)(position >> 8), (uint8_t)position};
    struct oca_answer answer = {0, 0, {0}};
    const struct oca_outcome outcome = oca_panel_ask(panel, ono, OCA_GET_POSITION_NAME, 1, params, sizeof params, &answer);
    return text_of(&answer, outcome, name);
}

struct oca_outcome oca_panel_position_names(struct oca_panel *panel, uint32_t ono, struct oca_names *names) {
    struct oca_answer answer = {0, 0, {0}};
    const struct oca_outcome outcome = oca_panel_read(panel, ono, OCA_GET_POSITION_NAMES, &answer);
    return outcome.asked == OCA_ASKED_DONE ? was_read(oca_names_read(answer.params, answer.params_len, names)) : outcome;
}

struct oca_outcome oca_panel_members(struct oca_panel *panel, uint32_t ono, struct oca_members *members) {
    struct oca_answer answer = {0, 0, {0}};
    const struct oca_outcome outcome = oca_panel_read(panel, ono, OCA_GET_MEMBERS, &answer);
    return outcome.asked == OCA_ASKED_DONE ? was_read(oca_members_read(answer.params, answer.params_len, members)) : outcome;
}

/* Has an object wait to be visited, before all others that wait, unless it was visited or there is no room. */
static void walk_put(struct oca_walk *walk, uint32_t ono, uint32_t container) {
    uint32_t first = 4096 - walk->waiting, at = first;
    for (uint32_t i = 0; i < walk->visited; i++)
        if (walk->places[i].ono == ono) return;
    while (at < 4096 && walk->places[at].ono != ono) at++;
    if (at == 4096) {
        if (walk->visited + walk->waiting == 4096) return;
        walk->waiting++;
        at = --first;
    }
    for (; at > first; at--) walk->places[at] = walk->places[at - 1];
    walk->places[first].ono = ono;
    walk->places[first].container = container;
}

/* Whether a walk can't go on after a question that ended so. */
static bool ends_at(struct oca_outcome outcome) { return outcome.asked == OCA_ASKED_NOT_SENT || outcome.asked == OCA_ASKED_UNANSWERED; }

struct oca_outcome oca_panel_walk(struct oca_panel *panel, struct oca_walk *walk, oca_visitor visit, void *context) {
    struct oca_members members = {0, {0}};
    const uint32_t wait_ms = panel->wait_ms;
    bool goes_on = true;
    walk->visited = walk->waiting = 0;
    walk_put(walk, 100, 0);
    while (goes_on && walk->waiting > 0) {
        const uint32_t next = 4096 - walk->waiting--;
        struct oca_visit found = {walk->places[next].ono, walk->places[next].container, {0, 0, 0}, {0, {0}, 0}, {0, {0}}, {0, 0, 0}};
        walk->places[walk->visited].ono = found.ono;
        walk->places[walk->visited++].container = found.container;
        panel->wait_ms = 20000; /* a link is lost, or late, before that */
        found.described = oca_panel_class(panel, found.ono, &found.id);
        if (found.described.asked == OCA_ASKED_DONE) found.described = oca_panel_role(panel, found.ono, &found.role);
        if (found.described.asked != OCA_ASKED_DONE) found.listed = found.described;
        if (found.described.asked == OCA_ASKED_DONE && found.id.class_number == OCA_CLASS_BLOCK) {
            found.listed = oca_panel_members(panel, found.ono, &members);
            for (uint32_t i = found.listed.asked == OCA_ASKED_DONE ? members.count : 0; i > 0; i--) walk_put(walk, members.onos[i - 1], found.ono);
        }
        panel->wait_ms = wait_ms;
        const struct oca_outcome state = oca_panel_state(panel);
        if (state.asked != OCA_ASKED_DONE) return state;
        if (ends_at(found.described)) return found.described;
        if (ends_at(found.listed)) return found.listed;
        goes_on = visit(context, &found);
    }
    return oca_outcome_of(OCA_ASKED_DONE, 0, 0);
}
