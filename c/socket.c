/* A UDP socket of IPv4 for either end: include/oca.h has its calls. It needs POSIX (sockets, poll and clock_gettime). It is a part of the
 * library by itself: a program that calls none of it does not link it. */
#define _DEFAULT_SOURCE
#define _POSIX_C_SOURCE 200809L
#include <oca.h>

#include <arpa/inet.h>
#include <errno.h>
#include <fcntl.h>
#include <netinet/in.h>
#include <poll.h>
#include <string.h>
#include <sys/socket.h>
#include <time.h>
#include <unistd.h>

static enum oca_socket_result told(struct oca_socket *own, enum oca_socket_result result, const char *call, int error) {
    own->call = call;
    own->error = error;
    return result;
}

static enum oca_socket_result failed(struct oca_socket *own, const char *call) { return told(own, OCA_SOCKET_SYSTEM, call, errno); }

uint64_t oca_socket_now(void) {
    struct timespec time = {0, 0};
#ifdef CLOCK_BOOTTIME
    if (clock_gettime(CLOCK_BOOTTIME, &time) != 0)
#endif
        (void)clock_gettime(CLOCK_MONOTONIC, &time);
    return (uint64_t)time.tv_sec * 1000 + (uint64_t)time.tv_nsec / 1000000;
}

static struct sockaddr_in address_of(uint32_t ip, uint16_t port) {
    struct sockaddr_in at;
    memset(&at, 0, sizeof at);
    at.sin_family = AF_INET;
    at.sin_port = htons(port);
    at.sin_addr.s_addr = htonl(ip);
    return at;
}

/* Makes the socket and binds it, and asks for room for some 37 hosts that do not answer; on a failure it is closed. */
static enum oca_socket_result bind_at(struct oca_socket *own, uint32_t ip, uint16_t port) {
    struct sockaddr_in at = address_of(ip, port);
    socklen_t size = sizeof at;
    const int room = 4000000;
    const char *call = "socket";
    own->file = socket(AF_INET, SOCK_DGRAM, 0);
    if (own->file < 0) return failed(own, call);
    (void)fcntl(own->file, F_SETFD, FD_CLOEXEC);
    (void)setsockopt(own->file, SOL_SOCKET, SO_SNDBUF, &room, sizeof room);
    call = "bind";
    int done = bind(own->file, (const struct sockaddr *)&at, size);
    if (done == 0) call = "getsockname", done = getsockname(own->file, (struct sockaddr *)&at, &size);
    if (done != 0) {
        (void)failed(own, call);
        (void)close(own->file);
        return OCA_SOCKET_SYSTEM;
    }
    own->is_open = true;
    own->ip = ntohl(at.sin_addr.s_addr);
    own->port = ntohs(at.sin_port);
    return told(own, OCA_SOCKET_DONE, NULL, 0);
}

enum oca_socket_result oca_socket_open(struct oca_socket *own, uint32_t ip, uint16_t port) {
    if (!own) return OCA_SOCKET_NULL;
    if (own->is_open) return told(own, OCA_SOCKET_OPEN, NULL, 0);
    own->device_ip = 0;
    own->device_port = 0;
    return bind_at(own, ip, port);
}

enum oca_socket_result oca_socket_open_towards(struct oca_socket *own, uint32_t device_ip, uint16_t device_port, uint16_t port) {
    struct sockaddr_in device = address_of(device_ip, device_port), at = address_of(0, 0);
    socklen_t size = sizeof at;
    if (!own) return OCA_SOCKET_NULL;
    if (own->is_open) return told(own, OCA_SOCKET_OPEN, NULL, 0);
    const int asked = socket(AF_INET, SOCK_DGRAM, 0);
    if (asked < 0) return failed(own, "socket");
    const char *call = "connect";
    int done = connect(asked, (const struct sockaddr *)&device, sizeof device);
    if (done == 0) call = "getsockname", done = getsockname(asked, (struct sockaddr *)&at, &size);
    if (done != 0) (void)failed(own, call);
    (void)close(asked);
    if (done != 0) return OCA_SOCKET_SYSTEM;
    own->device_ip = device_ip;
    own->device_port = device_port;
    return bind_at(own, ntohl(at.sin_addr.s_addr), port);
}

void oca_socket_close(struct oca_socket *own) {
    if (!own || !own->is_open) return;
    (void)close(own->file);
    own->is_open = false;
    (void)told(own, OCA_SOCKET_DONE, NULL, 0);
}

enum oca_socket_result oca_socket_wait(struct oca_socket *own, uint64_t until) {
    if (!own) return OCA_SOCKET_NULL;
    if (!own->is_open) return told(own, OCA_SOCKET_CLOSED, NULL, 0);
    const uint64_t now = oca_socket_now(), left = until > now ? until - now : 0;
    struct pollfd input = {own->file, POLLIN, 0};
    const int found = poll(&input, 1, left > 60000 ? 60000 : (int)left);
    if (found < 0 && errno != EINTR) return failed(own, "poll");
    return told(own, found > 0 ? OCA_SOCKET_DONE : OCA_SOCKET_NOTHING, NULL, 0);
}

enum oca_socket_result oca_socket_receive(struct oca_socket *own, uint8_t *out, size_t out_len, size_t *len, uint32_t *ip, uint16_t *port) {
    struct sockaddr_in from = address_of(0, 0);
    socklen_t size = sizeof from;
    if (!own || !out || !len || !ip || !port) return own ? told(own, OCA_SOCKET_NULL, NULL, 0) : OCA_SOCKET_NULL;
    if (!own->is_open) return told(own, OCA_SOCKET_CLOSED, NULL, 0);
    const ssize_t got = recvfrom(own->file, out, out_len, MSG_DONTWAIT, (struct sockaddr *)&from, &size);
    if (got < 0 && (errno == EAGAIN || errno == EWOULDBLOCK || errno == EINTR)) return told(own, OCA_SOCKET_NOTHING, NULL, 0);
    if (got < 0) return failed(own, "recvfrom");
    *len = (size_t)got;
    *ip = ntohl(from.sin_addr.s_addr);
    *port = ntohs(from.sin_port);
    return told(own, OCA_SOCKET_DONE, NULL, 0);
}

enum oca_socket_result oca_socket_drop(struct oca_socket *own, uint32_t *count) {
    uint8_t byte[1] = {0};
    if (!own || !count) return own ? told(own, OCA_SOCKET_NULL, NULL, 0) : OCA_SOCKET_NULL;
    *count = 0;
    if (!own->is_open) return told(own, OCA_SOCKET_CLOSED, NULL, 0);
    while (*count < OCA_DROPPED_AT_MOST) {
        if (recv(own->file, byte, sizeof byte, MSG_DONTWAIT) >= 0) ++*count;
        else if (errno == EAGAIN || errno == EWOULDBLOCK) break;
        else if (errno != EINTR) return failed(own, "recv");
    }
    return told(own, OCA_SOCKET_DONE, NULL, 0);
}

enum oca_socket_result oca_socket_send(struct oca_socket *own, const uint8_t *bytes, size_t len, uint32_t ip, uint16_t port) {
    const struct sockaddr_in to = address_of(ip, port);
    if (!own || !bytes) return own ? told(own, OCA_SOCKET_NULL, NULL, 0) : OCA_SOCKET_NULL;
    if (!own->is_open) return told(own, OCA_SOCKET_CLOSED, NULL, 0);
    if (sendto(own->file, bytes, len, MSG_DONTWAIT, (const struct sockaddr *)&to, sizeof to) < 0) return failed(own, "sendto");
    return told(own, OCA_SOCKET_DONE, NULL, 0);
}

/* ---- the end of a panel over it ---- */

static uint64_t now_of(void *context) {
    (void)context;
    return oca_socket_now();
}

static void send_to(void *context, const uint8_t *bytes, size_t len) {
    struct oca_socket *own = (struct oca_socket *)context;
    (void)oca_socket_send(own, bytes, len, own->device_ip, own->device_port);
}

static bool receive_by(void *context, uint64_t until, uint8_t *out, size_t out_len, size_t *len, uint32_t *ip, uint16_t *port) {
    struct oca_socket *own = (struct oca_socket *)context;
    return oca_socket_wait(own, until) == OCA_SOCKET_DONE && oca_socket_receive(own, out, out_len, len, ip, port) == OCA_SOCKET_DONE;
}

struct oca_end oca_socket_end(struct oca_socket *own) {
    const struct oca_end end = {sizeof end, own, now_of, send_to, receive_by};
    return end;
}
