/* A bare loop at a socket: each datagram is answered by one of fixed bytes. What a device costs beside it is measured with it.
 * Usage: echo COUNT     It prints where it listens on standard error, and ends when it has answered so many datagrams. */
#include <arpa/inet.h>
#include <stdio.h>
#include <stdlib.h>
#include <sys/socket.h>

int main(int count, char **words) {
    if (count != 2) return 2;
    /* the response to a GetState of an OcaMute */
    static const unsigned char response[] = {0x3b, 0, 1, 0, 0, 0, 0x14, 3, 0, 1, 0, 0, 0, 0x0b, 0, 0, 0, 1, 0, 1, 1};
    unsigned char datagram[1473];
    struct sockaddr_in at = {.sin_family = AF_INET, .sin_addr.s_addr = htonl(INADDR_LOOPBACK)}, from;
    socklen_t size = sizeof at;
    int socket_ = socket(AF_INET, SOCK_DGRAM, 0);
    if (bind(socket_, (struct sockaddr *)&at, sizeof at) || getsockname(socket_, (struct sockaddr *)&at, &size)) return 1;
    fprintf(stderr, "listening 127.0.0.1:%d\n", ntohs(at.sin_port));
    for (long left = atol(words[1]); left > 0; left--) {
        size = sizeof from;
        if (recvfrom(socket_, datagram, sizeof datagram, 0, (struct sockaddr *)&from, &size) < 0) return 1;
        if (sendto(socket_, response, sizeof response, 0, (struct sockaddr *)&from, size) < 0) return 1;
    }
    return 0;
}
