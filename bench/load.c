/* A load on loopback: GetState commands of object 4097 under rising handles, so many outstanding.
 * Usage: load PORT REQUESTS OUTSTANDING     It prints the seconds that the requests took. A lost datagram ends it with 1. */
#include <arpa/inet.h>
#include <stdio.h>
#include <stdlib.h>
#include <string.h>
#include <sys/socket.h>
#include <sys/time.h>
#include <time.h>

static double now(void) {
    struct timespec t;
    clock_gettime(CLOCK_MONOTONIC, &t);
    return t.tv_sec + t.tv_nsec / 1e9;
}

int main(int count, char **words) {
    if (count != 4) return 2;
    long requests = atol(words[2]), outstanding = atol(words[3]);
    unsigned char command[27] = {0x3b, 0, 1, 0, 0, 0, 0x1a, 1, 0, 1, 0, 0, 0, 0x11, 0, 0, 0, 0, 0, 0, 0x10, 1, 0, 4, 0, 1, 0};
    unsigned char answer[1500];
    struct sockaddr_in to = {.sin_family = AF_INET, .sin_port = htons(atoi(words[1])), .sin_addr.s_addr = htonl(INADDR_LOOPBACK)};
    struct timeval wait = {.tv_sec = 2};
    int socket_ = socket(AF_INET, SOCK_DGRAM, 0);
    setsockopt(socket_, SOL_SOCKET, SO_RCVTIMEO, &wait, sizeof wait);
    if (connect(socket_, (struct sockaddr *)&to, sizeof to)) return 1;
    double start = now();
    long sent = 0, heard = 0;
    while (heard < requests) {
        while (sent < requests && sent - heard < outstanding) {
            unsigned handle = htonl(++sent);
            memcpy(command + 14, &handle, 4);
            if (send(socket_, command, sizeof command, 0) != sizeof command) return 1;
        }
        if (recv(socket_, answer, sizeof answer, 0) < 0) return 1;
        heard++;
    }
    printf("%f\n", now() - start);
    return 0;
}
