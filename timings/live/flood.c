/*
 * Sends frames of 64 bytes by a network interface as fast as it goes, for some seconds, and prints how many were sent.
 * usage: flood IFACE SECONDS
 */
#define _GNU_SOURCE
#include <linux/if_packet.h>
#include <net/if.h>
#include <stdint.h>
#include <stdio.h>
#include <stdlib.h>
#include <string.h>
#include <sys/socket.h>
#include <time.h>

enum { BATCH = 64, BYTES = 64 };

/* Both addresses, a tag with VID 100, the type of IPv4, and the first byte of its header. */
static const uint8_t front[] = {2, 0, 0, 0, 0, 1, 2, 0, 0, 0, 0, 2, 0x81, 0, 0, 100, 8, 0, 0x45};

static uint8_t frame[BYTES];
static struct iovec part = {frame, BYTES};
static struct mmsghdr heads[BATCH];

static double now(void) {
    struct timespec time;
    clock_gettime(CLOCK_MONOTONIC, &time);
    return (double)time.tv_sec + (double)time.tv_nsec / 1e9;
}

int main(int argc, char **argv) {
    if (argc != 3)
        return 2;
    int by = socket(AF_PACKET, SOCK_RAW, 0);
    struct sockaddr_ll to = {.sll_family = AF_PACKET, .sll_ifindex = (int)if_nametoindex(argv[1])};
    if (by < 0 || bind(by, (struct sockaddr *)&to, sizeof to) != 0)
        return 1;
    memcpy(frame, front, sizeof front);
    for (int place = 0; place < BATCH; place++)
        heads[place].msg_hdr = (struct msghdr){.msg_iov = &part, .msg_iovlen = 1};
    double until = now() + atof(argv[2]);
    long sent = 0;
    while (now() < until) {
        int more = sendmmsg(by, heads, BATCH, 0);
        if (more < 0)
            return 1;
        sent += more;
    }
    printf("%ld\n", sent);
    return 0;
}
