// Answers each datagram with its own octets and one address after them: what the calls of the system take at the least, where one
// datagram is read and one sent in a call, or, with the word `many`, up to 64. The words: the port, and `one` or `many`.
#define _GNU_SOURCE
#include <arpa/inet.h>
#include <poll.h>
#include <stdlib.h>
#include <string.h>
#include <sys/socket.h>

enum { MOST = 64, ROOM = 4096, ADDRESS = 16 };
static unsigned char octets[MOST][ROOM];
static struct sockaddr_in peers[MOST];
static struct iovec parts[MOST];
static struct mmsghdr messages[MOST];

static size_t answer(unsigned char *message, size_t size) {
    message[2] |= 0x84;
    message[7] = 1;
    memcpy(message + size, "\xc0\x0c\0\1\0\1\0\0\1\x2c\0\4\xa\0\0\1", ADDRESS);
    return size + ADDRESS;
}

static int one(int s) {
    socklen_t size = sizeof peers[0];
    ssize_t got = recvfrom(s, octets[0], ROOM - ADDRESS, 0, (struct sockaddr *)&peers[0], &size);
    if (got > 0)
        sendto(s, octets[0], answer(octets[0], got), 0, (struct sockaddr *)&peers[0], size);
    return got > 0;
}

static int many(int s) {
    for (int i = 0; i < MOST; i++) {
        parts[i] = (struct iovec){octets[i], ROOM - ADDRESS};
        messages[i].msg_hdr = (struct msghdr){.msg_name = &peers[i], .msg_namelen = sizeof peers[i], .msg_iov = &parts[i], .msg_iovlen = 1};
    }
    int got = recvmmsg(s, messages, MOST, 0, NULL);
    for (int i = 0; i < got; i++)
        parts[i].iov_len = answer(octets[i], messages[i].msg_len);
    if (got > 0)
        sendmmsg(s, messages, got, 0);
    return got > 0;
}

int main(int argc, char **argv) {
    if (argc != 3)
        return 2;
    int s = socket(AF_INET, SOCK_DGRAM | SOCK_NONBLOCK, 0);
    struct sockaddr_in own = {.sin_family = AF_INET, .sin_port = htons(atoi(argv[1])), .sin_addr.s_addr = htonl(INADDR_LOOPBACK)};
    if (bind(s, (struct sockaddr *)&own, sizeof own))
        return 1;
    struct pollfd ready = {s, POLLIN, 0};
    for (;;)
        if (!(strcmp(argv[2], "many") ? one(s) : many(s)))
            poll(&ready, 1, 1000);
}
