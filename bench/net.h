/* What the programs beside this one share: sockets on this machine, frames behind four digits, and the time. */
#include <arpa/inet.h>
#include <netinet/in.h>
#include <netinet/tcp.h>
#include <stdio.h>
#include <stdlib.h>
#include <string.h>
#include <sys/epoll.h>
#include <sys/socket.h>
#include <time.h>
#include <unistd.h>

/* a purchase in ASCII; its time and trace number are the 16 digits at TIME_AT */
#define PURCHASE "00820200722000010000800016411111111111111100000000000000100001020304050000070512345840"

enum { HEADER = 4, TIME_AT = 60, WAITING = 4096 };

static void fail(const char *what)
{
    perror(what);
    exit(1);
}

static struct sockaddr_in here(int port)
{
    struct sockaddr_in address = {.sin_family = AF_INET, .sin_port = htons(port)};
    address.sin_addr.s_addr = htonl(INADDR_LOOPBACK);
    return address;
}

__attribute__((unused)) static int listening(int port)
{
    struct sockaddr_in address = here(port);
    int on = 1, fd = socket(AF_INET, SOCK_STREAM, 0);
    if (fd < 0 || setsockopt(fd, SOL_SOCKET, SO_REUSEADDR, &on, sizeof on) < 0
        || bind(fd, (struct sockaddr *)&address, sizeof address) < 0 || listen(fd, WAITING) < 0)
        fail("listen");
    return fd;
}

/* Connects, once somebody listens: within half a minute. */
__attribute__((unused)) static int connected(int port)
{
    struct sockaddr_in address = here(port);
    int on = 1;
    for (int tries = 0; tries < 3000; tries++) {
        int fd = socket(AF_INET, SOCK_STREAM, 0);
        if (fd < 0)
            fail("socket");
        if (connect(fd, (struct sockaddr *)&address, sizeof address) == 0) {
            setsockopt(fd, IPPROTO_TCP, TCP_NODELAY, &on, sizeof on);
            return fd;
        }
        close(fd);
        usleep(10000);
    }
    fail("connect");
    return -1;
}

__attribute__((unused)) static void watch(int poll, int fd)
{
    struct epoll_event event = {.events = EPOLLIN, .data.fd = fd};
    if (epoll_ctl(poll, EPOLL_CTL_ADD, fd, &event) < 0)
        fail("watch");
}

__attribute__((unused)) static void put(int fd, const char *bytes, size_t size)
{
    while (size > 0) {
        ssize_t count = send(fd, bytes, size, MSG_NOSIGNAL);
        if (count <= 0)
            fail("send");
        bytes += count;
        size -= count;
    }
}

/* The bytes of a body, as the header before it counts them. */
__attribute__((unused)) static size_t body_size(const char *header)
{
    return 1000 * (header[0] - '0') + 100 * (header[1] - '0') + 10 * (header[2] - '0') + (header[3] - '0');
}

__attribute__((unused)) static long now(void)
{
    struct timespec time;
    clock_gettime(CLOCK_MONOTONIC, &time);
    return time.tv_sec * 1000000000L + time.tv_nsec;
}

__attribute__((unused)) static int by_size(const void *a, const void *b)
{
    long x = *(const long *)a, y = *(const long *)b;
    return (x > y) - (x < y);
}
