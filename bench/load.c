/*
 * Peers that each wait for an answer before they send again.
 *
 *   load PORT PEERS IDLE SECONDS FIRST    PEERS peers send purchases, each of its own trace number and time, the first of which has
 *                                         the number FIRST, beside IDLE peers that only stay connected. Prints how many answers came
 *                                         a second, and how long one took.
 *   load PORT hold IDLE                   IDLE peers that stay connected until standard input ends
 */
#include "net.h"

enum { MOST_PEERS = 4096, MOST_TIMES = 1 << 22, ANSWER = 1 << 12 };

struct peer {
    int fd;
    long sent;
    size_t held;
    char answer[ANSWER];
};

static struct peer peers[MOST_PEERS];
static long times[MOST_TIMES], count;
static unsigned next;

/* Sends the next purchase. */
static void ask(struct peer *peer)
{
    char frame[] = PURCHASE, number[17];
    snprintf(number, sizeof number, "0102%06u%06u", next / 1000000 % 1000000, next % 1000000);
    memcpy(frame + TIME_AT, number, 16);
    next++;
    peer->sent = now();
    put(peer->fd, frame, sizeof frame - 1);
}

/* Reads of an answer, and tells whether it is whole. */
static int hear(struct peer *peer)
{
    ssize_t got = recv(peer->fd, peer->answer + peer->held, ANSWER - peer->held, 0);
    if (got <= 0)
        fail("recv");
    peer->held += got;
    return peer->held >= HEADER && peer->held >= HEADER + body_size(peer->answer);
}

static void tell(int active, int idle, long took)
{
    qsort(times, count, sizeof *times, by_size);
    printf("active=%d idle=%d answers=%ld answers_per_second=%.0f median_microseconds=%.1f one_in_100_over_microseconds=%.1f\n", active,
        idle, count, count * 1e9 / took, times[count / 2] / 1000.0, times[count - 1 - count / 100] / 1000.0);
}

/* Answers that come within a tenth of the time aren't counted: the host has grown its memory by then. */
static void load(int active, int idle, long length)
{
    static struct epoll_event events[MOST_PEERS];
    int poll = epoll_create1(0);
    long begun = now(), from = begun + length / 10, end = begun + length;
    for (int i = 0; i < active; i++) {
        struct epoll_event event = {.events = EPOLLIN, .data.ptr = &peers[i]};
        if (epoll_ctl(poll, EPOLL_CTL_ADD, peers[i].fd, &event) < 0)
            fail("watch");
        ask(&peers[i]);
    }
    for (long at = now(); at < end && count < MOST_TIMES; at = now()) {
        int some = epoll_wait(poll, events, MOST_PEERS, 1000);
        for (int i = 0; i < some; i++) {
            struct peer *peer = events[i].data.ptr;
            if (!hear(peer))
                continue;
            long moment = now();
            if (moment >= from && count < MOST_TIMES)
                times[count++] = moment - peer->sent;
            peer->held = 0;
            ask(peer);
        }
    }
    if (count == 0)
        fail("no answer");
    tell(active, idle, now() - from);
}

int main(int words, char **word)
{
    int holds = words == 4 && strcmp(word[2], "hold") == 0;
    if (words != 6 && !holds) {
        fprintf(stderr, "load PORT PEERS IDLE SECONDS FIRST | load PORT hold IDLE\n");
        return 2;
    }
    int port = atoi(word[1]), active = holds ? 0 : atoi(word[2]), idle = atoi(word[3]);
    if (active < 0 || active > MOST_PEERS)
        return 2;
    for (int i = 0; i < active; i++)
        peers[i].fd = connected(port);
    for (int i = 0; i < idle; i++)
        connected(port);
    if (holds) {
        char byte;
        puts("connected");
        fflush(stdout);
        while (read(0, &byte, 1) > 0)
            continue;
        return 0;
    }
    next = (unsigned)atoi(word[5]);
    load(active, idle, (long)(atof(word[4]) * 1e9));
    return 0;
}
