/*
 * A loop over many peers that keeps as much as a host does, and decides nothing.
 *
 *   peers PORT FILE     sends back what each peer sends. In a turn it reads what came of all peers, writes 128 bytes to FILE for each
 *                       frame that came, by one write and a sync, and only then it sends. A frame is four digits that count a body.
 *                       FILE is made, with zeros that are synced before. It ends when it is killed.
 */
#include "net.h"

#include <fcntl.h>
#include <sys/epoll.h>

enum { RECORD = 128, ROOM = 1 << 20, MOST_PEERS = 4096, MOST_EVENTS = 1024, HELD = 1 << 16 };

struct peer {
    int fd;
    size_t held;    /* bytes that came in this turn and what was left of the last one */
    size_t whole;   /* those of whole frames, which are sent back */
    char bytes[HELD];
};

static struct peer *peers[MOST_PEERS];
static struct peer *came[MOST_PEERS];
static char records[RECORD * 4096];

/* How many frames are whole among the bytes that a peer holds. */
static size_t count_frames(struct peer *peer)
{
    size_t count = 0;
    peer->whole = 0;
    while (peer->held - peer->whole >= HEADER) {
        size_t end = peer->whole + HEADER + body_size(peer->bytes + peer->whole);
        if (end > peer->held)
            break;
        peer->whole = end;
        count++;
    }
    return count;
}

/* Writes a record for each frame, and syncs. */
static void keep(int file, size_t frames, off_t *place)
{
    size_t size = RECORD * frames;
    if (*place + (off_t)size > (off_t)RECORD * ROOM)
        *place = 0;
    if (pwrite(file, records, size, *place) != (ssize_t)size || fdatasync(file) != 0)
        fail("keep");
    *place += size;
}

/* Sends the whole frames back, and keeps what is behind them. */
static void answer(struct peer *peer)
{
    put(peer->fd, peer->bytes, peer->whole);
    peer->held -= peer->whole;
    memmove(peer->bytes, peer->bytes + peer->whole, peer->held);
}

static void let_in(int poll, int listener)
{
    int fd = accept(listener, NULL, NULL), on = 1;
    if (fd < 0 || fd >= MOST_PEERS)
        fail("accept");
    setsockopt(fd, IPPROTO_TCP, TCP_NODELAY, &on, sizeof on);
    peers[fd] = calloc(1, sizeof *peers[fd]);
    if (peers[fd] == NULL)
        fail("calloc");
    peers[fd]->fd = fd;
    watch(poll, fd);
}

/* Reads what came of a peer, and gives how many frames are whole. */
static size_t hear(int fd)
{
    struct peer *peer = peers[fd];
    ssize_t got = recv(fd, peer->bytes + peer->held, HELD - peer->held, MSG_DONTWAIT);
    if (got <= 0) {
        close(fd);
        free(peer);
        peers[fd] = NULL;
        return 0;
    }
    peer->held += got;
    return count_frames(peer);
}

/* One turn: frames come, are kept together, and are answered. */
static void turn(int poll, int listener, int file, off_t *place)
{
    static struct epoll_event events[MOST_EVENTS];
    int count = epoll_wait(poll, events, MOST_EVENTS, -1);
    size_t frames = 0, some = 0;
    for (int i = 0; i < count; i++) {
        int fd = events[i].data.fd;
        if (fd == listener) {
            let_in(poll, listener);
            continue;
        }
        size_t whole = hear(fd);
        if (whole > 0)
            came[some++] = peers[fd];
        frames += whole;
    }
    if (frames > 0)
        keep(file, frames, place);
    for (size_t i = 0; i < some; i++)
        answer(came[i]);
}

static int made(const char *path)
{
    int file = open(path, O_RDWR | O_CREAT | O_TRUNC, 0600);
    static char zeros[1 << 20];
    for (int i = 0; file >= 0 && i < RECORD; i++)
        if (write(file, zeros, sizeof zeros) != (ssize_t)sizeof zeros)
            fail(path);
    if (file < 0 || fsync(file) != 0)
        fail(path);
    return file;
}

int main(int count, char **words)
{
    if (count != 3) {
        fprintf(stderr, "peers PORT FILE\n");
        return 2;
    }
    memset(records, '0', sizeof records);
    int file = made(words[2]), listener = listening(atoi(words[1])), poll = epoll_create1(0);
    off_t place = 0;
    watch(poll, listener);
    for (;;)
        turn(poll, listener, file, &place);
}
