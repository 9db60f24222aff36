/*
 * Peers on loopback, to measure a host by.
 *
 *   loopback port                       a port that is free
 *   loopback echo PORT COUNT            serves COUNT connections, and sends back what each of them sends
 *   loopback ask PORT KIND ROUNDS       sends ROUNDS frames, each once the last one is answered: how long that takes
 *   loopback load PORT COUNT FRAMES     COUNT connections, one after the other, each of FRAMES echo tests
 *
 * KIND is what is sent: `bytes`, which come back as they are; `test`, an echo test; `repeat`, one purchase again and
 * again; `new`, purchases that differ by trace number and time.
 */
#include "net.h"

#define TEST "00550800822000000000000004000000000000000102030405000001301"

enum { PURCHASE_ANSWER = 94, TEST_ANSWER = 61, BATCH = 100 };

static void get(int fd, char *bytes, size_t size)
{
    while (size > 0) {
        ssize_t count = recv(fd, bytes, size, 0);
        if (count <= 0)
            fail("recv");
        bytes += count;
        size -= count;
    }
}

static void port(void)
{
    int fd = listening(0);
    struct sockaddr_in address;
    socklen_t size = sizeof address;
    getsockname(fd, (struct sockaddr *)&address, &size);
    printf("%d\n", ntohs(address.sin_port));
}

static void echo(int port, int count)
{
    int listener = listening(port), on = 1;
    char bytes[4096];
    for (int i = 0; i < count; i++) {
        int fd = accept(listener, NULL, NULL);
        ssize_t got;
        if (fd < 0)
            fail("accept");
        setsockopt(fd, IPPROTO_TCP, TCP_NODELAY, &on, sizeof on);
        while ((got = recv(fd, bytes, sizeof bytes, 0)) > 0)
            put(fd, bytes, got);
        close(fd);
    }
}

static void ask(int port, const char *kind, int rounds)
{
    int fd = connected(port), is_test = strcmp(kind, "test") == 0, is_new = strcmp(kind, "new") == 0;
    char frame[128], answer[128], number[17];
    long *took = malloc(rounds * sizeof *took);
    strcpy(frame, is_test ? TEST : PURCHASE);
    size_t sent = strlen(frame);
    size_t wanted = is_test ? TEST_ANSWER : strcmp(kind, "bytes") == 0 ? sent : PURCHASE_ANSWER;
    for (int i = 0; i < rounds; i++) {
        if (is_new) {
            snprintf(number, sizeof number, "0102%06d%06d", i / 1000000 % 1000000, i % 1000000);
            memcpy(frame + TIME_AT, number, 16);
        }
        long from = now();
        put(fd, frame, sent);
        get(fd, answer, wanted);
        took[i] = now() - from;
    }
    close(fd);
    qsort(took, rounds, sizeof *took, by_size);
    printf("%s: rounds=%d median_microseconds=%.1f one_in_100_over_microseconds=%.1f\n", kind, rounds, took[rounds / 2] / 1000.0,
        took[rounds - 1 - rounds / 100] / 1000.0);
    free(took);
}

static void load(int port, int count, int frames)
{
    static char sent[BATCH * (sizeof TEST - 1)], answers[BATCH * TEST_ANSWER];
    for (int i = 0; i < BATCH; i++)
        memcpy(sent + i * (sizeof TEST - 1), TEST, sizeof TEST - 1);
    for (int i = 0; i < count; i++) {
        int fd = connected(port);
        for (int left = frames; left > 0; left -= BATCH) {
            int batch = left < BATCH ? left : BATCH;
            put(fd, sent, batch * (sizeof TEST - 1));
            get(fd, answers, batch * TEST_ANSWER);
        }
        close(fd);
    }
}

int main(int count, char **words)
{
    if (count == 2 && strcmp(words[1], "port") == 0)
        port();
    else if (count == 4 && strcmp(words[1], "echo") == 0)
        echo(atoi(words[2]), atoi(words[3]));
    else if (count == 5 && strcmp(words[1], "ask") == 0 && atoi(words[4]) > 0)
        ask(atoi(words[2]), words[3], atoi(words[4]));
    else if (count == 5 && strcmp(words[1], "load") == 0)
        load(atoi(words[2]), atoi(words[3]), atoi(words[4]));
    else {
        fprintf(stderr, "port | echo PORT COUNT | ask PORT KIND ROUNDS | load PORT COUNT FRAMES\n");
        return 2;
    }
    return 0;
}
