/*
 * What it costs to append batches to etcd, with nothing else done.
 *
 *   etcd PORT NAME ORDERS BATCHES     BATCHES batches of a heading and ORDERS records of 128 bytes, one behind the other's answer, each
 *                                     by the transaction of its JSON gateway that puts it where nothing stands, over one connection.
 *                                     Prints what one record took.
 *   etcd PORT keys NAME               how many batches stand under a name
 */
#define _GNU_SOURCE
#include "net.h"

enum { RECORD = 128, MOST = 8191, ROOM = 1 << 21 };

static char body[ROOM], request[ROOM + 400], answer[ROOM], batch[RECORD * (MOST + 1)];

/* Adds so many bytes as base64, and gives the end. */
static char *add_base64(char *to, const char *from, size_t size)
{
    static const char digits[] = "ABCDEFGHIJKLMNOPQRSTUVWXYZabcdefghijklmnopqrstuvwxyz0123456789+/";
    const unsigned char *at = (const unsigned char *)from;
    for (size_t i = 0; i < size; i += 3) {
        unsigned b = i + 1 < size ? at[i + 1] : 0, c = i + 2 < size ? at[i + 2] : 0;
        unsigned bits = (unsigned)at[i] << 16 | b << 8 | c;
        *to++ = digits[bits >> 18];
        *to++ = digits[bits >> 12 & 63];
        *to++ = i + 1 < size ? digits[bits >> 6 & 63] : '=';
        *to++ = i + 2 < size ? digits[bits & 63] : '=';
    }
    return to;
}

static char *add(char *to, const char *text)
{
    return stpcpy(to, text);
}

static char *add_key(char *to, const char *key)
{
    return add_base64(add(to, "\"key\":\""), key, strlen(key));
}

/* The transaction that puts a batch at a place. */
static void make_put(const char *name, long place, size_t size)
{
    char key[200], *to = body;
    snprintf(key, sizeof key, "%s/batch/%010ld", name, place);
    to = add(add_key(add(to, "{\"compare\":[{"), key), "\",\"target\":\"CREATE\",\"result\":\"EQUAL\",\"create_revision\":\"0\"}],");
    to = add(add_key(add(to, "\"success\":[{\"request_put\":{"), key), "\",\"value\":\"");
    to = add(add_base64(to, batch, size), "\"}}],");
    add(add_key(add(to, "\"failure\":[{\"request_range\":{"), key), "\"}}]}");
}

/* Sends the body to a path, and takes the whole answer. */
static void ask(int fd, int port, const char *path)
{
    size_t size = strlen(body), got = 0;
    int head = snprintf(request, sizeof request, "POST %s HTTP/1.1\r\nHost: 127.0.0.1:%d\r\nContent-Type: application/json\r\nContent-Length: %zu\r\n\r\n",
        path, port, size);
    memcpy(request + head, body, size);
    put(fd, request, head + size);
    for (char *end = NULL, *length = NULL; !end || got < (size_t)(end - answer) + 4 + (length ? atol(length + 16) : 0);) {
        ssize_t count = recv(fd, answer + got, sizeof answer - 1 - got, 0);
        if (count <= 0)
            fail("etcd");
        got += count;
        answer[got] = 0;
        end = strstr(answer, "\r\n\r\n");
        length = strcasestr(answer, "\r\ncontent-length: ");
        length = length ? length + 1 : NULL;
    }
    if (strncmp(answer, "HTTP/1.1 200", 12) != 0) {
        fprintf(stderr, "etcd: %s\n", answer);
        exit(1);
    }
}

static void count_keys(int port, const char *name)
{
    char key[200], *to = body;
    snprintf(key, sizeof key, "%s/batch/", name);
    to = add(add_key(add(to, "{"), key), "\",\"count_only\":true,\"range_end\":\"");
    key[strlen(key) - 1]++;
    add(add_base64(to, key, strlen(key)), "\"}");
    ask(connected(port), port, "/v3/kv/range");
    char *count = strstr(answer, "\"count\":\"");
    printf("%ld\n", count ? atol(count + 9) : 0);
}

static void append(int port, const char *name, long orders, long batches)
{
    int fd = connected(port);
    size_t size = RECORD * (orders + 1);
    memset(batch, '7', size);
    long begun = now();
    for (long place = 1; place <= batches; place++) {
        make_put(name, place, size);
        ask(fd, port, "/v3/kv/txn");
        if (!strstr(answer, "\"succeeded\":true"))
            fail("there is a batch already");
    }
    double nanoseconds = (double)(now() - begun);
    printf("etcd plain group=%ld groups=%ld milliseconds=%.0f orders_per_second=%.0f\n", orders, batches, nanoseconds / 1e6,
        orders * batches / (nanoseconds / 1e9));
}

int main(int count, char **words)
{
    if (count == 4 && strcmp(words[2], "keys") == 0) {
        count_keys(atoi(words[1]), words[3]);
        return 0;
    }
    long orders = count == 5 ? atol(words[3]) : 0, batches = count == 5 ? atol(words[4]) : 0;
    if (orders < 1 || orders > MOST || batches < 1) {
        fprintf(stderr, "etcd PORT NAME ORDERS BATCHES | etcd PORT keys NAME\n");
        return 2;
    }
    append(atoi(words[1]), words[2], orders, batches);
    return 0;
}
