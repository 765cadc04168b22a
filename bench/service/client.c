/* The client in C, timed: `client pub|each FOLDER COUNT SIZE` by p1.sock, `client sub FOLDER COUNT` by p2.sock, on stream 10 with
   terms of 1 MiB, where `pub` sends many messages ahead, and `each` the next one once the driver has taken the last;
   `client ping FOLDER ROUNDS SIZE` by p1.sock and `client pong FOLDER ROUNDS SIZE` by p2.sock, on streams 101 and 102; `client idle
   FOLDER SECONDS` by p2.sock, which waits for messages of a publication to which nothing is sent, on stream 103. */
#define _POSIX_C_SOURCE 200809L
#include "aeron_policyd.h"

#include <stdio.h>
#include <stdlib.h>
#include <string.h>
#include <time.h>

#define AHEAD 8192

static const char channel[] = "aeron:ipc?term-length=1m";
static unsigned char buffer[1 << 20];

static double now(void)
{
    struct timespec at;
    clock_gettime(CLOCK_MONOTONIC, &at);
    return (double)at.tv_sec + (double)at.tv_nsec * 1e-9;
}

static void need(int status, const struct apd_driver *driver, const char *what)
{
    if (status >= 0) return;
    fprintf(stderr, "client: %s: %s\n", what, driver->text);
    exit(1);
}

static void enter(struct apd_driver *driver, const char *folder, const char *name)
{
    char path[108];
    snprintf(path, sizeof path, "%s/%s.sock", folder, name);
    need(apd_connect(driver, path, buffer, sizeof buffer, 30000), driver, path);
}

/* How many fragments came, and where the last one lies. */
struct got {
    long count;
    size_t bytes;
    double first;
};

static void on_fragment(void *context, const struct apd_fragment *fragment)
{
    struct got *got = context;
    if (got->count++ == 0) got->first = now();
    got->bytes += fragment->size;
}

static void publish(const char *folder, int ahead, long count, size_t size)
{
    static struct apd_message messages[AHEAD];
    struct apd_driver driver;
    uint64_t publication;
    char *data = calloc(1, size + 1);
    enter(&driver, folder, "p1");
    need(apd_add_publication(&driver, channel, 10, 10000, &publication), &driver, "publication");
    for (int i = 0; i < AHEAD; i++) {
        messages[i].data = data;
        messages[i].size = size;
    }
    for (long left = count; left > 0 && !ahead; left--)
        need(apd_offer(&driver, publication, data, size, 10000, NULL), &driver, "offer");
    for (long left = count; left > 0 && ahead; left -= AHEAD)
        need(apd_offer_all(&driver, publication, messages, left < AHEAD ? (size_t)left : AHEAD, 10000, NULL, NULL), &driver,
             "offer");
    apd_close(&driver);
    free(data);
}

static void subscribe(const char *folder, long count)
{
    struct apd_driver driver;
    struct apd_image images[4];
    struct apd_subscription subscription;
    struct got got = {0, 0, 0};
    enter(&driver, folder, "p2");
    need(apd_add_subscription(&driver, channel, 10, 10000, images, 4, &subscription), &driver, "subscription");
    fprintf(stderr, "ready\n");
    while (got.count < count) need(apd_poll(&driver, &subscription, 1024, 1000, on_fragment, &got), &driver, "poll");
    double took = now() - got.first;
    printf("%.0f %.1f\n", (double)(got.count - 1) / took, (double)got.bytes / took / 1e6);
    apd_close(&driver);
}

static int compare(const void *a, const void *b)
{
    const double *x = a, *y = b;
    return (*x > *y) - (*x < *y);
}

/* Sends, and waits for what comes back; or the other way round. */
static void round_trips(const char *folder, int pings, long rounds, size_t size)
{
    struct apd_driver driver;
    struct apd_image images[4];
    struct apd_subscription subscription;
    struct got got = {0, 0, 0};
    uint64_t publication;
    double *took = calloc((size_t)rounds, sizeof *took);
    char *data = calloc(1, size + 1);
    enter(&driver, folder, pings ? "p1" : "p2");
    need(apd_add_subscription(&driver, channel, pings ? 102 : 101, 10000, images, 4, &subscription), &driver, "subscription");
    need(apd_add_publication(&driver, channel, pings ? 101 : 102, 10000, &publication), &driver, "publication");
    for (long i = 0; i < rounds; i++) {
        double begun = now();
        if (pings) need(apd_offer(&driver, publication, data, size, 10000, NULL), &driver, "offer");
        while (got.count <= i) need(apd_poll(&driver, &subscription, 1, 1000, on_fragment, &got), &driver, "poll");
        if (!pings) need(apd_offer(&driver, publication, data, size, 10000, NULL), &driver, "offer");
        took[i] = now() - begun;
    }
    qsort(took, (size_t)rounds, sizeof *took, compare);
    if (pings)
        printf("%.1f %.1f %.1f\n", took[rounds / 2] * 1e6, took[rounds * 99 / 100] * 1e6, took[rounds * 999 / 1000] * 1e6);
    apd_close(&driver);
    free(took);
    free(data);
}

static void idle(const char *folder, long seconds)
{
    struct apd_driver driver;
    struct apd_image images[4];
    struct apd_subscription subscription;
    struct got got = {0, 0, 0};
    uint64_t publication;
    double end = now() + (double)seconds;
    enter(&driver, folder, "p2");
    need(apd_add_subscription(&driver, channel, 103, 10000, images, 4, &subscription), &driver, "subscription");
    need(apd_add_publication(&driver, channel, 103, 10000, &publication), &driver, "publication");
    while (subscription.count == 0) need(apd_poll(&driver, &subscription, 1, 1000, on_fragment, &got), &driver, "poll");
    fprintf(stderr, "ready\n");
    while (now() < end) need(apd_poll(&driver, &subscription, 1, 1000, on_fragment, &got), &driver, "poll");
    apd_close(&driver);
}

int main(int count, char **words)
{
    const char *task = count > 3 ? words[1] : "";
    long number = count > 3 ? atol(words[3]) : 0;
    size_t size = count > 4 ? (size_t)atol(words[4]) : 64;
    if (strcmp(task, "pub") == 0) publish(words[2], 1, number, size);
    else if (strcmp(task, "each") == 0) publish(words[2], 0, number, size);
    else if (strcmp(task, "idle") == 0) idle(words[2], number);
    else if (strcmp(task, "sub") == 0) subscribe(words[2], number);
    else if (strcmp(task, "ping") == 0) round_trips(words[2], 1, number, size);
    else if (strcmp(task, "pong") == 0) round_trips(words[2], 0, number, size);
    else return 2;
    return 0;
}
