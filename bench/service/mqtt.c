/* mosquitto over a Unix socket, timed in the same way: `mqtt sub SOCKET COUNT SIZE`, `mqtt pub|each SOCKET COUNT SIZE`,
   `mqtt ping|pong SOCKET ROUNDS SIZE`. `pub` sends with QoS 0, as many ahead as the socket takes. `each` sends with QoS 1, the
   next message once the broker has answered the last. All that is read is read with QoS 0. */
#define _POSIX_C_SOURCE 200809L
#include <mosquitto.h>
#include <stdio.h>
#include <stdlib.h>
#include <string.h>
#include <time.h>

static char data[65536];
/* how many answers of the broker, and how many messages, came so far, and when the first message did */
static long answered, came;
static size_t bytes;
static double first;

static double now(void)
{
    struct timespec at;
    clock_gettime(CLOCK_MONOTONIC, &at);
    return (double)at.tv_sec + (double)at.tv_nsec * 1e-9;
}

static void need(int status, const char *what)
{
    if (status == MOSQ_ERR_SUCCESS) return;
    fprintf(stderr, "mqtt: %s: %s\n", what, mosquitto_strerror(status));
    exit(1);
}

static void on_connect(struct mosquitto *client, void *context, int code)
{
    (void)client, (void)context;
    if (code != 0) exit(1);
    answered++;
}

static void on_subscribe(struct mosquitto *client, void *context, int id, int count, const int *granted)
{
    (void)client, (void)context, (void)id, (void)count, (void)granted;
    answered++;
}

static void on_publish(struct mosquitto *client, void *context, int id)
{
    (void)client, (void)context, (void)id;
    answered++;
}

static void on_message(struct mosquitto *client, void *context, const struct mosquitto_message *message)
{
    (void)client, (void)context;
    if (came++ == 0) first = now();
    bytes += (size_t)message->payloadlen;
}

/* Goes on until so many are there. */
static void until(struct mosquitto *client, const long *number, long wanted)
{
    while (*number < wanted) need(mosquitto_loop(client, 1000, 1), "loop");
}

static void subscribe(struct mosquitto *client, const char *topic)
{
    need(mosquitto_subscribe(client, NULL, topic, 0), "subscribe");
    until(client, &answered, 2);
    fprintf(stderr, "ready\n");
}

static void publish(struct mosquitto *client, const char *topic, size_t size, int qos)
{
    need(mosquitto_publish(client, NULL, topic, (int)size, data, qos, false), "publish");
    while (mosquitto_want_write(client)) need(mosquitto_loop(client, 1000, 1), "loop");
}

static void read_all(struct mosquitto *client, long count)
{
    subscribe(client, "messages");
    until(client, &came, count);
    double took = now() - first;
    printf("%.0f %.1f\n", (double)(count - 1) / took, (double)bytes / took / 1e6);
}

static int compare(const void *a, const void *b)
{
    const double *x = a, *y = b;
    return (*x > *y) - (*x < *y);
}

/* Sends, and waits for what comes back; or the other way round. */
static void round_trips(struct mosquitto *client, int pings, long rounds, size_t size)
{
    double *took = calloc((size_t)rounds, sizeof *took);
    if (took == NULL) exit(1);
    subscribe(client, pings ? "back" : "there");
    for (long i = 0; i < rounds; i++) {
        double begun = now();
        if (pings) publish(client, "there", size, 0);
        until(client, &came, i + 1);
        if (!pings) publish(client, "back", size, 0);
        took[i] = now() - begun;
    }
    qsort(took, (size_t)rounds, sizeof *took, compare);
    if (pings)
        printf("%.1f %.1f %.1f\n", took[rounds / 2] * 1e6, took[rounds * 99 / 100] * 1e6, took[rounds * 999 / 1000] * 1e6);
    free(took);
}

int main(int count, char **words)
{
    if (count != 5) return 2;
    const char *task = words[1];
    long number = atol(words[3]);
    size_t size = (size_t)atol(words[4]);
    if (number <= 0 || size == 0 || size > sizeof data) return 2;
    mosquitto_lib_init();
    struct mosquitto *client = mosquitto_new(NULL, true, NULL);
    if (client == NULL) return 1;
    mosquitto_connect_callback_set(client, on_connect);
    mosquitto_subscribe_callback_set(client, on_subscribe);
    mosquitto_publish_callback_set(client, on_publish);
    mosquitto_message_callback_set(client, on_message);
    /* a port of 0 says that it is the path of a socket */
    need(mosquitto_connect(client, words[2], 0, 60), words[2]);
    until(client, &answered, 1);
    if (strcmp(task, "sub") == 0) read_all(client, number);
    else if (strcmp(task, "ping") == 0) round_trips(client, 1, number, size);
    else if (strcmp(task, "pong") == 0) round_trips(client, 0, number, size);
    else if (strcmp(task, "pub") == 0)
        for (long i = 0; i < number; i++) publish(client, "messages", size, 0);
    else if (strcmp(task, "each") == 0)
        for (long i = 0; i < number; i++) {
            publish(client, "messages", size, 1);
            until(client, &answered, i + 2);
        }
    else return 2;
    mosquitto_disconnect(client);
    mosquitto_destroy(client);
    mosquitto_lib_cleanup();
    return 0;
}
