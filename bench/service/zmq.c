/* ZeroMQ over ipc, timed in the same way: `zmq push|pull ENDPOINT COUNT SIZE`, which sends many messages ahead; `zmq req|rep
   ENDPOINT COUNT SIZE`, where the next one goes once the last was answered, by nothing; `zmq ping|pong ENDPOINT ROUNDS SIZE`. */
#define _POSIX_C_SOURCE 200809L
#include <stdio.h>
#include <stdlib.h>
#include <string.h>
#include <time.h>
#include <zmq.h>

static char data[65536];

static double now(void)
{
    struct timespec at;
    clock_gettime(CLOCK_MONOTONIC, &at);
    return (double)at.tv_sec + (double)at.tv_nsec * 1e-9;
}

static int compare(const void *a, const void *b)
{
    const double *x = a, *y = b;
    return (*x > *y) - (*x < *y);
}

static void pull(void *socket, int answers, long count)
{
    double first = 0;
    size_t bytes = 0;
    for (long i = 0; i < count; i++) {
        bytes += (size_t)zmq_recv(socket, data, sizeof data, 0);
        if (i == 0) first = now();
        if (answers) zmq_send(socket, "", 0, 0);
    }
    double took = now() - first;
    printf("%.0f %.1f\n", (double)(count - 1) / took, (double)bytes / took / 1e6);
}

static void ping(void *socket, long rounds, size_t size)
{
    double *took = calloc((size_t)rounds, sizeof *took);
    for (long i = 0; i < rounds; i++) {
        double begun = now();
        zmq_send(socket, data, size, 0);
        zmq_recv(socket, data, sizeof data, 0);
        took[i] = now() - begun;
    }
    qsort(took, (size_t)rounds, sizeof *took, compare);
    printf("%.1f %.1f %.1f\n", took[rounds / 2] * 1e6, took[rounds * 99 / 100] * 1e6, took[rounds * 999 / 1000] * 1e6);
    free(took);
}

int main(int count, char **words)
{
    if (count != 5) return 2;
    const char *task = words[1];
    long number = atol(words[3]);
    size_t size = (size_t)atol(words[4]);
    void *context = zmq_ctx_new();
    int binds = strcmp(task, "pull") == 0 || strcmp(task, "rep") == 0 || strcmp(task, "pong") == 0;
    int type = strcmp(task, "pull") == 0   ? ZMQ_PULL
               : strcmp(task, "push") == 0 ? ZMQ_PUSH
               : strcmp(task, "rep") == 0  ? ZMQ_REP
               : strcmp(task, "req") == 0  ? ZMQ_REQ
                                           : ZMQ_PAIR;
    void *socket = zmq_socket(context, type);
    if ((binds ? zmq_bind(socket, words[2]) : zmq_connect(socket, words[2])) != 0) return 1;
    if (strcmp(task, "pull") == 0) pull(socket, 0, number);
    else if (strcmp(task, "rep") == 0) pull(socket, 1, number);
    else if (strcmp(task, "ping") == 0) ping(socket, number, size);
    for (long i = 0; i < number && strcmp(task, "push") == 0; i++) zmq_send(socket, data, size, 0);
    for (long i = 0; i < number && strcmp(task, "req") == 0; i++) {
        zmq_send(socket, data, size, 0);
        zmq_recv(socket, data, sizeof data, 0);
    }
    for (long i = 0; i < number && strcmp(task, "pong") == 0; i++) {
        zmq_recv(socket, data, sizeof data, 0);
        zmq_send(socket, data, size, 0);
    }
    zmq_close(socket);
    zmq_ctx_term(context);
    return 0;
}
