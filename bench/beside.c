/* What `threads.sh` and `udp.sh` compare a driver with. The least that could be done:
 *   beside copies BYTES COUNT      a lock, a copy in, a lock, a copy out: nanoseconds of COUNT messages on one thread
 *   beside zmq BYTES COUNT         ZeroMQ, a PAIR over inproc: nanoseconds of COUNT messages from one thread to another
 *   beside zmq-trip BYTES COUNT    the same there and back, nanoseconds of each of COUNT trips, a line each
 *   beside zmq-each BYTES COUNT N  N threads, each with a PAIR of its own, that sends 16 messages and takes them: nanoseconds
 *   beside udp BYTES COUNT         datagrams over loopback from one process to another, in a loop of `sendto` and one of
 *                                  `recvfrom`: nanoseconds until COUNT of them came; what was lost is sent again
 * What is between them, and what they take:
 *   beside relay PORT TO PERCENT [MILLISECONDS]
 *                                  hands datagrams that come to a port of loopback on to the port TO, and those from there back
 *                                  to where the last other one came from, so many milliseconds later; loses so many of 100, the
 *                                  same ones each time
 *   beside cost COMMAND ..         what the command prints, and in the same line the nanoseconds of processor time that it and
 *                                  its children took, and how often they left the processor
 * Built with -DZMQ where libzmq is there. */
#define _GNU_SOURCE
#include <arpa/inet.h>
#include <poll.h>
#include <pthread.h>
#include <signal.h>
#include <stdint.h>
#include <stdio.h>
#include <stdlib.h>
#include <string.h>
#include <sys/resource.h>
#include <sys/socket.h>
#include <sys/wait.h>
#include <time.h>
#include <unistd.h>
#ifdef ZMQ
#include <zmq.h>
#endif

static unsigned char message[65536], taken[65536], between[65536];
static size_t bytes;
static long count;

static uint64_t now(void) {
    struct timespec t;
    clock_gettime(CLOCK_MONOTONIC, &t);
    return (uint64_t)t.tv_sec * 1000000000u + (uint64_t)t.tv_nsec;
}

static void fail(const char *what) {
    perror(what);
    exit(1);
}

static int copies(void) {
    static pthread_mutex_t one = PTHREAD_MUTEX_INITIALIZER, other = PTHREAD_MUTEX_INITIALIZER;
    uint64_t begun = now();
    for (long at = 0; at < count; at++) {
        pthread_mutex_lock(&one);
        memcpy(between, message, bytes);
        __asm__ volatile("" ::: "memory");
        pthread_mutex_unlock(&one);
        pthread_mutex_lock(&other);
        memcpy(taken, between, bytes);
        __asm__ volatile("" ::: "memory");
        pthread_mutex_unlock(&other);
    }
    printf("%llu\n", (unsigned long long)(now() - begun));
    return 0;
}

#ifdef ZMQ
static void *context;

static void *pair_at(int binds, const char *at) {
    void *socket = zmq_socket(context, ZMQ_PAIR);
    if (!socket) fail("zmq_socket");
    if ((binds ? zmq_bind : zmq_connect)(socket, at) != 0) fail("zmq_bind or zmq_connect");
    return socket;
}

static void *pair(int binds) {
    return pair_at(binds, "inproc://messages");
}

static void *sends_and_takes(void *number) {
    char at[64];
    unsigned char room[65536];
    snprintf(at, sizeof at, "inproc://own-%ld", (long)(intptr_t)number);
    void *takes = pair_at(1, at), *sends = pair_at(0, at);
    for (long round = 0; round < count / 16; round++) {
        for (int one = 0; one < 16; one++)
            if (zmq_send(sends, message, bytes, 0) != (int)bytes) fail("zmq_send");
        for (int one = 0; one < 16; one++)
            if (zmq_recv(takes, room, sizeof room, 0) != (int)bytes) fail("zmq_recv");
    }
    zmq_close(sends);
    zmq_close(takes);
    return number;
}

static int zmq_each(long threads) {
    pthread_t *all = calloc((size_t)threads, sizeof *all);
    uint64_t begun;
    if (!all) fail("calloc");
    context = zmq_ctx_new();
    count /= threads;
    begun = now();
    for (long at = 0; at < threads; at++)
        if (pthread_create(&all[at], NULL, sends_and_takes, (void *)(intptr_t)at) != 0) fail("pthread_create");
    for (long at = 0; at < threads; at++) pthread_join(all[at], NULL);
    printf("%llu\n", (unsigned long long)(now() - begun));
    zmq_ctx_term(context);
    return 0;
}

static void *sends_all(void *nothing) {
    void *socket = pair(0);
    for (long at = 0; at < count; at++)
        if (zmq_send(socket, message, bytes, 0) != (int)bytes) fail("zmq_send");
    zmq_close(socket);
    return nothing;
}

static void *sends_back(void *nothing) {
    void *socket = pair(0);
    for (long at = 0; at < count; at++) {
        if (zmq_recv(socket, between, sizeof between, 0) != (int)bytes) fail("zmq_recv");
        if (zmq_send(socket, message, bytes, 0) != (int)bytes) fail("zmq_send");
    }
    zmq_close(socket);
    return nothing;
}

static int zmq(int trip) {
    pthread_t thread;
    void *socket;
    uint64_t begun;
    uint64_t *times = calloc((size_t)count, sizeof *times);
    if (!times) fail("calloc");
    context = zmq_ctx_new();
    socket = pair(1);
    if (pthread_create(&thread, NULL, trip ? sends_back : sends_all, NULL) != 0) fail("pthread_create");
    begun = now();
    for (long at = 0; at < count; at++) {
        uint64_t left = now();
        if (trip && zmq_send(socket, message, bytes, 0) != (int)bytes) fail("zmq_send");
        if (zmq_recv(socket, taken, sizeof taken, 0) != (int)bytes) fail("zmq_recv");
        if (trip) times[at] = now() - left;
    }
    if (!trip) printf("%llu\n", (unsigned long long)(now() - begun));
    for (long at = 0; trip && at < count; at++) printf("%llu\n", (unsigned long long)times[at]);
    pthread_join(thread, NULL);
    zmq_close(socket);
    zmq_ctx_term(context);
    return 0;
}
#endif

static int udp(void) {
    struct sockaddr_in to = {.sin_family = AF_INET, .sin_addr.s_addr = htonl(INADDR_LOOPBACK)};
    socklen_t length = sizeof to;
    int reads = socket(AF_INET, SOCK_DGRAM, 0), sends = socket(AF_INET, SOCK_DGRAM, 0);
    pid_t child;
    uint64_t begun;
    if (reads < 0 || sends < 0 || bind(reads, (struct sockaddr *)&to, sizeof to) != 0) fail("socket");
    if (getsockname(reads, (struct sockaddr *)&to, &length) != 0) fail("getsockname");
    child = fork();
    if (child < 0) fail("fork");
    if (child == 0)
        for (;;) sendto(sends, message, bytes, 0, (struct sockaddr *)&to, sizeof to);
    if (recvfrom(reads, taken, sizeof taken, 0, NULL, NULL) < 0) fail("recvfrom");
    begun = now();
    for (long at = 0; at < count; at++)
        if (recvfrom(reads, taken, sizeof taken, 0, NULL, NULL) < 0) fail("recvfrom");
    printf("%llu\n", (unsigned long long)(now() - begun));
    kill(child, SIGKILL);
    waitpid(child, NULL, 0);
    return 0;
}

static struct sockaddr_in here(const char *port) {
    struct sockaddr_in at = {.sin_family = AF_INET, .sin_addr.s_addr = htonl(INADDR_LOOPBACK)};
    at.sin_port = htons((uint16_t)strtoul(port, NULL, 10));
    return at;
}

/* A datagram that a relay hands on at that moment. */
struct later {
    uint64_t due;
    struct sockaddr_in to;
    size_t length;
    unsigned char *bytes;
};

/* How many datagrams are on their way in a relay at most: more are lost. */
#define LATER 65536

static void relay(const char *port, const char *port_to, long percent, long milliseconds) {
    static struct later queue[LATER];
    struct sockaddr_in at = here(port), to = here(port_to), back = {0}, from;
    int room = 4194304, door = socket(AF_INET, SOCK_DGRAM, 0);
    uint64_t drawn = 1, first = 0, last = 0, delay = (uint64_t)milliseconds * 1000000u;
    if (door < 0 || bind(door, (struct sockaddr *)&at, sizeof at) != 0) fail("socket");
    setsockopt(door, SOL_SOCKET, SO_RCVBUF, &room, sizeof room);
    for (;;) {
        struct pollfd waited = {.fd = door, .events = POLLIN};
        struct timespec left = {0};
        socklen_t length = sizeof from;
        for (; first != last && queue[first % LATER].due <= now(); first++) {
            struct later *it = &queue[first % LATER];
            sendto(door, it->bytes, it->length, 0, (struct sockaddr *)&it->to, sizeof it->to);
            free(it->bytes);
        }
        if (first != last) {
            uint64_t moment = now(), due = queue[first % LATER].due;
            left.tv_nsec = due > moment ? (long)(due - moment) % 1000000000 : 0;
        }
        if (ppoll(&waited, 1, first == last ? NULL : &left, NULL) <= 0) continue;
        ssize_t came = recvfrom(door, taken, sizeof taken, MSG_DONTWAIT, (struct sockaddr *)&from, &length);
        struct sockaddr_in *next = &to;
        if (came < 0) continue;
        if (from.sin_port == to.sin_port)
            next = &back;
        else
            back = from;
        drawn = drawn * 6364136223846793005u + 1442695040888963407u;
        if ((long)((drawn >> 33) % 100) < percent) continue;
        if (delay == 0) {
            sendto(door, taken, (size_t)came, 0, (struct sockaddr *)next, sizeof *next);
        } else if (last - first < LATER) {
            struct later it = {.due = now() + delay, .to = *next, .length = (size_t)came, .bytes = malloc((size_t)came + 1)};
            if (!it.bytes) fail("malloc");
            memcpy(it.bytes, taken, (size_t)came);
            queue[last++ % LATER] = it;
        }
    }
}

static uint64_t nanoseconds(struct timeval t) {
    return (uint64_t)t.tv_sec * 1000000000u + (uint64_t)t.tv_usec * 1000u;
}

static int cost(char **command) {
    int ends[2], status;
    char said[256] = "";
    size_t length = 0;
    ssize_t more;
    struct rusage used;
    pid_t child;
    if (pipe(ends) != 0 || (child = fork()) < 0) fail("fork");
    if (child == 0) {
        dup2(ends[1], 1);
        close(ends[0]);
        close(ends[1]);
        execvp(command[0], command);
        fail(command[0]);
    }
    close(ends[1]);
    while (length < sizeof said - 1 && (more = read(ends[0], said + length, sizeof said - 1 - length)) > 0) length += (size_t)more;
    if (wait4(child, &status, 0, &used) < 0 || status != 0) return 1;
    said[strcspn(said, "\n")] = 0;
    printf("%s %llu %ld\n", said, (unsigned long long)(nanoseconds(used.ru_utime) + nanoseconds(used.ru_stime)), used.ru_nvcsw + used.ru_nivcsw);
    return 0;
}

int main(int argc, char **argv) {
    if (argc > 2 && strcmp(argv[1], "cost") == 0) return cost(argv + 2);
    if ((argc == 5 || argc == 6) && strcmp(argv[1], "relay") == 0)
        relay(argv[2], argv[3], strtol(argv[4], NULL, 10), argc == 6 ? strtol(argv[5], NULL, 10) : 0);
    if (argc == 4 || argc == 5) {
        bytes = strtoul(argv[2], NULL, 10);
        count = strtol(argv[3], NULL, 10);
        if (bytes == 0 || bytes > sizeof message || count <= 0) return 2;
        memset(message, 7, sizeof message);
        if (argc == 4 && strcmp(argv[1], "copies") == 0) return copies();
        if (argc == 4 && strcmp(argv[1], "udp") == 0) return udp();
#ifdef ZMQ
        if (argc == 5 && strcmp(argv[1], "zmq-each") == 0) return zmq_each(strtol(argv[4], NULL, 10));
        if (argc == 5) return 2;
        if (strcmp(argv[1], "zmq") == 0) return zmq(0);
        if (strcmp(argv[1], "zmq-trip") == 0) return zmq(1);
#endif
    }
    fprintf(stderr, "usage: beside copies|udp|zmq|zmq-trip BYTES COUNT, zmq-each BYTES COUNT N, relay PORT TO PERCENT [MILLISECONDS] or cost COMMAND ..\n");
    return 2;
}
