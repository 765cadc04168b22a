/* A sender and a reader in C, which connect again whenever their connection is over: `soak send|read SOCKET CHANNEL STREAM`.
   They do and say what soak_client.py does and says. */
#define _POSIX_C_SOURCE 200809L
#include "aeron_policyd.h"

#include <signal.h>
#include <stdio.h>
#include <stdlib.h>
#include <string.h>
#include <sys/socket.h>
#include <time.h>

enum { BATCH = 2000, SHORT = 64, LONG = 3000, ONE_OF = 100, IMAGES = 16, LAST = 20 };

static unsigned char buffer[1 << 18];
static struct apd_driver driver;
static const char *path, *channel;
static int32_t stream;

/* How often the program was told to end. */
static volatile sig_atomic_t told;

/* The number of the message that ends a reader. */
static const uint64_t last = UINT64_MAX;

/* The connection is cut, whatever goes on. */
static void cut(int number)
{
    (void)number;
    if (apd_fd(&driver) >= 0) (void)shutdown(apd_fd(&driver), SHUT_RDWR);
}

static void stop(int number)
{
    (void)number;
    told++;
}

static void on_signal(int number, void (*handler)(int))
{
    struct sigaction action;
    memset(&action, 0, sizeof action);
    action.sa_handler = handler;
    sigaction(number, &action, NULL);
}

static void pause_ms(long ms)
{
    struct timespec pause = {0, 0};
    pause.tv_nsec = ms * 1000000;
    nanosleep(&pause, NULL);
}

static void fail(const char *what)
{
    printf("wrong: %s: %s\n", what, driver.text);
    exit(1);
}

/* Whether a call has to be made again, by this connection or another one; ends the program where it can't be. */
static void again(int status, const char *what)
{
    if (status == APD_REFUSED && driver.code != APD_CODE_DENIED && driver.code != APD_CODE_CLOSED &&
        driver.code != APD_CODE_NO_SUBSCRIBER && driver.code != APD_CODE_BACK_PRESSURE)
        fail(what);
    if (status != APD_REFUSED && status != APD_ENDED && status != APD_SYSTEM && status != APD_NO_REPLY) fail(what);
    pause_ms(10);
}

/* Says how far it has come, now and then. */
static void at(uint64_t number)
{
    static uint64_t next;
    if (apd_left(next) > 0) return;
    printf("at %llu\n", (unsigned long long)number);
    next = apd_deadline(200);
}

/* ---- sending */

static unsigned char data[BATCH][LONG];
static struct apd_message batch[BATCH];

static size_t size_of(uint64_t number)
{
    return number % ONE_OF == 0 ? LONG : SHORT;
}

static void fill(uint64_t first, size_t some)
{
    for (size_t i = 0; i < some; i++) {
        uint64_t number = first + i;
        for (int byte = 0; byte < 8; byte++) data[i][byte] = (unsigned char)(number >> (8 * byte));
        batch[i].data = data[i];
        batch[i].size = size_of(number);
        memset(data[i] + 8, (int)(number % 251), batch[i].size - 8);
    }
}

static uint64_t publish(void)
{
    uint64_t publication = 0;
    for (;;) {
        int status = apd_connect(&driver, path, buffer, sizeof buffer, 60000);
        if (status == APD_OK) status = apd_add_publication(&driver, channel, stream, 60000, &publication);
        if (status == APD_OK) return publication;
        if (told > 1) return 0;
        again(status, "publication");
        apd_close(&driver);
    }
}

/* Sends these messages. Where the connection is over meanwhile, those that were not answered may be taken or not. */
static void send_all(uint64_t *publication, uint64_t first, size_t some)
{
    size_t done = 0;
    while (done < some && told < 2) {
        size_t taken = 0;
        int status = apd_offer_all(&driver, *publication, batch + done, some - done, 1000, &taken, NULL);
        done += taken;
        if (status == APD_OK) continue;
        again(status, "offer");
        if (status == APD_REFUSED && driver.code != APD_CODE_CLOSED) continue;
        if (status != APD_REFUSED && first != last) {
            printf("doubt %llu %llu\n", (unsigned long long)(first + done), (unsigned long long)(first + some));
            done = some;
        }
        if (told > 1) return;
        apd_close(&driver);
        *publication = publish();
    }
}

static void send_messages(void)
{
    uint64_t publication = publish(), sent = 0;
    for (uint64_t number = 0; !told; number += BATCH) {
        fill(number, BATCH);
        send_all(&publication, number, BATCH);
        at(number);
        sent = number + BATCH;
    }
    printf("sent %llu\n", (unsigned long long)sent);
    fill(last, 1);
    while (told < 2) {
        send_all(&publication, last, 1);
        pause_ms(20);
    }
}

/* ---- reading */

/* Numbers that came one after another from a source. */
struct run {
    struct apd_joiner joiner;
    unsigned char room[2 * LONG];
    uint64_t source, first, next;
    const char *why; /* there is something before it that did not come */
    int begun;
};

struct reader {
    struct run runs[IMAGES];
    size_t turn;
    uint64_t last; /* how often the last message came */
    uint64_t read, gaps;
    int gap; /* it was said that something is lost of any source, since the last message */
};

static void end_run(struct run *run)
{
    if (run->begun)
        printf("run %llu %llu %s\n", (unsigned long long)run->first, (unsigned long long)run->next, run->why);
    run->begun = 0;
}

/* The run of a source: of those that came first, one makes room. */
static struct run *run_of(struct reader *reader, uint64_t source)
{
    for (size_t i = 0; i < IMAGES; i++)
        if (reader->runs[i].source == source) return &reader->runs[i];
    struct run *run = &reader->runs[reader->turn++ % IMAGES];
    end_run(run);
    run->source = source;
    run->why = reader->gap ? "gap" : "source";
    apd_joiner_init(&run->joiner, run->room, sizeof run->room);
    return run;
}

static void on_message(struct reader *reader, struct run *run, const unsigned char *message, size_t size)
{
    uint64_t number = 0;
    if (size < 8) fail("a message of another size");
    for (int byte = 7; byte >= 0; byte--) number = number << 8 | message[byte];
    if (size != size_of(number)) fail("a message of another size");
    for (size_t i = 8; i < size; i++)
        if (message[i] != number % 251) fail("a message of other bytes");
    reader->gap = 0;
    if (number == last) {
        if (!run->begun) run->first = run->next = last;
        run->begun = 1;
        reader->last++;
        return;
    }
    if (run->begun && number != run->next) {
        printf("wrong: %llu comes where %llu is to come\n", (unsigned long long)number, (unsigned long long)run->next);
        exit(1);
    }
    if (!run->begun) run->first = number;
    run->begun = 1;
    run->next = number + 1;
    if (++reader->read % BATCH == 0) at(number);
}

static void on_fragment(void *context, const struct apd_fragment *fragment)
{
    struct reader *reader = context;
    struct run *run = run_of(reader, fragment->source);
    const void *message;
    size_t size;
    int joined = apd_join(&run->joiner, fragment, &message, &size);
    if (joined == APD_GAP) {
        end_run(run);
        run->why = "gap";
        reader->gaps++;
        joined = apd_join(&run->joiner, fragment, &message, &size);
    }
    if (joined < 0) fail("join");
    if (joined == 1) on_message(reader, run, message, size);
}

/* Something may be lost of any source. */
static void lose(struct reader *reader)
{
    for (size_t i = 0; i < IMAGES; i++) {
        struct run *run = &reader->runs[i];
        end_run(run);
        run->why = "gap";
        apd_joiner_init(&run->joiner, run->room, sizeof run->room);
    }
    reader->gap = 1;
    reader->gaps++;
}

static void read_messages(void)
{
    static struct reader reader;
    struct apd_image images[IMAGES];
    struct apd_subscription subscription;
    int status = APD_ENDED, tried = 0;
    while (reader.last < LAST && !told) {
        if (status >= 0 || (status == APD_REFUSED && driver.code == APD_CODE_DENIED)) {
            if (status < 0) pause_ms(10);
            status = apd_poll(&driver, &subscription, 4096, 1000, on_fragment, &reader);
            if (status >= 0 && subscription.missed > 0) fail("an image was missed");
            continue;
        }
        if (tried) again(status, "poll");
        tried = 1;
        apd_close(&driver);
        /* what was not read yet is lost, and so is what goes by until there is a subscription again */
        if (reader.read > 0) lose(&reader);
        status = apd_connect(&driver, path, buffer, sizeof buffer, 60000);
        if (status == APD_OK) status = apd_add_subscription(&driver, channel, stream, 60000, images, IMAGES, &subscription);
    }
    lose(&reader);
    printf("read %llu gaps %llu\n", (unsigned long long)reader.read, (unsigned long long)reader.gaps);
}

int main(int words, char **word)
{
    if (words != 5) return 2;
    path = word[2];
    channel = word[3];
    stream = (int32_t)atol(word[4]);
    setvbuf(stdout, NULL, _IOLBF, BUFSIZ);
    on_signal(SIGUSR1, cut);
    on_signal(SIGTERM, stop);
    if (strcmp(word[1], "send") == 0) send_messages();
    else read_messages();
    apd_close(&driver);
    return 0;
}
