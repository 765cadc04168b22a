/* Calls each function of the client in C: `check FOLDER COUNT` at a driver that allows all but what p2 may not do, with so many
   messages; `check FOLDER COUNT PART` one part of that, by its name below; `check SOCKET forged COUNT` so many times at a server
   that answers with bytes of all kinds; `check SOCKET TASK NUMBER` at a server or a driver that does what a case says. What does
   not hold ends it with a line and status 1. */
#define _POSIX_C_SOURCE 200809L
#include "aeron_policyd.h"

#include <errno.h>
#include <poll.h>
#include <stdio.h>
#include <stdlib.h>
#include <string.h>
#include <time.h>

static unsigned char buffers[3][APD_BUFFER];

static void fail(const char *what, int line)
{
    fprintf(stderr, "line %d: %s\n", line, what);
    exit(1);
}

#define NEED(holds) do { if (!(holds)) fail(#holds, __LINE__); } while (0)

static int enter(struct apd_driver *driver, const char *folder, const char *name, int place)
{
    char path[256];
    snprintf(path, sizeof path, "%s/%s.sock", folder, name);
    return apd_connect(driver, path, buffers[place], sizeof buffers[place], 60000);
}

/* What a reader has read: messages of 8 bytes and more that begin with their number. */
struct seen {
    struct apd_joiner joiner;
    uint64_t next;
    size_t whole;
};

static void on_message(void *context, const struct apd_fragment *fragment)
{
    struct seen *seen = context;
    const void *message;
    size_t size;
    uint64_t number;
    int joined = apd_join(&seen->joiner, fragment, &message, &size);
    NEED(joined >= 0);
    if (joined == 0) return;
    NEED(size >= sizeof number);
    memcpy(&number, message, sizeof number);
    NEED(number == seen->next);
    for (size_t i = sizeof number; i < size; i++) NEED(((const unsigned char *)message)[i] == (unsigned char)(number + i));
    seen->next++;
    seen->whole += size;
}

static void on_row(void *context, const struct apd_row *row)
{
    int *found = context;
    if (row->type_id == 2000 && row->value == -9 && row->label_size == 6 && memcmp(row->label, "orders", 6) == 0) ++*found;
}

static void counters(struct apd_driver *driver)
{
    uint64_t counter = 0;
    int64_t value = 0;
    int found = 0;
    NEED(apd_add_counter(driver, 2000, "key", 3, "orders", 60000, &counter) == APD_OK && counter != 0);
    NEED(apd_set_counter(driver, counter, -9, 60000) == APD_OK);
    NEED(apd_value(driver, counter, &value) == APD_OK && value == -9);
    NEED(apd_list(driver, on_row, &found) > 0 && found == 1);
    NEED(apd_remove_counter(driver, counter, 60000) == APD_OK);
    NEED(apd_remove_counter(driver, counter, 60000) == APD_REFUSED && driver->code == APD_CODE_UNKNOWN_COUNTER);
    NEED(apd_value(driver, counter, &value) == APD_REFUSED && driver->code == APD_CODE_UNKNOWN_COUNTER);
    NEED(apd_add_counter(driver, 2000, NULL, 0, "", 60000, &counter) == APD_OK);
}

static void faults(const char *folder, struct apd_driver *two)
{
    struct apd_driver driver;
    char path[300];
    uint64_t publication = 0;
    memset(path, 'x', sizeof path);
    path[200] = 0;
    NEED(apd_connect(&driver, path, buffers[2], sizeof buffers[2], 1000) == APD_TOO_LARGE);
    NEED(apd_connect(&driver, "/none", buffers[2], 1000, 1000) == APD_TOO_LARGE);
    NEED(apd_connect(&driver, "/none/p1.sock", buffers[2], sizeof buffers[2], 1000) == APD_SYSTEM && driver.code == ENOENT);
    apd_close(&driver);
    NEED(apd_keepalive(&driver) == APD_SYSTEM);
    NEED(enter(&driver, folder, "p1", 2) == APD_OK && driver.principal == 1 && driver.client != 0);
    apd_close(&driver);
    apd_close(&driver);
    NEED(apd_keepalive(&driver) == APD_ENDED);
    NEED(apd_add_publication(two, "aeron:ipc", 10, 60000, &publication) == APD_REFUSED);
    NEED(two->code == APD_CODE_DENIED && strcmp(two->text, "denied by rule 1 in policy 1") == 0);
    NEED(apd_terminate(two, 60000) == APD_REFUSED && two->code == APD_CODE_DENIED);
    NEED(apd_add_publication(two, "not a channel", 10, 60000, &publication) == APD_REFUSED && two->code == 1);
    NEED(apd_offer(two, 12345, "x", 1, 0, NULL) == APD_REFUSED && two->code == APD_CODE_CLOSED);
    NEED(apd_remove_publication(two, 12345, 60000) == APD_REFUSED && two->code == 3);
}

/* Messages of many lengths, sent ahead to a reader that has little room left all the time. */
static void messages(struct apd_driver *one, struct apd_driver *two, uint64_t count)
{
    static unsigned char data[128][8192], room[8192];
    static struct apd_message batch[128];
    struct apd_image images[2];
    struct apd_subscription subscription;
    struct seen seen;
    uint64_t publication = 0, position = 0, sent = 0, before = 0;
    size_t bytes = 0;
    memset(&seen, 0, sizeof seen);
    apd_joiner_init(&seen.joiner, room, sizeof room);
    NEED(apd_add_subscription(two, "aeron:ipc", 10, 60000, images, 2, &subscription) == APD_OK);
    NEED(apd_add_subscription(two, "aeron:ipc", 10, 60000, images, 2, &subscription) == APD_IN_USE);
    NEED(apd_add_publication(one, "aeron:ipc", 10, 60000, &publication) == APD_OK);
    NEED(apd_poll(two, &subscription, 10, 0, on_message, &seen) == 0);
    while (seen.next < count) {
        size_t some = 0, taken = 0;
        while (some < 128 && sent + some < count) {
            uint64_t number = sent + some;
            size_t size = 8 + (number % 50 == 0 ? number * 37 % 8185 : number % 200);
            memcpy(data[some], &number, 8);
            for (size_t i = 8; i < size; i++) data[some][i] = (unsigned char)(number + i);
            batch[some].data = data[some];
            batch[some++].size = size;
        }
        int status = apd_offer_all(one, publication, batch, some, 0, &taken, &position);
        NEED(status == APD_OK || (status == APD_REFUSED && one->code == APD_CODE_BACK_PRESSURE));
        NEED(status != APD_OK || taken == some);
        NEED(taken == 0 || position > before);
        before = position;
        for (size_t i = 0; i < taken; i++) bytes += batch[i].size;
        sent += taken;
        NEED(apd_poll(two, &subscription, 30, 60000, on_message, &seen) > 0);
    }
    NEED(seen.next == count && seen.whole == bytes && subscription.count == 1 && subscription.missed == 0);
    NEED(apd_poll(two, &subscription, 30, 0, on_message, &seen) == 0);
    NEED(apd_offer(one, publication, data[0], 8193, 0, &position) == APD_REFUSED && one->code == APD_CODE_TOO_LONG);
    NEED(apd_remove_publication(one, publication, 60000) == APD_OK);
    NEED(apd_remove_subscription(two, &subscription, 60000) == APD_OK);
    NEED(apd_remove_subscription(two, &subscription, 60000) == APD_REFUSED && two->code == 2);
}

static void count_one(void *context, const struct apd_fragment *fragment)
{
    uint64_t *counts = context;
    NEED(fragment->size == 1 && fragment->flags == (APD_BEGIN | APD_END));
    counts[*(const unsigned char *)fragment->payload]++;
}

/* So many at once that the first are answered while the last are sent, to a reader that has little room: none is lost, none comes
   twice, and none overtakes another. */
static void ahead(struct apd_driver *one, struct apd_driver *two, const char *channel, size_t count)
{
    static uint64_t data[16384][16];
    static struct apd_message batch[16384];
    static unsigned char room[128];
    struct apd_image images[2];
    struct apd_subscription subscription;
    struct seen seen;
    uint64_t publication = 0, position = 0;
    size_t sent = 0, refusals = 0;
    NEED(count <= 16384);
    memset(&seen, 0, sizeof seen);
    apd_joiner_init(&seen.joiner, room, sizeof room);
    for (size_t i = 0; i < count; i++) {
        data[i][0] = i;
        for (size_t j = 8; j < sizeof data[i]; j++) ((unsigned char *)data[i])[j] = (unsigned char)(i + j);
        batch[i].data = data[i];
        batch[i].size = 8 + i % 121;
    }
    NEED(apd_add_subscription(two, channel, 70, 60000, images, 2, &subscription) == APD_OK);
    NEED(apd_add_publication(one, channel, 70, 60000, &publication) == APD_OK);
    while (seen.next < count) {
        size_t taken = 0;
        int status = apd_offer_all(one, publication, batch + sent, count - sent, 0, &taken, &position);
        NEED(status == APD_OK || (status == APD_REFUSED && one->code == APD_CODE_BACK_PRESSURE));
        refusals += status == APD_REFUSED;
        sent += taken;
        NEED((status == APD_OK) == (sent == count));
        NEED(apd_poll(two, &subscription, 3000, 60000, on_message, &seen) > 0);
    }
    /* so many do not find room at once, whatever the channel */
    NEED((refusals > 0 || count < 5000) && sent == count && apd_poll(two, &subscription, 30, 0, on_message, &seen) == 0);
    NEED(apd_remove_publication(one, publication, 60000) == APD_OK);
    NEED(apd_remove_subscription(two, &subscription, 60000) == APD_OK);
}

/* Sends numbers, many ahead, to a server that refuses some. */
static void offers(const char *path, int number)
{
    size_t count = (size_t)number;
    static uint64_t numbers[16384];
    static struct apd_message batch[16384];
    struct apd_driver driver;
    uint64_t publication = 0, position = 0;
    size_t sent = 0;
    NEED(count <= 16384);
    for (size_t i = 0; i < count; i++) {
        numbers[i] = i;
        batch[i].data = &numbers[i];
        batch[i].size = sizeof numbers[i];
    }
    NEED(apd_connect(&driver, path, buffers[0], sizeof buffers[0], 60000) == APD_OK);
    NEED(apd_add_publication(&driver, "aeron:ipc", 10, 60000, &publication) == APD_OK);
    while (sent < count / 2) {
        size_t taken = 0;
        int status = apd_offer_all(&driver, publication, batch + sent, count / 2 - sent, 0, &taken, &position);
        NEED(status == APD_OK || (status == APD_REFUSED && driver.code == APD_CODE_BACK_PRESSURE));
        sent += taken;
        NEED(sent == 0 || position == 64 * sent);
        NEED((status == APD_OK) == (sent == count / 2));
    }
    size_t taken = 0;
    NEED(apd_offer_all(&driver, publication, batch + sent, count - sent, APD_FOREVER, &taken, &position) == APD_OK);
    NEED(taken == count - sent && position == 64 * count);
    apd_close(&driver);
}

/* A loop of events: what comes, comes by apd_work, and meanwhile nothing else is asked. */
static void events(struct apd_driver *one, struct apd_driver *two)
{
    struct apd_image images[2][2];
    struct apd_subscription subscriptions[3];
    uint64_t publications[2] = {0, 0}, counts[256] = {0}, number = 0;
    int64_t value = 0;
    int status = APD_OK;
    NEED(apd_work(two, count_one, counts) == APD_OK && !apd_is_waiting(two) && apd_fd(two) >= 0);
    /* nothing is subscribed: the mail is waited for */
    NEED(apd_begin(two, 10, 20) == APD_OK && apd_is_waiting(two) && apd_begin(two, 10, 20) == APD_IN_USE);
    for (int tries = 0; (status = apd_work(two, count_one, counts)) == 1; tries++) {
        struct pollfd waits = {0, POLLIN, 0};
        waits.fd = apd_fd(two);
        NEED(tries < 1000 && poll(&waits, 1, 60000) == 1);
    }
    NEED(status == APD_OK && !apd_is_waiting(two));
    for (int i = 0; i < 2; i++) {
        NEED(apd_add_subscription(two, "aeron:ipc", 80 + i, 60000, images[i], 2, &subscriptions[i]) == APD_OK);
        NEED(apd_add_publication(one, "aeron:ipc", 80 + i, 60000, &publications[i]) == APD_OK);
        for (int tries = 0; subscriptions[i].count == 0 && tries < 1000; tries++)
            NEED(apd_poll(two, &subscriptions[i], 1, 100, count_one, counts) == 0);
    }
    NEED(apd_begin(two, 10, 5000) == APD_OK);
    NEED(apd_keepalive(two) == APD_IN_USE && apd_value(two, 1, &value) == APD_IN_USE);
    NEED(apd_add_publication(two, "aeron:ipc", 10, 10, &number) == APD_IN_USE);
    NEED(apd_add_subscription(two, "aeron:ipc", 10, 10, images[0], 1, &subscriptions[2]) == APD_IN_USE);
    NEED(apd_remove_subscription(two, &subscriptions[0], 10) == APD_IN_USE && subscriptions[0].count == 1);
    NEED(apd_poll(two, &subscriptions[0], 10, 1000, count_one, counts) == APD_IN_USE);
    NEED(apd_offer(two, 1, "x", 1, 0, NULL) == APD_IN_USE);
    for (int i = 0; i < 2; i++) NEED(apd_offer(one, publications[i], i == 0 ? "a" : "b", 1, 60000, NULL) == APD_OK);
    for (int tries = 0; counts['a'] + counts['b'] < 2; tries++) {
        struct pollfd waits = {0, POLLIN, 0};
        waits.fd = apd_fd(two);
        NEED(tries < 1000 && poll(&waits, 1, 60000) == 1);
        status = apd_work(two, count_one, counts);
        NEED(status == APD_OK || status == 1);
        if (status == APD_OK) NEED(apd_begin(two, 10, 1000) == APD_OK);
    }
    NEED(counts['a'] == 1 && counts['b'] == 1);
    while (apd_is_waiting(two)) {
        struct pollfd waits = {0, POLLIN, 0};
        waits.fd = apd_fd(two);
        NEED(poll(&waits, 1, 60000) == 1 && apd_work(two, count_one, counts) >= 0);
    }
    for (int i = 0; i < 2; i++) {
        NEED(apd_remove_publication(one, publications[i], 60000) == APD_OK);
        NEED(apd_remove_subscription(two, &subscriptions[i], 60000) == APD_OK);
    }
}

/* Signs of life alone, each as it is due. */
static void alive(const char *path, int wait_ms)
{
    struct apd_driver driver;
    NEED(apd_connect(&driver, path, buffers[0], sizeof buffers[0], 60000) == APD_OK);
    for (uint64_t end = apd_deadline((uint32_t)wait_ms); apd_left(end) > 0;) {
        struct timespec pause = {0, 20000000};
        NEED(apd_work(&driver, NULL, NULL) == APD_OK);
        nanosleep(&pause, NULL);
    }
    NEED(apd_keepalive(&driver) == APD_OK);
    apd_close(&driver);
    NEED(apd_fd(&driver) == -1 && apd_work(&driver, NULL, NULL) == APD_ENDED && apd_begin(&driver, 1, 0) == APD_ENDED);
}

/* Who is alone has nothing to hand over, and a struct of zeros is no connection. */
static void texts(void)
{
    struct apd_driver none;
    memset(&none, 0, sizeof none);
    NEED(apd_fd(&none) == -1 && !apd_is_waiting(&none));
    NEED(strcmp(apd_version(), APD_VERSION) == 0);
    for (int status = APD_GAP; status <= APD_OK; status++) NEED(strcmp(apd_status_text(status), "unknown status") != 0);
    NEED(strcmp(apd_status_text(7), "done") == 0 && strcmp(apd_code_text(APD_CODE_FULL), "full") == 0);
    NEED(strcmp(apd_status_text(APD_GAP - 1), "unknown status") == 0 && strcmp(apd_code_text(0), "unknown code") == 0);
}

/* A wait takes as long as it says, and ends with what it waits for; several end by one moment. */
static void waits(struct apd_driver *one, struct apd_driver *two)
{
    struct apd_image images[2];
    struct apd_subscription subscription;
    uint64_t publication = 0, counts[256] = {0}, begun, end;
    NEED(apd_add_subscription(two, "aeron:ipc", 90, 60000, images, 2, &subscription) == APD_OK);
    NEED(apd_add_publication(one, "aeron:ipc", 90, 60000, &publication) == APD_OK);
    NEED(apd_offer(one, publication, "a", 1, 60000, NULL) == APD_OK);
    NEED(apd_poll(two, &subscription, 10, APD_FOREVER, count_one, counts) == 1 && counts['a'] == 1);
    begun = apd_deadline(0);
    NEED(apd_poll(two, &subscription, 10, 200, count_one, counts) == 0 && apd_deadline(0) - begun >= 200);
    end = apd_deadline(300);
    NEED(apd_left(end) <= 300);
    begun = apd_deadline(0);
    NEED(apd_poll(two, &subscription, 10, apd_left(end) / 2, count_one, counts) == 0 && apd_left(end) > 0);
    NEED(apd_poll(two, &subscription, 10, apd_left(end), count_one, counts) == 0);
    NEED(apd_left(end) == 0 && apd_deadline(0) - begun >= 299);
    NEED(apd_deadline(APD_FOREVER) == UINT64_MAX && apd_left(UINT64_MAX) == APD_FOREVER && apd_left(1) == 0);
    NEED(apd_remove_publication(one, publication, 60000) == APD_OK);
    NEED(apd_remove_subscription(two, &subscription, 60000) == APD_OK);
}

/* What is too large is not sent. */
static void large_arguments(struct apd_driver *one, struct apd_driver *two)
{
    static char long_one[16777280];
    struct apd_message batch[2] = {{"x", 1}, {NULL, 16777261}};
    struct apd_image images[2];
    struct apd_subscription subscription;
    struct apd_publication_positions written;
    uint64_t publication = 0, number = 0;
    size_t taken = 7;
    batch[1].data = long_one;
    NEED(apd_add_subscription(two, "aeron:ipc", 91, 60000, images, 2, &subscription) == APD_OK);
    NEED(apd_add_publication(one, "aeron:ipc", 91, 60000, &publication) == APD_OK);
    NEED(apd_offer(one, publication, long_one, 16777261, 60000, NULL) == APD_TOO_LARGE);
    NEED(apd_offer_all(one, publication, batch, 2, 60000, &taken, NULL) == APD_TOO_LARGE && taken == 0);
    NEED(apd_publication_positions(one, publication, &written) == APD_OK && written.position == 0);
    /* one that a record has room for is the driver's to refuse */
    NEED(apd_offer(one, publication, long_one, 16777260, 60000, NULL) == APD_REFUSED && one->code == APD_CODE_TOO_LONG);
    memset(long_one, 'x', sizeof long_one - 1);
    NEED(apd_add_publication(one, long_one, 10, 60000, &number) == APD_TOO_LARGE);
    NEED(apd_add_counter(one, 1, NULL, 0, long_one, 60000, &number) == APD_TOO_LARGE);
    NEED(apd_remove_publication(one, publication, 60000) == APD_OK);
    NEED(apd_remove_subscription(two, &subscription, 60000) == APD_OK);
}

/* The end of the driver, by this client. */
static void terminate(const char *path, int number)
{
    struct apd_driver driver;
    (void)number;
    NEED(apd_connect(&driver, path, buffers[0], sizeof buffers[0], 60000) == APD_OK);
    int status = apd_terminate(&driver, 60000);
    NEED(status == APD_OK || status == APD_ENDED);
    apd_close(&driver);
}

/* Another end: its code, and whether there are words. The driver ends once this says that it is connected. */
static void over(const char *path, int offers)
{
    struct apd_driver driver;
    int status;
    NEED(apd_connect(&driver, path, buffers[0], sizeof buffers[0], 60000) == APD_OK);
    puts("connected");
    fflush(stdout);
    do status = offers ? apd_offer(&driver, 1, "x", 1, 0, NULL) : apd_keepalive(&driver);
    while (status == APD_OK || status == APD_REFUSED);
    /* no SIGPIPE ended the program */
    NEED(status == APD_ENDED && driver.text[0] != 0 && apd_fd(&driver) == -1);
    NEED(apd_keepalive(&driver) == APD_ENDED && apd_offer(&driver, 1, "x", 1, 0, NULL) == APD_ENDED);
    printf("%d\n", (int)driver.code);
    apd_close(&driver);
}

/* Prints the codes and texts of so many refusals; the connection goes on. */
static void refusals(const char *path, int count)
{
    struct apd_driver driver;
    int64_t value = 0;
    NEED(apd_connect(&driver, path, buffers[0], sizeof buffers[0], 60000) == APD_OK);
    for (int i = 0; i < count; i++) {
        NEED(apd_value(&driver, (uint64_t)i, &value) == APD_REFUSED);
        printf("%d %s\n", (int)driver.code, driver.text);
        NEED(apd_keepalive(&driver) == APD_OK);
    }
    apd_close(&driver);
}

/* The other end speaks another protocol, from the first record on or later. */
static void other_protocol(const char *path, int first)
{
    struct apd_driver driver;
    int status = apd_connect(&driver, path, buffers[0], sizeof buffers[0], 60000);
    NEED(first ? status == APD_PROTOCOL : status == APD_OK && apd_keepalive(&driver) == APD_PROTOCOL);
    NEED(apd_keepalive(&driver) == APD_PROTOCOL && apd_fd(&driver) == -1);
}

/* A joiner, and how many messages it put together. */
struct large {
    struct apd_joiner joiner;
    int whole;
};

static void on_large(void *context, const struct apd_fragment *fragment)
{
    struct large *large = context;
    const void *message;
    size_t size;
    int joined = apd_join(&large->joiner, fragment, &message, &size);
    NEED(joined >= 0 && fragment->size <= 65504 - 32);
    if (joined == 0) return;
    NEED(size == 131072);
    for (size_t i = 0; i < size; i++) NEED(((const unsigned char *)message)[i] == (unsigned char)(i * 7));
    large->whole++;
}

/* What a joiner says of a fragment of source 1: the length of the message that it ends, or what apd_join returns. */
static int joined(struct apd_joiner *joiner, uint64_t position, uint32_t flags, const void *data, size_t size)
{
    struct apd_fragment fragment = {1, 0, 0, NULL, 0, 9, 0};
    const void *message;
    size_t whole = 0;
    fragment.position = position;
    fragment.flags = flags;
    fragment.payload = data;
    fragment.size = size;
    int status = apd_join(joiner, &fragment, &message, &whole);
    return status == 1 ? (int)whole : status;
}

/* The longest fragments fit the least buffer. */
static void large(struct apd_driver *one, struct apd_driver *two)
{
    static unsigned char data[131072], room[131072];
    struct apd_image images[2];
    struct apd_subscription subscription;
    struct large large;
    struct apd_joiner joiner;
    uint64_t publication = 0, position = 0;
    for (size_t i = 0; i < sizeof data; i++) data[i] = (unsigned char)(i * 7);
    large.whole = 0;
    apd_joiner_init(&large.joiner, room, sizeof room);
    NEED(apd_add_subscription(two, "aeron:ipc", 50, 60000, images, 2, &subscription) == APD_OK);
    NEED(apd_add_publication(one, "aeron:ipc?mtu=65504|term-length=1m", 50, 60000, &publication) == APD_OK);
    NEED(apd_offer(one, publication, data, sizeof data, 60000, &position) == APD_OK && position > sizeof data);
    for (int tries = 0; large.whole == 0 && tries < 1000; tries++)
        NEED(apd_poll(two, &subscription, 10, 200, on_large, &large) >= 0);
    NEED(large.whole == 1);
    /* one that finds no room is left out, and the next one comes */
    apd_joiner_init(&joiner, room, sizeof room - 1);
    NEED(joined(&joiner, 65504, APD_BEGIN, data, 65472) == 0 && joined(&joiner, 131008, 0, data, 65472) == 0);
    NEED(joined(&joiner, 131168, APD_END, data, 128) == APD_TOO_LARGE);
    NEED(joined(&joiner, 196672, 0, data, 65472) == 0 && joined(&joiner, 196832, APD_END, data, 128) == 0);
    NEED(joined(&joiner, 262336, APD_BEGIN, data, 65472) == 0 && joined(&joiner, 262496, APD_END, data, 128) == 65600);
    NEED(apd_remove_publication(one, publication, 60000) == APD_OK);
    NEED(apd_remove_subscription(two, &subscription, 60000) == APD_OK);
}

/* Fragments that do not follow one another: the message that had begun is left out, and the next one is whole. */
static void gaps(void)
{
    static unsigned char room[64];
    struct apd_joiner joiner;
    apd_joiner_init(&joiner, room, sizeof room);
    NEED(joined(&joiner, 640, APD_BEGIN, "AA", 2) == 0 && joined(&joiner, 704, 0, "BB", 2) == 0);
    NEED(joined(&joiner, 832, APD_END, "DD", 2) == APD_GAP && joined(&joiner, 832, APD_END, "DD", 2) == 0);
    NEED(joined(&joiner, 896, APD_BEGIN, "A", 1) == 0 && joined(&joiner, 960, APD_END, "B", 1) == 2 && room[1] == 'B');
    /* the rest of a term is filled */
    NEED(joined(&joiner, 65536 + 64, APD_BEGIN, "A", 1) == 0 && joined(&joiner, 65536 + 128, APD_END, "B", 1) == 2);
    /* but not within a message, nor up to another place */
    NEED(joined(&joiner, 65536 + 192, APD_BEGIN, "A", 1) == 0);
    NEED(joined(&joiner, 131072 + 64, APD_BEGIN | APD_END, "ABC", 3) == APD_GAP);
    NEED(joined(&joiner, 131072 + 64, APD_BEGIN | APD_END, "ABC", 3) == 3);
    NEED(joined(&joiner, 131072 + 192, APD_BEGIN | APD_END, "ABC", 3) == APD_GAP);
    NEED(joined(&joiner, 131072 + 192, APD_BEGIN | APD_END, "ABC", 3) == 3);
    NEED(joined(&joiner, 131072 + 64, APD_BEGIN | APD_END, "ABC", 3) == APD_GAP);
}

/* One subscription of several sources, with room for fewer than there are. */
static void sources(struct apd_driver *one, struct apd_driver *two)
{
    struct apd_image images[3];
    struct apd_subscription subscription;
    uint64_t publications[4], counts[4] = {0, 0, 0, 0};
    NEED(apd_add_subscription(two, "aeron:ipc", 30, 60000, images, 3, &subscription) == APD_OK);
    for (int i = 0; i < 4; i++) NEED(apd_add_exclusive_publication(one, "aeron:ipc", 30, 60000, &publications[i]) == APD_OK);
    for (int tries = 0; subscription.count + subscription.missed < 4 && tries < 1000; tries++)
        NEED(apd_poll(two, &subscription, 10, 20, count_one, counts) >= 0);
    NEED(subscription.count == 3 && subscription.missed == 1);
    for (int i = 0; i < 4; i++)
        for (int j = 0; j < 10; j++) {
            unsigned char byte = (unsigned char)i;
            NEED(apd_offer(one, publications[i], &byte, 1, 60000, NULL) == APD_OK);
        }
    for (int tries = 0; counts[0] + counts[1] + counts[2] + counts[3] < 30 && tries < 1000; tries++)
        NEED(apd_poll(two, &subscription, 4, 100, count_one, counts) >= 0);
    NEED(counts[0] + counts[1] + counts[2] + counts[3] == 30);
    for (int i = 0; i < 4; i++) NEED(apd_remove_publication(one, publications[i], 60000) == APD_OK);
    NEED(apd_remove_subscription(two, &subscription, 60000) == APD_OK);
}

/* A term has 65,536 bytes, and a log takes half a term past its slowest reader. */
static void positions(struct apd_driver *one, struct apd_driver *two)
{
    struct apd_image images[2];
    struct apd_subscription subscription;
    struct apd_publication_positions written;
    struct apd_image_positions seen;
    uint64_t publication = 0, counts[256] = {0};
    NEED(apd_add_subscription(two, "aeron:ipc", 60, 60000, images, 2, &subscription) == APD_OK);
    NEED(apd_add_publication(one, "aeron:ipc", 60, 60000, &publication) == APD_OK);
    for (int i = 0; i < 3; i++) NEED(apd_offer(one, publication, "x", 1, 60000, NULL) == APD_OK);
    for (int tries = 0; counts['x'] == 0 && tries < 1000; tries++)
        NEED(apd_poll(two, &subscription, 1, 100, count_one, counts) >= 0);
    NEED(counts['x'] == 1 && subscription.count == 1);
    NEED(apd_publication_positions(one, publication, &written) == APD_OK);
    NEED(written.position == 192 && written.limit == 64 + 32768 && written.sent == 0 && written.consumed == 0);
    NEED(written.connected == 1 && written.heard == 0);
    NEED(apd_image_positions(two, subscription.registration, images[0].source, &seen) == APD_OK);
    NEED(seen.joined == 0 && seen.position == 64 && seen.received == 192);
    NEED(apd_image_positions(two, subscription.registration, 99999, &seen) == APD_REFUSED && two->code == APD_CODE_CLOSED);
    NEED(apd_publication_positions(two, publication, &written) == APD_REFUSED && two->code == APD_CODE_CLOSED);
    NEED(apd_remove_publication(one, publication, 60000) == APD_OK);
    NEED(apd_remove_subscription(two, &subscription, 60000) == APD_OK);
}

static void destinations(struct apd_driver *one)
{
    uint64_t publication = 0;
    NEED(apd_add_publication(one, "aeron:udp?control-mode=manual", 40, 60000, &publication) == APD_OK);
    NEED(apd_add_destination(one, publication, "aeron:udp?endpoint=127.0.0.1:9", 60000) == APD_OK);
    NEED(apd_add_destination(one, publication, "aeron:udp?endpoint=127.0.0.1:9", 60000) == APD_REFUSED && one->code == 1005);
    NEED(apd_remove_destination(one, publication, "aeron:udp?endpoint=127.0.0.1:9", 60000) == APD_OK);
}

static void ignore(void *context, const struct apd_fragment *fragment)
{
    unsigned sum = 0;
    for (size_t i = 0; i < fragment->size; i++) sum += ((const unsigned char *)fragment->payload)[i];
    *(unsigned *)context += sum;
}

static void ignore_row(void *context, const struct apd_row *row)
{
    unsigned sum = 0;
    for (size_t i = 0; i < row->label_size; i++) sum += (unsigned char)row->label[i];
    *(unsigned *)context += sum;
}

/* Whatever the server answers, each call returns, and the connection ends or goes on. */
static void forge(const char *path)
{
    struct apd_driver driver;
    struct apd_image images[2];
    struct apd_subscription subscription;
    struct apd_publication_positions written;
    struct apd_image_positions seen;
    uint64_t number = 0;
    int64_t value = 0;
    unsigned sum = 0;
    int status = apd_connect(&driver, path, buffers[0], sizeof buffers[0], 300);
    memset(&subscription, 0, sizeof subscription);
    NEED(status == APD_OK || (status < 0 && status != APD_REFUSED));
    if (status == APD_OK && apd_add_subscription(&driver, "aeron:ipc", 10, 30, images, 2, &subscription) == APD_OK)
        for (int i = 0; i < 5; i++) {
            status = apd_poll(&driver, &subscription, 10, 2, ignore, &sum);
            NEED(subscription.count <= 2);
        }
    if (apd_begin(&driver, 10, 5) == APD_OK)
        for (int tries = 0; apd_is_waiting(&driver) && tries < 30; tries++) {
            struct pollfd waits = {0, POLLIN, 0};
            waits.fd = apd_fd(&driver);
            (void)poll(&waits, 1, 10);
            (void)apd_work(&driver, ignore, &sum);
            NEED(subscription.count <= 2);
        }
    (void)apd_add_publication(&driver, "aeron:ipc", 10, 20, &number);
    (void)apd_offer(&driver, 1, "x", 1, 0, &number);
    (void)apd_list(&driver, ignore_row, &sum);
    (void)apd_value(&driver, 1, &value);
    (void)apd_publication_positions(&driver, 1, &written);
    (void)apd_image_positions(&driver, 1, 2, &seen);
    status = apd_keepalive(&driver);
    NEED(status <= 0 && memchr(driver.text, 0, sizeof driver.text) != NULL);
    apd_close(&driver);
}

/* What was granted too late is taken back, by whichever call takes the mail: a subscription, a publication or a counter. */
static void late(const char *path, int kind)
{
    struct apd_driver driver;
    struct apd_image images[2];
    struct apd_subscription subscription;
    uint64_t number = 0;
    int status;
    NEED(apd_connect(&driver, path, buffers[0], sizeof buffers[0], 60000) == APD_OK);
    if (kind == 0) status = apd_add_subscription(&driver, "aeron:ipc", 10, 50, images, 2, &subscription);
    else if (kind == 1) status = apd_add_publication(&driver, "aeron:ipc", 10, 50, &number);
    else status = apd_add_counter(&driver, 1, NULL, 0, "label", 50, &number);
    NEED(status == APD_NO_REPLY && number == 0);
    /* it is not in use */
    memset(&subscription, 0xFF, sizeof subscription);
    NEED(apd_keepalive(&driver) == APD_OK);
    puts("late");
    fflush(stdout);
    NEED(getchar() == '\n');
    NEED(apd_keepalive(&driver) == APD_OK && apd_keepalive(&driver) == APD_OK);
    apd_close(&driver);
}

static void print_message(void *context, const struct apd_fragment *fragment)
{
    const void *message;
    size_t size;
    int joined = apd_join(context, fragment, &message, &size);
    if (joined == APD_GAP) {
        puts("gap");
        joined = apd_join(context, fragment, &message, &size);
    }
    if (joined == 1) printf("%.*s\n", (int)size, (const char *)message);
}

/* Prints what comes, and the refusals of polls. */
static void holes(const char *path, int polls)
{
    static unsigned char room[64];
    struct apd_driver driver;
    struct apd_image images[2];
    struct apd_subscription subscription;
    struct apd_joiner joiner;
    apd_joiner_init(&joiner, room, sizeof room);
    NEED(apd_connect(&driver, path, buffers[0], sizeof buffers[0], 60000) == APD_OK);
    NEED(apd_add_subscription(&driver, "aeron:ipc", 10, 60000, images, 2, &subscription) == APD_OK);
    while (polls-- > 0)
        if (apd_poll(&driver, &subscription, 10, 0, print_message, &joiner) == APD_REFUSED) puts(driver.text);
    apd_close(&driver);
}

static void forged(const char *path, int count)
{
    for (int i = 0; i < count; i++) forge(path);
}

/* At a driver, all parts or the one of that name. */
static void parts(const char *folder, uint64_t count, const char *name)
{
    struct apd_driver one, two;
    int ran = 0;
    NEED(enter(&one, folder, "p1", 0) == APD_OK && enter(&two, folder, "p2", 1) == APD_OK);
#define PART(part, call) if (name == NULL || strcmp(name, part) == 0) { call; ran++; }
    PART("faults", faults(folder, &two))
    PART("counters", counters(&one))
    PART("gaps", gaps())
    PART("texts", texts())
    PART("sources", sources(&one, &two))
    PART("large", large(&one, &two))
    PART("messages", messages(&one, &two, count))
    PART("ahead", ahead(&one, &two, "aeron:ipc", (size_t)count); ahead(&one, &two, "aeron:ipc?term-length=1m", (size_t)count * 3))
    PART("events", events(&one, &two))
    PART("positions", positions(&one, &two))
    PART("destinations", destinations(&one))
    PART("waits", waits(&one, &two))
    PART("large arguments", large_arguments(&one, &two))
    NEED(ran == (name == NULL ? 13 : 1));
    apd_close(&one);
    apd_close(&two);
}

static const struct {
    const char *name;
    void (*run)(const char *path, int number);
} tasks[] = {
    {"alive", alive}, {"forged", forged}, {"holes", holes}, {"late", late}, {"offers", offers},
    {"other", other_protocol}, {"over", over}, {"refusals", refusals}, {"terminate", terminate},
};

int main(int count, char **words)
{
    NEED(count == 3 || count == 4);
    for (size_t i = 0; count == 4 && i < sizeof tasks / sizeof *tasks; i++)
        if (strcmp(words[2], tasks[i].name) == 0) {
            tasks[i].run(words[1], atoi(words[3]));
            return 0;
        }
    NEED(atoi(words[2]) > 0);
    parts(words[1], (uint64_t)atoi(words[2]), count == 4 ? words[3] : NULL);
    puts(count == 4 ? words[3] : "all holds");
    return 0;
}
