/* See the header for what each call does, and docs/SERVICE.md for the records. */
#define _POSIX_C_SOURCE 200809L
#include "aeron_policyd.h"

#include <errno.h>
#include <fcntl.h>
#include <string.h>
#include <sys/socket.h>
#include <sys/time.h>
#include <sys/uio.h>
#include <sys/un.h>
#include <time.h>
#include <unistd.h>

/* Requests and answers, by their kinds. */
enum { COMMAND = 1, OFFER = 2, MAIL = 4, LIST = 5, VALUE = 6, POLL_ALL = 10, PUBLICATION_POSITIONS = 11, IMAGE_POSITIONS = 12 };
enum {
    WELCOME = 0x101, REPLY, TAKEN, REFUSED, FRAGMENT, DONE, ROW, VALUE_IS, BYE, LINE, PART, PART_REFUSED, PUBLICATION_IS, IMAGE_IS
};

/* How far the answer to apd_begin was read; and what reading says where the rest has not come yet. */
enum { AT_REST, IN_POLLS, IN_MAIL };
enum { NOT_YET = -100 };

enum { VERSION = 1, HEAD = 8, OFFER_HEAD = 24, POLL_HEAD = 16, PAIR_SIZE = 16, MAIL_SIZE = 12, COMMAND_HEAD = 28 };

/* How long a record is at most, without its length. */
#define LONGEST 16777280u

/* How long the driver waits at once where a client waits for messages and for mail, in milliseconds: at first, and after a while
   in which neither came. */
#define GLANCE 50u
#define LONG_GLANCE 1000u

/* Every term is as long as that, or a multiple of it: where a stretch that is filled ends. */
#define LEAST_TERM 65536u

/* Of how many parts a command is at most. */
enum { PARTS = 5 };

/* How many images one POLL_ALL names at most. */
enum { PAIRS = 64 };

/* How many offers stand in one call of the system, and how many offers or bytes are sent before their answers are read. */
enum { AT_ONCE = 64, AHEAD = 1024, AHEAD_BYTES = 1048576 };

/* ---- what structs have inside */

/* Of a connection. */
struct connection {
    int descriptor; /* one more than that of the socket; 0 where there is none */
    int ended;      /* the status with which it ended */
    unsigned char *buffer;
    size_t size, at, have; /* of the buffer; where unread bytes begin in it, and end */
    uint64_t correlation;
    uint32_t refusals;
    struct apd_subscription *subscriptions, *joining, *polled;
    struct apd_image *image;
    size_t turn;
    uint64_t stretches; /* how many there were so far */
    uint64_t spoke_ms;
    uint32_t glance;
    int stage, peeks;
    int answered;
    uint64_t registration;
    uint32_t unclaimed; /* how many of the next two are there */
    uint32_t removals[APD_UNCLAIMED];
    uint64_t registrations[APD_UNCLAIMED];
};

/* Of an image: whether it is closed; and the number of the stretch of fragments that come from it. Another number stands for
   fragments before which something may be lost: the source came again, or the driver had no memory to send some. */
enum { CLOSED, STRETCH };

/* Of a subscription: the one before it. */
enum { NEXT };

/* Of a joiner. */
struct joining {
    unsigned char *room;
    size_t size;
    size_t have;
    int begun;
    int known; /* whether the next two are there */
    uint64_t position;
    uint64_t stretch;
};

/* They fit. */
typedef char connection_fits[sizeof (struct connection) <= sizeof ((struct apd_driver *)0)->inside ? 1 : -1];
typedef char joining_fits[sizeof (struct joining) <= sizeof ((struct apd_joiner *)0)->inside ? 1 : -1];

static struct connection *in(const struct apd_driver *driver)
{
    return (struct connection *)(void *)&driver->inside;
}

static struct joining *joining_of(struct apd_joiner *joiner)
{
    return (struct joining *)(void *)&joiner->inside;
}

static struct apd_subscription *next_of(const struct apd_subscription *subscription)
{
    return subscription->inside[NEXT];
}

/* An answer: its kind, and what follows that in the buffer. */
struct answer {
    uint32_t kind;
    const unsigned char *body;
    size_t size;
};

/* ---- numbers, the lowest byte first */

static void put32(unsigned char *at, uint32_t x)
{
    for (int i = 0; i < 4; i++) at[i] = (unsigned char)(x >> (8 * i));
}

static void put64(unsigned char *at, uint64_t x)
{
    for (int i = 0; i < 8; i++) at[i] = (unsigned char)(x >> (8 * i));
}

static uint32_t get32(const unsigned char *at)
{
    uint32_t x = 0;
    for (int i = 0; i < 4; i++) x |= (uint32_t)at[i] << (8 * i);
    return x;
}

static uint64_t get64(const unsigned char *at)
{
    return get32(at) | (uint64_t)get32(at + 4) << 32;
}

/* Two's complement, whatever the machine has. */
static int32_t signed32(uint32_t x)
{
    return x <= INT32_MAX ? (int32_t)x : -(int32_t)(UINT32_MAX - x) - 1;
}

static int64_t signed64(uint64_t x)
{
    return x <= INT64_MAX ? (int64_t)x : -(int64_t)(UINT64_MAX - x) - 1;
}

/* ---- time */

static uint64_t now_ms(void)
{
    struct timespec at;
    clock_gettime(CLOCK_MONOTONIC, &at);
    return (uint64_t)at.tv_sec * 1000 + (uint64_t)at.tv_nsec / 1000000;
}

uint64_t apd_deadline(uint32_t wait_ms)
{
    return wait_ms == APD_FOREVER ? UINT64_MAX : now_ms() + wait_ms;
}

/* How much is left until `end`, `most` at most. */
static uint32_t left_ms(uint64_t end, uint32_t most)
{
    uint64_t now = now_ms();
    if (now >= end) return 0;
    return end - now < most ? (uint32_t)(end - now) : most;
}

uint32_t apd_left(uint64_t deadline)
{
    return deadline == UINT64_MAX ? APD_FOREVER : left_ms(deadline, APD_FOREVER - 1);
}

/* ---- how calls fail */

const char *apd_version(void)
{
    return APD_VERSION;
}

const char *apd_status_text(int status)
{
    switch (status) {
    case APD_OK: return "done";
    case APD_REFUSED: return "the driver refused it";
    case APD_ENDED: return "the connection is over";
    case APD_SYSTEM: return "the system failed";
    case APD_PROTOCOL: return "the other end does not speak the protocol";
    case APD_NO_REPLY: return "a command was not answered in time";
    case APD_TOO_LARGE: return "an argument is too large";
    case APD_IN_USE: return "what the call was handed is in use";
    case APD_GAP: return "something was lost";
    default: return status > 0 ? "done" : "unknown status";
    }
}

static void say(struct apd_driver *driver, int32_t code, const void *text, size_t size)
{
    if (size > sizeof driver->text - 1) size = sizeof driver->text - 1;
    driver->code = code;
    if (size > 0) memcpy(driver->text, text, size);
    driver->text[size] = 0;
}

/* The connection is over, for that reason. */
static int over(struct apd_driver *driver, int status, int32_t code, const char *text)
{
    say(driver, code, text, strlen(text));
    in(driver)->ended = status;
    apd_close(driver);
    return status;
}

static int protocol(struct apd_driver *driver, const char *text)
{
    return over(driver, APD_PROTOCOL, 0, text);
}

static int failed(struct apd_driver *driver, int error)
{
    if (error == EAGAIN || error == EWOULDBLOCK) return over(driver, APD_ENDED, 0, "the driver does not answer");
    if (error == ECONNRESET || error == EPIPE) return over(driver, APD_ENDED, 0, "the driver closed the connection");
    return over(driver, APD_SYSTEM, error, strerror(error));
}

const char *apd_code_text(int32_t code)
{
    switch (code) {
    case APD_CODE_NO_SUBSCRIBER: return "no subscriber";
    case APD_CODE_BACK_PRESSURE: return "back pressure";
    case APD_CODE_OFFER_AGAIN: return "offer again";
    case APD_CODE_CLOSED: return "closed";
    case APD_CODE_MAX_POSITION: return "greatest position reached";
    case APD_CODE_SKIPPED: return "skipped after a refusal";
    case APD_CODE_INVALID_CHANNEL: return "invalid channel";
    case APD_CODE_UNKNOWN_SUBSCRIPTION: return "unknown subscription";
    case APD_CODE_UNKNOWN_PUBLICATION: return "unknown publication";
    case APD_CODE_UNKNOWN_COUNTER: return "unknown counter";
    case APD_CODE_UNKNOWN_REQUEST: return "unknown request";
    case APD_CODE_MALFORMED_REQUEST: return "malformed request";
    case APD_CODE_TOO_LONG: return "too long";
    case APD_CODE_DENIED: return "denied";
    case APD_CODE_NO_MEMORY: return "no memory";
    case APD_CODE_FULL: return "full";
    case APD_CODE_CLIENT_GONE: return "client gone";
    case APD_CODE_CONFLICT: return "conflict";
    case APD_CODE_NO_ROOM: return "no room";
    case APD_CODE_NO_LOOK: return "no look";
    case APD_CODE_QUEUE_FULL: return "queue full";
    case APD_CODE_NOT_OPERATOR: return "only for operators";
    case APD_CODE_STOPPED: return "stopped";
    case APD_CODE_BOUND_PUBLICATIONS: return "bound on publications";
    case APD_CODE_BOUND_PAGES: return "bound on pages";
    case APD_CODE_BOUND_SUBSCRIPTIONS: return "bound on subscriptions";
    case APD_CODE_BOUND_COUNTERS: return "bound on counters";
    case APD_CODE_USED_CORRELATION: return "correlation id was used";
    case APD_CODE_POLLS_NOTHING: return "polls nothing";
    default: return "unknown code";
    }
}

/* Whether what was refused may be granted later. */
static int may_pass(int32_t code)
{
    return code == APD_CODE_NO_SUBSCRIBER || code == APD_CODE_BACK_PRESSURE || code == APD_CODE_OFFER_AGAIN ||
           code == APD_CODE_NO_LOOK || code == APD_CODE_QUEUE_FULL;
}

/* ---- records come */

/* Reads more into the buffer. */
static int fill(struct apd_driver *driver)
{
    ssize_t count;
    if (in(driver)->at > 0) {
        memmove(in(driver)->buffer, in(driver)->buffer + in(driver)->at, in(driver)->have - in(driver)->at);
        in(driver)->have -= in(driver)->at;
        in(driver)->at = 0;
    }
    do count = recv(apd_fd(driver), in(driver)->buffer + in(driver)->have, in(driver)->size - in(driver)->have, in(driver)->peeks ? MSG_DONTWAIT : 0);
    while (count < 0 && errno == EINTR);
    if (count < 0 && in(driver)->peeks && (errno == EAGAIN || errno == EWOULDBLOCK)) return NOT_YET;
    if (count < 0) return failed(driver, errno);
    if (count == 0) return over(driver, APD_ENDED, 0, "the driver closed the connection");
    in(driver)->have += (size_t)count;
    return APD_OK;
}

/* BYE: the driver's last word. */
static int bye(struct apd_driver *driver, const struct answer *answer)
{
    if (answer->size < 4) return protocol(driver, "a last record without a code");
    say(driver, signed32(get32(answer->body)), answer->body + 4, answer->size - 4);
    in(driver)->ended = APD_ENDED;
    apd_close(driver);
    return APD_ENDED;
}

/* The next answer. It lies in the buffer until the next call. */
static int receive(struct apd_driver *driver, struct answer *answer)
{
    if (in(driver)->ended) return in(driver)->ended;
    for (;;) {
        size_t have = in(driver)->have - in(driver)->at;
        const unsigned char *record = in(driver)->buffer + in(driver)->at;
        if (have >= 4) {
            uint32_t size = get32(record);
            if (size < 4 || size > in(driver)->size - 4) return protocol(driver, "a record of another size");
            if (have - 4 >= size) {
                answer->kind = get32(record + 4);
                answer->body = record + HEAD;
                answer->size = size - 4;
                in(driver)->at += 4 + (size_t)size;
                return answer->kind == BYE ? bye(driver, answer) : APD_OK;
            }
        }
        int status = fill(driver);
        if (status != APD_OK) return status;
    }
}

/* REFUSED: why. */
static int refused(struct apd_driver *driver, const struct answer *answer)
{
    if (answer->size < 4) return protocol(driver, "a refusal without a code");
    say(driver, signed32(get32(answer->body)), answer->body + 4, answer->size - 4);
    return APD_REFUSED;
}

/* ---- records go */

/* What the system says of a failed write, unless the driver said something before. */
static int unsent(struct apd_driver *driver, int error)
{
    struct answer answer;
    if (error == EPIPE || error == ECONNRESET)
        while (receive(driver, &answer) == APD_OK) {}
    else
        failed(driver, error);
    return in(driver)->ended;
}

/* Sends all of these parts, which it changes. */
static int send_parts(struct apd_driver *driver, struct iovec *parts, size_t count)
{
    if (in(driver)->ended) return in(driver)->ended;
    if (in(driver)->stage != AT_REST) return APD_IN_USE;
    in(driver)->spoke_ms = now_ms();
    while (count > 0) {
        struct msghdr message;
        memset(&message, 0, sizeof message);
        message.msg_iov = parts;
        message.msg_iovlen = count;
        ssize_t sent = sendmsg(apd_fd(driver), &message, MSG_NOSIGNAL);
        if (sent < 0 && errno == EINTR) continue;
        if (sent < 0) return unsent(driver, errno);
        size_t left = (size_t)sent;
        while (count > 0 && left >= parts->iov_len) {
            left -= parts->iov_len;
            parts++;
            count--;
        }
        if (count > 0) {
            parts->iov_base = (unsigned char *)parts->iov_base + left;
            parts->iov_len -= left;
        }
    }
    return APD_OK;
}

static struct iovec part_of(const void *data, size_t size)
{
    /* what is sent is not written to */
    union {
        const void *in;
        void *out;
    } pointer;
    struct iovec part;
    pointer.in = data;
    part.iov_base = pointer.out;
    part.iov_len = size;
    return part;
}

static int send_bytes(struct apd_driver *driver, const void *data, size_t size)
{
    struct iovec part = part_of(data, size);
    return send_parts(driver, &part, 1);
}

/* The length and the kind of a record with so many bytes after its kind. */
static void put_head(unsigned char *at, uint32_t kind, size_t size)
{
    put32(at, (uint32_t)(4 + size));
    put32(at + 4, kind);
}

/* The head of the next command, in a record with so many bytes after its kind. */
static void put_command(struct apd_driver *driver, unsigned char *at, uint32_t type, size_t size)
{
    in(driver)->correlation++;
    put_head(at, COMMAND, size);
    put32(at + 8, type);
    put64(at + 12, driver->client);
    put64(at + 20, in(driver)->correlation);
}

static void put_mail(unsigned char *at, uint32_t wait_ms)
{
    put_head(at, MAIL, 4);
    put32(at + 8, wait_ms);
}

/* ---- mail */

static struct apd_subscription *subscription_of(struct apd_driver *driver, uint64_t registration)
{
    struct apd_subscription *at = in(driver)->subscriptions;
    while (at != NULL && at->registration != registration) at = next_of(at);
    return at;
}

/* The image of that source goes, if it is there; the others keep their order. */
static void forget(struct apd_subscription *subscription, uint64_t source)
{
    size_t kept = 0;
    for (size_t i = 0; i < subscription->count; i++)
        if (subscription->images[i].source != source) subscription->images[kept++] = subscription->images[i];
    subscription->count = kept;
}

/* ON_AVAILABLE_IMAGE. */
static int image_came(struct apd_driver *driver, const unsigned char *reply, size_t size)
{
    if (size < 40 || get32(reply + 36) != size - 40) return protocol(driver, "an image of another form");
    struct apd_subscription *subscription = subscription_of(driver, get64(reply + 12));
    struct apd_image image;
    if (subscription == NULL) return APD_OK;
    image.source = get64(reply + 4);
    image.session = signed32(get32(reply + 20));
    image.stream = signed32(get32(reply + 24));
    image.position = get64(reply + 28);
    memset(image.inside, 0, sizeof image.inside);
    image.inside[STRETCH] = ++in(driver)->stretches;
    forget(subscription, image.source);
    if (subscription->count < subscription->room)
        subscription->images[subscription->count++] = image;
    else
        subscription->missed++;
    return APD_OK;
}

/* The command that takes back what a reply of that type added; 0 where it added nothing. */
static uint32_t removal_of(uint32_t type)
{
    switch (type) {
    case 0x0F03: case 0x0F06: return 0x02;
    case 0x0F07: return 0x05;
    case 0x0F08: return 0x0A;
    default: return 0;
    }
}

/* Something was added after its call had given up waiting: it is taken back once the mail is read. */
static int note_unclaimed(struct apd_driver *driver, const unsigned char *reply)
{
    uint32_t removal = removal_of(get32(reply));
    if (removal == 0) return APD_OK;
    if (in(driver)->unclaimed == APD_UNCLAIMED) return protocol(driver, "too many late replies");
    in(driver)->removals[in(driver)->unclaimed] = removal;
    in(driver)->registrations[in(driver)->unclaimed++] = get64(reply + 12);
    return APD_OK;
}

/* A command was granted: its registration is kept where it is the one that is waited for. */
static int note_granted(struct apd_driver *driver, const unsigned char *reply, size_t size)
{
    if (get64(reply + 4) != in(driver)->correlation || in(driver)->answered != APD_NO_REPLY) return note_unclaimed(driver, reply);
    in(driver)->answered = APD_OK;
    if (size < 20) return APD_OK;
    in(driver)->registration = get64(reply + 12);
    if (in(driver)->joining == NULL) return APD_OK;
    /* the images that it reads may come with the same mail */
    in(driver)->joining->registration = in(driver)->registration;
    in(driver)->joining->inside[NEXT] = in(driver)->subscriptions;
    in(driver)->subscriptions = in(driver)->joining;
    in(driver)->joining = NULL;
    return APD_OK;
}

static int note_error(struct apd_driver *driver, const unsigned char *reply, size_t size)
{
    if (size < 20 || get32(reply + 16) != size - 20) return protocol(driver, "an error of another form");
    if (get64(reply + 4) == in(driver)->correlation && in(driver)->answered == APD_NO_REPLY) {
        in(driver)->answered = APD_REFUSED;
        say(driver, signed32(get32(reply + 12)), reply + 20, size - 20);
    }
    return APD_OK;
}

/* How long a reply is; 0 where that is not fixed. */
static size_t size_of(uint32_t type)
{
    switch (type) {
    case 0x0F03: case 0x0F06: return 28;
    case 0x0F04: case 0x0F09: case 0x0F0A: return 12;
    case 0x0F05: return 24;
    case 0x0F07: case 0x0F08: return 20;
    default: return 0;
    }
}

/* What a reply says. */
static int note(struct apd_driver *driver, const unsigned char *reply, size_t size)
{
    struct apd_subscription *subscription;
    uint32_t type = size < 4 ? 0 : get32(reply);
    if (type == 0 || (size_of(type) != 0 && size_of(type) != size)) return protocol(driver, "a reply of another form");
    switch (type) {
    case 0x0F01:
        return note_error(driver, reply, size);
    case 0x0F02:
        return image_came(driver, reply, size);
    case 0x0F03: case 0x0F04: case 0x0F06: case 0x0F07: case 0x0F08:
        return note_granted(driver, reply, size);
    case 0x0F05:
        subscription = subscription_of(driver, get64(reply + 12));
        if (subscription != NULL) forget(subscription, get64(reply + 4));
        return APD_OK;
    case 0x0F0A:
        return over(driver, APD_ENDED, APD_CODE_CLIENT_GONE, "client gone");
    default:
        return APD_OK;
    }
}

/* Reads the answer to MAIL. How many replies there were. */
static int read_mail(struct apd_driver *driver)
{
    struct answer answer;
    int count = 0;
    for (;;) {
        int status = receive(driver, &answer);
        if (status != APD_OK) return status;
        if (answer.kind == DONE) return count;
        if (answer.kind == REFUSED) return refused(driver, &answer);
        if (answer.kind != REPLY || answer.size < 8) return protocol(driver, "no mail");
        driver->lost = get64(answer.body);
        /* images may have come or gone: the next waits are short again */
        in(driver)->glance = GLANCE;
        status = note(driver, answer.body + 8, answer.size - 8);
        if (status != APD_OK) return status;
        count++;
    }
}

/* Reads the answer to a COMMAND. */
static int read_done(struct apd_driver *driver)
{
    struct answer answer;
    int status = receive(driver, &answer);
    if (status != APD_OK) return status;
    if (answer.kind == REFUSED) return refused(driver, &answer);
    return answer.kind == DONE ? APD_OK : protocol(driver, "no answer to a command");
}

/* Takes back what was granted too late; what the driver has no room to hear of now, with the next mail. */
static int take_back(struct apd_driver *driver)
{
    unsigned char request[COMMAND_HEAD + 8];
    char text[sizeof driver->text];
    int32_t code = driver->code;
    memcpy(text, driver->text, sizeof text);
    while (in(driver)->unclaimed > 0) {
        uint32_t last = in(driver)->unclaimed - 1;
        put_command(driver, request, in(driver)->removals[last], sizeof request - HEAD);
        put64(request + COMMAND_HEAD, in(driver)->registrations[last]);
        int status = send_bytes(driver, request, sizeof request);
        if (status == APD_OK) status = read_done(driver);
        if (in(driver)->ended) return status;
        if (status == APD_REFUSED && may_pass(driver->code)) break;
        in(driver)->unclaimed = last;
    }
    /* the caller hears of its own refusals alone */
    say(driver, code, text, strlen(text));
    return APD_OK;
}

/* Takes the replies that are there, or waits for one. How many there were. */
static int take_mail(struct apd_driver *driver, uint32_t wait_ms)
{
    unsigned char request[MAIL_SIZE];
    put_mail(request, wait_ms);
    int status = send_bytes(driver, request, sizeof request);
    if (status == APD_OK) status = read_mail(driver);
    if (in(driver)->ended || in(driver)->answered == APD_NO_REPLY) return status;
    int taken = take_back(driver);
    return taken == APD_OK ? status : taken;
}

int apd_keepalive(struct apd_driver *driver)
{
    int status = take_mail(driver, 0);
    return status < 0 ? status : APD_OK;
}

/* ---- connecting */

static int greeted(struct apd_driver *driver)
{
    struct answer answer;
    int status = receive(driver, &answer);
    if (status != APD_OK) return status;
    if (answer.kind != WELCOME || answer.size != 24) return protocol(driver, "no driver that serves");
    if (get32(answer.body) != VERSION) return protocol(driver, "the driver speaks another version");
    driver->principal = get32(answer.body + 4);
    driver->client = get64(answer.body + 8);
    driver->liveness_ns = get64(answer.body + 16);
    return APD_OK;
}

static int set_timeout(struct apd_driver *driver, uint32_t timeout_ms)
{
    struct timeval limit;
    /* a request may wait in the driver for a second */
    limit.tv_sec = (time_t)(timeout_ms / 1000) + (timeout_ms != 0);
    limit.tv_usec = (suseconds_t)(timeout_ms % 1000 * 1000);
    if (setsockopt(apd_fd(driver), SOL_SOCKET, SO_RCVTIMEO, &limit, sizeof limit) != 0) return -1;
    return setsockopt(apd_fd(driver), SOL_SOCKET, SO_SNDTIMEO, &limit, sizeof limit);
}

/* A socket that no program inherits which this one starts: it would act for the same principal. */
static int socket_of_this_process(void)
{
#ifdef SOCK_CLOEXEC
    return socket(AF_UNIX, SOCK_STREAM | SOCK_CLOEXEC, 0);
#else
    int fd = socket(AF_UNIX, SOCK_STREAM, 0);
    if (fd >= 0) (void)fcntl(fd, F_SETFD, FD_CLOEXEC);
    return fd;
#endif
}

int apd_connect(struct apd_driver *driver, const char *path, void *buffer, size_t size, uint32_t timeout_ms)
{
    struct sockaddr_un address;
    memset(driver, 0, sizeof *driver);
    in(driver)->glance = GLANCE;
    memset(&address, 0, sizeof address);
    address.sun_family = AF_UNIX;
    if (size < APD_BUFFER || strlen(path) >= sizeof address.sun_path) {
        in(driver)->ended = APD_TOO_LARGE;
        return APD_TOO_LARGE;
    }
    memcpy(address.sun_path, path, strlen(path));
    in(driver)->buffer = buffer;
    in(driver)->size = size;
    in(driver)->descriptor = 1 + socket_of_this_process();
    if (apd_fd(driver) < 0 || set_timeout(driver, timeout_ms) != 0) return over(driver, APD_SYSTEM, errno, strerror(errno));
    while (connect(apd_fd(driver), (const struct sockaddr *)&address, sizeof address) != 0)
        if (errno != EINTR) return over(driver, APD_SYSTEM, errno, strerror(errno));
    return greeted(driver);
}

void apd_close(struct apd_driver *driver)
{
    if (apd_fd(driver) >= 0) close(apd_fd(driver));
    in(driver)->descriptor = 0;
    in(driver)->stage = AT_REST;
    in(driver)->subscriptions = NULL;
    if (!in(driver)->ended) {
        say(driver, 0, "closed by this client", 21);
        in(driver)->ended = APD_ENDED;
    }
}

int apd_fd(const struct apd_driver *driver)
{
    return in(driver)->descriptor - 1;
}

/* ---- commands */

/* Waits for the reply to the last command, until `end`. */
static int wait_for_reply(struct apd_driver *driver, uint64_t end)
{
    int answered;
    for (;;) {
        uint32_t left = left_ms(end, 1000);
        int status = take_mail(driver, left);
        if (status < 0 && in(driver)->ended) return status;
        if (in(driver)->answered != APD_NO_REPLY || left == 0) break;
    }
    answered = in(driver)->answered;
    /* a reply that comes from now on comes too late */
    in(driver)->answered = APD_OK;
    return answered;
}

/* Sends a COMMAND of so many parts, again for as long as the driver's queue is full. */
static int hand_on(struct apd_driver *driver, const struct iovec *parts, size_t count, uint64_t end)
{
    struct iovec sent[PARTS];
    for (;;) {
        memcpy(sent, parts, count * sizeof *parts);
        int status = send_parts(driver, sent, count);
        if (status == APD_OK) status = read_done(driver);
        if (status != APD_REFUSED || !may_pass(driver->code) || now_ms() >= end) return status;
        status = take_mail(driver, 2);
        if (status < 0 && in(driver)->ended) return status;
    }
}

/* Gives a command whose fields are `count` parts, PARTS at most, the first of them for its head, and waits for its reply. */
static int command(struct apd_driver *driver, uint32_t type, struct iovec *parts, size_t count, uint32_t wait_ms)
{
    unsigned char head[COMMAND_HEAD];
    size_t size = sizeof head - HEAD;
    for (size_t i = 1; i < count; i++) {
        if (parts[i].iov_len >= LONGEST - size) return APD_TOO_LARGE;
        size += parts[i].iov_len;
    }
    if (in(driver)->ended) return in(driver)->ended;
    put_command(driver, head, type, size);
    in(driver)->answered = APD_NO_REPLY;
    parts[0] = part_of(head, sizeof head);
    uint64_t end = apd_deadline(wait_ms);
    int status = hand_on(driver, parts, count, end);
    if (status == APD_OK) return wait_for_reply(driver, end);
    in(driver)->answered = APD_OK;
    return status;
}

/* A command whose field is a registration. */
static int command_on(struct apd_driver *driver, uint32_t type, uint64_t registration, uint32_t wait_ms)
{
    unsigned char field[8];
    struct iovec parts[2];
    put64(field, registration);
    parts[1] = part_of(field, sizeof field);
    return command(driver, type, parts, 2, wait_ms);
}

/* A command whose fields are these and a text. */
static int command_with(struct apd_driver *driver, uint32_t type, const void *fields, size_t size, const char *text,
                        uint32_t wait_ms)
{
    unsigned char length[4];
    struct iovec parts[4];
    put32(length, (uint32_t)strlen(text));
    parts[1] = part_of(fields, size);
    parts[2] = part_of(length, sizeof length);
    parts[3] = part_of(text, strlen(text));
    return command(driver, type, parts, 4, wait_ms);
}

static int add(struct apd_driver *driver, uint32_t type, const char *channel, int32_t stream, uint32_t wait_ms,
               uint64_t *registration)
{
    unsigned char fields[4];
    put32(fields, (uint32_t)stream);
    int status = command_with(driver, type, fields, sizeof fields, channel, wait_ms);
    if (status == APD_OK) *registration = in(driver)->registration;
    return status;
}

int apd_add_publication(struct apd_driver *driver, const char *channel, int32_t stream, uint32_t wait_ms,
                        uint64_t *registration)
{
    return add(driver, 0x01, channel, stream, wait_ms, registration);
}

int apd_add_exclusive_publication(struct apd_driver *driver, const char *channel, int32_t stream, uint32_t wait_ms,
                                  uint64_t *registration)
{
    return add(driver, 0x03, channel, stream, wait_ms, registration);
}

int apd_remove_publication(struct apd_driver *driver, uint64_t registration, uint32_t wait_ms)
{
    return command_on(driver, 0x02, registration, wait_ms);
}

int apd_add_destination(struct apd_driver *driver, uint64_t registration, const char *channel, uint32_t wait_ms)
{
    unsigned char field[8];
    put64(field, registration);
    return command_with(driver, 0x07, field, sizeof field, channel, wait_ms);
}

int apd_remove_destination(struct apd_driver *driver, uint64_t registration, const char *channel, uint32_t wait_ms)
{
    unsigned char field[8];
    put64(field, registration);
    return command_with(driver, 0x08, field, sizeof field, channel, wait_ms);
}

int apd_add_counter(struct apd_driver *driver, int32_t type_id, const void *key, size_t key_size, const char *label,
                    uint32_t wait_ms, uint64_t *registration)
{
    unsigned char fields[8], length[4];
    struct iovec parts[5];
    put32(fields, (uint32_t)type_id);
    put32(fields + 4, (uint32_t)key_size);
    put32(length, (uint32_t)strlen(label));
    parts[1] = part_of(fields, sizeof fields);
    parts[2] = part_of(key, key_size);
    parts[3] = part_of(length, sizeof length);
    parts[4] = part_of(label, strlen(label));
    int status = command(driver, 0x09, parts, 5, wait_ms);
    if (status == APD_OK) *registration = in(driver)->registration;
    return status;
}

int apd_set_counter(struct apd_driver *driver, uint64_t registration, int64_t value, uint32_t wait_ms)
{
    unsigned char fields[16];
    struct iovec parts[2];
    put64(fields, registration);
    put64(fields + 8, (uint64_t)value);
    parts[1] = part_of(fields, sizeof fields);
    return command(driver, 0x1001, parts, 2, wait_ms);
}

int apd_remove_counter(struct apd_driver *driver, uint64_t registration, uint32_t wait_ms)
{
    return command_on(driver, 0x0A, registration, wait_ms);
}

int apd_terminate(struct apd_driver *driver, uint32_t wait_ms)
{
    return command_with(driver, 0x0E, "", 0, "", wait_ms);
}

/* ---- offers */

static void put_offer(struct apd_driver *driver, unsigned char *at, uint64_t registration, size_t size, uint32_t wait_ms)
{
    put_head(at, OFFER, OFFER_HEAD - HEAD + size);
    put32(at + 8, in(driver)->refusals);
    put32(at + 12, wait_ms);
    put64(at + 16, registration);
}

/* Sends some offers in one call of the system: how many. */
static int send_offers(struct apd_driver *driver, uint64_t registration, const struct apd_message *messages, size_t count,
                       uint32_t wait_ms)
{
    unsigned char heads[AT_ONCE][OFFER_HEAD];
    struct iovec parts[2 * AT_ONCE];
    size_t sent = 0, bytes = 0;
    while (sent < count && sent < AT_ONCE && bytes < AHEAD_BYTES) {
        put_offer(driver, heads[sent], registration, messages[sent].size, wait_ms);
        parts[2 * sent] = part_of(heads[sent], OFFER_HEAD);
        parts[2 * sent + 1] = part_of(messages[sent].data, messages[sent].size);
        bytes += messages[sent].size;
        sent++;
    }
    int status = send_parts(driver, parts, 2 * sent);
    return status == APD_OK ? (int)sent : status;
}

/* What came of offers so far: after one that was refused no other one is taken. */
struct offered {
    size_t taken;
    uint64_t position; /* after the last one that was taken */
    int result;        /* APD_REFUSED once one was refused */
};

/* Reads the answer to an offer. */
static int read_offer(struct apd_driver *driver, struct offered *offered)
{
    struct answer answer;
    int status = receive(driver, &answer);
    if (status != APD_OK) return status;
    if (answer.kind == TAKEN && answer.size == 8 && offered->result == APD_OK) {
        offered->taken++;
        offered->position = get64(answer.body);
    } else if (answer.kind == REFUSED && answer.size >= 4 && offered->result == APD_OK) {
        offered->result = refused(driver, &answer);
        in(driver)->refusals++;
        if (driver->code == APD_CODE_SKIPPED) return protocol(driver, "skipped, and nothing was refused");
    } else if (answer.kind != REFUSED || answer.size < 4 || signed32(get32(answer.body)) != APD_CODE_SKIPPED) {
        return protocol(driver, "no answer to an offer");
    }
    return APD_OK;
}

/* Sends offers ahead, and reads the answers of earlier ones meanwhile, until all are answered or one is not taken. What it
   returns is of the connection; whether one was refused is in `offered`. */
static int offer_some(struct apd_driver *driver, uint64_t registration, const struct apd_message *messages, size_t count,
                      uint32_t wait_ms, struct offered *offered)
{
    size_t sent = 0, answered = 0, bytes = 0;
    while (answered < sent || (sent < count && offered->result == APD_OK)) {
        /* so much is under way that the older half is read: the driver goes on with the others meanwhile */
        size_t half = sent - answered < AHEAD && bytes < AHEAD_BYTES ? sent : answered + (sent - answered + 1) / 2;
        int status = APD_OK;
        if (half == sent && sent < count && offered->result == APD_OK) {
            int more = send_offers(driver, registration, messages + sent, count - sent, wait_ms);
            if (more < 0) return more;
            for (int i = 0; i < more; i++) bytes += messages[sent++].size;
            continue;
        }
        for (; answered < half && status == APD_OK; answered++) {
            status = read_offer(driver, offered);
            bytes -= messages[answered].size;
        }
        if (status != APD_OK) return status;
    }
    return APD_OK;
}

int apd_offer_all(struct apd_driver *driver, uint64_t registration, const struct apd_message *messages, size_t count,
                  uint32_t wait_ms, size_t *taken, uint64_t *position)
{
    struct offered offered = {0, 0, APD_OK};
    uint64_t end = apd_deadline(wait_ms);
    int status = APD_OK;
    for (size_t i = 0; i < count; i++)
        if (messages[i].size > LONGEST - (OFFER_HEAD - 4)) status = APD_TOO_LARGE;
    while (status == APD_OK && offered.taken < count) {
        size_t before = offered.taken;
        offered.result = APD_OK;
        status = offer_some(driver, registration, messages + before, count - before, left_ms(end, 1000), &offered);
        if (offered.taken != before) end = apd_deadline(wait_ms);
        if (offered.result == APD_REFUSED && (!may_pass(driver->code) || now_ms() >= end)) break;
    }
    if (taken != NULL) *taken = offered.taken;
    if (position != NULL && offered.taken > 0) *position = offered.position;
    return status == APD_OK ? offered.result : status;
}

int apd_offer(struct apd_driver *driver, uint64_t registration, const void *message, size_t size, uint32_t wait_ms,
              uint64_t *position)
{
    struct apd_message one;
    one.data = message;
    one.size = size;
    return apd_offer_all(driver, registration, &one, 1, wait_ms, NULL, position);
}

/* ---- subscriptions */

int apd_add_subscription(struct apd_driver *driver, const char *channel, int32_t stream, uint32_t wait_ms,
                         struct apd_image *images, size_t room, struct apd_subscription *subscription)
{
    unsigned char fields[12];
    if (in(driver)->stage != AT_REST) return APD_IN_USE;
    for (const struct apd_subscription *at = in(driver)->subscriptions; at != NULL; at = next_of(at))
        if (at == subscription) return APD_IN_USE;
    memset(subscription, 0, sizeof *subscription);
    subscription->images = images;
    subscription->room = room;
    put64(fields, UINT64_MAX);
    put32(fields + 8, (uint32_t)stream);
    in(driver)->joining = subscription;
    int status = command_with(driver, 0x04, fields, sizeof fields, channel, wait_ms);
    in(driver)->joining = NULL;
    return status;
}

int apd_remove_subscription(struct apd_driver *driver, struct apd_subscription *subscription, uint32_t wait_ms)
{
    struct apd_subscription *before = in(driver)->subscriptions;
    if (in(driver)->stage != AT_REST) return APD_IN_USE;
    while (before != NULL && next_of(before) != subscription) before = next_of(before);
    if (before != NULL) before->inside[NEXT] = next_of(subscription);
    else if (in(driver)->subscriptions == subscription) in(driver)->subscriptions = next_of(subscription);
    subscription->count = 0;
    return command_on(driver, 0x05, subscription->registration, wait_ms);
}

/* ---- polls */

/* A round of polls: one of each image of a subscription, or of all of them, and then the mail. */
struct round {
    struct apd_subscription *subscription; /* NULL for all */
    uint32_t limit;
    uint32_t wait_ms;
    apd_on_fragment *on_fragment;
    void *context;
    int fragments; /* that were handed over so far */
    int refusals;  /* of this round */
    int32_t denied; /* the code of a refusal that the caller hears of */
    char text[sizeof ((struct apd_driver *)0)->text];
};

/* How many images a round may poll. */
static size_t images_of(const struct apd_driver *driver, const struct round *round)
{
    size_t count = 0;
    if (round->subscription != NULL) return round->subscription->count;
    for (const struct apd_subscription *at = in(driver)->subscriptions; at != NULL; at = next_of(at)) count += at->count;
    return count;
}

/* How many images a round polls. */
static size_t pairs_of(const struct apd_driver *driver, const struct round *round)
{
    size_t count = images_of(driver, round);
    return count < PAIRS ? count : PAIRS;
}

/* The subscription and the image whose turn is at that place of the round: another one is the first each time. */
static struct apd_image *image_at(struct apd_driver *driver, const struct round *round, size_t place,
                                  struct apd_subscription **subscription)
{
    size_t left = (in(driver)->turn + place) % images_of(driver, round);
    *subscription = round->subscription != NULL ? round->subscription : in(driver)->subscriptions;
    while (left >= (*subscription)->count) {
        left -= (*subscription)->count;
        *subscription = next_of(*subscription);
    }
    return &(*subscription)->images[left];
}

static int send_polls(struct apd_driver *driver, const struct round *round)
{
    unsigned char requests[POLL_HEAD + PAIRS * PAIR_SIZE + MAIL_SIZE];
    size_t count = pairs_of(driver, round);
    unsigned char *at = requests + POLL_HEAD;
    put_head(requests, POLL_ALL, POLL_HEAD - HEAD + count * PAIR_SIZE);
    put32(requests + 8, round->limit);
    put32(requests + 12, round->wait_ms);
    for (size_t i = 0; i < count; i++, at += PAIR_SIZE) {
        struct apd_subscription *subscription;
        const struct apd_image *image = image_at(driver, round, i, &subscription);
        put64(at, subscription->registration);
        put64(at + 8, image->source);
    }
    put_mail(at, 0);
    return send_bytes(driver, requests, (size_t)(at + MAIL_SIZE - requests));
}

/* The caller hears of this refusal. */
static void deny(struct apd_driver *driver, struct round *round)
{
    round->denied = driver->code;
    memcpy(round->text, driver->text, sizeof round->text);
}

/* What the driver had no memory to send is lost: of that image, or of any. */
static void lose(struct apd_driver *driver, struct apd_image *image)
{
    uint64_t stretch = ++in(driver)->stretches;
    for (struct apd_subscription *at = in(driver)->subscriptions; at != NULL; at = next_of(at))
        for (size_t i = 0; i < at->count; i++)
            if (image == NULL || image == &at->images[i]) at->images[i].inside[STRETCH] = stretch;
}

/* A poll was refused. */
static int poll_refused(struct apd_driver *driver, struct round *round, struct apd_image *image,
                        const struct answer *answer)
{
    int status = refused(driver, answer);
    if (status != APD_REFUSED) return status;
    round->refusals++;
    if (driver->code == APD_CODE_NO_MEMORY) lose(driver, image);
    if (driver->code == APD_CODE_CLOSED && image != NULL) {
        image->inside[CLOSED] = 1;
    } else if (driver->code != APD_CODE_NO_LOOK) {
        deny(driver, round);
    }
    return APD_OK;
}

/* Hands a fragment of an image over. */
static int hand_over(struct apd_driver *driver, struct round *round, const struct answer *answer)
{
    struct apd_fragment fragment;
    if (answer->size < 12) return protocol(driver, "no fragment");
    fragment.source = in(driver)->image->source;
    fragment.position = get64(answer->body);
    fragment.flags = get32(answer->body + 8);
    fragment.payload = answer->body + 12;
    fragment.size = answer->size - 12;
    fragment.subscription = in(driver)->polled->registration;
    fragment.inside = in(driver)->image->inside[STRETCH];
    round->fragments++;
    round->on_fragment(round->context, &fragment);
    return APD_OK;
}

/* Reads what the images gave: the place of each stands before it. */
static int read_polls(struct apd_driver *driver, struct round *round)
{
    struct answer answer;
    for (;;) {
        int status = receive(driver, &answer);
        if (status != APD_OK) return status;
        if (answer.kind == DONE) return APD_OK;
        if (answer.kind == PART && answer.size == 4 && get32(answer.body) < pairs_of(driver, round))
            in(driver)->image = image_at(driver, round, get32(answer.body), &in(driver)->polled);
        else if (answer.kind == FRAGMENT && in(driver)->image != NULL)
            status = hand_over(driver, round, &answer);
        else if (answer.kind == PART_REFUSED && in(driver)->image != NULL)
            status = poll_refused(driver, round, in(driver)->image, &answer);
        else if (answer.kind == REFUSED)
            return poll_refused(driver, round, NULL, &answer);
        else
            return protocol(driver, "no answer to a poll");
        if (status != APD_OK) return status;
    }
}

/* The images that are closed go. */
static void forget_closed(struct apd_driver *driver)
{
    for (struct apd_subscription *at = in(driver)->subscriptions; at != NULL; at = next_of(at)) {
        size_t kept = 0;
        for (size_t i = 0; i < at->count; i++)
            if (!at->images[i].inside[CLOSED]) at->images[kept++] = at->images[i];
        at->count = kept;
    }
}

/* The mail of a round was read, or was refused. */
static int end_round(struct apd_driver *driver, struct round *round, int status)
{
    if (in(driver)->ended) return status;
    if (status == APD_REFUSED && driver->code == APD_CODE_NO_MEMORY && round->denied == 0) deny(driver, round);
    status = take_back(driver);
    if (status != APD_OK) return status;
    if (round->fragments > 0) in(driver)->glance = GLANCE;
    if (round->denied == 0) return APD_OK;
    say(driver, round->denied, round->text, strlen(round->text));
    return APD_REFUSED;
}

/* Polls each image once, and takes the mail. */
static int poll_round(struct apd_driver *driver, struct round *round)
{
    round->refusals = 0;
    in(driver)->turn++;
    in(driver)->image = NULL;
    int status = send_polls(driver, round);
    if (status == APD_OK) status = read_polls(driver, round);
    if (status != APD_OK) return status;
    forget_closed(driver);
    return end_round(driver, round, read_mail(driver));
}

/* How long the driver waits next; longer each time, for as long as nothing comes. */
static uint32_t glance(struct apd_driver *driver, uint64_t end)
{
    uint32_t now = in(driver)->glance;
    in(driver)->glance = now < LONG_GLANCE / 2 ? 2 * now : LONG_GLANCE;
    return left_ms(end, now);
}

/* Polls once, and waits a while in the driver where nothing is there. */
static int poll_once(struct apd_driver *driver, struct round *round, uint64_t end)
{
    if (images_of(driver, round) == 0) return take_mail(driver, left_ms(end, 1000));
    round->wait_ms = glance(driver, end);
    int status = poll_round(driver, round);
    if (status != APD_OK || round->fragments > 0 || round->refusals == 0) return status;
    return take_mail(driver, left_ms(end, 1));
}

int apd_poll(struct apd_driver *driver, struct apd_subscription *subscription, uint32_t limit, uint32_t wait_ms,
             apd_on_fragment *on_fragment, void *context)
{
    struct round round;
    uint64_t end = apd_deadline(wait_ms);
    memset(&round, 0, sizeof round);
    round.subscription = subscription;
    round.limit = limit;
    round.on_fragment = on_fragment;
    round.context = context;
    for (;;) {
        int status = poll_once(driver, &round, end);
        if (status == APD_IN_USE || (status < 0 && (in(driver)->ended || round.denied != 0))) return status;
        if (round.fragments > 0 || left_ms(end, 1) == 0) return round.fragments;
    }
}

/* ---- loops of events */

int apd_begin(struct apd_driver *driver, uint32_t limit, uint32_t wait_ms)
{
    struct round round;
    unsigned char request[MAIL_SIZE];
    int status;
    if (wait_ms > LONG_GLANCE) wait_ms = LONG_GLANCE;
    memset(&round, 0, sizeof round);
    round.limit = limit;
    round.wait_ms = wait_ms;
    in(driver)->turn++;
    in(driver)->image = NULL;
    put_mail(request, wait_ms);
    if (images_of(driver, &round) > 0) {
        status = send_polls(driver, &round);
        if (status == APD_OK) in(driver)->stage = IN_POLLS;
    } else {
        status = send_bytes(driver, request, sizeof request);
        if (status == APD_OK) in(driver)->stage = IN_MAIL;
    }
    return status;
}

/* Reads what has come of the answer to apd_begin. */
static int read_begun(struct apd_driver *driver, struct round *round)
{
    int status = APD_OK;
    if (in(driver)->stage == IN_POLLS) {
        status = read_polls(driver, round);
        if (status == APD_OK) {
            in(driver)->stage = IN_MAIL;
            forget_closed(driver);
        }
    }
    return status == APD_OK ? read_mail(driver) : status;
}

int apd_work(struct apd_driver *driver, apd_on_fragment *on_fragment, void *context)
{
    struct round round;
    int status;
    if (in(driver)->ended) return in(driver)->ended;
    if (in(driver)->stage == AT_REST)
        return now_ms() - in(driver)->spoke_ms < driver->liveness_ns / 4000000 ? APD_OK : apd_keepalive(driver);
    memset(&round, 0, sizeof round);
    round.on_fragment = on_fragment;
    round.context = context;
    in(driver)->peeks = 1;
    status = read_begun(driver, &round);
    in(driver)->peeks = 0;
    if (status != NOT_YET || in(driver)->ended) in(driver)->stage = AT_REST;
    if (status == NOT_YET && round.denied == 0) return 1;
    if (status != NOT_YET) return end_round(driver, &round, status);
    /* said as soon as it is there: the next call goes on with the rest */
    say(driver, round.denied, round.text, strlen(round.text));
    return APD_REFUSED;
}

int apd_is_waiting(const struct apd_driver *driver)
{
    return in(driver)->stage != AT_REST;
}

void apd_joiner_init(struct apd_joiner *joiner, void *room, size_t size)
{
    memset(joiner, 0, sizeof *joiner);
    joining_of(joiner)->room = room;
    joining_of(joiner)->size = size;
}

/* Whether nothing was lost before a fragment that begins there. Between messages the rest of a term may be filled. */
static int follows(const struct joining *joiner, uint64_t begins, uint64_t stretch)
{
    if (!joiner->known || begins == joiner->position) return 1;
    return !joiner->begun && stretch == joiner->stretch && begins > joiner->position && begins % LEAST_TERM == 0;
}

/* Puts a fragment behind those before it: what apd_join returns. */
static int put_behind(struct joining *joiner, const struct apd_fragment *fragment)
{
    if (fragment->flags & APD_BEGIN) {
        joiner->begun = 1;
        joiner->have = 0;
    }
    if (!joiner->begun) return 0;
    joiner->begun = 0;
    if (fragment->size > joiner->size - joiner->have) return APD_TOO_LARGE;
    if (fragment->size > 0) memcpy(joiner->room + joiner->have, fragment->payload, fragment->size);
    joiner->have += fragment->size;
    joiner->begun = (fragment->flags & APD_END) == 0;
    return !joiner->begun;
}

int apd_join(struct apd_joiner *of, const struct apd_fragment *fragment, const void **message, size_t *size)
{
    struct joining *joiner = joining_of(of);
    uint64_t begins = fragment->position - ((32 + (uint64_t)fragment->size + 31) & ~(uint64_t)31);
    int joined;
    joiner->known = follows(joiner, begins, fragment->inside);
    joiner->position = fragment->position;
    joiner->stretch = fragment->inside;
    if (!joiner->known) {
        joiner->begun = 0;
        return APD_GAP;
    }
    if ((fragment->flags & APD_BEGIN) && (fragment->flags & APD_END)) {
        joiner->begun = 0;
        *message = fragment->payload;
        *size = fragment->size;
        return 1;
    }
    joined = put_behind(joiner, fragment);
    if (joined == 1) {
        *message = joiner->room;
        *size = joiner->have;
    }
    return joined;
}

/* ---- looks */

int apd_list(struct apd_driver *driver, apd_on_row *on_row, void *context)
{
    unsigned char request[HEAD];
    struct answer answer;
    struct apd_row row;
    put_head(request, LIST, 0);
    int status = send_bytes(driver, request, sizeof request);
    for (int count = 0; status == APD_OK; count++) {
        status = receive(driver, &answer);
        if (status != APD_OK) return status;
        if (answer.kind == DONE) return count;
        if (answer.kind == REFUSED) return refused(driver, &answer);
        if (answer.kind != ROW || answer.size < 20) return protocol(driver, "no row");
        row.number = get64(answer.body);
        row.type_id = signed32(get32(answer.body + 8));
        row.value = signed64(get64(answer.body + 12));
        row.label = (const char *)(answer.body + 20);
        row.label_size = answer.size - 20;
        on_row(context, &row);
    }
    return status;
}

int apd_value(struct apd_driver *driver, uint64_t number, int64_t *value)
{
    unsigned char request[HEAD + 8];
    struct answer answer;
    put_head(request, VALUE, 8);
    put64(request + 8, number);
    int status = send_bytes(driver, request, sizeof request);
    if (status == APD_OK) status = receive(driver, &answer);
    if (status != APD_OK) return status;
    if (answer.kind == REFUSED) return refused(driver, &answer);
    if (answer.kind != VALUE_IS || answer.size != 8) return protocol(driver, "no value");
    *value = signed64(get64(answer.body));
    return APD_OK;
}

/* Sends a request, and takes the one record that answers it: of that kind and size, or a refusal. */
static int ask(struct apd_driver *driver, const void *request, size_t size, uint32_t kind, size_t fields,
               struct answer *answer)
{
    int status = send_bytes(driver, request, size);
    if (status == APD_OK) status = receive(driver, answer);
    if (status != APD_OK) return status;
    if (answer->kind == REFUSED) return refused(driver, answer);
    if (answer->kind != kind || answer->size != fields) return protocol(driver, "no positions");
    return APD_OK;
}

int apd_publication_positions(struct apd_driver *driver, uint64_t registration, struct apd_publication_positions *positions)
{
    unsigned char request[HEAD + 8];
    struct answer answer;
    put_head(request, PUBLICATION_POSITIONS, 8);
    put64(request + 8, registration);
    int status = ask(driver, request, sizeof request, PUBLICATION_IS, 36, &answer);
    if (status != APD_OK) return status;
    uint32_t flags = get32(answer.body + 32);
    positions->position = get64(answer.body);
    positions->limit = get64(answer.body + 8);
    positions->sent = get64(answer.body + 16);
    positions->consumed = get64(answer.body + 24);
    positions->connected = (flags & 1u) != 0;
    positions->heard = (flags & 2u) != 0;
    return APD_OK;
}

int apd_image_positions(struct apd_driver *driver, uint64_t subscription, uint64_t source,
                        struct apd_image_positions *positions)
{
    unsigned char request[HEAD + 16];
    struct answer answer;
    put_head(request, IMAGE_POSITIONS, 16);
    put64(request + 8, subscription);
    put64(request + 16, source);
    int status = ask(driver, request, sizeof request, IMAGE_IS, 24, &answer);
    if (status != APD_OK) return status;
    positions->joined = get64(answer.body);
    positions->position = get64(answer.body + 8);
    positions->received = get64(answer.body + 16);
    return APD_OK;
}
