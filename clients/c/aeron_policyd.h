/* A client of `aeron_policyd serve`, in C99 with POSIX sockets and no other library. docs/SERVICE.md has the records.

   A driver that serves has a Unix socket for each principal, and whoever may open the socket acts for its principal.

   Memory. No call takes memory from the system, but for what the C library does by itself. The caller owns every struct,
   buffer and array that a call is handed, and keeps it where it is until the call says that it is done with it. `inside` of a
   struct is this client's own, and has room for what later versions need, so that structs are as long in all of one major number.

   Threads. A connection, with all that was added by it, belongs to one thread at a time. Connections share nothing.

   Signals. SIGPIPE is not raised. A call that a signal interrupts goes on.

   Times are in milliseconds. Where a call waits, 0 is not at all, and APD_FOREVER without end. Positions are bytes of a stream. */
#ifndef AERON_POLICYD_H
#define AERON_POLICYD_H

#include <stddef.h>
#include <stdint.h>

#ifdef __cplusplus
extern "C" {
#endif

/* Of this header. A library of the same major number, and of no lower minor one, has all that is here. */
#define APD_VERSION_MAJOR 1
#define APD_VERSION_MINOR 1
#define APD_VERSION_PATCH 0
#define APD_VERSION "1.1.0"

/* The version of the library that runs, as APD_VERSION is that of the header. */
const char *apd_version(void);

#define APD_FOREVER UINT32_MAX

/* The moment that is so long from now, and how long it is until then: apd_left(deadline) as the wait of several calls, one after
   the other, ends them all by that moment. */
uint64_t apd_deadline(uint32_t wait_ms);
uint32_t apd_left(uint64_t deadline);

/* What calls return: APD_OK, or a number of something where the call says so, or one of the others, which are negative.
   Each call may return any of them that it names; all that speak to the driver may also return those marked *. */
enum apd_status {
    APD_OK = 0,
    /* * The driver refused the request: `code` and `text` of the connection say why. The connection goes on. */
    APD_REFUSED = -1,
    /* * The connection is over: `code` and `text` are the driver's last word, or 0 and words of this client where the driver
         said nothing, as where it was killed or took longer than the timeout. Only apd_close is of use then. */
    APD_ENDED = -2,
    /* * The system failed: `code` is its errno, and the connection is over. */
    APD_SYSTEM = -3,
    /* * What came is not version 1 of the protocol, and the connection is over. */
    APD_PROTOCOL = -4,
    /* A command was not answered in time. Where it is granted all the same, a later call takes back what it added. */
    APD_NO_REPLY = -5,
    /* An argument is larger than it may be, and nothing was sent. */
    APD_TOO_LARGE = -6,
    /* What the call was handed is in use, and nothing was sent: the struct of a subscription is one already, or the answer to
       apd_begin has not come whole. */
    APD_IN_USE = -7,
    /* Of apd_join: something of the source was lost. */
    APD_GAP = -8
};

/* What a status says, in words. */
const char *apd_status_text(int status);

/* Codes of refusals and of last words. docs/codes.txt is the list. */
enum apd_code {
    APD_CODE_NO_SUBSCRIBER = -1,
    APD_CODE_BACK_PRESSURE = -2,
    APD_CODE_OFFER_AGAIN = -3,
    APD_CODE_CLOSED = -4,
    APD_CODE_MAX_POSITION = -5,
    APD_CODE_SKIPPED = -6,
    APD_CODE_INVALID_CHANNEL = 1,
    APD_CODE_UNKNOWN_SUBSCRIPTION = 2,
    APD_CODE_UNKNOWN_PUBLICATION = 3,
    APD_CODE_UNKNOWN_COUNTER = 5,
    APD_CODE_UNKNOWN_REQUEST = 6,
    APD_CODE_MALFORMED_REQUEST = 7,
    APD_CODE_TOO_LONG = 8,
    APD_CODE_DENIED = 1001, /* `text` is as "denied by rule 3 in policy 1", or "denied by default in policy 1" */
    APD_CODE_NO_MEMORY = 1002,
    APD_CODE_FULL = 1003,
    APD_CODE_CLIENT_GONE = 1004,
    APD_CODE_CONFLICT = 1005,
    APD_CODE_NO_ROOM = 1006,
    APD_CODE_NO_LOOK = 1007,
    APD_CODE_QUEUE_FULL = 1008,
    APD_CODE_NOT_OPERATOR = 1009,
    APD_CODE_STOPPED = 1010,
    /* The principal has as many as it may of publications, pages for their logs, subscriptions, or counters. */
    APD_CODE_BOUND_PUBLICATIONS = 1011,
    APD_CODE_BOUND_PAGES = 1012,
    APD_CODE_BOUND_SUBSCRIPTIONS = 1013,
    APD_CODE_BOUND_COUNTERS = 1014,
    APD_CODE_USED_CORRELATION = 1015,
    APD_CODE_POLLS_NOTHING = 1016
};

/* The code in words, as the driver has them; "unknown code" for any other number. Of a denial the verdict is in `text`. */
const char *apd_code_text(int32_t code);

/* How many additions that were granted too late may wait to be taken back; where there are more, the connection ends. */
#define APD_UNCLAIMED 32

/* How many bytes a connection's buffer has at least. More makes fewer calls of the system. */
#define APD_BUFFER 65536

/* Flags of the first and of the last fragment of a message. */
#define APD_BEGIN 0x80u
#define APD_END 0x40u

/* A source that a subscription reads. */
struct apd_image {
    uint64_t source;
    uint64_t position; /* from which on it is read */
    int32_t session;
    int32_t stream;
    uint64_t inside[4];
};

/* A subscription. The first `count` of `images` are the sources that it reads, as far as the mail that was taken says. */
struct apd_subscription {
    uint64_t registration;
    struct apd_image *images; /* the caller's */
    size_t room;              /* how many images there is room for */
    size_t count;
    uint64_t missed; /* how many images found no room: nobody reads them, and they hold up their publishers */
    void *inside[4];
};

/* A connection. */
struct apd_driver {
    uint32_t principal;   /* for whom the client acts */
    uint64_t client;      /* its id, which is never given again */
    uint64_t liveness_ns; /* for how long the client may send nothing, in nanoseconds */
    uint64_t lost;        /* how many replies found no room in the driver: images may have come or gone unnoticed */
    int32_t code;         /* of the last APD_REFUSED, APD_ENDED or APD_SYSTEM */
    char text[128];       /* the same in words, cut to fit, with a zero at the end */
    union {
        uint64_t words[128];
        void *pointer;
    } inside;
};

/* Connects by the socket at `path`, for its principal. The buffer has `size` bytes, APD_BUFFER at least, and is in use until
   apd_close. `timeout_ms` is how long the driver may take for an answer, beyond the wait of a request; 0 is without end.

   APD_OK, or APD_TOO_LARGE (a path of more than 107 bytes, or a buffer that is too small), APD_SYSTEM (such as EACCES: this
   user may not; ENOENT or ECONNREFUSED: nobody serves there), APD_ENDED (such as the code APD_CODE_FULL), APD_PROTOCOL. After
   each of these, apd_close may be called and need not be. */
int apd_connect(struct apd_driver *driver, const char *path, void *buffer, size_t size, uint32_t timeout_ms);

/* Closes the connection. The driver takes back all that the client has. It may be called again. */
void apd_close(struct apd_driver *driver);

/* A command is given, and its reply is waited for, `wait_ms` at most: APD_OK, APD_NO_REPLY, APD_TOO_LARGE (a text of 16 MiB
   or more), or * above. APD_REFUSED has the code of the reply where the driver took the command and refused it then.

   Channels and labels are ASCII texts with a zero at the end, and are not kept. Registrations are numbers of the driver's. */

/* Adds a publication, or joins the one that is there; or one with a log of its own. `*registration` gets its number. */
int apd_add_publication(struct apd_driver *driver, const char *channel, int32_t stream, uint32_t wait_ms,
                        uint64_t *registration);
int apd_add_exclusive_publication(struct apd_driver *driver, const char *channel, int32_t stream, uint32_t wait_ms,
                                  uint64_t *registration);
int apd_remove_publication(struct apd_driver *driver, uint64_t registration, uint32_t wait_ms);

/* Adds or takes back a destination of a publication with control-mode=manual. */
int apd_add_destination(struct apd_driver *driver, uint64_t registration, const char *channel, uint32_t wait_ms);
int apd_remove_destination(struct apd_driver *driver, uint64_t registration, const char *channel, uint32_t wait_ms);

/* Adds a subscription, with room for so many images. The struct and the array are in use until the subscription is removed
   or the connection closed, and the struct must not be moved. Where the call does not return APD_OK they are not in use, but
   for APD_IN_USE: then the struct is a subscription of this connection already, which goes on. */
int apd_add_subscription(struct apd_driver *driver, const char *channel, int32_t stream, uint32_t wait_ms,
                         struct apd_image *images, size_t room, struct apd_subscription *subscription);
/* Takes it back; whatever the call returns, the struct and the array are not in use any more. */
int apd_remove_subscription(struct apd_driver *driver, struct apd_subscription *subscription, uint32_t wait_ms);

/* Adds a counter with the value 0. The key has `key_size` bytes, 112 at most, and may be NULL where that is 0. */
int apd_add_counter(struct apd_driver *driver, int32_t type_id, const void *key, size_t key_size, const char *label,
                    uint32_t wait_ms, uint64_t *registration);
int apd_set_counter(struct apd_driver *driver, uint64_t registration, int64_t value, uint32_t wait_ms);
int apd_remove_counter(struct apd_driver *driver, uint64_t registration, uint32_t wait_ms);

/* Ends the driver for all its clients, where the policy allows `terminate`. APD_ENDED says that it stopped before its reply. */
int apd_terminate(struct apd_driver *driver, uint32_t wait_ms);

/* Offers a message of `size` bytes, which may be NULL where that is 0. It waits for `wait_ms` at most while nobody reads the
   log or its slowest reader has too much left. `*position` gets that of the stream after the message; it may be NULL.

   APD_OK, APD_TOO_LARGE (16 MiB or more), or * above. APD_REFUSED has the codes of enum apd_code; the message was not taken. */
int apd_offer(struct apd_driver *driver, uint64_t registration, const void *message, size_t size, uint32_t wait_ms,
              uint64_t *position);

/* A message that is offered with others. */
struct apd_message {
    const void *data;
    size_t size;
};

/* Offers messages in their order, many of them sent before the first is answered. It ends where all are taken, where one is
   refused for good, and where none was taken for `wait_ms`. `*taken` gets how many were, from the first on, and none after
   them; `*position` that after the last of them, if any was. Either may be NULL. What it returns is as of apd_offer; after
   APD_ENDED and APD_SYSTEM more messages may have been taken than `*taken` says. */
int apd_offer_all(struct apd_driver *driver, uint64_t registration, const struct apd_message *messages, size_t count,
                  uint32_t wait_ms, size_t *taken, uint64_t *position);

/* A fragment of a message: all of it where both flags are set. The payload lies in the connection's buffer, until the
   function that was handed it returns. */
struct apd_fragment {
    uint64_t source;
    uint64_t position; /* of the source after it */
    uint32_t flags;
    const void *payload;
    size_t size;
    uint64_t subscription; /* the registration of the one that reads it */
    uint64_t inside;
};

/* It must not call anything here with the same connection, but apd_join. */
typedef void apd_on_fragment(void *context, const struct apd_fragment *fragment);

/* Hands fragments that came to `on_fragment`: `limit` at most of each source, in their order and without a gap. It takes mail
   too, by which sources come and go. Where nothing came it waits for `wait_ms` at most.

   How many fragments were handed over, or * above; some may have been handed over then as well. APD_REFUSED with
   APD_CODE_DENIED says that the policy denies reading; the subscription keeps its place. */
int apd_poll(struct apd_driver *driver, struct apd_subscription *subscription, uint32_t limit, uint32_t wait_ms,
             apd_on_fragment *on_fragment, void *context);

/* Loops that wait for several things at once, as by poll or epoll. The driver sends nothing unasked, so there is a request that
   waits there: apd_begin sends it and returns at once, and apd_fd is readable once its answer comes, or the connection ends. Then
   apd_work takes what has come. Until it has taken the whole answer, each other call but apd_close returns APD_IN_USE. */

/* The descriptor to wait for, until it can be read; -1 where the connection is over, and of a struct of zeros. */
int apd_fd(const struct apd_driver *driver);

/* Asks for messages of all subscriptions, `limit` fragments at most of each source; the answer comes once there are any, and
   after `wait_ms` at the latest, of which more than 1,000 count as 1,000. A source that comes is heard of at the end of the wait.
   APD_OK, APD_IN_USE, or * above. */
int apd_begin(struct apd_driver *driver, uint32_t limit, uint32_t wait_ms);

/* Takes what has come of that answer, hands its fragments over, and waits for no more. 0 (APD_OK): the answer was whole, and other
   calls may be made, as apd_begin again; 1: some of it is still to come; or * above, where APD_REFUSED is as of apd_poll, and some
   of the answer may still be to come, as apd_is_waiting says.

   Where nothing was begun it gives a sign of life once a quarter of the liveness has passed without a request, so that a loop
   that does other things calls it now and then. */
int apd_work(struct apd_driver *driver, apd_on_fragment *on_fragment, void *context);

/* Whether an answer to apd_begin is still to come. */
int apd_is_waiting(const struct apd_driver *driver);

/* Puts the fragments of one source together. */
struct apd_joiner {
    union {
        uint64_t words[16];
        void *pointer;
    } inside;
};

/* A joiner for messages of at most `size` bytes, in that room; a message of one fragment takes none of it. */
void apd_joiner_init(struct apd_joiner *joiner, void *room, size_t size);

/* Takes the next fragment. 1: a message is whole, and `*message` and `*size` are where it lies, until the next fragment and
   no longer than the fragment; 0: not yet, or a fragment without a beginning, which is left out; APD_TOO_LARGE: there is no
   room for the message, which is left out up to the next one; APD_GAP: something was lost before this fragment, and the message
   that had begun is left out. The fragment was not taken then: call again with the same one. It speaks to no driver. */
int apd_join(struct apd_joiner *joiner, const struct apd_fragment *fragment, const void **message, size_t *size);

/* A counter of a client, a publication (type id 10001) or an image (10002). The label lies in the connection's buffer until
   the function that was handed it returns, and has no zero at its end. */
struct apd_row {
    uint64_t number;
    int32_t type_id;
    int64_t value;
    const char *label;
    size_t label_size;
};

/* It must not call anything here with the same connection. */
typedef void apd_on_row(void *context, const struct apd_row *row);

/* Hands over what the policy shows this principal. How many rows, or * above. */
int apd_list(struct apd_driver *driver, apd_on_row *on_row, void *context);

/* The value of the counter, publication or image of that number. APD_OK, or * above: codes APD_CODE_UNKNOWN_COUNTER,
   APD_CODE_DENIED. */
int apd_value(struct apd_driver *driver, uint64_t number, int64_t *value);

/* How far a publication has come. */
struct apd_publication_positions {
    uint64_t position; /* after its last frame */
    uint64_t limit;    /* from which on no offer is taken */
    uint64_t sent;     /* up to which frames were sent in datagrams */
    uint64_t consumed; /* up to which every receiver that is heard has taken the stream; 0 where none is */
    int heard;         /* whether a receiver is heard */
    int connected;     /* whether anybody takes what is offered */
};

/* Of a publication of this client. APD_OK, or * above: code APD_CODE_CLOSED, where there is no such publication of it. */
int apd_publication_positions(struct apd_driver *driver, uint64_t registration, struct apd_publication_positions *positions);

/* How far a subscription has come with a source. */
struct apd_image_positions {
    uint64_t joined;   /* where the stream is joined: what was before it is not there */
    uint64_t position; /* up to which the subscription has read */
    uint64_t received; /* up to which the stream is there without a gap */
};

/* Of a subscription of this client, by its registration, and a source that it reads. APD_OK, or * above: code APD_CODE_CLOSED,
   where it does not read that source. */
int apd_image_positions(struct apd_driver *driver, uint64_t subscription, uint64_t source,
                        struct apd_image_positions *positions);

/* Takes mail, and tells the driver that the client is there, as every call does that speaks to it. Call something, as apd_work, at
   least several times within `liveness_ns`. APD_OK, or * above. */
int apd_keepalive(struct apd_driver *driver);

#ifdef __cplusplus
}
#endif

#endif
