/* Sends each line of standard input as a message, and prints the messages that come, a line each, until as many came as were
   sent: a loop that waits for several things at once, by epoll of Linux.

       cc -std=c99 -o loop loop.c aeron_policyd.c
       ./loop SOCKET_TO_SEND SOCKET_TO_READ CHANNEL STREAM

   A connection whose request waits takes no other one, so that a program which sends at any moment does so by a connection of its
   own; the two sockets may be the same. */
#include "aeron_policyd.h"

#include <stdio.h>
#include <stdlib.h>
#include <string.h>
#include <sys/epoll.h>
#include <unistd.h>

/* So that a program ends where a call failed. */
static void need(int status, const struct apd_driver *driver, const char *what)
{
    if (status >= 0) return;
    fprintf(stderr, "loop: %s: %s: %s\n", what, apd_status_text(status), driver->text);
    exit(1);
}

static void watch(int epoll, int fd)
{
    struct epoll_event event;
    memset(&event, 0, sizeof event);
    event.events = EPOLLIN;
    event.data.fd = fd;
    if (epoll_ctl(epoll, EPOLL_CTL_ADD, fd, &event) != 0) {
        perror("loop");
        exit(1);
    }
}

/* Messages here are of one fragment. */
static void on_fragment(void *context, const struct apd_fragment *fragment)
{
    printf("%.*s\n", (int)fragment->size, (const char *)fragment->payload);
    ++*(long *)context;
}

/* Sends the lines that are there. How many, or -1 at the end of the input. */
static long send_lines(struct apd_driver *driver, uint64_t publication)
{
    static char lines[1024];
    static size_t have;
    long sent = 0;
    ssize_t count = read(STDIN_FILENO, lines + have, sizeof lines - have);
    if (count <= 0) return -1;
    have += (size_t)count;
    for (char *end; (end = memchr(lines, '\n', have)) != NULL; sent++) {
        size_t size = (size_t)(end - lines);
        need(apd_offer(driver, publication, lines, size, 5000, NULL), driver, "offer");
        have -= size + 1;
        memmove(lines, end + 1, have);
    }
    return sent;
}

int main(int count, char **words)
{
    static unsigned char of_writer[APD_BUFFER], of_reader[APD_BUFFER];
    struct apd_driver writer, reader;
    struct apd_subscription subscription;
    struct apd_image images[16];
    uint64_t publication;
    long sent = 0, came = 0;
    int more = 1, epoll = epoll_create1(EPOLL_CLOEXEC);
    if (count != 5 || epoll < 0) {
        fprintf(stderr, "loop SOCKET_TO_SEND SOCKET_TO_READ CHANNEL STREAM\n");
        return 2;
    }
    int32_t stream = (int32_t)atol(words[4]);
    setvbuf(stdout, NULL, _IOLBF, BUFSIZ);
    need(apd_connect(&writer, words[1], of_writer, sizeof of_writer, 30000), &writer, words[1]);
    need(apd_connect(&reader, words[2], of_reader, sizeof of_reader, 30000), &reader, words[2]);
    need(apd_add_subscription(&reader, words[3], stream, 10000, images, 16, &subscription), &reader, "subscription");
    need(apd_add_publication(&writer, words[3], stream, 10000, &publication), &writer, "publication");
    watch(epoll, STDIN_FILENO);
    watch(epoll, apd_fd(&reader));
    need(apd_begin(&reader, 256, 1000), &reader, "begin");
    while (more || came < sent) {
        struct epoll_event events[2];
        int ready = epoll_wait(epoll, events, 2, 1000);
        for (int i = 0; i < ready; i++) {
            if (events[i].data.fd == STDIN_FILENO) {
                long lines = send_lines(&writer, publication);
                more = lines >= 0;
                if (more) sent += lines;
                else epoll_ctl(epoll, EPOLL_CTL_DEL, STDIN_FILENO, events);
            } else {
                int status = apd_work(&reader, on_fragment, &came);
                need(status, &reader, "work");
                if (status == APD_OK) need(apd_begin(&reader, 256, 1000), &reader, "begin");
            }
        }
        /* a sign of life, where it is time for one */
        need(apd_work(&writer, NULL, NULL), &writer, "work");
    }
    apd_close(&reader);
    apd_close(&writer);
    return 0;
}
