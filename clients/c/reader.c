/* Prints messages, a line each, until so many came: a loop that waits for messages and nothing else.

       cc -std=c99 -o reader reader.c aeron_policyd.c
       ./reader SOCKET CHANNEL STREAM COUNT */
#include "aeron_policyd.h"

#include <stdio.h>
#include <stdlib.h>

/* What is read of one source. A program that reads several has a joiner for each, by the `source` of their fragments. */
struct reader {
    struct apd_joiner joiner;
    long left;
};

static void on_fragment(void *context, const struct apd_fragment *fragment)
{
    struct reader *reader = context;
    const void *message;
    size_t size;
    int joined = apd_join(&reader->joiner, fragment, &message, &size);
    if (joined == APD_GAP) {
        fprintf(stderr, "reader: something was lost before position %llu\n", (unsigned long long)fragment->position);
        joined = apd_join(&reader->joiner, fragment, &message, &size);
    }
    if (joined != 1) return;
    printf("%.*s\n", (int)size, (const char *)message);
    reader->left--;
}

int main(int count, char **words)
{
    static unsigned char buffer[APD_BUFFER], room[65536];
    struct apd_driver driver;
    struct apd_subscription subscription;
    struct apd_image images[16];
    struct reader reader;
    int status;
    if (count != 5) {
        fprintf(stderr, "reader SOCKET CHANNEL STREAM COUNT\n");
        return 2;
    }
    setvbuf(stdout, NULL, _IOLBF, BUFSIZ);
    apd_joiner_init(&reader.joiner, room, sizeof room);
    reader.left = atol(words[4]);
    status = apd_connect(&driver, words[1], buffer, sizeof buffer, 30000);
    if (status == APD_OK)
        status = apd_add_subscription(&driver, words[2], (int32_t)atol(words[3]), 10000, images, 16, &subscription);
    while (status >= 0 && reader.left > 0) status = apd_poll(&driver, &subscription, 256, APD_FOREVER, on_fragment, &reader);
    if (status < 0) fprintf(stderr, "reader: %s: %s\n", apd_status_text(status), driver.text);
    apd_close(&driver);
    return status < 0;
}
