/* Two owners share a driver: a gateway (p1) publishes prices, and a desk (p2) reads them and may do no more.

       cc -std=c99 -o example example.c aeron_policyd.c
       ./example FOLDER

   FOLDER has the sockets of a driver that serves under the policy examples/serving/policy.toml. Both owners are in one process
   here; as a rule each is a service of a user of its own. */
#include "aeron_policyd.h"

#include <stdio.h>
#include <stdlib.h>
#include <string.h>

/* A socket of the folder; its connection, or the end of the program. */
static void enter(struct apd_driver *driver, const char *folder, const char *socket, void *buffer)
{
    char path[108];
    if ((size_t)snprintf(path, sizeof path, "%s/%s", folder, socket) >= sizeof path) exit(2);
    if (apd_connect(driver, path, buffer, APD_BUFFER, 30000) != APD_OK) {
        fprintf(stderr, "example: %s: %s\n", path, driver->text);
        exit(1);
    }
}

/* Ends the program where a call failed. */
static void need(int status, const struct apd_driver *driver, const char *what)
{
    if (status >= 0) return;
    fprintf(stderr, "example: %s: %s\n", what, driver->text);
    exit(1);
}

/* Prices are messages of one fragment. */
static void print_price(void *context, const struct apd_fragment *fragment)
{
    int *prices = context;
    printf("the desk reads: %.*s\n", (int)fragment->size, (const char *)fragment->payload);
    ++*prices;
}

int main(int count, char **words)
{
    static unsigned char of_desk[APD_BUFFER], of_gateway[APD_BUFFER];
    static const struct apd_message prices[] = {{"bid 99", 6}, {"ask 101", 7}};
    struct apd_driver desk, gateway;
    struct apd_image images[4];
    struct apd_subscription subscription;
    uint64_t publication;
    int seen = 0;
    if (count != 2) {
        fprintf(stderr, "example FOLDER\n");
        return 2;
    }
    enter(&desk, words[1], "p2.sock", of_desk);
    enter(&gateway, words[1], "p1.sock", of_gateway);
    need(apd_add_subscription(&desk, "aeron:ipc", 10, 10000, images, 4, &subscription), &desk, "subscription");
    need(apd_add_publication(&gateway, "aeron:ipc", 10, 10000, &publication), &gateway, "publication");
    need(apd_offer_all(&gateway, publication, prices, 2, 1000, NULL, NULL), &gateway, "offer");
    while (seen < 2) need(apd_poll(&desk, &subscription, 16, 1000, print_price, &seen), &desk, "poll");
    if (apd_add_publication(&desk, "aeron:ipc", 10, 10000, &publication) == APD_REFUSED && desk.code == APD_CODE_DENIED)
        printf("the desk may not publish: %s\n", desk.text);
    apd_close(&gateway);
    apd_close(&desk);
    return 0;
}
