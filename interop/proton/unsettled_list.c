/* The unsettled deliveries of a link of libqpid-proton, without a transport: COUNT deliveries are begun in one order, and accepted and
   settled in another. Writes both times in microseconds of the clock. An order is order, reverse, random or other (two shuffles by one
   rule), or none for the second: then nothing is settled.
   cc -O2 unsettled_list.c -o unsettled_list -lqpid-proton */
#include <proton/connection.h>
#include <proton/delivery.h>
#include <proton/disposition.h>
#include <proton/link.h>
#include <proton/session.h>
#include <stdint.h>
#include <stdio.h>
#include <stdlib.h>
#include <string.h>
#include <time.h>

static uint32_t *numbers(const char *order, uint32_t count) {
    uint32_t *all = malloc(sizeof *all * (count + 1));
    if (!all) exit(2);
    for (uint32_t i = 0; i < count; i++) all[i] = strcmp(order, "reverse") ? i : count - 1 - i;
    uint64_t x = strcmp(order, "random") ? strcmp(order, "other") ? 0 : 2 : 1;
    for (uint32_t i = count; x && i-- > 1;) {
        x = x * 6364136223846793005u + 1442695040888963407u;
        uint32_t j = (uint32_t)((x >> 33) % (i + 1u)), n = all[i];
        all[i] = all[j];
        all[j] = n;
    }
    return all;
}

static uint64_t now(void) {
    struct timespec t;
    clock_gettime(CLOCK_MONOTONIC, &t);
    return (uint64_t)t.tv_sec * 1000000u + (uint64_t)t.tv_nsec / 1000u;
}

static void begin_all(pn_link_t *link, pn_delivery_t **all, const uint32_t *order, uint32_t count) {
    for (uint32_t i = 0; i < count; i++) {
        uint32_t n = order[i];
        char tag[4] = {(char)(n >> 24), (char)(n >> 16), (char)(n >> 8), (char)n};
        all[n] = pn_delivery(link, pn_dtag(tag, 4));
        pn_link_advance(link);
    }
}

static void settle_all(pn_delivery_t **all, const uint32_t *order, uint32_t count) {
    for (uint32_t i = 0; i < count; i++) {
        pn_delivery_update(all[order[i]], PN_ACCEPTED);
        pn_delivery_settle(all[order[i]]);
    }
}

int main(int argc, char **argv) {
    if (argc != 4) return 2;
    uint32_t count = (uint32_t)strtoul(argv[3], 0, 10);
    uint32_t *first = numbers(argv[1], count), *second = numbers(argv[2], count);
    pn_delivery_t **all = calloc(count + 1, sizeof *all);
    pn_connection_t *connection = pn_connection();
    pn_link_t *link = pn_sender(pn_session(connection), "link");
    if (!all || !link) return 2;
    uint64_t start = now();
    begin_all(link, all, first, count);
    uint64_t begun = now();
    if (strcmp(argv[2], "none")) settle_all(all, second, count);
    uint64_t settled = now();
    printf("%llu %llu left %d\n", (unsigned long long)(begun - start), (unsigned long long)(settled - begun), pn_link_unsettled(link));
    return 0;
}
