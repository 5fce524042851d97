/* Two connection drivers of libqpid-proton in one process, with frames of at most 64 KiB: one message with a section of SIZE bytes of
   data is sent, read as its parts come, and decoded. Writes three times in microseconds of the clock, each from the start: when the message
   was handed to the sender, when all of it was read, and when it was decoded.
   cc -O2 large_message.c -o large_message -lqpid-proton */
#include <proton/connection_driver.h>
#include <proton/connection.h>
#include <proton/delivery.h>
#include <proton/event.h>
#include <proton/link.h>
#include <proton/message.h>
#include <proton/session.h>
#include <proton/transport.h>
#include <stdint.h>
#include <stdio.h>
#include <stdlib.h>
#include <string.h>
#include <time.h>

typedef struct { pn_connection_driver_t driver; } End;

static pn_link_t *sender, *receiver;
static char *message, *buffer;
static size_t size, filled;
static int asked, whole;

static uint64_t now(void) {
    struct timespec t;
    clock_gettime(CLOCK_MONOTONIC, &t);
    return (uint64_t)t.tv_sec * 1000000u + (uint64_t)t.tv_nsec / 1000u;
}

static void handle(End *end, int is_client, pn_event_t *event) {
    switch (pn_event_type(event)) {
    case PN_CONNECTION_REMOTE_OPEN:
        if (!is_client) pn_connection_open(end->driver.connection);
        break;
    case PN_SESSION_REMOTE_OPEN:
        if (!is_client) pn_session_open(pn_event_session(event));
        break;
    case PN_LINK_REMOTE_OPEN:
        if (!is_client) { receiver = pn_event_link(event); pn_link_open(receiver); pn_link_flow(receiver, 1); }
        break;
    case PN_LINK_FLOW:
        if (is_client && pn_link_credit(sender) > 0) asked = 1;
        break;
    case PN_DELIVERY: {
        pn_delivery_t *delivery = pn_event_delivery(event);
        if (is_client || !pn_delivery_readable(delivery)) break;
        ssize_t some = pn_link_recv(receiver, buffer + filled, size - filled);
        if (some > 0) filled += (size_t)some;
        if (!pn_delivery_partial(delivery) && filled == size) whole = 1;
        break;
    }
    default: break;
    }
}

static int work(End *end, int is_client) {
    int some = 0;
    pn_event_t *event;
    while ((event = pn_connection_driver_next_event(&end->driver))) { handle(end, is_client, event); some = 1; }
    return some;
}

static int move(End *from, End *to) {
    pn_bytes_t bytes = pn_connection_driver_write_buffer(&from->driver);
    if (!bytes.size) return 0;
    pn_rwbytes_t room = pn_connection_driver_read_buffer(&to->driver);
    size_t some = bytes.size < room.size ? bytes.size : room.size;
    if (!some) return 0;
    memcpy(room.start, bytes.start, some);
    pn_connection_driver_read_done(&to->driver, some);
    pn_connection_driver_write_done(&from->driver, some);
    return 1;
}

static void until(int *done, End *client, End *listener) {
    while (!*done) {
        int some = work(client, 1) | work(listener, 0);
        some |= move(client, listener) | move(listener, client);
        if (!some && !*done) { fprintf(stderr, "stuck\n"); exit(1); }
    }
}

int main(int argc, char **argv) {
    uint32_t body = argc > 1 ? (uint32_t)strtoul(argv[1], 0, 10) : 16777216u;
    size = 8 + (size_t)body;
    message = malloc(size);
    buffer = malloc(size);
    if (!message || !buffer) return 2;
    char head[8] = {0, 0x53, 0x75, (char)0xb0, (char)(body >> 24), (char)(body >> 16), (char)(body >> 8), (char)body};
    memcpy(message, head, 8);
    memset(message + 8, 'a', body);
    End client = {0}, listener = {0};
    pn_connection_driver_init(&client.driver, NULL, NULL);
    pn_connection_driver_init(&listener.driver, NULL, NULL);
    pn_transport_set_server(listener.driver.transport);
    pn_transport_set_max_frame(client.driver.transport, 65536);
    pn_transport_set_max_frame(listener.driver.transport, 65536);
    pn_connection_open(client.driver.connection);
    pn_session_t *session = pn_session(client.driver.connection);
    pn_session_open(session);
    sender = pn_sender(session, "link");
    pn_terminus_set_address(pn_link_target(sender), "q1");
    pn_link_open(sender);
    until(&asked, &client, &listener);
    uint64_t start = now();
    pn_delivery(sender, pn_dtag("1", 1));
    if (pn_link_send(sender, message, size) != (ssize_t)size) return 2;
    pn_link_advance(sender);
    uint64_t sent = now();
    until(&whole, &client, &listener);
    uint64_t taken = now();
    pn_message_t *decoded = pn_message();
    if (pn_message_decode(decoded, buffer, size)) return 2;
    uint64_t received = now();
    printf("sent %llu taken %llu received %llu\n", (unsigned long long)(sent - start), (unsigned long long)(taken - start),
           (unsigned long long)(received - start));
    return 0;
}
