/* Two connection drivers of libqpid-proton in one process: COUNT messages, one at a time, each with one credit, accepted and settled.
   cc -O2 two_drivers.c -o two_drivers -lqpid-proton */
#include <proton/connection_driver.h>
#include <proton/connection.h>
#include <proton/delivery.h>
#include <proton/event.h>
#include <proton/link.h>
#include <proton/message.h>
#include <proton/session.h>
#include <proton/transport.h>
#include <stdio.h>
#include <stdlib.h>
#include <string.h>

typedef struct { pn_connection_driver_t driver; size_t written; } End;

static size_t received, accepted, count;
static pn_link_t *sender, *receiver;

static void send_next(void) {
    static char text[256];
    static char encoded[512];
    if (!sender || accepted == count || pn_link_credit(sender) < 1) return;
    size_t length = (size_t)snprintf(text, sizeof text, "message %zu", accepted);
    pn_message_t *message = pn_message();
    pn_data_put_string(pn_message_body(message), pn_bytes(length, text));
    size_t size = sizeof encoded;
    pn_message_encode(message, encoded, &size);
    pn_message_free(message);
    char tag[8];
    memcpy(tag, &accepted, sizeof tag);
    pn_delivery(sender, pn_dtag(tag, sizeof tag));
    pn_link_send(sender, encoded, size);
    pn_link_advance(sender);
}

static void handle(End *end, int is_client, pn_event_t *event) {
    switch (pn_event_type(event)) {
    case PN_CONNECTION_REMOTE_OPEN:
        if (!is_client) pn_connection_open(end->driver.connection);
        break;
    case PN_SESSION_REMOTE_OPEN:
        if (!is_client) pn_session_open(pn_event_session(event));
        break;
    case PN_LINK_REMOTE_OPEN:
        if (!is_client) { receiver = pn_event_link(event); pn_link_open(receiver); pn_link_flow(receiver, 1); }
        break;
    case PN_LINK_FLOW:
        if (is_client) send_next();
        break;
    case PN_DELIVERY: {
        pn_delivery_t *delivery = pn_event_delivery(event);
        if (!is_client && pn_delivery_readable(delivery) && !pn_delivery_partial(delivery)) {
            char bytes[512];
            ssize_t size = pn_link_recv(receiver, bytes, sizeof bytes);
            pn_message_t *message = pn_message();
            if (size < 0 || pn_message_decode(message, bytes, (size_t)size)) exit(2);
            pn_message_free(message);
            pn_link_advance(receiver);
            pn_delivery_update(delivery, PN_ACCEPTED);
            pn_delivery_settle(delivery);
            received++;
            pn_link_flow(receiver, 1);
        } else if (is_client && pn_delivery_updated(delivery)) {
            if (pn_delivery_remote_state(delivery) == PN_ACCEPTED) accepted++;
            pn_delivery_settle(delivery);
            send_next();
        }
        break;
    }
    default: break;
    }
}

static int work(End *end, int is_client) {
    int some = 0;
    pn_event_t *event;
    while ((event = pn_connection_driver_next_event(&end->driver))) { handle(end, is_client, event); some = 1; }
    return some;
}

static int move(End *from, End *to) {
    pn_bytes_t bytes = pn_connection_driver_write_buffer(&from->driver);
    if (!bytes.size) return 0;
    pn_rwbytes_t room = pn_connection_driver_read_buffer(&to->driver);
    size_t some = bytes.size < room.size ? bytes.size : room.size;
    if (!some) return 0;
    memcpy(room.start, bytes.start, some);
    pn_connection_driver_read_done(&to->driver, some);
    pn_connection_driver_write_done(&from->driver, some);
    return 1;
}

int main(int argc, char **argv) {
    count = argc > 1 ? strtoul(argv[1], 0, 10) : 10000;
    End client = {0}, listener = {0};
    pn_connection_driver_init(&client.driver, NULL, NULL);
    pn_connection_driver_init(&listener.driver, NULL, NULL);
    pn_transport_set_server(listener.driver.transport);
    pn_connection_open(client.driver.connection);
    pn_session_t *session = pn_session(client.driver.connection);
    pn_session_open(session);
    sender = pn_sender(session, "link");
    pn_terminus_set_address(pn_link_target(sender), "q1");
    pn_link_open(sender);
    while (accepted < count) {
        int some = work(&client, 1) | work(&listener, 0);
        some |= move(&client, &listener) | move(&listener, &client);
        if (!some) { fprintf(stderr, "stuck at %zu\n", accepted); return 1; }
    }
    printf("%zu %zu\n", received, accepted);
    return 0;
}
