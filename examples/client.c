/*
 * A whole client of an X server, of the engine and a socket: it opens the display, takes its ids, maps a window
 * with a property, waits for events, a reply and an error, asks for further ids, and sends more requests than 16
 * bits can number.
 *
 *     cc -Iinclude examples/client.c examples/socket.c target/staticlib/libxiengmado.a -o client
 */
#include <stdio.h>
#include <string.h>

#include "socket.h"

/* Requests, events and atoms of the core protocol; arguments of CreateWindow. */
enum { CREATE_WINDOW = 1, MAP_WINDOW = 8, GET_GEOMETRY = 14, CHANGE_PROPERTY = 18, GET_INPUT_FOCUS = 43 };
enum { QUERY_EXTENSION = 98, NO_OPERATION = 127 };
enum { EXPOSE = 12, MAP_NOTIFY = 19, PROPERTY_NOTIFY = 28 };
enum { STRING = 31, WM_NAME = 39 };
enum { INPUT_OUTPUT = 1, EVENT_MASK = 1 << 11, EVENTS = 1 << 15 | 1 << 17 | 1 << 22 };

#define NAME "a window"
#define XC_MISC "XC-MISC"

/* ---- what is lent to the engine */

static uint64_t state[XM_CONNECTION_SLOTS], row[XM_SLOTS], ids[XM_SLOTS];
static uint8_t requests[XM_MOST_REQUESTS], store[1 << 20], buffer[XM_MOST_PACKET_BUFFER];
static uint32_t slots[XM_DESCRIPTORS];

static const struct xm_rooms rooms = {.state = state,
                                      .requests = requests,
                                      .requests_len = sizeof requests,
                                      .store = store,
                                      .store_len = sizeof store,
                                      .slots = slots};
static const struct xm_reader reader = {.row = row, .buf = buffer, .buf_len = sizeof buffer};

/* Where polls put a packet. */
static uint8_t out[XM_MOST_PACKET];

static struct display display;
static unsigned syncs, events, errors;

static void start(void) {
    must("connection", xm_connection_new(XM_STATE(&rooms), XM_LITTLE, XM_ROOMS(&rooms)));
    must("reader", xm_reader_new(XM_ROW(&reader), XM_LITTLE, XM_BUFFER(&reader)));
    must("ids", xm_ids_new(ids, XM_SLOTS, display.setup[XM_SETUP_BASE], display.setup[XM_SETUP_MASK]));
}

/* ---- receiving and sending */

/* Reads once. A packet that this makes whole goes to the engine. */
static void take_in(void) {
    size_t begin, size;
    uint8_t place, packet_class;
    uint64_t number;
    must("buffer", xm_reader_buffer(XM_READER(&reader), &begin, &size));
    size = read_some(display.socket, buffer + begin, size);
    must("advance", xm_reader_advance(XM_READER(&reader), size, &size, &packet_class));
    if (size > 0) must("packet", xm_enqueue_packet(XM_CONNECTION(&rooms), buffer, size, &place, &number, &packet_class));
}

static void sync(void);

/* First the number, then the bytes. */
static uint64_t send_it(uint8_t kind, struct request *r) {
    uint64_t number;
    enum xm_refusal refusal;
    while ((refusal = xm_send_request(XM_CONNECTION(&rooms), kind, &number)) != XM_DONE) {
        if (refusal == XM_SYNC_FIRST) sync();
        else if (refusal == XM_NO_ROOM) take_in();
        else must("request", refusal);
    }
    write_request(display.socket, r);
    return number;
}

/* A request with a reply that nobody waits for. */
static void sync(void) {
    struct request r = request(GET_INPUT_FOCUS, 0);
    uint64_t number = send_it(XM_REPLY_WITHOUT_FDS, &r);
    must("discard", xm_discard_reply(XM_CONNECTION(&rooms), number, XM_DISCARD_REPLY_AND_ERROR));
    syncs++;
}

/* ---- waiting, for what is then in out */

static size_t reply(uint64_t number) {
    uint8_t result = XM_TRY_AGAIN, packet_class;
    size_t size = 0;
    for (;;) {
        must("poll", xm_poll_for_reply(XM_CONNECTION(&rooms), number, out, sizeof out, &result, &size, &packet_class));
        if (result == XM_REPLY) return size;
        if (result == XM_NO_REPLY_COMES) die("request %llu: an error came", (unsigned long long)number);
        take_in();
    }
}

/* Whether a request without a reply made an error. */
static bool failed(uint64_t number) {
    uint8_t due, result = XM_TRY_AGAIN, packet_class;
    size_t size;
    must("prepare", xm_prepare_check_for_reply_or_error(XM_CONNECTION(&rooms), number, &due));
    if (due) sync();
    for (;;) {
        must("check", xm_poll_check_for_reply_or_error(XM_CONNECTION(&rooms), number, out, sizeof out, &result, &size,
                                                       &packet_class));
        if (result != XM_TRY_AGAIN) break;
        take_in();
    }
    bool error = result == XM_REPLY && packet_class == XM_CLASS_ERROR;
    errors += error;
    return error;
}

/* The next event of a code that the server itself made, not SendEvent; others are passed over. */
static uint64_t event(uint8_t code) {
    uint8_t found, packet_class;
    uint64_t number;
    size_t size;
    for (;;) {
        must("event", xm_poll_for_event_with_sequence(XM_CONNECTION(&rooms), out, sizeof out, &found, &number, &size,
                                                      &packet_class));
        if (!found) take_in();
        else events++;
        if (found && packet_class == XM_CLASS_EVENT && out[0] == code) return number;
    }
}

/* ---- what it does */

static uint32_t map_window(void) {
    struct request create = request(CREATE_WINDOW, 0), change = request(CHANGE_PROPERTY, 0), map = request(MAP_WINDOW, 0);
    uint32_t window;
    must("id", xm_ids_generate_id(ids, XM_SLOTS, &window));
    CARD32(&create, window, display.root);
    CARD16(&create, 0, 0, 240, 160, 0, INPUT_OUTPUT); /* place, size and border */
    CARD32(&create, 0, EVENT_MASK, EVENTS);           /* the parent's visual, and one attribute */
    if (failed(send_it(XM_NO_REPLY, &create))) die("CreateWindow makes error %u", out[1]);
    CARD32(&change, window, WM_NAME, STRING, 8, strlen(NAME)); /* bytes, and how many */
    padded(&change, NAME);
    uint64_t number = send_it(XM_NO_REPLY, &change);
    if (event(PROPERTY_NOTIFY) != number) die("the event has another number");
    CARD32(&map, window);
    send_it(XM_NO_REPLY, &map);
    event(MAP_NOTIFY);
    event(EXPOSE);
    return window;
}

static void ask(uint32_t window) {
    struct request geometry = request(GET_GEOMETRY, 0), map = request(MAP_WINDOW, 0);
    uint8_t code, major;
    uint16_t wire, minor;
    uint32_t value;
    CARD32(&geometry, window);
    reply(send_it(XM_REPLY_WITHOUT_FDS, &geometry));
    printf("window 0x%x is mapped: %u x %u\n", (unsigned)window, get16(out + 16), get16(out + 18));
    CARD32(&map, 0);
    if (!failed(send_it(XM_NO_REPLY, &map))) die("there is a window 0");
    must("error", xm_error(XM_LITTLE, out, 32, &code, &wire, &value, &minor, &major));
    printf("request %u of a window 0x%x: error %u\n", major, (unsigned)value, code);
}

/* The server's free ids, by the extension XC-MISC. */
static void more_ids(void) {
    struct request query = request(QUERY_EXTENSION, 0), range = {.size = 0};
    uint16_t wire;
    uint32_t length, first, count;
    CARD16(&query, strlen(XC_MISC), 0);
    padded(&query, XC_MISC);
    reply(send_it(XM_REPLY_WITHOUT_FDS, &query));
    if (out[8] == 0) return;
    must("request", xm_xc_misc_get_xid_range_request(XM_LITTLE, out[9], range.bytes, sizeof range.bytes, &range.size));
    size_t size = reply(send_it(XM_REPLY_WITHOUT_FDS, &range));
    must("range", xm_xc_misc_get_xid_range_reply(XM_LITTLE, out, size, &wire, &length, &first, &count));
    must("ids", xm_ids_update_xid_range(ids, XM_SLOTS, first, count));
    printf("%u ids from 0x%x on are free\n", (unsigned)count, (unsigned)first);
}

int main(void) {
    struct request r = request(NO_OPERATION, 0);
    uint64_t number = 0;
    display = open_display();
    start();
    ask(map_window());
    more_ids();
    /* After 65,534 without a reply the engine wants a sync, and then packets, since the request room is full. */
    for (int i = 0; i < 70000; i++) number = send_it(XM_NO_REPLY, &r);
    if (failed(number)) die("NoOperation makes an error");
    printf("client: %llu requests, %u syncs among them; %u events, %u error\n", (unsigned long long)state[XM_STATE_WRITTEN],
           syncs, events, errors);
    return 0;
}
