/*
 * A reply that is longer than any packet that the engine holds: GetImage of the root, 1,920,032 bytes on a screen of
 * 800 x 600. The engine is given the first 32 bytes of such a packet, its head, and numbers and files it by those;
 * the packet itself is kept here until the reply is polled. Two windows, one in the other, are what is looked for in
 * the image.
 *
 *     cc -Iinclude examples/image.c examples/socket.c target/staticlib/libxiengmado.a -o image
 */
#include <stdio.h>
#include <stdlib.h>
#include <string.h>

#include "socket.h"

/* Requests of the core protocol, and their arguments. */
enum { CREATE_WINDOW = 1, MAP_WINDOW = 8, GET_GEOMETRY = 14, GET_IMAGE = 73 };
enum { Z_PIXMAP = 2, INPUT_OUTPUT = 1, BACKGROUND = 1 << 1, OVERRIDE_REDIRECT = 1 << 9 };

/* How many bytes the engine is given of a packet that is longer than the reader's buffer. */
enum { HEAD = 32 };

/* A window's place in its parent, its size and its colour. */
struct area {
    unsigned x, y, width, height;
    uint32_t colour;
};

static const struct area outer = {100, 50, 300, 250, 0x2040c0}, inner = {40, 30, 200, 150, 0xe0a010};

/* ---- what is lent to the engine: with heads for long packets a short buffer and a short store do */

static uint64_t state[XM_CONNECTION_SLOTS], row[XM_SLOTS], ids[XM_SLOTS];
static uint8_t requests[XM_MOST_REQUESTS], store[4096], buffer[1024], out[1024];
static uint32_t slots[XM_DESCRIPTORS];

static const struct xm_rooms rooms = {.state = state,
                                      .requests = requests,
                                      .requests_len = sizeof requests,
                                      .store = store,
                                      .store_len = sizeof store,
                                      .slots = slots};
static const struct xm_reader reader = {.row = row, .buf = buffer, .buf_len = sizeof buffer};

static struct display display;

/* ---- long packets */

/* Those whose heads the engine holds, oldest first. */
struct kept {
    struct kept *next;
    uint64_t number;
    size_t size;
    uint8_t bytes[];
};

static struct kept *first, **last = &first;
static size_t dropped;

static void keep(struct kept *packet) {
    packet->next = NULL;
    *last = packet;
    last = &packet->next;
}

static void drop(struct kept *packet) {
    dropped += packet->size;
    free(packet);
}

/* The reader's buffer begins with the head of a packet that is too long for it. */
static void take_long(void) {
    uint8_t place, packet_class;
    size_t size = xm_packet_length(buffer[0], get32(buffer + 4), &packet_class);
    struct kept *packet = malloc(sizeof *packet + size);
    if (packet == NULL) die("no memory for a packet of %zu bytes", size);
    packet->size = size;
    memcpy(packet->bytes, buffer, HEAD);
    read_all(display.socket, packet->bytes + HEAD, size - HEAD);
    must("reader", xm_reader_new(XM_ROW(&reader), XM_LITTLE, XM_BUFFER(&reader)));
    must("head", xm_enqueue_packet(XM_CONNECTION(&rooms), packet->bytes, HEAD, &place, &packet->number, &packet_class));
    if (place == XM_DROPPED) drop(packet);
    else keep(packet);
}

/* The oldest kept packet of a number, which is no longer kept then. */
static struct kept *take_kept(uint64_t number) {
    struct kept **at = &first;
    while (*at != NULL && (*at)->number != number) at = &(*at)->next;
    struct kept *packet = *at;
    if (packet == NULL) die("no packet is kept for request %llu", (unsigned long long)number);
    *at = packet->next;
    if (packet->next == NULL) last = at;
    return packet;
}

/* ---- the rest as in client.c */

static void take_in(void) {
    size_t begin, size;
    uint8_t place, packet_class;
    uint64_t number;
    must("buffer", xm_reader_buffer(XM_READER(&reader), &begin, &size));
    size = read_some(display.socket, buffer + begin, size);
    enum xm_refusal refusal = xm_reader_advance(XM_READER(&reader), size, &size, &packet_class);
    if (refusal == XM_LONG_PACKET) {
        take_long();
        return;
    }
    must("advance", refusal);
    if (size > 0) must("packet", xm_enqueue_packet(XM_CONNECTION(&rooms), buffer, size, &place, &number, &packet_class));
}

/* These few requests need no sync. */
static uint64_t send_it(uint8_t kind, struct request *r) {
    uint64_t number;
    must("request", xm_send_request(XM_CONNECTION(&rooms), kind, &number));
    write_request(display.socket, r);
    return number;
}

/* Waits for a reply, which is then in out. Where its length says that this is no more than its head, it is kept here. */
static struct kept *reply(uint64_t number) {
    uint8_t result = XM_TRY_AGAIN, packet_class;
    size_t size;
    for (;;) {
        must("poll", xm_poll_for_reply(XM_CONNECTION(&rooms), number, out, sizeof out, &result, &size, &packet_class));
        if (result == XM_REPLY) return xm_packet_length(out[0], get32(out + 4), &packet_class) > size ? take_kept(number) : NULL;
        if (result == XM_NO_REPLY_COMES) die("request %llu: an error came", (unsigned long long)number);
        take_in();
    }
}

/* ---- windows and image */

static uint32_t map_window(uint32_t parent, const struct area *a) {
    struct request create = request(CREATE_WINDOW, 0), map = request(MAP_WINDOW, 0);
    uint32_t window;
    must("id", xm_ids_generate_id(ids, XM_SLOTS, &window));
    CARD32(&create, window, parent);
    CARD16(&create, a->x, a->y, a->width, a->height, 0, INPUT_OUTPUT);
    CARD32(&create, 0, BACKGROUND | OVERRIDE_REDIRECT, a->colour, 1); /* the parent's visual, and two attributes */
    send_it(XM_NO_REPLY, &create);
    CARD32(&map, window);
    send_it(XM_NO_REPLY, &map);
    return window;
}

static uint64_t ask_image(void) {
    struct request r = request(GET_IMAGE, Z_PIXMAP);
    CARD32(&r, display.root);
    CARD16(&r, 0, 0, display.width, display.height);
    CARD32(&r, 0xffffff); /* all planes */
    return send_it(XM_REPLY_WITHOUT_FDS, &r);
}

/* 24 bits of 32, in the image's own byte order. */
static uint32_t pixel(const uint8_t *at) {
    if (display.setup[XM_SETUP_IMAGE] == 0) return get32(at) & 0xffffff;
    return (uint32_t)at[1] << 16 | (uint32_t)at[2] << 8 | at[3];
}

static bool inside(const struct area *a, unsigned x, unsigned y) {
    return x >= a->x && x - a->x < a->width && y >= a->y && y - a->y < a->height;
}

/* How many pixels of the outer window are as they must be. */
static unsigned right_pixels(const uint8_t *image) {
    unsigned count = 0;
    for (unsigned i = 0; i < outer.width * outer.height; i++) {
        unsigned x = i % outer.width, y = i / outer.width;
        const uint8_t *at = image + 4 * ((size_t)(y + outer.y) * display.width + x + outer.x);
        count += pixel(at) == (inside(&inner, x, y) ? inner.colour : outer.colour);
    }
    return count;
}

int main(void) {
    struct request geometry = request(GET_GEOMETRY, 0);
    display = open_display();
    must("connection", xm_connection_new(XM_STATE(&rooms), XM_LITTLE, XM_ROOMS(&rooms)));
    must("reader", xm_reader_new(XM_ROW(&reader), XM_LITTLE, XM_BUFFER(&reader)));
    must("ids", xm_ids_new(ids, XM_SLOTS, display.setup[XM_SETUP_BASE], display.setup[XM_SETUP_MASK]));
    map_window(map_window(display.root, &outer), &inner);
    uint64_t wanted = ask_image(), unwanted = ask_image();
    must("discard", xm_discard_reply(XM_CONNECTION(&rooms), unwanted, XM_DISCARD_REPLY));
    CARD32(&geometry, display.root);
    reply(send_it(XM_REPLY_WITHOUT_FDS, &geometry)); /* the last asked for is taken first */
    printf("the root is %u x %u; %zu bytes of an image were dropped\n", get16(out + 16), get16(out + 18), dropped);
    struct kept *image = reply(wanted);
    if (image == NULL || image->size != HEAD + 4 * (size_t)display.width * display.height) die("an image of another size");
    unsigned right = right_pixels(image->bytes + HEAD);
    printf("image: %zu bytes in one reply, %u of %u pixels are right\n", image->size, right, outer.width * outer.height);
    free(image);
    return right != outer.width * outer.height;
}
