/* Memory shared with the server by descriptors, of MIT-SHM 1.2. The descriptor of one segment is the server's and comes
   with a reply, through the engine; that of the other is a file of this program and goes with a request. The server
   writes the image of a pixmap into both. */
#define _DEFAULT_SOURCE
#include <stdio.h>
#include <string.h>
#include <sys/mman.h>
#include <sys/socket.h>
#include <unistd.h>

#include "socket.h"

enum { CREATE_PIXMAP = 53, CREATE_GC = 55, FILL_RECTANGLE = 70, QUERY_EXTENSION = 98 };
enum { QUERY_VERSION = 0, GET_IMAGE = 4, ATTACH_FD = 6, CREATE_SEGMENT = 7 }; /* of MIT-SHM */
enum { DEPTH = 24, FOREGROUND = 1 << 2, Z_PIXMAP = 2 };
enum { WIDTH = 64, HEIGHT = 48, COLOUR = 0x2040c0, SIZE = 4 * WIDTH * HEIGHT };

static uint64_t state[XM_CONNECTION_SLOTS], row[XM_SLOTS];
static uint8_t requests[256], store[4096], buffer[1024], out[1024];
static uint32_t slots[XM_DESCRIPTORS], fds[XM_DESCRIPTORS];

static const struct xm_rooms rooms = {state, requests, sizeof requests, store, sizeof store, slots};
static const struct xm_reader reader = {row, buffer, sizeof buffer};

static struct display display;
static uint8_t shm;

/* A message with bytes, and a place for one descriptor beside them. */
union control {
    struct cmsghdr header;
    char bytes[CMSG_SPACE(sizeof(int))];
};
#define MESSAGE(part, beside) {.msg_iov = part, .msg_iovlen = 1, .msg_control = beside, .msg_controllen = sizeof *(beside)}

/* Reads once: a descriptor goes to the engine, then the packet that became whole. */
static void take_in(void) {
    union control control;
    struct iovec part;
    struct msghdr message = MESSAGE(&part, &control);
    size_t begin, size;
    uint8_t place, packet_class;
    uint64_t number;
    must("buffer", xm_reader_buffer(XM_READER(&reader), &begin, &part.iov_len));
    part.iov_base = buffer + begin;
    ssize_t count = recvmsg(display.socket, &message, MSG_CMSG_CLOEXEC);
    if (count <= 0 || message.msg_flags & MSG_CTRUNC) die("the socket can't be read");
    const uint32_t *list = (const uint32_t *)CMSG_DATA(&control.header);
    if (message.msg_controllen > 0) must("descriptor", xm_enqueue_fds(XM_CONNECTION(&rooms), list, 1));
    must("advance", xm_reader_advance(XM_READER(&reader), (size_t)count, &size, &packet_class));
    if (size > 0) must("packet", xm_enqueue_packet(XM_CONNECTION(&rooms), buffer, size, &place, &number, &packet_class));
}

static uint64_t send_it(uint8_t kind, struct request *r) {
    uint64_t number;
    must("request", xm_send_request(XM_CONNECTION(&rooms), kind, &number));
    write_request(display.socket, r);
    return number;
}

/* The class of the answer, which is in out; in fds are so many descriptors as are due. */
static uint8_t ask(uint8_t kind, struct request *r, size_t due) {
    uint64_t number = send_it(kind, r);
    uint8_t found = 0, packet_class = XM_CLASS_ERROR;
    size_t size, count = 0;
    while (!found) {
        take_in();
        must("poll", xm_poll_for_reply_or_error(XM_CONNECTION(&rooms), number, out, sizeof out, fds, XM_DESCRIPTORS, &found,
                                                &size, &count, &packet_class));
    }
    if (count != due) die("request %llu: %zu descriptors, not %zu", (unsigned long long)number, count, due);
    return packet_class;
}

/* Whether the server has MIT-SHM with descriptors: version 1.2. */
static bool has_shm(void) {
    struct request query = request(QUERY_EXTENSION, 0);
    CARD16(&query, strlen("MIT-SHM"), 0);
    padded(&query, "MIT-SHM");
    ask(XM_REPLY_WITHOUT_FDS, &query, 0);
    struct request version = request(shm = out[9], QUERY_VERSION);
    if (!out[8] || ask(XM_REPLY_WITHOUT_FDS, &version, 0) != XM_CLASS_REPLY) return false;
    return 100 * get16(out + 8) + get16(out + 10) >= 102;
}

static void draw(uint32_t pixmap, uint32_t gc) {
    struct request create = request(CREATE_PIXMAP, DEPTH), colour = request(CREATE_GC, 0), fill = request(FILL_RECTANGLE, 0);
    CARD32(&create, pixmap, display.root);
    CARD16(&create, WIDTH, HEIGHT);
    send_it(XM_NO_REPLY, &create);
    CARD32(&colour, gc, pixmap, FOREGROUND, COLOUR);
    send_it(XM_NO_REPLY, &colour);
    CARD32(&fill, pixmap, gc);
    CARD16(&fill, 0, 0, WIDTH, HEIGHT);
    send_it(XM_NO_REPLY, &fill);
}

/* The server's descriptor of a new segment; of a segment 0 there is none, but an error. */
static int create(uint32_t segment) {
    struct request none = request(shm, CREATE_SEGMENT), r = none;
    CARD32(&none, 0, SIZE, 0);
    if (ask(XM_REPLY_WITH_FDS, &none, 0) != XM_CLASS_ERROR) die("there is a segment 0");
    CARD32(&r, segment, SIZE, 0);
    if (ask(XM_REPLY_WITH_FDS, &r, 1) != XM_CLASS_REPLY) die("CreateSegment makes error %u", out[1]);
    return (int)fds[0];
}

/* A descriptor of this program's becomes a segment: it goes with the first byte of the request. */
static int attach(uint32_t segment) {
    FILE *file = tmpfile();
    int fd = file == NULL ? -1 : fileno(file);
    uint64_t number;
    if (ftruncate(fd, SIZE) != 0) die("there is no file to share");
    union control control = {.header = {.cmsg_len = CMSG_LEN(sizeof fd), .cmsg_level = SOL_SOCKET, .cmsg_type = SCM_RIGHTS}};
    struct request r = request(shm, ATTACH_FD);
    CARD32(&r, segment, 0);
    r.bytes[2] = (uint8_t)(r.size / 4);
    struct iovec part = {r.bytes, r.size};
    struct msghdr message = MESSAGE(&part, &control);
    memcpy(CMSG_DATA(&control.header), &fd, sizeof fd);
    must("request", xm_send_request(XM_CONNECTION(&rooms), XM_NO_REPLY, &number));
    if (sendmsg(display.socket, &message, 0) != (ssize_t)r.size) die("the socket can't be written to");
    return fd;
}

/* How many pixels are right of those that the server writes into a segment. */
static unsigned right(uint32_t pixmap, uint32_t segment, int fd) {
    struct request r = request(shm, GET_IMAGE);
    unsigned count = 0;
    const uint8_t *bytes = mmap(NULL, SIZE, PROT_READ, MAP_SHARED, fd, 0);
    if (bytes == MAP_FAILED) die("the descriptor can't be mapped");
    CARD32(&r, pixmap);
    CARD16(&r, 0, 0, WIDTH, HEIGHT);
    CARD32(&r, 0xffffffff, Z_PIXMAP, segment, 0);
    if (ask(XM_REPLY_WITHOUT_FDS, &r, 0) != XM_CLASS_REPLY) die("GetImage makes error %u", out[1]);
    for (unsigned i = 0; i < SIZE; i += 4) count += (get32(bytes + i) & 0xffffff) == COLOUR;
    return count;
}

int main(void) {
    display = open_display();
    must("connection", xm_connection_new(XM_STATE(&rooms), XM_LITTLE, XM_ROOMS(&rooms)));
    must("reader", xm_reader_new(XM_ROW(&reader), XM_LITTLE, XM_BUFFER(&reader)));
    if (!has_shm()) return puts("segment: the server has no MIT-SHM 1.2") < 0;
    uint32_t pixmap = display.setup[XM_SETUP_BASE], gc = pixmap + 1, theirs = pixmap + 2, ours = pixmap + 3;
    draw(pixmap, gc);
    unsigned first = right(pixmap, theirs, create(theirs)), second = right(pixmap, ours, attach(ours));
    printf("segment: %u and %u of %u pixels are right\n", first, second, WIDTH * HEIGHT);
    return 0;
}
