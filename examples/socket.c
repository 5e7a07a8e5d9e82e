#define _POSIX_C_SOURCE 200809L
#include "socket.h"

#include <errno.h>
#include <stdarg.h>
#include <stdio.h>
#include <stdlib.h>
#include <string.h>
#include <sys/socket.h>
#include <sys/un.h>
#include <unistd.h>

_Noreturn void die(const char *format, ...) {
    va_list arguments;
    va_start(arguments, format);
    vfprintf(stderr, format, arguments);
    va_end(arguments);
    fputc('\n', stderr);
    exit(1);
}

void must(const char *what, enum xm_refusal refusal) {
    if (refusal != XM_DONE) die("%s: refusal %u, %s", what, (unsigned)refusal, xm_refusal_text(refusal));
}

/* ---- bytes */

size_t read_some(int socket, uint8_t *bytes, size_t size) {
    ssize_t count = read(socket, bytes, size);
    if (count < 0) die("the socket can't be read: %s", strerror(errno));
    if (count == 0) die("the server has closed the connection");
    return (size_t)count;
}

void read_all(int socket, uint8_t *bytes, size_t size) {
    for (size_t done = 0; done < size;) done += read_some(socket, bytes + done, size - done);
}

static void write_all(int socket, const uint8_t *bytes, size_t size) {
    for (size_t done = 0; done < size;) {
        ssize_t count = write(socket, bytes + done, size - done);
        if (count < 0) die("the socket can't be written to: %s", strerror(errno));
        done += (size_t)count;
    }
}

struct request request(uint8_t opcode, uint8_t detail) {
    return (struct request){{opcode, detail, 0, 0}, 4};
}

static void byte(struct request *r, uint8_t number) {
    if (r->size == sizeof r->bytes) die("a request over %zu bytes", sizeof r->bytes);
    r->bytes[r->size++] = number;
}

static void card(struct request *r, unsigned width, uint32_t number) {
    for (unsigned i = 0; i < width; i++) byte(r, (uint8_t)(number >> 8 * i));
}

void cards(struct request *r, unsigned width, const uint32_t *numbers, size_t count) {
    for (size_t i = 0; i < count; i++) card(r, width, numbers[i]);
}

void padded(struct request *r, const char *text) {
    while (*text != 0) byte(r, (uint8_t)*text++);
    while (r->size % 4 != 0) byte(r, 0);
}

/* The length of a request stands in its third and fourth byte, in units of four. */
void write_request(int socket, struct request *r) {
    r->bytes[2] = (uint8_t)(r->size / 4);
    write_all(socket, r->bytes, r->size);
}

uint16_t get16(const uint8_t *at) { return (uint16_t)(at[0] | at[1] << 8); }

uint32_t get32(const uint8_t *at) { return get16(at) | (uint32_t)get16(at + 2) << 16; }

/* ---- the cookie */

#define COOKIE "MIT-MAGIC-COOKIE-1"

struct text {
    size_t size;
    uint8_t bytes[65535];
};

static bool is(const struct text *t, const char *other) {
    return t->size == strlen(other) && memcmp(t->bytes, other, t->size) == 0;
}

/* The next text of an authority file: its length in two bytes, the high one first, and its bytes. */
static bool next(FILE *file, struct text *t) {
    int high = fgetc(file), low = fgetc(file);
    if (low == EOF) return false;
    t->size = (size_t)high << 8 | (size_t)low;
    return fread(t->bytes, 1, t->size, file) == t->size;
}

/* The cookie of a display's number. An entry is a family of two bytes and four texts; whose host it is isn't asked. */
static bool find_cookie(const char *number, struct text *data) {
    static struct text address, display, name;
    char path[4096] = "";
    const char *given = getenv("XAUTHORITY"), *home = getenv("HOME");
    snprintf(path, sizeof path, "%s%s", given ? given : home ? home : "", given ? "" : "/.Xauthority");
    FILE *file = fopen(path, "rb");
    bool found = false;
    if (file == NULL) return false;
    while (!found && fgetc(file) != EOF && fgetc(file) != EOF && next(file, &address) && next(file, &display) &&
           next(file, &name) && next(file, data)) {
        found = is(&name, COOKIE) && (display.size == 0 || is(&display, number));
    }
    fclose(file);
    return found;
}

/* ---- the display */

/* The number of a local display: :0, :0.0, unix:0. */
static void display_number(char *number, size_t room) {
    const char *display = getenv("DISPLAY");
    if (display == NULL) die("DISPLAY is not set");
    const char *colon = strrchr(display, ':');
    if (colon == NULL || (colon != display && strncmp(display, "unix:", 5) != 0)) die("%s is no local display", display);
    snprintf(number, room, "%.*s", (int)strcspn(colon + 1, "."), colon + 1);
}

static int open_socket(const char *number) {
    struct sockaddr_un address = {.sun_family = AF_UNIX};
    snprintf(address.sun_path, sizeof address.sun_path, "/tmp/.X11-unix/X%s", number);
    int fd = socket(AF_UNIX, SOCK_STREAM, 0);
    if (fd < 0 || connect(fd, (struct sockaddr *)&address, sizeof address) != 0) {
        die("the socket %s can't be opened: %s", address.sun_path, strerror(errno));
    }
    return fd;
}

/* Writes the request that opens a connection, with the cookie if there is one. */
static void write_setup(int fd, const char *number) {
    static struct text cookie;
    uint8_t bytes[256];
    size_t size, name_size = strlen(COOKIE);
    if (!find_cookie(number, &cookie)) name_size = cookie.size = 0;
    must("setup request", xm_setup_request(XM_LITTLE, (const uint8_t *)COOKIE, name_size, cookie.bytes, cookie.size,
                                           bytes, sizeof bytes, &size));
    write_all(fd, bytes, size);
}

/* The first screen stands behind 40 bytes, the vendor's text and the formats. */
static void first_screen(struct display *d, const uint8_t *setup) {
    const uint8_t *screen = setup + 40 + (d->setup[XM_SETUP_VENDOR] + 3) / 4 * 4 + 8 * d->setup[XM_SETUP_FORMATS];
    d->root = get32(screen);
    d->width = get16(screen + 20);
    d->height = get16(screen + 22);
}

struct display open_display(void) {
    static uint64_t row[XM_SLOTS];
    static uint8_t buffer[XM_MOST_SETUP_BUFFER];
    const struct xm_reader answer = {.row = row, .buf = buffer, .buf_len = sizeof buffer};
    struct display d;
    char number[32];
    size_t start, size;
    uint8_t complete = 0, status;
    display_number(number, sizeof number);
    d.socket = open_socket(number);
    write_setup(d.socket, number);
    must("handshake", xm_connect_new(XM_ROW(&answer), XM_LITTLE, XM_BUFFER(&answer)));
    while (!complete) {
        must("handshake", xm_connect_buffer(XM_READER(&answer), &start, &size));
        size = read_some(d.socket, buffer + start, size);
        must("handshake", xm_connect_advance(XM_READER(&answer), size, &complete));
    }
    must("setup", xm_connect_setup(XM_READER(&answer), &status, d.setup, XM_SETUP_FIELDS));
    if (status != XM_SETUP_SUCCESS) {
        must("reason", xm_connect_reason(XM_READER(&answer), &start, &size));
        die("the server refuses: %.*s", (int)size, (const char *)buffer + start);
    }
    first_screen(&d, buffer);
    return d;
}
