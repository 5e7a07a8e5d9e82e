/*
 * Feeds handshakes and packet readers byte by byte through the static library, and says what each byte comes to.
 *
 * Standard input has cases side by side: `h` for a handshake or `r` for a reader, the byte order, the length of the
 * lent buffer and the count of bytes (32 bits each, little-endian), and the bytes. Each case is answered by a line.
 */
#include <stdio.h>

#include "xiengmado.h"

/* The buffer that is lent, of which a case uses the start. What earlier cases left in it means nothing. */
static uint8_t room[XM_MOST_SETUP_BUFFER];
static size_t room_len;

/* The state of the handshake or the reader. */
static uint64_t row[XM_SLOTS];

#define LENT row, XM_SLOTS, room, room_len

static void say_number(uint64_t number) { printf(" %llu", (unsigned long long)number); }

static void say_refused(enum xm_refusal refusal) { printf(" refused %u", (unsigned)refusal); }

/* The bytes in hex, in one word. */
static void say_bytes(size_t start, size_t size) {
    putchar(' ');
    for (size_t i = start; i < start + size; i++) printf("%02x", (unsigned)room[i]);
}

/* ---- a handshake: a sign for what the setup says before the first byte and after each, which is the reply cut at
 * every length; then what the last answer says. */

static uint32_t fields[XM_SETUP_FIELDS];

static char sign(void) {
    uint8_t status = 0;
    switch (xm_connect_setup(LENT, &status, fields, XM_SETUP_FIELDS)) {
    case XM_DONE: return status == XM_SETUP_SUCCESS ? 'S' : status == XM_SETUP_FAILED ? 'F' : 'A';
    case XM_INCOMPLETE: return '-';
    case XM_BAD_CONTENT: return 'x';
    default: return '?';
    }
}

/* The byte goes to the first place of the lent part, if it has one. */
static enum xm_refusal connect_byte(uint8_t byte) {
    size_t start = 0, size = 0;
    uint8_t complete = 0;
    if (xm_connect_buffer(LENT, &start, &size) == XM_DONE && size > 0) room[start] = byte;
    return xm_connect_advance(LENT, 1, &complete);
}

typedef enum xm_refusal text(const uint64_t *, size_t, const uint8_t *, size_t, size_t *, size_t *);

static void say_text(text *which) {
    size_t start = 0, size = 0;
    enum xm_refusal refusal = which(LENT, &start, &size);
    if (refusal != XM_DONE) say_refused(refusal);
    else say_bytes(start, size);
}

static void say_fields(size_t first, size_t end) {
    for (size_t i = first; i < end; i++) say_number(fields[i]);
}

static void say_setup(void) {
    uint8_t status = 0;
    enum xm_refusal refusal = xm_connect_setup(LENT, &status, fields, XM_SETUP_FIELDS);
    if (refusal != XM_DONE) {
        say_refused(refusal);
    } else if (status == XM_SETUP_SUCCESS) {
        say_fields(0, XM_SETUP_FIELDS);
        say_text(xm_connect_vendor);
    } else {
        say_fields(status == XM_SETUP_FAILED ? 0 : XM_SETUP_LENGTH, XM_SETUP_LENGTH + 1);
        say_text(xm_connect_reason);
    }
}

/* The bytes, as far as none is refused. */
static void handshake(uint8_t order, const uint8_t *bytes, size_t count) {
    enum xm_refusal refusal = xm_connect_new(row, XM_SLOTS, order, room, room_len);
    printf("handshake ");
    if (refusal == XM_DONE) putchar(sign());
    for (size_t i = 0; refusal == XM_DONE && i < count; i++) {
        refusal = connect_byte(bytes[i]);
        if (refusal == XM_DONE) putchar(sign());
    }
    if (refusal == XM_DONE) say_setup();
    else say_refused(refusal);
}

/* ---- a reader: after each byte the room that is left, or the packet that it makes whole, with its class */

static void say_room(void) {
    size_t size = 0;
    enum xm_refusal refusal = xm_reader_remaining_capacity(LENT, &size);
    if (refusal != XM_DONE) say_refused(refusal);
    else say_number(size);
}

static enum xm_refusal reader_byte(uint8_t byte) {
    size_t start = 0, size = 0, whole = 0;
    uint8_t packet_class = 0;
    if (xm_reader_buffer(LENT, &start, &size) == XM_DONE && size > 0) room[start] = byte;
    enum xm_refusal refusal = xm_reader_advance(LENT, 1, &whole, &packet_class);
    if (refusal != XM_DONE) return refusal;
    if (whole > 0 || packet_class > 0) {
        printf(" packet %s", xm_class_text(packet_class));
        say_bytes(0, whole);
    } else {
        say_room();
    }
    return XM_DONE;
}

static void reader(uint8_t order, const uint8_t *bytes, size_t count) {
    enum xm_refusal refusal = xm_reader_new(row, XM_SLOTS, order, room, room_len);
    printf("reader");
    for (size_t i = 0; refusal == XM_DONE && i < count; i++) refusal = reader_byte(bytes[i]);
    if (refusal != XM_DONE) say_refused(refusal);
}

/* ---- the cases */

static size_t number_at(const uint8_t *head) {
    return head[0] | (size_t)head[1] << 8 | (size_t)head[2] << 16 | (size_t)head[3] << 24;
}

int main(void) {
    static uint8_t head[10], bytes[XM_MOST_SETUP_BUFFER];
    size_t got;
    while ((got = fread(head, 1, sizeof head, stdin)) == sizeof head) {
        size_t count = number_at(head + 6);
        room_len = number_at(head + 2);
        if (room_len > sizeof room || count > sizeof bytes || fread(bytes, 1, count, stdin) != count) return 1;
        if (head[0] == 'h') handshake(head[1], bytes, count);
        else if (head[0] == 'r') reader(head[1], bytes, count);
        else return 1;
        putchar('\n');
    }
    return got != 0;
}
