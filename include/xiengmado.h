/*
 * Xiengmado: an X11 client engine whose every function is proved to meet its contract.
 *
 * The engine allocates nothing and makes no system call: the caller lends it state and rooms, and
 * reads and writes the socket. Each call answers XM_DONE, or the refusal that says why nothing was
 * done (enum xm_refusal). A REFUSAL CHANGES NOTHING: the state, every lent room and every number
 * behind a pointer are as they were, and the call can be made again once what it lacked is there.
 *
 *   to send     xm_send_request; where it answers XM_DONE, write the request
 *   to receive  xm_reader_buffer, read from the socket, xm_reader_advance; a whole packet goes to
 *               xm_enqueue_packet
 *   to take     xm_poll_for_reply and its neighbours, xm_poll_for_event_with_sequence
 *
 * examples/client.c is a whole client; docs/LIMITS.md has the limits, and what to do at each refusal.
 *
 * Any bytes and any numbers may be handed in; only the lending itself is on trust: a pointer with
 * the length n behind it must be valid for n elements (and not null, also where n is 0), what is not
 * const must overlap nothing else that is lent, and nobody else may write meanwhile.
 *
 * A state is a row of 64-bit numbers: XM_CONNECTION_SLOTS of them for a connection, XM_SLOTS for a
 * reader, a handshake and an allocator. It is copied, stored and compared like any numbers. Numbers
 * that are no state, or a row of another length, are refused by XM_BAD_ROOM, as every unsound state
 * is. No address is kept from one call to the next, so state and rooms can be moved.
 */
#ifndef XIENGMADO_H
#define XIENGMADO_H

#include <stdbool.h>
#include <stddef.h>
#include <stdint.h>

#ifdef __cplusplus
extern "C" {
#endif

/* The version of this header, and that of the archive: 65536 * major + 256 * minor + patch. */
#define XM_VERSION_MAJOR 0
#define XM_VERSION_MINOR 2
#define XM_VERSION_PATCH 0
#define XM_VERSION (XM_VERSION_MAJOR * 65536u + XM_VERSION_MINOR * 256u + XM_VERSION_PATCH)

uint32_t xm_version(void);

/* What a call answers where it refuses; XM_DONE otherwise. */
enum xm_refusal {
    XM_DONE = 0,
    XM_SHORT_PACKET = 1,     /* a packet under 32 bytes */
    XM_LONG_PACKET = 2,      /* a packet over 65,536 bytes or its buffer, a setup over its buffer */
    XM_NUMBER_END = 3,       /* a full number would pass 2^63 - 1 */
    XM_FEW_DESCRIPTORS = 4,  /* a reply claims more descriptors than wait */
    XM_NO_ROOM = 5,          /* no room for a request, a packet or a descriptor */
    XM_SYNC_FIRST = 6,       /* a request with a reply must be sent first */
    XM_OVER_ADVANCE = 7,     /* more bytes claimed than remain */
    XM_OUT_SHORT = 8,        /* the caller's output is too small */
    XM_BAD_ROOM = 9,         /* a length out of range, an unsound state, a kind or mode of no meaning */
    XM_ZERO_MASK = 10,       /* an id mask of 0 */
    XM_IDS_EXHAUSTED = 11,   /* no id left */
    XM_BAD_RANGE = 12,       /* a range whose last id is over 2^32 - 1 */
    XM_BAD_ORDER = 13,       /* a byte order other than XM_LITTLE and XM_BIG */
    XM_BAD_CONTENT = 14,     /* a wrong first byte, or inner lengths that pass the end */
    XM_INCOMPLETE = 15,      /* a setup asked for too early */
    XM_LONG_AUTH = 16,       /* an authorization name or data over 65,535 bytes */
    XM_HAS_DESCRIPTORS = 18, /* a savepoint asked for while a descriptor is inside */
    XM_BAD_SAVEPOINT = 19,   /* bytes that are no savepoint */
    XM_AHEAD = 20            /* a packet whose number is above the last written */
};

/* The archive answers 32 bits. */
#if defined __cplusplus && __cplusplus >= 201103L
static_assert(sizeof(enum xm_refusal) == sizeof(uint32_t), "a refusal has 32 bits");
#elif defined __STDC_VERSION__ && __STDC_VERSION__ >= 201112L
_Static_assert(sizeof(enum xm_refusal) == sizeof(uint32_t), "a refusal has 32 bits");
#endif

/* The name and the meaning of a refusal, for messages; of any number. */
static inline const char *xm_refusal_text(uint32_t number) {
    switch (number) {
    case XM_DONE: return "Done: nothing was refused";
    case XM_SHORT_PACKET: return "ShortPacket: a packet under 32 bytes";
    case XM_LONG_PACKET: return "LongPacket: a packet over 65,536 bytes, or over its buffer";
    case XM_NUMBER_END: return "NumberEnd: a full number would pass 2^63 - 1";
    case XM_FEW_DESCRIPTORS: return "FewDescriptors: a reply claims more descriptors than wait";
    case XM_NO_ROOM: return "NoRoom: no room for a request, a packet or a descriptor";
    case XM_SYNC_FIRST: return "SyncFirst: a request with a reply must be sent first";
    case XM_OVER_ADVANCE: return "OverAdvance: more bytes claimed than remain";
    case XM_OUT_SHORT: return "OutShort: an output is too small";
    case XM_BAD_ROOM: return "BadRoom: a length out of range, an unsound state, or no kind or mode";
    case XM_ZERO_MASK: return "ZeroMask: an id mask of 0";
    case XM_IDS_EXHAUSTED: return "IdsExhausted: no id left";
    case XM_BAD_RANGE: return "BadRange: a range whose last id is over 2^32 - 1";
    case XM_BAD_ORDER: return "BadOrder: a byte order other than l and B";
    case XM_BAD_CONTENT: return "BadContent: a wrong first byte, or lengths that pass the end";
    case XM_INCOMPLETE: return "Incomplete: a setup asked for too early";
    case XM_LONG_AUTH: return "LongAuth: an authorization name or data over 65,535 bytes";
    case XM_HAS_DESCRIPTORS: return "HasDescriptors: no savepoint while a descriptor is inside";
    case XM_BAD_SAVEPOINT: return "BadSavepoint: bytes that are no savepoint";
    case XM_AHEAD: return "Ahead: a packet that answers what was not asked";
    default: return "no refusal has this number";
    }
}

/* Byte orders. */
enum { XM_LITTLE = 'l', XM_BIG = 'B' };

/* How many numbers a state has. */
enum { XM_CONNECTION_SLOTS = 16, XM_SLOTS = 3 };

/* How long rooms may be (struct xm_rooms). XM_DESCRIPTORS is the one length of the room for descriptors. */
enum {
    XM_LEAST_REQUESTS = 1,
    XM_MOST_REQUESTS = 65536,
    XM_LEAST_STORE = 48,
    XM_MOST_STORE = 16777216,
    XM_DESCRIPTORS = 256,
    XM_LEAST_PACKET_BUFFER = 32,
    XM_MOST_PACKET_BUFFER = 65536,
    XM_LEAST_SETUP_BUFFER = 8,
    XM_MOST_SETUP_BUFFER = 262148,
    XM_MOST_PACKET = 65536
};

/* The bytes of a held record in front of its packet: what a held packet costs beside its own. */
enum { XM_RECORD_HEADER = 16 };

/* Where the numbers of a state stand: of a connection (the last four are 0), */
enum {
    XM_STATE_ORDER = 0,
    XM_STATE_REQUESTS = 1, /* the length of the request room */
    XM_STATE_STORE = 2,    /* the length of the packet store */
    XM_STATE_WRITTEN = 3,  /* the last number written */
    XM_STATE_EXPECTED = 4, /* the next reply expected */
    XM_STATE_READ = 5,     /* the last number read */
    XM_STATE_FIRST = 6,    /* the first outstanding number; written + 1 where none is */
    XM_STATE_START = 7,    /* held records lie in the store from here .. */
    XM_STATE_END = 8,      /* .. to here */
    XM_STATE_CLOSED = 9,   /* descriptors to be closed: the first in their room, then .. */
    XM_STATE_HELD = 10,    /* .. those held, reply by reply, then .. */
    XM_STATE_WAITING = 11  /* .. those waiting */
};

/* of a reader and of a handshake, */
enum { XM_READER_ORDER = 0, XM_READER_FILLED = 1, XM_READER_TARGET = 2 };

/* and of an allocator. */
enum { XM_IDS_NEXT = 0, XM_IDS_LAST = 1, XM_IDS_STEP = 2 };

/*
 * What every call of a connection is lent: its state and its three rooms, set once by name. It owns
 * nothing, and what fresh rooms hold is no matter.
 *
 * requests  a byte for each request that is outstanding, that is until a packet of a later one came
 * store     XM_RECORD_HEADER bytes and its own for each packet that is held until it is polled
 * slots     descriptors that wait, are held with a reply, or are to be closed: 256 in all
 *
 * A longer room costs its memory and nothing else. A call first tests whatever is in the rooms: 20
 * outstanding requests cost it 1 ns, a held packet 2.5 ns; the calls of many steps test once.
 *
 * From xm_connection_new on lend the same lengths, which the state has too (others are refused by 9),
 * and what the last call left in the rooms. requests and store are both bytes, so no type tells them
 * apart, and exchanged rooms of one length are refused by 9 only where the state is unsound with
 * them: where the fields are set is the place to look.
 */
struct xm_rooms {
    uint64_t *state; /* XM_CONNECTION_SLOTS numbers */
    uint8_t *requests;
    size_t requests_len; /* XM_LEAST_REQUESTS to XM_MOST_REQUESTS, which is best: see xm_send_request */
    uint8_t *store;
    size_t store_len; /* XM_LEAST_STORE to XM_MOST_STORE */
    uint32_t *slots;  /* XM_DESCRIPTORS numbers */
};

/*
 * Its fields as the arguments of a call, const ones or not; the pointer is evaluated several times:
 *
 *     xm_connection_new(XM_STATE(&c), XM_LITTLE, XM_ROOMS(&c))
 *     xm_send_request(XM_CONNECTION(&c), XM_NO_REPLY, &number)
 */
#define XM_STATE(c) (c)->state, (size_t)XM_CONNECTION_SLOTS
#define XM_ROOMS(c) \
    (c)->requests, (c)->requests_len, (c)->store, (c)->store_len, (c)->slots, (size_t)XM_DESCRIPTORS
#define XM_CONNECTION(c) XM_STATE(c), XM_ROOMS(c)

/*
 * The same for a packet reader or a handshake, whose state is a row of XM_SLOTS numbers beside a buffer:
 *
 *     xm_reader_new(XM_ROW(&r), XM_LITTLE, XM_BUFFER(&r))
 *     xm_reader_advance(XM_READER(&r), amount, &size, &packet_class)
 *     xm_save(XM_CONNECTION(&c), XM_READER(&r), ids, XM_SLOTS, out, out_len, &length)
 */
struct xm_reader {
    uint64_t *row; /* XM_SLOTS numbers */
    uint8_t *buf;
    size_t buf_len;
};

#define XM_ROW(r) (r)->row, (size_t)XM_SLOTS
#define XM_BUFFER(r) (r)->buf, (r)->buf_len
#define XM_READER(r) XM_ROW(r), XM_BUFFER(r)

/* ---- sequence numbers ---- */

/*
 * The full number of a packet: the least one at or above the last read whose low 16 bits are wire.
 * Refused by 3.
 */
enum xm_refusal xm_full_number(uint64_t read, uint16_t wire, uint64_t *number);

/*
 * The rule of xm_send_request alone, for a caller who keeps the two numbers: call it before a request is
 * written. At 0 the request gets number, next is the next reply expected, and it may be written.
 * Refused by 3, then by 6 where it has no reply and a request with one must be sent first.
 */
enum xm_refusal xm_send(uint64_t written, uint64_t expected, bool reply, uint64_t *number,
                        uint64_t *next);

/* ---- packets ---- */

/*
 * What kind of packet it is, by its first byte: 0 is an error, 1 a reply, 35 a generic event, and all others
 * are events. SENT are the events that SendEvent made, which have the top bit set: 128 and 129 are events
 * that were sent, 163 a generic event that was.
 */
enum xm_class {
    XM_CLASS_ERROR = 0,
    XM_CLASS_REPLY = 1,
    XM_CLASS_EVENT = 2,
    XM_CLASS_SENT_EVENT = 3,
    XM_CLASS_GENERIC = 4,
    XM_CLASS_SENT_GENERIC = 5
};

/* The word of a class, for messages; of any number. */
static inline const char *xm_class_text(uint8_t packet_class) {
    switch (packet_class) {
    case XM_CLASS_ERROR: return "error";
    case XM_CLASS_REPLY: return "reply";
    case XM_CLASS_EVENT: return "event";
    case XM_CLASS_SENT_EVENT: return "sent-event";
    case XM_CLASS_GENERIC: return "generic";
    case XM_CLASS_SENT_GENERIC: return "sent-generic";
    default: return "no class has this number";
    }
}

/*
 * The framing rule: how many bytes a packet has that begins with code and has field at bytes 4 to 7, and its
 * class. Never refused. The calls below that take a packet in or hand one out give the class of that packet,
 * by the same rule; where they hand out none packet_class is 0.
 */
size_t xm_packet_length(uint8_t code, uint32_t field, uint8_t *packet_class);

/* Whether a packet's fields can be read. Refused by 1, 2, 13, and 14 where it does not begin with first. */
enum xm_refusal xm_check_packet(uint8_t order, const uint8_t *packet, size_t packet_len,
                                uint8_t first);

/* The fields of an error packet. Refused as by xm_check_packet with first 0. */
enum xm_refusal xm_error(uint8_t order, const uint8_t *packet, size_t packet_len, uint8_t *code,
                         uint16_t *sequence, uint32_t *value, uint16_t *minor, uint8_t *major);

/* ---- ids ---- */

/* An allocator for the resource-id-base and resource-id-mask of a setup. Refused by 9 for a row of
 * other than 3 numbers, then by 10. */
enum xm_refusal xm_ids_new(uint64_t *ids, size_t ids_len, uint32_t base, uint32_t mask);

/* The next id. Refused by 9, 11. */
enum xm_refusal xm_ids_generate_id(uint64_t *ids, size_t ids_len, uint32_t *id);

/* Go on with the start and the count of a GetXIDRange reply. Refused by 9, 11, 12. */
enum xm_refusal xm_ids_update_xid_range(uint64_t *ids, size_t ids_len, uint32_t start,
                                        uint32_t count);

/* ---- XC-MISC: requests go to the start of out, size says how many bytes; opcode is the extension's ---- */

/* Refused by 8 where out has under 8 bytes, then by 13. */
enum xm_refusal xm_xc_misc_get_version_request(uint8_t order, uint8_t opcode, uint16_t major,
                                               uint16_t minor, uint8_t *out, size_t out_len,
                                               size_t *size);

/* Refused by 8 where out has under 4 bytes, then by 13. */
enum xm_refusal xm_xc_misc_get_xid_range_request(uint8_t order, uint8_t opcode, uint8_t *out,
                                                 size_t out_len, size_t *size);

/* Refused by 8 where out has under 8 bytes, then by 13. */
enum xm_refusal xm_xc_misc_get_xid_list_request(uint8_t order, uint8_t opcode, uint32_t count,
                                                uint8_t *out, size_t out_len, size_t *size);

/* Replies are refused by 1, 2, 13, and 14 where the first byte isn't 1 or the length passes the end. */
enum xm_refusal xm_xc_misc_get_version_reply(uint8_t order, const uint8_t *packet,
                                             size_t packet_len, uint16_t *sequence,
                                             uint32_t *length, uint16_t *major, uint16_t *minor);

enum xm_refusal xm_xc_misc_get_xid_range_reply(uint8_t order, const uint8_t *packet,
                                               size_t packet_len, uint16_t *sequence,
                                               uint32_t *length, uint32_t *start, uint32_t *count);

/* The ids go to the start of ids. Refused by 14 also where they pass the end, and last by 8. */
enum xm_refusal xm_xc_misc_get_xid_list_reply(uint8_t order, const uint8_t *packet,
                                              size_t packet_len, uint32_t *ids, size_t ids_len,
                                              uint16_t *sequence, uint32_t *length,
                                              uint32_t *count);

/*
 * ---- the packet reader ----
 *
 * The buffer belongs to the reader while a packet is partial: lend the same bytes in the same length
 * with each call. The row has no more than the count of filled bytes and of those wanted, so another
 * buffer is refused by 9 only where it is too short for the packet or its length field says another
 * length; otherwise its bytes are taken for the packet's. Once a packet is whole the buffer is the
 * caller's: hand the packet in, or copy it, before the buffer is filled again.
 */

/* A reader with nothing filled. Refused by 9 for a buffer out of range, then by 13. */
enum xm_refusal xm_reader_new(uint64_t *reader, size_t reader_len, uint8_t order,
                              const uint8_t *buf, size_t buf_len);

/* How many bytes the part has that is to be filled next. Refused by 9. */
enum xm_refusal xm_reader_remaining_capacity(const uint64_t *reader, size_t reader_len,
                                             const uint8_t *buf, size_t buf_len, size_t *size);

/* The part of buf that is to be filled next: where it starts and its size. Refused by 9. */
enum xm_refusal xm_reader_buffer(const uint64_t *reader, size_t reader_len, const uint8_t *buf,
                                 size_t buf_len, size_t *start, size_t *size);

/*
 * Counts amount bytes of that part as filled. A whole packet is the first size bytes of buf, and the
 * reader begins anew; size and packet_class are 0 where it isn't whole yet. Refused by 9, 7, and 2 where
 * the packet is longer than the buffer: its first 32 bytes are then at the start of buf, the rest is still
 * to be read (xm_packet_length says how much), and the reader is to be made anew. docs/LIMITS.md says how
 * such a packet is taken in, examples/image.c does it.
 */
enum xm_refusal xm_reader_advance(uint64_t *reader, size_t reader_len, const uint8_t *buf,
                                  size_t buf_len, size_t amount, size_t *size,
                                  uint8_t *packet_class);

/* ---- the handshake ---- */

/*
 * The request that opens a connection, with the authorization's protocol name and data (both of
 * length 0 for none), to the start of out. Refused by 13, 16, and 8 where out is too small.
 */
enum xm_refusal xm_setup_request(uint8_t order, const uint8_t *name, size_t name_len,
                                 const uint8_t *auth, size_t auth_len, uint8_t *out, size_t out_len,
                                 size_t *size);

/*
 * A handshake with nothing filled. Its buffer must stay as it is until the setup, the vendor and the
 * reason were read. Refused by 9 for a buffer out of range, then by 13.
 */
enum xm_refusal xm_connect_new(uint64_t *connect, size_t connect_len, uint8_t order,
                               const uint8_t *buf, size_t buf_len);

/* As the functions of the reader; the part is empty once the reply is complete. Refused by 9. */
enum xm_refusal xm_connect_remaining_capacity(const uint64_t *connect, size_t connect_len,
                                              const uint8_t *buf, size_t buf_len, size_t *size);
enum xm_refusal xm_connect_buffer(const uint64_t *connect, size_t connect_len, const uint8_t *buf,
                                  size_t buf_len, size_t *start, size_t *size);

/* Counts amount bytes as filled; complete is 1 once the whole reply is there. Refused by 9, 7, 2. */
enum xm_refusal xm_connect_advance(uint64_t *connect, size_t connect_len, const uint8_t *buf,
                                   size_t buf_len, size_t amount, uint8_t *complete);

/* What a setup reply can be, */
enum { XM_SETUP_FAILED = 0, XM_SETUP_SUCCESS = 1, XM_SETUP_AUTHENTICATE = 2 };

/*
 * and where its fields stand. A success has all of them; a failure has the first three and
 * XM_SETUP_REASON, the length of its reason; further authentication has XM_SETUP_LENGTH alone.
 */
enum {
    XM_SETUP_MAJOR = 0,    /* protocol-major-version */
    XM_SETUP_MINOR = 1,    /* protocol-minor-version */
    XM_SETUP_LENGTH = 2,   /* length of the data behind the eighth byte, in units of four bytes */
    XM_SETUP_RELEASE = 3,  /* release-number */
    XM_SETUP_REASON = 3,   /* length of reason, in bytes */
    XM_SETUP_BASE = 4,     /* resource-id-base, for xm_ids_new */
    XM_SETUP_MASK = 5,     /* resource-id-mask, for xm_ids_new */
    XM_SETUP_MOTION = 6,   /* motion-buffer-size */
    XM_SETUP_VENDOR = 7,   /* length of vendor, in bytes */
    XM_SETUP_REQUEST = 8,  /* maximum-request-length, in units of four bytes */
    XM_SETUP_ROOTS = 9,    /* number of SCREENs in roots */
    XM_SETUP_FORMATS = 10, /* number of FORMATs in pixmap-formats */
    XM_SETUP_IMAGE = 11,   /* image-byte-order: 0 LSBFirst, 1 MSBFirst */
    XM_SETUP_BITMAP = 12,  /* bitmap-format-bit-order: 0 LeastSignificant, 1 MostSignificant */
    XM_SETUP_UNIT = 13,    /* bitmap-format-scanline-unit */
    XM_SETUP_PAD = 14,     /* bitmap-format-scanline-pad */
    XM_SETUP_FIRST = 15,   /* min-keycode */
    XM_SETUP_LAST = 16,    /* max-keycode */
    XM_SETUP_FIELDS = 17
};

/*
 * What a complete reply says. The formats, of 8 bytes each, stand in buf behind 40 bytes and the vendor's
 * text, which is filled up to a multiple of four; behind them the screens. Refused by 9, 15, 14, and
 * 8 for under XM_SETUP_FIELDS fields.
 */
enum xm_refusal xm_connect_setup(const uint64_t *connect, size_t connect_len, const uint8_t *buf,
                                 size_t buf_len, uint8_t *status, uint32_t *fields,
                                 size_t fields_len);

/*
 * The vendor's text of a success, and the reason of any other reply: where the text starts in buf and
 * its size; 0 and 0 where the reply has no such text. Refused by 9, 15, 14.
 */
enum xm_refusal xm_connect_vendor(const uint64_t *connect, size_t connect_len, const uint8_t *buf,
                                  size_t buf_len, size_t *start, size_t *size);
enum xm_refusal xm_connect_reason(const uint64_t *connect, size_t connect_len, const uint8_t *buf,
                                  size_t buf_len, size_t *start, size_t *size);

/* ---- the connection ---- */

/* Kinds of a request. */
enum { XM_NO_REPLY = 0, XM_REPLY_WITHOUT_FDS = 1, XM_REPLY_WITH_FDS = 2 };

/* Modes of a request; xm_discard_reply takes the last two. */
enum { XM_KEEP = 0, XM_DISCARD_REPLY = 1, XM_DISCARD_REPLY_AND_ERROR = 2 };

/* Where a packet was filed. */
enum { XM_REPLIES = 0, XM_EVENTS = 1, XM_DROPPED = 2 };

/* The result of a poll. */
enum { XM_TRY_AGAIN = 0, XM_NO_REPLY_COMES = 1, XM_REPLY = 2 };

/*
 * A fresh connection in these rooms. Refused by 9 for a state of other than 16 numbers, a room out of
 * range or other than 256 slots, then by 13.
 */
enum xm_refusal xm_connection_new(uint64_t *state, size_t state_len, uint8_t order,
                                  const uint8_t *requests, size_t requests_len,
                                  const uint8_t *store, size_t store_len, const uint32_t *slots,
                                  size_t slots_len);

/*
 * The number of the next request. Call it BEFORE the request is written:
 *
 * at 0  write the request, which has this number;
 * at 6  send one with a reply first, and then call again. The usual one is GetInputFocus: kind
 *       XM_REPLY_WITHOUT_FDS, bytes 43 0 1 0 (43 0 0 1 in big-endian order). Its reply need not be
 *       waited for: drop it by xm_discard_reply, or poll it when it is there;
 * at 5  the request room is full: read and take packets in, poll what you wait for, call again. With
 *       XM_MOST_REQUESTS places a reply is then on its way. With fewer the room can fill up with
 *       requests that have none, and nothing may come: while one place is left, send one that has
 *       (state[XM_STATE_WRITTEN] + 1 - state[XM_STATE_FIRST] requests are outstanding).
 *
 * Refused by 9 (for a kind of no meaning too), 3 at the end of the numbers, 6, 5.
 */
enum xm_refusal xm_send_request(uint64_t *state, size_t state_len, uint8_t *requests,
                                size_t requests_len, const uint8_t *store, size_t store_len,
                                const uint32_t *slots, size_t slots_len, uint8_t kind,
                                uint64_t *number);

/*
 * What stopped a call that makes many steps: the end of what it was given, the number of the next
 * step's refusal, a byte that is no kind, or a part of a packet.
 */
enum { XM_STOP_END = 0, XM_STOP_PART = 254, XM_STOP_NO_KIND = 255 };

/*
 * The same for many requests, one for each kind, before they are written: count of them have numbers, up
 * to the last number written, and may be written. What stopped it is XM_STOP_END, XM_STOP_NO_KIND, or
 * the next one's 3, 6 or 5: then do as xm_send_request says. Refused by 9.
 */
enum xm_refusal xm_send_requests(uint64_t *state, size_t state_len, uint8_t *requests,
                                 size_t requests_len, const uint8_t *store, size_t store_len,
                                 const uint32_t *slots, size_t slots_len, const uint8_t *kinds,
                                 size_t kinds_len, size_t *count, uint64_t *number, uint32_t *stop);

/*
 * The answers to a request are not wanted, neither those to come nor those held. Under
 * XM_DISCARD_REPLY held errors become events. Refused by 9.
 */
enum xm_refusal xm_discard_reply(uint64_t *state, size_t state_len, uint8_t *requests,
                                 size_t requests_len, uint8_t *store, size_t store_len,
                                 uint32_t *slots, size_t slots_len, uint64_t number, uint8_t mode);

/*
 * Descriptors came: they wait for the replies that they belong to, so hand them in before the packets
 * whose bytes they came with. Refused by 9, and 5 where more than 256 would be inside: take those to be
 * closed, and poll replies with descriptors.
 */
enum xm_refusal xm_enqueue_fds(uint64_t *state, size_t state_len, const uint8_t *requests,
                               size_t requests_len, const uint8_t *store, size_t store_len,
                               uint32_t *slots, size_t slots_len, const uint32_t *list,
                               size_t list_len);

/*
 * A packet came: where it was filed, under which number, and its class. A KeymapNotify (code 11, or 139 by
 * SendEvent) has key bits where others have their number, and gets the last one read; it is never refused by
 * 20. At 20 the packet's number is above the last written: the server answered what was not asked. At 4 hand
 * in the descriptors that came with its bytes, at 5 poll or discard what is held, and then offer it again.
 * Only its first 32 bytes are looked at, so that a packet of over 65,536 bytes can be taken in by those alone
 * (docs/LIMITS.md). Refused by 9, 1, 2, 3, 20, 4, 5.
 */
enum xm_refusal xm_enqueue_packet(uint64_t *state, size_t state_len, const uint8_t *requests,
                                  size_t requests_len, uint8_t *store, size_t store_len,
                                  uint32_t *slots, size_t slots_len, const uint8_t *packet,
                                  size_t packet_len, uint8_t *place, uint64_t *number,
                                  uint8_t *packet_class);

/*
 * Bytes came from the server: each whole packet that they begin with is taken in as xm_enqueue_packet
 * does, up to the first that is refused by 2, 3, 20, 4 or 5. How many bytes (size) and packets (count)
 * were taken, and what stopped it: XM_STOP_END where no byte is left, XM_STOP_PART where part of a packet
 * is, otherwise the refusal of the next packet. What is left is to be offered again, at 20 without its
 * first packet, if at all. Refused by 9.
 */
enum xm_refusal xm_enqueue_packets(uint64_t *state, size_t state_len, const uint8_t *requests,
                                   size_t requests_len, uint8_t *store, size_t store_len,
                                   uint32_t *slots, size_t slots_len, const uint8_t *bytes,
                                   size_t bytes_len, size_t *size, size_t *count, uint32_t *stop);

/*
 * Polls copy a packet to the start of out. Where out has no room for it, or fds none for its descriptors,
 * they are refused by 8, and the packet stays held. XM_MOST_PACKET bytes and XM_DESCRIPTORS places are
 * always enough, fewer where every packet that was taken in is shorter.
 */

/*
 * The oldest reply or error of a request, and its class: found is 1, size bytes are at the start of out
 * and count descriptors, the caller's from then on, at the start of fds. All four are 0 where none is
 * held. Refused by 9, and 8 where out or fds is too small.
 */
enum xm_refusal xm_poll_for_reply_or_error(uint64_t *state, size_t state_len,
                                           const uint8_t *requests, size_t requests_len,
                                           uint8_t *store, size_t store_len, uint32_t *slots,
                                           size_t slots_len, uint64_t number, uint8_t *out,
                                           size_t out_len, uint32_t *fds, size_t fds_len,
                                           uint8_t *found, size_t *size, size_t *count,
                                           uint8_t *packet_class);

/*
 * Sync is 1 where a request with a reply (GetInputFocus, as at 6 above) must be sent before
 * xm_poll_check_for_reply_or_error can tell that no error comes. Refused by 9.
 */
enum xm_refusal xm_prepare_check_for_reply_or_error(const uint64_t *state, size_t state_len,
                                                    const uint8_t *requests, size_t requests_len,
                                                    const uint8_t *store, size_t store_len,
                                                    const uint32_t *slots, size_t slots_len,
                                                    uint64_t number, uint8_t *sync);

/*
 * The oldest reply or error of a request, and its class; its descriptors are to be closed.
 * XM_NO_REPLY_COMES only where a packet above the number was read. Size and packet_class are 0 but for
 * XM_REPLY. Refused by 9, and 8 where out is too small.
 */
enum xm_refusal xm_poll_check_for_reply_or_error(uint64_t *state, size_t state_len,
                                                 const uint8_t *requests, size_t requests_len,
                                                 uint8_t *store, size_t store_len, uint32_t *slots,
                                                 size_t slots_len, uint64_t number, uint8_t *out,
                                                 size_t out_len, uint8_t *result, size_t *size,
                                                 uint8_t *packet_class);

/*
 * The oldest reply of a request, and its class; its descriptors are to be closed. An error becomes an
 * event, and no reply comes. Size and packet_class are 0 but for XM_REPLY. Refused by 9, and 8 where out
 * is too small for a reply.
 */
enum xm_refusal xm_poll_for_reply(uint64_t *state, size_t state_len, const uint8_t *requests,
                                  size_t requests_len, uint8_t *store, size_t store_len,
                                  uint32_t *slots, size_t slots_len, uint64_t number, uint8_t *out,
                                  size_t out_len, uint8_t *result, size_t *size,
                                  uint8_t *packet_class);

/*
 * The oldest event: found is 1, and its number, bytes and class. All four are 0 where none is held. Among
 * the events are the errors that nobody waits for: of those the class is XM_CLASS_ERROR. Refused by 9, and
 * 8 where out is too small.
 */
enum xm_refusal xm_poll_for_event_with_sequence(uint64_t *state, size_t state_len,
                                                const uint8_t *requests, size_t requests_len,
                                                uint8_t *store, size_t store_len,
                                                const uint32_t *slots, size_t slots_len,
                                                uint8_t *out, size_t out_len, uint8_t *found,
                                                uint64_t *number, size_t *size,
                                                uint8_t *packet_class);

/* The marks of an event, each at its place, and how many there are. */
enum { XM_MARK_NUMBER = 0, XM_MARK_LENGTH = 1, XM_MARK_CLASS = 2, XM_MARKS = 3 };

/*
 * As many events as fit, oldest first: count events, whose packets, size bytes in all, are one behind
 * the other at the start of out, and for each XM_MARKS marks: its number, the length of its packet and
 * its class. What stopped it is XM_STOP_END where no event is left, otherwise 8. Refused by 9, and 8
 * where there is an event and not even one fits.
 */
enum xm_refusal xm_poll_for_events(uint64_t *state, size_t state_len, const uint8_t *requests,
                                   size_t requests_len, uint8_t *store, size_t store_len,
                                   const uint32_t *slots, size_t slots_len, uint8_t *out,
                                   size_t out_len, uint64_t *marks, size_t marks_len, size_t *count,
                                   size_t *size, uint32_t *stop);

/*
 * The descriptors that nobody will ask for, whole and in their order, at the start of out: the caller's, to
 * be closed. XM_DESCRIPTORS places are always enough. state[XM_STATE_CLOSED] says how many there are. More
 * come by xm_enqueue_packet and xm_enqueue_packets (a reply that is dropped), xm_discard_reply,
 * xm_poll_for_reply and xm_poll_check_for_reply_or_error. Those that are never taken stay open, keep
 * their places of the 256 until xm_enqueue_fds refuses by 5, and let no savepoint be made. Refused by 9,
 * and 8 where out has too few places.
 */
enum xm_refusal xm_take_closed_fds(uint64_t *state, size_t state_len, const uint8_t *requests,
                                   size_t requests_len, const uint8_t *store, size_t store_len,
                                   uint32_t *slots, size_t slots_len, uint32_t *out, size_t out_len,
                                   size_t *count);

/* ---- savepoints: a connection, a packet reader and an id allocator written to bytes and read back ---- */

/*
 * How many bytes a savepoint takes. Refused by 9 where connection, reader or allocator is unsound, then
 * by 18 while a descriptor is waiting, held or to be closed.
 */
enum xm_refusal xm_savepoint_length(const uint64_t *state, size_t state_len,
                                    const uint8_t *requests, size_t requests_len,
                                    const uint8_t *store, size_t store_len, const uint32_t *slots,
                                    size_t slots_len, const uint64_t *reader, size_t reader_len,
                                    const uint8_t *buf, size_t buf_len, const uint64_t *ids,
                                    size_t ids_len, size_t *length);

/* A savepoint at the start of out, length bytes of it. Refused by 9, 18, and 8 where out is too small. */
enum xm_refusal xm_save(const uint64_t *state, size_t state_len, const uint8_t *requests,
                        size_t requests_len, const uint8_t *store, size_t store_len,
                        const uint32_t *slots, size_t slots_len, const uint64_t *reader,
                        size_t reader_len, const uint8_t *buf, size_t buf_len, const uint64_t *ids,
                        size_t ids_len, uint8_t *out, size_t out_len, size_t *length);

/*
 * What was saved, in these rows, rooms and buffer; what they held before is no matter. Refused by 19 for
 * bytes that are no savepoint, then by 9 for rooms or a buffer of other lengths than those saved, other
 * than 256 slots, or rows of other than 16, 3 and 3 numbers.
 */
enum xm_refusal xm_restore(const uint8_t *bytes, size_t bytes_len, uint64_t *state,
                           size_t state_len, uint8_t *requests, size_t requests_len, uint8_t *store,
                           size_t store_len, const uint32_t *slots, size_t slots_len,
                           uint64_t *reader, size_t reader_len, uint8_t *buf, size_t buf_len,
                           uint64_t *ids, size_t ids_len);

/* ---- what the rooms of a connection hold, for those who compare runs or look for a fault ---- */

/*
 * What is kept of the request of a number: 1 where its reply has descriptors, and its mode. It means
 * something for outstanding numbers alone. Refused by 9 for a room out of range.
 */
enum xm_refusal xm_request_at(const uint8_t *requests, size_t requests_len, uint64_t number,
                              uint8_t *descriptors, uint8_t *mode);

/*
 * The record at an index of the packet store, the window ending at end: XM_REPLIES or XM_EVENTS, its
 * number, the length of its packet and its descriptors. The first record stands at XM_STATE_START, its
 * packet XM_RECORD_HEADER bytes behind it, and the next record where the packet ends. Refused by 9 where
 * no whole record stands there.
 */
enum xm_refusal xm_record_at(const uint8_t *store, size_t store_len, size_t at, size_t end,
                             uint8_t *kind, uint64_t *number, size_t *size, uint8_t *count);

#ifdef __cplusplus
}
#endif

#endif
