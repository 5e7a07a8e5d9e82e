/* The header and the static library from C: names and version, a request, its reply with a descriptor, many at once, a reader, a savepoint, an
 * unsound state, a full room, long packets, events without a number, an answer to nothing, the class of every packet; and the bytes of setup and
 * XC-MISC, which no field of is like another, in both byte orders. */
#include <stdio.h>
#include <string.h>

#include "xiengmado.h"

static int failed;

static void expect(const char *what, unsigned long long got, unsigned long long want) {
    if (got != want) {
        printf("library: %s is %llu, not %llu\n", what, got, want);
        failed = 1;
    }
}

static uint64_t state[XM_CONNECTION_SLOTS];
static uint8_t requests[16], store[1024], out[1024];
static uint32_t slots[XM_DESCRIPTORS], fds[XM_DESCRIPTORS];

static uint8_t packet[32] = {1, 1, 1};

static const struct xm_rooms rooms = {.state = state,
                                      .requests = requests,
                                      .requests_len = sizeof requests,
                                      .store = store,
                                      .store_len = sizeof store,
                                      .slots = slots};

#define CONNECTION XM_CONNECTION(&rooms)

/* The archive is that of the header; each refusal has a text of its own, and other numbers have another. */
static void named(void) {
    const char *texts[21], *other = xm_refusal_text(21);
    expect("version", xm_version(), XM_VERSION);
    for (uint32_t i = 0; i < 21; i++) {
        texts[i] = xm_refusal_text(i);
        expect("a number without a refusal", strcmp(texts[i], other) == 0, i == 17);
        for (uint32_t j = 0; j < i; j++) expect("a text that stands twice", strcmp(texts[i], texts[j]) == 0, 0);
    }
    expect("text", (unsigned)strcmp(xm_refusal_text(XM_SYNC_FIRST), "SyncFirst: a request with a reply must be sent first"), 0);
    expect("text of a stop", (unsigned)strcmp(xm_refusal_text(XM_STOP_PART), other), 0);
}

/* So has each class a word, and no other number. */
static void named_classes(void) {
    const char *words[6] = {"error", "reply", "event", "sent-event", "generic", "sent-generic"};
    for (uint8_t i = 0; i < 6; i++) expect("word of a class", (unsigned)strcmp(xm_class_text(i), words[i]), 0);
    expect("no word", (unsigned)strcmp(xm_class_text(6), xm_class_text(255)), 0);
    expect("the words are six", strcmp(xm_class_text(6), words[5]) != 0, 1);
}

/* A request, and its reply, which is refused until its descriptor is there. */
static void asked(void) {
    uint64_t number = 0;
    uint8_t place = 9, with = 9, mode = 9, class = 9;
    uint32_t seven = 7;
    expect("new", xm_connection_new(XM_STATE(&rooms), XM_LITTLE, XM_ROOMS(&rooms)), XM_DONE);
    expect("send", xm_send_request(CONNECTION, XM_REPLY_WITH_FDS, &number), XM_DONE);
    expect("number", number, 1);
    expect("request", xm_request_at(requests, sizeof requests, 1, &with, &mode), XM_DONE);
    expect("descriptors", with, 1);
    expect("mode", mode, XM_KEEP);
    expect("packet", xm_enqueue_packet(CONNECTION, packet, 32, &place, &number, &class), XM_FEW_DESCRIPTORS);
    expect("place", place, 9);
    expect("class", class, 9);
    expect("fds", xm_enqueue_fds(CONNECTION, &seven, 1), XM_DONE);
    expect("packet", xm_enqueue_packet(CONNECTION, packet, 32, &place, &number, &class), XM_DONE);
    expect("place", place, XM_REPLIES);
    expect("class", class, XM_CLASS_REPLY);
}

/* The reply, looked at where it is held, and then taken. */
static void answered(void) {
    uint64_t start = state[XM_STATE_START], end = state[XM_STATE_END], number = 0;
    uint8_t kind = 9, held = 9, sync = 9, found = 9, class = 9;
    size_t size = 9, count = 9;
    expect("record", xm_record_at(store, sizeof store, start, end, &kind, &number, &size, &held), XM_DONE);
    expect("kind", kind, XM_REPLIES);
    expect("size", size, 32);
    expect("used", end - start, XM_RECORD_HEADER + size);
    expect("held bytes", (unsigned)memcmp(store + start + XM_RECORD_HEADER, packet, 32), 0);
    expect("prepare", xm_prepare_check_for_reply_or_error(CONNECTION, 2, &sync), XM_DONE);
    expect("sync", sync, 1);
    expect("poll", xm_poll_for_reply_or_error(CONNECTION, 1, out, sizeof out, fds, XM_DESCRIPTORS, &found, &size, &count, &class), XM_DONE);
    expect("found", found, 1);
    expect("class", class, XM_CLASS_REPLY);
    expect("descriptors", count, 1);
    expect("descriptor", fds[0], 7);
    expect("bytes", (unsigned)memcmp(out, packet, 32), 0);
}

/* The calls that make many steps, and where each stops. */
static void at_once(void) {
    const uint8_t kinds[3] = {XM_NO_REPLY, XM_REPLY_WITHOUT_FDS, 3};
    uint64_t number = 0, marks[XM_MARKS] = {9, 9, 9};
    uint8_t place = 9, class = 9;
    size_t size = 9, count = 9;
    uint32_t stop = 9;
    expect("sends", xm_send_requests(CONNECTION, kinds, sizeof kinds, &count, &number, &stop), XM_DONE);
    expect("sent", count, 2);
    expect("last number", number, 3);
    expect("stop", stop, XM_STOP_NO_KIND);
    packet[0] = 2;
    expect("event", xm_enqueue_packet(CONNECTION, packet, 32, &place, &number, &class), XM_DONE);
    expect("run", xm_enqueue_packets(CONNECTION, packet, 31, &size, &count, &stop), XM_DONE);
    expect("bytes of a run", size, 0);
    expect("part of a packet", stop, XM_STOP_PART);
    expect("two marks", xm_poll_for_events(CONNECTION, out, sizeof out, marks, 2, &count, &size, &stop), XM_OUT_SHORT);
    expect("events", xm_poll_for_events(CONNECTION, out, sizeof out, marks, XM_MARKS, &count, &size, &stop), XM_DONE);
    expect("handed out", count, 1);
    expect("event's number", marks[XM_MARK_NUMBER], 1);
    expect("event's length", marks[XM_MARK_LENGTH], 32);
    expect("event's class", marks[XM_MARK_CLASS], XM_CLASS_EVENT);
    expect("event's bytes", (unsigned)memcmp(out, packet, 32), 0);
    expect("stop", stop, XM_STOP_END);
}

/* A reader: fresh, and at a packet that is longer than its buffer, whose head stays at the start of that. */
static void reader(void) {
    uint64_t row[XM_SLOTS];
    const struct xm_reader r = {.row = row, .buf = out, .buf_len = 64};
    const uint8_t head[32] = {1, 0, 0, 0, 0, 0, 0, 9};
    uint8_t class = 9;
    size_t start = 9, size = 9;
    expect("reader", xm_reader_new(XM_ROW(&r), XM_BIG, XM_BUFFER(&r)), XM_DONE);
    expect("buffer", xm_reader_buffer(XM_READER(&r), &start, &size), XM_DONE);
    expect("start", start, 0);
    expect("part", size, 32);
    memcpy(out, head, 32);
    expect("part of a head", xm_reader_advance(XM_READER(&r), 20, &size, &class), XM_DONE);
    expect("no class yet", class, 0);
    class = 9;
    expect("a long packet", xm_reader_advance(XM_READER(&r), 12, &size, &class), XM_LONG_PACKET);
    expect("filled as before", row[XM_READER_FILLED], 20);
    expect("class as before", class, 9);
    expect("its length", xm_packet_length(out[0], out[7], &class), 68);
    expect("its class", class, XM_CLASS_REPLY);
    expect("its head", (unsigned)memcmp(out, head, 32), 0);
}

/* Another buffer within a packet: seen where it is too short, or its length field says another length. */
static void another_buffer(void) {
    uint8_t bytes[64] = {1, 0, 0, 0, 0, 0, 0, 1}, class = 9;
    uint64_t row[XM_SLOTS];
    const struct xm_reader r = {row, bytes, sizeof bytes}, shorter = {row, bytes, 35};
    size_t size = 9;
    expect("reader", xm_reader_new(XM_ROW(&r), XM_BIG, XM_BUFFER(&r)), XM_DONE);
    expect("head", xm_reader_advance(XM_READER(&r), 32, &size, &class), XM_DONE);
    expect("not whole", size, 0);
    expect("too short", xm_reader_advance(XM_READER(&shorter), 4, &size, &class), XM_BAD_ROOM);
    bytes[7] = 2;
    expect("another length", xm_reader_advance(XM_READER(&r), 4, &size, &class), XM_BAD_ROOM);
    bytes[7] = 1;
    bytes[20] = 1;
    expect("another byte", xm_reader_advance(XM_READER(&r), 4, &size, &class), XM_DONE);
    expect("whole", size, 36);
    expect("its class", class, XM_CLASS_REPLY);
}

/* A request room without a request that has a reply fills up, unless one is sent while a place is left. */
static void filled(void) {
    const struct xm_rooms two = {state, requests, 2, store, sizeof store, slots};
    uint64_t number = 0;
    expect("new", xm_connection_new(XM_STATE(&two), XM_LITTLE, XM_ROOMS(&two)), XM_DONE);
    expect("one", xm_send_request(XM_CONNECTION(&two), XM_NO_REPLY, &number), XM_DONE);
    expect("outstanding", state[XM_STATE_WRITTEN] + 1 - state[XM_STATE_FIRST], 1);
    expect("two", xm_send_request(XM_CONNECTION(&two), XM_NO_REPLY, &number), XM_DONE);
    expect("full", xm_send_request(XM_CONNECTION(&two), XM_REPLY_WITHOUT_FDS, &number), XM_NO_ROOM);
    expect("another length", xm_send_request(CONNECTION, XM_NO_REPLY, &number), XM_BAD_ROOM);
    expect("as it was", number, 2);
}

/* A packet of 65,572 bytes is refused, its head taken in: number and order are those of the packet, and a discard drops it. */
static void long_packets(void) {
    uint8_t head[32] = {1, 0, 1, 0, 0, 1, 1}, place = 9, result = 9, class = 9, whole[65572] = {1, 0, 1, 0, 0, 1, 1};
    uint64_t number = 0;
    size_t size = 9, count = 9;
    uint32_t stop = 9;
    expect("new", xm_connection_new(XM_STATE(&rooms), XM_LITTLE, XM_ROOMS(&rooms)), XM_DONE);
    for (int i = 0; i < 3; i++) expect("send", xm_send_request(CONNECTION, XM_REPLY_WITHOUT_FDS, &number), XM_DONE);
    expect("discard", xm_discard_reply(CONNECTION, 2, XM_DISCARD_REPLY), XM_DONE);
    expect("whole", xm_enqueue_packet(CONNECTION, whole, sizeof whole, &place, &number, &class), XM_LONG_PACKET);
    expect("a run with it", xm_enqueue_packets(CONNECTION, whole, sizeof whole, &size, &count, &stop), XM_DONE);
    expect("stop", stop, XM_LONG_PACKET);
    for (uint8_t i = 1; i < 4; i++) {
        head[2] = i;
        expect("head", xm_enqueue_packet(CONNECTION, head, 32, &place, &number, &class), XM_DONE);
        expect("its number", number, i);
        expect("its place", place, i == 2 ? XM_DROPPED : XM_REPLIES);
    }
    expect("poll", xm_poll_for_reply(CONNECTION, 3, out, 32, &result, &size, &class), XM_DONE);
    expect("reply", result, XM_REPLY);
    expect("no more than the head", xm_packet_length(out[0], 257 * 256, &class) > size, 1);
    expect("dropped", xm_poll_check_for_reply_or_error(CONNECTION, 2, out, 32, &result, &size, &class), XM_DONE);
    expect("nothing", result, XM_NO_REPLY_COMES);
}

/* The connection with a fresh reader and allocator, saved and restored in other rooms. */
static uint64_t row[XM_SLOTS], ids[XM_SLOTS], state2[XM_CONNECTION_SLOTS], row2[XM_SLOTS], ids2[XM_SLOTS];
static uint8_t buf[64], requests2[16], store2[1024], buf2[64], file[256], again[256];

static const struct xm_reader partial = {row, buf, sizeof buf}, partial2 = {row2, buf2, sizeof buf2};
static const struct xm_rooms rooms2 = {state2, requests2, sizeof requests2, store2, sizeof store2, slots};
static const struct xm_rooms shorter = {state2, requests2, sizeof requests2, store2, sizeof store2 - 1, slots};

#define CLIENT CONNECTION, XM_READER(&partial), ids, XM_SLOTS
#define RESTORED(rooms) XM_CONNECTION(&rooms), XM_READER(&partial2), ids2, XM_SLOTS

static void saved(void) {
    size_t length = 9, size = 9;
    uint32_t seven = 7;
    expect("reader", xm_reader_new(XM_ROW(&partial), XM_BIG, XM_BUFFER(&partial)), XM_DONE);
    expect("ids", xm_ids_new(ids, XM_SLOTS, 0x100, 0xff), XM_DONE);
    expect("savepoint", xm_savepoint_length(CLIENT, &length), XM_DONE);
    expect("its length: three requests are outstanding", length, 119);
    expect("a byte less", xm_save(CLIENT, file, length - 1, &size), XM_OUT_SHORT);
    expect("save", xm_save(CLIENT, file, sizeof file, &size), XM_DONE);
    expect("saved", size, length);
    expect("cut", xm_restore(file, size - 1, RESTORED(rooms2)), XM_BAD_SAVEPOINT);
    expect("another room", xm_restore(file, size, RESTORED(shorter)), XM_BAD_ROOM);
    expect("restore", xm_restore(file, size, RESTORED(rooms2)), XM_DONE);
    expect("save again", xm_save(RESTORED(rooms2), again, sizeof again, &size), XM_DONE);
    expect("the same bytes", size == length ? (unsigned)memcmp(file, again, size) : 9, 0);
    expect("fds", xm_enqueue_fds(CONNECTION, &seven, 1), XM_DONE);
    expect("a descriptor waits", xm_save(CLIENT, file, sizeof file, &size), XM_HAS_DESCRIPTORS);
}

/* The calls by which descriptors are to be closed; while they are inside there is no savepoint. */
static void closed(void) {
    const uint32_t came[4] = {11, 12, 13, 14};
    uint64_t number = 0;
    uint8_t place = 9, result = 9, class = 9;
    size_t size = 9, count = 9;
    expect("new", xm_connection_new(XM_STATE(&rooms), XM_LITTLE, XM_ROOMS(&rooms)), XM_DONE);
    for (int i = 0; i < 4; i++) expect("send", xm_send_request(CONNECTION, XM_REPLY_WITH_FDS, &number), XM_DONE);
    expect("fds", xm_enqueue_fds(CONNECTION, came, 4), XM_DONE);
    expect("discard, to come", xm_discard_reply(CONNECTION, 1, XM_DISCARD_REPLY), XM_DONE);
    for (uint8_t i = 1; i < 5; i++) {
        const uint8_t reply[32] = {1, 1, i};
        expect("packet", xm_enqueue_packet(CONNECTION, reply, 32, &place, &number, &class), XM_DONE);
    }
    expect("by a dropped reply", state[XM_STATE_CLOSED], 1);
    expect("discard, held", xm_discard_reply(CONNECTION, 2, XM_DISCARD_REPLY), XM_DONE);
    expect("by a discard", state[XM_STATE_CLOSED], 2);
    expect("poll", xm_poll_for_reply(CONNECTION, 3, out, sizeof out, &result, &size, &class), XM_DONE);
    expect("by a poll", state[XM_STATE_CLOSED], 3);
    expect("check", xm_poll_check_for_reply_or_error(CONNECTION, 4, out, sizeof out, &result, &size, &class), XM_DONE);
    expect("no savepoint", xm_savepoint_length(CLIENT, &size), XM_HAS_DESCRIPTORS);
    expect("take", xm_take_closed_fds(CONNECTION, fds, XM_DESCRIPTORS, &count), XM_DONE);
    expect("all of them", count, 4);
    expect("in their order", (unsigned)memcmp(fds, came, sizeof came), 0);
    expect("none is left", state[XM_STATE_CLOSED], 0);
    expect("a savepoint", xm_savepoint_length(CLIENT, &size), XM_DONE);
}

/* More descriptors than there is room for. */
static void unsound(void) {
    size_t count = 9;
    state[XM_STATE_WAITING] = 300;
    expect("unsound", xm_take_closed_fds(CONNECTION, fds, XM_DESCRIPTORS, &count), XM_BAD_ROOM);
    expect("as found", state[XM_STATE_WAITING], 300);
}

static void same(const char *what, const uint8_t *want, size_t size) {
    expect(what, (unsigned)memcmp(out, want, size), 0);
}

/* Core, Connection Setup: a name of three bytes and data of five; behind the request the output stays. */
static void opened(void) {
    const uint8_t name[3] = {21, 22, 23}, data[5] = {31, 32, 33, 34, 35};
    const uint8_t little[25] = {'l', 0, 11, 0, 0, 0, 3, 0, 5, 0, 0, 0, 21, 22, 23, 0, 31, 32, 33, 34, 35, 0, 0, 0, 255};
    const uint8_t big[25] = {'B', 0, 0, 11, 0, 0, 0, 3, 0, 5, 0, 0, 21, 22, 23, 0, 31, 32, 33, 34, 35, 0, 0, 0, 255};
    size_t size = 9;
    memset(out, 255, sizeof out);
    expect("setup request", xm_setup_request(XM_LITTLE, name, 3, data, 5, out, sizeof out, &size), XM_DONE);
    expect("its size", size, 24);
    same("its bytes, little", little, 25);
    memset(out, 255, sizeof out);
    expect("setup request", xm_setup_request(XM_BIG, name, 3, data, 5, out, 24, &size), XM_DONE);
    same("its bytes, big", big, 25);
    expect("a byte less room", xm_setup_request(XM_BIG, name, 3, data, 5, out, 23, &size), XM_OUT_SHORT);
}

/* XC-MISC, Encoding: version 258.772, and 16,909,060 ids. */
static void asked_for_ids(void) {
    const uint8_t bytes[6][9] = {
        {136, 0, 2, 0, 2, 1, 4, 3, 255}, {136, 0, 0, 2, 1, 2, 3, 4, 255},
        {136, 1, 1, 0, 255}, {136, 1, 0, 1, 255},
        {136, 2, 2, 0, 4, 3, 2, 1, 255}, {136, 2, 0, 2, 1, 2, 3, 4, 255}};
    for (int i = 0; i < 2; i++) {
        uint8_t order = i ? XM_BIG : XM_LITTLE;
        size_t size = 9;
        memset(out, 255, sizeof out);
        expect("version request", xm_xc_misc_get_version_request(order, 136, 258, 772, out, sizeof out, &size), XM_DONE);
        same("its bytes", bytes[i], 9);
        memset(out, 255, sizeof out);
        expect("range request", xm_xc_misc_get_xid_range_request(order, 136, out, sizeof out, &size), XM_DONE);
        same("its bytes", bytes[2 + i], 5);
        memset(out, 255, sizeof out);
        expect("list request", xm_xc_misc_get_xid_list_request(order, 136, 16909060, out, sizeof out, &size), XM_DONE);
        same("its bytes", bytes[4 + i], 9);
    }
}

/* A reply with 5 to 12 from byte 8 on, an error likewise, and a list whose length says one unit, whose count two ids, and which has three. */
static void given_ids(void) {
    uint8_t reply[44] = {1, 200, 3, 4, 0, 0, 0, 0, 5, 6, 7, 8, 9, 10, 11, 12};
    const uint8_t error[32] = {0, 3, 4, 5, 6, 7, 8, 9, 10, 11, 12, 13};
    uint16_t number = 9, major = 9, minor = 9;
    uint32_t length = 9, start = 9, count = 9, value = 9, ids[3] = {7, 7, 7};
    uint8_t code = 9, opcode = 9;
    expect("version", xm_xc_misc_get_version_reply(XM_LITTLE, reply, 32, &number, &length, &major, &minor), XM_DONE);
    expect("wire number", number, 1027);
    expect("major", major, 1541);
    expect("minor", minor, 2055);
    expect("version", xm_xc_misc_get_version_reply(XM_BIG, reply, 32, &number, &length, &major, &minor), XM_DONE);
    expect("wire number", number, 772);
    expect("major", major, 1286);
    expect("minor", minor, 1800);
    expect("range", xm_xc_misc_get_xid_range_reply(XM_LITTLE, reply, 32, &number, &length, &start, &count), XM_DONE);
    expect("start", start, 134678021);
    expect("count", count, 202050057);
    expect("range", xm_xc_misc_get_xid_range_reply(XM_BIG, reply, 32, &number, &length, &start, &count), XM_DONE);
    expect("start", start, 84281096);
    expect("count", count, 151653132);
    expect("error", xm_error(XM_LITTLE, error, 32, &code, &number, &value, &minor, &opcode), XM_DONE);
    expect("code", code, 3);
    expect("bad value", value, 151521030);
    expect("minor opcode", minor, 2826);
    expect("major opcode", opcode, 12);
    for (uint8_t i = 8; i < 44; i++) reply[i] = i < 12 ? 0 : i;
    reply[7] = 1;
    reply[11] = 2;
    expect("list", xm_xc_misc_get_xid_list_reply(XM_BIG, reply, 44, ids, 3, &number, &length, &count), XM_DONE);
    expect("length", length, 1);
    expect("count", count, 2);
    expect("first id", ids[0], 539042339);
    expect("second id", ids[1], 606414375);
    expect("place left over", ids[2], 7);
    expect("two ids in 39 bytes", xm_xc_misc_get_xid_list_reply(XM_BIG, reply, 39, ids, 3, &number, &length, &count), XM_BAD_CONTENT);
}

/* A KeymapNotify has key bits in the place of its number: of either code it gets the last read, and moves no number. */
static void keymaps(void) {
    uint8_t run[128] = {2, 0, 0, 7}, place = 9, class = 9;
    const uint8_t kinds[8] = {XM_NO_REPLY};
    uint64_t number = 9, marks[12] = {0};
    const uint64_t due[12] = {7, 32, XM_CLASS_EVENT, 7, 32, XM_CLASS_EVENT, 7, 32, XM_CLASS_SENT_EVENT, 8, 32, XM_CLASS_SENT_EVENT};
    size_t size = 9, count = 9;
    uint32_t stop = 9;
    memset(run + 32, 255, 64);
    run[32] = 11;
    run[64] = 139;
    run[67] = 5;
    run[96] = 140;
    run[99] = 8;
    expect("new", xm_connection_new(XM_STATE(&rooms), XM_BIG, XM_ROOMS(&rooms)), XM_DONE);
    expect("sends", xm_send_requests(CONNECTION, kinds, sizeof kinds, &count, &number, &stop), XM_DONE);
    expect("run", xm_enqueue_packets(CONNECTION, run, sizeof run, &size, &count, &stop), XM_DONE);
    expect("packets", count, 4);
    expect("events", xm_poll_for_events(CONNECTION, out, sizeof out, marks, 12, &count, &size, &stop), XM_DONE);
    expect("numbers", (unsigned)memcmp(marks, due, sizeof due), 0);
    expect("alone", xm_enqueue_packet(CONNECTION, run + 64, 32, &place, &number, &class), XM_DONE);
    expect("its class", class, XM_CLASS_SENT_EVENT);
    expect("its number", number, 8);
    expect("its place", place, XM_EVENTS);
    expect("next reply expected", state[XM_STATE_EXPECTED], 8);
    expect("last read", state[XM_STATE_READ], 8);
}

/* The state and what the rooms hold, to be compared after a refusal. */
struct held {
    uint64_t state[XM_CONNECTION_SLOTS];
    uint8_t requests[sizeof requests], store[sizeof store];
    uint32_t slots[XM_DESCRIPTORS];
};

static struct held held(void) {
    struct held all;
    memcpy(all.state, state, sizeof state);
    memcpy(all.requests, requests, sizeof requests);
    memcpy(all.store, store, sizeof store);
    memcpy(all.slots, slots, sizeof slots);
    return all;
}

/* A packet of each kind that answers request 3 is refused, alone and in a run, and nothing is changed. */
static void refused_ahead(void) {
    const uint8_t codes[5] = {0, 1, 2, 35, 163};
    struct held before = held();
    for (int i = 0; i < 5; i++) {
        const uint8_t answer[32] = {codes[i], 1, 3};
        uint8_t place = 9, class = 9;
        uint64_t number = 9;
        size_t size = 9, count = 9;
        uint32_t stop = 9;
        expect("ahead", xm_enqueue_packet(CONNECTION, answer, 32, &place, &number, &class), XM_AHEAD);
        expect("its place", place, 9);
        expect("its number", number, 9);
        expect("its class", class, 9);
        expect("in a run", xm_enqueue_packets(CONNECTION, answer, 32, &size, &count, &stop), XM_DONE);
        expect("bytes taken", size, 0);
        expect("stop", stop, XM_AHEAD);
        struct held after = held();
        expect("changed bytes", memcmp(&before, &after, sizeof after) != 0, 0);
    }
}

/* What answers no request that was sent: a run stops before it, and it is taken in once one more was. A KeymapNotify never is such. */
static void ahead(void) {
    const uint8_t run[128] = {[0] = 2, [2] = 2, [32] = 11, [34] = 3, [64] = 139, [66] = 3, [96] = 1, [97] = 1, [98] = 3};
    const uint8_t kinds[2] = {XM_NO_REPLY, XM_REPLY_WITH_FDS};
    const uint32_t seven = 7;
    uint64_t number = 9;
    uint8_t place = 9, class = 9;
    size_t size = 9, count = 9;
    uint32_t stop = 9;
    expect("new", xm_connection_new(XM_STATE(&rooms), XM_LITTLE, XM_ROOMS(&rooms)), XM_DONE);
    expect("sends", xm_send_requests(CONNECTION, kinds, sizeof kinds, &count, &number, &stop), XM_DONE);
    expect("fds", xm_enqueue_fds(CONNECTION, &seven, 1), XM_DONE);
    refused_ahead();
    expect("run", xm_enqueue_packets(CONNECTION, run, sizeof run, &size, &count, &stop), XM_DONE);
    expect("bytes of the run", size, 96);
    expect("packets of the run", count, 3);
    expect("stop", stop, XM_AHEAD);
    refused_ahead();
    expect("one more", xm_send_request(CONNECTION, XM_REPLY_WITH_FDS, &number), XM_DONE);
    expect("asked for", xm_enqueue_packet(CONNECTION, run + 96, 32, &place, &number, &class), XM_DONE);
    expect("its number", number, 3);
    expect("its place", place, XM_REPLIES);
}

/* ---- what kind of packet it is */

/* A second reading of Core's first bytes. */
static unsigned class_of(unsigned code) {
    if (code < 2) return code == 1 ? XM_CLASS_REPLY : XM_CLASS_ERROR;
    if (code >= 128) return code == 128 + 35 ? XM_CLASS_SENT_GENERIC : XM_CLASS_SENT_EVENT;
    return code == 35 ? XM_CLASS_GENERIC : XM_CLASS_EVENT;
}

/* The framing rule, of every first byte. */
static void framed(void) {
    unsigned counts[6] = {0};
    for (unsigned code = 0; code < 256; code++) {
        bool more = code == 1 || code == 35 || code == 163;
        uint8_t class = 9;
        expect("length", xm_packet_length((uint8_t)code, 5, &class), more ? 52 : 32);
        expect("class", class, class_of(code));
        counts[class_of(code)]++;
        expect("the longest", xm_packet_length((uint8_t)code, UINT32_MAX, &class), more ? 17179869212 : 32);
        expect("class", class, class_of(code));
    }
    expect("sent events", counts[XM_CLASS_SENT_EVENT], 127);
    expect("events", counts[XM_CLASS_EVENT], 125);
}

/* A packet of 32 bytes in out, through a reader; the class that this tells. */
static unsigned read_class(unsigned code) {
    uint64_t row[XM_SLOTS];
    uint8_t class = 9;
    size_t size = 9;
    const struct xm_reader r = {.row = row, .buf = out, .buf_len = 64};
    memset(out, 0, 32);
    out[0] = (uint8_t)code;
    expect("reader", xm_reader_new(XM_ROW(&r), XM_LITTLE, XM_BUFFER(&r)), XM_DONE);
    expect("whole", xm_reader_advance(XM_READER(&r), 32, &size, &class), XM_DONE);
    expect("its size", size, 32);
    return class;
}

/* A packet of a number, taken in; the class that this tells. */
static unsigned taken_class(unsigned code, uint8_t wire) {
    const uint8_t bytes[32] = {(uint8_t)code, 0, wire};
    uint8_t place = 9, class = 9;
    uint64_t number = 9;
    expect("packet", xm_enqueue_packet(CONNECTION, bytes, 32, &place, &number, &class), XM_DONE);
    return class;
}

/* The oldest event has this code, number and class. */
static void next_event(unsigned code, unsigned due) {
    uint8_t found = 9, class = 9;
    uint64_t number = 9;
    size_t size = 9;
    expect("a byte less", xm_poll_for_event_with_sequence(CONNECTION, out, 31, &found, &number, &size, &class), XM_OUT_SHORT);
    expect("class as before", class, 9);
    expect("event", xm_poll_for_event_with_sequence(CONNECTION, out, sizeof out, &found, &number, &size, &class), XM_DONE);
    expect("found", found, 1);
    expect("code", out[0], code);
    expect("number", number, due);
    expect("class of an event", class, class_of(code));
}

static void no_event(void) {
    uint8_t found = 9, class = 9;
    uint64_t number = 9;
    size_t size = 9;
    expect("event", xm_poll_for_event_with_sequence(CONNECTION, out, sizeof out, &found, &number, &size, &class), XM_DONE);
    expect("none", found + number + size, 0);
    expect("no class", class, 0);
}

/* Requests with a reply, on a fresh connection. */
static void ask(size_t requests) {
    uint64_t number = 9;
    expect("new", xm_connection_new(XM_STATE(&rooms), XM_LITTLE, XM_ROOMS(&rooms)), XM_DONE);
    for (size_t i = 0; i < requests; i++) expect("send", xm_send_request(CONNECTION, XM_REPLY_WITHOUT_FDS, &number), XM_DONE);
}

/* Every first byte: through the reader, into the connection and, but for a reply, out of it among the events. */
static void every_code(void) {
    ask(0);
    for (unsigned code = 0; code < 256; code++) {
        expect("class by the reader", read_class(code), class_of(code));
        expect("class by intake", taken_class(code, 0), class_of(code));
        if (code != 1) next_event(code, 0);
    }
    no_event();
}

typedef enum xm_refusal poll(uint64_t *, size_t, const uint8_t *, size_t, uint8_t *, size_t, uint32_t *, size_t, uint64_t, uint8_t *,
                             size_t, uint8_t *, size_t *, uint8_t *);

/* A poll for a reply answers so, and tells this class. */
static void polled(poll *call, uint64_t number, unsigned due, unsigned due_class) {
    uint8_t result = 9, class = 9;
    size_t size = 9;
    if (due == XM_REPLY) {
        expect("a byte less", call(CONNECTION, number, out, 31, &result, &size, &class), XM_OUT_SHORT);
        expect("class as before", class, 9);
    }
    expect("poll", call(CONNECTION, number, out, sizeof out, &result, &size, &class), XM_DONE);
    expect("result", result, due);
    expect("size", size, due == XM_REPLY ? 32 : 0);
    expect("class of a reply", class, due_class);
}

static void polled_either(uint64_t number, unsigned due, unsigned due_class) {
    uint8_t found = 9, class = 9;
    size_t size = 9, count = 9;
    expect("either", xm_poll_for_reply_or_error(CONNECTION, number, out, sizeof out, fds, XM_DESCRIPTORS, &found, &size, &count, &class),
           XM_DONE);
    expect("found", found, due);
    expect("class of either", class, due_class);
}

/* Replies and errors by the three polls; where there is none the class is 0. */
static void replies(void) {
    ask(4);
    for (uint8_t number = 1; number < 4; number++) {
        expect("class of a reply", taken_class(1, number), XM_CLASS_REPLY);
        expect("class of an error", taken_class(0, number), XM_CLASS_ERROR);
    }
    polled_either(1, 1, XM_CLASS_REPLY);
    polled_either(1, 1, XM_CLASS_ERROR);
    polled_either(1, 0, 0);
    polled(xm_poll_check_for_reply_or_error, 2, XM_REPLY, XM_CLASS_REPLY);
    polled(xm_poll_check_for_reply_or_error, 2, XM_REPLY, XM_CLASS_ERROR);
    polled(xm_poll_check_for_reply_or_error, 2, XM_NO_REPLY_COMES, 0);
    polled(xm_poll_check_for_reply_or_error, 4, XM_TRY_AGAIN, 0);
    polled(xm_poll_for_reply, 3, XM_REPLY, XM_CLASS_REPLY);
    polled(xm_poll_for_reply, 3, XM_NO_REPLY_COMES, 0);
    polled(xm_poll_for_reply, 4, XM_TRY_AGAIN, 0);
    next_event(0, 3);
    no_event();
}

/* Errors among the events: of no request, let through by DiscardReply, held and then discarded, and moved by a poll for a reply. */
static void stray_errors(void) {
    ask(3);
    expect("discard", xm_discard_reply(CONNECTION, 1, XM_DISCARD_REPLY), XM_DONE);
    for (uint8_t number = 0; number < 4; number++) expect("class of an error", taken_class(0, number), XM_CLASS_ERROR);
    expect("class of an event", taken_class(129, 3), XM_CLASS_SENT_EVENT);
    expect("class of a generic event", taken_class(35, 3), XM_CLASS_GENERIC);
    expect("class of a sent one", taken_class(163, 3), XM_CLASS_SENT_GENERIC);
    expect("discard", xm_discard_reply(CONNECTION, 2, XM_DISCARD_REPLY), XM_DONE);
    polled(xm_poll_for_reply, 3, XM_NO_REPLY_COMES, 0);
}

static void errors_among_events(void) {
    const uint64_t due[7][XM_MARKS] = {{0, 32, XM_CLASS_ERROR}, {1, 32, XM_CLASS_ERROR}, {3, 32, XM_CLASS_SENT_EVENT},
                                       {3, 32, XM_CLASS_GENERIC}, {3, 32, XM_CLASS_SENT_GENERIC}, {2, 32, XM_CLASS_ERROR},
                                       {3, 32, XM_CLASS_ERROR}};
    const uint8_t codes[7] = {0, 0, 129, 35, 163, 0, 0};
    uint64_t marks[7 * XM_MARKS] = {0};
    size_t size = 9, count = 9;
    uint32_t stop = 9;
    stray_errors();
    for (int i = 0; i < 7; i++) next_event(codes[i], (unsigned)due[i][XM_MARK_NUMBER]);
    no_event();
    stray_errors();
    expect("room for six", xm_poll_for_events(CONNECTION, out, sizeof out, marks, sizeof marks / 8 - 1, &count, &size, &stop), XM_DONE);
    expect("six", count, 6);
    expect("no room for the last", stop, XM_OUT_SHORT);
    expect("their marks", (unsigned)memcmp(marks, due, 6 * sizeof *due), 0);
    expect("nothing behind them", marks[18] + marks[19] + marks[20], 0);
    expect("the last", xm_poll_for_events(CONNECTION, out, sizeof out, marks, sizeof marks / 8, &count, &size, &stop), XM_DONE);
    expect("its marks", (unsigned)memcmp(marks, due + 6, sizeof *due), 0);
    expect("no more", stop, XM_STOP_END);
}

int main(void) {
    named();
    named_classes();
    asked();
    answered();
    at_once();
    reader();
    another_buffer();
    saved();
    closed();
    unsound();
    filled();
    long_packets();
    keymaps();
    ahead();
    framed();
    every_code();
    replies();
    errors_among_events();
    opened();
    asked_for_ids();
    given_ids();
    if (!failed) puts("library: the header and the archive agree");
    return failed;
}
