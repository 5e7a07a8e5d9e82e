// The header from C++11: a request and its reply through the names of what is lent, const or not.
#include <cstring>

#include "xiengmado.h"

static uint64_t state[XM_CONNECTION_SLOTS], row[XM_SLOTS], ids[XM_SLOTS];
static uint8_t requests[4], store[48], buffer[32], out[116 + 1 + 48];
static uint32_t slots[XM_DESCRIPTORS];

int main() {
    xm_rooms rooms = xm_rooms();
    rooms.state = state;
    rooms.requests = requests;
    rooms.requests_len = sizeof requests;
    rooms.store = store;
    rooms.store_len = sizeof store;
    rooms.slots = slots;
    const xm_rooms *c = &rooms;
    const xm_reader reader = {row, buffer, sizeof buffer};
    const uint8_t packet[32] = {1, 0, 1};
    uint64_t number = 0;
    uint8_t place = 9, sync = 9, packet_class = 9;
    size_t size = 0;
    bool done = xm_connection_new(XM_STATE(c), XM_LITTLE, XM_ROOMS(c)) == XM_DONE
        && xm_reader_new(XM_ROW(&reader), XM_LITTLE, XM_BUFFER(&reader)) == XM_DONE
        && xm_ids_new(ids, XM_SLOTS, 0x100, 0xff) == XM_DONE
        && xm_send_request(XM_CONNECTION(c), XM_REPLY_WITHOUT_FDS, &number) == XM_DONE
        && xm_prepare_check_for_reply_or_error(XM_CONNECTION(c), number, &sync) == XM_DONE && sync == 0
        && xm_enqueue_packet(XM_CONNECTION(c), packet, sizeof packet, &place, &number, &packet_class) == XM_DONE
        && packet_class == XM_CLASS_REPLY
        && xm_save(XM_CONNECTION(c), XM_READER(&reader), ids, XM_SLOTS, out, sizeof out, &size) == XM_DONE;
    enum xm_refusal refusal = xm_enqueue_packet(XM_CONNECTION(c), packet, sizeof packet, &place, &number, &packet_class);
    bool said = std::strcmp(xm_refusal_text(refusal), "NoRoom: no room for a request, a packet or a descriptor") == 0
        && std::strcmp(xm_class_text(packet_class), "reply") == 0;
    return done && size == sizeof out && said && xm_version() == XM_VERSION ? 0 : 1;
}
