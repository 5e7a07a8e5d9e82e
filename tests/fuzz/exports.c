/* Every export of the header that is given something: its call, how often it is called, the refusals that it lists, and the classes
 * of packets that it tells. */
#include "calls.h"
#include "report.h"
#include "source.h"

#define R(n) (1u << (n))

/* Packets and replies of XC-MISC are refused by these. */
#define PACKET (R(1) | R(2) | R(13) | R(14))

/* Every class; no reply stands among the events. */
#define EVERY 63u

const struct export exports[] = {
    {"xm_full_number", full_number, 4, PLAIN, R(3), 0, 0},
    {"xm_send", send, 4, PLAIN, R(3) | R(6), 0, 0},
    {"xm_packet_length", packet_length, 2, PLAIN, 0, 0, EVERY},
    {"xm_check_packet", check_packet, 3, PLAIN, PACKET, 0, 0},
    {"xm_error", error_fields, 3, PLAIN, PACKET, 0, 0},
    {"xm_ids_new", ids_new, 3, TESTED, R(9) | R(10), 0, 0},
    {"xm_ids_generate_id", ids_generate_id, 8, TESTED, R(9) | R(11), 0, 0},
    {"xm_ids_update_xid_range", ids_update_xid_range, 3, TESTED, R(9) | R(11) | R(12), 0, 0},
    {"xm_xc_misc_get_version_request", version_request, 2, PLAIN, R(8) | R(13), 0, 0},
    {"xm_xc_misc_get_xid_range_request", range_request, 2, PLAIN, R(8) | R(13), 0, 0},
    {"xm_xc_misc_get_xid_list_request", list_request, 2, PLAIN, R(8) | R(13), 0, 0},
    {"xm_xc_misc_get_version_reply", version_reply, 3, PLAIN, PACKET, 0, 0},
    {"xm_xc_misc_get_xid_range_reply", range_reply, 3, PLAIN, PACKET, 0, 0},
    {"xm_xc_misc_get_xid_list_reply", list_reply, 3, PLAIN, PACKET | R(8), 0, 0},
    {"xm_reader_new", reader_new, 2, TESTED, R(9) | R(13), 0, 0},
    {"xm_reader_remaining_capacity", reader_remaining_capacity, 4, TESTED, R(9), 0, 0},
    {"xm_reader_buffer", reader_buffer, 4, TESTED, R(9), 0, 0},
    {"xm_reader_advance", reader_advance, 16, TESTED, R(9) | R(7) | R(2), 2, EVERY},
    {"xm_setup_request", setup_request, 3, PLAIN, R(13) | R(16) | R(8), 0, 0},
    {"xm_connect_new", connect_new, 3, TESTED, R(9) | R(13), 0, 0},
    {"xm_connect_remaining_capacity", connect_remaining_capacity, 4, TESTED, R(9), 0, 0},
    {"xm_connect_buffer", connect_buffer, 4, TESTED, R(9), 0, 0},
    {"xm_connect_advance", connect_advance, 16, TESTED, R(9) | R(7) | R(2), 2, 0},
    {"xm_connect_setup", connect_setup, 6, TESTED, R(9) | R(15) | R(14) | R(8), 3, 0},
    {"xm_connect_vendor", connect_vendor, 4, TESTED, R(9) | R(15) | R(14), 0, 0},
    {"xm_connect_reason", connect_reason, 4, TESTED, R(9) | R(15) | R(14), 0, 0},
    {"xm_connection_new", connection_new, 5, TESTED, R(9) | R(13), 0, 0},
    {"xm_send_request", send_request, 40, TESTED, R(9) | R(3) | R(6) | R(5), 0, 0},
    {"xm_discard_reply", discard_reply, 14, TESTED, R(9), 0, 0},
    {"xm_enqueue_fds", enqueue_fds, 14, TESTED, R(9) | R(5), 0, 0},
    {"xm_enqueue_packet", enqueue_packet, 60, TESTED, R(9) | R(1) | R(2) | R(3) | R(20) | R(4) | R(5), 3, EVERY},
    {"xm_poll_for_reply_or_error", poll_for_reply_or_error, 16, TESTED, R(9) | R(8), 2, R(0) | R(1)},
    {"xm_prepare_check_for_reply_or_error", prepare_check, 4, TESTED, R(9), 2, 0},
    {"xm_poll_check_for_reply_or_error", poll_check, 10, TESTED, R(9) | R(8), 3, R(0) | R(1)},
    {"xm_poll_for_reply", poll_for_reply, 10, TESTED, R(9) | R(8), 3, R(1)},
    {"xm_poll_for_event_with_sequence", poll_for_event, 24, TESTED, R(9) | R(8), 2, EVERY & ~R(1)},
    {"xm_take_closed_fds", take_closed_fds, 10, TESTED, R(9) | R(8), 2, 0},
    {"xm_send_requests", send_requests, 10, TESTED, R(9), 3, 0},
    {"xm_enqueue_packets", enqueue_packets, 20, TESTED, R(9), 3, 0},
    {"xm_poll_for_events", poll_for_events, 12, TESTED, R(9) | R(8), 3, EVERY & ~R(1)},
    {"xm_savepoint_length", savepoint_length, 4, TESTED, R(9) | R(18), 0, 0},
    {"xm_save", save, 8, TESTED, R(9) | R(18) | R(8), 0, 0},
    {"xm_restore", restore, 16, TESTED, R(19) | R(9), 0, 0},
    {"xm_request_at", request_at, 3, TESTED, R(9), 3, 0},
    {"xm_record_at", record_at, 6, TESTED, R(9), 2, 0},
};

const unsigned exports_count = sizeof exports / sizeof *exports;

void fresh(void) {
    fresh_client();
    fresh_readers();
    fresh_ids();
}

void some_call(void) {
    uint64_t all = 0;
    for (unsigned i = 0; i < exports_count; i++) all += exports[i].weight;
    uint64_t at = below(all);
    unsigned export = 0;
    while (at >= exports[export].weight) at -= exports[export++].weight;
    report_begin(export);
    exports[export].call();
}
