/* One call of each export, with chances of every kind. */
#ifndef CALLS_H
#define CALLS_H

void full_number(void), send(void), packet_length(void), check_packet(void), error_fields(void);
void ids_new(void), ids_generate_id(void), ids_update_xid_range(void);
void version_request(void), range_request(void), list_request(void);
void version_reply(void), range_reply(void), list_reply(void);
void reader_new(void), reader_remaining_capacity(void), reader_buffer(void), reader_advance(void);
void setup_request(void), connect_new(void), connect_remaining_capacity(void), connect_buffer(void);
void connect_advance(void), connect_setup(void), connect_vendor(void), connect_reason(void);
void connection_new(void), send_request(void), discard_reply(void), enqueue_fds(void);
void enqueue_packet(void), poll_for_reply_or_error(void), prepare_check(void), poll_check(void);
void poll_for_reply(void), poll_for_event(void), take_closed_fds(void);
void send_requests(void), enqueue_packets(void), poll_for_events(void);
void savepoint_length(void), save(void), restore(void);
void request_at(void), record_at(void);

/* Begins anew: a fresh connection, reader, handshake and allocator. */
void fresh(void);
void fresh_client(void), fresh_readers(void), fresh_ids(void);

/* One call of an export that chance picks. */
void some_call(void);

#endif
