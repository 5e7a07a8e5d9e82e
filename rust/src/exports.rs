//! The functions of the static library, declared as `include/xiengmado.h` has them, which says what each does.
//! A caller lends whole slices and numbers that overlap nothing.

extern "C" {
    pub fn xm_version() -> u32;
    pub fn xm_full_number(read: u64, wire: u16, number: &mut u64) -> u32;
    pub fn xm_send(
        written: u64,
        expected: u64,
        reply: bool,
        number: &mut u64,
        next: &mut u64,
    ) -> u32;
    pub fn xm_packet_length(code: u8, field: u32, packet_class: &mut u8) -> usize;
    pub fn xm_check_packet(order: u8, packet: *const u8, packet_len: usize, first: u8) -> u32;
    pub fn xm_error(
        order: u8,
        packet: *const u8,
        packet_len: usize,
        code: &mut u8,
        sequence: &mut u16,
        value: &mut u32,
        minor: &mut u16,
        major: &mut u8,
    ) -> u32;
    pub fn xm_ids_new(ids: *mut u64, ids_len: usize, base: u32, mask: u32) -> u32;
    pub fn xm_ids_generate_id(ids: *mut u64, ids_len: usize, id: &mut u32) -> u32;
    pub fn xm_ids_update_xid_range(ids: *mut u64, ids_len: usize, start: u32, count: u32) -> u32;
    pub fn xm_xc_misc_get_version_request(
        order: u8,
        opcode: u8,
        major: u16,
        minor: u16,
        out: *mut u8,
        out_len: usize,
        size: &mut usize,
    ) -> u32;
    pub fn xm_xc_misc_get_xid_range_request(
        order: u8,
        opcode: u8,
        out: *mut u8,
        out_len: usize,
        size: &mut usize,
    ) -> u32;
    pub fn xm_xc_misc_get_xid_list_request(
        order: u8,
        opcode: u8,
        count: u32,
        out: *mut u8,
        out_len: usize,
        size: &mut usize,
    ) -> u32;
    pub fn xm_xc_misc_get_version_reply(
        order: u8,
        packet: *const u8,
        packet_len: usize,
        sequence: &mut u16,
        length: &mut u32,
        major: &mut u16,
        minor: &mut u16,
    ) -> u32;
    pub fn xm_xc_misc_get_xid_range_reply(
        order: u8,
        packet: *const u8,
        packet_len: usize,
        sequence: &mut u16,
        length: &mut u32,
        start: &mut u32,
        count: &mut u32,
    ) -> u32;
    pub fn xm_xc_misc_get_xid_list_reply(
        order: u8,
        packet: *const u8,
        packet_len: usize,
        ids: *mut u32,
        ids_len: usize,
        sequence: &mut u16,
        length: &mut u32,
        count: &mut u32,
    ) -> u32;
    pub fn xm_reader_new(
        reader: *mut u64,
        reader_len: usize,
        order: u8,
        buf: *const u8,
        buf_len: usize,
    ) -> u32;
    pub fn xm_reader_remaining_capacity(
        reader: *const u64,
        reader_len: usize,
        buf: *const u8,
        buf_len: usize,
        size: &mut usize,
    ) -> u32;
    pub fn xm_reader_buffer(
        reader: *const u64,
        reader_len: usize,
        buf: *const u8,
        buf_len: usize,
        start: &mut usize,
        size: &mut usize,
    ) -> u32;
    pub fn xm_reader_advance(
        reader: *mut u64,
        reader_len: usize,
        buf: *const u8,
        buf_len: usize,
        amount: usize,
        size: &mut usize,
        packet_class: &mut u8,
    ) -> u32;
    pub fn xm_setup_request(
        order: u8,
        name: *const u8,
        name_len: usize,
        auth: *const u8,
        auth_len: usize,
        out: *mut u8,
        out_len: usize,
        size: &mut usize,
    ) -> u32;
    pub fn xm_connect_new(
        connect: *mut u64,
        connect_len: usize,
        order: u8,
        buf: *const u8,
        buf_len: usize,
    ) -> u32;
    pub fn xm_connect_remaining_capacity(
        connect: *const u64,
        connect_len: usize,
        buf: *const u8,
        buf_len: usize,
        size: &mut usize,
    ) -> u32;
    pub fn xm_connect_buffer(
        connect: *const u64,
        connect_len: usize,
        buf: *const u8,
        buf_len: usize,
        start: &mut usize,
        size: &mut usize,
    ) -> u32;
    pub fn xm_connect_advance(
        connect: *mut u64,
        connect_len: usize,
        buf: *const u8,
        buf_len: usize,
        amount: usize,
        complete: &mut u8,
    ) -> u32;
    pub fn xm_connect_setup(
        connect: *const u64,
        connect_len: usize,
        buf: *const u8,
        buf_len: usize,
        status: &mut u8,
        fields: *mut u32,
        fields_len: usize,
    ) -> u32;
    pub fn xm_connect_vendor(
        connect: *const u64,
        connect_len: usize,
        buf: *const u8,
        buf_len: usize,
        start: &mut usize,
        size: &mut usize,
    ) -> u32;
    pub fn xm_connect_reason(
        connect: *const u64,
        connect_len: usize,
        buf: *const u8,
        buf_len: usize,
        start: &mut usize,
        size: &mut usize,
    ) -> u32;
    pub fn xm_connection_new(
        state: *mut u64,
        state_len: usize,
        order: u8,
        requests: *const u8,
        requests_len: usize,
        store: *const u8,
        store_len: usize,
        slots: *const u32,
        slots_len: usize,
    ) -> u32;
    pub fn xm_send_request(
        state: *mut u64,
        state_len: usize,
        requests: *mut u8,
        requests_len: usize,
        store: *const u8,
        store_len: usize,
        slots: *const u32,
        slots_len: usize,
        kind: u8,
        number: &mut u64,
    ) -> u32;
    pub fn xm_send_requests(
        state: *mut u64,
        state_len: usize,
        requests: *mut u8,
        requests_len: usize,
        store: *const u8,
        store_len: usize,
        slots: *const u32,
        slots_len: usize,
        kinds: *const u8,
        kinds_len: usize,
        count: &mut usize,
        number: &mut u64,
        stop: &mut u32,
    ) -> u32;
    pub fn xm_discard_reply(
        state: *mut u64,
        state_len: usize,
        requests: *mut u8,
        requests_len: usize,
        store: *mut u8,
        store_len: usize,
        slots: *mut u32,
        slots_len: usize,
        number: u64,
        mode: u8,
    ) -> u32;
    pub fn xm_enqueue_fds(
        state: *mut u64,
        state_len: usize,
        requests: *const u8,
        requests_len: usize,
        store: *const u8,
        store_len: usize,
        slots: *mut u32,
        slots_len: usize,
        list: *const u32,
        list_len: usize,
    ) -> u32;
    pub fn xm_enqueue_packet(
        state: *mut u64,
        state_len: usize,
        requests: *const u8,
        requests_len: usize,
        store: *mut u8,
        store_len: usize,
        slots: *mut u32,
        slots_len: usize,
        packet: *const u8,
        packet_len: usize,
        place: &mut u8,
        number: &mut u64,
        packet_class: &mut u8,
    ) -> u32;
    pub fn xm_enqueue_packets(
        state: *mut u64,
        state_len: usize,
        requests: *const u8,
        requests_len: usize,
        store: *mut u8,
        store_len: usize,
        slots: *mut u32,
        slots_len: usize,
        bytes: *const u8,
        bytes_len: usize,
        size: &mut usize,
        count: &mut usize,
        stop: &mut u32,
    ) -> u32;
    pub fn xm_poll_for_reply_or_error(
        state: *mut u64,
        state_len: usize,
        requests: *const u8,
        requests_len: usize,
        store: *mut u8,
        store_len: usize,
        slots: *mut u32,
        slots_len: usize,
        number: u64,
        out: *mut u8,
        out_len: usize,
        fds: *mut u32,
        fds_len: usize,
        found: &mut u8,
        size: &mut usize,
        count: &mut usize,
        packet_class: &mut u8,
    ) -> u32;
    pub fn xm_prepare_check_for_reply_or_error(
        state: *const u64,
        state_len: usize,
        requests: *const u8,
        requests_len: usize,
        store: *const u8,
        store_len: usize,
        slots: *const u32,
        slots_len: usize,
        number: u64,
        sync: &mut u8,
    ) -> u32;
    pub fn xm_poll_check_for_reply_or_error(
        state: *mut u64,
        state_len: usize,
        requests: *const u8,
        requests_len: usize,
        store: *mut u8,
        store_len: usize,
        slots: *mut u32,
        slots_len: usize,
        number: u64,
        out: *mut u8,
        out_len: usize,
        result: &mut u8,
        size: &mut usize,
        packet_class: &mut u8,
    ) -> u32;
    pub fn xm_poll_for_reply(
        state: *mut u64,
        state_len: usize,
        requests: *const u8,
        requests_len: usize,
        store: *mut u8,
        store_len: usize,
        slots: *mut u32,
        slots_len: usize,
        number: u64,
        out: *mut u8,
        out_len: usize,
        result: &mut u8,
        size: &mut usize,
        packet_class: &mut u8,
    ) -> u32;
    pub fn xm_poll_for_event_with_sequence(
        state: *mut u64,
        state_len: usize,
        requests: *const u8,
        requests_len: usize,
        store: *mut u8,
        store_len: usize,
        slots: *const u32,
        slots_len: usize,
        out: *mut u8,
        out_len: usize,
        found: &mut u8,
        number: &mut u64,
        size: &mut usize,
        packet_class: &mut u8,
    ) -> u32;
    pub fn xm_poll_for_events(
        state: *mut u64,
        state_len: usize,
        requests: *const u8,
        requests_len: usize,
        store: *mut u8,
        store_len: usize,
        slots: *const u32,
        slots_len: usize,
        out: *mut u8,
        out_len: usize,
        marks: *mut u64,
        marks_len: usize,
        count: &mut usize,
        size: &mut usize,
        stop: &mut u32,
    ) -> u32;
    pub fn xm_take_closed_fds(
        state: *mut u64,
        state_len: usize,
        requests: *const u8,
        requests_len: usize,
        store: *const u8,
        store_len: usize,
        slots: *mut u32,
        slots_len: usize,
        out: *mut u32,
        out_len: usize,
        count: &mut usize,
    ) -> u32;
    pub fn xm_savepoint_length(
        state: *const u64,
        state_len: usize,
        requests: *const u8,
        requests_len: usize,
        store: *const u8,
        store_len: usize,
        slots: *const u32,
        slots_len: usize,
        reader: *const u64,
        reader_len: usize,
        buf: *const u8,
        buf_len: usize,
        ids: *const u64,
        ids_len: usize,
        length: &mut usize,
    ) -> u32;
    pub fn xm_save(
        state: *const u64,
        state_len: usize,
        requests: *const u8,
        requests_len: usize,
        store: *const u8,
        store_len: usize,
        slots: *const u32,
        slots_len: usize,
        reader: *const u64,
        reader_len: usize,
        buf: *const u8,
        buf_len: usize,
        ids: *const u64,
        ids_len: usize,
        out: *mut u8,
        out_len: usize,
        length: &mut usize,
    ) -> u32;
    pub fn xm_restore(
        bytes: *const u8,
        bytes_len: usize,
        state: *mut u64,
        state_len: usize,
        requests: *mut u8,
        requests_len: usize,
        store: *mut u8,
        store_len: usize,
        slots: *const u32,
        slots_len: usize,
        reader: *mut u64,
        reader_len: usize,
        buf: *mut u8,
        buf_len: usize,
        ids: *mut u64,
        ids_len: usize,
    ) -> u32;
    pub fn xm_request_at(
        requests: *const u8,
        requests_len: usize,
        number: u64,
        descriptors: &mut u8,
        mode: &mut u8,
    ) -> u32;
    pub fn xm_record_at(
        store: *const u8,
        store_len: usize,
        at: usize,
        end: usize,
        kind: &mut u8,
        number: &mut u64,
        size: &mut usize,
        count: &mut u8,
    ) -> u32;
}
