//! The exports of the static library as a C program calls them: nothing is allocated, and a packet is
//! looked at where it was handed out.

use xiengmado::engine::MARKS;
use xiengmado::exports::*;

use crate::batch::Many;
use crate::sides::{Client, Frames, Handshake, Ids, See};

const LITTLE: u8 = b'l';

fn done(code: u32) {
    assert!(code == 0, "refused by {code}");
}

fn room<T: Clone + Default>(size: usize) -> Box<[T]> {
    vec![T::default(); size].into()
}

/// The packet reader in a lent buffer.
pub struct Reader {
    state: [u64; 3],
    buffer: Box<[u8]>,
}

impl Frames for Reader {
    fn fresh() -> Self {
        let (mut state, buffer) = ([0; 3], room::<u8>(65_536));
        // SAFETY: whole slices.
        done(unsafe { xm_reader_new(state.as_mut_ptr(), 3, LITTLE, buffer.as_ptr(), 65_536) });
        Reader { state, buffer }
    }

    fn feed(&mut self, bytes: &[u8], see: &mut impl See) -> usize {
        let (mut start, mut size, mut packet, mut class) = (0, 0, 0, 0);
        let (state, buffer) = (self.state.as_mut_ptr(), &mut self.buffer);
        // SAFETY: whole slices.
        done(unsafe {
            xm_reader_buffer(
                state,
                3,
                buffer.as_ptr(),
                buffer.len(),
                &mut start,
                &mut size,
            )
        });
        let n = size.min(bytes.len());
        buffer[start..start + n].copy_from_slice(&bytes[..n]);
        // SAFETY: whole slices.
        done(unsafe {
            xm_reader_advance(
                state,
                3,
                buffer.as_ptr(),
                buffer.len(),
                n,
                &mut packet,
                &mut class,
            )
        });
        if packet != 0 {
            see.bytes(&buffer[..packet]);
        }
        n
    }
}

/// The handshake in a lent buffer, which its caller keeps from one to the next.
pub struct Setup {
    buffer: Box<[u8]>,
}

impl Handshake for Setup {
    fn fresh() -> Self {
        Setup {
            buffer: room(262_148),
        }
    }

    fn whole(&mut self, mut reply: &[u8], see: &mut impl See) {
        let (mut row, buffer) = ([0u64; 3], &mut self.buffer);
        let state = row.as_mut_ptr();
        // SAFETY: whole slices.
        done(unsafe { xm_connect_new(state, 3, LITTLE, buffer.as_ptr(), buffer.len()) });
        loop {
            let (mut start, mut size, mut complete) = (0, 0, 0);
            // SAFETY: whole slices.
            done(unsafe {
                xm_connect_buffer(
                    state,
                    3,
                    buffer.as_ptr(),
                    buffer.len(),
                    &mut start,
                    &mut size,
                )
            });
            let n = size.min(reply.len());
            buffer[start..start + n].copy_from_slice(&reply[..n]);
            reply = &reply[n..];
            // SAFETY: whole slices.
            done(unsafe {
                xm_connect_advance(state, 3, buffer.as_ptr(), buffer.len(), n, &mut complete)
            });
            if complete != 0 {
                return see.number(reply.len() as u64);
            }
        }
    }
}

/// The ids in three lent numbers.
pub struct Allocator {
    state: [u64; 3],
}

impl Ids for Allocator {
    fn fresh(base: u32, mask: u32) -> Self {
        let mut state = [0; 3];
        // SAFETY: whole slices.
        done(unsafe { xm_ids_new(state.as_mut_ptr(), 3, base, mask) });
        Allocator { state }
    }

    fn id(&mut self) -> Option<u32> {
        let mut id = 0;
        // SAFETY: whole slices.
        match unsafe { xm_ids_generate_id(self.state.as_mut_ptr(), 3, &mut id) } {
            0 => Some(id),
            _ => None,
        }
    }

    fn range(&mut self, start: u32, count: u32) {
        // SAFETY: whole slices.
        done(unsafe { xm_ids_update_xid_range(self.state.as_mut_ptr(), 3, start, count) });
    }
}

/// A connection in its lent rooms, all as large as they may be.
pub struct Connection {
    state: [u64; 16],
    requests: Box<[u8]>,
    store: Box<[u8]>,
    slots: Box<[u32]>,
    out: Box<[u8]>,
    fds: Box<[u32]>,
}

/// A call with the state and the three rooms, then whatever else it takes.
macro_rules! call {
    ($self:ident . $export:ident ( $($more:expr),* )) => {
        // SAFETY: whole slices.
        unsafe {
            $export(
                $self.state.as_mut_ptr(),
                $self.state.len(),
                $self.requests.as_mut_ptr(),
                $self.requests.len(),
                $self.store.as_mut_ptr(),
                $self.store.len(),
                $self.slots.as_mut_ptr(),
                $self.slots.len(),
                $($more),*
            )
        }
    };
}

impl Connection {
    fn polled(&self, result: u8, size: usize, see: &mut impl See) {
        see.number(result.into());
        if result == 2 {
            see.bytes(&self.out[..size]);
        }
    }
}

impl Client for Connection {
    fn fresh() -> Self {
        let mut c = Connection {
            state: [0; 16],
            requests: room(65_536),
            store: room(16_777_216),
            slots: room(256),
            out: room(65_536),
            fds: room(256),
        };
        // SAFETY: whole slices.
        done(unsafe {
            xm_connection_new(
                c.state.as_mut_ptr(),
                c.state.len(),
                LITTLE,
                c.requests.as_ptr(),
                c.requests.len(),
                c.store.as_ptr(),
                c.store.len(),
                c.slots.as_ptr(),
                c.slots.len(),
            )
        });
        c
    }

    fn send(&mut self, kind: u8) -> Option<u64> {
        let mut number = 0;
        match call!(self.xm_send_request(kind, &mut number)) {
            0 => Some(number),
            6 => None,
            code => panic!("refused by {code}"),
        }
    }

    fn discard(&mut self, number: u64, mode: u8) {
        done(call!(self.xm_discard_reply(number, mode)));
    }

    fn packet(&mut self, packet: &[u8]) {
        let (mut place, mut number, mut class) = (0, 0, 0);
        done(call!(self.xm_enqueue_packet(
            packet.as_ptr(),
            packet.len(),
            &mut place,
            &mut number,
            &mut class
        )));
    }

    fn event(&mut self, see: &mut impl See) -> bool {
        let (mut found, mut number, mut size, mut class) = (0, 0, 0, 0);
        done(call!(self.xm_poll_for_event_with_sequence(
            self.out.as_mut_ptr(),
            self.out.len(),
            &mut found,
            &mut number,
            &mut size,
            &mut class
        )));
        if found != 0 {
            see.number(number);
            see.bytes(&self.out[..size]);
        }
        found != 0
    }

    fn reply(&mut self, number: u64, see: &mut impl See) {
        let (mut result, mut size, mut class) = (0, 0, 0);
        done(call!(self.xm_poll_for_reply(
            number,
            self.out.as_mut_ptr(),
            self.out.len(),
            &mut result,
            &mut size,
            &mut class
        )));
        self.polled(result, size, see);
    }

    fn check(&mut self, number: u64, see: &mut impl See) {
        let (mut sync, mut result, mut size, mut class) = (0, 0, 0, 0);
        done(call!(
            self.xm_prepare_check_for_reply_or_error(number, &mut sync)
        ));
        see.number(sync.into());
        done(call!(self.xm_poll_check_for_reply_or_error(
            number,
            self.out.as_mut_ptr(),
            self.out.len(),
            &mut result,
            &mut size,
            &mut class
        )));
        self.polled(result, size, see);
    }

    fn reply_or_error(&mut self, number: u64, see: &mut impl See) {
        let (mut found, mut size, mut count, mut class) = (0, 0, 0, 0);
        done(call!(self.xm_poll_for_reply_or_error(
            number,
            self.out.as_mut_ptr(),
            self.out.len(),
            self.fds.as_mut_ptr(),
            self.fds.len(),
            &mut found,
            &mut size,
            &mut count,
            &mut class
        )));
        see.number(found.into());
        if found != 0 {
            see.bytes(&self.out[..size]);
        }
    }
}

/// A connection with the output of `poll_for_events`: packets, and the marks of each. It takes
/// all that can be held, so that one call hands all events out.
pub struct Batched {
    connection: Connection,
    out: Box<[u8]>,
    marks: Box<[u64]>,
}

impl Many for Batched {
    fn fresh() -> Self {
        Batched {
            connection: Client::fresh(),
            out: room(16_777_216),
            marks: room(1 << 20),
        }
    }

    fn sends(&mut self, kinds: &[u8], see: &mut impl See) {
        let (mut sent, mut number, mut stop) = (0, 0, 0);
        let c = &mut self.connection;
        done(call!(c.xm_send_requests(
            kinds.as_ptr(),
            kinds.len(),
            &mut sent,
            &mut number,
            &mut stop
        )));
        assert!(sent == kinds.len(), "all were sent");
        see.number(number);
    }

    fn feed(&mut self, bytes: &[u8]) {
        let (mut taken, mut packets, mut halt) = (0, 0, 0);
        let c = &mut self.connection;
        done(call!(c.xm_enqueue_packets(
            bytes.as_ptr(),
            bytes.len(),
            &mut taken,
            &mut packets,
            &mut halt
        )));
        assert!(taken == bytes.len(), "all were taken");
    }

    fn events(&mut self, see: &mut impl See) {
        loop {
            let (mut events, mut bytes, mut stop) = (0, 0, 0);
            let c = &mut self.connection;
            done(call!(c.xm_poll_for_events(
                self.out.as_mut_ptr(),
                self.out.len(),
                self.marks.as_mut_ptr(),
                self.marks.len(),
                &mut events,
                &mut bytes,
                &mut stop
            )));
            let mut at = 0;
            for mark in self.marks[..MARKS * events].chunks(MARKS) {
                let end = at + mark[1] as usize;
                see.number(mark[0]);
                see.bytes(&self.out[at..end]);
                at = end;
            }
            if events == 0 {
                return;
            }
        }
    }
}
