//! The sides of a row: the published Rust, the Rust crate over the static library, and the library's
//! exports, each driven by the same work through these traits.

use std::hint::black_box;

/// Looks at answers.
pub trait See {
    fn number(&mut self, n: u64);
    fn bytes(&mut self, bytes: &[u8]);
}

/// Every answer in full, to be compared.
#[derive(Default)]
pub struct Log(pub Vec<u8>);

impl See for Log {
    fn number(&mut self, n: u64) {
        self.0.extend(n.to_le_bytes());
    }

    fn bytes(&mut self, bytes: &[u8]) {
        self.number(bytes.len() as u64);
        self.0.extend(bytes);
    }
}

/// Nothing: the answer is made, no more.
pub struct Blind;

impl See for Blind {
    #[inline(always)]
    fn number(&mut self, n: u64) {
        black_box(n);
    }

    #[inline(always)]
    fn bytes(&mut self, bytes: &[u8]) {
        black_box(bytes.as_ptr());
        black_box(bytes.len());
    }
}

/// A packet reader.
pub trait Frames {
    fn fresh() -> Self;
    /// As many bytes as are wanted next are filled in and counted: how many. A whole packet is seen.
    fn feed(&mut self, bytes: &[u8], see: &mut impl See) -> usize;
}

/// A handshake.
pub trait Handshake {
    fn fresh() -> Self;
    /// One from its beginning to a whole reply: what is left of the bytes is seen.
    fn whole(&mut self, reply: &[u8], see: &mut impl See);
}

/// An allocator of ids.
pub trait Ids {
    fn fresh(base: u32, mask: u32) -> Self;
    fn id(&mut self) -> Option<u32>;
    fn range(&mut self, start: u32, count: u32);
}

/// A connection. Kinds are 0 without a reply, 1 with one; modes 1 for the reply, 2 for errors too.
pub trait Client {
    fn fresh() -> Self;
    fn send(&mut self, kind: u8) -> Option<u64>;
    fn discard(&mut self, number: u64, mode: u8);
    fn packet(&mut self, packet: &[u8]);
    fn event(&mut self, see: &mut impl See) -> bool;
    fn reply(&mut self, number: u64, see: &mut impl See);
    fn check(&mut self, number: u64, see: &mut impl See);
    fn reply_or_error(&mut self, number: u64, see: &mut impl See);
}

/// Both crates have the same calls, so what drives them is written once.
macro_rules! side {
    ($side:ident, $setup:ident) => {
        impl Frames for $side::packet_reader::PacketReader {
            fn fresh() -> Self {
                Self::new()
            }

            fn feed(&mut self, bytes: &[u8], see: &mut impl See) -> usize {
                let part = self.buffer();
                let n = part.len().min(bytes.len());
                part[..n].copy_from_slice(&bytes[..n]);
                if let Some(packet) = self.advance(n) {
                    see.bytes(&packet);
                }
                n
            }
        }

        /// A handshake that is made anew each time.
        pub struct $setup;

        impl Handshake for $setup {
            fn fresh() -> Self {
                $setup
            }

            fn whole(&mut self, mut reply: &[u8], see: &mut impl See) {
                let (mut connect, _) =
                    $side::connect::Connect::with_authorization(Vec::new(), Vec::new());
                loop {
                    let part = connect.buffer();
                    let n = part.len().min(reply.len());
                    part[..n].copy_from_slice(&reply[..n]);
                    reply = &reply[n..];
                    if connect.advance(n) {
                        return see.number(reply.len() as u64);
                    }
                }
            }
        }

        impl Ids for $side::id_allocator::IdAllocator {
            fn fresh(base: u32, mask: u32) -> Self {
                Self::new(base, mask).unwrap()
            }

            fn id(&mut self) -> Option<u32> {
                self.generate_id()
            }

            #[allow(clippy::needless_update)]
            fn range(&mut self, start_id: u32, count: u32) {
                let range = $side::protocol::xc_misc::GetXIDRangeReply {
                    start_id,
                    count,
                    ..Default::default()
                };
                self.update_xid_range(&range).unwrap();
            }
        }

        impl Client for $side::connection::Connection {
            fn fresh() -> Self {
                Self::new()
            }

            fn send(&mut self, kind: u8) -> Option<u64> {
                use $side::connection::ReplyFdKind;
                self.send_request(match kind {
                    0 => ReplyFdKind::NoReply,
                    _ => ReplyFdKind::ReplyWithoutFDs,
                })
            }

            fn discard(&mut self, number: u64, mode: u8) {
                use $side::DiscardMode;
                let mode = match mode {
                    1 => DiscardMode::DiscardReply,
                    _ => DiscardMode::DiscardReplyAndError,
                };
                self.discard_reply(number, mode);
            }

            fn packet(&mut self, packet: &[u8]) {
                self.enqueue_packet(packet.to_vec());
            }

            fn event(&mut self, see: &mut impl See) -> bool {
                let answer = self.poll_for_event_with_sequence();
                if let Some((packet, number)) = &answer {
                    see.number(*number);
                    see.bytes(packet);
                }
                answer.is_some()
            }

            fn reply(&mut self, number: u64, see: &mut impl See) {
                use $side::connection::PollReply;
                match self.poll_for_reply(number) {
                    PollReply::TryAgain => see.number(0),
                    PollReply::NoReply => see.number(1),
                    PollReply::Reply(packet) => {
                        see.number(2);
                        see.bytes(&packet);
                    }
                }
            }

            fn check(&mut self, number: u64, see: &mut impl See) {
                use $side::connection::PollReply;
                see.number(self.prepare_check_for_reply_or_error(number).into());
                match self.poll_check_for_reply_or_error(number) {
                    PollReply::TryAgain => see.number(0),
                    PollReply::NoReply => see.number(1),
                    PollReply::Reply(packet) => {
                        see.number(2);
                        see.bytes(&packet);
                    }
                }
            }

            fn reply_or_error(&mut self, number: u64, see: &mut impl See) {
                match self.poll_for_reply_or_error(number) {
                    None => see.number(0),
                    Some((packet, _)) => {
                        see.number(1);
                        see.bytes(&packet);
                    }
                }
            }
        }
    };
}

side!(original, RustSetup);
side!(xiengmado, CrateSetup);
