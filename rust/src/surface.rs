//! What docs/DIFFERENCES.md calls the same as in the original is so: this does not compile where a signature, a variant, a field
//! or a trait of such an item is another.

use std::borrow::Cow;
use std::error::Error;
use std::fmt::{Debug, Display};
use std::hash::Hash;
use std::io;

use crate::connect::Connect;
use crate::connection::{self, Connection, PollReply, ReplyFdKind};
use crate::errors::{ConnectError, DisplayParsingError, IdsExhausted, ParseError};
use crate::id_allocator::IdAllocator;
use crate::packet_reader::PacketReader;
use crate::protocol::xc_misc::*;
use crate::protocol::xproto::{Setup, SetupAuthenticate, SetupFailed};
use crate::x11_utils::{ReplyRequest, Request, Serialize, TryParse, X11Error};
use crate::{BufWithFds, DiscardMode, RawFdContainer, SequenceNumber};

type Bytes = Vec<u8>;
type Number = SequenceNumber;
type Fds = Vec<RawFdContainer>;
type Sent = BufWithFds<[Cow<'static, [u8]>; 1]>;

fn plain<T: Debug + Copy + Clone + PartialEq + Eq>() {}
fn whole<T: Debug>() {}
fn said<T: Debug + Display + Error>() {}
fn sent<T: Debug + Clone + Copy + Default + Ord + Hash + ReplyRequest>() {}
fn came<T: Debug + Clone + Default + Ord + Hash + TryParse + Serialize>() {}

#[test]
fn traits() {
    plain::<ParseError>();
    plain::<DiscardMode>();
    plain::<ReplyFdKind>();
    plain::<X11Error>();
    whole::<(Connection, PacketReader, Connect, IdAllocator)>();
    let _: fn(&IdsExhausted) -> IdsExhausted = |exhausted| *exhausted;
    let _: fn(&DisplayParsingError) -> DisplayParsingError = Clone::clone;
    let _: fn(&DisplayParsingError, &DisplayParsingError) -> bool = PartialEq::eq;
    said::<ParseError>();
    said::<DisplayParsingError>();
    said::<ConnectError>();
    said::<IdsExhausted>();
    sent::<GetVersionRequest>();
    sent::<GetXIDRangeRequest>();
    sent::<GetXIDListRequest>();
    came::<GetVersionReply>();
    came::<GetXIDRangeReply>();
    came::<GetXIDListReply>();
    let _: fn(io::Error) -> ConnectError = From::from;
    let _: fn(ParseError) -> ConnectError = From::from;
    let _: fn(DisplayParsingError) -> ConnectError = From::from;
    let _: fn(&PollReply) -> PollReply = Clone::clone;
    let _: fn(&IdAllocator) -> IdAllocator = |ids| *ids;
    let _: fn() -> (Connection, PacketReader) = Default::default;
    let _: fn(&GetVersionReply) -> [u8; 12] = Serialize::serialize;
    let _: fn(&GetXIDRangeReply) -> [u8; 16] = Serialize::serialize;
    let _: fn(&GetXIDListReply) -> Bytes = Serialize::serialize;
    let _: fn(GetVersionRequest, u8) -> BufWithFds<Bytes> = Request::serialize;
    let _: Option<&'static str> = GetXIDListRequest::EXTENSION_NAME;
    let _: fn(Connect) -> Result<Setup, ConnectError> = TryFrom::try_from;
}

#[test]
fn calls() {
    type C = Connection;
    let _: fn() -> C = C::new;
    let _: fn(&mut C, ReplyFdKind) -> Option<Number> = C::send_request;
    let _: fn(&mut C, Number, DiscardMode) = C::discard_reply;
    let _: fn(&mut C, Fds) = C::enqueue_fds;
    let _: fn(&mut C, Bytes) = C::enqueue_packet;
    let _: fn(&mut C, Number) -> Option<connection::BufWithFds> = C::poll_for_reply_or_error;
    let _: fn(&mut C, Number) -> bool = C::prepare_check_for_reply_or_error;
    let _: fn(&mut C, Number) -> PollReply = C::poll_check_for_reply_or_error;
    let _: fn(&mut C, Number) -> PollReply = C::poll_for_reply;
    let _: fn(&mut C) -> Option<connection::RawEventAndSeqNumber> = C::poll_for_event_with_sequence;
    let _: connection::BufWithFds = (Bytes::new(), Fds::new());
    let _: connection::RawEventAndSeqNumber = (Bytes::new(), 1);
}

#[test]
fn leaves() {
    let _: fn(Bytes, Bytes) -> (Connect, Bytes) = Connect::with_authorization;
    let _: fn(&mut Connect) -> &mut [u8] = Connect::buffer;
    let _: fn(&mut Connect, usize) -> bool = Connect::advance;
    let _: fn(Connect) -> Result<Setup, ConnectError> = Connect::into_setup;
    let _: fn() -> PacketReader = PacketReader::new;
    let _: fn(&mut PacketReader) -> &mut [u8] = PacketReader::buffer;
    let _: fn(&PacketReader) -> usize = PacketReader::remaining_capacity;
    let _: fn(&mut PacketReader, usize) -> Option<Bytes> = PacketReader::advance;
    let _: fn(u32, u32) -> Result<IdAllocator, ConnectError> = IdAllocator::new;
    type Update = fn(&mut IdAllocator, &GetXIDRangeReply) -> Result<(), IdsExhausted>;
    let _: Update = IdAllocator::update_xid_range;
    let _: fn(&mut IdAllocator) -> Option<u32> = IdAllocator::generate_id;
    let _: fn(GetVersionRequest, u8) -> Sent = GetVersionRequest::serialize;
    let _: fn(GetXIDRangeRequest, u8) -> Sent = GetXIDRangeRequest::serialize;
    let _: fn(GetXIDListRequest, u8) -> Sent = GetXIDListRequest::serialize;
    let _: fn(&GetXIDListReply) -> u32 = GetXIDListReply::ids_len;
    assert_eq!((X11_EXTENSION_NAME, X11_XML_VERSION), ("XC-MISC", (1, 1)));
    let opcodes = [
        GET_VERSION_REQUEST,
        GET_XID_RANGE_REQUEST,
        GET_XID_LIST_REQUEST,
    ];
    assert_eq!(opcodes, [0, 1, 2]);
}

#[test]
fn variants() {
    use ParseError::*;
    let _ = [InsufficientData, ConversionFailed, InvalidExpression];
    let _ = [InvalidValue, MissingFileDescriptors];
    let _ = [DiscardMode::DiscardReply, DiscardMode::DiscardReplyAndError];
    let _ = [ReplyFdKind::NoReply, ReplyFdKind::ReplyWithoutFDs];
    let _ = [ReplyFdKind::ReplyWithFDs];
    let _ = [PollReply::TryAgain, PollReply::NoReply];
    let _: fn(Bytes) -> PollReply = PollReply::Reply;
    let _ = [
        DisplayParsingError::DisplayNotSet,
        DisplayParsingError::NotUnicode,
        DisplayParsingError::Unknown,
    ];
    let _: fn(Box<str>) -> DisplayParsingError = DisplayParsingError::MalformedValue;
    let _ = [
        ConnectError::UnknownError,
        ConnectError::InsufficientMemory,
        ConnectError::InvalidScreen,
        ConnectError::ZeroIdMask,
    ];
    let _: fn(ParseError) -> ConnectError = ConnectError::ParseError;
    let _: fn(DisplayParsingError) -> ConnectError = ConnectError::DisplayParsingError;
    let _: fn(io::Error) -> ConnectError = ConnectError::IoError;
    let _: fn(SetupAuthenticate) -> ConnectError = ConnectError::SetupAuthenticate;
    let _: fn(SetupFailed) -> ConnectError = ConnectError::SetupFailed;
    let _: fn(usize, usize) -> ConnectError =
        |expected, received| ConnectError::Incomplete { expected, received };
}

#[test]
fn fields() {
    let _: fn(&X11Error) -> (u8, u16, u32) = |e| (e.error_code, e.sequence, e.bad_value);
    let _: fn(&X11Error) -> (u16, u8) = |e| (e.minor_opcode, e.major_opcode);
    let _: fn(u16, u16) -> GetVersionRequest =
        |client_major_version, client_minor_version| GetVersionRequest {
            client_major_version,
            client_minor_version,
        };
    let _: fn(u32) -> GetXIDListRequest = |count| GetXIDListRequest { count };
    let _: GetXIDRangeRequest = GetXIDRangeRequest;
    let _: fn(u16, u32, u16, u16) -> GetVersionReply =
        |sequence, length, server_major_version, server_minor_version| GetVersionReply {
            sequence,
            length,
            server_major_version,
            server_minor_version,
        };
    let _: fn(u16, u32, u32, u32) -> GetXIDRangeReply =
        |sequence, length, start_id, count| GetXIDRangeReply {
            sequence,
            length,
            start_id,
            count,
        };
    let _: fn(u16, u32, Vec<u32>) -> GetXIDListReply = |sequence, length, ids| GetXIDListReply {
        sequence,
        length,
        ids,
    };
}
