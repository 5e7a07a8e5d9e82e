//! The names and types around the published files, without behaviour of their own. Whoever builds those files
//! has `utils::RawFdContainer` and the published errors at its root.

use crate::utils;

pub type BufWithFds<B> = (B, Vec<utils::RawFdContainer>);
pub type SequenceNumber = u64;
pub type RawEventAndSeqNumber<B> = (B, SequenceNumber);

#[derive(Debug, Copy, Clone, PartialEq, Eq)]
pub enum DiscardMode {
    DiscardReply,
    DiscardReplyAndError,
}

pub mod protocol {
    pub mod xproto {
        use crate::errors::ParseError;
        use crate::x11_utils::{Serialize, TryParse};

        pub const KEYMAP_NOTIFY_EVENT: u8 = 11;
        pub const GE_GENERIC_EVENT: u8 = 35;

        pub struct SetupRequest {
            pub byte_order: u8,
            pub protocol_major_version: u16,
            pub protocol_minor_version: u16,
            pub authorization_protocol_name: Vec<u8>,
            pub authorization_protocol_data: Vec<u8>,
        }

        impl Serialize for SetupRequest {
            type Bytes = Vec<u8>;
            fn serialize(&self) -> Vec<u8> {
                Vec::new()
            }
        }

        macro_rules! unread {
            ($($name:ident)*) => {
                $(
                    #[derive(Debug)]
                    pub struct $name {
                        pub reason: Vec<u8>,
                    }

                    impl TryParse for $name {
                        fn try_parse(_: &[u8]) -> Result<(Self, &[u8]), ParseError> {
                            Err(ParseError::InsufficientData)
                        }
                    }
                )*
            };
        }

        unread!(Setup SetupFailed SetupAuthenticate);
    }

    pub mod xc_misc {
        #[derive(Default)]
        pub struct GetXIDRangeReply {
            pub start_id: u32,
            pub count: u32,
        }
    }
}

pub mod x11_utils {
    use crate::errors::ParseError;

    pub trait Serialize {
        type Bytes;
        fn serialize(&self) -> Self::Bytes;
    }

    pub trait TryParse: Sized {
        fn try_parse(value: &[u8]) -> Result<(Self, &[u8]), ParseError>;
    }
}
