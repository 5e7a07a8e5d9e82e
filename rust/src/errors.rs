//! What can go wrong: the refusals of the engine, and the errors that the original's calls answer.
//!
//! ```
//! use xiengmado::errors::{ConnectError, ParseError, Refusal};
//! use xiengmado::x11_utils::X11Error;
//!
//! assert_eq!(X11Error::try_parse(&[0; 10]), Err(ParseError::InsufficientData));
//! assert_eq!(X11Error::try_parse(&[1; 32]), Err(ParseError::InvalidValue));
//! assert_eq!(Refusal::NoRoom.number(), 5);
//!
//! // `?` makes one of what the socket says, and of what the bytes say.
//! fn connect() -> Result<(), ConnectError> {
//!     Err(std::io::Error::other("no server"))?
//! }
//! assert_eq!(connect().unwrap_err().to_string(), "no server");
//! ```

use std::error::Error;
use std::{fmt, io};

pub use crate::id_allocator::IdsExhausted;
use crate::protocol::xproto::{SetupAuthenticate, SetupFailed};

macro_rules! refusals {
    ($($(#[$doc:meta])* $name:ident = $number:literal, $text:literal;)*) => {
        /// Why the engine refused a call; nothing was changed by it.
        #[derive(Debug, Copy, Clone, PartialEq, Eq)]
        #[repr(u32)]
        pub enum Refusal {
            $(#[doc = $text] $name = $number,)*
        }

        impl Refusal {
            /// The refusal of a number.
            #[inline]
            pub fn from_number(number: u32) -> Option<Refusal> {
                match number {
                    $($number => Some(Refusal::$name),)*
                    _ => None,
                }
            }

            fn text(self) -> &'static str {
                match self {
                    $(Refusal::$name => $text,)*
                }
            }
        }
    };
}

refusals! {
    ShortPacket = 1, "A packet under 32 bytes";
    LongPacket = 2, "A packet over 65,536 bytes, or one over its buffer";
    NumberEnd = 3, "A sequence number would pass 2^63 - 1";
    FewDescriptors = 4, "A reply claims more descriptors than wait";
    NoRoom = 5, "No room for a request, a packet or a descriptor";
    SyncFirst = 6, "A request with a reply must be sent first";
    OverAdvance = 7, "More bytes claimed than remain";
    OutShort = 8, "An output is too small";
    BadRoom = 9, "A room's length out of range, or an unsound state";
    ZeroMask = 10, "An id mask of zero";
    IdsExhausted = 11, "No id left";
    BadRange = 12, "A range whose last id is over 2^32 - 1";
    BadOrder = 13, "A byte order that there is not";
    BadContent = 14, "A wrong first byte, or lengths that pass the end";
    Incomplete = 15, "A setup asked for too early";
    LongAuth = 16, "An authorization name or data over 65,535 bytes";
    HasDescriptors = 18, "A descriptor is inside, and descriptors can't be saved";
    BadSavepoint = 19, "Bytes that are no savepoint";
    Ahead = 20, "A packet whose number is above the last written";
}

impl Refusal {
    /// The number of a refusal.
    pub fn number(self) -> u32 {
        self as u32
    }
}

impl fmt::Display for Refusal {
    fn fmt(&self, f: &mut fmt::Formatter<'_>) -> fmt::Result {
        write!(f, "{} (refusal {})", self.text(), self.number())
    }
}

impl Error for Refusal {}

/// Bytes that could not be parsed. Of the original's five kinds the engine gives two.
#[derive(Debug, Copy, Clone, PartialEq, Eq)]
#[non_exhaustive]
pub enum ParseError {
    /// Bytes are missing.
    InsufficientData,
    /// A number is out of its type's range.
    ConversionFailed,
    /// A length can't be reckoned.
    InvalidExpression,
    /// The first byte is that of something else.
    InvalidValue,
    /// Descriptors are missing.
    MissingFileDescriptors,
    /// A refusal that the original has no name for: 2, a packet over 65,536 bytes.
    Refused(Refusal),
}

impl ParseError {
    /// Why the engine refused some bytes, by whether their first byte is right.
    pub(crate) fn new(refusal: Refusal, begins_right: bool) -> Self {
        match refusal {
            Refusal::ShortPacket => ParseError::InsufficientData,
            Refusal::BadContent if begins_right => ParseError::InsufficientData,
            Refusal::BadContent => ParseError::InvalidValue,
            other => ParseError::Refused(other),
        }
    }
}

impl fmt::Display for ParseError {
    fn fmt(&self, f: &mut fmt::Formatter<'_>) -> fmt::Result {
        match self {
            ParseError::InsufficientData => f.write_str("Bytes are missing"),
            ParseError::ConversionFailed => f.write_str("A number is out of its type's range"),
            ParseError::InvalidExpression => f.write_str("A length can't be reckoned"),
            ParseError::InvalidValue => f.write_str("The first byte is that of something else"),
            ParseError::MissingFileDescriptors => f.write_str("Descriptors are missing"),
            ParseError::Refused(refusal) => refusal.fmt(f),
        }
    }
}

impl Error for ParseError {}

/// A display's name that could not be read. The engine reads none: this is for the caller's own
/// parser.
#[derive(Debug, Clone, PartialEq, Eq)]
#[non_exhaustive]
pub enum DisplayParsingError {
    /// No name was given, and DISPLAY is not set.
    DisplayNotSet,
    /// No display has such a name.
    MalformedValue(Box<str>),
    /// DISPLAY is not Unicode.
    NotUnicode,
    /// Something else.
    Unknown,
}

impl fmt::Display for DisplayParsingError {
    fn fmt(&self, f: &mut fmt::Formatter<'_>) -> fmt::Result {
        match self {
            DisplayParsingError::DisplayNotSet => f.write_str("DISPLAY is not set"),
            DisplayParsingError::MalformedValue(name) => write!(f, "No display is named {name:?}"),
            DisplayParsingError::NotUnicode => f.write_str("DISPLAY is not Unicode"),
            DisplayParsingError::Unknown => f.write_str("The display's name could not be read"),
        }
    }
}

impl Error for DisplayParsingError {}

/// Why there is no connection. What the engine never answers is for the caller's socket.
#[derive(Debug)]
#[non_exhaustive]
pub enum ConnectError {
    /// Something else.
    UnknownError,
    /// The reply could not be parsed.
    ParseError(ParseError),
    /// There is not enough memory.
    InsufficientMemory,
    /// The display's name could not be read.
    DisplayParsingError(DisplayParsingError),
    /// The server has no such screen.
    InvalidScreen,
    /// The socket failed.
    IoError(io::Error),
    /// The id mask in the setup was zero.
    ZeroIdMask,
    /// The server asks for further authentication.
    SetupAuthenticate(SetupAuthenticate),
    /// The server refused the connection.
    SetupFailed(SetupFailed),
    /// The reply is not complete.
    Incomplete {
        /// The number of bytes that were expected.
        expected: usize,
        /// The number of bytes that were received.
        received: usize,
    },
}

impl fmt::Display for ConnectError {
    fn fmt(&self, f: &mut fmt::Formatter<'_>) -> fmt::Result {
        match self {
            ConnectError::UnknownError => f.write_str("The connection failed"),
            ConnectError::ParseError(error) => error.fmt(f),
            ConnectError::InsufficientMemory => f.write_str("There is not enough memory"),
            ConnectError::DisplayParsingError(error) => error.fmt(f),
            ConnectError::InvalidScreen => f.write_str("The server has no such screen"),
            ConnectError::IoError(error) => error.fmt(f),
            ConnectError::ZeroIdMask => Refusal::ZeroMask.fmt(f),
            ConnectError::SetupAuthenticate(more) => {
                let reason = String::from_utf8_lossy(&more.reason);
                write!(f, "The server wants further authentication: {reason}")
            }
            ConnectError::SetupFailed(failed) => {
                let reason = String::from_utf8_lossy(&failed.reason);
                write!(f, "The server refused: {reason}")
            }
            ConnectError::Incomplete { expected, received } => {
                write!(f, "{received} of {expected} bytes of the setup are there")
            }
        }
    }
}

impl Error for ConnectError {}

impl From<ParseError> for ConnectError {
    fn from(error: ParseError) -> Self {
        ConnectError::ParseError(error)
    }
}

impl From<DisplayParsingError> for ConnectError {
    fn from(error: DisplayParsingError) -> Self {
        ConnectError::DisplayParsingError(error)
    }
}

impl From<io::Error> for ConnectError {
    fn from(error: io::Error) -> Self {
        ConnectError::IoError(error)
    }
}

#[cfg(test)]
mod test {
    use super::*;

    #[test]
    fn each_says_what_it_is() {
        let failed = ConnectError::SetupFailed(SetupFailed {
            status: 0,
            protocol_major_version: 11,
            protocol_minor_version: 0,
            length: 1,
            reason: b"away".to_vec(),
        });
        assert_eq!(failed.to_string(), "The server refused: away");
        let name = DisplayParsingError::MalformedValue("a:b".into());
        let said = ConnectError::from(name).to_string();
        assert_eq!(said, "No display is named \"a:b\"");
        let said = ConnectError::from(ParseError::Refused(Refusal::LongPacket)).to_string();
        assert_eq!(said, Refusal::LongPacket.to_string());
        let gone = io::Error::from(io::ErrorKind::NotFound);
        assert!(matches!(ConnectError::from(gone), ConnectError::IoError(_)));
    }

    #[test]
    fn numbers_and_refusals_are_one_to_one() {
        let all: Vec<_> = (0..100).filter_map(Refusal::from_number).collect();
        assert_eq!(all.len(), 19);
        assert!(all
            .iter()
            .all(|r| Refusal::from_number(r.number()) == Some(*r)));
    }
}
