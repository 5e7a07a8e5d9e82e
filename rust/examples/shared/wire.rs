//! The bytes of core requests, and fields of what the server sends, after Core's encoding.

use xiengmado::ByteOrder;

/// A request that is being written. Each starts with its opcode, a byte of detail and its length in
/// units of four bytes, which `done` fills in.
pub struct Request {
    order: ByteOrder,
    bytes: Vec<u8>,
}

impl Request {
    pub fn new(order: ByteOrder, opcode: u8, detail: u8) -> Self {
        let bytes = vec![opcode, detail, 0, 0];
        Request { order, bytes }
    }

    pub fn card16(mut self, number: u16) -> Self {
        self.bytes.extend(put16(self.order, number));
        self
    }

    pub fn card32(mut self, number: u32) -> Self {
        self.bytes.extend(put32(self.order, number));
        self
    }

    /// Numbers of 16 bits, in pairs: points, sizes.
    pub fn pairs(self, pairs: &[(i16, i16)]) -> Self {
        pairs.iter().fold(self, |request, &(x, y)| {
            request.card16(x as u16).card16(y as u16)
        })
    }

    /// Bytes, filled up to a multiple of four.
    pub fn padded(mut self, bytes: &[u8]) -> Self {
        self.bytes.extend(bytes);
        self.bytes.resize(self.bytes.len().next_multiple_of(4), 0);
        self
    }

    pub fn done(mut self) -> Vec<u8> {
        let units = (self.bytes.len() / 4) as u16;
        self.bytes[2..4].copy_from_slice(&put16(self.order, units));
        self.bytes
    }
}

pub fn put16(order: ByteOrder, number: u16) -> [u8; 2] {
    match order {
        ByteOrder::Little => number.to_le_bytes(),
        ByteOrder::Big => number.to_be_bytes(),
    }
}

fn put32(order: ByteOrder, number: u32) -> [u8; 4] {
    match order {
        ByteOrder::Little => number.to_le_bytes(),
        ByteOrder::Big => number.to_be_bytes(),
    }
}

/// The byte order that a word names, `l` or `B`.
pub fn named_order(word: &str) -> Option<ByteOrder> {
    match word {
        "l" => Some(ByteOrder::Little),
        "B" => Some(ByteOrder::Big),
        _ => None,
    }
}

/// The first screen of a setup. It stands behind the fixed 40 bytes, the vendor's text, filled up to a multiple
/// of four, and the pixmap formats of 8 bytes each.
pub fn first_screen(order: ByteOrder, setup: &[u8]) -> &[u8] {
    let vendor = usize::from(get16(order, setup, 24)).next_multiple_of(4);
    let formats = 8 * usize::from(setup[29]);
    &setup[40 + vendor + formats..]
}

/// The 16-bit field that starts at a byte.
pub fn get16(order: ByteOrder, bytes: &[u8], at: usize) -> u16 {
    let field = [bytes[at], bytes[at + 1]];
    match order {
        ByteOrder::Little => u16::from_le_bytes(field),
        ByteOrder::Big => u16::from_be_bytes(field),
    }
}

/// The 32-bit field that starts at a byte.
pub fn get32(order: ByteOrder, bytes: &[u8], at: usize) -> u32 {
    let field = [bytes[at], bytes[at + 1], bytes[at + 2], bytes[at + 3]];
    match order {
        ByteOrder::Little => u32::from_le_bytes(field),
        ByteOrder::Big => u32::from_be_bytes(field),
    }
}
