//! Collects bytes of the server into packets.

use crate::engine::HEAD;
use crate::errors::Refusal;
use crate::{ffi, ByteOrder, PacketClass};

/// The buffer that `PacketReader::new` takes: as large as it may be.
const BUFFER: usize = 65_536;

/// A whole packet and its class.
pub type PacketWithClass = (Vec<u8>, PacketClass);

/// A partial packet.
///
/// A packet that is longer than the buffer is gathered beside it by `advance`, and lent in parts: the first
/// ends at byte 65,536 of the packet, each other one where the packet is twice as long as before. So
/// memory is taken for what came, twice at most, and not for a length that the server only claims, which
/// may be 16 GiB.
///
/// ```
/// use xiengmado::packet_reader::PacketReader;
///
/// let mut stream: &[u8] = &[2; 64];
/// let (mut reader, mut packets) = (PacketReader::new(), Vec::new());
/// while !stream.is_empty() {
///     let count = std::io::Read::read(&mut stream, reader.buffer()).unwrap();
///     packets.extend(reader.advance(count));
/// }
/// assert_eq!(packets, [[2; 32], [2; 32]]);
/// ```
#[derive(Debug, Clone)]
pub struct PacketReader {
    pub(crate) state: [u64; ffi::SLOTS],
    pub(crate) buffer: Box<[u8]>,
    long: Option<Box<Long>>,
}

/// A packet that is longer than the buffer: what came and the part that is lent, how much came, how long it
/// will be, and its class.
#[derive(Debug, Clone)]
struct Long {
    bytes: Vec<u8>,
    filled: usize,
    wanted: usize,
    class: PacketClass,
}

impl Long {
    fn new(head: &[u8], (wanted, class): (usize, PacketClass)) -> Self {
        let mut long = Long {
            bytes: head.to_vec(),
            filled: head.len(),
            wanted,
            class,
        };
        long.lengthen();
        long
    }

    fn lengthen(&mut self) {
        let end = (self.filled + 1).next_power_of_two().max(BUFFER);
        let end = end.min(self.wanted);
        self.bytes.reserve_exact(end - self.bytes.len());
        self.bytes.resize(end, 0);
    }

    /// So many bytes more came: whether it is whole. Refused by 7.
    fn advance(&mut self, amount: usize) -> Result<bool, Refusal> {
        if amount > self.bytes.len() - self.filled {
            return Err(Refusal::OverAdvance);
        }
        self.filled += amount;
        let whole = self.filled == self.wanted;
        if self.filled == self.bytes.len() && !whole {
            self.lengthen();
        }
        Ok(whole)
    }
}

impl Default for PacketReader {
    fn default() -> Self {
        Self::new()
    }
}

impl PacketReader {
    /// An empty reader with the largest buffer and this machine's byte order.
    pub fn new() -> Self {
        Self::with_buffer(ByteOrder::NATIVE, BUFFER).expect("the buffer is in range")
    }

    /// The same with a buffer of so many bytes (32 to 65,536). Refused by 9.
    pub fn with_buffer(order: ByteOrder, size: usize) -> Result<Self, Refusal> {
        let mut reader = PacketReader::bare(size);
        ffi::reader_new(&mut reader.state, order.byte(), &reader.buffer)?;
        Ok(reader)
    }

    /// A buffer of this length, and no state yet.
    pub(crate) fn bare(size: usize) -> Self {
        PacketReader {
            state: [0; ffi::SLOTS],
            buffer: vec![0; size].into(),
            long: None,
        }
    }

    /// Whether a packet is being gathered that is longer than the buffer.
    #[inline]
    pub(crate) fn is_gathering(&self) -> bool {
        self.long.is_some()
    }

    /// Lets go of such a packet.
    pub(crate) fn stop_gathering(&mut self) {
        self.long = None;
    }

    /// The part that is to be filled with bytes of the server.
    #[inline]
    pub fn buffer(&mut self) -> &mut [u8] {
        if let Some(long) = &mut self.long {
            return &mut long.bytes[long.filled..];
        }
        // The two numbers that the engine answers for a whole reader, without the call.
        let (start, end) = (
            self.state[ffi::READER_FILLED] as usize,
            self.state[ffi::READER_TARGET] as usize,
        );
        debug_assert_eq!(
            ffi::reader_buffer(&self.state, &self.buffer),
            Ok((start, end - start))
        );
        &mut self.buffer[start..end]
    }

    /// How many bytes that part has.
    pub fn remaining_capacity(&self) -> usize {
        if let Some(long) = &self.long {
            return long.bytes.len() - long.filled;
        }
        ffi::reader_remaining_capacity(&self.state, &self.buffer).expect("the reader is whole")
    }

    /// The bytes that were filled so far.
    pub fn filled(&self) -> &[u8] {
        if let Some(long) = &self.long {
            return &long.bytes[..long.filled];
        }
        &self.buffer[..self.state[ffi::READER_FILLED] as usize]
    }

    /// So many bytes of the part were filled. Answers the packet once it is whole, however long it is.
    ///
    /// # Panics
    ///
    /// For more bytes than the part has (7): no more than `remaining_capacity` can be right. `try_advance`
    /// answers the refusal.
    #[inline]
    pub fn advance(&mut self, amount: usize) -> Option<Vec<u8>> {
        self.advanced(amount, |packet, _| packet)
    }

    /// The same, and the packet's class with it.
    #[inline]
    pub fn advance_with_class(&mut self, amount: usize) -> Option<PacketWithClass> {
        self.advanced(amount, |packet, class| (packet, class))
    }

    /// What is told of a packet that is whole.
    #[inline]
    fn advanced<T>(
        &mut self,
        amount: usize,
        tell: impl FnOnce(Vec<u8>, PacketClass) -> T,
    ) -> Option<T> {
        if !self.is_gathering() {
            match ffi::reader_advance(&mut self.state, &self.buffer, amount) {
                Ok((0, _)) => return None,
                Ok((size, class)) => return Some(tell(self.buffer[..size].to_vec(), class)),
                Err(_) => {}
            }
        }
        let (packet, class) = self.gather(amount)?;
        Some(tell(packet, class))
    }

    /// The same for a packet that is longer than the buffer, and for a refusal.
    #[cold]
    fn gather(&mut self, amount: usize) -> Option<PacketWithClass> {
        match self.try_advance_with_class(amount) {
            Ok(packet) => packet,
            Err(Refusal::LongPacket) => {
                self.start_gathering();
                None
            }
            Err(refusal) => panic!("advance: {refusal}"),
        }
    }

    /// The same for a packet that fits into the buffer. Refused by 7, 2; after 2 nothing has changed, and
    /// `advance` with the same amount begins to gather the packet.
    #[inline]
    pub fn try_advance(&mut self, amount: usize) -> Result<Option<Vec<u8>>, Refusal> {
        let whole = self.try_advance_with_class(amount)?;
        Ok(whole.map(|(packet, _)| packet))
    }

    /// The same, and the packet's class with it.
    #[inline]
    pub fn try_advance_with_class(
        &mut self,
        amount: usize,
    ) -> Result<Option<PacketWithClass>, Refusal> {
        if self.is_gathering() {
            return self.advance_long(amount);
        }
        match ffi::reader_advance(&mut self.state, &self.buffer, amount)? {
            (0, _) => Ok(None),
            (size, class) => Ok(Some((self.buffer[..size].to_vec(), class))),
        }
    }

    #[cold]
    fn advance_long(&mut self, amount: usize) -> Result<Option<PacketWithClass>, Refusal> {
        match self.long.as_mut().map(|long| long.advance(amount)) {
            Some(Ok(true)) => Ok(self.long.take().map(|long| (long.bytes, long.class))),
            Some(Err(refusal)) => Err(refusal),
            _ => Ok(None),
        }
    }

    /// The buffer begins with a packet that is longer. The engine's reader begins anew behind it.
    fn start_gathering(&mut self) {
        let head = &self.buffer[..HEAD];
        let field = [head[4], head[5], head[6], head[7]];
        let field = match self.state[ffi::READER_ORDER] == u64::from(ByteOrder::Little.byte()) {
            true => u32::from_le_bytes(field),
            false => u32::from_be_bytes(field),
        };
        let framed = packet_length_with_class(head[0], field);
        self.long = Some(Box::new(Long::new(head, framed)));
        self.state[ffi::READER_FILLED] = 0;
    }
}

/// How many bytes a packet has that begins with code and whose 32-bit field at bytes 4 to 7 is field.
pub fn packet_length(code: u8, field: u32) -> usize {
    packet_length_with_class(code, field).0
}

/// The framing rule: the same, and the packet's class, which the code alone decides.
#[inline]
pub fn packet_length_with_class(code: u8, field: u32) -> (usize, PacketClass) {
    ffi::packet_length(code, field)
}

#[cfg(test)]
mod test {
    use super::*;

    fn reply(units: u32) -> Vec<u8> {
        let mut bytes: Vec<u8> = (0..32 + 4 * units).map(|i| i as u8).collect();
        bytes[0] = 1;
        bytes[4..8].copy_from_slice(&units.to_ne_bytes());
        bytes
    }

    #[test]
    fn in_pieces() {
        let mut reader = PacketReader::new();
        let stream = [reply(2), reply(0)].concat();
        let mut rest = &stream[..];
        let mut packets = Vec::new();
        while !rest.is_empty() {
            let part = reader.buffer();
            let n = part.len().min(rest.len()).min(7);
            part[..n].copy_from_slice(&rest[..n]);
            rest = &rest[n..];
            packets.extend(reader.advance(n));
        }
        assert_eq!(packets, [reply(2), reply(0)]);
        assert_eq!(reader.remaining_capacity(), 32);
    }

    #[test]
    fn refused() {
        let mut reader = PacketReader::with_buffer(ByteOrder::NATIVE, 36).unwrap();
        assert_eq!(reader.try_advance(33), Err(Refusal::OverAdvance));
        reader.buffer().copy_from_slice(&reply(2)[..32]);
        assert_eq!(reader.try_advance(32), Err(Refusal::LongPacket));
        assert_eq!(reader.remaining_capacity(), 32);
        assert!(PacketReader::with_buffer(ByteOrder::NATIVE, 31).is_err());
    }

    /// All packets of a stream that comes in pieces of so many bytes, and the longest part that was lent.
    fn read(reader: &mut PacketReader, mut stream: &[u8], piece: usize) -> (Vec<Vec<u8>>, usize) {
        let (mut packets, mut most) = (Vec::new(), 0);
        while !stream.is_empty() {
            let capacity = reader.remaining_capacity();
            let part = reader.buffer();
            assert_eq!(part.len(), capacity);
            most = most.max(capacity);
            let n = capacity.min(stream.len()).min(piece);
            part[..n].copy_from_slice(&stream[..n]);
            stream = &stream[n..];
            packets.extend(reader.advance(n));
        }
        (packets, most)
    }

    #[test]
    fn long_packets_are_gathered() {
        let stream = [reply(1), reply(16_377), reply(70_000), reply(3)].concat();
        for (buffer, piece) in [(65_536, 7), (65_536, usize::MAX), (32, 5_000), (36, 32)] {
            let mut reader = PacketReader::with_buffer(ByteOrder::NATIVE, buffer).unwrap();
            let (packets, _) = read(&mut reader, &stream, piece);
            assert!(packets == [reply(1), reply(16_377), reply(70_000), reply(3)]);
            assert_eq!(reader.remaining_capacity(), 32);
            assert_eq!(reader.filled(), []);
        }
    }

    #[test]
    fn of_either_order() {
        for (order, field) in [
            (ByteOrder::Little, [2, 0, 0, 0]),
            (ByteOrder::Big, [0, 0, 0, 2]),
        ] {
            let mut packet = [163; 40];
            packet[4..8].copy_from_slice(&field);
            let mut reader = PacketReader::with_buffer(order, 32).unwrap();
            assert_eq!(read(&mut reader, &packet, 9), (vec![packet.to_vec()], 32));
        }
    }

    #[test]
    fn a_claimed_length_takes_no_memory() {
        let mut reader = PacketReader::new();
        let mut head = reply(0);
        head[4..8].copy_from_slice(&0xff_ffffu32.to_ne_bytes());
        assert_eq!(read(&mut reader, &head, 32), (vec![], 32));
        assert_eq!(reader.remaining_capacity(), 65_504);
        assert_eq!(read(&mut reader, &[7; 65_504], 65_504), (vec![], 65_504));
        assert_eq!(reader.remaining_capacity(), 65_536);
        assert_eq!(read(&mut reader, &[7; 65_536], 65_535), (vec![], 65_536));
        assert_eq!(reader.remaining_capacity(), 131_072);
        assert_eq!(reader.long.unwrap().bytes.capacity(), 262_144);
    }

    #[test]
    fn refused_while_gathering() {
        let mut reader = PacketReader::with_buffer(ByteOrder::NATIVE, 32).unwrap();
        reader.buffer()[..20].copy_from_slice(&reply(2)[..20]);
        assert_eq!(reader.advance(20), None);
        reader.buffer().copy_from_slice(&reply(2)[20..32]);
        assert_eq!(reader.try_advance(12), Err(Refusal::LongPacket));
        assert_eq!(
            (reader.filled().len(), reader.remaining_capacity()),
            (20, 12)
        );
        assert_eq!(reader.advance(12), None);
        assert_eq!(reader.filled(), &reply(2)[..32]);
        assert_eq!(reader.try_advance(9), Err(Refusal::OverAdvance));
        reader.buffer().copy_from_slice(&reply(2)[32..]);
        assert_eq!(reader.try_advance(8), Ok(Some(reply(2))));
        assert_eq!(
            (reader.filled().len(), reader.remaining_capacity()),
            (0, 32)
        );
    }

    #[test]
    fn lengths() {
        assert_eq!(packet_length(163, 2), 40);
        assert_eq!(packet_length(129, 5), 32);
    }

    /// A packet of any first byte that fits the buffer, or is gathered, has the class of the framing rule.
    #[test]
    fn classes() {
        for (code, buffer) in (0..=255).flat_map(|code| [(code, 32), (code, 64)]) {
            let mut reader = PacketReader::with_buffer(ByteOrder::Big, buffer).unwrap();
            let (length, class) = packet_length_with_class(code, 2);
            let mut packet = vec![7; length];
            packet[..8].copy_from_slice(&[code, 0, 0, 0, 0, 0, 0, 2]);
            reader.buffer().copy_from_slice(&packet[..32]);
            let mut whole = reader.advance_with_class(32);
            if length > 32 {
                assert_eq!(whole, None);
                reader.buffer().copy_from_slice(&packet[32..]);
                whole = reader.try_advance_with_class(8).unwrap();
            }
            assert_eq!(whole, Some((packet, class)), "{code}, a buffer of {buffer}");
        }
    }
}
