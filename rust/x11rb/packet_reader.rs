//! The packet reader of x11rb 0.8.1 over this engine: takes the place of `rust_connection/packet_reader.rs` in a copy of it.

use std::io::{ErrorKind, Result};

use super::Stream;
use crate::utils::RawFdContainer;

/// How many bytes are read at once.
const CHUNK: usize = 4096;

#[derive(Debug)]
pub(crate) struct PacketReader {
    reader: xiengmado::packet_reader::PacketReader,
    chunk: Box<[u8]>,
}

impl PacketReader {
    pub(crate) fn new() -> Self {
        PacketReader {
            reader: xiengmado::packet_reader::PacketReader::new(),
            chunk: vec![0; CHUNK].into(),
        }
    }

    /// All packets that can be read without waiting.
    pub(crate) fn try_read_packets(
        &mut self,
        stream: &impl Stream,
        packets: &mut Vec<Vec<u8>>,
        fds: &mut Vec<RawFdContainer>,
    ) -> Result<()> {
        loop {
            match stream.read(&mut self.chunk, fds) {
                Ok(0) => return Err(ErrorKind::UnexpectedEof.into()),
                Ok(bytes) => self.cut(bytes, packets),
                Err(error) if error.kind() == ErrorKind::WouldBlock => return Ok(()),
                Err(error) => return Err(error),
            }
        }
    }

    /// The packets that end in the first bytes of the chunk.
    fn cut(&mut self, bytes: usize, packets: &mut Vec<Vec<u8>>) {
        let mut rest = &self.chunk[..bytes];
        while !rest.is_empty() {
            let part = self.reader.buffer();
            let (now, behind) = rest.split_at(part.len().min(rest.len()));
            part[..now.len()].copy_from_slice(now);
            packets.extend(self.reader.advance(now.len()));
            rest = behind;
        }
    }
}
