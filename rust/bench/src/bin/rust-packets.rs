//! The program `packets` with the published Rust: says what packets a stream has. It reads pieces of
//! the same size and gathers its output in a buffer of the same size.

#[cfg(published)]
fn main() -> std::io::Result<()> {
    use std::io::{stdin, stdout, BufWriter, Read, Write};

    use original::packet_reader::PacketReader;

    let mut out = BufWriter::with_capacity(65_536, stdout().lock());
    let mut input = vec![0; 65_536];
    let mut source = stdin().lock();
    let (mut reader, mut last) = (PacketReader::new(), 0u64);
    writeln!(out, "packets")?;
    loop {
        let n = source.read(&mut input)?;
        if n == 0 {
            break;
        }
        let mut rest = &input[..n];
        while !rest.is_empty() {
            let part = reader.buffer();
            let n = part.len().min(rest.len());
            part[..n].copy_from_slice(&rest[..n]);
            rest = &rest[n..];
            if let Some(packet) = reader.advance(n) {
                // A KeymapNotify carries no number, as `packets` has it (the Rust numbers code 139).
                if packet[0] & 0x7f != 11 {
                    let wire = u64::from(u16::from_le_bytes([packet[2], packet[3]]));
                    let full = (last & !0xffff) | wire;
                    last = if full < last { full + 0x1_0000 } else { full };
                }
                writeln!(out, "{} {} {last}", packet[0], packet.len())?;
            }
        }
    }
    writeln!(out, "end {}", read_so_far(&reader))?;
    out.flush()
}

/// How many bytes of a packet were read: the reader says how many are wanted of its buffer. Streams
/// here end between packets.
#[cfg(published)]
fn read_so_far(reader: &original::packet_reader::PacketReader) -> usize {
    32 - reader.remaining_capacity()
}

#[cfg(not(published))]
fn main() {}
