//! Bytes of a stream with the descriptors that come with them, which the standard library can't pass.
//!
//! The three structures are those of Linux on 64 bits, as `recvmsg` and `sendmsg` know them.

use std::ffi::{c_int, c_void};
use std::io::{self, ErrorKind, Write};
use std::mem::{offset_of, size_of};
use std::os::fd::{AsRawFd, FromRawFd, OwnedFd, RawFd};
use std::os::unix::net::UnixStream;
use std::ptr::null_mut;

const _: () = assert!(cfg!(all(target_os = "linux", target_pointer_width = "64")));

const SOL_SOCKET: c_int = 1;
const SCM_RIGHTS: c_int = 1;
const MSG_CTRUNC: c_int = 0x8;
const MSG_NOSIGNAL: c_int = 0x4000;
const MSG_CMSG_CLOEXEC: c_int = 0x4000_0000;

/// At most so many descriptors go with one message.
const MOST: usize = 253;

#[repr(C)]
struct Part {
    start: *mut u8,
    size: usize,
}

/// What goes beside the bytes.
#[repr(C)]
struct Control {
    size: usize,
    level: c_int,
    kind: c_int,
    fds: [RawFd; MOST],
}

#[repr(C)]
struct Message {
    name: *mut c_void,
    name_size: u32,
    parts: *mut Part,
    count: usize,
    control: *mut Control,
    control_size: usize,
    flags: c_int,
}

extern "C" {
    fn recvmsg(socket: RawFd, message: *mut Message, flags: c_int) -> isize;
    fn sendmsg(socket: RawFd, message: *const Message, flags: c_int) -> isize;
}

impl Control {
    /// Beside which these descriptors go; those of the caller stay open.
    fn new(fds: &[OwnedFd]) -> Self {
        let mut control = Control {
            size: offset_of!(Control, fds) + size_of::<RawFd>() * fds.len(),
            level: SOL_SOCKET,
            kind: SCM_RIGHTS,
            fds: [-1; MOST],
        };
        for (place, fd) in control.fds.iter_mut().zip(fds) {
            *place = fd.as_raw_fd();
        }
        control
    }
}

impl Message {
    fn new(part: &mut Part, control: &mut Control, control_size: usize) -> Self {
        Message {
            name: null_mut(),
            name_size: 0,
            parts: part,
            count: 1,
            control,
            control_size,
            flags: 0,
        }
    }
}

/// What a call answers that was not interrupted.
fn whole(mut call: impl FnMut() -> isize) -> io::Result<usize> {
    loop {
        if let Ok(count) = usize::try_from(call()) {
            return Ok(count);
        }
        let error = io::Error::last_os_error();
        if error.kind() != ErrorKind::Interrupted {
            return Err(error);
        }
    }
}

/// Reads some bytes, none at the end of the stream: how many, and the descriptors that came with them.
pub fn read(stream: &UnixStream, bytes: &mut [u8]) -> io::Result<(usize, Vec<OwnedFd>)> {
    let (start, size) = (bytes.as_mut_ptr(), bytes.len());
    let mut part = Part { start, size };
    let mut control = Control::new(&[]);
    let mut message = Message::new(&mut part, &mut control, size_of::<Control>());
    let socket = stream.as_raw_fd();
    // SAFETY: the message leads to `bytes` and `control`, each with its size, and both live on.
    let count = whole(|| unsafe { recvmsg(socket, &mut message, MSG_CMSG_CLOEXEC) })?;
    let lost = message.flags & MSG_CTRUNC != 0;
    let came = match (control.level, control.kind) {
        (SOL_SOCKET, SCM_RIGHTS) => (control.size - offset_of!(Control, fds)) / size_of::<RawFd>(),
        _ => 0,
    };
    let own = |&fd: &RawFd| {
        // SAFETY: the kernel has just opened it for this message, and nobody else knows of it.
        unsafe { OwnedFd::from_raw_fd(fd) }
    };
    let fds = control.fds[..came].iter().map(own).collect();
    if lost {
        return Err(io::Error::other("no room for all descriptors that came"));
    }
    Ok((count, fds))
}

/// Writes all of the bytes; the descriptors go with the first of them, which must be there then.
pub fn write(mut stream: &UnixStream, bytes: &[u8], fds: &[OwnedFd]) -> io::Result<()> {
    let sent = match fds.len() {
        0 => 0,
        _ => send(stream, bytes, fds)?,
    };
    stream.write_all(&bytes[sent..])
}

/// Sends some of the bytes with the descriptors: how many.
fn send(stream: &UnixStream, bytes: &[u8], fds: &[OwnedFd]) -> io::Result<usize> {
    if bytes.is_empty() || fds.len() > MOST {
        return Err(ErrorKind::InvalidInput.into());
    }
    let (start, size) = (bytes.as_ptr().cast_mut(), bytes.len());
    let mut part = Part { start, size };
    let mut control = Control::new(fds);
    let filled = control.size.next_multiple_of(size_of::<usize>());
    let message = Message::new(&mut part, &mut control, filled);
    let socket = stream.as_raw_fd();
    // SAFETY: the message leads to `bytes` and `control`, each with its size, and `sendmsg` writes to neither.
    whole(|| unsafe { sendmsg(socket, &message, MSG_NOSIGNAL) })
}

#[cfg(test)]
mod test {
    use super::*;
    use std::io::Read;
    use std::thread;
    use std::time::Duration;

    const LONG: usize = 1 << 20;

    /// Two ends, which wait for what does not come for some seconds at most.
    fn pair() -> (UnixStream, UnixStream) {
        let (one, other) = UnixStream::pair().unwrap();
        for end in [&one, &other] {
            end.set_read_timeout(Some(Duration::from_secs(9))).unwrap();
        }
        (one, other)
    }

    /// One end of so many pairs each, to be passed, and the other, to be kept.
    fn pairs(count: usize) -> (Vec<OwnedFd>, Vec<UnixStream>) {
        let two = |_| pair();
        let (passed, kept): (Vec<_>, Vec<_>) = (0..count).map(two).unzip();
        (passed.into_iter().map(OwnedFd::from).collect(), kept)
    }

    /// Each descriptor leads to its pair's other end, and when it is closed nothing holds it open.
    fn lead(fds: Vec<OwnedFd>, kept: Vec<UnixStream>) {
        assert_eq!(fds.len(), kept.len());
        for (at, (fd, mut other)) in fds.into_iter().zip(kept).enumerate() {
            let (mut stream, mut byte) = (UnixStream::from(fd), [0]);
            stream.write_all(&[at as u8]).unwrap();
            other.read_exact(&mut byte).unwrap();
            assert_eq!(byte, [at as u8]);
            drop(stream);
            assert_eq!(other.read(&mut byte).unwrap(), 0);
        }
    }

    #[test]
    fn bytes_alone() {
        let (from, to) = pair();
        let mut bytes = [0; 9];
        write(&from, b"bytes", &[]).unwrap();
        let (count, fds) = read(&to, &mut bytes).unwrap();
        assert_eq!((&bytes[..count], fds.len()), (&b"bytes"[..], 0));
        drop(from);
        assert_eq!(read(&to, &mut bytes).unwrap().0, 0);
        assert!(write(&to, b"bytes", &[]).is_err());
    }

    #[test]
    fn with_descriptors() {
        for count in [1, 2, 3, MOST] {
            let (from, to) = pair();
            let (passed, kept) = pairs(count);
            let mut bytes = [0; 9];
            write(&from, b"first", &[]).unwrap();
            write(&from, b"second", &passed).unwrap();
            drop(passed);
            // They come with the first byte or before.
            let (mut read_so_far, mut came) = (0, Vec::new());
            while came.is_empty() {
                assert!(read_so_far <= b"first".len());
                let (some, fds) = read(&to, &mut bytes[..4]).unwrap();
                read_so_far += some;
                came = fds;
            }
            lead(came, kept);
        }
        assert!(write(&pair().0, b"bytes", &pairs(MOST + 1).0).is_err());
        assert!(write(&pair().0, b"", &pairs(1).0).is_err());
    }

    /// More bytes than the stream takes at once.
    #[test]
    fn long_writes() {
        let (from, to) = pair();
        let (passed, kept) = pairs(2);
        let writer = thread::spawn(move || write(&from, &vec![7; LONG], &passed));
        let (mut bytes, mut total) = (vec![0; 65_536], 0);
        let (count, came) = read(&to, &mut bytes).unwrap();
        let mut last = count;
        while last > 0 {
            assert!(bytes[..last].iter().all(|&byte| byte == 7));
            total += last;
            let (count, fds) = read(&to, &mut bytes).unwrap();
            assert!(fds.is_empty());
            last = count;
        }
        assert_eq!(total, LONG);
        writer.join().unwrap().unwrap();
        lead(came, kept);
    }
}
