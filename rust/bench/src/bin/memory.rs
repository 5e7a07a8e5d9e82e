//! How many bytes each side holds in stated situations, as its allocator counts them, and how often
//! it was called. Our rooms are as long as the situation takes, no longer.

#[cfg(published)]
mod counted {
    use std::alloc::{GlobalAlloc, Layout, System};
    use std::sync::atomic::{AtomicUsize, Ordering::Relaxed};

    static HELD: AtomicUsize = AtomicUsize::new(0);
    static CALLS: AtomicUsize = AtomicUsize::new(0);

    /// Bytes held, calls so far.
    pub fn now() -> (usize, usize) {
        (HELD.load(Relaxed), CALLS.load(Relaxed))
    }

    struct Counting;

    // SAFETY: the system's allocator, with counters beside it.
    unsafe impl GlobalAlloc for Counting {
        unsafe fn alloc(&self, layout: Layout) -> *mut u8 {
            HELD.fetch_add(layout.size(), Relaxed);
            CALLS.fetch_add(1, Relaxed);
            // SAFETY: as the caller's.
            unsafe { System.alloc(layout) }
        }

        unsafe fn dealloc(&self, at: *mut u8, layout: Layout) {
            HELD.fetch_sub(layout.size(), Relaxed);
            // SAFETY: as the caller's.
            unsafe { System.dealloc(at, layout) }
        }
    }

    #[global_allocator]
    static ALLOCATOR: Counting = Counting;
}

/// The bytes that a situation holds beyond those before it, and the calls that it took.
#[cfg(published)]
fn held<T>(situation: impl FnOnce() -> T) -> (usize, usize) {
    let before = counted::now();
    let made = situation();
    let after = counted::now();
    (
        after.0 - before.0 + std::mem::size_of_val(&made),
        after.1 - before.1,
    )
}

#[cfg(published)]
fn rust(requests: usize, events: usize) -> original::connection::Connection {
    use original::connection::{Connection, ReplyFdKind};
    let mut c = Connection::new();
    for _ in 0..requests {
        c.send_request(ReplyFdKind::NoReply);
    }
    for _ in 0..events {
        c.enqueue_packet([2, 0, 0, 0].repeat(8));
    }
    c
}

#[cfg(published)]
fn ours(requests: usize, events: usize) -> xiengmado::engine::Engine {
    use xiengmado::connection::ReplyFdKind;
    use xiengmado::{engine::Engine, ByteOrder};
    let (room, store) = (requests.max(1), 48 * events.max(1));
    let mut e = Engine::new(ByteOrder::Little, room, store).expect("rooms in range");
    for _ in 0..requests {
        e.send_request(ReplyFdKind::NoReply).expect("room for it");
    }
    for _ in 0..events {
        e.enqueue_packet(&[2, 0, 0, 0].repeat(8))
            .expect("room for it");
    }
    e
}

#[cfg(published)]
fn main() {
    println!("\n| outstanding requests | held events of 32 bytes | Rust, bytes | its allocations | ours, bytes | its allocations |");
    println!("|---|---|---|---|---|---|");
    for (requests, events) in [(0, 0), (16, 16), (1_000, 1_000), (10_000, 10_000)] {
        let theirs = held(|| rust(requests, events));
        // The packets that are handed in are allocated on both sides, and dropped on ours.
        let own = held(|| ours(requests, events));
        println!(
            "| {requests} | {events} | {} | {} | {} | {} |",
            theirs.0,
            theirs.1,
            own.0,
            own.1 - events
        );
    }
}

#[cfg(not(published))]
fn main() {}
