//! The published Rust as a crate of its own, as a program that depends on it has it. Its files are
//! built as they are; what they ask for around them are names and types without behaviour.
//! Without the folder XIENGMADO_RUST this crate is empty.

#![cfg(published)]
#![allow(missing_docs)]

extern crate alloc;

#[path = "../../../beside/src/names.rs"]
mod names;

pub use names::*;

pub mod utils {
    pub type RawFdContainer = std::os::fd::OwnedFd;
}

pub mod errors {
    published::published!("errors.rs");
}

pub mod packet_reader {
    published::published!("packet_reader.rs");
}

pub mod connect {
    published::published!("connect.rs");
}

pub mod id_allocator {
    published::published!("id_allocator.rs");
}

pub mod connection {
    published::published!("connection/mod.rs");
}
