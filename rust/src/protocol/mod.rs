//! What the engine knows of the protocol's requests and replies: the setup, and the extension that gives
//! more ids.

pub mod xc_misc;
pub mod xproto;
