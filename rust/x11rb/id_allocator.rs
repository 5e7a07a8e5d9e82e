//! The id allocator of x11rb 0.8.1 over this engine: takes the place of `rust_connection/id_allocator.rs` in a copy of it.

use xiengmado::id_allocator::IdAllocator;
use xiengmado::protocol::xc_misc::GetXIDRangeReply;

use crate::connection::RequestConnection;
use crate::errors::{ConnectError, ReplyOrIdError};
use crate::protocol::xc_misc::{ConnectionExt as _, X11_EXTENSION_NAME};

#[derive(Debug)]
pub(crate) struct IDAllocator(IdAllocator);

impl IDAllocator {
    pub(crate) fn new(base: u32, mask: u32) -> Result<Self, ConnectError> {
        match IdAllocator::new(base, mask) {
            Ok(ids) => Ok(IDAllocator(ids)),
            Err(_) => Err(ConnectError::ZeroIDMask),
        }
    }

    /// The next id, from a range of the server where none is left.
    pub(crate) fn generate_id(
        &mut self,
        connection: &impl RequestConnection,
    ) -> Result<u32, ReplyOrIdError> {
        if let Some(id) = self.0.generate_id() {
            return Ok(id);
        }
        let extension = connection.extension_information(X11_EXTENSION_NAME)?;
        extension.ok_or(ReplyOrIdError::IdsExhausted)?;
        let reply = connection.xc_misc_get_xid_range()?.reply()?;
        let range = GetXIDRangeReply {
            start_id: reply.start_id,
            count: reply.count,
            ..Default::default()
        };
        let updated = self.0.update_xid_range(&range);
        updated.map_err(|_| ReplyOrIdError::IdsExhausted)?;
        self.0.generate_id().ok_or(ReplyOrIdError::IdsExhausted)
    }
}
