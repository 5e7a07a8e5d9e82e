            // Put into `RustConnection::send_request` in front of the engine's: where answers must be read first, they are.
            while inner.is_full() {
                if !inner.awaits_reply() {
                    inner = self.send_sync(inner)?;
                }
                inner = self.flush_impl(inner)?;
                inner = self.read_packet_and_enqueue(inner, BlockingMode::Blocking)?;
            }
