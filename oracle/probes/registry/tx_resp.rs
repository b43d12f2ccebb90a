include!("../upstream/registry/tx_resp.rs");

mod probe {
    use super::*;
    use crate::registry::tx_queue::TxQueue;
    use crate::registry::tx_queue::probe::TxKind;
    use embassy_sync::blocking_mutex::raw::NoopRawMutex;

    impl TxKind for Response {
        type Registry = Registry<NoopRawMutex>;

        unsafe fn entry(_subject: u16, buffer: NonNull<dyn DynamicTxBuffer + Send>) -> Entry {
            unsafe { Entry::new(buffer) }
        }

        fn queue_entry(entry: &Entry) -> &tx_queue::Entry {
            &entry.queue_entry
        }

        fn with_queue<T>(registry: &Self::Registry, f: impl FnOnce(&mut TxQueue) -> T) -> T {
            registry.0.lock(|cell| f(&mut cell.borrow_mut().queue))
        }

        fn tree(_registry: &Self::Registry) -> Vec<(*const Entry, u16)> {
            Vec::new()
        }
    }
}
