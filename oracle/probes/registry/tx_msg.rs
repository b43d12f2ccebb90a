include!("../upstream/registry/tx_msg.rs");

mod probe {
    use super::*;
    use crate::registry::tx_queue::TxQueue;
    use crate::registry::tx_queue::probe::TxKind;
    use embassy_sync::blocking_mutex::raw::NoopRawMutex;

    impl TxKind for Message {
        type Registry = Registry<NoopRawMutex>;

        unsafe fn entry(subject: u16, buffer: NonNull<dyn DynamicTxBuffer + Send>) -> Entry {
            let subject = SubjectId::new(subject).expect("a subject");
            unsafe { Entry::new(subject, buffer) }
        }

        fn queue_entry(entry: &Entry) -> &tx_queue::Entry {
            &entry.queue_entry
        }

        fn with_queue<T>(registry: &Self::Registry, f: impl FnOnce(&mut TxQueue) -> T) -> T {
            registry.0.lock(|cell| f(&mut cell.borrow_mut().queue))
        }

        fn tree(registry: &Self::Registry) -> Vec<(*const Entry, u16)> {
            let pair = |entry: &Entry| (&raw const *entry, entry.subject.into());
            registry
                .0
                .lock(|cell| cell.borrow().entry_tree.iter().map(pair).collect())
        }
    }
}
