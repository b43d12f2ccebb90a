include!("../upstream/registry/tx_queue.rs");

/// The registries of tx_msg.rs and tx_resp.rs, which differ in their entries alone.
pub mod probe {
    use super::*;
    use crate::buffer::{BufferError, BufferToken};
    use crate::endpoint::TransferMeta;
    use crate::format::TransferCrc;
    use crate::registry::probe::{Buffer, Listed, Places};
    use crate::registry::{RegistrationError, TxReg, TxRegKind};
    use crate::utils::probe::Trigger;
    use core::task::Waker;
    use emcyphal_driver::internal::DynamicTx;

    const CLASSES: u8 = 16;

    /// The class of a queue: started before finished, priority by priority.
    fn class((priority, queue_type): QueueId) -> u8 {
        2 * u8::from(priority) + u8::from(queue_type == QueueType::Finished)
    }

    fn queue_of(class: u8) -> QueueId {
        let queue_type = if class.is_multiple_of(2) {
            QueueType::Started
        } else {
            QueueType::Finished
        };
        (Priority::from_u8_truncating(class / 2), queue_type)
    }

    /// A registered entry; its readiness is what its buffer says.
    #[derive(Clone, Copy, PartialEq, Eq)]
    pub struct TxSeen {
        pub entry: u8,
        pub readiness: u8,
        pub started: u8,
        /// The class of its queue mark.
        pub mark: Option<u8>,
    }

    /// The private fields of a registry, entries by number.
    #[derive(Clone, Default, PartialEq, Eq)]
    pub struct TxState {
        /// In order; empty for responses.
        pub tree: Vec<Listed>,
        pub entries: Vec<TxSeen>,
        /// Class and entry, class by class, each from the front.
        pub queued: Vec<(u8, u8)>,
        /// That of the trigger.
        pub mask: u8,
    }

    impl TxState {
        /// Responses have no subjects.
        fn subject(&self, entry: u8) -> u16 {
            let pair = self.tree.iter().find(|pair| pair.0 == entry);
            pair.map_or(0, |pair| pair.1)
        }
    }

    /// What a buffer has after it was asked for a frame, and the frame that it gives.
    #[derive(Clone, Default, PartialEq, Eq)]
    pub struct Report {
        pub readiness: u8,
        pub frame: Option<Frame>,
    }

    /// The entry whose buffer was asked for a frame, and with what.
    #[derive(Debug, Clone, Copy, PartialEq, Eq)]
    pub struct Asked {
        pub entry: u8,
        pub mask: u8,
        pub mtu: u8,
    }

    fn mtu_of(number: u8) -> Mtu {
        match number {
            8 => Mtu::Classic,
            64 => Mtu::Fd,
            _ => panic!("an mtu"),
        }
    }

    /// Each entry's readiness, what the next buffer that is asked answers, and which that was.
    pub struct Shared {
        readiness: [Cell<u8>; 128],
        report: Cell<Option<Report>>,
        asked: Cell<Option<Asked>>,
    }

    impl Default for Shared {
        fn default() -> Self {
            Self {
                readiness: [const { Cell::new(0) }; 128],
                report: Cell::default(),
                asked: Cell::default(),
            }
        }
    }

    impl Shared {
        fn readiness(&self, entry: u8) -> &Cell<u8> {
            &self.readiness[usize::from(entry)]
        }
    }

    pub struct TxBuffer {
        entry: u8,
        shared: *const Shared,
    }

    unsafe impl Send for TxBuffer {}

    impl Buffer for TxBuffer {
        type Shared = Shared;

        fn new(entry: u8, shared: *const Shared) -> Self {
            Self { entry, shared }
        }
    }

    impl TxBuffer {
        fn shared(&self) -> &Shared {
            // Safety: it outlives the registry
            unsafe { &*self.shared }
        }

        fn readiness(&self) -> &Cell<u8> {
            self.shared().readiness(self.entry)
        }
    }

    impl DynamicTxBuffer for TxBuffer {
        fn pop_readiness(&self) -> PrioritySet {
            PrioritySet::from_bits(self.readiness().get())
        }

        fn try_pop(&mut self, priority_mask: PrioritySet, mtu: Mtu) -> Option<Frame> {
            let report = self.shared().report.take();
            let report = report.expect("a call asks one buffer, once");
            self.shared().asked.set(Some(Asked {
                entry: self.entry,
                mask: priority_mask.into_bits(),
                mtu: usize::from(mtu) as u8,
            }));
            self.readiness().set(report.readiness);
            report.frame
        }

        fn is_empty(&self) -> bool {
            self.pop_readiness().is_empty()
        }

        fn poll_is_empty(&mut self, _cx: &mut Context<'_>) -> Poll<()> {
            Poll::Pending
        }

        fn push_readiness(&self) -> PrioritySet {
            PrioritySet::ALL
        }

        fn poll_push_readiness(
            &mut self,
            _cx: &mut Context<'_>,
            _mask: PrioritySet,
        ) -> Poll<PrioritySet> {
            Poll::Pending
        }

        fn get_scratchpad<'a>(
            &mut self,
            _token: BufferToken<'a>,
        ) -> Option<(PrioritySet, &'a mut [u8])> {
            None
        }

        /// The length is the new readiness.
        fn try_push(
            &mut self,
            _token: BufferToken<'_>,
            _meta: TransferMeta,
            length: usize,
            _crc: TransferCrc,
        ) -> Result<(), BufferError> {
            self.readiness().set(length as u8);
            Ok(())
        }
    }

    /// What the two registries differ in.
    pub trait TxKind: TxRegKind + Sized {
        type Registry: TxReg<Self> + DynamicTx + Default;

        /// An entry of the subject; a response has none.
        ///
        /// # Safety
        /// The buffer lives as long as the entry.
        unsafe fn entry(subject: u16, buffer: NonNull<dyn DynamicTxBuffer + Send>) -> Self::Entry;

        fn queue_entry(entry: &Self::Entry) -> &Entry;

        fn with_queue<T>(registry: &Self::Registry, f: impl FnOnce(&mut TxQueue) -> T) -> T;

        /// Entries with their subjects, in order; responses stand in no tree.
        fn tree(registry: &Self::Registry) -> Vec<(*const Self::Entry, u16)>;
    }

    /// A registry, call by call.
    pub struct TxSide<K: TxKind> {
        // Dropped first: it unlinks the entries.
        registry: K::Registry,
        places: Box<Places<K::Entry, K::Token, TxBuffer>>,
    }

    impl<K: TxKind> TxSide<K> {
        pub fn new() -> Self {
            Self {
                registry: K::Registry::default(),
                places: Places::new(),
            }
        }

        /// Opens it anew, with no entry registered.
        pub fn open(&mut self) {
            self.registry = K::Registry::default();
        }

        pub fn is_registered(&self, entry: u8) -> bool {
            self.places.is_registered(entry)
        }

        /// An entry that is registered already is handed over with the buffer that it has.
        pub fn register(
            &mut self,
            entry: u8,
            subject: u16,
            readiness: u8,
        ) -> Result<(), RegistrationError> {
            if !self.is_registered(entry) {
                self.places.shared.readiness(entry).set(readiness);
            }
            let handed = self.places.hand(entry, |buffer| {
                // Safety: the buffer lives as long as the entry
                unsafe { K::entry(subject, buffer) }
            });
            let token = self.registry.register(handed)?;
            self.places.keep(entry, token);
            Ok(())
        }

        pub fn unregister(&mut self, entry: u8) {
            let mut token = self.places.take(entry);
            self.registry.unregister(&mut token);
        }

        /// A transfer pushed to the entry's buffer, which then has this readiness: after that the
        /// registry looks at it anew.
        pub fn update(&mut self, entry: u8, readiness: u8) {
            let token = self.places.token(entry);
            // Safety: no bytes to be read, and the buffer lends nothing by it
            let guard: BufferToken = unsafe { core::mem::transmute(()) };
            let (length, crc) = (readiness.into(), TransferCrc::default());
            let pushed = self
                .registry
                .try_push(token, guard, TransferMeta, length, crc);
            pushed.expect("the buffer takes it");
        }

        /// Which buffer was asked, and the frame that came out. The buffer answers the report.
        pub fn poll_pop(
            &mut self,
            mask: u8,
            mtu: u8,
            report: Report,
        ) -> (Option<Asked>, Option<Frame>) {
            self.places.shared.report.set(Some(report));
            let mut cx = Context::from_waker(Waker::noop());
            let mask = PrioritySet::from_bits(mask);
            let polled = self.registry.poll_pop(&mut cx, mask, mtu_of(mtu));
            let frame = match polled {
                Poll::Ready(frame) => Some(frame),
                Poll::Pending => None,
            };
            (self.places.shared.asked.take(), frame)
        }

        /// How often `wake` was called of the waker.
        pub fn wakes(&self) -> u64 {
            K::with_queue(&self.registry, |queue| queue.non_empty_trigger.wakes())
        }

        fn see(&self, entry: u8) -> TxSeen {
            let element = self.places.element(entry);
            let queued = K::queue_entry(&element);
            TxSeen {
                entry,
                readiness: self.places.shared.readiness(entry).get(),
                started: queued.started.get().into_bits(),
                mark: queued.queue_mark.get().map(class),
            }
        }

        fn queued(&self, queue: &mut TxQueue) -> Vec<(u8, u8)> {
            let mut queued = Vec::new();
            for class in 0..CLASSES {
                let list = queue.queues.get_queue(queue_of(class)).iter();
                queued.extend(list.map(|entry| (class, self.places.number(entry))));
            }
            queued
        }

        pub fn state(&self) -> TxState {
            let tree = K::tree(&self.registry).into_iter();
            let registered = (0..128).filter(|&entry| self.is_registered(entry));
            K::with_queue(&self.registry, |queue| TxState {
                tree: tree
                    .map(|(entry, subject)| (self.places.number(entry), subject))
                    .collect(),
                entries: registered.map(|entry| self.see(entry)).collect(),
                queued: self.queued(queue),
                mask: queue.non_empty_trigger.filter().into_bits(),
            })
        }

        /// A registry in the given state, field by field.
        pub fn of(state: &TxState) -> Self {
            let mut made = Self::new();
            for seen in &state.entries {
                let subject = state.subject(seen.entry);
                made.register(seen.entry, subject, 0).expect("one of each");
                let started = PrioritySet::from_bits(seen.started);
                let element = made.places.element(seen.entry);
                K::queue_entry(&element).started.set(started);
                made.places.shared.readiness(seen.entry).set(seen.readiness);
            }
            K::with_queue(&made.registry, |queue| {
                for &(class, entry) in &state.queued {
                    let element = made.places.element(entry);
                    let queued: *const Entry = K::queue_entry(&element);
                    queue.queues.move_back(queue_of(class), queued);
                }
                *queue.non_empty_trigger.filter() = PrioritySet::from_bits(state.mask);
            });
            made
        }
    }
}
