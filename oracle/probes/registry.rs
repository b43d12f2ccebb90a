// registry.rs, unchanged; its children are looked for beside the included file, in registry/.
include!("registry/unchanged.rs");

pub mod probe {
    pub use super::rx_msg::probe::{LoopBack, Regular, Seen, State};
    pub use super::rx_req::probe::Requests;
    pub use super::tx_queue::probe::{Asked, Report, TxKind, TxSeen, TxSide, TxState};

    use crate::buffer::{BufferToken, DynamicRxBuffer};
    use crate::core::{Priority, PrioritySet};
    use crate::endpoint::TransferMeta;
    use crate::frame::{DataSpecifier, Frame, Header, Mtu};
    use core::cell::Cell;
    use core::mem::MaybeUninit;
    use core::ptr::NonNull;
    use core::task::{Context, Poll};
    use intrusive_collections::UnsafeRef;

    const ENTRIES: usize = 128;

    /// An entry and its subject or service.
    pub type Listed = (u8, u16);

    /// A tree in order, and the entry that a walk over it points at.
    #[derive(Clone, Default, PartialEq, Eq)]
    pub struct Tree {
        pub listed: Vec<Listed>,
        pub walk: Option<u8>,
    }

    /// Stands for an entry's buffer. What is shared lies beside the buffers of a registry: what they
    /// leave there and find there.
    pub(super) trait Buffer {
        type Shared: Default;

        fn new(entry: u8, shared: *const Self::Shared) -> Self;
    }

    /// A frame pushed to it leaves the entry's number in the shared cell.
    pub(super) struct RxBuffer {
        entry: u8,
        pushed: *const Cell<Option<u8>>,
    }

    unsafe impl Send for RxBuffer {}

    impl Buffer for RxBuffer {
        type Shared = Cell<Option<u8>>;

        fn new(entry: u8, pushed: *const Self::Shared) -> Self {
            Self { entry, pushed }
        }
    }

    impl DynamicRxBuffer for RxBuffer {
        fn push_frame(&mut self, _frame: &Frame, _mtu: Mtu) {
            // Safety: the cell outlives the registry
            let before = unsafe { (*self.pushed).replace(Some(self.entry)) };
            assert!(before.is_none(), "a call pushes a frame to one entry");
        }

        fn pop_readiness(&self) -> PrioritySet {
            PrioritySet::NONE
        }

        fn poll_pop_readiness(
            &mut self,
            _cx: &mut Context,
            _mask: PrioritySet,
        ) -> Poll<PrioritySet> {
            Poll::Pending
        }

        fn try_pop<'a>(
            &mut self,
            _token: BufferToken<'a>,
            _mask: PrioritySet,
        ) -> Option<(TransferMeta, &'a [u8])> {
            None
        }
    }

    /// Where entries lie while they are registered, with buffers and tokens; the entry's number is
    /// its place.
    pub(super) struct Places<E, T, B: Buffer = RxBuffer> {
        entries: [MaybeUninit<E>; ENTRIES],
        buffers: [MaybeUninit<B>; ENTRIES],
        tokens: [Option<T>; ENTRIES],
        pub shared: B::Shared,
    }

    impl<E, T, B: Buffer> Places<E, T, B> {
        pub fn new() -> Box<Self> {
            Box::new(Self {
                entries: [const { MaybeUninit::uninit() }; ENTRIES],
                buffers: [const { MaybeUninit::uninit() }; ENTRIES],
                tokens: [const { None }; ENTRIES],
                shared: B::Shared::default(),
            })
        }

        pub fn is_registered(&self, entry: u8) -> bool {
            self.tokens[usize::from(entry)].is_some()
        }

        /// The entry to be registered: made anew with its buffer, or as it is where it is registered
        /// already.
        pub fn hand(&mut self, entry: u8, make: impl FnOnce(NonNull<B>) -> E) -> NonNull<E> {
            let at = usize::from(entry);
            if !self.is_registered(entry) {
                let buffer = self.buffers[at].write(B::new(entry, &raw const self.shared));
                self.entries[at].write(make(NonNull::from(buffer)));
            }
            NonNull::new(self.entries[at].as_mut_ptr()).expect("a place")
        }

        pub fn keep(&mut self, entry: u8, token: T) {
            self.tokens[usize::from(entry)] = Some(token);
        }

        pub fn token(&mut self, entry: u8) -> &mut T {
            self.tokens[usize::from(entry)]
                .as_mut()
                .expect("registered")
        }

        pub fn take(&mut self, entry: u8) -> T {
            self.tokens[usize::from(entry)].take().expect("registered")
        }

        pub fn element(&self, entry: u8) -> UnsafeRef<E> {
            // Safety: the entry lies in its place, and is registered
            unsafe { UnsafeRef::from_raw(self.entries[usize::from(entry)].as_ptr()) }
        }

        /// The entry that a pointer points at or into.
        pub fn number<P>(&self, part: *const P) -> u8 {
            // Safety: every entry lies in its place
            let offset = unsafe { part.byte_offset_from(self.entries.as_ptr()) };
            (offset as usize / size_of::<E>()) as u8
        }
    }

    impl<E, T> Places<E, T> {
        /// The entry that gets a frame while `push` runs, and what that answers.
        pub fn reached<U>(&self, push: impl FnOnce() -> U) -> (Option<u8>, U) {
            self.shared.set(None);
            let answer = push();
            (self.shared.take(), answer)
        }
    }

    pub(super) fn frame(data_spec: DataSpecifier, loop_back: bool) -> Frame {
        Frame {
            header: Header {
                priority: Priority::Nominal,
                data_spec,
            },
            data: Vec::new(),
            loop_back,
        }
    }
}
