include!("../upstream/registry/rx_msg.rs");

pub mod probe {
    use super::*;
    use crate::registry::probe::{Listed, Places, Tree, frame};
    use core::task::Waker;
    use embassy_sync::blocking_mutex::raw::NoopRawMutex;

    /// An entry as a tree holds it.
    #[derive(Clone, Copy, PartialEq, Eq)]
    pub struct Seen {
        pub entry: u8,
        pub subject: u16,
        pub is_active: bool,
        pub is_head: bool,
        /// It stands in one of the two queues.
        pub is_linked: bool,
    }

    impl Seen {
        pub fn listed(&self) -> Listed {
            (self.entry, self.subject)
        }
    }

    /// The private fields of a regular registry: trees in order, queues from the front.
    #[derive(Clone, PartialEq, Eq)]
    pub struct State {
        pub active: Vec<Seen>,
        pub inactive: Vec<Seen>,
        pub clean_up: Vec<u8>,
        pub activation: Vec<u8>,
        pub last_gap: bool,
        pub slots: usize,
        pub walk: Option<u8>,
    }

    /// One side of a registry, call by call.
    pub struct Side<const LOOP_BACK: bool> {
        // Dropped first: it unlinks the entries.
        registry: Registry<NoopRawMutex>,
        places: Box<Places<Entry, Token>>,
    }

    pub type Regular = Side<false>;
    pub type LoopBack = Side<true>;

    impl<const LOOP_BACK: bool> Side<LOOP_BACK> {
        pub fn new(slots: usize) -> Self {
            Self {
                registry: Registry::new(slots),
                places: Places::new(),
            }
        }

        /// Opens it anew, with no entry registered.
        pub fn open(&mut self, slots: usize) {
            self.registry = Registry::new(slots);
        }

        fn hand(&mut self, entry: u8, subject: u16) -> NonNull<Entry> {
            let subject = SubjectId::new(subject).expect("a subject");
            self.places.hand(entry, |buffer| {
                // Safety: the buffer lives as long as the entry
                unsafe { Entry::new(subject, buffer) }
            })
        }

        fn regular<T>(&self, f: impl FnOnce(&mut RegularInner) -> T) -> T {
            self.registry.regular.lock(|cell| f(&mut cell.borrow_mut()))
        }

        fn loop_back<T>(&self, f: impl FnOnce(&mut LoopBackInner) -> T) -> T {
            self.registry
                .loop_back
                .lock(|cell| f(&mut cell.borrow_mut()))
        }

        pub fn is_registered(&self, entry: u8) -> bool {
            self.places.is_registered(entry)
        }

        pub fn register(&mut self, entry: u8, subject: u16) -> Result<(), RegistrationError> {
            let handed = self.hand(entry, subject);
            let token = self.registry.register(handed, LOOP_BACK)?;
            self.places.keep(entry, token);
            Ok(())
        }

        pub fn unregister(&mut self, entry: u8) {
            let mut token = self.places.take(entry);
            self.registry.unregister(&mut token);
        }

        pub fn hub_push_start(&mut self, subject: u16) -> bool {
            let subject = SubjectId::new(subject).expect("a subject");
            if LOOP_BACK {
                self.loop_back(|inner| inner.hub_push_start(subject))
            } else {
                self.regular(|inner| inner.hub_push_start(subject))
            }
        }

        /// The entry that got the frame, and whether more follow.
        pub fn hub_push_next(&mut self) -> (Option<u8>, bool) {
            let frame = frame(DataSpecifier::Message(SubjectId::MAX), LOOP_BACK);
            let mtu = Mtu::Classic;
            self.places.reached(|| {
                if LOOP_BACK {
                    self.loop_back(|inner| inner.hub_push_next(&frame, mtu))
                } else {
                    self.regular(|inner| inner.hub_push_next(&frame, mtu))
                }
            })
        }

        /// How often `wake` was called.
        pub fn wakes(&self) -> u64 {
            self.regular(|inner| inner.filter_update_waker.wakes())
        }

        fn pointed_at(&self, pointer: *const Entry) -> Option<u8> {
            (!pointer.is_null()).then(|| self.places.number(pointer))
        }
    }

    impl LoopBack {
        /// A registry in the given state.
        pub fn of(state: &Tree) -> Self {
            let mut made = Self::new(0);
            for &(entry, subject) in &state.listed {
                made.register(entry, subject).expect("never refused");
            }
            if let Some(entry) = state.walk {
                let pointer = UnsafeRef::into_raw(made.places.element(entry));
                made.loop_back(|inner| inner.next_push_ptr = pointer);
            }
            made
        }

        pub fn state(&self) -> Tree {
            let listed = |entry: &Entry| (self.places.number(entry), entry.subject.into());
            self.loop_back(|inner| Tree {
                listed: inner.entry_tree.iter().map(listed).collect(),
                walk: self.pointed_at(inner.next_push_ptr),
            })
        }
    }

    impl Regular {
        pub fn poll_pop(&mut self) -> Option<FilterUpdate> {
            match self
                .registry
                .poll_pop(&mut Context::from_waker(Waker::noop()))
            {
                Poll::Ready(update) => Some(update),
                Poll::Pending => None,
            }
        }

        pub fn slots(&self) -> usize {
            self.regular(|inner| inner.free_slot_count)
        }

        fn see(&self, tree: &RBTree<RxTreeAdapter>) -> Vec<Seen> {
            let seen = |entry: &Entry| Seen {
                entry: self.places.number(entry),
                subject: entry.subject.into(),
                is_active: entry.is_active.get(),
                is_head: entry.is_head.get(),
                is_linked: entry.list_link.is_linked(),
            };
            tree.iter().map(seen).collect()
        }

        pub fn state(&self) -> State {
            let queue = |list: &LinkedList<RxListAdapter>| {
                list.iter().map(|entry| self.places.number(entry)).collect()
            };
            self.regular(|inner| State {
                active: self.see(&inner.active_entry_tree),
                inactive: self.see(&inner.inactive_entry_tree),
                clean_up: queue(&inner.clean_up_queue),
                activation: queue(&inner.activation_queue),
                last_gap: inner.clean_up_last,
                slots: inner.free_slot_count,
                walk: self.pointed_at(inner.next_push_ptr),
            })
        }

        /// Another registry in the same state, field by field.
        pub fn copied(&self) -> Self {
            let state = self.state();
            let mut copy = Self::new(state.slots);
            for seen in state.active.iter().chain(&state.inactive) {
                copy.place(*seen);
            }
            copy.regular(|inner| {
                for &entry in &state.clean_up {
                    inner.clean_up_queue.push_back(copy.places.element(entry));
                }
                for &entry in &state.activation {
                    inner.activation_queue.push_back(copy.places.element(entry));
                }
                inner.clean_up_last = state.last_gap;
                if let Some(entry) = state.walk {
                    inner.next_push_ptr = UnsafeRef::into_raw(copy.places.element(entry));
                }
            });
            copy
        }

        /// Puts an entry last into its tree.
        fn place(&mut self, seen: Seen) {
            let handed = self.hand(seen.entry, seen.subject);
            let element = self.places.element(seen.entry);
            element.is_active.set(seen.is_active);
            element.is_head.set(seen.is_head);
            self.regular(|inner| {
                let tree = if seen.is_active {
                    &mut inner.active_entry_tree
                } else {
                    &mut inner.inactive_entry_tree
                };
                tree.cursor_mut().insert_before(element);
            });
            let token = Token {
                inner: InnerToken(handed.as_ptr()),
                loop_back: false,
            };
            self.places.keep(seen.entry, token);
        }
    }
}
