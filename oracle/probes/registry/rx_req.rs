include!("../upstream/registry/rx_req.rs");

pub mod probe {
    use super::*;
    use crate::registry::probe::{Places, Tree, frame};
    use core::task::Waker;
    use embassy_sync::blocking_mutex::raw::NoopRawMutex;

    /// The registry of requests, call by call.
    pub struct Requests {
        // Dropped first: it unlinks the entries.
        registry: Registry<NoopRawMutex>,
        places: Box<Places<Entry, Token>>,
    }

    impl Requests {
        /// A registry in the given state.
        pub fn of(state: &Tree) -> Self {
            let mut made = Self {
                registry: Registry::default(),
                places: Places::new(),
            };
            for &(entry, service) in &state.listed {
                made.register(entry, service, false).expect("one of each");
            }
            made
        }

        /// Opens it anew, with no entry registered.
        pub fn open(&mut self) {
            self.registry = Registry::default();
        }

        /// Panics where `loop_back` is set.
        pub fn register(
            &mut self,
            entry: u8,
            service: u16,
            loop_back: bool,
        ) -> Result<(), RegistrationError> {
            let service = ServiceId::new(service).expect("a service");
            let handed = self.places.hand(entry, |buffer| {
                // Safety: the buffer lives as long as the entry
                unsafe { Entry::new(service, buffer) }
            });
            let token = self.registry.register(handed, loop_back)?;
            self.places.keep(entry, token);
            Ok(())
        }

        pub fn unregister(&mut self, entry: u8) {
            let mut token = self.places.take(entry);
            self.registry.unregister(&mut token);
        }

        /// The entry that got the frame.
        pub fn poll_push(&mut self, service: u16, loop_back: bool) -> Option<u8> {
            let service = ServiceId::new(service).expect("a service");
            let frame = frame(DataSpecifier::Request(service), loop_back);
            let mut cx = Context::from_waker(Waker::noop());
            let push = || self.registry.poll_push(&mut cx, &frame, Mtu::Classic);
            let (entry, polled) = self.places.reached(push);
            assert!(polled.is_ready());
            entry
        }

        pub fn state(&self) -> Tree {
            let listed = |entry: &Entry| (self.places.number(entry), entry.service.into());
            self.registry.0.lock(|cell| Tree {
                listed: cell.borrow().entry_tree.iter().map(listed).collect(),
                walk: None,
            })
        }
    }
}
