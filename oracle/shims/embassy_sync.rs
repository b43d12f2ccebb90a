//! Stands for the crate `embassy_sync`: a mutex that locks nothing, for one thread, and a waker
//! place that counts how often it was told to wake.

pub mod blocking_mutex {
    use core::marker::PhantomData;

    pub mod raw {
        /// Names the way of locking; there is none here.
        pub trait RawMutex {}

        pub struct NoopRawMutex;

        impl RawMutex for NoopRawMutex {}
    }

    pub struct Mutex<R, T> {
        raw: PhantomData<R>,
        data: T,
    }

    impl<R, T> Mutex<R, T> {
        pub const fn new(data: T) -> Self {
            Self {
                raw: PhantomData,
                data,
            }
        }

        pub fn lock<U>(&self, f: impl FnOnce(&T) -> U) -> U {
            f(&self.data)
        }
    }
}

pub mod waitqueue {
    use core::task::Waker;

    /// No waker is stored: document 01 counts a wake "waker stored or not".
    #[derive(Default)]
    pub struct WakerRegistration {
        wakes: u64,
    }

    impl WakerRegistration {
        pub const fn new() -> Self {
            Self { wakes: 0 }
        }

        pub fn register(&mut self, _waker: &Waker) {}

        pub fn wake(&mut self) {
            self.wakes += 1;
        }

        /// How often `wake` was called.
        pub fn wakes(&self) -> u64 {
            self.wakes
        }
    }
}
