// utils.rs, unchanged; its children are looked for beside the included file, in utils/.
include!("utils/unchanged.rs");

pub mod probe {
    pub use super::index_queue::probe::Keys;
    pub use super::multi_class_queue::MultiClassQueue;
    pub use super::multi_class_queue::probe::Links;

    use super::PriorityTrigger;
    use crate::core::PrioritySet;

    /// The private fields of a trigger.
    pub trait Trigger {
        fn filter(&mut self) -> &mut PrioritySet;

        /// How often `wake` was called of the waker.
        fn wakes(&self) -> u64;
    }

    impl Trigger for PriorityTrigger {
        fn filter(&mut self) -> &mut PrioritySet {
            &mut self.filter
        }

        fn wakes(&self) -> u64 {
            self.waker.wakes()
        }
    }
}
