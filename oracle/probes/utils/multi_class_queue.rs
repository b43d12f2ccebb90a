include!("../upstream/utils/multi_class_queue.rs");

pub mod probe {
    use super::MultiClassQueue;

    /// The private links of a queue.
    pub trait Links {
        /// (next, prev) of every node, classes before entries.
        fn links(&self) -> Vec<(u8, u8)>;
    }

    impl<const C: usize, const E: usize> Links for MultiClassQueue<C, E> {
        fn links(&self) -> Vec<(u8, u8)> {
            self.nodes.nodes.iter().map(|n| (n.next, n.prev)).collect()
        }
    }
}
