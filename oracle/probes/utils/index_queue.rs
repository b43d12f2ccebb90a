include!("../upstream/utils/index_queue.rs");

pub mod probe {
    use super::IndexQueue;
    use crate::utils::multi_class_queue::probe::Links;

    /// The private fields of a key queue.
    pub trait Keys<K, V> {
        fn keys(&self) -> &[Option<K>];
        fn values(&self) -> &[Option<V>];
        fn index(&self) -> &[u8];
        fn links(&self) -> Vec<(u8, u8)>;
    }

    impl<K, V, const K_MAX: usize, const N: usize> Keys<K, V> for IndexQueue<K, V, K_MAX, N> {
        fn keys(&self) -> &[Option<K>] {
            &self.keys
        }

        fn values(&self) -> &[Option<V>] {
            &self.values
        }

        fn index(&self) -> &[u8] {
            &self.index
        }

        fn links(&self) -> Vec<(u8, u8)> {
            self.queue.links()
        }
    }
}
