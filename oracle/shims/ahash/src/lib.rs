//! Stands in for the crate `ahash`: the standard tables under its names.
//!
//! The original's answers don't depend on the order in which a table is walked, so any hasher will do.

pub type AHashMap<K, V> = std::collections::HashMap<K, V>;
pub type AHashSet<K> = std::collections::HashSet<K>;
